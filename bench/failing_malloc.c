/* A library to be loaded before a program: the request for memory with the number FAIL_AT fails, or all from FAIL_FROM on.
   Requests are counted from 1, from the start of main on; where COUNT names a file, their number is written to it at the end. */
#define _GNU_SOURCE
#include <dlfcn.h>
#include <errno.h>
#include <fcntl.h>
#include <stdio.h>
#include <stdlib.h>
#include <string.h>
#include <unistd.h>

static void *(*next_malloc)(size_t), *(*next_realloc)(void *, size_t), *(*next_calloc)(size_t, size_t);
static unsigned long requests, fail_at, fail_from;
static int counts;

__attribute__((constructor)) static void begin(void) {
    const char *at = getenv("FAIL_AT"), *from = getenv("FAIL_FROM");
    next_malloc = dlsym(RTLD_NEXT, "malloc");
    next_realloc = dlsym(RTLD_NEXT, "realloc");
    next_calloc = dlsym(RTLD_NEXT, "calloc");
    fail_at = at ? strtoul(at, 0, 10) : 0;
    fail_from = from ? strtoul(from, 0, 10) : 0;
    counts = 1;
}

__attribute__((destructor)) static void end(void) {
    const char *path = getenv("COUNT");
    char text[32];
    counts = 0;
    if (path) {
        int file = open(path, O_WRONLY | O_CREAT | O_TRUNC, 0600);
        int length = snprintf(text, sizeof text, "%lu\n", requests);
        if (file >= 0 && write(file, text, length) < 0) {}
    }
}

static int fails(void) {
    if (!counts) return 0;
    requests++;
    if (requests == fail_at || (fail_from && requests >= fail_from)) {
        errno = ENOMEM;
        return 1;
    }
    return 0;
}

/* Memory before the constructor ran: a few small pieces that are never given back. */
static char early[1 << 16];
static size_t used;

static void *early_piece(size_t size) {
    void *piece = early + used;
    used += (size + 15) & ~(size_t)15;
    return used > sizeof early ? 0 : piece;
}

void *malloc(size_t size) {
    if (fails()) return 0;
    return next_malloc ? next_malloc(size) : early_piece(size);
}

void *calloc(size_t count, size_t size) {
    if (fails()) return 0;
    return next_calloc ? next_calloc(count, size) : early_piece(count * size);
}

void *realloc(void *old, size_t size) {
    if (fails()) return 0;
    return next_realloc ? next_realloc(old, size) : 0;
}
