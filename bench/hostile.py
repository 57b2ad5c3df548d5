"""Runs a program of svtv on files that are meant to keep it busy (hostile_files.py), each kind at some sizes, and prints what it took.

Of each kind: processor seconds at each size with those of the system, how they grew from the first size to the last as a power of the
size (1 where it is linear; only where a run took a tenth of a second), the greatest memory, the status of the last run and the first
line that it printed. At the end stand the kinds that ended by a signal, that took too long or too much memory, whose answer has not the
form that the manual gives, and those that grew faster than by the power 1.3.

Words choose the kinds whose name begins with one of them; none: all. From the environment: SVTV is the program, SIZES the sizes in
bytes (4194304 8388608 16777216), LIMIT the processor seconds of one run (120), MEMORY the bytes that one may have in use (4 GiB),
STACK the bytes of the stack (8 MiB).
"""

import math
import os
import resource
import subprocess
import sys
import tempfile
import time

import answers
import hostile_files

PROGRAM = os.path.abspath(os.environ.get("SVTV", "./svtv"))
SIZES = [int(size) for size in os.environ.get("SIZES", "4194304 8388608 16777216").split()]
LIMIT = int(os.environ.get("LIMIT", "120"))
MEMORY = int(os.environ.get("MEMORY", str(4 << 30)))
STACK = int(os.environ.get("STACK", str(8 << 20)))
PAGE = os.sysconf("SC_PAGE_SIZE")


def limited():
    resource.setrlimit(resource.RLIMIT_CPU, (LIMIT, LIMIT + 1))
    resource.setrlimit(resource.RLIMIT_STACK, (STACK, STACK))
    resource.setrlimit(resource.RLIMIT_CORE, (0, 0))


def in_use(process):
    try:
        with open("/proc/%d/statm" % process.pid) as file:
            return int(file.read().split()[1]) * PAGE
    except (OSError, IndexError):
        return 0


def run(case):
    """Seconds, the greatest memory, the status ('memory' where it took too much), and both texts of a case."""
    with tempfile.TemporaryDirectory() as room, tempfile.TemporaryFile() as out, tempfile.TemporaryFile() as err:
        for name, text in case.files.items():
            with open(os.path.join(room, name), "wb") as file:
                file.write(text)
        process = subprocess.Popen([PROGRAM, *case.words], cwd=room, stdin=subprocess.DEVNULL, stdout=out, stderr=err, preexec_fn=limited)
        most, stopped = 0, False
        while True:
            ended, status, usage = os.wait4(process.pid, os.WNOHANG)
            if ended:
                break
            most = max(most, in_use(process))
            if most > MEMORY:
                stopped = True
                process.kill()
            time.sleep(0.02)
        process.returncode = os.waitstatus_to_exitcode(status)
        out.seek(0)
        err.seek(0)
        status = "memory" if stopped else process.returncode
        return usage.ru_utime + usage.ru_stime, max(most, usage.ru_maxrss * 1024), status, out.read(), err.read()


def power(took):
    """By which power of the size the seconds grew, or nothing where they are too few to say."""
    if took[-1][1] < 0.1 or len(took) < 2:
        return None
    return math.log(took[-1][1] / max(took[0][1], 0.01)) / math.log(took[-1][0] / took[0][0])


def measure(name, make):
    """Prints the line of a kind, and answers what is wrong with it."""
    took, most, fault = [], 0, None
    for size in SIZES:
        case = make(size)
        seconds, memory, status, out, err = run(case)
        took.append((size, seconds))
        most = max(most, memory)
        fault = fault or answers.fault(case.words, status, out, err)
        if status == "memory" or seconds > 0.95 * LIMIT:
            break
    grew = power(took)
    told = (err or out).split(b"\n")[0][:60].decode("latin1")
    seconds = " ".join("%8.2f" % each for _, each in took) + " " * 9 * (len(SIZES) - len(took))
    print("%-40s %s %6s %8.0f MB  %s  %s" % (name, seconds, "" if grew is None else "%.2f" % grew, most / 1e6, status, told), flush=True)
    if fault:
        return fault
    return "grew by the power %.2f" % grew if grew is not None and grew > 1.3 else None


def main(words):
    wrong = []
    print("%-40s %s" % ("kind", " ".join("%8d" % size for size in SIZES)))
    for name, make in hostile_files.KINDS.items():
        if not words or any(name.startswith(word) for word in words):
            fault = measure(name, make)
            if fault:
                wrong.append("%s: %s" % (name, fault))
    print("%d kinds stand out" % len(wrong))
    for line in wrong:
        print(line)


if __name__ == "__main__":
    main(sys.argv[1:])
