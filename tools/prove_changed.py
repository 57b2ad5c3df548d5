#!/usr/bin/env python3
"""Proves and builds what has changed since another checkout was proved, and what stands on it: prove_changed.py BASE LIBS LANES [CRATE..]

BASE is a checkout in which a gate ran, or was ended in the middle: the libraries that it built lie in its crates/*/out/rlib. LIBS is a
folder for libraries. A library whose sources, definitions, proofs and libraries are those of BASE is taken from there by links; each
other one is built by check_alone.sh, LANES at a time, those first on which the longest chain of others waits. CRATE.. are the only ones
to be built. What was built is not built again by a later call, while nothing below it was. Logs lie in LIBS/logs.

Programs are left out (link_program.sh makes one). What it says is no verdict: the gate's own run is.
"""
import os
import subprocess
import sys
import time
from concurrent.futures import FIRST_COMPLETED, ThreadPoolExecutor, wait

TOP = os.path.dirname(os.path.dirname(os.path.abspath(__file__)))
PARTS = ("src", "specs", "proofs")


def crates(top):
    """The libraries that each crate stands on."""
    found = {}
    with open(f"{top}/crates.txt") as lines:
        for line in lines:
            name, colon, below = line.partition("#")[0].partition(":")
            if colon:
                found[name.split()[0]] = below.split()
    return found


def texts(top, crate):
    found = {}
    for part in PARTS:
        for folder, _, files in os.walk(f"{top}/crates/{crate}/{part}"):
            for file in files:
                path = f"{folder}/{file}"
                with open(path, "rb") as text:
                    found[os.path.relpath(path, f"{top}/crates/{crate}")] = text.read()
    return found


def main(base, libs, lanes, only):
    now, before = crates(TOP), crates(base)
    libs = os.path.abspath(libs)
    os.makedirs(f"{libs}/logs", exist_ok=True)
    programs = {it for it in now if os.path.exists(f"{TOP}/crates/{it}/src/main.rt")}
    read = {it: texts(TOP, it) for it in now}
    lines = {it: sum(text.count(b"\n") for text in read[it].values()) for it in now}
    known = {}

    def has_changed(crate):
        if crate not in known:
            built = os.path.isdir(f"{base}/crates/{crate}/out/rlib/{crate}.rlib")
            same = built and before.get(crate) == now[crate] and texts(base, crate) == read[crate]
            known[crate] = not same or any([has_changed(it) for it in now[crate] if it in now])
        return known[crate]

    todo = [it for it in now if it not in programs and has_changed(it) and (not only or it in only)]
    for crate in now:
        if crate not in programs and not has_changed(crate) and not os.path.isdir(f"{libs}/{crate}.rlib"):
            subprocess.run(["cp", "-al", f"{base}/crates/{crate}/out/rlib/{crate}.rlib", f"{libs}/"], check=True)
    print(f"{len(todo)} to build: {' '.join(todo)}", flush=True)

    def mark(crate):
        return f"{libs}/{crate}.built"

    def is_built(crate):
        if not os.path.exists(mark(crate)) or not os.path.isdir(f"{libs}/{crate}.rlib"):
            return False
        at = os.path.getmtime(mark(crate))
        return all(os.path.getmtime(mark(it)) <= at for it in now[crate] if os.path.exists(mark(it)))

    def build(crate):
        began = time.time()
        if is_built(crate):
            return crate, 0, 0.0
        with open(f"{libs}/logs/{crate}", "w") as log:
            words = ["bash", f"{TOP}/tools/check_alone.sh", "build", TOP, crate, libs]
            status = subprocess.run(words, stdout=log, stderr=subprocess.STDOUT).returncode
        if not status:
            with open(mark(crate), "w"):
                pass
        return crate, status, time.time() - began

    def chain(crate, seen):
        if crate not in seen:
            seen[crate] = lines[crate] + max([chain(it, seen) for it in todo if crate in now[it]], default=0)
        return seen[crate]

    seen = {}
    left = sorted(todo, key=lambda it: -chain(it, seen))
    well, failed, running = set(), set(), set()
    with ThreadPoolExecutor(lanes) as pool:
        while left or running:
            for crate in [it for it in left if any(below in failed for below in now[it])]:
                left.remove(crate)
                failed.add(crate)
                print(f"{crate}: not built, since one below it failed", flush=True)
            for crate in [it for it in left if all(below not in todo or below in well for below in now[it])]:
                if len(running) < lanes:
                    left.remove(crate)
                    running.add(pool.submit(build, crate))
            if not running:
                break
            ended, running = wait(running, return_when=FIRST_COMPLETED)
            for it in ended:
                crate, status, seconds = it.result()
                (failed if status else well).add(crate)
                print(f"{crate}: {'FAILED' if status else 'built'} ({seconds:.0f} s)", flush=True)
    print(f"{len(well)} built, {len(failed)} failed{''.join(f' {it}' for it in sorted(failed))}")
    return 1 if failed else 0


if __name__ == "__main__":
    if len(sys.argv) < 4 or not sys.argv[3].isdigit():
        print(__doc__, file=sys.stderr)
        sys.exit(2)
    sys.exit(main(sys.argv[1], sys.argv[2], int(sys.argv[3]), sys.argv[4:]))
