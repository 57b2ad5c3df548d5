"""Measures `svtv-goals` beside one call of `svtv prove`: 64 goals of about a second each, on all processors of this machine.

The goals are those of a product over a sum of 6 bits, each for all but one value of `a`. Prints the seconds that went by and the processor
seconds of both, the ratio, how many processors there are, and the load before each call, since times on a loaded machine tell little. Both
have to print the same. SVTV names the program; a word gives another number of goals.
"""

import os
import pathlib
import resource
import subprocess
import sys
import tempfile
import time

import prove_designs

TOP = pathlib.Path(__file__).resolve().parent.parent
WIDTH = 6


def write_files(folder, count):
    """The files of so many goals, at most 64."""
    run = prove_designs.distributed(WIDTH)
    claims = run.goals[0].claims
    goals = [prove_designs.Goal("without_%d" % value, claims, ["a != %d'd%d" % (WIDTH, value)]) for value in range(count)]
    (folder / "d.sv").write_text(run.design)
    (folder / "t.csv").write_text(run.table())
    (folder / "g.txt").write_text("".join(goal.text() for goal in goals))


def measured(words, folder):
    """What a command prints, and the seconds that it takes, on the clock and of processors."""
    load = os.getloadavg()[0]
    before, begun = resource.getrusage(resource.RUSAGE_CHILDREN), time.monotonic()
    ran = subprocess.run(words, cwd=folder, stdin=subprocess.DEVNULL, stdout=subprocess.PIPE, check=False)
    gone, after = time.monotonic() - begun, resource.getrusage(resource.RUSAGE_CHILDREN)
    used = after.ru_utime + after.ru_stime - before.ru_utime - before.ru_stime
    print("%-12s %8.1f s  %8.1f processor s  load %5.2f  status %d" % (pathlib.Path(words[0]).name, gone, used, load, ran.returncode), flush=True)
    return ran.stdout, gone


def main(words):
    program = os.path.abspath(os.environ.get("SVTV") or TOP / "svtv")
    os.environ["SVTV"] = program
    with tempfile.TemporaryDirectory() as room:
        folder = pathlib.Path(room)
        write_files(folder, int(words[0]) if words else 64)
        files = ["d.sv", "t.csv", "g.txt"]
        whole, one = measured([program, "prove", *files], folder)
        parts, many = measured([str(TOP / "svtv-goals"), *files], folder)
    print("%.2f of the time, on %d processors" % (many / one, len(os.sched_getaffinity(0))))
    return 0 if whole == parts else "the outputs differ"


if __name__ == "__main__":
    sys.exit(main(sys.argv[1:]))
