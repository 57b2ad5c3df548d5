#!/usr/bin/env python3
"""Runs the commands that documents show behind `$`, and compares what they print with what is shown: manual_examples.py [DOCUMENT ..]

Without words these are docs/MANUAL.md and README.md. SVTV names the program, for `./svtv` and `./svtv-try`; without it `./svtv` is run,
which may build it first. The commands of a document are run one after the other, in a folder that looks like the repository's and is
removed. Commands of svtv-goals are passed over where GNU parallel is not installed.
"""
import os
import re
import shutil
import subprocess
import sys
import tempfile
from pathlib import Path

TOP = Path(__file__).resolve().parent.parent


def commands(text):
    """The commands of a document, each with the number of its line and what is shown behind it."""
    for block in re.finditer(r"(?m)(?:^    .*\n)+", text):
        line, lines = text.count("\n", 0, block.start()) + 1, block[0].splitlines()
        starts = [at for at, it in enumerate(lines) if it.startswith("    $ ")]
        for at, end in zip(starts, [*starts[1:], len(lines)]):
            yield line + at, lines[at][6:], "".join(f"{it[4:]}\n" for it in lines[at + 1 : end])


def differences(document, room):
    """What differs, told as text, and how many commands were run."""
    found, count = [], 0
    for line, command, shown in commands(document.read_text()):
        if "svtv-goals" in command and not shutil.which("parallel"):
            continue
        count += 1
        ran = subprocess.run(["sh", "-c", command], cwd=room, stdin=subprocess.DEVNULL, capture_output=True, text=True)
        if ran.stdout != shown:
            found.append(f"{document.name}:{line}: {command}\nprints\n{ran.stdout}{ran.stderr}and not\n{shown}")
    return found, count


def main(names):
    bad = 0
    program = os.environ["SVTV"] = os.path.abspath(os.environ.get("SVTV") or TOP / "svtv")
    for name in names or ["docs/MANUAL.md", "README.md"]:
        with tempfile.TemporaryDirectory() as room:
            for it in ("examples", "docs", "svtv-goals"):
                os.symlink(TOP / it, f"{room}/{it}")
            for it in ("svtv", "svtv-try"):
                script = Path(room, it)
                script.write_text(f'#!/bin/sh\nexec "{program}" "$@"\n')
                script.chmod(0o755)
            found, count = differences(Path(TOP, name), room)
        print(*found, f"{name}: {count} commands, {len(found)} differ", sep="\n")
        bad += len(found)
    return 1 if bad else 0


if __name__ == "__main__":
    sys.exit(main(sys.argv[1:]))
