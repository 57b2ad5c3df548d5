#!/usr/bin/env python3
"""Tries must-fail edits over built libraries, and prints for each whether it is refused, and the first goals.

Use: try_edits.py CRATE LIBS EDIT..    at the top of the repository; LIBS is a folder of .rlib files (see check_alone.sh), and an edit a
         file of crates/CRATE/must-fail, .edit or .md. Each is tried over what the ones before it proved.
     try_edits.py --turn N [LIBS]      N of the edits that `rt ci` does not try (must-fail/*.md of all crates), as the commit says that is
         checked out, so that each commit has its own; over what `rt ci` has left in crates/*/out/rlib, and as many at a time as there are
         processors. Before that it looks whether every .md applies; with N = 0, as in .ci/run, that is all.

The status is 1 where an edit is not refused or does not apply. What it says of a contract is in the goal that is printed: it has to be
one of the edited function's own contract, and no name that a proof file lacks.
"""
import glob
import os
import re
import shutil
import subprocess
import sys
import tempfile
from concurrent.futures import ThreadPoolExecutor

CHECK = f"{os.path.dirname(os.path.abspath(__file__))}/check_alone.sh"
# What a proof file says that names something which the edit took away, and what cites that proof.
NAMES = re.compile(r"(note: )?(\./)?proofs/.*(has no field|is not in scope|has no `|was not admitted)")
# A limit of the prover: it gave no verdict, which `rt ci` takes as refused.
LIMIT = re.compile(r"antt ran out of|outgrew the memory limit|stopped at the step limit")


def edited(edit):
    """The texts of the files that an edit changes, and why it does not apply, if it does not."""
    crate, path, old, texts = os.path.dirname(os.path.dirname(edit)), "", None, {}
    for line in open(edit, encoding="utf-8").read().split("\n"):
        if line.startswith("file: "):
            path = line[6:].strip()
        elif line.startswith("old: "):
            old = line[5:]
        elif line.startswith("new:"):
            if path not in texts and not os.path.isfile(f"{crate}/{path}"):
                return {}, f"there is no {path}"
            text = texts.get(path) or open(f"{crate}/{path}", encoding="utf-8").read()
            if not old or text.count(old) != 1:
                return {}, f"an old text stands {text.count(old) if old else 0} times in {path}"
            texts[path] = text.replace(old, line[4:].removeprefix(" "))
    return texts, "" if texts else "it changes nothing"


def judged(status, lines):
    """Whether an edit is refused, by the status of its check and the lines that it said, and a word on it."""
    if status == 1 and lines[-1].startswith("logic=not-proved"):
        goals = [it for it in lines if re.match(r"(note: )?\S+:\d+:\d+:", it) and (": error" in it or it.startswith("note: "))]
        only_names = goals and all(NAMES.match(it) for it in goals)
        return True, f"refused{', but only since a proof file names what the edit took away' if only_names else ''}", goals[:3]
    if status == 3 and any(LIMIT.search(it) for it in lines):
        return True, "refused, but only by a limit of the prover", [it for it in lines if LIMIT.search(it)][:1]
    return False, "NOT REFUSED" if status == 0 else f"NOT TRIED: its check ended with status {status}", lines[-3:] if status else []


def tried(room, edit, libs):
    """Prints what comes of an edit, which is tried in a folder, and returns whether it is refused."""
    folder = os.path.dirname(os.path.dirname(edit))
    texts, why = edited(edit)
    if why:
        print(f"{edit}: DOES NOT APPLY: {why}", flush=True)
        return False
    for part in ("src", "specs", "proofs"):
        shutil.rmtree(f"{room}/{folder}/{part}", ignore_errors=True)
        if os.path.isdir(f"{folder}/{part}"):
            shutil.copytree(f"{folder}/{part}", f"{room}/{folder}/{part}")
    shutil.copy("crates.txt", room)
    for path, text in texts.items():
        with open(f"{room}/{folder}/{path}", "w", encoding="utf-8") as file:
            file.write(text)
    words = ["bash", CHECK, "check", room, os.path.basename(folder), libs]
    ran = subprocess.run(words, stdout=subprocess.PIPE, stderr=subprocess.STDOUT, text=True)
    is_refused, word, goals = judged(ran.returncode, ran.stdout.rstrip().split("\n"))
    print("\n".join([f"{edit}: {word}", *[f"  {it[:300]}" for it in goals]]), flush=True)
    return is_refused


def in_turn(count, edits):
    """So many of the edits, each as far from the next as any, beginning where the number of the commit says."""
    commit = subprocess.run(["git", "rev-parse", "HEAD"], stdout=subprocess.PIPE, text=True, check=True).stdout
    return [edits[(int(commit, 16) + at * len(edits) // count) % len(edits)] for at in range(min(count, len(edits)))]


def take_turn(room, count, libs):
    """Whether all of the edits apply that `rt ci` does not try, and those are refused whose turn it is."""
    edits = sorted(glob.glob("crates/*/must-fail/*.md"))
    lost = [f"{edit}: DOES NOT APPLY: {why}" for edit in edits for _, why in [edited(edit)] if why]
    if not libs:
        libs = f"{room}/libs"
        os.mkdir(libs)
        for rlib in glob.glob("crates/*/out/rlib/*.rlib"):
            os.symlink(os.path.abspath(rlib), f"{libs}/{os.path.basename(rlib)}")
    turn = in_turn(count, edits) if count else []
    apply = f"of {len(edits)} must-fail edits that rt ci does not try, {len(edits) - len(lost)} apply"
    print(*lost, f"{apply}, and {len(turn)} are tried", sep="\n", flush=True)
    with ThreadPoolExecutor(len(os.sched_getaffinity(0))) as pool:
        refused = list(pool.map(lambda at: tried(f"{room}/{at}", turn[at], libs), range(len(turn))))
    return not lost and all(refused)


def main(words):
    room = tempfile.mkdtemp(prefix="edits-")
    try:
        if words[0] == "--turn":
            return take_turn(room, int(words[1]), os.path.abspath(words[2]) if len(words) > 2 else "")
        crate, libs, *edits = words
        return all([tried(room, f"crates/{crate}/must-fail/{edit}", os.path.abspath(libs)) for edit in edits])
    finally:
        shutil.rmtree(room, ignore_errors=True)


if __name__ == "__main__":
    if len(sys.argv) < (3 if sys.argv[1:2] == ["--turn"] else 4):
        sys.exit(__doc__)
    sys.exit(0 if main(sys.argv[1:]) else 1)
