#!/usr/bin/env python3
"""Names of goals, from what a check has kept, with no check run.

Use: goal_names.py crates/NAME/out FUNCTION..    each function's goals: those that are searched, and those that are answered
     goal_names.py crates/NAME/out               the functions with the most goals of drops (an exit while something owned is alive)

A function is written as in its proof folder, with points: `walk.Walker.item`.
"""
import glob
import json
import os
import sys


def exported(file):
    text = open(file, "rb").read().decode("utf8", "replace")
    begin = text.find('"exports":')
    end = text.find('],"globals"', begin)
    return [it["spelling"] for it in json.loads(text[begin + 10 : end + 1])] if begin >= 0 and end >= 0 else []


def proofs(out, function="*"):
    return glob.glob(f"{out}/incremental/antt*/Rattle-*-proofs.{function}.Proof.oantt")


def main(out, functions):
    for function in functions:
        for file in proofs(out, function):
            answers = file.replace(".Proof.oantt", ".Answers.oantt")
            answered = exported(answers) if os.path.exists(answers) else []
            searched = [it for it in exported(file) if it not in answered and not it.endswith("_spec")]
            print(f"{function}\n  searched: {' '.join(searched)}\n  answered: {' '.join(answered)}")
    if not functions:
        counted = [(sum(it.startswith("drop-requires") for it in exported(file)), file) for file in proofs(out)]
        for count, file in sorted(counted, reverse=True)[:30]:
            if count:
                print(f"{count:5} {os.path.basename(file).partition('-proofs.')[2][:-12]}")


if __name__ == "__main__":
    if len(sys.argv) < 2 or sys.argv[1].startswith("-"):
        sys.exit(__doc__)
    main(sys.argv[1], sys.argv[2:])
