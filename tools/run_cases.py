#!/usr/bin/env python3
"""Runs cases of the whole tool by a program that is built, for trying them while a change is not proved yet (unproved_binary.sh).

Use: SVTV=PROGRAM run_cases.py crates/svtv_cases/data/NAME.cases ..

How a case is written is told at the head of crates/svtv_cases/src/main.rt. Cases with faults of reading or writing are passed over,
since the files here are real ones.
"""
import os
import subprocess
import sys
import tempfile

STATUS = {"AllProved": 0, "Done": 0, "NotAll": 1, "Usage": 2, "Refused": 3, "ReadFault": 4, "WriteFault": 5, "Memory": 6}


def cases(path):
    """The cases of a file: each with its name, words, files, texts, status, and whether a fault is asked for."""
    case = {"words": ["prove", "d.sv", "t.csv", "g.txt"], "files": {}, "out": b"", "err": b"", "status": "AllProved", "faults": {}}
    begun, texts, key = False, None, None
    for number, line in enumerate(open(path, "rb").read().split(b"\n"), 1):
        if line[:1] in (b"|", b"\\"):
            texts[key] += line[2:] if line[1:2] == b" " else line[1:]
            texts[key] += b"\n" if line[:1] == b"|" else b""
            continue
        if not line or line[:1] == b"#":
            continue
        word, _, rest = line.decode("latin1").partition(" ")
        if word == "repeat":
            times, _, text = rest.partition(" ")
            texts[key] += text.encode("latin1") * int(times)
            continue
        if word == "case":
            if begun:
                yield case
            begun = True
            case = dict(case, name=rest, files=dict(case["files"]), faults=dict(case["faults"]))
        elif word == "words":
            case["words"] = rest.split(" ") if rest else []
        elif word == "file":
            texts, key = case["files"], rest
            texts[key] = b""
        elif word in ("out", "err"):
            texts, key = case, word
            texts[key] = b""
        elif word == "status" and rest in STATUS:
            case["status"] = rest
        elif word == "gone":
            case["files"].pop(rest, None)
        elif word in ("read", "write", "message"):
            case["faults"][word] = int(rest)
        elif word != "most":
            sys.exit(f"{path}:{number}: no line of a case")
    if begun:
        yield case


def differences(case):
    with tempfile.TemporaryDirectory() as room:
        for name, text in case["files"].items():
            os.makedirs(os.path.dirname(f"{room}/{name}"), exist_ok=True)
            with open(f"{room}/{name}", "wb") as file:
                file.write(text)
        ran = subprocess.run([os.environ["SVTV"], *case["words"]], cwd=room, capture_output=True)
    found = [("status", ran.returncode, STATUS[case["status"]]), ("out", ran.stdout, case["out"]), ("err", ran.stderr, case["err"])]
    return [f"{what} is\n  {came!r}\n and should be\n  {wanted!r}" for what, came, wanted in found if came != wanted]


def main(paths):
    bad = 0
    for path in paths:
        count = 0
        for case in cases(path):
            count += 1
            if any(case["faults"].values()):
                print(f"{path}: {case['name']}: passed over")
                continue
            for told in differences(case):
                bad += 1
                print(f"{path}: {case['name']}: {told}")
        print(f"{path}: {count} cases")
    return bad > 0


if __name__ == "__main__":
    if len(sys.argv) < 2 or "SVTV" not in os.environ:
        sys.exit(__doc__)
    sys.exit(main(sys.argv[1:]))
