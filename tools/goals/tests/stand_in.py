#!/usr/bin/env python3
"""A stand-in for svtv: its goals do what their names say, and whatever else a goal says it is proved.

A goal whose name begins with `late` takes a minute, `slow` a part of a second, `memory` ends for want of memory, `killed` by a signal, `wide` is
refused behind all goals, `odd` ends with a status that svtv does not have, and `failed` fails. A second goal of one name is refused. Names are
written to the file that STAND_IN_LOG names as their turn comes, and a goal with `1'b0` is vacuous and does nothing.
"""

import os
import re
import signal
import sys
import time


def place(text, at):
    line = text.count("\n", 0, at) + 1
    return f"{line}:{at - (text.rfind(chr(10), 0, at) + 1) + 1}"


def refuse(status, line):
    print(line, file=sys.stderr, flush=True)
    sys.exit(status)


def verdict(name, body):
    if "1'b0" in body:
        return "vacuous"
    if log := os.environ.get("STAND_IN_LOG"):
        with open(log, "a") as file:
            file.write(f"{name}\n")
    if name.startswith("late"):
        time.sleep(60)
    if name.startswith("slow"):
        time.sleep(0.3)
    if name.startswith("memory"):
        refuse(6, "svtv: out of memory")
    if name.startswith("odd"):
        refuse(9, "what is this")
    if name.startswith("wide"):
        refuse(3, "d.sv:1:1: E39 LoopTooWide 2000")
    if name.startswith("killed"):
        os.kill(os.getpid(), signal.SIGKILL)
    return "failed\n  sample s = 1'bx" if name.startswith("failed") else "proved"


def main(words):
    files = [word for word in words[1:] if not word.startswith("--")]
    if words[:1] != ["prove"] or len(files) != 3:
        refuse(2, "usage: svtv")
    for name in files:
        if not os.path.exists(name):
            refuse(4, f"{name}:1:1: read fault")
    with open(files[2]) as file:
        text = file.read()
    goals = list(re.finditer(r"goal\s+(\w+)\s*\{(.*?)\}", text, re.DOTALL))
    names = [goal[1] for goal in goals]
    for number, goal in enumerate(goals):
        if goal[1] in names[:number]:
            refuse(3, f"{files[2]}:{place(text, goal.start(1))}: E34 GoalTwice")
    told = [f"{goal[1]}: {verdict(goal[1], goal[2])}\n" for goal in goals]
    print("".join(told), end="", flush=True)
    return int(any(": proved" not in it for it in told))


if __name__ == "__main__":
    sys.exit(main(sys.argv[1:]))
