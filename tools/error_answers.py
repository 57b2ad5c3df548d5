#!/usr/bin/env python3
"""Answers for the goals of error exits, which are else searched: where a clause is `IfOk` or `OnOk`, an error makes it true whatever it says.

Use: error_answers.py crates/NAME [LEAST]      after a check: functions with at least so many of these goals (4) get an answer for each

Where a function calls much by `?` these goals are most of its search: a cycle of 13 seconds of proof came to 1.5. Only goals that the check
has searched and proved are answered, so what stood stays. A clause of errors (`IfErr`) is left to the search, as is what is no `?`.
"""
import glob
import os
import re
import sys

sys.path.insert(0, os.path.dirname(os.path.abspath(__file__)))
from goal_names import exported, proofs

EXIT = re.compile(r"(?:(\w+)-)?returns-in_err-(.*?)(?:-clause-(\w+))?$")


def sources(crate):
    """Of each function by its name: whether it is generic, and the names of its clauses on what is right ('' without a name)."""
    found = {}
    for file in glob.glob(f"{crate}/src/**/*.rt", recursive=True):
        text = open(file).read()
        for it in re.finditer(r"\bfn (\w+)(<[^(]*>)?\(", text):
            head = text[it.end() :].split("\n{\n")[0].split("{\n        ")[0]
            clauses = re.findall(r"ensures (?:(\w+) )?\{ (?:IfOk|OnOk) ", head)
            found.setdefault(it[1], []).append((bool(it[2] and re.search(r"[A-Z]\w*:", it[2])), {name or "" for name in clauses}))
    return {name: it[0] for name, it in found.items() if len(it) == 1}


def answers(searched, functions, function, cycle):
    refs = {it.replace("from_residual-requires", "", 1) for it in searched if "from_residual-requires" in it}
    lines = []
    for goal in searched:
        it = EXIT.fullmatch(goal)
        if not it or (it[1] and not cycle):
            continue
        generic, clauses = functions.get(it[1] or function.lstrip("+"), (False, set()))
        if (it[3] or "") not in clauses:
            continue
        first = f"{it[1]}-" if it[1] else ""
        own = f"{first}-in_err-{it[2]}"
        ref = f"c.from_residual-in_err-{it[2]}" if own in refs else "c.from_residual" if first in refs else None
        if ref:
            given = " ".join(["g"] * generic + ["t"] * cycle + ["c"])
            lines.append(f"pub {goal} : goal.{goal}\n{goal} {given} = IfOk-from_err _ _ {ref}.ensures.0\n")
    return lines


def main(crate, least):
    name, functions = os.path.basename(crate), sources(crate)
    for file in proofs(f"{crate}/out"):
        path = os.path.basename(file).partition("-proofs.")[2][: -len(".Proof.oantt")]
        last, at = path.split(".")[-1], file.replace(".Proof.oantt", ".Answers.oantt")
        answered = exported(at) if os.path.exists(at) else []
        lines = answers([it for it in exported(file) if it not in answered], functions, last, last.startswith("+"))
        if len(lines) < least:
            continue
        place = f"{crate}/proofs/{path.replace('.', '/')}/Answers.antt"
        text = open(place).read() if os.path.exists(place) else f"use Rattle.{name}.proofs.{path}.Goals as goal\n"
        lemmas = re.search(r"use Rattle\.std\.proofs\.lemmas\.Result\.\{(.*)\}", text)
        if not lemmas:
            text = "use Rattle.std.proofs.lemmas.Result.{IfOk-from_err}\n" + text
        elif "IfOk-from_err" not in lemmas[1]:
            text = text.replace(lemmas[0], lemmas[0][:-1] + ", IfOk-from_err}")
        os.makedirs(os.path.dirname(place), exist_ok=True)
        with open(place, "w") as out:
            out.write("\n".join([text, *lines]))
        print(f"{path}: {len(lines)}")


if __name__ == "__main__":
    main(sys.argv[1].rstrip("/"), int(sys.argv[2]) if len(sys.argv) > 2 else 4)
