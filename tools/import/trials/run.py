#!/usr/bin/env python3
"""Tries all designs of designs.txt: imports them, has svtv read the text, and simulates source and text side by side.

    run.py SOURCES SVTV [--phases N] [--jobs N] [--group G] [--out FILE]

SOURCES is the folder into which ../fetch.py unpacked the packages. A line is printed for each group, and one for each design that
is refused or that differs; --out has a record of CSV for each design.
"""
from __future__ import annotations

import argparse
import csv
import json
import os
import re
import shutil
import subprocess
import sys
from collections import Counter
from concurrent.futures import ThreadPoolExecutor
from dataclasses import dataclass
from pathlib import Path
from typing import Any, Iterator

HERE = Path(__file__).resolve().parent
MODELS = Path(shutil.which("yosys") or "/usr/bin/yosys").resolve().parent.parent / "share" / "yosys"


@dataclass(frozen=True)
class Line:
    """A design: its package, its group, and the words of the importer, in the folder of its first file."""
    package: str
    group: str
    folder: Path
    words: list[str]

    @property
    def name(self) -> str:
        return f"{self.package}: {' '.join(self.words)}"


def lines(sources: Path) -> Iterator[Line]:
    for text in (HERE / "designs.txt").read_text().splitlines():
        if not text or text.startswith("#"):
            continue
        package, group, *words = text.split()
        each = words[0] == "each"
        for path in sorted(path for path in (sources / package).glob(words[each]) if not re.search("_tb|_bad", path.name)):
            rest = [str(MODELS / word[1:]) if word.startswith("+") else word for word in words[each + 1:]]
            rest = [os.path.relpath(sources / package / word, path.parent) if (sources / package / word).is_file() else word for word in rest]
            tops = re.findall(r"^\s*module\s+(\w+)", path.read_text(errors="replace"), re.M) if each else []
            for top in tops if len(tops) > 1 else [""]:
                yield Line(package, group, path.parent, [path.name, *rest, *(["--top", top] if top else [])])


def try_one(line: Line, svtv: str, phases: int) -> dict[str, Any]:
    """What became of a design; it is read as Verilog 2005 where it is not read otherwise."""
    for more in ([], ["--verilog"]):
        command = [sys.executable, HERE / "trial.py", *line.words, *more, "--json", "--svtv", svtv, "--phases", str(phases)]
        try:
            done = subprocess.run(command, cwd=line.folder, capture_output=True, text=True, timeout=600)
        except subprocess.TimeoutExpired:
            return {"status": "not read", "why": "it takes too long"}
        if done.returncode:
            return {"status": "failed", "why": done.stderr.strip()[-300:]}
        found = json.loads(done.stdout)
        if found["status"] != "not read":
            break
    return found


def summary(found: list[dict[str, Any]]) -> str:
    """The counts of a group."""
    states = Counter(each["status"] for each in found)
    read = [each for each in found if each["status"] != "not read"]
    seen = [each for each in read if each.get("counts")]
    clean = [each for each in seen if not each["made"]]
    bits: Counter[str] = Counter()
    for each in clean:
        for counts in each["counts"].values():
            bits.update(counts)
    return (f"{len(found)} designs, {len(read)} read by yosys ({sum(each['lines'] for each in read)} lines), {dict(states)}, "
            f"{len(seen)} simulated, {len(seen) - len(clean)} of them with a clock of their own, bits of the others {dict(bits)}, "
            f"different in {sum(bool(each['different']) for each in clean)}, and in {sum(bool(each['different']) for each in seen if each['made'])} "
            "with a clock of their own")


def main() -> int:
    parser = argparse.ArgumentParser()
    parser.add_argument("sources", type=Path)
    parser.add_argument("svtv")
    parser.add_argument("--phases", type=int, default=400)
    parser.add_argument("--jobs", type=int, default=2)
    parser.add_argument("--group")
    parser.add_argument("--out", type=Path)
    words = parser.parse_args()
    tried = [line for line in lines(words.sources.resolve()) if words.group in (None, line.group)]
    with ThreadPoolExecutor(words.jobs) as pool:
        found = list(pool.map(lambda line: try_one(line, words.svtv, words.phases), tried))
    for line, each in zip(tried, found):
        if each["status"] in ("refused", "not accepted", "failed") or each.get("different"):
            print(f"{line.name}: {each['status']} {each['why']} {each.get('different', '')}{' (a clock is made)' if each.get('made') else ''}")
    for group in dict.fromkeys(line.group for line in tried):
        print(f"{group}: {summary([each for line, each in zip(tried, found) if line.group == group])}")
    if words.out:
        with words.out.open("w", newline="") as out:
            rows = csv.writer(out)
            for line, each in zip(tried, found):
                rows.writerow([line.group, line.name, *(json.dumps(each.get(key)) for key in
                                                        ("status", "why", "made", "lines", "text", "counts", "different", "unseen"))])
    return 0


if __name__ == "__main__":
    sys.exit(main())
