#!/usr/bin/env python3
"""Imports each design of this folder and of `refused`, and compares what is printed with the files NAME.out and NAME.err.

    run.py [SVTV]     with a program of svtv each text is read by it, too
    run.py --write    writes the files anew
"""
from __future__ import annotations

import subprocess
import sys
import tempfile
from pathlib import Path

HERE = Path(__file__).resolve().parent
IMPORTER = HERE.parent.parent.parent / "svtv-import"
OPTIONS = {"names.v": ["--verilog"], "initial.v": ["--phases", "3"], "pads.sv": ["--top", "pads"]}


def check(source: Path, write: bool, svtv: str | None) -> str:
    """What is wrong with a design, or nothing."""
    done = subprocess.run([IMPORTER, source.name, *OPTIONS.get(source.name, [])], cwd=source.parent, capture_output=True, text=True)
    wanted = {source.with_suffix(".out"): done.stdout, source.with_suffix(".err"): done.stderr}
    if write:
        for path, text in wanted.items():
            path.unlink(missing_ok=True)
            if text:
                path.write_text(text)
    if (done.returncode == 0) == (source.parent.name == "refused"):
        return f"exit code {done.returncode}"
    for path, text in wanted.items():
        if text != (path.read_text() if path.exists() else ""):
            return f"not as in {path.name}"
    if svtv and done.returncode == 0:
        read = subprocess.run([svtv, "dump", source.with_suffix(".out")], capture_output=True, text=True)
        return read.stderr.strip()
    return ""


def check_rows() -> str:
    """What is wrong with the rows that are written to a file, or nothing."""
    with tempfile.TemporaryDirectory() as folder:
        rows = Path(folder, "rows.csv")
        subprocess.run([IMPORTER, "initial.v", "--phases", "3", "--rows", rows], cwd=HERE, capture_output=True)
        shown = [line[5:] for line in (HERE / "initial.out").read_text().splitlines() if line.startswith("//   over,")]
        return "" if rows.exists() and rows.read_text().splitlines() == shown else "rows.csv: not as in initial.out"


def main() -> int:
    write = sys.argv[1:] == ["--write"]
    svtv = sys.argv[1] if sys.argv[1:] and not write else None
    sources = sorted(path for path in [*HERE.iterdir(), *(HERE / "refused").iterdir()] if path.suffix in (".v", ".sv", ".il"))
    wrong = {source: check(source, write, svtv) for source in sources}
    for source, text in wrong.items():
        if text:
            print(f"{source.relative_to(HERE)}: {text}")
    rows = check_rows()
    if rows:
        print(rows)
    print(f"{sum(not text for text in wrong.values())} of {len(sources)} designs as they should be")
    return int(any(wrong.values()) or bool(rows))


if __name__ == "__main__":
    sys.exit(main())
