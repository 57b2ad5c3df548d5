"""Prints a design in wide Verilog or SystemVerilog as text of svtv's subset; docs/IMPORT.md tells what it keeps.

yosys reads the files and makes cells of them, and an assignment or a block is printed for each cell. What has no
counterpart is refused: the exit code is 1, and the error output has a line with the cell, its module and its place.
"""
from __future__ import annotations

import argparse
import gc
import sys
from pathlib import Path

from design import Design, row_lines
from netlist import Refused
from yosys import Request, read_design


def arguments() -> argparse.Namespace:
    parser = argparse.ArgumentParser(prog="svtv-import", description="print a design in wide Verilog as text of svtv's subset")
    parser.add_argument("design", nargs="+", metavar="DESIGN", help="files of Verilog or SystemVerilog")
    parser.add_argument("--top", metavar="M", help="the module at the top")
    parser.add_argument("-D", dest="define", action="append", default=[], metavar="NAME[=VALUE]", help="define a macro")
    parser.add_argument("-I", dest="include", action="append", default=[], metavar="FOLDER", help="look for includes there too")
    parser.add_argument("--param", action="append", default=[], metavar="P=V", help="give a parameter of the top a value")
    parser.add_argument("--verilog", action="store_true", help="read as Verilog 2005, where logic, int and so on are names")
    parser.add_argument("--phases", type=phases, metavar="N", help="print rows of initial values with N cells")
    parser.add_argument("--rows", type=Path, metavar="FILE", help="write rows of initial values to a file besides, ready for a table")
    return parser.parse_args()


def phases(word: str) -> int:
    number = int(word)
    if not 1 <= number <= 64:
        raise ValueError("a table has 1 to 64 phases")
    return number


def main() -> int:
    gc.disable()  # a design is many small objects without circles, and all of them last until the text is printed
    words = arguments()
    request = Request(words.design, words.top, words.define, words.include, words.param, words.verilog)
    try:
        design = Design(read_design(request))
    except Refused as why:
        print(f"svtv-import: {why}", file=sys.stderr)
        return 1
    for warning in design.warnings():
        print(f"svtv-import: {warning}", file=sys.stderr)
    if words.rows:
        words.rows.write_text("".join(line + "\n" for line in row_lines(design.rows(), words.phases or 1)))
    sys.stdout.write(design.text(words.phases))
    return 0


if __name__ == "__main__":
    sys.exit(main())
