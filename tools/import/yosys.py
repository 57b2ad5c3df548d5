"""Runs yosys: files of Verilog in, a netlist out."""
from __future__ import annotations

import json
import subprocess
import sys
import tempfile
from dataclasses import dataclass, field
from pathlib import Path

from netlist import Module, Refused, read_modules
from rtlil import Hints, Scanner

# The nets of the source keep their names. No step is run that simplifies what depends on X: `opt_expr` only for the enables of
# latches, which `proc` has just made.
CELLS = ["attrmap -remove full_case -remove parallel_case", "setattr -set keep 1 w:* w:$* %d w:*$func$* %d", "proc -noopt",
         "opt_expr -keepdc c:$auto$proc_dlatch*", "opt_clean", "opt_reduce", "opt_clean", "memory_collect", "opt_clean"]
CONFLICT = "Driver-driver conflict"
TAKEN_CARE_OF = ("Complex async reset", "Async reset value", "limited support for tri-state logic")


@dataclass(frozen=True)
class Request:
    """What is to be imported."""
    files: list[str]
    top: str | None = None
    define: list[str] = field(default_factory=list)
    include: list[str] = field(default_factory=list)
    parameters: list[str] = field(default_factory=list)
    verilog: bool = False


@dataclass(frozen=True)
class Read:
    """What yosys made of a request: its modules, and what is not in them, by module."""
    modules: dict[str, Module]
    hints: dict[str, Hints]


def read_design(request: Request) -> Read:
    with tempfile.TemporaryDirectory() as folder:
        processes, cells = Path(folder, "processes.il"), Path(folder, "cells.json")
        run([*read_steps(request), "proc_arst", f"write_rtlil {processes}", *CELLS, f"write_json {cells}"])
        with processes.open() as lines, cells.open() as text:
            return Read(read_modules(json.load(text)), Scanner().scan(lines))


def read_steps(request: Request) -> list[str]:
    """The steps that read the files and choose the top. A file `.il` is in yosys' own form."""
    options = ["read_verilog -noblackbox"] + ([] if request.verilog else ["-sv"])
    options += ["-D" + plain(word) for word in request.define] + ["-I" + plain(word) for word in request.include]
    sources = [quoted(name) for name in request.files if not name.endswith(".il")]
    choose = ["hierarchy -check", f"-top {plain(request.top)}" if request.top else "-auto-top"]
    for word in request.parameters:
        name, equals, value = word.partition("=")
        if not equals:
            raise Refused(f"--param {word}: a name, = and a value are asked for")
        choose.append(f"-chparam {plain(name)} {plain(value)}")
    steps = [f"read_rtlil {quoted(name)}" for name in request.files if name.endswith(".il")]
    return steps + ([" ".join(options + sources)] if sources else []) + [" ".join(choose)]


def plain(word: str) -> str:
    """The word, which stands as it is in a step of yosys."""
    if not word or set(word) & set('"; \t\n\r#'):
        raise Refused(f"yosys can not be given the word {word!r}")
    return word


def quoted(name: str) -> str:
    """The name of a file in a step of yosys."""
    if not name or set(name) & set('"\n\r'):
        raise Refused(f"yosys can not be given the file {name!r}")
    return f'"{name}"'


def run(steps: list[str]) -> None:
    """Runs steps; its warnings go to the error output, and an error or a conflict of drivers is a refusal."""
    try:
        done = subprocess.run(["yosys", "-q", "-p", "\n".join(steps)], capture_output=True, text=True)
    except FileNotFoundError:
        raise Refused("yosys is not there: install the package yosys") from None
    lines = (done.stdout + done.stderr).splitlines()
    for line in lines:
        if line.startswith("Warning") and not any(words in line for words in TAKEN_CARE_OF):
            if CONFLICT in line:
                raise Refused(f"yosys: {line}")
            print(f"svtv-import: yosys: {line}", file=sys.stderr)
    if done.returncode != 0:
        wrong = [line for line in lines if "ERROR" in line]
        raise Refused("yosys: " + (wrong[0] if wrong else f"exit code {done.returncode}"))
