"""What is to be decided, read once: all runs see these bytes, whatever becomes of the files meanwhile."""

from __future__ import annotations

import hashlib
import json
import os
import shutil
import tarfile
from dataclasses import dataclass
from io import BytesIO
from pathlib import Path

from goals import files, text
from goals.program import Command

HERE = Path(__file__).resolve().parent
JOB = """#!/bin/sh
cd "$(dirname "$0")" && exec "${SVTV_GOALS_PYTHON:-python3}" -S -E job.py "$1"
"""


class Unknown(Exception):
    """Goals are chosen that the file does not have; the text says which."""


class Whole(Exception):
    """The files are to be handed over to svtv as they are: it says what is to be said of them."""


@dataclass(frozen=True)
class Work:
    """The files of a command, the goals of its file, and the numbers of those that are to be decided."""

    command: Command
    design: bytes
    table: bytes
    whole: bytes
    goals: list[text.Goal]
    chosen: list[int]
    included: dict[str, bytes]

    def digest(self, program: Path) -> str:
        """A name for what is decided, by the words and the contents of all files, those of the program among them."""
        told = [self.command.design, self.command.table, self.command.goals, self.command.options, self.chosen]
        parts = [json.dumps(told).encode("ascii"), program.read_bytes(), self.design, self.table, self.whole]
        for name, contents in sorted(self.included.items()):
            parts += [os.fsencode(name), contents]
        found = hashlib.sha256()
        for part in parts:
            found.update(b"%d:" % len(part) + part)
        return found.hexdigest()[:40]


def read_work(command: Command, only: tuple[str, ...]) -> Work:
    """Reads the files and cuts the goals: Whole where svtv is to say what is wrong with them, Unknown where a chosen goal is none of them."""
    try:
        design, table, whole = files.read(command.design), files.read(command.table), files.read(command.goals)
        goals = text.cut(whole)
    except (files.Unreadable, text.NoGoals):
        raise Whole from None
    names = [goal.name for goal in goals]
    if len(set(names)) < len(names):
        raise Whole
    check_names(command, only, names)
    chosen = [number for number, name in enumerate(names) if not only or name in only]
    return Work(command, design, table, whole, goals, chosen, files.all_included(design))


def check_names(command: Command, only: tuple[str, ...], names: list[str]) -> None:
    """Unknown where a chosen name is none of these."""
    if unknown := [name for name in only if name not in names]:
        raise Unknown(f"{command.goals} has no goal {' and no goal '.join(unknown)}")


def hand_out(work: Work, program: Path, seconds: float | None, to: Path) -> None:
    """Writes all that a job needs into a folder; job.py reads it there.

    What a design includes by an absolute name is not handed along: the job reads it where it stands, and looks that it is the same.
    """
    near = {name: contents for name, contents in work.included.items() if not name.startswith("/")}
    far = {name: hashlib.sha256(contents).hexdigest() for name, contents in work.included.items() if name.startswith("/")}
    to.mkdir(mode=0o700)
    try:
        folder = files.lay_out(near, to / "files")
    except files.Unreadable:
        raise Whole from None
    (to / "design").write_bytes(work.design)
    (to / "table").write_bytes(work.table)
    (to / "goals").write_bytes(work.whole)
    plan = {
        "goals": [[goal.name, goal.start, goal.end, goal.expressions] for goal in work.goals],
        "options": work.command.options,
        "folder": str(folder.relative_to(to)),
        "seconds": seconds,
        "elsewhere": far,
    }
    (to / "plan.json").write_text(json.dumps(plan), "ascii")
    (to / "job.sh").write_text(JOB)
    for part in ("job.py", "text.py"):
        shutil.copyfile(HERE / part, to / part)
    shutil.copyfile(program, to / "svtv")
    (to / "svtv").chmod(0o700)


def packed(folder: Path) -> bytes:
    """The folder's contents, to be handed along."""
    to = BytesIO()
    with tarfile.open(fileobj=to, mode="w:gz") as made:
        made.add(folder, ".")
    return to.getvalue()
