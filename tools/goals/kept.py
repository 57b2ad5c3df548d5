"""What is kept of a run that was interrupted: a folder with the job log of GNU parallel, and a line for each goal that ended."""

from __future__ import annotations

import fcntl
import itertools
import json
import os
import shutil
from collections.abc import Mapping
from dataclasses import asdict, dataclass
from pathlib import Path
from typing import TextIO


@dataclass(frozen=True)
class Record:
    """What job.py says of a goal: how svtv ended on it (no status: its time was over) and what it printed, and what that took."""

    goal: int
    status: int | None
    out: str
    err: str
    changed: str | None
    seconds: float
    megabytes: float
    host: str

    @classmethod
    def of(cls, line: bytes) -> Record | None:
        """The record of a line, where it is one; a login to another machine may print other lines."""
        try:
            return cls(**json.loads(line))
        except (ValueError, TypeError):
            return None

    @property
    def is_verdict(self) -> bool:
        return self.status in (0, 1) and bool(self.out) and self.changed is None

    @property
    def is_proved(self) -> bool:
        return self.is_verdict and self.status == 0

    @property
    def is_refused(self) -> bool:
        """svtv did not take the files: a refusal, a read fault, or a report without the goal."""
        return self.changed is None and (self.status in (3, 4) or (self.status in (0, 1) and not self.out))


class Kept:
    """The folder, which no other call uses as long as this one has its lock."""

    def __init__(self, folder: Path, lock: TextIO):
        self.folder = folder
        self.joblog = folder / "joblog"
        self._lines = folder / "records"
        self._lock = lock

    def verdicts(self) -> dict[int, Record]:
        """The goals that have their verdicts."""
        lines = self._lines.read_bytes().splitlines() if self._lines.exists() else []
        found = [Record.of(line) for line in lines]
        return {it.goal: it for it in found if it is not None and it.is_verdict}

    def add(self, record: Record) -> None:
        with self._lines.open("a", encoding="ascii") as file:
            file.write(json.dumps(asdict(record)) + "\n")

    def trim_joblog(self, done: set[int]) -> None:
        """Leaves the jobs of these numbers alone in the job log, so that parallel runs all others again."""
        if not self.joblog.exists():
            return
        head, *lines = self.joblog.read_text(errors="replace").splitlines(keepends=True) or [""]
        left = [line for line in lines if line.endswith("\n") and int_or_none(line.partition("\t")[0]) in done]
        new = self.folder / "joblog.new"
        new.write_text(head + "".join(left))
        new.replace(self.joblog)

    def job_ends(self) -> dict[int, tuple[str, int, int]]:
        """The machine, the exit code and the signal of each job in the log."""
        found = {}
        for line in self.joblog.read_text(errors="replace").splitlines()[1:] if self.joblog.exists() else []:
            cells = line.split("\t")
            if len(cells) > 8:
                found[int(cells[0])] = (cells[1].split()[-1], int(cells[6]), int(cells[7]))
        return found

    def remove(self) -> None:
        shutil.rmtree(self.folder, ignore_errors=True)

    def release(self) -> None:
        self._lock.close()


def int_or_none(text: str) -> int | None:
    return int(text) if text.isdecimal() else None


def cache(environment: Mapping[str, str]) -> Path:
    """The folder for what is kept of all runs."""
    named = Path(environment.get("XDG_CACHE_HOME", ""))
    return (named if named.is_absolute() else Path.home() / ".cache") / "svtv-goals"


def open_kept(base: Path, digest: str) -> Kept:
    """The folder of this digest, or, where another call is at it, the next one that is free."""
    for count in itertools.count():
        folder = base / (f"{digest}-{count}" if count else digest)
        while True:
            folder.mkdir(mode=0o700, parents=True, exist_ok=True)
            try:
                lock = (folder / "lock").open("w")
            except FileNotFoundError:
                continue
            try:
                fcntl.flock(lock, fcntl.LOCK_EX | fcntl.LOCK_NB)
            except BlockingIOError:
                lock.close()
                break
            if is_there(folder / "lock", lock):
                return Kept(folder, lock)
            lock.close()
    raise AssertionError("there is no last folder")


def is_there(path: Path, file: TextIO) -> bool:
    """Whether the path still leads to the open file, and was not removed by a call that ended meanwhile."""
    try:
        return os.path.samestat(path.stat(), os.fstat(file.fileno()))
    except FileNotFoundError:
        return False
