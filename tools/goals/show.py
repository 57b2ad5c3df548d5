"""What is told on the error stream: a bar while goals are decided, lines for what went wrong, and the times."""

from __future__ import annotations

import os
import sys
import time
from collections.abc import Iterable
from dataclasses import dataclass

from goals.kept import Record

ROOM = 30


def say(line: str) -> None:
    print(line, file=sys.stderr, flush=True)


def clock(seconds: float) -> str:
    """A time as one reads it."""
    whole = round(seconds)
    minutes, rest = divmod(whole, 60)
    hours, minutes = divmod(minutes, 60)
    return f"{hours}:{minutes:02}:{rest:02}" if hours else f"{minutes}:{rest:02}"


@dataclass
class Count:
    """How many goals there are, ended, and not proved; and how many ended in this call, which has gone on for some seconds."""

    total: int
    done: int = 0
    others: int = 0
    fresh: int = 0

    def ended(self, is_proved: bool, fresh: bool) -> None:
        self.done += 1
        self.fresh += fresh
        self.others += not is_proved

    def line(self, seconds: float, width: int) -> str:
        """A bar with the numbers, and what is left at the pace of this call."""
        filled = ROOM * self.done // self.total
        left = f"about {clock(seconds / self.fresh * (self.total - self.done))} left" if self.fresh else "no estimate yet"
        return f"[{'#' * filled}{'-' * (ROOM - filled)}] {self.done} of {self.total} goals, {self.others} not proved, {left}"[:width]


class Bar:
    """The bar on a terminal; on any other error stream it is nothing."""

    def __init__(self, count: Count):
        self._count = count
        self._begun = time.monotonic()
        self._shown = sys.stderr.isatty()

    def draw(self) -> None:
        if self._shown:
            width = os.get_terminal_size(sys.stderr.fileno()).columns or 80
            line = self._count.line(time.monotonic() - self._begun, width - 1)
            print(f"\r{line}\x1b[K", end="", file=sys.stderr, flush=True)

    def wipe(self) -> None:
        if self._shown:
            print("\r\x1b[K", end="", file=sys.stderr, flush=True)


def times(names: Iterable[str], records: Iterable[Record | None]) -> str:
    """A table of what goals took: processor seconds and megabytes, and on which machine, where one is not this."""
    rows = [("goal", "seconds", "megabytes", "host")]
    for name, it in zip(names, records):
        rows.append((name, f"{it.seconds:.2f}", f"{it.megabytes:.1f}", it.host) if it else (name, "-", "-", "-"))
    wide = max(len(row[0]) for row in rows)
    shown = any(row[3] not in (":", "-") for row in rows[1:])
    return "\n".join(f"{name:{wide}}  {seconds:>10}  {megabytes:>10}{f'  {host}' if shown else ''}" for name, seconds, megabytes, host in rows)


def trouble(record: Record, seconds: float | None) -> str:
    """Why a goal that was run has no verdict."""
    if record.changed is not None:
        return f"{record.changed} is not on {'this machine' if record.host == ':' else record.host} as it was here"
    if record.status is None:
        return f"timed out after {seconds:g} s"
    if record.status == 6:
        return "out of memory"
    if record.status < 0:
        return f"killed by signal {-record.status}"
    return f"svtv ended with {record.status}: {record.err.strip()}"
