"""Decides one goal: job.py NUMBER, beside the files that were handed along. Prints one line of JSON, for `run.py`.

It runs on other machines too, where nothing of the repository is but this file and `text.py`.
"""

from __future__ import annotations

import json
import os
import resource
import signal
import subprocess
import sys
import tempfile
import time
from dataclasses import dataclass
from pathlib import Path

import text

HERE = Path(__file__).resolve().parent


@dataclass(frozen=True)
class Ran:
    """How a call of svtv ended; it has no status where the time was over."""

    status: int | None
    out: bytes
    err: bytes


@dataclass(frozen=True)
class Asked:
    """A goal of a whole file, and what is the same for all goals of it (`hand.py` writes it)."""

    number: int
    goals: list[text.Goal]
    whole: bytes
    options: list[str]
    folder: str
    seconds: float | None
    elsewhere: dict[str, str]

    @property
    def name(self) -> str:
        return self.goals[self.number].name


def asked_for(number: int) -> Asked:
    plan = json.loads((HERE / "plan.json").read_text("ascii"))
    goals = [text.Goal(name, start, end, tuple(map(tuple, parts))) for name, start, end, parts in plan.pop("goals")]
    return Asked(number, goals, (HERE / "goals").read_bytes(), **plan)


def changed(elsewhere: dict[str, str]) -> str | None:
    """The first file of an absolute name that is not here as it was where the work began."""
    if not elsewhere:
        return None
    import hashlib  # (which takes longer to load than all else here)

    for name, digest in elsewhere.items():
        try:
            found = hashlib.sha256(Path(name).read_bytes()).hexdigest()
        except OSError:
            return name
        if found != digest:
            return name
    return None


def prove(asked: Asked, goals: bytes, seconds: float | None) -> Ran:
    """Runs svtv on goals of a text, for so many seconds at most."""
    with tempfile.NamedTemporaryFile(dir=HERE, prefix="goal-") as file:
        file.write(goals)
        file.flush()
        words = [str(HERE / "svtv"), "prove", *asked.options, str(HERE / "design"), str(HERE / "table"), file.name]
        try:
            ran = subprocess.run(words, cwd=HERE / asked.folder, stdin=subprocess.DEVNULL, capture_output=True, timeout=seconds)
        except subprocess.TimeoutExpired:
            return Ran(None, b"", b"")
    return Ran(ran.returncode, ran.stdout, ran.stderr)


def said_of(ran: Ran, name: str) -> Ran:
    """The same with the lines of one goal alone, where svtv said something of goals; its status is then that of this goal."""
    if ran.status not in (0, 1):
        return ran
    report = text.reports(ran.out).get(name, b"")
    return Ran(int(not text.is_proved(name, report)), report, ran.err)


def alone(asked: Asked) -> Ran:
    """The goal by itself in its file."""
    return said_of(prove(asked, text.blanked(asked.whole, asked.goals, asked.number), asked.seconds), asked.name)


def among_all(asked: Asked, seconds: float | None) -> Ran:
    """The goal as svtv finds it in its whole file."""
    return said_of(prove(asked, text.folded(asked.whole, asked.goals, asked.number), seconds), asked.name)


def decide(asked: Asked) -> Ran:
    """What `svtv prove` says of the goal in its whole file.

    Without a budget a goal has one verdict, which is found soonest where the goal is alone. But which choice is printed of a failure, and
    where a budget ends, may hang on all goals of the file: that the folded file tells. Where this takes too long or too much for a failure,
    the one that was found stands.
    """
    if len(asked.goals) > 1 and any(option.startswith("--budget") for option in asked.options):
        return among_all(asked, asked.seconds)
    begun = time.monotonic()
    found = alone(asked)
    if len(asked.goals) == 1 or not found.out.startswith(b"%s: failed\n" % asked.name.encode("ascii")):
        return found
    left = None if asked.seconds is None else max(0.0, asked.seconds - (time.monotonic() - begun))
    again = among_all(asked, left)
    return again if again.status in (0, 1) else found


def record(asked: Asked) -> dict:
    """What is told of the goal: how svtv ended, what it printed, and what that took."""
    odd = changed(asked.elsewhere)
    ran = decide(asked) if odd is None else Ran(None, b"", b"")
    odd = odd or changed(asked.elsewhere)
    used = resource.getrusage(resource.RUSAGE_CHILDREN)
    return {
        "goal": asked.number,
        "status": ran.status,
        "out": ran.out.decode("latin-1"),
        "err": ran.err.decode("latin-1"),
        "changed": odd,
        "seconds": round(used.ru_utime + used.ru_stime, 3),
        "megabytes": round(used.ru_maxrss / 1024, 1),
        "host": os.environ.get("PARALLEL_SSHHOST", ":"),
    }


def ended(number: int, _frame: object) -> None:
    """A signal ends svtv too: `subprocess.run` kills its child on the way out."""
    sys.exit(128 + number)


def main() -> None:
    for number in (signal.SIGINT, signal.SIGTERM, signal.SIGHUP):
        signal.signal(number, ended)
    # (a login may have begun a line)
    print("\n" + json.dumps(record(asked_for(int(sys.argv[1])))), flush=True)


if __name__ == "__main__":
    main()
