"""The words of the command."""

import argparse
import math
import re
from dataclasses import dataclass

from goals.program import Command

MOST_BUDGET = 10_000_000


@dataclass(frozen=True)
class Words:
    """What is to be decided, and how the work is done and told."""

    command: Command
    only: tuple[str, ...]
    jobs: int | None
    hosts: str | None
    timeout: float | None
    times: bool


class Once(argparse.Action):
    """An option that may stand once."""

    def __call__(self, parser, namespace, values, option_string=None):
        if getattr(namespace, self.dest) is not None:
            parser.error(f"{option_string} stands twice")
        setattr(namespace, self.dest, values)


def some_text(text: str) -> str:
    if not text:
        raise argparse.ArgumentTypeError("a name is empty")
    return text


def budget(text: str) -> str:
    """A budget as svtv takes it."""
    if not re.fullmatch("[0-9]{1,8}", text) or not 1 <= int(text) <= MOST_BUDGET:
        raise argparse.ArgumentTypeError(f"no number from 1 to {MOST_BUDGET:,}")
    return text


def count(text: str) -> int:
    if not re.fullmatch("[0-9]{1,6}", text) or int(text) == 0:
        raise argparse.ArgumentTypeError("no number from 1 to 999,999")
    return int(text)


def seconds(text: str) -> float:
    try:
        number = float(text)
    except ValueError:
        number = math.nan
    if not 0 < number < math.inf:
        raise argparse.ArgumentTypeError("no number of seconds")
    return number


def parser() -> argparse.ArgumentParser:
    made = argparse.ArgumentParser(
        prog="svtv-goals",
        usage="svtv-goals DESIGN TABLE GOALS [--top M] [--budget N] [--only NAME ..]\n"
        "                  [--jobs K] [--hosts FILE] [--timeout SECONDS] [--times]",
        description="Decides the goals of a file by many calls of `svtv prove`, and prints what one call on the whole file prints.",
        allow_abbrev=False,
    )
    for name in ("DESIGN", "TABLE", "GOALS"):
        made.add_argument(name.lower(), metavar=name, type=some_text)
    made.add_argument("--top", metavar="M", type=some_text, action=Once, help="the module at the top, as for svtv")
    made.add_argument("--budget", metavar="N", type=budget, action=Once, help="how many clauses a search may learn, as for svtv")
    made.add_argument("--only", metavar="NAME", nargs="+", type=some_text, action=Once, help="decide these goals alone")
    made.add_argument("--jobs", metavar="K", type=count, action=Once, help="so many goals at once (else one for each processor)")
    made.add_argument("--hosts", metavar="FILE", type=some_text, action=Once, help="machines: one a line, `4/HOST` for 4 goals at once, `:` is this one")
    made.add_argument("--timeout", metavar="SECONDS", type=seconds, action=Once, help="so long a goal may take")
    made.add_argument("--times", action="store_true", help="tell at the end what each goal took")
    return made


def read_words(words: list[str]) -> Words:
    """What words say. Where they are no command, usage is printed and the program ends with 2."""
    found = parser().parse_args(words)
    options = [f"--top={found.top}"] * (found.top is not None) + [f"--budget={found.budget}"] * (found.budget is not None)
    command = Command(found.design, found.table, found.goals, tuple(options))
    return Words(command, tuple(found.only or ()), found.jobs, found.hosts, found.timeout, found.times)
