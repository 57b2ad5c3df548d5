"""The goals of a file: where each stands, and texts in which one of them is decided by itself.

Only files that svtv accepts need to be cut rightly: whether it accepts one is asked of svtv itself (`program.py`). So expressions are passed
over up to their semicolon, and what stands in them is not looked at beyond its tokens. This module is handed to other machines too, and stands
on nothing else.
"""

from __future__ import annotations

import re
from collections.abc import Iterator
from dataclasses import dataclass

# The tokens as far as a cut needs them: comments and quoted texts as svtv has them, words, and any other byte by itself.
TOKEN = re.compile(
    rb"""(?P<gap> [ \t\r\n]+ | //[^\n]* | /\*.*?\*/ )
       | (?P<word> [A-Za-z_][A-Za-z0-9_$]* )
       | (?P<quoted> "[^"\\\n]*(?:\\[^\n][^"\\\n]*)*" )
       | (?P<other> (?!/\*|")[!-~] )""",
    re.VERBOSE | re.DOTALL,
)
LINE_ENDS = b"\r\n"
BLANKS = bytes(byte if byte in LINE_ENDS else ord(" ") for byte in range(256))
MET_BY_NONE = b"hyp 1'b0;"


class NoGoals(Exception):
    """The text is no list of goals, as far as it was looked at."""


@dataclass(frozen=True)
class Goal:
    """A goal: its name, where it stands from the word `goal` to behind the closing brace, and each expression with its semicolon."""

    name: str
    start: int
    end: int
    expressions: tuple[tuple[int, int], ...]


def tokens(text: bytes) -> Iterator[re.Match[bytes]]:
    """All tokens but gaps."""
    at = 0
    while at < len(text):
        found = TOKEN.match(text, at)
        if found is None:
            raise NoGoals
        if found.lastgroup != "gap":
            yield found
        at = found.end()


def taken(stream: Iterator[re.Match[bytes]], *wanted: bytes) -> re.Match[bytes]:
    """The next token, which has to be one of the wanted ones where some are given."""
    found = next(stream, None)
    if found is None or (wanted and found.group() not in wanted):
        raise NoGoals
    return found


def name_of(token: re.Match[bytes]) -> str:
    if token.lastgroup != "word":
        raise NoGoals
    return token.group().decode("ascii")


def goal_from(first: re.Match[bytes], stream: Iterator[re.Match[bytes]]) -> Goal:
    """The goal that begins with this token."""
    if first.group() != b"goal":
        raise NoGoals
    name = name_of(taken(stream))
    taken(stream, b"{")
    expressions = []
    while (word := taken(stream, b"hyp", b"claim", b"}")).group() != b"}":
        while (last := taken(stream)).group() != b";":
            pass
        expressions.append((word.end(), last.end()))
    return Goal(name, first.start(), word.end(), tuple(expressions))


def cut(text: bytes) -> list[Goal]:
    """The goals of a text, in order."""
    stream = tokens(text)
    goals = [goal_from(first, stream) for first in stream]
    if not goals:
        raise NoGoals
    return goals


def blanked(text: bytes, goals: list[Goal], kept: int) -> bytes:
    """The text with one goal alone: each byte of the others is a blank, but for line ends, so every line and column stays."""
    pieces, at = [], 0
    for number, goal in enumerate(goals):
        if number != kept:
            pieces += [text[at : goal.start], text[goal.start : goal.end].translate(BLANKS)]
            at = goal.end
    pieces.append(text[at:])
    return b"".join(pieces)


def folded(text: bytes, goals: list[Goal], kept: int) -> bytes:
    """A text with one goal as it stands, and with the expressions of all others, in order, in one goal before it and one behind it.

    No choice meets the hypothesis of these two, so nothing is searched for them. But svtv meets the same expressions in the same order as in
    the whole text, numbers them alike, and so goes the same way in its search for the goal that is kept.
    """
    goal = goals[kept]
    return b"\n".join([unmet(text, goals[:kept]), text[goal.start : goal.end], unmet(text, goals[kept + 1 :])])


def unmet(text: bytes, goals: list[Goal]) -> bytes:
    """One goal with the expressions of all, in order, and with a hypothesis that nothing meets; nothing where there is none."""
    if not goals:
        return b""
    claims = [b"claim" + text[start:end] for goal in goals for start, end in goal.expressions]
    return b"\n".join([b"goal %s {" % goals[0].name.encode("ascii"), MET_BY_NONE, *claims, b"}"])


def reports(printed: bytes) -> dict[str, bytes]:
    """The lines of each goal in a report, by its name."""
    found: dict[str, bytes] = {}
    name = ""
    for line in printed.splitlines(keepends=True):
        if not line.startswith(b"  "):
            name = line.partition(b":")[0].decode("latin-1")
        found[name] = found.get(name, b"") + line
    return found


def is_proved(name: str, report: bytes) -> bool:
    return report == b"%s: proved\n" % name.encode("latin-1")
