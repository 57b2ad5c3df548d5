"""Cells that choose, join and cut vectors, and the assertions of a design."""
from __future__ import annotations

from typing import Sequence

from logic import operand
from netlist import Bit, Bits, Cell
from writer import Vector, Writer

ARMS = 100  # the most arms in one expression, which may nest 200 deep
CHECKS = {"$assert": "assert", "$assume": "assume", "$cover": "cover"}


def choice(writer: Writer, cell: Cell) -> None:
    condition = writer.expr(cell.pin("S"))
    writer.by_pieces(cell.pin("Y"), [cell.pin("B"), cell.pin("A")], lambda one, other: f"{condition} ? {one} : {other}")


def case_choice(writer: Writer, cell: Cell) -> None:
    """The arms of a case: the first one of the source is the last one here, and counts first."""
    a, b, s, y = (cell.pin(pin) for pin in "ABSY")
    width = len(y)
    for low in range(0, len(s), ARMS):
        arms = range(min(low + ARMS, len(s)) - 1, low - 1, -1)
        goal = y if low + ARMS >= len(s) else writer.fresh(width)
        conditions = [writer.expr([s[arm]]) for arm in arms]
        values = [b[arm * width:(arm + 1) * width] for arm in arms]
        writer.by_pieces(goal, values + [a], lambda *texts: chain(conditions, texts))
        a = goal


def chain(conditions: Sequence[str], values: Sequence[str]) -> str:
    """The value of the first condition that holds, else the last value."""
    return "".join(f"{condition} ? {value} : " for condition, value in zip(conditions, values)) + values[-1]


def indexed_choice(writer: Writer, cell: Cell) -> None:
    """One of as many parts as the index has values."""
    a, s, y = (cell.pin(pin) for pin in "ASY")
    parts = [a[low:low + len(y)] for low in range(0, len(a), len(y))]
    writer.by_pieces(y, parts, lambda *texts: halves(writer, s, texts))


def halves(writer: Writer, index: Bits, texts: Sequence[str]) -> str:
    if not index:
        return texts[0]
    middle = len(texts) // 2
    low, high = (halves(writer, index[:-1], part) for part in (texts[:middle], texts[middle:]))
    return f"{writer.expr(index[-1:])} ? ({high}) : ({low})"


def distribution(writer: Writer, cell: Cell) -> None:
    """A value at one of as many places as the index has values, and 0 at the others."""
    a, s, y = (cell.pin(pin) for pin in "ASY")
    for number in range(1 << len(s)):
        place: Bits = ["1" if number >> k & 1 else "0" for k in range(len(s))]
        condition = f"{writer.expr(s)} == {writer.expr(place)}"
        nothing: Bits = ["0"] * len(a)
        writer.by_pieces(y[number * len(a):(number + 1) * len(a)], [a, nothing],
                         lambda one, other: f"{condition} ? {one} : {other}")


def driver(writer: Writer, cell: Cell) -> None:
    """A driver with an enable."""
    nothing: list[Bit] = ["z"] * len(cell.pin("A"))
    enable = writer.expr(cell.pin("EN"))
    writer.by_pieces(cell.pin("Y"), [cell.pin("A"), nothing], lambda one, other: f"{enable} ? {one} : {other}")


def joining(writer: Writer, cell: Cell) -> None:
    writer.by_pieces(cell.pin("Y"), [cell.pin("A") + cell.pin("B")], str)


def cutting(writer: Writer, cell: Cell) -> None:
    low = cell.number("OFFSET")
    writer.by_pieces(cell.pin("Y"), [cell.pin("A")[low:low + len(cell.pin("Y"))]], str)


def check(writer: Writer, cell: Cell) -> None:
    """An assertion as a wire of one bit."""
    word = CHECKS[cell.kind]
    name = writer.names.take(word + "_1")
    writer.wires.append(Vector(name, 1))
    writer.notes.append(f"{name} is true where the {word} at {cell.source} is met")
    writer.lines.append(f"assign {name} = !{writer.expr(cell.pin('EN'))} || {writer.expr(operand(cell, 'A'))};")
