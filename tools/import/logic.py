"""Cells of logic and arithmetic: a function for each kind prints the assignment that gives the same value."""
from __future__ import annotations

from typing import Callable

from netlist import Bits, Cell
from writer import LIMIT, Writer, extend, split


def operand(cell: Cell, pin: str) -> Bits:
    """What is joined to an operand; one without bits is the neutral value of its cell."""
    return cell.pin(pin) or ["1" if cell.kind == "$reduce_and" else "0"]


def signed(cell: Cell) -> bool:
    """Whether the operands extend by their sign: all of them must have one."""
    return all(cell.number(key) for key in ("A_SIGNED", "B_SIGNED") if key in cell.parameters)


def marked(text: str, is_signed: bool) -> str:
    return f"$signed({text})" if is_signed else text


def bitwise(form: Callable[..., str]) -> Callable[[Writer, Cell], None]:
    """`~`, `&`, `|`, `^`, `~^` and a copy: operands extended to the result, in pieces."""
    def write(writer: Writer, cell: Cell) -> None:
        pins = ("A", "B") if "B" in cell.pins else ("A",)
        y = cell.pin("Y")
        writer.by_pieces(y, [extend(operand(cell, pin), len(y), signed(cell)) for pin in pins], form)
    return write


def arithmetic(mark: str) -> Callable[[Writer, Cell], None]:
    """Operators whose result is X where a bit of an operand is: operands stand whole, as far as they can."""
    def write(writer: Writer, cell: Cell) -> None:
        y = cell.pin("Y")
        low = [bits if len(bits) <= LIMIT or mark in ("/", "%") else bits[:len(y)] for bits in (operand(cell, "A"), operand(cell, "B"))]
        left, right = (marked(writer.expr(bits), signed(cell)) for bits in low)
        writer.assign(y, f"{left} {mark} {right}")
    return write


def negation(writer: Writer, cell: Cell) -> None:
    a, y = operand(cell, "A"), cell.pin("Y")
    writer.assign(y, "-" + marked(writer.expr(a if len(a) <= LIMIT else a[:len(y)]), signed(cell)))


def comparison(mark: str) -> Callable[[Writer, Cell], None]:
    """`<` and its like, which stand over whole operands."""
    def write(writer: Writer, cell: Cell) -> None:
        left, right = (marked(writer.expr(operand(cell, pin)), signed(cell)) for pin in "AB")
        writer.assign_truth(cell.pin("Y"), f"{left} {mark} {right}")
    return write


def equality(mark: str, glue: str) -> Callable[[Writer, Cell], None]:
    """`==` and `!=`, piece by piece; `===` and `!==` are the same where they see no X."""
    def write(writer: Writer, cell: Cell) -> None:
        a, b = operand(cell, "A"), operand(cell, "B")
        width = max(len(a), len(b))
        pairs = zip(split(extend(a, width, signed(cell))), split(extend(b, width, signed(cell))))
        seen = {"$eqx": "===", "$nex": "!=="}.get(cell.kind)
        comment = f"{seen} at {cell.source}: X where a bit is unknown" if seen else ""
        texts = [f"{writer.expr(p)} {mark} {writer.expr(q)}" for p, q in pairs]
        writer.assign_truth(cell.pin("Y"), texts[0] if len(texts) == 1 else glue.join(f"({text})" for text in texts), comment)
    return write


def reduction(mark: str, glue: str, inverted: bool = False) -> Callable[[Writer, Cell], None]:
    def write(writer: Writer, cell: Cell) -> None:
        text = glue.join(mark + writer.expr(piece) for piece in split(operand(cell, "A")))
        writer.assign_truth(cell.pin("Y"), f"{{~({text})}}" if inverted else text)
    return write


def logical(mark: str) -> Callable[[Writer, Cell], None]:
    """`!`, `&&` and `||`."""
    def write(writer: Writer, cell: Cell) -> None:
        pins = "A" if mark == "!" else "AB"
        truths = [truth(writer, operand(cell, pin)) for pin in pins]
        writer.assign_truth(cell.pin("Y"), "!" + truths[0] if mark == "!" else f" {mark} ".join(truths))
    return write


def truth(writer: Writer, bits: Bits) -> str:
    texts = [writer.expr(piece) for piece in split(bits)]
    return texts[0] if len(texts) == 1 else f"({' || '.join(texts)})"


def shift(mark: str) -> Callable[[Writer, Cell], None]:
    """`<<`, `>>` and `>>>`, by a number without a sign."""
    def write(writer: Writer, cell: Cell) -> None:
        a, b, y, is_signed = operand(cell, "A"), operand(cell, "B"), cell.pin("Y"), cell.number("A_SIGNED") == 1
        width = max(len(a), len(y))
        if width <= LIMIT:
            writer.assign(y, f"{marked(writer.expr(a), is_signed)} {mark} {writer.expr(b)}")
            return
        fill: Bits = a[-1:] if is_signed and mark == ">>>" else ["0"]
        barrel(writer, extend(a, width, is_signed), b, y, fill, mark == "<<")
    return write


def signed_shift(writer: Writer, cell: Cell) -> None:
    """A shift to the right or, by a number below 0, to the left."""
    a, b = operand(cell, "A"), operand(cell, "B")
    moved, amount = marked(writer.expr(a), cell.number("A_SIGNED") == 1), writer.expr(b)
    back = f"{writer.expr(b[-1:])} ? {moved} << -{amount} : " if cell.number("B_SIGNED") else ""
    writer.assign(cell.pin("Y"), f"{back}{moved} >> {amount}")


def part_select(writer: Writer, cell: Cell) -> None:
    """A part at an index that is not constant; bits that are not there are X."""
    a, b, y, is_signed = operand(cell, "A"), operand(cell, "B"), cell.pin("Y"), cell.number("B_SIGNED") == 1
    if len(a) > LIMIT:
        barrel(writer, a, b[:-1] if is_signed else b, y, ["x"], False, b[-1:] if is_signed else [])
        return
    index = marked(writer.expr(b), is_signed)
    writer.assign(y, f"{writer.named(a + ['x'] if len(a) == 1 else a)}[{index} +: {len(y)}]")


def barrel(writer: Writer, a: Bits, amount: Bits, y: Bits, fill: Bits, left: bool, beyond: Bits | None = None) -> None:
    """A shift of a vector that is too long for the operator, bit of the amount by bit; any bit of `beyond` moves all out. As with
    the operator all bits are X where a bit of the amount is unknown: there the amount does not equal itself."""
    out = list(beyond or [])
    known = writer.short(amount + out)
    for place, bit in enumerate(amount):
        if bit == "0":
            continue
        step = 1 << place
        if step >= len(a):
            out.append(bit)
            continue
        moved = fill * step + a[:-step] if left else a[step:] + fill * step
        shifted = writer.fresh(len(a))
        condition = writer.expr([bit])
        writer.by_pieces(shifted, [moved, a], lambda one, other: f"{condition} ? {one} : {other}")
        a = shifted
    rest = (a + fill * len(y))[:len(y)]
    outside = f"|{writer.short(out)} ? " if out else ""
    nothing: Bits = ["x"] * len(y)
    writer.by_pieces(y, [fill * len(y), rest, nothing], lambda one, other, unknown:
                     f"{known} != {known} ? {unknown} : {outside}{one} : {other}" if outside else
                     f"{known} != {known} ? {unknown} : {other}")
