"""Writes the body of a module: vectors of at most 128 bits, expressions over nets, assignments."""
from __future__ import annotations

import re
from itertools import groupby
from typing import TYPE_CHECKING, Callable, NamedTuple, Sequence

from names import Names
from netlist import Bit, Bits, Refused

if TYPE_CHECKING:
    from clocks import Timing

LIMIT = 128  # the longest vector of the subset


class Vector(NamedTuple):
    name: str
    length: int


class Place(NamedTuple):
    vector: Vector
    bit: int


def literal(bits: Sequence[Bit]) -> str:
    """Constant bits, the lowest first, as a literal with a size."""
    digits = "".join(map(str, reversed(bits)))
    if len(set(digits)) == 1 and digits[0] in "xz":
        return f"{len(digits)}'b{digits[0]}"
    if set(digits) <= set("01") and len(digits) > 8:
        return f"{len(digits)}'h{int(digits, 2):x}"
    return f"{len(digits)}'b{digits}"


def split(bits: Bits) -> list[Bits]:
    """Pieces that the subset can hold."""
    return [bits[k:k + LIMIT] for k in range(0, len(bits), LIMIT)]


def extend(bits: Bits, width: int, signed: bool) -> Bits:
    """The bits cut or extended to a width."""
    fill = bits[-1] if signed and bits else "0"
    return bits[:width] + [fill] * (width - len(bits))


def span(length: int) -> str:
    return f" [{length - 1}:0]" if length > 1 else ""


class Writer:
    """The body of a module while it is written."""

    def __init__(self, first_free: int, timing: Timing) -> None:
        self.timing = timing
        self.names = Names()
        self.places: dict[int, Place] = {}
        self.wires: list[Vector] = []     # declared inside of the module
        self.stored: set[str] = set()     # the vectors that a block writes
        self.lines: list[str] = []
        self.notes: list[str] = []        # comments at the head of the module
        self.initials: list[tuple[Vector, str]] = []  # vectors with an initial value, as a literal
        self.warnings: dict[str, None] = {}  # those of them that tell of a different meaning
        self._next = first_free
        self._count = 0
        self._named: dict[str, str] = {}
        self._before: dict[Bit, str] = {}

    # Vectors and places

    def declare(self, shown: str | None, width: int, quiet: bool = False) -> list[Vector]:
        """New vectors for so many bits, under the name of the source where there is one; a note tells where it changed."""
        self._count += shown is None
        vectors = []
        for low in range(0, width, LIMIT):
            high = min(low + LIMIT, width) - 1
            wanted = shown or f"n{self._count}"
            name = self.names.take(f"{wanted}_{high}_{low}" if width > LIMIT else wanted)
            if shown and name != shown and not quiet:
                self.notes.append(f"{name} is {shown}" + (f"[{high}:{low}]" if width > LIMIT else ""))
            vectors.append(Vector(name, high - low + 1))
        return vectors

    def own(self, bits: Bits, vectors: Sequence[Vector]) -> None:
        """Makes vectors the places of those of the nets that have none."""
        for number, bit in enumerate(bits):
            if isinstance(bit, int):
                self.places.setdefault(bit, Place(vectors[number // LIMIT], number % LIMIT))

    def fresh_wire(self, width: int) -> list[Vector]:
        vectors = self.declare(None, width)
        self.wires += vectors
        return vectors

    def new_bits(self, width: int) -> Bits:
        self._next += width
        return list(range(self._next - width, self._next))

    def fresh(self, width: int) -> Bits:
        """The nets of a new wire."""
        bits = self.new_bits(width)
        self.own(bits, self.fresh_wire(width))
        return bits

    def initial(self, vector: Vector, bits: Sequence[Bit]) -> None:
        """Notes the initial value of a register, where it has one: bits of a word without one leave no row."""
        value = f"{vector.length}'b" + "".join(map(str, reversed(bits)))
        if "x" not in bits:
            self.initials.append((vector, value))
        elif set(bits) != {"x"}:
            self.notes.append(f"{vector.name} begins with {value}, which is no row of a table")

    # Expressions

    def expr(self, bits: Bits) -> str:
        return self._joined([self._constant(bits, start, end) if isinstance(bits[start], str) else self._part(bits, start, end)
                             for start, end in self._runs(bits)], len(bits))

    def target(self, bits: Bits) -> str:
        if any(isinstance(bit, str) for bit in bits):
            raise Refused("a constant is driven")
        return self._joined([self._part(bits, start, end) for start, end in self._runs(bits, False)], len(bits))

    def _joined(self, parts: list[str], width: int) -> str:
        if not 0 < width <= LIMIT:
            raise Refused(f"a vector of {width} bits stands where only 1 to {LIMIT} can")
        return parts[0] if len(parts) == 1 else "{" + ", ".join(reversed(parts)) + "}"

    def _runs(self, bits: Bits, repeated: bool = True) -> list[tuple[int, int]]:
        """Cuts bits into constants, parts of vectors and, where they may be, repetitions of one bit."""
        runs, start = [], 0
        while start < len(bits):
            first, end = bits[start], start + 1
            if isinstance(first, str):
                while end < len(bits) and isinstance(bits[end], str):
                    end += 1
            elif repeated and end < len(bits) and bits[end] == first:
                while end < len(bits) and bits[end] == first:
                    end += 1
            else:
                vector, index = self._place(first)
                while end < len(bits) and self._at(bits[end]) == (vector, index + end - start):
                    end += 1
            runs.append((start, end))
            start = end
        return runs

    def _place(self, bit: int) -> Place:
        if bit not in self.places:
            self.own([bit], self.fresh_wire(1))
        return self.places[bit]

    def _at(self, bit: Bit) -> Place | None:
        return self.places.get(bit) if isinstance(bit, int) else None

    def _constant(self, bits: Bits, start: int, end: int) -> str:
        return literal(bits[start:end])

    def _part(self, bits: Bits, start: int, end: int) -> str:
        first = bits[start]
        assert isinstance(first, int)
        vector, index = self._place(first)
        if end > start + 1 and bits[start + 1] == first:
            return f"{{{end - start}{{{select(vector, index, index)}}}}}"
        return select(vector, index, index + end - start - 1)

    def named(self, bits: Bits) -> str:
        """A name that stands for these bits alone, the same one whenever it is asked for."""
        text = self.expr(bits)
        if re.fullmatch(r"[A-Za-z_][\w$]*", text):
            return text
        if text not in self._named:
            wire, = self.fresh_wire(len(bits))
            self.lines.append(f"assign {wire.name} = {text};")
            self._named[text] = wire.name
        return self._named[text]

    def short(self, bits: Bits) -> str:
        """A text for bits that stand in many places: a name or a part of one."""
        text = self.expr(bits)
        return self.named(bits) if text.startswith("{") else text

    def before(self, bit: Bit) -> str:
        """Another name for a net, which no edge has: in a clocked block it is read in the phase before."""
        if bit not in self._before:
            wire, = self.fresh_wire(1)
            self.lines.append(f"assign {wire.name} = {self.expr([bit])};")
            self._before[bit] = wire.name
        return self._before[bit]

    # Assignments

    def assign(self, bits: Bits, text: str, comment: str = "") -> None:
        self.lines.append(f"assign {self.target(bits)} = {text};" + (f"  // {comment}" if comment else ""))

    def assign_truth(self, bits: Bits, text: str, comment: str = "") -> None:
        """An assignment of a value of one bit, with 0 above it."""
        self.assign(bits[:LIMIT], text, comment)
        if len(bits) > LIMIT:
            nothing: Bits = ["0"] * (len(bits) - LIMIT)
            self.by_pieces(bits[LIMIT:], [nothing], str)

    def by_pieces(self, target: Bits, sources: Sequence[Bits], form: Callable[..., str]) -> None:
        """An assignment for each piece of the target; the sources are as long as it."""
        for low in range(0, len(target), LIMIT):
            texts = [self.expr(source[low:low + LIMIT]) for source in sources]
            self.assign(target[low:low + LIMIT], form(*texts))

    def write(self, target: Bits, value: Bits, mark: str) -> str:
        """The statement that gives a value to a register or a latch."""
        pieces = [f"{self.target(to)} {mark} {self.expr(of)};" for to, of in zip(split(target), split(value))]
        self.stored.update(self.places[bit].vector.name for bit in target if isinstance(bit, int))
        return pieces[0] if len(pieces) == 1 else f"begin {' '.join(pieces)} end"

    def warn(self, text: str) -> None:
        """Tells of a different meaning, once."""
        if text not in self.warnings:
            self.warnings[text] = None
            self.notes.append(text)


def select(vector: Vector, low: int, high: int) -> str:
    if high - low + 1 == vector.length:
        return vector.name
    return f"{vector.name}[{low}]" if high == low else f"{vector.name}[{high}:{low}]"


def equal_runs(keys: Sequence[object]) -> list[tuple[int, int]]:
    """Where runs of equal keys begin and end."""
    runs, start = [], 0
    for _, group in groupby(keys):
        end = start + len(list(group))
        runs.append((start, end))
        start = end
    return runs
