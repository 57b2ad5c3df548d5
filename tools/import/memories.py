"""Memories, as a register for each word: writes are conditions on it, and a read chooses among the words."""
from __future__ import annotations

from dataclasses import dataclass

from netlist import Bits, Cell, Refused
from registers import edge
from writer import LIMIT, Writer, equal_runs, split

LARGEST = 65536  # the bits of the largest memory


@dataclass(frozen=True)
class Shape:
    """How a memory is laid out, and where its words are: nets, or the constants of one that is never written."""
    cell: Cell
    name: str | None
    size: int
    width: int
    first: int
    words: list[Bits]

    @property
    def address_width(self) -> int:
        """The bits of an address that tell its words apart."""
        return (self.first + self.size - 1).bit_length()

    def port(self, pin: str, number: int, width: int) -> Bits:
        return self.cell.pin(pin)[number * width:(number + 1) * width]

    def address(self, pin: str, number: int) -> Bits:
        return self.port(pin, number, self.cell.number("ABITS"))


def memory_name(cell: Cell) -> str | None:
    """The name in the source, or None."""
    name = cell.text("MEMID")
    return name[1:] if name.startswith("\\") and "$func$" not in name else None


def lay_out(writer: Writer, cell: Cell) -> Shape:
    """Judges a memory, and makes its words."""
    size, width, first = cell.number("SIZE"), cell.number("WIDTH"), cell.signed_number("OFFSET")
    if size * width > LARGEST:
        raise Refused(f"the memory has {size} words of {width} bits, more than {LARGEST} bits")
    if first < 0:
        raise Refused("the memory has an index below 0")
    if "1" in cell.text("RD_CLK_ENABLE") + cell.text("RD_WIDE_CONTINUATION") + cell.text("WR_WIDE_CONTINUATION"):
        raise Refused("a port of the memory has no counterpart")
    init: Bits = list(cell.text("INIT")[::-1].ljust(size * width, "x"))
    name = memory_name(cell)
    if cell.number("WR_PORTS") == 0:
        return Shape(cell, name, size, width, first, [init[at:at + width] for at in range(0, size * width, width)])
    words, names = [], []
    for number in range(first, first + size):
        bits = writer.new_bits(width)
        vectors = writer.declare(f"{name}[{number}]" if name else None, width, quiet=True)
        writer.wires += vectors
        writer.own(bits, vectors)
        words.append(bits)
        names.append(vectors[0].name)
        for at, vector in zip(range(0, width, LIMIT), vectors):
            writer.initial(vector, init[(number - first) * width + at:][:vector.length])
    if name:
        writer.notes.append(f"{names[0]} is the word {name}[{first}]" if size == 1 else
                            f"{names[0]} to {names[-1]} are the words {name}[{first}] to {name}[{first + size - 1}]")
    return Shape(cell, name, size, width, first, words)


def memory(writer: Writer, cell: Cell) -> None:
    shape = lay_out(writer, cell)
    if cell.number("WR_PORTS"):
        write_words(writer, shape)
    for number in range(cell.number("RD_PORTS")):
        read_word(writer, shape, number)


@dataclass(frozen=True)
class Put:
    """A write port: when it writes, the low part of its address, its data, and the enable of each bit."""
    inside: str
    low: str
    data: Bits
    enables: Bits


def write_words(writer: Writer, shape: Shape) -> None:
    """A block for each word, with the write ports in their order, of which the last one counts."""
    ports = range(shape.cell.number("WR_PORTS"))
    clocks = {(shape.cell.pin("WR_CLK")[number], shape.cell.text("WR_CLK_POLARITY")[::-1][number]) for number in ports}
    if "0" in shape.cell.text("WR_CLK_ENABLE") or len(clocks) != 1:
        raise Refused("the memory is not written at the edges of one clock")
    (clock, high), = clocks
    head = f"always_ff @({edge(writer, clock, high == '1')}) "
    puts = [write_port(writer, shape, number) for number in ports]
    for place, bits in enumerate(shape.words):
        statements = [text for put in puts for text in put_texts(writer, put, bits, f"{shape.address_width}'d{shape.first + place}")]
        statements = statements or [writer.write(bits, bits, "<=")]
        writer.lines.append(head + (statements[0] if len(statements) == 1 else f"begin {' '.join(statements)} end"))


def write_port(writer: Writer, shape: Shape, number: int) -> Put:
    address = shape.address("WR_ADDR", number)
    low = (address + ["0"] * shape.address_width)[:shape.address_width]
    high = [bit for bit in address[shape.address_width:] if bit != "0"]
    return Put(f"!(|{writer.short(high)})" if high else "", writer.short(low) if low else "", shape.port("WR_DATA", number, shape.width),
               shape.port("WR_EN", number, shape.width))


def put_texts(writer: Writer, put: Put, word: Bits, number: str) -> list[str]:
    """The statements by which a port writes a word, one for each run of bits with one enable."""
    texts = []
    for start, end in equal_runs(put.enables):
        enable = put.enables[start]
        if enable == "0":
            continue
        conditions = [] if enable == "1" else [writer.expr([enable])]
        conditions += [put.inside] * bool(put.inside) + [f"{put.low} == {number}"] * bool(put.low)
        statement = writer.write(word[start:end], put.data[start:end], "<=")
        texts.append(f"if ({' && '.join(conditions)}) {statement}" if conditions else statement)
    return texts


def read_word(writer: Writer, shape: Shape, number: int) -> None:
    """A choice of the word at an address, bit of the address by bit; X where there is no word."""
    address = shape.address("RD_ADDR", number)
    width = shape.address_width
    low, high = (address + ["0"] * width)[:width], [bit for bit in address[width:] if bit != "0"]
    conditions = [writer.expr([bit]) for bit in low]
    outside = f"|{writer.short(high)} ? " if high else ""
    data = shape.port("RD_DATA", number, shape.width)
    for at, goal in zip(range(0, shape.width, LIMIT), split(data)):
        nothing = f"{len(goal)}'bx"
        texts = [writer.expr(word[at:at + LIMIT]) for word in shape.words]
        text = tree(conditions, shape.first, texts, nothing, 0, len(low)) or nothing
        writer.assign(goal, f"{outside}{nothing} : {text}" if outside else text)


def tree(conditions: list[str], first: int, texts: list[str], nothing: str, base: int, depth: int) -> str | None:
    """The choice among the addresses from base on, as many as depth bits tell apart; None where no word is there."""
    if base >= first + len(texts) or base + (1 << depth) <= first:
        return None
    if depth == 0:
        return texts[base - first]
    low = tree(conditions, first, texts, nothing, base, depth - 1)
    high = tree(conditions, first, texts, nothing, base + (1 << depth - 1), depth - 1)
    return f"{conditions[depth - 1]} ? {high or nothing} : {low or nothing}"
