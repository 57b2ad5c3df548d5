"""Cells that store: registers with their clocks and asynchronous controls, and latches."""
from __future__ import annotations

from dataclasses import dataclass

from netlist import Bit, Bits, Cell, Refused
from writer import Writer, equal_runs

Step = tuple[str, str]  # a condition, or "" for always, and a statement


@dataclass(frozen=True)
class Control:
    """An asynchronous control: its net, whether it is active at 1, and what it gives, a bit for each of the register."""
    bit: Bit
    high: bool
    value: Bits

    @property
    def idle(self) -> bool:
        return self.bit == ("0" if self.high else "1")


def register(writer: Writer, cell: Cell) -> None:
    """A block for each run of bits with the same asynchronous controls."""
    q = cell.pin("Q")
    controls = [bit_controls(writer, cell, number) for number in range(len(q))]
    for start, end in equal_runs([tuple((control.bit, control.high) for control in each) for each in controls]):
        run = controls[start:end]
        common = [Control(first.bit, first.high, [each[place].value[0] for each in run]) for place, first in enumerate(run[0])]
        edges = [edge(writer, cell.pin("CLK")[0], cell.number("CLK_POLARITY") == 1)]
        edges += [edge(writer, control.bit, control.high) for control in common]
        steps = control_steps(writer, common, q[start:end]) + data_steps(writer, cell, start, end)
        writer.lines.append(f"always_ff @({' or '.join(edges)}) " + chained(steps))
        if any(isinstance(bit, int) for control in common for bit in control.value if bit not in q):
            writer.warn(f"the register at {cell.source} is loaded, without its clock, with what stood in the phase before")


def bit_controls(writer: Writer, cell: Cell, number: int) -> list[Control]:
    """The asynchronous controls of one bit of a register that are not always idle. Where the process that it was made of had
    several, these are told by the process."""
    bit = cell.pin("Q")[number]
    found = writer.timing.controls.get(bit) if isinstance(bit, int) else None
    if found is None:
        found = set_and_clear(cell, number)
        if found and cell.name.startswith("$procdff"):
            raise Refused("it is not told which of its asynchronous controls counts first")
        if "ARST" in cell.pins:
            found.append(Control(cell.pin("ARST")[0], polarity(cell, "ARST"), [cell.text("ARST_VALUE")[::-1][number]]))
        if "ALOAD" in cell.pins:
            found.append(Control(cell.pin("ALOAD")[0], polarity(cell, "ALOAD"), [cell.pin("AD")[number]]))
    return [control for control in found if not control.idle]


def set_and_clear(cell: Cell, number: int) -> list[Control]:
    """The clear of a bit, and its set, in the order in which they count."""
    return [Control(cell.pin(pin)[number], polarity(cell, pin), [value]) for pin, value in (("CLR", "0"), ("SET", "1"))
            if pin in cell.pins]


def polarity(cell: Cell, pin: str) -> bool:
    return cell.number(f"{pin}_POLARITY") == 1


def edge(writer: Writer, bit: Bit, high: bool) -> str:
    return ("posedge " if high else "negedge ") + writer.named([bit])


def control_steps(writer: Writer, controls: list[Control], q: Bits) -> list[Step]:
    """What asynchronous controls do. A name of an edge is read in the present phase: where the design makes a control, an
    edge of the clock that ends it comes too late, so it is read once more in the phase before, under another name."""
    steps = [(level(writer.named([control.bit]), control.high), writer.write(q, control.value, "<=")) for control in controls]
    if any(control.bit in writer.timing.made for control in controls):
        steps += [(level(writer.before(control.bit), control.high), writer.write(q, control.value, "<=")) for control in controls]
    return steps


def data_steps(writer: Writer, cell: Cell, start: int, end: int) -> list[Step]:
    """What a register does at its clock, for a run of its bits."""
    enable = pin_level(writer, cell, "EN") if "EN" in cell.pins else ""
    steps: list[Step] = []
    q = cell.pin("Q")[start:end]
    if "SRST" in cell.pins:
        reset = pin_level(writer, cell, "SRST")
        value: Bits = list(cell.text("SRST_VALUE")[::-1][start:end])
        steps.append((f"{enable} && {reset}" if cell.kind == "$sdffce" else reset, writer.write(q, value, "<=")))
    return steps + [(enable, writer.write(q, cell.pin("D")[start:end], "<="))]


def latch(writer: Writer, cell: Cell) -> None:
    """A block for each run of bits with the same set and clear."""
    q = cell.pin("Q")
    controls = [set_and_clear(cell, number) for number in range(len(q))]
    for start, end in equal_runs([tuple(control.bit for control in each) for each in controls]):
        run = controls[start:end]
        steps = [(level(writer.expr([first.bit]), first.high), writer.write(q[start:end], [each[place].value[0] for each in run], "="))
                 for place, first in enumerate(run[0]) if not first.idle]
        if "ARST" in cell.pins:
            value: Bits = list(cell.text("ARST_VALUE")[::-1][start:end])
            steps.append((pin_level(writer, cell, "ARST"), writer.write(q[start:end], value, "=")))
        if "EN" in cell.pins:
            steps.append((pin_level(writer, cell, "EN"), writer.write(q[start:end], cell.pin("D")[start:end], "=")))
        writer.lines.append("always_latch " + chained(steps))


def pin_level(writer: Writer, cell: Cell, pin: str) -> str:
    return level(writer.expr(cell.pin(pin)), polarity(cell, pin))


def level(text: str, high: bool) -> str:
    return text if high else "!" + text


def chained(steps: list[Step]) -> str:
    """The first step whose condition holds."""
    return " else ".join(f"if ({condition}) {statement}" if condition else statement for condition, statement in steps)
