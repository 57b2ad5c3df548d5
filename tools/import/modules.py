"""The text of a module: its ports, wires and body, and what is told of it."""
from __future__ import annotations

from dataclasses import dataclass
from typing import Mapping

from cells import print_cell
from clocks import Origins, Timing
from needed import needed_cells
from netlist import Bits, Cell, Module, Net, Refused, place_order
from writer import LIMIT, Vector, Writer, equal_runs, select, span

MANUAL = "docs/IMPORT.md"
MOST = 4  # the most sentences about one clock


@dataclass(frozen=True)
class Printed:
    """A module as it is printed: its ports as vectors, the names of its instances, initial values, and what was told."""
    name: str
    text: str
    ports: dict[str, list[Vector]]
    nets: dict[str, list[Vector]]
    instances: dict[str, str]
    initials: list[tuple[str, str]]
    warnings: list[str]


class ModulePrinter:
    """Prints one module over those that are printed below it."""

    def __init__(self, module: Module, name: str, timing: Timing, below: Mapping[str, Printed], cases: list[str]) -> None:
        self.module = module
        self.name = name
        self.timing = timing
        self.below = below
        self.cases = cases
        self.cells = needed_cells(module, below, timing.controls)
        self.writer = Writer(module.highest + 1, timing)
        self.vectors: dict[str, list[Vector]] = {}
        self.instances: dict[str, str] = {}

    def printed(self) -> Printed:
        self._declare_ports()
        self._name_instances()
        for net in self._declare_nets():
            self._copy(net)
        for cell in self.cells:
            if cell.kind in self.below:
                self._instance(cell)
            else:
                print_cell(self.writer, cell, self.module)
        self._tell()
        ports = {name: self.vectors[name] for name in self.module.ports}
        initials = [(vector.name, value) for vector, value in self.writer.initials]
        return Printed(self.name, self._text(), ports, self.vectors, self.instances, initials, list(self.writer.warnings))

    # Names

    def _declare_ports(self) -> None:
        for name, port in self.module.ports.items():
            self.vectors[name] = self.writer.declare(name, len(port.bits))

    def _name_instances(self) -> None:
        for cell in self.module.cells:
            if cell.kind in self.below:
                shown = cell.name if not cell.name.startswith("$") else "u"
                self.instances[cell.name] = self.writer.names.take(shown)
                if self.instances[cell.name] != shown:
                    self.writer.notes.append(f"{self.instances[cell.name]} is the instance {shown}")

    def _rank(self, net: Net) -> tuple[int, ...]:
        """Which names nets with several take: an input's; for registers the one of fewest cells, the longest of these, and an
        output's last; else an output's, and the longest where the source has none."""
        port = self.module.ports.get(net.name)
        if port and port.direction != "output":
            return (0 if port.direction == "input" else 1,)
        if net.shown is None:
            return 6, -len(net.bits)
        cells = {self.module.drivers[bit][0][0].name for bit in net.bits if isinstance(bit, int) and bit in self.module.stored}
        if not cells:
            return (4 if port else 5,)
        return (2 if self.module.stored.issuperset(net.bits) else 3), len(cells), -len(net.bits), int(port is not None)

    def _declare_nets(self) -> list[Net]:
        """Gives each net its place, and answers the named wires that may have their bits elsewhere."""
        shown = []
        used = {bit for cell in self.cells for bits in cell.pins.values() for bit in bits}
        for net in sorted(self.module.nets, key=self._rank):
            if net.shown is None and all(bit in self.writer.places or bit not in used for bit in net.bits):
                continue
            fixed = self._fixed(net)
            if any(fixed) and not all(fixed):
                self._part_initial(net, fixed)
            if net.name not in self.module.ports:
                self.vectors[net.name] = self.writer.declare(net.shown, len(net.bits))
                self.writer.wires += self.vectors[net.name]
            self.writer.own(net.bits, self.vectors[net.name])
            self._note_initial(net, fixed)
            shown.append(net)
        return shown

    def _fixed(self, net: Net) -> list[bool]:
        """Which bits of a wire are registers with an initial value and without a place."""
        return [bit in self.module.initials and bit not in self.writer.places for bit in net.bits]

    def _part_initial(self, net: Net, fixed: list[bool]) -> None:
        """Gives the registers of a wire of which a part has initial values vectors of their own, so that rows can set them."""
        stored = [bit in self.module.stored and bit not in self.writer.places for bit in net.bits]
        for start, end in equal_runs(list(zip(stored, fixed))):
            if stored[start]:
                parts = self.writer.declare(f"{net.shown or 'n'}_{end - 1}_{start}", end - start)
                if net.shown:
                    self.writer.notes.append(f"{parts[0].name} is {net.shown}[{end - 1}:{start}]")
                self.writer.wires += parts
                self.writer.own(net.bits[start:end], parts)

    def _note_initial(self, net: Net, fixed: list[bool]) -> None:
        vectors = [self.writer.places[bit].vector if mark and isinstance(bit, int) else None for bit, mark in zip(net.bits, fixed)]
        for start, end in equal_runs(vectors):
            vector = vectors[start]
            if vector:
                self.writer.initial(vector, [self.module.initials[bit] for bit in net.bits[start:end]])

    # The body

    def _copy(self, net: Net) -> None:
        """Assigns those bits of a wire that have their place in another one."""
        port = self.module.ports.get(net.name)
        for number, vector in enumerate(self.vectors[net.name]):
            bits = net.bits[number * LIMIT:(number + 1) * LIMIT]
            moved = [not (isinstance(bit, int) and self.writer.places[bit] == (vector, index)) for index, bit in enumerate(bits)]
            if port and port.direction != "output" and any(moved):
                self._judge_joined(net, [bit for bit, mark in zip(bits, moved) if mark])
            for start, end in equal_runs(moved):
                if moved[start]:
                    self.writer.lines.append(f"assign {select(vector, start, end - 1)} = {self.writer.expr(bits[start:end])};")

    def _judge_joined(self, net: Net, bits: Bits) -> None:
        """An inout may be driven by an input or a constant; nothing else joins two ports that are inputs or inouts."""
        inputs = {bit for port in self.module.ports.values() if port.direction == "input" for bit in port.bits}
        if self.module.ports[net.name].direction == "input" or any(isinstance(bit, int) and bit not in inputs for bit in bits):
            raise Refused(f"module {self.module.shown}: the port {net.name} is joined to another one, or to a constant")
        self.writer.warn(f"what reads the inout {net.name} in this module sees what the module drives it with, not what the outside does")

    def _instance(self, cell: Cell) -> None:
        child = self.below[cell.kind]
        joined = []
        for port, bits in cell.pins.items():
            target = cell.directions.get(port) != "input"
            for number, vector in enumerate(child.ports[port]):
                piece = bits[number * LIMIT:number * LIMIT + vector.length]
                if piece:
                    joined.append(f".{vector.name}({self.writer.target(piece) if target else self.writer.expr(piece)})")
        self.writer.lines.append(f"{child.name} {self.instances[cell.name]} ({', '.join(joined)});")

    # What is told

    def _tell(self) -> None:
        for place in sorted(set(self.cases), key=place_order):
            self.writer.notes.append(f"full_case, parallel_case, unique or priority at {place} counts for nothing: where no arm "
                                     "matches the old value stays, or X comes")
        for net, found in self.timing.told.items():
            for words in clock_words(self.writer.expr([net]), found, self.timing.instances):
                self.writer.warn(words)
        for name in written_twice(self.module):
            self.writer.warn(f"the register {name} is written by several blocks: it is X where they differ")
        for bit in sorted(bit for bit in self.module.outside if bit in self.module.drivers):
            name, index = self.module.outside[bit]
            if self.module.ports[name].direction == "input":
                raise Refused(f"module {self.module.shown}: the input {name} has a driver inside of the module at bit {index}")

    def _text(self) -> str:
        def sort(vector: Vector) -> str:
            return ("logic" if vector.name in self.writer.stored else "wire") + span(vector.length)

        ports = [f"  {port.direction} {sort(vector)} {vector.name}" for name, port in self.module.ports.items()
                 for vector in self.vectors[name]]
        lines = [f"// {note}" for note in self.writer.notes]
        lines.append(f"module {self.name} (" + ("\n" + ",\n".join(ports) + "\n" if ports else "") + ");")
        lines += [f"  {sort(vector)} {vector.name};" for vector in self.writer.wires]
        return "\n".join(lines + ["  " + line for line in self.writer.lines] + ["endmodule"]) + "\n"


def written_twice(module: Module) -> list[str]:
    """The names of registers that have another driver besides."""
    bits = [bit for bit, drivers in module.drivers.items() if len(drivers) > 1 and any(cell.stores for cell, _, _ in drivers)]
    return sorted({module.bit_names.get(bit, "?").split("[")[0] for bit in bits})


def clock_words(name: str, found: dict[str, Origins], instances: int) -> list[str]:
    """What is told of a clock that is not one input of the top: a sentence for each way in which it is made, registers first."""
    paths: dict[Origins, list[str]] = {}
    for path, each in found.items():
        paths.setdefault(each, []).append(path[:-1])
    sentences = []
    for each in sorted(paths, key=lambda each: not each.stores):
        where = "" if len(paths[each]) == instances or paths[each] == [""] else f" in the instance {paths[each][0]}"
        if each.stores:
            stores = sorted(each.stores)
            more = f" and {len(stores) - 1} more" if len(stores) > 1 else ""
            sentences.append(f"the clock {name} is made by the design{where}, of the register {stores[0]}{more}: see {MANUAL}")
        else:
            sentences.append(f"the clock {name} is made{where} of the inputs {' and '.join(sorted(each.inputs))}: see {MANUAL}")
    return sentences[:MOST] + ([f"the clock {name} is made in {len(sentences) - MOST} more ways"] if len(sentences) > MOST else [])
