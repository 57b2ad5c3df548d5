"""Netlists as yosys writes them: modules of ports, nets and cells, each over numbered bits."""
from __future__ import annotations

import re
from dataclasses import dataclass, field
from functools import cached_property
from typing import Any, Union

Bit = Union[int, str]  # the number of a net, or one of the constants "0", "1", "x" and "z"
Bits = list[Bit]

STORING = re.compile(r"\$((ad|ald|sd|d)ff(sr)?(ce|e)?|ff|a?dlatch(sr)?|sr)$")


class Refused(Exception):
    """The design has no text; the words say why, and where."""


@dataclass(frozen=True)
class Cell:
    """A cell, or an instance of a module: what is joined to its pins, the lowest bit first."""
    name: str
    kind: str
    source: str
    parameters: dict[str, Any]
    directions: dict[str, str]
    pins: dict[str, Bits]

    def pin(self, name: str) -> Bits:
        return self.pins.get(name, [])

    def text(self, key: str) -> str:
        return str(self.parameters.get(key, ""))

    def number(self, key: str) -> int:
        """A parameter that is a number, 0 where there is none."""
        value = self.parameters.get(key, 0)
        return value if isinstance(value, int) else int(value, 2)

    def signed_number(self, key: str) -> int:
        value, length = self.number(key), len(self.text(key))
        return value - (1 << length) if value >> (length - 1) else value

    @property
    def stores(self) -> bool:
        """Whether it is a register, a latch, or a memory that is written."""
        return bool(STORING.match(self.kind)) or self.kind == "$mem_v2" and self.number("WR_PORTS") > 0

    @property
    def drives(self) -> bool:
        """Whether it has a pin that drives something."""
        return any(self.directions.get(pin) in ("output", "inout") for pin in self.pins)


Driver = tuple[Cell, str, int]  # a cell, and the pin and the index there


@dataclass(frozen=True)
class Port:
    name: str
    direction: str
    bits: Bits


@dataclass(frozen=True)
class Net:
    """A wire of the source, or one that yosys made: its name, its bits, and the initial value, the highest bit first."""
    name: str
    hidden: bool
    bits: Bits
    init: str

    @property
    def shown(self) -> str | None:
        """The name in the source, or None."""
        return None if self.hidden or "$func$" in self.name else self.name


@dataclass
class Module:
    name: str
    attributes: dict[str, Any]
    ports: dict[str, Port]
    nets: list[Net]
    cells: list[Cell]
    unmapped: list[str] = field(default_factory=list)  # the names of memories that no cell holds

    @property
    def shown(self) -> str:
        """The name in the source: without what yosys adds for parameters."""
        word = re.match(r"\$paramod(?:\$[0-9a-f]{40})?\\([^\\]+)", self.name)
        return word[1] if word else self.name

    @cached_property
    def drivers(self) -> dict[int, list[Driver]]:
        """Of each net the cells that drive it."""
        found: dict[int, list[Driver]] = {}
        for cell in self.cells:
            for pin, bits in cell.pins.items():
                if cell.directions.get(pin) in ("output", "inout"):
                    for index, bit in enumerate(bits):
                        if isinstance(bit, int):
                            found.setdefault(bit, []).append((cell, pin, index))
        return found

    @cached_property
    def outside(self) -> dict[int, tuple[str, int]]:
        """Of each net that an input or an inout gives the port, and its index there."""
        return {bit: (port.name, index) for port in self.ports.values() if port.direction != "output"
                for index, bit in enumerate(port.bits) if isinstance(bit, int)}

    @cached_property
    def stored(self) -> set[Bit]:
        """The nets that registers and latches drive."""
        return {bit for cell in self.cells if STORING.match(cell.kind) for bit in cell.pin("Q")}

    @cached_property
    def initials(self) -> dict[Bit, str]:
        """The initial values of registers and latches, 0 or 1, by their nets."""
        return {bit: value for net in self.nets for bit, value in zip(net.bits, reversed(net.init))
                if value in "01" and bit in self.stored}

    @cached_property
    def net_bits(self) -> dict[str, Bits]:
        """The bits of each net, by its name."""
        return {net.name: net.bits for net in self.nets}

    @cached_property
    def highest(self) -> int:
        """No net has a number over it."""
        return max((bit for net in self.nets for bit in net.bits if isinstance(bit, int)), default=0)

    @cached_property
    def bit_names(self) -> dict[int, str]:
        """A name for each net, that of the source before others."""
        found: dict[int, str] = {}
        for net in sorted(self.nets, key=lambda net: net.shown is None):
            for index, bit in enumerate(net.bits):
                if isinstance(bit, int):
                    found.setdefault(bit, net.name if len(net.bits) == 1 else f"{net.name}[{index}]")
        return found


def place_order(place: str) -> tuple[Any, ...]:
    """Orders places in the source by file, line and column."""
    word = re.match(r"(.*):(\d+)\.(\d+)", place)
    return (word[1], int(word[2]), int(word[3])) if word else (place, 0, 0)


def read_modules(data: dict[str, Any]) -> dict[str, Module]:
    """The modules of what yosys wrote."""
    return {name: read_module(name, module) for name, module in data["modules"].items()}


def read_module(name: str, data: dict[str, Any]) -> Module:
    ports = {port: Port(port, given["direction"], given["bits"]) for port, given in data["ports"].items()}
    nets = [Net(net, bool(given["hide_name"]), given["bits"], str(given["attributes"].get("init", "")))
            for net, given in data["netnames"].items()]
    cells = [Cell(cell, given["type"], given["attributes"].get("src", "?").split("|")[0], given["parameters"],
                  given.get("port_directions", {}), given["connections"]) for cell, given in data["cells"].items()]
    cells.sort(key=lambda cell: place_order(cell.source))
    return Module(name, data["attributes"], ports, nets, cells, list(data.get("memories", {})))
