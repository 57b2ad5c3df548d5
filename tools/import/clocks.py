"""Where clocks and asynchronous controls come from: from one input of the top, or from what the design makes.

In svtv a clocked block reads the phase before. A register behind a clock that another register makes therefore reads, at
an edge of that clock, what stood before the edge of the first clock, and not what a simulator has just written.
"""
from __future__ import annotations

from collections import deque
from dataclasses import dataclass, field
from typing import Iterator

from netlist import Bit, Cell, Module
from registers import Control
from rtlil import Hints, signal_bits

PortBit = tuple[str, int]
CLOCKS = ("CLK", "WR_CLK")
CONTROLS = ("ARST", "ALOAD", "SET", "CLR")


@dataclass(frozen=True)
class Sources:
    """What a net is made of: bits of the module's inputs, and registers, of which each is told in words."""
    inputs: frozenset[PortBit]
    stores: frozenset[str]


@dataclass(frozen=True)
class Origins:
    """What a net is made of in an instance: inputs of the top, and registers of the design."""
    inputs: frozenset[str]
    stores: frozenset[str]

    @property
    def told(self) -> bool:
        return bool(self.stores) or len(self.inputs) > 1


@dataclass
class Timing:
    """What is known of the clocks and controls of a module in all of its instances."""
    controls: dict[int, list[Control]] = field(default_factory=dict)  # of the bits of registers, as cells ASYNC hold them
    made: set[Bit] = field(default_factory=set)                       # controls that depend on registers
    told: dict[int, dict[str, Origins]] = field(default_factory=dict)  # clocks that are not one input, by instance
    instances: int = 0                                                # how many instances, by different origins, were looked at
    clock_inputs: set[str] = field(default_factory=set)               # the inputs of the top on which clocks depend
    control_inputs: set[str] = field(default_factory=set)             # and those on which asynchronous controls depend


def is_clocked(cell: Cell) -> bool:
    return cell.stores and ("CLK" in cell.pins or "WR_CLK" in cell.pins)


def clock_nets(module: Module) -> set[int]:
    return {bit for cell in module.cells if is_clocked(cell) for pin in CLOCKS for bit in cell.pin(pin) if isinstance(bit, int)}


def control_nets(module: Module, controls: dict[int, list[Control]]) -> set[int]:
    bits = [bit for cell in module.cells if is_clocked(cell) for pin in CONTROLS for bit in cell.pin(pin)]
    bits += [control.bit for each in controls.values() for control in each]
    return {bit for bit in bits if isinstance(bit, int)}


class Tracer:
    """Looks for the sources of nets, module by module; each answer is kept."""

    def __init__(self, modules: dict[str, Module], hints: dict[str, Hints]) -> None:
        self.modules = modules
        self.controls = {name: process_controls(module, hints[name]) for name, module in modules.items() if name in hints}
        self._known: dict[tuple[str, int], Sources] = {}
        self._needs: dict[str, set[PortBit]] = {}

    def sources(self, module: Module, net: Bit) -> Sources:
        if isinstance(net, str):
            return Sources(frozenset(), frozenset())
        key = (module.name, net)
        if key not in self._known:
            self._known[key] = self._search(module, net)
        return self._known[key]

    def _search(self, module: Module, net: int) -> Sources:
        inputs: set[PortBit] = set()
        stores: set[str] = set()
        seen: set[Bit] = set()
        todo: list[Bit] = [net]
        while todo:
            bit = todo.pop()
            if bit in seen or isinstance(bit, str):
                continue
            seen.add(bit)
            if bit in module.outside:
                inputs.add(module.outside[bit])
            for cell, pin, index in module.drivers.get(bit, []):
                if cell.kind in self.modules:
                    below = self._below(cell, pin, index)
                    stores.update(below.stores)
                    todo += [cell.pin(port)[place] for port, place in below.inputs if place < len(cell.pin(port))]
                elif cell.stores:
                    stores.add(f"{module.bit_names.get(bit, cell.name)} at {cell.source}")
                else:
                    todo += read_bits(cell, index)
        return Sources(frozenset(inputs), frozenset(stores))

    def _below(self, cell: Cell, pin: str, index: int) -> Sources:
        """The sources of an instance's port, in words of its inputs."""
        child = self.modules[cell.kind]
        found = self.sources(child, child.ports[pin].bits[index])
        return Sources(found.inputs - {(pin, index)}, frozenset(f"{cell.name}.{text}" for text in found.stores))

    def needs(self, module: Module) -> set[PortBit]:
        """The bits of its inputs on which a clock or a control of the module, or of one below, depends."""
        if module.name not in self._needs:
            nets: set[Bit] = {*clock_nets(module), *control_nets(module, self.controls.get(module.name, {}))}
            for cell in module.cells:
                if cell.kind in self.modules:
                    nets.update(cell.pin(port)[index] for port, index in self.needs(self.modules[cell.kind])
                                if index < len(cell.pin(port)))
            self._needs[module.name] = {bit for net in nets for bit in self.sources(module, net).inputs}
        return self._needs[module.name]


def read_bits(cell: Cell, index: int) -> Iterator[Bit]:
    """What a bit of a cell's result depends on: of cells that work bit by bit only the same place of each operand."""
    alone = cell.kind in ("$not", "$pos", "$and", "$or", "$xor", "$xnor", "$mux", "$tribuf")
    for pin, bits in cell.pins.items():
        if cell.directions.get(pin) == "output":
            continue
        if alone and pin in "AB":
            yield from bits[index:index + 1]
        else:
            yield from bits


def look_at_clocks(modules: dict[str, Module], hints: dict[str, Hints], top: Module) -> dict[str, Timing]:
    """The timing of each module that is reached from the top."""
    tracer = Tracer(modules, hints)
    timings: dict[str, Timing] = {}
    seen: set[tuple[str, frozenset[tuple[PortBit, Origins]]]] = set()
    start = {(port, index): Origins(frozenset([port if len(top.ports[port].bits) == 1 else f"{port}[{index}]"]), frozenset())
             for port, index in tracer.needs(top)}
    todo = deque([(top, "", start)])
    while todo:
        module, path, given = todo.popleft()
        key = (module.name, frozenset(given.items()))
        if key in seen:
            continue
        seen.add(key)
        if module.name not in timings:
            timings[module.name] = Timing(tracer.controls.get(module.name, {}))
        note_origins(tracer, timings[module.name], module, path, given)
        for cell in module.cells:
            if cell.kind in modules:
                child = modules[cell.kind]
                below = {(port, index): origins(tracer, module, path, given, cell.pin(port)[index])
                         for port, index in tracer.needs(child) if index < len(cell.pin(port))}
                todo.append((child, f"{path}{cell.name}.", below))
    return timings


def origins(tracer: Tracer, module: Module, path: str, given: dict[PortBit, Origins], net: Bit) -> Origins:
    found = tracer.sources(module, net)
    outer = [given[bit] for bit in found.inputs if bit in given]
    return Origins(frozenset().union(*(each.inputs for each in outer)),
                   frozenset(path + text for text in found.stores).union(*(each.stores for each in outer)))


def note_origins(tracer: Tracer, timing: Timing, module: Module, path: str, given: dict[PortBit, Origins]) -> None:
    timing.instances += 1
    for net in sorted(clock_nets(module)):
        found = origins(tracer, module, path, given, net)
        timing.clock_inputs |= found.inputs
        if found.told:
            timing.told.setdefault(net, {})[path] = found
    for net in control_nets(module, timing.controls):
        found = origins(tracer, module, path, given, net)
        timing.control_inputs |= found.inputs
        if found.stores:
            timing.made.add(net)


def process_controls(module: Module, hints: Hints) -> dict[int, list[Control]]:
    """The controls of each bit of the registers of processes that have several, in the order in which they count."""
    found: dict[int, list[Control]] = {}
    for process in hints.processes:
        for register in process[0].updates:
            q = signal_bits(register, module.net_bits)
            signals = [signal_bits(control.signal, module.net_bits) for control in process]
            values = [signal_bits(control.updates[register], module.net_bits) for control in process]
            if q is None or None in signals or None in values:
                continue
            for number, bit in enumerate(q):
                if isinstance(bit, int):
                    found[bit] = [Control(signal[0], control.high, [value[number]])
                                  for control, signal, value in zip(process, signals, values) if signal and value]
    return found
