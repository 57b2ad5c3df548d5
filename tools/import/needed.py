"""Which cells are needed: where the controls of registers are told by their process, cells that made them are not."""
from __future__ import annotations

from typing import Iterable

from netlist import Bit, Cell, Module
from registers import Control

REPLACED = ("SET", "CLR", "ARST", "ALOAD", "AD")


def needed_cells(module: Module, instances: Iterable[str], controls: dict[int, list[Control]]) -> list[Cell]:
    """The cells on which a named net, a register, an instance or an assertion depends."""
    if not controls:
        return module.cells
    kinds = set(instances)
    lasting = [cell for cell in module.cells if cell.stores or cell.kind in kinds or not cell.drives]
    todo: list[Bit] = [bit for net in module.nets if net.shown is not None for bit in net.bits]
    for cell in lasting:
        todo += read_pins(cell, controls)
    seen: set[Bit] = set()
    found = {cell.name for cell in lasting}
    while todo:
        bit = todo.pop()
        if bit in seen or isinstance(bit, str):
            continue
        seen.add(bit)
        for cell, _, _ in module.drivers.get(bit, []):
            if cell.name not in found:
                found.add(cell.name)
                todo += read_pins(cell, controls)
    return [cell for cell in module.cells if cell.name in found]


def read_pins(cell: Cell, controls: dict[int, list[Control]]) -> list[Bit]:
    told = any(bit in controls for bit in cell.pin("Q"))
    read = [bit for pin, bits in cell.pins.items() if cell.directions.get(pin) != "output" and not (told and pin in REPLACED)
            for bit in bits]
    return read + [bit for register in cell.pin("Q") if isinstance(register, int) for control in controls.get(register, [])
                   for bit in (control.bit, *control.value)]
