"""The text of a whole design: its modules, those below first, and its initial values as rows of a table."""
from __future__ import annotations

from typing import Iterator

from clocks import Timing, look_at_clocks
from modules import ModulePrinter, Printed
from names import Names
from netlist import Module, Refused
from rtlil import Hints
from yosys import Read

Row = tuple[str, str]  # the path of a register, and its initial value


class Design:
    """A design with a top, printed module by module."""

    def __init__(self, read: Read) -> None:
        self.modules = read.modules
        self.hints = read.hints
        self.top = the_top(self.modules)
        self.timings = look_at_clocks(self.modules, self.hints, self.top)
        self.printed: dict[str, Printed] = {}
        names = Names()
        plain_first = sorted(self.modules, key=lambda name: name.startswith("$"))
        self._names = {name: names.take(self.modules[name].shown) for name in plain_first}
        self._print(self.top)

    def _print(self, module: Module) -> None:
        """Prints a module behind those that it instantiates."""
        if {"blackbox", "whitebox"} & set(module.attributes):
            raise Refused(f"the module {module.shown} has no text")
        hints = self.hints.get(module.name, Hints())
        if hints.unknown:
            raise Refused(f"{hints.unknown[0]}: module {module.shown} has a case with an x or a z in a label")
        if module.unmapped:
            raise Refused(f"module {module.shown}: the memory {module.unmapped[0]} is no cell")
        for cell in module.cells:
            if cell.kind in self.modules and cell.kind not in self.printed:
                self._print(self.modules[cell.kind])
        timing = self.timings.get(module.name, Timing())
        printer = ModulePrinter(module, self._names[module.name], timing, self.printed, hints.cases)
        self.printed[module.name] = printer.printed()

    def warnings(self) -> Iterator[str]:
        """What is told of a different meaning, with its module."""
        for printed in self.printed.values():
            for text in printed.warnings:
                yield f"module {printed.name}: {text}"

    def rows(self) -> Iterator[Row]:
        """The initial values of all registers, from the top down."""
        yield from self._rows(self.top, "")

    def _rows(self, module: Module, path: str) -> Iterator[Row]:
        printed = self.printed[module.name]
        for name, value in printed.initials:
            yield path + name, value
        for cell in module.cells:
            if cell.kind in self.modules:
                yield from self._rows(self.modules[cell.kind], f"{path}{printed.instances[cell.name]}.")

    def text(self, phases: int | None) -> str:
        parts = []
        for name, printed in self.printed.items():
            head = f"// {printed.name} is {name}\n" if printed.name != name else ""
            parts.append(head + printed.text)
        rows = row_lines(self.rows(), phases or 1)
        if rows:
            cells = f"{phases} cells" if phases else "one cell; a row of the table needs an empty one for each further phase"
            parts.append(f"// Initial values as rows of a table, with {cells}. A row holds its register through the first phase.\n"
                         + "".join(f"//   {row}\n" for row in rows))
        return "\n".join(parts)


def row_lines(rows: Iterator[Row], phases: int) -> list[str]:
    """Records of a table: the value in the first phase, and nothing in the others."""
    return [f"over,{path},{value}" + "," * (phases - 1) for path, value in rows]


def the_top(modules: dict[str, Module]) -> Module:
    tops = [module for module in modules.values() if "top" in module.attributes or len(modules) == 1]
    if len(tops) != 1:
        raise Refused("no module is the top one: give --top")
    return tops[0]
