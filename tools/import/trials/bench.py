"""Test benches for a simulator and tables for svtv that drive a design with the same values and show the same signals."""
from __future__ import annotations

import re
from dataclasses import dataclass
from typing import Mapping, Sequence

from stimuli import Input
from writer import Vector


@dataclass(frozen=True)
class Signal:
    """A signal of the top as the source has it, and the vectors that are its parts in the text, the lowest first."""
    name: str
    parts: Sequence[Vector]
    direction: str  # of a port; "" for a wire inside
    local: str      # the name that a port has in a test bench

    @property
    def width(self) -> int:
        return sum(part.length for part in self.parts)

    @property
    def escaped(self) -> str:
        return self.name if re.fullmatch(r"[A-Za-z_]\w*", self.name) else f"\\{self.name} "


@dataclass(frozen=True)
class Plan:
    """What is to be run: the signals of the top, and the values of its inputs in each phase."""
    ports: list[Signal]
    shown: list[Signal]
    inputs: list[Input]
    values: Mapping[str, list[int]]
    phases: int
    rows: list[tuple[str, str]]


def bench(plan: Plan, top: str, parameters: Sequence[str], of_text: bool) -> str:
    """A test bench of the source, or of the text: clocks change first in each phase, and all else a while later."""
    lines = ["`timescale 1ns/1ps", "module bench;"]
    clocks = {each.name for each in plan.inputs if each.kind == "clock"}
    quiet = {each.name for each in plan.inputs if each.kind in ("clock", "control")}
    for port in plan.ports:
        start = f" = {plan.values[port.name][0]}" if port.name in quiet else ""
        lines.append(f"  {'reg' if port.direction == 'input' else 'wire'} [{port.width - 1}:0] {port.local}{start};")
    lines.append(f"  {top} dut ({', '.join(joined(plan.ports, of_text))});")
    lines += [f"  defparam dut.{word.replace('=', ' = ', 1)};" for word in parameters]
    if of_text:
        lines += [f"  initial dut.{path} = {value};" for path, value in plan.rows]
    lines.append("  initial begin")
    for phase in range(plan.phases):
        now = [each for each in plan.inputs if plan.values[each.name][phase] != plan.values[each.name][phase - 1]] if phase else \
            [each for each in plan.inputs if each.name not in quiet]
        early = [change(plan, each, phase) for each in now if each.name in clocks]
        late = [change(plan, each, phase) for each in now if each.name not in clocks]
        lines.append(f"    {' '.join(early)} #1; {' '.join(late)} #4;")
        lines += [f'    $display("SEEN {number} {phase} %b", {seen(signal, of_text)});' for number, signal in enumerate(plan.shown)]
    return "\n".join(lines + ["    $finish;", "  end", "endmodule", ""])


def change(plan: Plan, each: Input, phase: int) -> str:
    port = next(port for port in plan.ports if port.name == each.name)
    return f"{port.local} = {each.width}'h{plan.values[each.name][phase]:x};"


def joined(ports: Sequence[Signal], of_text: bool) -> list[str]:
    if not of_text:
        return [f".{port.escaped}({port.local})" for port in ports]
    found = []
    for port in ports:
        low = 0
        for part in port.parts:
            found.append(f".{part.name}({port.local}[{low + part.length - 1}:{low}])")
            low += part.length
    return found


def seen(signal: Signal, of_text: bool) -> str:
    if signal.direction:
        return signal.local
    if of_text:
        return "{" + ", ".join(f"dut.{part.name}" for part in reversed(signal.parts)) + "}"
    return f"dut.{signal.escaped}"


def table(plan: Plan) -> str:
    """The table of the same run for svtv."""
    lines = []
    for port in plan.ports:
        low = 0
        for part in port.parts:
            if port.direction == "input":
                cells = [f"{part.length}'h{plan.values[port.name][phase] >> low & (1 << part.length) - 1:x}" for phase in range(plan.phases)]
            else:
                cells = ["z"] * plan.phases
            if port.direction != "output":
                lines.append(f"in,{part.name}," + ",".join(cells))
            low += part.length
    for number, signal in enumerate(plan.shown):
        for place, part in enumerate(signal.parts):
            lines.append(f"out,{part.name}," + ",".join(f"s{number}_{phase}_{place}" for phase in range(plan.phases)))
    lines += [f"over,{path},{value}" + "," * (plan.phases - 1) for path, value in plan.rows]
    return "".join(line + "\n" for line in lines)
