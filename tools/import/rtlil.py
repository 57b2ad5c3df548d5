"""What is read from yosys' own form of a design, between reading and making cells.

Three things can not be read from cells:

- `full_case` and `parallel_case` let yosys choose what happens where no arm of a case matches, or several do. They are
  taken out before cells are made; here their places are found, so that they can be told.
- A register with several asynchronous controls becomes a cell that does not keep which control counts first. The process
  that it was made of does.
- yosys takes an x or a z in a label of a case for any value when it looks for arms that can not be reached, also where the
  case is no casez and no casex (there it has another mark). Such a case is refused.
"""
from __future__ import annotations

import re
from dataclasses import dataclass, field
from typing import Iterable, Mapping

from netlist import Bits


@dataclass
class Control:
    """An asynchronous control of a process: its level, its signal, and what it gives to each register, as text."""
    high: bool
    signal: str
    updates: dict[str, str] = field(default_factory=dict)


@dataclass
class Hints:
    """What is told of a module: the places of cases with attributes, and of those with an x or a z in a label, and the controls of
    each process that has several."""
    cases: list[str] = field(default_factory=list)
    unknown: list[str] = field(default_factory=list)
    processes: list[list[Control]] = field(default_factory=list)


class Scanner:
    """Reads a design line by line."""

    def __init__(self) -> None:
        self.found: dict[str, Hints] = {}
        self._hints = Hints()
        self._controls: list[Control] = []
        self._control: Control | None = None
        self._place = "?"    # the last place in the source that was told
        self._taken = False  # whether an attribute stands before a case whose place comes next

    def scan(self, lines: Iterable[str]) -> dict[str, Hints]:
        """The hints for each module of a design."""
        actions = {"module": self._module, "process": self._process, "attribute": self._attribute, "case": self._case, "sync": self._sync,
                   "update": self._update}
        for line in lines:
            first, _, rest = line.strip().partition(" ")
            if first in actions:
                actions[first](rest)
        return self.found

    def _module(self, name: str) -> None:
        self._hints = self.found.setdefault(name.removeprefix("\\"), Hints())

    def _process(self, _: str) -> None:
        self._controls, self._control = [], None

    def _attribute(self, text: str) -> None:
        if text.startswith(("\\full_case ", "\\parallel_case ")):
            self._taken = True
        place = re.match(r'\\src "([^"|]*)', text)
        if place and ":0.0-" not in place[1]:
            self._place = place[1]
            if self._taken:
                self._hints.cases.append(self._place)
                self._taken = False

    def _case(self, labels: str) -> None:
        if re.search(r"\d'[01-]*[xz]", labels):
            self._hints.unknown.append(self._place)

    def _sync(self, event: str) -> None:
        level, _, signal = event.partition(" ")
        self._control = Control(level == "high", signal) if level in ("high", "low") else None
        if self._control:
            self._controls.append(self._control)
            if len(self._controls) == 2:
                self._hints.processes.append(self._controls)

    def _update(self, text: str) -> None:
        if self._control:
            register, value = split_update(text)
            self._control.updates[register] = value


def split_update(text: str) -> tuple[str, str]:
    """The two signals of an update: each is a name, perhaps with a range, a constant, or a list in braces."""
    parts: list[list[str]] = [[], []]
    place = depth = 0
    for word in text.split():
        if depth == 0 and parts[0] and not word.startswith("["):
            place = 1
        parts[place].append(word)
        depth += (word == "{") - (word == "}")
    return " ".join(parts[0]), " ".join(parts[1])


def signal_bits(text: str, nets: Mapping[str, Bits]) -> Bits | None:
    """The bits of a signal, the lowest first; None where it has a net that is gone."""
    words, bits = text.split(), []
    for number, word in reversed(list(enumerate(words))):
        constant = re.fullmatch(r"\d+'([01xz]+)|(\d+)", word)
        if word in "{}" or word.startswith("["):
            continue
        if constant:
            bits += list(constant[1][::-1]) if constant[1] else [str(int(word) >> place & 1) for place in range(32)]
            continue
        net = nets.get(word.removeprefix("\\"))
        if net is None:
            return None
        index = re.match(r"\[(\d+)(?::(\d+))?\]", words[number + 1]) if number + 1 < len(words) else None
        high = int(index[1]) if index else len(net) - 1
        low = int(index[2] or index[1]) if index else 0
        bits += net[low:high + 1]
    return bits
