"""Random values for the inputs of a design, phase by phase."""
from __future__ import annotations

import random
import re
from dataclasses import dataclass
from typing import Mapping

LOW = re.compile(r"(n|_ni|_n_i|_b|_l|low)$")  # names of controls that are active at 0
RESET = re.compile(r"(^|_)(a|s|h|p|sys|wb|axi|i)?_?n?(rst|reset|clr|clear|arst|aresetn?|resetn|rstn)(_?n|_?ni|_i|_b|_l|_low|_in|_p)?$", re.I)


@dataclass(frozen=True)
class Input:
    """An input of the top: what it is for, and its width."""
    name: str
    width: int
    kind: str  # "clock", "control", "data" or "fixed"
    active: int = 1  # of a control
    value: int = 0   # of a fixed one


def kind_of(name: str, width: int, clocks: set[str], controls: set[str], fixed: Mapping[str, int]) -> Input:
    if name in fixed:
        return Input(name, width, "fixed", value=fixed[name])
    if width == 1 and name in clocks:
        return Input(name, width, "clock")
    if width == 1 and (name in controls or RESET.search(name)):
        return Input(name, width, "control", 0 if LOW.search(name.lower()) else 1)
    return Input(name, width, "data")


def values(inputs: list[Input], phases: int, seed: int, slow: bool, alone: bool) -> dict[str, list[int]]:
    """The value of each input in each phase. The first clock changes in each phase, or where it is slow in each second one, and
    the others mostly with it. Controls are off in the first phase, on for a while, and seldom later; where the clock is slow they
    change while it does not, and nothing else does then. Alone means that but for clocks one input changes in a phase."""
    chance = random.Random(seed)
    first = next((each.name for each in inputs if each.kind == "clock"), None)
    found: dict[str, list[int]] = {each.name: [] for each in inputs}
    for phase in range(phases):
        edge = phase > 0 and (not slow or phase % 2 == 1)
        for each in inputs:
            before = found[each.name][-1] if phase else None
            found[each.name].append(next_value(each, before, phase, edge, each.name == first, chance, slow))
        if phase:
            keep(inputs, found, slow and not edge, alone, edge, chance)
    return found


def keep(inputs: list[Input], found: dict[str, list[int]], of_controls: bool, alone: bool, edge: bool, chance: random.Random) -> None:
    """Takes changes back that may not come together with others."""
    changed = [each for each in inputs if found[each.name][-1] != found[each.name][-2]]
    if of_controls and any(each.kind == "control" for each in changed):
        taken_back = [each for each in changed if each.kind == "data"]
    elif alone and edge:
        taken_back = [each for each in changed if each.kind != "clock"]
    elif alone and changed:
        last = chance.choice(changed)
        taken_back = [each for each in changed if each is not last]
    else:
        return
    for each in taken_back:
        found[each.name][-1] = found[each.name][-2]


def next_value(each: Input, before: int | None, phase: int, edge: bool, first: bool, chance: random.Random, slow: bool) -> int:
    if each.kind == "fixed":
        return each.value
    if before is None:
        return {"clock": 0, "control": 1 - each.active}.get(each.kind, chance.getrandbits(each.width))
    if each.kind == "clock":
        return before ^ (edge and (first or chance.random() < 0.7))
    if each.kind == "control":
        if slow and edge or not slow and phase % 2 == 1:
            return before
        if phase < 10:
            return each.active
        return each.active if chance.random() < 0.05 else 1 - each.active
    if chance.random() < 0.4:
        return before
    return chance.getrandbits(each.width) if chance.random() < 0.8 else chance.choice((0, 1, (1 << each.width) - 1)) & ((1 << each.width) - 1)
