"""The table of cells: for each kind the function that prints one."""
from __future__ import annotations

from typing import Callable

import choices
import logic
import memories
import registers
from netlist import Cell, Module, Refused
from writer import Writer

CELLS: dict[str, Callable[[Writer, Cell], None]] = {
    "$pos": logic.bitwise("{}".format),
    "$not": logic.bitwise("~{}".format),
    "$and": logic.bitwise("{} & {}".format),
    "$or": logic.bitwise("{} | {}".format),
    "$xor": logic.bitwise("{} ^ {}".format),
    "$xnor": logic.bitwise("{} ~^ {}".format),
    "$neg": logic.negation,
    "$add": logic.arithmetic("+"),
    "$sub": logic.arithmetic("-"),
    "$mul": logic.arithmetic("*"),
    "$div": logic.arithmetic("/"),
    "$mod": logic.arithmetic("%"),
    "$lt": logic.comparison("<"),
    "$le": logic.comparison("<="),
    "$ge": logic.comparison(">="),
    "$gt": logic.comparison(">"),
    "$eq": logic.equality("==", " & "),
    "$ne": logic.equality("!=", " | "),
    "$eqx": logic.equality("==", " & "),
    "$nex": logic.equality("!=", " | "),
    "$reduce_and": logic.reduction("&", " & "),
    "$reduce_or": logic.reduction("|", " | "),
    "$reduce_bool": logic.reduction("|", " | "),
    "$reduce_xor": logic.reduction("^", " ^ "),
    "$reduce_xnor": logic.reduction("^", " ^ ", inverted=True),
    "$logic_not": logic.logical("!"),
    "$logic_and": logic.logical("&&"),
    "$logic_or": logic.logical("||"),
    "$shl": logic.shift("<<"),
    "$sshl": logic.shift("<<"),
    "$shr": logic.shift(">>"),
    "$sshr": logic.shift(">>>"),
    "$shift": logic.signed_shift,
    "$shiftx": logic.part_select,
    "$mux": choices.choice,
    "$pmux": choices.case_choice,
    "$bmux": choices.indexed_choice,
    "$demux": choices.distribution,
    "$tribuf": choices.driver,
    "$concat": choices.joining,
    "$slice": choices.cutting,
    "$assert": choices.check,
    "$assume": choices.check,
    "$cover": choices.check,
    "$mem_v2": memories.memory,
    **dict.fromkeys(("$dff", "$dffe", "$dffsr", "$dffsre", "$adff", "$adffe", "$aldff", "$aldffe", "$sdff", "$sdffe", "$sdffce"),
                    registers.register),
    **dict.fromkeys(("$dlatch", "$adlatch", "$dlatchsr", "$sr"), registers.latch),
}


def print_cell(writer: Writer, cell: Cell, module: Module) -> None:
    """Prints a cell; a refusal says which one it is."""
    try:
        if cell.kind not in CELLS:
            raise Refused("it has no counterpart")
        CELLS[cell.kind](writer, cell)
    except Refused as why:
        raise Refused(f"{cell.source}: cell {cell.name} of kind {cell.kind} in module {module.shown}: {why}") from None
