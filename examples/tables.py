#!/usr/bin/env python3
"""Writes the tables of examples/fifo and examples/uart: tables.py

A table is told by the cycles of a clock, from cycle 0 on. A cycle is two phases: in the first the clock is 0 and the
inputs of the cycle are there, in the second the clock is 1 and the registers have taken what was there in the first.
"""
import csv
from pathlib import Path

HERE = Path(__file__).resolve().parent


class Table:
    """A table of so many cycles, at most 32."""

    def __init__(self, cycles, clock="clk"):
        self.cycles = cycles
        self.records = [["in", clock, "0", *["~"] * (2 * cycles - 1)]]

    def drive(self, path, cells):
        """Drives an input by a cell for each cycle; the last cell is that of all further cycles."""
        cells = [*cells, *[cells[-1]] * (self.cycles - len(cells))]
        self.records.append(["in", path, *[it for cell in cells for it in (cell, "")]])

    def sample(self, path, names):
        """Samples a signal behind the edge of each cycle that has a name."""
        cells = [it for cycle in range(self.cycles) for it in ("", names.get(cycle, ""))]
        self.records.append(["out", path, *cells])

    def write(self, file):
        with open(HERE / file, "w", newline="") as to:
            csv.writer(to, lineterminator="\n").writerows(self.records)


def fifo():
    table = Table(14)
    table.drive("rst", ["1", "0"])
    table.drive("push", ["0", "1", "1", "1", "1", "w5", "w6", "w7", "w8", "0"])
    table.drive("pop", ["0", "0", "0", "0", "0", "r5", "r6", "r7", "r8", "1", "1", "1", "1", "0"])
    table.drive("din", ["_", *"abcdefgh", "_"])
    table.sample("count", {cycle: f"n{cycle}" for cycle in (5, 6, 7, 8, 12)})
    table.sample("dout", {8: "o1", 9: "o2", 10: "o3", 11: "o4"})
    table.write("fifo/t.csv")


def uart():
    table = Table(26)
    table.drive("rst", ["1", "0"])
    table.drive("send", ["0", "1", *["_"] * 22, "0"])
    table.drive("data", ["_", "d", "_"])
    bits = ["s", *[f"b{bit}" for bit in range(8)], "p", "e"]
    table.sample("line", {**{2 + 2 * place: name for place, name in enumerate(bits)}, 25: "i"})
    table.sample("busy", {22: "y22", 23: "y23"})
    table.sample("got", {22: "r"})
    table.sample("valid", {22: "v", 25: "w"})
    table.sample("bad", {22: "x"})
    table.write("uart/t.csv")


if __name__ == "__main__":
    fifo()
    uart()
