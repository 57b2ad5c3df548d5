#!/usr/bin/env python3
"""Compares the text of single cells with yosys' own models of them (simlib.v), over random parameters and values of four states.

    single_cells.py [--rounds N] [--seed N]

Both are run by iverilog. A bit is counted as different where one side has 0 and the other 1, and as hidden where the model has X
and the text 0 or 1.
"""
from __future__ import annotations

import argparse
import random
import re
import shutil
import subprocess
import sys
import tempfile
from collections import Counter
from dataclasses import dataclass
from pathlib import Path

sys.path.insert(0, str(Path(__file__).resolve().parent.parent))

from design import Design  # noqa: E402
from yosys import Request, read_design  # noqa: E402

UNARY = "not pos neg reduce_and reduce_or reduce_xor reduce_xnor reduce_bool logic_not".split()
BINARY = "and or xor xnor add sub mul div mod lt le eq ne ge gt logic_and logic_or shl shr sshl sshr shift shiftx".split()
STORING = "dff dffe dffsr dffsre adff adffe aldff aldffe sdff sdffe sdffce dlatch adlatch dlatchsr sr".split()
KINDS = UNARY + BINARY + ["mux", "pmux", "bmux", "demux", "concat", "slice", "tribuf"] + STORING
LONG = UNARY[:2] + UNARY[3:] + "and or xor xnor eq ne logic_and logic_or shl shr sshl sshr shiftx".split()
VALUES = 60
CONTROLS = {"CLK": "ff", "EN": "ffe ffce ffsre latch", "ARST": "adff adlatch", "ALOAD": "aldff", "SRST": "sdff", "SET": "sr", "CLR": "sr"}


@dataclass(frozen=True)
class Sample:
    """A cell with random parameters, and the widths of its pins."""
    kind: str
    parameters: dict[str, int]
    pins: dict[str, int]


def sample(kind: str, chance: random.Random) -> Sample:
    a, b, y = (chance.choice((1, 2, 3, 5, 8, 13, 33, *((140, 260) if kind in LONG else ()))) for _ in "aby")
    signed = chance.randint(0, 1)
    if kind in UNARY:
        return Sample(kind, {"A_SIGNED": signed, "A_WIDTH": a, "Y_WIDTH": y}, {"A": a, "Y": y})
    if kind == "mux":
        return Sample(kind, {"WIDTH": a}, {"A": a, "B": a, "S": 1, "Y": a})
    if kind in STORING:
        return storing_sample(kind, a, chance)
    if kind == "pmux":
        b = chance.choice((b, 120))
        return Sample(kind, {"WIDTH": a, "S_WIDTH": b}, {"A": a, "B": a * b, "S": b, "Y": a})
    if kind in ("bmux", "demux"):
        s = chance.randint(1, 3)
        a = 1 if kind == "bmux" else a  # the model of a longer one is wrong in yosys 0.23
        pins = {"A": a << s, "S": s, "Y": a} if kind == "bmux" else {"A": a, "S": s, "Y": a << s}
        return Sample(kind, {"WIDTH": a, "S_WIDTH": s}, pins)
    if kind == "concat":
        return Sample(kind, {"A_WIDTH": a, "B_WIDTH": b}, {"A": a, "B": b, "Y": a + b})
    if kind == "slice":
        return Sample(kind, {"OFFSET": b, "A_WIDTH": a + b, "Y_WIDTH": a}, {"A": a + b, "Y": a})
    if kind == "tribuf":
        return Sample(kind, {"WIDTH": a}, {"A": a, "EN": 1, "Y": a})
    if "sh" in kind:
        b = min(b, 9 if max(a, y) > 128 else 5)
        y = min(y, 33) if kind == "shiftx" else y
    other = signed if kind not in ("shift", "shiftx") else chance.randint(0, 1)
    other = 0 if kind in ("shl", "shr", "sshl", "sshr") else other
    signed = 0 if kind == "shiftx" else signed
    return Sample(kind, {"A_SIGNED": signed, "B_SIGNED": other, "A_WIDTH": a, "B_WIDTH": b, "Y_WIDTH": y}, {"A": a, "B": b, "Y": y})


def storing_sample(kind: str, width: int, chance: random.Random) -> Sample:
    controls = [pin for pin, kinds in CONTROLS.items() if any(part in kind for part in kinds.split())]
    parameters = {"WIDTH": width} | {f"{pin}_POLARITY": chance.randint(0, 1) for pin in controls}
    parameters |= {f"{pin}_VALUE": chance.getrandbits(width) for pin in ("ARST", "SRST") if pin in controls}
    pins = {pin: width if pin in ("SET", "CLR") else 1 for pin in controls}
    return Sample(kind, parameters, pins | ({"AD": width} if "ALOAD" in controls else {}) | ({} if kind == "sr" else {"D": width}) | {"Q": width})


def output(cell: Sample) -> str:
    return "Q" if "Q" in cell.pins else "Y"


def rtlil(cell: Sample) -> str:
    wires = [f"  wire width {width} {'output' if pin == output(cell) else 'input'} {place + 1} \\{pin}" for place, (pin, width) in enumerate(cell.pins.items())]
    parameters = [f"    parameter \\{name} {constant(cell, name)}" for name in cell.parameters]
    joined = [f"    connect \\{pin} \\{pin}" for pin in cell.pins]
    return "\n".join(["module \\one", *wires, f"  cell ${cell.kind} \\it", *parameters, *joined, "  end", "end", ""])


def constant(cell: Sample, name: str) -> str:
    value = cell.parameters[name]
    return f"{cell.parameters['WIDTH']}'{value:0{cell.parameters['WIDTH']}b}" if name.endswith("_VALUE") else str(value)


def bench(cell: Sample, text_ports: list[str], chance: random.Random) -> str:
    lines = ["`timescale 1ns/1ps", "module bench;"]
    lines += [f"  {'wire' if pin == output(cell) else 'reg'} [{width - 1}:0] {pin};" for pin, width in cell.pins.items()]
    lines.append(f"  wire [{cell.pins[output(cell)] - 1}:0] other;")
    given = ", ".join(f".{name}({constant(cell, name).replace(chr(39), chr(39) + 'b')})" for name in cell.parameters)
    lines.append(f"  \\${cell.kind} #({given}) it ({', '.join(f'.{pin}({pin})' for pin in cell.pins)});")
    lines.append(f"  one text ({', '.join(text_ports)});")
    lines.append("  initial begin")
    for _ in range(VALUES):
        kinds = chance.choice(("01", "01", "0001x", "01xz"))
        for pin in [chance.choice(list(cell.pins))] if cell.kind in STORING else list(cell.pins):
            if pin != output(cell):
                lines.append(f"    {pin} = {cell.pins[pin]}'b{random_bits(cell, pin, '01' if cell.kind in STORING else kinds, chance)};")
        lines.append(f'    #1 $display("SEEN %b %b", {output(cell)}, other);')
    return "\n".join(lines + ["  end", "endmodule", ""])


def random_bits(cell: Sample, pin: str, kinds: str, chance: random.Random) -> str:
    width = cell.pins[pin]
    if cell.kind == "pmux" and pin == "S":  # at most one bit is 1: for several the model has X
        place = chance.randrange(width + 1)
        return "".join("1" if place == number else "0" for number in range(width))
    return "".join(chance.choice(kinds) for _ in range(width))


def ports(design: Design, cell: Sample) -> list[str]:
    found = []
    for pin, vectors in design.printed["one"].ports.items():
        low = 0
        for vector in vectors:
            found.append(f".{vector.name}({'other' if pin == output(cell) else pin}[{low + vector.length - 1}:{low}])")
            low += vector.length
    return found


def compare(cell: Sample, chance: random.Random, folder: Path, library: Path) -> Counter[str]:
    (folder / "one.il").write_text(rtlil(cell))
    design = Design(read_design(Request([str(folder / "one.il")])))
    (folder / "one.sv").write_text(design.text(None))
    (folder / "bench.v").write_text(bench(cell, ports(design, cell), chance))
    subprocess.run(["iverilog", "-g2012", "-o", folder / "a.vvp", "-s", "bench", folder / "bench.v", folder / "one.sv", library],
                   check=True, capture_output=True)
    done = subprocess.run(["vvp", "-n", folder / "a.vvp"], check=True, capture_output=True, text=True)
    counts: Counter[str] = Counter()
    for model, text in re.findall(r"^SEEN (\S+) (\S+)$", done.stdout, re.M):
        for one, other in zip(model, text):
            counts["same" if one == other else "different" if {one, other} == {"0", "1"} else "hidden" if one in "xz" and other in "01"
                   else "open"] += 1
    return counts


def main() -> int:
    parser = argparse.ArgumentParser()
    parser.add_argument("--rounds", type=int, default=20)
    parser.add_argument("--seed", type=int, default=1)
    words = parser.parse_args()
    chance = random.Random(words.seed)
    library = Path(shutil.which("yosys") or "/usr/bin/yosys").resolve().parent.parent / "share/yosys/simlib.v"
    wrong = 0
    with tempfile.TemporaryDirectory() as folder:
        for kind in KINDS:
            counts: Counter[str] = Counter()
            for _ in range(words.rounds):
                cell = sample(kind, chance)
                found = compare(cell, chance, Path(folder), library)
                if found["different"] or found["hidden"]:
                    print(cell, dict(found))
                counts += found
            print(f"${kind}: {dict(counts)}")
            wrong += counts["different"]
    return int(wrong > 0)


if __name__ == "__main__":
    sys.exit(main())
