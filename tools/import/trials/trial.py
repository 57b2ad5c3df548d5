#!/usr/bin/env python3
"""Simulates a design and its imported text side by side, over random inputs, and counts the bits that differ.

    trial.py DESIGN.. [options of the importer] [--phases N] [--seed N] [--svtv PROGRAM] [--keep FOLDER]

The source is run by iverilog, and the text by iverilog and, where a program is given, by `svtv sim` for 64 phases.
The outputs of the top are looked at, and those of its wires that have plain names.
"""
from __future__ import annotations

import argparse
import json
import re
import subprocess
import sys
import tempfile
from collections import Counter
from dataclasses import asdict, dataclass, field
from pathlib import Path

sys.path.insert(0, str(Path(__file__).resolve().parent.parent))

from bench import Plan, Signal, bench, table  # noqa: E402
from design import Design  # noqa: E402
from netlist import Refused  # noqa: E402
from stimuli import kind_of, values  # noqa: E402
from yosys import Request, read_design  # noqa: E402

Seen = dict[tuple[int, int], str]
SHOWN = 200  # the most wires inside that are looked at


@dataclass
class Counts:
    """Bits by how the source and the text have them."""
    bits: Counter[str] = field(default_factory=Counter)
    first: str = ""  # the first difference

    def add(self, name: str, phase: int, source: str, text: str) -> None:
        if len(source) < len(text):
            source = source.rjust(len(text), source[0] if source[0] in "xz" else "0")
        for one, other in zip(source, text):
            kind = "same" if one == other and one in "01" else "both open" if one in "xz" and other in "xz" else \
                "text open" if other in "xz" else "source open" if one in "xz" else "different"
            self.bits[kind] += 1
            if kind == "different" and not self.first:
                self.first = f"{name} in phase {phase}: {source} and {text}"


@dataclass(frozen=True)
class Options:
    phases: int
    seed: int
    fixed: dict[str, int]  # inputs that keep a value
    svtv: str | None


class Failed(Exception):
    """A simulator does not take what it was given."""


def run_iverilog(folder: Path, name: str, bench_text: str, files: list[str], options: list[str]) -> Seen:
    source, program = folder / f"{name}.v", folder / f"{name}.vvp"
    source.write_text(bench_text)
    built = subprocess.run(["iverilog", "-g2012", "-o", program, "-s", "bench", *options, source, *files], capture_output=True, text=True)
    if built.returncode:
        raise Failed(f"iverilog: {first_line(built.stderr)}")
    done = subprocess.run(["vvp", "-n", program], capture_output=True, text=True, errors="replace", timeout=120)
    found = re.findall(r"^SEEN (\d+) (\d+) (\S+)$", done.stdout, re.M)
    if not found:
        raise Failed(f"vvp: {first_line(done.stderr or done.stdout)}")
    return {(int(number), int(phase)): bits for number, phase, bits in found}


def run_svtv(folder: Path, program: str, text: Path, plan: Plan) -> Seen:
    (folder / "t.csv").write_text(table(plan))
    (folder / "v.csv").write_text("")
    done = subprocess.run([program, "sim", text, folder / "t.csv", folder / "v.csv"], capture_output=True, text=True, timeout=900)
    if done.returncode:
        raise Failed(f"svtv sim: {done.returncode} {first_line(done.stderr)}")
    parts: dict[tuple[int, int], dict[int, str]] = {}
    for number, phase, place, bits in re.findall(r"^s(\d+)_(\d+)_(\d+) = \d+'b(\S+)$", done.stdout, re.M):
        parts.setdefault((int(number), int(phase)), {})[int(place)] = bits
    return {key: "".join(found[place] for place in sorted(found, reverse=True)) for key, found in parts.items()}


def first_line(text: str) -> str:
    lines = [line for line in text.splitlines() if "error" in line.lower()] or text.splitlines() or ["nothing is said"]
    return lines[0][:200]


def plan_of(design: Design, options: Options, phases: int, inside: bool) -> Plan:
    printed = design.printed[design.top.name]
    clocks = {name for timing in design.timings.values() for name in timing.clock_inputs}
    controls = {name for timing in design.timings.values() for name in timing.control_inputs}
    ports = [Signal(name, printed.ports[name], port.direction, f"p{number}") for number, (name, port) in enumerate(design.top.ports.items())]
    inputs = [kind_of(port.name, port.width, clocks, controls, options.fixed) for port in ports if port.direction == "input"]
    wires = [Signal(net.name, printed.nets[net.name], "", "") for net in design.top.nets
             if inside and net.shown and net.name not in printed.ports and net.name in printed.nets and re.fullmatch(r"[A-Za-z_]\w*", net.name)]
    shown = [port for port in ports if port.direction != "input"] + wires[:SHOWN]
    alone = has_latches(design)
    driven = values(inputs, phases, options.seed, bool(controls) or alone, alone)
    return Plan(ports, shown, inputs, driven, phases, list(design.rows()))


def compared(plan: Plan, source: Seen, text: Seen, phases: int) -> Counts:
    counts = Counts()
    for number, signal in enumerate(plan.shown):
        for phase in range(phases):
            if (number, phase) in source and (number, phase) in text:
                counts.add(signal.name, phase, source[number, phase], text[number, phase])
    return counts


def simulate(design: Design, request: Request, options: Options, folder: Path) -> dict[str, Counts]:
    """What the simulators say, by the program that ran the text. Where the text has latches only svtv runs it: a simulator may see
    the enable of a latch change later than its value."""
    text = folder / "text.sv"
    text.write_text(design.text(None))
    flags = [f"-D{word}" for word in request.define] + [f"-I{word}" for word in request.include]
    for inside in (True, False):
        plan = plan_of(design, options, options.phases, inside)
        try:
            source = run_iverilog(folder, "source", bench(plan, design.top.shown, request.parameters, False), request.files, flags)
            break
        except Failed:
            if not inside:
                raise
    if not plan.shown:
        raise Failed("nothing is seen of it")
    found = {}
    if not has_latches(design):
        name = design.printed[design.top.name].name
        found["iverilog"] = compared(plan, source, run_iverilog(folder, "text", bench(plan, name, [], True), [str(text)], []), plan.phases)
    if options.svtv:
        plan = plan_of(design, options, min(options.phases, 64), inside)
        source = run_iverilog(folder, "short", bench(plan, design.top.shown, request.parameters, False), request.files, flags)
        found["svtv"] = compared(plan, source, run_svtv(folder, options.svtv, text, plan), plan.phases)
    return found


def has_latches(design: Design) -> bool:
    return any(cell.kind.endswith(("latch", "latchsr", "$sr")) for module in design.modules.values() for cell in module.cells)


@dataclass
class Result:
    """What became of a design."""
    status: str = "accepted"  # or "not read", "refused", "not accepted"
    why: str = ""
    made: bool = False        # whether it makes a clock
    lines: int = 0            # of the source
    text: int = 0             # bytes of the text
    counts: dict[str, dict[str, int]] = field(default_factory=dict)
    different: str = ""       # the first difference
    unseen: str = ""          # why it was not simulated


def tried(request: Request, options: Options, folder: Path) -> Result:
    result = Result(lines=sum(len(Path(name).read_text(errors="replace").splitlines()) for name in request.files))
    try:
        design = Design(read_design(request))
    except Refused as why:
        unread = str(why).startswith("yosys:") or "has no text" in str(why)
        return Result("not read" if unread else "refused", str(why), lines=result.lines)
    text = design.text(None)
    result.text = len(text)
    result.made = any(timing.told for timing in design.timings.values())
    if options.svtv:
        (folder / "text.sv").write_text(text)
        read = subprocess.run([options.svtv, "dump", folder / "text.sv"], capture_output=True, text=True)
        if read.returncode:
            return Result("not accepted", read.stderr.strip(), result.made, result.lines, result.text)
    try:
        found = simulate(design, request, options, folder)
        result.counts = {program: dict(counts.bits) for program, counts in found.items()}
        result.different = " ".join(f"{program}: {counts.first}" for program, counts in found.items() if counts.first)
    except (Failed, subprocess.TimeoutExpired) as why:
        result.unseen = str(why)[:200]
    return result


def main() -> int:
    parser = argparse.ArgumentParser()
    parser.add_argument("design", nargs="+")
    parser.add_argument("--top")
    parser.add_argument("-D", dest="define", action="append", default=[])
    parser.add_argument("-I", dest="include", action="append", default=[])
    parser.add_argument("--param", action="append", default=[])
    parser.add_argument("--verilog", action="store_true")
    parser.add_argument("--phases", type=int, default=64)
    parser.add_argument("--seed", type=int, default=1)
    parser.add_argument("--fix", action="append", default=[], metavar="INPUT=VALUE")
    parser.add_argument("--svtv")
    parser.add_argument("--keep", type=Path, metavar="FOLDER", help="leave the files of the run there")
    parser.add_argument("--json", action="store_true", help="print what became of the design for a program to read")
    words = parser.parse_args()
    request = Request(words.design, words.top, words.define, words.include, words.param, words.verilog)
    fixed = {name: int(value, 0) for name, _, value in (word.partition("=") for word in words.fix)}
    options = Options(words.phases, words.seed, fixed, words.svtv)
    with tempfile.TemporaryDirectory() as folder:
        place = words.keep or Path(folder)
        place.mkdir(parents=True, exist_ok=True)
        result = tried(request, options, place)
    if words.json:
        print(json.dumps(asdict(result)))
        return 0
    print(result.status, result.why, "a clock is made" if result.made else "", result.unseen)
    for program, counts in result.counts.items():
        print(f"{program}: {counts}")
    print(result.different)
    return int(bool(result.different))


if __name__ == "__main__":
    sys.exit(main())
