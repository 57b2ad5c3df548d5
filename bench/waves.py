"""Holds `svtv sim --vcd` and `svtv wave` against programs of others: `waves.py SVTV`. It prints a line for each comparison that differs, what
was refused and why, and the counts; the status is 1 where something differs.

- iverilog and verilator simulate the designs of waves/, each with a dump and a line `TIME PATH BITS` for what the simulator itself prints.
  `wave` must give the same value of each such signal at each such time, and of every signal what vcd.py reads.
- yosys' `sim -vcd` simulates the circuits of waves/; `wave` must give of every signal what vcd.py reads.
- What `sim --vcd` prints for the examples is read by vcd2fst of GTKWave and printed again by fst2vcd: vcd.py must read the same values from
  both, and those of the samples must be what `sim` prints without `--vcd`.

Needs iverilog, verilator, yosys and gtkwave (for vcd2fst and fst2vcd); what is missing is left out and named.
"""

import collections
import pathlib
import re
import shutil
import subprocess
import sys
import tempfile

import vcd

BENCH = pathlib.Path(__file__).resolve().parent
EXAMPLES = BENCH.parent / "examples"
SIMULATED = [("alu", "t.csv", "v.csv"), ("bus", "t.csv", "v.csv"), ("divider", "t.csv", "v.csv")]
PRINTED = re.compile(rb"([0-9]+) (\S+) ([01xz]+)")
WORD = re.compile(r"\S+")


def run(words, folder):
    return subprocess.run(["timeout", "600", *map(str, words)], cwd=folder, stdout=subprocess.PIPE, stderr=subprocess.STDOUT)


def last_at(changes, time):
    """The bits at a time; none before any change."""
    values = [bits for at, bits in changes if at <= time]
    return values[-1] if values else None


class Comparison:
    def __init__(self, program):
        self.program, self.counts, self.differs = program, collections.Counter(), 0

    def differ(self, text):
        self.differs += 1
        print("DIFFERS", text)

    def wave(self, folder, path):
        """What the program says of a signal: its changes, or the refusal."""
        done = subprocess.run([self.program, "wave", "dump.vcd", "--", path], cwd=folder, capture_output=True)
        if done.returncode:
            return done.stderr.decode().strip()
        return [(int(time), bits.split(b"b")[1]) for time, bits in map(bytes.split, done.stdout.splitlines())]

    def signals(self, name, folder):
        """Every signal of a dump, against vcd.py."""
        text = (pathlib.Path(folder) / "dump.vcd").read_bytes()
        try:
            signals, _ = vcd.read(text)
        except vcd.Broken as broken:
            word = WORD.match(text.split(b"\n")[broken.args[0][0] - 1].decode(errors="replace")[broken.args[0][1] - 1 :])
            said = self.wave(folder, "x")
            self.counts["dumps refused"] += 1
            print("refused: %s at %d:%d, %r (%s)" % (name, *broken.args[0], word and word[0], said))
            if "E47" not in said or ":%d:%d:" % broken.args[0] not in said:
                self.differ("%s: vcd.py breaks at %s, the program says %s" % (name, broken.args[0], said))
            return
        self.counts["dumps read"] += 1
        for path in dict.fromkeys(signal[0] for signal in signals):
            own, other = self.wave(folder, path), vcd.changes_of(text, path)
            self.counts["signals compared"] += 1
            if other is None and isinstance(own, str) and "E48" in own:
                self.counts["signals of no width from 1 to 128"] += 1
            elif own != other:
                self.differ("%s: %s" % (name, path.decode()))

    def printed(self, name, folder, output):
        """What the simulator prints, against `wave`."""
        lines = collections.defaultdict(list)
        for time, path, bits in PRINTED.findall(output):
            lines[path].append((int(time), bits))
        for path, values in lines.items():
            changes = self.wave(folder, path)
            for time, bits in values:
                self.counts["values compared"] += 1
                own = last_at(changes, time) if isinstance(changes, list) else None
                if own != bits:
                    self.differ("%s: %s at %d is %s, printed was %s (%s)" % (name, path.decode(), time, own, bits, changes if isinstance(changes, str) else "read"))

    def iverilog(self, design):
        with tempfile.TemporaryDirectory() as folder:
            made = run(["iverilog", "-g2012", "-o", "tb.vvp", design], folder)
            done = run(["vvp", "-n", "tb.vvp"], folder) if made.returncode == 0 else made
            if done.returncode or not (pathlib.Path(folder) / "dump.vcd").exists():
                return print("left out: iverilog", design.name, done.stdout.decode(errors="replace")[:200])
            self.signals("iverilog " + design.name, folder)
            self.printed("iverilog " + design.name, folder, done.stdout)

    def verilator(self, design):
        with tempfile.TemporaryDirectory() as folder:
            made = run(["verilator", "--binary", "--trace", "--trace-params", "-CFLAGS", "-O0", "-Wno-fatal", "-Wno-WIDTH", "--top-module", "tb", "-o", "tb", design], folder)
            done = run(["obj_dir/tb"], folder) if made.returncode == 0 else made
            if done.returncode or not (pathlib.Path(folder) / "dump.vcd").exists():
                return print("left out: verilator", design.name, done.stdout.decode(errors="replace")[:200].replace("\n", " "))
            self.signals("verilator " + design.name, folder)
            if design.name == "pauses.v":
                return  # what is printed there is X while the dump is off, and verilator has no X
            # The scope of the whole model stands around those of the design, and words of a memory have no backslash.
            text = (pathlib.Path(folder) / "dump.vcd").read_bytes()
            under = b"TOP." if text.find(b"$scope module TOP $end") >= 0 else b""
            self.printed("verilator " + design.name, folder, PRINTED.sub(lambda line: line[1] + b" " + under + line[2].replace(b"\\", b"") + b" " + line[3], done.stdout))

    def yosys(self, module, design):
        with tempfile.TemporaryDirectory() as folder:
            script = "read_verilog -sv %s; prep -top %s; sim -clock clk -n 20 -vcd dump.vcd" % (design, module)
            done = run(["yosys", "-q", "-p", script], folder)
            if done.returncode:
                return print("left out: yosys", module, done.stdout.decode(errors="replace")[-200:])
            self.signals("yosys %s of %s" % (module, design.name), folder)

    def example(self, name, table, values):
        words = [self.program, "sim", "d.sv", table, values]
        samples = subprocess.run(words, cwd=EXAMPLES / name, capture_output=True, check=True).stdout
        dump = subprocess.run([*words, "--vcd"], cwd=EXAMPLES / name, capture_output=True, check=True).stdout
        with tempfile.TemporaryDirectory() as folder:
            (pathlib.Path(folder) / "dump.vcd").write_bytes(dump)
            self.signals("svtv " + name, folder)
            signals, _ = vcd.read(dump)
            rows = [row.split(",") for row in (EXAMPLES / name / table).read_text().split("\n") if row.startswith("out,")]
            shown = dict(line.split(" = ") for line in samples.decode().splitlines())
            for row in rows:
                for phase, sample in enumerate(row[2:]):
                    if sample.strip() and sample.strip() not in ("_",):
                        bits = last_at(vcd.changes_of(dump, b"top." + row[1].strip().encode()), phase)
                        self.counts["samples compared"] += 1
                        if bits is None or not shown[sample.strip()].endswith("b" + bits.decode()):
                            self.differ("%s: sample %s" % (name, sample))
            if shutil.which("vcd2fst"):
                run(["vcd2fst", "dump.vcd", "dump.fst"], folder)
                again = run(["fst2vcd", "dump.fst"], folder).stdout
                if not again.split(b"$dumpvars")[-1].count(b"$end"):
                    again += b"$end\n"  # fst2vcd leaves it open where no other time follows
                for path in (signal[0] for signal in signals):
                    self.counts["signals through vcd2fst"] += 1
                    own, other = vcd.changes_of(dump, path), vcd.changes_of(again, path)
                    times = sorted({time for time, _ in own} | {time for time, _ in other or []})
                    if other is None or any(last_at(own, time) != last_at(other, time) for time in times):
                        self.differ("%s: %s through vcd2fst" % (name, path.decode()))


def main(program):
    compare = Comparison(program)
    designs = sorted((BENCH / "waves").glob("*.v"))
    for tool, each in (("iverilog", compare.iverilog), ("verilator", compare.verilator)):
        for design in designs if shutil.which(tool) else ():
            each(design)
    if shutil.which("yosys"):
        for module in ("digits", "states", "shifted"):
            compare.yosys(module, BENCH / "waves" / "circuits.sv")
    for name, table, values in SIMULATED:
        compare.example(name, table, values)
    print("not there:", ", ".join(tool for tool in ("iverilog", "verilator", "yosys", "vcd2fst") if not shutil.which(tool)) or "none")
    print(", ".join("%s: %d" % pair for pair in sorted(compare.counts.items())))
    return 1 if compare.differs else 0


if __name__ == "__main__":
    sys.exit(main(str(pathlib.Path(sys.argv[1]).resolve())) if len(sys.argv) == 2 else __doc__)
