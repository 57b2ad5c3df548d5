"""The question of a goal for other programs: a script for yosys, a graph in AIGER form for abc, and clauses in DIMACS form.

These know two values alone. They are asked whether some choice of the variables, with some two-valued vectors for what is free and for the
registers before the first phase, meets the hypotheses and breaks a claim; of a vacuous goal, whether some choice meets the
hypotheses. A goal that fails through X alone has another answer there, so it is not asked.

yosys reads the design itself, in a module around it, and solves it phase by phase. For the others it makes gates of the design and of the
goal, and these are joined here over the phases of the table: constants fold, equal gates are one, and only what the question hangs on is
written. All of that is done before any time is taken.
"""

import re
import subprocess

FALSE, TRUE = 0, 1

GATES = "async2sync; techmap; simplemap; dffunmap; aigmap; setundef -zero; opt_clean"
READ = "hierarchy -top %s; proc; flatten; memory; tribuf -formal; chformal -remove; opt"


class Graph:
    """Gates with two inputs. A literal is twice its node, and one more where it is negated; node 0 is false."""

    def __init__(self):
        self.operands = {}
        self.found = {}
        self.count = 0

    def fresh(self):
        self.count += 1
        return 2 * self.count

    def both(self, a, b):
        a, b = sorted((a, b))
        if a == FALSE or a == b ^ 1:
            return FALSE
        if a == TRUE or a == b:
            return b
        if (a, b) not in self.found:
            self.found[a, b] = self.fresh()
            self.operands[self.found[a, b] >> 1] = (a, b)
        return self.found[a, b]

    def cone(self, root):
        """The nodes on which a literal hangs, numbered anew: inputs first, then gates behind their operands."""
        reached, left = set(), [root >> 1]
        while left:
            node = left.pop()
            if node and node not in reached:
                reached.add(node)
                left += [operand >> 1 for operand in self.operands.get(node, ())]
        inputs = sorted(node for node in reached if node not in self.operands)
        gates = sorted(node for node in reached if node in self.operands)
        numbers = {node: number for number, node in enumerate([0] + inputs + gates)}
        return inputs, gates, lambda literal: 2 * numbers[literal >> 1] | literal & 1

    def aiger(self, root):
        """The graph of one literal in the binary form of AIGER."""
        inputs, gates, renamed = self.cone(root)
        count = len(inputs) + len(gates)
        text = bytearray(b"aig %d %d 0 1 %d\n%d\n" % (count, len(inputs), len(gates), renamed(root)))
        for node in gates:
            low, high = sorted(renamed(operand) for operand in self.operands[node])
            for number in (renamed(2 * node) - high, high - low):
                while number > 127:
                    text.append(number & 127 | 128)
                    number >>= 7
                text.append(number)
        return bytes(text)

    def dimacs(self, root):
        """Clauses that have a solution exactly where the literal can be true: three for each gate."""
        inputs, gates, renamed = self.cone(root)
        if root < 2:
            return "p cnf 1 1\n%s0\n" % ("1 " if root else "")

        def dim(literal):
            return -(literal >> 1) if literal & 1 else literal >> 1

        clauses = [[dim(renamed(root))]]
        for node in gates:
            gate = dim(renamed(2 * node))
            a, b = (dim(renamed(operand)) for operand in self.operands[node])
            clauses += [[-gate, a], [-gate, b], [gate, -a, -b]]
        lines = ["p cnf %d %d" % (len(inputs) + len(gates), len(clauses))]
        return "\n".join(lines + [" ".join(map(str, clause)) + " 0" for clause in clauses]) + "\n"


class Machine:
    """A module as yosys writes it: gates over the bits of ports and registers."""

    def __init__(self, text):
        lines = iter(text.split("\n"))
        _, inputs, latches, outputs, gates = map(int, next(lines).split()[1:])
        self.inputs = [int(next(lines)) for _ in range(inputs)]
        self.latches = [tuple(map(int, next(lines).split()[:2])) for _ in range(latches)]
        self.outputs = [int(next(lines)) for _ in range(outputs)]
        self.gates = [tuple(map(int, next(lines).split())) for _ in range(gates)]
        self.names = {"i": {}, "l": {}, "o": {}}
        for line in lines:
            told = re.fullmatch(r"([ilo])(\d+) (.*?)(?:\[(\d+)\])?", line)
            if told:
                kind, number, name, bit = told.groups()
                self.names[kind][int(number)] = (name, int(bit or 0))

    def values(self, graph, given, registers):
        """The value of each literal, for vectors of the inputs by name and for values of the registers."""
        value = {0: FALSE, 1: TRUE}

        def put(literal, of):
            value[literal], value[literal ^ 1] = of, of ^ 1

        for number, literal in enumerate(self.inputs):
            name, bit = self.names["i"][number]
            put(literal, given[name][bit])
        for (literal, _), of in zip(self.latches, registers):
            put(literal, of)
        for literal, a, b in self.gates:
            put(literal, graph.both(value[a], value[b]))
        return value

    def told(self, value):
        """The vector of each output, by name."""
        vectors = {}
        for number, literal in enumerate(self.outputs):
            name, bit = self.names["o"][number]
            vectors.setdefault(name, {})[bit] = value[literal]
        return vectors


def widths(run):
    """The width of each variable and each sample of a run, in two dictionaries."""
    variables = {cell: run.inputs[name] for name, cells in run.cells.items() for cell in cells if cell[:1].isalpha()}
    samples = {cell: run.outputs[name] for name, cells in run.samples.items() for cell in cells if cell}
    return variables, samples


def ports(inputs, outputs):
    told = ["input logic [%d:0] %s" % (width - 1, name) for name, width in inputs.items()]
    return ", ".join(told + ["output logic [%d:0] %s" % (width - 1, name) for name, width in outputs.items()])


def question(goal):
    """Two assignments: whether the hypotheses are met, and whether a claim is broken besides."""
    met = " && ".join("(%s)" % hyp for hyp in goal.hyps) or "1'b1"
    claimed = " && ".join("(%s)" % claim for claim in goal.claims)
    return "  assign met = %s;\n  assign bad = met && !(%s);\n" % (met, claimed)


def asked(goal):
    return "met" if goal.verdict == "vacuous" else "bad"


def instance(run, wires):
    return "  %s dut(%s);\n" % (run.top, ", ".join(".%s(%s)" % pair for pair in wires.items()))


def gates_of(folder, module, files):
    """A module of some files as gates, by yosys."""
    reads = "; ".join("read_verilog -sv %s" % file for file in files)
    script = "%s; %s; %s; write_aiger -ascii -symbols %s.aag" % (reads, READ % module, GATES, module)
    subprocess.run(["yosys", "-q", "-p", script], cwd=folder, check=True, capture_output=True)
    return Machine((folder / (module + ".aag")).read_text())


def design_gates(folder, run):
    """The design of a run as gates, which all its goals share."""
    if (folder / "frame.aag").exists():
        return Machine((folder / "frame.aag").read_text())
    wires = {name: name for name in {**run.inputs, **run.outputs}}
    frame = "module frame(%s);\n%sendmodule\n" % (ports(run.inputs, run.outputs), instance(run, wires))
    (folder / "frame.sv").write_text(frame)
    return gates_of(folder, "frame", ["d.sv", "frame.sv"])


def drive(graph, variables, width, cell, before):
    """The vector of an input under a cell, where `before` is that of the phase before."""
    if cell == "~":
        return [bit ^ 1 for bit in before]
    if cell == "_":
        return [graph.fresh() for _ in range(width)]
    return variables[cell] if cell in variables else [int(cell) >> bit & 1 for bit in range(width)]


def drives(run, graph, variables):
    """The vector of each input in each phase. An empty cell is the one before it, read once more."""
    phases = [{} for _ in range(run.phases())]
    for name, cells in run.cells.items():
        now, vector = "_", None
        for phase, cell in zip(phases, cells):
            now = cell or now
            vector = phase[name] = drive(graph, variables, run.inputs[name], now, vector)
    return phases


def unrolled(run, machine, graph, variables):
    """The vector of each sample. A register reads the phase before where the clock rises, and stays where it does not."""
    registers = [graph.fresh() for _ in machine.latches]
    samples, earlier, value = {}, None, None
    for phase, given in enumerate(drives(run, graph, variables)):
        if earlier and given["clk"] == [1] and earlier["clk"] == [0]:
            registers = [value[after] for _, after in machine.latches]
        value = machine.values(graph, given, registers)
        for name, cells in run.samples.items():
            if cells[phase]:
                samples[cells[phase]] = machine.told(value)[name]
        earlier = given
    return samples


def write_gates(folder, run, goal):
    """Writes the question of a goal as `goal.aig` and `goal.cnf`."""
    variables, samples = widths(run)
    told = "module told(%s);\n%sendmodule\n" % (ports({**variables, **samples}, {"met": 1, "bad": 1}), question(goal))
    (folder / "told.sv").write_text(told)
    graph = Graph()
    vectors = {name: [graph.fresh() for _ in range(width)] for name, width in variables.items()}
    vectors.update(unrolled(run, design_gates(folder, run), graph, vectors))
    machine = gates_of(folder, "told", ["told.sv"])
    root = machine.told(machine.values(graph, vectors, []))[asked(goal)][0]
    (folder / "goal.aig").write_bytes(graph.aiger(root))
    (folder / "goal.cnf").write_text(graph.dimacs(root))


def at_phases(run):
    """What the inputs are in each phase, and which phase gives each sample, as words for yosys."""
    words = []
    for name, cells in run.cells.items():
        now = "_"
        for phase, cell in enumerate(cells, 1):
            now = str(1 - int(now)) if cell == "~" else cell or now
            if now != "_":
                words.append("-set-at %d at_%s %s" % (phase, name, now))
    for name, cells in run.samples.items():
        words += ["-set-at %d %s at_%s" % (phase, cell, name) for phase, cell in enumerate(cells, 1) if cell]
    return " ".join(words)


def write_script(folder, run, goal):
    """Writes `goal.ys`, with which yosys reads the design and solves the goal. It ends well where the answer is the awaited one."""
    variables, samples = widths(run)
    wires = {name: "at_" + name for name in {**run.inputs, **run.outputs}}
    signals = {wires[name]: width for name, width in run.inputs.items()}
    known = {**variables, **samples}
    body = "".join("  (* keep *) wire [%d:0] at_%s;\n" % (width - 1, name) for name, width in run.outputs.items())
    if run.phases() > 1:
        body += "".join("  (* keep, anyconst *) logic [%d:0] %s;\n" % (width - 1, name) for name, width in known.items())
    else:
        same = {cells[0]: wires[name] for name, cells in {**run.cells, **run.samples}.items()}
        body += "".join("  wire [%d:0] %s = %s;\n" % (known[name] - 1, name, of) for name, of in same.items())
    module = "module around(%s);\n%s%s%sendmodule\n" % (ports(signals, {"met": 1, "bad": 1}), body, instance(run, wires), question(goal))
    (folder / "around.sv").write_text(module)
    way = "-falsify" if goal.verdict == "failed" else "-verify"
    lines = ["read_verilog -sv d.sv around.sv", *(READ % "around").split("; ")]
    if run.phases() > 1:
        steps = "-seq %d -prove-skip %d %s" % (run.phases(), run.phases() - 1, at_phases(run))
        lines += ["async2sync", "clk2fflogic", "opt", "sat -prove %s 0 %s %s" % (asked(goal), way, steps)]
    else:
        lines += ["sat -prove %s 0 %s" % (asked(goal), way)]
    (folder / "goal.ys").write_text("\n".join(lines) + "\n")
