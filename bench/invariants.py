#!/usr/bin/env python3
"""Invariants asked of `svtv induct` and of yosys, and whether the two agree.

Use: SVTV=program invariants.py [WORD..]      those whose names contain one of the words, or all
     SVTV=program invariants.py --ring BITS   the time for a ring of so many registers, one of which is 1
     SVTV=program invariants.py --bank BITS   that for a state machine of 16 states beside a bank of so many registers in all

yosys is asked the same two questions by its command `sat`: whether the claims hold behind one cycle of reset that begins in any state, and
whether they hold behind a cycle that begins in any state in which they hold. It knows states of 0 and 1 alone. So where it finds an
invariant, `svtv` may find a step that fails from a state with X or Z, or one in which the claim itself is X: those are told with what `svtv` prints.
Every other difference is a fault, and the exit code is 1.

All samples are of registers: what else is sampled has any value before a period for `svtv`, and for yosys what the registers give.
"""
import os
import re
import subprocess
import sys
import tempfile
import time
from collections import namedtuple

SVTV = os.environ.get("SVTV", "./svtv")

# ports: inputs and outputs, with their widths; held: what the inputs are in the reset and in a period; body: of the module.
Case = namedtuple("Case", "name inputs outputs reset period body goals")

ALWAYS = "always_ff @(posedge clk) if (rst) begin %s end else begin %s end"


def case(name, outputs, at_reset, step, goals, inputs=(), reset=None, body="", plain=None):
    """A module with `clk` and `rst`, registers as outputs, one reset cycle, and periods of one cycle with any inputs."""
    ports = [("rst", 1), *inputs]
    body += "\n  " + (plain if plain is not None else ALWAYS % (at_reset, step))
    held = {"rst": "1", **{port: "0" for port, _ in inputs}, **(reset or {})}
    period = {"rst": "0", **{port: f"any_{port}" for port, _ in inputs}}
    return Case(name, ports, list(outputs), held, period, body, goals)


CASES = [
    case("decimal", [("q", 4)], "q <= 4'd0;", "q <= q < 4'd9 ? q + 4'd1 : 4'd0;",
         {"digit": ["q <= 4'd9"], "below": ["q < 4'd9"], "not_twelve": ["q != 4'd12"]}),
    case("two_digits", [("t", 4), ("u", 4)], "t <= 4'd0; u <= 4'd0;",
         "if (u == 4'd9) begin u <= 4'd0; t <= t == 4'd9 ? 4'd0 : t + 4'd1; end else u <= u + 4'd1;",
         {"both": ["t <= 4'd9", "u <= 4'd9"], "tens": ["t <= 4'd9"], "units": ["u <= 4'd9"]}),
    case("by_twos", [("q", 4)], "q <= 4'd0;", "q <= q == 4'd8 ? 4'd0 : q + 4'd2;",
         {"not_five": ["q != 4'd5"], "even": ["!q[0]"], "strengthened": ["!q[0]", "q <= 4'd8"]}),
    case("ring", [("s", 8)], "s <= 8'd1;", "s <= {s[6:0], s[7]};",
         {"one_hot": ["(s & (s - 8'd1)) == 8'd0 && s != 8'd0"], "not_zero": ["s != 8'd0"], "not_three": ["s != 8'd3"]}),
    case("johnson", [("s", 4)], "s <= 4'd0;", "s <= {s[2:0], ~s[3]};",
         {"one_edge": ["{2'd0, s[0] ^ s[1]} + {2'd0, s[1] ^ s[2]} + {2'd0, s[2] ^ s[3]} <= 3'd1"], "not_five": ["s != 4'd5"]}),
    case("gray", [("b", 5), ("g", 5)], "b <= 5'd0; g <= 5'd0;", "b <= b + 5'd1; g <= (b + 5'd1) ^ ((b + 5'd1) >> 1);",
         {"code": ["g == (b ^ (b >> 1))"], "low": ["g[0] == (b[0] ^ b[1])"]}),
    case("credits", [("free", 4), ("used", 4)], "free <= 4'd8; used <= 4'd0;",
         "if (take && free != 4'd0) begin free <= free - 4'd1; used <= used + 4'd1; end"
         " else if (give && used != 4'd0) begin free <= free + 4'd1; used <= used - 4'd1; end",
         {"sum": ["free + used == 4'd8"], "most": ["used <= 4'd8"], "both": ["free + used == 4'd8", "free <= 4'd8"]},
         inputs=[("take", 1), ("give", 1)]),
    case("lfsr", [("s", 8)], "s <= 8'd1;", "s <= {s[6:0], s[7] ^ s[5] ^ s[4] ^ s[3]};",
         {"not_zero": ["s != 8'd0"], "not_one": ["s != 8'd1"]}),
    case("opposite", [("x", 1), ("y", 1)], "x <= 1'b0; y <= 1'b1;", "if (go) begin x <= y; y <= x; end",
         {"differ": ["x != y"], "alike": ["x == y"]}, inputs=[("go", 1)]),
    case("parity", [("d", 8), ("p", 1)], "d <= 8'd0; p <= 1'b0;", "d <= word; p <= ^word;",
         {"even": ["(^d) == p"]}, inputs=[("word", 8)]),
    case("lights", [("north", 2), ("east", 2)], "north <= 2'd2; east <= 2'd0;",
         "case ({north, east}) 4'b1000: if (go) north <= 2'd1; 4'b0100: begin north <= 2'd0; east <= 2'd2; end"
         " 4'b0010: if (go) east <= 2'd1; 4'b0001: begin east <= 2'd0; north <= 2'd2; end default: ; endcase",
         {"safe": ["north == 2'd0 || east == 2'd0"],
          "strong": ["{north, east} == 4'b1000 || {north, east} == 4'b0100 || {north, east} == 4'b0010 || {north, east} == 4'b0001"]},
         inputs=[("go", 1)]),
    case("fifo", [("head", 4), ("tail", 4), ("count", 4)], "head <= 4'd0; tail <= 4'd0; count <= 4'd0;",
         "if (put) tail <= tail + 4'd1; if (take) head <= head + 4'd1; count <= count + {3'd0, put} - {3'd0, take};",
         {"difference": ["count == tail - head"], "most": ["count <= 4'd8"], "both": ["count == tail - head", "count <= 4'd8"]},
         inputs=[("push", 1), ("pop", 1)], body="logic put, take; assign put = push && count != 4'd8; assign take = pop && count != 4'd0;"),
    case("pair", [("a", 8), ("b", 8)], "a <= 8'd0; b <= 8'd0;", "a <= {a[6:0], d}; b <= b + b + {7'd0, d};",
         {"alike": ["a == b"]}, inputs=[("d", 1)]),
    case("product", [("a", 4), ("b", 4), ("p", 8)], "a <= 4'd0; b <= 4'd0; p <= 8'd0;", "a <= x; b <= y; p <= {4'd0, x} * {4'd0, y};",
         {"is": ["p == {4'd0, a} * {4'd0, b}"]}, inputs=[("x", 4), ("y", 4)]),
    case("arbiter", [("grant", 4)], "grant <= 4'd0;", "grant <= ask & (~ask + 4'd1);",
         {"one": ["(grant & (grant - 4'd1)) == 4'd0"]}, inputs=[("ask", 4)]),
    case("saturating", [("q", 4)], "q <= 4'd7;", "if (up) begin if (q != 4'd15) q <= q + 4'd1; end else if (q != 4'd1) q <= q - 4'd1;",
         {"not_zero": ["q != 4'd0"], "not_one": ["q != 4'd1"]}, inputs=[("up", 1)]),
    case("wrong_reset", [("q", 4)], "q <= 4'd12;", "q <= q < 4'd9 ? q + 4'd1 : 4'd0;", {"digit": ["q <= 4'd9"]}),
    case("stage", [("full", 1), ("came", 4), ("went", 4)], "full <= 1'b0; came <= 4'd0; went <= 4'd0;",
         "if (in) came <= came + 4'd1; if (out) went <= went + 4'd1; full <= in || (full && !take);",
         {"kept": ["came - went == {3'd0, full}"]}, inputs=[("valid", 1), ("take", 1)],
         body="logic in, out; assign out = full && take; assign in = valid && (!full || take);"),
    # What is X or Z alone breaks these.
    case("same_arms", [("a", 1)], "", "", {"zero": ["!a"]}, body="logic b;",
         plain="always_ff @(posedge clk) begin a <= !rst && (b & ~b); b <= 1'b0; end"),
    case("own_inverse", [("a", 4)], "a <= 4'd0;", "a <= b ^ b; b <= b + 4'd1;", {"zero": ["a == 4'd0"]}, body="logic [3:0] b;"),
    case("either_way", [("a", 1)], "a <= 1'b1;", "a <= b | ~b; b <= ~b;", {"one": ["a"]}, body="logic b;"),
    case("known", [("q", 2)], "q <= 2'd0;", "if (load) q <= r; r <= r + 2'd1;", {"is": ["q[0] | ~q[0]"]}, inputs=[("load", 1)],
         body="logic [1:0] r;"),
    case("no_number", [("q", 4), ("r", 4)], "q <= 4'd0; r <= 4'd1;", "q <= r - r; r <= s; s <= s;", {"zero": ["q == 4'd0"]},
         body="logic [3:0] s;"),
]


def bits(width):
    return "" if width == 1 else f"[{width - 1}:0] "


def module(it):
    ports = ["input logic clk", *(f"input logic {bits(w)}{n}" for n, w in it.inputs), *(f"output logic {bits(w)}{n}" for n, w in it.outputs)]
    return f"module m({', '.join(ports)});\n  {it.body.strip()}\nendmodule\n"


def table(it, held):
    rows = ["in,clk,0,~", *(f"in,{n},{held[n]},_" for n, _ in it.inputs), *(f"out,{n},,{n}" for n, _ in it.outputs)]
    return "\n".join(rows) + "\n"


def of_svtv(it, room):
    """What `svtv induct` says of each goal: its word, and the lines behind it."""
    texts = {"d.sv": module(it), "reset.csv": table(it, it.reset), "period.csv": table(it, it.period)}
    texts["inv.txt"] = "".join(f"goal {name} {{ {' '.join(f'claim {c};' for c in claims)} }}\n" for name, claims in it.goals.items())
    for name, text in texts.items():
        with open(f"{room}/{name}", "w", encoding="ascii") as file:
            file.write(text)
    run = subprocess.run([os.path.abspath(SVTV), "induct", "d.sv", "reset.csv", "period.csv", "inv.txt"], cwd=room, capture_output=True, text=True, check=False)
    if run.returncode not in (0, 1):
        sys.exit(f"{it.name}: exit code {run.returncode}: {run.stderr}")
    found, last = {}, ""
    for line in run.stdout.split("\n"):
        if line.startswith("  "):
            found[last][1].append(line.strip())
        elif line:
            last, word = line.split(": ")
            found[last] = (word, [])
    return found


def of_yosys(it, claims, room):
    """What `sat` of yosys says of the two questions."""
    ports = [f"input logic {bits(w)}{n}" for n, w in it.inputs]
    joined = ", ".join(f".{n}({n})" for n, _ in [("clk", 1), *it.inputs, *it.outputs])
    wires = " ".join(f"wire {bits(w)}{n};" for n, w in it.outputs)
    with open(f"{room}/y.sv", "w", encoding="ascii") as file:
        file.write(module(it) + f"module top({', '.join(['input logic clk', *ports, 'output ok'])});\n {wires} m design_under_test({joined});\n"
                   f" assign ok = {' && '.join(f'({c})' for c in claims)};\nendmodule\n")

    def holds(held, before):
        sets = "".join(f" -set-at 1 {n} {held[n]}" for n, _ in it.inputs if held[n].isdigit())
        script = f"read_verilog -sv y.sv; hierarchy -top top; proc; flatten; opt; sat -seq 2 -prove-skip 1{sets}{before} -prove ok 1 top"
        run = subprocess.run(["yosys", "-p", script], cwd=room, capture_output=True, text=True, check=False)
        if "no model found: SUCCESS" in run.stdout:
            return True
        if "model found: FAIL" in run.stdout:
            return False
        sys.exit(f"{it.name}: yosys says {run.stdout[-600:]}{run.stderr}")

    if not holds(it.reset, ""):
        return "base fails"
    return "invariant" if holds(it.period, " -set-at 1 ok 1") else "step fails"


def compare(words):
    count, by_unknown, faults = 0, 0, 0
    for it in CASES:
        if words and not any(word in it.name for word in words):
            continue
        with tempfile.TemporaryDirectory() as room:
            found = of_svtv(it, room)
            for name, claims in it.goals.items():
                count += 1
                word, lines = found[name]
                other = of_yosys(it, claims, room)
                if word == other:
                    print(f"{it.name}.{name}: {word}")
                elif other == "invariant" and re.search("'b[01xz]*[xz]", " ".join(lines)):
                    by_unknown += 1
                    print(f"{it.name}.{name}: {word}, and invariant in two values: {', '.join(lines)}")
                else:
                    faults += 1
                    print(f"{it.name}.{name}: {word}, and {other} for yosys: {', '.join(lines)}")
    print(f"{count} invariants, {by_unknown} differ by X or Z, {faults} otherwise")
    return 1 if faults else 0


def timed(it):
    with tempfile.TemporaryDirectory() as room:
        begin = time.time()
        found = of_svtv(it, room)
        print(f"{it.name}: {', '.join(found[name][0] for name in it.goals)}, {time.time() - begin:.2f} s")
    return 0


def words_of(count):
    """Registers of 128 bits, and one for the rest: their names and widths."""
    widths = [128] * (count // 128) + ([count % 128] if count % 128 else [])
    return [(f"w{at}", width) for at, width in enumerate(widths)]


def ring(count):
    """A ring of registers in words, of which one bit is 1."""
    outputs = words_of(count)
    at_reset = " ".join(f"{name} <= {width}'d{1 if name == 'w0' else 0};" for name, width in outputs)

    def turned(at):
        name, width = outputs[at]
        last, most = outputs[at - 1]
        return f"{name} <= {{{name}[{width - 2}:0], {last}[{most - 1}]}};" if width > 1 else f"{name} <= {last}[{most - 1}];"

    step = " ".join(turned(at) for at in range(len(outputs)))
    sums = " + ".join(f"{{15'd0, {name} != {width}'d0}}" for name, width in outputs)
    claims = [f"({name} & ({name} - {width}'d1)) == {width}'d0" for name, width in outputs] + [f"{sums} == 16'd1"]
    return timed(case(f"ring of {count}", outputs, at_reset, step, {"one_hot": claims}))


def bank(count):
    """A state machine whose state has one bit, and a bank of words, each of which takes its turn in one of the states."""
    words = words_of(count - 16)
    body = " ".join(f"logic [{width - 1}:0] {name};" for name, width in words)
    steps = [f"if (s[{at % 16}]) {name} <= {{{name}[{width - 2}:0], d}} ^ {words[at - 1][0]};" for at, (name, width) in enumerate(words)]
    step = "if (go) s <= {s[14:0], s[15]}; " + " ".join(steps)
    one = " || ".join(f"s == 16'd{1 << at}" for at in range(16))
    goals = {"one_hot": [one], "by_arithmetic": ["(s & (s - 16'd1)) == 16'd0", "s != 16'd0"]}
    return timed(case(f"bank of {count}", [("s", 16)], "s <= 16'd1;", step, goals, inputs=[("go", 1), ("d", 1)], body=body))


if __name__ == "__main__":
    kinds = {"--ring": ring, "--bank": bank}
    kind = kinds.get("".join(sys.argv[1:2]))
    sys.exit(kind(int(sys.argv[2])) if kind else compare(sys.argv[1:]))
