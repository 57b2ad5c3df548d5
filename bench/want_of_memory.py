"""Runs svtv with requests for memory that fail, one at a time, and all from one on, for each request that a run makes.

Each run has to end with status 6, nothing on the output and the message of want of memory, or with the answer that it has with ample
memory. Printed are, of each run: how many requests it makes, and how many of the runs ended in which way. The status is 1 where one
ended otherwise. Needs a C compiler (cc); from the environment: SVTV is the program, which is started without a script around it.
"""

import collections
import os
import subprocess
import sys
import tempfile

HERE = os.path.dirname(os.path.abspath(__file__))
PROGRAM = os.path.abspath(os.environ.get("SVTV", "./svtv"))

GATE = "module m(input logic a, input logic b, output logic y); assign y = a & b; endmodule"
LOOP = "module m(input logic [7:0] p, g, input logic ci, output logic [8:0] y); assign y = {g | (p & y[7:0]), ci}; endmodule"
REGISTER = (
    "module m(input logic clk, input logic [7:0] a, b, output logic [7:0] y); logic [7:0] r1, r2; "
    "always_ff @(posedge clk) begin r1 <= a + b; r2 <= r1; y <= r2; end endmodule"
)
WRITE = "module m(input logic [3:0] i, output logic [7:0] y); always_comb begin y = 8'h0f; y[i] = 1'b1; end endmodule"
JOINED = (
    "module c(inout w, input e, d); assign w = e ? d : 1'bz; endmodule "
    "module m(input e, f, d, g, inout b); c u(.w(b), .e(e), .d(d)); c v(.w(b), .e(f), .d(g)); endmodule"
)
COUNTER = (
    "module m(input logic clk, rst, output logic [3:0] q); always_ff @(posedge clk) "
    "if (rst) q <= 4'd0; else if (q < 4'd9) q <= q + 4'd1; else q <= 4'd0; endmodule"
)
SUMS = "module m(input logic [4:0] a, b, c, output logic [4:0] x, y); assign x = (a + b) + c; assign y = a + (b + c); endmodule"
DUMP = "$timescale 1 ns $end $scope module top $end $var wire 1 ! a $end $upscope $end $enddefinitions $end #0 0! #1 1! #2 x!"
GATE_TABLE = "in,a,a\nin,b,b\nout,y,s\n"
PROVE, SIM = ["prove", "d.sv", "t.csv", "g.txt"], ["sim", "d.sv", "t.csv", "v.csv"]


def files(design, table="", goals="", values="", **more):
    return {"d.sv": design, "t.csv": table, "g.txt": goals, "v.csv": values, **more}


RUNS = {
    "a proof over an and-gate": (PROVE, files(GATE, GATE_TABLE, "goal eq { claim s == (a & b); }")),
    "a goal that fails, one that is vacuous": (PROVE, files(GATE, GATE_TABLE, "goal w { claim s; } goal v { hyp a & ~a; claim s; }")),
    "a proof over a vector that reads itself": (
        PROVE, files(LOOP, "in,p,p\nin,g,g\nin,ci,ci\nout,y,s\n", "goal r { hyp p == 8'hff; hyp g == 8'h00; claim s[8] == ci; }")),
    "a proof over registers": (
        PROVE, files(REGISTER, "in,clk,0,~,~,~,~,~\nin,a,a,_,_,_,_,_\nin,b,b,_,_,_,_,_\nout,y,,,,,,s\n", "goal g { claim s == a + b; }")),
    "a proof over inout ports that are joined": (
        PROVE, files(JOINED, "in,e,e\nin,f,f\nin,d,d\nin,g,g\nin,b,z\nout,b,s\n", "goal h { hyp e ^ f; claim s == (e ? d : g); }")),
    "a proof with a row that overrides": (
        PROVE, files(GATE, "in,a,a,a\nin,b,b,b\nover,y,,1\nout,y,s,t\n", "goal h { claim s == (a & b); claim t; }")),
    "a search that is given up": (
        PROVE + ["--budget", "1"],
        files("module m(input logic [7:0] a, b, c, output logic [7:0] y); assign y = a * (b + c); endmodule",
              "in,a,a\nin,b,b\nin,c,c\nout,y,s\n", "goal g { claim s == a * b + a * c; }")),
    "a proof over a sum that is regrouped": (
        PROVE, files(SUMS, "in,a,a\nin,b,b\nin,c,c\nout,x,s\nout,y,t\n", "goal r { claim s == t; }")),
    "a certificate": (["cert", *PROVE[1:], "eq"], files(GATE, GATE_TABLE, "goal eq { claim s == (a & b); }")),
    "a certificate that is checked": (["check", "c.txt"], {"c.txt": "p cnf 1 2\n1 0\n-1 0\n3 0 1 2 0\n"}),
    "an invariant, and one that is none": (
        ["induct", "d.sv", "r.csv", "p.csv", "g.txt"],
        files(COUNTER, goals="goal digit { claim s <= 4'd9; } goal low { claim s < 4'd9; }",
              **{"r.csv": "in,clk,0,~\nin,rst,1,1\nout,q,,s\n", "p.csv": "in,clk,0,~\nin,rst,r,_\nout,q,,s\n"})),
    "a simulation as waveforms": (SIM + ["--vcd"], files(REGISTER, "in,clk,0,~\nin,a,3,\nin,b,4,\nout,y,,s\n")),
    "the changes of a signal": (["wave", "w.vcd", "top.a"], {"w.vcd": DUMP}),
    "a simulation with a free index": (SIM, files(WRITE, "out,y,s\n")),
    "a simulation with a constant": (SIM, files(WRITE, "in,i,9\nout,y,s\n")),
    "a simulation with a value": (SIM, files(WRITE, "in,i,i\nout,y,s\n", values="i,7\n")),
    "a variable without a value": (SIM, files(WRITE, "in,i,i\nout,y,s\n")),
    "a simulation of registers": (SIM, files(REGISTER, "in,clk,0,~,~,~,~,~\nin,a,3,,,,,\nin,b,4,,,,,\nout,y,,,,,,s\n")),
    "the text of a flat design": (["dump", "d.sv"], files(GATE)),
    "the text of joined inout ports": (["dump", "d.sv"], files(JOINED)),
    "an included file, a macro and a condition": (
        ["dump", "d.sv"], files('`define M x\n`undef M\n`define W logic\n`include "e.sv"\n`ifdef W\n' + GATE + "\n`endif\n", **{"e.sv": "typedef `W t;\n"})),
    "an included file that is not there": (["dump", "d.sv"], files('`include "e.sv"\n')),
    "a text that ends too early": (["dump", "d.sv"], files("module m(input logic a")),
    "goals that are no goals": (PROVE, files(GATE, GATE_TABLE, "goal")),
    "words that are no command": (["prove", "d.sv"], {}),
    "a self test": (["selftest", "1"], {}),
}


def run(words, room, library, **asked):
    """What came of a run: its status, output and message."""
    given = dict(os.environ, LD_PRELOAD=library, **asked)
    ended = subprocess.run([PROGRAM, *words], cwd=room, env=given, stdin=subprocess.DEVNULL, capture_output=True, timeout=120)
    return ended.returncode, ended.stdout, ended.stderr


def kind_of(came, ample):
    if came == (6, b"", b"svtv: out of memory\n"):
        return "out of memory"
    return "as with ample memory" if came == ample else "otherwise"


def tried(name, words, library):
    """Prints the line of a run, and answers how many ended otherwise."""
    with tempfile.TemporaryDirectory() as room:
        for file, text in RUNS[name][1].items():
            with open(os.path.join(room, file), "w") as out:
                out.write(text)
        count = os.path.join(room, "count")
        ample = run(words, room, library, COUNT=count)
        with open(count) as file:
            requests = int(file.read())
        ends = {"FAIL_AT": collections.Counter(), "FAIL_FROM": collections.Counter()}
        for how, counter in ends.items():
            for number in range(1, requests + 1):
                came = run(words, room, library, **{how: str(number)})
                counter[kind_of(came, ample)] += 1
                if kind_of(came, ample) == "otherwise":
                    print("%s, %s=%d: %r" % (name, how, number, came), flush=True)
    told = "; ".join(", ".join("%s %d" % each for each in sorted(counter.items())) for counter in ends.values())
    print("%-45s status %d, %6d requests; one fails: %s" % (name, ample[0], requests, told.replace("; ", "; all from one on: ")), flush=True)
    return sum(counter["otherwise"] for counter in ends.values())


def main():
    with tempfile.TemporaryDirectory() as room:
        library = os.path.join(room, "failing.so")
        subprocess.run(["cc", "-O1", "-shared", "-fPIC", "-o", library, os.path.join(HERE, "failing_malloc.c"), "-ldl"], check=True)
        return sum([tried(name, words, library) for name, (words, _) in RUNS.items()]) > 0


if __name__ == "__main__":
    sys.exit(main())
