"""Designs and waveforms that are legal and large: what each takes, by a program that is given.

Use: SVTV=PROGRAM python3 bench/large_designs.py [NAME ..]

Each design is within every bound of the language. A line is printed for each: its name, the processor seconds and megabytes of
one run, and how it ended. Without a name all are run, one after the other, each with a limit of LIMIT processor seconds (600) and
MEMORY bytes (22 GiB). The run is `sim` of the design, but for those that give words of their own.
"""

import os
import resource
import subprocess
import sys
import tempfile
import time

LIMIT = int(os.environ.get("LIMIT", 600))
MEMORY = int(os.environ.get("MEMORY", 22 << 30))


def statements(count):
    """So many bytes, nearly, of plain statements on `y`, `a` and a loop's variable `i`."""
    piece = "y = (y ^ a) + 32'd1; y = y[0] ? {y[30:0], ~y[31]} : y - i; "
    return piece * max(1, count // len(piece))


def looping_instances():
    """1,000 instances of a module with four loops of 32 turns over 1,000 bytes each."""
    loops = "".join("for (int i = 0; i < 32; i++) begin %s end\n" % statements(1000) for _ in range(4))
    leaf = "module leaf(input logic [31:0] a, output logic [31:0] y);\nalways_comb begin y = a;\n%send\nendmodule\n" % loops
    return leaf + "module m(input logic [31:0] a);\nfor (genvar g = 0; g < 1000; g++) begin : c leaf u(.a(a)); end\nendmodule\n", "out,c[0].u.y,s\n"


def nested_generates():
    """Generate loops of 64 x 64 x 64 turns over 400 bytes."""
    body = "logic q; assign q = " + " ^ ".join("a[(i + %d * j + k) %% 32]" % n for n in range(1, 17)) + ";"
    inner = "for (genvar k = 0; k < 64; k++) begin : z %s end" % body
    return ("module m(input logic [31:0] a);\nfor (genvar i = 0; i < 64; i++) begin : x for (genvar j = 0; j < 64; j++) begin : y %s end end\nendmodule\n" % inner,
            "out,x[0].y[0].z[0].q,s\n")


def large_modules():
    """64 x 64 instances of a module of 32 KB."""
    leaf = "module leaf(input logic [31:0] a, output logic [31:0] y);\nalways_comb begin y = a; %send\nendmodule\n" % statements(32 << 10).replace("- i", "- a")
    return (leaf + "module m(input logic [31:0] a);\nfor (genvar i = 0; i < 64; i++) begin : x for (genvar j = 0; j < 64; j++) begin : y leaf u(.a(a)); end end\nendmodule\n",
            "out,x[0].y[0].u.y,s\n")


def netlist():
    """250,000 cells of three bits in modules of 200 bytes."""
    kinds = {"and2": "a & b", "or2": "a | b", "xor2": "a ^ b", "nand2": "~(a & b)", "nor2": "~(a | b)"}
    text = ""
    for name, value in kinds.items():
        module = "module %s(input wire logic a, input wire logic b, output wire logic y);\n  assign y = %s;" % (name, value)
        text += module + "\n  // " + "-" * max(0, 185 - len(module)) + "\nendmodule\n"
    return (text + "module m(input wire logic [63:0] a);\n"
            + "".join("for (genvar i = 0; i < 100; i++) begin : %s for (genvar j = 0; j < 500; j++) begin : r %s u(.a(a[i %% 64]), .b(a[j %% 64])); end end\n" % ("g" + name, name)
                      for name in kinds) + "endmodule\n", "out,gand2[0].r[0].u.y,s\n")


def turns_over_conditions():
    """995,328 turns of generate loops over 8 branches that are not taken."""
    body = "".join("if (i + j == 9999) begin logic q; end " for _ in range(8))
    return "module m(input logic a);\nfor (genvar i = 0; i < 243; i++) begin : x for (genvar j = 0; j < 4096; j++) begin : y %send end\nendmodule\n" % body, "out,a,s\n"


def turns_of_statements():
    """995,328 turns in one block over 26 statements."""
    body = "y = y ^ a; " * 26
    return ("module m(input logic a, output logic y);\nalways_comb begin y = a; for (int i = 0; i < 243; i++) for (int j = 0; j < 4096; j++) begin %send end\nendmodule\n" % body,
            "out,y,s\n")


def long_names():
    """990,000 wires below names of 1,000 bytes."""
    return ("module leaf;\nfor (genvar i = 0; i < 990; i++) begin : g logic %s; end\nendmodule\nmodule m;\nfor (genvar i = 0; i < 1000; i++) begin : %s leaf u(); end\nendmodule\n" % ("w", "n" * 1000),
            "out,%s[0].u.g[0].w,s\n" % ("n" * 1000))


def shared_parameters():
    """60,000 instances that are given one parameter of 80 KB."""
    value = "7"
    for count in (50, 50, 8):
        value = "(%s)" % " + ".join([value] * count)
    pins = ", ".join("u%d()" % n for n in range(60000))
    return "module leaf #(parameter P = 0); endmodule\nmodule m(input logic a);\nleaf #(.P(%s)) %s;\nendmodule\n" % (value, pins), "out,a,s\n"


def many_files():
    """A file of 16 MB of comments that is included 100 times."""
    return "`include \"e.sv\"\n" * 100 + "module m(input logic a);\nendmodule\n", "out,a,s\n"


def changing_wires():
    """8,180 wires of 128 bits, all of which change in each of 64 phases."""
    return ("module m(input logic a);\nfor (genvar i = 0; i < 2; i++) begin : x for (genvar j = 0; j < 4090; j++) begin : y wire [127:0] w; assign w = {128{a}}; end end\nendmodule\n",
            "in,a,0%s\nout,x[0].y[0].w,s%s\n" % (",~" * 63, "," * 63))


def changing_wires_dumped():
    """The waveform of the same, of 70 MB."""
    return *changing_wires(), "sim", "d.sv", "t.csv", "v.csv", "--vcd"


def read_dump():
    """The changes of one signal of a dump of 15 MB: 8,180 wires of 128 bits that change at each of 14 times."""
    codes = [chr(33 + n % 94) + chr(33 + n // 94) for n in range(8180)]
    text = "$scope module top $end\n" + "".join("$var wire 128 %s w%d $end\n" % (code, n) for n, code in enumerate(codes)) + "$upscope $end\n$enddefinitions $end\n"
    for time_of in range(14):
        text += "#%d\n" % time_of + "".join("b%s %s\n" % (str(time_of % 2) * 128, code) for code in codes)
    return text, "", "wave", "w.vcd", "top.w0"


DESIGNS = [looping_instances, nested_generates, large_modules, netlist, turns_over_conditions, turns_of_statements, long_names, shared_parameters, many_files,
           changing_wires, changing_wires_dumped, read_dump]


def run(program, design):
    text, table, *words = design()
    words = words or ["sim", "d.sv", "t.csv", "v.csv"]
    with tempfile.TemporaryDirectory() as folder:
        for name, content in [(words[1], text), ("t.csv", table), ("v.csv", ""), ("e.sv", "/*%s*/\n" % ("-" * 60) * (16777216 // 65))]:
            with open(os.path.join(folder, name), "w") as it:
                it.write(content)

        def bound():
            resource.setrlimit(resource.RLIMIT_CPU, (LIMIT, LIMIT))
            resource.setrlimit(resource.RLIMIT_AS, (MEMORY, MEMORY))

        begun = time.time()
        child = subprocess.Popen([program, *words], cwd=folder, stdout=subprocess.PIPE, stderr=subprocess.STDOUT, preexec_fn=bound)
        said = child.stdout.read().decode(errors="replace").strip().splitlines()
        _, status, used = os.wait4(child.pid, 0)
        child.returncode = status
        print("%-22s %7.1f s of the processor, %7.1f s, %7.0f MB, status %d: %s" % (
            design.__name__, used.ru_utime + used.ru_stime, time.time() - begun, used.ru_maxrss / 1024, os.waitstatus_to_exitcode(status), (said or ["nothing"])[-1][:80]), flush=True)


def main():
    program = os.path.realpath(os.environ["SVTV"])
    for design in DESIGNS:
        if len(sys.argv) == 1 or design.__name__ in sys.argv[1:]:
            run(program, design)


main()
