"""The designs, tables and goals of the suite `prove.sh`, each made at a size.

A run is a design with a table and one goal or more. Its inputs and outputs are told with their widths, since the wrappers for other
programs need them. Goals name the variables of the table and its samples. Each text is in the subset that both svtv and yosys read.
"""

from dataclasses import dataclass, field


@dataclass
class Goal:
    """A goal, and the verdict that it has by hand."""

    name: str
    claims: list
    hyps: list = field(default_factory=list)
    verdict: str = "proved"

    def text(self):
        hyps = "".join("hyp %s; " % hyp for hyp in self.hyps)
        claims = "".join("claim %s; " % claim for claim in self.claims)
        return "goal %s { %s%s}\n" % (self.name, hyps, claims)


@dataclass
class Run:
    """A design `top` with its ports, the cells of its inputs phase by phase, the names of its samples, and goals."""

    name: str
    size: str
    design: str
    top: str
    inputs: dict
    outputs: dict
    cells: dict
    samples: dict
    goals: list
    budget: int = None
    alike: bool = True

    def table(self):
        """The table as text."""
        rows = ["in,%s,%s" % (name, ",".join(cells)) for name, cells in self.cells.items()]
        rows += ["out,%s,%s" % (name, ",".join(cells)) for name, cells in self.samples.items()]
        return "\n".join(rows) + "\n"

    def phases(self):
        return len(next(iter(self.samples.values())))


def ports(inputs, outputs, kind="logic"):
    """The ports of a module."""

    def port(words, name, width):
        return "%s %s" % (words, name) if width == 1 else "%s [%d:0] %s" % (words, width - 1, name)

    told = [port("input logic", *each) for each in inputs.items()]
    return ", ".join(told + [port("output " + kind, *each) for each in outputs.items()])


def at_once(name, size, inputs, outputs, body, goals, **more):
    """A run of one phase: each input is a variable of its own name, and each output a sample: s, t, and so on."""
    kind = more.pop("kind", "logic")
    design = "module m(%s);\n%s\nendmodule\n" % (ports(inputs, outputs, kind), body)
    cells = {each: [each] for each in inputs}
    samples = {each: [sample] for each, sample in zip(outputs, "stu")}
    return Run(name, str(size), design, "m", inputs, outputs, cells, samples, goals, **more)


def log2(number):
    return (number - 1).bit_length()


def words(width, names):
    return {name: width for name in names}


def swapped(operator, name, width):
    return at_once(
        name,
        width,
        words(width, "ab"),
        {"y": width},
        "  assign y = a %s b;" % operator,
        [Goal("swapped", ["s == (b %s a)" % operator])],
    )


def regrouped(width):
    return at_once(
        "sum regrouped",
        width,
        words(width, "abc"),
        {"y": width},
        "  assign y = (a + b) + c;",
        [Goal("regrouped", ["s == a + (b + c)"])],
    )


def shifted(width):
    """A shift by stages, with the bits of the number taken from either end."""
    stages = ["    if (n[%d]) %%s = %%s << %d;" % (place, 1 << place) for place in range(log2(width))]
    up = "\n".join(stage % ("y", "y") for stage in stages)
    down = "\n".join(stage % ("w", "w") for stage in reversed(stages))
    body = "  always_comb begin\n    y = a;\n%s\n  end\n  always_comb begin\n    w = a;\n%s\n  end" % (up, down)
    inputs = {"a": width, "n": log2(width)}
    return at_once(
        "shift in either order",
        width,
        inputs,
        words(width, "yw"),
        body,
        [Goal("stages", ["s == t"]), Goal("operator", ["s == a << n"])],
    )


def school(width, left_out=None):
    """A product by rows, of which one may be left out, against the operator."""
    rows = [
        "    if (b[%d]) y = y + ({%d'd0, a} << %d);" % (place, width, place) for place in range(width) if place != left_out
    ]
    return at_once(
        "product by rows" if left_out is None else "product without a row",
        width,
        words(width, "ab"),
        {"y": 2 * width},
        "  always_comb begin\n    y = '0;\n%s\n  end" % "\n".join(rows),
        [Goal("product", ["s == a * b"], [], "proved" if left_out is None else "failed")],
    )


def distributed(width, **more):
    return at_once(
        "product over a sum",
        width,
        words(width, "abc"),
        {"y": width},
        "  assign y = a * (b + c);",
        [Goal("distributed", ["s == a * b + a * c"])],
        **more,
    )


def squares(width):
    """Two squares with a sum that some numbers give: a search for them."""
    most = (1 << width) - 1
    total = (most // 3) ** 2 + (most // 5) ** 2
    wide = 2 * width + 1
    return at_once(
        "sum of two squares",
        width,
        words(width, "ab"),
        {"y": wide},
        "  assign y = a * a + b * b;",
        [Goal("none", ["s != %d'd%d" % (wide, total)], ["a > b"], "failed")],
    )


def priority(width):
    body = """  always_comb begin
    y = '0;
    n = '0;
    for (int i = %d; i >= 0; i--)
      if (r[i]) begin
        y = '0;
        y[i] = 1'b1;
        n = i;
      end
  end""" % (width - 1)
    return at_once(
        "priority encoder",
        width,
        {"r": width},
        {"y": width, "n": log2(width)},
        body,
        [
            Goal("lowest", ["s == (r & -r)"]),
            Goal("index", ["s == %d'd1 << t" % width], ["r != '0"]),
            Goal("last", ["s[%d] == r[%d]" % (width - 1, width - 1)], [], "failed"),
        ],
    )


def arbiter(width):
    """Turns by rotating the requests, against turns by a mask."""
    body = """  logic [%(top)d:0] turned, first, masked;
  logic [%(both)d:0] right, left;
  assign right = {r, r} >> base;
  assign turned = right[%(top)d:0];
  assign first = turned & -turned;
  assign left = {first, first} << base;
  assign y = left[%(both)d:%(width)d];
  assign masked = r & ({%(width)d{1'b1}} << base);
  always_comb begin
    w = '0;
    for (int i = %(top)d; i >= 0; i--)
      if (masked == '0 ? r[i] : masked[i]) begin
        w = '0;
        w[i] = 1'b1;
      end
  end""" % {"top": width - 1, "both": 2 * width - 1, "width": width}
    return at_once(
        "arbiter",
        width,
        {"r": width, "base": log2(width)},
        words(width, "yw"),
        body,
        [
            Goal("same", ["s == t"]),
            Goal("one", ["(s & (s - 1)) == 0", "(s & ~r) == 0"]),
            Goal("fair", ["s[0] == r[0]"], ["base != 0"], "failed"),
        ],
    )


def clock(phases):
    return ["0"] + ["~"] * (phases - 1)


def each_edge(phases, first, names):
    """Cells of an input that has the constant `first` at the first edge, and a variable at each other."""
    cells = ["_"] * phases
    cells[0] = first
    for turn, name in enumerate(names):
        cells[2 * turn + 2] = name
    return cells


def fifo(edges):
    """The pointers of a queue of 128 words: after so many edges it has at most 128, and full and empty say so."""
    body = """  logic [7:0] wr, rd;
  assign used = wr - rd;
  assign full = used == 8'd128;
  assign empty = wr == rd;
  always_ff @(posedge clk)
    if (load) begin wr <= w; rd <= r; end
    else begin
      if (push && !full) wr <= wr + 8'd1;
      if (pop && !empty) rd <= rd + 8'd1;
    end"""
    phases = 2 * edges + 2
    inputs = {"clk": 1, "load": 1, "push": 1, "pop": 1, "w": 8, "r": 8}
    outputs = {"used": 8, "full": 1, "empty": 1}
    once = ["_"] * (phases - 1)
    cells = {
        "clk": clock(phases),
        "load": ["1", "1"] + ["0"] * (phases - 2),
        "push": each_edge(phases, "_", ["p%d" % turn for turn in range(edges)]),
        "pop": each_edge(phases, "_", ["q%d" % turn for turn in range(edges)]),
        "w": ["w"] + once,
        "r": ["r"] + once,
    }
    last = [""] * (phases - 1)
    samples = {"used": last + ["s"], "full": last + ["f"], "empty": last + ["e"]}
    goals = [
        Goal("bounded", ["s <= 8'd128", "f == (s == 8'd128)", "e == (s == 8'd0)"], ["w - r <= 8'd128"]),
        Goal("open", ["s <= 8'd128"], ["w - r <= 8'd129"], "failed"),
    ]
    design = "module m(%s);\n%s\nendmodule\n" % (ports(inputs, outputs), body)
    return Run("queue", "%d edges" % edges, design, "m", inputs, outputs, cells, samples, goals)


def gray(width, edges):
    """A Gray counter: it counts, and one step changes one bit at most."""
    body = """  logic [%(top)d:0] b, n;
  always_comb begin
    b = g;
    for (int i = %(next)d; i >= 0; i--) b[i] = b[i + 1] ^ g[i];
    n = b + %(width)d'd1;
  end
  always_ff @(posedge clk)
    if (load) g <= v ^ (v >> 1);
    else if (en) g <= n ^ (n >> 1);""" % {"top": width - 1, "next": width - 2, "width": width}
    phases = 2 * edges + 2
    inputs = {"clk": 1, "load": 1, "en": 1, "v": width}
    outputs = {"g": width}
    names = ["e%d" % turn for turn in range(edges)]
    cells = {
        "clk": clock(phases),
        "load": ["1", "1"] + ["0"] * (phases - 2),
        "en": each_edge(phases, "_", names),
        "v": ["v"] + ["_"] * (phases - 1),
    }
    samples = {"g": [""] * (phases - 3) + ["s", "", "t"]}
    total = " + ".join(["v"] + names)
    goals = [
        Goal("counts", ["t == ((%s) ^ ((%s) >> 1))" % (total, total)]),
        Goal("one", ["((s ^ t) & ((s ^ t) - 1)) == 0"]),
        Goal("moves", ["s != t"], [], "failed"),
    ]
    design = "module m(%s);\n%s\nendmodule\n" % (ports(inputs, outputs), body)
    return Run("Gray counter", "%d bits, %d edges" % (width, edges), design, "m", inputs, outputs, cells, samples, goals)


ALU = """typedef enum logic [2:0] {ADD, SUB, AND, OR, SLL} op_t;
typedef struct packed { logic valid; op_t op; logic [31:0] a, b; } req_t;
typedef struct packed { logic valid; logic [31:0] value; } res_t;
module alu (input wire logic clk, input wire logic rst,
            input req_t req, output res_t res);
  req_t r;
  logic [31:0] v;
%s  always_comb begin
    v = '0;
    unique casez (r.op)
      3'b00?: v = r.op[0] ? r.a - r.b : r.a + r.b;
      AND: v = r.a & r.b;
      OR: v = r.a | r.b;
      SLL: v = r.a << r.b[4:0];
      default: ;
    endcase
  end
  always_ff @(posedge clk)
    if (rst) begin r <= '0; %s <= '0; end
    else begin r <= req; %s.valid <= r.valid; %s.value <= v; end
%sendmodule
"""

OPERATIONS = [
    Goal("add", ["s == {q[67], q[63:32] + q[31:0]}"], ["q[66:64] == 3'd0"]),
    Goal("shift", ["s == {q[67], q[63:32] << q[4:0]}"], ["q[66:64] == 3'd4"]),
    Goal("other", ["s == {q[67], 32'd0}"], ["q[66:64] > 3'd4"]),
]


def alu(more):
    """The ALU with so many more registers behind it."""
    names = ["p%d" % stage for stage in range(more)] + ["res"]
    told = "  res_t %s;\n" % ", ".join(names[:-1]) if more else ""
    moves = ["%s <= %s;" % (to, source) for source, to in zip(names, names[1:])]
    behind = "  always_ff @(posedge clk) begin %s end\n" % " ".join(moves) if moves else ""
    design = ALU % (told, names[0], names[0], names[0], behind)
    phases = 2 * more + 4
    cells = {"clk": clock(phases), "rst": ["0"] * phases, "req": ["q"] + ["_"] * (phases - 1)}
    samples = {"res": [""] * (phases - 1) + ["s"]}
    inputs = {"clk": 1, "rst": 1, "req": 68}
    wrong = [Goal("wrong", ["s[31:0] == q[63:32] + q[31:0]"], ["q[66:64] == 3'd1"], "failed")]
    return Run("ALU", "%d more stages" % more, design, "alu", inputs, {"res": 33}, cells, samples, OPERATIONS + wrong)


def alu_with_reset():
    """The ALU as it stands, and the goals of its row: a reset, three operations."""
    design = ALU % ("", "res", "res", "res", "")
    cells = {
        "clk": clock(6),
        "rst": ["1", "0", "", "", "", ""],
        "req": ["_", "_", "q", "_", "_", "_"],
    }
    samples = {"res": ["", "z0", "", "", "", "s"]}
    inputs = {"clk": 1, "rst": 1, "req": 68}
    goals = [Goal("reset", ["z0 == 33'd0"])] + OPERATIONS
    return Run("ALU", "with a reset", design, "alu", inputs, {"res": 33}, cells, samples, goals)


def pipeline(width):
    body = """  logic [%(top)d:0] r1, r2;
  always_ff @(posedge clk) begin
    r1 <= a + b;
    r2 <= r1;
    y <= r2;
  end""" % {"top": width - 1}
    inputs = {"clk": 1, "a": width, "b": width}
    design = "module m(%s);\n%s\nendmodule\n" % (ports(inputs, {"y": width}), body)
    rest = ["_"] * 4
    cells = {"clk": clock(6), "a": ["a", "a"] + rest, "b": ["b", "b"] + rest}
    samples = {"y": [""] * 5 + ["s"]}
    goals = [Goal("sum", ["s == b + a"])]
    return Run("three registers", str(width), design, "m", inputs, {"y": width}, cells, samples, goals)


def bus(drivers, width):
    """Drivers of one net that take turns."""
    body = """  for (genvar i = 0; i < %d; i++) begin : g
    assign z = sel == i ? d[%d * i +: %d] : {%d{1'bz}};
  end""" % (drivers, width, width, width)
    return at_once(
        "tri-state bus",
        "%d drivers of %d" % (drivers, width),
        {"sel": log2(drivers), "d": drivers * width},
        {"z": width},
        body,
        [Goal("selected", ["s == d[%d * sel +: %d]" % (width, width)])],
        kind="wire",
    )


def fight(drivers):
    """Drivers of one net of which two may be on at once: they fight where their bits differ."""
    body = """  for (genvar i = 0; i < %d; i++) begin : g
    assign z = en[i] ? d[i] : 1'bz;
  end""" % drivers
    goals = [
        Goal("agree", ["s == &d"], ["en != 0", "d == '0 || d == '1"]),
        Goal("two", ["s == |(d & en)"], ["en != 0", "(en & (en - 1)) != 0"], "failed"),
    ]
    inputs = {"en": drivers, "d": drivers}
    return at_once("tri-state fight", "%d drivers" % drivers, inputs, {"z": 1}, body, goals, kind="wire", alike=False)


def code_places(width):
    """The places of the bits of a word in a Hamming code: those that are no power of two."""
    places = []
    place = 3
    while len(places) < width:
        if place & (place - 1):
            places.append(place)
        place += 1
    return places


def code(width):
    """A code that corrects one error and detects two: an error at up to two places, each of which is a bit of the word sent or none."""
    places = code_places(width)
    checks = places[-1].bit_length()
    total = width + checks + 1
    masks = [sum(1 << bit for bit, place in enumerate(places) if place >> check & 1) for check in range(checks)]
    lines = ["  logic [%d:0] c, k, e;" % (checks - 1), "  logic [%d:0] x, f;" % (total - 1), "  logic [%d:0] w;" % (width - 1), "  logic odd;"]
    lines += ["  assign c[%d] = ^(d & %d'h%x);" % (check, width, mask) for check, mask in enumerate(masks)]
    lines += ["  assign f = (%d'd1 << m) ^ (%d'd1 << n);" % (total, total)]
    lines += ["  assign x = {^{c, d}, c, d} ^ f;", "  assign w = x[%d:0];" % (width - 1), "  assign k = x[%d:%d];" % (total - 2, width)]
    lines += ["  assign e[%d] = ^(w & %d'h%x) ^ k[%d];" % (check, width, mask, check) for check, mask in enumerate(masks)]
    lines += ["  assign odd = ^x;", "  assign bad = !odd && e != '0;"]
    lines += ["  assign y[%d] = w[%d] ^ (odd && e == %d'd%d);" % (bit, bit, checks, place) for bit, place in enumerate(places)]
    count = log2(total + 1)
    limits = ["m < %d'd%d" % (count, total), "n < %d'd%d" % (count, total)]
    goals = [
        Goal("corrected", ["s == d", "!t"], ["m < %d'd%d" % (count, total), "n == %d'd%d" % (count, total)]),
        Goal("detected", ["t"], limits + ["m != n"]),
        Goal("two", ["s == d"], limits, "failed"),
    ]
    inputs = {"d": width, "m": count, "n": count}
    return at_once("correcting code", width, inputs, {"y": width, "bad": 1}, "\n".join(lines), goals)


def average(width):
    return at_once(
        "average",
        width,
        words(width, "ab"),
        {"y": width},
        "  assign y = (a & b) + ((a ^ b) >> 1);",
        [
            Goal("average", ["s == ({1'b0, a} + {1'b0, b}) >> 1"]),
            Goal("overflow", ["s == (a + b) >> 1"], [], "failed"),
        ],
    )


def ring(width):
    """Three numbers in a ring, each below the next: no choice meets that."""
    return at_once(
        "order in a ring",
        width,
        words(width, "abc"),
        {"y": 1},
        "  assign y = a < b;",
        [Goal("never", ["s"], ["a < b", "b < c", "c < a"], "vacuous")],
    )


def runs():
    """All runs of the suite, the smaller sizes of each kind first."""
    made = [swapped("+", "sum swapped", width) for width in (32, 128)]
    made += [swapped("&", "bits swapped", 16)]
    made += [regrouped(width) for width in (8, 16, 32, 64)]
    made += [shifted(width) for width in (8, 32, 128)]
    made += [swapped("*", "product swapped", width) for width in (4, 6, 8, 10)]
    made += [school(width) for width in (4, 5, 6, 7, 8, 10)]
    made += [school(width, width // 2) for width in (8, 10)]
    made += [distributed(width) for width in (4, 5, 6)]
    made += [distributed(8, budget=1, alike=False)]
    made += [squares(width) for width in (8, 12)]
    made += [priority(width) for width in (16, 64, 128)]
    made += [arbiter(width) for width in (8, 16, 32, 64)]
    made += [fifo(edges) for edges in (2, 4, 8)]
    made += [gray(width, edges) for width, edges in ((8, 2), (8, 4), (16, 4), (32, 2))]
    made += [pipeline(width) for width in (8, 32)]
    made += [alu_with_reset()] + [alu(more) for more in (2, 10, 30)]
    made += [bus(drivers, width) for drivers, width in ((4, 8), (16, 8), (64, 2))]
    made += [fight(drivers) for drivers in (4, 16)]
    made += [code(width) for width in (8, 32, 64)]
    made += [average(width) for width in (16, 64)]
    made += [ring(width) for width in (16, 128)]
    return made
