"""A second suite of designs and goals, in the form of prove_designs.py, of other kinds and sizes.

Each design computes something in two ways, and the goals say that both agree, or tell a mistake that shows (the verdict `failed`).
"""

from prove_designs import Goal, Run, at_once, clock, each_edge, log2, ports, regrouped, words


def both(name, size, inputs, width, body, more=()):
    """A run whose outputs `y` and `w` are to be alike."""
    return at_once(name, size, inputs, words(width, "yw"), body, [Goal("alike", ["s == t"]), *more])


def block(lines):
    return "  always_comb begin\n%s\n  end" % "\n".join("    " + line for line in lines)


def saturating(width):
    """A sum that stays at the greatest number, by the carry and by a comparison."""
    most = "{%d{1'b1}}" % width
    body = """  logic [%d:0] sum;
  assign sum = {1'b0, a} + {1'b0, b};
  assign y = sum[%d] ? %s : sum[%d:0];
  assign w = a > ~b ? %s : b + a;""" % (width, width, most, width - 1, most)
    return both("saturating sum", width, words(width, "ab"), width, body, [Goal("grows", ["s > a"], ["b != 0"], "failed")])


def extreme(count, width, kind="least", order="<"):
    """The least or the greatest of some numbers, one after the other and by a tree."""
    names = ["x[%d:%d]" % (width * place + width - 1, width * place) for place in range(count)]
    chain = ["y = %s;" % names[0]] + ["if (%s %s y) y = %s;" % (name, order, name) for name in names[1:]]
    wires, lines = [], []
    level = names
    while len(level) > 1:
        above = []
        for place in range(0, len(level) - 1, 2):
            wire = "n%d" % len(wires)
            wires.append("  logic [%d:0] %s;" % (width - 1, wire))
            one, other = level[place], level[place + 1]
            lines.append("  assign %s = %s %s %s ? %s : %s;" % (wire, one, order, other, one, other))
            above.append(wire)
        level = above + level[len(level) // 2 * 2 :]
    body = "\n".join(wires + lines + ["  assign w = %s;" % level[0], block(chain)])
    return both(kind, "%d of %d" % (count, width), {"x": count * width}, width, body)


def sorter(count, width):
    """Numbers put in order by neighbours, from either side."""

    def passes(name, places):
        lines = ["%s = x;" % name]
        for stage in range(count):
            for place in places(stage):
                low = "%s[%d:%d]" % (name, width * place + width - 1, width * place)
                high = "%s[%d:%d]" % (name, width * place + 2 * width - 1, width * place + width)
                lines.append("if (%s > %s) {%s, %s} = {%s, %s};" % (low, high, high, low, low, high))
        return lines

    upwards = passes("y", lambda stage: range(count - 1 - stage))
    by_turns = passes("w", lambda stage: range(stage % 2, count - 1, 2))
    body = "\n".join([block(upwards), block(by_turns)])
    return both("sorter", "%d of %d" % (count, width), {"x": count * width}, count * width, body)


def rotator(width):
    """A number turned by stages, and by two shifts."""
    stages = ["y = a;"]
    for place in range(log2(width)):
        by = 1 << place
        stages.append("if (n[%d]) y = {y[%d:0], y[%d:%d]};" % (place, width - by - 1, width - 1, width - by))
    body = block(stages) + "\n  assign w = (a << n) | (a >> (%d'd%d - n));" % (log2(width) + 1, width)
    return both("rotator", width, {"a": width, "n": log2(width)}, width, body)


def leading(width):
    """How many zeros lead, bit by bit, and by halves."""
    count = log2(width) + 1
    chain = ["y = %d'd%d;" % (count, width)] + ["if (a[%d]) y = %d'd%d;" % (place, count, width - 1 - place) for place in range(width)]
    halves = ["w = '0;", "r = a;"]
    by = width // 2
    while by:
        halves.append("if (r[%d:%d] == '0) begin w = w + %d'd%d; r = r << %d; end" % (width - 1, width - by, count, by, by))
        by //= 2
    halves.append("if (a == '0) w = %d'd%d;" % (count, width))
    body = "\n".join(["  logic [%d:0] r;" % (width - 1), block(chain), block(halves)])
    return both("leading zeros", width, {"a": width}, count, body)


def ones(width):
    """How many bits are 1, one after the other, and by pairs of pairs."""
    count = log2(width + 1)
    chain = ["y = '0;"] + ["y = y + %d'(a[%d]);" % (count, place) for place in range(width)]
    wires, lines, level = [], [], ["%d'(a[%d])" % (count, place) for place in range(width)]
    while len(level) > 1:
        above = []
        for place in range(0, len(level) - 1, 2):
            wire = "n%d" % len(wires)
            wires.append("  logic [%d:0] %s;" % (count - 1, wire))
            lines.append("  assign %s = %s + %s;" % (wire, level[place], level[place + 1]))
            above.append(wire)
        level = above + level[len(level) // 2 * 2 :]
    body = "\n".join(wires + lines + ["  assign w = %s;" % level[0], block(chain)])
    return both("ones", width, {"a": width}, count, body)


def remainders(width, polynomial, bits):
    """The remainder of each bit alone of a message by a polynomial."""
    found = []
    for bit in range(bits):
        rest = 0
        for place in reversed(range(bits)):
            top = (rest >> (width - 1) ^ (place == bit)) & 1
            rest = (rest << 1) & ((1 << width) - 1)
            rest ^= polynomial if top else 0
        found.append(rest)
    return found


def redundancy(width, polynomial, bits):
    """A cyclic redundancy check, bit by bit, and by the sum of the bits of each place."""
    top = width - 1
    lines = ["y = '0;"]
    for place in reversed(range(bits)):
        lines.append("y = {y[%d:0], 1'b0} ^ ((y[%d] ^ d[%d]) ? %d'h%x : %d'h0);" % (top - 1, top, place, width, polynomial, width))
    rests = remainders(width, polynomial, bits)
    sums = []
    for place in range(width):
        mask = sum(1 << bit for bit in range(bits) if rests[bit] >> place & 1)
        sums.append("  assign w[%d] = ^(d & %d'h%x);" % (place, bits, mask))
    return both("cyclic check", "%d of %d bits" % (width, bits), {"d": bits}, width, "\n".join([block(lines)] + sums))


def divider(width):
    """A division by rows of an array: the quotient and the rest give the number back."""
    lines = ["q = '0;", "r = '0;"]
    for place in reversed(range(width)):
        lines.append("r = {r[%d:0], a[%d]};" % (width - 1, place))
        lines.append("if (r >= {1'b0, b}) begin r = r - {1'b0, b}; q[%d] = 1'b1; end" % place)
    body = block(lines)
    goals = [Goal("back", ["{%d'd0, s} * {%d'd0, b} + {%d'd0, t} == {%d'd0, a}" % (width, width, width - 1, width), "t < {1'b0, b}"], ["b != 0"])]
    return at_once("array divider", width, words(width, "ab"), {"q": width, "r": width + 1}, body, goals)


def below(width):
    """Whether a number is below another, from the least bit on, and by halves."""
    chain = ["y = 1'b0;"] + ["if (a[%d] != b[%d]) y = b[%d];" % (place, place, place) for place in range(width)]
    wires, lines = [], []
    level = [("~a[%d] & b[%d]" % (place, place), "~(a[%d] ^ b[%d])" % (place, place)) for place in range(width)]
    while len(level) > 1:
        above = []
        for place in range(0, len(level), 2):
            less, same = "l%d" % len(wires), "e%d" % len(wires)
            wires.append("  logic %s, %s;" % (less, same))
            (low, low_same), (high, high_same) = level[place], level[place + 1]
            lines.append("  assign %s = (%s) | ((%s) & (%s));" % (less, high, high_same, low))
            lines.append("  assign %s = (%s) & (%s);" % (same, high_same, low_same))
            above.append((less, same))
        level = above
    body = "\n".join(wires + lines + ["  assign w = %s;" % level[0][0], block(chain)])
    return both("below", width, words(width, "ab"), 1, body, [Goal("operator", ["s == (a < b)"])])


def selected_carry(width, group):
    """A sum in groups of bits, each made for both carries, of which one is chosen."""
    wires, parts, carry = [], [], "1'b0"
    for place in range(0, width, group):
        high = place + group - 1
        for kind in (0, 1):
            wires.append("  logic [%d:0] p%d_%d;" % (group, place, kind))
            parts.append("  assign p%d_%d = {1'b0, a[%d:%d]} + {1'b0, b[%d:%d]} + %d'd%d;" % (place, kind, high, place, high, place, group + 1, kind))
        wires.append("  logic c%d;" % place)
        parts.append("  assign w[%d:%d] = %s ? p%d_1[%d:0] : p%d_0[%d:0];" % (high, place, carry, place, group - 1, place, group - 1))
        parts.append("  assign c%d = %s ? p%d_1[%d] : p%d_0[%d];" % (place, carry, place, group, place, group))
        carry = "c%d" % place
    body = "\n".join(wires + parts + ["  assign y = a + b;"])
    return both("sum by chosen carries", width, words(width, "ab"), width, body)


def difference(width):
    """How far two numbers are apart, by a comparison and by a sign."""
    body = """  logic [%d:0] d;
  assign d = {1'b0, a} - {1'b0, b};
  assign y = d[%d] ? ~d[%d:0] + %d'd1 : d[%d:0];
  assign w = a < b ? b - a : a - b;""" % (width, width, width - 1, width, width - 1)
    return both("difference", width, words(width, "ab"), width, body)


def turns(width):
    """An arbiter that goes round: by masks of the requests behind the last one that was served, and one request after the other."""
    masked = """  logic [%(top)d:0] behind;
  assign behind = r & ~((last - %(width)d'd1) | last);
  assign y = behind != '0 ? behind & -behind : r & -r;""" % {"top": width - 1, "width": width}
    lines = ["w = '0;", "p = last;"]
    for _ in range(width):
        lines.append("p = {p[%d:0], p[%d]};" % (width - 2, width - 1))
        lines.append("if (w == '0 && (p & r) != '0) w = p;")
    body = "\n".join(["  logic [%d:0] p;" % (width - 1), masked, block(lines)])
    one = ["last != 0", "(last & (last - 1)) == 0"]
    return at_once(
        "turns", width, {"r": width, "last": width}, words(width, "yw"), body, [Goal("alike", ["s == t"], one), Goal("free", ["s == t"], [], "failed")]
    )


def over_edges(name, size, edges, inputs, outputs, body, goals):
    """A run of a clock with so many edges behind one at which `load` is 1. Each other input is a variable at each edge, of its first letter
    and the number of the edge; each output is sampled at the end: s, t, and so on."""
    phases = 2 * edges + 2
    cells = {"clk": clock(phases), "load": ["1", "1"] + ["0"] * (phases - 2)}
    cells.update({each: each_edge(phases, "_", ["%s%d" % (each[0], turn) for turn in range(edges)]) for each in inputs})
    samples = {each: [""] * (phases - 1) + [sample] for each, sample in zip(outputs, "stuv")}
    inputs = {"clk": 1, "load": 1, **inputs}
    design = "module m(%s);\n%s\nendmodule\n" % (ports(inputs, outputs), body)
    return Run(name, size, design, "m", inputs, outputs, cells, samples, goals)


def states(count, edges):
    """A machine whose states are one bit each, beside one whose states are numbers."""
    bits = log2(count)
    body = """  logic [%(top)d:0] h;
  logic [%(high)d:0] n;
  assign y = h;
  assign w = %(count)d'd1 << n;
  always_ff @(posedge clk)
    if (load) begin h <= %(count)d'd1; n <= '0; end
    else if (go) begin
      if (back) begin h <= {h[0], h[%(top)d:1]}; n <= n - %(bits)d'd1; end
      else begin h <= {h[%(below)d:0], h[%(top)d]}; n <= n + %(bits)d'd1; end
    end""" % {"top": count - 1, "below": count - 2, "high": bits - 1, "count": count, "bits": bits}
    goals = [Goal("alike", ["s == t"]), Goal("one", ["s != 0", "(s & (s - 1)) == 0"]), Goal("first", ["s[0]"], [], "failed")]
    return over_edges("states", "%d, %d edges" % (count, edges), edges, {"go": 1, "back": 1}, words(count, "yw"), body, goals)


def queue(depth, width, edges):
    """A queue that is a memory with two pointers, beside one whose words move up."""
    bits = log2(depth)
    move = " ".join("s%d <= s%d;" % (place, place + 1) for place in range(depth - 1))
    puts = "\n".join("        if (n == %d'd%d) s%d <= d;" % (bits + 1, place, place) for place in range(depth))
    body = """  logic [%(deep)d:0][%(top)d:0] m;
  logic [%(bits)d:0] wr, rd, n;
  logic [%(top)d:0] %(names)s;
  assign y = m[rd[%(high)d:0]];
  assign w = s0;
  assign e = wr == rd;
  assign f = n == '0;
  always_ff @(posedge clk)
    if (load) begin wr <= '0; rd <= '0; n <= '0; end
    else if (push && !(n == %(one)d'd%(depth)d)) begin
        m[wr[%(high)d:0]] <= d;
        wr <= wr + %(one)d'd1;
        n <= n + %(one)d'd1;
%(puts)s
    end
    else if (!push && n != '0) begin
        rd <= rd + %(one)d'd1;
        n <= n - %(one)d'd1;
        %(move)s
    end""" % {
        "top": width - 1,
        "deep": depth - 1,
        "bits": bits,
        "high": bits - 1,
        "one": bits + 1,
        "depth": depth,
        "names": ", ".join("s%d" % place for place in range(depth)),
        "puts": puts,
        "move": move,
    }
    goals = [Goal("alike", ["u == v", "u || s == t"]), Goal("empty", ["u"], [], "failed")]
    outputs = {"y": width, "w": width, "e": 1, "f": 1}
    return over_edges("memory queue", "%d of %d, %d edges" % (depth, width, edges), edges, {"push": 1, "d": width}, outputs, body, goals)


def stages(width, more):
    """Three operations on numbers that go through registers, beside the operations at once."""
    names = ["p%d" % stage for stage in range(more)] + ["y"]
    moves = " ".join("%s <= %s;" % (to, source) for source, to in zip(names, names[1:]))
    body = """  logic [%(top)d:0] %(told)s;
  logic [%(top)d:0] v;
  always_comb begin
    v = a - b;
    if (o == 2'd1) v = a ^ (b >> 1);
    if (o == 2'd2) v = a < b ? a : b;
  end
  always_ff @(posedge clk) begin %(first)s <= v; %(moves)s end""" % {"top": width - 1, "told": ", ".join(names[:-1]), "first": names[0], "moves": moves}
    phases = 2 * more + 3
    inputs = {"clk": 1, "a": width, "b": width, "o": 2}
    once = ["_"] * (phases - 2)
    cells = {"clk": clock(phases), "a": ["a", "a"] + once, "b": ["b", "b"] + once, "o": ["o", "o"] + once}
    samples = {"y": [""] * (phases - 1) + ["s"]}
    wanted = "(o == 2'd2 ? (b > a ? a : b) : o == 2'd1 ? (b >> 1) ^ a : a + ~b + %d'd1)" % width
    goals = [Goal("same", ["s == %s" % wanted]), Goal("sum", ["s == a + b"], ["o == 2'd3"], "failed")]
    design = "module m(%s);\n%s\nendmodule\n" % (ports(inputs, {"y": width}), body)
    return Run("stages", "%d bits, %d" % (width, more), design, "m", inputs, {"y": width}, cells, samples, goals)


def runs():
    """All runs of the suite, the smaller sizes of each kind first."""
    made = [saturating(width) for width in (24, 96)]
    made += [extreme(count, width) for count, width in ((4, 12), (6, 10), (8, 8))]
    made += [extreme(5, 9, "greatest", ">")]
    made += [regrouped(128)]
    made += [sorter(count, width) for count, width in ((3, 8), (4, 4), (4, 6))]
    made += [rotator(width) for width in (16, 32, 64)]
    made += [leading(width) for width in (32, 64, 128)]
    made += [ones(width) for width in (10, 14, 18)]
    made += [redundancy(width, polynomial, bits) for width, polynomial, bits in ((8, 0x07, 24), (16, 0x1021, 24), (16, 0x1021, 40), (32, 0x04C11DB7, 32))]
    made += [divider(width) for width in (4, 5, 7)]
    made += [below(width) for width in (32, 128)]
    made += [selected_carry(width, group) for width, group in ((32, 4), (96, 8))]
    made += [difference(width) for width in (24, 64)]
    made += [turns(width) for width in (8, 20, 48)]
    made += [states(count, edges) for count, edges in ((8, 6), (16, 10), (32, 8))]
    made += [queue(depth, width, edges) for depth, width, edges in ((4, 8, 5), (4, 4, 9), (8, 8, 10))]
    made += [stages(width, more) for width, more in ((24, 8), (32, 30))]
    return made
