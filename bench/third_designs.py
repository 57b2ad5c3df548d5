"""A third suite of designs and goals, in the form of prove_designs.py, of other constructions and other sizes than both others.

It is for a measurement: no number that steers the solver was chosen on it, and the solver had not been run on it when it was written.
Sizes and kinds were picked by the times of minisat and cadical alone, on the clauses that yosys makes of the goals: each kind has a size at
which the faster of both takes 0.02 to 10 seconds on some goal, mostly behind smaller ones that are easy. Where neither had an answer to a
goal in that time, the size was lowered or the goal left out, and kinds that were easy at all sizes were left out. Each verdict is one that
both found, or one of them where the other took longer.

As in the second suite most designs compute something in two ways, and the goals say that both agree, or tell a mistake that shows (the
verdict `failed`), some of them for few choices alone.
"""

from other_designs import block, both, over_edges
from prove_designs import Goal, Run, at_once, clock, code_places, log2, ports, words


def under(hyps, name, size, inputs, width, body, more=()):
    """A run whose outputs `y` and `w` are to be alike where some hypotheses hold."""
    return at_once(name, size, inputs, words(width, "yw"), body, [Goal("alike", ["s == t"], hyps), *more])


def from_any(name, size, edges, starts, inputs, outputs, body, goals):
    """A run as over_edges makes it, with inputs that are variables at the edge of `load`, from which its registers start."""
    run = over_edges(name, size, edges, {**starts, **inputs}, outputs, body, goals)
    run.cells.update({each: [each] + ["_"] * (run.phases() - 1) for each in starts})
    return run


class Wires:
    """Wires of a design, each with what it is assigned."""

    def __init__(self):
        self.lines = []

    def new(self, width, value):
        name = "n%d" % len(self.lines)
        told = name if width == 1 else "[%d:0] %s" % (width - 1, name)
        self.lines.append("  logic %s;\n  assign %s = %s;" % (told, name, value))
        return name

    def body(self, *more):
        return "\n".join([*self.lines, *more])


def logic(width, names):
    return "  logic [%d:0] %s;" % (width - 1, names)


def part(name, place, width):
    """One of the words of some width in a vector."""
    return "%s[%d:%d]" % (name, width * place + width - 1, width * place)


def parts(name, count, width):
    return [part(name, place, width) for place in range(count)]


def joined(operator, texts):
    return (" %s " % operator).join(texts)


def packed(texts):
    """The concatenation of some texts, of which the first is the lowest."""
    return "{%s}" % ", ".join(reversed(list(texts)))


def levels(width, kind):
    """Which places are joined to which, level by level: by doubling, by halves, or by a tree up and down."""
    steps = [1 << level for level in range(log2(width))]
    if kind == "doubling":
        return [[(place, place - by) for place in range(by, width)] for by in steps]
    if kind == "halves":
        return [[(place, place // by * by - 1) for place in range(width) if place & by] for by in steps]
    up = [[(place, place - by) for place in range(2 * by - 1, width, 2 * by)] for by in steps]
    return up + [[(place, place - by) for place in range(3 * by - 1, width, 2 * by)] for by in reversed(steps)]


def prefix_sum(width, *kinds):
    """A sum by carries that groups of places make or hand on, the groups joined in two ways."""
    wires, lines = Wires(), []
    for output, kind in zip("yw", kinds):
        pairs = [(wires.new(1, "a[%d] & b[%d]" % (place, place)), wires.new(1, "a[%d] ^ b[%d]" % (place, place))) for place in range(width)]
        halves = [half for _, half in pairs]
        for level in levels(width, kind):
            made = {}
            for high, low in level:
                (makes, hands), (low_makes, low_hands) = pairs[high], pairs[low]
                made[high] = wires.new(1, "%s | (%s & %s)" % (makes, hands, low_makes)), wires.new(1, "%s & %s" % (hands, low_hands))
            pairs = [made.get(place, pair) for place, pair in enumerate(pairs)]
        carries = ["1'b0"] + [makes for makes, _ in pairs]
        lines += ["  assign %s[%d] = %s ^ %s;" % (output, place, halves[place], carries[place]) for place in range(width)]
    size = "%d, %s and %s" % (width, *kinds)
    return both("prefix sum", size, words(width, "ab"), width, wires.body(*lines), [Goal("operator", ["t == b + a"])])


def saved_carries(count, width):
    """A sum of some numbers, of which full adders make three two until two are left, beside one sum after the other."""
    wires, terms = Wires(), parts("x", count, width)
    left = terms
    while len(left) > 2:
        a, b, c, *left = left
        most = "((%s & %s) | (%s & %s) | (%s & %s)) << 1" % (a, b, a, c, b, c)
        left += [wires.new(width, joined("^", (a, b, c))), wires.new(width, most)]
    body = wires.body("  assign y = %s;" % joined("+", terms), "  assign w = %s;" % joined("+", left))
    return both("saved carries", "%d of %d" % (count, width), {"x": count * width}, width, body)


def full_adders(width):
    """How many bits are 1: by full adders over bits of one weight, beside a number that grows at each 1."""
    wires, columns, place = Wires(), [["a[%d]" % place for place in range(width)]], 0
    while place < len(columns):
        column = columns[place]
        while len(column) > 1:
            a, b, c, *column = [*column, "1'b0"][: max(3, len(column))]
            columns += [[]] * (place + 2 - len(columns))
            columns[place + 1] = columns[place + 1] + [wires.new(1, "(%s & %s) | (%s & %s) | (%s & %s)" % (a, b, a, c, b, c))]
            column.append(wires.new(1, joined("^", (a, b, c))))
        columns[place] = column
        place += 1
    count = log2(width + 1)
    chain = ["y = '0;"] + ["if (a[%d]) y = y + %d'd1;" % (bit, count) for bit in range(width)]
    made = packed(column[0] for column in columns[:count])
    return both("full adders", width, {"a": width}, count, wires.body("  assign w = %s;" % made, block(chain)))


def booth(width):
    """A product by digits from -2 to 2 of one number, beside the operator."""
    digits = (width + 2) // 2
    lines = ["e = {%d'd0, b, 1'b0};" % (2 * digits - width), "y = '0;"]
    for digit in range(digits):
        bits = "e[%d:%d]" % (2 * digit + 2, 2 * digit)
        lines.append("r = '0;")
        for codes, sign, by in (((1, 2), "", 0), ((3,), "", 1), ((4,), "-", 1), ((5, 6), "-", 0)):
            met = joined("||", ["%s == 3'd%d" % (bits, code) for code in codes])
            lines.append("if (%s) r = %s({%d'd0, a} << %d);" % (met, sign, width, 2 * digit + by))
        lines.append("y = y + r;")
    product = "  assign w = {%d'd0, b} * {%d'd0, a};" % (width, width)
    body = "\n".join([logic(2 * digits + 1, "e"), logic(2 * width, "r"), block(lines), product])
    return both("digits of Booth", width, words(width, "ab"), 2 * width, body)


def product_of_halves(half):
    """A product by three products of halves, beside the operator."""
    (a, c), (b, d) = (["{%d'd0, %s}" % (3 * half, each) for each in parts(name, 2, half)] for name in "ab")
    body = "\n".join([
        logic(4 * half, "h, l, m"),
        "  assign l = %s * %s;\n  assign h = %s * %s;\n  assign m = (%s + %s) * (%s + %s);" % (a, b, c, d, a, c, b, d),
        "  assign y = (h << %d) + ((m - h - l) << %d) + l;" % (2 * half, half),
        "  assign w = {%d'd0, a} * {%d'd0, b};" % (2 * half, 2 * half),
    ])
    return both("product of halves", 2 * half, words(2 * half, "ab"), 4 * half, body)


def signed_product(width):
    """A product of numbers with a sign: by rows whose highest bits are negated, beside one of numbers that are made wider."""
    top, wide = width - 1, 2 * width
    lines = ["y = (%d'd1 << %d) + (%d'd1 << %d);" % (wide, width, wide, wide - 1)]
    for place in range(top):
        row = "{~(a[%d] & b[%d]), a[%d:0] & {%d{b[%d]}}}" % (top, place, top - 1, top, place)
        lines.append("y = y + ({%d'd0, %s} << %d);" % (width, row, place))
    row = "{a[%d] & b[%d], ~(a[%d:0] & {%d{b[%d]}})}" % (top, top, top - 1, top, top)
    lines.append("y = y + ({%d'd0, %s} << %d);" % (width, row, top))
    body = block(lines) + "\n  assign w = {{%d{b[%d]}}, b} * {{%d{a[%d]}}, a};" % (width, top, width, top)
    return both("signed product", width, words(width, "ab"), wide, body)


def folded_square(width):
    """A square by rows in which each pair of bits counts once and twofold, beside the operator."""
    wide = 2 * width
    lines = ["y = '0;"]
    for place in range(width - 1):
        row = "{%d'd0, a[%d:%d], 2'b01}" % (wide - (width - 1 - place) - 2, width - 1, place + 1)
        lines.append("if (a[%d]) y = y + (%s << %d);" % (place, row, 2 * place))
    lines.append("if (a[%d]) y = y + (%d'd1 << %d);" % (width - 1, wide, wide - 2))
    body = block(lines) + "\n  assign w = {%d'd0, a} * {%d'd0, a};" % (width, width)
    return both("folded square", width, {"a": width}, wide, body)


def fixed_multiple(width, factor):
    """A multiple by a number that does not change: by shifts, sums and differences, no two of neighbours, beside the operator."""
    terms, rest, place = [], factor, 0
    while rest:
        digit = 2 - rest % 4 if rest % 2 else 0
        terms += ["%s (a << %d)" % ("+-"[digit < 0], place)] if digit else []
        rest, place = (rest - digit) // 2, place + 1
    body = "  assign y = %d'd0 %s;\n  assign w = a * %d'd%d;" % (width, " ".join(reversed(terms)), width, factor)
    return both("fixed multiple", "%d by %d" % (width, factor), {"a": width}, width, body)


def fixed_quotient(width, divisor):
    """A quotient by a number that does not change: by a product and a shift, beside the operator. A shift by one less is too coarse."""

    def factor(shift):
        return -(-(1 << shift) // divisor)

    def wrong(shift):
        return next((number for number in range(1 << width) if number * factor(shift) >> shift != number // divisor), None)

    shift = next(shift for shift in range(width, 3 * width) if wrong(shift) is None)
    wide = width + factor(shift).bit_length()
    product = "({%d'd0, a} * %d'd%d) >> %d"
    by = product % (wide - width, wide, factor(shift), shift)
    coarse = product % (wide - width, wide, factor(shift - 1), shift - 1)
    body = logic(wide, "p") + "\n  assign p = %s;\n  assign y = p[%d:0];\n  assign w = a / %d'd%d;" % (by, width - 1, width, divisor)
    short = Goal("coarse", ["%s == {%d'd0, t}" % (coarse, wide - width)], ["a <= %d'd%d" % (width, wrong(shift - 1))], "failed")
    return both("fixed quotient", "%d by %d" % (width, divisor), {"a": width}, width, body, [short])


def folded_rest(width, bits):
    """The rest by a power of two less one: by sums of digits, beside the operator."""
    count, most = width // bits, (1 << bits) - 1
    wide = bits + log2(count) + 1
    lines = ["e = %s;" % joined("+", ["{%d'd0, %s}" % (wide - bits, each) for each in parts("a", count, bits)])]
    lines += ["e = {%d'd0, e[%d:0]} + {%d'd0, e[%d:%d]};" % (wide - bits, bits - 1, bits, wide - 1, bits)] * 2
    lines.append("y = e == %d'd%d ? %d'd0 : e[%d:0];" % (wide, most, bits, bits - 1))
    more = "  assign r = a %% %d'd%d;\n  assign w = r[%d:0];" % (width, most, bits - 1)
    body = "\n".join([logic(wide, "e"), logic(width, "r"), block(lines), more])
    return both("rest by digits", "%d by %d" % (width, most), {"a": width}, bits, body)


def by_signs(width):
    """A division that adds where the rest before is below 0, and subtracts where it is not, beside the operators."""
    lines = ["q = '0;", "r = '0;"]
    for place in reversed(range(width)):
        lines += ["n = r[%d];" % (width + 1), "r = {r[%d:0], a[%d]};" % (width, place)]
        lines += ["if (n) r = r + {2'd0, b};", "else r = r - {2'd0, b};", "q[%d] = !r[%d];" % (place, width + 1)]
    lines.append("if (r[%d]) r = r + {2'd0, b};" % (width + 1))
    more = "  assign y = {q, r[%d:0]};\n  assign w = {a / b, a %% b};" % (width - 1)
    body = "\n".join(["  logic n;", logic(width, "q"), logic(width + 2, "r"), block(lines), more])
    return under(["b != 0"], "division by signs", width, words(width, "ab"), 2 * width, body)


def root(width):
    """A square root digit by digit: the greatest number whose square is no more, and what is left."""
    half = width // 2
    lines = ["y = '0;", "r = '0;"]
    for place in reversed(range(half)):
        lines += ["r = {r[%d:0], a[%d:%d]};" % (half, 2 * place + 1, 2 * place), "e = {1'b0, y, 2'b01};"]
        lines += ["y = {y[%d:0], 1'b0};" % (half - 2), "if (r >= e) begin r = r - e; y[0] = 1'b1; end"]
    wide = width + 2
    number, found = "{2'd0, a}", "{%d'd0, s}" % (wide - half)
    after = "(%s + %d'd1)" % (found, wide)
    goals = [
        Goal("root", ["%s * %s <= %s" % (found, found, number), "%s * %s > %s" % (after, after, number)]),
        Goal("rest", ["{%d'd0, t} + %s * %s == %s" % (wide - half - 3, found, found, number)]),
        Goal("near", ["{%d'd0, t} < %s + %s" % (wide - half - 3, found, found)], ["a != 0"], "failed"),
    ]
    body = logic(half + 3, "e") + "\n" + block(lines)
    return at_once("square root", width, {"a": width}, {"y": half, "r": half + 3}, body, goals)


def decimal_digits(width):
    """The decimal digits of a number: by doubling with a carry at ten, beside quotients and rests."""
    digits = len(str((1 << width) - 1))
    lines = ["y = '0;"]
    for place in reversed(range(width)):
        lines += ["if (%s > 4'd4) %s = %s + 4'd3;" % (each, each, each) for each in parts("y", digits, 4)]
        lines.append("y = {y[%d:0], a[%d]};" % (4 * digits - 2, place))
    wires, rest, made = Wires(), "a", []
    for _ in range(digits):
        made.append(wires.new(width, "%s %% %d'd10" % (rest, width)) + "[3:0]")
        rest = wires.new(width, "%s / %d'd10" % (rest, width))
    return both("decimal digits", width, {"a": width}, 4 * digits, wires.body("  assign w = %s;" % packed(made), block(lines)))


def decimal_sum(digits):
    """A sum of decimal digits with a carry at ten: it is the sum of the numbers, and has decimal digits."""
    lines = ["y = '0;", "c = 1'b0;"]
    for digit in range(digits):
        a, b, y = (part(name, digit, 4) for name in "aby")
        lines += ["e = {1'b0, %s} + {1'b0, %s} + {4'd0, c};" % (a, b), "c = e > 5'd9;", "if (c) e = e + 5'd6;", "%s = e[3:0];" % y]
    lines.append("y[%d] = c;" % (4 * digits))
    wide = (2 * 10**digits).bit_length()

    def number(name):
        return joined("+", ["%d'd%d * {%d'd0, %s}" % (wide, 10**digit, wide - 4, part(name, digit, 4)) for digit in range(digits)])

    total = "%s + %d'd%d * {%d'd0, s[%d]} == %s + %s" % (number("s"), wide, 10**digits, wide - 1, 4 * digits, number("a"), number("b"))
    decimal, highest = ["%s <= 4'd9" % each for name in "ba" for each in parts(name, digits, 4)], digits - 1
    goals = [Goal("sum", [total], decimal), Goal("digits", ["%s <= 4'd9" % each for each in parts("s", digits, 4)], decimal)]
    open_digit = [*decimal[:-1], "%s <= 4'd10" % part("a", highest, 4)]
    goals.append(Goal("ten", ["%s <= 4'd9" % part("s", highest, 4)], open_digit, "failed"))
    body = "  logic c;\n  logic [4:0] e;\n" + block(lines)
    return at_once("decimal sum", "%d digits" % digits, words(4 * digits, "ab"), {"y": 4 * digits + 1}, body, goals)


def distances(count, width):
    """How far words are apart in all: a sum of differences, beside a difference of sums."""
    wide = width + log2(count)
    pairs = list(zip(parts("a", count, width), parts("b", count, width)))
    one = ["{%d'd0, (%s > %s ? %s - %s : %s - %s)}" % (wide - width, a, b, a, b, b, a) for a, b in pairs]
    most = ["{%d'd0, (%s > %s ? %s : %s)}" % (wide - width, a, b, a, b) for a, b in pairs]
    least = ["{%d'd0, (%s > %s ? %s : %s)}" % (wide - width, a, b, b, a) for a, b in pairs]
    body = "  assign y = %s;\n  assign w = (%s) - (%s);" % tuple(joined("+", each) for each in (one, most, least))
    return both("sum of distances", "%d of %d" % (count, width), words(count * width, "ab"), wide, body)


def turned_back(width):
    """A number turned right by stages, beside one that is turned left by what is missing, in the other order of stages."""
    right, left = ["y = a;"], ["w = a;"]
    for place in range(log2(width)):
        by = 1 << place
        right.append("if (n[%d]) y = {y[%d:0], y[%d:%d]};" % (place, by - 1, width - 1, by))
        left.insert(1, "if (m[%d]) w = {w[%d:0], w[%d:%d]};" % (place, width - by - 1, width - 1, width - by))
    body = "\n".join([logic(log2(width), "m"), "  assign m = -n;", block(right), block(left)])
    return both("turned right", width, {"a": width, "n": log2(width)}, width, body)


def funnel(width):
    """A word out of two, some bits up: by stages, beside two shifts."""
    lines = ["v = {b, a};"] + ["if (n[%d]) v = v >> %d;" % (place, 1 << place) for place in reversed(range(log2(width)))]
    more = "  assign y = v[%d:0];\n  assign w = (a >> n) | ((b << 1) << ~n);" % (width - 1)
    body = "\n".join([logic(2 * width, "v"), block(lines), more])
    zero = Goal("no_word", ["s != b"], ["n != 0", "a == 0"], "failed")
    return both("funnel", width, {"a": width, "b": width, "n": log2(width)}, width, body, [zero])


def from_gray(width):
    """A number out of its Gray code: bit by bit, beside steps that double; the code of the number behind it differs in one bit."""
    chain = ["y = '0;", "y[%d] = g[%d];" % (width - 1, width - 1)]
    chain += ["y[%d] = y[%d] ^ g[%d];" % (place, place + 1, place) for place in reversed(range(width - 1))]
    steps = ["w = g;"] + ["w = w ^ (w >> %d);" % (1 << place) for place in range(log2(width))]
    moved = "(((t + %d'd1) ^ ((t + %d'd1) >> 1)) ^ g)" % (width, width)
    step = Goal("step", ["(%s & (%s - %d'd1)) == 0" % (moved, moved, width)])
    return both("out of Gray code", width, {"g": width}, width, "\n".join([block(chain), block(steps)]), [step])


def parity(width, step):
    """The sum of all bits in two orders."""
    orders = [range(width), [place * step % width for place in range(width)]]
    told = [joined("^", ["a[%d]" % place for place in order]) for order in orders]
    return both("parity in two orders", "%d by %d" % (width, step), {"a": width}, 1, "  assign y = %s;\n  assign w = %s;" % tuple(told))


def exchange(name, low, high, width):
    """Puts two words of a vector in order."""
    one, other = part(name, low, width), part(name, high, width)
    return "if (%s > %s) {%s, %s} = {%s, %s};" % (one, other, one, other, other, one)


def bitonic(count):
    """The pairs of a sorter that goes up and down by turns."""
    pairs, size = [], 2
    while size <= count:
        by = size // 2
        while by:
            up = [(place, place + by) for place in range(count) if not place & by]
            pairs += [(low, high) if low & size == 0 else (high, low) for low, high in up]
            by //= 2
        size *= 2
    return pairs


def merging(count):
    """The pairs of a sorter that merges odd and even places."""
    pairs, size = [], 1
    while size < count:
        by = size
        while by:
            for start in range(by % size, count - by, 2 * by):
                places = range(start, start + min(by, count - start - by))
                pairs += [(place, place + by) for place in places if place // (2 * size) == (place + by) // (2 * size)]
            by //= 2
        size *= 2
    return pairs


def in_order(name, pairs, count, width):
    """Numbers in order: by pairs of places, beside places that are told by how many are before each."""
    wires, bits, texts, ranks = Wires(), log2(count), parts("x", count, width), []
    for place, text in enumerate(texts):
        before = ["%d'(%s %s %s)" % (bits, other, "<=" if at < place else "<", text) for at, other in enumerate(texts) if at != place]
        ranks.append(wires.new(bits, joined("+", before)))
    made = []
    for at in range(count):
        chosen = ["(%s == %d'd%d ? %s : %d'd0)" % (rank, bits, at, text, width) for rank, text in zip(ranks, texts)]
        made.append(wires.new(width, joined("|", chosen)))
    lines = ["y = x;"] + [exchange("y", low, high, width) for low, high in pairs]
    body = wires.body("  assign w = %s;" % packed(made), block(lines))
    return both(name, "%d of %d" % (count, width), {"x": count * width}, count * width, body)


def two_networks(count, width):
    """Numbers in order by both kinds of pairs; and without the last pair, which shows only where that would change them."""
    networks = {"y": bitonic(count), "w": merging(count), "v": merging(count)[:-1]}
    body = "\n".join(block(["%s = x;" % name] + [exchange(name, *pair, width) for pair in pairs]) for name, pairs in networks.items())
    goals = [Goal("alike", ["s == t"]), Goal("pair_less", ["s == u"], [], "failed")]
    return at_once("two networks", "%d of %d" % (count, width), {"x": count * width}, words(count * width, "ywv"), body, goals)


def median(count, width):
    """The one in the middle: by putting the greatest last, beside counts of those below."""
    middle, bits, wires, texts = count // 2, log2(count + 1), Wires(), parts("x", count, width)
    lines = ["v = x;"] + [exchange("v", place, place + 1, width) for end in range(count - 1, middle - 1, -1) for place in range(end)]
    chosen = ["w = '0;"]
    for text in texts:
        below, upto = ("(%s)" % joined("+", ["%d'(%s %s %s)" % (bits, other, order, text) for other in texts]) for order in ("<", "<="))
        below, upto = wires.new(bits, below), wires.new(bits, upto)
        chosen.append("if (%s <= %d'd%d && %s > %d'd%d) w = %s;" % (below, bits, middle, upto, bits, middle, text))
    body = wires.body(logic(count * width, "v"), block(lines), block(chosen), "  assign y = %s;" % part("v", middle, width))
    return both("median", "%d of %d" % (count, width), {"x": count * width}, width, body)


def place_of_greatest(count, width):
    """The greatest of some numbers and the first place where it stands: one after the other, beside a tree."""
    bits, wires, texts = log2(count), Wires(), parts("x", count, width)
    chain = ["g = %s;" % texts[0], "p = '0;"]
    chain += ["if (%s > g) begin g = %s; p = %d'd%d; end" % (text, text, bits, place) for place, text in enumerate(texts) if place]
    level = [(text, "%d'd%d" % (bits, place)) for place, text in enumerate(texts)]
    while len(level) > 1:
        above = []
        for (one, at), (other, behind) in zip(level[::2], level[1::2]):
            first = wires.new(1, "%s >= %s" % (one, other))
            greater = wires.new(width, "%s ? %s : %s" % (first, one, other))
            above.append((greater, wires.new(bits, "%s ? %s : %s" % (first, at, behind))))
        level = above + level[len(level) // 2 * 2 :]
    body = wires.body(logic(width, "g"), logic(bits, "p"), block(chain), "  assign y = {g, p};\n  assign w = {%s, %s};" % level[0])
    return both("place of the greatest", "%d of %d" % (count, width), {"x": count * width}, width + bits, body)


def butterflies(width):
    """Bits that stages of exchanges move, and that the same stages in the other order move back."""
    pairs = [(place, place + (1 << level)) for level in range(log2(width)) for place in range(width) if not place >> level & 1]
    lines = ["if (c[%d]) {v[%d], v[%d]} = {v[%d], v[%d]};" % (at, low, high, high, low) for at, (low, high) in enumerate(pairs)]
    body = "\n".join([logic(width, "v"), block(["v = a;", *lines, "w = v;", *reversed(lines), "y = v;"])])
    goals = [Goal("back", ["s == a"]), Goal("as_many", ["(^t) == (^a)", "(t == 0) == (a == 0)"])]
    goals.append(Goal("fixed", ["t != ~a"], ["a[%d:0] == '1" % (width // 2 - 1)], "failed"))
    return at_once("butterflies", width, {"a": width, "c": len(pairs)}, words(width, "yw"), body, goals)


def crossbar(count, width):
    """Words that numbers choose: by an index, beside words of which one bit each lets one through."""
    bits, wires, chosen, let = log2(count), Wires(), [], []
    for place in range(count):
        number = part("k", place, bits)
        one = wires.new(count, "%d'd1 << %s" % (count, number))
        chosen.append("x[%d * %s +: %d]" % (width, number, width))
        let.append(wires.new(width, joined("|", ["({%d{%s[%d]}} & %s)" % (width, one, at, part("x", at, width)) for at in range(count)])))
    body = wires.body("  assign y = %s;\n  assign w = %s;" % (packed(chosen), packed(let)))
    return both("crossbar", "%d of %d" % (count, width), {"x": count * width, "k": count * bits}, count * width, body)


def borrowed_grant(width):
    """The first request from a place on: by the borrow of a difference, beside a token that goes around."""
    lines = ["w = '0;", "c = 1'b0;"]
    for turn in range(2 * width):
        place = turn % width
        lines += ["if (b[%d]) c = 1'b1;" % place] if turn < width else []
        lines.append("if (c && r[%d]) begin w[%d] = 1'b1; c = 1'b0; end" % (place, place))
    more = "  assign d = {r, r};\n  assign g = d & ~(d - {%d'd0, b});\n  assign y = %s | %s;" % (width, *parts("g", 2, width))
    body = "\n".join(["  logic c;", logic(2 * width, "d, g"), more, block(lines)])
    one = ["b != 0", "(b & (b - %d'd1)) == 0" % width]
    goals = [Goal("one", ["(t & (t - %d'd1)) == 0" % width], one), Goal("free", ["s == t"], ["b != 0"], "failed")]
    return under(one, "grant by a borrow", width, words(width, "rb"), width, body, goals)


def code_of_places(checks):
    """A code in which the sum of the places that are 1 tells the place of an error; places are 1 and more, and 0 is none."""
    total = 1 << checks
    places = code_places(total - checks - 1)
    width = len(places)
    lines = ["x = '0;"] + ["x[%d] = d[%d];" % (place, bit) for bit, place in enumerate(places)]
    for check in range(checks):
        mask = sum(1 << place for place in range(total) if place >> check & 1)
        lines.append("x[%d] = ^(x & %d'h%x);" % (1 << check, total, mask))
    lines += ["x = x ^ (%d'd1 << m) ^ (%d'd1 << n);" % (total, total), "e = '0;"]
    lines += ["if (x[%d]) e = e ^ %d'd%d;" % (place, checks, place) for place in range(1, total)]
    lines += ["v = x ^ (%d'd1 << e);" % total, "y = %s;" % packed("v[%d]" % place for place in places)]
    goals = [Goal("corrected", ["s == d", "t == m"], ["n == 0"]), Goal("two", ["s == d"], ["m != n", "n != 0"], "failed")]
    goals += [Goal("sum", ["t == (m ^ n)"])] if checks < 5 else []
    body = logic(total, "x, v") + "\n" + block(lines)
    return at_once("code of places", width, {"d": width, "m": checks, "n": checks}, {"y": width, "e": checks}, body, goals)


def divided(width, polynomial, state, bits):
    """What a register of a cyclic check is behind eight bits, the highest first."""
    for place in reversed(range(8)):
        top = (state >> (width - 1) ^ bits >> place) & 1
        state = (state << 1) & ((1 << width) - 1) ^ (polynomial if top else 0)
    return state


def one_bit(name, width, polynomial, bit):
    return "{%s[%d:0], 1'b0} ^ ((%s[%d] ^ %s) ? %d'h%x : %d'h0)" % (name, width - 2, name, width - 1, bit, width, polynomial, width)


def by_bytes(name, width, polynomial):
    """The bits of a register of a cyclic check behind the byte that stands below it, each as a sum of the bits of both."""
    images = [divided(width, polynomial, 1 << bit >> 8, 1 << bit & 255) for bit in range(width + 8)]
    masks = [sum(1 << bit for bit, image in enumerate(images) if image >> place & 1) for place in range(width)]
    return packed("^(%s & %d'h%x)" % (name, width + 8, mask) for mask in masks)


def cyclic_bytes(width, polynomial, count):
    """A cyclic check that goes on from any value: bit by bit, beside whole bytes."""
    serial = ["y = c;"] + ["y = %s;" % one_bit("y", width, polynomial, "d[%d]" % place) for place in reversed(range(8 * count))]
    wires, state = Wires(), "c"
    for text in reversed(parts("d", count, 8)):
        state = wires.new(width, by_bytes(wires.new(width + 8, "{%s, %s}" % (state, text)), width, polynomial))
    body = wires.body("  assign w = %s;" % state, block(serial))
    size = "%d bits, %d bytes" % (width, count)
    return both("check by bytes", size, {"c": width, "d": 8 * count}, width, body, [Goal("moves", ["s != c"], ["d != 0"], "failed")])


def cyclic_register(width, polynomial, count):
    """A register of a cyclic check that takes a bit at each edge, beside one that takes eight at each eighth."""
    body = "\n".join([
        logic(width, "c, e, f"),
        logic(width + 8, "v"),
        "  logic [6:0] b;\n  logic [2:0] n;\n  assign v = {e, b, d};\n  assign f = %s;" % by_bytes("v", width, polynomial),
        "  assign y = c;\n  assign w = e;\n  always_ff @(posedge clk)",
        "    if (load) begin c <= %d'd1; e <= %d'd1; b <= '0; n <= '0; end" % (width, width),
        "    else begin\n      c <= %s;" % one_bit("c", width, polynomial, "d"),
        "      b <= {b[5:0], d};\n      n <= n + 3'd1;\n      if (n == 3'd7) e <= f;\n    end",
    ])
    size = "%d bits, %d bytes" % (width, count)
    goals = [Goal("alike", ["s == t"]), Goal("never", ["s != %d'd3" % width], [], "failed")]
    return over_edges("register of a check", size, 8 * count, {"d": 1}, words(width, "yw"), body, goals)


def recurrence(width, mask, count):
    """The bits that come out of a register whose feedback is added at many places, beside sums of the bits before them."""
    one = ["y = '0;", "g = a;"]
    for place in range(count):
        one += ["y[%d] = g[0];" % place, "g = {1'b0, g[%d:1]} ^ (g[0] ? %d'h%x : %d'h0);" % (width - 1, width, mask, width)]
    other = ["w = '0;", "w[%d:0] = y[%d:0];" % (width - 1, width - 1)]
    for place in range(width, count):
        other.append("w[%d] = %s;" % (place, joined("^", ["w[%d]" % (place - 1 - bit) for bit in range(width) if mask >> bit & 1])))
    body = "\n".join([logic(width, "g"), block(one), block(other)])
    return both("feedback in two ways", "%d bits, %d" % (width, count), {"a": width}, count, body)


def field_product(width, polynomial):
    """A product in a field: by the bits of one number from the highest on, beside those of the other from the lowest on."""
    rest = "%d'h%x : %d'd0" % (width, polynomial, width)
    high, low = ["y = '0;"], ["w = '0;", "x = b;"]
    for place in range(width):
        high.insert(1, "y = {y[%d:0], 1'b0} ^ (y[%d] ? %s) ^ (b[%d] ? a : %d'd0);" % (width - 2, width - 1, rest, place, width))
        low += ["if (a[%d]) w = w ^ x;" % place, "x = {x[%d:0], 1'b0} ^ (x[%d] ? %s);" % (width - 2, width - 1, rest)]
    inverse = Goal("no_inverse", ["s != %d'd1" % width], ["a == %d'd%d" % (width, polynomial ^ 1 | 4)], "failed")
    body = "\n".join([logic(width, "x"), block(high), block(low)])
    return both("field product", width, words(width, "ab"), width, body, [inverse])


def gray_pointers(bits, edges):
    """The pointers of a queue in Gray code, beside a count of its words, from any pointers that are not too far apart."""
    depth, wide, after = 1 << bits, bits + 1, []
    for name, pointer in ("i", "wr"), ("j", "rd"):
        after.append("%s = %s;" % (name, pointer))
        after += ["%s = %s ^ (%s >> %d);" % (name, name, name, 1 << place) for place in range(log2(wide))]
        after += ["%s = %s + %d'd1;" % (name, name, wide), "%s = %s ^ (%s >> 1);" % (name, name, name)]
    numbers = {"bits": bits, "high": bits - 1, "low": bits - 2, "wide": wide, "depth": depth, "after": block(after)}
    body = """  logic [%(bits)d:0] wr, rd, i, j, n;
  logic put, get;
%(after)s
  assign full = wr == {~rd[%(bits)d:%(high)d], rd[%(low)d:0]};
  assign empty = wr == rd;
  assign count = n;
  assign put = push && n != %(wide)d'd%(depth)d;
  assign get = take && n != '0;
  always_ff @(posedge clk)
    if (load) begin wr <= a ^ (a >> 1); rd <= b ^ (b >> 1); n <= a - b; end
    else begin
      if (push && !full) wr <= i;
      if (take && !empty) rd <= j;
      if (put && !get) n <= n + %(wide)d'd1;
      else if (get && !put) n <= n - %(wide)d'd1;
    end""" % numbers
    told = ["s == (u == %d'd%d)" % (wide, depth), "t == (u == 0)", "u <= %d'd%d" % (wide, depth)]
    goals = [Goal("told", told, ["a - b <= %d'd%d" % (wide, depth)])]
    goals.append(Goal("room", ["!s"], ["a - b <= %d'd%d" % (wide, depth - edges)], "failed"))
    size, outputs = "%d bits, %d edges" % (bits, edges), {"full": 1, "empty": 1, "count": wide}
    return from_any("pointers in Gray code", size, edges, words(wide, "ab"), {"push": 1, "take": 1}, outputs, body, goals)


def flagged_ring(bits, edges):
    """The places of a ring of words with a flag that it is full, beside a count of its words, from any places."""
    body = """  logic [%(high)d:0] head, tail;
  logic [%(bits)d:0] n;
  logic full, put, get, more, less;
  assign put = push && !full;
  assign get = take && (full || head != tail);
  assign more = push && n != %(wide)d'd%(depth)d;
  assign less = take && n != '0;
  assign y = {full, tail - head};
  assign w = n;
  always_ff @(posedge clk)
    if (load) begin head <= a; tail <= b; full <= f && a == b; n <= {f && a == b, b - a}; end
    else begin
      if (put) tail <= tail + %(bits)d'd1;
      if (get) head <= head + %(bits)d'd1;
      if (put && !get) full <= tail + %(bits)d'd1 == head;
      else if (get && !put) full <= 1'b0;
      if (more && !less) n <= n + %(wide)d'd1;
      else if (less && !more) n <= n - %(wide)d'd1;
    end""" % {"bits": bits, "high": bits - 1, "wide": bits + 1, "depth": 1 << bits}
    far = Goal("room", ["!s[%d]" % bits], ["!f", "b - a <= %d'd%d" % (bits, (1 << bits) - edges)], "failed")
    starts, size, goals = {"a": bits, "b": bits, "f": 1}, "%d bits, %d edges" % (bits, edges), [Goal("alike", ["s == t"]), far]
    return from_any("ring with a flag", size, edges, starts, {"push": 1, "take": 1}, words(bits + 1, "yw"), body, goals)


def thermometer(most, edges):
    """A count up and down that stays at both ends, and is cleared: so many bits that are 1, beside a number."""
    bits = log2(most + 1)
    body = """  logic [%(top)d:0] h;
  logic [%(high)d:0] n;
  assign y = h;
  assign w = (%(most)d'd1 << n) - %(most)d'd1;
  always_ff @(posedge clk)
    if (load || clear) begin h <= '0; n <= '0; end
    else if (go && !back) begin h <= {h[%(below)d:0], 1'b1}; if (n != %(bits)d'd%(most)d) n <= n + %(bits)d'd1; end
    else if (back && !go) begin h <= h >> 1; if (n != '0) n <= n - %(bits)d'd1; end""" % {
        "top": most - 1, "below": most - 2, "high": bits - 1, "most": most, "bits": bits,
    }
    goals = [Goal("alike", ["s == t"]), Goal("below", ["!s[%d]" % (min(most, edges) - 1)], [], "failed")]
    inputs = {"go": 1, "back": 1, "clear": 1}
    return over_edges("thermometer", "%d, %d edges" % (most, edges), edges, inputs, words(most, "yw"), body, goals)


def pattern(text, edges):
    """How often some bits came: by a machine with a state for each front of them, beside a shift register."""
    size, bits = len(text), log2(edges + 1)
    into = [[] for _ in range(size + 1)]
    for front in range(size + 1):
        for bit, told in ("0", "~d"), ("1", "d"):
            seen = text[:front] + bit
            found = max(at for at in range(min(len(seen), size) + 1) if seen.endswith(text[:at]))
            into[found].append("(h[%d] & %s)" % (front, told))
    body = """  logic [%(size)d:0] h;
  logic [%(top)d:0] x;
  always_ff @(posedge clk)
    if (load) begin h <= %(states)d'd1; x <= {%(size)d{%(other)s}}; y <= '0; w <= '0; end
    else begin
      h <= %(after)s;
      x <= {x[%(below)d:0], d};
      if (h[%(size)d]) y <= y + %(bits)d'd1;
      if (x == %(size)d'b%(text)s) w <= w + %(bits)d'd1;
    end""" % {
        "size": size, "top": size - 1, "below": size - 2, "states": size + 1, "bits": bits, "text": text,
        "other": "1'b0" if text[0] == "1" else "1'b1", "after": packed(joined("|", each) if each else "1'b0" for each in into),
    }
    goals = [Goal("alike", ["s == t"]), Goal("fewer", ["s < %d'd%d" % (bits, (edges - 1) // size)], [], "failed")]
    return over_edges("bits that came", "%s, %d edges" % (text, edges), edges, {"d": 1}, words(bits, "yw"), body, goals)


def serial_word(width, edges):
    """A line that words are sent on: out of a shift register, beside the bit that a number chooses."""
    bits, long = log2(width + 3), width + 2
    chosen = ["w = 1'b1;", "if (n == %d'd1) w = 1'b0;" % bits]
    chosen += ["if (n == %d'd%d) w = q[%d];" % (bits, place + 2, place) for place in range(width)]
    body = """  logic [%(high)d:0] n, left;
  logic [%(last)d:0] x;
  logic [%(top)d:0] q;
  assign y = x[0];
  assign e = left != '0;
  assign f = n != '0;
%(chosen)s
  always_ff @(posedge clk)
    if (load) begin x <= '1; left <= '0; n <= '0; end
    else begin
      if (left == '0 && go) begin x <= {1'b1, d, 1'b0}; left <= %(bits)d'd%(long)d; end
      else begin x <= {1'b1, x[%(last)d:1]}; if (left != '0) left <= left - %(bits)d'd1; end
      if (n == '0 && go) q <= d;
      if (n == '0) begin if (go) n <= %(bits)d'd1; end
      else n <= n == %(bits)d'd%(long)d ? %(bits)d'd0 : n + %(bits)d'd1;
    end""" % {"high": bits - 1, "last": width + 1, "top": width - 1, "bits": bits, "long": long, "chosen": block(chosen)}
    goals = [Goal("alike", ["s == t", "u == v"]), Goal("high", ["s"], ["d%d == '1" % turn for turn in range(edges)], "failed")]
    outputs = {"y": 1, "w": 1, "e": 1, "f": 1}
    return over_edges("serial word", "%d bits, %d edges" % (width, edges), edges, {"go": 1, "d": width}, outputs, body, goals)


def credits(bits, edges):
    """Credits of a sender, a word on its way, words that wait, a credit on its way: as many in all as at the first, and alike a sum."""
    wide = bits + 2
    body = """  logic send, drain;
  assign send = push && c != '0;
  assign drain = take && n != '0;
  always_ff @(posedge clk)
    if (load) begin c <= x; n <= k; f <= a; b <= m; end
    else begin
      f <= send;
      b <= drain;
      if (send && !b) c <= c - %(wide)d'd1;
      else if (b && !send) c <= c + %(wide)d'd1;
      if (f && !drain) n <= n + %(wide)d'd1;
      else if (drain && !f) n <= n - %(wide)d'd1;
    end""" % {"wide": wide}

    def total(*names):
        return "%s + %s + {%d'd0, %s} + {%d'd0, %s}" % (names[0], names[1], wide - 1, names[2], wide - 1, names[3])

    most = 1 << bits
    start = ["x <= %d'd%d" % (wide, most), "k <= %d'd%d" % (wide, most)]
    goals = [Goal("kept", ["%s == %s" % (total(*"stuv"), total(*"xkam"))], start)]
    goals.append(Goal("bounded", ["t <= %d'd%d" % (wide, most)], [*start, "%s == %d'd%d" % (total(*"xkam"), wide, most)]))
    goals.append(Goal("open", ["t <= %d'd%d" % (wide, most)], [*start, "%s <= %d'd%d" % (total(*"xkam"), wide, most + 1)], "failed"))
    starts, outputs = {"x": wide, "k": wide, "a": 1, "m": 1}, {"c": wide, "n": wide, "f": 1, "b": 1}
    return from_any("credits", "%d bits, %d edges" % (bits, edges), edges, starts, {"push": 1, "take": 1}, outputs, body, goals)


def least_recent(count, edges):
    """Which of some was asked for the longest time ago: by a list in order, beside a table of who came behind whom."""
    bits, most = log2(count), (1 << count) - 1
    first = ["l%d <= %d'd%d; m%d <= %d'd%d;" % (at, bits, at, at, count, most & -(2 << at)) for at in range(count)]
    steps = ["l0 <= k;"]
    for at in range(1, count):
        steps.append("if (%s) l%d <= l%d;" % (joined("&&", ["l%d != k" % before for before in range(at)]), at, at - 1))
    for at in range(count):
        steps.append("m%d <= k == %d'd%d ? %d'd%d : m%d & ~(%d'd1 << k);" % (at, bits, at, count, most - (1 << at), at, count))
    body = "\n".join([
        logic(bits, ", ".join("l%d" % at for at in range(count))),
        logic(count, ", ".join("m%d" % at for at in range(count))),
        "  assign y = %d'd1 << l%d;\n  assign w = %s;" % (count, count - 1, packed("m%d == '0" % at for at in range(count))),
        "  always_ff @(posedge clk)\n    if (load) begin %s end" % " ".join(first),
        "    else begin\n      %s\n    end" % "\n      ".join(steps),
    ])
    goals = [Goal("alike", ["s == t"]), Goal("kept", ["!s[0]"], [], "failed" if edges >= count - 1 else "proved")]
    return over_edges("asked long ago", "%d, %d edges" % (count, edges), edges, {"k": bits}, words(count, "yw"), body, goals)


def operations(width, registers):
    """Operations on numbers that go through registers, beside other forms of them at once."""
    bits, top, number = log2(width), width - 1, "b[%d:0]" % (log2(width) - 1)
    turned = "(a << %s) | (a >> (%d'd%d - {1'b0, %s}))" % (number, bits + 1, width, number)
    greatest = "{~a[%d], a[%d:0]} < {~b[%d], b[%d:0]} ? b : a" % (top, top - 1, top, top - 1)
    values = ["~(a | b)", turned, greatest, "a & ~b", "a + b + %d'd1" % width, "(a & b) + (a | b)", "(a ^ b) - b"]
    lines = ["v = b - a;"] + ["if (o == 3'd%d) v = %s;" % (code, value) for code, value in enumerate(values, 1)]
    names = ["p%d" % stage for stage in range(registers - 1)] + ["y"]
    moves = " ".join("%s <= %s;" % (to, source) for source, to in zip(["v", *names], names))
    body = "\n".join([logic(width, ", ".join(["v", *names[:-1]])), block(lines), "  always_ff @(posedge clk) begin %s end" % moves])
    claims = {
        "minus": ["s == ~(a + ~b)"],
        "neither": ["s == (~b & ~a)"],
        "turned": ["{s, %d'd0} == (({a, a} << %s) >> %d) << %d" % (width, number, width, width)],
        "greatest": ["$signed(s) >= $signed(a)", "$signed(s) >= $signed(b)", "s == a || s == b"],
        "without": ["s == a - (b & a)"],
        "one_more": ["s == a - ~b"],
        "sum": ["s == b + a"],
        "unlike": ["s == (a | b) - ((a & b) + b)"],
    }
    goals = [Goal(name, claim, ["o == 3'd%d" % code]) for code, (name, claim) in enumerate(claims.items())]
    goals.append(Goal("rare", ["s == a - b"], ["o == 3'd4", "(~a & b & ~%d'd%d) == 0" % (width, 1 << width // 2)], "failed"))
    phases, inputs = 2 * registers, {"clk": 1, "a": width, "b": width, "o": 3}
    cells = {"clk": clock(phases), **{name: [name] + ["_"] * (phases - 1) for name in "abo"}}
    design, samples = "module m(%s);\n%s\nendmodule\n" % (ports(inputs, {"y": width}), body), {"y": [""] * (phases - 1) + ["s"]}
    return Run("operations", "%d bits, %d" % (width, registers), design, "m", inputs, {"y": width}, cells, samples, goals)


def runs():
    """All runs of the suite, the smaller sizes of each kind first."""
    made = [prefix_sum(width, *kinds) for width, *kinds in ((24, "doubling", "tree"), (48, "halves", "tree"), (96, "doubling", "halves"))]
    made += [saved_carries(count, width) for count, width in ((3, 20), (4, 12), (5, 10), (6, 16))]
    made += [full_adders(width) for width in (9, 17, 24, 30)]
    made += [booth(width) for width in (4, 5, 6, 7)]
    made += [product_of_halves(half) for half in (2, 3)]
    made += [signed_product(width) for width in (4, 5, 6, 7)]
    made += [folded_square(width) for width in (6, 9, 12, 14)]
    made += [fixed_multiple(width, factor) for width, factor in ((12, 181), (14, 2741), (16, 23457))]
    made += [fixed_quotient(width, divisor) for width, divisor in ((8, 10), (10, 7), (14, 11), (16, 13))]
    made += [folded_rest(width, bits) for width, bits in ((8, 2), (12, 4), (15, 5), (16, 4), (18, 3))]
    made += [by_signs(width) for width in (4, 6, 8, 9)]
    made += [root(width) for width in (10, 16, 20, 24)]
    made += [decimal_digits(width) for width in (7, 10, 13, 16)]
    made += [decimal_sum(digits) for digits in (2, 3)]
    made += [distances(count, width) for count, width in ((2, 6), (3, 5))]
    made += [turned_back(width) for width in (16, 64, 128)]
    made += [funnel(width) for width in (16, 64)]
    made += [from_gray(width) for width in (12, 20, 40)]
    made += [parity(width, step) for width, step in ((12, 5), (18, 7), (22, 9), (26, 11))]
    made += [in_order("up and down", bitonic(count), count, width) for count, width in ((4, 3), (4, 7), (8, 1), (8, 2))]
    made += [in_order("odd and even", merging(count), count, width) for count, width in ((4, 5), (5, 3), (6, 2), (7, 2))]
    made += [two_networks(count, width) for count, width in ((4, 8), (8, 1), (8, 2), (8, 3))]
    made += [median(count, width) for count, width in ((3, 9), (5, 3), (5, 6), (7, 3), (9, 2))]
    made += [place_of_greatest(count, width) for count, width in ((4, 9), (6, 8), (10, 6), (12, 10))]
    made += [butterflies(width) for width in (8, 16)]
    made += [crossbar(count, width) for count, width in ((4, 4), (8, 8), (16, 8))]
    made += [borrowed_grant(width) for width in (6, 24, 64)]
    made += [code_of_places(checks) for checks in (4, 5, 6)]
    made += [cyclic_bytes(*size) for size in ((5, 0x05, 2), (8, 0x31, 3), (12, 0x80F, 3), (24, 0x864CFB, 1))]
    made += [cyclic_register(*size) for size in ((5, 0x15, 1), (8, 0x9B, 2), (16, 0x8005, 3))]
    made += [recurrence(width, mask, count) for width, mask, count in ((7, 0x60, 28), (9, 0x1B5, 24), (12, 0xE08, 60), (16, 0xD008, 64))]
    made += [field_product(width, polynomial) for width, polynomial in ((4, 0x3), (5, 0x5), (6, 0x3), (7, 0x3))]
    made += [gray_pointers(bits, edges) for bits, edges in ((2, 4), (3, 7), (4, 5))]
    made += [flagged_ring(bits, edges) for bits, edges in ((3, 5), (4, 9))]
    made += [thermometer(most, edges) for most, edges in ((5, 6), (9, 10), (12, 16))]
    made += [pattern(text, edges) for text, edges in (("1011", 8), ("11010", 16), ("0110110", 26))]
    made += [serial_word(width, edges) for width, edges in ((3, 7), (5, 10), (7, 20))]
    made += [credits(bits, edges) for bits, edges in ((2, 4), (3, 5), (4, 6))]
    made += [least_recent(count, edges) for count, edges in ((4, 7), (8, 4), (8, 6))]
    made += [operations(width, registers) for width, registers in ((32, 8), (16, 30))]
    return made
