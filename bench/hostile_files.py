"""Files that are meant to keep a reader busy: each of a kind that grows with a number of bytes, up to the greatest that the tool takes.

`KINDS` has for each kind a function from a number of bytes to a `Case`: files by their names, and the words of a command. The files of
a kind have about as many bytes as asked for (the one that is meant to be hard; the others are small), but for kinds that a limit of the
tool bounds, which say so. Most kinds are of one layer: cutting into tokens, directives, the grammar, the meaning of a design, its flat
form, tables, values, goals. Those that simulate or prove do so over few variables or none, so that no search is measured.
"""

import hashlib
import os
import subprocess
import tempfile
from dataclasses import dataclass, field

MOST = 1 << 24

TABLE = b"in,a,a\nin,b,b\nout,y,s\n"
GOALS = b"goal eq { claim s == (a & b); }\n"
DESIGN = b"module m(input logic a, input logic b, output logic y); assign y = a & b; endmodule\n"


@dataclass
class Case:
    """The words of a command and its files."""

    words: list
    files: dict = field(default_factory=dict)


def dump(design, **more):
    """`dump` of a design, with files that it includes."""
    return Case(["dump", "d.sv"], {"d.sv": design, **{name.replace("_", "."): text for name, text in more.items()}})


def prove(design=DESIGN, table=TABLE, goals=GOALS):
    return Case(["prove", "d.sv", "t.csv", "g.txt"], {"d.sv": design, "t.csv": table, "g.txt": goals})


def sim(design=DESIGN, table=TABLE, values=b""):
    return Case(["sim", "d.sv", "t.csv", "v.csv"], {"d.sv": design, "t.csv": table, "v.csv": values})


def often(piece, size, head=b"", tail=b""):
    """So often a piece that the whole has about that size."""
    return head + piece * max(1, (size - len(head) - len(tail)) // len(piece)) + tail


def numbered(form, size, head=b"", tail=b""):
    """Pieces with numbers from 0 on, up to about that size. The form is a text with %d, or a function from a number."""
    pieces, left, number = [], size - len(head) - len(tail), 0
    make = form if callable(form) else lambda n: form.replace("%d", str(n))
    while True:
        piece = make(number).encode()
        left -= len(piece)
        if left < 0:
            return head + b"".join(pieces) + tail
        pieces.append(piece)
        number += 1


def counted(form, count):
    return "".join(form.replace("%d", str(n)) for n in range(count)).encode()


# ---- constants that mix to one word

ALL = (1 << 64) - 1


def alike_constant(number):
    """A constant of 128 bits; the halves of all of them mix to one and the same word of 64 bits."""
    low = (number * 0x9E3779B97F4A7C15 + 12345) & ALL
    high = (-low * 11400714819323198485) & ALL
    return "128'h%016x%016x" % (high, low)


# ---- names that begin at one place in a table


def key_of(texts):
    """The key of the maps of names of a text with these words: a digest of them, as hexadecimal digits."""
    digest = hashlib.md5()
    for text in texts:
        digest.update(len(text).to_bytes(8, "little") + text.encode())
    return digest.hexdigest()


def alike_names(count, before, behind):
    """Names of six bytes at which a table of as many begins at one place; they are searched for, by a program in C (cc), for the key of
    a text which has other names where these are to stand, so that the key is another one once they stand there."""
    groups = 1
    while 9 * groups < count:
        groups *= 2
    with tempfile.TemporaryDirectory() as room:
        program = os.path.join(room, "alike_names")
        source = os.path.join(os.path.dirname(os.path.abspath(__file__)), "alike_names.c")
        subprocess.run(["cc", "-O2", "-o", program, source], check=True)
        found = subprocess.run([program, str(count), str(groups - 1), key_of(before(count) + behind)], check=True, capture_output=True)
    return found.stdout.decode().split()


# ---- tokens

KINDS = {}


def kind(make):
    KINDS[make.__name__] = make
    return make


for name, piece in {
    "parentheses": b"(", "braces": b"{", "square_brackets": b"[", "semicolons": b";", "backticks": b"`", "backslashes": b"\\",
    "quotes": b'"', "apostrophes": b"'", "dollars": b"$", "line_ends": b"\n", "carriage_returns": b"\r", "blanks": b" ",
    "slashes": b"/", "stars": b"*", "comment_openings": b"/*", "marks_of_three": b"===", "shifts": b"<<<", "zero_bytes": b"\0",
    "bytes_255": b"\xff", "short_words": b"a ", "short_literals": b"1'b1 ", "comments": b"/**/", "comments_of_lines": b"//\n",
    "quoted_texts": b'"" ', "continued_lines": b"\\\n",
}.items():
    KINDS[name] = lambda size, piece=piece: dump(often(piece, size))

for name, (head, piece, tail) in {
    "one_line_comment": (b"//", b"x", b""), "one_comment": (b"/*", b"x", b"*/"), "one_unended_comment": (b"/*", b"*", b""),
    "one_quoted_text": (b'"', b"x", b'"'), "one_unended_quoted_text": (b'"', b"x", b""), "one_name": (b"module ", b"m", b"; endmodule"),
    "one_number": (b"module m(output y); assign y = ", b"1", b"; endmodule"),
    "one_number_of_zeros": (b"module m(output y); assign y = ", b"0", b"1; endmodule"),
    "one_number_of_marks": (b"module m(output y); assign y = 1", b"_", b"; endmodule"),
    "one_based_number": (b"module m(output y); assign y = 'h", b"f", b"; endmodule"),
    "one_decimal_number_with_size": (b"module m(output y); assign y = 128'd", b"9", b"; endmodule"),
    "one_size": (b"module m(output y); assign y = ", b"9", b"'d1; endmodule"),
    "one_system_name": (b"module m(output y); assign y = $", b"c", b"(1); endmodule"),
    "one_directive": (b"`", b"d", b""), "one_path": (b"module m; logic ", b"p", b"; endmodule"),
    "one_macro_name": (b"`define ", b"n", b" 1\n"), "one_include": (b'`include "', b"i", b'"'),
    "one_skipped_line": (b"`timescale ", b"s", b"\n" + DESIGN),
}.items():
    KINDS[name] = lambda size, head=head, piece=piece, tail=tail: dump(often(piece, size, head, tail))


# ---- directives

@kind
def macros(size):
    return dump(numbered("`define M%d x\n", size, tail=DESIGN))


@kind
def macro_redefined(size):
    return dump(often(b"`define M x y z\n", size, tail=DESIGN))


@kind
def macros_undefined(size):
    return dump(often(b"`define M x\n`undef M\n", size, tail=DESIGN))


@kind
def macro_used(size):
    return dump(often(b"`M ", size, head=b"`define M\n", tail=b"\n" + DESIGN))


@kind
def macro_with_a_long_text(size):
    return dump(often(b"a ", size, head=b"`define M ", tail=b"\n" + DESIGN))


@kind
def macros_that_double(size):
    return dump(b"`define M0 ;\n" + b"".join(b"`define M%d `M%d `M%d\n" % (n, n - 1, n - 1) for n in range(1, 21)) + often(b"`M20\n", size))


@kind
def macros_that_double_to_nothing(size):
    """As many uses as the limit on tokens lets through, each of a text that ends in nothing."""
    lines = b"`define M0\n" + b"".join(b"`define M%d `M%d `M%d\n" % (n, n - 1, n - 1) for n in range(1, 21))
    return dump(lines + often(b"`M19\n", min(size, 60)) + DESIGN)


@kind
def macros_64_deep(size):
    lines = b"`define M0\n" + b"".join(b"`define M%d `M%d\n" % (n, n - 1) for n in range(1, 64))
    return dump(lines + often(b"`M63\n", min(size, 62_000 * 5)) + DESIGN)


@kind
def open_conditionals(size):
    return dump(often(b"`ifdef A\n", size))


@kind
def nested_conditionals(size):
    return dump(b"`ifdef A\n" * (size // 16) + b"`endif\n" * (size // 16) + DESIGN)


@kind
def conditionals(size):
    return dump(often(b"`ifdef A\n`else\n`endif\n", size, tail=DESIGN))


@kind
def chained_conditionals(size):
    return dump(often(b"`elsif B\n", size, head=b"`ifdef A\n", tail=b"`endif\n" + DESIGN))


@kind
def skipped_text(size):
    return dump(often(b"`define M x\n", size, head=b"`ifdef A\n", tail=b"`endif\n" + DESIGN))


@kind
def includes_of_nothing(size):
    return dump(often(b'`include "e"\n', size, tail=DESIGN), e=b"")


@kind
def includes_that_double(size):
    """2^16 files are read, each of one size that grows with the number of bytes."""
    files = {"f%d" % n: b'`include "f%d"\n`include "f%d"\n' % (n + 1, n + 1) for n in range(1, 16)}
    files["f16"] = b" " * max(1, size // (1 << 16))
    return Case(["dump", "d.sv"], {"d.sv": b'`include "f1"\n`include "f1"\n' + DESIGN, **files})


@kind
def skipped_lines(size):
    return dump(often(b"`timescale 1ns/1ps\n", size, tail=DESIGN))


# ---- the grammar

GRAMMAR = {
    "open_parentheses_in_an_expression": (b"module m(output y); assign y = ", b"(", b""),
    "closed_parentheses_in_an_expression": (b"module m(output y); assign y = ", b"((1))|", b"0; endmodule"),
    "parentheses_behind_a_sum": (b"module m(output y); assign y = a + ", b"(", b""),
    "open_braces_in_an_expression": (b"module m(output y); assign y = ", b"{", b""),
    "open_replications": (b"module m(output y); assign y = ", b"{1{", b""),
    "open_casts": (b"module m(output y); assign y = ", b"1'(", b""),
    "open_conditions": (b"module m(output y); assign y = ", b"1?", b""),
    "conditions_behind_each_other": (b"module m(output y); assign y = ", b"1?1:", b"1; endmodule"),
    "implications": (b"module m(output y); assign y = ", b"1->", b"1; endmodule"),
    "unary_operators": (b"module m(output y); assign y = ", b"~", b"1; endmodule"),
    "sums": (b"module m(output y); assign y = ", b"1+", b"1; endmodule"),
    "sums_and_products": (b"module m(output y); assign y = ", b"1*1+", b"1; endmodule"),
    "concatenation": (b"module m(output y); assign y = {", b"1'b1,", b"1'b1}; endmodule"),
    "selects": (b"module m(output y); logic a; assign y = a", b"[0]", b"; endmodule"),
    "selects_in_selects": (b"module m(output y); logic a; assign y = ", b"a[", b""),
    "members": (b"module m(output y); logic a; assign y = a", b".b", b"; endmodule"),
    "open_blocks": (b"module m(output y); always_comb ", b"begin ", b""),
    "closed_blocks": (b"module m(output y); always_comb begin ", b"begin end ", b"end endmodule"),
    "open_ifs": (b"module m(output y); always_comb ", b"if(1)", b""),
    "else_ifs": (b"module m(output y); always_comb ", b"if(1);else ", b"; endmodule"),
    "empty_statements": (b"module m(output y); always_comb begin ", b";", b"end endmodule"),
    "open_cases": (b"module m(output y); always_comb ", b"case(1)1:", b""),
    "open_loops": (b"module m(output y); always_comb ", b"for(int i=0;i<1;i++)", b""),
    "open_generate_ifs": (b"module m; ", b"if(1)", b""),
    "generate_else_ifs": (b"module m; ", b"if(0)begin end else ", b"begin end endmodule"),
    "open_generate_loops": (b"module m; ", b"for(genvar i=0;i<1;i++)", b""),
    "open_regions": (b"module m; ", b"generate ", b""),
    "closed_regions": (b"module m; ", b"generate endgenerate ", b"endmodule"),
    "open_structs": (b"module m; ", b"struct packed{", b""),
    "targets_in_braces": (b"module m; assign ", b"{", b""),
    "events": (b"module m; always_ff @(posedge a ", b"or posedge a ", b") ; endmodule"),
    "open_modules": (b"", b"module m;", b""),
    "out_of_scope_words": (b"module m; ", b"initial ", b""),
    "two_state_words": (b"module m; ", b"int ", b""),
    "ports_of_int": (b"module m(", b"int a,", b"int b); endmodule"),
}
for name, (head, piece, tail) in GRAMMAR.items():
    KINDS[name] = lambda size, head=head, piece=piece, tail=tail: dump(often(piece, size, head, tail))


@kind
def int_behind_much(size):
    """Where `int` is refused, what stands before it is read once more."""
    return dump(often(b"assign y=1;", size, b"module m(output y); ", b" int a; endmodule"))


# ---- the meaning of a design

NAMED = {
    "modules": ("module m%d;endmodule\n", b"", DESIGN),
    "one_module_again": ("module m;endmodule\n", b"", b""),
    "file_parameters": ("parameter p%d=1;\n", b"", DESIGN),
    "types": ("typedef logic t%d;\n", b"", DESIGN),
    "nets": ("logic n%d;\n", b"module m;\n", b"endmodule\n"),
    "nets_of_128_bits": ("logic[127:0]n%d;\n", b"module m;\n", b"endmodule\n"),
    "ports": (",n%d", b"module m(input logic a", b"); endmodule\n"),
    "constants": ("localparam p%d=1;\n", b"module m;\n", b"endmodule\n"),
    "labels_of_an_enumeration": (",e%d", b"typedef enum logic [31:0] {e", b"} t;\n" + DESIGN),
    "genvars": (",g%d", b"module m; genvar g", b"; endmodule\n"),
    "instances": ("e u%d();\n", b"module e; endmodule module m;\n", b"endmodule\n"),
    "instances_with_a_wire": ("e u%d();\n", b"module e; wire w; endmodule module m;\n", b"endmodule\n"),
    "instances_of_a_port": ("e u%d(w);\n", b"module e(inout w); endmodule module m; wire w;\n", b"endmodule\n"),
    "instances_in_a_row": ("wire w%d; e u%d(a, w%d);\n", b"module e(input a, output b); assign b = a; endmodule module m(input a);\n", b"endmodule\n"),
    "blocks_of_generate": ("if(1)begin:b%d end\n", b"module m;\n", b"endmodule\n"),
    "blocks_without_a_name": ("if(1)begin end\n", b"module m;\n", b"endmodule\n"),
    "conditions_that_are_false": ("if(0)begin end\n", b"module m;\n", b"endmodule\n"),
    "drivers_of_one_net": ("assign y=a;\n", b"module m(input a, output y);\n", b"endmodule\n"),
    "drivers_of_many_nets": ("logic n%d;assign n%d=a;\n", b"module m(input a);\n", b"endmodule\n"),
    "registers": ("logic r%d;always_ff@(posedge c)r%d<=a;\n", b"module m(input c,a);\n", b"endmodule\n"),
    "statements": ("y=a;\n", b"module m(input a, output logic y); always_comb begin y=0;\n", b"end endmodule\n"),
    "statements_on_each_other": ("y=y^a;\n", b"module m(input a, output logic y); always_comb begin y=0;\n", b"end endmodule\n"),
    "additions_on_each_other": ("y=y+%d;\n", b"module m(input[31:0]a, output logic[31:0]y); always_comb begin y=a;\n", b"end endmodule\n"),
    "ifs": ("if(a)y=~y;\n", b"module m(input a, output logic y); always_comb begin y=0;\n", b"end endmodule\n"),
    "dynamic_writes": ("y[a]=~y[a];\n", b"module m(input[6:0]a, output logic[127:0]y); always_comb begin y=0;\n", b"end endmodule\n"),
    "arms_of_a_case": ("%d:y=1;\n", b"module m(input[31:0]a, output logic y); always_comb begin y=0; case(a)\n", b"endcase end endmodule\n"),
    "labels_of_an_arm": ("%d,\n", b"module m(input[31:0]a, output logic y); always_comb begin y=0; case(a)\n", b"32'd0:y=1;endcase end endmodule\n"),
    "blocks": ("always_comb n=a;\n", b"module m(input a); logic n;\n", b"endmodule\n"),
    "names_that_are_not_there": ("assign y=n%d;\n", b"module m(output y);\n", b"endmodule\n"),
    "powers": ("localparam p%d=128'd3**128'hffffffffffffffffffffffffffffffff;\n", b"module m;\n", b"endmodule\n"),
    "divisions": ("localparam p%d=128'hffffffffffffffffffffffffffffffff/128'd3;\n", b"module m;\n", b"endmodule\n"),
    "constants_on_each_other": ("localparam p%d=q;\n", b"module m; localparam q=1;\n", b"endmodule\n"),
    "replications": ("localparam p%d={128{1'b1}};\n", b"module m;\n", b"endmodule\n"),
    "reads_at_a_place": ("assign y=v[i+:%d];\n", b"module m(input[127:0]v,input[6:0]i,output y);\n", b"endmodule\n"),
    "joined_parts": ("e u%d(w[5],w[4]);\n", b"module e(inout a, b); endmodule module m(inout [7:0] w);\n", b"endmodule\n"),
}
for name, (form, head, tail) in NAMED.items():
    KINDS[name] = lambda size, form=form, head=head, tail=tail: dump(numbered(form, size, head, tail))


@kind
def constants_one_by_one(size):
    return dump(numbered(lambda n: "localparam p%d=p%d+1;\n" % (n + 1, n), size, b"module m; localparam p0=1;\n", b"endmodule\n"))


@kind
def types_one_by_one(size):
    return dump(numbered(lambda n: "typedef t%d t%d;\n" % (n, n + 1), size, b"typedef logic [3:0] t0;\n", DESIGN))


@kind
def types_of_a_long_struct(size):
    """A struct of 128 members, and types that are it."""
    members = b"".join(b"logic m%d;" % n for n in range(128))
    return dump(numbered(lambda n: "typedef t%d t%d;\n" % (n, n + 1), size, b"typedef struct packed {" + members + b"} t0;\n", DESIGN))


@kind
def nets_of_a_long_struct(size):
    members = b"".join(b"logic m%d;" % n for n in range(128))
    return dump(numbered("t n%d;\n", min(size, 8_192 * 9), b"typedef struct packed {" + members + b"} t; module m;\n", b"endmodule\n"))


LARGE_TYPE = b"typedef logic " + b"[0:0]" * 900 + b" r; typedef struct packed {" + b"".join(b"r m%d;" % n for n in range(128)) + b"} t;\n"


@kind
def types_over_a_large_type(size):
    """A type that some thousand bytes spell, of 128 members with 900 ranges each, and types that are it."""
    return dump(numbered("typedef t [0:0] t%d;\n", size, LARGE_TYPE, DESIGN))


@kind
def nets_of_a_large_type(size):
    return dump(numbered("t n%d;\n", min(size, 8_192 * 9), LARGE_TYPE + b"module m;\n", b"endmodule\n"))


@kind
def nets_of_a_type_of_many_ranges(size):
    return dump(numbered("logic" + "[0:0]" * 999 + "n%d;\n", size, b"module m;\n", b"endmodule\n"))


@kind
def nets_with_alike_names(size):
    """Not of that size, as the search grows with the square, but of a hundredth."""
    names = alike_names(size // 700, lambda count: "module m ; logic n".split() + [word for n in range(count) for word in (",", "n%d" % n)], "; endmodule".split())
    return dump(b"module m; logic n" + "".join("," + name for name in names).encode() + b"; endmodule\n")


@kind
def alike_constants(size):
    return dump(numbered(lambda n: "y=%s;\n" % alike_constant(n), size, b"module m(output logic[127:0]y); always_comb begin\n", b"end endmodule\n"))


@kind
def targets_and_ifs(size):
    """A block with as many targets as conditions."""
    count = size // 40
    nets = counted("logic n%d;\n", count)
    return dump(b"module m(input a); " + nets + b"always_comb begin\n" + counted("n%d=0;\n", count) + counted("if(a)n%d=1;\n", count) + b"end endmodule\n")


@kind
def targets_in_nested_ifs(size):
    """A block with many targets that are written behind 150 conditions."""
    count = size // 30
    nets = counted("logic n%d;\n", count)
    return dump(b"module m(input a); " + nets + b"always_comb begin " + b"if(a)" * 150 + b"begin\n" + counted("n%d=0;\n", count) + b"end end endmodule\n")


@kind
def targets_and_loops(size):
    """A block with many targets, and loops that turn up to the limit."""
    count = size // 20
    loops = b"for(int i=0;i<4096;i++)n0=n0^a;\n" * 240
    return dump(b"module m(input a); " + counted("logic n%d;\n", count) + b"always_comb begin n0=0;\n" + counted("n%d=0;\n", count) + loops + b"end endmodule\n")


@kind
def turns_of_generate(size):
    """As many turns as the limits let through, of a loop in a loop; the size does not count."""
    return dump(b"module m;for(genvar i=0;i<243;i++)begin:a for(genvar j=0;j<4096;j++)begin:b end end endmodule\n")


@kind
def turns_of_a_body_that_counts_once(size):
    """As many turns, over as many false conditions as a turn may have that counts as one; the size does not count."""
    inner = b"for(genvar j=0;j<4096;j++)begin " + b"if(0)begin end " * 8 + b"end "
    return dump(b"module m;for(genvar i=0;i<243;i++)begin " + inner + b"end endmodule\n")


@kind
def turns_of_generate_with_nets(size):
    return dump(b"module m;for(genvar i=0;i<243;i++)begin:a for(genvar j=0;j<4096;j++)begin:b wire w;end end endmodule\n")


@kind
def turns_of_generate_with_drivers(size):
    return dump(b"module m(input v);for(genvar i=0;i<243;i++)begin:a for(genvar j=0;j<4096;j++)begin:b wire w;assign w=v;end end endmodule\n")


@kind
def turns_of_a_block(size):
    return dump(b"module m(input a,output logic y);always_comb begin y=0;for(int i=0;i<243;i++)for(int j=0;j<4096;j++)y=y^a;end endmodule\n")


@kind
def turns_of_a_long_body(size):
    """A loop of 16 turns over a body of that size."""
    body = often(b"if(0)begin end\n", size)
    return dump(b"module m;for(genvar i=0;i<16;i++)begin:a\n" + body + b"end endmodule\n")


@kind
def instances_of_a_long_body(size):
    body = often(b"if(0)begin end\n", size)
    return dump(b"module e;\n" + body + b"endmodule module m; " + b"".join(b"e u%d();" % n for n in range(16)) + b"endmodule\n")


def balanced(count, leaf="0"):
    """A sum of so many leaves, in as few parentheses in one another as can be."""
    return leaf if count == 1 else "(%s+%s)" % (balanced(count // 2, leaf), balanced(count - count // 2, leaf))


@kind
def instances_that_share_a_parameter(size):
    """Half of the size is an expression that all instances are given."""
    given = balanced(max(1, size // 8)).encode()
    return dump(b"module e #(parameter P=0); endmodule module m; e #(" + given + b") u()" + numbered(",u%d()", size // 2) + b"; endmodule\n")


@kind
def parameters_that_share_a_type(size):
    """Half of the size is the range of all parameters of a declaration."""
    left = balanced(max(1, size // 8)).encode()
    return dump(b"module m; localparam [" + left + b":0] p=0" + numbered(",p%d=0", size // 2) + b"; endmodule\n")


@kind
def arms_that_share_a_long_value(size):
    """Half of the size is what is compared."""
    value = balanced(max(1, size // 8), "a").encode()
    return dump(b"module m(input [31:0] a, output logic y); always_comb begin y=0; case(" + value + b")\n" + numbered("%d:y=1;\n", size // 2) + b"endcase end endmodule\n")


@kind
def instances_that_double(size):
    """2^20 instances, which is one more than there may be; the size does not count."""
    lines = b"module m0;endmodule\n" + b"".join(b"module m%d;m%d a(),b();endmodule\n" % (n, n - 1) for n in range(1, 20))
    return dump(lines)


@kind
def blocks_in_instances(size):
    """32 instances in each other, each within 199 blocks; the size does not count."""
    text = b"module e31; endmodule\n"
    for n in range(30, -1, -1):
        text += b"module e%d; " % n + b"if(1)begin:b " * 199 + b"e%d u();" % (n + 1) + b"end " * 199 + b"endmodule\n"
    return dump(text)


@kind
def nets_below_a_long_name(size):
    """Half of the size is the name of an instance, in which all nets lie."""
    return dump(numbered(",n%d", size, b"module leaf; logic n", b"; endmodule module m; leaf " + b"u" * (size // 2) + b"(); endmodule\n"))


@kind
def turns_under_many_blocks(size):
    """65,536 turns of a generate loop under 194 blocks, whatever the size."""
    turns = b"for(genvar i=0;i<16;i++)begin:g for(genvar j=0;j<4096;j++)begin:h end end "
    return dump(b"module m;" + b"if(1)begin:a " * 194 + turns + b"end " * 194 + b"endmodule\n")


@kind
def paths_of_a_long_name(size):
    return dump(b"module m;for(genvar i=0;i<64;i++)begin:" + b"b" * size + b" wire w;end endmodule\n")


@kind
def members_of_a_long_name(size):
    return dump(b"typedef struct packed{logic " + b"m" * size + b";}t;module m;" + b"".join(b"t n%d;" % n for n in range(64)) + b"endmodule\n")


# ---- tables and values

TABLES = {
    "table_of_commas": (b"", b",", b""), "table_of_quotes": (b"", b'"', b""), "table_of_two_quotes": (b"", b'""', b""),
    "table_of_blank_lines": (b"", b"\n", b""), "table_of_carriage_returns": (b"", b"\r", b""), "table_of_blanks": (b"", b" ", b""),
    "table_of_zero_bytes": (b"", b"\0", b""), "table_of_bytes_255": (b"", b"\xff", b""), "table_of_a_cell": (b"in,a,", b"1", b"\n"),
    "table_of_an_unended_field": (b'in,a,"', b"\n,", b""), "table_of_a_path": (b"in,", b"a", b",1\n"),
    "table_of_short_records": (b"", b"a\n", b""), "table_of_inputs": (b"", b"in,a,1\n", b""), "table_of_outputs": (b"", b"out,y,\n", b""),
    "table_of_a_literal": (b"in,a,'b", b"0", b"\n"), "table_of_blanks_in_a_cell": (b"in,a,", b" ", b"1\n"),
}
for name, (head, piece, tail) in TABLES.items():
    KINDS[name] = lambda size, head=head, piece=piece, tail=tail: sim(table=often(piece, size, head, tail))
    KINDS[name.replace("table", "values")] = lambda size, head=head, piece=piece, tail=tail: sim(values=often(piece, size, head.removeprefix(b"in,"), tail))


@kind
def samples(size):
    return sim(table=numbered("out,y,s%d\n", size, b"in,a,1\nin,b,1\n"))


@kind
def samples_of_64_phases(size):
    return sim(table=numbered(lambda n: "out,y%s\n" % "".join(",s%d_%d" % (n, k) for k in range(64)), size, b"in,a,1" + b"," * 63 + b"\nin,b,1" + b"," * 63 + b"\n"))


@kind
def variables(size):
    """A design with many inputs, and a table with a variable for each."""
    count = size // 24
    design = b"module m(" + counted("input i%d,", count) + b"output y); assign y = 1; endmodule\n"
    return sim(design, counted("in,i%d,v%d\n", count) + b"out,y,s\n", counted("v%d,1\n", count))


@kind
def variables_with_alike_names(size):
    """The same with names that begin at one place; not of that size, as the search for them grows with the square, but of a hundredth."""
    names = alike_names(size // 700, lambda count: ["v%d" % n for n in range(count)], ["s"])
    design = b"module m(" + counted("input i%d,", len(names)) + b"output y); assign y = 1; endmodule\n"
    table = "".join("in,i%d,%s\n" % (n, name) for n, name in enumerate(names)).encode() + b"out,y,s\n"
    return sim(design, table, "".join("%s,1\n" % name for name in names).encode())


@kind
def inputs_of_64_phases(size):
    """Many inputs over 64 phases that turn over."""
    count = size // 140
    design = b"module m(" + counted("input i%d,", count) + b"output y); assign y = 1; endmodule\n"
    return sim(design, counted("in,i%d,0" + ",~" * 63 + "\n", count) + b"out,y" + b"," * 64 + b"s\n")


@kind
def overriding_in_64_phases(size):
    """Wires that are overridden, other ones in each phase."""
    count = size // 90
    design = b"module m(output y); assign y = 1;" + counted("wire n%d;", count) + b"endmodule\n"
    rows = "".join("over,n%d%s\n" % (n, "".join(",1" if k == n % 64 else "," for k in range(64))) for n in range(count))
    return sim(design, rows.encode() + b"out,y" + b"," * 64 + b"s\n")


# ---- goals

GOAL_TEXTS = {
    "goals_of_parentheses": (b"goal g { claim ", b"(", b""), "goals_of_braces": (b"goal g { claim ", b"{", b""),
    "goals_of_words": (b"", b"goal ", b""), "goals_of_marks": (b"goal g { claim ", b"1+", b"1; }"),
    "goals_of_a_name": (b"goal ", b"g", b" { claim s == (a & b); }"), "goals_of_hypotheses": (b"goal g { ", b"hyp a;", b"claim a; }"),
    "goals_of_claims": (b"goal g { hyp a; ", b"claim a;", b"}"), "goals_of_one_name": (b"", b"goal g{claim a;}", b""),
}
for name, (head, piece, tail) in GOAL_TEXTS.items():
    KINDS[name] = lambda size, head=head, piece=piece, tail=tail: prove(goals=often(piece, size, head, tail))


@kind
def goals(size):
    return prove(goals=numbered("goal g%d{claim a->a;}\n", size))


@kind
def goals_that_fail(size):
    return prove(goals=numbered("goal g%d{claim a;}\n", size))


@kind
def goals_of_samples(size):
    return prove(goals=numbered("goal g%d{claim s==(a&b);}\n", size))


@kind
def goals_with_alike_constants(size):
    design = b"module m(input[127:0]a, output logic[127:0]y); assign y = a; endmodule\n"
    return prove(design, b"in,a,a\nout,y,s\n", numbered(lambda n: "hyp a!=%s;\n" % alike_constant(n), size, b"goal g {", b"claim s==a;}"))


@kind
def goals_over_a_large_design(size):
    """Goals, over a design with as many nodes."""
    design = numbered("logic n%d;assign n%d=n%d^a;\n".replace("n%d^", "~"), size, b"module m(input a, b, output y); assign y = a & b;\n", b"endmodule\n")
    return prove(design, goals=numbered("goal g%d{claim s==(a&b);}\n", size))


# ---- simulation and proof of long designs

@kind
def chain(size):
    """A chain of inverters, which is simulated and proved."""
    count = size // 30
    body = counted("logic n%d;", count) + b"assign n0=a;" + b"".join(b"assign n%d=~n%d;" % (n, n - 1) for n in range(1, count))
    return prove(b"module m(input a, b, output y); assign y=n%d;" % (count - 1) + body + b"endmodule\n", goals=b"goal g { claim s == a; }\n")


@kind
def chain_simulated(size):
    case = chain(size)
    return sim(case.files["d.sv"], TABLE, b"a,1\nb,0\n")


@kind
def chain_of_statements(size):
    case = KINDS["statements_on_each_other"](size)
    return sim(case.files["d.sv"], b"in,a,1\nout,y,s\n")


@kind
def chain_of_statements_proved(size):
    case = KINDS["statements_on_each_other"](size)
    return prove(case.files["d.sv"], b"in,a,a\nout,y,s\n", b"goal g { claim s == a; }\n")


@kind
def many_drivers_proved(size):
    case = KINDS["drivers_of_one_net"](size)
    return prove(case.files["d.sv"], b"in,a,a\nout,y,s\n", b"goal g { claim s == a; }\n")
