"""What `svtv-goals` prints is what `svtv prove` prints, byte for byte, and so is the status."""

import re
import sys
import unittest

from goals.tests.support import FILES, TOP, Room, program

sys.path.insert(0, str(TOP / "tools"))

import run_cases

DESIGN = """module m(input logic clk, input logic [7:0] a, b, c, output logic [7:0] y, z);
  assign y = (a * b) + c;
  assign z = (a + b) ^ (b * c);
endmodule
"""
TABLE = "in,a,a\nin,b,b\nin,c,c\nout,y,s\nout,z,t\n"
# The choice that is found for the second goal is another one where the first is not there.
BOUND = """goal product { hyp ((b * c) ^ (b - b)) != 8'd0; claim ((s ^ c) & (b ^ c)) != ((t | t) - (a ^ c)); }
goal bound { hyp ((b & b) + (b | a)) != 8'd0; claim ((c | 8'd52) - (8'd169 + s)) != ((t + b) & (b - a)); }
"""
REPORTS = re.compile(rb"^\w+: ", re.MULTILINE)
# What no case has.
BROKEN = {5: "`ifdef A\n", 7: "`define A `A\n`A\n"}
OF_VALUES = range(35, 39)
OF_CERTIFICATES = range(41, 45)
WRITTEN = """// goal none { claim s; }
goal one{hyp{a,b}=={b,a};claim{2{s}}=={s,s};/* } goal none { claim s;
*/claim s == (a * a) + c // ; }
;}goal two
{ claim s[3:0] == {4{t[0]}}; }
/* goal three { claim s == t; } */ goal hyp { hyp a == 8'h01; claim s == b + c; claim t == s; }
\tgoal claim { claim s == a * b + c; } // the end { ; }"""


def two_hundred():
    """Goals that are proved, fail and are vacuous, in turn."""
    for number in range(50):
        yield f"goal sum_{number} {{ hyp a == 8'd{number}; claim s == b * a + c; }}"
        yield f"goal low_{number} {{ hyp b > 8'd{number}; claim s[3:0] != t[3:0]; }}"
        yield f"goal none_{number} {{ hyp c < 8'd{number}; hyp c > 8'd{number}; claim s == t; }}"
        yield f"goal other_{number} {{ claim (s ^ t) != a + 8'd{number}; claim s == c + b * a; }}"


class Examples(Room):
    svtv = program()

    def test_examples(self):
        """All tables of all examples, each with its goals; a product of 8 bits takes minutes without a budget."""
        count = 0
        for goals in sorted((TOP / "examples").glob("*/*.txt")):
            table = goals.with_name(re.sub("^g", "t", goals.stem) + ".csv")
            words = [goals.with_name("d.sv"), table, goals] + ["--budget", "1"] * (goals.parent.name == "product")
            with self.subTest(words):
                self.assert_same(words)
            count += 1
        self.assertGreaterEqual(count, 11)


class Cases(Room):
    svtv = program()

    def test_proofs(self):
        """All proofs of the cases that have two goals or more."""
        count = 0
        for file, case in self.cases():
            if case["words"][:1] == ["prove"] and case["status"] in ("AllProved", "NotAll") and len(REPORTS.findall(case["out"])) > 1:
                count += 1
                with self.subTest(f"{file}: {case['name']}"):
                    self.in_case(case, count, case["words"][1:])
        self.assertGreaterEqual(count, 36)

    def test_refusals(self):
        """The first case of each refusal, also those of other commands: a design or a table is refused in a proof as it is there."""
        numbers = set()
        for file, case in self.cases():
            number = re.search(rb": E([0-9]+) ", case["err"])
            if case["status"] != "Refused" or int(number[1]) in (*numbers, *OF_VALUES, *OF_CERTIFICATES):
                continue
            numbers.add(int(number[1]))
            words = case["words"][1:]
            with self.subTest(f"{file}: {case['name']}"):
                case["files"] = {"t.csv": b"out,y,s\n", "g.txt": b"goal g { claim s; }\n"} | case["files"]
                options = words[words.index("--top") :][:2] if "--top" in words else []
                said = self.in_case(case, number[1].decode(), [*(words if case["words"][0] == "prove" else [words[0], "t.csv", "g.txt", *options])])
                self.assertEqual((said.status, said.out), (3, b""))
        for number, design in BROKEN.items():
            with self.subTest(number):
                self.write(d_sv=design, t_csv=TABLE, g_txt=BOUND)
                self.assertIn(b": E%d " % number, self.assert_same().err)
        self.assertEqual(numbers | BROKEN.keys(), {*range(1, 35), 39})

    def cases(self):
        for file in sorted((TOP / "crates/svtv_cases/data").glob("*.cases")):
            for case in run_cases.cases(file):
                if not any(case["faults"].values()):
                    yield file.name, case

    def in_case(self, case, name, words):
        within, self.folder = self.folder, self.folder / str(name)
        try:
            for file, text in case["files"].items():
                place = self.folder / file
                place.parent.mkdir(parents=True, exist_ok=True)
                place.write_bytes(text)
            return self.assert_same(words)
        finally:
            self.folder = within


class Written(Room):
    svtv = program()

    def setUp(self):
        super().setUp()
        self.write(d_sv=DESIGN, t_csv=TABLE)

    def test_two_hundred(self):
        self.write(g_txt="\n".join(two_hundred()))
        said = self.assert_same()
        self.assertEqual(len(REPORTS.findall(said.out)), 200)

    def test_choice_that_hangs_on_other_goals(self):
        """The choice of a failure is the one of the whole file, also where the goal alone would have another."""
        self.write(g_txt=BOUND, alone_txt=BOUND.splitlines()[1])
        whole, alone = self.whole(*FILES), self.whole("d.sv", "t.csv", "alone.txt")
        self.assertNotIn(alone.out, whole.out)
        self.assert_same()

    def test_budgets(self):
        """Where a budget ends, too, is as in the whole file."""
        laws = ("b * c + b * a", "a * b + c * b", "b * (a + c)", "(c + a) * b", "(b + 8'd1) * (a + c) - a - c")
        goals = "".join(f"goal law_{number} {{ hyp b < 8'd{number + 30}; claim t == {law}; }}\n" for number, law in enumerate(laws))
        self.write(d_sv=DESIGN.replace("(a + b) ^ (b * c)", "(a + c) * b"), g_txt=goals + BOUND)
        for budget in ("1", "50", "300"):
            with self.subTest(budget):
                self.assertIn(b": undecided after", self.assert_same((*FILES, f"--budget={budget}")).out)

    def test_comments_and_braces(self):
        self.write(g_txt=WRITTEN)
        self.assertEqual(re.findall(rb"^\w+", self.assert_same().out, re.MULTILINE), [b"one", b"two", b"hyp", b"claim"])

    def test_line_ends(self):
        self.write(g_txt=WRITTEN.replace("\n", "\r\n"))
        self.assert_same()

    def test_names_and_options(self):
        """Options are handed on, and names that begin with a stroke are files behind `--`."""
        self.write(g_txt=WRITTEN)
        (self.folder / "-t").write_text(TABLE)
        (self.folder / "d.sv").write_text(DESIGN + "module n; endmodule\n")
        self.assert_same(("--top", "m", "--", "d.sv", "-t", "g.txt"))
        self.assertEqual(self.goals("d.sv", "--top=m", "t.csv", "--jobs=2", "g.txt").out, self.whole(*FILES, "--top=m").out)
        self.assertEqual(self.assert_same().status, 3)

    def test_one_goal(self):
        self.write(g_txt=BOUND.splitlines()[0])
        self.assert_same()

    def test_only(self):
        """Chosen goals are printed in the order of the file, with the choices that the whole file gives, and decide the status."""
        self.write(g_txt=BOUND + WRITTEN)
        whole = self.whole(*FILES).out.splitlines(keepends=True)
        said = self.goals(*FILES, "--only", "claim", "bound", "claim")
        at = whole.index(b"bound: failed\n")
        self.assertEqual(said.out.splitlines(keepends=True), [*whole[at : at + 6], b"claim: proved\n"])
        self.assertEqual((said.status, said.err), (1, b""))
        self.assertEqual(self.goals(*FILES, "--only", "claim").status, 0)
        self.assertEqual(self.kept(), [])

    def test_only_unknown(self):
        self.write(g_txt=WRITTEN)
        said = self.goals(*FILES, "--only", "one", "none", "three")
        self.assertEqual((said.status, said.out, said.err), (2, b"", b"svtv-goals: g.txt has no goal none and no goal three\n"))

    def test_only_in_a_refused_file(self):
        """A file is refused as a whole, whichever goals are chosen."""
        self.write(g_txt=WRITTEN + "\ngoal late { claim nothing; }")
        said = self.goals(*FILES, "--only", "claim")
        self.assertEqual((said.status, said.out, said.err), (3, b"", b"g.txt:8:19: E12 UnknownName\n"))


if __name__ == "__main__":
    unittest.main()
