"""How files of goals are cut."""

import unittest

from goals import text

PLAIN = b"""goal first { hyp en == 2'b01; claim s == a; }
goal second { claim {a, b} == {2{c}}; claim (s) ; }
"""
ODD = b"""// goal none { claim a; }
/* goal none { claim a;
} */ goal goal{hyp/* ; } */hyp == claim;// } ;
claim {a,{4{b}}}=="};{"; /* \xc3\xa9 ** / */ }goal hyp {claim goal;}\t/**/
"""


class Cut(unittest.TestCase):
    def names(self, written):
        return [goal.name for goal in text.cut(written)]

    def test_names(self):
        self.assertEqual(self.names(PLAIN), ["first", "second"])
        self.assertEqual(self.names(ODD), ["goal", "hyp"])

    def test_ends(self):
        pieces = [ODD[goal.start : goal.end] for goal in text.cut(ODD)]
        self.assertTrue(pieces[0].startswith(b"goal goal{hyp/*"))
        self.assertTrue(pieces[0].endswith(b"** / */ }"))
        self.assertEqual(pieces[1], b"goal hyp {claim goal;}")

    def test_expressions(self):
        pieces = [[ODD[start:end] for start, end in goal.expressions] for goal in text.cut(ODD)]
        self.assertEqual(pieces, [[b"/* ; } */hyp == claim;", b' {a,{4{b}}}=="};{";'], [b" goal;"]])

    def test_no_goals(self):
        for written in (
            b"",
            b"// goal g { claim a; }",
            b"goal",
            b"goal g",
            b"goal 8 { claim a; }",
            b"goal g claim a;",
            b"goal g { claim a; ",
            b"goal g { claim a }",
            b"goal g { assume a; }",
            b"goal g { claim a; } }",
            b"gaol g { claim a; }",
            b"goal g { claim a; } /* ",
            b'goal g { claim "a; }\n',
            b"goal g { claim \xc3\xa9; }",
            b"goal g { claim a; }\x00",
        ):
            with self.subTest(written), self.assertRaises(text.NoGoals):
                text.cut(written)


class Parts(unittest.TestCase):
    def test_places_stay(self):
        """A blanked text has the goal that is kept where it was, all else that is no goal, and each line end."""
        for written in (PLAIN, ODD, ODD.replace(b"\n", b"\r\n")):
            goals = text.cut(written)
            for kept, goal in enumerate(goals):
                made = text.blanked(written, goals, kept)
                self.assertEqual(len(made), len(written))
                self.assertEqual(made[goal.start : goal.end], written[goal.start : goal.end])
                self.assertEqual([at for at, byte in enumerate(made) if byte in b"\r\n"], [at for at, byte in enumerate(written) if byte in b"\r\n"])
                self.assertEqual([it.name for it in text.cut(made)], [goal.name])
                others = [other for other in goals if other is not goal]
                self.assertTrue(all(not made[it.start : it.end].strip() for it in others))
                outside = [at for at in range(len(written)) if not any(it.start <= at < it.end for it in others)]
                self.assertEqual([made[at] for at in outside], [written[at] for at in outside])

    def test_folded(self):
        """A folded text has the goal that is kept, and the expressions of all goals in their order."""
        written = PLAIN + b"goal third { hyp a // }\n; claim b; }"
        goals = text.cut(written)
        wanted = [written[start:end] for goal in goals for start, end in goal.expressions]
        for kept, goal in enumerate(goals):
            made = text.folded(written, goals, kept)
            found = text.cut(made)
            shown = [*goals[: min(kept, 1)], goal, *goals[kept + 1 : kept + 2]]
            self.assertEqual([it.name for it in found], [it.name for it in shown])
            pieces = [made[start:end] for it in found for start, end in it.expressions]
            self.assertEqual([piece for piece in pieces if piece != b" 1'b0;"], wanted)
            self.assertIn(written[goal.start : goal.end], made)

    def test_report(self):
        printed = b"a: proved\nab: failed\n  var a = 1'b0\n  sample b: x\nb: vacuous\n"
        found = text.reports(printed)
        self.assertEqual(found, {"a": b"a: proved\n", "ab": b"ab: failed\n  var a = 1'b0\n  sample b: x\n", "b": b"b: vacuous\n"})
        self.assertEqual([name for name, report in found.items() if text.is_proved(name, report)], ["a"])
