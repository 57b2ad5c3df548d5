"""The files of a design, handed along."""

import subprocess
import tempfile
import unittest
from pathlib import Path

from goals import files
from goals.program import Missing, find
from goals.tests.support import COMMAND, FILES, PATIENCE, Room, program

GOALS = "goal both { claim s == (a & b); }\ngoal either { claim s == (a | b); }\n"
TABLE = "in,a,a\nin,b,b\nout,y,s\n"


class Names(unittest.TestCase):
    def test_included(self):
        written = b"""`include "a"
// `include "b"
/* `include "c" */ `include /* x */ // y
 "d\\"e" `includes "f" "`include " `include "../g" ;
`ifdef NEVER
`include "h"
`endif `include nothing "i" /* `include "j"
"""
        self.assertEqual(list(files.included(written)), ["a", 'd\\"e', "../g", "h"])

    def test_heights(self):
        for name, height in (("a", 0), ("a/../b", 0), ("../b", 1), ("a/../../b", 1), ("./../x/../../b", 2), ("../../a/..", 2)):
            self.assertEqual(files.height(name), height, name)

    def test_laid_out(self):
        """Each name leads from the folder to its contents, and what two names share has to be the same."""
        with tempfile.TemporaryDirectory() as room:
            names = {"a": b"1", "./a": b"1", "../a": b"2", "b/../../c/d": b"3", "b/e": b"4", "../../f": b"5"}
            start = files.lay_out(names, Path(room) / "top")
            for name, text in names.items():
                self.assertEqual((start / name).read_bytes(), text)
            for broken in ({"a": b"1", "x/../a": b"2"}, {"a": b"1", "a/b": b"2"}, {"a/..": b"1"}):
                with self.assertRaises(files.Unreadable):
                    files.lay_out(broken, Path(room) / "other")

    def test_odd_files(self):
        """What is no plain file is left to svtv."""
        for name in ("/no/file", "/dev/zero", "/", "", "a\x00b"):
            with self.subTest(name), self.assertRaises(files.Unreadable):
                files.read(name)


class Programs(unittest.TestCase):
    """Where the program is looked for."""

    def setUp(self):
        self.top = Path(self.enterContext(tempfile.TemporaryDirectory())).resolve()
        self.built = self.top / "crates/svtv_cli/out/svtv_cli"

    def script(self, place: Path, text: str) -> Path:
        place.parent.mkdir(parents=True, exist_ok=True)
        place.write_text(f"#!/bin/sh\n{text}\n")
        place.chmod(0o755)
        return place

    def test_named(self):
        named = self.script(self.top / "bin/other", "true")
        self.assertEqual(find(self.top, {"SVTV": str(named)}), named)

    def test_beside(self):
        """Without a repository around it, `svtv` is the program."""
        beside = self.script(self.top / "svtv", "true")
        self.assertEqual(find(self.top, {}), beside)

    def test_built(self):
        """The script of the repository is called once, so that it builds, and then the program that it has built."""
        self.built.parent.mkdir(parents=True)
        self.script(self.top / "svtv", f"echo >>{self.top}/calls; cp {self.top}/made {self.built}")
        self.script(self.top / "made", "true")
        self.assertEqual(find(self.top, {}), self.built)
        self.assertEqual((self.top / "calls").read_text(), "\n")

    def test_not_built(self):
        self.built.parent.mkdir(parents=True)
        self.script(self.top / "svtv", "exit 70")
        with self.assertRaisesRegex(Missing, "could not be built"):
            find(self.top, {})

    def test_none(self):
        with self.assertRaisesRegex(Missing, "no program"):
            find(self.top, {})


class Included(Room):
    svtv = program()

    def setUp(self):
        super().setUp()
        self.write(t_csv=TABLE, g_txt=GOALS)
        for name in ("parts/ports.svh", "parts/body.svh", "../common.svh", "far.svh", "end.svh"):
            (self.folder / name).parent.mkdir(exist_ok=True)
        (self.folder / "parts/ports.svh").write_text("input logic a, b, output logic y\n")
        (self.folder / "parts/body.svh").write_text('`include "../common.svh"\nassign y = a `OP b;\n')
        (self.folder.parent / "common.svh").write_text("`ifndef OP\n`define OP &\n`endif\n")
        (self.folder / "far.svh").write_text("// nothing\n")

    def design(self, far: str = "") -> str:
        return f"""`ifdef NEVER
`include "no/such.svh"
`endif
{far}module m(
`include "parts/ports.svh"
);
`include "parts/../parts/body.svh"
endmodule
"""

    def test_names(self):
        """Names lead from the working directory, also above it, and what a skipped include names need not be there."""
        self.write(d_sv=self.design())
        said = self.assert_same()
        self.assertIn(b"both: proved\neither: failed\n", said.out)

    def test_folders_and_links(self):
        """The words, too, may have folders, and be links or absolute."""
        self.write(real_sv=self.design())
        (self.folder / "deep").mkdir()
        (self.folder / "deep/d.sv").symlink_to("../real.sv")
        self.assert_same(("deep/../deep/d.sv", self.folder / "t.csv", "../here/g.txt"))

    def test_links_that_lead_elsewhere(self):
        """Where two names of one place would have different contents there, the whole file is handed over."""
        (self.folder.parent / "else/inner").mkdir(parents=True)
        (self.folder / "link").symlink_to(self.folder.parent / "else/inner")
        (self.folder.parent / "else/op.svh").write_text("`define OP |\n")
        (self.folder / "op.svh").write_text("`undef OP\n")
        self.write(d_sv='`include "op.svh"\n`include "link/../op.svh"\n' + self.design())
        self.assertIn(b"either: proved", self.assert_same().out)

    def test_absolute_name(self):
        self.write(d_sv=self.design(f'`include "{self.folder}/far.svh"\n'))
        self.assert_same()

    def test_absolute_name_that_changes(self):
        """A file that is not handed along has to stay as it was."""
        self.write(d_sv=self.design(f'`include "{self.folder}/far.svh"\n'))
        changing = f'case "$*" in *.svtv-goals-*) echo "// x" >>{self.folder}/far.svh; esac'
        (self.folder / "svtv").write_text(f'#!/bin/sh\n{changing}\nexec {self.svtv} "$@"\n')
        (self.folder / "svtv").chmod(0o755)
        self.environment["SVTV"] = str(self.folder / "svtv")
        said = self.goals(*FILES)
        self.assertEqual((said.status, said.out), (7, b""))
        self.assertEqual(said.err.decode(), "".join(f"{name}: {self.folder}/far.svh is not on this machine as it was here\n" for name in ("both", "either")))

    def test_missing(self):
        self.write(d_sv=self.design())
        (self.folder.parent / "common.svh").unlink()
        said = self.assert_same()
        self.assertEqual((said.status, said.err), (4, b"parts/../parts/body.svh:1:1: read fault\n"))

    def test_pipes(self):
        """What can be read once alone is left to svtv."""
        self.write(d_sv=self.design())
        words = 'exec "$0" <(cat d.sv) <(cat t.csv) <(cat g.txt)'
        ran = subprocess.run(["bash", "-c", words, COMMAND], cwd=self.folder, env=self.environment, capture_output=True, timeout=PATIENCE)
        self.assertEqual((ran.returncode, ran.stdout), (1, self.whole(*FILES).out))

    def test_unreadable(self):
        for number, name in enumerate(FILES):
            with self.subTest(name):
                self.write(d_sv=self.design())
                words = [*FILES[:number], "none", *FILES[number + 1 :]]
                self.assertEqual(self.assert_same(words).err, b"none:1:1: read fault\n")

    def test_faults_of_words(self):
        self.write(d_sv=self.design())
        (self.folder / "hosts").write_text("4/:\n3 :\n")
        for words in (
            ["d.sv", "t.csv"],
            [*FILES, "more"],
            ["d.sv", "", "g.txt"],
            [*FILES, "--budget", "0"],
            [*FILES, "--budget", "10000001"],
            [*FILES, "--budget", "1", "--budget=1"],
            [*FILES, "--top", ""],
            [*FILES, "--top"],
            [*FILES, "--jobs", "0"],
            [*FILES, "--timeout", "-1"],
            [*FILES, "--timeout", "soon"],
            [*FILES, "--only"],
            [*FILES, "--hosts", "none"],
            [*FILES, "--hosts", "hosts"],
            [*FILES, "--hosts", "/dev/null"],
            [*FILES, "--to", "m"],
        ):
            with self.subTest(words):
                said = self.goals(*words)
                self.assertEqual((said.status, said.out), (2, b""))
                self.assertRegex(said.err, rb"^(usage: )?svtv-goals")


if __name__ == "__main__":
    unittest.main()
