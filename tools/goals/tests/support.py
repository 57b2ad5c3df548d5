"""What the tests share: the programs, and a folder of files with a place for what is kept."""

import os
import subprocess
import sys
import tempfile
import unittest
from dataclasses import dataclass
from pathlib import Path

TOP = Path(__file__).resolve().parents[3]
COMMAND = TOP / "svtv-goals"
STAND_IN = Path(__file__).resolve().with_name("stand_in.py")
FILES = ("d.sv", "t.csv", "g.txt")
# How long a call may take before a test fails, on a loaded machine.
PATIENCE = 600


def program() -> Path:
    """The program that is compared with: the one that SVTV names, or the one that ./svtv has built. Nothing is built here."""
    found = Path(os.environ.get("SVTV") or TOP / "crates/svtv_cli/out/svtv_cli").resolve()
    if not os.access(found, os.X_OK):
        sys.exit(f"no program {found}: SVTV names one, or ./svtv builds it")
    return found


@dataclass(frozen=True)
class Said:
    """What a command says."""

    status: int
    out: bytes
    err: bytes


class Room(unittest.TestCase):
    """A test in a folder of its own, in which `svtv-goals` runs with a program, and keeps what it keeps."""

    svtv = STAND_IN

    def setUp(self):
        room = tempfile.TemporaryDirectory(prefix="svtv-goals-test-")
        self.addCleanup(room.cleanup)
        self.folder = Path(room.name).resolve() / "here"
        self.folder.mkdir()
        self.log = self.folder / "log"
        self.environment = dict(os.environ, SVTV=str(self.svtv), XDG_CACHE_HOME=str(self.folder.parent / "a cache"), STAND_IN_LOG=str(self.log))

    def write(self, **files: str | bytes) -> None:
        """Files by their names, in which `_` stands for a dot."""
        for name, text in files.items():
            (self.folder / name.replace("_", ".")).write_bytes(text.encode() if isinstance(text, str) else text)

    def write_goals(self, *names: str) -> None:
        """A design, a table and goals of these names, for the stand-in."""
        self.write(d_sv="module m; endmodule\n", t_csv="out,y,s\n", g_txt="".join(f"goal {name} {{ claim s; }}\n" for name in names))

    def said(self, words, **more) -> Said:
        ran = subprocess.run(
            [str(word) for word in words], cwd=self.folder, env=self.environment, stdin=subprocess.DEVNULL, capture_output=True, timeout=PATIENCE, **more
        )
        return Said(ran.returncode, ran.stdout, ran.stderr)

    def goals(self, *words) -> Said:
        """What `svtv-goals` says."""
        return self.said([COMMAND, *words])

    def whole(self, *words) -> Said:
        """What `svtv prove` says."""
        return self.said([self.svtv, "prove", *words])

    def started(self, *words) -> subprocess.Popen:
        return subprocess.Popen(
            [COMMAND, *words], cwd=self.folder, env=self.environment, stdin=subprocess.DEVNULL, stdout=subprocess.PIPE, stderr=subprocess.PIPE
        )

    def kept(self) -> list[Path]:
        """The folders that are kept for a later call."""
        return sorted((self.folder.parent / "a cache/svtv-goals").glob("*"))

    def assert_same(self, words=FILES) -> Said:
        """Output, error stream and status are those of one call on the whole file, and nothing is kept."""
        wanted, found = self.whole(*words), self.goals(*words)
        self.assertEqual(found, wanted)
        self.assertEqual(self.kept(), [])
        return found
