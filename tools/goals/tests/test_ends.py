"""Work that is interrupted and gone on with, and goals that end without a verdict. A stand-in plays svtv, but for one test."""

import os
import pty
import signal
import subprocess
import time
import unittest
from pathlib import Path

from goals.tests.support import COMMAND, FILES, PATIENCE, STAND_IN, TOP, Room, program


def wait_for(is_so) -> None:
    """Waits until something is so."""
    end = time.monotonic() + PATIENCE
    while not is_so():
        if time.monotonic() > end:
            raise AssertionError("it does not come to that")
        time.sleep(0.05)


class Interrupted(Room):
    def begun(self) -> list[str]:
        """The goals whose turn has come, in all calls so far."""
        return self.log.read_text().split() if self.log.exists() else []

    def interrupted(self, number: signal.Signals, count: int) -> int:
        """Ends a call by a signal when so many goals were begun; says how many it has decided."""
        names = [f"slow_{it}" for it in range(12)]
        self.write_goals(*names)
        running = self.started(*FILES, "--jobs", "2")
        wait_for(lambda: len(self.begun()) >= count)
        running.send_signal(number)
        out, err = running.communicate(timeout=PATIENCE)
        self.assertEqual((running.returncode, out), (128 + number, b""))
        told = err.decode().split()
        self.assertEqual(" ".join(told[:2] + told[3:7]), "svtv-goals: interrupted; of 12 goals are")
        self.assertEqual([file.name for folder in self.kept() for file in folder.glob(".svtv-goals-*")], [])
        return int(told[2])

    def test_signals(self):
        """What was decided before a signal is not decided again, and the rest is."""
        for number in (signal.SIGINT, signal.SIGTERM, signal.SIGHUP):
            with self.subTest(number):
                self.log.unlink(missing_ok=True)
                done = self.interrupted(number, 6)
                self.assertGreaterEqual(done, 2)
                before = len(self.begun())
                said = self.goals(*FILES)
                self.assertEqual((said.status, said.err), (0, b""))
                self.assertEqual(said.out.decode(), "".join(f"slow_{it}: proved\n" for it in range(12)))
                self.assertEqual(len(self.begun()) - before, 12 - done)
                self.assertEqual(set(self.begun()), {f"slow_{it}" for it in range(12)})
                self.assertEqual(self.kept(), [])

    def test_twice(self):
        """It may be interrupted again and again."""
        done = [self.interrupted(signal.SIGTERM, count) for count in (3, 7, 11)]
        self.assertEqual(done, sorted(done))
        before = len(self.begun())
        self.assertEqual(self.goals(*FILES).status, 0)
        self.assertEqual(len(self.begun()) - before, 12 - done[-1])

    def test_other_contents(self):
        """Where a file has changed since, nothing is taken over."""
        self.interrupted(signal.SIGTERM, 6)
        self.write(t_csv="out,y,s\n\n")
        before = len(self.begun())
        self.assertEqual(self.goals(*FILES).status, 0)
        self.assertEqual(len(self.begun()) - before, 12)
        self.assertEqual(len(self.kept()), 1)

    def test_killed_outright(self):
        """A call that had no time to end leaves what it has decided."""
        self.write_goals(*[f"slow_{it}" for it in range(12)])
        running = self.started(*FILES, "--jobs", "2")
        wait_for(lambda: len(self.begun()) >= 7)
        running.kill()
        running.communicate()
        wait_for(lambda: not self.at_work())
        before = len(set(self.begun()))
        self.assertEqual(self.goals(*FILES).status, 0)
        self.assertLess(before, 12)
        self.assertLess(len(self.begun()), 20)

    def at_work(self) -> bool:
        """Whether some process of this test is left."""
        for words in Path("/proc").glob("[0-9]*/cmdline"):
            try:
                if str(self.folder.parent).encode() in words.read_bytes():
                    return True
            except OSError:
                continue
        return False

    def test_nothing_goes_on(self):
        """No job is left behind a signal."""
        self.write_goals("late_a", "late_b", "late_c")
        running = self.started(*FILES)
        wait_for(lambda: len(self.begun()) >= 2)
        running.send_signal(signal.SIGTERM)
        running.communicate(timeout=30)
        wait_for(lambda: not self.at_work())

    def test_two_calls_at_once(self):
        """A second call of the same words leaves the first alone."""
        self.write_goals(*[f"slow_{it}" for it in range(6)])
        first = self.started(*FILES)
        wait_for(self.begun)
        second = self.goals(*FILES)
        out, _ = first.communicate(timeout=PATIENCE)
        self.assertEqual((second.out, second.status), (out, 0))
        self.assertEqual(self.kept(), [])


class RealGoals(Room):
    svtv = program()

    def test_interrupted_half_way(self):
        """Goals of about a second each, by svtv itself."""
        written = "import pathlib, many_goals; many_goals.write_files(pathlib.Path('.'), 8)"
        subprocess.run(["python3", "-c", written], cwd=self.folder, env=dict(os.environ, PYTHONPATH=str(TOP / "bench")), check=True)
        running = self.started(*FILES, "--jobs", "2")
        wait_for(lambda: any(b"\n" in file.read_bytes() for file in self.folder.parent.glob("*/*/*/records")))
        running.send_signal(signal.SIGINT)
        out, err = running.communicate(timeout=PATIENCE)
        self.assertEqual((running.returncode, out), (130, b""))
        self.assertRegex(err, rb"^svtv-goals: interrupted; [1-7] of 8 goals")
        self.assert_same()


class WithoutVerdict(Room):
    def test_each_kind(self):
        """A goal that ends without a verdict is told, and the others go on."""
        self.write_goals("a", "late_b", "memory_c", "failed_d", "killed_e", "odd_f", "g")
        said = self.goals(*FILES, "--timeout", "1.5")
        self.assertEqual((said.status, said.out), (7, b"a: proved\nfailed_d: failed\n  sample s = 1'bx\ng: proved\n"))
        lines = [
            "late_b: timed out after 1.5 s",
            "memory_c: out of memory",
            "killed_e: killed by signal 9",
            "odd_f: svtv ended with 9: what is this",
        ]
        self.assertEqual(said.err.decode().splitlines(), lines)
        self.assertEqual(len(self.kept()), 1)

    def test_time_limit_of_svtv(self):
        """A limit that no goal passes changes nothing."""
        self.write_goals("slow_a", "failed_b")
        self.assertEqual(self.goals(*FILES, "--timeout", "600"), self.goals(*FILES))

    def test_late_goals_are_tried_again(self):
        self.write_goals("a", "slow_b")
        first = self.goals(*FILES, "--timeout", "0.2")
        self.assertEqual((first.status, first.out, first.err), (7, b"a: proved\n", b"slow_b: timed out after 0.2 s\n"))
        self.assertEqual(self.goals(*FILES).out, b"a: proved\nslow_b: proved\n")
        self.assertEqual(self.log.read_text().split().count("a"), 1)
        self.assertEqual(self.kept(), [])

    def test_refused_behind_goals(self):
        """What only a decided goal shows is told as svtv tells it of the whole file, and nothing is printed of other goals."""
        self.write_goals("a", "slow_b", "wide_c")
        said = self.goals(*FILES)
        self.assertEqual((said.status, said.out, said.err), (3, b"", b"d.sv:1:1: E39 LoopTooWide 2000\n"))
        self.assertEqual(self.kept(), [])

    def test_killed_whole(self):
        """Where the whole file is handed over and svtv is killed, that is told."""
        self.write(d_sv="", t_csv="", g_txt="goal killed_a { claim s; } ;")
        said = self.goals(*FILES)
        self.assertEqual((said.status, said.out), (7, b""))
        self.assertRegex(said.err, rb"killed by signal 9")

    def test_write_fault(self):
        self.write_goals("a", "b")
        with open("/dev/full", "wb") as full:
            ran = subprocess.run([COMMAND, *FILES], cwd=self.folder, env=self.environment, stdout=full, stderr=subprocess.PIPE, timeout=PATIENCE)
        self.assertEqual((ran.returncode, ran.stderr), (5, b""))

    def test_files_that_change(self):
        """All goals are decided over the files as they were read first."""
        self.write_goals(*[f"slow_{it}" for it in range(8)])
        running = self.started(*FILES, "--jobs", "1")
        wait_for(self.log.exists)
        for name in FILES:
            (self.folder / name).unlink()
        out, err = running.communicate(timeout=PATIENCE)
        self.assertEqual((running.returncode, err, out.count(b": proved\n")), (0, b"", 8))


class Shown(Room):
    def test_times(self):
        self.write_goals("a", "memory_b", "killed_c")
        said = self.goals(*FILES, "--times")
        lines = said.err.decode().splitlines()[2:]
        self.assertEqual([line.split()[0] for line in lines], ["goal", "a", "memory_b", "killed_c"])
        self.assertEqual(lines[0].split(), ["goal", "seconds", "megabytes"])
        for line in lines[1:]:
            seconds, megabytes = line.split()[1:]
            self.assertLess(float(seconds), PATIENCE)
            self.assertGreater(float(megabytes), 1)

    def test_bar(self):
        """A bar is drawn on a terminal, and is gone at the end."""
        self.write_goals(*[f"slow_{it}" for it in range(6)], "failed_g")
        ours, theirs = pty.openpty()
        running = subprocess.Popen([COMMAND, *FILES, "--jobs", "2"], cwd=self.folder, env=self.environment, stdout=subprocess.DEVNULL, stderr=theirs)
        os.close(theirs)
        seen = b""
        try:
            while piece := os.read(ours, 4096):
                seen += piece
        except OSError:
            pass
        os.close(ours)
        self.assertEqual(running.wait(PATIENCE), 1)
        self.assertRegex(seen.decode(), r"\r\[#+-+\] [1-6] of 7 goals, [01] not proved, about \d+:\d\d left\x1b\[K")
        self.assertTrue(seen.endswith(b"\r\x1b[K"))

    def test_no_bar(self):
        self.write_goals("slow_a", "slow_b")
        self.assertEqual(self.goals(*FILES).err, b"")


class Missing(Room):
    def test_no_program(self):
        self.write_goals("a", "b")
        self.environment["SVTV"] = "/no/svtv"
        said = self.goals(*FILES)
        self.assertEqual((said.status, said.out, said.err), (7, b"", b"svtv-goals: no program /no/svtv\n"))

    def path_with(self, parallel: str | None) -> None:
        """A path on which all that is needed is found, but parallel is this script, or is not there."""
        folder = self.folder.parent / "bin"
        folder.mkdir()
        for name in ("env", "python3", "sh", "perl"):
            found = next(Path(it) / name for it in os.environ["PATH"].split(":") if (Path(it) / name).exists())
            (folder / name).symlink_to(found)
        if parallel is not None:
            (folder / "parallel").write_text(parallel)
            (folder / "parallel").chmod(0o755)
        self.environment["PATH"] = str(folder)

    def test_no_parallel(self):
        self.write_goals("a", "b")
        self.path_with(None)
        said = self.goals(*FILES)
        self.assertEqual((said.status, said.out, said.err), (7, b"", b"svtv-goals: no program parallel (Debian's package parallel)\n"))
        self.assertEqual(self.kept(), [])

    def test_another_parallel(self):
        self.write_goals("a", "b")
        self.path_with("#!/bin/sh\necho 'parallel [OPTIONS] command -- arguments' >&2\nexit 1\n")
        said = self.goals(*FILES)
        self.assertEqual((said.status, said.out), (7, b""))
        self.assertRegex(said.err, rb"is not GNU parallel")

    def test_parallel_that_does_nothing(self):
        self.write_goals("a", "b")
        self.path_with("#!/bin/sh\ntest \"$1\" = --version && echo GNU parallel || echo no room >&2\n")
        said = self.goals(*FILES)
        self.assertEqual((said.status, said.out), (7, b""))
        self.assertEqual(said.err, b"a: the job was not run: no room\nb: the job was not run: no room\n")

    def test_stand_in(self):
        """The stand-in says what these tests take it to say."""
        self.write_goals("a", "a")
        said = self.said([STAND_IN, "prove", *FILES])
        self.assertEqual((said.status, said.err), (3, b"g.txt:2:6: E34 GoalTwice\n"))


if __name__ == "__main__":
    unittest.main()
