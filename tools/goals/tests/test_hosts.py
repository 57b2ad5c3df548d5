"""More machines than one: this one twice, and this one by a login at the loopback address."""

import os
import shutil
import subprocess
import tempfile
import time
import unittest
from pathlib import Path

from goals import hosts
from goals.tests.support import FILES, Room, program
from goals.tests.test_same import BOUND, DESIGN, TABLE, WRITTEN

SERVER = """ListenAddress 127.0.0.1
ListenAddress ::1
Port {port}
HostKey {folder}/host
AuthorizedKeysFile {folder}/user.pub
PidFile none
StrictModes no
UsePAM no
"""
LOGIN = """Host *
  Port {port}
  IdentityFile {folder}/user
  IdentitiesOnly yes
  StrictHostKeyChecking no
  UserKnownHostsFile {folder}/known
  LogLevel ERROR
"""
PORT = 20000 + os.getpid() % 20000


class Lists(unittest.TestCase):
    def hosts_of(self, text: str) -> list[hosts.Host]:
        file = Path(self.enterContext(tempfile.TemporaryDirectory()), "hosts")
        file.write_text(text)
        return hosts.hosts_of(str(file))

    def test_lines(self):
        found = self.hosts_of("# all\n:\n\n  4/user@host # fast\n::1\n12/:\n")
        self.assertEqual([(it.name, it.jobs) for it in found], [(":", None), ("user@host", 4), ("::1", None), (":", 12)])

    def test_no_lines(self):
        for text in ("", "# none\n", "4/\n", "0/host\n", "a b\n", "-oProxyCommand=x\n", "x/host\n", "4/4/host\n", "a,b\n"):
            with self.subTest(text), self.assertRaises(hosts.BadHosts):
                self.hosts_of(text)


class Here(Room):
    svtv = program()

    def setUp(self):
        super().setUp()
        self.write(d_sv=DESIGN, t_csv=TABLE, g_txt=BOUND + WRITTEN)

    def test_twice(self):
        """This machine may be named more than once, and its jobs are added."""
        self.write(hosts=":\n2/:\n")
        said, whole = self.goals(*FILES, "--hosts", "hosts"), self.whole(*FILES)
        self.assertEqual(said, whole)
        self.assertEqual(self.kept(), [])

    def test_no_login(self):
        """A machine that does not answer is told, the others decide its goals, and the status tells it."""
        self.write(hosts="1/:\nno-host.invalid\n")
        said = self.goals(*FILES, "--hosts", "hosts")
        self.assertEqual((said.status, said.out), (7, self.whole(*FILES).out))
        self.assertRegex(said.err, rb"^svtv-goals: no-host.invalid does not answer: .*\n$")

    def test_no_machine(self):
        self.write(hosts="no-host.invalid\n2/no-host.invalid\n")
        said = self.goals(*FILES, "--hosts", "hosts")
        self.assertEqual((said.status, said.out), (7, b""))
        self.assertRegex(said.err, rb"^svtv-goals: no-host.invalid does not answer: .*\nsvtv-goals: no machine works\n$")


class There(Room):
    """Jobs by logins. The server and its keys are made for the tests, and `ssh` on the path is one that finds them."""

    svtv = program()
    logins: Path

    @classmethod
    def setUpClass(cls):
        server = shutil.which("sshd", path=f"{os.environ['PATH']}:/usr/sbin:/sbin")
        if server is None or not shutil.which("ssh-keygen"):
            raise unittest.SkipTest("no ssh server to be had")
        room = tempfile.TemporaryDirectory(prefix="svtv-goals-ssh-")
        cls.addClassCleanup(room.cleanup)
        cls.logins = folder = Path(room.name).resolve()
        for key in ("host", "user"):
            subprocess.run(["ssh-keygen", "-q", "-t", "ed25519", "-N", "", "-f", folder / key], check=True)
        (folder / "server").write_text(SERVER.format(port=PORT, folder=folder))
        (folder / "login").write_text(LOGIN.format(port=PORT, folder=folder))
        (folder / "ssh").write_text(f'#!/bin/sh\nexec {shutil.which("ssh")} -F {folder}/login "$@"\n')
        (folder / "ssh").chmod(0o755)
        log = folder / "log"
        running = subprocess.Popen([server, "-D", "-f", folder / "server", "-E", log], stdin=subprocess.DEVNULL)
        cls.addClassCleanup(lambda: (running.kill(), running.wait()))
        for _ in range(100):
            if subprocess.run([folder / "ssh", "127.0.0.1", "true"], capture_output=True).returncode == 0:
                return
            time.sleep(0.1)
        raise unittest.SkipTest(f"no ssh server to be had: {log.read_text() if log.exists() else ''}")

    def setUp(self):
        super().setUp()
        self.environment["PATH"] = f"{self.logins}:{os.environ['PATH']}"
        self.write(d_sv=f'`include "../ports.svh"\n{DESIGN}', t_csv=TABLE, g_txt=BOUND + WRITTEN)
        (self.folder.parent / "ports.svh").write_text("// nothing\n")

    def left(self) -> list[str]:
        """What stands of this command where a login begins."""
        ran = subprocess.run([self.logins / "ssh", "127.0.0.1", "ls -a; pgrep -f '[.]svtv-goals-[0-9a-f]*/job.sh'"], capture_output=True, text=True)
        return [line for line in ran.stdout.splitlines() if "svtv-goals" in line or line.isdigit()]

    def test_logins(self):
        """All goals on two other machines, which share a home folder, and on this one."""
        for text in ("2/127.0.0.1\n", "1/127.0.0.1\n1/::1\n1/:\n"):
            with self.subTest(text):
                self.write(hosts=text)
                self.assertEqual(self.goals(*FILES, "--hosts", "hosts"), self.whole(*FILES))
                self.assertEqual((self.kept(), self.left()), ([], []))

    def test_hosts_of_times(self):
        self.write(hosts="1/127.0.0.1\n")
        said = self.goals(*FILES, "--hosts", "hosts", "--times")
        self.assertEqual({line.split()[-1] for line in said.err.decode().splitlines()[1:]}, {"127.0.0.1"})

    def test_interrupted(self):
        """Jobs on other machines end with the call, and their folders go."""
        self.environment["SVTV"] = str(Room.svtv)
        self.write_goals("late_a", "late_b", "late_c")
        self.write(hosts="2/127.0.0.1\n")
        running = self.started(*FILES, "--hosts", "hosts")
        for _ in range(600):
            if len(self.left()) > 1:
                break
            time.sleep(0.1)
        self.assertGreater(len(self.left()), 1)
        running.terminate()
        _, err = running.communicate(timeout=60)
        self.assertEqual((running.returncode, err.count(b"interrupted")), (143, 1))
        for _ in range(100):
            if not self.left():
                break
            time.sleep(0.1)
        self.assertEqual(self.left(), [])

    def test_a_machine_that_goes(self):
        """Where a machine is out of reach after all, its goals go to another."""
        tried = self.folder.parent / "tried"
        (self.folder / "bin").mkdir()
        script = f'#!/bin/sh\ncase "$*" in *"tar xzf"*|*"rm -rf"*) ;; *::1*) echo >>{tried}; echo gone >&2; exit 255;; esac\nexec {self.logins}/ssh "$@"\n'
        (self.folder / "bin/ssh").write_text(script)
        (self.folder / "bin/ssh").chmod(0o755)
        self.environment["PATH"] = f"{self.folder}/bin:{os.environ['PATH']}"
        self.write(hosts="1/127.0.0.1\n1/::1\n")
        self.assertEqual(self.goals(*FILES, "--hosts", "hosts"), self.whole(*FILES))
        self.assertTrue(tried.exists())
        tried.unlink()
        self.write(hosts="1/::1\n")
        said = self.goals(*FILES, "--hosts", "hosts", "--only", "product", "two")
        self.assertEqual((said.status, said.out), (7, b""))
        self.assertEqual(said.err, b"product: the job ended with 255 on ::1: gone\ntwo: the job ended with 255 on ::1: gone\n")

    def test_a_program_that_does_not_run_there(self):
        """What runs here only is told."""
        (self.folder / "svtv").write_text(f'#!/bin/sh\n[ -n "$SSH_CONNECTION" ] && exit 3\nexec {self.svtv} "$@"\n')
        (self.folder / "svtv").chmod(0o755)
        self.environment["SVTV"] = str(self.folder / "svtv")
        self.environment.pop("SSH_CONNECTION", None)
        self.write(hosts="1/127.0.0.1\n1/:\n")
        said = self.goals(*FILES, "--hosts", "hosts")
        self.assertEqual((said.status, said.out), (7, self.whole(*FILES).out))
        self.assertEqual(said.err, b"svtv-goals: 127.0.0.1 does not run the program\n")


if __name__ == "__main__":
    unittest.main()
