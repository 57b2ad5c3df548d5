"""The jobs, run by GNU parallel: one for each goal, by its number."""

from __future__ import annotations

import os
import selectors
import shutil
import signal
import subprocess
import sys
from collections.abc import Iterator
from contextlib import AbstractContextManager
from pathlib import Path

from goals.hosts import SSH, Host
from goals.kept import Kept, Record
from goals.program import Missing

# How often a job is tried where there are other machines: the first may be out of reach by then.
TRIES = 3
PATIENCE = 10.0


def find_parallel() -> str:
    """GNU parallel; another program of that name does not do."""
    found = shutil.which("parallel")
    if found is None:
        raise Missing("no program parallel (Debian's package parallel)")
    told = subprocess.run([found, "--version"], stdin=subprocess.DEVNULL, capture_output=True).stdout
    if not told.startswith(b"GNU parallel"):
        raise Missing(f"{found} is not GNU parallel (Debian's package parallel)")
    return found


def login(host: Host) -> str:
    """A machine as parallel has it."""
    return f"{host.jobs}/:" if host.is_here else f"{host.jobs}/{' '.join(SSH)} {host.name}"


class Parallel(AbstractContextManager):
    """A run of parallel over goals by their numbers. Where the context is left before its end, it is ended with all its jobs.

    Jobs that are in the job log are passed over by their places in the list, so the list has to be that of the run which is gone on with.
    """

    def __init__(self, program: str, kept: Kept, hosts: list[Host], folder: str, numbers: list[int]):
        logins = [word for host in hosts for word in ("-S", login(host))]
        tries = ["--retries", str(TRIES)] if any(not host.is_here for host in hosts) else []
        words = [program, "--plain", "--joblog", str(kept.joblog), "--resume", *tries, *logins, "sh", f"{folder}/job.sh", "{}"]
        environment = dict(
            os.environ, PARALLEL_HOME=str(kept.folder / "parallel"), PARALLEL_SHELL="/bin/sh", SVTV_GOALS_PYTHON=sys.executable
        )
        self.complaints = kept.folder / "complaints"
        listed = kept.folder / "list"
        listed.write_text("".join(f"{number}\n" for number in numbers))
        with listed.open("rb") as given, self.complaints.open("wb") as errors:
            self._run = subprocess.Popen(
                words, cwd=kept.folder, env=environment, stdin=given, stdout=subprocess.PIPE, stderr=errors, start_new_session=True
            )
        assert self._run.stdout is not None
        self._output = self._run.stdout

    def records(self) -> Iterator[Record | None]:
        """The records of goals as they end, and None now and then while none does."""
        output, rest = self._output.fileno(), b""
        with selectors.DefaultSelector() as waiting:
            waiting.register(output, selectors.EVENT_READ)
            while True:
                if not waiting.select(0.5):
                    yield None
                    continue
                piece = os.read(output, 1 << 16)
                *lines, rest = (rest + piece).split(b"\n")
                yield from filter(None, map(Record.of, lines))
                if not piece:
                    self._run.wait()
                    return

    def __exit__(self, *_: object) -> None:
        if self._run.poll() is None:
            self._run.send_signal(signal.SIGTERM)
            try:
                self._run.wait(PATIENCE)
            except subprocess.TimeoutExpired:
                os.killpg(self._run.pid, signal.SIGKILL)
                self._run.wait()
        self._output.close()

    def complaint(self) -> str:
        """The last line that parallel, or a login, said on the error stream."""
        lines = self.complaints.read_text(errors="replace").strip().splitlines()
        return lines[-1].strip() if lines else ""


def places_done(numbers: list[int], done: set[int]) -> set[int]:
    """The jobs that are done, by their places in the list, which count from 1."""
    return {place for place, number in enumerate(numbers, 1) if number in done}


def folder_name(token: str) -> str:
    """The name of a folder for a run's files, below the folder of the run, and on other machines below that of a login."""
    return f".svtv-goals-{token}"


def hand_folder(kept: Kept, token: str) -> Path:
    return kept.folder / folder_name(token)
