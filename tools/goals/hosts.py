"""The machines that work: those of a file, or this one alone."""

from __future__ import annotations

import os
import re
import subprocess
from collections.abc import Iterable
from concurrent.futures import ThreadPoolExecutor
from dataclasses import dataclass, replace
from pathlib import Path

HERE = ":"
SSH = ("ssh", "-o", "BatchMode=yes", "-o", "ConnectTimeout=10", "-o", "ServerAliveInterval=15")
# Unpacks what comes on the input beside the folder and then moves it there, so that it is whole at any time where machines share their
# home folders. One line, since some shells have no longer words.
TAKE = "; ".join(
    (
        "mkdir -m 700 {name}.$$ && tar xzf - -C {name}.$$ || exit 71",
        "mv {name}.$$ {name} && cd {name} || exit 71",
        'python3 -c "import sys; sys.exit(sys.version_info < (3, 8))" || exit 72',
        "command -v perl >/dev/null || exit 73",
        "./svtv >/dev/null 2>&1; test $? = 2 || exit 74",
        "getconf _NPROCESSORS_ONLN",
    )
)
WHY = {
    71: "takes no files",
    72: "has no python3 of 3.8 or later",
    73: "has no perl, which parallel needs there",
    74: "does not run the program",
}


class BadHosts(Exception):
    """The file of hosts is none; the text says why."""


@dataclass(frozen=True)
class Host:
    """A machine as ssh names it, or this one, and for how many jobs at once; None: for as many as it has processors."""

    name: str
    jobs: int | None

    @property
    def is_here(self) -> bool:
        return self.name == HERE


@dataclass(frozen=True)
class Reached:
    """A machine that has its files and works, or why it does not."""

    host: Host
    processors: int = 0
    why: str = ""
    answers: bool = True


def hosts_of(file: str) -> list[Host]:
    """The machines of a file: one a line, with a number of jobs and a stroke before it where it is not that of its processors."""
    try:
        lines = Path(file).read_text(errors="surrogateescape").splitlines()
    except OSError as error:
        raise BadHosts(f"{file}: {error.strerror}") from None
    found = []
    for number, line in enumerate(lines, 1):
        line = line.partition("#")[0].strip()
        told = re.fullmatch(r"(?:([1-9][0-9]{0,5})/)?([^-/\s,][^/\s,]*)", line)
        if line and told is None:
            raise BadHosts(f"{file}:{number}: no host")
        if told is not None:
            found.append(Host(told[2], int(told[1]) if told[1] else None))
    if not found:
        raise BadHosts(f"{file} names no host")
    return found


def last_line(said: bytes) -> str:
    lines = said.decode(errors="replace").strip().splitlines()
    return f": {lines[-1].strip()}" if lines else ""


def reach_here(host: Host, folder: Path) -> Reached:
    try:
        ran = subprocess.run([folder / "svtv"], stdin=subprocess.DEVNULL, capture_output=True)
    except OSError as error:
        return Reached(host, why=f"the program does not run from {folder}: {error.strerror}")
    if ran.returncode != 2:
        return Reached(host, why=f"the program does not run from {folder}{last_line(ran.stderr)}")
    return Reached(host, len(os.sched_getaffinity(0)))


def reach_there(host: Host, name: str, files: bytes) -> Reached:
    """Hands the files to a machine, into a folder of that name below the one where a login begins, and asks for its processors."""
    try:
        ran = subprocess.run([*SSH, host.name, f"exec sh -c '{TAKE.format(name=name)}'"], input=files, capture_output=True)
    except FileNotFoundError:
        return Reached(host, why=f"{host.name} is out of reach: no program ssh", answers=False)
    if ran.returncode == 255:
        return Reached(host, why=f"{host.name} does not answer{last_line(ran.stderr)}", answers=False)
    last = ran.stdout.split()[-1:]
    if ran.returncode or not last or not last[0].isdigit():
        return Reached(host, why=f"{host.name} {WHY.get(ran.returncode, 'does not take the work')}{last_line(ran.stderr)}")
    return Reached(host, int(last[0]))


def reach(hosts: Iterable[Host], folder: Path, files: bytes) -> list[Reached]:
    """Hands the files to all machines at once; on this one the folder with them stands already. Each machine counts once."""
    once = list(dict.fromkeys(host.name for host in hosts))
    with ThreadPoolExecutor(len(once)) as pool:
        tasks = {
            name: pool.submit(reach_here, Host(name, None), folder) if name == HERE else pool.submit(reach_there, Host(name, None), folder.name, files)
            for name in once
        }
    found = []
    for name, task in tasks.items():
        reached = task.result()
        jobs = sum(host.jobs or reached.processors for host in hosts if host.name == name)
        found.append(replace(reached, host=Host(name, jobs)))
    return found


def leave(names: Iterable[str], folder: str) -> None:
    """Removes a folder from other machines, as far as they answer."""
    words = [[*SSH, name, f"rm -rf {folder} {folder}.*"] for name in names]
    running = [subprocess.Popen(it, stdin=subprocess.DEVNULL, stdout=subprocess.DEVNULL, stderr=subprocess.DEVNULL) for it in words]
    for it in running:
        try:
            it.wait(30)
        except subprocess.TimeoutExpired:
            it.kill()
            it.wait()
