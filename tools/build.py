#!/usr/bin/env python3
"""Proves the program `svtv` and builds it: build.py

Each library below the program is proved by itself and built of its statements alone, as soon as those below it stand: as many side by
side as there are processors and as memory allows, those first that the longest chain waits for. Where fewer can begin than there are
processors, each is given several. The program is proved last, and only what was proved is compiled and linked.

What was proved is kept beside its library with a sum of all that the proof read: the kit, the crate's files, and the libraries below as
they were built. So a call that was broken off goes on where it was, and after a change only what the change reaches is proved again.

On the error stream stands how many crates are proved, which are at work, and about how long the rest takes. Where something is not
proved, what the prover said is printed, nothing is built, and the exit code is 1.
"""
import contextlib
import fcntl
import hashlib
import os
import re
import shutil
import signal
import subprocess
import sys
import tempfile
import time
from dataclasses import dataclass, field
from pathlib import Path

TOP = Path(__file__).resolve().parent.parent
PROGRAM = "svtv_cli"
PARTS = ("src", "specs", "proofs")
# What one job of a check takes at most, in bytes (docs/PROVING.md has the budget of a crate).
MEMORY = 2_500_000_000
# How many seconds one processor takes for each crate, as measured once, and for a crate that is not among them by its lines.
MEASURED = TOP / "tools/proof_seconds.txt"
LINES_A_SECOND = 20
# A verdict that rests on nothing but the built logic and the statements of libraries. A word that is not listed refuses it.
VERDICT = re.compile(
    r"logic=proved( (functions|axioms|target|cpu|sum)=\S+)+ native=nat,char,string"
    r" logic-built=trusted libraries-built=trusted statements=trusted"
)


class Refused(Exception):
    """Something was not proved or not built; the text is what was said."""


@dataclass(eq=False)
class Crate:
    """A crate of the repository, with its own libraries and those of the kit that it names, and all libraries below it, lowest first."""

    name: str
    own: list["Crate"]
    kit: list[str]
    below: list["Crate"] = field(default_factory=list)

    def __post_init__(self):
        for it in self.own:
            self.below += [lower for lower in [*it.below, it] if lower not in self.below]

    @property
    def folder(self):
        return TOP / "crates" / self.name

    @property
    def out(self):
        """Where the library stands. (Other commands of the kit remove all of this folder before they write into it.)"""
        return self.folder / "out/rlib"

    @property
    def rlib(self):
        return self.out / f"{self.name}.rlib"

    def files(self):
        for part in PARTS:
            yield from sorted(it for it in (self.folder / part).rglob("*") if it.is_file())

    def sum(self, kit):
        """A sum of all that a proof of the crate reads, where the libraries below it stand."""
        told = hashlib.sha256(f"{kit.name}\n{self.name} {self.kit}\n".encode())
        for file in self.files():
            text = file.read_bytes()
            told.update(f"{file.relative_to(self.folder)} {len(text)}\n".encode())
            told.update(text)
        for it in self.below:
            told.update(f"{it.name} {it.made()}\n".encode())
        return told.hexdigest()

    def made(self):
        """A sum of the library that stands, or nothing where there is none. (Its `format` holds the sums of its other files.)"""
        with contextlib.suppress(OSError):
            return hashlib.sha256((self.rlib / "format").read_bytes()).hexdigest()

    def is_kept(self, kit):
        """Whether the library that stands is what was proved, of what the crate is now."""
        with contextlib.suppress(OSError):
            return (self.out / "proved").read_text() == f"{self.sum(kit)} {self.made()}\n"
        return False

    def keep(self, key):
        """Notes that the library that stands was proved of what has this sum."""
        (self.out / "proved").write_text(f"{key} {self.made()}\n")


class Kit:
    """The Rattle kit whose command `rt` is on the path."""

    def __init__(self):
        found = shutil.which("rt")
        if found is None:
            raise Refused("there is no command rt on the path: the Rattle kit is needed (README.md, Try it)")
        self.top = Path(found).resolve().parent.parent
        self.name = (self.top / "KIT-ID").read_text() + (self.top / "WHAT").read_text()

    def words(self, crate, jobs):
        """The words that name a crate and its libraries to the prover, and those of a check, which a build of what was checked lacks."""
        words = ["--crate-name", crate.name, "src/main.rt" if crate.name == PROGRAM else "src/lib.rt"]
        for name in ["std", *crate.kit]:
            words += ["--extern", f"{name}={self.top}/rlibs/{name}.rlib"]
        words += ["-L", f"dependency={self.top}/rlibs"]
        for it in crate.own:
            words += ["--extern", f"{it.name}={it.rlib}"]
        for it in crate.below:
            words += ["-L", f"dependency={it.out}"]
        words += ["--antt-project", f"{self.top}/rattle/logic/antt-project.json", "--links", f"{crate.name}="]
        return words, ["--logic-built", f"{self.top}/logic_built", "--jobs", str(jobs)]

    def proof(self, crate, jobs):
        """The command that proves a crate and, of a library, writes its statements."""
        words, check = self.words(crate, jobs)
        if crate.name == PROGRAM:
            return [f"{self.top}/bin/rattle", "check", *words, *check, "-o", f"{crate.out}/checked"]
        return [f"{self.top}/bin/rattle", "build", *words, *check, "--statements", "-o", str(crate.rlib)]

    def compile(self, crate, to):
        """Compiles and links what was checked of the program."""
        words, _ = self.words(crate, 1)
        toolchain = ["--toolchain", f"{self.top}/toolchain"]
        words += ["--crate-checked", f"{crate.out}/checked", *toolchain, "--backend", "llvm", "-o", f"{to}.o"]
        run([f"{self.top}/bin/rattle", "build", *words], crate.folder)
        target = ["--target", "x86_64-unknown-linux-gnu"]
        libraries = [f"{self.top}/c/libos_c.a", f"{self.top}/c/liblibc_c.a"]
        run([f"{self.top}/bin/rattle-link", *target, *toolchain, "-o", str(to), f"{to}.o", *libraries], crate.folder)


def run(words, folder):
    ran = subprocess.run(words, cwd=folder, stdin=subprocess.DEVNULL, stdout=subprocess.PIPE, stderr=subprocess.STDOUT)
    if ran.returncode:
        raise Refused(ran.stdout.decode(errors="replace"))
    return ran.stdout


def crates_of(program):
    """The crates that the program is made of, lowest first, itself the last."""
    lines, made = {}, {}
    for line in (TOP / "crates.txt").read_text().splitlines():
        name, colon, words = line.partition("#")[0].partition(":")
        if colon:
            lines[name.split()[0]] = words.split()

    def make(name):
        if name not in made:
            own = [make(it) for it in lines[name] if it in lines]
            made[name] = Crate(name, own, [it for it in lines[name] if it not in lines])
        return made[name]

    top = make(program)
    return [*top.below, top]


def expected(crates):
    """How many seconds one processor is expected to take for each crate."""
    measured = {}
    with contextlib.suppress(OSError):
        for line in MEASURED.read_text().splitlines():
            if not line.startswith("#"):
                name, seconds = line.split()
                measured[name] = float(seconds)
    lines = lambda it: sum(file.read_bytes().count(b"\n") for file in it.files())
    return {it.name: measured.get(it.name) or 15 + lines(it) / LINES_A_SECOND for it in crates}


def quicker(jobs):
    """By how much several jobs shorten a check: reading and the longest functions are not shared."""
    return 1 + 0.5 * (jobs - 1)


class Plan:
    """What is to be proved, in which order, and what is expected of it."""

    def __init__(self, crates, kit):
        self.crates, self.kit, self.seconds = crates, kit, expected(crates)
        self.done, self.taken, self.foreseen = set(), 0.0, 0.0
        for it in crates:
            if self.done.issuperset(self.names(it)) and self.is_done(it):
                self.done.add(it.name)
        self.chain = {}
        for it in reversed(crates):
            above = [self.chain[other.name] for other in crates if it in other.own]
            self.chain[it.name] = self.seconds[it.name] + max(above, default=0)

    @staticmethod
    def names(crate):
        return [it.name for it in crate.own]

    def is_done(self, crate):
        return crate.name != PROGRAM and crate.is_kept(self.kit)

    def ready(self, done, begun):
        """The crates that can begin, those first that the longest chain waits for."""
        found = [it for it in self.crates if it.name not in done | begun and done.issuperset(self.names(it))]
        return sorted(found, key=lambda it: -self.chain[it.name])

    def shares(self, done, begun, free):
        """The crates that are to begin now, each with its jobs."""
        for number, crate in enumerate(ready := self.ready(done, begun)):
            if free < 1:
                return
            jobs = max(1, free // (len(ready) - number))
            free -= jobs
            yield crate, jobs

    def left(self, running, lanes):
        """About how many seconds the rest takes, by going through it with what is expected; `running` has the seconds since each began."""
        pace = (self.taken + 60) / (self.foreseen + 60)
        done, now = set(self.done), 0.0
        ends = {name: max(5.0, pace * self.seconds[name] / quicker(jobs) - since) for name, (jobs, since) in running.items()}
        held = {name: jobs for name, (jobs, _) in running.items()}
        while len(done) < len(self.crates):
            for crate, jobs in list(self.shares(done, set(ends), lanes - sum(held.values()))):
                ends[crate.name], held[crate.name] = now + pace * self.seconds[crate.name] / quicker(jobs), jobs
            name = min(ends, key=ends.get)
            now = ends.pop(name)
            held.pop(name)
            done.add(name)
        return now


class Screen:
    """The error stream: on a terminal one line that changes, and else a line for each crate."""

    def __init__(self):
        self.is_terminal = sys.stderr.isatty()

    def at(self, text):
        if self.is_terminal:
            width = shutil.get_terminal_size().columns
            print(f"\r\x1b[K{f'svtv: {text}'[: width - 1]}", end="", file=sys.stderr, flush=True)

    def say(self, text):
        print(f"{chr(13)}{chr(27)}[K" * self.is_terminal + f"svtv: {text}", file=sys.stderr, flush=True)


class Work:
    """The checks that run, at most as many jobs as there are lanes."""

    def __init__(self, plan, lanes, room, screen):
        self.plan, self.lanes, self.room, self.screen = plan, lanes, room, screen
        self.running = {}

    def begin(self, crate, jobs):
        if self.plan.is_done(crate):
            self.plan.done.add(crate.name)
            return
        crate.out.mkdir(parents=True, exist_ok=True)
        # (with which `rt` would take the library for one of its own)
        (crate.out / "stamp").unlink(missing_ok=True)
        said = open(f"{self.room}/{crate.name}", "w+b")
        key = crate.sum(self.plan.kit)
        how = {"cwd": crate.folder, "stdin": subprocess.DEVNULL, "stdout": said, "stderr": subprocess.STDOUT}
        process = subprocess.Popen(self.plan.kit.proof(crate, jobs), start_new_session=True, **how)
        self.running[crate] = (process, said, key, jobs, time.monotonic())

    def end(self, crate):
        """Takes what a check came to, and keeps what it proved."""
        process, file, key, jobs, begun = self.running.pop(crate)
        with file:
            file.seek(0)
            said = file.read().decode(errors="replace")
        if process.returncode == -signal.SIGKILL and jobs > 1:
            # (most likely for want of memory)
            return self.begin(crate, 1)
        if process.returncode or not VERDICT.fullmatch(said.rstrip("\n").rpartition("\n")[2]):
            raise Refused(f"{said}svtv: {crate.name} could not be proved")
        if crate.sum(self.plan.kit) != key:
            raise Refused(f"svtv: files of {crate.name} changed while it was proved")
        crate.keep(key)
        self.plan.taken += (time.monotonic() - begun) * quicker(jobs)
        self.plan.foreseen += self.plan.seconds[crate.name]
        self.plan.done.add(crate.name)

    def told(self):
        now = time.monotonic()
        left = self.plan.left({it.name: (jobs, now - begun) for it, (_, _, _, jobs, begun) in self.running.items()}, self.lanes)
        proved = f"{len(self.plan.done)} of {len(self.plan.crates)} crates proved"
        return f"{proved}, about {round(left / 60)} minutes to go" if left >= 90 else f"{proved}, about a minute to go"

    def go(self):
        shown = 0.0
        while len(self.plan.done) < len(self.plan.crates):
            free = self.lanes - sum(jobs for _, _, _, jobs, _ in self.running.values())
            for crate, jobs in list(self.plan.shares(self.plan.done, {it.name for it in self.running}, free)):
                self.begin(crate, jobs)
            ended = [it for it, (process, *_) in self.running.items() if process.poll() is not None]
            for crate in ended:
                self.end(crate)
            if ended and not self.screen.is_terminal:
                self.screen.say(f"{self.told()}: {', '.join(it.name for it in ended)}")
            if time.monotonic() > shown + 1:
                shown = time.monotonic()
                self.screen.at(f"{self.told()}: {', '.join(it.name for it in self.running)}")
            time.sleep(0.1)

    def stop(self):
        for process, *_ in self.running.values():
            with contextlib.suppress(ProcessLookupError):
                os.killpg(process.pid, signal.SIGKILL)
            process.wait()


def lock(crates, screen):
    """Waits until no other command of the kit works in the crates' folders; what is returned keeps others out."""
    held = []
    for folder in sorted(os.path.realpath(it.folder) for it in crates):
        held.append(os.open(folder, os.O_RDONLY))
        try:
            fcntl.flock(held[-1], fcntl.LOCK_EX | fcntl.LOCK_NB)
        except BlockingIOError:
            screen.say(f"waiting for another command that works in {folder}")
            fcntl.flock(held[-1], fcntl.LOCK_EX)
    return held


def lanes():
    """How many jobs run at once."""
    with open("/proc/meminfo") as lines:
        free = next(1024 * int(it.split()[1]) for it in lines if it.startswith("MemAvailable"))
    return max(1, min(len(os.sched_getaffinity(0)), int(0.85 * free // MEMORY)))


def note_of(program, kit, file):
    """What is noted of the program: of what it was proved, and its own sum."""
    with contextlib.suppress(OSError):
        return f"{program.sum(kit)} {hashlib.sha256(file.read_bytes()).hexdigest()}\n"


def build(crates, kit, screen, room):
    """Proves what is not proved yet, and builds the program of it."""
    begun, program, plan = time.monotonic(), crates[-1], Plan(crates, kit)
    file, note = program.folder / f"out/{PROGRAM}", program.folder / f"out/{PROGRAM}.proved"
    if len(plan.done) == len(program.below) and note.is_file() and note.read_text() == note_of(program, kit, file):
        return
    work = Work(plan, lanes(), room, screen)
    screen.say(f"the program is proved before it is built: {work.told()}, {work.lanes} at a time")
    try:
        work.go()
    finally:
        work.stop()
    screen.say("all crates are proved: compiling the program")
    made = Path(room) / PROGRAM
    kit.compile(program, made)
    shutil.rmtree(program.out)
    words = (program.folder / "args").read_text().split()
    if run([str(made), *words], program.folder / "data") != (program.folder / "stdout").read_bytes():
        raise Refused("svtv: the program that was built does not print what it should")
    os.replace(made, file)
    note.write_text(note_of(program, kit, file))
    screen.say(f"proved and built in {(time.monotonic() - begun) / 60:.1f} minutes")


def main():
    for it in (signal.SIGTERM, signal.SIGHUP):
        signal.signal(it, lambda number, _: sys.exit(128 + number))
    screen = Screen()
    try:
        kit, crates = Kit(), crates_of(PROGRAM)
        held = lock(crates, screen)
        (crates[-1].folder / "out").mkdir(exist_ok=True)
        for left in (crates[-1].folder / "out").glob("svtv-*"):
            shutil.rmtree(left)
        # (in the folder of the program, so that it is moved and not copied)
        with tempfile.TemporaryDirectory(prefix="svtv-", dir=crates[-1].folder / "out") as room:
            build(crates, kit, screen, room)
        for it in held:
            os.close(it)
    except Refused as refused:
        screen.say("not built")
        print(refused, file=sys.stderr)
        return 1
    return 0


if __name__ == "__main__":
    sys.exit(main())
