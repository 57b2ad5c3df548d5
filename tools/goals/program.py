"""The program `svtv`: where it is, calls of it on whole files, and the question whether it accepts them."""

import os
import shutil
import subprocess
import tempfile
from collections.abc import Mapping
from dataclasses import dataclass
from pathlib import Path

from goals.text import Goal


class Missing(Exception):
    """Something that the work needs is not there, or does not work; the text says what."""


@dataclass(frozen=True)
class Command:
    """The words of `svtv prove`, as they are handed on."""

    design: str
    table: str
    goals: str
    options: tuple[str, ...]

    def words(self, program: Path, goals: str) -> list[str]:
        """The same words on a file of goals."""
        return [str(program), "prove", *self.options, "--", self.design, self.table, goals]


def find(top: Path, environment: Mapping[str, str]) -> Path:
    """The program: the one that SVTV names, or `svtv` beside the command. The script of the repository builds one first."""
    named = environment.get("SVTV") or str(top / "svtv")
    found = shutil.which(named)
    if found is None:
        raise Missing(f"no program {named}")
    place = Path(found).resolve()
    built = place.parent / "crates/svtv_cli/out/svtv_cli"
    if place.read_bytes()[:2] != b"#!" or not (place.parent / "crates/svtv_cli").is_dir():
        return place
    # (a self test prints one line, which nobody asked for, and on the error stream only what is said of building)
    if subprocess.run([place, "selftest", "1"], stdin=subprocess.DEVNULL, stdout=subprocess.DEVNULL).returncode or not built.exists():
        raise Missing(f"{named} could not be built")
    return built


def whole(program: Path, command: Command) -> tuple[int, bytes]:
    """Hands the files over to `svtv prove` as they are, pipes too: its status, and what it prints; its errors are told as they come."""
    ran = subprocess.run(command.words(program, command.goals), stdout=subprocess.PIPE, close_fds=False)
    if ran.returncode < 0:
        raise Missing(f"{program}: killed by signal {-ran.returncode}")
    return ran.returncode, ran.stdout


def accepts(program: Path, command: Command, text: bytes, goals: list[Goal]) -> bool:
    """Whether svtv accepts the files, as far as it judges them before it decides any goal.

    svtv looks at goals in their order, and at a goal's name before its expressions. So a goal that is put behind all others under the name
    of the first is refused, as a second goal of one name, exactly where nothing before it is.
    """
    name = goals[0].name.encode("ascii")
    line = text.count(b"\n") + 2
    with tempfile.NamedTemporaryFile(prefix="svtv-goals-") as file:
        file.write(text + b"\ngoal %s { claim 1'b1; }\n" % name)
        file.flush()
        ran = subprocess.run(command.words(program, file.name), stdin=subprocess.DEVNULL, capture_output=True)
        refusal = b"%s:%d:6: E34 GoalTwice\n" % (os.fsencode(file.name), line)
    return (ran.returncode, ran.stdout, ran.stderr) == (3, b"", refusal)
