"""Compiles the engine of the solver by rustc, in seconds and without any proof: engine_alone.py OUT [REPO]

The engine (sat_arena to sat_engine) is Rust but for what rustc does not know: the allocator, the calls that may lack memory, and written
drops, for which engine_alone.rt.txt has stand-ins. OUT reads clauses in DIMACS form on standard input, tries what the engine answers,
and prints it with the seconds of the search alone. Its conflicts are those of the proved program, and times are alike; so a change is
tried here first. Needs rustc.
"""

import pathlib
import re
import subprocess
import sys
import tempfile

CRATES = ("sat_arena", "sat_order", "sat_cdcl", "sat_simplify", "sat_engine")
BELOW = (*CRATES, "cnf", "refute_check")


def translated(text, crate):
    """A module of a crate as rustc takes it, as a module of one program."""
    text = re.sub(r"^impl Drop for .*?^\}\n", "", text, flags=re.MULTILINE | re.DOTALL)
    text = re.sub(r"^(//!.*|#!\[tactic\(auto\)\]|#\[derive\(Drop\)\])\n", "", text, flags=re.MULTILINE)
    text = re.sub(r"^use std::alloc::", "use crate::stand_in::", text, flags=re.MULTILINE).replace("<T: Drop>", "<T>")
    text = re.sub(r"vec!\[in ([\w.]+); (.*?); (.*)\]", r"Vec::filled(\1, \2, \3)", text)
    text = re.sub(r"\buse crate::(?!stand_in)", "use crate::%s::" % crate, text)
    return "use crate::stand_in::Vec;\n" + re.sub(r"\buse (%s)::" % "|".join(BELOW), r"use crate::\1::", text)


def write(room, repo):
    """Writes the program's source into a folder."""
    for crate in CRATES:
        (room / crate).mkdir()
        for file in (repo / "crates" / crate / "src").glob("*.rt"):
            text = translated(file.read_text(), crate)
            if file.stem == "lib":
                text = text.replace("pub use search::", "pub use self::search::")
            (room / crate / ("mod.rs" if file.stem == "lib" else file.stem + ".rs")).write_text(text)
    text = pathlib.Path(__file__).with_name("engine_alone.rt.txt").read_text()
    (room / "main.rs").write_text(text.replace("MODULES", "\n".join("mod %s;" % crate for crate in CRATES)))


def main(out, repo=pathlib.Path(__file__).parent.parent):
    with tempfile.TemporaryDirectory() as folder:
        room = pathlib.Path(folder)
        write(room, pathlib.Path(repo))
        subprocess.run(["rustc", "-C", "opt-level=3", "--edition", "2021", "-Awarnings", "-o", out, str(room / "main.rs")], check=True)


if __name__ == "__main__":
    main(*sys.argv[1:])
