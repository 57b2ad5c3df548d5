#!/usr/bin/env python3
"""Fetches source packages of Debian, from where apt is configured to fetch packages, and unpacks them.

    fetch.py FOLDER PACKAGE..     FOLDER/PACKAGE is the source of its makers, without Debian's patches

apt is given lists of sources of its own, below FOLDER: those of the system, with `deb` read as `deb-src`. So nothing of the
system is changed, and no root is needed. What is there already is not fetched again.
"""
from __future__ import annotations

import os
import re
import subprocess
import sys
from pathlib import Path


def sources_of_system(folder: Path) -> None:
    """Writes the system's lists of sources into a folder, for source packages."""
    wanted = subprocess.run(["apt-config", "shell", "LIST", "Dir::Etc::sourcelist/f", "PARTS", "Dir::Etc::sourceparts/d"],
                            capture_output=True, text=True, check=True).stdout
    found = dict(re.findall(r"^(\w+)='(.*)'$", wanted, re.M))
    for path in [Path(found["LIST"]), *sorted(Path(found["PARTS"]).iterdir())]:
        if path.suffix in (".list", ".sources") and path.exists():
            text = re.sub(r"^deb(?=\s)", "deb-src", path.read_text(), flags=re.M)
            (folder / path.name).write_text(re.sub(r"^Types:.*$", "Types: deb-src", text, flags=re.M))


def apt_options(folder: Path) -> list[str]:
    """Options by which apt uses lists and caches of its own."""
    parts, lists, cache = (folder / name for name in ("sources", "lists", "cache"))
    for each in (parts, lists / "partial", cache / "archives" / "partial"):
        each.mkdir(parents=True, exist_ok=True)
    sources_of_system(parts)
    given = {"Dir::Etc::sourcelist": "/dev/null", "Dir::Etc::sourceparts": parts, "Dir::State::Lists": lists, "Dir::Cache": cache,
             "APT::Sandbox::User": ""}
    return [word for name, value in given.items() for word in ("-o", f"{name}={value}")]


def unpack(package: str, folder: Path, target: Path) -> None:
    """Unpacks what the makers of a package publish."""
    for archive in sorted(folder.glob("*.orig*.tar.*")):
        if archive.suffix == ".asc":
            continue
        (folder / "unpacked").mkdir(exist_ok=True)
        subprocess.run(["tar", "-xf", archive, "-C", folder / "unpacked"], check=True)
    inside = list((folder / "unpacked").iterdir()) if (folder / "unpacked").exists() else []
    if not inside:
        sys.exit(f"fetch.py: nothing to unpack of {package}")
    (inside[0] if len(inside) == 1 and inside[0].is_dir() else folder / "unpacked").rename(target)


def main() -> int:
    if len(sys.argv) < 3:
        print(__doc__)
        return 2
    folder = Path(sys.argv[1]).resolve()
    missing = [package for package in sys.argv[2:] if not (folder / package).exists()]
    if not missing:
        return 0
    options = apt_options(folder / ".apt")
    subprocess.run(["apt-get", "-qq", *options, "update"], check=True)
    for package in missing:
        place = folder / ".apt" / package
        place.mkdir(exist_ok=True)
        subprocess.run(["apt-get", "-qq", *options, "source", "--download-only", "--tar-only", package], check=True, cwd=place,
                       env={**os.environ, "LC_ALL": "C"})
        unpack(package, place, folder / package)
    return 0


if __name__ == "__main__":
    sys.exit(main())
