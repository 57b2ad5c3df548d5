"""The files of a design: those that it includes, found as svtv finds them, and where they stand in a folder of their own.

svtv takes the quoted name behind `` `include`` as it is written, from the working directory. Here every include counts, also one that a
conditional skips; of those only names that can be read are taken. So there may be more files here than svtv reads, and none less.
"""

import os
import re
import stat
from collections.abc import Iterator
from pathlib import Path

LONGEST = 1 << 24
# Comments and quoted texts are passed over, so that an include in them is none. No part is looked at in two ways, however odd a text is.
PIECE = re.compile(
    rb"""//[^\n]*+ | /\*(?>.*?(?:\*/|\Z)) | "[^"\\\n]*+(?:\\[^\n][^"\\\n]*+)*+"
       | `include (?![A-Za-z0-9_$]) (?: [ \t\r\n] | //[^\n]*+ | /\*(?>.*?\*/) )*+ "(?P<name>[^"\\\n]*+(?:\\[^\n][^"\\\n]*+)*+)" """,
    re.VERBOSE | re.DOTALL,
)


class Unreadable(Exception):
    """A file that svtv is left to judge by itself: it is not there, is no plain file, or is too long."""


def read(name: str) -> bytes:
    """A plain file's contents; others, as a pipe, could be read only once."""
    try:
        found = os.stat(name)
        if not stat.S_ISREG(found.st_mode) or found.st_size > LONGEST:
            raise Unreadable
        with open(name, "rb") as file:
            return file.read()
    except (OSError, ValueError):
        raise Unreadable from None


def included(text: bytes) -> Iterator[str]:
    """The names that a text includes."""
    for piece in PIECE.finditer(text):
        if piece["name"] is not None:
            yield os.fsdecode(piece["name"])


def all_included(design: bytes) -> dict[str, bytes]:
    """The files that a design includes, and those that these include, by their names as written."""
    found: dict[str, bytes] = {}
    waiting = [design]
    while waiting:
        for name in included(waiting.pop()):
            if name in found:
                continue
            try:
                found[name] = read(name)
            except Unreadable:
                continue
            waiting.append(found[name])
    return found


def height(name: str) -> int:
    """How many folders above the one where it begins a name leads on its way."""
    most = now = 0
    for part in name.split("/"):
        now += {"..": 1, ".": 0, "": 0}.get(part, -1)
        most = max(most, now)
    return most


def lay_out(files: dict[str, bytes], top: Path) -> Path:
    """Writes the files below `top`, and returns the folder from which their names lead to them.

    Names that lead to one place there and have different contents, as may be where folders are links, cannot be laid out (Unreadable).
    """
    start = top.joinpath(*["d"] * max(map(height, files), default=0))
    start.mkdir(parents=True, exist_ok=True)
    for name, text in files.items():
        place = start
        *folders, last = name.split("/")
        for part in folders:
            place = place.parent if part == ".." else place / part
            make_folder(place)
        write_once(place / last, text)
    return start


def make_folder(place: Path) -> None:
    try:
        place.mkdir(exist_ok=True)
    except OSError:
        raise Unreadable from None


def write_once(place: Path, text: bytes) -> None:
    try:
        if place.exists() and place.read_bytes() != text:
            raise Unreadable
        place.write_bytes(text)
    except OSError:
        raise Unreadable from None
