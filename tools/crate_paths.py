#!/usr/bin/env python3
"""How many paths lead down from each crate in crates.txt, and which names in a crate's line nothing in the crate names.

Use: crate_paths.py [COUNT]      at the top of the repository; the COUNT crates with the most paths (default 15)

`rt` walks all paths below a crate whenever it asks what stands below it: for each name that a contract imports, and some twenty times for
each process. A crate that names its neighbour's neighbour doubles the paths of all crates above. Where a crate needs a few definitions of
one far below, a crate between hands them on (`pub use` in its specs/Passed.antt, or proofs/Passed.antt), and the line gets shorter.
"""
import os
import re
import sys


def listed(top):
    """The crates of the repository that each crate names in its line."""
    found = {}
    with open(f"{top}/crates.txt") as lines:
        for line in lines:
            name, colon, below = line.partition("#")[0].partition(":")
            if colon:
                found[name.split()[0]] = below.split()
    return found


def text_of(top, crate):
    parts = []
    for part in ("src", "specs", "proofs"):
        for folder, _, files in os.walk(f"{top}/crates/{crate}/{part}"):
            for file in files:
                with open(f"{folder}/{file}") as text:
                    parts.append(text.read())
    return "\n".join(parts)


def main(count):
    lines, paths = listed("."), {}

    def paths_of(crate):
        if crate not in paths:
            paths[crate] = 1 + sum(paths_of(it) for it in lines[crate] if it in lines)
        return paths[crate]

    for crate, names in lines.items():
        paths_of(crate)
        text = text_of(".", crate)
        unnamed = [it for it in names if not re.search(rf"\b{it}\b", text)]
        if unnamed:
            print(f"{crate} names nothing of {' '.join(unnamed)}")
    print(f"{sum(paths.values()):9} paths in all")
    for crate in sorted(paths, key=lambda it: -paths[it])[:count]:
        print(f"{paths[crate]:9} {crate}")


if __name__ == "__main__":
    if len(sys.argv) > 1 and not sys.argv[1].isdigit():
        sys.exit(__doc__)
    main(int(sys.argv[1]) if len(sys.argv) > 1 else 15)
