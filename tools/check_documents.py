#!/usr/bin/env python3
"""Whether the documents have the form that they promise: check_documents.py, in any folder.

- docs/PROMISES.md has a section for each crate, in the order of crates.txt, and each name in backticks there is a word of the sources or
  definitions of that crate or of one below it. docs/ARCHITECTURE.md has each crate in one table.
- Lines have at most 120 columns and one sentence, as far as that can be told: code, tables and what is in backticks are not looked at for
  sentences, and a line without a blank (a link, a picture) may be longer.
- README.md has at most 80 lines, docs/PROVING.md at most 200, and a paragraph of docs/DECISIONS.md at most five.
- The tables of bench/README.md and tools/README.md name each script, and nothing that is not there. Links lead to files.

A line is printed for each fault, and the status is 1 where there is one. Run it before a commit that changes documents or crates.
"""
import re
import sys
from pathlib import Path

TOP = Path(__file__).resolve().parent.parent
WIDTH = 120
MOST_LINES = {"README.md": 80, "docs/PROVING.md": 200}
MOST_OF_A_DECISION = 5
DOCUMENTS = ["README.md", "bench/README.md", "tools/README.md", *sorted(f"docs/{path.name}" for path in (TOP / "docs").glob("*.md"))]

# A sentence ends at a mark with a blank and a capital, or what stands for text in backticks, behind it.
SENTENCE_END = re.compile(r"(?<!\.\.)[.!?][)\"]? (?=[A-Z`\"(])")
LIST_MARK = re.compile(r"^\s*(?:[-*]|\d+\.) ")
# What counts as the name of something in the sources, in text in backticks.
NAME = re.compile(r"\b[A-Za-z_][A-Za-z0-9_]+\b")


def listed():
    """The crates of crates.txt in their order, each with the crates that its line names."""
    lines = [line.split("#")[0].strip() for line in (TOP / "crates.txt").read_text().splitlines()]
    pairs = [line.split(":") for line in lines if line]
    return {name.split()[0]: below.split() for name, below in pairs}


def lines_of(name):
    return (TOP / name).read_text().splitlines()


def prose(name):
    """The lines of a document that are no code, each with its number."""
    in_fence, before = False, ""
    for number, line in enumerate(lines_of(name), 1):
        if line.startswith("```"):
            in_fence = not in_fence
        is_block = line.startswith("    ") and not before.strip() or before == "code" and (line.startswith("    ") or not line)
        if not in_fence and not line.startswith("```") and not is_block:
            yield number, line
        before = "code" if is_block else line


def faults_of_lines(name):
    lines = lines_of(name)
    if len(lines) > MOST_LINES.get(name, len(lines)):
        yield f"{name}: {len(lines)} lines, and {MOST_LINES[name]} are the most"
    for number, line in enumerate(lines, 1):
        if len(line) > WIDTH and " " in line.strip():
            yield f"{name}:{number}: {len(line)} columns"
    for number, line in prose(name):
        if not line.startswith(("|", "#")) and SENTENCE_END.search(re.sub(r"`[^`]*`", "`", re.sub(LIST_MARK, "", line))):
            yield f"{name}:{number}: more than one sentence"


def sections(name):
    """The headings of the second level, each with the lines below it."""
    found = {}
    for number, line in enumerate(lines_of(name), 1):
        if line.startswith("## "):
            found[line[3:].strip()] = []
        elif found:
            found[list(found)[-1]].append((number, line))
    return found


def words_of(crate):
    """The names in a crate's sources and definitions."""
    files = [*(TOP / "crates" / crate / "src").rglob("*.rt"), *(TOP / "crates" / crate / "specs").rglob("*.antt")]
    return {word for file in files for word in NAME.findall(file.read_text())}


def below(crate, crates):
    """The crates that a crate stands on, itself among them."""
    found, waiting = set(), [crate]
    while waiting:
        one = waiting.pop()
        if one in crates and one not in found:
            found.add(one)
            waiting += crates[one]
    return found


def faults_of_promises(crates):
    name = "docs/PROMISES.md"
    told = sections(name)
    headings = [line[3:].strip() for line in lines_of(name) if line.startswith("## ")]
    if headings != list(crates):
        wrong = next((pair for pair in zip(headings, crates) if pair[0] != pair[1]), (len(headings), len(crates)))
        yield f"{name}: the sections are not the crates of crates.txt in their order: {wrong[0]} for {wrong[1]}"
        return
    words = {crate: words_of(crate) for crate in crates}
    for crate, lines in told.items():
        known = set().union(*(words[one] for one in below(crate, crates)))
        for number, line in lines:
            spans = re.findall(r"`([^`]*)`", line)
            for word in [word for span in spans for word in NAME.findall(span) if word not in known]:
                yield f"{name}:{number}: {word} is no word of {crate} or of what it stands on"


def faults_of_tables(crates):
    name = "docs/ARCHITECTURE.md"
    rows = [row for row in re.findall(r"^\| (\w+) \|", (TOP / name).read_text(), re.MULTILINE) if row in crates]
    for crate in crates:
        if rows.count(crate) != 1:
            yield f"{name}: {crate} stands in {rows.count(crate)} rows"
    for folder in ("bench", "tools"):
        columns = re.findall(r"^\| ([^|]+) \|", (TOP / folder / "README.md").read_text(), re.MULTILINE)
        told = {script for column in columns for script in re.findall(r"\w+\.(?:py|sh|c|txt|rt\.txt)\b", column.replace("\\_", "_"))}
        files = [path for path in (TOP / folder).rglob("*") if path.suffix in (".py", ".sh", ".c", ".txt")]
        there = {path.name for path in files if not {"tests", "trials", "__pycache__"} & set(path.parts) and path.name != "__init__.py"}
        yield from (f"{folder}/README.md: no row has {script}" for script in sorted(there - told))
        yield from (f"{folder}/README.md: {script} is not there" for script in sorted(told - there))


def faults_of_decisions():
    name, length = "docs/DECISIONS.md", 0
    for number, line in enumerate([*lines_of(name), ""], 1):
        if line.startswith("- ") or not line.strip() or line.startswith("#"):
            length = 0
        length += 1
        if length == MOST_OF_A_DECISION + 1:
            yield f"{name}:{number}: a paragraph of over {MOST_OF_A_DECISION} lines"


def faults_of_links(name):
    for link in re.findall(r"\]\(([^)#:]+)\)", (TOP / name).read_text()):
        if not ((TOP / name).parent / link).exists():
            yield f"{name}: {link} is not there"


def main():
    crates = listed()
    faults = [fault for name in DOCUMENTS for fault in [*faults_of_lines(name), *faults_of_links(name)]]
    faults += [*faults_of_promises(crates), *faults_of_tables(crates), *faults_of_decisions()]
    for fault in faults:
        print(fault)
    print(f"documents: {len(faults)} faults" if faults else "documents: as they are to be")
    return 1 if faults else 0


if __name__ == "__main__":
    sys.exit(main())
