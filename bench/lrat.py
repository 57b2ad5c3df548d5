"""Certificates as text, in Python: a reader, and a judge that shares nothing with the product (a clause is the set of its literals;
under the negation of a step's clause each hint but the last has one open literal and no true one, and the last has neither)."""

import re


def number(word):
    """The number that a word says. A 0 has no sign."""
    if not re.fullmatch(rb"-?[0-9]+", word) or abs(int(word)) >= 1 << 127 or (word[:1] == b"-" and int(word) == 0):
        raise ValueError("no number: %r" % word)
    return int(word)


def split(numbers):
    """Two lists, each ended by a 0."""
    end = numbers.index(0)
    if numbers.index(0, end + 1) != len(numbers) - 1:
        raise ValueError("a 0 too many")
    return numbers[:end], numbers[end + 1 : -1]


def read_clauses(lines):
    """The number of variables and the clauses. The lines that they stand on are taken."""
    words, clauses, clause, variables, count = [], [], [], None, None
    while count is None or len(clauses) < count:
        line = next(lines)
        words += [] if line.startswith(b"c") else re.findall(rb"[^ \t]+", line)
        if count is None and len(words) >= 4:
            variables, count = number(words[2]), number(words[3])
            if words[:2] != [b"p", b"cnf"] or not 0 <= variables < 1 << 64 or count < 0:
                raise ValueError("no head: %r" % words)
            words = words[4:]
        for literal in map(number, words if count is not None else ()):
            if abs(literal) > variables or len(clauses) == count:
                raise ValueError("no literal: %d" % literal)
            clauses, clause = (clauses, clause + [literal]) if literal else (clauses + [clause], [])
        words = [] if count is not None else words
    return variables, clauses


def read(text):
    """The number of variables, the clauses and the steps: each step its clause and the places of its hints, counted from 0. An error where the
    text is no certificate."""
    parts = text.split(b"\n")
    lines = iter([part.removesuffix(b"\r") for part in parts[:-1]] + parts[-1:])
    try:
        variables, clauses = read_clauses(lines)
    except StopIteration:
        raise ValueError("clauses are missing") from None
    places, steps, last = {place + 1: place for place in range(len(clauses))}, [], len(clauses)
    for line in lines:
        words = re.findall(rb"[^ \t]+", line)
        if words[1:2] == [b"d"]:
            numbers = list(map(number, words[:1] + words[2:]))
            if len(numbers) < 2 or numbers[-1] != 0 or 0 in numbers[1:-1]:
                raise ValueError("no deletion: %r" % line)
        elif words:
            name, *numbers = map(number, words)
            clause, hints = split(numbers)
            if name <= last or any(abs(literal) > variables for literal in clause) or any(hint not in places for hint in hints):
                raise ValueError("no step: %r" % line)
            places[name] = len(clauses) + len(steps)
            steps.append((clause, [places[hint] for hint in hints]))
            last = name
    return variables, clauses, steps


def is_derived(variables, clause, hints, known):
    """Whether the clauses of these hints, in order, derive the clause."""
    if any(-literal in clause or abs(literal) > variables for literal in clause):
        return False
    true = {-literal for literal in clause}
    for place, hint in enumerate(hints):
        literals = set(known[hint])
        open_ones = [literal for literal in literals if literal not in true and -literal not in true]
        if literals & true or len(open_ones) != (0 if place == len(hints) - 1 else 1):
            return False
        true.update(open_ones)
    return bool(hints)


def judge(variables, clauses, steps):
    """What `svtv check` prints of them."""
    known = list(clauses)
    for place, (clause, hints) in enumerate(steps):
        if not is_derived(variables, clause, hints, known):
            return "not verified: step %d" % place
        known.append(clause)
    return "verified" if any(not clause for clause, _ in steps) else "not verified: step %d" % len(steps)


def text(variables, clauses, steps):
    """The certificate as text."""
    lines = ["p cnf %d %d" % (variables, len(clauses))]
    lines += [" ".join(map(str, clause + [0])) for clause in clauses]
    for place, (clause, hints) in enumerate(steps):
        names = [hint + 1 for hint in hints]
        lines.append(" ".join(map(str, [len(clauses) + place + 1] + clause + [0] + names + [0])))
    return "".join(line + "\n" for line in lines)
