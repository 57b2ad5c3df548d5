"""Runs svtv on texts that are nearly right: the examples and the cases of svtv_cases, changed by chance, and each front of each example.

Each run has a number, which says what it changes, so a run that stands out can be made again. A fault is what `answers.fault` says of an
answer: an end by a signal, a status that the manual does not have, an output beside a refusal, a message or a text that is not of its
form; of `check`, that it says something else than lrat.py; and of `wave`, than vcd.py. The first runs take the fronts of the files of the examples, the others make one to four changes: a byte, a token or some tokens
are deleted, doubled, put elsewhere, or replaced by others, and seldom a word of the command.

Use: mutate.py FIRST LAST     runs with these numbers, the last one not
     mutate.py RUN            shows what this run does
From the environment: SVTV is the program, JOBS how many run beside each other (2), LIMIT the processor seconds of one run (20), and COMMAND
the one command whose texts are changed (all).

Printed are how many runs ended in which status, how many of each refusal, those that took too long, and each fault with its number.
The status of mutate.py is 1 where there was a fault.
"""

import collections
import glob
import multiprocessing
import os
import random
import re
import resource
import subprocess
import sys
import tempfile

import answers
import lrat
import vcd

TOP = os.path.dirname(os.path.dirname(os.path.abspath(__file__)))
sys.path.insert(0, os.path.join(TOP, "tools"))
import run_cases

PROGRAM = os.path.abspath(os.environ.get("SVTV", "./svtv"))
JOBS = int(os.environ.get("JOBS", "2"))
LIMIT = int(os.environ.get("LIMIT", "20"))
COMMAND = os.environ.get("COMMAND")
TOKEN = re.compile(rb"[A-Za-z_`$][A-Za-z0-9_$]*|[0-9]*'[sS]?[bodhBODH][0-9a-fA-FxzXZ?_]*|[0-9]+|\s+|[<>=!&|~^+*/%:-]+|.", re.DOTALL)

EXAMPLES = [
    ("alu", ["prove", "d.sv", "t.csv", "g.txt"]), ("alu", ["prove", "d.sv", "t_reset.csv", "g_reset.txt"]),
    ("alu", ["sim", "d.sv", "t.csv", "v.csv"]), ("alu", ["dump", "d.sv"]), ("and_gate", ["prove", "d.sv", "t.csv", "g.txt"]),
    ("and_gate", ["dump", "d.sv", "--top", "m"]), ("bus", ["prove", "d.sv", "t.csv", "g.txt"]), ("bus", ["sim", "d.sv", "t.csv", "v.csv"]),
    ("cut", ["prove", "d.sv", "sum.csv", "sum.txt"]), ("cut", ["prove", "d.sv", "product.csv", "product.txt", "--budget", "200"]),
    ("latch", ["prove", "d.sv", "t.csv", "g.txt"]), ("loop", ["prove", "d.sv", "t.csv", "g.txt"]),
    ("pipeline", ["prove", "d.sv", "t.csv", "g.txt"]), ("product", ["prove", "d.sv", "t.csv", "g.txt", "--budget", "1"]),
    ("reset", ["prove", "d.sv", "t.csv", "g.txt"]), ("bus", ["cert", "d.sv", "t.csv", "g.txt", "agree"]),
    ("bus", ["sim", "d.sv", "t.csv", "v.csv", "--vcd"]),
]
# Simulations of which the program's dumps are changed, each with a signal.
TRACED = [("bus", "top.y"), ("alu", "top.v"), ("divider", "top.half")]
# Goals of which the program's certificates are changed.
CERTIFIED = [("and_gate", "eq"), ("bus", "first"), ("pipeline", "sum"), ("pipeline", "never"), ("latch", "either"), ("loop", "ripple"), ("reset", "kept")]


def example(name, words):
    files = {}
    for word in words:
        path = os.path.join(TOP, "examples", name, word)
        if os.path.exists(path):
            with open(path, "rb") as file:
                files[word] = file.read()
    return words, files


def certificates():
    """Checks of certificates, as the program prints them."""
    for name, goal in CERTIFIED:
        words = [PROGRAM, "cert", "d.sv", "t.csv", "g.txt", goal]
        printed = subprocess.run(words, cwd=os.path.join(TOP, "examples", name), capture_output=True, check=True).stdout
        if len(printed) < 6000:
            yield ["check", "g.lrat"], {"g.lrat": printed}


def dumps():
    """Changes of a signal in value change dumps, as the program prints them."""
    for name, path in TRACED:
        words = [PROGRAM, "sim", "d.sv", "t.csv", "v.csv", "--vcd"]
        printed = subprocess.run(words, cwd=os.path.join(TOP, "examples", name), capture_output=True, check=True).stdout
        yield ["wave", "w.vcd", path], {"w.vcd": printed[:6000]}


def short_cases():
    """The cases of svtv_cases that ask for no fault and are short."""
    for path in sorted(glob.glob(os.path.join(TOP, "crates/svtv_cases/data/*.cases"))):
        for case in run_cases.cases(path):
            named = {name: text for name, text in case["files"].items() if name in case["words"] or name.endswith("sv")}
            if not any(case["faults"].values()) and sum(map(len, named.values())) < 6000 and case["words"]:
                yield case["words"], named


def chosen(bases):
    """Those of the command that is chosen."""
    return [base for base in bases if COMMAND in (None, base[0][0])]


BASES = chosen([example(*each) for each in EXAMPLES] + list(certificates()) + list(dumps()))
MAIN = len(BASES)
FRONTS = [(base, name, length) for base, (_, files) in enumerate(BASES) for name, text in files.items() for length in range(len(text))]
BASES += chosen(short_cases())
PIECES = sorted({token for _, files in BASES for text in files.values() for token in TOKEN.findall(text)})


def changed_bytes(chance, text):
    at = chance.randrange(len(text) + 1)
    byte = bytes([chance.randrange(256)]) if chance.random() < 0.3 else text[at : at + 1] or b"\n"
    return chance.choice([text[:at] + text[at + 1 :], text[:at] + byte + text[at:], text[:at] + byte + text[at + 1 :], text[:at]])


def changed_tokens(chance, text, other):
    tokens = TOKEN.findall(text) or [b" "]
    at = chance.randrange(len(tokens))
    behind = min(len(tokens), at + chance.choice([1, 1, 1, 2, 3, 8, 30]))
    to = chance.randrange(len(tokens) + 1)
    run = tokens[at:behind]
    elsewhere = TOKEN.findall(other) or [b" "]
    start = chance.randrange(len(elsewhere))
    put = chance.choice([[chance.choice(PIECES)], [chance.choice(tokens)], elsewhere[start : start + chance.choice([1, 3, 10, 40])]])
    made = chance.choice([
        tokens[:at] + tokens[behind:], tokens[:at] + run + tokens[at:], tokens[:at] + put + tokens[behind:], tokens[:at] + put + tokens[at:],
        tokens[:to] + run + tokens[to:],
    ])
    return b"".join(made)


def changed_words(chance, words):
    at = chance.randrange(len(words))
    other = chance.choice(["--top", "--top=m", "--budget", "--budget=3", "--", "-", "-x", "prove", "sim", "dump", "m", "d.sv", "x.sv", "1", ""])
    return chance.choice([words[:at] + words[at + 1 :], words[:at] + [other] + words[at:], words[:at] + [other] + words[at + 1 :]])


def made(number):
    """The words and files of a run."""
    if number < len(FRONTS):
        base, name, length = FRONTS[number]
        words, files = BASES[base]
        return words, dict(files, **{name: files[name][:length]})
    chance = random.Random(number)
    words, files = chance.choice(BASES) if chance.random() < 0.7 else chance.choice(BASES[:MAIN])
    files = dict(files)
    for _ in range(chance.choice([1, 1, 1, 2, 2, 3, 4])):
        if chance.random() < 0.03 or not files:
            words = changed_words(chance, words) if words else ["dump"]
            continue
        name = chance.choice(sorted(files))
        other = chance.choice(sorted(chance.choice(BASES)[1].values()) or [b""])
        files[name] = changed_bytes(chance, files[name]) if chance.random() < 0.35 else changed_tokens(chance, files[name], other)
    return words, files


def said_of(text):
    """What lrat.py says of a certificate; nothing where the text is none."""
    try:
        return lrat.judge(*lrat.read(text)).encode() + b"\n"
    except ValueError:
        return b""


def fault(words, files, ended):
    """What is wrong with an answer."""
    if words[:1] == ["check"] and words[1:] == list(files) and ended.returncode in (0, 1, 3) and said_of(files[words[1]]) != ended.stdout:
        return "another answer than that of lrat.py"
    if words[:1] == ["wave"] and len(words) == 3 and words[1] in files and not any(word.startswith("-") for word in words) and ended.returncode in (0, 3):
        name, path = (os.fsencode(word) for word in words[1:])
        if vcd.wave(files[words[1]], name, path) != (ended.stdout, ended.stderr):
            return "another answer than that of vcd.py"
    return answers.fault(words, ended.returncode, ended.stdout, ended.stderr)


def limited():
    resource.setrlimit(resource.RLIMIT_CPU, (LIMIT, LIMIT + 1))
    resource.setrlimit(resource.RLIMIT_CORE, (0, 0))


def run(number):
    """The number of a run, its status, the number of its refusal, and what is wrong with its answer."""
    words, files = made(number)
    with tempfile.TemporaryDirectory() as room:
        for name, text in files.items():
            path = os.path.join(room, name)
            os.makedirs(os.path.dirname(path), exist_ok=True)
            with open(path, "wb") as file:
                file.write(text)
        ended = subprocess.run([PROGRAM, *words], cwd=room, stdin=subprocess.DEVNULL, capture_output=True, preexec_fn=limited)
    refused = answers.REFUSAL.fullmatch(ended.stderr)
    number_of = int(refused[4]) if refused else None
    if ended.returncode == -24:
        return number, "too long", None, None
    return number, ended.returncode, number_of, fault(words, files, ended)


def show(number):
    words, files = made(number)
    print("words:", words)
    for name, text in files.items():
        print("---- %s, %d bytes" % (name, len(text)))
        sys.stdout.flush()
        sys.stdout.buffer.write(text + b"\n")
    print("----", run(number))


def main(first, last):
    statuses, refusals, faults, long_ones = collections.Counter(), collections.Counter(), [], []
    with multiprocessing.Pool(JOBS) as pool:
        for number, status, refused, fault in pool.imap_unordered(run, range(first, last), chunksize=50):
            statuses[status] += 1
            refusals[refused] += refused is not None
            if status == "too long":
                long_ones.append(number)
            if fault:
                faults.append((number, fault))
                print("run %d: %s" % (number, fault), flush=True)
    print("%d runs, of which %d are fronts of the examples, over %d texts" % (last - first, max(0, min(last, len(FRONTS)) - first), len(BASES)))
    print("statuses: " + ", ".join("%s: %d" % (status, count) for status, count in sorted(statuses.items(), key=str)))
    print("refusals: " + ", ".join("E%d: %d" % (number, count) for number, count in sorted((n, c) for n, c in refusals.items() if n)))
    print("too long: " + ", ".join(map(str, sorted(long_ones))))
    print("%d faults" % len(faults))
    return 1 if faults else 0


if __name__ == "__main__":
    if len(sys.argv) == 2:
        show(int(sys.argv[1]))
    elif len(sys.argv) == 3:
        sys.exit(main(int(sys.argv[1]), int(sys.argv[2])))
    else:
        sys.exit(__doc__)
