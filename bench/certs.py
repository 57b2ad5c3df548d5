"""Holds `svtv cert` and `svtv check` against programs of others: `certs.py SVTV`. It prints a line for each difference, and the count of
what it ran; the status is 1 where there was a difference.

- `check` reads certificates that cadical made (its proof, with hints that drat.py finds), each also with its steps broken in several ways,
  clauses that have a solution, with steps that hold and without, and texts of other forms. What it prints is compared with what the judge
  of lrat.py says.
- What `cert` prints for goals of prove_designs.py and of the examples is judged by lrat.py, its clauses are refuted by cadical, and `check`
  must say the same of it. The goals that take long are left out.

Needs cadical."""

import pathlib
import random
import subprocess
import sys
import tempfile

import drat
import lrat
import prove_designs

BENCH = pathlib.Path(__file__).resolve().parent
EXAMPLES = BENCH.parent / "examples"
UNSATISFIABLE = 20

# Clauses whose proofs take drat.py over ten seconds.
LONG = ("distributed5", "mul6", "mul7")

# The goals that take seconds, or whose steps take lrat.py as long: runs of prove_designs.py by their names and sizes, and of an example.
SLOW = {
    ("product swapped", "8"), ("product swapped", "10"), ("product by rows", "7"), ("product by rows", "8"), ("product by rows", "10"),
    ("product over a sum", "6"), ("sum of two squares", "12"), ("product without a row", "10"), ("shift in either order", "128"),
    ("priority encoder", "128"), ("arbiter", "64"), ("ALU", "2 more stages"), ("ALU", "10 more stages"), ("ALU", "30 more stages"),
    ("correcting code", "32"), ("correcting code", "64"), ("order in a ring", "128"),
    ("product", "distributed"),
}


def solve(variables, clauses):
    """Whether cadical finds that the clauses have no solution, and its proof."""
    with tempfile.TemporaryDirectory() as folder:
        names = ["%s/%s" % (folder, name) for name in ("clauses", "proof")]
        pathlib.Path(names[0]).write_text(lrat.text(variables, clauses, []))
        run = subprocess.run(["cadical", "-q", "--no-binary", *names], stdout=subprocess.DEVNULL)
        return run.returncode == UNSATISFIABLE, pathlib.Path(names[1]).read_text()


def broken(source, clauses, steps):
    """Steps that are broken in some way, with the name of the way."""
    yield "no last step", steps[:-1]
    place = source.randrange(len(steps))
    clause, hints = steps[place]

    def instead(step):
        return steps[:place] + [step] + steps[place + 1 :]

    yield "one hint less", instead((clause, hints[:-1]))
    yield "hints turned round", instead((clause, hints[::-1]))
    yield "another hint", instead((clause, [source.randrange(len(clauses))] + hints[1:]))
    yield "one literal less", instead((clause[1:], hints))
    yield "a literal and its negation", instead((clause + [1, -1], hints))
    yield "no such step", steps[:place] + [(clause, [])] + steps[place:]


def resolvents(clauses, most):
    """Steps that resolve two clauses each."""
    steps = []
    for one, left in enumerate(clauses):
        for other in range(one):
            clash = [literal for literal in left if -literal in clauses[other]]
            if len(clash) == 1 and len(steps) < most:
                rest = {literal for literal in left + clauses[other] if abs(literal) != abs(clash[0])}
                steps.append((sorted(rest), [one, other]))
    return steps


def formulas(folder):
    """The clauses of sat_files.py, and random ones, of which many have a solution."""
    subprocess.run([sys.executable, BENCH / "sat_files.py"], cwd=folder, check=True)
    for path in sorted(folder.glob("*.cnf")):
        variables, clauses, _ = lrat.read(path.read_bytes())
        if path.stem not in LONG:
            yield path.stem, variables, clauses
    for seed in range(40):
        source = random.Random(seed)
        clauses = [[name * source.choice((1, -1)) for name in source.sample(range(1, 51), 3)] for _ in range(150 + 3 * seed)]
        yield "random%d" % seed, 50, clauses


class Outcomes:
    """Counts what was compared, and prints what differs."""

    def __init__(self, svtv):
        self.svtv, self.compared, self.differences = svtv, 0, 0

    def run(self, *words):
        # (designs of examples name the files that they include from the top of the repository)
        return subprocess.run([self.svtv, *map(str, words)], cwd=BENCH.parent, capture_output=True, text=True)

    def same(self, name, ours, theirs):
        self.compared += 1
        if ours != theirs:
            self.differences += 1
            print("%s: %r, and not %r" % (name, ours, theirs), flush=True)

    def check(self, name, text, verdict):
        """`check` of a text prints a verdict and nothing else, with the status that goes with it."""
        with tempfile.NamedTemporaryFile("w", suffix=".cert") as file:
            file.write(text)
            file.flush()
            run = self.run("check", file.name)
        self.same(name, (run.stdout, run.stderr, run.returncode), (verdict + "\n", "", 0 if verdict == "verified" else 1))


def others(outcomes, folder):
    """Certificates of another solver."""
    for name, variables, clauses in formulas(folder):
        refuted, proof = solve(variables, clauses)
        if not refuted:
            outcomes.check(name + ", no steps", lrat.text(variables, clauses, []), "not verified: step 0")
            steps = resolvents(clauses, 50)
            outcomes.check(name + ", resolvents", lrat.text(variables, clauses, steps), "not verified: step %d" % len(steps))
            continue
        steps = drat.steps(clauses, proof)
        whole = lrat.text(variables, clauses, steps)
        outcomes.same(name + ", the judge", lrat.judge(variables, clauses, steps), "verified")
        outcomes.check(name, whole, "verified")
        outcomes.check(name + ", other line ends", "c by another\n\n" + whole.replace("\n", "\r\n").rstrip(), "verified")
        for way, changed in broken(random.Random(name), clauses, steps):
            outcomes.check(name + ", " + way, lrat.text(variables, clauses, changed), lrat.judge(variables, clauses, changed))


def goals(folder):
    """The goals: a name, and the words of a command behind the command."""
    for place, run in enumerate(prove_designs.runs()):
        if run.budget is None and (run.name, str(run.size)) not in SLOW:
            files = [folder / ("%d.%s" % (place, end)) for end in ("sv", "csv", "txt")]
            for file, text in zip(files, (run.design, run.table(), "".join(goal.text() for goal in run.goals))):
                file.write_text(text)
            for goal in run.goals:
                yield "%s %s" % (run.name, run.size), [*files, goal.name, "--top", run.top]
    for path in sorted(EXAMPLES.glob("*/g.txt")):
        for line in path.read_text().splitlines():
            if line.startswith("goal ") and (path.parent.name, line.split()[1]) not in SLOW:
                yield path.parent.name, [path.parent / "d.sv", path.parent / "t.csv", path, line.split()[1]]


def own(outcomes, folder):
    """Certificates of the product."""
    for name, words in goals(folder):
        run = outcomes.run("cert", *words)
        if run.returncode == 1:
            report = outcomes.run("prove", *words[:3]).stdout
            outcomes.same("%s: %s, its report" % (name, words[3]), run.stdout in report and run.stderr == "", True)
            continue
        outcomes.same("%s: %s, status" % (name, words[3]), (run.returncode, run.stderr), (0, ""))
        certificate = lrat.read(run.stdout.encode())
        outcomes.same("%s: %s, the judge" % (name, words[3]), lrat.judge(*certificate), "verified")
        outcomes.same("%s: %s, cadical" % (name, words[3]), solve(*certificate[:2])[0], True)
        outcomes.check("%s: %s" % (name, words[3]), run.stdout, "verified")
        shorter = (certificate[0], certificate[1], certificate[2][:-1])
        outcomes.check("%s: %s, no last step" % (name, words[3]), lrat.text(*shorter), lrat.judge(*shorter))


def main(svtv):
    outcomes = Outcomes(svtv)
    with tempfile.TemporaryDirectory() as name:
        others(outcomes, pathlib.Path(name))
        own(outcomes, pathlib.Path(name))
    print("%d compared, %d differ" % (outcomes.compared, outcomes.differences))
    return 1 if outcomes.differences else 0


if __name__ == "__main__":
    sys.exit(main(sys.argv[1]))
