"""The solver beside minisat and cadical on the clauses of each goal of a suite: time, and peak of memory.

Both questions of a goal count: whether some choice meets the hypotheses and breaks a claim, and, where none does, whether some choice
meets the hypotheses. Times are processor seconds without those of the system, the least of three runs, one after the other by each program, so that
other work disturbs all alike; memory is the peak of what is resident. A file counts in the means where the faster of minisat
and cadical takes 0.02 to 10 seconds, and in the worst ratio where that takes over 0.2.

Numbers that steer the solver are chosen on the goals in even places of the sorted names, and reported on the others: the means are
printed for both halves. (The second suite is read as a whole.)

From the environment: CLAUSES is the program that clauses.sh makes, SOLVER the solver with its words (it reads standard input, as
sat_dimacs does), SUITE the module that has the runs (prove_designs), BY whose clauses these are, svtv's or those that yosys makes of the
same goals (BY=yosys, which needs no CLAUSES), ROOM a folder where the clauses are kept for another time, LIMIT the seconds of one run
(60), RUNS how often each is run (3), MORE a folder of further files in DIMACS form. Words choose the runs whose name begins with one of
them. Needs /usr/bin/time.
"""

import importlib
import math
import os
import pathlib
import re
import resource
import subprocess
import sys
import tempfile

import prove_others

SUITE = importlib.import_module(os.environ.get("SUITE", "prove_designs"))
BY = os.environ.get("BY", "svtv")
LIMIT = int(os.environ.get("LIMIT", "60"))
RUNS = int(os.environ.get("RUNS", "3"))
PROGRAMS = {"minisat": ["minisat", "-verb=0"], "cadical": ["cadical", "-q", "-n"], "solver": os.environ.get("SOLVER", "").split()}
LEAST, MOST, COUNTED = 0.02, 10, 0.2


def questions(text):
    """The clauses of each goal's two questions in what CLAUSES writes: (goal, `breaks` or `meets`, text)."""
    return re.findall(r"^c (\w+) (breaks|meets)\n(p cnf [^c]*)", text, re.MULTILINE)


def asked(goal):
    """The questions that are asked of a goal, and their answers."""
    if BY == "yosys":
        return {"breaks": goal.verdict == "failed"}
    if goal.verdict == "failed":
        return {"breaks": True}
    return {"breaks": False, "meets": goal.verdict == "proved"}


def write_own(room, name, run):
    """Writes the clauses that svtv makes of the goals of a run."""
    with tempfile.TemporaryDirectory() as folder:
        texts = {"d.sv": run.design, "t.csv": run.table(), "g.txt": "".join(goal.text() for goal in run.goals)}
        for file, text in texts.items():
            pathlib.Path(folder, file).write_text(text)
        told = subprocess.run([os.environ["CLAUSES"], *texts], cwd=folder, stdout=subprocess.PIPE, check=True).stdout.decode()
    for goal, kind, text in questions(told):
        (room / ("%s-%s-%s.cnf" % (name, goal, kind))).write_text(text)


def write_yosys(room, name, run):
    """Writes the clauses that yosys makes of the goals of a run, as far as it reads them."""
    for goal in run.goals:
        with tempfile.TemporaryDirectory() as folder:
            folder = pathlib.Path(folder)
            (folder / "d.sv").write_text(run.design)
            prove_others.write_script(folder, run, goal)
            text = (folder / "goal.ys").read_text().replace(" -verify", "").replace(" -falsify", "")
            (folder / "goal.ys").write_text(text.replace("sat -prove", "sat -timeout 1 -dump_cnf goal.cnf -prove"))
            subprocess.run(["yosys", "-q", "goal.ys"], cwd=folder, capture_output=True)
            if (folder / "goal.cnf").exists():
                (room / ("%s-%s-breaks.cnf" % (name, goal.name))).write_text((folder / "goal.cnf").read_text())
            else:
                print("no clauses by yosys: %s %s" % (name, goal.name))


def write_suite(room, words):
    """Writes the clauses of each question as a file, and gives their names with the awaited answers."""
    awaited = {}
    for run in SUITE.runs():
        if words and not any(run.name.startswith(word) for word in words):
            continue
        if BY == "yosys" and not run.alike:
            continue
        name = re.sub(r"\W+", "_", "%s %s" % (run.name, run.size))
        if not all((room / ("%s-%s-breaks.cnf" % (name, goal.name))).exists() for goal in run.goals):
            if BY == "yosys":
                write_yosys(room, name, run)
            else:
                write_own(room, name, run)
        asks = {"%s-%s-%s" % (name, goal.name, kind): answer for goal in run.goals for kind, answer in asked(goal).items()}
        awaited.update({question: answer for question, answer in asks.items() if (room / (question + ".cnf")).exists()})
    return awaited


def limited():
    resource.setrlimit(resource.RLIMIT_CPU, (LIMIT, LIMIT + 1))


def run_once(program, file):
    """Processor seconds, peak of memory in MB, and the answer, if there is one. (A process is told as large at least as the one that began
    it, so `time`, which is small, begins each.)"""
    words = PROGRAMS[program] + ([] if program == "solver" else [str(file)])
    with open(file if program == "solver" else os.devnull, "rb") as given, tempfile.NamedTemporaryFile("r") as told:
        timed = ["/usr/bin/time", "-o", told.name, "-f", "%M", *words]
        ran = subprocess.Popen(timed, stdin=given, stdout=subprocess.PIPE, stderr=subprocess.DEVNULL, preexec_fn=limited)
        said = ran.stdout.read().decode()
        _, ran.returncode, used = os.wait4(ran.pid, 0)
        memory = int(told.read().split()[-1])
    found = re.search(r"^(?:s )?(UN)?SATISFIABLE", said, re.MULTILINE)
    return used.ru_utime, memory / 1024, found and found[1] is None


def measure(file):
    """The least seconds, the least memory and the answer of each program; no seconds where it has no answer."""
    told = {}
    for turn in range(RUNS):
        for program in PROGRAMS:
            if turn and (told[program][0] is None or told[program][0] > 3):
                continue
            seconds, memory, answer = run_once(program, file)
            seconds = None if answer is None else seconds
            before = told.get(program, (seconds, memory))
            told[program] = (seconds and min(seconds, before[0]), min(memory, before[1]), answer)
    return told


def mean(ratios):
    return math.exp(sum(map(math.log, ratios)) / len(ratios)) if ratios else float("nan")


def choosing(names):
    """The goals on which numbers are chosen: those in even places of the sorted names."""
    goals = sorted({name.rsplit("-", 1)[0] for name in names})
    return set(goals[::2])


def summary(rows, title):
    """The means of the ratios, and the worst ones."""
    print("%s:" % title)
    floor = 0.005
    both = [row for row in rows if row["solver"][0] is not None]
    for other in ("minisat", "cadical"):
        ratios = [max(row["solver"][0], floor) / max(row[other][0], floor) for row in both if row[other][0] is not None]
        print("time to %s's: %.2f, mean of %d files" % (other, mean(ratios), len(ratios)))
    ratios = [max(row["solver"][0], floor) / row["best"] for row in both]
    print("time to the better of both: %.2f, mean of %d files" % (mean(ratios), len(ratios)))
    ratios = [row["solver"][1] / row["minisat"][1] for row in rows]
    print("memory to minisat's: %.2f in the mean, %.2f at the most" % (mean(ratios), max(ratios, default=0)))
    worst = sorted(((row["solver"][0] / row["best"], row["name"]) for row in both if row["best"] > COUNTED), reverse=True)
    print("worst ratios to the better of both: " + ", ".join("%.1f (%s)" % each for each in worst[:5]))
    for row in rows:
        if row["solver"][0] is None:
            print("no answer: %s (%.2f by the better of both)" % (row["name"], row["best"]))


def main(words):
    with tempfile.TemporaryDirectory() as other:
        room = pathlib.Path(os.environ.get("ROOM", other))
        room.mkdir(parents=True, exist_ok=True)
        awaited = write_suite(room, words)
        files = {name: room / (name + ".cnf") for name in awaited}
        if "MORE" in os.environ:
            files.update({file.stem: file for file in sorted(pathlib.Path(os.environ["MORE"]).glob("*.cnf"))})
        chosen = choosing(files)
        rows = []
        print("%-56s %8s %8s %8s %6s %6s %6s" % ("clauses", *PROGRAMS, "MB", "MB", "MB"))
        for name, file in files.items():
            row = measure(file)
            best = min((row[each][0] for each in ("minisat", "cadical") if row[each][0] is not None), default=None)
            if any(answer not in (None, awaited.get(name, answer)) for _, _, answer in row.values()):
                print("%-56s WRONG ANSWER" % name)
            if best is None or not LEAST <= best <= MOST:
                continue
            rows.append({**row, "name": name, "best": best})
            cells = ["-" if row[each][0] is None else "%.3f" % row[each][0] for each in PROGRAMS]
            print("%-56s %8s %8s %8s" % (name, *cells) + "".join(" %6.1f" % row[each][1] for each in PROGRAMS), flush=True)
        for title, is_chosen in (("choosing half", True), ("reporting half", False)):
            summary([row for row in rows if (row["name"].rsplit("-", 1)[0] in chosen) == is_chosen], title)
        summary(rows, "all")


if __name__ == "__main__":
    main(sys.argv[1:])
