"""Runs the suite: each goal by `svtv prove` and, where they are installed, by yosys, abc, minisat and cadical.

Prints processor seconds (with those of the system): the median of three runs, or one run where it takes over ten seconds. For minisat,
cadical and abc the making of gates and clauses is not counted, for yosys and svtv all is. The ratio is svtv's time to the least of the
others. Behind the table stand the geometric means of the ratios, the worst ones, and the goals that fall short: those that take over
three times the least of the others where that is over 0.2 seconds.

Words choose the runs whose name begins with one of them; none: all. From the environment: SVTV is the program, LIMIT the processor
seconds of one run (60), RUNS how often each is run (3), MEMORY the bytes that one may take (8 GiB), CLAUSES the program that clauses.sh
makes, which writes svtv's own clauses of a goal: minisat and cadical are then run on those of its question too. With SOLVER, the
solver alone (sat_dimacs), and ROOM, a folder in which goal_clauses.py kept svtv's clauses, the solver is run on those of all questions
that are asked of a goal, and what a whole run takes beside it is told of the goals that take over 0.05 seconds. SUITE is the module that
has the runs (prove_designs).
"""

import importlib
import math
import os
import pathlib
import re
import resource
import shutil
import statistics
import subprocess
import sys
import tempfile

import goal_clauses
import prove_others

SUITE = importlib.import_module(os.environ.get("SUITE", "prove_designs"))

LIMIT = int(os.environ.get("LIMIT", "60"))
RUNS = int(os.environ.get("RUNS", "3"))
MEMORY = int(os.environ.get("MEMORY", str(8 << 30)))
PROGRAM = os.environ.get("SVTV", "./svtv")
CLAUSES = os.environ.get("CLAUSES")
ROOM = os.environ.get("ROOM")
SOLVER = os.environ.get("SOLVER")

NAMES = {"abc": ("berkeley-abc", "abc", "yosys-abc")}
OTHERS = ("yosys", "abc", "minisat", "cadical")


def tool(name):
    """The program of that name, under one of the names that it is installed under; None where it is not."""
    return next(filter(None, map(shutil.which, NAMES.get(name, (name,)))), None)


def limited():
    resource.setrlimit(resource.RLIMIT_CPU, (LIMIT, LIMIT + 1))
    resource.setrlimit(resource.RLIMIT_AS, (MEMORY, MEMORY))


def run_once(words, folder):
    """Processor seconds of a command, its status, and what it printed."""
    with tempfile.TemporaryFile() as text:
        started = subprocess.Popen(words, cwd=folder, stdin=subprocess.DEVNULL, stdout=text, stderr=subprocess.STDOUT, preexec_fn=limited)
        _, status, usage = os.wait4(started.pid, 0)
        started.returncode = os.waitstatus_to_exitcode(status)
        text.seek(0)
        printed = text.read().decode("latin1")
    return usage.ru_utime + usage.ru_stime, started.returncode, printed


def measure(words, folder, answer):
    """The seconds of a command and its answer, which `answer` finds in its status and text; no seconds where it has none."""
    took = []
    for _ in range(RUNS):
        seconds, status, printed = run_once(words, folder)
        found = answer(status, printed)
        if found is None:
            return None, "over" if seconds > 0.95 * LIMIT else "none"
        took.append(seconds)
        if seconds > 10:
            break
    return statistics.median(took), found


def solver_answer(status, _):
    return {10: "failed", 20: "holds"}.get(status)


def abc_answer(_, printed):
    if re.search(r"\bUNSATISFIABLE|Networks are equivalent|Verification successful", printed):
        return "holds"
    return "failed" if re.search(r"\bSATISFIABLE|NOT EQUIVALENT", printed) else None


def least(measured):
    """The fastest of some measurements that have an answer."""
    return min(measured, key=lambda each: math.inf if each[0] is None else each[0])


def ask_yosys(folder, run, goal):
    prove_others.write_script(folder, run, goal)
    wanted = "failed" if goal.verdict == "failed" else "holds"
    return measure([tool("yosys"), "-q", "goal.ys"], folder, lambda status, _: {0: wanted, 1: "other"}.get(status))


def ask_abc(folder, *_):
    ways = ("read_aiger goal.aig; iprove", "&r goal.aig; &cec -m -C 1000000000")
    return least([measure([tool("abc"), "-c", way], folder, abc_answer) for way in ways])


def ask_solver(name, file):
    words = {"minisat": ["-verb=0"], "cadical": ["-q"]}[name]
    return lambda folder, *_: measure([tool(name), *words, file], folder, solver_answer)


ASK = {"yosys": ask_yosys, "abc": ask_abc, "minisat": ask_solver("minisat", "goal.cnf"), "cadical": ask_solver("cadical", "goal.cnf")}


def ask_others(folder, run, goal):
    """What each of the other programs needs and says."""
    if not run.alike:
        return {name: (None, "-") for name in OTHERS}
    if tool("yosys"):
        prove_others.write_gates(folder, run, goal)
    ready = {name: tool("yosys") and tool(name) for name in OTHERS}
    return {name: ASK[name](folder, run, goal) if ready[name] else (None, "-") for name in OTHERS}


def ask_svtv(folder, run, goals):
    """What svtv needs for goals of a run, and the verdicts that it prints."""
    (folder / "d.sv").write_text(run.design)
    (folder / "t.csv").write_text(run.table())
    (folder / "g.txt").write_text("".join(goal.text() for goal in goals))
    words = [PROGRAM, "prove", "d.sv", "t.csv", "g.txt"] + (["--budget", str(run.budget)] if run.budget else [])

    def verdicts(status, printed):
        told = dict(re.findall(r"^(\w+): (\w+)", printed, re.MULTILINE))
        return [told.get(goal.name) for goal in goals] if status in (0, 1) else None

    return measure(words, folder, verdicts)


def ask_ours(folder, goal):
    """minisat and cadical on the clauses that svtv makes of the goal's question."""
    told = subprocess.run([CLAUSES, "d.sv", "t.csv", "g.txt"], cwd=folder, stdout=subprocess.PIPE, check=False).stdout.decode()
    kind = "meets" if goal.verdict == "vacuous" else "breaks"
    texts = {asked: text for _, asked, text in goal_clauses.questions(told)}
    (folder / "ours.cnf").write_text(texts.get(kind, ""))
    return {name: ask_solver(name, "ours.cnf")(folder) if tool(name) else (None, "-") for name in ("minisat", "cadical")}


def ask_alone(run, goal):
    """The seconds of the solver alone on the clauses of the questions that are asked of a goal."""
    name = re.sub(r"\W+", "_", "%s %s" % (run.name, run.size))
    seconds = 0
    for kind in goal_clauses.asked(goal):
        words = ["sh", "-c", "%s <%s/%s-%s-%s.cnf" % (SOLVER, ROOM, name, goal.name, kind)]
        took, _ = measure(words, ".", lambda _, printed: re.search(r"^s (UN)?SATISFIABLE", printed, re.MULTILINE))
        if took is None:
            return None
        seconds += took
    return seconds


def shown(measured, wanted):
    """Seconds; why there are none; and a mark where the answer is not the wanted one."""
    seconds, answer = measured
    if seconds is None:
        return {"over": ">%d" % LIMIT}.get(answer, answer)
    return "%.3f%s" % (seconds, "" if answer == wanted else " (?)")


def columns(name, size, goal, verdict, cells):
    print("%-22s %-18s %-12s %-10s" % (name, size, goal, verdict) + "".join(" %10s" % cell for cell in cells), flush=True)


def short(ours, best):
    """Whether a time falls short of what is to be reached."""
    return ours is None or (best > 0.2 and ours > 3 * best)


def judge(folder, run, goal):
    """Runs one goal everywhere, prints its line, and gives its times: svtv's, the least of the others that are right, and the solver's alone."""
    verdict = "undecided" if run.budget else goal.verdict
    ours = ask_svtv(folder, run, [goal])
    others = ask_others(folder, run, goal)
    wanted = "failed" if goal.verdict == "failed" else "holds"
    best = min((seconds for seconds, answer in others.values() if answer == wanted), default=None)
    ratio = "%.2f" % (ours[0] / best) if ours[0] is not None and best else "-"
    cells = [shown(ours, [verdict])] + [shown(others[name], wanted) for name in OTHERS] + [ratio]
    if CLAUSES:
        cells += [shown(measured, wanted) for measured in ask_ours(folder, goal).values()]
    alone = ask_alone(run, goal) if ROOM and SOLVER else None
    if ROOM and SOLVER:
        cells.append("-" if alone is None else "%.3f" % alone)
    columns(run.name, run.size, goal.name, verdict, cells)
    return ours[0], best, alone


def summary(times):
    """The mean of the ratios, and what falls short."""
    both = {key: (ours, best) for key, (ours, best, _) in times.items() if ours and best}
    for told, bound in (("all goals", 0), ("over 0.05 seconds elsewhere", 0.05), ("over a second elsewhere", 1)):
        ratios = [math.log(ours / best) for ours, best in both.values() if best > bound]
        if ratios:
            print("geometric mean of %d ratios (%s): %.2f" % (len(ratios), told, math.exp(statistics.mean(ratios))))
    worst = sorted(((ours / best, key) for key, (ours, best) in both.items() if best > 0.2), reverse=True)
    print("worst ratios over 0.2 seconds elsewhere: " + "; ".join("%.2f (%s)" % each for each in worst[:5]))
    for key, (ours, best, _) in times.items():
        if best and short(ours, best):
            print("falls short: %s: %s against %.3f" % (key, "none" if ours is None else "%.3f" % ours, best))
    beside = sorted(((ours / alone, key) for key, (ours, _, alone) in times.items() if ours and alone and ours > 0.05), reverse=True)
    if beside:
        told = math.exp(statistics.mean(math.log(ratio) for ratio, _ in beside))
        print("to the solver alone: %.2f, geometric mean of %d goals over 0.05 seconds; " % (told, len(beside)) + "; ".join("%.2f (%s)" % (ratio, key) for ratio, key in beside[:8]))


def main(words):
    chosen = [run for run in SUITE.runs() if not words or any(run.name.startswith(word) for word in words)]
    columns("run", "size", "goal", "verdict", ["svtv", *OTHERS, "ratio"] + (["minisat*", "cadical*"] if CLAUSES else []) + (["alone"] if ROOM and SOLVER else []))
    times = {}
    with tempfile.TemporaryDirectory() as room:
        for number, run in enumerate(chosen):
            folder = pathlib.Path(room, str(number))
            folder.mkdir()
            for goal in run.goals:
                times["%s, %s, %s" % (run.name, run.size, goal.name)] = judge(folder, run, goal)
            if len(run.goals) > 1:
                whole = ask_svtv(folder, run, run.goals)
                columns(run.name, run.size, "all goals", "", [shown(whole, [goal.verdict for goal in run.goals])])
    summary(times)


if __name__ == "__main__":
    main(sys.argv[1:])
