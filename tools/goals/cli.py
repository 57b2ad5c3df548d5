"""The command: from its words to what is printed and the status."""

from __future__ import annotations

import os
import secrets
import shutil
import signal
import sys
from collections.abc import Iterator
from contextlib import contextmanager
from dataclasses import dataclass
from pathlib import Path

from goals import hosts, program, run, show, text
from goals.kept import Kept, Record, cache, open_kept
from goals.program import Missing
from goals.words import Words, read_words
from goals.work import Unknown, Whole, Work, check_names, hand_out, packed, read_work

USAGE, WRITE_FAULT, WITHOUT_VERDICT = 2, 5, 7
SIGNALS = (signal.SIGINT, signal.SIGTERM, signal.SIGHUP)


class Interrupted(BaseException):
    """A signal asks for the end."""

    def __init__(self, number: int):
        super().__init__(number)
        self.number = number


def interrupt(number: int, _frame: object) -> None:
    """The first signal ends the work in order; what comes while that goes on is passed over."""
    for other in SIGNALS:
        signal.signal(other, signal.SIG_IGN)
    raise Interrupted(number)


@dataclass(frozen=True)
class Outcome:
    """The records of the goals that ended, how the jobs ended of those that have none, and whether all machines worked."""

    records: dict[int, Record]
    lost: dict[int, str]
    all_reached: bool


@contextmanager
def handed_out(work: Work, words: Words, svtv: Path, kept: Kept, chosen: list[hosts.Host]) -> Iterator[tuple[str, list[hosts.Reached]]]:
    """A folder with all that a job needs, on each machine, by its name; it is removed behind the context."""
    name = run.folder_name(secrets.token_hex(8))
    folder = kept.folder / name
    others: set[str] = set()
    try:
        hand_out(work, svtv, words.timeout, folder)
        others = {host.name for host in chosen if not host.is_here}
        reached = hosts.reach(chosen, folder, packed(folder) if others else b"")
        others -= {it.host.name for it in reached if not it.answers}
        yield name, reached
    finally:
        hosts.leave(others, name)
        shutil.rmtree(folder, ignore_errors=True)


def decided(parallel: run.Parallel, kept: Kept, work: Work, done: dict[int, Record]) -> dict[int, Record]:
    """The records of all goals that ended, in this call or before. Whole where svtv does not take the files after all."""
    count = show.Count(len(work.chosen))
    for it in done.values():
        count.ended(it.is_proved, fresh=False)
    bar, found = show.Bar(count), dict(done)
    try:
        for record in parallel.records():
            if record is not None:
                if record.is_refused:
                    raise Whole
                kept.add(record)
                found[record.goal] = record
                count.ended(record.is_proved, fresh=True)
            bar.draw()
    finally:
        bar.wipe()
    return found


def losses(parallel: run.Parallel, kept: Kept, work: Work, found: dict[int, Record]) -> dict[int, str]:
    """Why goals have no record: their jobs were lost."""
    ends, lost = kept.job_ends(), {}
    for place, number in enumerate(work.chosen, 1):
        if number not in found:
            host, code, killed = ends.get(place, (":", 0, 0))
            why = f"killed by signal {killed}" if killed else f"the job ended with {code}" if code else "the job was not run"
            where = "" if host == ":" else f" on {host}"
            complaint = parallel.complaint()
            lost[number] = f"{why}{where}{': ' if complaint else ''}{complaint}"
    return lost


def decide(work: Work, words: Words, svtv: Path, kept: Kept, machines: list[hosts.Host]) -> Outcome:
    """Decides the goals that have no verdict yet."""
    done = kept.verdicts()
    if len(done) == len(work.chosen):
        return Outcome(done, {}, True)
    parallel = run.find_parallel()
    kept.trim_joblog(run.places_done(work.chosen, set(done)))
    with handed_out(work, words, svtv, kept, machines) as (folder, reached):
        for it in reached:
            if it.why:
                show.say(f"svtv-goals: {it.why}")
        working = [it.host for it in reached if not it.why]
        if not working:
            raise Missing("no machine works")
        with run.Parallel(parallel, kept, working, folder, work.chosen) as running:
            found = decided(running, kept, work, done)
            lost = losses(running, kept, work, found)
    return Outcome(found, lost, len(working) == len(reached))


def printed(report: bytes) -> bool:
    """Writes all of it on the output, if that can be."""
    try:
        with open(1, "wb", closefd=False) as output:
            output.write(report)
    except OSError:
        return False
    return True


def tell(work: Work, words: Words, outcome: Outcome) -> int:
    """Prints what was decided, and on the error stream what was not."""
    records = [outcome.records.get(number) for number in work.chosen]
    names = [work.goals[number].name for number in work.chosen]
    decided = [record for record in records if record is not None and record.is_verdict]
    if not printed("".join(record.out for record in decided).encode("latin-1")):
        return WRITE_FAULT
    for number, name, record in zip(work.chosen, names, records):
        if record is None:
            show.say(f"{name}: {outcome.lost[number]}")
        elif not record.is_verdict:
            show.say(f"{name}: {show.trouble(record, words.timeout)}")
    if words.times:
        show.say(show.times(names, records))
    if len(decided) < len(records) or not outcome.all_reached:
        return WITHOUT_VERDICT
    return int(not all(record.is_proved for record in decided))


def machines_of(words: Words) -> list[hosts.Host]:
    found = hosts.hosts_of(words.hosts) if words.hosts else [hosts.Host(hosts.HERE, None)]
    return [hosts.Host(host.name, host.jobs or words.jobs) for host in found]


def worked(work: Work, words: Words, svtv: Path, machines: list[hosts.Host]) -> int:
    """Decides and prints the goals. What was decided is kept for the next call of the same words, unless all is told."""
    kept = open_kept(cache(os.environ), work.digest(svtv))
    status = None
    try:
        status = tell(work, words, decide(work, words, svtv, kept, machines))
        return status
    except Interrupted:
        show.say(f"svtv-goals: interrupted; {len(kept.verdicts())} of {len(work.chosen)} goals are decided, and the same words go on there")
        raise
    except Whole:
        kept.remove()
        raise
    finally:
        if status in (0, 1) or not kept.verdicts():
            kept.remove()
        kept.release()


def handed_over(words: Words, svtv: Path) -> int:
    """What svtv says of the files as they are; where it decides goals all the same, the chosen ones are picked out."""
    status, out = program.whole(svtv, words.command)
    if words.only and status in (0, 1):
        reports = text.reports(out)
        check_names(words.command, words.only, list(reports))
        chosen = {name: report for name, report in reports.items() if name in words.only}
        status, out = int(not all(text.is_proved(*each) for each in chosen.items())), b"".join(chosen.values())
    return status if printed(out) else WRITE_FAULT


def answer(words: Words, top: Path) -> int:
    """Decides the goals one by one, or leaves the files to svtv."""
    machines = machines_of(words)
    try:
        work = read_work(words.command, words.only)
    except Whole:
        return handed_over(words, program.find(top, os.environ))
    svtv = program.find(top, os.environ)
    if not program.accepts(svtv, work.command, work.whole, work.goals):
        return handed_over(words, svtv)
    try:
        return worked(work, words, svtv, machines)
    except Whole:
        return handed_over(words, svtv)


def main(arguments: list[str], top: Path) -> int:
    """The status of the command with these words; the repository's folder is where `svtv` is looked for."""
    if sys.stderr is None:
        sys.stderr = open(os.devnull, "w")
    words = read_words(arguments)
    try:
        for number in SIGNALS:
            if number != signal.SIGHUP or signal.getsignal(number) != signal.SIG_IGN:
                signal.signal(number, interrupt)
        return answer(words, top)
    except Interrupted as signalled:
        return 128 + signalled.number
    except (Unknown, hosts.BadHosts) as error:
        show.say(f"svtv-goals: {error}")
        return USAGE
    except (Missing, OSError) as error:
        show.say(f"svtv-goals: {error}")
        return WITHOUT_VERDICT
