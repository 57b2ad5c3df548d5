"""Whether an answer of the program has the form that the manual gives: its status, what it printed, and its message.

`fault` says what is wrong with an answer, or nothing. It knows no design: only which status goes with which text.
"""

import re

USAGE = b"usage: svtv prove DESIGN TABLE GOALS [--top M] [--budget N]\n" + b"".join(
    b"       svtv " + line for line in (b"sim DESIGN TABLE VALUES [--top M] [--vcd]\n", b"dump DESIGN [--top M]\n", b"selftest N\n",
    b"cert DESIGN TABLE GOALS GOAL [--top M] [--budget N]\n", b"check CERT\n",
    b"induct DESIGN RESET PERIOD INVS [--top M] [--budget N]\n", b"wave VCD PATH\n"))

# The refusals by number, each with its word; those of tables and values, of goals, of the design as a whole, of certificates, and of value change dumps.
WORDS = dict(enumerate(
    "BadByte BadToken IncludeDeep TooLong Unbalanced MacroUnknown MacroDeep Syntax TooDeep TopUnclear UnknownModule UnknownName Twice "
    "Width ConstUnknown LiteralRange PortUnknown PortTwice BadTarget LoopLong InstanceDeep TooManyBits BadSelect WrongAssign OutOfScope "
    "Shape Phases CellBad SignalUnknown SignalTwice VarWidth SampleTwice GoalSyntax GoalTwice VarMissing VarUnknown VarTwice ValueBad "
    "LoopTooWide Unbuilt GoalUnknown CertSyntax CertId RatHint InvariantHyp SampleUnlike VcdSyntax VcdSignal".split(), 1))
COUNTED = (10, 39)

REFUSAL = re.compile(rb"(.*):([1-9][0-9]*):([1-9][0-9]*): E([1-9][0-9]*) ([A-Za-z]+)( [0-9]+)?\n", re.DOTALL)
UNREAD = re.compile(rb"(.*):([1-9][0-9]*):([1-9][0-9]*): read fault\n", re.DOTALL)
NAME = rb"[A-Za-z_][A-Za-z0-9_$]*"
VERDICTS = re.compile(rb"(?:%s: (?:proved|vacuous|undecided after [1-9][0-9]*|failed\n(?:  (?:var|sample) %s = [1-9][0-9]*'b[01xz]+\n)*)\n?)*" % (NAME, NAME))
INVARIANTS = re.compile(rb"(?:%s: (?:invariant|undecided after [1-9][0-9]*|(?:base|step) fails\n(?:  (?:var|before|sample) %s = [1-9][0-9]*'b[01xz]+\n)*)\n?)*" % (NAME, NAME))
SAMPLES = re.compile(rb"(?:%s = [1-9][0-9]*'b[01xz]+\n)*" % NAME)
CERTIFIED = re.compile(rb"c %s (?:proved|vacuous)\np cnf [0-9]+ [0-9]+\n(?:-?[0-9]+ )*0\n(?:(?:-?[0-9]+ )*0\n)*" % NAME)
CHECKED = re.compile(rb"verified\n|not verified: step [0-9]+\n")
CHANGES = re.compile(rb"(?:[0-9]+ [1-9][0-9]*'b[01xz]+\n)*")
DUMP = re.compile(rb"\$timescale 1 ns \$end\n(?:\$(?:scope|upscope|var)[ -~]*\n)*\$enddefinitions \$end\n(?:(?:#[0-9]+|[01xz][!-~]+|b[01xz]+ [!-~]+)\n)*")
FLAT = re.compile(rb"flat 1\n(?:(?:wire|join|node|drive) [ -~]+\n)*end\n")


def refusal_fault(message):
    it = REFUSAL.fullmatch(message)
    if not it:
        return "no message of a refusal"
    number = int(it[4])
    if WORDS.get(number) != it[5].decode():
        return "a refusal with another word"
    if (number in COUNTED) != (it[6] is not None):
        return "a refusal with or without a count"
    return None


def printed_fault(words, status, out):
    """What is wrong with the text of a command that was done."""
    verb = words[0] if words else ""
    if verb == "prove":
        whole = VERDICTS.fullmatch(out)
        proved = all(line.endswith(b": proved") for line in out.splitlines())
        return None if whole and out and proved == (status == 0) else "no report, or one of another status"
    if verb == "cert":
        whole = CERTIFIED.fullmatch(out) if status == 0 else VERDICTS.fullmatch(out) and out and b": failed" in out or b": undecided" in out
        return None if whole else "no certificate, or no report, or one of another status"
    if verb == "check":
        return None if CHECKED.fullmatch(out) and out.startswith(b"verified") == (status == 0) else "not what is said of a certificate"
    if verb == "induct":
        whole = INVARIANTS.fullmatch(out)
        held = all(line.endswith(b": invariant") for line in out.splitlines())
        return None if whole and out and held == (status == 0) else "no report of invariants, or one of another status"
    if status != 0:
        return "status 1 of another command than prove, cert, check and induct"
    if verb == "sim" and "--vcd" in words[: words.index("--") if "--" in words else None]:
        return None if DUMP.fullmatch(out) else "no value change dump"
    form = {"sim": SAMPLES, "dump": FLAT, "wave": CHANGES}.get(verb)
    return None if form is None or form.fullmatch(out) else "no text of this command"


def fault(words, status, out, err):
    """What is wrong with an answer: its status ('memory' where it was stopped for what it took), its output and its message."""
    if status == "memory":
        return "took too much memory"
    if status < 0:
        return "ended by signal %d" % -status
    if status in (0, 1):
        return "a message beside an output" if err else printed_fault(words, status, out)
    if out:
        return "an output beside a refusal"
    if status == 2:
        return None if err == USAGE else "no usage"
    if status == 3:
        return refusal_fault(err)
    if status == 4:
        return None if UNREAD.fullmatch(err) else "no message of a read fault"
    if status == 6:
        return None if err == b"svtv: out of memory\n" else "no message of want of memory"
    return "status %d" % status
