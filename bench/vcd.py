"""Value change dumps in Python: a reader that shares nothing with the product. `read` gives the signals and the changes of a text, or says
where it breaks the form (`Broken`); `wave` gives what `svtv wave` has to print of a signal, or why it refuses it."""

import re

PLAIN_KINDS = (b"$scope", b"$upscope", b"$var", b"$enddefinitions")
SKIPPED = (b"$date", b"$version", b"$timescale", b"$comment")
DUMPS = (b"$dumpvars", b"$dumpall", b"$dumpon", b"$dumpoff")
CODE = re.compile(rb"[!-~]+")
REAL = re.compile(rb"[+-]?(?:[0-9]+(?:\.[0-9]+)?(?:[eE][+-]?[0-9]+)?|nan|inf|NaN|Inf)")
MOST_WIDTH, MOST_TIME = 2147483647, 2**64 - 1


class Broken(Exception):
    """The text breaks the form at this line and column."""


class Reader:
    """The words of a text, each with its place, and what they tell so far."""

    def __init__(self, text):
        self.words = [(word[0], word.start()) for word in re.finditer(rb"[^ \t\r\n]+", text)]
        self.text, self.at = text, 0
        self.scopes, self.vars, self.widths, self.changes = [], [], {}, []

    def broken(self, start):
        line = self.text.count(b"\n", 0, start) + 1
        return Broken((line, start - (self.text.rfind(b"\n", 0, start) + 1) + 1))

    def next(self, fits):
        """The next word, if it fits."""
        if self.at == len(self.words):
            raise self.broken(len(self.text))
        word, start = self.words[self.at]
        if not fits(word):
            raise self.broken(start)
        self.at += 1
        return word

    def end(self):
        self.next(lambda word: word == b"$end")

    def plain(self):
        return self.next(lambda word: word != b"$end")

    def number(self, most):
        return int(self.next(lambda word: re.fullmatch(rb"[0-9]+", word) and int(word) <= most))

    def skip(self):
        while self.next(lambda word: True) != b"$end":
            pass

    def var(self):
        kind, width = self.plain(), self.number(MOST_WIDTH)
        code = self.next(lambda word: CODE.fullmatch(word) and self.widths.get(word, width) == width)
        name = self.plain()
        if not self.next(lambda word: word == b"$end" or word.startswith(b"[")) == b"$end":
            self.end()
        self.widths[code] = width
        self.vars.append((b".".join(self.scopes + [name]), kind, width, code))

    def declarations(self):
        while True:
            word = self.next(lambda word: word in PLAIN_KINDS + SKIPPED and (word != b"$upscope" or self.scopes))
            if word == b"$scope":
                self.plain()
                self.scopes.append(self.plain())
                self.end()
            elif word == b"$upscope":
                self.end()
                self.scopes.pop()
            elif word == b"$var":
                self.var()
            elif word == b"$enddefinitions":
                return self.end()
            else:
                self.skip()

    def body(self):
        time, dumping = 0, False
        while self.at < len(self.words):
            word, start = self.words[self.at]
            first, rest = word[:1], word[1:]
            self.at += 1
            if word in SKIPPED:
                self.skip()
            elif word in DUMPS and not dumping:
                dumping = True
            elif word == b"$end" and dumping:
                dumping = False
            elif first == b"#" and re.fullmatch(rb"[0-9]+", rest) and time <= int(rest) <= MOST_TIME:
                time = int(rest)
            elif first in (b"0", b"1", b"x", b"X", b"z", b"Z") and CODE.fullmatch(rest):
                self.changes.append((time, rest, first.lower()))
            elif first in (b"b", b"B") and re.fullmatch(rb"[01xXzZ]+", rest):
                self.changes.append((time, self.next(CODE.fullmatch), rest.lower()))
            elif first in (b"r", b"R") and REAL.fullmatch(rest):
                self.next(CODE.fullmatch)
            else:
                raise self.broken(start)
        if dumping:
            raise self.broken(len(self.text))


def read(text):
    """The signals (path, kind, width, code) and the changes (time, code, bits)."""
    reader = Reader(text)
    reader.declarations()
    reader.body()
    return reader.vars, reader.changes


def fitted(bits, width):
    """The bits at a width: filled at the left, or cut there."""
    filler = bits[:1] if bits[:1] in (b"x", b"z") else b"0"
    return (filler * (width - len(bits)) + bits)[len(bits) - width if len(bits) > width else 0 :]


def changes_of(text, path):
    """The changes of the first signal with a path (time, bits); None where there is none, or it has no width of 1 to 128."""
    signals, changes = read(text)
    signal = next((each for each in signals if each[0] == path), None)
    if signal is None or not 1 <= signal[2] <= 128:
        return None
    _, kind, width, code = signal
    return [(time, fitted(bits, width)) for time, other, bits in changes if other == code and kind != b"real"]


def wave(text, name, path):
    """What `svtv wave` prints on its output and its errors."""
    try:
        changes = changes_of(text, path)
    except Broken as broken:
        return b"", b"%s:%d:%d: E47 VcdSyntax\n" % (name, *broken.args[0])
    if changes is None:
        return b"", b"%s:1:1: E48 VcdSignal\n" % name
    return b"".join(b"%d %d'b%s\n" % (time, len(bits), bits) for time, bits in changes), b""
