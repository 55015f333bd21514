"""The whole-input definition of the line search as a plain model, written from its rules and not from the Rust.

`outcome(settings, data, answer)` gives the rows and the end record, or the refusal at opening (1, 2) or for
want of room (3) after the rows that came before it.
"""

from collections import namedtuple

Settings = namedtuple("Settings", "before after invert passing stop limit terminator binary byte window")
End = namedtuple("End", "bytes lines matches cause binary")
Outcome = namedtuple("Outcome", "rows refusal end")

MATCH, BEFORE, AFTER, OTHER, BREAK = 1, 2, 3, 4, 5
END_OF_INPUT, QUIT_BYTE, LIMIT, NONMATCH = 0, 1, 2, 3

MOST_CONTEXT = 1_000
MOST_LIMIT = 4_294_967_295
LONGEST_WINDOW = 65_536


def refusal_at_opening(s):
    """The refusal that the settings and the window's length earn, 0 for none."""
    if s.before > MOST_CONTEXT or s.after > MOST_CONTEXT:
        return 1
    if s.limit is not None and s.limit > MOST_LIMIT:
        return 1
    if s.passing and (s.before > 0 or s.after > 0):
        return 1
    return 0 if 1 <= s.window <= LONGEST_WINDOW else 2


def text_of(s, data):
    """What is searched: the input up to a Quit byte, or with its Convert bytes turned into terminators."""
    if s.binary == "quit":
        return data.split(bytes([s.byte]), 1)[0]
    if s.binary == "convert":
        return data.replace(bytes([s.byte]), bytes([s.terminator]))
    return data


def lines_of(terminator, text):
    """Offset and length of each line; a line ends after its terminator, and a rest is a line too."""
    lines, start = [], 0
    while start < len(text):
        at = text.find(terminator, start)
        end = len(text) if at < 0 else at + 1
        lines.append((start, end - start))
        start = end
    return lines


class Run:
    """The lines taken in order, with what has been given so far."""

    def __init__(self, settings, lines):
        self.settings, self.lines, self.rows = settings, lines, []
        self.gone = self.matches = self.after_left = 0
        self.shown = -1  # the last line with a row, counted from 0
        self.cause = LIMIT if self.limit_stops() else None

    def limit_reached(self):
        return self.settings.limit is not None and self.matches >= self.settings.limit

    def limit_stops(self):
        return self.limit_reached() and self.after_left == 0 and not self.settings.passing

    def give(self, kind, at):
        s = self.settings
        if (s.before > 0 or s.after > 0) and self.rows and self.shown < at - 1:
            self.rows.append((BREAK, 0, 0, 0))
        self.rows.append((kind, *self.lines[at], at + 1))
        self.shown = at

    def take(self, yes):
        """The next line, whose answer is `yes`."""
        s, at = self.settings, self.gone
        selected = not self.limit_reached() and yes != s.invert
        if selected:
            for earlier in range(max(at - s.before, self.shown + 1), at):
                self.give(BEFORE, earlier)
            self.give(MATCH, at)
            self.matches += 1
            self.after_left = s.after
        elif self.after_left > 0:
            self.give(AFTER, at)
            self.after_left -= 1
        elif s.passing:
            self.give(OTHER, at)
        self.gone += 1
        if self.limit_stops():
            self.cause = LIMIT
        elif s.stop and not selected and self.matches > 0:
            self.cause = NONMATCH

    def kept_from(self):
        """Where the kept part before the next line begins."""
        s, first = self.settings, self.gone
        if s.before > 0 or s.after > 0:
            first = max(self.gone - (s.before + 1), self.shown + 1)
        return self.lines[first][0] if first < len(self.lines) else sum(self.lines[-1]) if self.lines else 0

    def has_room(self):
        """Whether the next line fits in the window beside what is kept before it."""
        return sum(self.lines[self.gone]) - self.kept_from() <= self.settings.window


def end_record(s, data, text, run):
    gone = sum(run.lines[run.gone - 1]) if run.gone > 0 else 0
    cause, binary = run.cause, None
    if cause is None:
        cause = QUIT_BYTE if len(text) < len(data) else END_OF_INPUT
    if cause == QUIT_BYTE:
        binary = gone
    elif s.binary == "convert" and s.byte != s.terminator and s.byte in data[:gone]:
        binary = data.index(s.byte)
    return End(gone, run.gone, run.matches, cause, binary)


def outcome(s, data, answer):
    """`answer(number, line)` says yes or no to a line without its terminator, by its number from 1."""
    refusal = refusal_at_opening(s)
    if refusal:
        return Outcome([], refusal, None)
    text, terminator = text_of(s, data), bytes([s.terminator])
    run = Run(s, lines_of(terminator, text))
    while run.cause is None and run.gone < len(run.lines):
        if not run.has_room():
            return Outcome(run.rows, 3, None)
        offset, length = run.lines[run.gone]
        line = text[offset:offset + length].removesuffix(terminator)
        run.take(answer(run.gone + 1, line))
    return Outcome(run.rows, 0, end_record(s, data, text, run))
