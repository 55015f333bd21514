"""The Rust's departures from the definition, each as a switch of one small driver.

With no departure switched on the driver gives what the definition gives; with all of them, what the Rust gives.
A mismatch between the two is explained by the fewest departures that turn the one into the other, exactly.
"""

from collections import namedtuple
from itertools import combinations

import definition

# Figures are what both sides can tell: the rows, the refusal, and of the end record the bytes and the binary offset.
Figures = namedtuple("Figures", "rows refusal bytes binary")

PAST_LIMIT, FULL_BUFFER, LATE_LIMIT, FIGURES, QUIT_FILL, ZERO_READ, DROPPED_CONTEXT, NO_BOUNDS = 1, 2, 3, 4, 5, 7, 8, 9

NAMES = {
    PAST_LIMIT: "past the limit an inverted search calls every line a match",
    FULL_BUFFER: "a full buffer fails where only the end or a Quit byte is left to find",
    LATE_LIMIT: "the limit is noticed at the next line, after reading on",
    FIGURES: "the finish figures go by what was read and what the buffer kept",
    QUIT_FILL: "lines in a fill that meets the Quit byte are not searched",
    ZERO_READ: "a read of 0 bytes ends what is held",
    DROPPED_CONTEXT: "pass-through silently drops the context",
    NO_BOUNDS: "no upper bounds on context, limit and buffer",
}
ALL = frozenset(NAMES)
FIRST_BUFFER = 65_536


def figures(ours):
    """Of an outcome of the definition, what the Rust can tell too."""
    if ours.end is None:
        return Figures(ours.rows, ours.refusal, None, None)
    return Figures(ours.rows, ours.refusal, ours.end.bytes, ours.end.binary)


class Full(Exception):
    """No room in the buffer for the line that is being read."""


class Reads:
    """What each read brings the buffer: the reader's pieces, behind a decoder that first fetches three bytes."""

    def __init__(self, length, cuts):
        self.left, self.cuts, self.fetched = length, list(cuts), None

    def from_reader(self, room):
        n = min(room, self.left)
        if self.cuts:
            n = min(n, self.cuts[0])
            self.cuts[0] -= n
            if self.cuts[0] == 0:
                del self.cuts[0]
        self.left -= n
        return n

    def fetch(self):
        got = 0
        while got < 3:
            n = self.from_reader(3 - got)
            if n == 0:
                break
            got += n
        return got

    def read(self, room):
        if self.fetched is None:
            self.fetched = self.fetch()
        if self.fetched == 0:
            return self.from_reader(room)
        n = min(room, self.fetched)
        self.fetched -= n
        return n


class Driver:
    """Fills a buffer, searches its lines, rolls. All places are offsets in the input."""

    def __init__(self, settings, data, cuts, answer, on):
        s = settings
        if s.passing and DROPPED_CONTEXT in on:
            s = s._replace(before=0, after=0)
        self.s, self.data, self.answer, self.on = s, data, answer, on
        self.text = definition.text_of(s, data) if s.binary == "convert" else data
        self.terminator = bytes([s.terminator])
        self.reads = Reads(len(data), cuts if ZERO_READ in on else [n for n in cuts if n > 0])
        self.room = min(s.window, FIRST_BUFFER)
        # The buffer's front, the next line to search, the end of what may be searched, the end of what was read,
        # and the place just after the last line with a row, or the front.
        self.front = self.next = self.upto = self.end = self.shown = 0
        self.rows, self.asked, self.matches, self.after_left = [], 0, 0, 0
        # A place and the number of the line that begins there; rows come in order, so lines are counted on from here.
        self.counted = 0, 1
        self.found = None
        self.input_ended = False

    def limit_reached(self):
        return self.s.limit is not None and self.matches >= self.s.limit

    def limit_stops(self):
        return self.limit_reached() and self.after_left == 0 and not self.s.passing

    def start_of_last(self, count, low, high):
        """Where the last `count` + 1 lines between two places begin."""
        if low == high:
            return low
        at = high - 1 if self.text[high - 1] == self.s.terminator else high
        while True:
            at = self.text.rfind(self.terminator, low, at)
            if at < 0:
                return low
            if count == 0:
                return at + 1
            count -= 1

    def roll(self):
        """Drops what need not be kept; tells how many bytes."""
        kept = self.upto
        if self.s.before > 0 or self.s.after > 0:
            kept = max(self.start_of_last(self.s.before, self.front, self.upto), self.shown)
        dropped = kept - self.front
        self.front = self.shown = kept
        return dropped

    def make_room(self):
        """Whether a read is possible; if not, only the end or a Quit byte is left."""
        if self.end - self.front < self.room:
            return True
        if self.room < self.s.window:
            self.room += min(2 * self.room, self.s.window - self.room)
            return True
        at_end = self.end == len(self.data)
        at_quit = not at_end and self.s.binary == "quit" and self.data[self.end] == self.s.byte
        if FULL_BUFFER in self.on or not (at_end or at_quit):
            raise Full
        if at_quit:
            self.found, self.input_ended = self.end, True
        return False

    def note_binary(self, start):
        """Looks for the binary byte in what was just read; whether it ends the input."""
        if self.s.binary == "none" or (self.s.binary == "convert" and self.s.byte == self.s.terminator):
            return False
        at = self.data.find(self.s.byte, start, self.end)
        if at >= 0 and self.found is None:
            self.found = at
        self.input_ended = at >= 0 and self.s.binary == "quit"
        return self.input_ended

    def read_on(self):
        """Reads until a terminator, the end or a Quit byte; whether there is anything to search."""
        while not self.input_ended and self.make_room():
            n = self.reads.read(self.room - (self.end - self.front))
            if n == 0:
                break
            start, self.end = self.end, self.end + n
            if self.note_binary(start):
                self.end = self.found
                break
            at = self.text.rfind(self.terminator, start, self.end)
            if at >= 0:
                self.upto = at + 1
                return True
        self.upto = self.end
        if self.input_ended:
            return QUIT_FILL not in self.on and self.next < self.upto
        return self.front < self.upto

    def fill(self):
        held, dropped = self.upto - self.front, self.roll()
        if not self.read_on():
            return False
        if dropped == 0 and self.upto - self.front == held:
            self.front = self.upto
            return False
        return True

    def give(self, kind, start, end):
        if (self.s.before > 0 or self.s.after > 0) and self.rows and self.shown < start:
            self.rows.append((definition.BREAK, 0, 0, 0))
        place, number = self.counted
        self.counted = start, number + self.text.count(self.terminator, place, start)
        self.rows.append((kind, start, end - start, self.counted[1]))
        self.shown = end

    def line_end(self, start, high):
        at = self.text.find(self.terminator, start, high)
        return high if at < 0 else at + 1

    def give_before(self, high):
        if self.s.before == 0:
            return
        start = self.start_of_last(self.s.before - 1, self.shown, high)
        while start < high:
            end = self.line_end(start, high)
            self.give(definition.BEFORE, start, end)
            start = end

    def selected(self, start, end):
        if self.limit_reached():
            return PAST_LIMIT in self.on and self.s.invert
        self.asked += 1
        return self.answer(self.asked, self.text[start:end].removesuffix(self.terminator)) != self.s.invert

    def take(self, start, end):
        """Gives the rows of a line; whether it was selected."""
        selected = self.selected(start, end)
        if selected:
            self.give_before(start)
            self.give(definition.MATCH, start, end)
            self.matches += 1
            self.after_left = self.s.after
        elif self.after_left > 0:
            self.give(definition.AFTER, start, end)
            self.after_left -= 1
        elif self.s.passing:
            self.give(definition.OTHER, start, end)
        return selected

    def search(self):
        """Searches what was filled; whether to go on."""
        while self.next < self.upto:
            if self.limit_stops():
                return False
            start, self.next = self.next, self.line_end(self.next, self.upto)
            selected = self.take(start, self.next)
            if self.s.stop and not selected and self.matches > 0:
                return False
        return LATE_LIMIT in self.on or not self.limit_stops()

    def figures(self, stopped):
        if FIGURES in self.on:
            return self.next if stopped else self.front, self.found
        if self.s.binary == "quit":
            return self.next, None if stopped or self.limit_stops() else self.found
        return self.next, self.found if self.found is not None and self.found < self.next else None

    def run(self):
        stopped = LATE_LIMIT not in self.on and self.limit_stops()
        try:
            while not stopped and self.fill():
                stopped = not self.search()
        except Full:
            return Figures(self.rows, 3, None, None)
        return Figures(self.rows, 0, *self.figures(stopped))


def refusal(s, on):
    """The refusal at opening that is left when some departures are on."""
    if DROPPED_CONTEXT in on and s.passing:
        s = s._replace(before=0, after=0)
    if NO_BOUNDS in on:
        lowered = s._replace(before=min(s.before, 1), after=min(s.after, 1), limit=None, window=min(s.window, 1))
        return definition.refusal_at_opening(lowered)
    return definition.refusal_at_opening(s)


def departed(s, data, cuts, answer, on):
    """What the definition with these departures gives."""
    number = refusal(s, on)
    if number:
        return Figures([], number, None, None)
    return Driver(s, data, cuts, answer, on).run()


def possible(s, cuts):
    """The departures that these settings and pieces leave room for. The rest need not be tried."""
    when = {
        PAST_LIMIT: s.invert and s.limit is not None,
        FULL_BUFFER: True,
        LATE_LIMIT: s.limit is not None,
        FIGURES: s.binary != "none",
        QUIT_FILL: s.binary == "quit",
        ZERO_READ: 0 in cuts,
        DROPPED_CONTEXT: s.passing and (s.before > 0 or s.after > 0),
        NO_BOUNDS: definition.refusal_at_opening(s) != 0,
    }
    return [departure for departure, holds in when.items() if holds]


def explain(rust, s, data, cuts, answer):
    """Every smallest choice of departures that gives exactly the Rust's figures."""
    tried = possible(s, cuts)
    for size in range(1, len(tried) + 1):
        found = [some for some in combinations(tried, size) if departed(s, data, cuts, answer, frozenset(some)) == rust]
        if found:
            return found
    return []
