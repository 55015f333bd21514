"""A caller that takes a whole input through a session of the program `replay`: what it types and what it must read back.

All is worked out from the definition. What the driver takes of a piece, where it refuses for room, which line waits and
which rows come with which answer follows from the lines and the kept part alone, so no model of the session is needed.
"""

from functools import lru_cache

from calls import LONGEST_PIECE
from cases import Failed, answering
from definition import Run, lines_of, refusal_at_opening, text_of

# When a caller answers: each line as soon as it waits; only when the window takes no more, and the end is told first;
# one line after each piece, whatever waits.
AT_ONCE, WHEN_FULL, ONE_BY_ONE = MANNERS = range(3)
ZEROS = "0 0 0 0 0 0"


@lru_cache(4_096)
def opening(s):
    limit = "-" if s.limit is None else s.limit
    binary = "-" if s.binary == "none" else f"{s.binary[0]}{s.byte}"
    return f"open {s.before} {s.after} {s.invert:d} {s.passing:d} {s.stop:d} {limit} {s.terminator} {binary} {s.window}"


def pieces_of(data, cuts):
    """The input as it is cut; after the last cut all that is left. No piece is longer than a command can hold."""
    at = 0
    for length in (*cuts, len(data)):
        end = min(at + length, len(data))
        if length == 0:
            yield b""
        while at < end:
            yield data[at:min(end, at + LONGEST_PIECE)]
            at = min(end, at + LONGEST_PIECE)


def record_of(end):
    """An end record as `replay` prints it."""
    *figures, place = end
    return " ".join(map(str, (*figures, *((0, 0) if place is None else (1, place)))))


class Caller:
    """Commands of one case, each with the line that it gives."""

    def __init__(self, case, manner):
        s = self.s = case.settings
        self.case, self.manner, self.answer_to = case, manner, answering(case)
        self.text = text_of(s, case.data)
        self.run = Run(s, lines_of(bytes([s.terminator]), self.text))
        self.taken, self.ended, self.refused = 0, False, False
        self.numbers = 4 * (s.before + 2)
        self.commands, self.given = [opening(s)], []

    def waits(self):
        run = self.run
        if run.cause is not None or run.gone == len(run.lines):
            return False
        offset, length = run.lines[run.gone]
        end = offset + length
        return end <= self.taken and (self.ended or self.text[end - 1] == self.s.terminator)

    def offer(self, piece):
        """Offers a piece and tells how many bytes are taken; 0 too where it is refused."""
        self.commands.append(f"offer {piece.hex() or '-'}")
        taken = 0
        if piece and not self.ended and self.run.cause is None:
            at = piece.find(self.s.byte) if self.s.binary == "quit" else -1
            length = len(piece) if at < 0 else at
            room = self.s.window - (self.taken - self.run.kept_from())
            if length > 0 and room == 0 and not self.waits():
                self.refused = True
                self.given.append("offer 3 0")
                return 0
            taken = min(length, room)
            self.taken += taken
            self.ended = at == taken
        self.given.append(f"offer 0 {taken}")
        return taken

    def answer(self):
        """Looks at the waiting line and answers it."""
        run = self.run
        offset, length = run.lines[run.gone]
        end = offset + length
        line = self.text[offset:end - 1 if self.text[end - 1] == self.s.terminator else end]
        before, yes = len(run.rows), self.answer_to(run.gone + 1, line)
        run.take(yes)
        rows = run.rows[before:]
        self.commands += "line", f"answer {yes:d} {self.numbers}"
        self.given += f"line {line.hex() or '-'}", " ".join(
            [f"answer 0 {len(rows)}", *("%d,%d,%d,%d" % row for row in rows)])

    def answer_some(self, most):
        while most > 0 and self.waits():
            self.answer()
            most -= 1

    def ask_waiting(self):
        self.commands.append("waiting")
        self.given.append(f"waiting {self.waits():d}")

    def hand_over(self, piece):
        """Offers a piece, and what is left of it again, until it is taken or the run is over."""
        while True:
            taken = self.offer(piece)
            if self.manner != AT_ONCE:
                self.ask_waiting()
            if self.manner == AT_ONCE:
                self.answer_some(len(piece) + 1)
            elif self.manner == ONE_BY_ONE or taken == 0:
                self.answer_some(1)
            piece = piece[taken:]
            if not piece or self.is_over():
                return

    def is_over(self):
        return self.refused or self.ended or self.run.cause is not None

    def whole_input(self):
        for piece in pieces_of(self.case.data, self.case.cuts):
            self.hand_over(piece)
            if self.is_over():
                return

    def drive(self, ours):
        """The whole run, which has to come out as the definition's outcome for the case."""
        refusal = refusal_at_opening(self.s)
        self.given.append(f"open {refusal}")
        if refusal:
            self.commands += "offer 61", "end", "record"
            self.given += "offer 6 0", "end 6", f"record 6 {ZEROS}"
            return
        self.whole_input()
        if (self.refused, self.refused and self.run.rows) != (ours.refusal == 3, ours.refusal == 3 and ours.rows):
            raise Failed("the window is full elsewhere than the room rule says")
        if self.refused:
            self.commands.append("record")
            self.given.append(f"record 7 {ZEROS}")
            return
        if self.is_over():
            self.offer(b"a")
        self.commands.append("end")
        self.given.append("end 0")
        self.ended = True
        self.answer_some(len(self.run.lines))
        self.commands.append("record")
        self.given.append(f"record 0 {record_of(ours.end)}")


def drive(case, ours, manner):
    """The commands of a case and the lines that they have to give, for a caller of this manner."""
    caller = Caller(case, manner)
    caller.drive(ours)
    return caller.commands, caller.given
