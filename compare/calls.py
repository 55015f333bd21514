"""Scripts of the program `replay` with what it has to print for them, worked out by the plain model of a session.

A `Script` is the caller: it owns the room and the table, lends parts of them, and notes each command with its line of
output. `Chance` makes commands at random and keeps no rule.
"""

import session as model
from definition import Settings

ROOM, NUMBERS, FILLER = 65_537, 4_016, 9
LONGEST_PIECE = 4_096
NEWLINE = 10


def hexed(data):
    return data.hex() or "-"


def plain(**changes):
    """Settings with nothing asked for but what is named."""
    return Settings(0, 0, False, False, False, None, NEWLINE, "none", 0, 0)._replace(**changes)


class Script:
    """Commands with the lines that they give."""

    def __init__(self):
        self.commands, self.given = [], []
        self.session, self.lent = model.CLOSED, 0
        self.room, self.table = bytearray(ROOM), [FILLER] * NUMBERS

    def note(self, command, *given):
        self.commands.append(command)
        self.given.append(" ".join(map(str, (command.split()[0], *given))))

    def window(self):
        return bytes(self.room[:self.lent])

    def open(self, s, window):
        refusal, self.session = model.open_session(s, window)
        self.lent = min(window, ROOM)
        limit = "-" if s.limit is None else s.limit
        binary = "-" if s.binary == "none" else f"{s.binary[0]}{s.byte}"
        flags = f"{s.invert:d} {s.passing:d} {s.stop:d}"
        self.note(f"open {s.before} {s.after} {flags} {limit} {s.terminator} {binary} {window}", refusal)

    def offer(self, piece):
        refusal, taken, self.session, after = model.offer(self.session, self.window(), piece)
        self.room[:self.lent] = after
        self.note(f"offer {hexed(piece)}", refusal, taken)
        return taken

    def is_waiting(self):
        return model.waiting(self.session, self.window())[1]

    def waiting(self):
        refusal, waits = model.waiting(self.session, self.window())
        self.note("waiting", refusal or int(waits))

    def line(self):
        self.note("line", hexed(model.line(self.session, self.window())))

    def answer(self, hit, size=24):
        refusal, count, self.session, lent = model.answer(self.session, self.window(), self.table[:size], hit)
        self.table[:size] = lent
        rows = [",".join(map(str, lent[4 * at:4 * at + 4])) for at in range(count)]
        self.note(f"answer {hit:d} {size}", refusal, count, *rows)

    def show_table(self, first, last):
        self.note(f"table {first} {last}", *self.table[first:last])

    def end(self):
        refusal, self.session = model.tell(self.session)
        self.note("end", refusal)

    def record(self):
        refusal, record = model.record(self.session)
        self.note("record", refusal, *record)

    def show_window(self):
        self.note("window", hexed(self.window()))

    def poke(self, at, data):
        self.room[at:at + len(data)] = data
        self.note(f"poke {at} {hexed(data)}")

    def lend(self, length):
        self.lent = length
        self.note(f"lend {length}")

    def ask_all(self):
        """Every call that needs a piece, an answer or nothing."""
        self.waiting()
        self.line()
        self.answer(True)
        self.offer(b"a")
        self.offer(b"")
        self.end()
        self.record()

    def answer_waiting(self, hits):
        """Each line that waits, with room for all rows that its answer can need."""
        while self.is_waiting():
            self.line()
            self.answer(self.session.lines + 1 in hits, 4 * (self.session.settings.before + 2))

    def drive(self, s, window, data, hits, size):
        """A whole input in pieces of one size, yes at the lines of these numbers; up to the end or a refusal."""
        self.open(s, window)
        while data:
            taken = self.offer(data[:size])
            self.answer_waiting(hits)
            if taken == 0:
                break
            data = data[taken:]
        self.end()
        self.answer_waiting(hits)
        self.record()


class Chance:
    """Calls made at random, windows altered and lent at another length among them."""

    LETTERS = [NEWLINE, NEWLINE, 97, 98, 0, 7]

    def __init__(self, dice, script):
        self.dice, self.script = dice, script

    def settings(self):
        dice, passing = self.dice, self.dice.random() < 0.2
        before, after = (0, 0) if passing else (dice.choice([0, 0, 1, 2]), dice.choice([0, 0, 1, 3]))
        return plain(
            before=before, after=after, passing=passing, invert=dice.random() < 0.25, stop=dice.random() < 0.15,
            limit=dice.choice([None] * 4 + [0, 1, 2, 5]), terminator=dice.choice([NEWLINE, NEWLINE, NEWLINE, 0]),
            binary=dice.choice(["none", "none", "quit", "convert"]), byte=dice.choice([0, 0, 0, NEWLINE, 7]))

    def piece(self, most):
        return bytes(self.dice.choices(self.LETTERS, k=self.dice.randint(0, most)))

    def offer(self):
        self.script.offer(self.piece(9))
        if self.dice.random() < 0.3:
            self.script.show_window()

    def answer(self):
        self.script.answer(self.dice.random() < 0.4, self.dice.choice([0, 3, 4, 8, 11, 12, 20, 24]))
        if self.dice.random() < 0.2:
            self.script.show_table(0, 28)

    def poke(self):
        length = self.script.lent
        if length > 0:
            at = self.dice.randrange(length)
            many = self.dice.random() < 0.3
            self.script.poke(at, bytes([NEWLINE]) * min(3, length - at) if many else self.piece(min(2, length - at)))

    def lend(self):
        """Another length for one call, then the right one again."""
        right = self.script.lent
        self.script.lend(self.dice.choice([max(0, right - 1), right + 1, 0]))
        getattr(self, self.dice.choice(["offer", "answer", "waiting", "line", "record"]))()
        self.script.lend(right)

    def waiting(self):
        self.script.waiting()

    def line(self):
        self.script.line()

    def end(self):
        self.script.end()

    def record(self):
        self.script.record()

    def session(self):
        """One session of some calls."""
        weights = {"offer": 30, "line": 8, "waiting": 4, "answer": 38, "end": 3, "record": 5, "poke": 5, "lend": 2}
        self.script.open(self.settings(), self.dice.choice([0, 1, 2, 3, 4, 6, 8, 12, 16, 40]))
        for name in self.dice.choices(list(weights), list(weights.values()), k=self.dice.randint(5, 60)):
            # an answer with no line waiting is refused, which need not be seen so often
            in_vain = name == "answer" and not self.script.is_waiting()
            getattr(self, "offer" if in_vain and self.dice.random() < 0.8 else name)()
