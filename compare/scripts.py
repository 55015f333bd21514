"""Random calls of a session with what the plain model gives for each, written as scripts of the session's specs.

The caller keeps no rule: it alters the window between calls, lends one of another length, and makes sessions up.
"""

import session as model
from definition import LIMIT, NONMATCH

LETTERS = [10, 10, 97, 98, 0, 7]
GOING = {None: "On", LIMIT: "LimitMet", NONMATCH: "NonmatchMet"}
INPUT = {"open": "Open", "ended": "Ended", "quit": "QuitFound"}
FILLER = 9


def listed(items):
    return "(" + " ∷ ".join([*map(str, items), "[]"]) + ")"


def settings(s):
    limit = "None" if s.limit is None else f"(Some {s.limit})"
    binary = f"({s.binary.capitalize()} {s.byte})" if s.binary in ("quit", "convert") else "Ignore"
    flags = " ".join(str(flag).lower() for flag in (s.invert, s.passing, s.stop))
    return f"(settings {s.before} {s.after} {flags} {limit} {binary})"


def rows(outcome):
    return listed("r {} {} {} {}".format(*row) for row in outcome)


def fields(s, names):
    """Numbers of a session, as the fields of a literal."""
    return "".join(f"{name} = {getattr(s, name)}; " for name in names.split())


def made_up(s):
    """A session as a literal: its walk and its places."""
    place = "None" if s.replaced is None else f"Some {s.replaced}"
    return (
        f"(record {{ walk = record {{ settings = {settings(s.settings)}; {fields(s, 'bytes lines matches left')}"
        f"given = {str(s.given).lower()}; going = {GOING[s.going]} }}; "
        f"places = record {{ {fields(s, 'window floor next end')}input = {INPUT[s.input]}; replaced = {place} }} }})"
    )


class Caller:
    """Makes calls at random and notes each with what it gives."""

    def __init__(self, dice, chosen):
        self.dice, self.calls, self.seen = dice, [], []
        self.window = bytes(dice.choices(LETTERS, k=chosen.window))
        refusal, self.session = model.open_session(chosen, chosen.window)
        self.first = listed(self.window)
        self.note(f"start {settings(chosen)}", f"heard {refusal}")

    def note(self, call, *seen):
        self.calls.append(call)
        self.seen += seen

    def offer(self):
        piece = bytes(self.dice.choices(LETTERS, k=self.dice.randint(0, 7)))
        refusal, taken, self.session, self.window = model.offer(self.session, self.window, piece)
        self.note(f"offer {listed(piece)}", f"took {refusal} {taken} {listed(self.window)}")

    def show(self):
        refusal, _ = model.waiting(self.session, self.window)
        self.note("show", f"showed {refusal} {listed(model.line(self.session, self.window))}")

    def answer(self):
        hit, size = self.dice.random() < 0.4, self.dice.choice([0, 3, 4, 8, 11, 12, 20, 24])
        refusal, count, self.session, table = model.answer(self.session, self.window, [FILLER] * size, hit)
        given = [table[4 * at:4 * at + 4] for at in range(count)]
        self.note(f"answer {str(hit).lower()} {size}", f"gave {refusal} {rows(given)} {listed(table[4 * count:])}")

    def tell(self):
        refusal, self.session = model.tell(self.session)
        self.note("tell", f"heard {refusal}")

    def ask(self):
        refusal, record = model.record(self.session)
        self.note("ask", "ended {} (e {} {} {} {} {} {})".format(refusal, *record))

    def alter(self):
        many = self.dice.random() < 0.3
        altered = [10 if many else b if self.dice.random() < 0.8 else self.dice.choice(LETTERS) for b in self.window]
        if self.dice.random() < 0.1:
            altered = altered[1:] if self.dice.random() < 0.5 else altered + [7]
        self.window = bytes(altered)
        self.note(f"alter {listed(self.window)}")

    def hand(self):
        """The session at hand with one thing changed, which may contradict the rest or not."""
        name = self.dice.choice(self.session._fields[2:])
        choices = {"given": [True, False], "going": list(GOING), "input": list(INPUT), "replaced": [None, 0, 1, 5]}
        if name == "bytes":
            choices[name] = [model.MOST_BYTES - (self.session.end - self.session.next) - short for short in range(3)]
        near = [max(0, self.session._asdict()[name] + by) for by in range(-2, 3)] if name not in choices else choices[name]
        self.session = self.session._replace(**{name: self.dice.choice(near)})
        self.note(f"hand {made_up(self.session)}")

    def script(self):
        weights = {"offer": 30, "show": 10, "answer": 35, "tell": 3, "ask": 6, "alter": 8, "hand": 4}
        for name in self.dice.choices(list(weights), list(weights.values()), k=self.dice.randint(5, 40)):
            # an answer with no line waiting is refused, which need not be seen so often
            in_vain = name == "answer" and not model.waiting(self.session, self.window)[1]
            getattr(self, "offer" if in_vain and self.dice.random() < 0.8 else name)()
        return f"script {self.first} {listed(self.calls)} {listed(self.seen)}"
