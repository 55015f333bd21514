"""A session of the line search as a plain model: a small value that each call takes and hands back.

Written from the papers' rules and not from the Rust. Each call gives all that comes back, refused or not, and
changes nothing that it was handed. Whatever concerns lines is read from the lent window as it stands. The length
of the window is the session's `window`; the field of that name in the settings is not looked at.

A model apart: it knows the session's fields by itself, in one flat list, and nothing of it is made from the crates, where
they lie in two structs, the walk and the places. A new field has to be given to both; `made_up` of scripts.py writes a
session of this model as one of the specs.
"""

from collections import namedtuple

from definition import AFTER, BEFORE, BREAK, MATCH, OTHER
from definition import END_OF_INPUT, LIMIT, NONMATCH, QUIT_BYTE
from definition import Settings, lines_of, refusal_at_opening

# `floor` is the place just after the last line with a row, or where the kept part began when it was last moved;
# `next` is where the first unanswered line begins; `end` is the held end. `bytes` and `lines` are gone through.
Session = namedtuple(
    "Session", "settings window floor next end bytes lines matches left given going input replaced")
Record = namedtuple("Record", "bytes lines matches cause flag binary")

MOST_BYTES = 4_294_967_295
NO_RECORD = Record(0, 0, 0, 0, 0, 0)


def fresh(settings, window_length, going):
    """A session before its first byte."""
    return Session(settings, window_length, 0, 0, 0, 0, 0, 0, 0, False, going, "open", None)


CLOSED = fresh(Settings(0, 0, False, False, False, None, 0, None, 0, 0), 0, None)


def contradicts(session):
    """Whether the session is closed or its numbers contradict each other."""
    s = session.settings
    return not (
        refusal_at_opening(s._replace(window=session.window)) == 0
        and session.floor <= session.next <= session.end <= session.window
        and session.next - session.floor <= session.bytes
        and taken_in_all(session) <= MOST_BYTES
        and session.matches <= session.lines <= session.bytes
        and (s.limit is None or session.matches <= s.limit)
        and session.left <= s.after
        and (session.left == 0 or session.floor == session.next))


def unfit(session, window):
    """Whether a call that takes a window has to give 6 before anything else."""
    return contradicts(session) or len(window) != session.window


def taken_in_all(session):
    """The input's bytes taken so far: those gone through and those held unanswered."""
    return session.bytes + session.end - session.next


def limit_reached(session):
    """Whether no further line can be selected."""
    return session.settings.limit is not None and session.matches >= session.settings.limit


def limit_stops(session):
    """Whether the limit is a cause to stop."""
    return limit_reached(session) and session.left == 0 and not session.settings.passing


def has_context(settings):
    """Whether breaks can come and lines are kept."""
    return settings.before > 0 or settings.after > 0


def waiting_end(session, window):
    """The place just after the waiting line and its terminator, None where no line waits."""
    if session.going is not None:
        return None
    at = window.find(bytes([session.settings.terminator]), session.next, session.end)
    if at >= 0:
        return at + 1
    return session.end if session.input != "open" and session.next < session.end else None


def lines_between(session, window):
    """Place and length of each line from the floor up to the next unanswered line."""
    part = window[session.floor:session.next]
    lines = lines_of(bytes([session.settings.terminator]), part)
    return [(session.floor + at, length) for at, length in lines]


def kept_from(session, window):
    """The place where the kept part begins; the next unanswered line's where nothing is kept."""
    if not has_context(session.settings):
        return session.next
    kept = lines_between(session, window)[-(session.settings.before + 1):]
    return kept[0][0] if kept else session.next


def open_session(settings, window_length):
    """Opening: the refusal, and the session or the closed one."""
    refusal = refusal_at_opening(settings._replace(window=window_length))
    if refusal:
        return refusal, CLOSED
    session = fresh(settings, window_length, None)
    return 0, session._replace(going=LIMIT) if limit_stops(session) else session


def offer(session, window, piece):
    """Offering a piece: the refusal, the count taken, the session and the window."""
    s = session.settings
    if unfit(session, window):
        return 6, 0, session, window
    if not piece or session.going is not None or session.input != "open":
        return 0, 0, session, window
    start, before = kept_from(session, window), taken_in_all(session)
    held = window[start:session.end]
    text = piece.split(bytes([s.byte]), 1)[0] if s.binary == "quit" else piece
    if text and before == MOST_BYTES:
        return 5, 0, session, window
    if text and len(held) == session.window and waiting_end(session, window) is None:
        return 3, 0, session, window
    taken = min(len(text), session.window - len(held), MOST_BYTES - before)
    stored, replaced = converted(session, text[:taken])
    front = held + stored
    session = session._replace(
        floor=0, next=session.next - start, end=len(front), replaced=replaced,
        input="quit" if taken == len(text) < len(piece) else "open")
    return 0, taken, session, front + window[len(front):]


def converted(session, part):
    """The bytes as they are stored, and the offset of the first replaced byte taken, these included."""
    s, replaced = session.settings, session.replaced
    if s.binary != "convert" or s.byte == s.terminator:
        return part, replaced
    if replaced is None and s.byte in part:
        replaced = taken_in_all(session) + part.index(s.byte)
    return part.replace(bytes([s.byte]), bytes([s.terminator])), replaced


def waiting(session, window):
    """Asking whether a line waits: the refusal, and whether one does."""
    if unfit(session, window):
        return 6, False
    return 0, waiting_end(session, window) is not None


def line(session, window):
    """The waiting line without its terminator, empty where none waits or `waiting` is refused."""
    if not waiting(session, window)[1]:
        return b""
    part = window[session.next:waiting_end(session, window)]
    return part.removesuffix(bytes([session.settings.terminator]))


def kind_of(session, hit):
    """The kind of row that the waiting line gets by this answer, None for no row."""
    if not limit_reached(session) and hit != session.settings.invert:
        return MATCH
    if session.left > 0:
        return AFTER
    return OTHER if session.settings.passing else None


def rows_of(session, window, kind, after):
    """The rows of an answer by which the waiting line, ending at `after`, gets a row of this kind."""
    if kind is None:
        return []
    s, between = session.settings, lines_between(session, window)
    count = min(s.before, len(between)) if kind == MATCH else 0
    rows = []
    if has_context(s) and session.given and len(between) > count:
        rows.append((BREAK, 0, 0, 0))
    number = session.lines + 1 - count
    for place, length in between[len(between) - count:]:
        rows.append((BEFORE, session.bytes - (session.next - place), length, number))
        number += 1
    rows.append((kind, session.bytes, after - session.next, number))
    return rows


def gone_through(session, kind, after):
    """The session once the waiting line, ending at `after`, got a row of this kind."""
    s = session.settings
    session = session._replace(
        floor=session.floor if kind is None else after,
        next=after,
        bytes=session.bytes + after - session.next,
        lines=session.lines + 1,
        matches=session.matches + (kind == MATCH),
        left={MATCH: s.after, AFTER: session.left - 1}.get(kind, 0),
        given=session.given or kind is not None)
    if limit_stops(session):
        return session._replace(going=LIMIT)
    if s.stop and kind != MATCH and session.matches > 0:
        return session._replace(going=NONMATCH)
    return session


def answer(session, window, table, hit):
    """Answering the waiting line: the refusal, the count of rows written, the session and the table."""
    if unfit(session, window) or waiting_end(session, window) is None:
        return 6, 0, session, table
    kind, after = kind_of(session, hit), waiting_end(session, window)
    rows = rows_of(session, window, kind, after)
    if any(row[0] == BEFORE and row[3] < 1 for row in rows):
        return 6, 0, session, table
    if len(table) // 4 < len(rows):
        return 4, 0, session, table
    numbers = [number for row in rows for number in row]
    return 0, len(rows), gone_through(session, kind, after), numbers + table[len(numbers):]


def tell(session):
    """Telling the end: the refusal and the session."""
    if contradicts(session):
        return 6, session
    if session.going is not None or session.input != "open":
        return 0, session
    return 0, session._replace(input="ended")


def record(session):
    """Asking for the end record: the refusal, and the record or zeros."""
    if contradicts(session):
        return 6, NO_RECORD
    if session.going is None and (session.input == "open" or session.next < session.end):
        return 7, NO_RECORD
    cause, found = session.going, None
    if cause is None:
        cause = QUIT_BYTE if session.input == "quit" else END_OF_INPUT
    if cause == QUIT_BYTE:
        found = session.bytes
    elif session.settings.binary == "convert" and session.replaced is not None:
        found = session.replaced if session.replaced < session.bytes else None
    flag = 0 if found is None else 1
    return 0, Record(session.bytes, session.lines, session.matches, cause, flag, found or 0)
