"""What the program `search` has to print for a standard input, worked out by the plain model of the definition."""

import re

from definition import Settings, outcome

WINDOW, LONGEST_HEAD, NEWLINE = 4_096, 1_024, 10
NUMBER = rb"(0|[1-9][0-9]*)"
FIRST_LINE = re.compile(NUMBER + b" " + NUMBER + rb" ([01]) ([01]) (-|0|[1-9][0-9]*)")


def settings(line):
    """The settings that a first line asks for, None where it has another form."""
    asked = FIRST_LINE.fullmatch(line)
    if asked is None:
        return None
    before, after, invert, passing, limit = asked.groups()
    return Settings(
        int(before), int(after), invert == b"1", passing == b"1", False, None if limit == b"-" else int(limit),
        NEWLINE, "none", 0, WINDOW)


def printed(stdin):
    """The whole output."""
    first, newline, rest = stdin.partition(b"\n")
    literal, second_newline, text = rest.partition(b"\n")
    is_whole = newline and second_newline and max(len(first), len(literal)) <= LONGEST_HEAD
    s = settings(first) if is_whole else None
    if s is None:
        return "refused 1\n"
    found = outcome(s, text, lambda number, line: literal in line)
    rows = [f"{kind} {number} {offset} {length}" for kind, offset, length, number in found.rows]
    if found.refusal:
        rows.append(f"refused {found.refusal}")
    else:
        rows.append("end {} {} {} {}".format(*found.end[:4]))
    return "".join(row + "\n" for row in rows)
