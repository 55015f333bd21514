"""Cases for the comparison: how one is written for the oracle and what the oracle says to it."""

import subprocess
from collections import namedtuple
from pathlib import Path

from definition import Settings
from departures import Figures

ORACLE = Path(__file__).resolve().parent.parent / "target" / "oracle" / "oracle"

# `answers` is a text of 0 and 1 by line number, or `has:` and a literal in hexadecimal.
Case = namedtuple("Case", "settings cuts data answers sniff", defaults=(False,))

KINDS = {"none": "n", "quit": "q", "convert": "c"}
BY_LETTER = {letter: kind for kind, letter in KINDS.items()}


class Failed(Exception):
    """A comparison that did not come out as it must."""


def dash(text):
    return text if text else "-"


def written(case):
    """The line that puts a case to the oracle; its form is told at the top of the oracle's main.rs."""
    s = case.settings
    limit = "-" if s.limit is None else s.limit
    cuts = dash(",".join(map(str, case.cuts)))
    return (
        f"{s.before} {s.after} {s.invert:d} {s.passing:d} {s.stop:d} {limit} {s.terminator} {KINDS[s.binary]} {s.byte} "
        f"{s.window} {case.sniff:d} {cuts} {dash(case.data.hex())} {dash(case.answers)}"
    )


def read(line):
    """The case that a line for the oracle puts."""
    *numbers, sniff, cuts, data, answers = line.split(" ")
    before, after, invert, passing, stop, limit, terminator, binary, byte, window = numbers
    settings = Settings(
        int(before), int(after), invert == "1", passing == "1", stop == "1", None if limit == "-" else int(limit),
        int(terminator), BY_LETTER[binary], int(byte), int(window),
    )
    pieces = () if cuts == "-" else tuple(map(int, cuts.split(",")))
    return Case(settings, pieces, bytes.fromhex(data.strip("-")), answers.strip("-"), sniff == "1")


def answering(case):
    """The answers of a case as a function of a line's number and bytes."""
    answers = case.answers
    if answers.startswith("has:"):
        literal = bytes.fromhex(answers[4:])
        return lambda number, line: literal in line
    return lambda number, line: answers[number - 1] == "1"


def figures_of(said):
    """The figures in one line of the oracle's."""
    rows, last = said.split("; ", 1) if not said.startswith(";") else ("", said[2:])
    rows = [tuple(map(int, row.split())) for row in rows.split(", ")] if rows else []
    word, *rest = last.split(" ")
    if word == "end":
        return Figures(rows, 0, int(rest[0]), None if rest[1] == "-" else int(rest[1]))
    if last.startswith("error configured allocation limit"):
        return Figures(rows, 3, None, None)
    if last == "error grep config error: no available searchers":
        return Figures(rows, 2, None, None)
    raise Failed(f"the oracle says: {said}")


def ask(lines):
    """What the oracle says to each of some lines."""
    done = subprocess.run([ORACLE], input="\n".join(lines) + "\n", capture_output=True, text=True)
    if done.returncode != 0:
        raise Failed(done.stderr.strip())
    said = done.stdout.splitlines()
    if len(said) != len(lines):
        raise Failed(f"{len(said)} answers to {len(lines)} cases")
    return said
