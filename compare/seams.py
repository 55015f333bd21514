"""A standard input of `search` that takes it four reads, laid out about the seams, where one read of a file ends and the next
begins: a line lost or doubled there shows in its rows."""

from searched import NEWLINE, printed

READ = 65_536
SEAMS = [READ, 2 * READ, 3 * READ]
HEAD = b"2 1 0 0 -\n00493012345\n"
LONG = b"." * 2_000
# the lines about each seam, which lies at the bar
ABOUT = [
    # a match across, the seam in its literal; with the lines kept before it, it nearly fills the window
    b"before\nbefore\n" + LONG + b"00493|012345" + LONG + b"\nafter\n",
    # a match whose newline is a read's last byte
    b"before\nbefore\nmatch 00493012345\n|after\n",
    # a context line across, of which the later read has the newline alone
    b"before\nbefore|\nmatch 00493012345\nafter\n",
]
LAST = b"a last line without newline 00493012345"


def fill(length):
    """Lines that do not match, so many bytes in all."""
    lines = b"".join(b"record %d of another subscriber\n" % number for number in range(length // 20))
    return lines[:length - 1] + b"\n"


def lay_out():
    """The whole standard input, with each seam where it has to be."""
    stdin = HEAD
    for seam, about in zip(SEAMS, ABOUT):
        left, right = about.split(b"|")
        stdin += fill(seam - len(left) - len(stdin)) + left + right
        assert stdin[:seam].endswith(left) and stdin[seam:] == right
    stdin += fill(1_000) + LAST
    assert [stdin[seam - 1] == NEWLINE for seam in SEAMS] == [False, True, False]
    lines = shown(stdin)
    assert all(any(start < seam <= end for start, end in lines) for seam in SEAMS)
    assert lines[-1] == (len(stdin) - len(LAST), len(stdin)) and len(stdin) < 4 * READ
    return stdin


def shown(stdin):
    """Where each line that has a row starts and ends in the standard input; no refusal may be there."""
    *rows, end = printed(stdin).splitlines()
    assert end.startswith("end ")
    places = [list(map(int, row.split())) for row in rows]
    return [(len(HEAD) + offset, len(HEAD) + offset + length) for _, number, offset, length in places if number > 0]
