"""The sets of cases that the comparison goes through: all short inputs, and others from a fixed seed, some of them long."""

import random
from itertools import product

from cases import Case
from definition import LONGEST_WINDOW, MOST_CONTEXT, MOST_LIMIT, Settings, lines_of, text_of

NEWLINE, OTHER, NUL = 10, ord("x"), 0
FLAGS = (False, True)
SEED = 17


def inputs(letters, lengths):
    for length in lengths:
        for data in product(letters, repeat=length):
            yield bytes(data)


def settings(binary, contexts, limits, windows):
    """Every choice of the other settings; pass-through only without context."""
    for before, after, invert, passing, stop in product(contexts, contexts, FLAGS, FLAGS, FLAGS):
        if passing and (before > 0 or after > 0):
            continue
        for limit, window in product(limits, windows):
            yield Settings(before, after, invert, passing, stop, limit, NEWLINE, binary, NUL, window)


def line_count(s, data):
    return len(lines_of(bytes([s.terminator]), text_of(s, data)))


def every(binary, lengths, chosen, cuts=lambda data: ()):
    """Every input of these lengths with every answer to its lines, under every one of the chosen settings.

    Bytes other than terminator and binary byte only matter to the matcher, so one letter stands for them."""
    letters = (NEWLINE, OTHER) if binary == "none" else (NEWLINE, OTHER, NUL)
    chosen = list(chosen)
    for data in inputs(letters, lengths):
        for said in product("01", repeat=line_count(chosen[0], data)):
            answers = "".join(said)
            for s in chosen:
                yield Case(s, cuts(data), data, answers)


def short():
    windows = (1, 2, 3, 4, LONGEST_WINDOW)
    for binary, longest in (("none", 5), ("quit", 5), ("convert", 4)):
        yield from every(binary, range(longest + 1), settings(binary, range(3), (None, 0, 1, 2), windows))


def cut_by_byte():
    """Reads of one byte each. The decoder fetches three first, so shorter inputs would show nothing new."""
    for binary, length in (("none", 6), ("quit", 5), ("convert", 5)):
        chosen = settings(binary, range(3), (None, 1), (4, LONGEST_WINDOW))
        yield from every(binary, [length], chosen, lambda data: (1,) * len(data))


def zero_reads():
    """One read of 0 bytes at every place. It can split a line, so the answers go by what the line contains."""
    chosen = list(settings("none", range(2), (None, 1), (2, 4, LONGEST_WINDOW)))
    for data in inputs(b"\nab", range(6)):
        for place in range(len(data) + 1):
            cuts = (place, 0) if place > 0 else (0,)
            for s in chosen:
                yield Case(s, cuts, data, "has:62")


def beyond_bounds():
    """Around the largest settings and buffers, pass-through with context among them."""
    small = Settings(0, 0, False, False, False, None, NEWLINE, "none", NUL, LONGEST_WINDOW)
    contexts = (0, 1, MOST_CONTEXT, MOST_CONTEXT + 1)
    limits = (None, 1, MOST_LIMIT, MOST_LIMIT + 1)
    windows = (0, 6, LONGEST_WINDOW, LONGEST_WINDOW + 1)
    for before, after, passing, limit, window in product(contexts, contexts, FLAGS, limits, windows):
        s = small._replace(before=before, after=after, passing=passing, limit=limit, window=window)
        yield Case(s, (), b"a\nb\na\n", "010")
    for length, window in product(range(-2, 3), range(-2, 3)):
        data = b"a" * (LONGEST_WINDOW + length - 1) + b"\n"
        yield Case(small._replace(window=LONGEST_WINDOW + window), (), data, "1")


def from_seed(count):
    """Longer inputs with any terminator and binary byte, the two alike at times, cut anywhere."""
    dice = random.Random(SEED)
    for _ in range(count):
        terminator, byte = dice.choice([(10, 0), (0, 10), (10, 10), (255, 98), (98, 255)])
        letters = [terminator] * dice.randint(1, 4) + [byte] * dice.randint(0, 1) + list(b"abcd")
        data = bytes(dice.choices(letters, k=dice.randint(0, 40)))
        passing = dice.random() < 0.2
        before, after = (0, 0) if passing else (dice.randint(0, 4), dice.randint(0, 4))
        invert, stop = dice.random() < 0.5, dice.random() < 0.3
        limit = dice.choice([None, None, 0, 1, 2, 3, 5])
        binary = dice.choice(["none", "quit", "convert"])
        window = dice.choice([dice.randint(1, 40), LONGEST_WINDOW])
        s = Settings(before, after, invert, passing, stop, limit, terminator, binary, byte, window)
        cuts = tuple(dice.randint(1, 8) for _ in range(dice.randint(0, 12)))
        answers = "".join(dice.choices("01", k=line_count(s, data)))
        if dice.random() < 0.2:
            cuts, answers = tuple(dice.randint(0, 8) for _ in range(12)), "has:61"
        yield Case(s, cuts, data, answers)


def grid():
    """Every choice of settings, window and cutting that the exhaustive set draws on, the cutting as a piece's length."""
    binaries = [("none", NUL), ("quit", NUL), ("convert", NUL), ("quit", NEWLINE), ("convert", NEWLINE)]
    windows = (1, 2, 3, 4, 5, 6, 7, LONGEST_WINDOW)
    for (binary, byte), size in product(binaries, (None, 1, 2, 3, 5)):
        for s in settings(binary, range(4), (None, 0, 1, 2, 3), windows):
            yield s._replace(byte=byte), size


def exhaustive():
    """Every input up to 6 bytes of terminator, two letters and the binary byte, each under a share of the grid. A stride
    that has no factor in common with the grid's size carries on from input to input, so that all of it is gone through
    again and again, each time at other inputs."""
    chosen = list(grid())
    stride, share, at = 30_011, 300, 0
    for data in inputs((NEWLINE, ord("a"), ord("b"), NUL), range(7)):
        for _ in range(share):
            at = (at + stride) % len(chosen)
            s, size = chosen[at]
            yield Case(s, () if size is None else (size,) * (len(data) // size), data, "has:62")


def cuttings(length):
    """Every way to cut so many bytes into pieces."""
    for ends in product(FLAGS, repeat=max(0, length - 1)):
        places = [0, *(at + 1 for at, end in enumerate(ends) if end), length]
        yield tuple(end - start for start, end in zip(places, places[1:]))


def every_cutting():
    """The caller's freedom: each input in every cutting and in windows that hold it or not."""
    contexts = [(0, 0), (1, 0), (0, 1), (2, 2)]
    for (before, after), window, binary in product(contexts, (1, 2, 3, 5, LONGEST_WINDOW), ("none", "quit", "convert")):
        s = Settings(before, after, False, False, False, None, NEWLINE, binary, NUL, window)
        letters = (NEWLINE, ord("b")) if binary == "none" else (NEWLINE, ord("b"), NUL)
        for data in inputs(letters, range(1, 7 if binary == "none" else 6)):
            for cuts in cuttings(len(data)):
                yield Case(s, cuts, data, "has:62")


def any_settings(dice, most_context, window):
    """Settings of any kind; newline and NUL are left for the caller to replace."""
    passing = dice.random() < 0.15
    before, after = (0, 0) if passing else (dice.choice([0, dice.randint(0, most_context)]) for _ in range(2))
    return Settings(
        before, after, dice.random() < 0.3, passing, dice.random() < 0.15, dice.choice([None, None, None, 1, 2, 7, 40]),
        NEWLINE, dice.choice(["none", "quit", "convert"]), NUL, window)


def any_cuts(dice, length):
    """Pieces of a few lengths, some of 0 bytes in one of ten."""
    least = 0 if dice.random() < 0.1 else 1
    longest = dice.choice([2, 10, 100, 1_000, 5_000, 70_000])
    return tuple(dice.randint(least, longest) for _ in range(dice.choice([0, 1, 5, min(length, 60)])))


def answered(dice, s, cuts, data, yes):
    """A case whose lines have a yes so often. A read of 0 bytes can split a line: then the answers go by its bytes."""
    if 0 in cuts:
        return Case(s, cuts, data, "has:62")
    count = line_count(s, data)
    return Case(s, cuts, data, "".join(dice.choices("01", [1 - yes, yes], k=count)))


def around_windows(count):
    """The next line, with all that is kept before it, is as long as the window, a byte shorter or a byte longer."""
    dice = random.Random(SEED)
    for _ in range(count):
        window = dice.choice([dice.randint(1, 30), 63, 64, 65, 255, 256, 257, 1_000, 4_095, 4_096, 4_097, 65_535, LONGEST_WINDOW])
        s = any_settings(dice, 3, window)._replace(binary=dice.choice(["none", "none", "quit", "convert"]))
        lines, since = [], 0
        for _ in range(dice.randint(1, 6)):
            kept = sum(map(len, lines[len(lines) - min(since, s.before + 1):])) if s.before or s.after else 0
            length = max(1, window - kept + dice.choice([-2, -1, 0, 1])) if dice.random() < 0.5 else dice.randint(1, 1 + window // 3)
            lines.append(b"b" * (length - 1) + b"\n")
            since += 1
        data = b"".join(lines)
        if dice.random() < 0.5:
            data = data[:-1]
        data += dice.choice([b"", b"", b"\0", b"\0b"])
        yield answered(dice, s, any_cuts(dice, len(data)), data, dice.choice([0, 0.1, 0.4]))


def long_inputs(count):
    """Inputs of up to a million bytes, contexts up to the most, windows up to the longest."""
    dice = random.Random(SEED)
    for _ in range(count):
        s = any_settings(dice, dice.choice([3, 50, MOST_CONTEXT]), dice.choice([200, 4_096, 20_000, LONGEST_WINDOW, LONGEST_WINDOW]))
        line = dice.choice([2, 10, 80, 600])
        data = b"".join(b"b" * dice.randint(0, 2 * line) + b"\n" for _ in range(dice.choice([20, 200, 2_000])))
        if dice.random() < 0.3:
            at = dice.randint(0, len(data))
            data = data[:at] + b"\0" + data[at:]
        yield answered(dice, s, any_cuts(dice, len(data)), data, dice.choice([0.001, 0.01, 0.2]))


def every_terminator(each):
    """Each byte value as terminator, with a binary byte that is the same, its neighbour or another."""
    dice = random.Random(SEED)
    for terminator, _ in product(range(256), range(each)):
        byte = dice.choice([terminator, (terminator + 1) % 256, (terminator + 255) % 256, dice.randrange(256)])
        s = any_settings(dice, 3, dice.choice([dice.randint(1, 60), LONGEST_WINDOW]))._replace(terminator=terminator, byte=byte)
        letters = [terminator] * dice.randint(0, 3) + [byte] * dice.randint(0, 1) + [10, 13, *dice.choices(range(256), k=4)]
        data = bytes(dice.choices(letters, k=dice.randint(0, 80)))
        yield answered(dice, s, any_cuts(dice, len(data)), data, dice.choice([0.1, 0.5]))


def binary_runs(count):
    """Runs of binary bytes, up to longer than the window; and inputs without a terminator."""
    dice = random.Random(SEED)
    for _ in range(count):
        window = dice.choice([1, 2, 3, 5, 8, 20, 100, LONGEST_WINDOW])
        s = any_settings(dice, 3, window)
        parts = dice.choices([b"b", b"\n", b"ab\n", b"\0"] if dice.random() < 0.8 else [b"a", b"b", b"\0"], k=dice.randint(0, 12))
        data = b"".join(part * dice.randint(1, min(window, 20) + 3) if part == b"\0" else part for part in parts)
        yield answered(dice, s, any_cuts(dice, len(data)), data, dice.choice([0.1, 0.5]))


def spool(dice, records):
    """Call records, one a line: time, caller, called, seconds."""
    numbers = [b"04%08d" % dice.randrange(10**8) for _ in range(6)]
    return b"".join(
        b"%06d;%b;%b;%d\n" % (dice.randrange(240_000), *dice.sample(numbers, 2), dice.randrange(4_000)) for _ in range(records))


def damaged(dice, good):
    """A copy with some of what happens to files: bytes changed, holes of NUL, ends of lines lost, parts doubled or cut."""
    data = bytearray(good)
    for _ in range(dice.randint(1, 6)):
        at, length = dice.randrange(len(data) + 1), dice.choice([1, 3, 30, 512])
        part = bytes(data[at:at + length])
        other = dice.choice([bytes(dice.choices(range(256), k=len(part))), b"\0" * length, part.replace(b"\n", b""), part * 2, b"", b"\r\n"])
        data[at:at + length] = other
    return bytes(data[:dice.choice([len(data), dice.randint(0, len(data))])])


def damaged_spools(count):
    """A subscriber's records looked for in damaged copies of good spools."""
    dice = random.Random(SEED)
    for _ in range(count):
        good = spool(dice, dice.choice([5, 40, 150]))
        data = damaged(dice, good)
        s = any_settings(dice, dice.choice([2, 20]), dice.choice([40, 100, 512, 4_096, LONGEST_WINDOW]))
        yield Case(s, any_cuts(dice, len(data)), data, f"has:{good[7:17].hex()}")


SETS = {
    "short": short,
    "exhaustive": exhaustive,
    "every cutting": every_cutting,
    "cut by byte": cut_by_byte,
    "zero reads": zero_reads,
    "beyond bounds": beyond_bounds,
    "from seed": lambda: from_seed(400_000),
    "around windows": lambda: around_windows(15_000),
    "long inputs": lambda: long_inputs(300),
    "every terminator": lambda: every_terminator(200),
    "binary runs": lambda: binary_runs(60_000),
    "damaged spools": lambda: damaged_spools(8_000),
}
