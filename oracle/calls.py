#!/usr/bin/env python3
"""Writes frames of calls of the writers.

Usage: calls.py limits >FRAMES
       calls.py random COUNT [SEED] >FRAMES

`limits` gives each number of a header and of a clause of each format every value around every limit, with the output
one byte short, exact and longer. `random` gives COUNT calls (one in a thousand with many literals).
"""

import pathlib
import random
import sys

sys.path.append(str(pathlib.Path(__file__).resolve().parent.parent / "tools"))
import frames
from frames import CLAUSE, HARD_CLAUSE, HEADER

PLAIN, WEIGHTED, GROUPED, WEIGHTED_2022 = FORMATS = 0, 1, 2, 4

CEILING = 2**31 - 1
LOWEST = -(2**31)
LONGEST_OUTPUT = 65536
MOST_LITERALS = 8192

# Numbers at which a decimal gets longer, with their neighbours, and those at a limit.
POWERS = [10**k + by for k in range(20) for by in (-1, 0, 1)]
COUNTS = sorted({0, *POWERS, CEILING, CEILING + 1, 2**32 - 1, 2**32, 2**63 - 1, 2**63, 2**64 - 2, 2**64 - 1})
LITERALS = [sign * size for size in sorted({*POWERS, CEILING - 1, CEILING}) if 0 < size <= CEILING for sign in (1, -1)]
BAD = [0, LOWEST]


def shown(path):
    """Each call of a file of frames in words; of many literals the first."""
    for format, kind, length, numbers, lits in frames.calls(path):
        yield f"format {format}, kind {kind}, output {length}, numbers {numbers}, {len(lits)} literals {list(lits[:8])}"


def long_line(format, kind, numbers, lits):
    """How long the line would be: only to choose lengths of the output beside it."""
    if kind == HEADER:
        return len("p cnf" + " %d %d" % tuple(numbers[:2]) + "\n") + (format != PLAIN) * len("w %d" % numbers[2])
    lead = {PLAIN: "", GROUPED: "{%d} " % numbers[0]}.get(format, "h " if kind == HARD_CLAUSE else "%d " % numbers[0])
    return len(lead) + sum(len("%d " % lit) for lit in lits) + len("0\n")


def limits():
    """The calls with each number at each limit, and those about the frames."""

    def around(format, kind, numbers, lits=()):
        exact = long_line(format, kind, numbers, lits)
        for length in exact - 1, exact, exact + 7:
            yield frames.call(format, kind, length, numbers, lits)

    for format in FORMATS:
        for place in range(3):
            for count in COUNTS:
                yield from around(format, HEADER, [count if place == at else 3 for at in range(3)])
        for kind in (CLAUSE, HARD_CLAUSE) if format == WEIGHTED_2022 else (CLAUSE,):
            for extra in COUNTS:
                yield from around(format, kind, [extra, 0, 0], [1, -2])
            for lit in LITERALS:
                yield from around(format, kind, [7, 0, 0], [lit])
            yield from around(format, kind, [7, 0, 0])
            yield from around(format, kind, [7, 0, 0], LITERALS)
            yield from around(format, kind, [7, 0, 0], [1] * 100)
        # What is judged first, with an output that is long enough and with none.
        for length in 0, 200:
            for count in CEILING, CEILING + 1:
                yield frames.call(format, HEADER, length, [count, 0, 0])
            for bad in BAD:
                for lits in [bad], [1, bad, 2], [1, 2, bad], [-1, bad, 0, LOWEST]:
                    for kind, extra in (CLAUSE, 7), (CLAUSE, 0), (HARD_CLAUSE, 7):
                        yield frames.call(format, kind, length, [extra, 0, 0], lits)
        # What a header does not look at, a plain clause, and a hard one.
        yield frames.call(format, HEADER, 200, [1, 2, 3], [0, LOWEST])
        for kind in CLAUSE, HARD_CLAUSE:
            yield frames.call(format, kind, 200, [2**64 - 1, 2**64 - 1, 2**64 - 1], [1])
        # Lengths that count as the longest, and none.
        for length in 0, 1, 2, LONGEST_OUTPUT, LONGEST_OUTPUT + 1, 2**32 - 1:
            yield frames.call(format, CLAUSE, length, [7, 0, 0])
    for format, kind in (3, HEADER), (3, CLAUSE), (255, CLAUSE), (0, 3), (2, 255), (4, 4):
        yield frames.call(format, kind, 200, [CEILING + 1, 0, 0], [0])
    # The most literals, and one more.
    yield frames.call(0, CLAUSE, 2 * MOST_LITERALS + 1, [0, 0, 0], [1] * MOST_LITERALS)
    yield frames.call(0, CLAUSE, 2 * MOST_LITERALS + 2, [0, 0, 0], [1] * MOST_LITERALS)
    yield frames.call(3, CLAUSE, 200, [0, 0, 0], [1] * (MOST_LITERALS + 1))
    yield frames.call(0, CLAUSE, 200, [0, 0, 0], [1])
    # An input that ends within a frame.
    yield frames.call(0, CLAUSE, 200, [0, 0, 0], [1, 2])[:-1]


def longest():
    """Lines as long as the longest output, and one byte longer."""
    for last in 1, -1:
        for length in LONGEST_OUTPUT - 1, LONGEST_OUTPUT, LONGEST_OUTPUT + 1, 2**32 - 1:
            yield frames.call(0, CLAUSE, length, [0, 0, 0], [-CEILING] * (LONGEST_OUTPUT // 12) + [last])


def some(count, seed):
    """So many random calls."""
    draw = random.Random(seed)

    def number():
        if draw.random() < 0.5:
            return draw.choice(COUNTS)
        return draw.getrandbits(draw.randrange(1, 65))

    def literal():
        if draw.random() < 0.01:
            return draw.choice(BAD)
        if draw.random() < 0.3:
            return draw.choice(LITERALS)
        return draw.choice((1, -1)) * max(1, draw.getrandbits(draw.randrange(1, 32)))

    for _ in range(count):
        format = draw.choice(FORMATS)
        kind = draw.choice((HEADER, CLAUSE, HARD_CLAUSE) if format == WEIGHTED_2022 else (HEADER, CLAUSE))
        numbers, lits = [number(), number(), number()], []
        if kind == HEADER and draw.random() < 0.8:
            numbers[0] %= CEILING + 1
        elif kind != HEADER:
            if draw.random() < 0.9:
                numbers[1:] = 0, 0
            many = draw.random()
            lits = [literal() for _ in range(draw.randrange(MOST_LITERALS - 1, MOST_LITERALS + 3) if many < 0.0002 else draw.randrange(6000) if many < 0.001 else draw.randrange(12))]
            if draw.random() < 0.7:
                lits = [lit for lit in lits if lit not in BAD]
        exact = long_line(format, kind, numbers, lits)
        length = draw.choice((exact - 1, exact, exact + 1, exact + draw.randrange(300), draw.randrange(exact + 1), draw.choice((0, LONGEST_OUTPUT, 2**32 - 1))))
        if draw.random() < 0.01:
            format, kind = draw.choice(((3, kind), (draw.randrange(256), kind), (format, HARD_CLAUSE), (format, draw.randrange(256))))
        yield frames.call(format, kind, length, numbers, lits)


def main():
    match sys.argv[1:]:
        case ["limits"]:
            calls = limits()
        case ["random", count, *seed] if len(seed) < 2:
            calls = some(int(count), int(seed[0]) if seed else 1)
        case _:
            sys.exit(__doc__)
    for call in calls:
        sys.stdout.buffer.write(call)


if __name__ == "__main__":
    main()
