#!/usr/bin/env python3
"""Chooses a few thousand cases out of many, so that every kind of answer is there.

Usage: sample.py FRAMES TRANSCRIPT DIRECTORY [COUNT]

FRAMES is what the oracle was given and TRANSCRIPT what it wrote. The chosen frames go to
DIRECTORY/stdin and their answers, numbered anew, to DIRECTORY/stdout. COUNT is 3,000 by default;
there are fewer only if there are fewer different cases.

Cases are sorted into kinds: format, mode, refusal number or acceptance, and some detail. Kinds take
turns until enough are chosen. In every other turn a kind gives its shortest text, in the others one
that stands anywhere in the order of a checksum. The same files always give the same choice.
"""

import os
import pathlib
import sys
import zlib

sys.path.append(str(pathlib.Path(__file__).resolve().parent.parent / "tools"))
import frames
import refusals

# A kind keeps so many candidates in either order.
KEPT = 400

# Longer texts are not chosen.
LONGEST = 200

UNKNOWN = refusals.NUMBERS["FORMAT_OR_MODE_UNKNOWN"]


def outcome(lines):
    """The refusal number, or 0 for an accepted text."""
    last = lines[-1].split()
    return int(last[1]) if last[0] == b"refused" else 0


def kind(format, mode, text, lines):
    number = outcome(lines)
    if number == UNKNOWN:
        return min(format, 4), min(mode, 2), UNKNOWN, ()
    first = lines[0].split()
    header = 0 if first[0] != b"header" else 1 if first[1] == b"none" else 2
    clauses = sum(line.startswith(b"clause") for line in lines)
    if number:
        k, _, _, word = (lines[-1].split() + [b""])[3:7]
        detail = header, min(clauses, 1), min(int(k), 2), word != b""
    elif format == 3:
        detail = first[1], min(len(lines[1].split()), 3)
    else:
        empty = any(line == b"clause\n" or line.endswith(b":\n") for line in lines)
        detail = header, min(clauses, 3), empty, b"\r" in text
    return format, mode, number, detail


class Kind:
    def __init__(self):
        self.short = []
        self.any = []

    def add(self, case):
        _, _, _, text, _ = case
        self.short.append((len(text), case))
        self.any.append((zlib.crc32(b"%d %d %d " % case[:3] + text), case))
        if len(self.short) > 4 * KEPT:
            self.settle()

    def settle(self):
        """Keeps what comes first in either order, without repeats."""
        self.short = sorted(set(self.short))[:KEPT]
        self.any = sorted(set(self.any))[:KEPT]

    def candidates(self):
        """The two orders in turn, each case once."""
        self.settle()
        given = set()
        for pair in zip(self.short, self.any):
            for _, case in pair:
                if case not in given:
                    given.add(case)
                    yield case


def main():
    if len(sys.argv) not in (4, 5):
        sys.exit(__doc__)
    wanted = int(sys.argv[4]) if len(sys.argv) == 5 else 3000

    kinds = {}
    for (format, mode, room, text), lines in zip(frames.cases(sys.argv[1]), frames.answers(sys.argv[2])):
        if text is not None and len(text) <= LONGEST:
            key = kind(format, mode, text, lines)
            kinds.setdefault(key, Kind()).add((format, mode, room, text, b"".join(lines)))

    order = sorted(kinds, key=repr)
    waiting = [kinds[key].candidates() for key in order]
    chosen = []
    while waiting and len(chosen) < wanted:
        # A whole round is given, so that no kind is preferred for its name.
        givers, waiting = waiting, []
        for candidates in givers:
            case = next(candidates, None)
            if case is not None:
                chosen.append(case)
                waiting.append(candidates)

    chosen.sort(key=lambda case: (case[0], case[1], outcome(case[4].splitlines()), len(case[3]), case))
    os.makedirs(sys.argv[3], exist_ok=True)
    with open(os.path.join(sys.argv[3], "stdin"), "wb") as given:
        for format, mode, room, text, _ in chosen:
            given.write(frames.case(format, mode, room, text))
    with open(os.path.join(sys.argv[3], "stdout"), "wb") as said:
        for number, (*_, lines) in enumerate(chosen):
            said.write(b"case %d\n" % number + lines)

    counts = {}
    for format, mode, _, text, lines in chosen:
        key = kind(format, mode, text, lines.splitlines(keepends=True))[:3]
        counts[key] = counts.get(key, 0) + 1
    print(f"{len(chosen)} cases of {len(kinds)} kinds")
    print(f"{len(counts)} triples of format, mode and outcome, the rarest with {min(counts.values())} cases")


if __name__ == "__main__":
    main()
