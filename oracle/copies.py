#!/usr/bin/env python3
"""Writes what crates/copy_cases must print, with the crate's writers and readers in place of ours, and in the 2022 form those of second.py.

Usage: copies.py >STDOUT

The formulas are those of crates/copy_cases/src/main.rt. `oracle written` writes their lines, and `oracle` reads each text in
modes 0 and 1, with room for 1,024 literals. As no CR is written, modes 2 and 3 must say the same.
"""

import os
import pathlib
import subprocess
import sys

import calls
import second

sys.path.append(str(pathlib.Path(__file__).resolve().parent.parent / "tools"))
import frames

PLAIN, WEIGHTED, GROUPED = FORMATS = range(3)
WEIGHTED_2022 = second.FORMAT
HARD = 0
CEILING = 2**31 - 1
LARGEST = 2**64 - 1

# Format, counts of the header or none, and clauses as weight or group and literals.
FORMULAS = [
    (PLAIN, (3, 2, 0), [(0, [1, -3]), (0, [-2])]),
    (PLAIN, (CEILING, 0, 0), [(0, [CEILING, -CEILING]), (0, [])]),
    (PLAIN, (0, 1, 0), [(0, [9, -10, 99, -100])]),
    (PLAIN, None, [(0, []), (0, [-CEILING, CEILING])]),
    (WEIGHTED, (100, 5, LARGEST), [(0, [1]), (9, [-9]), (10, [10, -99]), (99, [100]), (100, [])]),
    (WEIGHTED, (0, 0, 0), [(CEILING, [CEILING])]),
    (WEIGHTED, None, [(2**63, [-CEILING]), (LARGEST, []), (0, [1])]),
    (GROUPED, (9, 3, 10), [(0, [1, -9]), (9, []), (10, [2])]),
    (GROUPED, (0, 0, LARGEST), [(LARGEST, [-CEILING]), (2**63, [])]),
    (GROUPED, None, [(LARGEST, []), (99, [CEILING]), (100, [-1])]),
]
for format in FORMATS:
    FORMULAS += [(format, None, []), (format, (0, 0, 0), [])]
LONG = [*range(1, 1024), -1024]
FORMULAS += [
    (PLAIN, (1024, 1, 0), [(0, LONG)]),
    (WEIGHTED, (1024, 1, LARGEST), [(LARGEST, LONG)]),
    (GROUPED, (1024, 1, LARGEST), [(LARGEST, LONG)]),
    (WEIGHTED_2022, None, [(HARD, [1, -3]), (9, [CEILING, -CEILING]), (HARD, []), (100, []), (LARGEST, [-2])]),
    (WEIGHTED_2022, None, []),
    (WEIGHTED_2022, None, [(HARD, LONG)]),
    (WEIGHTED_2022, None, [(LARGEST, LONG)]),
]

here = os.path.dirname(os.path.abspath(__file__))
oracle = os.path.join(os.environ.get("CARGO_TARGET_DIR", os.path.join(here, "target")), "release", "oracle")


def answers(given, *arguments):
    """What the oracle says of each frame, as bytes."""
    said = subprocess.run([oracle, *arguments], input=b"".join(given), stdout=subprocess.PIPE, check=True).stdout
    return [answer.split(b"\n", 1)[1] for answer in said.split(b"case ")[1:]]


def line(answer):
    """The line that was written."""
    word, _, line = answer.split()
    assert word == b"written"
    return bytes.fromhex(line.decode())


def copied(format, header, clauses):
    """A formula's text, and what is read of it in modes 0 and 1."""
    lines = [frames.call(format, frames.HEADER, calls.LONGEST_OUTPUT, header)] if header else []
    lines += [frames.call(format, frames.CLAUSE, calls.LONGEST_OUTPUT, (extra, 0, 0), lits) for extra, lits in clauses]
    text = b"".join(map(line, answers(lines, "written")))
    return text, *answers(frames.case(format, mode, 1024, text) for mode in (0, 1))


def copied_in_2022(clauses):
    lines = []
    for extra, lits in clauses:
        kind = frames.HARD_CLAUSE if extra == HARD else frames.CLAUSE
        (said,) = second.written(kind, calls.LONGEST_OUTPUT, (extra, 0, 0), lits)
        lines.append(line(said.encode()))
    text = b"".join(lines)
    return text, *("".join(f"{said}\n" for said in second.transcript(WEIGHTED_2022, mode, 1024, text)).encode() for mode in (0, 1))


for format, header, clauses in FORMULAS:
    text, strict, lenient = copied_in_2022(clauses) if format == WEIGHTED_2022 else copied(format, header, clauses)
    name = {PLAIN: b"plain", WEIGHTED: b"weighted", GROUPED: b"grouped", WEIGHTED_2022: b"weighted2022"}[format]
    read = b"strict\n%slenient\n%s" % (strict, lenient)
    sys.stdout.buffer.write(b"%s %d bytes\n%s%scr\n%s" % (name, len(text), text, read, read))
