#!/usr/bin/env python3
"""Holds the lenient answers of ./run reader_cases to the strict ones: lenient never changes a strict reading.

Usage: modes.py

Each stored text of crates/reader_cases is asked in modes 0 and 1, and in modes 2 and 3. What must be so of the two answers is document 02's, in T-12, and is said here of lines, apart from
the statement in crates/dimacs/specs/Leniency.antt: both open alike; the clauses answered strictly are the first ones answered leniently; a text that is read to its end strictly, and a log that is accepted
strictly, has the same lines leniently; what is refused leniently is refused strictly, at that place or before it; and a text that is read to its end leniently has the same lines strictly exactly if its
counts are true. Then wrong answers are planted, each of which must be found. The exit status is 1 if anything is not as it must be.
"""

import collections
import io
import pathlib
import re
import subprocess
import sys

import frames

ROOT = pathlib.Path(__file__).resolve().parent.parent
FORMATS = range(5)
GROUPED = 2
LOG = 3
# A strict mode, and the lenient one with the same line ends.
PAIRS = (0, 1), (2, 3)


def asked():
    """Each stored text once for each format, room and pair of modes."""
    stored = dict.fromkeys((format, room, text) for format, _, room, text in frames.cases(ROOT / "crates/reader_cases/stdin") if format in FORMATS and text is not None)
    return [(format, modes, room, text) for format, room, text in stored for modes in PAIRS]


def answered(pairs):
    """The lines of the strict and of the lenient answer to each pair."""
    given = b"".join(frames.case(format, mode, room, text) for format, modes, room, text in pairs for mode in modes)
    said = subprocess.run([ROOT / "run", "reader_cases"], input=given, stdout=subprocess.PIPE, check=True).stdout
    answers = list(frames.answers_in(io.BytesIO(said)))
    return list(zip(answers[::2], answers[1::2], strict=True))


def kind(line):
    return line.split()[0]


def accepted(lines):
    """The last line says the end of a text or the literals of a log, and not a refusal."""
    return kind(lines[-1]) != b"refused"


def place(lines):
    return int(lines[-1].split()[2])


def clauses(lines):
    return [line for line in lines if kind(line) == b"clause"]


def within(numbers, count):
    """A count of 0 is unspecified."""
    return count == 0 or max(numbers, default=0) <= count


def counts_true(format, lines):
    """The clauses have no literal, and no group, above what the header counts, and are as many."""
    counts = lines[0].split()[1:]
    if counts == [b"none"]:
        return True
    variables, number, *third = map(int, counts)
    found = [line.removeprefix(b"clause") for line in clauses(lines)]
    literals = [abs(int(literal)) for line in found for literal in line.split(b":")[-1].split()]
    groups = [int(group) for line in found for group in re.findall(rb"\{([0-9]+)\}", line)]
    return within(literals, variables) and number in (0, len(found)) and (format != GROUPED or within(groups, third[0]))


def faults(format, strict, lenient):
    """What is not as it must be of two answers. A text opens with its first line, a header or a refusal; a log has no opening."""
    if format != LOG and lenient[0] != strict[0]:
        yield "opens otherwise"
    if clauses(lenient)[: len(clauses(strict))] != clauses(strict):
        yield "other clauses"
    if accepted(strict) and lenient != strict:
        yield "accepted strictly and read otherwise leniently"
    if not accepted(lenient) and (accepted(strict) or place(strict) > place(lenient)):
        yield "refused leniently and not strictly up to there"
    if format != LOG and accepted(lenient) and lenient != strict and counts_true(format, lenient):
        yield "counts are true, and read otherwise strictly"
    if format != LOG and accepted(strict) and not counts_true(format, strict):
        yield "counts are not true, and accepted strictly"


def outcome(strict, lenient):
    if accepted(strict):
        return "read to the end strictly"
    if accepted(lenient):
        return "refused strictly only"
    return "refused both ways alike" if strict == lenient else "refused leniently further on"


# ---- wrong answers, made of right ones


def clause_skipped(lines):
    first = next((at for at, line in enumerate(lines) if kind(line) == b"clause"), len(lines))
    return lines[:first] + lines[first + 1 :]


def weight_changed(lines):
    return [re.sub(rb"^(clause \{?)([0-9]+)", lambda found: found[1] + b"%d" % (int(found[2]) + 1), line) if b":" in line else line for line in lines]


def header_for_none(lines):
    return [b"header none\n" if kind(line) == b"header" else line for line in lines]


def end_refused(lines):
    return [b"refused 9 0 0\n" if kind(line) == b"end" else line for line in lines]


def refused_sooner(lines):
    return [re.sub(rb"^(refused [0-9]+) ([1-9][0-9]*)", lambda found: found[1] + b" %d" % (int(found[2]) - 1), line) for line in lines]


def verdict_changed(lines):
    return [b"verdict no\n" if line == b"verdict yes\n" else line for line in lines]


def literal_lost(lines):
    return [b" ".join(line.split()[:-1]) + b"\n" if kind(line) == b"literals" and len(line.split()) > 1 else line for line in lines]


def count_changed(lines):
    return [re.sub(rb"^(header [0-9]+) ([1-9][0-9]*)", lambda found: found[1] + b" %d" % (int(found[2]) + 1), line) for line in lines]


# What a lenient reading may make wrong of a strict one.
LENIENT = clause_skipped, weight_changed, header_for_none, end_refused, refused_sooner, verdict_changed, literal_lost

# All that is planted, each at least once.
KINDS = [spoil.__name__ for spoil in LENIENT] + ["end_refused_strictly", "count_changed"]


def wrong(format, strict, lenient):
    """Pairs of answers with a fault, each by its name: the lenient one of each kind, an end that is refused strictly though counts are true, and a count that neither reading holds to."""
    for spoil in LENIENT:
        if spoil(strict) != strict:
            yield spoil.__name__, strict, spoil(strict)
    if format != LOG and accepted(lenient) and counts_true(format, lenient):
        yield "end_refused_strictly", end_refused(lenient), lenient
    if accepted(strict) and count_changed(strict) != strict:
        yield "count_changed", count_changed(strict), count_changed(strict)


def main():
    if sys.argv[1:]:
        print(__doc__.split("\n")[2], file=sys.stderr)
        sys.exit(2)
    pairs = asked()
    told, differing, planted, missed = collections.Counter(), [], collections.Counter(), collections.Counter()
    for pair, (strict, lenient) in zip(pairs, answered(pairs), strict=True):
        told[outcome(strict, lenient)] += 1
        differing += [(fault, pair, strict, lenient) for fault in faults(pair[0], strict, lenient)]
        for name, *spoilt in wrong(pair[0], strict, lenient):
            planted[name] += 1
            missed[name] += not any(faults(pair[0], *spoilt))
    print(f"{len(pairs)} pairs: " + ", ".join(f"{count} {what}" for what, count in sorted(told.items())) + f"; {len(differing)} differences")
    for fault, (format, modes, room, text), *answers in sorted(differing, key=lambda found: len(found[1][3]))[:3]:
        print(f"{fault}: format {format}, room {room}, text {text!r}")
        for mode, lines in zip(modes, answers):
            print(f"  mode {mode}: " + "; ".join(line.decode().strip() for line in lines))
    for name in KINDS:
        print(f"{name}: {planted[name]} planted, {missed[name]} missed")
    sys.exit(1 if differing or any(missed.values()) or not all(planted[name] for name in KINDS) else 0)


main()
