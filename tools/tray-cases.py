#!/usr/bin/env python3
"""Holds the program `tray_cases` to a tray and a reader that are written here, from documents 01 and 02 and not from the code.

tray-cases.py [--runs N] [--calls N] [--seed N]   makes random runs of calls, gives each to ./run tray_cases, and compares what it prints line by line
tray-cases.py --slips                             gives a run to wrong trays and wrong readers, each of which must differ from what the program prints
tray-cases.py --sample DIR                        writes DIR/stdin, a run with every kind of answer on which every wrong model differs, and DIR/stdout, what
                                              the tray here says of it

The tray here is a plain list of jobs, and the reader goes by regular expressions, so that a slip in the definition or the code and the same
slip here are unlikely to meet. The refusal numbers are the documents', and not read from host/refusals.txt. 25 is not reached: it takes 2^64 - 1 tickets. The exit status is 1 if anything is not as it must be.
"""

import argparse
import collections
import pathlib
import random
import re
import subprocess
import sys

import frames

ROOT = pathlib.Path(__file__).resolve().parent.parent
PLAIN, WEIGHTED, GROUPED, LOG, WEIGHTED_2022 = range(5)
FORMATS = PLAIN, WEIGHTED, GROUPED, WEIGHTED_2022
STRICT, LENIENT, STRICT_CR, LENIENT_CR = MODES = range(4)
CEILING = 2**31 - 1
LARGEST = 2**64 - 1
PLACES = 32
ROOM = 1024
AREA = frames.LONGEST

# ---- the reader

WORD_ENDS = rb"(?=[\t\n\r ]|\Z)[\t ]*"
BLANKS = re.compile(rb"[\t ]*")
# Where a lone CR ends no line, and where it does.
LINE_ENDS = re.compile(rb"\r?\n"), re.compile(rb"\r\n|\n|\r")
COMMENTS_OR_LINE_ENDS = re.compile(rb"(?:c[^\n]*(?:\n|\Z)|\r?\n)[\t ]*"), re.compile(rb"(?:c[^\r\n]*(?:\r\n|\n|\r|\Z)|\r\n|\n|\r)[\t ]*")
NUMBER = re.compile(rb"([0-9]+)" + WORD_ENDS)
SIGNED = re.compile(rb"(-?[0-9]+)" + WORD_ENDS)
BRACED = re.compile(rb"\{([0-9]+)\}[\t ]*")
P = re.compile(rb"p" + WORD_ENDS)
H = re.compile(rb"h" + WORD_ENDS)
NAMES = [re.compile(name + WORD_ENDS) for name in (rb"cnf", rb"wcnf", rb"gcnf")]


class Refused(Exception):
    """A text is refused: number, place and k, and then line and column."""

    def words(self):
        return "refused %d %d %d %d %d" % self.args


class Reader:
    """One text, whose bytes are lent anew at each call."""

    room = ROOM

    def __init__(self, format, mode):
        self.format, self.strict = format, mode in (STRICT, STRICT_CR)
        self.line_end, self.comment_or_line_end = LINE_ENDS[mode // 2], COMMENTS_OR_LINE_ENDS[mode // 2]
        self.place = 0
        self.literal_limit, self.group_limit, self.clause_limit = CEILING, LARGEST, 0
        self.count = 0

    def spot(self, text, at):
        """Line and column of a place."""
        starts = [0, *(found.end() for found in self.line_end.finditer(text) if found.end() <= at)]
        return len(starts), at - starts[-1] + 1

    def skipped(self, text, at):
        """Past any comments and line ends."""
        while found := self.comment_or_line_end.match(text, at):
            at = found.end()
        return at

    def closed(self, text, at, k):
        """Past what closes a header or a clause."""
        found = self.line_end.match(text, at)
        if not found and at < len(text):
            raise Refused(5, at, k)
        return found.end() if found else at

    def open(self, text):
        at = self.skipped(text, BLANKS.match(text).end())
        found = self.format != WEIGHTED_2022 and P.match(text, at)
        if not found:
            self.place = at
            return "header none"
        at = found.end()
        found = NAMES[self.format].match(text, at)
        if not found:
            raise Refused(1, at, 0)
        at = found.end()
        counts = []
        for missing, too_big, most in [(2, 10, CEILING), (3, 11, LARGEST), (4, 12, LARGEST)][: 2 + (self.format != PLAIN)]:
            found = NUMBER.match(text, at)
            if not found:
                raise Refused(missing, at, 0)
            if int(found[1]) > most:
                raise Refused(too_big, at, 0)
            counts.append(int(found[1]))
            at = found.end()
        self.place = self.closed(text, at, 0)
        if self.strict:
            self.literal_limit = counts[0] or CEILING
            self.clause_limit = counts[1]
            if self.format == GROUPED:
                self.group_limit = counts[2] or LARGEST
        return " ".join(["header", *map(str, counts)])

    def next(self, text):
        """The words of the next clause, or of the end."""
        at = BLANKS.match(text, self.place).end()
        reached = 0 < self.clause_limit <= self.count
        while True:
            if not reached:
                words = self.clause(text, at)
                if words:
                    self.count += 1
                    return words
            found = self.comment_or_line_end.match(text, at)
            if not found:
                break
            at = found.end()
        if at == len(text) and (reached or self.clause_limit == 0):
            return "end"
        raise Refused(9, at, 0)

    def lead(self, text, at):
        """What stands before the literals of the clause at a place, or nothing."""
        if self.format == GROUPED:
            return BRACED.match(text, at)
        if self.format == WEIGHTED_2022:
            if P.match(text, at):
                raise Refused(33, at, 0)
            if found := H.match(text, at):
                return found
        return NUMBER.match(text, at)

    def told(self, found, at):
        """The words of what was found there."""
        if found.re is H:
            return "h:"
        extra = int(found[1])
        if self.format == WEIGHTED_2022 and extra == 0:
            raise Refused(32, at, 0)
        if self.format == GROUPED:
            if extra > self.group_limit:
                raise Refused(14, at, 0)
            return "{%d}:" % extra
        if extra > LARGEST:
            raise Refused(13, at, 0)
        return "%d:" % extra

    def clause(self, text, at):
        """The words of the clause at a place, or nothing where none begins."""
        words = ["clause"]
        if self.format == PLAIN:
            found = SIGNED.match(text, at)
            if not found:
                return None
        else:
            found = self.lead(text, at)
            if not found:
                return None
            words.append(self.told(found, at))
            at = found.end()
            if self.line_end.match(text, at):
                at = self.skipped(text, at)
            found = SIGNED.match(text, at)
            if not found:
                raise Refused(8, at, 0)
        k = 0
        while int(found[1]) != 0:
            literal = int(found[1])
            if abs(literal) > self.literal_limit:
                raise Refused(15, at, k)
            if k == self.room:
                raise Refused(16, at, k)
            words.append(str(literal))
            k += 1
            at = found.end()
            on_next_line = self.line_end.match(text, at)
            if on_next_line:
                at = self.skipped(text, at)
            found = SIGNED.match(text, at)
            if not found:
                raise Refused(7 if on_next_line else 6, at, k)
        self.place = self.closed(text, found.end(), k)
        return " ".join(words)


# ---- the tray


class Job:
    def __init__(self, ticket, reader, start, length):
        self.ticket, self.reader, self.start, self.length = ticket, reader, start, length
        self.begun = False


class Tray:
    """Each call answers its line."""

    reader = Reader

    def __init__(self, area):
        self.area = bytearray(area)
        self.waiting = []
        self.given = 0

    def put(self, format, mode, start, length):
        if format not in FORMATS or mode not in MODES:
            return "put refused 26"
        if start + length > len(self.area):
            return "put refused 21"
        if len(self.waiting) == PLACES:
            return "put refused 20"
        self.waiting.append(Job(self.ticket(), self.reader(format, mode), start, length))
        return "put %d" % self.waiting[-1].ticket

    def ticket(self):
        self.given += 1
        return self.given

    def turn(self, lent, room):
        if not self.waiting:
            return "turn refused 23"
        if room < ROOM:
            return "turn refused 22"
        job = self.waiting.pop(0)
        try:
            words = self.served(job, self.area[:lent])
        except Refused as refusal:
            words = refusal.words()
        if not words.startswith(("end", "refused")):
            self.back(job)
        return "turn %d %s" % (job.ticket, words)

    def served(self, job, area):
        if job.start + job.length > len(area):
            raise Refused(21, 0, 0, 0, 0)
        text = bytes(area[job.start : job.start + job.length])
        call = job.reader.next if job.begun else job.reader.open
        job.begun = True
        try:
            return call(text)
        except Refused as refusal:
            number, place, k = refusal.args
            raise Refused(number, place, k, *job.reader.spot(text, place))

    def back(self, job):
        self.waiting.append(job)

    def withdraw(self, ticket):
        for i, job in enumerate(self.waiting):
            if job.ticket == ticket:
                self.leave(i)
                return "withdraw %d" % ticket
        return "withdraw refused 24"

    def leave(self, i):
        del self.waiting[i]

    def change(self, offset, byte):
        if offset < len(self.area):
            self.area[offset] = byte

    def call(self, kind, *fields):
        return [self.put, self.turn, self.withdraw, self.change][kind](*fields)


def lines(given, tray=Tray):
    """What the program must print of its whole input."""
    area, calls, stopped = frames.tray_calls(given)
    held = tray(area)
    said = [held.call(kind, *fields) for kind, fields in calls]
    return [line for line in [*said, stopped] if line]


# ---- wrong trays and readers


class FrontAgain(Tray):
    """A job that goes on stays in front."""

    def back(self, job):
        self.waiting.insert(0, job)


class BehindOne(Tray):
    """A job that goes on lets one other pass, and not all."""

    def back(self, job):
        self.waiting.insert(1, job)


class TicketReused(Tray):
    """The smallest ticket that does not wait is given."""

    def ticket(self):
        self.given = 1
        while any(job.ticket == self.given for job in self.waiting):
            self.given += 1
        return self.given


class LastTakesItsPlace(Tray):
    """A withdrawal moves the last job to the freed place."""

    def leave(self, i):
        last = self.waiting.pop()
        if i < len(self.waiting):
            self.waiting[i] = last


class FullFirst(Tray):
    """A full tray is seen before what a put names."""

    def put(self, *fields):
        return "put refused 20" if len(self.waiting) == PLACES else super().put(*fields)


class BufferFirst(Tray):
    """A short buffer is seen before an empty tray."""

    def turn(self, lent, room):
        return "turn refused 22" if room < ROOM else super().turn(lent, room)


class WholeArea(Tray):
    """A job reads past its part, to the end of the area."""

    def served(self, job, area):
        job.length = max(job.length, len(area) - job.start)
        return super().served(job, area)


class RefusedStays(Tray):
    """A refused job goes to the back."""

    def turn(self, lent, room):
        front = self.waiting[0] if self.waiting else None
        line = super().turn(lent, room)
        if line.startswith("turn %d refused" % (front.ticket if front else 0)):
            self.back(front)
        return line


class OldArea(Tray):
    """A job reads the bytes that stood there when it was put."""

    def put(self, *fields):
        line = super().put(*fields)
        if "refused" not in line:
            self.waiting[-1].area = bytes(self.area)
        return line

    def served(self, job, area):
        return super().served(job, job.area[: len(area)])


class AreaLines(Tray):
    """Line and column are counted from the start of the area, and not of the job."""

    def served(self, job, area):
        try:
            return super().served(job, area)
        except Refused as refusal:
            number, place, k, line, _ = refusal.args
            raise Refused(number, place, k, *(job.reader.spot(bytes(area), job.start + place) if line else (0, 0)))


class WideRoom(Reader):
    """The whole buffer is filled, and not its first 1,024 places."""

    room = 4096


class ZeroCount(Reader):
    """A clause count of 0 is no clauses."""

    def open(self, text):
        words = super().open(text)
        self.count = LARGEST if words.startswith("header") and words.split()[2:3] == ["0"] else 0
        self.clause_limit = self.clause_limit or self.count
        return words


class ZeroCloses(Reader):
    """A clause needs no line end."""

    def clause(self, text, at):
        try:
            return super().clause(text, at)
        except Refused as refusal:
            if refusal.args[0] != 5:
                raise
            return super().clause(text[: refusal.args[1]], at)


class ZeroWeight(Reader):
    """A weight of 0 is a weight like any other in the 2022 form."""

    def told(self, found, at):
        return "0:" if found.re is NUMBER and int(found[1]) == 0 else super().told(found, at)


class NoClauseForHeader(Reader):
    """The word `p` is 9 in the 2022 form."""

    def lead(self, text, at):
        return None if P.match(text, at) else super().lead(text, at)


class ShortH(Reader):
    """The byte `h` begins a hard clause, whatever follows."""

    def lead(self, text, at):
        return super().lead(text, at) or (self.format == WEIGHTED_2022 and LOOSE_H.match(text, at))

    def told(self, found, at):
        return "h:" if found.re is LOOSE_H else super().told(found, at)


LOOSE_H = re.compile(rb"h[\t ]*")


class ReturnEndsNoLine(Reader):
    """A lone CR ends a line in no mode."""

    def __init__(self, format, mode):
        super().__init__(format, mode % 2)


class ReturnLenient(Reader):
    """Mode 2 applies no counts."""

    def __init__(self, format, mode):
        super().__init__(format, mode)
        self.strict = mode == STRICT


class EachReturn(Reader):
    """Line and column go by each CR and each LF."""

    def spot(self, text, at):
        starts = [0, *(i + 1 for i in range(at) if text[i] in b"\r\n")]
        return len(starts), at - starts[-1] + 1


def reading(wrong):
    return type(wrong.__name__, (Tray,), {"__doc__": wrong.__doc__, "reader": wrong})


SLIPS = [FrontAgain, BehindOne, TicketReused, LastTakesItsPlace, FullFirst, BufferFirst, WholeArea, RefusedStays, OldArea, AreaLines]
SLIPS += map(reading, [WideRoom, ZeroCount, ZeroCloses, ZeroWeight, NoClauseForHeader, ShortH, ReturnEndsNoLine, ReturnLenient, EachReturn])

# ---- random texts and calls

# A text for each kind of answer, so that every run of some size has them all.
KINDS = [
    (PLAIN, b"1 0 2 0\n"),
    (PLAIN, b"p cnf 0 0\n7 0\n"),
    (PLAIN, b"p cnf 2 1\n3 0\n"),
    (PLAIN, b"2147483647 -2147483647 0\n-2147483648 0"),
    (PLAIN, b"p cnf 2 2\n1 0\n"),
    (PLAIN, b"p cnf 2 1\n1 0\n2 0\n"),
    (PLAIN, b"1 \nx"),
    (PLAIN, b"p cnf\n"),
    (PLAIN, b"p cnf 2147483648 1\n"),
    (PLAIN, b"p cnf 2147483647 18446744073709551615\n1 2"),
    (PLAIN, b"p cnf 3 18446744073709551616\n"),
    (PLAIN, b"1 " * ROOM + b"0\n" + b"2 " * ROOM + b"-3 0\n"),
    (WEIGHTED, b"p wcnf 4 2 9\n9 1 -4 0\n18446744073709551615 2 0\n"),
    (WEIGHTED, b"5\n"),
    (WEIGHTED, b"p wcnf 4 2\n"),
    (WEIGHTED, b"p wcnf 4 2 18446744073709551616\n"),
    (WEIGHTED, b"18446744073709551616 1 0\n"),
    (GROUPED, b"p gcnf 2 2 1\n{0} 1 0\n{2} 2 0\n"),
    (GROUPED, b"p gcnf 2 2 0\n{18446744073709551615}1 0\n{18446744073709551616} 2 0\n"),
    (GROUPED, b"p gcnf 2\n"),
    (WEIGHTED_2022, b"c order\nh 1 -2 0\n18446744073709551615 2 0\nh\n0"),
    (WEIGHTED_2022, b"h 1 0\n000 1 0\n"),
    (WEIGHTED_2022, b"5 1 0\np wcnf 1 1 1\n"),
    (WEIGHTED_2022, b"h1 0\n"),
    (WEIGHTED_2022, b"h"),
    (WEIGHTED_2022, b"18446744073709551616 1 0\n"),
    (WEIGHTED_2022, b"h " + b"1 " * ROOM + b"0\nh " + b"2 " * ROOM + b"-3 0\n"),
]
LIMITS = [0, 1, CEILING - 1, CEILING, CEILING + 1, 2**32, LARGEST - 1, LARGEST, LARGEST + 1, 10**30]
BYTES = b"0123456789  \t\n\n\r-cph{}xnf\x00\xff"


def number(rng, most):
    if rng.random() < 0.04:
        return rng.choice(LIMITS)
    return rng.randint(0, most)


def digits(rng, n):
    return b"0" * rng.choice([0, 0, 0, 0, 0, 0, 1, 21]) + b"%d" % n


def note(rng):
    return rng.choice([b"c door left", b"c", b"c 1 0", b"cut to order", b"c p cnf 1 1\r"]) + b"\n"


def gap(rng):
    """What stands between two numbers of a clause."""
    if rng.random() < 0.9:
        return rng.choice([b" ", b" ", b" ", b"  ", b"\t"])
    return rng.choice([b"\n", b"\r\n", b" \n ", b"\n\n", b"\n" + note(rng), b" \r\n\t" + note(rng) + b" "])


def literals(rng, variables):
    if rng.random() < 0.005:
        n = rng.choice([ROOM - 1, ROOM, ROOM + 1])
        return [rng.randint(1, max(1, min(variables, 9))) for _ in range(n)]
    return [rng.choice([1, -1]) * max(1, number(rng, variables)) for _ in range(rng.choice([0, 1, 1, 2, 2, 3, 3, 4, 7]))]


def clause(rng, format, variables, groups):
    said = b""
    if format == WEIGHTED:
        said += digits(rng, number(rng, 50)) + gap(rng)
    if format == WEIGHTED_2022:
        said += rng.choice([b"h", digits(rng, rng.choice([1, 2, 3, number(rng, 50)]))]) + gap(rng)
    if format == GROUPED:
        said += b"{" + digits(rng, number(rng, groups)) + b"}" + rng.choice([b"", gap(rng), gap(rng)])
    for literal in literals(rng, variables):
        said += (b"-" if literal < 0 else b"") + digits(rng, abs(literal)) + gap(rng)
    said += rng.choice([b"0", b"0", b"0", b"0", b"0", b"0", b"-0", b"00"])
    return said + rng.choice([b"", b"", b" ", b"\t"])


def damaged(rng, text):
    for _ in range(rng.choice([1, 1, 2, 3])):
        at = rng.randint(0, len(text))
        cut = rng.choice([0, 1, 1, 2, 5])
        text = text[:at] + rng.choice([b"", bytes([rng.choice(BYTES)])]) + text[at + cut :]
    return text[: rng.randint(0, len(text))] if rng.random() < 0.2 else text


def text(rng, format):
    line_end = rng.choice([b"\n", b"\n", b"\n", b"\r\n", b"\r"])
    variables, groups, clauses = rng.randint(1, 30), rng.randint(1, 9), rng.choice([0, 1, 1, 2, 3, 4, 5, 8, 20])
    said = b"".join(note(rng) for _ in range(rng.choice([0, 0, 0, 1, 2])))
    if rng.random() < (0.02 if format == WEIGHTED_2022 else 0.65):
        counts = [rng.choice([variables] * 8 + [0, number(rng, 30)]), rng.choice([clauses] * 8 + [0, number(rng, 9)])]
        if format != PLAIN:
            counts.append(rng.choice([groups] * 8 + [0, number(rng, 50)]))
        if rng.random() < 0.05:
            counts = counts[: rng.randint(0, 2)]
        name = [b"cnf", b"wcnf", b"gcnf", b"", b"wcnf"][format if rng.random() < 0.97 else rng.randrange(3)]
        said += b" ".join([b"p", name, *(digits(rng, n) for n in counts)]) + line_end
    for _ in range(clauses):
        said += clause(rng, format, variables, groups) + line_end
        if rng.random() < 0.1:
            said += rng.choice([note(rng), line_end, b" "])
    if said and rng.random() < 0.2:
        said = said[:-1]
    return damaged(rng, said) if rng.random() < 0.4 else said


class Feeder:
    """Makes calls that suit the tray as it stands."""

    def __init__(self, rng, size):
        self.rng = rng
        self.parts = []
        area = b""
        kinds = rng.sample(KINDS, len(KINDS))
        while len(area) < size:
            format = rng.choice(FORMATS)
            format, said = kinds.pop() if kinds and rng.random() < 0.2 else (format, text(rng, format))
            if len(area) + len(said) <= size:
                self.parts.append((format, len(area), len(said)))
                area += said
            area += bytes(rng.choice(BYTES) for _ in range(rng.choice([0, 0, 1, 3])))
        self.tray = Tray(area[:size])
        self.changed = []

    def put(self):
        rng, size = self.rng, len(self.tray.area)
        format, start, length = rng.choice(self.parts or [(rng.choice(FORMATS), 0, size)])
        mode = rng.choice([STRICT, STRICT, LENIENT, STRICT_CR, LENIENT_CR])
        # A full tray is often put to with a second fault, so that the order of the tests is seen; so is an empty one asked for a turn.
        how = rng.random() * (0.2 if len(self.tray.waiting) == PLACES else 1)
        if how < 0.04:
            format, mode = rng.choice([(LOG, STRICT), (255, mode), (format, 4), (format, 255), (5, mode), (5, 7)])
        if how < 0.06 or how > 0.95:
            start, length = rng.choice([(size, 0), (size, 1), (size + 1, 0), (0, size), (0, size + 1), (LARGEST, 1), (1, LARGEST), (LARGEST, LARGEST), (2**32, 0)])
        elif how < 0.12:
            format = rng.choice(FORMATS)
        elif how < 0.25:
            start = min(size, max(0, start + rng.randint(-9, 9)))
            length = max(0, length + rng.randint(-9, 60))
        elif how < 0.28:
            start = rng.randint(0, size)
            length = rng.randint(0, size - start)
        return format, mode, start, length

    def turn(self):
        rng, size = self.rng, len(self.tray.area)
        lent = rng.choice([size] * 12 + [size + 1, 2**32 - 1, AREA, 2 * AREA]) if rng.random() < 0.97 else rng.randint(0, size)
        short = rng.random() < (0.05 if self.tray.waiting else 0.3)
        room = rng.choice([0, 1, ROOM - 1] if short else [ROOM, ROOM + 1, 4096, 4096, 4097, 2**32 - 1])
        return lent, room

    def withdraw(self):
        rng = self.rng
        if self.tray.waiting and rng.random() < 0.6:
            return (rng.choice(self.tray.waiting).ticket,)
        return (rng.choice([0, self.tray.given + 1, max(0, self.tray.given - rng.randint(0, 99)), LARGEST]),)

    def change(self):
        """A byte anew, or one as it was, so that the texts do not wear out."""
        rng, size = self.rng, len(self.tray.area)
        if self.changed and rng.random() < 0.6:
            return self.changed.pop(rng.randrange(len(self.changed)))
        offset = rng.randint(0, max(0, size - 1))
        if self.tray.waiting and rng.random() < 0.8:
            job = rng.choice(self.tray.waiting)
            offset = job.start + rng.randint(0, max(0, job.length - 1))
        if rng.random() < 0.03:
            offset = rng.choice([size, size + 1, 2**32 - 1])
        if offset < size:
            self.changed.append((offset, self.tray.area[offset]))
        return offset, rng.choice(BYTES)

    def calls(self, n):
        """So many calls, in stretches that fill the tray, empty it, or keep it as it is."""
        rng = self.rng
        while n > 0:
            weights, most = rng.choice([((60, 30, 4, 6), 100), ((24, 68, 4, 4), 400), ((2, 95, 1, 2), 60), ((24, 55, 4, 17), 400)])
            for _ in range(min(n, rng.randint(1, most))):
                kind = rng.choices(range(4), weights)[0]
                fields = [self.put, self.turn, self.withdraw, self.change][kind]()
                self.tray.call(kind, *fields)
                yield kind, fields
                n -= 1


def run_of(rng, n, size):
    """An input that ends behind its last call, within it, or with a call of no kind."""
    feeder = Feeder(rng, size)
    area = bytes(feeder.tray.area)
    given = frames.tray_run(area, feeder.calls(n))
    return rng.choice([given, given[: -rng.randint(1, 5)], given + b"\x04" + bytes(9)])


ODD = [b"", b"\x00\x00\x00", b"\x02\x00\x00\x00x", frames.tray_run(bytes(AREA + 1)) + bytes(8), frames.tray_run(b""), frames.tray_run(b"1 0\n" * (AREA // 4)) + bytes([frames.TURN])]

# ---- comparing


def kind_of(line):
    """A line without what differs from ticket to ticket."""
    line = re.sub(r"^turn \d+ refused (\d+) .*", r"turn T refused \1", line)
    line = re.sub(r"^turn \d+ clause( \d+:| h:| \{\d+\}:)?.*", lambda m: "turn T clause" + re.sub(r"\d+", "N", m[1] or ""), line)
    line = re.sub(r"^turn \d+ ", "turn T ", line)
    return line if " refused " in line else re.sub(r"\d+", "N", line)


WANTED = {"put N", "withdraw N", "withdraw refused 24", "turn refused 22", "turn refused 23", "turn T end", "cut"}
WANTED |= {"put refused %d" % n for n in (20, 21, 26)} | {"turn T refused %d" % n for n in [*range(1, 17), 21, 32, 33]}
WANTED |= {"turn T header" + h for h in (" none", " N N", " N N N")} | {"turn T clause" + c for c in ("", " N:", " {N}:", " h:")}


def program(given):
    ran = subprocess.run([ROOT / "run", "tray_cases"], input=given, stdout=subprocess.PIPE, check=True)
    return ran.stdout.decode("latin-1").splitlines()


def first_difference(said, wanted):
    for i in range(max(len(said), len(wanted))):
        if said[i : i + 1] != wanted[i : i + 1]:
            return i
    return None


def calls_in(given):
    """How many calls of each kind an input has."""
    _, calls, _ = frames.tray_calls(given)
    return collections.Counter(kind for kind, _ in calls)


def compare(runs, calls, seed):
    kinds, answers, different = collections.Counter(), collections.Counter(), 0
    sizes = [0, 1, 40, 400, 4000, 20000, AREA, AREA]
    for i in range(-len(ODD), runs):
        given = ODD[i] if i < 0 else run_of(random.Random("%d %d" % (seed, i)), calls, sizes[i % len(sizes)])
        wanted = lines(given)
        said = program(given)
        at = first_difference(said, wanted)
        if at is not None:
            different += 1
            print("run %d, line %d: the program has %r and the model %r" % (i, at + 1, said[at : at + 1], wanted[at : at + 1]))
        kinds += calls_in(given)
        answers.update(map(kind_of, wanted))
    for answer in sorted(answers, key=lambda line: [int(n) for n in re.findall(r"\d+", line)] or [0]):
        print("%8d  %s" % (answers[answer], answer))
    unseen = WANTED - set(answers)
    if unseen:
        print("never answered: " + ", ".join(sorted(unseen)))
    print("%d puts, %d turns, %d withdrawals, %d changes" % tuple(kinds[k] for k in range(4)))
    print("%d runs, %d calls, %d lines, %d runs different" % (runs + len(ODD), sum(kinds.values()), sum(answers.values()), different))
    return not different and not unseen


def slips(calls, seed):
    rng = random.Random(seed)
    given = run_of(rng, 5 * calls, AREA)
    said = program(given)
    unseen = 0
    for wrong in [Tray, *SLIPS]:
        at = first_difference(said, lines(given, wrong))
        if (at is None) != (wrong is Tray):
            unseen += 1
        print("%-18s %s" % (wrong.__name__, "no difference in %d lines" % len(said) if at is None else "differs at line %d: %s" % (at + 1, wrong.__doc__)))
    print("%d wrong models, %d of them unseen" % (len(SLIPS), unseen))
    return not unseen


def sample(folder, seed):
    rng = random.Random(seed)
    while True:
        given = run_of(rng, 4000, 12000)
        said = lines(given)
        if WANTED <= set(map(kind_of, said)) and all(lines(given, wrong) != said for wrong in SLIPS):
            break
    folder.joinpath("stdin").write_bytes(given)
    folder.joinpath("stdout").write_text("".join(line + "\n" for line in said))
    print("%d calls, %d lines" % (sum(calls_in(given).values()), len(said)))
    return True


def main():
    args = argparse.ArgumentParser(description=__doc__.split("\n")[0])
    args.add_argument("--runs", type=int, default=48)
    args.add_argument("--calls", type=int, default=4000)
    args.add_argument("--seed", type=int, default=1)
    args.add_argument("--slips", action="store_true")
    args.add_argument("--sample", type=pathlib.Path)
    got = args.parse_args()
    if got.sample:
        return sample(got.sample, got.seed)
    if got.slips:
        return slips(got.calls, got.seed)
    return compare(got.runs, got.calls, got.seed)


if __name__ == "__main__":
    sys.exit(0 if main() else 1)
