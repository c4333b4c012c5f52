#!/usr/bin/env python3
"""A second reader of every format in every mode, and a second writer of the 2022 weighted form, format 4. flussab-cnf has neither that form nor the modes 2 and 3.

Usage: second.py texts|calls FRAMES <TRANSCRIPT >TRANSCRIPT
       second.py returns FRAMES >FRAMES

They are written from the rules, the reader in regular expressions, and share nothing with the library. The transcript is the oracle's of these frames, which refuses with 26 what it has not. It
comes back with the answers of this reader, or of this writer, in their place. `returns` takes the frames of texts in which CR stands, and puts their modes 2 higher.
"""

import pathlib
import re
import sys

sys.path.append(str(pathlib.Path(__file__).resolve().parent.parent / "tools"))
import frames

PLAIN, WEIGHTED, GROUPED, LOG, WEIGHTED_2022 = range(5)
FORMAT = WEIGHTED_2022
CEILING = 2**31 - 1
LARGEST = 2**64 - 1

BLANKS = rb"[\t ]*"
STOPS = rb"(?=[\t \r\n]|\Z)"

head = re.compile(rb"p" + STOPS + BLANKS)
names = {PLAIN: b"cnf", WEIGHTED: b"wcnf", GROUPED: b"gcnf"}
hard = re.compile(rb"h" + STOPS + BLANKS)
number = re.compile(rb"([0-9]+)" + STOPS + BLANKS)
group = re.compile(rb"\{([0-9]+)\}" + BLANKS)
literal = re.compile(rb"(-?[0-9]+)" + STOPS + BLANKS)
blanks = re.compile(BLANKS)
lone_return = re.compile(rb"\r(?!\n)")


class Refused(Exception):
    """A number, a place and how many literals were read of the clause or log."""


class Lines:
    """What hangs on what ends a line, and on what a line that is passed over goes up to."""

    def __init__(self, line, rest):
        rest += rb"(?:" + line + rb"|\Z)"
        skipped = BLANKS + rb"(?:(?:c" + rest + rb"|" + line + rb")" + BLANKS + rb")*"
        self.skipped = re.compile(skipped)
        self.breaks = re.compile(rb"(?:" + line + skipped + rb")?")
        self.closing = re.compile(line + rb"|\Z")
        self.rest = re.compile(rest)
        self.word = re.compile(rb"(?!" + line + rb").[^\t \r\n]{0,59}", re.S)


LINES = Lines(rb"(?:\r?\n)", rb"[^\n]*"), Lines(rb"(?:\r\n|\n|\r)", rb"[^\r\n]*")


def closed(text, at, lines, read):
    """The place past what closes a line."""
    found = lines.closing.match(text, at)
    if not found:
        raise Refused(5, at, len(read))
    return found.end()


def row(text, at, read, limit, room):
    """Literals side by side, added to those read: the place past them, and whether a 0 closed them."""
    while found := literal.match(text, at):
        value = int(found[1])
        if value == 0:
            return found.end(), True
        if abs(value) > limit:
            raise Refused(15, at, len(read))
        if len(read) == room:
            raise Refused(16, at, len(read))
        read.append(value)
        at = found.end()
    return at, False


def literals(text, at, lines, limit, room):
    """The literals from a place on up to their 0, and the place past it; or none, where no number stands."""
    read = []
    while True:
        before = len(read)
        at, done = row(text, at, read, limit, room)
        if done:
            return read, at
        if not read:
            return None, at
        if len(read) == before:
            raise Refused(7, at, before)
        past = lines.breaks.match(text, at).end()
        if past == at:
            raise Refused(6, at, len(read))
        at = past


def counted(text, at, limit, none, big):
    """A count of a header, and the place past it."""
    found = number.match(text, at)
    if not found:
        raise Refused(none, at, 0)
    if int(found[1]) > limit:
        raise Refused(big, at, 0)
    return int(found[1]), found.end()


def opening(text, format, lines):
    """The counts of the header, if there is one, and where the clauses begin."""
    at = lines.skipped.match(text).end()
    found = head.match(text, at) if format in names else None
    if not found:
        return None, at
    at = found.end()
    found = re.compile(names[format] + STOPS + BLANKS).match(text, at)
    if not found:
        raise Refused(1, at, 0)
    variables, at = counted(text, found.end(), CEILING, 2, 10)
    clauses, at = counted(text, at, LARGEST, 3, 11)
    counts = [variables, clauses]
    if format != PLAIN:
        third, at = counted(text, at, LARGEST, 4, 12)
        counts.append(third)
    return counts, closed(text, at, lines, [])


def lead(text, at, format, groups):
    """What a clause begins with, in words, and the place past it; or nothing."""
    if format == WEIGHTED_2022 and head.match(text, at):
        raise Refused(33, at, 0)
    if format == WEIGHTED_2022 and (found := hard.match(text, at)):
        return "h", found.end()
    found = (group if format == GROUPED else number).match(text, at)
    if not found:
        return None, at
    mark = int(found[1])
    if format == WEIGHTED_2022 and mark == 0:
        raise Refused(32, at, 0)
    if mark > groups:
        raise Refused(14 if format == GROUPED else 13, at, 0)
    return f"{{{mark}}}" if format == GROUPED else str(mark), found.end()


def clauses(text, at, format, lines, limits, room, said):
    """The clauses from a place on, up to the end or a refusal."""
    variables, most, groups = limits
    count = 0
    while True:
        at = lines.skipped.match(text, at).end()
        begun, from_ = (None, at) if format == PLAIN or 0 < most <= count else lead(text, at, format, groups)
        if format == PLAIN and not 0 < most <= count:
            read, past = literals(text, at, lines, variables, room)
        elif begun is not None:
            read, past = literals(text, lines.breaks.match(text, from_).end(), lines, variables, room)
            if read is None:
                raise Refused(8, past, 0)
        else:
            read = None
        if read is None:
            if at < len(text) or count < most:
                raise Refused(9, at, 0)
            said.append("end")
            return
        at = closed(text, past, lines, read)
        count += 1
        said.append(" ".join(["clause" if begun is None else f"clause {begun}:", *map(str, read)]))


def formula(text, format, lenient, lines, room, said):
    """What is said of a text of clauses."""
    counts, at = opening(text, format, lines)
    said.append(" ".join(["header", *(map(str, counts) if counts else ["none"])]))
    variables, most, third = (counts + [0])[:3] if counts and not lenient else (0, 0, 0)
    clauses(text, at, format, lines, (variables or CEILING, most, third if format == GROUPED and third else LARGEST), room, said)


def log(text, lenient, lines, room, said):
    """What is said of a log."""
    at, verdict, begun, done, read = 0, None, False, False, []
    while True:
        if text.startswith(b"c ", at):
            at = lines.rest.match(text, at + 2).end()
        elif not done and text.startswith(b"v ", at):
            begun = True
            at, done = row(text, blanks.match(text, at + 2).end(), read, CEILING, room)
            at = closed(text, at, lines, read)
        elif verdict is None and text.startswith(b"s ", at):
            at += 2
            for word, meaning in (b"SATISFIABLE", "yes"), (b"UNSATISFIABLE", "no"), (b"UNKNOWN", "unknown"):
                if text.startswith(word, at):
                    verdict, at = meaning, closed(text, at + len(word), lines, read)
                    break
            else:
                raise Refused(17, at, len(read))
        elif at >= len(text):
            if begun and not done:
                raise Refused(19, at, len(read))
            said += [f"verdict {verdict or 'none'}", " ".join(["literals", *map(str, read)])]
            return
        elif lenient:
            at = lines.rest.match(text, at).end()
        else:
            raise Refused(18, at, len(read))


def spot(mode, text, at):
    """Line and column of a place: a lone CR counts as LF in modes 2 and 3."""
    read = lone_return.sub(b"\n", text) if mode >= 2 else text
    return read.count(b"\n", 0, at) + 1, at - read.rfind(b"\n", 0, at)


def transcript(format, mode, room, text):
    """What is said of a text after its `case N`, in a mode from 0 to 3."""
    said, lines, lenient = [], LINES[mode // 2], mode % 2 == 1
    try:
        if format == LOG:
            log(text, lenient, lines, room, said)
        else:
            formula(text, format, lenient, lines, room, said)
    except Refused as refusal:
        stopped = lines.word.match(text, refusal.args[1])
        told = *refusal.args, *spot(mode, text, refusal.args[1])
        said.append(" ".join(["refused", *map(str, told), *([stopped[0].hex()] if stopped else [])]))
    return said


def written(kind, length, numbers, lits):
    """What is said of a call of a writer after its `case N`."""
    if kind not in (frames.CLAUSE, frames.HARD_CLAUSE):
        return ["refused 26 0 0 0 0"]
    begun = "h" if kind == frames.HARD_CLAUSE else str(numbers[0])
    if begun == "0":
        return ["refused 32 0 0 0 0"]
    for index, lit in enumerate(lits):
        if not 0 < abs(lit) <= CEILING:
            return [f"refused 27 {index} 0 0 0"]
    line = " ".join([begun, *map(str, lits), "0\n"]).encode()
    return [f"written {len(line)} {line.hex()}"] if len(line) <= length else ["refused 28 0 0 0 0"]


def of_text(format, mode, room, text):
    """What is said of a text in a known format and mode, or nothing."""
    if format in range(5) and mode in range(4) and text is not None:
        return transcript(format, mode, min(room, frames.MOST_ROOM), text)


def of_call(format, kind, length, numbers, lits):
    """What is said of a call in this format, or nothing."""
    if format == FORMAT:
        return written(kind, min(length, frames.LONGEST), numbers, lits)


def answer(asked, own, given, said):
    """Copies a transcript, with the answers from here to what was refused with 26. What is said of a frame, that it is long or cut off, stays."""
    for number, (one, lines) in enumerate(zip(asked, frames.answers_in(given), strict=True)):
        if lines[-1].startswith(b"refused 26 "):
            lines = [line.encode() + b"\n" for line in own(*one) or []] or lines
        said.write(b"case %d\n" % number)
        said.writelines(lines)


def answer_texts(path, given, said):
    answer(frames.cases(path), of_text, given, said)


def answer_calls(path, given, said):
    answer(frames.calls(path), of_call, given, said)


def main():
    match sys.argv[1:]:
        case ["texts", path]:
            answer_texts(path, sys.stdin.buffer, sys.stdout.buffer)
        case ["calls", path]:
            answer_calls(path, sys.stdin.buffer, sys.stdout.buffer)
        case ["returns", path]:
            for format, mode, room, text in frames.cases(path):
                if mode < 2 and text is not None and b"\r" in text:
                    sys.stdout.buffer.write(frames.case(format, mode + 2, room, text))
        case _:
            sys.exit(__doc__)


if __name__ == "__main__":
    main()
