"""The frames in which programs are given test cases, each said once, and the transcripts that answer them.

Each frame has a function that makes one, and where a tool reads such frames, one that reads them. Numbers are little-endian. Programs in other languages read and write
the same bytes: those of crates/ and host/, and the oracle.
"""

import struct

# The longest text, and the longest area of a tray, that a program takes.
LONGEST = 65536

# The most room for literals that a program has.
MOST_ROOM = 4096

# A text for the readers: format, mode, room for literals, length; then the text.
CASE = struct.Struct("<BBII")

# A text for the host calls: format, mode, length; then the text.
HOST_CASE = struct.Struct("<III")

# A call of a writer: format, kind, length of the output, three numbers, count of literals; then the literals.
CALL = struct.Struct("<BBIQQQI")
HEADER, CLAUSE, HARD_CLAUSE = range(3)

# A text for the tokens: its length in a byte, and the text; then place, limit and whether a lone CR ends a line.
PLACE = struct.Struct("<QQB")

# A run of a tray: the length of its area, and the area; then calls, each a byte for its kind and its fields.
AREA = struct.Struct("<I")
PUT, TURN, WITHDRAW, CHANGE = range(4)
FIELDS = {
    PUT: struct.Struct("<BBQQ"),  # format, mode, start, length
    TURN: struct.Struct("<II"),  # bytes lent, room for literals
    WITHDRAW: struct.Struct("<Q"),  # ticket
    CHANGE: struct.Struct("<IB"),  # offset, byte
}


def case(format, mode, room, text):
    return CASE.pack(format, mode, room, len(text)) + text


def cases(path):
    """Each case as (format, mode, room, text). The text is None where the frame is cut off or its length is above the longest, so that nothing was read of it."""
    with open(path, "rb") as file:
        while head := file.read(CASE.size):
            if len(head) < CASE.size:
                yield head[0], 0, 0, None
                return
            format, mode, room, length = CASE.unpack(head)
            text = file.read(length)
            yield format, mode, room, text if len(text) == length <= LONGEST else None


def answers(path):
    """The lines of each case of a transcript after its `case N`."""
    with open(path, "rb") as file:
        yield from answers_in(file)


def answers_in(file):
    """The same of a transcript that is open."""
    lines = None
    for line in file:
        if line.startswith(b"case "):
            if lines is not None:
                yield lines
            lines = []
        elif lines is None:
            lines = [line]
        else:
            lines.append(line)
    if lines is not None:
        yield lines


def host_case(format, mode, text):
    return HOST_CASE.pack(format, mode, len(text)) + text


def call(format, kind, length, numbers, lits=()):
    return CALL.pack(format, kind, length, *numbers, len(lits)) + struct.pack(f"<{len(lits)}i", *lits)


def calls(path):
    """Each call as (format, kind, length, numbers, literals). A literal that is cut off is 0."""
    with open(path, "rb") as file:
        while head := file.read(CALL.size):
            format, kind, length, *numbers, count = CALL.unpack(head)
            yield format, kind, length, numbers, struct.unpack(f"<{count}i", file.read(4 * count).ljust(4 * count, b"\0"))


def token_case(text, place, limit, returns):
    return bytes([len(text)]) + text + PLACE.pack(place, limit, returns)


def tray_run(area, calls=()):
    """A run of calls, each (kind, fields)."""
    return AREA.pack(len(area)) + area + b"".join(bytes([kind]) + FIELDS[kind].pack(*fields) for kind, fields in calls)


def tray_calls(given):
    """The area of a run, its calls, and the word for what then is no call: `cut`, `too long` or `unknown`, or None at the end of the run."""
    if len(given) < AREA.size:
        return b"", [], "cut"
    (size,) = AREA.unpack_from(given)
    if size > LONGEST:
        return b"", [], "too long"
    at = AREA.size + size
    if len(given) < at:
        return b"", [], "cut"
    area, calls = given[AREA.size : at], []
    while at < len(given):
        kind = given[at]
        if kind not in FIELDS:
            return area, calls, "unknown"
        end = at + 1 + FIELDS[kind].size
        if len(given) < end:
            return area, calls, "cut"
        calls.append((kind, FIELDS[kind].unpack_from(given, at + 1)))
        at = end
    return area, calls, None
