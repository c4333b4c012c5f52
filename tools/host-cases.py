#!/usr/bin/env python3
"""Writes the cases of crates/host_cases and what they must print, from the stored answers of crates/reader_cases and not from the code.

host-cases.py ANSWERS DIR: reads ANSWERS/stdin and ANSWERS/stdout, and writes DIR/stdin and DIR/stdout.

A stored case names its own room for literals; the host calls have room for 1,024. More room changes nothing before a literal that lacked it. So a stored answer
is the host's answer unless it is refusal 16, and those cases are left out. No stored text is long enough to need more than 1,024.

Two kinds are added, which document 01 answers by itself: numbers that name no format or no mode, those above a byte too; and clauses and logs of 1,023 to 1,026
literals.
"""
import sys

import frames

ROOM = 1024

# Numbers as document 01 has them, and not from host/refusals.txt: the code is held to what is made here.
BUFFER_FULL = 16
LOG_LINE_EXPECTED = 18
UNKNOWN = 26


def stored(where):
    """Each stored case that is judged with any room from its own on, with its answer; and how many are not. The last line of an answer says how the text came out."""
    cases, left_out = [], 0
    for (format, mode, _, text), lines in zip(frames.cases(f"{where}/stdin"), frames.answers(f"{where}/stdout"), strict=True):
        assert text is not None and len(text) <= ROOM
        last = lines[-1].split()
        if last[0] != b"refused":
            assert last[0] in (b"end", b"literals")
            cases.append((format, mode, text, 0, len(text), 0, 0))
        elif int(last[1]) == BUFFER_FULL:
            left_out += 1
        else:
            number, place, _, line, column = map(int, last[1:6])
            cases.append((format, mode, text, number, place, line, column))
    return cases, left_out


def unknown():
    """Numbers that name no format or no mode, beside ones that do."""
    odd = (5, 6, 254, 255, 256, 257, 258, 259, 65535, 65536, 2**24, 2**31, 2**32 - 1)
    for text in (b"", b"1 0\n", b"1 0 2 0\n"):
        for n in odd:
            for known in (0, 1):
                yield n, known, text, UNKNOWN, 0, 0, 0
            for known in (0, 1, 2, 3, 4, 256):
                yield known, 4 if n == 5 else n, text, UNKNOWN, 0, 0, 0


def full():
    """Clauses and logs about as long as the room: the first literal beyond it is at fault."""
    for count in range(ROOM - 1, ROOM + 3):
        for format, before, after in (
            (0, b"", b"0\n"),
            (0, b"p cnf 1 0\n", b"0"),
            (1, b"7 ", b"0\n"),
            (2, b"{7} ", b"0\n"),
            (4, b"h ", b"0\n"),
            (4, b"7 ", b"0\n"),
            (3, b"v ", b"0\n"),
            (3, b"s SATISFIABLE\nv ", b"0\ns SATISFIABLE\n"),
        ):
            for mode in (0, 1):
                text = before + b"1 " * count + after
                if count > ROOM:
                    line, column = (2, len(before) - before.index(b"\n")) if b"\n" in before else (1, len(before) + 1)
                    yield format, mode, text, BUFFER_FULL, len(before) + 2 * ROOM, line, column + 2 * ROOM
                elif after.endswith(b"s SATISFIABLE\n") and mode == 0:
                    yield format, mode, text, LOG_LINE_EXPECTED, len(text) - len(b"s SATISFIABLE\n"), 3, 1
                else:
                    yield format, mode, text, 0, len(text), 0, 0


def main():
    source, target = sys.argv[1:]
    cases, left_out = stored(source)
    added = [*unknown(), *full()]
    with open(f"{target}/stdin", "wb") as given, open(f"{target}/stdout", "w") as said:
        for format, mode, text, number, place, line, column in cases + added:
            given.write(frames.host_case(format, mode, text))
            said.write(f"{number} {place} {number} {place} {line} {column}\n")
    print(f"{len(cases)} stored cases, {left_out} left out for their room, {len(added)} added")


main()
