#!/usr/bin/env python3
"""Writes the cases of crates/token_cases and what they must print, from the rules of document 01 and not from the code.

token-cases.py DIR: writes DIR/stdin and DIR/stdout. Everything here goes byte by byte with plain Python, so that a slip in the definition
or the code and the same slip here are unlikely to meet.
"""
import itertools
import re
import sys

import frames

CEILING = 2**31 - 1
STOPS = b"\t\n\r "


def blanks(s, at):
    while at < len(s) and s[at] in b"\t ":
        at += 1
    return at


def line_end(s, at, returns):
    for end in (b"\n", b"\r\n", b"\r")[:2 + returns]:
        if s[at:at + len(end)] == end:
            return at + len(end)
    return at


def next_line(s, at, returns):
    while at < len(s):
        e = line_end(s, at, returns)
        if e != at:
            return e
        at += 1
    return at


def newline(s, at, returns):
    e = line_end(s, at, returns)
    return at if e == at else blanks(s, e)


def comment(s, at, returns):
    return blanks(s, next_line(s, at + 1, returns)) if s[at:at + 1] == b"c" else at


def lines(s, at, returns):
    while True:
        e = comment(s, at, returns)
        if e == at:
            e = newline(s, at, returns)
        if e == at:
            return at
        at = e


def fixed(s, at, w):
    return at + len(w) if at < len(s) and s[at:at + len(w)] == w else at


def ends_word(s, at):
    return at >= len(s) or s[at] in STOPS


def word(s, at, w):
    e = fixed(s, at, w)
    return blanks(s, e) if e != at and ends_word(s, e) else at


def bounded(text, limit, next_place):
    n = int(text)
    return f"{n}@{next_place}" if n <= limit else "!"


def uint(s, at, limit):
    m = re.compile(rb"[0-9]+").match(s, at) if at <= len(s) else None
    if not m or not ends_word(s, m.end()):
        return "-"
    return bounded(m.group(), limit, blanks(s, m.end()))


def braced(s, at, limit):
    m = re.compile(rb"\{([0-9]+)\}").match(s, at) if at <= len(s) else None
    return bounded(m.group(1), limit, blanks(s, m.end())) if m else "-"


def signed(s, at, limit):
    m = re.compile(rb"-?[0-9]+").match(s, at) if at <= len(s) else None
    if not m or not ends_word(s, m.end()):
        return "-"
    n = int(m.group())
    return f"{n}@{blanks(s, m.end())}" if abs(n) <= min(limit, CEILING) else "!"


def answers(s, at, limit, returns):
    e = line_end(s, at, returns)
    strict = fixed(s, at, b"c ")
    broken = newline(s, at, returns)
    row = [
        int(at >= len(s)),
        int(ends_word(s, at)),
        blanks(s, at),
        next_line(s, at, returns),
        e,
        at if at >= len(s) else e if e != at else "-",
        broken,
        next_line(s, at + 1, returns) if s[at:at + 1] == b"c" else e,
        at if strict == at else next_line(s, strict, returns),
        lines(s, at, returns),
        at if broken == at else lines(s, broken, returns),
        strict,
        fixed(s, at, b"SATISFIABLE"),
        word(s, at, b"p"),
        word(s, at, b"cnf"),
        uint(s, at, limit),
        braced(s, at, limit),
        signed(s, at, limit % 2**32),
    ]
    return "".join(f"{x} " for x in row) + "\n"


def cases():
    wide, far = 2**64 - 1, 2**64 - 1
    for s in [b"", *(bytes([b]) for b in b"\t\n\r 0-9c{}px\0\xff")]:
        for at in (0, 1, 2, far):
            yield s, at, wide
    for n in (0, 1, 9, 10, 2**31 - 2, 2**31 - 1, 2**31, 2**32 - 1, 2**32, 2**63 - 1, 2**63, 2**64 - 2, 2**64 - 1, 2**64, 10**20, 10**29):
        for text in (b"%d", b"-%d", b"00%d", b"-000%d ", b"%d\t x", b"%dx", b"{%d}", b"{%d}1", b"{%d }", b"%d\r", b"+%d", b"--%d"):
            yield text % n, 0, wide
    for limit in (0, 1, 5, 2**31 - 1, 2**31, 2**32 - 1, 2**64 - 1):
        for n in (0, 1, 5, 6, 2**31 - 1, 2**31):
            for text in (b"%d 0", b"-%d 0", b"{%d} 0"):
                yield text % n, 0, limit
    for s in (b"18446744073709551609", b"18446744073709551610", b"18446744073709551614", b"18446744073709551616", b"18446744073709551619",
              b"18446744073709551620", b"184467440737095516150", b"9" * 30 + b" 0", b"9" * 30 + b"x", b"0" * 40 + b"7 ", b"-", b"-0", b"--1", b"+1",
              b"{}", b"{ 1}", b"{1 }", b"{1", b"{", b"}", b"{-1}", b"{01}2", b"1}", b"- 1", b"1-", b"1c", b"1{"):
        for at in range(len(s) + 2):
            if at < 3 or at >= len(s):
                yield s, at, wide
    for s in (b"c\n", b"c", b"c\r0", b"c\r\n 0", b"cc \n \n\t\nx", b"\r\n", b"\r", b"\r\r\n", b"\n\r", b" \n", b"\n \t c\n\r\n  1", b"c x\nc y",
              b"c \n", b"c\t\n", b"p cnf 3 2\n", b"p\r\ncnf", b"pcnf", b"cnfx cnf\tcnf", b"s SATISFIABLE\n", b"SATISFIABLE", b"SATISFIABL", b"SATISFIABLEx"):
        for at in range(len(s) + 2):
            yield s, at, wide
    for s in itertools.product(b"\r\nc 1", repeat=3):
        yield bytes(s), 0, wide


def main():
    where = sys.argv[1]
    n = 0
    with open(f"{where}/stdin", "wb") as given, open(f"{where}/stdout", "w") as said:
        for s, at, limit in cases():
            for returns in (0, 1) if b"\r" in s else (0,):
                given.write(frames.token_case(s, at, limit, returns))
                said.write(answers(s, at, limit, returns))
                n += 1
    print(f"{n} cases")


main()
