#!/usr/bin/env python3
"""Holds the oracle's answers against those written out by hand.

The texts are those of document 01 (paper.py), those of READINGS.md, those of docs/DIFFERENCES.md under
"What strict takes", and some about frames, rooms and words. Of the oracle's logs verdicts.py tells which say
nothing. Prints `N checks, M wrong`.

Usage: selfcheck.py [PROGRAM [WRITER]]   (by default the oracle as cargo builds it beside this file;
                                          PROGRAM takes texts, and WRITER calls of the writers)
"""

import os
import pathlib
import subprocess
import sys

sys.path.append(str(pathlib.Path(__file__).resolve().parent.parent / "tools"))
import frames
import paper
from paper import GROUPED, LENIENT, LOG, NONE, PLAIN, STRICT, UNANSWERED, UNKNOWN, WEIGHTED, refused
from verdicts import apart

CASES = list(paper.CASES)


def case(text, *lines, format=PLAIN, mode=STRICT, room=4096):
    """One case and the lines that must follow its `case N`."""
    CASES.append((format, mode, room, text, lines))


NINES = b"9" * 30

# Beside the ends of a literal.
case(b"-2147483647 0", NONE, "clause -2147483647", "end")
case(b"2147483648 0", NONE, refused(15, 0, 0, b"2147483648"))

# READINGS.md, row by row.
case(b"v  ", refused(19, 3), format=LOG)
case(b"s  UNKNOWN", refused(17, 2, 0, b" UNKNOWN"), format=LOG)
case(b"v x", refused(5, 2, 0, b"x"), format=LOG)
case(b"v 1\nv 2 0", refused(16, 6, 1, b"2", (2, 3)), format=LOG, room=1)
case(b"v 1\nv 2 0", "verdict none", "literals 1 2", format=LOG, room=2)
case(b"v 1 0\nx", refused(18, 6, 1, b"x", (2, 1)), format=LOG)
case(b"p cnf 1 1 1\n", refused(5, 10, 0, b"1"))
case(b"{1} ", NONE, refused(8, 4), format=GROUPED)
case(b"\r", NONE, refused(9, 0, 0, b"\r"))
case(b"1\r0", NONE, refused(6, 1, 1, b"\r0"))
case(b"p gcnf 0 0 1\n{2}3 0", "header 0 0 1", refused(14, 13, 0, b"{2}3", (2, 1)), format=GROUPED)
case(b"5\n1\n", NONE, refused(7, 4, 1, spot=(3, 1)), format=WEIGHTED)
case(b"5 1\n", NONE, refused(7, 4, 1, spot=(2, 1)), format=WEIGHTED)
case(b"5 1", NONE, refused(6, 3, 1), format=WEIGHTED)
case(b"5x 1 0", NONE, refused(9, 0, 0, b"5x"), format=WEIGHTED)
case(b"{}1 0", NONE, refused(9, 0, 0, b"{}1"), format=GROUPED)
case(b"p cnf 1 1", "header 1 1", refused(9, 9))
case(b"p cnf 1 1\nc", "header 1 1", refused(9, 11, spot=(2, 2)))
case(b"s SATISFIABLEx", refused(5, 13, 0, b"x"), format=LOG)
case(b"c\t", refused(18, 0, 0, b"c"), format=LOG)
case(b"c\t", *UNANSWERED, format=LOG, mode=LENIENT)
case(NINES + b" 0", NONE, refused(15, 0, 0, NINES))
case(b"p cnf " + NINES + b" 1\n", refused(10, 6, 0, NINES))
case(b"p cnf 2147483648 1\n", refused(10, 6, 0, b"2147483648"))
case(b"p cnf 2147483647 1\n", "header 2147483647 1", refused(9, 19, spot=(2, 1)))
case(b"{" + NINES + b"}0", NONE, refused(14, 0, 0, b"{" + NINES + b"}0"), format=GROUPED)
case(
    b"p wcnf 1 1 1\n1 1 0\n99999999999999999999 1 0",
    "header 1 1 1",
    "clause 1: 1",
    refused(9, 19, 0, b"99999999999999999999", (3, 1)),
    format=WEIGHTED,
)
case(b"v ", refused(19, 2), format=LOG)
case(b"0\r", NONE, refused(5, 1, 0, b"\r"))
case(b"c\r0", NONE, "end")
case(b"c0", NONE, "end")

# Every refusal number of a reading that has not come up yet, and the lenient mode of clauses.
case(b"p x", refused(1, 2, 0, b"x"))
case(b"p cnf 1 x", refused(3, 8, 0, b"x"))
case(b"p wcnf 1 1\r\n", refused(4, 10), format=WEIGHTED)
case(b"p gcnf 1 1 -1", refused(4, 11, 0, b"-1"), format=GROUPED)
case(b"p cnf 1 18446744073709551616", refused(11, 8, 0, b"18446744073709551616"))
case(b"p cnf 0 18446744073709551615", "header 0 18446744073709551615", refused(9, 28))
case(b"p wcnf 1 1 18446744073709551616", refused(12, 11, 0, b"18446744073709551616"), format=WEIGHTED)
case(b"18446744073709551616 0", NONE, refused(13, 0, 0, b"18446744073709551616"), format=WEIGHTED)
case(b"018446744073709551615 0", NONE, "clause 18446744073709551615:", "end", format=WEIGHTED)
case(b"{18446744073709551615}-1 0", NONE, "clause {18446744073709551615}: -1", "end", format=GROUPED)
case(b"{0}0\n{00} -0", NONE, "clause {0}:", "clause {0}:", "end", format=GROUPED)
case(b"p cnf 1 1\n2 0\n3 0\n", "header 1 1", "clause 2", "clause 3", "end", mode=LENIENT)
case(b"p cnf 1 9\n", "header 1 9", "end", mode=LENIENT)
case(b"1\n c\n\n c x\n 2 0", NONE, "clause 1 2", "end")
case(b"1 c\n0", NONE, refused(6, 2, 1, b"c"))
case(b"+1 0", NONE, refused(9, 0, 0, b"+1"))
case(b"s UNSATISFIABLE\r\nv 0", "verdict no", "literals", format=LOG)
case(b"s SATISFIABLE\nv 1\nc x\nv -2 0\n", "verdict yes", "literals 1 -2", format=LOG)
case(b"v 0\nv 1 0\n", refused(18, 4, 0, b"v", (2, 1)), format=LOG)
case(b"v 0\nv 1 0\n", *UNANSWERED, format=LOG, mode=LENIENT)

# What a log says, by its solution line or for want of one: the table `verdicts` of crates/dimacs/specs/Cases.antt.
case(b"s SATISFIABLE\nv 1 0\n", "verdict yes", "literals 1", format=LOG)
case(b"s UNSATISFIABLE\n", "verdict no", "literals", format=LOG)
case(b"s UNKNOWN", *UNKNOWN, format=LOG)
case(b"v 1 0\ns UNKNOWN\n", "verdict unknown", "literals 1", format=LOG)
case(b"c s UNKNOWN\n", *UNANSWERED, format=LOG)
case(b"v 1 0\n", "verdict none", "literals 1", format=LOG)
case(b"UNKNOWN\nS UNKNOWN\n", *UNANSWERED, format=LOG, mode=LENIENT)

# Odd texts that the strict mode takes: docs/DIFFERENCES.md, "What strict takes", row by row.
case(b"\n", NONE, "end")
case(b"c", NONE, "end")
case(b"cnf 1 1", NONE, "end")
case(b"cnf 1 1\n2 0\n3 0\n", NONE, "clause 2", "clause 3", "end")
case(b"c1 0", NONE, "end")
case(b"c\0", NONE, "end")
case(b"1 0", NONE, "clause 1", "end")
case(b"p cnf 0 0\n1 0", "header 0 0", "clause 1", "end")
case(b"p cnf 0 0", "header 0 0", "end")
case(b"p cnf 1 0", "header 1 0", "end")
case(b"p cnf 0 1\n0\nc", "header 0 1", "clause", "end")
case(b"1\n2 0", NONE, "clause 1 2", "end")
case(b"1\nc\n0", NONE, "clause 1", "end")
case(b" 0\t", NONE, "clause", "end")
case(b"\n\r\n", NONE, "end")
case(b"-0", NONE, "clause", "end")
case(b"01 0", NONE, "clause 1", "end")
case(b"1 1 0", NONE, "clause 1 1", "end")
case(b"1 -1 0", NONE, "clause 1 -1", "end")
case(b"0\n0", NONE, "clause", "clause", "end")
case(b"5 1 0", NONE, "clause 5 1", "end")
case(b"1 2 0", NONE, "clause 1: 2", "end", format=WEIGHTED)
case(b"0 0", NONE, "clause 0:", "end", format=WEIGHTED)
case(b"p wcnf 0 0 1\n2 0", "header 0 0 1", "clause 2:", "end", format=WEIGHTED)
case(b"5\n0", NONE, "clause 5:", "end", format=WEIGHTED)
case(b"{9}0", NONE, "clause {9}:", "end", format=GROUPED)
case(b"p gcnf 0 0 0\n{9}0", "header 0 0 0", "clause {9}:", "end", format=GROUPED)
case(b"p gcnf 0 0 9", "header 0 0 9", "end", format=GROUPED)
case(b"p gcnf 0 0 9\n{0}0", "header 0 0 9", "clause {0}:", "end", format=GROUPED)
case(b"", *UNANSWERED, format=LOG)
case(b"c ", *UNANSWERED, format=LOG)
case(b"s SATISFIABLE", "verdict yes", "literals", format=LOG)
case(b"s UNSATISFIABLE\nv 1 0", "verdict no", "literals 1", format=LOG)
case(b"v 1 0", "verdict none", "literals 1", format=LOG)
case(b"v 0\ns UNKNOWN", *UNKNOWN, format=LOG)
case(b"v \nv 0", *UNANSWERED, format=LOG)
case(b"v 1 -1 0", "verdict none", "literals 1 -1", format=LOG)

# Near them, and refused.
case(b"wcnf 1 1 1", NONE, refused(9, 0, 0, b"wcnf"), format=WEIGHTED)
case(b"gcnf 1 1 1", NONE, refused(9, 0, 0, b"gcnf"), format=GROUPED)
case(b"P cnf 1 1", NONE, refused(9, 0, 0, b"P"))
case(b"p CNF 1 1", refused(1, 2, 0, b"CNF"))
case(b"p cnf 0 0\np cnf 0 0", "header 0 0", refused(9, 10, 0, b"p", (2, 1)))
case(b"0\np cnf 0 1", NONE, "clause", refused(9, 2, 0, b"p", (2, 1)))
case(b"p cnf 1 2\n1\n1 0", "header 1 2", "clause 1 1", refused(9, 15, spot=(3, 4)))
case(b"p cnf 1 -0", refused(3, 8, 0, b"-0"))
case(b"\xef\xbb\xbf0", NONE, refused(9, 0, 0, b"\xef\xbb\xbf0"))
case(b"\n", refused(18, 0), format=LOG)

# A last line that is passed over and that the text's end cuts off.
case(b"1\n c", NONE, refused(7, 4, 1, spot=(2, 3)))
case(b"v 1\nc x", refused(19, 7, 1, spot=(2, 4)), format=LOG)
case(b"v 1\nx", refused(19, 5, 1, spot=(2, 2)), format=LOG, mode=LENIENT)
case(b"s UNKNOWN\nv 1\ns UNKNOWN", refused(19, 23, 1, spot=(3, 10)), format=LOG, mode=LENIENT)

# Room: a literal's range comes before it, zero needs none, and each clause has its own.
case(b"1 0\n2 0\n", NONE, "clause 1", "clause 2", "end", room=1)
case(b"0\n1 0", NONE, "clause", refused(16, 2, 0, b"1", (2, 1)), room=0)
case(b"1 2147483648", NONE, refused(15, 2, 1, b"2147483648"), room=1)
case(b"1 2 x", NONE, refused(16, 2, 1, b"2"), room=1)
case(b"1 2x", NONE, refused(6, 2, 1, b"2x"), room=1)
case(b"1 " * 4097, NONE, refused(16, 8192, 4096, b"1"), room=2**32 - 1)

# The word: 60 bytes at most, and bytes that are no letters.
case(b"x" * 61, NONE, refused(9, 0, 0, b"x" * 60))
case(b"\xff\x00\t", NONE, refused(9, 0, 0, b"\xff\x00"))

# Unknown formats and modes.
case(b"1 0", refused(26, 0, spot=(0, 0)), format=5)
case(b"1 0", refused(26, 0, spot=(0, 0)), mode=4)
case(b"", refused(26, 0, spot=(0, 0)), format=255, mode=255)

# The longest text, and one that is too long.
case(b"\n" * 65536, NONE, "end")
case(b"\n" * 65537, "long")
case(b"", NONE, "end")


CALLS = []


def call(answer, numbers=(0, 0, 0), lits=(), format=PLAIN, kind=frames.CLAUSE, length=100):
    """One call of a writer, and the line written or the refusal's words."""
    said = f"written {len(answer)} {answer.hex()}" if isinstance(answer, bytes) else answer
    CALLS.append((frames.call(format, kind, length, numbers, lits), said))


# The writers: document 01's bytes, and its refusals in their order.
call(b"p cnf 3 2\n", (3, 2, 9), kind=frames.HEADER)
call(b"p wcnf 0 10 18446744073709551615\n", (0, 10, 2**64 - 1), format=WEIGHTED, kind=frames.HEADER)
call(b"p gcnf 2147483647 99 100\n", (2**31 - 1, 99, 100), format=GROUPED, kind=frames.HEADER)
call(b"1 -3 0\n", (5, 0, 0), (1, -3))
call(b"0\n")
call(b"9223372036854775808 2147483647 -2147483647 0\n", (2**63, 0, 0), (2**31 - 1, 1 - 2**31), format=WEIGHTED)
call(b"7 0\n", (7, 0, 0), format=WEIGHTED)
call(b"{0} -9 0\n", lits=(-9,), format=GROUPED)
call(b"{18446744073709551615} 0\n", (2**64 - 1, 0, 0), format=GROUPED)
call(b"1 0\n", lits=(1,), length=4)
call("refused 28 0 0 0 0", lits=(1,), length=3)
call("refused 28 0 0 0 0", (1, 1, 0), kind=frames.HEADER, length=9)
call("refused 10 0 0 0 0", (2**31, 0, 0), kind=frames.HEADER, length=0)
call("refused 27 1 0 0 0", lits=(1, 0, -(2**31)), length=0)
call("refused 27 0 0 0 0", lits=(-(2**31),))
call("refused 26 0 0 0 0", format=LOG)
call("refused 26 0 0 0 0", kind=2)
call("long", lits=(1,) * 8193)
call(b"0\n", length=2**32 - 1)


def run(command, given):
    return subprocess.run(command, input=given, stdout=subprocess.PIPE, check=True).stdout


def main():
    here = os.path.dirname(os.path.abspath(__file__))
    target = os.environ.get("CARGO_TARGET_DIR", os.path.join(here, "target"))
    oracle = os.path.join(target, "release", "oracle")
    program = sys.argv[1] if len(sys.argv) > 1 else oracle
    writer = sys.argv[2:3] or [oracle, "written"]

    checks = wrong = 0

    def check(what, got, expected):
        nonlocal checks, wrong
        checks += 1
        if got != expected:
            wrong += 1
            print(f"{what}\n  expected {expected}\n  got      {got}")

    given = b"".join(frames.case(*one[:4]) for one in CASES)
    answers = run([program], given).split(b"case ")[1:]
    check("the number of cases", len(answers), len(CASES))
    for number, ((format, mode, room, text, lines), answer) in enumerate(zip(CASES, answers)):
        if program == oracle:
            answer = apart(text, answer)
        shown = f"format {format}, mode {mode}, room {room}, text {text[:80]!r}"
        check(shown, answer.decode().splitlines(), [str(number), *lines])

    # A frame that standard input cuts off.
    whole = frames.case(PLAIN, STRICT, 4096, b"1 0\n")
    said = b"case 0\nheader none\nclause 1\nend\n"
    check("nothing at all", run([program], b""), b"")
    check("a whole frame", run([program], whole), said)
    for length in range(1, len(whole)):
        check(f"{length} bytes of a frame", run([program], whole + whole[:length]), said + b"case 1\ncut\n")
    long = frames.case(PLAIN, STRICT, 4096, b"\n" * 65537)
    check("a long text cut off", run([program], long[:-1]), b"case 0\nlong\ncut\n")

    # Calls of the writers, and one that standard input cuts off.
    answers = run(writer, b"".join(asked for asked, _ in CALLS)).decode().split("case ")[1:]
    check("the number of calls", len(answers), len(CALLS))
    for number, ((asked, line), answer) in enumerate(zip(CALLS, answers)):
        check(f"call {asked[:80].hex()}", answer.splitlines(), [str(number), line])
    whole = frames.call(PLAIN, frames.CLAUSE, 100, (0, 0, 0), (1, 2))
    for length in range(len(whole)):
        said = b"case 0\ncut\n" if length else b""
        check(f"{length} bytes of a call", run(writer, whole[:length]), said)

    print(f"{checks} checks, {wrong} wrong")
    return 1 if wrong else 0


if __name__ == "__main__":
    sys.exit(main())
