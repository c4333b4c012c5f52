#!/usr/bin/env python3
"""The texts of document 01, those of the 2022 weighted form, and texts with CR in every mode, with their answers, written out by hand from the documents and not from any code.

Usage: paper.py DIRECTORY

The frames go to DIRECTORY/stdin and the answers, as a transcript, to DIRECTORY/stdout; those of the 2022 form to DIRECTORY/2022, and those with CR to DIRECTORY/returns.

Document 01's are the texts marked P, the others of "Texts on both sides", the listing's text, and the slips. A text is there in the format and mode that document 01 names for
it. For a slip it names none: its text is there in every format in modes 0 and 1, and so is the same slip in the form of a weighted text, a grouped text and a log. The verdict
of a log without a solution line is that of document 02.
"""

import os
import pathlib
import sys

sys.path.append(str(pathlib.Path(__file__).resolve().parent.parent / "tools"))
import frames

PLAIN, WEIGHTED, GROUPED, LOG, WEIGHTED_2022 = range(5)
STRICT, LENIENT, STRICT_CR, LENIENT_CR = range(4)

# The room that the tray and the host calls have.
ROOM = 1024

NONE = "header none"
UNKNOWN = "verdict unknown", "literals"
UNANSWERED = "verdict none", "literals"

# Each case: format, mode, room, text, and the lines that must follow its `case N`. The second list has those of the 2022 form, the third those with CR; the crate has neither the form nor modes 2 and 3.
CASES = []
IN_2022 = []
RETURNS = []


def refused(number, place, k=0, word=b"", spot=None):
    """A refusal on line 1, whose columns go by the place, or one at a line and a column."""
    line, column = spot or (1, place + 1)
    return " ".join(["refused", *map(str, (number, place, k, line, column))] + [word.hex()] * bool(word))


def case(text, *lines, format=PLAIN, mode=STRICT, room=ROOM):
    CASES.append((format, mode, room, text, lines))


def both(text, *lines, format):
    """The modes read alike."""
    for mode in STRICT, LENIENT:
        case(text, *lines, format=format, mode=mode)


def in_2022(text, *lines):
    """A text of the 2022 form, which has no header, and which the modes read alike."""
    for mode in STRICT, LENIENT:
        IN_2022.append((WEIGHTED_2022, mode, ROOM, text, (NONE, *lines)))


def returns(text, lines, lines_cr, format=PLAIN):
    """A text with what is said of it in modes 0 and 1, and in modes 2 and 3."""
    for mode, said in (STRICT, lines), (LENIENT, lines), (STRICT_CR, lines_cr), (LENIENT_CR, lines_cr):
        RETURNS.append((format, mode, ROOM, text, said))


def slip(text, plain, weighted, grouped):
    """A text of clauses, with its lines in each format. As a log it has no line of any kind."""
    for format, lines in (PLAIN, plain), (WEIGHTED, weighted), (GROUPED, grouped):
        both(text, *lines, format=format)
    case(text, refused(18, 0, 0, text.split()[0]), format=LOG)
    case(text, *UNANSWERED, format=LOG, mode=LENIENT)


# "Texts on both sides", marked P.
case(b"", NONE, "end")
case(b"0", NONE, "clause", "end")
case(b"1 0 2 0\n", NONE, refused(5, 4, 1, b"2"))
case(b"p cnf 0 0\n7 0\n", "header 0 0", "clause 7", "end")
case(b"p cnf 2 1\n3 0\n", "header 2 1", refused(15, 10, 0, b"3", (2, 1)))
case(b"p cnf 2 2\n1 0\n", "header 2 2", "clause 1", refused(9, 14, spot=(3, 1)))
case(b"p cnf 2 1\n1 0\n2 0\n", "header 2 1", "clause 1", refused(9, 14, 0, b"2", (3, 1)))
case(b"1 2", NONE, refused(6, 3, 2))
case(b"1 \nx", NONE, refused(7, 3, 1, b"x", (2, 1)))
case(b"p gcnf 2 2 1\n{0} 1 0\n{2} 2 0\n", "header 2 2 1", "clause {0}: 1", refused(14, 21, 0, b"{2}", (3, 1)), format=GROUPED)
case(b"5\n", NONE, refused(8, 2, spot=(2, 1)), format=WEIGHTED)
case(b"s SATISFIABLE \n", refused(5, 13, 0, b" "), format=LOG)
case(b"v 1 -2\n", refused(19, 7, 2, spot=(2, 1)), format=LOG)
case(b"s UNKNOWN\ns SATISFIABLE\n", refused(18, 10, 0, b"s", (2, 1)), format=LOG)
case(b"s UNKNOWN\ns SATISFIABLE\n", *UNKNOWN, format=LOG, mode=LENIENT)

# The others there, and the text of the listing.
case(b"1 0\r", NONE, refused(5, 3, 1, b"\r"))
case(b"2147483647 0", NONE, "clause 2147483647", "end")
case(b"-2147483648 0", NONE, refused(15, 0, 0, b"-2147483648"))
case(b"p cnf\n", refused(2, 5))
case(b"pcnf 1 1\n", NONE, refused(9, 0, 0, b"pcnf"))
case(b"1 2 3 0", NONE, refused(16, 4, 2, b"3"), room=2)
case(b"c pull 7\np cnf 3 2\n1 -3 0\n-2\n0\n", "header 3 2", "clause 1 -3", "clause -2", "end")

# A slip: clauses are split at 0 alone.
slip(b"1 0 2 0", (NONE, refused(5, 4, 1, b"2")), (NONE, refused(5, 4, 0, b"2")), (NONE, refused(9, 0, 0, b"1")))
both(b"5 1 0 5 2 0", NONE, refused(5, 6, 1, b"5"), format=WEIGHTED)
both(b"{1} 1 0 {1} 2 0", NONE, refused(5, 8, 1, b"{1}"), format=GROUPED)
both(b"v 1 0 2 0", refused(5, 6, 1, b"2"), format=LOG)

# A slip: a clause count of 0 is taken for "no clauses".
other = [refused(1, 2, 0, b"cnf")]
slip(b"p cnf 2 0\n1 0\n2 0\n", ("header 2 0", "clause 1", "clause 2", "end"), other, other)
both(b"p wcnf 2 0 9\n5 1 0\n5 2 0\n", "header 2 0 9", "clause 5: 1", "clause 5: 2", "end", format=WEIGHTED)
both(b"p gcnf 2 0 9\n{1} 1 0\n{1} 2 0\n", "header 2 0 9", "clause {1}: 1", "clause {1}: 2", "end", format=GROUPED)

# A slip: 15, or 13 or 14, for digits that overflow but end in a letter. Such a word is no number, at a clause's start and after a literal; the digits alone are one.
NINES = b"9" * 20
WORD = NINES + b"x"
none = NONE, refused(9, 0, 0, WORD)
slip(WORD, none, none, none)
slip(b"1 " + WORD, (NONE, refused(6, 2, 1, WORD)), (NONE, refused(8, 2, 0, WORD)), (NONE, refused(9, 0, 0, b"1")))
both(b"5 1 " + WORD, NONE, refused(6, 4, 1, WORD), format=WEIGHTED)
both(b"{" + WORD + b"} 1 0", NONE, refused(9, 0, 0, b"{" + WORD + b"}"), format=GROUPED)
both(b"{1} 1 " + WORD, NONE, refused(6, 6, 1, WORD), format=GROUPED)
both(b"v 1 " + WORD, refused(5, 4, 1, WORD), format=LOG)
slip(NINES, (NONE, refused(15, 0, 0, NINES)), (NONE, refused(13, 0, 0, NINES)), (NONE, refused(9, 0, 0, NINES)))
both(b"{" + NINES + b"} 1 0", NONE, refused(14, 0, 0, b"{" + NINES + b"}"), format=GROUPED)
both(b"v 1 " + NINES, refused(15, 4, 1, NINES), format=LOG)

# The 2022 form.
in_2022(b"h 1 0", "clause h: 1", "end")
in_2022(b"h\n1 0", "clause h: 1", "end")
in_2022(b"h 0", "clause h:", "end")
in_2022(b"h", refused(8, 1))
in_2022(b"h1 0", refused(9, 0, 0, b"h1"))
in_2022(b"5 1 -2 0", "clause 5: 1 -2", "end")
in_2022(b"0 1 0", refused(32, 0, 0, b"0"))
in_2022(b"000 1 0", refused(32, 0, 0, b"000"))
in_2022(b"0", refused(32, 0, 0, b"0"))
in_2022(b"18446744073709551615 1 0", "clause 18446744073709551615: 1", "end")
in_2022(b"18446744073709551616 1 0", refused(13, 0, 0, b"18446744073709551616"))
in_2022(b"-0 1 0", refused(9, 0, 0, b"-0"))
in_2022(b"+5 1 0", refused(9, 0, 0, b"+5"))
in_2022(b"0x 1 0", refused(9, 0, 0, b"0x"))
in_2022(b"p wcnf 1 1 1\n", refused(33, 0, 0, b"p"))
in_2022(b"c x\np", refused(33, 4, 0, b"p", (2, 1)))
in_2022(b"pcnf", refused(9, 0, 0, b"pcnf"))
in_2022(b"1 1 0\np", "clause 1: 1", refused(33, 6, 0, b"p", (2, 1)))
in_2022(b"7\nc x\n1 0", "clause 7: 1", "end")
in_2022(b"7 1 0 h 2 0", refused(5, 6, 1, b"h"))
in_2022(b"h 2147483648 0", refused(15, 2, 0, b"2147483648"))
in_2022(b"", "end")

# Where it is stricter than the rules of 2022, and where it takes what they do not name: docs/DIFFERENCES.md.
in_2022(b"h 0 h 0", refused(5, 4, 0, b"h"))
in_2022(b"h 0 c", refused(5, 4, 0, b"c"))
in_2022(b"h 1 c\n0", refused(6, 4, 1, b"c"))
in_2022(b"h\r0", refused(8, 1, 0, b"\r0"))
in_2022(b"h\f0", refused(9, 0, 0, b"h\f0"))
in_2022(b"h +1 0", refused(8, 2, 0, b"+1"))
in_2022(b"18446744073709551616 0", refused(13, 0, 0, b"18446744073709551616"))
in_2022(b"p", refused(33, 0, 0, b"p"))
in_2022(b"h\n0", "clause h:", "end")
in_2022(b"h 1\n0", "clause h: 1", "end")
in_2022(b"01 0", "clause 1:", "end")
in_2022(b"h -0", "clause h:", "end")
in_2022(b"cx", "end")
in_2022(b"5 1 0", "clause 5: 1", "end")
in_2022(b"18446744073709551615 0\n18446744073709551615 0", "clause 18446744073709551615:", "clause 18446744073709551615:", "end")

# A lone CR, which ends a line in modes 2 and 3 alone.
returns(b"1 0\r", (NONE, refused(5, 3, 1, b"\r")), (NONE, "clause 1", "end"))
returns(b"1 0\r2 0\r", (NONE, refused(5, 3, 1, b"\r2")), (NONE, "clause 1", "clause 2", "end"))
returns(b"1 0\r\n2 0", (NONE, "clause 1", "clause 2", "end"), (NONE, "clause 1", "clause 2", "end"))
returns(b"c x\r1 0", (NONE, "end"), (NONE, "clause 1", "end"))
returns(b"c x\r\r\n1 0", (NONE, "clause 1", "end"), (NONE, "clause 1", "end"))
returns(b"1\r0", (NONE, refused(6, 1, 1, b"\r0")), (NONE, "clause 1", "end"))
returns(b"p cnf 1 1\r1 0", (refused(5, 9, 0, b"\r1"),), ("header 1 1", "clause 1", "end"))
returns(b"\r", (NONE, refused(9, 0, 0, b"\r")), (NONE, "end"))
returns(b"1 0\r\r2 0", (NONE, refused(5, 3, 1, b"\r")), (NONE, "clause 1", "clause 2", "end"))
returns(b"1\r\r", (NONE, refused(6, 1, 1, b"\r")), (NONE, refused(7, 3, 1, spot=(3, 1))))
returns(b"5\r1 0\r", (NONE, refused(8, 1, 0, b"\r1")), (NONE, "clause 5: 1", "end"), format=WEIGHTED)
returns(b"h\r0", (NONE, refused(8, 1, 0, b"\r0")), (NONE, "clause h:", "end"), format=WEIGHTED_2022)
returns(b"s SATISFIABLE\r", (refused(5, 13, 0, b"\r"),), ("verdict yes", "literals"), format=LOG)
returns(b"c x\rs SATISFIABLE\r", UNANSWERED, ("verdict yes", "literals"), format=LOG)
returns(b"s UNKNOWN\r\n", UNKNOWN, UNKNOWN, format=LOG)
for mode, said in enumerate([refused(5, 9, 0, b"\rs")] * 2 + [refused(18, 10, 0, b"s", (2, 1))]):
    RETURNS.append((LOG, mode, ROOM, b"s UNKNOWN\rs SATISFIABLE\r", (said,)))
RETURNS.append((LOG, LENIENT_CR, ROOM, b"s UNKNOWN\rs SATISFIABLE\r", UNKNOWN))
for mode, said in (STRICT_CR, [refused(15, 10, 0, b"2", (2, 1))]), (LENIENT_CR, ["clause 2", "end"]):
    RETURNS.append((PLAIN, mode, ROOM, b"p cnf 1 1\r2 0\r", ("header 1 1", *said)))


def write(directory, cases):
    os.makedirs(directory, exist_ok=True)
    with open(os.path.join(directory, "stdin"), "wb") as given, open(os.path.join(directory, "stdout"), "w") as said:
        for number, (*one, lines) in enumerate(cases):
            given.write(frames.case(*one))
            said.write("".join(f"{line}\n" for line in (f"case {number}", *lines)))


def main():
    if len(sys.argv) != 2:
        sys.exit(__doc__)
    write(sys.argv[1], CASES)
    write(os.path.join(sys.argv[1], "2022"), IN_2022)
    write(os.path.join(sys.argv[1], "returns"), RETURNS)
    print(f"{len(CASES)} cases of document 01, {len(IN_2022)} of the 2022 form, {len(RETURNS)} with CR")


if __name__ == "__main__":
    main()
