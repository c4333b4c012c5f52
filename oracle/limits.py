#!/usr/bin/env python3
"""Writes frames with each number of each format at its limit and beside it, and short rows of lines.

Usage: limits.py [2022] >FRAMES

They are those of the formats that flussab-cnf has, or of the 2022 weighted form. Each number of a text has a place, marked # below. It is given every value around every limit, with and
without leading zeros, followed by a blank or by a letter, in modes 0 and 1. Rooms go from none to more than is
needed, and words that a reader stops at from 59 bytes to 62. Lines of each format come in every order, two of
a formula and three of a log.
"""

import itertools
import pathlib
import sys

sys.path.append(str(pathlib.Path(__file__).resolve().parent.parent / "tools"))
import frames

CEILING = 2147483647
LARGEST = 18446744073709551615

# Texts of a format, by its number, with one number left out of each.
TEXTS = {
    0: ["p cnf # 1\n1 0\n", "p cnf 3 #\n1 0\n", "p cnf 3 1\n# 0\n", "p cnf 0 1\n-# 0\n", "# 0\n", "-# 0\n"],
    1: ["p wcnf # 1 9\n1 1 0\n", "p wcnf 3 # 9\n1 1 0\n", "p wcnf 3 1 #\n1 1 0\n", "p wcnf 3 1 9\n# 1 0\n", "p wcnf 3 1 9\n1 # 0\n",
        "p wcnf 0 1 9\n1 -# 0\n", "# 1 0\n", "1 # 0\n"],
    2: ["p gcnf # 1 2\n{1} 1 0\n", "p gcnf 3 # 2\n{1} 1 0\n", "p gcnf 3 1 #\n{1} 1 0\n", "p gcnf 3 1 2\n{#} 1 0\n",
        "p gcnf 3 1 2\n{1} # 0\n", "p gcnf 0 1 0\n{#} 1 0\n", "p gcnf 0 1 0\n{1} -# 0\n", "{#} 1 0\n", "{1} # 0\n"],
    3: ["s SATISFIABLE\nv # 0\n", "s SATISFIABLE\nv -# 0\n", "v 1 #\nv 0\n"],
    4: ["# 1 0\n", "h # 0\n", "7 -# 0\n", "7 1 #\n", "h 1 0\n#\n1 0\n"],
}

VALUES = [0, 1, 2, 3, 4, CEILING - 1, CEILING, CEILING + 1, 2 * CEILING + 1, 2 * CEILING + 2, LARGEST - 1, LARGEST, LARGEST + 1, 10 * LARGEST, 10**30]

# Texts of three literals, for room.
ROOMS = {0: "1 -2 3 0\n", 1: "7 1 -2 3 0\n", 2: "{7} 1 -2 3 0\n", 3: "v 1 -2\nv 3 0\n", 4: "h 1 -2 3 0\n"}

# Lines of a format, and how many of them stand in a row.
LINES = {
    0: (["p cnf 2 1\n", "1 0\n", "1\n", "0\n", "c x\n", "\r\n", "1 0 2 0\n", "x\n"], 2),
    1: (["p wcnf 2 1 3\n", "5 1 0\n", "5 1\n", "0\n", "c x\n", "\r\n", "5 1 0 2 0\n", "5\n"], 2),
    2: (["p gcnf 2 1 1\n", "{1} 1 0\n", "{1} 1\n", "0\n", "c x\n", "\r\n", "{1}1 0 2 0\n", "{2} 1 0\n"], 2),
    3: (["s SATISFIABLE\n", "s UNKNOWN\n", "v 1\n", "v -2 0\n", "c x\n", "x\n"], 3),
    4: (["p wcnf 2 1 3\n", "h 1 0\n", "5 1\n", "0\n", "c x\n", "\r\n", "h 1 0 h 2 0\n", "h\n", "h1 0\n"], 2),
}

WANTED = [4] if sys.argv[1:] == ["2022"] else [0, 1, 2, 3]


def write(format, mode, room, text):
    sys.stdout.buffer.write(frames.case(format, mode, room, text.encode()))


for mode in 0, 1:
    for format in WANTED:
        for text in TEXTS[format]:
            for value in VALUES:
                write(format, mode, 8, text.replace("#", str(value)))
            for number in "0" * 30 + "1", "0" + str(CEILING), "0" + str(LARGEST), "0" * 30 + str(LARGEST + 1), str(CEILING) + "x", str(10**30) + "x":
                write(format, mode, 8, text.replace("#", number))
        for room in range(5):
            write(format, mode, room, ROOMS[format])
            write(format, mode, room, ROOMS[format].replace("3", str(CEILING + 1)))
        for length in range(59, 63):
            write(format, mode, 8, "x" * length + "\n")
        lines, most = LINES[format]
        for count in range(most + 1):
            for row in itertools.product(lines, repeat=count):
                write(format, mode, 8, "".join(row))
for format, mode in ((4, 4), (4, 255)) if WANTED == [4] else ((5, 0), (255, 1), (0, 4), (3, 255)):
    write(format, mode, 8, "1 0\n")
