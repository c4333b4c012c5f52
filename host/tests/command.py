#!/usr/bin/env python3
"""What the command `latchtwig` prints, and its status, for texts of every kind, and where something around it is wrong.

command.py COMMAND..: COMMAND.. is the command as it is run here, without its words. Each case tells its status and what was printed.
"""
import contextlib
import json
import os
import pathlib
import pty
import re
import resource
import select
import shutil
import signal
import socket
import subprocess
import sys
import tempfile
import threading
import time

sys.dont_write_bytecode = True
ROOT = pathlib.Path(__file__).resolve().parent.parent.parent
sys.path.append(str(ROOT / "tools"))
import frames
import refusals

COMMAND = sys.argv[1:]
EMULATED = len(COMMAND) > 1
BUFFER_FULL = refusals.NUMBERS["BUFFER_FULL"]
MORE = "; latchtwig --help tells more"
NOBODY = 65534
MEGABYTE = 1 << 20
cases = 0
skipped = []

FORMATS = ["plain", "weighted", "grouped", "log", "weighted2022"]
MODES = {"strict": [], "lenient": ["--lenient"], "strict-cr": ["--cr"], "lenient-cr": ["--lenient", "--cr"]}
CLAUSE = "a clause, a comment, a line end or a permitted end of the text is expected"
COUNTED = "a comment, a line end or the end of the text is expected after the "
LINE_END, TEXT_END, RETURN = "found the end of the line", "found the end of the text", "found a CR without LF; --cr takes it for a line end"
HIDDEN = "; it has a CR without LF, which --cr takes for a line end"
BIG, LARGEST = b"18446744073709551616", 2147483647

# Texts that are refused: the options, the text, the line and column with the message, the line that is shown, and how many characters stand before its caret.
REFUSED = [
    ("", b"p", "1:2: refused 1: `cnf` is expected after `p`, " + TEXT_END, "p", 1),
    ("", b"p\n", "1:2: refused 1: `cnf` is expected after `p`, " + LINE_END, "p", 1),
    ("", b"p xnf 1 1\n", "1:3: refused 1: `cnf` is expected after `p`, found `xnf`", "p xnf 1 1", 2),
    ("--format plain", b"p wcnf 1 1 1\n", "1:3: refused 1: `cnf` is expected after `p`, found `wcnf`", "p wcnf 1 1 1", 2),
    ("--format weighted", b"p cnf 1 1\n", "1:3: refused 1: `wcnf` is expected after `p`, found `cnf`", "p cnf 1 1", 2),
    ("--format grouped", b"p cnf 1 1\n", "1:3: refused 1: `gcnf` is expected after `p`, found `cnf`", "p cnf 1 1", 2),
    ("", b"p cnf x", "1:7: refused 2: the count of variables is expected, found `x`", "p cnf x", 6),
    ("", b"c\np cnf 1\n", "2:8: refused 3: the count of clauses is expected, " + LINE_END, "p cnf 1", 7),
    ("", b"p wcnf 1 1\r\n", "1:11: refused 4: the top weight or the count of groups is expected, " + LINE_END, "p wcnf 1 1", 10),
    ("", b"p cnf 1 1 1\n", "1:11: refused 5: a line end is expected, found `1`", "p cnf 1 1 1", 10),
    ("", b"1 0 2 0\n", "1:5: refused 5: a line end is expected, found `2`", "1 0 2 0", 4),
    ("", b"1 0\r2 0\r", "1:4: refused 5: a line end is expected, " + RETURN, r"1 0\r2 0\r", 3),
    ("", b"1 0\r", "1:4: refused 5: a line end is expected, " + RETURN, r"1 0\r", 3),
    ("", b"1 0\r\r\n", "1:4: refused 5: a line end is expected, " + RETURN, r"1 0\r", 3),
    ("--cr", b"1 0\r2 0 3\r4 0\r", "2:5: refused 5: a line end is expected, found `3`", "2 0 3", 4),
    ("--cr", b"1 0\rp cnf\r", "2:1: refused 9: " + CLAUSE + ", found `p`", "p cnf", 0),
    ("--cr", b"p cnf\r1 0\r", "1:6: refused 2: the count of variables is expected, " + LINE_END, "p cnf", 5),
    ("", b"1 -", "1:3: refused 6: a literal or 0 is expected, found `-`", "1 -", 2),
    ("", b"1", "1:2: refused 6: a literal or 0 is expected, " + TEXT_END, "1", 1),
    ("", b"1\n", "2:1: refused 7: a literal or 0 is expected after the line end, " + TEXT_END, "", 0),
    ("", b"1\n\n p\n", "3:2: refused 7: a literal or 0 is expected after the line end, found `p`", " p", 1),
    ("--format weighted", b"5\n", "2:1: refused 8: literals are expected after a weight, a group or `h`, " + TEXT_END, "", 0),
    ("--format grouped", b"{5} x\n", "1:5: refused 8: literals are expected after a weight, a group or `h`, found `x`", "{5} x", 4),
    ("--format weighted2022", b"h", "1:2: refused 8: literals are expected after a weight, a group or `h`, " + TEXT_END, "h", 1),
    ("", b"x", "1:1: refused 9: " + CLAUSE + ", found `x`", "x", 0),
    ("", b"p cnf 2 2\n1 0\n", "3:1: refused 9: 1 clause of 2 is missing", "", 0),
    ("", b"p cnf 2 5\n1 0\n2 0", "3:4: refused 9: 3 clauses of 5 are missing", "2 0", 3),
    ("", b"p cnf 2 1", "1:10: refused 9: 1 clause of 1 is missing", "p cnf 2 1", 9),
    ("", b"p wcnf 0 2 0\n", "2:1: refused 9: 2 clauses of 2 are missing", "", 0),
    ("", b"p cnf 2 2\n1 0\nx\n", "3:1: refused 9: " + CLAUSE + ", found `x`", "x", 0),
    ("", b"p cnf 2 1\n1 0\n2 0\n", "3:1: refused 9: a clause beyond the 1 of the header", "2 0", 0),
    ("", b"p cnf 2 1\n1 0\n0\n", "3:1: refused 9: a clause beyond the 1 of the header", "0", 0),
    ("", b"p cnf 2 1\n1 0\n2 x\n", "3:1: refused 9: a clause beyond the 1 of the header", "2 x", 0),
    ("--cr", b"p cnf 2 2\r1 0\r2 0\r \t3 0\r", "4:3: refused 9: a clause beyond the 2 of the header", r" \t3 0", 3),
    ("", b"p wcnf 2 1 1\n1 1 0\n1 2 0\n", "3:1: refused 9: a clause beyond the 1 of the header", "1 2 0", 0),
    ("", b"p gcnf 2 1 1\n{1} 1 0\n{3}", "3:1: refused 9: a clause beyond the 1 of the header", "{3}", 0),
    ("", b"p cnf 2 1\n1 0\n%\n0\n", "3:1: refused 9: " + COUNTED + "1 clause of the header, found `%`", "%", 0),
    ("", b"p cnf 2 2\n1 0\n2 0\np cnf 2 1\n1 0\n", "4:1: refused 9: " + COUNTED + "2 clauses of the header, found `p`", "p cnf 2 1", 0),
    ("--lenient", b"p cnf 2 1\n1 0\n2 0\nx", "4:1: refused 9: " + CLAUSE + ", found `x`", "x", 0),
    ("", b"p cnf 2147483648 1\n", f"1:7: refused 10: a count of variables up to {LARGEST} is expected, found `2147483648`", "p cnf 2147483648 1", 6),
    ("", b"p cnf 1 " + BIG, f"1:9: refused 11: a count of clauses up to {2**64 - 1} is expected, found `{2**64}`", f"p cnf 1 {2**64}", 8),
    ("", b"p wcnf 1 1 " + BIG, f"1:12: refused 12: a top weight or count of groups up to {2**64 - 1} is expected, found `{2**64}`", f"p wcnf 1 1 {2**64}", 11),
    ("--format weighted", BIG + b" 1 0", f"1:1: refused 13: a weight up to {2**64 - 1} is expected, found `{2**64}`", f"{2**64} 1 0", 0),
    ("", b"p gcnf 2 1 1\n{2} 1 0\n", "2:1: refused 14: group 2 is beyond the 1 of the header", "{2} 1 0", 0),
    ("", b"p gcnf 2 1 3\n{04}1 0\n", "2:1: refused 14: group 04 is beyond the 3 of the header", "{04}1 0", 0),
    ("--lenient", b"p gcnf 2 1 1\n{" + BIG + b"} 1 0\n", f"2:1: refused 14: group {2**64} is beyond {2**64 - 1}", f"{{{2**64}}} 1 0", 0),
    ("--format grouped", b"{" + b"9" * 61 + b"} 1 0\n", f"1:1: refused 14: group {'9' * 60}... is beyond {2**64 - 1}", "{" + "9" * 61 + "} 1 0", 0),
    ("", b"p cnf 2 1\n1 -3 0\n", "2:3: refused 15: literal -3 is beyond the 2 variables of the header", "1 -3 0", 2),
    ("", b"p cnf 1 1\n2 0\n", "2:1: refused 15: literal 2 is beyond the 1 variable of the header", "2 0", 0),
    ("", b"p cnf 0 1\n2147483648 0\n", f"2:1: refused 15: literal 2147483648 is beyond {LARGEST}, the largest variable", "2147483648 0", 0),
    ("--lenient", b"p cnf 1 1\n-2147483648 0\n", f"2:1: refused 15: literal -2147483648 is beyond {LARGEST}, the largest variable", "-2147483648 0", 0),
    ("", b"9" * 61 + b" 0", f"1:1: refused 15: literal {'9' * 60}... is beyond {LARGEST}, the largest variable", "9" * 61 + " 0", 0),
    ("--format log", b"v 2147483648 0", f"1:3: refused 15: literal 2147483648 is beyond {LARGEST}, the largest variable", "v 2147483648 0", 2),
    ("--format log", b"s MAYBE\n", "1:3: refused 17: SATISFIABLE, UNSATISFIABLE or UNKNOWN is expected, found `MAYBE`", "s MAYBE", 2),
    ("--format log", b"s \tUNKNOWN\n", r"1:3: refused 17: SATISFIABLE, UNSATISFIABLE or UNKNOWN is expected, found `\tUNKNOWN`", r"s \tUNKNOWN", 2),
    ("--format log", b"s SATISFIABLE?\n", "1:14: refused 5: a line end is expected, found `?`", "s SATISFIABLE?", 13),
    ("--format log", b"c one\njunk\n", "2:1: refused 18: a log line of a permitted kind is expected, found `junk`", "junk", 0),
    ("--format log", b"v 1\n", "2:1: refused 19: the 0 that closes the assignment is expected, " + TEXT_END, "", 0),
    ("--format weighted2022", b"0 1 0\n", "1:1: refused 32: a weight above 0 is expected, found `0`", "0 1 0", 0),
    ("--format weighted2022 --lenient", b"p wcnf 1 1 1\n", "1:1: refused 33: no header is expected, as the 2022 form has none, found `p`", "p wcnf 1 1 1", 0),
    # Odd bytes, before the place and at it.
    ("", b"1 \xff\x00\x7f~ 0\n", r"1:3: refused 6: a literal or 0 is expected, found `\xff\x00\x7f~`", r"1 \xff\x00\x7f~ 0", 2),
    ("", b"\t1\t\t2 \xc3\xa9\n", r"1:7: refused 6: a literal or 0 is expected, found `\xc3\xa9`", r"\t1\t\t2 \xc3\xa9", 9),
    ("", b"\x00\\'\"`", r"""1:1: refused 9: """ + CLAUSE + r""", found `\x00\'"``""", r"""\x00\'"`""", 0),
    ("", b"1 \x0b" + b"x" * 59 + b"\n", r"1:3: refused 6: a literal or 0 is expected, found `\x0b" + "x" * 59 + "`", r"1 \x0b" + "x" * 59, 2),
    ("", b"1 \x0b" + b"x" * 60 + b"\n", r"1:3: refused 6: a literal or 0 is expected, found `\x0b" + "x" * 59 + "...`", r"1 \x0b" + "x" * 60, 2),
    # Long lines: 80 bytes of them, 40 before the place where that is possible.
    ("", b"1 " * 39 + b"xx\n2 0\n", "1:79: refused 6: a literal or 0 is expected, found `xx`", "1 " * 39 + "xx", 78),
    ("", b"1 " * 39 + b"xxx\n", "1:79: refused 6: a literal or 0 is expected, found `xxx`", "..." + " " + "1 " * 38 + "xxx", 80),
    ("", b"1 " * 20 + b"x" + b" 2" * 20, "1:41: refused 6: a literal or 0 is expected, found `x`", "1 " * 20 + "x" + " 2" * 19 + " ...", 40),
    ("", b"1 " * 21 + b"x" + b" 2" * 30, "1:43: refused 6: a literal or 0 is expected, found `x`", "..." + "1 " * 20 + "x" + " 2" * 19 + " ...", 43),
    ("", b"\t" * 50 + b"x" + b"\xff" * 50, r"1:51: refused 9: " + CLAUSE + r", found `x" + r"\xff" * 50 + "`", "..." + r"\t" * 40 + "x" + r"\xff" * 39 + "...", 83),
    ("", b"x" + b"y" * 80, "1:1: refused 9: " + CLAUSE + ", found `x" + "y" * 59 + "...`", "x" + "y" * 79 + "...", 0),
    ("", b"1 " * 60, "1:121: refused 6: a literal or 0 is expected, " + TEXT_END, "..." + "1 " * 39 + "1", 83),
    ("", b"p cnf" + b"\t" * 100 + b"\r\n", "1:106: refused 2: the count of variables is expected, " + LINE_END, "..." + r"\t" * 80, 163),
    # What a header is asked for.
    ("--require-header", b"", "1:1: refused: a header is expected", "", 0),
    ("--require-header", b"c p cnf 1 1\n1 0\n", "1:1: refused: a header is expected", "c p cnf 1 1", 0),
    ("--require-header", b"c one\n  p cnf 1 0\n1 0\n", "2:5: refused: a header with no count of 0 is expected", "  p cnf 1 0", 4),
    ("--require-header --cr", b"c one\rp cnf 00 1\r1 0\r", "2:3: refused: a header with no count of 0 is expected", "p cnf 00 1", 2),
    ("--require-header", b"p wcnf 1 0 7\n5 1 0\n", "1:3: refused: a header with no count of 0 is expected", "p wcnf 1 0 7", 2),
    ("--require-header --lenient", b"p gcnf 1 1 0\n", "1:3: refused: a header with no count of 0 is expected", "p gcnf 1 1 0", 2),
    ("--require-header", b"p cnf 1 1\n", "2:1: refused 9: 1 clause of 1 is missing", "", 0),
]

# Texts that are accepted: the options, the text, and what is said of it.
ACCEPTED = [
    ("", b"", "plain: 0 clauses"),
    ("", b"c one\rp cnf 1 1\r1 0\r", "plain: 0 clauses" + HIDDEN),
    ("", b"c one\r", "plain: 0 clauses" + HIDDEN),
    ("", b"c one\r\nc two\r\n", "plain: 0 clauses"),
    ("", b"c one\r two\n1 0\n", "plain: 1 clause"),
    ("--cr", b"c one\r", "plain: 0 clauses"),
    ("--format log", b"c one\rs SATISFIABLE\r", "log: none, the solver left no answer; look why, and run it again" + HIDDEN),
    ("--format log", b"c one\rtwo\ns UNKNOWN\n", "log: unknown, the solver gave up; whether the order can be built is not known"),
    ("--cr", b"c one\rp cnf 1 1\r1 0\r", "plain: 1 clause"),
    ("--lenient", b"p cnf 1 1\n2 0\n3 0\n", "plain: 2 clauses"),
    ("--lenient --cr", b"p cnf 1 1\r2 0\r3 0\r", "plain: 2 clauses"),
    ("", b"p cnf 0 0\n1 0\n2 0\n", "plain: 2 clauses"),
    ("", b"c one\n p \t wcnf 1 1 0\n5 1 0\n", "weighted: 1 clause"),
    ("--cr", b"c one\rp gcnf 1 1 1\r{1} 1 0\r", "grouped: 1 clause"),
    ("--format weighted2022", b"h 1 0\n5 -1 0\n", "weighted2022: 2 clauses"),
    ("--format=log", b"s SATISFIABLE\nv 1 0\n", "log: yes, the order can be built"),
    ("--format log", b"s UNSATISFIABLE\n", "log: no, the order cannot be built"),
    ("--format log --lenient --cr", b"s UNKNOWN\rjunk\r", "log: unknown, the solver gave up; whether the order can be built is not known"),
    ("--format log", b"c started\n", "log: none, the solver left no answer; look why, and run it again"),
    ("--require-header", b"c one\n \t\n p \t cnf\t1  1 \r\n1 0\n", "plain: 1 clause"),
    ("--require-header", b"p wcnf 1 1 0\n5 1 0\n", "weighted: 1 clause"),
    ("--require-header", b"p gcnf 1 1 10\n{1} 1 0\n", "grouped: 1 clause"),
    ("--format plain", b"1 " * 100000 + b"0\n", "plain: 1 clause"),
    ("", b"1 0\n" * 100000, "plain: 100000 clauses"),
]

# Files by their names and texts, and what is said of each. The word of the header comes before the ending.
NAMED = [
    ("one.cnf", b"1 0\n", "accepted as plain: 1 clause"),
    ("one.dimacs", b"1 0\n", "accepted as plain: 1 clause"),
    ("one.wcnf", b"h 1 0\n", "accepted as weighted2022: 1 clause"),
    ("ONE.WCNF", b"1 1 0\n", "accepted as weighted2022: 1 clause"),
    ("old.wcnf", b"p wcnf 1 1 1\n1 1 0\n", "accepted as weighted: 1 clause"),
    ("one.gcnf", b"{1} 1 0\n", "accepted as grouped: 1 clause"),
    ("one.log", b"s UNKNOWN\n", "accepted as log: unknown, the solver gave up; whether the order can be built is not known"),
    ("one.Out", b"s UNSATISFIABLE\n", "accepted as log: no, the order cannot be built"),
    ("log", b"1 0\n", "accepted as plain: 1 clause"),
    ("plain.gcnf", b"c one\np cnf 1 1\n1 0\n", "accepted as plain: 1 clause"),
    ("plain.log", b"p cnf 1 1\n1 0\n", "accepted as plain: 1 clause"),
    ("grouped.cnf", b"p gcnf 1 1 1\n{1} 1 0\n", "accepted as grouped: 1 clause"),
    ("one.txt", b"p wcnf 1 1 1\n1 1 0\n", "accepted as weighted: 1 clause"),
    ("line\nend", b"1 0\n", "accepted as plain: 1 clause"),
    (b"\xff\x1b", b"1 0\n", "accepted as plain: 1 clause"),
    ("caf\xe9 \u202e.cnf", b"1 0\n", "accepted as plain: 1 clause"),
]

# Files that begin as compressed ones do.
COMPRESSED = {"gzip": b"\x1f\x8b\x08", "xz": b"\xfd7zXZ\x00\x00", "bzip2": b"BZh91AY", "zstd": b"\x28\xb5\x2f\xfd\x04"}

# What is printed of what was read: the options, the text, the lines, and the same as JSON.
LISTED = [
    ("", b"p cnf 3 3\n1 -3 0\n0\n2 0\n", "header 3 3\nclause 1 -3\nclause\nclause 2\n", [{"header": {"variables": 3, "clauses": 3}}, {"clause": [1, -3]}, {"clause": []}, {"clause": [2]}]),
    ("", b"p wcnf 2 1 9\n5 1 -2 0\n", "header 2 1 9\nclause 5: 1 -2\n", [{"header": {"variables": 2, "clauses": 1, "top": 9}}, {"clause": [1, -2], "weight": 5}]),
    ("", b"p gcnf 1 2 3\n{3} 1 0\n{0} 0\n", "header 1 2 3\nclause {3}: 1\nclause {0}:\n", [{"header": {"variables": 1, "clauses": 2, "groups": 3}}, {"clause": [1], "group": 3}, {"clause": [], "group": 0}]),
    ("--format weighted2022", b"h 1 -2 0\n7 0", "header none\nclause h: 1 -2\nclause 7:\n", [{"header": None}, {"clause": [1, -2], "hard": True}, {"clause": [], "weight": 7}]),
    ("--format log", b"s SATISFIABLE\nv 1 -2 0\n", "verdict yes\nliterals 1 -2\n", [{"literals": [1, -2]}]),
    ("--format weighted", b"18446744073709551615 -2147483647 0\n", f"header none\nclause {2**64 - 1}: -{LARGEST}\n", [{"header": None}, {"clause": [-LARGEST], "weight": 2**64 - 1}]),
    ("", b"1 0\n2 3", "header none\nclause 1\n", [{"header": None}, {"clause": [1]}]),
    ("", b"p xnf", "", []),
    ("--format log", b"s SATISFIABLE\nv 1", "", []),
]

# Words that are wrong, and what is said of them.
WRONG = [
    ([], "no command is named: check, list or log"),
    (["chek"], "chek is no command: check, list or log"),
    (["-x"], "-x is no command: check, list or log"),
    ([b"\xff\n"], "\\xff\\n is no command: check, list or log"),
    (["check"], "no FILE is named (`-` is standard input)"),
    (["list", "--json", "--"], "no FILE is named (`-` is standard input)"),
    (["check", "--odd", "one"], "--odd is no option"),
    (["check", "-j", "one"], "-j is no option"),
    (["check", b"-\xff", "one"], "-\\xff is no option"),
    (["check", "one", "--format"], "--format takes plain, weighted, grouped, log or weighted2022"),
    (["check", "--format", "cnf", "one"], "--format takes plain, weighted, grouped, log or weighted2022"),
    (["check", "--format=", "one"], "--format takes plain, weighted, grouped, log or weighted2022"),
    (["log", "--format", "log", "one"], "log takes no --format"),
    (["check", "-", "one", "-"], "standard input can be read once only"),
    (["check", "--require-header", "--format", "log", "one"], "--require-header is for plain, weighted and grouped texts; others have no header"),
    (["check", "--format", "weighted2022", "--require-header", "one"], "--require-header is for plain, weighted and grouped texts; others have no header"),
    (["log", "--require-header", "one"], "--require-header is for plain, weighted and grouped texts; others have no header"),
]


def expect(holds, what):
    if not holds:
        sys.exit(f"command: WRONG: {what}")


def told(words, status, said):
    """A line for a case."""
    global cases
    cases += 1
    words = " ".join(ascii(word)[1:-1].lstrip("'") if isinstance(word, bytes) else ascii(word)[1:-1] for word in words)
    print(f"{words}: status {status}, {ascii(said.rstrip(chr(10)))[1:-1]}"[:200])


def run(*words, given=b"", tell=True, **more):
    """Status, standard output and standard error."""
    files = {"stdout": subprocess.PIPE, "stderr": subprocess.PIPE, **more}
    if "stdin" not in files:
        files["input"] = given
    done = subprocess.run([*COMMAND, *words], timeout=120, **files)
    status, out, err = done.returncode, (done.stdout or b"").decode(), (done.stderr or b"").decode()
    if tell:
        told(words, status, out + err)
    return status, out, err


def hold(answer, *wanted):
    """The answer of `run` is this one: a status, standard output and standard error."""
    wanted = (*wanted, *[""] * (3 - len(wanted)))
    expect(answer == wanted, f"{answer!r}\n is not {wanted!r}")


def write(path, content):
    with open(path, "wb") as file:
        file.write(content)


def same(objects, wanted):
    """Whether values of JSON are the same. In Python true is 1."""
    return json.dumps(objects, sort_keys=True) == json.dumps(wanted, sort_keys=True)


def message(name, head, line, caret):
    return f"{name}:{head}\n{('    ' + line).rstrip()}\n{' ' * (4 + caret)}^\n"


def refused():
    for options, text, head, line, caret in REFUSED:
        hold(run("check", *options.split(), "-", given=text), 1, message("standard input", head, line, caret))


def accepted():
    for options, text, said in ACCEPTED:
        hold(run("check", *options.split(), "-", given=text), 0, f"standard input: accepted as {said}\n")


def shown(name):
    return os.fsencode(name).decode(errors="backslashreplace").replace("\n", "\\n").replace("\x1b", "\\u{1b}").replace("\u202e", "\\u{202e}")


def named():
    """All at once, each alone, and as JSON, where the name is whole but for bytes that are no UTF-8."""
    for name, text, said in NAMED:
        write(name, text)
        hold(run("check", name), 0, f"{shown(name)}: {said}\n")
        status, out, err = run("check", "--json", name, tell=False)
        expect(json.loads(out)["file"] == os.fsencode(name).decode(errors="backslashreplace"), f"{out}")
    hold(run("check", *(name for name, *_ in NAMED)), 0, "".join(f"{shown(name)}: {said}\n" for name, _, said in NAMED))
    hold(run("check", "--require-header", "one.wcnf"), 1, message("one.wcnf", "1:1: refused: a header is expected", "h 1 0", 0))
    hold(run("check", "--require-header", "one.log"), 1, message("one.log", "1:1: refused: a header is expected", "s UNKNOWN", 0))
    for by, text in COMPRESSED.items():
        write("packed", text)
        hold(run("check", "packed"), 2, "", f"latchtwig: packed: it is compressed ({by}); unpack it first\n")


def wrong_words():
    write("one", b"1 0\n")
    for words, why in WRONG:
        hold(run(*words), 2, "", f"latchtwig: {why}{MORE}\n")


def right_words():
    write("one", b"1 0\n")
    write("-x", b"1 0 2\n")
    good, bad = "one: accepted as plain: 1 clause\n", message("-x", "1:5: refused 5: a line end is expected, found `2`", "1 0 2", 4)
    hold(run("check", "one", "--cr", "--lenient", "one"), 0, good * 2)
    hold(run("check", "--", "-x", "one"), 1, bad + good)
    hold(run("check", "one", "--", "-x"), 1, good + bad)
    hold(run("check", "--format", "grouped", "--format", "plain", "one"), 0, good)
    hold(run("check", "--", "-", given=b"1 0\n"), 0, "standard input: accepted as plain: 1 clause\n")
    for words in (["--help"], ["-h"], ["check", "--help"], ["list", "-h", "one"], ["log", "one", "--help"]):
        status, out, err = run(*words)
        expect((status, err) == (0, "") and out.startswith("latchtwig reads ") and "usage: latchtwig check " in out and "\nExit status: 0 " in out and not out.endswith("\n\n"), f"{words}: {status} {out} {err}")
        expect(all(len(line) <= 120 for line in out.splitlines()), "a line of --help is too long")
    version = re.search(r'^version = "(.*)"$', (ROOT / "host/rust/Cargo.toml").read_text(), re.MULTILINE)[1]
    hold(run("--version"), 0, f"latchtwig {version}\n")


def listed():
    for options, text, lines, objects in LISTED:
        _, verdict, _ = run("check", *options.split(), "-", given=text, tell=False)
        status, *both = run("list", *options.split(), "-", given=text)
        expect(both == [lines + verdict, ""], f"{both}")
        _, verdict, _ = run("check", "--json", *options.split(), "-", given=text, tell=False)
        again, out, err = run("list", "--json", *options.split(), "-", given=text)
        expect((again, err) == (status, "") and same([json.loads(line) for line in out.splitlines()], objects + [json.loads(verdict)]), f"{out}{err}")
    text = b"s SATISFIABLE\nv 1 -2 0\n"
    hold(run("log", "-", given=text), *run("list", "--format", "log", "-", given=text, tell=False))
    hold(run("log", "--lenient", "-", given=b"junk\n"), 0, "verdict none\nliterals\nstandard input: accepted as log: none, the solver left no answer; look why, and run it again\n")


def as_json():
    """Each kind of object, and strings with odd characters in them."""
    write('a"b\\c\n\x01\u20ac', b"1 0\n")
    for words, given, status, wanted in (
        ("-", b"p cnf 3 2\n1 0\n2 0\n", 0, {"file": "-", "format": "plain", "mode": "strict", "accepted": True, "header": {"variables": 3, "clauses": 2}, "clauses": 2}),
        ("--lenient -", b"p wcnf 3 2 7\n", 0, {"file": "-", "format": "weighted", "mode": "lenient", "accepted": True, "header": {"variables": 3, "clauses": 2, "top": 7}, "clauses": 0}),
        ("--cr -", b"p gcnf 3 1 2\r{1} 0\r", 0, {"file": "-", "format": "grouped", "mode": "strict-cr", "accepted": True, "header": {"variables": 3, "clauses": 1, "groups": 2}, "clauses": 1}),
        ("--cr --lenient --format weighted2022 -", b"h 0", 0, {"file": "-", "format": "weighted2022", "mode": "lenient-cr", "accepted": True, "header": None, "clauses": 1}),
        ("--format log -", b"s UNKNOWN", 0, {"file": "-", "format": "log", "mode": "strict", "accepted": True, "verdict": "unknown"}),
        ("-", b"c\n\xff\"\\\x00 ", 1, {"file": "-", "format": "plain", "mode": "strict", "accepted": False, "refusal": {"number": 9, "place": 2, "line": 2, "column": 1, "message": CLAUSE + r', found `\xff"\\x00`', "expected": CLAUSE, "found": r'\xff"\\x00'}}),
        ("-", b"p cnf 2 1\n3 0", 1, {"file": "-", "format": "plain", "mode": "strict", "accepted": False, "refusal": {"number": 15, "place": 10, "line": 2, "column": 1, "message": "literal 3 is beyond the 2 variables of the header", "expected": refusals.WORDS[15], "found": "3"}}),
        ("-", b"1", 1, {"file": "-", "format": "plain", "mode": "strict", "accepted": False, "refusal": {"number": 6, "place": 1, "line": 1, "column": 2, "message": "a literal or 0 is expected, " + TEXT_END, "expected": "a literal or 0 is expected", "found": "the end of the text"}}),
        ("-", b"1 0\r", 1, {"file": "-", "format": "plain", "mode": "strict", "accepted": False, "refusal": {"number": 5, "place": 3, "line": 1, "column": 4, "message": "a line end is expected, " + RETURN, "expected": "a line end is expected", "found": "a CR without LF"}}),
        ("--require-header -", b"", 1, {"file": "-", "format": "plain", "mode": "strict", "accepted": False, "refusal": {"number": None, "place": 0, "line": 1, "column": 1, "message": "a header is expected", "expected": "a header is expected", "found": None}}),
        ("nowhere", b"", 2, {"file": "nowhere", "trouble": "No such file or directory"}),
        ('a"b\\c\n\x01\u20ac', b"", 0, {"file": 'a"b\\c\n\x01\u20ac', "format": "plain", "mode": "strict", "accepted": True, "header": None, "clauses": 1}),
    ):
        words = words.split(" ")
        again, out, err = run("check", "--json", *words, given=given)
        expect((again, err, out.count("\n")) == (status, "", 1) and same(json.loads(out), wanted), f"{words}: {again} {out}{err}")
    status, out, err = run("check", "--json", "nowhere", "-", ".", given=b"x")
    expect((status, err, [json.loads(line).get("trouble") for line in out.splitlines()]) == (2, "", ["No such file or directory", None, "it is a directory"]), out + err)


def unreadable():
    """What cannot be read is told in one line, on standard error, and the other files are judged."""
    os.mkdir("folder")
    write("one", b"1 0\n")
    server = socket.socket(socket.AF_UNIX)
    server.bind("socket")
    good = "one: accepted as plain: 1 clause\n"
    long = "n" * 300
    for name, why in (
        ("folder", "it is a directory"),
        ("nowhere", "No such file or directory"),
        ("one/two", "Not a directory"),
        ("", "No such file or directory"),
        (long, "File name too long"),
        (b"\xff\n", "No such file or directory"),
        ("socket", "No such device or address"),
        ("/dev/zero", "it is a device"),
        ("/dev/null", "it is a device"),
        ("/proc/self/mem", "Input/output error"),
    ):
        hold(run("check", name), 2, "", f"latchtwig: {shown(name)}: {why}\n")
    hold(run("check", "one", "nowhere", "one"), 2, good * 2, "latchtwig: nowhere: No such file or directory\n")
    hold(run("check", "one", "nowhere", "one", stderr=subprocess.STDOUT), 2, good + "latchtwig: nowhere: No such file or directory\n" + good)
    hold(run("check", "-", "nowhere", given=b"x"), 2, message("standard input", "1:1: refused 9: " + CLAUSE + ", found `x`", "x", 0), "latchtwig: nowhere: No such file or directory\n")
    status, out, err = run("check", "/proc/self/status")
    expect(status == 1 and out.startswith(f"/proc/self/status:1:1: refused 9: {CLAUSE}, found `Name:`\n    Name:\\t") and err == "", f"/proc: {status} {out} {err}")
    short = "/sys/kernel/mm/transparent_hugepage/enabled"
    if os.path.exists(short):
        status, out, err = run("check", short)
        expect((status, out) == (2, "") and re.fullmatch(rf"latchtwig: {short}: only \d+ of its 4096 bytes can be read\n", err), f"{status} {out} {err}")
    else:
        skipped.append("a file that has fewer bytes than it says")


def permission(folder):
    """As root nothing is refused, so that the command, copied to where all may read, is run by another user."""
    write("secret", b"1 0\n")
    os.chmod("secret", 0)
    os.chmod(folder, 0o755)
    denied = "latchtwig: secret: Permission denied\n"
    if os.geteuid() != 0:
        return hold(run("check", "secret"), 2, "", denied)
    copied = shutil.copy(COMMAND[-1], folder)
    done = subprocess.run([*COMMAND[:-1], copied, "check", "secret"], user=NOBODY, group=NOBODY, extra_groups=[], capture_output=True, timeout=60)
    told(["check", "secret"], done.returncode, done.stderr.decode())
    hold((done.returncode, done.stdout.decode(), done.stderr.decode()), 2, "", denied)


def standard_input():
    """Closed, /dev/null, a directory, a device, a file from its middle on."""
    write("one", b"1 0 2\n3 0\n")
    closed = "latchtwig: standard input: it is closed, or /dev/null\n"
    hold(run("check", "-", stdin=subprocess.DEVNULL), 2, "", closed)
    done = subprocess.run(["sh", "-c", 'exec "$@" <&-', "sh", *COMMAND, "check", "-"], capture_output=True, timeout=60)
    hold((done.returncode, done.stdout.decode(), done.stderr.decode()), 2, "", closed)
    folder = os.open(".", os.O_RDONLY)
    hold(run("check", "-", stdin=folder), 2, "", "latchtwig: standard input: it is a directory\n")
    os.close(folder)
    with open("/dev/zero", "rb") as zero:
        hold(run("check", "-", stdin=zero), 2, "", "latchtwig: standard input: it is a device\n")
    with open("one", "rb", buffering=0) as file:
        file.seek(6)
        hold(run("list", "-", stdin=file), 0, "header none\nclause 3\nstandard input: accepted as plain: 1 clause\n")
        hold(run("check", "-", stdin=file), 0, "standard input: accepted as plain: 0 clauses\n")


def standard_output():
    """A full disk is told in one line. Who closed a pipe knows. Standard error that takes nothing does not matter."""
    write("one", b"1 0\n")
    write("many", b"1 2 3 0\n" * 100000)
    full = "latchtwig: standard output: No space left on device\n"
    for words in (["check", "one"], ["list", "many"], ["list", "--json", "many", "one"], ["check", "--json", "nowhere"], ["--help"], ["--version"]):
        with open("/dev/full", "wb") as to:
            hold(run(*words, stdout=to), 2, "", full)
        read, to = os.pipe()
        os.close(read)
        hold(run(*words, stdout=to), 2, "", "")
        os.close(to)
    with open("/dev/full", "wb") as to:
        hold(run("check", "one", "nowhere", stderr=to), 2, "one: accepted as plain: 1 clause\n")
    done = subprocess.run(["sh", "-c", '"$@" | head -n 1', "sh", *COMMAND, "list", "many"], capture_output=True, timeout=60)
    hold((done.returncode, done.stdout.decode(), done.stderr.decode()), 0, "header none\n")
    # A standard output that is closed is /dev/null, as Rust opens it. The status tells.
    for name, status in (("one", 0), ("nowhere", 2)):
        done = subprocess.run(["sh", "-c", 'exec "$@" >&-', "sh", *COMMAND, "check", "--json", name], capture_output=True, timeout=60)
        hold((done.returncode, done.stdout.decode(), done.stderr.decode()), status)
    status, out, err = run("list", "many", tell=False)
    expect(out == "header none\n" + "clause 1 2 3\n" * 100000 + "many: accepted as plain: 100000 clauses\n", "a long listing")


def pipes():
    """A pipe with a name, one whose bytes come one by one, and one before which a file is told of already."""
    os.mkfifo("pipe.wcnf")
    write("one", b"1 0\n")
    text = b"h 1 -2 0\n5 2 0\n"
    threading.Thread(target=write, args=("pipe.wcnf", text)).start()
    hold(run("check", "pipe.wcnf"), 0, "pipe.wcnf: accepted as weighted2022: 2 clauses\n")
    process = subprocess.Popen([*COMMAND, "check", "one", "pipe.wcnf"], stdout=subprocess.PIPE)
    early, _, _ = select.select([process.stdout], [], [], 10)
    write("pipe.wcnf", text)
    out, _ = process.communicate(timeout=60)
    expect(early, "a file is not told of while the next is read")
    expect(out.decode() == "one: accepted as plain: 1 clause\npipe.wcnf: accepted as weighted2022: 2 clauses\n", f"{out}")
    process = subprocess.Popen([*COMMAND, "check", "-"], stdin=subprocess.PIPE, stdout=subprocess.PIPE, stderr=subprocess.PIPE, bufsize=0)
    for byte in b"1 -2 0\n":
        process.stdin.write(bytes([byte]))
        time.sleep(0.01)
    out, err = process.communicate(timeout=60)
    hold((process.returncode, out.decode(), err.decode()), 0, "standard input: accepted as plain: 1 clause\n")


def begun(process, path):
    """How far a process has read a file, once it has begun."""
    while process.poll() is None:
        with contextlib.suppress(OSError):
            for file in os.listdir(f"/proc/{process.pid}/fd"):
                if os.readlink(f"/proc/{process.pid}/fd/{file}") == path:
                    with open(f"/proc/{process.pid}/fdinfo/{file}") as info:
                        at = int(info.readline().split()[1])
                    if at > 0:
                        return at
    return None


def stopped_within(path, words, **files):
    """The command, stopped while it reads the file."""
    for _ in range(50):
        process = subprocess.Popen([*COMMAND, *words], **files)
        begun(process, path)
        process.send_signal(signal.SIGSTOP)
        os.waitid(os.P_PID, process.pid, os.WSTOPPED | os.WEXITED | os.WNOWAIT)
        at = begun(process, path)
        if at is not None and at < os.path.getsize(path):
            return process
        process.send_signal(signal.SIGCONT)
        process.wait()
    sys.exit("command: it is never caught while it reads")


def changing(folder):
    """A file that another shrinks, lengthens or writes to between two reads of it."""
    path = os.path.realpath(f"{folder}/large")

    def shrink():
        os.truncate(path, 5)

    def grow():
        os.truncate(path, 300 * MEGABYTE)

    def rewrite():
        with open(path, "r+b") as file:
            file.write(b"1 0\n")

    for change, why in ((shrink, "it shrank while it was read"), (grow, "it changed while it was read"), (rewrite, "it changed while it was read")):
        write(path, b"")
        os.truncate(path, 200 * MEGABYTE)
        process = stopped_within(path, ["check", path], stdout=subprocess.PIPE, stderr=subprocess.PIPE)
        change()
        process.send_signal(signal.SIGCONT)
        out, err = process.communicate(timeout=60)
        told(["check", "large", change.__name__], process.returncode, (out + err).decode())
        hold((process.returncode, out.decode(), err.decode()), 2, "", f"latchtwig: {path}: {why}\n")
    os.remove(path)


def memory():
    """A file that is longer than memory, here than what the command may have."""
    if EMULATED:
        return skipped.append("too little memory, which the emulator would not have either")
    length = 300 * MEGABYTE
    write("large", b"")
    os.truncate("large", length)
    limit = lambda: resource.setrlimit(resource.RLIMIT_AS, (200 * MEGABYTE,) * 2)
    hold(run("check", "large", preexec_fn=limit), 2, "", f"latchtwig: large: not enough memory for its {length} bytes\n")
    with open("large", "rb") as large:
        pipe = subprocess.Popen(["cat"], stdin=large, stdout=subprocess.PIPE)
        status, out, err = run("check", "-", stdin=pipe.stdout, preexec_fn=limit)
        pipe.stdout.close()
        pipe.wait()
    expect((status, out) == (2, "") and re.fullmatch(r"latchtwig: standard input: not enough memory for more than \d+ bytes\n", err), f"{status} {out} {err}")
    os.remove("large")


@contextlib.contextmanager
def terminal():
    """A terminal to write to, and what was written there so far."""
    ours, theirs = pty.openpty()
    seen = bytearray()

    def collect():
        with contextlib.suppress(OSError):
            while some := os.read(ours, 65536):
                seen.extend(some)

    thread = threading.Thread(target=collect)
    thread.start()
    yield theirs, seen
    with contextlib.suppress(OSError):
        os.close(theirs)
    thread.join()
    os.close(ours)


def steps(seen):
    """What was shown on a line of a terminal, one after the other, and what was left there."""
    *shown, left = seen.decode().split("\r\x1b[K")
    return shown, left


def quick():
    """Nothing is shown of half a second. Where others keep the machine from this for long, it is tried again."""
    for _ in range(20):
        with terminal() as (to, seen):
            started = time.monotonic()
            process = subprocess.Popen([*COMMAND, "check", "-"], stdin=subprocess.PIPE, stdout=subprocess.DEVNULL, stderr=to)
            time.sleep(0.5)
            process.communicate(b"1 0\n", timeout=60)
            took = time.monotonic() - started
        if took < 0.9:
            return expect(seen == b"", f"{bytes(seen)} within {took} s")
    sys.exit("command: half a second is never had")


def progress(folder):
    """Nothing within a second, and then how far it is, erased before any other line."""
    path = os.path.realpath(f"{folder}/large")
    write("one", b"1 0\n")
    with terminal() as (to, seen):
        hold(run("check", "one", "nowhere", stderr=to), 2, "one: accepted as plain: 1 clause\n")
    expect(seen == b"latchtwig: nowhere: No such file or directory\r\n", f"{bytes(seen)}")
    quick()

    # From a pipe: so many bytes, and then how much is checked.
    with terminal() as (to, seen):
        process = subprocess.Popen([*COMMAND, "check", "-", "nowhere"], stdin=subprocess.PIPE, stdout=to, stderr=to)
        process.stdin.write(b"1 -2 3 0\n" * (12 * MEGABYTE))
        process.stdin.flush()
        time.sleep(1.5)
        process.stdin.close()
        status = process.wait(timeout=60)
    shown, left = steps(seen)
    told(["check", "-", "on a terminal"], status, left)
    expect(status == 2 and left == f"standard input: accepted as plain: {12 * MEGABYTE} clauses\r\nlatchtwig: nowhere: No such file or directory\r\n", f"{status} {left}")
    read = [line for line in shown if re.fullmatch(r"latchtwig: standard input: \d+ MB read", line)]
    checked = [int(line.split()[3][:-1]) for line in shown if re.fullmatch(r"latchtwig: standard input: \d+% checked", line)]
    expect("latchtwig: standard input: 113 MB read" in read and checked and checked == sorted(checked) and 0 < checked[-1] <= 100, f"{shown}")
    expect(sorted({*shown} - {*read}) == sorted({"", *(f"latchtwig: standard input: {part}% checked" for part in checked)}), f"{shown}")

    # From a file: the part that is read. Its name is cut.
    write(path, b"")
    os.truncate(path, 400 * MEGABYTE)
    with terminal() as (to, seen):
        process = stopped_within(path, ["check", path], stdout=to, stderr=to)
        time.sleep(1.1)
        process.send_signal(signal.SIGCONT)
        status = process.wait(timeout=60)
    shown, left = steps(seen)
    told(["check", "large", "on a terminal"], status, left)
    end = path if len(path) <= 40 else "..." + path[-40:]
    expect(status == 1 and left.startswith(f"{path}:1:1: refused 9: ") and any(re.fullmatch(rf"latchtwig: {re.escape(end)}: \d+% read", line) for line in shown), f"{status} {shown} {left}")
    os.remove(path)

    # A log is read by one call.
    with terminal() as (to, seen):
        process = subprocess.Popen([*COMMAND, "check", "--format", "log", "-"], stdin=subprocess.PIPE, stdout=to, stderr=to)
        process.stdin.write(b"v 1 -2 3 4 5 6 7 8 9\n" * (6 * MEGABYTE) + b"v 0\n")
        process.stdin.flush()
        time.sleep(1.2)
        process.stdin.close()
        status = process.wait(timeout=60)
    shown, left = steps(seen)
    told(["check", "--format", "log", "-", "on a terminal"], status, left)
    expect(status == 0 and left.startswith("standard input: accepted as log: none, ") and any(re.fullmatch(r"latchtwig: standard input: a log of 132 MB is checked, \d+ s", line) for line in shown), f"{status} {shown} {left}")

    # What is typed is not written over.
    ours, theirs = pty.openpty()
    with terminal() as (to, seen):
        process = subprocess.Popen([*COMMAND, "check", "-"], stdin=theirs, stdout=subprocess.PIPE, stderr=to)
        time.sleep(1.5)
        os.write(ours, b"1 0\n\x04")
        out, _ = process.communicate(timeout=60)
    os.close(ours)
    os.close(theirs)
    hold((process.returncode, out.decode(), steps(seen)[1]), 0, "standard input: accepted as plain: 1 clause\n")
    expect(b"read" not in seen, f"{bytes(seen)}")


def escaped(text):
    """Bytes as they are shown."""
    return "".join(chr(b) if 32 <= b < 127 else {9: r"\t", 10: r"\n", 13: r"\r"}.get(b, f"\\x{b:02x}") for b in text)


def excerpt(text, mode, place, column):
    """The line of a place, or 80 bytes of it, 40 before the place as far as that is possible, and where its caret stands."""
    line = re.split(rb"\r\n|\n|\r" if mode.endswith("cr") else rb"\r?\n", text[place - column + 1 :], maxsplit=1)[0]
    at = min(column - 1, len(line))
    start = max(0, min(at - 40, len(line) - 80))
    front = "..." * (start > 0) + escaped(line[start:at])
    return front + escaped(line[at : start + 80]) + "..." * (start + 80 < len(line)), len(front)


def stored_case(name, mode, text, lines, listed, told):
    """One stored case: what is listed of it, and what is told, as lines and as JSON."""
    *read, last = (line.decode().rstrip("\n") for line in lines)
    words = last.split()
    if words[0] != "refused":
        read = read if words[0] == "end" else [*read, last]
        return listed[:-1] == read and listed[-1].startswith(f"{name}: accepted as ") and told["accepted"]
    number, place, _, line, column = map(int, words[1:6])
    if number == BUFFER_FULL:
        return listed[: len(read)] == read and (told["accepted"] or told["refusal"]["number"] != BUFFER_FULL)
    found = escaped(bytes.fromhex(words[6])) if len(words) > 6 else None
    refusal = told["refusal"]
    shown, caret = excerpt(text, mode, place, column)
    head = f"{line}:{column}: refused {number}: {refusal['message']}"
    return (
        "\n".join(listed) + "\n" == "".join(f"{line}\n" for line in read) + message(name, head, shown, caret)
        and (number, place, line, column) == tuple(refusal[key] for key in ("number", "place", "line", "column"))
        and (refusal["found"].startswith("the end of ") if found is None else refusal["found"] == "a CR without LF" if found.startswith("\\r") else refusal["found"].removesuffix("...") == found)
    )


def stored():
    """Every stored case of crates/reader_cases, all of a format and a mode at once."""
    given = {}
    for number, ((format, mode, _, text), lines) in enumerate(zip(frames.cases(ROOT / "crates/reader_cases/stdin"), frames.answers(ROOT / "crates/reader_cases/stdout"))):
        if format < len(FORMATS) and mode < len(MODES) and text is not None:
            given.setdefault((format, mode), []).append((f"case-{number}", text, lines))
    compared = 0
    for (format, mode), group in given.items():
        for name, text, _ in group:
            write(name, text)
        mode, options = list(MODES.items())[mode]
        words = ["--format", FORMATS[format], *options, *(name for name, *_ in group)]
        status, out, err = run("list", *words, tell=False)
        again, objects, _ = run("check", "--json", *words, tell=False)
        expect(status == again <= 1 and err == "", f"{FORMATS[format]} {mode}: {status} {again} {err}")
        # What is told of a case begins with its name; of a refused one there are two lines more.
        parts = re.findall(r"(?:(?!case-).*\n)*?(?:case-\d+: .*\n|case-\d+:\d.*\n.*\n.*\n)", out)
        expect("".join(parts) == out and len(parts) == len(group) == objects.count("\n"), f"{FORMATS[format]} {mode}: {len(parts)} of {len(group)}")
        for (name, text, lines), part, told in zip(group, parts, objects.splitlines()):
            expect(stored_case(name, mode, text, lines, part.splitlines(), json.loads(told)), f"{FORMATS[format]} {mode} {text}: {part}{told}\n is not {lines}")
            compared += 1
    expect(compared > 7000, f"{compared} stored cases")
    print(f"command: {compared} cases of crates/reader_cases, each listed as it is stored")


def examples():
    """The texts of examples/ whose listing is the command's. Those that are plain are listed by ./run listing."""
    os.chdir(ROOT)
    texts = sorted(pathlib.Path("examples").glob("*"))
    options = {".cr": ["--cr"], ".wcnf": ["--format", "weighted2022"], ".log": []}
    texts = [text for text in texts if text.suffix in options]
    expect({text.suffix for text in texts} == {*options}, f"{texts}")
    for text in texts:
        status, out, err = run("list", *options[text.suffix], str(text))
        expect(status <= 1 and (out, err) == (text.with_suffix(".listed").read_text(), ""), f"{text} is listed otherwise than in {text.with_suffix('.listed')}:\n{out}{err}")


def main():
    COMMAND[-1] = os.path.abspath(COMMAND[-1])
    for test in (refused, accepted, named, wrong_words, right_words, listed, as_json, unreadable, permission, standard_input, standard_output, pipes, changing, memory, progress, stored, examples):
        with tempfile.TemporaryDirectory() as folder:
            os.chdir(folder)
            test(*[folder] * test.__code__.co_argcount)
            os.chdir("/")
    print(f"command: {cases} cases, each with its status and its lines" + "".join(f"; SKIPPED: {what}" for what in skipped))


main()
