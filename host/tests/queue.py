#!/usr/bin/env python3
"""What the queue example does with words, names and files that are not as they should be.

queue.py COMMAND..: COMMAND.. is the queue program as it is run here, without its words.
"""
import fcntl
import os
import socket
import subprocess
import sys
import tempfile

GOOD, BAD = b"1 -2 0\n", b"1 0 2 0\n"


def run(*words):
    done = subprocess.run([*sys.argv[1:], *words], stdout=subprocess.PIPE, stderr=subprocess.PIPE, timeout=60)
    return done.returncode, done.stdout.decode(), done.stderr.decode()


def write(path, content):
    with open(path, "wb") as file:
        file.write(content)


def expect(holds, what):
    if not holds:
        sys.exit(f"queue: {what}")


def bad_words(folder):
    for words in ([], ["plain"], ["plain", "strict"], ["cnf", "strict", folder], ["plain", "odd", folder], ["plain", "strict", folder, folder], ["--header", "log", "strict", folder], ["--header", "weighted2022", "strict", folder], ["--header", "plain", "strict"]):
        status, said, told = run(*words)
        expect((status, said) == (2, "") and told.startswith("usage: queue "), f"{words}: {status} {told}")
    status, _, told = run("plain", "strict", f"{folder}/none")
    expect(status == 2 and "none" in told, f"no folder: {status} {told}")


def formats(folder):
    """What was read of a good order is told, and of a bad one why it is refused. Clauses and logs may be as long as they like."""
    many = b" 7" * 3000 + b" 0\n"
    for format, mode, text, read in (
        ("weighted", "strict", b"5 1 0\n", "1 clause"),
        ("grouped", "strict", b"p gcnf 1 1 1\n{2} 1 0\n", 14),
        ("grouped", "lenient", b"p gcnf 1 1 1\n{2} 1 0\n", "1 clause"),
        ("log", "strict", b"s SATISFIABLE\nv 1 0\n", "satisfiable, 1 literal"),
        ("log", "strict", b"s UNSATISFIABLE\n", "unsatisfiable, 0 literals"),
        ("log", "strict", b"c crashed\n", "no verdict, 0 literals"),
        ("log", "strict", b"s UNKNOWN\nv" + many, "unknown, 3000 literals"),
        ("log", "lenient", b"v 1\n", 19),
        ("plain", "strict", b"", "0 clauses"),
        ("plain", "strict", b"1 0\n" + many + b"0\n", "3 clauses"),
        ("plain", "strict", b"1 0\r2 0\r", 5),
        ("plain", "strict-cr", b"1 0\r2 0\r", "2 clauses"),
        ("log", "lenient-cr", b"junk\rs UNKNOWN\r", "unknown, 0 literals"),
        ("weighted2022", "strict", b"h 1 0\n5 -1 0\n", "2 clauses"),
        ("weighted2022", "lenient", b"p wcnf 1 1 1\n", 33),
    ):
        write(f"{folder}/one", text)
        status, said, _ = run(format, mode, folder)
        told, _, why = said.rstrip("\n").partition(": ")
        accepted = isinstance(read, str)
        right = why == read if accepted else why.startswith(f"refusal {read} at line ")
        expect(status == 0 and told.split()[0] == ("accepted" if accepted else "refused") and right, f"{format} {mode}: {status} {said}")


def reasons(folder):
    """A reason has number, place, line, column, words, and the word that was found, on a line of its own, if there is one."""
    for mode, text, spot, words, found in (
        ("strict", b"1 0\n2 0 3 0\n", (5, 8, 2, 5), "a line end is expected", "3"),
        ("strict", b"1 0\n2", (6, 5, 2, 2), "a literal or 0 is expected", None),
        ("strict", b"1 'a\"\\\xff\0 0\n", (6, 2, 1, 3), "a literal or 0 is expected", "\\'a\\\"\\\\\\xff\\x00"),
        ("strict", b"1 0\rodd\n", (5, 3, 1, 4), "a line end is expected", "\\rodd"),
        ("strict-cr", b"1 0\rodd\n", (9, 4, 2, 1), "a clause, a comment, a line end or a permitted end of the text is expected", "odd"),
        ("strict", b"p cnf 1\n", (3, 7, 1, 8), "the count of clauses is expected", None),
        ("strict-cr", b"p cnf 1\r1 0\r", (3, 7, 1, 8), "the count of clauses is expected", None),
    ):
        write(f"{folder}/one", text)
        run("plain", mode, folder)
        with open(f"{folder}/refused/one.reason") as file:
            told = file.read()
        wanted = "number %d\nplace %d\nline %d\ncolumn %d\n" % spot + f"reason {words}\n" + (f"found {found}\n" if found else "")
        expect(told == wanted, f"the reason of {text}: {told}, not {wanted}")
        os.remove(f"{folder}/refused/one")


def names(folder):
    """Orders go by name, each on one line; what is no order stays, and what might be taken for one is told."""
    write(f"{folder}/b", BAD)
    write(f"{folder}/a", GOOD)
    write(f"{folder}/c\xe9 d", GOOD)
    write(f"{folder}/e\naccepted f", GOOD)
    write(os.fsencode(folder) + b"/\xff", BAD)
    write(f"{folder}/z", GOOD)
    write(f"{folder}/.hidden", GOOD)
    write(f"{folder}/x.reason", BAD)
    os.mkdir(f"{folder}/folder")
    os.symlink("a", f"{folder}/link")
    os.symlink("folder", f"{folder}/link-to-folder")
    os.mkfifo(f"{folder}/pipe")
    with socket.socket(socket.AF_UNIX) as bound:
        bound.bind(f"{folder}/socket")
    status, said, told = run("plain", "strict", folder)
    expect(status == 1, f"links stay: {status} {told}")
    taken = [line.split(":")[0] for line in said.splitlines()]
    expect(taken == ["accepted a", "refused b", "accepted c\xe9 d", "accepted e\\naccepted f", "accepted z", "refused \ufffd"], f"{taken}")
    expect(told == "queue: link stays: it is a link\nqueue: link-to-folder stays: it is a link\nqueue: pipe stays: it is a pipe\nqueue: socket stays: it is no file\n", told)
    left = sorted(os.listdir(folder))
    expect(left == [".hidden", "accepted", "folder", "link", "link-to-folder", "pipe", "refused", "socket", "x.reason"], f"{left}")
    with open(f"{folder}/refused/b.reason") as file:
        expect(file.read() == "number 5\nplace 4\nline 1\ncolumn 5\nreason a line end is expected\nfound 2\n", "the reason")
    expect(sorted(os.listdir(os.fsencode(folder) + b"/refused")) == [b"b", b"b.reason", b"\xff", b"\xff.reason"], "refused")


def long_names(folder):
    """A name that is too long for a reason or a number is cut between two characters, and never so that it ends as a reason does."""
    longest, shorter, accented, as_reason = "n" * 255, "n" * 248, "\xe9" * 127, "r" * 240 + ".reason" + "r" * 8
    for text in (BAD, BAD, GOOD, GOOD):
        for name in (longest, shorter, accented, as_reason, "r" * 240):
            write(f"{folder}/{name}", text)
        status, said, told = run("plain", "strict", folder)
        expect((status, told) == (0, ""), f"long names: {status} {told}")
        expect(text == GOOD or f"refused {longest} as {'n' * 245}" in said, said)
    refused = ["n" * 247 + "~", "n" * 245 + "~.2", shorter, "n" * 245 + "~.3", "\xe9" * 123 + "~", "\xe9" * 122 + "~.2", as_reason[:247] + "~", as_reason[:245] + "~.2", "r" * 240, "r" * 240 + ".2"]
    expect(sorted(os.listdir(f"{folder}/refused")) == sorted(refused + [f"{name}.reason" for name in refused]), f"{sorted(os.listdir(f'{folder}/refused'))}")
    accepted = [longest, "n" * 252 + "~.2", shorter, shorter + ".2", accented, "\xe9" * 126 + "~.2", as_reason, as_reason[:252] + "~.2", "r" * 240, "r" * 240 + ".2"]
    expect(sorted(os.listdir(f"{folder}/accepted")) == sorted(accepted), f"{sorted(os.listdir(f'{folder}/accepted'))}")


def header(folder):
    """With --header, a text needs a header, and each count of it a digit other than 0."""
    none, zero = "a header is expected", "a header with no count of 0 is expected"
    for format, mode, text, why in (
        ("plain", "strict", b"", none),
        ("plain", "lenient", b"c p cnf 1 1\n1 0\n", none),
        ("plain", "strict", b"c one\n \t\n p \t cnf\t1  1 \r\n1 0\n", None),
        ("plain", "strict", b"p cnf 1 1\n1 0", None),
        ("plain", "strict", b"p cnf 1 0\n1 0", zero),
        ("plain", "strict", b"p cnf 1 00\n1 0", zero),
        ("plain", "strict", b"p cnf 000 1\n1 0", zero),
        ("plain", "strict", b"p cnf 0 0", zero),
        ("plain", "lenient", b"p cnf 01 10", None),
        ("plain", "strict", b"p cnf 1 1\n", "refusal 9 at line 2, column 1 (byte 10): a clause, a comment, a line end or a permitted end of the text is expected"),
        ("plain", "strict", b"c one\rp cnf 1 1\r1 0\r", none),
        ("plain", "strict-cr", b"c one\rp cnf 1 1\r1 0\r", None),
        ("plain", "lenient-cr", b"c one\rp cnf 1 0\r1 0\r", zero),
        ("weighted", "strict", b"5 1 0\n", none),
        ("weighted", "strict", b"p wcnf 1 1 0\n5 1 0\n", None),
        ("weighted", "strict", b"p wcnf 1 0 7\n5 1 0\n", zero),
        ("grouped", "strict", b"{1} 1 0\n", none),
        ("grouped", "strict", b"p gcnf 1 1 1\n{1} 1 0\n", None),
        ("grouped", "strict", b"p gcnf 1 1 0\n{1} 1 0\n", zero),
        ("grouped", "strict", b"p gcnf 1 1 10\n{1} 1 0\n", None),
    ):
        write(f"{folder}/one", text)
        status, said, _ = run("--header", format, mode, folder)
        told, _, rest = said.rstrip("\n").partition(": ")
        right = rest == why if why else rest.endswith((" clause", " clauses"))
        expect(status == 0 and told.split()[0] == ("refused" if why else "accepted") and right, f"{format} {mode} {text}: {status} {said}")
    with open(f"{folder}/refused/one.reason") as file:
        expect(file.read() == f"reason {none}\n", "the reason of no header")


def two_at_once(folder):
    """While another has the folder, a queue takes nothing and says so. A lock that is given back, by whatever end, is free."""
    write(f"{folder}/order", GOOD)
    lock = os.open(folder, os.O_RDONLY)
    fcntl.flock(lock, fcntl.LOCK_EX)
    status, said, told = run("plain", "strict", folder)
    expect((status, said, told) == (2, "", f"queue: {folder}: another queue is at work here\n"), f"two at once: {status} {said} {told}")
    expect(os.listdir(folder) == ["order"], "something was done beside another queue")
    os.close(lock)
    status, said, told = run("plain", "strict", folder)
    expect((status, said, told) == (0, "accepted order: 1 clause\n", ""), f"one again: {status} {said} {told}")


def again(folder):
    """A name that an earlier order has gets a number, and the earlier order stays as it is."""
    for text in (GOOD, BAD, GOOD, BAD, BAD):
        write(f"{folder}/order", text)
        status, _, told = run("plain", "strict", folder)
        expect(status == 0, told)
    expect(sorted(os.listdir(f"{folder}/accepted")) == ["order", "order.2"], "accepted again")
    expect(sorted(os.listdir(f"{folder}/refused")) == ["order", "order.2", "order.2.reason", "order.3", "order.3.reason", "order.reason"], "refused again")
    status, said, told = run("plain", "strict", folder)
    expect((status, said, told) == (0, "", ""), f"nothing to do: {status} {said} {told}")


def main():
    for test in (bad_words, formats, reasons, names, long_names, header, two_at_once, again):
        with tempfile.TemporaryDirectory() as folder:
            test(folder)
    print("queue: words, formats, reasons, names, long names, headers, two at once and names again, as they should be")


main()
