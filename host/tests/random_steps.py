#!/usr/bin/env python3
"""Random texts, read clause by clause from Rust, against the proved program reader_cases.

random_steps.py COMMAND..: COMMAND.. is the example `steps` as it is run here. Both are given the same framed texts, COUNT (100,000) in all, of each format and mode as many, and must print the same bytes. The texts
are those of oracle/compare-second, right or damaged, one in ten with a long clause or value line put in, and the rooms are about as long as these and as the parsers' buffers. The environment's COUNT and SEED have others made.
"""
import collections
import importlib.machinery
import importlib.util
import itertools
import os
import pathlib
import random
import subprocess
import sys
import tempfile
import time

ROOT = pathlib.Path(__file__).resolve().parent.parent.parent
sys.dont_write_bytecode = True
sys.path += [str(ROOT / "tools"), str(ROOT / "oracle")]
import frames

LOADER = importlib.machinery.SourceFileLoader("compare_second", str(ROOT / "oracle/compare-second"))
texts = importlib.util.module_from_spec(importlib.util.spec_from_loader(LOADER.name, LOADER))
LOADER.exec_module(texts)

# The parsers' buffers have 64, 256 and 1,024 places.
LENGTHS = [62, 63, 64, 65, 66, 255, 256, 257, 1023, 1024, 1025]
ROOMS = [0, 1, 2, 3, 63, 64, 65, 255, 256, 257, 1024, 4096]
LEADS = {texts.second.WEIGHTED: b"5 ", texts.second.GROUPED: b"{1} ", texts.second.LOG: b"v ", texts.second.WEIGHTED_2022: b"h "}


def with_long_line(chance, format, text):
    """The text, and a long clause or value line before one of its lines."""
    lines = text.splitlines(keepends=True)
    lits = b" ".join(b"%d" % chance.choice([1, -1, 7, -99]) for _ in range(chance.choice(LENGTHS)))
    lines.insert(chance.randrange(len(lines) + 1), LEADS.get(format, b"") + lits + chance.choice([b" 0\n", b"\n"]))
    return b"".join(lines)


def made(count, seed):
    chance = random.Random(seed)
    kinds = [(format, mode) for format in texts.PIECES for mode in range(4)]
    for format, mode in itertools.islice(itertools.cycle(kinds), count):
        text = texts.right(chance, format)
        if chance.random() < 0.1:
            text = with_long_line(chance, format, text)
        if chance.random() < 0.6:
            text = texts.damaged(chance, text, texts.SHARED + texts.PIECES[format])
        yield frames.case(format, mode, chance.choice(ROOMS), text)


def answered(command, given, told):
    with open(given, "rb") as cases, open(told, "wb") as answers:
        subprocess.run(command, stdin=cases, stdout=answers, check=True)
    return frames.answers(told)


def kind(lines):
    last = lines[-1].split()
    return f"refused {int(last[1])}" if last[0] == b"refused" else "read"


def main():
    started = time.monotonic()
    count, seed = int(os.environ.get("COUNT", 100000)), int(os.environ.get("SEED", 1))
    with tempfile.TemporaryDirectory() as folder:
        given, proved, rust = (os.path.join(folder, name) for name in ("given", "proved", "rust"))
        with open(given, "wb") as file:
            file.writelines(made(count, seed))
        wanted, found = answered([ROOT / "run", "reader_cases"], given, proved), answered(sys.argv[1:], given, rust)
        kinds = collections.Counter()
        for number, (case, one, other) in enumerate(itertools.zip_longest(frames.cases(given), wanted, found)):
            if one != other:
                sys.exit(f"random_steps: seed {seed}, text {number}, {case}\nproved {one}\nRust   {other}")
            kinds[kind(one)] += 1
        with open(proved, "rb") as one, open(rust, "rb") as other:
            same = one.read() == other.read()
    if not same or sum(kinds.values()) != count:
        sys.exit(f"random_steps: {sum(kinds.values())} answers to {count} texts, {'' if same else 'not '}the same bytes")
    missing = {"read", *(f"refused {number}" for number in (*range(1, 20), 32, 33))} - kinds.keys()
    if missing and count >= 100000:
        sys.exit(f"random_steps: no text is {', '.join(sorted(missing))}")
    print(f"random_steps: {count} texts, {kinds['read']} read and the others refused by {len(kinds) - 1} numbers, the same from Rust as by reader_cases ({time.monotonic() - started:.0f} s)")


main()
