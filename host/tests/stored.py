#!/usr/bin/env python3
"""Runs every stored case of crates/reader_cases through a caller of the host calls, and holds what it prints to the stored answer.

stored.py CRATES COMMAND..: COMMAND.. takes the frames of crates/host_cases and prints number and place of each, and then number, place, line and column. Where the stored answer is 16, the case's own room for
literals was too small and the calls have more: they must get further, and not answer 16.
"""
import pathlib
import subprocess
import sys

sys.path.append(str(pathlib.Path(__file__).resolve().parent.parent.parent / "tools"))
import frames
import refusals

BUFFER_FULL = refusals.NUMBERS["BUFFER_FULL"]


def main():
    crates, command = sys.argv[1], sys.argv[2:]
    cases = list(frames.cases(f"{crates}/reader_cases/stdin"))
    said = [lines[-1].split() for lines in frames.answers(f"{crates}/reader_cases/stdout")]
    given = b"".join(frames.host_case(format, mode, text) for format, mode, _, text in cases)
    found = subprocess.run(command, input=given, stdout=subprocess.PIPE, check=True).stdout.decode().splitlines()
    if not len(found) == len(said) == len(cases):
        sys.exit(f"stored: {len(cases)} cases, {len(said)} stored answers, {len(found)} lines")

    equal = further = 0
    for n, (line, words, (*_, text)) in enumerate(zip(found, said, cases)):
        number, place, *checked = map(int, line.split())
        told, at, _, *spot = map(int, words[1:6]) if words[0] == b"refused" else (0, len(text), 0, 0, 0)
        wanted = told, at, told, at, *spot
        if wanted[0] == BUFFER_FULL:
            right = number != BUFFER_FULL and place > at and checked[:2] == [number, place]
            further += 1
        else:
            right = (number, place, *checked) == wanted
            equal += 1
        if not right:
            sys.exit(f"stored: case {n}: {line}, not {' '.join(map(str, wanted))}")
    print(f"stored: {equal} answers equal the stored ones, {further} get further where the stored room was too small")


main()
