#!/usr/bin/env python3
"""Tells where two transcripts of the same frames differ.

Usage: differing.py FRAMES EXPECTED GIVEN

Prints the number of differing cases, then the one with the shortest text and both answers.
"""

import itertools
import pathlib
import sys

sys.path.append(str(pathlib.Path(__file__).resolve().parent.parent / "tools"))
import frames


def shown(text):
    """The text as an escaped string, of a long one the beginning."""
    if text is None:
        return "not read: the frame is cut off or too long"
    more = f".. ({len(text)} bytes)" if len(text) > 400 else ""
    return ascii(text[:400])[1:] + more


def main():
    if len(sys.argv) != 4:
        sys.exit(__doc__)
    count = 0
    smallest = None
    said = itertools.zip_longest(frames.answers(sys.argv[2]), frames.answers(sys.argv[3]), fillvalue=[b"nothing\n"])
    cases = itertools.zip_longest(frames.cases(sys.argv[1]), said)
    for number, (frame, (expected, given)) in enumerate(cases):
        if expected != given:
            count += 1
            frame = frame or (0, 0, 0, None)
            size = 1 << 20 if frame[3] is None else len(frame[3])
            if smallest is None or size < smallest[0]:
                smallest = size, number, frame, expected, given
    # The cases may agree and yet be numbered otherwise.
    print(count or "numbering")
    if smallest:
        _, number, (format, mode, room, text), expected, given = smallest
        print(f"  smallest: case {number}, format {format}, mode {mode}, room {room}, text {shown(text)}")
        for name, lines in ("oracle", expected), ("program", given):
            print(f"  {name}:")
            for line in lines:
                line = ascii(line.rstrip(b"\n"))[2:-1]
                print("    " + (line if len(line) <= 400 else line[:400] + " .."))


if __name__ == "__main__":
    main()
