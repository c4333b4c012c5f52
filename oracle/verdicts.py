#!/usr/bin/env python3
"""Tells `none` from `unknown` in a transcript of the oracle, since the crate has one value for both.

Usage: verdicts.py FRAMES <TRANSCRIPT

Prints the transcript, with `verdict none` for `verdict unknown` where no line of the log begins with `s `. That tells: lines begin after LF alone, and of an accepted log
the first that begins so is its solution line.
"""

import pathlib
import re
import sys

sys.path.append(str(pathlib.Path(__file__).resolve().parent.parent / "tools"))
import frames

UNKNOWN, NONE = b"verdict unknown\n", b"verdict none\n"


def apart(text, answer):
    """The answer to a text, with `none` for `unknown` where no line begins with `s `."""
    return answer if UNKNOWN not in answer or re.search(rb"^s ", text, re.M) else answer.replace(UNKNOWN, NONE)


def main():
    if len(sys.argv) != 2:
        sys.exit(__doc__)
    cases = zip(frames.cases(sys.argv[1]), frames.answers("/dev/stdin"), strict=True)
    for number, ((*_, text), lines) in enumerate(cases):
        sys.stdout.buffer.write(b"case %d\n" % number + apart(text, b"".join(lines)))


if __name__ == "__main__":
    main()
