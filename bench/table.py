#!/usr/bin/env python3
"""Makes tables of what bench/run measured: table.py TIMES COUNTS.

A line of TIMES is LAYOUT TEXT BYTES LATCHTWIG RUST TUNED TOUCH, nanoseconds; of COUNTS, MACHINE TEXT BYTES LATCHTWIG RUST TUNED, instructions."""
import re
import sys
from statistics import median

NAMES = {
    "plain-3": "plain, 1,000,000 clauses of 3",
    "plain-100": "plain, 1,000,000 clauses of 100",
    "weighted-3": "weighted, 1,000,000 clauses of 3",
    "weighted-100": "weighted, 200,000 clauses of 100",
    "grouped-3": "grouped, 1,000,000 clauses of 3",
    "grouped-100": "grouped, 200,000 clauses of 100",
    "weighted2022-3": "2022 form, 1,000,000 clauses of 3",
    "weighted2022-100": "2022 form, 200,000 clauses of 100",
    "grows-1": "plain, clauses of 3, 1 MB",
    "grows-10": "plain, clauses of 3, 10 MB",
    "grows-100": "plain, clauses of 3, 100 MB",
}


def rows(path):
    """The lines of a file by their text, each as its first word, its bytes and the numbers after them."""
    found = {}
    with open(path) as lines:
        for line in lines:
            key, text, *numbers = line.split()
            found.setdefault(text, []).append((key, *map(int, numbers)))
    return found


def table(head, body):
    print("| " + " | ".join(head) + " |")
    print("|---" * len(head) + "|")
    for cells in body:
        print("| " + " | ".join(cells) + " |")
    print()


def timed(found):
    for text, measured in found.items():
        size = measured[0][1]
        ratios = sorted(ours / theirs for _, _, ours, theirs, *_ in measured)
        yield (
            NAMES[text],
            f"{size / 1e6:.1f} MB",
            *(f"{median(numbers) / size:.2f}" for numbers in list(zip(*measured))[2:]),
            f"**{median(ratios):.2f}**",
            f"{ratios[0]:.2f} to {ratios[-1]:.2f}",
            f"{median(ours / tuned for _, _, ours, _, tuned, _ in measured):.2f}",
        )


def counted(found):
    for text, measured in found.items():
        for machine, size, ours, theirs, tuned in measured:
            yield (
                re.sub(r"[0-9][0-9,]* clauses", "clauses", NAMES[text]),
                machine.replace("_", "-"),
                f"{size / 1e6:.2f} MB",
                *(f"{number / size:.2f}" for number in (ours, theirs, tuned)),
                f"**{ours / theirs:.2f}**",
                f"{ours / tuned:.2f}",
            )


times, counts = map(rows, sys.argv[1:])
layouts = len(next(iter(times.values())))
print(f"Time: nanoseconds for each byte, the median of eleven runs, then over {layouts} link layouts\n")
table(["text", "size", "Latchtwig", "Rust", "tuned", "touched", "to Rust", "over the layouts", "to tuned"], timed(times))
print("Instructions for each byte, of texts of the same kind with fewer clauses\n")
table(["text", "machine", "size", "Latchtwig", "Rust", "tuned", "to Rust", "to tuned"], counted(counts))
