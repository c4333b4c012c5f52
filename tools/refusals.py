"""The refusals of host/refusals.txt: the number of each name, and the words of each number."""

import pathlib

NUMBERS, WORDS = {}, {}
for row in (pathlib.Path(__file__).resolve().parent.parent / "host" / "refusals.txt").read_text().splitlines():
    if row and not row.startswith("#"):
        number, name, _, words = row.split(maxsplit=3)
        NUMBERS[name] = int(number)
        WORDS[int(number)] = words
