#!/usr/bin/env python3
"""Shows that the vectors can fail: each wrong reader and writer of the must-fail edits answers them, unproved.

Usage: slips.py [CRATE | CRATE/EDIT]...

For each edit named, or of the code of the named crates (those of the readers and of the writer by default), a copy of the
crates is edited, the program `reader_cases`, or `writer_cases` for the writer, is run from it by `rt try`, without proof, on the
vectors, and the first case that it answers otherwise than the oracle is printed. Edits that no case shows are printed
as such.
"""

import os
import pathlib
import re
import shutil
import subprocess
import sys
import tempfile

import calls

ROOT = pathlib.Path(__file__).resolve().parent.parent
sys.path.append(str(ROOT / "tools"))
import frames

CRATES = ["token", "numeral", "header", "rows", "clause", "formula", "log_line", "sat_solver_log", "decimals", "measures", "writer", "by_number"]


# What `rt try` says by its status where it gives no answer of the program's.
UNJUDGED = {1: "the compiler refuses it", 2: "rt stopped", 3: "rt came to a limit", 6: "the machine is too slow for rt's time limit"}


def edited(crate, edit):
    """Applies an edit to a crate; None if it is not of the code alone."""
    file = old = None
    for line in edit.read_text().splitlines():
        if line.startswith("file: "):
            file = line[6:]
            if not file.startswith("src/"):
                return None
        elif line.startswith("old: "):
            old = line[5:]
        elif line.startswith("new: "):
            path = crate / file
            text = path.read_text()
            assert text.count(old) == 1, edit
            path.write_text(text.replace(old, line[5:]))
    return file


def texts(path):
    for format, mode, room, text in frames.cases(path):
        yield f"format {format}, mode {mode}, room {room}, {text!r}"


def main():
    caught = missed = unjudged = 0
    for wanted in sys.argv[1:] or CRATES:
        name, _, only = wanted.partition("/")
        program, shown = ("writer_cases", calls.shown) if name in ("decimals", "measures", "writer", "by_number") else ("reader_cases", texts)
        cases = list(shown(ROOT / "crates" / program / "stdin"))
        expected = (ROOT / "crates" / program / "stdout").read_bytes()
        for edit in sorted((ROOT / "crates" / name / "must-fail").glob(f"{only or '*'}.edit")):
            with tempfile.TemporaryDirectory() as work:
                work = pathlib.Path(work)
                shutil.copytree(ROOT / "crates", work / "crates", ignore=shutil.ignore_patterns("out"))
                shutil.copy(ROOT / "crates.txt", work)
                if edited(work / "crates" / name, edit) is None:
                    continue
                with (ROOT / "crates" / program / "stdin").open("rb") as given:
                    ran = subprocess.run(["rt", "try"], cwd=work / "crates" / program, stdin=given, capture_output=True)
            what = edit.read_text().splitlines()[0].lstrip("# ")
            if ran.returncode in UNJUDGED:
                unjudged += 1
                print(f"{name}/{edit.stem}: {what}: NOT JUDGED, {UNJUDGED[ran.returncode]}")
            elif ran.returncode != 0:
                caught += 1
                print(f"{name}/{edit.stem}: {what}: it does not end as it should")
            elif ran.stdout != expected:
                caught += 1
                same = len(os.path.commonprefix([ran.stdout, expected]))
                number = int(re.findall(rb"^case (\d+)$", expected[: expected.find(b"\n", same) + 1 or None], re.M)[-1])
                print(f"{name}/{edit.stem}: {what}: case {number}, {cases[number]}")
            else:
                missed += 1
                print(f"{name}/{edit.stem}: {what}: NOT SEEN")
            sys.stdout.flush()
    print(f"{caught} slips caught, {missed} not seen, {unjudged} not judged")


if __name__ == "__main__":
    main()
