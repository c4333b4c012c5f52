#!/usr/bin/env python3
"""Brings this repository's own definitions and lemmas to the spelling of today's Rattle: tools/respell.py, once, after port.py.

Functions, lemmas, fields and constructors that begin with a small letter are in snake case. A dash stays where it joins the names of two functions, as in `length-drop`. Types, modules, functions of src/, exported names and strings keep their names.
What is renamed: what a file of specs/ or proofs/ declares, wherever that stands in files .antt, in clauses of files .rt, in the texts of must-fail edits, and between backquotes in comments and pages.
It prints each new name, and stops where two names fall together.
"""
import collections
import os
import re
import sys

ROOT = os.path.join(os.path.dirname(os.path.abspath(__file__)), "..")
NAME = r"[^\W\d][\w'₀-₉]*(?:-[\w'₀-₉]+)*"
TOKEN = re.compile(rf"(?<![\w'\-+·]){NAME}(?![\w'])")
DECLARED = re.compile(r"((?:(?:abbrev|unfoldable|pub) )*)([^\s→(λ{=∷×]+(?: [^\s→(λ{=∷×]+)*) :(?: |$)(.*)")
# Functions of the library by which lemmas are named.
LIBRARY = set("append concat cons drop flat_map get_or length map mod reverse set sets snoc take div mul add sub abs".split())
# Lemmas that would have their function's name, each with the files where it stands for the lemma.
LEMMAS = {
    "is-blank": ("is_blank_lem", ""),
    "is_digit": ("is_digit_lem", ""),
    "is-not-LF": ("is_not_lf_lem", ""),
    "log-of": ("log_of_lem", ""),
    "log-told": ("log_told_lem", ""),
    "one_more": ("one_more_lem", "read_back/proofs/Texts.antt"),
    "opened-by": ("opened_by_lem", ""),
    "field-of": ("field_of_lem", ""),
    "in_order": ("in_order_lem", "dimacs/proofs/Order.antt"),
    "line-ends": ("line_ends_lem", ""),
    "next-line": ("next_line_lem", ""),
    "log-by": ("log_by_lem", ""),
    "other-line": ("other_line_lem", ""),
    "solution-line": ("solution_line_lem", ""),
    "value_line": ("value_line_lem", "sat_solver_log/proofs/"),
    "turn_by": ("turn_by_lem", "read_back/proofs/Texts.antt"),
    "byValue": ("passed_by_value", ""),
}
PAGES = ["README.md", "CONTRIBUTING.md", "host/README.md", "oracle/README.md"]


def files(*ends):
    for folder, dirs, names in os.walk(os.path.join(ROOT, "crates")):
        dirs[:] = sorted(d for d in dirs if d not in ("out", "data"))
        for n in sorted(names):
            if n.endswith(ends):
                yield os.path.join(folder, n)


def read(path):
    with open(path, encoding="utf-8") as f:
        return f.read()


def declared(path):
    """The names that a file declares: (kind, name), a kind being function, lemma, type, field or answer."""
    inside = None
    of_function = os.path.basename(path) in ("Proof.antt", "Answers.antt", "Invariants.antt")
    for line in read(path).splitlines():
        if not line.strip() or line.lstrip().startswith("--"):
            continue
        at = len(line) - len(line.lstrip())
        m = re.match(r"\s*(?:(?:abbrev|unfoldable|pub) )*(data|record) (\S+)", line)
        if m:
            inside = at
            yield "type", m[2]
            continue
        if inside is not None and at <= inside:
            inside = None
        m = DECLARED.match(line.strip())
        if not m or re.match(r"(use|module|let|elim|open|in) ", line.strip()):
            continue
        for n in m[2].split():
            if inside is not None:
                yield "field", n
            else:
                made = of_function and (re.search(r"(tie|goal)\.(Need-|invariant|decreases)|statement M$", m[3]) or "tie." in m[3] or n.endswith("-spec"))
                yield ("answer" if made else "function" if "abbrev" in m[1] or "/specs/" in path else "lemma"), n


def snake(word):
    return re.sub(r"(?<=[a-z0-9'])[A-Z]+", lambda m: "_" + m[0].lower(), word)


def spelled(name, functions):
    if not name[:1].islower():
        return name
    parts = [snake(p) for p in name.split("-")]
    joined = len(parts) == 2 and set(parts) <= functions and set(parts) & LIBRARY
    return ("-" if joined else "_").join(parts).lower()


def main():
    kinds = collections.defaultdict(set)
    for p in files(".antt"):
        if "/must-fail/" in p:
            continue
        for kind, n in declared(p):
            kinds[n].add(kind)
    functions = LIBRARY | {snake(n) for n, k in kinds.items() if "function" in k and "-" not in n}
    foreign = set()
    for p in files(".antt", ".rt"):
        for m in re.finditer(r"use (\S+?)\.\{([^}]*)\}", read(p)):
            own = re.match(r"Rattle\.(\w+)\.", m[1])
            if not (own and os.path.isdir(os.path.join(ROOT, "crates", own[1]))):
                foreign |= {n.strip().split(" as ")[0] for n in m[2].split(",")}
    names = {}
    for n, k in kinds.items():
        new = spelled(n, functions)
        if n in LEMMAS:
            continue
        if new != n and k != {"answer"} and "type" not in k and n not in foreign:
            names[n] = new
    names["calls-from"] = "calls_from"
    names |= {n: new for n, (new, place) in LEMMAS.items() if not place and n in kinds}
    placed = {new for new, place in LEMMAS.values() if place}
    clash = collections.defaultdict(list)
    for old, new in names.items():
        clash[new].append(old)
    wrong = 0
    for new, olds in sorted(clash.items()):
        others = [n for n in (new,) if (n in kinds or n in foreign) and n not in LEMMAS and n not in placed and olds != ["calls-from"] and set(olds) != {"settled-by", "settledBy"}]
        if len(olds) > 1 and set(olds) != {"settled-by", "settledBy"} or others:
            print("falls together:", new, "of", ", ".join(olds), "and" if others else "", *[f"{o} ({', '.join(sorted(kinds[o])) or 'library'})" for o in others])
            wrong += 1
    for old in sorted(names):
        print(old, names[old])
    if wrong and "--anyway" not in sys.argv:
        print(wrong, "names fall together", file=sys.stderr)
        return 1
    if "--dry" in sys.argv:
        return 0

    def turned(text):
        return TOKEN.sub(lambda m: names.get(m[0], m[0]), text)

    now = {names.get(n, n) for n in kinds} | placed
    edits = {os.path.basename(p)[:-5] for p in files(".edit")}

    def paged(name):
        """A name between backquotes, which port.py may have respelled in the files alone."""
        new = names.get(name) or spelled(name, functions)
        return new if new in now and name not in edits and name not in now else name

    def quoted(text):
        return re.sub(r"`[^`\n]*`", lambda m: TOKEN.sub(lambda t: paged(t[0]), m[0]), text)

    def code(line, mark):
        """A line up to its comment, strings apart, and the comment's quoted names."""
        parts = re.split(r'("(?:[^"\\]|\\.)*")', line)
        for i, part in enumerate(parts):
            if i % 2:
                continue
            at = part.find(mark) if mark == "//" else (0 if part.startswith("--") and i == 0 else part.find(" -- "))
            if at >= 0:
                return "".join(parts[:i]) + turned(part[:at]) + quoted(part[at:] + "".join(parts[i + 1 :]))
            parts[i] = turned(part)
        return "".join(parts)

    for p in files(".antt", ".rt", ".edit"):
        text = read(p)
        mark = "--" if p.endswith(".antt") else "//"
        new = "\n".join(code(l, mark) for l in text.split("\n"))
        for n, (other, place) in LEMMAS.items():
            if place and place in p:
                new = re.sub(rf"(?<![\w'.-]){n}(?![\w'-])", other, new)
        if new != text:
            with open(p, "w", encoding="utf-8") as f:
                f.write(new)
    docs = os.path.join(ROOT, "docs")
    for p in [os.path.join(ROOT, p) for p in PAGES] + [os.path.join(docs, n) for n in sorted(os.listdir(docs)) if n.endswith(".md")]:
        text = read(p)
        new = quoted(text)
        if new != text:
            with open(p, "w", encoding="utf-8") as f:
                f.write(new)
    return 0


if __name__ == "__main__":
    raise SystemExit(main())
