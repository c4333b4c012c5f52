#!/usr/bin/env python3
"""Runs real solvers on formulas and reads what they print.

Usage: solvers.py [FORMULA...]

Each solver that is installed (cadical, picosat, cryptominisat5), as it comes and made to tell more, is given the formulas named and those of examples/, as far as they are read to
their end, pigeonholes, and random ones from a fixed seed. The formula is read by Latchtwig's plain reader and handed on with one clause to a
line, since cryptominisat5 takes no other; what the solver prints is read by the log reader. Both are the program `reader_cases`. Each time it is checked that

- the verdict is the one that the solver's exit status tells (10 yes, 20 no), else unknown if a line `s UNKNOWN` stands, else none;
- the literals are those of its `v` lines, as Python finds them;
- where the verdict is yes, every clause has a listed literal.

Each solver is also made to give up on a pigeonhole, and killed over a larger one. Of such a log it is checked, strictly and leniently, that it is unknown if its first line that begins with
`s ` is `s UNKNOWN`, none if no line begins so, and else refused with 17.

The lenient mode reads the log as it is. Where the strict mode refuses a line, the line is recorded, taken out, and the log read again. At the
end the refused lines are told, each with the command that prints it. The exit status is 1 if any check fails, and 2 if no solver is installed.
"""

import pathlib
import random
import shutil
import subprocess
import sys

import frames

ROOT = pathlib.Path(__file__).resolve().parent.parent
COMMANDS = [["cadical"], ["cadical", "-v"], ["picosat"], ["picosat", "-v"], ["cryptominisat5"], ["cryptominisat5", "--verb", "3"]]
STATUS = {10: "yes", 20: "no"}
GIVING_UP = [["cadical", "-c", "1"], ["picosat", "-l", "1"], ["cryptominisat5", "--maxconfl", "1"]]
KILLED = [["cadical"], ["picosat"], ["cryptominisat5"]]
PLAIN, LOG = 0, 3
STRICT, LENIENT = 0, 1
ROOM = 4096


def answers(*cases):
    """What `reader_cases` says of each (format, mode, text), line by line."""
    given = b"".join(frames.case(format, mode, ROOM, text) for format, mode, text in cases)
    said = subprocess.run([ROOT / "run", "reader_cases"], input=given, stdout=subprocess.PIPE, check=True).stdout.decode()
    return [case.splitlines()[1:] for case in said.split("case ")[1:]]


def pigeonhole(holes):
    """One pigeon more than holes."""
    at = lambda pigeon, hole: pigeon * holes + hole + 1
    clauses = [[at(p, h) for h in range(holes)] for p in range(holes + 1)]
    clauses += [[-at(p, h), -at(q, h)] for h in range(holes) for q in range(holes + 1) for p in range(q)]
    return (holes + 1) * holes, clauses


def three_literals(chance, variables, clauses):
    pick = lambda: [v if chance.random() < 0.5 else -v for v in chance.sample(range(1, variables + 1), 3)]
    return variables, [pick() for _ in range(clauses)]


def text(variables, clauses):
    lines = [f"p cnf {variables} {len(clauses)}"] + [" ".join(map(str, clause + [0])) for clause in clauses]
    return ("\n".join(lines) + "\n").encode()


def formulas(files):
    for file in sorted((ROOT / "examples").glob("*.cnf")) + [pathlib.Path(file) for file in files]:
        yield file.name, file.read_bytes()
    for holes in range(2, 7):
        yield f"pigeonhole {holes}", text(*pigeonhole(holes))
    chance = random.Random(1)
    for number in range(24):
        yield f"random {number}", text(*three_literals(chance, 20 + 5 * number, int((20 + 5 * number) * (3.6 + number % 4 * 0.4))))


def without(log, place):
    """The log without the line at a place, and the line."""
    start = log.rfind(b"\n", 0, place) + 1
    line = log[start:].split(b"\n", 1)[0]
    return log[:start] + log[start + len(line) + 1 :], line.decode(errors="replace")


def strictly(logs):
    """What the strict mode says of each log once the lines that it refuses are taken out, and those lines with the refusal's number."""
    said = [None] * len(logs)
    lines = [[] for _ in logs]
    left = dict(enumerate(logs))
    while left:
        for number, answer in zip(list(left), answers(*((LOG, STRICT, log) for log in left.values()))):
            if answer[0].startswith("refused"):
                _, why, place, *_ = answer[0].split()
                left[number], line = without(left[number], int(place))
                lines[number].append((why, line))
            else:
                said[number] = answer
                del left[number]
    return said, lines


def problems(run, clauses, lenient, strict):
    """What is wrong with the answers to a solver's run."""
    told = [int(word) for line in run.stdout.splitlines() if line.startswith(b"v ") for word in line.split()[1:]]
    literals = [literal for literal in told if literal != 0]
    otherwise = "unknown" if b"s UNKNOWN" in run.stdout.splitlines() else "none"
    expected = [f"verdict {STATUS.get(run.returncode, otherwise)}", " ".join(["literals", *map(str, literals)])]
    if lenient != expected:
        yield "the lenient mode reads another answer"
    if strict != expected:
        yield "the strict mode reads another answer"
    if run.returncode == 10 and not all(set(clause) & set(literals) for clause in clauses):
        yield "a clause has no listed literal"


def installed(commands):
    return [command for command in commands if shutil.which(command[0])]


def killed(command, given):
    """What a solver has printed when it is killed after a second."""
    try:
        return subprocess.run(command, input=given, capture_output=True, timeout=1).stdout
    except subprocess.TimeoutExpired as late:
        return late.stdout or b""


def undecided():
    """Tells what each solver's log says if the solver gives up or is killed, and answers how many of them are read otherwise."""
    logs = [(" ".join(command), subprocess.run(command, input=text(*pigeonhole(6)), capture_output=True).stdout) for command in installed(GIVING_UP)]
    logs += [(f"{command[0]}, killed", killed(command, text(*pigeonhole(11)))) for command in installed(KILLED)]
    said = answers(*((LOG, mode, log) for _, log in logs for mode in (STRICT, LENIENT)))
    wrong = 0
    for (name, log), *both in zip(logs, said[::2], said[1::2]):
        solution = next((line for line in log.splitlines() if line.startswith(b"s ")), None)
        expected = {None: "verdict none", b"s UNKNOWN": "verdict unknown"}.get(solution, "refused 17")
        if not all(answer[0].startswith(expected) for answer in both):
            wrong += 1
            expected += ", AND IS READ OTHERWISE"
        print(f"  {name}: {expected}")
    return wrong


def main():
    commands = installed(COMMANDS)
    if not commands:
        print("no solver found:", ", ".join(dict.fromkeys(command[0] for command in COMMANDS)))
        sys.exit(2)
    tried = list(formulas(sys.argv[1:]))
    read = []
    for (name, _), formula in zip(tried, answers(*((PLAIN, STRICT, given) for _, given in tried))):
        if formula[-1] == "end":
            read.append((name, [list(map(int, line.split()[1:])) for line in formula if line.startswith("clause")]))
    runs = []
    for name, clauses in read:
        written = text(max((abs(literal) for clause in clauses for literal in clause), default=0), clauses)
        for command in commands:
            runs.append((name, clauses, " ".join(command), subprocess.run(command, input=written, capture_output=True)))
    lenient = answers(*((LOG, LENIENT, run.stdout) for *_, run in runs))
    strict, lines = strictly([run.stdout for *_, run in runs])

    wrong = 0
    counts = {}
    refused = {}
    for (name, clauses, command, run), by_lenient, by_strict, taken_out in zip(runs, lenient, strict, lines):
        for problem in problems(run, clauses, by_lenient, by_strict):
            wrong += 1
            print(f"{name}, {command}: {problem}")
        key = command, by_strict[0]
        counts[key] = counts.get(key, 0) + 1
        for why, line in taken_out:
            refused.setdefault((command, why, line), []).append(name)
    print(f"{len(read)} formulas, {len(runs)} logs, {wrong} wrong")
    for (command, verdict), count in sorted(counts.items()):
        print(f"  {command}: {count} times {verdict}")
    print(f"{len(refused)} lines that the strict mode refuses:")
    for (command, why, line), names in sorted(refused.items()):
        print(f"  {command}: refusal {why}, {line!r}, on {len(set(names))} formulas")
    print("Solvers that gave up, or were killed:")
    wrong += undecided()
    sys.exit(1 if wrong else 0)


if __name__ == "__main__":
    main()
