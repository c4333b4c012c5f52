#!/usr/bin/env python3
"""Kills the queue example at random points and starts it again.

kill.py ROUNDS COMMAND..: COMMAND.. is the queue program as it is run here, without its words. In each round a folder of orders is made, and the program is killed
one to three times at random moments of its work. After each kill every text must be in exactly one folder, once, and each refused one must have its whole reason. Then two are
started at once: what the killed ones had locked is free, one of the two runs to its end, the other is turned away or finds nothing left, and the folders must be as after a run that nobody killed.
"""
import collections
import os
import random
import shutil
import subprocess
import sys
import tempfile
import time

ORDERS = 60
WORDS = ["--header", "plain", "strict"]

# Orders by turns: the text after a comment that makes it the only one of its kind.
TEXTS = [b"p cnf 2 1\n1 -2 0\n", b"1 0 2 0\n", b"", b"p cnf 1 1\n2 0\n", b"p cnf 0 0\n", b"p cnf 1 2000\n" + b"-1 0\n" * 2000, b"1 x 0\n"]


def write(path, content):
    with open(path, "wb") as file:
        file.write(content)


def name(n):
    """Every ninth name is as long as a name can be."""
    return f"order-{n:03}.cnf" if n % 9 != 8 else f"order-{n:03}-".ljust(255, "x")


def make(folder):
    """A folder of orders, with some names that are taken already and some files that are no orders."""
    os.makedirs(f"{folder}/accepted")
    os.makedirs(f"{folder}/refused")
    for n in range(ORDERS):
        write(f"{folder}/{name(n)}", b"c order %d\n" % n + TEXTS[n % len(TEXTS)])
    write(f"{folder}/accepted/order-000.cnf", b"c an earlier order\n")
    write(f"{folder}/refused/order-001.cnf", b"c an earlier order, refused\nx\n")
    write(f"{folder}/refused/order-001.cnf.reason", b"an earlier reason\n")
    write(f"{folder}/.late", b"c not whole yet\n")
    write(f"{folder}/note.reason", b"c no order\n")


def state(folder):
    """Each file below the folder, with its content."""
    found = {}
    for where, _, names in os.walk(folder):
        for name in names:
            path = os.path.join(where, name)
            with open(path, "rb") as file:
                found[os.path.relpath(path, folder)] = file.read()
    return found


def is_text(path):
    name = os.path.basename(path)
    return not name.startswith(".") and not name.endswith(".reason")


def texts(files):
    return collections.Counter(content for path, content in files.items() if is_text(path))


def run(command, folder, told=None):
    return subprocess.Popen([*command, *WORDS, folder], stdout=subprocess.DEVNULL, stderr=told)


def expect(holds, what, folder):
    if not holds:
        sys.exit(f"kill: {what}: {sorted(state(folder))}")


def kill(command, folder, after, before, wanted, seen):
    """Starts the program, kills it, and looks at what it left. Answers whether it was still at work."""
    queue = run(command, folder)
    time.sleep(after)
    if queue.poll() is not None:
        return False
    queue.kill()
    queue.wait()
    files = state(folder)
    expect(texts(files) == before, "a text was lost or is there twice", folder)
    for path in files:
        if path.startswith("refused" + os.sep) and is_text(path):
            expect(files.get(f"{path}.reason") == wanted[f"{path}.reason"], f"{path} has not its reason", folder)
    left = sum(os.sep not in path and is_text(path) for path in files)
    seen["kills:"] += 1
    seen["with some orders moved and some not:"] += 0 < left < ORDERS
    seen["with an unfinished reason:"] += any(path.endswith(".part") for path in files)
    seen["with a reason before its order:"] += any(os.sep in path and path.endswith(".reason") and path[: -len(".reason")] not in files for path in files)
    return True


def main():
    rounds, command = int(sys.argv[1]), sys.argv[2:]
    seed = int(os.environ.get("SEED", random.randrange(2**32)))
    print(f"kill: seed {seed}")
    dice = random.Random(seed)
    seen = collections.Counter()
    with tempfile.TemporaryDirectory() as top:
        calm = f"{top}/calm"
        make(calm)
        before = texts(state(calm))
        start = time.monotonic()
        expect(run(command, calm).wait() == 0, "the run that nobody killed failed", calm)
        whole = time.monotonic() - start
        wanted = state(calm)
        expect(texts(wanted) == before, "the run that nobody killed lost a text", calm)
        expect(sum(map(is_text, wanted)) == len(before), "a text is there twice", calm)
        expect(not any(os.sep not in path and is_text(path) for path in wanted), "an order stayed", calm)

        done = 0
        while done < rounds:
            folder = f"{top}/killed"
            make(folder)
            killed = 0
            for _ in range(dice.randint(1, 3)):
                killed += kill(command, folder, dice.uniform(0, whole), before, wanted, seen)
            statuses = sorted(queue.wait() for queue in [run(command, folder, subprocess.DEVNULL), run(command, folder, subprocess.DEVNULL)])
            expect(statuses in ([0, 0], [0, 2]), f"of two at once, the statuses are {statuses}", folder)
            seen["one of two at once turned away:"] += statuses == [0, 2]
            expect(state(folder) == wanted, "the folders are not as after a run that nobody killed", folder)
            shutil.rmtree(folder)
            done += killed > 0
    print(f"kill: {rounds} rounds of {ORDERS} orders, all as they must be; " + ", ".join(f"{what} {count}" for what, count in seen.items()))


main()
