#!/usr/bin/env python3
"""Tells whether each run with `--workers 1` prints the same.

    tools/same_runs.py [--runs N] [--seed N] [--workers N] PROGRAM

Each command line searches the blocks of examples/ and a random block, N times at once, three unless given. Of the random one a search ends
early by `--nodes`, but behind the first 2,048 splits, after which workers share. What all runs print and tell has to be the same to the
byte, and so has the status, 0 or 7. `--workers` with another number shows that the block can tell: runs by several workers differ. The last
line is 'N passed, M failed'.
"""
import argparse
import concurrent.futures
import glob
import os
import subprocess
import sys
from random import choice, randrange, seed

ROOT = os.path.dirname(os.path.dirname(os.path.abspath(__file__)))
LINES = """\
order --trace --nodes 4000
order --trace --nodes 4000 --dominate
order --trace --nodes 4000 --dominate-tree
order --trace --nodes 20 --deep
order --keep --columns --nodes 4000
prove --nodes 4000
prove --nodes 4000 --dominate-tree
prove --nodes 20 --deep
sum --nodes 4000
sum --nodes 20 --deep
page --nodes 4000
page --nodes 20 --deep
why --order --nodes 4000
json --order --nodes 4000
"""
KINDS = ["FX{0} X{1}*X{2}", "FX{0} X{1}+X{2}", "IX{0} X{1}-X{2}", "BX{0} X{1}*X{2}", "SX{0} X{1}+B{3}", "LX{0} {3}", "SA{3} A{4}+B{5}"]


def random_block(instructions):
    """A block of so many random instructions."""
    registers = ([randrange(8) for _ in range(3)] + [randrange(1, 6) for _ in range(3)] for _ in range(instructions))
    return "".join(f"          {choice(KINDS).format(*numbers)}\n" for numbers in registers)


def runs_of(program, words, source, count):
    """What each of several runs at once prints and tells, and its status."""
    with concurrent.futures.ThreadPoolExecutor(count) as pool:
        runs = [pool.submit(subprocess.run, [program, *words], input=source.encode(), capture_output=True) for _ in range(count)]
        done = [run.result() for run in runs]
    return [(run.stdout, run.stderr, run.returncode) for run in done]


def fault(program, words, source, count):
    """What is wrong with the runs of a command line, or nothing."""
    done = runs_of(program, words, source, count)
    if done[0][2] not in (0, 7) or not done[0][0]:
        return f"status {done[0][2]}, and {done[0][1].decode('latin-1').strip()}"
    return "" if len(set(done)) == 1 else f"{len(set(done))} of {count} runs differ"


def main():
    parser = argparse.ArgumentParser(usage=__doc__.split("\n\n")[1].strip())
    parser.add_argument("program")
    parser.add_argument("--runs", type=int, default=3)
    parser.add_argument("--seed", type=int, default=0)
    parser.add_argument("--workers", type=int, default=1)
    arguments = parser.parse_args()
    seed(arguments.seed)
    program, passed, failed = os.path.abspath(arguments.program), 0, 0
    decks = []
    for path in sorted(glob.glob(os.path.join(ROOT, "examples/*.compass"))):
        with open(path, encoding="utf-8") as deck:
            decks.append(deck.read())
    sources = {"examples": "".join(decks), "a random block": random_block(36)}
    for line in LINES.splitlines():
        for name, source in sources.items():
            wrong = fault(program, [*line.split(), "--workers", str(arguments.workers)], source, arguments.runs)
            passed, failed = passed + (not wrong), failed + bool(wrong)
            print(f"{line} on {name}: {wrong}\n" if wrong else "", end="")
    print(f"{passed} passed, {failed} failed")
    return 1 if failed else 0


if __name__ == "__main__":
    sys.exit(main())
