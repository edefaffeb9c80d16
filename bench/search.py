#!/usr/bin/env python3
"""Measures the clock that a search pushes and undoes, the tree that the search walks, and the search itself.

    bench/search.py [--budget SPLITS]         machine instructions a push, an undo, a new clock and a split
    bench/search.py [--budget SPLITS] order   machine instructions a split of `s66 order` by one worker, all that ends a search
                                              included, and the seconds of a source of 1,000 blocks of 4 to 20 instructions by
                                              one worker and by four

The program is the crate s66_tools, and for `order` s66_main, which is proved and built first where that is needed.
Instructions are those of valgrind's callgrind, and what is the same in two runs is taken off by their difference. The blocks
are random and of all sorts; a fixed seed makes them.
"""
import argparse
import os
import random
import re
import subprocess
import time

from speed import ALL, TOP, instructions

BUILD = 'root=$1; . "$root/tools/build.sh"; is_current "$2" || { make_room && build "$2"; }'
LENGTHS = [24, 40, 64]
BLOCKS = 4
ROUNDS = 50


def build(name):
    """The program of a crate, proved and built as ./s66 does it."""
    if subprocess.run(["sh", "-c", BUILD, "bench", TOP, name], stdin=subprocess.DEVNULL).returncode != 0:
        raise SystemExit(1)
    return os.path.join(TOP, "built", name)


def block_of(rng, length):
    """The lines of a random block."""
    lines = [rng.choice(ALL).format(**{name: rng.randrange(8) for name in "ijk"}) for _ in range(length)]
    return "".join("          %s\n" % line for line in lines)


def blocks_of(length):
    """Sources of one random block each."""
    rng = random.Random(6600)
    for _ in range(BLOCKS):
        yield block_of(rng, length).encode()


def mixed_source():
    """A source of 1,000 random blocks of 4 to 20 instructions."""
    rng = random.Random(6600)
    return "".join("L%d        BSS 0\n%s" % (n, block_of(rng, rng.randint(4, 20))) for n in range(1000)).encode()


def splits_of(words, text):
    """How many splits the search of a source of one block takes."""
    told = subprocess.run(words, input=text, capture_output=True)
    return int(re.search(rb"\* SPLITS (\d+)", told.stdout)[1])


def tell_order(program, length, texts, budget):
    splits = ran = 0
    for text in texts:
        words = [program, "order", "--workers", "1", "--trace", "--nodes"]
        splits += splits_of(words + [str(budget)], text) - splits_of(words + ["1"], text)
        ran += instructions(words + [str(budget)], text) - instructions(words + ["1"], text)
    print("%d instructions: %.0f a split of a search, %d splits" % (length, ran / splits, splits))


def tell_mixed(program, workers):
    text = mixed_source()
    begun = time.perf_counter()
    subprocess.run([program, "order", "--workers", str(workers)], input=text, capture_output=True)
    print("1,000 blocks of 4 to 20 instructions, --workers %d: %.1f seconds" % (workers, time.perf_counter() - begun))


def added(program, mode, text, rounds):
    """The instructions of a number of rounds after a first that isn't counted."""
    first = instructions([program, mode, "1"], text)
    return instructions([program, mode, str(1 + rounds)], text) - first


def tell_steps(program, length, texts):
    new = push = both = 0
    for text in texts:
        new += added(program, "new", text, ROUNDS)
        push += added(program, "push", text, ROUNDS)
        both += added(program, "both", text, ROUNDS)
    clocks = BLOCKS * ROUNDS
    a_push = (push - new) / (clocks * (length - 1))
    an_undo = both / (clocks * length) - a_push
    print("%d instructions: a new clock %.0f, a push %.0f, an undo %.0f" % (length, new / clocks - a_push, a_push, an_undo))


def tell_tree(program, length, texts, budget):
    splits = pushes = ran = 0
    for text in texts:
        start = instructions([program, "tree", "1"], text)
        ran += instructions([program, "tree", str(budget)], text) - start
        told = subprocess.run([program, "tree", str(budget)], input=text, capture_output=True, check=True)
        counted = [int(word) for word in told.stdout.split()]
        splits += counted[1]
        pushes += counted[2]
    print("%d instructions: %.0f a split, %.2f pushes a split, %d splits" % (length, ran / splits, pushes / splits, splits))


def main():
    parser = argparse.ArgumentParser(description="Measures the clock of a search and its tree.")
    parser.add_argument("--budget", type=int, default=10_000, help="the splits of a tree, and the most of a block that `order` searches, 10,000 if left out")
    parser.add_argument("what", nargs="?", choices=["order"], help="the search itself, and nothing of its parts")
    asked = parser.parse_args()
    if asked.what == "order":
        program = build("s66_main")
        for length in LENGTHS:
            tell_order(program, length, list(blocks_of(length)), asked.budget)
        for workers in (1, 4):
            tell_mixed(program, workers)
        return
    program = build("s66_tools")
    for length in LENGTHS:
        texts = list(blocks_of(length))
        tell_steps(program, length, texts)
        tell_tree(program, length, texts, asked.budget)


if __name__ == "__main__":
    main()
