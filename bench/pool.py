#!/usr/bin/env python3
"""Measures how much faster several workers search a block than one, how long they wait, and what a worker costs.

    bench/pool.py [--rounds N] [PROGRAM]    splits a second of `s66 order`, by 1, 2 and 4 workers, and what they are measured by

PROGRAM is the built program; without it, the one that `./s66` leaves when it has built it. The blocks are random ones of 24,
of 40 and of 64 instructions, each of which uses up 1,000,000 splits, and that is checked in each run. All that a process does is counted,
from its start to its end.

The pace of a machine may change by a factor of two from one second to the next, as its clock does and what else runs on its
cores. So a round runs each search once, and what is printed of a search is a median over all rounds and blocks of its ratio to one
worker's in the same round; of seconds, the median too.

How much four workers can gain depends on the machine: four processors may be two cores with two threads each, or share a memory
that is too slow for four. So the same is printed of four processes at once, each a search by one worker. They share nothing, and wait
for nobody: four workers can hardly gain more.

What a worker costs beside a search without (the lock, the history, a thread) is measured with the crate s66_tools, which searches by
one worker and without; it is proved and built first where that is needed. Both search with fewer splits, in turns and on
one processor, so that they find the machine at one pace.

A worker that finds the ledger's lock taken looks for it for a while, and then asks the kernel to let other threads run; so does
one that finds no open node. The kernel returns at once unless it has other work, so waiting is no idle time but processor time, of
which two figures say how much it is. "In the kernel" is the kernel's time beyond that of one worker, which waits for nobody:
waiting is at least about that. "Beyond one worker's" is all processor time beyond that of one worker for as many splits, in which
are also the waiting outside of the kernel, and what it costs that processors share caches or a core: waiting is at most about
that. Both are shares of the processor time of the run.
"""
import argparse
import os
import random
import re
import resource
import subprocess
import time
from collections import namedtuple
from statistics import median

from search import block_of, build
from speed import ENDED, PROGRAM

BUDGET = 1_000_000
SEEDS = {24: [2, 5, 6], 40: [2, 3, 4], 64: [2, 3, 4]}  # of blocks that use up the budget
SHORT_BUDGET = 300_000  # of the searches that tell what a worker costs
PAIRS = 40  # of these searches, on each block

Search = namedtuple("Search", "words budget workers processes pattern")  # n processes at once; the pattern finds one's splits
Run = namedtuple("Run", "seconds user kernel")  # by the clock, and of processors


def order(program, workers, processes=1):
    """Processes of `s66 order` at once, each with n workers."""
    words = (program, "order", "--workers", str(workers), "--nodes", str(BUDGET), "--trace")
    return Search(words, BUDGET, workers, processes, rb"\* SPLITS (\d+)")


def bench(program, mode):
    """A process of s66_tools, with one worker or none."""
    return Search((program, mode, str(SHORT_BUDGET)), SHORT_BUDGET, 1, 1, rb"\d+ (\d+)")


def block_from(seed, length):
    """The source of a block."""
    return block_of(random.Random(seed), length).encode()


def searched(search, text):
    """One run of a search, of which each process uses up the budget."""
    before = resource.getrusage(resource.RUSAGE_CHILDREN)
    begun = time.perf_counter()
    started = [subprocess.Popen(search.words, stdin=subprocess.PIPE, stdout=subprocess.PIPE) for _ in range(search.processes)]
    for process in started:
        process.stdin.write(text)
        process.stdin.close()
    told = [process.stdout.read() for process in started]
    ended = [process.wait() for process in started]
    seconds = time.perf_counter() - begun
    after = resource.getrusage(resource.RUSAGE_CHILDREN)
    for status, output in zip(ended, told):
        if status not in ENDED or int(re.search(search.pattern, output)[1]) != search.budget:
            raise SystemExit("a search ended with %d, or took other splits: %s" % (status, " ".join(search.words)))
    return Run(seconds, after.ru_utime - before.ru_utime, after.ru_stime - before.ru_stime)


def rounds_of(searches, texts, count):
    """So many rounds on each block: a run of each search, forth in one round and back in the next."""
    rounds = []
    for text in texts:
        for n in range(count):
            turn = searches if n % 2 == 0 else searches[::-1]
            rounds.append({search: searched(search, text) for search in turn})
    return rounds


def gains(search, one, rounds):
    """How many times the splits of one worker the search did in the same time, in each round."""
    return [search.processes * run[one].seconds / run[search].seconds for run in rounds]


def tell(name, search, one, rounds):
    """A line on the runs of a search, beside those of one worker."""
    runs = [run[search] for run in rounds]
    rate = median(search.processes * search.budget / run.seconds for run in runs)
    print("%s %9s splits a second, %.2f of one worker's" % (name, format(round(rate), ","), median(gains(search, one, rounds))), end="")
    if search.workers == 1:
        print()
        return
    in_kernel = median((run[search].kernel - run[one].kernel) / (run[search].user + run[search].kernel) for run in rounds)
    beyond_one = median(1 - (run[one].user + run[one].kernel) / (run[search].user + run[search].kernel) for run in rounds)
    print("; of its time %.0f in 100 in the kernel, %.0f beyond one worker's" % (100 * in_kernel, 100 * beyond_one))


def measure(length, texts, program, count):
    """How several workers search the blocks, beside one."""
    named = {
        "1 worker:   ": order(program, 1),
        "2 workers:  ": order(program, 2),
        "4 workers:  ": order(program, 4),
        "4 processes:": order(program, 1, 4),
    }
    one, four, apart = order(program, 1), order(program, 4), order(program, 1, 4)
    rounds = rounds_of(list(named.values()), texts, count)
    for name, search in named.items():
        tell("%d instructions, %s" % (length, name), search, one, rounds)
    of_apart = median(run[apart].seconds / apart.processes / run[four].seconds for run in rounds)
    print("%d instructions, 4 workers do %.2f of what 4 processes do" % (length, of_apart))


def measure_cost(length, texts, benches):
    """What one worker takes beyond a search without."""
    allowed = os.sched_getaffinity(0)
    os.sched_setaffinity(0, {max(allowed)})
    worker, alone = bench(benches, "run"), bench(benches, "finish")
    rounds = rounds_of([worker, alone], texts, PAIRS)
    os.sched_setaffinity(0, allowed)
    beyond = median(run[worker].seconds / run[alone].seconds - 1 for run in rounds)
    print("%d instructions, 1 worker takes %.1f in 100 more time than a search without" % (length, 100 * beyond))


def main():
    parser = argparse.ArgumentParser(description="Measures how much faster several workers search than one.")
    parser.add_argument("--rounds", type=int, default=7, help="runs of each search on each block, 7 if left out")
    parser.add_argument("program", nargs="?", default=PROGRAM)
    asked = parser.parse_args()
    benches = build("s66_tools")
    for length, seeds in SEEDS.items():
        texts = [block_from(seed, length) for seed in seeds]
        measure(length, texts, asked.program, asked.rounds)
        measure_cost(length, texts, benches)


if __name__ == "__main__":
    main()
