#!/usr/bin/env python3
"""Measures what searches of three kinds decide: without an option, with --dominate-tree, and with --deep.

    bench/deep.py [--nodes SPLITS] [--jobs N] [--table FILE] [--only NAME] [PROGRAM]
                                     300 blocks of thirteen families, and under six profiles
    bench/deep.py --random [..]      12 random blocks of all sorts of each length and seed

PROGRAM is the built program; without it, the one that `./s66` leaves when it has built it. One worker searches each block.
For each family or length: how many blocks are proved best, by how much the times are above the best known to any of the
three and the bounds below them, summed, the splits, and the seconds of the processor. A FILE gets a row for each block.
The blocks are the same each time: each has a seed of its name.
"""
import argparse
import concurrent.futures
import os
import random
import re
import subprocess
import tempfile

from search import block_of
from speed import PROGRAM

MODES = {"default": [], "--dominate-tree": ["--dominate-tree"], "--deep": ["--deep"]}
HEAD = re.compile(r"^\* BLOCK \d+ COUNT \d+ SOURCE \d+ TIME (\d+) (?:BEST|AT LEAST (\d+))\n\* SPLITS (\d+)", re.M)

OPERATIONS = ["FX{i} X{j}+X{k}", "FX{i} X{j}*X{k}", "IX{i} X{j}+X{k}", "BX{i} X{j}*X{k}", "DX{i} X{j}-X{k}", "LX{i} B{b},X{j}"]
UNITS = {
    "boolean": ["BX{i} X{j}*X{k}", "BX{i} -X{j}", "BX{i} X{j}+X{k}"],
    "shift": ["LX{i} B{b},X{j}", "AX{i} B{b},X{j}", "NX{i} B0,X{j}", "MX{i} 20"],
    "add": ["FX{i} X{j}+X{k}", "DX{i} X{j}-X{k}", "RX{i} X{j}+X{k}"],
    "longadd": ["IX{i} X{j}+X{k}", "IX{i} X{j}-X{k}"],
    "multiply": ["FX{i} X{j}*X{k}", "DX{i} X{j}*X{k}", "RX{i} X{j}*X{k}"],
    "divide": ["FX{i} X{j}/X{k}", "CX{i} X{j}"],
    "increment": ["SX{i} B{b}+1", "SB{b} X{j}+B{b}", "SX{i} X{j}+B{b}"],
}


def filled(rng, text):
    """An instruction with random registers; values are in X0 to X7, indices in B1 to B7."""
    return text.format(i=rng.randrange(8), j=rng.randrange(8), k=rng.randrange(8), b=rng.randint(1, 7))


def any_of(rng, length, texts):
    return [filled(rng, rng.choice(texts)) for _ in range(length)]


def chain(rng, length):
    """One or two values, each from the last."""
    lines = []
    for n in range(length):
        value = 6 + rng.randrange(2)
        lines.append(rng.choice(OPERATIONS).format(i=value, j=value, k=rng.randrange(5), b=rng.randint(1, 7)))
    return lines


def div(rng, length):
    """A third or so divides."""
    return any_of(rng, length, OPERATIONS + ["FX{i} X{j}/X{k}", "RX{i} X{j}/X{k}", "CX{i} X{j}"])


def empty(rng, length):
    """Nearly independent: what is read is never written, results are in few registers."""
    texts = ["SX{i} B1+B2", "SX{i} B3+5", "FX{i} X0*X1", "RX{i} X1*X0", "IX{i} X0+X1", "FX{i} X0-X1", "BX{i} X0*X1"]
    return [rng.choice(texts).format(i=rng.randint(2, 7)) for _ in range(length)]


def ints(rng, length):
    """Index arithmetic."""
    return any_of(rng, length, ["SX{i} X{j}+B{b}", "SB{b} X{j}+1", "SX{i} B{b}+3", "IX{i} X{j}+X{k}", "IX{i} X{j}-X{k}", "LX{i} 3", "SB{b} B{b}+B1", "AX{i} B{b},X{j}"])


def load(rng, length):
    """Loads, and what uses them."""
    lines = []
    while len(lines) < length:
        one, other = rng.randint(1, 5), rng.randint(1, 5)
        lines += ["SA%d B%d+TABLE+%d" % (one, rng.randint(1, 7), rng.randrange(64)), "SA%d A%d+B%d" % (other, other, rng.randint(1, 7))]
        lines.append(filled(rng, rng.choice(OPERATIONS)))
    return lines[:length]


def loops(rng, length):
    """The body of a loop, again and again."""
    body = ["SA1 A1+B1", "SA2 A2+B1"] + any_of(rng, rng.randint(2, 5), OPERATIONS) + ["BX6 X%d" % rng.randrange(6), "SA6 A6+B1"]
    return (body * length)[:length]


def mirror(rng, length):
    """Lanes that share no register, each with the same operations."""
    lanes = rng.choice([2, 4, 6])
    steps = [rng.choice(["SX{v} B{v}+1", "LX{v} 5", "FX{v} X{v}+X0", "FX{v} X{v}*X0", "IX{v} X{v}+X0", "BX{v} -X{v}"]) for _ in range(-(-length // lanes))]
    return [step.format(v=lane + 1) for step in steps for lane in range(lanes)][:length]


def pointer(rng, length):
    """Addresses that are loaded."""
    lines = []
    while len(lines) < length:
        one, other = rng.randint(1, 5), rng.randint(1, 5)
        lines += ["SA%d X%d" % (one, other), "SB%d X%d" % (rng.randint(1, 7), one), "SX%d X%d+B%d" % (rng.choice([0, 6, 7]), one, rng.randint(1, 7))]
        lines.append(filled(rng, rng.choice(["SA{i} X{j}+B{b}", "IX{i} X{j}+X{k}", "FX{i} X{j}*X{k}"])))
    return lines[:length]


def randall(rng, length):
    """All sorts."""
    return block_of(rng, length).split("\n")[:-1]


def store(rng, length):
    """Results that are stored."""
    lines = []
    while len(lines) < length:
        value = 6 + rng.randrange(2)
        lines.append(rng.choice(OPERATIONS).format(i=value, j=rng.randrange(6), k=rng.randrange(6), b=rng.randint(1, 7)))
        lines.append("SA%d B%d+%d" % (value, rng.randint(1, 7), rng.randrange(64)))
        lines.append(filled(rng, rng.choice(OPERATIONS)))
    return lines[:length]


def ties(rng, length):
    """Few instructions, each several times with other registers."""
    texts = rng.sample(OPERATIONS + ["SX{i} B{b}+1"], 3)
    return [rng.choice(texts).format(i=rng.randint(4, 7), j=rng.randrange(4), k=rng.randrange(4), b=1) for _ in range(length)]


def unit1(rng, length):
    """Of one unit alone."""
    return any_of(rng, length, rng.choice(list(UNITS.values())))


def wide(rng, length):
    """Expressions of many operands, by pairs."""
    lines = []
    while len(lines) < length:
        values = [1, 2, 3, 4, 5]
        lines += ["SA%d P%d+%d" % (n, rng.randrange(8), rng.randrange(8)) for n in values]
        while len(values) > 1:
            one, other = rng.sample(values, 2)
            lines.append(rng.choice(OPERATIONS).format(i=one, j=one, k=other, b=rng.randint(1, 7)))
            values.remove(other)
        lines += ["BX6 X%d" % values[0], "SA6 R%d" % rng.randrange(8)]
    return lines[:length]


FAMILIES = {
    "chain": chain, "div": div, "empty": empty, "int": ints, "load": load, "loops": loops, "mirror": mirror, "pointer": pointer,
    "randall": randall, "store": store, "ties": ties, "unit1": unit1, "wide": wide,
}  # fmt: skip
KINDS = ["boolean", "shift", "add", "longadd", "multiply", "divide", "increment"]
TIMES = ["boolean", "shift", "normalise", "add", "longadd", "multiply", "divide", "population", "increment", "load"]
PROFILES = {
    "flat": {name: 3 for name in TIMES},
    "long": {"boolean": 6, "shift": 6, "add": 9, "longadd": 7, "multiply": 25, "divide": 60, "increment": 6, "load": 20},
    "ones": {"units_multiply": 1, "units_increment": 1},
    "slowmem": {"load": 40},
    "three": {"units_" + name: 3 for name in KINDS},
    "twos": {"units_" + name: 2 for name in KINDS},
}
COUNTS = {16: 2, 32: 3, 48: 2, 64: 3, 96: 2, 128: 3}


def profile_text(numbers):
    return "{%s}" % ",".join('"%s":%d' % pair for pair in numbers.items())


def source_of(lines):
    return "".join("          %s\n" % line.strip() for line in lines)


def family_blocks():
    """Each block: its group, its name, its source and the options of its profile."""
    for family, make in FAMILIES.items():
        for length, count in COUNTS.items():
            for n in range(2 if family == "empty" else count):
                name = "%s_%d.%d" % (family, length, n)
                yield family, name, source_of(make(random.Random(name), length)), []
    for profile, numbers in PROFILES.items():
        for length in (32, 64, 128):
            for n in range(6):
                name = "p_%s_%d.%d" % (profile, length, n)
                make = random.Random(name + " family").choice(list(FAMILIES.values()))
                yield "p_" + profile, name, source_of(make(random.Random(name), length)), ["--profile", profile_text(numbers)]


def random_blocks():
    for seed in (6600, 77, 2027):
        for length in (40, 64, 96, 128):
            rng = random.Random(seed)
            for n in range(12):
                yield "%d, seed %d" % (length, seed), "r%d_%d.%d" % (seed, length, n), block_of(rng, length), []


def ran(words, text):
    """What a run writes, and the seconds of the processor that it takes."""
    with tempfile.TemporaryFile() as given, tempfile.TemporaryFile() as out:
        given.write(text.encode())
        given.seek(0)
        child = subprocess.Popen(words, stdin=given, stdout=out, stderr=subprocess.DEVNULL)
        _, _, used = os.wait4(child.pid, 0)
        child.returncode = 0
        out.seek(0)
        return out.read().decode(), used.ru_utime + used.ru_stime


def measured(program, nodes, block):
    """For each mode the time, the bound, the splits and the seconds."""
    group, name, text, profile = block
    found = {}
    for mode, options in MODES.items():
        words = [program, "order", "--trace", "--workers", "1", "--nodes", str(nodes)] + options + profile
        told, seconds = ran(words, text)
        total, bound, splits = HEAD.search(told).groups()
        found[mode] = (int(total), int(bound or total), int(splits), seconds)
    return group, name, found


def tell(group, rows):
    """A line for each mode: proved best, times above the best known, bounds below it in 100, splits, seconds."""
    best = [min(found[mode][0] for mode in MODES) for found in rows]
    for mode in MODES:
        kept = [found[mode] for found in rows]
        decided = sum(total == bound for total, bound, *_ in kept)
        above = sum(total for total, *_ in kept) - sum(best)
        below = 100 * (1 - sum(bound for _, bound, *_ in kept) / sum(best))
        splits = sum(one[2] for one in kept)
        seconds = sum(one[3] for one in kept)
        print("%-16s %-16s %3d of %3d  +%-4d -%5.2f %%  %9d splits  %7.2f s" % (group, mode, decided, len(kept), above, below, splits, seconds))


def main():
    parser = argparse.ArgumentParser(description="Measures what searches of three kinds decide.")
    parser.add_argument("--nodes", type=int, default=100_000, help="the splits of a block, 100,000 if left out")
    parser.add_argument("--jobs", type=int, default=1, help="how many blocks at a time, 1 if left out")
    parser.add_argument("--table", help="a file for a row for each block")
    parser.add_argument("--only", help="blocks whose names begin so")
    parser.add_argument("--random", action="store_true", help="random blocks of all sorts, of four lengths and three seeds")
    parser.add_argument("program", nargs="?", default=PROGRAM)
    asked = parser.parse_args()
    blocks = [one for one in (random_blocks() if asked.random else family_blocks()) if one[1].startswith(asked.only or "")]
    with concurrent.futures.ThreadPoolExecutor(asked.jobs) as pool:
        rows = list(pool.map(lambda one: measured(asked.program, asked.nodes, one), blocks))
    if asked.table:
        with open(asked.table, "w") as file:
            for _, name, found in rows:
                file.write("\t".join([name] + [" ".join(map(str, found[mode])) for mode in MODES]) + "\n")
    for group in dict.fromkeys(group for group, _, _ in rows):
        tell(group, [found for own, _, found in rows if own == group])
    tell("all", [found for _, _, found in rows])


if __name__ == "__main__":
    main()
