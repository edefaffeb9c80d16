#!/usr/bin/env python3
"""Puts 40 blocks in order with --deep, whose shapes are those of real code that was hard to decide, and checks what is printed.

    tools/shapes.py PROGRAM

The blocks are made here, by the registers of bench/real/, in its careful and its naive manner:

- inverse cosine transforms, whose constants are made anew and whose values don't fit into the registers;
- equal lanes between stores, each a load and shifted copies of it;
- the loop body of a plane rotation, once to four times;
- subscripts by integer products; remainders by 65521; bits of flags.

Each block has to be decided, its order legal, and its time that which the scoreboard of bench/real/ gives; no list schedule may take
less. The times of a shape's blocks have a sum that is known, and all are found in 20 seconds of the processor by a proved program. The
status is 1 if something is otherwise.
"""
import dataclasses
import math
import os
import sys

sys.path.append(os.path.join(os.path.dirname(os.path.dirname(os.path.abspath(__file__))), "bench"))
from real import measure
from real.allocate import Allocator
from real.code import Address, Names, PartCode, Register

SECONDS = 20  # of the processor, by a proved program
SPLITS = 100_000
LONGEST = 128
MANNERS = True, False  # careful, naive
ROW, OTHER_ROW, STEP = (Register("B", fixed=name) for name in ("B2", "B3", "B4"))


def value(number):
    """The word of a value that other blocks make."""
    return Address("V", offset=number)


def inverse_cosine(code, points, inputs):
    """Points of an inverse cosine transform of scaled coefficients, cut like all blocks behind 128 instructions: each point and its mirror are a sum and a difference."""
    coefficients = [code.product(code.load(value(n)), code.load(value(100 + n))) for n in range(inputs)]
    for place in range(points // 2):
        halves = []
        for parity in (0, 1):
            total = None
            for n in range(parity, inputs, 2):
                factor = round(8192 * math.cos(math.pi * (2 * place + 1) * n / (2 * points)))
                term = code.product(coefficients[n], code.constant(factor)) if n else coefficients[n]
                total = code.emit("IX{r} {a}+{b}", total, term) if total else term
            halves.append(total)
        for sign, target in ("+", place), ("-", points - 1 - place):
            code.store(code.emit("AX{r} 13", code.emit("IX{r} {a}" + sign + "{b}", *halves), in_place=True), value(200 + target))


def lanes(code, count, copies):
    """Equal lanes: a word, and shifted copies of it that are stored."""
    for lane in range(count):
        word = code.load(value(3 * lane))
        for copy in range(copies):
            code.store(code.emit(f"LX{{r}} {7 + copy % 2}", word, in_place=True), value(100 + 4 * lane + copy))


def rotation(code, steps):
    """So many steps of a loop that rotates a pair of rows, element by element."""
    cosine, sine = code.load(Address("P", offset=1)), code.load(Address("P", offset=2))
    for _ in range(steps):
        one, other = code.load(Address(base=ROW)), code.load(Address(base=OTHER_ROW))
        turned = [code.emit("FX{r} {a}*{b}", *pair) for pair in ((cosine, one), (sine, other), (cosine, other), (sine, one))]
        code.store(code.normalised("FX{r} {a}-{b}", turned[2], turned[3]), Address(base=OTHER_ROW))
        code.store(code.normalised("FX{r} {a}+{b}", turned[0], turned[1]), Address(base=ROW))
        for row in ROW, OTHER_ROW:
            code.emit("SB{r} {a}+{b}", row, STEP, result=row)


def subscripts(code, count):
    """Elements of a matrix, whose places are sums of a row and a column times a length, all found before the first is taken."""
    length, places = code.load(Address("P", offset=1)), []
    for n in range(count):
        place = code.emit("IX{r} {a}+{b}", code.product(length, code.load(value(n))), code.load(value(50 + n)))
        places.append(code.emit("SB{r} {a}-1", code.emit("SB{r} {a}", place, bank="B"), bank="B"))
    total = None
    for place in places:
        element = code.load(Address("G.1", base=place))
        total = code.normalised("FX{r} {a}+{b}", total, element) if total else element
    code.store(total, value(100))


def remainders(code, count):
    """Remainders of sums by 65521."""
    for n in range(count):
        total = code.emit("IX{r} {a}+{b}", code.load(value(n)), code.load(value(50 + n)))
        whole = code.product(code.quotient(total, code.constant(65521)), code.constant(65521))
        code.store(code.emit("IX{r} {a}-{b}", total, whole), value(100 + n))


def flags(code, count):
    """A bit for each of several words, which says whether it is zero."""
    bits = None
    for n in range(count):
        word, one = code.load(value(n)), code.constant(1)
        magnitude = code.emit("BX{r} {a}-{b}", word, code.sign(word))
        bit = code.emit("BX{r} {a}*{b}", code.sign(code.emit("IX{r} {a}-{b}", magnitude, one)), code.constant(1 << n))
        bits = code.emit("BX{r} {a}+{b}", bits, bit) if bits else bit
    code.store(bits, value(100))


@dataclasses.dataclass(frozen=True)
class Shape:
    """Blocks that a function makes by these sizes, each in these manners, and the sum of their best times."""

    make: object
    sizes: list
    total: int
    manners: tuple = MANNERS


SHAPES = {
    "rotation": Shape(rotation, [(steps,) for steps in range(1, 5)], 937),
    "flags": Shape(flags, [(6,)], 312),
    "remainders": Shape(remainders, [(2,)], 350),
    "subscripts": Shape(subscripts, [(4,), (8,)], 855),
    "lanes": Shape(lanes, [(count, copies) for copies in (2, 4) for count in (4, 6, 8, 10)], 1390, MANNERS[:1]),
    "inverse cosine transform": Shape(inverse_cosine, [(4, 3), (4, 4), (6, 3), (6, 4), (8, 3), (8, 4), (10, 3), (8, 7)], 4071),
}


def block_of(make, sizes, is_careful):
    """The instructions of a block in a manner."""
    code = PartCode(None, None, Names(), is_careful, None)
    make(code, *sizes)
    texts, _ = Allocator(code.operations, is_careful, {ROW.fixed, OTHER_ROW.fixed, STEP.fixed}, None).allocate()
    return texts[:LONGEST]


def searched(program, samples):
    """Searches the blocks with --deep: the seconds of the processor, and what is wrong."""
    measurement = measure.Measurement(measure.Plan([program], SPLITS, ["deep"], short=0))
    for held in measure.decks(samples):
        measurement.measure(held)
    return measurement.seconds["deep"], measurement.wrong


def main(arguments):
    if len(arguments) != 1 or arguments[0].startswith("-"):
        print(__doc__.strip())
        return 2
    count, seconds, wrong = 0, 0, []
    for name, shape in SHAPES.items():
        samples = [measure.Sample(block_of(shape.make, sizes, is_careful), "") for sizes in shape.sizes for is_careful in shape.manners]
        took, faults = searched(os.path.abspath(arguments[0]), samples)
        total = sum(sample.best() for sample in samples)
        wrong += faults + [f"only bounded: {sample.texts}" for sample in samples if not sample.is_best("deep")]
        wrong += [f"{name}: {total} minor cycles in place of {shape.total}"] if total != shape.total else []
        count += len(samples)
        seconds += took
        print(f"{name}: {len(samples)} blocks of {sum(len(sample.texts) for sample in samples)} instructions, {total} minor cycles, {took:.1f} seconds")
    wrong += [f"{seconds:.1f} seconds of the processor"] if seconds > SECONDS else []
    print("".join(f"wrong: {fault}\n" for fault in wrong), end="")
    print(f"{max(0, count - len(wrong))} passed, {len(wrong)} failed")
    return 1 if wrong else 0


if __name__ == "__main__":
    sys.exit(main(sys.argv[1:]))
