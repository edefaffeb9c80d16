"""Translates a function into blocks: their instructions, and what ends each."""
from real.allocate import Allocator
from real.code import Homes, Names, PartCode, Uses, parts_of
from real.ir import Unsupported

LONGEST = 128  # instructions of a block


def blocks_of(function, is_careful):
    """The blocks of a function in a manner: instructions, and the branch behind them or nothing where a block is cut."""
    parts, last = parts_of(function)
    uses = Uses(function, parts, last)
    homes, names = Homes(uses, is_careful), Names()
    taken = {register.fixed for register in homes.fixed.values()}
    for part in parts:
        code = PartCode(uses, homes, names, is_careful, part)
        operations = code.make()
        lines, branch = Allocator(operations, is_careful, taken, code.entry).allocate()
        for begin in range(0, len(lines), LONGEST):
            is_last = begin + LONGEST >= len(lines)
            yield lines[begin : begin + LONGEST], branch if is_last else ""


def translated(functions, is_careful):
    """The blocks of functions, and how many functions aren't translated."""
    blocks, left_out = [], 0
    for function in functions:
        try:
            blocks += blocks_of(function, is_careful)
        except Unsupported:
            left_out += 1
    return blocks, left_out
