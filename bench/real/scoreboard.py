"""The 6600 as docs/SCOREBOARD.md has it, by the text of instructions: dependences, times, list schedules, and all orders."""
import re

WORKS = {"B": 3, "L": 3, "A": 3, "M": 3, "P": 3, "U": 3, "N": 4, "Z": 4, "I": 3, "C": 8, "S": 3}
UNITS = {"B": "boolean", "L": "shift", "A": "shift", "M": "shift", "P": "shift", "U": "shift", "N": "shift", "Z": "shift", "I": "long add", "C": "divide"}
ARITHMETIC = {"*": ("multiply", 10), "/": ("divide", 29), "+": ("add", 4), "-": ("add", 4)}
COPIES = {"multiply": 2, "increment": 2}
LOAD = 8
REGISTERS = {name + digit: 8 * n + int(digit) for n, name in enumerate("ABX") for digit in "01234567"}
FIRST_X = REGISTERS["X0"]
NAME = re.compile(r"(?<![\w.=])[ABX][0-7](?![\w.=])")


class Instruction:
    """What one reads, writes and takes, by its text: an operation, a blank and an operand."""

    def __init__(self, text):
        self.text = text
        operation, _, operand = text.partition(" ")
        letter, own = operation[0], operation[1:]
        named = NAME.findall(operand)
        reads, writes = list(named), [own]
        self.parcels, self.memory = 1, ""
        if letter in "FRD":
            self.unit, self.works = ARITHMETIC[re.search(r"[*/+-]", operand)[0]]
        else:
            self.unit, self.works = UNITS.get(letter, "increment"), WORKS[letter]
        if letter in "LA" and not named or letter in "NZUP" and not any(name[0] == "X" for name in named):
            reads.append(own)
        if letter in "NZU":
            writes += [name for name in named if name[0] == "B"]
            reads = [name for name in reads if name[0] != "B"]
        if letter == "S":
            self.parcels = 2 if re.sub(NAME, "", operand).strip("+-") else 1
            if own[0] == "A" and own[1] in "12345":
                self.memory = "load"
                writes.append("X" + own[1])
            elif own[0] == "A" and own[1] in "67":
                self.memory = "store"
                reads.append("X" + own[1])
        self.reads = sorted({REGISTERS[name] for name in reads if name != "B0"})
        self.writes = sorted({REGISTERS[name] for name in writes if name != "B0"})
        self.read_bits = sum(1 << register for register in self.reads)
        self.written_bits = sum(1 << register for register in self.writes)

    def loads(self, register):
        return self.memory == "load" and register >= FIRST_X

    def delay(self, register):
        """How long after its start this register has the result."""
        return LOAD if self.loads(register) else self.works


class Block:
    """Instructions and what each has to stay after, by bits."""

    def __init__(self, texts):
        self.instructions = [Instruction(text) for text in texts]
        self.after = [sum(1 << m for m in range(n) if self.depends(n, m)) for n in range(len(texts))]

    def depends(self, later, earlier):
        one, other = self.instructions[earlier], self.instructions[later]
        if one.memory and other.memory and "store" in (one.memory, other.memory):
            return True
        return bool(one.written_bits & (other.read_bits | other.written_bits) or one.read_bits & other.written_bits)

    def tails(self):
        """For each instruction the least time from its start to the end, by what waits for its results."""
        tails = [this.works + 1 for this in self.instructions]
        for n in reversed(range(len(tails))):
            this = self.instructions[n]
            for later in range(n + 1, len(tails)):
                if this.written_bits & self.instructions[later].read_bits:
                    for register in this.writes:
                        if register in self.instructions[later].reads:
                            tails[n] = max(tails[n], this.delay(register) + tails[later])
        return tails

    def is_legal(self, order):
        seen = 0
        for n in order:
            if self.after[n] & ~seen:
                return False
            seen |= 1 << n
        return len(order) == len(self.instructions) and seen == (1 << len(order)) - 1

    def time(self, order):
        clock = Clock()
        for n in order:
            clock.push(self.instructions[n])
        return clock.total


class Clock:
    """When registers and units are ready behind the beginning of an order."""

    def __init__(self):
        self.parcel = self.slot = self.total = self.referred = self.stored = 0
        self.done, self.read = [0] * 24, [0] * 24
        self.free = {unit: [0] * COPIES.get(unit, 1) for unit in {*UNITS.values(), "add", "multiply", "increment"}}

    def copy(self):
        new = Clock.__new__(Clock)
        new.__dict__.update(self.__dict__)
        new.done, new.read = self.done[:], self.read[:]
        new.free = {unit: copies[:] for unit, copies in self.free.items()}
        return new

    def filler(self, this):
        return 1 if this.parcels == 2 and self.parcel % 4 == 3 else 0

    def starts(self, this):
        """When an instruction would issue and start, if it came next."""
        issue = max(self.slot + self.filler(this), min(self.free[this.unit]))
        for register in this.writes:
            issue = max(issue, self.done[register])
        start = issue
        for register in this.reads:
            start = max(start, self.done[register])
        if this.memory:
            start = max(start, self.referred if this.memory == "store" else self.stored)
        return issue, start

    def push(self, this):
        issue, start = self.starts(this)
        free = start + this.works + 1
        for register in this.writes:
            self.done[register] = max(start + this.delay(register), self.read[register])
            self.total = max(self.total, self.done[register])
            if not this.loads(register):
                free = max(free, self.done[register] + 1)
        for register in this.reads:
            self.read[register] = max(self.read[register], start + 1)
        if this.memory:
            self.referred = max(self.referred, start + 1)
        if this.memory == "store":
            self.stored = max(self.stored, start + 1)
        copies = self.free[this.unit]
        copies[copies.index(min(copies))] = free
        self.total = max(self.total, free)
        self.parcel += self.filler(this) + this.parcels
        self.slot = issue + this.parcels


def first_issued(issue, start, tail):
    """What issues first, of these what needn't wait, of these what has the longest path behind it."""
    return issue, start > issue, -tail


def first_started(issue, start, tail):
    """What starts first, of these what has the longest path behind it."""
    return start, -tail


def list_schedule(block, tails, rule):
    """The order that always takes the ready instruction that a rule puts first."""
    clock, order, seen = Clock(), [], 0
    left = list(range(len(block.instructions)))
    while left:
        ready = [n for n in left if not block.after[n] & ~seen]
        best = min(ready, key=lambda n: rule(*clock.starts(block.instructions[n]), tails[n]))
        clock.push(block.instructions[best])
        order.append(best)
        left.remove(best)
        seen |= 1 << best
    return order


class TooMany(Exception):
    """More beginnings than may be tried."""


def is_beaten(block, tails, time, beginnings):
    """Whether some legal order takes less than a time, by trying all but those whose beginning takes it already."""
    everything, tried = (1 << len(block.instructions)) - 1, 0

    def goes_on(clock, seen):
        nonlocal tried
        if seen == everything:
            return True
        left = [n for n in range(len(tails)) if not seen >> n & 1]
        if any(clock.slot + tails[n] >= time for n in left):
            return False
        for n in left:
            if not block.after[n] & ~seen:
                tried += 1
                if tried > beginnings:
                    raise TooMany
                after = clock.copy()
                after.push(block.instructions[n])
                if after.total < time and goes_on(after, seen | 1 << n):
                    return True
        return False

    return goes_on(Clock(), 0)
