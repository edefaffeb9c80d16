#!/usr/bin/env python3
"""Steps a scoreboard minor cycle by minor cycle, and compares it with `s66 time --trace`; or shows what it keeps.

    tools/scoreboard.py PROGRAM [--blocks N] [--seed N]
    tools/scoreboard.py --watch [--profile TEXT] < SOURCE
    tools/scoreboard.py --weigh [--profile TEXT] < SOURCE

The program works out when something happens. The machine here doesn't: in each minor cycle it looks at the flags that its
scoreboard has then, as docs/SCOREBOARD.md tells them, and of a profile it takes only how long each unit works, how long a load
takes, and how many units there are. tools/certificate.py says what an instruction reads and writes.

N random blocks, 1,000 unless given, half of them under random profiles, have to take the same times to the byte. And so that wrong
rules would be seen, each machine that has one rule of its own has to differ in some block. The same seed makes the same blocks. The
last line is 'N passed, M failed', of blocks and of such machines, and the status is 1 if something failed.

With --watch each block of a source is stepped, and the scoreboard printed after each minor cycle: of each unit that is busy its
instruction, the registers to be written (Fi), operands with who is to write them (Q), and operands that are there and not yet read
(R); and for each reserved register who is to write it (XBA). With --weigh each such machine tells how many of the blocks of a source
would take another time by its rule, and how much longer or less long all would take. Both read a source as --cut does.
"""
import argparse
import collections
import json
import random
import re
import subprocess
import sys

from certificate import MOST, TIMES, instruction_of, meet_in_memory
from compare_certificates import CONSTANTS, INSTRUCTIONS
from find_facts import PROFILE, profile_of
from left_alone import Reading

BATCH = 20  # blocks of a source, under one profile
# Instructions of which one waits for a slow one, and so keeps back the result of the next or its reference to memory.
LATE = [
    "FXi Xj/Xk|IXm Xi+Xn|SXn Bj", "FXi Xj*Xk|SXm Xi+Bn|SBn Bk", "CXi Xj|SAm Xi+Bn|SAj Bk|UXk Bn,Xm", "FX6 Xj*Xk|SA6 Ai|SAm Bk|SX6 Bi",
    "SAi Bj|SA7 Xi|SAm Bk|BX7 Xj", "FXi Xj*Xk|SAm Xi|SAn Bj|SAj Bk", "NXi Bj,Xk|SBm Xi+Bn|SBn Ak", "FXi Xj*Xk|SXm Ai|SAi Bk",
]


class Worker:
    """Who writes registers for an instruction: its unit, or memory, which brings the word of a load."""

    def __init__(self, name, number, results):
        self.name, self.number = name, number
        self.results = set(results)  # Fi, the registers that are still to be written
        self.left = None  # minor cycles of work that are left; none before it has started


class Job(Worker):
    """An instruction in its unit. What its operands wait for is taken from the reservations when it issues."""

    def __init__(self, name, number, own, reserved):
        super().__init__(name, number, own.held)
        self.own, self.is_leaving = own, False
        self.awaited = {register: reserved[register] for register in own.reads if register in reserved}  # Q
        self.unread = own.reads - self.awaited.keys()  # R, the read flags: there, and not yet read
        self.ahead = set()  # references to memory that have to start before this one


class Machine:
    """A scoreboard with its units and memory, and the parcels of a block that are to pass."""

    def __init__(self, profile, block):
        self.profile, self.block = profile, dict(enumerate(block, 1))
        self.parcels = collections.deque(self.packed())
        self.jobs, self.words = [], []  # units that are busy, and words under way from memory, both in the order of issue
        self.reserved = {}  # XBA, who is to write a register
        self.clock, self.latest = 0, sum(profile.values()) * len(block)  # where all is over, unless it can't go on
        self.at = {number: {"PARCEL": place} for place, (number, half) in enumerate(self.parcels) if half == 0}

    def packed(self):
        """The parcels in order: the number of an instruction with the first or second half, or with none for a filler."""
        count = 0
        for number, own in self.block.items():
            if own.parcels == 2 and count % 4 == 3:
                yield number, None
                count += 1
            yield from ((number, half) for half in range(own.parcels))
            count += own.parcels

    def is_over(self):
        """Whether no parcel is to pass, no unit busy, and no word under way."""
        return not (self.parcels or self.jobs or self.words)

    def step(self):
        """One minor cycle, in which results are stored before an instruction issues, and that before operands are read."""
        self.release()
        self.work()
        self.store()
        self.issue()
        self.start()
        self.clock += 1

    def run(self):
        """Steps until all is over; returns the minor cycles that this took, or nothing if it can't go on."""
        while not self.is_over():
            if self.clock > self.latest:
                return None
            self.step()
        return self.clock - 1

    # Units, and their work

    def release(self):
        """A unit that has stored its last result is free from the next minor cycle on."""
        for job in self.jobs:
            if job.is_leaving:
                self.at[job.number]["FREE"] = self.clock
        self.jobs = [job for job in self.jobs if not job.is_leaving]

    def work(self):
        for worker in self.jobs + self.words:
            worker.left = worker.left and worker.left - 1

    # The third order of conflict

    def may_be_stored(self, register):
        """No unit has a read flag for it: none has still to read what it held."""
        return all(register not in job.unread for job in self.jobs)

    def store(self):
        """Results go into their registers. All look at the same flags."""
        done = [worker for worker in self.jobs + self.words if worker.left == 0]
        stored = [(worker, register) for worker in done for register in worker.results if self.may_be_stored(register)]
        for worker, register in stored:
            worker.results.remove(register)
            self.at[worker.number]["DONE"] = self.clock
            self.clear(register)
            self.arrive(worker, register)
        self.words = [word for word in self.words if word.results]
        for job in self.jobs:
            if job.left == 0 and not job.results:
                self.at[job.number].setdefault("DONE", self.clock)
                job.is_leaving = self.may_leave(job)

    def clear(self, register):
        del self.reserved[register]

    def arrive(self, worker, register):
        """Who waited for this result has it as an operand that is there."""
        for job in self.jobs:
            if job.awaited.get(register) is worker:
                del job.awaited[register]
                job.unread.add(register)

    def may_leave(self, job):
        """Whether the unit is to be free, now that it has stored its results."""
        return True

    # The first order of conflict

    def free_unit(self, kind):
        """The first unit of a kind that isn't busy, by its name."""
        copies = self.profile[kind]
        names = [kind] if copies == 1 else [f"{kind} {copy + 1}" for copy in range(copies)]
        busy = {job.name for job in self.jobs}
        return next((name for name in names if name not in busy), None)

    def is_reserved(self, registers):
        return any(register in self.reserved for register in registers)

    def issue(self):
        """The next parcel passes. With its first one an instruction issues; if it can't, all behind it wait in line."""
        number, half = self.parcels[0] if self.parcels else (None, None)
        if half == 0:
            own = self.block[number]
            unit = self.free_unit(own.unit)
            if not unit or self.is_reserved(own.held | own.fetched):
                return
            self.enter(Job(unit, number, own, self.reserved))
        if self.parcels:
            self.parcels.popleft()

    def enter(self, job):
        """The unit is busy from now on, and the registers of its results are reserved, that of a load's word for memory."""
        job.ahead = {other for other in self.jobs if other.left is None and self.goes_before(other, job)}
        self.jobs.append(job)
        word = Worker("MEMORY", job.number, job.own.fetched)
        self.words += [word] if word.results else []
        self.reserved.update({**dict.fromkeys(job.own.held, job), **dict.fromkeys(job.own.fetched, word)})
        self.at[job.number]["ISSUE"] = self.clock

    def goes_before(self, earlier, later):
        """Whether an earlier reference to memory has to start before a later one: one of the two stores."""
        return meet_in_memory(earlier.own, later.own)

    # The second order of conflict

    def may_start(self, job):
        """Each operand has its read flag, and the references that go before have started."""
        return not job.awaited and not job.ahead

    def start(self):
        """Units read all their operands at once, and begin their work. All look at the same flags."""
        started = [job for job in self.jobs if job.left is None and self.may_start(job)]
        for job in started:
            job.unread, job.left = set(), self.profile[job.own.work]
            self.at[job.number]["START"] = self.clock
            for word in self.words:
                if word.number == job.number:
                    word.left = self.profile["load"]
        for job in self.jobs:
            job.ahead.difference_update(started)

    def lines(self, number, line):
        """What `time --trace` prints of the block, by its number and its line."""
        parcels, time = sum(own.parcels for own in self.block.values()), self.run()
        fillers = max(at["PARCEL"] + self.block[n].parcels for n, at in self.at.items()) - parcels
        yield f"BLOCK {number} LINE {line} COUNT {len(self.block)} PARCELS {parcels} NO {fillers} TIME {time}"
        for n, at in self.at.items():
            yield f"I {n} " + " ".join(f"{word} {at.get(word)}" for word in "PARCEL ISSUE START DONE FREE".split())


# Machines with one rule of their own. Each says it.


class MoreUnits(Machine):
    """a unit is never busy"""

    def free_unit(self, kind):
        return kind


class NoReservation(Machine):
    """a register that is still to be written can be reserved again"""

    def is_reserved(self, registers):
        return False

    def clear(self, register):
        self.reserved.pop(register, None)


class OneUnit(Machine):
    """there is one unit of each kind"""

    def free_unit(self, kind):
        return kind if all(job.own.unit != kind for job in self.jobs) else None


class HeldByLoad(Machine):
    """the unit of a load is busy until its word is there"""

    def may_leave(self, job):
        return all(word.number != job.number for word in self.words)


class FreeAtOnce(Machine):
    """a unit is free in the minor cycle of its last result"""

    def store(self):
        super().store()
        self.release()


class StoredAt:
    """When a result of each register was stored last."""

    def __init__(self, profile, block):
        super().__init__(profile, block)
        self.stored_at = {}

    def clear(self, register):
        super().clear(register)
        self.stored_at[register] = self.clock

    def is_new(self, registers):
        return self.clock in map(self.stored_at.get, registers)


class ReadLater(StoredAt, Machine):
    """a result is read in the minor cycle after it is stored"""

    def may_start(self, job):
        return super().may_start(job) and not self.is_new(job.own.reads)


class ReservedLonger(StoredAt, Machine):
    """a register can be reserved again in the minor cycle after its result is stored"""

    def is_reserved(self, registers):
        return super().is_reserved(registers) or self.is_new(registers)


class NoOperands(Machine):
    """a unit starts when it is taken"""

    def enter(self, job):
        job.awaited = {}
        super().enter(job)


class OneOperand(Machine):
    """a unit starts when one operand is there"""

    def start(self):
        for job in self.jobs:
            job.awaited = {} if job.unread else job.awaited
        super().start()


class StoreApart(Machine):
    """the unit of a store doesn't wait for X6 or X7"""

    def enter(self, job):
        if job.own.memory == "store":
            [address] = job.own.held
            job.awaited.pop("X" + address[1], None)
            job.unread.discard("X" + address[1])
        super().enter(job)


class NoReaders(Machine):
    """a result doesn't wait for who has still to read the register"""

    def may_be_stored(self, register):
        return True


class StoredWithRead(Machine):
    """a result that is held is stored in the minor cycle in which the last reader reads"""

    def start(self):
        super().start()
        self.store()


class AllReferences(Machine):
    """a reference to memory waits for each earlier one"""

    def goes_before(self, earlier, later):
        return bool(earlier.own.memory and later.own.memory)


class NoReferences(Machine):
    """references to memory don't wait for each other"""

    def goes_before(self, earlier, later):
        return False


class OneParcel(Machine):
    """the second parcel of an instruction passes with the first"""

    def issue(self):
        super().issue()
        if self.parcels and self.parcels[0][1] == 1:
            self.parcels.popleft()


class NoFiller(Machine):
    """an instruction of two parcels may begin in the last of a word"""

    def packed(self):
        return ((number, half) for number, own in self.block.items() for half in range(own.parcels))


def some_instructions(pick, templates):
    """The instructions of templates, each letter in the place of a register one digit throughout."""
    few = pick.choice(["01234567", "01234567", "12345", "167", "12"])
    digits = dict(zip("ijkmn", pick.sample("01234567", 5) if "|" in templates else pick.choices(few, k=5)))
    return re.sub("[ijkmn]", lambda letter: digits[letter[0]], templates.replace("K", pick.choice(CONSTANTS))).split("|")


def some_block(pick):
    """A block of random instructions: of all sorts or of few, and more or less often some of which one waits."""
    count = pick.choice([pick.randint(1, 8), pick.randint(3, 16), pick.randint(3, 16), pick.randint(5, 32), pick.randint(33, MOST)])
    some, late, block = pick.choice([INSTRUCTIONS, INSTRUCTIONS, pick.sample(INSTRUCTIONS, 4)]), pick.choice([0, 0.1, 0.3]), []
    while len(block) < count:
        block += some_instructions(pick, pick.choice(LATE if pick.random() < late else some))
    return block[:count]


def some_profile(pick):
    """A profile as `--profile` takes it, the standard one in half of all cases."""
    if pick.random() < 0.5:
        return {}
    most, names = pick.choice([3, 12, 40, 100]), [name for name in PROFILE if pick.random() < 0.7]
    return {name if name in TIMES else "units_" + name.lower(): pick.randint(1, most if name in TIMES else pick.choice([1, 2, 3, 7, 100])) for name in names}


def sources(count, seed):
    """So many blocks, in sources with the profile of each; a label begins each block."""
    pick = random.Random(seed)
    for first in range(0, count, BATCH):
        yield some_profile(pick), [some_block(pick) for _ in range(min(BATCH, count - first))]


def traces_of(program, profile, blocks):
    """What the program prints of each block, in lines."""
    source = "".join(("L" if n == 0 else " ").ljust(10) + text + "\n" for block in blocks for n, text in enumerate(block))
    words = [program, "time", "--trace", "--profile", json.dumps(profile)]
    printed = subprocess.run(words, input=source, stdout=subprocess.PIPE, check=True, text=True).stdout
    return [trace.splitlines() for trace in re.findall(r"(?m)^BLOCK .*\n(?:I .*\n)*", printed)]


def compare(program, count, seed):
    """Tells each block that the machine doesn't time as the program does, and in how many blocks each other machine doesn't."""
    same, seen = 0, dict.fromkeys(Machine.__subclasses__(), 0)
    for given, blocks in sources(count, seed):
        profile, line, traces = profile_of(json.dumps(given)), 1, traces_of(program, given, blocks)
        if len(traces) != len(blocks):
            sys.exit(f"{len(traces)} blocks, and not {len(blocks)}")
        for number, (texts, trace) in enumerate(zip(blocks, traces), 1):
            block = [instruction_of(text) for text in texts]
            stepped = list(Machine(profile, block).lines(number, line))
            if stepped == trace:
                same += 1
            else:
                fault = next(f"{one}, and stepped {other}" for one, other in zip(trace, stepped) if one != other)
                print("\n".join([f"under {given}:", *texts, fault]))
            for wrong in seen:
                seen[wrong] += list(wrong(profile, block).lines(number, line)) != trace
            line += len(texts)
    for wrong, blocks in seen.items():
        print(f"{wrong.__doc__}: seen in {blocks} of {count} blocks")
    passed = same + sum(blocks > 0 for blocks in seen.values())
    failed = count + len(seen) - passed
    print(f"{passed} passed, {failed} failed")
    return 1 if failed else 0


def blocks_of(source):
    """The blocks of a source: the line of each, and the texts of its instructions."""
    reading = Reading(source, True)
    for places in reading.blocks:
        lines = [reading.lines[place] for place in places]
        yield places[0] + 1, [" ".join(filter(None, (line.operation, line.operand))) for line in lines]


def weigh(source, profile):
    """Tells by each other machine how many blocks would take another time, and how all."""
    blocks = [[instruction_of(text) for text in texts] for _, texts in blocks_of(source)]
    if not blocks:
        sys.exit("no block")
    times = [Machine(profile, block).run() for block in blocks]
    print(f"{len(blocks)} blocks, {sum(times)}")
    for other in Machine.__subclasses__():
        others = [other(profile, block).run() for block in blocks]
        differ = sum(one != time for one, time in zip(others, times))
        print(f"{differ:4} blocks, {100 * (sum(others) / sum(times) - 1):+5.1f} %: {other.__doc__}")


def doing(worker):
    """What a unit or memory is doing for an instruction."""
    if worker.left is None:
        return "waits"
    if worker.left:
        return f"{worker.left} to go"
    return "holds its result" if worker.results else "is free next"


def scoreboard_lines(machine, texts):
    """The scoreboard after a minor cycle."""
    yield f"MINOR CYCLE {machine.clock - 1}"
    for worker in machine.jobs + machine.words:
        keeps = [f"Fi {register}" for register in sorted(worker.results)]
        if worker in machine.jobs:
            keeps += [f"Q {register} {writer.name}" for register, writer in sorted(worker.awaited.items())]
            keeps += [f"R {register}" for register in sorted(worker.unread)]
        yield f"  {worker.name:11} {worker.number:3} {texts[worker.number - 1]:14} {'  '.join(keeps):26} {doing(worker)}".rstrip()
    reserved = [f"{register} {writer.name}" for register, writer in sorted(machine.reserved.items())]
    yield f"  XBA         {'  '.join(reserved)}".rstrip()


def watch(source, profile):
    """Prints the scoreboard after each minor cycle of each block."""
    for number, (line, texts) in enumerate(blocks_of(source), 1):
        machine = Machine(profile, [instruction_of(text) for text in texts])
        print(f"BLOCK {number} LINE {line}")
        while not machine.is_over():
            machine.step()
            print("\n".join(scoreboard_lines(machine, texts)))


def main():
    parser = argparse.ArgumentParser(description=__doc__.split("\n")[0])
    parser.add_argument("program", nargs="?")
    parser.add_argument("--blocks", type=int, default=1000)
    parser.add_argument("--seed", type=int, default=6600)
    parser.add_argument("--watch", action="store_true")
    parser.add_argument("--weigh", action="store_true")
    parser.add_argument("--profile", default="{}")
    asked = parser.parse_args()
    if asked.watch or asked.weigh:
        return (watch if asked.watch else weigh)(sys.stdin.buffer.read(), profile_of(asked.profile))
    if not asked.program:
        parser.error("a PROGRAM, --watch or --weigh")
    return compare(asked.program, asked.blocks, asked.seed)


if __name__ == "__main__":
    sys.exit(main())
