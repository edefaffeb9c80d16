#!/usr/bin/env python3
"""Checks certificates as `s66 check` does, and shares nothing with it: a second opinion, short enough to be read.

    tools/certificate.py < CERTIFICATES

It is written from docs/FORMATS.md and docs/DEFINITIONS.md alone, and believes nothing that a document says, of whatever
version. Under the document's own profile it times the order, tests that it is legal, and goes through the fact lines and the
tree line by line.
YES says that the order takes TIME and that no legal order takes less than BOUND; NO gives the first fault, its line and its
reason. Status 0: each verdict is YES. 5: some verdict is NO. 3: the text is no text of documents, and is refused as a whole.
It holds one document at a time. For a block of 24 instructions it goes through some 10,000 lines of a tree a second.
"""
import re
import sys
from collections import namedtuple
from functools import cached_property, lru_cache

MOST = 128  # instructions of a block, and numbers of a list
MOST_SPLITS = 1_000_000  # of a document
MOST_TIME = 100_000  # minor cycles
MOST_BYTES = 199  # of an instruction
MOST_FACTS = 4096  # fact lines of a document
MOST_LINES = 200_000_000  # of a document
VERSIONS = {f"S66 CERTIFICATE {version}": version for version in (1, 2, 3, 4, 5)}
# The tree lines with numbers: which a version has, the greatest number, and how many there are at least and at most. An L line
# has them after a minor cycle.
BY_FACTS = ["S", "C", "E", "R", "N", "L"]
NUMBERED = {1: ["S", "C"], 2: ["S", "C", "D"], 3: ["S", "C", "D"], 4: BY_FACTS, 5: BY_FACTS}
SHAPES = {**dict.fromkeys("SCD", (MOST, 1, MOST)), "E": (MOST, 1, 1), "R": (MOST, 2, 2), "N": (MOST_LINES, 1, 1)}

TIMES = "boolean shift normalise add longadd multiply divide population increment load".split()
UNITS = "BOOLEAN SHIFT ADD LONGADD MULTIPLY DIVIDE INCREMENT".split()

# The reasons.
NOT_LEGAL, NOT_THE_TIME, NOT_THE_READY, NO_CHAIN, BELOW_BOUND, NOT_HERE = 1, 2, 3, 4, 5, 6
ABOVE_TIME, NOT_TO_BE_NAMED, NOT_DOMINATED = 8, 9, 10
NO_FACT, NOT_TOO_LATE, NOT_TURNED, NOT_LEFT = 11, 12, 13, 14

# What the text of an instruction spells: its unit, which of a profile's times the unit works, its parcels, the registers
# that it reads, the results that the unit holds, the result that is fetched from memory, and whether it loads or stores. B0
# is never among the registers.
Instruction = namedtuple("Instruction", "unit work parcels reads held fetched memory")

REGISTER = re.compile("[ABX][0-7]")
CONSTANT = re.compile(r"(?![ABX]\.)([A-Z0-9=.]|(?<=[A-Z0-9.])[*/](?=[A-Z0-9.]))+")
# Operands, with its bank in the place of each register and K in that of each constant term, which may have * and /.
EXPRESSION = "[+-]?K([+-]K)*"
WITH_CONSTANT = f"{EXPRESSION}([+][ABX]([+-]K)*)?|[+]?[ABX]([+-]K)+"
WITHOUT_CONSTANT = "[+]?([ABX]|[AX][+]B|B[+][ABX]|[AB]-B)|-B([+][AB])?"
SHIFTED, SUM = "B,X|X,B|B|X", "X[+-]X|-X[+]X"
OPERATIONS = [  # operations; their operand; their unit; which time it works; their parcels
    ("BX", "-?X([*+-]X)?", "BOOLEAN", "boolean", 1),
    ("LX AX MX", EXPRESSION, "SHIFT", "shift", 1),
    ("LX AX", SHIFTED, "SHIFT", "shift", 1),
    ("NX ZX", f"({SHIFTED})?", "SHIFT", "normalise", 1),
    ("UX PX", f"({SHIFTED})?", "SHIFT", "shift", 1),
    ("FX DX RX", SUM, "ADD", "add", 1),
    ("IX", SUM, "LONGADD", "longadd", 1),
    ("FX DX RX", "X[*]X", "MULTIPLY", "multiply", 1),
    ("FX RX", "X/X", "DIVIDE", "divide", 1),
    ("CX", "X", "DIVIDE", "population", 1),
    ("SA SB SX", WITH_CONSTANT, "INCREMENT", "increment", 2),
    ("SA SB SX", WITHOUT_CONSTANT, "INCREMENT", "increment", 1),
]


def spelled(term):
    """The bank of a register, K for a constant term, and anything else as it is."""
    return term[0] if REGISTER.fullmatch(term) else "K" if CONSTANT.fullmatch(term) else term


def shift_registers(letters, own, named):
    """What an operation of the Shift unit reads and writes: B0 if it names no B, and its own X if it names no X."""
    b = next((name for name in named if name[0] == "B"), "B0")
    x = next((name for name in named if name[0] == "X"), own)
    if letters in ("NX", "ZX", "UX"):
        return {x}, {own, b}
    return set() if letters == "MX" else {b, x}, {own}


def instruction_of(text):
    """The instruction that a text spells, or nothing."""
    found = re.fullmatch("([A-Z][ABX])([0-7])(?: ([^ ]+))?", text)
    if not found or len(text) > MOST_BYTES:
        return None
    letters, own, operand = found[1], found[1][1] + found[2], found[3] or ""
    for operations, pattern, unit, work, parcels in OPERATIONS:
        terms = re.split("([+-])" if "K" in pattern else "([-+*/,])", operand)
        if letters in operations.split() and re.fullmatch(pattern, "".join(map(spelled, terms))):
            reads, held, other = set(filter(REGISTER.fullmatch, terms)), {own}, {"X" + own[1]}
            if unit == "SHIFT":
                reads, held = shift_registers(letters, own, reads)
            memory = None if letters != "SA" or own == "A0" else "load" if own <= "A5" else "store"
            reads |= other if memory == "store" else set()
            fetched = other if memory == "load" else set()
            return Instruction(unit, work, parcels, reads - {"B0"}, held - {"B0"}, fetched, memory)
    return None


# A moment is a stage and the number of an instruction. The stages are issue, start, the register of a result for when that is
# done, and free.
ORIGIN, END = ("origin", 0), ("end", 0)
ANCHORS = {stage[0].upper() + str(n): (stage, n) for stage in ("issue", "start") for n in range(1, MOST + 1)}
FROM, TO = {"0": ORIGIN, **ANCHORS}, {"END": END, **ANCHORS}
# Fact lines: that one instruction stands before another; what loads the units of a kind between two moments; that one stands
# before another, as is shown by supposing that it stands behind; and the end of what that begins.
Pair = namedtuple("Pair", "first second")
Load = namedtuple("Load", "begin end after wait numbers")
Suppose = namedtuple("Suppose", "first second")
Refuted = namedtuple("Refuted", "")
FACT_LINES = {1: "", 2: "", 3: "", 4: "FA", 5: "FABQ"}  # how they begin, by version

# What a document has: its profile is a number of each name, its block the instructions, its tree the lines in preorder, each
# with the number of the line.
Document = namedtuple("Document", "version profile block time bound order facts tree")
# A line of a tree: its kind, the numbers or the unit that it names, of an S line the first line of each tree after it, and its
# way from the tree's first line: the last number of its prefix and the way before that; that of the first line is nothing. The
# names of an L line begin with its minor cycle.
TreeLine = namedtuple("TreeLine", "kind names children way")


class Refused(Exception):
    """A text is no text of documents. It holds the line that says why."""


class Reader:
    """The lines of a text, one after the other, and what a document has in their places."""

    def __init__(self, stream):
        self.stream, self.count, self.ahead = stream, 0, stream.readline()

    def fail(self):
        raise Refused(f"LINE {self.count} BAD LINE")

    def line(self):
        """The next line, without its newline."""
        if not self.ahead.endswith(b"\n"):
            raise Refused("TRUNCATED")
        line, self.ahead = self.ahead[:-1].decode("latin-1"), self.stream.readline()
        self.count += 1
        return line

    def numbers(self, line, word, least, most, shortest=1, longest=1):
        """The numbers of a line, which are this many and within these limits, after a word."""
        are_numbers = re.fullmatch(word + "( (0|[1-9][0-9]{0,9}))+", line)
        numbers = [int(field) for field in line.split(" ")[1:]] if are_numbers else []
        if not shortest <= len(numbers) <= longest or not all(least <= n <= most for n in numbers):
            self.fail()
        return numbers

    def instruction(self):
        line = self.line()
        return line.startswith("I ") and instruction_of(line[2:]) or self.fail()

    def load_numbers(self, line, word, times):
        """The numbers of a line of a load: so many minor cycles, and after them the numbers of instructions."""
        numbers = self.numbers(line, word, 0, MOST_TIME, times + 1, times + MOST)
        if not all(1 <= n <= MOST for n in numbers[times:]):
            self.fail()
        return numbers

    def load(self, line):
        word, begin, end, *rest = line.split(" ") if line.count(" ") > 2 else self.fail()
        after, wait, *numbers = self.load_numbers(" ".join([word, *rest]), "A", 2)
        if begin not in FROM or end not in TO:
            self.fail()
        return Load(FROM[begin], TO[end], after, wait, numbers)

    def fact(self, line):
        if line == "Q":
            return Refuted()
        if line[0] == "A":
            return self.load(line)
        names = self.numbers(line, "[FB]", 1, MOST, 2, 2)
        return Pair(*names) if line[0] == "F" else Suppose(*names)

    def facts(self, version):
        facts, begins = [], tuple(map(str.encode, FACT_LINES[version]))
        while self.ahead.startswith(begins) and len(facts) < MOST_FACTS:
            facts.append(self.fact(self.line()))
        return facts

    def tree_line(self, version, way):
        line = self.line()
        kind, _, rest = line.partition(" ")
        if kind in NUMBERED[version]:
            names = self.load_numbers(line, kind, 1) if kind == "L" else self.numbers(line, kind, 1, *SHAPES[kind])
            return TreeLine(kind, names, [], way)
        if line in ("T", "P") or kind == "U" and rest in UNITS:
            return TreeLine(kind, rest, [], way)
        return self.fail()

    def tree(self, version):
        """The lines of a tree. At first one tree is to come, and after an S line as many as it has numbers."""
        lines, splits, to_come = [], 0, [([], None)]  # for each tree to come, to which children it belongs, and its way
        while to_come:
            children, way = to_come.pop()
            line = self.tree_line(version, way)
            lines.append(line)
            children.append(line)
            if line.kind == "S":
                to_come += [(line.children, (n, way)) for n in reversed(line.names)]
                splits += 1
            if splits > MOST_SPLITS:
                raise Refused("TOO MANY NODES")
        return lines

    def document(self):
        version = VERSIONS.get(self.line()) or self.fail()
        names = TIMES + UNITS
        numbers = self.numbers(self.line(), "PROFILE", 1, 100, len(names), len(names))
        [instructions] = self.numbers(self.line(), "BLOCK", 1, MOST)
        block = [self.instruction() for _ in range(instructions)]
        [time] = self.numbers(self.line(), "TIME", 0, MOST_TIME)
        [bound] = self.numbers(self.line(), "BOUND", 0, MOST_TIME)
        order = self.numbers(self.line(), "ORDER", 1, MOST, 1, MOST)
        facts = self.facts(version)
        tree = dict(enumerate(self.tree(version), 7 + instructions + len(facts)))
        has_supposed = any(isinstance(fact, (Suppose, Refuted)) for fact in facts)
        has_dominated = any(line.kind == "D" for line in tree.values())
        if self.line() != "END" or has_supposed != (version == 5) or has_dominated != (version in (2, 3)):
            self.fail()
        return Document(version, dict(zip(names, numbers)), block, time, bound, order, facts, tree)


# An instruction of an order: its number and itself, the parcel in which it begins, when it issues and starts, when each of
# its results is done, and when its unit is free. The prefix of an order is the tuple of its points.
Point = namedtuple("Point", "number own parcel issue start done free")


def meet_in_memory(one, other):
    """Whether both reference memory and one of them stores."""
    return bool(one.memory and other.memory and "store" in (one.memory, other.memory))


def conflict(earlier, later):
    """Whether an instruction has to stay after one that is written before it."""
    results, later_results = earlier.held | earlier.fetched, later.held | later.fetched
    over = results & (later.reads | later_results) or earlier.reads & later_results
    return bool(over) or meet_in_memory(earlier, later)


class Problem:
    """A block under a profile. Instructions are named by their numbers."""

    def __init__(self, profile, block):
        self.profile, self.block = profile, dict(enumerate(block, 1))
        self.needs, self.holds, self.latencies, self.touched, self.tails = {}, {}, {}, {}, {}
        for n, own in self.block.items():
            self.needs[n] = {a for a in range(1, n) if conflict(self.block[a], own)}
            self.holds[n] = profile[own.work]  # how long the unit works
            fetched = dict.fromkeys(own.fetched, profile["load"])
            self.latencies[n] = {**dict.fromkeys(own.held, self.holds[n]), **fetched}  # of results
            self.touched[n] = own.reads | own.held | own.fetched
            self.tails[n] = max(self.holds[n] + 1, 0, *self.latencies[n].values())  # to the end

    def remaining(self, prefix):
        placed = {point.number for point in prefix}
        return [n for n in self.block if n not in placed]

    def ready(self, prefix):
        """What remains and depends on nothing that remains, in rising order."""
        remaining = self.remaining(prefix)
        return [n for n in remaining if self.needs[n].isdisjoint(remaining)]

    def following_parcel(self, prefix):
        """The parcel after the last instruction's."""
        return prefix[-1].parcel + prefix[-1].own.parcels if prefix else 0

    def free_times(self, prefix, unit):
        """When the units of a kind are free after each of their instructions, the earliest first."""
        return sorted(point.free for point in prefix if point.own.unit == unit)

    def issue(self, prefix, n, slot):
        """The first order of conflict: a unit is free, and no result for the same register is still to come."""
        unit, copies = self.block[n].unit, self.profile[self.block[n].unit]
        free = self.free_times(prefix, unit)
        unit_free = free[-copies] if len(free) >= copies else 0  # fewer are busy from then on
        results = [point.done[x] for point in prefix for x in self.latencies[n] if x in point.done]
        return max([slot, unit_free] + results)

    def start(self, prefix, n, issue):
        """The second order: the operands are there, and the references to memory that it must not pass have started."""
        own = self.block[n]
        operands = [point.done[x] for point in prefix for x in own.reads if x in point.done]
        references = [point.start + 1 for point in prefix if meet_in_memory(point.own, own)]
        return max([issue] + operands + references)

    def done(self, prefix, n, start):
        """The third order, for each result: whatever has still to read the register before has started."""
        done = {x: start + latency for x, latency in self.latencies[n].items()}
        for point in prefix:
            for x in done.keys() & point.own.reads:
                done[x] = max(done[x], point.start + 1)
        return done

    def followed_by(self, prefix, n):
        """The prefix with one instruction more."""
        own, parcel = self.block[n], self.following_parcel(prefix)
        parcel += own.parcels == 2 and parcel % 4 == 3  # a filler, since it stays in one word
        slot = prefix[-1].issue + parcel - prefix[-1].parcel if prefix else 0
        issue = self.issue(prefix, n, slot)
        start = self.start(prefix, n, issue)
        done = self.done(prefix, n, start)
        free = max((done[x] for x in own.held), default=start + self.holds[n]) + 1
        return prefix + (Point(n, own, parcel, issue, start, done, free),)

    @lru_cache(maxsize=10_000)  # nodes that are named have much in common
    def beginning(self, numbers):
        """The prefix of these numbers, or nothing if no legal order begins so."""
        prefix = self.beginning(numbers[:-1]) if numbers[1:] else ()
        is_ready = prefix is not None and numbers[-1] in self.ready(prefix)
        return self.followed_by(prefix, numbers[-1]) if is_ready else None

    def total(self, prefix):
        """When every unit is free and every result is there."""
        return max(time for point in prefix for time in (point.free, *point.done.values()))

    def next_issue(self, prefix):
        """The least time at which another instruction can issue, fillers left out."""
        return prefix[-1].issue + prefix[-1].own.parcels if prefix else 0

    def is_only_unit(self, a, b):
        """Whether both need the only unit of their kind."""
        unit = self.block[a].unit
        return unit == self.block[b].unit and self.profile[unit] == 1

    def link(self, a, b):
        """How long b waits from the start of a; 0 if it waits for nothing of it."""
        results = [latency for x, latency in self.latencies[a].items() if x in self.touched[b]]
        return max(results + [int(meet_in_memory(self.block[a], self.block[b]))]) if a < b else 0

    def chain(self, prefix, chain):
        """What its instructions take one after another; nothing if they aren't a chain of what remains."""
        if not set(chain) <= set(self.remaining(prefix)):
            return None
        links, touched = list(map(self.link, chain, chain[1:])), self.touched[chain[0]]
        results = [point.done[x] for point in prefix for x in touched if x in point.done]
        head = max([self.next_issue(prefix)] + results)
        return head + sum(links) + self.tails[chain[-1]] if all(links) else None

    def load(self, prefix, unit):
        """What the units of a kind have still to do, shared by all of them."""
        begin, remaining = self.next_issue(prefix), self.remaining(prefix)
        work = sum(max(0, free - begin) for free in self.free_times(prefix, unit))
        work += sum(self.holds[n] + 1 for n in remaining if self.block[n].unit == unit)
        return begin + -(-work // self.profile[unit])  # rounded up

    def use_time(self, unit, uses):
        """How long the units of a kind are in use: if they share all uses, and since one has as many whole ones as any has at least."""
        copies = self.profile[unit]
        return max(-(-sum(uses) // copies), -(-len(uses) // copies) * min(uses))  # rounded up

    def parcels(self, prefix):
        """The parcels that remain; of the last instruction not its parcels but its tail, whichever is the last."""
        remaining = self.remaining(prefix)
        parcels = sum(self.block[n].parcels for n in remaining) + self.next_issue(prefix)
        return min(parcels - self.block[n].parcels + self.tails[n] for n in remaining)

    def value(self, prefix, leaf):
        """What every legal order with this prefix takes at least, as a leaf has it; nothing if that is no chain."""
        if leaf.kind == "C":
            return self.chain(prefix, leaf.names)
        if leaf.kind == "U":
            return self.load(prefix, leaf.names)
        return self.total(prefix) if leaf.kind == "T" else self.parcels(prefix)

    def waits(self, prefix):
        """For what the instructions that remain may wait, each with its time."""
        waits = {}
        for point in prefix:
            times = [(("result", x), time) for x, time in point.done.items()]
            times += [(("reader", x), point.start) for x in point.own.reads]  # 1 less, as the clamp
            times += [("reference", point.start + 1)] if point.own.memory else []
            times += [("store", point.start + 1)] if point.own.memory == "store" else []
            waits.update((what, max(time, waits.get(what, 0))) for what, time in times)
        for unit in UNITS:
            latest = self.free_times(prefix, unit)[: -self.profile[unit] - 1 : -1]
            waits.update(((unit, rank), time) for rank, time in enumerate(latest))
        return waits

    def is_in_step(self, node, prefix):
        """Whether next is no later after a node than after a prefix, and the parcels that follow lie alike in their words."""
        apart = self.following_parcel(node) - self.following_parcel(prefix)
        return apart % 4 == 0 and self.next_issue(node) <= self.next_issue(prefix)

    def dominates(self, version, node, prefix):
        """Whether a node dominates a prefix of the same numbers, by the rule of version 2 or 3."""
        slot, waits = self.next_issue(prefix), self.waits(prefix)
        is_slower = version == 2 and self.total(node) > self.total(prefix)
        if is_slower or not self.is_in_step(node, prefix):
            return False
        clamp = slot if version > 2 else 0  # nothing that follows can issue before
        return all(time <= max(waits[what], clamp) for what, time in self.waits(node).items())


class Known:
    """What is known of all legal orders that take less than a bound: which instruction stands before which, and arcs, that is,
    how much later one moment comes at least than another.
    """

    def __init__(self, problem, bound):
        self.problem, self.bound, self.arcs = problem, bound, {ORIGIN: {END: 0}, END: {}}
        self.before = {n: set() for n in problem.block}  # what stands before each
        self.outer = None  # in a supposition: what it is to show, and the arcs and what stood before each when it began
        self.longest = {}  # the longest paths from a moment, and to one, as they were worked out since there were other arcs
        for n in problem.block:
            self.add_own_arcs(n)
        for n, needs in problem.needs.items():
            for m in needs:
                self.add_pair(m, n)

    def add_arc(self, begin, end, wait):
        if wait > self.arcs[begin].get(end, -1):
            self.arcs[begin][end] = wait
            self.longest = {}

    def add_own_arcs(self, n):
        """Those of one instruction."""
        self.arcs.update((moment, {}) for moment in self.moments(n))
        self.arcs[ORIGIN].update(dict.fromkeys(self.moments(n), 0))
        self.add_arc(("issue", n), ("start", n), 0)
        self.add_arc(("start", n), ("free", n), self.problem.holds[n] + 1)
        self.add_arc(("free", n), END, 0)
        for x, latency in self.problem.latencies[n].items():
            self.add_arc(("start", n), (x, n), latency)
            self.add_arc((x, n), END, 0)
            if x in self.problem.block[n].held:
                self.add_arc((x, n), ("free", n), 1)

    def add_later_arcs(self, m, n):
        """Those of an instruction and one that stands after it."""
        one, other = self.problem.block[m], self.problem.block[n]
        self.add_arc(("issue", m), ("issue", n), one.parcels)
        if self.problem.is_only_unit(m, n):
            self.add_arc(("free", m), ("issue", n), 0)
        if meet_in_memory(one, other):
            self.add_arc(("start", m), ("start", n), 1)
        for x in self.problem.latencies[m].keys() & self.problem.latencies[n]:
            self.add_arc((x, m), ("issue", n), 0)
        for x in self.problem.latencies[m].keys() & other.reads:
            self.add_arc((x, m), ("start", n), 0)
        for x in self.problem.latencies[n].keys() & one.reads:
            self.add_arc(("start", m), (x, n), 1)

    def add_pair(self, m, n):
        """The first stands before the second, and what stands before the first before what stands after the second."""
        for k in [k for k in self.before if k == n or n in self.before[k]]:
            for j in {m, *self.before[m]} - self.before[k]:
                self.before[k].add(j)
                self.add_later_arcs(j, k)

    def moments(self, n):
        """Of one instruction, each after those from which an arc leads to it."""
        return [(stage, n) for stage in ("issue", "start", *self.problem.latencies[n], "free")]

    def all_moments(self):
        """Of all instructions, in such an order too."""
        numbers = sorted(self.before, key=lambda n: len(self.before[n]))
        return [ORIGIN, *(moment for n in numbers for moment in self.moments(n)), END]

    def paths_from(self, begin):
        """The longest path from one moment to each other to which some path leads."""
        if ("from", begin) not in self.longest:
            paths = self.longest["from", begin] = {begin: 0}
            for moment in self.all_moments():
                for later, wait in self.arcs[moment].items() if moment in paths else ():
                    paths[later] = max(paths[moment] + wait, paths.get(later, 0))
        return self.longest["from", begin]

    def paths_to(self, end):
        """The longest path to one moment from each other from which some path leads there."""
        if ("to", end) not in self.longest:
            paths = self.longest["to", end] = {end: 0}
            for moment in reversed(self.all_moments()):
                for later, wait in self.arcs[moment].items():
                    if later in paths:
                        paths[moment] = max(wait + paths[later], paths.get(moment, 0))
        return self.longest["to", end]

    def is_forced(self, y, x):
        """Whether an order takes the bound at least in which x stands before y."""
        if x == y or not {x, y} <= self.before.keys() or x in self.before[y]:
            return False
        heads, tail = self.paths_from(ORIGIN), self.paths_to(END)["issue", y]
        by_parcels = heads["issue", x] + self.problem.block[x].parcels + tail
        by_unit = heads["free", x] + tail if self.problem.is_only_unit(x, y) else 0
        return max(by_parcels, by_unit) >= self.bound

    def leads_up(self, begin, end):
        """Whether both moments are there, and an arc from the one to the other makes no ring."""
        is_up = begin == ORIGIN or end == END or begin[1] in self.before.get(end[1], ())
        return is_up and begin in self.arcs and end in self.arcs

    def is_in_use(self, load, heads, tails):
        """Whether units of one kind are in use between two moments as a load says: with how long after the first each other
        moment comes at least, and how long before the second.
        """
        block, numbers = self.problem.block, load.numbers
        if numbers != [n for n in block if n in numbers]:
            return False
        uses, units = {n: self.problem.holds[n] + 1 for n in numbers}, {block[n].unit for n in numbers}
        time = self.problem.use_time(block[numbers[0]].unit, list(uses.values()))

        def is_between(n, use):
            """Whether a use from an issue or a start on is late enough, and leaves enough to the end."""
            moments = [m for m in (("issue", n), ("start", n)) if heads.get(m, -1) >= load.after and m in tails]
            return any(use + load.wait <= load.after + time + tails[m] for m in moments)

        return len(units) == 1 and all(is_between(n, use) for n, use in uses.items())

    def is_loaded(self, load):
        """Whether a load line is right."""
        leads_up = self.leads_up(load.begin, load.end)
        return leads_up and self.is_in_use(load, self.paths_from(load.begin), self.paths_to(load.end))

    def may_be_supposed(self, y, x):
        """Whether nothing is supposed, and which of these two stands first isn't known."""
        are_two = x != y and {x, y} <= self.before.keys()
        return not self.outer and are_two and y not in self.before[x] and x not in self.before[y]

    def suppose(self, y, x):
        self.outer = (y, x), self.arcs, self.before
        self.arcs = {moment: dict(waits) for moment, waits in self.arcs.items()}
        self.before = {n: set(numbers) for n, numbers in self.before.items()}
        self.add_pair(x, y)

    def is_refuted(self):
        """Whether every order takes the bound at least that has what is supposed."""
        return bool(self.outer) and self.paths_from(ORIGIN)[END] >= self.bound

    def leave_supposition(self):
        """Nothing is supposed again, and what was known before is known; what the supposition was to show."""
        pair, self.arcs, self.before = self.outer
        self.outer, self.longest = None, {}
        return pair

    def add_fact(self, fact):
        """Whether a fact line is right; what it says is then known."""
        if isinstance(fact, Pair) and self.is_forced(*fact):
            self.add_pair(*fact)
        elif isinstance(fact, Load) and self.is_loaded(fact):
            self.add_arc(fact.begin, fact.end, fact.wait)
        elif isinstance(fact, Suppose) and self.may_be_supposed(*fact):
            self.suppose(*fact)
        elif isinstance(fact, Refuted) and self.is_refuted():
            self.add_pair(*self.leave_supposition())
        else:
            return False
        return True

    @cached_property
    def tails(self):
        return self.paths_to(END)

    def next_moments(self, prefix, n):
        """When each of the moments of an instruction is, if it comes next."""
        point = self.problem.followed_by(prefix, n)[-1]
        times = {"issue": point.issue, "start": point.start, **point.done, "free": point.free}
        return {(stage, n): time for stage, time in times.items()}

    def next_value(self, prefix, n):
        """The greatest of the moments of an instruction, if it comes next, each with the longest path to the end."""
        return max(time + self.tails[moment] for moment, time in self.next_moments(prefix, n).items())

    def is_left(self, prefix, load):
        """Whether units of one kind have to do after a prefix what a load from the origin to the end says."""
        if not set(load.numbers) <= set(self.problem.remaining(prefix)):
            return False
        heads = {moment: time for n in load.numbers for moment, time in self.next_moments(prefix, n).items()}
        return self.is_in_use(load, heads, self.tails)

    def turn(self, prefix, n):
        """No order that has this prefix issues an instruction sooner: what remains and stands before it takes its parcels."""
        earlier = self.before[n].intersection(self.problem.remaining(prefix))
        return self.problem.next_issue(prefix) + sum(self.problem.block[m].parcels for m in earlier)

    def uses(self, prefix, n):
        """What an instruction may wait for that comes after a prefix, each with the soonest moment at which it may."""
        point, turn = self.problem.followed_by(prefix, n)[-1], self.turn(prefix, n)
        issue, start, latencies = max(point.issue, turn), max(point.start, turn), self.problem.latencies[n]
        issued = [(point.own.unit, rank) for rank in range(self.problem.profile[point.own.unit])]
        issued += [("result", x) for x in latencies]
        started = [("result", x) for x in point.own.reads]
        started += [{"load": "store", "store": "reference"}[point.own.memory]] if point.own.memory else []
        uses = [(what, issue) for what in issued] + [(what, start) for what in started]
        return uses + [(("reader", x), start + latency - 1) for x, latency in latencies.items()]

    def dominates(self, node, prefix):
        """Whether a node dominates a prefix of the same numbers in use: by the rule of version 4."""
        total, waits, other = self.problem.total(node), self.problem.waits(node), self.problem.waits(prefix)
        is_slower = total > self.problem.total(prefix) and total >= self.bound
        if is_slower or not self.problem.is_in_step(node, prefix):
            return False
        uses = [use for n in self.problem.remaining(prefix) for use in self.uses(prefix, n)]
        return all(waits.get(what, 0) <= max(other.get(what, 0), time) for what, time in uses)


def node_at(line, name):
    """The line to which the numbers of a name lead from a tree's first line, or nothing."""
    for n in name:
        if line.kind != "S" or n not in line.names:
            return None
        line = line.children[line.names.index(n)]
    return line


def name_of(line):
    """The numbers that lead to a line from a tree's first line."""
    name, way = [], line.way
    while way:
        n, way = way
        name.append(n)
    return name[::-1]


def domination_fault(known, document, prefix, leaf):
    """What is wrong with a dominated leaf, or nothing."""
    if leaf.kind == "D":
        line = node_at(next(iter(document.tree.values())), leaf.names)
    else:
        line = document.tree.get(leaf.names[0])
    problem, name, numbers = known.problem, line and name_of(line), [point.number for point in prefix]
    may_be_named = line and (name < numbers if document.version == 2 else line.kind != leaf.kind)
    node = may_be_named and sorted(name) == sorted(numbers) and problem.beginning(tuple(name))
    if not node:
        return NOT_TO_BE_NAMED
    if leaf.kind == "N":
        return None if known.dominates(node, prefix) else NOT_DOMINATED
    return None if problem.dominates(document.version, node, prefix) else NOT_DOMINATED


def line_fault(known, document, prefix, line):
    """What is wrong with a line of a tree at its prefix, or nothing."""
    problem = known.problem
    remaining = problem.remaining(prefix)
    if line.kind == "S":
        return NOT_THE_READY if line.names != problem.ready(prefix) else None
    if (line.kind == "T") == bool(remaining):
        return NOT_HERE
    if line.kind in ("D", "N"):
        return domination_fault(known, document, prefix, line)
    if line.kind == "E":
        [n] = line.names
        return None if n in remaining and known.next_value(prefix, n) >= document.bound else NOT_TOO_LATE
    if line.kind == "R":
        y, x = line.names
        return None if y in remaining and x not in remaining and y in known.before.get(x, ()) else NOT_TURNED
    if line.kind == "L":
        after, *numbers = line.names
        return None if known.is_left(prefix, Load(ORIGIN, END, after, document.bound, numbers)) else NOT_LEFT
    value = problem.value(prefix, line)
    if value is None:
        return NO_CHAIN
    return BELOW_BOUND if value < document.bound else None


def faults(document):
    """The line and the reason of each fault, the first of which is printed: what comes after it relies on it."""
    problem, order_line = Problem(document.profile, document.block), 6 + len(document.block)
    order = problem.beginning(tuple(document.order))
    if not order or problem.remaining(order):
        yield order_line, NOT_LEGAL
    if problem.total(order) != document.time:
        yield order_line - 2, NOT_THE_TIME
    if document.bound > document.time:
        yield order_line - 1, ABOVE_TIME
    known, begun = Known(problem, document.bound), None
    for number, fact in enumerate(document.facts, order_line + 1):
        if not known.add_fact(fact):
            yield number, NO_FACT
        begun = number if isinstance(fact, Suppose) else begun
    if known.outer:
        yield begun, NO_FACT
    to_come = [()]  # the prefixes of the trees that are still to come, the next one last
    for number, line in document.tree.items():
        prefix = to_come.pop()
        reason = line_fault(known, document, prefix, line)
        if reason:
            yield number, reason
        if line.kind == "S":
            to_come += [problem.followed_by(prefix, n) for n in reversed(line.names)]


def verdict_of(document):
    for line, reason in faults(document):
        return f"NO LINE {line} REASON {reason}"
    return f"YES TIME {document.time} BOUND {document.bound}"


def main():
    reader, verdicts = Reader(sys.stdin.buffer), []
    try:
        while reader.ahead:
            verdicts.append(verdict_of(reader.document()))
    except Refused as refused:
        print(refused, file=sys.stderr)
        return 3
    if not verdicts:
        print("no document: s66 check reads what s66 prove prints", file=sys.stderr)
    for number, verdict in enumerate(verdicts, 1):
        print("DOCUMENT", number, verdict)
    return 5 if any(verdict.startswith("NO") for verdict in verdicts) else 0


if __name__ == "__main__":
    sys.exit(main())
