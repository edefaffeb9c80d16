#!/usr/bin/env python3
"""Finds a certificate of version 4 or 5 for a small block: fact lines, and the tree that they leave. For tests, and unverified.

    tools/find_facts.py [--profile TEXT] [--bound N] [--splits N] [--suppose] < SOURCE

The lines of SOURCE are the instructions of one block, without location fields. Without a bound all legal orders are timed, and
the document shows that none takes less than the best one. With a bound it claims the source order with its time, and the
bound. With --suppose suppositions are tried too. Status 1: some order takes less, or the tree has more than N splits, 10,000
unless given.
"""
import argparse
import itertools
import json
import sys

import certificate
from certificate import END, FROM, ORIGIN, TO, Known, Load, Pair, Problem, Refuted, Suppose

PROFILE = dict(zip(certificate.TIMES + certificate.UNITS, [3, 3, 4, 4, 3, 10, 29, 8, 3, 8, 1, 1, 1, 1, 2, 1, 2]))
LEAVES = "RUPENL"  # the kinds of leaves, T left out
ANCHOR_TEXTS = {moment: text for text, moment in {**FROM, **TO}.items()}


def profile_of(text):
    """The profile of a text as `--profile` takes it, which is right."""
    given = json.loads(text)
    return {name: given.get(name if name in certificate.TIMES else "units_" + name.lower(), PROFILE[name]) for name in PROFILE}


def instruction_text(line):
    """The text of an instruction in a certificate; the line has no location field, and a remark only after an operand."""
    return " ".join(line.upper().split()[:2])


def legal_orders(problem, prefix=()):
    """All legal orders that begin so."""
    if not problem.remaining(prefix):
        yield prefix
    for n in problem.ready(prefix):
        yield from legal_orders(problem, problem.followed_by(prefix, n))


def any_leaves(chance):
    """The kinds of leaves in any order, half of the time L first."""
    leaves = chance.sample(LEAVES, len(LEAVES))
    return sorted(leaves, key="L".__ne__) if chance.random() < 0.5 else leaves


class TooManySplits(Exception):
    """A tree has more splits than it may."""


class Finder:
    """Looks for fact lines and a tree that show a bound. A line of the tree is its kind and what it names; an N line names the
    place of a line of the tree. A prefix of fewer numbers than `least` has no leaf. Loads within a supposition are looked for
    from the origin to the end alone, or if it `is_wide`, between all moments.
    """

    def __init__(self, problem, bound, splits=10_000, leaves=LEAVES, least=0, is_wide=False):
        self.problem, self.bound, self.splits, self.leaves, self.least = problem, bound, splits, leaves, least
        self.known, self.facts, self.is_wide = Known(problem, bound), [], is_wide

    def add(self, fact):
        """Whether a fact is right; it is then known, and kept."""
        is_right = self.known.add_fact(fact)
        self.facts += [fact] if is_right else []
        return is_right

    def pairs(self):
        """The pairs of which it isn't known which stands first."""
        pairs = itertools.permutations(self.problem.block, 2)
        return [Pair(y, x) for y, x in pairs if y not in self.known.before[x] and x not in self.known.before[y]]

    def anchors(self):
        """The moments between which a load may be."""
        if self.known.outer and not self.is_wide:
            return [(ORIGIN, END)]
        moments = [[m for m in anchors.values() if m in self.known.arcs] for anchors in (FROM, TO)]
        return [(begin, end) for begin, end in itertools.product(*moments) if self.known.leads_up(begin, end)]

    def loads(self, begin, end, unit, heads, tails):
        """The loads of a kind of unit between two moments: with how long after the first each other moment comes at least, and
        how long before the second. From each beginning on they have what leaves so much to the end, or more.
        """
        uses, ways = {}, []  # a way: a number, how long after the first moment its use begins, and before the last one it ends
        for n in [n for n, own in self.problem.block.items() if own.unit == unit]:
            uses[n] = self.problem.holds[n] + 1
            for moment in (("issue", n), ("start", n)):
                if moment in heads and moment in tails:
                    ways.append((n, heads[moment], tails[moment] - uses[n]))
        for after, left in itertools.product({after for _, after, _ in ways}, {left for _, _, left in ways}):
            numbers = sorted({n for n, head, tail in ways if head >= after and tail >= left})
            if numbers:
                wait = after + left + self.problem.use_time(unit, [uses[n] for n in numbers])
                yield Load(begin, end, after, wait, numbers)

    def load_between(self, begin, end, unit):
        """The load of a kind of unit that says most between two moments, or nothing if the longest path says as much."""
        heads, tails = self.known.paths_from(begin), self.known.paths_to(end)
        loads = self.loads(begin, end, unit, heads, tails)
        more = [load for load in loads if len(load.numbers) > self.problem.profile[unit] and load.wait > heads.get(end, 0)]
        return max(more, key=lambda load: (load.wait, -len(load.numbers)), default=None)

    def next_moments(self, prefix):
        """When each moment of what remains is, if its instruction comes next."""
        moments = [self.known.next_moments(prefix, n) for n in self.problem.remaining(prefix)]
        return {moment: time for times in moments for moment, time in times.items()}

    def loads_left(self, prefix):
        """The loads of all kinds of unit after a prefix, to the end."""
        heads = self.next_moments(prefix)
        return [load for unit in certificate.UNITS for load in self.loads(ORIGIN, END, unit, heads, self.known.tails)]

    def candidates(self, has_loads):
        """Pairs, and loads that say more than the longest path, each by what is known when it is asked for."""
        yield from self.pairs()
        for begin, end in self.anchors() if has_loads else []:
            for unit in sorted({own.unit for own in self.problem.block.values()}):
                load = self.load_between(begin, end, unit)
                if load:
                    yield load

    def find_facts(self, has_loads=True):
        """Adds facts until there are no more, or what is supposed is refuted."""
        is_more = True
        while is_more:
            is_more = False
            for fact in self.candidates(has_loads):
                if self.known.is_refuted():
                    return
                is_more |= self.add(fact)

    def give_up(self):
        """Leaves a supposition that isn't refuted, and its lines."""
        self.known.leave_supposition()
        while not isinstance(self.facts.pop(), Suppose):
            pass

    def find_supposition(self, pair, has_loads=True):
        """Whether a pair is shown by a supposition, which is then kept with the facts that refute it."""
        if not self.add(Suppose(*pair)):
            return False
        self.find_facts(has_loads)
        if self.add(Refuted()):
            return True
        self.give_up()
        return False

    def find_suppositions(self, has_loads=True):
        """Adds suppositions until there are no more."""
        while any([self.find_supposition(pair, has_loads) for pair in self.pairs()]):
            pass

    def leaf(self, prefix, closed):
        """A leaf for a prefix that isn't complete, or nothing; closed are the nodes of its numbers that it may name."""
        if len(prefix) < self.least:
            return None
        numbers = [point.number for point in prefix]
        remaining = self.problem.remaining(prefix)
        turned = [("R", y, x) for x in numbers for y in remaining if y in self.known.before[x]]
        loaded = [("U", unit) for unit in certificate.UNITS if self.problem.load(prefix, unit) >= self.bound]
        parcels = [("P",)] if self.problem.parcels(prefix) >= self.bound else []
        late = [("E", n) for n in remaining if self.known.next_value(prefix, n) >= self.bound]
        named = [("N", place) for node, place in closed if self.known.dominates(node, prefix)]
        loads = [load for load in self.loads_left(prefix) if load.wait >= self.bound]
        left = [("L", load.after, *load.numbers) for load in sorted(loads, key=lambda load: load.wait)]  # a narrow one first
        kinds = {"R": turned, "U": loaded, "P": parcels, "E": late, "N": named, "L": left}
        return next((leaf for kind in self.leaves for leaf in kinds[kind]), None)

    def find_tree(self):
        """The lines of the tree, or nothing if some order takes less than the bound."""
        lines, closed, to_come, splits = [], {}, [()], 0
        while to_come:
            prefix = to_come.pop()
            alike = closed.setdefault(frozenset(point.number for point in prefix), [])
            ready = self.problem.ready(prefix)
            if not ready and self.problem.total(prefix) < self.bound:
                return None
            leaf = self.leaf(prefix, alike) if ready else ("T",)
            if not leaf or leaf[0] != "N":
                alike.append((prefix, len(lines)))
            lines.append(leaf or ("S", *ready))
            to_come += [] if leaf else [self.problem.followed_by(prefix, n) for n in reversed(ready)]
            splits += not leaf
            if splits > self.splits:
                raise TooManySplits
        return lines

    def parts(self):
        """What may be left out, the last first: each fact, and a supposition with all that is within; then each that is within one."""
        parts, begun = [], []
        for fact in self.facts:
            if begun:
                begun.append(fact)
            else:
                parts.append([fact])
            if isinstance(fact, (Suppose, Refuted)):
                begun = parts[-1] if isinstance(fact, Suppose) else []
        within = [[fact] for part in parts for fact in part[1:-1]]
        return [*reversed(parts), *reversed(within)]

    def prune(self):
        """Leaves out the facts without which the tree grows no larger; the lines of the tree."""
        tree = self.find_tree()
        for part in self.parts() if tree else []:
            left_out, fewer = set(map(id, part)), Finder(self.problem, self.bound, self.splits, self.leaves, self.least)
            kept = [other for other in self.facts if id(other) not in left_out]
            if len(kept) < len(self.facts) and all(map(fewer.add, kept)):
                smaller = fewer.find_tree()
                if smaller and len(smaller) <= len(tree):
                    tree, self.facts, self.known = smaller, fewer.facts, fewer.known
        return tree


def fact_text(fact):
    if isinstance(fact, Refuted):
        return "Q"
    if isinstance(fact, (Pair, Suppose)):
        return f"{'F' if isinstance(fact, Pair) else 'B'} {fact.first} {fact.second}"
    words = [ANCHOR_TEXTS[fact.begin], ANCHOR_TEXTS[fact.end], fact.after, fact.wait, *fact.numbers]
    return " ".join(["A", *map(str, words)])


def version_of(facts):
    """The version of a document with these facts."""
    return 5 if any(isinstance(fact, Suppose) for fact in facts) else 4


def proof(finder, tree, begin):
    """The lines of the facts that were found and of a tree, of which the first has this number in the document."""
    begin += len(finder.facts)
    lines = [("N", line[1] + begin) if line[0] == "N" else line for line in tree]
    return [fact_text(fact) for fact in finder.facts] + [" ".join(map(str, line)) for line in lines]


def document(texts, order, finder, tree):
    """The lines of a document that claims an order with its time, and the bound of what was found."""
    problem, version = finder.problem, version_of(finder.facts)
    head = [f"S66 CERTIFICATE {version}", " ".join(["PROFILE", *map(str, problem.profile.values())]), f"BLOCK {len(texts)}"]
    head += [f"I {text}" for text in texts] + [f"TIME {problem.total(order)}", f"BOUND {finder.bound}"]
    head.append(" ".join(["ORDER", *(str(point.number) for point in order)]))
    return head + proof(finder, tree, len(head) + 1) + ["END"]


def main():
    parser = argparse.ArgumentParser(description=__doc__.split("\n")[0])
    parser.add_argument("--profile", type=profile_of, default=PROFILE)
    parser.add_argument("--bound", type=int)
    parser.add_argument("--splits", type=int, default=10_000)
    parser.add_argument("--suppose", action="store_true")
    asked = parser.parse_args()
    texts = [instruction_text(line) for line in sys.stdin if line.strip()]
    block = [certificate.instruction_of(text) for text in texts]
    if not all(block):
        sys.exit(f"no instruction: {texts[block.index(None)]}")
    problem = Problem(asked.profile, block)
    order = problem.beginning(tuple(problem.block))
    if asked.bound is None:
        order = min(legal_orders(problem), key=problem.total)
    finder = Finder(problem, problem.total(order) if asked.bound is None else asked.bound, asked.splits)
    finder.find_facts()
    if asked.suppose:
        finder.find_suppositions()
    try:
        tree = finder.prune()
    except TooManySplits:
        tree = None
    if not tree:
        return 1
    print("\n".join(document(texts, order, finder, tree)))
    return 0


if __name__ == "__main__":
    sys.exit(main())
