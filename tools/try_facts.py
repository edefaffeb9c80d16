#!/usr/bin/env python3
"""Tries the rules of fact lines and of certificates of versions 4 and 5 on random small blocks, against all their legal orders.

    tools/try_facts.py [--blocks N] [--seed N] [--suppositions]

It tries N blocks of 3 to 12 instructions, 300 unless given, half of them under a random profile. Of each, all legal orders are
timed. tools/certificate.py has to say YES to the document that tools/find_facts.py finds for the best time. For a greater
bound there must be no tree, and no YES to that document with the greater bound and damages. And what fact lines say for a
greater bound, found ones and random ones, has to be so in each order that takes less: pairs, those that suppositions show too,
the longest path between any two moments, and the values of E lines at its prefixes; and within a supposition, in each such
order that has what is supposed. After a supposition its pair has to be known, and else what is known without its lines. To
documents with a line B or Q where none may be it has to say NO for that line. By such fact lines no L line after a beginning,
found or random, may say more than all take that complete the beginning below the bound. Where a beginning dominates another in
use by such fact lines, whatever completes the other below the bound has to complete it so too. With --suppositions only these
are tried, on blocks of fewer orders, in a tenth of the time. Each fault is printed with its block. The same seed makes the same
blocks.
"""
import argparse
import collections
import functools
import io
import itertools
import random
import re
import sys

import certificate
from certificate import END, ORIGIN, Known, Load, Pair, Problem, Refuted, Suppose
from compare_certificates import CONSTANTS, INSTRUCTIONS
from find_facts import PROFILE, Finder, any_leaves, document, legal_orders

FEW = """
FXi Xj*Xk|FXi Xj/Xk|FXi Xj+Xk|IXi Xj+Xk|BXi Xj+Xk|BXi Xj|LXi Bj,Xk|NXi Bj,Xk|SAi Aj+Bk|SAi Bj+Bk|SXi Xj+Bk|SBi Bj+Bk|SXi Bj+K
""".strip().split("|")
MOST_ORDERS = {False: 1000, True: 120}  # of a block, and if suppositions alone are tried
COUNTS = [3, 4, 5, 5, 6, 6, 7, 7, 7, 8, 9, 10, 12]  # of instructions
MOST_PAIRS = 30  # of beginnings, of a block
BEGINNINGS = 10  # of a block, after which loads are tried
MOST_MISPLACED, MOST_CLAIMS = {False: 10, True: 4}, {False: 20, True: 8}  # documents of a block


def verdict(lines):
    """What the checker says of a document, or why it is refused."""
    text = "".join(line + "\n" for line in lines)
    try:
        return certificate.verdict_of(certificate.Reader(io.BytesIO(text.encode())).document())
    except certificate.Refused as refused:
        return str(refused)


def times_of(order, total):
    """The time of each moment of an order, of which this is the total."""
    times = {ORIGIN: 0, END: total}
    for point in order:
        stages = {"issue": point.issue, "start": point.start, **point.done, "free": point.free}
        times.update(((stage, point.number), time) for stage, time in stages.items())
    return times


def numbers_of(points):
    return tuple(point.number for point in points)


def is_late(finder):
    """Whether a path through the issue or the start of an instruction takes the bound, or an arc from the origin to the end."""
    known, problem = finder.known, finder.problem
    heads, tails = known.paths_from(ORIGIN), known.paths_to(END)
    through = [heads[stage, n] + tails[stage, n] for n in problem.block for stage in ("issue", "start")]
    return max(through + [known.arcs[ORIGIN][END]]) >= known.bound


def known_without(finder):
    """What is known by the pairs that suppositions show, without their lines."""
    known, is_within = Known(finder.problem, finder.bound), False
    for fact in finder.facts:
        if isinstance(fact, (Suppose, Pair)) and not is_within:
            known.add_pair(*fact)
        elif isinstance(fact, Load) and not is_within:
            known.add_arc(fact.begin, fact.end, fact.wait)
        is_within = isinstance(fact, Suppose) or is_within and not isinstance(fact, Refuted)
    return known


def longest(load, is_right):
    """A load that says as much as is right."""
    for step in (128, 64, 32, 16, 8, 4, 2, 1):
        longer = load._replace(wait=load.wait + step)
        load = longer if is_right(longer) else load
    return load


class Trial:
    """A random block, with all its orders."""

    def __init__(self, chance, counts, is_supposing):
        self.any, self.counts, self.is_supposing, self.told = chance, counts, is_supposing, []
        while True:
            some = chance.choice([FEW, chance.sample(FEW, 3), chance.sample(FEW, 2), INSTRUCTIONS])
            self.texts = [self.instruction(some, chance.choice([2, 3, 4, 8])) for _ in range(chance.choice(COUNTS))]
            numbers = {True: [1, 1, 2, 3], False: [1, 2, 3, 5, 8, 20]}  # of copies, and of minor cycles
            profile = {name: chance.choice(numbers[name in certificate.UNITS]) for name in PROFILE}
            block = [certificate.instruction_of(text) for text in self.texts]
            self.problem = Problem(chance.choice([PROFILE, profile]), block)
            most = MOST_ORDERS[is_supposing]
            self.orders = list(itertools.islice(legal_orders(self.problem), most + 1))
            if len(self.orders) <= most:
                break
        self.orders.sort(key=self.problem.total)
        self.best = self.problem.total(self.orders[0])

    def instruction(self, templates, registers):
        template = self.any.choice(templates).replace("K", self.any.choice(CONSTANTS[:3]))
        return re.sub("[ijk]", lambda _: str(self.any.randrange(registers)), template)

    def load(self, begin, end, numbers, heads, is_right):
        """A random load between two moments of some of these numbers, most often of one kind. It says as much as is right, and
        begins about when they do: heads say how long after the first moment each other comes at least.
        """
        unit = self.problem.block[self.any.choice(numbers)].unit
        alike = [n for n in numbers if self.problem.block[n].unit == unit or self.any.random() < 0.1]
        copies = alike * 2 if self.any.random() < 0.1 else alike  # with these a number may be there twice
        some, stage = sorted(self.any.sample(copies, self.any.randint(1, len(alike)))), self.any.choice(["issue", "start"])
        after = min(heads.get((stage, n), 0) for n in some) + self.any.choice([0, 0, 0, 1, 2, -1])
        return longest(Load(begin, end, max(0, after), 0, some), is_right)

    def fact(self, finder):
        """A random fact line."""
        if self.any.random() < 0.2:
            return Pair(*self.any.choices(list(self.problem.block), k=2))
        begin, end = self.any.choice(finder.anchors())
        return self.load(begin, end, list(self.problem.block), finder.known.paths_from(begin), finder.known.is_loaded)

    def facts_for(self, bound):
        """A finder with facts for a bound, found ones and random ones."""
        count, least, has_loads = len(self.problem.block), self.any.choice([0, 0, 1, 2]), self.any.random() < 0.7
        has_all_loads = has_loads and count < 8 and not self.is_supposing
        finder = Finder(self.problem, bound, leaves=any_leaves(self.any), least=least, is_wide=count < 5)
        if self.any.random() < 0.5:
            finder.find_facts(has_all_loads)
        for _ in range(self.any.choice([0, 5] if self.is_supposing else [0, 5, 20])):
            finder.add(self.fact(finder))
        if self.is_supposing or self.any.random() < 0.5:
            self.suppose(finder)
        if self.any.random() < 0.5:
            finder.find_facts(has_all_loads)
        if self.any.random() < 0.5:
            finder.find_suppositions(has_loads)
        return finder

    def suppose(self, finder):
        """Some suppositions with random lines, which are kept if they are right."""
        for _ in range(self.any.choice([1, 2, 5, 10])):
            pairs = finder.pairs() if self.any.random() < 0.9 else [self.any.choices(list(self.problem.block), k=2)]
            if not pairs or not finder.add(Suppose(*self.any.choice(pairs))):
                continue
            for _ in range(self.any.choice([0, 0, 1, 3, 10])):
                finder.add(self.fact(finder))
            if self.any.random() < 0.3:
                finder.find_facts(self.any.random() < 0.7)
            self.told += self.wrong_within(finder)
            if finder.add(Refuted()):
                self.counts["random suppositions, right"] += 1
            else:
                self.counts["random suppositions, wrong"] += 1
                finder.give_up()

    def wrong_within(self, finder):
        """What is wrong with what is known within a supposition."""
        known, (y, x) = finder.known, finder.known.outer[0]
        if is_late(finder) != known.is_refuted():
            yield f"{y} {x}: the longest path to the end is another one than through issues and starts"
        supposed = [order for order in self.orders if numbers_of(order).index(x) < numbers_of(order).index(y)]
        self.counts["orders that have what is supposed"] += len(supposed)
        yield from self.wrong_known(finder, supposed, has_values=False)

    def wrong_facts(self, finder):
        """What is known for a bound, and isn't so in an order that takes less."""
        without = known_without(finder)
        if (without.before, without.arcs) != (finder.known.before, finder.known.arcs):
            yield f"lines of a supposition are known after it: {finder.facts}"
        shown = [fact for fact in finder.facts if isinstance(fact, Suppose)]
        below = [order for order in self.orders if self.problem.total(order) < finder.bound]
        self.counts["supposed pairs in orders that take less"] += len(shown) * len(below)
        yield from self.wrong_known(finder, self.orders, has_values=True)

    def wrong_known(self, finder, orders, has_values):
        """What is known for a bound, and isn't so in one of these orders that takes less, with the values of E lines or without."""
        known, paths, seen = finder.known, {begin: finder.known.paths_from(begin) for begin in finder.known.arcs}, set()
        for order in orders:
            times, numbers = times_of(order, self.problem.total(order)), numbers_of(order)
            if times[END] >= finder.bound:
                return
            wrong = [(m, n) for n in numbers for m in known.before[n] if numbers.index(m) > numbers.index(n)]
            wrong += [(e, f) for e in paths for f, wait in paths[e].items() if times[f] - times[e] < wait]
            for length in range(len(order) if has_values else 0):
                remaining = numbers[length:] if numbers[:length] not in seen else ()  # no later order takes less
                wrong += [("E", n) for n in remaining if known.next_value(order[:length], n) > times[END]]
                seen.add(numbers[:length])
            if wrong:
                yield f"{wrong[0]} isn't so in {numbers}, which takes {times[END]}, for the bound {finder.bound}"

    def damage_supposition(self, lines, begin):
        """Changes a line B or Q, or adds or leaves out one; or leaves out a line behind a B, or puts it behind a Q."""
        places = [place for place in range(begin, len(lines)) if lines[place][0] in "BQ"]
        if not places:
            return
        place, change = self.any.choice(places), self.any.randrange(5)
        if change == 0:
            del lines[place]
        elif change == 1:
            lines.insert(place, self.any.choice([lines[place], "Q", "A 0 END 0 3 1 2", "B 1 2"]))
        elif change == 2:
            lines[place] = " ".join(["B", *reversed(lines[place].split(" ")[1:])]) if lines[place][0] == "B" else "Q"
        elif change == 3:
            del lines[place + (lines[place][0] == "B")]
        else:
            lines.insert(self.any.choice(places) + 1, lines.pop(place + 1))

    def damaged(self, lines):
        """A document with some numbers changed, and with its lines after the order in some other order."""
        lines = list(lines)
        begin = next(place for place, line in enumerate(lines) if line.startswith("ORDER")) + 1
        if self.any.random() < 0.5:
            self.damage_supposition(lines, begin)
        for _ in range(self.any.randint(1, 4)):
            places = [place for place in range(begin, len(lines)) if re.search(r" \d", lines[place])]
            place = self.any.choice(places or [begin])
            numbers = list(re.finditer(r"\d+", lines[place]))
            if numbers:
                chosen = self.any.choice(numbers)
                changed = max(1, int(chosen[0]) + self.any.choice([-2, -1, 1, 2, 3]))
                lines[place] = lines[place][: chosen.start()] + str(changed) + lines[place][chosen.end() :]
            elif self.any.random() < 0.3:
                lines.insert(begin, lines[place])
        return lines

    def misplaced(self, lines, finder):
        """Documents with a line B or Q where none may be, or with none where one has to be, each with the line that is wrong."""
        begin, count = len(self.texts) + 6, len(self.texts)
        end = begin + len(finder.facts)
        begins = [place for place in range(begin, end) if lines[place][0] == "B"]
        ends = [place for place in range(begin, end) if lines[place] == "Q"]
        for place in begins:
            yield [*lines[:place], "Q", *lines[place:]], place + 1
            yield [*lines[: place + 1], f"B {self.any.randint(1, count)} {self.any.randint(1, count)}", *lines[place + 1 :]], place + 2
            for wrong in (f"B {count + 1} 1", f"B 1 {count + 1}", "B 1 1", "B 128 128"):
                yield [*lines[:place], wrong, *lines[place + 1 :]], place + 1
        for place in ends:
            yield [*lines[: place + 1], "Q", *lines[place + 1 :]], place + 2
        if ends and ends[-1] == end - 1:
            yield [*lines[: end - 1], *lines[end:]], begins[-1] + 1
        for n, before in finder.known.before.items():
            for pair in ([(m, n) for m in before] + [(n, m) for m in before]) if ends else []:
                yield [*lines[:end], "B {} {}".format(*pair), "Q", *lines[end:]], end + 1

    def wrong_denials(self, lines, finder, counts):
        """Documents with a wrong line B or Q of which the checker doesn't say so."""
        misplaced = list(self.misplaced(lines, finder))
        for changed, line in self.any.sample(misplaced, min(MOST_MISPLACED[self.is_supposing], len(misplaced))):
            counts["misplaced lines"] += 1
            if verdict(changed) != f"NO LINE {line} REASON 11":
                yield "\n".join([f"not wrong in line {line}:", *changed, verdict(changed)])

    def wrong_documents(self, counts):
        """What the checker says of documents that it shouldn't."""
        finder = self.facts_for(self.best)
        tree = finder.prune() if self.any.random() < 0.3 else finder.find_tree()
        lines = document(self.texts, self.orders[0], finder, tree)
        counts["blocks with fact lines"] += bool(finder.facts)
        counts.update("fact lines " + type(fact).__name__ for fact in finder.facts)
        counts.update("tree lines " + line[0] for line in tree)
        if verdict(lines) != f"YES TIME {self.best} BOUND {self.best}":
            yield "\n".join(["no yes to", *lines, verdict(lines)])
        counts["documents of version 5"] += lines[0].endswith("5")
        yield from self.wrong_denials(lines, finder, counts)
        for more in [self.any.choice([1, 2, 5])] if self.is_supposing else (1, 2, 5):
            finder = self.facts_for(self.best + more)
            if finder.find_tree():
                yield f"a tree for the bound {finder.bound}"
            yield from self.wrong_facts(finder)
            counts.update("for greater bounds " + type(fact).__name__ for fact in finder.facts)
        yield from self.wrong_claims(lines, counts)
        if not self.is_supposing:
            yield from self.wrong_dominance(counts)
            yield from self.wrong_loads(counts)

    def pairs(self):
        """Some pairs of different beginnings with the same numbers, each with the orders that have the second."""
        alike, pairs = collections.defaultdict(dict), []
        for order in self.orders:
            for length in range(2, len(order)):
                beginning = order[:length]
                alike[frozenset(numbers_of(beginning))].setdefault(numbers_of(beginning), (beginning, []))[1].append(order)
        for beginnings in alike.values():
            pairs += [(node, *other) for (node, _), other in itertools.permutations(beginnings.values(), 2)]
        return self.any.sample(pairs, min(MOST_PAIRS, len(pairs)))

    def is_completed_below(self, bound, node, order):
        """Whether what follows in an order follows a node of the numbers before it too, with a total below a bound."""
        other = self.problem.beginning(numbers_of(node) + numbers_of(order[len(node) :]))
        return other and self.problem.total(other) < bound

    def wrong_dominance(self, counts):
        """Beginnings that dominate others in use, and are not completed below the bound by all that completes those so."""
        known, blank = self.facts_for(self.problem.total(self.any.choice(self.orders)) + 1).known, Known(self.problem, 0)
        for node, prefix, orders in self.pairs():
            is_clamped, is_in_use = self.problem.dominates(3, node, prefix), known.dominates(node, prefix)
            counts.update({"pairs of beginnings": 1, "dominated clamped": is_clamped, "dominated in use": is_in_use})
            below = [order for order in orders if is_in_use and self.problem.total(order) < known.bound]
            if not all(self.is_completed_below(known.bound, node, order) for order in below):
                yield f"{numbers_of(node)} dominates {numbers_of(prefix)} in use, for the bound {known.bound}"
            if is_clamped and not blank.dominates(node, prefix):
                yield f"{numbers_of(node)} dominates {numbers_of(prefix)} clamped, and not in use"

    def loads_left(self, finder, prefix, is_right):
        """Loads after a beginning that say as much as is right: of each kind from each moment on, and random ones."""
        loads, remaining, heads = {}, self.problem.remaining(prefix), finder.next_moments(prefix)
        for load in sorted(finder.loads_left(prefix), key=lambda load: load.wait):
            loads[self.problem.block[load.numbers[0]].unit, load.after] = load
        for _ in range(5):
            numbers = remaining if self.any.random() < 0.8 else list(self.problem.block)
            yield self.load(ORIGIN, END, numbers, heads, is_right)
        yield from (longest(load._replace(wait=0), is_right) for load in loads.values())

    def wrong_loads(self, counts):
        """Loads after beginnings that say more than some order takes that begins so, and takes less than the bound."""
        finder = self.facts_for(self.problem.total(self.any.choice(self.orders)) + 1)
        for order in self.any.choices(self.orders, k=BEGINNINGS):
            prefix = order[: self.any.randrange(len(order))]
            best = next(other for other in self.orders if numbers_of(other[: len(prefix)]) == numbers_of(prefix))
            least = self.problem.total(best)
            for load in self.loads_left(finder, prefix, functools.partial(finder.known.is_left, prefix)):
                counts.update({"loads after beginnings": load.wait > 0, "such loads, the least total": load.wait == least})
                if least < min(load.wait, finder.bound):
                    told = f"more than {numbers_of(best)} takes, for the bound {finder.bound}"
                    yield f"{load} after {numbers_of(prefix)} says {told}"

    def wrong_claims(self, lines, counts):
        """Yes to a document with a greater bound, and the time of an order that takes as long."""
        slower = [order for order in self.orders if self.problem.total(order) > self.best]
        for _ in range(MOST_CLAIMS[self.is_supposing] if slower else 0):
            order = self.any.choice(slower)
            time = self.problem.total(order)
            claims = {"TIME": time, "BOUND": self.any.randint(self.best + 1, min(time, self.best + 3))}
            claims["ORDER"] = " ".join(map(str, numbers_of(order)))
            words = [line.split(" ")[0] for line in lines]
            claimed = [f"{word} {claims[word]}" if word in claims else line for word, line in zip(words, lines)]
            told = verdict(self.damaged(claimed))
            counts["claims of greater bounds"] += 1
            counts["such claims, " + re.sub(r"LINE \d+|TIME .*", "", told).strip()] += 1
            if told.startswith("YES"):
                yield "\n".join(["yes to", *claimed])


def main():
    parser = argparse.ArgumentParser(description=__doc__.split("\n")[0])
    parser.add_argument("--blocks", type=int, default=300)
    parser.add_argument("--seed", type=int, default=6600)
    parser.add_argument("--suppositions", action="store_true")
    asked = parser.parse_args()
    chance, counts, failed = random.Random(asked.seed), collections.Counter(), 0
    for _ in range(asked.blocks):
        trial = Trial(chance, counts, asked.suppositions)
        counts["orders"] += len(trial.orders)
        wrong = [*trial.wrong_documents(counts), *trial.told]
        failed += bool(wrong)
        for told in wrong:
            profile = list(trial.problem.profile.values())
            print("\n".join(["of the block", *trial.texts, f"under {profile}, best {trial.best}:", told]))
    told = ", ".join(f"{what} {count}" for what, count in sorted(counts.items()))
    print(f"{asked.blocks - failed} passed, {failed} failed ({told})")
    return 1 if failed else 0


if __name__ == "__main__":
    sys.exit(main())
