#!/usr/bin/env python3
"""Reads what `check --text` says of certificates, and sums each sentence by the tables of tools/certificate.py.

    tools/reasons.py PROGRAM [--count N] [--seed N]

Certificates are those of examples/, with and without --deep, and of N random blocks, 100 unless given, under random profiles; of some of
these others are made that have fact lines, with suppositions or without, and some have many pairs. Of each document with YES the first
line must have the bound, count splits, and of a tree that isn't said count facts. Of one that is, each leaf must follow its prefix, whose
times are worked out anew. Each row must have a number that follows from the row before it and from what its sentence names: the time of a
result, a unit or a parcel, of instructions that the leaf names, with their texts. The last row has to reach the bound, or of parcels each;
of a longest path it alone is the end, at the path's length. The last line must have the time. Each wrong thing is told, and the last line
counts the documents. The status is 1 if something is wrong.
"""
import argparse
import glob
import io
import os
import re
import sys

from certificate import END, ORIGIN, Known, Load, Pair, Problem, Reader, Refuted, Suppose, instruction_of, meet_in_memory, name_of
from compare_certificates import Maker, run
from find_facts import PROFILE

ROOT = os.path.dirname(os.path.dirname(os.path.abspath(__file__)))
NAMES = {"LONGADD": "Long Add"}
NAMES.update((unit, unit.title()) for unit in "BOOLEAN SHIFT ADD MULTIPLY DIVIDE INCREMENT".split())
NO_WAY = -(10**9)
VERDICT = re.compile(r"DOCUMENT \d+ (YES TIME (\d+) BOUND (\d+)|NO LINE \d+ REASON \d+)")


class Wrong(Exception):
    """A sentence that doesn't say what the document has."""


def must(test, what):
    if not test:
        raise Wrong(what)


def several(count, word):
    return f"{count} {word}" + "s" * (count != 1)


def read(pattern, text):
    """The parts of a text that must have this pattern."""
    found = re.fullmatch(pattern, text)
    must(found, f"not read: {text}")
    return found.groups()


class Texts:
    """A document, with the texts of its instructions, and what is said of it."""

    def __init__(self, document, texts, lines):
        self.document, self.texts, self.lines = document, texts, list(lines)
        self.problem = Problem(document.profile, document.block)
        self.known = Known(self.problem, document.bound)
        self.most_named = 0

    def line(self):
        must(self.lines, "a line is missing")
        return self.lines.pop(0)

    def row(self):
        """The number and the sentence of the next row."""
        number, sentence = read("( *[0-9]+)  (.*)", self.line())
        must(len(number) == max(4, len(number.strip())), f"not right in four places: {number}")
        return int(number), sentence

    def number(self, text):
        """The number of an instruction that is said with its text."""
        n, words = read("([0-9]+) (.*)", text)
        must(self.texts.get(int(n)) == words, f"another text: {text}")
        return int(n)

    def all(self):
        self.said()
        must(not self.lines, "lines too many")

    def said(self):
        """The first line, the leaves or how many lines there are, and the last line."""
        tree, document = list(self.document.tree.values()), self.document
        first, last = self.line(), self.lines.pop() if self.lines else ""
        head = f"Every order takes {document.bound} or more"
        splits = sum(line.kind == "S" for line in tree)
        by_splits = f", by {several(splits, 'split')}" if splits else ""
        if splits > 3 or any(line.kind in ("D", "N") or line.kind == "E" and splits for line in tree):
            facts = f" and {several(len(document.facts), 'fact')}" if document.facts else ""
            must(first == f"{head}{by_splits}{facts}.", f"not the head of a tree that is counted: {first}")
        else:
            must(first == f"{head}{by_splits}:", f"not the head of a tree that is said: {first}")
            self.leaves([line for line in tree if line.kind != "S"])
        best = f"So the order of {document.time} is best."
        must(last == (best if document.time == document.bound else f"The order found takes {document.time}."), f"last line: {last}")

    def leaves(self, leaves):
        """The rows of each leaf, after its prefix."""
        kinds = {"C": self.chain, "U": self.load, "P": self.parcels, "T": self.whole, "E": self.path, "L": self.left, "R": self.turned}
        if any(leaf.kind in "ELR" for leaf in leaves):
            self.at_first = {n: set(before) for n, before in self.known.before.items()}
            self.facts()
        for leaf in leaves:
            numbers = name_of(leaf)
            if numbers:
                line, words = self.line(), "".join(f", then {n}" for n in numbers[1:])
                must(line == f"If {numbers[0]} comes first{words}:", f"not the prefix of a leaf: {line}")
            self.prefix = self.problem.beginning(tuple(numbers)) if numbers else ()
            kinds[leaf.kind](leaf.names)

    def reaches(self, number):
        must(number >= self.document.bound, f"{number} doesn't reach the bound")

    def chain(self, numbers):
        start = 0
        if self.prefix:
            start, sentence = self.row()
            must(self.number(read("(.*) can start", sentence)[0]) == numbers[0], f"another instruction: {sentence}")
            results = [point.done[x] for point in self.prefix for x in self.problem.touched[numbers[0]] if x in point.done]
            must(start == max([self.problem.next_issue(self.prefix)] + results), f"{start} isn't the soonest: {sentence}")
        for m, n in zip(numbers, numbers[1:]):
            number, sentence = self.row()
            must(number == start + self.wait(m, n, sentence) == start + self.problem.link(m, n), f"{number} isn't the sum: {sentence}")
            start = number
        number, sentence = self.row()
        must(number == start + self.end(numbers[-1], sentence), f"{number} isn't the sum: {sentence}")
        self.reaches(number)

    def wait(self, m, n, sentence):
        """For how long the second waits from the start of the first, as a sentence says."""
        found = re.fullmatch("(.*) can reference memory, after (.*) has", sentence)
        if found:
            must((self.number(found[2]), self.number(found[1])) == (m, n), f"other instructions: {sentence}")
            must(meet_in_memory(self.problem.block[m], self.problem.block[n]), f"no references: {sentence}")
            return 1
        x, first, second, use = read("([ABX][0-7]) of (.*) is there, which (.*?) (reads|writes again)", sentence)
        must((self.number(first), self.number(second)) == (m, n), f"other instructions: {sentence}")
        is_read = x in self.problem.block[n].reads
        must(x in self.problem.latencies[m] and x in self.problem.touched[n] and is_read == (use == "reads"), f"not so: {sentence}")
        return self.problem.latencies[m][x]

    def end(self, n, sentence):
        """For how long the last works, as a sentence says."""
        x, last = read("(the unit|[ABX][0-7]) of (.*) is (?:free|there), and that is the end", sentence)
        must(self.number(last) == n, f"another instruction: {sentence}")
        return self.problem.holds[n] + 1 if x == "the unit" else self.problem.latencies[n].get(x, 0)

    def listed(self, text):
        """Instructions that are said one after the other."""
        places = [found.start() for found in re.finditer(r"(?:(?<=^)|(?<=, )|(?<= and ))[0-9]+ [A-Z]{2}[0-7]", text)]
        parts = [text[a:b] for a, b in zip(places, places[1:] + [None])]
        ends = [", "] * (len(parts) - 2) + [" and "] * (len(parts) > 1)
        must("".join(parts) == text and all(map(str.endswith, parts, ends)), f"not listed: {text}")
        return [self.number(re.sub("(, | and )$", "", part)) for part in parts]

    def uses(self, numbers, each, total):
        """Whether a sentence says for how long these need their units."""
        uses = [self.problem.holds[n] + 1 for n in numbers]
        words = f"{uses[0]}" if len(uses) == 1 else f"{uses[0]} each" if len(set(uses)) == 1 else f"up to {max(uses)}"
        must((each, int(total)) == (words, sum(uses)), f"for {each}: {total}")
        return uses

    def load(self, unit):
        number, sentence = self.row()
        begin, busy, total = self.problem.next_issue(self.prefix), 0, 0
        copies, rest = self.problem.profile[unit], self.problem.remaining(self.prefix)
        of_kind = [n for n in rest if self.problem.block[n].unit == unit]
        if self.prefix:
            sentence, before, both, slot = read("(.*?)(?:; with ([0-9]+) for those before: ([0-9]+))?; from ([0-9]+) on", sentence)
            busy = int(before or 0)
            must(int(slot) == begin, f"not from {begin} on: {sentence}")
            must(busy == sum(max(0, point.free - begin) for point in self.prefix if point.own.unit == unit), f"{busy} isn't left: {sentence}")
        units = NAMES[unit] + " unit" + "s" * (copies > 1)
        if of_kind:
            how = ", one after the other" if copies == 1 else f", shared by {copies}"
            said, need, each, total = read(f"(.*) (needs?) the {units} for (.*): ([0-9]+){how}", sentence)
            must(self.listed(said) == of_kind and (need == "needs") == (len(of_kind) == 1), f"other instructions: {sentence}")
            total = sum(self.uses(of_kind, each, total))
        else:
            none = "no other" if self.prefix else "no"
            must(sentence == f"{none} instruction needs the {units}", f"none needs it: {sentence}")
        must(not busy or int(both) == total + busy, f"not the sum: {sentence}")
        must(number == begin + -(-(total + busy) // copies), f"{number} isn't the sum: {sentence}")
        self.reaches(number)

    def parcels(self, _):
        rest, begin = self.problem.remaining(self.prefix), self.problem.next_issue(self.prefix)
        all_parcels = begin + sum(self.problem.block[n].parcels for n in rest)
        for n in rest:
            number, sentence = self.row()
            said, issue, tail = read("if (.*) issues last: at ([0-9]+) or later, and ([0-9]+) to the end", sentence)
            must(self.number(said) == n, f"another instruction: {sentence}")
            must((int(issue), int(tail)) == (all_parcels - self.problem.block[n].parcels, self.problem.tails[n]), f"not so: {sentence}")
            must(number == int(issue) + int(tail), f"{number} isn't the sum: {sentence}")
            self.reaches(number)

    def whole(self, _):
        number, sentence = self.row()
        must(sentence == "all are placed, and that is the end" and not self.problem.remaining(self.prefix), f"not a whole order: {sentence}")
        must(number == self.problem.total(self.prefix), f"{number} isn't the order's time: {sentence}")
        self.reaches(number)

    def turned(self, pair):
        line = self.line()
        first, second, by = read(r"      (.*) stands before (.*) in a faster order(?: \(by ([0-9]+)[.]\))?", line)
        must([self.number(first), self.number(second)] == list(pair), f"other instructions: {line}")
        placed, by_pair = [point.number for point in self.prefix], pair[0] not in self.at_first[pair[1]]
        must(pair[0] in self.known.before[pair[1]] and pair[1] in placed and pair[0] not in placed, f"not turned: {line}")
        must(bool(by) == by_pair and (not by or int(by) in self.pairs), f"by which line: {line}")

    def moment(self, moment):
        return "the end" if moment == END else f"where {moment[1]} {moment[0]}s"

    def load_sentence(self, load, sentence):
        """The number in which a sentence of a load line ends; it must say what the line does, with the numbers that its check has."""
        begin = "From the beginning" if load.begin == ORIGIN else f"From {self.moment(load.begin)}"
        unit, numbers, to = self.problem.block[load.numbers[0]].unit, load.numbers, self.moment(load.end)
        copies, uses = self.problem.profile[unit], [self.problem.holds[n] + 1 for n in numbers]
        time, name = self.problem.use_time(unit, uses), NAMES[unit]
        if len(numbers) == 1:
            said = r"{} it is {} or more until {} has its {} unit, and from there to {} it is ([0-9]+) or more: ([0-9]+)"
            rest, all = map(int, read(said.format(begin, load.after, numbers[0], name, to), sentence))
            must(rest == max(0, load.wait - load.after) and all == load.after + rest, f"not the sum: {sentence}")
            return all
        said = r"{} it is {} or more until one of ([0-9, and]+) has its {} unit; these need {} for (.*?), ([0-9]+) in all{}(; so .*)"
        side = "" if copies == 1 else f" and {time} side by side"
        pronoun = "it" if copies == 1 else f"the {copies}"
        names, each, total, last = read(said.format(begin, load.after, name, pronoun, side), sentence)
        must(re.split(", | and ", names) == list(map(str, numbers)), f"other instructions: {sentence}")
        self.uses(numbers, each, total)
        if len(set(uses)) > 1:
            must(last == f"; so with what is left after the last of them begins it is {load.wait} or more to {to}", f"not so: {sentence}")
            return load.wait
        said = r"; so the last of them begins at ([0-9]+) or later, and from there to {} it is ([0-9]+) or more: ([0-9]+)"
        begins, rest, all = map(int, read(said.format(to), last))
        must(begins == load.after + time - uses[0] and rest == max(0, load.wait - begins), f"not the rest: {sentence}")
        must(all == begins + rest, f"not the sum: {sentence}")
        return all

    def pair_sentence(self, pair, sentence):
        """Whether a sentence says why the second of a pair can't stand before the first."""
        bound, m, n = self.document.bound, *pair
        heads, tail = self.known.paths_from(ORIGIN), self.known.paths_to(END)["issue", m]
        first, second, why = read("(.*) stands before (.*) in a faster order: (.*)", sentence)
        must((self.number(first), self.number(second)) == (m, n), f"other instructions: {sentence}")
        end = ", and from there to the end it is ([0-9]+) or more: ([0-9]+)"
        parcels = self.problem.block[n].parcels
        if heads["issue", n] + parcels + tail >= bound:
            begin = f"{n} issues at ([0-9]+) or later; behind it {m} could issue {parcels} later"
            until = heads["issue", n] + parcels
        else:
            must(self.problem.is_only_unit(n, m), f"not the only unit: {sentence}")
            begin = f"{n} has the {NAMES[self.problem.block[n].unit]} unit until ([0-9]+) or later; behind it {m} could issue then"
            parcels, until = 0, heads["free", n]
        head, rest, all = map(int, read(begin + end, why))
        must((head + parcels, rest, all) == (until, tail, until + tail), f"not the sum of longest paths: {sentence}")
        self.reaches(all)

    def suppose_sentence(self, pair, sentence):
        """Whether a sentence says that the second of a pair is supposed to stand before the first."""
        second, first = read("If (.*) stood before (.*) in a faster order:", sentence)
        must((self.number(first), self.number(second)) == pair, f"other instructions: {sentence}")

    def refuted_sentence(self, _, sentence):
        """Whether a sentence says what a supposition shows, and where a path leads through that is too long with it."""
        bound, heads, tails = self.document.bound, self.known.paths_from(ORIGIN), self.known.paths_to(END)
        first, second, why = read("(.*) stands before (.*) in a faster order: if not, (.*)", sentence)
        behind, before = self.known.outer[0]
        must((self.number(first), self.number(second)) == (behind, before), f"other instructions: {sentence}")
        moments = [(stage, n) for n in [behind, *sorted(self.problem.block)] for stage in ("issue", "start")]
        late = [moment for moment in moments if heads[moment] + tails[moment] >= bound]
        if not late:
            known = sorted({**self.loads, **self.within}.items())
            ends = [(line, load.wait) for line, load in known if (load.begin, load.end) == (ORIGIN, END) and load.wait >= bound]
            must(ends and why == f"the end comes at {ends[0][1]} or later, by {ends[0][0]}.", f"not so: {sentence}")
            return
        stage, n = late[0]
        head, rest, all = map(int, read(f"{n} {stage}s at ([0-9]+) or later, and from there to the end it is ([0-9]+) or more: ([0-9]+)", why))
        must((head, rest, all) == (heads[late[0]], tails[late[0]], head + rest), f"not the sum of longest paths: {sentence}")
        self.reaches(all)

    def facts(self):
        """The fact lines, each by what is known before it, what they leave known, and the orders in which they hold."""
        self.pairs, self.loads, self.within = {}, {}, {}
        kinds = {Pair: self.pair_sentence, Load: self.load_sentence, Suppose: self.suppose_sentence, Refuted: self.refuted_sentence}
        for number, fact in enumerate(self.document.facts, 1):
            is_within = self.known.outer and isinstance(fact, (Pair, Load))
            place, sentence = read(("    " if is_within else "  ") + "([0-9]+)[.] (.*)", self.line())
            must(int(place) == number, f"not number {number}: {sentence}")
            kinds[type(fact)](fact, sentence)
            left = Pair(*self.known.outer[0]) if isinstance(fact, Refuted) else fact
            must(self.known.add_fact(fact), f"not right: {sentence}")
            if not self.known.outer:
                (self.pairs if isinstance(left, Pair) else self.loads)[number] = left
            if isinstance(fact, (Suppose, Refuted)):
                self.within = {}
            elif self.known.outer and isinstance(fact, Load):
                self.within[number] = fact
        line = self.line()
        must(line == f"If an order took less than {self.document.bound}:", f"not the orders of the rows: {line}")

    def path(self, numbers):
        [n] = numbers
        number, sentence = self.row()
        must(number == 0 and self.number(read("(.*) can issue", sentence)[0]) == n, f"another instruction: {sentence}")
        places, reached = {("issue", n)}, 0
        while places != {END}:
            number, sentence = self.row()
            arcs = [(begin, end) for begin, end in self.arcs(sentence) if reached + self.way(places, begin, end) == number]
            must(arcs, f"{number} isn't the sum: {sentence}")
            places, reached = {end for _, end in arcs}, number
        self.reaches(reached)
        must(reached == self.known.next_value((), n), f"{reached} isn't the longest path's")

    def way(self, places, begin, end):
        """How long an arc takes, after the longest way to its begin from one of these moments of the same instruction, by what that
        does alone; far less than nothing if there is no such way.
        """
        paths, moments = dict.fromkeys(places, 0), self.known.moments(begin[1]) if begin[1] in self.problem.block else ()
        for moment in moments:
            for later, wait in self.known.arcs[moment].items() if moment in paths else ():
                if later in moments:
                    paths[later] = max(paths[moment] + wait, paths.get(later, 0))
        return paths.get(begin, NO_WAY) + self.known.arcs.get(begin, {}).get(end, NO_WAY)

    def arcs(self, sentence):
        """The arcs that a row may be of."""
        found = re.fullmatch("(?:([0-9]+) (issue|start)s|the end), by ([0-9]+)[.]", sentence)
        if found:
            load, end = self.loads.get(int(found[3])), (found[2], int(found[1])) if found[1] else END
            must(load and load.end == end, f"another line: {sentence}")
            return [(load.begin, end)]
        sentence, by = read(r"(.*?)(?: \(by ([0-9., and]+)\))?", sentence)
        arcs = self.table_arcs(sentence)
        begin, end = arcs[0]
        lines = self.lines_between(begin[1], end[1]) if end != END else []
        must(re.split(", | and ", by or "") == ([f"{line}." for line in lines] or [""]), f"not by {lines}: {by}")
        self.most_named = max(self.most_named, len(lines))
        return arcs

    def lines_between(self, m, n):
        """The fact lines that put m before n, each from the second number of the one before it on, with dependence between: one that ends
        the way if there is any, and else one from which on it is known.
        """
        pairs, lines = self.pairs, []
        while m != n and m not in self.at_first[n]:
            begun = [line for line, (j, _) in pairs.items() if m == j or m in self.at_first[j]]
            for before in self.at_first, self.known.before:
                ways = [line for line in begun if pairs[line].second == n or pairs[line].second in before[n]]
                if ways:
                    break
            must(ways, f"no lines put {m} before {n}")
            lines.append(ways[0])
            m = pairs[ways[0]].second
        return lines

    def table_arcs(self, sentence):
        for words, arc in (
            ("(.*) can issue, ([12] parcels?) after (.*)", lambda n, p, m: [(("issue", m), ("issue", n))]),
            ("the (?:.*) unit of (.*) is free, which (.*) needs", lambda m, n: [(("free", m), ("issue", n))]),
            ("(.*) can reference memory, after (.*) has", lambda n, m: [(("start", m), ("start", n))]),
            ("(.*) has read ([ABX][0-7]), so that of (.*) can be there", lambda m, x, n: [(("start", m), (x, n))]),
            ("([ABX][0-7]) of (.*) is there, which (.*?) (?:reads|writes again)", lambda x, m, n: [((x, m), ("start", n)), ((x, m), ("issue", n))]),
            ("([ABX][0-7]) of (.*) is there, and that is the end", lambda x, n: [((x, n), END)]),
            ("the unit of (.*) is free, and that is the end", lambda n: [(("free", n), END)]),
        ):
            found = re.fullmatch(words, sentence)
            if found:
                return arc(*(self.number(part) if re.match("[0-9]+ [A-Z]{2}", part) else part for part in found.groups()))
        must(False, f"no arc: {sentence}")

    def left(self, names):
        after, *numbers = names
        number, sentence = self.row()
        load = Load(ORIGIN, END, after, self.document.bound, numbers)
        must(number == self.load_sentence(load, sentence), f"{number} isn't what its sentence says: {sentence}")
        self.reaches(number)
        must(self.known.is_left(self.prefix, load), f"{number} isn't shown")


def documents(text):
    """The documents of a text, each with the texts of its instructions."""
    reader, lines = Reader(io.BytesIO(text)), text.decode("latin-1").split("\n")
    while reader.ahead:
        begin = reader.count
        document = reader.document()
        texts = [line[2:] for line in lines[begin : reader.count] if line.startswith("I ")]
        yield document, dict(enumerate(texts, 1))


def said(output):
    """The lines that are said of each document of an output, and whether its verdict is yes."""
    parts = []
    for line in output.decode("latin-1").splitlines():
        if line.startswith("DOCUMENT "):
            parts.append((bool(read(VERDICT, line)[1]), []))
        else:
            must(parts, f"before any verdict: {line}")
            parts[-1][1].append(line)
    return parts


def texts(program, count, seed):
    """Texts of documents by name."""
    for path in sorted(glob.glob(os.path.join(ROOT, "examples/*.compass"))):
        with open(path, "rb") as file:
            source = file.read().decode("latin-1")
        for words in [], ["--deep"]:
            yield " ".join([os.path.basename(path), *words]), run([program, "prove", "--workers", "1", *words], source).stdout
    maker = Maker(program, seed)
    for number in range(count):
        lines, (_, profile) = maker.document((0, 3, 50))
        yield f"random {number}", "\n".join(lines + [""]).encode()
        yield f"random {number} with facts", "\n".join(maker.with_facts(lines, profile) + [""]).encode()
        yield f"random {number} with suppositions", "\n".join(with_suppositions(maker) + [""]).encode()
        yield f"random {number} with pairs", "\n".join(with_pairs(maker.any) + [""]).encode()


def with_suppositions(maker):
    """A document with suppositions, unless none is found for a dozen blocks."""
    for _ in range(12):
        lines, (_, profile) = maker.document(most=12)
        supposed = maker.with_facts(lines, profile, is_supposing=True)
        if supposed[0].endswith("5"):
            break
    return supposed


def with_pairs(any):
    """A document of some instructions with any forced pairs, in any order, and the path of one of them: the bound is below each two that
    stand the other way round.
    """
    count, bound = any.randint(2, 8), any.randint(1, 4)
    texts = [any.choice([f"LX{n} 5", f"BX{n} X0", f"IX{n} X0+X0"]) for n in range(1, count)] + ["LX0 5"]
    any.shuffle(texts)
    problem = Problem(PROFILE, [instruction_of(text) for text in texts])
    pairs = [(m, n) for m in range(1, count + 1) for n in range(m + 1, count + 1) if any.random() < (0.8 if n == m + 1 else 0.1)]
    any.shuffle(pairs)
    order = list(range(1, count + 1))
    head = ["S66 CERTIFICATE 4", "PROFILE " + " ".join(map(str, PROFILE.values())), f"BLOCK {count}", *(f"I {text}" for text in texts)]
    times = [f"TIME {problem.total(problem.beginning(tuple(order)))}", f"BOUND {bound}", " ".join(["ORDER", *map(str, order)])]
    return [*head, *times, *(f"F {m} {n}" for m, n in pairs), f"E {any.choice(order)}", "END"]


def main():
    parser = argparse.ArgumentParser(description=__doc__.split("\n")[0])
    parser.add_argument("program")
    parser.add_argument("--count", type=int, default=100)
    parser.add_argument("--seed", type=int, default=6600)
    asked, passed, failed, kinds, named = parser.parse_args(), 0, 0, {}, 0
    for name, text in texts(asked.program, asked.count, asked.seed):
        output = run([asked.program, "check", "--text"], text.decode("latin-1")).stdout
        for (document, of_block), (yes, lines) in zip(documents(text), said(output), strict=True):
            try:
                must(yes or not lines, "said without a yes")
                if yes:
                    texts_of = Texts(document, of_block, lines)
                    texts_of.all()
                    named = max(named, texts_of.most_named)
                passed += 1
                kind = next(iter(document.tree.values())).kind if yes else "NO"
                kind = "S said" if kind == "S" and lines[0].endswith(":") else kind
                kinds[kind] = kinds.get(kind, 0) + 1
            except Wrong as wrong:
                failed += 1
                print(f"{name}: {wrong}")
    print(", ".join(f"{count} {kind}" for kind, count in sorted(kinds.items())))
    print(f"{passed} passed, {failed} failed")
    return 1 if failed else 0


if __name__ == "__main__":
    sys.exit(main())
