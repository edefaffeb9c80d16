#!/usr/bin/env python3
"""Compares what `s66 check` and tools/certificate.py say of random certificates, right and damaged.

    tools/compare_certificates.py PROGRAM [--texts N] [--seed N]

PROGRAM is the built program. It makes N texts, 2000 unless given. They begin with documents that `s66 prove` writes of random
blocks of 2 to 12 instructions, some under a random profile. Many get dominated leaves in place of some of their trees, right
or wrong, or fact lines and a tree that tools/find_facts.py finds, with suppositions or without, so they have all versions, and
most of the others a few damages. Both programs have to write the same bytes, with the same status and the same first line of
standard error. Each difference is printed with its text, and at the end how often each refusal came, and each verdict by
version. The status is 1 if there is a difference. The same seed makes the same texts.
"""
import argparse
import collections
import json
import os
import random
import re
import subprocess
import sys

import find_facts
from certificate import Problem, instruction_of

CERTIFICATE = os.path.join(os.path.dirname(os.path.abspath(__file__)), "certificate.py")

INSTRUCTIONS = """
BXi Xj|BXi Xj*Xk|BXi Xj+Xk|BXi Xj-Xk|BXi -Xk|BXi -Xk*Xj|BXi -Xk+Xj|BXi -Xk-Xj
LXi K|AXi -K|MXi K|LXi Bj,Xk|AXi Xk,Bj|LXi Bj|AXi Xk|NXi Bj,Xk|ZXi Xk,Bj|UXi Bj,Xk|PXi Bj,Xk|NXi Bj|ZXi Xk|UXi|PXi Bj|NXi
FXi Xj+Xk|DXi Xj-Xk|RXi -Xk+Xj|IXi Xj+Xk|IXi Xj-Xk|FXi Xj*Xk|DXi Xj*Xk|RXi Xj*Xk|FXi Xj/Xk|RXi Xj/Xk|CXi Xk
SAi Aj+K|SAi K|SAi Xj+K|SAi Xj+Bk|SAi Aj+Bk|SAi Bk+Aj|SAi Aj-Bk|SAi Bj+Bk|SAi Bj-Bk|SAi -Bk
SB0 Bj|SB0 Xj+K|SB0 Bj+Bk|SBi Bj+K|SBi K+Aj|SBi Xj|SBi Aj|SBi -Bk+Bj|SBi Bj
SXi Bj-K|SXi Xj+K-K|SXi -K|SXi Xj+Bk|SXi -Bk+Aj|SXi -Bk
""".replace("\n", "|").strip("|").split("|")
WRONG = "SXi Aj+Ak|SXi Xj-Bk|SXi A.N|IXi Xj*Xk|BXi Xj/Xk|SXi -Aj|SXi K-Bj|CXi -Xk|SXi *+2|MXi Xj|LXi|FXi -Xj|NO|BX8 X1".split("|")
LONG = ["SXi " + "N" * 195, "SXi " + "N" * 196]
CONSTANTS = ["1", "100B", "2*N", "TABLE", "=5", "N.B", "N/2", "X2*X3", "1+N"]
NUMBERS = ["0", "1", "2", "3", "9", "10", "100", "101", "128", "129", "100000", "100001", "01", "-1", ""]
ANCHORS = "I1 I2 I3 S1 S2 S3 I9 S128".split()
WRONG_ANCHORS = ["0", "END", "I0", "I129", "S01", "I", "B1", "1", ""]
UNITS = ["BOOLEAN", "SHIFT", "ADD", "LONGADD", "MULTIPLY", "DIVIDE", "INCREMENT", "BRANCH"]
KEYS = ["boolean", "shift", "normalise", "add", "longadd", "multiply", "divide", "population", "increment", "load"]


def nodes_of(lines):
    """The nodes of a document's tree: the prefix of each, the place of its line, and the place after its tree."""
    nodes = []

    def end_of(place, prefix):
        kind, *numbers = lines[place].split(" ")
        after = place + 1
        for n in numbers if kind == "S" else []:
            after = end_of(after, prefix + [int(n)])
        nodes.append((prefix, place, after))
        return after

    end_of(next(place for place, line in enumerate(lines) if line.startswith("ORDER")) + 1, [])
    return nodes


def run(command, text):
    return subprocess.run(command, input=text.encode("latin-1"), stdout=subprocess.PIPE, stderr=subprocess.PIPE)


def outcome(command, text):
    """What a checker makes of a text: its output, its status, and the first line of its standard error."""
    done = run(command, text)
    return done.stdout.decode("latin-1"), done.returncode, done.stderr.decode("latin-1").split("\n")[0]


class Maker:
    """Makes texts of documents. A document is a list of lines."""

    def __init__(self, program, seed):
        self.program, self.any = program, random.Random(seed)

    def instruction(self, templates):
        template = self.any.choice(templates)
        few = self.any.choice(["01234567", "1267", "12", "01"])
        return re.sub("[ijk]", lambda _: self.any.choice(few), template.replace("K", self.any.choice(CONSTANTS)))

    def profile(self):
        """The text of a profile, most often the standard one."""
        if self.any.random() < 0.6:
            return "{}"
        times = {key: self.any.choice([1, 2, 3, 5, 8, 20, 100]) for key in KEYS if self.any.random() < 0.4}
        copies = {"units_" + unit.lower(): self.any.choice([1, 2, 3]) for unit in UNITS[:7] if self.any.random() < 0.4}
        return json.dumps({**times, **copies})

    def document(self, budgets=(0, 1, 3, 10, 50, 200), most=9):
        """A right document of a block of at most so many instructions, with its source and its profile."""
        some = self.any.sample(INSTRUCTIONS, self.any.choice([3, 10, len(INSTRUCTIONS)]))
        source = "".join(f"  {self.instruction(some)}\n" for _ in range(self.any.randint(2, most)))
        profile, nodes = self.profile(), self.any.choice(budgets)
        words = ["--workers", "1", "--nodes", str(nodes), "--profile", profile]
        proved = run([self.program, "prove", *words], source)
        if proved.returncode not in (0, 7):
            sys.exit(f"no document of\n{source}")
        return proved.stdout.decode().splitlines(), (source, profile)

    def time_of(self, source, profile):
        """How long a block takes as it is written."""
        timed = run([self.program, "time", "--profile", profile], source)
        return int(timed.stdout.split()[-1])

    def place(self, lines, pattern):
        """The place of a line with this pattern at its beginning; of any line if there is none."""
        places = [place for place, line in enumerate(lines) if re.match(pattern, line)]
        return self.any.choice(places or range(len(lines)))

    def double_tree(self, lines):
        """A document in which an S line has a number twice, each time with the same tree; itself if it has no S line."""
        ends = {place: after for _, place, after in nodes_of(lines)}
        splits = [place for place in ends if lines[place].startswith("S ")]
        if not splits:
            return lines
        place = self.any.choice(splits)
        numbers = lines[place].split(" ")
        at, begin = self.any.randrange(1, len(numbers)), place + 1
        for _ in range(1, at):
            begin = ends[begin]
        split = " ".join(numbers[: at + 1] + numbers[at:])
        return [*lines[:place], split, *lines[place + 1 : ends[begin]], *lines[begin:]]

    def dominate(self, lines, version):
        """A document with dominated leaves in place of some trees, which name nodes of the same numbers, in version 2 most
        often earlier ones; the same document if it has none.
        """
        for _ in range(self.any.choice([1, 1, 1, 2, 5])):
            alike, left_out = collections.defaultdict(list), "D" if self.any.random() < 0.05 else "DT"
            for prefix, place, after in nodes_of(lines):
                if lines[place][0] not in left_out:
                    alike[tuple(sorted(prefix))].append((prefix, place, after))
            choices = [nodes for nodes in alike.values() if len(nodes) > 1]
            if choices:
                pair = self.any.sample(self.any.choice(choices), 2)
                is_earlier = version == 2 and self.any.random() < 0.9
                (name, _, _), (_, place, after) = sorted(pair) if is_earlier else pair
                leaf = " ".join(["D", *map(str, name)])
                lines = [f"S66 CERTIFICATE {version}", *lines[1:place], leaf, *lines[after:]]
        return lines

    def dominated_documents(self):
        """A document with different trees dominated, many times, with the source and the profile of its block."""
        version = self.any.choice([2, 3])
        for _ in range(12):
            lines, block = self.document([3, 10, 50, 200])
            trees = [self.double_tree(lines) if self.any.random() < 0.1 else lines for _ in range(15)]
            many = [self.dominate(tree, version) for tree in trees]
            if all(one[0] != lines[0] for one in many):
                break
        return many, block

    def with_facts(self, lines, profile, is_supposing=False):
        """A document of version 4 or, if it is supposing, 5, with the claims of this one, if its tree is small; else the same document."""
        begin = next(place for place, line in enumerate(lines) if line.startswith("ORDER")) + 1
        block = [instruction_of(line[2:]) for line in lines[:begin] if line.startswith("I ")]
        finder = find_facts.Finder(
            Problem(find_facts.profile_of(profile), block),
            int(lines[begin - 2].split(" ")[1]),
            splits=self.any.choice([20, 200]),
            leaves=find_facts.any_leaves(self.any),
            least=self.any.choice([0, 0, 1, 1, 2, 3]),
            is_wide=len(block) < 6,
        )
        if self.any.random() < (0.4 if is_supposing else 0.8):
            finder.find_facts(has_loads=len(block) < 10 and self.any.random() < 0.7)
        if is_supposing:
            finder.find_suppositions(has_loads=self.any.random() < 0.7)
        try:
            found = find_facts.proof(finder, finder.prune() if self.any.random() < 0.3 else finder.find_tree(), begin + 1)
        except find_facts.TooManySplits:
            return lines
        return [f"S66 CERTIFICATE {find_facts.version_of(finder.facts)}", *lines[1:begin], *found, "END"]

    def fact_documents(self):
        """A document of version 4, many times, right or with a wrong line, with the source and the profile of its block."""
        for _ in range(12):
            lines, block = self.document()
            many = [self.with_facts(lines, block[1]) for _ in range(8)]
            if all(one[0] != lines[0] for one in many):
                break
        for one in many:
            if self.any.random() < 0.7:
                self.any.choice([self.change_fact, self.change_leaf, self.change_load, self.change_load])(one)
        return many, block

    def supposed_documents(self):
        """A document of version 5, many times, right or with wrong lines, with the source and the profile of its block."""
        for _ in range(12):
            lines, block = self.document(most=12)
            supposed = self.with_facts(lines, block[1], is_supposing=True)
            if supposed[0].endswith("5"):
                break
        many = [list(supposed) for _ in range(8)]
        for one in many:
            for _ in range(self.any.choice([0, 1, 1, 1, 2])):
                self.any.choice([self.change_fact, self.change_supposition, self.change_supposition, self.change_supposition])(one)
        return many, block

    def fact(self, count):
        """A fact line: right or wrong at its place."""
        numbers = [str(self.any.randint(1, count)) for _ in range(2)]
        if self.any.random() < 0.4:
            return " ".join(["F", *numbers])
        if self.any.random() < 0.05:
            return self.any.choice(["Q", " ".join(["B", *numbers])])
        anchors = [self.any.choice(["0", *ANCHORS]), self.any.choice(["END", *ANCHORS])]
        amounts = [self.any.choice("00134"), self.any.choice(["0", "1", "2", "5", "8", "12"])]
        return " ".join(["A", *anchors, *amounts, *(sorted(set(numbers)) if self.any.random() < 0.9 else numbers)])

    def leaf(self, count, kinds="CCCUUUPPT"):
        """A leaf: right or wrong at its place."""
        kind = self.any.choice(kinds)
        if kind in "ERN":
            few = [self.any.randint(*((8, 40) if kind == "N" else (1, count))) for _ in range(2 if kind == "R" else 1)]
            return " ".join([kind, *map(str, few)])
        if kind in "CDL":
            some = self.any.sample(range(1, count + 1), self.any.randint(1, min(3, count)))
            after = [self.any.randint(0, 12)] if kind == "L" else []
            return " ".join([kind, *map(str, after + (sorted(some) if self.any.random() < 0.9 else some))])
        return f"U {self.any.choice(UNITS[:7])}" if kind == "U" else kind

    def change_version(self, lines):
        lines[0] = f"S66 CERTIFICATE {self.any.choice([1, 2, 2, 3, 3, 4, 4, 5, 5, 6])}"

    def change_number(self, lines):
        place = self.place(lines, r"[A-Z0-9]+ (\d|[IS]\d+ )")
        numbers = list(re.finditer(r"\d+", lines[place]))
        if numbers:
            chosen = self.any.choice(numbers)
            near = [str(max(0, int(chosen[0]) + more)) for more in (-1, 1)]
            changed = self.any.choice(near * 10 + NUMBERS)
            lines[place] = lines[place][: chosen.start()] + changed + lines[place][chosen.end() :]

    def exchange_numbers(self, lines, pattern="(ORDER|S|C|D|F|A|B|R|L) .* "):
        place = self.place(lines, pattern)
        fields = lines[place].split(" ")
        places = range(len(fields))[1 if self.any.random() < 0.9 else 0 :] or [0]  # seldom the word
        one, other = self.any.choice(places), self.any.choice(places)
        fields[one], fields[other] = fields[other], fields[one]
        lines[place] = " ".join(fields)

    def exchange_in_name(self, lines):
        self.exchange_numbers(lines, "D .* ")

    def change_length(self, lines):
        place = self.place(lines, "(ORDER|S|C|D|F|A|B|Q|E|R|N|L|PROFILE)( |$)")
        fields = lines[place].split(" ")
        at = self.any.randrange(len(fields))
        lines[place] = " ".join(fields[:at] + self.any.choice([[], [fields[at]] * 2]) + fields[at + 1 :])

    def exchange_lines(self, lines):
        one = self.any.randrange(len(lines))
        other = self.any.choice([min(one + 1, len(lines) - 1), self.any.randrange(len(lines))])
        lines[one], lines[other] = lines[other], lines[one]

    def drop_line(self, lines):
        del lines[self.any.randrange(len(lines))]

    def double_line(self, lines):
        place = self.any.randrange(len(lines))
        lines.insert(place, lines[place])

    def change_leaf(self, lines):
        by_facts = "CUPTEEERRRNNNLLL"
        kinds = {"1": "CCCUUUPPT", "4": by_facts, "5": by_facts}.get(lines[0][-1:], "CCUUPTDDD")
        lines[self.place(lines, "[CUPTDERNL]( |$)")] = self.leaf(5, kinds)

    def change_load(self, lines):
        """Changes an L line: its minor cycle, or its numbers, to one more, one twice, one less, or two exchanged."""
        place = self.place(lines, r"L \d+( \d+)+$")
        if not lines[place].startswith("L "):
            return self.change_leaf(lines)
        after, *numbers = map(int, lines[place].split(" ")[1:])
        block = range(1, 1 + sum(line.startswith("I ") for line in lines))
        change, at = self.any.randrange(5), self.any.randrange(len(numbers))
        if change == 0:
            after = max(0, after + self.any.choice([-1, 1, 1, 2]))
        elif change == 1:
            numbers = sorted([*numbers, self.any.choice([n for n in block if n not in numbers] or numbers)])
        elif change == 2:
            numbers.insert(at, numbers[at])
        elif change == 3:
            del numbers[at]
        else:
            numbers[at], numbers[0] = numbers[0], numbers[at]
        lines[place] = " ".join(map(str, ["L", after, *numbers]))

    def change_fact(self, lines):
        """Adds, drops or changes a fact line, or exchanges two."""
        place, other = self.place(lines, "([FAB] |Q$|ORDER)"), self.place(lines, "([FAB] |Q$|ORDER)")
        change = self.any.randrange(4) if re.match("([FAB] |Q$)", lines[place]) else 0
        if change == 0:
            lines.insert(place + 1, self.fact(5))
        elif change == 1:
            del lines[place]
        elif change == 2:
            lines[place] = self.fact(5)
        else:
            lines[place], lines[other] = lines[other], lines[place]

    def change_supposition(self, lines):
        """Changes a line B or Q, adds or drops one, or moves a line into a supposition or out of it."""
        place, other = self.place(lines, "([FAB] |Q$)"), self.place(lines, "(B |Q$)")
        numbers, change = lines[other].split(" ")[1:], self.any.choice("0011222333444555667")
        if change == "0":
            del lines[other]
        elif change == "1":
            lines[other] = " ".join(["B", *(numbers[::-1] or ["1", "2"])])
        elif change == "2":
            changed = self.any.choice(numbers or ["1"])
            near = [max(1, int(changed) + more) for more in (-1, 1)] if changed.isdigit() else [1]
            words = [self.any.choice(near), self.any.choice(numbers or [1])]
            lines[other] = " ".join(map(str, ["B", *self.any.sample(words, 2)]))
        elif change == "3":
            begin = f"B {self.any.randint(1, 5)} {self.any.randint(1, 5)}"
            lines.insert(other + self.any.choice([0, 1]), self.any.choice(["Q", lines[other], begin]))
        elif change == "4":
            block = [str(n) for n in range(1, 1 + sum(line.startswith("I ") for line in lines))]
            some = sorted(self.any.sample(block, self.any.randint(1, len(block))), key=int)
            lines.insert(other + 1, " ".join(["A 0 END", self.any.choice("0012"), str(self.any.randint(1, 12)), *some]))
        elif change == "5":
            lines.insert(other, lines.pop(place))
        elif change == "6":
            del lines[place]
        else:
            lines[other] = self.any.choice(["B 1", "B 1 2 3", "B 0 1", "B 1 129", "B 01 2", "B", "B 1  2", "B I1 2", "Q 1", "Q ", "QQ", "Q\r"])

    def change_anchor(self, lines):
        place = self.place(lines, "A ")
        fields = lines[place].split(" ")
        fields[min(self.any.choice([1, 2]), len(fields) - 1)] = self.any.choice(ANCHORS + WRONG_ANCHORS)
        lines[place] = " ".join(fields)

    def change_instruction(self, lines):
        lines[self.place(lines, "I ")] = "I " + self.instruction(INSTRUCTIONS + WRONG + LONG)

    def change_byte(self, lines):
        place = self.any.randrange(len(lines))
        at = self.any.randint(0, len(lines[place]))
        more = self.any.choice([" ", "\t", "\r", "\0", "\xe9", "a", "X", "*", "+", "-", ",", "7", "\n"])
        lines[place] = lines[place][:at] + more + lines[place][at + self.any.choice([0, 1]) :]

    def weaken(self, lines, written):
        """Claims the source order with its time, a bound up to that, and any leaves: the first one below the bound is the fault."""
        block = [line for line in lines if line.startswith("I ")]
        for place, line in enumerate(lines):
            if line.startswith("TIME "):
                lines[place] = f"TIME {written}"
            elif line.startswith("BOUND "):
                least = self.any.choice([0, int(line.split()[1]) - 1])
                lines[place] = f"BOUND {self.any.randint(max(0, min(least, written)), written)}"
            elif line.startswith("ORDER "):
                lines[place] = " ".join(["ORDER", *(str(n) for n in range(1, len(block) + 1))])
            elif line.split(" ")[0] in ("C", "U", "P", "E") and self.any.random() < 0.5:
                lines[place] = self.leaf(len(block))

    def damaged(self, lines, block):
        """A document with a few damages, or none."""
        if self.any.random() < 0.35:
            self.weaken(lines, self.time_of(*block))
        often = [self.change_number, self.exchange_numbers, self.exchange_in_name] * 2
        often += [self.change_leaf] * 4 + [self.change_instruction] * 2
        often += ([self.change_fact] * 3 + [self.change_anchor, self.change_load]) * 2 if lines[0][-1:] in "45" else []
        often += [self.change_supposition] * 6 if lines[0].endswith("5") else []
        seldom = [self.change_length, self.exchange_lines, self.drop_line, self.double_line]
        seldom += [self.change_byte, self.change_version]
        for damage in self.any.choices(often + seldom, k=self.any.choice([0, 0, 1, 1, 1, 2])):
            damage(lines)
        return lines

    def text(self):
        """One document or a few, right or damaged, and seldom cut off."""
        kind, makers = self.any.random(), [self.dominated_documents, self.fact_documents, self.supposed_documents]
        if kind < 0.45:
            documents = makers[0 if kind < 0.15 else 1 if kind < 0.3 else 2]()[0]
        else:
            documents = []
            for _ in range(self.any.choice([1, 1, 1, 2, 3])):
                lines, block = self.document()
                if self.any.random() < 0.7:
                    many, block = self.any.choice(makers)()
                    lines = list(self.any.choice(many))
                documents.append(self.damaged(lines, block))
        text = "".join(line + "\n" for lines in documents for line in lines)
        return text[: self.any.randint(0, len(text))] if self.any.random() < 0.05 else text


def count_outcome(text, told, refused, counts):
    """Counts each verdict under the version of its document, or the refusal, without numbers of lines and times."""
    versions = re.findall(r"^S66 CERTIFICATE (\d)$", text, re.MULTILINE)
    for version, line in zip(versions, told.splitlines()):
        verdict = re.sub(r"DOCUMENT \d+ | LINE \d+| TIME .*", "", line)
        counts[f"version {version} {verdict}"] += 1
    if refused:
        counts[re.sub(r"LINE \d+ ", "", refused)] += 1


def differences(program, texts, seed, counts):
    """What the two say differently, and how often they say what."""
    maker = Maker(program, seed)
    for number in range(1, texts + 1):
        text = maker.text()
        inside, outside = outcome([program, "check"], text), outcome([sys.executable, CERTIFICATE], text)
        count_outcome(text, inside[0], inside[2], counts)
        if inside != outside:
            yield f"text {number} of seed {seed}:\n{text}s66 check: {inside}\ntools/certificate.py: {outside}"


def main():
    parser = argparse.ArgumentParser(description=__doc__.split("\n")[0])
    parser.add_argument("program")
    parser.add_argument("--texts", type=int, default=2000)
    parser.add_argument("--seed", type=int, default=6600)
    asked = parser.parse_args()
    counts, wrong = collections.Counter(), 0
    for difference in differences(os.path.abspath(asked.program), asked.texts, asked.seed, counts):
        print(difference)
        wrong += 1
    told = ", ".join(f"{what} {count}" for what, count in sorted(counts.items()))
    print(f"{asked.texts - wrong} passed, {wrong} failed (texts: {told})")
    return 1 if wrong else 0


if __name__ == "__main__":
    sys.exit(main())
