"""A second opinion on what `s66 lint` finds in a source, what each finding harms, and what `s66 guard` prints.

Plain, slow, and written from docs/FORMATS.md; tools/source_rules.py reads the source. A line is named by its place, from 0.
"""
import re
from collections import namedtuple
from functools import cache

from certificate import instruction_of
from source_rules import (BRANCHES, COLUMN, FALL_THROUGH, INSTRUCTION, LETTERS, MOST, MOST_LINES, NO_ADDRESS, OTHER, PAD, REGISTER, Source, names_of, takes,
                          terms_of)

PARCELS = 4  # of a word
AHEAD = 40  # statements in which the use of an address is looked for
SKIPPED = 3  # words behind a call that its routine may skip
FEW = 100  # places of a name that are looked at one by one
DEEP = 3  # definitions in each other; a macro with so many in its body isn't read
MOST_MARK = 72  # bytes of a line that `guard` adds
READ = 72  # bytes of a line that COMPASS reads
MARK = "*S66 %s GUARD"
WITH_WORDS = BRANCHES | FALL_THROUGH | {"PS", "SUBR"}
EVALUATE = set("IFEQ IFNE IFGT IFGE IFLT IFLE IFPL IFMI".split())
CLOSE_WORD = BRANCHES | set("PS BSS BSSZ CON DATA DIS USE END".split())
HERE, HIGH = {"*", "*L", "*O", "*P", "$"}, {"1S17", "400000B"}
IN_LINE = {"VFD", "CON", "DATA"}
NOT_EXECUTED = set("VFD CON DATA BSS BSSZ DIS PS".split())

# A finding has a harm, the places of lines, if it concerns the order of code, and else none.
Finding = namedtuple("Finding", "place text harm")
# A word of code in which a name stands, or so many words from that; and a name that is no label of code.
Label = namedtuple("Label", "program at words")
Entry = namedtuple("Entry", "program at is_before is_behind")


def whole(parcels):
    return -(-parcels // PARCELS) * PARCELS


def is_index(term):
    return REGISTER.fullmatch(term) is not None


def registers_of(operand):
    return set(filter(is_index, names_of(operand)))


def has_other_term(operand):
    return re.search("[+-]", operand.lstrip("+-")) is not None


def sums_of(operand):
    return [(text, terms_of(text)) for text in re.split("[,/()]", operand)]


def operand_of(line):
    """The operand of a line; what follows a pad is a remark."""
    return "" if line.kind == PAD else line.operand


def has_words(line):
    return line.is_statement and not line.is_long and (line.kind in (INSTRUCTION, PAD) or line.word in WITH_WORDS)


def is_data_word(line):
    return line.word in ("CON", "DATA") and "," not in line.operand or line.word in ("BSS", "BSSZ") and line.operand == "1"


def halts(line):
    """Whether a word begins behind a line."""
    return line.word in ("RJ", "JP", "XJ", "PS", "SUBR") or line.word == "EQ" and "," not in line.operand or is_data_word(line)


def is_in_line(line):
    """Whether it is data that may stand in line with code."""
    return line.word in IN_LINE and line.may_join() and not is_data_word(line)


def parcels_of(line):
    """How many parcels a line has, for its words; None if that isn't known."""
    if has_words(line):
        return 1 if line.kind == PAD else line.size() if line.kind == INSTRUCTION else 2
    return PARCELS if is_data_word(line) else 2 if is_in_line(line) else 0 if line.is_wordless() else None


def is_named(line):
    return line.name() != "" and not line.is_wordless()


def number_of(term):
    number = re.fullmatch("([0-9]+)([BDO]?)", term)
    return None if not number else int(number[1], 8 if number[2] in ("B", "O") and not set("89") & set(number[1]) else 10)


def printable(text):
    """A text with ? for each control character, of ASCII and of Latin 1."""
    return re.sub("[\x00-\x1f\x7f-\x9f]", "?", text)


def depends(first, later):
    """Whether an instruction depends on one before it."""
    first, later = (instruction_of(" ".join(filter(None, (line.operation, line.operand)))) for line in (first, later))
    written, rewritten = first.held | first.fetched, later.held | later.fetched
    memory = {first.memory, later.memory}
    return bool(written & (later.reads | rewritten) or first.reads & rewritten or None not in memory and "store" in memory)


class Deck:
    """The statements of a source, of which no line is past the limit: neighbours, runs, and what stands how many words from a line."""

    def __init__(self, source, cut):
        self.source, self.lines, places = source, source.lines, range(len(source.lines))
        self.last, self.next = self.nearest(places, True), self.nearest(places[::-1], True)
        self.before, self.after = self.nearest(places, False), self.nearest(places[::-1], False)
        self.forward, self.back = cache(self.forward), cache(self.back)
        self.run_of, self.changing = {}, set()
        for run in self.runs(source.left_alone(cut)):
            self.run_of.update(dict.fromkeys(run, run))
            self.changing.update(run if self.may_change(run) else [])
        self.peripheral, is_peripheral, self.program, program = [], False, [], 0
        for line in self.lines:
            is_peripheral = line.word not in ("IDENT", "END") and (is_peripheral or line.word in ("PERIPH", "PPU"))
            program += line.word == "IDENT"
            self.peripheral.append(is_peripheral)
            self.program.append(program)

    def nearest(self, places, words):
        """Of each line the place of the statement before it in this order, if there is one; with `words` one that makes a word."""
        found, latest = [None] * len(self.lines), None
        for place in places:
            found[place] = latest
            if self.lines[place].is_statement and not (words and self.lines[place].is_wordless()):
                latest = place
        return found

    def runs(self, left):
        """The runs of instructions and pads, where these lines are left alone; other refused lines are passed over."""
        runs, is_open = [], False
        for place, line in enumerate(self.lines):
            if line.is_in_run() and not left[place]:
                runs += [] if is_open and not line.location else [[]]
                runs[-1].append(place)
                is_open = True
            elif left[place] or not line.is_refused and (line.is_long or not line.is_comment):
                is_open = False
        return runs

    def is_instruction(self, at):
        return self.lines[at].kind == INSTRUCTION and self.lines[at].is_in_run()

    def may_change(self, run):
        code = [at for at in run if self.is_instruction(at)]
        return code and (len(code) < len(run) or not all(depends(self.lines[a], self.lines[b]) for a, b in zip(run, run[1:])))

    def is_code(self, at):
        return at is not None and self.lines[at].is_code()

    def ahead(self, at, count=None):
        """So many statements after a line, or all, before an END or IDENT."""
        found = []
        while count is None or len(found) < count:
            at = self.after[at]
            if at is None or self.lines[at].word in ("END", "IDENT"):
                break
            found.append(at)
        return found

    def forward(self, begin, words=None):
        """Lines that may stand in so many words from that of a line on; or to the next name."""
        found, parcels, at = [], 0, begin
        while at is not None:
            line, size = self.lines[at], parcels_of(self.lines[at])
            if at != begin and line.begins_word() or is_data_word(line):
                parcels = whole(parcels)
            is_end = at != begin and is_named(line) if words is None else parcels >= PARCELS * words
            if is_end or size is None or at == begin and is_in_line(line):
                break
            found += [at] * has_words(line)
            parcels = whole(parcels + size) if halts(line) else parcels + size
            at = self.after[at]
        return found

    def back(self, begin, words=None):
        """Lines before a line, so many words back at least and to where a word begins; or to the last name."""
        found, parcels, is_whole, at = [], 0, self.lines[begin].begins_word(), self.before[begin]
        is_end = is_whole and words == 0
        while at is not None and not is_end:
            line, size = self.lines[at], parcels_of(self.lines[at])
            if halts(line):
                is_end = is_whole and words is None
                parcels, is_whole = whole(parcels) if is_whole else parcels // PARCELS * PARCELS, True
                is_end = is_end or words is not None and parcels >= PARCELS * words
            if is_end or size is None:
                break
            found += [at] * has_words(line)
            parcels += size
            if line.begins_word() or is_data_word(line):
                parcels, is_whole = whole(parcels) if is_whole else parcels // PARCELS * PARCELS, True
                is_end = words is not None and parcels >= PARCELS * words
            is_end = is_end or words is None and is_named(line)
            at = self.before[at]
        return found

    def around(self, at):
        return self.back(at) + self.back(at, 0) + self.forward(at)

    def away(self, at, words, is_data):
        """What stands so many words from a line, and all between; of its own word only what comes before, unless it is data."""
        if words < 0:
            return self.back(at, -words)
        return self.back(at, 0) + (self.forward(at, words + 1) if words or is_data else [])

    def is_held(self, at):
        """Whether the word of code that begins at a line can't change."""
        code, pads, begin = 0, 0, at
        while at is not None:
            line = self.lines[at]
            if at != begin and line.begins_word():
                break
            is_code = line.kind != PAD and has_words(line) and not halts(line)
            if line.kind != PAD and not is_code:
                return line.word in CLOSE_WORD and not (code and pads)
            if is_code and (code or pads):
                return False
            code, pads = code + is_code, pads + (line.kind == PAD)
            at = self.after[at]
        return True


class Names:
    """The names of a source: labels of code, entries, addresses, and numbers."""

    def __init__(self, deck):
        self.deck, self.lines = deck, deck.lines
        self.places, self.labels, self.entries, self.addresses, self.numbers = {}, {}, {}, {}, {}
        for at, line in enumerate(self.lines):
            if line.name():
                self.take(at, line, line.name(), deck.program[at])
        for _ in range(3):
            for at, line in enumerate(self.lines):
                self.take_other(at, line, line.name())
        self.lengths = {}
        for at, line in enumerate(self.lines):
            self.take_lengths(at, line)

    def take(self, at, line, name, program):
        code, is_inside = self.code_named(at), self.deck.source.inside[at]
        self.places.setdefault(name, []).append(at)
        if line.word in ("EQU", "=") and number_of(line.operand) is not None:
            self.numbers[name] = number_of(line.operand)
        if not is_inside:
            if self.deck.is_code(code):
                words = int(line.operand[1:] or 0) if line.word in ("EQU", "=") else 0
                self.labels.setdefault(name, []).append(Label(program, at if words else code, words))
            else:
                last, is_one = self.deck.last[at], line.is_one_word()
                is_behind = is_one and last is not None and has_words(self.lines[last])
                self.entries.setdefault(name, []).append(Entry(program, at, is_one and self.deck.after[at] is not None, is_behind))
        if code is not None and not is_inside or line.word not in NO_ADDRESS:
            self.addresses.setdefault(name, []).append(program)

    def code_named(self, at):
        """The place of the line of code, be it between switches, in whose word the name of a line stands, or None."""
        line, near = self.lines[at], self.deck.next
        if line.is_code():
            return at
        if line.word in ("EQU", "="):
            here = re.fullmatch(r"\*(?:([+-])[0-9]+)?", line.operand)
            near = here and (self.deck.last if here[1] == "-" else self.deck.next)
        elif not line.is_mark():
            near = None
        place = near and near[at]
        return place if place is not None and self.lines[place].is_code() else None

    def take_other(self, at, line, name):
        """Takes a name that means the same word as a label of code, or so many words further."""
        if line.word not in ("EQU", "=", "SET") or not name or self.deck.source.inside[at] or name in self.labels:
            return
        terms = terms_of(line.operand)
        named = [term for sign, term in terms if sign == "+" and self.code_at(term, at)]
        rest = [(sign, number_of(term)) for sign, term in terms if term not in named]
        if len(named) == 1 and len(rest) <= 1 and all(number is not None for _, number in rest):
            words, program = sum(-number if sign == "-" else number for sign, number in rest), self.deck.program[at]
            self.labels[name] = [Label(program, label.at, label.words + words) for label in self.code_at(named[0], at)]
            self.addresses.setdefault(name, []).append(program)
            self.entries.pop(name, None)

    def take_lengths(self, at, line):
        """Takes the places M of sums M-L and *-L, for the lines of L."""
        for _, terms in sums_of(operand_of(line)):
            taken = [term for sign, term in terms if sign == "-"]
            begins = [place.at for term in taken for place in self.code_at(term, at) + self.of_program(self.entries, term, at)]
            for begin in begins:
                for term in [term for sign, term in terms if sign == "+"]:
                    if term in ("*", "*L"):
                        self.lengths.setdefault(begin, []).append(at)
                    elif self.is_address(term, at):
                        self.lengths.setdefault(begin, []).extend(self.own(term, at))

    def own(self, name, at):
        return [place for place in self.places.get(name, []) if self.deck.program[place] == self.deck.program[at]]

    def of_program(self, found, name, at):
        """Of what is found of a name that of the program of a line, or all, if the name doesn't stand in it."""
        is_own = bool(self.own(name, at))
        return [place for place in found.get(name, []) if not is_own or place.program == self.deck.program[at]]

    def code_at(self, name, at):
        return [] if name[:1] == "=" else self.of_program(self.labels, name, at)

    def is_address(self, name, at):
        is_own = bool(self.own(name, at))
        return any(not is_own or program == self.deck.program[at] for program in self.addresses.get(name, []))

    def distance(self, terms):
        """The sum of some terms, or None if one isn't known; and whether one of these is subtracted."""
        values = [(sign, self.numbers.get(term, number_of(term))) for sign, term in terms]
        is_back = any(sign == "-" for sign, value in values if value is None)
        return None if any(value is None for _, value in values) else sum(-value if sign == "-" else value for sign, value in values), is_back


class Findings:
    """What `lint` finds in a source, of which no line is past the limit, and what each finding harms."""

    def __init__(self, source, cut):
        self.source, self.lines, self.deck = source, source.lines, Deck(source, cut)
        self.names, self.within = Names(self.deck), set()
        runs = self.deck.runs([line.is_off for line in self.lines])
        for run in runs:
            code = [at for at in run if self.deck.is_instruction(at)]
            for at in range(0, len(code), MOST):
                begin = run[0] if at == 0 and self.lines[run[0]].location else code[at]
                self.within.update(range(begin, code[at : at + MOST][-1]))
        self.joined = self.find_joined()
        self.rows = self.find_rows(self.deck.runs(source.left_alone(cut)))
        self.macros = self.find_macros()
        self.skipping = self.find_skipping()
        self.bodies = {begin for begin, end in source.definitions + source.echoes if any(self.deck.is_instruction(at) for at in range(begin, end))}
        self.counting = {at for at, places in source.covered.items() if any(self.is_covered_code(place) for place in places)}
        self.found = [finding for at in range(len(self.lines)) for finding in self.of_line(at)]

    def is_covered_code(self, at):
        return self.lines[at].kind in (INSTRUCTION, PAD) and not self.lines[at].is_off

    def is_read(self, at):
        return not (self.source.inside[at] or self.deck.peripheral[at])

    def harm(self, places):
        """All lines of the runs that may change and have one of these lines."""
        found = set()
        for at in places:
            if at in self.deck.changing and at not in found:
                found.update(self.deck.run_of[at])
        return found

    def find_joined(self):
        """The lines that stand for their places in the word of the line before."""
        joined, half = set(), None
        for at, line in enumerate(self.lines):
            last = self.deck.last[at]
            before = None if last is None else self.lines[last]
            follows = line.may_join() and half is not None and half == last
            is_first = before and (line.location == "-" and before.kind == OTHER or line.may_join() and before.word in ("RE", "WE"))
            if line.kind in (INSTRUCTION, PAD):
                joined.update([at] * bool(follows or is_first or line.word == "SB0"))
                half = at if is_first and not follows and (line.kind == PAD or line.size() == 1) else half
        return {at for at in joined & self.deck.changing if not (self.source.inside[at] or self.source.is_redefined(at))}

    def sliding(self, at):
        """The code before RJ, RE or WE that may bring it into the other half of its word, which the next line shares."""
        line, after = self.lines[at], self.deck.next[at]
        if self.source.inside[at] or line.word not in ("RJ", "RE", "WE") or not line.may_join() or after is None:
            return []
        if not (self.lines[after].location == "-" or not self.lines[after].location and line.word != "RJ"):
            return []
        found, place = [], self.deck.last[at]
        while self.deck.is_code(place):
            found.append(place)
            place = None if self.lines[place].begins_word() else self.deck.last[place]
        return found if len({self.lines[place].size() for place in found if place in self.deck.changing}) > 1 else []

    def find_rows(self, runs):
        """The first of four pads or more that stand one after another in a run."""
        rows = set()
        for run in runs:
            pads = "".join("N" if self.lines[at].kind == PAD else "I" for at in run)
            rows.update(run[row.start()] for row in re.finditer("N{4,}", pads))
        return {at for at in rows if not self.source.inside[at]}

    def find_macros(self):
        """The parameters of each macro, and the sums of its body."""
        macros = {}
        for begin, end in self.source.definitions:
            line = self.lines[begin]
            parameters = line.operand.split(",")
            if line.word != "OPDEF":
                name = line.location or parameters.pop(0)
                parameters = [parameter.split("=")[0] for parameter in parameters]
                sums = [[term for _, term in terms] for at in range(begin + 1, end - 1) for _, terms in sums_of(operand_of(self.lines[at]))]
                if self.is_deep(begin, end):
                    sums = [[parameter, None] for parameter in parameters]
                macros[name] = parameters, sums
        return macros

    def is_deep(self, begin, end):
        """Whether definitions nest three deep in the body of one."""
        inner = [part for part in self.source.definitions if begin < part[0] < end]
        return any(sum(first <= at < last for first, last in inner) >= DEEP for at, _ in inner)

    def find_skipping(self):
        """Operands of loads behind which, before the next entry, stands a jump by a B register and another term."""
        makes_word = lambda place: self.lines[place.at].word not in ("", "=", "EQU", "SET")
        entries, found = {name for name, places in self.names.entries.items() if any(map(makes_word, places))}, set()
        for begin, line in enumerate(self.lines):
            if re.fullmatch("SA[1-5]", line.word) and not self.source.inside[begin] and line.operand in self.names.entries:
                for at in self.deck.ahead(begin):
                    if self.lines[at].name() in entries:
                        break
                    found.update([line.operand] * self.is_computed(at))
        return found

    def is_computed(self, at):
        """Whether a line is a JP by a B register and another term."""
        line = self.lines[at]
        return line.word == "JP" and any(name[0] == "B" for name in registers_of(line.operand)) and has_other_term(line.operand)

    def is_chained(self, at):
        """Whether the A register that a line sets is a term of a later sum, before it is set anew."""
        own = self.lines[at].word[1:]
        for place in self.deck.ahead(at, AHEAD):
            line, is_used = self.lines[place], own in registers_of(self.lines[place].operand)
            if line.kind == INSTRUCTION and line.word[:1] == "S" and is_used and line.operand != own:
                return True
            if line.word == "S" + own and not is_used:
                return False
        return False

    def stretch(self, begin):
        ends, at, found = [end for end in self.names.lengths.get(begin, []) if end > begin], begin, []
        while at is not None and (at < max(ends) if ends else self.may_stretch(self.lines[at])):
            found.append(at)
            at = self.deck.after[at]
        return found

    def may_stretch(self, line):
        return has_words(line) and line.word not in ("PS", "SUBR") or line.is_wordless()

    def from_label(self, label, distance, is_data):
        """What stands so far from a label of code; of an unknown distance all to a name."""
        words, is_back = distance
        if words is not None:
            return self.deck.away(label.at, words + label.words, is_data)
        return self.deck.back(label.at) if is_back else self.deck.back(label.at, 0) + self.deck.forward(label.at)

    def from_entry(self, entry, distance):
        words, is_back = distance
        found = []
        if entry.is_before and (words > 0 if words is not None else not is_back):
            found += self.deck.forward(entry.at, None if words is None else words + 1)
        if entry.is_behind and (words < 0 if words is not None else is_back):
            found += self.deck.back(entry.at, None if words is None else -words)
        return found

    def spread(self, places, near):
        """What is meant near the places of a name, and of many all from the first of these to the last."""
        if not near or len(places) <= FEW:
            return near
        near = near + [place.at for place in places]
        return list(range(min(near), max(near) + 1))

    def referenced(self, at):
        """What SA1 to SA7 loads or stores."""
        is_chained, found = self.is_chained(at), []
        for text, terms in sums_of(self.lines[at].operand):
            names = [term for _, term in terms] or names_of(text)
            is_indexed = any(map(is_index, names))
            for name in names:
                distance = self.names.distance([(sign, term) for sign, term in terms if term != name and not is_index(term)])
                labels, near = self.names.code_at(name, at), []
                for label in labels:
                    if text.lstrip("+") == name and label.words == 0 and self.deck.is_held(label.at) and not is_chained:
                        continue
                    near += self.deck.around(label.at) if is_indexed else self.from_label(label, distance, True)
                    found += self.stretch(label.at) if is_chained else []
                found += near if is_indexed or distance[0] is None else self.spread(labels, near)
                if name not in self.names.labels and not is_indexed and distance[0] is not None:
                    entries = self.names.of_program(self.names.entries, name, at)
                    found += self.spread(entries, [place for entry in entries for place in self.from_entry(entry, distance)])
                    for entry in entries:
                        if distance[0] == 0 and entry.is_before and is_chained and entry.at in self.names.lengths:
                            found += self.stretch(entry.at)
        return found

    def called(self, at):
        """The word of code into which RJ stores."""
        labels = self.names.code_at(self.lines[at].operand, at) if self.is_read(at) else []
        loose = [label for label in labels if label.words or not self.deck.is_held(label.at)]
        return [place for label in loose for place in self.deck.away(label.at, label.words, True)]

    def counted_from_label(self, at):
        found = []
        for _, terms in sums_of(operand_of(self.lines[at])):
            names = [term for _, term in terms if self.names.is_address(term, at)]
            if len(names) != 1 or HIGH.intersection(term for _, term in terms):
                continue
            rest = [(sign, term) for sign, term in terms if term != names[0] and not is_index(term) and term[0] not in "=*$"]
            distance = self.names.distance(rest)
            labels = self.names.code_at(names[0], at)
            if rest and distance[0] != 0:
                near = [place for label in labels for place in self.from_label(label, distance, False)]
                found += near if distance[0] is None else self.spread(labels, near)
                entries = self.names.of_program(self.names.entries, names[0], at) if not labels and distance[0] != 1 else []
                near = [place for entry in entries for place in self.from_entry(entry, distance)]
                found += near if distance[0] is None else self.spread(entries, near)
        return found

    def counted_from_here(self, at):
        line, found = self.lines[at], []
        if not self.is_read(at):
            return []
        if line.word in ("EQU", "=") and re.fullmatch(r"\*[+-][0-9]+", line.operand):
            return [place for label in self.names.labels.get(line.name(), []) if label.at == at for place in self.from_here(at, label.words, False)]
        if line.kind == INSTRUCTION or line.word in BRANCHES | EVALUATE:
            for text in line.operand.split(","):
                found += self.counted_in(at, text, terms_of(text))
        return found

    def counted_in(self, at, text, terms):
        """What a sum with the place of its line counts."""
        line, after, before, texts = self.lines[at], self.deck.next[at], self.deck.before[at], {term for _, term in terms}
        joins = after is not None and self.lines[after].location == "-"
        if not HERE & texts or HIGH & texts or line.word in ("RJ", "EQ", "JP") and line.operand in ("*+1", "1+*") and not joins:
            return []
        is_forced = before is not None and self.lines[before].kind == INSTRUCTION and not self.lines[before].may_join()
        if line.word in BRANCHES and text in ("*", "*+0", "*-0") and (not line.may_join() or is_forced):
            return []
        words, _ = self.names.distance([(sign, term) for sign, term in terms if term not in HERE and not is_index(term)])
        is_indexed = any(map(is_index, texts))
        if halts(line) and after is not None and not joins and words is not None and words >= 1:
            return self.deck.forward(after, None if is_indexed else words)
        found = list(self.from_here(at, None if is_indexed else words, line.kind == INSTRUCTION or bool(texts & {"$", "*P"})))
        for label in [label for text in texts for label in self.names.code_at(text, at)]:
            found += range(min(label.at, at), max(label.at, at))
        return found

    def from_here(self, at, words, is_data):
        if words is None:
            return self.deck.around(at)
        if words < 0:
            return self.deck.back(at, -words)
        begin = at if has_words(self.lines[at]) else self.deck.after[at]
        return self.deck.back(at, 0) + (self.deck.forward(begin, words + 1) if begin is not None and (words or is_data) else [])

    def jumped(self, at):
        """What a computed jump may reach."""
        line, found = self.lines[at], []
        if line.word == "JP" and any(name[0] == "B" for name in registers_of(line.operand)):
            for name in names_of(line.operand):
                for place in self.names.own(name, at) or self.names.places.get(name, []):
                    code = self.names.code_named(place)
                    code = code if self.deck.is_code(code) else None
                    found += self.deck.around(place if code is None else code) + ([] if code is None else self.deck.forward(place))
        return found

    def taken(self, at):
        """The code whose address SB or SX takes, if it is used with another term."""
        line = self.lines[at]
        if not re.fullmatch("S[BX][0-7]", line.word) or self.source.inside[at]:
            return []
        terms = [term for _, term in terms_of(line.operand)]
        named, is_indexed = [term for term in terms if self.names.code_at(term, at)], any(map(is_index, terms))
        if len(named) != 1 or not (terms == named or is_indexed) or not self.is_used(at, is_indexed):
            return []
        return [place for label in self.names.code_at(named[0], at) for place in self.deck.around(label.at)]

    def is_used(self, at, is_indexed):
        """Whether the register that a line sets, or one with its value, is used with another term; or in a jump alone."""
        held = {self.lines[at].word[1:]}
        for place in self.deck.ahead(at, AHEAD):
            line = self.lines[place]
            is_read, has_other = held & registers_of(line.operand), has_other_term(line.operand)
            if is_read and (line.word == "JP" and (has_other or is_indexed) or re.fullmatch("SA[1-7]", line.word)):
                return True
            is_set = re.fullmatch("S[BX][0-7]", line.word)
            if is_read and is_set and has_other:
                return True
            if is_read and is_set:
                held.add(line.word[1:])
            elif line.kind == INSTRUCTION and (is_set or line.word[1:2] == "X" and not is_read):
                held.discard(line.word[1:])
            elif re.fullmatch("SA[1-5]", line.word):
                held.discard("X" + line.word[2])
            if not held:
                break
        return False

    def passed(self, at):
        """The code whose label a call gives to a macro that uses the parameter in a sum."""
        line = self.lines[at]
        if line.kind != OTHER or self.source.inside[at] or line.word not in self.macros:
            return []
        parameters, sums = self.macros[line.word]
        arguments, found, given = line.operand.split(","), [], set()
        for number, argument in enumerate(arguments):
            given.update(parameters[number : number + 1] if argument else [])
            given.update([argument.partition("=")[0]] if argument.partition("=")[2] else [])
        for number, argument in enumerate(arguments):
            name, _, value = argument.partition("=")
            is_by_name = value and name in parameters
            parameter = name if is_by_name else "".join(parameters[number : number + 1])
            labels = self.names.code_at((value if is_by_name else argument).strip("()"), at)
            others = {term for terms in sums if parameter in terms for term in terms} - {parameter}
            if parameter and any(term not in parameters or term in given for term in others):
                found += [place for label in labels for place in self.deck.around(label.at)]
        return found

    def skipped(self, at):
        """The words behind a call that its routine may skip."""
        line, after = self.lines[at], self.deck.next[at]
        if line.word != "RJ" or line.operand not in self.skipping or self.source.inside[at] or after is None:
            return []
        return [] if self.lines[after].location == "-" else self.deck.forward(after, SKIPPED)

    def falling(self, at):
        """The code that runs from a line into data."""
        after = self.deck.next[at]
        if not self.is_read(at) or not self.deck.is_code(at) or after is None or self.lines[after].word not in NOT_EXECUTED:
            return []
        if self.lines[after].location == "-" or self.lines[after].word == "PS" and not self.lines[after].name():
            return []
        found, place = [at], self.deck.before[at]
        while place is not None and (has_words(self.lines[place]) and not halts(self.lines[place]) or self.lines[place].is_wordless()):
            found.append(place)
            place = self.deck.before[place]
        return found

    def is_past_end(self, at, line):
        """Whether an instruction ends past what COMPASS reads, in its own line or where `order` may put it."""
        run = self.deck.run_of.get(at)
        if not run or line.kind != INSTRUCTION or self.source.inside[at] or line.is_far() or self.source.is_redefined(at):
            return False
        return max(line.operation_at, COLUMN, len(self.lines[run[0]].label) + 1) + line.width > READ

    def of_form(self, at, line):
        """What a statement is itself, with the words that are shown."""
        is_other, column = line.kind == OTHER, re.fullmatch(LETTERS + "[0-7]", line.location)
        if line.is_far() and not self.source.inside[at]:
            yield "FAR OPERAND", line.written, line.written_operand, "(CUT)"
        if self.source.is_redefined(at):
            yield "REDEFINED", line.written, line.written_operand, "(CUT)"
        if not self.deck.peripheral[at] and re.match("#|;|//", line.location or line.operation):
            yield "NOT A COMMENT", *((line.label.lstrip(" "), line.written) if line.location else (line.written, line.written_operand))
        if is_other and not self.deck.peripheral[at] and re.fullmatch(LETTERS + "([^0-7]|[0-9]{2,})?", line.operation, re.DOTALL):
            yield "NOT AN INSTRUCTION", line.written
        if is_other and column and takes(line.location, line.operation) and not re.fullmatch("[A-Z]+|=", line.operation):
            yield f"IN COLUMN {1 + line.text.index(line.label.lstrip(' '))}", line.label.lstrip(" "), line.written
        if at in self.bodies:
            yield "HAS A BODY", line.written, "(CUT)"

    def of_order(self, at, line):
        """What is found in a statement that concerns the order of code, with the lines that decide what is harmed."""
        if re.fullmatch("SA[1-7]", line.word):
            yield "STORES INTO CODE" if line.word in ("SA6", "SA7") else "LOADS CODE", self.referenced(at)
        if line.word == "RJ":
            yield "STORES INTO CODE", self.called(at)
        yield "TAKES CODE", self.taken(at)
        yield "PASSES CODE", self.passed(at)
        yield "SKIPS WORDS", self.skipped(at)
        yield "JOINS A WORD", self.sliding(at)
        yield "COUNTS WORDS", self.counted_from_label(at) + self.counted_from_here(at) + self.jumped(at)
        yield "FALLS INTO DATA", self.falling(at)
        yield "ROW OF NO", [at] if at in self.rows else []

    def of_statement(self, at, line):
        """What is found in a statement, each with its harm."""
        both = line.written, line.written_operand
        for words in self.of_form(at, line):
            yield words, None
        if self.is_past_end(at, line):
            yield ("PAST COLUMN 72", *both), {at}
        for name, places in self.of_order(at, line):
            if name == "JOINS A WORD" and at in self.joined:
                yield (name, *both), {at}
            if self.harm(places):
                yield (name, *both) if name != "ROW OF NO" else (name,), self.harm(places)

    def of_line(self, at):
        """What is found in a line."""
        line, found = self.lines[at], []
        if line.is_long:
            found = [(("TOO LONG",), None)]
        elif not line.is_off:
            if line.is_comment and line.directive and at in self.within:
                found.append((("DIRECTIVE", line.directive, "(CUT)"), None))
            if line.is_refused:
                found.append((("BAD OPERAND", line.written, line.written_operand, "(CUT)"), None))
            found += self.of_statement(at, line) if line.is_statement else []
            if at in self.counting:
                found.append((("COUNTS LINES", line.written or line.directive, "(CUT)"), None))
        return [Finding(at, printable(" ".join(filter(None, words))), harm) for words, harm in found]


def findings_of(text, cut):
    """What is found in the lines of a source up to the limit, and the line after that, if there is one."""
    source = Source(text)
    past = source.lines[MOST_LINES:]
    if past:  # what was found may reach into that line
        source = Source(b"\n".join(text.split(b"\n")[:MOST_LINES]) + b"\n")
    return Findings(source, cut), past


def lint_of(text, cut=False):
    """What `lint` prints of a source, with or without --cut, and its status."""
    findings, past = findings_of(text, cut)
    told = [f"LINE {finding.place + 1} {finding.text}" for finding in findings.found]
    told += [f"LINE {MOST_LINES + 1} TOO LONG"] * any(line.is_long for line in past) + ["TOO MANY LINES"] * bool(past)
    if cut:
        told = [line for line in told if not line.endswith(" (CUT)")]
    is_refused = past or any(line.is_long or line.is_refused and not cut for line in findings.lines)
    return "".join(line + "\n" for line in told).encode("latin-1"), 5 if is_refused else 8 if told else 0


def regions_of(findings):
    """The first and the last line of each region."""
    harmed = {at for finding in findings.found for at in finding.harm or ()}

    def joins(at):
        line = findings.lines[at]
        is_plain = line.is_comment and not line.directive and not line.mark
        return at not in findings.deck.changing and not line.is_off and (is_plain or line.continues and not line.is_long or has_words(line) or line.is_wordless())

    regions = []
    for at in sorted(harmed):
        if regions and all(map(joins, range(regions[-1][1] + 1, at))):
            regions[-1][1] = at
        else:
            regions.append([at, at])
    return regions


def guard_of(text):
    """What `guard` prints of a source, its status, and what it tells: the line of a refusal, or what is left alone."""
    findings, past = findings_of(text, True)
    refused = [f"LINE {at + 1} TOO LONG" for at, line in enumerate(findings.lines) if line.is_long][:1]
    if refused or past:
        return b"", 3, (refused or [f"LINE {MOST_LINES + 1} TOO LONG" if past[0].is_long else "TOO MANY LINES"])[0].encode()
    begins, ends, regions = {}, set(), regions_of(findings)
    for first, last in regions:
        reasons = dict.fromkeys(finding.text for finding in findings.found if any(first <= at <= last for at in finding.harm or ()))
        begins[first] = [f"{MARK % 'OFF'} {reason}"[:MOST_MARK].rstrip(" \t\r") for reason in reasons]
        ends.add(last)
    raw, rows = text.decode("latin-1").split("\n"), []
    for at in range(len(findings.lines)):
        rows += begins.get(at, []) + [raw[at]] + [MARK % "ON"] * (at in ends)
    lines = sum(last - first + 1 for first, last in regions)
    many, verb = ("", "is") if len(regions) == 1 else ("s", "are")
    told = f"{len(regions)} place{many} with {lines} line{'s' * (lines != 1)} {verb} left alone\n"
    return "".join(row + "\n" for row in rows).encode("latin-1"), 0, told.encode() if regions else b""
