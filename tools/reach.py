#!/usr/bin/env python3
"""Compares what counts, jumps, loads and stores of random code reach before and after `guard` and `order --cut`.

    tools/reach.py PROGRAM [--first N] [--count N] [--plain]

Each of N numbers, 300 from 1 unless given, makes a source full of counts, plugs, data in line and NOs, in which some instructions are
continued or redefined, or have an operand far to the right. It goes through `guard` and `order --cut`, with --keep for every second
one. Before and after it is packed into words, as COMPASS does: a word begins at a location, behind RJ, PS, EQ without a comma and
data, and where a line doesn't fit. Of a load or a store the word that it reaches is compared, without the NOs at its end; of a count
or a jump the first instruction from its word on, or that this is where a location or what stands before forces a word: there a run
begins. With --plain nothing is guarded, which shows how many sources `order` harms. Each mismatch is printed with its source. The
status is 1 if there is one.
"""
import argparse
import re
import subprocess
import sys
from random import Random

WORD = 4  # parcels
LABELS = ["L0", "L1", "L2", "L3"]
PLAIN = ["SX{i} X{j}+B1", "BX{i} X{j}", "SX{i} B{j}+5", "LX{i} 6", "SA{l} B2+{j}", "FX{i} X{j}*X{k}", "MX{i} 42", "SB{i} X{j}"]
JUMPS = ["ZR X1,OUT", "NG X2,OUT", "EQ OUT", "RJ SUB", "EQ B1,B2,OUT"]
FROM_LABEL = ["EQ {label}{n:+}", "NZ X3,{label}{n:+}", "SA1 {label}{n:+}", "SA6 {label}{n:+}", "SB7 {label}{n:+}", "CON {label}{n:+}"]
FROM_HERE = ["NZ X1,*-1", "NZ X1,*-2", "NZ X1,*+2", "EQ *+2", "NZ X1,*", "SB7 *+2", "SA1 *-1"]
PLUGS = ["SA1 {label}", "SA6 {label}"]
SYNONYMS = ["BX1", "SX3", "SA2", "MX4", "NO"]
SORTS = [(60, PLAIN), (12, ["NO"]), (8, JUMPS), (13, FROM_LABEL), (4, FROM_HERE), (3, PLUGS)]


def make_source(random):
    """Lines of a source; each label has a place."""
    left = LABELS[:]
    lines = [name.ljust(10) + "OPSYN " + name for name in random.sample(SYNONYMS, random.choice([0, 0, 1, 2]))]
    for _ in range(random.randrange(8, 30)):
        forms = random.choices([forms for _, forms in SORTS], [weight for weight, _ in SORTS])[0]
        digits = {name: random.choice("01234567") for name in "ijk"}
        text = random.choice(forms).format(l=random.choice("12345"), label=random.choice(LABELS), n=random.choice([-2, -1, 1, 2, 3]), **digits)
        place = random.choices([left[:1], ["+"], []], [15, 6, 79])[0]
        left = left[1:] if place and place == left[:1] else left
        lines.append("".join(place).ljust(10) + text.replace(" ", " " * random.choices([1, 19], [95, 5])[0], 1))
        lines += ["* NOTE"] * random.randrange(3) + [",X1"] if random.random() < 0.04 else []
    return lines + [label.ljust(10) + "PS" for label in left]


def without_comments(lines):
    return [line for line in lines if not line.startswith("*")]


def parcels_of(operation, operand):
    if operation in ("NO", "CON"):
        return 1 if operation == "NO" else WORD
    has_constant = re.search("(^|[-+])(?![ABX][0-7]([-+]|$))", operand)
    return 2 if not re.fullmatch("[A-Z]X[0-7]|S[AB][0-7]", operation) or operation[0] == "S" and has_constant else 1


def packed(lines):
    """The words of a source, each the lines in it; which of them are forced; the words of labels; and of each line its text, its
    number among equal ones and its word."""
    words, used, is_forced, forced, labels, own, seen = [], WORD, True, set(), {}, [], {}
    for line in without_comments(lines):
        place, (operation, operand) = line[:10].strip(), (line[10:].split() + ["", ""])[:2]
        if operation in ("", "OPSYN"):
            continue
        is_forced, text, parcels = is_forced or place != "", f"{operation} {operand}", parcels_of(operation, operand)
        if is_forced or used + parcels > WORD:
            forced.update([len(words)] * is_forced)
            words, used = words + [[]], 0
        labels[place] = len(words) - 1
        seen[text] = seen.get(text, 0) + 1
        own.append((text, seen[text], len(words) - 1))
        words[-1].append(text)
        used += parcels
        is_forced = operation in ("RJ", "PS", "CON") or operation == "EQ" and "," not in operand
    return words, forced, labels, own


def reached(lines):
    """What each count, load and store reaches, by its text and its number among equal ones."""
    words, forced, labels, own = packed(lines)
    found = {}
    for text, number, word in own:
        count = re.search(r"(L\d|\*)([+-]\d+)?$", text)
        at = None if not count else (word if count[1] == "*" else labels[count[1]]) + int(count[2] or 0)
        if at is None or not 0 <= at < len(words):
            continue
        if text.startswith("SA"):
            found[text, number] = re.sub("(NO ,)*$", "", "".join(line + "," for line in words[at]))
            continue
        while at + 1 in forced and set(words[at]) == {"NO "}:
            at += 1
        code = [line for word in words[at:] for line in word if line != "NO "]
        found[text, number] = "a run" if at in forced else code[:1]
    return found


def run(program, words, lines):
    done = subprocess.run([program, *words], input="".join(line + "\n" for line in lines), capture_output=True, text=True)
    return done.stdout.split("\n")[:-1]


def main():
    parser = argparse.ArgumentParser(description=__doc__.split("\n")[0])
    parser.add_argument("program")
    parser.add_argument("--first", type=int, default=1)
    parser.add_argument("--count", type=int, default=300)
    parser.add_argument("--plain", action="store_true")
    asked, changed, wrong = parser.parse_args(), 0, 0
    for number in range(asked.first, asked.first + asked.count):
        lines = make_source(Random(number))
        guarded = lines if asked.plain else run(asked.program, ["guard"], lines)
        words = ["order", "--cut", "--quiet", "--deep", "--nodes", "50", "--workers", "1"] + ["--keep"] * (number % 2)
        ordered = run(asked.program, words, guarded)
        before, after = reached(lines), reached(ordered)
        changed += without_comments(ordered) != without_comments(lines)
        wrong += before != after
        if before != after:
            differs = {text: (there, after.get(text)) for text, there in before.items() if after.get(text) != there}
            print(f"{number}: {differs}\n" + "\n".join(guarded) + "\n--\n" + "\n".join(ordered))
    print(f"{asked.count - wrong} passed, {wrong} failed ({changed} sources changed by order)")
    return 1 if wrong else 0


if __name__ == "__main__":
    sys.exit(main())
