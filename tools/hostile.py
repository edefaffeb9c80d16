#!/usr/bin/env python3
"""Gives the program inputs that are meant to harm it, and checks its answers, its time and its memory.

    tools/hostile.py PROGRAM

Documents for `check`: each front of one, numbers of 10,000 digits, a million nodes and one more, a tree of the deepest block, trees
of two million lines whose splits are as wide as may be, names that point to each wrong place, 362,879 leaves that name one node, and
as many fact lines as there may be, with suppositions too; some also for `check --text`. Sources: a gigabyte of newlines, of blanks
without a newline, and of instructions, for each subcommand but `lint`; for that a part of it, and the longest ones with many macros in
each other, many places of a name, long sums, continuations, redefinitions and counts. What each has to answer stands beside it. None may
take more than 10 seconds of processor time, a document of fact lines no more than 30 for each megabyte that it has, or 60 with `--text`;
or more than 200 MB of address space, and a source of a gigabyte no more than 32 MB. The status is 1 if something is wrong.
"""
import itertools
import os
import resource
import subprocess
import sys
import threading

PROFILE = "PROFILE 3 3 4 4 3 10 29 8 3 8 1 1 1 1 2 1 2\n"
MULTIPLIES = ("S66 CERTIFICATE 1\n" + PROFILE + "BLOCK 3\nI FX1 X2*X3\nI FX4 X5*X6\nI FX0 X7*X7\nTIME 22\nBOUND 22\nORDER 1 2 3\n"
              "S 1 2 3\nS 2 3\nS 3\nT\nS 2\nT\nS 1 3\nS 3\nT\nS 1\nT\nS 1 2\nS 2\nT\nS 1\nT\nEND\n")
# three that don't differ: line 16 names line 11, line 20 line 11 and line 21 line 15
ALIKE = ("S66 CERTIFICATE 3\n" + PROFILE + "BLOCK 3\nI SB0 B1\nI SB0 B1\nI SB0 B1\nTIME 8\nBOUND 8\nORDER 1 2 3\n"
         "S 1 2 3\nS 2 3\nS 3\nT\nS 2\nT\nS 1 3\nD 1 2\nS 1\nT\nS 1 2\nD 1 3\nD 2 3\nEND\n")
CHAIN = ("S66 CERTIFICATE 1\n" + PROFILE + "BLOCK 3\nI SA1 A1+B1\nI BX6 X1\nI BX7 X2\nTIME 12\nBOUND 12\nORDER 1 3 2\nC 1 2\nEND\n")
SECONDS, MEGABYTES, FRONT_MEGABYTES = 10, 200, 32
MOST_FACTS, MOST, MEGABYTE_SECONDS, TEXT_MEGABYTE_SECONDS = 4096, 128, 30, 60
MOST_LINES, LONGEST = 20000, 200  # of a source
GIGABYTE = 1 << 30
# the second lines after a source that is refused, and after what is no certificate
LISTED, LONG = b"s66 lint lists all such lines, --cut leaves them alone\n", b"a line has at most 200 bytes; s66 lint lists all that have more\n"
MANY, PROVED = b"a source has at most 20000 lines; s66 order --quiet adds none\n", b"s66 check reads what s66 prove prints\n"
CHUNK = 1 << 20
TRUNCATED = (3, b"", b"TRUNCATED\n" + PROVED)


def bad_line(line):
    return 3, b"", b"LINE %d BAD LINE\n" % line + PROVED


def no(line, reason):
    return 5, b"DOCUMENT 1 NO LINE %d REASON %d\n" % (line, reason), b""


def yes(time, bound):
    return 0, b"DOCUMENT 1 YES TIME %d BOUND %d\n" % (time, bound), b""


def altered(text, old, new):
    assert text.count(old) == 1, old
    return text.replace(old, new)


def head_of(text):
    """A document up to its order."""
    return text[: text.index("S ", text.index("ORDER"))]


def long_numbers():
    """A number of 10,000 digits in the place of each number, and of one in an instruction."""
    digits = "9" * 10000
    for name, text in (("three multiplies", MULTIPLIES), ("three alike", ALIKE), ("a chain", CHAIN)):
        lines = text.splitlines()
        numbers = [(place, at) for place, line in enumerate(lines) if line[0] not in "IE"
                   for at, word in enumerate(line.split(" ")) if word.isdigit()]
        for place, at in numbers:
            words = lines[place].split(" ")
            words[at] = digits
            changed = [*lines[:place], " ".join(words), *lines[place + 1:]]
            yield f"{name}, a number of 10,000 digits in line {place + 1}", "\n".join(changed) + "\n", bad_line(place + 1)
    yield "a number of 10,000 digits in an instruction", altered(CHAIN, "I BX7 X2", f"I SB7 {digits}"), bad_line(6)


def many_nodes():
    head = head_of(MULTIPLIES)
    yield "a million nodes and one", head + "S 1\n" * 1_000_001, (3, b"", b"TOO MANY NODES\n")
    yield "a million nodes and one, and an end", head + "S 1\n" * 1_000_001 + "T\nEND\n", (3, b"", b"TOO MANY NODES\n")
    yield "a million nodes, each below the last", head + "S 1\n" * 1_000_000 + "T\nEND\n", no(10, 3)
    yield "a million nodes without an end", head + "S 1\n" * 1_000_000, TRUNCATED


def deep_trees():
    """Chains of 128, whose only order is the source order: a split for each number."""
    texts = "".join("I BX0 X0\n" for _ in range(128))
    order = " ".join(map(str, range(1, 129)))
    head = f"S66 CERTIFICATE 1\n{PROFILE}BLOCK 128\n{texts}TIME 512\nBOUND 512\nORDER {order}\n"
    splits = "".join(f"S {n}\n" for n in range(1, 129))
    document = head + splits + "T\nEND\n"
    yield "a tree of depth 128", document, yes(512, 512)
    yield "that with a leaf below its deepest", altered(document, "T\nEND", "S 128\nT\nEND"), no(263, 3)
    yield "that with one split less", altered(document, "S 128\nT", "T"), no(262, 6)


def wide_document(leaf_at):
    """128 that don't differ, and a tree whose splits have all children there are: 16,385 splits, and 2,048,256 leaves, each by the
    numbers of its prefix."""
    numbers = range(1, MOST + 1)
    lines = [f"S66 CERTIFICATE 4\n{PROFILE}BLOCK {MOST}", *["I SB0 B1"] * MOST, "TIME 257\nBOUND 0"]
    lines += ["ORDER " + " ".join(map(str, numbers)), "S " + " ".join(map(str, numbers))]
    for first in numbers:
        lines.append("S " + " ".join(str(n) for n in numbers if n != first))
        for second in numbers:
            if second != first:
                left = [n for n in numbers if n not in (first, second)]
                lines += ["S " + " ".join(map(str, left)), *leaf_at(left)]
    return "\n".join([*lines, "END", ""])


def wide_trees():
    """The name of each, and what stands below its last splits."""
    yield "leaves P", lambda left: ["P"] * len(left)
    yield "leaves U", lambda left: ["U INCREMENT"] * len(left)
    yield "leaves E", lambda left: [f"E {left[-1]}"] * (len(left) - 1) + [f"E {left[0]}"]


def wrong_names():
    """Leaves of version 3 that name what they may not, each with the line of the leaf."""
    yield "the document itself", ALIKE, yes(8, 8)
    for name, new in (("a node forward that is a leaf of another set", "D 2 3"), ("itself", "D 2 1"), ("its parent", "D 2"),
                      ("a leaf of another set", "D 1 2 3"), ("what isn't a node", "D 3 3"), ("numbers above the block's", "D 4 5")):
        yield f"line 17 names {name}", altered(ALIKE, "D 1 2\n", new + "\n"), no(17, 9)
    yield "line 17 names the root, which has no numbers", altered(ALIKE, "D 1 2\n", "D\n"), bad_line(17)
    yield "two leaves name each other", altered(altered(ALIKE, "D 1 2\n", "D 1 2\n"), "S 3\nT\n", "D 2 1\n"), no(12, 9)
    yield "a leaf names one that is dominated", altered(ALIKE, "D 2 3", "D 3 1"), no(22, 9)
    forward = altered(altered(ALIKE, "D 1 2\n", "S 3\nT\n"), "S 2 3\nS 3\nT\n", "S 2 3\nD 2 1\n")
    yield "a leaf names a node after it", forward, yes(8, 8)
    root = altered(ALIKE, ALIKE[ALIKE.index("S 1 2 3\n"):], "D 1 2 3\nEND\n")
    yield "the root is dominated by what isn't there", root, no(10, 9)
    yield "the same in version 2", altered(forward, "CERTIFICATE 3", "CERTIFICATE 2"), no(12, 9)


def many_leaves():
    """Nine that don't differ, and a tenth after all of them: of the 362,880 orders of the nine one is split, and all others name it,
    which is the first node of their set in the tree, or the last."""
    nine = tuple(range(1, 10))
    head = PROFILE + "BLOCK 10\n" + "I SB0 B1\n" * 9 + "I SB1 B2\nTIME 21\nBOUND 21\nORDER 1 2 3 4 5 6 7 8 9 10\n"
    for where, split in (("first", nine), ("last", nine[::-1])):
        leaf, lines = f"D {' '.join(map(str, split))}", []

        def grow(prefix, left):
            if left:
                lines.append("S " + " ".join(map(str, left)))
                for n in left:
                    grow(prefix + (n,), tuple(m for m in left if m != n))
            else:
                lines.extend(("S 10", "T") if prefix == split else (leaf,))

        grow((), nine)
        text = "S66 CERTIFICATE 3\n" + head + "\n".join(lines) + "\nEND\n"
        yield f"362,879 leaves that name the {where} node of their set", text, yes(21, 21)


def fact_lines():
    """As many fact lines as there may be, of blocks of the greatest length: they say nothing new, or each makes paths longer."""
    one_increment = PROFILE[:-2] + "1\n"
    slow = one_increment.replace("8 3 8 1", "8 100 8 1")
    chain, alone = ["BX1 X1"] * MOST, ["SB0 B1"] * MOST
    between = ["UX3 B1,X2", *alone[2:], "UX4 B1,X2"]
    halves = [*alone[:63], "UX3 B1,X2", *alone[64:]]
    in_turn = itertools.cycle(("A I1 S128 0 0 64", "A I2 S127 0 0 64"))
    pairs = ((first, first + distance) for distance in range(MOST - 1, 0, -1) for first in range(1, MOST + 1 - distance))
    waits = range(100, 100 + MOST_FACTS)
    uses = (" ".join(map(str, range(2, 4 + wait // 101))) for wait in waits)
    turned = [f"F {n + 1} {n}" for n in range(MOST - 1, 0, -1)]
    for name, profile, block, time, lines in (
        ("one load", PROFILE, chain, 512, itertools.repeat("A I1 S128 0 0 64")),
        ("two loads in turn", PROFILE, chain, 512, in_turn),
        ("loads between moments that differ", PROFILE, chain, 512, (f"A I{m} S{n} 0 0 {n}" for m, n in pairs)),
        ("loads that grow", slow, between, 12729, (f"A I1 I128 0 {wait} {numbers}" for wait, numbers in zip(waits, uses))),
        ("loads, many numbers side by side", one_increment, halves, 508, in_turn),
        ("loads, numbers against the order", one_increment, alone, 512, itertools.chain(turned, itertools.repeat("A I128 S1 0 0 64"))),
        ("one pair", PROFILE, chain, 512, itertools.repeat("F 1 2")),
        ("pairs", one_increment, alone, 512, (f"F {m} {n}" for m in range(1, 65) for n in range(65, MOST + 1))),
    ):
        texts = "".join(f"I {text}\n" for text in block)
        order = " ".join(map(str, range(1, MOST + 1)))
        facts = "".join(f"{line}\n" for line in itertools.islice(lines, MOST_FACTS))
        text = f"S66 CERTIFICATE 4\n{profile}BLOCK {MOST}\n{texts}TIME {time}\nBOUND 0\nORDER {order}\n{facts}P\nEND\n"
        yield f"{MOST_FACTS} fact lines: {name}", text, yes(time, 0)


def supposing(lines, time=512):
    """A document of the greatest length of instructions that don't differ, under one Increment unit, with these lines as facts."""
    texts, order = "I SB0 B1\n" * MOST, " ".join(map(str, range(1, MOST + 1)))
    facts = "".join(f"{line}\n" for line in lines)
    return f"S66 CERTIFICATE 5\n{PROFILE[:-2]}1\nBLOCK {MOST}\n{texts}TIME {time}\nBOUND 0\nORDER {order}\n{facts}P\nEND\n"


def suppositions():
    """As many lines of suppositions as there may be, all right, since no order takes less than the bound."""
    half = MOST // 2
    pairs = [(first, second) for first in range(1, half + 1) for second in range(half + 1, MOST + 1)]
    # each of two rows, of which nothing is known but what was shown: the one that is supposed adds up to 4,096 pairs
    rows = [f"F {n} {n + 1}" for n in range(1, MOST) if n != half]
    between = sorted(pairs, key=lambda pair: pair[0] - pair[1])
    load = "A 0 END 0 0 " + " ".join(map(str, range(1, MOST + 1)))
    for name, lines in (
        ("many", [line for first, second in pairs for line in (f"B {first} {second}", "Q")]),
        ("many, with a load", [line for first, second in pairs for line in (f"B {first} {second}", load, "Q")]),
        ("between two rows", rows + [line for first, second in between for line in (f"B {first} {second}", "Q")]),
        ("one, with many loads", ["B 2 1", *[load] * (MOST_FACTS - 2), "Q"]),
        ("one, with many pairs", ["B 2 1", *[f"F {first} {second}" for first, second in pairs[: MOST_FACTS - 2]], "Q"]),
    ):
        text = supposing(lines[: MOST_FACTS - (lines[MOST_FACTS - 1][0] == "B")])
        yield f"{MOST_FACTS} lines of suppositions: {name}", text, yes(512, 0)


def wrong_suppositions():
    """Suppositions that nothing ends, that begin in another one, or that never began, and a line too many."""
    first = MOST + 7  # the line of the first fact
    begins = [f"B {n} {n + 1}" for n in range(1, MOST)] * (MOST_FACTS // MOST + 1)
    load = "A 0 END 0 0 1 2"
    for name, lines, answer in (
        (f"{MOST_FACTS} lines B", begins[:MOST_FACTS], no(first + 1, 11)),
        (f"{MOST_FACTS} lines B and one", begins[: MOST_FACTS + 1], bad_line(first + MOST_FACTS)),
        (f"{MOST_FACTS} lines Q", ["Q"] * MOST_FACTS, no(first, 11)),
        ("one that nothing ends", ["B 1 2", *[load] * (MOST_FACTS - 1)], no(first, 11)),
        ("the last one that nothing ends", [*[load] * (MOST_FACTS - 1), "B 1 2"], no(first + MOST_FACTS - 1, 11)),
        ("an end too many", ["B 1 2", *[load] * (MOST_FACTS - 3), "Q", "Q"], no(first + MOST_FACTS - 1, 11)),
        ("an end after the last fact line", ["B 1 2", *[load] * (MOST_FACTS - 1), "Q"], bad_line(first + MOST_FACTS)),
    ):
        yield f"suppositions: {name}", supposing(lines), answer


def with_reasons(text):
    """A document of fact lines with a leaf that is said by them."""
    return altered(text, "\nP\nEND", "\nE 1\nEND")


def fronts():
    for length in range(1, len(MULTIPLIES)):
        yield f"a front of {length} bytes", MULTIPLIES[:length], TRUNCATED


def text_of(lines):
    return "".join(f"{line}\n" for line in lines).encode()


def hostile_decks():
    """Sources of as many lines as there may be, and the status and the lines of `lint`."""
    code = ["LAB  BX1 X2", "  BX3 X4"]
    most = (MOST_LINES - len(code)) // 3
    parameters = ",".join(a + b for a in "ABC" for b in "ABCDEFGHIJKLMNOPQRST")
    macros = [f"M{n} MACRO {parameters}" for n in range(most)] + ["  ENDM"] * most + [f"  M{n} LAB" for n in range(most)]
    found = [f"LINE {2 * most + 3 + n} PASSES CODE M{n} LAB" for n in range(most - 3)]
    yield f"{most} macros, each in the one before", code + macros, 8, found
    loads = [f"  SA1 L+{n}" for n in range(MOST_LINES // 2)]
    found = [f"LINE {MOST_LINES // 2 + 1 + n} {words} SA1 L+{n}" for n in range(len(loads))
             for words in ("LOADS CODE", "COUNTS WORDS")[: 2 if n else 1]]
    yield "a name at 5,000 places, and so many words from it", ["L  BX1 X2", "  BX2 X3"] * (MOST_LINES // 4) + loads, 8, found
    counts = itertools.count(1)
    sums = ["  CALLX " + ",".join(f"L+{next(counts)}" for _ in range(20)) for _ in range(MOST_LINES // 2)]
    yield "a name at 100 places, and 200,000 words from it", ["L  BX1 X2", " ZR X1,OUT"] * 100 + sums, 0, []
    terms = "+".join(["L"] * 90)
    found = [f"LINE {n} PAST COLUMN 72 SA1 {terms}" for n in range(1, MOST_LINES + 1)]
    yield "sums of 90 terms", [f"L SA1 {terms}"] * MOST_LINES, 8, found
    found = [f"LINE {n} BAD OPERAND MORE (CUT)" for n in range(2, MOST_LINES + 1)]
    yield "an instruction with 19,999 continuations", ["  BX1 X2"] + [",  MORE"] * (MOST_LINES - 1), 5, found
    half = MOST_LINES // 2
    found = [f"LINE {n} REDEFINED BX1 X2 (CUT)" for n in range(half + 1, MOST_LINES + 1)]
    yield "10,000 redefinitions", [f"BX{n % 8} OPSYN BX1" for n in range(half)] + ["  BX1 X2"] * half, 8, found
    yield "counts that all go on to the end", ["  DUP 2,19999"] * MOST_LINES, 0, []
    yield "names of names", [f"N{n} EQU N{n + 1}+1" for n in range(MOST_LINES)], 0, []
    yield "lines that are as long as they may be", ["X" * LONGEST] * MOST_LINES, 0, []


class Ends:
    """An answer of many lines, by its status, its first line and its last."""

    def __init__(self, status, first, last):
        self.parts = status, first, last

    def __eq__(self, seen):
        lines = seen[1].splitlines(keepends=True) or [b""]
        return (seen[0], lines[0], lines[-1]) == self.parts and seen[2] == b""

    def __repr__(self):
        return f"{self.parts}"


def run(command, feed, megabytes):
    """How a command ends at what is fed to it, in so much memory, and how many seconds of processor time it took."""

    def limit():
        resource.setrlimit(resource.RLIMIT_AS, (megabytes << 20, megabytes << 20))

    started = subprocess.Popen(command, stdin=subprocess.PIPE, stdout=subprocess.PIPE, stderr=subprocess.PIPE, preexec_fn=limit)

    def write():
        try:
            for chunk in feed:
                started.stdin.write(chunk)
            started.stdin.close()
        except BrokenPipeError:
            pass

    writer = threading.Thread(target=write)
    writer.start()
    output, told = started.stdout.read(), started.stderr.read()
    writer.join()
    _, status, used = os.wait4(started.pid, 0)
    started.returncode = os.waitstatus_to_exitcode(status)
    return (started.returncode, output, told), used.ru_utime + used.ru_stime


def repeated(line, size):
    chunk = line * (CHUNK // len(line))
    return itertools.repeat(chunk, size // len(chunk))


def long_sources():
    """Words, what is fed, its answer, and the most megabytes."""
    code = b"  BX1 X2*X3\n"
    # which reads all, since a line that it lists may be of any length
    yield ["lint"], "32 megabytes of newlines", repeated(b"\n", 32 * CHUNK), (5, b"TOO MANY LINES\n", b""), MEGABYTES
    for word in ("time", "deps", "chart", "why", "page", "json", "order", "prove", "sum", "guard"):
        yield [word], "a gigabyte of newlines", repeated(b"\n", GIGABYTE), (3, b"", b"TOO MANY LINES\n" + MANY), FRONT_MEGABYTES
    yield ["time"], "a gigabyte without a newline", repeated(b" ", GIGABYTE), (3, b"", b"LINE 1 TOO LONG\n" + LONG), FRONT_MEGABYTES
    yield ["time"], "a gigabyte of instructions", repeated(code, GIGABYTE), (3, b"", b"TOO MANY LINES\n" + MANY), FRONT_MEGABYTES
    last = itertools.chain([b" " * 199 + b"*\n"] * 20000, [b"  SA1 *\n"], repeated(b"x", GIGABYTE))
    yield ["time"], "the longest source, one line more, and a gigabyte", last, (3, b"", b"TOO MANY LINES\n" + MANY), FRONT_MEGABYTES
    last = itertools.chain([b"\n" * 19999, b"  SA1 *\n"], repeated(b"\n", GIGABYTE))
    yield ["time"], "a bad operand before what is too much", last, (3, b"", b"LINE 20000 BAD OPERAND\n" + LISTED), FRONT_MEGABYTES
    last = itertools.chain([b"\n" * 20000, b"y" * 200], repeated(b"z", 8 * CHUNK))
    yield ["time"], "a line past the limit that is too long", last, (3, b"", b"LINE 20001 TOO LONG\n" + LONG), FRONT_MEGABYTES


def in_sentences():
    """Documents for `check --text`: what is fed, the answer, and the most seconds."""
    text = wide_document(dict(wide_trees())["leaves P"])
    told = b"DOCUMENT 1 YES TIME 257 BOUND 0\nEvery order takes 0 or more, by 16385 splits.\nThe order found takes 257.\n"
    yield "a wide tree", text, (0, told, b""), SECONDS
    for name, text, (status, verdict, _) in itertools.chain(fact_lines(), suppositions()):
        text, time = with_reasons(text), verdict.split()[4]
        yield name, text, Ends(status, verdict, b"The order found takes %s.\n" % time), TEXT_MEGABYTE_SECONDS * len(text) / 1e6


def main(arguments):
    if len(arguments) != 1 or arguments[0].startswith("-"):
        print(__doc__.strip())
        return 2
    program, wrong, count, most = os.path.abspath(arguments[0]), 0, 0, (0, "")
    wide = ((f"a wide tree, {name}", wide_document(leaf_at), yes(257, 0)) for name, leaf_at in wide_trees())
    documents = itertools.chain(fronts(), long_numbers(), many_nodes(), deep_trees(), wide, wrong_names(), many_leaves(), wrong_suppositions())
    checks = ((["check"], name, [text.encode()], answer, MEGABYTES, SECONDS) for name, text, answer in documents)
    facts = ((["check"], name, [text.encode()], answer, MEGABYTES, MEGABYTE_SECONDS * len(text) / 1e6)
             for name, text, answer in itertools.chain(fact_lines(), suppositions()))
    texts = ((["check", "--text"], name, [text.encode()], answer, MEGABYTES, limit) for name, text, answer, limit in in_sentences())
    decks = ((["lint"], name, [text_of(lines)], (status, text_of(found), b""), MEGABYTES, SECONDS) for name, lines, status, found in hostile_decks())
    sources = ((*source, SECONDS) for source in long_sources())
    for words, name, feed, answer, megabytes, limit in itertools.chain(checks, facts, texts, decks, sources):
        seen, seconds = run([program, *words], feed, megabytes)
        count += 1
        label = f"{' '.join(words)}: {name}"
        most = max(most, (seconds, label))
        if answer != seen or seconds > limit:
            wrong += 1
            print(f"wrong: {label}: {seen[0], seen[1][:80], seen[2][:80]} after {seconds:.1f} seconds; wanted {answer}")
    print(f"{count - wrong} passed, {wrong} failed (inputs; the longest took {most[0]:.1f} seconds: {most[1]})")
    return 1 if wrong else 0


if __name__ == "__main__":
    sys.exit(main(sys.argv[1:]))
