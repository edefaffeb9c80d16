#!/usr/bin/env python3
"""Runs the built program on the rows of its tests, in a few seconds and without a proof.

    tools/test_rows.py PROGRAM

The rows are the tables of s66_test_program: those of each file of rows/ whose names end in ROWS, BAD of rows/profile.rt, those of
rows/page.rt whose names end in ENDS, REPEATED and ORDERED of rows.rt. TOLD of rows/remarks.rt is what standard error gets of some of
them after a success. Blocks that other tests have too are in s66_test_search/src/blocks.rt. Each row that ends otherwise than it says
is printed. The status is 1 if there is one.
"""
import glob
import os
import re
import subprocess
import sys

CRATES = os.path.join(os.path.dirname(os.path.dirname(os.path.abspath(__file__))), "crates")
SOURCES = os.path.join(CRATES, "s66_test_program/src")
TOKEN = re.compile(r'//[^\n]*|"(?:[^"\\]|\\.)*"|&\[|[^/"&]+|.', re.DOTALL)
CONSTANT = re.compile(r"\bconst (\w+):[^=]*=([^;]*);")
PLACE = re.compile(r"'(\d+)'")
WRITTEN = 0, 5, 7, 8  # the statuses after which the text of a row is in its output, and else in what is told of errors


def constants_of(path, known):
    """The constants of a file by their names. The tables are those of Python too, but for comments and for & before a list."""
    strings = []

    def put(token):
        """What stands for a token: a string is put by, since it may have any letters, and its place stands for it."""
        if token.startswith('"'):
            strings.append(token.replace("\n", "\\n"))  # a string of several lines
            return f"'{len(strings) - 1}'"
        return "" if token.startswith("//") else "[" if token == "&[" else token

    with open(path, encoding="utf-8") as file:
        text = "".join(map(put, TOKEN.findall(file.read())))
    found = {}
    for name, value in CONSTANT.findall(text):
        value = PLACE.sub(lambda place: strings[int(place[1])], value)
        found[name] = eval(value.strip(), {**known, **found})
    return found


def bad_profiles(table, shared):
    """The rows of a table BAD: what is refused by each subcommand, whatever the source is."""
    for text, told in table:
        for word in "time", "chart", "why", "page", "order", "prove", "sum", "json":
            for given in shared["ONE_LOAD"], "  SA1 *+2\n":
                yield text, ["s66", word, "--profile", text], given, 3, told


def joined(tables, ending):
    """The rows of all tables of a file whose names have this ending."""
    return [row for name, table in tables.items() if name.endswith(ending) for row in table]


def rows_of(shared):
    """All rows: name, words, input, status and text."""
    for path in sorted(glob.glob(os.path.join(SOURCES, "rows/*.rt"))):
        tables = constants_of(path, shared)
        yield from joined(tables, "ROWS")
        yield from bad_profiles(tables.get("BAD", []), shared)
    for name, words, piece, times, status, text in shared["REPEATED"]:
        yield name, words, piece * times, status, text


def run(program, words, given):
    """The status, the output and what is told of errors. The first word is the name that the program is called by."""
    done = subprocess.run(words, executable=program, input=given, stdout=subprocess.PIPE, stderr=subprocess.PIPE)
    return done.returncode, done.stdout, done.stderr


def told_of(table, name, words):
    """What is told after a success of the row of this name, by the table TOLD."""
    return next((told for row, subcommand, told in table if row == name and subcommand in words), "").encode()


def row_fault(program, table, name, words, given, status, text):
    """What a row prints otherwise than it says, or nothing."""
    right = (status, text.encode(), told_of(table, name, words)) if status in WRITTEN else (status, b"", text.encode())
    seen = run(program, words, given.encode())
    return "" if seen == right else f"{name}: {' '.join(words)}: {seen}, and not {right}"


def order_fault(program, table, shared, name, given, begin, end, timed):
    """What `order` prints of a block with several best orders otherwise than its row says, or what `time` then prints of that."""
    status, output, told = run(program, shared["ORDER"], given.encode())
    if (status, told) != (0, told_of(table, name, shared["ORDER"])) or not (output.startswith(begin.encode()) and output.endswith(end.encode())):
        return f"{name}: order: {status, output, told}"
    return row_fault(program, [], name, shared["TIME"], output.decode(), 0, timed)


def page_fault(program, table, name, words, given, status, ends):
    """What a page ends in otherwise than its row says, or nothing."""
    seen = run(program, words, given.encode())
    is_right = (seen[0], seen[2]) == (status, told_of(table, name, words)) and seen[1].startswith(b"<!DOCTYPE html>\n") and seen[1].endswith(ends.encode())
    return "" if is_right else f"{name}: {' '.join(words)}: {seen}, and not {(status, ends)}"


def main(arguments):
    if len(arguments) != 1 or arguments[0].startswith("-"):
        print(__doc__.strip())
        return 2
    program = os.path.abspath(arguments[0])
    shared = constants_of(os.path.join(CRATES, "s66_test_search/src/blocks.rt"), {})
    for name in "running.rt", "rows.rt":
        shared.update(constants_of(os.path.join(SOURCES, name), shared))
    told = constants_of(os.path.join(SOURCES, "rows/remarks.rt"), shared)["TOLD"]
    faults = [row_fault(program, told, *row) for row in rows_of(shared)]
    pages = constants_of(os.path.join(SOURCES, "rows/page.rt"), shared)
    faults += [page_fault(program, told, *row) for row in joined(pages, "ENDS")]
    faults += [order_fault(program, told, shared, *row) for row in shared["ORDERED"]]
    wrong = list(filter(None, faults))
    print("".join(f"wrong: {fault}\n" for fault in wrong), end="")
    print(f"{len(faults) - len(wrong)} passed, {len(wrong)} failed")
    return 1 if wrong else 0


if __name__ == "__main__":
    sys.exit(main(sys.argv[1:]))
