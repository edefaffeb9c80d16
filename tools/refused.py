#!/usr/bin/env python3
"""Refuses a program what it asks of the C library, one request at a time, and checks its answers.

    tools/refused.py PROGRAM [TOOLS] [--quick]

PROGRAM is the built program, TOOLS that of s66_tools, which makes the calls of the libraries. A row is a call: a subcommand
on an input, or a call of TOOLS. It is run with ample memory first, and that has to give the row's status. Then it is run

- with only the Nth request for memory refused, and with all from the Nth on, for each N up to one that isn't reached: it ends
  as with ample memory, or with status 4, no output and OUT OF MEMORY, and nothing else;
- with each thread refused in turn, and with all: it ends as with ample memory;
- unless it is a call of TOOLS, with the Nth read failing, whole or after reads of one byte each: status 6, no output and READ
  FAILED; and with reads of one byte each: as with ample memory;
- with the Nth write failing, whole or after writes of one byte each, or taking nothing: status 6, a beginning of the output
  and WRITE FAILED; and with writes of one byte each: as with ample memory;
- with standard error failing: its status and its output.

--quick tries of many requests the first ones and then every tenth, but of the block MARKED each.

For each row it prints how many requests there are, and how often each answer came. The status is 1 if an answer is another.
tools/refused.c stands between the program and the C library; a C compiler has to be on the PATH.
"""
import collections
import concurrent.futures
import os
import shutil
import struct
import subprocess
import sys
import tempfile

ROOT = os.path.dirname(os.path.dirname(os.path.abspath(__file__)))
COMPILERS = ("cc", "gcc", "clang")
KINDS = ("memory", "thread", "read", "write", "tell")
REFUSED = (4, b"", b"OUT OF MEMORY\n")
UNREAD = (6, b"", b"READ FAILED\n")
EVER = 1 << 60
FIRST = 20  # of these requests --quick passes over none

MULTIPLIES = "  FX1 X2*X3\n  FX4 X5*X6\n  FX0 X7*X7\n"
FIVE = "".join(f"  FX{i} X7*X7\n" for i in range(5))  # 206 splits, all of which any search takes, and one best time
SEVEN = "".join(f"  FX{i} X7*X7\n" for i in range(7))  # 8,660 splits without dominance, of which the first 2,048 are no worker's
MARKED = "  FX0 X7*X7\n  LX1 1\n  FX2 X7*X7\n  FX3 X7*X7\n"  # 38 splits, and 39 if one of its marks is lost
SOURCE = f"* NOTE\nLOOP   SA1 A1+B1\n  BX6 X1\n  NO\n  VFD 60/0\n{FIVE}  ZR X1,LOOP\n{MULTIPLIES}"
REFUSED_SOURCE = SOURCE + ",MORE\n"
ALIKE = "  SB0 B1\n" * 5


def searches():
    """The rows of the subcommands that search."""
    for words in (["order", "--trace"], ["order", "--trace", "--dominate"], ["order", "--dominate-tree"], ["sum"], ["page"],
                  ["prove"], ["prove", "--dominate"], ["prove", "--dominate-tree"]):
        yield [*words, "--workers", "1"], SOURCE, {0}
        yield [*words, "--workers", "2"], FIVE, {0}
    yield ["order", "--workers", "2", "--nodes", "0"], FIVE, {7}
    yield ["order", "--deep", "--trace", "--workers", "1", "--nodes", "0"], FIVE, {0, 7}
    yield ["prove", "--deep", "--workers", "1", "--nodes", "20"], FIVE, {0, 7}
    yield ["order", "--deep", "--trace", "--workers", "1"], MARKED, {0}
    for words in (["order", "--trace", "--workers", "2"], ["order", "--workers", "4"], ["sum", "--workers", "16"]):
        yield [*words, "--nodes", "2100"], SEVEN, {7}
    # whole blocks by the workers
    for words in (["order", "--trace"], ["order", "--keep", "--columns"], ["sum", "--trace", "--words"], ["prove"], ["page"],
                  ["why", "--order"], ["json", "--order"]):
        yield [*words, "--deep", "--workers", "2"], SOURCE, {0}
    # blocks of which a search without facts leaves something to be found
    for words in (["order", "--trace"], ["prove"]):
        yield [*words, "--deep", "--workers", "2", "--nodes", "300"], SEVEN, {0, 7}


def rows():
    """Each row's words, its input, and its statuses with ample memory."""
    yield ["--help"], "", {0}
    yield ["order", "--help"], "", {0}
    yield ["--version"], "", {0}
    yield ["time", "more"], "", {2}
    yield ["order", "--workers", "17"], "", {2}
    yield ["order", "--dominate", "--dominate-tree"], "", {2}
    for words in (["time"], ["time", "--trace"], ["deps"], ["chart"], ["why"], ["why", "--text"], ["json"]):
        yield words, SOURCE, {0}
        yield words, REFUSED_SOURCE, {3}
    yield ["time", "--profile", '{"load":2,"units_multiply":3}'], SOURCE, {0}
    yield ["time", "--profile", '{"load":0}'], SOURCE, {3}
    yield ["lint"], SOURCE, {8}
    yield ["lint", "--cut"], SOURCE, {8}
    yield ["guard"], SOURCE, {0}
    yield ["guard"], REFUSED_SOURCE, {0}
    yield ["compare"], SOURCE + "*S66 NEW\n" + SOURCE, {0}
    yield ["compare"], SOURCE + "*S66 NEW\n" + REFUSED_SOURCE, {3}
    yield ["lint"], REFUSED_SOURCE, {5}
    yield from searches()


def documents_of(program):
    """What prove writes: documents of all versions."""
    for words in ([], ["--dominate"], ["--dominate-tree"]):
        done = subprocess.run([program, "prove", "--workers", "1", *words], input=(MULTIPLIES + "  PS\n" + ALIKE).encode(),
                              stdout=subprocess.PIPE, check=True)
        yield done.stdout.decode()


class Runner:
    """Runs a program with the library of tools/refused.c, and counts in a file."""

    def __init__(self, library, counts):
        self.library, self.counts = library, counts

    def run(self, command, given, *refused):
        """How it ends: its status, output and errors; and how many requests there were of each kind."""
        with open(self.counts, "wb") as file:
            file.write(bytes(8 * len(KINDS)))
        environment = {"LD_PRELOAD": self.library, "REFUSED_COUNTS": self.counts,
                       "REFUSED": " ".join(f"{kind}:{first}:{last}:{how}" for kind, first, last, how in refused)}
        done = subprocess.run(command, input=given, stdout=subprocess.PIPE, stderr=subprocess.PIPE, env=environment, timeout=60)
        with open(self.counts, "rb") as file:
            counts = dict(zip(KINDS, struct.unpack(f"={len(KINDS)}Q", file.read())))
        return (done.returncode, done.stdout, done.stderr), counts


class Row:
    """A call under refusals, and how often each answer came."""

    def __init__(self, runner, command, given, statuses, step):
        self.runner, self.command, self.given, self.step = runner, command, given, step
        self.answers, self.wrong = collections.Counter(), []
        seen, self.counts = runner.run(command, given)
        self.status, self.output, self.told = seen
        # a worker that ends early, or comes later than another, leaves other names for what is dominated; with --deep each block is
        # searched by one thread, and its answer is the same or none
        self.varies = command[1:2] == ["prove"] and any("dominate" in word for word in command)
        self.meant = self.meaning(seen)
        self.ample = {"ample": lambda seen: self.meaning(seen) == self.meant}
        if self.status not in statuses:
            self.wrong.append(f"with ample memory: {seen}")

    def meaning(self, seen):
        """An answer; or what `check` says of the certificates, if several are right."""
        if not self.varies or seen[0] != self.status:
            return seen
        checked = subprocess.run([self.command[0], "check"], input=seen[1], stdout=subprocess.PIPE)
        return seen[0], checked.returncode, checked.stdout, seen[2]

    def look(self, allowed, *refused):
        """One run: its answer is one of those allowed, each under its name. Answers the counts."""
        seen, counts = self.runner.run(self.command, self.given, *refused)
        for name, is_right in allowed.items():
            if is_right(seen):
                self.answers[name] += 1
                return counts
        self.wrong.append(f"{refused}: {seen}")
        return counts

    def refuse_memory(self):
        allowed = {**self.ample, "out of memory": lambda seen: seen == REFUSED}
        for is_lasting in (False, True):
            number = 1
            while self.look(allowed, ("memory", number, EVER if is_lasting else number, "fail"))["memory"] >= number:
                number += 1 if number < FIRST else self.step

    def refuse_threads(self):
        for number in range(1, self.counts["thread"] + 1):
            self.look(self.ample, ("thread", number, number, "fail"))
        if self.counts["thread"]:
            self.look(self.ample, ("thread", 1, EVER, "fail"))

    def fail_reads(self):
        unread = {"read failed": lambda seen: seen == UNREAD}
        for number in range(1, self.counts["read"] + 1):
            self.look(unread, ("read", number, number, "fail"))
        if self.counts["read"] and self.given:
            self.look(self.ample, ("read", 1, EVER, "one"))
            for number in (*range(1, FIRST), *range(FIRST, len(self.given) + 2, self.step)):
                self.look(unread, ("read", 1, EVER, "one"), ("read", number, number, "fail"))

    def fail_writes(self):
        def unwritten(taken):
            return {"write failed": lambda seen: seen == (6, self.output[:taken], b"WRITE FAILED\n")}

        length = len(self.output)
        if not length or self.varies and "2" in self.command:
            return
        self.look(self.ample, ("write", 1, EVER, "one"))
        for how in ("fail", "none"):
            self.look(unwritten(0), ("write", 1, 1, how))
            for number in {*range(1, min(length, 40)), length // 2 + 1, length}:
                self.look(unwritten(number - 1), ("write", 1, EVER, "one"), ("write", number, number, how))

    def fail_errors(self):
        for taken, how in ((0, "fail"), (0, "none"), (3, "fail")) if self.told else ():
            cut = self.status, self.output, self.told[:taken]
            self.look({"untold": lambda seen: seen == cut}, ("tell", 1, EVER, "one"), ("tell", taken + 1, EVER, how))

    def fail_devices(self):
        self.fail_reads()
        self.fail_writes()
        self.fail_errors()

    def lines(self):
        seen = ", ".join(f"{count} {name}" for name, count in self.answers.items())
        words = " ".join([os.path.basename(self.command[0]), *self.command[1:]])
        yield f"{words}: {self.counts['memory']} requests for memory, {self.counts['thread']} threads; {seen}"
        yield from (f"  wrong: {line}" for line in self.wrong)


def table_of(program, tools, runner):
    """The rows of the program, and those of TOOLS, which lists its calls when none is named."""
    yield from (([program, *words], given.encode(), statuses) for words, given, statuses in rows())
    documents = list(documents_of(program))
    for words in (["check"], ["check", "--text"]):
        yield from (([program, *words], text.encode(), {0}) for text in documents)
    yield [program, "check"], documents[0].replace("BOUND", "BOUND ").encode(), {3}
    for name in runner.run([tools, "call"], b"")[0][1].decode().split() if tools else ():
        yield [tools, "call", name], b"", {0}


def library_in(folder):
    """Compiles tools/refused.c to a library in a folder."""
    compiler = next(filter(shutil.which, COMPILERS), None)
    if compiler is None:
        sys.exit(f"no C compiler: one of {', '.join(COMPILERS)} has to be on the PATH")
    library = os.path.join(folder, "refused.so")
    subprocess.run([compiler, "-O1", "-shared", "-fPIC", "-o", library, os.path.join(ROOT, "tools/refused.c"), "-ldl"], check=True)
    return library


def main(arguments):
    names = [word for word in arguments if word != "--quick"]
    if not 1 <= len(names) <= 2 or names[0].startswith("-"):
        print(__doc__.strip())
        return 2
    program, tools = [os.path.abspath(name) for name in names] + [None] * (2 - len(names))
    step = 10 if len(names) < len(arguments) else 1
    with tempfile.TemporaryDirectory() as folder:
        library = library_in(folder)

        def check(place, command, given, statuses):
            each = 1 if given == MARKED.encode() else step
            row = Row(Runner(library, os.path.join(folder, f"counts{place}")), command, given, statuses, each)
            row.refuse_memory()
            row.refuse_threads()
            if command[0] == program:
                row.fail_devices()
            print("\n".join(row.lines()), flush=True)
            return sum(row.answers.values()), len(row.wrong)

        with concurrent.futures.ThreadPoolExecutor(os.cpu_count()) as pool:
            table = table_of(program, tools, Runner(library, os.path.join(folder, "counts")))
            checks = [pool.submit(check, place, *row) for place, row in enumerate(table)]
            right, wrong = map(sum, zip(*[it.result() for it in checks]))
    print(f"{right} passed, {wrong} failed (runs of {len(checks)} calls)")
    return 1 if wrong else 0


if __name__ == "__main__":
    sys.exit(main(sys.argv[1:]))
