#!/usr/bin/env python3
"""Runs the program under limits of its process, and checks that it ends as the manual says.

    tools/limits.py PROGRAM [--quick]

- Address space (`ulimit -v`), from 4,000 to 60,000 KB in steps of 200: each subcommand, those that search by 1, 4 and 16 workers.
  It ends as with ample memory, or with status 4, no output and OUT OF MEMORY; never by a signal. --quick takes every tenth step,
  and sizes at which a worker's stack just fits; for 16 workers, which are slow on few processors, every eighth of these.
- Threads (`ulimit -u`), where this runs as root, as a user who has no other processes: it ends as with any number.
- Stacks of threads as small as the C library makes them (2 MB, with `ulimit -s unlimited`, where that may be set): it ends as with
  larger ones.
- Standard input, output and error that are closed, a device that is full, a folder: status 6 and READ FAILED or WRITE FAILED; without
  standard error the status stays. A pipe whose reader has gone: status 6, and no line.

It prints how often each status came in each row. The status is 1 if an answer is another.
"""
import collections
import concurrent.futures
import os
import resource
import shutil
import subprocess
import sys
import tempfile

sys.path.append(os.path.join(os.path.dirname(os.path.dirname(os.path.abspath(__file__))), "docs"))
import manual

SEVEN = "".join(f"  FX{i} X7*X7\n" for i in range(7))  # 8,660 splits, all of which any search takes, and one best time: workers start
SOURCE = f"LOOP   SA1 A1+B1\n  BX6 X1\n  ZR X1,LOOP\n{SEVEN}".encode()
LONG = b"  SA1 A1+B1\n" * 20000
LANES = "".join(f"  SX{i % 6} X{i % 6}+B1\n  SX{i % 6} X{i % 6}+B2\n  LX{i % 6} 7\n  FX{(i + 3) % 6} X{i % 6}*X{i % 6}\n" for i in range(32))
BLOCKS = (f"{LANES}  PS\n" * 4).encode()  # of 128 instructions each
SEARCHES = [["order", "--trace"], ["order", "--deep"], ["order", "--dominate-tree"], ["prove"], ["sum"], ["page"], ["json", "--order"]]
USER = 65_520 + os.getpid() % 14  # one of the numbers that systems leave unused
UNREAD = (6, b"", b"READ FAILED\n")
UNWRITTEN = (6, b"", b"WRITE FAILED\n")
GONE = (6, b"", b"")
REFUSED = (4, b"", b"OUT OF MEMORY\n")
STEP = 200
FIRST, LAST = 4_000, 60_000
STACK = 8_200  # of a thread, in KB, with the page that guards it


def run(command, given, **options):
    done = subprocess.run(command, input=given, stdout=subprocess.PIPE, stderr=subprocess.PIPE, timeout=120, **options)
    return done.returncode, done.stdout, done.stderr


def limited(limit, number, user=None):
    """What the process does before it becomes the program."""

    def limit_process():
        resource.setrlimit(resource.RLIMIT_CORE, (0, 0))
        resource.setrlimit(limit, (number, number))
        if user is not None:
            os.setuid(user)

    return limit_process


class Checks:
    """How often each status came in each row, and what is wrong."""

    def __init__(self):
        self.statuses, self.wrong = collections.defaultdict(collections.Counter), []

    def look(self, row, place, seen, *right):
        self.statuses[row][seen[0]] += 1
        if seen not in right:
            self.wrong.append(f"{row} {place}: {seen[0], seen[1][:80], seen[2][:80]}")


def spaces(is_quick):
    """The sizes of an address space in KB."""
    if not is_quick:
        return list(range(FIRST, LAST + 1, STEP))
    near = (space for stack in range(FIRST, LAST, STACK) for space in range(stack - 400, stack + 800, 40) if space >= FIRST)
    return sorted({*range(FIRST, LAST + 1, 10 * STEP), *near})


def check_memory(checks, program, pool, is_quick):
    rows = [([word], SOURCE) for word in ("time", "deps", "chart", "lint", "guard")]
    rows += [(["check"], run([program, "prove", "--workers", "1"], SOURCE)[1])]
    rows += [([*words, "--workers", workers], SOURCE) for words in SEARCHES for workers in ("1", "4", "16")]
    for words, given in rows:
        ample = run([program, *words], given)

        def at(space):
            return run([program, *words], given, preexec_fn=limited(resource.RLIMIT_AS, space * 1024))

        sizes = spaces(is_quick)[:: 8 if is_quick and words[-1] == "16" else 1]
        for space, seen in zip(sizes, pool.map(at, sizes)):
            checks.look(f"-v: {' '.join(words)}", space, seen, ample, REFUSED)


def check_threads(checks, program):
    if os.geteuid() != 0:
        return
    with tempfile.TemporaryDirectory() as folder:
        os.chmod(folder, 0o755)
        copy = shutil.copy(program, os.path.join(folder, "s66"))
        for words in SEARCHES:
            words = [*words, "--workers", "16"]
            ample = run([program, *words], SOURCE)
            for threads in range(1, 20):
                seen = run([copy, *words], SOURCE, preexec_fn=limited(resource.RLIMIT_NPROC, threads, USER))
                checks.look(f"-u: {' '.join(words)}", threads, seen, ample)


def check_stacks(checks, program):
    if resource.getrlimit(resource.RLIMIT_STACK)[1] != resource.RLIM_INFINITY:
        return
    words = ["order", "--deep", "--nodes", "100", "--workers"]
    ample = run([program, *words, "1"], BLOCKS)
    for workers in ("1", "4"):
        seen = run([program, *words, workers], BLOCKS, preexec_fn=limited(resource.RLIMIT_STACK, resource.RLIM_INFINITY))
        checks.look("-s unlimited: " + " ".join(words), workers, seen, ample)


def with_files(program, words, given, files):
    """How the program ends with its input and with these files, by their numbers, in place of what it has; None is closed."""

    def replace():
        for number, file in files.items():
            if file is None:
                os.close(number)
            else:
                os.dup2(file, number)

    return run([program, *words], given, preexec_fn=replace)


def check_devices(checks, program):
    full, folder = os.open("/dev/full", os.O_WRONLY), os.open("/", os.O_RDONLY)
    behind, before = os.pipe()
    os.close(behind)
    silent, speaker = os.pipe()
    os.set_blocking(silent, False)
    bad = b"  SA1 *\n"
    for word in manual.commands_in(manual.kept()):
        for name, file in (("closed", None), ("a folder", folder), ("a pipe that says nothing yet", silent)):
            checks.look(f"{word}: input is {name}", "", with_files(program, [word], b"", {0: file}), UNREAD)
    for word in ("time", "deps", "chart", "page", "json", "order", "prove", "sum", "guard", "--help"):
        for name, file in (("closed", None), ("full", full), ("a pipe without a reader", before)):
            for given in (SOURCE, LONG) if word == "chart" else (SOURCE,):
                checks.look(f"{word}: output is {name}", "", with_files(program, [word], given, {1: file}), GONE if file == before else UNWRITTEN)
    for name, file in (("closed", None), ("full", full), ("a pipe without a reader", before)):
        checks.look(f"errors are {name}", "bad operand", with_files(program, ["time"], bad, {2: file}), (3, b"", b""))
        checks.look(f"errors are {name}", "bad words", with_files(program, ["time", "more"], bad, {2: file}), (2, b"", b""))
        checks.look(f"errors are {name}", "output too", with_files(program, ["time"], SOURCE, {1: file, 2: file}), (6, b"", b""))
        checks.look(f"errors are {name}", "done", with_files(program, ["time"], SOURCE, {2: file}), run([program, "time"], SOURCE))
    checks.look("all are closed", "", with_files(program, ["order"], b"", {0: None, 1: None, 2: None}), (6, b"", b""))
    for file in (full, folder, before, silent, speaker):
        os.close(file)


def check_gone_reader(checks, program):
    """A reader that takes a line and goes, as `head -n 1` does."""
    started = subprocess.Popen([program, "chart"], stdin=subprocess.PIPE, stdout=subprocess.PIPE, stderr=subprocess.PIPE)
    started.stdin.write(LONG)
    started.stdin.close()
    line = started.stdout.readline()
    started.stdout.close()
    told = started.stderr.read()
    checks.look("chart: a reader takes a line", "", (started.wait(), line, told), (6, b"BLOCK 1 LINE 1 TIME 1024\n", b""))
    started.stderr.close()


def main(arguments):
    is_quick = "--quick" in arguments
    names = [word for word in arguments if word != "--quick"]
    if len(names) != 1 or names[0].startswith("-"):
        print(__doc__.strip())
        return 2
    program, checks = os.path.abspath(names[0]), Checks()
    with concurrent.futures.ThreadPoolExecutor(os.cpu_count()) as pool:
        check_memory(checks, program, pool, is_quick)
    check_threads(checks, program)
    check_stacks(checks, program)
    check_devices(checks, program)
    check_gone_reader(checks, program)
    for row, statuses in checks.statuses.items():
        print(f"{row}: " + ", ".join(f"status {status} {count} times" for status, count in sorted(statuses.items())))
    for line in checks.wrong:
        print(f"wrong: {line}")
    runs = sum(sum(statuses.values()) for statuses in checks.statuses.values())
    print(f"{runs - len(checks.wrong)} passed, {len(checks.wrong)} failed")
    return 1 if checks.wrong else 0


if __name__ == "__main__":
    sys.exit(main(sys.argv[1:]))
