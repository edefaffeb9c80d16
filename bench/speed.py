#!/usr/bin/env python3
"""Measures s66 over sources of 20,000 lines.

    bench/speed.py [PROGRAM]                   time, lines and megabytes written a second, and peak memory
    bench/speed.py --instructions [PROGRAM]    instructions a line, steady enough to show a regression of 1 in 100

PROGRAM is the built program; without it, the one that `./s66` leaves when it has built it. Of the times, the best of
ten runs counts. Instructions are those of valgrind's callgrind less those of a run on an empty source. The sources are
the same each time: a fixed seed makes them.
"""
import argparse
import fcntl
import os
import random
import re
import subprocess
import tempfile
import time

LINES = 20_000
RUNS = 10
ENDED = (0, 7, 8)  # statuses of a program that did its work: done; some block is only bounded; there is advice
# the C library's fills and copies by one instruction, of which callgrind counts each byte, are switched off
COUNTED = {**os.environ, "GLIBC_TUNABLES": "glibc.cpu.hwcaps=-ERMS"}
TOP = os.path.dirname(os.path.dirname(os.path.abspath(__file__)))
PROGRAM = os.path.join(TOP, "built/s66_main")

ALL = [
    "BX{i}    X{j}*X{k}", "BX{i}    -X{k}", "LX{i}    {k}", "AX{i}    B{j},X{k}", "NX{i}    B{j},X{k}",
    "UX{i}    B{j},X{k}", "FX{i}    X{j}+X{k}", "DX{i}    X{j}-X{k}", "IX{i}    X{j}+X{k}", "FX{i}    X{j}*X{k}",
    "RX{i}    X{j}/X{k}", "CX{i}    X{k}", "MX{i}    {k}", "SA{i}    A{j}+B{k}", "SA{i}    TABLE+{k}",
    "SB{i}    B{j}-B{k}", "SX{i}    X{j}+1", "SA{i}    B{j}+N",
]
DIVIDES = ["FX{i}    X{j}/X{k}"]


def source(spellings, least, most, width=0):
    """Blocks of `least` to `most` instructions, with labels, remarks and comments; remarks fill lines to the width."""
    rng = random.Random(6600)
    lines = []
    while len(lines) < LINES:
        for place in range(rng.randint(least, most)):
            label = "L%d" % rng.randrange(1000) if place == 0 and rng.random() < 0.3 else ""
            remark = "   LOAD THE NEXT WORD" if rng.random() < 0.3 else ""
            digits = {name: rng.randrange(8) for name in "ijk"}
            line = "%-10s%s%s" % (label, rng.choice(spellings).format(**digits), remark)
            lines.append((line + "  ").ljust(width, ".") if width else line)
            if rng.random() < 0.05:
                lines.append("* A NOTE BETWEEN TWO INSTRUCTIONS")
        lines.append("          EQ     B1,B2,LOOP")
    return ("\n".join(lines[:LINES]) + "\n").encode()


BLOCKS = {
    "short blocks": source(ALL, 4, 16),
    "mixed blocks": source(ALL, 4, 64),
    "long blocks": source(ALL, 64, 64),
}
EXTREMES = {
    "divides": source(DIVIDES, 64, 64),
    "long lines": source(ALL, 4, 64, width=200),
}


def measured_time(words, text):
    """The seconds of the best run, and the bytes that it writes."""
    best = float("inf")
    for _ in range(RUNS):
        text.seek(0)
        with tempfile.TemporaryFile() as out:
            begin = time.perf_counter()
            subprocess.run(words, stdin=text, stdout=out, check=True)
            best = min(best, time.perf_counter() - begin)
            size = os.fstat(out.fileno()).st_size
    return best, size


def peak_memory(words, text):
    """The most bytes that the program itself held.

    It has built all its text when it first writes: there a full pipe stops it, so that the kernel can be asked. (What a
    parent is told of a child that has ended counts the parent's own memory too.)
    """
    text.seek(0)
    outlet, inlet = os.pipe()
    os.write(inlet, bytes(fcntl.fcntl(inlet, fcntl.F_GETPIPE_SZ)))
    with subprocess.Popen(words, stdin=text, stdout=inlet) as child, open(outlet, "rb") as out:
        os.close(inlet)
        status = ""
        while "State:\tS" not in status:
            if child.poll() is not None:
                raise RuntimeError("the program wrote nothing")
            with open("/proc/%d/status" % child.pid) as file:
                status = file.read()
        out.read()
    return int(re.search(r"VmHWM:\s*(\d+) kB", status)[1]) * 1024


def tell_speed(program):
    for name, text in (BLOCKS | EXTREMES).items():
        with tempfile.TemporaryFile() as file:
            file.write(text)
            for subcommand in ("time", "time --trace", "deps", "chart", "why", "json", "page --workers 1 --nodes 0"):
                words = [program] + subcommand.split()
                best, size = measured_time(words, file)
                peak = peak_memory(words, file)
                print(
                    "%-13s %-13s %6.1f ms  %5.2f million lines/s  %6.1f MB/s written  %5.1f MB peak memory"
                    % (name, subcommand, best * 1e3, LINES / best / 1e6, size / best / 1e6, peak / 1e6)
                )


def instructions(words, text):
    """How many instructions the program runs on a text."""
    valgrind = ["valgrind", "--tool=callgrind", "--callgrind-out-file=/dev/null"]
    run = subprocess.run(valgrind + words, input=text, capture_output=True, env=COUNTED)
    if run.returncode not in ENDED:
        raise SystemExit(run.stderr.decode())
    return int(re.search(rb"Collected : (\d+)", run.stderr)[1])


def tell_instructions(program):
    for subcommand in ("time", "time --cut", "deps", "chart", "why", "lint", "guard"):
        words = [program] + subcommand.split()
        start = instructions(words, b"")
        for name, text in BLOCKS.items():
            a_line = (instructions(words, text) - start) / LINES
            print("%-13s %-13s %6.0f instructions a line" % (name, subcommand, a_line))


def main():
    parser = argparse.ArgumentParser(description="Measures s66 over sources of 20,000 lines.")
    parser.add_argument("--instructions", action="store_true", help="counts instructions, under valgrind")
    parser.add_argument("program", nargs="?", default=PROGRAM)
    asked = parser.parse_args()
    (tell_instructions if asked.instructions else tell_speed)(asked.program)


if __name__ == "__main__":
    main()
