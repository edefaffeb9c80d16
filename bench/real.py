#!/usr/bin/env python3
"""Measures how many blocks of real programs are proved best: code of Debian packages, translated for the 6600.

    bench/real.py FOLDER [--packages NAMES] [--files N | --again] [--every N] [--modes NAMES] [--nodes N] [--short N]
                  [--beginnings N] [--certified N] [--jobs N] [-- PROGRAM]

It needs Debian 12 with what `apt-get install clang dpkg-dev gcc make tcl` installs, the network, and half a GB in FOLDER. There it
fetches by apt-get, with lists of its own, the sources of zlib, bzip2, Lua, MINPACK, libjpeg-turbo, XFOIL, LAPACK with BLAS, SQLite, GSL,
FFTW, libgcrypt and the chess program Phalanx, and f2c for what is in Fortran. Nothing is installed by it, the machine's own lists need
no deb-src line, and nobody has to be root. What is there already isn't fetched again.

clang compiles each file to its text form, without vectors, and bench/real/ translates that block by block in two manners, as compilers
of the time might have: one with a careful allocation of registers, one with a naive one. A block ends at a branch or a call, or behind
128 instructions. Blocks that differ in constants alone are one block. The decks are left in FOLDER/decks.

Each deck is put in order by one worker, with --deep, with --dominate-tree and without an option, by 100,000 splits a block unless N
are given. A scoreboard of its own in bench/real/ checks that each printed order is legal and takes its time, makes two list schedules
of each block, and tries all orders of blocks of at most 10 instructions, or as many as --short says, unless these have more than 2,000
beginnings. One block in 50, or in as many as --certified says, also gets a certificate, which tools/certificate.py checks.

`--packages zlib,bzip2 --files 5` takes five files of each of these two, spread evenly; this is done in minutes. `--again` measures the
blocks of the last run, which are kept in FOLDER/blocks.json; `--every 10` measures one block in ten, for a slow program; `--modes
deep,none` leaves --dominate-tree out. The table at the end is Markdown. The status is 1 if a printed order, bound or certificate is
wrong, or if no block was made, and 2 if something is missing.
"""
import argparse
import concurrent.futures
import dataclasses
import datetime
import json
import os
import pathlib
import subprocess
import sys

from real import ir, measure, packages, translate

BENCH = pathlib.Path(__file__).resolve().parent


def say(text):
    print(text, file=sys.stderr, flush=True)


@dataclasses.dataclass
class Made:
    """What the blocks come from: sources with their versions, and how many files and functions."""

    sources: list = dataclasses.field(default_factory=list)
    files: int = 0
    not_compiled: int = 0
    functions: int = 0
    not_translated: int = 0

    def add(self, other):
        self.sources += other.sources
        self.files += other.files
        self.not_compiled += other.not_compiled
        self.functions += other.functions
        self.not_translated += other.not_translated

    def told(self):
        return (
            f"{', '.join(dict.fromkeys(self.sources))}: {self.files:,} files, {self.not_compiled:,} of them not compiled; "
            f"{self.functions:,} functions in two manners, without {self.not_translated:,} translations that aren't made."
        )


def blocks_of_file(archive, package, file):
    """The blocks of a file in both manners, and what they come from."""
    text = archive.compiled(package, file)
    functions, left_out = ir.functions(text)
    made = Made(files=1, not_compiled=int(not text), functions=len(functions) + left_out, not_translated=2 * left_out)
    blocks = []
    for is_careful in (True, False):
        more, left_out = translate.translated(functions, is_careful)
        blocks += more
        made.not_translated += left_out
    return blocks, made


def made_blocks(archive, names, count, pool):
    """The blocks of so many files of each package, and what they come from."""
    samples, made = {}, Made()
    archive.tools()
    for name in names:
        package = packages.PACKAGES[name]
        try:
            place = archive.source(package)
        except packages.Missing as missing:
            say(f"{name}: left out: {missing}")
            continue
        made.sources.append(place.name)
        files = packages.spread(place.glob(package.files), count)
        for blocks, of_file in pool.map(blocks_of_file, [archive] * len(files), [package] * len(files), files):
            measure.add_blocks(samples, blocks)
            made.add(of_file)
        say(f"{name}: {len(samples)} blocks up to here")
    return list(samples.values()), made


def keep(place, samples, made):
    blocks = [[sample.texts, sample.branch, sample.count] for sample in samples]
    place.write_text(json.dumps({"made": dataclasses.asdict(made), "blocks": blocks}))


def kept(place):
    if not place.exists():
        raise packages.Missing(f"{place} isn't there: a run without --again makes it")
    known = json.loads(place.read_text())
    return [measure.Sample(*block) for block in known["blocks"]], Made(**known["made"])


def measure_all(plan, samples, folder, pool):
    """Measures the blocks, and leaves their decks in a folder: gives the blocks with what is known of them now, and the measurement."""
    folder.mkdir(exist_ok=True)
    decks = list(measure.decks(samples))
    for n, held in enumerate(decks):
        (folder / f"{n:03}.compass").write_text(measure.deck_of(held))
    done, whole = [], measure.Measurement(plan)
    for n, (held, measurement) in enumerate(pool.map(measure.measured, [plan] * len(decks), decks)):
        done += held
        whole.add(measurement)
        say(f"deck {n + 1} of {len(decks)}: {len(held)} blocks")
    return done, whole


def described(program):
    """The program's words and version, and whether it says that it isn't proved. It is built first if that is needed."""
    try:
        answer = subprocess.run([*program, "order"], input="  BX1 X2\n", capture_output=True, text=True)
        version = subprocess.run([*program, "--version"], capture_output=True, text=True).stdout.strip()
    except OSError as error:
        raise packages.Missing(f"the program can't be run: {error}") from None
    if "BEST" not in answer.stdout:
        raise packages.Missing(f"{' '.join(program)} prints no order: {(answer.stderr.strip() or 'it says nothing').splitlines()[-1]}")
    return f"{' '.join(program)}, {version}" + (" without proofs" if "isn't proved" in answer.stderr else "")


def some_of(known):
    """The type of an option that is names of these, with commas between."""

    def names(text):
        unknown = [name for name in text.split(",") if name not in known]
        if unknown:
            raise argparse.ArgumentTypeError(f"not one of {', '.join(known)}: {', '.join(unknown)}")
        return text.split(",")

    return names


def positive(text):
    if int(text) < 1:
        raise argparse.ArgumentTypeError(f"below 1: {text}")
    return int(text)


def options():
    """What the words of the command ask for."""
    parser = argparse.ArgumentParser(description=__doc__, formatter_class=argparse.RawDescriptionHelpFormatter)
    for name, known in ("packages", packages.PACKAGES), ("modes", measure.MODES):
        all_names = ",".join(known)
        parser.add_argument(f"--{name}", type=some_of(known), default=all_names, metavar="NAMES", help=f"some of {all_names}; all unless given")
    parser.add_argument("folder", type=pathlib.Path, help="where packages and decks are put")
    parser.add_argument("--files", type=positive, metavar="N", help="N files of each package; all unless given")
    parser.add_argument("--again", action="store_true", help="measure the blocks of the last run")
    parser.add_argument("--every", type=positive, default=1, metavar="N", help="measure one block in N; all unless given")
    parser.add_argument("--nodes", type=int, default=100_000, metavar="N", help="the splits of a block, 100,000 unless given")
    parser.add_argument("--short", type=int, default=10, metavar="N", help="of how long blocks all orders are tried, 10 unless given")
    parser.add_argument("--beginnings", type=int, default=2_000, metavar="N", help="how many beginnings of orders are tried of a block, 2,000 unless given")
    parser.add_argument("--certified", type=int, default=50, metavar="N", help="one block in N gets a certificate that is checked, 50 unless given; 0 is none")
    parser.add_argument("--jobs", type=positive, default=1, metavar="N", help="how many files or decks at a time, 1 unless given")
    cut = sys.argv.index("--") if "--" in sys.argv else len(sys.argv)
    asked = parser.parse_args(sys.argv[1:cut])
    asked.program = sys.argv[cut + 1 :] or [str(BENCH.parent / "s66")]
    return asked


def main():
    asked = options()
    if not asked.again:
        packages.look_about(asked.packages)
    program = described(asked.program)
    plan = measure.Plan(asked.program, asked.nodes, asked.modes, asked.short, asked.beginnings, asked.certified)
    archive = packages.Archive(asked.folder)
    place = archive.folder / "blocks.json"
    with concurrent.futures.ProcessPoolExecutor(asked.jobs) as pool:
        if asked.again:
            samples, made = kept(place)
        else:
            samples, made = made_blocks(archive, asked.packages, asked.files, pool)
            keep(place, samples, made)
        samples, whole = measure_all(plan, samples[:: asked.every], archive.folder / "decks", pool)
    for fault in whole.wrong:
        print(f"wrong: {fault}")
    share = f"one block in {asked.every}" if asked.every > 1 else "all blocks"
    print(f"{datetime.date.today()}, {share}, {asked.nodes:,} splits, one worker, --jobs {asked.jobs} on {os.cpu_count()} processors, by {program}.")
    print(made.told() + "\n")
    if samples:
        print(measure.table(samples, whole))
    return 1 if whole.wrong or not samples else 0


if __name__ == "__main__":
    try:
        sys.exit(main())
    except packages.Missing as missing:
        say(f"real.py: {missing}")
        sys.exit(2)
