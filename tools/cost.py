#!/usr/bin/env python3
"""What a check of a crate costs, in processor seconds: each function, and each kind of module that the check makes of it.

In a crate's folder:

    ../../tools/cost.py [--anew] [--top N] [--find WORD] [-- COMMAND..]

runs `rt check --jobs 1`, or COMMAND, and notes the processor time that it has used whenever it keeps a module in
out/incremental: the difference to the module before is what this module cost. What stands before the first one, "the start",
reads the crates below, and builds those that have changed. A module that an earlier check kept is not made again and costs
nothing, so after an edit the list has what the edit touched.

`--anew` removes what is kept first, and lists the whole crate. Where another checkout on this machine has proved the very same
files, `rt` says that it begins with what that one kept: change a comment before. An interrupt, or SIGTERM, ends the command
and lists what it made.

Processor seconds hardly depend on what else runs, the time by the clock does. Several jobs run side by side, and a module
would pay for those of the others: let it be one.

The kinds that count most:
    Lts       the borrow checker's part: it grows with the size of the body, and with each way out on which a value is dropped
    Proof     the tactics' search, and the terms that they found
    Answers   the terms that are written in proofs/
    Tie       the parts of a function put together; the first one that uses a lower crate also loads it
"""
import argparse
import collections
import ctypes
import os
import re
import select
import shutil
import signal
import struct
import subprocess
import sys

FOLDER = "out/incremental"
TICK = os.sysconf("SC_CLK_TCK")
CLOSED, MOVED_HERE, MADE, IS_FOLDER = 0x8, 0x80, 0x100, 0x40000000
KINDS = "Lts|Goals|Answers|Proof|Tie|Invariants|Given|Reads|Statement|Met|Named|Kinds|Carried|Layout|Symbol|TheLink|Code|Key"
MODULE = re.compile(rf"Rattle-\w+-(?:proofs|specs\.contracts)\.(.*?)(?:\.({KINDS})\b.*)?$")


def processor_seconds(process):
    """Those of a process and of all that it started."""
    try:
        with open(f"/proc/{process}/stat", "rb") as file:
            fields = file.read().rpartition(b")")[2].split()
        seconds = sum(int(ticks) for ticks in fields[11:15]) / TICK
        for thread in os.listdir(f"/proc/{process}/task"):
            with open(f"/proc/{process}/task/{thread}/children") as file:
                seconds += sum(processor_seconds(child) for child in file.read().split())
        return seconds
    except OSError:
        return 0.0


class Folder:
    """The files that land in a folder and in those within it."""

    def __init__(self, path):
        self.libc = ctypes.CDLL("libc.so.6", use_errno=True)
        self.notes = self.libc.inotify_init1(os.O_NONBLOCK)
        self.paths = {}
        self.watch(path)

    def watch(self, path):
        watch = self.libc.inotify_add_watch(self.notes, path.encode(), CLOSED | MOVED_HERE | MADE)
        self.paths[watch] = path
        for entry in os.scandir(path):
            if entry.is_dir():
                self.watch(entry.path)

    def landed(self):
        """The names of the files that landed within half a second."""
        if not select.select([self.notes], [], [], 0.5)[0]:
            return []
        notes, names, start = os.read(self.notes, 1 << 20), [], 0
        while start < len(notes):
            watch, mask, _, length = struct.unpack_from("iIII", notes, start)
            name = notes[start + 16 : start + 16 + length].split(b"\0")[0].decode()
            start += 16 + length
            if mask & IS_FOLDER:
                self.watch(os.path.join(self.paths[watch], name))
            elif mask & MOVED_HERE and name.endswith(".oantt"):
                names.append(name.removesuffix(".oantt").removesuffix(".decls"))
        return names


def costs_of(command):
    """Runs the command. Gives its status, its processor seconds in all, and those of each module."""
    os.makedirs(FOLDER, exist_ok=True)
    folder = Folder(FOLDER)
    costs, before = collections.Counter(), 0.0
    run = subprocess.Popen(command)
    try:
        while run.poll() is None:
            names = folder.landed()
            if names:
                now = processor_seconds(run.pid)
                costs[names[-1] if before else "the start"] += now - before
                before = now
    except KeyboardInterrupt:
        run.terminate()
        run.wait()
    ended = os.times()
    return run.returncode, ended.children_user + ended.children_system, costs


def by_function(costs):
    """Of each function, or module that is of none, the seconds of each kind; and those of each kind of all."""
    functions, kinds = collections.defaultdict(collections.Counter), collections.Counter()
    for name, seconds in costs.items():
        module = MODULE.match(name)
        function, kind = (module[1], module[2] or "other") if module else (name, "other")
        functions[function][kind] += seconds
        kinds[kind] += seconds
    return functions, kinds


def listed(kinds):
    return ", ".join(f"{kind} {seconds:.1f}" for kind, seconds in kinds.most_common(8) if seconds >= 0.1)


def main():
    parser = argparse.ArgumentParser(description=__doc__, formatter_class=argparse.RawDescriptionHelpFormatter)
    parser.add_argument("--anew", action="store_true", help="removes what earlier checks kept first")
    parser.add_argument("--top", type=int, default=20, metavar="N", help="how many functions are listed [default: 20]")
    parser.add_argument("--find", default="", metavar="WORD", help="lists only functions whose path has this word")
    parser.add_argument("command", nargs="*", metavar="COMMAND", help="[default: rt check --jobs 1]")
    given = parser.parse_args()
    signal.signal(signal.SIGTERM, signal.default_int_handler)
    if not os.path.isdir("src"):
        parser.error("the current folder is no crate's")
    if given.anew:
        shutil.rmtree(FOLDER, ignore_errors=True)
    if given.anew:
        shutil.rmtree(FOLDER, ignore_errors=True)
    status, seconds, costs = costs_of(given.command or ["rt", "check", "--jobs", "1"])
    functions, kinds = by_function(costs)
    print(f"\n{seconds:.1f} processor seconds, status {status}: {listed(kinds)}")
    found = [(sum(kinds.values()), name, kinds) for name, kinds in functions.items() if given.find in name]
    for cost, name, kinds in sorted(found, key=lambda row: -row[0])[: given.top]:
        print(f"{cost:8.1f} {name}: {listed(kinds)}")
    sys.exit(status)


if __name__ == "__main__":
    main()
