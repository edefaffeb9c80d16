#!/usr/bin/env python3
"""Runs the gate and prints what each crate cost.

    tools/gate.py LOG [ARGUMENT..]   runs `rt ci ARGUMENT..` here, writes what it says to LOG, and then prints the table
    tools/gate.py --table LOG        prints the table of a log that was written so

The table has the processor seconds of each crate: its check, the proof of its tests, and its must-fail edits, for which the
crate is checked once more. They are sampled from the processes of the run, twice a second, and those of the C compiler and of
what is run aren't among them. Below it is the sum, in processor minutes, and that of all that the run did. The status is that of
`rt ci`, and 1 if an edit was refused only because a proof file names what the edit took away: such an edit shows nothing of a
contract.
"""
import os
import re
import resource
import subprocess
import sys
import threading
import time

SHOWS_NOTHING = "only because a proof file names"
KINDS = ("check", "tests", "edits")
TICKS = os.sysconf("SC_CLK_TCK")


def read(path):
    try:
        with open(path, "rb") as file:
            return file.read()
    except OSError:
        return b""


def kind_of(words, folder):
    """Which part of the gate a check of the toolchain is, by its arguments and by the folder that it runs in."""
    if "/rt-edit-" in folder:
        return "edits"
    return "tests" if "--test" in words else "check"


def stats():
    """The fields after its name of /proc/NUMBER/stat, of each process by its number."""
    found = {}
    for pid in filter(str.isdigit, os.listdir("/proc")):
        stat = read(f"/proc/{pid}/stat").rpartition(b")")[2].split()
        if len(stat) >= 20:
            found[int(pid)] = stat
    return found


def is_below(pid, top, found):
    """Whether a process was started by the process top, or by one that was."""
    while pid in found and pid != top:
        pid = int(found[pid][1])
    return pid == top


class Sampler(threading.Thread):
    """Samples the processor time of every check that this process has started, until it is stopped."""

    def __init__(self):
        super().__init__(daemon=True)
        self.labels = {}  # of a process, by its number and the time when it began: its crate and kind
        self.seconds = {}  # of a process: what it has used when it was last seen
        self.ended = threading.Event()

    def look(self, pid, stat):
        process = pid, stat[19]
        if process not in self.labels:
            words = read(f"/proc/{pid}/cmdline").decode(errors="replace").split("\0")
            if "--crate-name" not in words:
                return
            try:
                folder = os.readlink(f"/proc/{pid}/cwd")
            except OSError:
                return
            self.labels[process] = words[words.index("--crate-name") + 1], kind_of(words, folder)
        self.seconds[process] = (int(stat[11]) + int(stat[12])) / TICKS

    def run(self):
        while not self.ended.wait(0.5):
            found = stats()
            for pid, stat in found.items():
                if is_below(pid, os.getpid(), found):
                    self.look(pid, stat)

    def sums(self):
        sums = {}
        for process, seconds in self.seconds.items():
            label = self.labels[process]
            sums[label] = sums.get(label, 0) + seconds
        return sums


def run(log, arguments):
    """Runs the gate, and appends to its log what each part of it cost."""
    sampler, begun = Sampler(), time.time()
    sampler.start()
    with open(log, "w", encoding="utf-8") as file:
        gate = subprocess.Popen(["rt", "ci", *arguments], stdout=subprocess.PIPE, stderr=subprocess.STDOUT, text=True, errors="replace")
        for line in gate.stdout:
            file.write(line)
            file.flush()
            print(line, end="", flush=True)
        status = gate.wait()
        sampler.ended.set()
        sampler.join()
        for (crate, kind), seconds in sorted(sampler.sums().items()):
            file.write(f"gate: {crate} {kind} {seconds:.1f}\n")
        used = resource.getrusage(resource.RUSAGE_CHILDREN)
        file.write(f"gate: processors {used.ru_utime + used.ru_stime:.1f}\n")
        file.write(f"gate: clock {time.time() - begun:.1f}\n")
    return status


def row(name, functions, cost, edits):
    """A row of the table: what a crate cost in all, or all crates."""
    check, tests, of_edits = (f"{cost[kind]:.0f}" if cost.get(kind) else "" for kind in KINDS)
    return f"| {name} | {functions} | {check} | {tests} | {edits or ''} | {of_edits} | {sum(cost.values()):.0f} |"


def sum_lines(text, seconds):
    """The lines below the table: processor minutes, and those by the clock."""
    whole = dict(re.findall(r"^gate: (processors|clock) ([\d.]+)$", text, re.M))
    yield f"\nProcessor minutes of the table: {seconds / 60:.1f}"
    if "processors" in whole:
        yield f"Processor minutes of the run: {float(whole['processors']) / 60:.1f}"
    if "clock" in whole:
        yield f"By the clock: {float(whole['clock']) / 60:.1f} minutes on {os.cpu_count()} processors"


def table(log):
    """The table of a log, and the lines that tell of edits that show nothing."""
    with open(log, encoding="utf-8") as file:
        text = file.read()
    costs = {}
    for crate, kind, seconds in re.findall(r"^gate: (\w+) (\w+) ([\d.]+)$", text, re.M):
        costs.setdefault(crate, {})[kind] = float(seconds)
    functions = dict(re.findall(r"^== (\w+)\n(?:(?!== ).*\n)*?.*logic=proved functions=(\d+)", text, re.M))
    edits = {}
    for crate in re.findall(r"must-fail (\w+)/\S+\.edit: ", text):
        edits[crate] = edits.get(crate, 0) + 1
    rows = ["| Crate | Functions | Check | Tests | Edits | Their seconds | In all |", "|---|---|---|---|---|---|---|"]
    rows += [row(f"`{crate}`", functions.get(crate, ""), cost, edits.get(crate)) for crate, cost in costs.items()]
    whole = {kind: sum(cost.get(kind, 0) for cost in costs.values()) for kind in KINDS}
    rows.append(row("all", sum(map(int, functions.values())), whole, sum(edits.values())))
    rows += sum_lines(text, sum(whole.values()))
    return "\n".join(rows), [line for line in text.splitlines() if SHOWS_NOTHING in line]


def main():
    arguments = sys.argv[1:]
    if not arguments or arguments == ["--table"] or arguments[0] in ("-h", "--help"):
        print(__doc__.strip())
        return 2
    status = 0
    if arguments[0] == "--table":
        log = arguments[1]
    else:
        log = arguments[0]
        status = run(log, arguments[1:])
    rows, empty = table(log)
    print(rows)
    for line in empty:
        print(f"shows nothing: {line}")
    return status or bool(empty)


if __name__ == "__main__":
    sys.exit(main())
