"""Runs the program on decks of blocks, checks what it prints by means of its own, and sums it up."""
import collections
import dataclasses
import pathlib
import re
import sys

from deep import ran
from real import scoreboard

MODES = {"deep": ["--deep"], "dominate-tree": ["--dominate-tree"], "none": []}
TITLES = {"deep": "`--deep` best", "dominate-tree": "`--dominate-tree` best", "none": "best without an option"}
RULES = [scoreboard.first_issued, scoreboard.first_started]
LONGER_THAN = (20, 100)  # of these blocks the table has rows of their own
DECK_LINES = 19_000  # below the 20,000 of a source
CHECKER = pathlib.Path(__file__).resolve().parents[2] / "tools/certificate.py"
REPORT = re.compile(r"\* BLOCK (\d+) COUNT (\d+) SOURCE (\d+) TIME (\d+) (?:BEST|AT LEAST (\d+))$")
VERDICT = re.compile(r"DOCUMENT \d+ (?:YES TIME (\d+) BOUND (\d+)|NO .*)$", re.MULTILINE)
NUMBER = re.compile(r"(?<![\w.])\d+|[A-Z]\.\d+")


@dataclasses.dataclass
class Sample:
    """A block that is unlike all others, how often it occurs, and what is known of it: of each mode its time and its bound."""

    texts: list
    branch: str
    count: int = 0
    found: dict = dataclasses.field(default_factory=dict)
    source: int = 0
    listed: int = 0

    def best(self):
        return min(time for time, _ in self.found.values())

    def is_best(self, mode):
        time, bound = self.found[mode]
        return time == bound


def shape(text):
    """An instruction with one name for all its constants, which take no part in its time."""
    return re.sub(r"[+-]?K(?:[+-]K)*", "+K", NUMBER.sub("K", text))


def add_blocks(samples, blocks):
    """Adds blocks to those that are known by their shapes."""
    for texts, branch in blocks:
        if texts:
            key = tuple(map(shape, texts))
            samples.setdefault(key, Sample(texts, branch)).count += 1


def deck_of(samples):
    """The text of a deck, in which each block has a label and a branch behind it."""
    lines = []
    for number, sample in enumerate(samples, 1):
        label = f"K{number}"
        for text in sample.texts:
            lines.append(label.ljust(10) + text)
            label = ""
        lines.append(" " * 10 + (sample.branch or "EQ NEXT"))
    return "\n".join(lines) + "\n"


def decks(samples):
    """The samples by decks that the program can read."""
    held, lines = [], 0
    for sample in samples:
        more = len(sample.texts) + 1
        if lines + more > DECK_LINES:
            yield held
            held, lines = [], 0
        held.append(sample)
        lines += more
    if held:
        yield held


def printed_blocks(text):
    """The blocks of a source that `order --trace` printed: source time, time, bound and instructions."""
    lines = text.splitlines()
    for at, line in enumerate(lines):
        report = REPORT.match(line)
        if report:
            _, count, source, time, bound = report.groups()
            begin = at + 2  # behind the line of the splits
            texts = [lines[n][10:] for n in range(begin, begin + int(count))]
            yield int(source), int(time), int(bound or time), texts


def numbers_of(texts, printed):
    """The places in the source of printed instructions; equal ones write the same register, so that they keep their order."""
    places = collections.defaultdict(collections.deque)
    for n, text in enumerate(texts):
        places[text].append(n)
    return [places[text].popleft() if places[text] else -1 for text in printed]


@dataclasses.dataclass(frozen=True)
class Plan:
    """What is run, and how much of it is checked."""

    program: list
    nodes: int = 100_000
    modes: list = dataclasses.field(default_factory=lambda: list(MODES))
    short: int = 10  # instructions of the longest blocks of which all orders are tried
    beginnings: int = 2_000  # of orders of a block; if there are more, not all of its orders are tried
    certified: int = 0  # one block in so many gets a certificate that is checked, or none does

    def run(self, subcommand, mode, deck):
        """What the program prints on a deck, and the seconds of the processor that it takes."""
        return ran([*self.program, *subcommand, "--workers", "1", "--nodes", str(self.nodes), *MODES[mode]], deck)


class Measurement:
    """What comes of measuring samples, besides what each of them keeps."""

    def __init__(self, plan):
        self.plan, self.wrong = plan, []
        self.seconds = collections.Counter()  # of the processor, of each mode
        self.tried = 0  # short blocks of which all orders were tried
        self.certified = 0  # blocks whose certificates were checked

    def add(self, other):
        self.wrong += other.wrong
        self.seconds += other.seconds
        self.tried += other.tried
        self.certified += other.certified

    def measure(self, samples):
        """Measures the samples of a deck."""
        blocks = [scoreboard.Block(sample.texts) for sample in samples]
        for sample, block in zip(samples, blocks):
            sample.source = block.time(range(len(sample.texts)))
        for mode in self.plan.modes:
            self.search(samples, blocks, mode)
        for sample, block in zip(samples, blocks):
            self.compare(sample, block)
        if self.plan.certified:
            self.certify(samples[:: self.plan.certified])

    def search(self, samples, blocks, mode):
        """Has the blocks put in order in a mode."""
        text, seconds = self.plan.run(["order", "--trace"], mode, deck_of(samples))
        self.seconds[mode] += seconds
        answers = list(printed_blocks(text))
        if len(answers) != len(samples):
            raise SystemExit(f"{mode}: {len(answers)} blocks in place of {len(samples)}")
        for sample, block, (source, time, bound, texts) in zip(samples, blocks, answers):
            sample.found[mode] = time, bound
            order = numbers_of(sample.texts, texts)
            if source != sample.source or -1 in order or not block.is_legal(order) or block.time(order) != time:
                self.wrong.append(f"{mode}: {sample.texts} as {texts}")

    def compare(self, sample, block):
        """Compares a block's answers with one another, with list schedules and, if it is short, with all orders."""
        tails, best = block.tails(), sample.best()
        sample.listed = min(block.time(scoreboard.list_schedule(block, tails, rule)) for rule in RULES)
        if max(bound for _, bound in sample.found.values()) > min(best, sample.listed):
            self.wrong.append(f"a bound above a time: {sample.texts}")
        if len(sample.texts) <= self.plan.short and any(map(sample.is_best, self.plan.modes)):
            try:
                is_beaten = scoreboard.is_beaten(block, tails, best, self.plan.beginnings)
            except scoreboard.TooMany:
                return
            self.tried += 1
            if is_beaten:
                self.wrong.append(f"not the best: {sample.texts}")

    def certify(self, samples):
        """Has certificates made by the first mode, and checks that they are right and say what `order` said."""
        mode = self.plan.modes[0]
        documents, _ = self.plan.run(["prove"], mode, deck_of(samples))
        text, _ = ran([sys.executable, str(CHECKER)], documents)
        verdicts = VERDICT.findall(text)
        if len(verdicts) != len(samples):
            raise SystemExit(f"{len(verdicts)} certificates in place of {len(samples)}")
        self.certified += len(verdicts)
        for sample, verdict in zip(samples, verdicts):
            if verdict != tuple(map(str, sample.found[mode])):
                self.wrong.append(f"a certificate: {sample.texts}")


def measured(plan, samples):
    """The samples of a deck as they are once they are measured, and the measurement: for a process of its own."""
    measurement = Measurement(plan)
    measurement.measure(samples)
    return samples, measurement


def share(count, whole):
    """How much of the whole remains, in 100, and how many don't."""
    return f"{100 * (1 - count / whole):.6g} % ({count:,} open)"


def row(name, samples, modes, weight):
    """A line of the table: how many blocks, how many of these each mode decides, and how often the better list schedule is wrong."""
    blocks = sum(map(weight, samples))
    if not blocks:
        return f"| {name} | 0 |" + " |" * (len(modes) + 1)
    left = [sum(weight(sample) for sample in samples if not sample.is_best(mode)) for mode in modes]
    wrong = sum(weight(sample) for sample in samples if sample.listed > sample.best())
    return f"| {name} | {blocks:,} | " + " | ".join(share(count, blocks) for count in left) + f" | {100 * wrong / blocks:.3g} % |"


def table(samples, measurement):
    """The table in Markdown, and what is said below it."""
    plan, modes = measurement.plan, measurement.plan.modes
    lines = ["| | blocks | " + " | ".join(TITLES[mode] for mode in modes) + " | the better of two list schedules is wrong |"]
    lines.append("|---|---|" + "---|" * (len(modes) + 1))
    lines.append(row("all", samples, modes, lambda sample: 1))
    for least in LONGER_THAN:
        lines.append(row(f"above {least} instructions", [sample for sample in samples if len(sample.texts) > least], modes, lambda sample: 1))
    lines.append(row("as they occur", samples, modes, lambda sample: sample.count))
    seconds = " | ".join(f"{measurement.seconds[mode]:.1f}" for mode in modes)
    lines.append(f"| processor seconds | | {seconds} | |")
    source, best, listed = (sum(map(time, samples)) for time in (lambda s: s.source, Sample.best, lambda s: s.listed))
    lines.append("")
    lines.append(f"{sum(len(sample.texts) for sample in samples):,} instructions. The source orders take {source:,} minor cycles, the better of two list schedules")
    lines.append(f"{100 * (1 - listed / source):.1f} % less, the best orders {100 * (1 - best / source):.1f} % less.")
    lines.append("")
    lines.append(f"Checked: that {len(modes) * len(samples):,} printed orders are legal and of the printed times; that no bound of a block is above a time of it;")
    lines.append(f"of {measurement.tried:,} blocks of at most {plan.short} instructions that no order takes less, by trying all; of {measurement.certified:,} blocks the")
    lines.append(f"certificates. {len(measurement.wrong)} faults.")
    return "\n".join(lines)
