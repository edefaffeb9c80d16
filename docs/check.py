#!/usr/bin/env python3
"""Checks that what the documents show is what the program does, and that what they name is there.

    docs/check.py PROGRAM [DOCUMENT..]

PROGRAM is the built program. Without a DOCUMENT all are checked:

- README.md, CONTRIBUTING.md, CHANGELOG.md, the README.md of bench/, *.md of examples/, and docs/*.md;
- the manual page docs/s66.1: that its literal displays are what a terminal shows;
- what docs/manual.py makes of what the program shows, which is docs/help and a part of the page: that it is as that makes it now;
- what docs/definitions.py makes in documents: that it is as that makes it now, and that each file of the crates says what it is for;
- what docs/visibility.py tells of the crates: what is public without being exported, or imported and not used;
- that no more names stand for several definitions than tools/same_names.py allows;
- docs/page.png: that it is of the page that the program writes now, by docs/page.sum;
- the files of examples/: that each NAME.time, NAME.chart and NAME.order is to the byte what the program writes of NAME.compass, and
  that check says yes to each document that prove writes of it, at the times of NAME.order; and that it says yes to each NAME.cert.

Each wrong place is told, wrong output as a diff. The last line counts in how many documents, and of the last seven, nothing is wrong
and something is. The status is 1 where something is.

Two kinds of fences hold commands. In

    ```console
    $ s66 time < ADD
    BLOCK 1 LINE 1 COUNT 1 PARCELS 1 NO 0 TIME 4
    ```

a line that begins with "$ " is a command, and what follows it, up to the next command or the end, is to the byte what
it writes to standard output and error. Where its status isn't 0, the next command is `echo $?`. A fence marked sh is
copied as a whole: its commands write nothing and have status 0. No other fence has a line that begins with "$ ".

The commands of a document run one after the other, in one folder of its own. At first that holds what a reader at the
root of the repository has at hand: the script ./s66, with the program as it is built, and examples/. On the PATH s66 is
a link to the script, as README.md makes it.

Names stand in backquotes outside of fences. The name of a file or folder may leave out folders in front, and a star or
a word of capitals in it stands for any text. A name with a `_`, a `::` or a capital inside is that of a crate or of
something in the code of one; in a column of contracts, each name is one of something in the crates of its row.
"""
import difflib
import glob
import os
import re
import shutil
import subprocess
import sys
import tempfile

ROOT = os.path.dirname(os.path.dirname(os.path.abspath(__file__)))

sys.dont_write_bytecode = True
sys.path.append(os.path.join(ROOT, "tools"))
import definitions
import manual
import picture
import same_names
import visibility

FENCE = re.compile(r"^```(.*)\n((?:.*\n)*?)^```$", re.MULTILINE)
SPAN = re.compile(r"`([^`\n]+)`")
PATH = re.compile(r"[\w*.-]+(/[\w*.-]+)*/?")
SUFFIX = re.compile(r"\.(antt|cert|chart|compass|edit|md|order|py|rt|time|txt)$|\b[a-z]\w*\.1$")
ANY = re.compile(r"\\\*|\b[A-Z]+\b(?!\\.md)")
NAME = re.compile(r"[A-Za-z]\w*(::\w+)*")
IS_MIXED = re.compile(r"[a-z0-9]_[a-z0-9]|::|[a-z][A-Z]")
DISPLAY = re.compile(r"^\.Bd -literal.*\n((?:.*\n)*?)^\.Ed$", re.MULTILINE)
COMMENT = re.compile(r"^\s*(//|--).*$", re.MULTILINE)
BEST = re.compile(r"^\* BLOCK (\d+) COUNT \d+ SOURCE \d+ TIME (\d+) BEST$", re.MULTILINE)
CLAIM = re.compile(r"^TIME (\d+)\nBOUND (\d+)$", re.MULTILINE)
DOCUMENTS = ["README.md", "CONTRIBUTING.md", "CHANGELOG.md", "bench/README.md"]
DOCUMENTS += ["examples/README.md", "examples/CERTIFICATES.md"]
EXAMPLES = {"time": ["time"], "chart": ["chart"], "order": ["order", "--workers", "1", "--trace"]}
STATUS_END = "\x1e"  # behind the output of a command: its status, and this


class Fence:
    """A fence of a document: its first line's number, what it is marked with, and its text."""

    def __init__(self, line, mark, text):
        self.line, self.mark, self.text = line, mark, text

    def is_run(self):
        return self.mark in ("console", "sh")

    def commands(self):
        if self.mark == "sh":
            return [self.text]
        return [line[2:] + "\n" for line in self.text.splitlines() if line.startswith("$ ")]


def fences_of(text):
    return [Fence(text[: found.start()].count("\n") + 1, found[1], found[2]) for found in FENCE.finditer(text)]


def put_script(folder, program):
    """Puts the script ./s66 into a folder, as if the program had been proved and built there."""
    built = os.path.join(folder, "built")
    os.mkdir(built)
    for name in ("tools", "docs"):
        os.mkdir(os.path.join(folder, name))
    for name in ("s66", *glob.glob("tools/*.sh", root_dir=ROOT)):
        shutil.copy(os.path.join(ROOT, name), os.path.join(folder, name))
    shutil.copytree(os.path.join(ROOT, "docs/help"), os.path.join(folder, "docs/help"))
    os.symlink(os.path.abspath(program), os.path.join(built, "s66_main"))
    with open(os.path.join(built, "s66_main.of"), "w", encoding="utf-8") as mark:
        print("tools", file=mark)


def run(commands, program):
    """The output and the status of each command; status 2 of those that the shell didn't come to."""
    with tempfile.TemporaryDirectory() as top:
        folder, bin = os.path.join(top, "s66"), os.path.join(top, "bin")
        os.mkdir(bin)
        os.symlink(os.path.join(folder, "s66"), os.path.join(bin, "s66"))
        shutil.copytree(os.path.join(ROOT, "examples"), os.path.join(folder, "examples"))
        put_script(folder, program)
        told = 'status=$?; printf "\\036%s\\036" $status; (exit $status)\n'
        done = subprocess.run(
            ["sh", "-c", "".join(command + told for command in commands)],
            cwd=folder,
            env={"PATH": bin + os.pathsep + os.environ["PATH"], "LC_ALL": "C"},
            stdin=subprocess.DEVNULL,
            stdout=subprocess.PIPE,
            stderr=subprocess.STDOUT,
        )
    parts = done.stdout.decode("utf-8", "backslashreplace").split(STATUS_END)
    ran = [(output, int(status)) for output, status in zip(parts[0::2], parts[1::2])]
    return ran + [(parts[-1] if len(parts) % 2 else "", 2)] * (len(commands) - len(ran))


def wrong_commands(name, text, program):
    """What a document shows otherwise than the program does it."""
    fences = fences_of(text)
    answers = iter(run([command for fence in fences if fence.is_run() for command in fence.commands()], program))
    for fence in fences:
        commands = fence.commands()
        if not fence.is_run():
            if commands:
                yield f"{name}:{fence.line}: a command in a fence that isn't marked console"
            continue
        ran = [next(answers) for _ in commands]
        if fence.mark == "sh":
            wanted, came = "", ran[0][0]
        else:
            wanted, came = fence.text, "".join("$ " + c + output for c, (output, _) in zip(commands, ran))
        if wanted != came:
            lines = [text.splitlines(keepends=True) for text in (wanted, came)]
            diff = difflib.unified_diff(*lines, f"{name}:{fence.line}", "what came")
            yield "".join(line if line.endswith("\n") else line + "\n\\ no newline\n" for line in diff).rstrip("\n")
        for command, after, (_, status) in zip(commands, commands[1:] + [""], ran):
            if status != 0 and after != "echo $?\n":
                yield f"{name}:{fence.line}: status {status} that isn't shown, of: {command.rstrip()}"


def wrong_output(name, words, program, given, wanted):
    """The output, and what of it is otherwise than wanted; the status has to be 0, and nothing is told of errors."""
    done = subprocess.run([program, *words], input=given, stdout=subprocess.PIPE, stderr=subprocess.STDOUT)
    if done.returncode == 0 and done.stdout == wanted:
        return
    lines = [text.decode("utf-8", "backslashreplace").splitlines() for text in (wanted, done.stdout)]
    yield f"{name}: s66 {' '.join(words)} has status {done.returncode}, and writes:"
    yield from difflib.unified_diff(*lines, name, "what came", lineterm="")


def wrong_examples(program):
    """What the files of examples/ hold otherwise than the program writes it."""

    def read(name):
        with open(os.path.join(ROOT, name), "rb") as opened:
            return opened.read()

    program = os.path.abspath(program)
    files = {f"examples/{name}" for name in os.listdir(os.path.join(ROOT, "examples"))} - set(DOCUMENTS)
    certificates = {name for name in files if name.endswith(".cert")}
    files -= certificates
    routines = sorted(name[: -len(".compass")] for name in files if name.endswith(".compass"))
    known = {f"{routine}.{suffix}" for routine in routines for suffix in ["compass", *EXAMPLES]}
    for name in sorted(files ^ known):
        yield f"{name}: {'nothing writes it' if name in files else 'no such file'}"
    for routine in routines:
        source = read(f"{routine}.compass")
        for suffix, words in EXAMPLES.items():
            if f"{routine}.{suffix}" in files:
                yield from wrong_output(f"{routine}.{suffix}", words, program, source, read(f"{routine}.{suffix}"))
        proved = subprocess.run([program, "prove", "--workers", "1"], input=source, stdout=subprocess.PIPE)
        best = BEST.findall(read(f"{routine}.order").decode()) if f"{routine}.order" in files else []
        verdicts = "".join(f"DOCUMENT {block} YES TIME {time} BOUND {time}\n" for block, time in best)
        yield from wrong_output(f"{routine}.compass", ["check"], program, proved.stdout, verdicts.encode())
    for name in sorted(certificates):
        text = read(name)
        claimed = "DOCUMENT 1 YES TIME %s BOUND %s\n" % CLAIM.search(text.decode()).groups()
        yield from wrong_output(name, ["check"], program, text, claimed.encode())


class Repository:
    """Its files, and the names in the code of each crate, which are all declared somewhere, since it is proved."""

    def __init__(self):
        # the folder may belong to another user, as where root tests a checkout
        listed = ["git", "-c", "safe.directory=*", "-C", ROOT, "ls-files", "-co", "--exclude-standard"]
        files = subprocess.run(listed, check=True, stdout=subprocess.PIPE, text=True).stdout.splitlines()
        self.files = [file for file in files if os.path.isfile(os.path.join(ROOT, file))]
        self.names = {}
        for file in self.files:
            if file.startswith("crates/") and file.endswith((".rt", ".antt")):
                with open(os.path.join(ROOT, file), encoding="utf-8") as opened:
                    names = re.findall(r"\w+", COMMENT.sub("", opened.read()))
                self.names.setdefault(file.split("/")[1], set()).update(names)

    def has_file(self, path):
        tail = "/" + ANY.sub("[^/]*", re.escape(path.rstrip("/"))) + "(/|$)"
        return any(re.search(tail, "/" + file) for file in self.files)

    def has_name(self, name, crates):
        """Whether each part of a name is in the code of one of the crates."""
        return any(all(part in self.names.get(crate, ()) for part in name.split("::")) for crate in crates)


def looks_like_a_file(span, repository):
    if not PATH.fullmatch(span):
        return False
    top = span.split("/")[0]
    return bool(SUFFIX.search(span)) or "/" in span and any(file.split("/")[0] == top for file in repository.files)


def contracts(row):
    """The names in a row's last cell: of contracts, and of crates."""
    spans = SPAN.findall(row.rstrip().rstrip("|").rsplit(" | ", 1)[-1])
    crates = [span for span in spans if span.startswith("s66_")]
    return [span for span in spans if span not in crates], crates


def wrong_names(name, text, repository):
    """The names of a document that the repository doesn't have."""
    text = FENCE.sub(lambda fence: re.sub(".", "", fence[0]), text)
    in_contracts = False
    for number, line in enumerate(text.splitlines(), 1):
        in_contracts = line.startswith("|") and (in_contracts or line.endswith("| Contract |"))
        for span in SPAN.findall(line):
            if looks_like_a_file(span, repository):
                if not repository.has_file(span):
                    yield f"{name}:{number}: no file {span}"
            elif NAME.fullmatch(span) and IS_MIXED.search(span):
                if span not in repository.names and not repository.has_name(span, repository.names):
                    yield f"{name}:{number}: nothing is called {span}"
        names, crates = contracts(line) if in_contracts else ([], [])
        for contract in names:
            if NAME.fullmatch(contract) and not repository.has_name(contract, crates):
                yield f"{name}:{number}: no {contract} in {', '.join(crates)}"


def wrong_manual(name, program):
    """What the manual page shows otherwise than the program does it."""
    with open(os.path.join(ROOT, name), encoding="utf-8") as opened:
        page = opened.read()
    for display in DISPLAY.findall(page):
        yield from wrong_commands(name, "```console\n" + display.replace(r"\e", "\\") + "```\n", program)


def wrong_in(document, program, repository):
    """What is wrong in a document."""
    name = os.path.relpath(document, ROOT)
    with open(document, encoding="utf-8") as opened:
        text = opened.read()
    yield from wrong_commands(name, text, program)
    yield from wrong_names(name, text, repository)


def main(arguments):
    if not arguments:
        sys.exit(__doc__.split("\n\n")[1].strip())
    program, documents, checks = arguments[0], arguments[1:], []
    if not documents:
        documents = [os.path.join(ROOT, name) for name in DOCUMENTS]
        documents += sorted(glob.glob(os.path.join(ROOT, "docs/*.md")))
        checks = [wrong_manual("docs/s66.1", program), manual.stale(program)]
        checks += [definitions.stale(), visibility.wrong(), same_names.wrong(), picture.stale(program), wrong_examples(program)]
    repository = Repository()
    checks += [wrong_in(document, program, repository) for document in documents]
    failed = 0
    for wrong in map(list, checks):
        failed += bool(wrong)
        print("".join(f"{line}\n" for line in wrong), end="")
    print(f"{len(checks) - failed} passed, {failed} failed")
    return 1 if failed else 0


if __name__ == "__main__":
    sys.exit(main(sys.argv[1:]))
