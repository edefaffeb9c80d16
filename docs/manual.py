#!/usr/bin/env python3
"""Makes docs/help of what the program shows, and of docs/help what the manual page says of subcommands, options and statuses.

    docs/manual.py PROGRAM    writes docs/help, the list and the page; PROGRAM is the built program, or built/tried as ./s66 keeps it
    docs/manual.py            writes the list and the page, of docs/help as it stands
    docs/manual.py --check    tells whether they aren't current; the status is then 1

- docs/help has what the program shows without a word, and of its version; its own help and that of each subcommand, and with -h
  behind the name the brief one: each as it holds of the script, which takes files in the place of standard input, and has commands of
  its own. What else stands there is removed. docs/help/script is written by hand.
- The list, docs/help/value-options, has the options that take a value, by which ./s66 tells that from a file.
- Of the page docs/s66.1 that part is made which stands between the comments `made by docs/manual.py` and `end`. An option that says
  the same of several subcommands stands there once, with their names; a heading of the help, but `Options:`, stands there too.
"""
import glob
import os
import re
import subprocess
import sys

sys.dont_write_bytecode = True
from definitions import ROOT, Wrong, read

FOLDER, LIST, PAGE = "docs/help", "docs/help/value-options", "docs/s66.1"
OWN = "docs/help/script/s66"  # the script's commands, of which the first stands before those of the program, and what its help ends with
FILES = {"guard": "[FILE]", "page": "[FILE | --compare OLD NEW]", "compare": "OLD NEW"}  # of other subcommands: [FILE..]
START, END = '.\\" made by docs/manual.py\n', '.\\" end\n'
COMMAND = re.compile(r"^  (?!help )([a-z]+)  ", re.MULTILINE)
HELP = re.compile(r"(.*?)\n\nUsage: .*?\n\n(Options:\n.*?)\n\nExample: .*?\n\nStatus: (.*)\n", re.DOTALL)
HEADING = re.compile(r"(\S.*):$")
OPTION = re.compile(r"^ {2,6}(?:-\w, )?--([\w-]+)(?: <(\w+)>)?(?:  +(\S.*))?$", re.MULTILINE)
STATUS = re.compile(r"\b(\d) ([^,]*)")
STATUSES = re.compile(r"\n\nStatus: (.*)\n", re.DOTALL)
ENDS = [("126", "There is no program yet, and none can be compiled")]
ENDS += [("129, 130, 141, 143", "A signal has ended the script: HUP, INT, PIPE, TERM")]


def show(program, words, status=0):
    """What the program shows of these words. It ends with this status, or else isn't the program."""
    done = subprocess.run([os.path.abspath(program), *words], stdin=subprocess.DEVNULL, capture_output=True)
    if done.returncode != status:
        raise Wrong(f"{' '.join([program, *words])}: status {done.returncode}, and not {status}")
    return (done.stdout + done.stderr).decode()


def of_script(name, text):
    """What the program shows as a file of docs/help, as it holds of the script."""
    commands, _, end = read(OWN).partition("\n\n")
    first, *others = commands.splitlines()
    if name == "none":
        names = [COMMAND.match(command)[1] for command in (first, *others)]
        return text.replace("[subcommands: ", f"[subcommands: {names[0]}, ").replace(", help]", f", {', '.join(names[1:])}, help]")
    if name in ("s66", "s66-h"):
        text = text.replace("Commands:\n", f"Commands:\n{first}\n").replace("  help  ", "\n".join([*others, "  help  "])) + f"\n{end}"
    files = FILES.get(name.removesuffix("-h"), "[FILE..]")
    text = re.sub(r"^(Usage: .*) < [A-Z]+", rf"\1 {files}", text, flags=re.MULTILINE)
    return text.replace(" < SOURCES", " OLD NEW").replace(" < SOURCE", " FILE").replace(" < CERTIFICATES", " CERTIFICATES")


def commands_in(texts):
    """The subcommands of the program that its own help lists, or that of the script."""
    own = COMMAND.findall(read(OWN))
    commands = [command for command in COMMAND.findall(texts.get("s66", "")) if command not in own]
    if not commands:
        raise Wrong(f"{FOLDER}/s66: lists no subcommand")
    return commands


def shown_by(program):
    """The files of docs/help by their names, as the program shows them."""
    texts = {"none": show(program, [], 2), "version": show(program, ["--version"])}
    texts |= {"s66": show(program, ["--help"]), "s66-h": show(program, ["-h"])}
    for command in commands_in(texts):
        texts |= {command: show(program, [command, "--help"]), f"{command}-h": show(program, [command, "-h"])}
    return {name: of_script(name, text) for name, text in texts.items()}


def kept():
    """The files of docs/help by their names, as they stand to the byte."""
    texts = {}
    for path in filter(os.path.isfile, glob.glob(os.path.join(ROOT, FOLDER, "*"))):
        with open(path, encoding="utf-8", newline="") as opened:
            texts[os.path.basename(path)] = opened.read()
    return texts


def value_options(texts):
    """The list. An option is known by its name alone, so that it has to take a value wherever it stands, or nowhere."""
    scripts = [read(path) for path in glob.glob(os.path.join(ROOT, FOLDER, "script/*"))]
    options = [option for text in [*texts.values(), *scripts] for option in OPTION.findall(text)]
    valued = {name for name, value, _ in options if value}
    for name, value, _ in options:
        if name in valued and not value:
            raise Wrong(f"--{name} takes a value in one help and none in another")
    return " ".join(f"--{name}" for name in sorted(valued)) + "\n"


def roff(text):
    """A text as a line of a page that begins with no request."""
    text = text.replace("\\", "\\e")
    return f"\\&{text}\n" if text.startswith((".", "'")) else f"{text}\n"


def options_of(text):
    """Each option under its heading, with its paragraphs, in the long form of the help or in the short one."""
    heading, found = None, []
    for line in text.splitlines():
        option = OPTION.match(line)
        if HEADING.match(line):
            heading = line.rstrip(":")
        elif option:
            found.append(((heading, option[1], option[2]), [option[3] or ""]))
        elif line.strip():
            found[-1][1][-1] += f" {line.strip()}"
        elif found[-1][1][-1]:
            found[-1][1].append("")
    return [(*option, tuple(said.strip() for said in paragraphs if said)) for option, paragraphs in found if option[1] != "help"]


def grouped(pairs):
    """The names that come with each key, in the order in which the keys come first."""
    groups = {}
    for name, key in pairs:
        groups.setdefault(key, []).append(name)
    return groups.items()


def of(commands):
    """The names of subcommands, before what is said of them."""
    first = " ,\n".join(f".Cm {name}" for name in commands[:-1])
    return f"Of\n{first}\nand\n.Cm {commands[-1]} :\n" if first else f"Of\n.Cm {commands[-1]} :\n"


def part(texts):
    """The part of the page that is made."""
    commands, options, statuses = commands_in(texts), [], []
    yield f".Sh SUBCOMMANDS\n.Bl -tag -width {max(commands, key=len)}\n"
    for command in commands:
        parts = HELP.fullmatch(texts.get(command, ""))
        if not parts:
            raise Wrong(f"{FOLDER}/{command}: isn't laid out as the help of a subcommand")
        does, taken, status = parts.groups()
        yield f".It Cm {command}\n{roff(' '.join(does.split()))}"
        options += [(command, option) for option in options_of(taken)]
        statuses += [(command, found) for found in STATUS.findall(" ".join(status.split()))]
    yield ".El\n.Sh OPTIONS\n"
    listed = sorted(grouped(options), key=lambda found: found[0][1])
    for heading in dict.fromkeys(["Options"] + [option[0] for _, option in options]):
        yield ("" if heading == "Options" else f'.Ss "{heading}"\n') + ".Bl -tag -width Ds\n"
        for (under, option, value, paragraphs), whose in listed:
            if under == heading:
                yield f".It Fl -{option}{f' Ar {value}' if value else ''}\n{of(whose)}" + ".Pp\n".join(map(roff, paragraphs))
        yield ".El\n"
    for command in COMMAND.findall(read(OWN)):
        commands.append(command)
        status = STATUSES.search(read(f"{FOLDER}/script/{command}"))[1]
        statuses += [(command, found) for found in STATUS.findall(" ".join(status.split()))]
    yield ".Sh EXIT STATUS\n.Bl -tag -width Ds\n"
    for (status, words), whose in grouped(sorted(statuses, key=lambda found: found[1][0])):
        yield f".It {status}\n{'' if len(whose) == len(commands) else of(whose)}{roff(words)}"
    yield "".join(f".It {status}\n{words}\n" for status, words in ENDS) + ".El\n"


def page(texts):
    """The page as it should be."""
    before, start, rest = read(PAGE).partition(START)
    _, end, after = rest.partition(END)
    if not start or not end:
        raise Wrong(f"{PAGE}: lacks {START.strip()} or {END.strip()}")
    return before + start + "".join(part(texts)) + end + after


def changes(program=None):
    """What isn't current: of each file its path, and the text that it should have, or None if it shouldn't be there."""
    stands = kept()
    wanted = shown_by(program) if program else stands
    files = {f"{FOLDER}/{name}": text for name, text in wanted.items()}
    files |= {LIST: value_options(wanted), PAGE: page(wanted)}
    stands = {PAGE: read(PAGE)} | {f"{FOLDER}/{name}": text for name, text in stands.items()}
    return [(path, files.get(path)) for path in sorted(files.keys() | stands) if files.get(path) != stands.get(path)]


def stale(program=None):
    """A line for each file that isn't current."""
    command = f"docs/manual.py {program}" if program else "docs/manual.py"
    try:
        for path, _ in changes(program):
            yield f"{path}: not as {command} makes it: run that"
    except Wrong as wrong:
        yield str(wrong)


def main(arguments):
    if arguments == ["--check"]:
        lines = list(stale())
        print("".join(f"{line}\n" for line in lines), end="")
        return 1 if lines else 0
    if len(arguments) > 1 or arguments and arguments[0].startswith("-"):
        sys.exit(__doc__.split("\n\n")[1].strip())
    try:
        changed = changes(*arguments)
    except Wrong as wrong:
        sys.exit(str(wrong))
    for path, text in changed:
        path = os.path.join(ROOT, path)
        if text is None:
            os.remove(path)
            continue
        with open(path, "w", encoding="utf-8") as file:
            file.write(text)
    return 0


if __name__ == "__main__":
    sys.exit(main(sys.argv[1:]))
