#!/usr/bin/env python3
"""What the code of the crates makes public, and what it imports.

    docs/visibility.py

Public is what the lib.rt of a crate exports: a function, type, trait or constant that it names in a `pub use`, and the
methods and fields of such a type. All else of a crate is pub(crate), or private to its module. A name that a file
imports stands in it once more, but for a trait of the standard library, whose methods may be all that is used. And
each definition or type that the specs/Lib.antt of a crate passes on is imported from there.

Each line that is otherwise is told, and docs/check.py tells it too. The status is 1 where one is.
"""
import glob
import os
import re
import sys

ROOT = os.path.dirname(os.path.dirname(os.path.abspath(__file__)))

USE = re.compile(r"^ *(pub(?:\(crate\))? |ghost )?use ([^;]*);", re.MULTILINE)
LOGIC_USE = re.compile(r"^ *(pub )?use ([^\n]*)", re.MULTILINE)
ITEM = re.compile(r"pub (?:const fn|fn|struct|enum|trait|const|type) (\w+)")
TYPE = re.compile(r"(?:pub(?:\(crate\))? )?(?:struct|enum|trait) (\w+)")
IMPL = re.compile(r"impl(?:<[^{]*?>)? (?:[\w:]+(?:<[^{]*>)? for )?(\w+)")
MEMBER = re.compile(r"    pub (?!use)")
PASSED_ON = re.compile(r"^(?:unfoldable )?pub use ([^\n]*)", re.MULTILINE)
COMMENT = re.compile(r"^ *(//|--).*", re.MULTILINE)


def read(path):
    with open(path, encoding="utf-8") as file:
        return file.read()


def files(crate, *kinds):
    return sorted(path for kind in kinds for path in glob.glob(os.path.join(crate, kind), recursive=True))


def shown(path, text, place, what):
    return f"{os.path.relpath(path, ROOT)}:{text.count(chr(10), 0, place) + 1}: {what}"


def names_of(tree):
    """What stands behind `use`, each as the parts of its path and its name in the file."""
    head, brace, rest = tree.strip().partition("{")
    before = [part for part in re.split(r"::|\.", head) if part]
    if not brace:
        path, _, other = head.partition(" as ")
        parts = re.split(r"::|\.", path)
        return [(parts, other or parts[-1])]
    return [(before + path, name) for one in rest.rstrip("} ").split(",") if one.strip() for path, name in names_of(one)]


def exported(crate):
    """What its lib.rt exports, as a module of the crate and a name in it."""
    lib = os.path.join(crate, "src/lib.rt")
    text = read(lib) if os.path.exists(lib) else ""
    return {(path[0], path[-1]) for how, tree in USE.findall(text) if how == "pub " for path, _ in names_of(tree)}


def too_public(crate):
    """What is public in a crate and isn't exported: a file, its text, the place and a name there."""
    exports = exported(crate)
    types = {name for _, name in exports}
    for path in files(crate, "src/**/*.rt"):
        module = os.path.relpath(path, os.path.join(crate, "src")).split(os.sep)[0].removesuffix(".rt")
        if module in ("lib", "main"):
            continue
        text, owner, place = read(path), None, 0
        for line in text.splitlines(keepends=True):
            found = TYPE.match(line) or IMPL.match(line)
            owner = found.group(1) if found else owner
            item = ITEM.match(line)
            if item and (module, item.group(1)) not in exports:
                yield path, text, place, item.group(1)
            if MEMBER.match(line) and owner not in types:
                yield path, text, place, line.split("(")[0].split(":")[0].split()[-1]
            place += len(line)
        for use in USE.finditer(text):
            for names, name in names_of(use.group(2)) if use.group(1) == "pub " else ():
                if (module, names[-1]) not in exports:
                    yield path, text, use.start(), name


def is_in(name, text):
    """Whether a name stands in a text, or an operator's signs."""
    if "◌" in name:
        return all(part in text for part in name.split("◌"))
    return name == "self" or re.search(rf"(?<![\w-]){re.escape(name)}(?!\w)", text)


def unused(crate):
    """What the files of a crate import and don't use: a file, its text, the place and the name there."""
    for path in files(crate, "src/**/*.rt", "specs/**/*.antt", "proofs/**/*.antt"):
        uses = USE if path.endswith(".rt") else LOGIC_USE
        text = read(path)
        rest = COMMENT.sub("", uses.sub("", text))
        for use in uses.finditer(text):
            if (use.group(1) or "").startswith("pub") or use.group(2).startswith("std::io"):
                continue
            for _, name in names_of(use.group(2)):
                if not is_in(name, rest):
                    yield path, text, use.start(), name


def from_crates():
    """What all files import from a crate itself and not from one of its files, as the crate and the name there."""
    for path in files(os.path.join(ROOT, "crates/*"), "src/**/*.rt", "specs/**/*.antt", "proofs/**/*.antt"):
        for use in (USE if path.endswith(".rt") else LOGIC_USE).finditer(read(path)):
            for parts, _ in names_of(use.group(2)):
                if len(parts) == 4 and parts[0] == "Rattle" and parts[2] == "specs":
                    yield parts[1], parts[3]


def idle(crate, imported):
    """What its specs/Lib.antt passes on for nobody: the file, its text, the place and the name there."""
    for path in files(crate, "specs/Lib.antt"):
        text = read(path)
        for use in PASSED_ON.finditer(text):
            for _, name in names_of(use.group(1)):
                if (os.path.basename(crate), name) not in imported:
                    yield path, text, use.start(), name


def wrong():
    """What is otherwise than it is to be, told line by line."""
    imported = set(from_crates())
    for crate in sorted(glob.glob(os.path.join(ROOT, "crates/*"))):
        for path, text, place, name in too_public(crate):
            yield shown(path, text, place, f"{name} is public, and lib.rt doesn't export it")
        for path, text, place, name in unused(crate):
            yield shown(path, text, place, f"{name} is imported and not used")
        for path, text, place, name in idle(crate, imported):
            yield shown(path, text, place, f"{name} is passed on, and no file imports it from here")


if __name__ == "__main__":
    told = list(wrong())
    print("".join(f"{line}\n" for line in told), end="")
    sys.exit(1 if told else 0)
