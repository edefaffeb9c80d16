#!/usr/bin/env python3
"""Makes what documents say of definitions, laws and calls out of the comments above these.

    docs/definitions.py            writes the parts that it makes
    docs/definitions.py --check    tells which of them aren't current; the status is 1 if one isn't

A part is what stands between `<!-- made by docs/definitions.py -->` and the next `<!-- end -->` of a document:

- DEFINITIONS.md: how many definitions each promise needs; then, of each file of a crate's specs/ that says "To be believed" in
  its first line, what its first lines say after an empty comment line, and all definitions, in the words of the comments above
  them; of each other file, the definitions that these use; and the types and the constants of the code that they name, the laws
  and the examples of the crate;
- ARCHITECTURE.md: the crates, by the heads (`//!`) of their lib.rt: what each is for, and where to begin;
- FILES.md: the files of each crate's src/, by the first paragraphs of their heads, those of its specs/ and its lemma files, by their
  first lines, each with the names that other files may use. A file without a head or a first line is told;
- PROMISES.md: the laws, and the types and functions that the crates offer, with their calls that have a contract.

A definition without a comment is given by its own text if that is one short line, and else named alone.
"""
import os
import re
import sys

ROOT = os.path.dirname(os.path.dirname(os.path.abspath(__file__)))

START, END = "<!-- made by docs/definitions.py -->\n", "<!-- end -->\n"
BELIEVED = "To be believed: "
HEAD = re.compile(r"^(?:abbrev |unfoldable )?pub (?:(record|data) )?([A-Za-z][\w'-]*)(.*)$")
VARIABLE = re.compile(r"(?!(?:zero|true|false)$)[a-z][\w']*")
TAIL = re.compile(r"\((?:suc|.* ∷) ([a-z]\w*)\)+")
WORD = re.compile(r"(?<![\w.'-])[A-Za-z][\w']*(?:-\w+)*(?:\.[a-z]\w*)*")
LABEL = re.compile(r"(^ +(?:pub )?|[{;] *)[A-Za-z][\w'-]*(?= [:=] )", re.MULTILINE)  # of a field
IMPORTED = re.compile(r"^ *(?:ghost )?use Rattle\.(s66_\w+)\.specs(?:\.(\w+))?\.\{([^}]*)\}", re.MULTILINE)
DECLARED = re.compile(r"^use Rattle\.(s66_\w+)\.specs\.declared\.(\w+)\.(\w+)", re.MULTILINE)
CONSTANTS = re.compile(r"^use Rattle\.(s66_\w+)\.specs\.declared\.([\w.]+)\.TheConstants\.\{([^}]*)\}", re.MULTILINE)
RENAMED = re.compile(r"^use Rattle\.(s66_\w+)\.specs\.(\w+) as (\w+)$", re.MULTILINE)
# in a crate's specs/Lib.antt: from which file it passes on names of definitions, and from which module, and type, those of the code
PASSED_ON = re.compile(r"^(?:unfoldable )?pub use (\w+)\.\{([^}]*)\}", re.MULTILINE)
PASSED_CONSTANTS = re.compile(r"^pub use declared\.([\w.]+)\.TheConstants\.\{([^}]*)\}", re.MULTILINE)
PASSED_TYPES = re.compile(r"^pub use declared\.(\w+)\.(\w+)(?:\.TheVariants)?\.\{([^}]*)\}", re.MULTILINE)
EMPTY = re.compile(r"((?:^///.*\n)+)(?:^#\[.*\n)*^pub fn (\w+)\(\)\n((?:^ .*\n)+)^\{\}$", re.MULTILINE)
TYPE = r"((?:^///.*\n)+)(?:^#\[.*\n)*^pub(?:\(\w+\))? (struct|enum) %s\b(?:.*\{\n((?:(?!\}).*\n)*))?"
CONSTANT = r"((?:^///.*\n)*)(?:^#\[.*\n)*^(?:pub(?:\(\w+\))? )?const %s: .* =(?: (.*);$)?"
CASE = re.compile(r"((?:^    ///.*\n)*)(?:^    #\[.*\n)*^    (\w+)", re.MULTILINE)
NAMED = re.compile(r"^(?: {4})?(?:pub(?:\(crate\))? )(?:const )?(?:fn|struct|enum|trait|const) (\w+)|^(?:struct|enum|trait) (\w+)", re.MULTILINE)
LEMMA = re.compile(r"^ *(?:abbrev |unfoldable )*pub (?:abbrev |record )?([^\s:(){}.]+) :", re.MULTILINE)
OFFERED = re.compile(r"pub (?:const )?(fn|struct|enum|trait) (\w+)")
IMPL = re.compile(r"impl(?:<.*?>)? (?:.* for )?([A-Za-z]\w*)")
EXPORTED = re.compile(r"^pub use (?:\w+::)+(?:\{([^}]*)\}|(\w+));", re.MULTILINE)
EXAMPLE = re.compile(r"_examples?$")
LONGEST_BODY = 110

# of what these find nothing is proved but that it is safe, as PROMISES.md says
ONLY_SAFE = {"s66_deep"}
ORDER, TOTAL, BOUND = "s66_model/LegalOrder/IsLegal", "s66_model/Timing/total_of", "s66_model/BestAndBound/IsBound"
RUN, CHECKED, FAULT = "s66_program/Program/IsRun", "s66_program/CheckText/IsCheckOutput", "s66_cert/Faults/IsFault"
DOCUMENT, CLAIMED, SOURCE = "s66_cert/Documents/Document", "s66_checker/Verdict/problem_of", "s66_source/Source/source_of"
# what only a run of another subcommand writes, or `check` with `--text`, and what of `order` follows from its law
OTHERS = [f"s66_program/{of}Text/Is{of}Output" for of in "Time Deps Chart Why Json Page Prove Check Lint Guard Sum Compare".split()]
OTHERS += ["s66_program/CompareText/IsPairsOutput", "s66_program/OrderText/IsOrdered", "s66_program/Remarks/AreRegions"]
OTHERS += ["s66_source/Halves/halves_of", FAULT, "s66_reasons/Reasons/reasons_text"]
# what a reader who wants to believe this has to read: these definitions, with all that they use
TO_BELIEVE = [
    ("that an order is legal", [ORDER]),
    ("what an order takes", [TOTAL]),
    ("that no legal order takes less", [BOUND]),
    ("which block and profile a document has", [DOCUMENT, CLAIMED]),
    ("a yes of `verify` (`yes_law`)", [BOUND, DOCUMENT, CLAIMED]),
    ("status 0 of `check` (`done_law`)", [BOUND, DOCUMENT, CLAIMED, "s66_cert/Documents/IsText"]),
    ("that an order keeps the meaning (`meaning_law`)", ["s66_model/Meaning/KeepsMeaning"]),
    ("status 0 of `compare` (`same_meaning_law`)", ["s66_source/Halves/halves_of", "s66_compare/Meant/IsReordered", "s66_compare/Meant/KeepsSource"]),
    ("what `time` says of a source", ["s66_program/TimeText/IsTimeOutput"]),
    ("`BEST` and `AT LEAST` in what `order` writes (`reported_law`)", ["s66_program/Reports/ReportsBlocks"]),
    ("that the program, called with `order`, writes this (`run_program`)", [RUN, "s66_program/Reports/ReportsBlocks"]),
    ("`YES` in what the program writes, called with `check` without `--text` (`run_program`, `done_law`)", [RUN, CHECKED, FAULT, BOUND]),
    ("`BEST` and `AT LEAST` of an answer (`answered_law`)", [BOUND, SOURCE, "s66_program/OrderText/all_given", "s66_source/Replaced/printed_in"]),
]


class Wrong(Exception):
    """A document from which nothing can be made."""


def read(path):
    with open(os.path.join(ROOT, path), encoding="utf-8") as opened:
        return opened.read()


def crates():
    """The crates, lowest first."""
    return [line.split(":")[0] for line in read("crates.txt").splitlines() if line.startswith("s66_")]


def files_in(crate, folder):
    """The files of a crate's specs/ or proofs/ itself, in the order in which the crate lists them, or by name."""
    top = os.path.join(ROOT, "crates", crate, folder)
    names = sorted(name[:-5] for name in os.listdir(top) if name.endswith(".antt")) if os.path.isdir(top) else []
    if folder == "proofs" or "Lib" not in names:
        return [name for name in names if name != "Lib"]
    order = re.findall(r"^pub mod (\w+)$", read(f"crates/{crate}/specs/Lib.antt"), re.MULTILINE)
    return order + [name for name in names if name not in order and name != "Lib"]


def patterns(text):
    """The parts of a clause's left side: names, and what stands in parentheses."""
    found, depth, start = [], 0, 0
    for place, letter in enumerate(text + " "):
        depth += (letter in "([{") - (letter in ")]}")
        if letter == " " and depth == 0:
            if text[start:place]:
                found.append(text[start:place])
            start = place + 1
    return found


def arguments(text):
    """Of each argument of a type, without those that are implicit, a short name: the last word in the name of its type."""
    found, depth, start = [], 0, 0
    for place, letter in enumerate(text):
        depth += (letter in "([{") - (letter in ")]}")
        if letter == "→" and depth == 0:
            found.append(text[start:place].strip())
            start = place + 1
    words = [re.search(r"\w+", of) for of in found if not of.startswith("{")]
    return ["n" if word is None or word[0] == "ℕ" else re.split(r"(?<!^)(?=[A-Z])", word[0])[-1].lower() for word in words]


class Definition:
    """A definition of a specs file: its name, its kind, the comment above it, and its lines."""

    def __init__(self, name, kind, comment, lines):
        self.name, self.kind, self.comment, self.lines = name, kind, comment, lines

    def clauses(self):
        return [line for line in self.lines[1:] if re.match(re.escape(self.name) + r"(?![\w'-])", line)]

    def head(self):
        """The name with its parameters: of each, a variable by which some clause calls it, or its type's name."""
        if self.kind:
            return " ".join([self.name] + re.findall(r"\(([^:()]+) :", self.lines[0]))
        heads = [patterns(clause.split(" =")[0])[1:] for clause in self.clauses()]
        if not heads:
            return self.name
        types = arguments(self.lines[0].split(" : ", 1)[-1])
        names = [self.name]
        for place, of in enumerate(zip(*heads)):
            plain = [pattern for pattern in of if VARIABLE.fullmatch(pattern)]
            tails = [found[1] for found in map(TAIL.fullmatch, of) if found]
            names.append((plain + tails + [types[place] if place < len(types) else "_"])[0])
        return " ".join(names)

    def parts(self):
        """The fields of a record or the cases of a type, with the comments above them; a fact's, else, with their own text."""
        comment, found, is_fact = [], [], self.kind == "record" and "(" in self.lines[0]
        for line in self.lines[1:]:
            text = line.strip()
            field = re.match(r"(?:pub )?([A-Za-z][\w'-]*) : (.*)", text)
            if text.startswith("-- "):
                comment.append(text[3:])
            elif self.kind and field and line.startswith("  ") and not line.startswith("   "):
                words = " ".join(comment)
                if not words and is_fact and len(field[2]) <= LONGEST_BODY and not field[2].endswith("→"):
                    words = f"`{field[2]}`"
                found.append((field[1], words))
                comment = []
            else:
                comment = []
        return found

    def body(self):
        """The definition's own text if it is one clause in one short line."""
        clauses = self.clauses()
        rest = [line for line in self.lines[1:] if line.strip() and not line.strip().startswith("--")]
        if self.kind or len(clauses) != 1 or len(rest) != 1 or " = " not in clauses[0]:
            return ""
        body = clauses[0].split(" = ", 1)[1]
        return body if len(body) <= LONGEST_BODY else ""

    def meaning(self):
        """What it is, in the words of its comments; nothing if it has neither these nor a short body."""
        if self.kind:
            parts = [f"`{name}`: {words}" if words else f"`{name}`" for name, words in self.parts()]
            fields = ("with " if self.kind == "record" else "one of ") + "; ".join(parts) if parts else ""
            return " — ".join(part for part in (self.comment, fields) if part)
        return self.comment or (f"`{self.body()}`" if self.body() else "")

    def words(self):
        code = "\n".join(line for line in self.lines if not line.strip().startswith("--"))
        return set(WORD.findall(LABEL.sub(r"\1", code)))


def first_comment(lines):
    """Takes out of lines the comment with which they begin, but for one of what follows directly, and returns its paragraphs: at least
    one, which may be empty. A row of a table stays a line by itself."""
    paragraphs = [""]
    while lines[0].startswith("--") and not (paragraphs[0] and lines[1].startswith("unfoldable pub use ")):
        words = lines.pop(0)[2:].strip()
        if not words:
            paragraphs.append("")
        elif paragraphs[-1]:
            paragraphs[-1] += ("\n" if words.startswith("|") else " ") + words
        else:
            paragraphs[-1] = words
    return paragraphs


def names_in(words):
    return [word.strip() for word in words.split(",")]


def imports_of(text, offers):
    """The definitions that a file imports, by its names for them: of each the crate, the file and its name there."""
    found = {}
    for crate, file, words in IMPORTED.findall(text):
        for name in names_in(words):
            found[name] = (crate, file, name) if file else offers[crate].definitions.get(name)
    return {name: place for name, place in found.items() if place}


def types_in(text, offers):
    """The types of the code, and their modules, that a file of definitions imports."""
    named = [(crate, name) for crate, file, words in IMPORTED.findall(text) for name in names_in(words) if not file]
    return set(DECLARED.findall(text)) | {offers[crate].types[name] for crate, name in named if name in offers[crate].types}


def constants_in(text, offers):
    """The constants of the code that a file of definitions imports, by their names: of each the crate, the module and the name."""
    found = {name: (crate, module, name) for crate, module, words in CONSTANTS.findall(text) for name in names_in(words)}
    for crate, file, words in IMPORTED.findall(text):
        found |= {name: offers[crate].constants[name] for name in names_in(words) if not file and name in offers[crate].constants}
    return found


class Offers:
    """What is imported from a crate itself, as its specs/Lib.antt names it: definitions, types and constants of the code, by their names."""

    def __init__(self, crate):
        path = f"crates/{crate}/specs/Lib.antt"
        text = read(path) if os.path.exists(os.path.join(ROOT, path)) else ""
        self.definitions = {name: (crate, file, name) for file, words in PASSED_ON.findall(text) for name in names_in(words)}
        self.constants = {name: (crate, module, name) for module, words in PASSED_CONSTANTS.findall(text) for name in names_in(words)}
        self.types = {name: (crate, *of) for *of, words in PASSED_TYPES.findall(text) for name in names_in(words)}


class Specs:
    """A file of a crate's specs/: what its first lines say of it, and its definitions, under its notes."""

    def __init__(self, crate, name, offers):
        self.crate, self.name = crate, name
        self.path = f"crates/{crate}/specs/{name}.antt"
        text = read(self.path)
        lines = text.splitlines()
        self.first, *self.paragraphs = first_comment(lines)
        self.imports = imports_of(text, offers)
        self.declared = types_in(text, offers)
        self.constants = constants_in(text, offers)
        self.renamed = {short: (of, file) for of, file, short in RENAMED.findall(text)}
        self.items = []  # definitions, and notes that stand by themselves
        comment, indent = [], ""
        for line in lines:
            if line == "mutual" or line[:1].strip():
                indent = "  " if line == "mutual" else ""
            line = line.removeprefix(indent)
            head = HEAD.match(line)
            if line.startswith("--"):
                comment.append(line[2:].strip())
            elif head and head[2] not in ("use", "mod"):
                self.items.append(Definition(head[2], head[1], " ".join(comment), [line]))
                comment = []
            elif not line.strip():
                if comment:
                    self.items.append(" ".join(comment))
                comment = []
            elif line == "mutual":
                continue
            elif self.definitions() and not line.startswith(("use ", "pub use ")):
                last = self.definitions()[-1]
                last.lines += [f"-- {text}" for text in comment] + [line]
                comment = []
        if comment:
            self.items.append(" ".join(comment))

    def is_believed(self):
        return self.first.startswith(BELIEVED)

    def subject(self):
        said = self.first.removeprefix(BELIEVED)
        return said[:1].upper() + said[1:]

    def definitions(self):
        return [item for item in self.items if isinstance(item, Definition)]

    def names(self):
        return [item.name for item in self.definitions()]

    def source_of(self, word):
        """The crate, the file and the name of the definition that a word of this file means, if it is one of specs/."""
        first, _, second = word.partition(".")
        if first in self.renamed and second:
            return (*self.renamed[first], second.split(".")[0])
        if first in {definition.name for definition in self.definitions()}:
            return (self.crate, self.name, first)
        return self.imports.get(first)


class House:
    """The specs files of all crates, in the order in which each crate lists them."""

    def __init__(self):
        self.specs, self.offers = {}, {crate: Offers(crate) for crate in crates()}
        for crate in crates():
            for name in files_in(crate, "specs"):
                self.specs[crate, name] = Specs(crate, name, self.offers)
        self.owners = {}  # of each case of a type, the type
        for (crate, name), specs in self.specs.items():
            for definition in specs.definitions():
                for part, _ in definition.parts() if definition.kind == "data" else []:
                    self.owners[crate, name, part] = definition.name

    def find(self, crate, name, word):
        specs = self.specs.get((crate, name))
        word = self.owners.get((crate, name, word), word)
        return next((d for d in specs.definitions() if d.name == word), None) if specs else None

    def used_by(self, roots, others=OTHERS):
        """These definitions and all that they use in turn but what other subcommands write, as crate, file and name."""
        todo, seen = [tuple(root.split("/")) for root in roots], {}
        others = {tuple(other.split("/")) for other in others} - set(todo)
        while todo:
            crate, name, word = todo.pop()
            definition = self.find(crate, name, word)
            if definition is None or (crate, name, definition.name) in seen or (crate, name, word) in others:
                continue
            seen[crate, name, definition.name] = definition
            sources = map(self.specs[crate, name].source_of, sorted(definition.words()))
            todo += [source for source in sources if source]
        return seen

    def believed(self):
        """All definitions of files to be believed, and those of other files that they use in turn."""
        roots = ["/".join((*place, name)) for place, specs in self.specs.items() if specs.is_believed() for name in specs.names()]
        return self.used_by(roots, [])


def listed(names):
    return ", ".join(f"`{name}`" for name in names)


def needs(house):
    """How many definitions each promise needs, and from where."""
    yield "| To believe | Read, with all that it uses in turn | Definitions |\n|---|---|---|\n"
    for words, roots in TO_BELIEVE:
        for root in roots:
            if house.find(*root.split("/")) is None:
                raise Wrong(f"docs/definitions.py: no definition {root}")
        seen, counts = house.used_by(roots), {}
        for _, file, _ in seen:
            counts[file] = counts.get(file, 0) + 1
        most_first = sorted(counts, key=lambda file: (-counts[file], file))
        files = ", ".join(f"{counts[file]} of `{file}.antt`" for file in most_first)
        yield f"| {words} | {listed(root.split('/')[-1] for root in roots)}: {files} | {len(seen)} |\n"
    seen = house.used_by([RUN], [])
    yield f"| all of `run_program`, whatever the subcommand | `IsRun`: of {len({place[:2] for place in seen})} files | {len(seen)} |\n"


def definitions_of(specs, worked, needed, used):
    """A file of definitions: its subject, its paragraphs, and each definition; those without words at the end. Of a file that isn't to
    be believed, the definitions that are used."""
    yield f"\n#### `{specs.crate}/specs/{specs.name}.antt`\n"
    for paragraph in (specs.subject(), *specs.paragraphs) if specs.is_believed() else ("Of this file only the definitions that others here use.",):
        yield f"\n{paragraph}\n"
    in_list, alone = False, []
    for item in specs.items if specs.is_believed() else used:
        if isinstance(item, str):
            yield f"\n*{item}*\n"
            in_list = False
            continue
        place = specs.crate, specs.name, item.name
        head = f"**`{item.head()}`**" if place in needed else f"`{item.head()}`"
        meaning = item.meaning()
        if not meaning:
            alone.append(head)
            continue
        examples = worked.get(place, [])
        meaning += f" (worked in {listed(examples[:3])}{', ..' if examples[3:] else ''})" if examples else ""
        yield ("" if in_list else "\n") + f"- {head}: {meaning}\n"
        in_list = True
    if alone:
        yield f"\nBy cases, to be read there: {', '.join(alone)}.\n"


def types_of(crate, house):
    """The types of a crate's code of which definitions speak, each with what its comment says first."""
    believed = [specs for specs in house.specs.values() if specs.is_believed()]
    for _, module, name in sorted({type for specs in believed for type in specs.declared if type[0] == crate}):
        path = f"crates/{crate}/src/{module}.rt"
        found = re.search(TYPE % name, read(path), re.MULTILINE) if os.path.isfile(os.path.join(ROOT, path)) else None
        if found:
            cases = CASE.findall(found[3] or "") if found[2] == "enum" else []
            said = [f"`{case}`: {first_paragraph(words)}" for words, case in cases if words]
            yield name, first_paragraph(found[1]) + (f" Of its cases: {' '.join(said)}" if said else "")


def constants_of(crate, house, read_by):
    """The constants of a crate's code that these definitions read, each with its value, if that is one short line, and what is said of it."""
    used = {house.specs[of, file].constants.get(word.split(".")[0]) for (of, file, _), read_in in read_by.items() for word in read_in.words()}
    for _, module, name in sorted(constant for constant in used if constant and constant[0] == crate):
        path = f"src/{module.replace('.', '/')}.rt"
        found = re.search(CONSTANT % name, read(f"crates/{crate}/{path}"), re.MULTILINE)
        if found is None:
            raise Wrong(f"docs/definitions.py: no constant {name} in crates/{crate}/{path}")
        value = f"`{found[2]}`" if found[2] and len(found[2]) <= LONGEST_BODY else f"to be read in `{path}`"
        yield name, ": ".join(words for words in (value, first_paragraph(found[1])) if words)


def first_paragraph(comment):
    lines = [line.strip()[3:].strip() for line in comment.splitlines()]
    return " ".join(lines[: lines.index("")] if "" in lines else lines)


class Empty:
    """A law or an example, a function that does nothing: its comment, and the definitions that its clauses name."""

    def __init__(self, name, comment, used):
        self.name, self.comment, self.used = name, first_paragraph(comment), used
        self.is_example = bool(EXAMPLE.search(name))


def sources_of(crate):
    """The files of a crate's src/."""
    for folder, _, names in sorted(os.walk(os.path.join(ROOT, "crates", crate, "src"))):
        yield from (os.path.relpath(os.path.join(folder, name), ROOT) for name in sorted(names))


def empty_functions(crate, house):
    """The laws and the examples of a crate, file after file."""
    for path in sources_of(crate):
        text = read(path)
        imports = imports_of(text, house.offers)
        for comment, function, clauses in EMPTY.findall(text):
            yield Empty(function, comment, {imports[word] for word in WORD.findall(clauses) if word in imports})


def definitions(house):
    """What DEFINITIONS.md has after its head."""
    functions = [(function, crate) for crate in crates() for function in empty_functions(crate, house)]
    worked = {}
    for function, _ in functions:
        for used in function.used if function.is_example else ():
            worked.setdefault(used, []).append(function.name)
    yield "\n## How much a promise needs\n\n"
    yield from needs(house)
    needed = house.used_by(root for _, roots in TO_BELIEVE for root in roots)
    yield f"\nAll but the last together need {len(needed)} definitions, which stand out below.\n"
    believed = house.believed()
    used = {}  # of each file that isn't to be believed, what those that are use of it
    for (of, file, _), definition in believed.items():
        if not house.specs[of, file].is_believed():
            used.setdefault((of, file), []).append(definition)
    yield "\n## The definitions, file by file\n"
    for crate in crates():
        shown = [specs for (of, file), specs in house.specs.items() if of == crate and (specs.is_believed() or (of, file) in used)]
        empty = [function for function, of in functions if of == crate]
        if not shown and not empty:
            continue
        yield f"\n### `{crate}`\n"
        for specs in shown:
            of_it = [definition for definition in specs.definitions() if definition in used.get((specs.crate, specs.name), [])]
            yield from definitions_of(specs, worked, needed, of_it)
        types = list(types_of(crate, house))
        if types:
            yield "\n#### Types of the code of which these speak\n\n" + "".join(f"- `{name}`: {words}\n" for name, words in types)
        constants = list(constants_of(crate, house, believed))
        if constants:
            yield "\n#### Constants of the code that these read\n\n" + "".join(f"- `{name}`: {words}\n" for name, words in constants)
        for is_example, title in ((False, "Laws"), (True, "Examples, each clause of which is computed")):
            found = [function for function in empty if function.is_example == is_example]
            if found:
                yield f"\n#### {title}\n\n" + "".join(f"- `{function.name}`: {function.comment}\n" for function in found)


class Head:
    """What a file of code says of itself: the first paragraph of its `//!` lines."""

    def __init__(self, path):
        lines = read(path).splitlines()
        end = next((place for place, line in enumerate(lines) if not line.startswith("//! ")), len(lines))
        self.text = " ".join(line[4:].strip() for line in lines[:end])
        if not self.text:
            raise Wrong(f"{path}: no head: a line that begins with //! has to say what it is for")

    def sentences(self, is_beginning):
        """Those that say where to begin, or the others."""
        said = re.split(r"(?<=\.)\s+(?=[A-Z`])", self.text)
        return [sentence for sentence in said if sentence.startswith("Begin ") == is_beginning]


def root_of(crate):
    """The file whose head is the crate's."""
    top = f"crates/{crate}/src/"
    return top + ("lib.rt" if os.path.isfile(os.path.join(ROOT, top + "lib.rt")) else "main.rt")


def crates_of():
    """What ARCHITECTURE.md has of the crates: a row each, by their heads."""
    yield "\n| Crate | What it is for | Where to begin |\n|---|---|---|\n"
    for crate in crates():
        head = Head(root_of(crate))
        begins = " ".join(head.sentences(True)).removeprefix("Begin at ")
        if not begins:
            raise Wrong(f"{root_of(crate)}: its head doesn't say where to begin")
        yield f"| `{crate}` | {cell(head.sentences(False)[0])} | {cell(begins[:1].upper() + begins[1:])} |\n"


def source_rows(crate):
    """The files of a crate's src/, but for that of its head, each with the names of its types and of what other files may call."""
    for path in sources_of(crate):
        if path != root_of(crate):
            names = dict.fromkeys(public or own for public, own in NAMED.findall(read(path)))
            yield path.removeprefix(f"crates/{crate}/"), Head(path).text, names


def lemma_rows(crate):
    """The lemma files of a crate, each with the names of the lemmas that other files cite."""
    for name in files_in(crate, "proofs"):
        text = read(f"crates/{crate}/proofs/{name}.antt")
        said = first_comment(text.splitlines())[0]
        if not said:
            raise Wrong(f"crates/{crate}/proofs/{name}.antt: its first line doesn't say what it shows")
        yield f"proofs/{name}.antt", said, dict.fromkeys(LEMMA.findall(text))


def files_of(house):
    """What FILES.md has after its head: the files of each crate."""
    for crate in crates():
        specs = [house.specs[crate, name] for name in files_in(crate, "specs")]
        rows = [(f"`{path}`", words, names) for path, words, names in source_rows(crate)]
        rows += [("★ " * file.is_believed() + f"`specs/{file.name}.antt`", file.subject(), file.names()) for file in specs]
        rows += [(f"`{path}`", words, names) for path, words, names in lemma_rows(crate)]
        yield f"\n## `{crate}`\n\n{Head(root_of(crate)).text}\n"
        if rows:
            yield "\n| File | What is in it | Names |\n|---|---|---|\n"
            yield from (f"| {file} | {cell(words)} | {' '.join(f'`{name}`' for name in names)} |\n" for file, words, names in rows)


def first_sentence(comment):
    """The first sentence of a comment; a point in a number or a name ends none."""
    return re.split(r"(?<=[.:])\s+(?=[A-Z`])", first_paragraph(comment), maxsplit=1)[0].rstrip(":")


class Public:
    """A type or a function that a crate offers: what its comment says first, and its calls that have a contract."""

    def __init__(self, name):
        self.name, self.words, self.calls = name, "", []


def publics_of(crate, left_out):
    """What a crate offers that has a contract, in the order of its lib.rt, but for what is left out."""
    names = [name.strip() for many, one in EXPORTED.findall(read(f"crates/{crate}/src/lib.rt")) for name in (many or one).split(",")]
    found = {name: Public(name) for name in names if name and name not in left_out}
    for path in sources_of(crate):
        owner = public = None  # of which type this is, and of which call's contract
        comment = []
        for line in read(path).splitlines():
            text, offered = line.strip(), OFFERED.match(line.strip())
            if text.startswith("///"):
                comment.append(line)
                continue
            if line.startswith(("impl", "}")):
                name = IMPL.match(line)
                owner = found.get(name[1]) if name else None
            elif offered:
                kind, name = offered.groups()
                own = found.get(name) if not line.startswith(" ") else None
                if own:
                    own.words = first_sentence("\n".join(comment))
                public = (owner or own) if kind == "fn" else None
            elif text.startswith("ensures") and public:
                public.calls.append(name)
                public = None
            elif text == "{":
                public = None
            if not text.startswith("#["):
                comment = []
    return [public for public in found.values() if public.calls and public.words]


def laws_and_calls(house):
    """What PROMISES.md has of laws and of public calls."""
    yield "\n## What the definitions mean\n\n| Promise | Contract |\n|---|---|\n"
    empty = {crate: list(empty_functions(crate, house)) for crate in crates()}
    for crate in crates():
        for function in empty[crate]:
            if not function.is_example:
                yield f"| {cell(function.comment)} | `{function.name}` (`{crate}`) |\n"
    for crate in sorted(ONLY_SAFE - set(crates())):
        raise Wrong(f"docs/definitions.py: no crate {crate}")
    yield "\n## The public calls that have a contract\n\nThe words say what a type or a call is for; what is proved of it, its contract says. "
    yield f"Not named are those of {listed(sorted(ONLY_SAFE))}.\n\n| For | Contract |\n|---|---|\n"
    for crate in crates():
        if not crate.startswith(("s66_test", "s66_tools", "s66_main")) and crate not in ONLY_SAFE:
            for public in publics_of(crate, {function.name for function in empty[crate]}):
                calls = [public.name] if public.calls == [public.name] else [public.name, *public.calls]
                yield f"| {cell(public.words)} | {listed(calls)} (`{crate}`) |\n"


def cell(text):
    return text.replace("|", r"\|")


def made():
    """Of each document, its path, its text, and the text that it should have."""
    house = House()
    parts = {"DEFINITIONS": definitions(house), "ARCHITECTURE": crates_of(), "FILES": files_of(house), "PROMISES": laws_and_calls(house)}
    for name, part in parts.items():
        path = f"docs/{name}.md"
        text = read(path)
        before, start, rest = text.partition(START)
        _, end, after = rest.partition(END)
        if not start or not end:
            raise Wrong(f"{path}: lacks {START.strip()} or {END.strip()}")
        yield path, text, before + start + "".join(part) + "\n" + end + after


def stale():
    """A line for each document that isn't current."""
    try:
        for path, text, wanted in made():
            if text != wanted:
                yield f"{path}: not as docs/definitions.py makes it: run that"
    except Wrong as wrong:
        yield str(wrong)


def main(arguments):
    if arguments == ["--check"]:
        lines = list(stale())
        print("".join(f"{line}\n" for line in lines), end="")
        return 1 if lines else 0
    if arguments:
        sys.exit(__doc__.split("\n\n")[1].strip())
    try:
        documents = list(made())
    except Wrong as wrong:
        sys.exit(str(wrong))
    for path, _, wanted in documents:
        with open(os.path.join(ROOT, path), "w", encoding="utf-8") as file:
            file.write(wanted)
    return 0


if __name__ == "__main__":
    sys.exit(main(sys.argv[1:]))
