"""Reads functions out of the text form of clang 14, whose pointers have types.

Sizes are in words of the 6600: a number, a byte or a pointer takes one.
"""
import dataclasses
import re

TOKEN = re.compile(r'[%@]?"(?:[^"\\]|\\.)*"|[%@][\w.$-]+|0x[KLMHR]?[0-9A-F]+|-?\d+\.\d+(?:e[+-]?\d+)?|-?\d+|\.\.\.|[A-Za-z_][\w.]*|[^\s]')
ATTRIBUTES = set(
    "noundef nocapture nonnull readonly readnone writeonly zeroext signext inreg noalias returned immarg nofree nest align dereferenceable "
    "dereferenceable_or_null byval sret byref elementtype inrange inalloca allocalign".split()
)
FLAGS = set("nuw nsw exact fast nnan ninf nsz arcp contract afn reassoc inbounds volatile tail musttail notail fastcc coldcc ccc".split())
BINARY = set("add sub mul udiv sdiv urem srem shl lshr ashr and or xor fadd fsub fmul fdiv frem".split())
CASTS = set("trunc zext sext fptrunc fpext fptoui fptosi uitofp sitofp ptrtoint inttoptr bitcast addrspacecast".split())
WITH_GROUPS = set("dereferenceable dereferenceable_or_null byval sret byref elementtype inalloca align".split())
IGNORED = ("@llvm.lifetime", "@llvm.dbg", "@llvm.assume", "@llvm.experimental.noalias")


class Unsupported(Exception):
    """The text has something that isn't translated, as vectors."""


@dataclasses.dataclass(frozen=True)
class Value:
    """An operand: a `local` of this name, a `global` and how many words behind it, or a number, `int` or `float`."""

    kind: str
    name: str = ""
    number: int = 0
    bits: int = 0


@dataclasses.dataclass
class Instruction:
    """One of a block, with the name of its result if it has one."""

    operation: str
    result: str = ""
    operands: list = dataclasses.field(default_factory=list)
    detail: object = None  # a predicate, the types of a cast, the callee, the labels of a branch or the steps of an address
    bits: int = 0
    is_float: bool = False


@dataclasses.dataclass
class Block:
    name: str
    instructions: list


@dataclasses.dataclass
class Function:
    name: str
    parameters: list
    blocks: list


class Tokens:
    """The tokens of a line, read from the left."""

    def __init__(self, line):
        self.list = TOKEN.findall(line)
        self.at = 0

    def peek(self):
        return self.list[self.at] if self.at < len(self.list) else ""

    def next(self):
        token = self.peek()
        self.at += 1
        return token

    def accept(self, token):
        if self.peek() == token:
            self.at += 1
            return True
        return False

    def expect(self, token):
        if not self.accept(token):
            raise Unsupported(f"{self.peek()} in place of {token}")

    def skip_words(self, words):
        """Skips these words, each with its type in parentheses or its number."""
        while self.peek() in words:
            word = self.next()
            if self.peek() == "(" and word in WITH_GROUPS:
                self.skip_group()
            elif word == "align":
                self.next()

    def skip_group(self):
        """Skips a group in brackets with all that it holds."""
        depth = 0
        while True:
            token = self.next()
            depth += (token in ("(", "[", "{", "<")) - (token in (")", "]", "}", ">"))
            if depth == 0 or not token:
                return


class Reader:
    """Reads types and operands; it knows the named types of a file."""

    def __init__(self):
        self.named = {}

    def type(self, tokens):
        token = tokens.next()
        if token == "[":
            found = self.repeated(tokens, "array", "]")
        elif token == "<" and tokens.peek() != "{":
            found = self.repeated(tokens, "vector", ">")
        elif token == "<":
            found = self.type(tokens)
            tokens.expect(">")
        elif token == "{":
            found = ("struct", self.types(tokens, "}"))
        elif token.startswith("%"):
            found = ("named", token)
        elif re.fullmatch(r"i\d+", token):
            found = ("int", int(token[1:]))
        elif token in ("float", "double", "half", "x86_fp80", "fp128"):
            found = ("float",)
        elif token in ("void", "opaque", "label", "metadata", "token"):
            found = (token,)
        else:
            raise Unsupported(f"type {token}")
        return self.suffixed(tokens, found)

    def suffixed(self, tokens, found):
        while True:
            if tokens.accept("*"):
                found = ("pointer", found)
            elif tokens.accept("("):
                found = ("function", found, self.types(tokens, ")"))
            else:
                return found

    def repeated(self, tokens, kind, end):
        count = int(tokens.next())
        tokens.expect("x")
        element = self.type(tokens)
        tokens.expect(end)
        return (kind, count, element)

    def types(self, tokens, end):
        found = []
        while not tokens.accept(end):
            if not tokens.accept("..."):
                found.append(self.type(tokens))
                tokens.skip_words(ATTRIBUTES)
            tokens.accept(",")
        return found

    def words(self, kind):
        """How many words a value of a type takes."""
        if kind[0] == "named":
            return self.words(self.named.get(kind[1], ("opaque",)))
        if kind[0] in ("array", "vector"):
            return kind[1] * self.words(kind[2])
        if kind[0] == "struct":
            return sum(map(self.words, kind[1]))
        return 1

    def typed(self, tokens):
        """An operand behind its type."""
        kind = self.type(tokens)
        if kind[0] == "vector" or kind == ("int", 128):
            raise Unsupported("values of more than one word")
        tokens.skip_words(ATTRIBUTES)
        return self.value(tokens, kind)

    def value(self, tokens, kind):
        bits = kind[1] if kind[0] == "int" else 0
        token = tokens.next()
        if token.startswith("%"):
            return Value("local", token, bits=bits)
        if token.startswith("@"):
            return Value("global", token)
        if re.fullmatch(r"-?\d+", token):
            return Value("int", number=int(token), bits=bits)
        if token in ("null", "undef", "poison", "zeroinitializer", "false", "none"):
            return Value("int", bits=bits) if kind[0] != "float" else Value("float", "0")
        if token == "true":
            return Value("int", number=1, bits=bits)
        if token == "getelementptr":
            return self.constant_address(tokens)
        if token in CASTS:
            tokens.expect("(")
            inner = self.typed(tokens)
            tokens.expect("to")
            self.type(tokens)
            tokens.expect(")")
            return inner
        if kind[0] == "float":
            return Value("float", token)
        if tokens.peek() == "(":
            tokens.skip_group()
            return Value("float", "expression")  # a word that the loader fills
        raise Unsupported(f"operand {token}")

    def constant_address(self, tokens):
        tokens.skip_words(FLAGS)
        tokens.expect("(")
        base, offset, steps = self.address(tokens)
        tokens.expect(")")
        if steps or base.kind != "global":
            raise Unsupported("a constant address of no global")
        return Value("global", base.name, base.number + offset)

    def address(self, tokens):
        """The operands of a getelementptr: its base, how many words behind it, and each index with its step."""
        kind = self.type(tokens)
        tokens.expect(",")
        base = self.typed(tokens)
        offset, steps, is_first = 0, [], True
        while tokens.accept(","):
            index = self.typed(tokens)
            while kind[0] == "named" and not is_first:
                kind = self.named.get(kind[1], ("struct", []))
            if is_first:
                size = self.words(kind)
            elif kind[0] == "struct":
                offset += sum(map(self.words, kind[1][: index.number]))
                kind = kind[1][index.number]
                continue
            elif kind[0] == "array":
                kind = kind[2]
                size = self.words(kind)
            else:
                raise Unsupported(f"an address in {kind[0]}")
            is_first = False
            if index.kind == "int":
                offset += size * index.number
            else:
                steps.append((index, size))
        return base, offset, steps

    def instruction(self, line):
        tokens = Tokens(line)
        result = ""
        if len(tokens.list) > 1 and tokens.list[1] == "=":
            result = tokens.next()
            tokens.next()
        tokens.skip_words(FLAGS)
        operation = tokens.next()
        tokens.skip_words(FLAGS)
        found = Instruction(operation, result)
        if operation not in self.READERS:
            raise Unsupported(operation)
        self.READERS[operation](self, tokens, found)
        return found

    # What stands behind the name of an operation

    def single(self, tokens, found):
        found.operands = [self.typed(tokens)]

    def several(self, tokens, found):
        found.operands = self.listed(tokens)

    def comparison(self, tokens, found):
        found.detail = tokens.next()
        self.binary(tokens, found)

    def load(self, tokens, found):
        found.is_float = self.type(tokens) == ("float",)
        tokens.expect(",")
        found.operands = [self.typed(tokens)]

    def stepped(self, tokens, found):
        base, offset, steps = self.address(tokens)
        found.operands, found.detail = [base] + [index for index, _ in steps], (offset, [step for _, step in steps])

    def room(self, tokens, found):
        found.detail = self.words(self.type(tokens))

    def listed(self, tokens):
        """Operands with their types, with a comma between."""
        found = [self.typed(tokens)]
        while tokens.accept(",") and tokens.peek() != "align":
            found.append(self.typed(tokens))
        return found

    def binary(self, tokens, found):
        kind = self.type(tokens)
        if kind[0] == "vector" or kind == ("int", 128):
            raise Unsupported("values of more than one word")
        one = self.value(tokens, kind)
        tokens.expect(",")
        found.operands = [one, self.value(tokens, kind)]
        found.bits = kind[1] if kind[0] == "int" else 0
        found.is_float = kind == ("float",) and found.operation != "fcmp"

    def cast(self, tokens, found):
        start = tokens.at
        source = self.type(tokens)
        tokens.at = start
        found.operands = [self.typed(tokens)]
        tokens.expect("to")
        found.detail = (source, self.type(tokens))
        found.is_float = found.detail[1] == ("float",)

    def phi(self, tokens, found):
        kind = self.type(tokens)
        if kind[0] == "vector":
            raise Unsupported("vectors")
        found.is_float = kind == ("float",)
        found.detail = []
        while tokens.accept("[") or (tokens.accept(",") and tokens.accept("[")):
            found.operands.append(self.value(tokens, kind))
            tokens.expect(",")
            found.detail.append(tokens.next())
            tokens.expect("]")

    def call(self, tokens, found):
        tokens.skip_words(FLAGS | ATTRIBUTES)
        kind = self.type(tokens)
        if kind[0] == "vector" or tokens.peek() == "asm":
            raise Unsupported("a call of another sort")
        found.is_float = kind == ("float",)
        callee = self.value(tokens, ("pointer", kind))
        tokens.expect("(")
        while not tokens.accept(")"):
            if tokens.peek() == "metadata":
                raise Unsupported("metadata")
            found.operands.append(self.typed(tokens))
            tokens.accept(",")
        found.detail = callee.name
        if callee.kind == "local":
            found.operands.append(callee)

    def branch(self, tokens, found):
        """The condition, or what is returned, and the labels."""
        if tokens.peek() in ("", "void"):
            return
        if tokens.peek() != "label":
            found.operands = [self.typed(tokens)]
        found.detail = []
        while tokens.peek():
            if tokens.next() == "label":
                found.detail.append(tokens.next())

    READERS = {
        **dict.fromkeys(BINARY, binary), **dict.fromkeys(CASTS, cast), **dict.fromkeys(("fneg", "freeze", "extractvalue"), single),
        **dict.fromkeys(("icmp", "fcmp"), comparison), **dict.fromkeys(("select", "store"), several), "load": load, "alloca": room,
        "getelementptr": stepped, "phi": phi, "call": call, **dict.fromkeys(("br", "switch", "ret", "unreachable"), branch),
    }  # fmt: skip


def parameters_of(reader, line):
    tokens = Tokens(line[line.index("(", line.index("@")) :])
    tokens.expect("(")
    names = []
    while not tokens.accept(")"):
        if not tokens.accept("..."):
            names.append(reader.typed(tokens).name)
        tokens.accept(",")
    return names


def function_of(reader, head, lines):
    """The function of a head and the lines up to its end."""
    name = re.search(r'@("[^"]*"|[\w.$-]+)', head)[1].strip('"')
    parameters = parameters_of(reader, head)
    blocks = [Block(f"%{len(parameters)}", [])]
    for line in lines:
        label = re.match(r'^([\w.$-]+|"[^"]*"):', line)
        if label:
            blocks.append(Block("%" + label[1], []))
        elif line.strip() and not any(word in line for word in IGNORED):
            blocks[-1].instructions.append(reader.instruction(re.sub(r",? ![\w.]+ !?\S.*$|,? #\d+.*$", "", line)))
    return Function(name, parameters, blocks)


def joined(lines):
    """Joins the lines of a switch into one."""
    held = ""
    for line in lines:
        held = held + line if held else line
        if held.lstrip().startswith("switch ") and "]" not in line:
            continue
        yield held
        held = ""


def functions(text):
    """The functions of a text, and how many of it aren't translated."""
    reader, found, left_out = Reader(), [], 0
    for name, kind in re.findall(r"^(%\S+) = type (.*)$", text, re.MULTILINE):
        reader.named[name] = reader.type(Tokens(kind))
    for body in re.findall(r"^define .*?^}$", text, re.MULTILINE | re.DOTALL):
        head, *lines = body.splitlines()
        try:
            found.append(function_of(reader, head, joined(lines[:-1])))
        except Unsupported:
            left_out += 1
    return found, left_out
