"""A second opinion on sources: which lines are left alone, and which form blocks.

Plain, slow, and written from docs/FORMATS.md; tools/certificate.py spells the instructions. A text is bytes, read as Latin 1.
"""
import re

from certificate import instruction_of

MOST_BYTES, MOST_LINES, MOST, UNKNOWN = 200, 20_000, 128, float("inf")
INSTRUCTION, PAD, COMMENT, OTHER = "instruction", "pad", "comment", "other"
FIELDS = re.compile(r"( ?[^ \t]+)?[ \t]*([^ \t]*)[ \t]*([^ \t]*)")
LETTERS = "(?:BX|LX|AX|NX|ZX|UX|PX|FX|DX|RX|IX|MX|CX|SA|SB|SX)"
REGISTER = re.compile("[ABX][0-7]")
IN_WORD = "[A-Z0-9=.]"
ALONE = re.compile(f"(?<!{IN_WORD})([ABX])[0-7](?!{IN_WORD})")
EXPRESSION = re.compile(f"(?<!{IN_WORD})(?![ABX](?!{IN_WORD})){IN_WORD}")
REMARK, COLUMN = 29, 10  # the places from which on an operand is a remark, and where operations are put
UPPER = bytes.maketrans(bytes(range(97, 123)), bytes(range(65, 91))).decode("latin-1")  # of ASCII alone

BRANCHES = set("RJ JP ZR NZ PL NG MI IR OR DF ID EQ NE GE GT LT LE XJ".split())
FALL_THROUGH = BRANCHES - {"RJ", "JP", "EQ", "XJ"} | {"RE", "WE"}
MACROS, SYNONYMS = {"MACRO", "MACROE"}, {"OPSYN", "CPSYN"}
DEFINITIONS = MACROS | {"OPDEF"}
ENDS = {"ENDD", "ENDIF", "END", "IDENT"}
COMMAS = {0: "IFCP IFCP6 IFCP7 IFPP IFPP6 IFPP7 SKIP ELSE ECHO", 1: "DUP IFPL IFMI IFC", 2: "IF IFEQ IFNE IFGT IFGE IFLT IFLE"}
COMMAS = {word: commas for commas, words in COMMAS.items() for word in words.split()}  # how many come before the count
DIRECTIVES = set("ADDFILE AF BEFORE CA CALL CALLALL CALLC CD CH CHANGE COMDECK COMPILE COPY CSET CW CWEOR CY DC DECK DECLARE DEFINE DELETE"
                 " DF DK DO DONT DT EDIT EI ELSE ENDIF ENDTEXT ET ID IDENT IF IFCALL IFDEF INSERT LIMIT LIST LT MOVE NA NIFCALL NL NOABBREV"
                 " NOLIST PD PM PULLMOD PURDECK PURGE RD READ RESTORE REWIND RW SELPURGE SELYANK SEQUENCE SK SKIP SP SY TEXT UNYANK WEOR"
                 " WIDTH YANK YANKDECK YD".split())
PLACE = r"(?:[0-9]+|[A-Z][A-Z0-9=]*\.[0-9]+)"
CORRECTS = re.compile(rf"\*[A-Z][ \t,]+{PLACE}(?:,{PLACE})?(?![^ \t])")
COUNTED, MARKED = re.compile("0*([1-9][0-9]*)[ACHLRZ]"), re.compile("=[ACHLRZ]([/*])")
WORDLESS = set("= EQU SET MAX MIN MICRO DECMIC OCTMIC LOC SPACE EJECT TITLE TTL LIST BASE QUAL CTEXT ENDX ENDD ENDIF".split())
WORDLESS |= set(COMMAS)
NO_ADDRESS = WORDLESS | DEFINITIONS | set("ENDM IDENT END RMT USE COMMON IRP STOPDUP OPSYN CPSYN NIL".split())


def takes(operation, operand):
    """Whether the operation is of an instruction that takes the operand; both are in upper case."""
    return instruction_of(" ".join(filter(None, (operation, operand)))) is not None


def terms_of(text):
    """The signs and the terms of a sum; none of what is no sum."""
    parts = re.split("([+-])", text)
    parts = parts[1:] if not parts[0] and parts[1:] else ["+", *parts]
    return list(zip(parts[::2], parts[1::2])) if all(parts[1::2]) else []


def names_of(operand):
    return [name for name in re.split("[-+*/,()]", operand) if name and name[0] != "="]


def form_of(operation, operand):
    """The form of an instruction or a pad, as the name of an OPDEF spells it; both are in upper case."""
    letters = ALONE.sub(r"\1", operand)
    rest = EXPRESSION.search(letters)
    front = letters if not rest else "" if letters[0] in "+-" else letters[: rest.start()]
    return operation[:2] + front + "Q" * bool(rest)


def is_directive(text):
    """Whether a text in upper case has the form of a directive."""
    front = text[:72]
    if not re.match(r"\*[A-Z]", front) or re.match(r"\*S66(?![^ \t])", front):
        return False
    is_named = re.match(r"\*([^ \t,]*)", front)[1] in DIRECTIVES
    return is_named or bool(CORRECTS.match(front)) or len(re.findall("[^ \t]+", front)) <= 2


def lines_counted(text):
    """How many lines a directive *IF or *ELSE counts, by its text in upper case."""
    found = re.match(r"\*(IF|ELSE)(?![^ \t,])[ \t,]*([^ \t]*)", text)
    count = "".join(found[2].split(",", 2)[2:]) if found and found[1] == "IF" else found[2] if found else ""
    return int(count) if re.fullmatch("[0-9]+", count) else 0


def taken_behind(text, begin, end):
    """How many bytes behind the end of an operand its characters take; nothing if they have no end. The text is in upper case."""
    at, is_term = begin, True
    while at < end:
        counted, marked = is_term and COUNTED.match(text, at), MARKED.match(text, at)
        if counted:
            at = counted.end() + int(counted[1])
        elif marked:
            close = text.find(marked[1], marked.end())
            if close < 0:
                return None
            at = close + 1
        else:
            at += 1
        is_term = bool(counted or marked) or text[at - 1] in "+-*/,="
    return at - end


class Line:
    """A line without the carriage returns at its end, and its fields, of which a comment has none."""

    def __init__(self, raw):
        self.is_long, self.text = len(raw) > MOST_BYTES, raw.rstrip("\r")
        self.is_comment, self.continues = self.text[:1] == "*" or not self.text[:29].strip(" \t"), self.text[:1] == ","
        self.is_statement = not (self.is_comment or self.continues)
        fields = FIELDS.match("" if self.is_comment else self.text)
        self.label, self.written, self.written_operand = fields.groups("")  # a label has the blank before it
        self.operation_at, self.operand_at = fields.start(2), fields.start(3)
        self.location, self.operation, self.operand = (field.translate(UPPER) for field in (self.label.lstrip(" "), *fields.groups("")[1:]))
        self.word = self.operation if self.is_statement and not self.is_long else ""
        text, end = self.text.translate(UPPER), self.operand_at + len(self.operand)
        self.mark = re.match(r"(\*S66[ \t]+(OFF|ON)(?![^ \t]))?", text)[2]
        self.directive = re.match("[^ \t]*", self.text)[0] if is_directive(text) else ""
        self.directed = lines_counted(text) if self.directive and not self.is_long else 0
        taken = taken_behind(text, self.operand_at, end)
        is_cut = taken is None or text[end + taken : end + taken + 1].strip(" \t") != ""
        behind = "" if is_cut else text[end : end + taken].rstrip(" \t\r")
        self.whole_text = " ".join(filter(None, (self.operation, self.operand))) + behind
        self.width = end + len(behind) - self.operation_at if self.operand else len(self.operation)  # as it is written
        self.kind = COMMENT if self.is_comment else OTHER
        if self.is_statement and re.fullmatch(LETTERS + "[0-7]", self.operation):
            self.kind = INSTRUCTION
        elif self.is_statement and self.operation == "NO":
            self.kind = PAD
        self.is_bad = self.kind == INSTRUCTION and (is_cut or not takes(self.operation, self.operand))
        self.is_off = self.is_refused = False

    def count(self):
        """How many lines it counts that follow it."""
        commas, operand = COMMAS.get(self.word), "" if self.operand_at >= REMARK else self.operand
        if commas is None:
            return self.directed
        if self.word == "IFC":  # after two strings, which the byte after the first comma begins and ends
            text = self.text[self.operand_at:].translate(UPPER) if operand else ""
            strings = re.match(r"[^, \t]*,([^ \t])(?:(?!\1).)*\1(?:(?!\1).)*\1([^ \t]*)", text, re.DOTALL)
            count = strings[2][1:] if strings and strings[2][:1] in ("", ",") else "?"
        else:
            count = operand.split(",")[0] if self.word == "ECHO" else "".join(operand.split(",", commas)[commas:])
        return int(count or "0") if re.fullmatch("[0-9]*", count) else UNKNOWN

    def is_code(self):
        """Whether it is code, be it between switches."""
        is_other = self.word in FALL_THROUGH or self.word == "EQ" and "," in self.operand
        return not self.is_long and (self.kind in (INSTRUCTION, PAD) or is_other)

    def is_mark(self):
        """Whether it is there for its name alone."""
        return not self.word or self.word == "BSS" and self.operand == "0"

    def is_wordless(self):
        is_other = self.kind == OTHER and not (self.is_long or self.continues)
        return is_other and (self.is_mark() or self.word in WORDLESS)

    def name(self):
        is_none = not self.is_statement or self.is_long or self.location in ("+", "-") or REGISTER.fullmatch(self.location)
        return "" if is_none else self.location

    def may_join(self):
        return self.location in ("", "-")

    def begins_word(self):
        return not self.may_join() and (self.is_code() or bool(self.word) and self.word not in NO_ADDRESS)

    def is_jump(self):
        return self.word in ("PS", "SUBR", "RJ", "JP") or self.word == "EQ" and "," not in self.operand

    def is_one_word(self):
        is_one = self.word in ("BSS", "BSSZ") and self.operand == "1"
        return self.is_jump() or is_one or self.word in ("CON", "DATA") and "," not in self.operand

    def is_in_run(self):
        return self.kind in (INSTRUCTION, PAD) and not (self.is_off or self.is_long or self.is_refused)

    def is_far(self):
        """Whether it is an accepted instruction with an operand that COMPASS doesn't see, or not if the operation is put into its column."""
        is_behind = self.operand_at >= REMARK and len(self.label) < COLUMN or self.operand_at - self.operation_at >= REMARK - COLUMN
        return self.kind == INSTRUCTION and self.is_in_run() and self.operand != "" and is_behind

    def redefined(self):
        """The name of the operation that it redefines, or nothing."""
        named = self.operand.split(",")[0] if self.word in MACROS else ""
        return self.location or named if self.word in MACROS | SYNONYMS else ""

    def size(self):
        """In parcels; a pad has none."""
        has_constant = not all(REGISTER.fullmatch(term) for _, term in terms_of(self.operand))
        return 0 if self.kind == PAD else 2 if self.word[:1] == "S" and has_constant else 1


def lines_of(source):
    """The lines of a source, one more than the limit at most, and which of them are switched off or refused."""
    raw, off, before = source.decode("latin-1").split("\n"), False, None
    lines = [Line(line) for line in (raw if raw[-1] else raw[:-1])][: MOST_LINES + 1]
    for line in lines:
        line.is_off = off = off or line.mark == "OFF"
        after = before and not before.is_off and not before.is_long and (before.kind in (INSTRUCTION, PAD) or before.is_refused)
        line.is_refused = not (off or line.is_long) and bool(after if line.continues else line.is_bad)
        off, before = off and line.mark != "ON", line
    return lines


def parts_of(lines, begins, ends, is_within=lambda place: True):
    """The beginning and the end, not included, of each part; they nest."""
    opened, found = [], []
    for place, line in enumerate(lines):
        if is_within(place) and begins(line):
            opened.append(place)
        elif is_within(place) and ends(line) and opened:
            found.append((opened.pop(), place + 1))
    return sorted(found + [(begin, len(lines)) for begin in opened])


class Source:
    """The lines of a source with their definitions, repetitions and counts."""

    def __init__(self, source):
        self.lines = lines = lines_of(source)
        self.definitions = parts_of(lines, lambda line: line.word in DEFINITIONS, lambda line: line.word == "ENDM")
        self.inside = [False] * len(lines)
        for begin, end in self.definitions:
            self.inside[begin:end] = [True] * (end - begin)
        outside = [not is_in for is_in in self.inside]
        repeats = parts_of(lines, lambda line: line.word in ("DUP", "ECHO") and not line.count(), lambda line: line.word == "ENDD", outside.__getitem__)
        self.echoes = [(begin, end) for begin, end in repeats if lines[begin].word == "ECHO"]
        self.redefined = {line.redefined() for line in lines}
        self.forms = {line.location for line in lines if line.word == "OPDEF"}
        self.covered = {at: self.covered_by(at, line.count()) for at, line in enumerate(lines) if outside[at] and line.count()}

    def covered_by(self, at, count):
        """The places of as many lines after one, comments and continuations not counted, or of all to one that ends them."""
        places = []
        for place in range(at + 1, len(self.lines)):
            if not count:
                break
            places.append(place)
            is_end = count == UNKNOWN and self.lines[place].word in ENDS
            count = 0 if is_end else count - self.lines[place].is_statement
        return places

    def is_redefined(self, at):
        """Whether the source redefines the operation of an instruction or a pad, or the form of one that isn't refused, outside of definitions."""
        line = self.lines[at]
        if line.kind not in (INSTRUCTION, PAD) or line.is_long or line.is_off or self.inside[at]:
            return False
        return line.operation in self.redefined or not line.is_bad and form_of(line.operation, line.operand) in self.forms

    def left_alone(self, cut):
        """Which lines are left alone."""
        lines = self.lines
        if not cut:
            return [line.is_off for line in lines]
        left = [bool(line.is_off or line.is_bad or line.is_far() or line.directive or self.is_redefined(at)) for at, line in enumerate(lines)]
        for at in [at for at, line in enumerate(lines) if line.continues]:
            begin = next((before for before in range(at - 1, -1, -1) if not lines[before].is_comment), 0)
            left[begin : at + 1] = [True] * (at + 1 - begin)
        for begin, end in self.definitions + self.echoes:
            left[begin + 1 : end] = [True] * (end - begin - 1)
        for places in self.covered.values():
            for place in places:
                left[place] = True
        return left
