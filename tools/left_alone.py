#!/usr/bin/env python3
"""Compares which lines the program leaves alone, what its `lint` lists and its `guard` prints, with a second opinion on random sources.

    tools/left_alone.py [--count N] [--seed N] -- PROGRAM

The second opinion is tools/source_rules.py and tools/lint_rules.py. For each of N sources, 1000 unless given, this compares with
and without --cut what `lint` prints, the blocks of `deps`, the lines of `order`, the statuses, refusals, and what is told of a
source after a success; and what `guard` prints, in which the lines of the source are left if those that it added are taken out,
and to which it adds nothing. It also puts the comments *S66 OFF and *S66 ON around what --cut leaves alone: then `deps` without
--cut has to find the same blocks, and `lint` nothing that `lint --cut` didn't find before. Each mismatch is printed with a small
source that shows it, which is left in /tmp, and at the end how often each finding was wanted.
The status is 1 if something is wrong, in the tables EXAMPLES and LISTED or in the program.
"""
import argparse
import collections
import re
import subprocess
import sys
from random import choice, choices, random, seed

from compare_certificates import INSTRUCTIONS, WRONG
from lint_rules import guard_of, lint_of
from source_rules import COMMAS, COMMENT, INSTRUCTION, MOST, MOST_LINES, OTHER, PAD, Line, Source, form_of

BRANCHES = "RJ JP ZR NZ PL NG MI IR OR DF ID EQ NE GE GT LT LE XJ".split()
REFUSED = "refused"
FINDINGS = (r"(?m)^(?:LINE \d+ )?(TOO LONG|TOO MANY LINES|BAD OPERAND|FAR OPERAND|REDEFINED|NOT A COMMENT|NOT AN INSTRUCTION|IN COLUMN|DIRECTIVE|HAS A BODY|PAST COLUMN 72"
            "|LOADS CODE|STORES INTO CODE|TAKES CODE|PASSES CODE|SKIPS WORDS|JOINS A WORD|COUNTS WORDS|FALLS INTO DATA|ROW OF NO|COUNTS LINES)")
ADDED = re.compile(rb"(?m)^\*S66 (?:OFF|ON) GUARD.*\n")
SWITCHED = [["switched", "by", "line"], ["switched", "by", "stretch"]]
GUARDED = [["guarded", "again"]]
COMMANDS = [["lint"], ["lint", "--cut"], ["guard"], ["deps"], ["deps", "--cut"], ["order", "--nodes", "0"], ["order", "--nodes", "0", "--cut"]]

# Sources, with | in the place of newlines, and for each line c if it is left alone with --cut, o if in any case.
EXAMPLES = [
    ("  SKIP".ljust(28) + "1|  BX1 X2|" + "  SKIP".ljust(29) + "1|  BX1 X2", "-c--"), ("*S66 OFF|  MACROE|*S66 ON|  BX1 X2", "oooc"),
    ("  BX1 X2|* C|,X3|  BX8 X1|, X|  IX1 X2*X3|*CALL|* L", "ccccccc-"), ("  SKIP 4|  MACRO|  SKIP 9|  ENDM|  BX1 X2|  BX1 X2", "-cccc-"),
    ("A MACRO P|  OPDEF|* C|  ENDM|  BX1 X2|  ENDM|  ENDM", "-ccccc-"), ("  BX1 X2|*S66 ONE| *S66 OFF|*S66OFF|* S66 OFF|*", "---c--"),
    ("  IFC EQ,/A/B/,1|  BX1 X2|  IFC EQ,/A/B/|  BX1 X2", "-c--"), ("  BX1 X2|*S66 OFF|  BX8 X1|*s66\t on  R|*S66 ON", "-ooo-"),
    ("  IFEQ A,B|  IFEQ A,B,0|  SKIP|  ELSE|  BX1 X2", "-----"), ("  IFC EQ,,A,B,,1|  BX1 X2|  IFC EQ,/A/|  BX1 X2", "-c-c"),
    ("  DUP 3,2|  BX1 X2|* C|  BX2 X3|* C|  BX3 X4", "-ccc--"), ("  SKIP 3|  SKIP 1|  BX1 X2|  BX1 X2|  BX1 X2", "-ccc-"),
    ("  SKIP 1|  SKIP 2|  BX1 X2|  BX1 X2|  BX1 X2", "-ccc-"), ("  ECHO N,A=(B)|  BX1 X2|* C|  endd|  BX3 X4", "-ccc-"),
    ("  SKIP 2|  SKIP N|  BX1 X2|  IDENT|  BX1 X2", "-ccc-"), ("  ENDM|  BX1 X2|*  MACRO|  BX1 X2|  MACROE", "-----"),
    ("A MACRO P|,MACRO|  BX1 X2|  ENDM|  BX1 X2", "cccc-"), ("  IFPL A,N|  SKIP 2|  END|  BX1 X2|  BX1 X2", "-ccc-"),
    ("  DUP 2,4|  IFEQ A,B,N|  BX1 X2|  ENDIF|  BX1 X2|  BX1 X2", "-cccc-"), ("*IF,A|*endif|*CALLS|*IFX A|*THE IF|*READ X", "cccccc"),
    ("  ECHO ,P=(A,B)|  DUP 2|  BX1 X2|  ENDD|  BX1 X2|  ENDD|  BX1 X2", "-ccccc-"), ("  DUP 2|  BX1 X2|  ECHO|  ENDD|  BX1 X2", "---c-"),
    ("  IFC EQ,* *A*,1|  BX1 X2|  IFC EQ,*A B* *,0|  BX1 X2", "-c--"), ("  IFC EQ,*A B*C,1|  BX1 X2|  END|  BX1 X2", "-cc-"),
    ("A MACRO P|  ECHO|  ENDM|  BX1 X2|  ENDD", "-cc--"), ("  ECHO|  MACRO|  ENDD|  ENDM|  ENDD|  BX1 X2", "-cccc-"),
    ("*I 83|*d A.41,B=2.43 OLD CODE|*CA COMCX READ A WORD|*EI|*WIDGET|*PLUGIN X|*NEXT  WORD ", "ccccccc"), ("*I ,83 IS OLD|*I,8 IS OLD", "cc"),
    ("*I AM THE NEXT|*THE NEXT WORD|* I 83|*/ NOTE|** A|*-A|*1 2|*S66 HALLO", "--------"), ("*I 8. IS OLD|*D 1,2,3 IS|*I 8.3 IS", "---"),
    ("*A WORD" + " " * 63 + "AB C|*A WORD" + " " * 65 + "A B C", "-c"),
    ("*IF DEF,A,1|  BX1 X2|* C|  BX1 X2|*ELSE 2|  BX1 X2|* C|  BX1 X2|  BX1 X2", "cc--cccc-"), ("*IF DEF,,1|  BX1 X2|*ELSE,1 X|  BX1 X2", "cccc"),
    ("*IF DEF,A|  BX1 X2|*IF DEF,A,N|  BX1 X2|*ELSE|  BX1 X2|*ELSE 0|  BX1 X2|*if,def,A,01|  BX1 X2|  BX1 X2", "c-c-c-c-cc-"),
    ("A MACRO P|*ELSE 3|  ENDM|  BX1 X2", "-cc-"), ("*S66 OFF|*ELSE 1|*S66 ON|  BX1 X2|  BX1 X2", "oooc-"), ("  SKIP 1|*ELSE 2|  BX1 X2|  BX1 X2|  BX1 X2", "-ccc-"),
    ("  SX3 1R +X1|  SX3 X1-1R   C|  SA1 =10HREAD ERROR|  sa1 =c/A B/+X1|  SA1 =C/A B/ +X1|  SA1 =C/A B|  SA1 =10H   X1+B1 IS", "c--c-cc"),
    ("  SX5 3R A  +|  SA1 =H*A  B*|  NO 1R +X1|  SX1 N1R +X1|  SX1 0R +X1|  SX1 1RA1R +X1|  SX1 =1R +X1|  EQ =C/A B", "-----cc-"),
    ("  BX1 X2|  BX2 X3|*||   |,|* C|, X|*|  BX1 X2", "-ccccccc--"), ("  BX1 X2|*S66 OFF|,X|*S66 ON|  BX1 X2|*|*S66 OFF|*S66 ON|, X|  BX1 X2", "coooccooc-"),
    (", X|* C|, X|* C", "ccc-"), ("  SX1".ljust(20) + "B1|" + "  SX1".ljust(21) + "B1|" + "L".ljust(11) + "SX1".ljust(17) + "B1", "-c-"),
    ("L".ljust(11) + "SX1".ljust(18) + "B1|" + "NINE.WIDE  sx1".ljust(29) + "b1|" + " NINE.WI.  NX1".ljust(29) + "B1", "ccc"),
    ("TENS.WIDE. SX1".ljust(29) + "B1|" + " TEN.WIDE. NX1".ljust(29) + "B1|" + "TENS.WIDE. SX1".ljust(30) + "B1", "--c"),
    ("  NX1".ljust(70) + "|" + "  NO".ljust(40) + "REMARK|" + "  SX1".ljust(40) + "B1,X2", "--c"),
    ("  BX6 X1|bx6 OPSYN BX7|  BX6 X2|  BX7 X2", "c-c-"), ("  MACRO NO,P|  ENDM|  NO", "-cc"), ("*S66 OFF|NO CPSYN NIL|*S66 ON|  no", "oooc"),
    ("A MACRO P| BX6 MACROE|  ENDM|  ENDM|  BX6 X1|  BX7 X1", "-cccc-"), ("BX6 EQU 1|  OPSYN BX6|,  MACRO BX6|* BX6 MACRO|  BX6 X1", "-cc--"),
    ("A MACRO BX6,P|  ENDM|  BX6 X1", "-c-"), ("RXX*X OPDEF I,J,K|  ENDM|  RX5 X1*X2|  RX5 X1/X2|  DX5 X1*X2", "-cc--"),
    (" SXQ OPDEF|  ENDM|  SX1 N|  SX1 -N|  sx1 n+x2|  SX1 +X2+N|  SX1 X2+N|  SX1 X2|  SX1 10HA B", "-ccccc--c"),
    ("SXX+Q OPDEF|  ENDM|  SX1 X2+N-1|  SX1 X2+AB|  SX1 X2+A|  SX1 X2-N|  SX1 X2+B+N|  SX1 +X2+N", "-ccc----"),
    ("SXX*X OPDEF|  ENDM|  SX1 X2*X3", "-cc"),
    ("lxb,x OPDEF|  ENDM|  LX1 B2,X3|  LX1 X3,B2|  AX1 B2,X3", "-cc--"), ("NX OPDEF|  ENDM|  NX1|  NX1 X1", "-cc-"),
    ("NO OPDEF|  ENDM|  NO|  NO B1", "-cc-"), ("nob OPDEF|  ENDM|  NO|  no B1    REMARK", "-c-c"),
]

# Sources, as above, and what `lint` lists of them, without LINE and with ; in the place of newlines; and the lines that `guard` switches off.
LISTED = [
    ("  SX6".ljust(26) + "B1|  SA1 B2", "1 FAR OPERAND SX6 B1 (CUT)", []), ("  NX1".ljust(70) + "B3|  SA1 B2", "1 FAR OPERAND NX1 B3 (CUT)", []),
    ("  SX6".ljust(20) + "B1|  SA1 B2", "", []), ("  SX6".ljust(21) + "B1|  SA1 X6", "1 FAR OPERAND SX6 B1 (CUT)", []),
    ("L".ljust(15) + "SX6".ljust(14) + "B1|  SA1 B2", "1 FAR OPERAND SX6 B1 (CUT)", []), ("L".ljust(14) + "SX6".ljust(14) + "B1|  SA1 B2", "", []),
    ("LONG.LABEL".ljust(15) + "sx6".ljust(18) + "b1|  SA1 B2", "", []), ("LONG.LABEL".ljust(15) + "sx6".ljust(19) + "b1", "1 FAR OPERAND sx6 b1 (CUT)", []),
    (" NINE.WI.  SX6".ljust(29) + "B1", "1 FAR OPERAND SX6 B1 (CUT)", []), (" TEN.WIDE. SX6".ljust(29) + "B1", "", []),
    ("  SX1 B1|  SX2 B2|" + "  SX6".ljust(26) + "B1|  SA1 B2|  SA3 B3", "3 FAR OPERAND SX6 B1 (CUT)", []), ("  NX6".ljust(29) + "|  SA1 B2", "", []),
    ("  SX6".ljust(29) + "B1+|  SX1 B1|  BX2 X3", "1 BAD OPERAND SX6 B1+ (CUT)", []), ("  NO".ljust(29) + "REMARK|  SX1 B1|  BX2 X3", "", []),
    ("N MACRO|" + "  SX6".ljust(29) + "B1|  ENDM", "1 HAS A BODY MACRO (CUT)", []),
    ("RXX*X OPDEF I,J,K|  FX_I X_J*X_K|  ENDM|  RX5 X1*X2|  RX5 X1/X2|  SB7 X3", "4 REDEFINED RX5 X1*X2 (CUT)", []),
    (" SXQ OPDEF I,Q|  ENDM|  SX1 N+1|  SX1 B1", "3 REDEFINED SX1 N+1 (CUT)", []), (" NO OPSYN NIL|  SX1 B1|  NO", "3 REDEFINED NO (CUT)", []),
    ("IXX*X OPDEF I,J,K|  ENDM|  IX6 X1+X2", "", []), ("CXX OPDEF I,K|  ENDM|  SX1 B1|  SX2 B2|  CX3 X5|  SB6 60", "5 REDEFINED CX3 X5 (CUT)", []),
    ("SXX+Q OPDEF|  ENDM|  sx1 x2+n-1|  SX3 X2-N|  SX4 X2|  SX5 N+X2", "3 REDEFINED sx1 x2+n-1 (CUT)", []),
    ("SXX+Q OPDEF|  ENDM|  SX1 X2+A|  SX2 X3+AB|  SX3 X4+B+N", "4 REDEFINED SX2 X3+AB (CUT)", []), ("SX-Q OPDEF|  ENDM|  SX1 -N|  SX2 -B1", "", []),
    ("SXX+A OPDEF|  ENDM|  SX1 X2+A|  SX2 X3+B", "3 REDEFINED SX1 X2+A (CUT)", []), ("SX-B OPDEF|  ENDM|  SX2 -B1", "3 REDEFINED SX2 -B1 (CUT)", []),
    ("SXQ OPDEF|  ENDM|  SX1 -N|  SX2 +X3+N|  SX4 -B2", "3 REDEFINED SX1 -N (CUT);4 REDEFINED SX2 +X3+N (CUT)", []),
    ("SXQ OPDEF|  ENDM|  SX1 N+X2|  SX2 -X2+N", "3 REDEFINED SX1 N+X2 (CUT);4 BAD OPERAND SX2 -X2+N (CUT)", []),
    ("  SX6 B1|  BX7 X1|  MACRO BX7,P|  SX6 P|  ENDM|*S66 OFF|BX6 CPSYN BX7|*S66 ON|  BX6 X1|  SX7 B2",
     "2 REDEFINED BX7 X1 (CUT);3 HAS A BODY MACRO (CUT);9 REDEFINED BX6 X1 (CUT)", [6, 7, 8]),
    ("SX1 MACRO P|  ENDM|  SX1".ljust(49) + "P(|  SX2 B1", "3 BAD OPERAND SX1 P( (CUT);3 REDEFINED SX1 P( (CUT)", []),
    ("  SKIP 1|" + "  SX6".ljust(26) + "B1|  SA1 B2|  SA3 B3", "1 COUNTS LINES SKIP (CUT);2 FAR OPERAND SX6 B1 (CUT)", []),
    ("SB0 OPSYN SB1|  SX1 B1|  SB0 N|  SX2 B2", "3 REDEFINED SB0 N (CUT)", []),
    ("  SA2 =C/AA" + " B" * 26 + "/|  SX1 B1", "", []), ("  SA2 =C/AA" + " B" * 26 + "/".ljust(80) + "R|  SX1 B1", "", []),
    ("  SA2 =C/A" + " B" * 27 + "/|  SX1 B1|  BX6 X1", "1 PAST COLUMN 72 SA2 =C/A", [1]), ("  SA2 =C/A" + " B" * 27 + "/|  EQ X", "1 PAST COLUMN 72 SA2 =C/A", [1]),
    ("  SA2".ljust(20) + "=C/AA" + " B" * 19 + "/", "", []), ("  SA2".ljust(20) + "=C/A" + " B" * 20 + "/", "1 PAST COLUMN 72 SA2 =C/A", [1]),
    ("L".ljust(24) + "SX6 " + "A" * 45, "1 PAST COLUMN 72 SX6 " + "A" * 45, [1]), ("L".ljust(24) + "SX6 " + "A" * 44, "", []),
    ("L".ljust(62) + "SX6 " + "A" * 9, f"1 FAR OPERAND SX6 {'A' * 9} (CUT)", []), ("  SX1 B1|  NO " + "A" * 80, "", []),
    ("ELEVEN.WIDE SX1 B1|  SX6 " + "A" * 57 + "|  SX7 " + "A" * 56, "2 PAST COLUMN 72 SX6 " + "A" * 57, [2]),
    (" TEN.WIDE. NO|  SX6 " + "A" * 58 + "|L SX7 " + "A" * 58, "2 PAST COLUMN 72 SX6 " + "A" * 58, [2]),
    ("N MACRO|  SX6 " + "A" * 60 + "|  ENDM", "1 HAS A BODY MACRO (CUT)", []),
    ("  SKIP 1|  SX6 " + "A" * 60, "1 COUNTS LINES SKIP (CUT);2 PAST COLUMN 72 SX6 " + "A" * 60, []),
    ("  SX6 " + "A" * 60 + "+", "1 BAD OPERAND SX6 " + "A" * 60 + "+ (CUT)", []), ("*S66 OFF|  SX6 " + "A" * 60, "", [1, 2]),
    ("SXQ OPDEF|  ENDM|  SX1 N" + "A" * 60, f"3 REDEFINED SX1 N{'A' * 60} (CUT)", []),
    ("LOOP SA1 B1|  NO|  BSS 1|  NO LOOP+1|  LX7 5|  SA1 100B", "2 FALLS INTO DATA NO", [1, 2]),
    ("L SX1 B1|  SX2 B2|  EQ L+1|  NO L+1", "3 COUNTS WORDS EQ L+1", [1, 2]),
    ("  SX1 B1|  SX2 B2|* C|, X", "", []), ("  SX1 B1|  SX2 B2|, X", "3 BAD OPERAND X (CUT)", []),
]


def kind_of(line, is_left, before):
    """What a line is, after one of this kind."""
    if is_left or line.is_long:
        return OTHER
    if line.continues:
        return REFUSED if before in (INSTRUCTION, PAD, REFUSED) else OTHER
    return REFUSED if line.is_bad else line.kind


def refusal_of(number, line, kind):
    """Why a line is refused, or nothing."""
    if line.is_long or number > MOST_LINES:
        return f"LINE {number} TOO LONG" if line.is_long else "TOO MANY LINES"
    return f"LINE {number} BAD OPERAND" if kind == REFUSED else ""


class Reading:
    """What the lines of a source are, with or without --cut, and its blocks, which are the places of their instructions."""

    def __init__(self, text, cut):
        source, runs, is_open = Source(text), [], False
        self.lines, self.left = source.lines, source.left_alone(cut)
        self.kinds, self.blocks, self.labels, self.dropped = [], [], {}, set()
        for place, (line, is_left) in enumerate(zip(self.lines, self.left)):
            kind = kind_of(line, is_left or place >= MOST_LINES, self.kinds[-1] if place else OTHER)
            self.kinds.append(kind)
            if kind in (INSTRUCTION, PAD):
                runs += [] if is_open and not line.label else [[]]
                runs[-1].append(place)
            is_open = is_open if kind in (COMMENT, REFUSED) else kind in (INSTRUCTION, PAD)
        for run in runs:
            code = [place for place in run if self.kinds[place] == INSTRUCTION]
            self.blocks += [code[at : at + MOST] for at in range(0, len(code), MOST)]
            self.labels.update((first, self.lines[run[0]].label) for first in code[:1])
            self.dropped.update(place for place in run if code and self.kinds[place] == PAD)
        self.within = {place: block for block in self.blocks for place in range(block[0], block[-1] + 1)}
        self.refusal = next(filter(None, map(refusal_of, range(1, MOST_LINES + 2), self.lines, self.kinds)), "")


def order_fault(reading, output):
    """What is wrong in what `order` prints, or nothing. The instructions of a block are compared in the order of their bytes."""
    report, wanted = r"(\* BLOCK \d+ COUNT \d+) SOURCE \d+ TIME \d+ (BEST|AT LEAST \d+)", []
    printed = [re.sub(report, r"\1", line) for line in output.split("\n")]
    for place, line in enumerate(reading.lines):
        block = reading.within.get(place)
        if block and place == block[0]:
            wanted.append(f"* BLOCK {reading.blocks.index(block) + 1} COUNT {len(block)}")
            wanted += [reading.lines[note].text for note in range(place, block[-1]) if reading.kinds[note] == COMMENT]
            begin, end, label = len(wanted), len(wanted) + len(block), reading.labels.get(place, "")
            front = max(label.ljust(10), label + " ", key=len)
            code = [" " * 10 + first[len(front):] for first in printed[begin:end][:1] if first.startswith(front)]
            printed[begin:end] = sorted(code + printed[begin + 1 : end])
            lines = [reading.lines[own] for own in block]
            wanted += sorted(" " * 10 + own.text[own.operation_at:].rstrip(" \t\r") for own in lines)
        elif not block and place not in reading.dropped:
            wanted.append(line.text)
    return "" if printed == wanted + [""] else f"wanted {wanted}"


def listed_line(cut, *texts):
    """What is told of the lines that `lint` lists of some sources, or nothing if it lists none."""
    listed = sum(lint_of(text, cut)[0].count(b"\n") for text in texts)
    many = "s" * (listed > 1)
    if cut:
        line = f"s66 lint --cut lists {listed} finding{many}; s66 guard puts switches around the code\n"
    else:
        line = f"s66 lint lists {listed} line{many} that order may harm\n"
    return line if listed else ""


def bounded_line(reports):
    """What is told of blocks that are only bounded, by the reports of all, or nothing if none is."""
    bounded, blocks = sum("AT LEAST" in report for report in reports), f"{len(reports)} block{'s' * (len(reports) > 1)}"
    if bounded > 1:
        return f"{bounded} of {blocks} are only bounded; --deep decides most of these\n"
    return f"1 of {blocks} is only bounded; --deep may decide it\n" if bounded else ""


def remark_of(words, text, reading, reports):
    """What is told of a source after a success, by the reports of its blocks."""
    why = "an instruction's operation begins in column 3 or later" if text else "the source is empty"
    told = "" if reading.blocks else f"no block: {why}\n"
    return told + (listed_line("--cut" in words, text) + bounded_line(reports) if words[0] == "order" else "")


def fault_of(words, text, seen):
    """What is wrong with how a command ended, or nothing."""
    output, status, told = seen
    cut = "--cut" in words
    if words[0] == "lint":
        return "" if seen == (*lint_of(text, cut), b"") else f"wanted {lint_of(text, cut)}"
    if words[0] == "guard":
        seen = output, status, told if status == 0 else told.split(b"\n")[0]
        return "" if seen == guard_of(text) else f"wanted {guard_of(text)}"
    reading, output, told = Reading(text, cut), output.decode("latin-1"), told.decode("latin-1")
    heads = [f"BLOCK {n} LINE {block[0] + 1} COUNT {len(block)}" for n, block in enumerate(reading.blocks, 1)]
    reports = re.findall(r"(?m)^\* BLOCK .* (?:BEST|AT LEAST \d+)$", output)
    remark = remark_of(words, text, reading, reports)
    ending = 3 if reading.refusal else 7 if bounded_line(reports) else 0, reading.refusal
    if (status, told.split("\n")[0] if reading.refusal else "") != ending or reading.refusal and output:
        return f"wanted {ending}"
    if not reading.refusal and told != remark:
        return f"wanted {remark!r}"
    if words[0] == "order" or reading.refusal:
        return "" if reading.refusal else order_fault(reading, output)
    return "" if re.findall(r"(?m)^(BLOCK.*) DEPENDENCES \d+$", output) == heads else f"wanted {heads}"


LABELS = ["LOOP", "TAG", "L1", "loop", "B1", "+", "-", "+", "-", " COL2", "CIO=", "NINE.WIDE", "TENS.WIDE.", " TEN.WIDE.", " NINE.WI.",
          "TENS.WIDE.", " TEN.WIDE.", "ELEVEN.WIDE", " VERY.WIDE.LOOP"]
CONSTANTS = ["1", "100B", "LOOP", "loop", "TAG+1", "L1-1B", "2*LOOP", "2*TAG+1", "=TAG", "LOOP+N", "N/TAG", "=LOOP+1", "COL2-1", "TAG", "L1", "CIO=",
             "CIO=+2", "1+LOOP", "TAG-N", "LOOP-TAG+1", "LOOP+0", "LOOP+1S17"]
COUNTS = ["0", "1", "1", "2", "2", "5", "00", "N", "", "2B", "-1", "2,3", "9" * 30]
SORTS = {  # lines, or operations and their operands, with # in the place of a count, K in that of a constant, and ~ in that of characters
    COMMENT: f"* C|*||{' ' * 29}BX1 X2|{' ' * 28}\tBX1 X2| \t|* SKIP 2|*-MACRO|* S66 OFF| TAG",
    "directive": "*CALL X|*CALL|*ENDIF|*COMDECK A|*ELSE|*c|*S66|*EQ,N|*if,DEF\tX|*S66OFF|*S66 ONE|*S66 OFF,|*S66,OFF|*S66 X OFF|*ENDIF|*Deck|*CALLS|*IFX A|*READ\tX|*DO"
    "|*I 83|*d,8|*D COMCX.41,COMCX.43|*I A=1.5 OLD CODE|*D 8,9,1 OLD|*I 83. OLD CODE|*B\t,8|*I 8X OF IT|*CA COMCX READ A WORD|*EI|*WIDGET"
    "|*PLUGIN COMCX|*NEXT  WORD|*THE NEXT WORD|*I AM THE NEXT|*LOOP UNTIL DONE, 2|*A\tB C|*-A|*/ NOTE|*1 2|*S66 HALLO|*Z=1|*skip 2",
    "counting": "*IF DEF,A,#|*IF DEF,A,#|*IF -DEF,TRACE,#  OLD|*ELSE #|*else #|*IF,DEF,A,#|*ELSE,#|*IF DEF,A|*IF DEF,,#|*IF ,DEF,A,#|*IF\tEQ,A,#|*IFDEF A,B,#|*ENDIF #",
    "mark": "*S66 OFF|*S66 OFF|*S66 ON|*s66 off  remark|*S66\tON|*s66 \tOn ONE",
    "continuation": ",X1|, X2|,A BX6 X1|,|, SKIP 2|,Y MACRO|,Z ZR *|,N ENDM|,*LIST|, IFEQ LOOP+1,A,2",
    INSTRUCTION: "|".join(INSTRUCTIONS * 3) + "|SA6 K|SA7 K+Bj|SA6 Bj+K-K|SA7 Aj+K|SX1 K|SB1 Xj+K|SA1 K|SA5 Bj+K" * 8
    + "|SXi -K|SXi -K+Bj|SBi +Xj-K|SXi +Aj|SAi Bj+A|SXi Xj+B-K|SXi A+Xj|LXi -X+K" * 4,
    "characters": "SXi ~|SXi Xj-~|SXi ~+Bj|SAi =~|SA6 Bj+~|SA7 =~+K|SBi Aj+~|SBi -~|LXi ~|MXi N-~|SXi K+~|SAi ~+~|SXi N~|BXi ~|NXi ~|SAi K,~",
    PAD: "NO|NO BX1|no LOOP+1|NO ~",
    REFUSED: "|".join(wrong for wrong in WRONG if wrong[:2] not in ("NO", "BX")) + "|BX1|SA6 *+K|SA6 K-B1|SX2 K+*|NX1 K|SA7 *",
    "definition": "MACRO P,Q|MACROE|OPDEF P|ENDM|ENDM|ENDM|endm K|ENDMM|macro K|ECHO|ECHO ,R=(B2,B3)|ECHO 0|DUP 2|ENDD|ENDD",
    "redefinition": "RXX*X OPDEF I|SXQ OPDEF I|IXX*X OPDEF I|BX6 MACRO I|bxx opdef|SAA+Q OPDEF|OPDEF|NO OPDEF"
    "|SX1 OPSYN SX2|BX7 CPSYN K|NO OPSYN NIL|no cpsyn|SA1 EQU 1",
    "end": "ENDD|ENDIF|END|IDENT K|ENDX|endif",
    "branch": "|".join(f"{word} *|{word} B1,B2,*+1|{word} X1,K|{word} X1,K-*|{word} X1,2**|{word} K,* X|{word}" for word in BRANCHES),
    OTHER: "BX8 X1|BX|SAl K|BX11 X1|BX99|SB1X X1|IX9X X1|N01|*S66 OFF|VFD 60/K,18/*|BSS K|DATA K|EQU K|X|EQU *|= *+1|EQU *-1|SET *|SBN 5",
    "word": "RE B2|WE B3|RJ K|RJ K|JP Bj+K|JP K|EQ K|EQ *+1|ZR X1,K|PS|PS|BSS 0|BSS 0|BSS 1|BSSZ 1|CON K|CON 1,2|USE K|LOC 0|SPACE 4|VFD 60/0|SB0 K|SUBR"
    "|NO|SA1 K|SA6 K|SA7 K+N|SX6 Bj|IDENT K|PERIPH|PPU|END",
    "column": "SA1 A1+B1|BX6 X1|SX6 K|MX1 42|MX1 BSS|NX1|IX1 X2*X3|BX9 X1",
    "count": "|".join(f"{word} {'A,' * commas}#" for word, commas in COMMAS.items()) + "|SKIP|DUP 2|IFEQ A,B|ECHO #|DUP K,#|IFEQ K,*,#"
    "|ECHO #,P=(A,B)|ECHO ,P|IFC EQ,/A/B/,#|IFC NE,$A$$,#|IFC EQ,/A/B/|IFC EQ,/A/#|IFC EQ,/A/B/#|IFC EQ,,A,B,,#|IFC EQ,/A B/C/,#"
    "|IFC EQ|IFC EQ,|IFC|IFC EQ,X1X1X,#|IF -DEF,K,#|SKIP #|ELSE #|IFC EQ,///,#|IFC EQ,* *A*,#|IFC EQ,*A B*C*|IFC EQ,*A*B* ,#",
    "address": "SB7 K|SX1 K|SB7 B6+K|SX1 K-B7|SX2 X1|SB7 B7|SB6 B7+B1|JP B7|JP B7+K|JP B6|SA6 X1|SA1 X2+B1|SX1 B1|BX1 X2|BX2 X1|SA1 LOOP|SA6 A1|SX6 A1+B1"
    "|SA2 TAG|SA2 A2+B1|SB2 *-K|EQU K|EQU L1-LOOP|SET TAG|= LOOP+1|IDENT K|END|EQ K|RJ K",
}
# Code that another line means, with | between lines and K in the place of a constant.
MEANT = [
    "  RJ L1|  BX6 X5|  SX7 X5+1|  SA1 K|  EQ K|L1 PS|  SA3 L1|  SB3 X3|  JP B3+B1", "  SA2 L1|  IX6 X2+X1|  SA6 A2|  RJ K|L1 SX3 0|  SA1 K|  BX6 X1",
    "TAG MACRO P,Q|  CON P+Q|  ENDM|  TAG LOOP,1|LOOP SA1 B1|  SX7 X5", "TAG MACRO P,Q|  SX1 P-Q|  ENDM|  TAG LOOP|  TAG ,P=L1|LOOP SA1 B1|  SX7 X5",
    "  SX1 LOOP|  SA6 X1|  EQ X|LOOP SX6 B1|  SA4 K|  BX5 X4", "  SB7 L1|  SB7 B7+B3|  JP B7|  SA6 A6+B1|  BX6 X1|  NO|L1 SA6 A6+B1|  EQ X",
    "  SA1 LOOP|  SA2 A1+B1|TAG EQU L1-LOOP|LOOP SX6 B1|  SA4 K|L1 SX7 1|  SX6 3", "  SA6 TAG|  RJ K|TAG EQU LOOP+1|LOOP SX6 B1|  SA4 K|  BX5 X4",
    "  EQ X|TAG SA1 0|  SX2 X5|  SA3 0|LOOP CON K", "  SX1 1|  SX2 2|+ RE B2|  SX3 1|  SX4 X1", "  NO|  NO|  NO|  NO|  SA1 B1",
    "L1 SX1 B1|  SX2 B2|  IDENT|LOOP SX3 B3|  SX4 B4|  IDENT|  SA1 LOOP+L1+B1", "LOOP SX1 B1|  SX2 B2|  JP K|  CON K|  XJ X1,LOOP-*|  SX3 B3|  SX4 B4",
    "BXX OPDEF|  ENDM", " SAA+Q OPDEF P|  SA1 P|  ENDM", "SXX+Q OPDEF|  ENDM|  SX1 X2+K", "SBQ OPDEF|  ENDM|  SB1 K|  SB2 K+B3", "LXQ OPDEF|  ENDM|MXQ OPDEF|  ENDM",
    "  MACRO SX6,P|  ENDM", "BX1 MACRO|  BX6 X1|  ENDM|  BX1 X2", "SX1 OPSYN SX2|NO CPSYN NIL", "  SB4 B3+L1|  JP B4|L1 SX6 B1|  SX7 1",
]


def switched(text, by_line):
    """An accepted source with the two switches around each line, or each stretch of lines, that --cut leaves alone; and of each line
    its place in the source, or None of a switch that was put in. A switch ON of the source ends a stretch."""
    source, is_off, lines, places = Source(text), False, [], []
    for place, (line, is_left) in enumerate(zip(source.lines, source.left_alone(True))):
        marks = ["*S66 ON"] * is_off + ["*S66 OFF"] * is_left if is_off != is_left or by_line and is_left else []
        lines += [*marks, line.text]
        places += [*[None] * len(marks), place]
        is_off = is_left and line.mark != "ON"
    return "".join(line + "\n" for line in lines).encode("latin-1"), places


def found_in(text, places, cut):
    """What `lint` lists of a source, with or without --cut, with the places of its lines in another one."""
    rows = re.findall(r"(?m)^LINE (\d+) (.*)$", lint_of(text, cut)[0].decode("latin-1"))
    return {(places[int(number) - 1], found) for number, found in rows}


def switched_fault(program, text, words):
    """What is wrong with a source that has switches around what --cut leaves alone, or nothing."""
    reading = Reading(text, True)
    lines, places = ([], []) if reading.refusal else switched(text, "line" in words)
    if not lines or len(places) > MOST_LINES:
        return ""
    had, found = found_in(text, range(MOST_LINES), True), found_in(lines, places, False)
    if found - had:
        return f"{lines}: found {found}, and with --cut {had}"
    heads = [f"BLOCK {n} LINE {places.index(block[0]) + 1} COUNT {len(block)}" for n, block in enumerate(reading.blocks, 1)]
    blocks = re.findall(r"(?m)^(BLOCK.*) DEPENDENCES \d+$", run(program, ["deps"], lines)[0].decode("latin-1"))
    seen = run(program, ["lint"], lines)
    return "" if (blocks, seen) == (heads, (*lint_of(lines), b"")) else f"{lines}: wanted {heads}, {lint_of(lines)}, and not {blocks}, {seen}"


def characters():
    """Characters with a count, or between two marks, of which the second may be missing; and what may stand behind them."""
    size = choice([0, 1, 2, 3, 5, 8] * 3 + [*range(40, 60)])
    held = choice("ABRX1 ") + "".join(choices("ABRX19 .+-*/,\t", [4, 4, 2, 2, 2, 1, 9, 1, 1, 1, 1, 1, 1, 1], k=size))
    mark, letter = choice("/*"), choice("ACHLRZCHLRB")
    count = choice([len(held), len(held), len(held), 1, 2, 3, 10, 0, 150])
    text = choice([f"{count}{letter}{held}", f"{count:02}{letter}{held}", f"={letter}{mark}{held}" + choice([mark, mark, mark, ""])])
    return text + choice(["", "", "", " ", "  ", "+X1", " +X1", "-B2", " N", "  REMARK"])


def guarded_fault(program, text, words):
    """What is wrong with what `guard` prints, by itself, or nothing."""
    output, status, _ = run(program, ["guard"], text)
    if status:
        return ""
    if ADDED.sub(b"", output) != text + b"\n" * (text[-1:] not in (b"", b"\n")):
        return f"{output}: without the lines that were added it isn't the source"
    again = run(program, ["guard"], output)
    is_whole = output.count(b"\n") > MOST_LINES or again == (output, 0, b"")
    return "" if is_whole else f"{output}: guarded again it is {again}"


def make_line(sort, labelled, far, lower, wide, returns):
    """A line of a sort: these are the chances of a label, of an operand far to the right, of lower case, of some 200 bytes, and of
    carriage returns."""
    text = re.sub("~", lambda _: characters(), choice(SORTS[sort].split("|")).replace("#", choice(COUNTS)))
    if sort in ("column", "redefinition"):
        text = choice(["", "", " "]) + re.sub(r"\bK\b", lambda _: choice(CONSTANTS), text)
        text = text.lower() if random() < lower else text
    elif sort == OTHER or not re.match("[*, \t]|$", text):
        text = re.sub("[ijk]", lambda _: choice("0123456767"), text) if sort in (INSTRUCTION, REFUSED, "word", "characters") else text
        operation, _, operand = re.sub(r"\bK\b", lambda _: choice(CONSTANTS), text).partition(" ")
        is_far = random() < far
        label = choice(LABELS) if random() < labelled + is_far / 2 else ""
        begin = label + choice([" " * max(1, 10 - len(label)), "  ", "\t", "  \t "] * 4 + [" "] * bool(labelled))
        front, place = begin + operation, choice([28, 29, 30, len(begin) + 18, len(begin) + 19])
        front = front.ljust(place) if is_far else front + choice([" ", " ", "\t", "   "])
        remark = choice(["", "", " ", " * LOOP+1", "  REMARK,2\t", "\tA\rB"]) if operand or sort != INSTRUCTION else ""
        text = (front + operand + remark).lower() if random() < lower else front + operand + remark
    more = choice([199, 200, 200, 201]) - len(text) if random() < wide else 0
    return text + (" " + "R" * 200)[:more] + choice(["\r", "\r\r"]) * (random() < returns)


def redefining(lines):
    """Lines that redefine what one of these lines is, or something like it, perhaps in a definition or between switches."""
    code = [line for line in map(Line, lines) if line.kind in (INSTRUCTION, PAD)] or [Line("  SX1 B1+N")]
    line = max(choices(code, k=choice([1, 3])), key=lambda line: len(line.operand))
    spelled = re.sub("[A-Z0-9=.]+", lambda name: choice([name[0][0], name[0][0], "Q", name[0]]), line.operand)
    near = [line.operation[:2] + operand for operand in (spelled, re.sub("Q.*", "Q", spelled), "Q")]
    form, name = choice([form_of(line.operation, line.operand)] * 3 + near), line.operation + choice([""] * 9 + ["X", "1"])
    text = choice([f"{name} MACRO P", f"  MACRO {name}{choice(['', ',P'])}", f"{name} MACROE", *[f"{form} OPDEF{choice(['', ' P,Q'])}"] * 4,
                   f"{name} OPSYN {choice(CONSTANTS)}", f"{name} CPSYN BX1", f"  OPSYN {name}", f"{form} EQU 1"])
    text = choice([text, text, text, " " + text, text.lower(), f"TAG {text}"])
    body = [choice(["  BX1 X2", "  CON P", "  SX6 P+Q", line.text])] * choice([0, 1]) + ["  ENDM"] if re.search("(?i)MACRO|OPDEF", text) else []
    begin, end = choice([([], []), ([], []), (["*S66 OFF"], ["*S66 ON"]), (["N MACRO P"], ["  ENDM"]), (["  SKIP 2"], []), (["  ECHO"], ["  ENDD"])])
    return [line for line in begin + [text] + body + end if random() < 0.98]


def make_source():
    """A source of some sorts of lines."""
    chances = choice([0, 0.2, 0.5]), choice([0, 0.1, 0.4]), choice([0, 0.2]), choice([0] * 7 + [0.05]), choice([0, 0, 0.3, 1])
    sorts = choice([list(SORTS), ["count", "count", "counting", "definition", "end", "mark", "continuation", COMMENT],
                    [INSTRUCTION, PAD, "word", "address", "branch", "mark"]])
    weights = {INSTRUCTION: choice([2, 4, 8]), **{sort: choice([0, 1, 1, 2, 4]) for sort in sorts if sort != INSTRUCTION}}
    weights.update(dict.fromkeys(["continuation", REFUSED, "mark"][: choice([0, 0, 1, 2, 2, 3])], 0))
    lines = [make_line(sort, *chances) for sort in choices(list(weights), weights.values(), k=choice([3, 8, 20, 50]))]
    if random() < 0.04:  # blocks of about 128 instructions
        sorts, more = [INSTRUCTION] * 60 + choice([[], [PAD, COMMENT], [PAD, "directive"]]), choice([128, 128, 256])
        lines += [make_line(choice(sorts), 0, *chances[1:]) for _ in range(more + choice(range(-3, 9)))] + lines[:5]
    if random() < 0.3:
        at, meant = choice(range(len(lines))), choice(MEANT).split("|")
        lines[at:at] = [re.sub(r"\bK\b", lambda _: choice(CONSTANTS), line) for line in meant if random() < 0.95]
    for _ in range(choice([0, 0, 1, 1, 2])):
        at = choice(range(len(lines) + 1))
        lines[at:at] = redefining(lines)
    for _ in range(choice([0, 0, 0, 1, 2, len(lines) // 4])):  # commas behind comments
        at, sorts = choice(range(len(lines) + 1)), choices([COMMENT, "mark", "directive"], [8, 1, 1], k=choice([1, 1, 2, 3]))
        lines[at:at] = [make_line(sort, *chances) for sort in [*sorts, "continuation"]]
    if random() < 0.006:
        lines += [" "] * (MOST_LINES - len(lines)) + choice([[], [""], ["*" * 201], [" ", "*" * 201]])
    return "\n".join(lines).encode("latin-1") + b"\n" * (random() < 0.7)


def run(program, words, source):
    done = subprocess.run([*program, *words], input=source, stdout=subprocess.PIPE, stderr=subprocess.PIPE)
    return done.stdout, done.returncode, done.stderr


def command_fault(program, text, words):
    """What a command does otherwise than wanted, or nothing."""
    seen = run(program, words, text)
    fault = fault_of(words, text, seen)
    return fault and f"{seen}; {fault}"


def listed_faults(program, text, rows, off):
    """Prints what is listed or switched off of a source otherwise than its row says; returns 1 if something is, else 0."""
    source = text.replace("|", "\n").encode()
    wanted = "".join(f"LINE {row}\n" for row in rows.split(";") if row).encode()
    guarded = guard_of(source)[0]
    switched_off = [number for number, line in enumerate((line for line in Source(guarded).lines if "GUARD" not in line.text), 1) if line.is_off]
    seen = lint_of(source)[0], run(program, ["lint"], source)[0], run(program, ["guard"], source)[0]
    is_right = seen == (wanted, wanted, guarded) and switched_off == off
    print("" if is_right else f"{text}: {seen}, {switched_off}, and not {wanted}, {off}\n", end="")
    return int(not is_right)


def smaller(lines, is_wrong):
    """Fewer lines that are wrong as well."""
    for size in (10_000, 1000, 100, 10, 1):
        for at in list(range(0, len(lines), size))[:-200:-1]:
            fewer = lines[:at] + lines[at + size:]
            lines = fewer if is_wrong(fewer) else lines
    return lines


def mismatches(program, source):
    """What each command does otherwise than wanted, and without --cut a source with switches, with a small source that shows it."""
    for words in COMMANDS + SWITCHED + GUARDED:
        def fault(lines):
            find = switched_fault if words in SWITCHED else guarded_fault if words in GUARDED else command_fault
            return find(program, b"".join(lines), words)
        if fault([source]):
            lines = smaller(re.findall(b"[^\n]*\n|[^\n]+", source), fault)
            yield words, b"".join(lines), fault(lines)


def main():
    parser = argparse.ArgumentParser(description=__doc__.split("\n")[0])
    parser.add_argument("program", nargs="+")
    parser.add_argument("--count", type=int, default=1000)
    parser.add_argument("--seed", type=int, default=6600)
    asked, wrong, counts = parser.parse_args(), 0, collections.Counter()
    for text, marks in EXAMPLES:
        source = Source(text.replace("|", "\n").encode())
        told = "".join("-co"[off + cut] for off, cut in zip(source.left_alone(False), source.left_alone(True)))
        wrong += told != marks
        print(f"{text}: {told}, and not {marks}\n" if told != marks else "", end="")
    for text, rows, off in LISTED:
        wrong += listed_faults(asked.program, text, rows, off)
    seed(asked.seed)
    for number in range(1, asked.count + 1):
        source = make_source()
        counts.update(re.findall(FINDINGS, lint_of(source)[0].decode("latin-1")))
        for words, small, fault in mismatches(asked.program, source):
            name, wrong = f"/tmp/left_alone.{asked.seed}.{number}.{''.join(words)}", wrong + 1
            with open(name, "wb") as file:
                file.write(small)
            print(f"{' '.join(words)} < {name}: {small}: {fault}")
    runs = len(EXAMPLES + LISTED) + asked.count * len(COMMANDS + SWITCHED + GUARDED)
    told = ", ".join(f"{what} {n}" for what, n in sorted(counts.items()))
    print(f"{runs - wrong} passed, {wrong} failed ({asked.count} sources; lint: {told})")
    return 1 if wrong else 0


if __name__ == "__main__":
    sys.exit(main())
