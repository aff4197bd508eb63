#!/usr/bin/env python3
"""Reads the texts of relations line by line, to print the rows of `call relation` and to see that they are right.

The format of relations is that of model/relation.py. Boards and microprograms aren't read: what a relation sees of them
stands in BOARDS.

    relations.py relations                the rows of relations, for crates/mw_callrows/data/relations
    relations.py check FILE..             the rows of `call relation` in these files that give something else
"""
import sys

import tools_path
from files import counted_lines, read_anew, text_lines
from model.lines import Refused
from model.relation import Relation, elements
from small import SMALL_BOARD, SMALL_MACHINE, SMALL_MICRO
from small import SMALL_RELATION as SMALL

WIDE_BOARD = b"""version = 1
width = 8
microword = 8
address = 6
fill = "0"
[fields]
f = [0, 8]
[[flipflop]]
name = "link"
control = 0
load = ["hold"]
[[flipflop]]
name = "ie"
control = 0
load = ["hold"]
"""
WIDE_MICRO = b"ZERO: f=1\nONE: f=2\nequ FIVE = 5\norg 4095\nLAST: f=3\nPAST:\n"
WIDE_MACHINE = b"""memory 6 8
register A 8
register M 6
temp T 8
register L 1
step
"""
# What a relation sees of a board, a microprogram and a machine: the widths of both memories, elements, and labels.
BOARDS = {
    "small": ((4, 4), (4, 4), elements(4, 4, [], [("X", 4), ("Y", 4)]), {"LOOP": 0}),
    "wide": ((6, 8), (6, 8), elements(8, 6, ["link", "ie"], [("A", 8), ("M", 6), ("L", 1)]),
             {"ZERO": 0, "ONE": 1, "LAST": 4095, "PAST": 4096}),
    "narrow": ((4, 4), (3, 4), elements(4, 4, [], [("X", 4)]), {"LOOP": 0}),
    "words": ((4, 4), (4, 8), elements(4, 4, [], [("X", 8)]), {"LOOP": 0}),
}
FILES = {
    "small": (SMALL_BOARD, SMALL_MICRO, SMALL_MACHINE),
    "wide": (WIDE_BOARD, WIDE_MICRO, WIDE_MACHINE),
    "narrow": (SMALL_BOARD, SMALL_MICRO, b"memory 3 4\nregister X 4\nstep\n"),
    "words": (SMALL_BOARD, SMALL_MICRO, b"memory 4 8\nregister X 8\nstep\n"),
}


def given(board, text):
    """What the call gives."""
    try:
        return Relation(BOARDS[board], text).report()
    except Refused as refused:
        return f"refused {refused}\n"


# ---- rows

RELATIONS = """\
# Relations: what their texts describe, or their first fault. tools/rows/relations.py prints these rows, and works out
# the answers from the format of relations, without the crates.
"""
HEAD = b"boundary ZERO 7\n"
# Lines of one boundary, behind its first line and before its `end`; a `/` stands between lines.
LINES = [
    "sp 0", "sp 5", "sp 6", "sp 0x5", "sp 340282366920938463463374607431768211455", "sp 0/sp 0", "sp 6/sp 0", "sp 0/sp 6",
    "sp 0/sp", "sp", "sp x", "sp 0 0", "sp = 3", "sp.x = 1#4", "sp . r0 = 1#8", "SP 0", "spx 0", "sp 0 ; a note",
    "b.r0 = m.A/sp 0", "sp 0/b.r0 = m.A", "sp 0/b . r0 = m . A", "sp 0/m.A = b.r0", "sp 0/m.L = b.link", "sp 0/b.link = m.L",
    "sp 0/b.ie = m.L/b.link = 0#1", "sp 0/b.mar = m.M", "sp 0/b.upc = 1#12/b.count = 2#12/b.stack4 = 3#12",
    "sp 0/b.r0 = mem[m.M]", "sp 0/b.r15 = mem[b.mar]/m.M = 3#6", "sp 0/b.r0 = {m.L, m.A[6:0]}",
    "sp 0/b.r0 = m.L ? m.A : ~m.A", "sp 0/b.q = zext(m.M, 8)", "sp 0/b.ir = (m.A + 1#8) ^ b.r1",
    # the grammar
    "b", "b.", "b.r0", "b.r0 =", "b.r0 = ", "b r0 = m.A", "b.r0 : m.A", "b.r0 := m.A", "b.r0 == m.A", "b..r0 = m.A",
    "r0 = m.A", "r0 = m.X", "b.r0 + m.A = m.A", "b.r0.x = m.A", "b.3 = m.A", "3 = m.A", "3", "+", ".r0 = m.A",
    "b.r0 = A", "b.r0 = m", "b.r0 = m.", "b.r0 = m.A m.A", "b.r0 = m.A = m.A", "b.r0 = (m.A", "b.r0 = m.A)", "b.r0 = 3",
    "b.r0 = mem", "b.r0 = request", "mem[m.M] = m.A", "mem = m.A", "boundary ZERO 3", "boundary ONE 3", "end.x = 1#4",
    "end . r0 = 1#8", "boundary.x = 1#4", "end x", "end 3", "end end", "b.end = 1#8", "b.sp = 1#8", "m.sp = 1#8",
    # elements and widths
    "x.r0 = m.A", "b.r16 = m.A", "b.foo = m.A", "m.Z = b.r0", "m.T = b.r0", "m.r0 = b.r0", "b.A = b.r0", "B.r0 = m.A",
    "b.r0 = m.T", "b.r0 = b.x", "b.r0 = x.A", "b.r0 = m.M", "b.mar = m.A", "b.link = m.A", "b.upc = m.A", "b.r0 = 1#9",
    "b.r0 = m.A + m.M", "b.r0 = m.M + m.A", "b.r0 = m.Z + m.M", "b.r0 = mem[m.A]", "b.r0 = mem[mem[m.M]]",
    "b.mar = mem[m.M]", "b.r0 = 256#8", "b.r0 = m.A[8]", "b.r0 = m.A[3:4]", "b.r0 = {m.A, m.A, m.A, m.A, m.A}",
    "x.r0 = m.A + m.M", "b.x = 256#8", "b.r0 = x.y + z.w", "b." + "n" * 65 + " = m.A", "n" * 65 + ".r0 = m.A",
    "b.r0 = " + "~" * 63 + "m.A", "b.r0 = " + "~" * 64 + "m.A", "b.mar = " + "~" * 64 + "m.A",
    "b.r0 = " + "(" * 63 + "m.A" + ")" * 63, "b.r0 = " + "(" * 64 + "m.A" + ")" * 64,
    # left twice, left on a right side, no stack pointer
    "sp 0/b.r0 = m.A/b.r0 = m.A", "b.r0 = m.A/b.r0 = m.A", "sp 0/b.r0 = m.A/b.r1 = m.A/b.r0 = 1#8/b.r1 = 1#8",
    "sp 0/b.r0 = b.r0", "sp 0/b.r0 = b.r1/b.r1 = m.A", "sp 0/b.r1 = m.A/b.r0 = b.r1", "b.r0 = b.r1/b.r1 = m.A",
    "sp 0/b.r0 = m.A + b.r1/b.r1 = b.r0", "sp 0/b.r0 = b.r2/b.r0 = m.A/b.r2 = 1#8", "sp 0/b.r0 = m.A/b.r0 = b.r0",
    "sp 0/b.r0 = mem[b.mar]/b.mar = m.M", "sp 0/b.r0 = {m.L, m.L, b.mar}/b.mar = m.M", "sp 0/b.r0 = m.L ? m.A : b.q/b.q = m.A",
    "sp 0/b.r0 = m.A/m.A = b.r0", "sp 0/b.r0 = m.A/m.A = b.r1", "b.r0 = b.r0/b.r1 = m.M", "b.r0 = b.r0/sp 6",
    "b.r0 = b.r0/b.r1", "b.r0 = b.r0/b.x = m.A", "sp 0/b.r0 = b.r1/b.r1 = b.r2/b.r2 = b.r0", "sp 0/b.r0 = ~(b.r0 & m.A)",
    # two faults
    "sp 6/b.r0", "b.r0 = m.M/sp 6", "sp 6 7", "b.x = m.M + m.A )", "sp 0/sp 6 6", "sp 0/b.r0 = m.A/@", "b.r0 = 9z/@",
]
# First lines, in place of the head.
FIRSTS = [
    "boundary", "boundary ZERO", "boundary ZERO 7 7", "boundary ZERO x", "boundary 7", "boundary = 7", "boundary ZERO = 7",
    "boundary . 7", "Boundary ZERO 7", "bound ZERO 7", "boundary:", "ZERO 7", "7", "end", "sp 0", "b.r0 = m.A", "; a",
    "boundary NOWHERE 7", "boundary zero 7", "boundary FIVE 7", "boundary f 7", "boundary PAST 7", "boundary LAST 7",
    "boundary 4095 7", "boundary 4096 7", "boundary 0xFFF 7", "boundary 0x1000 7", "boundary 0b11 0o7", "boundary 8 7",
    "boundary ZERO 0", "boundary ZERO 1", "boundary ZERO 500", "boundary ZERO 501", "boundary ZERO 0x1F4",
    "boundary ZERO 0o765", "boundary NOWHERE 0", "boundary 4096 0", "boundary NOWHERE x", "boundary PAST 501",
    "boundary " + "n" * 65 + " 7", "boundary end 7", "boundary 340282366920938463463374607431768211455 7",
    "boundary 340282366920938463463374607431768211456 7", "boundary ZERO 340282366920938463463374607431768211455",
]
BODY = b"sp 0\nend\n"
TEXTS = [
    ("a text without bytes", b""), ("a line feed", b"\n"), ("a comment alone", b"; a"), ("blank lines", b"\n \n\r\n;\n"),
    ("an open boundary", HEAD), ("an open boundary, with a carriage return", b"boundary ZERO 7\r\n"),
    ("an open boundary and a comment", HEAD + b"sp 0 ; a note"), ("an open boundary behind another",
    HEAD + BODY + b"boundary ONE 3\nsp 0\n\n"),
    ("an open boundary of unsolved lines", HEAD + b"b.r0 = b.r0\n"), ("a boundary without lines", HEAD + b"end"),
    ("three boundaries", HEAD + BODY + b"; a\nboundary ONE 1\nsp 1\nb.r0 = m.A\nend\nboundary 7 500\nsp 5\nb.r0 = m.A\nend ; b\n"),
    ("one address by its label and by its number", HEAD + BODY + b"boundary 0 3\n" + BODY),
    ("one address by its number and by its label", b"boundary 1 3\n" + BODY + HEAD + BODY + b"boundary ONE 3\n" + BODY),
    ("one address, no bound", HEAD + BODY + b"boundary ZERO 0\n" + BODY), ("one address and a word more",
    HEAD + BODY + b"boundary ZERO 7 7\n"),
    ("an address twice behind unsolved lines", HEAD + b"b.r0 = b.r0\nend\nboundary ZERO 7\n" + BODY),
    ("a stack pointer in each of two", HEAD + BODY + b"boundary ONE 3\nsp 0\nsp 0\nend\n"),
    ("left in two boundaries", HEAD + b"sp 0\nb.r0 = m.A\nend\nboundary ONE 3\nsp 0\nm.A = b.r0\nend\n"),
    ("carriage returns", (HEAD + b"sp 0\nb.r0 = m.A\nend\n").replace(b"\n", b"\r\n")),
    ("a carriage return at the end", HEAD + BODY[:-1] + b"\r"), ("behind an end", HEAD + BODY + b"end\n"),
    ("a byte of a later line first", b"boundary ZERO 7 7\n!\n"), ("a line too long", HEAD + b"sp 0;" + b"x" * 4092 + b"\nend\n"),
    ("the longest line", HEAD + b"sp 0;" + b"x" * 4091 + b"\nend\n"),
]


def many(first, count, line):
    return b"".join(line.replace(b"@", b"%d" % number) + b"\n" for number in range(first, first + count))


LIMITS = [
    ("64 boundaries", many(0, 64, b"boundary @ 7\nsp 0\nend")), ("65 boundaries", many(0, 65, b"boundary @ 7\nsp 0\nend")),
    ("65 boundaries, the last with other faults", many(0, 64, b"boundary @ 7\nsp 0\nend") + b"boundary NOWHERE 0\n"),
    ("65 boundaries, the last of an address twice", many(0, 64, b"boundary @ 7\nsp 0\nend") + b"boundary 0 7\n"),
    ("65 boundaries, the last no boundary", many(0, 64, b"boundary @ 7\nsp 0\nend") + b"boundary 99\n"),
    ("257 lines", HEAD + b"sp 0\n" + b"b.r0 = m.A\n" * 257 + b"end\n"), ("256 lines",
    HEAD + b"sp 0\n" + b"b.r0 = m.A\n" * 256 + b"end\n"),
    ("257 lines, the last of no element", HEAD + b"b.r0 = m.A\n" * 256 + b"x.y = m.M\nend\n"),
    ("256 lines and a stack pointer", HEAD + b"b.r0 = m.A\n" * 256 + b"sp 6\nend\n"),
    ("64 memory reads", HEAD + b"sp 0\n" + b"b.r0 = mem[m.M]\n" * 64 + b"end\n"),
    ("65 memory reads", HEAD + b"sp 0\n" + b"b.r0 = mem[m.M]\n" * 65 + b"end\n"),
    ("65 memory reads in two boundaries", HEAD + b"sp 0\nb.r0 = mem[m.M]\nend\nboundary ONE 7\n" + b"b.r1 = mem[m.M]\n" * 64 + b"end\n"),
    ("65 memory reads beside another width", HEAD + b"b.r0 = mem[m.M]\n" * 64 + b"b.mar = mem[m.M]\nend\n"),
    ("65 memory reads beside an unknown element", HEAD + b"b.r0 = mem[m.M]\n" * 64 + b"b.r0 = mem[m.M] + x.y\nend\n"),
]


def relation_rows():
    for name, files in FILES.items():
        yield [f"set {name}"] + [line for file, text in zip("bmk", files) for line in [f"file {file}"] + text_lines(text)]
    cases = [("small", "the small case", SMALL)] + [("wide", *case) for case in TEXTS + LIMITS]
    cases += [("wide", f"a first line: {line[:40]}", line.encode() + b"\n" + BODY) for line in FIRSTS]
    cases += [("wide", f"lines: {lines[:40]}", HEAD + lines.replace("/", "\n").encode() + b"\nend\n") for lines in LINES]
    for board in ("narrow", "words"):
        cases += [(board, f"{board}: {name}", text) for name, text in
                  [("the small case", SMALL), ("a text without bytes", b""), ("a bad byte", b"boundary LOOP 2\n@"),
                   ("a bad line", b"bound LOOP 2\n"), ("an open boundary", b"boundary LOOP 2")]]
    cases += [("small", f"the small case cut after {count} bytes", SMALL[:count]) for count in range(len(SMALL))]
    for board, name, text in cases:
        yield ([f"row {name}", f"with {board}", "file text"] + counted_lines(text) + ["call relation", "gives"]
               + counted_lines(given(board, text).encode()))


def board_of(row):
    """Which of the boards a row has."""
    files = tuple(row["files"][name] for name in "bmk")
    return next(name for name, known in FILES.items() if known == files)


def report_of(row):
    """What a row of these files gives."""
    return given(board_of(row), row["files"]["text"]) if row.get("call") == "relation" else None


def main():
    sys.setrecursionlimit(100000)
    match sys.argv[1:]:
        case ["relations"]:
            print(RELATIONS)
            for row in relation_rows():
                print("\n".join(row) + "\n")
        case ["check", *paths]:
            sys.exit(read_anew(paths, report_of))
        case _:
            sys.exit(__doc__)


if __name__ == "__main__":
    main()
