#!/usr/bin/env python3
"""Reads KEEP texts line by line, to see that the rows of `call keep` are right, and prints such rows of cases.

The format of KEEP texts is stated anew; boards and microprograms are read by the modules of model.

    keeps.py cases CASES..    the rows of those cases of the command `revise`, JSON, one a line, whose KEEP is refused
    keeps.py check FILE..     the rows of `call keep` in these files that give something else
"""
import json
import sys
import tomllib

import tools_path
from files import cases_of, contents_lines, hashed, read_anew, row_lines, sets_of
from model.board import Board
from model.description import Grammar
from model.lines import Refused, lines_of
from model.microprogram import Microprogram

# What the call names the files in the place of the command's words.
NAMES = ["b", "m", "n", "k"]
MOST_BLOCKS, MOST_LINES, MOST_BOUND, CONTROL = 64, 256, 500, 4096


class Keep(Grammar):
    """The blocks of a text: each a list of its two addresses, its bound, its stack pointer and its lines, which are texts by
    the names of their elements. What it sees are a board and the labels of both programs."""

    def __init__(self, board, programs, text):
        self.depth, self.widths = board.depth, dict(board.elements())
        self.programs = programs
        self.blocks, self.block = [], None
        lines = lines_of(text)
        for self.line in lines:
            if self.line.tokens:
                self.faults = []
                self.read_line()
                self.judge()
        if self.block is not None:
            raise Refused(lines[-1].number, lines[-1].end, 60)
        if not self.blocks:
            raise Refused(1, 1, 53)

    def read_line(self):
        word = self.line.tokens[0][2] if self.line.kind(0) == "name" else None
        if self.block is None:
            self.begin(word)
        else:
            kinds = {"sp": self.point, "keep": self.keep, "fixed": self.fix, "end": self.close}
            self.expect(0, word in kinds)
            kinds[word]()

    def begin(self, word):
        self.expect(0, word == "boundary")
        self.expect(1, self.line.kind(1) in ("name", "number"))
        column, kind, place = self.line.tokens[1]
        bound = self.token(2, "number")
        self.ends(3)
        self.fault(self.line.tokens[0][0], 14, len(self.blocks) == MOST_BLOCKS)
        addresses = [place if kind == "number" else labels.get(place) for labels in self.programs]
        for side, address in enumerate(addresses):
            self.fault(column, 30, address is None)
            self.fault(column, 31, address in [other[0][side] for other in self.blocks])
            self.fault(column, 33, address is not None and address >= CONTROL)
        self.fault(bound[0], 54, not 1 <= bound[2] <= MOST_BOUND)
        self.block = [addresses, bound[2], None, {}]

    def point(self):
        number = self.token(1, "number")
        self.ends(2)
        self.fault(self.line.tokens[0][0], 31, self.block[2] is not None)
        self.fault(number[0], 33, number[2] > self.depth)
        self.block[2] = number[2]

    def element(self):
        """The column of the element behind the line's first word, and its name without its side; None where it is none of the
        board."""
        owner = self.token(1, "name")
        self.sign(2, ".")
        name = self.token(3, "name")[2]
        return owner[0], name if owner[2] == "b" and name in self.widths else None

    def name(self, column, name):
        self.fault(self.line.tokens[0][0], 14, len(self.block[3]) == MOST_LINES)
        self.fault(column, 40, name is None)
        self.fault(column, 31, name in self.block[3])

    def keep(self):
        column, name = self.element()
        self.ends(4)
        self.name(column, name)
        self.block[3][name] = f"keep b.{name}"

    def fix(self):
        column, name = self.element()
        values = [self.token(at, "number") for at in (4, 5)]
        self.ends(6)
        self.name(column, name)
        for at, _, value in values:
            self.fault(at, 33, name is not None and value >> self.widths[name] != 0)
        self.block[3][name] = f"fixed b.{name} {values[0][2]} {values[1][2]}"

    def close(self):
        self.ends(1)
        self.fault(self.line.tokens[0][0], 52, self.block[2] is None)
        self.blocks.append(self.block)
        self.block = None

    def report(self):
        return "".join(f"boundary {before} {after} {bound}\nsp {sp}\n" + "".join(line + "\n" for line in lines.values()) + "end\n"
                       for (before, after), bound, sp, lines in self.blocks)


def given(board, old, new, text):
    """What the call gives of these files."""
    parts = tomllib.loads(board.decode())
    programs = [dict(Microprogram(parts, program).labels) for program in (old, new)]
    try:
        return Keep(Board(board.decode()), programs, text).report()
    except Refused as refused:
        return f"refused {refused}\n"


def report_of(row):
    """What a row of these files gives."""
    return given(*(row["files"][name] for name in NAMES)) if row.get("call") == "keep" else None


# ---- rows


def call_of(case):
    """The case with its files under the names of the call, and what it gives; None where KEEP isn't refused."""
    words = case["words"][1:]
    begin = f"refused {words[-1]} line "
    if case["status"] != 4 or not case["stdout"].startswith(begin) or words[-1] in words[:-1]:
        return None
    files = {name: case["files"][word] for name, word in zip(NAMES, words)}
    return case | {"files": files, "stdout": "refused line " + case["stdout"].removeprefix(begin)}


def print_calls(cases):
    calls = [call for call in map(call_of, cases) if call]
    sets = sets_of(calls)
    for (file, text), name in sets.items():
        print("\n".join([f"set {name}"] + contents_lines(file, json.loads(text))) + "\n")
    for case in calls:
        files = [[f"with {sets[hashed(*file)]}"] if hashed(*file) in sets else contents_lines(*file)
                 for file in case["files"].items()]
        print("\n".join(row_lines(case["name"], sum(files, []) + ["call keep"], "gives", case["stdout"].encode())) + "\n")


def main():
    match sys.argv[1:]:
        case ["cases", *paths]:
            print_calls(cases_of(paths))
        case ["check", *paths]:
            sys.exit(read_anew(paths, report_of))
        case _:
            sys.exit(__doc__)


if __name__ == "__main__":
    main()
