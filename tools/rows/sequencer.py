#!/usr/bin/env python3
"""Prints what an Am2910 and an Am2910A answer to each of their instructions, as rows, for
crates/mw_callrows/data/sequencer.

The instructions are those of model/am2910.py. PC is 0x200, R is 0 or 7, D is 0x123, an empty stack reads 0xABC, the carry
into PC is 1. Of the Am2910's words 0x101 to 0x105, from the bottom, none, two or five are on the stack, and of the
Am2910A's words 0x101 to 0x109 five or nine.

    sequencer.py rows    the rows

They stand in the order of the sequencer, then of the instruction's code, then of the test (it fails, it passes), then of R
(0, 7), then of the words on the stack.
"""
import sys
from itertools import product

import tools_path
from files import row_lines
from model.am2910 import INSTRUCTIONS, Sequencer

PC, D, EMPTY = 0x200, 0x123, 0xABC
# How many words are on the stack, by how many it has.
COUNTS = {5: (0, 2, 5), 9: (5, 9)}


def row(code, passed, r, count, depth):
    name, before = INSTRUCTIONS[code], Sequencer(PC, r, count, [0x101 + place for place in range(depth)])
    many = "" if depth == 5 else f" of {depth} words"
    title = f"{name} where the test {'passes' if passed else 'fails'}, R is {r} and {count} words are on the stack{many}"
    call = f"call step ins={code:x} pass={passed} d={D:x} ci=1 rld=0 noise={EMPTY:x} {before.shown()}"
    following, after = before.stepped(name, passed, D, empty=EMPTY)
    return row_lines(title, [call], "gives", f"next={following:x} {after.shown()}\n".encode())


def print_rows():
    print("# What each instruction of the Am2910 and of the Am2910A answers, printed by tools/rows/sequencer.py.")
    for depth, counts in COUNTS.items():
        for code, passed, r, count in product(range(len(INSTRUCTIONS)), (0, 1), (0, 7), counts):
            print("\n".join([""] + row(code, passed, r, count, depth)))


def main():
    match sys.argv[1:]:
        case ["rows"]:
            print_rows()
        case _:
            sys.exit(__doc__)


if __name__ == "__main__":
    main()
