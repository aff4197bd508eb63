#!/usr/bin/env python3
"""Prints what an Am2901 of four bits answers, as rows, one for each function.

The functions, their flags and G and P are those of model/am2901.py.

    functions.py alu      two digits an answer: F; carry, overflow, zero, sign
    functions.py slice    three digits an answer: F; carry, overflow, zero, sign; G, P

Both stand in crates/mw_callrows/data/functions. A line has one R, and its answers stand in the order of S, then of the carry
in. Where a function is no sum, its carry and its overflow are printed as 0.
"""
import sys

import tools_path
from files import row_lines
from model.am2901 import FUNCTIONS, SUMS, answer, group

BITS = 4
WORDS = 1 << BITS
WHAT = {"alu": "the whole word of four bits", "slice": "one slice"}


def digits(kind, name, r, s, carry_in):
    f, carry, overflow = answer(BITS, name, r, s, carry_in)
    flags = 8 * (carry or 0) + 4 * (overflow or 0) + 2 * (f == 0) + (f >> BITS - 1)
    generate, propagate = group(BITS, name, r, s)
    return f"{f:X}{flags:X}" + (f"{2 * generate + propagate:X}" if kind == "slice" else "")


def report(kind, name):
    lines = ["".join(digits(kind, name, r, s, c) for s in range(WORDS) for c in (0, 1)) for r in range(WORDS)]
    answers = WORDS * WORDS * 2
    defined = f"carry and overflow are defined in {answers if name in SUMS else 0}"
    return "\n".join(lines + [defined if kind == "alu" else f"Y is F in {answers}"]) + "\n"


def print_rows(kind):
    print(f"# What {WHAT[kind]} answers, printed by tools/rows/functions.py.")
    for code, name in enumerate(FUNCTIONS):
        call = [f"call {kind} function={code}"]
        print("\n".join([""] + row_lines(f"{name} of {WHAT[kind]}", call, "gives", report(kind, name).encode())))


def main():
    match sys.argv[1:]:
        case [kind] if kind in WHAT:
            print_rows(kind)
        case _:
            sys.exit(__doc__)


if __name__ == "__main__":
    main()
