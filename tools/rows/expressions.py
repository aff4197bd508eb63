#!/usr/bin/env python3
"""Reads expressions, to see that the rows of `call expression` are right.

Their grammar, widths, values and first faults are those of model/expression.py.

    expressions.py check FILE..           the rows of `call expression` in these files that give something else
    expressions.py give TEXT WORD..       what this text gives with these words of the call
"""
import sys

import tools_path
from files import read_anew
from model.expression import Over, Reader, judged, shown, valued
from model.lines import Refused, lines_of


def given(text, words):
    """What the call gives."""
    over, report = Over(words), []
    try:
        lines = [line for line in lines_of(text) if line.tokens]
    except Refused as refused:
        return f"refused {refused}\n"
    for line in lines:
        try:
            tree = Reader(line, over).whole()
            faults = []
            judged(tree, over, 1, faults)
            if faults:
                line.refuse(*min(faults))
            width, value = valued(tree, over)
            report.append(f"{shown(tree)} width {width} value 0x{value:X}\n")
        except Refused as refused:
            report.append(f"refused {refused}\n")
    return "".join(report)


def report_of(row):
    """What a row of these files gives."""
    what, *words = row.get("call", "none").split()
    return given(row["files"]["text"], words) if what == "expression" else None


def main():
    sys.setrecursionlimit(100000)
    match sys.argv[1:]:
        case ["check", *paths]:
            sys.exit(read_anew(paths, report_of))
        case ["give", text, *words]:
            print(given(text.encode(), words), end="")
        case _:
            sys.exit(__doc__)


if __name__ == "__main__":
    main()
