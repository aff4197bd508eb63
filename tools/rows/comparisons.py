#!/usr/bin/env python3
"""Prints rows of `compare` over five files, and runs a board and a described machine from one start.

Starts, the relation of two states and the comparison are those of model/comparison.py. Board files are taken as right.
comparison_cases.py has the cases.

    comparisons.py rows NAME               a file of rows: instructions, comparisons, events, starts
    comparisons.py check FILE..            the rows of `compare` in these files that report something else
    comparisons.py vectors FILE..          the same of files of JSON, one case a line
    comparisons.py report B M K R S        the report of these files
"""
import json
import sys
from base64 import b64decode

import tools_path
from comparison_cases import print_rows
from files import read
from model.comparison import report


def cases_of_rows(paths):
    for path in paths:
        for row in read(path):
            if row.get("$", "").startswith("compare "):
                yield f"{path} {row['name']}", row["$"].split(), row["files"], row["report"]


def cases_of_vectors(paths):
    for path in paths:
        with open(path, encoding="utf-8") as lines:
            for line in lines:
                case = json.loads(line)
                files = {name: b64decode(text[7:]) if text.startswith("base64:") else text.encode()
                         for name, text in case["files"].items()}
                yield case["name"], case["words"], files, case["stdout"].encode()


def print_unlike(cases):
    """Prints the cases whose report is another one. Whether a board is right, or a file too long or not there, isn't looked
    at. The status is 1 where there are such cases."""
    count = unlike = 0
    for name, words, files, wanted in cases:
        elsewhere = wanted.startswith((f"refused {words[1]} ".encode(), b"fault")) or wanted.endswith(b"cause 5\n")
        if words[0] != "compare" or elsewhere:
            continue
        count += 1
        found = report([files.get(word, b"") for word in words[1:]], words[1:])
        if found.encode() != wanted:
            unlike += 1
            print(f"{name}: {found}wanted {wanted.decode()}")
    print(f"{count} cases, {unlike} unlike")
    return int(unlike > 0)


def main():
    sys.setrecursionlimit(100000)
    match sys.argv[1:]:
        case ["rows", name]:
            print_rows(name)
        case ["check", *paths]:
            sys.exit(print_unlike(cases_of_rows(paths)))
        case ["vectors", *paths]:
            sys.exit(print_unlike(cases_of_vectors(paths)))
        case ["report", *paths] if len(paths) == 5:
            texts = []
            for path in paths:
                with open(path, "rb") as file:
                    texts.append(file.read())
            print(report(texts, paths), end="")
        case _:
            sys.exit(__doc__)


if __name__ == "__main__":
    main()
