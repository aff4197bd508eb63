#!/usr/bin/env python3
"""Assembles microprograms, or says why they are refused, to see that the rows of `asm` are right.

The format of microprograms is that of model/microprogram.py. Board files are taken as right.

    microprograms.py check FILE..       the rows of `asm b m` in these files that have another report
    microprograms.py store              rows whose words fill the store, for crates/mw_rows/data/whole-store
    microprograms.py asm BOARD MICRO    the report of these files
"""
import sys
import tomllib

import tools_path
from files import file_lines, read_anew, row_lines, text_lines
from model.lines import Refused
from model.microprogram import Microprogram


def report(board, text, name="m"):
    """The listing of a microprogram on a board file, or why it is refused."""
    try:
        return Microprogram(tomllib.loads(board), text).listing()
    except Refused as refused:
        return f"refused {name} {refused}\n"


def wanted(row):
    """What a row of `asm` has to report; nothing where its board or its length is refused, which isn't looked at here."""
    files = row["files"]
    told = row["report"].startswith((b"refused b", b"fault")) or row["report"].endswith(b"cause 5\n")
    return None if told or row.get("$") != "asm b m" else report(files["b"].decode(), files["m"])


BYTE = """\
version = 1
width = 4
microword = 8
address = 4
fill = "0"
fields.a = [0, 4]
"""


def print_store():
    print("# Stores of 4,096 words, and one word more, printed by tools/rows/microprograms.py.")
    words = 4096 * b"a=1\n"
    for name, text in (("a store that is full", words), ("a word past the store", words + b"a=1\n"),
                       ("a word that stands in a full store", words + b"org 7\na=0\n")):
        given = ["$ asm b m"] + file_lines("b", BYTE.encode()) + ["file m", "* 4096 a=1\\n"] + text_lines(text[len(words):])
        ends = report(BYTE, text)
        status = 4 if ends.startswith("refused") else 0
        print("\n".join([""] + row_lines(name, given, f"status {status}", ends.encode())))


def main():
    match sys.argv[1:]:
        case ["check", *paths]:
            sys.exit(read_anew(paths, wanted))
        case ["store"]:
            print_store()
        case ["asm", board, micro]:
            with open(board, encoding="utf-8") as board_file, open(micro, "rb") as text:
                print(report(board_file.read(), text.read(), micro), end="")
        case _:
            sys.exit(__doc__)


if __name__ == "__main__":
    main()
