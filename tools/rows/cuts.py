#!/usr/bin/env python3
"""Prints rows of `certify` over the small case with one file cut after each of its bytes.

Texts and their refusals are those of model/comparison.py and what it stands on, cut board files those of model/board.py,
and what `certify` answers that of model/certified.py.

    cuts.py rows    the rows, for crates/mw_rows/data/cuts
    cuts.py counts  no row: how many of the cuts of each file end with which status
"""
import sys
from collections import Counter

import tools_path
from files import file_lines, row_lines
from differences import counter
from model.board import missing_key
from model.certified import first_differing
from model.comparison import FileRefused, Job, difference
from small import SMALL_BOARD, SMALL_MACHINE, SMALL_MICRO, SMALL_RELATION

SMALL = {"b": SMALL_BOARD, "m": SMALL_MICRO, "k": SMALL_MACHINE, "r": SMALL_RELATION}
NAMES = {"b": "board", "m": "microprogram", "k": "machine", "r": "relation"}
STATUSES = {"yes": 0, "no": 1, "refused": 4}
HEAD = """\
# The small case with one file cut after each of its bytes, by `certify`, printed by tools/rows/cuts.py, which works out
# the answers from the formats, the word table and the term table, without the crates."""


def certified(job):
    """The report of `certify` on a job."""
    start, looked = first_differing(job)
    if start:
        return f"no\ndifference {difference(job, start)}\n{counter(job, start)}"
    lines = ["yes"]
    for at in job.blocks:
        cycles = [len(each.case.cycles) for each in looked if each.boundary == at]
        states = "restricted" if any(name.startswith("m.") for name in job.left(at)) else "all"
        lines.append(f"boundary 0x{at:X} cases {len(cycles)} cycles {max(cycles)} machine-states {states}")
    return "".join(f"{line}\n" for line in lines)


def report(files):
    """The report of `certify` on these four files."""
    key = missing_key(files["b"])
    if key:
        return f"refused b key {key}\n"
    try:
        return certified(Job(files["b"].decode(), files["m"], files["k"], files["r"]))
    except FileRefused as refused:
        return "refused {} {}\n".format(*refused.args)


def status(text):
    return STATUSES[text.split()[0]]


def cuts(name):
    """The reports of a file's cuts, by how many bytes are left."""
    for count in range(len(SMALL[name]) + 1):
        yield count, report(SMALL | {name: SMALL[name][:count]})


def print_rows():
    print(HEAD)
    for name, text in SMALL.items():
        print("\n".join(["", f"set {NAMES[name]}", *file_lines(name, text)]))
    for name in SMALL:
        whole = [f"with {NAMES[other]}" for other in SMALL if other != name]
        for count, text in cuts(name):
            given = ["$ certify b m k r", *whole, *file_lines(name, SMALL[name][:count])]
            title = f"the {NAMES[name]} cut after {count} bytes"
            print("\n".join(["", *row_lines(title, given, f"status {status(text)}", text.encode())]))


def main():
    match sys.argv[1:]:
        case ["rows"]:
            print_rows()
        case ["counts"]:
            for name in SMALL:
                print(NAMES[name], dict(sorted(Counter(status(text) for _, text in cuts(name)).items())))
        case _:
            sys.exit(__doc__)


if __name__ == "__main__":
    main()
