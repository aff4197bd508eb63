#!/usr/bin/env python3
"""Rows of PDP-8 programs at their console, as crates/mw_rows runs them, from cases of the command `pal` that are JSON,
one a line.

    pal.py CASES..    prints the rows of crates/mw_rows/data/pal. The PDP-8 of the cases is that of examples/pdp8, whose
                      description and relation say the same in other words. Those of changed microprograms are left out
"""
import json
import re
import sys
from itertools import chain
from pathlib import Path

import tools_path
from files import case_lines, cases_of, contents_lines, hashed, sets_of

EXAMPLE = Path(__file__).resolve().parent.parent.parent / "examples" / "pdp8"
FILES = {"b": "board.toml", "m": "micro", "k": "machine", "r": "relation"}
# What the names of cases of changed microprograms begin with.
CHANGED = "changed"
# The names of worked rows.
WORKED = {"row-0": "pal-prints", "row-1": "pal-echoes", "row-2": "pal-refusals, another page",
          "row-3": "pal-refusals, tests of both kinds", "machine-104": "pal-refusals, no PDP-8"}
HEAD = """\
# PDP-8 programs at their console, beside a board: what is printed, and an environment in which the board runs them; the
# first difference; or the first fault. The answers are those of a second implementation, of which tools/rows/pal.py
# prints the rows. The faults of the PDP-8 are tried in the file of faults."""


def plain(case):
    """A case whose machine has a short comment at its head."""
    machine = re.sub("^; PDP-8/E .*", "; PDP-8/E", case["files"].get("k", ""))
    return case | {"files": {file: machine if file == "k" else text for file, text in case["files"].items()}}


def is_taken(case):
    return not case["name"].startswith(CHANGED)


def with_later(case):
    """A case, and one for each command that takes its report: the report is a file of it."""
    yield case
    for then in case.get("then", []):
        name = f"{case['name']}, {then['words'][0]} on the board"
        files = {file: case["files"][file] for file in then["words"] if file in case["files"]}
        yield then | {"name": name, "files": files | {then["save"]: case["stdout"]}}


def is_pdp8s(case, file, pdp8):
    return pdp8.get(file) == case["files"].get(file)


def lines_of(case, pdp8, sets):
    """The row of a case: the files of the PDP-8 are one set, unless it has others in the place of some; each of several
    cases is one too."""
    names = [file for file in pdp8 if file in case["files"]]
    is_whole = all(is_pdp8s(case, file, pdp8) for file in names)
    given = ["with pdp8"] if is_whole else [f"with pdp8 {file}" for file in names if is_pdp8s(case, file, pdp8)]
    own = {file: text for file, text in case["files"].items() if file not in pdp8 or not is_pdp8s(case, file, pdp8)}
    row, words, *others = case_lines(case | {"files": own}, sets)
    return [row, words, *(given if names else []), *others]


def main():
    taken = filter(is_taken, map(plain, cases_of(sys.argv[1:])))
    named = (case | {"name": WORKED.get(case["name"], case["name"])} for case in taken)
    cases = [each for case in named for each in with_later(case)]
    pdp8 = {name: cases[0]["files"][name] for name in FILES}
    sets = {file: name for file, name in sets_of(cases).items() if file not in {hashed(*its) for its in pdp8.items()}}
    texts = {name: contents_lines(name, (EXAMPLE / file).read_text()) for name, file in FILES.items()}
    print("\n".join([HEAD, "", "set pdp8", *chain.from_iterable(texts.values())]))
    for name, lines in texts.items():
        print("\n".join(["", f"set pdp8 {name}", *lines]))
    for (file, text), name in sets.items():
        print("\n".join(["", f"set {name}", *contents_lines(file, json.loads(text))]))
    for case in cases:
        print("\n".join(["", *lines_of(case, pdp8, sets)]))


if __name__ == "__main__":
    main()
