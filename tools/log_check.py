#!/usr/bin/env python3
"""Judges texts of certificate logs by their grammar and their rules, and not for what a certificate needs of them.

    log_check.py BOUNDARIES FILE    says `accepted`, or the first fault, of a log of so many boundaries
    log_check.py cases CASES..      says which cases of the command `recheck`, JSON, one a line, end otherwise
    log_check.py rows CASES..       prints rows of `call log` of the logs of these cases, each once
"""
import sys
from pathlib import Path

sys.path.insert(0, str(Path(__file__).resolve().parent / "rows"))

from files import cases_of, contents_lines, contents_of, row_lines
from model.lines import Refused, lines_of

BAD_SYNTAX, TOO_WIDE, BAD_NODE, BAD_FACT, BAD_COUNT = 60, 33, 80, 81, 82
# Rows are of small logs.
SMALL = 600


class Boundary:
    """The nodes and the facts of a boundary: of a node its variable, as its order goes, and its branches."""

    def __init__(self):
        self.nodes = []
        self.facts = set()

    def is_there(self, x):
        return x < len(self.nodes) + 2

    def variable(self, x):
        """The variable of a node; a constant's comes after all others."""
        return self.nodes[x - 2][0] if x > 1 else (float("inf"), 0)

    def add_node(self, line, word, bit, high, low):
        variable = (bit, word)
        fits = all(self.is_there(x) and variable < self.variable(x) for x in (high, low))
        if not fits or high == low or (variable, high, low) in self.nodes:
            line.refuse(line.tokens[0][0], BAD_NODE)
        for at, value, limit in ((1, word, 2**64), (2, bit, 32)):
            if value >= limit:
                line.refuse(line.tokens[at][0], TOO_WIDE)
        self.nodes.append((variable, high, low))

    def results(self, f, g, h):
        """All results that a triple has, at once or by a fact."""
        at_once = {h} if f == 0 else {g} if f == 1 or g == h else set()
        return at_once | {fact[3] for fact in self.facts if fact[:3] == (f, g, h)}

    def half(self, x, variable, side):
        return self.nodes[x - 2][side] if self.variable(x) == variable else x

    def follows(self, f, g, h, r):
        if r in self.results(f, g, h):
            return True
        variable = min(map(self.variable, (f, g, h)))
        if variable == self.variable(0):
            return False
        highs, lows = (self.results(*(self.half(x, variable, side) for x in (f, g, h))) for side in (1, 2))
        return any(a == b == r or r > 1 and self.nodes[r - 2] == (variable, a, b) for a in highs for b in lows)

    def add_fact(self, line, *names):
        if not all(map(self.is_there, names)) or not self.follows(*names):
            line.refuse(line.tokens[0][0], BAD_FACT)
        self.facts.add(names)


def numbers(line, count):
    """The numbers behind a line's first word, of which there are so many."""
    for at in range(1, count + 1):
        if line.kind(at) != "number":
            line.refuse(line.tokens[at][0] if at < len(line.tokens) else line.end, BAD_SYNTAX)
    if len(line.tokens) > count + 1:
        line.refuse(line.tokens[count + 1][0], BAD_SYNTAX)
    return [token[2] for token in line.tokens[1:]]


def check(boundaries, text):
    """Refuses a text that is no log of so many boundaries."""
    lines = lines_of(text)
    met = []
    for line in lines:
        if not line.tokens:
            continue
        word = line.tokens[0][2] if line.kind(0) == "name" else None
        if word == "boundary":
            numbers(line, 0)
            if len(met) == boundaries:
                line.refuse(line.tokens[0][0], BAD_COUNT)
            met.append(Boundary())
        elif met and word == "n":
            met[-1].add_node(line, *numbers(line, 4))
        elif met and word == "i":
            met[-1].add_fact(line, *numbers(line, 4))
        else:
            line.refuse(line.tokens[0][0], BAD_SYNTAX)
    if len(met) < boundaries:
        raise Refused(lines[-1].number if lines else 1, lines[-1].end if lines else 1, BAD_COUNT)


def printed(text):
    """An accepted log as it is printed: single blanks, decimal numbers, no comments and no blank lines."""
    lines = (" ".join(str(token[2]) for token in line.tokens) for line in lines_of(text) if line.tokens)
    return "".join(line + "\n" for line in lines)


def said_of(boundaries, text):
    try:
        check(boundaries, text)
        return "accepted"
    except Refused as refused:
        return f"refused {refused}"


def boundaries_of(case):
    """How many boundaries the relation of a case has."""
    relation = contents_of(case["files"][case["words"][4]])
    return sum(line.split(b";")[0].split()[:1] == [b"boundary"] for line in relation.split(b"\n"))


def logs_of(cases):
    """The cases that come to the log: each with its log, its boundaries, and what it says of the log's text."""
    for case in cases:
        words, report = case["words"], case["stdout"] or ""
        if words[0] != "recheck" or len(words) != 6 or case["status"] not in (0, 1, 2, 4):
            continue
        log = case["files"].get(words[5])
        if log is None or len(contents_of(log)) > 1048576:
            continue
        place = f"refused {words[5]} "
        if case["status"] == 4 and not report.startswith(place):
            continue
        said = report.strip().replace(place, "refused ") if case["status"] == 4 else "accepted"
        yield case, log, boundaries_of(case), said


def print_wrong(cases):
    """Prints the cases that end otherwise. How many there were, and whether all are right."""
    wrong = count = 0
    for case, log, boundaries, wanted in logs_of(cases):
        count += 1
        said = said_of(boundaries, contents_of(log))
        if said != wanted:
            wrong += 1
            print(f"{case['name']}: {said}, where the case has: {wanted}")
    print(f"{count} logs, {wrong} judged otherwise")
    return not wrong


def print_rows(cases):
    known = set()
    for case, log, boundaries, wanted in logs_of(cases):
        key = (boundaries, contents_of(log))
        if key in known or len(key[1]) > SMALL:
            continue
        known.add(key)
        report = printed(key[1]) if wanted == "accepted" else f"{wanted}\n"
        given = contents_lines("text", log) + [f"call log boundaries={boundaries:x}"]
        print("\n".join(row_lines(case["name"], given, "gives", report.encode())) + "\n")


if __name__ == "__main__":
    if sys.argv[1] == "cases":
        sys.exit(not print_wrong(cases_of(sys.argv[2:])))
    if sys.argv[1] == "rows":
        print_rows(cases_of(sys.argv[2:]))
    else:
        print(said_of(int(sys.argv[1]), Path(sys.argv[2]).read_bytes()))
