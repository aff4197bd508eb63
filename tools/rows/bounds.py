#!/usr/bin/env python3
"""Finds how long the segments of small jobs last, from all their starts, and prints it as rows of `bounds`.

Cases are listed by model/cases.py. Of the first case that has the least length, and of the first that has the greatest,
the start is taken whose variables are first: those of the word list before anything is compared, by model/words.py.
case_jobs.py and difference_jobs.py have the jobs.

    bounds.py rows          the rows, for crates/mw_rows/data/lengths
    bounds.py --check       no row: starts in which everything is random have no length outside, and of the cases of
                            the starts taken none has variables that are before
    bounds.py list NAME     the report of one job
"""
import random
import sys
from math import prod

import difference_jobs
import tools_path
from case_jobs import BACK, BOARDS, JOBS, JUMP_BACK, boundary, job, job_of, random_job
from cases import given_lines
from differences import Assigned, counter
from files import file_lines, row_lines
from model.cases import Case, decided, random_start, starts
from model.words import CaseWords

SAMPLES = 200
# Jobs with more starts at a boundary than these are left out.
MOST_STARTS = 4096
# The numbers of random jobs that read no noise.
AT_RANDOM = *range(13), 14, 15, 17
# Cases whose first start is another one where the variables stand by word, and then by bit: bit 1 of the first word
# stands behind bit 0 of the second.
BY_BIT = [
    job(f"a first start by bit, and then by word, the flag {what}",
        f"LOOP: dst=1, seq=3, FLAG, turn={turn}, br=2\n{JUMP_BACK}dst=1, CONT\n{BACK}",
        "memory 2 4\nregister X 2\nregister Y 2\nstep\n", boundary("LOOP", 3, "b.flag = m.X[1] | m.Y[0]"),
        elements=["m.X", "m.Y"])
    for what, turn in (("for the longer way", 0), ("for the shorter way", 1))
]
HEAD = """\
# How long the segments of small jobs last, printed by tools/rows/bounds.py from all their starts, without the crates:
# of the first case with the least length, and of the first with the greatest, the start whose variables are first."""


class Shown:
    """A case, and the first assignment that takes its path."""

    def __init__(self, job, boundary, case, own):
        self.job, self.boundary, self.case = job, boundary, case
        self.listed = CaseWords(job, boundary, case, compared=False)
        self.least = min((Assigned(self.listed, start) for start in own), key=Assigned.key)

    def is_before(self, start):
        """Whether a start of its case has variables that are before."""
        return Assigned(self.listed, start).key() < self.least.key()

    def start(self):
        start = self.least.start(self.boundary)
        assert Case(self.job, start).bits() == self.case.bits()
        return start


def length(case):
    """The length of a case's starts, in the order of lengths: late is above all numbers of cycles."""
    return case.late, 0 if case.late else len(case.cycles)


def length_text(case):
    return "late" if case.late else f"{len(case.cycles)}"


class Range:
    """The least and the greatest length at a boundary, each with the start that shows it."""

    def __init__(self, job, boundary, reads):
        self.job, self.boundary, found = job, boundary, {}
        for start in starts(job, boundary, reads):
            case = Case(job, start)
            found.setdefault(case.bits(), (case, []))[1].append(start)
        ordered = [found[bits] for bits in sorted(found, key=decided)]
        self.count = len(ordered)
        # Both take the first of those that are alike.
        self.least, self.greatest = (Shown(job, boundary, *which(ordered, key=lambda each: length(each[0])))
                                     for which in (min, max))

    def line(self):
        least, greatest = map(length_text, (self.least.case, self.greatest.case))
        return f"boundary 0x{self.boundary:X} least {least} greatest {greatest}\n"

    def report(self):
        least, greatest = (counter(self.job, each.start()) for each in (self.least, self.greatest))
        return f"{self.line()}least\n{least}greatest\n{greatest}"


def ranges(texts, reads):
    """The range of each boundary of a job, in the order of the relation."""
    job = job_of(texts)
    return [Range(job, at, reads.get(at, reads)) for at in job.blocks]


def report(found):
    return "".join(each.report() for each in found)


def start_count(job, reads):
    """How many starts there are by what is read."""
    bits = sum(job.widths[name] for name in reads.get("elements", []))
    bits += job.word * (len(reads.get("memory", [])) + reads.get("inputs", 0)) + reads.get("line", 0)
    return 2**bits * prod(map(len, reads.get("noise", [])))


def jobs():
    """The jobs with few starts, each name once."""
    every = difference_jobs.JOBS + JOBS + BY_BIT + [random_job(number) for number in AT_RANDOM]
    named = {each[0]: each for each in every}
    return [each for each in named.values() if start_count(job_of(each[1]), each[2]) <= MOST_STARTS]


def is_shown(found):
    """Whether a job has a row: where a boundary has several cases, or there are several boundaries."""
    return len(found) > 1 or any(each.count > 1 for each in found)


def print_rows():
    print(HEAD)
    for name, text in BOARDS.items():
        print("\n".join(["", f"set {name}"] + file_lines("b", text.encode())))
    for name, texts, reads in jobs():
        found = ranges(texts, reads)
        if is_shown(found):
            lines = ["$ bounds b m k text", *given_lines(texts)]
            print("\n".join([""] + row_lines(name, lines, "status 0", report(found).encode())))


def check():
    """Random starts: none has a length outside, and none of a case that is shown comes before the start printed."""
    random.seed(2912)
    for name, texts, reads in jobs():
        met = 0
        for found in ranges(texts, reads):
            for _ in range(SAMPLES):
                start = random_start(found.job, found.boundary)
                case = Case(found.job, start)
                assert length(found.least.case) <= length(case) <= length(found.greatest.case), (name, case.line())
                for shown in (found.least, found.greatest):
                    if length(case) == length(shown.case):
                        assert decided(shown.case.bits()) <= decided(case.bits()), (name, case.line())
                    if case.bits() == shown.case.bits():
                        assert not shown.is_before(start), (name, counter(found.job, start))
                        met += 1
        print(f"{name}: {met} of the cases that are shown", flush=True)


def main():
    match sys.argv[1:]:
        case ["rows"]:
            print_rows()
        case ["--check"]:
            check()
        case ["list", wanted]:
            for name, texts, reads in jobs():
                if wanted in (name, "all"):
                    print(f"{name}\n" + report(ranges(texts, reads)), end="", flush=True)
        case _:
            sys.exit(__doc__)


if __name__ == "__main__":
    main()
