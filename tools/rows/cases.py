#!/usr/bin/env python3
"""Lists the cases of the boundaries of small jobs, from all their starts, and prints them as rows.

What a start decides is worked out by model/cases.py. case_jobs.py has the jobs, and says of each which elements, memory
words, lines, noise and inputs it reads. These take all their values, and all else is 0.

    cases.py rows           the rows of `call cases`, and of `call count-cases` where a boundary has very many, for
                            crates/mw_callrows/data/cases
    cases.py --check        no row: starts in which everything is random have no other case
    cases.py list NAME      the cases of one job
"""
import random
import sys

import tools_path
from case_jobs import BOARDS, JOBS, job_of, random_job
from files import file_lines, row_lines
from model.cases import Case, cases, random_start, starts

# A boundary with more cases than these has their number in its row.
MOST_CASES = 64
# The budgets of rows that aren't about them, and of how many jobs the least budgets are tried.
MOST_NODES = MOST_PATHS = 0x10000
LIMITED_JOBS = 12
SAMPLES = 400
RANDOM_JOBS = 24
HEAD = """\
# Cases of boundaries, printed by tools/rows/cases.py from all starts of small jobs, without the crates: what a start
# decides, how many cycles its segment has, and whether it is late."""


def reads_noise(texts, reads):
    """Whether some start goes another way where each bit of the noise is another one."""
    job = job_of(texts)
    for at in job.blocks:
        for start in starts(job, at, reads):
            found = []
            for noise in (0, 0x3FFF):
                start.lists["noise"] = [noise] * job.blocks[at][1]
                found.append(Case(job, start).bits())
            if found[0] != found[1]:
                return True
    return False


def random_jobs():
    """Random jobs that read no noise, the first of them."""
    kept = (each for each in map(random_job, range(1000)) if not reads_noise(*each[1:]))
    return [next(kept) for _ in range(RANDOM_JOBS)]


def listed(texts, reads):
    """The cases of each boundary of a job, by its address."""
    job = job_of(texts)
    return {at: cases(job, at, reads.get(at, reads)) for at in job.blocks}


def report(boundaries, paths=MOST_PATHS):
    """The cases of each boundary, within a budget of paths."""
    lines = []
    for at, found in boundaries.items():
        lines += [f"boundary 0x{at:x}"] + [case.line() for case in found.values()][:paths]
        if len(found) > paths:
            lines.append(f"over paths {paths}")
    return "".join(f"{line}\n" for line in lines)


def counts(boundaries):
    """As the report of a yes counts: the number of cases, and the cycles of the longest."""
    return "".join(f"boundary 0x{at:x} cases {len(found)} cycles {max(len(case.cycles) for case in found.values())}\n"
                   for at, found in boundaries.items())


def given_lines(texts):
    lines = [f"with {texts[0]}"]
    for file, text in zip(("m", "k", "text"), texts[1:]):
        lines += file_lines(file, text.encode())
    return lines


def print_row(name, texts, call, end, paths=MOST_PATHS):
    words = f"call {call} nodes={MOST_NODES:x} paths={paths:x}"
    print("\n".join([""] + row_lines(name, given_lines(texts) + [words], "gives", end.encode())))


def print_limits(name, texts, found):
    """The rows of a job with no path, with one too few for its largest boundary, and with as many as that has."""
    most = max(map(len, found.values()))
    for paths in sorted({0, most - 1, most}):
        print_row(f"{name}, {paths} paths", texts, "cases", report(found, paths), paths)


def print_rows():
    print(HEAD)
    for name, text in BOARDS.items():
        print("\n".join(["", f"set {name}"] + file_lines("b", text.encode())))
    limited = 0
    for name, texts, reads in JOBS + random_jobs():
        found = listed(texts, reads)
        most = max(map(len, found.values()))
        if most > MOST_CASES:
            print_row(name, texts, "count-cases", counts(found))
            continue
        print_row(name, texts, "cases", report(found))
        if most > 2 and limited < LIMITED_JOBS:
            limited += 1
            print_limits(name, texts, found)


def check():
    """Random starts: none has a case that isn't listed."""
    random.seed(2910)
    for name, texts, reads in JOBS + random_jobs():
        job = job_of(texts)
        for at, found in listed(texts, reads).items():
            seen = set()
            for _ in range(SAMPLES):
                case = Case(job, random_start(job, at))
                seen.add(case.bits())
                if case.bits() not in found:
                    print(f"{name}: boundary 0x{at:X}: {case.line()} isn't listed")
                    break
            print(f"{name}: boundary 0x{at:X} has {len(found)} cases, {len(seen)} of them met at random")


def main():
    match sys.argv[1:]:
        case ["rows"]:
            print_rows()
        case ["--check"]:
            check()
        case ["list", wanted]:
            for name, texts, reads in JOBS:
                if name == wanted:
                    found = listed(texts, reads)
                    print(report(found) + counts(found), end="")
        case _:
            sys.exit(__doc__)


if __name__ == "__main__":
    main()
