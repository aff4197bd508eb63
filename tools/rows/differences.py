#!/usr/bin/env python3
"""Finds for each case of small jobs the start that a no has to print, from all their starts, and prints it as rows.

Starts are run by model/comparison.py, which has their first differences, and cases listed by model/cases.py. Of the
starts of a case that differ first at the first comparison at which any does, the one is taken whose variables are first;
where all of them differ (late, other events, another stack pointer), it is taken from all. The variables and their order
are those of the word list, by model/words.py, and their values are worked out on it. difference_jobs.py has the jobs.

    differences.py rows         the rows of `call differs` and `call counter`, for crates/mw_callrows/data/differences
    differences.py --check      no row: starts in which everything is random differ nowhere before, and with no variables
                                that are before those of the start taken
    differences.py list NAME    what one job gives
"""
import random
import sys
from collections import Counter

import tools_path
from case_jobs import BOARDS, job_of
from cases import MOST_NODES, MOST_PATHS, given_lines
from difference_jobs import COUNTERS, FEW, JOBS, TIGHT
from files import file_lines, row_lines
from model.cases import Case, Choice, decided, random_start, starts
from model.comparison import LISTS, Start, board_state, completed, difference, first_step, segment
from model.environments import list_lines, memory_lines
from model.words import IN_LISTS, CaseWords, Values
from nodes import Boundary, has_twin

# The kinds of variables of a list.
VARIABLES = "element", "base", "address", *IN_LISTS
# The place of the comparison of memories, behind those of events and of lines.
MEMORY = 2, 0
SAMPLES = 2000
HEAD = """\
# Cases of boundaries, each with the start that differs of which a no speaks, and what a replay of it shows, printed by
# tools/rows/differences.py from all starts of small jobs, without the crates; and counters that are read and printed."""


# ---- variables

class First(Values):
    """Values of which a base read has 0 where an earlier one has its address."""

    def base(self, number):
        address = self.of(self.memory.reads[number][0])
        earlier = [self.of(each) for each, _ in self.memory.reads[:number]]
        return 0 if address in earlier else self.image.get(address, 0)


class Assigned:
    """The values of a list's variables that give a start, where the address compared last is this one."""

    def __init__(self, listed, start, address=0):
        names = {name: number for number, name in enumerate(listed.job.widths)}
        given = {("element", names[name]): value for name, value in start.values.items()}
        given |= {(kind, number): value for kind, name in IN_LISTS.items()
                  for number, value in enumerate(start.lists.get(name, []))}
        given["address", 0] = address
        values = First(given, start.words, listed.memory, listed.job.board.map["entries"]).work_out(listed.words.words)
        self.listed, self.values = listed, values
        self.variables = [(op, *numbers, value) for (op, _, numbers), value in zip(listed.words.words, values.values)
                          if op in VARIABLES]

    def key(self):
        """Its bits in the order of Boolean variables: by bit, then by word number."""
        return [value >> bit & 1 for bit in range(32) for *_, width, value in self.variables if bit < width]

    def start(self, boundary):
        """The start that it gives."""
        names, memory = list(self.listed.job.widths), {}
        lists = {name: [] for name in LISTS}
        for kind, number, _, value in self.variables:
            if kind in IN_LISTS:
                entries = lists[IN_LISTS[kind]]
                entries += [0] * (number + 1 - len(entries))
                entries[number] = value
        for address, word in self.listed.memory.reads:
            memory.setdefault(self.values.of(address), self.values.of(word))
        values = {names[number]: value for kind, number, _, value in self.variables if kind == "element"}
        return Choice(boundary, values, memory, lists)


# ---- starts that differ

class Ends:
    """Where a start comes to: the address, whether all starts of its case differ, and the addresses at which the memories
    differ."""

    def __init__(self, job, start):
        values = completed(job, start)
        state = board_state(job, values, job.blocks[start.boundary][2], start.words)
        self.at, board, events = segment(job, start, state)
        self.all, self.addresses = True, []
        if board is None:
            return
        described = first_step(job, start, values, start, state)
        kinds = [[kind for kind, _ in each] for each in (events, described.events)]
        self.all = kinds[0] != kinds[1] or board.sp != job.blocks[self.at][2]
        other = described.over.memory
        self.addresses = [at for at in range(2**job.address) if board.memory.get(at, 0) != other.get(at, 0)]


def place_of(job, at, shown):
    """The place of a difference among the comparisons of a case that ends at this address."""
    what, _, which = shown.partition(" ")
    if what == "element":
        return 1, job.left(at).index(which)
    return (0, int(which)) if what == "event" else MEMORY


class Differing:
    """The comparison of a case that fails first, by its place, and the first assignment under which it does."""

    def __init__(self, job, start, case):
        self.job, self.boundary, self.case = job, start.boundary, case
        self.listed, self.all = CaseWords(job, start.boundary, case), Ends(job, start).all
        assert self.all == (not self.listed.compared), "the list has no comparison exactly where all starts differ"
        self.found, self.least = (), None

    def failing(self, start):
        """The place of the comparison that fails first, and the addresses of the one of memories; None where none fails."""
        shown = difference(self.job, start)
        if self.all or shown is None:
            return shown and ((0, 0), [0])
        ends = Ends(self.job, start)
        place = place_of(self.job, ends.at, shown)
        return place, ends.addresses if place == MEMORY else [0]

    def assigned(self, start):
        """What is failing with the assignments under which it does, those that may be first."""
        place, addresses = self.failing(start) or ((), [])
        if self.least and place > self.found[0]:
            return
        for address in addresses:
            each = Assigned(self.listed, start, address)
            yield (place, each.key()), each

    def take(self, start):
        for found, each in self.assigned(start):
            if self.least is None or found < self.found:
                self.found, self.least = found, each

    def end(self):
        """The start, and the difference that it shows."""
        start = self.least.start(self.boundary)
        assert Case(self.job, start).bits() == self.case.bits() and self.failing(start)[0] == self.found[0]
        return start, difference(self.job, start)

    def report(self):
        if self.least is None:
            return self.case.line() + "\nsame\n"
        start, shown = self.end()
        return f"{self.case.line()}\n{counter(self.job, start)}{'stack pointer' if shown == 'element b.sp' else shown}\n"


def differing(job, boundary, reads):
    """The cases of a boundary in their order, by their bits."""
    found = {}
    for start in starts(job, boundary, reads):
        case = Case(job, start)
        if case.bits() not in found:
            found[case.bits()] = Differing(job, start, case)
        found[case.bits()].take(start)
    return {bits: found[bits] for bits in sorted(found, key=decided)}


def counter(job, start):
    """A start as a report prints it."""
    lines = [f"boundary 0x{start.boundary:X}"]
    lines += [f"set {name} 0x{start.values[name]:X}" for name in job.widths if start.values.get(name)]
    lines += [*memory_lines(start.words), *list_lines(start.lists)]
    return "".join(f"{line}\n" for line in lines)


def answers(texts, reads):
    """The cases of each boundary of a job."""
    job = job_of(texts)
    return {at: differing(job, at, reads.get(at, reads)) for at in job.blocks}


def report(boundaries, paths=MOST_PATHS):
    """The cases of each boundary with their starts, within a budget of paths."""
    lines = []
    for at, found in boundaries.items():
        lines += [f"boundary 0x{at:x}\n"] + [each.report() for each in found.values()][:paths]
        lines += [f"over paths {paths}\n"] if len(found) > paths else []
    return "".join(lines)


def tight_report(texts, reads, nodes):
    """The same within a budget of nodes, for a job of which no start differs."""
    lines = []
    for at, found in answers(texts, reads).items():
        lines.append(f"boundary 0x{at:x}\n")
        cases = {bits: each.case for bits, each in found.items()}
        listed = Boundary(job_of(texts), at, cases, compared=True)
        assert all(each.least is None for each in found.values()) and not has_twin(listed, nodes)
        number, over = listed.first(nodes) or (len(found), None)
        lines += [f"{case.line()}\nsame\n" for case in listed.cases[:number]]
        if over:
            # An operation of a comparison comes behind its case, one of a decided bit in its place.
            lines += [f"{listed.cases[number].line()}\n"] * (over.place == len(listed.cases[number].bits()))
            lines.append(f"over nodes {listed.named(number, over)}\n")
    return "".join(lines)


# ---- rows

def print_row(name, texts, given, call, end):
    lines = given_lines(texts) + [*given, f"call {call}"]
    print("\n".join([""] + row_lines(name, lines, "gives", end.encode())))


def print_differs(name, texts, end, nodes=MOST_NODES, paths=MOST_PATHS):
    print_row(name, texts, [], f"differs nodes={nodes:x} paths={paths:x}", end)


def print_rows():
    print(HEAD)
    for name, text in BOARDS.items():
        print("\n".join(["", f"set {name}"] + file_lines("b", text.encode())))
    again = {name for name, *_ in TIGHT}
    for name, texts, reads in JOBS:
        if name not in again:
            print_differs(name, texts, report(answers(texts, reads)))
    for name, texts, reads, paths in FEW:
        print_differs(f"{name}, {paths} paths", texts, report(answers(texts, reads), paths), paths=paths)
    for name, texts, reads, nodes in TIGHT:
        print_differs(f"{name}, {nodes} nodes", texts, tight_report(texts, reads, nodes), nodes=nodes)
    for name, texts, text in COUNTERS:
        job = job_of(texts)
        print_row(name, texts, file_lines("s", text.encode()), "counter", counter(job, Start(job, text.encode())))


def check():
    """Random starts: none differs at a comparison that stands before, or there with variables that are before."""
    random.seed(2911)
    shown = Counter()
    for name, texts, reads in JOBS:
        job, met = job_of(texts), 0
        for at, found in answers(texts, reads).items():
            shown.update(each.end()[1].split()[0] if each.least else "same" for each in found.values())
            for _ in range(SAMPLES):
                start = random_start(job, at)
                each = found[Case(job, start).bits()]
                for other, _ in each.assigned(start):
                    assert each.least and each.found <= other, (name, counter(job, start))
                    met += 1
        print(f"{name}: {met} that differ at the same comparison", flush=True)
    print(dict(shown))


def main():
    match sys.argv[1:]:
        case ["rows"]:
            print_rows()
        case ["--check"]:
            check()
        case ["list", wanted]:
            for name, texts, reads in JOBS:
                if wanted in (name, "all"):
                    print(f"{name}\n" + report(answers(texts, reads)), end="", flush=True)
        case _:
            sys.exit(__doc__)


if __name__ == "__main__":
    main()
