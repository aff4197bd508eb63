"""What `certify` answers, worked out anew: the cases of a boundary in their order, and the first start that differs.

The words of a case are those of words.py, their bits those of cofactors.py, and functions those of nodes.py. A case is
found by a start that leads into it, which cases.py runs on numbers; so both say what is decided.
"""
import sys

from model.cases import Case, Choice
from model.cofactors import Bits
from model.comparison import LISTS
from model.nodes import Nodes
from model.words import IN_LISTS, CaseWords, Values

# A function is as deep as it has variables.
sys.setrecursionlimit(20_000)
# The default budget of nodes.
NODES = 1_000_000


class Given(Values):
    """Values of which those of all variables are given."""

    def base(self, number):
        return self.given.get(("base", number), 0)


class Explored:
    """A case: its words, and what may be decided otherwise on its way."""

    def __init__(self, job, boundary, case):
        self.job, self.boundary, self.case = job, boundary, case
        self.listed, self.nodes = CaseWords(job, boundary, case), Nodes(NODES)
        self.bits = Bits(self.listed.words, self.nodes, job.board.map["entries"])
        # Of each decided bit its value, and where it is 0 and where it is 1; and the path of the whole case.
        self.decided, self.path = [], self.nodes.always
        for term, value in self.listed.asked:
            ways = self.under(term, self.nodes.never, self.path), self.under(term, self.path, self.nodes.never)
            self.decided.append((value, ways))
            self.path = ways[value]

    def under(self, term, one, zero):
        """One function where a word of a bit is 1, and another where it is 0."""
        [bit] = self.bits.of(term)
        self.bits.at = term.number, 0
        return self.bits.ite(bit, one, zero)

    def turning(self, value, places):
        """The first of these places whose bit has this value and may have the other one, and where it has."""
        for place in places:
            own, ways = self.decided[place]
            if own == value and ways[1 - value] != self.nodes.never:
                return place, self.start(ways[1 - value])
        return None

    def start(self, function):
        """The start of the first assignment under which a function holds."""
        given = {}
        for bit, number in self.nodes.first(function, self.nodes.always):
            op, _, numbers = self.listed.words.words[number - 1]
            given[op, numbers[0]] = given.get((op, numbers[0]), 0) | 1 << bit
        values = Given(given, {}, self.listed.memory, self.job.board.map["entries"]).work_out(self.listed.words.words)
        memory, lists = {}, {name: [] for name in LISTS}
        for address, word in self.listed.memory.reads:
            memory.setdefault(values.of(address), values.of(word))
        for (kind, number), value in given.items():
            if kind in IN_LISTS:
                entries = lists[IN_LISTS[kind]]
                entries += [0] * (number + 1 - len(entries))
                entries[number] = value
        names = list(self.job.widths)
        elements = {names[number]: value for (kind, number), value in given.items() if kind == "element"}
        return Choice(self.boundary, elements, memory, lists)

    def differing(self):
        """The start that a no shows where one of the case differs; None where none does."""
        if not self.listed.compared:
            return self.start(self.path)
        for term in self.listed.compared:
            unequal = self.under(term, self.nodes.never, self.path)
            if unequal != self.nodes.never:
                return self.start(unequal)
        return None


def first_case(job, start, kept):
    """The first case of those whose decided bits begin as so many of a start."""
    while True:
        explored = Explored(job, start.boundary, Case(job, start))
        turn = explored.turning(1, range(kept, len(explored.decided)))
        if turn is None:
            return explored
        kept, start = turn[0] + 1, turn[1]


def cases(job, boundary):
    """All cases of a boundary, in their order."""
    explored = first_case(job, Choice(boundary, {}, {}, {}), 0)
    while True:
        yield explored
        turn = explored.turning(0, reversed(range(len(explored.decided))))
        if turn is None:
            return
        explored = first_case(job, turn[1], turn[0] + 1)


def first_differing(job):
    """Of a job the start that a no shows; None where all is the same. And the cases that were looked at."""
    looked = []
    for boundary in job.blocks:
        for explored in cases(job, boundary):
            looked.append(explored)
            start = explored.differing()
            if start:
                return start, looked
    return None, looked
