#!/usr/bin/env python3
"""Finds what is named where an operation of a case has more joint cofactors than a budget of nodes, and prints it as rows.

model/words.py has the words of a case, from the word table, and model/cofactors.py their operations, from the term table
and truth tables. The jobs and the cases, with their order, are those of cases.py, from all starts.

    nodes.py rows           the rows of `call cases` with budgets of nodes, for crates/mw_callrows/data/nodes
    nodes.py --check        no row: what is named is right, whatever the order; and the words and bits of each case are
                            those of its starts
    nodes.py list NAME      what one job gives with each budget up to the least that is enough
"""
import random
import sys
from itertools import product

import tools_path
from case_jobs import BOARDS, JOBS, job_of
from cases import MOST_PATHS, given_lines, random_jobs
from files import file_lines, row_lines
from model.cases import Case, bits_text, cases, decided, random_start
from model.cofactors import ONE, Bits, Path, operated, path_words
from model.comparison import difference
from model.words import IN_LISTS, WIDTHS, CaseWords, Memory, Values, Words

# No boundary of a job has more cases than these.
MOST_CASES = 12
# Jobs of rows though hardly anything is over a budget of theirs, and how many of the rest are random.
PLAIN = "the small case", "three boundaries", "a test that is turned over"
RANDOM_ROWS = 3
SAMPLES = 200
HEAD = """\
# Cases of boundaries within budgets of nodes, and what is over them, printed by tools/rows/nodes.py from truth tables and
# all starts of small jobs, without the crates: the first operation that has more joint cofactors, by the decided bits
# before it, its word and its bit. With the last budget of each job all cases come; the one before it is one less."""


# ---- what is over a budget

class Boundary:
    """The cases of a boundary, and for each its list and its operations."""

    def __init__(self, job, at, found, compared=False):
        self.job, self.at, self.cases = job, at, list(found.values())
        self.lists = [CaseWords(job, at, case) for case in self.cases]
        self.paths = [Path(each, compared) for each in self.lists]
        self.counts = [operation.count for path in self.paths for operation in path.operations]

    def first(self, nodes):
        """The first operation over a budget: the number of its case and itself; None where there is none."""
        return next(((number, operation) for number, path in enumerate(self.paths) for operation in path.operations
                     if operation.count > nodes), None)

    def report(self, nodes):
        found = self.first(nodes)
        lines = [f"boundary 0x{self.at:x}"] + [case.line() for case in self.cases[:found and found[0]]]
        if found:
            lines.append(f"over nodes {self.named(*found)}")
        return "".join(f"{line}\n" for line in lines)

    def named(self, number, operation):
        """What a report of an unknown says."""
        return f"prefix {bits_text(self.cases[number].bits()[:operation.place])} word {operation.word} bit {operation.bit}"


def jobs(wanted=""):
    """The jobs that have few cases, with their boundaries: those by hand, and then random ones; or the one of a name."""
    for name, texts, reads in JOBS + random_jobs():
        if wanted not in ("", name):
            continue
        job = job_of(texts)
        found = [(at, cases(job, at, reads.get(at, reads))) for at in job.blocks]
        if all(len(each) <= MOST_CASES for _, each in found):
            yield name, texts, [Boundary(job, at, each) for at, each in found]


def budgets(boundaries):
    """A budget over which something early is, the greatest over which something is, and the least over which nothing is."""
    most = max((count for each in boundaries for count in each.counts), default=1)
    return sorted({min(most, int(most > 2)), max(most - 1, 0), most})


def report(boundaries, nodes):
    return "".join(each.report(nodes) for each in boundaries)


# ---- rows

def print_rows():
    print(HEAD)
    for name, text in BOARDS.items():
        print("\n".join(["", f"set {name}"] + file_lines("b", text.encode())))
    kept = 0
    for name, texts, boundaries in jobs():
        chosen = budgets(boundaries)
        at_random = name.startswith("a random job")
        if name not in PLAIN and (len(chosen) < 3 or at_random and (kept == RANDOM_ROWS or chosen[-1] < 3)):
            continue
        kept += at_random
        board, *files = given_lines(texts)
        print("\n".join(["", f"set {name}", *files]))
        for nodes in chosen:
            assert not any(has_twin(each, nodes) for each in boundaries)
            given = [board, f"with {name}", f"call cases nodes={nodes:x} paths={MOST_PATHS:x}"]
            print("\n".join([""] + row_lines(f"{name}, {nodes} nodes", given, "gives", report(boundaries, nodes).encode())))


# ---- checks

def check_bits(bits, values):
    """The bits that were made of words are those of their values."""
    for number, made in bits.made.items():
        assert sum(bit.at(values) << place for place, bit in enumerate(made)) == values[number - 1], bits.words[number - 1]


def check_rows():
    """So it is with each op, of all words of three bits."""
    words, entries = Words(), random.sample(range(4096), 8)
    a, b, c = (words.fresh("element", number, width) for number, width in enumerate((3, 3, 1)))
    found = [words.tab(a), words.part(a, 1, 2), words.join(a, b)]
    for op, (pattern, _) in WIDTHS.items():
        operands = {"a": iter((a, b)), "1": iter((c,))}
        found.append(words.add(op, *(next(operands[letter]) for letter in pattern)))
    bits = Bits(words, entries=entries)
    for term in found:
        bits.of(term)
    for given in product(range(8), range(8), range(2)):
        assigned = {("element", number): value for number, value in enumerate(given)}
        check_bits(bits, Values(assigned, {}, Memory(4), entries).work_out(words.words).values)


def check_values(boundary):
    """From random starts the words have the values of the case: those that bits ask for, and those that are compared."""
    by_bits = {case.bits(): run for case, *run in zip(boundary.cases, boundary.lists, boundary.paths)}
    for _ in range(SAMPLES):
        start = random_start(boundary.job, boundary.at)
        listed, path = by_bits[Case(boundary.job, start).bits()]
        given = {("element", number): start.values.get(name, 0) for number, name in enumerate(boundary.job.widths)}
        given |= {(kind, number): value for kind, name in IN_LISTS.items() for number, value in enumerate(start.lists[name])}
        values = Values(given, start.words, listed.memory, boundary.job.board.map["entries"]).work_out(listed.words.words)
        assert all(values.of(term) == value for term, value in listed.asked)
        check_bits(path.bits, values.values)
        found = difference(boundary.job, start)
        if listed.compared:
            same = all(values.of(term) for term in listed.compared[:-1])
            assert same == (found is None or found.startswith("memory")), (found, start)


def check_open(boundary):
    """By its path words a bit may have the values that it has from some start."""
    every = [case.bits() for case in boundary.cases]
    for bits, path in zip(every, boundary.paths):
        for place, may in enumerate(path.open):
            assert may == {other[place][1] for other in every if other[:place] == bits[:place]}


def check_named(boundary, nodes):
    """What is named over a budget is an operation of the list of the prefix, which is feasible; and the cases printed are
    those that stand before the prefix."""
    number, operation = boundary.first(nodes)
    listed, bits = boundary.lists[number], boundary.cases[number].bits()
    prefix, asked = bits[:operation.place], listed.asked[:operation.place + 1]
    assert operation.word <= asked[-1][0].number
    # The operations at this word and bit, of the word table alone: those of the row, and the path words of its decided bits.
    fresh, path = Bits(listed.words, entries=boundary.job.board.map["entries"]), ONE
    terms = [term for term, _ in asked]
    terms += [operand for _, operands, _ in listed.words.words for operand in operands]
    fresh.of(next(term for term in terms if term.number == operation.word))
    counts = [count for *at, count in fresh.operations if at == [operation.word, operation.bit]]
    for term, value in asked:
        bit = fresh.of(term)[0]
        if (term.number, 0) == operation[1:3]:
            counts += [operated(bit, *end)[1] for end in path_words(path)]
        path = operated(bit, *path_words(path)[value])[0]
    assert max(counts) > nodes
    before = {case.bits() for case in boundary.cases if decided(case.bits()[:len(prefix)]) < decided(prefix)}
    assert before == {case.bits() for case in boundary.cases[:number]}


def has_twin(boundary, nodes):
    """Whether what is named is a word that stands before too, with the same op and operands, which could be named as well."""
    found = boundary.first(nodes)
    if not found:
        return False
    number, operation = found
    words, least = boundary.lists[number].words.words, {}
    same = [0]
    for own, (op, operands, numbers) in enumerate(words, 1):
        key = op, tuple((same[each.number or 0], each.value, each.width) for each in operands), numbers
        same.append(least.setdefault(key, own))
    return same[operation.word] != operation.word


def check_small_case():
    """In the small case no bit that is decided depends on a variable. Of its comparison the first operation over a budget of
    1 is of F of the first cycle."""
    job = job_of(JOBS[0][1])
    decided_alone, whole = (Boundary(job, 0, cases(job, 0, {}), compared) for compared in (False, True))
    assert decided_alone.counts == []
    assert whole.named(*whole.first(1)) == "prefix --001 --000 word 28 bit 0"


def check():
    random.seed(2902)
    check_rows()
    check_small_case()
    for name, _, boundaries in jobs():
        named = twins = 0
        for boundary in boundaries:
            check_open(boundary)
            check_values(boundary)
            for nodes in sorted({count - 1 for count in boundary.counts}):
                check_named(boundary, nodes)
                named += 1
                twins += has_twin(boundary, nodes)
        print(f"{name}: {named} budgets name an operation, {twins} of them at a word that stands before too", flush=True)


def main():
    match sys.argv[1:]:
        case ["rows"]:
            print_rows()
        case ["--check"]:
            check()
        case ["list", wanted]:
            for _, _, boundaries in jobs(wanted):
                for nodes in range(budgets(boundaries)[-1] + 1):
                    print(f"nodes {nodes}\n" + report(boundaries, nodes), end="")
        case _:
            sys.exit(__doc__)


if __name__ == "__main__":
    main()
