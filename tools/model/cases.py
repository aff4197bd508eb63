"""Cases of boundaries: what a start decides on its way, and all cases of a boundary from all its starts.

What is decided is stated by cycle.py and by the described step. The elements, memory words, lines, noise and inputs that
a job reads take all their values, and all else is 0.
"""
import random
from itertools import product

from model.board import settings_of
from model.comparison import LISTS, board_state, completed, first_step, run_of
from model.cycle import decided_bits
from model.description import Outside


class Choice(Outside):
    """A start: the boundary, and what is given of elements, memory and lists."""

    def __init__(self, boundary, values, words, lists):
        super().__init__(lists)
        self.boundary, self.values, self.words = boundary, values, words


def piece(bits):
    """A cycle as a report prints it: pass, counter zero and the next address, or the bits that are decided of that."""
    known = dict(bits)
    address = "".join(str(known[place]) for place in range(11, -1, -1) if place in known)
    return f"{known.get('pass', '-')}{known.get('zero', '-')}" + (f"{int(address, 2):03x}" if 0 in known else f"b{address}")


def bits_text(bits):
    """Decided bits as a report prints them: a piece for each cycle of which something is decided, and the branch bits."""
    cycles, branches = [[]], ""
    for bit in bits:
        if bit[0] == "branch":
            branches += str(bit[1])
        else:
            cycles[-1].append(bit)
            cycles += [[]] if bit[0] == 0 else []
    return (" ".join(piece(cycle) for cycle in cycles if cycle) or "-") + (f" / {branches}" if branches else "")


class Case:
    """What a start decides: a list of bits for each cycle, those of the step, and whether the segment is late."""

    def __init__(self, job, start):
        values = completed(job, start)
        _, bound, sp, _ = job.blocks[start.boundary]
        before = board_state(job, values, sp, start.words)
        run = run_of(job, start, before)
        self.cycles, self.late, branches = [], True, []
        while self.late and run.cycles < bound:
            state = run.state
            nets = settings_of(run.make_cycle())
            self.cycles.append(decided_bits(job.board, int(nets["word"], 16), state, nets))
            self.late = run.at not in job.blocks
        if not self.late:
            branches = first_step(job, start, values, start, before).bits
        self.branches = [("branch", value) for value in branches]

    def bits(self):
        return tuple(bit for each in [*self.cycles, self.branches] for bit in each)

    def text(self):
        return bits_text(self.bits())

    def line(self):
        return f"case {self.text()} cycles {len(self.cycles)} late {int(self.late)}"


def decided(bits):
    """The values of bits, in whose order cases stand."""
    return [value for _, value in bits]


def starts(job, boundary, reads):
    """Each start at a boundary, by what is read there."""
    elements, words, noise = reads.get("elements", []), reads.get("memory", []), reads.get("noise", [])
    every = [
        [range(2 ** job.widths[name]) for name in elements],
        [range(2 ** job.word) for _ in words],
        [range(2 ** job.word)] * reads.get("inputs", 0),
        [range(2)] * reads.get("line", 0),
        noise,
    ]
    for values, memory, *lists in product(*(list(product(*each)) for each in every)):
        yield Choice(boundary, dict(zip(elements, values)), dict(zip(words, memory)), dict(zip(LISTS, lists)))


def random_start(job, boundary):
    """A start in which everything may be anything, and is often 0 or 1."""
    def word(width):
        return random.choice([0, 1, random.getrandbits(width), random.getrandbits(width)])

    values = {name: word(width) for name, width in job.widths.items() if name not in job.left(boundary)}
    words = {address: word(job.word) for address in range(2 ** job.address)}
    lists = {"inputs": [word(job.word) for _ in range(8)], "line": [random.getrandbits(1) for _ in range(8)],
             "noise": [word(14) for _ in range(8)]}
    return Choice(boundary, values, words, lists)


def cases(job, boundary, reads):
    """The cases of a boundary by their bits, in order: of two the first has a 0 where they differ first."""
    found = {}
    for start in starts(job, boundary, reads):
        case = Case(job, start)
        end = len(case.cycles), case.late
        known = found.setdefault(case.bits(), case)
        assert end == (len(known.cycles), known.late), "one case has two ends"
    return in_order(found)


def in_order(found):
    """What is found by the bits of cases, in their order."""
    ordered = sorted(found, key=decided)
    for first, second in zip(ordered, ordered[1:]):
        place = next((at for at, (one, other) in enumerate(zip(first, second)) if one != other), None)
        assert place is not None, "a case goes on"
        assert first[place][0] == second[place][0], "two cases part at two kinds of bits"
    return {bits: found[bits] for bits in ordered}
