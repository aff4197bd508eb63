"""Twin starts of an old and a new program on one board: what they decide and show, and the words of their cases.

On numbers they are runs of run.py, from states that stand together; on terms they are cycles of words.py, in one list.
Both are stated anew from the format, and rows/twin_words.py compares them. So keep them two.
"""
from dataclasses import dataclass

from model.board import settings_of
from model.cycle import decided_bits, word_at
from model.run import Run
from model.words import Cycle, Memory, Words, constant, element_widths

OLD, NEW = SIDES = (0, 1)
# What stands before the kinds of the variables of a side.
KINDS = ("", "beside-")


@dataclass
class Block:
    """A boundary: its addresses in both programs, its bound, its stack pointer, and its lines by the names of elements. A
    kept element has None there, and a fixed one its two values."""
    addresses: list
    bound: int
    sp: int
    lines: dict


@dataclass
class Revision:
    """A board, the stores of both programs, and their boundaries in file order."""
    board: object
    stores: list
    blocks: list

    def reached(self, side, at):
        """The boundary at an address of a program, if there is one."""
        return next((block for block in self.blocks if block.addresses[side] == at), None)


@dataclass
class Twins:
    """A boundary, and of each side a state and what is given from outside."""
    block: Block
    states: list
    outsides: list


# ---- on numbers

class Segments:
    """The first segments of twins on numbers: of each side the bits of its cycles, where it stands behind them, and the
    boundary that it reaches, which is None where it is late. Behind a late old segment there is no new one."""

    def __init__(self, revision, twins):
        self.revision, self.cycles, self.runs, self.ends = revision, [], [], []
        for side in SIDES:
            if None not in self.ends:
                self.run(side, twins)

    def run(self, side, twins):
        board, store = self.revision.board, self.revision.stores[side]
        run, cycles = Run(board, store, twins.outsides[side], twins.block.addresses[side], twins.states[side]), []
        reached = None
        while reached is None and run.cycles < twins.block.bound:
            word, state = word_at(board, store, run.at), run.state
            cycles.append(decided_bits(board, word, state, settings_of(run.make_cycle())))
            reached = self.revision.reached(side, run.at)
        self.cycles.append(cycles)
        self.runs.append(run)
        self.ends.append(reached)

    def elements(self, side):
        """The values of the elements behind a segment, by their names."""
        board = self.revision.board
        return dict(zip(dict(board.elements()), self.runs[side].state.values(board)))

    def are_unlike(self):
        """Whether every twin start of the case differs."""
        if None in self.ends:
            return True
        reached, kinds = self.ends[OLD], [[kind for kind, _ in run.events] for run in self.runs]
        pointers = [run.state.sp for run in self.runs]
        return self.ends[NEW] is not reached or kinds[OLD] != kinds[NEW] or pointers != [reached.sp] * 2

    def comparisons(self):
        """Of each comparison but that of the memories whether both sides are equal there."""
        old_run, new_run = self.runs
        pairs = zip(old_run.events, new_run.events)
        yield from (one == other for (kind, one), (_, other) in pairs if kind == "out")
        old_elements, new_elements = map(self.elements, SIDES)
        for name, fixed in self.ends[OLD].lines.items():
            if fixed is None:
                yield old_elements[name] == new_elements[name]
            else:
                yield old_elements[name] == fixed[OLD]
                yield new_elements[name] == fixed[NEW]

    def are_equal_at(self, address):
        """Whether the memories are equal at an address."""
        one, other = (run.state.memory.get(address, 0) for run in self.runs)
        return one == other

    def difference(self):
        """The first difference that the twins show, in the words of a report; None where they show none."""
        if self.ends[OLD] is None:
            return "late old"
        if self.ends[NEW] is None:
            return "late new"
        events = [run.events for run in self.runs]
        for number in range(max(map(len, events))):
            if events[OLD][number:number + 1] != events[NEW][number:number + 1]:
                return f"event {number}"
        reached = self.ends[OLD]
        if self.ends[NEW] is not reached:
            return "boundary"
        if any(run.state.sp != reached.sp for run in self.runs):
            return "sp"
        found = [self.elements(side) for side in SIDES]
        for name, fixed in reached.lines.items():
            values = [each[name] for each in found]
            if values[OLD] != values[NEW] if fixed is None else values != list(fixed):
                return f"element b.{name}"
        unequal = (address for address in range(2 ** self.revision.board.address) if not self.are_equal_at(address))
        return next((f"memory 0x{address:X}" for address in unequal), None)


# ---- on terms

class TwinWords:
    """The words of a whole case of twins at a block: what its decided bits ask for, with their values, and what is compared.
    `cycles` has the bits of each cycle of each side."""

    def __init__(self, revision, block, cycles):
        self.revision, self.block, self.words = revision, block, Words()
        self.names = [name for name, _ in element_widths(revision.board)]
        self.widths = dict(revision.board.elements())
        self.asked, self.compared, self.events = [], [], [[], []]
        old_memory = Memory(revision.board.width)
        self.memories = old_memory, Memory(revision.board.width, old_memory.reads)
        self.terms, self.at, self.sp = [self.old_elements()], list(block.addresses), [block.sp, block.sp]
        self.terms.append(self.new_elements())
        for side, bits in enumerate(cycles):
            self.run(side, bits)
        # How many words there are before those of the comparison.
        self.made = len(self.words.words)
        if len(cycles) == len(SIDES):
            self.compare()

    def tokens(self):
        """The words but those of the comparison, as rows have them."""
        return self.words.tokens(1)[:self.made]

    def old_elements(self):
        """A variable for each old element that isn't fixed, by number."""
        found = {}
        for number, (name, width) in enumerate(self.widths.items()):
            fixed = self.block.lines.get(name)
            found[name] = constant(fixed[OLD], width) if fixed else self.words.fresh("element", number, width)
        return found

    def new_elements(self):
        """One for each new element that is neither kept nor fixed. A kept one is the old one."""
        found, count = {}, len(self.widths)
        for number, (name, width) in enumerate(self.widths.items(), count):
            if name not in self.block.lines:
                found[name] = self.words.fresh("element", number, width)
            else:
                fixed = self.block.lines[name]
                found[name] = constant(fixed[NEW], width) if fixed else self.terms[OLD][name]
        return found

    def run(self, side, cycles):
        """The cycles of a segment. The first line of the new program is that of the old one."""
        elements = dict(zip(self.names, self.terms[side].values()))
        for number, bits in enumerate(cycles):
            board, memory = self.revision.board, self.memories[side]
            word = word_at(board, self.revision.stores[side], self.at[side])
            taken = sum(kind == "taken" for kind, _ in self.events[side])
            line = self.words.found["line", 0] if side == NEW and number == 0 else None
            cycle = Cycle(self.words, board, word, elements, self.sp[side], memory, bits, number, taken, KINDS[side], line)
            self.at[side], self.sp[side], elements = cycle.at, cycle.sp, cycle.elements
            self.events[side] += [cycle.event] if cycle.event else []
            self.asked += cycle.asked
        self.terms[side] = dict(zip(self.widths, map(elements.get, self.names)))

    def compare(self):
        """The comparison, where not all twin starts differ."""
        reached = [self.revision.reached(side, self.at[side]) for side in SIDES]
        kinds = [[kind for kind, _ in events] for events in self.events]
        if reached[OLD] is None or reached[NEW] is not reached[OLD]:
            return
        if kinds[OLD] != kinds[NEW] or self.sp != [reached[OLD].sp] * 2:
            return
        pairs = zip(*self.events)
        self.compared += [self.words.add("eq", one, other) for (kind, one), (_, other) in pairs if kind == "out"]
        for name, fixed in reached[OLD].lines.items():
            self.compared += self.line(*(terms[name] for terms in self.terms), fixed)
        address = self.words.fresh("address", 0, self.revision.board.address)
        reads = [memory.read(self.words, address) for memory in self.memories]
        self.compared.append(self.words.add("eq", *reads))

    def line(self, one, other, fixed):
        """What is compared of a line."""
        if fixed is None:
            return [self.words.add("eq", one, other)]
        return [self.words.add("eq", term, constant(value, term.width)) for term, value in zip((one, other), fixed)]
