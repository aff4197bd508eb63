"""A board and a described machine from one start: texts of starts, the relation of two states, and what differs first.

Starts, the relation and the comparison are stated anew as the manual has them. A board's run is that of run.py, and a
described step that of description.py.
"""
import tomllib

from model.board import Board
from model.cycle import State
from model.description import Described, Grammar, Machine, Outside
from model.expression import Over, valued
from model.lines import Refused, lines_of
from model.microprogram import Microprogram
from model.relation import Relation, elements
from model.run import Run

MOST_ENTRIES = 65536

# The lists of an environment, each with the bound of its values.
LISTS = {"inputs": None, "line": 2, "noise": 2**14, "wait": 2}


class Start(Grammar, Outside):
    """A start: the boundary, and what is given of elements, memory and lists."""

    def __init__(self, job, text):
        super().__init__({name: [] for name in LISTS})
        self.job, self.boundary, self.stage = job, None, 0
        self.values, self.words = {}, {}
        lines = lines_of(text)
        for self.line in lines:
            if self.line.tokens:
                self.faults = []
                self.read_line()
                self.judge()
        if self.boundary is None:
            raise Refused(*((lines[-1].number, lines[-1].end) if lines else (1, 1)), 60)

    def read_line(self):
        word = self.line.tokens[0][2] if self.line.kind(0) == "name" else None
        if self.boundary is None:
            self.head(word)
        elif word == "set":
            self.set_element()
        elif word == "mem":
            self.memory_words(self.numbers(2))
        else:
            self.expect(0, word in LISTS)
            self.entries(word, self.numbers(1))

    def head(self, word):
        if word == "no" and self.stage == 0:
            self.ends(1)
            self.stage = 1
        elif word == "difference" and self.stage < 2:
            self.stage = 2
        else:
            self.expect(0, word == "boundary")
            self.expect(1, self.line.kind(1) in ("name", "number"))
            column, kind, place = self.line.tokens[1]
            self.ends(2)
            address = place if kind == "number" else self.job.labels.get(place)
            self.fault(column, 30, address is None)
            self.fault(column, 33, address is not None and address not in self.job.blocks)
            self.boundary = address

    def numbers(self, least):
        """The numbers behind the first word, of which there are so many at least."""
        for at in range(1, max(len(self.line.tokens), least + 1)):
            self.token(at, "number")
        return [(column, value) for column, _, value in self.line.tokens[1:]]

    def set_element(self):
        owner = self.token(1, "name")
        self.sign(2, ".")
        name = f"{owner[2]}.{self.token(3, 'name')[2]}"
        column, _, value = self.token(4, "number")
        self.ends(5)
        self.fault(owner[0], 31, name in self.values)
        self.fault(owner[0], 40, name not in self.job.widths)
        self.fault(owner[0], 56, name in self.job.left(self.boundary))
        self.fault(column, 33, value >= 2**self.job.widths.get(name, 200))
        self.values[name] = value

    def memory_words(self, numbers):
        column, address = numbers.pop(0)
        self.fault(column, 31, address in self.words)
        self.fault(column, 33, address >= 2**self.job.address)
        for place, (column, value) in enumerate(numbers):
            self.fault(column, 31, place > 0 and address + place in self.words)
            self.fault(column, 33, place > 0 and address + place >= 2**self.job.address or value >= 2**self.job.word)
            self.words[address + place] = value

    def entries(self, name, numbers):
        for column, value in numbers:
            self.fault(column, 14, len(self.lists[name]) >= MOST_ENTRIES)
            self.fault(column, 33, value >= (LISTS[name] or 2**self.job.word))
            self.lists[name].append(value)


class Job:
    """A board with its microprogram, a described machine, and the relation between the two."""

    def __init__(self, board, micro, machine, relation):
        self.board = Board(board)
        program = self.attempt("m", lambda: Microprogram(tomllib.loads(board), micro))
        self.store = [program.words.get(at, self.board.fill) for at in range(max(program.words, default=-1) + 1)]
        self.labels = dict(program.labels)
        self.machine = self.attempt("k", lambda: Machine(machine))
        self.address, self.word = self.board.address, self.board.width
        described = self.machine.over
        flips = [each["name"] for each in self.board.flips]
        kept = elements(self.word, self.address, flips, self.machine.elements["register"], self.board.depth)
        self.widths = dict(kept)
        sees = (self.address, self.word), (described.address, described.word), kept, self.labels
        boundaries = self.attempt("r", lambda: Relation(sees, relation)).boundaries
        self.blocks = {block[0]: block for block in boundaries}

    @staticmethod
    def attempt(name, read_it):
        """What is read; a refusal says of which file it is."""
        try:
            return read_it()
        except Refused as refused:
            raise FileRefused(name, refused) from None

    def left(self, address):
        """The elements that the relation gives at a boundary."""
        return [name for name, _ in self.blocks[address][3]] if address in self.blocks else []


class FileRefused(Exception):
    """A refusal and the file that is refused."""


def over(job, values, memory):
    """What the expressions of a relation see."""
    sees = Over([])
    sees.elements = {name: (width, values.get(name, 0)) for name, width in job.widths.items()}
    sees.memory, sees.address, sees.word = memory, job.address, job.word
    return sees


def board_values(job, state):
    """The elements of a board."""
    return {f"b.{name}": value for (name, _), value in zip(job.board.elements(), state.values(job.board))}


def board_state(job, values, sp, memory):
    """A board with these elements."""
    def of(name):
        return values.get(f"b.{name}", 0)

    flips = sum(of(each["name"]) << number for number, each in enumerate(job.board.flips))
    return State(of("upc"), of("count"), sp, [of(f"stack{number}") for number in range(job.board.depth)], of("q"), of("mar"), of("ir"), flips,
                 {number: of(f"r{number}") for number in range(16)}, dict(memory))


def run_of(job, outside, state):
    """The run of a board from a state at a boundary, with what a start or an environment gives from outside."""
    return Run(job.board, job.store, outside, outside.boundary, state)


def segment(job, outside, state):
    """The board at the next boundary and its events; no board where it is late. Waits aren't counted."""
    run = run_of(job, outside, state)
    while run.cycles < job.blocks[outside.boundary][1]:
        run.make_cycle()
        if run.at in job.blocks:
            return run.at, run.state, run.events
    return run.at, None, run.events


def completed(job, start):
    """All elements of the pair of states in relation that a start gives."""
    sees = over(job, start.values, start.words)
    return start.values | {name: valued(tree, sees)[1] for name, tree in job.blocks[start.boundary][3]}


def first_step(job, start, values, outside, before):
    """The step of the machine from a start that gives these elements: its request is the line of the clock that makes
    the first cycle of the board's run from a state."""
    return Described(job.machine, values, dict(start.words), start, run_of(job, outside, before).line())


def difference(job, start, environment=None):
    """The first difference that a start shows; none where there is none. Where an environment is given the board runs in
    it."""
    values, outside = completed(job, start), environment or start
    if environment:
        before = environment.state(job)
    else:
        before = board_state(job, values, job.blocks[start.boundary][2], start.words)
    at, board, events = segment(job, outside, before)
    if board is None:
        return "late"
    described = first_step(job, start, values, outside, before)
    for number in range(max(len(events), len(described.events))):
        if events[number:number + 1] != described.events[number:number + 1]:
            return f"event {number}"
    if board.sp != job.blocks[at][2]:
        return "element b.sp"
    sees = over(job, board_values(job, board) | described.registers(), described.over.memory)
    for name, tree in job.blocks[at][3]:
        if sees.elements[name][1] != valued(tree, sees)[1]:
            return f"element {name}"
    for address in sorted({*board.memory, *described.over.memory}):
        if board.memory.get(address, 0) != described.over.memory.get(address, 0):
            return f"memory 0x{address:X}"
    return None


def report(texts, names="bmkrs"):
    """The report of five texts, which have these names."""
    try:
        job = Job(texts[0].decode(), *texts[1:4])
        start = Job.attempt("s", lambda: Start(job, texts[4]))
        found = difference(job, start)
        return f"differs step 1\ndifference {found}\n" if found else "same 1\n"
    except FileRefused as refused:
        name, place = refused.args
        return f"refused {names['bmkrs'.index(name)]} {place}\n"


def status(text):
    """The status with which a comparison ends that has this report."""
    return {"same": 0, "differs": 1, "refused": 4}[text.split()[0]]
