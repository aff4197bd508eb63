"""The words of a case: the list that cycles, described steps and comparisons add to, and their values.

It states the word table anew, from its format. A word is an op, its operands and its numbers; an operand is a word by its
number from 1, or a constant. What a cycle comes to on terms is stated beside what it comes to on numbers in cycle.py, and
shares only the tables of the parts with it; what a step comes to likewise beside description.py, from the statements that
it reads. rows/case_words.py compares the two. So keep them two.
"""
import random
from dataclasses import dataclass, field

from model.am2901 import DESTINATIONS, FUNCTIONS, SOURCES, SUMS
from model.am2910 import COUNTED_OUT, INSTRUCTIONS, TESTED, effect, moved, pushed_to
from model.board import board_elements
from model.lines import number_of

# The list of bits in its order; `ir:` and `ff:` stand for those with a number or a name.
BITS = ["zero", "one", "carry", "overflow", "f_zero", "sign", "f_low", "f_high", "q_low", "q_high", "line", "full", "ir:",
        "ff:"]
# The kinds of variables that stand in lists of a start, and the list of each.
IN_LISTS = {"input": "inputs", "line": "line", "noise": "noise"}


# ---- the list of words

@dataclass(frozen=True)
class Term:
    """A word by its number, or a constant, which has none."""
    number: int | None
    value: int | None
    width: int

    def __str__(self):
        return f"{self.value}'{self.width}" if self.number is None else f"w{self.number}"


def constant(value, width):
    assert 0 <= value < 2**width
    return Term(None, value, width)


# The widths that an op's operands and the op itself have: a letter is any width, the same for the same letter.
WIDTHS = {"not": ("a", "a"), "and": ("aa", "a"), "or": ("aa", "a"), "xor": ("aa", "a"), "sum": ("aa1", "a"), "cout": ("aa1", "1"),
          "ovf": ("aa1", "1"), "eq": ("aa", "1"), "lt": ("aa", "1"), "ite": ("1aa", "a")}


def width_by(op, operands):
    """The width of an op by the term table. Its operands have to fit."""
    pattern, own = WIDTHS[op]
    widths = {"1": 1}
    assert len(pattern) == len(operands), op
    for letter, operand in zip(pattern, operands):
        assert widths.setdefault(letter, operand.width) == operand.width, (op, operands)
    return widths[own]


class Words:
    """The words of a case. Each is an op, its operands and its numbers."""

    def __init__(self):
        self.words, self.found = [], {}

    def put(self, width, op, operands, numbers=()):
        self.words.append((op, operands, numbers))
        return Term(len(self.words), None, width)

    def add(self, op, *operands):
        return self.put(width_by(op, operands), op, operands)

    def fresh(self, kind, number, width):
        """A variable."""
        assert (kind, number) not in self.found
        self.found[kind, number] = self.put(width, kind, (), (number, width))
        return self.found[kind, number]

    def input(self, number, width):
        """The variable of an input, made where it isn't there yet."""
        return self.found.get(("input", number)) or self.fresh("input", number, width)

    def part(self, term, low, width):
        """A part. One that is the whole word makes none."""
        assert low + width <= term.width
        return term if width == term.width else self.put(width, "part", (term,), (low, width))

    def join(self, high, low):
        return self.put(high.width + low.width, "join", (high, low))

    def widened(self, term, width):
        return term if width == term.width else self.join(constant(0, width - term.width), term)

    def tab(self, index):
        return self.put(12, "tab", (index,))

    def tokens(self, first):
        """The words from a number on."""
        return [f"{op}({','.join(map(str, operands + numbers))})" for op, operands, numbers in self.words[first - 1:]]


class Memory:
    """The base reads that both sides share, and the writes of one side, both in their order."""

    def __init__(self, width, reads=None):
        self.width, self.reads, self.writes = width, [] if reads is None else reads, []

    def read(self, words, address):
        equal = [words.add("eq", address, earlier) for earlier, _ in self.reads]
        value = own = words.fresh("base", len(self.reads), self.width)
        for same, (_, base) in reversed(list(zip(equal, self.reads))):
            value = words.add("ite", same, base, value)
        self.reads.append((address, own))
        for written, word in self.writes:
            value = words.add("ite", words.add("eq", address, written), word, value)
        return value

    def write(self, address, value):
        self.writes.append((address, value))


# ---- a cycle

def element_widths(board):
    """The names of a board's elements by their numbers, with their widths. A flip-flop stands behind `ff:`."""
    return board_elements(board.width, board.address, [f"ff:{each['name']}" for each in board.flips], board.depth)


class Cycle:
    """A cycle of a case, behind so many others that took so many inputs: what it adds to the list, and what it comes to.
    `elements` has a term by each name, and `decided` the values of the bits that are decided, in their order. `side` stands
    before the kinds of its line and its noise; a `line` that is there already makes no variable."""

    def __init__(self, words, board, microword, elements, sp, memory, decided, number=0, taken=0, side="", line=None):
        self.words, self.board, self.microword = words, board, microword
        self.old, self.sp, self.memory = elements, sp, memory
        self.waiting, self.asked, self.made, self.event = list(decided), [], {}, None
        self.line = line or words.fresh(f"{side}line", number, 1)
        self.noise, self.taken = words.fresh(f"{side}noise", number, 14), taken
        self.elements = dict(elements)
        self.run()
        assert not self.waiting

    def point(self, name):
        return self.board.point(self.microword, name)

    def chosen(self, name):
        return self.board.chosen(self.microword, name)

    def zero(self):
        return constant(0, self.board.width)

    def decide(self, what, term):
        """The value of a bit that is asked for."""
        kind, value = self.waiting.pop(0)
        assert kind == what and term.width == 1, (kind, what)
        self.asked.append((term, value))
        return value

    def run(self):
        self.code = INSTRUCTIONS[self.point("sequencer")]
        self.destination = list(DESTINATIONS)[self.point("alu_destination")]
        self.loads = [self.board.entry(self.microword, each["control"], each["load"]) for each in self.board.flips]
        self.work_out_d()
        self.work_out_f()
        self.make_bits(self.bits_read())
        passed = self.test()
        r_is_zero = self.count()
        self.go_on(*effect(self.code, passed, 0 if r_is_zero else 1))
        self.edge()

    # D.

    def work_out_d(self):
        source, _, mask = self.chosen("d").partition("&")
        self.source, self.d = source, self.words.widened(self.d_from(source), self.board.width)
        if mask:
            self.d = self.words.add("and", self.d, constant(number_of(mask), self.board.width))

    def d_from(self, source):
        width = self.board.width
        if source == "memory":
            return self.memory.read(self.words, self.old["mar"])
        if source == "input":
            self.event = "taken", self.words.input(self.taken, width)
            return self.event[1]
        if source == "zero":
            return self.zero()
        if source.startswith("field:"):
            return constant(self.board.value(self.microword, source.removeprefix("field:")) & self.board.ones, width)
        return self.old[source]

    # F.

    def work_out_f(self):
        entry = self.chosen("carry_in")
        self.make_bits([entry])
        carry = self.bit(entry)
        a, b = (self.old[f"r{self.point(point)}"] for point in ("a_address", "b_address"))
        operands = {"A": a, "B": b, "Q": self.old["q"], "D": self.d, "0": self.zero()}
        r, s = (operands[name] for name in SOURCES[self.point("alu_source")].split())
        function = FUNCTIONS[self.point("alu_function")]
        if function in ("SUBR", "NOTRS"):
            r = self.words.add("not", r)
        if function == "SUBS":
            s = self.words.add("not", s)
        # What carry and overflow are of, in a sum.
        self.addends = (r, s, carry) if function in SUMS else None
        if self.addends:
            self.f = self.words.add("sum", *self.addends)
        else:
            op = {"OR": "or", "AND": "and", "NOTRS": "and", "EXOR": "xor", "EXNOR": "xor"}[function]
            self.f = self.words.add(op, r, s)
        if function == "EXNOR":
            self.f = self.words.add("not", self.f)
        self.y = a if self.destination == "RAMA" else self.f

    # Bits.

    def bits_read(self):
        """The entries that the condition, the links that are used and the loads read."""
        entries = [self.chosen("condition")]
        if "2" in self.destination_of("B"):
            entries.append(self.chosen("ram_link"))
        if "2" in self.destination_of("Q"):
            entries.append(self.chosen("q_link"))
        loads = [load for load in self.loads if load not in ("hold", "invert")]
        return entries + ["carry" if load == "xor_carry" else load for load in loads]

    def destination_of(self, taker):
        to_b, to_q = DESTINATIONS[self.destination].split()
        return to_b if taker == "B" else to_q

    def key(self, entry):
        """A bit's place in the list of bits, with its number in `ir`."""
        kind, colon, name = entry.partition(":")
        return BITS.index(kind + colon), number_of(name) if kind == "ir" else name

    def make_bits(self, entries):
        """Makes those that aren't made yet, in the order of the list of bits."""
        for place, name in sorted({self.key(entry) for entry in entries}):
            if (place, name) not in self.made:
                self.made[place, name] = self.made_bit(BITS[place], name)

    def made_bit(self, kind, name):
        top = self.board.width - 1
        if kind in ("carry", "overflow"):
            if self.addends:
                return self.words.add("cout" if kind == "carry" else "ovf", *self.addends)
            return self.words.part(self.noise, 12 if kind == "carry" else 13, 1)
        if kind == "f_zero":
            return self.words.add("eq", self.f, self.zero())
        if kind in ("sign", "f_high", "f_low"):
            return self.words.part(self.f, 0 if kind == "f_low" else top, 1)
        if kind in ("q_low", "q_high"):
            return self.words.part(self.old["q"], 0 if kind == "q_low" else top, 1)
        if kind == "ir:":
            return self.words.part(self.old["ir"], name, 1)
        if kind == "ff:":
            return self.old[f"ff:{name}"]
        return self.line if kind == "line" else constant({"zero": 0, "one": 1, "full": int(self.sp == self.board.depth)}[kind], 1)

    def bit(self, entry):
        return self.made[self.key(entry)]

    # The next address.

    def test(self):
        """The condition, and pass where it is decided; else whether the test is disabled."""
        condition = self.bit(self.chosen("condition"))
        if self.point("polarity"):
            condition = self.words.add("not", condition)
        if self.point("test_disable") or self.code not in TESTED:
            return int(self.point("test_disable"))
        return self.decide("pass", condition)

    def count(self):
        """Whether R is 0, in the instructions that look at it. Where it isn't, R-1 is made."""
        if self.code not in COUNTED_OUT:
            return False
        r = self.old["count"]
        if self.decide("zero", self.words.add("eq", r, constant(0, 12))):
            return True
        if not self.point("rld"):
            self.elements["count"] = self.words.add("sum", r, constant(0xFFF, 12), constant(0, 1))
        return False

    def direct(self):
        """D of the sequencer."""
        if self.code == "JMAP":
            low, bits = self.board.map["low"], self.board.map["bits"]
            return self.words.tab(self.words.part(self.old["ir"], low, bits)) if bits else constant(0, 12)
        return constant(self.board.vector if self.code == "CJV" else self.point("branch"), 12)

    def top(self):
        return self.old[f"stack{self.sp - 1}"] if self.sp else self.words.part(self.noise, 0, 12)

    def go_on(self, source, move, counter):
        direct = self.direct()
        following = {"0": lambda: constant(0, 12), "PC": lambda: self.old["upc"], "D": lambda: direct,
                     "R": lambda: self.old["count"], "F": self.top}[source]()
        self.at = 0
        for place in range(11, -1, -1):
            self.at |= self.decide(place, self.words.part(following, place, 1)) << place
        if move == "PUSH":
            self.elements[f"stack{pushed_to(self.sp, self.board.depth)}"] = self.old["upc"]
        self.sp = moved(self.sp, move, self.board.depth)
        if counter == "LOAD" or self.point("rld"):
            self.elements["count"] = direct
        self.elements["upc"] = constant(self.at + self.point("ci") & 0xFFF, 12)

    # The edge.

    def shifted(self, result, old, link):
        """What B or Q takes. `link` is the list of its link."""
        if result in ("-", "F"):
            return old if result == "-" else self.f
        term, width = old if "Q" in result else self.f, self.board.width - 1
        if result.startswith("2"):
            return self.words.join(self.words.part(term, 0, width), self.bit(self.chosen(link)))
        part = self.words.part(term, 1, width)
        return self.words.join(self.bit(self.chosen(link)), part)

    def loaded(self, old, load):
        if load == "invert":
            return self.words.add("not", old)
        if load == "xor_carry":
            return self.words.add("xor", old, self.bit("carry"))
        return old if load == "hold" else self.bit(load)

    def edge(self):
        b = f"r{self.point('b_address')}"
        self.elements[b] = self.shifted(self.destination_of("B"), self.old[b], "ram_link")
        self.elements["q"] = self.shifted(self.destination_of("Q"), self.old["q"], "q_link")
        for each, load in zip(self.board.flips, self.loads):
            self.elements[f"ff:{each['name']}"] = self.loaded(self.old[f"ff:{each['name']}"], load)
        if self.point("mar_load"):
            self.elements["mar"] = self.words.part(self.y, 0, self.board.address)
        if self.point("ir_load"):
            self.elements["ir"] = self.y
        if self.point("memory_write"):
            self.memory.write(self.old["mar"], self.y)
        if self.point("out") and not self.event:
            self.event = "out", self.y


# ---- expressions

class Nodes:
    """What expressions add to the list. `elements` has a term by each name."""

    def __init__(self, words, elements, memory):
        self.words, self.elements, self.memory = words, elements, memory

    def nodes(self, tree):
        """Adds the nodes of an expression, its parts first."""
        what, _, parts, numbers = tree
        found = [self.nodes(part) for part in parts]
        if what == "element":
            return self.elements[numbers[0]]
        if what == "#":
            return constant(*numbers[:2])
        if what == "()":
            return found[0]
        if what == "part":
            return self.words.part(found[0], numbers[1], numbers[0] - numbers[1] + 1)
        if what == "zext":
            return self.words.widened(found[0], numbers[0])
        if what == "mem":
            return self.memory.read(self.words, found[0])
        if what == "{}":
            return self.joined(found)
        return self.operation(what, found)

    def joined(self, found):
        term = found[0]
        for low in found[1:]:
            term = self.words.join(term, low)
        return term

    def operation(self, what, found):
        add = self.words.add
        if what == "+":
            return add("sum", *found, constant(0, 1))
        if what == "-":
            return add("sum", found[0], add("not", found[1]), constant(1, 1))
        if what == "!=":
            return add("not", add("eq", *found))
        return add({"~": "not", "&": "and", "|": "or", "^": "xor", "==": "eq", "<": "lt", "?": "ite"}[what], *found)


# ---- a described step

class Step(Nodes):
    """A described step: what it adds to the list along its branch bits, and what it comes to."""

    def __init__(self, words, machine, registers, request, memory, branches):
        temps = {name: constant(0, width) for name, width in machine.elements["temp"]}
        super().__init__(words, registers | temps | {"request": request}, memory)
        self.waiting, self.asked, self.word, self.events, self.taken = list(branches), [], machine.over.word, [], 0
        self.do(machine.steps)
        assert not self.waiting

    def do(self, statements):
        for kind, _, lists, parts in statements:
            if kind == "assign":
                self.elements[parts[0]] = self.nodes(parts[1])
            elif kind == "write":
                address = self.nodes(parts[0])
                self.memory.write(address, self.nodes(parts[1]))
            elif kind == "put":
                self.events.append(("out", self.nodes(parts[0])))
            elif kind == "take":
                self.elements[parts[0]] = self.words.input(self.taken, self.word)
                self.events.append(("taken", self.elements[parts[0]]))
                self.taken += 1
            else:
                self.asked.append((self.nodes(parts[0]), self.waiting.pop(0)))
                self.do(lists["then" if self.asked[-1][1] else "else"])


# ---- a whole case

class CaseWords:
    """The words of a whole case of a boundary: what its decided bits ask for, with their values, and what is compared,
    where that is looked at."""

    def __init__(self, job, boundary, case, compared=True):
        self.job, self.words, self.memory = job, Words(), Memory(job.word)
        _, _, self.sp, lines = job.blocks[boundary]
        self.at, self.asked, self.events, self.compared = boundary, [], [], []
        self.start(lines)
        registers = {name.removeprefix("m."): term for name, term in self.terms.items() if name.startswith("m.")}
        self.run(case)
        if not case.late:
            memory = Memory(job.word, self.memory.reads)
            branches = [value for _, value in case.branches]
            step = Step(self.words, job.machine, registers, self.words.found["line", 0], memory, branches)
            self.asked += step.asked
            if compared:
                self.compare(step)

    def start(self, lines):
        """The variables of free elements, and the right sides of the rest."""
        left = {name for name, _ in lines}
        self.terms = {name: self.words.fresh("element", number, width)
                      for number, (name, width) in enumerate(self.job.widths.items()) if name not in left}
        nodes = Nodes(self.words, dict(self.terms), self.memory)
        self.terms |= {name: nodes.nodes(tree) for name, tree in lines}

    def run(self, case):
        """The cycles of its segment."""
        board, store = self.job.board, self.job.store
        names = [name for name, _ in element_widths(board)]
        elements = dict(zip(names, map(self.terms.get, self.job.widths)))
        for number, bits in enumerate(case.cycles):
            word = store[self.at] if self.at < len(store) else board.fill
            taken = sum(kind == "taken" for kind, _ in self.events)
            cycle = Cycle(self.words, board, word, elements, self.sp, self.memory, bits, number, taken)
            self.at, self.sp, elements = cycle.at, cycle.sp, cycle.elements
            self.events += [cycle.event] if cycle.event else []
            self.asked += cycle.asked
        self.terms |= zip(self.job.widths, map(elements.get, names))

    def compare(self, step):
        """Its comparison, where not all starts differ."""
        _, _, sp, lines = self.job.blocks[self.at]
        if sp != self.sp or [kind for kind, _ in self.events] != [kind for kind, _ in step.events]:
            return
        pairs = [(own, other) for (kind, own), (_, other) in zip(self.events, step.events) if kind == "out"]
        self.compared += [self.words.add("eq", *pair) for pair in pairs]
        registers = self.job.machine.elements["register"]
        terms = self.terms | {f"m.{name}": step.elements[name] for name, _ in registers}
        nodes = Nodes(self.words, terms, step.memory)
        for name, tree in lines:
            self.compared.append(self.words.add("eq", terms[name], nodes.nodes(tree)))
        address = self.words.fresh("address", 0, self.job.address)
        reads = [memory.read(self.words, address) for memory in (self.memory, step.memory)]
        self.compared.append(self.words.add("eq", *reads))


# ---- the values of words

OPS = {
    "not": lambda width, a: 2**width - 1 - a,
    "and": lambda width, a, b: a & b,
    "or": lambda width, a, b: a | b,
    "xor": lambda width, a, b: a ^ b,
    "sum": lambda width, a, b, c: (a + b + c) % 2**width,
    "cout": lambda width, a, b, c: (a + b + c) >> width,
    "ovf": lambda width, a, b, c: (a + b + c) >> width ^ (a % 2**(width - 1) + b % 2**(width - 1) + c) >> width - 1,
    "eq": lambda width, a, b: int(a == b),
    "lt": lambda width, a, b: int(a < b),
    "ite": lambda width, c, a, b: a if c else b,
}


@dataclass
class Values:
    """The values of a list's words, where a variable that isn't `base` has its value here. That of a base read is the
    memory's word at its address, or of no account where an earlier one has this address."""
    given: dict
    image: dict
    memory: Memory
    map: list
    values: list = field(default_factory=list)

    def of(self, term):
        return term.value if term.number is None else self.values[term.number - 1]

    def base(self, number):
        address = self.of(self.memory.reads[number][0])
        if address in [self.of(earlier) for earlier, _ in self.memory.reads[:number]]:
            return random.getrandbits(self.memory.width)
        return self.image.get(address, 0)

    def word(self, op, operands, numbers):
        found = [self.of(operand) for operand in operands]
        if op == "base":
            return self.base(numbers[0])
        if op == "part":
            return found[0] >> numbers[0] & 2**numbers[1] - 1
        if op == "join":
            return found[0] << operands[1].width | found[1]
        if op == "tab":
            return self.map[found[0]]
        return OPS[op](operands[0].width, *found) if op in OPS else self.given.get((op, numbers[0]), 0)

    def work_out(self, words):
        for word in words:
            self.values.append(self.word(*word))
        return self

    def written(self):
        """The image behind the writes."""
        return self.image | {self.of(address): self.of(value) for address, value in self.memory.writes}
