"""The cases of comparisons.py: boards, machines and starts, and the rows that it prints of them."""
import random
import re
from pathlib import Path

import tools_path
from files import counted_lines, text_lines
from model.am2901 import DESTINATIONS, FUNCTIONS, SOURCES
from model.am2910 import INSTRUCTIONS as CODES
from model.board import Board
from model.comparison import LISTS, report, status
from model.cycle import State, cycle
from small import SMALL_BOARD, SMALL_MACHINE, SMALL_MICRO, SMALL_RELATION

SMALL_START = b"boundary LOOP\nset m.X 0x7\nset m.Y 0x1\n"
NO_JUMP = 0x380040


def board_text(fill=NO_JUMP):
    """The small board with this fill word, which goes on to the next address unless something else is said."""
    return SMALL_BOARD.decode().replace('fill = "0"', f'fill = "0x{fill:X}"')


BOARD = Board(board_text())
FIELDS = {name: tuple(place) for name, place in BOARD.fields.items()}


def word(source, function, destination, a=0, b=0, cin=0, sequencer="CONT", branch=0, off=0):
    """A microword of the small board, as its fields' values."""
    return {"src": SOURCES.index(source), "fun": FUNCTIONS.index(function), "dst": list(DESTINATIONS).index(destination),
            "a": a, "b": b, "cin": cin, "seq": CODES.index(sequencer), "br": branch, "off": off}


def number(fields):
    return sum(value << FIELDS[name][0] for name, value in fields.items())


def micro_text(words):
    lines = [", ".join(f"{name}={value}" for name, value in each.items() if value) or "src=0" for each in words]
    return "".join(line + "\n" for line in lines)


class Case:
    """A comparison on the small board: registers M0, M1 and so on take sums, and stand beside registers of the board."""

    def __init__(self, name, words, bound, start, assign, relation, fill=NO_JUMP):
        self.name, self.words, self.bound, self.start = name, words, bound, start
        self.assign, self.relation, self.fill = assign, relation, fill

    def board(self):
        return board_text(self.fill)

    def texts(self):
        registers = "".join(f"register M{each} 4\n" for each in range(len(self.start)))
        steps = "".join(f"M{x} := M{y} + M{z}\n" for x, y, z in self.assign)
        lines = "".join(f"b.r{left} = m.M{right}\n" for left, right in self.relation)
        sets = "".join(f"set m.M{each} 0x{value:X}\n" for each, value in enumerate(self.start) if value)
        return [self.board(), micro_text(self.words), f"memory 4 4\n{registers}step\n{steps}",
                f"boundary 0 {self.bound}\nsp 0\nb.upc = 1#12\n{lines}end\n", f"boundary 0\n{sets}"]

    def way(self, most=500):
        """The addresses on the board's way, and its registers at the boundary; none where it doesn't come."""
        state = State(pc=1, regs={left: self.start[right] for left, right in self.relation})
        store, at, way = [number(each) for each in self.words], 0, []
        board = Board(self.board())
        while len(way) < most:
            way.append(at)
            at, state, _ = cycle(board, store, at, state, 0, 0, 0)
            if at == 0:
                return way, state.regs
        return way, None


def add(a, b, cin, sequencer, branch=0, off=0):
    return word("A B", "ADD", "RAMF", a, b, cin, sequencer, branch, off)


def jump(a, b, cin, target):
    return add(a, b, cin, "CJP", target, 1)


FIRST_WORD = number(add(1, 0, 0, "CONT"))
SUMS = [
    Case("two sums", [add(1, 0, 0, "CONT"), add(2, 1, 0, "CJP", 0, 1)], 2, [7, 1, 15], [[0, 0, 1], [1, 1, 2]],
         [[0, 0], [1, 1], [2, 2]]),
    Case("two sums, the second another", [add(1, 0, 0, "CONT"), add(2, 1, 0, "CJP", 0, 1)], 2, [7, 1, 15],
         [[0, 0, 1], [1, 1, 0]], [[0, 0], [1, 1], [2, 2]]),
    Case("two sums, late", [add(1, 0, 0, "CONT"), add(2, 1, 0, "CJP", 0, 1)], 1, [7, 1, 15], [[0, 0, 1], [1, 1, 2]],
         [[0, 0], [1, 1], [2, 2]]),
    Case("a word of one, at its bound", [jump(1, 0, 0, 0)], 1, [3, 4], [[0, 0, 1]], [[0, 0], [1, 1]]),
    Case("a word of one, far below its bound", [jump(1, 0, 0, 0)], 500, [3, 4], [[0, 0, 1]], [[0, 0], [1, 1]]),
    Case("a loop of two, late", [add(1, 0, 0, "CONT"), jump(1, 0, 0, 0)], 1, [3, 4], [], [[0, 0], [1, 1]]),
    Case("a loop of three, late", [add(1, 0, 0, "CONT"), add(1, 0, 0, "CONT"), jump(1, 0, 0, 0)], 2, [1, 2], [], [[0, 0]]),
    Case("a loop of three, at its bound", [add(1, 0, 0, "CONT"), add(1, 0, 0, "CONT"), jump(1, 0, 0, 0)], 3, [1, 2],
         [[0, 0, 1], [0, 0, 1], [0, 0, 1]], [[0, 0], [1, 1]]),
    Case("a jump to itself", [jump(0, 0, 0, 0)], 1, [5], [[0, 0, 0]], [[0, 0]]),
    Case("a test that fails goes on", [add(0, 0, 0, "CJP", 0, 0), jump(1, 1, 0, 0)], 2, [5, 1], [[0, 0, 0], [1, 1, 1]],
         [[0, 0], [1, 1]]),
    Case("a test that fails goes on, and is late", [add(0, 0, 0, "CJP", 0, 0)], 1, [5], [[0, 0, 0]], [[0, 0]]),
    Case("a test that fails doesn't go to the branch", [add(0, 0, 0, "CJP", 7, 0), jump(0, 0, 0, 0)], 2, [1],
         [[0, 0, 0], [0, 0, 0]], [[0, 0]]),
    Case("a carry in that is left out", [jump(0, 0, 1, 0)], 1, [3], [[0, 0, 0]], [[0, 0]]),
    Case("a carry in, and a sum that wraps", [jump(0, 0, 1, 0)], 1, [15, 1], [[0, 0, 0], [0, 0, 1]], [[0, 0]]),
    Case("a carry in beside a register of 0", [jump(3, 0, 1, 0)], 1, [15, 1], [[0, 0, 1]], [[0, 0]]),
    Case("the fill word, once", [jump(1, 0, 0, 9)], 2, [1, 2], [[0, 0, 1], [0, 0, 1]], [[0, 0], [1, 1]], number(jump(1, 0, 0, 0))),
    Case("the fill word, and no way back", [add(1, 0, 0, "CONT")], 4, [1, 2], [], [[0, 0], [1, 1]], FIRST_WORD),
    Case("the fill word at the last address", [add(1, 0, 0, "CONT"), jump(1, 0, 0, 4095)], 3, [1, 2],
         [[0, 0, 1], [0, 0, 1], [0, 0, 1]], [[0, 0], [1, 1]], FIRST_WORD),
    Case("the counter wraps", [add(1, 0, 0, "CONT"), jump(1, 0, 0, 4094)], 4, [1, 2],
         [[0, 0, 1], [0, 0, 1], [0, 0, 1], [0, 0, 1]], [[0, 0], [1, 1]], FIRST_WORD),
    Case("the counter wraps, late", [add(1, 0, 0, "CONT"), jump(1, 0, 0, 4094)], 3, [1, 2],
         [[0, 0, 1], [0, 0, 1], [0, 0, 1], [0, 0, 1]], [[0, 0], [1, 1]], FIRST_WORD),
    Case("sixteen registers", [jump(15, 15, 0, 0)], 1, list(range(16)), [[15, 15, 15]], [[r, r] for r in range(16)]),
    Case("sixteen registers, from the last to the first", [jump(15, 14, 0, 0)], 1, list(range(16)), [[14, 14, 15]],
         [[r, 15 - r] for r in range(16)]),
    Case("sixteen registers, each a sum", [add(15 - r, r, 0, "CONT") for r in range(15)] + [jump(0, 15, 0, 0)], 16,
         list(range(16)), [[r, r, 15 - r] for r in range(16)], [[r, r] for r in range(16)]),
    Case("three sums that read one another", [add(0, 1, 0, "CONT"), add(1, 2, 0, "CONT"), jump(2, 0, 1, 0)], 3, [1, 2, 3, 1],
         [[1, 1, 0], [2, 2, 1], [0, 0, 2], [0, 0, 3]], [[0, 0], [1, 1], [2, 2]]),
    Case("one described register on two lines", [jump(1, 0, 0, 0)], 1, [2], [[0, 0, 0]], [[0, 0], [1, 0]]),
    Case("one described register on two lines that agree", [jump(2, 0, 0, 0)], 1, [2], [], [[0, 0], [1, 0]]),
    Case("the first of two lines that fail", [jump(1, 0, 0, 0)], 1, [1, 1, 1], [[1, 1, 1], [2, 2, 2]], [[2, 2], [1, 1], [0, 0]]),
    Case("the last line fails", [jump(1, 0, 0, 0)], 1, [1, 1, 1], [[0, 0, 1], [2, 2, 2]], [[0, 0], [1, 1], [2, 2]]),
    Case("the line in the middle fails", [jump(1, 0, 0, 0)], 1, [1, 1, 1], [[0, 0, 1], [1, 1, 1]], [[0, 0], [1, 1], [2, 2]]),
    Case("the second line fails, and no other", [jump(1, 0, 0, 0)], 1, [1, 1, 1], [], [[5, 2], [0, 0], [1, 1]]),
    Case("what changes is on no line", [jump(1, 0, 0, 0)], 1, [1, 1], [], [[10, 0], [11, 1]]),
    Case("lines from a later register to an earlier", [jump(12, 13, 1, 0)], 1, [1, 9], [[0, 0, 1]], [[13, 0], [12, 1]]),
    Case("no line but that of the counter", [jump(1, 0, 0, 0)], 1, [1], [], []),
    Case("a later assignment reads what an earlier one wrote", [add(1, 0, 0, "CONT"), jump(0, 1, 0, 0)], 2, [3, 4],
         [[0, 0, 1], [1, 1, 0]], [[0, 0], [1, 1]]),
    Case("assignments the other way round", [add(1, 0, 0, "CONT"), jump(0, 1, 0, 0)], 2, [3, 4], [[1, 1, 0], [0, 0, 1]],
         [[0, 0], [1, 1]]),
    Case("assignments to one register", [add(1, 0, 0, "CONT"), jump(2, 0, 0, 0)], 2, [3, 4, 6], [[0, 1, 0], [0, 2, 0]],
         [[0, 0], [1, 1], [2, 2]]),
    Case("assignments to one register, the first another", [add(1, 0, 0, "CONT"), jump(2, 0, 0, 0)], 2, [3, 4, 6],
         [[0, 1, 1], [0, 2, 0]], [[0, 0], [1, 1], [2, 2]]),
    # a subtraction, and a word on the stack
    Case("a subtraction that is a sum of 0", [word("A B", "SUBR", "RAMF", 1, 0, 1, "CJP", 0, 1)], 1, [1, 0], [[0, 0, 1]],
         [[0, 0], [1, 1]]),
    Case("a subtraction that is no sum", [word("A B", "SUBR", "RAMF", 1, 0, 1, "CJP", 0, 1)], 1, [1, 1], [[0, 0, 1]],
         [[0, 0], [1, 1]]),
    Case("a word on the stack", [word("A Q", "ADD", "NOP", sequencer="PUSH"), word("A Q", "ADD", "NOP", sequencer="CJP", off=1)],
         2, [3], [], [[0, 0]]),
]


# ---- every instruction

def computed(name, words, values, expected=None):
    """A case of these words over registers with these values. The described machine adds to each of them what it gains
    by the expected words, which are the same ones where none are given."""
    count = len(values)
    relation = [[r, r] for r in range(count)]
    way, after = Case(name, expected or words, 500, values, [], relation).way()
    gains = [(after.get(r, 0) - before) & 15 for r, before in enumerate(values)]
    return Case(name, words, len(way), values + gains, [[r, r, count + r] for r in range(count)], relation)


def of_function(function, cin):
    """Q takes r7; then r0 to r7 take the function, each of another source. A is the register after B."""
    words = [word("0 A", "OR", "QREG", 7)]
    for n, source in enumerate(SOURCES):
        last = dict(sequencer="CJP", off=1) if n == 7 else {}
        words.append(word(source, function, "RAMF", (n + 1) % 8, n, cin, **last))
    return words


def to_destination(destination):
    """Q takes r0, 1101. Then the sum of r1 and r2, 1011, goes to its destination, and r3 takes Q."""
    return [
        word("0 A", "OR", "QREG", 0),
        word("A B", "ADD", destination, 1, 2),
        word("0 Q", "OR", "RAMF", 0, 3, sequencer="CJP", off=1),
    ]


def counted(name, instructions, lack=0):
    """A case whose word at address n has the sequencer's instruction number n, and adds 1 to register n; the machine
    adds as often as the board comes there. The bound is what the board needs, but for the cycles that it is to lack."""
    count = len(instructions)
    words = [add(count, n, 0, *instruction) for n, instruction in enumerate(instructions)]
    relation = [[r, r] for r in range(count + 1)]
    start = [0] * count + [1]
    way, after = Case(name, words, 60, start, [], relation).way(60)
    assign = [[n, n, count] for n in way] if after else []
    return Case(name, words, len(way) - lack, start, assign, relation)


def stepped(name, instruction, passed, r=4, after=("CRTN", 0, 1), lack=0):
    """Words 0 and 1 push addresses 1 and 2, and word 0 loads R. Word 2 has the instruction: F is its own address, PC is 3,
    R is 4 unless something else is said, and D is 5. Words 3 to 5 go where the stack says, and so at last to address 0, where
    it is empty; or word 3 goes another way."""
    back = ("CRTN", 0, 1)
    return counted(name, [("PUSH", r, 1), ("PUSH", 0, 0), (instruction, 5, passed), after, back, back], lack)


OPERANDS = [5, 3, 12, 9, 6, 10, 7, 14]
SHIFTED = [13, 4, 7, 1]
NAMES = list(DESTINATIONS)
ENDS = ["fails", "passes"]

INSTRUCTIONS = [
    # every function of every source, without a carry in; and with one, which only sums see
    *(computed(f"{f} of every source, carry in {cin}, and as without", of_function(f, cin), OPERANDS, of_function(f, 0))
      for f in FUNCTIONS for cin in (0, 1)),
    *(computed(f"{f} of every source with its carry in", of_function(f, 1), OPERANDS) for f in FUNCTIONS[:3]),
    # every destination; and in its place the next one, of which RAMA and RAMF do the same to B and Q
    *(computed(d, to_destination(d), SHIFTED) for d in NAMES),
    *(computed(f"{d} in place of {e}", to_destination(d), SHIFTED, to_destination(e)) for e, d in zip(NAMES, NAMES[1:] + NAMES[:1])),
    # every instruction of the sequencer, where the test fails and passes; RPCT counts 2 down before the stack is empty
    *(stepped(f"{name} where the test {ENDS[passed]}", name, passed, r=2 if name == "RPCT" else 4)
      for name in CODES for passed in (0, 1)),
    # those that count, where R is 0
    *(stepped(f"{name} where R is 0 and the test {ENDS[passed]}", name, passed, r=0)
      for name, passed in (("RFCT", 0), ("RPCT", 0), ("TWB", 0), ("TWB", 1))),
    # one cycle too few
    *(stepped(f"{name} and a bound that lacks a cycle", name, passed, lack=1) for name, passed in (("CRTN", 1), ("RFCT", 0))),
    # R is seen where word 3 goes to it
    *(stepped(f"R after {name} where the test {ENDS[passed]}", name, passed, r, ("JRP", 0, 0))
      for name, passed, r in (("PUSH", 0, 4), ("PUSH", 1, 4), ("LDCT", 0, 4), ("LDCT", 1, 4), ("TWB", 1, 5))),
    # back at the boundary by a jump, with what the stack then holds
    *(counted(f"the stack after {name}", [("PUSH", 0, 1), (name, 2, 1), ("CJP", 0, 1)]) for name in ("CJS", "JSRP", "CJPP")),
    # six calls, of which the sixth writes over the fifth on the stack; each returns
    counted("six calls", [("CRTN", 0, 1) if n % 2 or n == 12 else ("CJS", n + 2, 1) for n in range(13)]),
]


# ---- starts that are completed, on a board that only jumps, and a step that does little

STILL_BOARD = """\
version = 1
width = 8
microword = 12
address = 4
fill = "0"
flipflop = [
{ name = "c", control = 0, load = ["hold"] },
{ name = "s", control = 0, load = ["hold"] },
]
[fields]
br = [0, 12]
[control]
alu_destination = 1
sequencer = 3
test_disable = 1
branch = "br"
"""
STILL_MICRO = """\
equ FIVE = 5
def GO = br=5
org 5
HERE: br=HERE
THERE: br=HERE
OTHER: GO
org 4095
LAST: br=FIVE
PAST:
"""
STILL_REGISTERS = {"A": 8, "B": 8, "P": 4, "F": 1, "W": 12, "V": 32}
STILL_MACHINE = "memory 4 8\n" + "".join(f"register {name} {width}\n" for name, width in STILL_REGISTERS.items()) + "step\n"
STILL_WIDTHS = ({f"b.r{number}": 8 for number in (0, 1, 15)} | {"b.q": 8, "b.ir": 8, "b.mar": 4, "b.c": 1, "b.s": 1, "b.count": 12}
                | {f"b.stack{number}": 12 for number in range(5)} | {f"m.{name}": width for name, width in STILL_REGISTERS.items()})


def expression(bits, width, free, depth):
    """A text of this width over free elements and the memory."""
    def of(width):
        return expression(bits, width, free, depth - 1)

    known = [name for name in free if STILL_WIDTHS[name] == width]
    kind = bits.choice(["element"] * 3 + (["sum", "part", "not", "choice", "join", "widened", "truth", "memory"] if depth else []))
    if kind == "truth" and width == 1:
        return f"({of(4)} {bits.choice(['==', '!=', '<'])} {of(4)})"
    if kind == "memory" and width == 8:
        return f"mem[{of(4)}]"
    if kind == "sum":
        return f"({of(width)} {bits.choice('+-&|^')} {of(width)})"
    if kind == "not":
        return f"~{of(width)}"
    if kind == "choice":
        return f"({of(1)} ? {of(width)} : {of(width)})"
    if kind == "join" and width > 1:
        low = bits.randint(1, width - 1)
        return f"{{{of(width - low)}, {of(low)}}}"
    if kind == "widened" and width > 1:
        return f"zext({of(bits.randint(1, width))}, {width})"
    wider = [name for name in free if STILL_WIDTHS[name] > width]
    if known and (bits.random() < 0.8 or not wider):
        return bits.choice(known)
    if wider:
        name = bits.choice(wider)
        low = bits.randint(0, STILL_WIDTHS[name] - width)
        return f"{name}[{low + width - 1}:{low}]"
    return f"{bits.getrandbits(width)}#{width}"


# What a step does, where it does something: of these a line is chosen.
CHANGES = ["A := A + 1#8", "P := ~P", "F := ~F", "W := W ^ 0x804#12", "mem[P] := mem[P] + 1#8", "mem[0xC#4] := A", "V := V - 1#32", "B := mem[P]"]


def completed_cases(count=48):
    """Relations with flip-flops, stack words, mar and memory on their left and right sides; every second step changes something."""
    bits = random.Random(2910)
    for number in range(count):
        left = bits.sample(list(STILL_WIDTHS), bits.randint(4, 9))
        left += [name for name in bits.sample(["b.c", "b.s", "b.mar", "b.stack0", "b.stack4"], 2) if name not in left]
        free = [name for name in STILL_WIDTHS if name not in left]
        lines = "".join(f"{name} = {expression(bits, STILL_WIDTHS[name], free, 3)}\n" for name in left)
        sets = "".join(f"set {name} 0x{bits.getrandbits(STILL_WIDTHS[name]):X}\n" for name in free if bits.random() < 0.8)
        memory = "".join(f"mem 0x{4 * at:X} {' '.join(f'0x{bits.getrandbits(8):X}' for _ in range(4))}\n" for at in range(4))
        change = bits.choice(CHANGES) + "\n" if number % 2 else ""
        sp = bits.randint(0, 5)
        yield (f"a pair from its start, {'and a step' if change else 'and no step'} {number // 2 + 1}",
               [STILL_BOARD, STILL_MICRO, STILL_MACHINE + change,
                f"boundary HERE 1\nsp {sp}\nb.upc = 6#12\n{lines}end\n", f"boundary HERE\n{sets}{memory}"])


def thirteen_boundaries():
    """A relation with a boundary at each of the first thirteen addresses; the last wants the complement."""
    lines = ["b.r0 = m.X"] * 12 + ["b.r0 = ~m.X"]
    return "".join(f"boundary {at} 1\nsp 0\nb.upc = {at + 1}#12\n{line}\nend\n" for at, line in enumerate(lines))


THIRTEEN = {"b": board_text(), "m": "", "k": "memory 4 4\nregister X 4\nstep\n", "r": thirteen_boundaries()}


# ---- events, the interrupt line, and the order of differences, on the board of examples/tally

EXAMPLE = Path(__file__).resolve().parent.parent.parent / "examples" / "tally"
TALLY = {file: (EXAMPLE / name).read_text() for file, name in
         {"b": "board.toml", "m": "micro", "k": "machine", "r": "relation", "s": "start"}.items()}
TALLY["m"] = TALLY["m"].replace("out=1, cc=1", "out=1")
TWO_BOUNDARIES = """\
boundary WAIT 3
sp 0
b.upc = 1#12
b.r0 = m.S
end
boundary TAKE 2
sp 0
b.upc = 2#12
b.r0 = ~m.S
end
"""
STILL_STEP = "memory 4 4\nregister S 4\nregister C 1\nstep\n"
CALLS = {"m": TALLY["m"].replace("out=1, JUMP", "out=1, seq=1")}
WRONG_SUM = [("S := S + T", "S := S + T + 1#4"), ("put S", "put S + T - T - 1#4")]


def told(*changes, **files):
    """The texts of the example in which some stand in another form."""
    texts = TALLY | files
    for file, old, new in changes:
        assert old in texts[file], (file, old)
        texts = texts | {file: texts[file].replace(old, new)}
    return texts


def machine_that(*changes):
    return [("k", old, new) for old, new in changes]


MEMORY = machine_that(("if request\n", "mem[9#4] := 3#4\nmem[2#4] := 3#4\nif request\n"))
EVENTS = [
    # the line, the inputs and the noise
    ("the line is high in the first cycle alone", told(("s", "line 1", "line 1 0 0"))),
    ("the line is high in all cycles", told(("s", "line 1", "line 1 1 1 1"))),
    ("the line is high in the second cycle alone", told(("s", "line 1", "line 0 1"))),
    ("the line is low, and c is 1", told(("s", "line 1", "line 0 1 1\nset m.C 1"))),
    ("the machine looks at no line", told(*machine_that(("if request", "if 1#1")), ("s", "line 1", "line 0 1 1"))),
    ("the machine asks for a low line", told(*machine_that(("if request", "if ~request")))),
    ("inputs of two lines, of which the first is taken", told(("s", "inputs 12", "inputs 12\ninputs 5"), *machine_that(("S + T\n", "S + 12#4\n")))),
    ("inputs of two lines, of which the second isn't taken", told(("s", "inputs 12", "inputs 5\ninputs 12"), *machine_that(("S + T\n", "S + 12#4\n")))),
    ("no inputs", told(("s", "inputs 12\n", ""))),
    ("inputs of zeros", told(("s", "inputs 12", "inputs 0 0"))),
    ("the machine takes what comes next", told(("s", "inputs 12", "inputs 12 3"), *machine_that(("take T\n", "take T\ntake T\n")))),
    ("the noise of another cycle", told(("s", "line 1", "line 1\nnoise 0x1000 0x1000"), ("m", "out=1,", "out=1, cc=1,"))),
    ("the noise of two lines", told(("s", "line 1", "line 1\nnoise 0 0\nnoise 0x1000"), ("m", "out=1,", "out=1, cc=1,"))),
    ("the noise is the other bit", told(("s", "line 1", "line 1\nnoise 0 0 0x2FFF"), ("m", "out=1,", "out=1, cc=1,"))),
    # events
    ("a word is taken where it was put out", told(*machine_that(("take T", "put 12#4\nT := 12#4")))),
    ("a word is put out where it was taken", told(*machine_that(("put S", "take T")), ("s", "inputs 12", "inputs 12 4"))),
    ("another word is put out", told(*machine_that(("put S", "put T")))),
    ("nothing is put out", told(*machine_that(("put S\n", "")))),
    ("a word more is put out", told(*machine_that(("put S", "put S\nput S")))),
    ("a word is put out where the board has no event", told(*machine_that(("step\n", "step\nput 0#4\n")), ("s", "line 1", "line 0"))),
    ("the board alone has events", told(k=STILL_STEP)),
    # which difference is the first
    ("late before an event", told(("r", "WAIT 3", "WAIT 2"), *machine_that(("put S", "put T")))),
    ("late, and nothing else", told(("r", "WAIT 3", "WAIT 2"))),
    ("at the bound", told(("r", "WAIT 3", "WAIT 3"))),
    ("an event before the stack pointer", told(*machine_that(("put S", "put T")), **CALLS)),
    ("an event before a line", told(*machine_that(("put S", "put T\nS := ~S")))),
    ("a line, with the right events", told(*machine_that(*WRONG_SUM))),
    ("an event before memory", told(*machine_that(("put S", "put T")), *MEMORY)),
    ("the stack pointer before a line", told(*machine_that(("put S", "put S\nS := ~S")), **CALLS)),
    ("the stack pointer before memory", told(*MEMORY, **CALLS)),
    ("the stack pointer of the boundary that was left", told(("r", "sp 0", "sp 1"), **CALLS)),
    ("a full stack stays full", told(("r", "sp 0", "sp 5"), **CALLS)),
    ("a line before memory", told(*machine_that(("put S", "put S\nS := ~S")), *MEMORY)),
    ("the first line by place", told(("r", "b.r0 = m.S\nb.c = m.C", "b.c = m.C\nb.r0 = m.S"), *machine_that(("put S", "put S\nS := ~S\nC := ~C")))),
    ("the second line by place", told(("r", "b.r0 = m.S\nb.c = m.C", "b.c = m.C\nb.r0 = m.S"), *machine_that(("put S", "put S\nS := ~S")))),
    ("the least address", told(*MEMORY)),
    ("an address that takes what it has", told(*MEMORY, ("s", "line 1", "line 1\nmem 2 3 0 0 0 0 0 0 3"))),
    ("an address that takes what it has, and another", told(*MEMORY, ("s", "line 1", "line 1\nmem 2 3"))),
    # two boundaries
    ("to the second boundary", told(r=TWO_BOUNDARIES, k=STILL_STEP + "S := ~S\n")),
    ("to the second boundary, whose lines are others", told(r=TWO_BOUNDARIES, k=STILL_STEP)),
    ("to the second boundary, and not to the first again", told(("r", "2#12\n", "3#12\n"), r=TWO_BOUNDARIES, k=STILL_STEP + "S := ~S\n")),
    ("from the second boundary to the first", told(("s", "WAIT", "TAKE"), r=TWO_BOUNDARIES, k=STILL_STEP.replace("step", "temp T 4\nstep") + "take T\nS := ~S + T\nput S\n")),
    ("from the second boundary, late", told(("s", "WAIT", "TAKE"), ("r", "TAKE 2", "TAKE 1"), r=TWO_BOUNDARIES, k=STILL_STEP)),
    ("from the first boundary to itself", told(("s", "line 1", "line 0"), r=TWO_BOUNDARIES, k=STILL_STEP)),
]


# ---- starts, right and wrong

STILL_RELATION = """\
boundary HERE 1
sp 1
b.r0 = m.A
b.c = m.F
b.upc = 6#12
m.W = b.count
end
boundary THERE 2
sp 0
b.r1 = m.A
end
"""
# Lines behind the head; a `/` stands between lines.
LINES = [
    "set b.r1 255", "set b.r1 256", "set b.r15 0xFF", "set b.r16 0", "set b.c 1", "set b.s 1", "set b.s 2", "set b.mar 15",
    "set b.mar 16", "set b.ir 0x100", "set b.q 0o377", "set b.count 4095", "set b.count 4096", "set b.stack0 1",
    "set b.stack4 0xFFF", "set b.stack4 0x1000", "set b.stack5 0", "set b.sp 1", "set b.at 0", "set b.upc 6", "set b.upc 0x1000",
    "set b.r0 1", "set b.r0 256", "set m.W 0", "set m.W 4096", "set m.A 255", "set m.A 256", "set m.P 15", "set m.P 0b10000",
    "set m.F 2", "set m.V 0xFFFFFFFF", "set m.V 0x100000000", "set m.V 340282366920938463463374607431768211455",
    "set m.V 340282366920938463463374607431768211456", "set m.Z 0", "set m.r1 0", "set b.A 0", "set m.request 1", "set x.r1 0",
    "set B.r1 0", "set b.c_ 0", "set " + "n" * 65 + ".r1 0", "set b." + "n" * 65 + " 0", "set b . r1 3", "set\tb.r1\t3 ; a note",
    "set b.r1 1/set b.r1 1", "set b.r1 1/set b.q 1/set b.r1 0", "set m.A 1/set m.A 2", "set m.A 1/set b.r1 1/set m.A 256",
    "set b.r1 256/set b.r1 1", "set b.Z 0/set b.Z 0",
    # the grammar
    "set", "set b", "set b.", "set b.r1", "set b.r1 = 1", "set b.r1 1 1", "set b.r1 m.A", "set b.r1 1#8", "set b.r1 -1", "set r1 1",
    "set b r1 1", "set b..r1 1", "set b.1 1", "set 1.r1 1", "set .r1 1", "set b.r1 x", "set mem 1 1", "Set b.r1 1", "sets b.r1 1",
    "set b.set 1", "mem.r1 1", "b.r1 1", "r1", "3", "+", "=", ":", "end", "at HERE", "sp 1", "waits 1", "no", "difference late",
    "boundary HERE", "boundary THERE", "set b.r1 1 ; @ and more", "set b.r1 1@", "set b.r1 1a", "set b.r1 0x", "set b.r1 1\\",
    # memory
    "mem 0 1", "mem 15 255", "mem 16 0", "mem 0 256", "mem 16 256", "mem 14 1 2", "mem 14 1 2 3", "mem 14 1 2 256", "mem 15 256 1",
    "mem 0 0 0 0 0 0 0 0 0 0 0 0 0 0 0 0 0", "mem 0 0 0 0 0 0 0 0 0 0 0 0 0 0 0 0 0 0", "mem 0x100 0", "mem 0 0x1FF 0x1FF",
    "mem 3 1/mem 3 1", "mem 3 1/mem 2 1 1", "mem 3 1/mem 2 1 256", "mem 3 1/mem 2 256 1", "mem 3 0/mem 3 0", "mem 3 1 2/mem 4 1",
    "mem 3 1/mem 3 256", "mem 15 1/mem 14 0 0 0", "mem", "mem 3", "mem 3 x", "mem x 3", "mem = 3", "mem 3 = 1", "mem 3, 1",
    "mem [3] 1", "mem 3 1 x", "mem b.r1 1", "mem -1 0", "mem 1#4 0", "MEM 3 1", "memory 3 1", "mem 340282366920938463463374607431768211455 1",
    # lists
    "inputs 0", "inputs 255", "inputs 256", "inputs 1 256 257", "inputs", "inputs x", "inputs 1 x", "inputs 1, 2", "inputs = 1",
    "inputs 1/inputs 2 3", "inputs 1/inputs 256", "input 1", "line 0 1 0", "line 2", "line 0 1 2", "line", "line x", "line 1/line 2",
    "lines 1", "noise 0x3FFF", "noise 0x4000", "noise 1 2 3/noise 16384", "noise", "noise -1", "noise 0 0 0", "line 1 noise 1",
    "wait 0 1 0", "wait 2", "wait 0 1 2", "wait", "wait x", "wait 1/wait 2", "inputs 0/line 0/noise 0/wait 0/inputs 0",
    "inputs 340282366920938463463374607431768211456",
    # pairs of faults
    "set b.r1 1 1/@", "@/set b.r1 1 1", "set b.Z 0/set b.r0 0", "set b.r0 0/set b.Z 0", "mem 16 0/set b.r1 256", "set b.r1 256/mem 16 0",
    "set b.r0 0/set b.r1", "set b.r1/set b.r0 0", "inputs 256/line 2", "line 2/inputs 256", "set b.Z 256", "set b.r0 1 1", "set b.r1 0x1G/@",
    "set b.r1 9a 9b", "mem 16 256 1 2", "set x.y 340282366920938463463374607431768211456", "noise 16384/set b.r1 1/set b.r1 1",
    "set b.r1 1/set b.r1 256", "set m.A 1/mem 3 1/mem 3 1/set m.A 1",
]
# First lines, in place of `boundary HERE`.
HEADS = [
    "boundary HERE", "boundary 5", "boundary 0x5", "boundary 0b110", "boundary THERE", "boundary 6", "boundary OTHER", "boundary 7",
    "boundary 0", "boundary LAST", "boundary 4095", "boundary PAST", "boundary 4096", "boundary 0x10005", "boundary NOWHERE",
    "boundary here", "boundary FIVE", "boundary GO", "boundary br", "boundary " + "n" * 65, "boundary",
    "boundary HERE HERE", "boundary HERE 1", "boundary = HERE", "boundary HERE:", "boundary .", "boundary b.r1", "Boundary HERE",
    "boundary 340282366920938463463374607431768211455", "boundary 340282366920938463463374607431768211456", "boundary 5x",
    "at HERE", "set b.r1 1", "mem 0 1", "inputs 1", "line 1", "noise 1", "wait 1", "HERE", "5", "=", "boundary HERE;boundary",
    "no/boundary HERE", "difference late/boundary HERE", "no/difference late/boundary HERE", "no/difference element b.r0/boundary HERE",
    "no/difference memory 0x3/boundary HERE", "difference/boundary HERE", "difference ) + := 5 x.y/boundary HERE",
    "no/no/boundary HERE", "difference late/no/boundary HERE", "difference late/difference late/boundary HERE", "no x/boundary HERE",
    "no 1/boundary HERE", "no.r1 1/boundary HERE", "No/boundary HERE", "yes/boundary HERE", "same 1/boundary HERE",
    "differs step 1/boundary HERE", "differs step 1/difference late/boundary HERE", "no/set b.r1 1/boundary HERE",
    "no/difference 5x/boundary HERE", "difference @/boundary HERE", "no/difference late", "no", "difference late", "difference late/set b.r1 1",
    "no ; a note/difference ; @/boundary HERE", "/ /;/no//difference late//boundary HERE", "no/boundary NOWHERE", "no/boundary 7",
    "boundary HERE/no", "boundary HERE/difference late", "boundary HERE/boundary HERE", "nodifference/boundary HERE",
]
TEXTS = [
    ("a text without bytes", ""), ("a line feed", "\n"), ("a comment alone", "; a"), ("a comment and line feeds", "; a\r\n\n"),
    ("carriage returns", "boundary HERE\r\nset b.r1 1\r\n"), ("a carriage return at the end", "boundary HERE\r"),
    ("a carriage return at the end of a comment", "boundary HERE\n; a\r"), ("a carriage return in a line", "boundary HERE\nset\rb.r1 1\n"),
    ("no line feed at the end", "boundary HERE\nset b.r1 1"), ("tabs and blanks", "\tboundary  HERE \n \tset b.r1\t1\t;\n"),
    ("the longest line", "boundary HERE;" + 4082 * "x" + "\n"), ("a line too long", "boundary HERE;" + 4083 * "x" + "\n"),
    ("a later line too long, and a fault before it", "boundary NOWHERE\n;" + 4096 * "x" + "\n"),
    ("a byte of a later line first", "boundary\n\x7F\n"), ("all in another order",
     "boundary HERE\nnoise 1\nmem 1 2\nline 1\nset m.A 1\ninputs 2\nset b.r1 1\nmem 0 5\nset b.q 3\n"),
]
FULL = "1 " * 63 + "1\n"
LIMITS = [(f"{name} of 65,536 entries", 1024 * f"{name} {FULL}") for name in LISTS]
LIMITS += [(f"{name} of 65,537 entries", 1024 * f"{name} {FULL}" + f"{name} 1\n") for name in LISTS]
LIMITS += [("an entry too many that is too wide", 1024 * f"line {FULL}" + "line 2\n"), ("an entry too wide before one too many",
           1023 * f"noise {FULL}" + "noise 16384 " + FULL), ("zeros too many", 1024 * ("inputs " + "0 " * 63 + "0\n") + "inputs 0\n")]
WHOLE = "no\ndifference element b.r1\nboundary HERE\nset m.A 0xF\nmem 3 7\nline 1\n"
# Files of which several aren't right: for each the file and what stands in it; none where it isn't there.
FILES = [
    ("a machine that does something else", {"k": "memory 4 4\nregister X 4\nregister Y 4\nstep\nX := X + X\n"}),
    ("a machine of other widths", {"k": "memory 4 4\nregister X 4\nregister Y 4\nstep\nX := X + 1#5\n"}),
    ("a bound that is too big", {"r": "boundary LOOP 501\nsp 0\nend\n"}),
    ("a microprogram that spins", {"m": SMALL_MICRO.decode().replace("br=LOOP", "br=1")}),
    ("a machine and a relation", {"k": "memory 4 4\nregister X\n", "r": "boundary LOOP\n"}),
    ("a relation and a start", {"r": "boundary LOOP 501\nsp 0\nend\n", "s": "boundary NOWHERE\n"}),
    ("a microprogram and a machine", {"m": "LOOP: src=9\n", "k": "memory\n"}),
    ("a microprogram and a start", {"m": "LOOP: srx=1\n", "s": ""}),
    ("a machine and no relation", {"k": "memory 4 4\n", "r": None}),
    ("a relation and no start", {"r": "boundary LOOP 2\nend\n", "s": None}),
    ("another memory, and a start without bytes", {"k": SMALL_MACHINE.decode().replace("memory 4", "memory 3"), "s": ""}),
    ("a label that is gone", {"m": SMALL_MICRO.decode().replace("LOOP", "LOOQ")}),
    ("a start of no boundary", {"s": "boundary 1\n"}),
    ("an element beyond the machine", {"k": "memory 4 4\nregister X 4\nstep\n"}),
    ("a left element", {"s": "boundary LOOP\nset b.r0 0x1\n"}),
    ("an empty relation", {"r": ""}), ("an empty machine", {"k": ""}),
]
STILL = {"b": STILL_BOARD, "m": STILL_MICRO, "k": STILL_MACHINE, "r": STILL_RELATION}
SMALL = {file: text.decode() for file, text in zip("bmkrs", (SMALL_BOARD, SMALL_MICRO, SMALL_MACHINE, SMALL_RELATION, SMALL_START))}


# ---- rows

NAMES_OF_FILES = {"b": "board", "m": "microprogram", "k": "machine", "r": "relation", "s": "start"}


def sets_of(what, texts):
    """Sets of one file each, by their names."""
    return {f"{what} {NAMES_OF_FILES[file]}": (file, text) for file, text in texts.items()}


def set_lines(sets):
    for name, (file, text) in sets.items():
        yield [f"set {name}", f"file {file}"] + text_lines(text.encode())


def row_of(name, sets, texts):
    """A row of five texts, of which some stand in sets, and some may not be there."""
    lines = [f"row {name}", "$ compare b m k r s"]
    for file in "bmkrs":
        shared = [one for one, (own, text) in sets.items() if own == file and text == texts[file]]
        if shared:
            lines.append(f"with {shared[0]}")
        elif texts[file] is not None:
            lines += [f"file {file}"] + counted_lines(texts[file].encode())
    found = report([(texts[file] or "").encode() for file in "bmkrs"])
    return lines + [f"status {status(found)}"] + text_lines(found.encode())


def short(text):
    return re.sub(r"\s*/\s*", " / ", re.sub(r"n{9,}", "nn..", text))[:60].strip()


def case_rows(cases):
    sets = {f"board with the fill word {fill:X}": ("b", board_text(fill)) for fill in dict.fromkeys(case.fill for case in cases)}
    yield from set_lines(sets)
    for case in cases:
        yield row_of(case.name, sets, dict(zip("bmkrs", case.texts())))


def comparison_rows():
    yield from case_rows(SUMS)
    sets = sets_of("still", {file: STILL[file] for file in "bmk"})
    yield from set_lines(sets)
    for name, texts in completed_cases():
        yield row_of(name, sets, dict(zip("bmkrs", texts)))
    sets = sets_of("thirteen boundaries", THIRTEEN)
    yield from set_lines(sets)
    for at in (7, 8, 9, 10, 11, 12):
        yield row_of(f"boundary {at} of thirteen", sets, THIRTEEN | {"s": f"boundary {at}\nset m.X 6\n"})


def event_rows():
    sets = sets_of("tally", TALLY)
    yield from set_lines(sets)
    for name, texts in EVENTS:
        yield row_of(name, sets, texts)


def start_rows():
    sets = sets_of("still", STILL) | sets_of("small", SMALL)
    yield from set_lines(sets)
    cases = [(f"a head: {short(head)}", head.replace("/", "\n") + "\nset b.r1 1\n") for head in HEADS]
    cases += [(f"lines: {short(lines)}", "boundary HERE\n" + lines.replace("/", "\n") + "\n") for lines in LINES]
    cases += TEXTS + [(name, "boundary HERE\n" + text) for name, text in LIMITS]
    cases += [(f"elements of another boundary: {line}", f"boundary THERE\n{line}\n")
              for line in ("set b.r0 1", "set b.r1 1", "set b.upc 6", "set m.W 1", "set m.A 1", "set b.c 1")]
    cases += [(f"a start cut after {count} bytes", WHOLE[:count]) for count in range(len(WHOLE) + 1)]
    for name, text in cases:
        yield row_of(name, sets, STILL | {"s": text})
    yield row_of("the small case", sets, SMALL)
    for name, files in FILES:
        yield row_of(f"files: {name}", sets, SMALL | files)
    for file in "bmkrs":
        there = [line for line in row_of(f"no {NAMES_OF_FILES[file]}", sets, SMALL) if line != f"with small {NAMES_OF_FILES[file]}"]
        yield there[:-2] + ["status 5", f"| fault read {file}"]


FILES_OF_ROWS = {
    "instructions": ("Every instruction of the Am2901 and the Am2910, by `compare`", lambda: case_rows(INSTRUCTIONS)),
    "comparisons": ("Comparisons: bounds, branches, assignments and lines; then starts that are completed, on a board that only jumps", comparison_rows),
    "events": ("Comparisons of a board with inputs, an output and an interrupt line, and which difference is the first", event_rows),
    "starts": ("Starts, right and wrong", start_rows),
}


def print_rows(name):
    what, rows = FILES_OF_ROWS[name]
    print(f"# {what}. tools/rows/comparisons.py\n# prints these rows, and works out the answers from the formats, without the crates.")
    for row in rows():
        print("\n".join([""] + row))
