#!/usr/bin/env python3
"""Prints the rows of `call described`: steps of described machines on terms, under an assignment.

What a step comes to is that of model/description.py. The machines are a few by hand, and random ones, in which all
statements and operators stand.

    steps.py rows       the rows, for crates/mw_callrows/data/steps
    steps.py counts     no row: how often each statement is done, and each operator worked out
"""
import random
import sys
from collections import Counter

import tools_path
from files import file_lines, row_lines
from model.description import Described, Machine, Outside
from small import SMALL_MACHINE

ROWS = """\
# Steps of described machines on terms, printed by tools/rows/steps.py: the registers after a step, the memory's words at
# the addresses that it reads and writes, its events, how many inputs it takes, and its branch bits.
"""
MACHINES = 120
SETTINGS = 2


class Touched(dict):
    """A memory that keeps the addresses that were read or written."""

    def __init__(self, words):
        super().__init__(words)
        self.at = set(words)

    def get(self, address, otherwise=None):
        self.at.add(address)
        return super().get(address, otherwise)

    def __setitem__(self, address, word):
        self.at.add(address)
        super().__setitem__(address, word)


def stepped(machine, values, request=0, inputs=(), words=(), step=Described):
    """A step, with the memory that it leaves."""
    registers = {f"m.{name}": value for name, value in values.items()}
    return step(machine, registers, Touched(words), Outside({"inputs": inputs}), request)


def named(machine, memory):
    """The addresses that a step names: those that it reads and writes, and a few at which nothing happens."""
    return sorted(memory.at | {0, 2**machine.over.address - 1})


def call_of(call, machine, step, values, request=0, inputs=(), words=()):
    """The line that calls for a step."""
    line = [f"call {call}", f"request={request}"]
    line += [f"inputs={','.join(f'{word:x}' for word in inputs)}"] if inputs else []
    line += [f"{register}={value:x}" for register, value in values.items()]
    addresses = named(machine, step.over.memory)
    return " ".join(line + [f"mem:{address:x}={dict(words).get(address, 0):x}" for address in addresses])


def row_of(name, lines, machine, values, request=0, inputs=(), words=()):
    """The row of a step, where `lines` are those of its file."""
    step = stepped(machine, values, request, inputs, words)
    call = call_of("described", machine, step, values, request, inputs, words)
    memory = step.over.memory
    registers = [f"{register}={step.over.elements[register][1]:x}" for register, _ in machine.elements["register"]]
    image = [f"{address:x}={dict.get(memory, address, 0):x}" for address in named(machine, memory)]
    report = [["registers"] + registers, ["memory"] + image,
              ["events"] + [f"{kind}:{word:x}" for kind, word in step.events], ["inputs", str(step.taken)],
              ["branches"] + [str(bit) for bit in step.bits]]
    return row_lines(name, lines + [call], "gives", "".join(" ".join(line) + "\n" for line in report).encode())


# ---- machines by hand: a name, the text, and for each row the values of its step

SMALL = SMALL_MACHINE.decode()
MEMORY = "memory 4 8\nregister X 4\nregister Y 4\nregister V 8\nregister W 8\nstep\n"
BY_HAND = [
    ("the small case", SMALL, [dict(X=8, Y=8), dict(X=9, Y=8), dict(X=0, Y=0), dict(X=15, Y=1)]),
    ("written at X and read at Y", MEMORY + "mem[X] := V\nW := mem[Y]\n",
     [dict(X=3, Y=3, V=0xA5, words={3: 7}), dict(X=3, Y=4, V=0xA5, words={3: 7, 4: 9}), dict(X=3, Y=4, V=0xA5, words={3: 7}),
      dict(X=0, Y=15, V=0, words={0: 1, 15: 2})]),
    ("read at Y, then written at X", MEMORY + "W := mem[Y]\nmem[X] := V\n",
     [dict(X=3, Y=3, V=0xA5, words={3: 7}), dict(X=3, Y=4, V=0xA5, words={3: 7, 4: 9})]),
    ("written at X and at Y, and read at both", MEMORY + "mem[X] := V\nmem[Y] := V + 1#8\nV := mem[X]\nW := mem[Y]\n",
     [dict(X=5, Y=5, V=0xFF, W=1, words={5: 3}), dict(X=5, Y=6, V=0xFF, W=1, words={5: 3, 6: 4})]),
    ("read at X and at Y, two words put", MEMORY + "put mem[X]\nput mem[Y]\nput mem[X]\nmem[X] := mem[Y] + mem[X]\nput mem[X]\n",
     [dict(X=7, Y=7, words={7: 0x81}), dict(X=7, Y=8, words={7: 0x81, 8: 0x80})]),
    ("an address that was read", MEMORY + "W := mem[mem[X][3:0]]\nmem[mem[Y][3:0]] := mem[mem[mem[X][7:4]][3:0]]\n",
     [dict(X=1, Y=2, words={1: 0x21, 2: 0x12}), dict(X=1, Y=1, words={1: 0x11}), dict(X=9, Y=4, words={9: 0xF4, 4: 9, 15: 4})]),
    ("exchanged by a temporary", "memory 4 4\nregister X 4\nregister Y 4\ntemp T 4\nstep\nX := X + T\nT := X\nX := Y\nY := T\n",
     [dict(X=3, Y=12), dict(X=5, Y=5)]),
    ("inputs and outputs in turn", MEMORY + "put V\ntake V\nput V + W\ntake W\nput V - W\ntake V\n",
     [dict(V=1, W=2, inputs=[0x10, 0x20, 0x30]), dict(V=255, W=255, inputs=[0x80])]),
    ("the request chooses", MEMORY + "if request\nput V\nif X == Y\ntake V\nelse\nmem[X] := W\nend\n"
     "else\nif X < Y\nW := mem[X]\nend\nend\nV := V + 1#8\n",
     [dict(X=2, Y=2, V=9, W=4, request=1, inputs=[0x77]), dict(X=2, Y=3, V=9, W=4, request=1, inputs=[0x77]),
      dict(X=2, Y=3, V=9, W=4, words={2: 0x44}), dict(X=3, Y=2, V=9, W=4, words={3: 0x44})]),
    ("a read in each condition", MEMORY + "if mem[X] == mem[Y]\nmem[X] := V\nend\n"
     "if mem[X] == V\nW := W + 1#8\nend\nif mem[Y] == V\nW := W + 2#8\nend\n",
     [dict(X=1, Y=1, V=6, W=0, words={1: 5}), dict(X=1, Y=2, V=6, W=0, words={1: 5, 2: 5}), dict(X=1, Y=2, V=6, W=0, words={1: 5, 2: 6})]),
    ("no statement", MEMORY, [dict(X=1, Y=2, V=3, W=4, words={1: 2})]),
    ("words of 32 bits at addresses of 16", "memory 16 32\nregister X 32\nregister A 16\nregister B 16\nstep\n"
     "mem[A] := X + mem[B]\nX := {A, B} - mem[A]\nif X < {B, A}\nB := X[31:16] ^ X[15:0]\nend\n",
     [dict(X=0xFFFFFFFF, A=0x8000, B=0xFFFF, words={0x8000: 4, 0xFFFF: 1}), dict(X=0xFFFFFFFF, A=0x1234, B=0x1234, words={0x1234: 0xDEADBEEF})]),
    ("sixty-four ifs in one another", MEMORY + "if X != Y\n" * 64 + "V := V + 1#8\n" + "end\n" * 64, [dict(X=1, Y=2), dict(X=1, Y=1)]),
]


# ---- random machines

def width_of(bits, address, word):
    return bits.choice([1, address, word, word, bits.randint(1, 32)])


class Writer:
    """Writes the text of a random machine."""

    def __init__(self, bits):
        self.bits = bits
        self.address, self.word = bits.choice([1, 2, 3, 3, 4, 4, 6, 8]), bits.choice([4, 4, 8, 8, 12, bits.randint(4, 32), 32])
        self.reads = 0
        names = [f"r{number}" for number in range(bits.randint(2, 5))]
        self.registers = {name: width_of(bits, self.address, self.word) for name in names} | {"r0": self.word, "r1": self.address}
        self.temps = {f"t{number}": width_of(bits, self.address, self.word) for number in range(bits.randint(0, 2))}
        self.widths = self.registers | self.temps | {"request": 1}

    def text(self):
        lines = [f"memory {self.address} {self.word}"]
        lines += [f"register {name} {width}" for name, width in self.registers.items()]
        lines += [f"temp {name} {width}" for name, width in self.temps.items()]
        return "\n".join(lines + ["step"] + self.steps(self.bits.randint(3, 7), 3)) + "\n"

    def steps(self, count, depth):
        return [line for _ in range(count) for line in self.step(depth)]

    def step(self, depth):
        """The lines of a statement. Of two that write the memory or read it, the address is often the same register."""
        kind = self.bits.choice(["assign"] * 4 + ["write"] * 3 + ["put"] * 2 + ["take"] * 2 + ["if"] * (2 if depth else 0))
        targets = self.registers | self.temps
        taking = [name for name, width in targets.items() if width == self.word]
        if kind == "write":
            return [f"mem[{self.of(self.address, 1)}] := {self.of(self.word, 3)}"]
        if kind == "put":
            return [f"put {self.of(self.word, 2)}"]
        if kind == "take":
            return [f"take {self.bits.choice(taking)}"]
        if kind == "if":
            lines = [f"if {self.of(1, 3)}"] + self.steps(self.bits.randint(0, 2), depth - 1)
            if self.bits.random() < 0.7:
                lines += ["else"] + self.steps(self.bits.randint(0, 2), depth - 1)
            return lines + ["end"]
        target = self.bits.choice(list(targets))
        return [f"{target} := {self.of(targets[target], 3)}"]

    def of(self, width, depth):
        """An expression of a width."""
        bits = self.bits
        kinds = ["sum"] * 3 + ["bitwise"] * 2 + ["not", "choice", "part", "join", "widened"]
        kinds += ["truth"] * 3 if width == 1 else []
        kinds += ["memory"] * 4 if width == self.word else []
        kind = bits.choice(["element"] * 4 + ["constant"] + (kinds if depth else []))
        if kind == "sum":
            return f"({self.of(width, depth - 1)} {bits.choice('+-')} {self.of(width, depth - 1)})"
        if kind == "bitwise":
            return f"({self.of(width, depth - 1)} {bits.choice('&|^')} {self.of(width, depth - 1)})"
        if kind == "not":
            return f"~{self.of(width, depth - 1)}"
        if kind == "choice":
            return f"({self.of(1, depth - 1)} ? {self.of(width, depth - 1)} : {self.of(width, depth - 1)})"
        if kind == "truth":
            both = bits.choice(list(self.widths.values()) + [self.word])
            return f"({self.of(both, depth - 1)} {bits.choice(['==', '!=', '<'])} {self.of(both, depth - 1)})"
        if kind == "memory":
            self.reads += 1
            return f"mem[{self.of(self.address, depth - 1)}]"
        if kind == "part":
            wider = bits.randint(width, 32)
            low = bits.randint(0, wider - width)
            asked = f"{low}" if width == 1 and bits.random() < 0.5 else f"{low + width - 1}:{low}"
            return f"({self.of(wider, depth - 1)})[{asked}]"
        if kind == "join" and width > 1:
            low = bits.randint(1, width - 1)
            middle = bits.randint(0, width - low - 1)
            parts = [width - low - middle, middle, low]
            return "{" + ", ".join(self.of(part, depth - 1) for part in parts if part) + "}"
        if kind == "widened":
            return f"zext({self.of(bits.randint(1, width), depth - 1)}, {width})"
        return self.leaf(width, kind)

    def leaf(self, width, kind):
        """An element of a width, or as many bits of one; else a constant."""
        known = [name for name, own in self.widths.items() if own == width]
        if known and kind != "constant":
            return self.bits.choice(known)
        wider = [name for name, own in self.widths.items() if own > width]
        if wider and kind != "constant":
            name = self.bits.choice(wider)
            low = self.bits.randint(0, self.widths[name] - width)
            return f"{name}[{low + width - 1}:{low}]"
        return f"{self.bits.choice([0, 1, 2**width - 1, self.bits.getrandbits(width)])}#{width}"


def value_of(bits, width):
    """A value at an end of its range, or any."""
    return bits.choice([0, 1, 2**width - 1, 2**(width - 1)] + [bits.getrandbits(width)] * 4)


def random_machines():
    """Random machines, each with its text."""
    bits = random.Random(1601)
    while True:
        text = Writer(bits).text()
        machine = Machine(text.encode())
        yield text, machine, bits


def random_setting(machine, bits):
    """The values of a step. All words of a small memory have values, and some of a great one."""
    values = {name: value_of(bits, width) for name, width in machine.elements["register"]}
    inputs = [value_of(bits, machine.over.word) for _ in range(bits.randint(0, 4))]
    addresses = bits.sample(range(2**machine.over.address), min(2**machine.over.address, 8))
    words = {address: value_of(bits, machine.over.word) for address in addresses}
    return dict(values=values, request=bits.getrandbits(1), inputs=inputs, words=words)


def split(setting):
    """The values by hand in the form of random ones."""
    others = {name: setting[name] for name in ("request", "inputs", "words") if name in setting}
    return dict(values={name: value for name, value in setting.items() if name not in others}, **others)


def cases():
    """Each text with its name, its machine and the values of its steps."""
    for name, text, settings in BY_HAND:
        yield name, text, Machine(text.encode()), [split(setting) for setting in settings]
    for number, (text, machine, bits) in zip(range(1, MACHINES + 1), random_machines()):
        yield f"machine {number}", text, machine, [random_setting(machine, bits) for _ in range(SETTINGS)]


def print_rows():
    print(ROWS)
    for name, text, machine, settings in cases():
        print("\n".join([f"set {name}"] + file_lines("text", text.encode())) + "\n")
        for number, setting in enumerate(settings, 1):
            print("\n".join(row_of(f"{name}, {number}", [f"with {name}"], machine, **setting)) + "\n")


class Counting(Described):
    """A step that counts its statements and the operators of its expressions."""

    found = Counter()

    def value(self, tree):
        what, _, parts, _ = tree
        self.found[what] += 1
        for part in parts:
            self.value(part)
        return super().value(tree)

    def do(self, statements):
        for statement in statements:
            self.found[statement[0]] += 1
        super().do(statements)


def print_counts():
    for _, _, machine, settings in cases():
        for setting in settings:
            stepped(machine, **setting, step=Counting)
    print(" ".join(f"{what}:{count}" for what, count in Counting.found.most_common()))


def main():
    match sys.argv[1:]:
        case ["rows"]:
            print_rows()
        case ["counts"]:
            print_counts()
        case _:
            sys.exit(__doc__)


if __name__ == "__main__":
    main()
