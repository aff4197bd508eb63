"""One cycle of a board on numbers: the state after it, its nets, and the bits that it decides.

It is worked out from the tables of the parts, in am2901.py and am2910.py, and from the format of board files. The same
cycle on terms is `Cycle` of words.py, which shares those tables alone with this one: rows/case_words.py compares the two.
"""
from dataclasses import dataclass, field

from model import am2901
from model.am2910 import COUNTED_OUT, INSTRUCTIONS, TESTED, Sequencer
from model.board import settings_of
from model.lines import number_of


@dataclass
class State(Sequencer):
    """A state but for `at`. Registers and memory words that aren't there are 0."""
    q: int = 0
    mar: int = 0
    ir: int = 0
    flips: int = 0
    regs: dict = field(default_factory=dict)
    memory: dict = field(default_factory=dict)

    @staticmethod
    def read(text):
        state = State()
        for name, value in settings_of(text).items():
            if name == "stack":
                state.stack = [int(word, 16) for word in value.split(",")]
            elif name.startswith("mem"):
                state.memory[int(name[3:], 16)] = int(value, 16)
            elif name in vars(state):
                setattr(state, name, int(value, 16))
            else:
                state.regs[int(name[1:])] = int(value, 16)
        return state

    def text(self, at):
        regs = "".join(f" r{number}={value:x}" for number, value in sorted(self.regs.items()) if value)
        memory = "".join(f" mem{address:x}={value:x}" for address, value in sorted(self.memory.items()) if value)
        return (f"at={at:x}{regs} q={self.q:x} mar={self.mar:x} ir={self.ir:x} flips={self.flips:x}"
                f" {self.shown()}{memory}")

    def values(self, board):
        """The values of its elements, in the board's order."""
        flips = [self.flips >> number & 1 for number in range(len(board.flips))]
        registers = [self.regs.get(number, 0) for number in range(16)]
        return [*registers, self.q, self.mar, self.ir, *flips, self.pc, self.r, *self.stack]


def word_at(board, store, at):
    """The microword at an address."""
    return store[at] if at < len(store) else board.fill


def cycle(board, store, at, state, noise, line, offered):
    """The next address, the state after a cycle, and the text of its nets."""
    word = word_at(board, store, at)
    top = board.width - 1
    bits = {"zero": 0, "one": 1, "q_low": state.q & 1, "q_high": state.q >> top, "line": line,
            "full": int(state.sp == board.depth)}

    def point(name):
        return board.point(word, name)

    def bit(entry):
        kind, _, name = entry.partition(":")
        if kind == "ir":
            return state.ir >> number_of(name) & 1
        return state.flips >> board.flip(name) & 1 if kind == "ff" else bits[kind]

    # D.
    source, _, mask = board.chosen(word, "d").partition("&")
    values = {"zero": 0, "memory": state.memory.get(state.mar, 0), "ir": state.ir, "mar": state.mar, "input": offered}
    if source.startswith("field:"):
        d = board.value(word, source.removeprefix("field:")) & board.ones
    else:
        d = bit(source) if source.startswith("ff:") else values[source]
    if mask:
        d &= number_of(mask)

    # F, the flags and Y.
    b_address = point("b_address")
    a, b = state.regs.get(point("a_address"), 0), state.regs.get(b_address, 0)
    cin = bit(board.chosen(word, "carry_in"))
    operands = {"A": a, "B": b, "Q": state.q, "D": d, "0": 0}
    r, s = (operands[name] for name in am2901.SOURCES[point("alu_source")].split())
    f, carry, overflow = am2901.answer(board.width, am2901.FUNCTIONS[point("alu_function")], r, s, cin)
    if carry is None:
        carry, overflow = noise >> 12 & 1, noise >> 13 & 1
    zero, sign = int(f == 0), f >> top
    bits |= {"carry": carry, "overflow": overflow, "f_zero": zero, "sign": sign, "f_low": f & 1, "f_high": sign}
    destination = list(am2901.DESTINATIONS)[point("alu_destination")]
    y = a if destination == "RAMA" else f

    # The next address.
    passed = point("test_disable") or bit(board.chosen(word, "condition")) ^ point("polarity")
    instruction = INSTRUCTIONS[point("sequencer")]
    mapped = board.map["entries"][state.ir >> board.map["low"] & (1 << board.map["bits"]) - 1]
    direct = {"JMAP": mapped, "CJV": board.vector}.get(instruction, point("branch"))
    following, after = state.stepped(instruction, passed, direct, point("ci"), point("rld"), noise & 0xFFF)

    # The edge, at which everything is taken from before it.
    def loaded(number, load):
        old = state.flips >> number & 1
        changes = {"hold": 0, "invert": 1, "xor_carry": carry}
        return old ^ changes[load] if load in changes else bit(load)

    to_b, to_q = am2901.DESTINATIONS[destination].split()
    after.regs = state.regs | {b_address: am2901.shifted(board.width, to_b, b, f, bit(board.chosen(word, "ram_link")))}
    after.q = am2901.shifted(board.width, to_q, state.q, f, bit(board.chosen(word, "q_link")))
    loads = [board.entry(word, each["control"], each["load"]) for each in board.flips]
    after.flips = sum(loaded(number, load) << number for number, load in enumerate(loads))
    after.mar = y & (1 << board.address) - 1 if point("mar_load") else state.mar
    after.ir = y if point("ir_load") else state.ir
    after.memory = state.memory | ({state.mar: y} if point("memory_write") else {})

    event = f"taken:{offered:x}" if source == "input" else f"out:{y:x}" if point("out") else "none"
    nets = (f"word={word:x} a={a:x} b={b:x} d={d:x} f={f:x} y={y:x} cin={cin} carry={carry} overflow={overflow}"
            f" zero={zero} sign={sign} pass={passed} next={following:x} event={event}")
    return following, after, nets


def decided_bits(board, word, state, nets):
    """The decided bits of a cycle, each by what it says: pass where an instruction that reads it is tested, whether R is 0
    where that is asked, and the next address from its highest bit down."""
    name = INSTRUCTIONS[board.point(word, "sequencer")]
    bits = []
    if not board.point(word, "test_disable") and name in TESTED:
        bits.append(("pass", int(nets["pass"])))
    if name in COUNTED_OUT:
        bits.append(("zero", int(state.r == 0)))
    return bits + [(bit, int(nets["next"], 16) >> bit & 1) for bit in range(11, -1, -1)]
