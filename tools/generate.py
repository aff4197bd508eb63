#!/usr/bin/env python3
"""Prints the job that the generator makes of a number, as texts and as microwords.

How the value goes on, what it chooses, and what board, microprogram, machine and relation there are is stated here anew,
and nothing of the crates is used; the codes of the parts are those of `model`. `certify` of the four texts has to say what
`generate` of the number says.

    generate.py board                  the board file
    generate.py micro NUMBER           the microprogram
    generate.py machine NUMBER         the described machine
    generate.py relation               the relation
    generate.py words NUMBER           the microwords of the operations: address, function, A, B, carry in, word
    generate.py folder NUMBER FOLDER   writes the four texts into a folder, as b, m, k and r
"""
import pathlib
import sys

from model.am2901 import DESTINATIONS, FUNCTIONS, SOURCES
from model.am2910 import INSTRUCTIONS as CODES

INSTRUCTIONS = 256
FIRST, ROOM = 16, 4
MOST_CYCLES = 3 + ROOM
# The functions that are chosen among, with the signs of expressions.
CHOSEN = [("ADD", "+"), ("SUBR", "-"), ("OR", "|"), ("AND", "&"), ("EXOR", "^")]
# The fields: name, lowest bit, bits, the control point.
FIELDS = [
    ("src", 0, 3, "alu_source"),
    ("fun", 3, 3, "alu_function"),
    ("dst", 6, 3, "alu_destination"),
    ("a", 9, 4, "a_address"),
    ("b", 13, 4, "b_address"),
    ("cin", 17, 1, "carry_in"),
    ("seq", 18, 4, "sequencer"),
    ("br", 22, 12, "branch"),
    ("off", 34, 1, "test_disable"),
    ("d", 35, 1, "d"),
    ("mar", 36, 1, "mar_load"),
    ("ir", 37, 1, "ir_load"),
]
# Operands, destinations and instructions of the sequencer by code.
AB, ZB, DZ = map(SOURCES.index, ("A B", "0 B", "D 0"))
NOP, RAMA, RAMF = map(list(DESTINATIONS).index, ("NOP", "RAMA", "RAMF"))
JMAP, CJP, CONT = map(CODES.index, ("JMAP", "CJP", "CONT"))
ADD, OR = map(FUNCTIONS.index, ("ADD", "OR"))


def operations(number):
    """The operations of each instruction: a function, A and B."""
    x = number
    for instruction in range(INSTRUCTIONS):
        made = []
        for _ in range(1 + (number + instruction) % 4):
            x = (x * 1103515245 + 12345) % 2**31
            made.append((CHOSEN[x // 65536 % 5], x // 1048576 % 4, x // 4194304 % 4))
        yield made


def items(operation, is_last):
    """The fields of an operation's word, and their values."""
    (name, _), a, b = operation
    given = {"src": AB, "fun": FUNCTIONS.index(name), "dst": RAMF, "a": a, "b": b, "cin": int(name == "SUBR")}
    return given | ({"seq": CJP, "off": 1, "br": 0} if is_last else {"seq": CONT})


def microprogram(number):
    """The addresses that have a word, each with the fields of its word."""
    yield 0, {"src": ZB, "fun": ADD, "dst": RAMA, "a": 15, "b": 15, "cin": 1, "mar": 1, "seq": CONT}
    yield 1, {"src": DZ, "fun": OR, "dst": NOP, "d": 1, "ir": 1, "seq": CONT}
    yield 2, {"src": DZ, "fun": OR, "dst": NOP, "seq": JMAP}
    for instruction, made in enumerate(operations(number)):
        for place, operation in enumerate(made):
            yield FIRST + ROOM * instruction + place, items(operation, place + 1 == len(made))


def packed(given):
    """The microword with these fields."""
    return sum(given.get(name, 0) << low for name, low, _, _ in FIELDS)


def board_text():
    """The lines of the board file; those of the other texts follow."""
    width = max(low + bits for _, low, bits, _ in FIELDS)
    yield from ("version = 1", "width = 16", f"microword = {width}", 'fill = "0"', "address = 8", "[fields]")
    for name, low, bits, _ in FIELDS:
        yield f"{name} = [{low}, {bits}]"
    yield "[control]"
    for name, _, _, point in FIELDS:
        yield f'{point} = "{name}"'
    yield from ("[select]", 'carry_in = ["zero", "one"]', 'd = ["zero", "memory"]')
    entries = ", ".join(str(FIRST + ROOM * instruction) for instruction in range(INSTRUCTIONS))
    yield from ("[map]", "low = 8", "bits = 8", f"entries = [{entries}]")


def micro_text(number):
    following = 0
    for address, given in microprogram(number):
        if address != following:
            yield f"org {address}"
        yield ", ".join(f"{name}={value}" for name, value in given.items())
        following = address + 1


def statement(operation):
    (name, sign), a, b = operation
    first, second = (b, a) if name == "SUBR" else (a, b)
    return f"A{b} := A{first} {sign} A{second}"


def choice_text(instructions, bit):
    """The statements that choose among these instructions by the word's bits from this one down to bit 8."""
    if len(instructions) == 1:
        yield from map(statement, instructions[0])
        return
    half = len(instructions) // 2
    yield f"if W[{bit}]"
    yield from choice_text(instructions[half:], bit - 1)
    yield "else"
    yield from choice_text(instructions[:half], bit - 1)
    yield "end"


def machine_text(number):
    yield "memory 8 16"
    for name in ("PC", "A0", "A1", "A2", "A3"):
        yield f"register {name} 16"
    yield from ("temp W 16", "step", "W := mem[PC[7:0]]", "PC := PC + 1#16")
    yield from choice_text(list(operations(number)), 15)


def relation_text():
    yield from (f"boundary 0 {MOST_CYCLES}", "sp 0", "b.upc = 1#12")
    for register in range(4):
        yield f"b.r{register} = m.A{register}"
    yield from ("b.r15 = m.PC", "end")


def word_text(number):
    for instruction, made in enumerate(operations(number)):
        for place, operation in enumerate(made):
            (name, _), a, b = operation
            given = items(operation, place + 1 == len(made))
            yield f"{FIRST + ROOM * instruction + place} {name} {a} {b} {given['cin']} {packed(given):X}"


TEXTS = {
    "board": board_text,
    "micro": micro_text,
    "machine": machine_text,
    "relation": relation_text,
    "words": word_text,
}


def text(name, *number):
    return "".join(line + "\n" for line in TEXTS[name](*number))


def write_folder(number, folder):
    texts = {"b": text("board"), "m": text("micro", number), "k": text("machine", number), "r": text("relation")}
    for name, content in texts.items():
        pathlib.Path(folder, name).write_text(content)


def main():
    name, *rest = sys.argv[1:]
    if name == "folder":
        write_folder(int(rest[0]), rest[1])
    else:
        print(text(name, *map(int, rest)), end="")


if __name__ == "__main__":
    main()
