#!/usr/bin/env python3
"""Prints rows of pairs in relation, and of jobs that are refused.

What a pair is, and which elements are free, is worked out by model/comparison.py. Why a job is refused stands beside its
boundaries here, by hand.

    pairs.py rows    the rows of `call pair` and `call plain`, for crates/mw_callrows/data/pairs
"""
import random
import sys

import tools_path
from files import file_lines, row_lines
from model.comparison import Job, board_state, board_values, over
from model.expression import valued
from relations import WIDE_BOARD, WIDE_MICRO
from small import SMALL_BOARD, SMALL_MACHINE, SMALL_MICRO

SMALL_MEMORY_OF_8 = SMALL_MACHINE.replace(b"memory 4 4", b"memory 3 4")
WIDE_MACHINE = b"memory 6 8\nregister A 8\nregister M 6\nregister L 1\nregister S 12\nstep\n"
SMALL = b"boundary 0 2\nsp 0\nb.upc = 1#12\nb.r0 = m.X\nb.r1 = m.Y\nend\n"
EXCHANGED = SMALL.replace(b"m.X", b"m.Z").replace(b"m.Y", b"m.X").replace(b"m.Z", b"m.Y")
THREE = b"""boundary 0x010 3
sp 2
b.link = m.L
b.mar = m.M
b.r0 = mem[m.M]
b.upc = 0x011#12
end
boundary 0x200 500
sp 1
b.stack0 = m.S
m.A = mem[b.mar]
end
boundary 0 1
sp 5
b.ie = 1#1
b.stack4 = 7#12
m.M = b.mar
end
"""
# The name of a set, its board, microprogram and machine, and its relation.
SETS = {
    "small": (SMALL_BOARD, SMALL_MICRO, SMALL_MACHINE, SMALL),
    "three": (WIDE_BOARD, WIDE_MICRO, WIDE_MACHINE, THREE),
}
# Pairs: the set, the boundary, values of free elements by name, words of the memory, and another relation.
PAIRS = [
    ("all that is free is 0", "small", 0, {}, {}, None),
    ("X is 7 and Y is 1, and the registers exchanged", "small", 0, {"m.X": 7, "m.Y": 1}, {}, EXCHANGED),
    ("X and Y are equal, and the registers exchanged", "small", 0, {"m.X": 9, "m.Y": 9}, {}, EXCHANGED),
    ("a pair at the first of three", "three", 0,
     {"b.ie": 1, "b.stack4": 0xABC, "m.A": 200, "m.M": 9, "m.L": 1, "m.S": 0x777}, {9: 0xC3}, None),
    ("a pair at the second of three", "three", 1,
     {"b.r0": 3, "b.mar": 33, "b.ie": 1, "b.upc": 0x201, "m.S": 0x0F0}, {33: 0x7E}, None),
    ("a pair at the third of three", "three", 2, {"b.mar": 0x3F, "b.link": 1, "b.stack0": 0xFFF, "m.L": 1}, {}, None),
]
# Choices that are none: the words of the call, and the parts that are named.
NO_CHOICES = [
    ("a value less", "boundary=0 values=18 memory=10", ""),
    ("a value more", "boundary=0 values=1a memory=10", ""),
    ("a word of the memory less", "boundary=0 values=19 memory=f", ""),
    ("a word of the memory more", "boundary=0 values=19 memory=11", ""),
    ("a value that is wider than its element", "boundary=0 values=19 memory=10", "v17=10"),
    ("a word of the memory of five bits", "boundary=0 values=19 memory=10", "memf=10"),
]
# Boundaries that no reader has looked at, a line each, over the small board: address, bound, stack pointer, and lines by
# the numbers of elements, all hexadecimal (0 and 1 are r0 and r1, 13 is upc, 1a and 1b are X and Y); the machine; and the
# cause by the rules of relations and jobs, of which the least comes first.
X = "0=1a"
JOBS = [
    ("a line whose sides aren't equally wide", [f"0 2 0 {X} 13=1#b"], SMALL_MACHINE, 41),
    ("an element left twice", [f"0 2 0 {X} 0=1b"], SMALL_MACHINE, 50),
    ("a left element on a right side", ["0 2 0 0=1 1=1a"], SMALL_MACHINE, 51),
    ("a left element in an address on its own right side", [f"0 2 0 {X} 1=mem1"], SMALL_MACHINE, 51),
    ("left elements on the right at another boundary", ["0 1 0 0=1", "1 1f4 5 1=0"], SMALL_MACHINE, None),
    ("one address twice", [f"7 2 0 {X}", f"7 2 5 {X}"], SMALL_MACHINE, 31),
    ("no boundary", [], SMALL_MACHINE, 53),
    ("a bound of 0", [f"0 2 0 {X}", f"1 0 5 {X}"], SMALL_MACHINE, 54),
    ("a bound of 501", [f"0 2 0 {X}", f"1 1f5 5 {X}"], SMALL_MACHINE, 54),
    ("a machine with a smaller memory", [f"0 2 0 {X}", f"1 2 5 {X}"], SMALL_MEMORY_OF_8, 55),
    ("one address twice, uneven lines, a bound of 0 and a smaller memory", ["7 0 0 0=13", f"7 2 5 {X}"], SMALL_MEMORY_OF_8, 31),
    ("uneven lines of one element, a bound of 0 and a smaller memory", [f"0 0 0 0=13 {X}"], SMALL_MEMORY_OF_8, 41),
    ("one element left twice and on right sides, and a bound of 0", ["0 0 0 0=1 0=0"], SMALL_MEMORY_OF_8, 50),
    ("an element on its own right side, and a bound of 0", [f"0 0 0 0=0 1=1a"], SMALL_MEMORY_OF_8, 51),
    ("a bound of 0 and a smaller memory", [f"0 0 0 {X}"], SMALL_MEMORY_OF_8, 54),
]

RELATIONS = """\
# Pairs in relation, and jobs that are refused. tools/rows/pairs.py prints these rows, and works the pairs out from the
# formats, without the crates.
"""


def job_of(name, relation):
    board, micro, machine, _ = SETS[name]
    return Job(board.decode(), micro, machine, relation)


def holds(job, block, at, board, registers, memory):
    """Whether a pair is in relation at a boundary."""
    address, _, sp, lines = block
    values = board_values(job, board) | {f"m.{name}": value for name, value in registers.items()}
    sees = over(job, values, memory)
    return at == address and board.sp == sp and board.memory == memory and all(values[name] == valued(tree, sees)[1]
                                                                               for name, tree in lines)


def pair_report(name, boundary, free, memory, other):
    """What `call pair` gives."""
    jobs = [job_of(name, text) for text in [SETS[name][3]] + ([other] if other else [])]
    job = jobs[0]
    at, _, sp, lines = list(job.blocks.values())[boundary]
    lefts = [left for left, _ in lines]
    sees = over(job, free, memory)
    values = free | {left: valued(tree, sees)[1] for left, tree in lines}
    board = board_state(job, values, sp, memory)
    registers = {register: values.get(f"m.{register}", 0) for register, _ in job.machine.elements["register"]}
    bound = "".join(f" {number:x}" for number, element in enumerate(job.widths) if element in lefts)
    words = "".join(f" mem{address:x}={word:x}" for address, word in sorted(memory.items()) if word)
    report = f"elements {len(job.widths):x}\nbound{bound}\n{board.text(at)}\n"
    report += "registers" + "".join(f" {value:x}" for value in registers.values()) + words + "\n"
    for each in jobs:
        held = [number for number, block in enumerate(each.blocks.values()) if holds(each, block, at, board, registers, memory)]
        report += "held" + "".join(f" {number:x}" for number in held) + "\n"
    return report


def pair_lines(name, kind, boundary, free, memory, other):
    job = job_of(kind, SETS[kind][3])
    lefts = [left for left, _ in list(job.blocks.values())[boundary][3]]
    places = [element for element in job.widths if element not in lefts]
    parts = [f"v{places.index(element):x}={value:x}" for element, value in free.items() if value]
    parts += [f"mem{address:x}={word:x}" for address, word in sorted(memory.items()) if word]
    given = [f"with {kind}"] + file_lines("begin", (" ".join(parts) + "\n").encode())
    given += file_lines("other", other) if other else []
    given += [f"call pair boundary={boundary:x} values={len(places):x} memory={2 ** job.address:x}"]
    return row_lines(name, given, "gives", pair_report(kind, boundary, free, memory, other).encode())


def random_pairs():
    """Twelve pairs at each of the three boundaries."""
    random.seed(2910)
    job = job_of("three", THREE)
    for number in range(12):
        for boundary, block in enumerate(job.blocks.values()):
            lefts = [left for left, _ in block[3]]
            free = {name: random.getrandbits(bits) for name, bits in job.widths.items() if name not in lefts}
            memory = {address: random.getrandbits(8) for address in range(64)}
            yield f"pair {number} at boundary {boundary}", "three", boundary, free, memory, None


def rows():
    for name, texts in SETS.items():
        yield [f"set {name}"] + [line for file, text in zip(("b", "m", "k", "text"), texts) for line in file_lines(file, text)]
    for case in PAIRS:
        yield pair_lines(*case)
    for name, words, parts in NO_CHOICES:
        given = ["with small"] + file_lines("begin", f"{parts}\n".encode()) + [f"call pair {words}"]
        yield row_lines(f"no choice: {name}", given, "gives", b"elements 1c\nbound 0 1 13\nno choice\n")
    for name, boundaries, machine, cause in JOBS:
        text = "".join(f"{line}\n" for line in boundaries).encode()
        given = [line for file in (("b", SMALL_BOARD), ("k", machine), ("text", text)) for line in file_lines(*file)]
        end = f"refused cause {cause}\n" if cause else "a job\n"
        yield row_lines(name, given + ["call plain"], "gives", end.encode())
    for case in random_pairs():
        yield pair_lines(*case)


def main():
    match sys.argv[1:]:
        case ["rows"]:
            print(RELATIONS)
            for row in rows():
                print("\n".join(row) + "\n")
        case _:
            sys.exit(__doc__)


if __name__ == "__main__":
    main()
