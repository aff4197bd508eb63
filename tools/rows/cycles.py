#!/usr/bin/env python3
"""Prints rows of cycles of boards: board files, microwords and states, and what one cycle makes of them.

A cycle is that of model/cycle.py. cycle_cases.py has the boards and the cases. The boards are read from the very texts
that are printed.

    cycles.py rows       the rows, for crates/mw_callrows/data/cycles
    cycles.py symbolic   the rows of symbolic cycles, for crates/mw_callrows/data/symbolic: the same cases, and cycles of random
                         microwords from random states. They have the state after the cycle, its event, and its decided bits
    cycles.py beside     the rows of the same cases by a board beside another, for crates/mw_callrows/data/symbolic-beside
    cycles.py --check    no row: random cycles keep a state's ranges, and the cases choose every entry of every list
"""
import random
import sys

import tools_path
from cycle_cases import BOARDS, CASES, STARTS
from files import file_lines, row_lines
from model.am2910 import DEPTH
from model.board import Board, settings_of
from model.cycle import State, cycle, decided_bits


def width_of(start):
    return int(start.split()[0])


def worked_out():
    """The stores by width; and of each case its name, state, address, what is given, the state after and the nets."""
    boards = {width: Board(text) for width, text in BOARDS.items()}
    stores = {width: [] for width in BOARDS}
    placed = []
    for name, start, settings, given in CASES:
        width, given = width_of(start), {key: int(value, 0) for key, value in settings_of(given).items()}
        placed.append((name, start, given.pop("at", len(stores[width])), {"noise": 0, "line": 0, "input": 0} | given))
        if settings:
            stores[width].append(boards[width].word(settings_of(settings)))
    rows = []
    for name, start, at, given in placed:
        width = width_of(start)
        following, after, nets = cycle(boards[width], stores[width], at, State.read(STARTS[start]), *given.values())
        rows.append((name, start, at, list(given.values()), after.text(following), nets))
    return stores, rows


def print_store(files, text, store):
    """A set of a board and a store."""
    words = "".join(f"{word:x}\n" for word in store)
    print("\n".join(["", f"set {files}"] + file_lines("board", text.encode()) + file_lines("store", words.encode())))


def print_rows():
    stores, rows = worked_out()
    print("# Cycles, printed by tools/rows/cycles.py: the state after a cycle, and its nets.")
    for width, text in BOARDS.items():
        print_store(f"board of {width} bits", text, stores[width])
        for name, start, at, given, after, nets in rows:
            if width_of(start) == width:
                lines = given_lines(f"board of {width} bits", "cycle", at, State.read(STARTS[start]), given)
                print("\n".join([""] + row_lines(name, lines, "gives", f"{after}\n{nets}\n".encode())))


def given_lines(files, call, at, state, given):
    """The lines of a row from a state, over a set of a board and a store, up to the call."""
    noise, line, offered = given
    lines = [f"with {files}"] + file_lines("state", f"{state.text(at)}\n".encode())
    return lines + [f"call {call} noise={noise:x} line={line} input={offered:x}"]


def print_symbolic_row(name, files, board, store, at, state, given, call="symbolic"):
    """Prints the row of a symbolic cycle, over a set of a board and a store."""
    following, after, nets = cycle(board, store, at, state, *given)
    nets = settings_of(nets)
    bits = decided_bits(board, int(nets["word"], 16), state, nets)
    report = f"{after.text(following)}\nevent={nets['event']}" + "".join(f" {bit}:{value}" for bit, value in bits) + "\n"
    print("\n".join([""] + row_lines(name, given_lines(files, call, at, state, given), "gives", report.encode())))


def random_state(board):
    """A state in which words are often equal, or at an end of their range, and so are R and the stack pointer."""
    bits = random.getrandbits
    half = 1 << board.width - 1

    def word():
        return random.choice([0, 1, board.ones, half, half - 1, bits(board.width), bits(board.width), bits(board.width)])

    mar = bits(board.address)
    memory = {mar: word(), mar ^ 1: word(), bits(board.address): word()}
    # The values are drawn in this order.
    return State(q=word(), mar=mar, ir=bits(board.width), flips=bits(len(board.flips)), pc=bits(12),
                 r=random.choice([0, 0, 1, bits(12)]), sp=random.choice([0, DEPTH, random.randint(1, DEPTH - 1)]),
                 stack=[bits(12) for _ in range(DEPTH)], regs={number: word() for number in range(16)}, memory=memory)


def random_word(board, number):
    """The microword of a number. Sequencer instructions come in turn; so do, first, the entries of the lists."""
    word = random.getrandbits(board.microword)

    def choose(control, value):
        low, width = board.fields[control]
        return word & ~((1 << width) - 1 << low) | (value & (1 << width) - 1) << low

    for control, entries in board.selections():
        if not isinstance(control, int) and number < len(entries):
            word = choose(control, number)
    if not isinstance(board.control["sequencer"], int):
        word = choose(board.control["sequencer"], number)
    return word


def outside(width):
    """What is given from outside, at random: noise, the line and an input."""
    return [random.getrandbits(14), random.getrandbits(1), random.getrandbits(width)]


def random_cycles(width):
    """A store of random microwords for the board of this width, and of each a state and what is given from outside. They
    choose every entry of every list. The board of 20 bits has more of them: each test that an instruction asks for has each
    outcome."""
    board = Board(BOARDS[width])
    store = [random_word(board, number) for number in range(128 if width == 20 else 32)]
    for control, entries in board.selections():
        chosen = {board.entry(word, control, entries) for word in store}
        assert isinstance(control, int) or chosen == set(entries), (width, control, set(entries) - chosen)
    given = [(random_state(board), outside(width)) for _ in store]
    if width == 20:
        outcomes = set()
        for at, (state, others) in enumerate(given):
            nets = settings_of(cycle(board, store, at, state, *others)[2])
            tests = tuple(bit for bit in decided_bits(board, store[at], state, nets) if isinstance(bit[0], str))
            outcomes.add((board.point(store[at], "sequencer"), tests))
        # Nine instructions read the test, which may be disabled; TWB asks for R too, RFCT and RPCT for R alone; four do
        # neither.
        assert len(outcomes) == 9 * 3 + 6 + 2 * 2 + 4, len(outcomes)
    return store, given


def print_symbolic():
    stores, rows = worked_out()
    random.seed(2971)
    print("# Symbolic cycles, printed by tools/rows/cycles.py: the state after a cycle, its event, and its decided bits.")
    for width, text in BOARDS.items():
        board, files = Board(text), f"board of {width} bits"
        print_store(files, text, stores[width])
        for name, start, at, given, _, _ in rows:
            if width_of(start) == width:
                print_symbolic_row(name, files, board, stores[width], at, State.read(STARTS[start]), given)
        files = f"random microwords of {width} bits"
        store, cycles = random_cycles(width)
        print_store(files, text, store)
        for at, (state, given) in enumerate(cycles):
            print_symbolic_row(f"random cycle {at} of {width} bits", files, board, store, at, state, given)


def print_beside():
    stores, rows = worked_out()
    print("# Symbolic cycles of a board beside another, printed by tools/rows/cycles.py: as of one that stands alone.")
    for width, text in BOARDS.items():
        board, files = Board(text), f"board of {width} bits"
        print_store(files, text, stores[width])
        for name, start, at, given, _, _ in rows:
            if width_of(start) == width:
                state = State.read(STARTS[start])
                print_symbolic_row(name, files, board, stores[width], at, state, given, "symbolic-beside")


def in_range(board, at, state):
    words = [state.q, state.ir, *state.regs.values(), *state.memory.values()]
    ranges = [(words, board.width), ([state.mar, *state.memory], board.address), ([state.flips], len(board.flips)),
              ([at, state.pc, state.r, *state.stack], 12)]
    return state.sp in range(DEPTH + 1) and all(0 <= value < 1 << bits for values, bits in ranges for value in values)


def check(runs=1000, cycles=8):
    stores, _ = worked_out()
    random.seed(2901)
    for width, text in BOARDS.items():
        board = Board(text)
        for control, entries in board.selections():
            chosen = {board.entry(word, control, entries) for word in stores[width]}
            assert isinstance(control, int) or chosen == set(entries), (width, control, set(entries) - chosen)
        for _ in range(runs):
            bits = random.getrandbits
            at = bits(2)
            state = State(q=bits(width), mar=bits(board.address), ir=bits(width), flips=bits(len(board.flips)), pc=bits(12),
                          r=bits(2), sp=random.randint(0, DEPTH), stack=[bits(12) for _ in range(DEPTH)],
                          regs={n: bits(width) for n in range(16)})
            store = [bits(board.microword) for _ in range(4)]
            for _ in range(cycles):
                at, state, _ = cycle(board, store, at, state, bits(14), bits(1), bits(width))
                assert in_range(board, at, state), (width, at, state)
    print(f"{len(BOARDS) * runs * cycles} random cycles keep their ranges; {len(CASES)} cases choose every entry")


def main():
    match sys.argv[1:]:
        case ["rows"]:
            print_rows()
        case ["symbolic"]:
            print_symbolic()
        case ["beside"]:
            print_beside()
        case ["--check"]:
            check()
        case _:
            sys.exit(__doc__)


if __name__ == "__main__":
    main()
