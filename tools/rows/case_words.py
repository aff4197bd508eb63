#!/usr/bin/env python3
"""Prints the words that one cycle of a board, or one described step, adds to the list of a case, as rows.

The words are those of model/words.py. The boards, states and microwords are those of cycle_cases.py and a board of
word_cases.py, the machines those of steps.py; the decided bits are those of the same cycle and the same step on numbers,
by model/cycle.py and model/description.py.

A word is one token: its op, and its operands in parentheses. An operand is `wN`, the word of number N of the whole list
from 1, or VALUE'WIDTH, a constant. Before a cycle the list has a variable for an address of the memory and one for each
element; before a step one for an address, the request and one for each register.

    case_words.py cycles     the rows of `call cycle-words`, for crates/mw_callrows/data/cycle-words
    case_words.py beside     the rows of `call cycle-words-beside`, for crates/mw_callrows/data/cycle-words-beside
    case_words.py steps      the rows of `call step-words`, for crates/mw_callrows/data/step-words
    case_words.py --check    no row: the words have the values of the cycle and of the step under the assignment of each
                             case and of random ones, the cases use every kind of bit, source, load and instruction, and the
                             small case has the numbers of the manual
"""
import random
import sys

import tools_path
from cycle_cases import BOARDS, STARTS
from cycles import given_lines, outside, print_store, random_cycles, random_state, width_of, worked_out
from files import file_lines, row_lines
from model.am2901 import DESTINATIONS, FUNCTIONS
from model.am2910 import INSTRUCTIONS
from model.board import Board, settings_of
from model.cycle import State, cycle, decided_bits
from model.description import Machine
from model.words import BITS, Cycle, Memory, Step, Values, Words, constant, element_widths
from small import SMALL_MACHINE
from steps import call_of, cases as step_cases, stepped
from word_cases import WHOLE, WHOLE_CASES, WHOLE_STARTS

# Machines at random of which rows are printed.
RANDOM_MACHINES = 30

# ---- a cycle

def symbolic_cycle(board, store, at, state, given, beside=False):
    """The cycle from a variable for each element, and the number of its first word. Where the board stands beside another,
    the line of its cycle is there already: a variable with the number behind those of its elements."""
    microword = store[at] if at < len(store) else board.fill
    nets = settings_of(cycle(board, store, at, state, *given)[2])
    words = Words()
    words.fresh("probe", 0, board.address)
    widths = element_widths(board)
    others = {"side": "beside-", "line": words.fresh("element", len(widths), 1)} if beside else {}
    elements = {name: words.fresh("element", number, width) for number, (name, width) in enumerate(widths)}
    first = len(words.words) + 1
    decided = decided_bits(board, microword, state, nets)
    return first, Cycle(words, board, microword, elements, state.sp, Memory(board.width), decided, **others)


# ---- a described step

def symbolic_step(machine, setting):
    """The step from variables for the request and the registers, and the number of its first word."""
    words = Words()
    words.fresh("probe", 0, machine.over.address)
    request = words.fresh("line", 0, 1)
    registers = {name: words.fresh("element", number, width)
                 for number, (name, width) in enumerate(machine.elements["register"])}
    first = len(words.words) + 1
    return first, Step(words, machine, registers, request, Memory(machine.over.word), stepped(machine, **setting).bits)


# ---- rows

CYCLES = """\
# Words that a cycle adds to the list of a case, printed by tools/rows/case_words.py, from the word table alone. Before the
# cycle the list has a variable for an address of the memory, and one for each element."""
BESIDE = """\
# Words that a cycle of a board beside another adds to the list of a case, printed by tools/rows/case_words.py, from the
# word table alone. Before the cycle the list has a variable for an address of the memory, one for the line of the cycle,
# and one for each element."""
STEPS = """\
# Words that a described step adds to the list of a case, printed by tools/rows/case_words.py, from the word table alone.
# Before the step the list has a variable for an address of the memory, the request, and a variable for each register.
"""


def report_of(first, made):
    """The line of the words from a number on."""
    return " ".join(["words"] + made.words.tokens(first)).encode() + b"\n"


def cycle_cases():
    """Of each board the name of its set, its text, its store, and the cycles by hand: a name, an address, a state, and what
    is given from outside."""
    stores, rows = worked_out()
    for width, text in BOARDS.items():
        cases = [(name, at, State.read(STARTS[start]), given)
                 for name, start, at, given, _, _ in rows if width_of(start) == width]
        yield f"board of {width} bits", text, stores[width], cases
    board = Board(WHOLE)
    store = [board.word(settings_of(settings)) for _, _, settings, _ in WHOLE_CASES]
    cases = []
    for at, (name, start, _, given) in enumerate(WHOLE_CASES):
        others = {"noise": 0, "line": 0, "input": 0} | {key: int(value, 0) for key, value in settings_of(given).items()}
        cases.append((name, at, State.read(WHOLE_STARTS[start]), list(others.values())))
    yield "board whose parts are whole words", WHOLE, store, cases


def print_cycles(head, call, beside):
    print(head)
    for files, text, store, cases in cycle_cases():
        print_store(files, text, store)
        for name, at, state, given in cases:
            report = report_of(*symbolic_cycle(Board(text), store, at, state, given, beside))
            lines = given_lines(files, call, at, state, given)
            print("\n".join([""] + row_lines(name, lines, "gives", report)))


def chosen_steps():
    """The machines by hand and some at random, and of each the steps whose words are others than those of the steps before."""
    at_random = 0
    for name, text, machine, settings in step_cases():
        at_random += name.startswith("machine ")
        if at_random > RANDOM_MACHINES:
            return
        reports = {}
        for number, setting in enumerate(settings, 1):
            reports.setdefault(report_of(*symbolic_step(machine, setting)), (number, setting))
        yield name, text, machine, [(number, setting, report) for report, (number, setting) in reports.items()]


def print_steps():
    print(STEPS)
    for name, text, machine, steps in chosen_steps():
        print("\n".join([f"set {name}"] + file_lines("text", text.encode())) + "\n")
        for number, setting, report in steps:
            call = call_of("step-words", machine, stepped(machine, **setting), **setting)
            print("\n".join(row_lines(f"{name}, {number}", [f"with {name}", call], "gives", report)) + "\n")


# ---- the values of words

def check_cycle(board, store, at, state, given):
    """Under the assignment of the state the cycle's words come to what the cycle comes to on numbers."""
    following, after, nets = cycle(board, store, at, state, *given)
    _, made = symbolic_cycle(board, store, at, state, given)
    noise, line, offered = given
    names = [name for name, _ in element_widths(board)]
    assigned = {("noise", 0): noise, ("line", 0): line, ("input", 0): offered}
    assigned |= {("element", number): value for number, value in enumerate(state.values(board))}
    values = Values(assigned, state.memory, made.memory, board.map["entries"]).work_out(made.words.words)
    event = "none" if made.event is None else f"{made.event[0]}:{values.of(made.event[1]):x}"
    assert [values.of(made.elements[name]) for name in names] == after.values(board), (at, state)
    assert (made.at, made.sp, event) == (following, after.sp, settings_of(nets)["event"])
    assert values.written() == after.memory | {address: 0 for address in values.written() if address not in after.memory}
    assert all(values.of(term) == value for term, value in made.asked)
    return made


def check_step(machine, setting):
    """The same of a step."""
    step = stepped(machine, **setting)
    _, made = symbolic_step(machine, setting)
    registers = machine.elements["register"]
    assigned = {("line", 0): setting.get("request", 0)}
    assigned |= {("input", number): word for number, word in enumerate(setting.get("inputs", []))}
    assigned |= {("element", number): setting["values"].get(name, 0) for number, (name, _) in enumerate(registers)}
    values = Values(assigned, dict(setting.get("words", {})), made.memory, []).work_out(made.words.words)
    taken = [step.over.elements[name][1] for name, _ in registers]
    assert [values.of(made.elements[name]) for name, _ in registers] == taken
    assert [(kind, values.of(term)) for kind, term in made.events] == step.events
    assert all(values.of(term) == value for term, value in made.asked)
    assert all(dict.get(step.over.memory, address, 0) == word for address, word in values.written().items())
    assert set(values.written()) >= set(step.over.memory)
    return made


# ---- what the cases use

SEEN_BEFORE_F = {"carry", "overflow", "f_zero", "sign", "f_low", "f_high"}
KINDS = {bit.removesuffix(":") for bit in BITS}
D_SOURCES = ("zero", "memory", "ir", "mar", "input", "field", "ff")
LINKS = {"ram_link": "B", "q_link": "Q"}

# What the cases have to use: every source of D with and without a mask; every function where its carry is read and where
# not; every instruction and polarity where the test is enabled and where not; every kind of bit wherever it may stand; the
# map, and noise as an address.
WANTED = {
    "d": {(source, mask) for source in D_SOURCES for mask in (False, True)},
    "function": {(name, read) for name in FUNCTIONS for read in (False, True)},
    "destination": set(DESTINATIONS),
    "code": {(code, off) for code in INSTRUCTIONS for off in (0, 1)},
    "polarity": {(polarity, off) for polarity in (0, 1) for off in (0, 1)},
    "carry_in": KINDS - SEEN_BEFORE_F,
    "condition": KINDS,
    "link": {(link, kind) for link in LINKS for kind in KINDS},
    "load": KINDS | {"hold", "invert", "xor_carry"},
    "next": {"tab", "part of noise"},
}


def uses_of(made):
    """What a cycle uses, each with its place in the table above."""
    def kind(entry):
        return entry.partition(":")[0]

    source, _, mask = made.chosen("d").partition("&")
    off = made.point("test_disable")
    yield "d", (kind(source), bool(mask))
    yield "function", (FUNCTIONS[made.point("alu_function")], "carry" in made.bits_read())
    yield "destination", made.destination
    yield "code", (made.code, off)
    yield "polarity", (made.point("polarity"), off)
    yield "carry_in", kind(made.chosen("carry_in"))
    yield "condition", kind(made.chosen("condition"))
    linked = (link for link, taker in LINKS.items() if "2" in made.destination_of(taker))
    yield from (("link", (link, kind(made.chosen(link)))) for link in linked)
    yield from (("load", kind(load)) for load in made.loads)
    for op, operands, numbers in made.words.words:
        of_noise = op == "part" and (operands[0], *numbers) == (made.noise, 0, 12)
        yield "next", "part of noise" if of_noise else op


def check_uses(found):
    """The cases use all that they have to."""
    used = {use for made in found for use in uses_of(made)}
    missing = {(what, entry) for what, entries in WANTED.items() for entry in entries} - used
    assert not missing, missing


def check_small_case():
    """In the small case F of the first cycle is word 28, and the bits of the next address are words 29 to 40."""
    board, machine = Board(BOARDS[4]), Machine(SMALL_MACHINE)
    words, left = Words(), {"r0": "X", "r1": "Y", "upc": None}
    names = element_widths(board) + machine.elements["register"]
    terms = {name: words.fresh("element", number, width)
             for number, (name, width) in enumerate(names) if name not in left}
    assert len(words.words) == 25
    elements = terms | {"r0": terms["X"], "r1": terms["Y"], "upc": constant(1, 12)}
    decided = [(place, int(place == 0)) for place in range(11, -1, -1)]
    made = Cycle(words, board, 0x3802C1, elements, 0, Memory(4), decided)
    parts = [f"part(1'12,{place},1)" for place in range(11, -1, -1)]
    assert words.tokens(26) == ["line(0,1)", "noise(0,14)", "sum(w25,w24,0'1)"] + parts
    assert made.f.number == 28 and made.elements["r0"] == made.f and len(words.words) == 40
    # The step stands in the same list, behind the last cycle; it adds the sum of the two variables alone.
    Step(words, machine, {name: terms[name] for name in ("X", "Y")}, words.found["line", 0], Memory(4), [])
    assert words.tokens(41) == ["sum(w24,w25,0'1)"]


def cycles_at_random(settings=8):
    """Those of random microwords of which cycles.py prints rows, and others from further states."""
    random.seed(2971)
    found = [(Board(text), *random_cycles(width)) for width, text in BOARDS.items()]
    for board, store, cycles in found:
        for at, (state, given) in enumerate(cycles):
            yield board, store, at, state, given
            for _ in range(1, settings):
                yield board, store, at, random_state(board), outside(board.width)


def check():
    check_small_case()
    found = [check_cycle(Board(text), store, at, state, given)
             for _, text, store, cases in cycle_cases() for _, at, state, given in cases]
    check_uses(found)
    others = 0
    for board, store, at, state, given in cycles_at_random():
        check_cycle(board, store, at, state, given)
        others += 1
    steps = [check_step(machine, setting) for _, _, machine, settings in step_cases() for setting in settings]
    rows = sum(len(steps) for *_, steps in chosen_steps())
    print(f"{len(found)} cycles by hand, {others} at random, and {len(steps)} steps, {rows} of which are rows, come to what"
          " they come to on numbers")


def main():
    match sys.argv[1:]:
        case ["cycles"]:
            print_cycles(CYCLES, "cycle-words", False)
        case ["beside"]:
            print_cycles(BESIDE, "cycle-words-beside", True)
        case ["steps"]:
            print_steps()
        case ["--check"]:
            check()
        case _:
            sys.exit(__doc__)


if __name__ == "__main__":
    main()
