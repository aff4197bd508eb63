#!/usr/bin/env python3
"""Prints rows of the twelve faults of the PDP-8, and tries them.

model/faults.py has the faults, as crates/mw_cases/specs/Faults.antt states them. Which difference each shows is written
here by hand, from what the board does with it. The whole report of `certify` is worked out by model/certified.py, from
the word table and the term table; replays and traces by the models on numbers.

    faults.py rows             the rows of crates/mw_rows/data/faults
    faults.py --check          no row: each fault shows its difference from the start of its report, and the right
                               microprogram none; and from random starts the board does what the fault says, and all
                               else as before
    faults.py page             no row: docs/manual/faults.md has the changes, the reports and the traces of the rows
    faults.py list NUMBER      the report of `certify` for a fault, and what its cases cost
"""
import random
import sys
from collections import Counter
from pathlib import Path

import tools_path
from differences import counter
from files import file_lines, read, row_lines
from model.cases import Choice
from model.certified import first_differing
from model.comparison import Job, board_state, board_values, completed, difference, segment
from model.cycle import cycle
from model.environments import Environment, environment
from model.faults import faults
from model.pdp8 import Machine
from pdp8 import CONSTANTS, kept, registers

TOP = Path(__file__).resolve().parent.parent.parent
EXAMPLE = TOP / "examples" / "pdp8"
ROWS = TOP / "crates" / "mw_rows" / "data" / "faults"
PAGE = TOP / "docs" / "manual" / "faults.md"
FILES = {"b": "board.toml", "m": "micro", "k": "machine", "r": "relation"}
CYCLES = 21
# The difference that each fault shows.
DIFFERENCES = {
    1: "element b.link",    # L
    2: "element b.r0",      # AC
    3: "element b.mar",     # PC, whose first line is that of mar
    4: "element b.mar",
    5: "element b.mar",
    6: "element b.mar",
    7: "element b.halt",
    8: "event 0",
    9: "event 0",
    10: "element b.ion",
    11: "memory 0x0",
    12: "late",
}
# Scripts of the debugger for some faults, from the starts of their reports.
SCRIPTS = {
    5: ["watch b.r1             ; PC", "watch b.mar", "until JMS_D 21         ; mar is the effective address, 0000",
        "step 1                 ; memory 0000 takes 0001", "step 1                 ; PC and mar take 0001",
        "show mem 0"],
    6: ["watch b.r3             ; SMA, and then the tests together", "watch b.r4             ; the other test",
        "watch b.skip", "until OPR2 21", "step 1                 ; z is 1, as AC is 0",
        "step 1                 ; SMA", "step 1                 ; SZA: 0000 where it holds", "show b.z",
        "until FETCH 21", "show b.r1              ; PC"],
    12: ["watch b.r0             ; AC", "until DCA_D 21", "step 1                 ; memory takes AC, and AC becomes 0",
         "until FETCH 21"],
}
# A program that prints two letters. Where AC is put out before the nine bits, its second instruction differs at once.
LETTERS = ["tad H", "tls", "cla", "tad J", "tls", "hlt", "H: word 0o110", "J: word 0o111"]
STARTS = 1000
HEAD = """\
# Twelve faults of the PDP-8 of examples/pdp8, as pdp8_fault of mw_cases has them, printed by tools/rows/faults.py. Of each:
# its no, the replay of that no, and the replay on the right microprogram. The differences are written by hand in the
# script. The starts are worked out, whole, by tools/model/certified.py: from the word table and the term table, with
# functions and runs on numbers of its own. The traces are worked out by tools/model/cycle.py. Last stand two runs of a
# PDP-8 program at its console."""


def example(file):
    return (EXAMPLE / file).read_text()


def job_with(micro):
    return Job(example("board.toml"), micro.encode(), example("machine").encode(), example("relation").encode())


RIGHT = job_with(example("micro"))


class Found:
    """A fault with its job, and the report of its no."""

    def __init__(self, number, fault):
        self.number, self.micro = number, fault.planted(example("micro"))
        self.job = job_with(self.micro)
        self.start, self.looked = first_differing(self.job)
        self.shown = [f"difference {DIFFERENCES[number]}"]
        assert self.shown == [f"difference {difference(self.job, self.start)}"]
        assert difference(RIGHT, self.start) is None
        self.report = ["no", *self.shown, *counter(self.job, self.start).splitlines()]


# ---- traces

class Debugger:
    """What `debug` prints of a script without events."""

    def __init__(self, job, given):
        self.job, self.given, self.state = job, given, given.state(job)
        self.at, self.made, self.watched, self.lines = given.boundary, 0, [], []

    def step(self):
        line, noise = (self.given.entry(name, self.made) for name in ("line", "noise"))
        self.at, self.state, nets = cycle(self.job.board, self.job.store, self.at, self.state, noise, line, 0)
        assert nets.endswith("event=none")
        self.made += 1

    def shown(self, name):
        return f"{name}=0x{board_values(self.job, self.state)[name]:X}"

    def place(self):
        return " ".join([f"at 0x{self.at:X}", *map(self.shown, self.watched)])

    def command(self, words):
        """What a command prints behind its number."""
        match words:
            case ["watch", name]:
                self.watched.append(name)
            case ["step", count]:
                for _ in range(int(count)):
                    self.step()
            case ["until", label, most]:
                for _ in range(int(most)):
                    self.step()
                    if self.at == self.job.labels[label]:
                        break
            case ["show", "mem", address]:
                return f"mem 0x{int(address):X}=0x{self.state.memory.get(int(address), 0):X}"
            case ["show", name]:
                return self.shown(name)
        return self.place()

    def trace(self, script):
        return [f"{number} {self.command(line.partition(';')[0].split())}" for number, line in enumerate(script, 1)]


# ---- rows

def text_of(lines):
    return "".join(f"{line}\n" for line in lines).encode()


def row(name, words, micro, files, status, report):
    given = [f"$ {words}", "with pdp8", f"with {micro}"]
    given += [line for file, lines in files.items() for line in file_lines(file, text_of(lines))]
    return ["", *row_lines(name, given, f"status {status}", text_of(report))]


def rows_of(found, what):
    micro = f"fault {found.number}"
    yield from row(f"fault {found.number}, {what}", "certify b m k r", micro, {}, 1, found.report)
    files = {"c": found.report}
    words, differs = "replay b m k r c", ["differs step 1", *found.shown]
    yield from row(f"fault {found.number}, replayed", words, micro, files, 1, differs)
    yield from row(f"fault {found.number}, replayed on the right words", words, "right", files, 0, ["same 1"])
    if found.number in SCRIPTS:
        given = list(environment(found.job, found.start))
        files = {"e": given, "d": SCRIPTS[found.number]}
        for name, micro, job in (("", micro, found.job), (" on the right words", "right", RIGHT)):
            trace = Debugger(job, Environment(text_of(given))).trace(SCRIPTS[found.number])
            yield from row(f"fault {found.number}, in the debugger{name}", "debug b m e d", micro, files, 0, trace)


def pal_row(number, end, report):
    """The row of a program that prints two letters, on the microprogram with a fault."""
    given = ["$ pal b m k r s keys --steps 6", "with pdp8", f"with fault {number}",
             *file_lines("s", text_of(LETTERS)), *file_lines("keys", b"")]
    return ["", *row_lines(f"pal-faults, fault {number}", given, end, text_of(report))]


def rows():
    lines = [HEAD, "", "set pdp8"]
    for name, file in FILES.items():
        lines += file_lines(name, example(file).encode()) if name != "m" else []
    lines += ["", "set right", *file_lines("m", example("micro").encode())]
    every = {number: (fault.what, Found(number, fault)) for number, fault in faults().items()}
    for number, (_, found) in every.items():
        lines += ["", f"set fault {number}", *file_lines("m", found.micro.encode())]
    for what, found in every.values():
        lines += rows_of(found, what)
    lines += pal_row(1, "begins 0", ["; same 6", "; text 0x48 0x49"])
    lines += pal_row(8, "status 1", ["differs step 2", "difference event 0"])
    return text_of(lines).decode()


# ---- what a fault does

class Faulty(Machine):
    """The PDP-8 of model/pdp8.py with a fault, by what its words say."""

    def __init__(self, number, **given):
        super().__init__(**given)
        self.number, self.late = number, False

    def refer(self, opcode, address):
        before = self.link, self.ac, self.pc
        super().refer(opcode, address)
        if (self.number, opcode) == (1, 1):
            self.link = before[0]
        elif (self.number, opcode) == (2, 3):
            self.ac = before[1]
        elif (self.number, opcode) in ((3, 2), (4, 5)):
            self.pc = before[2]
        elif (self.number, opcode) == (5, 4):
            self.pc = address
        self.late = (self.number, opcode) == (12, 3)

    def transfer(self):
        super().transfer()
        if self.number == 8 and self.events:
            self.events[:2] = reversed(self.events[:2])

    def group_2(self):
        ac, word, halt = self.ac, self.done, self.halt
        if self.number == 6 and word & 0o40:
            self.done &= ~0o40
        if self.number == 9:
            self.done &= ~0o4
        super().group_2()
        self.done = word
        if self.number == 7:
            self.halt = halt

    def step(self, request):
        interrupted = self.ion and request and not self.halt
        super().step(request)
        if interrupted and self.number == 10:
            self.ion = 1
        if interrupted and self.number == 11:
            self.write(0, self.memory[0] + 1)


class AnyWords(dict):
    """A memory whose words are anything, each from when it is first read."""

    def get(self, address, default=None):
        return self.setdefault(address, random.choice([0, 0o7777, random.getrandbits(12), random.getrandbits(12)]))


def any_machine(number):
    """A PDP-8 in any state. A third of the instructions are of group 2, a third IOTs, and a third any word."""
    instruction = random.choice([lambda: random.getrandbits(12), lambda: 0o7400 | random.getrandbits(8) & ~1,
                                 lambda: 0o6000 | random.getrandbits(9)])()
    pc, ac = random.getrandbits(12), random.choice([0, 0o4000, 0o7777, random.getrandbits(12)])
    link, ion, delay = (random.getrandbits(1) for _ in range(3))
    return Faulty(number, ac=ac, pc=pc, mq=random.getrandbits(12), link=link, ion=ion, delay=delay,
                  halt=int(random.randrange(8) == 0), memory=AnyWords({pc: instruction}),
                  inputs=[random.getrandbits(12) for _ in range(2)])


def any_start(machine, job):
    """A machine that makes a step, and the start of it: of the memory it has the words that are read, and the board has
    anything where it may."""
    values = {f"m.{name}": value for name, value in registers(machine).items()}
    values |= {name: random.getrandbits(width) for name, width in job.widths.items()
               if name.startswith("b.") and name not in job.left(0)}
    lists = {"inputs": list(machine.inputs), "line": [random.getrandbits(1) for _ in range(CYCLES)],
             "noise": [random.getrandbits(14) for _ in range(CYCLES)]}
    machine.step(lists["line"][0])
    return Choice(0, values, dict(machine.seen), lists)


def check_board(number, job):
    """From random starts the board does what the fault says, and all else as before."""
    shown = Counter()
    for _ in range(STARTS):
        machine = any_machine(number)
        start = any_start(machine, job)
        _, board, events = segment(job, start, board_state(job, completed(job, start), 0, start.words))
        shown[difference(job, start) or "same"] += 1
        if machine.late:
            assert board is None
            continue
        found = board_values(job, board)
        wanted = kept(machine) | CONSTANTS
        assert all(found[f"b.{name}"] == value for name, value in wanted.items() if name != "sp")
        assert events == machine.events and board.sp == 0
        written = start.words | {at: word for at, word in machine.memory.items() if at in board.memory}
        assert board.memory == written
    return shown


def check():
    random.seed(1965)
    assert set(check_board(0, RIGHT)) == {"same"}, "the right microprogram"
    for number, fault in faults().items():
        found = Found(number, fault)
        shown = check_board(number, found.job)
        assert set(shown) == {"same", DIFFERENCES[number]}
        print(f"{number} {fault.what}: case {len(found.looked)}; of {STARTS} random starts {shown['same']} show nothing")


# ---- the page

def blocks_of(number, fault, rows_by_name):
    """What the page has of a fault, each an indented block or a part of one."""
    title = f"{number}. {fault.what[0].upper()}{fault.what[1:]}"
    changed = (mark + line for pair in fault.changes.items() for mark, line in zip(("- ", "+ "), pair))
    yield f"## {title}\n\n" + indented(changed)
    report = rows_by_name[f"fault {number}, {fault.what}"]["report"].decode().splitlines()
    yield indented(["$ ../../mw_bench certify board.toml /tmp/micro machine relation", *report])
    yield f"| {number} | [{title.partition(' ')[2]}](#"
    yield f") | `{DIFFERENCES[number]}` |\n"


def walk_of(number, micro, rows_by_name):
    """What the page has of a walk through a fault that is a file."""
    row_read = rows_by_name[f"fault {number}, in the debugger"]
    yield f"../../tools/environment board.toml {micro} machine relation /tmp/no > /tmp/env"
    yield indented(["$ cat > /tmp/script <<'TEXT'", *row_read["files"]["d"].decode().splitlines(), "TEXT",
                    f"$ ../../mw_bench debug board.toml {micro} /tmp/env /tmp/script",
                    *row_read["report"].decode().splitlines()])


def indented(lines):
    return "".join(f"    {line}\n" for line in lines)


def check_page():
    page, found = PAGE.read_text(), {each["name"]: each for each in read(ROWS)}
    blocks = [block for number, fault in faults().items() for block in blocks_of(number, fault, found)]
    blocks += [*walk_of(5, "micro-jms", found), *walk_of(12, "micro-dca", found)]
    blocks.append(indented(found["fault 5, in the debugger"]["files"]["e"].decode().splitlines()))
    blocks.append(indented(found["fault 5, in the debugger on the right words"]["report"].decode().splitlines()[4:5]))
    for block in blocks:
        if block not in page:
            sys.exit(f"{PAGE.relative_to(TOP)} lacks: {block}")
    print("the page has what the rows have")


def main():
    match sys.argv[1:]:
        case ["rows"]:
            print(rows(), end="")
        case ["page"]:
            check_page()
        case ["--check"]:
            check()
        case ["list", number]:
            found = Found(int(number), faults()[int(number)])
            print(text_of(found.report).decode(), end="")
            print(len(found.looked), "cases,", sum(cost for each in found.looked for *_, cost in each.bits.operations),
                  "joint cofactors")
        case _:
            sys.exit(__doc__)


if __name__ == "__main__":
    main()
