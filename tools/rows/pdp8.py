#!/usr/bin/env python3
"""Prints rows of the PDP-8 of examples/pdp8, and tries it on its board as the built program runs it.

What an instruction does is stated by model/pdp8.py, which reads neither the microprogram nor the description.

    pdp8.py --check        no program: instructions that are worked by hand, and whether crates/mw_rows/data/pdp8 is what
                           `rows` prints
    pdp8.py run PROGRAM    every instruction word, from three states and more: what the board of the built program holds at
                           its next boundary, by scripts of `debug`, and for one of them what `compare` says; and
                           comparisons of many steps on memories of any words
    pdp8.py rows           the rows of crates/mw_rows/data/pdp8, with the texts of examples/pdp8
"""
import random
import subprocess
import sys
import tempfile
from collections import Counter
from pathlib import Path

import tools_path
from files import file_lines, row_lines
from model.pdp8 import WORDS, Machine

TOP = Path(__file__).resolve().parent.parent.parent
EXAMPLE = TOP / "examples" / "pdp8"
ROWS_FILE = TOP / "crates" / "mw_rows" / "data" / "pdp8"
FILES = {"b": "board.toml", "m": "micro", "k": "machine", "r": "relation"}
# Words that are often met.
EDGES = [0, 1, 0o7, 0o10, 0o17, 0o20, 0o177, 0o200, 0o3777, 0o4000, 0o7776, 0o7777]
# How many cycles an instruction may have, and how many instructions a script has at most, so that all its cycles have a
# line and a noise word.
CYCLES, SCRIPT = 21, 3000
# From how many states a script runs each instruction word, and how many programs of so many steps are compared.
STATES = 3
PROGRAMS, STEPS = 60, 200


# ---- instructions worked by hand

def at_0200(*words, mem=(), **given):
    """A machine at 0200, where these words stand."""
    return Machine(pc=0o200, memory=dict(enumerate(words, 0o200)) | dict(mem), **given)


def worked(machine, requests=(0,), mem=(), seen=None, **wanted):
    """After a step for each of these requests a machine has what is wanted."""
    events = []
    for request in requests:
        machine.step(request)
        events += machine.events
    found = {name: getattr(machine, name) for name in wanted}
    assert found == wanted, (found, wanted)
    assert seen in (None, events), events
    assert dict(mem).items() <= machine.memory.items(), machine.memory


def check_memory_references():
    # AND; TAD, where a carry complements L; ISZ; DCA.
    worked(at_0200(0o0250, mem={0o250: 0o1234}, ac=0o7070, link=1), ac=0o1030, link=1, pc=0o201)
    worked(at_0200(0o1001, mem={1: 1}, ac=0o7777, link=1), ac=0, link=0, pc=0o201)
    worked(at_0200(0o1001, mem={1: 1}, ac=0o7777), ac=0, link=1)
    worked(at_0200(0o1001, mem={1: 1}, ac=0o3777, link=1), ac=0o4000, link=1)
    worked(at_0200(0o2007, mem={7: 0o7777}), pc=0o202, mem={7: 0})
    worked(at_0200(0o2007, mem={7: 0o7776}), pc=0o201, mem={7: 0o7777})
    worked(at_0200(0o2200), pc=0o201, mem={0o200: 0o2201})
    worked(at_0200(0o3377, ac=0o4321, link=1), ac=0, link=1, mem={0o377: 0o4321})
    # JMS and JMP on both pages.
    worked(at_0200(0o4050), pc=0o51, mem={0o50: 0o201})
    worked(at_0200(0o4450, mem={0o50: 0o7777}), pc=0, mem={0o7777: 0o201})
    worked(at_0200(0o5350), pc=0o350)
    worked(at_0200(0o5407, mem={7: 0o7777}), pc=0o7777, mem={7: 0o7777})
    # 0010 to 0017 count up, wrap and leave L; the same offsets of another page don't.
    worked(at_0200(0o5410, mem={0o10: 0o7777}, link=1), pc=0, link=1, mem={0o10: 0})
    worked(at_0200(0o1417, mem={0o17: 0o500, 0o501: 5}), ac=5, mem={0o17: 0o501})
    worked(at_0200(0o1420, mem={0o20: 0o500, 0o500: 5}), ac=5, mem={0o20: 0o500})
    worked(at_0200(0o1610, mem={0o210: 0o500, 0o500: 5}), ac=5, mem={0o210: 0o500})
    # A word that refers to itself sees what its reference has made of it. PC wraps.
    worked(Machine(pc=0o10, memory={0o10: 0o2410}), pc=0o11, mem={0o10: 0o2411, 0o2411: 1})
    worked(Machine(pc=0o7777, memory={0o7777: 0o1000, 0: 3}), ac=3, pc=0)


def check_operates():
    # Group 1: CLA IAC, STA, STL, CIA, RAR, RTR, RAL, RTL, BSW, and RAR with RAL.
    worked(at_0200(0o7201, ac=5), ac=1, pc=0o201)
    worked(at_0200(0o7240, ac=5), ac=0o7777)
    worked(at_0200(0o7120), link=1)
    worked(at_0200(0o7041, ac=0), ac=0, link=1)
    worked(at_0200(0o7041, ac=1), ac=0o7777, link=0)
    worked(at_0200(0o7010, ac=0o4001), ac=0o2000, link=1)
    worked(at_0200(0o7012, ac=0o4001), ac=0o5000, link=0)
    worked(at_0200(0o7004, ac=0o4001, link=1), ac=3, link=1)
    worked(at_0200(0o7006, ac=0o4001, link=1), ac=7, link=0)
    worked(at_0200(0o7002, ac=0o1234, link=1), ac=0o3412, link=1)
    worked(at_0200(0o7014, ac=0o1234, link=1), ac=0o1234, link=1)
    worked(at_0200(0o7016, ac=0o1234, link=1), ac=0o1234, link=1)
    # Group 2: NOP and SKP, SMA and SPA, SZA SNL and SNA SZL, CLA behind the test, OSR, LAS, HLT.
    worked(at_0200(0o7400), pc=0o201)
    worked(at_0200(0o7410), pc=0o202)
    worked(at_0200(0o7500, ac=0o4000), pc=0o202)
    worked(at_0200(0o7500, ac=0o3777), pc=0o201)
    worked(at_0200(0o7510, ac=0o4000), pc=0o201)
    worked(at_0200(0o7460, ac=0), pc=0o202)
    worked(at_0200(0o7470, ac=0), pc=0o201)
    worked(at_0200(0o7470, ac=1), pc=0o202)
    worked(at_0200(0o7470, ac=1, link=1), pc=0o201)
    worked(at_0200(0o7640, ac=0), pc=0o202, ac=0)
    worked(at_0200(0o7404, ac=0o70, inputs=[0o107]), ac=0o177, seen=[("taken", 0o107)])
    worked(at_0200(0o7604, ac=0o70, inputs=[0o107]), ac=0o107)
    worked(at_0200(0o7402, 0o7001, ion=1), requests=[0, 1], halt=1, pc=0o201, ac=0, ion=1)
    # Group 3: MQL, MQA, SWP, CAM, CLA MQA, CLA SWP.
    worked(at_0200(0o7421, ac=5, mq=3), ac=0, mq=5)
    worked(at_0200(0o7501, ac=5, mq=3), ac=7, mq=3)
    worked(at_0200(0o7521, ac=5, mq=3), ac=3, mq=5)
    worked(at_0200(0o7621, ac=5, mq=3), ac=0, mq=0)
    worked(at_0200(0o7701, ac=5, mq=3), ac=3, mq=3)
    worked(at_0200(0o7721, ac=5, mq=3), ac=3, mq=0)


def check_transfers():
    # What goes out comes before what is taken. Bit 0 of the status skips, and bit 1 clears AC.
    seen = [("out", 0o31), ("out", 0o12), ("taken", 0), ("taken", 0o101)]
    worked(at_0200(0o6031, ac=0o12, inputs=[0, 0o101]), ac=0o113, pc=0o201, seen=seen)
    worked(at_0200(0o6036, ac=0o12, inputs=[0o6000, 0o101]), ac=0o101, pc=0o202)
    worked(at_0200(0o6007, ac=0o12, inputs=[0o6000, 0o101]), ac=0o12, pc=0o201, seen=[])
    # ION takes effect behind the next instruction, IOF at once.
    worked(at_0200(0o6001, 0o5210), requests=[1, 1, 1], pc=1, ion=0, delay=0, mem={0: 0o210})
    worked(at_0200(0o6001, 0o5210), requests=[1, 1], pc=0o210, ion=1, delay=0)
    worked(at_0200(0o6001, 0o6002, 0o7001), requests=[1, 1, 1], pc=0o203, ac=1, ion=0)
    worked(at_0200(0o6002, ion=1), pc=0o201, ion=0)
    worked(at_0200(0o7001, ion=1, delay=1), requests=[1], pc=1, ion=0, delay=0, ac=0, mem={0: 0o200})


# ---- the board and the program

# What the board holds beside a machine, and what may be anything in it.
CONSTANTS = {"upc": 1, "sp": 0, "r14": 0o10, "r15": 0o7776}
SCRATCH = {f"r{number}": 12 for number in range(2, 14)} | {"ir": 12, "count": 12}
SCRATCH |= {f"stack{number}": 12 for number in range(5)} | {"skip": 1, "t": 1, "z": 1}


def kept(machine):
    """Where the board holds a machine."""
    return {"r0": machine.ac, "r1": machine.pc, "mar": machine.pc, "q": machine.mq, "link": machine.link,
            "ion": machine.ion, "pend": machine.ion | machine.delay, "halt": machine.halt}


def registers(machine):
    """The registers of the description."""
    return {"AC": machine.ac, "PC": machine.pc, "MQ": machine.mq, "L": machine.link, "ION": machine.ion,
            "DELAY": machine.delay, "HALT": machine.halt}


def anything(width=12):
    edge = width == 12 and random.randrange(3) == 0
    return random.choice(EDGES) if edge else random.getrandbits(width)


def scratch():
    return {name: random.getrandbits(width) for name, width in SCRATCH.items()}


def set_lines(owner, elements):
    return [f"set {owner}.{name} 0o{value:o}" for name, value in elements.items()]


def list_lines(name, values):
    """The lines of a list, some hundred entries each."""
    return [" ".join(map(str, [name, *values[at:at + 500]])) for at in range(0, len(values), 500)]


def memory_lines(memory):
    return [f"mem 0o{address:o} 0o{word:o}" for address, word in memory.items()]


class Program:
    """The built program, in a folder of its own that has the four texts."""

    def __init__(self, path):
        self.path, self.folder = Path(path).resolve(), tempfile.TemporaryDirectory()
        for name, file in FILES.items():
            self.write(name, (EXAMPLE / file).read_text().splitlines())

    def write(self, name, lines):
        (Path(self.folder.name) / name).write_text("\n".join(lines) + "\n")

    def report(self, *words):
        return subprocess.run([self.path, *words], cwd=self.folder.name, capture_output=True, text=True, check=False).stdout


# ---- every instruction word, by scripts of the debugger

class Script:
    """A script that runs instructions where their words stand in one memory, each from registers of its own."""

    def __init__(self, counts, request):
        self.counts, self.request, self.lines, self.wanted, self.starts = counts, request, [], {}, {}
        self.machine = Machine(memory=self.words(), inputs=[anything() for _ in range(SCRIPT)])
        self.environment = self.environment_lines()
        left = SCRIPT
        for address in random.sample(range(WORDS), WORDS):
            if left and counts[self.machine.memory[address]] < STATES:
                self.instruction(address)
                left -= 1
        for address in range(WORDS):
            self.command(f"show mem {address}", [f"mem 0x{address:X}=0x{self.machine.memory[address]:X}"])

    def words(self):
        """A memory of words that are still to be run, between some that are often met."""
        words = [word for word in range(WORDS) for _ in range(self.counts[word], STATES)]
        words = random.sample(words, min(len(words), WORDS))
        words += [anything() for _ in range(WORDS - len(words))]
        random.shuffle(words)
        others = [*range(0o10, 0o20), *random.sample(range(WORDS), WORDS // 8)]
        return dict(enumerate(words)) | {address: random.choice(EDGES) for address in others}

    def environment_lines(self):
        lines = ["at FETCH", *set_lines("b", CONSTANTS | scratch()), *memory_lines(self.machine.memory)]
        lines += list_lines("inputs", self.machine.inputs) + list_lines("line", [self.request] * SCRIPT * CYCLES)
        return lines + list_lines("noise", [random.getrandbits(14) for _ in range(SCRIPT * CYCLES)])

    def command(self, line, wanted=()):
        """A command, and the lines that it has to print, where that matters."""
        self.lines.append(line)
        self.wanted |= {len(self.lines): list(wanted)} if wanted else {}

    def instruction(self, address):
        machine = self.machine
        machine.ac, machine.pc, machine.mq, machine.link = anything(), address, anything(), anything(1)
        machine.ion, machine.delay, machine.halt = int(not random.randrange(4)), anything(1), int(not random.randrange(16))
        for line in set_lines("b", kept(machine)):
            self.command(line)
        given, inputs = registers(machine), machine.inputs[:2]
        machine.step(self.request)
        self.command(f"until FETCH {CYCLES}", [*event_lines(machine), "at 0x0"])
        for name, value in (kept(machine) | CONSTANTS).items():
            self.command(f"show b.{name}", [f"b.{name}=0x{value:X}"])
        if machine.done is not None:
            self.counts[machine.done] += 1
            self.starts[machine.done] = start_lines(given, machine.seen, inputs, [self.request])

    def unlike(self, program):
        """What the program prints otherwise than it has to, by the lines of the script."""
        program.write("e", self.environment)
        program.write("d", self.lines)
        found = {}
        for line in program.report("debug", "b", "m", "e", "d").splitlines():
            number, _, text = line.partition(" ")
            found.setdefault(int(number) if number.isdigit() else 0, []).append(text)
        return [(number, self.lines[number - 1], wanted, found.get(number))
                for number, wanted in self.wanted.items() if found.get(number) != wanted]


def event_lines(machine):
    return [f"{kind} 0x{word:X}" for kind, word in machine.events]


def start_lines(given, memory, inputs, line):
    """A start, in which the board has anything where it may."""
    lines = ["boundary FETCH", *set_lines("m", given), *set_lines("b", scratch()), *memory_lines(memory)]
    noise = [random.getrandbits(14) for _ in range(CYCLES)]
    return lines + list_lines("inputs", inputs) + list_lines("line", line) + list_lines("noise", noise)


def check_scripts(program):
    """Runs scripts until each instruction word was run so often. Answers a start for each."""
    counts, starts, number = Counter(), {}, 0
    while min(counts[word] for word in range(WORDS)) < STATES:
        script = Script(counts, request=number % 2)
        unlike = script.unlike(program)
        assert not unlike, (len(unlike), unlike[0])
        starts |= script.starts
        number += 1
    print(f"{counts.total()} instructions in {number} scripts, each word from {STATES} states and more", flush=True)
    return starts


# ---- comparisons

def same(program, lines, *words):
    program.write("s", lines)
    return program.report("compare", "b", "m", "k", "r", "s", *words)


def check_starts(program, starts):
    for word, lines in sorted(starts.items()):
        assert same(program, lines) == "same 1\n", (oct(word), lines)
    print(f"{len(starts)} starts, one for each instruction word: same", flush=True)


def halts(word):
    return word >> 8 == 0o17 and word & 3 == 2


def check_programs(program):
    """Memories of any words, few of which halt, run from anything, with the line now low and now high."""
    for _ in range(PROGRAMS):
        memory = {address: anything() for address in range(WORDS)}
        memory |= {address: word - 2 for address, word in memory.items() if halts(word) and random.randrange(16)}
        given = registers(Machine(ac=anything(), pc=anything(), mq=anything(), link=anything(1)))
        line = [int(not random.randrange(8)) for _ in range(STEPS * CYCLES)]
        lines = start_lines(given, memory, [anything() for _ in range(2 * STEPS)], line)
        assert same(program, lines, "--steps", str(STEPS)) == f"same {STEPS}\n", lines
    print(f"{PROGRAMS} programs of {STEPS} steps: same")


# ---- rows

HEAD = """\
# A PDP-8 on the board of examples/pdp8, printed by tools/rows/pdp8.py. What an instruction does is worked out by hand,
# from the instruction set, and each is also compared with the description; what a program does is said by the PDP-8 of
# tools/model/pdp8.py. The ways through the microprogram, 31, and the longest, 21 cycles, are counted in
# docs/manual/pdp8.md, and the first start that differs is worked out by hand in the script. Numbers of PDP-8 words are
# octal in the names."""
# A name, a machine, the line of the first cycles, how many steps, and what is shown behind them.
ROWS = [
    ("TAD of 0001 with AC 7777 and L 1", at_0200(0o1001, mem={1: 1}, ac=0o7777, link=1), [], 1,
     {"b.r0": 0, "b.link": 0, "b.r1": 0o201}),
    ("TAD of 0001 with AC 7777 and L 0", at_0200(0o1001, mem={1: 1}, ac=0o7777), [], 1, {"b.r0": 0, "b.link": 1}),
    ("JMP I 10 with 7777 in 0010", at_0200(0o5410, mem={0o10: 0o7777}), [], 1,
     {"mem 0x8": 0, "b.r1": 0, "b.mar": 0, "b.link": 0}),
    ("ISZ of itself", at_0200(0o2200), [], 1, {"mem 0x80": 0o2201, "b.r1": 0o201}),
    ("7400 doesn't skip with AC 0 and L 1", at_0200(0o7400, link=1), [], 1, {"b.r1": 0o201}),
    ("7400 doesn't skip with AC 4000 and L 0", at_0200(0o7400, ac=0o4000), [], 1, {"b.r1": 0o201}),
    ("7410 skips with AC 0 and L 1", at_0200(0o7410, link=1), [], 1, {"b.r1": 0o202}),
    ("7410 skips with AC 4000 and L 0", at_0200(0o7410, ac=0o4000), [], 1, {"b.r1": 0o202}),
    ("an interrupt behind the instruction behind ION", at_0200(0o6001, 0o5210), [1] * 3 * CYCLES, 3,
     {"mem 0x0": 0o210, "b.r1": 1, "b.ion": 0, "b.pend": 0}),
    ("no interrupt behind ION itself", at_0200(0o6001, 0o5210), [1] * 2 * CYCLES, 2,
     {"mem 0x0": 0, "b.r1": 0o210, "b.ion": 1}),
    ("an interrupt", at_0200(0o5210, ion=1), [1], 1, {"mem 0x0": 0o200, "b.r1": 1, "b.ion": 0, "b.pend": 0}),
    ("no interrupt with the line high in the second cycle alone", at_0200(0o5210, ion=1), [0, 1], 1,
     {"mem 0x0": 0, "b.r1": 0o210, "b.ion": 1, "b.pend": 1}),
]

# The word of TAD without its carry into L.
NO_LINK = ["change m", "without TAD_D:", "| org 0x58", "| TAD_D: MEMORY, DA, a=AC, ADD, RAMF, b=AC, GO, br=END"]
# What differs there, and the first start that shows it. A direct TAD comes before an indirect one, and of its comparisons
# that of L alone fails. The first start has 0 in bit 0 of each value where it can, then in bit 1, and so on, with bits
# numbered from the lowest here. Of the instruction bit 9 must be 1, and nothing else: it is 1000, TAD 0. L goes wrong
# where AC plus memory 0000 has a carry; with 0 in bits 0 to 10 bit 11 of both is 1. So memory 0000 is 4000 and isn't the
# instruction, and PC isn't 0: its highest bit, 11, is 1.
DIFFERENCE = ["difference element b.link"]
START = ["boundary 0x0", "set m.AC 0x800", "set m.PC 0x800", "mem 0x0 0x800", "mem 0x800 0x200"]
# What examples/pdp8/script prints from there, but for L: 1000 is fetched and done, and 4000 and 4000 are 10000.
TRACE = ["1 at 0x0 b.r0=0x800", "2 at 0x0 b.r0=0x800 b.link=0x0", "3 at 0x0 b.r0=0x800 b.link=0x0 b.mar=0x800",
         "4 at 0x58 b.r0=0x800 b.link=0x0 b.mar=0x0", "5 b.ir=0x200", "6 mem 0x0=0x800",
         "7 at 0x8 b.r0=0x0 b.link={link} b.mar=0x0", "8 at 0x0 b.r0=0x0 b.link={link} b.mar=0x801", "9 b.r1=0x801"]


def text_of(lines):
    return "".join(f"{line}\n" for line in lines).encode()


def example(file):
    return (EXAMPLE / file).read_text().splitlines()


def row(name, words, files, report, end="status 0", change=()):
    """The lines of a row over the four texts and these files. Where a report only begins so, its last line may go on."""
    given = [f"$ {words}", "with pdp8", *(line for file, lines in files.items() for line in file_lines(file, text_of(lines)))]
    text = "\n".join(report).encode() if end.startswith("begins") else text_of(report)
    return ["", *row_lines(name, [*given, *change], end, text)]


def without_zeros(elements):
    return {name: value for name, value in elements.items() if value}


def instruction_rows():
    for name, machine, line, steps, shown in ROWS:
        outside = memory_lines(machine.memory) + list_lines("line", line)
        environment = ["at FETCH", *set_lines("b", without_zeros(CONSTANTS | kept(machine))), *outside]
        script = [f"until FETCH {CYCLES}"] * steps + [f"show {what}" for what in shown]
        report = [f"{number + 1} at 0x0" for number in range(steps)]
        report += [f"{number} {what}=0x{value:X}" for number, (what, value) in enumerate(shown.items(), steps + 1)]
        yield from row(name, "debug b m e d", {"e": environment, "d": script}, report)
        start = ["boundary FETCH", *set_lines("m", without_zeros(registers(machine))), *outside]
        yield from row(f"{name}, compared", f"compare b m k r s --steps {steps}", {"s": start}, [f"same {steps}"])


def machine_at(environment):
    """The machine of an environment that sets PC and AC alone of its registers."""
    machine = Machine()
    for line in environment:
        match line.partition(";")[0].split():
            case ["set", "b.r0", value]:
                machine.ac = int(value, 0)
            case ["set", "b.r1", value]:
                machine.pc = int(value, 0)
            case ["mem", address, *words]:
                machine.memory |= enumerate((int(word, 0) for word in words), int(address, 0))
            case ["inputs", *words]:
                machine.inputs += (int(word, 0) for word in words)
    return machine


def run_to_halt(machine):
    """What a machine puts out and takes until it halts."""
    events = []
    while not machine.halt:
        machine.step(0)
        events += event_lines(machine)
    return events


def program_rows():
    """The two programs of examples/pdp8, which halt within 1,000 cycles."""
    environment = example("env-multiply")
    machine = machine_at(environment)
    run_to_halt(machine)
    shown = {"b.r1": machine.pc, "b.r0": machine.ac, "b.halt": machine.halt, "mem 0x87": machine.memory[0o207],
             "mem 0x88": machine.memory[0o210]}
    assert shown["mem 0x88"] == 6 * 7
    report = ["1 at 0x0", *(f"{number} {what}=0x{value:X}" for number, (what, value) in enumerate(shown.items(), 2))]
    script = ["step 1000", *(f"show {what}" for what in shown)]
    yield from row("6 times 7", "debug b m e d", {"e": environment, "d": script}, report)
    environment = example("env-message")
    report = ["cycles 1000", *run_to_halt(machine_at(environment)), "at 0x0", ""]
    yield from row("two characters that are put out", "run b m e", {"e": environment}, report, end="begins 0")


def certify_rows():
    words = "certify b m k r"
    yield from row("every start", words, {}, ["yes", "boundary 0x0 cases 31 cycles 21 machine-states all"])
    yield from row("every start within 1 node", f"{words} --nodes 1", {}, ["unknown nodes boundary "], end="begins 2")
    report = ["no", *DIFFERENCE, *START]
    yield from row("every start of TAD without its carry into L", words, {}, report, end="status 1", change=NO_LINK)
    for name, command in (("replayed", "replay"), ("compared", "compare")):
        words, files = f"{command} b m k r c", {"c": report}
        differs = ["differs step 1", *DIFFERENCE]
        yield from row(f"the start of that no, {name}", words, files, differs, end="status 1", change=NO_LINK)
        yield from row(f"the start of that no, {name} with the right word", words, files, ["same 1"])
    files = {"e": example("env-carry"), "d": example("script")}
    for name, link, change in (("", 0, NO_LINK), (" with the right word", 1, ())):
        report = [line.format(link=f"0x{link}") for line in TRACE]
        yield from row(f"the debugger at the start of that no{name}", "debug b m e d", files, report, change=change)


def rows():
    """The whole file."""
    lines = [HEAD, "", "set pdp8"]
    for name, file in FILES.items():
        lines += file_lines(name, (EXAMPLE / file).read_bytes())
    return "".join(f"{line}\n" for line in [*lines, *instruction_rows(), *program_rows(), *certify_rows()])


def check():
    check_memory_references()
    check_operates()
    check_transfers()
    print("instructions by hand: as they are worked out", flush=True)


def check_rows():
    if not ROWS_FILE.exists() or ROWS_FILE.read_text() != rows():
        sys.exit(f"{ROWS_FILE.relative_to(TOP)} is not what tools/rows/pdp8.py rows prints")
    print("rows: as they are printed", flush=True)


def main():
    random.seed(1965)
    match sys.argv[1:]:
        case ["--check"]:
            check()
            check_rows()
        case ["rows"]:
            print(rows(), end="")
        case ["run", path]:
            check()
            program = Program(path)
            check_starts(program, check_scripts(program))
            check_programs(program)
        case _:
            sys.exit(__doc__)


if __name__ == "__main__":
    main()
