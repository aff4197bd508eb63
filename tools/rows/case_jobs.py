"""The jobs of cases.py: boards, and of each job its texts and what its microprogram and its machine read."""
import random

import tools_path
from model.am2910 import INSTRUCTIONS
from model.comparison import Job
from small import SMALL_BOARD, SMALL_MACHINE, SMALL_MICRO, SMALL_RELATION

# The board of the small case, and one whose test, D and loads are chosen.
BOARDS = {
    "small": SMALL_BOARD.decode(),
    "choosing": """\
version = 1
width = 4
microword = 49
fill = "0"
address = 2
vector = 2
flipflop = [{ name = "flag", control = "flag", load = ["hold", "invert", "carry", "line"] }]
[fields]
src = [0, 3]
fun = [3, 3]
dst = [6, 3]
a = [9, 4]
b = [13, 4]
cin = [17, 1]
seq = [18, 4]
br = [22, 12]
off = [34, 1]
test = [35, 3]
turn = [38, 1]
d = [39, 3]
rld = [42, 1]
mar = [43, 1]
ir = [44, 1]
write = [45, 1]
out = [46, 1]
flag = [47, 2]
[control]
alu_source = "src"
alu_function = "fun"
alu_destination = "dst"
a_address = "a"
b_address = "b"
carry_in = "cin"
sequencer = "seq"
branch = "br"
test_disable = "off"
condition = "test"
polarity = "turn"
d = "d"
rld = "rld"
mar_load = "mar"
ir_load = "ir"
memory_write = "write"
out = "out"
[select]
carry_in = ["zero", "one"]
condition = ["zero", "f_zero", "carry", "line", "overflow", "ir:0", "ff:flag", "full"]
d = ["zero", "memory", "input", "ir", "mar", "field:br", "memory&3"]
[map]
low = 0
bits = 2
entries = [0, 1, 2, 3]
""",
}

NAMES = """\
def CONT = seq=14
def JUMP = seq=3, off=1
def D0 = src=7, fun=3
def FZERO = test=1
def CARRY = test=2
def LINE = test=3
def IR0 = test=5
def FLAG = test=6
def FULL = test=7
def MEMORY = d=1
def INPUT = d=2
def IR = d=3
"""
# Three words that go back to the boundary.
BACK = "dst=1, JUMP, br=LOOP\n" * 3
NOTHING = "memory 2 4\nregister X 4\nstep\n"


def job_of(texts):
    """The job of the name of a board and three texts."""
    board, micro, machine, relation = texts
    return Job(BOARDS[board], micro.encode(), machine.encode(), relation.encode())


def job(name, words, machine, relation, **reads):
    """A job on the choosing board."""
    return name, ("choosing", NAMES + words, machine, relation), reads


def small(name, words, machine, relation, **reads):
    """A job on the small board."""
    return name, ("small", words, machine, relation), reads


def boundary(place, bound, *lines, sp=0, pc=1):
    return f"boundary {place} {bound}\nsp {sp}\nb.upc = {pc}#12\n" + "".join(f"{line}\n" for line in lines) + "end\n"


def counted(name):
    """An instruction whose test is the line, with a counter of 0 to 3, over a stack of one word."""
    code = INSTRUCTIONS.index(name)
    machine = "memory 2 4\nregister C 2\nstep\n"
    lines = "b.count = zext(m.C, 12)", "b.stack0 = 3#12", "b.ir = 2#4"
    return job(f"{name} with the line as its test", f"LOOP: dst=1, seq={code}, LINE, br=2\n{BACK}", machine,
               boundary("LOOP", 2, *lines, sp=1), elements=["m.C"], line=1)


def untested(name):
    """The same with its test disabled."""
    code = INSTRUCTIONS.index(name)
    machine = "memory 2 4\nregister C 1\nstep\n"
    lines = "b.count = zext(m.C, 12)", "b.stack0 = 3#12", "b.ir = 3#4"
    return job(f"{name} with its test disabled", f"LOOP: dst=1, seq={code}, off=1, br=2\n{BACK}", machine,
               boundary("LOOP", 2, *lines, sp=1), elements=["m.C"])


# Words of the choosing board.
JUMP_BACK = "dst=1, JUMP, br=LOOP\n"
ON_LINE = "dst=1, seq=3, LINE, br=2\n"
ON_INPUT = "D0, INPUT, dst=1, seq=3, FZERO, br=2\n"

# The machine of the small case, whose step does nothing.
IDLE = "memory 4 4\nregister X 4\nregister Y 4\nstep\n"

EXCLUDING = """\
memory 2 4
register X 2
register Y 1
step
if X == 0#2
Y := 1#1
else
if X[0]
X := X + 1#2
end
end
if X == 2#2
X := 3#2
end
if Y
end
if request
if request
Y := 0#1
else
Y := 1#1
end
end
"""
TWO_INPUTS = """\
memory 2 4
temp T 4
temp U 4
step
take T
if T == 0#4
else
take U
if U < T
put U
end
end
"""
ONE_INPUT = """\
memory 2 4
register X 4
temp T 4
step
take T
if T[0]
X := T
else
if T == 4#4
X := T
end
end
"""
WORDS_COMPARED = """\
memory 2 4
register M 2
step
if mem[M] == 0#4
else
if mem[~M] == mem[M]
M := M + 1#2
end
end
"""
WRITTEN_FIRST = """\
memory 2 4
register M 2
register I 4
step
mem[M] := I
if mem[M] == I
if mem[0#2] == 0#4
end
end
"""
BEHIND_TESTS = """\
memory 2 4
register I 4
step
if I == 0#4
if request
put I
end
else
if I[3]
I := I - 1#4
end
end
"""
IN_THREE = """\
memory 2 4
register X 1
step
if request
X := ~X
else
if X
put 1#4
end
end
"""

COUNTER = "b.count = zext(m.C, 12)"

JOBS = [
    small("the small case", SMALL_MICRO.decode(), SMALL_MACHINE.decode(), SMALL_RELATION.decode()),
    small("the small case, spinning",
          "def CONT = seq=14\ndef JUMP = seq=3, off=1\nLOOP: dst=1, CONT\nSPIN: dst=1, JUMP, br=SPIN\n",
          SMALL_MACHINE.decode(), SMALL_RELATION.decode()),
    small("an empty stack is popped",
          "LOOP: src=1, fun=0, dst=3, a=1, b=0, seq=10, off=1\ndst=1, seq=3, off=1, br=LOOP\n",
          SMALL_MACHINE.decode(), SMALL_RELATION.decode(), noise=[range(4096)]),
    small("a test of nothing", "LOOP: dst=1, seq=3, br=2\ndst=1, seq=3, off=1, br=LOOP\n", IDLE, SMALL_RELATION.decode()),
    *map(counted, INSTRUCTIONS),
    *map(untested, ("JZ", "CJP", "JRP", "RFCT", "LOOP", "TWB")),
    job("TWB over an empty stack", f"LOOP: dst=1, seq=15, LINE, br=2\n{BACK}", "memory 2 4\nregister C 1\nstep\n",
        boundary("LOOP", 2, COUNTER), elements=["m.C"], line=1, noise=[range(4096)]),
    job("a test that is turned over", f"LOOP: dst=1, seq=3, LINE, turn=1, br=2\n{BACK}", NOTHING, boundary("LOOP", 2),
        line=1),
    job("late where the line is high", f"LOOP: {ON_LINE}{JUMP_BACK}SPIN: dst=1, JUMP, br=SPIN\n", NOTHING,
        boundary("LOOP", 4), line=1),
    job("late only, from one of two boundaries",
        f"LOOP: dst=1, seq=3, LINE, br=3\n{JUMP_BACK}AWAY: dst=1, CONT\nSPIN: dst=1, JUMP, br=SPIN\n",
        "memory 2 4\nregister X 4\nstep\nif X[0]\nX := 0#4\nend\n",
        boundary("LOOP", 3, "b.r0 = m.X") + boundary("AWAY", 3, "b.r0 = m.X", pc=3), elements=["m.X"], line=1),
    job("a word behind the last", f"LOOP: dst=1, seq=3, LINE, br=0xFFF\n{JUMP_BACK}", NOTHING, boundary("LOOP", 2),
        line=1),
    job("a bound that is one too small", f"LOOP: {ON_LINE}{JUMP_BACK}dst=1, CONT\n{JUMP_BACK}", NOTHING,
        boundary("LOOP", 2), line=1),
    job("three boundaries",
        f"LOOP: {ON_LINE}NEXT: {JUMP_BACK}LAST: dst=1, seq=3, LINE, br=LOOP\ndst=1, JUMP, br=LAST\n", IN_THREE,
        boundary("LAST", 2, "b.flag = m.X", pc=3) + boundary("NEXT", 1, "b.flag = m.X", pc=2)
        + boundary("LOOP", 1, "b.flag = m.X"), elements=["m.X"], line=1),
    job("undefined carries",
        f"LOOP: src=7, fun=3, dst=1, seq=3, CARRY, br=2\nsrc=7, fun=4, dst=1, seq=3, test=4, br=LOOP\n{BACK}", NOTHING,
        boundary("LOOP", 3), noise=[[0, 0x1000, 0x2000, 0x3000]] * 2),
    job("a carry that is defined", f"LOOP: src=1, fun=0, dst=3, a=1, b=0, seq=3, CARRY, br=2\n{BACK}",
        "memory 2 4\nregister X 4\nregister Y 4\nstep\nX := X + Y\n",
        boundary("LOOP", 2, "b.r0 = m.X", "b.r1 = m.Y"), elements=["m.X", "m.Y"]),
    job("an input, and a step that takes it", f"LOOP: {ON_INPUT}{BACK}", ONE_INPUT, boundary("LOOP", 2), inputs=1),
    job("two inputs", f"LOOP: {ON_INPUT}D0, INPUT, dst=1, seq=3, FZERO, br=LOOP\n{BACK}", TWO_INPUTS,
        boundary("LOOP", 3), inputs=2),
    job("a word of the memory", f"LOOP: D0, MEMORY, dst=1, seq=3, FZERO, br=2\n{BACK}", WORDS_COMPARED,
        boundary("LOOP", 2, "b.mar = m.M"), elements=["m.M"], memory=range(4)),
    job("a word that is written before it is read",
        f"LOOP: D0, IR, dst=1, write=1, CONT\nD0, MEMORY, dst=1, seq=3, FZERO, br=3\n{BACK}", WRITTEN_FIRST,
        boundary("LOOP", 3, "b.mar = m.M", "b.ir = m.I"), elements=["m.M", "m.I"], memory=[0]),
    job("a map over what is read", f"LOOP: D0, MEMORY, dst=1, ir=1, CONT\ndst=1, seq=2\n{BACK}",
        "memory 2 4\nregister M 2\nstep\nif mem[M][1:0] == 2#2\nput mem[M]\nend\n",
        boundary("LOOP", 3, "b.mar = m.M"), elements=["m.M"], memory=range(4)),
    job("a flip-flop that is tested a cycle later",
        f"LOOP: dst=1, flag=3, CONT\ndst=1, flag=1, seq=3, FLAG, br=3\ndst=1, seq=3, FLAG, br=LOOP\n{BACK}",
        "memory 2 4\nregister F 1\nstep\nF := request\n", boundary("LOOP", 4, "b.flag = m.F"), elements=["m.F"],
        line=1),
    job("a loop that is counted from a constant", f"LOOP: dst=1, seq=12, br=2\nSELF: dst=1, seq=9, br=SELF\n{BACK}",
        NOTHING, boundary("LOOP", 5)),
    job("a loop that is counted, and late where the counter is great",
        f"LOOP: dst=1, seq=9, br=SELF\nSELF: dst=1, seq=9, br=SELF\n{BACK}", "memory 2 4\nregister C 3\nstep\n",
        boundary("LOOP", 5, COUNTER), elements=["m.C"]),
    job("the counter is loaded beside its count",
        f"LOOP: dst=1, seq=8, rld=1, LINE, br=1\ndst=1, seq=15, LINE, br=LOOP\n{BACK}",
        "memory 2 4\nregister C 1\nstep\n",
        boundary("LOOP", 4, COUNTER, "b.stack0 = 1#12", "b.stack1 = 1#12", sp=2), elements=["m.C"], line=4),
    job("a subroutine",
        f"LOOP: dst=1, seq=1, LINE, br=SUB\n{JUMP_BACK}SUB: D0, INPUT, dst=1, seq=10, FZERO\n"
        f"D0, dst=1, seq=13, FZERO\n{BACK}", NOTHING, boundary("LOOP", 5), line=1, inputs=1),
    job("a push onto a full stack",
        f"LOOP: dst=1, seq=4, LINE, br=3\ndst=1, seq=3, FULL, br=LOOP\n{JUMP_BACK}", NOTHING, boundary("LOOP", 3, sp=4),
        line=1),
    job("ifs that exclude one another", f"LOOP: {JUMP_BACK}", EXCLUDING, boundary("LOOP", 1), elements=["m.X", "m.Y"],
        line=1),
    job("an if whose lists are empty", f"LOOP: {JUMP_BACK}",
        "memory 2 4\nregister X 1\nstep\nif X\nend\nif X\nelse\nend\n", boundary("LOOP", 1), elements=["m.X"]),
    job("two tests, and ifs behind both",
        f"LOOP: D0, IR, dst=1, seq=3, FZERO, br=3\ndst=1, seq=3, IR0, br=LOOP\n{JUMP_BACK}"
        f"ZERO: dst=1, seq=3, LINE, br=LOOP\n{BACK}", BEHIND_TESTS, boundary("LOOP", 3, "b.ir = m.I"), elements=["m.I"],
        line=2),
]

# Conditions of the machines of random jobs.
CONDITIONS = ["I[0]", "I[1]", "F", "C == 0#2", "C < I", "I == C", "request", "F & request", "~F", "1#1"]
CHANGES = ["I := I + 1#2", "C := I", "F := ~F", "I := {F, request}"]


def random_word(at):
    """A word whose test, instruction and branch are any; what it tests is the line, a flip-flop, ir, D or the stack."""
    code = random.choice([*range(16), 3, 3, 1, 10, 14])
    test = random.choice(["FZERO", "LINE", "LINE", "IR0", "FLAG", "FULL"])
    d = random.choice([", IR", ""])
    label = "LOOP: " if at == 0 else "HALF: " if at == 3 else ""
    branch, load = random.choice([0, 0, 1, 2, 3, 4]), random.choice([0, 1, 3])
    turn, off, rld = random.getrandbits(1), int(random.random() < 0.2), int(random.random() < 0.2)
    return f"{label}D0, dst=1{d}, seq={code}, {test}, br={branch}, flag={load}, turn={turn}, off={off}, rld={rld}\n"


def random_statements(depth):
    lines = []
    for _ in range(random.choice([0, 1, 1, 2])):
        if depth < 3 and random.random() < 0.7:
            other = ["else", *random_statements(depth + 1)] if random.random() < 0.5 else []
            lines += [f"if {random.choice(CONDITIONS)}", *random_statements(depth + 1), *other, "end"]
        else:
            lines.append(random.choice(CHANGES))
    return lines


def random_job(number):
    """A job with one or two boundaries, whose words are any."""
    random.seed(number)
    words = "".join(map(random_word, range(5)))
    machine = ["memory 2 4", "register I 2", "register C 2", "register F 1", "step", *random_statements(0)]
    lines = "b.ir = {0#2, m.I}", COUNTER, "b.flag = m.F", "b.stack0 = 1#12", "b.stack1 = 3#12"
    relation = boundary("LOOP", 4, *lines, sp=2)
    if random.random() < 0.5:
        relation += boundary("HALF", 3, *lines, sp=2, pc=4)
    return job(f"a random job, {number}", words, "".join(f"{line}\n" for line in machine), relation,
               elements=["m.I", "m.C", "m.F"], line=4)
