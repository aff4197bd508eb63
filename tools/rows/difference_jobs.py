"""The jobs of differences.py: of each its texts, and what of its starts is of account for its cases and comparisons.
These take all their values, and all else is 0."""
from case_jobs import BACK, NAMES, boundary, random_job, small
from small import SMALL_MACHINE, SMALL_MICRO, SMALL_RELATION

HOME = "JUMP, br=LOOP"
BACK_HOME = f"dst=1, {HOME}\n"
IR_WRITTEN = f"D0, IR, dst=1, write=1, {HOME}\n"
# Words that come to a register.
R0, R1, R2 = (f"src=3, fun=3, dst=1, b={number}" for number in range(3))
R0_TO_MAR = "src=3, fun=3, dst=1, b=0, mar=1"
# A sum that goes into register 0.
COUNT_R0 = "src=3, fun=0, dst=3, b=0, cin=1"


def named(name, words, machine, relation, **reads):
    """A job on the choosing board, with the names that its words have."""
    used = [line for line in NAMES.splitlines() if line.split()[1] in words.replace(",", " ").split()]
    texts = "choosing", "".join(f"{line}\n" for line in used) + words, machine, relation
    return name, texts, reads


def machine(registers, *lines):
    """A machine with these registers and statements."""
    return "".join(f"{line}\n" for line in ["memory 2 4", *registers, "step", *lines])


X, Y, Z, M, N, F, T = ("register X 4", "register Y 4", "register Z 4", "register M 2", "register N 2", "register F 1",
                       "temp T 4")
XR, YR, ZR, MR, FR = "b.r0 = m.X", "b.r1 = m.Y", "b.r2 = m.Z", "b.mar = m.M", "b.flag = m.F"
# A word of the memory that goes to another address.
MOVED = f"""\
LOOP: D0, MEMORY, dst=3, b=3, CONT
{R0_TO_MAR}, CONT
src=3, fun=3, dst=1, b=3, write=1, {HOME}
"""
# A branch that is taken where the line is high.
ON_LINE = f"LOOP: dst=1, seq=3, LINE, br=2\n{BACK_HOME}"

EVENTS = [
    named("a word put out that has another value", f"LOOP: {R0}, out=1, {HOME}\n", machine([X], "put X & 7#4"),
          boundary("LOOP", 1, XR), elements=["m.X"]),
    named("the second of two words put out", f"LOOP: {R0}, out=1, CONT\n{R1}, out=1, {HOME}\n",
          machine([X, Y], "put X", "put X & Y"), boundary("LOOP", 2, XR, YR), elements=["m.X", "m.Y"]),
    named("a word put out, before the lines", f"LOOP: {COUNT_R0}, out=1, {HOME}\n",
          machine([X], "put X == 14#4 ? 0#4 : X + 1#4"), boundary("LOOP", 1, XR), elements=["m.X"]),
    named("a word put out in one case of two", f"LOOP: {R0}, out=1, seq=3, FZERO, br=2\n{BACK}",
          machine([X], "put X == 5#4 ? 4#4 : X"), boundary("LOOP", 2, XR), elements=["m.X"]),
    named("a word is taken and not put out", f"LOOP: {R0}, out=1, seq=3, FZERO, br=2\n{BACK}",
          machine([X, T], "take T"), boundary("LOOP", 2, XR), elements=["m.X"]),
    named("a word is put out where another is taken", f"LOOP: D0, INPUT, dst=3, b=0, {HOME}\n",
          machine([X], "put X"), boundary("LOOP", 1, XR), elements=["m.X"], inputs=1),
    named("one word more is put out", f"LOOP: {R0}, out=1, CONT\n{R0}, out=1, {HOME}\n", machine([X], "put X & 7#4"),
          boundary("LOOP", 2, XR), elements=["m.X"]),
    named("one word less is put out", f"LOOP: {R0}, out=1, {HOME}\n", machine([X], "put X", "put 0#4"),
          boundary("LOOP", 1, XR), elements=["m.X"]),
    named("one word more, where the request is there", f"LOOP: {R0}, out=1, seq=3, LINE, br=2\n{BACK}",
          machine([X], "put X", "if request & (X == 6#4)", "put X", "end"), boundary("LOOP", 2, XR), elements=["m.X"], line=2),
    named("a word that is taken is put out", f"LOOP: D0, INPUT, dst=3, b=0, CONT\n{R0}, out=1, {HOME}\n",
          machine([X, T], "take T", "X := T", "put T & 13#4"), boundary("LOOP", 2, XR), elements=["m.X"], inputs=1),
    named("two words are taken in the other order",
          f"LOOP: D0, INPUT, dst=3, b=0, CONT\nD0, INPUT, dst=3, b=1, {HOME}\n",
          machine([X, Y], "take Y", "take X"), boundary("LOOP", 2, XR, YR), inputs=2),
    named("two words are taken, and nothing differs",
          f"LOOP: D0, INPUT, dst=3, b=0, CONT\nD0, INPUT, dst=3, b=1, {HOME}\n",
          machine([X, Y], "take X", "take Y"), boundary("LOOP", 2, XR, YR), inputs=2),
    named("a test of what is taken", f"LOOP: D0, INPUT, dst=3, b=0, seq=3, FZERO, br=2\n{BACK}",
          machine([X], "take X", "if X[0]", "if X == 9#4", "X := 8#4", "end", "end"), boundary("LOOP", 2, XR), inputs=1),
]

STACKS = [
    named("a subroutine that is entered only", f"LOOP: dst=1, seq=1, LINE, br=2\n{BACK}", machine([X]),
          boundary("LOOP", 2, XR), elements=["m.X"], line=2),
    named("a subroutine that is left", f"LOOP: dst=1, seq=1, off=1, br=SUB\n{BACK_HOME}SUB: dst=1, seq=10, LINE\n{BACK_HOME}",
          machine([X]), boundary("LOOP", 3, XR), elements=["m.X"], line=3),
    named("a boundary in a subroutine", f"LOOP: dst=1, seq=1, LINE, br=SUB\n{BACK_HOME}SUB: dst=1, seq=10, FLAG\n{BACK_HOME}",
          machine([F], "F := request"), boundary("SUB", 3, "b.stack0 = 1#12", FR, sp=1, pc=3) + boundary("LOOP", 2, FR),
          elements=["m.F"], line=3),
]

LINES = [
    small("the small case with another function", SMALL_MICRO.decode().replace("fun=0", "fun=3"), SMALL_MACHINE.decode(),
          SMALL_RELATION.decode(), elements=["m.X", "m.Y"]),
    small("the small case", SMALL_MICRO.decode(), SMALL_MACHINE.decode(), SMALL_RELATION.decode(), elements=["m.X", "m.Y"]),
    small("the small case with a carry", SMALL_MICRO.decode().replace("b=0,", "b=0, cin=1,"), SMALL_MACHINE.decode(),
          SMALL_RELATION.decode(), elements=["m.X", "m.Y"]),
    small("the small case, spinning",
          "def CONT = seq=14\ndef JUMP = seq=3, off=1\nLOOP: dst=1, CONT\nSPIN: dst=1, JUMP, br=SPIN\n",
          SMALL_MACHINE.decode(), SMALL_RELATION.decode()),
    named("variables by bits before words", f"LOOP: {BACK_HOME}",
          machine([X, Y, Z], "Z := (X == 8#4) | (Y == 1#4) ? ~Z : Z"), boundary("LOOP", 1, XR, YR, ZR),
          elements=["m.X", "m.Y", "m.Z"]),
    named("the first line that can fail, with a start that is later", f"LOOP: {COUNT_R0}, {HOME}\n",
          machine([X, Y], "X := X == 15#4 ? 1#4 : X + 1#4", "Y := Y + 1#4"), boundary("LOOP", 1, XR, YR),
          elements=["m.X", "m.Y"]),
    named("the same lines in the other order", f"LOOP: {COUNT_R0}, {HOME}\n",
          machine([X, Y], "X := X == 15#4 ? 1#4 : X + 1#4", "Y := Y + 1#4"), boundary("LOOP", 1, YR, XR),
          elements=["m.X", "m.Y"]),
    named("an element of the board on the right", f"LOOP: {COUNT_R0}, {HOME}\n",
          machine([X], "X := X[3] ? X : X + 1#4"), boundary("LOOP", 1, "m.X = b.r0"), elements=["b.r0"]),
    named("a side that is shorter than the element", f"LOOP: {COUNT_R0}, {HOME}\n",
          machine(["register X 3"], "X := X + 1#3"), boundary("LOOP", 1, "b.r0 = zext(m.X, 4)"), elements=["m.X"]),
    named("a flip-flop that is turned over", f"LOOP: dst=1, flag=1, {HOME}\n", machine([F, X], "F := X == 3#4 ? F : ~F"),
          boundary("LOOP", 1, FR), elements=["m.F", "m.X"]),
    named("a flip-flop that takes the line", f"LOOP: dst=1, flag=3, {HOME}\n", machine([F], "F := F & request"),
          boundary("LOOP", 1, FR), elements=["m.F"], line=1),
    named("the line of the second cycle", f"LOOP: dst=1, CONT\ndst=1, flag=3, {HOME}\n", machine([F], "F := request"),
          boundary("LOOP", 2, FR), elements=["m.F"], line=2),
    named("a carry that is undefined", f"LOOP: dst=1, fun=3, flag=2, {HOME}\n", machine([F], "F := F & ~F"),
          boundary("LOOP", 1, FR), elements=["m.F"], noise=[[0, 0x1000, 0x2000]]),
    named("a carry that is undefined in the nineteenth cycle",
          f"LOOP: dst=1, seq=12, br=16\nSELF: dst=1, seq=9, br=SELF\ndst=1, fun=3, flag=2, {HOME}\n", machine([F]),
          boundary("LOOP", 20, FR), elements=["m.F"], noise=[[0]] * 18 + [[0, 0x1000]]),
    named("an overflow that is undefined is tested", f"LOOP: dst=1, fun=3, seq=3, test=4, br=2\ndst=1, flag=1, {HOME}\n{BACK_HOME}",
          machine([F], "F := ~F"), boundary("LOOP", 2, FR), elements=["m.F"], noise=[[0, 0x1000, 0x2000]]),
    named("a carry that is kept", f"LOOP: src=1, fun=0, dst=3, a=1, b=0, flag=2, {HOME}\n",
          machine([X, Y, F], "F := X + Y < X", "X := X + Y"), boundary("LOOP", 1, XR, YR, FR),
          elements=["m.X", "m.Y", "m.F"]),
    named("a carry that is kept, with a test that is wrong for one pair",
          f"LOOP: src=1, fun=0, dst=3, a=1, b=0, flag=2, {HOME}\n",
          machine([X, Y, F], "F := (X + Y < X) | (X == 7#4) & (Y == 6#4)", "X := X + Y"),
          boundary("LOOP", 1, XR, YR, FR), elements=["m.X", "m.Y", "m.F"]),
    named("where the line is high, an element is", ON_LINE + f"{COUNT_R0}, {HOME}\n",
          machine([X], "if request", "X := X + 1#4", "if X == 12#4", "X := 0#4", "end", "end"), boundary("LOOP", 2, XR),
          elements=["m.X"], line=2),
    named("late where the line is high", f"LOOP: dst=1, seq=3, LINE, br=2\n{BACK_HOME}SPIN: {R0}, seq=3, FZERO, br=SPIN\n{BACK_HOME}",
          machine([X]), boundary("LOOP", 4, XR), elements=["m.X"], line=2),
    named("one of two boundaries, and a step that is only right at the other",
          f"LOOP: {COUNT_R0}, JUMP, br=AWAY\n{BACK_HOME}AWAY: {R0}, seq=3, FZERO, br=LOOP\n{BACK_HOME}", machine([X], "X := X + 1#4"),
          boundary("AWAY", 2, XR, pc=3) + boundary("LOOP", 1, XR), elements=["m.X"]),
    named("a counter that is loaded", f"LOOP: dst=1, seq=9, rld=1, br=LOOP\n{BACK_HOME}", machine(["register C 2"], "C := 0#2"),
          boundary("LOOP", 2, "b.count = zext(m.C, 12)"), elements=["m.C"]),
    named("a counter that is counted down", f"LOOP: dst=1, seq=9, br=LOOP\n{BACK_HOME}", machine(["register C 2"], "C := C - 1#2"),
          boundary("LOOP", 2, "b.count = zext(m.C, 12)"), elements=["m.C"]),
]

MEMORIES = [
    named("a line with a word of the memory", f"LOOP: D0, MEMORY, dst=1, ir=1, {HOME}\n", machine([M], "M := M + 1#2"),
          boundary("LOOP", 1, "b.mar = 1#2", "b.ir = mem[m.M]"), elements=["m.M"], memory=[2, 3]),
    named("a line with a word that is written", f"LOOP: {R0}, write=1, {HOME}\n", machine([M, X], "mem[1#2] := X"),
          boundary("LOOP", 1, "b.mar = 1#2", "b.ir = mem[m.M]", XR), elements=["m.M", "m.X"], memory=[1]),
    named("a write that the step misses", f"LOOP: {R0}, write=1, {HOME}\n", machine([M, X]),
          boundary("LOOP", 1, MR, XR), elements=["m.M", "m.X"], memory=[0]),
    named("a write that the board misses", f"LOOP: {BACK_HOME}", machine([M, X], "mem[M] := X"),
          boundary("LOOP", 1, MR, XR), elements=["m.M", "m.X"], memory=[0]),
    named("a write to another address", f"LOOP: {R0}, write=1, {HOME}\n", machine([M, X], "mem[M & 2#2] := X"),
          boundary("LOOP", 1, MR, XR), elements=["m.M", "m.X"], memory=[0]),
    named("a write of another word", f"LOOP: {R0}, write=1, {HOME}\n", machine([M, X], "mem[M] := X | 4#4"),
          boundary("LOOP", 1, MR, XR), elements=["m.M", "m.X"], memory=[0]),
    named("a write of another word at one address", f"LOOP: {R0}, write=1, {HOME}\n",
          machine([M, X], "mem[M] := (M == 3#2) & (X == 9#4) ? 1#4 : X"), boundary("LOOP", 1, MR, XR),
          elements=["m.M", "m.X"], memory=[0]),
    named("a write that is written over", f"LOOP: {R0}, write=1, CONT\n{R1}, write=1, {HOME}\n", machine([M, X, Y], "mem[M] := Y"),
          boundary("LOOP", 2, MR, XR, YR), elements=["m.M", "m.X", "m.Y"]),
    named("two writes in the other order", f"LOOP: {R0}, write=1, CONT\n{R0_TO_MAR}, CONT\n{R1}, write=1, {HOME}\n",
          machine([M, X, Y], "mem[X[1:0]] := Y", "mem[M] := X", "M := X[1:0]"), boundary("LOOP", 3, MR, XR, YR),
          elements=["m.M", "m.X", "m.Y"]),
    named("two addresses at which the memories differ",
          f"LOOP: {R0}, write=1, CONT\n{R1}, mar=1, CONT\n{R0}, write=1, CONT\n{R2}, mar=1, {HOME}\n",
          machine([X], "mem[1#2] := ~X", "mem[2#2] := ~X"),
          boundary("LOOP", 4, "b.mar = 1#2", XR, "b.r1 = 2#4", "b.r2 = 1#4"), elements=["m.X"]),
    named("a word is moved, and both addresses may be one", MOVED,
          machine([M, N], "mem[N] := mem[M]", "M := N"), boundary("LOOP", 3, MR, "b.r0 = zext(m.N, 4)"),
          elements=["m.M", "m.N"], memory=[0, 2]),
    named("a word is moved the other way", MOVED,
          machine([M, N], "mem[M] := mem[N]", "M := N"), boundary("LOOP", 3, MR, "b.r0 = zext(m.N, 4)"),
          elements=["m.M", "m.N"], memory=[0, 2]),
    named("a word that is put out is one of the memory", f"LOOP: D0, MEMORY, dst=1, out=1, {HOME}\n",
          machine([M, X], "put (M == 1#2) & (X == 4#4) ? mem[~M] : mem[M]"), boundary("LOOP", 1, MR), elements=["m.M", "m.X"], memory=[2]),
    named("a test of a word of the memory", f"LOOP: D0, MEMORY, dst=1, seq=3, FZERO, br=2\n{BACK_HOME}{IR_WRITTEN}",
          machine([M, X], "if mem[M] == 0#4", "mem[M] := X", "else", "if mem[M] == 3#4", "mem[M] := 2#4", "end", "end"),
          boundary("LOOP", 2, MR, "b.ir = m.X"), elements=["m.M", "m.X"], memory=[0]),
    named("a test of a word of the memory that is turned over",
          f"LOOP: D0, MEMORY, dst=1, seq=3, FZERO, turn=1, br=2\n{BACK_HOME}{IR_WRITTEN}",
          machine([M, X], "if mem[M] == 0#4", "mem[M] := X", "end"),
          boundary("LOOP", 2, MR, "b.ir = m.X"), elements=["m.M", "m.X"], memory=[0]),
]

# A job whose words are any.
AT_RANDOM = [random_job(13)]

JOBS = EVENTS + STACKS + LINES + MEMORIES + AT_RANDOM


def of_name(name):
    return next(each for each in JOBS if each[0] == name)


# A job with a budget of paths, and jobs of which no start differs with budgets of nodes.
FEW = [(*of_name("late where the line is high"), 2)]
TIGHT = [(*of_name(name), nodes) for name, budgets in (
    ("the small case", (1, 14)), ("a carry that is kept", (13, 14)), ("a counter that is loaded", (1, 2)))
    for nodes in budgets]

# The texts of counters.
COUNTED = of_name("a word that is taken is put out")[1]
COUNTERS = [
    ("a counter of zeros", COUNTED, "boundary 0\n"),
    ("a counter with lines of each kind", COUNTED, """\
no
difference event 1
boundary 0x0
set b.r1 0x1
set b.r15 0xF
set b.q 0x2
set b.mar 0x3
set b.ir 0x4
set b.flag 0x1
set b.count 0xFFF
set b.stack0 0x5
set b.stack4 0xABC
set m.X 0xA
mem 0x0 0x1
mem 0x2 0xB
mem 0x3 0x4
inputs 0x0 0x1 0x2 0x3 0x4 0x5 0x6 0x7 0x8 0x9 0xA 0xB 0xC 0xD 0xE 0xF
inputs 0x1
line 0x0 0x1
noise 0x3FFF 0x0 0x1
wait 0x1 0x0 0x1
"""),
    ("a counter in another order, with zeros", COUNTED, """\
boundary 0 ; the only one
wait 0 0
noise 0 0x10 0
mem 1 2 0 3
line 1 1 0 1 0 0
set m.X 0
inputs 0 0 0
set b.stack4 1
set b.r2 3
inputs 0 0 0
noise 0 0 0 0 0 0 0 0 0 0 0 0 0 1 0
set b.r1 0b11
line 0 1
wait 1 0b0
mem 0 0o17
"""),
    ("lists of thirty-two and of thirty-three", COUNTED,
     "boundary 0\nline" + " 1" * 32 + "\nnoise" + " 0" * 32 + " 5\ninputs" + " 0" * 40 + "\n"),
]
