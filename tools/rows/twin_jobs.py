"""The pairs of programs whose twin cases twin_words.py lists: of each the name of its board in case_jobs.py, the texts of the
old and the new program and of what is kept, and what both programs read of a twin start.

The old program stands at address 0 and the new one at 8. The elements that are named are those that a program may read:
words whose source is D and 0 read no register, and words whose destination is NOP write none, so that registers, Q, mar,
ir and the stack matter only where a word names them. PC is fixed at each block, as it is behind a branch to there.
"""
import random

import tools_path
from case_jobs import NAMES
from model.am2910 import INSTRUCTIONS

SHIFT = 8


def pair(name, old, new, keep, **reads):
    """A pair of programs on the choosing board."""
    return name, ("choosing", NAMES + old, f"{NAMES}org {SHIFT}\n{new}", keep), reads


def same(name, words, keep, **reads):
    """A program, and the same one elsewhere."""
    return pair(name, words, words, keep, **reads)


def block(place, bound, *lines, sp=0, at=0):
    """A block at a place, which is so many words behind the first one of both programs."""
    lines = [f"boundary {place} {bound}", f"sp {sp}", f"fixed b.upc {at + 1} {SHIFT + at + 1}", *lines, "end"]
    return "".join(f"{line}\n" for line in lines)


# Words that go on, go back, and test something, by which they go away.
GOES_ON = "dst=1, CONT\n"
BACK = "dst=1, JUMP, br=LOOP\n"
AWAY = f"AWAY: {BACK}"
SPIN = "SPIN: dst=1, JUMP, br=SPIN\n"
ON_LINE = "dst=1, seq=3, LINE, br=AWAY\n"
ON_REGISTER = "src=4, fun=3, a=1, dst=1, seq=3, FZERO, br=AWAY\n"
ON_INPUT = "D0, INPUT, dst=1, seq=3, FZERO, br=AWAY\n"
ON_MEMORY = "D0, MEMORY, dst=1, seq=3, FZERO, br=AWAY\n"
ON_IR0 = "dst=1, seq=3, IR0, br=AWAY\n"
ON_FLAG = "dst=1, seq=3, FLAG, br=AWAY\n"
ON_CARRY = "src=7, fun=3, dst=1, seq=3, CARRY, br=AWAY\n"
WRITES = "D0, IR, dst=1, write=1, CONT\n"


def tested(test):
    """A word that tests something at once, and two that go back."""
    return f"LOOP: {test}{BACK}{AWAY}"


def counted(name):
    """An instruction that looks at R or at the stack, with the line as its test, and the same one with the test turned."""
    code = INSTRUCTIONS.index(name)
    words = [f"LOOP: dst=1, seq={code}, LINE, turn={turn}, br=AWAY\n{BACK}{AWAY}" for turn in (0, 1)]
    keep = block("LOOP", 2, "keep b.count", f"fixed b.stack0 2 {SHIFT + 2}", sp=1)
    return pair(f"{name}, and with its test turned over", *words, keep, elements=["count"], line=1)


PAIRS = [
    pair("one case", f"LOOP: {GOES_ON}{BACK}", f"LOOP: {BACK}", block("LOOP", 2)),
    same("the first line, which is that of both", tested(ON_LINE), block("LOOP", 2), line=1),
    same("the second line, of which each has its own", f"LOOP: {GOES_ON}{ON_LINE}{BACK}{AWAY}", block("LOOP", 3), line=2),
    pair("the first line and the second", tested(ON_LINE), f"LOOP: {GOES_ON}{ON_LINE}{BACK}{AWAY}", block("LOOP", 3), line=2),
    pair("the first line twice", tested(ON_LINE), f"LOOP: dst=1, flag=3, CONT\n{ON_FLAG}{BACK}{AWAY}",
         block("LOOP", 3, "fixed b.flag 0 0"), line=1),
    pair("late old where the line is high", f"LOOP: dst=1, seq=3, LINE, br=SPIN\n{BACK}{SPIN}", tested(ON_LINE),
         block("LOOP", 3), line=1),
    pair("late new where the line is high", tested(ON_LINE), f"LOOP: dst=1, seq=3, LINE, br=SPIN\n{BACK}{SPIN}",
         block("LOOP", 3), line=1),
    pair("late old where a line is high, and late new where another one is",
         f"LOOP: {GOES_ON}dst=1, seq=3, LINE, br=SPIN\n{BACK}{SPIN}",
         f"LOOP: {GOES_ON}dst=1, seq=3, LINE, turn=1, br=SPIN\n{BACK}{SPIN}", block("LOOP", 3), line=2),
    same("late old only", f"LOOP: {GOES_ON}{SPIN}", block("LOOP", 3)),
    pair("late new only", f"LOOP: {BACK}", f"LOOP: {GOES_ON}{SPIN}", block("LOOP", 3)),
    pair("a bound that is one too small for the new one", f"LOOP: {BACK}", f"LOOP: {ON_LINE}{BACK}{GOES_ON * 2}{AWAY}",
         block("LOOP", 2), line=1),
    same("a register that is kept", tested(ON_REGISTER), block("LOOP", 2, "keep b.r1"), elements=["r1"]),
    same("a register that is left", tested(ON_REGISTER), block("LOOP", 2), elements=["r1"]),
    same("a register that is fixed", tested(ON_REGISTER), block("LOOP", 2, "fixed b.r1 0 5"), elements=["r1"]),
    same("an input that both take", tested(ON_INPUT), block("LOOP", 2), inputs=1),
    pair("two inputs and one", f"LOOP: {ON_INPUT}{ON_INPUT}{BACK}{AWAY}", tested(ON_INPUT), block("LOOP", 3), inputs=2),
    pair("the first input and the second", tested(ON_INPUT), f"LOOP: D0, INPUT, dst=1, CONT\n{ON_INPUT}{BACK}{AWAY}",
         block("LOOP", 3), inputs=2),
    same("a word of the memory", tested(ON_MEMORY), block("LOOP", 2, "fixed b.mar 1 1"), memory=[1]),
    same("two words of the memory", tested(ON_MEMORY), block("LOOP", 2, "fixed b.mar 1 2"), memory=[1, 2]),
    # Of addresses only whether they are equal, and of words only whether they are 0, is read: two of them are all.
    same("a word of the memory wherever mar is", tested(ON_MEMORY), block("LOOP", 2), elements=["mar"], memory=[0, 1],
         values={"mar": range(2)}),
    pair("a word that the old one writes before it is read", f"LOOP: {WRITES}{ON_MEMORY}{BACK}{AWAY}", tested(ON_MEMORY),
         block("LOOP", 3, "fixed b.mar 3 3", "keep b.ir"), elements=["ir"], memory=[3]),
    pair("a word that the new one writes before it is read, with its own value", tested(ON_MEMORY),
         f"LOOP: {WRITES}{ON_MEMORY}{BACK}{AWAY}", block("LOOP", 3, "fixed b.mar 3 3"), elements=["ir"], memory=[3]),
    same("undefined carries, each side's own", tested(ON_CARRY), block("LOOP", 2), noise=[[0, 0x1000]]),
    same("a carry that is defined", "LOOP: src=1, fun=0, dst=3, a=1, b=0, seq=3, CARRY, br=AWAY\n" + BACK + AWAY,
         block("LOOP", 2, "keep b.r0", "keep b.r1"), elements=["r0", "r1"]),
    pair("two tests, and the same in the other order", f"LOOP: {ON_IR0}{ON_FLAG}{BACK}{AWAY}",
         f"LOOP: {ON_FLAG}{ON_IR0}{BACK}{AWAY}", block("LOOP", 3, "keep b.ir", "keep b.flag"), elements=["ir", "flag"]),
    pair("a flip-flop that is kept, and one that is turned over first", f"LOOP: {GOES_ON}{ON_FLAG}{BACK}{AWAY}",
         f"LOOP: dst=1, flag=1, CONT\n{ON_FLAG}{BACK}{AWAY}", block("LOOP", 3, "keep b.flag"), elements=["flag"]),
    same("three blocks",
         f"LOOP: dst=1, seq=3, LINE, br=LAST\nNEXT: {BACK}LAST: dst=1, seq=3, FLAG, br=LOOP\ndst=1, JUMP, br=NEXT\n",
         block("LAST", 2, "keep b.flag", at=2) + block("NEXT", 1, at=1) + block("LOOP", 1), elements=["flag"], line=2),
    same("the map over ir", "LOOP: dst=1, seq=2\n" + BACK * 3, block("LOOP", 3, "keep b.ir"), elements=["ir"]),
    same("a push onto a full stack", f"LOOP: dst=1, seq=4, LINE, br=3\ndst=1, seq=3, FULL, br=AWAY\n{BACK}{AWAY}",
         block("LOOP", 3, sp=4), line=1),
    same("a subroutine", f"LOOP: dst=1, seq=1, LINE, br=SUB\n{BACK}SUB: D0, INPUT, dst=1, seq=10, FZERO\n{BACK}",
         block("LOOP", 4), line=1, inputs=1),
    pair("loops that are counted, and late where the counter is great",
         f"LOOP: {GOES_ON}SELF: dst=1, seq=9, br=SELF\n{BACK}", f"LOOP: dst=1, seq=9, br=LATER\nLATER: dst=1, seq=9, br=LATER\n"
         f"{BACK}", block("LOOP", 5, "keep b.count"), elements=["count"]),
    *map(counted, ("RFCT", "LOOP", "TWB")),
]

# What random words test.
TESTS = ["FZERO", "LINE", "LINE", "IR0", "FLAG", "FULL"]


def random_word(at):
    """A word whose test, instruction and branch are any; what it tests is the line, a flip-flop, ir, D or the stack."""
    code = random.choice([*range(16), 3, 3, 1, 10, 14])
    label = {0: "LOOP: ", 3: "HALF: "}.get(at, "")
    branch, load = random.choice(["LOOP", "LOOP", "HALF", "ONE", "TWO"]), random.choice([0, 1, 3])
    label = {1: "ONE: ", 2: "TWO: "}.get(at, label)
    turn, off, rld = random.getrandbits(1), int(random.random() < 0.2), int(random.random() < 0.2)
    return (f"{label}D0, dst=1{random.choice([', IR', ''])}, seq={code}, {random.choice(TESTS)}, br={branch}, flag={load},"
            f" turn={turn}, off={off}, rld={rld}\n")


def random_pair(number):
    """A pair with one or two blocks, whose words are any, and of which two are others."""
    random.seed(number)
    old = list(map(random_word, range(5)))
    new = list(old)
    for at in random.sample(range(5), 2):
        new[at] = random_word(at)
    lines = "keep b.ir", "keep b.flag", "fixed b.count 1 1", f"fixed b.stack0 1 {SHIFT + 1}", f"fixed b.stack1 3 {SHIFT + 3}"
    keep = block("LOOP", 3, *lines, sp=2)
    if random.random() < 0.5:
        keep += block("HALF", 2, *lines, sp=2, at=3)
    return pair(f"a random pair, {number}", "".join(old), "".join(new), keep, elements=["ir", "flag"], line=3)
