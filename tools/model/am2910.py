"""The Am2910 and the Am2910A on numbers: their instructions, and what one does to the sequencer.

The table is that of AMD's Am2900 Family Data Book, by mnemonic: for each instruction, where the test fails and where it
passes, the source of the next address, the move of the stack, and the effect on the counter R.
"""
from dataclasses import dataclass, field, replace

# How many words the stack of an Am2910 has.
DEPTH = 5

# By code from 0: mnemonic, where the test fails, where it passes; each is next address, stack, counter. D is what stands at
# the direct input: the map in JMAP, the vector in CJV, else the branch address.
TABLE = {
    "JZ": ("0 CLEAR HOLD", "0 CLEAR HOLD"),
    "CJS": ("PC HOLD HOLD", "D PUSH HOLD"),
    "JMAP": ("D HOLD HOLD", "D HOLD HOLD"),
    "CJP": ("PC HOLD HOLD", "D HOLD HOLD"),
    "PUSH": ("PC PUSH HOLD", "PC PUSH LOAD"),
    "JSRP": ("R PUSH HOLD", "D PUSH HOLD"),
    "CJV": ("PC HOLD HOLD", "D HOLD HOLD"),
    "JRP": ("R HOLD HOLD", "D HOLD HOLD"),
    "RFCT": ("F HOLD DEC", "F HOLD DEC"),
    "RPCT": ("D HOLD DEC", "D HOLD DEC"),
    "CRTN": ("PC HOLD HOLD", "F POP HOLD"),
    "CJPP": ("PC HOLD HOLD", "D POP HOLD"),
    "LDCT": ("PC HOLD LOAD", "PC HOLD LOAD"),
    "LOOP": ("F HOLD HOLD", "PC POP HOLD"),
    "CONT": ("PC HOLD HOLD", "PC HOLD HOLD"),
    "TWB": ("F HOLD DEC", "PC POP DEC"),
}
# The three that look at R, where it is 0.
COUNTED_OUT = {
    "RFCT": ("PC POP HOLD", "PC POP HOLD"),
    "RPCT": ("PC HOLD HOLD", "PC HOLD HOLD"),
    "TWB": ("D POP HOLD", "PC POP HOLD"),
}
INSTRUCTIONS = list(TABLE)
# Those that read the test.
TESTED = [name for name, (failed, passed) in TABLE.items() if failed != passed]


def effect(name, passed, r):
    """Next address, stack and counter."""
    table = COUNTED_OUT if r == 0 and name in COUNTED_OUT else TABLE
    return table[name][passed].split()


def moved(sp, move, depth):
    """The stack pointer behind a move, of a stack of so many words."""
    return {"HOLD": sp, "PUSH": min(sp + 1, depth), "POP": max(sp - 1, 0), "CLEAR": 0}[move]


def pushed_to(sp, depth):
    """The place of the word that a push writes: on a full stack it writes over the top."""
    return min(sp, depth - 1)


@dataclass
class Sequencer:
    """PC, R, the stack pointer and the stack, from its bottom: of five words, or of nine."""
    pc: int = 0
    r: int = 0
    sp: int = 0
    stack: list = field(default_factory=lambda: [0] * DEPTH)

    def stepped(self, name, passed, direct, carry_in=1, load=0, empty=0):
        """The next address, and the sequencer behind the edge. `empty` is what an empty stack reads."""
        source, move, counter = effect(name, passed, self.r)
        top = self.stack[self.sp - 1] if self.sp else empty
        following = {"0": 0, "PC": self.pc, "D": direct, "R": self.r, "F": top}[source]
        stack = list(self.stack)
        if move == "PUSH":
            stack[pushed_to(self.sp, len(stack))] = self.pc
        r = direct if load else {"HOLD": self.r, "LOAD": direct, "DEC": self.r - 1}[counter]
        pc = following + carry_in & 0xFFF
        return following, replace(self, pc=pc, r=r, sp=moved(self.sp, move, len(stack)), stack=stack)

    def shown(self):
        stack = ",".join(f"{word:x}" for word in self.stack)
        return f"pc={self.pc:x} r={self.r:x} sp={self.sp} stack={stack}"
