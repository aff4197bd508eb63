"""A PDP-8 on numbers: one instruction, from the instruction set of the PDP-8/E and the profile of docs/manual/pdp8.md.

It reads neither the microprogram nor the description of examples/pdp8, and shares nothing with the other models, by
which these are run: so the two are compared, and it stays apart. Words are numbers below 0o10000, and bits are numbered
as DEC does, bit 0 first.
"""
from dataclasses import dataclass, field

WORDS = 0o10000


def bit(word, number):
    """A bit by DEC's number."""
    return word >> 11 - number & 1


@dataclass
class Machine:
    """A PDP-8 between two instructions, and what it has put out and taken."""
    ac: int = 0
    pc: int = 0
    mq: int = 0
    link: int = 0
    ion: int = 0
    delay: int = 0
    halt: int = 0
    memory: dict = field(default_factory=dict)
    inputs: list = field(default_factory=list)
    # Of the last step: its instruction, where it had one, its events, and the words that it read, as it first read them.
    done: int | None = None
    events: list = field(default_factory=list)
    seen: dict = field(default_factory=dict)

    def read(self, address):
        word = self.memory.get(address, 0)
        self.seen.setdefault(address, word)
        return word

    def write(self, address, word):
        self.memory[address] = word % WORDS

    def put(self, word):
        self.events.append(("out", word))

    def take(self):
        word = self.inputs.pop(0) if self.inputs else 0
        self.events.append(("taken", word))
        return word

    def skip(self, holds):
        self.pc = (self.pc + int(holds)) % WORDS

    def add(self, word):
        """Adds to AC. A carry complements L."""
        total = self.ac + word
        self.ac = total % WORDS
        self.link ^= total >= WORDS

    def step(self, request):
        """One instruction, or the entry of an interrupt, or nothing where the machine has halted."""
        self.done, self.events, self.seen = None, [], {}
        if self.halt:
            return
        if self.ion and request:
            self.write(0, self.pc)
            self.pc, self.ion, self.delay = 1, 0, 0
            return
        self.ion |= self.delay
        self.delay = 0
        here, self.done = self.pc, self.read(self.pc)
        self.pc = (here + 1) % WORDS
        opcode = self.done >> 9
        if opcode < 6:
            self.refer(opcode, self.address(here))
        elif opcode == 6:
            self.transfer()
        else:
            self.operate()

    def address(self, here):
        """The effective address of the instruction at this address."""
        page = here & 0o7600 if bit(self.done, 4) else 0
        address = page | self.done & 0o177
        if bit(self.done, 3):
            if 0o10 <= address <= 0o17:
                self.write(address, self.read(address) + 1)
            address = self.read(address)
        return address

    def refer(self, opcode, address):
        if opcode == 0:                                         # AND
            self.ac &= self.read(address)
        elif opcode == 1:                                       # TAD
            self.add(self.read(address))
        elif opcode == 2:                                       # ISZ
            self.write(address, self.read(address) + 1)
            self.skip(self.read(address) == 0)
        elif opcode == 3:                                       # DCA
            self.write(address, self.ac)
            self.ac = 0
        elif opcode == 4:                                       # JMS
            self.write(address, self.pc)
            self.pc = (address + 1) % WORDS
        else:                                                   # JMP
            self.pc = address

    def transfer(self):
        """IOT."""
        if self.done >> 3 & 0o77:
            self.put(self.done & 0o777)
            self.put(self.ac)
            status, word = self.take(), self.take()
            if bit(status, 1):
                self.ac = 0
            self.ac |= word
            self.skip(bit(status, 0))
        elif self.done == 0o6001:
            self.delay = 1
        elif self.done == 0o6002:
            self.ion = self.delay = 0

    def operate(self):
        """OPR."""
        if not bit(self.done, 3):
            self.group_1()
        elif not bit(self.done, 11):
            self.group_2()
        else:
            self.group_3()

    def group_1(self):
        cla, cll, cma, cml, rar, ral, twice, iac = (bit(self.done, number) for number in range(4, 12))
        if cla:
            self.ac = 0
        if cll:
            self.link = 0
        if cma:
            self.ac ^= 0o7777
        if cml:
            self.link ^= 1
        if iac:
            self.add(1)
        if rar != ral:
            for _ in range(1 + twice):
                self.rotate(right=rar)
        elif twice and not rar:
            self.ac = self.ac % 0o100 * 0o100 + self.ac // 0o100      # BSW

    def rotate(self, right):
        """L and AC as one word of 13 bits, by one place."""
        whole = self.link << 12 | self.ac
        whole = (whole >> 1 | whole << 12) if right else (whole << 1 | whole >> 12)
        self.link, self.ac = whole >> 12 & 1, whole & 0o7777

    def group_2(self):
        cla, sma, sza, snl, reverse, osr, hlt = (bit(self.done, number) for number in range(4, 11))
        chosen = [bit(self.ac, 0)] * sma + [self.ac == 0] * sza + [self.link == 1] * snl
        self.skip(any(chosen) != bool(reverse))
        if cla:
            self.ac = 0
        if osr:
            self.ac |= self.take()
        if hlt:
            self.halt = 1

    def group_3(self):
        cla, mqa, mql = (bit(self.done, number) for number in (4, 5, 7))
        if cla:
            self.ac = 0
        ac, mq = self.ac, self.mq
        if mqa:
            self.ac |= mq
        if mql:
            self.mq, self.ac = ac, mq if mqa else 0
