"""Described machines: what their texts say, line by line, or their first fault; and a step of one on numbers.

The format of machines is stated anew as the manual has it. Of a line its grammar is judged first, then the first by place
of what is wrong at a token, at one place the least cause. `Grammar` is what texts of relations and of starts share with it.
"""
from model.expression import Over, Reader, judged, parts_of, shown, valued
from model.lines import Refused, lines_of

RESERVED = ("mem", "zext", "request")
KINDS = ("register", "temp")


def mems(tree):
    """The columns of the memory reads of a tree."""
    return [column for what, column, _, _ in parts_of(tree) if what == "mem"]


class Grammar:
    """What texts of several lines share: the grammar of the line that is read, and the faults that are found in it."""

    line, over, faults = None, None, ()

    # The grammar of a line.

    def expect(self, at, right):
        if not right:
            self.line.refuse(self.line.tokens[at][0] if at < len(self.line.tokens) else self.line.end, 60)

    def token(self, at, kind):
        self.expect(at, self.line.kind(at) == kind)
        return self.line.tokens[at]

    def sign(self, at, sign):
        self.expect(at, self.line.is_sign(at, sign))
        return self.line.tokens[at][0]

    def ends(self, at):
        self.expect(at, at == len(self.line.tokens))

    def tree(self, at, end=None):
        """The expression of the tokens from one on, up to another where one is given."""
        reader = Reader(self.line, self.over)
        reader.at = at
        tree = reader.choice()
        if end is None:
            self.ends(reader.at)
            return tree
        self.expect(reader.at, self.line.is_sign(reader.at, end))
        return tree, reader.at + 1

    # What is wrong with it.

    def judge(self):
        if self.faults:
            self.line.refuse(*min(self.faults))

    def fault(self, column, cause, is_fault):
        if is_fault:
            self.faults.append((column, cause))


class Machine(Grammar):
    """The memory, the elements by their kinds, and the statements of a text: each a kind, its text, its lists
    and its parts."""

    def __init__(self, text):
        self.over = None
        self.elements = {"register": [], "temp": []}
        self.steps, self.count, self.reads = None, 0, 0
        self.blocks = []
        lines = lines_of(text)
        for line in lines:
            if line.tokens:
                self.line, self.faults = line, []
                self.read_line()
        if self.steps is None or self.blocks:
            raise Refused(*((lines[-1].number, lines[-1].end) if lines else (1, 1)), 60)

    def width(self, tree, asked, column):
        seen = judged(tree, self.over, 1, self.faults)
        self.fault(column, 41, asked is not None and seen not in (None, asked))
        for read_at in mems(tree):
            self.reads += 1
            self.fault(read_at, 14, self.reads > 256)

    def target(self, column, name):
        if name not in self.over.elements or name == "request":
            self.faults.append((column, 40))
            return None
        return self.over.elements[name][0]

    # The lines.

    def read_line(self):
        if self.over is None:
            self.memory()
        elif self.steps is None:
            self.declare()
        else:
            self.state()
        self.judge()

    def memory(self):
        self.expect(0, self.line.tokens[0][2] == "memory" and self.line.kind(0) == "name")
        address, word = self.token(1, "number"), self.token(2, "number")
        self.ends(3)
        self.fault(address[0], 33, not 1 <= address[2] <= 16)
        self.fault(word[0], 33, not 4 <= word[2] <= 32)
        self.over = Over([f"mem:{address[2]}:{word[2]}"])

    def declare(self):
        word = self.token(0, "name")[2]
        if word == "step":
            self.ends(1)
            for name, width in self.elements["register"] + self.elements["temp"] + [("request", 1)]:
                self.over.elements[name] = (width, 0)
            self.steps = []
            return
        self.expect(0, word in KINDS)
        name, width = self.token(1, "name"), self.token(2, "number")
        self.ends(3)
        names = [other for kind in KINDS for other, _ in self.elements[kind]]
        self.fault(name[0], 14, len(self.elements[word]) == 128)
        self.fault(name[0], 31, name[2] in names or name[2] in RESERVED)
        self.fault(name[0], 33, len(name[2]) > 64)
        self.fault(width[0], 33, not 1 <= width[2] <= 32)
        self.elements[word].append((name[2], width[2]))

    def state(self):
        first, _, word = self.line.tokens[0]
        if self.line.is_sign(1, ":="):
            word = None
        if word == "else":
            self.expect(0, bool(self.blocks) and not self.blocks[-1][2])
            self.ends(1)
            self.blocks[-1][2] = True
            self.steps = self.blocks[-1][1]["else"]
        elif word == "end":
            self.expect(0, bool(self.blocks))
            self.ends(1)
            self.steps = self.blocks.pop()[0]
        else:
            said = self.statement(word, first)
            self.count += 1
            self.fault(first, 14, self.count > 4096)
            self.judge()
            self.steps.append(said)
            if word == "if":
                self.blocks.append([self.steps, said[2], False])
                self.steps = said[2]["then"]

    def statement(self, word, first):
        if word == "mem":
            self.sign(1, "[")
            address, at = self.tree(2, "]")
            sign = self.sign(at, ":=")
            value = self.tree(at + 1)
            self.width(address, self.over.address, first)
            self.width(value, self.over.word, sign)
            return "write", f"mem[{shown(address)}] := {shown(value)}", None, (address, value)
        if word in ("put", "if"):
            tree = self.tree(1)
            self.width(tree, self.over.word if word == "put" else 1, first)
            self.fault(first, 42, word == "if" and len(self.blocks) == 64)
            return word, f"{word} {shown(tree)}", {"then": [], "else": []}, (tree,)
        if word == "take":
            name = self.token(1, "name")
            self.ends(2)
            self.fault(first, 41, self.target(name[0], name[2]) not in (None, self.over.word))
            return word, f"take {name[2]}", None, (name[2],)
        name = self.token(0, "name")
        sign = self.sign(1, ":=")
        value = self.tree(2)
        self.width(value, self.target(name[0], name[2]), sign)
        return "assign", f"{name[2]} := {shown(value)}", None, (name[2], value)

    # The report.

    def report(self):
        lines = [f"memory {self.over.address} {self.over.word}"]
        for kind in KINDS:
            lines += [f"{kind} {name} {width}" for name, width in self.elements[kind]]
        return "\n".join(lines + ["step"] + shown_steps(self.steps)) + "\n"


def shown_steps(steps):
    lines = []
    for kind, text, lists, _ in steps:
        lines.append(text)
        if kind == "if":
            lines += shown_steps(lists["then"]) + ["else"] + shown_steps(lists["else"]) + ["end"]
    return lines


# ---- a step

class Outside:
    """What comes from outside: lists by their names, whose entries are 0 where they end."""

    def __init__(self, lists):
        self.lists = lists

    def entry(self, name, number):
        entries = self.lists.get(name, [])
        return entries[number] if number < len(entries) else 0


class Described:
    """A step of a machine, from values of its registers by names such as `m.X`."""

    def __init__(self, machine, registers, memory, outside, request):
        self.outside, self.events, self.taken, self.bits = outside, [], 0, []
        self.over = Over([])
        self.over.elements = {name: (width, registers.get(f"m.{name}", 0)) for name, width in machine.elements["register"]}
        self.over.elements |= {name: (width, 0) for name, width in machine.elements["temp"]}
        self.over.elements["request"] = (1, request)
        self.over.memory, self.over.address, self.over.word = memory, machine.over.address, machine.over.word
        self.do(machine.steps)

    def value(self, tree):
        return valued(tree, self.over)[1]

    def put_into(self, name, value):
        self.over.elements[name] = (self.over.elements[name][0], value)

    def do(self, statements):
        for kind, _, lists, parts in statements:
            if kind == "write":
                address, value = map(self.value, parts)
                self.over.memory[address] = value
            elif kind == "put":
                self.events.append(("out", self.value(parts[0])))
            elif kind == "if":
                self.bits.append(self.value(parts[0]))
                self.do(lists["then" if self.bits[-1] else "else"])
            elif kind == "take":
                offered = self.outside.entry("inputs", self.taken)
                self.taken += 1
                self.events.append(("taken", offered))
                self.put_into(parts[0], offered)
            else:
                self.put_into(parts[0], self.value(parts[1]))

    def registers(self):
        return {f"m.{name}": value for name, (_, value) in self.over.elements.items()}
