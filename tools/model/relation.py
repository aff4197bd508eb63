"""Relations of a board and a described machine: what their texts say, line by line, or their first fault.

The format of relations is stated anew as the manual has it.
"""
from model.am2910 import DEPTH
from model.board import board_elements
from model.description import Grammar, mems
from model.expression import Over, judged, parts_of, shown
from model.lines import Refused, lines_of


def elements(width, address, flipflops, registers, depth=DEPTH):
    """The widths of the elements of a relation, by name. The board's stack has `depth` words."""
    board = board_elements(width, address, flipflops, depth)
    return [(f"b.{name}", bits) for name, bits in board] + [(f"m.{name}", bits) for name, bits in registers]


class Relation(Grammar):
    """The boundaries of a text: each a list of an address, a bound, a stack pointer and lines, which are an element and a
    tree each. What it sees of a board and a machine are the widths of both memories, the elements and the labels."""

    def __init__(self, sees, text):
        board_memory, memory, widths, self.labels = sees
        self.over = Over([f"{name}:{bits}" for name, bits in widths] + ["mem:%d:%d" % memory])
        self.depth = sum(name.startswith("b.stack") and bits == 12 for name, bits in widths)
        self.boundaries, self.block = [], None
        lines = lines_of(text)
        if board_memory != memory:
            raise Refused(1, 1, 55)
        for self.line in lines:
            if self.line.tokens:
                self.faults = []
                self.read_line()
                self.judge()
        if self.block is not None:
            raise Refused(lines[-1].number, lines[-1].end, 60)
        if not self.boundaries:
            raise Refused(1, 1, 53)

    def read_line(self):
        word = self.line.tokens[0][2] if self.line.kind(0) == "name" else None
        if self.block is None:
            self.begin(word)
        elif word == "sp" and not self.line.is_sign(1, "."):
            self.point()
        elif word == "end" and not self.line.is_sign(1, "."):
            self.close()
        else:
            self.equate()

    def begin(self, word):
        self.expect(0, word == "boundary")
        self.expect(1, self.line.kind(1) in ("name", "number"))
        column, kind, place = self.line.tokens[1]
        bound = self.token(2, "number")
        self.ends(3)
        self.fault(self.line.tokens[0][0], 14, len(self.boundaries) == 64)
        address = place if kind == "number" else self.labels.get(place)
        self.fault(column, 30, address is None)
        self.fault(column, 33, address is not None and address > 4095)
        self.fault(column, 31, address in [other[0] for other in self.boundaries])
        self.fault(bound[0], 54, not 1 <= bound[2] <= 500)
        self.block = [address, bound[2], None, []]
        self.reads, self.given = 0, []

    def point(self):
        number = self.token(1, "number")
        self.ends(2)
        self.fault(self.line.tokens[0][0], 31, self.block[2] is not None)
        self.fault(number[0], 33, number[2] > self.depth)
        self.block[2] = number[2]

    def equate(self):
        owner = self.token(0, "name")
        self.sign(1, ".")
        name = f"{owner[2]}.{self.token(2, 'name')[2]}"
        sign = self.sign(3, "=")
        tree = self.tree(4)
        self.fault(owner[0], 14, len(self.given) == 256)
        self.fault(owner[0], 40, name not in self.over.elements)
        asked = self.over.elements[name][0] if name in self.over.elements else None
        seen = judged(tree, self.over, 1, self.faults)
        self.fault(sign, 41, asked is not None and seen not in (None, asked))
        for read_at in mems(tree):
            self.reads += 1
            self.fault(read_at, 14, self.reads > 64)
        uses = [(column, number[0]) for what, column, _, number in parts_of(tree) if what == "element"]
        self.given.append(((self.line.number, owner[0]), name, [((self.line.number, at), use) for at, use in uses]))
        self.block[3].append((name, tree))

    def close(self):
        self.ends(1)
        lefts = [name for _, name, _ in self.given]
        found = [(*at, 50) for number, (at, name, _) in enumerate(self.given) if name in lefts[:number]]
        found += [(*at, 51) for _, _, uses in self.given for at, use in uses if use in lefts]
        if found:
            raise Refused(*min(found))
        self.fault(self.line.tokens[0][0], 52, self.block[2] is None)
        self.boundaries.append(self.block)
        self.block = None

    def report(self):
        return "".join(f"boundary {address} {bound}\nsp {sp}\n" + "".join(f"{name} = {shown(tree)}\n" for name, tree in lines) + "end\n"
                       for address, bound, sp, lines in self.boundaries)
