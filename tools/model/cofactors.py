"""The bits of words, the operations by which they are made, and the joint cofactors of these, on truth tables.

The rows of the term table are stated anew, once for all kinds of functions: `Bits` makes the bits of the words of
words.py, and counts. A table has a function's values: bit i of a number is its value under assignment i, whose highest
bit is the first variable. Joint cofactors are counted by fixing variables in three tables, one after the other.
nodes.py has functions of another kind, and rows/questions.py compares what they cost with these tables; so keep them
two.
"""
from functools import cache
from typing import NamedTuple


# ---- functions

class Tables:
    """Functions of some variables as the tables of their values."""

    never = 0

    def __init__(self, variables):
        self.variables, self.count = variables, len(variables)
        self.always = 2 ** 2**self.count - 1

    def half(self, place):
        """How far assignments with 1 for a variable are behind those with 0."""
        return 2 ** (self.count - place - 1)

    def column(self, place):
        """The function that a variable is."""
        half = self.half(place)
        return (2**half - 1 << half) * (self.always // (2 ** (2 * half) - 1))

    def chosen(self, f, g, h):
        return f & g | (self.always ^ f) & h

    def fixed(self, table, place, value):
        """A table with a variable fixed."""
        half, column = self.half(place), self.column(place)
        if value:
            return table & column | (table & column) >> half
        rest = table & (self.always ^ column)
        return rest | rest << half

    def cofactors(self, triple):
        """How many joint cofactors three functions have."""
        left, found = {triple}, {triple}
        for place in range(self.count):
            left = {tuple(self.fixed(table, place, value) for table in t) for t in left for value in (0, 1)}
            found |= left
        return sum(f not in (0, self.always) and g != h for f, g, h in found)

    def variable(self, variable):
        return self.column(self.variables.index(variable))

    def made(self, f, g, h):
        """What is g where f holds, and else h; and how many joint cofactors the three have."""
        return self.chosen(f, g, h), self.cofactors((f, g, h))


class Function(NamedTuple):
    """A function: the variables on which it depends, each a bit and a word's number, in their order; and its values from
    the last assignment to the first."""
    variables: tuple
    values: str

    def over(self, variables):
        """Its table over variables among which its own are: it stands twice for each of the others."""
        values, size = self.values, len(self.values)
        for variable in variables:
            if variable in self.variables:
                size //= 2
            else:
                values = "".join(values[at:at + size] * 2 for at in range(0, len(values), size))
        return int(values, 2)

    def at(self, words):
        """Its value where the words have these values, from that of number 1."""
        chosen = "".join(str(words[number - 1] >> place & 1) for place, number in self.variables)
        return int(self.values[-1 - int(chosen or "0", 2)])


def shortened(variables, values):
    """A function by its values over some variables, of which those go on which it doesn't depend."""
    kept, size = [], len(values)
    for variable in variables:
        size //= 2
        halves = [values[at:at + size] for at in range(0, len(values), size)]
        if halves[::2] == halves[1::2]:
            values = "".join(halves[::2])
        else:
            kept.append(variable)
    return Function(tuple(kept), values)


ZERO, ONE = Function((), "0"), Function((), "1")


@cache
def operated(f, g, h):
    """What `ite(f, g, h)` gives, and its joint cofactors."""
    variables = sorted({*f.variables, *g.variables, *h.variables})
    assert len(variables) <= 24, "too many variables for a table"
    tables = Tables(variables)
    triple = tuple(each.over(variables) for each in (f, g, h))
    values = f"{tables.chosen(*triple):0{2 ** len(variables)}b}"
    return shortened(variables, values), tables.cofactors(triple)


class Functions:
    """Functions each over the variables on which it depends."""

    never, always = ZERO, ONE
    made = staticmethod(operated)

    @staticmethod
    def variable(variable):
        return Function((variable,), "10")


# ---- bits

class Bits:
    """The bits of a list's words, made when they are first needed, and the operations by which they are made: of each its
    word, its bit and its joint cofactors. `functions` says what functions are: `never` and `always`, the `variable` of a
    bit and a word, and what is `made` of three by a choice, with its cost. `entries` is the map."""

    def __init__(self, words, functions=Functions, entries=()):
        self.words, self.functions, self.entries = words.words, functions, entries
        self.made, self.operations, self.at = {}, [], None
        self.constants = functions.never, functions.always

    def ite(self, f, g, h):
        made, count = self.functions.made(f, g, h)
        self.operations.append((*self.at, count))
        return made

    def of(self, term):
        """The bits of a term: of what has no bits yet first those of its operands."""
        if term.number is None:
            return [self.constants[term.value >> place & 1] for place in range(term.width)]
        if term.number not in self.made:
            op, operands, numbers = self.words[term.number - 1]
            parts = [self.of(operand) for operand in operands]
            self.made[term.number] = self.row(term, op, parts, numbers)
        return self.made[term.number]

    def row(self, term, op, parts, numbers):
        """The row of the term table."""
        if op == "part":
            return parts[0][numbers[0]:][:numbers[1]]
        if op == "join":
            return parts[1] + parts[0]
        if op in ("sum", "cout", "ovf", "eq", "lt"):
            return self.carried(term.number, op, *parts)
        if op in ("not", "and", "or", "xor", "ite", "tab"):
            return [self.bit_at(term.number, place, op, parts) for place in range(term.width)]
        return [self.functions.variable((place, term.number)) for place in range(term.width)]

    def bit_at(self, number, place, op, parts):
        self.at = number, place
        if op == "tab":
            return self.entry(place, parts[0])
        if op == "ite":
            return self.ite(parts[0][0], parts[1][place], parts[2][place])
        never, always = self.constants
        a, *others = (bits[place] for bits in parts)
        if op == "xor":
            return self.differ(a, *others)
        return self.ite(*{"not": (a, never, always), "and": (a, *others, never), "or": (a, always, *others)}[op])

    def turned(self, f):
        return self.ite(f, *self.constants)

    def differ(self, a, b):
        return self.ite(a, self.turned(b), b)

    def entry(self, place, index):
        left = [self.constants[entry >> place & 1] for entry in self.entries]
        for bit in index:
            left = [self.ite(bit, second, first) for first, second in zip(left[::2], left[1::2])]
        return left[0]

    def carried(self, number, op, left, right, first=None):
        """The rows in which a function goes from each bit to the next."""
        never, always = self.constants
        bits, k = [], first[0] if first else always if op == "eq" else never
        for place, (a, b) in enumerate(zip(left, right)):
            self.at, into = (number, place), k
            if op == "eq":
                k = self.ite(self.ite(a, b, self.turned(b)), k, never)
                continue
            x = self.differ(a, b)
            if op == "sum":
                bits.append(self.ite(x, self.turned(k), k))
            k = self.ite(x, b, k) if op == "lt" else self.ite(x, k, a)
        return bits if op == "sum" else [self.differ(into, k)] if op == "ovf" else [k]


# ---- the operations of a case

class Named(NamedTuple):
    """An operation: the number of decided bits before it, its word and bit, and its joint cofactors."""
    place: int
    word: int
    bit: int
    count: int


class Path:
    """The operations of a case in the order in which they are asked for, and the values that its bits may have. Those of
    its comparison come behind, where it is asked for."""

    def __init__(self, listed, compared):
        self.bits = Bits(listed.words, entries=listed.job.board.map["entries"])
        self.path, self.operations, self.open = ONE, [], []
        for self.place, (term, value) in enumerate(listed.asked):
            ways = self.need(term, *path_words(self.path))
            self.open.append({end for end in (0, 1) if ways[end] != ZERO})
            self.path = ways[value]
        self.place = len(listed.asked)
        for term in listed.compared if compared else []:
            self.need(term, (ZERO, self.path))

    def need(self, term, *ends):
        """What the path words of a term give, behind the operations of its bits. Those of a constant have no cofactor."""
        bit = self.bits.of(term)[0]
        self.bits.at = term.number, 0
        ways = [self.bits.ite(bit, *end) for end in ends]
        self.operations += [Named(self.place, *operation) for operation in self.bits.operations if operation[-1]]
        self.bits.operations = []
        return ways


def path_words(path):
    """What the path words of a bit choose, for 0 and for 1."""
    return (ZERO, path), (path, ZERO)
