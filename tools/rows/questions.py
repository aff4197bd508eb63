#!/usr/bin/env python3
"""Answers questions, to print the rows of `equal` and to see that they are right.

It states anew the format of questions; expressions are those of model/expression.py, the list of their words that of
model/words.py, and the operations of the words' bits those of model/cofactors.py. Functions are those of model/nodes.py. Questions
of few bits are answered a second time by trying all values, and their operations counted a second time on the truth tables
of model/cofactors.py: so nodes and tables are two, and have to stay so.

    questions.py questions             the rows of questions, for crates/mw_rows/data/questions up to identity-0
    questions.py check FILE..          the rows of `equal` in these files that end otherwise
    questions.py give FILE [NODES]     the report of this file
    questions.py words FILE            the words of this question, and what the operations of their bits cost at most
"""
import sys
from itertools import product

import tools_path
from files import counted_lines, read_anew, right, words_line
from machines import many
from model.cofactors import Bits, Tables
from model.expression import Over, Reader, judged, valued
from model.lines import Refused, lines_of
from model.nodes import Nodes, OverBudget
from model.words import Nodes as Expressions
from model.words import Words

USAGE = "usage: mw_bench COMMAND FILES [--nodes N] [--paths P] [--steps K] [--cycles C] [--parts]\n"
STATUSES = {"yes": 0, "no": 1, "unknown": 2, "usage:": 3, "refused": 4}
BUDGET, MOST = 1_000_000, 16_000_000
# So many bits are few.
FEW = 10


# ---- texts


class Question:
    """The variables of a text with their widths, in file order, and the trees of its two sides."""

    def __init__(self, text):
        self.over, self.sides, self.width = Over([]), [], None
        lines = lines_of(text)
        for line in lines:
            if line.tokens:
                self.read_line(line)
        if len(self.sides) < 2:
            raise Refused(*((lines[-1].number, lines[-1].end) if lines else (1, 1)), 60)

    def read_line(self, line):
        column, kind, word = line.tokens[0]
        faults = []
        if kind == "name" and word == "var" and not self.sides:
            self.read_variable(line, faults)
        elif kind == "name" and word == ["left", "right", None][len(self.sides)]:
            self.read_side(line, faults)
        else:
            line.refuse(column, 60)
        if faults:
            line.refuse(*min(faults))

    def read_variable(self, line, faults):
        for at, kind in enumerate(["name", "name", "number", "end"]):
            if line.kind(at) != kind:
                line.refuse(line.tokens[at][0] if at < len(line.tokens) else line.end, 60)
        _, (column, _, name), (width_at, _, width) = line.tokens
        if len(self.over.elements) == 64:
            faults.append((column, 14))
        if name in self.over.elements or name in ("mem", "zext"):
            faults.append((column, 31))
        if len(name) > 64:
            faults.append((column, 33))
        if not 1 <= width <= 32:
            faults.append((width_at, 33))
        self.over.elements[name] = (width, 0)

    def read_side(self, line, faults):
        reader = Reader(line, self.over)
        reader.at = 1
        tree = reader.whole()
        width = judged(tree, self.over, 1, faults)
        if self.sides and width not in (None, self.width):
            faults.append((line.tokens[0][0], 41))
        self.sides.append(tree)
        self.width = width

    def variables(self):
        """The bits of the variables in their order: by bit, and then by the number of the word."""
        widths = [width for width, _ in self.over.elements.values()]
        return sorted((bit, word) for word, width in enumerate(widths, 1) for bit in range(width))

    def values(self, ones):
        """The values of both sides where these bits are 1 and all others 0."""
        for word, (name, (width, _)) in enumerate(self.over.elements.items(), 1):
            self.over.elements[name] = (width, sum(2**bit for bit, of in ones if of == word))
        return [valued(side, self.over)[1] for side in self.sides]


# ---- words


def words_of(question):
    """The list of a question: its variables, what the left side makes, what the right one makes, and the last word, which
    says whether they are equal."""
    words = Words()
    named = {name: words.fresh("element", number, width)
             for number, (name, (width, _)) in enumerate(question.over.elements.items())}
    expressions = Expressions(words, named, None)
    return words, words.add("eq", *(expressions.nodes(side) for side in question.sides))


def worked(words, last, functions):
    """The bits of a question's words, by functions of some kind."""
    bits = Bits(words, functions)
    bits.of(last)
    return bits


# ---- answers


def differing(question, ones):
    """The lines of an answer no."""
    left, right = question.values(ones)
    assert left != right
    sets = [f"set {name} 0x{value:X}\n" for name, (_, value) in question.over.elements.items() if value]
    return "".join(["no\n"] + sets + [f"left 0x{left:X} right 0x{right:X}\n"])


def tried(question):
    """The answer by trying all values in their order."""
    variables = question.variables()
    for bits in product((0, 1), repeat=len(variables)):
        ones = [variable for variable, bit in zip(variables, bits) if bit]
        left, right = question.values(ones)
        if left != right:
            return differing(question, ones)
    return "yes\n"


def answer(text, nodes=BUDGET):
    """The report on a text."""
    if len(text) > 2**20:
        return "refused q line 0 column 0 cause 5\n"
    try:
        question = Question(text)
    except Refused as refused:
        return f"refused q {refused}\n"
    words, last = words_of(question)
    functions = Nodes(nodes)
    bits = Bits(words, functions)
    try:
        equal = bits.of(last)[0]
    except OverBudget:
        return "unknown word {} bit {}\n".format(*bits.at)
    report = "yes\n" if equal == 1 else differing(question, functions.first(equal, 0))
    variables = question.variables()
    if len(variables) <= FEW:
        assert report == tried(question)
        assert bits.operations == worked(words, last, Tables(variables)).operations
    return report


def answer_words(words, text):
    """The report on the words of a command line behind `equal q`."""
    match words:
        case []:
            return answer(text)
        case ["--nodes", nodes] if nodes.isascii() and nodes.isdigit() and len(nodes) <= 8 and 1 <= int(nodes) <= MOST:
            return answer(text, int(nodes))
    return USAGE


# ---- rows

QUESTIONS = """\
# Questions: whether two expressions agree for all values of their variables, by `equal`. tools/rows/questions.py prints
# the rows up to identity-0, and works out the answers from the formats, without the crates; it reads all rows anew. The
# first seven are worked by hand. The answers of the rows from identity-0 on come from a second implementation, which
# shares no code with either.
"""


def asked(variables, left, right):
    """The text of a question."""
    lines = [f"var {variable}\n" for variable in variables.split(", ") if variable]
    return "".join(lines + [f"left {left}\n", f"right {right}\n"]).encode()


# Worked by hand: name, variables, sides, --nodes, report.
WORKED = [
    # The bits are compared pair by pair, and each difference is 0 under all values.
    ("equal-sum-commutes", "x 8, y 8", "x + y", "y + x", None, "yes\n"),
    # Where bit 0 of x is 0, a sum with 1 and an or with 1 are the same; where it is 1 alone, 2 and 1.
    ("equal-sum-vs-or", "x 8", "x + 1#8", "x | 1#8", None, "no\nset x 0x1\nleft 0x2 right 0x1\n"),
    # Words 1 and 2 are the variables. The first bit of the sum, word 3, is ite(x xor y, not 0, 0): itself, and where x is
    # fixed y and not y, which choose between 1 and 0.
    ("equal-over-budget", "x 8, y 8", "x + y", "y + x", 1, "unknown word 3 bit 0\n"),
    # Each operation has x alone, and so itself.
    ("equal-x-x", "x 1", "x", "x", 1, "yes\n"),
    # ite(y, x, 0), word 4, has itself, and ite(y, 1, 0) where x is 1. No other operation has more than two.
    ("and-commutes-at-2", "x 1, y 1", "x & y", "y & x", 2, "yes\n"),
    ("and-commutes-at-1", "x 1, y 1", "x & y", "y & x", 1, "unknown word 4 bit 0\n"),
    # No operation of the list has more than 3 joint cofactors; that the sides differ, which is none of these, has 6.
    ("whether-sides-differ-at-3", "x 1, z 1, y 4, w 4", "{x, y[3:3]}", "{z, w[3:3]}", 3,
     "no\nset w 0x8\nleft 0x0 right 0x1\n"),
]

# Variables, left side, right side; the answers are worked out.
SIDES = [
    # what replaces what
    ("x 16", "~x + 1#16", "0#16 - x"),
    ("x 16, y 16", "x - y", "x + ~y + 1#16"),
    ("x 16, y 16", "x - y", "~(~x + y)"),
    ("x 16, y 16", "x + y", "(x ^ y) + {(x & y)[14:0], 0#1}"),
    ("x 16, y 16", "x + y", "(x | y) + (x & y)"),
    ("x 12, y 12", "x ^ y", "(x | y) - (x & y)"),
    ("x 12, y 12", "x & y", "~(~x | ~y)"),
    ("x 12, y 12", "x ^ y", "x & ~y | ~x & y"),
    ("x 12, m 12", "x & m | x & ~m", "x"),
    ("x 8", "x + x", "{x[6:0], 0#1}"),
    ("x 8", "x & x - 1#8", "x & (x - 1#8)"),
    ("x 32", "x & 0#32 - x", "x & ~(x - 1#32)"),
    ("x 4", "zext(x, 8) - {0#4, x[3], 0#3} - {0#4, x[3], 0#3}", "x[3] ? {15#4, x} : {0#4, x}"),
    ("x 4", "{x[3], x[3], x[3], x[3], x}", "(zext(x, 8) ^ 8#8) - 8#8"),
    ("x 16, y 16", "x < y", "~((zext(x, 17) + zext(~y, 17) + 1#17)[16])"),
    ("x 16, y 16", "(x + y) < x", "(zext(x, 17) + zext(y, 17))[16]"),
    ("x 8, y 8", "(x + y) < x", "(x + y) < (x & y)"),
    ("x 8, y 8", "x ^ y ^ (x ^ y ^ y)", "y"),
    ("x 8, y 8", "x ^ y ^ y", "x"),
    ("x 8, y 8, c 1", "c ? x : y", "y ^ (x ^ y) & {c, c, c, c, c, c, c, c}"),
    ("x 8, y 8", "x < y ? x : y", "y < x ? y : x"),
    ("x 8, y 8", "x != y", "x < y | y < x"),
    ("x 8, y 8", "x == y", "~(x != y)"),
    ("x 8, y 8", "x == y", "(x ^ y) == 0#8"),
    ("x 8, y 8", "x == y", "x - y < 1#8"),
    ("c 1", "c ? 1#1 : 0#1", "c"),
    ("c 1, d 1", "c + d", "c != d"),
    ("c 1, d 1", "c - d", "c ^ d"),
    ("c 1, d 1", "c < d", "~c & d"),
    ("x 8", "{x[3:0], x[7:4]}", "{x[3:0], 0#4} | zext(x[7:4], 8)"),
    ("x 8", "{x[0], x[7:1]}[6:0]", "x[7:1]"),
    ("x 8", "zext(x, 8)[7:0]", "x"),
    ("x 3", "zext(x[2:2], 32) + zext(x[1:1], 32) + zext(x[0:0], 32)",
     "{0#30, x[2] & x[1] | x[0] & (x[2] ^ x[1]), x[2] ^ x[1] ^ x[0]}"),
    ("a 8, b 8, c 8, d 8", "(a + b) + (c + d)", "(a + d) + (c + b)"),
    ("a 4, b 4, c 4", "a - b - c", "a - (b + c)"),
    ("", "1#4 - 2#4", "0xF#4"),
    ("", "0#1", "0#1"),
    # what doesn't
    ("x 8", "x + x", "{x[6:0], x[7]}"),
    ("x 16", "~x", "0#16 - x"),
    ("x 16, y 16", "x - y", "x + ~y"),
    ("x 16, y 16", "x - y", "y - x"),
    ("x 12, y 12", "x ^ y", "x | y"),
    ("x 12, y 12", "x + y", "x | y"),
    ("a 4, b 4, c 4", "a - b - c", "a - (b - c)"),
    ("x 4", "zext(x, 8)", "{x[3], x[3], x[3], x[3], x}"),
    ("x 16, y 16", "x < y", "(x - y)[15]"),
    ("x 16, y 16", "x < y", "y < x"),
    ("x 16, y 16", "x < y", "~(y < x)"),
    ("x 8, y 8, c 1", "c ? x : y", "c ? y : x"),
    ("x 8, c 1, d 1", "c ? d ? x : ~x : x", "d ? c ? x : ~x : x"),
    ("x 8", "{x[3:0], x[7:4]}", "x"),
    ("x 8", "{x, 1#1}", "{1#1, x}"),
    ("x 8", "x[6:3]", "x[7:4]"),
    ("x 8, y 8", "x == y", "x[6:0] == y[6:0]"),
    ("x 8, y 8", "x != y", "x == y"),
    ("x 32", "x == 0xFFFFFFFF#32", "0#1"),
    ("x 32", "x != 0x80000001#32", "1#1"),
    ("x 32, y 32", "x", "y"),
    ("y 32, x 32", "x", "y"),
    ("x 32", "x", "~x"),
    ("x 32", "x", "x + 0x80000000#32"),
    ("x 8, y 8", "(x | y) & (x | ~y)", "y"),
    ("x 3, y 5, z 2", "zext(x, 5) + y", "y + zext(z, 5)"),
    ("x 2, y 2", "x == 3#2 & y == 2#2", "0#1"),
    ("x 2, y 2", "~(x == y & y[1])", "1#1"),
    ("x 2, unread 8", "x", "x + 2#2"),
    ("", "3#2", "2#2"),
    ("", "0#32", "0xFFFFFFFF#32"),
]

# Variables, left side, right side: of each the least budget under which it is answered, the one below, and some budgets
# where other operations are over. No operation has a constant as its operand, or the same word twice: a rule could spare it.
LADDERS = [
    ("x 1, y 1", "~(x & y)", "~x | ~y"),
    ("x 1, y 1", "x | y", "y | x"),
    ("x 1, y 1", "x ^ y", "y ^ x"),
    ("x 2, y 2", "x + y", "y + x"),
    ("x 2, y 2", "x - y", "~(~x + y)"),
    ("x 3, y 3", "x < y", "~(y < x | x == y)"),
    ("x 3, y 3", "x == y", "~(y < x) & ~(x < y)"),
    ("x 2, y 2", "x != y", "y != x"),
    ("c 1, x 2, y 2", "c ? x : y", "~c ? y : x"),
    ("x 2, y 2, c 1", "c ? x : y", "~c ? y : x"),
    ("x 4, y 4", "{x[1:0] + y[1:0], x[3:2] ^ y[3:2]}", "{x, y}[3:0] ^ x"),
    ("x 6, y 6", "x[2:0] & y[5:3]", "y[5:3] & x[2:0]"),
    ("x 4, y 2", "x + zext(y, 4)", "zext(y, 4) + x"),
    ("x 8, y 8", "x & {y[0], y[1], y[2], y[3], y[4], y[5], y[6], y[7]}",
     "~(~x | ~{y[0], y[1], y[2], y[3], y[4], y[5], y[6], y[7]})"),
    ("a 4, b 4, c 4", "(a + b) + c", "a + (b + c)"),
    ("x 32, y 32", "x + y", "(x | y) + (x & y)"),
    ("x 12, y 12", "{x[0], x[1], x[2], x[3], x[4], x[5], x[6], x[7], x[8], x[9], x[10], x[11]} == y",
     "1#1 ^ ({x[0], x[1], x[2], x[3], x[4], x[5], x[6], x[7], x[8], x[9], x[10], x[11]} != y)"),
]

HEAD = b"var x 8\nvar y 8\nvar c 1\nvar n 4\n"
# Lines in place of the left side of a question over x and y of eight bits, c of one and n of four.
LEFT_LINES = [
    # the line
    "left", "left x y", "left := x", "left x ; y", "left (left)", "right x", "Left x", "var", "var z", "var 8", "var z 8 8",
    "var z 8, w 8", "var z = 8", "var z 0", "var z 33", "var z 32", "var mem 8", "var zext 8", "var request 8", "var x 8",
    "var x 0", "var var 8", "var " + "n" * 64 + " 8", "var " + "n" * 65 + " 8", "var " + "n" * 65 + " 0", "register z 8",
    "memory 4 4", "step", "x", "+", "end",
    # the expression
    "left u", "left request", "left mem", "left mem[n]", "left u + mem[n]", "left zext", "left zext(x)",
    "left zext(x, 8, 8)", "left zext[x, 9]", "left b.x", "left x.y", "left x[8]", "left x[u]", "left n[3:0][3]",
    "left n[3:0][4]", "left 8", "left 256#8", "left 0#0", "left 1#0", "left x ? y : x", "left c ? x : n", "left c ? x",
    "left c ? x ; : y", "left n ? u : x", "left x + n", "left n + (x + y)", "left {x, y, x, y, c}",
    "left {x, y, x, y}[7:0]", "left {x}", "left {x, u}", "left zext(x, 4)", "left zext(x, 33)", "left x < y < c",
    "left x = y", "left ~", "left x ~ y", "left x -- y", "left (x", "left x, y", "left u & (x | n)",
    "left " + "~" * 63 + "x", "left " + "~" * 64 + "x", "left " + "(" * 64 + "x" + ")" * 64, "left " + "~" * 64 + "u",
    "left u & " + "~" * 64 + "x", "left x" + " + y" * 63, "left x" + " + y" * 64,
]
# Lines in place of the right side, where the left one is x.
RIGHT_LINES = [
    "right n", "right x == y", "right u", "right u + n", "right u == n", "right x + n", "right 256#8", "right 256#9",
    "right 1#33", "right zext(n, 4)", "right zext(n, 33)", "right x x", "right n)", "right mem[n]", "right", "left x",
    "var z 8", "right " + "~" * 64 + "x", "right " + "~" * 64 + "n",
]
TEXTS = [
    ("a text without bytes", b""), ("a line feed alone", b"\n"), ("a comment alone", b"; note"),
    ("variables alone", b"var x 8\n"), ("a left side alone", b"var x 8\nleft x ; note\n\n"),
    ("a left side alone, with a carriage return", b"left 1#1\r\n"),
    ("a right side alone", b"right 1#1\n"), ("the right side first", b"right 1#1\nleft 1#1\n"),
    ("two left sides", b"left 1#1\nleft 1#1\nright 1#1\n"), ("two right sides", b"left 1#1\nright 1#1\nright 1#1\n"),
    ("a variable behind the left side", b"left 1#1\nvar x 1\nright 1#1\n"),
    ("a variable behind the right side", b"left 1#1\nright 1#1\nvar x 1\n"),
    ("a fault behind the right side", b"left 1#1\nright 1#1\n@"),
    ("blank lines, blanks and comments", b"\n ; a\n\tvar  x\t8;b\n\r\nleft\tx\n;\xC3\xA4\n  right x ;c"),
    ("no variable", b"left 1#1\nright 1#1"), ("carriage returns", b"var x 8\r\nleft x\r\nright x\r\n"),
    ("a carriage return at the end", b"left 1#1\nright 1#1\r"),
    ("numbers of every base", b"var x 0b100\nleft x + 0o17#0x4\nright x - 0x1#4\n"),
    ("a base in a capital letter", b"var x 0b100\nleft x + 0o17#0x4\nright x - 0X1#4\n"),
    ("names that differ in case", b"var x 4\nvar X 4\nleft x\nright X\n"),
    ("variables called as words of the format",
     b"var left 4\nvar right 4\nvar var 4\nleft left + right + var\nright var + right + left\n"),
    ("a byte of a later line first", b"var x 0\nleft !\nright x\n"),
    ("a number of a later line first", b"var x 0\nleft 0xg#1\nright x\n"),
    ("a width of 2^128", b"var x 340282366920938463463374607431768211456\nleft x\nright x\n"),
    ("a fault in both sides", HEAD + b"left n + x\nright u\n"),
    ("a line that is none behind a fault", HEAD + b"left n + x\nright u u\n"),
    ("64 variables", many(64, b"var v@ 32") + b"left v0 ^ v63\nright v63 ^ v0\n"),
    ("64 variables, the last one alone", many(64, b"var v@ 32") + b"left v0\nright v0 ^ (v63 & 0x80000000#32)\n"),
    ("65 variables", many(65, b"var v@ 1") + b"left v0\nright v0\n"),
    ("65 variables, the last one there already", many(64, b"var v@ 1") + b"var v0 0\nleft v0\nright v0\n"),
    ("65 variables, which are too wide", many(65, b"var v@ 33") + b"left v0\nright v0\n"),
    ("the longest line", b"left 1#1;" + b"x" * 4087 + b"\nright 1#1\n"),
    ("a line too long", b"left 1#1;" + b"x" * 4088 + b"\nright 1#1\n"),
    ("the longest file", b"left 1#1\nright 1#1\n" + b";" * 44 + b"\n" + (b";" * 63 + b"\n") * (2**14 - 1)),
    ("a file too long", b"left 1#1\nright 1#1\n" + b";" * 45 + b"\n" + (b";" * 63 + b"\n") * (2**14 - 1)),
]
# Words behind `equal q`.
OPTIONS = [["--nodes", "0"], ["--nodes", "16000000"], ["--nodes", "16000001"], ["--nodes", "01"], ["--nodes", "1x"],
           ["--nodes"], ["--paths", "1"], ["--parts"], ["--steps", "1"], ["q"]]


def row_of(name, text, words, report):
    given = [f"row {name}", words_line(["equal", "q"] + words), "file q"] + counted_lines(text)
    return given + [f"status {STATUSES[report.split()[0]]}"] + counted_lines(report.encode())


def over_first(costs):
    """Of each budget under which another operation is over first, the greatest; and the least under which none is."""
    rising, most = [], 0
    for _, _, cost in costs:
        if cost > most:
            rising.append(cost - 1)
            most = cost
    return [nodes for nodes in rising if nodes] + [most]


def ladder_rows(variables, left, right):
    text = asked(variables, left, right)
    question = Question(text)
    budgets = over_first(worked(*words_of(question), Nodes(BUDGET)).operations)
    for nodes in sorted(set(budgets[:4] + budgets[-2:])):
        yield f"--nodes {nodes} for {left} and {right}", text, ["--nodes", str(nodes)]


def question_rows():
    for name, variables, left, right, nodes, report in WORKED:
        text, words = asked(variables, left, right), ["--nodes", str(nodes)] if nodes else []
        assert answer_words(words, text) == report
        yield name, text, words
    for variables, left, right in SIDES:
        yield f"{left} and {right}", asked(variables, left, right), []
    for ladder in LADDERS:
        yield from ladder_rows(*ladder)
    for name, text in TEXTS:
        yield name, text, []
    for line in LEFT_LINES:
        yield line, HEAD + line.encode() + b"\nright x\n", []
    for line in RIGHT_LINES:
        yield line + " behind left x", HEAD + b"left x\n" + line.encode() + b"\n", []
    for words in OPTIONS:
        yield "equal q " + " ".join(words), asked("x 1", "x", "x"), words


def name_of(name, taken):
    """A name that isn't taken, and not long."""
    short = name.strip() if len(name) <= 60 else name[:58] + ".."
    taken.append(short)
    return short if taken.count(short) == 1 else f"{short}, {taken.count(short)}"


def report_of(row):
    """What a row of these files gives."""
    return answer_words(row["$"].split()[2:], row["files"]["q"]) if row.get("$", "").startswith("equal q") else None


def ends_right(row, report):
    """Whether a row has this report, and its status."""
    return right(row, report) and int(row.get("begins", row.get("status"))) == STATUSES[report.decode().split()[0]]


def print_words(question):
    """Prints each word with its operands, and what the operations of each of its bits cost at most."""
    words, last = words_of(question)
    bits = worked(words, last, Nodes(MOST))
    for number, (op, operands, _) in enumerate(words.words, 1):
        if op == "sum":
            *operands, carry = operands
            op = "sum and 1" if carry.value else op
        shown = [str(operand.number or f"{operand.value}#{operand.width}") for operand in operands]
        most = {}
        for of, bit, cost in bits.operations:
            if of == number:
                most[bit] = max(cost, most.get(bit, 0))
        width = len(bits.made[number])
        print(number, "var" if op == "element" else op, *shown, "width", width, "costs", *most.values())


def main():
    sys.setrecursionlimit(100000)
    match sys.argv[1:]:
        case ["questions"]:
            print(QUESTIONS)
            taken = []
            for name, text, words in question_rows():
                print("\n".join(row_of(name_of(name, taken), text, words, answer_words(words, text))) + "\n")
        case ["check", *paths]:
            sys.exit(read_anew(paths, report_of, ends_right))
        case ["give", path, *nodes]:
            with open(path, "rb") as file:
                print(answer(file.read(), int(nodes[0]) if nodes else BUDGET), end="")
        case ["words", path]:
            with open(path, "rb") as file:
                print_words(Question(file.read()))
        case _:
            sys.exit(__doc__)


if __name__ == "__main__":
    main()
