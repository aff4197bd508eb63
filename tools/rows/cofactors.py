#!/usr/bin/env python3
"""Works out by truth tables what lines of functions give, to print the rows of `call diagrams` and to see that they are right.

Functions are tables of model/cofactors.py, which counts joint cofactors and knows no nodes.

    cofactors.py cofactors        the rows of functions made in two ways, of sums, and of budgets of many operations, for
                                  crates/mw_callrows/data/cofactors
    cofactors.py check FILE..     the rows of `call diagrams` in these files that give something else
"""
import random
import sys
from itertools import product
from math import prod

import tools_path
from files import read_anew, text_lines
from model.cofactors import Tables

COFACTORS = """\
# Functions of three variables made in two ways, sums of words of eight bits, and the budgets with which operations are
# made: all 4,096 on three functions of two variables, and a thousand on three functions of three; some with budgets up to
# the product of the cofactors of their functions; and some of whose functions one is another or its complement.
# tools/rows/cofactors.py prints these rows, and works out the answers from truth tables, without the crates.
"""
DIGITS = {"0", "1"}
# The greatest budget that a line can name.
MOST_BUDGET = 255


def variables_of(tokens):
    """The variables of a line in their order: by bit, and then by word."""
    named = {tuple(map(int, token.split("."))) for token in tokens if "." in token}
    tables = [token for token in tokens if set(token) <= DIGITS]
    most = max((len(table).bit_length() - 1 for table in tables), default=0)
    return sorted(named | {(0, word) for word in range(most)})


class LineTables(Tables):
    """Tables of the functions of a line."""

    def of_digits(self, digits, word=0):
        if len(digits) == 1:
            return int(digits) * self.always
        middle = len(digits) // 2
        low, high = (self.of_digits(half, word + 1) for half in (digits[:middle], digits[middle:]))
        return self.chosen(self.column(self.variables.index((0, word))), high, low)

    def next_of(self, tokens):
        """The table of the function that comes next."""
        token = next(tokens)
        if token == "?":
            f, g, h = (self.next_of(tokens) for _ in range(3))
            return self.chosen(f, g, h)
        if "." in token:
            return self.column(self.variables.index(tuple(map(int, token.split(".")))))
        return self.of_digits(token)

    def below(self, table):
        """How many functions are left of one where variables are fixed in turn, the constants with them."""
        left = found = {table}
        for place in range(self.count):
            left = {self.fixed(each, place, value) for each in left for value in (0, 1)}
            found = found | left
        return len(found)

    def first(self, table):
        """The numbers of words 0 to 3 under the first assignment where a function holds."""
        number, words = (table & -table).bit_length() - 1, [0] * 4
        for place, (bit, word) in enumerate(self.variables):
            if word < 4 and number & self.half(place):
                words[word] |= 1 << bit
        return words


def given(line):
    """What a line gives."""
    what, *words = line.split()
    budget = int(words.pop(0)) if what == "budgets" else 0
    tables, tokens = LineTables(variables_of(words)), iter(words)
    if what == "first":
        table = tables.next_of(tokens)
        return " ".join(map(str, tables.first(table))) if table else "never"
    if what == "same":
        return "same" if tables.next_of(tokens) == tables.next_of(tokens) else "other"
    cost = tables.cofactors(tuple(tables.next_of(tokens) for _ in range(3)))
    return "".join(str(int(cost <= tried)) for tried in range(budget + 1))


def report(lines):
    return "".join(given(line) + "\n" for line in lines)


def report_of(row):
    """What a row of these files gives."""
    return report(row["files"]["text"].decode().splitlines()) if row.get("call") == "diagrams" else None


def row(name, lines):
    return ([f"row {name}", "file text"] + text_lines("".join(line + "\n" for line in lines).encode())
            + ["call diagrams", "gives"] + text_lines(report(lines).encode()))


# ---- functions made in two ways


def tables_of(count):
    """The digits of all functions of so many variables."""
    return ["".join(digits) for digits in product("01", repeat=2**count)]


def last_first(digits, count):
    """The function of a table of so many variables, whose last is chosen by first."""
    if count == 0:
        return digits
    return f"? 0.{count - 1} {last_first(digits[1::2], count - 1)} {last_first(digits[::2], count - 1)}"


def function_rows():
    tables = tables_of(3)
    for digits in tables_of(2):
        lines = [f"same {table} {last_first(table, 3)}" for table in tables if table.startswith(digits)]
        yield row(f"functions of three variables from {digits} on, the first and the last first", lines)
    lines = [f"same {table} {last_first(other, 3)}" for table, other in zip(tables[::5], tables[1::5])]
    yield row("functions of three variables, and other ones", lines)


# ---- sums


def both(f, g):
    return f"? {f} {g} 0"


def either(f, g):
    return f"? {f} 1 {g}"


def differ(f, g):
    return f"? {f} ? {g} 0 1 {g}"


def complement(f):
    return f"? {f} 0 1"


def sum_bits(left, right, carry="0"):
    """The bits of a sum of two words, and the last carry. Each operand is a list of functions."""
    bits = []
    for f, g in zip(left, right):
        bits.append(differ(carry, differ(f, g)))
        carry = f"? {differ(f, g)} {carry} {f}"
    return bits + [carry]


def sum_rows():
    x, y = ([f"{bit}.{word}" for bit in range(8)] for word in (1, 2))
    halves = [both(f, g) for f, g in zip(x, y)], [either(f, g) for f, g in zip(x, y)]
    apart = [differ(f, g) for f, g in zip(x, y)], ["0"] + halves[0][:-1]
    for name, left, right in [
            ("y + x", sum_bits(x, y), sum_bits(y, x)),
            ("(x & y) + (x | y)", sum_bits(x, y), sum_bits(*halves)),
            ("(x ^ y) + 2 * (x & y)", sum_bits(x, y)[:-1], sum_bits(*apart)[:-1]),
            ("x + y + 1", sum_bits(x, y), sum_bits(x, y, "1")),
            ("x | y", sum_bits(x, y), halves[1]),
            ("x - ~y - 1", sum_bits(x, y), sum_bits(x, [complement(complement(f)) for f in y]))]:
        yield row(f"x + y and {name}, of eight bits", [f"same {f} {g}" for f, g in zip(left, right)])


# ---- budgets


def budget_rows():
    two = tables_of(2)
    for f in two:
        yield row(f"operations that choose by {f}", [f"budgets 4 {f} {g} {h}" for g, h in product(two, two)])
    draw = random.Random(3)
    three = tables_of(3)
    for number in range(10):
        lines = ["budgets 8 " + " ".join(draw.choices(three, k=3)) for _ in range(100)]
        yield row(f"operations on functions of three variables, hundred {number + 1}", lines)


def product_rows():
    """Budgets up to the product of what is left of each function, which an operation can't pass."""
    draw, three, tables = random.Random(5), tables_of(3), LineTables([(0, word) for word in range(3)])
    for number in range(4):
        lines = []
        while len(lines) < 25:
            digits = draw.choices(three, k=3)
            most = prod(tables.below(tables.of_digits(each)) for each in digits)
            if most <= MOST_BUDGET:
                lines += [f"budgets {tried} " + " ".join(digits) for tried in (most, most - 1)]
        yield row(f"operations up to the product of their functions' cofactors, {number + 1}", lines)


def told_rows():
    """Budgets of operations of whose functions one is another, or its complement."""
    draw, three = random.Random(7), tables_of(3)
    for name, triple in [
            ("the third is the complement of the second", lambda f, g: (f, g, complement(g))),
            ("the second is the complement of the third", lambda f, g: (f, complement(g), g)),
            ("the second is the complement of the first", lambda f, g: (f, complement(f), g)),
            ("the third is the complement of the first", lambda f, g: (complement(f), g, f)),
            ("the second is the first", lambda f, g: (f, f, g)),
            ("the third is the first", lambda f, g: (f, g, f))]:
        lines = ["budgets 12 " + " ".join(triple(*draw.choices(three, k=2))) for _ in range(20)]
        yield row(f"operations on functions of three variables, where {name}", lines)


def main():
    match sys.argv[1:]:
        case ["cofactors"]:
            print(COFACTORS)
            for lines in [*function_rows(), *sum_rows(), *budget_rows(), *product_rows(), *told_rows()]:
                print("\n".join(lines) + "\n")
        case ["check", *paths]:
            sys.exit(read_anew(paths, report_of))
        case _:
            sys.exit(__doc__)


if __name__ == "__main__":
    main()
