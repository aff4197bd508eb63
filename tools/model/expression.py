"""Expressions: their grammar by descent, one function a level; their widths and first faults; and their values on numbers.

The grammar, the rules of widths and the values are stated anew as the manual has them. Refusals are so too: at a token
that can't follow, else the first by place of what is wrong at a token, at one place the least cause.
"""
LEVELS = (("|",), ("^",), ("&",), ("==", "!=", "<"), ("+", "-"))
TRUTHS = ("==", "!=", "<")


class Over:
    """Elements with widths and values, and a memory, from the words of a call."""

    def __init__(self, words):
        self.elements, self.memory, self.address, self.word = {}, {}, 0, 0
        for word in words:
            left, _, value = word.partition("=")
            if left.startswith("mem:"):
                self.address, self.word = map(int, left.split(":")[1:])
            elif ":" in left:
                name, width = left.split(":")
                self.elements[name] = (int(width), int(value or "0", 16))
            else:
                self.memory[int(left[3:], 16)] = int(value, 16)
        self.dotted = any("." in name for name in self.elements)


class Reader:
    """The tree of a line, in which each operation is (what, column of its token, parts, numbers)."""

    def __init__(self, line, over):
        self.line, self.over, self.at = line, over, 0

    def column(self):
        return self.line.tokens[self.at][0] if self.at < len(self.line.tokens) else self.line.end

    def next_is(self, *signs):
        return any(self.line.is_sign(self.at, sign) for sign in signs)

    def refuse(self):
        self.line.refuse(self.column(), 60)

    def take(self, sign):
        if not self.next_is(sign):
            self.refuse()
        self.at += 1

    def token(self, kind):
        if self.line.kind(self.at) != kind:
            self.refuse()
        self.at += 1
        return self.line.tokens[self.at - 1]

    def whole(self):
        tree = self.choice()
        if self.at < len(self.line.tokens):
            self.refuse()
        return tree

    def choice(self):
        condition = self.pairs(0)
        if not self.next_is("?"):
            return condition
        column = self.column()
        self.take("?")
        first = self.choice()
        self.take(":")
        return "?", column, [condition, first, self.choice()], ()

    def pairs(self, level):
        if level == len(LEVELS):
            return self.prefixed()
        tree = self.pairs(level + 1)
        while self.next_is(*LEVELS[level]):
            column, _, sign = self.token("sign")
            tree = sign, column, [tree, self.pairs(level + 1)], ()
        return tree

    def prefixed(self):
        columns = []
        while self.next_is("~"):
            columns.append(self.column())
            self.take("~")
        tree = self.suffixed()
        for column in reversed(columns):
            tree = "~", column, [tree], ()
        return tree

    def suffixed(self):
        tree = self.primary()
        while self.next_is("["):
            column = self.column()
            self.take("[")
            high = low = self.token("number")[2]
            if self.next_is(":"):
                self.take(":")
                low = self.token("number")[2]
            self.take("]")
            tree = "part", column, [tree], (high, low)
        return tree

    def primary(self):
        column = self.column()
        if self.line.kind(self.at) == "number":
            value = self.token("number")[2]
            hash_at = self.column()
            self.take("#")
            return "#", column, [], (value, self.token("number")[2], hash_at)
        if self.next_is("("):
            self.take("(")
            tree = self.choice()
            self.take(")")
            return "()", column, [tree], ()
        if self.next_is("{"):
            return self.join(column)
        return self.named(column)

    def join(self, column):
        self.take("{")
        parts = [self.choice()]
        while len(parts) == 1 or self.next_is(","):
            self.take(",")
            parts.append(self.choice())
        self.take("}")
        return "{}", column, parts, ()

    def named(self, column):
        name = self.line.tokens[self.at][2] if self.line.kind(self.at) == "name" else None
        if name == "mem" and not self.over.address:
            self.refuse()
        self.token("name")
        if name == "zext":
            self.take("(")
            tree = self.choice()
            self.take(",")
            width = self.token("number")[2]
            self.take(")")
            return "zext", column, [tree], (width,)
        if name == "mem":
            self.take("[")
            tree = self.choice()
            self.take("]")
            return "mem", column, [tree], ()
        if self.over.dotted:
            self.take(".")
            name += "." + self.token("name")[2]
        return "element", column, [], (name,)


def judged(tree, over, level, faults):
    """The width that a tree has for what is around it, None where it has none. Its faults are added as (column, cause)."""
    what, column, parts, numbers = tree
    if level == 65:
        faults.append((column, 42))
    widths = [judged(part, over, level + 1, faults) for part in parts]
    width, breaks = None, False
    if what == "element":
        if numbers[0] not in over.elements:
            faults.append((column, 40))
            return None
        return over.elements[numbers[0]][0]
    if what == "#":
        value, width, hash_at = numbers
        if value >= 2**min(width, 128):
            faults.append((column, 3))
        if not 1 <= width <= 32:
            faults.append((hash_at, 41))
            return None
        return width
    if what in ("~", "()"):
        return widths[0]
    if what == "?":
        breaks = widths[0] not in (None, 1) or None not in widths[1:] and widths[1] != widths[2]
        width = widths[1] if widths[0] == 1 and widths[1] == widths[2] else None
    elif what == "part":
        high, low = numbers
        breaks = not low <= high < (widths[0] or 32)
        width = high - low + 1 if widths[0] and not breaks else None
    elif what == "{}":
        width = None if None in widths else sum(widths)
        breaks = width is not None and width > 32
        width = None if breaks else width
    elif what == "zext":
        breaks = not 1 <= numbers[0] <= 32 or (widths[0] or 0) > numbers[0]
        width = numbers[0] if 1 <= numbers[0] <= 32 else None
    elif what == "mem":
        breaks = widths[0] not in (None, over.address)
        width = over.word
    else:
        breaks = None not in widths and widths[0] != widths[1]
        width = 1 if what in TRUTHS else widths[0] if widths[0] == widths[1] else None
    if breaks:
        faults.append((column, 41))
    return width


def valued(tree, over):
    """The width and the value of a tree without faults."""
    what, _, parts, numbers = tree
    found = [valued(part, over) for part in parts]
    if what == "element":
        return over.elements[numbers[0]]
    if what == "#":
        return numbers[1], numbers[0]
    if what == "()":
        return found[0]
    if what == "{}":
        bits = "".join(f"{value:0{width}b}" for width, value in found)
        return len(bits), int(bits, 2)
    width, value = found[0]
    if what == "~":
        return width, 2**width - 1 - value
    if what == "?":
        return found[1] if value else found[2]
    if what == "part":
        bits = f"{value:0{width}b}"[::-1][numbers[1]:numbers[0] + 1][::-1]
        return len(bits), int(bits, 2)
    if what == "zext":
        return numbers[0], value
    if what == "mem":
        return over.word, over.memory.get(value, 0)
    other = found[1][1]
    if what in TRUTHS:
        return 1, int({"==": value == other, "!=": value != other, "<": value < other}[what])
    made = {"|": value | other, "^": value ^ other, "&": value & other, "+": value + other, "-": value - other}[what]
    return width, made % 2**width


def shown(tree):
    """A tree as reports print it."""
    what, _, parts, numbers = tree
    if what == "element":
        return numbers[0]
    if what == "#":
        return f"{numbers[0]}#{numbers[1]}"
    if what == "()":
        return shown(parts[0])
    head = {"part": "[{}:{}]", "zext": "zext {}"}.get(what, what).format(*numbers) if what != "{}" else what
    return f"({' '.join([head] + [shown(part) for part in parts])})"


def parts_of(tree):
    """A tree and all its parts."""
    return [tree] + [part for below in tree[2] for part in parts_of(below)]
