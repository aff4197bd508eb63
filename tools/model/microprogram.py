"""Microprograms on a board: the grammar of their lines, and what is assembled of them or their first fault.

The format is stated anew as the manual has it. Board files are taken as right.
"""
from model.lines import Line, Refused, lines_of, number_of

RESERVED = ("equ", "def", "org")


class ProgramLine(Line):
    """A line of a microprogram. `at` is the number of the next token."""

    def expect(self, at, right):
        if not right:
            self.refuse(self.tokens[at][0] if at < len(self.tokens) else self.end, 36)

    def items(self, at):
        """(column, field or set, None or (column, value))."""
        found = []
        while True:
            self.expect(at, self.kind(at) == "name")
            column, _, name = self.tokens[at]
            value = None
            at += 1
            if self.is_sign(at, "="):
                self.expect(at + 1, self.kind(at + 1) in ("name", "number"))
                value = (self.tokens[at + 1][0], self.tokens[at + 1][2])
                at += 2
            found.append((column, name, value))
            if at == len(self.tokens):
                return found
            self.expect(at, self.is_sign(at, ","))
            at += 1

    def is_command(self):
        follows = self.tokens[1][2] if len(self.tokens) > 1 else None
        return self.tokens[0][2] in RESERVED and follows not in (None, "=", ":", ",")

    def parsed(self):
        """equ, def, org or word, and its parts."""
        first = self.tokens[0][2]
        if not self.is_command():
            label = None
            if self.kind(0) == "name" and self.is_sign(1, ":"):
                label = self.tokens[0]
            rest = 2 if label else 0
            found = self.items(rest) if not label or rest < len(self.tokens) else []
            return "word", label, found
        if first == "org":
            self.expect(1, self.kind(1) == "number")
            self.expect(2, self.kind(2) == "end")
            return "org", self.tokens[1], None
        self.expect(1, self.kind(1) == "name")
        self.expect(2, self.is_sign(2, "="))
        if first == "def":
            return "def", self.tokens[1], self.items(3)
        self.expect(3, self.kind(3) == "number")
        self.expect(4, self.kind(4) == "end")
        return "equ", self.tokens[1], self.tokens[3][2]


class Microprogram:
    """The names and the words of a text, by their addresses. `board` is a board file as it is read."""

    def __init__(self, board, text):
        self.fields = {name: tuple(place) for name, place in board.get("fields", {}).items()}
        self.microword = board["microword"]
        self.unset = number_of(board.get("unset", "0"))
        self.equs, self.sets, self.labels, self.words = {}, {}, [], {}
        lines = [line for line in lines_of(text, ProgramLine) if line.tokens]
        at = 0
        word_lines = []
        for line in lines:
            kind, name, rest = line.parsed()
            if kind == "org":
                if name[2] >= 4096:
                    line.refuse(name[0], 33)
                at = name[2]
                continue
            if name:
                self.define(line, name)
            if kind == "equ":
                self.equs[name[2]] = rest
            elif kind == "def":
                self.sets[name[2]] = self.bits(line, rest, self.equs)
            else:
                if name:
                    self.labels.append((name[2], at))
                if rest:
                    if at >= 4096:
                        line.refuse(rest[0][0], 34)
                    if at in self.words:
                        line.refuse(rest[0][0], 35)
                    self.words[at] = None
                    word_lines.append((at, line, rest))
                    at += 1
        for at, line, found in word_lines:
            mask, bits = self.bits(line, found, {**self.equs, **dict(self.labels)})
            self.words[at] = self.unset & ~mask | bits

    def define(self, line, token):
        column, _, name = token
        if name in RESERVED or name in self.equs or name in self.sets or name in dict(self.labels):
            line.refuse(column, 31)
        if len(name) > 64:
            line.refuse(column, 33)

    def bits(self, line, found, values):
        """The bits that items set, and their values."""
        mask = bits = 0
        for column, name, value in found:
            here, set_to = self.item(line, column, name, value, values)
            if (bits ^ set_to) & mask & here:
                line.refuse(column, 32)
            mask |= here
            bits |= set_to
        return mask, bits

    def item(self, line, column, name, value, values):
        known = self.sets if value is None else self.fields
        if name not in known:
            line.refuse(column, 30)
        if value is None:
            return self.sets[name]
        low, width = self.fields[name]
        place, number = value
        if isinstance(number, str):
            if number not in values:
                line.refuse(place, 30)
            number = values[number]
        if number >= 2**width:
            line.refuse(place, 33)
        return (2**width - 1) << low, number << low

    def listing(self):
        digits = -(-self.microword // 4)
        return "".join(
            " ".join([f"{at:03X}", f"{self.words[at]:0{digits}X}"] + [name for name, place in self.labels if place == at]) + "\n"
            for at in sorted(self.words))
