"""Lines of texts and their tokens, as the manual has them for microprograms, machines, relations, starts and questions.

A refusal has a line, a column and a cause. Signs, numbers and lengths are judged here, and the grammars elsewhere.
"""
BASES = {"0o": 8, "0x": 16, "0b": 2}
PAIRS = (b":=", b"==", b"!=")
SIGNS = b"=:,#+-&|^~()[]{}?<."
LETTERS = b"abcdefghijklmnopqrstuvwxyzABCDEFGHIJKLMNOPQRSTUVWXYZ_"
DIGITS = b"0123456789"


def number_of(text):
    """The value of a number's text."""
    base = BASES.get(text[:2], 10)
    return int(text if base == 10 else text[2:], base)


class Refused(Exception):
    """A cause and its place."""

    def __init__(self, line, column, cause):
        super().__init__(f"line {line} column {column} cause {cause}")


class Line:
    """The tokens of a line: each with its column, its kind and what it is."""

    def __init__(self, number, content):
        self.number = number
        self.end = len(content) + 1
        self.tokens = []
        at = 0
        while at < len(content) and content[at:at + 1] != b";":
            if at > 4096:
                self.refuse(4097, 4)
            c = content[at]
            if c in b" \t":
                at += 1
            elif c in LETTERS or c in DIGITS:
                at = self.word(content, at)
            elif content[at:at + 2] in PAIRS:
                self.tokens.append((at + 1, "sign", content[at:at + 2].decode()))
                at += 2
            elif c in SIGNS:
                self.tokens.append((at + 1, "sign", chr(c)))
                at += 1
            else:
                self.refuse(at + 1, 1)
        if len(content) > 4096:
            self.refuse(4097, 4)

    def word(self, content, at):
        end = at
        while end < len(content) and (content[end] in LETTERS or content[end] in DIGITS):
            end += 1
        word = content[at:end].decode()
        if content[at] in LETTERS:
            self.tokens.append((at + 1, "name", word))
            return end
        base = BASES.get(word[:2], 10)
        digits = word if base == 10 else word[2:]
        allowed = "0123456789abcdefABCDEF"[: base if base < 16 else 22]
        if not digits or any(digit not in allowed for digit in digits):
            self.refuse(at + 1, 2)
        if int(digits, base) >= 2**128:
            self.refuse(at + 1, 3)
        self.tokens.append((at + 1, "number", int(digits, base)))
        return end

    def refuse(self, column, cause):
        raise Refused(self.number, column, cause)

    # What stands at a place; `at` is the number of a token.

    def kind(self, at):
        return self.tokens[at][1] if at < len(self.tokens) else "end"

    def is_sign(self, at, sign):
        return self.kind(at) == "sign" and self.tokens[at][2] == sign


def lines_of(text, line=Line):
    """All lines, also blank ones, each as a line of this class."""
    parts = text.split(b"\n")
    last = parts.pop()
    whole = [part[:-1] if part.endswith(b"\r") else part for part in parts] + ([last] if last else [])
    return [line(number, content) for number, content in enumerate(whole, 1)]
