"""Boolean functions as nodes: decision diagrams whose variables are a bit and a word's number, in their order.

rows/questions.py compares what they cost with the truth tables of cofactors.py; so keep them two.
"""


class OverBudget(Exception):
    """An operation has more joint cofactors than the budget."""


class Nodes:
    """Functions, each once: 0 is never, 1 always; the others have a variable, what is left where it is 0, and where it
    is 1."""

    never, always = 0, 1

    def __init__(self, most):
        self.most, self.parts, self.numbers = most, [((32, 0), 0, 0), ((32, 0), 1, 1)], {}

    def node(self, variable, low, high):
        if low == high:
            return low
        number = self.numbers.setdefault((variable, low, high), len(self.parts))
        if number == len(self.parts):
            self.parts.append((variable, low, high))
        return number

    def variable(self, variable):
        return self.node(variable, 0, 1)

    def fixed(self, f, variable, value):
        return self.parts[f][1 + value] if self.parts[f][0] == variable else f

    def chosen(self, f, g, h, found):
        """What is g where f is 1, and else h. The joint cofactors that are met are put into `found`, with what each
        gives."""
        if f < 2 or g == h:
            return g if f else h
        triple = f, g, h
        if triple not in found:
            variable = min(self.parts[part][0] for part in triple)
            halves = [self.chosen(*(self.fixed(part, variable, value) for part in triple), found) for value in (0, 1)]
            found[triple] = self.node(variable, *halves)
            if len(found) > self.most:
                raise OverBudget
        return found[triple]

    def made(self, f, g, h):
        """The function, and how many joint cofactors its operation has."""
        found = {}
        return self.chosen(f, g, h, found), len(found)

    def first(self, f, value):
        """The bits that are 1 in the first assignment under which a function has this value."""
        ones = []
        while f != value:
            variable, low, high = self.parts[f]
            if low == 1 - value:
                ones.append(variable)
            f = high if low == 1 - value else low
        return ones
