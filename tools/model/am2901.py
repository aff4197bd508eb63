"""The Am2901 on numbers, at any width: its sources, functions and destinations, and what shifts do.

All of it is the tables of AMD's Am2900 Family Data Book, in the order of the codes. Flags are taken by their meaning: a
sum carries where it has a bit more than the width, and overflows where it is no signed number of the width. So are G and
P of a slice: it generates a carry where it carries out with no carry in, and propagates one where no bit of both addends
is 0.
"""
# R and S.
SOURCES = ["A Q", "A B", "0 Q", "0 B", "0 A", "D A", "D Q", "D 0"]

# What B takes and what Q takes.
DESTINATIONS = {
    "QREG": "- F",
    "NOP": "- -",
    "RAMA": "F -",
    "RAMF": "F -",
    "RAMQD": "F/2 Q/2",
    "RAMD": "F/2 -",
    "RAMQU": "2F 2Q",
    "RAMU": "2F -",
}

# The two words that a sum adds, and F of the other functions; `ones` is the word of ones.
SUMS = {
    "ADD": lambda r, s, ones: (r, s),
    "SUBR": lambda r, s, ones: (ones - r, s),
    "SUBS": lambda r, s, ones: (r, ones - s),
}
OTHERS = {
    "OR": lambda r, s, ones: r | s,
    "AND": lambda r, s, ones: r & s,
    "NOTRS": lambda r, s, ones: (ones - r) & s,
    "EXOR": lambda r, s, ones: r ^ s,
    "EXNOR": lambda r, s, ones: ones - (r ^ s),
}
FUNCTIONS = [*SUMS, *OTHERS]


def signed(width, word):
    return word - (1 << width) if word >> width - 1 else word


def answer(width, function, r, s, carry_in):
    """F, carry and overflow. The last two are None where the function is no sum."""
    ones = (1 << width) - 1
    if function in OTHERS:
        return OTHERS[function](r, s, ones), None, None
    addends = SUMS[function](r, s, ones)
    total = sum(addends) + carry_in
    half = 1 << width - 1
    overflow = not -half <= sum(signed(width, addend) for addend in addends) + carry_in < half
    return total & ones, int(total > ones), int(overflow)


def group(width, function, r, s):
    """G and P, which are 0 where the function is no sum."""
    ones = (1 << width) - 1
    if function in OTHERS:
        return 0, 0
    left, right = SUMS[function](r, s, ones)
    return int(left + right > ones), int(left | right == ones)


def shifted(width, taken, old, f, link):
    """What B or Q takes, by its entry among the destinations: of what it holds and of F, with the bit that is linked in."""
    ones, top = (1 << width) - 1, width - 1
    return {"-": old, "F": f, "F/2": f >> 1 | link << top, "2F": f << 1 & ones | link,
            "Q/2": old >> 1 | link << top, "2Q": old << 1 & ones | link}[taken]
