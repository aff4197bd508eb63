"""Board files, which are taken as right: their fields, control points, lists and flip-flops, and microwords by settings.

Of refusals it knows those of a right file that is cut: what is left is no TOML, or lacks a key.
"""
import tomllib

from model.am2901 import DESTINATIONS, FUNCTIONS, SOURCES
from model.am2910 import DEPTH, INSTRUCTIONS
from model.lines import number_of

# The lists, and the points that choose in them.
LISTS = {"carry_in": "carry_in", "condition": "condition", "ram_link": "link", "q_link": "link", "d": "d"}
# The keys that a file has to have, in the order in which they are asked for.
REQUIRED = ("version", "width", "microword", "address", "fill")


def board_elements(width, address, flipflops, depth=DEPTH):
    """The names and the widths of the elements of a board's state, in their order."""
    named = [(f"r{number}", width) for number in range(16)] + [("q", width), ("mar", address), ("ir", width)]
    named += [(name, 1) for name in flipflops] + [("upc", 12), ("count", 12)]
    return named + [(f"stack{number}", 12) for number in range(depth)]


def missing_key(text):
    """Of a right file that is cut the key and the cause of its refusal; None where what is left is right. TOML lets nothing
    be cut but the end of a number, and whatever number `microword` then has, a key behind it is missing."""
    try:
        file = tomllib.loads(text.decode())
    except tomllib.TOMLDecodeError:
        return "- cause 20"
    return next((f"{key} cause 21" for key in REQUIRED if key not in file), None)


def settings_of(text):
    """Settings such as `fun=ADD a=3`."""
    return dict(setting.split("=") for setting in text.split())


class Board:
    """A board file, read."""

    def __init__(self, text):
        file = tomllib.loads(text)
        self.width, self.address, self.microword = file["width"], file["address"], file["microword"]
        self.ones = (1 << self.width) - 1
        self.fill = number_of(file["fill"])
        self.vector = file.get("vector", 0)
        self.depth = file.get("stack", 9) if file["version"] == 2 else DEPTH
        self.map = file.get("map", {"low": 0, "bits": 0, "entries": [0]})
        self.fields = file.get("fields", {})
        self.control = {"ci": 1} | file.get("control", {})
        self.lists = {name: file.get("select", {}).get(name, ["zero"]) for name in LISTS}
        self.flips = file.get("flipflop", [])

    def value(self, word, control):
        """The value of a control, which is a field's name or a constant."""
        if isinstance(control, int):
            return control
        low, width = self.fields[control]
        return word >> low & (1 << width) - 1

    def point(self, word, name):
        return self.value(word, self.control.get(name, 0))

    def entry(self, word, control, entries):
        """The entry that is chosen: entry 0 where the value is past the list."""
        number = self.value(word, control)
        return entries[number] if number < len(entries) else entries[0]

    def chosen(self, word, name):
        return self.entry(word, self.control.get(LISTS[name], 0), self.lists[name])

    def flip(self, name):
        """The number of a flip-flop."""
        return [each["name"] for each in self.flips].index(name)

    def selections(self):
        """Of each list and each flip-flop, the control that chooses and the entries."""
        return [*((self.control.get(point, 0), self.lists[name]) for name, point in LISTS.items()),
                *((each["control"], each["load"]) for each in self.flips)]

    def spellings(self, name):
        """What may be written for the values of a field: mnemonics, or the entries among which it chooses."""
        codes = {"alu_source": [source.replace(" ", "") for source in SOURCES], "alu_function": FUNCTIONS,
                 "alu_destination": list(DESTINATIONS), "sequencer": INSTRUCTIONS}
        lists = [(self.control.get(point), entries) for point, entries in codes.items()] + self.selections()
        return max((entries for control, entries in lists if control == name), key=len, default=[])

    def word(self, settings):
        """The microword of settings such as `fun=ADD a=3`. Fields that overlap have to agree."""
        word, numbers = 0, {}
        for name, value in settings.items():
            spellings = self.spellings(name)
            numbers[name] = spellings.index(value) if value in spellings else int(value, 0)
            word |= numbers[name] << self.fields[name][0]
        assert all(self.value(word, name) == number for name, number in numbers.items()), settings
        return word

    def elements(self):
        """The names and the widths of the elements of its state."""
        return board_elements(self.width, self.address, [each["name"] for each in self.flips], self.depth)
