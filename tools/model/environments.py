"""Environments: the board's side of a start as `run` and `debug` read it, and what an environment gives.

What a start gives is stated by comparison.py. The format is that of docs/manual/environment.md.
"""
from model.comparison import LISTS, board_state, board_values, completed
from model.description import Outside
from model.lines import lines_of


def list_lines(lists):
    """The lines of lists: sixteen values to a line, without the zeros at the end."""
    for name in LISTS:
        entries = list(lists.get(name, []))
        while entries and entries[-1] == 0:
            entries.pop()
        for at in range(0, len(entries), 16):
            yield " ".join([name, *(f"0x{each:X}" for each in entries[at:at + 16])])


def memory_lines(memory):
    """The lines of the words that aren't 0."""
    return [f"mem 0x{address:X} 0x{word:X}" for address, word in sorted(memory.items()) if word]


def environment(job, start):
    """The environment of a start, line by line: of the elements those that aren't 0, by number."""
    sp = job.blocks[start.boundary][2]
    values = board_values(job, board_state(job, completed(job, start), sp, start.words))
    yield f"at 0x{start.boundary:X}"
    yield from (f"set {name} 0x{value:X}" for name, value in values.items() if value)
    if sp:
        yield f"set b.sp 0x{sp:X}"
    yield from memory_lines(start.words)
    yield from list_lines(start.lists)


class Environment(Outside):
    """An environment without labels and faults: where the board begins, and what is given of elements, memory and lists."""

    def __init__(self, text):
        super().__init__({name: [] for name in LISTS})
        self.values, self.words, self.sp = {}, {}, 0
        for line in lines_of(text):
            tokens = [value for _, _, value in line.tokens]
            match tokens:
                case ["at", place]:
                    self.boundary = place
                case ["set", "b", ".", "sp", value]:
                    self.sp = value
                case ["set", "b", ".", name, value]:
                    self.values[f"b.{name}"] = value
                case ["mem", address, *words]:
                    self.words |= enumerate(words, address)
                case [name, *entries]:
                    self.lists[name] += entries

    def state(self, job):
        """The state of the board."""
        return board_state(job, self.values, self.sp, self.words)
