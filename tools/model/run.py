"""Runs of a board on numbers, clock by clock.

A clock whose wait bit is 1 and whose word uses memory is a wait: the state stays, and there is no event. Every other
clock makes one cycle, which is that of cycle.py, with the line and the noise of this clock.
"""
from model.cycle import cycle, word_at


def uses_memory(board, word):
    """Whether a microword uses memory: its D source is the memory, whether D is read or not, or it is written."""
    return board.chosen(word, "d").partition("&")[0] == "memory" or board.point(word, "memory_write") == 1


class Run:
    """A run over what is given from outside: where the board stands, how many cycles and clocks there were, how many
    inputs were taken, the events, and the numbers of the clocks that were waits."""

    def __init__(self, board, store, outside, at, state):
        self.board, self.store, self.outside = board, store, outside
        self.at, self.state = at, state
        self.cycles = self.clocks = self.taken = 0
        self.events, self.waits = [], []

    def uses_memory(self):
        """Whether the next cycle does."""
        return uses_memory(self.board, word_at(self.board, self.store, self.at))

    def pass_waits(self):
        """Goes on to the clock that makes the next cycle."""
        while self.outside.entry("wait", self.clocks) and self.uses_memory():
            self.waits.append(self.clocks)
            self.clocks += 1

    def line(self):
        """The line of the clock that makes the next cycle."""
        self.pass_waits()
        return self.outside.entry("line", self.clocks)

    def make_cycle(self):
        """Makes the next cycle, and answers its nets."""
        line = self.line()
        given = self.outside.entry("noise", self.clocks), line, self.outside.entry("inputs", self.taken)
        self.at, self.state, nets = cycle(self.board, self.store, self.at, self.state, *given)
        kind, _, word = nets.rpartition("event=")[2].partition(":")
        if kind != "none":
            self.events.append((kind, int(word, 16)))
        self.taken += kind == "taken"
        self.cycles += 1
        self.clocks += 1
        return nets
