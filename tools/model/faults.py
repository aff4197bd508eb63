"""The twelve faults of the PDP-8, as crates/mw_cases/specs/Faults.antt has them: lines of its microprogram, and what
stands in their place."""
import re
from pathlib import Path

TOP = Path(__file__).resolve().parent.parent.parent
DEFINED = TOP / "crates" / "mw_cases" / "specs" / "Faults.antt"
# A fault: its number and its words in the comment, and the name and the body of its definition.
FAULT = re.compile(r"-- (\d+): ([^\n]+)\nabbrev pub (\w+) : List Change\n\3 =\n(.*?)∷ \[\]\n", re.DOTALL)
CHANGE = re.compile(r'line = codes "([^"\\]*)";\s*instead = codes "([^"\\]*)"')


class Fault:
    """A fault: what goes wrong, and the changes of the microprogram, each a line and what stands in its place."""

    def __init__(self, what, changes):
        self.what, self.changes = what, dict(changes)

    def planted(self, micro):
        """A microprogram with the fault."""
        return "".join(self.changes.get(line, line) + "\n" for line in micro.splitlines())


def faults():
    """The faults by their numbers."""
    defined = FAULT.findall(DEFINED.read_text())
    found = {int(number): Fault(what, CHANGE.findall(body)) for number, what, _, body in defined}
    assert list(found) == list(range(1, 13)) and all(fault.changes for fault in found.values())
    return found
