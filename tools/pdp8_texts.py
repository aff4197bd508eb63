#!/usr/bin/env python3
"""Writes the constants of mw_cases from the four texts of examples/pdp8: `pdp8_texts.rt` has those that `pdp8()` gives
but for the microprogram, and `pdp8_micro.rt` this one, as it is and with each of the faults of specs/Faults.antt. Two
of these are files of examples/pdp8, and are written too.

    tools/pdp8_texts.py            writes the files
    tools/pdp8_texts.py --check    says whether they are as they would be written: status 1 if not
    tools/pdp8_texts.py fault N    prints the microprogram with fault N, 1 to 12

tools/rows/pdp8.py --check compares the texts that the rows have, and tools/rows/faults.py those with faults.
"""
import sys
from pathlib import Path

from model.faults import faults

TOP = Path(__file__).resolve().parent.parent
EXAMPLE = TOP / "examples" / "pdp8"
WRITTEN = TOP / "crates" / "mw_cases" / "src"
# A file, its constant, and what it is.
TEXTS = [
    ("board.toml", "BOARD", "The board file"),
    ("machine", "MACHINE", "The described machine"),
    ("relation", "RELATION", "The relation"),
]
# The faults that are files, by their numbers.
SHOWN = {5: "micro-jms", 12: "micro-dca"}
WRITER = "tools/pdp8_texts.py writes this file; with --check it says whether it is due.\n"


def text(file):
    """A file, or the end where a raw literal can't hold it as it is."""
    data = (EXAMPLE / file).read_bytes()
    if not data.isascii() or b"\r" in data or b'"#' in data:
        sys.exit(f"{EXAMPLE / file}: a carriage return, a quotation mark before #, or a byte that isn't ASCII")
    return data.decode()


def constant(file, name, what):
    return f'\n/// {what}.\npub const {name}: &[u8] =\n    br#"{text(file)}"#;\n'


def texts():
    head = f"// The texts of examples/pdp8 but for the microprogram.\n// {WRITER}"
    return head + "".join(constant(*each) for each in TEXTS)


def pieces(micro, found):
    """What stands between the lines that faults change, and these lines, in their order."""
    between, changed = [""], []
    for line in micro.splitlines():
        if any(line in fault.changes for fault in found.values()):
            changed.append(line)
            between.append("\n")
        else:
            between[-1] += f"{line}\n"
    assert len(set(changed)) == len(changed) == len(set().union(*(fault.changes for fault in found.values())))
    return between, changed


def of_lines(name, what, lines):
    """The constant of the microprogram with these lines."""
    literals = ",\n".join(f'    "{line}"' for line in lines)
    return f"\n/// {what}.\npub const {name}: &str = micro!(\n{literals}\n);\n"


def micros():
    micro, found = text("micro"), faults()
    between, lines = pieces(micro, found)
    names = [f"$line_{number}" for number in range(1, len(lines) + 1)]
    out = f"// The microprogram of examples/pdp8, and the same with each fault.\n// {WRITER}"
    out += "\n// The text around the lines that faults change.\nmacro_rules! micro {\n    (\n"
    out += ",\n".join(f"        {name}:literal" for name in names) + "\n    ) => {\n        concat!(\n"
    out += f'            r#"{between[0]}"#,\n'
    for name, after in zip(names, between[1:]):
        out += f'            {name},\n            r#"{after}"#,\n'
    out += "        )\n    };\n}\n"
    out += of_lines("MICRO", "The microprogram", lines)
    for number, fault in found.items():
        instead = [fault.changes.get(line, line) for line in lines]
        out += of_lines(f"FAULT_{number}", f"{fault.what[0].upper()}{fault.what[1:]}", instead)
    return out


def main():
    files = {WRITTEN / "pdp8_texts.rt": texts(), WRITTEN / "pdp8_micro.rt": micros()}
    files |= {EXAMPLE / name: faults()[number].planted(text("micro")) for number, name in SHOWN.items()}
    match sys.argv[1:]:
        case []:
            for path, written in files.items():
                path.write_bytes(written.encode())
        case ["--check"]:
            for path, written in files.items():
                if not path.exists() or path.read_bytes() != written.encode():
                    sys.exit(f"{path.relative_to(TOP)} is not what tools/pdp8_texts.py writes: run it")
        case ["fault", number] if number in map(str, faults()):
            print(faults()[int(number)].planted(text("micro")), end="")
        case _:
            sys.exit(__doc__)


if __name__ == "__main__":
    main()
