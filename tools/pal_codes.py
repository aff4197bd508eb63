#!/usr/bin/env python3
"""The table of words of PDP-8 sources, worked out from the bits of the instruction word, against that of `mw_pal`.

    tools/pal_codes.py --check    says where the definitions or the code of mw_pal differ: status 1 if they do
    tools/pal_codes.py            prints the table: a word and its code, a line each
"""

import itertools
import pathlib
import re
import sys

CRATE = pathlib.Path(__file__).resolve().parent.parent / "crates" / "mw_pal"

# Bits are numbered from the least. Both operate groups have the accumulator's clearing in bit 7.
CLEAR = 1 << 7
GROUP_1 = 0b111 << 9
GROUP_2 = GROUP_1 | 1 << 8
GROUP_3 = GROUP_2 | 1
IO = 0b110 << 9
KEYBOARD, PRINTER = 3, 4

ROTATES = {"rar": 1 << 3, "ral": 1 << 2, "bsw": 1 << 1}
ROTATES |= {"rtr": ROTATES["rar"] | ROTATES["bsw"], "rtl": ROTATES["ral"] | ROTATES["bsw"]}
ANY = {"sma": 1 << 6, "sza": 1 << 5, "snl": 1 << 4}
REVERSED = 1 << 3
ALL = {"spa": ANY["sma"] | REVERSED, "sna": ANY["sza"] | REVERSED, "szl": ANY["snl"] | REVERSED, "skp": REVERSED}


def device(number, function):
    """The code of a function of a device."""
    return IO | number << 3 | function


# The words by the group that they are of, each with its code.
GROUPS = {
    "clear": {"cla": GROUP_1 | CLEAR},
    "first": {"nop": GROUP_1, "cll": GROUP_1 | 1 << 6, "cma": GROUP_1 | 1 << 5, "cml": GROUP_1 | 1 << 4}
    | {"iac": GROUP_1 | 1}
    | {name: GROUP_1 | bits for name, bits in ROTATES.items()},
    "second": {"osr": GROUP_2 | 1 << 2, "hlt": GROUP_2 | 1 << 1}
    | {name: GROUP_2 | bits for name, bits in (ANY | ALL).items()},
    "third": {"mqa": GROUP_3 | 1 << 6, "mql": GROUP_3 | 1 << 4},
    "alone": {"ion": device(0, 1), "iof": device(0, 2)}
    | {name: device(KEYBOARD, function) for name, function in zip(("ksf", "kcc", "krs", "krb"), (1, 2, 4, 6))}
    | {name: device(PRINTER, function) for name, function in zip(("tsf", "tcf", "tpc", "tls"), (1, 2, 4, 6))},
}
CODES = {name: code for words in GROUPS.values() for name, code in words.items()}


def group_of(name):
    """The group of a word."""
    return next(group for group, words in GROUPS.items() if name in words)


def can_join(one, other):
    """Whether two words can stand in one statement."""
    groups = {group_of(one), group_of(other)}
    if "alone" in groups:
        return False
    if "clear" in groups:
        return True
    two_rotates = one in ROTATES and other in ROTATES
    both_kinds = one in ANY and other in ALL or one in ALL and other in ANY
    return len(groups) == 1 and not two_rotates and not both_kinds


def equations(text, function):
    """What a function of the definitions is for each word, as texts."""
    return dict(re.findall(rf"^{function} (\w+) = (.+)$", text, re.MULTILINE))


def joined(text):
    """Whether the definitions let words of two kinds stand together: the first equation that fits."""
    rules = re.findall(r"^joins (\w+) (\w+) = (true|false)$", text, re.MULTILINE)

    def joins(kind, other):
        for left, right, answer in rules:
            if left in (kind, "kind") and right in (other, "other"):
                return answer == "true"
        raise ValueError(f"no rule for {kind} and {other}")

    return joins


def faults():
    """What differs, a text each."""
    definitions = (CRATE / "specs" / "Operations.antt").read_text()
    code = (CRATE / "src" / "operation.rt").read_text()
    spelling = {variant: text[len('codes "'):-1] for variant, text in equations(definitions, "spelling").items()}
    numbers = {spelling[variant]: int(text, 8) for variant, text in equations(definitions, "code_of").items()}
    kinds = {spelling[variant]: kind for variant, kind in equations(definitions, "kind_of").items()}
    written = {
        spelling[variant]: int(text, 8) for variant, text in re.findall(r"Operation::(\w+) => (0o\d+),", code)
        if text != "0o200"
    }
    for name, source in (("definitions", numbers), ("code", written)):
        for word in sorted(CODES.keys() | source.keys()):
            if CODES.get(word) != source.get(word):
                yield f"{word} differs in the {name}"
    joins = joined((CRATE / "specs" / "Joins.antt").read_text())
    for one, other in itertools.product(CODES, repeat=2):
        if joins(kinds[one], kinds[other]) != can_join(one, other):
            yield f"{one} {other} differ"


def main():
    if sys.argv[1:] == ["--check"]:
        differing = list(faults())
        print("".join(f"{fault}\n" for fault in differing), end="")
        return 1 if differing else 0
    for name, code in CODES.items():
        print(f"{name} {code:04o}")
    return 0


if __name__ == "__main__":
    sys.exit(main())
