#!/usr/bin/env python3
"""Reads the texts of machines line by line, to print the rows of `call machine` and to see that they are right.

The format of machines, and first faults, are those of model/description.py.

    machines.py machines              the rows of machines, for crates/mw_callrows/data/machines
    machines.py check FILE..          the rows of `call machine` in these files that give something else
    machines.py give FILE             what the text of this file gives
"""
import sys

import tools_path
from files import counted_lines, read_anew
from model.description import Machine
from model.lines import Refused
from small import SMALL_MACHINE as SMALL


def given(text):
    """What the call gives."""
    try:
        return Machine(text).report()
    except Refused as refused:
        return f"refused {refused}\n"


def report_of(row):
    """What a row of these files gives."""
    return given(row["files"]["text"]) if row.get("call") == "machine" else None


# ---- rows

MACHINES = """\
# Machines: what their texts describe, or their first fault. tools/rows/machines.py prints these rows, and works
# out the answers from the format of machines, without the crates.
"""
HEAD = b"""memory 4 8
register X 8
register A 4
temp T 8
register G 1
step
"""
# Lines before `step`, each behind `memory 4 8`, `register X 8` and `temp T 8`.
DECLARATIONS = [
    "memory 4 4", "register", "register 4", "register Y", "register Y 4 4", "register Y 4#4", "register Y x",
    "temp Y 0", "temp Y 33",
    "temp Y 32", "register Y 0x20", "register Y 1", "register mem 4", "temp zext 4", "register request 1",
    "register X 4", "temp X 4",
    "register T 4", "temp T 4", "temp X 0", "register mem 0", "register step 4", "temp temp 4", "register memory 4",
    "register := 4",
    "registers Y 4", "Register Y 4", "step step", "step ; a note", "X := T", "put X", "+", "3",
    "register Y 340282366920938463463374607431768211456",
    "register Y 1b", "register Y@ 4", "register " + "n" * 64 + " 4", "register " + "n" * 65 + " 4",
    "register " + "n" * 65 + " 0",
    "  temp\tY\t0o10 ; a note", "register Y. 4", "else", "end", "if G",
]
# Lines of statements, behind the head above.
STATEMENTS = [
    # assignments
    "X := T", "X := A", "X := X + A", "X := A + A", "X := Y", "Y := X", "Y := Z", "request := G", "G := request",
    "G := request + G",
    "X := 1#8 + 256#8", "X := 0#0", "X := 1#0", "X := zext(A, 8)", "X := zext(A, 9)", "X := zext(X, 4)",
    "X := {A, A}", "X := {A, A, A, A, A, A, A, A, A}",
    "X := Y ? A : X", "X := G ? X : T", "X := A ? X : T", "X := (X == T)", "X := X[7:0]", "X := X[8]", "G := X[7]",
    "X := X[3:4]", "X := Y[0:1]",
    "mem := X", "zext := X", "put := X", "take := X", "if := X", "else := X", "end := X", "register := X", "step := X",
    "X", "X :=", "X := ", "X = T", "X : T", "X := T T", "X := T := T", "X T", "X.T := T", "X := X.T", "3 := X",
    "+ := X", ":= X", "X := )", "X := (X", "X := X)",
    "X := X +", "X := + X", "X := 3", "X := 3#", "X := #8", "X := {X}", "X := X[", "X := X[3", "X := X[3:",
    "X := X[3:0", "X := mem", "X := mem[", "X := mem[A", "X := zext",
    "X := mem[A]", "X := mem[X]", "X := mem[Y]", "X := mem[mem[A][3:0]]", "G := X < T", "X := ~T",
    "X := " + "~" * 63 + "T", "X := " + "~" * 64 + "T",
    "X := " + "(" * 63 + "T" + ")" * 63, "X := " + "(" * 64 + "T" + ")" * 64, "Y := " + "~" * 64 + "T",
    "A := " + "~" * 64 + "T", "A := " + "~" * 64 + "A",
    "X := " + "n" * 65, "n" * 65 + " := X", "memory 4 8", "register Y 4", "step", "foo", "foo X",
    # writes
    "mem[A] := X", "mem[X] := X", "mem[A] := A", "mem[X] := A", "mem[Y] := X", "mem[A] := Y", "mem[Y] := A",
    "mem[A + X] := X", "mem[X[3:0]] := X", "mem[mem[A][7:4]] := mem[A]",
    "mem[(A] := X", "mem[A)] := X", "mem[] := X", "mem[A := X", "mem[A]] := X", "mem[A] X", "mem[A]", "mem[A] :=",
    "mem[A] = X", "mem", "mem A", "mem[", "mem[A + ] := X",
    "mem[A] + A := X", "mem[A][3:0] := X", "mem[X[3:] := X", "mem[X[3:0] := X", "mem[[A]] := X", "mem[mem[A] := X",
    "mem(A) := X", "mem[request] := X", "mem[A] := X X",
    "mem[" + "~" * 63 + "A] := X", "mem[" + "~" * 64 + "A] := X", "mem[X] := " + "~" * 64 + "A",
    "mem[" + "~" * 64 + "X] := A",
    # put, take, if, else, end
    "put X", "put A", "put Y", "put", "put X X", "put X := X", "put mem[A]", "put ~", "put 1#8 + 256#8", "put {A, A}",
    "take X", "take T", "take A", "take G", "take Y", "take request", "take mem", "take", "take 3", "take X X",
    "take X.T", "take (X)",
    "if G\nend", "if request\nend", "if X\nend", "if Y\nend", "if\nend", "if G\nX := T\nend", "if G\nelse\nend",
    "if G\nX := T\nelse\nT := X\nend", "if G", "if G\nelse", "if G\nif G\nend",
    "if X == T\nput X\nif G\ntake T\nelse\nmem[A] := T\nend\nelse\nif request\nelse\nput T\nend\nend\nput T",
    "else", "end", "else X", "end X", "if G\nelse\nelse\nend", "if G\nend\nend", "if G\nend\nelse",
    "if G\nelse X\nend", "if G\nend X", "if G\nelse\nelse X\nend", "if G\nelse := X\nend",
    "if G\nend := X\nend", "if G else\nend", "if G end", "if G\nX := Y\nend X", "if G\nX := A\nput A\nend", "IF G\nend",
    # two faults
    "X := Y + (A + X)", "X := A + X + Y", "X := Y\nX := A", "X := A\nX := Y", "X := Y\nX T", "X T\nX := Y",
    "X := A )", "put Y )", "if X Y", "X := Y @", "X := Y\n@", "Y := X\nput 9z",
]
TEXTS = [
    ("a text without bytes", b""), ("a line feed alone", b"\n"), ("a comment alone", b"; note"), ("a memory alone",
    b"memory 4 4\n"),
    ("a memory alone, with a carriage return", b"memory 4 4\r\n"), ("a memory and a comment",
    b"memory 4 4 ; note\n"), ("blank lines", b"\n\n  \n; a\n"),
    ("no step", b"memory 4 4\nregister X 4"), ("no statement", b"memory 4 4\nstep"), ("no elements",
    b"\n\r\nmemory 1 4 ; a\nstep\nput 1#4\nif request\nput 2#4\nend\n"),
    ("an element before the memory", b"register X 4\nmemory 4 4\nstep\n"), ("a step before the memory", b"step\n"),
    ("the memory's word first", b"Memory 4 4\n"), ("a number first", b"4 4\n"), ("a memory without a word",
    b"memory 4\n"), ("a memory without sizes", b"memory\n"),
    ("a memory with a third size", b"memory 4 4 4\n"), ("a memory with a name", b"memory X 4\n"),
    ("a memory with another", b"memory 4 W\n"),
    ("addresses of no bits", b"memory 0 4\n"), ("addresses of 17 bits", b"memory 17 4\n"), ("words of 3 bits",
    b"memory 4 3\n"), ("words of 33 bits", b"memory 4 33\n"),
    ("both sizes out of range", b"memory 17 33\n"), ("the widest memory", b"memory 16 32\nstep\n"),
    ("the narrowest memory", b"memory 0x1 0b100\nstep\n"),
    ("an open if", HEAD + b"if G\nput X\n; note"), ("carriage returns", HEAD.replace(b"\n", b"\r\n") + b"put X\r\n"),
    ("a carriage return at the end", HEAD + b"put X\r"),
    ("temporaries before registers",
    b"memory 4 4\ntemp T 4\nregister X 4\ntemp S 4\nregister Y 4\nstep\nT := X\nS := Y\nX := S\nY := T\n"),
    ("registers named as keywords",
    b"memory 4 4\nregister put 4\nregister end 4\ntemp if 1\nstep\nput := end\nput put\nif if\nend := put\nend\n"),
    ("names that differ in case", b"memory 4 4\nregister x 4\nregister X 8\nstep\nX := x\n"),
    ("a line too long", HEAD + b"put X;" + b"x" * 4091 + b"\n"), ("the longest line",
    HEAD + b"put X;" + b"x" * 4090 + b"\n"),
    ("a byte of a later line first", b"memory 4 4 4\n!\n"), ("a number of a later line first",
    b"memory 17 4\nregister 9z 4\n"),
]


def many(count, line):
    return b"".join(line.replace(b"@", b"%d" % number) + b"\n" for number in range(count))


# Texts of limits: a name, and parts of which each is a text and how often it stands.
LIMITS = [
    ("128 registers and 128 temporaries", b"memory 4 4\n" + many(128, b"register r@ 4") + many(128,
    b"temp t@ 4") + b"step\nr0 := t127\n"),
    ("the 129th register", b"memory 4 4\n" + many(129, b"register r@ 4") + b"step\n"),
    ("the 129th temporary", b"memory 4 4\n" + many(129, b"temp t@ 4") + b"step\n"),
    ("the 129th register, a known name of no width", b"memory 4 4\n" + many(128,
    b"register r@ 4") + b"register r0 0\nstep\n"),
    ("an if in 63 others", HEAD + b"if G\n" * 64 + b"end\n" * 64), ("an if in 64 others",
    HEAD + b"if G\n" * 65 + b"end\n" * 65),
    ("an if in 64 others, of another width", HEAD + b"if G\n" * 64 + b"if X\n"),
    ("an if in 64 others, of an unknown name", HEAD + b"if G\n" * 64 + b"if Y\n"),
    ("an if in 64 others and second lists", HEAD + b"if G\nelse\n" * 64 + b"if G\n"),
    ("257 memory reads", HEAD + b"X := mem[A]\n" * 256 + b"X := mem[A]\n"), ("256 memory reads",
    HEAD + b"X := mem[A]\n" * 256 + b"mem[A] := X\n"),
    ("257 memory reads in one line more",
    HEAD + b"X := mem[A] ^ mem[A]\n" * 127 + b"put mem[A]\nmem[mem[A][3:0]] := mem[A]\n"),
    ("257 memory reads, in an address", HEAD + b"X := mem[A] ^ mem[A]\n" * 128 + b"mem[mem[A][3:0]] := mem[A]\n"),
    ("257 memory reads beside an unknown name before", HEAD + b"X := mem[A]\n" * 256 + b"X := Y + mem[A]\n"),
    ("257 memory reads beside an unknown name after", HEAD + b"X := mem[A]\n" * 256 + b"X := mem[A] + Y\n"),
    ("257 memory reads, the inner one unknown", HEAD + b"X := mem[A]\n" * 256 + b"X := mem[Y]\n"),
    ("257 memory reads beside another width", HEAD + b"X := mem[A]\n" * 256 + b"A := mem[A]\n"),
    ("4,096 statements", HEAD + b"put X\n" * 4096), ("4,097 statements", HEAD + b"put X\n" * 4097),
    ("4,097 statements, the last an if", HEAD + b"take X\n" * 4096 + b"if G\nend\n"), ("4,097 statements, in lists",
    HEAD + b"if G\nelse\nend\n" * 4096 + b" X := X\n"),
    ("4,097 statements, the last with other faults", HEAD + b"put X\n" * 4096 + b"Y := Z\n"),
    ("4,097 statements, the last no statement", HEAD + b"put X\n" * 4096 + b"put X X\n"),
    ("4,096 statements and an else", HEAD + b"put X\n" * 4095 + b"if G\nelse\nend\n"),
]


def machine_rows():
    head = b"memory 4 8\nregister X 8\ntemp T 8\n"
    cases = [("the small case", SMALL)] + TEXTS
    cases += [(f"before the statements: {line[:40]}", head + line.encode() + b"\nstep\n") for line in DECLARATIONS]
    cases += [("statements: " + line.replace("\n", " / ")[:40], HEAD + line.encode() + b"\n") for line in STATEMENTS]
    cases += LIMITS
    cases += [(f"the small case cut after {count} bytes", SMALL[:count]) for count in range(len(SMALL))]
    for name, text in cases:
        yield [f"row {name}", "file text"] + counted_lines(text) + ["call machine",
        "gives"] + counted_lines(given(text).encode())


def main():
    sys.setrecursionlimit(100000)
    match sys.argv[1:]:
        case ["machines"]:
            print(MACHINES)
            for row in machine_rows():
                print("\n".join(row) + "\n")
        case ["check", *paths]:
            sys.exit(read_anew(paths, report_of))
        case ["give", path]:
            with open(path, "rb") as file:
                print(given(file.read()), end="")
        case _:
            sys.exit(__doc__)


if __name__ == "__main__":
    main()
