#!/usr/bin/env python3
"""Writes docs/DEFINITIONS.md, the table of definitions, from the comments that stand above them in specs/.

    tools/definitions.py            writes the page
    tools/definitions.py --check    says whether the page is as it would be written: status 1 if not

A definition without a comment of its own ends either with status 1.
"""

import pathlib
import re
import sys
import textwrap

TOP = pathlib.Path(__file__).resolve().parent.parent
PAGE = TOP / "docs" / "DEFINITIONS.md"
COMMENT = re.compile(r"( *)-- (?!-{2,} )(.*)")
DEFINITION = re.compile(r"( *)(?:unfoldable |abbrev )?pub (?!use )(?:data |record )?(\S+)")
MUTUAL = re.compile(r"(?:unfoldable |abbrev )?mutual$")
# What may stand between a comment and its definition.
BETWEEN = re.compile(r"infix|(?:unfoldable |abbrev )?mutual$")
# How far the definitions of a `mutual` block stand in.
INDENT = "  "
WIDTH = 118
INTRODUCTION = """\
# The definitions

What the contracts cite, crate by crate from the lowest up, and module by module. [PROVED.md](PROVED.md) says what is
proved with them. `tools/definitions.py` makes this page from the comments that stand above the definitions in
`specs/`.
"""


def crates():
    """The crates in the order of crates.txt, lowest first."""
    for line in (TOP / "crates.txt").read_text().splitlines():
        name = line.split("#")[0].split(":")[0].strip()
        if name:
            yield name.split()[0]


def definitions(path):
    """The comment at the head of a module, and of each definition its line, its name and the comment above it."""
    head, comment, rows, indent = None, [], [], ""
    for number, line in enumerate(path.read_text().splitlines(), 1):
        if MUTUAL.match(line):
            indent = INDENT
        elif line.strip() and not line.startswith(" ") and not COMMENT.match(line):
            indent = ""
        if (match := COMMENT.match(line)) and match.group(1) in ("", indent):
            comment.append(match.group(2).strip())
            continue
        if head is None:
            head, comment = " ".join(comment), []
        if (match := DEFINITION.match(line)) and match.group(1) == indent and match.group(2) != "mod":
            rows.append((number, match.group(2), " ".join(comment)))
        if not BETWEEN.match(line):
            comment = []
    return head or "", rows


def cell(text):
    return text.replace("|", "\\|")


def paragraph(text):
    return textwrap.fill(text, WIDTH, break_long_words=False, break_on_hyphens=False)


def modules(crate):
    """The modules of a crate that have definitions: path, name, head and definitions."""
    specs = TOP / "crates" / crate / "specs"
    for path in sorted(specs.rglob("*.antt")):
        head, rows = definitions(path)
        if rows:
            yield path, path.relative_to(specs).with_suffix("").as_posix(), head, rows


def page():
    """The page, and the places of the definitions without a comment."""
    parts, bare = [INTRODUCTION], []
    for crate in crates():
        for number, (path, module, head, rows) in enumerate(modules(crate)):
            if number == 0:
                parts.append(f"\n## `{crate}`\n")
            parts.append(f"\n{paragraph(f'**`specs/{module}`**. {head}')}\n\n| Definition | Says |\n|---|---|\n")
            for line, name, text in rows:
                parts.append(f"| `{name}` | {cell(text)} |\n")
                if not text:
                    bare.append(f"{path.relative_to(TOP)}:{line}: {name}")
    return "".join(parts), bare


def main():
    if sys.argv[1:] not in ([], ["--check"]):
        sys.exit(__doc__)
    wanted, bare = page()
    if bare:
        sys.exit("\n".join(["These definitions have no comment:", *bare]))
    if not sys.argv[1:]:
        PAGE.write_text(wanted)
    elif not PAGE.exists() or PAGE.read_text() != wanted:
        sys.exit(f"{PAGE}: it is not the table of the definitions in specs/; run tools/definitions.py")


if __name__ == "__main__":
    main()
