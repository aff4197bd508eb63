#!/usr/bin/env python3
"""Writes and reads files of rows, as docs/CONTRIBUTING.md has them and the crates mw_rows and mw_callrows run them.

    files.py cases FILE..    the rows of cases that are JSON, one a line: name, words, files, stdout, status. What is a
                             file of several of them is a set. Left out are cases in which a folder stands in a file's
                             place, or words aren't text
    files.py back FILE CASES..   no row: the rows of FILE have the words, the files, the end and the report of these cases
    files.py count FILE..    how many rows these files have

Where the stdout of a case is null, its `lines` are what the report's first lines are; the last one may go on. A file of a
case is a text, bytes in base64, texts that stand so many times each, or the name of a file of the folder `bench` beside
that of the cases.
"""
import json
import re
import sys
from base64 import b64decode
from collections import Counter
from pathlib import Path

ESCAPES = {"n": "\n", "t": "\t", "r": "\r", "\\": "\\"}
# A byte that stands so many times and more is written with a count.
LONG = 100
# Up to so many bytes that stand in turn are written with a count too, where this leaves out so many.
TURN, LEFT_OUT = 40, 60


def spelled(data):
    """Bytes as a spelled text, which an editor shows and keeps."""
    names = {ord(stands): f"\\{name}" for name, stands in ESCAPES.items()}
    text = "".join(names.get(byte) or (chr(byte) if 0x20 <= byte < 0x7F else f"\\x{byte:02X}") for byte in data)
    return text[:-1] + "\\x20" if text.endswith(" ") else text


def unspelled(text):
    """The bytes that a spelled text stands for."""
    chars = re.sub(r"\\(x(..)|.)", lambda found: chr(int(found[2], 16)) if found[2] else ESCAPES[found[1]],
                   text.encode().decode("latin-1"))
    return chars.encode("latin-1")


def line_of(part):
    """A line that ends with a line feed, as it is where an editor keeps it."""
    try:
        text = part.decode()
        plain = text.isprintable() and not text.endswith(" ")
    except UnicodeDecodeError:
        plain = False
    if plain:
        return f"| {text}" if text else "|"
    return "\\ " + spelled(part + b"\n")


def text_lines(data):
    """The lines that spell some bytes."""
    long = re.search(rb"(?s)(.)\1{%d,}" % (LONG - 1), data)
    if long:
        count = f"* {len(long[0])} {spelled(long[1])}"
        return text_lines(data[:long.start()]) + [count] + text_lines(data[long.end():])
    *parts, last = data.split(b"\n")
    return [line_of(part) for part in parts] + (["\\ " + spelled(last)] if last else [])


def stands(lines, size):
    """How often the first lines stand one after another; the last, which may lack its line feed, isn't counted."""
    count = 1
    while (count + 1) * size < len(lines) and lines[count * size:(count + 1) * size] == lines[:size]:
        count += 1
    return count


def counted_lines(text):
    """The lines of a file, where one to three lines that stand often in turn have a count."""
    lines, found = text.split(b"\n"), []
    while lines:
        size, count = max(((size, stands(lines, size)) for size in (1, 2, 3)), key=lambda group: group[0] * group[1])
        if count > 4 and lines[0]:
            group = b"\n".join(lines[:size]).decode().replace("\n", "\\n")
            found.append(f"* {count} {group}\\n")
            lines = lines[size * count:]
        else:
            part = lines[0] + (b"\n" if len(lines) > 1 else b"")
            found += text_lines(part) if part else []
            lines = lines[1:]
    return found


def word(text):
    """A word of a command line, in quotation marks where it needs them."""
    if re.fullmatch(r"[!#-~]+", text):
        return text
    return '"' + spelled(text.encode()).replace('"', "\\x22") + '"'


def words_line(words):
    return " ".join(["$"] + [word(text) for text in words])


def file_lines(name, data):
    return [f"file {name}"] + text_lines(data)


def row_lines(name, given, end, report):
    """A row: its name, its lines up to its end, the end, and the report."""
    return [f"row {name}"] + given + [end] + text_lines(report)


def pieces_of(contents):
    """A file of a case: bytes, and how often they stand."""
    if isinstance(contents, str):
        return [(b64decode(contents[7:]) if contents.startswith("base64:") else contents.encode(), 1)]
    return [(data * times, count) for part, count in contents["repeat"] for data, times in pieces_of(part)]


def contents_of(contents):
    return b"".join(data * times for data, times in pieces_of(contents))


def turned_lines(data):
    """The lines that spell some bytes, where what stands often in turn has a count."""
    for turn in re.finditer(rb"(?s)(.{1,%d}?)\1{3,}" % TURN, data):
        once, count = turn[1], len(turn[0]) // len(turn[1])
        if len(turn[0]) - len(once) >= LEFT_OUT:
            before, behind = data[:turn.start()], data[turn.end():]
            return text_lines(before) + [f"* {count} {spelled(once)}"] + turned_lines(behind)
    return text_lines(data)


def contents_lines(name, contents):
    """The lines of a file of a case."""
    lines = [f"file {name}"]
    for data, times in pieces_of(contents):
        lines += turned_lines(data) if times == 1 else [f"* {times} {spelled(data)}"]
    return lines


def hashed(name, contents):
    """A file of a case as a key: equal ones have the same."""
    return name, json.dumps(contents)


def case_lines(case, sets):
    """The row of a case, where some files are sets: names of sets by file and contents."""
    given = [words_line(case["words"])]
    for file in case["files"].items():
        key = hashed(*file)
        given += [f"with {sets[key]}"] if key in sets else contents_lines(*file)
    if case["stdout"] is None:
        return row_lines(case["name"], given, f"begins {case['status']}", "\n".join(case["lines"]).encode())
    return row_lines(case["name"], given, f"status {case['status']}", case["stdout"].encode())


def sets_of(cases):
    """A name for each file that several cases have."""
    counts = Counter(hashed(*file) for case in cases for file in case["files"].items())
    shared = (file for file, count in counts.items() if count > 1)
    return {file: f"{file[0]} {number}" for number, file in enumerate(shared, 1)}


def with_bench(case, bench):
    """A case whose files are its own."""
    files = {name: (bench / contents["bench"]).read_text() if isinstance(contents, dict) and "bench" in contents else contents
             for name, contents in case["files"].items()}
    return case | {"files": files}


def is_row(case):
    """Whether a row can have the files and the words of a case."""
    texts = all(word.isprintable() or word.isascii() for word in case["words"])
    return texts and None not in case["files"].values()


def cases_of(paths):
    """The cases of files of JSON that rows can have."""
    for path in paths:
        bench = Path(path).resolve().parent.parent / "bench"
        with open(path, encoding="utf-8") as lines:
            yield from (with_bench(case, bench) for case in map(json.loads, lines) if is_row(case))


def print_cases(cases):
    sets = sets_of(cases)
    for (file, text), name in sets.items():
        print("\n".join([f"set {name}"] + contents_lines(file, json.loads(text))) + "\n")
    for case in cases:
        print("\n".join(case_lines(case, sets)) + "\n")


def added(contents, line):
    """What a line of text adds to some contents."""
    mark, _, text = line.partition(" ")
    if mark == "|":
        return contents + text.encode() + b"\n"
    if mark == "*":
        count, _, text = text.partition(" ")
        return contents + int(count) * unspelled(text)
    return contents + unspelled(text)


def changed(contents, keys, lines):
    """A file's contents without the lines under some keys, and with others behind them."""
    kept = [line for line in contents.decode().splitlines()
            if not any(re.match(re.escape(key) + "[ .]", line) for key in keys)]
    return "".join(line + "\n" for line in kept + lines.decode().splitlines()).encode()


def read(path):
    """The rows of a file, each as a dictionary: its name, words, files, end and report."""
    sets, rows, texts, at = {}, [], {}, None
    with open(path, encoding="utf-8") as file:
        lines = file.read().split("\n")
    for line in lines:
        mark, _, rest = line.partition(" ")
        if mark in ("|", "\\", "*"):
            texts[at] = added(texts[at], line)
        elif mark == "set":
            texts = sets[rest] = {}
        elif mark == "row":
            texts = {}
            rows.append({"name": rest, "files": texts, "keys": []})
        elif mark == "with":
            texts.update(sets[rest])
        elif mark == "file":
            texts[rest], at = b"", rest
        elif mark in ("change", "status", "begins", "gives"):
            at = "lines" if mark == "change" else "report"
            texts = rows[-1]
            texts |= {at: b"", mark: rest}
        elif mark == "without":
            rows[-1]["keys"] = rest.split()
        elif mark in ("$", "call"):
            rows[-1][mark] = rest
    for row in rows:
        if "change" in row:
            name = row["change"]
            row["files"][name] = changed(row["files"][name], row["keys"], row["lines"])
    return rows


def check_back(rows, cases):
    """That rows have what these cases have."""
    assert len(rows) == len(cases), (len(rows), len(cases))
    for row, case in zip(rows, cases):
        wanted = {name: contents_of(contents) for name, contents in case["files"].items()}
        assert row["files"] == wanted and row["$"] == words_line(case["words"]).partition(" ")[2], row["name"]
        if case["stdout"] is not None:
            assert row["status"] == str(case["status"]) and row["report"] == case["stdout"].encode(), row["name"]
    print(f"{len(rows)} rows have what their cases have")


def right(row, report):
    return report.startswith(row["report"]) if "begins" in row else report == row["report"]


def read_anew(paths, given, is_right=right):
    """Prints the rows of these files that give something else, and how many were read anew. `given` is what a row gives,
    or None where it isn't looked at. The status is 1 where some give something else."""
    count = unlike = 0
    for path in paths:
        for row in read(path):
            report = given(row)
            if report is None:
                continue
            count += 1
            if not is_right(row, report.encode()):
                unlike += 1
                print(f"{path} {row['name']}: {report}")
    print(f"{count} rows, {unlike} unlike")
    return int(unlike > 0)


def main():
    match sys.argv[1:]:
        case ["cases", *paths]:
            print_cases(list(cases_of(paths)))
        case ["back", path, *paths]:
            check_back(read(path), list(cases_of(paths)))
        case ["count", *paths]:
            for path in paths:
                print(f"{path}: {len(read(path))} rows")
        case _:
            sys.exit(__doc__)


if __name__ == "__main__":
    main()
