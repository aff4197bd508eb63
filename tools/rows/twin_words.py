#!/usr/bin/env python3
"""Checks the words of twin cases: of an old and a new program on one board, and a KEEP text, at random. It prints such
words as rows, and the cases of blocks.

Both are stated anew by model/twins.py. Of each case that random twin starts lead into there is a list of words. Under the
assignment of each of its twin starts the bits that are asked for have their decided values, nothing is compared exactly
where all twin starts of the case differ, and the words of comparisons say where both runs differ on numbers. Which cases
a block has is worked out from all its twin starts; twin_jobs.py has these pairs of programs.

    twin_words.py words      the rows of `call twin-words`, for crates/mw_callrows/data/twin-words
    twin_words.py cases      the rows of `call twin-cases`, for crates/mw_callrows/data/twin-cases
    twin_words.py --check    no row: that it is so, and that a worked case has the numbers that are spelled here
    twin_words.py --starts   no row: twin starts in which everything is random have no other cases than those of the rows
"""
import random
import sys
import tomllib
from itertools import product

import tools_path
from case_jobs import BOARDS as CASE_BOARDS
from cycle_cases import BOARDS
from cycles import random_word
from files import file_lines, row_lines
from keeps import Keep
from model.board import Board
from model.cases import bits_text, in_order
from model.cycle import State
from model.description import Outside
from model.microprogram import Microprogram
from model.twins import KINDS, NEW, OLD, SIDES, Block, Revision, Segments, Twins, TwinWords
from model.words import Values
from twin_jobs import PAIRS, random_pair

REVISIONS, STARTS = 100, 24
# A board on which everything is small, and where each cycle may take and put out words, write and test.
SMALL = """\
version = 1
width = 4
microword = 44
address = 3
fill = "0x0"
flipflop = [{ name = "c", control = "ff", load = ["hold", "carry", "xor_carry", "invert"] }]
[fields]
src = [0, 3]
fun = [3, 3]
dst = [6, 3]
a = [9, 4]
b = [13, 4]
cin = [17, 1]
seq = [18, 4]
br = [22, 12]
off = [34, 1]
cond = [35, 2]
d = [37, 2]
write = [39, 1]
out = [40, 1]
mar = [41, 1]
ff = [42, 2]
[control]
alu_source = "src"
alu_function = "fun"
alu_destination = "dst"
a_address = "a"
b_address = "b"
carry_in = "cin"
sequencer = "seq"
branch = "br"
test_disable = "off"
condition = "cond"
d = "d"
memory_write = "write"
out = "out"
mar_load = "mar"
[select]
carry_in = ["zero", "ff:c"]
condition = ["zero", "line", "f_zero", "ff:c"]
d = ["zero", "memory", "input", "mar"]
"""
# Instructions, those more often that come to a boundary.
JUMPS = ["CJP", "CJP", "CJP", "CJP", "CONT", "CONT", "CJS", "CRTN", "RPCT", "LDCT", "PUSH", "JZ", "CJPP", "TWB"]
LENGTH, SHIFT = 4, 8


# ---- at random

def random_program(board):
    """A program of a few words that branch among themselves."""
    words = []
    for number in range(LENGTH):
        word = random_word(board, number + 8)
        few = {"a": random.randrange(3), "b": random.randrange(3), "br": random.randrange(LENGTH), "off": random.randrange(2),
               "out": int(random.random() < 0.3), "write": int(random.random() < 0.3)}
        words.append(with_settings(board, word, {"seq": random.choice(JUMPS)} | few))
    return words


def with_settings(board, word, settings):
    """A microword with other settings."""
    for name, value in settings.items():
        low, width = board.fields[name]
        word = word & ~((1 << width) - 1 << low) | board.word({name: str(value)})
    return word


def changed(board, program):
    """The same program elsewhere, often with other settings in a word."""
    moved = [with_settings(board, word, {"br": board.value(word, "br") + SHIFT}) for word in program]
    if random.random() < 0.6:
        place = random.randrange(LENGTH)
        name = random.choice(["src", "fun", "dst", "b", "out", "write", "cond", "d", "seq", "off", "ff"])
        moved[place] = with_settings(board, moved[place], {name: random.getrandbits(board.fields[name][1])})
    return [board.fill] * SHIFT + moved


def random_keep(board):
    """A KEEP text: some boundaries, with lines of some elements."""
    text = []
    for at in sorted(random.sample(range(LENGTH), random.randint(1, 3))):
        sp = random.choice([0, 0, 0, 1])
        text += [f"boundary P{at} {random.randint(1, 4)}", f"sp {sp}"]
        for name, width in board.elements():
            # PC is fixed as it is behind a branch to there.
            if name == "upc" and random.random() < 0.8:
                text.append(f"fixed b.upc {at + 1} {at + SHIFT + 1}")
            elif name in ("r0", "r1", "r2", "q", "mar", "c", "count", "stack0"):
                value = random.getrandbits(width)
                line = f"fixed b.{name} {value} {random.choice([value, random.getrandbits(width)])}"
                text += random.choice([[f"keep b.{name}"], [f"keep b.{name}"], [f"keep b.{name}"], [line], []])
        text.append("end")
    return "\n".join(text) + "\n"


def block_of(read):
    """A block that was read of a KEEP text."""
    addresses, bound, sp, lines = read
    texts = {name: line.split()[2:] for name, line in lines.items()}
    return Block(addresses, bound, sp, {name: [*map(int, values)] if values else None for name, values in texts.items()})


def random_parts():
    """Two programs, and a KEEP text."""
    board = Board(SMALL)
    program = random_program(board)
    text = random_keep(board)
    return [program, changed(board, program)], text


def revision_of(stores, text):
    """Two programs, and what is kept."""
    board = Board(SMALL)
    labels = [{f"P{at}": at for at in range(LENGTH)}, {f"P{at}": at + SHIFT for at in range(LENGTH)}]
    return Revision(board, stores, [block_of(block) for block in Keep(board, labels, text.encode()).blocks])


def random_revision():
    return revision_of(*random_parts())


def random_value(width):
    return random.choice([0, 1, random.getrandbits(width), random.getrandbits(width)])


def state_with(board, values, sp, memory):
    """The state of these values of elements."""
    flips = sum(values[each["name"]] << number for number, each in enumerate(board.flips))
    stack = [values[f"stack{number}"] for number in range(board.depth)]
    return State(pc=values["upc"], r=values["count"], sp=sp, stack=stack, q=values["q"], mar=values["mar"], ir=values["ir"],
                 flips=flips, regs={number: values[f"r{number}"] for number in range(16)}, memory=dict(memory))


def random_twins(revision, block):
    """A twin start: both states stand together, the inputs are equal, and so is the line of the first cycle."""
    board = revision.board
    values = [{name: random_value(width) for name, width in board.elements()} for _ in SIDES]
    for name, fixed in block.lines.items():
        for side in SIDES:
            values[side][name] = fixed[side] if fixed else values[OLD][name]
    memory = {address: random_value(board.width) for address in range(2 ** board.address)}
    lists = {"inputs": [random_value(board.width) for _ in range(4)]}
    outsides = [Outside(lists | {"line": [random.getrandbits(1) for _ in range(5)],
                                 "noise": [random.getrandbits(14) for _ in range(5)]}) for _ in SIDES]
    outsides[NEW].lists["line"][0] = outsides[OLD].lists["line"][0]
    return Twins(block, [state_with(board, each, block.sp, memory) for each in values], outsides)


# ---- the values of words

def given_by(revision, twins):
    """The values of all variables, but that of the address that is compared."""
    found, count = {}, len(revision.board.elements())
    for side in SIDES:
        values = twins.states[side].values(revision.board)
        found |= {("element", count * side + number): value for number, value in enumerate(values)}
        for kind in ("line", "noise"):
            values = twins.outsides[side].lists[kind]
            found |= {(f"{KINDS[side]}{kind}", number): value for number, value in enumerate(values)}
    return found | {("input", number): value for number, value in enumerate(twins.outsides[OLD].lists["inputs"])}


def check_start(revision, twins, segments, listed):
    """Under the assignment of a twin start the words come to what both runs come to."""
    given, image = given_by(revision, twins), twins.states[OLD].memory

    def values_at(address):
        values = Values(given | {("address", 0): address}, image, listed.memories[OLD], revision.board.map["entries"])
        return values.work_out(listed.words.words)

    first = values_at(0)
    assert all(first.of(term) == value for term, value in listed.asked)
    assert len(listed.asked) == sum(len(bits) for cycles in segments.cycles for bits in cycles)
    assert segments.are_unlike() == (not listed.compared)
    difference = segments.difference()
    if not listed.compared:
        assert difference is not None
        return difference
    *others, memories = listed.compared
    found = [bool(first.of(term)) for term in others]
    assert found == list(segments.comparisons())
    equal = [bool(values_at(address).of(memories)) for address in range(2 ** revision.board.address)]
    assert equal == [segments.are_equal_at(address) for address in range(2 ** revision.board.address)]
    assert (difference is None) == all(found + equal)
    assert not (all(found) and difference) or difference == f"memory 0x{equal.index(False):X}"
    return difference


def check_revision(revision):
    """Of twin starts of a revision how each ends. All of one case have one list."""
    for block in revision.blocks:
        lists = {}
        for _ in range(STARTS):
            twins = random_twins(revision, block)
            segments = Segments(revision, twins)
            key = str(segments.cycles)
            if key not in lists:
                lists[key] = TwinWords(revision, block, segments.cycles)
            yield check_start(revision, twins, segments, lists[key])


# ---- a worked case

def check_worked_case():
    """The old program adds in two cycles and the new one in one; registers 0 and 1 are kept, and PC is fixed."""
    board = Board(BOARDS[4])
    block = Block([0, 4], 2, 0, {"upc": [1, 5], "r0": None, "r1": None})
    for word in 0x4010C02C1, 0x4010C02D9:
        revision = Revision(board, [[0x3802C1, 0x4000C0040], [0, 0, 0, 0, word]], [block])
        twins = random_twins(revision, block)
        segments = Segments(revision, twins)
        listed = TwinWords(revision, block, segments.cycles)
        check_start(revision, twins, segments, listed)
        assert [term.number for term in listed.compared] == [93, 94, 95, 96, 102] and len(listed.words.words) == 102
        assert [listed.asked[place][0].number for place in (0, 12, 24)] == [52, 67, 81]
        # The first cycle of the new program has its noise and what it adds, and no line.
        assert [op for op, _, _ in listed.words.words[78:80]] == ["beside-noise", "sum" if word == 0x4010C02C1 else "or"]


# ---- rows of words

WORDS = """\
# Words of twin cases, printed by tools/rows/twin_words.py, from the word table alone. Those of the comparison aren't there.
# The pairs of programs are random but the first, and so are the twin starts whose cases these are."""
# The texts of the worked case.
WORKED = [
    "LOOP: src=1, fun=0, dst=3, a=1, b=0, seq=14\ndst=1, seq=3, off=1, br=LOOP\n",
    "org 4\nLOOP: src=1, fun=0, dst=3, a=1, b=0, seq=3, off=1, br=LOOP\n",
    "boundary LOOP 2\nsp 0\nfixed b.upc 1 5\nkeep b.r0\nkeep b.r1\nend\n",
]
# How many cases have rows, and of how many random starts of a block they come.
WORD_ROWS, TRIED = 32, 8


def program_text(board, words, at):
    """The microprogram of these words from an address on. Each has a label."""
    lines = [f"org {at}\n"] if at else []
    for number, word in enumerate(words):
        settings = ", ".join(f"{name}={board.value(word, name)}" for name in board.fields)
        lines.append(f"P{number}: {settings}\n")
    return "".join(lines)


def texts_of(stores, keep):
    """The texts of both programs and what is kept."""
    board = Board(SMALL)
    return [program_text(board, stores[OLD], 0), program_text(board, stores[NEW][SHIFT:], SHIFT), keep]


def read_revision(board_text, texts):
    """The revision of texts: both programs, and what is kept."""
    file, board = tomllib.loads(board_text), Board(board_text)
    programs = [Microprogram(file, text.encode()) for text in texts[:2]]
    stores = [[each.words.get(at, board.fill) for at in range(max(each.words) + 1)] for each in programs]
    blocks = Keep(board, [dict(each.labels) for each in programs], texts[2].encode()).blocks
    return Revision(board, stores, [block_of(block) for block in blocks])


def text_lines_of(texts):
    """The files of both programs and of what is kept."""
    return [line for name, text in zip("mnk", texts) for line in file_lines(name, text.encode())]


def bits_of(segments):
    """All decided bits of a case."""
    return tuple(bit for cycles in segments.cycles for bits in cycles for bit in bits)


def end_line(segments):
    """How both segments end, and where."""
    counts = [run.cycles for run in segments.runs]
    if None in segments.ends:
        return " ".join(["late", ("old", "new")[len(counts) - 1], *map(str, counts[:-1])])
    addresses = " ".join(f"0x{run.at:x}" for run in segments.runs)
    return f"reached {counts[OLD]} {counts[NEW]} at {addresses}"


def word_report(revision, block, segments):
    """The bits that a case asks for, how it ends, and its words."""
    listed = TwinWords(revision, block, segments.cycles)
    asked = [f"{kind}:{term}" for (kind, _), (term, _) in zip(bits_of(segments), listed.asked)]
    lines = [["asked", *asked], [end_line(segments)], ["words", *listed.tokens()]]
    return "".join(" ".join(line) + "\n" for line in lines)


def kinds_of(segments):
    """How a case ends, how many cycles each segment has, and which events."""
    events = [[kind for kind, _ in run.events] for run in segments.runs]
    return str((end_line(segments).split()[:2], list(map(len, segments.cycles)), events))


def random_cases():
    """Cases that end otherwise, or have other cycles or events than those before: the number of the revision, its texts, it,
    the number of the block, and the segments."""
    seen, number = set(), 0
    while len(seen) < WORD_ROWS:
        number += 1
        texts = texts_of(*random_parts())
        revision = read_revision(SMALL, texts)
        for at, block in enumerate(revision.blocks):
            for _ in range(TRIED):
                segments = Segments(revision, random_twins(revision, block))
                if len(seen) < WORD_ROWS and kinds_of(segments) not in seen:
                    seen.add(kinds_of(segments))
                    yield number, texts, revision, at, segments


def print_word_row(name, given, revision, at, segments):
    digits = "".join(str(value) for _, value in bits_of(segments))
    report = word_report(revision, revision.blocks[at], segments)
    lines = given + [f"call twin-words boundary={at:x} bits={digits}"]
    print("\n".join([""] + row_lines(name, lines, "gives", report.encode())))


def check_word_cases(cases):
    """They end in each way, with events of each kind, and elements of blocks are kept, fixed and left."""
    ends = {" ".join(end_line(segments).split()[:2]).rstrip(" 0123456789") for *_, segments in cases}
    assert ends == {"late old", "late new", "reached"}, ends
    events = {kind for *_, segments in cases for run in segments.runs for kind, _ in run.events}
    assert events == {"out", "taken"}, events
    lines = {fixed is None for _, _, revision, at, _ in cases for fixed in revision.blocks[at].lines.values()}
    assert lines == {False, True}


def print_words():
    random.seed(2911)
    print(WORDS)
    for name, text in ("worked board", BOARDS[4]), ("small board", SMALL):
        print("\n".join(["", f"set {name}"] + file_lines("b", text.encode())))
    worked = read_revision(BOARDS[4], WORKED)
    segments = Segments(worked, random_twins(worked, worked.blocks[0]))
    print_word_row("the worked case", ["with worked board", *text_lines_of(WORKED)], worked, 0, segments)
    cases, last = list(random_cases()), 0
    check_word_cases(cases)
    for place, (number, texts, revision, at, segments) in enumerate(cases, 1):
        if number != last:
            print("\n".join(["", f"set revision {number}", *text_lines_of(texts)]))
        last = number
        given = ["with small board", f"with revision {number}"]
        print_word_row(f"case {place}, of revision {number}", given, revision, at, segments)


# ---- rows of cases

CASES = """\
# Twin cases of blocks, printed by tools/rows/twin_words.py from all twin starts of small pairs of programs, without the
# crates: what a twin start decides, and after how many cycles both segments are at a boundary, or which one is late."""
# The budgets of rows that aren't about them, of how many pairs the least budgets are tried, and how many random pairs
# there are.
MOST_NODES = MOST_PATHS = 0x10000
LIMITED_PAIRS, RANDOM_PAIRS = 6, 8
SAMPLES = 200


def lists_of(reads, side_lines):
    """What is given from outside to one side alone: each choice of its lines and its noise."""
    return product(product(range(2), repeat=side_lines), product(*reads.get("noise", [])))


def shared_lists(board, reads):
    """And to both: each choice of inputs and of the first line."""
    return product(product(range(2**board.width), repeat=reads.get("inputs", 0)), range(min(2, 2**reads.get("line", 0))))


def value_lists(revision, names, reads):
    """Each choice of values of these elements."""
    widths = dict(revision.board.elements())
    every = [reads.get("values", {}).get(name, range(2**widths[name])) for name in names]
    return [dict(zip(names, values)) for values in product(*every)]


def every_start(revision, block, reads):
    """Each twin start of a block, by what is read there; all else is 0."""
    board, names = revision.board, reads.get("elements", [])
    kept = value_lists(revision, [name for name in names if block.lines.get(name, ()) is None], reads)
    left = value_lists(revision, [name for name in names if name not in block.lines], reads)
    images = product(range(2**board.width), repeat=len(reads.get("memory", [])))
    own = list(lists_of(reads, max(0, reads.get("line", 0) - 1)))
    shared = list(shared_lists(board, reads))
    for both, words, (inputs, first), *sides in product(kept, images, shared, left, left, own, own):
        states = [start_state(revision, block, side, both | sides[side], zip(reads.get("memory", []), words)) for side in SIDES]
        lists = [{"inputs": inputs, "line": [first, *lines], "noise": noise} for lines, noise in sides[2:]]
        yield Twins(block, states, list(map(Outside, lists)))


def start_state(revision, block, side, given, memory):
    """The state of a side with these values; what isn't fixed is 0 else."""
    values = {name: 0 for name, _ in revision.board.elements()} | given
    values |= {name: fixed[side] for name, fixed in block.lines.items() if fixed}
    return state_with(revision.board, values, block.sp, memory)


def end_text(segments):
    """How both segments end."""
    counts = [run.cycles for run in segments.runs]
    if segments.ends[OLD] is None:
        return "late old"
    return f"old {counts[OLD]} " + ("late new" if segments.ends[NEW] is None else f"new {counts[NEW]}")


def twin_cases(revision, block, reads):
    """The ends of the cases of a block by their bits, in order."""
    found = {}
    for twins in every_start(revision, block, reads):
        segments = Segments(revision, twins)
        end = end_text(segments)
        assert found.setdefault(bits_of(segments), end) == end, "one case has two ends"
    return in_order(found)


def listed_cases(texts, reads):
    """The cases of each block of a pair, by both addresses."""
    revision = revision_in(texts)
    return {tuple(block.addresses): twin_cases(revision, block, reads) for block in revision.blocks}


def revision_in(texts):
    """The revision of the name of a board and three texts."""
    return read_revision(CASE_BOARDS[texts[0]], texts[1:])


def reads_noise(texts, reads):
    """Whether some twin start goes another way where each bit of the noise is another one."""
    revision = revision_in(texts)
    for block in revision.blocks:
        for twins in every_start(revision, block, reads):
            found = set()
            for noise in (0, 0x3FFF):
                for outside in twins.outsides:
                    outside.lists["noise"] = [noise] * block.bound
                found.add(bits_of(Segments(revision, twins)))
            if len(found) > 1:
                return True
    return False


def random_pairs():
    """Random pairs that read no noise, the first of them."""
    kept = (each for each in map(random_pair, range(1000)) if not reads_noise(*each[1:]))
    return [next(kept) for _ in range(RANDOM_PAIRS)]


def case_report(blocks, paths=MOST_PATHS):
    """The cases of each block, within a budget of paths."""
    lines = []
    for (before, after), found in blocks.items():
        lines.append(f"boundary 0x{before:x} 0x{after:x}")
        lines += [f"case {bits_text(bits)} {end}" for bits, end in found.items()][:paths]
        if len(found) > paths:
            lines.append(f"over paths {paths}")
    return "".join(f"{line}\n" for line in lines)


def print_case_row(name, given, blocks, paths=MOST_PATHS):
    lines = given + [f"call twin-cases nodes={MOST_NODES:x} paths={paths:x}"]
    print("\n".join([""] + row_lines(name, lines, "gives", case_report(blocks, paths).encode())))


def print_cases():
    print(CASES)
    print("\n".join(["", "set choosing"] + file_lines("b", CASE_BOARDS["choosing"].encode())))
    limited = 0
    for name, texts, reads in PAIRS + random_pairs():
        blocks = listed_cases(texts, reads)
        given, most = [f"with {texts[0]}", *text_lines_of(texts[1:])], max(map(len, blocks.values()))
        print_case_row(name, given, blocks)
        if most > 2 and limited < LIMITED_PAIRS:
            limited += 1
            for paths in (0, most - 1, most):
                print_case_row(f"{name}, {paths} paths", given, blocks, paths)


def check_starts():
    """Random twin starts: none has a case that isn't listed."""
    random.seed(2912)
    for name, texts, reads in PAIRS + random_pairs():
        revision, blocks = revision_in(texts), listed_cases(texts, reads)
        for block in revision.blocks:
            found, seen = blocks[tuple(block.addresses)], set()
            for _ in range(SAMPLES):
                segments = Segments(revision, random_twins(revision, block))
                seen.add(bits_of(segments))
                assert found.get(bits_of(segments)) == end_text(segments), (name, block.addresses)
            print(f"{name}: block 0x{block.addresses[OLD]:X} has {len(found)} cases, {len(seen)} of them met at random")


def check():
    random.seed(2910)
    check_worked_case()
    shown = [difference for _ in range(REVISIONS) for difference in check_revision(random_revision())]
    kinds = {str(each).split()[0] if str(each).split()[0] != "late" else each for each in shown}
    wanted = {"None", "late old", "late new", "event", "boundary", "sp", "element", "memory"}
    assert kinds == wanted, wanted - kinds
    print(f"the words of {len(shown)} twin starts of {REVISIONS} pairs of programs come to what both programs come to")


def main():
    match sys.argv[1:]:
        case ["words"]:
            print_words()
        case ["cases"]:
            print_cases()
        case ["--check"]:
            check()
        case ["--starts"]:
            check_starts()
        case _:
            sys.exit(__doc__)


if __name__ == "__main__":
    main()
