#!/usr/bin/env python3
"""Replaying recorded lookups, by the model: what a recording is, what a replay reports, and cases for `texts.py`.

    tools/answers/replays.py COLUMN RECORDING                        what `replay` has to print of two files
    tools/answers/replays.py example DIR                             a column and a recording that agrees, as files
"""

import sys

import model
from model import Refused, demand

RECORDING_MAX = 262144


def number(s, at, long):
    return int.from_bytes(s[at : at + long], "little")


def parse(s):
    """The records of a recording, each with its row numbers; all of it is tested before anything is looked up."""
    demand(len(s) >= 16, 19)
    records, start, numbers, listing = (number(s, at, 4) for at in (0, 4, 8, 12))
    places = []
    for many, size, at in ((records, 32, start), (numbers, 4, listing)):
        if many:
            demand(at >= 16 and at + many * size <= len(s), 19)
            places.append(range(at, at + many * size))
    if len(places) == 2:
        a, b = places
        demand(a.stop <= b.start or b.stop <= a.start, 19)
    listed = [number(s, listing + 4 * i, 4) for i in range(numbers)] if numbers else []
    parsed = []
    for k in range(records):
        at = start + 32 * k
        low, high = number(s, at, 8), number(s, at + 8, 8)
        first, end, place, many = (number(s, at + 16 + 4 * i, 4) for i in range(4))
        demand(place + many <= numbers, 19)
        parsed.append((low, high, first, end, listed[place : place + many]))
    return parsed


def replay(column, table, s, recording):
    """The index of the first record that differs, None where all agree, and how many were run."""
    parsed = parse(recording)
    for k, (low, high, first, end, rows) in enumerate(parsed):
        try:
            found = model.look_up(column, table, s, low, high, first, end, column.rows)
        except Refused:
            found = None
        if found != rows:
            return k, k + 1
    return None, len(parsed)


def report(s, recording):
    """The program's line. The column decides before the recording, and a recording of too many bytes before what it holds."""
    try:
        column, table = model.open_in_program(s)
    except Refused as r:
        return f"column refused {r.number}\n"
    try:
        demand(len(recording) <= RECORDING_MAX, 16)
        index, run = replay(column, table, s, recording)
    except Refused as r:
        return f"recording refused {r.number}\n"
    return f"agree {run}\n" if index is None else f"differ {index} run {run}\n"


# ---- recordings


def words(*numbers):
    return b"".join(n.to_bytes(4, "little") for n in numbers)


def record(low, high, first, end, place, many):
    return low.to_bytes(8, "little") + high.to_bytes(8, "little") + words(first, end, place, many)


def recorded(lookups, rows):
    """The plain layout: header, records, row numbers."""
    return words(len(lookups), 16, len(rows), 16 + 32 * len(lookups)) + b"".join(record(*l) for l in lookups) + words(*rows)


# ---- cases

BITPACKED = model.write([10, 30, 20], [0], 99)
BLOCKWISE = model.write([10, 30, 20], [2], 99)
DAMAGED = bytes.fromhex("028a8a82830c0000000088800207000000")
LINE = model.write([3 * r for r in range(600)], [1], 9999)
BLOCKS = model.write([10 * (r % 512) for r in range(1025)], [2], 9999)
MAX = 2**64 - 1
MOST = 2**32 - 1

LOOKUP = (10, 25, 0, 3, 0, 2)
TWO = recorded([LOOKUP], [0, 2])


def cases():
    yield "whole", [
        ("rows 0 and 2, as recorded", BITPACKED, TWO),
        ("the same of a Blockwise column", BLOCKWISE, TWO),
        ("a line over two chunks", LINE, recorded([(1500, 1560, 490, 600, 0, 21)], list(range(500, 521)))),
        ("three blocks", BLOCKS, recorded([(0, 9, 0, 9999, 0, 3)], [0, 512, 1024])),
        ("no records and no row numbers", BITPACKED, recorded([], [])),
        ("no records, but row numbers", BITPACKED, recorded([], [7])),
        ("three records, one list", BITPACKED, recorded([LOOKUP, (30, 30, 0, 3, 2, 1), (10, 10, 0, 3, 0, 1)], [0, 2, 1])),
        ("an end behind the rows", BITPACKED, recorded([(0, MAX, 1, MOST, 0, 2)], [1, 2])),
        ("no rows: first not below end", BITPACKED, recorded([(0, MAX, 2, 2, 0, 0), (0, MAX, 3, 9, 0, 0)], [])),
        ("no values: low above high", BITPACKED, recorded([(1, 0, 0, 3, 0, 0)], [])),
        ("nothing recorded, its place at the list's end", BITPACKED, recorded([(0, 9, 0, 3, 1, 0)], [5])),
    ]
    yield "differing", [
        ("another row", BITPACKED, recorded([LOOKUP], [0, 1])),
        ("one row too few", BITPACKED, recorded([(10, 25, 0, 3, 0, 1)], [0])),
        ("one too many", BITPACKED, recorded([(10, 25, 0, 3, 0, 3)], [0, 2, 3])),
        ("not ascending", BITPACKED, recorded([LOOKUP], [2, 0])),
        ("a row where there are none", BITPACKED, recorded([(0, MAX, 3, 9, 0, 1)], [3])),
        ("the second of three", BITPACKED, recorded([LOOKUP, (0, 0, 0, 3, 0, 1), (0, 0, 0, 3, 0, 1)], [0, 2])),
        ("the last of three", BITPACKED, recorded([LOOKUP, (0, 0, 0, 3, 0, 0), (0, 0, 0, 3, 0, 1)], [0, 2])),
        ("the last chunk", LINE, recorded([(1500, 1560, 490, 600, 0, 20)], list(range(500, 520)))),
        ("a place counted in bytes", BITPACKED, recorded([(30, 30, 0, 3, 4, 1)], [9, 1, 9, 9, 2])),
    ]
    yield "refused rows", [
        ("row 1 is refused, whatever is looked for", DAMAGED, recorded([(0, 0, 0, 3, 0, 0)], [])),
        ("also behind a recorded row that was found", DAMAGED, recorded([(10, 10, 0, 2, 0, 1)], [0])),
        ("not where it is not read", DAMAGED, recorded([(10, 10, 0, 1, 0, 1), (0, 0, 1, 1, 0, 0)], [0])),
    ]
    yield "regions", [
        ("row numbers before records", BITPACKED, words(1, 24, 2, 16) + words(0, 2) + record(*LOOKUP)),
        ("gaps, and offsets that are not aligned", BITPACKED, words(1, 17, 2, 50) + b"\xFF" + record(*LOOKUP) + b"\xFF" + words(0, 2) + b"\xFF"),
        ("empty regions with any offset", BITPACKED, words(0, MOST, 0, 3)),
        ("no records, their offset inside the row numbers", BITPACKED, words(0, 17, 1, 16) + words(0)),
        ("no row numbers, their offset inside the records", BITPACKED, words(1, 16, 0, 17) + record(0, 9, 0, 3, 0, 0)),
    ]
    yield "no recording", [
        ("no bytes", BITPACKED, b""),
        ("a header of fifteen bytes", BITPACKED, bytes(15)),
        ("records inside the header", BITPACKED, words(1, 15, 0, 0) + bytes(32)),
        ("row numbers inside the header", BITPACKED, words(0, 0, 1, 15) + bytes(4)),
        ("a record that leaves the recording by a byte", BITPACKED, words(1, 16, 0, 0) + bytes(31)),
        ("a row number that does", BITPACKED, words(0, 0, 1, 16) + bytes(3)),
        ("regions that overlap by a byte", BITPACKED, words(1, 16, 1, 47) + bytes(36)),
        ("and the other way round", BITPACKED, words(1, 19, 1, 16) + bytes(36)),
        ("records of 2^32 bytes", BITPACKED, words(2**27, 16, 0, 0)),
        ("row numbers of 2^32 bytes", BITPACKED, words(0, 0, 2**30, 16)),
        ("offsets of 2^32 - 1", BITPACKED, words(1, MOST, 1, MOST) + bytes(36)),
        ("a place behind the list's end", BITPACKED, recorded([(0, 9, 0, 3, 2, 0)], [5])),
        ("place and number above the list's length", BITPACKED, recorded([(0, 9, 0, 3, 1, 1)], [5])),
        ("both together 2^32", BITPACKED, recorded([(0, 9, 0, 3, MOST, 1)], [5])),
        ("behind a record that differs", BITPACKED, recorded([(0, 9, 0, 3, 0, 1), (0, 9, 0, 3, 1, 1)], [5])),
    ]
    yield "no column", [
        ("no column and no recording", b"", b""),
        ("a column that does not open", BITPACKED[:-1], TWO),
    ]


def example(folder):
    """The column of `docs/example.column`'s kind and what was recorded of it: written for README and the program's own case."""
    with open(f"{folder}/column", "wb") as f:
        f.write(BLOCKWISE)
    with open(f"{folder}/recording", "wb") as f:
        f.write(recorded([LOOKUP, (30, 30, 0, 3, 2, 1)], [0, 2, 0]))


if __name__ == "__main__":
    match sys.argv[1:]:
        case ["example", folder]:
            example(folder)
        case [column, recording]:
            sys.stdout.write(report(model.read_file(column), model.read_file(recording)))
