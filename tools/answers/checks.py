#!/usr/bin/env python3
"""Checking a column against a list of values, by the model alone.

    tools/answers/checks.py SHEET COLUMN VALUES                        what `./run check` has to print of a sheet and two files
    tools/answers/checks.py example DIR                                a column and its values, as files
    tools/answers/checks.py                                            asks the cases in crates/format/proofs/CheckCases.antt again

A verdict is None for a column that is passed, else the first reason why not.
"""

import re
import sys

import model
from model import Refused, Stats, demand, open_under, read_file, read_row

CASES = "crates/format/proofs/CheckCases.antt"
VALUES_MAX = 65536


def reads(column, table, s, row):
    try:
        return read_row(column, table, s, row)
    except Refused:
        return None


def verdict(find, s, values):
    """The verdict on some bytes, of which `find` says what opening finds."""
    try:
        column, table = find(s)
    except Refused as r:
        return ("refused", r.number, r.also)
    if column.rows != len(values):
        return ("rows", column.rows, len(values))
    for row, value in enumerate(values):
        if reads(column, table, s, row) != value:
            return ("row", row)
    stats = Stats(values)
    maximum = column.minimum + column.gcd * column.count
    for name, stated, right in (("minimum", column.minimum, stats.minimum), ("gcd", column.gcd, stats.gcd), ("maximum", maximum, stats.maximum)):
        if stated != right:
            return (name,)
    return None


# ---- the program


def open_here(sheet, s):
    """Opening under a sheet within a program's limits: 16 for the bytes before all else, for the rows after opening, and in the place of 11."""
    demand(len(s) <= 65536, 16)
    try:
        column, table = open_under(sheet, s, 4 * 2048)
    except Refused as r:
        raise Refused(16) if r.number == 11 else r
    demand(column.rows <= 1048576, 16)
    return column, table


def listed(file):
    """The values of a file: 16 for too many, 13 where the last is cut off."""
    demand(len(file) <= 8 * VALUES_MAX, 16)
    demand(len(file) % 8 == 0, 13)
    return [int.from_bytes(file[at : at + 8], "little") for at in range(0, len(file), 8)]


def judgement(text, s, file):
    """The program's line, of the sheet as text, a column and a file of values."""
    try:
        values = listed(file)
    except Refused as r:
        return f"values refused {r.number}\n"
    sheet = {b"1": 1, b"2": 2}.get(text, 0)
    found = verdict(lambda s: open_here(sheet, s), s, values)
    if found is None:
        return "yes\n"
    if found[0] == "refused":
        return f"no column refused {found[1]}\n"
    if found[0] == "rows":
        return f"no rows {found[1]} values {found[2]}\n"
    return "no " + " ".join(str(part) for part in found) + "\n"


# ---- its cases

LIST = [10, 30, 20]
BITPACKED = model.write(LIST, [0], 99)
BLOCKWISE = model.write(LIST, [2], 99)
DAMAGED = bytes.fromhex("028a8a82830c0000000088800207000000")
RISING = [3 * r + r % 5 for r in range(600)]
LINE = model.write(RISING, [1], 9999)
WAVES = [10 * (r % 512) for r in range(1025)]
BLOCKS = model.write(WAVES, [2], 9999)


def spelled_values(values):
    return b"".join(v.to_bytes(8, "little") for v in values)


def head(code, minimum, gcd, count, rows):
    return bytes([code]) + b"".join(model.varint(n) for n in (minimum, gcd, count, rows))


def changed(values, row):
    return values[:row] + [values[row] + 1] + values[row + 1 :]


def program_cases():
    """Each is a title, the sheet as text, a column, and a file of values."""
    of = spelled_values
    return [
        ("Bitpacked, under sheet 1", b"1", BITPACKED, of(LIST)),
        ("and under sheet 2", b"2", BITPACKED, of(LIST)),
        ("Linear, over two chunks", b"2", LINE, of(RISING)),
        ("Blockwise, of three blocks", b"2", BLOCKS, of(WAVES)),
        ("64 bits", b"2", model.write([0, 2**64 - 1, 1], [0], 99), of([0, 2**64 - 1, 1])),
        ("no rows and no values", b"2", model.write([], [0], 99), b""),
        ("bytes behind the column, under sheet 1", b"1", BITPACKED + b"\0", of(LIST)),
        ("under sheet 2", b"2", BITPACKED + b"\0", of(LIST)),
        ("a longer spelling, under sheet 1", b"1", b"\0\x0A\x80" + BITPACKED[2:], of(LIST)),
        ("under sheet 2", b"2", b"\0\x0A\x80" + BITPACKED[2:], of(LIST)),
        ("no sheet", b"", BITPACKED, of(LIST)),
        ("sheet 0", b"0", BITPACKED, of(LIST)),
        ("sheet 3, and no column", b"3", b"", of(LIST)),
        ("a sheet of two characters", b"01", BITPACKED, of(LIST)),
        ("a sheet that is no number", b"x", BITPACKED, of(LIST)),
        ("no bytes", b"1", b"", of(LIST)),
        ("a column that is cut off, and other values", b"1", BITPACKED[:-1], of([1])),
        ("1,048,576 rows", b"1", head(0, 7, 1, 0, 1048576), of(LIST)),
        ("one more", b"1", head(0, 7, 1, 0, 1048577), of(LIST)),
        ("more blocks than a table has", b"1", head(2, 7, 1, 0, 1048577) + b"\0" * 4, of(LIST)),
        ("one value too few", b"1", BITPACKED, of(LIST[:2])),
        ("one too many, and other values", b"1", BITPACKED, of([9, 9, 9, 9])),
        ("no values", b"1", BITPACKED, b""),
        ("the first row", b"1", BITPACKED, of(changed(LIST, 0))),
        ("the last row", b"1", BITPACKED, of(changed(LIST, 2))),
        ("the last row of a line", b"1", LINE, of(changed(RISING, 599))),
        ("the first row of a block", b"1", BLOCKS, of(changed(WAVES, 512))),
        ("the first of two", b"1", BLOCKS, of(changed(changed(WAVES, 1024), 511))),
        ("a row that is refused 14", b"1", DAMAGED, of(LIST)),
        ("another minimum", b"1", head(0, 10, 10, 2, 3) + b"\x29", of([20, 30, 30])),
        ("another gcd", b"1", head(0, 10, 5, 4, 3) + b"\xA0\0", of(LIST)),
        ("another gcd and maximum", b"1", head(0, 10, 5, 5, 3) + b"\xA0\0", of(LIST)),
        ("another maximum", b"1", head(0, 10, 10, 2, 3) + b"\x11", of([20, 10, 20])),
        ("another minimum, but under sheet 2 a bit too many", b"2", head(0, 10, 10, 2, 3) + b"\x69", of([20, 30, 30])),
        ("a value of seven bytes", b"1", BITPACKED, of(LIST)[:-1]),
        ("a byte more, and no column", b"1", b"", of(LIST) + b"\0"),
    ]


def example(folder):
    """The program's own case."""
    with open(f"{folder}/column", "wb") as f:
        f.write(BLOCKWISE)
    with open(f"{folder}/values", "wb") as f:
        f.write(spelled_values(LIST))


# ---- the computed cases


def numbers(text):
    return [int(n, 0) for n in re.findall(r"\b(?:0x[0-9A-F]+|\d+)(?= ∷)", text)]


def cases(path):
    text = open(path).read()
    for m in re.finditer(r"\(checking (\d+) \((.*?)\[\]\) (\d+) \((.*?)\[\]\) gives (.*?)\)\n", text):
        yield int(m[1]), bytes(numbers(m[2])), int(m[3]), numbers(m[4]), m[5]


def spelled(found):
    if found is None:
        return "passed"
    if found[0] == "refused":
        also = f"({found[2]} ∷ [])" if found[1] in (6, 9, 11, 17) else "[]"
        return f"failed (unopened {found[1]} {also})"
    if found[0] == "rows":
        return f"failed (counts {found[1]} {found[2]})"
    if found[0] == "row":
        return f"failed (unequal {found[1]})"
    return f"failed {found[0]}"


def ask_again():
    asked = wrong = 0
    for sheet, s, room, values, stored in cases(CASES):
        asked += 1
        answer = spelled(verdict(lambda s: open_under(sheet, s, 4 * room), s, values))
        if answer != stored:
            wrong += 1
            print(f"{sheet} {s.hex()} {room} {values}: stored {stored}, model {answer}")
    print(f"{asked} cases, {wrong} differ")


if __name__ == "__main__":
    match sys.argv[1:]:
        case []:
            ask_again()
        case ["example", folder]:
            example(folder)
        case [sheet, column, values]:
            sys.stdout.write(judgement(sheet.encode(), read_file(column), read_file(values)))
