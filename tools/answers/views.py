#!/usr/bin/env python3
"""The cases of `test_view`: the file that it reads, and what it has to print, by the model.

    tools/answers/views.py cases > crates/test_view/data/cases
    tools/answers/views.py stdout > crates/test_view/stdout
"""

import sys

import model
from model import Refused, demand
from shown import BITPACKED, BITPACKED_REFUSED, BLOCKS, BLOCKWISE, LINEAR, LINEAR_REFUSED, NO_ROWS, ONE_ROW, h

WIDEST = h("0080817f7f7f7f7f7f7f7f7f81830000000000000000ffffffffffffffff0100000000000000")
RISING = h("01e481898400000000b0e40102")


def cases():
    """A title, a sheet, and a column."""
    yield from [(f"{title}, sheet {sheet}", sheet, column) for title, column in both_sheets() for sheet in (1, 2)]
    yield from [
        # no such sheet, before all else
        ("sheet 0", 0, BITPACKED),
        ("sheet 3, and no bytes", 3, b""),
        ("sheet 2^32 - 1, and Blockwise", 2**32 - 1, BLOCKWISE),
        # the code byte and the head, by each number
        ("no bytes", 1, b""),
        ("a fourth codec", 1, h("03")),
        ("Bitpacked, the gcd ends early", 1, h("008000")),
        ("Linear, the width ends early", 1, h("018a8a8283808a")),
        ("gcd 0", 1, h("008a8082831800")),
        ("the maximum would be 2^64", 1, h("007f7f7f7f7f7f7f7f7f818181")),
        ("2^32 rows", 1, h("00878180000000009000")),
        ("Linear, a width of 57", 1, h("0180818080808039")),
        ("Bitpacked, the area is a byte short", 1, h("008a8a8283")),
        ("Linear, the area is a byte short", 1, h("018a8a8283808a0580")),
        # the same of Blockwise, before 20
        ("Blockwise, the rows end early", 1, h("028a8a8200")),
        ("Blockwise, gcd 0", 1, h("028a80828300000000")),
        ("Blockwise, the maximum would be 2^64", 1, h("027f7f7f7f7f7f7f7f7f81818180000000")),
        ("Blockwise, three bytes for the footer's length", 1, h("028a8a8283000000")),
        ("Blockwise, a footer that reaches into the head", 1, h("028a8a828301000000")),
        # 20, before anything of the blocks is read
        ("Blockwise, two blocks", 1, BLOCKS),
        ("Blockwise, no field of a block", 1, h("028a8a828300000000")),
        ("Blockwise, a width of 57", 1, h("028a8a8283080000000088803907000000")),
        ("Blockwise, the area runs into the footer", 1, h("028a8a82830000000088800207000000")),
        ("Blockwise, 2^32 - 1 rows", 1, h("028a8a827f7f7f7f8f00000000")),
    ]


def both_sheets():
    """A title and a column, asked under each sheet."""
    yield from [
        ("Bitpacked: 10, 30, 20", BITPACKED),
        ("Bitpacked: no rows", NO_ROWS),
        ("Bitpacked: 7", ONE_ROW),
        ("Bitpacked, 64 bits: 0, 18446744073709551615, 1", WIDEST),
        ("Bitpacked, row 1 above the maximum", BITPACKED_REFUSED),
        ("Linear: 10, 30, 20", LINEAR),
        ("Linear, rising by 3: 100, 104, 106, 109", RISING),
        ("Linear, a row outside the bounds", LINEAR_REFUSED),
        ("Bitpacked, the minimum spelled longer", h("000a808a828318")),
        ("Bitpacked, filling bits", h("008a8a828358")),
        ("Bitpacked, a byte behind the area", BITPACKED + h("00")),
        ("Linear, a byte behind the area", LINEAR + h("00")),
        ("Blockwise: 10, 30, 20", BLOCKWISE),
        ("Blockwise: no rows", h("028081808000000000")),
        ("Blockwise, no rows, a byte before the footer", h("02808180800900000000")),
        ("Blockwise, the minimum spelled longer", h("020a808a8283080000000088800207000000")),
    ]


def opened(sheet, s):
    """Opening for a view: 20 in the place of 11, whatever the rows, and no block is read."""
    demand(sheet in (1, 2), 18)
    if s[:1] == bytes([model.BLOCKWISE]):
        at, end = model.read_head(s)[4], len(s) - 4
        demand(at <= end, 10)
        demand(at + int.from_bytes(s[end:], "little") <= end, 10)
        raise Refused(20)
    return model.open_under(sheet, s, 0)[0]


def shown(sheet, s):
    """What a view answers, then what the plain calls do; each row, and the one behind them. Where opening refuses, a view has no rows."""
    try:
        column = opened(sheet, s)
    except Refused as r:
        return f"refused {r.number}\nrows 0\nrow 0 refused 12\nrefused {r.number}\n"
    rows = [f"row {row} {model.answer_text(column, [], s, row)}\n" for row in range(column.rows + 1)]
    return f"rows {column.rows}\n" + "".join(rows) + "".join(f"plain {row}" for row in rows)


def file():
    """The cases as the program reads them: the lengths of title and column, the sheet, then title and column."""
    parts = []
    for title, sheet, column in cases():
        items = [title.encode() + b"\n", column]
        parts += [number.to_bytes(4, "little") for number in (len(items[0]), len(items[1]), sheet)] + items
    return b"".join(parts)


if __name__ == "__main__":
    if sys.argv[1] == "cases":
        sys.stdout.buffer.write(file())
    else:
        sys.stdout.write("".join(f"{title}\n{shown(sheet, column)}" for title, sheet, column in cases()))
