"""Columns that are listed, and pairs of columns that are compared, for `texts.py`."""

import model

h = bytes.fromhex

# ---- columns: 10, 30, 20 by each codec, and with another byte

BITPACKED = h("008a8a828318")
LINEAR = h("018a8a8283808a05802a")
BLOCKWISE = h("028a8a8283080000000088800207000000")
BITPACKED_OTHER = h("008a8a828314")
LINEAR_OTHER = h("018a8a8283808a054029")
BLOCKWISE_OTHER = h("028a8a8283180000000088800207000000")

# ---- columns: rows that are refused, no rows, one row, two blocks, and the same rows on one line

BITPACKED_REFUSED = h("008a8a82830c")
LINEAR_REFUSED = h("018a8a8283808a05e02b")
BLOCKWISE_REFUSED = h("028a8a82830c0000000088800207000000")
LAST_REFUSED = h("008a8a8284d8")
NO_ROWS = h("0080818080")
ONE_ROW = h("0087818081")
BLOCKS = h("02808a0084018400000000908000800084000b000000")
LINE = h("01808a008401840000000020818000")

# ---- what does not open, by each number

REFUSED = [
    ("no bytes", b""),
    ("a fourth codec", h("03")),
    ("the gcd ends early", h("008000")),
    ("gcd 0", h("008080")),
    ("the maximum would be 2^64", h("007f7f7f7f7f7f7f7f7f818181")),
    ("a width of 57", h("0180818080808039")),
    ("the area is a byte short", h("008a8a8283")),
    ("1,048,577 rows", h("008781800100c0")),
    ("1,048,577 rows in blocks", h("028781800100c000000000")),
]
MOST_BYTES = ("65,536 bytes", bytes(65536))
TOO_MANY_BYTES = ("65,537 bytes", bytes(65537))


def pairs():
    """A title, and two columns."""
    yield from [
        ("Bitpacked and Linear", BITPACKED, LINEAR),
        ("Bitpacked and Blockwise", BITPACKED, BLOCKWISE),
        ("Linear and Blockwise", LINEAR, BLOCKWISE),
        ("Linear and Bitpacked", LINEAR, BITPACKED),
        ("Blockwise and Linear", BLOCKWISE, LINEAR),
        ("Blockwise and Bitpacked", BLOCKWISE, BITPACKED),
        ("Bitpacked, the minimum spelled longer", BITPACKED, h("000a808a828318")),
        ("Linear with itself", LINEAR, LINEAR),
        ("Blockwise with itself", BLOCKWISE, BLOCKWISE),
        ("no rows", NO_ROWS, NO_ROWS),
        ("two blocks and a line", BLOCKS, LINE),
        ("rows refused on both sides", LINEAR_REFUSED, BLOCKWISE_REFUSED),
        ("1,048,576 rows", h("008781800000c0"), h("018781800000c0808700")),
    ]
    yield from [
        ("Bitpacked and Linear", BITPACKED, LINEAR_OTHER),
        ("Bitpacked and Blockwise", BITPACKED, BLOCKWISE_OTHER),
        ("Linear and Blockwise", LINEAR, BLOCKWISE_OTHER),
        ("Linear and Bitpacked", LINEAR_OTHER, BITPACKED),
        ("Blockwise and Bitpacked", BLOCKWISE_OTHER, BITPACKED_OTHER),
        ("Blockwise and Linear", BLOCKWISE_OTHER, LINEAR_OTHER),
        ("Bitpacked with another byte", BITPACKED, BITPACKED_OTHER),
        ("Linear with another byte", LINEAR, LINEAR_OTHER),
        ("Blockwise with another byte", BLOCKWISE, BLOCKWISE_OTHER),
    ]
    widest = h("0080817f7f7f7f7f7f7f7f7f8182")
    yield from [
        ("Blockwise, row 1 of the right one above the maximum", BLOCKWISE, BLOCKWISE_REFUSED),
        ("the same, left", BLOCKWISE_REFUSED, BLOCKWISE),
        ("rows refused alike, and another value", BITPACKED_REFUSED, LINEAR_REFUSED),
        ("the longest line", widest + h("0000000000000000ffffffffffffffff"), widest + h("fffffffffffffffffeffffffffffffff")),
        ("rows of the left side only", BITPACKED, ONE_ROW),
        ("rows of the right side only", ONE_ROW, BITPACKED),
        ("a refused row of the right side only", BITPACKED, LAST_REFUSED),
        ("a refused row of the left side only", LAST_REFUSED, BITPACKED),
        ("all rows of two blocks, left", BLOCKS, NO_ROWS),
    ]
    refused = REFUSED + [MOST_BYTES, TOO_MANY_BYTES]
    yield from [(title, column, BITPACKED) for title, column in refused]
    yield from [(title, BITPACKED, column) for title, column in refused]
    # neither opens: the left one decides
    yield from [
        ("no bytes, and gcd 0", b"", h("008080")),
        ("gcd 0, and no bytes", h("008080"), b""),
        ("65,537 bytes, and no bytes", bytes(65537), b""),
    ]


def windows():
    """A title, two columns, and a window in each: its first row, and how many rows."""
    yield from [
        ("Bitpacked and Blockwise, rows 1 and 2", (BITPACKED, BLOCKWISE), ((1, 2), (1, 2))),
        ("other rows of one column", (BLOCKWISE, BLOCKWISE), ((0, 2), (1, 2))),
        ("row 1, refused on the left side", (BLOCKWISE_REFUSED, BITPACKED), ((1, 2), (1, 2))),
        ("row 1, refused on both sides", (BLOCKWISE_REFUSED, LINEAR_REFUSED), ((1, 1), (1, 1))),
        ("a row more on the right side", (BITPACKED, LINEAR), ((1, 1), (1, 2))),
        ("a row more on the left side", (BITPACKED, BLOCKWISE), ((0, 3), (0, 2))),
        ("no rows on the right side", (BITPACKED, BLOCKWISE), ((2, 1), (3, 0))),
        ("no rows at all", (BITPACKED, BLOCKWISE), ((3, 0), (0, 0))),
        ("the last rows of two blocks, and of a line", (BLOCKS, LINE), ((510, 3), (510, 3))),
        ("rows of two blocks, and the rows before them", (BLOCKS, BLOCKS), ((510, 3), (509, 3))),
        ("the second block, and rows of the first", (BLOCKS, BLOCKS), ((512, 1), (300, 2))),
        ("a window that is refused, and the whole column", (BITPACKED, BLOCKWISE), ((1, 3), (0, 3))),
    ]


def compare():
    """A title, two columns, and a window in each."""
    yield from [(title, columns, (model.WHOLE, model.WHOLE)) for title, *columns in pairs()]
    yield from windows()


def columns():
    """A title, and a column."""
    yield from [
        ("Bitpacked: 10, 30, 20", BITPACKED),
        ("Bitpacked: no rows", NO_ROWS),
        ("Bitpacked, 64 bits: 0, 18446744073709551615, 1", h("0080817f7f7f7f7f7f7f7f7f81830000000000000000ffffffffffffffff0100000000000000")),
        ("Linear, rising by 3: 100, 104, 106, 109", h("01e481898400000000b0e40102")),
        ("Blockwise: 10, 30, 20", BLOCKWISE),
        ("the same with another byte: row 1 is above the maximum", BLOCKWISE_REFUSED),
        ("Blockwise, falling: 3, 2, 1, 0", h("02808183840e7f7f7f7f6f7f7f7f7f8183010c000000")),
        ("Bitpacked: every row is above the maximum", h("0080818284ff")),
        ("Blockwise, two blocks: the tens to 5120", BLOCKS),
    ]
    yield from REFUSED + [TOO_MANY_BYTES]
