#!/usr/bin/env python3
"""The column format in plain whole numbers: a second opinion, written from the rules and from nothing else.

It shares no code and no shape with the crates, nor with the Rust. Everything is a Python integer or a list of them, nothing is fast.
A call that refuses raises Refused with the refusal's number and the number it also returns (0 where it returns none).

As a program it writes the listing of the column on standard input, as `list` does:   tools/answers/model.py < docs/example.column
With two files as arguments it writes their comparison, as `compare` does:             tools/answers/model.py LEFT RIGHT
"""

import sys
from math import gcd

WORD = 2**64
ROWS = 2**32
BLOCK = 512
BITPACKED, LINEAR, BLOCKWISE = 0, 1, 2


class Refused(Exception):
    def __init__(self, number, also=0):
        super().__init__(number, also)
        self.number = number
        self.also = also


def demand(holds, number, also=0):
    if not holds:
        raise Refused(number, also)


# ---- small pieces


def varint(n):
    out = []
    while n > 127:
        out.append(n % 128)
        n //= 128
    return bytes(out + [n + 128])


def read_varint(s, at):
    """The number that starts at an offset, and the offset behind it."""
    value = 0
    for place in range(10):
        demand(at + place < len(s), 6, at)
        byte = s[at + place]
        if place == 9:
            demand(byte in (128, 129), 6, at)
        value += byte % 128 * 128**place
        if byte >= 128:
            return value, at + place + 1
    raise AssertionError("the tenth byte ends a varint or is refused")


def width(n):
    bits = n.bit_length()
    return 64 if bits > 56 else bits


def legal(bits):
    return bits <= 56 or bits == 64


def bytes_for(bits):
    return (bits + 7) // 8


def packed(bits, numbers):
    """The numbers' bits one after the other, as one great number, as bytes."""
    whole = sum(n << (bits * i) for i, n in enumerate(numbers))
    return whole.to_bytes(bytes_for(bits * len(numbers)), "little")


def unpack(bits, area, row):
    return int.from_bytes(area, "little") >> (bits * row) & (2**bits - 1)


class Stats:
    def __init__(self, values):
        self.rows = len(values)
        self.minimum = min(values, default=0)
        self.maximum = max(values, default=0)
        self.gcd = gcd(*[v - values[0] for v in values]) or 1
        self.count = (self.maximum - self.minimum) // self.gcd

    def head(self):
        return varint(self.minimum) + varint(self.gcd) + varint(self.count) + varint(self.rows)


def column_stats(values):
    demand(len(values) < ROWS, 1)
    return Stats(values)


# ---- lines


def line_at(slope, intercept, x):
    climb = x * slope % WORD // 2**32
    if climb >= 2**31:
        climb -= 2**32
    return (intercept + climb) % WORD


def train(ys):
    if len(ys) == 1:
        return 0, 0
    difference = (ys[-1] - ys[0]) % WORD
    rising = difference <= 2**63
    size = difference if rising else (ys[0] - ys[-1]) % WORD
    slope = 0
    if size < 2**31:
        slope = size * 2**32 // (len(ys) - 1)
        if not rising:
            slope = WORD - 1 - slope
    apart = [(y - line_at(slope, 0, x)) % WORD for x, y in enumerate(ys)]
    shift = ys[0] - (2**32 - 1)
    return slope, min(apart, key=lambda n: (n - shift) % WORD)


def residuals(slope, intercept, ys):
    return [(y - line_at(slope, intercept, x)) % WORD for x, y in enumerate(ys)]


def spell_line(slope, intercept):
    return varint(slope) + varint(intercept)


# ---- the three bodies, each with its code byte


def write_bitpacked(stats, values):
    multiples = [(v - stats.minimum) // stats.gcd for v in values]
    return bytes([BITPACKED]) + stats.head() + packed(width(stats.count), multiples)


def linear_line(values):
    """The final line and the width."""
    half = 2**63 - 1
    slope, intercept = train(values[:BLOCK])
    deviations = [(v + half - line_at(slope, intercept, x)) % WORD for x, v in enumerate(values)]
    final = (intercept + min(deviations) - half) % WORD
    return slope, final, width(max(deviations) - min(deviations))


def write_linear(stats, values):
    slope, intercept, bits = linear_line(values)
    fields = spell_line(slope, intercept) + bytes([bits])
    return bytes([LINEAR]) + stats.head() + fields + packed(bits, residuals(slope, intercept, values))


def blocks_of(values):
    return [values[i : i + BLOCK] for i in range(0, len(values), BLOCK)]


def write_blockwise(stats, values):
    area, footer = b"", b""
    for block in blocks_of([(v - stats.minimum) // stats.gcd for v in values]):
        slope, intercept = train(block)
        rest = residuals(slope, intercept, block)
        bits = width(max(rest))
        area += packed(bits, rest)
        footer += spell_line(slope, intercept) + bytes([bits])
    return bytes([BLOCKWISE]) + stats.head() + area + footer + len(footer).to_bytes(4, "little")


# ---- sizes, the choice, writing


def size_bitpacked(stats, values):
    return len(stats.head()) + bytes_for(width(stats.count) * stats.rows)


def size_linear(stats, values):
    if len(values) < BLOCK:
        return None
    slope, intercept, bits = linear_line(values)
    return len(stats.head()) + len(spell_line(slope, intercept)) + 1 + bytes_for(bits * stats.rows)


def in_f32(n):
    """A whole number rounded to f32: to 24 bits, halfway between two to the even one."""
    unit = 1 << max(n.bit_length() - 24, 0)
    units, rest = divmod(n, unit)
    up = 2 * rest > unit or 2 * rest == unit and units % 2 == 1
    return (units + up) * unit


# How many f32s below 2^k the least one lies whose log2, rounded to f32, is at least k; k from 0 to 64, by the oracle's build.
BELOW = (0,) * 3 + (1,) * 2 + (2,) * 4 + (5,) * 8 + (11,) * 16 + (22,) * 32


def exponent(gcd):
    """log2 of the gcd, in f32, without its fraction. The f32s below 2^k are 2^(k - 24) apart."""
    return max(k for k, below in enumerate(BELOW) if in_f32(gcd) << 24 >= (1 << k) * ((1 << 24) - below))


def saving(gcd, rows):
    return in_f32(exponent(gcd) * in_f32(rows)) // 8


def size_blockwise(stats, values):
    size = 4 + len(stats.head())
    for block in blocks_of(values):
        slope, intercept = train(block)
        bits = width(max(residuals(slope, intercept, block)))
        size += 1 + len(spell_line(slope, intercept)) + bytes_for(bits * len(block))
    return max(size - saving(stats.gcd, stats.rows), 0)


SIZES = (size_bitpacked, size_linear, size_blockwise)
WRITERS = (write_bitpacked, write_linear, write_blockwise)


def choose(stats, values, codecs):
    best = None
    for codec in codecs:
        size = SIZES[codec](stats, values)
        if size is not None and (best is None or size < best[0]):
            best = (size, codec)
    demand(best is not None, 3)
    return best[1]


def write(values, codecs, room):
    """The column's bytes; room is the length of the output that is lent."""
    stats = column_stats(values)
    for place, codec in enumerate(codecs):
        demand(codec <= 2, 2, place)
    column = WRITERS[choose(stats, values, codecs)](stats, values)
    demand(len(column) <= room, 4, len(column))
    return column


# ---- opening


class Column:
    """An opened column, or a made-up one. Slope, intercept and width are Linear's; other codecs leave them 0."""

    FIELDS = ("codec", "minimum", "gcd", "count", "rows", "start", "size", "slope", "intercept", "width")

    def __init__(self, *numbers):
        for name, number in zip(self.FIELDS, numbers, strict=True):
            setattr(self, name, number)
        self.first, self.seen = 0, self.rows

    def numbers(self):
        return [getattr(self, name) for name in self.FIELDS]

    def window(self, first, seen):
        """The same column through another window: its first row, and how many rows are seen."""
        column = Column(*self.numbers())
        column.first, column.seen = first, seen
        return column


def read_head(s):
    minimum, at = read_varint(s, 1)
    step, at = read_varint(s, at)
    demand(step != 0, 7)
    count, at = read_varint(s, at)
    demand(minimum + count * step < WORD, 8)
    rows, at = read_varint(s, at)
    demand(rows < ROWS, 8)
    return minimum, step, count, rows, at


def read_fields(s, at):
    slope, at = read_varint(s, at)
    intercept, at = read_varint(s, at)
    demand(at < len(s), 6, at)
    demand(legal(s[at]), 9, at)
    return slope, intercept, s[at], at + 1


def open_column(s, room):
    """The column and the table's numbers; room is the length of the table that is lent, in numbers."""
    demand(len(s) > 0 and s[0] <= 2, 5)
    minimum, step, count, rows, at = read_head(s)
    slope = intercept = bits = 0
    table = []
    if s[0] == BITPACKED:
        size = bytes_for(width(count) * rows)
        demand(at + size <= len(s), 10)
    elif s[0] == LINEAR:
        slope, intercept, bits, at = read_fields(s, at)
        size = bytes_for(bits * rows)
        demand(at + size <= len(s), 10)
    else:
        table, size = open_blocks(s, at, rows, room)
    return Column(s[0], minimum, step, count, rows, at, size, slope, intercept, bits), table


def open_blocks(s, at, rows, room):
    """The table's numbers and the size of the area that starts at an offset."""
    end = len(s) - 4
    demand(at <= end, 10)
    footer = end - int.from_bytes(s[end:], "little")
    demand(at <= footer, 10)
    blocks = (rows + BLOCK - 1) // BLOCK
    demand(blocks <= room // 4, 11, blocks)
    table, size, field = [], 0, footer
    for k in range(blocks):
        slope, intercept, bits, field = read_fields(s[:end], field)
        table += [slope, intercept, bits, size]
        size += bytes_for(bits * min(BLOCK, rows - BLOCK * k))
    demand(at + size <= footer, 10)
    return table, size


def first_longer(s):
    """The offset of the first number of a column that opens whose spelling is longer than it need be, 0 where there is none."""
    rows, at = read_head(s)[3:]
    fields = [(s, 1, 4)]
    if s[0] == LINEAR:
        fields.append((s, at, 2))
    if s[0] == BLOCKWISE:
        end = len(s) - 4
        at = end - int.from_bytes(s[end:], "little")
        for _ in range((rows + BLOCK - 1) // BLOCK):
            fields.append((s[:end], at, 2))
            at = read_fields(s[:end], at)[3]
    for part, at, count in fields:
        for _ in range(count):
            value, after = read_varint(part, at)
            if part[at:after] != varint(value):
                return at
            at = after
    return 0


# ---- acceptance sheets


def first_stray(s, column):
    """The first byte of an opened column that belongs to none of its parts, the length of the bytes where there is none."""
    parts = [range(column.start + column.size)]
    if column.codec == BLOCKWISE:
        end = len(s) - 4
        at = footer = end - int.from_bytes(s[end:], "little")
        for _ in range((column.rows + BLOCK - 1) // BLOCK):
            at = read_fields(s[:end], at)[3]
        parts += [range(footer, at), range(end, len(s))]
    return next((at for at in range(len(s)) if not any(at in part for part in parts)), len(s))


def open_under(sheet, s, room):
    """Opening under a sheet; sheet 2 refuses the first byte of a longer spelling, of no part, or with filling bits that are not 0."""
    demand(sheet in (1, 2), 18)
    column, table = open_column(s, room)
    if sheet == 2:
        offsets = {first_longer(s) or len(s), first_stray(s, column)}
        bits = (width(column.count), column.width, table[-2] if table else 0)[column.codec]
        used = bits * ((column.rows - 1) % BLOCK + 1) % 8
        last = column.start + column.size - 1
        if column.rows and used and s[last] >> used:
            offsets.add(last)
        demand(min(offsets) == len(s), 17, min(offsets))
    return column, table


# ---- reading and looking up


def narrow(column, first, count):
    """A window in a column's window."""
    demand(first + count <= column.seen, 12)
    demand(column.first + column.seen <= column.rows, 13)
    return column.window(column.first + first, count)


def read_row(column, table, s, asked):
    """A row of the window; a refusal names it as it was asked for."""
    demand(asked < column.seen, 12)
    demand(column.first + column.seen <= column.rows, 13)
    row = column.first + asked
    maximum = column.minimum + column.count * column.gcd
    demand(column.gcd != 0 and maximum < WORD, 13)
    slope, intercept, start, place = column.slope, column.intercept, 0, row
    bits = width(column.count) if column.codec == BITPACKED else column.width
    if column.codec == BLOCKWISE:
        block, place = row // BLOCK, row % BLOCK
        demand(block < len(table) // 4, 13)
        slope, intercept, bits, start = table[4 * block : 4 * block + 4]
    demand(legal(bits), 13)
    demand(column.start + column.size <= len(s), 13)
    demand(bits == 0 or 8 * start + (place + 1) * bits <= 8 * column.size, 13)
    n = unpack(bits, s[column.start + start : column.start + column.size], place) if bits else 0
    if column.codec == LINEAR:
        value = (line_at(slope, intercept, row) + n) % WORD
        demand(column.minimum <= value <= maximum, 14, asked)
        return value
    if column.codec == BLOCKWISE:
        n = (line_at(slope, intercept, place) + n) % WORD
    demand(n <= column.count, 14, asked)
    return column.minimum + column.gcd * n


def read_run(column, table, s, first, length):
    """The values of so many rows from one on. A run that leaves the rows is refused before all else, so an empty one may stand at their end."""
    demand(first + length <= column.seen, 12)
    return [read_row(column, table, s, row) for row in range(first, first + length)]


# ---- kinds of values, each value a word of 64 bits: numbers, signed numbers and dates in two's complement, bools, floats by their bits

U64, I64, DATE, BOOL, F64 = range(5)
SIGN = 2**63


def signed(word):
    return word - WORD if word >= SIGN else word


def stored(kind, word):
    """The number that a value is stored as."""
    if kind in (I64, DATE):
        return signed(word) + SIGN
    if kind == BOOL:
        return int(word != 0)
    if kind == F64:
        return word ^ (WORD - 1) if word & SIGN else word ^ SIGN
    return word


def reads_as(kind, number):
    """The value that a stored number reads as."""
    if kind in (I64, DATE):
        return (number - SIGN) % WORD
    if kind == BOOL:
        return int(number > 0)
    if kind == F64:
        return number ^ SIGN if number & SIGN else number ^ (WORD - 1)
    return number


def in_order(kind, word):
    """What a lookup compares: signed numbers by their order, false before true, floats by the numbers that they are stored as."""
    if kind in (I64, DATE):
        return signed(word)
    return stored(kind, word)


def look_up(column, table, s, low, high, first, end, room, kind=U64):
    """The rows found; room is the length of the list that is lent for them. The bounds are words of the kind."""
    rows = range(first, min(end, column.seen))
    values = [(row, in_order(kind, reads_as(kind, read_row(column, table, s, row)))) for row in rows]
    found = [row for row, value in values if in_order(kind, low) <= value <= in_order(kind, high)]
    demand(len(found) <= room, 15, len(found))
    return found


# ---- the listing, and the comparison


def open_in_program(s):
    """Opening within a program's limits: 16 for the bytes before all else, for the rows after opening, and in the place of 11."""
    demand(len(s) <= 65536, 16)
    try:
        column, table = open_column(s, 4 * 2048)
    except Refused as r:
        raise Refused(16) if r.number == 11 else r
    demand(column.rows <= 1048576, 16)
    return column, table


def listing(s):
    try:
        column, table = open_in_program(s)
    except Refused as r:
        return f"refused {r.number}\n"
    maximum = column.minimum + column.gcd * column.count
    text = f"codec {column.codec} rows {column.rows} min {column.minimum} max {maximum} gcd {column.gcd}\n"
    for row in range(column.rows):
        text += f"{row} {answer_text(column, table, s, row)}\n"
    return text + f"end {column.rows}\n"


def answer_text(column, table, s, row):
    try:
        return str(read_row(column, table, s, row))
    except Refused as r:
        return f"refused {r.number}"


WHOLE = (0, ROWS - 1)


def seen(column, window):
    """The column narrowed to a window, by its first row and how many rows; or as it was, where that is refused, as it is of WHOLE."""
    try:
        return narrow(column, *window)
    except Refused:
        return column


def comparison(left, right, lwindow=WHOLE, rwindow=WHOLE):
    """Rows of both windows that differ, then rows of one only, then the count of lines. Two answers are equal if their texts are."""
    sides = []
    for name, s, window in (("left", left, lwindow), ("right", right, rwindow)):
        try:
            column, table = open_in_program(s)
        except Refused as r:
            return f"{name} refused {r.number}\n"
        sides.append((seen(column, window), table, s))
    counts = [column.seen for column, _, _ in sides]
    lines = []
    for row in range(min(counts)):
        a, b = (answer_text(*side, row) for side in sides)
        if a != b:
            lines.append(f"{row} {a} {b}\n")
    for row in range(min(counts), max(counts)):
        a, b = (answer_text(*side, row) if row < count else "none" for side, count in zip(sides, counts))
        lines.append(f"{row} {a} {b}\n")
    return "".join(lines) + f"lines {len(lines)}\n"


def read_file(name):
    try:
        with open(name, "rb") as f:
            return f.read()
    except OSError:
        return b""


if __name__ == "__main__":
    if len(sys.argv) == 3:
        sys.stdout.write(comparison(read_file(sys.argv[1]), read_file(sys.argv[2])))
    else:
        sys.stdout.write(listing(sys.stdin.buffer.read()))
