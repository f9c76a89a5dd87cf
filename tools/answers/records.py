"""The case files: how a record is laid out, and how a long list of values follows from a rule. README.md beside this file says it in words."""

from model import WORD, Column

LIST, OPEN, MADE, UNDER, RUN, NARROW = 1, 2, 3, 4, 5, 6
MODEL, ORACLE = 0, 1
PREFIX = 400  # longer columns are told by their first bytes and the checksum
FIRST = 32
RANDOM_FACTOR, RANDOM_STEP = 6364136223846793005, 1442695040888963407
CHECK_START, CHECK_FACTOR = 14695981039346656037, 1099511628211


def checksum(s):
    sum = CHECK_START
    for byte in s:
        sum = (sum + byte) * CHECK_FACTOR % WORD
    return sum


class Rule:
    """A list of values: some that are written out, and behind them what the rule gives at each row."""

    FIELDS = ("rows", "start", "step", "along", "seed", "factor", "noise")

    def __init__(self, rows, start=0, step=0, along=WORD - 1, seed=0, factor=0, noise=0, first=()):
        self.rows, self.start, self.step, self.along = rows, start % WORD, step % WORD, along
        self.seed, self.factor, self.noise, self.first = seed, factor, noise, list(first)

    def numbers(self):
        return [getattr(self, name) for name in self.FIELDS]

    def values(self):
        values, state = [], self.seed
        for row in range(self.rows):
            state = (state * RANDOM_FACTOR + RANDOM_STEP) % WORD
            values.append((self.start + self.step * (row & self.along) + self.factor * (state // 2**20 & self.noise)) % WORD)
        return self.first + values[len(self.first) :]


def listed(values):
    """A list that is written out in full."""
    return Rule(len(values), first=values)


# ---- bytes


def words(numbers):
    return b"".join(n.to_bytes(8, "little") for n in numbers)


def padded(s):
    return bytes(s) + bytes(-len(s) % 8)


def record(kind, source, body, values=0):
    return bytes([kind, source, values, 0]) + (8 + len(body)).to_bytes(4, "little") + body


def list_record(case):
    column = case["column"]
    shown = column if len(column) <= PREFIX else column[:FIRST]
    numbers = [*case["rule"].numbers(), len(case["rule"].first), len(case["codecs"]), case["room"], *case["stats"]]
    numbers += [case["number"], case["also"], len(column), checksum(column), len(shown)]
    return record(LIST, case["source"], words(numbers + case["rule"].first) + padded(case["codecs"]) + padded(shown), case["values"])


def column_record(case):
    numbers = [case["room"] + 2**32 * case.get("sheet", 0), case["number"], case["also"], *case["numbers"]]
    numbers += [len(case["table"]), len(case["bytes"]), len(case["rows"]), len(case["lookups"])]
    body = words(numbers + case["table"]) + padded(case["bytes"])
    body += words([n for row in case["rows"] for n in row])
    body += words([n for asked, number, also, found in case["lookups"] for n in (*asked, number, also, len(found), *found)])
    return record(case["kind"], case["source"], body)


def to_bytes(case):
    return list_record(case) if case["kind"] == LIST else column_record(case)


# ---- and back


class Walk:
    def __init__(self, s, at, end):
        self.s, self.at, self.end = s, at, end

    def take(self, many):
        assert self.at + many <= self.end, "a record ends early"
        self.at += many
        return self.s[self.at - many : self.at]

    def words(self, many):
        taken = self.take(8 * many)
        return [int.from_bytes(taken[i : i + 8], "little") for i in range(0, 8 * many, 8)]

    def word(self):
        return self.words(1)[0]

    def bytes(self, many):
        taken = self.take(many + -many % 8)
        assert not any(taken[many:]), "padding is zeros"
        return taken[:many]


def read_list(walk):
    numbers = walk.words(len(Rule.FIELDS))
    literal, codecs, room = walk.words(3)
    case = {"room": room, "stats": walk.words(4)}
    case["number"], case["also"], case["length"], case["checksum"], shown = walk.words(5)
    case["rule"] = Rule(*numbers, walk.words(literal))
    case["codecs"] = list(walk.bytes(codecs))
    case["shown"] = walk.bytes(shown)
    return case


def read_lookup(walk):
    asked, number, also = walk.words(5), walk.word(), walk.word()
    return asked, number, also, walk.words(walk.word())


def read_column(walk):
    lent, number, also = walk.words(3)
    sheet, room = divmod(lent, 2**32)
    case = {"sheet": sheet, "room": room, "number": number, "also": also, "numbers": walk.words(len(Column.FIELDS))}
    table, size, rows, lookups = walk.words(4)
    case["table"] = walk.words(table)
    case["bytes"] = walk.bytes(size)
    case["rows"] = [walk.words(3) for _ in range(rows)]
    case["lookups"] = [read_lookup(walk) for _ in range(lookups)]
    return case


def read_file(s):
    at = 0
    while at < len(s):
        kind, source, length = s[at], s[at + 1], int.from_bytes(s[at + 4 : at + 8], "little")
        values = s[at + 2]
        assert kind in (LIST, OPEN, MADE, UNDER, RUN, NARROW) and source in (MODEL, ORACLE) and values <= 4 * (kind == LIST) and s[at + 3] == 0, "a record's first word"
        walk = Walk(s, at + 8, at + length)
        case = read_list(walk) if kind == LIST else read_column(walk)
        assert walk.at == walk.end, "a record has nothing left over"
        yield {"kind": kind, "source": source, "values": values, **case}
        at += length
