#!/usr/bin/env python3
"""The lists among the stored answers, as the cases of `test_oracle`.

    tools/answers/written.py cases > crates/test_oracle/data/cases      the cases that it reads
    tools/answers/written.py stdout > crates/test_oracle/stdout         what it has to print

A case is a list, its codecs and its column: the oracle's, but for values of another kind than plain numbers and for refusals, which are the model's. All short lists are taken, and of the long
ones, which take most of the bytes, one in six.
"""

import os
import sys

import model
from records import LIST, read_file, words

KINDS = ("numbers", "signed numbers", "dates", "bools", "floats")
LONG = 130
ONE_IN = 6


def stored():
    folder = os.path.join(os.path.dirname(os.path.abspath(__file__)), "../../tests/stored")
    for name in sorted(os.listdir(folder)):
        with open(os.path.join(folder, name), "rb") as f:
            yield from ((name.removesuffix(".cases"), case) for case in read_file(f.read()) if case["kind"] == LIST)


def cases():
    """Title, kind, codecs, values and column of each case; the number of the refusal where there is no column."""
    long = 0
    for name, case in stored():
        values = case["rule"].values()
        if len(values) > LONG:
            long += 1
            if long % ONE_IN:
                continue
        if case["number"] == 4:
            continue  # the program's output has room
        column = b""
        if case["number"] == 0:
            column = model.write([model.stored(case["values"], v) for v in values], case["codecs"], case["room"])
            assert len(column) == case["length"] and column.startswith(case["shown"]), "the stored column"
        codecs = " ".join(str(codec) for codec in case["codecs"][:8])
        title = f"{name}: {len(values)} {KINDS[case['values']]}, codecs {codecs}\n"
        yield title, case["values"], bytes(case["codecs"]), words(values), column, case["number"]


def spelled(title, kind, codecs, values, column, number):
    parts = (title.encode(), codecs, values, column)
    return b"".join(n.to_bytes(4, "little") for n in (*map(len, parts), kind)) + b"".join(parts)


def said(title, kind, codecs, values, column, number):
    return title + (f"refused {number}\n" if number else "written as stored\nyes\n")


if __name__ == "__main__":
    match sys.argv[1:]:
        case ["cases"]:
            sys.stdout.buffer.write(b"".join(spelled(*case) for case in cases()))
        case ["stdout"]:
            sys.stdout.write("".join(said(*case) for case in cases()))
        case _:
            sys.exit(__doc__)
