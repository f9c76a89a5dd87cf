#!/usr/bin/env python3
"""The cases of `test_text`: the file that it reads, and what it has to print, by the model alone.

    tools/answers/texts.py cases > crates/test_text/data/cases
    tools/answers/texts.py stdout > crates/test_text/stdout
"""

import sys

import checks
import model
import replays
import shown


def cases():
    """A word, a title, up to three pieces, and what is printed: of `list` (0) a column, of `compare` (1) two columns and their windows, of `replay` (2) a column and a
    recording, of `check` (3) a sheet, a column and values."""
    for title, column in shown.columns():
        yield 0, title, [column], model.listing(column)
    for title, columns, windows in shown.compare():
        yield 1, title, [*columns, numbers(*windows[0], *windows[1])], model.comparison(*columns, *windows)
    for title, *pieces in (case for _, group in replays.cases() for case in group):
        yield 2, title, pieces, replays.report(*pieces)
    for title, *pieces in checks.program_cases():
        yield 3, title, pieces, checks.judgement(*pieces)


def numbers(*items):
    return b"".join(item.to_bytes(4, "little") for item in items)


def file():
    """A case is its word, the lengths of its title and of three pieces, then these."""
    for word, title, pieces, _ in cases():
        line = title.encode() + b"\n"
        pieces = pieces + [b""] * (3 - len(pieces))
        yield numbers(word, len(line), *map(len, pieces)) + line + b"".join(pieces)


if __name__ == "__main__":
    if sys.argv[1] == "cases":
        sys.stdout.buffer.write(b"".join(file()))
    else:
        sys.stdout.write("".join(f"{title}\n{text}" for _, title, _, text in cases()))
