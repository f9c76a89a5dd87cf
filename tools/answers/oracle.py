"""Asking the oracle: the Rust crate's own code, unchanged, behind a program that answers a line for each line of requests."""

import subprocess


def ask(program, requests):
    """The oracle's answers, one a request: what stands behind `ok`, or None where it gave an error or panicked."""
    if not requests:
        return []
    run = subprocess.run([program], input="\n".join(requests) + "\n", capture_output=True, text=True, check=True)
    answers = run.stdout.splitlines()
    assert len(answers) == len(requests), "an answer for each request"
    return [a[3:] if a.startswith("ok") else None for a in answers]


def spelled(codecs):
    """A codec list as the oracle takes it."""
    return "".join(map(str, codecs)) or "-"


def write_request(values, codecs):
    return f"write {spelled(codecs)} {' '.join(map(str, values))}"


def load_request(s, limit, type="u64"):
    return f"load {type} {s.hex() or '-'} {limit}"


def find_request(s, low, high, first, end, type="u64"):
    return f"find {type} {s.hex() or '-'} {low} {high} {first} {end}"


def loaded(answer):
    """Rows, minimum, maximum and the values, a value that panicked being None."""
    numbers, values = answer.split(":")
    return *map(int, numbers.split()), [None if v == "panic" else int(v) for v in values.split()]
