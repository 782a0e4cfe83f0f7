"""Bytes that are changed at random, for bench/fuzz.sh. Each change is made from the random choices, the bytes, other
inputs of the kind, and pieces that mean something in them."""

import re

# Changes never make an input longer than this.
LONGEST = 200_000


def mutated(random, data, others, tokens):
    """Some bytes, changed in one to four places."""
    for _ in range(random.choice((1, 1, 1, 2, 4))):
        data = random.choice(CHANGES)(random, data, others, tokens)
    return data[:LONGEST]


def flipped(random, data, others, tokens):
    at = random.randrange(len(data) + 1)
    return data[:at] + bytes(octet ^ 1 << random.randrange(8) for octet in data[at : at + 1]) + data[at + 1 :]


def put_in(random, data, others, tokens):
    at = random.randrange(len(data) + 1)
    return data[:at] + random.choice(tokens) + data[at:]


def put_over(random, data, others, tokens):
    at, token = random.randrange(len(data) + 1), random.choice(tokens)
    return data[:at] + token + data[at + len(token) :]


def taken_out(random, data, others, tokens):
    at = random.randrange(len(data) + 1)
    return data[:at] + data[at + random.choice((1, 1, 2, 5, 20, 100, 1_000)) :]


def repeated(random, data, others, tokens):
    at = random.randrange(len(data) + 1)
    piece = data[at : at + random.choice((1, 2, 5, 20, 100, 1_000))]
    return data[:at] + piece * random.choice((2, 2, 3, 10, 100, 1_000)) + data[at:]


def moved(random, data, others, tokens):
    at, to = sorted(random.randrange(len(data) + 1) for _ in range(2))
    end = min(to, at + random.choice((1, 5, 20, 100)))
    return data[:at] + data[end:to] + data[at:end] + data[to:]


def joined(random, data, others, tokens):
    other = random.choice(others)
    return data[: random.randrange(len(data) + 1)] + other[random.randrange(len(other) + 1) :]


def cut(random, data, others, tokens):
    return data[: random.randrange(len(data) + 1)]


NUMBER = re.compile(rb"[0-9]+")
NUMBERS = [b"0", b"00", b"1", b"-1", b"9", b"10", b"63", b"64", b"65", b"999", b"1000", b"1001", b"16777216"]
NUMBERS += [b"16777217"]
NUMBERS += [b"4294967296", b"9007199254740993", b"18446744073709551615", b"18446744073709551616", b"1e9", b"0.5"]
NUMBERS += [b"1" * 40]


def renumbered(random, data, others, tokens):
    found = list(NUMBER.finditer(data))
    if not found:
        return put_in(random, data, others, NUMBERS)
    one = random.choice(found)
    return data[: one.start()] + random.choice(NUMBERS) + data[one.end() :]


CHANGES = [flipped, put_in, put_in, put_over, taken_out, taken_out, repeated, moved, joined, cut, renumbered]
CHANGES += [renumbered]
