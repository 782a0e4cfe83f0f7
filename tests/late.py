"""Gives servers stores of many changes on one permanode in a dozen orders, and compares every search for a value of it,
by claims of every date and at some dates, with a second implementation; and the command's, over the same folder.

The changes add, set and remove values, some claims have several changes, some are deleted, some of these deletions are
deleted too, and many have one date.
"""

import json

import harness
import reference
import writing
from harness import chance, compare, main
from inputs import KEYRING
from reference import ref_of
from serving import Server, Talk
from writing import claim, delete, key_blob, multi, pack, permanode

CHANGES, DATES, VALUES, ASKED, ORDERS, BATCH = 3_000, 900, 60, 40, 12, 400
ATTRIBUTES = "tag", "title", "camliMember"
KEY = key_blob()
BOUNDARY = "b" * 24


def date(number):
    return reference.date_text(writing.FIRST_MOMENT + number * 10**9)


def change_of(choice, node, clears):
    """A change of the permanode. One in so many removes all values or leaves only one."""
    attribute, value = choice.choice(ATTRIBUTES), f"v{choice.randrange(VALUES)}"
    if choice.randrange(clears) == 0:
        return choice.choice([("set", node, attribute, value), ("del", node, attribute, "")])
    return choice.choice(["add", "add", "add", "del"]), node, attribute, value


def store_of(name, clears):
    choice = chance(name)
    node = permanode(f"{choice.getrandbits(128):032x}")
    claims = []
    while len(claims) < CHANGES:
        day = date(choice.randrange(DATES))
        kind = choice.random()
        if kind < 0.85 or not claims:
            claims.append(claim(*change_of(choice, ref_of(node), clears), day))
        elif kind < 0.88:
            changes = [change_of(choice, ref_of(node), clears) for _ in range(choice.randrange(2, 5))]
            claims.append(multi(changes, day))
        else:
            claims.append(delete(ref_of(choice.choice(claims)), day))
    claims = list(dict.fromkeys(claims))
    return node, claims


def orders_of(name, node, claims):
    """A dozen orders: by date, backwards, by ref, the key last, the permanode last, and shuffled ones."""
    by_date = sorted(claims, key=lambda blob: (json.loads(blob)["claimDate"], ref_of(blob)))
    front = [KEY, node]
    yield "by date", [*front, *by_date]
    yield "backwards", [*front, *reversed(by_date)]
    yield "by ref", sorted([*front, *claims], key=ref_of)
    yield "the key last", [node, *by_date, KEY]
    yield "the permanode last", [KEY, *by_date, node]
    choice = chance(name, "orders")
    while True:
        some = [*claims]
        choice.shuffle(some)
        yield "shuffled", [*front, *some]


def body_of(blobs):
    text = b""
    for blob in blobs:
        head = f'--{BOUNDARY}\r\nContent-Disposition: form-data; name="{ref_of(blob)}"; filename="f"\r\n\r\n'
        text += head.encode() + blob + b"\r\n"
    return text + f"--{BOUNDARY}--\r\n".encode()


def post(path, body, kind):
    head = f"POST {path} HTTP/1.1\r\nHost: localhost:3179\r\nContent-Type: {kind}\r\nContent-Length: {len(body)}\r\n\r\n"
    return head.encode() + body


def query(attribute, value, when):
    asked = {"constraint": {"permanode": {"attr": attribute, "value": value}}}
    if when is not reference.ALWAYS:
        asked["at"] = reference.date_text(when)
    return json.dumps(asked).encode()


def expectations(name, node, claims):
    """For each attribute and value, at all times and at some: whether the permanode is found."""
    archive = reference.Archive({ref_of(blob): blob for blob in [KEY, node, *claims]}, reference.read_keyring(KEYRING))
    choice = chance(name, "asked")
    times = [writing.FIRST_MOMENT + choice.randrange(DATES) * 10**9 for _ in range(8)]
    found = []
    for attribute in ATTRIBUTES:
        for when in [reference.ALWAYS, *times]:
            values = set(archive.values(ref_of(node), attribute, when))
            asked = range(VALUES) if when is reference.ALWAYS else choice.sample(range(VALUES), ASKED)
            found += [(attribute, f"v{n}", when, f"v{n}" in values) for n in asked]
    return found


def check_order(program, name, order, blobs, node, expected, indexers):
    folder = program.new_path()
    folder.mkdir()
    (folder / "keyring").write_bytes(KEYRING)
    what = f"{name}, {order}, {indexers}"
    words = [f"--indexers={indexers}"]
    with Server(program, folder, *words) as server, Talk(server.port) as talk:
        for first in range(0, len(blobs), BATCH):
            kind = f"multipart/form-data; boundary={BOUNDARY}"
            talk.send(post("/camli/upload", body_of(blobs[first : first + BATCH]), kind))
            compare(what, "an upload", b"200", talk.read_text(what)[9:12])
        compare_answers(what, talk, node, expected)
    with Server(program, folder, *words) as server, Talk(server.port) as talk:
        compare_answers(f"{what}, started again", talk, node, expected)
    attribute, value, _, is_found = expected[0]
    words = ["search", str(folder), f"--attr={attribute}", f"--value={value}"]
    program.check(f"{what}, the command", words, reference.search_text([ref_of(node)] * is_found) + b"\n")


def compare_answers(what, talk, node, expected):
    for attribute, value, when, is_found in expected:
        talk.send(post("/camli/search/query", query(attribute, value, when), "application/json"))
        body = talk.read_text(what).partition(b"\r\n\r\n")[2]
        answer = reference.search_text([ref_of(node)] * is_found)
        compare(f"{what}: {attribute} {value} at {when}", "the answer", answer, body.rstrip(b"\n"))


def checks(name, clears):
    node, claims = store_of(name, clears)
    expected = expectations(name, node, claims)
    orders = orders_of(name, node, claims)
    return [
        lambda program, number=number, order=order, blobs=blobs: check_order(
            program, name, order, blobs, node, expected, (1, 2, 4)[number % 3]
        )
        for number, (order, blobs) in zip(range(ORDERS), orders)
    ]


def few_clears():
    return checks("few clears", 100)


def many_clears():
    return checks("many clears", 6)


def checks_of(program, group):
    return [lambda check=check: check(program) for check in group()]


if __name__ == "__main__":
    main("late.sh", [few_clears, many_clears], (), checks_of)
