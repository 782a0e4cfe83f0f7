"""Runs `lab orders` over packs of a few blobs. For every order in which these, and each part of them, can come, there
are three indexes: one that takes them one by one, one in which each is placed, and one that takes them all at once.
Each has to return what the reference returns for the blobs that came, and not to be stale.

The tags of a permanode after all blobs came are written down beside them, and the reference has to return these too.
"""

import itertools
from typing import Callable, NamedTuple

import reference
import writing
from harness import compare, compare_ending, main
from inputs import CLAIM, DELETE, KEY, NODE, OTHER_SECRET, changed, day
from reference import older_ref_of, ref_of
from writing import claim, delete, key_blob, keyring_line, multi, pack, permanode, permanode_payload, signed

KEYRING = keyring_line() + keyring_line("other", OTHER_SECRET)
ALWAYS = "always"
NOON = "T12:00:00Z"
MOMENTS = ("2019-12-31T00:00:00Z", *(day(number, NOON) for number in range(1, 5)), ALWAYS)
# All tags that a permanode has at any time. A tag is one letter.
TAGS = "akuvxy"
LETTERS = "abcdef"
WAYS = ("one by one", "placed", "all at once")


class Row(NamedTuple):
    """Blobs that come in every order, a permanode among them, the tags that it then has at some moments, and the names
    of the blobs."""

    what: str
    node: bytes
    blobs: tuple
    tags: dict
    name_of: Callable = ref_of


# Blobs

def on_node(kind, value, number, node=NODE):
    """A claim of a day on the tags of a permanode."""
    return claim(kind, ref_of(node), "tag", value, day(number))


def delete_of(blob, number):
    return delete(ref_of(blob), day(number))


# A deletion of DELETE, one of that, and a second one of CLAIM.
UNDELETE = delete_of(DELETE, 3)
DELETE_AGAIN = delete_of(UNDELETE, 4)
DELETE_TOO = delete_of(CLAIM, 4)
DELETE_NODE = delete_of(NODE, 2)
UNDELETE_NODE = delete_of(DELETE_NODE, 3)
# At one date. The ref of the second is the greater one.
SET_U, SET_V = on_node("set", "u", 2), on_node("set", "v", 2)
ADD_X, ADD_X_TOO, ADD_Y = on_node("add", "x", 2), on_node("add", "x", 3), on_node("add", "y", 3)
DROP_X, DROP_ALL = on_node("del", "x", 4), on_node("del", "", 4)
# Its signature has another first digit.
FORGED = changed(CLAIM, b'"camliSig":"1', b'"camliSig":"2')
# A key instead of random digits.
KEYED = signed(changed(permanode_payload(), f'"random":"{writing.RANDOM}"', '"key":"some words"'))
SECOND_NODE = permanode("0" * 32)
OTHER_KEY = key_blob("other")
BY_OTHER = delete(ref_of(CLAIM), day(2), ref_of(OTHER_KEY), OTHER_SECRET)


# Rows

def deletions():
    """Deletions, deletions of these, and so on."""
    front = (KEY, NODE, CLAIM)
    tags = {MOMENTS[0]: "", day(1, NOON): "a", day(2, NOON): "", day(3, NOON): "a", ALWAYS: "a"}
    gone = {day(3, NOON): "a", ALWAYS: ""}
    return [
        Row("a deletion is deleted", NODE, (*front, DELETE, UNDELETE), tags),
        Row("its deletion too", NODE, (*front, DELETE, UNDELETE, DELETE_AGAIN), gone),
        Row("one deletion of two is deleted", NODE, (*front, DELETE, DELETE_TOO, UNDELETE), gone),
        Row("a permanode comes back", NODE, (*front, DELETE_NODE, UNDELETE_NODE), {day(2, NOON): "a", ALWAYS: "a"}),
        Row("a deletion by another key", NODE, (*front, OTHER_KEY, BY_OTHER), {day(1, NOON): "a", ALWAYS: ""}),
    ]


def changes():
    """Values that are set, added and removed."""
    front = (KEY, NODE, ADD_X)
    return [
        Row("two claims at one date", NODE, (KEY, NODE, SET_U, SET_V), {day(1, NOON): "", ALWAYS: "v"}),
        Row("a value is added twice", NODE, (*front, ADD_X_TOO), {day(2, NOON): "x", ALWAYS: "xx"}),
        Row("equal values go", NODE, (*front, ADD_X_TOO, DROP_X), {day(3, NOON): "xx", ALWAYS: ""}),
        Row("all values go", NODE, (*front, ADD_Y, DROP_ALL), {day(3, NOON): "xy", ALWAYS: ""}),
    ]


def permanodes():
    """Which permanodes and claims count."""
    keyed, second = on_node("set", "k", 1, KEYED), on_node("add", "a", 3, SECOND_NODE)
    return [
        Row("a key, a permanode, its claim", NODE, (KEY, NODE, CLAIM), {MOMENTS[0]: "", ALWAYS: "a"}),
        Row("a false signature", NODE, (KEY, NODE, FORGED), {day(1, NOON): "", ALWAYS: ""}),
        Row("a permanode with a key", KEYED, (KEY, KEYED, keyed), {MOMENTS[0]: "", ALWAYS: "k"}),
        Row("two permanodes", SECOND_NODE, (KEY, NODE, CLAIM, SECOND_NODE, second), {day(2, NOON): "", ALWAYS: "a"}),
    ]


def tags(*changes, on=NODE):
    """Changes of the tags of a permanode, each given by its kind and its value."""
    return [(kind, ref_of(on), "tag", value) for kind, value in changes]


# On two permanodes, its deletion, and that of the deletion.
SEVERAL = multi(tags(("set", "a")) + tags(("set", "a"), on=SECOND_NODE), day(1))
DELETE_SEVERAL = delete_of(SEVERAL, 2)
UNDELETE_SEVERAL = delete_of(DELETE_SEVERAL, 3)
SET_U_V = multi(tags(("set", "u"), ("set", "v")), day(2))
ADD_X_Y = multi(tags(("add", "x"), ("add", "x"), ("del", "x"), ("add", "y")), day(2))
# At the date of SET_V and SET_U_V, whose refs are lesser ones.
SET_U_X = multi(tags(("set", "u"), ("add", "x")), day(2))
FORGED_SEVERAL = signed(writing.multi_payload(tags(("set", "a"), ("add", "x")), day(1)), OTHER_SECRET)


def several():
    """Claims of several changes."""
    both = (KEY, NODE, SECOND_NODE, SEVERAL, DELETE_SEVERAL)
    gone, back = {day(1, NOON): "a", ALWAYS: ""}, {day(1, NOON): "a", day(2, NOON): "", ALWAYS: "a"}
    return [
        Row("set twice by one claim", NODE, (KEY, NODE, SET_U_V), {day(1, NOON): "", ALWAYS: "v"}),
        Row("added, removed and added", NODE, (KEY, NODE, CLAIM, ADD_X_Y), {day(1, NOON): "a", ALWAYS: "ay"}),
        Row("one claim on two permanodes, deleted", NODE, both, gone),
        Row("the other of the two", SECOND_NODE, both, gone),
        Row("its deletion is deleted", NODE, (*both, UNDELETE_SEVERAL), back),
        Row("its deletion is deleted, of the other", SECOND_NODE, (*both, UNDELETE_SEVERAL), back),
        Row("several changes at a claim's date", NODE, (KEY, NODE, SET_V, SET_U_X), {day(1, NOON): "", ALWAYS: "ux"}),
        Row("a false signature of several", NODE, (KEY, NODE, CLAIM, FORGED_SEVERAL), {ALWAYS: "a"}),
        Row("two claims of several changes", NODE, (KEY, NODE, SET_U_V, SET_U_X), {day(1, NOON): "", ALWAYS: "ux"}),
    ]


# Targets of claims under older names. OTHER_NODE names the permanode by its other name, and OTHER_SIGNER its key.
OLDER_KEY = older_ref_of(KEY)
OLDER_NODE = permanode(signer=OLDER_KEY)
OLDER_CLAIM = claim("set", older_ref_of(OLDER_NODE), "tag", "a", day(1), OLDER_KEY)
OLDER_DELETE = delete(older_ref_of(OLDER_CLAIM), day(2), OLDER_KEY)
OLDER_UNDELETE = delete(older_ref_of(OLDER_DELETE), day(3), OLDER_KEY)
OTHER_NODE = claim("add", ref_of(OLDER_NODE), "tag", "x", day(1), OLDER_KEY)
OTHER_SIGNER = claim("add", older_ref_of(OLDER_NODE), "tag", "y", day(1))
# The permanode and the claim have their older names, the key and the deletion don't.
MIXED_CLAIM = claim("set", older_ref_of(NODE), "tag", "a", day(1))
MIXED_DELETE = delete(older_ref_of(MIXED_CLAIM), day(2))


def mixed_names(blob):
    return older_ref_of(blob) if blob in (NODE, MIXED_CLAIM) else ref_of(blob)


def older_names():
    """Blobs under the refs of older stores."""
    front = (KEY, OLDER_NODE, OLDER_CLAIM)
    tags = {MOMENTS[0]: "", day(1, NOON): "a", day(2, NOON): "", day(3, NOON): "a", ALWAYS: "a"}
    gone, held = {day(1, NOON): "a", day(2, NOON): "", ALWAYS: ""}, {MOMENTS[0]: "", ALWAYS: "a"}
    return [
        Row("older names", OLDER_NODE, (*front, OLDER_DELETE, OLDER_UNDELETE), tags, older_ref_of),
        Row("both names", NODE, (KEY, NODE, MIXED_CLAIM, MIXED_DELETE), gone, mixed_names),
        Row("claims by other names", OLDER_NODE, (*front, OTHER_NODE, OTHER_SIGNER), held, older_ref_of),
    ]


# Expected answers

def archive_of(blobs, name_of):
    return reference.Archive({name_of(blob): blob for blob in blobs}, reference.read_keyring(KEYRING))


def moment_of(text):
    return reference.ALWAYS if text == ALWAYS else reference.moment_of(text)


def told(row, came, moment, tag):
    """The answers of an index after some of the blobs came: its first permanode; for each one, in the order of the
    pack, the tags at a moment; and the holders of a tag by claims of every date."""
    archive = archive_of(came, row.name_of)
    refs = [ref for ref in map(row.name_of, row.blobs) if archive.is_permanode(ref)]
    words = [("first", ref) for ref in sorted(refs)[:1]]
    for ref in refs:
        words += [("permanode", ref), *(("value", value) for value in archive.values(ref, "tag", moment_of(moment)))]
    words += [("holder", ref) for ref in archive.holders("tag", tag)]
    return "".join(f" {word} {text}" for word, text in words)


def is_written(row):
    """The reference returns what is written down in a row."""
    archive, ref = archive_of(row.blobs, row.name_of), row.name_of(row.node)
    for when, tags in row.tags.items():
        values = archive.values(ref, "tag", moment_of(when))
        compare(f"{row.what}, at {when}", "tags by the reference", list(tags), values)
    for tag in TAGS:
        held = ref in archive.holders("tag", tag)
        compare(f"{row.what}, the tag {tag}", "whether it is held by the reference", tag in row.tags[ALWAYS], held)


def parts(program):
    """By the reference a permanode is there after it and its key came, and its tag after its claim came too."""
    blobs = {KEY, NODE, CLAIM}
    return [lambda came=set(came): is_there(came, {KEY, NODE} <= came, blobs <= came) for came in parts_of(blobs)]


def parts_of(blobs):
    return itertools.chain.from_iterable(itertools.combinations(blobs, count) for count in range(len(blobs) + 1))


def is_there(came, is_permanode, is_held):
    archive, ref = archive_of(came, ref_of), ref_of(NODE)
    compare(f"{len(came)} blobs of three", "whether the permanode is there", is_permanode, archive.is_permanode(ref))
    compare(f"{len(came)} blobs of three", "who holds the tag", [ref] * is_held, archive.holders("tag", "a"))


# Orders

def orders_of(blobs):
    """Every order in which each part of some blobs can come, as letters of the blobs."""
    letters = LETTERS[: len(blobs)]
    return [order for count in range(len(blobs) + 1) for order in map("".join, itertools.permutations(letters, count))]


def comes_in_any_order(program, row, moment, tag):
    what, orders = f"{row.what}, at {moment}, the tag {tag}", orders_of(row.blobs)
    words = ["orders", KEYRING, "tag", tag, moment, *orders]
    status, out, err = program.run(what, words, pack(*row.blobs, name_of=row.name_of))
    compare_ending(what, 0, status, err)
    blob_of = dict(zip(LETTERS, row.blobs))
    expected = {}
    for part in map(frozenset, orders):
        if part not in expected:
            expected[part] = told(row, [blob_of[letter] for letter in part], moment, tag)
    lines = out.decode().splitlines()
    compare(what, "how many lines are told", len(WAYS) * len(orders), len(lines))
    for (order, way), line in zip(itertools.product(orders, WAYS), lines):
        compare(f"{what}, the order {order!r}, {way}", "what is told", expected[frozenset(order)], line)


def checks_of(program, group):
    """Each row as it is written down; and each, at each of the moments, and for each of the tags, in any order."""
    if group is parts:
        return parts(program)
    rows, questions = group(), list(zip(MOMENTS, TAGS, strict=True))
    return [lambda row=row: is_written(row) for row in rows] + [
        lambda row=row, question=question: comes_in_any_order(program, row, *question)
        for row, question in itertools.product(rows, questions)
    ]


if __name__ == "__main__":
    main("arrivals.sh", [parts, deletions, changes, several, permanodes, older_names], checks_of=checks_of)
