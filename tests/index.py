"""Runs `lab insert` and similar commands over packs whose blobs depend on one another in ways that could cost much.
Each run has to end soon, and to find as many holders of a value as there are.
"""

import harness
import writing
from reference import ref_of
from writing import keyring_line, pack

# The number of blobs of each shape, and the seconds in which a run over it has to end. A chain of deletions that comes
# in order takes time in the square of its length (docs/index.md, "What an insert costs"), so that this one is shorter.
MEMBERS, DELETIONS, DELETIONS_IN_ORDER, LATE, TREES, SOON = 20_000, 10_000, 2_000, 100_000, 60, 100
DATE = "2020-01-01T00:00:00Z"
KEY = writing.key_blob()
NODE = writing.permanode()
TAG = writing.claim("set", ref_of(NODE), "tag", "a", DATE)
BOTH_ORDERS = ("insert", "insert-backwards")
# Claims of several changes, and the changes of each.
CLAIMS, CHANGES = 20, 1_000


def members():
    """A permanode with many members, filled in at once."""
    refs = [(f"sha224-{number:056x}", f"sha1-{number:040x}")[number % 2] for number in range(MEMBERS)]
    claims = [writing.claim("add", ref_of(NODE), "camliMember", ref, DATE) for ref in refs]
    return checks("members", [KEY, NODE, *claims], ("fill",), "camliMember", refs[MEMBERS // 2], 1)


def in_order():
    """Claims on a permanode in the order of their dates, one by one: additions, and sets of ten attributes in turn."""
    changes = {
        "additions": [("add", "tag", f"v{number}") for number in range(MEMBERS)],
        "sets in turn": [("set", f"a{n % 10}" if n % 10 else "tag", f"v{n}") for n in range(MEMBERS)],
    }
    dates = [writing.date_text(number * 10**9) for number in range(MEMBERS)]
    return [
        check
        for what, acts in changes.items()
        for claims in [[writing.claim(act, ref_of(NODE), *rest, date) for (act, *rest), date in zip(acts, dates)]]
        for check in checks(f"{what} in order", [KEY, NODE, *claims], ("insert",), "tag", f"v{MEMBERS - 10}", 1)
    ]


def deletions():
    return chain_checks(DELETIONS, ("insert-backwards", "fill")) + chain_checks(DELETIONS_IN_ORDER, ("insert",))


def chain_checks(count, words):
    """Each deletes the one before. If their number is even, the last one undoes the first."""
    chain = [KEY, NODE, TAG]
    for _ in range(count):
        chain.append(writing.delete(ref_of(chain[-1]), DATE))
    even = checks("an even chain of deletions", chain, words, "tag", "a", 1)
    return even + checks("an odd chain of deletions", chain[:-1], words, "tag", "a", 0)


def late_key():
    """Blobs that all wait for one key, which comes last; or first, if the last one is the first to come."""
    nodes = [writing.permanode(f"{number:032x}") for number in range(LATE)]
    return checks("a key that comes last", [*nodes, TAG, NODE, KEY], BOTH_ORDERS, "tag", "a", 1)


def several_changes():
    """Claims of 1,000 changes: each of one permanode, and one of each of 1,000; claims that wait for their key; falsely
    signed ones; and one that is deleted."""
    nodes = [writing.permanode(f"{number:032x}") for number in range(CHANGES)]
    refs = list(map(ref_of, nodes))
    on_one = [("add", refs[0], "tag", f"v{place}") for place in range(CHANGES)]
    on_all = [("add", ref, "tag", "a") for ref in refs]
    dates = [f"2020-01-01T00:00:{number:02}Z" for number in range(CLAIMS)]
    ones, alls = ([writing.multi(some, date) for date in dates] for some in (on_one, on_all))
    false = [writing.multi(on_all, date, secret=b"false") for date in dates]
    gone = writing.delete(ref_of(alls[0]), DATE)
    return [
        *checks("changes of one permanode", [KEY, *nodes, *ones], BOTH_ORDERS, "tag", "v7", 1),
        *checks("changes of 1,000 permanodes", [*alls, *nodes, KEY], BOTH_ORDERS, "tag", "a", CHANGES),
        *checks("changes falsely signed", [KEY, *nodes, *false], BOTH_ORDERS, "tag", "a", 0),
        *checks("changes that are deleted", [KEY, *nodes, alls[0], gone], BOTH_ORDERS, "tag", "a", 0),
    ]


def shared_trees():
    """Trees each of which names the one before twice."""
    trees = [writing.bytes_blob([writing.part(1)])]
    for _ in range(TREES):
        trees.append(writing.bytes_blob([writing.part(1, ref_of(trees[-1]), "bytesRef")] * 2))
    trees.append(writing.file_blob("n", [writing.part(2, ref_of(trees[-1]), "bytesRef")]))
    return checks("trees that share", [*trees, TAG, NODE, KEY], BOTH_ORDERS, "tag", "a", 1)


def checks(what, blobs, words, attribute, value, holders):
    source, out = pack(*blobs), f"{len(blobs)} {holders}\n".encode()
    return [
        lambda program, word=word: program.check(
            f"{what}: {word}", (word, keyring_line(), attribute, value), out, source=source, seconds=SOON
        )
        for word in words
    ]


# They are timed, so that nothing else runs at the same time.
GROUPS = [members, in_order, deletions, late_key, several_changes, shared_trees]


def checks_of(program, group):
    return [lambda check=check: check(program) for check in group()]


if __name__ == "__main__":
    harness.main("index.sh", [], GROUPS, checks_of)
