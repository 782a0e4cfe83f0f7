"""Runs `perkeep search-pack` over many inputs, and compares standard output, standard error and the exit status byte by
byte.

Most inputs have an expected answer that is written down here, and the reference has to return it as well as the
program. The random packs are compared with the reference alone; so are random stores, which `perkeep search` searches
at many dates.
"""

import functools
import itertools
import mmap
import os
import pathlib
import subprocess
from typing import NamedTuple, Optional

import harness
import inputs
import older as older_store
import reference
import writing
from harness import Difference, chance, check, compare, compare_ending, finish, limited_to
from reference import older_ref_of, ref_of
from stores import Store, check_search
from writing import keyring_line, pack, record

EXAMPLES = pathlib.Path(__file__).resolve().parent.parent / "examples"


class Case(NamedTuple):
    """One start of the program, and how it has to end."""

    what: str
    words: tuple
    source: bytes = b""
    keyring: Optional[bytes] = inputs.KEYRING
    status: int = 0
    out: bytes = b""
    found: Optional[list] = None


def answer(what, source, found, attribute="tag", value="a", keyring=inputs.KEYRING):
    """A pack, and the search results: a list of refs, or whether the example's permanode is found. The reference must
    find it too."""
    if isinstance(found, bool):
        found = inputs.FOUND if found else []
    out = reference.search_text(sorted(found)) + b"\n"
    return Case(what, ("search-pack", attribute, value), source, keyring, out=out, found=sorted(found))


def as_reference(what, archive, source, keyring, attribute, value):
    """A pack whose answer the reference gives."""
    out = reference.search_text(archive.holders(attribute, value)) + b"\n"
    return Case(what, ("search-pack", attribute, value), source, keyring, out=out)


def refused(what, status, words=("search-pack", "tag", "a"), source=b"", keyring=inputs.KEYRING):
    return Case(what, tuple(words), source, keyring, status)


def check_case(program, case):
    """Runs a case; Difference if it ends otherwise."""
    if case.found is not None:
        _, attribute, value = case.words
        found = reference.archive_of(case.source, case.keyring or b"").holders(attribute, value)
        compare(case.what, "refs found by the reference", case.found, found)
    folder = program.working_folder(case.keyring)
    program.check(case.what, case.words, case.out, case.status, case.source, folder)


# Groups of cases

def example():
    """The example of the repository, or the same one made here."""
    try:
        source, keyring = (EXAMPLES / "tagged.pack").read_bytes(), (EXAMPLES / "keyring").read_bytes()
    except FileNotFoundError:
        source, keyring = inputs.EXAMPLE, keyring_line()
    archive = reference.archive_of(source, keyring)
    found = as_reference("the tag of the example", archive, source, keyring, "tag", "a")
    compare(found.what, "length of the answer", 87, len(found.out))
    yield found
    yield answer("a tag that isn't there", source, [], value="b", keyring=keyring)
    yield answer("an attribute that isn't there", source, [], attribute="title", keyring=keyring)
    yield answer("empty input", b"", [], keyring=keyring)
    yield answer("the example under this script's key", inputs.EXAMPLE, True)


def salvage():
    for what, source, is_found in inputs.damaged_packs():
        yield answer(what, source, is_found)


def torn():
    """A key, a permanode, its claim and a delete of the claim, cut off after each byte."""
    whole = pack(*inputs.EXAMPLE_BLOBS, inputs.DELETE)
    tagged = len(inputs.EXAMPLE)
    for cut in range(len(whole) + 1):
        yield answer(f"cut at {cut}", whole[:cut], tagged <= cut < len(whole))


def filled(front):
    """Another blob before it, so that a piece of the reading ends 199 bytes after this."""
    room = (PACK_PIECE - 199 - len(front) - len(writing.header(bytes(10_000)))) % PACK_PIECE
    return record(bytes(room if room >= 10_000 else room + PACK_PIECE)) + front


def torn_behind_many():
    """Many blobs, and then the claim and a delete of it, cut off after each byte of these two. A piece of the reading
    ends in the claim."""
    chances = chance("torn behind many")
    many = [chances.randbytes(chances.choice([1, 300, 9_000])) for _ in range(300)]
    front = filled(pack(*many) + inputs.BEFORE_CLAIM)
    whole = front + record(inputs.CLAIM) + record(inputs.DELETE)
    check("no piece ends in the claim", len(front) // PACK_PIECE < (len(front) + 200) // PACK_PIECE)
    tagged = len(front) + len(record(inputs.CLAIM))
    for cut in range(len(front), len(whole) + 1):
        yield answer(f"many blobs, cut at {cut}", whole[:cut], tagged <= cut < len(whole))


def flipped():
    """One bit of the claim's record turned over, in each of its bytes."""
    start = len(inputs.EXAMPLE) - len(record(inputs.CLAIM))
    for at in range(start, len(inputs.EXAMPLE)):
        damaged = bytearray(inputs.EXAMPLE)
        damaged[at] ^= 1 << at % 8
        yield answer(f"a flipped bit at {at}", bytes(damaged), [])


def json():
    for what, source, value, is_found in inputs.json_texts():
        yield answer(what, source, is_found, value=value)


def facts():
    for what, source, found in inputs.fact_packs():
        yield answer(what, source, found)


def dates():
    for text, is_date in inputs.DATES:
        yield answer(f"the date {text}", inputs.with_claim_changed(inputs.DATE, text), is_date)


def keys():
    for what, source, found, keyring in inputs.key_packs():
        yield answer(what, source, found, keyring=keyring)


def claims():
    for what, blobs, expected in inputs.claim_packs():
        for value, found in expected.items():
            yield answer(f"{what}: {value!r}", pack(*blobs), found, value=value)


def older():
    """Blobs under the refs of older stores, by which others name them or don't."""
    for what, source, found in inputs.older_signers():
        yield answer(what, source, found)
    for attribute, value, at, is_found in older_store.TAGS:
        if at is None:
            found = [older_store.NODE] if is_found else []
            yield answer(f"an older store: {attribute} {value}", older_store.PACK, found, attribute, value)


def orders():
    """The answer of a pack doesn't depend on the order of its blobs."""
    for what, blobs, found in inputs.order_packs():
        for number, order in enumerate(itertools.permutations(blobs)):
            yield answer(f"{what}, order {number}", pack(*order), found)


def words():
    for line, attribute, value in inputs.GOOD_WORDS:
        source, found = inputs.pack_with_value(attribute, value)
        case = answer(f"words {line}", source, found, attribute, value)
        archive = reference.archive_of(source, case.keyring)
        compare(case.what, "refs found by the reference", found, archive.holders(attribute, value))
        yield case._replace(words=tuple(line), found=None)
    for line in inputs.BAD_WORDS:
        yield refused(f"words {line}", 2, line, inputs.EXAMPLE)
        yield refused(f"words {line} with a bad keyring", 2, line, keyring=b"no keyring")
    for line in inputs.EMPTY_ATTRIBUTES:
        yield refused(f"words {line}", 4, line, inputs.EXAMPLE)


def keyrings():
    yield answer("no keyring", inputs.EXAMPLE, [], keyring=None)
    for what, text, source, found in inputs.good_keyrings():
        yield answer(what, source, found, keyring=text)
    for what, text in inputs.bad_keyrings():
        try:
            reference.read_keyring(text)
            accepted = len(text) <= reference.LARGEST_KEYRING
        except reference.KeyringFault:
            accepted = False
        compare(what, "accepted by the reference", False, accepted)
        yield refused(what, 4, source=inputs.EXAMPLE, keyring=text)


def random_packs():
    """Large packs by a seeded generator, with a little of everything in random order."""
    for what, source, keyring in inputs.random_packs():
        archive = reference.archive_of(source, keyring)
        sizes = set()
        for attribute, value in inputs.RANDOM_QUERIES:
            case = as_reference(f"{what}: {attribute} {value}", archive, source, keyring, attribute, value)
            sizes.add(len(case.out))
            yield case
        if len(sizes) < 3:
            raise Difference(f"{what}: the queries hardly differ")


# Groups of checks that aren't cases. Each check is a function of the program.

def pages():
    """The reference alone, against the examples of the pages of docs/formats."""
    return [
        lambda _, what=what, got=got, expected=expected: compare(what, "the reference", expected, got)
        for what, got, expected in inputs.page_examples()
    ]


def random_stores():
    """Stores of random blobs, each searched at dates of its claims and beside them."""
    stores = list(inputs.random_stores())
    archives = [reference.archive_of_store(packs, inputs.KEYRING) for _, packs, _ in stores]
    check_variety(archives, [reference.arrivals(packs) for _, packs, _ in stores])
    return [one for store, archive in zip(stores, archives) for one in searches_of(*store, archive)]


def searches_of(what, packs, dates, archive):
    store = functools.cache(lambda program: Store(program, packs, {"keyring": inputs.KEYRING}))

    def search(program, attribute, value, at):
        try:
            check_search(store(program), archive, attribute, value, reference.date_text(at))
        except Difference as difference:
            raise Difference(f"{what}: {difference}") from None

    queries = itertools.product(inputs.RANDOM_QUERIES, dates)
    return [functools.partial(search, attribute=attribute, value=value, at=at) for (attribute, value), at in queries]


def check_variety(archives, stores):
    """Most stores have to have each of the things that make an answer hard."""
    kinds = list(map(kinds_in, archives, stores))
    for kind in kinds[0]:
        check(f"most random stores lack {kind}", sum(bool(each[kind]) for each in kinds) > len(kinds) / 2)


def kinds_in(archive, blobs):
    """Which of these things a store has."""
    facts = archive.facts
    older = {ref for ref in blobs if ref.startswith("sha1-")}
    names = {name_of(blob) for blob in blobs.values() for name_of in (ref_of, older_ref_of)}
    needs = {ref for fact in facts.values() for ref in fact.needs}
    signed = {ref for ref, fact in facts.items() if fact.signed is not None}
    claims = {ref for ref in archive.genuine if facts[ref].kind == "Claim"}
    targets = [facts[facts[ref].target] for ref in claims if facts[ref].claim == "delete"]
    dates = [facts[ref].date for ref in claims]
    named = [[change.on for change in facts[ref].changes] for ref in claims if facts[ref].claim == "multi"]
    return {
        "older refs for about a half": len(blobs) / 3 < len(older) < len(blobs) * 2 / 3,
        "an older permanode that counts": any(facts[ref].kind == "Permanode" for ref in older & archive.genuine),
        "an older target of a deletion": any(facts[ref].target in older for ref in claims if facts[ref].claim == "delete"),
        "a blob under both names": len({blobs[ref] for ref in older} & {blobs[ref] for ref in blobs if ref not in older}),
        "a ref whose blob is there under its other name alone": needs & names - set(blobs),
        "a blob that waits": signed - archive.ready,
        "a false signature": (signed & archive.ready) - archive.genuine,
        "two signers": len({facts[ref].signed.signer for ref in claims}) > 1,
        "a permanode that is deleted": any(fact.kind == "Permanode" for fact in targets),
        "a deletion that is deleted": any(fact.claim == "delete" for fact in targets),
        "two claims at one date": len(set(dates)) < len(dates),
        "a claim of several changes of one permanode": any(len(changes) > len(set(changes)) for changes in named),
        "a claim on several permanodes": any(len(set(changes)) > 1 for changes in named),
        "a claim of several changes that is deleted": any(fact.claim == "multi" for fact in targets),
    }


def edges():
    """Standard input, standard output and a keyring that fail."""
    line = ("search-pack", "tag", "a")

    def input_folder(program):
        with_streams(program, "standard input is a folder", line, 5, source=program.folder)

    def text_before_read(program):
        with_streams(program, "an empty attribute, standard input a folder", ("search-pack", "", "a"), 4, source=program.folder)

    def words_before_read(program):
        with_streams(program, "bad words, standard input a folder", ("search-pack", "tag"), 2, source=program.folder)

    def full(program):
        with_streams(program, "standard output is full", line, 6, sink="/dev/full")

    def read_before_write(program):
        with_streams(program, "both fail", line, 5, source=program.folder, sink="/dev/full")

    def broken_off(program):
        with_broken_source(program, "standard input breaks off", line, b"")
        with_broken_source(program, "standard input breaks off behind a pack", line, inputs.EXAMPLE)
        with_broken_source(program, "standard input breaks off, and no write is tried", line, inputs.EXAMPLE, sink="/dev/full")

    def no_reader(program):
        read_end, write_end = os.pipe()
        os.close(read_end)
        with os.fdopen(write_end, "wb") as sink:
            with_streams(program, "nobody reads standard output", line, 6, sink=sink.fileno())

    def closed(program):
        with_streams(program, "standard output is closed", line, 6, closed=1)
        with_streams(program, "standard input is closed", line, 5, closed=0)

    def keyring_folder(program):
        folder = program.folder / "folder"
        (folder / "keyring").mkdir(parents=True)
        with_streams(program, "the keyring is a folder", line, 5, folder=folder)
        with_streams(program, "bad words, the keyring is a folder", ("search-pack",), 2, folder=folder)

    reading = [input_folder, text_before_read, words_before_read, broken_off]
    return reading + [full, read_before_write, no_reader, closed, keyring_folder]


def with_streams(program, what, line, status, folder=None, **streams):
    harness.with_streams(program, what, line, status, folder=folder or program.working_folder(inputs.KEYRING), **streams)


def with_broken_source(program, what, line, front, **streams):
    harness.with_broken_source(program, what, line, front, folder=program.working_folder(inputs.KEYRING), **streams)


def limits():
    """A pack of the greatest length, and a longer one, of which the rest isn't read; a record that doesn't fit into
    memory, one that does, and a pack that takes none."""

    def greatest(program):
        poured(program, "a pack of the greatest length", reference.LARGEST_PACK, 0)

    def one_byte_longer(program):
        poured(program, "a pack of one byte more", reference.LARGEST_PACK + 1, 4)

    def longer(program):
        # The part that the program doesn't read may stay in the pipe.
        most = reference.LARGEST_PACK + 2 * PIECE
        taken = poured(program, "a longer pack", reference.LARGEST_PACK + 64 * PIECE, 4)
        if taken > most:
            raise Difference(f"a longer pack: {taken} bytes were taken, at most {most} should be")

    def no_memory(program):
        poured(program, "a record that doesn't fit into memory", 128 * PIECE, 1, first=LONGEST, front=limited_to(16))

    def memory(program):
        poured(program, "a record that fits into memory", 128 * PIECE, 0, first=LONGEST, front=limited_to(64))

    def little_memory(program):
        poured(program, "a pack of 512 MiB within 16 MiB", 512 * PIECE, 0, front=limited_to(16))

    return [greatest, one_byte_longer, longer, no_memory, memory, little_memory]


PIECE = 1_048_576

# How many bytes of a pack are read at a time.
PACK_PIECE = 65_536

# A header of the longest blob, whose digest no zeros have.
LONGEST = f"[sha224-{0:056x} {16 * PIECE}]".encode()


# The number of blobs of each shape, and the seconds in which a search over it has to end.
MEMBERS, DELETIONS, LATE, TREES, SOON = 20_000, 10_000, 50_000, 60, 100


def shapes():
    """Blobs that depend on one another in ways that could cost much. Each search has to end soon."""
    node, date = writing.permanode(), "2020-01-01T00:00:00Z"
    tag = writing.claim("set", ref_of(node), "tag", "a", date)

    def members(program):
        refs = [(f"sha224-{number:056x}", f"sha1-{number:040x}")[number % 2] for number in range(MEMBERS)]
        claims = [writing.claim("add", ref_of(node), "camliMember", ref, date) for ref in refs]
        blobs = [inputs.KEY, node, *claims]
        ends_soon(program, "members", blobs, "camliMember", refs[MEMBERS // 2], [node])
        ends_soon(program, "members, the last first", blobs[::-1], "camliMember", refs[0], [node])

    def deletions(program):
        """Each deletes the one before. If their number is even, the last one undoes the first."""
        chain = [tag]
        for _ in range(DELETIONS):
            chain.append(writing.delete(ref_of(chain[-1]), date))
        for what, blobs, found in [("even", chain, [node]), ("odd", chain[:-1], [])]:
            for order, listed in [("in order", blobs), ("the last first", blobs[::-1])]:
                what = f"a chain of deletions, {what}, {order}"
                ends_soon(program, what, [inputs.KEY, node, *listed], "tag", "a", found)
                ends_soon(program, f"{what}, the key last", [*listed, node, inputs.KEY], "tag", "a", found)

    def late_key(program):
        nodes = [writing.permanode(f"{number:032x}") for number in range(LATE)]
        claims = [writing.claim("set", ref_of(one), "tag", f"{number % 500}", date) for number, one in enumerate(nodes)]
        ends_soon(program, "a key that comes last", [*claims, *nodes, inputs.KEY], "tag", "7", nodes[7::500])

    def shared_trees(program):
        trees = [writing.bytes_blob([writing.part(1)])]
        for _ in range(TREES):
            trees.append(writing.bytes_blob([writing.part(1, ref_of(trees[-1]), "bytesRef")] * 2))
        trees.append(writing.file_blob("n", [writing.part(2, ref_of(trees[-1]), "bytesRef")]))
        for order, listed in [("in order", trees), ("the last first", trees[::-1])]:
            ends_soon(program, f"trees that share, {order}", [*listed, tag, node, inputs.KEY], "tag", "a", [node])

    return [members, deletions, late_key, shared_trees]


def ends_soon(program, what, blobs, attribute, value, found):
    out = reference.search_text(sorted(map(ref_of, found))) + b"\n"
    folder = program.working_folder(inputs.KEYRING)
    program.check(what, ("search-pack", attribute, value), out, source=pack(*blobs), folder=folder, seconds=SOON)


def poured(program, what, length, status, first=b"", **streams):
    """Sends zeros to the program after some first bytes, in pieces of any size, until it ends or all are read; returns
    how many were."""
    folder = program.working_folder(inputs.KEYRING)
    streams |= {"stdin": subprocess.PIPE, "stdout": subprocess.PIPE, "bufsize": 0}
    process = program.start(("search-pack", "tag", "a"), folder, **streams)
    taken, sizes = 0, chance(what)
    zeros = memoryview(bytes(PIECE))
    try:
        process.stdin.write(first)
        while taken < length:
            taken += process.stdin.write(zeros[: min(length - taken, sizes.randint(1, PIECE))])
    except BrokenPipeError:
        pass
    out, err = finish(what, process)
    compare_ending(what, status, process.returncode, err)
    compare(what, "standard output", b'{"blobs":[]}\n' if status == 0 else b"", out)
    return taken


GROUPS = [example, salvage, torn, torn_behind_many, flipped, json, facts, dates, keys, claims, older, orders, words, keyrings]
GROUPS += [random_packs]
GROUPS_OF_CHECKS = [pages, random_stores, edges, limits, shapes]


def checks_of(program, group):
    """The checks of a group, as functions to be called."""
    if group in GROUPS_OF_CHECKS:
        return [lambda check=check: check(program) for check in group()]
    return [lambda case=case: check_case(program, case) for case in group()]


if __name__ == "__main__":
    harness.main("search_pack.sh", GROUPS, GROUPS_OF_CHECKS, checks_of)
