"""Runs the commands over a store of packs in real folders, and compares outputs, exit statuses and all bytes on the
disk.

Here are the worked rows, puts of many blobs, listings and searches. store_refusals.py has the refusals, store_packs.py
the forms of packs, and older.py older stores. stores.py says what is compared, and with what.
"""

import itertools
import subprocess

import harness
import inputs
import reference
from harness import Difference, chance, compare, compare_ending, finish
from older import older
from reference import ref_of
from store_packs import batches, damaged, file_limits, flipped, memory_limits, numbers, removed, torn
from store_refusals import folders, keyrings, modes, rights, special_files, streams, texts, words
from stores import ABC, EMPTY, NOWHERE, NOTHING_FOUND, READING, Store, check_search, ref_by_tool
from writing import Names, deleted_record, header, pack, record


# The worked rows

def rows(program):
    worked = (empty_blob, two_blobs, one_page, one_store, longest_blob, deleted_between, outer_blob)
    return [lambda row=row: row(program) for row in worked]


def empty_blob(program):
    store = Store(program)
    compare("the ref of the empty blob", "the tool", EMPTY, ref_by_tool(b""))
    for what in ("the empty blob", "the empty blob again"):
        program.check(what, store.words("put"), EMPTY.encode() + b"\n")
        compare(what, "files", {"pack-00000.blobs": f"[{EMPTY} 0]".encode()}, store.files())
    store.reads("the empty blob", "list", out=f"{EMPTY} 0\n".encode())
    store.reads("the empty blob", "get", EMPTY)
    store.reads("the empty blob", "stat", EMPTY, out=f"{EMPTY} 0\n".encode())
    store.reads("the other blob", "get", ABC, status=3)
    store.reads("the other blob", "stat", ABC, status=3)


def two_blobs(program):
    whole = f"[{ABC} 3]abc[{EMPTY} 0]".encode()
    compare("two blobs", "length", 137, len(whole))
    found = f"pack-00000.blobs 67 {ABC} 3\n"
    for cut, answer in [
        (137, found + f"pack-00000.blobs 137 {EMPTY} 0\npack-00000.blobs clean\n"),
        (136, found + "pack-00000.blobs broken 70\n"),
        (70, found + "pack-00000.blobs clean\n"),
        (69, "pack-00000.blobs broken 0\n"),
        (0, "pack-00000.blobs clean\n"),
    ]:
        Store(program, {0: whole[:cut]}).reads(f"two blobs, the first {cut} bytes", "salvage", out=answer.encode())
    one_more = Store(program, {0: whole[:70] + b"x"})
    one_more.reads("a blob and a byte", "salvage", out=(found + "pack-00000.blobs broken 70\n").encode())
    for what, size in [("with a leading zero", "03"), ("above the limit", "99999999"), ("of one byte too many", "4")]:
        store = Store(program, {0: f"[{ABC} {size}]abc".encode()})
        store.reads(f"a size {what}", "salvage", out=b"pack-00000.blobs broken 0\n")


def one_page(program):
    store = Store(program, {0: pack(b"", b"abc")})
    store.reads("all of two", "list", out=f"{ABC} 3\n{EMPTY} 0\n".encode())
    store.reads("one behind the first", "list", "--after", ABC, "--limit", "1", out=f"{EMPTY} 0\n".encode())
    store.reads("none behind the last", "list", "--after", EMPTY, "--limit", "1")


def one_store(program):
    """One store, from its first blob to a search, whose claim comes before its permanode, and the key last."""
    store = Store(program)
    store.reads("a store without blobs", "list")
    for blob in (b"", b"abc", b""):
        store.put("two blobs, and one again", blob)
    found = f"pack-00000.blobs 67 {EMPTY} 0\npack-00000.blobs 134 {ABC} 3\npack-00000.blobs clean\n"
    store.reads("two blobs", "salvage", out=found.encode())
    store.reads("two blobs", "list", "--after", ABC, "--limit", "1", out=f"{EMPTY} 0\n".encode())
    store.reads("two blobs", "get", ABC, out=b"abc")
    store.reads("two blobs", "stat", ABC, out=f"{ABC} 3\n".encode())
    store.reads("two blobs", "get", ref_of(inputs.NODE), status=3)
    store.reads("two blobs", "get", "abc", status=4)
    store.others = {"keyring": inputs.KEYRING}
    (store.path / "keyring").write_bytes(inputs.KEYRING)
    query = ("search", "--attr", "tag", "--value", "a")
    for blob in reversed(inputs.EXAMPLE_BLOBS):
        store.reads("a claim, its permanode and its key", *query, out=NOTHING_FOUND)
        store.put("a claim, its permanode and its key", blob)
    answer = b'{"blobs":[{"blob":"sha224-adef53a16a87934f7f5595fa4225e39e14c1c80a4e3ed252d959d9b1"}]}\n'
    store.reads("a claim, its permanode and its key", *query, out=answer)
    store.reads("before the claim", *query, "--at", "2019-12-31T00:00:00Z", out=NOTHING_FOUND)


def longest_blob(program):
    store = Store(program, {})
    longest = bytes(reference.LARGEST_BLOB)
    store.keeps("a blob that is too long", store.words("put"), status=4, source=longest + b"\0")
    store.put("the longest blob", longest)
    store.gets("the longest blob", [ref_of(longest)])
    store.keeps("a blob that is too long", store.words("put"), status=4, source=longest + b"\0")
    refuses_early(store)


def refuses_early(store):
    """A source that is far too long isn't read to its end; the rest may stay in the pipe."""
    piece, what = bytes(1 << 20), "a source without end"
    streams = {"stdin": subprocess.PIPE, "stdout": subprocess.PIPE, "bufsize": 0}
    process = store.program.start(store.words("put"), store.program.working, **streams)
    taken = 0
    try:
        while taken < 4 * reference.LARGEST_BLOB:
            taken += process.stdin.write(piece)
    except BrokenPipeError:
        pass
    _, err = finish(what, process)
    compare_ending(what, 4, process.returncode, err)
    if taken > reference.LARGEST_BLOB + 2 * len(piece):
        raise Difference(f"{what}: {taken} bytes were taken")
    store.check_files(what)


def deleted_between(program):
    store = Store(program, {0: f"[{ABC} 3]abc[x-0 2]zz[{EMPTY} 0]".encode()})
    answer = f"pack-00000.blobs 67 {ABC} 3\npack-00000.blobs 146 {EMPTY} 0\npack-00000.blobs clean\n"
    store.reads("a deleted record between", "salvage", out=answer.encode())
    store.put("a blob behind a deleted record", b"more")
    compare("a blob behind a deleted record", "packs", [0], list(store.packs))


def outer_blob(program):
    inner = record(b"abc")
    outer = record(inner)
    answer = f"pack-00000.blobs 68 {ref_of(inner)} 70\npack-00000.blobs clean\n"
    Store(program, {0: outer}).reads("a record in a blob", "salvage", out=answer.encode())
    answer = f"pack-00000.blobs 135 {ABC} 3\npack-00000.blobs broken 0\n"
    Store(program, {0: b"(" + outer[1:]}).reads("a record in a broken one", "salvage", out=answer.encode())


# Many puts

STORES, PUTS = 8, 125
EDGES = (0, 1, 2, 66, 67, 68, 73, 74, 75, 156, 4095, 4096, 4097, 8192, 65535, 65536, 65537)


def puts(program):
    return [lambda number=number: many_puts(program, number) for number in range(STORES)]


def many_puts(program, number):
    """Puts blobs of all sizes, some of them again, into a store that isn't there at first, or that has some of them
    already, half of these under their older names; and reads some of them."""
    random, what = chance("puts", number), f"store {number}"
    blobs, names = [], Names(random)
    for _ in range(PUTS):
        blobs.append(random_blob(random, blobs))
    store = Store(program, None if number % 2 == 0 else {0: pack(*random.sample(blobs, PUTS // 3), name_of=names)})
    for place, blob in enumerate(blobs):
        store.put(f"{what}, put {place} of {len(blob)} bytes", blob)
    store.lists(what)
    some = random.sample(blobs, 8)
    store.gets(what, [*map(ref_of, some), *map(names, some), *map(names.other, some), NOWHERE])


def random_blob(random, earlier):
    kind = random.randrange(20)
    if kind == 0 and earlier:
        return random.choice(earlier)
    if kind == 1:
        return record(random.randbytes(random.randrange(100)))
    if kind == 2:
        return deleted_record(random.randrange(100))
    if kind == 3:
        return header(b"x" * 100) + random.randbytes(9)
    if kind < 8:
        return random.randbytes(random.choice(EDGES))
    return random.randbytes(random.randrange(2_000))


def large_blobs(program):
    return [lambda: put_large_blobs(program)]


def put_large_blobs(program):
    random = chance("large blobs")
    store = Store(program)
    sizes = [1 << 20, 5, reference.LARGEST_BLOB, (1 << 20) + 1, reference.LARGEST_BLOB - 1, 300, 0]
    blobs = [random.randbytes(size) for size in sizes]
    for blob in [*blobs, blobs[2]]:
        store.put(f"a blob of {len(blob)} bytes", blob)
    store.lists("large blobs")
    store.gets("large blobs", [ref_of(blob) for blob in blobs[2:5]])


# Listings

def listings(program):
    few = [b"blob %d" % number for number in range(60)]
    many = [b"blob %d" % number for number in range(reference.ENTRIES_OF_A_LISTING + 3)]
    names = Names(chance("listings"))
    parts = [pack(*some, name_of=names) for some in (few[:20], few[10:30], few[30:])]
    store = Store(program, dict(zip((0, 1, 4), parts)))
    large = Store(program, {0: pack(*many, name_of=names)})
    pages = [lambda limit=limit: check_pages(store, limit) for limit in (1, 2, 7, 59, 60, 61, 1_000, 4_194_304)]
    afters = [lambda after=after: check_pages(store, 25, after) for after in edge_refs(store)]
    forms = [lambda words=words, out=out: store.keeps(f"{words}", words, out) for words, out in listing_words(store)]
    whole = reference.listing(large.blobs())
    compare("a listing without a limit", "lines of the reference", 1_000, whole.count(b"\n"))
    return pages + afters + forms + [
        lambda: large.reads("a listing without a limit", "list", out=whole),
        lambda: check_pages(large, 400),
        lambda: check_pages(large, 1_002),
    ]


def edge_refs(store):
    refs = sorted(store.blobs())
    last_older = max(ref for ref in refs if ref.startswith("sha1-"))
    ends = ["sha1-" + "0" * 40, "sha1-" + "f" * 40, "sha224-" + "0" * 56, "sha224-" + "f" * 56]
    return [*ends, NOWHERE, inputs.OLDER_ABSENT, refs[0], last_older, refs[-2], refs[-1]]


def check_pages(store, limit, after=""):
    """Lists page by page until one is empty; the pages together are all that is greater than the first `after`."""
    what, first, blobs = f"pages of {limit} after {after}", after, store.blobs()
    joined = b""
    while True:
        words = store.words("list", "--limit", str(limit), *(["--after", after] if after else []))
        status, page, err = store.program.run(what, words)
        compare_ending(what, 0, status, err)
        compare(what, f"the page after {after}", reference.listing(blobs, after, limit), page)
        if not page:
            break
        joined += page
        after = page.splitlines()[-1].split()[0].decode()
    compare(what, "all pages", reference.listing(blobs, first, len(blobs)), joined)


def listing_words(store):
    """Lines of `list` in all their forms, with the answers."""
    folder, blobs = str(store.path), store.blobs()
    refs = sorted(blobs)
    three, behind = reference.listing(blobs, limit=3), reference.listing(blobs, refs[4], 3)
    return [
        (["list", "--limit=3", folder], three),
        (["list", "--limit", "3", folder], three),
        (["list", folder, "--limit=0003"], three),
        (["list", folder, "--limit", "0" * 50 + "3"], three),
        (["list", "--limit", "3", "--", folder], three),
        (["list", folder, "--limit=3", "--"], three),
        (["list", folder, "--after", refs[4]], reference.listing(blobs, refs[4])),
        (["list", "--limit=3", "--after=" + refs[4], "--", folder], behind),
        (["list", folder, "--limit=3", "--after", refs[4]], behind),
        (["list", "--after=" + refs[4], "--limit", "3", folder], behind),
        (["list", "--after", refs[4], folder, "--limit=3"], behind),
        (["list", folder + "/", "--after", refs[4], "--limit", "3"], behind),
    ]


# Searches

def searches(program):
    """Stores of schema blobs in several packs, searched at several moments."""
    deleted_node = inputs.delete(ref_of(inputs.NODE), inputs.day(3))
    undone = inputs.delete(ref_of(inputs.DELETE), inputs.day(3))
    tagged = Store(program, {0: pack(inputs.DELETE, undone), 2: pack(*inputs.EXAMPLE_BLOBS)}, {"keyring": inputs.KEYRING})
    gone = Store(program, {1: pack(deleted_node), 3: pack(*inputs.EXAMPLE_BLOBS)}, {"keyring": inputs.KEYRING})
    moments = [lambda at=at, is_found=is_found: check_found(tagged, at, is_found) for at, is_found in TAGGED_AT]
    moments += [lambda at=at, is_found=is_found: check_found(gone, at, is_found) for at, is_found in NODE_AT]
    forms = [lambda words=words: check_form(tagged, words) for words in SEARCH_WORDS]
    return moments + forms + [lambda: other_keyrings(program)] + [
        check for number in (11, 12) for check in random_searches(program, number)
    ]


# A claim of day 1 is deleted on day 2, and the delete on day 3.
TAGGED_AT = [
    (None, True),
    ("2019-12-31T00:00:00Z", False),
    ("2019-12-31T23:59:59.999999999Z", False),
    (inputs.day(1), True),
    ("2020-01-01T01:00:00+01:00", True),
    ("2020-01-01T00:59:59.9+01:00", False),
    (inputs.day(1, "T12:00:00Z"), True),
    (inputs.day(1, "T23:59:59.999999999Z"), True),
    (inputs.day(2), False),
    (inputs.day(2, "T12:00:00Z"), False),
    (inputs.day(3), True),
    ("9999-12-31T23:59:59.999999999Z", True),
    ("0001-01-01T00:00:00Z", False),
]
# A claim of day 1 on a permanode that is deleted on day 3.
NODE_AT = [(None, False), (inputs.day(2), True), (inputs.day(2, "T23:59:59Z"), True), (inputs.day(3), False)]

SEARCH_WORDS = [
    ("--attr=tag", "--value=a"),
    ("--value", "a", "--attr", "tag"),
    ("--value=a", "--attr", "tag", "--at", inputs.day(1)),
    ("--at=" + inputs.day(3), "--attr", "tag", "--value=a"),
]


def check_found(store, at, is_found):
    when = [] if at is None else ["--at", at]
    out = reference.search_text(inputs.FOUND if is_found else []) + b"\n"
    store.reads(f"search at {at}", "search", "--attr", "tag", "--value", "a", *when, out=out)
    archive = reference.archive_of_store(store.packs, inputs.KEYRING)
    moment = reference.ALWAYS if at is None else reference.moment_of(at)
    compare(f"search at {at}", "the reference", inputs.FOUND if is_found else [], archive.holders("tag", "a", moment))


def check_form(store, options):
    """A search whose folder comes after its options, between them and before them."""
    out = reference.search_text(inputs.FOUND) + b"\n"
    folder = str(store.path)
    for words in ([*options, folder], [folder, *options], [*options, "--", folder]):
        store.keeps(f"search {words}", ["search", *words], out)


def other_keyrings(program):
    """Values that begin with a hyphen or are empty, an attribute with an equals sign, and keyrings that are different
    or missing."""
    for value in ("-a", "", "--", "a=b", "\u00e4"):
        source, found = inputs.pack_with_value("tag", value)
        store = Store(program, {0: source}, {"keyring": inputs.KEYRING})
        store.reads(f"search for {value}", "search", "--attr=tag", f"--value={value}", out=reference.search_text(found) + b"\n")
    for others in ({}, {"keyring": b""}, {"keyring": inputs.keyring_line("other")}):
        store = Store(program, {0: inputs.EXAMPLE}, others)
        store.reads("a keyring that lacks the key", "search", "--attr", "tag", "--value", "a", out=NOTHING_FOUND)
    for attribute, value, options in [
        ("a=b", "", ("--at", inputs.day(1), "--value=", "--attr=a=b")),
        ("tag", "-a", ("--value=-a", "--attr=tag", "--")),
    ]:
        source, found = inputs.pack_with_value(attribute, value)
        store = Store(program, {0: source}, {"keyring": inputs.KEYRING})
        store.keeps(f"search {options}", ["search", *options, str(store.path)], reference.search_text(found) + b"\n")


MOMENTS = (
    None,
    "1960-01-01T00:00:00Z",
    "2020-02-02T01:00:00Z",
    "2020-02-03T00:00:00.5Z",
    "2020-02-04T02:00:00+02:00",
    "2021-02-03T12:00:00Z",
)


def random_searches(program, number):
    """Schema blobs in random order, some of them put by the program, under the names that it gives."""
    random = chance("searches", number)
    blobs, names = inputs.random_blobs(random, 240)
    random.shuffle(blobs)
    parts = [pack(*some, name_of=names) for some in (blobs[:90], blobs[80:150], blobs[140:225])]
    packs = {0: parts[0], 1: parts[1] + b"[torn", 7: parts[2]}
    store = Store(program, packs, {"keyring": inputs.KEYRING})
    for blob in blobs[225:]:
        store.put(f"random blobs {number}", blob)
    archive = reference.archive_of_store(store.packs, inputs.KEYRING)
    queries = random.sample(inputs.RANDOM_QUERIES, 5)
    return [
        lambda attribute=attribute, value=value, at=at: check_search(store, archive, attribute, value, at)
        for (attribute, value), at in itertools.product(queries, MOMENTS)
    ]


# Running

GROUPS = [rows, older, words, texts, keyrings, folders, listings, torn, flipped, damaged, batches, numbers, puts, large_blobs]
GROUPS += [searches]
# These run code between fork and exec, stop the program, or look at the clock, so that nothing else runs at the same
# time.
ONE_AT_A_TIME = [streams, file_limits, memory_limits, removed, rights, special_files, modes]


def tell_starts(program):
    starts = ", ".join(f"{program.starts[name]} of {name}" for name in ("put", *READING))
    print(f"store: {sum(program.starts.values())} starts ({starts})")


if __name__ == "__main__":
    harness.main("store.sh", GROUPS, ONE_AT_A_TIME, end=tell_starts)
