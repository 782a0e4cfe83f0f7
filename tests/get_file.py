"""Runs `perkeep get-file` over files whose blobs are made here, and compares its output and how it ends.

The expected output is written down here for most files, and the reference has to return it as well as the program. For
random files it is the reference's alone. Each command must leave the folder unchanged.
"""

import hashlib
import subprocess
from typing import Callable, NamedTuple

import harness
import inputs
import reference
from harness import chance, check, compare, compare_ending, finish, limited_to, with_streams
from older import OLDER_ABC
from reference import older_ref_of, ref_of
from refused_alike import bad_folders, bad_keyrings, bad_packs, ends_first, leaves, locked, refused_lines
from stores import ABC, EMPTY, NOWHERE, Store, look
from store_refusals import BAD_REFS
from tracing import READS, WRITES, need_strace, places, trace
from writing import Names, bytes_blob, directory, file_blob, pack, part, permanode, static_set

DIGITS = b"0123456789"
DIGITS_REF = ref_of(DIGITS)
MOST = reference.MOST_BYTES_OF_A_FILE


def lines_of(folder):
    return [["get-file", str(folder), ABC]]


# Files made here

class Made:
    """The blobs of a file, the ref of the file, the expected output, and the exit status."""

    def __init__(self, what, blobs, out, status=0, ref=None, name_of=ref_of):
        self.what, self.blobs, self.out, self.status = what, list(blobs), out, status
        self.ref, self.name_of = ref or name_of(self.blobs[-1]), name_of

    def check(self, program):
        """The file's blobs are one by one in three packs, the file's own in the first."""
        parts = self.blobs[::-1][::3], self.blobs[1::3], self.blobs
        first, second, last = (pack(*some, name_of=self.name_of) for some in parts)
        store = Store(program, {0: first, 1: second + b"[torn", 4: last})
        compare(self.what, "the reference", (self.out, self.status), reference.read_file(store.blobs(), self.ref))
        store.reads(self.what, "get-file", self.ref, out=self.out, status=self.status)


def file_of(what, parts, out, status=0, blobs=(DIGITS, b"abc", b"")):
    """A file of parts, among blobs that they name."""
    return Made(what, [*blobs, file_blob("n", parts)], out, status)


def within(what, parts, out, status=0, blobs=(DIGITS, b"abc", b"")):
    """A file of `<`, a tree of the parts, and `>`."""
    tree, ends = bytes_blob(parts), (b"<", b">")
    size = sum(one.size for one in reference.fact_of(tree).parts)
    outer = [part(1, ref_of(b"<")), part(size, ref_of(tree), "bytesRef"), part(1, ref_of(b">"))]
    out = b"<" + out + (b">" if status == 0 else b"")
    return Made(f"{what}, in a tree", [*blobs, *ends, tree, file_blob("n", outer)], out, status)


def checks_of(files):
    return lambda program: [lambda file=file: file.check(program) for file in files()]


def group(files):
    """A group of the script, of files."""
    checks = checks_of(files)
    checks.__name__ = files.__name__
    return checks


# Parts

def digits(size, offset=0):
    return part(size, DIGITS_REF, offset=offset)


# A description of the parts, the parts, and the bytes.
PARTS = [
    ("no parts", [], b""),
    ("a whole blob", [digits(10)], DIGITS),
    ("the front of a blob", [digits(3)], b"012"),
    ("the middle of a blob", [digits(3, 4)], b"456"),
    ("the end of a blob", [digits(1, 9)], b"9"),
    ("a blob twice", [digits(10), digits(10)], DIGITS + DIGITS),
    ("a blob backwards", [digits(1, 10 - at) for at in range(1, 11)], DIGITS[::-1]),
    ("parts that overlap", [digits(6, 4), digits(6)], b"456789012345"),
    ("zeros", [part(5)], bytes(5)),
    ("zeros with an offset", [part(5, offset=MOST)], bytes(5)),
    ("zeros between", [digits(2), part(3), digits(2, 8)], b"01\0\0\x0089"),
    ("65,536 zeros", [part(65_536), digits(1)], bytes(65_536) + b"0"),
    ("65,537 zeros", [part(65_537), digits(1, 1)], bytes(65_537) + b"1"),
    ("a part of no bytes", [digits(2), digits(0), digits(0, 10), part(0), digits(2)], b"0101"),
    ("nothing but parts of no bytes", [part(0, EMPTY), digits(0, 10), part(0)], b""),
    ("many parts", [digits(1, at % 10) for at in range(3_000)], DIGITS * 300),
]


@group
def parts():
    for what, its_parts, out in PARTS:
        yield file_of(what, its_parts, out)
        yield within(what, its_parts, out)


@group
def forms():
    """Other texts of files and trees (docs/formats/schema.md), and files whose own blobs are parts."""
    plain = file_blob("n", [digits(4, 2)])
    yield Made("as it is written", [DIGITS, plain], b"2345")
    for what, old, new in [
        ("white space", '"parts":[{', ' "parts" :\t[ {\n'),
        ("white space around", "}\n", " }\r\n\t "),
        ("no name", '"fileName":"n",', ""),
        ("more keys", '"fileName"', '"unixMtime":1.5,"x":{"parts":[]},"fileName"'),
        ("more keys of a part", '"size"', '"x":[{}],"size"'),
        ("escapes", '"camliType":"file"', '"camli\\u0054ype":"f\\u0069le"'),
        ("a key twice", '"parts":[', '"parts":[],"parts":['),
        ("another order", '{"camliVersion":1,"camliType":"file",', '{"camliType":"file","camliVersion":1,'),
    ]:
        yield Made(what, [DIGITS, inputs.changed(plain.decode(), old, new).encode()], b"2345")
    whole = file_blob("n", [part(len(plain), ref_of(plain))])
    yield Made("a file of a file's own bytes", [DIGITS, plain, whole], plain)
    yield Made("a file of a file", [DIGITS, plain, file_blob("n", [tree_part(plain, 4)])], b"2345")
    yield Made("a file's name", [DIGITS, file_blob("../\0\n/", [digits(1)])], b"0")


# Trees

def tree_part(tree, size, offset=0):
    return part(size, ref_of(tree), "bytesRef", offset)


@group
def trees():
    """Windows on trees, and a tree that is shared."""
    halves = bytes_blob([digits(5), part(2), digits(5, 5)])
    content = b"01234\0\x0056789"
    for size in range(len(content) + 1):
        for offset in range(0, len(content) - size + 1, 3):
            what, outer = f"{size} bytes of a tree from {offset} on", file_blob("n", [tree_part(halves, size, offset)])
            yield Made(what, [DIGITS, halves, outer], content[offset : offset + size])
    pair = bytes_blob([tree_part(halves, 6, 4), tree_part(halves, 3, 1)])
    pair_content = content[4:10] + content[1:4]
    outer = file_blob("n", [tree_part(pair, 5, 3), digits(1), tree_part(pair, 9), tree_part(halves, 1, 11)])
    out = pair_content[3:8] + b"0" + pair_content + b"9"
    yield Made("trees in trees, shared", [DIGITS, halves, pair, outer], out)
    doubled, blobs = DIGITS, [DIGITS, bytes_blob([digits(10)])]
    for _ in range(12):
        blobs.append(bytes_blob([tree_part(blobs[-1], len(doubled))] * 2))
        doubled *= 2
    yield Made("a tree of 4,096 leaves", [*blobs, file_blob("n", [tree_part(blobs[-1], len(doubled))])], doubled)


def nested(levels, inner, size=3, kind=bytes_blob):
    """The blobs of a file of so many trees within one another, including itself, whose innermost has the part; the
    first part of the file is `<`."""
    blobs = [kind([inner])]
    for _ in range(levels - 2):
        blobs.append(kind([tree_part(blobs[-1], size)]))
    return [b"<", b"abc", *blobs, file_blob("n", [part(1, ref_of(b"<")), tree_part(blobs[-1], size)])]


@group
def older():
    """Files whose blobs have their older names. Some parts name them by the other one."""
    abc, tree = part(3, OLDER_ABC), bytes_blob([part(2, older_ref_of(DIGITS), offset=4)])
    of_tree = part(2, older_ref_of(tree), "bytesRef")
    for what, its_parts, out, status in [
        ("a blob", [abc], b"abc", 0),
        ("a tree", [abc, of_tree, part(1)], b"abc45\0", 0),
        ("a blob by its other name", [abc, part(3, ABC)], b"abc", 3),
        ("a tree by its other name", [abc, part(2, ref_of(tree), "bytesRef")], b"abc", 3),
        ("no bytes of a blob by its other name", [abc, part(0, ABC), of_tree], b"abc45", 0),
        ("more bytes than there are", [abc, part(4, OLDER_ABC)], b"abc", 4),
        ("a blob as a tree", [abc, part(3, OLDER_ABC, "bytesRef")], b"abc", 4),
    ]:
        blobs = [DIGITS, b"abc", tree, file_blob("n", its_parts)]
        yield Made(f"an older file of {what}", blobs, out, status, name_of=older_ref_of)
    top = file_blob("n", [abc])
    yield Made("an older file by its other name", [b"abc", top], b"", 3, ref_of(top), older_ref_of)
    yield Made("a file of an older blob by its other name", [b"abc", top], b"", 3)


@group
def depth():
    """Trees that nest as deeply as they may, and one more."""
    abc = part(3, ABC)
    for levels in (2, 63, 64, 65, 66, 200):
        out, status = (b"<abc", 0) if levels <= 64 else (b"<", 4)
        yield Made(f"{levels} trees in one another", nested(levels, abc), out, status)
        files = nested(levels, abc, kind=lambda its_parts: file_blob("", its_parts))
        yield Made(f"{levels} files in one another", files, out, status)
        yield Made(f"{levels} trees around zeros", nested(levels, part(3)), out[:1] + bytes(len(out) - 1), status)
        without = [blob for blob in nested(levels, abc) if blob != b"abc"]
        yield Made(f"{levels} trees around what isn't there", without, b"<", status or 3)
        around = nested(levels, part(0), size=0)
        yield Made(f"{levels} trees around nothing", around, b"<")
    lacking = nested(64, part(3, NOWHERE, "bytesRef"))
    yield Made("the tree that would be the 65th isn't there", lacking, b"<", 4)
    yield Made("the tree that would be the 64th isn't there", nested(63, part(3, NOWHERE, "bytesRef")), b"<", 3)


# What can't be read

@group
def absent():
    """A blob or a tree that isn't there: the bytes before it are written."""
    lost, lost_tree = part(3, NOWHERE), part(3, NOWHERE, "bytesRef")
    for what, one in [("a blob", lost), ("a tree", lost_tree)]:
        for place, out in [(0, b""), (1, b"01"), (2, b"01\0\0")]:
            its_parts = [digits(2), part(2), digits(2, 8)]
            its_parts.insert(place, one)
            yield file_of(f"{what} that isn't there in place {place}", its_parts, out, 3)
            yield within(f"{what} that isn't there in place {place}", its_parts, out, 3)
    yield file_of("a long front", [part(300_000), digits(10), lost, digits(10)], bytes(300_000) + DIGITS, 3)
    yield Made("a file that isn't there", [b"abc"], b"", 3, NOWHERE)
    yield Made("a file among no blobs", [], b"", 3, ABC)


@group
def unasked():
    """A part of which no byte is needed isn't read."""
    nothing = [part(0, NOWHERE), part(0, NOWHERE, "bytesRef"), part(0, ABC, offset=99), part(0, ABC, "bytesRef")]
    yield file_of("parts of no bytes, of what isn't there", [digits(1), *nothing, digits(1, 1)], b"01")
    yield within("parts of no bytes, of what isn't there", [digits(1), *nothing, digits(1, 1)], b"01")
    lost = part(4, NOWHERE)
    tree = bytes_blob([lost, digits(10), lost])
    for size, offset, out, status in [
        (10, 4, DIGITS, 0),
        (9, 4, DIGITS[:9], 0),
        (1, 13, b"9", 0),
        (10, 5, DIGITS[1:], 3),
        (10, 3, b"", 3),
    ]:
        outer = file_blob("n", [tree_part(tree, size, offset)])
        yield Made(f"{size} bytes from {offset} on, of a tree with gaps", [DIGITS, tree, outer], out, status)


@group
def short():
    """Parts that reach past their origins."""
    for size, offset in [(11, 0), (1, 10), (10, 1), (5, 6), (MOST, 0), (1, MOST)]:
        its_parts = [digits(2), digits(size, offset)]
        if 2 + size <= MOST:
            yield file_of(f"{size} bytes of a blob from {offset} on", its_parts, b"01", 4)
            yield within(f"{size} bytes of a blob from {offset} on", its_parts, b"01", 4)
        tree = bytes_blob([digits(5), digits(5, 5)])
        outer = file_blob("n", [digits(1), tree_part(tree, min(size, MOST - 1), offset)])
        yield Made(f"{size} bytes of a tree from {offset} on", [DIGITS, tree, outer], b"0", 4)
    # A tree's own parts may still fail if it is long enough.
    tree = bytes_blob([digits(5), digits(11)])
    for what, one, out in [("all", tree_part(tree, 16), b"01234"), ("one byte", tree_part(tree, 1, 5), b"")]:
        yield Made(f"a part within, of which {what} is asked", [DIGITS, tree, file_blob("n", [one])], out, 4)
    yield file_of("bytes of the empty blob", [part(1, EMPTY)], b"", 4)
    yield file_of("four bytes of three", [part(4, ABC)], b"", 4)


@group
def no_files():
    """Blobs that aren't files, under the given ref and under a tree's."""
    text = file_blob("n", [digits(1)]).decode()
    changes = [
        ("version 1.0", '"camliVersion":1', '"camliVersion":1.0'),
        ("a number as name", '"n"', "1"),
        ("a size below zero", '"size":1', '"size":-1'),
        ("no size", '"size":1', '"x":1'),
        ("a size above the limit", '"size":1', f'"size":{MOST + 1}'),
        ("an offset above the limit", '"size":1', f'"size":1,"offset":{MOST + 1}'),
        ("two origins", '"size":1', f'"size":1,"bytesRef":"{ABC}"'),
        ("no part list", '"parts":[', '"part":['),
        ("a part that is null", '"parts":[', '"parts":[null,'),
        ("more behind", "}\n", "}\n{}"),
    ]
    others = [("a blob", b"abc"), ("the empty blob", b""), ("a key", inputs.KEY), ("a claim", inputs.CLAIM)]
    others += [("a permanode", permanode()), ("a directory", directory("d", ABC)), ("a set", static_set([ABC]))]
    others += [("another type", b'{"camliVersion":1,"camliType":"x"}')]
    others += [("sizes whose sum is above the limit", file_blob("n", [part(MOST), part(1)]))]
    others += [("a file that is too long", text.encode() + b" " * reference.LARGEST_SCHEMA_BLOB)]
    others += [(what, inputs.changed(text, old, new).encode()) for what, old, new in changes]
    for what, blob in others:
        yield Made(what, [DIGITS, blob], b"", 4)
        outer = file_blob("n", [digits(2), tree_part(blob, 1), digits(2)])
        yield Made(f"{what} as a tree", [DIGITS, blob, outer], b"01", 4)
    yield Made("a tree", [DIGITS, bytes_blob([digits(1)])], b"", 4)
    fits = text.encode() + b" " * (reference.LARGEST_SCHEMA_BLOB - len(text))
    yield Made("a file of the greatest length", [DIGITS, fits], b"0")


# Random files

FILES = 120


@group
def random_files():
    """Files of random trees, half of whose blobs have their older names, and in which some parts can't be read."""
    for number in range(FILES):
        random = chance("files", number)
        names = Names(random)
        blobs = {names(blob): blob for blob in (DIGITS, b"abc", b"", random.randbytes(70_000))}
        leaves, known = list(blobs), []
        bad = random.choice((0, 0, 0.05))
        for _ in range(random.randrange(1, 12)):
            kind = random.choice((bytes_blob, bytes_blob, lambda its_parts: file_blob("t", its_parts)))
            blob = random_tree(random, blobs, leaves, known, bad, kind)
            blobs[names(blob)] = blob
            known.append((names(blob), reference.size_of(reference.fact_of(blob).parts)))
        top = random_tree(random, blobs, leaves, known, bad, lambda its_parts: file_blob("n", its_parts))
        blobs[names(top)] = top
        out, status = reference.read_file(blobs, names(top))
        yield Made(f"random file {number}", [*blobs.values()], out, status, names(top), names)


# Whatever the names of a file's blobs are, one of each pair is the name of a missing blob.
BAD_PARTS = [part(3, NOWHERE), part(2, NOWHERE, "bytesRef"), digits(3, 8), part(1, ABC, "bytesRef")]
BAD_PARTS += [part(3, older_ref_of(DIGITS), offset=8), part(1, OLDER_ABC, "bytesRef")]


def random_tree(random, blobs, leaves, known, bad, kind):
    its_parts = []
    for _ in range(random.randrange(1, 6)):
        if random.random() < bad:
            its_parts.append(random.choice(BAD_PARTS))
        elif random.random() < 0.2:
            its_parts.append(part(random.choice((0, 1, 5, 70_000))))
        elif known and random.random() < 0.6:
            ref, size = random.choice(known)
            its_parts.append(random_part(random, ref, min(size, 200_000), "bytesRef"))
        else:
            ref = random.choice(leaves)
            its_parts.append(random_part(random, ref, len(blobs[ref]), "blobRef"))
    return kind(its_parts)


def random_part(random, ref, length, key):
    size = random.choice((length, random.randrange(length + 1)))
    return part(size, ref, key, random.choice((0, length - size, random.randrange(length - size + 1))))


# Long files

def long_files(program):
    checks = (many_chunks, little_memory, longest_blob, zeros_without_end, closed_early)
    return [lambda check=check: check(program) for check in checks]


def many_chunks(program):
    """48 MiB of three chunks."""
    random = chance("many chunks")
    chunks = [random.randbytes(1 << 20) for _ in range(3)]
    order = [random.choice(chunks) for _ in range(48)]
    top = file_blob("n", [part(len(chunk), ref_of(chunk)) for chunk in order])
    reads_long(Store(program, {0: pack(*chunks), 1: pack(top)}), "48 MiB", top, order)


def little_memory(program):
    """256 MiB, in 128 MiB of memory."""
    chunk = chance("little memory").randbytes(1 << 20)
    top = file_blob("n", [part(len(chunk), ref_of(chunk))] * 256)
    what, line = "little memory", Store(program, {0: pack(chunk, top)}).words("get-file", ref_of(top))
    process = program.start(line, front=limited_to(128), stdin=subprocess.DEVNULL, stdout=subprocess.PIPE)
    are_chunks = [piece == chunk for piece in iter(lambda: process.stdout.read(len(chunk)), b"")]
    _, err = finish(what, process)
    compare_ending(what, 0, process.returncode, err)
    compare(what, "whether each chunk is right", [True] * 256, are_chunks)


def longest_blob(program):
    """Parts of a blob of the greatest size."""
    blob = chance("longest blob").randbytes(reference.LARGEST_BLOB)
    windows = [(len(blob), 0), (1, len(blob) - 1), (len(blob) - 1, 1), (70_000, 5_000_000)]
    top = file_blob("n", [part(size, ref_of(blob), offset=offset) for size, offset in windows])
    pieces = [blob[at : at + size] for size, at in windows]
    reads_long(Store(program, {0: pack(blob, top)}), "the longest blob", top, pieces)


def reads_long(store, what, top, pieces):
    digest = hashlib.sha256()
    for piece in pieces:
        digest.update(piece)
    status, out, err = store.program.run(what, store.words("get-file", ref_of(top)))
    compare_ending(what, 0, status, err)
    compare(what, "length", sum(map(len, pieces)), len(out))
    compare(what, "digest", digest.hexdigest(), hashlib.sha256(out).hexdigest())


def zeros_without_end(program):
    """Zeros of 2^40 bytes, and of as many as there may be, read for a while: they come immediately, and the end is a
    failed write."""
    for size in (1 << 40, MOST - 2):
        front = file_blob("n", [part(1, ref_of(b"<")), part(size), part(1, NOWHERE)])
        tree = bytes_blob([part(size)])
        deep = file_blob("n", [part(1, ref_of(b"<")), tree_part(tree, size - 1, 1)])
        for what, top in [("zeros", front), ("zeros of a tree", deep)]:
            store = Store(program, {0: pack(b"<", tree, top)})
            reads_front(store, f"{size} {what}", top, b"<" + bytes(3_000_000))


def closed_early(program):
    """A reader that ends in the middle of a file of blobs."""
    chunk = chance("closed early").randbytes(1 << 20)
    top = file_blob("n", [part(len(chunk), ref_of(chunk))] * 40)
    reads_front(Store(program, {0: pack(chunk, top)}), "40 MiB", top, (chunk + chunk)[:1_500_000])


def reads_front(store, what, top, front):
    """Reads so many bytes of a file and closes the pipe."""
    before = look(store.path)
    line = store.words("get-file", ref_of(top))
    process = store.program.start(line, stdin=subprocess.DEVNULL, stdout=subprocess.PIPE)
    got = process.stdout.read(len(front))
    process.stdout.close()
    process.stdout = None
    _, err = finish(what, process)
    compare(what, "the front", True, got == front)
    compare_ending(what, 6, process.returncode, err)
    compare(what, "the folder", before, look(store.path))


# Blobs that are read ahead

class Asked(NamedTuple):
    """A file whose blobs have one length, how many of them are read before the first byte is written, how often they
    are read in all, and the exit status."""

    what: str
    blobs: list
    parts: list
    ahead: int
    reads: int
    status: int = 0
    name_of: Callable = ref_of

    def check(self, program):
        top, length = file_blob("n", self.parts), f", {len(self.blobs[0])}, "
        store = Store(program, {0: pack(*self.blobs, top, name_of=self.name_of)})
        out, status = reference.read_file(store.blobs(), self.name_of(top))
        ended, written, _, calls = trace(program, store.words("get-file", self.name_of(top)))
        compare(self.what, "status and bytes", (self.status, status, True), (status, ended, out == written))
        reads = [place for place in places(calls, READS) if length in calls[place].words]
        first = places(calls, WRITES, file=1)[0]
        compare(self.what, "blobs that are read ahead", self.ahead, sum(place < first for place in reads))
        compare(self.what, "blobs that are read", self.reads, len(reads))


def reading_ahead(program):
    """No blob is read more often than it is needed, and up to 64 of 8 MiB together before the first is written."""
    need_strace(program)
    random = chance("reading ahead")
    small, (large, *more), (huge, *others) = (
        [random.randbytes(length) for _ in range(count)] for length, count in ((3_000, 100), (1 << 20, 10), (5 << 20, 2))
    )
    a, b, c, d, *_ = whole = [part(3_000, ref_of(blob)) for blob in small]
    tree, row = bytes_blob([b, c]), bytes_blob(whole[:10])
    asked = [
        Asked("ten blobs", small, whole[:10], 10, 10),
        Asked("a hundred blobs", small, whole, 64, 100),
        Asked("a blob ten times", small, [a] * 10, 10, 10),
        Asked("zeros between", small, [a, part(5), b, c], 1, 3),
        Asked("a part of no bytes between", small, [a, part(0, ref_of(small[1])), c, d], 1, 3),
        Asked("a tree between", [*small, tree], [a, tree_part(tree, 6_000), d], 1, 4),
        Asked("a window of a tree", [*small, row], [tree_part(row, 7_500, 4_500), d], 3, 4),
        Asked("an absent blob", small, [a, b, part(1, NOWHERE), d], 2, 2, 3),
        Asked("older names", small, [part(3_000, older_ref_of(blob)) for blob in small[:4]], 1, 4, name_of=older_ref_of),
    ]
    for what, blobs, ahead in [("of 1 MiB", [large, *more], 8), ("of 5 MiB", [huge, *others], 1)]:
        parts = [part(len(blob), ref_of(blob)) for blob in blobs]
        asked.append(Asked(f"blobs {what}", blobs, parts, ahead, len(blobs)))
    return [lambda one=one: one.check(program) for one in asked]


# Refusals

def words(program):
    """Lines that aren't valid: status 2, whatever the keyring is."""
    store = Store(program, {0: pack(DIGITS, file_blob("n", [digits(10)]))}, {"keyring": b"a bad keyring"})
    folder, ref = str(store.path), ref_of(file_blob("n", [digits(10)]))
    bad = [(), (folder,), (folder, "--"), (folder, ref, ref), (folder, ref, ""), (folder, "-x")]
    bad += [(folder, "--", ref, "--"), (folder, ref, "--limit=1"), (folder, ref, "--after", ref)]
    bad += [(folder, ref, "--name", "n"), (folder, ref, "--at=x"), (folder, b"\xff"), (b"\xff", ref)]
    lines = [("get-file", *line) for line in bad] + [("--", "get-file", folder, ref)]
    lines += [(name, folder, ref) for name in ("Get-file", "get-files", "get_file", "getfile", "get-file ", "file")]
    good = Store(program, {0: pack(DIGITS, file_blob("n", [digits(10)]))})
    path = str(good.path)
    forms = [(path, ref), ("--", path, ref), (path, "--", ref), (path, ref, "--")]
    return refused_lines(store, "words", lines, 2) + [
        lambda form=form: good.keeps(f"words {form}", ["get-file", *form], DIGITS) for form in forms
    ]


def texts(program):
    """Texts that aren't refs: status 4, whatever the disk has."""
    store = Store(program, {0: pack(b"abc")}, {"keyring": inputs.KEYRING})
    file = program.new_path()
    file.write_bytes(b"")
    lines = [("get-file", str(path), ref) for path in (store.path, file) for ref in BAD_REFS]
    return refused_lines(store, "texts", lines, 4)


def keyrings(program):
    return bad_keyrings(program, lines_of)


def folders(program):
    """Paths that aren't folders, and folders that aren't there, which read as a store without blobs."""
    missing, empty = program.new_path(), Store(program, {})
    parentless = missing / "store"
    checks = bad_packs(program, lines_of, {}) + bad_folders(program, lines_of, 7)
    checks += [
        lambda path=path, line=line: leaves(program, f"{line}", line, 3, path)
        for path in (missing, parentless)
        for line in lines_of(path)
    ]
    return checks + refused_lines(empty, "an empty folder", lines_of(empty.path), 3) + [lambda: reads_on(program)]


def reads_on(program):
    """A reader waits for no writer."""
    top = file_blob("n", [digits(10)])
    store = Store(program, {0: pack(DIGITS, top)})
    with locked(store.path):
        program.check("a locked folder", store.words("get-file", ref_of(top)), DIGITS, seconds=5)


def streams(program):
    """Standard output that accepts nothing, and which error is reported if there are several."""
    return [lambda: failing_sinks(program), lambda: which_is_first(program), lambda: reads_no_source(program)]


def failing_sinks(program):
    zeros, empty = file_blob("n", [part(1 << 40)]), file_blob("n", [])
    long, lost = file_blob("n", [digits(10)] * 9), file_blob("n", [digits(1), part(1, NOWHERE)])
    store = Store(program, {0: pack(DIGITS, zeros, long, empty, lost)})
    before = look(store.path)
    for what, top in [("zeros", zeros), ("a file", long), ("a file that ends early", lost)]:
        line = store.words("get-file", ref_of(top))
        with_streams(program, f"{what}, standard output is full", line, 6, sink="/dev/full", folder=program.working)
        with_streams(program, f"{what}, standard output is closed", line, 6, closed=1, folder=program.working)
    compare("standard output that takes nothing", "the folder", before, look(store.path))


def which_is_first(program):
    lost = file_blob("n", [part(1, NOWHERE), digits(1)])
    store = Store(program, {0: pack(DIGITS, b"abc", lost)})
    broken = Store(program, {}, {"keyring": b"x"})
    file = program.new_path()
    file.write_bytes(b"")
    full = {"sink": "/dev/full"}
    ends_first(program, [
        ("words before the keyring", broken.words("get-file"), 2, full),
        ("the disk before the sink", ["get-file", str(file), ABC], 7, full),
        ("an absent file before the sink", store.words("get-file", NOWHERE), 3, full),
        ("no file before the sink", store.words("get-file", ABC), 4, full),
        ("an absent part before the sink", store.words("get-file", ref_of(lost)), 3, full),
    ])


def reads_no_source(program):
    """Standard input may be closed."""
    store = Store(program, {0: pack(DIGITS, file_blob("n", [digits(10)]))})
    out = program.new_path()
    with open(out, "wb") as sink:
        line = store.words("get-file", ref_of(file_blob("n", [digits(10)])))
        with_streams(program, "standard input is closed", line, 0, sink=sink.fileno(), closed=0, folder=program.working)
    check("standard input is closed: other bytes", out.read_bytes() == DIGITS)


GROUPS = [parts, forms, trees, older, depth, absent, unasked, short, no_files, random_files, words, texts, keyrings]
GROUPS += [folders, reading_ahead]

if __name__ == "__main__":
    harness.main("get_file.sh", GROUPS, [long_files, streams])
