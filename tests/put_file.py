"""Runs `perkeep put-file`: the blobs into which it cuts a file, the state after its refusals, and what `get-file` reads
from them.

Each blob that is put is the one that writing.py makes, and each byte of each pack is the reference's.
"""

import concurrent.futures
import itertools
import os
import subprocess
import threading

import harness
import inputs
import reference
import writing
from faults import ends_with_fault, faults_of, is_durable_when_printed, own_calls
from harness import chance, check, compare, compare_ending, finish, limited_to
from harness import with_broken_source, with_streams
from reference import older_ref_of, ref_of
from refused_alike import bad_folders, bad_keyrings, bad_packs, ends_first, leaves, refused_lines, waits_too_long
from store_packs import write_deleted_records
from stores import ABC, CLEAN, TORN, Store
from tracing import need_strace, traced
from writing import BYTES_OF_A_CHUNK, chunks_of, file_blob, file_blobs, pack, record

NAME = "n.txt"
LONGEST_NAME = 4_096


class Files(Store):
    """A store into which files are put."""

    def put_file(self, what, content, name=NAME, words=None, run=None):
        """Puts a file, which has to succeed, and compares the ref and all files; returns the ref."""
        line = words or self.words("put-file", "--", name)
        run = run or (lambda: self.program.run(what, line, content))
        self.put_all(file_blobs(name, chunks_of(content)))
        status, out, err = run()
        compare_ending(what, 0, status, err)
        ref = ref_of(file_blobs(name, chunks_of(content))[-1])
        compare(what, "standard output", ref.encode() + b"\n", out)
        self.check_files(what)
        return ref

    def put_all(self, blobs):
        """The blobs have to be there, in this order."""
        for blob in blobs:
            self.packs = reference.put(self.packs, blob)


def lines_of(folder):
    return [["put-file", str(folder), NAME]]


# Blobs that are put

SIZES = [0, 1, 2, 65_535, 65_536, 65_537, BYTES_OF_A_CHUNK - 1, BYTES_OF_A_CHUNK, BYTES_OF_A_CHUNK + 1, 2_500_000]
SIZES += [2 * BYTES_OF_A_CHUNK, 5 * BYTES_OF_A_CHUNK - 1]


def content_of(size):
    return chance("content", size).randbytes(size)


def sizes(program):
    return [lambda size=size: of_size(program, size) for size in SIZES] + [
        lambda check=check: check(program) for check in (worked_row, chunks_that_repeat, beside_others, already)
    ]


def of_size(program, size):
    """A file of a size, into a folder that isn't there, and again: then nothing is added."""
    what, store, content = f"{size} bytes", Files(program), content_of(size)
    ref = store.put_file(what, content)
    store.keeps(f"{what}, again", store.words("put-file", NAME), ref.encode() + b"\n", source=content)
    store.gets(what, [ref])


# The refs of a file of no bytes and the empty name, and of a bytes blob of the one chunk `abc`, by another program.
EMPTY_FILE = "sha224-f0c3f9d931e218b556c81e2e3bb6bb61d99c9dab125a965e28b82bed"
BYTES_OF_ABC = "sha224-687927f7697527536543a7421c7e078edc39d595b7f54ccc60acc574"


def worked_row(program):
    """The sizes of the chunks, and the file's own bytes, written out."""
    store, content = Files(program), content_of(2_500_000)
    ref = store.put_file("three chunks", content)
    chunks = [content[:1_048_576], content[1_048_576:2_097_152], content[2_097_152:]]
    parts = ",".join(f'{{"blobRef":"{ref_of(chunk)}","size":{len(chunk)}}}' for chunk in chunks)
    own = f'{{"camliVersion":1,"camliType":"file","fileName":"n.txt","parts":[{parts}]}}\n'.encode()
    compare("three chunks", "sizes", [1_048_576, 1_048_576, 402_848], list(map(len, chunks)))
    compare("three chunks", "blobs", [*chunks, own], list(store.blobs().values()))
    compare("three chunks", "the ref", ref_of(own), ref)
    empty = Files(program)
    empty.put_file("an empty file", b"", "e")
    own = b'{"camliVersion":1,"camliType":"file","fileName":"e","parts":[]}\n'
    compare("an empty file", "blobs", [own], list(empty.blobs().values()))
    what = "an empty file of the empty name"
    compare(what, "the ref", EMPTY_FILE, Files(program).put_file(what, b"", ""))


def chunks_that_repeat(program):
    """Equal chunks are one blob; the last chunk is one of its own if it only begins like another."""
    chunk = content_of(BYTES_OF_A_CHUNK)
    contents = {"zeros": bytes(5_000_000), "a chunk three times": chunk * 3, "a front behind": chunk * 2 + chunk[:9]}
    for what, content in contents.items():
        store = Files(program)
        store.put_file(what, content)
        compare(what, "blobs", len({*chunks_of(content)}) + 1, len(store.blobs()))


def beside_others(program):
    """Files that share chunks, in existing packs, one of which is torn."""
    content = content_of(3_000_000)
    first_chunk, empty_file = content[:BYTES_OF_A_CHUNK], file_blob(NAME, [])
    for packs in ({}, {0: CLEAN}, {2: pack(first_chunk) + b"[torn"}, {0: pack(empty_file)}):
        store = Files(program, packs)
        store.put_file("a file", content)
        store.put_file("another name", content, "other")
        store.put_file("a front of it", content[:2_000_000])
        store.put_file("the same behind", content[BYTES_OF_A_CHUNK:])
        store.put_file("an empty file", b"")
        store.put_file("the empty name", b"abc", "")
        store.lists("files beside others")


def already(program):
    """A file's blobs are put if some of them are there, in any order; a chunk may be a file, a key or a claim."""
    content = content_of(2_100_000)
    blobs = file_blobs(NAME, chunks_of(content))
    for number, order in enumerate(itertools.permutations(blobs, 2)):
        store = Files(program, {0: pack(*order)})
        store.put_file(f"blobs that stand, {number}", content)
    # Under their older names they are other blobs.
    store = Files(program, {0: pack(*blobs, name_of=older_ref_of)})
    store.put_file("blobs that stand under their older names", content)
    store.lists("blobs that stand under their older names")
    compare("blobs that stand under their older names", "how many stand then", 2 * len(blobs), len(store.blobs()))
    for blob in (inputs.KEY, inputs.CLAIM, blobs[-1], record(b"abc"), b"[x-0 9]"):
        store = Files(program, {0: pack(b"abc")})
        store.put_file(f"the file {blob[:20]}", blob)
        store.put_file(f"the file {blob[:20]}, another name", blob, "other")
        store.lists(f"the file {blob[:20]}")


# Names

NAMES = ["", " ", "a b", "../x", "/", "/etc/passwd", ".", "-", "--", "-x", "--key=jefe"]
NAMES += ["a\\b", '"', '","parts":[],"x":"', "\u00e4", "\U0001f600"]
NAMES += ["".join(map(chr, range(1, 128))), *map(chr, range(1, 32)), "\x7f", "\u2028", "\ufeff", "a\u0308"]
NAMES += ["n" * LONGEST_NAME, "\1" * LONGEST_NAME, "\u00e4" * (LONGEST_NAME // 2), "\U0001f600" * (LONGEST_NAME // 4)]
LONG_NAMES = ["n" * (LONGEST_NAME + 1), "\1" * (LONGEST_NAME + 1), "\u00e4" * (LONGEST_NAME // 2) + "n", "n" * 100_000]


def names(program):
    """Names of all kinds of strings, and those that are too long: these are refused before anything is read or made."""
    store = Files(program, {})
    one_by_one = [lambda: [store.put_file(f"the name {name[:40]!r}", b"abc", name) for name in NAMES]]
    return one_by_one + [lambda name=name: too_long(program, name) for name in LONG_NAMES]


def too_long(program, name):
    what, store = f"a name of {len(name.encode())} bytes", Store(program, {0: pack(b"abc")})
    missing, source = program.new_path(), program.new_path()
    source.write_bytes(b"a source")
    for path in (store.path, missing):
        leaves(program, what, ["put-file", str(path), name], 4, path)
    with open(source, "rb", buffering=0) as file:
        with_streams(program, what, store.words("put-file", name), 4, source=file.fileno(), folder=program.working)
        compare(what, "what was read", 0, os.lseek(file.fileno(), 0, os.SEEK_CUR))


# Sources

def sources(program):
    return [lambda check=check: check(program) for check in (from_a_file, in_pieces, broken_sources, little_memory)]


def from_a_file(program):
    """Standard input is a file, read from its present position."""
    store, content, path = Files(program), content_of(2_500_000), program.new_path()
    path.write_bytes(b"passed over" + content)
    with open(path, "rb", buffering=0) as file:
        file.seek(len(b"passed over"))

        def run():
            process = program.start(store.words("put-file", NAME), stdin=file, stdout=subprocess.PIPE)
            out, err = finish("from a file", process)
            return process.returncode, out, err

        store.put_file("from a file", content, run=run)


def in_pieces(program):
    """Standard input that comes in pieces is cut in the same way."""
    for number, most in enumerate((1, 4_000, 70_000, 3_000_000)):
        random = chance("pieces", number)
        content = random.randbytes(40 if most == 1 else 2_200_000)
        store = Files(program)
        what = f"pieces of at most {most} bytes"
        store.put_file(what, content, run=lambda: runs_on_pieces(store, what, content, most, random))


def runs_on_pieces(store, what, content, most, random):
    streams = {"stdin": subprocess.PIPE, "stdout": subprocess.PIPE, "bufsize": 0}
    process = store.program.start(store.words("put-file", NAME), **streams)

    def feed():
        at = 0
        with process.stdin as pipe:
            while at < len(content):
                at += pipe.write(content[at : at + random.randint(1, most)])

    feeder = threading.Thread(target=feed)
    feeder.start()
    feeder.join(harness.SECONDS)
    process.stdin = None
    out, err = finish(what, process)
    return process.returncode, out, err


def little_memory(program):
    """256 MiB, in 128 MiB of memory."""
    has_many_chunks(program, 256, b"", limited_to(128))


def broken_sources(program):
    """A source that can't be read, or breaks off: status 5. Chunks that were read whole may be there, in their order,
    and nothing else is put."""
    for packs in (None, {}, {0: pack(b"abc")}, {0: b"[torn"}):
        store = Files(program, packs)
        for what, stream in [("closed", {"closed": 0}), ("a folder", {"source": program.folder})]:
            what, line = f"standard input is {what}", store.words("put-file", NAME)
            with_streams(program, what, line, 5, folder=program.working, **stream)
            store.check_files(what)
        for size in (0, 10, BYTES_OF_A_CHUNK - 1):
            breaks_off(store, content_of(size))
    for size in (BYTES_OF_A_CHUNK, BYTES_OF_A_CHUNK + 1, 2_500_000, 9_500_000):
        breaks_off(Files(program, {0: pack(b"abc")}), content_of(size))


def breaks_off(store, front):
    what = f"standard input breaks off after {len(front)} bytes"
    with_broken_source(store.program, what, store.words("put-file", NAME), front, folder=store.program.working)
    whole = [chunk for chunk in chunks_of(front) if len(chunk) == BYTES_OF_A_CHUNK]
    stand = reference.arrivals(reference.packs_of(store.files()))
    kept = [chunk for chunk in whole if ref_of(chunk) in stand]
    compare(what, "chunks that stand", [ref_of(chunk) for chunk in whole[: len(kept)]], list(map(ref_of, kept)))
    store.put_all(kept)
    store.check_files(what)
    store.put_file(f"{what}, and comes whole then", front + b"more")


# Side by side, and the order of syncs

AT_ONCE = 6


def side_by_side(program):
    return [lambda: files_at_once(program)]


def files_at_once(program):
    """Files by several programs at a time into a folder that isn't there: none is lost, and no pack is torn."""
    what, store = f"{AT_ONCE} files at once", Files(program)
    contents = [content_of(size) for size in (2_500_000, 10, 2_500_000, BYTES_OF_A_CHUNK, 0, 1_500_000)]

    def put(number):
        name = f"n{number}"
        own = file_blobs(name, chunks_of(contents[number]))[-1]
        program.check(what, store.words("put-file", name), ref_of(own).encode() + b"\n", source=contents[number])

    with concurrent.futures.ThreadPoolExecutor(AT_ONCE) as pool:
        list(pool.map(put, range(AT_ONCE)))
    store.packs = reference.packs_of(store.files())
    blobs = [blob for number, content in enumerate(contents) for blob in file_blobs(f"n{number}", chunks_of(content))]
    compare(what, "what stands", {ref_of(blob) for blob in blobs}, set(store.blobs()))
    compare(what, "broken places", {None}, {reference.salvage(content)[1] for content in store.packs.values()})


def syncs(program):
    """Everything is durable when the ref is printed."""
    need_strace(program)
    stores = {"a new folder": None, "an empty folder": {}, "a pack that stands": {0: CLEAN}, "a torn pack": {0: TORN}}
    return [
        lambda what=what, packs=packs, size=size: is_synced(program, what, packs, size)
        for (what, packs), size in itertools.product(stores.items(), (10, 1_500_000))
    ]


def is_synced(program, what, packs, size):
    store, content = Files(program, packs), content_of(size)
    what, before = f"{what}, {size} bytes", store.packs
    calls = traced(program, what, store.words("put-file", NAME), content)
    store.put_all(file_blobs(NAME, chunks_of(content)))
    store.check_files(what)
    is_durable_when_printed(what, calls, store.path, reference.pack_for_the_next_record(before), before, packs is None)


# Calls that fail

def failing(program):
    """Each call of a put-file in turn fails: then a prefix of the file's blobs is there, and the file can be put
    again."""
    need_strace(program)
    return [check for packs in (None, {0: pack(b"abc") + b"[torn"}) for check in failing_calls(program, packs)]


def failing_calls(program, packs):
    what, content = f"a put-file beside {packs and sorted(packs)}", b"a chunk"
    store = Store(program, packs)
    calls = own_calls(traced(program, what, store.words("put-file", NAME), content), store.path)
    return [
        lambda call=call, fault=fault: put_fails(program, f"{what}, {' and '.join(fault)}", packs, content, call, fault)
        for call in calls
        for fault in faults_of(call)
    ]


def put_fails(program, what, packs, content, call, fault):
    store, blobs = Files(program, packs), file_blobs(NAME, chunks_of(content))
    known = store.blobs()
    status, out, _ = ends_with_fault(what, store, store.words("put-file", NAME), content, call, fault)
    printed = ref_of(blobs[-1]).encode() + b"\n"
    compare(what, "standard output", printed if status == 0 else b"", out)
    stand = [ref for ref in store.blobs() if ref not in known]
    front = len(blobs) if status in (0, 6) else len(stand)
    compare(what, "blobs that stand", list(map(ref_of, blobs[:front])), stand)
    program.check(f"{what}, the put after it", store.words("put-file", NAME), printed, source=content)
    store.packs = reference.packs_of(store.files())
    compare(what, "what stands then", {*known, *map(ref_of, blobs)}, set(store.blobs()))


# In and out

def back(program):
    """Files that were put are read again."""
    return [lambda size=size: reads_back(program, content_of(size)) for size in SIZES] + [
        lambda: reads_back(program, bytes(3_000_000)),
        lambda: reads_back(program, content_of(12_000_000)),
    ]


def reads_back(program, content):
    what, store = f"{len(content)} bytes back", Files(program, {0: pack(b"abc") + b"[torn"})
    ref = store.put_file(what, content)
    compare(what, "the reference", True, reference.read_file(store.blobs(), ref) == (content, 0))
    store.reads(what, "get-file", ref, out=content)
    store.reads(f"{what}, of a chunk", "get-file", ABC, status=4)


# Refusals

def words(program):
    """Lines that aren't valid: status 2, whatever the keyring is. Valid lines in all their forms."""
    store = Store(program, {0: pack(b"abc")}, {"keyring": b"a bad keyring"})
    folder = str(store.path)
    bad = [(), (folder,), (folder, "--"), (folder, NAME, NAME), (folder, NAME, ""), (folder, "-x"), (folder, "-")]
    bad += [(folder, "--name", NAME), (folder, NAME, "--name=x"), (folder, NAME, "--key", "jefe")]
    bad += [(folder, "--", NAME, "--"), (folder, b"\xff")]
    lines = [("put-file", *line) for line in bad] + [("--", "put-file", folder, NAME)]
    lines += [(name, folder, NAME) for name in ("Put-file", "put-files", "put_file", "putfile", "put-file ")]
    return refused_lines(store, "words", lines, 2) + [lambda: good_lines(program)]


def good_lines(program):
    store = Files(program, {}, {"keyring": inputs.KEYRING})
    folder = str(store.path)
    for number, (form, name) in enumerate([
        ((folder, NAME), NAME),
        (("--", folder, NAME), NAME),
        ((folder, "--", NAME), NAME),
        ((folder, NAME, "--"), NAME),
        ((folder, "--", "--"), "--"),
        ((folder, "--", "-x"), "-x"),
        ((folder, ""), ""),
        ((folder + "/", "--", "put-file"), "put-file"),
    ]):
        store.put_file(f"words {form}", b"content %d" % number, name, words=["put-file", *form])


def keyrings(program):
    return bad_keyrings(program, lines_of)


def folders(program):
    """Folders and packs that can't be used: the source isn't read then."""
    parentless = program.new_path() / "store"
    checks = bad_packs(program, lines_of, {}) + bad_folders(program, lines_of, 7)
    checks.append(lambda: waits_too_long(program, lambda folder: lines_of(folder)[0], {}))
    return checks + [lambda: leaves(program, "no folder above", lines_of(parentless)[0], 7, parentless.parent)]


def full(program):
    """A store that accepts no more blobs, or only some of the file's: these are kept, and nothing is printed."""
    content = content_of(2_500_000)
    chunks = chunks_of(content)
    torn = Files(program, {0: pack(b"abc"), 99_999: b"x"})
    chunked = Files(program, {0: pack(*chunks), 99_999: b"x"})
    whole = Files(program, {0: pack(*file_blobs(NAME, chunks)), 99_999: b"x"})
    return [
        lambda: torn.keeps("a full store", torn.words("put-file", NAME), status=9, source=content),
        lambda: torn.keeps("an empty file", torn.words("put-file", NAME), status=9),
        lambda: chunked.keeps("the chunks stand", chunked.words("put-file", NAME), status=9, source=content),
        lambda: whole.put_file("a full store with the file", content),
        lambda: room_for(program, content, chunks[:1]),
        lambda: room_for(program, content, chunks[:2]),
        lambda: room_for(program, b"", []),
    ]


def room_for(program, content, kept):
    """The last pack accepts some blobs, and then no more."""
    what, store = f"room for {len(kept)} blobs", Store(program, {})
    path, added = store.path / reference.pack_name(reference.LAST_PACK), pack(*kept)
    length = reference.BYTES_OF_A_FULL_PACK - max(len(added) - 1, 0)
    write_deleted_records(path, length)
    program.check(what, store.words("put-file", NAME), status=9, source=content)
    compare(what, "length of the pack", length + len(added), path.stat().st_size)
    with open(path, "rb") as file:
        file.seek(length)
        check(f"{what}: other bytes were added", file.read() == added)
    compare(what, "names of files", [path.name], [entry.name for entry in store.path.iterdir()])
    path.unlink()


def streams(program):
    """Standard output that accepts nothing: the file is there. Which error is reported if there are several."""
    return [lambda: kept_though_unsaid(program), lambda: which_is_first(program)]


def kept_though_unsaid(program):
    content, source = content_of(1_500_000), program.new_path()
    source.write_bytes(content)
    for packs in (None, {0: pack(b"abc")}, {0: pack(b"abc") + b"["}):
        for what, stream in [("full", {"sink": "/dev/full"}), ("closed", {"closed": 1})]:
            store, what = Files(program, packs), f"standard output is {what}"
            line = store.words("put-file", NAME)
            with_streams(program, what, line, 6, source=source, folder=program.working, **stream)
            store.put_all(file_blobs(NAME, chunks_of(content)))
            store.check_files(what)


def which_is_first(program):
    broken = Store(program, {}, {"keyring": b"x"})
    unread = Store(program, {})
    (unread.path / "keyring").mkdir()
    full_store = Store(program, {99_999: b"x"})
    file, source = program.new_path(), program.new_path()
    file.write_bytes(b"")
    source.write_bytes(b"a source")
    long, sink = LONG_NAMES[0], {"source": source, "sink": "/dev/full"}
    ends_first(program, [
        ("words before the keyring", broken.words("put-file"), 2, {"closed": 0}),
        ("the keyring before the source", broken.words("put-file", NAME), 4, {"closed": 0}),
        ("the keyring before a long name", unread.words("put-file", long), 5, {"closed": 1}),
        ("a long name before the source", full_store.words("put-file", long), 4, {"closed": 0}),
        ("a long name before the disk", ["put-file", str(file), long], 4, {"closed": 0}),
        ("the disk before the source", ["put-file", str(file), NAME], 7, {"closed": 0}),
        ("the source before a full store", full_store.words("put-file", NAME), 5, {"closed": 0}),
        ("a full store before the sink", full_store.words("put-file", NAME), 9, sink),
    ])


# Long files

def large(program):
    """Files of as many chunks as one list may have, and of three bytes more."""
    most = writing.MOST_CHUNKS_OF_A_LIST
    return [lambda: has_many_chunks(program, most, b""), lambda: has_two_lists(program, most)]


def has_two_lists(program, most):
    """The second list, a bytes blob of its own, is that of one chunk."""
    store = has_many_chunks(program, most, b"abc")
    check(f"the second list: there is no {BYTES_OF_ABC}", BYTES_OF_ABC in store.blobs())


def has_many_chunks(program, count, rest, front=()):
    """Zeros of so many chunks, and some bytes more, in and out; returns the store. put-file may have words before its
    own."""
    what, store, source = f"{count} chunks and {len(rest)} bytes", Files(program), program.new_path()
    with open(source, "wb") as file:
        file.truncate(count * BYTES_OF_A_CHUNK)
        file.seek(0, os.SEEK_END)
        file.write(rest)
    blobs = file_blobs(NAME, [bytes(BYTES_OF_A_CHUNK)] * count + ([rest] if rest else []))
    store.put_all(dict.fromkeys(blobs))
    with open(source, "rb") as file:
        process = program.start(store.words("put-file", NAME), front=front, stdin=file, stdout=subprocess.PIPE)
        out, err = finish(what, process, seconds=300)
    source.unlink()
    compare_ending(what, 0, process.returncode, err)
    compare(what, "standard output", ref_of(blobs[-1]).encode() + b"\n", out)
    store.check_files(what)
    writes_zeros(store, f"{what}, back", ref_of(blobs[-1]), count, rest)
    return store


def writes_zeros(store, what, ref, count, rest):
    """`get-file` writes so many chunks of zeros, and then these bytes."""
    chunk, line = bytes(BYTES_OF_A_CHUNK), store.words("get-file", ref)
    process = store.program.start(line, stdin=subprocess.DEVNULL, stdout=subprocess.PIPE)
    are_zeros = [process.stdout.read(len(chunk)) == chunk for _ in range(count)]
    out, err = finish(what, process)
    compare_ending(what, 0, process.returncode, err)
    compare(what, "chunks of zeros", count, are_zeros.count(True))
    compare(what, "the bytes behind them", rest, out)


GROUPS = [folders, sizes, names, sources, side_by_side, syncs, failing, words, keyrings, back, large]

if __name__ == "__main__":
    harness.main("put_file.sh", GROUPS, [full, streams])
