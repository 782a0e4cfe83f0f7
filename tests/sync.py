"""`push` and `pull`: blobs that one store has and the other lacks, copied to and from real servers, and from a server
in Python that checks each request and replies as the test says.

The expected state is computed from docs/sync.md: after a run that succeeds the target has all blobs of both, and after
one that fails what it had and a prefix, in the order of refs, of what it lacked. The packs of a store are compared to
the byte.
"""

import contextlib
import re
import signal
import socket
import subprocess
import threading
import time

import harness
import inputs
import reference
import tracing
import writing
from connections import Reply, json_text
from harness import LeftOut, chance, check, compare, compare_ending
from peers import FalsePeer, changes, resets, sends, with_body
from reference import LARGEST_BLOB, older_ref_of, pack_name, ref_of
from serving import HOST, PORTS, Server
from stores import Store, check_search, look
from writers import Locked

OTHERS = {"keyring": inputs.KEYRING}
# docs/commands.md, "Exit statuses"
DISK, PEER, FULL, DAMAGED, REPLY = 7, 8, 9, 10, 11
# docs/sync.md, "Connections"
IDLE, WITHIN_A_REPLY = 20, 60
LONGEST_TEXT = 1_048_576
COUNTS = 0, 1, 999, 1_000, 1_001
MANY = 10_000
KILLS = 4


# Stores and what is copied

class Blobs:
    """Blobs in the order of a store, and their refs: half of them have their older names."""

    def __init__(self, *what):
        self.random, self.name_of = chance(*what), writing.Names(chance("names", *what))

    def some(self, count, most=60):
        return [b"%d " % number + self.random.randbytes(self.random.randrange(most)) for number in range(count)]

    def store(self, program, blobs):
        return Store(program, {0: writing.pack(*blobs, name_of=self.name_of)}, OTHERS)


def overlapping(program, count):
    """Two stores of so many blobs, half of which are the same."""
    blobs = Blobs("overlapping", count)
    some = blobs.some(count + (count + 1) // 2)
    here, there = some[:count], some[len(some) - count :]
    blobs.random.shuffle(there)
    return blobs.store(program, here), blobs.store(program, there)


def lacking(source, target):
    """The refs that one store has and another lacks, in order."""
    return sorted(source.keys() - target.keys())


def with_blobs(packs, blobs, refs):
    """The packs of a store to which the blobs of some refs were added in this order."""
    if not refs:
        return packs
    number = reference.pack_for_the_next_record(packs)
    records = b"".join(b"[%b %d]" % (ref.encode(), len(blobs[ref])) + blobs[ref] for ref in refs)
    check("the test's own packs grow too long", len(packs.get(number, b"") + records) < reference.BYTES_OF_A_FULL_PACK)
    return {**packs, number: packs.get(number, b"") + records}


def told(source, target):
    copied = len(source.keys() - target.keys())
    return b"copied %d already %d\n" % (copied, len(source) - copied)


def at(server):
    return f"{HOST}:{server.port}"


def push(what, source, target, address):
    """Pushes a store to a server over another; both stores have to be as expected then."""
    here, there = source.blobs(), target.blobs()
    source.keeps(f"{what}: push", source.words("push", address), told(here, there))
    target.packs = with_blobs(target.packs, here, lacking(here, there))
    target.check_files(f"{what}: the store of the server behind a push")


def pull(what, source, target, address):
    """Pulls from a server over a store into another."""
    there, here = source.blobs(), target.blobs()
    target.program.check(f"{what}: pull", target.words("pull", address), told(there, here))
    target.packs = with_blobs(target.packs, there, lacking(there, here))
    target.check_files(f"{what}: the store behind a pull")
    source.check_files(f"{what}: the store of the server behind a pull")


# Both ways

def both_ways(program):
    """Stores of each number of blobs, including a page and one less and more, that have half of them in common: both
    ends have the same, and a second run copies nothing."""
    return [lambda count=count: become_equal(program, f"{count} blobs", *overlapping(program, count)) for count in COUNTS]


def many(program):
    """The same with 10,000 blobs each."""
    return [lambda: become_equal(program, f"{MANY} blobs", *overlapping(program, MANY))]


def become_equal(program, what, here, there):
    with Server(program, there.path) as server:
        push(what, here, there, at(server))
        pull(what, there, here, at(server))
        compare(what, "the blobs of both", here.blobs(), there.blobs())
        push(f"{what}, again", here, there, at(server))
        pull(f"{what}, again", there, here, at(server))
    for store in (here, there):
        store.reads(f"{what}: list", "list", "--limit=4194304", out=reference.listing(store.blobs(), limit=4_194_304))


def one_way(program):
    """A store beside an empty one, a folder that isn't there yet, and packs that are torn."""
    return [lambda check_it=check_it: check_it(program) for check_it in (into_a_new_folder, out_of_torn_packs, names)]


def into_a_new_folder(program):
    what, blobs = "a folder that isn't there", Blobs("a new folder")
    there, here = blobs.store(program, blobs.some(5)), Store(program)
    with Server(program, there.path) as server:
        push(f"{what} is pushed", here, there, at(server))
        check(f"{what}: a push has made it", not here.path.exists())
        pull(what, there, here, at(server))


def out_of_torn_packs(program):
    what, blobs = "torn packs", Blobs("torn packs")
    one, two, three = (writing.pack(*blobs.some(4, 30 * place), name_of=blobs.name_of) for place in (1, 2, 3))
    here, there = Store(program, {0: one, 1: two[:-1]}, OTHERS), Store(program, {0: three[:-1]}, OTHERS)
    with Server(program, there.path) as server:
        push(what, here, there, at(server))
        pull(what, there, here, at(server))
        push(f"{what}, again", here, there, at(server))


def names(program):
    """One blob under both of its names is two, and a blob that only the other one has under this name is missing."""
    what, blob = "both names", b"a blob of both names"
    both = {0: writing.pack(blob) + writing.pack(blob, name_of=older_ref_of)}
    for packs in ({}, {0: writing.pack(blob)}, {0: writing.pack(blob, name_of=older_ref_of)}, both):
        become_equal(program, what, Store(program, both, OTHERS), Store(program, packs, OTHERS))


def long_blobs(program):
    """Blobs of 16 MiB, one of them full of text that ends the parts of other uploads."""
    return [lambda: longest(program)]


def longest(program):
    what, random = "blobs of 16 MiB", chance("long blobs")
    ends = b"".join(b"\r\n--pk%08d" % number for number in range(200_000)) + b"\r\n-" * (LARGEST_BLOB // 3)
    some = [random.randbytes(LARGEST_BLOB), ends[:LARGEST_BLOB], bytes(LARGEST_BLOB), b"\r\n--pk00000000", b""]
    name_of = writing.Names(chance("names of long blobs"))
    here = Store(program, {0: writing.pack(*some[:2], *some[3:], name_of=name_of)}, OTHERS)
    there = Store(program, {0: writing.pack(*some[2:], name_of=name_of)}, OTHERS)
    become_equal(program, what, here, there)


def notes(program):
    """A key, permanodes, claims and a deletion, distributed over two stores: a search finds them only once they are
    together."""
    return [lambda: found_together(program)]


def found_together(program):
    what, some = "notes", [writing.key_blob()]
    for number in range(30):
        node = writing.permanode(f"{number:032x}")
        mark = writing.claim("set", ref_of(node), "tag", "ab"[number % 2], inputs.DATE)
        some += [node, mark] + ([writing.delete(ref_of(mark), inputs.day(2))] if number % 5 == 0 else [])
    here, there = (Store(program, {0: writing.pack(*some[place::2])}, OTHERS) for place in (0, 1))
    with Server(program, there.path) as server:
        push(what, here, there, at(server))
        pull(what, there, here, at(server))
    for store in (here, there):
        archive = reference.archive_of_store(store.packs, inputs.KEYRING)
        check(f"{what}: the reference finds nothing", archive.holders("tag", "a"))
        for value, date in (("a", None), ("b", None), ("a", inputs.DATE)):
            check_search(store, archive, "tag", value, date)


# Ends

def words(program):
    """Arguments that are no line, and texts that are."""
    folder = str(program.new_path())
    none = [["push"], ["push", folder], ["push", folder, "a", "b"], ["push", "--x=1", folder, "a"], ["push", folder, "-a"]]
    none += [["Push", folder, "a"], ["push", folder, "a", "--limit=1"], ["--", "push", folder, "a"]]
    lines = [["push", folder, "a"], ["push", "--", folder, "-a"], ["push", folder, "--", "a"], ["push", folder, "a", "--"]]
    both = [(line, status) for status, some in ((2, none), (PEER, lines)) for line in some]

    def ends(command, line, status):
        line = [command if word == "push" else word for word in line]
        program.check(f"{line}", line, status=status)

    return [lambda command=command, one=one: ends(command, *one) for command in ("push", "pull") for one in both]


def nowhere(program):
    """Addresses at which no one is, and texts that aren't addresses, even if there is nothing to copy."""
    port = PORTS.free()
    some = [f"{HOST}:{port}", f"localhost:{port}", f"[::1]:{port}", "", ":", f":{port}", HOST, f"{HOST}:", f"{HOST}:0"]
    some += [f"{HOST}:65536", f"{HOST}:-1", f"{HOST}:http", f" {HOST}:{port}", f"http://{HOST}:{port}", "a b:1", "\u00e9:1"]
    empty, filled = Store(program, {}, OTHERS), Store(program, {0: writing.pack(b"abc")}, OTHERS)
    return [
        lambda address=address, store=store, command=command: store.keeps(
            f"{command} at {address!r}", [command, "--", str(store.path), address], status=PEER
        )
        for address in some
        for store in (empty, filled)
        for command in ("push", "pull")
    ]


def by_name(program):
    """A server is reached by the name of its host, of whose addresses the first may be another one's."""
    return [lambda: reached(program)]


def reached(program):
    blobs = Blobs("by name")
    here, there = blobs.store(program, blobs.some(3)), Store(program, {}, OTHERS)
    with Server(program, there.path) as server:
        push("a server by its name", here, there, f"localhost:{server.port}")


def before_the_peer(program):
    """A fault before the peer's first request is reported, and no connection is made."""
    file = program.new_path()
    file.write_bytes(b"")
    bad_keyring = Store(program, {0: writing.pack(b"abc")}, {"keyring": b"jefe\n"})

    def ends(what, command, path, status):
        with FalsePeer() as peer:
            program.check(f"{command}: {what}", [command, str(path), peer.address], status=status)
            compare(f"{command}: {what}", "connections", 0, peer.connections)

    rows = [("DIR is a file", file, DISK), ("a keyring that is none", bad_keyring.path, 4)]
    return [
        lambda command=command, what=what, path=path, status=status: ends(what, command, path, status)
        for command in ("push", "pull")
        for what, path, status in rows
    ]


def a_locked_folder(program):
    """A pull waits for the lock of its folder, and then fails; a push needs none."""
    def locked():
        what, blobs = "a folder that another program holds", Blobs("a locked folder")
        here, there = blobs.store(program, blobs.some(4)), blobs.store(program, [])
        with Server(program, there.path) as server, Locked(here.path):
            push(what, here, there, at(server))
            here.keeps(f"{what}: pull", here.words("pull", at(server)), status=DISK)

    return [locked]


def no_room(program):
    """Stores that accept no new blob: existing blobs are kept, and if the store is full, its status says so."""
    return [lambda check_it=check_it: check_it(program) for check_it in (full_here, full_there, files_cannot_grow)]


def full_store(program):
    return Store(program, {reference.LAST_PACK: writing.pack(b"stands") + b"[torn"}, OTHERS)


def full_here(program):
    what, here = "a pull into a full store", full_store(program)
    with FalsePeer({ref_of(b"stands"): b"stands"}) as peer:
        here.keeps(f"{what} that lacks nothing", here.words("pull", peer.address), b"copied 0 already 1\n")
        peer.blobs[ref_of(b"new")] = b"new"
        here.keeps(what, here.words("pull", peer.address), status=FULL)
        peer.is_good(what)


def full_there(program):
    what, there = "a push to a full store", full_store(program)
    one, two = Store(program, {0: writing.pack(b"stands")}, OTHERS), Store(program, {0: writing.pack(b"new")}, OTHERS)
    with Server(program, there.path) as server:
        push(f"{what} that lacks nothing", one, there, at(server))
        two.keeps(what, two.words("push", at(server)), status=REPLY)
        there.check_files(what)


def files_cannot_grow(program):
    """A pull into a folder in which no file may be longer than so many bytes: the blobs that were copied before are
    kept."""
    what, blobs = "a folder without room", Blobs("without room")
    some = {blobs.name_of(blob): blob for blob in blobs.some(20, 300)}
    limit = 1_500
    for packs in ({}, {0: writing.pack(b"stands")}):
        here = Store(program, packs, OTHERS)
        with FalsePeer(some) as peer:
            limited = ("sh", "-c", f'trap "" XFSZ; exec prlimit --fsize={limit} "$@"', "sh")
            status, out, err = program.run(what, here.words("pull", peer.address), front=limited)
            compare_ending(what, DISK, status, err)
            compare(what, "standard output", b"", out)
            copied = front_stands(what, here, packs, some)
            check(f"{what}: {copied} blobs were copied", 0 < copied < len(some))
            program.check(f"{what}, and then with room", here.words("pull", peer.address), told(some, here.blobs()))
            compare(what, "what stands in the end", {**reference.arrivals(packs), **some}, stands_in(here))


# Starts a program that can't write to a folder.
READ_ONLY = 'mount --bind "$0" "$0" && mount -o remount,ro,bind "$0" && exec "$@"'


def read_only(program):
    """A pull into a folder that can't be written copies nothing, and a push out of it copies all."""
    blobs = Blobs("read only")
    here = blobs.store(program, blobs.some(3))
    front = ("unshare", "-Urm", "sh", "-c", READ_ONLY, str(here.path))
    if subprocess.run([*front, "true"], stderr=subprocess.DEVNULL).returncode != 0:
        raise LeftOut("no folder can be made one to read alone here")
    return [lambda: is_only_read(here, front)]


def is_only_read(here, front):
    what, program = "a folder that can only be read", here.program
    with FalsePeer({ref_of(b"new"): b"new"}) as peer:
        before = look(here.path)
        status, out, err = program.run(what, here.words("pull", peer.address), front=front)
        compare_ending(what, DISK, status, err)
        compare(what, "standard output", b"", out)
        status, out, err = program.run(what, here.words("push", peer.address), front=front)
        compare_ending(what, 0, status, err)
        compare(what, "standard output", b"copied 3 already 0\n", out)
        compare(what, "the folder", before, look(here.path))
        peer.is_good(what)


def stands_in(store):
    return reference.arrivals(reference.packs_of(store.files()))


def front_stands(what, store, packs, source):
    """A store still has what it had, and with it a prefix of what it lacked; returns how many blobs. The store counts
    as being so from then on."""
    held, stands = reference.arrivals(packs), stands_in(store)
    refs = lacking(source, held)
    front = [ref for ref in refs if ref in stands]
    compare(what, "which blobs were copied", refs[: len(front)], front)
    compare(what, "what stands", {**held, **{ref: source[ref] for ref in front}}, stands)
    for number, content in packs.items():
        begins = store.files()[pack_name(number)][: len(content)]
        compare(what, f"the beginning of {pack_name(number)}", content, begins)
    store.packs = reference.packs_of(store.files())
    return len(front)


def damage(program):
    """A pack that is changed while it is copied from: none of its bytes are sent under the ref."""
    return [lambda: is_spoilt(program)]


def is_spoilt(program):
    what, blobs = "a pack that is changed meanwhile", Blobs("damage")
    here = blobs.store(program, blobs.some(5, 100))
    content, refs = here.blobs(), sorted(here.blobs())
    place = next(one.at for one in reference.salvage(here.packs[0])[0] if one.ref == refs[2])

    def spoil(asked):
        with open(here.path / pack_name(0), "r+b") as file:
            file.seek(place)
            file.write(bytes([here.packs[0][place] ^ 1]))

    with FalsePeer(before=spoil) as peer:
        program.check(what, here.words("push", peer.address), status=DAMAGED)
        compare(what, "what the peer holds", {ref: content[ref] for ref in refs[:2]}, peer.blobs)
        peer.is_good(what)


# Servers that come late, and end

def opening(program):
    """The command waits for a server that has just been started, and reads its store."""
    return [lambda: is_waited_for(program)]


def is_waited_for(program):
    what, random = "a server that reads its store", chance("opening")
    large = [b"%d" % number + random.randbytes(1 << 20) * 15 for number in range(8)]
    here, there = Store(program, {0: writing.pack(b"new")}, OTHERS), Store(program, {0: writing.pack(*large)}, OTHERS)
    with Server(program, there.path) as server:
        push(what, here, there, at(server))


def kills(program):
    """Servers, and commands, that are killed at a random moment: a prefix of the missing blobs is there, and the next
    run copies the rest."""
    both = [(turn, command) for turn in range(KILLS) for command in ("push", "pull")]
    return [lambda turn=turn, command=command: killed(program, turn, command) for turn, command in both]


def grows(store, size, process):
    """Waits until a store has so many bytes more, or a process has ended."""
    pack = store.path / pack_name(0)
    size += pack.stat().st_size
    until = time.monotonic() + harness.SECONDS
    while pack.stat().st_size < size and process.poll() is None and time.monotonic() < until:
        time.sleep(0.001)


def killed(program, turn, command):
    what, blobs = f"a kill in a {command}, {turn}", Blobs("kills", turn, command)
    source, target = blobs.store(program, blobs.some(2_000, 2_000)), blobs.store(program, blobs.some(200, 2_000))
    here, there = (source, target) if command == "push" else (target, source)
    packs, some = target.packs, source.blobs()
    with_server = turn % 2 == 0
    server = Server(program, there.path)
    process = program.start(here.words(command, at(server)), stdin=subprocess.DEVNULL, stdout=subprocess.PIPE)
    grows(target, blobs.random.randrange(sum(map(len, some.values()))), process)
    (server.process if with_server else process).kill()
    out, err = harness.finish(what, process)
    if process.returncode == 0:
        compare(what, "standard output", told(some, reference.arrivals(packs)), out)
    else:
        compare(what, "standard output", b"", out)
        endings = [PEER, REPLY] if with_server else [-signal.SIGKILL]
        check(f"{what}: it ends with {process.returncode}, {err!r}", process.returncode in endings)
    server.kill()
    copied = front_stands(what, target, packs, some)
    with Server(program, there.path) as server:
        left = len(lacking(some, target.blobs()))
        line = b"copied %d already %d\n" % (left, len(some) - left)
        program.check(f"{what}, the next run", here.words(command, at(server)), line)
    compare(what, "what stands in the end", {**reference.arrivals(packs), **some}, stands_in(target))
    print(f"{what}: {copied} of {len(some)} were copied before", flush=True)


# Requests

def requests(program):
    """Each request is one of the three, to the byte, and there are no more of them than documented."""
    return [
        lambda command=command, sizes=sizes: asks(program, command, *sizes)
        for command in ("push", "pull")
        for sizes in ((0, 0), (1, 0), (0, 1), (3, 2), (1_000, 0), (1_001, 1_000), (2_500, 1_300))
    ]


def asks(program, command, here_alone, there_alone):
    what, blobs = f"{command}, {here_alone} blobs here and {there_alone} there", Blobs("requests", here_alone, there_alone)
    some = blobs.some(here_alone + there_alone + 700)
    here = blobs.store(program, some[: here_alone + 350])
    there = {blobs.name_of(blob): blob for blob in some[here_alone : here_alone + 350 + there_alone]}
    content = here.blobs()
    with FalsePeer(there) as peer:
        source, target = (content, there) if command == "push" else (there, content)
        program.check(what, here.words(command, peer.address), told(source, target))
        peer.is_good(what)
        refs = lacking(source, target)
        compare(what, "uploads", refs if command == "push" else [], peer.of_kind("upload"))
        compare(what, "fetches", refs if command == "pull" else [], peer.of_kind("fetch"))
        pages = peer.of_kind("page")
        compare(what, "pages, in order", sorted(set(pages)), pages)
        most = len(there) // 1_000 + 2 + (len(content) // 1_000 + 1 if command == "push" else 0)
        check(f"{what}: {len(pages)} pages were asked, and not 1 to {most}", 1 <= len(pages) <= most)
        compare(what, "connections", 1, peer.connections)
        compare(what, "what the peer holds", {**content, **there} if command == "push" else there, peer.blobs)
    compare(what, "what stands here", content if command == "push" else {**content, **there}, stands_in(here))


# A peer that replies wrongly

def bare(code, *headers, body=b""):
    return b"".join(line + b"\r\n" for line in (b"HTTP/1.1 %d x" % code, *headers)) + b"\r\n" + body


def sized(body, code=200):
    return bare(code, b"Content-Length: %d" % len(body), body=body)


def in_chunks(due):
    """The same in chunks of several sizes, with the optional parts of chunks."""
    chunks, body = b"", due.body
    for size in (1, 5, 16, 100, len(body)):
        piece, body = body[:size], body[size:]
        chunks += b"%x ;a=b\r\n%b\r\n" % (len(piece), piece) if piece else b""
    return bare(due.code, b"transfer-encoding: Chunked", body=chunks + b"0\r\nT: u\r\n\r\n")


FULL_TEXT = b'{"received":[],"error":"full","blobs":1,"pack":0}'
# Wrong replies in place of any: the bytes that are sent, and the status with which the command ends.
WRONG = {
    "nothing": (sends(b"", ends=True), REPLY),
    "a reset": (resets, PEER),
    "no head": (sends(b"hello\r\n\r\n"), REPLY),
    "another protocol": (sends(b"HTTP/2 200\r\n\r\n"), REPLY),
    "a request": (sends(b"GET / HTTP/1.1\r\n\r\n"), REPLY),
    "half a head": (changes(lambda due: due.text()[:20], ends=True), REPLY),
    "a head without end": (sends(b"HTTP/1.1 200 OK\r\nA: " + b"b" * 16_384), REPLY),
    "65 headers": (sends(bare(200, *[b"A: b"] * 64, b"Content-Length: 0")), REPLY),
    "two lengths": (sends(bare(200, b"Content-Length: 2", b"Content-Length: 2", body=b"{}")), REPLY),
    "a length and chunks": (sends(bare(200, b"Content-Length: 2", b"Transfer-Encoding: chunked", body=b"{}")), REPLY),
    "a length of twenty digits": (sends(bare(200, b"Content-Length: 00000000000000000002", body=b"{}")), REPLY),
    "another coding": (sends(bare(200, b"Transfer-Encoding: gzip, chunked", body=b"0\r\n\r\n")), REPLY),
    "half a body": (changes(lambda due: due.text()[:-1], ends=True), REPLY),
    "a body of which nothing comes": (sends(bare(200, b"Content-Length: 9999999999999999999"), ends=True), REPLY),
    "a broken chunk": (sends(bare(200, b"Transfer-Encoding: chunked", body=b"2\r\n{}x\r\n0\r\n\r\n")), REPLY),
    "chunks that end early": (sends(bare(200, b"Transfer-Encoding: chunked", body=b"2\r\n{}\r\n"), ends=True), REPLY),
    "201": (changes(lambda due: sized(due.body, 201)), REPLY),
    "301": (sends(bare(301, b"Location: /", b"Content-Length: 0")), REPLY),
    "401": (sends(bare(401, b"WWW-Authenticate: Basic", b"Content-Length: 0")), REPLY),
    "404": (sends(sized(b"{}", 404)), REPLY),
    "500": (sends(sized(b'{"error":"memory"}', 500)), REPLY),
    "507": (sends(sized(FULL_TEXT, 507)), REPLY),
}


def text(value):
    return sends(sized(json_text(value)))


def blob_entry(ref="sha224-" + "f" * 56, size=3):
    return {"blobRef": ref, "size": size}


E, F = "sha224-" + "e" * 56, "sha224-" + "f" * 56
TOO_MANY = [blob_entry(f"sha224-ff{number:054x}") for number in range(1_001)]
WRONG_PAGES = {
    "no JSON": (sends(sized(b"{")), REPLY),
    "a list": (text([]), REPLY),
    "no blobs": (text({"stat": []}), REPLY),
    "blobs that are no list": (text({"blobs": {}}), REPLY),
    "an entry that is none": (text({"blobs": [1]}), REPLY),
    "no ref": (text({"blobs": [{"size": 3}]}), REPLY),
    "a ref that is none": (text({"blobs": [blob_entry(F.upper())]}), REPLY),
    "no size": (text({"blobs": [{"blobRef": F}]}), REPLY),
    "a size that is a text": (text({"blobs": [blob_entry(size="3")]}), REPLY),
    "a size below nothing": (text({"blobs": [blob_entry(size=-1)]}), REPLY),
    "half a size": (text({"blobs": [blob_entry(size=1.5)]}), REPLY),
    "refs that fall": (text({"blobs": [blob_entry(F), blob_entry(E)]}), REPLY),
    "a ref twice": (text({"blobs": [blob_entry(F), blob_entry(F)]}), REPLY),
    "more than was asked": (text({"blobs": TOO_MANY}), REPLY),
    "a place to go on that is no text": (text({"blobs": [], "continueAfter": None}), REPLY),
    "a page that is too long": (sends(sized(b'{"blobs":[]}'.ljust(LONGEST_TEXT + 1))), REPLY),
}
WRONG_BLOBS = {
    "other bytes": (changes(lambda due: with_body(due, b"another blob")), DAMAGED),
    "a byte less": (changes(lambda due: with_body(due, due.body[:-1])), DAMAGED),
    "a byte more": (changes(lambda due: with_body(due, due.body + b"x")), DAMAGED),
    "no bytes": (changes(lambda due: with_body(due, b"")), DAMAGED),
    "a blob that is too long": (changes(lambda due: with_body(due, bytes(LARGEST_BLOB + 1))), REPLY),
}
WRONG_RECEIPTS = {
    "no JSON": (sends(sized(b"received")), REPLY),
    "nothing received": (text({"received": []}), REPLY),
    "another ref": (text({"received": [blob_entry()]}), REPLY),
    "another size": (changes(lambda due: with_body(due, due.body.replace(b'"size":', b'"size":1'))), REPLY),
    "no list": (text({"received": 1}), REPLY),
    "an entry that is none": (changes(lambda due: with_body(due, due.body.replace(b"[", b"[7,"))), REPLY),
    "a text that is too long": (changes(lambda due: with_body(due, due.body.ljust(LONGEST_TEXT + 1))), REPLY),
}
OWN_WRONGS = {"page": WRONG_PAGES, "fetch": WRONG_BLOBS, "upload": WRONG_RECEIPTS}


def with_64_headers(due):
    return bare(due.code, *[b"A: b"] * 63, b"content-length:\t%d " % len(due.body), body=due.body)


# Valid replies in place of any, written differently.
RIGHT = {
    "chunks": changes(in_chunks),
    "no length": changes(lambda due: bare(due.code, body=due.body), ends=True),
    "HTTP/1.0": changes(lambda due: due.text().replace(b"HTTP/1.1", b"HTTP/1.0", 1)),
    "line feeds alone": changes(lambda due: b"HTTP/1.1 200 \nContent-Length:%d\n\n" % len(due.body) + due.body),
    "64 headers": changes(with_64_headers),
}
RIGHT_TEXTS = {
    "white space": lambda text: b" \n" + text.replace(b":", b" :\t").replace(b",", b" ,\r\n") + b" ",
    "other keys": lambda text: b'{"x":[{}],' + text[1:].replace(b'"size"', b'"y":"\\u00e9","size"'),
    "the other order of keys": lambda text: re.sub(rb'("blobRef":"[^"]*"),("size":[0-9]+)', rb"\2,\1", text),
    "as much as there may be": lambda text: text.ljust(LONGEST_TEXT),
}


class Exchange:
    """A push or a pull of five blobs. The other end has two of them, including the last one. Each request is checked,
    and the state then."""

    def __init__(self, program, command):
        self.program, self.command = program, command
        blobs = Blobs("wrong replies", command)
        self.source = {blobs.name_of(blob): blob for blob in blobs.some(5, 40)}
        refs = sorted(self.source)
        self.target = {refs[place]: self.source[refs[place]] for place in (2, 4)}
        self.kinds = ["page", *["upload"] * 3] if command == "push" else ["page", *["fetch"] * 3, "page"]

    def start(self, **changes_by_number):
        mine, theirs = (self.source, self.target) if self.command == "push" else (self.target, self.source)
        self.here = Store(self.program, with_blobs({}, mine, list(mine)), OTHERS)
        self.packs = self.here.packs
        return FalsePeer(theirs, **changes_by_number)

    def words(self, peer):
        return self.here.words(self.command, peer.address)

    def told(self):
        return told(self.source, self.target)

    def is_as_it_should_be(self, what, peer, copied):
        """So many blobs were copied, in order, and nothing else has changed."""
        refs = lacking(self.source, self.target)[:copied]
        held = {**self.target, **{ref: self.source[ref] for ref in refs}}
        here, there = (self.source, held) if self.command == "push" else (held, self.source)
        self.here.packs = with_blobs(self.packs, self.source, refs) if self.command == "pull" else self.packs
        self.here.check_files(what)
        compare(what, "what stands here", here, stands_in(self.here))
        compare(what, "what the peer holds", there, peer.blobs)
        peer.is_good(what)


def at_each_request(program, rows_of):
    """For a push and a pull, each of their requests, and each row of its kind: a description, the exchange, the number
    of the request and the row."""
    for command in ("push", "pull"):
        for number, kind in enumerate(Exchange(program, command).kinds):
            for name, row in rows_of(kind).items():
                yield f"{command}, request {number}, {name}", Exchange(program, command), number, row


def wrong_replies(program):
    """Each wrong reply, at each request in turn: the command ends with its status, the blobs that were copied before
    are kept, and no ref has other bytes."""
    rows = at_each_request(program, lambda kind: {**WRONG, **OWN_WRONGS[kind]})
    return [lambda row=row: goes_wrong(program, *row) for row in rows]


def goes_wrong(program, what, exchange, number, row):
    wrong, status = row
    with exchange.start(wrongs={number: wrong}) as peer:
        program.check(what, exchange.words(peer), status=status)
        compare(what, "how many requests were made", number + 1, len(peer.asked))
        exchange.is_as_it_should_be(what, peer, len([kind for kind in exchange.kinds[:number] if kind != "page"]))


def right_replies(program):
    """Replies that are written differently are still read; one that lasts to its connection's end costs another
    connection."""
    def written(write):
        return changes(lambda due: with_body(due, write(due.body)))

    def rows_of(kind):
        texts = {name: written(write) for name, write in RIGHT_TEXTS.items()}
        return RIGHT if kind == "fetch" else {**RIGHT, **texts}

    return [lambda row=row: goes_well(program, *row) for row in at_each_request(program, rows_of)]


def goes_well(program, what, exchange, number, right):
    with exchange.start(rights={number: right}) as peer:
        program.check(what, exchange.words(peer), exchange.told())
        exchange.is_as_it_should_be(what, peer, 3)
        ends_early = right is RIGHT["no length"] and number + 1 < len(exchange.kinds)
        compare(what, "connections", 2 if ends_early else 1, peer.connections)


def pages_out_of_turn(program):
    """A second page that begins from the start ends a pull."""
    return [lambda: begins_anew(program)]


def begins_anew(program):
    what, blobs = "a page that begins anew", Blobs("a page that begins anew")
    many = {blobs.name_of(blob): blob for blob in blobs.some(1_200, 9)}
    first = text({"blobs": [blob_entry(min(many), len(many[min(many)]))]})
    here = Store(program, {}, OTHERS)
    # The page and 1,000 blobs come before.
    with FalsePeer(many, {1_001: first}) as peer:
        program.check(what, here.words("pull", peer.address), status=REPLY)
        peer.is_good(what)
        compare(what, "the last request", "page", peer.asked[-1].kind)
        compare(what, "how many blobs were copied", 1_000, front_stands(what, here, {}, many))


# Peers that are slow, and commands that pause

def slow(program):
    """A reply that stops, one that trickles, one of which nothing comes after others, and a request that nobody reads:
    each is given up after a minute. The first reply of another connection, and one to a long request, may take
    longer."""
    return [
        lambda: is_given_up(program, "pull", "a reply that stops", 0, stops),
        lambda: is_given_up(program, "pull", "a reply that trickles", 0, trickles),
        lambda: is_given_up(program, "pull", "a second reply that doesn't come", 1, says_nothing),
        lambda: is_given_up(program, "push", "a third reply that doesn't come", 2, says_nothing),
        lambda: comes_late(program),
        lambda: takes_long(program),
        lambda: is_not_read(program),
    ]


def says_nothing(wire, _):
    wire.recv(1)
    return True


def stops(wire, due):
    wire.sendall(due.text()[:30])
    wire.recv(1)
    return True


def trickles(wire, due):
    """A byte now and then, of a head that has thousands."""
    wire.sendall(b"HTTP/1.1 200 OK\r\nA: ")
    with contextlib.suppress(OSError):
        for _ in range(500):
            wire.sendall(b"b")
            time.sleep(0.4)
    return True


def takes_a_minute(what, start):
    seconds = time.monotonic() - start
    check(f"{what}: it took {seconds:.1f} seconds", WITHIN_A_REPLY - 1 <= seconds <= 2 * WITHIN_A_REPLY)


def is_given_up(program, command, what, number, wrong):
    exchange = Exchange(program, command)
    with exchange.start(wrongs={number: wrong}) as peer:
        start = time.monotonic()
        program.check(what, exchange.words(peer), status=PEER, seconds=2 * WITHIN_A_REPLY)
        takes_a_minute(what, start)
        exchange.is_as_it_should_be(what, peer, len([kind for kind in exchange.kinds[:number] if kind != "page"]))


def late(wire, due):
    time.sleep(WITHIN_A_REPLY + 5)
    wire.sendall(due.text())
    return False


def takes_long(program):
    """The command waits for a blob that may still be on its way."""
    what, blob = "a late reply to a long request", bytes(100_000)
    here = Store(program, {0: writing.pack(blob)}, OTHERS)
    with FalsePeer(rights={1: late}) as peer:
        program.check(what, here.words("push", peer.address), b"copied 1 already 0\n", seconds=3 * WITHIN_A_REPLY)
        peer.is_good(what)


def comes_late(program):
    """A server whose workers all serve idle clients answers over another connection after a minute."""
    what, exchange = "a late reply over another connection", Exchange(program, "pull")

    with exchange.start(rights={0: RIGHT["no length"], 1: late}) as peer:
        program.check(what, exchange.words(peer), exchange.told(), seconds=3 * WITHIN_A_REPLY)
        exchange.is_as_it_should_be(what, peer, 3)
        compare(what, "connections", 2, peer.connections)


def is_not_read(program):
    """An upload that has more bytes than the system buffers for a server that doesn't read them."""
    what, here = "an upload that nobody reads", Store(program, {0: writing.pack(bytes(LARGEST_BLOB))}, OTHERS)

    def serve(listener):
        wire, _ = listener.accept()
        with wire:
            wire.recv(65_536)
            wire.sendall(Reply(200, b'{"blobs":[]}').text())
            time.sleep(2 * WITHIN_A_REPLY)

    with socket.create_server((HOST, 0)) as listener:
        threading.Thread(target=serve, args=(listener,), daemon=True).start()
        start = time.monotonic()
        address = f"{HOST}:{listener.getsockname()[1]}"
        program.check(what, here.words("push", address), status=PEER, seconds=2 * WITHIN_A_REPLY)
        takes_a_minute(what, start)


def idle(program):
    """A pull that pauses for longer than a connection may, while it stores a blob, continues over another one."""
    tracing.need_strace(program)
    return [lambda: stands_idle(program)]


def stands_idle(program):
    what, blobs = "a connection that stands idle", Blobs("idle")
    some, here = {blobs.name_of(blob): blob for blob in blobs.some(3)}, Store(program, {}, OTHERS)
    delay = f"inject=fsync,fdatasync:delay_exit={(IDLE + 1) * 1_000_000}:when=1"
    front = ("strace", "-f", "-qq", "-o", "/dev/null", "-e", "trace=fsync,fdatasync", "-e", delay)
    with FalsePeer(some) as peer:
        status, out, err = program.run(what, here.words("pull", peer.address), front=front)
        compare_ending(what, 0, status, err)
        compare(what, "standard output", told(some, {}), out)
        compare(what, "what stands", some, stands_in(here))
        compare(what, "connections", 2, peer.connections)
        peer.is_good(what)


GROUPS = [both_ways, one_way, notes, words, nowhere, by_name, before_the_peer, no_room, read_only, damage]
GROUPS += [requests, wrong_replies, right_replies, pages_out_of_turn, kills]
if __name__ == "__main__":
    harness.main("sync.sh", GROUPS, one_at_a_time=[opening, long_blobs, many], beside=[slow, idle, a_locked_folder])
