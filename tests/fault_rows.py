"""The state of a world in memory after faults and stops, as the program of crates/fault_rows prints it.

Lines of command_rows.py, and connections, are run over a disk, peers, a source, a sink, a clock and dice in memory. In
each run one call of one of these fails, from the first one on until a run doesn't make it; or the disk stops at a call
and then crashes, by each choice. A run ends with the status of the failure (docs/commands.md, "Exit statuses"). What it
writes and puts is a prefix of the full result. What was there before, and what was acknowledged, is kept; and the same
run then succeeds over the state that the first one left. Of the workers of a server one ends if its listener fails, and
the others serve on. An index is refused memory, and still answers.
"""

import itertools
import os
import shutil
import subprocess
from typing import NamedTuple

import command_rows
import harness
import queries
import query_inputs
import reference
from command_rows import ADDRESS, CONTENT, DISK, DONE, FILE, FOLDER, HAND, KEYRING, PEER, READ, SECOND, WRITE, Row
from connections import LISTING, Connection
from harness import chance, check, compare
from http_inputs import blob_target, form, get, part, post, upload
from http_inputs import FORM, UPLOAD
from inputs import DATE, KEY, NODE
from query import RandomShelf
from reference import pack_name, ref_of
from refusing import Page, refusing
from writing import bytes_blob, claim, file_blob, key_blob, pack, part as part_text, permanode

# How a run ends if a call of an object fails.
STATUSES = {"disk": DISK, "peer": PEER, "second": PEER, "source": READ, "sink": WRITE, "clock": HAND, "dice": HAND}
# The other objects of each command, besides the disk and the peer (docs/commands.md). All write.
READING = ("put", "put-file", "multi", "query", "search-pack")
TIMED, RANDOM = ("claim", "delete", "multi"), ("permanode",)
# The numbers of the calls that are tried, if not all are.
ALL = [(0, 1 << 32)]
CHOICES = range(16)
SECONDS = 600


# The program's output

class Ending(NamedTuple):
    """How a run ended, its output, and the ref of the state then."""

    end: str
    out: bytes
    held: str


class Line(NamedTuple):
    """A run with a fault, by the number of the call, or None if there is none; and the run after it."""

    call: int | None
    first: Ending
    again: Ending


def lines_of(text):
    return [line_of(*line.split()) for line in text.decode().splitlines()]


def line_of(call, *fields):
    first, again = (Ending(end, bytes.fromhex(out[1:]), held) for end, out, held in (fields[:3], fields[3:]))
    return Line(None if call == "-" else int(call), first, again)


def told(program, words, files, line, source):
    """The program's output for a line over a world of these files."""
    world = program.new_path()
    world.mkdir()
    for name, content in files.items():
        (world / name).write_bytes(content)
    done = subprocess.run([program.path, *words, world, *line], input=source, capture_output=True, timeout=SECONDS)
    shutil.rmtree(world)
    compare(" ".join(line), "how it ended", (0, b""), (done.returncode, done.stderr))
    return lines_of(done.stdout)


def told_of(program, row, *words):
    return told(program, words, files_of(row), words_of(row), row.source)


def files_of(row):
    """The files of the world in which a row is run."""
    files = {pack_name(number): content for number, content in (row.packs or {}).items()}
    return files | {"keyring": KEYRING, "peer": pack(*(row.peer or ())), "second": pack(*(row.second or ()))}


def words_of(row):
    names = {FOLDER: "d", ADDRESS: "a", SECOND: "b"}
    return [names.get(word, word) for word in row.words]


# Expected results

class World:
    """The world before a row is run, at the disk and at each peer, and the blobs that the row puts there, in order, if
    they aren't there: each blob after the number of its place, 0 being that of the disk."""

    def __init__(self, row):
        self.row, self.refs = row, {}
        self.places = [reference.arrivals(row.packs or {})]
        self.places += [{ref_of(blob): blob for blob in blobs or ()} for blobs in (row.peer, row.second)]
        self.new = [(0, blob) for blob in row.lacked(row.packs or {})]
        if row.gives():
            here = self.places[0] | {ref_of(blob): blob for _, blob in self.new}
            peers = range(1, len(row.peers()) + 1)
            self.new += [(peer, here[ref]) for peer in peers for ref in sorted(here.keys() - self.places[peer].keys())]

    def put(self, place):
        """How many of the new blobs come to a place."""
        return sum(where == place for where, _ in self.new)

    def out(self, count):
        """The output of the row if so many of the new blobs are there."""
        if not self.row.is_copy():
            return self.row.out
        both = len(self.places[0].keys() & self.places[1].keys()) + count
        return b"copied %d already %d\n" % (len(self.new) - count, both)

    def held(self, count):
        """The ref of the state if so many of the new blobs are there too."""
        if count not in self.refs:
            self.refs[count] = ref_of(b"".join(self.lists(count)))
        return self.refs[count]

    def lists(self, count):
        """The blobs then at each place."""
        more = [{ref_of(blob): blob for place, blob in self.new[:count] if place == where} for where in range(3)]
        return [listing(had | new) for had, new in zip(self.places, more)]

    def count(self, line):
        """How many of the new blobs there are after the first run of a line, or None if the state is something else."""
        counts = range(len(self.new) + 1)
        if self.row.is_copy():
            # The run after it says how many.
            counts = [count for count in counts if self.out(count) == line.again.out]
        return next((count for count in counts if self.held(count) == line.first.held), None)


def listing(blobs):
    return reference.listing(blobs, limit=len(blobs))


def asked(row):
    """The objects of a row."""
    name = row.words[0]
    asks = {"sink", *("peer", "second")[: len(row.peers())]} | ({"disk"} if row.touches_a_folder() else set())
    asks |= {"source"} if name in READING else set()
    return asks | ({"clock"} if name in TIMED else set()) | ({"dice"} if name in RANDOM else set())


def least_calls(row, object, world):
    """So many calls of an object a row makes at least: an append and a sync for each blob that is put; and of a peer
    for each that it is given, or that a pull fetches."""
    if object not in asked(row):
        return 0
    given = {"disk": 2 * world.put(0), "peer": world.put(1) or world.put(0) * row.is_copy(), "second": world.put(2)}
    return 1 + given.get(object, 0)


# Faults

def rows():
    return [*command_rows.rows(), Row("pull into a new folder", ("pull", FOLDER, ADDRESS), b"", None, puts=SEVEN, peer=SEVEN)]


SEVEN = tuple(sorted((b"one of seven: %d" % number for number in range(7)), key=ref_of))


def fails(program):
    """Each call of each object fails, in each row."""
    return [lambda row=row, object=object: fails_in_turn(program, row, object) for row in rows() for object in STATUSES]


def fails_in_turn(program, row, object, windows=ALL):
    world = World(row)
    made = max(window_fails(program, world, object, *window) for window in windows)
    least = least_calls(row, object, world)
    check(f"{row.what}: {made} calls of {object}, and at least {least}", made >= least)
    check(f"{row.what}: {made} calls of {object}, and none are due", least or not made)


def window_fails(program, world, object, start, end):
    """The calls with these numbers fail; returns the number after the last one that was made."""
    row = world.row
    good, *lines = told_of(program, row, "fails", object, str(start), str(end))
    is_done(f"{row.what}, no fault", world, good.first, 0)
    is_done(f"{row.what}, no fault, again", world, good.again, len(world.new))
    compare(f"{row.what}, {object}", "the calls", list(range(start, start + len(lines))), [line.call for line in lines])
    for line in lines:
        is_left(f"{row.what}, call {line.call} of {object}", world, object, line)
    ends = [line.first.end for line in lines]
    compare(f"{row.what}, {object}", "the calls that are made again", made_again(row, object), ends.count(str(DONE)))
    return start + len(lines)


def is_done(what, world, ending, count):
    """A run succeeds over a state that has so many of the new blobs."""
    compare(what, "the status", str(DONE), ending.end)
    compare(what, "what it writes", world.out(count), ending.out)
    compare(what, "what there is", world.held(len(world.new)), ending.held)


def made_again(row, object):
    """How many calls of an object are made again if they fail: the reads of a file's chunks ahead (docs/files.md)."""
    return len(FILE) - 1 if object == "disk" and row.words[0] == "get-file" else 0


def is_left(what, world, object, line):
    row, first = world.row, line.first
    if first.end == str(DONE) and made_again(row, object):
        is_done(what, world, first, 0)
        is_done(f"{what}, again", world, line.again, 0)
        return
    compare(what, "the status", str(STATUSES[object]), first.end)
    goes = row.writes_as_it_goes or object == "sink"
    check(f"{what}: writes {first.out}", (world.out(0) if goes else b"").startswith(first.out))
    count = world.count(line)
    check(f"{what}: what there is", count is not None and count in counts(row, object, len(world.new)))
    is_done(f"{what}, again", world, line.again, count)


def counts(row, object, count):
    """How many of so many blobs may be put if an object fails."""
    if object == "sink":
        return (count,)
    return range(count + 1) if object in ("disk", "peer", "second") or row.words[0] == "put-file" else (0,)


# Pages of peers

PAGED = 2_500


def pages(program):
    """Copies of several pages, with calls that fail near the beginnings of the pages."""
    around = [(0, 3), (998, 1_004), (1_998, 2_005), (2_499, 2_520)]
    return [lambda row=row: fails_in_turn(program, row, "peer", around) for row in paged()]


def paged():
    blobs = tuple(sorted((b"blob %d" % number for number in range(PAGED)), key=ref_of))
    yield Row("push of pages", ("push", FOLDER, ADDRESS), b"", {0: pack(*blobs)}, peer=())
    yield Row("pull of pages", ("pull", FOLDER, ADDRESS), b"", None, puts=blobs, peer=blobs)


# Connections

ABC, EMPTY = ref_of(b"abc"), ref_of(b"")
# Longer than what a connection reads at once.
LONG = chance("a long part").randbytes(100_000)
# The second part isn't what its name says.
FALSE = post(UPLOAD, form(part(ABC, b"abc"), part(EMPTY, b"abc"), part(EMPTY, b"")), FORM)
STREAMS = {
    "uploads, the last one false": upload(b"abc") + upload(LONG, b"new") + FALSE,
    "an upload of two, and requests": get(blob_target(ABC)) + upload(b"abc", b"") + get(blob_target(EMPTY)) + get(LISTING),
    "a false upload": FALSE,
}


def connections(program):
    """Each read and each write of a connection fails."""
    checks = [(what, stream, object) for what, stream in STREAMS.items() for object in ("source", "sink")]
    return [lambda one=one: connection_fails(program, *one) for one in checks]


def connection_fails(program, what, stream, object):
    good, *lines = told(program, ["fails", object, "0", str(1 << 32)], {}, ["connection"], stream)
    due = Due(stream, {})
    is_served(f"{what}, no fault", due, good.first)
    is_served(f"{what}, no fault, again", Due(stream, due.blobs), good.again)
    check(f"{what}: no call of {object} failed", lines)
    for number, line in enumerate(lines):
        compare(f"{what}, {object}", "the call", number, line.call)
        connection_is_left(f"{what}, call {number} of {object}", stream, object, line)


class Due:
    """The replies to a stream over a home with these blobs, and how many blobs there are after each was made."""

    def __init__(self, stream, blobs):
        served, self.texts, self.counts = Connection(stream, blobs, {}), [], [len(blobs)]
        closes = False
        while served.at < len(stream) and not closes:
            reply = served.next_reply()
            closes = reply.closes
            self.texts.append(reply.text())
            self.counts.append(len(served.blobs))
        self.blobs = served.blobs

    def whole(self, out):
        """How many replies were written whole."""
        return max(count for count in range(len(self.texts) + 1) if out.startswith(b"".join(self.texts[:count])))

    def front(self, count):
        return dict(list(self.blobs.items())[:count])


def listed(blobs):
    """The ref of the reply that lists blobs."""
    return ref_of(Connection(get(LISTING), blobs, {}).next_reply().text())


def is_served(what, due, ending):
    compare(what, "a connection", Ending("closed", b"".join(due.texts), listed(due.blobs)), ending)


def connection_is_left(what, stream, object, line):
    """Whole replies were written, or a prefix of them if a write failed; and all that they acknowledge is there, and
    some parts of the upload that comes next."""
    due, first = Due(stream, {}), line.first
    compare(what, "the end", "read" if object == "source" else "write", first.end)
    whole = due.whole(first.out)
    written = b"".join(due.texts) if object == "sink" else b"".join(due.texts[:whole])
    check(f"{what}: writes {first.out}", written.startswith(first.out) and len(first.out) < len(b"".join(due.texts)) + (object == "source"))
    least, most = due.counts[whole], due.counts[min(whole + 1, len(due.texts))]
    count = next((count for count in range(least, most + 1) if listed(due.front(count)) == first.held), None)
    check(f"{what}: what there is", count is not None)
    is_served(f"{what}, again", Due(stream, due.front(count)), line.again)


# Listeners

# The uploads on the connections of two workers.
UPLOADS = [[b"connection %d of worker %d" % (number, worker) for number in range(4)] for worker in range(2)]
WORKERS, LISTENER = 4, 14


def listeners(program):
    """Each call of a worker's listener fails: the worker then ends, and another one serves all connections that
    come."""
    return [lambda: listener_fails(program)]


def listener_fails(program):
    files = {pack_name(worker): pack(*map(upload, blobs)) for worker, blobs in enumerate(UPLOADS)}
    good, *lines = told(program, ["fails", "listener", "0", str(1 << 32)], files, ["workers"], b"")
    first, second = UPLOADS
    compare("workers", "the calls", [None, *range(len(first))], [line.call for line in (good, *lines)])
    for line in (good, *lines):
        compare(f"workers, call {line.call} of the listener", "what is served", served(first[: line.call], second), line.first)
        compare(f"workers, call {line.call} of the listener, again", "what is served", served(first, second), line.again)


def served(*uploads):
    """How workers end, each of which has served these uploads: none has a connection left, so that an accept of each
    failed."""
    blobs = [{ref_of(blob): blob for blob in some} for some in uploads] + [{}] * (WORKERS - len(uploads))
    replies = b"".join(Connection(get(LISTING), one, {}).next_reply().text() for one in blobs)
    return Ending(str(LISTENER), bytes([1] * WORKERS), ref_of(replies))


# Stale indexes

STORES, QUERIES = 110, 70


def stale(program):
    """Random queries of random stores over an index that was refused memory, and over one that keeps nothing."""
    library = refusing(program)
    shelves = [RandomShelf(program, number) for number in range(STORES)]
    checks = [lambda shelf=shelf: answers_stale(program, library, shelf) for shelf in shelves]
    return checks + [lambda: is_made_anew(program, library)]


class Placed:
    """An index over the blobs of a store, the last two of which are placed when the test says so."""

    def __init__(self, program, library, files):
        self.page, self.world = Page(program, library), program.new_path()
        self.world.mkdir()
        for name, content in files.items():
            (self.world / name).write_bytes(content)
        pipes = {"stdin": subprocess.PIPE, "stdout": subprocess.PIPE, "bufsize": 0}
        variables = os.environ | self.page.variables()
        self.process = subprocess.Popen([program.path, "stale", self.world], env=variables, **pipes)

    def places(self, number=None):
        """Has the next blob placed, while a request of a number is refused, if one is; returns whether the index is
        stale then."""
        compare("an index", "what it says", b"placed\n", self.process.stdout.readline())
        if number is not None:
            self.page.refuse(number)
        self.process.stdin.write(b"\n")
        said = self.process.stdout.readline()
        was_refused = number is not None and self.page.refused() > 0
        self.page.refuse_none()
        check(f"an index says {said}", said in (b"stale\n", b"quick\n"))
        return said == b"stale\n", was_refused

    def answers(self, texts, seconds=SECONDS):
        """The answers to queries, a line for each: by the index, and by one that keeps nothing."""
        out, _ = harness.finish("an index", self.process, b"\n".join(texts), seconds)
        shutil.rmtree(self.world)
        compare("an index", "how it ended", 0, self.process.returncode)
        lines = out.splitlines()
        return lines[::2], lines[1::2]


def placed(program, library, shelf):
    blobs = shelf.shelf.store.blobs()
    records = b"".join(b"[%b %d]%b" % (ref.encode(), len(blob), blob) for ref, blob in blobs.items())
    return Placed(program, library, {pack_name(0): records, "keyring": query_inputs.KEYRING})


def answers_stale(program, library, shelf):
    """If the first request for memory is refused, the index is stale, and still answers. A later one may be the
    program's own, which continues once it has placed the blob."""
    what, index = f"store {shelf.number}, a request refused", placed(program, library, shelf)
    index.places()
    compare(what, "whether the index is stale, and was refused", (True, True), index.places(1))
    asked = [shelf.query(place)[2] for place in range(QUERIES)]
    due = [queries.search_text(shelf.shelf.archive, query) for query in asked]
    answers, plain = index.answers([queries.write_query(query) for query in asked])
    for query, text, answer, plain_answer in itertools.zip_longest(asked, due, answers, plain):
        compare(f"{what}: {query}", "the answer", text, answer)
        compare(f"{what}: {query}", "the plain answer", text, plain_answer)


# So many layers of trees, each of which has parts of those below, so that the number of paths doubles with each layer;
# and the seconds that the answers to a query may take, for a stale index and for one that keeps nothing.
LAYERS, SOON = 30, 10
FIRST = permanode("1" * 32)
ASKED_OF_FILES = [
    {"file": {}},
    {"file": {"fileSize": {"min": 1 << LAYERS, "max": 1 << LAYERS}}},
    {"file": {"fileName": {"equals": "n.txt"}}},
    {"blobSize": {"min": 1}},
    {"camliType": "file"},
]


def layers(program):
    """A stale index answers in time over trees that share parts in many layers."""
    library = refusing(program)
    return [lambda one=one: answers_soon(program, library, *one) for one in itertools.product((1, 2), ASKED_OF_FILES)]


def layered(width):
    """Blobs: a byte, and layers of so many trees, each of which has two parts, of 2^n bytes together in the n-th layer;
    a file of the last layer; a permanode with that content, one that names it as its signer, and two claims of a long
    value, of which a table has a copy."""
    below, blobs = [(ref_of(b"x"), "blobRef")], [b"x"]
    for layer in range(LAYERS + 1):
        size, trees = 1 << max(layer - 1, 0), []
        for first in range(width):
            parts = [part_text(size, *below[(first + place) % len(below)]) for place in range(2 if layer else 1)]
            # If a layer's trees would be equal, a part of no bytes distinguishes them.
            trees.append(bytes_blob(parts + [part_text(0)] * first))
        blobs += trees
        below = [(ref_of(tree), "bytesRef") for tree in trees]
    top = file_blob("n.txt", [part_text(1 << LAYERS, *below[0])])
    content = claim("set", ref_of(FIRST), "camliContent", ref_of(top), DATE)
    titles = [claim("add", ref_of(FIRST), "title", letter * 100, DATE) for letter in "ab"]
    return [*blobs, top, key_blob(), FIRST, content, permanode("3" * 32, ref_of(top)), *titles]


def answers_soon(program, library, width, constraint):
    what = f"layers of {width}, {constraint}"
    files = {pack_name(0): pack(*dict.fromkeys(layered(width))), "keyring": KEYRING}
    index = Placed(program, library, files)
    index.places()
    compare(what, "whether the index is stale", (True, True), index.places(1))
    query = {"constraint": {"permanode": {"attr": "camliContent", "valueInSet": constraint}}}
    due = [reference.search_text([ref_of(FIRST)])]
    compare(what, "the answers", (due, due), index.answers([query_inputs.spell(query).encode()], SOON))


def is_made_anew(program, library):
    """The next blob that is placed makes a stale index quick again."""
    # A table has a copy of a long value.
    claims = [claim("set", ref_of(NODE), "title", letter * 100, DATE) for letter in "ab"]
    index = Placed(program, library, {pack_name(0): pack(KEY, NODE, *claims), "keyring": KEYRING})
    compare("an index, refused memory", "whether it is stale, and was refused", (True, True), index.places(1))
    compare("an index, and then not", "whether it is stale, and was refused", (False, False), index.places())
    query = {"constraint": {"permanode": {"attr": "title", "value": "b" * 100}}}
    due = [reference.search_text([ref_of(NODE)])]
    compare("an index, and then not", "the answers", (due, due), index.answers([query_inputs.spell(query).encode()]))


# Stops

def stops(program):
    """The disk stops at each call of a row over no store, and then crashes by each choice."""
    return [lambda row=row, choice=choice: stops_in_turn(program, row, choice) for row in stopped() for choice in CHOICES]


def stopped():
    put_file = Row("put-file", ("put-file", FOLDER, "n.txt"), command_rows.printed(FILE[-1]), None, CONTENT, FILE)
    pull = Row("pull", ("pull", FOLDER, ADDRESS), b"", None, puts=SEVEN, peer=SEVEN)
    notes = [row for row in command_rows.notes() if row.packs == {}]
    return [put_file, pull, *notes, *(row for row in command_rows.mirrors() if row.packs is None)]


def stops_in_turn(program, row, choice, second=None):
    """If a second choice is given, the state that is left then crashes by it too: immediately, and after the store was
    opened."""
    lines = told_of(program, row, "stops", str(choice), "none" if second is None else str(second))
    world = World(row)
    writing = 2 + 2 * world.put(0)
    # The blobs that it then gives to peers are read from the disk.
    calls = max(line.call for line in lines) if row.gives() else writing
    check(f"{row.what}: {calls} calls", calls >= writing + len(world.new) - world.put(0))
    runs = [(False, number) for number in range(calls + 1)]
    if second is not None:
        runs += [(True, number) for number in range(calls + 1)]
    compare(f"{row.what}, choice {choice}", "the calls", [number for _, number in runs], [line.call for line in lines])
    for (is_opened, number), line in zip(runs, lines):
        what = f"{row.what}, stopped at call {number}, choice {choice}"
        what += "" if second is None else f", then {second}{' once opened' if is_opened else ''}"
        left = min(whole_after(number, choice, None if is_opened else second), world.put(0))
        compare(what, "the status", str(DONE if number == calls else DISK), line.first.end)
        compare(what, "what it writes", world.out(0) if number == calls else b"", line.first.out)
        # When the disk has all, some were given to peers too.
        lefts = range(left, len(world.new) + 1) if number >= writing else [left]
        left = next((left for left in lefts if world.held(left) == line.first.held), None)
        check(f"{what}: what there is", left is not None and (number < calls or left == len(world.new)))
        is_done(f"{what}, again", world, line.again, left)


def whole_after(stop, choice, second):
    """How many records are whole that were written into a new folder, if the disk stops at a call: the calls before it
    look for packs, make one, and add and sync each record in turn. A record that wasn't synced is left whole if the
    choice modulo 8 is 0; otherwise less of it is left, or other bytes (`MemDisk::crash` of `pack_disk`)."""
    keeps_all = choice % 8 == 0 and (second is None or second % 8 == 0)
    return max(0, stop - 1 if keeps_all else stop - 2) // 2


if __name__ == "__main__":
    harness.main("fault_rows.sh", [fails, pages, connections, listeners, stale, layers, stops])
