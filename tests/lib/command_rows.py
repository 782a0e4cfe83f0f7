"""A row for each command: its arguments, its input, the store before it, and all that it writes and puts.

Under the clock and with the random bytes of `KNOWN`, the moment and the permanode of a row are known before it runs. A
`Trial` runs a row in which something may go wrong, and checks all that it leaves.
"""

import shutil
from typing import NamedTuple, Optional

import inputs
import reference
import writing
from faults import stands
from harness import chance, check, compare, compare_ending
from inputs import CLAIM, DELETE, EXAMPLE_BLOBS, KEY, NODE
from note_stores import list_text
from peers import FalsePeer
from reference import ref_of
from stores import ABC, EMPTY, Store, look
from writing import BYTES_OF_A_CHUNK, chunks_of, file_blobs, keyring_line, pack

# The environment's clock and dice (libraries.py), and the date of that time.
KNOWN = {"TEST_CLOCK": "1577923200.0", "TEST_DICE": writing.RANDOM}
TODAY = inputs.day(2)
KEYRING = inputs.KEYRING + keyring_line(writing.LOAD, writing.LOAD_SECRET)
OTHERS = {"keyring": KEYRING}
FOLDER, ADDRESS, SECOND = object(), object(), object()
KEY_OPTION = "--key=jefe"
# docs/commands.md, "Exit statuses"
DONE, MEMORY, READ, WRITE, DISK, PEER, HAND = 0, 1, 5, 6, 7, 8, 12


class Row(NamedTuple):
    """A run that succeeds.

    Its arguments, in which FOLDER, ADDRESS and SECOND stand for those of the store and of the peers. Its output, except
    that of a copy. The packs before it, or None if there isn't a folder. Its input. The blobs that it puts in order, if
    they aren't there. The blobs of a peer and of a second one, if it has them. Whether it writes as it goes, and may
    therefore have written something if it ends early."""

    what: str
    words: tuple
    out: bytes
    packs: Optional[dict] = None
    source: bytes = b""
    puts: tuple = ()
    peer: Optional[tuple] = None
    second: Optional[tuple] = None
    writes_as_it_goes: bool = False

    def is_push(self):
        return self.words[0] == "push"

    def is_copy(self):
        return self.words[0] in ("push", "pull")

    def gives(self):
        """Whether it gives its peers the blobs that they lack."""
        return self.words[0] in ("push", "mirror")

    def peers(self):
        return [blobs for blobs in (self.peer, self.second) if blobs is not None]

    def touches_a_folder(self):
        return FOLDER in self.words

    def lacked(self, packs):
        """Its blobs that packs lack, in the order in which it puts them."""
        known = reference.arrivals(packs)
        return [blob for blob in dict.fromkeys(self.puts) if ref_of(blob) not in known]


def with_blobs(packs, blobs):
    """Packs with blobs added."""
    for blob in blobs:
        packs = reference.put(packs, blob)
    return packs


# Trials

class Trial:
    """A store, and the peers that the row has, in which a row is run more than once."""

    def __init__(self, program, row):
        self.row = row
        self.store = Store(program, row.packs, None if row.packs is None else OTHERS)
        self.peers = [FalsePeer({ref_of(blob): blob for blob in blobs}) for blobs in row.peers()]
        self.seen = look(self.store.path)

    def __enter__(self):
        return self

    def __exit__(self, *_):
        for peer in self.peers:
            peer.close()
        shutil.rmtree(self.store.path, ignore_errors=True)

    def line(self):
        texts = {FOLDER: str(self.store.path), **dict(zip((ADDRESS, SECOND), (peer.address for peer in self.peers)))}
        return [texts.get(word, word) for word in self.row.words]

    def held(self):
        """The blobs of each peer."""
        return [dict(peer.blobs) for peer in self.peers]

    def due(self):
        """The row's output for the present store and peer: for a copy, how many blobs are copied, and how many
        aren't."""
        if not self.row.is_copy():
            return self.row.out
        here, there = set(self.store.blobs()), set(self.peers[0].blobs)
        source, target = (here, there) if self.row.is_push() else (there, here)
        return b"copied %d already %d\n" % (len(source - target), len(source & target))

    def runs(self, what, run):
        """Runs the row, and checks what it leaves; returns its status. `run` returns how the line ended, and the
        statuses that it may have, the likely one first."""
        due, held = self.due(), self.held()
        (status, out, err), statuses = run(self.line(), self.row.source)
        ending = status if status in statuses else statuses[0]
        compare_ending(what, ending, status, err)
        may_have_written = self.row.writes_as_it_goes or status == WRITE
        front = out if may_have_written and due.startswith(out) else b""
        compare(what, "standard output", due if status == DONE else front, out)
        self.left(what, status)
        self.copied(what, status, held)
        for peer in self.peers:
            peer.is_good(what)
        return status

    def left(self, what, status):
        """The store has what it had, and a prefix of what the row puts, or all."""
        if not self.row.puts:
            compare(what, "the folder", self.seen, look(self.store.path))
            return
        before, now = self.store.packs, reference.packs_of(self.store.files())
        stands(what, before, now)
        known, lacked = reference.arrivals(before), self.row.lacked(before)
        added = [ref for ref in reference.arrivals(now) if ref not in known]
        front = lacked if status in (DONE, WRITE) else lacked[: len(added)]
        compare(what, "what was put", list(map(ref_of, front)), added)
        if status != DISK:
            compare(what, "the packs", with_blobs(before, front), now)
        self.store.packs = now

    def copied(self, what, status, held):
        """The peers have what they had and, if the row gives them something, a prefix of what the first lacked, and
        then of the second's, or all. They get nothing before the store is complete."""
        here = self.store.blobs().keys() if self.row.gives() else set()
        lacked = [(place, ref) for place, had in enumerate(held) for ref in sorted(here - had.keys())]
        now = enumerate(zip(held, self.held()))
        added = [(place, ref) for place, (had, has) in now for ref in sorted(has.keys() - had.keys())]
        compare(what, "what the peers were given", lacked if status in (DONE, WRITE) else lacked[: len(added)], added)
        check(f"{what}: given too early", not added or not self.row.lacked(self.store.packs))


# Rows

SOME = {0: pack(b"abc"), 2: pack(b"", b"abc") + b"[torn"}
NOTES = {0: pack(NODE, CLAIM), 3: pack(DELETE, KEY)}
NOON = inputs.day(1, "T12:00:00Z")
TAGGED = b'{"constraint":{"permanode":{"attr":"tag","value":"a","at":"%s"}}}' % NOON.encode()
FOUND = reference.search_text(inputs.FOUND) + b"\n"
NOTHING_FOUND = reference.search_text([]) + b"\n"
CONTENT = chance("the content of a file").randbytes(2 * BYTES_OF_A_CHUNK + 10)
FILE = tuple(file_blobs("n.txt", chunks_of(CONTENT)))
CHANGES = [("set", ref_of(NODE), "tag", "b"), ("add", ref_of(NODE), "title", "c")]


def rows():
    return [*puts(), *reads(), *notes(), *files(), *copies(5), *mirrors(), *others()]


def printed(blob):
    return ref_of(blob).encode() + b"\n"


def puts():
    some, new = {0: pack(b"abc")}, b"a new blob"
    yield Row("put into a new folder", ("put", FOLDER), printed(b""), None, b"", (b"",))
    yield Row("put", ("put", FOLDER), printed(new), some, new, (new,))
    yield Row("put after a torn pack", ("put", FOLDER), printed(new), {0: pack(b"abc")[:-1]}, new, (new,))
    yield Row("put of what is there", ("put", FOLDER), printed(b"abc"), some, b"abc", (b"abc",))


def reads():
    line, found = reference.entry(ABC, b"abc"), ("--attr=tag", "--value=a")
    yield Row("get", ("get", FOLDER, ABC), b"abc", SOME)
    yield Row("stat", ("stat", FOLDER, ABC), line, SOME)
    yield Row("list", ("list", FOLDER), line + reference.entry(EMPTY, b""), SOME)
    yield Row("salvage", ("salvage", FOLDER), reference.salvage_text(SOME), SOME, writes_as_it_goes=True)
    yield Row("search", ("search", FOLDER, *found), NOTHING_FOUND, NOTES)
    yield Row("search at a date", ("search", FOLDER, *found, f"--at={NOON}"), FOUND, NOTES)
    yield Row("query", ("query", FOLDER), FOUND, NOTES, TAGGED)
    yield Row("words", ("words", FOLDER, "tag:a"), NOTHING_FOUND, NOTES)
    yield Row("words at a date", ("words", FOLDER, "tag:a -has:title", f"--at={NOON}"), FOUND, NOTES)


def notes():
    node, some = ref_of(NODE), {0: pack(*EXAMPLE_BLOBS)}
    for what, words, blob, source in (
        ("permanode", ("permanode", FOLDER), NODE, b""),
        ("claim", ("claim", FOLDER, "set", node, "tag", "b"), writing.claim("set", node, "tag", "b", TODAY), b""),
        ("delete", ("delete", FOLDER, node), writing.delete(node, TODAY), b""),
        ("multi", ("multi", FOLDER), writing.multi(CHANGES, TODAY), list_text(CHANGES).encode()),
    ):
        for beside, packs in (("", {}), (" where the key is there", some)):
            yield Row(what + beside, (*words, KEY_OPTION), printed(blob), packs, source, (KEY, blob))


def files():
    yield Row("put-file", ("put-file", FOLDER, "n.txt"), printed(FILE[-1]), {0: pack(b"abc")}, CONTENT, FILE)
    line = ("get-file", FOLDER, ref_of(FILE[-1]))
    yield Row("get-file", line, CONTENT, {0: pack(*FILE)}, writes_as_it_goes=True)


def copies(count):
    """Every other one of so many blobs is at both ends."""
    blobs = sorted((b"blob %d" % number for number in range(count)), key=ref_of)
    yield Row("push", ("push", FOLDER, ADDRESS), b"", {0: pack(*blobs)}, peer=tuple(blobs[1::2]))
    packs, lacking = {0: pack(*blobs[1::2])}, tuple(blobs[::2])
    yield Row("pull", ("pull", FOLDER, ADDRESS), b"", packs, puts=lacking, peer=tuple(blobs))


def mirrors():
    """A folder and two servers, each of which lacks some of seven blobs."""
    blobs = sorted((b"one of seven: %d" % number for number in range(7)), key=ref_of)
    first, second, line = tuple(blobs[1:6:2]), tuple(blobs[1:]), ("mirror", FOLDER, ADDRESS, SECOND)
    for what, here in (("mirror", blobs[:2]), ("mirror into a new folder", ())):
        gathered = (*first, *second)
        count = len({*here, *gathered})
        packs = {0: pack(*here)} if here else None
        yield Row(what, line, b"stores 3 blobs %d\n" % count, packs, puts=gathered, peer=first, second=second)


def others():
    """Commands without a folder, in a working folder that has the keyring."""
    yield Row("search-pack", ("search-pack", "tag", "a"), FOUND, source=inputs.EXAMPLE)
    yield Row("load", ("load", "5", "7"), reference.load_text(writing.load_blobs(5, 7), KEYRING))
