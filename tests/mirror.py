"""`mirror`: a round over a store and servers, after which each has all blobs that any had.

The expected blobs are computed by docs/ring.md: after a round that succeeds the hub and each server have the union of
all, and after one that fails what they had and more of the union. Packs are compared to the byte: copied blobs are
appended, in the order of docs/ring.md.
"""

import os
import pathlib
import shutil
import signal
import subprocess
import threading
import time

import harness
import inputs
import reference
import writing
from harness import LeftOut, check, compare
from peers import FalsePeer
from reference import ref_of
from serving import HOST, PORTS, Server
from stores import Store, check_search, look
from sync import DAMAGED, DISK, FULL, OTHERS, PEER, REPLY, RIGHT
from sync import Blobs, at, full_store, grows, lacking, stands_in, with_blobs
from writers import Locked

SCRIPT = pathlib.Path(__file__).resolve().parent.parent / "examples" / "perkeep-mirror"
BAD_WORDS = 2
# docs/commands.md, "Words": so many addresses at most.
MOST = 16
KILLS = 4
# docs/sync.md, "Connections"
IDLE = 20


class Ring:
    """A hub and the stores of some servers, which are started over them."""

    def __init__(self, program, hub, *stores):
        self.program, self.hub, self.stores = program, hub, stores

    def __enter__(self):
        self.servers = [Server(self.program, store.path) for store in self.stores]
        return self

    def __exit__(self, *_):
        for server in self.servers:
            server.kill()

    def words(self):
        return self.hub.words("mirror", *map(at, self.servers))

    def round(self, what):
        """A round that ends well: the line, and all bytes of all packs."""
        self.takes_up()
        self.program.check(what, self.words(), line_of(self.hub, len(self.stores)))
        self.is_so(what)

    def takes_up(self):
        """Records the expected packs after a round."""
        maps = [store.blobs() for store in self.stores]
        hub, after = reference.round_over(self.hub.blobs(), maps)
        for there in maps:
            self.hub.packs = with_blobs(self.hub.packs, there, lacking(there, self.hub.blobs()))
        for store, there in zip(self.stores, maps):
            store.packs = with_blobs(store.packs, hub, lacking(hub, there))
        compare("the test itself", "the blobs of the hub", hub, self.hub.blobs())
        compare("the test itself", "the blobs of the others", after, [store.blobs() for store in self.stores])

    def is_so(self, what):
        for number, store in enumerate((self.hub, *self.stores)):
            store.check_files(f"{what}: store {number}")

    def again(self, what):
        """A round that has nothing to copy: no byte and no time of a file changes."""
        before = [look(store.path) for store in (self.hub, *self.stores)]
        self.program.check(f"{what}, again", self.words(), line_of(self.hub, len(self.stores)))
        compare(f"{what}, again", "the folders", before, [look(store.path) for store in (self.hub, *self.stores)])

    def is_equal(self, what):
        """All list the same."""
        listing = reference.listing(self.hub.blobs(), limit=4_194_304)
        for store in (self.hub, *self.stores):
            store.reads(f"{what}: list", "list", "--limit=4194304", out=listing)


def line_of(hub, peers):
    return b"stores %d blobs %d\n" % (peers + 1, len(hub.blobs()))


def some_stores(program, what, count, blobs_each):
    """A hub and so many stores, each with some blobs of its own and some that others have."""
    blobs = Blobs("mirror", what, count, blobs_each)
    pool = blobs.some(blobs_each * (count + 1))
    return [blobs.store(program, blobs.random.sample(pool, blobs_each)) for _ in range(count + 1)]


# Rounds

def rounds(program):
    """Three and five servers of different stores, and one: all become equal, and a second round copies nothing."""
    return [lambda sizes=sizes: become_equal(program, *sizes) for sizes in ((1, 5), (3, 40), (5, 30), (3, 1_100))]


def become_equal(program, count, blobs_each):
    what = f"{count} servers of {blobs_each} blobs"
    with Ring(program, *some_stores(program, what, count, blobs_each)) as ring:
        ring.round(what)
        ring.again(what)
        ring.is_equal(what)


def small_ones(program):
    """Stores without blobs, a folder that isn't there, equal stores, and two addresses of one store."""
    return [lambda row=row: row(program) for row in (empty, nowhere_yet, equal, twice, first_row)]


def empty(program):
    what = "stores without blobs"
    with Ring(program, *(Store(program, {}, OTHERS) for _ in range(3))) as ring:
        ring.program.check(what, ring.words(), b"stores 3 blobs 0\n")
        ring.is_so(what)


def nowhere_yet(program):
    what, blobs = "a folder that isn't there", Blobs("mirror into a new folder")
    with Ring(program, Store(program), blobs.store(program, blobs.some(4)), Store(program, {}, OTHERS)) as ring:
        ring.round(what)
        ring.again(what)


def equal(program):
    what, blobs = "equal stores", Blobs("mirror of equal stores")
    pack = writing.pack(*blobs.some(6), name_of=blobs.name_of)
    with Ring(program, *(Store(program, {0: pack}, OTHERS) for _ in range(3))) as ring:
        ring.again(what)


def twice(program):
    what, blobs = "two addresses of one server", Blobs("mirror of one server twice")
    here, there = blobs.store(program, blobs.some(3)), blobs.store(program, blobs.some(3))
    with Ring(program, here, there) as ring:
        ring.takes_up()
        address = at(ring.servers[0])
        program.check(what, here.words("mirror", address, address), line_of(here, 2))
        ring.is_so(what)


def first_row(program):
    """A hub with one blob, and two servers with another one and with none."""
    one, other = b"A", b"E"
    hub, first = (Store(program, {0: writing.pack(blob)}, OTHERS) for blob in (one, other))
    with Ring(program, hub, first, Store(program, {}, OTHERS)) as ring:
        ring.takes_up()
        program.check("one blob and another", ring.words(), b"stores 3 blobs 2\n")
        ring.is_so("one blob and another")


def notes(program):
    """A key, permanodes, claims and deletions, distributed over four stores: all then find the same, byte for byte."""
    return [lambda: found_in_all(program)]


def found_in_all(program):
    what, some = "notes", [writing.key_blob()]
    for number in range(40):
        node = writing.permanode(f"{number:032x}")
        mark = writing.claim("set", ref_of(node), "tag", "ab"[number % 2], inputs.DATE)
        some += [node, mark] + ([writing.delete(ref_of(mark), inputs.day(2))] if number % 5 == 0 else [])
    stores = [Store(program, {0: writing.pack(*some[place::4])}, OTHERS) for place in range(4)]
    with Ring(program, *stores) as ring:
        ring.round(what)
        ring.is_equal(what)
    archive = reference.archive_of_store(stores[0].packs, inputs.KEYRING)
    check(f"{what}: the reference finds nothing", archive.holders("tag", "a"))
    for store in stores:
        for value, date in (("a", None), ("b", None), ("a", inputs.DATE)):
            check_search(store, archive, "tag", value, date)


# Requests

def requests(program):
    """Each missing blob is fetched once and sent once, and a second round neither fetches nor sends any."""
    return [lambda: asks(program)]


def asks(program):
    what, blobs = "requests", Blobs("mirror requests")
    here, first, second = some_stores(program, what, 2, 12)
    with FalsePeer(first.blobs()) as one, FalsePeer(second.blobs()) as two:
        hub, after = reference.round_over(here.blobs(), [one.blobs, two.blobs])
        fetched_of_two = lacking(two.blobs, reference.joined(here.blobs(), one.blobs))
        fetched = lacking(one.blobs, here.blobs()), fetched_of_two
        sent = lacking(hub, one.blobs), lacking(hub, two.blobs)
        words = here.words("mirror", one.address, two.address)
        program.check(what, words, b"stores 3 blobs %d\n" % len(hub))
        for turn in ("", ", again"):
            compare(f"{what}{turn}", "fetches", list(fetched), [peer.of_kind("fetch") for peer in (one, two)])
            compare(f"{what}{turn}", "uploads", list(sent), [peer.of_kind("upload") for peer in (one, two)])
            compare(f"{what}{turn}", "what the peers hold", after, [one.blobs, two.blobs])
            compare(f"{what}{turn}", "what the hub holds", hub, stands_in(here))
            here.packs = reference.packs_of(here.files())
            here.keeps(f"{what}{turn}, the next one", words, b"stores 3 blobs %d\n" % len(hub))
        for peer in (one, two):
            peer.is_good(what)


def ended_connections(program):
    """Servers that end each connection after a reply, and ones that give no length."""
    return [lambda: goes_on(program)]


def goes_on(program):
    what = "connections that are ended behind replies"
    here, first, second = some_stores(program, what, 2, 9)
    hub, after = reference.round_over(here.blobs(), [first.blobs(), second.blobs()])
    rights = {number: RIGHT["no length"] for number in range(200)}
    with FalsePeer(first.blobs(), rights=rights) as one, FalsePeer(second.blobs(), rights=rights) as two:
        program.check(what, here.words("mirror", one.address, two.address), b"stores 3 blobs %d\n" % len(hub))
        compare(what, "what the peers hold", after, [one.blobs, two.blobs])
        compare(what, "what the hub holds", hub, stands_in(here))
        for peer in (one, two):
            compare(what, "connections", len(peer.asked), peer.connections)
            peer.is_good(what)


def idle(program):
    """A server is idle for longer than a connection may be while another one is copied from: it gets its requests over
    another connection. So does a real one that has ended it."""
    return [lambda: stands_idle(program, 2), lambda: stands_idle(program, 62)]


def stands_idle(program, more):
    what = f"a connection that stands idle, {more}"
    here, first, second = some_stores(program, what, 2, 4)
    hub, after = reference.round_over(here.blobs(), [first.blobs(), second.blobs()])
    seconds = (IDLE if more < IDLE else 0) + more
    slept = threading.Event()

    def sleeps_once(asked):
        if not slept.is_set():
            slept.set()
            time.sleep(seconds)

    with Server(program, first.path) as server, FalsePeer(second.blobs(), before=sleeps_once) as peer:
        words = here.words("mirror", at(server), peer.address)
        program.check(what, words, b"stores 3 blobs %d\n" % len(hub), seconds=2 * harness.SECONDS)
        compare(what, "what stands", [hub, *after], [stands_in(here), stands_in(first), peer.blobs])
        peer.is_good(what)


# Refusals

def words(program):
    """Arguments that are no line, and texts that are; the order of the refusals."""
    folder = str(program.new_path())
    behind = [[], [folder], ["--x=1", folder, "a"], [folder, "-a"], [folder, "a", "--limit=1"]]
    behind += [[folder, *["a"] * (MOST + 1)]]
    none = [["Mirror", folder, "a"], ["--", "mirror", folder, "a"], *(["mirror", *line] for line in behind)]
    behind = [[folder, "a"], ["--", folder, "-a"], [folder, "--", "a"], [folder, "a", "--"], [folder, *["a"] * MOST]]
    lines = [["mirror", *line] for line in behind]
    both = [(line, status) for status, some in ((BAD_WORDS, none), (PEER, lines)) for line in some]
    return [lambda one=one: program.check(f"{one[0]}", one[0], status=one[1]) for one in both]


def nobody_there(program):
    """An address at which no one is: the peers before it were read, and those after it got no request."""
    return [lambda place=place: is_refused(program, place) for place in range(3)]


def is_refused(program, place):
    what = f"nobody at place {place}"
    here, *stores = some_stores(program, what, 3, 6)
    with Ring(program, here, *stores) as ring:
        addresses = [at(server) for server in ring.servers]
        addresses[place] = f"{HOST}:{PORTS.free()}"
        before = [look(store.path) for store in stores]
        for store in stores[:place]:
            here.packs = with_blobs(here.packs, store.blobs(), lacking(store.blobs(), here.blobs()))
        program.check(what, here.words("mirror", *addresses), status=PEER)
        here.check_files(f"{what}: the hub")
        compare(what, "the other stores", before, [look(store.path) for store in stores])
        ring.round(f"{what}, and then somebody")


def before_the_peers(program):
    """Faults of the folder are reported before a connection is made. The keyring isn't read."""
    file = program.new_path()
    file.write_bytes(b"")

    def refused():
        with FalsePeer() as peer:
            program.check("DIR is a file", ["mirror", str(file), peer.address], status=DISK)
            compare("DIR is a file", "connections", 0, peer.connections)

    def unread():
        what, store = "a keyring that is none", Store(program, {0: writing.pack(b"abc")}, {"keyring": b"jefe\n"})
        with FalsePeer() as peer:
            store.keeps(what, store.words("mirror", peer.address), b"stores 2 blobs 1\n")
            compare(what, "what the peer holds", store.blobs(), peer.blobs)

    return [refused, unread]


def locked(program):
    """The folder is locked by another program, or by a server among the addresses: status 7 after ten seconds."""
    def by_another():
        what, (here, there) = "a folder that another program holds", some_stores(program, "locked", 1, 4)
        with Server(program, there.path) as server, Locked(here.path):
            before = look(there.path)
            here.keeps(what, here.words("mirror", at(server)), status=DISK)
            compare(what, "the other store", before, look(there.path))

    def by_its_server():
        what, (here, there) = "a folder that one of the servers serves", some_stores(program, "served", 1, 4)
        with Server(program, here.path) as server, Server(program, there.path) as other:
            before = look(there.path)
            here.keeps(what, here.words("mirror", at(other), at(server)), status=DISK)
            compare(what, "the other store", before, look(there.path))

    return [by_another, by_its_server]


def no_room(program):
    """A hub that takes no new blob ends the round in its first half, and a server that doesn't in the second."""
    return [lambda: full_hub(program), lambda: full_peer(program)]


def full_hub(program):
    what, here = "a full hub", full_store(program)
    with FalsePeer({ref_of(b"stands"): b"stands"}) as one, FalsePeer({ref_of(b"new"): b"new"}) as two:
        here.keeps(what, here.words("mirror", one.address, two.address), status=FULL)
        compare(what, "uploads", [[], []], [peer.of_kind("upload") for peer in (one, two)])
        here.keeps(f"{what} that lacks nothing", here.words("mirror", one.address), b"stores 2 blobs 1\n")


def full_peer(program):
    what, (here, first) = "a full server", some_stores(program, "a full server", 1, 3)
    second, third = full_store(program), Store(program, {}, OTHERS)
    with Ring(program, here, first, second, third) as ring:
        for store in (first, second):
            here.packs = with_blobs(here.packs, store.blobs(), lacking(store.blobs(), here.blobs()))
        first.packs = with_blobs(first.packs, here.blobs(), lacking(here.blobs(), first.blobs()))
        program.check(what, ring.words(), status=REPLY)
        ring.is_so(what)


def damage(program):
    """A peer that gives other bytes under a ref: they aren't stored."""
    def spoilt():
        what, here = "other bytes under a ref", Store(program, {0: writing.pack(b"abc")}, OTHERS)
        with FalsePeer({ref_of(b"new"): b"old"}) as peer:
            here.keeps(what, here.words("mirror", peer.address), status=DAMAGED)

    return [spoilt]


# Kills

def kills(program):
    """Servers, and the command, that are killed at a random moment of a round: no blob is lost, no blob is there that
    none had, and the next round ends equal."""
    return [lambda turn=turn: killed(program, turn) for turn in range(KILLS)]


def killed(program, turn):
    what, blobs = f"a kill in a round, {turn}", Blobs("mirror kills", turn)
    stores = [blobs.store(program, blobs.some(600, 2_000)) for _ in range(4)]
    here, *others = stores
    before = [store.blobs() for store in stores]
    all_of_them = reference.round_over(before[0], before[1:])[0]
    with Ring(program, *stores) as ring:
        process = program.start(ring.words(), stdin=subprocess.DEVNULL, stdout=subprocess.PIPE)
        # The hub gains three times as much in the first half as another store does in the second.
        watched = here if turn % 2 == 0 else others[-1]
        grows(watched, blobs.random.randrange(sum(len(blob) for blob in before[1].values())), process)
        victim = ring.servers[blobs.random.randrange(3)].process if turn < KILLS // 2 else process
        victim.kill()
        out, err = harness.finish(what, process)
        if process.returncode == 0:
            compare(what, "standard output", b"stores 4 blobs %d\n" % len(all_of_them), out)
        else:
            compare(what, "standard output", b"", out)
            endings = [PEER, REPLY] if turn < KILLS // 2 else [-signal.SIGKILL]
            check(f"{what}: it ends with {process.returncode}, {err!r}", process.returncode in endings)
    for number, (store, held) in enumerate(zip(stores, before)):
        stands = stands_in(store)
        compare(what, f"what store {number} lost", [], lacking(held, stands))
        others = {ref: blob for ref, blob in stands.items() if all_of_them.get(ref) != blob}
        compare(what, f"what store {number} has that none had", {}, others)
        store.packs = reference.packs_of(store.files())
    with Ring(program, *stores) as ring:
        program.check(f"{what}, the next round", ring.words(), b"stores 4 blobs %d\n" % len(all_of_them))
        for number, store in enumerate(stores):
            compare(what, f"what store {number} holds in the end", all_of_them, stands_in(store))
            store.packs = reference.packs_of(store.files())
        ring.again(what)


# The script of the timer

def script(program):
    """The script of examples/ makes a round over the servers that answer, and says which it left out."""
    if shutil.which("curl") is None:
        raise LeftOut("there is no curl here")
    return [lambda: leaves_out(program), lambda: leaves_out_all(program)]


def made_by_script(what, program, hub, *addresses):
    """The status, the output and the errors of the script."""
    line = [SCRIPT, str(hub.path), *addresses]
    streams = {"stdin": subprocess.DEVNULL, "stdout": subprocess.PIPE, "stderr": subprocess.PIPE}
    process = subprocess.Popen(line, cwd=program.working, env={**os.environ, "PERKEEP": str(program.path)}, **streams)
    out, err = harness.finish(what, process)
    return process.returncode, out, err


def left_out(address):
    return b"perkeep-mirror: %b doesn't answer, and is left out\n" % address.encode()


def leaves_out(program):
    what, nowhere = "a script, and nobody at its second address", f"{HOST}:{PORTS.free()}"
    with Ring(program, *some_stores(program, what, 2, 6)) as ring:
        first, second = map(at, ring.servers)
        ring.takes_up()
        got = made_by_script(what, program, ring.hub, first, nowhere, second)
        compare(what, "status, output and errors", (0, line_of(ring.hub, 2), left_out(nowhere)), got)
        ring.is_so(what)


def leaves_out_all(program):
    what, hub = "a script, and nobody anywhere", Store(program, {0: writing.pack(b"abc")}, OTHERS)
    nowhere = [f"{HOST}:{PORTS.free()}" for _ in range(2)]
    before = look(hub.path)
    told = b"".join(map(left_out, nowhere)) + b"perkeep-mirror: no server answers\n"
    compare(what, "status, output and errors", (PEER, b"", told), made_by_script(what, program, hub, *nowhere))
    compare(what, "the folder", before, look(hub.path))


GROUPS = [rounds, small_ones, notes, requests, ended_connections, words, nobody_there, before_the_peers]
GROUPS += [no_room, damage, script, kills]
if __name__ == "__main__":
    harness.main("mirror.sh", GROUPS, beside=[idle, locked])
