"""Clients that stop and stay, that send little, and those that don't read: others are served meanwhile, and their
connections are ended after ten seconds, or after a minute. And the lock of the folder, for which another writer waits.
"""

import contextlib
import itertools
import select
import socket
import time

import harness
import http_inputs
import reference
from connections import QUERY, STAT, UPLOAD, Reply
from harness import check, compare
from http_inputs import ABC, FORM, GOOD_QUERY, blob_part, blob_target, form, get, post, stat_pairs, upload
from reference import LARGEST_BLOB, ref_of
from serving import ABC_REPLY, FIRST_HEAD, IDLE, PORTS, SECONDS_OF_WAITING, SOON, Server, Talk
from serving import blob_reply, compare_texts, connect, store_of, stored
from writers import Locked

# When a connection is ended that has to be ended after so many seconds: at most so many earlier, and at most so many
# later.
EARLIER, LATER = 5, 15
GREATEST = bytes(LARGEST_BLOB)
# A client whose connection is over is read for a second. What it sends meanwhile comes after so many seconds each.
LITTLE_BY_LITTLE, A_MOMENT = 0.02, 5


# Clients that stay

LARGE = b"0123456789abcdef" * 65_536
# A prefix of a request, after which a client stops.
FRONTS = {
    "nothing": b"",
    "empty lines": b"\r\n\r\n",
    "part of a head": b"GET /camli/stat?",
    "a head without its body": post(STAT, stat_pairs(ABC))[:-1],
    "part of a chunk": http_inputs.post_pieces(STAT, [stat_pairs(ABC)])[:-20],
    "part of an upload": post(UPLOAD, form(blob_part(b"kept"), blob_part(LARGE)), FORM)[:700_000],
}
# Those of them that don't have a whole head.
HEADLESS = ("nothing", "empty lines", "part of a head")


def stays(program):
    """While clients stop in the middle of a request, or don't read, others are served."""
    return [lambda what=what: others_are_served(program, what) for what in FRONTS] + [
        lambda: others_beside_an_unread_reply(program),
        lambda: others_beside_all_kinds(program),
        lambda: talks_on(program),
        lambda: talks_on_at_length(program),
    ]


def others_are_served(program, what):
    store = store_of(program, b"abc")
    with Server(program, store.path, "--connections=8") as server:
        held = [held_by(server, FRONTS[what]) for _ in range(7)]
        others(what, server, [b"new"])
        for wire in held:
            wire.close()
        server.ends(what)


def held_by(server, front):
    wire = connect(server.port)
    wire.sendall(front)
    return wire


def others(what, server, blobs):
    """A client that uploads and searches, and gets its replies soon."""
    start = time.monotonic()
    with Talk(server.port) as talk:
        for blob in blobs:
            talk.ask(f"an upload beside {what}", upload(blob), stored(blob))
            talk.ask(f"a blob beside {what}", get(blob_target(ref_of(blob))), blob_reply(blob))
        search = post(QUERY, GOOD_QUERY)
        talk.ask(f"a search beside {what}", search, Reply(200, reference.search_text([])))
    seconds = time.monotonic() - start
    check(f"a client beside {what} took {seconds:.1f} seconds", seconds < SOON)


def others_beside_an_unread_reply(program):
    with Server(program, store_of(program, b"abc", GREATEST).path) as server:
        held = [held_by(server, get(blob_target(ref_of(GREATEST))) * 3) for _ in range(7)]
        time.sleep(0.5)
        others("replies that nobody reads", server, [b"new", LARGE])
        # A client that reads at last gets all of it.
        told = blob_reply(GREATEST).text()
        held[0].settimeout(harness.SECONDS)
        with held[0].makefile("rb") as file:
            compare_texts("a reply that was read late", told, file.read(len(told)))
        for wire in held:
            wire.close()


def others_beside_all_kinds(program):
    with Server(program, store_of(program, b"abc", GREATEST).path) as server:
        fronts = [*FRONTS.values(), get(blob_target(ref_of(GREATEST))) * 3]
        held = [held_by(server, front) for front in fronts]
        others("clients of all kinds", server, [b"new", LARGE])
        for wire in held:
            wire.close()


def talks_on(program):
    """A client that continues to send after the end of its connection keeps the worker for little more than a
    second."""
    with Server(program, store_of(program, b"abc").path, "--workers=1") as server:
        with Talk(server.port) as one, Talk(server.port) as other:
            one.ask("the last request", get(blob_target(ABC), "Connection: close"), ABC_REPLY._replace(closes=True))
            other.send(get(blob_target(ABC)))
            start = time.monotonic()
            while not select.select([other.wire], [], [], 0.2)[0]:
                check("a client that goes on sending keeps the worker", time.monotonic() < start + SOON)
                with contextlib.suppress(ConnectionError):
                    one.send(b"x")
            compare_texts("the other client", ABC_REPLY.text(), other.read_text("the other client"))


def talks_on_at_length(program):
    """So does one that sends 16 KiB every few milliseconds, which is as much as is read at once."""
    what = "a client that goes on sending at length"
    with Server(program, store_of(program, b"abc").path, "--workers=1") as server:
        with Talk(server.port) as one, Talk(server.port) as other:
            one.send(b"GET /x HTTP/1.0\r\n\r\n")
            other.send(get(blob_target(ABC)))
            start = time.monotonic()
            while not select.select([other.wire], [], [], LITTLE_BY_LITTLE)[0]:
                check(f"{what} keeps the worker", time.monotonic() < start + SOON)
                with contextlib.suppress(ConnectionError):
                    one.send(bytes(16_384))
            seconds = time.monotonic() - start
            compare_texts(what, ABC_REPLY.text(), other.read_text(what))
        check(f"{what} kept the worker for {seconds:.1f} seconds", seconds < A_MOMENT)


# Clients that stay until they are ended, and locks

def minutes(program):
    """A connection on which too little comes, or too little is read, is ended."""
    checks = (silent_after_requests, slow_to_send, small_things, unread, slow_to_read, a_locked_folder, a_put_beside)
    checks += (a_server_beside, eight_slow_heads, eight_slow_bodies, eight_slow_readers)
    checks = [lambda check=check: check(program) for check in checks]
    return checks + [lambda what=what: silent(program, what) for what in FRONTS]


def ends_idle(what, server, start, idle=IDLE):
    """The server, whose only connection this was, ends because the connection is ended, after about so many seconds."""
    server.ends(what, seconds=2 * (idle + LATER))
    seconds = time.monotonic() - start
    check(f"{what}: it was ended after {seconds:.1f} seconds", idle - EARLIER <= seconds <= idle + LATER)


def silent(program, what):
    """It is ended without a reply. The parts of an upload that were put stay."""
    store = store_of(program, b"abc")
    with Server(program, store.path, "--connections=1") as server:
        start = time.monotonic()
        with held_by(server, FRONTS[what]) as wire:
            ends_idle(what, server, start, FIRST_HEAD if what in HEADLESS else IDLE)
            with contextlib.suppress(ConnectionResetError):
                compare(what, "what came", b"", wire.recv(1))
    if what == "part of an upload":
        store.packs = reference.put(store.packs, b"kept")
    store.check_files(what)


def silent_after_requests(program):
    what = "silence behind two requests"
    with Server(program, store_of(program, b"abc").path, "--connections=1") as server, Talk(server.port) as talk:
        talk.ask(what, get(blob_target(ABC)), ABC_REPLY)
        time.sleep(1)
        talk.ask(what, get(blob_target(ABC)), ABC_REPLY)
        ends_idle(what, server, time.monotonic())
        talk.is_at_end(what)


def slow_to_send(program):
    """A client that continues after a pause is answered, as long as its pauses within a request are a minute in all."""
    what, stream = "a byte now and then", get(blob_target(ABC))
    with Server(program, store_of(program, b"abc").path, "--connections=1") as server, Talk(server.port) as talk:
        talk.ask(what, stream, ABC_REPLY)
        for octet in stream[:3]:
            time.sleep(IDLE * 0.4)
            talk.send(bytes([octet]))
        talk.ask(what, stream[3:], ABC_REPLY)


def small_things(program):
    """A client that sends a small request now and then stays."""
    what = "a small request now and then"
    with Server(program, store_of(program, b"abc").path, "--connections=1") as server, Talk(server.port) as talk:
        for _ in range(5):
            talk.ask(what, get(blob_target(ABC)), ABC_REPLY)
            time.sleep(IDLE * 0.4)
        talk.ask(what, get(blob_target(ABC)), ABC_REPLY)


def eight_slow_heads(program):
    """Eight clients that each send a byte of a first head a second keep all workers for ten seconds and no longer."""
    front = get(blob_target(ABC), "X: " + "x" * 100)
    eight_beside_one(program, "slow heads", b"", lambda wire, second: wire.send(front[second : second + 1]), FIRST_HEAD, 5)


def eight_slow_bodies(program):
    """The same for bodies, for a minute."""
    front = post(UPLOAD, form(blob_part(LARGE)), FORM)[:500]
    eight_beside_one(program, "slow bodies", front, lambda wire, _: wire.send(b"x"), IDLE)


def eight_slow_readers(program):
    """The same for clients that read eight bytes per second."""
    asked = get(blob_target(ref_of(GREATEST))) * 3
    eight_beside_one(program, "slow readers", asked, lambda wire, _: wire.recv(8), IDLE)


def eight_beside_one(program, what, front, each_second, seconds, later=LATER):
    """Eight clients that begin so, and each second do little, and one whose request is answered soon after they
    ended."""
    with Server(program, store_of(program, b"abc", GREATEST).path) as server, contextlib.ExitStack() as all_of_them:
        wires = [all_of_them.enter_context(held_by(server, front)) for _ in range(8)]
        time.sleep(0.5)
        start = time.monotonic()
        with Talk(server.port) as talk:
            talk.send(get(blob_target(ABC)))
            for second in itertools.count():
                for wire in wires:
                    with contextlib.suppress(ConnectionError):
                        each_second(wire, second)
                if select.select([talk.wire], [], [], 1)[0]:
                    break
                check(f"{what}: no answer beside them", time.monotonic() - start < seconds + later)
            compare_texts(what, ABC_REPLY.text(), talk.read_text(what))
        took = time.monotonic() - start
        check(f"{what}: an answer beside them after {took:.1f} seconds", seconds - EARLIER <= took)


def unread(program):
    """The bytes that were sent before the connection was ended may come, and no more."""
    what, told = "a reply that nobody reads", blob_reply(GREATEST).text()
    with Server(program, store_of(program, GREATEST).path, "--connections=1") as server:
        start = time.monotonic()
        with held_by(server, get(blob_target(ref_of(GREATEST))) * 4) as wire:
            ends_idle(what, server, start)
            got = []
            with contextlib.suppress(ConnectionResetError):
                while piece := wire.recv(1_000_000):
                    got.append(piece)
        got = b"".join(got)
        check(f"{what}: {len(got)} bytes came", 0 < len(got) < 4 * len(told))
        compare_texts(what, (told * 4)[: len(got)], got)


def slow_to_read(program):
    """A client that reads now and then gets the whole reply, however long that takes."""
    what, told = "a reply that is read now and then", blob_reply(GREATEST).text()
    with Server(program, store_of(program, GREATEST).path, "--connections=1") as server, connect(server.port) as wire:
        wire.sendall(get(blob_target(ref_of(GREATEST))) * 2)
        wire.shutdown(socket.SHUT_WR)
        with wire.makefile("rb") as file:
            got = [file.read(len(told) // 2)]
            for _ in range(3):
                time.sleep(IDLE * 0.4)
                got.append(file.read(len(told) // 4))
            got.append(file.read())
        compare_texts(what, told * 2, b"".join(got))
        server.ends(what)


def a_locked_folder(program):
    """A server waits for the lock of its folder for ten seconds, longer if the machine is busy, and then ends."""
    what, store = "a folder that another program writes", store_of(program, b"abc")
    with Locked(store.path):
        start = time.monotonic()
        store.keeps(what, ["serve", str(store.path), f"--port={PORTS.free()}"], status=7)
        seconds = time.monotonic() - start
    check(f"{what}: it waited {seconds:.1f} seconds", SECONDS_OF_WAITING - 1 <= seconds <= 6 * SECONDS_OF_WAITING)


def a_put_beside(program):
    """A put beside a server ends as the disk's fault, the server continues, and after its end the put succeeds."""
    store = store_of(program, b"abc")
    with Server(program, store.path) as server:
        store.keeps("a put beside a server", store.words("put"), status=7, source=b"new")
        others("a put", server, [])
    store.put("a put behind a server that was killed", b"new")


def a_server_beside(program):
    store = store_of(program, b"abc")
    with Server(program, store.path) as server:
        store.keeps("a server beside a server", ["serve", str(store.path), f"--port={PORTS.free()}"], status=7)
        others("another server of the folder", server, [])
