"""Servers of the program (docs/commands.md, "serve"; docs/server.md): which lines start one, what else ends it at once,
who can reach it, when it ends, and what goes wrong at it.

Who gets in is in serve_door.py, clients that stay in serve_stays.py, streams in serve_streams.py, clients in turn in
serve_sessions.py, other programs as clients in serve_clients.py, eight clients at once in serve_load.py, many values on
one permanode in serve_values.py, a query that takes long in serve_long.py, kills in serve_kills.py, full disks and
folders that are removed in serve_disk.py, and calls to the system in serve_calls.py.
"""

import contextlib
import os
import re
import socket
import subprocess
import time

import harness
import inputs
import reference
import serve_calls
import serve_clients
import serve_disk
import serve_door
import serve_kills
import serve_load
import serve_long
import serve_sessions
import serve_stays
import serve_streams
import serve_values
from connections import UPLOAD, Reply, entry, json_text
from harness import check, compare, compare_ending, without
from http_inputs import ABC, FORM, OLDER_ABC, PROBE, blob_part, blob_target, form, get, post, stat, upload
from reference import older_ref_of, ref_of
from serving import ABC_REPLY, HOST, PORTS, SECONDS_OF_WAITING, SOON, TAKEN, Exchange, Server, Talk
from serving import blob_reply, compare_texts, is_listened_to, store_of, stored
from stores import CLEAN, TORN, Store, look
from writers import Locked
from writing import pack

# Setting it selects it, before any program runs.
UMASK = os.umask(0o77)
os.umask(UMASK)


# Words

def words(program):
    """Invalid lines of `serve` end with status 2, and nothing is made; other lines start a server."""
    return [lambda line=line: no_line(program, line) for line in BAD_LINES] + [
        lambda line=line: serves_line(program, line) for line in GOOD_LINES
    ]


# In lines `D` is the folder and `N` a free port.
BAD_LINES = ["serve", "serve D", "serve --port N", "serve D D --port N", "serve D --port N D", "serve D --port"]
BAD_LINES += ["serve D --port N --port N", "serve D --port=N --port=1", "Serve D --port N", "--port N serve D"]
BAD_LINES += ["serve D --port 0", "serve D --port 65536", "serve D --port=", "serve D --port x", "serve D --port -1"]
BAD_LINES += ["serve D --port=-1", "serve D --port=+80", "serve D --port=0x50", "serve D --port=N.0"]
BAD_LINES += ["serve D --port 18446744073709551617", "serve D --port N x", "serve D --port N --at 5"]
BAD_LINES += ["serve D --port N --limit 5", "serve D -p N", "serve D --port N -", "serve D --port N --address=::1"]
BAD_LINES += [f"serve D --port N --workers{value}" for value in (" 0", " 65", "=", "=a", "", " 2 --workers 2")]
BAD_LINES += [f"serve D --port N --indexers{value}" for value in (" 0", " 65", "=", "=a", "", " 2 --indexers 2")]
BAD_LINES += [f"serve D --port N --connections{value}" for value in (" 0", "=", " 18446744073709551616", "=-1")]
BAD_LINES += ["serve D --port N --connections", "serve D --port N --connections x"]
GOOD_LINES = ["serve D --port N --connections 1", "serve --connections=1 --port=N D"]
GOOD_LINES += ["serve --port N --connections 1 -- D"]
GOOD_LINES += ["serve D --port 0000N --connections 01", "serve D --workers 1 --indexers=1 --port N --connections 1"]
GOOD_LINES += ["serve --workers 64 --indexers 064 D --port=N --connections 1"]


def spelled(program, line):
    folder, port = program.new_path(), PORTS.free()
    texts = {"D": str(folder), "N": str(port)}
    words = [re.sub("[DN]", lambda letter: texts[letter[0]], word) for word in line.split(" ")]
    return folder, port, words


def no_line(program, line):
    folder, _, words = spelled(program, line)
    program.check(line, words, status=2)
    compare(line, "the folder", None, look(folder))


def serves_line(program, line):
    folder, port, words = spelled(program, line)
    process = program.start(words, stdin=subprocess.DEVNULL, stdout=subprocess.PIPE)
    try:
        wait_for(line, lambda: is_listened_to(port))
        compare_texts(line, Reply(200, json_text({"stat": []})).text(), Exchange(port, [stat(ABC)]).bytes())
        out, err = harness.finish(line, process)
    finally:
        process.kill()
    compare_ending(line, 0, process.returncode, err)
    compare(line, "standard output", b"", out)
    check(f"{line}: the folder isn't there", folder.is_dir())


def wait_for(what, is_so, seconds=SOON):
    until = time.monotonic() + seconds
    while not is_so():
        check(f"{what}: not within {seconds} seconds", time.monotonic() < until)
        time.sleep(0.002)


# What starts and what ends a server

def starts(program):
    """Ports that are taken, folders that can't be served, and how many connections a server serves."""
    checks = (three_connections, three_at_once, a_held_connection, one_worker, taken_ports, this_address_alone)
    checks += (makes_its_folder, goes_on_behind_a_torn_pack, no_folder, keyrings, readers_beside, closed_streams)
    checks += (waits_for_the_lock, ends_before_it_ends, keeps_older_refs)
    return [lambda check=check: check(program) for check in checks]


def three_connections(program):
    """The server ends after three connections were served, however little they did, and serves no fourth."""
    for words in ([], ["--workers=1", "--indexers=1"], ["--workers=64", "--indexers=64"], ["--workers=2"]):
        with Server(program, store_of(program, b"abc").path, "--connections=3", *words) as server:
            for stream in (PROBE, b"", b"GET"):
                compare("a server with connections left", "its end", None, server.process.poll())
                Exchange(server.port, [stream])
            server.ends(f"three connections, {words}", seconds=SOON)
            compare("a server that has ended", "whether it listens", False, is_listened_to(server.port))


def three_at_once(program):
    with Server(program, store_of(program, b"abc").path, "--connections=3") as server:
        with Talk(server.port) as one, Talk(server.port) as two, Talk(server.port) as three:
            for talk in (three, one, two, one, three):
                talk.ask("one of three", get(blob_target(ABC)), ABC_REPLY)
        server.ends("three connections at once", seconds=SOON)


def a_held_connection(program):
    """The last connection to end ends the server, even if it is the first that came."""
    with Server(program, store_of(program, b"abc").path, "--connections=3") as server:
        with Talk(server.port) as held:
            held.ask("the first", get(blob_target(ABC)), ABC_REPLY)
            for _ in range(2):
                Exchange(server.port, [PROBE])
            time.sleep(0.3)
            compare("a server with a connection left", "its end", None, server.process.poll())
            held.ask("the first, once more", get(blob_target(ABC)), ABC_REPLY)
        server.ends("a connection that was held", seconds=SOON)


def ends_before_it_ends(program):
    """The last connection of each worker is ended as soon as it was served, and not only when the server ends."""
    with Server(program, store_of(program, b"abc").path, "--connections=3") as server:
        with Talk(server.port) as held, Talk(server.port) as one, Talk(server.port) as two:
            held.ask("the one that stays", get(blob_target(ABC)), ABC_REPLY)
            for talk in (one, two):
                talk.wire.settimeout(SOON)
                talk.ask("a connection that closes", get(blob_target(ABC), "Connection: close"), closed(ABC_REPLY))
                talk.is_at_end("a connection that closes")
            held.ask("the one that stays", get(blob_target(ABC)), ABC_REPLY)
        server.ends("a connection that stays", seconds=SOON)


def closed(reply):
    return reply._replace(closes=True)


def one_worker(program):
    """One worker serves one connection at a time; the next one is served when that has ended."""
    with Server(program, store_of(program, b"abc").path, "--connections=2", "--workers=1") as server:
        with Talk(server.port) as first, Talk(server.port) as second:
            first.ask("the first", get(blob_target(ABC)), ABC_REPLY)
            second.send(get(blob_target(ABC)))
            second.wire.settimeout(0.3)
            with contextlib.suppress(TimeoutError):
                compare("the second, while the first is there", "its reply", None, second.wire.recv(1))
            first.close()
            second.wire.settimeout(harness.SECONDS)
            compare_texts("the second", ABC_REPLY.text(), second.read_text("the second"))
        server.ends("one worker", seconds=SOON)


def taken_ports(program):
    """A taken port ends the server at once, whoever has it, and changes neither the folder nor the other program."""
    for address in (HOST, "0.0.0.0"):
        with socket.create_server((address, 0)) as holder:
            is_taken(program, f"a port that a program has at {address}", holder.getsockname()[1])
    with Server(program, store_of(program, b"abc").path) as server:
        is_taken(program, "a port that a server has", server.port)
        got = Exchange(server.port, [get(blob_target(ABC))]).bytes()
        compare_texts("the server that has it", ABC_REPLY.text(), got)


def is_taken(program, what, port):
    store = store_of(program, b"abc")
    start = time.monotonic()
    store.keeps(what, ["serve", str(store.path), f"--port={port}"], status=TAKEN)
    seconds = time.monotonic() - start
    check(f"{what}: it took {seconds:.1f} seconds", seconds < SOON)


def this_address_alone(program):
    """Nobody reaches the server at another address of this machine."""
    with Server(program, store_of(program, b"abc").path) as server:
        for family, address in other_addresses():
            with socket.socket(family) as wire:
                wire.settimeout(SOON)
                check(f"a server answers at {address}", wire.connect_ex((address, server.port)) != 0)


def other_addresses():
    """An address of this machine for each of its names, and others of the loopback."""
    yield socket.AF_INET, "127.0.0.2"
    yield socket.AF_INET6, "::1"
    with contextlib.suppress(OSError):
        for family, _, _, _, address in socket.getaddrinfo(socket.gethostname(), None, type=socket.SOCK_STREAM):
            if address[0] != HOST:
                yield family, address[0]


def makes_its_folder(program):
    """A folder that isn't there is made, as by `put`, and can be written by commands after the server."""
    store = Store(program)
    with Server(program, store.path, "--connections=1") as server:
        with Talk(server.port) as talk:
            talk.ask("an upload", upload(b"abc"), stored(b"abc"))
        server.ends("a folder that wasn't there")
    compare("the folder", "its mode", 0o40700 & ~UMASK, store.path.stat().st_mode)
    store.packs = {0: pack(b"abc")}
    store.check_files("a folder that wasn't there")
    store.put("a put behind it", b"more")


def goes_on_behind_a_torn_pack(program):
    store = Store(program, {0: CLEAN, 3: TORN}, {"keyring": inputs.KEYRING})
    with Server(program, store.path, "--connections=1") as server:
        with Talk(server.port) as talk:
            talk.ask("a blob of a torn pack", get(blob_target(ref_of(b"a blob"))), blob_reply(b"a blob"))
            for blob in (b"one", b"a blob", b"two"):
                talk.ask("an upload", upload(blob), stored(blob))
                store.packs = reference.put(store.packs, blob)
        server.ends("a torn pack")
    store.check_files("a torn pack")


def keeps_older_refs(program):
    """Blobs that are uploaded under refs of older stores are written under them, byte by byte, and read by later
    commands."""
    store = Store(program, {0: pack(b"abc")}, {"keyring": inputs.KEYRING})
    with Server(program, store.path, "--connections=1") as server:
        with Talk(server.port) as talk:
            for blob in (b"abc", b"", b"abc"):
                talk.ask("an older upload", upload(blob, name_of=older_ref_of), stored(blob, name_of=older_ref_of))
                store.packs = reference.put(store.packs, blob, older_ref_of(blob))
        server.ends("older uploads")
    compare("older uploads", "packs", {0: pack(b"abc") + pack(b"abc", b"", name_of=older_ref_of)}, store.packs)
    store.check_files("older uploads")
    store.lists("older uploads")
    store.gets("older uploads", [OLDER_ABC, ABC, older_ref_of(b""), ref_of(b"")])


def no_folder(program):
    """A folder that can't be one fails as the disk's fault, after the port is taken."""
    file = program.new_path()
    file.write_bytes(b"")
    with socket.create_server((HOST, 0)) as holder:
        for folder in (file, file / "below", program.new_path() / "deep"):
            program.check(f"{folder}", ["serve", str(folder), f"--port={PORTS.free()}"], status=7)
            program.check(f"{folder}", ["serve", str(folder), f"--port={holder.getsockname()[1]}"], status=TAKEN)


def waits_for_the_lock(program):
    """A client that connects while the server waits for the lock of its folder is answered once the lock is free."""
    store = store_of(program, b"abc")
    with Locked(store.path):
        server = Server(program, store.path, "--connections=1")
        talk = Talk(server.port)
        talk.send(get(blob_target(ABC)))
        talk.wire.settimeout(1)
        with contextlib.suppress(TimeoutError):
            compare("a server that waits for a lock", "its reply", None, talk.wire.recv(1))
    with server, talk:
        talk.wire.settimeout(SOON)
        compare_texts("a server that has waited", ABC_REPLY.text(), talk.read_text("a server that has waited"))


def keyrings(program):
    """An invalid keyring is bad input, and one that can't be read a failed read, whatever else is wrong."""
    with socket.create_server((HOST, 0)) as holder:
        for keyring, status in ((b"jefe", 4), (inputs.KEYRING * 2, 4), (None, 5)):
            store = Store(program, {0: pack(b"abc")}, {"keyring": keyring} if keyring else {})
            if keyring is None:
                (store.path / "keyring").mkdir()
            for port in (PORTS.free(), holder.getsockname()[1]):
                store.keeps(f"the keyring {keyring}", ["serve", str(store.path), f"--port={port}"], status=status)


def readers_beside(program):
    """Commands that only read don't wait for a server, and find what it has acknowledged."""
    store = store_of(program, *inputs.EXAMPLE_BLOBS)
    with Server(program, store.path) as server, Talk(server.port) as talk:
        talk.ask("an upload", upload(b"abc"), stored(b"abc"))
        store.packs = reference.put(store.packs, b"abc")
        start = time.monotonic()
        store.gets("beside a server", [ABC, ref_of(inputs.NODE), inputs.ABSENT])
        store.lists("beside a server")
        found = reference.search_text(inputs.FOUND) + b"\n"
        store.reads("a search beside a server", "search", "--attr=tag", "--value=a", out=found)
        seconds = time.monotonic() - start
        check(f"commands beside a server took {seconds:.1f} seconds", seconds < 3 * SECONDS_OF_WAITING)


def closed_streams(program):
    """A server that was started with a standard stream closed writes nothing but records to its packs."""
    for stream in (0, 1, 2):
        store = store_of(program, b"abc")
        with Server(program, store.path, "--connections=2", front=without(stream)) as server:
            for blob in (b"one", b"two"):
                Exchange(server.port, [upload(blob) + b"GET  / HTTP/1.1\r\n\r\n"])
                store.packs = reference.put(store.packs, blob)
            server.ends(f"the stream {stream} is closed", seconds=SOON)
        store.check_files(f"the stream {stream} is closed")


# What goes wrong at the server

def wrong(program):
    """A store that is full, and bytes that change while a server runs: other requests are still served."""
    checks = (full, damaged, older_damaged, cut_short)
    return [lambda check=check: check(program) for check in checks]


def full(program):
    """A torn pack of the last number: no other can follow it."""
    store = Store(program, {reference.LAST_PACK: TORN}, {"keyring": inputs.KEYRING})
    with Server(program, store.path, "--connections=3") as server:
        for parts in ([blob_part(b"new")], [blob_part(b"a blob"), blob_part(b"new"), blob_part(b"newer")]):
            received = [entry(ref_of(b"a blob"), 6)] * (len(parts) > 1)
            told = json_text({"received": received, "error": "full", "blobs": 1, "pack": reference.LAST_PACK})
            got = Exchange(server.port, [post(UPLOAD, form(*parts), FORM) + PROBE]).bytes()
            compare_texts("a full store", Reply(507, told, closes=True).text(), got)
        with Talk(server.port) as talk:
            talk.ask("a full store", get(blob_target(ref_of(b"a blob"))), blob_reply(b"a blob"))
            talk.ask("what stands in a full store", upload(b"a blob"), stored(b"a blob"))
        server.ends("a full store")
    store.check_files("a full store")


def damaged(program):
    """A byte of a blob is changed in its pack: the reply has both refs, and the connection stays open."""
    store = store_of(program, b"abc", b"def")
    with Server(program, store.path) as server, Talk(server.port) as talk:
        talk.ask("before the damage", get(blob_target(ABC)), ABC_REPLY)
        path = store.path / reference.pack_name(0)
        path.write_bytes(path.read_bytes().replace(b"abc", b"xbc"))
        told = json_text({"error": "damaged", "want": ABC, "is": ref_of(b"xbc")})
        talk.ask("a damaged blob", get(blob_target(ABC)), Reply(500, told))
        talk.ask("behind it", get(blob_target(ref_of(b"def"))), blob_reply(b"def"))
        talk.ask("its stat", stat(ABC), Reply(200, json_text({"stat": [entry(ABC, 3)]})))
        path.write_bytes(path.read_bytes().replace(b"xbc", b"abc"))
        talk.ask("behind its repair", get(blob_target(ABC)), ABC_REPLY)


def older_damaged(program):
    """The same for a blob under its older ref: the reply has refs of that kind, and the bytes under the other one are
    unchanged."""
    store = Store(program, {0: pack(b"abc", name_of=older_ref_of) + pack(b"abc")}, {"keyring": inputs.KEYRING})
    with Server(program, store.path) as server, Talk(server.port) as talk:
        talk.ask("before the damage", get(blob_target(OLDER_ABC)), ABC_REPLY)
        path = store.path / reference.pack_name(0)
        path.write_bytes(path.read_bytes().replace(b"abc", b"xbc", 1))
        told = json_text({"error": "damaged", "want": OLDER_ABC, "is": older_ref_of(b"xbc")})
        talk.ask("a damaged older blob", get(blob_target(OLDER_ABC)), Reply(500, told))
        talk.ask("the other one", get(blob_target(ABC)), ABC_REPLY)


def cut_short(program):
    """A pack that was cut shorter: the rest of the blob has another ref."""
    store = store_of(program, b"def", b"abc")
    with Server(program, store.path) as server, Talk(server.port) as talk:
        talk.ask("before the cut", get(blob_target(ABC)), ABC_REPLY)
        os.truncate(store.path / reference.pack_name(0), len(pack(b"def", b"abc")) - 2)
        told = json_text({"error": "damaged", "want": ABC, "is": ref_of(b"a")})
        talk.ask("a blob that is cut", get(blob_target(ABC)), Reply(500, told))
        talk.ask("a blob before it", get(blob_target(ref_of(b"def"))), blob_reply(b"def"))


GROUPS = [words, starts, wrong, serve_stays.stays, serve_streams.sessions, serve_streams.pipelined]
GROUPS += [serve_streams.random_streams, serve_streams.cut_streams, serve_sessions.random_sessions]
GROUPS += [serve_kills.kills, serve_calls.calls, serve_calls.failing]
GROUPS += [serve_door.sent, serve_door.values, serve_door.random_heads, serve_disk.full, serve_disk.goes]
ONE_AT_A_TIME = [serve_streams.of_inputs(group) for group in serve_streams.INPUTS]
ONE_AT_A_TIME += [serve_door.bodies, serve_clients.curl, serve_clients.requests, serve_clients.wget, serve_clients.http_client]
ONE_AT_A_TIME += [serve_clients.node, serve_load.clients, serve_values.values, serve_long.long]

if __name__ == "__main__":
    harness.main("serve.sh", GROUPS, ONE_AT_A_TIME, beside=[serve_stays.minutes])
