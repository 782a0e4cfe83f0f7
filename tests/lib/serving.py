"""Servers of the program, and connections to them byte by byte: shared by the tests of `serve`.

A server is started at a free port of 127.0.0.1, and is waited for without a connection, which would count as one that
it serves. Replies are compared with those of connections.py, to the byte.
"""

import atexit
import os
import select
import signal
import socket
import subprocess
import threading
import time

import harness
import reference
from door import heard
from connections import OCTETS, Connection, Reply, entry, json_text
from harness import Difference, compare, compare_ending
from inputs import KEYRING
from reference import ref_of
from stores import Store
from writing import pack

HOST = "127.0.0.1"
SECONDS_TO_START = 30
# A port is free when it is looked up, and may be taken by another program before the server takes it.
TRIES = 3
# What a server does at once takes less than this, even if a disk stops for some seconds.
SOON = 30
# docs/commands.md, "Exit statuses"
TAKEN = 14
# docs/server.md, "Connections": after so many seconds a connection is ended whose first head hasn't come, and one on
# which nothing came or nothing was read.
FIRST_HEAD, IDLE = 10, 60
# docs/store.md, "One writer"
SECONDS_OF_WAITING = 10
PIECE = 65_536
# So many bytes before the first that differs are shown.
SHOWN_BEFORE = 60


# Ports

class Ports:
    """Free ports, none of them given twice."""

    def __init__(self):
        self.given = set()
        self.lock = threading.Lock()

    def free(self):
        with self.lock:
            while True:
                with socket.socket() as one:
                    one.bind((HOST, 0))
                    port = one.getsockname()[1]
                if port not in self.given:
                    self.given.add(port)
                    return port


PORTS = Ports()


def is_listened_to(port):
    """Whether some program listens at a port of 127.0.0.1, by the system's table, which begins with the listeners."""
    with open("/proc/net/tcp") as table:
        return f" 0100007F:{port:04X} 00000000:0000 0A " in table.read(PIECE)


# Servers

# Those that were started; a check that fails may leave one.
STARTED = []


@atexit.register
def kill_all():
    for process in STARTED:
        if process.poll() is None:
            kill_with_children(process)


def kill_with_children(process):
    """Kills a server. Killing only a tracer in front of it would leave it running."""
    for child in children_of(process.pid):
        os.kill(child, signal.SIGKILL)
    process.kill()


class Server:
    """A server over a folder."""

    COMMAND = "serve"

    def __init__(self, program, folder, *words, front=()):
        self.program, self.folder = program, folder
        for attempt in range(TRIES):
            self.port = PORTS.free()
            self.process = self.start(words, front)
            if self.comes() or attempt == TRIES - 1:
                break

    def start(self, words, front):
        line = [self.COMMAND, str(self.folder), "--port", str(self.port), *words]
        process = self.program.start(line, front=front, stdin=subprocess.DEVNULL, stdout=subprocess.PIPE)
        STARTED.append(process)
        return process

    def comes(self):
        """Waits until the server listens; returns whether it does. It may not, if its port was taken."""
        until = time.monotonic() + SECONDS_TO_START
        while not is_listened_to(self.port):
            if self.process.poll() == TAKEN:
                self.process.communicate()
                return False
            if self.process.poll() is not None or time.monotonic() > until:
                self.process.kill()
                _, err = self.process.communicate()
                raise Difference(f"the server at {self.port} doesn't listen: status {self.process.returncode}, {err}")
            time.sleep(0.002)
        return True

    def __enter__(self):
        return self

    def __exit__(self, *_):
        self.kill()

    def kill(self):
        """Kills the server, if it wasn't waited for. It has to have run until then, and to have written nothing."""
        if self.process.returncode is None:
            kill_with_children(self.process)
            out, err = self.process.communicate()
            compare("a server", "what it wrote", (b"", b""), (out, err))
            compare("a server", "how it ended", -signal.SIGKILL, self.process.returncode)

    def ends(self, what, seconds=harness.SECONDS, status=0):
        """Waits until the server ends by itself."""
        out, err = harness.finish(what, self.process, seconds=seconds)
        compare_ending(what, status, self.process.returncode, err)
        compare(what, "standard output", b"", out)


class ShareServer(Server):
    """A server of the shares of a folder's store."""

    COMMAND = "serve-shares"


def children_of(process):
    try:
        with open(f"/proc/{process}/task/{process}/children") as file:
            return list(map(int, file.read().split()))
    except FileNotFoundError:
        return []


# Connections

def connect(port, seconds=harness.SECONDS):
    wire = socket.create_connection((HOST, port), seconds)
    wire.setsockopt(socket.IPPROTO_TCP, socket.TCP_NODELAY, 1)
    return wire


class Exchange:
    """Sends pieces of a stream on a connection of its own, ends its sending, and reads to the end."""

    def __init__(self, port, pieces, pause=0):
        self.pieces, self.pause = [piece for piece in pieces if piece], pause
        self.got, self.was_reset, self.is_over = [], False, False
        with connect(port) as self.wire:
            self.wire.setblocking(False)
            if not self.pieces:
                self.say_end()
            until = time.monotonic() + harness.SECONDS
            while not self.is_over:
                if time.monotonic() > until:
                    raise Difference(f"no end of a connection after {harness.SECONDS} seconds; {self.bytes()!r} came")
                self.step()

    def bytes(self):
        return b"".join(self.got)

    def step(self):
        """Reads what has come, or else sends what can be sent."""
        readable, writable, _ = select.select([self.wire], [self.wire] if self.pieces else [], [], 1)
        if readable:
            self.read()
        elif writable:
            self.send()

    def read(self):
        try:
            self.got.append(self.wire.recv(PIECE))
        except ConnectionResetError:
            self.was_reset = True
        self.is_over = self.was_reset or self.got[-1] == b""

    def send(self):
        try:
            sent = self.wire.send(self.pieces[0])
        except (BrokenPipeError, ConnectionResetError):
            # The server accepts no more: its replies can still be read.
            self.pieces, self.was_reset = [], True
            return
        self.pieces[0] = self.pieces[0][sent:]
        if not self.pieces[0]:
            self.pieces.pop(0)
            time.sleep(self.pause)
        if not self.pieces:
            self.say_end()

    def say_end(self):
        try:
            self.wire.shutdown(socket.SHUT_WR)
        except OSError:
            self.was_reset = True


class Ended(Difference):
    """A connection ends before a whole reply has come."""


class Talk:
    """A connection on which a request is sent after the reply to the one before has come."""

    def __init__(self, port):
        self.wire = connect(port)
        self.come = b""

    def __enter__(self):
        return self

    def __exit__(self, *_):
        self.close()

    def close(self):
        self.wire.close()

    def send(self, octets):
        self.wire.sendall(octets)

    def ask(self, what, request, reply):
        """Sends a request, which has to get this reply."""
        self.send(request)
        compare_texts(what, reply.text(), self.read_text(what))

    def answer(self, what, request, kind):
        """Sends a request; returns the code and the body of the reply, which has to be written as one."""
        self.send(request)
        text = self.read_text(what)
        code, body = int(text[9:12]), text.partition(b"\r\n\r\n")[2]
        compare_texts(what, Reply(code, body, kind).text(), text)
        return code, body

    def read_text(self, what):
        """The text of the next reply, which has to come whole."""
        while b"\r\n\r\n" not in self.come:
            self.read(what)
        head = self.come.partition(b"\r\n\r\n")[0]
        lengths = [int(line[16:]) for line in head.split(b"\r\n") if line.startswith(b"Content-Length: ")]
        compare(what, f"lengths in the head {head}", 1, len(lengths))
        length = len(head) + 4 + lengths[0]
        while len(self.come) < length:
            self.read(what)
        text, self.come = self.come[:length], self.come[length:]
        return text

    def read(self, what):
        try:
            piece = self.wire.recv(PIECE)
        except TimeoutError:
            raise Difference(f"{what}: no whole reply within {self.wire.gettimeout():g} seconds") from None
        if not piece:
            raise Ended(f"{what}: the connection ends after {self.come!r}")
        self.come += piece

    def is_at_end(self, what):
        """Nothing comes any more, and the connection ends."""
        try:
            compare(what, "what comes behind", b"", self.come + self.wire.recv(PIECE))
        except TimeoutError:
            raise Difference(f"{what}: no end within {self.wire.gettimeout():g} seconds") from None


def compare_texts(what, expected, got):
    """Compares from the first byte that differs."""
    if expected != got:
        pairs = enumerate(zip(expected, got))
        same = next((place for place, (one, other) in pairs if one != other), min(len(expected), len(got)))
        place = max(0, same - SHOWN_BEFORE)
        compare(what, f"the replies from byte {place} on", expected[place:], got[place:])


# Stores and replies

def store_of(program, *blobs):
    """A store of one pack."""
    return Store(program, {0: pack(*blobs)}, {"keyring": KEYRING})


def blob_reply(blob):
    return Reply(200, blob, OCTETS)


def stored(*blobs, name_of=ref_of):
    """The reply to an upload of blobs."""
    return Reply(200, json_text({"received": [entry(name_of(blob), len(blob)) for blob in blobs]}))


ABC_REPLY = blob_reply(b"abc")


# Servers whose replies are known before

class Foretold:
    """A server over a store, and the content of the store by the replies, so that each reply is known before."""

    def __init__(self, store, keys, *words):
        self.store, self.keys = store, keys
        self.blobs = store.blobs()
        self.records = records_of(store.packs)
        self.server = Server(store.program, store.path, *words)
        self.port = self.server.port

    def replies(self, stream):
        """The replies that a stream has to get. They count as sent."""
        return self.follow(stream)[1]

    def follow(self, stream):
        connection = Connection(heard(stream), self.blobs, self.keys)
        replies = connection.replies()
        self.blobs = connection.blobs
        return connection, replies

    def text(self, stream):
        return b"".join(reply.text() for reply in self.replies(stream))

    def answers(self, what, stream, pieces=None, pause=0):
        """Sends a stream whole, or in pieces, and compares every byte of the replies; returns these."""
        connection, replies = self.follow(stream)
        told = b"".join(reply.text() for reply in replies)
        done = Exchange(self.port, [stream] if pieces is None else pieces, pause)
        compare_texts(what, told, done.bytes())
        # A connection may break if the server doesn't read it to its end, and otherwise it mustn't.
        is_read = heard(stream) == stream and (not (replies and replies[-1].closes) or connection.at == len(stream))
        compare(what, "whether the connection broke", False, done.was_reset and is_read)
        return told

    def ends(self, what):
        """Kills the server; the packs have to be clean, and to have exactly the expected blobs."""
        self.server.kill()
        self.store.packs = reference.packs_of(self.store.files())
        broken = [place for _, place in map(reference.salvage, self.store.packs.values()) if place is not None]
        compare(what, "broken places", [], broken)
        added = [ref for ref in self.blobs if ref not in self.records]
        compare(what, "the refs in the packs", sorted([*self.records, *added]), sorted(records_of(self.store.packs)))


def records_of(packs):
    """The refs of all records of packs, repeated ones too."""
    return [one.ref for pack in packs.values() for one in reference.salvage(pack)[0]]
