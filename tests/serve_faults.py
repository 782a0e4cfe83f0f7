"""Calls to the system that fail in a server that serves four clients, by strace: in each run the k-th call of a name
that each of its threads makes, for each k up to where none makes so many.

A request gets its usual reply, or 503 for a failed disk, or its connection ends. Once nothing fails any more all
workers answer at once, new blobs are stored, and all acknowledged blobs are found.
"""

import contextlib
import os
import select
import subprocess
import threading
import time

from connections import Reply, entry, json_text
from harness import Difference, check, compare
from http_inputs import blob_target, get, stat, upload
from reference import arrivals, packs_of, ref_of
from serving import SOON, TAKEN, Ended, Server, Talk, blob_reply, store_of, stored
from tracing import need_strace

CLIENTS = WORKERS = 4
WORDS = (f"--workers={WORKERS}", "--indexers=1")
# So often each client connects, uploads a blob and reads it.
ROUNDS = 4
# For the name of each call the errors with which it fails.
FAILS = {
    "recvfrom": ("ECONNRESET", "EINTR"),
    "sendto": ("ECONNRESET", "EINTR"),
    "shutdown": ("ENOTCONN",),
    "setsockopt": ("ENOBUFS",),
    "accept4": ("ECONNABORTED", "EINTR", "EMFILE", "ENOMEM"),
    "pread64": ("EIO", "EINTR"),
    "openat": ("EIO",),
    "statx": ("EIO",),
    "write": ("EIO", "ENOSPC", "EINTR"),
    "fsync": ("EIO",),
}
# The calls that take back what couldn't be synced: these fail together with a sync.
WITH_A_SYNC = ("ftruncate", "unlink,unlinkat")
SYNC = "fsync:error=EIO:when=%d"
MOST = 60
# The server is idle once no call is made for so many seconds.
STILL = 0.05


def under_clients(program):
    need_strace(program)
    faults = [f"{name}:error={error}:when=%d" for name, errors in FAILS.items() for error in errors]
    checks = [lambda fault=fault: fails_in_turn(program, fault) for fault in faults]
    checks += [lambda names=names: fails_in_turn(program, SYNC, f"{names}:error=EIO") for names in WITH_A_SYNC]
    checks += [lambda number=number: accept_fails(program, number) for number in range(1, ACCEPTS)]
    return checks + [lambda check=check: check(program) for check in (one_listener_fails, all_listeners_fail)]


def fails_in_turn(program, fault, *others):
    """The k-th call fails, for each k, and others always."""
    for number in range(1, MOST):
        if not Session(program, [fault % number, *others]).runs():
            return
    raise Difference(f"{fault}: more than {MOST} calls of a thread")


class Tracer:
    """A strace that makes a server's calls fail, from its beginning to its end: those of all threads, or of one."""

    def __init__(self, program, process, faults, thread=None):
        self.log = program.new_path()
        names = ",".join(sorted({fault.partition(":")[0] for fault in faults}))
        whom = ["-f", "-p", str(process)] if thread is None else ["-p", str(thread)]
        injected = [word for fault in faults for word in ("-e", f"inject={fault}")]
        command = ["strace", *whom, "-o", str(self.log), "-e", f"trace={names}", *injected]
        self.process = subprocess.Popen(command, stdin=subprocess.DEVNULL, stderr=subprocess.PIPE)
        line = self.process.stderr.readline()
        check(f"strace says {line}", b"attached" in line)

    def __enter__(self):
        return self

    def __exit__(self, *_):
        """A call that strace has begun to fail would end otherwise if it left the program now. Therefore it waits for
        the last."""
        size = None
        while size != self.log.stat().st_size:
            size = self.log.stat().st_size
            time.sleep(STILL)
        self.process.terminate()
        self.process.communicate()

    def has_injected(self):
        return "(INJECTED)" in self.log.read_text(errors="replace")


def has_begun(server):
    """Waits until the server answers: it has its port before it has read the store."""
    with Talk(server.port) as talk:
        talk.ask("a server that begins", get(blob_target(ref_of(b"abc"))), blob_reply(b"abc"))


class Session:
    """Four clients of a server, and what was acknowledged to them."""

    def __init__(self, program, faults):
        self.program, self.what, self.faults = program, " and ".join(faults), faults
        self.store = store_of(program, b"abc")
        self.acknowledged, self.sent = {}, {ref_of(b"abc"): b"abc"}
        self.wrong = []

    def runs(self):
        """Returns whether a call failed."""
        with Server(self.program, self.store.path, *WORDS) as server:
            has_begun(server)
            with Tracer(self.program, server.process.pid, self.faults) as tracer:
                self.all_clients(server)
            if self.wrong:
                raise self.wrong[0]
            self.all_answer(server)
        self.packs_are_right()
        return tracer.has_injected()

    def all_clients(self, server):
        clients = [threading.Thread(target=self.client, args=(server, number)) for number in range(CLIENTS)]
        for one in clients:
            one.start()
        for one in clients:
            one.join()

    def client(self, server, number):
        try:
            for place in range(ROUNDS):
                with contextlib.suppress(Ended, ConnectionError):
                    self.one_round(server, b"blob %d of client %d" % (place, number))
        except Exception as wrong:
            self.wrong.append(wrong)

    def one_round(self, server, blob):
        ref = ref_of(blob)
        self.sent[ref] = blob
        failed = Reply(503, json_text({"error": "disk"}))
        not_put = Reply(503, json_text({"received": [], "error": "disk"}), closes=True)
        absent = Reply(404, json_text({"error": "absent", "blobRef": ref}))
        with Talk(server.port) as talk:
            self.answers(talk, get(blob_target(ref_of(b"abc"))), blob_reply(b"abc"), failed)
            if self.answers(talk, upload(blob), stored(blob), not_put):
                self.acknowledged[ref] = blob
            there = () if ref in self.acknowledged else (absent,)
            self.answers(talk, get(blob_target(ref)), blob_reply(blob), failed, *there)
            size = Reply(200, json_text({"stat": [entry(ref, len(blob))]}))
            none = () if ref in self.acknowledged else (Reply(200, json_text({"stat": []})),)
            self.answers(talk, stat(ref), size, *none)

    def answers(self, talk, request, due, *others):
        """Whether a request gets the expected reply; otherwise it has to get another one of these, or none."""
        talk.send(request)
        text = talk.read_text(self.what)
        if text not in [other.text() for other in others]:
            compare(self.what, "the reply", due.text(), text)
        return text == due.text()

    def all_answer(self, server):
        """All workers at once, and each takes a new blob."""
        with contextlib.ExitStack() as stack:
            for number in range(WORKERS):
                talk, blob = stack.enter_context(Talk(server.port)), b"new %d" % number
                talk.ask(f"{self.what}, worker {number}", upload(blob), stored(blob))
                self.acknowledged[ref_of(blob)] = self.sent[ref_of(blob)] = blob
            for ref, blob in self.acknowledged.items():
                talk.ask(f"{self.what}, what was acknowledged", get(blob_target(ref)), blob_reply(blob))

    def packs_are_right(self):
        blobs = arrivals(packs_of(self.store.files()))
        lost = {ref for ref, blob in self.acknowledged.items() if blobs.get(ref) != blob}
        compare(self.what, "what was lost", set(), lost)
        compare(self.what, "what nobody sent", set(), blobs.keys() - self.sent.keys())


# Listeners

# The accepts of a worker that fail have numbers below this one.
ACCEPTS = 6
# By the system's table of calls for x86-64.
ACCEPT4 = "288"


def accept_fails(program, number):
    """One of two workers has a connection that stays open; an accept of the other one fails. What that one accepted
    before is served, and it ends; later connections are served by the first, once that is free."""
    what = f"accept {number} of a worker fails"
    store = store_of(program, b"abc")
    with Server(program, store.path, "--workers=2", "--indexers=1") as server:
        has_begun(server)
        blobs = [b"blob %d" % place for place in range(number)]
        with Talk(server.port) as held:
            held.ask(what, get(blob_target(ref_of(b"abc"))), blob_reply(b"abc"))
            other, first = at_an_accept(server), Talk(server.port)
            first.ask(what, get(blob_target(ref_of(b"abc"))), blob_reply(b"abc"))
            with Tracer(program, server.process.pid, [f"accept4:error=EIO:when={number}"], other) as tracer:
                first.close()
                for blob in blobs[1:]:
                    with Talk(server.port) as talk:
                        talk.ask(what, upload(blob), stored(blob))
                wait_until(what, tracer.has_injected)
            late = Talk(server.port)
            late.send(upload(blobs[0]))
            held.ask(what, get(blob_target(ref_of(b"abc"))), blob_reply(b"abc"))
            check(f"{what}: another worker serves", not select.select([late.wire], [], [], STILL)[0])
        with late:
            compare(what, "the reply that comes late", stored(blobs[0]).text(), late.read_text(what))
            for blob in blobs:
                late.ask(what, get(blob_target(ref_of(blob))), blob_reply(blob))


def at_an_accept(server):
    """The one thread of a server that is at an accept, once there is one."""
    def there():
        return [thread for thread in threads_of(server) if call_of(server, thread) == ACCEPT4]

    wait_until("one thread is at an accept", lambda: len(there()) == 1)
    return there()[0]


def wait_until(what, comes):
    until = time.monotonic() + SOON
    while not comes():
        check(f"{what}: it doesn't come", time.monotonic() < until)
        time.sleep(0.001)


def call_of(server, thread):
    """The number of the call that a thread is in."""
    with open(f"/proc/{server.process.pid}/task/{thread}/syscall") as file:
        return file.read().split()[0]


def one_listener_fails(program):
    """A worker that can't accept ends, and the others continue."""
    store = store_of(program, b"abc")
    with Server(program, store.path, *WORDS) as server:
        has_begun(server)
        ended = next((thread for thread in threads_of(server) if fails_to_accept(program, server, thread)), None)
        check("no thread is at an accept", ended)
        with contextlib.ExitStack() as stack:
            for number in range(WORKERS - 1):
                talk = stack.enter_context(Talk(server.port))
                talk.ask(f"worker {number} of those that go on", get(blob_target(ref_of(b"abc"))), blob_reply(b"abc"))


def threads_of(server):
    return sorted(map(int, os.listdir(f"/proc/{server.process.pid}/task")))


def fails_to_accept(program, server, thread):
    """Whether a thread that is in an accept ends when that fails."""
    with Tracer(program, server.process.pid, ["accept4:error=EIO"], thread) as tracer:
        time.sleep(0.3)
    return tracer.has_injected()


def all_listeners_fail(program):
    """Once none of the workers can accept the server ends."""
    store = store_of(program, b"abc")
    with Server(program, store.path, *WORDS) as server:
        has_begun(server)
        with Tracer(program, server.process.pid, ["accept4:error=EIO"]):
            server.ends("all listeners fail", status=TAKEN)
