"""Makes each system call of `serve-shares` fail in turn; see faults.sh.

Two connections are served, each with a request for a blob that is shared. Whatever fails, each gets the usual reply, or
the reply that the disk failed, or none. The command ends with the status of the failure, or with 0, and then it has
served both.
"""

import collections
import contextlib
import subprocess
import time

from command_rows import DISK, DONE, KEYRING, OTHERS, READ
from connections import OCTETS, Reply, json_text
from faults import faults_of, own_calls
from harness import SECONDS, Difference, check, compare, compare_ending, finish
from inputs import DATE, KEY
from reference import ref_of
from serving import PORTS, SECONDS_TO_START, Exchange, is_listened_to, kill_with_children
from stores import Store, look
from tracing import TRACED, calls_in
from writing import claim_head, pack, signed

LISTENER = 14
# The calls on sockets, and how they fail.
FAILS = {"socket": "EMFILE", "bind": "EADDRINUSE", "listen": "EADDRINUSE", "accept4": "EIO", "setsockopt": "ENOBUFS"}
FAILS |= {"recvfrom": "ECONNRESET", "sendto": "ECONNRESET", "shutdown": "ENOTCONN", "getsockopt": "ENOBUFS"}
OF_A_CONNECTION = ("recvfrom", "sendto", "shutdown", "setsockopt", "getsockopt")
SHARE = signed(f'{claim_head(DATE)},"claimType":"share","authType":"haveref","target":"{ref_of(b"abc")}"')
PATHS = [(f"/share/{ref_of(SHARE)}", SHARE), (f"/share/{ref_of(b'abc')}?via={ref_of(SHARE)}", b"abc")]
MOMENT = 0.3
FAILED = Reply(503, json_text({"error": "disk"})).text()


class ShareRow:
    """The command over a store, and the results of its runs."""

    what = "serve-shares"

    def __init__(self, program):
        self.program = program
        self.calls, self.endings = 0, collections.Counter()

    def fails_in_turn(self):
        store = self.new_store()
        made = self.serves(self.what, store, (), (DONE,))
        for call in own_calls(made, store.path):
            faults = self.faults_on(call)
            self.calls += bool(faults)
            for fault in faults:
                self.fails(call, fault)

    def new_store(self):
        return Store(self.program, {0: pack(KEY, SHARE, b"abc")}, OTHERS)

    def faults_on(self, call):
        error = FAILS.get(call.name)
        return [(f"{call.name}:error={error}:when={call.number}",)] if error else faults_of(call)

    def fails(self, call, fault):
        what, store = f"{self.what}, {fault[0]} ({call.path or 'no path'})", self.new_store()
        made = self.serves(what, store, fault, statuses_for(call))
        check(f"{what}: no call failed", any(one.is_injected() for one in made))
        self.serves(f"{what}, and then none", store, (), (DONE,))

    def serves(self, what, store, fault, statuses):
        """Runs the command, which may end with these statuses, the likely one first; returns its calls."""
        before, log, port = look(store.path), self.program.new_path(), PORTS.free()
        words = ["serve-shares", str(store.path), f"--port={port}", f"--connections={len(PATHS)}"]
        names = ",".join("?" + name for name in (*TRACED, *FAILS))
        front = ["strace", "-f", "-y", "-s", "0", "-o", str(log), "-e", f"trace={names}"]
        front += [word for one in fault for word in ("-e", f"inject={one}")]
        process = self.program.start(words, None, front, stdin=subprocess.DEVNULL, stdout=subprocess.PIPE)
        wait_for(port, process)
        replies = [asked(port, path) for path, _ in PATHS]
        ends(what, port, process)
        out, err = finish(what, process)
        status = process.returncode
        compare_ending(what, status if status in statuses else statuses[0], status, err)
        compare(what, "standard output", b"", out)
        compare(what, "the folder", before, look(store.path))
        for (path, blob), got in zip(PATHS, replies):
            due = Reply(200, blob, OCTETS).text()
            if not fault or got not in (b"", FAILED):
                compare(f"{what}, {path}", "the reply", due, got)
        if fault:
            self.endings[status] += 1
        return calls_in(log.read_text(errors="replace"))


def statuses_for(call):
    """How a run may end if a call fails: the likely status, and 0 if the call isn't needed."""
    if call.name in FAILS and call.name not in OF_A_CONNECTION:
        return (LISTENER, DONE)
    if call.name in FAILS or "socket:" in call.path or "TCP:" in call.path:
        return (DONE, LISTENER)
    return (READ, DONE) if call.path.endswith("/keyring") else (DISK, DONE)


def wait_for(port, process):
    until = time.monotonic() + SECONDS_TO_START
    while not is_listened_to(port) and process.poll() is None:
        check("serve-shares doesn't listen", time.monotonic() < until)
        time.sleep(0.002)


def ends(what, port, process):
    """Sends requests until the command has ended: a connection that breaks as it is accepted doesn't count as one that
    it serves."""
    until = time.monotonic() + SECONDS
    while process.poll() is None:
        if time.monotonic() > until:
            kill_with_children(process)
            raise Difference(f"{what}: no end after {SECONDS} seconds")
        with contextlib.suppress(subprocess.TimeoutExpired):
            process.wait(MOMENT)
            return
        asked(port, PATHS[0][0])


def asked(port, path):
    """The bytes that a connection gets which requests a path."""
    try:
        return Exchange(port, [f"GET {path} HTTP/1.1\r\n\r\n".encode()]).bytes()
    except ConnectionError:
        return b""
