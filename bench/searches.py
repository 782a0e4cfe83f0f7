"""Times searches of a server by one client and by several, and waits beside a query that takes long; prints tables.

    searches.py PROGRAM HTTP_LOAD FOLDER

The store is the ring of tests/serve_long.py. Its searches settle nothing, except those beside uploads. Each pace is the
best of three; a wait is the longest of all that were measured.
"""

import os
import pathlib
import shutil
import subprocess
import sys
import threading
import time

from compare import MIB
# Before the tests' modules: these imports put the tests' folder first in the search path.
from serve import Bench, Served, best, heading, row
from store import peak

import writing
from http_inputs import blob_target, get, upload
from inputs import KEYRING
from query_inputs import spell
from reference import date_text, ref_of
from serve_long import PARTS, asked, has_member, long_query, ring, tagged
from serving import Talk

SEARCHES = 200
# A query of so many times the parts of the test takes about ten seconds.
LENGTH = 4
SECONDS_OF_A_KIND = 2
# So many permanodes, each with a value, and so many of another store whose peak is subtracted.
FACTS, FEW = 50_000, 1


class Ring(Served):
    """A server over the ring, with a keyring, and perhaps on some of the processors only."""

    def __init__(self, bench, blobs, *words, processors=None):
        self.front = ["taskset", "-c", processors] if processors else []
        super().__init__(bench, blobs, *words)

    def start(self, words, front):
        (pathlib.Path(self.folder) / "keyring").write_bytes(KEYRING)
        return super().start(words, self.front)


def blobs_of_ring():
    nodes, claims = ring()
    return nodes, [writing.key_blob(), *nodes, *claims]


def ask(talk, request):
    """Sends a request, and returns how long its reply took."""
    began = time.monotonic()
    talk.send(request)
    text = talk.read_text("a request")
    if not text.startswith(b"HTTP/1.1 200 "):
        sys.exit(f"a reply of {text[:60]}")
    return time.monotonic() - began


# Paces

def paces(bench, blobs):
    """Searches per second by so many clients, and their ratio to the processors times one client's."""
    search = asked(has_member("sha224-x"))
    for what, processors, count in (("all processors", None, os.cpu_count()), ("two processors", "0,1", 2)):
        heading(f"searches, {what}", "a second", "to one client", "to the processors", "ms of each")
        first = None
        with Ring(bench, blobs, processors=processors) as server, Talk(server.port) as talk:
            ask(talk, search)
            for clients in (1, 2, 4, 8):
                (own,) = best(lambda: bench.load(server, [search] * SEARCHES, clients))
                first = first or own
                gain = first.wall / own.wall
                part = gain / min(clients, count)
                row(f"{clients} clients", f"{SEARCHES / own.wall:,.0f}", f"{gain:.2f}", f"{part:.2f}", f"{own.processor / SEARCHES * 1_000:.2f}")


# Waits

def kinds(nodes):
    """Requests of each kind, by the number of the request."""
    date = date_text(writing.FIRST_MOMENT)
    return {
        "a search that settles nothing": lambda number: tagged(0),
        "a GET": lambda number: get(blob_target(ref_of(nodes[number % len(nodes)]))),
        "an upload": lambda number: upload(writing.claim("set", ref_of(nodes[0]), "other", f"value {number}", date)),
    }


def waits(bench, nodes, blobs):
    """The longest waits beside a query that takes long, and with nothing beside."""
    for what, processors in (("all processors", None), ("two processors", "0,1")):
        heading(f"waits, {what}", "longest ms", "of", "beside nothing", "of")
        for kind, request in kinds(nodes).items():
            beside = longest(bench, blobs, processors, request, long_request(nodes))
            alone = longest(bench, blobs, processors, request, None)
            row(kind, *(column for seconds, count in (beside, alone) for column in (f"{seconds * 1_000:.1f}", f"{count:,}")))


def long_request(nodes):
    return asked(long_query(ref_of(nodes[0]), LENGTH * PARTS))


def longest(bench, blobs, processors, request, beside):
    """The longest wait of requests made one by one for some seconds, and how many there were."""
    with Ring(bench, blobs, processors=processors) as server, Talk(server.port) as one, Talk(server.port) as other:
        ask(other, tagged(0))
        if beside is not None:
            one.send(beside)
            time.sleep(0.5)
        waited, began = [], time.monotonic()
        while time.monotonic() < began + SECONDS_OF_A_KIND:
            waited.append(ask(other, request(len(waited))))
        if beside is not None:
            one.wire.setblocking(False)
            try:
                one.wire.recv(1)
                print("the long query was over before", file=sys.stderr)
            except BlockingIOError:
                pass
    return max(waited), len(waited)


def beside_uploads(bench, nodes, blobs):
    """Searches, each of which settles what was uploaded before it, beside uploads one by one."""
    heading("searches beside uploads", "longest ms", "median ms", "searches", "uploads")
    upload_of = kinds(nodes)["an upload"]
    with Ring(bench, blobs) as server:
        is_over, uploads = threading.Event(), []

        def upload_all():
            with Talk(server.port) as talk:
                while not is_over.is_set():
                    uploads.append(ask(talk, upload_of(len(uploads))))

        with Talk(server.port) as talk:
            ask(talk, tagged(0))
            thread = threading.Thread(target=upload_all)
            thread.start()
            waited, began = [], time.monotonic()
            while time.monotonic() < began + SECONDS_OF_A_KIND:
                waited.append(ask(talk, tagged(0)))
            is_over.set()
            thread.join()
    ordered = sorted(waited)
    row("small ones", f"{ordered[-1] * 1_000:.1f}", f"{ordered[len(ordered) // 2] * 1_000:.2f}", len(waited), len(uploads))


# Memory

def memory(bench):
    """The memory of the index of a server, which has two copies, and of a command, which has one."""
    heading("memory of the index", "MiB of a server", "MiB of a command", "part")
    grown = []
    for peak_over in (peak_of_server, peak_of_command):
        many, few = (peak_over(bench, facts(count)) - peak_over_listing(bench, facts(count)) for count in (FACTS, FEW))
        grown.append(many - few)
    row(f"{2 * FACTS:,} facts", *(f"{size / MIB:.1f}" for size in grown), f"{grown[0] / grown[1]:.2f}")


def facts(count):
    nodes = [writing.permanode(f"{number:032x}") for number in range(count)]
    date = date_text(writing.FIRST_MOMENT)
    return [writing.key_blob(), *nodes, *(writing.claim("set", ref_of(node), "tag", "value", date) for node in nodes)]


def peak_of_server(bench, blobs):
    with Ring(bench, blobs, "--workers=1", "--indexers=1") as server, Talk(server.port) as talk:
        ask(talk, tagged(0))
        lines = pathlib.Path(f"/proc/{server.process.pid}/status").read_text().splitlines()
        return next(int(line.split()[1]) * 1_024 for line in lines if line.startswith("VmHWM:"))


def with_store(bench, blobs, job):
    with Ring(bench, blobs) as server:
        copy = bench.program.new_path()
        shutil.copytree(server.folder, copy)
    try:
        return job(copy)
    finally:
        shutil.rmtree(copy)


def peak_of_command(bench, blobs):
    query = spell({"constraint": {"permanode": {"attr": "tag", "value": "none"}}}).encode()
    return with_store(bench, blobs, lambda store: peak([bench.program.path, "query", str(store)], query))


def peak_over_listing(bench, blobs):
    return with_store(bench, blobs, lambda store: peak([bench.program.path, "list", str(store), "--limit=1"]))


def main(program, http_load, folder):
    bench = Bench(program, http_load, None, None, folder)
    nodes, blobs = blobs_of_ring()
    paces(bench, blobs)
    waits(bench, nodes, blobs)
    beside_uploads(bench, nodes, blobs)
    memory(bench)


if __name__ == "__main__":
    main(*sys.argv[1:])
