"""Measures the costs of stores, and prints a row for each: seconds of commands, of a server's start and of its answers
then, and memory.

    costs.py PROGRAM FOLDER STORE..

A STORE is a kind, a colon and its GB of files, each of 1,000,000,000 bytes. The kinds are

    large    files of 100 MB
    small    files of 300 to 20,000 bytes

of random bytes, each cut as `put-file` does. Each has a note: a permanode, the file as its `camliContent`, and a tag. A
small file therefore takes five blobs. The packs are written here, not put. Runs of less than 20 seconds are made three
times, and the best counts. Needs openssl and /usr/bin/time.
"""

import pathlib
import random
import shutil
import subprocess
import sys
import time
from typing import NamedTuple

from compare import MIB, TIMES
# Before the tests' modules: these imports put the tests' folder first in the search path.
from store import write_store

import harness
import writing
from http_inputs import blob_target, get, post
from reference import ref_of
from serving import Server, connect

GB, LARGE = 1_000_000_000, 100_000_000
SMALLEST, GREATEST = 300, 20_000
TAGS = 100
DATE = "2026-01-01T00:00:00Z"
LONG = 20
HOUR = 3_600
HEADERS = ["Host: localhost"]
SEARCH = b"/camli/search/query"
COLUMNS = ("blobs", "openssl", "get", "search", "start", "ms a GET", "ms a search", "ms by name", "MiB get", "MiB search", "MiB start", "MiB then")


# Stores

class Stored(NamedTuple):
    """A store: the requests to it, and the expected answers."""

    folder: pathlib.Path
    blob: bytes
    name: str
    # The permanodes that have the first tag, and the one whose file has the name.
    tagged: list
    named: str


def note(number, file):
    """The blobs of a file's note; the permanode is the first."""
    permanode = writing.permanode(f"{number:032x}")
    claims = [("set", "camliContent", file), ("add", "tag", f"t{number % TAGS}")]
    return [permanode, *(writing.claim(kind, ref_of(permanode), key, value, DATE) for kind, key, value in claims)]


def name_of(number):
    return f"file {number}.bin"


def tagged(permanodes):
    return sorted(permanodes[::TAGS])


def large_lengths(size, _):
    return [min(LARGE, size - at) for at in range(0, size, LARGE)]


def small_lengths(size, noise):
    while size > 0:
        length = noise.randint(SMALLEST, GREATEST)
        size -= length
        yield length


KINDS = {"large": large_lengths, "small": small_lengths}


def write(folder, kind, size):
    """Writes a store of so many bytes of files."""
    noise, permanodes, blobs = random.Random(1), [], []

    def each():
        yield writing.key_blob()
        for number, length in enumerate(KINDS[kind](size, noise)):
            chunks = [noise.randbytes(min(MIB, length - at)) for at in range(0, length, MIB)]
            *content, file = writing.file_blobs(name_of(number), chunks)
            own = note(number, ref_of(file))
            permanodes.append(ref_of(own[0]))
            blobs[:] = [own[0]]
            yield from [*content, file, *own]

    write_store(folder, each())
    (folder / "keyring").write_bytes(writing.keyring_line())
    return Stored(folder, blobs[0], name_of(0), tagged(permanodes), permanodes[0])


# Measuring

class Cost(NamedTuple):
    seconds: float
    memory: int


def run(words):
    """Runs a program, which has to succeed; returns its costs and its output."""
    words = [shutil.which("time", path="/usr/bin:/bin") or sys.exit("/usr/bin/time isn't there"), "-q", "-f", "%e %M", *words]
    ended = subprocess.run(words, stdin=subprocess.DEVNULL, stdout=subprocess.PIPE, stderr=subprocess.PIPE)
    if ended.returncode != 0:
        sys.exit(f"{' '.join(words)}: status {ended.returncode}, {ended.stderr}")
    seconds, kib = ended.stderr.split()[-2:]
    return Cost(float(seconds), int(kib) * 1_024), ended.stdout


def best(job):
    """The least cost of a job in three runs, or its cost in a single one if that is long."""
    costs = [job()]
    while costs[0].seconds < LONG and len(costs) < TIMES:
        costs.append(job())
    return Cost(*map(min, zip(*costs)))


def has_to_be(what, expected, got):
    if expected != got:
        sys.exit(f"{what}: {harness.short(got)}, not {harness.short(expected)}")


def command(program, words, expected):
    def job():
        cost, got = run([program, *words])
        has_to_be(words[0], expected, got)
        return cost

    return best(job)


def answer(refs):
    return '{"blobs":[' + ",".join(f'{{"blob":"{ref}"}}' for ref in refs) + "]}"


def memory_of(process, field):
    lines = pathlib.Path(f"/proc/{process}/status").read_text().splitlines()
    return next(int(line.split()[1]) * 1_024 for line in lines if line.startswith(field))


def ask(server, what, request, body):
    """The seconds until a server has answered a request."""
    start = time.monotonic()
    with connect(server.port, HOUR) as wire:
        wire.sendall(request)
        got = b""
        while not got.endswith(b"\r\n\r\n" + body):
            piece = wire.recv(MIB)
            got += piece
            if not piece:
                has_to_be(what, body, got)
    return time.monotonic() - start


def query(attribute, test):
    text = f'{{"limit":1000000,"constraint":{{"permanode":{{"attr":"{attribute}",{test}}}}}}}'
    return post(SEARCH, text.encode(), *HEADERS)


def served(program, store):
    """The seconds until a server's first answer, those of three further requests, and its memory: the peak, and the
    current one."""
    start = time.monotonic()
    with Server(program, store.folder) as server:
        first = get(blob_target(ref_of(store.blob)), *HEADERS)
        ask(server, "the first GET", first, store.blob)
        seconds = time.monotonic() - start
        by_name = query("camliContent", f'"valueInSet":{{"file":{{"fileName":{{"equals":"{store.name}"}}}}}}')
        asked = [
            ("GET", first, store.blob),
            ("search", query("tag", '"value":"t0"'), answer(store.tagged).encode()),
            ("search by name", by_name, answer([store.named]).encode()),
        ]
        times = [min(ask(server, *one) for _ in range(TIMES)) for one in asked]
        process = server.process.pid
        return seconds, times, memory_of(process, "VmHWM:"), memory_of(process, "VmRSS:")


def measure(program, store):
    """The columns of a store's row."""
    folder = str(store.folder)
    packs = [str(path) for path in sorted(store.folder.glob("pack-*"))]
    hashing = best(lambda: run(["openssl", "dgst", "-sha224", *packs])[0])
    getting = command(program.path, ["get", folder, ref_of(store.blob)], store.blob)
    words = ["search", folder, "--attr", "tag", "--value", "t0"]
    searching = command(program.path, words, answer(store.tagged).encode() + b"\n")
    start, times, peak, then = served(program, store)
    _, listed = run([program.path, "list", folder, "--limit", "4194304"])
    seconds = [f"{one:.1f}" for one in (hashing.seconds, getting.seconds, searching.seconds, start)]
    memory = [f"{one / MIB:.0f}" for one in (getting.memory, searching.memory, peak, then)]
    return [f"{listed.count(10):,}", *seconds, *(f"{1_000 * one:.1f}" for one in times), *memory]


def row(what, columns):
    print(f"{what:10}" + "".join(f"{column:>12}" for column in columns), flush=True)


def main(path, folder, *stores):
    program = harness.Program(path, folder)
    row("store", COLUMNS)
    for number, name in enumerate(stores):
        kind, size = name.split(":")
        store = write(pathlib.Path(folder) / f"store-{number}", kind, int(float(size) * GB))
        row(name, measure(program, store))
        shutil.rmtree(store.folder)


if __name__ == "__main__":
    main(*sys.argv[1:])
