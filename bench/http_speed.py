"""Times `lab http` against a plain program over the same connections, and prints how they compare, as a table.

    http_speed.py LAB PLAIN_HTTP FOLDER

Times are those of the requests alone: from the time of a run over a stream that of one over no bytes is subtracted,
which is the program's start and its reading of the pack. Each is the best of three, taken in turn with the others.
Peaks of memory are those of a whole run.

Timed output goes to /dev/null. The replies are checked in a run before that: they have to be, byte for byte, the
replies of tests/lib/connections.py with the blobs from which the requests are made.
"""

import os
import pathlib
import random
import subprocess
import sys
import time
from typing import NamedTuple

from compare import MIB, TIMES
# Before make_pack: importing it puts the folder of the tests first in the search path.
from store import peak
from make_pack import KEYRING, record

from connections import OCTETS, UPLOAD, Reply, entry, json_text
from http_inputs import blob_target, get, part, post
from reference import LARGEST_BLOB, ref_of

# A program is given at most so many bytes at a time.
PIECE = os.environ.get("BENCH_PIECE", "65536")
HASHER = ["openssl", "dgst", "-sha224"]
# In the form that a client sends.
HEADERS = ["Host: localhost:3179", "User-Agent: bench", "Accept: */*"]
BOUNDARY = b"------------------------0123456789abcdef"


class Job(NamedTuple):
    """The blobs of a pack, requests, the replies that they have to get, and the count of which units."""

    what: str
    pack: list
    requests: list
    replies: list
    count: int
    unit: str
    # The blobs that are put by uploads.
    contents: bytes = b""
    # A job that is too short to be timed is done by so many starts, one after another.
    starts: int = 1


# Jobs

def small_blobs(first, count):
    return [b"%015d" % number * 20 for number in range(first, first + count)]


FEW = small_blobs(0, 8)


def gets(what, blobs, times, count, unit):
    requests = [get(blob_target(ref_of(blob)), *HEADERS) for blob in blobs]
    return Job(what, blobs, requests * times, [Reply(200, blob, OCTETS).text() for blob in blobs] * times, count, unit)


def upload(what, blobs, count, unit, starts):
    """An upload of blobs in one request."""
    refs = list(map(ref_of, blobs))
    lines = ["Content-Type: application/octet-stream"]
    parts = [part(ref, blob, *lines, boundary=BOUNDARY) for ref, blob in zip(refs, blobs)]
    form = b"".join(parts) + b"--" + BOUNDARY + b"--\r\n"
    request = post(UPLOAD, form, *HEADERS, b"Content-Type: multipart/form-data; boundary=" + BOUNDARY)
    received = [entry(ref, len(blob)) for ref, blob in zip(refs, blobs)]
    replies = [Reply(200, json_text({"received": received})).text()]
    return Job(what, FEW, [request], replies, count, unit, b"".join(blobs), starts)


def jobs():
    """Each is made when it is needed."""
    yield gets("100,000 GETs of 300 bytes", FEW, 12_500, 100_000, "requests")
    noise = random.Random(1)
    yield gets("16 GETs of 16 MiB", [noise.randbytes(LARGEST_BLOB)], 16, 256, "MiB")
    yield upload("64 blobs of 1 MiB uploaded", [noise.randbytes(MIB) for _ in range(64)], 64, "MiB", 1)
    yield upload("1,000 blobs of 300 bytes uploaded", small_blobs(8, 1_000), 1_000, "blobs", 20)


# Measuring

class Seconds(NamedTuple):
    processor: float
    wall: float

    def without(self, other):
        return Seconds(*(max(one - some, 1e-9) for one, some in zip(self, other)))

    def over(self, other):
        return [one / its for one, its in zip(self, other)]


def run(words, source, sink):
    """Runs a program that has to end with status 0; returns its seconds."""
    with open(source, "rb") as read, open(sink, "wb") as written:
        start = time.monotonic()
        child = subprocess.Popen(words, stdin=read, stdout=written)
        _, status, usage = os.wait4(child.pid, 0)
        wall = time.monotonic() - start
    child.returncode = os.waitstatus_to_exitcode(status)
    if child.returncode != 0:
        sys.exit(f"{' '.join(words)}: status {child.returncode}")
    return Seconds(usage.ru_utime + usage.ru_stime, wall)


def best_in_turn(runs):
    """The seconds of each run beyond those over no bytes. A run is a command line, a file, and the number of starts."""
    both = [(words, source, starts) for words, path, starts in runs for source in (path, os.devnull)]
    rounds = [[in_all(*one) for one in both] for _ in range(TIMES)]
    best = [Seconds(*map(min, zip(*column))) for column in zip(*rounds)]
    return [full.without(none) for full, none in zip(best[::2], best[1::2])]


def in_all(words, source, starts):
    return Seconds(*map(sum, zip(*(run(words, source, os.devnull) for _ in range(starts)))))


class Bench:
    def __init__(self, lab, plain, folder):
        names = ("pack", "keyring", "stream", "contents", "out")
        self.pack, self.keyring, self.stream, self.contents, self.out = (pathlib.Path(folder) / name for name in names)
        self.keyring.write_bytes(KEYRING)
        self.programs = [[path, "http", str(self.pack), str(self.keyring), PIECE] for path in (lab, plain)]

    def measure(self, job):
        self.pack.write_bytes(b"".join(map(record, job.pack)))
        self.stream.write_bytes(b"".join(job.requests))
        self.contents.write_bytes(job.contents * job.starts)
        for words in self.programs:
            self.check(job, words)
        runs = [(words, self.stream, job.starts) for words in self.programs]
        runs += [(HASHER, self.contents, 1)] if job.contents else []
        lab, plain, *hashing = best_in_turn(runs)
        pace = f"{job.count * job.starts / lab.processor:,.0f} {job.unit}"
        peaks = [self.peak(words) for words in self.programs]
        held = (self.stream.stat().st_size + sum(map(len, job.replies))) / MIB
        ratios = [ratio for other in (plain, *hashing) for ratio in other.over(lab)]
        row(job.what, pace, [f"{ratio:.2f}" for ratio in ratios], f"{held:.1f}", *peaks)

    def check(self, job, words):
        run(words, self.stream, self.out)
        with open(self.out, "rb") as file:
            if not all(file.read(len(reply)) == reply for reply in job.replies) or file.read(1):
                sys.exit(f"{job.what}: {' '.join(words)} doesn't write the replies")
        self.out.unlink()

    def peak(self, words):
        memory = peak(words, self.stream.read_bytes())
        return "" if memory is None else f"{memory / MIB:.1f}"


def row(what, pace, ratios, *memory):
    beside = "".join(f"{ratio:>11}" for ratio in ratios)
    print(f"{what:34}{pace:>19} {beside:44}" + "".join(f"{one:>10}" for one in memory), flush=True)


def main(lab, plain, folder):
    bench = Bench(lab, plain, folder)
    print("speeds of `lab http`, those of plain_http and of openssl being 1, by processor time and by wall time;")
    print("MiB of both streams, and of the peaks of memory of both programs, which hold the streams")
    row("job", "a processor second", ["plain_http", "by wall", "openssl", "by wall"], "streams", "peak", "its peak")
    for job in jobs():
        bench.measure(job)


if __name__ == "__main__":
    main(*sys.argv[1:])
