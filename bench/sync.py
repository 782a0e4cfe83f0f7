"""Times `push` and `pull` beside programs that do the least of it, and `mirror` beside `push` and `pull`, and prints
how they compare, as tables.

    sync.py PROGRAM HTTP_LOAD APPEND_SYNC PLAIN_PUT FOLDER

Each time is the best of three, taken in turn with that of the compared program. Each copy goes to a store of its own.
The time of a copy is that of the whole command, so that it includes the opening of its store.
"""

import contextlib
import os
import random
import shutil
import subprocess
import sys
import time

from compare import MIB
from serve import HOST, Bench, PlainPut, Seconds, Served, best, heading, ratio, record, row, small_blobs, stored, upload

BLOBS = int(os.environ.get("BENCH_BLOBS") or 10_000)
LARGE_BLOBS = 64
# So many servers are in a round.
PEERS = 3


def large_blobs():
    noise = random.Random(2)
    return [noise.randbytes(MIB) for _ in range(LARGE_BLOBS)]


# Copies

def timed(bench, words, out):
    """The seconds of a command that has to print this, and its peak of memory in bytes."""
    # For a child of this process the system would report at least this process's memory, which holds all blobs.
    peak = bench.program.new_path()
    line = ["/usr/bin/time", "-f", "%M", "-o", str(peak), bench.program.path, *words]
    start = time.monotonic()
    process = subprocess.Popen(line, stdin=subprocess.DEVNULL, stdout=subprocess.PIPE)
    printed = process.stdout.read()
    _, status, usage = os.wait4(process.pid, 0)
    seconds = time.monotonic() - start
    process.returncode = os.waitstatus_to_exitcode(status)
    if process.returncode != 0 or printed != out:
        sys.exit(f"{words[0]}: status {process.returncode}, {printed}")
    return Seconds(usage.ru_utime + usage.ru_stime, seconds), int(peak.read_text().split()[-1]) * 1_024


class Copies:
    """Pushes and pulls of some blobs, and the peak memory of each."""

    def __init__(self, bench, blobs):
        self.bench, self.blobs, self.peaks = bench, blobs, {"push": 0, "pull": 0}
        self.store = bench.program.new_path()
        self.store.mkdir()
        (self.store / "pack-00000.blobs").write_bytes(b"".join(map(record, blobs)))

    def push(self):
        with Served(self.bench, []) as server:
            return self.copy("push", self.store, server)

    def pull(self):
        folder = self.bench.program.new_path()
        try:
            with Served(self.bench, self.blobs) as server:
                return self.copy("pull", folder, server)
        finally:
            shutil.rmtree(folder)

    def copy(self, command, folder, server):
        words = [command, str(folder), f"{HOST}:{server.port}"]
        seconds, peak = timed(self.bench, words, b"copied %d already 0\n" % len(self.blobs))
        self.peaks[command] = max(self.peaks[command], peak)
        return seconds


class Rounds:
    """A round over a folder that isn't there yet and servers that have blobs of their own, and as many pulls and pushes
    with the same result."""

    def __init__(self, bench, blobs):
        self.bench, self.shares, self.peak = bench, [blobs[place::PEERS] for place in range(PEERS)], 0

    @contextlib.contextmanager
    def stores(self):
        """The folder, and the addresses of the servers."""
        folder = self.bench.program.new_path()
        with contextlib.ExitStack() as started:
            servers = [started.enter_context(Served(self.bench, share)) for share in self.shares]
            yield str(folder), [f"{HOST}:{server.port}" for server in servers]
        shutil.rmtree(folder)

    def mirror(self):
        with self.stores() as (folder, addresses):
            line = b"stores %d blobs %d\n" % (PEERS + 1, sum(map(len, self.shares)))
            seconds, peak = timed(self.bench, ["mirror", folder, *addresses], line)
        self.peak = max(self.peak, peak)
        return seconds

    def pull_and_push(self):
        with self.stores() as (folder, addresses):
            both = [
                timed(self.bench, [command, folder, address], b"copied %d already %d\n" % counts)[0]
                for command, counts in (("pull", (BLOBS, 0)), ("push", ((PEERS - 1) * BLOBS, BLOBS)))
                for address in addresses
            ]
        return Seconds(*map(sum, zip(*both)))


def plainly(bench, blobs, requests):
    """The seconds of a server with the least cost of an upload."""
    with PlainPut(bench, requests[0], record(blobs[0]), stored(blobs[0]).body) as server:
        return bench.load(server, requests)


def knows_fsync():
    """Whether rsync is there, and knows the option."""
    if shutil.which("rsync") is None:
        return False
    return b"--fsync" in subprocess.run(["rsync", "--help"], stdout=subprocess.PIPE).stdout


class Files:
    """The same bytes in as many files, and copies of them by rsync."""

    def __init__(self, bench, blobs):
        self.bench, self.folder = bench, bench.program.new_path()
        self.folder.mkdir()
        for number, blob in enumerate(blobs):
            (self.folder / str(number)).write_bytes(blob)

    def copy(self):
        copy = self.bench.program.new_path()
        start = time.monotonic()
        subprocess.run(["rsync", "-a", "--fsync", f"{self.folder}/", f"{copy}/"], check=True)
        seconds = time.monotonic() - start
        shutil.rmtree(copy)
        return Seconds(0, seconds)


class Snapshot:
    """The same files in a repository of restic, and copies of it to new ones."""

    PASSWORD = {"RESTIC_PASSWORD": "bench", "RESTIC_FROM_PASSWORD": "bench"}

    def __init__(self, bench, files):
        self.bench, self.repository = bench, bench.program.new_path()
        self.run(self.repository, "init")
        self.run(self.repository, "backup", files.folder)

    def copy(self):
        copy = self.bench.program.new_path()
        source = ["--from-repo", self.repository]
        self.run(copy, "init", *source, "--copy-chunker-params")
        start = time.monotonic()
        self.run(copy, "copy", *source)
        seconds = time.monotonic() - start
        shutil.rmtree(copy)
        return Seconds(0, seconds)

    def run(self, repository, *words):
        line = ["restic", "--no-cache", "--quiet", "--repo", repository, *words]
        subprocess.run(line, check=True, env={**os.environ, **self.PASSWORD})


def copiers(bench, blobs):
    """Other programs that copy as many files, if they are there."""
    files, found = Files(bench, blobs), {}
    if knows_fsync():
        found["of rsync --fsync"] = files.copy
    if shutil.which("restic"):
        found["of restic copy"] = Snapshot(bench, files).copy
    return found


# Tables

def small(bench):
    """Blobs per second, and those of the others."""
    blobs = small_blobs(BLOBS)
    copies, requests = Copies(bench, blobs), [upload([blob]) for blob in blobs]
    others = [
        lambda: Seconds(0, bench.append(BLOBS, len(record(blobs[0])))),
        lambda: bench.fresh(requests)[0],
        lambda: plainly(bench, blobs, requests),
    ]
    found = copiers(bench, blobs)
    heading("small blobs", "a second", "of append, sync", "of uploads", "of a plain server", *found, "peak MiB")
    push, pull, *its = best(copies.push, copies.pull, *others, *found.values())
    for command, own in (("push", push), ("pull", pull)):
        beside = [ratio(one.wall, own.wall) for one in its]
        row(f"{command} of {BLOBS:,}", f"{BLOBS / own.wall:,.0f}", *beside, f"{copies.peaks[command] / MIB:.1f}")
    if len(found) < 2:
        print("rsync, unless it knows --fsync, and restic are left out where they aren't there")


def large(bench):
    """MiB per second, and those of the others."""
    blobs = large_blobs()
    copies, requests = Copies(bench, blobs), [upload([blob]) for blob in blobs]
    columns = "MiB a second", "of append, sync", "of uploads", "of a plain server", "peak MiB"
    heading(f"{LARGE_BLOBS} blobs of 1 MiB", *columns)
    push, pull, *its = best(
        copies.push,
        copies.pull,
        lambda: Seconds(0, bench.append(LARGE_BLOBS, len(record(blobs[0])))),
        lambda: bench.fresh(requests)[0],
        lambda: plainly(bench, blobs, requests),
    )
    for command, own in (("push", push), ("pull", pull)):
        beside = [ratio(one.wall, own.wall) for one in its]
        row(command, f"{LARGE_BLOBS / own.wall:,.0f}", *beside, f"{copies.peaks[command] / MIB:.1f}")


def rounds(bench):
    """Blobs that a round copies per second, and the time of pulls and pushes of the same beside it."""
    own = Rounds(bench, small_blobs(PEERS * BLOBS))
    heading(f"rounds over {PEERS} servers", "a second", "of pull and push", "their processor", "peak MiB")
    mirror, others = best(own.mirror, own.pull_and_push)
    # Each server's blobs are copied to the folder, and then to each other server.
    pace = f"{PEERS * PEERS * BLOBS / mirror.wall:,.0f}"
    beside = ratio(others.wall, mirror.wall), ratio(others.processor, mirror.processor)
    row(f"mirror, {BLOBS:,} small blobs each", pace, *beside, f"{own.peak / MIB:.1f}")


TABLES = {"small": small, "large": large, "rounds": rounds}


def main(program, http_load, append_sync, plain_put, folder, *names):
    bench = Bench(program, http_load, append_sync, plain_put, folder)
    print("speeds of `push`, `pull` and `mirror`, those of the other programs being 1")
    for name in names or TABLES:
        TABLES[name](bench)


if __name__ == "__main__":
    main(*sys.argv[1:])
