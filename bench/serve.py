"""Times `serve` beside programs that do the least of the same work, and prints how they compare, as tables.

    serve.py PROGRAM HTTP_LOAD APPEND_SYNC PLAIN_PUT FOLDER

Processor time is that of the server's process, all of its threads, while the requests were served; that of nginx is of
all its processes. Each time is the best of three, taken in turn with that of the compared program. Each upload goes to
a store of its own.
"""

import os
import pathlib
import random
import shutil
import subprocess
import sys
import time
from typing import NamedTuple

from compare import MIB, TIMES
# Before make_pack: importing it puts the folder of the tests first in the search path.
from store import run
from make_pack import record

import harness
from connections import UPLOAD
from http_inputs import blob_target, get, part, post
from reference import LARGEST_BLOB, pack_name, ref_of
from serving import HOST, PORTS, Server, is_listened_to, stored

BLOBS = int(os.environ.get("BENCH_BLOBS") or 10_000)
# The long upload lasts longer than the indexers give way.
UPLOADS, LONG_UPLOADS, LARGE_BLOBS = 1_000, 10_000, 16
NGINX = os.environ.get("NGINX_PROGRAM") or shutil.which("nginx", path=os.environ["PATH"] + ":/usr/sbin")
TICKS_A_SECOND = os.sysconf("SC_CLK_TCK")
# In the form that a client sends.
HEADERS = ["Host: localhost:3179", "User-Agent: bench", "Accept: */*"]
BOUNDARY = b"------------------------0123456789abcdef"


def small_blobs(count):
    return [b"%015d" % number * 20 for number in range(count)]


def large_blobs():
    noise = random.Random(1)
    return [noise.randbytes(LARGEST_BLOB) for _ in range(LARGE_BLOBS)]


# Requests

def gets(blobs):
    return [get(blob_target(ref_of(blob)), *HEADERS) for blob in blobs]


def upload(blobs):
    """An upload of blobs in one request."""
    lines = ["Content-Type: application/octet-stream"]
    parts = [part(ref_of(blob), blob, *lines, boundary=BOUNDARY) for blob in blobs]
    form = b"".join(parts) + b"--" + BOUNDARY + b"--\r\n"
    return post(UPLOAD, form, *HEADERS, b"Content-Type: multipart/form-data; boundary=" + BOUNDARY)


# Servers

class Seconds(NamedTuple):
    processor: float
    wall: float


def ticks(process):
    fields = pathlib.Path(f"/proc/{process}/stat").read_text().rpartition(")")[2].split()
    return int(fields[11]) + int(fields[12])


def peak_of(process):
    """The most bytes of memory that a process had."""
    lines = pathlib.Path(f"/proc/{process}/status").read_text().splitlines()
    return next(int(line.split()[1]) * 1_024 for line in lines if line.startswith("VmHWM:"))


class Nginx:
    """nginx, with its usual number of processes, over files of the same bytes under the same paths."""

    def __init__(self, folder, blobs):
        self.folder, self.port = folder / "nginx", PORTS.free()
        (self.folder / "www" / "camli").mkdir(parents=True)
        for blob in blobs:
            (self.folder / "www" / "camli" / ref_of(blob)).write_bytes(blob)
        (self.folder / "conf").write_text(self.conf())
        words = [NGINX, "-p", str(self.folder), "-c", "conf", "-e", "stderr"]
        self.process = subprocess.Popen(words, stdin=subprocess.DEVNULL)
        while not is_listened_to(self.port) and self.process.poll() is None:
            time.sleep(0.01)

    def conf(self):
        temporary = [f"{name}_temp_path temporary;" for name in ("client_body", "proxy", "fastcgi", "uwsgi", "scgi")]
        user = "user root;" if os.getuid() == 0 else ""
        return f"""
            {user} daemon off; worker_processes auto; pid pid; error_log stderr crit;
            events {{ worker_connections 256; }}
            http {{
                {" ".join(temporary)} access_log off; sendfile on; tcp_nodelay on; keepalive_requests 100000000;
                open_file_cache max=20000; default_type application/octet-stream;
                server {{ listen {HOST}:{self.port}; root www; }}
            }}"""

    def processes(self):
        children = pathlib.Path(f"/proc/{self.process.pid}/task/{self.process.pid}/children").read_text()
        return [self.process.pid, *map(int, children.split())]

    def __enter__(self):
        return self

    def __exit__(self, *_):
        self.process.terminate()
        self.process.wait()


class PlainPut:
    """A server with the least cost of an upload: it reads a request of this length, digests, appends and syncs a
    record, and replies."""

    def __init__(self, bench, request, record, body):
        self.port, self.file = PORTS.free(), bench.folder / "plain"
        words = [bench.plain_put, str(self.port), str(self.file), str(len(request)), str(len(record)), str(len(body))]
        self.process = subprocess.Popen(words, stdin=subprocess.DEVNULL)
        while not is_listened_to(self.port) and self.process.poll() is None:
            time.sleep(0.01)

    def processes(self):
        return [self.process.pid]

    def __enter__(self):
        return self

    def __exit__(self, *_):
        self.process.kill()
        self.process.wait()
        self.file.unlink()


class Served(Server):
    """The program over a store of its own, of some blobs, so many in a pack. (The peak of memory includes the opening,
    which reads each pack whole.)"""

    def __init__(self, bench, blobs, *words, in_a_pack=BLOBS):
        folder = bench.program.new_path()
        folder.mkdir()
        for number, first in enumerate(range(0, len(blobs), in_a_pack)):
            pack = b"".join(map(record, blobs[first : first + in_a_pack]))
            (folder / pack_name(number)).write_bytes(pack)
        super().__init__(bench.program, folder, *words)

    def processes(self):
        return [self.process.pid]

    def __exit__(self, *words):
        super().__exit__(*words)
        shutil.rmtree(self.folder)


# Measuring

class Bench:
    def __init__(self, program, http_load, append_sync, plain_put, folder):
        self.program = harness.Program(program, folder)
        self.http_load, self.append_sync, self.plain_put = http_load, append_sync, plain_put
        self.folder = pathlib.Path(folder)

    def load(self, server, requests, connections=1, times=1, expected=None):
        """The seconds that a server takes to answer requests with replies of so many bytes, if these are known."""
        file = self.folder / "requests"
        file.write_bytes(b"".join(b"%d\n%b" % (len(request), request) for request in requests))
        before = sum(map(ticks, server.processes()))
        line = [self.http_load, str(server.port), str(connections), str(times), str(file)]
        done = subprocess.run(line, stdout=subprocess.PIPE)
        if done.returncode != 0:
            sys.exit(f"{len(requests)} requests over {connections} connections: status {done.returncode}")
        wall, count = done.stdout.split()
        if expected is not None and int(count) != times * expected:
            sys.exit(f"{len(requests)} requests over {connections} connections: {int(count)} bytes came")
        taken = (sum(map(ticks, server.processes())) - before) / TICKS_A_SECOND
        return Seconds(max(taken, 1 / TICKS_A_SECOND), float(wall))

    def fresh(self, requests, connections=1, words=()):
        """The seconds that a server over an empty store takes, and its peak of memory."""
        with Served(self, [], *words) as server:
            return self.load(server, requests, connections), peak_of(server.process.pid)

    def append(self, count, size):
        log = self.folder / "log"
        log.unlink(missing_ok=True)
        seconds = run([self.append_sync, str(log), str(count), str(size)])
        log.unlink()
        return seconds

    def hash(self, contents):
        """The seconds of openssl over bytes, which are in a file."""
        file = self.folder / "contents"
        file.write_bytes(contents)
        before = os.times()
        subprocess.run(["openssl", "dgst", "-sha224", str(file)], stdout=subprocess.DEVNULL, check=True)
        user, system, wall = (after - its for after, its in list(zip(os.times(), before))[2:])
        return Seconds(user + system, wall)


def best(*jobs):
    """The least of the seconds of each job; the jobs are done one after another, several times."""
    rounds = [[job() for job in jobs] for _ in range(TIMES)]
    return [Seconds(*map(min, zip(*column))) for column in zip(*rounds)]


# Tables

def heading(*columns):
    print()
    row(*columns)


def row(what, *columns):
    print(f"{what:44}" + "".join(f"{column:>18}" for column in columns), flush=True)


def ratio(one, other):
    return f"{one / other:.2f}"


def small_gets(bench):
    """Requests per processor second, and those of nginx."""
    blobs = small_blobs(BLOBS)
    requests, bytes_of_all, times = gets(blobs), sum(map(len, blobs)), 5
    heading("GETs of small blobs", "a processor s", "of nginx", "by wall")
    with Served(bench, blobs) as server:
        for connections in (1, 8):
            jobs = [lambda: bench.load(server, requests, connections, times, bytes_of_all)]
            if NGINX is None:
                (own,) = best(*jobs)
                beside = "", ""
            else:
                with Nginx(bench.program.new_path(), blobs) as nginx:
                    own, its = best(*jobs, lambda: bench.load(nginx, requests, connections, times, bytes_of_all))
                beside = ratio(its.processor, own.processor), ratio(its.wall, own.wall)
            pace = f"{times * BLOBS / own.processor:,.0f}"
            row(f"{times * BLOBS:,} over {connections} connections", pace, *beside)
    if NGINX is None:
        print("nginx is left out, as it isn't there")


def small_uploads(bench):
    """Blobs per second, those of a loop that appends and syncs, and those of a server that does only that and a digest
    for each request; also how busy the latter's processor was."""
    blobs = small_blobs(LONG_UPLOADS)
    size = len(record(blobs[0]))
    heading("uploads of small blobs", "a second", "of append, sync", "of a plain server", "processor share")
    single = [upload([blob]) for blob in blobs]
    jobs = (
        (UPLOADS, "in one request", [upload(blobs[:UPLOADS])], 1),
        (UPLOADS, "one by one", single[:UPLOADS], 1),
        (LONG_UPLOADS, "one by one", single, 1),
        (UPLOADS, "one by one, 8 connections", single[:UPLOADS], 8),
    )
    for count, what, requests, connections in jobs:

        def plain():
            with PlainPut(bench, requests[0], record(blobs[0]), stored(blobs[0]).body) as server:
                return bench.load(server, requests, connections)

        least = [plain] if len(requests) > 1 else []
        own, its, *others = best(
            lambda: bench.fresh(requests, connections)[0], lambda: Seconds(0, bench.append(count, size)), *least
        )
        beside = ratio(others[0].wall, own.wall) if others else ""
        pace = f"{count / own.wall:,.0f}"
        row(f"{count:,} {what}", pace, ratio(its.wall, own.wall), beside, ratio(own.processor, own.wall))


def large(bench):
    """MiB per second, beside openssl by processor time, and beside appending and syncing the same by wall time."""
    blobs = large_blobs()
    total = sum(map(len, blobs))
    heading("blobs of 16 MiB", "MiB a second", "of openssl", "of append, sync", "peak MiB")
    for connections in (1, 4):
        with Served(bench, blobs, in_a_pack=1) as server:
            own, its = best(
                lambda: bench.load(server, gets(blobs), connections, 2, total), lambda: bench.hash(b"".join(blobs) * 2)
            )
            peak = peak_of(server.process.pid)
        pace = f"{2 * total / MIB / own.wall:,.0f}"
        row(f"GETs over {connections} connections", pace, ratio(its.processor, own.processor), "", f"{peak / MIB:.1f}")
    requests = [upload([blob]) for blob in blobs]
    for connections in (1, 4):
        peaks = []

        def uploaded():
            seconds, peak = bench.fresh(requests, connections)
            peaks.append(peak)
            return seconds

        own, its, appended = best(
            uploaded, lambda: bench.hash(b"".join(blobs)), lambda: Seconds(0, bench.append(LARGE_BLOBS, LARGEST_BLOB))
        )
        pace = f"{total / MIB / own.wall:,.0f}"
        ratios = ratio(its.processor, own.processor), ratio(appended.wall, own.wall)
        row(f"uploads over {connections} connections", pace, *ratios, f"{max(peaks) / MIB:.1f}")


def many_connections(bench):
    """The pace over more connections than there are processors, relative to that over one, by wall and by processor
    time."""
    blobs = small_blobs(BLOBS)
    single = [upload([blob]) for blob in small_blobs(UPLOADS)]
    heading(f"64 workers, {os.cpu_count()} processors", "a second", "to one connection", "a processor s", "to one")
    first = {}
    for what, requests in (("GETs", gets(blobs)), ("uploads", single)):
        for connections in (1, 8, 64):
            count = len(requests) * (5 if what == "GETs" else 1)
            if what == "GETs":
                with Served(bench, blobs, "--workers=64") as server:
                    (own,) = best(lambda: bench.load(server, requests, connections, 5, sum(map(len, blobs))))
            else:
                (own,) = best(lambda: bench.fresh(requests, connections, ["--workers=64"])[0])
            base = first.setdefault(what, own)
            to_one = ratio(base.wall, own.wall), ratio(base.processor, own.processor)
            paces = f"{count / own.wall:,.0f}", f"{count / own.processor:,.0f}"
            row(f"{count:,} {what} over {connections} connections", paces[0], to_one[0], paces[1], to_one[1])


def main(program, http_load, append_sync, plain_put, folder):
    bench = Bench(program, http_load, append_sync, plain_put, folder)
    print("speeds of `serve`, those of the other programs being 1")
    for table in (small_gets, small_uploads, large, many_connections):
        table(bench)


if __name__ == "__main__":
    main(*sys.argv[1:])
