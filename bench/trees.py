"""Times put_tree.py over many small files, and prints how that compares with uploads of the same blobs and with restic.

    trees.py PROGRAM HTTP_LOAD FOLDER

Each time is the best of three, taken in turn with that of the compared program; each run goes to a store, and a cache,
of its own. The uploads are requests that were made before, sent one after another by a client that does nothing else.
"""

import os
import pathlib
import random
import shutil
import subprocess
import sys
import time

from compare import TIMES
from serve import Bench, heading, ratio, row, upload

import inputs
import reference
from serving import HOST, Server

FILES = int(os.environ.get("BENCH_FILES") or 20_000)
FILES_OF_A_FOLDER = 100
PARTS = 900
SCRIPT = pathlib.Path(__file__).resolve().parent.parent / "examples" / "put_tree.py"
# The goals: relative to the uploads, and to the first run.
MOST_OF_UPLOADS, MOST_OF_FIRST = 1.5, 0.1


def write_files(folder):
    """Files of 100 to 2,000 bytes that can't be compressed, a hundred in a folder."""
    noise = random.Random(3)
    for number in range(FILES):
        if number % FILES_OF_A_FOLDER == 0:
            inner = folder / f"folder {number // FILES_OF_A_FOLDER}"
            inner.mkdir(parents=True)
        (inner / f"file {number}").write_bytes(noise.randbytes(noise.randrange(100, 2_000)))


def size_of(folder):
    return sum(path.stat().st_size for path in folder.rglob("*") if path.is_file())


class Trees:
    """Runs over the files, each with a store of its own."""

    def __init__(self, bench):
        self.bench, self.files = bench, bench.program.new_path()
        write_files(self.files)
        # Later than a file system may distinguish.
        time.sleep(2.5)
        self.keyring = bench.program.new_path()
        self.keyring.write_bytes(inputs.KEYRING)
        self.firsts, self.seconds, self.blobs, self.stored = [], [], [], 0

    def put(self, server, cache):
        """The seconds of a run."""
        line = [sys.executable, SCRIPT, f"{HOST}:{server.port}", self.files, "--name", "bench", "--cache", cache]
        start = time.monotonic()
        subprocess.run([*line, "--keyring", self.keyring, "--key", "jefe"], check=True, stdout=subprocess.DEVNULL)
        return time.monotonic() - start

    def twice(self):
        """A first run and a second one."""
        cache, store = self.bench.program.new_path(), self.bench.program.new_path()
        store.mkdir()
        shutil.copy(self.keyring, store / "keyring")
        with Server(self.bench.program, store) as server:
            self.firsts.append(self.put(server, cache))
            self.stored = size_of(store)
            self.seconds.append(self.put(server, cache))
            if size_of(store) != self.stored:
                sys.exit("a second run stores something")
            if not self.blobs:
                packs = {path.name: path.read_bytes() for path in store.iterdir()}
                self.blobs = list(reference.arrivals(reference.packs_of(packs)).values())
        shutil.rmtree(store)

    def uploads(self):
        """The seconds of uploads of the blobs that a first run stores."""
        runs = [self.blobs[at : at + PARTS] for at in range(0, len(self.blobs), PARTS)]
        return self.bench.fresh([upload(run) for run in runs])[0].wall


class Restic:
    """A repository of restic, without a cache of its own."""

    def __init__(self, trees):
        self.trees, self.firsts, self.seconds, self.stored = trees, [], [], 0

    def run(self, repository, *words):
        line = ["restic", "--quiet", "--repo", repository, *words]
        settings = {**os.environ, "RESTIC_PASSWORD": "bench", "XDG_CACHE_HOME": str(repository) + ".cache"}
        start = time.monotonic()
        subprocess.run(line, check=True, env=settings)
        return time.monotonic() - start

    def twice(self):
        repository = self.trees.bench.program.new_path()
        self.run(repository, "init")
        self.firsts.append(self.run(repository, "backup", self.trees.files))
        self.stored = size_of(repository)
        self.seconds.append(self.run(repository, "backup", self.trees.files))
        shutil.rmtree(repository)


def main(program, http_load, folder):
    bench = Bench(program, http_load, None, None, folder)
    trees = Trees(bench)
    restic = Restic(trees) if shutil.which("restic") else None
    uploads = []
    for _ in range(TIMES):
        trees.twice()
        uploads.append(trees.uploads())
        if restic:
            restic.twice()
    print(f"{FILES:,} files, {size_of(trees.files):,} bytes; {len(trees.blobs):,} blobs")
    heading("", "seconds", "of uploads", "second run", "of the first", "bytes stored")
    first, second, sent = min(trees.firsts), min(trees.seconds), min(uploads)
    row("put_tree.py", f"{first:.2f}", ratio(first, sent), f"{second:.2f}", ratio(second, first), f"{trees.stored:,}")
    row(f"uploads of {PARTS} parts", f"{sent:.2f}", "1.00")
    if restic:
        one, other = min(restic.firsts), min(restic.seconds)
        row("restic backup", f"{one:.2f}", ratio(one, sent), f"{other:.2f}", ratio(other, one), f"{restic.stored:,}")
    else:
        print("restic is left out, as it isn't there")
    if first > MOST_OF_UPLOADS * sent or second > MOST_OF_FIRST * first:
        sys.exit("a goal isn't met")


if __name__ == "__main__":
    main(*sys.argv[1:])
