"""Times put-file and get-file of 1 GiB against programs that do the least of it; prints ratios and peaks as a table.

    file.py PROGRAM FOLDER

Each time is the best of three, taken in turn with that of the compared program. Each put-file is into a new store.
"""

import hashlib
import pathlib
import random
import shutil
import subprocess
import sys
import time

from compare import MIB
from store import in_turn, row

MIBS = 1_024


def write_input(path):
    """Writes a file of 1,024 chunks, no two of them equal; returns its SHA-224."""
    made, digest = random.Random(1), hashlib.sha224()
    with open(path, "wb") as file:
        for _ in range(MIBS):
            chunk = made.randbytes(MIB)
            digest.update(chunk)
            file.write(chunk)
    return digest.hexdigest()


def ended(words, source, sink):
    """Runs a program over files that has to end with status 0; returns its seconds and its standard error."""
    with open(source, "rb") as read, open(sink, "wb") as written:
        start = time.monotonic()
        ran = subprocess.run(words, stdin=read, stdout=written, stderr=subprocess.PIPE)
        seconds = time.monotonic() - start
    if ran.returncode != 0:
        sys.exit(f"{' '.join(map(str, words))}: status {ran.returncode}")
    return seconds, ran.stderr


class Bench:
    def __init__(self, program, folder):
        self.program, self.folder = program, pathlib.Path(folder)
        self.input, self.store, self.out = (self.folder / name for name in ("input", "store", "out"))

    def put_words(self):
        return [self.program, "put-file", str(self.store), "input"]

    def get_words(self):
        ref = self.folder / "ref"
        return [self.program, "get-file", str(self.store), ref.read_text().strip()]

    def put(self):
        shutil.rmtree(self.store, ignore_errors=True)
        return ended(self.put_words(), self.input, self.folder / "ref")[0]

    def plain(self):
        log = self.folder / "log"
        log.unlink(missing_ok=True)
        words = [sys.executable, str(pathlib.Path(__file__).parent / "plain_file.py"), str(log)]
        seconds = ended(words, self.input, self.out)[0]
        log.unlink()
        return seconds

    def get(self):
        return ended(self.get_words(), "/dev/null", "/dev/null")[0]

    def hash(self):
        return ended(["openssl", "dgst", "-sha224"], self.input, self.out)[0]

    def peak(self, words, source):
        """The most bytes of memory that a program had, by /usr/bin/time."""
        timer = shutil.which("time", path="/usr/bin:/bin")
        if timer is None:
            return None
        return int(ended([timer, "-q", "-f", "%M", *words], source, self.out)[1].split()[-1]) * 1_024

    def check(self, digest):
        """The output of get-file has to be the input of put-file."""
        ended(self.get_words(), "/dev/null", self.out)
        with open(self.out, "rb") as file:
            if hashlib.file_digest(file, "sha224").hexdigest() != digest:
                sys.exit("get-file doesn't write what put-file read")
        self.out.unlink()


def main(program, folder):
    bench = Bench(program, folder)
    digest = write_input(bench.input)
    print(f"{'job':40} {'ratio':>8}  {'of what':30} {'peak MiB':>9}")
    put, plain, hashing = in_turn(bench.put, bench.plain, bench.hash)
    shutil.rmtree(bench.store)
    memory = bench.peak(bench.put_words(), bench.input)
    bench.put()
    bench.check(digest)
    row("put-file of 1 GiB", plain / put, "speed of digest, append, sync", memory)
    row("put-file of 1 GiB", hashing / put, "speed of openssl dgst -sha224", None)
    get, hashing = in_turn(bench.get, bench.hash)
    row("get-file of 1 GiB", hashing / get, "speed of openssl dgst -sha224", bench.peak(bench.get_words(), "/dev/null"))


if __name__ == "__main__":
    main(*sys.argv[1:])
