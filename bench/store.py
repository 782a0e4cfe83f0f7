"""Times the opening of large stores, and puts, against programs that do the least of it.

    store.py PROGRAM APPEND_SYNC FOLDER

A store is opened by `stat` of a ref that isn't in it. Each time is the best of three, taken in turn with that of the
compared program. The packs are written here, not put. Prints ratios and peaks as a table.
"""

import pathlib
import shutil
import subprocess
import sys
import time

from compare import MIB, TIMES
from make_pack import record, reference

SMALL_BLOBS, SMALL = 100_000, 300
PUTS = 300
NOWHERE = reference.ref_of(b"a blob that is nowhere")


# Stores

def write_store(folder, blobs):
    """Writes packs as puts would: each takes records while it is below the limit. Returns their bytes."""
    folder.mkdir()
    total, room, file = 0, 0, None
    for number, blob in enumerate(blobs):
        if room <= 0:
            path = folder / reference.pack_name(len(list(folder.iterdir())))
            file = open(path, "wb")
            room = reference.BYTES_OF_A_FULL_PACK
        written = file.write(record(blob))
        total, room = total + written, room - written
    file.close()
    return total


def small_blobs():
    return (b"%015d" % number * (SMALL // 15) for number in range(SMALL_BLOBS))


def large_blobs():
    return (number.to_bytes(8, "big") * (MIB // 8) for number in range(1_024))


# Measuring

def run(words, source=b"", status=0):
    """Runs a program that has to end with the status; returns its seconds."""
    start = time.monotonic()
    ended = subprocess.run(words, input=source, stdout=subprocess.PIPE, stderr=subprocess.DEVNULL)
    seconds = time.monotonic() - start
    if ended.returncode != status:
        sys.exit(f"{' '.join(map(str, words))}: status {ended.returncode}, not {status}")
    return seconds


def peak(words, source=b""):
    """The most bytes of memory that a program had, by /usr/bin/time: a child of this script would count the script's
    own too."""
    timer = shutil.which("time", path="/usr/bin:/bin")
    if timer is None:
        return None
    ended = subprocess.run([timer, "-q", "-f", "%M", *words], input=source, stdout=subprocess.DEVNULL, stderr=subprocess.PIPE)
    return int(ended.stderr.split()[-1]) * 1_024


def in_turn(*jobs):
    """The best times of jobs that are done one after another, several times."""
    times = [[job() for job in jobs] for _ in range(TIMES)]
    return [min(column) for column in zip(*times)]


class Bench:
    def __init__(self, program, append_sync, folder):
        self.program = program
        self.append_sync = append_sync
        self.folder = pathlib.Path(folder)
        self.puts = 0

    def open_words(self, store):
        return [self.program, "stat", str(store), NOWHERE]

    def open(self, store):
        return run(self.open_words(store), status=3)

    def new_blob(self):
        self.puts += 1
        return b"blob %d" % self.puts

    def put(self, store):
        return run([self.program, "put", str(store)], self.new_blob())

    def large_store(self, what, name, blobs):
        """Measures a store: its opening, and a put into it. Returns the bytes of its packs and the peak of its
        opening."""
        store = self.folder / name
        size = write_store(store, blobs)
        packs = sorted(map(str, store.iterdir()))
        opening, hashing = in_turn(lambda: self.open(store), lambda: run(["openssl", "dgst", "-sha224", *packs]))
        put, opening_again = in_turn(lambda: self.put(store), lambda: self.open(store))
        memory, memory_of_put = peak(self.open_words(store)), peak([self.program, "put", str(store)], self.new_blob())
        row(f"open {what}", hashing / opening, "speed of openssl dgst -sha224", memory)
        row(f"put into {what}", put / opening_again, "time of opening it", memory_of_put)
        shutil.rmtree(store)
        return size, memory

    def many_puts(self):
        """Measures a loop of puts, each with a start of the program, with the starts and without."""
        record_size = len(record(bytes(SMALL)))
        log = self.folder / "log"

        def puts():
            store = self.folder / "puts"
            shutil.rmtree(store, ignore_errors=True)
            return sum(run([self.program, "put", str(store)], b"%015d" % number * (SMALL // 15)) for number in range(PUTS))

        def starts():
            return sum(self.open(self.folder / "none") for _ in range(PUTS))

        def appends():
            log.unlink(missing_ok=True)
            return run([self.append_sync, str(log), str(PUTS), str(record_size)])

        put_time, start_time, append_time = in_turn(puts, starts, appends)
        row(f"{PUTS} puts of {SMALL} bytes", append_time / put_time, "speed of append and fdatasync", None)
        row("the same without the starts", append_time / max(put_time - start_time, 1e-9), "speed of append and fdatasync", None)


def row(job, ratio, of, memory):
    told = "" if memory is None else f"{memory / MIB:9.1f}"
    print(f"{job:40} {ratio:8.2f}  {of:30} {told}", flush=True)


def main(program, append_sync, folder):
    bench = Bench(program, append_sync, folder)
    print(f"{'job':40} {'ratio':>8}  {'of what':30} {'peak MiB':>9}")
    size, memory = bench.large_store("100,000 blobs of 300 bytes", "small", small_blobs())
    bench.large_store("1 GiB in blobs of 1 MiB", "large", large_blobs())
    bench.many_puts()
    none = peak(bench.open_words(bench.folder / "none"))
    if memory is None or none is None:
        print("peaks aren't measured, as /usr/bin/time isn't there")
        return
    a_blob = (memory - none - size) / SMALL_BLOBS
    print(f"memory: {a_blob:.0f} bytes a blob = (peak with {SMALL_BLOBS:,} blobs - peak with none - the pack, which is read whole)")
    print(f"        / {SMALL_BLOBS:,} = ({memory:,} - {none:,} - {size:,}) / {SMALL_BLOBS:,}")


if __name__ == "__main__":
    main(*sys.argv[1:])
