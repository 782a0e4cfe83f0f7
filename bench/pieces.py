"""Measures the peak memory of commands that read a pack in pieces, and the processor time of searches beside a listing.

    pieces.py PROGRAM KIND FOLDER

The folder has what make_pack.py has written for the kind. For `list` the memory per blob is printed too, since an open
store keeps a row for each. Times are processor times, the best of three, in turn. Ends with status 1 if an answer is
wrong.
"""

import os
import pathlib
import resource
import subprocess
import sys
import tempfile

from store import MIB, in_turn, peak, record, reference

MOST_BLOBS = 4_194_304
# So many small blobs come a byte at a time, and twice as many.
BY_BYTES = 20_000
RECORD = len(record(bytes(300)))


def lines_of(words):
    """The number of lines that a program writes, which has to end with status 0."""
    with tempfile.TemporaryFile() as sink:
        subprocess.run(words, stdout=sink, check=True)
        sink.seek(0)
        return sum(1 for _ in sink)


def peak_of_search(program, folder):
    """The peak of `search-pack` over the pack, whose output has to be the answer that was written with the pack."""
    with open(folder / "pack", "rb") as pack, tempfile.TemporaryFile() as told:
        words = ["/usr/bin/time", "-q", "-f", "%M", program, "search-pack", "tag", "t0"]
        ended = subprocess.run(words, cwd=folder, stdin=pack, stdout=subprocess.PIPE, stderr=told)
        told.seek(0)
        if ended.returncode != 0 or ended.stdout != (folder / "answer").read_bytes():
            sys.exit(f"search-pack ends with status {ended.returncode}, or its answer is wrong")
        return int(told.read().split()[-1]) * 1_024


def processor(words, source, answer, **how):
    """A job that returns a program's processor seconds. If an output is given, the program has to write it."""
    def job():
        before = resource.getrusage(resource.RUSAGE_CHILDREN)
        ended = subprocess.run(words, input=source, stdout=subprocess.PIPE, check=True, **how)
        after = resource.getrusage(resource.RUSAGE_CHILDREN)
        if answer is not None and ended.stdout != answer:
            sys.exit(f"{' '.join(map(str, words))}: a wrong answer")
        return after.ru_utime + after.ru_stime - before.ru_utime - before.ru_stime
    return job


def compare_times(program, kind, store, folder):
    """The processor time of a search and of a query, beside that of a listing."""
    answer = (folder / "answer").read_bytes()
    (store / "keyring").write_bytes((folder / "keyring").read_bytes())
    query = b'{"constraint":{"permanode":{"attr":"tag","value":"t0"}}}'
    jobs = [
        processor([program, "list", str(store), "--limit=1"], b"", None),
        processor([program, "search", str(store), "--attr", "tag", "--value", "t0"], b"", answer),
        processor([program, "query", str(store)], query, answer),
    ]
    listing, search, asked = in_turn(*jobs)
    print(f"{kind}: search: {search / listing:.2f} of the processor time of list, query: {asked / listing:.2f}", flush=True)


def compare_bytes(program, folder):
    """The processor time of `search-pack` when each read gives one byte, for a pack of small blobs and for its first
    half."""
    with open(folder / "pack", "rb") as file:
        pack = file.read(2 * BY_BYTES * RECORD)
    how = {"cwd": folder, "env": {**os.environ, "LD_PRELOAD": str(folder / "one_byte.so")}}
    words, answer = [program, "search-pack", "tag", "t0"], (folder / "answer").read_bytes()
    half, whole = in_turn(*(processor(words, pack[:size], answer, **how) for size in (len(pack) // 2, len(pack))))
    print(f"small-blobs: search-pack, a byte a read: {whole / half:.2f} of the processor time for twice the bytes", flush=True)


def main(program, kind, folder):
    folder = pathlib.Path(folder)
    store = folder / "store"
    store.mkdir(exist_ok=True)
    pack = store / reference.pack_name(0)
    pack.unlink(missing_ok=True)
    os.link(folder / "pack", pack)
    blobs = lines_of([program, "list", str(store), "--limit", str(MOST_BLOBS)])
    listing = peak([program, "list", str(store)])
    print(f"{kind}: list: peak {listing / MIB:.0f} MiB, {listing / blobs:.0f} bytes for each of {blobs} blobs", flush=True)
    print(f"{kind}: salvage: peak {peak([program, 'salvage', str(store)]) / MIB:.0f} MiB", flush=True)
    print(f"{kind}: search-pack: peak {peak_of_search(program, folder) / MIB:.0f} MiB", flush=True)
    compare_times(program, kind, store, folder)
    if kind == "small-blobs":
        compare_bytes(program, folder)


if __name__ == "__main__":
    main(*sys.argv[1:])
