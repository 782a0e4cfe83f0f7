"""Times commands, servers and yardsticks of two builds, an older one and the current one, and prints how they compare.

    older.py PROGRAM OLDER FOLDER [--labs LAB OLDER_LAB] [--rows NAME ..] [--size small] [--any-level]

Each row is measured nine times with both, in turn, and the medians count: of processor time, and of wall time. A figure
above 1 is faster than the older one. Ends with status 1 if the two give different answers in some row, or one of them
fails; the other rows are still measured.
"""

import argparse
import functools
import hashlib
import os
import pathlib
import random
import shutil
import statistics
import subprocess
import sys
import tempfile
import time
from typing import NamedTuple

from compare import MIB
from levels import ANY_LEVEL, tell_levels
# Before the tests' modules: these imports put the tests' folder first in the search path.
from serve import TICKS_A_SECOND, small_blobs, ticks
from store import write_store

import harness
from costs import HEADERS, ask
from http_inputs import blob_target, get
from make_pack import KEYRING, START
from reference import pack_name, ref_of
from serving import HOST, Server
from writing import file_blobs, load_blobs

ROUNDS = 9


class Failed(Exception):
    """Why a row can't be measured."""


class Took(NamedTuple):
    processor: float
    wall: float


class Build:
    """A program, and the one of crates/lab that was built with it, if there is one."""

    def __init__(self, program, lab, folder):
        self.program, self.lab = program, lab
        self.served = harness.Program(program, folder)


class Store:
    """A store of some blobs, which is written here: its folder, its first and its last blob."""

    def __init__(self, folder, blobs):
        self.folder, self.pack = folder, folder / pack_name(0)
        self.first = self.last = None
        write_store(folder, map(self.note, blobs))
        (folder / "keyring").write_bytes(KEYRING)

    def note(self, blob):
        self.first, self.last = self.first or blob, blob
        return blob


# Stores, each of so many blobs

def large_blobs(count):
    noise = random.Random(1)
    return (noise.randbytes(MIB) for _ in range(count))


def notes(count):
    return load_blobs(count, START)


def file(count):
    return file_blobs("input", list(large_blobs(count)))


# What is measured: functions of a build and a store, which return the cost, and what has to be the same for both

def ran(words, source=os.devnull, sink=None, folder=None):
    """Runs a program to its end, over a file and in a folder; returns its output if no other sink is named."""
    with open(source, "rb") as read, open(sink, "wb") if sink else tempfile.TemporaryFile() as out:
        begun = time.monotonic()
        child = subprocess.Popen([*map(str, words)], stdin=read, stdout=out, cwd=folder)
        _, status, usage = os.wait4(child.pid, 0)
        wall = time.monotonic() - begun
        child.returncode = os.waitstatus_to_exitcode(status)
        if child.returncode != 0:
            raise Failed(f"{words[0]} {words[1]}: status {child.returncode}")
        return Took(usage.ru_utime + usage.ru_stime, wall), None if sink else answer_in(out)


def answer_in(out):
    out.seek(0)
    return hashlib.file_digest(out, "sha224").hexdigest()


def command(line, of="program"):
    """How to measure a command whose input is the store's first pack. It runs in the folder with the keyring that
    `search-pack` needs."""
    def measure(build, store):
        key = (store.folder / "keyring").read_text()
        words = [key if word == "KEY" else word.format(store=store.folder) for word in line.split()]
        return ran([getattr(build, of), *words], store.pack, folder=store.folder)

    measure.of = of
    return measure


def lab(line):
    return command(line, "lab")


def start(build, store):
    """A server's start: until it has answered a GET, which it does after it has read the store and made its index."""
    begun = time.monotonic()
    with Server(build.served, store.folder) as server:
        ask(server, "the first GET", get(blob_target(ref_of(store.first)), *HEADERS), store.first)
        wall = time.monotonic() - begun
        return Took(ticks(server.process.pid) / TICKS_A_SECOND, wall), None


def put_file(build, store):
    """A file of the first pack's bytes, into a new store."""
    new = build.served.new_path()
    try:
        return ran([build.program, "put-file", new, "input"], store.pack)
    finally:
        shutil.rmtree(new, ignore_errors=True)


def get_file(build, store):
    words = build.program, "get-file", store.folder, ref_of(store.last)
    return ran(words, sink=os.devnull)[0], what_it_writes(words)


@functools.cache
def what_it_writes(words):
    return ran(words)[1]


def copy(name):
    """A copy of a store to an empty one, by a command and a server: the processor time is that of both, while they
    run."""
    def measure(build, store):
        new = build.served.new_path()
        new.mkdir()
        own, served = (store.folder, new) if name == "push" else (new, store.folder)
        try:
            with Server(build.served, served) as server:
                took, answer = ran([build.program, name, own, f"{HOST}:{server.port}"])
                return took._replace(processor=took.processor + ticks(server.process.pid) / TICKS_A_SECOND), answer
        finally:
            shutil.rmtree(new)

    return measure


LIST, SEARCH = "list {store} --limit=4194304", "search {store} --attr=tag --value=t0"
SEARCH_PACK, ASKED = "search-pack tag t0", "KEY tag t0"
# The rows, by their stores: which blobs these have, how many, and how many at the size `small`.
ROWS = {
    "1 GiB of 1 MiB blobs": (large_blobs, 1_024, 8, {
        "list-large": command(LIST),
        "search-large": command(SEARCH),
        "salvage-large": command("salvage {store}"),
        "search-pack-large": command(SEARCH_PACK),
        "start-large": start,
        "scan-large": lab("scan"),
    }),
    "100,000 blobs of 300 bytes": (small_blobs, 100_000, 1_000, {
        "list-small": command(LIST),
        "salvage-small": command("salvage {store}"),
        "start-small": start,
        "scan-small": lab("scan"),
    }),
    "100,000 blobs of notes": (notes, 100_000, 1_000, {
        "list-notes": command(LIST),
        "search-notes": command(SEARCH),
        "search-pack-notes": command(SEARCH_PACK),
        "start-notes": start,
        "insert": lab(f"insert {ASKED}"),
        "insert-backwards": lab(f"insert-backwards {ASKED}"),
        "fill": lab(f"fill {ASKED}"),
    }),
    "a file of 256 MiB": (file, 256, 4, {"put-file": put_file, "get-file": get_file}),
    "10,000 blobs of 300 bytes": (small_blobs, 10_000, 100, {"push": copy("push"), "pull": copy("pull")}),
}
NAMES = [name for *_, rows in ROWS.values() for name in rows]


# The table

def row(what, *columns):
    print(f"{what:20}" + "".join(f"{column:>13}" for column in columns), flush=True)


def columns_of(now, older):
    return f"{now:.3f} s", f"{older:.3f} s", f"{older / now:.2f}" if now else ""


def compare(name, measure, builds, store):
    """Measures both in turn, and prints their row."""
    took = [], []
    for number in range(ROUNDS):
        answers = []
        for which in (0, 1) if number % 2 else (1, 0):
            seconds, answer = measure(builds[which], store)
            took[which].append(seconds)
            answers.append(answer)
        if answers[0] != answers[1]:
            raise Failed("the two answer otherwise")
    now, older = (Took(*map(statistics.median, zip(*seconds))) for seconds in took)
    row(name, *columns_of(now.processor, older.processor), *columns_of(now.wall, older.wall))


def compare_all(builds, folder, chosen, is_small):
    """Prints the chosen rows; returns whether all of them could be measured."""
    all_told = True
    for number, (what, (blobs, count, few, rows)) in enumerate(ROWS.items()):
        rows = {name: measure for name, measure in rows.items() if name in chosen}
        if not rows:
            continue
        print(f"over {what}{', but few of them' if is_small else ''}:", flush=True)
        store = Store(folder / f"store-{number}", blobs(few if is_small else count))
        for name, measure in rows.items():
            try:
                compare(name, measure, builds, store)
            except (Exception, SystemExit) as why:
                print(f"{name}: {why}", flush=True)
                all_told = False
        shutil.rmtree(store.folder)
    return all_told


def needs_lab(name):
    return any(getattr(rows.get(name), "of", "") == "lab" for *_, rows in ROWS.values())


def main():
    parser = argparse.ArgumentParser(usage=__doc__.splitlines()[2].strip())
    parser.add_argument("program")
    parser.add_argument("older")
    parser.add_argument("folder", type=pathlib.Path)
    parser.add_argument("--labs", nargs=2, default=[None, None])
    parser.add_argument("--rows", nargs="+", choices=NAMES, default=[])
    parser.add_argument("--size", choices=["full", "small"], default="full")
    parser.add_argument(ANY_LEVEL, action="store_true")
    given = parser.parse_args()
    if not given.labs[0] and any(map(needs_lab, given.rows)):
        parser.error("a row needs the two programs of crates/lab")
    for pair in filter(all, ((given.program, given.older), given.labs)):
        tell_levels(*pair, given.any_level)
    builds = [Build(*both, given.folder) for both in zip((given.program, given.older), given.labs)]
    chosen = given.rows or [name for name in NAMES if given.labs[0] or not needs_lab(name)]
    row("medians of nine", "processor", "of the older", "part", "wall", "of the older", "part")
    sys.exit(0 if compare_all(builds, given.folder, chosen, given.size == "small") else 1)


if __name__ == "__main__":
    main()
