"""Many programs over one folder at once: writers beside writers, some of which are killed, readers beside a writer, and
a locked folder.

One writer works at a time: a put waits for the lock of the folder, about ten seconds at most. Readers wait for nobody.
A blob counts as acknowledged once its put has printed its ref and ended.
"""

import concurrent.futures
import fcntl
import itertools
import json
import os
import signal
import subprocess
import threading
import time

import harness
import inputs
import reference
from harness import chance, check, compare, compare_ending
from reference import ref_of
from stores import NOTHING_FOUND, Store, lines_of, look
from writing import attribute_payload, key_blob, pack, permanode, signed

WRITERS, PUTS = 8, 200
SECONDS_OF_WAITING = 10


def at_once(tasks, workers):
    """Runs tasks, so many at a time; returns their results, in their order. The first difference is raised after all
    have ended."""
    with concurrent.futures.ThreadPoolExecutor(workers) as pool:
        return [done.result() for done in [pool.submit(task) for task in tasks]]


def blobs_of_all_sizes(random, count):
    """Different blobs, most of them small."""
    return [b"%d " % number + random.randbytes(random.choice((0, 10, 300, 5_000, 70_000))) for number in range(count)]


def found_in(what, store, blobs):
    """Each of the blobs is in the packs, with its bytes."""
    store.packs = reference.packs_of(store.files())
    stand = store.blobs()
    lost = [ref_of(blob) for blob in blobs if stand.get(ref_of(blob)) != blob]
    compare(what, "acknowledged blobs that are lost", [], lost)


# Writers beside writers

def writers(program):
    """Puts by several programs at a time into a folder that isn't there: all succeed, no blob is lost, none is there
    twice, no pack is torn."""
    return [lambda turn=turn: put_side_by_side(program, turn) for turn in range(2)]


def put_side_by_side(program, turn):
    what, store = f"{PUTS} puts by {WRITERS} at once", Store(program)
    blobs = blobs_of_all_sizes(chance(what, turn), PUTS)
    # Some blobs are put by all writers at the same time.
    blobs[:WRITERS] = [b"the same for all"] * WRITERS

    def put(blob):
        program.check(what, store.words("put"), ref_of(blob).encode() + b"\n", source=blob)

    at_once([lambda blob=blob: put(blob) for blob in blobs], WRITERS)
    found_in(what, store, blobs)
    salvaged = [reference.salvage(content) for content in store.packs.values()]
    compare(what, "broken places", [None] * len(salvaged), [broken for _, broken in salvaged])
    compare(what, "records", len(set(blobs)), sum(len(found) for found, _ in salvaged))
    store.lists(what)


def killed_writers(program):
    """The same with a tenth of the programs killed: each ref that was printed is found, and those that weren't killed
    succeed."""
    return [lambda turn=turn: put_and_kill(program, turn) for turn in range(2)]


def put_and_kill(program, turn):
    what, store = f"{PUTS} puts by {WRITERS} at once, some killed", Store(program)
    random = chance(what, turn)
    blobs = blobs_of_all_sizes(random, PUTS)
    deaths = {number: random.uniform(0, 0.1) for number in random.sample(range(PUTS), PUTS // 10)}

    def put(number):
        ref = ref_of(blobs[number]).encode() + b"\n"
        process = program.start(store.words("put"), stdin=subprocess.PIPE, stdout=subprocess.PIPE)
        if number in deaths:
            threading.Timer(deaths[number], process.send_signal, [signal.SIGKILL]).start()
        out, err = harness.finish(what, process, blobs[number])
        if number in deaths and process.returncode == -signal.SIGKILL:
            check(f"{what}: it printed {out} and not {ref}", out in (b"", ref))
        else:
            compare_ending(what, 0, process.returncode, err)
            compare(what, "standard output", ref, out)
        return out == ref

    printed = at_once([lambda number=number: put(number) for number in range(PUTS)], WRITERS)
    check(f"{what}: hardly any was printed", sum(printed) >= PUTS * 9 // 10)
    found_in(what, store, list(itertools.compress(blobs, printed)))
    store.lists(what)
    store.put(f"{what}, the next put", b"the next")
    store.gets(f"{what}, the next put", [ref_of(b"the next"), ref_of(blobs[printed.index(True)])])


# Readers beside a writer

class Beside:
    """A store that grows by a writer while others read: the acknowledged blobs, and the permanodes that have a tag by
    them."""

    def __init__(self, program):
        self.program = program
        self.store = Store(program, {0: pack(key_blob())}, {"keyring": inputs.KEYRING})
        nodes = [permanode(f"{number:032x}") for number in range(34)]
        claims = [signed(attribute_payload("set", ref_of(node), "tag", "a", inputs.DATE)) for node in nodes]
        others = blobs_of_all_sizes(chance("readers"), 34)
        self.blobs = [blob for three in zip(claims, nodes, others) for blob in three][:100]
        self.node_at = {3 * number + 1: ref_of(node) for number, node in enumerate(nodes)}
        self.acknowledged = 0
        self.is_done = False

    def write(self):
        try:
            for blob in self.blobs:
                self.program.check("a put beside readers", self.store.words("put"), ref_of(blob).encode() + b"\n", source=blob)
                self.acknowledged += 1
        finally:
            self.is_done = True

    def read(self, command, random):
        """Reads until the writer is done, at least once; returns how often."""
        for count in itertools.count(1):
            is_last = self.is_done
            self.read_once(command, self.acknowledged, random)
            if is_last:
                return count

    def read_once(self, command, known, random):
        what, blob = f"{command} beside a put, {known} blobs in", random.choice(self.blobs[:known] or [key_blob()])
        ref, words = ref_of(blob), lines_of(self.store.path)[command]
        if command in ("get", "stat"):
            words = self.store.words(command, ref)
        status, out, err = self.program.run(what, words)
        compare_ending(what, 0, status, err)
        if command == "get":
            compare(what, "its bytes", blob, out)
        elif command == "stat":
            compare(what, "its line", reference.entry(ref, blob), out)
        elif command in ("search", "words"):
            found = {one["blob"] for one in json.loads(out)["blobs"]}
            compare(what, "permanodes that are missing", set(), self.nodes(known) - found)
            compare(what, "permanodes that are too many", set(), found - self.nodes(len(self.blobs)))
        else:
            told = {word.decode() for line in out.splitlines() for word in line.split() if word.startswith(b"sha224-")}
            compare(what, "refs that are missing", set(), {ref_of(blob) for blob in self.blobs[:known]} - told)
            compare(what, "refs that are too many", set(), told - {ref_of(blob) for blob in [key_blob(), *self.blobs]})

    def nodes(self, known):
        return {ref for place, ref in self.node_at.items() if place < known}


def readers(program):
    """Each returns all that was acknowledged when it began, and nothing that never was, while a hundred blobs are
    put."""
    return [lambda: read_beside(program)]


def read_beside(program):
    beside = Beside(program)
    reading = ("get", "stat", "list", "search", "words", "salvage")
    tasks = [lambda command=command: beside.read(command, chance("readers", command)) for command in reading]
    counts = at_once([beside.write, *tasks], len(reading) + 1)[1:]
    found_in("readers beside a put", beside.store, beside.blobs)
    told = ", ".join(f"{count} of {command}" for command, count in zip(reading, counts))
    print(f"readers: while 100 blobs were put, {told}", flush=True)


# A folder that is locked

class Locked:
    """The lock of a folder, held by this process."""

    def __init__(self, folder):
        self.folder = folder

    def __enter__(self):
        self.file = os.open(self.folder, os.O_RDONLY | os.O_DIRECTORY)
        fcntl.flock(self.file, fcntl.LOCK_EX)

    def __exit__(self, *_):
        os.close(self.file)


def locked(program):
    """A put waits for the lock, two seconds as well as not at all, and gives up after about ten; readers don't wait."""
    return [lambda check=check: check(program) for check in (waits_too_long, waits_and_puts, reads_on)]


def locked_store(program):
    return Store(program, {0: pack(b"abc"), 1: pack(b"def") + b"[torn"}, {"keyring": inputs.KEYRING})


def waits_too_long(program):
    what, store = "a folder that stays locked", locked_store(program)
    before = look(store.path)
    with Locked(store.path):
        start = time.monotonic()
        program.check(what, store.words("put"), status=7, source=b"new")
        seconds = time.monotonic() - start
    compare(what, "the folder", before, look(store.path))
    check(f"{what}: the put waited {seconds:.1f} seconds", SECONDS_OF_WAITING - 1 <= seconds <= 2 * SECONDS_OF_WAITING)
    store.put(f"{what}, until it isn't", b"new")


def waits_and_puts(program):
    what, store = "a folder that is locked for two seconds", locked_store(program)
    packs = reference.put(store.packs, b"new")
    with Locked(store.path):
        process = program.start(store.words("put"), stdin=subprocess.PIPE, stdout=subprocess.PIPE)
        process.stdin.write(b"new")
        process.stdin.close()
        process.stdin = None
        time.sleep(2)
        compare(what, "the end of the put, before the lock is free", None, process.poll())
        store.check_files(what)
    out, err = harness.finish(what, process)
    compare_ending(what, 0, process.returncode, err)
    compare(what, "standard output", ref_of(b"new").encode() + b"\n", out)
    store.packs = packs
    store.check_files(what)


def reads_on(program):
    store = locked_store(program)
    endings = {"get": (b"abc", 0), "stat": (reference.entry(ref_of(b"abc"), b"abc"), 0)}
    endings |= {"search": (NOTHING_FOUND, 0), "words": (NOTHING_FOUND, 0)}
    endings |= {"list": (reference.listing(store.blobs()), 0), "salvage": (reference.salvage_text(store.packs), 0)}
    with Locked(store.path):
        for command, (out, status) in endings.items():
            start = time.monotonic()
            store.keeps(f"{command}, a locked folder", lines_of(store.path)[command], out, status)
            seconds = time.monotonic() - start
            check(f"{command}, a locked folder: it took {seconds:.1f} seconds", seconds < SECONDS_OF_WAITING / 2)


if __name__ == "__main__":
    # The first takes ten seconds of waiting, in which the others of its group run too.
    harness.main("writers.sh", [locked], [writers, killed_writers, readers])
