"""Kills the program while it puts blobs, and finds afterwards every blob whose ref was printed.

A shell puts blobs of 1 byte to 300,000 bytes into a store, one after another, and its whole process group is killed by
SIGKILL: after a random time, or as soon as a pack is seen to grow; in that case some blobs are longer. The next shell
continues with the same store. A ref counts as printed once its whole line was read. After each kill the packs are
compared with their expected content, and in the end each printed ref is requested. As each start reads the whole store,
the kills are distributed over a few stores.

A kill can't show that a record was synced before its ref was printed: the kernel keeps what a killed program has
written. The group `syncs` of faults.sh checks that.

Then `put-file` is killed while it puts files of a few MiB, an eighth as many times. After each kill a prefix of the
file's blobs has to be there, and all of them if its ref was printed.
"""

import collections
import concurrent.futures
import math
import os
import signal
import subprocess
import time

import harness
import reference
from harness import Difference, chance, compare
from reference import pack_name, ref_of
from writing import chunks_of, file_blobs

LARGEST, LARGEST_WATCHED = 300_000, 1_048_576
PUTS_A_ROUND = 5
KILLS = int(os.environ.get("KILLS") or 200)
STORES = 4
AT_ONCE = 4
SECONDS_TO_WATCH = 5
LOOP = 'program=$1; store=$2; shift 2; for blob; do "$program" put "$store" <"$blob" || exit; done'


class Round:
    """The shell that puts blobs, from its start to its death."""

    def __init__(self, program, store, files):
        words = ["bash", "-c", LOOP, "loop", program, str(store), *map(str, files)]
        self.process = subprocess.Popen(words, start_new_session=True, stdin=subprocess.DEVNULL, stdout=subprocess.PIPE)

    def watch(self, pack, growths):
        """Waits until a pack was seen to grow so many times, or until nothing more can come."""
        last = size_of(pack)
        until = time.monotonic() + SECONDS_TO_WATCH
        while growths > 0 and time.monotonic() < until and not self.has_ended():
            for _ in range(100):
                now = size_of(pack)
                if now != last:
                    last = now
                    growths -= 1
                    break

    def has_ended(self):
        """Whether the shell has ended. It isn't waited for, so that its process group can still be killed."""
        return os.waitid(os.P_PID, self.process.pid, os.WEXITED | os.WNOHANG | os.WNOWAIT) is not None

    def kill(self):
        """Kills the shell and all that it has started; returns the whole lines that were printed, and whether all puts
        were done."""
        os.killpg(self.process.pid, signal.SIGKILL)
        out = self.process.stdout.read()
        status = self.process.wait()
        self.process.stdout.close()
        if status not in (0, -signal.SIGKILL):
            raise Difference(f"a put ended with status {status}")
        return [line.decode() for line in out.split(b"\n")[:-1]], status == 0


def size_of(file):
    try:
        return os.stat(file).st_size
    except FileNotFoundError:
        return None


class Killed:
    """A store whose puts are killed, its content, and what was printed."""

    def __init__(self, program, chance):
        self.program = program
        self.scratch = program.new_path()
        self.scratch.mkdir()
        self.store = self.scratch / "store"
        self.chance = chance
        self.packs = {}
        self.stored = set()
        self.printed = {}
        self.cut_off = None
        self.seconds_of_a_put = 0.02
        self.endings = collections.Counter()

    def one_round(self):
        is_watched = self.chance.random() < 0.5
        blobs = [self.random_blob(is_watched) for _ in range(PUTS_A_ROUND)]
        if self.cut_off is not None and self.chance.random() < 0.5:
            blobs[0] = self.cut_off
        files = [self.scratch / f"blob-{number}" for number in range(PUTS_A_ROUND)]
        for file, blob in zip(files, blobs):
            file.write_bytes(blob)
        start = time.monotonic()
        one = Round(self.program.path, self.store, files)
        self.wait(one, is_watched)
        lines, is_done = one.kill()
        if lines:
            self.seconds_of_a_put = (self.seconds_of_a_put + (time.monotonic() - start) / len(lines)) / 2
        self.settle(blobs, lines, is_done)

    def random_blob(self, is_watched):
        """Mostly a small blob. If its write is watched, some are long, so that the kill comes within the write."""
        if is_watched and self.chance.random() < 0.25:
            return self.chance.randbytes(self.chance.randrange(LARGEST, LARGEST_WATCHED))
        return self.chance.randbytes(int(math.exp(self.chance.uniform(0, math.log(LARGEST)))))

    def wait(self, one, is_watched):
        """Lets the shell continue for a random time, or until it is seen to write."""
        if is_watched:
            one.watch(self.store / pack_name(reference.pack_for_the_next_record(self.packs)), self.chance.randrange(1, 4))
            if self.chance.random() < 0.3:
                time.sleep(self.chance.uniform(0, 0.0005))
        else:
            time.sleep(self.chance.uniform(0, 3) * self.seconds_of_a_put)

    def settle(self, blobs, lines, is_done):
        """Compares what was printed, and what is then stored, with the blobs."""
        what, refs = f"kill {self.endings.total()}", list(map(ref_of, blobs))
        compare(what, "refs printed", refs if is_done else refs[: len(lines)], lines)
        self.printed.update(zip(lines, blobs))
        self.cut_off = blobs[len(lines)] if len(lines) < len(blobs) else None
        added, ending = self.look(what)
        fresh = [ref for ref in dict.fromkeys(lines) if ref not in self.stored]
        compare(what, "the printed refs in the packs", fresh, added[: len(fresh)])
        unsaid = added[len(fresh) :]
        compare(what, "a ref in the packs that wasn't printed", refs[len(lines) :][: min(1, len(unsaid))], unsaid)
        self.stored.update(added)
        unfinished = "a blob that is stored, not printed" if unsaid else ending or "nothing of the blob stored"
        self.endings["all puts done" if is_done else unfinished] += 1

    def look(self, what):
        """The refs of the records that were added, and the unfinished rest, if any. All else must be unchanged."""
        packs = self.packs_there()
        growing = self.growing_pack()
        added, ending = [], None
        for number, content in sorted(packs.items()):
            old = self.packs.get(number, b"")
            may_grow = number == growing or number not in self.packs
            compare(what, f"what stood in {pack_name(number)}", old, content[: len(old)] if may_grow else content)
            found, broken = reference.salvage(content[len(old) :])
            added += [one.ref for one in found]
            if broken is not None:
                ending = "a torn record"
            elif not content and number not in self.packs:
                ending = "a pack without a record"
        compare(what, "packs that are gone", set(), set(self.packs) - set(packs))
        self.packs = packs
        return added, ending

    def packs_there(self):
        files = self.store.iterdir() if self.store.exists() else ()
        return reference.packs_of({file.name: file.read_bytes() for file in files})

    def growing_pack(self):
        """The pack that may be appended to, if there is one."""
        number = reference.pack_for_the_next_record(self.packs)
        return number if number in self.packs else None

    def one_file(self, number):
        """Puts a file for a random time, which is longer after a file that wasn't printed, and otherwise shorter."""
        what, content = f"file {number}", self.chance.randbytes(self.chance.randrange(2 << 20, 6 << 20))
        blobs = file_blobs("n", chunks_of(content))
        limit = ("timeout", "-sKILL", f"{self.chance.uniform(0.01, 2) * self.seconds_of_a_put:f}")
        _, out, err = self.program.run(what, ["put-file", str(self.store), "n"], content, front=limit)
        compare(what, "standard error", b"", err)
        refs, added = list(map(ref_of, blobs)), self.look(what)[0]
        compare(what, "standard output", refs[-1].encode() + b"\n" if out else b"", out)
        compare(what, "blobs that stand", refs if out else refs[: len(added)], added)
        self.printed.update(zip(refs, blobs) if out else ())
        self.seconds_of_a_put *= 0.7 if out else 1.5

    # Checks at the end

    def run(self, what, *words, source=b""):
        status, out, err = self.program.run(what, list(words), source)
        harness.compare_ending(what, 0, status, err)
        return out

    def ask(self):
        """Every printed ref is there with its bytes, salvage and list print all that is stored, and a put succeeds."""
        store = str(self.store)
        with concurrent.futures.ThreadPoolExecutor(AT_ONCE) as pool:
            for ref, got in zip(self.printed, pool.map(lambda ref: self.run(f"get {ref}", "get", store, ref), self.printed)):
                compare(f"get {ref}", "its bytes", self.printed[ref], got)
        compare("salvage", "its lines", reference.salvage_text(self.packs), self.run("salvage", "salvage", store))
        blob = b"after all kills"
        compare("a put", "its ref", ref_of(blob).encode() + b"\n", self.run("a put", "put", store, source=blob))
        self.packs = reference.put(self.packs, blob)
        compare("a put", "packs", self.packs, self.packs_there())
        blobs = reference.arrivals(self.packs)
        lines = self.run("list", "list", store, f"--limit={len(blobs)}")
        compare("list", "its lines", reference.listing(blobs, limit=len(blobs)), lines)


def kills(program):
    """Kills distributed over a few stores; each store is a check."""
    return [lambda number=number: one_store(program, number) for number in range(STORES)]


def one_store(program, number):
    killed = Killed(program, chance("kills", number))
    for _ in range(number, KILLS, STORES):
        killed.one_round()
    killed.ask()
    told = ", ".join(f"{count} with {ending}" for ending, count in sorted(killed.endings.items()))
    print(f"store {number}: {killed.endings.total()} kills ({told}); all {len(killed.printed)} printed refs are there", flush=True)


def files(program):
    killed = Killed(program, chance("files"))
    return [lambda: [*map(killed.one_file, range(KILLS // 2)), killed.ask()]]


if __name__ == "__main__":
    harness.main("kill.sh", [], [kills, files])
