"""Servers on a disk that is full, and over folders and packs that are removed. A blob that isn't durable in the store
isn't acknowledged, no acknowledged blob is lost, and nothing is left of a failed upload.
"""

import contextlib
import os
import pathlib
import shutil
import subprocess

import reference
from connections import Reply, json_text
from harness import LeftOut, check, compare
from http_inputs import blob_target, get, upload
from reference import pack_name, ref_of
from serving import Server, Talk, blob_reply, store_of, stored

MIB = 1 << 20
ROOM = 4 * MIB
FAILURES, FAILURES_AND_A_START = 2_000, 1_000
UNSTORED = Reply(503, json_text({"received": [], "error": "disk"}), closes=True)


def puts(what, server, *blobs):
    with Talk(server.port) as talk:
        for blob in blobs:
            talk.ask(what, upload(blob), stored(blob))


def fails(what, server, blob):
    with Talk(server.port) as talk:
        talk.ask(what, upload(blob), UNSTORED)
        talk.is_at_end(what)


def finds(what, server, *blobs):
    with Talk(server.port) as talk:
        for blob in blobs:
            talk.ask(what, get(blob_target(ref_of(blob))), blob_reply(blob))


# A full disk

# Mounts a disk in memory, says so, and stays.
MOUNT = ["unshare", "-Urm", "sh", "-c", 'mount -t tmpfs -o size="$0" tmpfs "$1" && echo mounted && exec cat', str(ROOM)]


def full(program):
    """A store on a disk of 4 MiB, which the system has in memory."""
    with mounted(program) as process:
        if process.stdout.readline() != b"mounted\n":
            raise LeftOut("no disk of its own can be mounted here")
    return [lambda check=check: with_small_disk(program, check) for check in (gives_room_back, leaves_nothing, counts_on)]


@contextlib.contextmanager
def mounted(program, folder=None):
    """A process that sees a small disk at a folder."""
    streams = {"stdin": subprocess.PIPE, "stdout": subprocess.PIPE, "stderr": subprocess.DEVNULL}
    with subprocess.Popen([*MOUNT, str(folder or program.working)], **streams) as process:
        yield process
        process.kill()


def with_small_disk(program, check_it):
    """Runs a check with a folder on a small disk, and the words before a program that is to see it."""
    folder = program.new_path()
    folder.mkdir()
    with mounted(program, folder) as process:
        compare("a small disk", "what its process says", b"mounted\n", process.stdout.readline())
        front = ("nsenter", "-t", str(process.pid), "-U", "-m", "--preserve-credentials")
        check_it(program, SmallDisk(folder, pathlib.Path(f"/proc/{process.pid}/root{folder}"), front))


class SmallDisk:
    """A folder of a store, as programs after `front` see it, and as it is seen from here."""

    def __init__(self, folder, seen, front):
        self.folder, self.seen, self.front = folder / "store", seen / "store", front
        self.blobs = 0

    def serve(self, program, *words):
        return Server(program, self.folder, *words, front=self.front)

    def free(self):
        found = os.statvfs(self.seen)
        return found.f_bavail * found.f_bsize

    def packs(self):
        return {path.name: path.stat().st_size for path in sorted(self.seen.iterdir())}

    def blob(self, size):
        """A new blob of so many bytes."""
        self.blobs += 1
        return b"%08d" % self.blobs + bytes(size - 8)

    def fill(self, what, server):
        """Leaves little room: a small blob fits, and one of 64 KiB doesn't. The blob that fills it is read back."""
        blob = self.blob(self.free() - 32 * 1024)
        puts(what, server, blob)
        finds(what, server, blob)


def gives_room_back(program, disk):
    what = "an upload that doesn't fit"
    with disk.serve(program) as server:
        large, small = disk.blob(3 * MIB), disk.blob(MIB // 2)
        puts(what, server, large)
        before, packs = disk.free(), disk.packs()
        fails(what, server, disk.blob(2 * MIB))
        compare(what, "the room behind it", before, disk.free())
        compare(what, "the packs behind it", packs, disk.packs())
        puts(f"behind {what}", server, small)
        finds(f"behind {what}", server, large, small)
        compare(what, "the packs in the end", [pack_name(0), pack_name(1)], list(disk.packs()))


def leaves_nothing(program, disk):
    """Uploads that fail leave no open file, no file and no room taken, and no worker ends.

    A server has a pack open twice from the first read on, whether a client or an indexer reads first.
    """
    what = f"{FAILURES} uploads that fail"
    with disk.serve(program) as server:
        disk.fill(what, server)
        fails(what, server, disk.blob(MIB))
        before = (open_files(server), disk.packs(), disk.free())
        blob = disk.blob(64 * 1024)
        for _ in range(FAILURES):
            fails(what, server, blob)
        compare(what, "open files, packs and room", before, (open_files(server), disk.packs(), disk.free()))
        small = disk.blob(100)
        puts(f"behind {what}", server, small)
        with contextlib.ExitStack() as held:
            talks = [held.enter_context(Talk(server.port)) for _ in range(8)]
            for talk in talks:
                talk.ask(f"eight clients behind {what}", get(blob_target(ref_of(small))), blob_reply(small))


def open_files(server):
    """How many files the server has open. Sockets aren't counted: it listens a moment longer to a connection that it
    has ended."""
    links = (link_of(entry) for entry in pathlib.Path(f"/proc/{server.process.pid}/fd").iterdir())
    return sum(not link.startswith("socket:") for link in links)


def link_of(entry):
    """The target of a descriptor; that of a socket if it was closed meanwhile."""
    try:
        return os.readlink(entry)
    except FileNotFoundError:
        return "socket: closed"


def counts_on(program, disk):
    """After a start the numbers of packs continue after the last one that is there."""
    what = f"{FAILURES_AND_A_START} uploads that fail, and a start"
    with disk.serve(program) as server:
        disk.fill(what, server)
        blob = disk.blob(64 * 1024)
        for _ in range(FAILURES_AND_A_START):
            fails(what, server, blob)
    with disk.serve(program) as server:
        fails(what, server, blob)
        puts(what, server, disk.blob(100))
        compare(what, "the packs", [pack_name(0), pack_name(1)], list(disk.packs()))


# Folders and packs that are removed

def goes(program):
    """The folder of a store, or a pack, is removed while a server runs."""
    return [lambda check=check: check(program) for check in (moved_and_back, replaced, removed, pack_removed)]


def moved_and_back(program):
    what, store = "a folder that is moved and moved back", store_of(program, b"abc")
    aside = program.new_path()
    with Server(program, store.path) as server:
        puts(what, server, b"before")
        store.path.rename(aside)
        fails(what, server, b"meanwhile")
        fails(what, server, b"once more")
        check(f"{what}: the folder was made anew", not store.path.exists())
        finds(what, server, b"abc", b"before")
        aside.rename(store.path)
        puts(what, server, b"behind")
        finds(what, server, b"abc", b"before", b"behind")
    has_all(what, store, b"abc", b"before", b"behind")


def replaced(program):
    """Nothing is made in another folder in its place."""
    what, store = "a folder that is replaced", store_of(program, b"abc")
    aside = program.new_path()
    with Server(program, store.path) as server:
        puts(what, server, b"before")
        store.path.rename(aside)
        store.path.mkdir()
        for blob in (b"meanwhile", b"once more"):
            fails(what, server, blob)
        compare(what, "what stands in its place", [], os.listdir(store.path))
        store.path.rmdir()
        aside.rename(store.path)
        puts(what, server, b"behind")
    has_all(what, store, b"abc", b"before", b"behind")


def removed(program):
    what, store = "a folder that is removed", store_of(program, b"abc")
    with Server(program, store.path) as server:
        puts(what, server, b"before")
        shutil.rmtree(store.path)
        for blob in (b"meanwhile", b"once more"):
            fails(what, server, blob)
        check(f"{what}: the folder was made anew", not store.path.exists())


def pack_removed(program):
    """The blobs of a pack that the user removed are gone; those after it are kept."""
    what, store = "a pack that is removed", store_of(program, b"abc")
    with Server(program, store.path) as server:
        puts(what, server, b"before")
        (store.path / pack_name(0)).unlink()
        fails(what, server, b"meanwhile")
        puts(what, server, b"behind")
    has_all(what, store, b"behind")


def has_all(what, store, *blobs):
    """The packs hold these blobs, and are clean."""
    found = [reference.salvage(pack) for pack in reference.packs_of(store.files()).values()]
    compare(what, "broken places", [], [place for _, place in found if place is not None])
    refs = {one.ref for records, _ in found for one in records}
    compare(what, "blobs that are lost", set(), {ref_of(blob) for blob in blobs} - refs)
