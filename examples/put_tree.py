#!/usr/bin/env python3
"""Stores a folder in an archive, over HTTP: its files, folders and symbolic links, with their modes and times.

    put_tree.py 127.0.0.1:3179 ~/photos --name photos --keyring ~/archive/keyring

The blobs of the folder are those that Perkeep itself would store (docs/formats/trees.md). The archive gets

  one note for the tree, whose title is TREE, and whose camliContent is the top folder. The note is made first, which
      shows whether the server has the key. The content is set once everything else is stored, so at each moment TREE is
      the old folder or the new one, whole;
  one note for each file, so that it can be searched for: its title (set only once, so you may change it), its
      camliContent, and its path, which is TREE/.. with bytes that aren't UTF-8 as %XX.

A second run stores what has changed since. A file whose size, mtime and ctime are those of the last run isn't read
again, as long as the server has all of its blobs. When a file has gone, camliContent is taken from its note, which
keeps its title, its tags and its history. get_tree.py restores the folder, as it is now or was at an earlier date.

One line is printed for each file that is new or has changed, once the server has acknowledged it: the ref of the
file, that of its note, and its path. For each file that has gone there is a line with `gone`, its note, and its path if
that is known. The last line is the tree's. Standard error says what is left out: what can't be read, isn't a file,
folder or link, or was changed while it was read.

Left out as well, with a line but without status 1: folders that have packs (pack-NNNNN.blobs), such as the archive's
own, and the keyring: the file given by --keyring, and files named `keyring` that have its key.

If nothing is in PATH although TREE has files, nothing is stored, since a disk may not be mounted; with --empty TREE
becomes empty.

Not kept: owners, hard links (each name is a file of its own), extended attributes and holes. A file that was moved
gets another note, and tags stay on the old one. Use another TREE for each machine: otherwise each would consider the
other's files gone.

Status: 0 all is stored, 1 something was left out, 2 bad arguments, 3 it couldn't be done.
"""

from __future__ import annotations

import concurrent.futures
import dataclasses
import functools
import itertools
import json
import os
import pathlib
import stat
import sys
import time
from typing import BinaryIO, Callable, Iterator, NamedTuple, Optional

from perkeep_archive import (
    CHUNK, INCOMPLETE, LARGEST_SCHEMA, MOST_CHANGES, MOST_CHUNKS, MOST_PART_BYTES, MOST_PARTS, PACK_NAME, SECOND,
    Change, Key, Refused, Server, is_date, multi_claim, octets_field, octets_text, parser_of, part,
    read_keyring, ref_of, report, run, schema_blob, shown, static_sets, total_size, tree_note, unix_fields,
)

# The head and the signature of a claim have fewer bytes.
ROOM_OF_A_CLAIM = 1_024
# A change after a file was read may leave it the same ctime, within a tick of the system's clock; some file systems
# keep whole seconds, or every other one.
TICK, COARSE_TICK = SECOND // 50, 2 * SECOND
SECONDS_BETWEEN_SAVES = 60


# What there is

@dataclasses.dataclass
class Found:
    """A file, folder or link, by its path below the folder that is stored, and its ref once it has one."""

    path: bytes
    status: os.stat_result
    entries: list[Found] = dataclasses.field(default_factory=list)
    ref: Optional[str] = None

    @property
    def name(self) -> bytes:
        return os.path.basename(self.path)

    @property
    def kind(self) -> int:
        return stat.S_IFMT(self.status.st_mode)


class LeftOut:
    """What isn't stored, which is reported at once, and the paths of which nothing is."""

    def __init__(self) -> None:
        self.count = 0
        self.paths: set[bytes] = set()

    def add(self, path: bytes, why: object) -> None:
        self.paths.add(path)
        self.report(path, why.strerror if isinstance(why, OSError) else why)

    def add_private(self, path: bytes, why: str) -> None:
        """Adds what is never stored, so that it doesn't count."""
        self.paths.add(path)
        self.say(path, why)

    def has(self, path: bytes) -> bool:
        """Whether nothing is stored of this path, or of a folder that it is in."""
        while path not in self.paths and path:
            path = os.path.dirname(path)
        return path in self.paths

    def report(self, path: bytes, why: object) -> None:
        self.count += 1
        self.say(path, why)

    def say(self, path: bytes, why: object) -> None:
        report(f"left out: {shown(octets_text(path)) or '.'}: {why}")


class Keyring:
    """The file that has the key, which isn't stored, nor are files named `keyring` that have the key, too."""

    def __init__(self, path: pathlib.Path, key: Key):
        self.status, self.line = path.stat(), f"{key.name} {key.secret.hex()}\n".encode()

    def is_at(self, path: bytes, status: os.stat_result) -> bool:
        may_have_key = os.path.basename(path) == b"keyring" and stat.S_ISREG(status.st_mode)
        return os.path.samestat(status, self.status) or may_have_key and self.is_copied(path)

    def is_copied(self, path: bytes) -> bool:
        try:
            with open(path, "rb") as file:
                return self.line in file
        except OSError:
            return False


def walk(top: bytes, keyring: Keyring, left_out: LeftOut) -> list[Found]:
    """The folders, each of them before those in it, and with what is in it."""
    folders = [Found(b"", os.stat(top))]
    for folder in folders:
        folder.entries = list(found_in(top, folder.path, keyring, left_out))
        folders += [one for one in folder.entries if one.kind == stat.S_IFDIR]
    for one in itertools.chain(folders[:1], *(folder.entries for folder in folders)):
        if not is_date(one.status.st_mtime_ns):
            left_out.report(one.path, "its time alone, which is beyond the years 1 to 9999")
    return folders


def found_in(top: bytes, path: bytes, keyring: Keyring, left_out: LeftOut) -> Iterator[Found]:
    """What is in a folder, in the order of names."""
    try:
        with os.scandir(os.path.join(top, path)) as listing:
            entries = sorted(listing, key=lambda entry: entry.name)
    except OSError as why:
        left_out.add(path, why)
        return
    if any(PACK_NAME.fullmatch(os.fsdecode(entry.name)) and entry.is_file() for entry in entries):
        left_out.add_private(path, "it has packs, as the folder of an archive")
        return
    above = path + b"/" if path else b""
    for entry in entries:
        one = above + entry.name
        try:
            found = Found(one, entry.stat(follow_symlinks=False))
        except OSError as why:
            left_out.add(one, why)
            continue
        if found.kind not in (stat.S_IFREG, stat.S_IFLNK, stat.S_IFDIR):
            left_out.add(one, "no file, folder or symbolic link")
        elif keyring.is_at(entry.path, found.status):
            left_out.add_private(one, "it is a keyring with the key")
        else:
            yield found


# The cache

class Known(NamedTuple):
    """What an earlier run knows of a file: how it looked, its ref and those of its other blobs, its note, and the ref
    that the note was given."""

    size: int
    mtime: int
    ctime: int
    ref: str
    needs: list[str]
    note: str
    noted: Optional[str] = None

    def is_of(self, status: os.stat_result) -> bool:
        return (self.size, self.mtime, self.ctime) == looks_of(status)


def looks_of(status: os.stat_result) -> tuple[int, int, int]:
    return status.st_size, status.st_mtime_ns, status.st_ctime_ns


class Cache:
    """What earlier runs know of the files of a tree, by their paths. Losing it costs time, and nothing else.

    `top` is the folder that TREE was set to, where no claim was sent since: while the server says so too, the notes are
    as they are known.
    """

    def __init__(self, path: pathlib.Path, tree: str):
        self.path, self.tree = path, tree
        self.top: Optional[str] = None
        self.files: dict[bytes, Known] = {}
        # What the file has, as far as that is known.
        self.saved: Optional[tuple[Optional[str], dict[bytes, Known]]] = None
        self.saved_at = time.monotonic()
        try:
            self.load(json.loads(path.read_bytes()))
        except FileNotFoundError:
            pass
        except (OSError, ValueError, TypeError, KeyError, AttributeError):
            report(f"the cache {path} can't be read: all files are read anew")

    def load(self, content: dict) -> None:
        """Takes what was saved, unless it is of another tree."""
        if content["tree"] == self.tree:
            files = {name.encode(errors="surrogateescape"): Known(*row) for name, row in content["files"].items()}
            self.top, self.files = content["top"], files
            self.saved = self.top, dict(files)

    def save(self) -> None:
        """Writes what isn't in the file yet."""
        self.saved_at = time.monotonic()
        now = self.top, dict(self.files)
        if now == self.saved:
            return
        files = {name.decode(errors="surrogateescape"): known for name, known in self.files.items()}
        new = self.path.with_name(f"{self.path.name}.{os.getpid()}")
        try:
            self.path.parent.mkdir(mode=0o700, parents=True, exist_ok=True)
            new.write_text(json.dumps({"tree": self.tree, "top": self.top, "files": files}))
            os.replace(new, self.path)
        except OSError as why:
            raise Refused(f"the cache {self.path}: {why.strerror}") from None
        self.saved = now

    def save_now_and_then(self) -> None:
        if time.monotonic() - self.saved_at > SECONDS_BETWEEN_SAVES:
            self.save()


def usual_cache(tree: str) -> pathlib.Path:
    """Where the cache of a tree at a server is, unless another file is given."""
    folder = os.environ.get("XDG_CACHE_HOME") or os.path.expanduser("~/.cache")
    return pathlib.Path(folder) / "perkeep" / f"tree-{ref_of(tree.encode())[7:]}.json"


# What is sent

class Uploads:
    """Blobs on their way to the server: many in a request, and only those that it lacks.

    While a request is under way, the blobs of the next one are gathered.
    """

    def __init__(self, server: Server):
        self.server = server
        self.waiting: dict[str, bytes] = {}
        self.size = 0
        self.pool = concurrent.futures.ThreadPoolExecutor(1)
        self.sent = self.pool.submit(lambda: None)

    def add(self, blob: bytes) -> str:
        """Takes a blob; answers its ref. It is acknowledged once `settle` has returned."""
        ref = ref_of(blob)
        if ref not in self.waiting:
            if self.size + len(blob) > MOST_PART_BYTES or len(self.waiting) == MOST_PARTS:
                self.flush()
            self.waiting[ref] = blob
            self.size += len(blob)
        return ref

    def flush(self) -> None:
        self.sent.result()
        self.sent = self.pool.submit(self.send, self.waiting)
        self.waiting, self.size = {}, 0

    def send(self, blobs: dict[str, bytes]) -> None:
        standing = self.server.standing(blobs)
        lacking = {ref: blob for ref, blob in blobs.items() if ref not in standing}
        if lacking:
            self.server.upload(lacking)

    def settle(self) -> None:
        """Returns once all blobs were acknowledged."""
        self.flush()
        self.sent.result()


class Claims:
    """Changes of notes on their way to the server: many in a claim, those of one note in one."""

    def __init__(self, server: Server, key: Key):
        self.server, self.key = server, key
        self.begin()

    def begin(self) -> None:
        self.changes: list[str] = []
        self.size = 0
        self.permanodes: dict[str, bytes] = {}
        self.done: list[Callable[[], None]] = []

    def add(self, changes: list[Change], permanode: Optional[bytes], done: Callable[[], None]) -> None:
        """Takes the changes of a note, with its permanode where it is new; calls `done` once they are acknowledged."""
        texts = [change.text() for change in changes]
        size = sum(len(text.encode()) + 1 for text in texts)
        is_full = len(self.changes) + len(texts) > MOST_CHANGES or self.size + size > LARGEST_SCHEMA - ROOM_OF_A_CLAIM
        if is_full:
            self.flush()
        self.changes += texts
        self.size += size
        if permanode is not None:
            self.permanodes[ref_of(permanode)] = permanode
        self.done.append(done)

    def flush(self) -> None:
        """Sends a claim, and after it the permanodes: so a note that is there has its title."""
        if self.changes:
            claim = multi_claim(self.key, time.time_ns(), self.changes)
            self.server.upload({ref_of(claim): claim, **self.permanodes})
            for done in self.done:
                done()
            sys.stdout.flush()
        self.begin()


# Storing a tree

class Putting:
    """A run over a folder."""

    def __init__(self, server: Server, key: Key, tree: str, top: bytes, cache: Cache):
        self.server, self.key, self.tree, self.top, self.cache = server, key, tree, top, cache
        self.left_out = LeftOut()
        self.uploads = Uploads(server)
        self.claims = Claims(server, key)
        self.holders: dict[str, set[str]] = {}
        # The notes of the tree's files that have a content, as this run begins to change them.
        self.with_content: set[str] = set()
        self.permanodes: dict[bytes, bytes] = {}
        self.note = ref_of(tree_note(key, tree))

    def run(self, keyring: Keyring, may_be_empty: bool) -> None:
        folders = walk(self.top, keyring, self.left_out)
        if b"" in self.left_out.paths:
            raise Refused(f"nothing of {octets_text(self.top)} can be stored")
        if not (may_be_empty or folders[0].entries or self.left_out.paths):
            self.check_empty()
        files = [one for folder in folders for one in folder.entries if one.kind == stat.S_IFREG]
        self.make_tree_note()
        self.store(folders, files)
        stored = [one for one in files if one.ref]
        self.note_files(stored)
        self.note_gone({self.cache.files[one.path].note for one in stored})
        self.note_tree(folders[0].ref)

    def check_empty(self) -> None:
        """Refuses to store an empty folder in place of files."""
        count = len(self.notes_below(b""))
        if count:
            what = f"nothing is in {octets_text(self.top)}, though the tree {self.tree} has {count} files"
            raise Refused(f"{what}: is it mounted? --empty stores it as empty")

    # Blobs

    def store(self, folders: list[Found], files: list[Found]) -> None:
        """Stores what the folders have, the innermost ones first."""
        self.find_known(files)
        for folder in reversed(folders):
            if folder.path in self.left_out.paths:
                continue
            for one in [one for one in folder.entries if one.ref is None]:
                try:
                    self.store_entry(one)
                except OSError as why:
                    self.left_out.add(one.path, why)
            folder.ref = self.store_folder(folder)
            self.cache.save_now_and_then()
        self.uploads.settle()

    def find_known(self, files: list[Found]) -> None:
        """Gives the files their refs that haven't changed, and of which the server has all blobs."""
        looks = [(one, self.cache.files.get(one.path)) for one in files]
        hits = [(one, known) for one, known in looks if known and known.is_of(one.status)]
        standing = self.server.standing(ref for _, known in hits for ref in (known.ref, *known.needs))
        for one, known in hits:
            if known.ref in standing and standing.issuperset(known.needs):
                one.ref = known.ref

    def store_entry(self, one: Found) -> None:
        """Stores a link or a file. A folder was stored before."""
        if one.kind == stat.S_IFLNK:
            target = os.readlink(os.path.join(self.top, one.path))
            one.ref = self.add("symlink", one, **octets_field("symlinkTarget", target))
        elif one.kind == stat.S_IFREG:
            one.ref = self.store_file(one)

    def add(self, kind: str, one: Found, **fields: object) -> str:
        """Stores the schema blob of a file, folder or link."""
        status, name = one.status, one.name or self.tree.encode()
        times = unix_fields(status.st_mode, status.st_mtime_ns)
        return self.uploads.add(schema_blob(kind, **octets_field("fileName", name), **fields, **times))

    def store_folder(self, folder: Found) -> str:
        refs = [self.uploads.add(blob) for blob in static_sets([one.ref for one in folder.entries if one.ref])]
        return self.add("directory", folder, entries=refs[-1])

    def store_file(self, one: Found) -> Optional[str]:
        """Reads a file, and stores it; answers no ref where it is left out."""
        file = os.open(os.path.join(self.top, one.path), os.O_RDONLY | os.O_NOFOLLOW | os.O_NONBLOCK | os.O_CLOEXEC)
        with open(file, "rb") as content:
            one.status, read_at = os.fstat(file), time.time_ns()
            parts = self.store_chunks(content, one.status.st_size)
            after = os.fstat(file)
        is_whole = total_size(parts) == one.status.st_size and looks_of(one.status) == looks_of(after)
        if not is_whole or one.kind != stat.S_IFREG:
            self.left_out.add(one.path, "changed while it was read")
            return None
        needs = [chunk["blobRef"] for chunk in parts]
        if len(parts) > MOST_CHUNKS:
            parts = self.store_runs(parts)
            needs += [run["bytesRef"] for run in parts]
        ref = self.add("file", one, parts=parts)
        self.remember(one, ref, needs, read_at)
        return ref

    def store_chunks(self, content: BinaryIO, size: int) -> list[dict]:
        """The chunks of a file. Of one that grows meanwhile no more is read than that this can be seen."""
        chunks = []
        while size >= 0:
            chunk = content.read(CHUNK)
            if not chunk:
                break
            chunks.append(part(self.uploads.add(chunk), len(chunk)))
            size -= len(chunk)
        return chunks

    def store_runs(self, chunks: list[dict]) -> list[dict]:
        """The parts of a file of many chunks: trees of so many each."""
        runs = [chunks[at : at + MOST_CHUNKS] for at in range(0, len(chunks), MOST_CHUNKS)]
        return [part(self.uploads.add(schema_blob("bytes", parts=run)), total_size(run), "bytesRef") for run in runs]

    def remember(self, one: Found, ref: str, needs: list[str], read_at: int) -> None:
        """Keeps what a file looked like, unless a later change might look the same."""
        size, mtime, ctime = looks_of(one.status)
        tick = TICK if ctime % SECOND else COARSE_TICK
        safe_ctime = ctime if ctime + tick < read_at else -1
        before = self.cache.files.get(one.path)
        note, noted = (before.note, before.noted) if before else (ref_of(self.permanode(one.path)), None)
        self.cache.files[one.path] = Known(size, mtime, safe_ctime, ref, needs, note, noted)

    # Notes

    def make_tree_note(self) -> None:
        """Makes the tree's note where it isn't there, and refuses to go on with one that the server doesn't count."""
        standing = self.server.standing([self.key.ref, self.note])
        blobs, is_new = {self.key.ref: self.key.blob}, self.note not in standing
        if is_new:
            title = Change("set", self.note, "title", self.tree)
            claim = multi_claim(self.key, time.time_ns(), [title.text()])
            blobs |= {ref_of(claim): claim, self.note: self.permanode(b"")}
        if not standing.issuperset(blobs):
            self.server.upload(blobs)
        if not self.is_counted():
            raise Refused(self.why_not_counted(is_new))

    def is_counted(self) -> bool:
        """Whether the server finds the tree's note: by its title, which is quick, or by its ref if that was changed."""
        by_title = {"permanode": {"attr": "title", "value": self.tree}}
        by_ref = {"logical": {"op": "and", "a": {"blobRefPrefix": self.note}, "b": {"permanode": {}}}}
        return any(self.note in self.server.search(one) for one in (by_title, by_ref))

    def why_not_counted(self, is_new: bool) -> str:
        """Why the server doesn't find the tree's note, and what can be done."""
        deleted = "" if is_new else f", or the note {self.note} was deleted"
        return (
            f"the keyring of the server has no key {self.key.name}, or another secret for it{deleted}. Nothing of the "
            "folder was stored. Give --keyring the archive's own keyring, or add the key's line to that and start the "
            "server again: the server reads its keyring only as it starts"
        )

    def permanode(self, path: bytes) -> bytes:
        """The permanode of a path; the tree's own where that is empty."""
        if path not in self.permanodes:
            self.permanodes[path] = tree_note(self.key, self.tree, path)
        return self.permanodes[path]

    def path_text(self, path: bytes) -> str:
        return f"{self.tree}/{octets_text(path)}"

    def holds(self, note: str, ref: str) -> bool:
        """Whether the server has this ref as the content of a note."""
        if ref not in self.holders:
            self.holders[ref] = self.server.search({"permanode": {"attr": "camliContent", "value": ref}})
        return note in self.holders[ref]

    def note_files(self, files: list[Found]) -> None:
        """Gives each file's note the file, and makes those that aren't there yet."""
        is_known = self.cache.top is not None and self.holds(self.note, self.cache.top)
        if not is_known:
            self.cache.files = {path: known._replace(noted=None) for path, known in self.cache.files.items()}
        notes = [self.cache.files[one.path].note for one in files]
        if is_known and all(known.noted for known in self.cache.files.values()):
            # The server has the folder of the last run, which gave each of these notes its content.
            self.with_content = {known.note for known in self.cache.files.values()}
            standing = self.server.standing(notes)
        else:
            self.with_content = self.notes_below(b"")
            standing = self.with_content | self.server.standing(note for note in notes if note not in self.with_content)
        for one in sorted(files, key=lambda one: one.path):
            known = self.cache.files[one.path]
            is_new = known.note not in standing
            if not is_new and known.noted == one.ref:
                continue
            if not is_new and self.holds(known.note, one.ref):
                self.cache.files[one.path] = known._replace(noted=one.ref)
            else:
                self.distrust_cache()
                permanode = self.permanode(one.path) if is_new else None
                self.claims.add(self.changes_of(one, is_new), permanode, functools.partial(self.noted, one))
        self.claims.flush()

    def distrust_cache(self) -> None:
        """Before a claim is sent: should this run end before it says so, the next one asks what the notes are."""
        if self.cache.top is not None:
            self.cache.top = None
            self.cache.save()

    def changes_of(self, one: Found, is_new: bool) -> list[Change]:
        note = self.cache.files[one.path].note
        content = Change("set", note, "camliContent", one.ref)
        if not is_new:
            return [content]
        title = Change("set", note, "title", octets_text(one.name))
        return [title, content, Change("set", note, "path", self.path_text(one.path))]

    def noted(self, one: Found) -> None:
        known = self.cache.files[one.path]
        self.cache.files[one.path] = known._replace(noted=one.ref)
        print(one.ref, known.note, shown(self.path_text(one.path)))

    def note_gone(self, met: set[str]) -> None:
        """Takes the content from the notes of files that have gone."""
        gone = self.with_content - met
        for path in self.left_out.paths:
            gone -= {ref_of(self.permanode(path))} | (self.notes_below(path) if gone else set())
        paths = {known.note: path for path, known in self.cache.files.items()}
        for note in sorted(gone):
            self.distrust_cache()
            went = functools.partial(self.went, note, paths.get(note))
            self.claims.add([Change("del", note, "camliContent")], None, went)
        self.claims.flush()
        kept = met | {known.note for path, known in self.cache.files.items() if self.left_out.has(path)}
        self.cache.files = {path: known for path, known in self.cache.files.items() if known.note in kept}

    def notes_below(self, path: bytes) -> set[str]:
        """The notes that have a content, and whose path is below this one."""
        prefix = self.path_text(path + b"/" if path else b"")
        below = {"permanode": {"attr": "path", "valueMatches": {"hasPrefix": prefix}}}
        with_content = {"permanode": {"attr": "camliContent"}}
        return self.server.search({"logical": {"op": "and", "a": with_content, "b": below}})

    def went(self, note: str, path: Optional[bytes]) -> None:
        print("gone", note, *([] if path is None else [shown(self.path_text(path))]))

    def note_tree(self, top: str) -> None:
        """Sets the tree's note to the top folder, as the last thing that is done."""
        if not self.holds(self.note, top):
            self.claims.add([Change("set", self.note, "camliContent", top)], None, lambda: None)
            self.claims.flush()
            self.holders.clear()
            if not self.holds(self.note, top):
                why = f"its note {self.note} was deleted, or has a claim of a date that is to come"
                raise Refused(f"the server doesn't take {self.tree} as set: {why}")
        self.cache.top = top
        print(top, self.note, shown(self.tree))


# The command line

def key_of(path: pathlib.Path, name: Optional[str]) -> Key:
    """The key of this name in a keyring, or its only one."""
    keys = read_keyring(path)
    if name is None and len(keys) != 1:
        raise Refused(f"{path} has {len(keys)} keys: say which one by --key")
    if name is not None and name not in keys:
        raise Refused(f"{path} has no key {name}, but {', '.join(keys) or 'none'}")
    return keys[name or next(iter(keys))]


def is_tree_name(text: str) -> bool:
    return bool(text) and not any(sign in "/\0" or "\ud800" <= sign <= "\udfff" for sign in text)


def main() -> int:
    parser = parser_of(__doc__)
    parser.add_argument("address", metavar="ADDR", help="HOST:PORT of a running server")
    parser.add_argument("path", metavar="PATH", help="the folder to be stored")
    parser.add_argument("--name", metavar="TREE", required=True, help="the tree's name, a text without a slash")
    parser.add_argument("--keyring", metavar="FILE", required=True, help="the keyring that has the key")
    parser.add_argument("--key", metavar="NAME", help="the key that signs; not needed if there is only one")
    parser.add_argument("--cache", metavar="FILE", help="what is kept between runs, else a file in ~/.cache/perkeep")
    parser.add_argument("--empty", action="store_true", help="stores PATH even if it is empty and TREE isn't")
    words = parser.parse_intermixed_args()
    if not is_tree_name(words.name):
        parser.error("TREE is a text without a slash")
    key = key_of(pathlib.Path(words.keyring), words.key)
    top = os.fsencode(words.path)
    if not os.path.isdir(top):
        raise Refused(f"{words.path} isn't a folder")
    server = Server(words.address)
    note = ref_of(tree_note(key, words.name))
    server.standing([note])
    tree = f"{note} at {words.address}"
    cache = Cache(pathlib.Path(words.cache) if words.cache else usual_cache(tree), tree)
    putting = Putting(server, key, words.name, top, cache)
    try:
        putting.run(Keyring(pathlib.Path(words.keyring), key), words.empty)
    finally:
        cache.save()
    return INCOMPLETE if putting.left_out.count else 0


if __name__ == "__main__":
    run(main)
