"""Runs the scripts of examples/ over folders, servers and stores, and compares what they store, restore and print.

What put_tree.py stores is compared blob by blob with what tree_folders.py writes from docs/formats/trees.md, its notes
with what reference.py reads out of the claims, and its files with what `get-file` gives. What get_tree.py restores is
compared with the folder that went in. The scripts run with a cache of their own, under the Python that runs this.

Between script and server may stand a door, which sees each request whole, and may kill the script, or end its
connection, before a request, in the middle of one, or before its reply.
"""

import ast
import contextlib
import itertools
import json
import os
import pathlib
import re
import shutil
import socket
import socketserver
import stat
import subprocess
import sys
import threading
import time

import harness
import inputs
import reference
import tree_folders
import writing
from harness import chance, check, compare
from peers import Stranger
from reference import ref_of
from serving import HOST, PORTS, Server, ShareServer
from stores import Store
from tracing import need_strace
from tree_folders import Written, make, note_of, path_text, picture, write

TOP = pathlib.Path(__file__).resolve().parent.parent
EXAMPLES = TOP / "examples"
PAGE = TOP / "docs" / "formats" / "trees.md"
SCRIPTS = ["put_tree.py", "get_tree.py", "notes.py", "fsck_files.py"]
SHARED = "perkeep_archive"
OTHERS = {"keyring": inputs.KEYRING}
TREE = "trip"
LONG_FILE = 100 << 20
SECONDS = 200
# docs/formats/schema.md, "Claims"; docs/limits.md
MOST_CHANGES, LONGEST_CLAIM = 1_000, 1_048_576


# Scripts

def start(folder, script, *words, front=()):
    """Starts a script with a cache in a folder; if there are words in front, by another program that it replaces."""
    settings = {**os.environ, "XDG_CACHE_HOME": str(folder), "PYTHONDONTWRITEBYTECODE": "1"}
    line = [*front, sys.executable, str(EXAMPLES / script), *map(os.fsdecode, words)]
    streams = {"stdin": subprocess.DEVNULL, "stdout": subprocess.PIPE, "stderr": subprocess.PIPE}
    return subprocess.Popen(line, env=settings, **streams)


def run(folder, script, *words, status=0, err="", front=()):
    """Runs a script, which has to end so, and to tell something like this; answers the lines of its output."""
    what = f"{script} {words}"
    process = start(folder, script, *words, front=front)
    out, told = harness.finish(what, process, seconds=SECONDS)
    compare(f"{what}: {told}", "exit status", status, process.returncode)
    check(f"{what} tells {told}, and not {err}", re.fullmatch(err, told.decode(), re.DOTALL))
    return out.decode().splitlines()


class Bench:
    """A folder that is stored, a store, and a place for caches and for what is restored."""

    def __init__(self, program, packs=None):
        self.program = program
        self.store = Store(program, packs or {}, OTHERS)
        self.cache = program.new_path()
        self.cache.mkdir()
        self.folder = os.fsencode(program.new_path())

    def serve(self):
        return Server(self.program, self.store.path)

    def put_words(self, port, *words):
        keyring = ("--keyring", self.store.path / "keyring", "--key", writing.NAME)
        return (f"{HOST}:{port}", self.folder, "--name", TREE, *keyring, *words)

    def put(self, port, *words, status=0, err=""):
        """Stores the folder; answers the lines."""
        return run(self.cache, "put_tree.py", *self.put_words(port, *words), status=status, err=err)

    def restored(self, *words, tree=TREE):
        """What is restored."""
        path = os.fsencode(self.program.new_path())
        run(self.cache, "get_tree.py", self.store.path, tree, path, *words)
        seen = picture(path)
        shutil.rmtree(path)
        return seen

    def comes_back(self, what, expected, *words, tree=TREE):
        compare_pictures(what, expected, self.restored(*words, tree=tree))

    def blobs(self):
        return reference.arrivals(reference.packs_of(self.store.files()))

    def archive(self):
        return reference.Archive(self.blobs(), reference.read_keyring(inputs.KEYRING))

    def stores_nothing(self, what, port, *words):
        """A run stores nothing, and prints the line of the tree alone."""
        before = self.store.files()
        lines = self.put(port, *words)
        check(f"{what}: another run prints {lines}", len(lines) == 1 and lines[0].endswith(f" {TREE}"))
        check(f"{what}: another run stores something", before == self.store.files())
        return lines[0]


def compare_pictures(what, expected, got):
    compare(what, "paths", sorted(expected), sorted(got))
    for path, looks in expected.items():
        compare(f"{what}: {path}", "what stands there", looks, got[path])


def values(archive, note, attribute):
    return archive.values(note, attribute, reference.ALWAYS)


def now():
    """A moment after all that was done, before all that will be."""
    time.sleep(0.01)
    moment = time.time_ns()
    time.sleep(0.01)
    return reference.date_text(moment)


# What is stored and comes back

def round_trip(program):
    """A folder of 300 files and others, one of them long."""
    return [lambda: comes_back(program)]


def comes_back(program):
    what, bench = "300 files", Bench(program)
    make(bench.folder, chance("a folder"), 430, LONG_FILE)
    looks = picture(bench.folder)
    check(f"{what}: there are fewer", sum(one[0] == "file" for one in looks.values()) >= 280)
    with bench.serve() as server:
        lines = bench.put(server.port)
        last = bench.stores_nothing(what, server.port)
        bench.comes_back(what, looks)
        comes_by_share(what, bench, server.port, last.split()[0], looks)
    written = Written(bench.folder, TREE)
    compare(what, "the last line", f"{written.top} {ref_of(note_of(TREE))} {TREE}", lines[-1])
    compare(what, "the last line of another run", lines[-1], last)
    compare(what, "lines of files", len(written.files), len(lines) - 1)
    is_stored_so(what, bench, written)
    gets_files(what, bench, written)


def comes_by_share(what, bench, port, top, looks):
    """Somebody else gets the folder by a share of it, whole."""
    keyring = ("--keyring", bench.store.path / "keyring", "--key", writing.NAME)
    path = run(bench.cache, "make_share.py", f"{HOST}:{port}", top, *keyring)[1]
    target = os.fsencode(bench.program.new_path())
    with ShareServer(bench.program, bench.store.path) as shares:
        run(bench.cache, "get_shared.py", f"http://{HOST}:{shares.port}{path}", target)
    compare_pictures(f"{what}, by a share", looks, picture(target))
    shutil.rmtree(target)


def is_stored_so(what, bench, written):
    """The store has the blobs of the folder, its notes, claims that say what they have to, and nothing else."""
    blobs, archive = bench.blobs(), bench.archive()
    notes = [note_of(TREE), *(note_of(TREE, path) for path in written.files)]
    known = {**written.blobs, **{ref_of(blob): blob for blob in [*notes, writing.key_blob()]}}
    for ref, blob in known.items():
        compare(what, ref, blob, blobs.get(ref))
    for ref in set(blobs) - set(known):
        fact = archive.facts[ref]
        is_share = b'"claimType":"share"' in blobs[ref]
        check(f"{what}: {blobs[ref][:500]} is stored", is_share or ref in archive.genuine and fact.claim == "multi")
        check(f"{what}: a claim of {len(blobs[ref])} bytes", len(blobs[ref]) <= LONGEST_CLAIM)
    says_so(what, archive, written)


def says_so(what, archive, written):
    """The notes have a title, a content and a path."""
    tree = ref_of(note_of(TREE))
    compare(what, "the tree's title", [TREE], values(archive, tree, "title"))
    compare(what, "the tree's content", [written.top], values(archive, tree, "camliContent"))
    for path, ref in written.files.items():
        note, told = ref_of(note_of(TREE, path)), path_text(TREE, path)
        found = [values(archive, note, name) for name in ("title", "camliContent", "path")]
        compare(f"{what}: {path}", "its note", [[path_text("", os.path.basename(path))[1:]], [ref], [told]], found)


def gets_files(what, bench, written):
    """`get-file` gives the bytes of files, of the long one and of some others."""
    paths = sorted(written.files, key=lambda path: os.path.getsize(os.path.join(bench.folder, path)))
    for path in paths[:: len(paths) // 6] + paths[-1:]:
        with open(os.path.join(bench.folder, path), "rb") as file:
            bench.program.check(f"{what}: {path}", bench.store.words("get-file", written.files[path]), file.read())


def changes(program):
    """A change, a removal, a move and an addition; and what was before."""
    return [lambda: at_dates(program)]


def at_dates(program):
    what, bench = "changes", Bench(program)
    make(bench.folder, chance("changes"), 60)
    write(os.path.join(bench.folder, b"moved"), b"to be moved")
    write(os.path.join(bench.folder, b"\xff-goes"), b"to be removed")
    before_all, old = now(), picture(bench.folder)
    with bench.serve() as server:
        bench.put(server.port)
        first = now()
        gone = change(bench.folder)
        new = picture(bench.folder)
        lines = bench.put(server.port)
        second = now()
        check(f"{what}: {lines}", {f"gone {note} {path_text(TREE, path)}" for path, note in gone.items()} < set(lines))
        bench.stores_nothing(what, server.port)
        is_gone(what, bench, gone)
        shutil.rmtree(bench.folder)
        os.mkdir(bench.folder)
        bench.put(server.port, "--empty")
        bench.comes_back(f"{what}: then", old, first)
        bench.comes_back(f"{what}: later", new, second)
        bench.comes_back(f"{what}: later, in another zone", new, second.replace("Z", "+00:00"))
        bench.comes_back(f"{what}: now", picture(bench.folder))
    nowhere = program.new_path()
    why = r"get_tree\.py: trip has no content at that date\n"
    run(bench.cache, "get_tree.py", bench.store.path, TREE, nowhere, before_all, status=3, err=why)
    check(f"{what}: {nowhere} is made", not nowhere.exists())


def change(folder):
    """Changes a folder; answers the notes of the files that have gone, by their paths."""
    os.rename(os.path.join(folder, b"moved"), os.path.join(folder, b"empty", b"moved"))
    os.unlink(os.path.join(folder, b"\xff-goes"))
    write(os.path.join(folder, b"empty file"), b"no longer")
    write(os.path.join(folder, b"new"), b"new")
    os.chmod(os.path.join(folder, b"empty file"), 0o400)
    return {path: ref_of(note_of(TREE, path)) for path in (b"moved", b"\xff-goes")}


def is_gone(what, bench, gone):
    """The notes of files that have gone have no content, and all else that they had."""
    archive, written = bench.archive(), Written(bench.folder, TREE)
    says_so(what, archive, written)
    for path, note in gone.items():
        compare(what, f"the content of {path}", [], values(archive, note, "camliContent"))
        compare(what, f"the path of {path}", [path_text(TREE, path)], values(archive, note, "path"))
    with_path = [note for note in archive.genuine if values(archive, note, "path")]
    found = [note for note in with_path if not values(archive, note, "camliContent")]
    compare(what, "notes without a content", sorted(gone.values()), sorted(found))


def page(program):
    """The example of docs/formats/trees.md."""
    return [lambda: as_on_page(program)]


def as_on_page(program):
    folder = os.fsencode(program.new_path())
    os.mkdir(folder)
    file = os.path.join(folder, b"\xff")
    write(file, b"")
    for path, mode, moment in ((file, 0o644, 1), (folder, 0o755, 0)):
        os.chmod(path, mode)
        os.utime(path, ns=(moment, moment))
    written, text = Written(folder, "t"), PAGE.read_text()
    for blob in written.blobs.values():
        check(f"{PAGE} doesn't have {blob}", f"    {blob.decode()}" in text)
    for ref in (written.top, ref_of(note_of("t")), ref_of(note_of("t", b"\xff"))):
        check(f"{PAGE} doesn't have {ref}", f"`{ref}`" in text)


def titles(program):
    """What a person changes on a note stays; and a search finds notes by their paths and titles."""
    return [lambda: stay(program)]


def stay(program):
    what, bench = "a title", Bench(program)
    os.mkdir(bench.folder)
    write(os.path.join(bench.folder, b"letter.txt"), b"Dear Ada")
    note = ref_of(note_of(TREE, b"letter.txt"))
    with bench.serve() as server:
        bench.put(server.port)
    status, _, err = program.run(what, bench.store.words("claim", "set", note, "title", "Ada", "--key", writing.NAME))
    compare(what, "exit status and errors", (0, b""), (status, err))
    write(os.path.join(bench.folder, b"letter.txt"), b"Dear Ada, once more")
    with bench.serve() as server:
        compare(what, "lines", 2, len(bench.put(server.port)))
    archive = bench.archive()
    compare(what, "the title", ["Ada"], values(archive, note, "title"))
    for attribute, value in (("title", "Ada"), ("path", f"{TREE}/letter.txt")):
        found = reference.search_text([note]) + b"\n"
        bench.store.reads(what, "search", "--attr", attribute, "--value", value, out=found)


# The cache

def caches(program):
    return [lambda one=one: one(program) for one in (lost_cache, another_server, another_tree, an_older_cache)]


def lost_cache(program):
    """Without a cache nothing is stored a second time, no note either; nor with one that can't be read."""
    what, bench = "a lost cache", Bench(program)
    make(bench.folder, chance(what), 40)
    with bench.serve() as server:
        bench.put(server.port)
        (cache,) = (bench.cache / "perkeep").iterdir()
        cache.unlink()
        bench.stores_nothing(what, server.port)
        cache.write_text('{"tree":')
        before = bench.store.files()
        bench.put(server.port, err=r"the cache \S+ can't be read: all files are read anew\n")
        check(f"{what}: something is stored", before == bench.store.files())


def another_server(program):
    """What a server lacks is read and stored again, whatever the cache knows."""
    what, bench = "another server", Bench(program)
    make(bench.folder, chance(what), 40)
    cache = program.new_path()
    with bench.serve() as server:
        bench.put(server.port, "--cache", cache)
    other = Bench(program)
    other.folder = bench.folder
    content = json.loads(cache.read_bytes())
    with other.serve() as server:
        content["tree"] = re.sub(r"\d+$", str(server.port), content["tree"])
        cache.write_text(json.dumps(content))
        other.put(server.port, "--cache", cache)
    is_stored_so(what, other, Written(bench.folder, TREE))


def another_tree(program):
    """A cache that is of another tree isn't used."""
    what, bench = "another tree", Bench(program)
    make(bench.folder, chance(what), 20)
    cache = program.new_path()
    with bench.serve() as server:
        bench.put(server.port, "--cache", cache)
        words = [*bench.put_words(server.port, "--cache", cache)]
        words[words.index(TREE)] = "other"
        run(bench.cache, "put_tree.py", *words)
    archive = bench.archive()
    for path, ref in Written(bench.folder, TREE).files.items():
        compare(what, "the content of a note", [ref], values(archive, ref_of(note_of("other", path)), "camliContent"))


def not_read(program):
    """A file that hasn't changed isn't opened again, and one that has is."""
    need_strace(program)
    return [lambda: opens_what_changed(program)]


def opens_what_changed(program):
    what, bench, log = "files that haven't changed", Bench(program), program.new_path()
    make(bench.folder, chance(what), 30)
    changed = os.path.join(bench.folder, b"empty file")
    time.sleep(0.1)
    with bench.serve() as server:
        bench.put(server.port)
        write(changed, b"changed")
        line = ["strace", "-f", "-xx", "-e", "trace=openat", "-o", log, sys.executable, EXAMPLES / "put_tree.py"]
        settings = {**os.environ, "XDG_CACHE_HOME": str(bench.cache)}
        ran = subprocess.run([*line, *bench.put_words(server.port)], env=settings, capture_output=True)
    compare(f"{what}: {ran.stderr}", "exit status", 0, ran.returncode)
    opened = {bytes.fromhex(path.replace("\\x", "")) for path in re.findall(r'openat\([^"]*"([^"]*)"', log.read_text())}
    files = {os.path.join(bench.folder, path) for path in Written(bench.folder, TREE).files}
    compare(what, "the files that are opened", {changed}, opened & files)


def an_older_cache(program):
    """Where the server's tree isn't the one that the cache knows, the notes are asked for what they have."""
    what, bench = "an older cache", Bench(program)
    os.mkdir(bench.folder)
    file = os.path.join(bench.folder, b"file")
    write(file, b"one")
    time.sleep(0.1)
    status = os.stat(file)
    with bench.serve() as server:
        bench.put(server.port)
        (cache,) = (bench.cache / "perkeep").iterdir()
        older = cache.read_bytes()
        write(file, b"two")
        bench.put(server.port)
        cache.write_bytes(older)
        write(file, b"one")
        os.utime(file, ns=(status.st_mtime_ns, status.st_mtime_ns))
        bench.put(server.port)
    says_so(what, bench.archive(), Written(bench.folder, TREE))


# What is left out

def left_out(program):
    cases = (no_files, growing, left_out_and_gone, own_archive, nothing_there, no_folder, no_key)
    return [lambda one=one: one(program) for one in (*cases, failed_disk, full_store)]


def no_files(program):
    """A socket and a pipe are told, and all else is stored."""
    what, bench = "no files", Bench(program)
    make(bench.folder, chance(what), 20)
    looks = picture(bench.folder)
    os.mkfifo(os.path.join(bench.folder, b"\xff pipe\n"))
    with socket.socket(socket.AF_UNIX) as listener, bench.serve() as server:
        listener.bind(os.path.join(bench.folder, b"socket"))
        tree_folders.dress(bench.folder, chance(what))
        told = "".join(f"left out: {name}: no file, folder or symbolic link\n" for name in (r"socket", r"%FF pipe\\n"))
        bench.put(server.port, status=1, err=told)
        seen = bench.restored()
    compare_pictures(what, {**looks, b"": seen[b""]}, seen)


def growing(program):
    """A file that grows while it is read is told; its note, and those of others, are as they were."""
    what, bench = "a file that grows", Bench(program)
    os.mkdir(bench.folder)
    grows, other = (os.path.join(bench.folder, name) for name in (b"grows", b"other"))
    write(grows, b"first")
    write(other, b"other")
    note, content = ref_of(note_of(TREE, b"grows")), Written(bench.folder, TREE).files[b"grows"]
    with bench.serve() as server:
        bench.put(server.port)
        write(grows, bytes(30 << 20))
        with growing_file(grows):
            bench.put(server.port, status=1, err="left out: grows: changed while it was read\n")
        compare(what, "what is restored", [b"", b"other"], sorted(bench.restored()))
        compare(what, "the content of its note", [content], values(bench.archive(), note, "camliContent"))
        bench.put(server.port)
    says_so(what, bench.archive(), Written(bench.folder, TREE))


@contextlib.contextmanager
def growing_file(path):
    """A file to which bytes are added all the time."""
    stop = threading.Event()

    def grow():
        with open(path, "ab", buffering=0) as file:
            while not stop.wait(0.001):
                file.write(b"more")

    writer = threading.Thread(target=grow)
    writer.start()
    try:
        yield
    finally:
        stop.set()
        writer.join()


def left_out_and_gone(program):
    """What was in a folder that was left out once is taken for gone once the folder has gone."""
    what, bench = "left out, and gone", Bench(program)
    deep = os.path.join(bench.folder, b"deep")
    os.makedirs(deep)
    write(os.path.join(deep, b"file"), b"deep")
    write(os.path.join(bench.folder, b"other"), b"other")
    note = ref_of(note_of(TREE, b"deep/file"))
    with bench.serve() as server:
        bench.put(server.port)
        shutil.rmtree(deep)
        os.mkfifo(deep)
        bench.put(server.port, status=1, err="left out: deep: no file, folder or symbolic link\n")
        check(f"{what}: it is taken for gone", values(bench.archive(), note, "camliContent"))
        os.unlink(deep)
        lines = bench.put(server.port)
        compare(what, "lines", [f"gone {note} {TREE}/deep/file"], lines[:-1])
        bench.stores_nothing(what, server.port)
    is_noted(what, bench)


def own_archive(program):
    """A folder that has packs isn't stored, nor is the keyring, nor another that has the key: that isn't a failure."""
    what, bench = "the archive in the folder", Bench(program)
    archive, inbox = (os.path.join(bench.folder, name) for name in (b"archive", b"inbox"))
    shutil.copytree(Store(program, {0: writing.pack(b"abc")}, OTHERS).path, os.fsdecode(archive))
    os.mkdir(inbox)
    write(os.path.join(inbox, b"keyring"), b"mine 00\n" + inputs.KEYRING)
    os.link(bench.store.path / "keyring", os.path.join(bench.folder, b"ring"))
    write(os.path.join(bench.folder, b"file"), b"file")
    is_keyring, has_packs = "it is a keyring with the key", "it has packs, as the folder of an archive"
    told = f"left out: ring: {is_keyring}\nleft out: archive: {has_packs}\nleft out: inbox/keyring: {is_keyring}\n"
    with bench.serve() as server:
        bench.put(server.port, err=told)
        before = bench.store.files()
        compare(what, "lines of another run", 1, len(bench.put(server.port, err=told)))
        words = (f"{HOST}:{server.port}", archive, *bench.put_words(server.port)[2:])
        told = f"left out: .: it has packs, .*put_tree.py: nothing of {os.fsdecode(archive)} can be stored\n"
        run(bench.cache, "put_tree.py", *words, status=3, err=told)
        check(f"{what}: another run stores something", before == bench.store.files())
        compare(what, "what is restored", [b"", b"file", b"inbox"], sorted(bench.restored()))
    secret = inputs.KEYRING.split()[1]
    check(f"{what}: a secret is stored", not any(secret in blob for blob in bench.blobs().values()))


def nothing_there(program):
    """An empty folder, such as that of a disk that isn't mounted, isn't stored in place of files, unless that is asked
    for."""
    what, bench = "nothing there", Bench(program)
    os.mkdir(bench.folder)
    with bench.serve() as server:
        bench.put(server.port)
        for name in (b"one", b"two"):
            write(os.path.join(bench.folder, name), name)
        bench.put(server.port)
        before, other = bench.store.files(), os.fsencode(program.new_path())
        os.mkdir(other)
        bench.folder, had = other, bench.folder
        told = rf"put_tree\.py: nothing is in {os.fsdecode(other)}, though the tree {TREE} has 2 files: is it mounted\?"
        bench.put(server.port, status=3, err=rf"{told} --empty stores it as empty\n")
        check(f"{what}: something is stored", before == bench.store.files())
        bench.folder = had
        bench.stores_nothing(what, server.port)
        bench.folder = other
        lines = bench.put(server.port, "--empty")
        compare(what, "files that are gone", 2, sum(line.startswith("gone ") for line in lines))
        bench.stores_nothing(what, server.port)


def no_folder(program):
    """What can't be done is told, with status 3."""
    bench = Bench(program)
    port, path = PORTS.free(), bench.store.path
    usual = bench.put_words(port)[2:]
    one_key = ("--name", "t", "--keyring")
    refused = rf"no reply of a server at {HOST}:{port}: Connection refused; is it running there\?"
    lines = [
        (bench.put_words(port), f"{os.fsdecode(bench.folder)} isn't a folder"),
        ((f"{HOST}:{port}", path, *usual), refused),
        (("nowhere", path, *usual), "'nowhere' is no HOST:PORT"),
        ((f"{HOST}:{port}", path, *one_key, path / "keyring"), r"\S+ has 2 keys: .*"),
        ((f"{HOST}:{port}", path, *one_key, path / "keyring", "--key", "mine"), r"\S+ has no key mine, but .*"),
        ((f"{HOST}:{port}", path, *one_key, "/nowhere"), "the keyring /nowhere: .*"),
    ]
    for words, err in lines:
        run(bench.cache, "put_tree.py", *words, status=3, err=rf"put_tree\.py: {err}\n")
    with Stranger() as stranger:
        text = f"what answers 501 at {stranger.address} is no perkeep serve: look at the port"
        run(bench.cache, "put_tree.py", stranger.address, path, *usual, status=3, err=rf"put_tree\.py: {text}\n")
    with ShareServer(program, path) as shares:
        address = f"{HOST}:{shares.port}"
        text = f"what answers 404 at {address} is no perkeep serve: look at the port"
        run(bench.cache, "put_tree.py", address, path, *usual, status=3, err=rf"put_tree\.py: {text}\n")
    for name in ("", "a/b", os.fsdecode(b"\xff")):
        words = (f"{HOST}:{port}", path, "--name", name, "--keyring", path / "keyring")
        run(bench.cache, "put_tree.py", *words, status=2, err=".*TREE is a text without a slash\n")


def no_key(program):
    """A server that hasn't the key, or has another secret for it, counts none of its notes: of the folder nothing is
    stored then, and the notes of another key stay as they are."""
    what, bench, keyring = "no key", Bench(program), program.new_path()
    make(bench.folder, chance(what), 20)
    keyring.write_bytes(b"mine 00\n" + writing.NAME.encode() + b" 00\n")
    with bench.serve() as server:
        bench.put(server.port)
        before = bench.blobs()
        for key, secret in (("mine", b"\0"), (writing.NAME, b"\0")):
            is_refused(what, bench, server.port, keyring, key, ref_of(note_of(TREE, b"", key, secret)))
    new = [blob for ref, blob in bench.blobs().items() if ref not in before]
    check(f"{what}: {new} are stored", len(new) == 5 and not any(b"camliContent" in blob for blob in new))
    says_so(what, bench.archive(), Written(bench.folder, TREE))
    counts_again(what, bench, keyring)


def is_refused(what, bench, port, keyring, key, note):
    """A run stores the tree's note and nothing else; and another run nothing at all."""
    words = (f"{HOST}:{port}", bench.folder, "--name", TREE, "--keyring", keyring, "--key", key)
    for deleted in ("", f", or the note {note} was deleted"):
        told = rf"the keyring of the server has no key {key}, or another secret for it{deleted}\. Nothing of .*"
        told += "the server reads its keyring only as it starts"
        lines = run(bench.cache, "put_tree.py", *words, status=3, err=rf"put_tree\.py: {told}\n")
        compare(what, "lines", [], lines)


def counts_again(what, bench, keyring):
    """Once the server has the key, the tree's note has its title, and the folder is stored."""
    with open(bench.store.path / "keyring", "ab") as file:
        file.write(b"mine 00\n")
    with bench.serve() as server:
        words = (f"{HOST}:{server.port}", bench.folder, "--name", TREE, "--keyring", keyring, "--key", "mine")
        run(bench.cache, "put_tree.py", *words)
    keys = reference.read_keyring(inputs.KEYRING + b"mine 00\n")
    archive, note = reference.Archive(bench.blobs(), keys), ref_of(note_of(TREE, b"", "mine", b"\0"))
    for name, value in (("title", TREE), ("camliContent", Written(bench.folder, TREE).top)):
        compare(what, name, [value], values(archive, note, name))


def failed_disk(program):
    """A server whose disk takes nothing any more: that is told, with what to do."""
    bench, keyring = Bench(program), program.new_path()
    os.mkdir(bench.folder)
    keyring.write_bytes(inputs.KEYRING)
    with bench.serve() as server:
        os.rename(bench.store.path, program.new_path())
        words = (f"{HOST}:{server.port}", bench.folder, "--name", TREE, "--keyring", keyring, "--key", writing.NAME)
        told = rf"put_tree\.py: the disk of the server at {HOST}:{server.port} is full, or has failed \(503 disk\): "
        run(bench.cache, "put_tree.py", *words, status=3, err=told + "free some room there, and run this again\n")


def full_store(program):
    """A server whose store takes no further blob: that is told, too."""
    bench = Bench(program, {99_999: b"x"})
    os.mkdir(bench.folder)
    with bench.serve() as server:
        told = rf"put_tree\.py: the store of the server at {HOST}:{server.port} is full \(507 full\): no blob can be "
        bench.put(server.port, status=3, err=told + "added to it, so start another archive\n")


# Doors

class Door(socketserver.ThreadingTCPServer):
    """Stands between a script and a server, and hands on each request whole.

    `fate` is asked for each, by its number from 0 on: `pass`; or `before`, `within` or `after`, where the connection
    ends before the request is handed on, when half of it was, or before its reply is. Before it ends `cut` is called.
    """

    daemon_threads = True

    def __init__(self, port, fate=lambda number: "pass", cut=lambda: None):
        super().__init__((HOST, 0), Passing)
        self.port, self.fate, self.cut, self.requests, self.lock = port, fate, cut, 0, threading.Lock()
        threading.Thread(target=self.serve_forever, args=(0.01,), daemon=True).start()

    def __exit__(self, *_):
        self.shutdown()
        self.server_close()

    def handle_error(self, *_):
        """A script that was killed takes no reply."""

    def next_fate(self):
        with self.lock:
            self.requests += 1
            return self.fate(self.requests - 1)


class Passing(socketserver.StreamRequestHandler):
    def handle(self):
        with socket.create_connection((HOST, self.server.port)) as wire, wire.makefile("rb") as replies:
            while True:
                request = read_whole(self.rfile)
                if request is None:
                    return
                fate = self.server.next_fate()
                sent = {"before": 0, "within": len(request) // 2}.get(fate, len(request))
                wire.sendall(request[:sent])
                reply = read_whole(replies) if sent == len(request) else None
                if fate != "pass" or reply is None:
                    self.server.cut()
                    return
                self.wfile.write(reply)


def read_whole(file):
    """A request or a reply with a length; None at the end."""
    head = b""
    while not head.endswith(b"\r\n\r\n"):
        line = file.readline()
        if not line:
            return None
        head += line
    length = re.search(rb"content-length: *(\d+)", head, re.IGNORECASE)
    return head + (file.read(int(length[1])) if length else b"")


KILLS = 18


def kills(program):
    """put_tree.py is killed around some of its requests: TREE is the old folder or the new one, and the next run ends
    with the new one."""
    bench = Bench(program)
    make(bench.folder, chance("kills"), 50, 20 << 20)
    with bench.serve() as server:
        bench.put(server.port)
    kept = program.new_path()
    shutil.copytree(bench.store.path, kept / "store")
    shutil.copytree(bench.cache, kept / "cache")
    old = picture(bench.folder)
    alter(bench.folder)
    new = picture(bench.folder)
    points = [(number, where) for number in range(requests_of(bench)) for where in ("before", "within", "after")]
    some = chance("points").sample(points, KILLS)
    return [lambda point=point: is_killed(bench, kept, (old, new), *point) for point in sorted(some)]


def alter(folder):
    """Changes, adds, moves and removes files."""
    above = next(above for above, _, files in os.walk(folder) if b"long" in files)
    with open(os.path.join(above, b"long"), "r+b") as file:
        file.truncate(19 << 20)
        for place in range(0, 19 << 20, 1 << 20):
            file.seek(place)
            file.write(b"changed")
    os.rename(os.path.join(folder, b"empty file"), os.path.join(folder, b"empty", b"moved here"))
    write(os.path.join(folder, b"new"), b"new")


def over_copy(bench, store, cache):
    """The same folder with a copy of a store, and of a cache."""
    copy = Bench(bench.program)
    copy.folder = bench.folder
    for path, source in ((copy.store.path, store), (copy.cache, cache)):
        shutil.rmtree(path)
        shutil.copytree(source, path)
    return copy


def requests_of(bench):
    """How many requests a run makes."""
    copy = over_copy(bench, bench.store.path, bench.cache)
    with copy.serve() as server, Door(server.port) as door:
        copy.put(door.server_address[1])
        return door.requests


def is_killed(bench, kept, pictures, number, where):
    what = f"killed {where} request {number}"
    one = over_copy(bench, kept / "store", kept / "cache")
    with one.serve() as server:
        fate, kill = lambda at: where if at == number else "pass", lambda: process.kill()
        with Door(server.port, fate, kill) as door:
            process = start(one.cache, "put_tree.py", *one.put_words(door.server_address[1]))
            process.communicate(timeout=SECONDS)
        seen = one.restored()
        if seen not in pictures:
            compare_pictures(what, pictures[1], seen)
        one.put(server.port)
        one.stores_nothing(what, server.port)
        one.comes_back(what, pictures[1])
    is_noted(what, one)
    shutil.rmtree(one.store.path)


def is_noted(what, bench):
    """Each file's note has it, and no other note of a path has any."""
    archive, written = bench.archive(), Written(bench.folder, TREE)
    says_so(what, archive, written)
    notes = {ref_of(note_of(TREE, path)) for path in written.files}
    for note in archive.genuine - notes:
        if values(archive, note, "path"):
            compare(what, "the content of a file that has gone", [], values(archive, note, "camliContent"))


FATES = {
    "connections that end after replies": lambda number: "before" if number % 2 else "pass",
    "connections that end within requests": lambda number: "within" if number % 3 == 1 else "pass",
    "connections that end before replies": lambda number: "after" if number % 3 == 2 else "pass",
}


def connections(program):
    """Connections end, as those of a server that ends idle ones, or that is started anew, and the run goes on."""
    return [lambda one=one: goes_on(program, *one) for one in FATES.items()] + [lambda: started_anew(program)]


def goes_on(program, what, fate):
    bench = Bench(program)
    make(bench.folder, chance("connections"), 30, 20 << 20)
    with bench.serve() as server, Door(server.port, fate) as door:
        bench.put(door.server_address[1])
        bench.comes_back(what, picture(bench.folder))
    is_stored_so(what, bench, Written(bench.folder, TREE))


def started_anew(program):
    """The server is killed in the middle of a run, and started again at its port a while later."""
    what, bench = "a server that is started anew", Bench(program)
    make(bench.folder, chance(what), 30, 80 << 20)
    pack = bench.store.path / "pack-00000.blobs"
    with bench.serve() as server:
        process = start(bench.cache, "put_tree.py", *bench.put_words(server.port))
        while process.poll() is None and not (pack.exists() and pack.stat().st_size > 10 << 20):
            time.sleep(0.002)
        server.kill()
        compare(what, "the run's status so far", None, process.poll())
        time.sleep(0.7)
        server.process = server.start((), ())
        check(f"{what}: it doesn't come", server.comes())
        _, err = harness.finish(what, process, seconds=SECONDS)
        compare(what, "exit status and errors", (0, b""), (process.returncode, err))
        bench.comes_back(what, picture(bench.folder))
    is_stored_so(what, bench, Written(bench.folder, TREE))


# Large folders, and long claims

def large_folders(program):
    """A folder of more entries than a set may have, and names that fill claims by their bytes."""
    return [lambda: large(program)]


def large(program):
    what, bench = "a large folder", Bench(program)
    os.mkdir(bench.folder)
    for number in range(10_001):
        os.symlink(b"x", os.path.join(bench.folder, b"%d" % number))
    for number in range(700):
        write(os.path.join(bench.folder, b"\x01" * 240 + b"%d" % number), b"")
    with bench.serve() as server:
        bench.put(server.port)
        bench.comes_back(what, picture(bench.folder))
    is_stored_so(what, bench, Written(bench.folder, TREE))
    claims = [blob for blob in bench.blobs().values() if b'"claimType":"multi"' in blob]
    counts = [len(reference.fact_of(blob).changes) for blob in claims]
    check(f"{what}: claims of {counts} changes", len(claims) > 3 and max(counts) < MOST_CHANGES)
    longest = max(map(len, claims))
    check(f"{what}: the longest claim has {longest} bytes", longest > LONGEST_CLAIM - 10_000)


def many_notes(program):
    """Claims of a thousand changes at most, those of a note in one."""
    return [lambda: are_filled(program)]


def are_filled(program):
    what, bench = "many notes", Bench(program)
    os.mkdir(bench.folder)
    for number in range(1_100):
        write(os.path.join(bench.folder, b"%d" % number), b"")
    with bench.serve() as server:
        bench.put(server.port)
        for name in os.listdir(bench.folder):
            os.unlink(os.path.join(bench.folder, name))
        bench.put(server.port, "--empty")
    claims = [reference.fact_of(blob) for blob in bench.blobs().values() if b'"claimType":"multi"' in blob]
    claims.sort(key=lambda claim: claim.date)
    expected = [1, 999, 999, 999, 303, 1, 1000, 100, 1]
    compare(what, "changes of the claims", expected, [len(claim.changes) for claim in claims])


# Restoring what is hostile, damaged or there

def restoring(program):
    cases = (hostile, links_within, there_already, by_force, damaged, by_ref, bits, no_tree, lost_name)
    return [lambda one=one: one(program) for one in cases]


def of_blobs(program, *blobs):
    """A store of some blobs, and what is needed to restore out of it."""
    bench = Bench(program)
    (bench.store.path / "pack-00000.blobs").write_bytes(writing.pack(*blobs))
    return bench


def entry(kind, name, fields=""):
    return f'{{"camliVersion":1,"camliType":"{kind}",{tree_folders.octets("fileName", name)}{fields}}}\n'.encode()


def folder_of(name, *members):
    """The blobs of a folder, itself the last."""
    some = writing.static_set(list(map(ref_of, members)))
    return [*members, some, entry("directory", name, f',"entries":"{ref_of(some)}"')]


EMPTY_PARTS = ',"parts":[]'


def hostile(program):
    """No name leaves the folder, and none that could is used."""
    what, names = "hostile names", [b"..", b".", b"", b"/tmp/x", b"../x", b"a/b", b"a\0b", b"\xff/x"]
    files = [entry("file", name, EMPTY_PARTS) for name in names] + [entry("file", b"good", EMPTY_PARTS)]
    folders = [folder_of(name, entry("file", b"x", EMPTY_PARTS)) for name in names[:5]]
    top = folder_of(b"top", *files, *(folder[-1] for folder in folders))
    bench, above = of_blobs(program, *itertools.chain(*folders), *top), program.new_path()
    above.mkdir()
    told = "(not restored: [^\n]*: is no name of a file\n){13}"
    run(bench.cache, "get_tree.py", bench.store.path, ref_of(top[-1]), above / "target", status=1, err=told)
    compare(what, "what stands", [b"", b"target", b"target/good"], sorted(picture(os.fsencode(above))))


def links_within(program):
    """A link of the tree, or one that is there, isn't followed."""
    what, outside = "links", program.new_path()
    outside.mkdir()
    link = entry("symlink", b"a", f',"symlinkTarget":"{outside}"')
    inner = folder_of(b"a", entry("file", b"x", EMPTY_PARTS))
    other = folder_of(b"b", entry("file", b"x", EMPTY_PARTS))
    top = folder_of(b"top", link, inner[-1], other[-1])
    bench, target = of_blobs(program, *inner, *other, *top), program.new_path()
    target.mkdir()
    (target / "b").symlink_to(outside)
    told = f"not restored: {target}/a: there is another one of this name\n"
    told += f"not restored: {target}/b: no folder is there, but something else\n"
    for words in ((), ("--force",)):
        run(bench.cache, "get_tree.py", bench.store.path, ref_of(top[-1]), target, *words, status=1, err=told)
        compare(what, "what stands outside", [], list(outside.iterdir()))
    compare(what, "the link", str(outside), os.readlink(target / "a"))


def there_already(program):
    """A file that is there is left alone; folders are added to, and keep what they are."""
    what = "what is there"
    bench, looks = put_once(program)
    target = os.fsencode(program.new_path())
    os.mkdir(target)
    os.mkdir(os.path.join(target, b"empty"))
    write(os.path.join(target, b"empty", b"mine"), b"mine")
    write(os.path.join(target, b"empty file"), b"mine too")
    for name in (b"", b"empty", b"empty file"):
        os.utime(os.path.join(target, name), ns=(1, 1))
    mine = picture(target)
    told = r"not restored: \S+/empty file: it is there already; --force replaces it\n"
    run(bench.cache, "get_tree.py", bench.store.path, TREE, target, status=1, err=told)
    seen = picture(target)
    compare_pictures(what, {**looks, **{path: mine[path] for path in mine if path}, b"": seen[b""]}, seen)


def put_once(program):
    bench = Bench(program)
    make(bench.folder, chance("put once"), 30)
    with bench.serve() as server:
        bench.put(server.port)
    return bench, picture(bench.folder)


def by_force(program):
    """With --force files and links are replaced, and folders get their modes and times; a folder is never replaced."""
    bench, looks = put_once(program)
    target = os.fsencode(program.new_path())
    shutil.copytree(bench.folder, target, symlinks=True)
    for above, _, files in os.walk(target):
        for name in files:
            os.unlink(os.path.join(above, name))
            write(os.path.join(above, name), b"mine")
    run(bench.cache, "get_tree.py", bench.store.path, TREE, target, "--force")
    compare_pictures("by force", looks, picture(target))
    os.unlink(os.path.join(target, b"empty file"))
    os.mkdir(os.path.join(target, b"empty file"))
    told = r"not restored: \S+/empty file: a folder is there\n"
    run(bench.cache, "get_tree.py", bench.store.path, TREE, target, "--force", status=1, err=told)


def damaged(program):
    """A file with a damaged blob isn't restored, and is told; with a good copy in another pack it is."""
    what = "a damaged blob"
    bench, looks = put_once(program)
    pack = bench.store.path / "pack-00000.blobs"
    whole, written = pack.read_bytes(), Written(bench.folder, TREE)
    path = max(written.files, key=lambda path: os.path.getsize(os.path.join(bench.folder, path)))
    chunk = reference.fact_of(written.blobs[written.files[path]]).parts[0].blob
    place = whole.index(f"[{chunk} ".encode()) + 80
    pack.write_bytes(whole[:place] + bytes([whole[place] ^ 1]) + whole[place + 1 :])
    target = os.fsencode(program.new_path())
    told = rf"not restored: [^\n]*: {chunk} is damaged in pack-00000.blobs at \d+\n"
    run(bench.cache, "get_tree.py", bench.store.path, TREE, target, status=1, err=told)
    seen = picture(target)
    compare_pictures(what, {one: look for one, look in looks.items() if one != path}, seen)
    (bench.store.path / "pack-00007.blobs").write_bytes(whole)
    bench.comes_back(f"{what}, with a copy", looks)


def by_ref(program):
    """A note, a folder, a file or a link by its ref; a backup with a keyring that is given."""
    what = "by ref"
    bench, looks = put_once(program)
    written = Written(bench.folder, TREE)
    bench.comes_back(what, looks, tree=written.top)
    bench.comes_back(what, looks, tree=ref_of(note_of(TREE)))
    target = program.new_path()
    run(bench.cache, "get_tree.py", bench.store.path, written.files[b"empty file"], target)
    compare(what, "the file", looks[b"empty file"], tree_folders.look(os.fsencode(target)))
    keyring = program.new_path()
    os.rename(bench.store.path / "keyring", keyring)
    bench.comes_back(f"{what}, without a keyring", looks, tree=written.top)
    bench.comes_back(f"{what}, with a keyring", looks, "--keyring", str(keyring))
    told = r"get_tree\.py: \S+ has no file keyring, .*\n"
    run(bench.cache, "get_tree.py", bench.store.path, TREE, program.new_path(), status=3, err=told)


def bits(program):
    """What makes a file run as its owner is kept, and not given back."""
    bench = Bench(program)
    os.mkdir(bench.folder)
    write(os.path.join(bench.folder, b"file"), b"")
    os.chmod(os.path.join(bench.folder, b"file"), 0o6755)
    with bench.serve() as server:
        bench.put(server.port)
    is_stored_so("bits", bench, Written(bench.folder, TREE))
    compare("bits", "the mode", stat.S_IFREG | 0o755, bench.restored()[b"file"][1])


def no_tree(program):
    """What can't be done is told."""
    bench, _ = put_once(program)
    with bench.serve() as server:
        words = [*bench.put_words(server.port)]
        words[words.index(TREE)] = "a second"
        run(bench.cache, "put_tree.py", *words)
    store, nowhere = bench.store.path, program.new_path()
    chunk = next(ref for ref, blob in bench.blobs().items() if reference.fact_of(blob).kind == "Plain")
    empty = Bench(program, {0: writing.pack(writing.key_blob())}).store.path
    lines = [
        ((store, "other", nowhere), rf"no tree other, but a second, {TREE}\. TREE may be the ref of its note, .*"),
        ((empty, "other", nowhere), r"no tree other: no key of the keyring has made one\. TREE may be the ref .*"),
        ((store, chunk, nowhere), rf"{chunk} is no schema blob"),
        ((store, inputs.ABSENT, nowhere), rf"{inputs.ABSENT} isn't there"),
        ((nowhere, TREE, nowhere), rf"{nowhere} isn't a folder"),
        ((bench.cache, TREE, nowhere, "--keyring", store / "keyring"), rf"there is no pack in {bench.cache}: .*"),
        ((store, TREE, nowhere / "within"), rf"{nowhere}/within: No such file or directory"),
    ]
    for words, err in lines:
        run(bench.cache, "get_tree.py", *words, status=3, err=rf"get_tree\.py: {err}\n")
    check(f"{nowhere} is made", not nowhere.exists())
    for date in ("2026-01-01", ""):
        run(bench.cache, "get_tree.py", store, TREE, nowhere, date, status=2, err=r".*isn't a date: write it as .*\n")
    check(f"{nowhere} is made", not nowhere.exists())


def lost_name(program):
    """An entry whose blob is lost is told with its folder, of which all else is restored."""
    files = [entry("file", name, EMPTY_PARTS) for name in (b"one", b"two")]
    top = folder_of(b"top", *files)
    bench, target = of_blobs(program, *top[1:]), program.new_path()
    told = f"not restored: {target}: one entry whose name is lost: {ref_of(files[0])} isn't there\n"
    run(bench.cache, "get_tree.py", bench.store.path, ref_of(top[-1]), target, status=1, err=told)
    compare("a lost name", "what is restored", [target / "two"], list(target.iterdir()))


# Notes

def notes(program):
    """notes.py prints what the reference reads, always and at dates, in random stores, and in one with a tree."""
    stores = [lambda one=one: prints_so(program, *one) for one in inputs.random_stores()]
    return [*stores, lambda: of_a_note(program), lambda: by_moments(program)]


def prints_so(program, what, packs, dates):
    bench = Bench(program, packs)
    archive = reference.archive_of_store(packs, inputs.KEYRING)
    for moment in [reference.ALWAYS, dates[0]]:
        words = [] if moment is reference.ALWAYS else [reference.date_text(moment)]
        lines = list(map(json.loads, run(bench.cache, "notes.py", bench.store.path, *words)))
        compare(f"{what} at {words}", "the notes", noted(archive, moment), lines)


def noted(archive, moment):
    """The notes that stand, with their values."""
    found = []
    for note in sorted(filter(archive.is_permanode, archive.genuine)):
        names = sorted({change.attribute for _, change in archive.counted(note, moment)})
        some = {name: archive.values(note, name, moment) for name in names}
        some = {name: its for name, its in some.items() if its}
        if not archive.deleted(note, moment) and (some or moment is reference.ALWAYS):
            found.append({"note": note, "attrs": some})
    return found


def of_a_note(program):
    """One note, at a date, with its claims; and refs that are none."""
    what, node = "a note", writing.permanode()
    ref, noon = ref_of(node), inputs.day(2, "T12:00:00Z")
    claims = [
        writing.claim("set", ref, "tag", "a", inputs.day(1)),
        writing.claim("del", ref, "tag", "", inputs.day(3)),
        writing.multi([("add", ref, "tag", "b"), ("add", inputs.ABSENT, "tag", "c")], inputs.day(2)),
    ]
    bench = of_blobs(program, writing.key_blob(), node, *claims, writing.delete(ref_of(claims[0]), inputs.day(4)))
    path = bench.store.path
    lines = [f'{{"note":"{ref}","attrs":{{"tag":["a","b"]}}}}']
    for words in ((noon, ref), (ref, noon)):
        compare(what, f"{words}", lines, run(bench.cache, "notes.py", path, *words))
    told = [f'{{"claim":"{ref_of(claims[2])}","date":"{inputs.day(2)}","changes":[["add","tag","b"]]}}']
    told.append(f'{{"claim":"{ref_of(claims[1])}","date":"{inputs.day(3)}","changes":[["del","tag"]]}}')
    lines = run(bench.cache, "notes.py", path, "--claims", ref)
    compare(what, "its claims", [f'{{"note":"{ref}","attrs":{{}}}}', *told], lines)
    why = rf"notes\.py: {ref_of(claims[0])} is no note that a key of the keyring has signed\n"
    run(bench.cache, "notes.py", path, ref_of(claims[0]), status=3, err=why)
    run(bench.cache, "notes.py", path, inputs.ABSENT, status=3, err=rf"notes\.py: {inputs.ABSENT} isn't there\n")


def by_moments(program):
    """Dates count as moments, in whatever zone and with whatever fraction they are written, and then refs count."""
    what, node, noon = "moments", writing.permanode(), "2020-02-02T12:00:00Z"
    dates = ["2020-02-02T16:00:00+05:00", "2020-02-02T11:30:00.25Z", noon, noon, "2020-02-02T12:00:00.5Z"]
    claims = [writing.claim("set", ref_of(node), "tag", f"{number}", date) for number, date in enumerate(dates)]
    for first, second in (claims[2:4], claims[3:1:-1]):
        some = [writing.key_blob(), node, *claims[:2], first, second, claims[4]]
        bench, last = of_blobs(program, *some), max(claims[2:4], key=ref_of)
        counted = {"2020-02-02T12:15:00+01:00": claims[0], "2020-02-02T11:45:00Z": claims[1], noon: last}
        for moment, claim in counted.items():
            (line,) = run(bench.cache, "notes.py", bench.store.path, moment)
            told = {"note": ref_of(node), "attrs": {"tag": [str(claims.index(claim))]}}
            compare(f"{what}: at {moment}", "the note", told, json.loads(line))


# What can't be read

def unreadable(program):
    """Folders and packs of others."""
    if not os.getuid() and shutil.which("setpriv") is None:
        raise harness.LeftOut("there is no setpriv here")
    return [lambda one=one: one(program) for one in (unreadable_folder, locked, locked_backup)]


@contextlib.contextmanager
def closed(path):
    """A folder or file that nobody may read; gives the words in front of a program that root starts."""
    front = () if os.getuid() else ("setpriv", "--bounding-set", "-dac_override,-dac_read_search", "--")
    os.chmod(path, 0)
    try:
        yield front
    finally:
        os.chmod(path, 0o700)


def unreadable_folder(program):
    """What is in a folder that can't be read isn't taken for gone."""
    what, bench = "a folder that can't be read", Bench(program)
    make(bench.folder, chance(what), 30)
    deep = os.path.join(bench.folder, b"deep")
    os.mkdir(deep)
    write(os.path.join(deep, b"file"), b"deep")
    note = ref_of(note_of(TREE, b"deep/file"))
    with bench.serve() as server:
        bench.put(server.port)
        with closed(deep) as front:
            told = "left out: deep: Permission denied\n"
            run(bench.cache, "put_tree.py", *bench.put_words(server.port), status=1, err=told, front=front)
    check(f"{what}: it is taken for gone", values(bench.archive(), note, "camliContent"))


def locked(program):
    """A folder or a pack that can't be read is told in one line."""
    bench, nowhere = of_blobs(program, writing.key_blob()), program.new_path()
    store, pack = bench.store.path, bench.store.path / "pack-00000.blobs"
    lines = [("get_tree.py", store, TREE, nowhere), ("notes.py", store), ("fsck_files.py", store)]
    for path in (store, pack):
        for script, *words in lines:
            with closed(path) as front:
                told = rf"{script}: (the keyring )?{store}\S*: Permission denied\n"
                run(bench.cache, script, *words, status=3, err=told, front=front)


def locked_backup(program):
    what, bench = "a backup that can't be read", Bench(program, {0: writing.pack(b"abc")})
    archive, backup, refs = bench.store.path, program.new_path(), program.new_path()
    shutil.copytree(archive, backup)
    with closed(backup) as front:
        got = shell(program, "verify_backup.sh", archive, backup, refs, front=front)
    compare(what, "status and messages", (2, "", f"verify_backup.sh: {backup} can't be read\n"), got)
    no_folder = "isn't a folder, or can't be reached"
    for path, why in ((refs, no_folder), (archive / "keyring", no_folder), (bench.cache, "has no pack")):
        got = shell(program, "verify_backup.sh", archive, path, refs)
        compare(what, "status and messages", (2, "", f"verify_backup.sh: {path} {why}\n"), got)


# What isn't whole

def whole(program):
    """fsck_files.py, with each blob of a tree lacking, or damaged, in turn."""
    bench = Bench(program)
    os.makedirs(os.path.join(bench.folder, b"in", b"deep"))
    write(os.path.join(bench.folder, b"long"), bytes(range(256)) * 5_000)
    for name in (b"one", b"in/two", b"in/deep/\xffthree", b"in/deep/empty"):
        write(os.path.join(bench.folder, name), name if name != b"in/deep/empty" else b"")
    os.symlink(b"one", os.path.join(bench.folder, b"in", b"link"))
    with bench.serve() as server:
        bench.put(server.port)
    blobs, refs = bench.blobs(), list(Written(bench.folder, TREE).blobs)
    faults = itertools.product(refs, ("lacking", "damaged", "copied"))
    checks = [lambda: is_whole(bench), lambda: without_keyring(bench)]
    return checks + [lambda fault=fault: tells_fault(program, blobs, *fault) for fault in faults]


def is_whole(bench):
    what, last = "a whole tree", "5 files, 1 trees, 6 notes: 0 not whole"
    compare(what, "what is told", [last], run(bench.cache, "fsck_files.py", bench.store.path))
    *lines, told = run(bench.cache, "fsck_files.py", bench.store.path, "--all")
    files = Written(bench.folder, TREE).files
    named = [f"file {ref} {path_text('', os.path.basename(path))[1:]}" for path, ref in files.items()]
    compare(what, "what is told of all", (sorted(named), last), (sorted(lines), told))


def without_keyring(bench):
    """Without a keyring no note counts, which is told."""
    store = Store(bench.program, reference.packs_of(bench.store.files())).path
    told = rf"fsck_files\.py: no note is checked, since {store} has no keyring with a key: give one by --keyring FILE\n"
    lines = run(bench.cache, "fsck_files.py", store, err=told)
    compare("without a keyring", "what is told", ["5 files, 1 trees, 0 notes: 0 not whole"], lines)
    last = run(bench.cache, "fsck_files.py", store, "--keyring", bench.store.path / "keyring")
    compare("with one that is given", "what is told", ["5 files, 1 trees, 6 notes: 0 not whole"], last)
    other = bench.program.new_path()
    for line in (writing.keyring_line("other"), writing.keyring_line(secret=b"another")):
        other.write_bytes(line)
        told = unchecked("6 notes aren't", other, "them")
        lines = run(bench.cache, "fsck_files.py", store, "--keyring", other, err=told)
        compare("with other keys", "what is told", ["5 files, 1 trees, 0 notes: 0 not whole"], lines)
    one = writing.permanode(signer=ref_of(writing.key_blob("other")))
    (store / "pack-00001.blobs").write_bytes(writing.pack(writing.key_blob("other"), one))
    keyring = bench.store.path / "keyring"
    lines = run(bench.cache, "fsck_files.py", store, "--keyring", keyring, err=unchecked("1 note isn't", keyring, "it"))
    compare("with a note of another key", "what is told", ["5 files, 1 trees, 6 notes: 0 not whole"], lines)


def unchecked(some, keyring, them):
    """What is told of notes that no key of a keyring has signed."""
    return rf"fsck_files\.py: {some} checked, since no key of {keyring} is known to have signed {them}\n"


def tells_fault(program, blobs, ref, how):
    what, bench = f"{ref} is {how}", Bench(program)
    rest = [blob for one, blob in blobs.items() if one != ref]
    pack = writing.pack(*rest)
    broken = bytearray(writing.record(blobs[ref]))
    broken[-1] ^= 1
    if how != "lacking" and blobs[ref]:
        pack = bytes(broken) + pack
    (bench.store.path / "pack-00000.blobs").write_bytes(pack)
    if how == "copied":
        (bench.store.path / "pack-00001.blobs").write_bytes(writing.pack(blobs[ref]))
    left = blobs if how == "copied" else {one: blob for one, blob in blobs.items() if one != ref}
    expected = faults_of(left)
    is_key_gone = ref == writing.KEY and ref not in left
    told = unchecked("6 notes aren't", bench.store.path / "keyring", "them") if is_key_gone else ""
    lines = run(bench.cache, "fsck_files.py", bench.store.path, status=1 if expected else 0, err=told)
    told = [tuple(line.split()[:2]) for line in lines[:-1]]
    compare(what, "what is told", sorted(expected), sorted((kind, one.rstrip(":")) for kind, one in told))
    word = f"{ref} is damaged in pack-00000.blobs at " if how == "damaged" and blobs[ref] else f"{ref} isn't there"
    check(f"{what}: {lines}", all(word in line for line in lines[:-1]))
    check(f"{what}: {lines[-1]}", lines[-1].endswith(f": {len(expected)} not whole"))


def faults_of(blobs):
    """Which files, trees and notes aren't whole, by the reference."""
    facts = {ref: reference.fact_of(blob) for ref, blob in blobs.items()}
    files = {ref for ref, fact in facts.items() if fact.kind == "File"}
    found = {("file", ref) for ref in files if reference.read_file(blobs, ref)[1] != 0}
    sets = {ref: json.loads(blobs[ref])["entries"] for ref, fact in facts.items() if fact.kind == "Directory"}
    needs = {ref: json.loads(blobs[one])["members"] if one in blobs else [one] for ref, one in sets.items()}
    inner = {ref for some in needs.values() for ref in some}

    def is_broken(ref):
        return ref not in blobs or ("file", ref) in found or any(map(is_broken, needs.get(ref, ())))

    found |= {("tree", ref) for ref in sets if ref not in inner and is_broken(ref)}
    archive = reference.Archive(blobs, reference.read_keyring(inputs.KEYRING))
    for note in filter(archive.is_permanode, archive.genuine):
        found |= {("note", note) for ref in values(archive, note, "camliContent") if ref not in blobs}
    return found


def verify(program):
    """verify_backup.sh, over a backup and an archive that lose blobs; and where it, or perkeep-mirror, can't be run."""
    return [lambda: is_verified(program), lambda: no_program(program)]


def shell(program, script, *words, front=(), **settings):
    """Runs a script of the shell; returns its status, output and errors."""
    settings = {**os.environ, "PERKEEP": str(program.path), **settings}
    ran = subprocess.run([*front, EXAMPLES / script, *words], env=settings, capture_output=True, timeout=SECONDS)
    return ran.returncode, ran.stdout.decode(), ran.stderr.decode()


def no_program(program):
    nowhere, rest = str(program.new_path()), ("a", "b")
    for script, status in (("verify_backup.sh", 2), ("perkeep-mirror", 127)):
        got = shell(program, script, *rest, PERKEEP=nowhere)
        told = f"{script}: there is no program {nowhere}: set PERKEEP to the path of perkeep\n"
        compare(f"{script} without the program", "status and messages", (status, "", told), got)


def is_verified(program):
    what, bench = "a backup", Bench(program, {0: writing.pack(b"abc", b"def")})
    archive, backup, refs = bench.store.path, program.new_path(), program.new_path()
    shutil.copytree(archive, backup)

    def tells(status, *lines):
        settings = {**os.environ, "PERKEEP": str(program.path)}
        line = [EXAMPLES / "verify_backup.sh", archive, backup, refs]
        ran = subprocess.run(line, env=settings, capture_output=True, timeout=SECONDS)
        told = ran.stdout.decode().splitlines()
        compare(f"{what}: {ran.stderr}", "status and lines", (status, list(lines)), (ran.returncode, told))

    def lacks(folder, blob, whose=f"{archive} had at the last good check"):
        return f"{folder} lacks 1 blob that {whose}, the first of them {ref_of(blob)} {len(blob)}"

    def more(count):
        some, are = ("1 blob", "isn't") if count == 1 else (f"{count} blobs", "aren't")
        return f"{some} of {archive} {are} in {backup} yet"

    whole, broken = writing.pack(b"abc", b"def"), f"pack-00000.blobs broken {len(writing.pack(b'abc'))}"
    damaged = whole[:-1] + b"X"
    (backup / "pack-00000.blobs").write_bytes(damaged)
    tells(1, lacks(backup, b"def", f"{archive} has"), broken, more(1))
    (backup / "pack-00000.blobs").write_bytes(whole)
    (archive / "pack-00000.blobs").write_bytes(damaged)
    tells(1, lacks(archive, b"def", f"{backup} has"), broken, more(0))
    (archive / "pack-00000.blobs").write_bytes(whole)
    tells(0, more(0))
    (archive / "pack-00001.blobs").write_bytes(writing.pack(b"ghi", b"jkl"))
    tells(0, more(2))
    (archive / "pack-00002.blobs").write_bytes(writing.pack(b"mno"))
    two = f"{backup} lacks 2 blobs that {archive} had at the last good check, the first of them "
    first = min(f"{ref_of(blob)} {len(blob)}" for blob in (b"ghi", b"jkl"))
    tells(1, two + first, more(3))
    shutil.copy(archive / "pack-00001.blobs", backup)
    tells(0, more(1))
    shutil.copy(archive / "pack-00002.blobs", backup)
    tells(0, more(0))
    (archive / "pack-00000.blobs").write_bytes(damaged)
    tells(1, lacks(archive, b"def"), broken, more(0))
    (archive / "pack-00000.blobs").write_bytes(whole)
    tells(0, more(0))
    shutil.rmtree(backup)
    tells(2)


# The scripts themselves

def sources(program):
    """They need Python 3.9 and its standard library alone, and their help tells what they don't keep."""
    checks = [lambda name=name: is_plain(name) for name in [*SCRIPTS, f"{SHARED}.py"]]
    return checks + [lambda name=name: helps(program, name) for name in SCRIPTS]


def is_plain(name):
    tree = ast.parse((EXAMPLES / name).read_text(), feature_version=(3, 9))
    named = [one.module for one in ast.walk(tree) if isinstance(one, ast.ImportFrom)]
    named += [alias.name for one in ast.walk(tree) if isinstance(one, ast.Import) for alias in one.names]
    known = {*sys.stdlib_module_names, SHARED} if hasattr(sys, "stdlib_module_names") else {*named}
    compare(name, "what it imports from elsewhere", set(), {one.partition(".")[0] for one in named} - known)


def helps(program, name):
    text = " ".join(run(program.folder, name, "--help"))
    for wanted in ("Status: 0", "3 it couldn't be done"):
        check(f"{name} --help doesn't have {wanted}", wanted in text)
    if name == "put_tree.py":
        kept = ["owners, hard links", "extended attributes and holes", "another note", "another TREE for each"]
        for wanted in [*kept, "folders that have packs", "the file given by --keyring", "with --empty"]:
            check(f"{name} --help doesn't have {wanted}", wanted in text)


GROUPS = [sources, page, notes, whole, restoring, changes, titles, caches, not_read, left_out, connections, kills]
GROUPS += [many_notes, verify, unreadable]

if __name__ == "__main__":
    harness.main("trees.sh", GROUPS, [round_trip, large_folders])
