"""Stores in real folders: runs the program over them, and compares its output, how it ends and every byte that is then
there.

The expected output, and each byte of each pack, is the reference's. The refs that `put` prints are those of the tool
sha224sum. Each command that only reads must leave the folder unchanged, to the times of its files.
"""

import shutil
import subprocess

import inputs
import reference
from harness import compare
from reference import pack_name
from writing import pack

READING = ("get", "stat", "list", "search", "words", "salvage")
EMPTY = "sha224-d14a028c2a3a2bc9476102bb288234c415a2b01f828ea62ac5b3e42f"
ABC = "sha224-23097d223405d8228642a477bda255b32aadbce4bda0b3f7e36c9da7"
NOWHERE = inputs.ABSENT
NOTHING_FOUND = b'{"blobs":[]}\n'
CLEAN, TORN = pack(b"a blob"), pack(b"a blob") + b"[torn"


class Store:
    """A folder of packs, its expected packs and other files, and the program."""

    def __init__(self, program, packs=None, others=None):
        """Makes the folder with packs by their numbers and other files by their names; no folder if both are None."""
        self.program = program
        self.path = program.new_path()
        self.packs = dict(packs or {})
        self.others = dict(others or {})
        if packs is not None or others is not None:
            self.path.mkdir()
        for name, content in self.expected_files().items():
            (self.path / name).write_bytes(content)

    def expected_files(self):
        return {**self.others, **{pack_name(number): content for number, content in self.packs.items()}}

    def files(self):
        """The bytes of all files of the folder, by their names."""
        return {entry.name: entry.read_bytes() for entry in self.path.iterdir()} if self.path.exists() else {}

    def blobs(self):
        return reference.arrivals(self.packs)

    def words(self, command, *rest):
        return [command, str(self.path), *rest]

    def check_files(self, what):
        files, expected = self.files(), self.expected_files()
        compare(what, "names of files", sorted(expected), sorted(files))
        for name in files:
            compare(what, name, expected[name], files[name])

    def put(self, what, blob):
        """Puts a blob, which has to succeed, and compares the ref and all files."""
        self.packs = reference.put(self.packs, blob)
        self.program.check(what, self.words("put"), ref_by_tool(blob).encode() + b"\n", source=blob)
        self.check_files(what)

    def reads(self, what, command, *rest, out=b"", status=0):
        """Runs a command that only reads, or one that is refused, and finds the folder unchanged."""
        self.keeps(what, self.words(command, *rest), out, status)

    def keeps(self, what, words, out=b"", status=0, source=b""):
        before = look(self.path)
        self.program.check(what, words, out, status, source)
        compare(what, "the folder", before, look(self.path))

    def lists(self, what):
        """Compares the output of salvage and of a whole listing."""
        self.reads(f"{what}: salvage", "salvage", out=reference.salvage_text(self.packs))
        self.reads(f"{what}: list", "list", out=reference.listing(self.blobs()))

    def gets(self, what, refs):
        """Gets and stats blobs, which may be absent."""
        blobs = self.blobs()
        for ref in refs:
            status = 0 if ref in blobs else 3
            self.reads(f"{what}: get", "get", ref, out=blobs.get(ref, b""), status=status)
            line = reference.entry(ref, blobs[ref]) if ref in blobs else b""
            self.reads(f"{what}: stat", "stat", ref, out=line, status=status)


def look(path):
    """The content of a path, with sizes, times and numbers of files; None if there is nothing."""
    if not path.exists():
        return None
    entries = sorted(path.rglob("*"))
    return {str(entry): seen(entry.lstat()) for entry in [path, *entries]}


def seen(entry):
    return entry.st_mode, entry.st_ino, entry.st_size, entry.st_mtime_ns


def ref_by_tool(blob):
    """The ref of bytes by a program that has nothing to do with this one."""
    tool = ["sha224sum"] if shutil.which("sha224sum") else ["openssl", "dgst", "-sha224", "-r"]
    digest = subprocess.run(tool, input=blob, stdout=subprocess.PIPE, check=True).stdout.split()[0]
    return "sha224-" + digest.decode()


def lines_of(folder):
    """One valid line of each command over a folder."""
    folder = str(folder)
    return {
        "put": ["put", folder],
        "get": ["get", folder, ABC],
        "stat": ["stat", folder, ABC],
        "list": ["list", folder],
        "search": ["search", folder, "--attr", "tag", "--value", "a"],
        "words": ["words", folder, "tag:a"],
        "salvage": ["salvage", folder],
    }


def check_search(store, archive, attribute, value, at):
    when = [] if at is None else [f"--at={at}"]
    found = archive.holders(attribute, value, reference.ALWAYS if at is None else reference.moment_of(at))
    what = f"search {attribute} {value} at {at}"
    store.reads(what, "search", f"--attr={attribute}", f"--value={value}", *when, out=reference.search_text(found) + b"\n")
