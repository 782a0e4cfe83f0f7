"""Folders for the tests of examples/put_tree.py: made at random, compared, and written as blobs a second time, from
docs/formats/trees.md alone.
"""

import hashlib
import hmac
import os
import stat

import writing
from reference import date_text, ref_of

# Spaces, letters beyond ASCII, bytes that aren't UTF-8, and names that break other programs.
NAMES = [b"a b", "\u00e9t\u00e9 \u65e5\u672c".encode(), b"\xff\xfe", b"caf\xe9.txt", b"\xed\xa0\x80", b"100%25", b"-n"]
NAMES += [b'"q"\\', b"line\nfeed", b"\x1b[31m\x7f", b"...", b" ", b"~", b"*"]
NAMES += [b"n" * 255, "\u00e9".encode() * 127, b"\xff" * 40]
MODES = (0o644, 0o600, 0o755, 0o444, 0o666, 0o777, 0o640, 0o1644)
FOLDER_MODES = (0o755, 0o700, 0o711, 0o1777, 0o2755)
TARGETS = [b"a b", b"../up", b"/nowhere/at all", b"\xff\xfe", "\u00e9".encode(), b".", b"x" * 300]
CHUNK = writing.BYTES_OF_A_CHUNK
# docs/formats/trees.md, "Folders"
MOST_MEMBERS = 10_000


# Making

def make(path, chance, count, long_file=0):
    """Makes a folder of so many files, links and folders, one of the files of so many bytes."""
    os.mkdir(path)
    folders = [path]
    for number in range(count):
        above = chance.choice(folders)
        name = NAMES[number] if number < len(NAMES) else b"%d %s" % (number, chance.choice(NAMES)[:200])
        one = os.path.join(above, name)
        kind = chance.choices(("file", "folder", "link"), (12, 3, 2))[0]
        if kind == "folder":
            os.mkdir(one)
            folders.append(one)
        elif kind == "link":
            os.symlink(chance.choice(TARGETS), one)
        else:
            write(one, content(chance))
    write(os.path.join(folders[-1], b"long"), chance.randbytes(long_file))
    os.mkdir(os.path.join(path, b"empty"))
    write(os.path.join(path, b"empty file"), b"")
    age(path, chance)


def content(chance):
    """The bytes of a file: mostly few, sometimes none, some as long as a chunk or somewhat longer."""
    rare = 0, 1, 10, 5_000, 60_000, CHUNK - 1, CHUNK, CHUNK + 1
    return chance.randbytes(chance.choice(rare if chance.random() < 0.3 else (20, 400)))


def write(path, octets):
    with open(path, "wb") as file:
        file.write(octets)


def age(path, chance):
    """Sets the modes and times of everything in a folder, and of the folder, the innermost first."""
    for above, folders, files in os.walk(path, topdown=False):
        for name in files + folders:
            dress(os.path.join(above, name), chance)
    dress(path, chance)


def dress(path, chance):
    status = os.lstat(path)
    if not stat.S_ISLNK(status.st_mode):
        os.chmod(path, chance.choice(FOLDER_MODES if stat.S_ISDIR(status.st_mode) else MODES))
    # Before 1970, with and without a fraction, and in the future.
    seconds = chance.choice((-86_400 * 365, 0, 1_000_000_000, 1_700_000_000, 4_000_000_000)) + chance.randrange(10**6)
    moment = seconds * 10**9 + chance.choice((0, 500_000_000, 1, 123_456_789, 999_999_999))
    os.utime(path, ns=(moment, moment), follow_symlinks=False)


# Comparing

def picture(path):
    """The content of a folder, by paths within it: kinds, modes, times, contents and targets."""
    seen = {b"": look(path)}
    for above, folders, files in os.walk(path):
        for name in folders + files:
            one = os.path.join(above, name)
            seen[os.path.relpath(one, path)] = look(one)
    return seen


def look(path):
    status = os.lstat(path)
    if stat.S_ISLNK(status.st_mode):
        return "link", status.st_mtime_ns, os.readlink(path)
    rest = status.st_mode, status.st_mtime_ns
    if stat.S_ISDIR(status.st_mode):
        return "folder", *rest
    digest = hashlib.sha256()
    with open(path, "rb") as file:
        while piece := file.read(CHUNK):
            digest.update(piece)
    return "file", *rest, digest.hexdigest()


# Writing a second time (docs/formats/trees.md)

class Written:
    """The blobs of a folder, by their refs, the ref of the folder, and those of its files by their paths."""

    def __init__(self, path, tree):
        self.path, self.blobs, self.files = path, {}, {}
        self.top = self.folder(b"", tree.encode())

    def keep(self, blob):
        self.blobs[ref_of(blob)] = blob
        return ref_of(blob)

    def folder(self, within, name):
        members = []
        for entry in sorted(os.listdir(os.path.join(self.path, within))):
            one = os.path.join(within, entry)
            status = os.lstat(os.path.join(self.path, one))
            if stat.S_ISDIR(status.st_mode):
                members.append(self.folder(one, entry))
            elif stat.S_ISLNK(status.st_mode):
                target = octets("symlinkTarget", os.readlink(os.path.join(self.path, one)))
                members.append(self.schema("symlink", one, f"{octets('fileName', entry)},{target}"))
            else:
                members.append(self.file(one, entry))
        return self.schema("directory", within, f'{octets("fileName", name)},"entries":"{self.set_of(members)}"')

    def set_of(self, members):
        while len(members) > MOST_MEMBERS:
            runs = [members[at : at + MOST_MEMBERS] for at in range(0, len(members), MOST_MEMBERS)]
            members = [self.keep(writing.static_set(run)) for run in runs]
        return self.keep(writing.static_set(members))

    def file(self, within, name):
        with open(os.path.join(self.path, within), "rb") as file:
            chunks = writing.chunks_of(file.read())
        parts = ",".join(writing.part(len(chunk), self.keep(chunk)) for chunk in chunks)
        self.files[within] = self.schema("file", within, f'{octets("fileName", name)},"parts":[{parts}]')
        return self.files[within]

    def schema(self, kind, within, fields):
        status = os.lstat(os.path.join(self.path, within))
        unix = f'"unixPermission":"0{status.st_mode & 0o7777:o}","unixMtime":"{date_text(status.st_mtime_ns)}"'
        return self.keep(f'{{"camliVersion":1,"camliType":"{kind}",{fields},{unix}}}\n'.encode())


def octets(key, value):
    """A name or a target with its key."""
    if is_text(value):
        return f'"{key}":{writing.text(value.decode())}'
    some = [str(one) if isinstance(one, int) else writing.text(one) for one in pieces(value)]
    return f'"{key}Bytes":[{",".join(some)}]'


def pieces(value):
    """The longest strings with which some bytes begin, one after another; if none does, the number of the byte."""
    while value:
        length = next((n for n in range(len(value), 0, -1) if is_text(value[:n])), 0)
        yield value[:length].decode() if length else value[0]
        value = value[length or 1 :]


def is_text(value):
    try:
        value.decode()
    except UnicodeDecodeError:
        return False
    return True


def path_text(tree, within):
    """The value of `path` of the note of a file."""
    return f"{tree}/" + "".join(f"%{one:02X}" if isinstance(one, int) else one for one in pieces(within))


def note_of(tree, within=b"", name=writing.NAME, secret=writing.SECRET):
    """The permanode of a path of a tree, or of the tree."""
    random = hmac.digest(secret, tree.encode() + b"\0" + within, "sha256")[:16].hex()
    return writing.permanode(random, ref_of(writing.key_blob(name)), secret)
