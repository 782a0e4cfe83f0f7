#!/usr/bin/env python3
"""Restores a folder out of an archive, as put_tree.py has stored it, or as it was at an earlier date.

    get_tree.py ~/archive photos ~/photos.back
    get_tree.py ~/archive photos ~/photos.then 2026-01-31T18:30:00Z

DIR is the folder of the archive, or a copy of it. Its packs are read, even while a server runs. For a backup without a
keyring, give one by --keyring. TREE is the name that put_tree.py was given, even if the title of the tree's note has
changed since. Instead of it you can give a ref: of a note, as notes.py prints it, or of a folder, file or link
(docs/formats/trees.md). With DATE the tree is restored as it was then.

PATH is made, or added to if it is a folder already. Nothing is written outside it, whatever names and links the tree
has. Unless --force is given, a file that is there already is left alone and reported, and a folder with something in it
keeps its mode and times. Each blob is checked against its ref. Modes and times of change are restored, those of folders
and links too; but a file's set-user-ID and set-group-ID bits aren't, since owners aren't kept. Standard error says what
can't be restored, and nothing of that is left.

Status: 0 all is restored, 1 something isn't, 2 bad arguments, 3 it couldn't be done.
"""

from __future__ import annotations

import dataclasses
import errno
import os
import pathlib
import secrets
import stat
from typing import Optional

from perkeep_archive import (
    ALWAYS, INCOMPLETE, Archive, Entry, Lacking, Notes, Refused, is_ref, keyring_of, moment_word, octets_in,
    octets_text, parser_of, ref_of, report, run, shown, tree_note,
)

READ_FOLDER = os.O_RDONLY | os.O_DIRECTORY | os.O_NOFOLLOW | os.O_CLOEXEC
WRITE_FILE = os.O_WRONLY | os.O_CREAT | os.O_EXCL | os.O_NOFOLLOW | os.O_CLOEXEC
# What the system says of a link, or a file, that should be a folder; and of a hard link where there can be none.
NO_FOLDER = {errno.ENOTDIR, errno.ELOOP}
NO_LINKS = {errno.EPERM, errno.EOPNOTSUPP, errno.ENOSYS}
# Blobs of up to so many bytes are kept whatever they say: among them keys, permanodes and deletions.
SHORT = 1_024


class Left(Exception):
    """Why an entry isn't restored."""


@dataclasses.dataclass
class Target:
    """A folder that is restored to: open, with its path for messages, what it is to be like in the end, and the names
    that were met."""

    file: int
    path: bytes
    entry: Entry
    is_new: bool
    names: set[bytes] = dataclasses.field(default_factory=set)

    def meet(self, name: bytes) -> None:
        """Takes a name, which has to be one of a file, and the first of its kind."""
        if name in (b"", b".", b"..") or b"/" in name or b"\0" in name:
            raise Left("is no name of a file")
        if name in self.names:
            raise Left("there is another one of this name")
        self.names.add(name)


class Restoring:
    """A run that restores a tree. `instead` says what to do about a file that is there already."""

    def __init__(self, archive: Archive, is_forced: bool, instead: str = "--force replaces it"):
        self.archive, self.is_forced, self.instead = archive, is_forced, instead
        self.left = 0
        umask = os.umask(0)
        os.umask(umask)
        self.usual_modes = {"file": 0o666 & ~umask, "directory": 0o777 & ~umask}

    def restore(self, entry: Entry, path: bytes) -> None:
        """Restores a file, link or folder at a path, whose folder is there."""
        above, name = os.path.split(path.rstrip(b"/"))
        if entry.kind == "directory" and os.path.isdir(path):
            self.restore_below(Target(os.open(path, os.O_RDONLY | os.O_DIRECTORY), path, entry, not os.listdir(path)))
            return
        file = os.open(above or b".", os.O_RDONLY | os.O_DIRECTORY)
        try:
            made = self.try_entry(Target(file, above, entry, False), entry, name)
        finally:
            os.close(file)
        if made is not None:
            self.restore_below(made)

    def restore_below(self, top: Target) -> None:
        """Restores what is in a folder. The folders within one another that are open are those of one path."""
        waiting = [(top, self.archive.entries(top.entry))]
        while waiting:
            target, entries = waiting[-1]
            entry = next(entries, None)
            if entry is None:
                self.finish(target)
                waiting.pop()
                continue
            made = self.try_entry(target, entry, entry.name)
            if made is not None:
                waiting.append((made, self.archive.entries(entry)))

    def try_entry(self, folder: Target, entry: Entry, name: bytes) -> Optional[Target]:
        """Restores an entry in a folder; answers the open folder that it is, if it is one. Tells what fails."""
        if entry.fault is not None:
            self.report(folder.path, f"one entry whose name is lost: {entry.fault}")
            return None
        try:
            folder.meet(name)
            return self.restore_entry(folder, entry, name)
        except (Lacking, Left, OSError) as why:
            self.report(os.path.join(folder.path, name), why.strerror if isinstance(why, OSError) else str(why))
            return None

    def report(self, path: bytes, why: str) -> None:
        self.left += 1
        report(f"not restored: {shown(octets_text(path))}: {why}")

    def restore_entry(self, folder: Target, entry: Entry, name: bytes) -> Optional[Target]:
        if entry.kind == "directory":
            return self.make_folder(folder, entry, name)
        if entry.kind not in ("file", "symlink"):
            raise Left(f"{entry.ref} is no file, folder or link, but a {shown(entry.kind)}")
        self.check_free(folder, name)
        temporary = b".get_tree-" + secrets.token_hex(8).encode()
        try:
            self.write(folder, entry, temporary)
            self.place(folder, temporary, name)
        except BaseException:
            remove(folder, temporary)
            raise
        return None

    def make_folder(self, folder: Target, entry: Entry, name: bytes) -> Target:
        """Makes a folder for its owner alone, or opens the one that is there."""
        try:
            os.mkdir(name, 0o700, dir_fd=folder.file)
            is_new = True
        except FileExistsError:
            is_new = False
        try:
            file = os.open(name, READ_FOLDER, dir_fd=folder.file)
        except OSError as why:
            raise Left("no folder is there, but something else") from None if why.errno in NO_FOLDER else why
        return Target(file, os.path.join(folder.path, name), entry, is_new or not os.listdir(file))

    def check_free(self, folder: Target, name: bytes) -> None:
        """Nothing may be there under a name, or, by force, no folder."""
        try:
            status = os.stat(name, dir_fd=folder.file, follow_symlinks=False)
        except FileNotFoundError:
            return
        if stat.S_ISDIR(status.st_mode):
            raise Left("a folder is there")
        if not self.is_forced:
            raise Left(f"it is there already; {self.instead}")

    def write(self, folder: Target, entry: Entry, temporary: bytes) -> None:
        """Makes a file or link under a name of its own, with all that it is to have."""
        if entry.kind == "symlink":
            os.symlink(octets_in(entry.body, "symlinkTarget"), temporary, dir_fd=folder.file)
            set_times(temporary, entry, dir_fd=folder.file, follow_symlinks=False)
            return
        with open(os.open(temporary, WRITE_FILE, 0o600, dir_fd=folder.file), "wb") as file:
            for piece in self.archive.content(entry.ref):
                file.write(piece)
            file.flush()
            os.fchmod(file.fileno(), self.mode_of(entry) & ~(stat.S_ISUID | stat.S_ISGID))
            set_times(file.fileno(), entry)

    def mode_of(self, entry: Entry) -> int:
        return self.usual_modes[entry.kind] if entry.mode is None else entry.mode

    def place(self, folder: Target, temporary: bytes, name: bytes) -> None:
        """Gives what was made its name, which nothing else may have got meanwhile."""
        within = {"src_dir_fd": folder.file, "dst_dir_fd": folder.file}
        if self.is_forced:
            os.replace(temporary, name, **within)
            return
        try:
            os.link(temporary, name, follow_symlinks=False, **within)
            remove(folder, temporary)
        except OSError as why:
            if why.errno not in NO_LINKS:
                raise
            self.check_free(folder, name)
            os.rename(temporary, name, **within)

    def finish(self, target: Target) -> None:
        """Gives a folder its mode and times, once all that is in it is there."""
        try:
            if target.is_new or self.is_forced:
                os.fchmod(target.file, self.mode_of(target.entry))
                set_times(target.file, target.entry)
        except OSError as why:
            self.report(target.path, f"its mode and times: {why.strerror}")
        finally:
            os.close(target.file)


def remove(folder: Target, temporary: bytes) -> None:
    try:
        os.unlink(temporary, dir_fd=folder.file)
    except FileNotFoundError:
        pass


def set_times(path: object, entry: Entry, **where: object) -> None:
    if entry.moment is not None:
        os.utime(path, ns=(entry.moment, entry.moment), **where)


# What is to be restored

class Wanted:
    """A tree by its name, or anything by its ref; looked up in the notes of an archive, at a moment."""

    def __init__(self, text: str, moment: int, notes: Notes):
        self.text, self.moment, self.notes = text, moment, notes
        of_keys = (ref_of(tree_note(key, text)) for key in notes.keys.values())
        self.candidates = {text} if is_ref(text) else set(of_keys)

    def see(self, ref: str, blob: bytes) -> None:
        """Keeps what the notes are made of, but no claims on others."""
        if len(blob) <= SHORT or any(one.encode() in blob for one in self.candidates):
            self.notes.see(ref, blob)

    def ref(self) -> str:
        """The ref of the folder, file or link."""
        self.notes.settle()
        notes = self.candidates & self.notes.permanodes
        if is_ref(self.text) and not notes:
            return self.text
        if len(notes) != 1:
            why = f": there are several: {', '.join(sorted(notes))}" if notes else self.others()
            raise Refused(f"no tree {self.text}{why}. TREE may be the ref of its note, too: notes.py prints each")
        return self.content_of(*notes)

    def others(self) -> str:
        """What there is instead: the trees, by the names that put_tree.py was given."""
        changes = [change for claim in self.notes.claims for change in claim.changes if change.attribute == "title"]
        trees = sorted({change.value for change in changes if self.is_tree(change.note, change.value)})
        return f", but {', '.join(trees)}" if trees else ": no key of the keyring has made one"

    def is_tree(self, note: str, name: str) -> bool:
        of_keys = (ref_of(tree_note(key, name)) for key in self.notes.keys.values())
        return note in of_keys and note in self.notes.permanodes and not self.notes.is_deleted(note, self.moment)

    def content_of(self, note: str) -> str:
        attributes = self.notes.attributes(self.moment, {note})
        if note not in attributes:
            raise Refused(f"{self.text} was removed by then: its note is deleted")
        content = attributes[note].get("camliContent", [""])[-1]
        if not is_ref(content):
            raise Refused(f"{self.text} has no content{'' if self.moment == ALWAYS else ' at that date'}")
        return content


def main() -> int:
    parser = parser_of(__doc__)
    parser.add_argument("folder", metavar="DIR", type=pathlib.Path, help="the folder of the archive, or of a copy")
    parser.add_argument("tree", metavar="TREE|REF", help="a tree's name, or the ref of a note, folder, file or link")
    parser.add_argument("path", metavar="PATH", help="where it is restored to")
    parser.add_argument("moment", metavar="DATE", nargs="?", type=moment_word, default=ALWAYS, help="as it was then")
    parser.add_argument("--keyring", metavar="FILE", help="a keyring other than that of DIR")
    parser.add_argument("--force", action="store_true", help="replaces files and links that are there")
    words = parser.parse_intermixed_args()
    notes = Notes(keyring_of(words.folder, words.keyring, is_needed=not is_ref(words.tree)))
    wanted = Wanted(words.tree, words.moment, notes)
    archive = Archive(words.folder, wanted.see)
    entry = archive.entry(wanted.ref())
    if entry.fault is not None or entry.kind not in ("file", "symlink", "directory"):
        raise Refused(str(entry.fault or f"{entry.ref} isn't a folder, file or link"))
    restoring = Restoring(archive, words.force)
    try:
        restoring.restore(entry, os.fsencode(words.path))
    except OSError as why:
        raise Refused(f"{words.path}: {why.strerror}") from None
    return INCOMPLETE if restoring.left else 0


if __name__ == "__main__":
    run(main)
