#!/usr/bin/env python3
"""Says which files, trees and notes of an archive aren't whole: a blob that they need is missing, or damaged.

    fsck_files.py ~/archive
    fsck_files.py ~/backup --keyring ~/archive/keyring

DIR is the folder of the archive, or a copy of it. Its packs are read, even while a server runs, and each blob is
checked against its ref. A blob that is damaged in one pack and whole in another is whole. The output has a line

  file REF NAME: ..    for each file that can't be read whole: the first blob that fails, and what is wrong with it;
  tree REF NAME: ..    for each folder that is in no other one, if something in it isn't whole: how many entries, and
                       the path of the first;
  note REF TITLE: ..   for each note whose camliContent isn't there, for which the keyring is needed.

Notes that no key of the keyring has signed aren't checked; standard error says how many. `perkeep salvage` says which
packs are broken, and docs/guide.md how to repair one with a copy. With --all each file that is whole is printed too,
with its ref and its name. The last line has the counts.

Status: 0 all is whole, 1 something isn't, 2 bad arguments, 3 it couldn't be done.
"""

from __future__ import annotations

import pathlib
import sys
from typing import Iterator, NamedTuple, Optional

from perkeep_archive import (
    DEEPEST, INCOMPLETE, Archive, Lacking, Notes, Part, is_ref, keyring_of, members_in, octets_in, octets_text,
    parser_of, parts_in, report, run, schema_in, shown, total,
)


class Node(NamedTuple):
    """The refs that a schema blob needs, as far as they are checked: the parts of a file or of bytes, the members of a
    set, the set of a folder; or why it is none of these."""

    kind: str
    name: bytes
    parts: list[Part]
    members: list[str]
    fault: Optional[str] = None


def node_of(ref: str, body: dict) -> Node:
    kind, parts, members, fault = body["camliType"], [], [], None
    if kind in ("file", "bytes"):
        try:
            parts = [one._replace(blob=shared(one.blob), tree=shared(one.tree)) for one in parts_in(body, ref)]
        except Lacking as why:
            fault = why.why
    elif kind == "static-set":
        members = members_in(body)
        fault = "has a member that is no ref" if members is None else None
    elif kind == "directory":
        members = [str(body.get("entries"))]
    return Node(sys.intern(kind), octets_in(body, "fileName"), parts, list(map(shared, members or [])), fault)


def shared(ref: Optional[str]) -> Optional[str]:
    """The same object for equal refs, since many blobs may name one."""
    return ref and sys.intern(ref)


class Seen:
    """The needs of an archive's blobs, gathered as they are shown."""

    def __init__(self, notes: Notes):
        self.notes = notes
        self.nodes: dict[str, Node] = {}

    def see(self, ref: str, blob: bytes) -> None:
        self.notes.see(ref, blob)
        body = schema_in(blob)
        if body and body["camliType"] not in ("permanode", "claim"):
            self.nodes[shared(ref)] = node_of(ref, body)

    def of_kind(self, kind: str) -> list[str]:
        return [ref for ref, node in self.nodes.items() if node.kind == kind]


class Fault(NamedTuple):
    """How many entries of a folder aren't whole, including those of the folders in it, and the first, by its path."""

    count: int
    path: str
    why: str

    def below(self, name: str) -> Fault:
        return self._replace(path=f"{name}/{self.path}")


class Check:
    """What is wrong with the files and folders of an archive. Each is checked once."""

    def __init__(self, archive: Archive, seen: Seen):
        self.archive, self.nodes = archive, seen.nodes
        self.lengths: dict[str, int] = {}
        self.files = {ref: self.file_fault(ref) for ref in seen.of_kind("file")}
        self.entries = {ref: list(self.entries_of(ref)) for ref in seen.of_kind("directory")}
        self.folders: dict[str, Optional[Fault]] = {}
        for ref in self.entries:
            self.check_folder(ref)

    # Files

    def file_fault(self, ref: str) -> Optional[str]:
        """Why a file can't be read whole; None if it can."""
        try:
            self.length(ref, ("file",), 1)
        except Lacking as why:
            return str(why)
        return None

    def length(self, ref: str, kinds: tuple[str, ...], depth: int) -> int:
        """How many bytes a file or a tree has, if all of its blobs are there (docs/files.md, "Reading a file")."""
        if ref not in self.lengths:
            node = self.nodes.get(ref)
            if node is None or node.kind not in kinds or node.fault:
                is_there = ref in self.archive.records
                why = f"is no {' or '.join(kinds)}" if is_there else self.archive.fate(ref)
                raise Lacking(ref, node and node.fault or why)
            for part in node.parts:
                self.check_part(part, depth)
            self.lengths[ref] = total(node.parts)
        return self.lengths[ref]

    def check_part(self, part: Part, depth: int) -> None:
        if part.size == 0:
            return
        if part.tree is not None:
            if depth == DEEPEST:
                raise Lacking(part.tree, f"is within {DEEPEST} others")
            part.check_within(part.tree, self.length(part.tree, ("file", "bytes"), depth + 1))
        elif part.blob is not None:
            record = self.archive.records.get(part.blob)
            if record is None:
                raise Lacking(part.blob, self.archive.fate(part.blob))
            part.check_within(part.blob, record.size)

    # Folders

    def entries_of(self, folder: str) -> Iterator[str]:
        """The refs of a folder's entries. A set of its set stands for its own members."""
        waiting = list(self.nodes[folder].members)
        while waiting:
            ref = waiting.pop()
            node = self.nodes.get(ref)
            if node is not None and node.kind == "static-set" and not node.fault:
                waiting += reversed(node.members)
            else:
                yield ref

    def check_folder(self, top: str) -> None:
        """Finds the fault of a folder, after those of the folders in it."""
        waiting = [top]
        while waiting:
            folder = waiting[-1]
            inner = [ref for ref in self.entries[folder] if ref in self.entries and ref not in self.folders]
            if inner:
                waiting += inner
                continue
            waiting.pop()
            if folder not in self.folders:
                self.folders[folder] = self.folder_fault(folder)

    def folder_fault(self, folder: str) -> Optional[Fault]:
        faults = [fault for fault in map(self.entry_fault, self.entries[folder]) if fault]
        return faults[0]._replace(count=sum(fault.count for fault in faults)) if faults else None

    def entry_fault(self, ref: str) -> Optional[Fault]:
        if ref not in self.archive.records:
            return Fault(1, "", f"{ref} {self.archive.fate(ref)}")
        node = self.nodes.get(ref)
        name = octets_text(node.name) if node else ""
        if ref in self.folders:
            fault = self.folders[ref]
            return fault and fault.below(name)
        why = self.files.get(ref) or (node.fault if node else "is no file, folder or link")
        return Fault(1, name, why) if why else None

    def tops(self) -> list[str]:
        """The folders that are in no other one."""
        inner = {ref for entries in self.entries.values() for ref in entries}
        return [ref for ref in self.entries if ref not in inner]


def lines_of(check: Check, notes: dict[str, dict[str, list[str]]]) -> Iterator[str]:
    """A line for each file, tree and note that isn't whole."""
    for ref, why in check.files.items():
        if why:
            yield f"file {named(check, ref)}: {why}"
    for ref in check.tops():
        fault = check.folders[ref]
        if fault:
            yield f"tree {named(check, ref)}: {fault.count} not whole, first {shown(fault.path) or '.'}: {fault.why}"
    for note, attributes in notes.items():
        title = shown("".join(attributes.get("title", [""])[:1]))
        for content in attributes.get("camliContent", ()):
            if is_ref(content) and content not in check.archive.records:
                yield f"note {note} {title}: {content} {check.archive.fate(content)}"


def named(check: Check, ref: str) -> str:
    return f"{ref} {shown(octets_text(check.nodes[ref].name))}"


def report_unchecked(notes: Notes, folder: pathlib.Path, given: Optional[str]) -> None:
    """Says which notes aren't checked, if any aren't: those that no key of the keyring has signed."""
    if not notes.keys:
        why = f"{given} has no key" if given else f"{folder} has no keyring with a key"
        report(f"fsck_files.py: no note is checked, since {shown(why)}: give one by --keyring FILE")
    elif notes.others:
        some, them = ("1 note isn't", "it") if notes.others == 1 else (f"{notes.others} notes aren't", "them")
        keyring = shown(given or str(folder / "keyring"))
        report(f"fsck_files.py: {some} checked, since no key of {keyring} is known to have signed {them}")


def main() -> int:
    parser = parser_of(__doc__)
    parser.add_argument("folder", metavar="DIR", type=pathlib.Path, help="the folder of the archive, or of a copy")
    parser.add_argument("--keyring", metavar="FILE", help="a keyring other than that of DIR")
    parser.add_argument("--all", action="store_true", help="also prints each file that is whole")
    words = parser.parse_intermixed_args()
    notes = Notes(keyring_of(words.folder, words.keyring, is_needed=False))
    seen = Seen(notes)
    check = Check(Archive(words.folder, seen.see), seen)
    notes.settle()
    report_unchecked(notes, words.folder, words.keyring)
    standing = notes.attributes()
    if words.all:
        for ref, why in check.files.items():
            if why is None:
                print(f"file {named(check, ref)}")
    faults = list(lines_of(check, standing))
    for line in faults:
        print(line)
    print(f"{len(check.files)} files, {len(check.tops())} trees, {len(standing)} notes: {len(faults)} not whole")
    return INCOMPLETE if faults else 0


if __name__ == "__main__":
    run(main)
