"""Shared by the scripts of this folder: blobs, keys, packs, notes and trees of an archive, and a server's client.

It is written from docs/formats and docs/claims.md alone, so that an archive can be read, and added to, without the
program. Needs Python 3.9 or later, and only its standard library. Sizes and offsets are in bytes, moments in
nanoseconds since 1970, and names and paths of files are bytes.
"""

from __future__ import annotations

import argparse
import dataclasses
import datetime
import functools
import hashlib
import hmac
import http.client
import json
import math
import os
import pathlib
import re
import secrets
import socket
import sys
import time
from typing import Callable, Iterable, Iterator, NamedTuple, Optional

# The statuses with which the scripts end, besides 0, and 2 for arguments that argparse refuses.
INCOMPLETE, REFUSED = 1, 3


class Refused(Exception):
    """Why the work can't be done, or can't continue."""


# Blobrefs (docs/formats/blobrefs.md)

REF = re.compile(r"sha224-[0-9a-f]{56}|sha1-[0-9a-f]{40}")


def ref_of(blob: bytes) -> str:
    return "sha224-" + hashlib.sha224(blob).hexdigest()


def is_ref(value: object) -> bool:
    return isinstance(value, str) and REF.fullmatch(value) is not None


def has_ref(blob: bytes, ref: str) -> bool:
    """Whether the ref is that of these bytes, under its own digest."""
    if ref.startswith("sha1-"):
        return hashlib.sha1(blob).hexdigest() == ref[5:]
    return ref_of(blob) == ref


# Dates (docs/formats/dates.md)

DATE = re.compile(
    r"(\d{4})-(\d\d)-(\d\d)T(\d\d):(\d\d):(\d\d)(?:\.(\d{1,9}))?(?:Z|([+-])([01]\d|2[0-3]):([0-5]\d))", re.ASCII
)
EPOCH = datetime.datetime(1970, 1, 1)
SECOND = 1_000_000_000
LEAST_MOMENT, GREATEST_MOMENT = -62_135_596_800 * SECOND, 253_402_300_800 * SECOND - 1


def moment_in(text: object) -> Optional[int]:
    """The moment of a date's text; None if it isn't a date."""
    parts = DATE.fullmatch(text) if isinstance(text, str) else None
    if parts is None:
        return None
    try:
        time_of_day = datetime.datetime(*map(int, parts.groups()[:6]))
    except ValueError:
        return None
    since = time_of_day - EPOCH
    offset = (int(parts[9] or 0) * 60 + int(parts[10] or 0)) * 60 * (-1 if parts[8] == "-" else 1)
    moment = (since.days * 86_400 + since.seconds - offset) * SECOND + int((parts[7] or "").ljust(9, "0"))
    return moment if is_date(moment) else None


def is_date(moment: int) -> bool:
    """Whether a moment lies in the years 1 to 9999."""
    return LEAST_MOMENT <= moment <= GREATEST_MOMENT


def date_text(moment: int) -> str:
    """The text that is written for a date, in UTC."""
    seconds, fraction = divmod(moment, SECOND)
    whole = (EPOCH + datetime.timedelta(seconds=seconds)).isoformat()
    return whole + f".{fraction:09}".rstrip("0").rstrip(".") + "Z"


# JSON (docs/formats/schema.md, "JSON"). Reads all that the program reads, and also texts that nest deeper.

LARGEST_SCHEMA = 1_048_576
HALF_A_PAIR = re.compile(rb"\\u[dD][89a-fA-F]")


def read_object(octets: bytes) -> Optional[dict]:
    """The JSON object in some bytes; None if they have none."""
    try:
        value = json.loads(octets.decode(), parse_int=whole_number, parse_float=finite, parse_constant=finite)
        if HALF_A_PAIR.search(octets):
            json.dumps(value, ensure_ascii=False).encode()
    except (ValueError, RecursionError):
        return None
    return value if isinstance(value, dict) else None


def finite(digits: str) -> float:
    value = float(digits)
    if not math.isfinite(value):
        raise ValueError(digits)
    return value


def whole_number(digits: str) -> object:
    """Only digits make a whole number below 2^64; nothing else is one."""
    is_whole = digits.isdigit() and len(digits) <= 20 and int(digits) < 2**64
    return int(digits) if is_whole else finite(digits)


def is_whole(value: object) -> bool:
    return type(value) is int


# JSON as it is written in blobs: no white space, and no unnecessary escapes.
compact = json.JSONEncoder(ensure_ascii=False, separators=(",", ":")).encode


# Keys and signed blobs (docs/formats/keyring.md; schema.md, "Signed blobs")

KEYRING_LINE = re.compile(rb"([a-z0-9-]{1,64}) ((?:[0-9a-f]{2}){1,128})")
KEY_BLOB = re.compile(rb"perkeep-hmac-sha256 ([a-z0-9-]{1,64})\n")
MARKER = b',"camliSig":"'


@dataclasses.dataclass(frozen=True)
class Key:
    """A key of a keyring, which signs by HMAC-SHA-256."""

    name: str
    secret: bytes

    @functools.cached_property
    def blob(self) -> bytes:
        return f"perkeep-hmac-sha256 {self.name}\n".encode()

    @functools.cached_property
    def ref(self) -> str:
        return ref_of(self.blob)

    def digest(self, octets: bytes) -> bytes:
        return hmac.digest(self.secret, octets, "sha256")

    def signed(self, kind: str, fields: dict, rest: str = "") -> bytes:
        """The signed blob of a permanode or a claim, with these fields and the text of further ones."""
        body = {"camliVersion": 1, "camliType": kind, "camliSigner": self.ref, **fields}
        payload = (compact(body)[:-1] + rest).encode()
        return payload + MARKER + self.digest(payload).hex().encode() + b'"}\n'


def read_keyring(path: pathlib.Path) -> dict[str, Key]:
    """The keys of a keyring by their names."""
    try:
        *lines, rest = path.read_bytes().split(b"\n")
    except OSError as why:
        raise Refused(f"the keyring {path}: {why.strerror}") from None
    keys = {}
    for number, line in enumerate([*lines, rest] if rest else lines, 1):
        parts = KEYRING_LINE.fullmatch(line) if number <= len(lines) else None
        if parts is None or parts[1].decode() in keys:
            why = "no name, space, hexadecimal digits and line feed" if parts is None else "its name is in a line above"
            raise Refused(f"the keyring {path}, line {number}: {why}")
        keys[parts[1].decode()] = Key(parts[1].decode(), bytes.fromhex(parts[2].decode()))
    return keys


def keyring_of(folder: pathlib.Path, given: Optional[str], is_needed: bool = True) -> dict[str, Key]:
    """The given keyring, or that of a store's folder."""
    path = pathlib.Path(given) if given else folder / "keyring"
    try:
        is_there = bool(given) or path.exists()
        is_folder = is_there or folder.is_dir()
    except OSError as why:
        raise Refused(f"{folder}: {why.strerror}") from None
    if is_there:
        return read_keyring(path)
    if not is_folder:
        raise Refused(f"{folder} isn't a folder")
    if is_needed:
        raise Refused(f"{folder} has no file keyring, without which no note counts: give one by --keyring FILE")
    return {}


def signed_in(blob: bytes) -> Optional[tuple[dict, bytes, bytes]]:
    """The object of a signed blob, its payload, and its signature; None if it isn't signed."""
    place = blob.rfind(MARKER)
    if place < 0 or len(blob) > LARGEST_SCHEMA:
        return None
    body, tail = read_object(blob[:place] + b"}"), read_object(b"{" + blob[place + 1 :])
    digits = tail.get("camliSig") if tail and len(tail) == 1 else None
    if body is None or not is_ref(body.get("camliSigner")) or not isinstance(digits, str):
        return None
    return (body, blob[:place], bytes.fromhex(digits)) if re.fullmatch("[0-9a-f]{64}", digits) else None


# Schema blobs to write (docs/formats/schema.md, "Written blobs"; docs/formats/trees.md)

CHUNK, MOST_CHUNKS = 1_048_576, 4_096
MOST_MEMBERS = 10_000
MOST_CHANGES = 1_000
NOT_UTF8 = "\udc80-\udcff"


def schema_blob(kind: str, **fields: object) -> bytes:
    return (compact({"camliVersion": 1, "camliType": kind, **fields}) + "\n").encode()


def part(ref: str, size: int, key: str = "blobRef") -> dict:
    return {key: ref, "size": size}


def total_size(parts: list[dict]) -> int:
    return sum(one["size"] for one in parts)


def octets_field(key: str, octets: bytes) -> dict:
    """A name or a target under its key; if it isn't UTF-8, under `keyBytes`, as a list of strings and numbers."""
    pieces = re.findall(f"[{NOT_UTF8}]|[^{NOT_UTF8}]+", octets.decode(errors="surrogateescape"))
    mixed = [ord(piece) - 0xDC00 if re.match(f"[{NOT_UTF8}]", piece) else piece for piece in pieces]
    is_text = all(isinstance(piece, str) for piece in mixed)
    return {key: octets.decode()} if is_text else {f"{key}Bytes": mixed}


def unix_fields(mode: int, moment: int) -> dict:
    """A file's mode and its time of change; a time that isn't a date is left out."""
    time_field = {"unixMtime": date_text(moment)} if is_date(moment) else {}
    return {"unixPermission": f"0{mode & 0o7777:o}", **time_field}


def octets_text(octets: bytes) -> str:
    """A path as a string, with `%XX` for bytes that aren't UTF-8."""
    text = octets.decode(errors="surrogateescape")
    return re.sub(f"[{NOT_UTF8}]", lambda byte: f"%{ord(byte[0]) - 0xDC00:02X}", text)


def static_sets(members: list[str]) -> list[bytes]:
    """The blobs of a set, of which it is the last itself. If it has more members than a set may, its members are
    sets."""
    blobs = []
    while len(members) > MOST_MEMBERS:
        runs = [members[at : at + MOST_MEMBERS] for at in range(0, len(members), MOST_MEMBERS)]
        level = [schema_blob("static-set", members=run) for run in runs]
        blobs += level
        members = list(map(ref_of, level))
    return [*blobs, schema_blob("static-set", members=members)]


class Change(NamedTuple):
    """A change of the values of an attribute of a note: `set`, `add` or `del`."""

    act: str
    note: str
    attribute: str
    value: str = ""

    def text(self) -> str:
        """The change as it is written in a claim of several changes."""
        body = {"changeType": f"{self.act}-attribute", "permaNode": self.note, "attribute": self.attribute}
        return compact(body if self.act == "del" and self.value == "" else {**body, "value": self.value})


def permanode_blob(key: Key, random: bytes) -> bytes:
    return key.signed("permanode", {"random": random.hex()})


def multi_claim(key: Key, moment: int, changes: list[str]) -> bytes:
    """A claim of several changes, by their texts."""
    fields = {"claimDate": date_text(moment), "claimType": "multi"}
    return key.signed("claim", fields, f',"changes":[{",".join(changes)}]')


# Packs (docs/formats/packs.md)

PACK_NAME = re.compile(r"pack-[0-9]{5}\.blobs")
HEADER = re.compile(rb"\[(sha224-[0-9a-f]{56}|sha1-[0-9a-f]{40}) (0|[1-9][0-9]{0,7})\]")
DELETED_HEADER = re.compile(rb"\[x{1,16}-0{1,128} (0|[1-9][0-9]{0,7})\]")
LONGEST_HEADER = 156
LARGEST_BLOB = 16_777_216


class Record(NamedTuple):
    """Where a blob is: after a header, in a pack."""

    ref: str
    pack: str
    at: int
    size: int


class Pack:
    """A pack, read by offsets, up to the size that it had when it was opened."""

    WINDOW = 1 << 20

    def __init__(self, path: pathlib.Path):
        self.file = os.open(path, os.O_RDONLY)
        self.size = os.fstat(self.file).st_size
        self.start, self.window = 0, b""

    def __enter__(self) -> Pack:
        return self

    def __exit__(self, *_: object) -> None:
        os.close(self.file)

    def load(self, at: int, count: int) -> int:
        """Loads so many bytes from an offset into the window, as far as there are; returns where in it they begin."""
        if not self.start <= at <= at + count <= self.start + len(self.window):
            self.start, self.window = at, os.pread(self.file, max(count, self.WINDOW), at)
        return at - self.start

    def read(self, at: int, count: int) -> bytes:
        count = min(count, self.size - at)
        start = self.load(at, count)
        return self.window[start : start + count]

    def next_bracket(self, at: int) -> int:
        """The offset of the next `[`, or the end of the pack."""
        while at < self.size:
            start = self.load(at, 1)
            place = self.window.find(b"[", start)
            if place >= 0 or start >= len(self.window):
                return min(self.start + place, self.size) if place >= 0 else self.size
            at = self.start + len(self.window)
        return self.size


def scan(path: pathlib.Path) -> Iterator[tuple[Record, Optional[bytes]]]:
    """The records of a pack as salvage finds them, each with its blob; and the headers followed by other bytes, or by
    too few, each with None."""
    with Pack(path) as pack:
        at = 0
        while at < pack.size:
            front = pack.read(at, LONGEST_HEADER)
            header, deleted = HEADER.match(front), DELETED_HEADER.match(front)
            found = header or deleted
            begin, size = (at + found.end(), int(found[2 if header else 1])) if found else (at, 0)
            fits = found is not None and size <= LARGEST_BLOB and begin + size <= pack.size
            if header:
                blob = pack.read(begin, size) if fits else b""
                ref = header[1].decode()
                fits = fits and has_ref(blob, ref)
                yield Record(ref, path.name, begin, size), blob if fits else None
            at = begin + size if fits else pack.next_bracket(at + 1)


def packs_in(folder: pathlib.Path) -> list[pathlib.Path]:
    """The packs of a store's folder, in their order."""
    try:
        names = sorted(name for name in os.listdir(folder) if PACK_NAME.fullmatch(name))
    except OSError as why:
        raise Refused(f"{folder}: {why.strerror}") from None
    if not names:
        raise Refused(f"there is no pack in {folder}: is that the archive's folder?")
    return [folder / name for name in names]


class Lacking(Exception):
    """A blob that is needed isn't there, or isn't what it should be."""

    def __init__(self, ref: str, why: str):
        super().__init__(f"{ref} {why}")
        self.ref, self.why = ref, why


class Archive:
    """The blobs of a store's folder, under the refs of their records. It can be read beside a running server."""

    def __init__(self, folder: pathlib.Path, see: Callable[[str, bytes], None] = lambda ref, blob: None):
        """Reads all packs. Each blob is shown to `see` once, where it is first found."""
        self.folder = folder
        self.records: dict[str, Record] = {}
        self.damaged: dict[str, Record] = {}
        for path in packs_in(folder):
            try:
                self.read_pack(path, see)
            except OSError as why:
                raise Refused(f"{path}: {why.strerror}") from None

    def read_pack(self, path: pathlib.Path, see: Callable[[str, bytes], None]) -> None:
        for record, blob in scan(path):
            if blob is None:
                self.damaged.setdefault(record.ref, record)
            elif record.ref not in self.records:
                self.records[record.ref] = record
                see(record.ref, blob)

    def get(self, ref: str) -> bytes:
        """The blob with this ref."""
        record = self.records.get(ref)
        if record is None:
            raise Lacking(ref, self.fate(ref))
        try:
            with open(self.folder / record.pack, "rb", buffering=0) as file:
                blob = os.pread(file.fileno(), record.size, record.at)
        except OSError as why:
            raise Lacking(ref, f"can't be read in {record.pack}: {why.strerror}") from None
        if not has_ref(blob, ref):
            raise Lacking(ref, f"was changed meanwhile in {record.pack} at {record.at}")
        return blob

    def fate(self, ref: str) -> str:
        """What is known about a ref that no whole record has."""
        record = self.damaged.get(ref)
        return "isn't there" if record is None else f"is damaged in {record.pack} at {record.at}"

    def schema(self, ref: str, *kinds: str) -> dict:
        """The object of a schema blob of one of these kinds, or of any kind if none is given."""
        body = schema_in(self.get(ref))
        if body is None or (kinds and body["camliType"] not in kinds):
            raise Lacking(ref, f"is no {' or '.join(kinds) or 'schema blob'}")
        return body

    def entry(self, ref: str) -> Entry:
        try:
            return Entry(ref, self.schema(ref))
        except Lacking as why:
            return Entry(ref, {}, why)

    def entries(self, folder: Entry) -> Iterator[Entry]:
        """The entries of a folder, in order. A set of its set stands for its own members."""
        waiting = [str(folder.body.get("entries"))]
        while waiting:
            one = self.entry(waiting.pop())
            members = members_in(one.body) if one.kind == "static-set" else None
            if members is None:
                yield one
            else:
                waiting += reversed(members)

    def content(self, ref: str) -> Iterator[bytes]:
        """The bytes of a file, in pieces (docs/files.md, "Reading a file")."""
        parts = parts_in(self.schema(ref, "file"), ref)
        yield from self.bytes_of(parts, 0, total(parts), 1)

    def bytes_of(self, parts: list[Part], start: int, count: int, depth: int) -> Iterator[bytes]:
        """So many bytes of parts within so many trees, from an offset on."""
        for one in parts:
            passed = min(start, one.size)
            asked = min(one.size - passed, count)
            if asked:
                yield from self.bytes_of_part(one, one.offset + passed, asked, depth)
            start, count = start - passed, count - asked

    def bytes_of_part(self, one: Part, at: int, count: int, depth: int) -> Iterator[bytes]:
        if one.tree is not None:
            if depth == DEEPEST:
                raise Lacking(one.tree, f"is within {DEEPEST} others")
            parts = parts_in(self.schema(one.tree, "file", "bytes"), one.tree)
            one.check_within(one.tree, total(parts))
            yield from self.bytes_of(parts, at, count, depth + 1)
        elif one.blob is not None:
            blob = self.get(one.blob)
            one.check_within(one.blob, len(blob))
            yield blob[at : at + count]
        else:
            yield from (bytes(min(CHUNK, count - done)) for done in range(0, count, CHUNK))


# Files, folders and links to read (docs/formats/schema.md, "Part lists"; docs/formats/trees.md)

# A file's own tree is the first of so many trees within one another.
DEEPEST = 64
MOST_BYTES = 2**48


class Part(NamedTuple):
    """So many bytes from an offset on of a blob, or of a tree, or so many zeros."""

    size: int
    offset: int
    blob: Optional[str]
    tree: Optional[str]

    def check_within(self, ref: str, length: int) -> None:
        if self.offset + self.size > length:
            raise Lacking(ref, f"has {length} bytes, and a part asks for more")


def schema_in(blob: bytes) -> Optional[dict]:
    """The object of a schema blob; None if it isn't one."""
    body = read_object(blob) if len(blob) <= LARGEST_SCHEMA and blob.lstrip()[:1] == b"{" else None
    return body if body is not None and is_schema(body) else None


def is_schema(body: dict) -> bool:
    is_version_1 = is_whole(body.get("camliVersion")) and body["camliVersion"] == 1
    return is_version_1 and isinstance(body.get("camliType"), str)


def parts_in(body: dict, ref: str) -> list[Part]:
    """The part list of a file or of a tree of bytes."""
    items = body.get("parts")
    if not isinstance(items, list):
        raise Lacking(ref, "has no list of parts")
    parts = [part_in(item) for item in items]
    if None in parts or total(parts) > MOST_BYTES:
        raise Lacking(ref, "has a part that is none")
    return parts


def part_in(item: object) -> Optional[Part]:
    if not isinstance(item, dict):
        return None
    size, offset = item.get("size"), item.get("offset", 0)
    origins = [item[key] for key in ("blobRef", "bytesRef") if key in item]
    is_good = is_whole(size) and is_whole(offset) and len(origins) <= 1 and all(map(is_ref, origins))
    return Part(size, offset, item.get("blobRef"), item.get("bytesRef")) if is_good and offset <= MOST_BYTES else None


def total(parts: list[Part]) -> int:
    return sum(one.size for one in parts)


def members_in(body: dict) -> Optional[list[str]]:
    """The members of a static set, and the sets that it merges; None if one of them isn't a ref."""
    members = [*(body.get("members") or []), *(body.get("mergeSets") or [])]
    return members if all(map(is_ref, members)) else None


def octets_in(body: dict, key: str) -> bytes:
    """A name or a target, from the key or from `keyBytes`; empty if there is none."""
    value = body.get(key)
    if isinstance(value, str):
        return value.encode()
    pieces = body.get(f"{key}Bytes")
    return b"".join(map(octets_of, pieces)) if isinstance(pieces, list) else b""


def octets_of(piece: object) -> bytes:
    """The bytes of a piece of a name: those of a string, or the one given by a number."""
    if isinstance(piece, str):
        return piece.encode()
    return bytes([piece]) if is_whole(piece) and piece < 256 else b""


class Entry(NamedTuple):
    """A file, folder, link or another entry of a tree, by its blob, or why that can't be read."""

    ref: str
    body: dict
    fault: Optional[Lacking] = None

    @property
    def kind(self) -> str:
        return self.body.get("camliType", "")

    @property
    def name(self) -> bytes:
        return octets_in(self.body, "fileName")

    @property
    def mode(self) -> Optional[int]:
        digits = self.body.get("unixPermission")
        return int(digits, 8) if isinstance(digits, str) and re.fullmatch("0?[0-7]{1,4}", digits) else None

    @property
    def moment(self) -> Optional[int]:
        return moment_in(self.body.get("unixMtime"))


# Notes (docs/claims.md)

ALWAYS = GREATEST_MOMENT


class Claim(NamedTuple):
    """A genuine claim: changes, or the deletion of a target."""

    date: int
    ref: str
    changes: tuple[Change, ...]
    target: Optional[str]


class Notes:
    """The meaning of an archive's signed blobs, under a keyring.

    `see` is shown the blobs, in any order; `settle` is called once after them.
    """

    def __init__(self, keys: dict[str, Key]):
        self.keys = keys
        self.signers: dict[str, Key] = {}
        self.signed: dict[str, bytes] = {}
        self.permanodes: set[str] = set()
        # How many permanodes no key of the keyring is known to have signed.
        self.others = 0
        self.claims: list[Claim] = []
        self.deletions: dict[str, list[Claim]] = {}

    def see(self, ref: str, blob: bytes) -> None:
        name = KEY_BLOB.fullmatch(blob)
        if name and name[1].decode() in self.keys:
            self.signers[ref] = self.keys[name[1].decode()]
        elif len(blob) <= LARGEST_SCHEMA and MARKER in blob:
            self.signed[ref] = blob

    def settle(self) -> None:
        """Keeps what is genuine among the seen blobs, with the claims in the order in which they count."""
        for ref, blob in self.signed.items():
            body = self.genuine(blob)
            if body is None:
                self.others += is_signed_permanode(blob)
            elif body["camliType"] == "permanode":
                self.permanodes.add(ref)
            claim = claim_in(ref, body) if body is not None and body["camliType"] == "claim" else None
            if claim is not None:
                self.claims.append(claim)
        self.signed.clear()
        self.claims.sort(key=lambda claim: (claim.date, claim.ref))
        for claim in self.claims:
            if claim.target is not None:
                self.deletions.setdefault(claim.target, []).append(claim)

    def genuine(self, blob: bytes) -> Optional[dict]:
        """The object of a blob that a key of the keyring has signed."""
        found = signed_in(blob)
        if found is None:
            return None
        body, payload, signature = found
        key = self.signers.get(body["camliSigner"])
        is_accepted = key is not None and hmac.compare_digest(key.digest(payload), signature)
        return body if is_accepted and is_schema(body) else None

    def is_deleted(self, ref: str, moment: int = ALWAYS) -> bool:
        claims = self.deletions.get(ref, ())
        return any(claim.date <= moment and not self.is_deleted(claim.ref, moment) for claim in claims)

    def counted(self, moment: int = ALWAYS) -> Iterator[Claim]:
        """The claims that count at a moment, in their order."""
        for claim in self.claims:
            if claim.date <= moment and not self.is_deleted(claim.ref, moment):
                yield claim

    def attributes(self, moment: int = ALWAYS, of: Optional[set[str]] = None) -> dict[str, dict[str, list[str]]]:
        """The values of the attributes, at a moment, of each note that isn't deleted then, or of some notes."""
        wanted = self.permanodes if of is None else self.permanodes & of
        notes = {ref: {} for ref in sorted(wanted) if not self.is_deleted(ref, moment)}
        for claim in self.counted(moment):
            for change in claim.changes:
                if change.note in notes:
                    apply(change, notes[change.note])
        return {ref: {name: some for name, some in sorted(note.items()) if some} for ref, note in notes.items()}


def is_signed_permanode(blob: bytes) -> bool:
    """Whether a blob has the form of a signed permanode, whoever signed it."""
    found = signed_in(blob)
    return found is not None and is_schema(found[0]) and found[0]["camliType"] == "permanode"


def apply(change: Change, note: dict[str, list[str]]) -> None:
    """Changes the values of a note."""
    values = note.setdefault(change.attribute, [])
    if change.act == "add":
        values.append(change.value)
    elif change.act == "set":
        values[:] = [change.value]
    else:
        values[:] = [value for value in values if change.value and value != change.value]


def claim_in(ref: str, body: dict) -> Optional[Claim]:
    """The claim in a genuine blob; None if it has none."""
    date, kind = moment_in(body.get("claimDate")), body.get("claimType")
    if date is None:
        return None
    if kind == "delete":
        return Claim(date, ref, (), body["target"]) if is_ref(body.get("target")) else None
    items = body.get("changes") if kind == "multi" else [{**body, "changeType": kind}]
    if not isinstance(items, list) or not 1 <= len(items) <= MOST_CHANGES:
        return None
    changes = tuple(map(change_in, items))
    return None if None in changes else Claim(date, ref, changes, None)


def change_in(item: object) -> Optional[Change]:
    if not isinstance(item, dict):
        return None
    act = re.fullmatch("(set|add|del)-attribute", str(item.get("changeType")))
    note, attribute = item.get("permaNode"), item.get("attribute")
    value = item.get("value", "" if act and act[1] == "del" else None)
    is_good = act and is_ref(note) and isinstance(attribute, str) and attribute and isinstance(value, str)
    return Change(act[1], note, attribute, value) if is_good else None


# The notes of a tree (docs/formats/trees.md)

def tree_note(key: Key, tree: str, path: bytes = b"") -> bytes:
    """The permanode of a path of a tree, or of the tree itself: it is the same each time, so that no list of them is
    needed."""
    return permanode_blob(key, key.digest(tree.encode() + b"\0" + path)[:16])


# A server's client (docs/http.md)

MOST_PARTS, MOST_PART_BYTES = 900, 16 << 20
MOST_REFS = 1_000
MOST_FOUND = 1_000_000
# Seconds before a request is sent again over a new connection: a server that is restarted may take a while.
PAUSES = (0, 0, 0.5, 2, 5, 10, 20)
# A server that has just been started reads its store before its first reply.
PATIENCE = 600
# The faults of a server itself: whose they are, and what can be done.
FAULTS = {
    "disk": ("the disk of the server", "is full, or has failed {}: free some room there, and run this again"),
    "full": ("the store of the server", "is full {}: no blob can be added to it, so start another archive"),
    "memory": ("the server", "has no memory left {}: run this again once it has some"),
}


class Server:
    """A client of the server at an address. It keeps its connection, and makes another if that has ended."""

    def __init__(self, address: str):
        parts = re.fullmatch(r"(\[[0-9a-fA-F:.]+\]|[^:/\s]+):([0-9]{1,5})", address)
        if parts is None or not 0 < int(parts[2]) < 65_536:
            raise Refused(f"{address!r} is no HOST:PORT")
        self.address = address
        self.connection = http.client.HTTPConnection(parts[1].strip("[]"), int(parts[2]), timeout=PATIENCE)
        self.was_reached = False

    def ask(self, method: str, target: str, body: bytes = b"", kind: str = "application/json") -> dict:
        """The object with which the server replies."""
        status, reply = self.exchange(method, target, body, {"Host": "localhost", "Content-Type": kind})
        try:
            answer = json.loads(reply)
        except ValueError:
            answer = None
        if not isinstance(answer, dict) or answer.get("error") == "no route":
            raise Refused(f"what answers {status} at {self.address} is no perkeep serve: look at the port")
        if status != 200:
            raise Refused(self.why_refused(target, status, answer))
        return answer

    def why_refused(self, target: str, status: int, answer: dict) -> str:
        fault = str(answer.get("error"))
        if fault in FAULTS:
            whose, what_to_do = FAULTS[fault]
            return f"{whose} at {self.address} {what_to_do.format(f'({status} {fault})')}"
        why = {key: value for key, value in answer.items() if key != "received"}
        return f"the server at {self.address} refuses {target} by {status} {compact(why)}"

    def exchange(self, method: str, target: str, body: bytes, headers: dict) -> tuple[int, bytes]:
        """A reply's status and body. A request may be sent more than once: each has the same effect when repeated."""
        for pause in PAUSES:
            if pause:
                time.sleep(pause)
            try:
                self.send(method, target, body, headers)
                reply = self.connection.getresponse()
                content = reply.read()
                self.was_reached = True
                return reply.status, content
            except (http.client.HTTPException, OSError) as why:
                self.connection.close()
                fault = getattr(why, "strerror", None) or str(why) or type(why).__name__
                if not self.was_reached or isinstance(why, socket.timeout):
                    break
        raise Refused(f"no reply of a server at {self.address}: {fault}; is it running there?")

    def send(self, method: str, target: str, body: bytes, headers: dict) -> None:
        try:
            self.connection.request(method, target, body, headers)
        except (BrokenPipeError, ConnectionResetError):
            # It stops reading when it refuses, and its reply may have come nevertheless.
            pass

    def standing(self, refs: Iterable[str]) -> set[str]:
        """Those of the refs that the server has."""
        wanted, found = list(dict.fromkeys(refs)), set()
        for at in range(0, len(wanted), MOST_REFS):
            asked = (f"&blob{number}={ref}" for number, ref in enumerate(wanted[at : at + MOST_REFS], 1))
            body = f"camliversion=1{''.join(asked)}".encode()
            found.update(one["blobRef"] for one in self.ask("POST", "/camli/stat", body)["stat"])
        return found

    def upload(self, blobs: dict[str, bytes]) -> None:
        """Stores blobs under their refs, in their order; returns after all of them were acknowledged."""
        edge = secrets.token_hex(16)
        head = f'--{edge}\r\nContent-Disposition: form-data; name="%s"\r\n\r\n'
        pieces = [piece for ref, blob in blobs.items() for piece in ((head % ref).encode(), blob, b"\r\n")]
        body = b"".join([*pieces, f"--{edge}--\r\n".encode()])
        answer = self.ask("POST", "/camli/upload", body, f"multipart/form-data; boundary={edge}")
        lacking = set(blobs).difference(one["blobRef"] for one in answer["received"])
        if lacking:
            raise Refused(f"the server at {self.address} didn't acknowledge {min(lacking)}")

    def search(self, constraint: dict) -> set[str]:
        """The notes that meet a constraint (docs/formats/queries.md)."""
        body = compact({"limit": MOST_FOUND, "constraint": constraint}).encode()
        found = {one["blob"] for one in self.ask("POST", "/camli/search/query", body)["blobs"]}
        if len(found) == MOST_FOUND:
            raise Refused(f"a search finds {MOST_FOUND} notes, and there may be more")
        return found


# The command line

def parser_of(text: str) -> argparse.ArgumentParser:
    """A parser whose help is the docstring of a script."""
    return argparse.ArgumentParser(description=text, formatter_class=argparse.RawDescriptionHelpFormatter)


def moment_word(text: str) -> int:
    """The DATE of a command line."""
    moment = moment_in(text)
    if moment is None:
        raise argparse.ArgumentTypeError(f"{text!r} isn't a date: write it as 2026-01-31T18:30:00Z, or with +01:00 for Z")
    return moment


def shown(text: str) -> str:
    """A string for a terminal or a line of a list: characters that can't be printed there are shown as their codes."""
    return "".join(sign if sign.isprintable() else sign.encode("unicode_escape").decode() for sign in text)


def report(text: str) -> None:
    """Writes a line to standard error."""
    print(text, file=sys.stderr, flush=True)


def run(main: Callable[[], int]) -> None:
    """Runs a script, and ends with its status, or says why it couldn't be done."""
    for stream in (sys.stdout, sys.stderr):
        stream.reconfigure(encoding="utf-8", errors="backslashreplace")
    try:
        status = main()
        sys.stdout.flush()
    except Refused as why:
        report(f"{pathlib.Path(sys.argv[0]).name}: {shown(str(why))}")
        status = REFUSED
    except BrokenPipeError:
        # Nothing more can be printed, not even as Python ends.
        os.dup2(os.open(os.devnull, os.O_WRONLY), sys.stdout.fileno())
        status = REFUSED
    except OSError as why:
        report(f"{pathlib.Path(sys.argv[0]).name}: {shown(str(why))}")
        status = REFUSED
    except KeyboardInterrupt:
        status = 130
    sys.exit(status)
