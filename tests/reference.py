"""The answers of the program's commands, and what they store, computed a second time.

Everything here is written from the pages of docs/ alone, to be read beside them: claims.md, commands.md, files.md, and
of formats/ packs.md, blobrefs.md, schema.md, dates.md, keyring.md, answers.md and generated.md. It is slow and plain on
purpose. The tests compare the program with it. The blobs that are written, one by one, are in writing.py.

Each constant names the page, and the part of it, that it is from. Bytes are `bytes`, refs and strings are `str`. A
moment is a number of nanoseconds, and ALWAYS stands for no moment at all.
"""

import datetime
import hashlib
import hmac
import re
from typing import NamedTuple, Optional

import strict_json

ALWAYS = None


# Blobrefs

# docs/formats/blobrefs.md; "Two names": `ref_like`
REF = re.compile(r"sha224-[0-9a-f]{56}|sha1-[0-9a-f]{40}")


def ref_of(blob):
    return "sha224-" + hashlib.sha224(blob).hexdigest()


def older_ref_of(blob):
    return "sha1-" + hashlib.sha1(blob).hexdigest()


def ref_like(ref, blob):
    """The ref of a blob under the digest that a ref names."""
    return older_ref_of(blob) if ref.startswith("sha1-") else ref_of(blob)


def is_ref(value):
    return isinstance(value, str) and REF.fullmatch(value) is not None


# Packs

# docs/formats/packs.md, "Records"
LARGEST_BLOB = 16_777_216
BLOB_HEADER = re.compile(rb"\[(sha224-[0-9a-f]{56}|sha1-[0-9a-f]{40}) (0|[1-9][0-9]{0,7})\]")
# docs/formats/packs.md, "Deleted records"
DELETED_HEADER = re.compile(rb"\[x{1,16}-0{1,128} (0|[1-9][0-9]{0,7})\]")


class Found(NamedTuple):
    ref: str
    at: int
    blob: bytes


def salvage(pack):
    """The blobs found in a pack, in order, and the first offset that was skipped (None in a clean pack)."""
    found = []
    broken = None
    at = 0
    while at < len(pack):
        record = record_at(pack, at)
        if record is not None:
            found.append(record)
            at = record.at + len(record.blob)
            continue
        behind = behind_deleted(pack, at)
        if behind is not None:
            at = behind
            continue
        if broken is None:
            broken = at
        # One byte is skipped, and with it all up to the next bracket: no header begins before that.
        at = pack.find(b"[", at + 1)
        if at < 0:
            break
    return found, broken


def record_at(pack, at):
    """The record that begins at an offset of the pack, if one does."""
    header = BLOB_HEADER.match(pack, at)
    end = body_end(pack, header, 2)
    if end is None:
        return None
    blob = pack[header.end() : end]
    ref = header[1].decode()
    return Found(ref, header.end(), blob) if ref_like(ref, blob) == ref else None


def behind_deleted(pack, at):
    """The offset after the deleted record that begins at an offset of the pack, if one does."""
    return body_end(pack, DELETED_HEADER.match(pack, at), 1)


def body_end(pack, header, size_group):
    """Where the bytes that a header announces end; None without a header, or if they don't lie in the pack."""
    if header is None:
        return None
    size = int(header[size_group])
    end = header.end() + size
    return end if size <= LARGEST_BLOB and end <= len(pack) else None


def content(found):
    """The blobs by their refs."""
    return {one.ref: one.blob for one in found}


# Stores: packs by their numbers

# docs/formats/packs.md, "Pack files"
PACK_NAME = re.compile(r"pack-([0-9]{5})\.blobs")
# docs/formats/packs.md, "The limits of a store"
BYTES_OF_A_FULL_PACK = 536_870_912
# docs/store.md, "Putting a blob": `last_pack`; the last number of five digits, docs/formats/packs.md, "Pack files"
LAST_PACK = 99_999
# docs/commands.md, "Words": the row of `list`
ENTRIES_OF_A_LISTING = 1_000
# docs/commands.md, "Input and order"
LARGEST_PACK = 1_073_741_824


class Full(Exception):
    """The store takes no new blob."""


def pack_name(number):
    return f"pack-{number:05}.blobs"


def packs_of(files):
    """The packs among files, by their names."""
    names = {name: PACK_NAME.fullmatch(name) for name in files}
    return {int(match[1]): files[name] for name, match in sorted(names.items()) if match}


def arrivals(packs):
    """The blobs of a store by their refs, in the order in which they arrived."""
    blobs = {}
    for _, pack in sorted(packs.items()):
        for found in salvage(pack)[0]:
            blobs.setdefault(found.ref, found.blob)
    return blobs


def pack_for_the_next_record(packs):
    """The number of the pack to which the next record goes; Full if there is none."""
    if not packs:
        return 0
    greatest = max(packs)
    _, broken = salvage(packs[greatest])
    if broken is None and len(packs[greatest]) < BYTES_OF_A_FULL_PACK:
        return greatest
    if greatest == LAST_PACK:
        raise Full
    return greatest + 1


def put(packs, blob, ref=None):
    """The packs of a store after a blob was put into it, under its usual ref or another one of its own."""
    ref = ref or ref_of(blob)
    if ref in arrivals(packs):
        return packs
    number = pack_for_the_next_record(packs)
    record = f"[{ref} {len(blob)}]".encode() + blob
    return {**packs, number: packs.get(number, b"") + record}


# Rounds (docs/ring.md)

def joined(first, second):
    """The blobs of one map, and those of another whose refs it lacks."""
    return {**second, **first}


def round_over(hub, peers):
    """The maps of a hub and its peers after a round."""
    for peer in peers:
        hub = joined(hub, peer)
    return hub, [joined(peer, hub) for peer in peers]


def entry(ref, blob):
    """The line of a blob in a listing."""
    return f"{ref} {len(blob)}\n".encode()


def listing(blobs, after="", limit=ENTRIES_OF_A_LISTING):
    refs = sorted(ref for ref in blobs if ref > after)
    return b"".join(entry(ref, blobs[ref]) for ref in refs[:limit])


def salvage_text(packs):
    """What `salvage` prints for the packs of a store."""
    lines = []
    for number, pack in sorted(packs.items()):
        found, broken = salvage(pack)
        lines += [f"{pack_name(number)} {one.at} {one.ref} {len(one.blob)}\n" for one in found]
        lines.append(f"{pack_name(number)} clean\n" if broken is None else f"{pack_name(number)} broken {broken}\n")
    return "".join(lines).encode()


# Dates

# docs/formats/dates.md, "The text of a date"
DATE = re.compile(
    r"([0-9]{4})-([0-9]{2})-([0-9]{2})T([0-9]{2}):([0-9]{2}):([0-9]{2})(?:\.([0-9]{1,9}))?"
    r"(?:Z|([+-])([0-9]{2}):([0-9]{2}))"
)
# docs/formats/dates.md, at the beginning
LEAST_MOMENT = -62_135_596_800 * 10**9
GREATEST_MOMENT = 253_402_300_800 * 10**9 - 1
# docs/formats/dates.md: the moment 0
DAY_0 = datetime.date(1970, 1, 1).toordinal()


def moment_of(text):
    """The nanoseconds of a date's text; None if it isn't a date."""
    parts = DATE.fullmatch(text)
    if parts is None:
        return None
    year, month, day, hour, minute, second = (int(parts[i]) for i in range(1, 7))
    sign, offset_hour, offset_minute = parts[8], int(parts[9] or 0), int(parts[10] or 0)
    if max(hour, offset_hour) > 23 or max(minute, second, offset_minute) > 59:
        return None
    try:
        days = datetime.date(year, month, day).toordinal() - DAY_0
    except ValueError:
        return None
    offset = (offset_hour * 60 + offset_minute) * 60
    seconds = days * 86_400 + hour * 3_600 + minute * 60 + second - (-offset if sign == "-" else offset)
    moment = seconds * 10**9 + int((parts[7] or "").ljust(9, "0"))
    return moment if LEAST_MOMENT <= moment <= GREATEST_MOMENT else None


def date_text(moment):
    """The text that is written for a moment (docs/formats/dates.md, "The written text")."""
    seconds, nanoseconds = divmod(moment, 10**9)
    time = datetime.datetime(1970, 1, 1) + datetime.timedelta(seconds=seconds)
    return time.isoformat() + f".{nanoseconds:09}".rstrip("0").rstrip(".") + "Z"


# Keys and the keyring

# docs/commands.md, "Input and order"
LARGEST_KEYRING = 1_048_576
# docs/formats/keyring.md, "Name" and "Text"
KEYRING_LINE = re.compile(rb"([a-z0-9-]{1,64}) ((?:[0-9a-f]{2}){1,128})")


class KeyringFault(Exception):
    """The fault, `BadLine` or `Twice`, and its line, counted from 1."""


def read_keyring(text):
    """The secrets of a keyring by their names; KeyringFault if the text isn't a keyring."""
    keys = {}
    lines = text.split(b"\n")
    last = lines.pop()
    for number, line in enumerate(lines, 1):
        parts = KEYRING_LINE.fullmatch(line)
        if parts is None:
            raise KeyringFault("BadLine", number)
        if parts[1] in keys:
            raise KeyringFault("Twice", number)
        keys[parts[1]] = bytes.fromhex(parts[2].decode())
    if last:
        raise KeyringFault("BadLine", len(lines) + 1)
    return keys


def signature(secret, payload):
    return hmac.digest(secret, payload, "sha256")


# Facts

class Signed(NamedTuple):
    signer: str
    payload: bytes
    signature: bytes


class Part(NamedTuple):
    """So many bytes, from an offset on, of the content of a ref, or so many zeros."""

    size: int
    offset: int
    blob: Optional[str]
    tree: Optional[str]


class Change(NamedTuple):
    """A change of the values of an attribute of a permanode."""

    act: str
    on: str
    attribute: str
    value: str


class Fact(NamedTuple):
    """The meaning of a blob by itself. Fields that its kind doesn't have are None."""

    kind: str
    needs: tuple = ()
    name: Optional[object] = None
    signed: Optional[Signed] = None
    date: Optional[int] = None
    claim: Optional[str] = None
    target: Optional[str] = None
    changes: Optional[tuple] = None
    parts: Optional[tuple] = None


# docs/formats/schema.md, "Kinds": the row of `Plain`
LARGEST_SCHEMA_BLOB = 1_048_576
# docs/formats/schema.md, "Claims"
ACTS = "set-attribute", "add-attribute", "del-attribute"
MOST_CHANGES = 1_000
# docs/formats/schema.md, "Part lists"
MOST_BYTES_OF_A_FILE = 281_474_976_710_656
# docs/formats/schema.md, "Kinds": the row of `Key`; docs/formats/keyring.md, "Name"
KEY_BLOB = re.compile(rb"perkeep-hmac-sha256 ([a-z0-9-]{1,64})\n")
# docs/formats/schema.md, "Signed blobs"
MARKER = b',"camliSig":"'
SIGNATURE_DIGITS = re.compile(r"[0-9a-f]{64}")


def fact_of(blob):
    """The first row of the table of kinds that fits."""
    key = KEY_BLOB.fullmatch(blob)
    if key is not None:
        return Fact("Key", name=key[1])
    body = object_of(blob) if len(blob) <= LARGEST_SCHEMA_BLOB else None
    if body is None or not is_version_1(body) or not isinstance(body.get("camliType"), str):
        return Fact("Plain")
    rows = {
        "file": lambda: file_fact(body),
        "bytes": lambda: bytes_fact(body),
        "directory": lambda: directory_fact(body),
        "static-set": lambda: static_set_fact(body),
        "permanode": lambda: permanode_fact(blob),
        "claim": lambda: claim_fact(blob),
    }
    row = rows.get(body["camliType"])
    return (row and row()) or Fact("Unread", name=body["camliType"])


def object_of(text):
    """The object in a text of bytes; None if it isn't one."""
    try:
        value = strict_json.read(text)
    except strict_json.Unread:
        return None
    return value if isinstance(value, dict) else None


def is_whole(value):
    return type(value) is int


def is_version_1(body):
    return is_whole(body.get("camliVersion")) and body["camliVersion"] == 1


def file_fact(body):
    name = body.get("fileName", "")
    parts = part_list(body.get("parts"))
    good = isinstance(name, str) and parts is not None
    return Fact("File", part_refs(parts), name, parts=parts) if good else None


def bytes_fact(body):
    parts = part_list(body.get("parts"))
    return Fact("Bytes", part_refs(parts), parts=parts) if parts is not None else None


def directory_fact(body):
    name, entries = body.get("fileName", ""), body.get("entries")
    return Fact("Directory", (entries,), name) if isinstance(name, str) and is_ref(entries) else None


def static_set_fact(body):
    members = body.get("members")
    good = isinstance(members, list) and all(map(is_ref, members)) and "mergeSets" not in body
    return Fact("StaticSet") if good else None


def part_refs(parts):
    """The refs of parts, in their order."""
    return tuple(ref for part in parts for ref in (part.blob, part.tree) if ref is not None)


def part_list(items):
    """The parts of a part list; None if it isn't one."""
    if not isinstance(items, list):
        return None
    parts = []
    total = 0
    for item in items:
        if not isinstance(item, dict):
            return None
        size, offset = item.get("size"), item.get("offset", 0)
        origins = [item[key] for key in ("blobRef", "bytesRef") if key in item]
        if not (is_whole(size) and is_whole(offset) and len(origins) <= 1 and all(map(is_ref, origins))):
            return None
        total += size
        if max(total, offset) > MOST_BYTES_OF_A_FILE:
            return None
        parts.append(Part(size, offset, item.get("blobRef"), item.get("bytesRef")))
    return tuple(parts)


def permanode_fact(blob):
    signed, body = signed_of(blob)
    if signed is None or not is_version_1(body) or body.get("camliType") != "permanode":
        return None
    return Fact("Permanode", (signed.signer,), signed=signed)


def claim_fact(blob):
    signed, body = signed_of(blob)
    if signed is None or not is_version_1(body) or body.get("camliType") != "claim":
        return None
    text = body.get("claimDate")
    date = moment_of(text) if isinstance(text, str) else None
    if date is None:
        return None
    claim = body.get("claimType")
    fact = Fact("Claim", (signed.signer,), signed=signed, date=date, claim=claim)
    if claim == "delete":
        target = body.get("target")
        return fact._replace(target=target, needs=(signed.signer, target)) if is_ref(target) else None
    if claim == "multi":
        changes = change_list(body.get("changes"))
    else:
        change = change_of(body, "claimType")
        changes = change and (change,)
    return fact._replace(changes=changes) if changes else None


def change_of(body, key):
    """The change in an object, with its type under this key; None if it is none."""
    act, on, attribute = body.get(key), body.get("permaNode"), body.get("attribute")
    value = body.get("value", "" if act == "del-attribute" else None)
    good = act in ACTS and is_ref(on) and isinstance(attribute, str) and attribute != "" and isinstance(value, str)
    return Change(act, on, attribute, value) if good else None


def change_list(items):
    """The changes of a list, in their order; None if it isn't a list of 1 to 1,000 changes."""
    if not isinstance(items, list) or not 1 <= len(items) <= MOST_CHANGES:
        return None
    changes = tuple(change_of(item, "changeType") if isinstance(item, dict) else None for item in items)
    return None if None in changes else changes


def signed_of(blob):
    """The signed part, and the payload's object; None twice if the blob isn't signed."""
    unsigned = None, None
    place = blob.rfind(MARKER)
    if place < 0:
        return unsigned
    payload = blob[:place]
    body = object_of(payload + b"}")
    tail = object_of(b"{" + blob[place + 1 :])
    if body is None or not is_ref(body.get("camliSigner")) or tail is None or list(tail) != ["camliSig"]:
        return unsigned
    digits = tail["camliSig"]
    if not isinstance(digits, str) or SIGNATURE_DIGITS.fullmatch(digits) is None:
        return unsigned
    return Signed(body["camliSigner"], payload, bytes.fromhex(digits)), body


# The meaning of the blobs together: which are ready, genuine and deleted, and the values of permanodes (docs/claims.md)

# docs/search.md, "Queries of the program"
MOST_ANSWERS = 1_000_000


class Archive:
    def __init__(self, blobs, keys):
        """From blobs by their refs, and secrets by the names of their keys."""
        self.facts = {ref: fact_of(blob) for ref, blob in blobs.items()}
        self.keys = keys
        self.ready = self.rounds()
        self.genuine = {ref for ref in self.ready if self.is_genuine(self.facts[ref])}
        self.deletes = self.deletes_by_target()
        self.changes = self.changes_by_permanode()
        self.known_deleted = {}

    def rounds(self):
        """The refs that are ready: round by round those whose dependencies all are, until a round adds none."""
        ready = set()
        waiting = set(self.facts)
        while True:
            now = {ref for ref in waiting if ready.issuperset(self.facts[ref].needs)}
            if not now:
                return ready
            ready |= now
            waiting -= now

    def is_genuine(self, fact):
        """Whether a ready fact is a permanode or a claim whose signature its key accepts."""
        if fact.signed is None:
            return False
        signer = self.facts[fact.signed.signer]
        if signer.kind != "Key" or signer.name not in self.keys:
            return False
        return signature(self.keys[signer.name], fact.signed.payload) == fact.signed.signature

    def deletes_by_target(self):
        """The genuine delete claims, by the ref that they are on."""
        claims = {}
        for ref in self.genuine:
            fact = self.facts[ref]
            if fact.claim == "delete":
                claims.setdefault(fact.target, []).append(ref)
        return claims

    def changes_by_permanode(self):
        """The changes of genuine claims by the ref that they are on, in the order in which they count: each with the
        date of its claim, the claim's ref and its place there."""
        changes = {}
        for ref in self.genuine:
            fact = self.facts[ref]
            for place, change in enumerate(fact.changes or ()):
                changes.setdefault(change.on, []).append((fact.date, ref, place, change))
        return {on: sorted(some) for on, some in changes.items()}

    def deleted(self, ref, when):
        """Whether a permanode or a claim is deleted: some delete claim on it counts at the moment and isn't deleted
        itself."""
        if ref not in self.facts or self.facts[ref].kind not in ("Permanode", "Claim"):
            return False
        if (ref, when) not in self.known_deleted:
            claims = self.deletes.get(ref, ())
            self.known_deleted[ref, when] = any(
                self.counts_at(claim, when) and not self.deleted(claim, when) for claim in claims
            )
        return self.known_deleted[ref, when]

    def counts_at(self, claim, when):
        return when is ALWAYS or self.facts[claim].date <= when

    def is_permanode(self, ref):
        return ref in self.genuine and self.facts[ref].kind == "Permanode"

    def counted(self, permanode, when):
        """The changes of a permanode that count at a moment, in their order, each with the date of its claim."""
        if not self.is_permanode(permanode):
            return []
        return [
            (date, change)
            for date, claim, _, change in self.changes.get(permanode, ())
            if self.counts_at(claim, when) and not self.deleted(claim, when)
        ]

    def values(self, permanode, attribute, when):
        """The values of an attribute, in the order in which they were given."""
        values = []
        for _, change in self.counted(permanode, when):
            if change.attribute != attribute:
                continue
            if change.act == "set-attribute":
                values = [change.value]
            elif change.act == "add-attribute":
                values.append(change.value)
            elif change.value == "":
                values = []
            else:
                values = [value for value in values if value != change.value]
        return values

    def holders(self, attribute, value, when=ALWAYS):
        """The permanodes that have the value at a moment, in the order of their refs."""
        return [
            ref
            for ref in sorted(filter(self.is_permanode, self.genuine))
            if not self.deleted(ref, when) and value in self.values(ref, attribute, when)
        ][:MOST_ANSWERS]


# Answers (docs/formats/answers.md)

def search_text(refs):
    return b'{"blobs":[' + b",".join(b'{"blob":"' + ref.encode() + b'"}' for ref in refs) + b"]}"


def archive_of(pack, keyring):
    """The archive of a pack under the text of a keyring."""
    return Archive(content(salvage(pack)[0]), read_keyring(keyring))


def search_pack(pack, keyring, attribute, value):
    """The output of the command for a pack."""
    return search_text(archive_of(pack, keyring).holders(attribute, value)) + b"\n"


def archive_of_store(packs, keyring):
    """The archive of a store under the text of its keyring."""
    return Archive(arrivals(packs), read_keyring(keyring))


# The generated store

# docs/formats/generated.md, "Words"
STEP = 0x9E3779B97F4A7C15
FOLDS = (30, 0xBF58476D1CE4E5B9), (27, 0x94D049BB133111EB)


def word(start, number):
    """The word of a number under a start."""
    z = (start + (number + 1) * STEP) % 2**64
    for places, factor in FOLDS:
        z = (z ^ z >> places) * factor % 2**64
    return z ^ z >> 31


def load_text(blobs, keyring):
    """The output of `load` when it makes these blobs (docs/commands.md, "load")."""
    by_ref = {}
    for blob in blobs:
        by_ref.setdefault(ref_of(blob), blob)
    archive = Archive(by_ref, read_keyring(keyring))
    permanodes = sum(archive.is_permanode(ref) and not archive.deleted(ref, ALWAYS) for ref in archive.facts)
    answer = ref_of(search_text(archive.holders("tag", "t0")))
    line = f"blobs {len(blobs)} permanodes {permanodes} answer {answer}\n"
    return f"forward {line}backward {line}".encode()


# Files (docs/files.md)

# "Reading a file": the file itself is the first of so many trees within one another
MOST_TREES = 64


class Refused(Exception):
    """Why no further bytes of a file can be read: the exit status of docs/commands.md."""

    def __init__(self, status):
        super().__init__(status)
        self.status = status


def read_file(blobs, ref):
    """The bytes of a file among blobs by their refs, up to where they can't be read, and the exit status."""
    pieces = []
    try:
        for piece in file_pieces(blobs, ref):
            pieces.append(piece)
    except Refused as why:
        return b"".join(pieces), why.status
    return b"".join(pieces), 0


def file_pieces(blobs, ref):
    parts = parts_under(blobs, ref, ("File",))
    yield from pieces_of(blobs, parts, 0, size_of(parts), 1)


def parts_under(blobs, ref, kinds):
    if ref not in blobs:
        raise Refused(3)
    fact = fact_of(blobs[ref])
    if fact.kind not in kinds:
        raise Refused(4)
    return fact.parts


def size_of(parts):
    return sum(part.size for part in parts)


def pieces_of(blobs, parts, start, count, trees):
    """So many bytes of parts, from an offset on; a part of which no byte is needed isn't read."""
    for part in parts:
        passed = min(start, part.size)
        asked = min(part.size - passed, count)
        if asked > 0:
            yield from part_pieces(blobs, part, part.offset + passed, asked, trees)
        start -= passed
        count -= asked


def part_pieces(blobs, part, at, count, trees):
    """So many bytes of a part within so many trees, from an offset of its origin on."""
    end = part.offset + part.size
    if part.tree is not None:
        if trees == MOST_TREES:
            raise Refused(4)
        parts = parts_under(blobs, part.tree, ("File", "Bytes"))
        if size_of(parts) < end:
            raise Refused(4)
        yield from pieces_of(blobs, parts, at, count, trees + 1)
    elif part.blob is None:
        yield bytes(count)
    elif part.blob not in blobs:
        raise Refused(3)
    elif len(blobs[part.blob]) < end:
        raise Refused(4)
    else:
        yield blobs[part.blob][at : at + count]
