"""Stores with a keyring, into which the program puts permanodes and claims.

The program draws a moment and random bytes. These are read from the blob that it put. The rest of the blob, including
its signature, has to be what writing.py makes with them, and the moment has to be between the start and the end of the
program.
"""

import re
import time

import inputs
import reference
import writing
from harness import check, compare, compare_ending
from reference import ref_of
from stores import Store
from writing import keyring_line

SECRETS = {
    "jefe": writing.SECRET,
    "other": inputs.OTHER_SECRET,
    "a": b"\0",
    "-": b"\xff" * 63,
    "0-9": b"of sixty-four bytes".ljust(64, b"\0"),
    "z": b"of sixty-five bytes".ljust(65, b"\0"),
    "k" * 64: bytes(range(128)),
}
KEYRING = b"".join(keyring_line(name, secret) for name, secret in SECRETS.items())
OTHERS = {"keyring": KEYRING}
RANDOM = re.compile(rb'"random":"([0-9a-f]{32})"')
DATE = re.compile(rb'"claimDate":"([^"]*)"')


class Notes(Store):
    """A store with a keyring, and the blobs that the program put into it."""

    def __init__(self, program, packs=None):
        super().__init__(program, packs or {}, OTHERS)
        # The moments of the claims, in their order.
        self.moments = []

    def permanode(self, what, key="jefe", words=None):
        """Puts a permanode; returns its ref."""
        line = words or ["permanode", str(self.path), f"--key={key}"]
        return self.note(what, line, key, RANDOM, lambda drawn: writing.permanode_payload(drawn, signer(key)))

    def claim(self, what, kind, on, attribute, *value, key="jefe", words=None):
        """Puts a claim; returns its ref."""
        line = words or ["claim", f"--key={key}", "--", str(self.path), kind, on, attribute, *value]
        text = "".join(value)
        payload_of = lambda date: writing.attribute_payload(kind, on, attribute, text, date, signer(key))
        return self.dated(what, line, key, payload_of)

    def multi(self, what, changes, source=None, key="jefe", words=None):
        """Puts a claim of several changes, each given by its kind, permanode, attribute and value, from this text or a
        plain one; returns its ref."""
        line = words or ["multi", str(self.path), f"--key={key}"]
        text = source or writing.octets(list_text(changes))
        payload_of = lambda date: writing.multi_payload(changes, date, signer(key))
        return self.dated(what, line, key, payload_of, source=text)

    def delete(self, what, target, key="jefe", words=None):
        """Puts a delete claim; returns its ref."""
        line = words or ["delete", str(self.path), target, f"--key={key}"]
        return self.dated(what, line, key, lambda date: writing.delete_payload(target, date, signer(key)))

    def put_file(self, what, name, content):
        """Puts a file; returns its ref."""
        blobs = writing.file_blobs(name, writing.chunks_of(content))
        for blob in blobs:
            self.packs = reference.put(self.packs, blob)
        ref = ref_of(blobs[-1])
        self.program.check(what, self.words("put-file", name), ref.encode() + b"\n", source=content)
        self.check_files(what)
        return ref

    def dated(self, what, line, key, payload_of, **streams):
        start = time.time_ns()
        ref = self.note(what, line, key, DATE, payload_of, **streams)
        end = time.time_ns()
        date = DATE.search(self.blobs()[ref])[1].decode()
        moment = reference.moment_of(date)
        check(f"{what}: {date} isn't between {start} and {end}", start <= moment <= end)
        compare(what, "the written date", reference.date_text(moment), date)
        self.moments.append(moment)
        return ref

    def note(self, what, line, key, pattern, payload_of, **streams):
        """Runs a line; then the key's blob and one more blob have to be there."""
        status, out, err = self.program.run(what, line, **streams)
        compare_ending(what, 0, status, err)
        return self.noted(what, key, pattern, payload_of, out)

    def noted(self, what, key, pattern, payload_of, out):
        """The ref of the blob that was put, and printed."""
        last = list(reference.arrivals(reference.packs_of(self.files())).values())[-1:]
        drawn = last and pattern.search(last[0])
        check(f"{what}: what stands last is {last}", drawn)
        blob = writing.signed(payload_of(drawn[1].decode()), SECRETS[key])
        compare(what, "the blob", blob, last[0])
        self.packs = reference.put(reference.put(self.packs, writing.key_blob(key)), blob)
        self.check_files(what)
        compare(what, "standard output", ref_of(blob).encode() + b"\n", out)
        return ref_of(blob)

    def finds(self, what, found, attribute, value, at=None):
        """A search has to find these permanodes, by the reference too."""
        archive = reference.archive_of_store(self.packs, KEYRING)
        compare(what, "the reference", sorted(found), archive.holders(attribute, value, at))
        when = [] if at is None else [f"--at={reference.date_text(at)}"]
        out = reference.search_text(sorted(found)) + b"\n"
        what = f"{what}: {attribute} {value} at {at}"
        self.reads(what, "search", f"--attr={attribute}", f"--value={value}", *when, out=out)


def signer(key):
    return ref_of(writing.key_blob(key))


def list_text(changes):
    """The text of a list of changes."""
    return f"[{','.join(writing.change_text(*one) for one in changes)}]"
