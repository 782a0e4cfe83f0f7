#!/usr/bin/env python3
"""Downloads a file or a folder that somebody shares.

    get_shared.py 'https://example.org/share/sha224-..?via=sha224-..'
    get_shared.py http://127.0.0.1:3190/share/sha224-.. letters

URL is what the owner has sent: the address of their server, followed by the path that make_share.py has printed. The
ref of a share alone, without `via`, works too. It is as good as a password: pass it on only to those who may read it.

PATH is made, or added to if it is a folder already. Without it, the name of the shared file or folder is used, in the
working folder. Nothing is written outside it, whatever names and links the owner has given, and a file that is there
already is left alone and reported. Each blob is checked against its ref. A connection that breaks is made again.
Standard error says what can't be downloaded, and nothing of that is left.

Status: 0 all is there, 1 something isn't, 2 bad arguments, 3 it couldn't be done.
"""

from __future__ import annotations

import collections
import http.client
import re
import urllib.parse
from typing import Optional

from get_tree import Restoring
from perkeep_archive import (
    INCOMPLETE, LARGEST_SCHEMA, PATIENCE, Archive, Entry, Lacking, Refused, Server, has_ref, is_ref, parser_of, run,
    read_object, schema_in, shown, signed_in,
)

# How many short blobs are kept, so that none is requested as an entry and again for its content.
KEPT = 64
# What the words of a refusal mean to the user of the URL (docs/shares.md, "Over HTTP").
MEANINGS = {
    "absent": "the archive lacks it",
    "deleted": "the share was taken back",
    "no share": "that is no share, or serve-shares was started before it was made",
    "not transitive": "shared is one blob alone",
}


class ShareServer(Server):
    """A client of a server of shares, over TLS or not."""

    def __init__(self, scheme: str, address: str):
        kinds = {"http": http.client.HTTPConnection, "https": http.client.HTTPSConnection}
        try:
            self.connection = kinds[scheme](address, timeout=PATIENCE)
        except (KeyError, ValueError, http.client.InvalidURL):
            raise Refused(f"{scheme}://{address} is no address of a server") from None
        self.address = address
        self.was_reached = False


class Shared(Archive):
    """The blobs that a share reaches, each requested by the path of links on which it was found."""

    def __init__(self, server: ShareServer, path: list[str]):
        self.server = server
        self.above: dict[str, Optional[str]] = dict(zip(path, [None, *path]))
        self.kept: collections.OrderedDict[str, bytes] = collections.OrderedDict()

    def get(self, ref: str) -> bytes:
        """The blob with this ref."""
        if ref not in self.kept:
            blob = self.fetch(ref)
            body = schema_in(blob)
            if body is None:
                return blob
            for link in links_in(body):
                self.above.setdefault(link, ref)
            self.kept[ref] = blob
            if len(self.kept) > KEPT:
                self.kept.popitem(last=False)
        self.kept.move_to_end(ref)
        return self.kept[ref]

    def fetch(self, ref: str) -> bytes:
        via = self.path_to(ref)
        target = f"/share/{ref}" + (f"?via={','.join(via)}" if via else "")
        status, reply = self.server.exchange("GET", target, b"", {})
        if status != 200:
            raise Lacking(ref, f"isn't served: {refusal_in(status, reply)}")
        if not has_ref(reply, ref):
            raise Lacking(ref, "isn't what the server sends")
        return reply

    def path_to(self, ref: str) -> list[str]:
        """The refs that lead to a ref, beginning with the share."""
        path: list[str] = []
        above = self.above.get(ref)
        while above is not None:
            path.append(above)
            above = self.above.get(above)
        return path[::-1]


def links_in(body: dict) -> list[str]:
    """The refs to which a schema blob links (docs/shares.md, "What it reaches")."""
    items = [item for item in body.get("parts") or [] if isinstance(item, dict)]
    refs = [item.get(key) for item in items for key in ("blobRef", "bytesRef")]
    return [ref for ref in [*refs, body.get("entries"), *(body.get("members") or [])] if is_ref(ref)]


def refusal_in(status: int, reply: bytes) -> str:
    """The reason that a refusal gives."""
    said = read_object(reply) or {}
    rule = said.get("rule") or said.get("error")
    if not isinstance(rule, str) or rule == "no route":
        return f"what answers {status} at this HOST:PORT is no serve-shares, or can't reach it"
    return f"{status} {shown(rule)}" + (f" ({MEANINGS[rule]})" if rule in MEANINGS else "")


def server_and_path(url: str) -> tuple[ShareServer, list[str]]:
    """The server that a URL names, and the path of refs."""
    parts = urllib.parse.urlsplit(url)
    ref = parts.path.removeprefix("/share/")
    via = [one for one in dict(urllib.parse.parse_qsl(parts.query)).get("via", "").split(",") if one]
    if not parts.path.startswith("/share/") or not all(map(is_ref, [*via, ref])):
        raise Refused(f"{url} is no http://HOST:PORT/share/REF?via=REF")
    return ShareServer(parts.scheme, parts.netloc), [*via, ref]


def shared_by(shared: Shared, ref: str) -> str:
    """The ref that a share shares; if a ref isn't a share's, that ref."""
    blob = shared.fetch(ref)
    said = signed_in(blob) if len(blob) <= LARGEST_SCHEMA else None
    if said is None or said[0].get("claimType") != "share" or not is_ref(said[0].get("target")):
        return ref
    shared.above.setdefault(said[0]["target"], ref)
    return said[0]["target"]


def place_of(entry: Entry, given: Optional[str]) -> bytes:
    """Where an entry is written: the given path, or its own name, which has to be that of a file."""
    if given is not None:
        return given.encode(errors="surrogateescape")
    if entry.name in (b"", b".", b"..") or re.search(rb"[/\0]", entry.name):
        raise Refused(f"{entry.ref} has no name of a file: give a PATH")
    return entry.name


def main() -> int:
    parser = parser_of(__doc__)
    parser.add_argument("url", metavar="URL", help="http://HOST:PORT/share/REF?via=REF, or https")
    parser.add_argument("path", metavar="PATH", nargs="?", help="where to write it; by default its own name")
    words = parser.parse_intermixed_args()
    server, path = server_and_path(words.url)
    shared = Shared(server, path)
    try:
        entry = shared.entry(shared_by(shared, path[-1]))
    except Lacking as why:
        raise Refused(str(why)) from None
    if entry.fault is not None or entry.kind not in ("file", "symlink", "directory"):
        raise Refused(str(entry.fault or f"{entry.ref} isn't a folder, file or link"))
    restoring = Restoring(shared, False, "give another PATH")
    try:
        restoring.restore(entry, place_of(entry, words.path))
    except OSError as why:
        raise Refused(f"{words.path or '.'}: {why.strerror}") from None
    return INCOMPLETE if restoring.left else 0


if __name__ == "__main__":
    run(main)
