"""The replies of a server of shares, computed a second time.

Everything here is written from docs/shares.md and docs/http.md alone, to be read beside them. Heads, bodies and replies
are those of connections.py, facts and deletions those of reference.py.
"""

from typing import NamedTuple, Optional

import reference
from connections import OCTETS, Connection, Refused, Reply, bad, pairs_of
from reference import ALWAYS, LARGEST_SCHEMA_BLOB, Signed, fact_of, is_ref, is_version_1, object_of, signed_of

# docs/shares.md, "Over HTTP"
SHARE = b"/share/"


class Share(NamedTuple):
    signed: Signed
    target: str
    transitive: bool


# docs/shares.md, "What a share is"
TEXTS = {"camliType": "claim", "claimType": "share", "authType": "haveref"}


def share_of(blob):
    """The share in a blob; None if it is none."""
    whole = object_of(blob) if len(blob) <= LARGEST_SCHEMA_BLOB else None
    if whole is None or not is_version_1(whole) or whole.get("camliType") != "claim":
        return None
    signed, body = signed_of(blob)
    if signed is None or not is_version_1(body) or any(body.get(key) != text for key, text in TEXTS.items()):
        return None
    date, target, transitive = body.get("claimDate"), body.get("target"), body.get("transitive", False)
    has_date = isinstance(date, str) and reference.moment_of(date) is not None
    is_share = has_date and is_ref(target) and isinstance(transitive, bool) and "expires" not in body
    return Share(signed, target, transitive) if is_share else None


# docs/shares.md, "What it reaches"
def links_of(blob):
    """The refs to which a blob links."""
    fact = fact_of(blob)
    if fact.kind in ("File", "Bytes"):
        return reference.part_refs(fact.parts)
    if fact.kind == "Directory":
        return fact.needs
    return tuple(object_of(blob)["members"]) if fact.kind == "StaticSet" else ()


class Denied(Exception):
    """A path is denied, by this rule."""

    def __init__(self, rule, **fields):
        super().__init__(rule, fields)
        self.fields = {"error": "share", "rule": rule, **fields}


class Shares:
    """A store and a keyring, whose shares are served."""

    def __init__(self, blobs, keys):
        self.blobs, self.keys = blobs, keys
        self.archive = reference.Archive(blobs, keys)
        self.shares = {ref: share for ref, share in ((ref, share_of(blob)) for ref, blob in blobs.items()) if share}

    def is_genuine(self, share):
        signer = self.archive.facts.get(share.signed.signer)
        if signer is None or signer.kind != "Key" or signer.name not in self.keys:
            return False
        return reference.signature(self.keys[signer.name], share.signed.payload) == share.signed.signature

    def is_deleted(self, ref):
        return any(not self.archive.deleted(claim, ALWAYS) for claim in self.archive.deletes.get(ref, ()))

    # docs/shares.md, "What is answered to a path"
    def served(self, path):
        """The blob at the end of a path, or None if it isn't there; `Denied` if the path is."""
        share = self.shares.get(path[0])
        if share is None:
            raise Denied("no share")
        if not self.is_genuine(share):
            raise Denied("not genuine")
        if self.is_deleted(path[0]):
            raise Denied("deleted")
        if len(path) > 1 and path[1] != share.target:
            raise Denied("wrong target")
        if len(path) > 2 and not share.transitive:
            raise Denied("not transitive")
        for place in range(2, len(path)):
            before = self.blobs.get(path[place - 1])
            if before is None or path[place] not in links_of(before):
                raise Denied("no link", at=place)
        return self.blobs.get(path[-1])


def ref_of_path(path) -> Optional[str]:
    """The ref of a path that names a shared blob; None if it names none."""
    ref = path.removeprefix(SHARE).decode("latin-1")
    return ref if path.startswith(SHARE) and is_ref(ref) else None


class ShareConnection(Connection):
    """A connection to a server of shares."""

    def __init__(self, stream, shares):
        super().__init__(stream, shares.blobs, shares.keys)
        self.shares = shares

    def check_route(self, head):
        if ref_of_path(head.path) is None:
            raise Refused(404, {"error": "no route"})
        if head.method != b"GET":
            raise Refused(405, {"error": "method"}, b"GET")

    def answer(self, head, body):
        ref, via = ref_of_path(head.path), pairs_of(head.query).get("via", "")
        before = via.split(",") if via else []
        if not all(map(is_ref, before)):
            return bad("ref").reply()
        try:
            blob = self.shares.served([*before, ref])
        except Denied as denied:
            return Refused(403, denied.fields).reply()
        if blob is None:
            return Refused(404, {"error": "absent", "blobRef": ref}).reply()
        return Reply(200, blob, OCTETS)


def replies(stream, shares):
    return ShareConnection(stream, shares).replies()
