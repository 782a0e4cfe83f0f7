#!/usr/bin/env python3
"""Makes a share: a signed blob by which others may read one file or folder of an archive, and nothing else.

    make_share.py 127.0.0.1:3179 sha224-.. --keyring ~/archive/keyring
    make_share.py inbox sha224-.. --keyring ~/archive/keyring

WHERE is the HOST:PORT of the archive's server, which stores the share and the key's blob. It may also be an inbox: a
folder without packs, made if it isn't there, which gets both for `perkeep push inbox HOST:PORT`. The archive's own
folder is no inbox. REF is the file or folder to share, as `put-file` or put_tree.py has printed it. It can't be a note,
since no link leads from a note to its content.

The share covers REF and all blobs to which links lead from it; with --alone only the blob of REF, so that no content of
a file is shared. Two lines are printed: the ref of the share, and the path under which `perkeep serve-shares` serves it
after its next start (docs/shares.md). Whoever knows the ref of the share can read what it shares: it is the password.

`perkeep delete DIR SHARE --key NAME` takes a share back. It is served until serve-shares is restarted.

Status: 0 it is stored, 2 bad arguments, 3 it couldn't be done.
"""

from __future__ import annotations

import os
import pathlib
import re
import time

from perkeep_archive import (
    PACK_NAME, Key, Refused, Server, date_text, is_ref, parser_of, read_keyring, ref_of, report, run, schema_in, shown,
)

NEW_FILE = os.O_WRONLY | os.O_CREAT | os.O_EXCL | os.O_CLOEXEC
KINDS_WITHOUT_LINKS = {"permanode": "a note", "claim": "a claim on a note"}


def share_claim(key: Key, moment: int, target: str, transitive: bool) -> bytes:
    """A share claim (docs/shares.md, "What a share is")."""
    fields = {"claimDate": date_text(moment), "claimType": "share", "authType": "haveref", "target": target}
    return key.signed("claim", {**fields, "transitive": True} if transitive else fields)


def key_of(path: pathlib.Path, name: str) -> Key:
    """The key of a name; without a name, the only key of the keyring."""
    keys = read_keyring(path)
    if name and name not in keys:
        raise Refused(f"the keyring {path} has no key {name}")
    if not name and len(keys) != 1:
        raise Refused(f"the keyring {path} has {len(keys)} keys: say which by --key NAME")
    return keys[name] if name else next(iter(keys.values()))


def send(address: str, target: str, is_alone: bool, blobs: dict[str, bytes]) -> None:
    """Stores blobs on a server, which has to have the target. If the share isn't alone, links have to lead on from the
    target."""
    server = Server(address)
    if not server.standing([target]):
        raise Refused(f"the server at {address} has no {target}")
    if not is_alone:
        check_links(target, server.exchange("GET", f"/camli/{target}", b"", {"Host": "localhost"})[1])
    server.upload(blobs)


def check_links(target: str, blob: bytes) -> None:
    """Refuses a note and a claim: no link leads from them to their content."""
    kind = KINDS_WITHOUT_LINKS.get((schema_in(blob) or {}).get("camliType", ""))
    if kind is not None:
        way = "give the ref of the file or the folder, as put-file or put_tree.py has printed it"
        raise Refused(f"{target} is {kind}, from which nothing leads to a file: {way}")


def fill_inbox(folder: pathlib.Path, blobs: dict[str, bytes]) -> None:
    """Writes blobs as the only pack of a folder (docs/formats/packs.md)."""
    pack = b"".join(f"[{ref} {len(blob)}]".encode() + blob for ref, blob in blobs.items())
    try:
        is_new = not folder.exists()
        folder.mkdir(mode=0o700, exist_ok=True)
        if any(PACK_NAME.fullmatch(name) for name in os.listdir(folder)):
            where = "the HOST:PORT of the archive's server, or an inbox, which is a folder without packs"
            raise Refused(f"{folder} has packs: WHERE is {where}")
        with open(os.open(folder / "pack-00000.blobs", NEW_FILE, 0o600), "wb") as file:
            file.write(pack)
            file.flush()
            os.fsync(file.fileno())
    except OSError as why:
        raise Refused(f"{folder}: {why.strerror}") from None
    if is_new:
        report(f"make_share.py: the folder {shown(str(folder))} was made: push it to the archive's server")


def main() -> int:
    parser = parser_of(__doc__)
    parser.add_argument("where", metavar="WHERE", help="HOST:PORT of a server, or the folder of an inbox")
    parser.add_argument("target", metavar="REF", help="the file or folder to share")
    parser.add_argument("--keyring", metavar="FILE", type=pathlib.Path, required=True, help="the archive's keyring")
    parser.add_argument("--key", metavar="NAME", default="", help="the key that signs, if the keyring has several")
    parser.add_argument("--alone", action="store_true", help="shares only the blob of REF")
    words = parser.parse_intermixed_args()
    if not is_ref(words.target):
        raise Refused(f"{words.target!r} is no blobref")
    key = key_of(words.keyring, words.key)
    claim = share_claim(key, time.time_ns(), words.target, not words.alone)
    blobs = {key.ref: key.blob, ref_of(claim): claim}
    if re.fullmatch(r"[^/\s]+:[0-9]{1,5}", words.where):
        send(words.where, words.target, words.alone, blobs)
    else:
        fill_inbox(pathlib.Path(words.where), blobs)
    print(ref_of(claim))
    print(f"/share/{words.target}?via={ref_of(claim)}")
    return 0


if __name__ == "__main__":
    run(main)
