#!/usr/bin/env python3
"""Makes an example from the format pages alone, with Python's own hashing.

Written into the folder of this script:

    tagged.pack     a pack of three blobs: a key, a permanode, and a claim that gives it the tag `a`
    keyring         the keyring that holds the secret of the key
    tagged.answer   what `perkeep search-pack tag a` prints for the pack

See docs/formats/packs.md, blobrefs.md, schema.md, keyring.md and answers.md.
"""

import argparse
import hashlib
import hmac
import pathlib

NAME = "jefe"
SECRET = b"Jefe"


def ref_of(blob):
    return "sha224-" + hashlib.sha224(blob).hexdigest()


def record_of(blob):
    return f"[{ref_of(blob)} {len(blob)}]".encode() + blob


def signed(payload):
    digest = hmac.new(SECRET, payload.encode(), hashlib.sha256).hexdigest()
    return f'{payload},"camliSig":"{digest}"}}\n'.encode()


def key_blob():
    return f"perkeep-hmac-sha256 {NAME}\n".encode()


def permanode(signer, random):
    return signed(
        '{"camliVersion":1,"camliType":"permanode",'
        f'"camliSigner":"{signer}","random":"{random}"'
    )


def set_attribute(signer, date, on, attribute, value):
    return signed(
        '{"camliVersion":1,"camliType":"claim",'
        f'"camliSigner":"{signer}","claimDate":"{date}",'
        f'"claimType":"set-attribute","permaNode":"{on}",'
        f'"attribute":"{attribute}","value":"{value}"'
    )


def answer(refs):
    return '{"blobs":[' + ",".join(f'{{"blob":"{ref}"}}' for ref in refs) + "]}\n"


def main():
    folder = pathlib.Path(__file__).resolve().parent
    key = key_blob()
    node = permanode(ref_of(key), "00112233445566778899aabbccddeeff")
    claim = set_attribute(ref_of(key), "2020-01-01T00:00:00Z", ref_of(node), "tag", "a")
    pack = b"".join(record_of(blob) for blob in (key, node, claim))
    (folder / "tagged.pack").write_bytes(pack)
    (folder / "keyring").write_text(f"{NAME} {SECRET.hex()}\n")
    (folder / "tagged.answer").write_text(answer([ref_of(node)]))


if __name__ == "__main__":
    argparse.ArgumentParser(description=__doc__, formatter_class=argparse.RawDescriptionHelpFormatter).parse_args()
    main()
