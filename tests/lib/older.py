"""Older stores, whose blobs have SHA-1 refs (docs/formats/blobrefs.md, "Two names").

The packs here are written out byte by byte, with the expected results, by other programs than the tested one: the
digests are those of sha1sum, the signatures those of openssl.
"""

import hashlib

import reference
from harness import check, compare
from inputs import KEYRING, day
from reference import ref_of
from stores import ABC, NOTHING_FOUND, Store, check_search

OLDER_ABC = "sha1-a9993e364706816aba3e25717850c26c9cd0d89d"
OLDER_EMPTY = "sha1-da39a3ee5e6b4b0d3255bfef95601890afd80709"
# `abc` under its older name, and then under the other one: 122 bytes.
BOTH_NAMES = b"[sha1-a9993e364706816aba3e25717850c26c9cd0d89d 3]abc"
BOTH_NAMES += b"[sha224-23097d223405d8228642a477bda255b32aadbce4bda0b3f7e36c9da7 3]abc"

# A key, a permanode, a file of two blobs and a tree, a set, a directory, the rest of a blob that was deleted, a tag, the
# file as the permanode's content, and the deletion of the tag.
PACK = (
    b"[sha1-b53b3038a20d690ed28b08b08635c53794d5c3e7 25]perkeep-hmac-sha256 jefe\n"
    b'[sha1-74178ed10b10a51762f25b1433ceea41091e031f 227]{"camliVersion":1,"camliType":"permanode",'
    b'"camliSigner":"sha1-b53b3038a20d690ed28b08b08635c53794d5c3e7","random":"00112233445566778899aabbccddeeff",'
    b'"camliSig":"dc561b9aa6b889ca9ed623da9dcc7573da2129413132017b81528ad8171655d7"}\n'
    b"[sha1-a9993e364706816aba3e25717850c26c9cd0d89d 3]abc"
    b"[sha1-87acec17cd9dcd20a716cc2cf67417b71c8a7016 10]0123456789"
    b'[sha1-cebcb28e65c9ba49bb7cda68ebd4330175785b1b 129]{"camliVersion":1,"camliType":"bytes",'
    b'"parts":[{"blobRef":"sha1-87acec17cd9dcd20a716cc2cf67417b71c8a7016","size":4,"offset":3}]}\n'
    b'[sha1-4079b417457e4b631a5ad3ce44eb16cf69eff8ee 301]{"camliVersion":1,"camliType":"file","fileName":"hello.txt",'
    b'"parts":[{"blobRef":"sha1-a9993e364706816aba3e25717850c26c9cd0d89d","size":3},'
    b'{"bytesRef":"sha1-cebcb28e65c9ba49bb7cda68ebd4330175785b1b","size":4},{"size":2},'
    b'{"blobRef":"sha1-a9993e364706816aba3e25717850c26c9cd0d89d","size":1,"offset":2}]}\n'
    b'[sha1-212b2f06c58e4cf08ae9c5c1ea24498c2f9a5738 104]{"camliVersion":1,"camliType":"static-set",'
    b'"members":["sha1-4079b417457e4b631a5ad3ce44eb16cf69eff8ee"]}\n'
    b'[sha1-ca6385ae3896bfee634a60ecd3a4e8f500592bfe 119]{"camliVersion":1,"camliType":"directory","fileName":"docs",'
    b'"entries":"sha1-212b2f06c58e4cf08ae9c5c1ea24498c2f9a5738"}\n'
    b"[xxxx-0000000000000000000000000000000000000000 5]\0\0\0\0\0"
    b'[sha1-5109ada024aa1908ae69f828e15239d5dbb36102 332]{"camliVersion":1,"camliType":"claim",'
    b'"camliSigner":"sha1-b53b3038a20d690ed28b08b08635c53794d5c3e7","claimDate":"2020-01-01T00:00:00Z",'
    b'"claimType":"set-attribute","permaNode":"sha1-74178ed10b10a51762f25b1433ceea41091e031f","attribute":"tag",'
    b'"value":"a","camliSig":"89ddad53ecb83b19a9d43316f5fab8d99c90ba303ce4d8db5fd3ccdeead01da5"}\n'
    b'[sha1-a4853afea7e1cdeceef85325be289d82eab92208 385]{"camliVersion":1,"camliType":"claim",'
    b'"camliSigner":"sha1-b53b3038a20d690ed28b08b08635c53794d5c3e7","claimDate":"2020-01-02T00:00:00Z",'
    b'"claimType":"set-attribute","permaNode":"sha1-74178ed10b10a51762f25b1433ceea41091e031f","attribute":"camliContent",'
    b'"value":"sha1-4079b417457e4b631a5ad3ce44eb16cf69eff8ee",'
    b'"camliSig":"9ba3e105815c3867f6eb61d67607fdc2beb3fb1a97227c447936626ebc7c09f3"}\n'
    b'[sha1-13a121683126ade9936f451c3e9a95f209cf8e92 292]{"camliVersion":1,"camliType":"claim",'
    b'"camliSigner":"sha1-b53b3038a20d690ed28b08b08635c53794d5c3e7","claimDate":"2020-01-03T00:00:00Z",'
    b'"claimType":"delete","target":"sha1-5109ada024aa1908ae69f828e15239d5dbb36102",'
    b'"camliSig":"47b1943afc524cda444453988f6d8235c5bc29706552234c8676213b9e0f3aee"}\n'
)
NODE, FILE = "sha1-74178ed10b10a51762f25b1433ceea41091e031f", "sha1-4079b417457e4b631a5ad3ce44eb16cf69eff8ee"
CONTENT = b"abc3456\0\0c"
# The place of each blob, its ref and its size.
FOUND = [
    (50, "sha1-b53b3038a20d690ed28b08b08635c53794d5c3e7", 25),
    (126, NODE, 227),
    (402, OLDER_ABC, 3),
    (455, "sha1-87acec17cd9dcd20a716cc2cf67417b71c8a7016", 10),
    (516, "sha1-cebcb28e65c9ba49bb7cda68ebd4330175785b1b", 129),
    (696, FILE, 301),
    (1048, "sha1-212b2f06c58e4cf08ae9c5c1ea24498c2f9a5738", 104),
    (1203, "sha1-ca6385ae3896bfee634a60ecd3a4e8f500592bfe", 119),
    (1427, "sha1-5109ada024aa1908ae69f828e15239d5dbb36102", 332),
    (1810, "sha1-a4853afea7e1cdeceef85325be289d82eab92208", 385),
    (2246, "sha1-13a121683126ade9936f451c3e9a95f209cf8e92", 292),
]
# Attributes and values, dates, and whether the permanode has the value then.
TAGS = [
    ("tag", "a", None, False),
    ("tag", "a", day(1), True),
    ("tag", "a", day(2), True),
    ("tag", "a", day(3), False),
    ("tag", "b", day(1), False),
    ("camliContent", FILE, None, True),
    ("camliContent", FILE, day(1), False),
    ("camliContent", FILE.upper(), None, False),
]
# Queries, and whether they find the permanode.
QUERIES = [
    (b'{"constraint":{"anything":true}}', True),
    (b'{"constraint":{"blobRefPrefix":"sha1-7417"}}', True),
    (b'{"constraint":{"blobRefPrefix":"sha224-"}}', False),
    (b'{"constraint":{"permanode":{"attr":"camliContent","valueInSet":{"file":{"fileSize":{"min":10,"max":10}}}}}}', True),
    (b'{"constraint":{"permanode":{"attr":"camliContent","valueInSet":{"file":{"fileName":{"equals":"x"}}}}}}', False),
]

# Two blobs of 320 bytes that share their SHA-1 digest: the beginnings of the two files of https://shattered.io.
FRONT = (
    b"%PDF-1.3\n%\xe2\xe3\xcf\xd3\n\n\n1 0 obj\n<</Width 2 0 R/Height 3 0 R/Type 4 0 R/Subtype 5 0 R/Filter 6 0 R"
    b"/ColorSpace 7 0 R/Length 8 0 R/BitsPerComponent 8>>\nstream\n\xff\xd8\xff\xfe\0$SHA-1 is dead!!!!!\x85/\xec"
    b'\t#9u\x9c9\xb1\xa1\xc6<L\x97\xe1\xff\xfe\x01'
)
COLLIDING = [
    FRONT + bytes.fromhex(digits)
    for digits in (
        "7f46dc93a6b67e013b029aaa1db2560b45ca67d688c7f84b8c4c791fe02b3df614f86db1690901c56b45c1530afedfb7"
        "6038e972722fe7ad728f0e4904e046c230570fe9d41398abe12ef5bc942be33542a4802d98b5d70f2a332ec37fac3514"
        "e74ddc0f2cc1a874cd0c78305a21566461309789606bd0bf3f98cda8044629a1",
        "7346dc9166b67e118f029ab621b2560ff9ca67cca8c7f85ba84c79030c2b3de218f86db3a90901d5df45c14f26fedfb3"
        "dc38e96ac22fe7bd728f0e45bce046d23c570feb141398bb552ef5a0a82be331fea48037b8b5d71f0e332edf93ac3500"
        "eb4ddc0decc1a864790c782c76215660dd309791d06bd0af3f98cda4bc4629b1",
    )
]
COLLIDING_REF = "sha1-f92d74e3874587aaf443d1db961d4e26dde13e9c"


# A store of each kind

def older(program):
    """Older stores, by each command."""
    return [lambda check=check: check(program) for check in (both_names, one_name, whole_store, colliding)]


def both_names(program):
    """One blob under both of its names is two blobs."""
    compare("both names", "length", 122, len(BOTH_NAMES))
    store, what = Store(program, {0: BOTH_NAMES}), "both names"
    found = f"pack-00000.blobs 49 {OLDER_ABC} 3\npack-00000.blobs 119 {ABC} 3\npack-00000.blobs clean\n"
    store.reads(what, "salvage", out=found.encode())
    store.reads(what, "list", out=f"{OLDER_ABC} 3\n{ABC} 3\n".encode())
    store.reads(what, "list", "--after", OLDER_ABC, out=f"{ABC} 3\n".encode())
    store.reads(what, "list", "--after", OLDER_EMPTY, out=f"{ABC} 3\n".encode())
    store.reads(what, "list", "--after", ABC)
    store.reads(what, "list", "--limit=1", out=f"{OLDER_ABC} 3\n".encode())
    for ref in (OLDER_ABC, ABC):
        store.reads(what, "get", ref, out=b"abc")
        store.reads(what, "stat", ref, out=f"{ref} 3\n".encode())
    store.keeps("a put of what stands", store.words("put"), f"{ABC}\n".encode(), source=b"abc")
    changed = BOTH_NAMES.replace(b"abc", b"abd", 1)
    found = f"pack-00000.blobs 119 {ABC} 3\npack-00000.blobs broken 0\n"
    Store(program, {0: changed}).reads("another byte", "salvage", out=found.encode())


def one_name(program):
    """A blob that is only there under its older name isn't found by the other one; a put adds it under that."""
    store, what = Store(program, {0: BOTH_NAMES[:52]}), "one name"
    store.reads(what, "list", out=f"{OLDER_ABC} 3\n".encode())
    store.reads(what, "get", ABC, status=3)
    store.reads(what, "get", OLDER_ABC, out=b"abc")
    store.reads(what, "get", OLDER_EMPTY, status=3)
    store.put("a put under the other name", b"abc")
    compare("a put under the other name", "packs", {0: BOTH_NAMES}, store.packs)


def whole_store(program):
    """A store with a key, a note and a file: its listing, searches and reads, and the blobs that are then put into
    it."""
    store, what = Store(program, {0: PACK}, {"keyring": KEYRING}), "an older store"
    lines = [f"pack-00000.blobs {at} {ref} {size}\n" for at, ref, size in FOUND]
    store.reads(what, "salvage", out="".join([*lines, "pack-00000.blobs clean\n"]).encode())
    store.reads(what, "list", out="".join(sorted(f"{ref} {size}\n" for _, ref, size in FOUND)).encode())
    for at, ref, size in FOUND:
        store.reads(what, "get", ref, out=PACK[at : at + size])
        store.reads(what, "stat", ref, out=f"{ref} {size}\n".encode())
        compare(what, "the digest of Python", ref, "sha1-" + hashlib.sha1(PACK[at : at + size]).hexdigest())
        store.reads(what, "get", ref_of(PACK[at : at + size]), status=3)
    store.reads(what, "get-file", FILE, out=CONTENT)
    store.reads(what, "get-file", OLDER_ABC, status=4)
    searched(store, what)
    store.put("the key once more", PACK[50:75])
    store.put("the file's blob once more", PACK[696:997])
    store.reads("behind puts", "get-file", ref_of(PACK[696:997]), out=CONTENT)
    store.lists("behind puts")
    searched(store, "behind puts")


def searched(store, what):
    """The results that are written down above, which the reference has to return too."""
    archive = reference.archive_of_store(store.packs, KEYRING)
    for attribute, value, at, is_found in TAGS:
        found = [NODE] if is_found else []
        when = reference.ALWAYS if at is None else reference.moment_of(at)
        compare(f"{what}: {attribute} {value} at {at}", "the reference", found, archive.holders(attribute, value, when))
        check_search(store, archive, attribute, value, at)
    for query, is_found in QUERIES:
        out = reference.search_text([NODE]) + b"\n" if is_found else NOTHING_FOUND
        store.keeps(f"{what}: {query}", store.words("query"), out, source=query)


def colliding(program):
    """Of two blobs that share their older ref the first one is there."""
    one, two = COLLIDING
    check("the blobs are two", one != two and ref_of(one) != ref_of(two))
    head = f"[{COLLIDING_REF} 320]".encode()
    for first, second in ((one, two), (two, one)):
        store, what = Store(program, {0: head + first + head + second}), "one ref of two blobs"
        lines = [f"pack-00000.blobs {at} {COLLIDING_REF} 320\n" for at in (51, 422)]
        store.reads(what, "salvage", out="".join([*lines, "pack-00000.blobs clean\n"]).encode())
        store.reads(what, "list", out=f"{COLLIDING_REF} 320\n".encode())
        store.reads(what, "get", COLLIDING_REF, out=first)
        store.put(f"{what}, and the second", second)
        store.reads(f"{what}, and the second", "get", ref_of(second), out=second)
        store.reads(f"{what}, and the second", "get", COLLIDING_REF, out=first)
