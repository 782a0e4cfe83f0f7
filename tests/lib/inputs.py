"""The inputs of search_pack.py, with the expected results of each.

Most are the example with something changed: a key, a permanode signed with it, and a claim that sets `tag` to `a` on
the permanode. The program shows only permanodes with a value. The result therefore depends on whether the claim, or the
permanode, is read.
"""

import hashlib
import itertools

import harness
import reference
import writing
from reference import MARKER, older_ref_of, ref_of
from writing import Names, attribute_payload, claim, delete, delete_payload, deleted_record, header, key_blob
from writing import keyring_line, multi, multi_payload, pack, permanode, permanode_payload, record, signed

SECRET = writing.SECRET
OTHER_SECRET = b"another secret"
KEYRING = keyring_line() + keyring_line("other", OTHER_SECRET)


def day(number, rest="T00:00:00Z"):
    return f"2020-01-{number:02}{rest}"


DATE = day(1)
KEY = key_blob()
NODE = permanode()
PAYLOAD = attribute_payload("set", ref_of(NODE), "tag", "a", DATE)
CLAIM = signed(PAYLOAD)
DELETE = delete(ref_of(CLAIM), day(2))
EXAMPLE_BLOBS = (KEY, NODE, CLAIM)
EXAMPLE = pack(*EXAMPLE_BLOBS)
FOUND = [ref_of(NODE)]
BEFORE_CLAIM = pack(KEY, NODE)
ABSENT, OLDER_ABSENT = ref_of(b"a blob that is nowhere"), older_ref_of(b"a blob that is nowhere")


def with_claim(*blobs):
    """The example with other blobs instead of the claim."""
    return BEFORE_CLAIM + pack(*blobs)


def changed(text, old, new):
    """A text with one place of it changed."""
    assert text.count(old) == 1, (old, text)
    return text.replace(old, new)


def with_claim_changed(old, new, payload=PAYLOAD):
    return with_claim(signed(changed(writing.octets(payload), writing.octets(old), writing.octets(new))))


def with_member(member):
    """The claim with one more member."""
    return with_claim(signed(PAYLOAD.encode() + b"," + writing.octets(member)))


# The examples of the pages

def page_examples():
    """A description, the reference's result, and what the pages of docs/formats say."""
    empty = "sha224-d14a028c2a3a2bc9476102bb288234c415a2b01f828ea62ac5b3e42f"
    abc = "sha224-23097d223405d8228642a477bda255b32aadbce4bda0b3f7e36c9da7"
    yield "the ref of the empty blob", ref_of(b""), empty
    yield "the ref of abc", ref_of(b"abc"), abc
    older_empty, older_abc = "sha1-da39a3ee5e6b4b0d3255bfef95601890afd80709", "sha1-a9993e364706816aba3e25717850c26c9cd0d89d"
    yield "the older refs", (older_ref_of(b""), older_ref_of(b"abc")), (older_empty, older_abc)
    yield "the order of refs", sorted([empty, abc, older_empty, older_abc]), [older_abc, older_empty, abc, empty]
    yield "the record of abc", record(b"abc"), f"[{abc} 3]abc".encode()
    yield "its older record", record(b"abc", older_ref_of), f"[{older_abc} 3]abc".encode()
    two = record(b"abc") + record(b"")
    for what, whole, found, broken in [
        ("two records", two, [(abc, 67), (empty, 137)], None),
        ("all but their last byte", two[:-1], [(abc, 67)], 70),
        ("the first one torn", two[:69], [], 0),
        ("a deleted record between them", record(b"abc") + b"[x-0 2]zz" + record(b""), [(abc, 67), (empty, 146)], None),
        ("a leading zero", f"[{abc} 03]abc".encode(), [], 0),
        ("both names", f"[{older_abc} 3]abc[{abc} 3]abc".encode(), [(older_abc, 49), (abc, 119)], None),
        ("another byte", f"[{older_abc} 3]abd[{abc} 3]abc".encode(), [(abc, 119)], 0),
    ]:
        blobs, first_broken = reference.salvage(whole)
        yield what, ([(one.ref, one.at) for one in blobs], first_broken), (found, broken)
    for text, moment in MOMENTS:
        yield f"the date {text}", reference.moment_of(text), moment
    test_case = reference.signature(b"Jefe", b"what do ya want for nothing?").hex()
    yield "case 2 of RFC 4231", test_case, "5bdcc146bf60754e6a042426089575c75a003f089d2739839dec58b964ec3843"
    yield "a keyring", reference.read_keyring(b"jefe 4a656665\n"), {b"jefe": b"Jefe"}
    yield from values_in_time()


MOMENTS = [
    ("2011-11-28T01:32:36.5+01:00", 1_322_440_356_500_000_000),
    ("1970-01-01T00:00:00Z", 0),
    ("0001-01-01T00:00:00Z", -62_135_596_800_000_000_000),
    ("9999-12-31T23:59:59.999999999Z", 253_402_300_799_999_999_999),
    ("0001-01-01T00:00:00+00:01", None),
    ("2011-02-29T00:00:00Z", None),
    ("2011-01-01T24:00:00Z", None),
    ("2011-01-01T00:00:00z", None),
]


def values_in_time():
    """A tag that is set on one day, deleted on the next and back on the third, searched for in between."""
    undone = delete(ref_of(DELETE), day(3))
    archive = reference.archive_of(pack(*EXAMPLE_BLOBS, DELETE, undone), KEYRING)
    for when, values in [
        ("2019-12-31T00:00:00Z", []),
        (day(1, "T12:00:00Z"), ["a"]),
        (day(2, "T12:00:00Z"), []),
        (day(3, "T12:00:00Z"), ["a"]),
    ]:
        yield f"the tag at {when}", archive.values(ref_of(NODE), "tag", reference.moment_of(when)), values
    yield "the tag always", archive.values(ref_of(NODE), "tag", reference.ALWAYS), ["a"]


# Packs

def damaged_packs():
    """A description of the fault of the pack, the pack, and whether the claim is found."""
    yield from junk_packs()
    yield from deleted_record_packs()
    yield from header_packs()
    yield from older_packs()
    yield from nested_packs()


def junk_packs():
    noise = harness.chance("noise")
    pieces = [b"x", b"[", b"[[", b"]", b"\0" * 300, b"[sha224-", b"[x-", header(CLAIM)[:-1], header(CLAIM), header(KEY) + b"["]
    pieces += [noise.randbytes(noise.randrange(1, 500)) for _ in range(20)]
    pieces += [record(CLAIM)[:-1], record(CLAIM)[1:], record(NODE)[:100], b"[x-0 9999]", b"[x-0 16777216]" + b"." * 5000]
    for number, piece in enumerate(pieces):
        for place in range(4):
            blobs = list(map(record, EXAMPLE_BLOBS))
            blobs.insert(place, piece)
            yield f"junk {number} at {place}", b"".join(blobs), True
    yield "nothing but junk", noise.randbytes(20_000), False
    yield "the same blob twice", EXAMPLE + EXAMPLE, True
    yield "a claim twice, damaged in front", BEFORE_CLAIM + record(CLAIM)[:-2] + record(CLAIM), True
    yield "a claim twice, damaged behind", EXAMPLE + record(CLAIM)[:-2], True


def deleted_record_packs():
    """A deleted record whose bytes have the claim: if it is read as one, the claim isn't found; if it is junk, it
    is."""
    body = record(CLAIM)
    for letters in range(1, 17):
        yield f"a deleted record of {letters} letters", BEFORE_CLAIM + deleted_record(body, letters, 1), False
    for zeros in range(1, 129):
        yield f"a deleted record of {zeros} zeros", BEFORE_CLAIM + deleted_record(body, 1 + zeros % 16, zeros), False
    for letters, zeros in [(17, 1), (16, 129), (17, 129), (0, 1), (1, 0), (1, 400), (400, 1)]:
        yield f"{letters} letters, {zeros} zeros", BEFORE_CLAIM + deleted_record(body, letters, zeros), True
    good = f"[xx-00 {len(body)}]"
    for bad in [
        good.replace("xx", "xX"),
        good.replace("xx", "XX"),
        good.replace("-", "--"),
        good.replace("-", ""),
        good.replace("00", "01"),
        good.replace("00", "0x"),
        good.replace(" ", "  "),
        good.replace(" ", "\t"),
        good.replace(" ", " 0"),
        good.replace(" ", " +"),
        good.replace("]", " ]"),
        good.replace("]", ""),
        good.replace("]", ")"),
        good.replace("[", "("),
        f"[xx-00 {len(body) + 1}]",
        "[xx-00 ]",
        "[xx-00 0]",
        "[xx-00 -1]",
        "[xx-00 16777217]",
        "[xx-00 99999999999999999999999999]",
        f"[xx-00 {2**32 + len(body)}]",
        f"[xx-00 {2**64 + len(body)}]",
    ]:
        yield f"the header {bad}", BEFORE_CLAIM + bad.encode() + body, True
    yield "a deleted record of no bytes", BEFORE_CLAIM + deleted_record(0) + body, True
    yield "a deleted record between records", BEFORE_CLAIM + deleted_record(77) + body + deleted_record(3), True
    yield "a torn deleted record that takes half the claim", BEFORE_CLAIM + b"[x-0 200]" + body, False
    yield "a deleted record of the greatest size", BEFORE_CLAIM + deleted_record(body.ljust(reference.LARGEST_BLOB)), False
    yield "a deleted record above it", BEFORE_CLAIM + deleted_record(body.ljust(reference.LARGEST_BLOB + 1)), True


def header_packs():
    """The claim after a header that isn't its own."""
    ref, size = ref_of(CLAIM), len(CLAIM)
    digits = ref.removeprefix("sha224-")
    for bad in [
        f"[{ref.upper()} {size}]",
        f"[sha224-{digits.upper()} {size}]",
        f"[{ref} 0{size}]",
        f"[{ref} 00{size}]",
        f"[{ref} +{size}]",
        f"[{ref} -{size}]",
        f"[{ref}  {size}]",
        f"[{ref}\t{size}]",
        f"[{ref}{size}]",
        f"[{ref} {size} ]",
        f"[ {ref} {size}]",
        f"[{ref} {size}",
        f"[{ref} ]",
        f"[{ref} {size - 1}]",
        f"[{ref} {size + 1}]",
        f"[{ref} {2**32 + size}]",
        f"[{ref} {2**64 + size}]",
        f"[{ref} 16777217]",
        f"({ref} {size}]",
        f"[{ref} {size})",
        f"[sha224-{digits[:-1]} {size}]",
        f"[sha224-{digits}0 {size}]",
        f"[sha224_{digits} {size}]",
        f"[sha1-{digits} {size}]",
        f"[sha256-{digits} {size}]",
        f"[{ref_of(NODE)} {size}]",
    ]:
        yield f"the header {bad}", BEFORE_CLAIM + bad.encode() + CLAIM, False
        yield f"the header {bad} in front of a record", BEFORE_CLAIM + bad.encode() + record(CLAIM), True


def older_packs():
    """Blobs under the names that older stores give them."""
    older = record(CLAIM, older_ref_of)
    yield "the claim under its older name", BEFORE_CLAIM + older, True
    yield "the claim under both names", BEFORE_CLAIM + older + record(CLAIM), True
    yield "the claim under both names, the newer one torn", BEFORE_CLAIM + older + record(CLAIM)[:-1], True
    yield "the claim under both names, the older one torn", BEFORE_CLAIM + older[:-1] + record(CLAIM), True
    yield "the claim under its older name, torn", BEFORE_CLAIM + older[:-1], False
    yield "another blob under the claim's older name", BEFORE_CLAIM + older[:-1] + b" ", False
    yield "the claim's record under its older name", BEFORE_CLAIM + record(record(CLAIM), older_ref_of), False
    yield "the claim's older record", BEFORE_CLAIM + record(older), False
    yield "the key and the permanode under their older names", pack(KEY, NODE, name_of=older_ref_of) + record(CLAIM), False
    yield "the older names behind the others", EXAMPLE + pack(*EXAMPLE_BLOBS, name_of=older_ref_of), True
    yield "the older names before the others", pack(*EXAMPLE_BLOBS, name_of=older_ref_of) + EXAMPLE, True
    yield "a deleted older record", BEFORE_CLAIM + deleted_record(older, 4, 40), False
    yield from older_header_packs(older)


def older_header_packs(older):
    """The claim after an older header that isn't its own."""
    ref, size = older_ref_of(CLAIM), len(CLAIM)
    digits = ref.removeprefix("sha1-")
    for bad in [
        f"[{ref.upper()} {size}]",
        f"[sha1-{digits.upper()} {size}]",
        f"[sha1-{digits[:-1]} {size}]",
        f"[sha1-{digits}0 {size}]",
        f"[sha1-{digits}{'0' * 16} {size}]",
        f"[sha1_{digits} {size}]",
        f"[sha1{digits} {size}]",
        f"[sha-{digits} {size}]",
        f"[sha2-{digits} {size}]",
        f"[sha224-{digits} {size}]",
        f"[sha1-{ref_of(CLAIM)[7:47]} {size}]",
        f"[{ref} 0{size}]",
        f"[{ref}  {size}]",
        f"[{ref}{size}]",
        f"[{ref} {size}",
        f"[{ref} {size - 1}]",
        f"[{ref} {size + 1}]",
        f"[{ref} 16777217]",
        f"[{older_ref_of(NODE)} {size}]",
    ]:
        yield f"the older header {bad}", BEFORE_CLAIM + bad.encode() + CLAIM, False
        yield f"the older header {bad} in front of a record", BEFORE_CLAIM + bad.encode() + older, True


def nested_packs():
    """A record that has the claim's record in it: only the outer one is found, unless it is damaged."""
    inner = record(CLAIM)
    outer = record(inner)
    yield "a record within a record", BEFORE_CLAIM + outer, False
    yield "a record within a damaged one", BEFORE_CLAIM + b"(" + outer[1:], True
    yield "a record within a torn one", BEFORE_CLAIM + record(inner + b"..")[:-1], True
    yield "a record within one of another ref", BEFORE_CLAIM + record(inner + b"?")[:-1] + b"!", True
    yield "the parts of the example within a record", record(EXAMPLE), False
    yield "a blob of the greatest size", BEFORE_CLAIM + record(inner.ljust(reference.LARGEST_BLOB)), False
    yield "a blob above it", BEFORE_CLAIM + record(inner.ljust(reference.LARGEST_BLOB + 1)), True
    yield "the empty blob", BEFORE_CLAIM + record(b"") + inner, True


# JSON

# Members, one of which is added to the claim, and whether the claim is still read.
MEMBERS = [
    # Numbers.
    ('"n":0', True),
    ('"n":-0', True),
    ('"n":18446744073709551615', True),
    ('"n":18446744073709551616', True),
    ('"n":1e308', True),
    ('"n":-1E+308', True),
    ('"n":1e-400', True),
    ('"n":0e400', True),
    ('"n":0.5', True),
    ('"n":' + "1" * 300, True),
    ('"n":1e309', False),
    ('"n":-1e309', False),
    ('"n":1e400', False),
    ('"n":' + "1" * 400, False),
    ('"n":1e99999999999999999999', False),
    ('"n":01', False),
    ('"n":-', False),
    ('"n":--1', False),
    ('"n":+1', False),
    ('"n":.5', False),
    ('"n":5.', False),
    ('"n":1e', False),
    ('"n":1e+', False),
    ('"n":0x1', False),
    ('"n":1_000', False),
    ('"n":NaN', False),
    ('"n":Infinity', False),
    ('"n":-Infinity', False),
    # Strings.
    ('"n":"\\ud83d\\ude00"', True),
    ('"n":"\\u0000"', True),
    ('"n":"\\"\\\\\\/\\b\\f\\n\\r\\t"', True),
    ('"n":"\x7f"', True),
    ('"n":"\u00e4\u20ac\U0001f600"', True),
    ('"":""', True),
    ('"\\ud800":0', False),
    ('"n":"\\ud800"', False),
    ('"n":"\\udc00"', False),
    ('"n":"\\ude00\\ud83d"', False),
    ('"n":"\\ud800\\ud800"', False),
    ('"n":"\\ud800x"', False),
    ('"n":"\\ud800\\n"', False),
    ('"n":"\\u12"', False),
    ('"n":"\\u12g4"', False),
    ('"n":"\\U0041"', False),
    ('"n":"\\x41"', False),
    ('"n":"\\\'"', False),
    ('"n":"\t"', False),
    ('"n":"\n"', False),
    ('"n":"\0"', False),
    ('"n":"\x1f"', False),
    ('"n":"', False),
    (b'"n":"\xff"', False),
    (b'"n":"\xc0\x80"', False),
    (b'"n":"\xed\xa0\x80"', False),
    (b'"n":"\xf4\x90\x80\x80"', False),
    (b'"n":"\xe2\x82"', False),
    # Literals, arrays and objects.
    ('"n":true', True),
    ('"n":null', True),
    ('"n":[]', True),
    ('"n":{}', True),
    ('"n":[1,[2,{"a":[]}],"]"]', True),
    ('"n":{"a":1,"a":{}}', True),
    ('"n":True', False),
    ('"n":nul', False),
    ('"n":nulll', False),
    ('"n":undefined', False),
    ('"n":', False),
    ('"n"', False),
    ('n:1', False),
    ("'n':1", False),
    ('1:1', False),
    ('"n":[1,]', False),
    ('"n":[,1]', False),
    ('"n":[1 2]', False),
    ('"n":[1', False),
    ('"n":[1}', False),
    ('"n":{"a":1,}', False),
    ('"n":{"a"}', False),
    ('"n":{"a":1 "b":2}', False),
    ('"n":{a:1}', False),
    ('"n"=1', False),
    ('"n":1,', False),
    (',"n":1', False),
    ('/**/"n":1', False),
    ('"n":1//', False),
    # White space.
    (' \t\n\r"n" \t\n\r:\t1\n', True),
    ('"n":\x0b1', False),
    ('"n":\x0c1', False),
    ('"n":\u00a01', False),
    ('"n":\u20281', False),
    ('"n":\0', False),
    # Nesting: the claim's own object is one level.
    ('"n":' + "[" * 126 + "]" * 126, True),
    ('"n":' + "[" * 127 + "]" * 127, False),
    ('"n":' + '{"n":' * 126 + "0" + "}" * 126, True),
    ('"n":' + '{"n":' * 127 + "0" + "}" * 127, False),
    ('"n":' + '[{"n":' * 63 + "0" + "}]" * 63, True),
    ('"n":' + '[{"n":' * 63 + "[]" + "}]" * 63, False),
    ('"n":' + "[" * 100_000 + "]" * 100_000, False),
    ('"n":' + "[" * 100_000, False),
    ('"n":[' + "[]," * 1000 + "[]]", True),
    # Keys that come twice: the last one counts.
    ('"value":"b"', False),
    ('"attribute":"other"', False),
    ('"camliVersion":2', False),
    ('"camliVersion":1', True),
    ('"camliType":"permanode"', False),
    ('"camliType":"claim"', True),
    ('"claimType":"delete"', False),
    ('"permaNode":"x"', False),
    (f'"camliSigner":"{ABSENT}"', False),
    ('"claimDate":"today"', False),
    ('"camli\\u0056ersion":2', False),
    ('"\\u0063amliVersion":1', True),
    ('"unknown":1', True),
]

# Text after the digits of the signature, and whether the claim is still read.
ENDS = [
    (b'"}\n', True),
    (b'"} \t\r\n', True),
    (b'"}', True),
    (b'" }', True),
    (b'"\n}\n\n\t \r\n', True),
    (b'"}x', False),
    (b'"}}', False),
    (b'"},', False),
    (b'"}{}', False),
    (b'"} 1', False),
    (b'"}\0', False),
    (b'"}\x0c', False),
    (b'"', False),
    (b'}', False),
    (b'","n":1}', False),
    (b'","camliSigner":"x"}', False),
    (b'",}', False),
    (b'"]', False),
]

# A place of the claim's payload, its replacement, and whether it is still a claim on the permanode's tag.
CHANGES = [
    ('"camliVersion":1', '"camliVersion":1.0', False),
    ('"camliVersion":1', '"camliVersion":1e0', False),
    ('"camliVersion":1', '"camliVersion":-1', False),
    ('"camliVersion":1', '"camliVersion":2', False),
    ('"camliVersion":1', '"camliVersion":0', False),
    ('"camliVersion":1', '"camliVersion":01', False),
    ('"camliVersion":1', '"camliVersion":"1"', False),
    ('"camliVersion":1', '"camliVersion":true', False),
    ('"camliVersion":1', '"camliVersion":null', False),
    ('"camliVersion":1', '"camliVersion":[1]', False),
    ('"camliVersion":1', '"camliVersion":18446744073709551617', False),
    ('"camliVersion":1', '"camliVersion":2,"camliVersion":1', True),
    ('"camliVersion":1,', "", False),
    ('"camliVersion"', '"camliversion"', False),
    ('"camliVersion"', '"camli\\u0056ersion"', True),
    ('"claim"', '"clai\\u006d"', True),
    ('"claim"', '"Claim"', False),
    ('"claim"', '"claim "', False),
    ('"claim"', '"permanode"', False),
    ('"claim"', '"other"', False),
    ('"claim"', "1", False),
    ('"claim"', "null", False),
    ('"camliType":"claim",', "", False),
    (f'"{ref_of(KEY)}"', "null", False),
    (f'"{ref_of(KEY)}"', f'["{ref_of(KEY)}"]', False),
    (f'"{ref_of(KEY)}"', f'"{ref_of(KEY)} "', False),
    (f'"{ref_of(KEY)}"', f'"{ref_of(KEY).upper()}"', False),
    (f'"{ref_of(KEY)}"', f'"{ref_of(KEY)[:-1]}"', False),
    (f'"{ref_of(KEY)}"', f'"\\u0073{ref_of(KEY)[1:]}"', True),
    (f'"{ref_of(KEY)}"', f'"{ref_of(NODE)}"', False),
    (f'"{ref_of(KEY)}"', f'"{ABSENT}"', False),
    (f'"camliSigner":"{ref_of(KEY)}",', "", False),
    (f'"claimDate":"{DATE}",', "", False),
    (f'"claimDate":"{DATE}"', '"claimDate":null', False),
    (f'"claimDate":"{DATE}"', '"claimDate":1577836800', False),
    (f'"claimDate":"{DATE}"', f'"claimDate":"{DATE.replace("T", chr(92) + "u0054")}"', True),
    ('"set-attribute"', '"add-attribute"', True),
    ('"set-attribute"', '"del-attribute"', False),
    ('"set-attribute"', '"multi"', False),
    ('"set-attribute"', '"Set-attribute"', False),
    ('"set-attribute"', "null", False),
    ('"claimType":"set-attribute",', "", False),
    (f'"permaNode":"{ref_of(NODE)}",', "", False),
    (f'"permaNode":"{ref_of(NODE)}"', '"permaNode":null', False),
    (f'"permaNode":"{ref_of(NODE)}"', f'"permanode":"{ref_of(NODE)}"', False),
    (f'"permaNode":"{ref_of(NODE)}"', f'"permaNode":"{ref_of(NODE)[7:]}"', False),
    ('"attribute":"tag"', '"attribute":""', False),
    ('"attribute":"tag"', '"attribute":null', False),
    ('"attribute":"tag"', '"attribute":"Tag"', False),
    ('"attribute":"tag"', '"attribute":"tag\\u0000"', False),
    ('"attribute":"tag"', '"attribute":"\\u0074ag"', True),
    ('"attribute":"tag",', "", False),
    ('"value":"a"', '"value":null', False),
    ('"value":"a"', '"value":1', False),
    ('"value":"a"', '"value":["a"]', False),
    ('"value":"a"', '"value":"A"', False),
    ('"value":"a"', '"value":"\\u0061"', True),
    ('"value":"a"', '"value":"b","value":"a"', True),
    (',"value":"a"', "", False),
    ('{"camliVersion"', ' \n{"camliVersion"', True),
    ('{"camliVersion"', '\ufeff{"camliVersion"', False),
    ('{"camliVersion"', '[{"camliVersion"', False),
    ('{"camliVersion"', '{{"camliVersion"', False),
    ('{"camliVersion"', '"camliVersion"', False),
    ('{"camliVersion"', '\0{"camliVersion"', False),
]

# Texts of the claim's value, and the words that find it.
VALUES = [
    ("\\ud83d\\ude00", "\U0001f600"),
    ("\U0001f600", "\U0001f600"),
    ("\\u00e4", "\u00e4"),
    ("\u00e4", "\u00e4"),
    ("\\u00E4", "\u00e4"),
    ("\\/", "/"),
    ("\\\\", "\\"),
    ("\\\"", '"'),
    ("\\n\\t\\r\\b\\f", "\n\t\r\b\f"),
    ("\\u001f", "\x1f"),
    ("\x7f", "\x7f"),
    ("\\ufffd\\uffff", "\ufffd\uffff"),
    ("\\ud7ff\\ue000", "\ud7ff\ue000"),
    ("\\udbff\\udfff", "\U0010ffff"),
    ("", ""),
    (" a", " a"),
]
NO_VALUES = [
    ("a", "\u00e4"),
    ("a\u0308", "\u00e4"),
    ("\u00e4", "a\u0308"),
    ("a ", "a"),
    ("aa", "a"),
    ("a\\u0000", "a"),
    ("", "a"),
]


def json_texts():
    """A description of the change, the pack, the value to search for, and whether it is found."""
    for member, reads in MEMBERS:
        yield f"the member {writing.octets(member)[:60]}", with_member(member), "a", reads
    payload = PAYLOAD.encode()
    digits = reference.signature(SECRET, payload).hex().encode()
    for end, reads in ENDS:
        yield f"the end {end}", with_claim(payload + MARKER + digits + end), "a", reads
    for old, new, reads in CHANGES:
        yield f"{old} made {new}", with_claim_changed(old, new), "a", reads
    for written, value in VALUES:
        yield f"the value {written}", with_claim_changed('"value":"a"', f'"value":"{written}"'), value, True
    for written, value in NO_VALUES:
        yield f"the value {written} is not {value}", with_claim_changed('"value":"a"', f'"value":"{written}"'), value, False


# Facts

def fact_packs():
    """A description of the blobs, the pack, and whether the tag is found."""
    yield from signed_blobs()
    yield from permanodes()
    yield from long_blobs()
    for what, blob in file_blobs():
        yield what, pack(blob, *EXAMPLE_BLOBS), True
        # Such a blob signs nothing, and a claim that deletes it means nothing.
        ref = ref_of(blob)
        by_it = claim("set", ref_of(NODE), "tag", "a", DATE, signer=ref)
        yield f"{what}, as a signer", with_claim(blob, by_it), False
        yield f"{what}, deleted", EXAMPLE + pack(delete(ref, day(2)), blob), True
    yield "all of these at once", EXAMPLE + pack(*(blob for _, blob in file_blobs())), True


def signed_blobs():
    """Claims that are signed in other ways than the usual one, or aren't."""
    payload = PAYLOAD.encode()
    sig = reference.signature(SECRET, payload).hex()
    written = [
        ("63 digits", sig[:-1], False),
        ("65 digits", sig + "0", False),
        ("no digits", "", False),
        ("upper-case digits", sig.upper(), False),
        ("a letter that is no digit", "g" + sig[1:], False),
        ("another digit", sig[:-1] + ("0" if sig[-1] != "0" else "1"), False),
        ("an escaped digit", f"\\u00{ord(sig[0]):02x}" + sig[1:], True),
        ("a space in front", " " + sig, False),
        ("zeros", "0" * 64, False),
    ]
    for what, digits, reads in written:
        yield f"a signature of {what}", with_claim(payload + MARKER + digits.encode() + b'"}\n'), reads
    yield "no signature", with_claim(payload + b"}\n"), False
    yield "a signature that is no text", with_claim(payload + b',"camliSig":0}\n'), False
    yield "a space before the signature", with_claim(payload + b',"camliSig": "' + sig.encode() + b'"}\n'), False
    yield "a space before the key of the signature", with_claim(payload + b', "camliSig":"' + sig.encode() + b'"}\n'), False
    yield "the signature in front", with_claim(b'{"camliSig":"' + sig.encode() + b'",' + payload[1:] + b"}\n"), False
    yield "the marker in a nested object", with_member('"note":{"a":1,"camliSig":"zz"}'), True
    yield "the marker twice", with_member('"camliSig":"zz"'), True
    nested = payload + b',"note":{"a":1'
    yield "signed in a nested object", with_claim(nested + MARKER + sig.encode() + b'"}}\n'), False
    two = b'","camliSig" :"' + sig.encode() + b'"}\n'
    yield "the key of the signature twice behind the marker", with_claim(payload + MARKER + b"zz" + two), True
    yield "the first of two signatures", with_claim(payload + MARKER + sig.encode() + b'","camliSig" :"zz"}\n'), False
    last = b'","n":1' + MARKER + b'zz"}\n'
    yield "the first marker counts for nothing", with_claim(payload + MARKER + sig.encode() + last), False
    yield "the payload with its brace signed", with_claim(payload + MARKER + signature_of(payload + b"}") + b'"}\n'), False
    yield "the payload with its comma signed", with_claim(payload + MARKER + signature_of(payload + b",") + b'"}\n'), False
    yield "signed with another secret", with_claim(signed(PAYLOAD, OTHER_SECRET)), False
    yield "signed with an empty secret", with_claim(signed(PAYLOAD, b"")), False
    yield "signed with the name", with_claim(signed(PAYLOAD, b"jefe")), False
    first, rest = payload[1:].split(b",", 1)
    yield "the keys in another order", with_claim(signed(b"{" + rest + b"," + first)), True
    yield "white space in the payload", with_claim(signed(payload.replace(b",", b" ,\n\t").replace(b":\"", b" : \""))), True


def signature_of(payload):
    return reference.signature(SECRET, payload).hex().encode()


def permanodes():
    """Permanodes in other forms than the written one, each with its tag."""
    plain = permanode_payload()
    member = f',"random":"{writing.RANDOM}"'
    forms = [
        ("no random", changed(plain, member, ""), True),
        ("a key and no random", changed(plain, member, ',"key":"x"'), True),
        ("an unknown key", plain + ',"unknown":[1.5,null]', True),
        ("a nested marker", plain + ',"note":{"a":1,"camliSig":"zz"}', True),
        ("fields of a claim", plain + f',"claimDate":"x","claimType":"delete","target":"{ABSENT}"', True),
        ("version 1.0", changed(plain, '"camliVersion":1', '"camliVersion":1.0'), False),
        ("version 2", changed(plain, '"camliVersion":1', '"camliVersion":2'), False),
        ("no version", changed(plain, '"camliVersion":1,', ""), False),
        ("another type", changed(plain, '"permanode"', '"claim"'), False),
        ("a type in upper case", changed(plain, '"permanode"', '"Permanode"'), False),
        ("no signer", changed(plain, f'"camliSigner":"{ref_of(KEY)}",', ""), False),
        ("a signer that isn't there", changed(plain, ref_of(KEY), ABSENT), False),
        ("a number beyond the floats", plain + ',"n":1e400', False),
        ("a nesting that is too deep", plain + ',"n":' + "[" * 127 + "]" * 127, False),
    ]
    for what, payload, reads in forms:
        yield f"a permanode with {what}", *tagged(signed(payload), reads)
    yield "an unsigned permanode", *tagged(plain.encode() + b"}\n", False)
    yield "a permanode with a false signature", *tagged(signed(plain, OTHER_SECRET), False)
    yield "a permanode with the marker alone", *tagged(plain.encode() + MARKER + b'"}\n', False)
    behind = changed(signed(plain), b'"}\n', b'","a":1}\n')
    yield "a permanode with a key behind its signature", *tagged(behind, False)


def tagged(node, is_found):
    """A pack with another permanode and its tag, and the search results."""
    return pack(KEY, node, claim("set", ref_of(node), "tag", "a", DATE)), [ref_of(node)] if is_found else []


def long_blobs():
    """The claim with padding, at the length above which a blob isn't read, and one byte more."""
    bare = len(signed(PAYLOAD + ',"pad":""'))
    for length in (reference.LARGEST_SCHEMA_BLOB - 1, reference.LARGEST_SCHEMA_BLOB, reference.LARGEST_SCHEMA_BLOB + 1):
        blob = signed(PAYLOAD + f',"pad":"{"." * (length - bare)}"')
        assert len(blob) == length
        yield f"a claim of {length} bytes", with_claim(blob), length <= reference.LARGEST_SCHEMA_BLOB
        spaced = CLAIM + b" " * (length - len(CLAIM))
        yield f"a claim of {length} bytes with white space", with_claim(spaced), length <= reference.LARGEST_SCHEMA_BLOB


def file_blobs():
    """Files, bytes, directories and sets, and similar blobs that are none. None of them changes an answer."""
    most = reference.MOST_BYTES_OF_A_FILE
    key_ref, node_ref = ref_of(KEY), ref_of(NODE)
    part = writing.part
    part_lists = [
        ("no part", []),
        ("zeros", [part(5)]),
        ("a blob", [part(3, key_ref)]),
        ("a tree with an offset", [part(3, node_ref, "bytesRef", 2)]),
        ("a part of an absent blob", [part(3, ABSENT)]),
        ("the greatest size", [part(most)]),
        ("the greatest offset", [part(0, key_ref, offset=most)]),
        ("a size above it", [part(most + 1)]),
        ("an offset above it", [part(0, key_ref, offset=most + 1)]),
        ("a sum above it", [part(most), part(1)]),
        ("a sum beyond 64 bits", [part(2**64 - 1), part(2)]),
        ("sums of 65536 parts", [part(2**48)] * 65536),
        ("two refs in one part", [f'{{"blobRef":"{key_ref}","bytesRef":"{node_ref}","size":1}}']),
        ("a null ref", ['{"blobRef":null,"size":1}']),
        ("a ref that is none", ['{"blobRef":"sha224-00","size":1}']),
        ("a null offset", ['{"size":1,"offset":null}']),
        ("a size of 1.0", ['{"size":1.0}']),
        ("a size of -0", ['{"size":-0}']),
        ("a negative size", ['{"size":-1}']),
        ("a size beyond 64 bits", ['{"size":18446744073709551616}']),
        ("no size", ["{}"]),
        ("a part that is no object", ["7"]),
        ("a part that is an array", ["[]"]),
    ]
    for what, parts in part_lists:
        yield f"a file with {what}", writing.file_blob("n.txt", parts)
        yield f"bytes with {what}", writing.bytes_blob(parts)
    file = writing.file_blob("n.txt", []).decode()
    folder = writing.directory("d", key_ref).decode()
    members = writing.static_set([key_ref, ABSENT]).decode()
    texts = [
        ("a file without a name", changed(file, '"fileName":"n.txt",', "")),
        ("a file whose name is null", changed(file, '"n.txt"', "null")),
        ("a file whose name is bytes", changed(file, '"fileName":"n.txt"', '"fileNameBytes":[110]')),
        ("a file without parts", changed(file, ',"parts":[]', "")),
        ("a file whose parts are null", changed(file, "[]", "null")),
        ("a file whose parts are an object", changed(file, "[]", "{}")),
        ("a directory", folder),
        ("a directory without a name", changed(folder, '"fileName":"d",', "")),
        ("a directory whose name is a number", changed(folder, '"d"', "1")),
        ("a directory without entries", changed(folder, f',"entries":"{key_ref}"', "")),
        ("a directory of entries that are no ref", changed(folder, key_ref, "x")),
        ("a set", members),
        ("an empty set", changed(members, f'"{key_ref}","{ABSENT}"', "")),
        ("a set with mergeSets", changed(members, "]}", '],"mergeSets":[]}')),
        ("a set whose mergeSets is null", changed(members, "]}", '],"mergeSets":null}')),
        ("a set with a member that is no ref", changed(members, f'"{ABSENT}"', "1")),
        ("a set without members", changed(members, f',"members":["{key_ref}","{ABSENT}"]', "")),
        ("a symlink", '{"camliVersion":1,"camliType":"symlink","symlinkTarget":"x"}'),
        ("an empty type", '{"camliVersion":1,"camliType":""}'),
        ("no type", '{"camliVersion":1}'),
        ("no version", '{"camliType":"file"}'),
        ("an array", "[]"),
        ("a text", '"x"'),
        ("a number", "1"),
        ("null", "null"),
        ("an empty text", ""),
        ("an object", "{}"),
        ("half an object", "{"),
        ("a file that names itself a key", changed(file, '"n.txt"', '"perkeep-hmac-sha256 jefe\\n"')),
    ]
    for what, text in texts:
        yield what, text.encode()


# Dates

# Texts, and whether they are dates.
DATES = [
    ("2011-11-28T01:32:36.5+01:00", True),
    ("1970-01-01T00:00:00Z", True),
    ("0001-01-01T00:00:00Z", True),
    ("0001-01-01T00:00:00-00:01", True),
    ("0001-01-01T00:01:00+00:01", True),
    ("9999-12-31T23:59:59Z", True),
    ("9999-12-31T23:59:59.999999999Z", True),
    ("9999-12-31T23:59:59.999999999+00:01", True),
    ("2000-02-29T00:00:00Z", True),
    ("2012-02-29T00:00:00Z", True),
    ("2011-01-31T00:00:00.000000000Z", True),
    ("2011-04-30T23:59:59.1-23:59", True),
    ("2011-04-30T23:59:59+23:59", True),
    ("2011-04-30T23:59:59-00:00", True),
    ("2011-04-30T23:59:59+00:00", True),
    ("0001-01-01T00:00:00+00:01", False),
    ("0001-01-01T00:00:59.999999999+00:01", False),
    ("9999-12-31T23:59:00-00:01", False),
    ("9999-12-31T23:59:59.999999999-00:01", False),
    ("0000-12-31T23:59:59Z", False),
    ("0000-12-31T23:59:59-23:59", False),
    ("10000-01-01T00:00:00Z", False),
    ("2011-02-29T00:00:00Z", False),
    ("1900-02-29T00:00:00Z", False),
    ("2100-02-29T00:00:00Z", False),
    ("2011-00-01T00:00:00Z", False),
    ("2011-13-01T00:00:00Z", False),
    ("2011-01-00T00:00:00Z", False),
    ("2011-01-32T00:00:00Z", False),
    ("2011-04-31T00:00:00Z", False),
    ("2020-02-30T00:00:00Z", False),
    ("2011-01-01T24:00:00Z", False),
    ("2011-01-01T00:60:00Z", False),
    ("2011-01-01T00:00:60Z", False),
    ("2016-12-31T23:59:60Z", False),
    ("2011-01-01T00:00:00+24:00", False),
    ("2011-01-01T00:00:00+00:60", False),
    ("2011-01-01T00:00:00z", False),
    ("2011-01-01t00:00:00Z", False),
    ("2011-01-01 00:00:00Z", False),
    ("2011-01-01T00:00:00", False),
    ("2011-01-01T00:00Z", False),
    ("2011-01-01", False),
    ("", False),
    ("2011-01-01T00:00:00.Z", False),
    ("2011-01-01T00:00:00.0000000000Z", False),
    ("2011-01-01T00:00:00,5Z", False),
    ("2011-01-01T00:00:00.5", False),
    ("2011-01-01T00:00:00.-5Z", False),
    ("2011-01-01T00:00:00+0100", False),
    ("2011-01-01T00:00:00+01", False),
    ("2011-01-01T00:00:00+1:00", False),
    ("2011-01-01T00:00:00 01:00", False),
    ("2011-01-01T00:00:00Z ", False),
    (" 2011-01-01T00:00:00Z", False),
    ("2011-01-01T00:00:00ZZ", False),
    ("2011-01-01T00:00:00Z+01:00", False),
    ("2011-1-01T00:00:00Z", False),
    ("2011-01-1T00:00:00Z", False),
    ("+2011-01-01T00:00:00Z", False),
    ("-2011-01-01T00:00:00Z", False),
    ("2011/01/01T00:00:00Z", False),
    ("2011-01-01T00.00.00Z", False),
    ("\uff12\uff10\uff11\uff11-01-01T00:00:00Z", False),
    ("2011-01-01T00:00:0\u0660Z", False),
    ("2011-01-01T00:00:00\u2212" + "01:00", False),
]


# Keys

def key_packs():
    """A description of the key blob, the pack, the keyring and the search results."""
    long_name = "k" * 64
    ring = KEYRING + keyring_line(long_name) + keyring_line("a-0") + keyring_line("-") + keyring_line("0")
    prefix = b"perkeep-hmac-sha256 "
    blobs = [
        ("a key", key_blob(), True),
        ("a key of a long name", key_blob(long_name), True),
        ("a key with a line and a digit", key_blob("a-0"), True),
        ("a key named -", key_blob("-"), True),
        ("a key named 0", key_blob("0"), True),
        ("a key that isn't in the keyring", key_blob("lost"), False),
        ("a key that begins like one", key_blob("jef"), False),
        ("a key of 65 letters", key_blob("k" * 65), False),
        ("a key without a name", key_blob(""), False),
        ("a key in upper case", key_blob("Jefe"), False),
        ("a key with an underscore", key_blob("a_0"), False),
        ("no line feed", prefix + b"jefe", False),
        ("two line feeds", prefix + b"jefe\n\n", False),
        ("a carriage return", prefix + b"jefe\r\n", False),
        ("a space in front", b" " + key_blob(), False),
        ("a space behind the name", prefix + b"jefe \n", False),
        ("two spaces", prefix + b" jefe\n", False),
        ("a tab", b"perkeep-hmac-sha256\tjefe\n", False),
        ("another scheme", b"perkeep-hmac-sha224 jefe\n", False),
        ("a scheme in upper case", b"Perkeep-hmac-sha256 jefe\n", False),
        ("another line", key_blob() + b"x", False),
        ("two keys", key_blob() + key_blob("other"), False),
        ("nothing", b"", False),
    ]
    for what, blob, is_key in blobs:
        yield what, *tagged_by(blob, SECRET, is_key), ring
    for length in (1, 31, 32, 63, 64, 65, 127, 128):
        secret = bytes((7 * place + length) % 256 for place in range(length))
        line = keyring_line("jefe", secret)
        yield f"a secret of {length} bytes", *tagged_by(KEY, secret, True), line
        yield f"another secret of {length} bytes", *tagged_by(KEY, secret[:-1] + b"!", False), line
    # Short secrets are filled up with zeros, and long ones are hashed.
    yield "a secret with a zero behind it", *tagged_by(KEY, b"ab", True), keyring_line("jefe", b"ab\0")
    for length in (64, 65):
        secret = b"s" * length
        hashed = hashlib.sha256(secret).digest()
        yield f"the hash of a secret of {length} bytes", *tagged_by(KEY, hashed, length > 64), keyring_line("jefe", secret)


def tagged_by(key, secret, is_found):
    """A pack with a key, and a permanode and its tag that are signed with a secret, and the search results."""
    signer = ref_of(key)
    node = permanode(signer=signer, secret=secret)
    found = [ref_of(node)] if is_found else []
    return pack(key, node, claim("set", ref_of(node), "tag", "a", DATE, signer, secret)), found


# Claims

def claim_packs():
    """A description of the claims, all blobs of the pack, and for each value whether the permanode has it in `tag`."""
    for what, claims, expected in claim_lists():
        yield what, [*claims, NODE, KEY], expected
        yield f"{what}, the other way round", [KEY, NODE, *reversed(claims)], expected
    yield from other_targets()
    yield from several_permanodes()


def on_tag(kind, value, date, signer=ref_of(KEY), secret=SECRET):
    return claim(kind, ref_of(NODE), "tag", value, date, signer, secret)


def later_of(*claims):
    """The claim that comes last of some with one date: that of the greatest ref."""
    return max(claims, key=ref_of)


def value_of(blob):
    [change] = reference.fact_of(blob).changes
    return change.value


def claim_lists():
    yield from attribute_claims()
    yield from several_changes()
    yield from lists_of_changes()
    yield from claims_in_time()
    yield from delete_claims()
    yield from signers()


def attribute_claims():
    u, v = "u", "v"
    d1, d2, d3, d4 = (day(number) for number in (1, 2, 3, 4))
    yield "no claim", [], {u: False, "": False}
    yield "set", [on_tag("set", u, d1)], {u: True, v: False, "": False}
    yield "set twice", [on_tag("set", u, d1), on_tag("set", v, d2)], {u: False, v: True}
    yield "set of the empty value", [on_tag("set", u, d1), on_tag("set", "", d2)], {u: False, "": True}
    yield "add", [on_tag("add", u, d1)], {u: True}
    no_texts = [("no value", ""), ("null", ',"value":null'), ("a number", ',"value":7'), ("a list", f',"value":["{v}"]')]
    for kind in ("set", "add"):
        for what, value in no_texts:
            payload = changed(attribute_payload(kind, ref_of(NODE), "tag", v, d2), f',"value":"{v}"', value)
            yield f"{kind} of {what}", [on_tag("set", u, d1), signed(payload)], {u: True, v: False, "": False, "7": False}
    yield "add twice", [on_tag("add", u, d1), on_tag("add", v, d2)], {u: True, v: True}
    yield "add of the empty value", [on_tag("add", u, d1), on_tag("add", "", d2)], {u: True, "": True}
    yield "set, then add", [on_tag("set", u, d1), on_tag("add", v, d2)], {u: True, v: True}
    yield "add, then set", [on_tag("add", u, d1), on_tag("set", v, d2)], {u: False, v: True}
    yield "an equal value added, then removed", [on_tag("add", u, d1), on_tag("add", u, d2), on_tag("del", u, d3)], {u: False}
    yield "one of two removed", [on_tag("add", u, d1), on_tag("add", v, d2), on_tag("del", u, d3)], {u: False, v: True}
    yield "another removed", [on_tag("add", u, d1), on_tag("del", v, d2)], {u: True, v: False}
    yield "all removed", [on_tag("add", u, d1), on_tag("add", v, d2), on_tag("del", "", d3)], {u: False, v: False}
    empty = signed(attribute_payload("del", ref_of(NODE), "tag", "", d3) + ',"value":""')
    yield "all removed by an empty value", [on_tag("add", u, d1), on_tag("add", "", d2), empty], {u: False, "": False}
    null = signed(attribute_payload("del", ref_of(NODE), "tag", "", d3) + ',"value":null')
    yield "nothing removed by null", [on_tag("add", u, d1), null], {u: True}
    number = signed(attribute_payload("del", ref_of(NODE), "tag", "", d3) + ',"value":0')
    yield "nothing removed by a number", [on_tag("add", "0", d1), number], {"0": True}
    yield "removed, then added", [on_tag("add", u, d1), on_tag("del", u, d2), on_tag("add", u, d3)], {u: True}
    yield "removed before it was added", [on_tag("del", u, d1), on_tag("add", u, d2)], {u: True}
    yield "set, removed, set", [on_tag("set", u, d1), on_tag("del", "", d2), on_tag("set", v, d3)], {u: False, v: True}
    yield "many", [on_tag("add", f"n{number}", day(1 + number)) for number in range(20)], {"n0": True, "n19": True, "n20": False}
    other = claim("del", ref_of(NODE), "other", "", d4)
    yield "another attribute removed", [on_tag("add", u, d1), other], {u: True}
    yield "another attribute set", [on_tag("add", u, d1), claim("set", ref_of(NODE), "other", v, d2)], {u: True, v: False}
    yield "an attribute in upper case", [claim("set", ref_of(NODE), "TAG", u, d1)], {u: False}


# Lists of changes

def change_text(kind="set", on=ref_of(NODE), attribute="tag", value="b"):
    return writing.change_text(kind, on, attribute, value)


CHANGE = change_text()
# A place of a change that sets `tag` to `b`, its replacement, and whether it still is a change; or the values that
# `tag` has then, if it had `a` before.
CHANGED_CHANGES = [
    ('"set-attribute"', '"add-attribute"', "ab"),
    ('"set-attribute"', '"del-attribute"', "a"),
    ('"set-attribute"', '"s\\u0065t-attribute"', True),
    ('"set-attribute"', '"delete"', False),
    ('"set-attribute"', '"multi"', False),
    ('"set-attribute"', '"set"', False),
    ('"set-attribute"', '"Set-attribute"', False),
    ('"set-attribute"', '"set-attribute "', False),
    ('"set-attribute"', '""', False),
    ('"set-attribute"', "null", False),
    ('"set-attribute"', "1", False),
    ('"set-attribute"', '["set-attribute"]', False),
    ('"changeType"', '"claimType"', False),
    ('"changeType"', '"changetype"', False),
    ('"changeType":"set-attribute",', "", False),
    (f'"permaNode":"{ref_of(NODE)}",', "", False),
    (f'"permaNode":"{ref_of(NODE)}"', '"permaNode":null', False),
    (f'"permaNode":"{ref_of(NODE)}"', '"permaNode":"x"', False),
    (f'"permaNode":"{ref_of(NODE)}"', f'"permaNode":"{ref_of(NODE).upper()}"', False),
    (f'"permaNode":"{ref_of(NODE)}"', f'"permaNode":"{ref_of(NODE)} "', False),
    (f'"permaNode":"{ref_of(NODE)}"', f'"permaNode":"{ref_of(NODE)[:-1]}"', False),
    (f'"permaNode":"{ref_of(NODE)}"', f'"permaNode":["{ref_of(NODE)}"]', False),
    (f'"permaNode":"{ref_of(NODE)}"', f'"permanode":"{ref_of(NODE)}"', False),
    (f'"permaNode":"{ref_of(NODE)}"', f'"target":"{ref_of(NODE)}"', False),
    (f'"permaNode":"{ref_of(NODE)}"', f'"permaNode":"{ABSENT}"', "a"),
    (f'"permaNode":"{ref_of(NODE)}"', f'"permaNode":"{OLDER_ABSENT}"', "a"),
    ('"attribute":"tag",', "", False),
    ('"attribute":"tag"', '"attribute":""', False),
    ('"attribute":"tag"', '"attribute":null', False),
    ('"attribute":"tag"', '"attribute":1', False),
    ('"attribute":"tag"', '"attribute":["tag"]', False),
    ('"attribute":"tag"', '"attribute":"Tag"', "a"),
    ('"attribute":"tag"', '"attribute":"\\u0074ag"', True),
    (',"value":"b"', "", False),
    ('"value":"b"', '"value":null', False),
    ('"value":"b"', '"value":1', False),
    ('"value":"b"', '"value":["b"]', False),
    ('"value":"b"', '"value":"a","value":"b"', True),
    ('"value":"b"', '"value":"b","value":null', False),
    ('"value":"b"', '"value":"\\u0062"', True),
    ('"value":"b"', '"value":"b","unknown":[null,{}]', True),
    ('"value":"b"', '"value":"b","claimType":"delete","claimDate":"x","target":1,"camliVersion":2', True),
    ('"value":"b"', '"value":"b","changes":[]', True),
    ('{"changeType"', ' {\n\t"changeType"', True),
    ("}", "} \r\n", True),
]
# The value of `changes`, and whether it is a list of changes, or the values of `tag`.
LISTS = [
    ("null", False),
    ("{}", False),
    ('""', False),
    ("1", False),
    ("true", False),
    ("[]", False),
    ("[ ]", False),
    (CHANGE, False),
    (f'{{"0":{CHANGE}}}', False),
    (f"[[{CHANGE}]]", False),
    (f"[{CHANGE},[]]", False),
    (f"[null,{CHANGE}]", False),
    (f"[{CHANGE},null]", False),
    (f"[{CHANGE},{{}}]", False),
    (f'[{CHANGE},"set-attribute"]', False),
    (f"[{CHANGE},0,{CHANGE}]", False),
    (f"[{CHANGE}]", True),
    (f"[{CHANGE},{CHANGE}]", True),
    (f" [ {CHANGE} ,\n{CHANGE}\t] ", True),
    (f'[{CHANGE},{change_text("add", value="c")}]', "bc"),
    (f'[{CHANGE},{change_text("del", value="a")}]', True),
    (f'[{CHANGE},{change_text("del", value="b")}]', ""),
    (f'[{CHANGE},{change_text("del", value="")}]', ""),
    (f'[{CHANGE},{change_text("del", value="")[:-1]},"value":""}}]', ""),
    (f'[{CHANGE},{change_text("del", value="")[:-1]},"value":null}}]', False),
    (f'[{CHANGE},{change_text("del", value="")[:-1]},"value":0}}]', False),
    (f'[{CHANGE},{change_text("del", attribute="other", value="")}]', True),
    (f'[{change_text("set", attribute="")},{CHANGE}]', False),
    ("[" + ",".join([CHANGE] * reference.MOST_CHANGES) + "]", True),
    ("[" + ",".join([CHANGE] * (reference.MOST_CHANGES + 1)) + "]", False),
]
LISTS += [(f"[{changed(CHANGE, old, new)}]", reads) for old, new, reads in CHANGED_CHANGES]
NO_CHANGES = [changed(CHANGE, old, new) for old, new, reads in CHANGED_CHANGES if reads is False]
LISTS += [(f'[{CHANGE},{change_text("add", value="c")},{bad}]', False) for bad in NO_CHANGES]


def values_of(reads):
    """The values of `tag` that a list of changes leaves if it had `a`."""
    return reads if isinstance(reads, str) else "b" if reads else "a"


def lists_of_changes():
    """A claim that sets `tag` to `a`, followed by one of a list."""
    before, head = on_tag("set", "a", day(1)), writing.claim_head(day(2)) + ',"claimType":"multi"'
    for text, reads in LISTS:
        later = signed(f'{head},"changes":{text}')
        yield f"the list {text[:90]}", [before, later], {value: value in values_of(reads) for value in "abc"}
    unnamed = [("no list", ""), ("another key", f',"change":[{CHANGE}]'), ("a change of the claim itself", "," + CHANGE[1:-1])]
    for what, rest in unnamed:
        yield f"a list: {what}", [before, signed(head + rest)], {"a": True, "b": False}
    twice = f',"changes":[],"changes":[{CHANGE}]'
    yield "two lists, of which the last counts", [before, signed(head + twice)], {"a": False, "b": True}
    odd = f',"changes":[{CHANGE}],"permaNode":null,"attribute":"","value":1,"target":2'
    yield "a list beside fields of other claims", [before, signed(head + odd)], {"a": False, "b": True}
    one = attribute_payload("set", ref_of(NODE), "tag", "c", day(2)) + f',"changes":[{CHANGE}]'
    yield "a claim of one change with a list", [before, signed(one)], {"a": False, "b": False, "c": True}
    gone = delete_payload(ref_of(before), day(2)) + f',"changes":[{CHANGE}]'
    yield "a deletion with a list", [before, signed(gone)], {"a": False, "b": False}


def tags(*changes, on=NODE):
    """Changes of the tags of a permanode, each given by its kind and its value."""
    return [(kind, ref_of(on), "tag", value) for kind, value in changes]


def several_changes():
    u, v, w = "u", "v", "w"
    d1, d2, d3, d4 = (day(number) for number in (1, 2, 3, 4))
    for what, changes, expected in [
        ("set twice", tags(("set", u), ("set", v)), {u: False, v: True}),
        ("added twice, removed, another added", tags(("add", u), ("add", u), ("del", u), ("add", v)), {u: False, v: True}),
        ("removed, then added", tags(("del", u), ("add", u)), {u: True}),
        ("all removed", tags(("add", u), ("add", v), ("del", "")), {u: False, v: False}),
        ("all removed, then added", tags(("add", u), ("del", ""), ("add", v)), {u: False, v: True}),
        ("the empty value", tags(("add", ""), ("add", u), ("del", u)), {"": True, u: False}),
        ("many", tags(*(("add", f"n{number}") for number in range(1_000))), {"n0": True, "n999": True, "n1000": False}),
        ("set many times", tags(*(("set", f"n{number}") for number in range(1_000))), {"n0": False, "n998": False, "n999": True}),
        ("too many", tags(*(("add", f"n{number}") for number in range(1_001))), {"n0": False, "n1000": False}),
        (
            "another attribute between",
            [*tags(("set", u)), ("set", ref_of(NODE), "other", v), *tags(("add", w))],
            {u: True, v: False, w: True},
        ),
        ("others between", [("set", ABSENT, "tag", v), *tags(("set", u)), ("del", ref_of(KEY), "tag", "")], {u: True, v: False}),
    ]:
        yield f"{what}, by one claim", [multi(changes, d1)], expected
    both, more = multi(tags(("set", u), ("add", v)), d2), on_tag("add", w, d3)
    yield "a claim behind it", [both, more], {u: True, v: True, w: True}
    yield "a claim before it", [on_tag("add", w, d1), both], {u: True, v: True, w: False}
    yield "another one behind it", [both, multi(tags(("del", u), ("add", w)), d3)], {u: False, v: True, w: True}
    gone = delete(ref_of(both), d3)
    yield "several changes deleted", [both, gone], {u: False, v: False}
    yield "several changes deleted and back", [both, gone, delete(ref_of(gone), d4)], {u: True, v: True}
    false = multi(tags(("set", u), ("add", v)), d2, secret=OTHER_SECRET)
    yield "several changes falsely signed", [on_tag("set", w, d1), false], {u: False, v: False, w: True}
    yield "several changes by a key that isn't there", [multi(tags(("set", u)), d2, ref_of(key_blob("lost")))], {u: False}
    for number in range(4):
        pair = [multi(tags(("set", f"u{number}"), ("add", "y")), d1), multi(tags(("set", f"v{number}"), ("add", "z")), d1)]
        is_first = later_of(*pair) == pair[0]
        expected = {f"u{number}": is_first, "y": is_first, f"v{number}": not is_first, "z": not is_first}
        yield f"two lists at one date {number}", pair, expected
        pair = [multi(tags(("set", f"u{number}"), ("add", "y")), d1), on_tag("set", "x", d1)]
        is_first = later_of(*pair) == pair[0]
        yield f"a list and a claim at one date {number}", pair, {f"u{number}": is_first, "y": is_first, "x": not is_first}


def claims_in_time():
    u, v = "u", "v"
    for number in range(4):
        pair = [on_tag("set", f"u{number}", DATE), on_tag("set", f"v{number}", DATE)]
        last = value_of(later_of(*pair))
        yield f"one date {number}", pair, {value_of(one): value_of(one) == last for one in pair}
        written = [on_tag("set", f"u{number}", day(1, "T12:00:00Z")), on_tag("set", f"v{number}", day(1, "T13:30:00.000+01:30"))]
        last = value_of(later_of(*written))
        yield f"one date, written twice {number}", written, {value_of(one): value_of(one) == last for one in written}
        removal = [on_tag("add", f"u{number}", DATE), on_tag("del", f"u{number}", DATE)]
        yield f"added and removed {number}", removal, {f"u{number}": later_of(*removal) == removal[0]}
    in_order = [
        (day(2, "T00:30:00+01:00"), day(1, "T23:45:00Z")),
        (day(1, "T23:15:00Z"), day(2, "T00:30:00+01:00")),
        (day(1, "T23:30:00-01:00"), day(2, "T00:45:00Z")),
        (day(2, "T23:59:00+23:59"), day(1, "T00:02:00-23:59")),
        (day(1, "T00:00:00Z"), day(1, "T00:00:00.000000001Z")),
        (day(1, "T00:00:00.09Z"), day(1, "T00:00:00.1Z")),
        (day(1, "T00:00:00.5Z"), day(1, "T00:00:00.500000001Z")),
        (day(1, "T00:00:00.999999999Z"), day(1, "T00:00:01Z")),
        ("0001-01-01T00:00:00Z", "1969-12-31T23:59:59Z"),
        ("1969-12-31T23:59:59.4Z", "1969-12-31T23:59:59.5Z"),
        ("1969-12-31T23:59:59.999999999Z", "1970-01-01T00:00:00Z"),
        ("2019-12-31T23:59:59Z", day(1)),
        ("2020-02-28T23:59:59Z", "2020-02-29T00:00:00Z"),
        ("2020-02-29T23:59:59Z", "2020-03-01T00:00:00Z"),
        ("1999-12-31T23:59:59Z", "2000-01-01T00:00:00Z"),
        (day(1), "9999-12-31T23:59:59.999999999Z"),
    ]
    for earlier, later in in_order:
        yield f"{earlier} before {later}", [on_tag("set", u, earlier), on_tag("set", v, later)], {u: False, v: True}
        yield f"{later} after {earlier}", [on_tag("set", u, later), on_tag("set", v, earlier)], {u: True, v: False}


def delete_claims():
    u, v = "u", "v"
    first, second = on_tag("set", u, day(1)), on_tag("set", v, day(2))
    gone = delete(ref_of(first), day(3))
    yield "a claim deleted", [first, gone], {u: False}
    yield "the later claim deleted", [first, second, delete(ref_of(second), day(3))], {u: True, v: False}
    yield "the earlier claim deleted", [first, second, gone], {u: False, v: True}
    yield "deleted before it was made", [first, delete(ref_of(first), "0001-01-01T00:00:00Z")], {u: False}
    yield "deleted far ahead", [first, delete(ref_of(first), "9999-12-31T23:59:59Z")], {u: False}
    again = delete(ref_of(first), day(4))
    yield "deleted twice", [first, gone, again], {u: False}
    yield "deleted twice, one deleted", [first, gone, again, delete(ref_of(gone), day(5))], {u: False}
    both = [delete(ref_of(gone), day(5)), delete(ref_of(again), day(5))]
    yield "deleted twice, both deleted", [first, gone, again, *both], {u: True}
    chain = [first]
    for length in range(1, 13):
        chain.append(delete(ref_of(chain[-1]), day(20 - length)))
        yield f"a chain of {length} deletes", chain[:], {u: length % 2 == 0}
    removal = on_tag("del", "", day(2))
    yield "a removal deleted", [first, removal, delete(ref_of(removal), day(3))], {u: True}
    node_gone = delete(ref_of(NODE), day(3))
    yield "the permanode deleted", [first, node_gone], {u: False}
    yield "the permanode deleted and back", [first, node_gone, delete(ref_of(node_gone), day(4))], {u: True}
    yield "the permanode deleted before its claim", [first, delete(ref_of(NODE), "2019-01-01T00:00:00Z")], {u: False}
    yield "the key deleted", [first, delete(ref_of(KEY), day(3))], {u: True}
    yield "a plain blob deleted", [first, b"plain", delete(ref_of(b"plain"), day(3))], {u: True}
    yield "an absent blob deleted", [first, delete(ABSENT, day(3))], {u: True}
    yield "a delete whose target is absent deleted", [first, delete(ref_of(gone), day(4))], {u: True}
    false = delete(ref_of(first), day(3), secret=OTHER_SECRET)
    yield "deleted by a false signature", [first, false], {u: True}
    undone = delete(ref_of(gone), day(4), secret=OTHER_SECRET)
    yield "a delete deleted by a false signature", [first, gone, undone], {u: False}
    yield "a false delete deleted", [first, false, delete(ref_of(false), day(4))], {u: True}
    unsigned = delete_payload(ref_of(first), day(3)).encode() + b"}\n"
    yield "deleted by an unsigned claim", [first, unsigned], {u: True}
    for what, old, new in [
        ("no date", f'"claimDate":"{day(3)}",', ""),
        ("a bad date", day(3), "2020-01-32T00:00:00Z"),
        ("a day that isn't there", day(3), "2020-02-30T00:00:00Z"),
        ("no target", f',"target":"{ref_of(first)}"', ""),
        ("a null target", f'"{ref_of(first)}"', "null"),
        ("a list of targets", f'"{ref_of(first)}"', f'["{ref_of(first)}"]'),
        ("another type", '"delete"', '"Delete"'),
        ("an unknown type", '"delete"', '"undelete"'),
    ]:
        payload = changed(delete_payload(ref_of(first), day(3)), old, new)
        yield f"a delete of {what}", [first, signed(payload)], {u: True}
    extra = signed(delete_payload(ref_of(first), day(3)) + ',"attribute":"","value":1,"permaNode":null')
    yield "a delete with fields of other claims", [first, extra], {u: False}


def signers():
    u, v = "u", "v"
    first = on_tag("set", u, day(1))
    other, lost = key_blob("other"), key_blob("lost")
    by_other = on_tag("set", v, day(2), ref_of(other), OTHER_SECRET)
    yield "a claim by another key", [first, other, by_other], {u: False, v: True}
    yield "a claim by a key that isn't there", [first, by_other], {u: True, v: False}
    yield "a claim by a key without its secret", [first, lost, on_tag("set", v, day(2), ref_of(lost))], {u: True, v: False}
    crossed = on_tag("set", v, day(2), ref_of(other))
    yield "a claim by one key with the other's secret", [first, other, crossed], {u: True, v: False}
    yield "a claim by a plain blob", [first, b"plain", on_tag("set", v, day(2), ref_of(b"plain"))], {u: True, v: False}
    yield "a claim by a permanode", [first, on_tag("set", v, day(2), ref_of(NODE))], {u: True, v: False}
    yield "a claim by a claim", [first, on_tag("set", v, day(2), ref_of(first))], {u: True, v: False}
    yield "deleted by another key", [first, other, delete(ref_of(first), day(2), ref_of(other), OTHER_SECRET)], {u: False}
    yield "deleted by a lost key", [first, lost, delete(ref_of(first), day(2), ref_of(lost))], {u: True}


def other_targets():
    """Claims on refs that aren't permanodes that count."""
    plain = b"plain"
    false_node = permanode("f" * 32, secret=OTHER_SECRET)
    for what, blob in [("a plain blob", plain), ("a key", KEY), ("a claim", CLAIM), ("a false permanode", false_node)]:
        yield f"a claim on {what}", [KEY, NODE, blob, claim("set", ref_of(blob), "tag", "u", DATE)], {"u": False}
    yield "a claim on an absent ref", [KEY, NODE, claim("set", ABSENT, "tag", "u", DATE)], {"u": False}
    yield "no key", [NODE, CLAIM], {"a": False}
    yield "no permanode", [KEY, CLAIM], {"a": False}


def several_permanodes():
    nodes = [permanode(f"{number:032x}") for number in range(12)]
    claims = [claim("add", ref_of(node), "tag", f"v{number % 3}", day(1)) for number, node in enumerate(nodes)]
    expected = {f"v{rest}": [ref_of(node) for number, node in enumerate(nodes) if number % 3 == rest] for rest in range(3)}
    yield "several permanodes", [KEY, *nodes, *claims], expected
    yield "several permanodes, backwards", [*reversed(claims), *reversed(nodes), KEY], expected
    changes = [("add", ref_of(node), "tag", f"v{number % 3}") for number, node in enumerate(nodes)]
    by_one = multi(changes, day(1))
    yield "several permanodes by one claim", [KEY, *nodes, by_one], expected
    yield "several permanodes by one claim, backwards", [by_one, *reversed(nodes), KEY], expected
    gone = delete(ref_of(by_one), day(2))
    undone = delete(ref_of(gone), day(3))
    none = {value: [] for value in expected}
    yield "several permanodes by one claim, deleted", [KEY, *nodes, by_one, gone], none
    yield "several permanodes by one claim, deleted, backwards", [gone, by_one, *nodes, KEY], none
    yield "several permanodes by one claim, deleted and back", [KEY, *nodes, by_one, gone, undone], expected
    yield "several permanodes by one claim, deleted and back, backwards", [undone, gone, by_one, *nodes, KEY], expected


def older_signers():
    """The names by which a claim and its permanode give their key and their permanode, and those of these blobs and the
    claim; the pack, and the search results."""
    names = {ref_of: "new", older_ref_of: "older"}
    for said_key, said_node, key, node, tag in itertools.product(names, repeat=5):
        said, stand = [[names[one] for one in some] for some in ((said_key, said_node), (key, node, tag))]
        blob = permanode(signer=said_key(KEY))
        last = record(claim("set", said_node(blob), "tag", "a", DATE, signer=said_key(KEY)), tag)
        found = [said_node(blob)] if (said_key, said_node) == (key, node) else []
        yield f"{said} is said of what stands as {stand}", record(KEY, key) + record(blob, node) + last, found
        both = [record(one, name) for one in (blob, KEY) for name in names]
        yield f"{said} is said of what stands as both, as {stand[-1]}", last + b"".join(both), [said_node(blob)]


def order_packs():
    """Blobs that come in every order, and whether the tag is found."""
    undone = delete(ref_of(DELETE), day(3))
    yield "a key, a permanode, its claim", EXAMPLE_BLOBS, True
    yield "a claim deleted", (*EXAMPLE_BLOBS, DELETE), False
    yield "a claim deleted and back", (*EXAMPLE_BLOBS, DELETE, undone), True


# Words

# Lines of the command, with the attribute and the value that they name.
GOOD_WORDS = [
    (("search-pack", "tag", "a"), "tag", "a"),
    (("search-pack", "tag", "--", "a"), "tag", "a"),
    (("search-pack", "--", "tag", "a"), "tag", "a"),
    (("search-pack", "tag", "a", "--"), "tag", "a"),
    (("search-pack", "tag", "--", "-a"), "tag", "-a"),
    (("search-pack", "--", "-tag", "-a"), "-tag", "-a"),
    (("search-pack", "--", "--", "--"), "--", "--"),
    (("search-pack", "tag", "--", "--"), "tag", "--"),
    (("search-pack", "--", "--", "--x=y"), "--", "--x=y"),
    (("search-pack", "--", "--tag=a", "-"), "--tag=a", "-"),
    (("search-pack", "tag", ""), "tag", ""),
    (("search-pack", "tag", "--", ""), "tag", ""),
    (("search-pack", " ", "  "), " ", "  "),
    (("search-pack", "tag=a", "b=c"), "tag=a", "b=c"),
    (("search-pack", "search-pack", "search-pack"), "search-pack", "search-pack"),
    (("search-pack", "\u00e4", "\U0001f600"), "\u00e4", "\U0001f600"),
    (("search-pack", 'quo"te', "back\\slash\n"), 'quo"te', "back\\slash\n"),
    (("search-pack", "long" * 10_000, "v" * 60_000), "long" * 10_000, "v" * 60_000),
]
BAD_WORDS = [
    (),
    ("",),
    ("", "tag", "a"),
    ("search-pack",),
    ("search-pack", "tag"),
    ("search-pack", "tag", "--"),
    ("search-pack", "--"),
    ("search-pack", "--", "tag"),
    ("search-pack", ""),
    ("search-pack", "tag", "a", "b"),
    ("search-pack", "tag", "a", ""),
    ("search-pack", "tag", "a", "--", "b"),
    ("search-pack", "tag", "a", "--", "--"),
    ("search-pack", "--", "tag", "a", "--"),
    ("search-pack", "tag", "-a"),
    ("search-pack", "-tag", "a"),
    ("search-pack", "tag", "-"),
    ("search-pack", "-", "a"),
    ("search-pack", "-", "tag", "--", "a"),
    ("search-pack", "tag", "a", "-"),
    ("search-pack", "--x=1", "tag", "a"),
    ("search-pack", "--x", "1", "tag", "a"),
    ("search-pack", "--x", "tag", "a"),
    ("search-pack", "--=x", "tag", "a"),
    ("search-pack", "--=", "tag", "a"),
    ("search-pack", "tag", "--x=1", "a"),
    ("search-pack", "tag", "a", "--x=1"),
    ("search-pack", "tag", "a", "--x", "1"),
    ("search-pack", "--attr", "tag", "--value", "a"),
    ("search-pack", "--attr=tag", "--value=a"),
    ("search-pack", "", "a", "b"),
    ("search-pack", "", "-a"),
    ("search-pack", "--help"),
    ("search-pack", "tag", "a", "--help"),
    ("search-pack", "-h"),
    ("--", "search-pack", "tag", "a"),
    ("--x=1", "search-pack", "tag", "a"),
    ("--help",),
    ("-h",),
    ("--version",),
    ("help",),
    ("Search-pack", "tag", "a"),
    ("search-pack ", "tag", "a"),
    ("search-packs", "tag", "a"),
    ("searches",),
    ("search_pack", "tag", "a"),
    ("searchpack", "tag", "a"),
    ("nothing", "tag", "a"),
    ("tag", "a", "search-pack"),
    (b"search-pack\xff", "tag", "a"),
    ("search-pack", b"\xff", "a"),
    ("search-pack", "tag", b"a\xc3"),
    ("search-pack", "tag", b"\xed\xa0\x80"),
    ("search-pack", "tag", "--", b"\xff"),
    ("search-pack", "tag", "a", b"\xff"),
    (b"\xff",),
]
EMPTY_ATTRIBUTES = [
    ("search-pack", "", "a"),
    ("search-pack", "", ""),
    ("search-pack", "--", "", "a"),
    ("search-pack", "", "--", "-a"),
]


def pack_with_value(attribute, value):
    """A pack whose permanode has the value, and the search results."""
    return with_claim(claim("set", ref_of(NODE), attribute, value, DATE)), FOUND


# Keyrings

def good_keyrings():
    """A description of the keyring, its text, a pack, and the search results."""
    ours = keyring_line()
    yield "one line", ours, EXAMPLE, True
    yield "an empty keyring", b"", EXAMPLE, False
    yield "another name", keyring_line("other"), EXAMPLE, False
    yield "another secret", keyring_line(secret=OTHER_SECRET), EXAMPLE, False
    yield "a second line", ours + keyring_line("other"), EXAMPLE, True
    yield "ours is the second line", keyring_line("other") + ours, EXAMPLE, True
    yield "a secret of two bytes in front", keyring_line("other", b"\0\xff") + ours, EXAMPLE, True
    yield "a name with a hyphen and a digit beside it", keyring_line("jefe-2") + ours, EXAMPLE, True
    yield "names that begin alike", keyring_line("jef", b"x") + ours + keyring_line("jefe-", b"x"), EXAMPLE, True
    yield "the longest secret beside it", keyring_line("a", b"\xff" * 128) + ours, EXAMPLE, True
    yield "the longest name beside it", keyring_line("a" * 64) + ours, EXAMPLE, True
    filler = b"".join(keyring_line(f"k{number:07}", b"x" * 27) for number in range(16_383))
    secret = b"Jefe" + bytes(25)
    full = filler + keyring_line("jefe", secret)
    assert len(full) == reference.LARGEST_KEYRING
    yield "the longest keyring", full, *tagged_by(KEY, secret, True)


def bad_keyrings():
    ours = keyring_line()
    for what, text in [
        ("no line feed", ours[:-1]),
        ("an empty line", b"\n"),
        ("an empty line behind", ours + b"\n"),
        ("an empty line in front", b"\n" + ours),
        ("half a line behind", ours + b"x"),
        ("a bad line behind", ours + b"x\n"),
        ("a bad line in front", b"x\n" + ours),
        ("a name in upper case", b"Jefe 4a656665\n"),
        ("a name with an underscore", b"je_fe 4a656665\n"),
        ("no name", b" 4a656665\n"),
        ("a name of 65 bytes", keyring_line("a" * 65)),
        ("two spaces", b"jefe  4a656665\n"),
        ("a tab", b"jefe\t4a656665\n"),
        ("no space", b"jefe4a656665\n"),
        ("no secret", b"jefe \n"),
        ("a name alone", b"jefe\n"),
        ("an odd number of digits", b"jefe 4a65666\n"),
        ("a digit in upper case", b"jefe 4A656665\n"),
        ("a letter that is no digit", b"jefe 4g656665\n"),
        ("258 digits", keyring_line(secret=b"x" * 129)),
        ("257 digits", b"jefe " + b"0" * 257 + b"\n"),
        ("a space behind", b"jefe 4a656665 \n"),
        ("a space in front", b" jefe 4a656665\n"),
        ("a carriage return", b"jefe 4a656665\r\n"),
        ("a comment", b"# keys\n" + ours),
        ("a zero byte", ours + b"\0"),
        ("a byte order mark", b"\xef\xbb\xbf" + ours),
        ("a name that isn't UTF-8", b"je\xfffe 4a656665\n"),
        ("a name twice", ours + ours),
        ("a name twice with two secrets", ours + keyring_line("other") + keyring_line(secret=OTHER_SECRET)),
        ("a name twice, then a bad line", ours + ours + b"x\n"),
        ("one line too many", b"".join(keyring_line(f"k{number:07}", b"x" * 27) for number in range(16_384)) + b"a 00\n"),
    ]:
        yield f"a keyring with {what}", text


# Random packs

RANDOM_ATTRIBUTES = ("tag", "title", "Tag")
RANDOM_VALUES = ("a", "b", "c", "\u00e4", "")
RANDOM_QUERIES = [(attribute, value) for attribute in RANDOM_ATTRIBUTES for value in RANDOM_VALUES] + [("none", "a")]


def random_packs():
    for number, count, junk in [(1, 2_000, False), (2, 2_000, True), (3, 300, False), (4, 300, True)]:
        chance = harness.chance("random packs", number)
        records = records_of(chance, *random_blobs(chance, count))
        chance.shuffle(records)
        pieces = with_junk(chance, records) if junk else records
        yield f"random pack {number}", b"".join(pieces), KEYRING


# How many stores of random blobs there are, how many blobs each has, and at how many dates it is searched.
STORES, BLOBS_OF_A_STORE, DATES_OF_A_STORE = 24, 220, 17


def random_stores():
    """A description of each store, its packs by their numbers, and the dates at which it is searched."""
    for number in range(STORES):
        chance = harness.chance("random stores", number)
        what, order = STORE_ORDERS[number % len(STORE_ORDERS)]
        blobs, names = random_blobs(chance, BLOBS_OF_A_STORE)
        records = records_of(chance, order(chance, blobs), names)
        cut = chance.randrange(len(records))
        packs = {0: b"".join(records[:cut]), 1: b"".join(records[cut:])}
        yield f"store {number}, {what}", packs, dates_about(chance, blobs)


def shuffled(chance, blobs):
    return chance.sample(blobs, len(blobs))


def keys_last(chance, blobs):
    """In any order, except that the keys come last."""
    listed = shuffled(chance, blobs)
    return sorted(listed, key=lambda blob: reference.fact_of(blob).kind == "Key")


def backwards(_, blobs):
    """Each blob before those to which it refers."""
    return blobs[::-1]


def forwards(_, blobs):
    return blobs


STORE_ORDERS = [
    ("in any order", shuffled),
    ("the keys last", keys_last),
    ("claims before what they are about", backwards),
    ("in order", forwards),
]


def dates_about(chance, blobs):
    """The dates of some claims, and the moments next to them."""
    dates = sorted({date for date in (reference.fact_of(blob).date for blob in blobs) if date is not None})
    return [chance.choice(dates) + chance.choice((-1, 0, 0, 0, 1)) for _ in range(DATES_OF_A_STORE)]


def records_of(chance, blobs, names):
    """The records of blobs; some blobs have a second one, under their other name."""
    records = []
    for blob in blobs:
        records.append(record(blob, names))
        if chance.random() < OTHER_NAMES:
            records.append(record(blob, names.other))
    return records


# How often a blob is named by, or has, the name that isn't its usual one.
OTHER_NAMES = 0.04


def random_blobs(chance, count):
    """Blobs that refer to one another, and their names; the key `lost` is in no keyring, and `late` is in no pack."""
    held = {"jefe": SECRET, "other": OTHER_SECRET}
    keys = ["jefe"] * 20 + ["other"] * 6 + ["lost", "late"]
    blobs = [key_blob(key) for key in ("jefe", "other", "lost")]
    names = Names(chance)
    nodes, claims, others = [], [], [names(blobs[0]), ABSENT, OLDER_ABSENT]

    def said(blob):
        return names.other(blob) if chance.random() < OTHER_NAMES else names(blob)

    while len(blobs) < count:
        key = chance.choice(keys)
        secret = held.get(key, SECRET) if chance.random() < 0.95 else b"false"
        kind = chance.choices(("node", "attribute", "delete", "plain"), (12, 60, 22, 6))[0]
        if kind == "plain" or not (nodes and claims) and len(blobs) > 20:
            blob = random_plain(chance, nodes)
            others.append(said(blob))
        elif kind == "node" or not nodes:
            blob = permanode(f"{chance.getrandbits(128):032x}", said(key_blob(key)), secret)
            nodes.append(said(blob))
        elif kind == "attribute" or not claims:
            some = [random_change(chance, nodes, claims + others) for _ in range(chance.choice(CHANGES_OF_A_CLAIM))]
            signer, date = said(key_blob(key)), random_date(chance)
            several = len(some) > 1 or chance.random() < 0.1
            blob = multi(some, date, signer, secret) if several else claim(*some[0], date, signer, secret)
            claims.append(said(blob))
        else:
            target = chance.choice(chance.choices((claims, nodes, others, claims[-20:]), (6, 1, 1, 6))[0])
            blob = delete(target, random_date(chance), said(key_blob(key)), secret)
            claims.append(said(blob))
        blobs.append(blob)
    return blobs, names


# How many changes a claim has: most have one.
CHANGES_OF_A_CLAIM = (1, 1, 1, 1, 1, 1, 2, 3, 5, 9)


def random_change(chance, nodes, others):
    """A change of a permanode, or rarely of another blob: its kind, target, attribute and value."""
    on = chance.choice(nodes) if chance.random() < 0.97 else chance.choice(others)
    what = chance.choices(("set", "add", "del"), (3, 5, 2))[0]
    return what, on, chance.choice(RANDOM_ATTRIBUTES), chance.choice(RANDOM_VALUES)


def random_plain(chance, nodes):
    ref = chance.choice(nodes or [ABSENT])
    return chance.choice(
        (
            chance.randbytes(chance.randrange(200)),
            writing.file_blob(f"n{chance.randrange(100)}", [writing.part(chance.randrange(1000), ref)]),
            writing.bytes_blob([writing.part(chance.randrange(1000), ref, "bytesRef", chance.randrange(9))]),
            writing.directory("d", ref),
            writing.static_set([ref, ABSENT]),
            b'{"camliVersion":1,"camliType":"symlink"}',
        )
    )


def random_date(chance):
    fraction = chance.choice(("", "", ".5", ".50", f".{chance.randrange(10**9):09}"))
    zone = chance.choice(("Z", "Z", "+00:00", "-02:00", "+05:30"))
    year, month_day, hour = chance.choice((1969, 2020, 2020, 2021)), chance.randrange(1, 6), chance.randrange(4)
    return f"{year}-02-{month_day:02}T{hour:02}:00:00{fraction}{zone}"


def with_junk(chance, records):
    """The records with other bytes between some of them; some are torn, damaged, deleted or there twice."""
    for one in records:
        fate = chance.randrange(20)
        if fate == 0:
            yield chance.randbytes(chance.randrange(100))
        elif fate == 1:
            yield one[: chance.randrange(len(one))]
            continue
        elif fate == 2:
            damaged = bytearray(one)
            damaged[chance.randrange(len(one))] ^= 1 << chance.randrange(8)
            yield bytes(damaged)
            continue
        elif fate == 3:
            yield deleted_record(one, chance.randrange(1, 17), chance.randrange(1, 129))
            continue
        elif fate == 4:
            yield one + one
        elif fate == 5:
            yield record(one)
            continue
        elif fate == 6:
            yield chance.choice(records)
        elif fate == 7:
            yield b"[x-0 9]"
        yield one
