"""The inputs of query.py: stores with the expected results, random stores and queries, and texts that aren't queries.

A query is made as a value, whose dates are strings, and then spelled as JSON. `Raw` is a value that is spelled
unchanged.
"""

import inputs
import queries
import reference
import writing
from inputs import ABSENT, CHANGES_OF_A_CLAIM, OLDER_ABSENT, OTHER_NAMES, OTHER_SECRET, SECRET, day, records_of
from reference import older_ref_of, ref_of
from writing import Names, bytes_blob, claim, delete, directory, file_blob, key_blob, keyring_line, multi, pack, part
from writing import permanode, static_set

LATE_SECRET = b"a late secret"
KEYRING = inputs.KEYRING + keyring_line("late", LATE_SECRET)
KEY = key_blob()
ABC, OLDER_ABC = ref_of(b"abc"), older_ref_of(b"abc")


# Spelling

class Raw(str):
    """The text of a value."""


class Pairs(list):
    """An object whose keys may be there twice."""


def spell(value):
    """A value as compact JSON."""
    if isinstance(value, Raw):
        return str(value)
    if isinstance(value, (dict, Pairs)):
        pairs = value.items() if isinstance(value, dict) else value
        return "{" + ",".join(f"{writing.text(key)}:{spell(one)}" for key, one in pairs) + "}"
    if isinstance(value, list):
        return "[" + ",".join(map(spell, value)) + "]"
    if isinstance(value, str):
        return writing.text(value)
    return {"True": "true", "False": "false", "None": "null"}.get(str(value), str(value))


def spell_otherwise(random, value):
    """A value as JSON with white space, escapes, the keys in any order, and some of them twice, of which the last
    counts."""
    space = lambda: random.choice(("", "", "", " ", "\n", "\t \r\n"))
    if isinstance(value, dict):
        pairs = [(key, spell_otherwise(random, one)) for key, one in value.items()]
        random.shuffle(pairs)
        pairs = [pair for one in pairs for pair in (twice(random, one) if random.random() < 0.03 else [one])]
        written = [f"{escape(random, key)}{space()}:{space()}{one}" for key, one in pairs]
        return "{" + space() + f"{space()},{space()}".join(written) + space() + "}"
    return escape(random, value) if type(value) is str else spell(value)


def twice(random, pair):
    key, _ = pair
    return [(key, random.choice(("null", "7", '"x"', '{"x":[1]}', "[{}]"))), pair]


def escape(random, text):
    if random.random() < 0.7:
        return writing.text(text)
    return '"' + "".join(escaped(random, one) for one in text) + '"'


def escaped(random, character):
    code = ord(character)
    if code < 32 or character in '"\\' or random.random() < 0.3:
        if code < 0x10000:
            return random.choice((f"\\u{code:04x}", f"\\u{code:04X}"))
        high, low = divmod(code - 0x10000, 0x400)
        return f"\\u{0xD800 + high:04x}\\u{0xDC00 + low:04X}"
    return "\\/" if character == "/" and random.random() < 0.5 else character


# A store in which every blob is the content of a permanode, so that a constraint can be tried on any of them

def blobs_of_all_kinds():
    """Blobs by names."""
    node, deleted = permanode("1" * 32), permanode("2" * 32)
    return {
        "plain": b"abc",
        "empty": b"",
        "key": KEY,
        "node": node,
        "deleted": deleted,
        "tag": claim("set", ref_of(node), "tag", "a", day(1)),
        "deletion": delete(ref_of(deleted), day(5)),
        "no claim": writing.signed(writing.claim_head(day(1)) + ',"claimType":"other"'),
        **trees_of_all_kinds(),
        "unread file": b'{"camliVersion":1,"camliType":"file","parts":null}',
        "unread permanode": b'{"camliVersion":1,"camliType":"permanode"}',
        "directory": directory("d", ABC),
        "set": static_set([ABSENT]),
        "symlink": b'{"camliVersion":1,"camliType":"symlink"}',
        "strange": b'{"camliVersion":1,"camliType":"\\u00e4"}',
        "empty type": b'{"camliVersion":1,"camliType":""}',
        "no type": b'{"camliVersion":1}',
        "version 2": b'{"camliVersion":2,"camliType":"file"}',
        "false node": permanode("3" * 32, secret=OTHER_SECRET),
        "waiting node": permanode("4" * 32, signer=ref_of(key_blob("late")), secret=LATE_SECRET),
        "waiting claim": claim("set", ref_of(node), "tag", "b", day(1), ref_of(key_blob("late")), LATE_SECRET),
    }


def trees_of_all_kinds():
    """File trees by names."""
    tree, text = bytes_blob([part(3, ABC)]), file_blob("\u00e4.txt", [part(3, ABC)])
    unsound, tree_ref = bytes_blob([part(4, ABC)]), ref_of(tree)
    return {
        "bytes": tree,
        "unsound bytes": unsound,
        "text": text,
        "no bytes": file_blob("", []),
        "no name": writing.octets(inputs.changed(file_blob("x", [part(7)]).decode(), '"fileName":"x",', "")),
        "scan": file_blob("scan.pdf", [part(1_000_001)]),
        "small scan": file_blob("small.pdf", [part(1_000_000)]),
        "greatest": file_blob("greatest", [part(2**48)]),
        "tree": file_blob("tree.PDF", [part(2, tree_ref, "bytesRef", 1), part(2)]),
        "file in a file": file_blob("in.a.file", [part(3, ref_of(text), "bytesRef")]),
        "tree as a blob": file_blob("raw", [part(len(tree), tree_ref)]),
        "edge": file_blob("edge", [part(0, ABC, offset=3), part(0, tree_ref, "bytesRef", 3), part(1, offset=9)]),
        "behind": file_blob("behind", [part(0, ABC, offset=4)]),
        "behind a tree": file_blob("behind", [part(0, tree_ref, "bytesRef", 4)]),
        "short": file_blob("short", [part(3, ABC), part(4, ABC)]),
        "short by its offset": file_blob("short", [part(3, ABC, offset=1)]),
        "short tree": file_blob("short", [part(4, tree_ref, "bytesRef")]),
        "unsound within": file_blob("short", [part(1, ref_of(unsound), "bytesRef")]),
        "blob as a tree": file_blob("short", [part(1, ABC, "bytesRef")]),
        "waiting file": file_blob("waits", [part(1, ABSENT)]),
    }


SOUND = {"text", "no bytes", "no name", "scan", "small scan", "greatest", "tree", "file in a file", "tree as a blob"}
SOUND |= {"edge", "older text"}
UNSOUND = {"behind", "behind a tree", "short", "short by its offset", "short tree", "unsound within", "blob as a tree"}
WAITING = {"waiting file", "waiting node", "waiting claim"}
# Blobs under their older names.
OLDER = {"older": b"abc", "older text": file_blob("older", [part(2, OLDER_ABC, offset=1)])}
READY = {*blobs_of_all_kinds(), *OLDER} - WAITING


def named(test):
    return {"file": {"fileName": test}}


def sized(**test):
    return {"file": {"fileSize": test}}


def logical(op, a, *b):
    return {"logical": {"op": op, "a": a, **({"b": b[0]} if b else {})}}


def negated(a):
    return logical("not", a)


ANYTHING = {"anything": True}
NODES = {"camliType": "permanode"}
# A constraint, and the names of the blobs that meet it.
MEANINGS = [
    (ANYTHING, READY),
    (negated(ANYTHING), set()),
    ({"camliType": "permanode"}, {"node", "deleted", "false node", "unread permanode"}),
    ({"camliType": "claim"}, {"tag", "deletion", "no claim"}),
    ({"camliType": "file"}, SOUND | UNSOUND | {"unread file"}),
    ({"camliType": "bytes"}, {"bytes", "unsound bytes"}),
    ({"camliType": "directory"}, {"directory"}),
    ({"camliType": "static-set"}, {"set"}),
    ({"camliType": "symlink"}, {"symlink"}),
    ({"camliType": "\u00e4"}, {"strange"}),
    ({"camliType": ""}, {"empty type"}),
    ({"camliType": "Permanode"}, set()),
    ({"camliType": "perma"}, set()),
    ({"camliType": "key"}, set()),
    ({"camliType": "plain"}, set()),
    (negated({"camliType": "file"}), READY - SOUND - UNSOUND - {"unread file"}),
    ({"blobRefPrefix": ""}, READY),
    ({"blobRefPrefix": "sha"}, READY),
    ({"blobRefPrefix": "sha224-"}, READY - {*OLDER}),
    ({"blobRefPrefix": "sha1-"}, {*OLDER}),
    ({"blobRefPrefix": OLDER_ABC}, {"older"}),
    ({"blobRefPrefix": OLDER_ABC + "0"}, set()),
    ({"blobRefPrefix": "SHA1-"}, set()),
    ({"blobRefPrefix": OLDER_ABC[5:]}, set()),
    ({"blobRefPrefix": "sha224-2309"}, {"plain"}),
    ({"blobRefPrefix": ABC}, {"plain"}),
    ({"blobRefPrefix": ABC + "0"}, set()),
    ({"blobRefPrefix": ABC[1:]}, set()),
    ({"blobRefPrefix": "SHA224-"}, set()),
    ({"blobRefPrefix": ABC.replace("f", "F")}, set()),
    ({"blobRefPrefix": ref_of(KEY)[:30]}, {"key"}),
    ({"blobRefPrefix": "\u00e4"}, set()),
    ({"blobSize": {"min": 3, "max": 3}}, {"plain", "older"}),
    ({"blobSize": {"max": 3}}, {"plain", "older", "empty"}),
    ({"blobSize": {"max": 2}}, {"empty"}),
    ({"blobSize": {"max": 0}}, {"empty"}),
    ({"blobSize": {"min": 0}}, READY),
    ({"blobSize": {"max": 2**64 - 1}}, READY),
    ({"blobSize": {"min": 2**64 - 1}}, set()),
    ({"blobSize": {"min": 4, "max": 3}}, set()),
    ({"blobSize": {"min": 25, "max": 25}}, {"key"}),
    ({"file": {}}, SOUND),
    (negated({"file": {}}), READY - SOUND),
    (named({"hasSuffix": ".pdf"}), {"scan", "small scan"}),
    (named({"hasSuffix": ".PDF"}), {"tree"}),
    (named({"hasSuffix": ""}), SOUND),
    (named({"hasPrefix": ""}), SOUND),
    (named({"contains": ""}), SOUND),
    (named({"hasPrefix": "s"}), {"scan", "small scan"}),
    (named({"equals": "short"}), set()),
    (named({"equals": "edge"}), {"edge"}),
    (named({"equals": "Edge"}), set()),
    (named({"equals": "edg"}), set()),
    (named({"equals": ""}), {"no bytes", "no name"}),
    (named({"empty": True}), {"no bytes", "no name"}),
    (named({"empty": False}), SOUND - {"no bytes", "no name"}),
    (named({"byteLength": {"min": 6, "max": 6}}), {"text"}),
    (named({"byteLength": {"max": 0}}), {"no bytes", "no name"}),
    (named({"byteLength": {"min": 9, "max": 9}}), {"small scan", "file in a file"}),
    (named({"contains": "\u00e4"}), {"text"}),
    (named({"hasPrefix": "\u00e4."}), {"text"}),
    (named({"contains": "a\u0308"}), set()),
    (named({"contains": ".a."}), {"file in a file"}),
    (named({"contains": "a", "hasSuffix": "f", "hasPrefix": "s"}), {"scan", "small scan"}),
    (named({"contains": "ca", "empty": False, "equals": "scan.pdf"}), {"scan"}),
    (named({"contains": "ca", "empty": True}), set()),
    (sized(min=1_000_001), {"scan", "greatest"}),
    (sized(min=1_000_000, max=1_000_001), {"scan", "small scan"}),
    (sized(min=2**48), {"greatest"}),
    (sized(min=2**48 + 1), set()),
    (sized(max=0), {"no bytes"}),
    (sized(max=1), {"no bytes", "edge"}),
    (sized(min=3, max=3), {"text", "file in a file"}),
    (sized(min=4, max=4), {"tree"}),
    (sized(max=2**64 - 1), SOUND),
    ({"file": {"fileName": {"hasSuffix": ".pdf"}, "fileSize": {"min": 1_000_001}}}, {"scan"}),
    ({"permanode": {}}, {"node"}),
    ({"permanode": {"at": day(4)}}, {"node", "deleted"}),
    ({"permanode": {"at": day(5)}}, {"node"}),
    ({"permanode": {"attr": "tag"}}, {"node"}),
    ({"permanode": {"attr": "tag", "at": "2019-12-31T23:59:59.999999999Z"}}, set()),
    ({"permanode": {"attr": "tag", "value": "b"}}, set()),
    ({"permanode": {"attr": "tag", "numValue": {"max": 0}}}, set()),
    ({"permanode": {"attr": "title", "numValue": {"max": 0}}}, {"node"}),
    ({"permanode": {"attr": "title", "numValue": {"max": 0}, "at": day(1)}}, {"node", "deleted"}),
    (negated({"permanode": {}}), READY - {"node"}),
    (logical("and", {"camliType": "file"}, negated({"file": {}})), UNSOUND | {"unread file"}),
    (logical("or", {"camliType": "set"}, {"camliType": "static-set"}), {"set"}),
    (logical("or", {"camliType": "bytes"}, {"camliType": "static-set"}), {"set", "bytes", "unsound bytes"}),
    (logical("xor", {"camliType": "file"}, {"file": {}}), UNSOUND | {"unread file"}),
    (logical("xor", {"file": {}}, {"camliType": "file"}), UNSOUND | {"unread file"}),
    (logical("xor", ANYTHING, ANYTHING), set()),
    (logical("xor", negated(ANYTHING), negated(ANYTHING)), set()),
    (logical("xor", ANYTHING, negated(ANYTHING)), READY),
    (logical("and", NODES, {"blobSize": {"max": 100}}), {"unread permanode"}),
    ({"camliType": "permanode", "blobSize": {"max": 100}}, {"unread permanode"}),
    ({"camliType": "permanode", "permanode": {}}, {"node"}),
    ({"anything": True, "camliType": "file", "file": {}, "blobSize": {"max": 72}}, {"no bytes", "no name"}),
    ({"anything": True, "camliType": "file", "file": {}, "blobRefPrefix": "x"}, set()),
    ({"logical": {"op": "not", "a": {"file": {}}}, "camliType": "file"}, UNSOUND | {"unread file"}),
]


def content_store():
    """The pack of the store, and for each name the permanode whose content the blob is."""
    blobs = blobs_of_all_kinds()
    contents = {name: ref_of(blob) for name, blob in blobs.items()} | {"absent": ABSENT, "no ref": ABC.upper()}
    contents |= {name: older_ref_of(blob) for name, blob in OLDER.items()}
    contents |= {"older absent": older_ref_of(b""), "newer absent": ref_of(OLDER["older text"])}
    others, holders = holding(contents)
    return pack(*blobs.values(), *others) + pack(*OLDER.values(), name_of=older_ref_of), holders


def holding(contents):
    """Permanodes with these contents, and the claims that give them; and the refs of the permanodes by the same
    names."""
    holders = {name: permanode(f"{number:032x}") for number, name in enumerate(contents, 100)}
    claims = [claim("set", ref_of(node), "camliContent", contents[name], day(1)) for name, node in holders.items()]
    return [*holders.values(), *claims], {name: ref_of(node) for name, node in holders.items()}


def with_content(constraint, **others):
    return {"constraint": {"permanode": {"attr": "camliContent", "valueInSet": constraint, **others}}}


# A store in which constraints find the kinds of blobs

# The constraints, by names.
TELLING = {
    "ready": ANYTHING,
    "link": {"camliType": "link"},
    "directory": {"camliType": "directory"},
    "file": {"camliType": "file"},
    "bytes": {"camliType": "bytes"},
    "permanode": {"camliType": "permanode"},
    "sound": {"file": {}},
}
LINK = '{"camliVersion":1,"camliType":"link"}'
DIRECTORY = '{"camliVersion":2,"camliType":"x","camliVersion":1,"camliType":"directory","entries":"%s"}'
# Blobs, and the constraints that each meets. A directory waits for its entries; a blob that isn't read waits for
# nothing.
KINDS = [
    (LINK, "ready link"),
    ("perkeep-hmac-sha256 jefe", "ready"),
    ('{"camliVersion":1.0,"camliType":"link"}', "ready"),
    ('{"camliVersion":1}', "ready"),
    (LINK + "}", "ready"),
    (b'{"camliVersion":1,"camliType":"\xff"}', "ready"),
    (LINK.ljust(reference.LARGEST_SCHEMA_BLOB), "ready link"),
    (LINK.ljust(reference.LARGEST_SCHEMA_BLOB + 1), "ready"),
    (DIRECTORY % ABC, "ready directory"),
    (DIRECTORY % ABSENT, ""),
    ('{"camliVersion":1,"camliType":"directory","entries":"sha224-23"}', "ready directory"),
    (f'{{"camliVersion":1,"camliType":"directory","fileName":null,"entries":"{ABSENT}"}}', "ready directory"),
    ('{"camliVersion":1,"camliType":"permanode"}', "ready permanode"),
]
# The text in the brackets of parts, and whether it is a part list; none of these parts leaves its origin.
PARTS = [
    ('{"size":281474976710656},{"size":0,"offset":281474976710656}', True),
    ('{"size":281474976710656},{"size":1}', False),
    ('{"size":18446744073709551615},{"size":1}', False),
    ('{"size":0,"offset":281474976710657}', False),
    ('{"size":1,"offset":null}', False),
    ('{"size":1,"blobRef":null}', False),
    ('{"size":-0}', False),
    ('{"offset":0}', False),
    (f'{{"size":1,"blobRef":"{ABC}","bytesRef":"{ABC}"}}', False),
]


def kind_store():
    """The blobs of the store, and for each constraint the permanodes whose contents meet it."""
    rows = [(writing.octets(blob), met.split()) for blob, met in KINDS]
    for parts, is_list in PARTS:
        tree = bytes_blob([parts])
        # No byte of the tree is needed, but a file is sound only if each tree in it is.
        files = [file_blob("", [parts]), file_blob("of a tree", [part(0, ref_of(tree), "bytesRef")])]
        rows.append((tree, ["ready", "bytes"]))
        rows += [(file, ["ready", "file", "sound"] if is_list else ["ready", "file"]) for file in files]
    others, holders = holding({place: ref_of(blob) for place, (blob, _) in enumerate(rows)})
    found = {name: sorted(holders[place] for place, (_, met) in enumerate(rows) if name in met) for name in TELLING}
    return [KEY, b"abc", *(blob for blob, _ in rows), *others], found


# A store of permanodes that change in time

NAMES = ("a", "b", "c", "d", "e", "gone", "back")
NODE = {name: permanode(f"{number:032x}") for number, name in enumerate(NAMES, 1)}
REF = {name: ref_of(node) for name, node in NODE.items()}
OTHER = key_blob("other")


def lives():
    """All blobs of the store: `gone` is deleted on day 5, and so is `back`, but that deletion is deleted on day 7."""
    draft, undone = claim("add", REF["e"], "tag", "trip", day(1)), delete(REF["back"], day(5))
    changes = [
        ("a", "add", "tag", "trip", 1),
        ("a", "add", "tag", "letters", 2),
        ("a", "set", "title", "Letters", 3),
        ("a", "add", "camliMember", REF["b"], 2),
        ("a", "add", "camliMember", REF["c"], 4),
        ("a", "add", "camliMember", ABC, 2),
        ("a", "add", "camliMember", ABSENT, 2),
        ("a", "add", "camliMember", REF["d"].upper(), 2),
        ("b", "add", "tag", "trip", 1),
        ("b", "add", "tag", "trip", 2),
        ("b", "set", "title", "", 2),
        ("c", "set", "tag", "draft", 2),
        ("c", "del", "tag", "draft", 6),
        ("c", "set", "title", "\u00e4\u20ac", 4),
        ("c", "add", "camliMember", REF["a"], 3),
        ("c", "add", "camliMember", REF["c"], 3),
        ("e", "del", "nothing", "", 9),
        ("gone", "add", "tag", "trip", 1),
        ("gone", "add", "camliMember", REF["b"], 2),
        ("back", "add", "camliMember", REF["d"], 2),
    ]
    claims = [claim(kind, REF[name], attribute, value, day(number)) for name, kind, attribute, value, number in changes]
    claims += [draft, delete(ref_of(draft), day(3))]
    claims += [delete(REF["gone"], day(5)), undone, delete(ref_of(undone), day(7))]
    claims.append(claim("add", REF["e"], "title", "E", day(8), ref_of(OTHER), OTHER_SECRET))
    return [KEY, OTHER, b"abc", *NODE.values(), *claims]


def node(**test):
    return {"permanode": test}


def child(**test):
    return {"relation": "child", **test}


def parent(**test):
    return {"relation": "parent", **test}


ALL = {"a", "b", "c", "d", "e", "back"}
TAGGED, DRAFT = node(attr="tag"), node(attr="tag", value="draft")
# A constraint, and the names of the permanodes of an answer without a date.
NODE_MEANINGS = [
    (ANYTHING, ALL),
    (negated(ANYTHING), set()),
    (NODES, ALL),
    ({"blobRefPrefix": REF["d"]}, {"d"}),
    ({"blobRefPrefix": REF["gone"]}, set()),
    (node(), ALL),
    (node(at=day(4)), ALL),
    (node(at=day(6)), ALL - {"back"}),
    (node(at="2020-01-06T23:59:59.999999999Z"), ALL - {"back"}),
    (node(at="2020-01-07T01:00:00+01:00"), ALL),
    (TAGGED, {"a", "b"}),
    (negated(TAGGED), ALL - {"a", "b"}),
    (node(attr="tag", at=day(2)), {"a", "b", "c", "e"}),
    (node(attr="tag", at=day(1)), {"a", "b", "e"}),
    (node(attr="tag", at="2020-01-01T00:00:00.000000001+00:01"), set()),
    (node(attr="Tag"), set()),
    (node(attr="nothing"), set()),
    (node(attr="tag", value="trip"), {"a", "b"}),
    (node(attr="tag", value="trip", at=day(2)), {"a", "b", "e"}),
    (node(attr="tag", value="tri"), set()),
    (node(attr="title", value=""), {"b"}),
    (node(attr="title", value="\u00e4\u20ac"), {"c"}),
    (node(attr="title", value="E"), {"e"}),
    (node(attr="title", value="E", at=day(7)), set()),
    (DRAFT, set()),
    (node(attr="tag", value="draft", at=day(5)), {"c"}),
    (node(attr="tag", numValue={"min": 2}), {"a", "b"}),
    (node(attr="tag", numValue={"min": 2}, at=day(1)), set()),
    (node(attr="tag", numValue={"min": 3}), set()),
    (node(attr="tag", numValue={"max": 0}), {"c", "d", "e", "back"}),
    (node(attr="tag", numValue={"min": 1, "max": 1}, at=day(2)), {"c", "e"}),
    (node(attr="tag", numValue={"min": 0}), ALL),
    (node(attr="tag", value="trip", numValue={"min": 2}), {"a", "b"}),
    (node(attr="tag", value="trip", numValue={"max": 1}), set()),
    (node(attr="tag", value="draft", numValue={"max": 0}), set()),
    (node(attr="camliMember", numValue={"min": 5, "max": 5}), {"a"}),
    (node(attr="title", valueMatches={"empty": True}), {"b"}),
    (node(attr="title", valueMatches={"empty": False}), {"a", "c", "e"}),
    (node(attr="title", valueMatches={"equals": ""}), {"b"}),
    (node(attr="title", valueMatches={"hasPrefix": ""}), {"a", "b", "c", "e"}),
    (node(attr="title", valueMatches={"byteLength": {"min": 5, "max": 5}}), {"c"}),
    (node(attr="title", valueMatches={"byteLength": {"max": 1}}), {"b", "e"}),
    (node(attr="title", valueMatches={"contains": "\u20ac"}), {"c"}),
    (node(attr="title", valueMatches={"hasPrefix": "\u20ac"}), set()),
    (node(attr="title", valueMatches={"hasPrefix": "\u00e4"}), {"c"}),
    (node(attr="title", valueMatches={"hasSuffix": "ers", "contains": "tt", "hasPrefix": "Let"}), {"a"}),
    (node(attr="title", valueMatches={"contains": "Tt"}), set()),
    (node(attr="tag", value="trip", valueMatches={"hasPrefix": "t"}), {"a", "b"}),
    (node(attr="tag", value="trip", valueMatches={"hasPrefix": "l"}), set()),
    (node(attr="tag", valueMatches={"hasPrefix": "t", "hasSuffix": "s"}), set()),
    (node(attr="tag", valueMatches={"hasPrefix": "l"}, numValue={"min": 2}), {"a"}),
    (node(attr="camliMember", valueInSet=ANYTHING), {"a", "c", "back"}),
    (node(attr="camliMember", valueInSet=node()), {"a", "c", "back"}),
    (node(attr="camliMember", valueInSet=negated(NODES)), {"a"}),
    (node(attr="camliMember", valueInSet={"blobSize": {"max": 3}}), {"a"}),
    (node(attr="camliMember", valueInSet=TAGGED), {"a", "c"}),
    (node(attr="camliMember", valueInSet=DRAFT), set()),
    (node(attr="camliMember", valueInSet=DRAFT, at=day(4)), {"a", "c"}),
    (node(attr="camliMember", valueInSet=DRAFT, at=day(3)), {"c"}),
    (node(attr="camliMember", valueInSet=node(attr="tag", value="draft", at=day(2))), {"a", "c"}),
    (node(attr="camliMember", valueInSet=node(attr="tag", value="draft", at=day(7)), at=day(4)), set()),
    (node(attr="camliMember", value=REF["b"], valueInSet=TAGGED), {"a"}),
    (node(attr="camliMember", value=REF["c"], valueInSet=TAGGED), set()),
    (node(attr="camliMember", value=ABSENT), {"a"}),
    (node(attr="camliMember", value=ABSENT, valueInSet=ANYTHING), set()),
    (node(attr="camliMember", value=REF["d"], valueInSet=ANYTHING), {"back"}),
    (node(attr="camliMember", valueMatches={"hasPrefix": REF["a"]}, valueInSet=TAGGED), {"c"}),
    (node(attr="tag", valueInSet=ANYTHING), set()),
    (node(relation=child(any=ANYTHING)), {"a", "c", "back"}),
    (node(relation=child(any=negated(ANYTHING))), set()),
    (node(relation=child(all=ANYTHING)), ALL),
    (node(relation=child(all=negated(ANYTHING))), {"b", "d", "e"}),
    (node(relation=child(all=node())), ALL - {"a"}),
    (node(relation=child(any=negated(NODES))), {"a"}),
    (node(relation=child(any={"blobRefPrefix": REF["d"]})), {"back"}),
    (node(relation=child(any=TAGGED)), {"a", "c"}),
    (node(relation=child(all=TAGGED)), {"b", "d", "e"}),
    (node(relation=child(any=DRAFT)), set()),
    (node(at=day(4), relation=child(any=DRAFT)), {"a", "c"}),
    (node(at=day(3), relation=child(any=DRAFT)), {"c"}),
    (node(at=day(4), relation=child(any=node(at=day(7), attr="tag", value="draft"))), set()),
    (node(relation=child(any=node(at=day(4), attr="tag", value="draft"))), {"a", "c"}),
    (node(relation=parent(any=ANYTHING)), {"a", "b", "c", "d"}),
    (node(relation=parent(all=negated(ANYTHING))), {"e", "back"}),
    (node(relation=parent(any=node(attr="title", value="Letters"))), {"b", "c"}),
    (node(relation=parent(all=node(attr="title", value="Letters"))), {"b", "e", "back"}),
    (node(relation=parent(any=node(attr="title", value="\u00e4\u20ac"))), {"a", "c"}),
    (node(at=day(2), relation=parent(all=node(attr="tag", value="letters"))), {"a", "c", "e", "back"}),
    (node(at=day(2), relation=parent(any={"blobRefPrefix": REF["gone"]})), {"b"}),
    (node(at=day(4), relation=parent(any={"blobRefPrefix": REF["gone"]})), {"b"}),
    (node(at=day(5), relation=parent(any={"blobRefPrefix": REF["gone"]})), set()),
    (node(at=day(6), relation=parent(any=ANYTHING)), {"a", "b", "c"}),
    (node(at=day(7), relation=parent(any=ANYTHING)), {"a", "b", "c", "d"}),
    (node(attr="tag", value="trip", relation=child(any=ANYTHING)), {"a"}),
    (node(attr="tag", relation=parent(any=ANYTHING)), {"a", "b"}),
    (node(relation=child(any=node(relation=child(any={"blobRefPrefix": REF["b"]})))), {"c"}),
    (node(relation=child(any=node(relation=parent(any={"blobRefPrefix": REF["back"]})))), {"back"}),
    (node(relation=parent(any=node(relation=parent(any={"blobRefPrefix": REF["c"]})))), {"a", "b", "c"}),
    (logical("xor", TAGGED, node(attr="title")), {"c", "e"}),
    (logical("and", TAGGED, node(attr="title")), {"a", "b"}),
    (logical("or", TAGGED, node(attr="title")), {"a", "b", "c", "e"}),
    (logical("and", node(attr="tag", value="draft", at=day(4)), negated(DRAFT)), {"c"}),
    ({**TAGGED, "camliType": "permanode"}, {"a", "b"}),
    ({**TAGGED, "camliType": "file"}, set()),
    ({**TAGGED, "blobRefPrefix": REF["b"]}, {"b"}),
]


def by_ref(*names):
    return sorted(names, key=REF.get)


BY_CHANGE = ["d", *by_ref("b", "back"), "a", "c", "e"]
BY_CHANGE_ON_3 = [*by_ref("d", "e"), *by_ref("b", "gone", "back"), *by_ref("a", "c")]
LATEST_FIRST = ["e", "c", "a", *by_ref("b", "back"), "d"]
LATEST_FIRST_ON_3 = [*by_ref("a", "c"), *by_ref("b", "gone", "back"), *by_ref("d", "e")]
# The rest of a query, its constraint, and the names of its answer in their order.
NODE_ORDERS = [
    ({}, ANYTHING, by_ref(*ALL)),
    ({"sort": "blobref"}, ANYTHING, by_ref(*ALL)),
    ({"sort": "mod"}, ANYTHING, BY_CHANGE),
    ({"sort": "-mod"}, ANYTHING, LATEST_FIRST),
    ({"sort": "mod"}, node(at=day(3)), BY_CHANGE),
    ({"sort": "-mod"}, node(at=day(3)), LATEST_FIRST),
    ({"sort": "mod", "at": day(3)}, ANYTHING, BY_CHANGE_ON_3),
    ({"sort": "-mod", "at": day(3)}, ANYTHING, LATEST_FIRST_ON_3),
    ({"sort": "mod", "at": day(3)}, node(at=day(8)), [name for name in BY_CHANGE_ON_3 if name != "gone"]),
    ({"at": "2019-12-31T23:59:59Z", "sort": "mod"}, ANYTHING, by_ref(*NAMES)),
    ({"at": "2019-12-31T23:59:59Z", "sort": "-mod"}, ANYTHING, by_ref(*NAMES)),
    ({"at": day(4)}, ANYTHING, by_ref(*NAMES)),
    ({"at": day(5)}, ANYTHING, by_ref("a", "b", "c", "d", "e")),
    ({"at": day(7)}, ANYTHING, by_ref(*ALL)),
    ({"at": day(2)}, TAGGED, by_ref("a", "b", "c", "e", "gone")),
    ({"at": day(4)}, node(relation=child(any=DRAFT)), by_ref("a", "c")),
    ({"at": day(4)}, node(at=day(7), relation=child(any=DRAFT)), []),
    ({"at": day(2)}, node(relation=parent(any={"blobRefPrefix": REF["gone"]})), ["b"]),
    ({"at": day(2)}, node(at=day(6)), by_ref("a", "b", "c", "d", "e")),
    *[({"limit": limit}, ANYTHING, by_ref(*ALL)[:limit]) for limit in (1, 2, 5, 6, 7, 1_000_000)],
    *[({"limit": limit, "sort": "mod"}, ANYTHING, BY_CHANGE[:limit]) for limit in (1, 2, 3, 5, 6, 7)],
    *[({"limit": limit, "sort": "-mod"}, ANYTHING, LATEST_FIRST[:limit]) for limit in (1, 4, 5, 6, 7)],
    *[({"limit": limit, "sort": "mod"}, TAGGED, ["b", "a"][:limit]) for limit in (1, 2)],
]


# A store of two permanodes that have each other and themselves as members from day 3 on, and a third one

PAIR = {name: permanode(f"{number:032x}") for number, name in enumerate(("tagged", "other", "alone"), 51)}
BEFORE = "2020-01-02T23:00:00Z"


def pair():
    """All blobs of the store: one permanode is tagged on day 2."""
    refs = [ref_of(PAIR[name]) for name in ("tagged", "other")]
    members = [claim("add", one, "camliMember", other, day(3)) for one in refs for other in refs]
    return [*members, claim("add", refs[0], "tag", "sunset", day(2)), *PAIR.values(), KEY]


def around(constraint, depth):
    """Permanodes with a child with a child, and so on, that meets a constraint."""
    for _ in range(depth):
        constraint = node(relation=child(any=constraint))
    return constraint


# A constraint, and the names of the permanodes of an answer without a date.
PAIR_MEANINGS = [
    # So deep that evaluating both ways separately would never end.
    (around(TAGGED, queries.DEEPEST - 1), {"tagged", "other"}),
    (node(relation=parent(any=TAGGED)), {"tagged", "other"}),
    (node(relation=child(all=TAGGED)), {"alone"}),
    (node(attr="camliMember", valueInSet=TAGGED), {"tagged", "other"}),
    (node(attr="camliMember", valueInSet=TAGGED, at=BEFORE), set()),
    (node(at="2030-01-01T00:00:00Z", relation=parent(any=TAGGED)), {"tagged", "other"}),
    (node(at=BEFORE, relation=parent(any=TAGGED)), set()),
]


# Random stores

SECRETS = {"jefe": SECRET, "other": OTHER_SECRET, "late": LATE_SECRET, "lost": b"in no keyring"}
ATTRIBUTES = ("camliMember", "camliContent", "tag", "title", "\u00e4")
TEXTS = ("", "a", "b", "ab", "aba", "Letters", "\u00e9", "e\u0301", "\u20ac\U0001f600", "\U0001f600", 'q"\\', "a\nb")
FILE_NAMES = ("", "a", "notes.txt", "notes.pdf", "\u00e4.pdf", "\U0001f600", "../x", "a\tb", 'say "hi"')
# Some of them are the same moment.
DATES = (
    "2020-02-01T00:00:00Z",
    "2020-02-01T01:00:00+01:00",
    "2020-02-02T00:00:00Z",
    "2020-02-02T12:00:00.5Z",
    "2020-02-02T12:00:00.500000001Z",
    "2020-02-02T11:00:00.50-01:00",
    "2020-02-03T00:00:00Z",
    "2020-02-03T00:00:00.000Z",
    "2020-02-04T02:00:00+02:00",
    "1969-12-31T23:59:59.999999999Z",
    "2021-01-01T00:00:00Z",
    "0001-01-01T00:00:00Z",
    "9999-12-31T23:59:59.999999999Z",
)
ODD_BLOBS = [
    b"",
    b"abc",
    b"[]",
    b'{"camliVersion":1,"camliType":"symlink"}',
    b'{"camliVersion":1,"camliType":"permanode"}',
    b'{"camliVersion":1,"camliType":"file","parts":[],"fileName":1}',
    b'{"camliVersion":1,"camliType":"file","parts":[]}',
    b'{"camliVersion":1,"camliType":""}',
    '{"camliVersion":1,"camliType":"\u00e4"}'.encode(),
    b'{"camliVersion":2,"camliType":"file"}',
    writing.signed(writing.claim_head(DATES[0]) + ',"claimType":"other"'),
]


class RandomStore:
    """Blobs that refer to one another, half of them by their older names: keys, of which one is in no keyring and one
    is often in no store, permanodes, plain blobs, trees and files of which some aren't sound, and claims on all of
    them, including deletions of deletions."""

    def __init__(self, random):
        self.random, self.name_of = random, Names(random)
        keys = ["jefe", "other", "lost"] + (["late"] if random.random() < 0.3 else [])
        self.nodes, self.claims, self.plains, self.trees, self.files = [], [], [], [], []
        self.blobs = [key_blob(key) for key in keys]
        self.sizes, self.others = {}, {}
        self.texts, self.names = random.sample(TEXTS, 4), random.sample(FILE_NAMES, 4)
        for _ in range(random.randrange(4, 10)):
            self.add(self.nodes, permanode(f"{random.getrandbits(128):032x}", *self.signer()))
        for blob in random.sample(ODD_BLOBS, 4) + [random.randbytes(random.randrange(300)) for _ in range(2)]:
            self.add(self.plains, blob)
        for _ in range(random.randrange(2, 7)):
            self.add_tree(self.trees, bytes_blob)
        for _ in range(random.randrange(2, 7)):
            self.add_tree(self.files, lambda parts: file_blob(random.choice(self.names), parts))
        self.add(self.plains, directory("d", random.choice(self.files)))
        self.add(self.plains, static_set([random.choice(self.nodes)]))
        for ref in self.plains + self.trees + self.files:
            if random.random() < 0.5:
                node_ref, date = random.choice(self.nodes), random.choice(DATES)
                self.add(self.claims, claim("add", node_ref, "camliContent", ref, date, *self.signer()))
        for _ in range(random.choice((10, 20, 30, 45))):
            self.add(self.claims, self.changes() if random.random() < 0.72 or not self.claims else self.deletion())
        random.shuffle(self.blobs)

    def add(self, refs, blob):
        self.blobs.append(blob)
        ref = self.name_of(blob)
        refs.append(ref)
        self.sizes.setdefault(ref, len(blob))
        self.others[ref] = self.name_of.other(blob)

    def said(self, ref):
        """The ref, or occasionally the other one of its blob."""
        return self.others.get(ref, OLDER_ABSENT) if self.random.random() < OTHER_NAMES else ref

    def signer(self):
        """A signer, and its secret, occasionally a false one."""
        name = self.random.choices(("jefe", "other", "late", "lost"), (75, 15, 7, 3))[0]
        key, is_other = key_blob(name), self.random.random() < OTHER_NAMES
        ref = self.name_of.other(key) if is_other else self.name_of(key)
        return ref, SECRETS[name] if self.random.random() < 0.97 else b"false"

    def add_tree(self, refs, blob_of):
        parts, size = [], 0
        for _ in range(self.random.choice((0, 1, 1, 2, 3))):
            one, its_size = self.part()
            parts.append(one)
            size += its_size
        self.add(refs, blob_of(parts))
        # The length of a tree's own blob is checked when a part takes its bytes.
        self.sizes[refs[-1], "tree"] = size

    def part(self):
        """A part, and its size."""
        random, kind = self.random, self.random.randrange(100)
        if kind < 15:
            size = random.choice((0, 1, 7, 1_000_000, 2**40))
            return part(size, offset=random.choice((0, 0, 5))), size
        if kind < 18:
            return part(1, ABSENT, random.choice(("blobRef", "bytesRef"))), 1
        trees = self.trees + self.files
        of_tree = kind < 55 and trees
        ref = random.choice(trees if of_tree else self.plains + self.trees[:1])
        length = self.sizes[ref, "tree"] if of_tree else self.sizes[ref]
        offset = random.choice((0, 0, random.randrange(length + 1), length))
        size = random.choice((length - offset, length - offset, random.randrange(length - offset + 1)))
        if random.random() < 0.08:
            offset, size = (offset, length - offset + 1) if random.random() < 0.6 else (length + 1, 0)
        is_tree = of_tree if random.random() < 0.97 else not of_tree
        return part(size, self.said(ref), "bytesRef" if is_tree else "blobRef", offset), size

    def any_ref(self, random):
        pools = (self.nodes, self.files, self.trees, self.plains, self.claims or self.nodes, [ABSENT, OLDER_ABSENT])
        ref = random.choice(random.choices(pools, (70, 10, 4, 8, 5, 3))[0])
        return self.others[ref] if ref in self.others and random.random() < OTHER_NAMES else ref

    def odd_ref(self, random):
        """A string that is almost a ref."""
        ref = self.any_ref(random)
        name, _, digits = ref.partition("-")
        renamed = {"sha1": "sha224-", "sha224": "sha1-"}[name] + digits
        return random.choice((ref.upper(), ref[:-1], ref + " ", digits, renamed, "sha1-" + digits[:39]))

    def changes(self):
        """A claim of one change, or occasionally of several."""
        some = [self.change() for _ in range(self.random.choice(CHANGES_OF_A_CLAIM))]
        date, signer = self.random.choice(DATES), self.signer()
        return claim(*some[0], date, *signer) if len(some) == 1 else multi(some, date, *signer)

    def change(self):
        random = self.random
        on = self.said(random.choice(self.nodes)) if random.random() < 0.94 else self.any_ref(random)
        kind = random.choices(("set", "add", "del"), (3, 6, 2))[0]
        attribute = random.choices(ATTRIBUTES, (40, 14, 22, 18, 6))[0]
        if attribute == "camliContent":
            value = self.said(random.choice(self.files)) if random.random() < 0.6 else self.any_ref(random)
        elif attribute == "camliMember":
            value = self.any_ref(random) if random.random() < 0.94 else self.odd_ref(random)
        else:
            value = random.choice(self.texts)
        if kind == "del" and random.random() < 0.4:
            value = ""
        return kind, on, attribute, value

    def deletion(self):
        random = self.random
        pools = (self.claims, self.claims[-4:], self.nodes, self.plains + self.files)
        target = random.choice(random.choices(pools, (48, 33, 14, 5))[0])
        return delete(self.said(target), random.choice(DATES), *self.signer())

    def packs(self):
        """The blobs in one pack or two, some of them in both, or under both names."""
        if self.random.random() < 0.7:
            return {0: self.pack_of(self.blobs)}
        half = len(self.blobs) // 2
        return {0: self.pack_of(self.blobs[: half + 3]), self.random.randrange(1, 9): self.pack_of(self.blobs[half:])}

    def pack_of(self, blobs):
        return b"".join(records_of(self.random, blobs, self.name_of))


# Random queries

QUERY_DATES = DATES + ("2020-02-01T12:00:00Z", "2020-02-02T06:00:00+05:30", "2020-06-01T00:00:00Z")


class RandomQuery:
    """Makes queries of a random store."""

    def __init__(self, random, store):
        self.random = random
        self.store = store

    def query(self):
        random = self.random
        depth = random.choice((1, 1, 2, 2, 2, 3, 3, 4, 5))
        if random.random() < 0.3:
            # A constraint that is tried on blobs of all kinds.
            depth += 1
            attribute = random.choice(("camliContent", "camliMember"))
            query = {"constraint": node(attr=attribute, valueInSet=self.constraint(depth - 1, False))}
        else:
            query = {"constraint": self.constraint(depth, True)}
        if random.random() < 0.02:
            query["constraint"] = self.chain(query["constraint"], queries.DEEPEST - depth)
        if random.random() < 0.35:
            query["limit"] = random.choice((1, 1, 2, 3, 5, 200, queries.MOST_LIMIT))
        if random.random() < 0.6:
            query["sort"] = random.choice(("blobref", "mod", "-mod"))
        if random.random() < 0.45:
            query["at"] = random.choice(QUERY_DATES)
        return query

    def chain(self, constraint, length):
        """So many constraints around one."""
        for _ in range(length):
            constraint = self.around(constraint)
        return constraint

    def around(self, constraint):
        random = self.random
        kind = random.randrange(10)
        if kind < 3:
            return {"logical": {"op": "not", "a": constraint}}
        if kind < 6:
            both = [constraint, self.constraint(1, True)]
            random.shuffle(both)
            return logical(random.choice(("and", "or", "xor")), *both)
        if kind < 7:
            return node(attr="camliMember", valueInSet=constraint)
        which, how = random.choice(("parent", "child")), random.choice(("any", "all"))
        return node(relation={"relation": which, how: constraint})

    def constraint(self, depth, of_node):
        """A constraint of at most a depth, for permanodes or for any blob."""
        makers = {
            "logical": lambda: self.logical(depth - 1, of_node),
            "permanode": lambda: self.permanode(depth - 1),
            "file": self.file,
            "camliType": self.camli_type,
            "blobSize": lambda: self.int_test(self.store.sizes.values()),
            "blobRefPrefix": self.prefix,
            "anything": lambda: True,
        }
        weights = (28, 62, 2, 2, 3, 4, 2) if of_node else (14, 32, 20, 14, 10, 7, 3)
        names = self.random.choices(list(makers), weights, k=self.random.choices((1, 2, 3), (84, 13, 3))[0])
        if depth == 1:
            names = [name if name != "logical" else "permanode" for name in names]
        return {name: makers[name]() for name in dict.fromkeys(names)}

    def logical(self, depth, of_node):
        op = self.random.choices(("and", "or", "xor", "not"), (22, 30, 26, 22))[0]
        a, b = (self.constraint(self.random.randint(1, depth), of_node) for _ in range(2))
        return {"op": op, "a": a} if op == "not" else {"op": op, "a": a, "b": b}

    def file(self):
        test = {}
        if self.random.random() < 0.55:
            test["fileName"] = self.text_test(self.store.names)
        if self.random.random() < 0.45:
            test["fileSize"] = self.int_test([size for key, size in self.store.sizes.items() if type(key) is tuple])
        return test

    def camli_type(self):
        types = ("permanode", "claim", "file", "bytes", "directory", "static-set", "symlink", "", "\u00e4")
        return self.random.choice(types)

    def prefix(self):
        ref = self.store.any_ref(self.random)
        at = ref.index("-") + 1
        fronts = [ref[: at + more] for more in (1, 1, 2, 0)]
        return self.random.choice((ref, *fronts, ref[:4], "", ref[1:], ref[: at + 1].upper(), ref + "0"))

    def permanode(self, depth):
        random, test = self.random, {}
        if random.random() < 0.25:
            test["at"] = random.choice(QUERY_DATES)
        if random.random() < 0.72:
            self.add_attribute(test, depth)
        if depth > 0 and random.random() < (0.3 if "attr" in test else 0.9):
            how = random.choice(("any", "all"))
            which = random.choice(("parent", "child"))
            test["relation"] = {"relation": which, how: self.constraint(depth, which == "parent")}
        return test

    def add_attribute(self, test, depth):
        random = self.random
        test["attr"] = random.choices((*ATTRIBUTES, "none"), (30, 20, 22, 20, 6, 2))[0]
        is_ref = test["attr"] in ("camliMember", "camliContent")
        refs = [self.store.any_ref(random) for _ in range(3)] + [self.store.odd_ref(random)]
        values = refs if is_ref else self.store.texts
        if random.random() < 0.3:
            test["value"] = random.choice(values)
        if random.random() < 0.3:
            test["valueMatches"] = self.text_test(values)
        if depth > 0 and random.random() < (0.6 if is_ref else 0.05):
            test["valueInSet"] = self.constraint(depth, test["attr"] == "camliMember")
        if random.random() < 0.3:
            test["numValue"] = self.int_test((0, 1, 1, 2, 3))

    def int_test(self, numbers):
        number = self.random.choice(list(numbers) or [0])
        near = self.random.choice((number, number, number + 1, max(number - 1, 0)))
        far = self.random.choice((0, 2**64 - 1, near, number))
        return self.random.choice(({"min": near}, {"max": near}, {"min": near, "max": far}, {"min": far, "max": near}))

    def text_test(self, texts):
        random, test = self.random, {}
        for key in random.sample(list(queries.FORMS["text test"].keys), random.choice((1, 1, 1, 2, 3))):
            text = random.choice(texts) if random.random() < 0.9 else random.choice(TEXTS)
            start, end = sorted(random.randrange(len(text) + 1) for _ in range(2))
            test[key] = {
                "equals": text,
                "contains": text[start:end],
                "hasPrefix": text[:end],
                "hasSuffix": text[start:],
                "empty": random.random() < 0.4,
            }.get(key)
            if key == "byteLength":
                test[key] = self.int_test([len(text.encode())])
        return test
