"""Runs `perkeep permanode`, `claim`, `multi` and `delete`: the blobs that they put, searches then, and what they
refuse.

note_stores.py checks the blobs; the tests of `multi` alone are in multis.py.
"""

import concurrent.futures
import itertools
import os

import harness
import inputs
import multis
import reference
import writing
from faults import ends_with_fault, faults_of, is_durable_when_printed, own_calls
from harness import chance, check, compare, compare_ending, with_streams
from libraries import CLOCK, DICE, made_library
from note_stores import DATE, KEYRING, OTHERS, RANDOM, SECRETS, Notes, list_text
from reference import older_ref_of, ref_of
from refused_alike import SOURCE, bad_keyrings, bad_packs, ends_first, leaves, refused_lines, waits_too_long
from store_packs import write_deleted_records
from store_refusals import BAD_REFS
from stores import ABC, NOWHERE, TORN, Store, check_search, look
from tracing import need_strace, trace, traced
from writing import directory, keyring_line, pack, record, static_set

# The examples of docs/formats/schema.md, "Examples of written blobs"

EXAMPLE_KEY = "sha224-da4a89851a3c8f7ce55ef510378a1b717451b9f0b152bb73f28508dc"
EXAMPLE_NODE = "sha224-adef53a16a87934f7f5595fa4225e39e14c1c80a4e3ed252d959d9b1"
# The time of the clock, the text of its moment, the attribute and value of the claim on the permanode, and the claim's
# ref.
EXAMPLE_CLAIMS = [
    (
        "1577836800.0",
        "2020-01-01T00:00:00Z",
        ("set", "tag", "a"),
        "sha224-fdf2b2a7262df1d5a2da6a596527afe7a7c33c1241d7e446d13a7b61",
    ),
    (
        "1577836800.500000000",
        "2020-01-01T00:00:00.5Z",
        ("add", "title", 'say "hi"\n'),
        "sha224-92b1226fe36eba3cc713d64281482db4c435524c7425bff0abd59561",
    ),
    (
        "1577923200.0",
        "2020-01-02T00:00:00Z",
        ("del", "tag"),
        "sha224-81755f2723da750a7f5be6bd1d641ff84be48b8fead337b48c400e4f",
    ),
    (
        "1578009600.0",
        "2020-01-03T00:00:00Z",
        ("multi",),
        "sha224-177bc809399b42d748fadff3abe650ce4792b7daabcd03b7762710f1",
    ),
    (
        "1577923200.0",
        "2020-01-02T00:00:00Z",
        ("delete",),
        "sha224-a16318f853cbab45787c3ebbd3c5d3e350ea92d5a6b3c60adbff0669",
    ),
]


EXAMPLE_CHANGES = [
    ("set", EXAMPLE_NODE, "tag", "a"),
    ("add", EXAMPLE_NODE, "title", 'say "hi"\n'),
    ("del", EXAMPLE_NODE, "tag", ""),
]


def example_payload(date, kind, attribute="", *value):
    if kind == "delete":
        return writing.delete_payload(EXAMPLE_NODE, date)
    if kind == "multi":
        return writing.multi_payload(EXAMPLE_CHANGES, date)
    return writing.attribute_payload(kind, EXAMPLE_NODE, attribute, "".join(value), date)


def pages(program):
    """The blobs of writing.py alone, against the page."""
    blobs = [(EXAMPLE_KEY, writing.key_blob()), (EXAMPLE_NODE, writing.permanode())]
    blobs += [(ref, writing.signed(example_payload(date, *change))) for _, date, change, ref in EXAMPLE_CLAIMS]
    return [lambda ref=ref, blob=blob: compare(f"{blob}", "the ref", ref, ref_of(blob)) for ref, blob in blobs]


def lines_of(folder):
    """One valid line of each command over a folder; the input of the last one is SOURCE."""
    key = ("--key", "jefe")
    return [
        ["permanode", str(folder), *key],
        ["claim", str(folder), "set", ABC, "tag", "a", *key],
        ["delete", str(folder), ABC, *key],
        ["multi", str(folder), *key],
    ]


# Blobs that are put

def rows(program):
    checks = (first_note, stands_already, on_older, on_anything, side_by_side)
    return [lambda row=row: row(program) for row in checks]


def first_note(program):
    """A permanode, a claim on it and a delete of that: the key's blob is there once, before them."""
    store = Notes(program)
    node = store.permanode("the first permanode")
    claim = store.claim("the first claim", "set", node, "tag", "a")
    store.finds("the first claim", [node], "tag", "a")
    delete = store.delete("the first delete", claim)
    store.finds("the first delete", [], "tag", "a")
    compare("the first notes", "refs in order", [ref_of(inputs.KEY), node, claim, delete], list(store.blobs()))
    kinds = [reference.fact_of(blob).kind for blob in store.blobs().values()]
    compare("the first notes", "kinds", ["Key", "Permanode", "Claim", "Claim"], kinds)
    store.lists("the first notes")
    store.gets("the first notes", [*store.blobs(), NOWHERE])


def stands_already(program):
    """The key's blob isn't put if it is there; notes go to a new pack if the last one is torn."""
    for what, packs in [("the key stands", {0: pack(b"abc", inputs.KEY)}), ("a torn pack", {3: TORN})]:
        store = Notes(program, packs)
        node = store.permanode(what)
        store.claim(what, "add", node, "tag", "b")
        store.lists(what)


def on_older(program):
    """Notes on a permanode under its older name, whose own signer has both names: the refs are kept as given, and the
    key of a new note is the one that the program names."""
    node, what = writing.permanode(signer=older_ref_of(inputs.KEY)), "notes on an older permanode"
    ref = older_ref_of(node)
    store = Notes(program, {0: pack(inputs.KEY, node, name_of=older_ref_of)})
    claim = store.claim(what, "set", ref, "tag", "a")
    signers = [reference.fact_of(store.blobs()[one]).signed.signer for one in (ref, claim)]
    compare(what, "signers", [older_ref_of(inputs.KEY), ref_of(inputs.KEY)], signers)
    store.claim(what, "add", ref_of(node), "tag", "b")
    store.finds(what, [ref], "tag", "a")
    store.finds(what, [], "tag", "b")
    gone = store.delete(what, ref)
    store.finds(what, [], "tag", "a")
    store.delete(what, gone)
    store.finds(what, [ref], "tag", "a")
    store.lists(what)


def on_anything(program):
    """The target of a claim needn't be there, nor be a permanode."""
    store = Notes(program, {0: pack(b"abc")})
    refs = [NOWHERE, ABC, "sha224-" + "0" * 56, "sha224-" + "f" * 56, ref_of(inputs.KEY)]
    refs += [inputs.OLDER_ABSENT, older_ref_of(b"abc"), older_ref_of(inputs.KEY)]
    refs += ["sha1-" + "0" * 40, "sha1-" + "f" * 40]
    for ref in refs:
        for kind in ("set", "add", "del"):
            store.claim(f"{kind} on {ref}", kind, ref, "tag", "a")
        store.delete(f"delete of {ref}", ref)
    store.finds("claims on no permanode", [], "tag", "a")


AT_ONCE, NOTES = 6, 30


def side_by_side(program):
    """Permanodes by several programs at a time: none is lost, none is there twice, the key is there once."""
    what, store = f"{NOTES} permanodes by {AT_ONCE} at once", Notes(program)

    def note(number):
        status, out, err = program.run(what, store.words("permanode", "--key", "jefe"))
        compare_ending(what, 0, status, err)
        return out.decode().strip()

    with concurrent.futures.ThreadPoolExecutor(AT_ONCE) as pool:
        refs = list(pool.map(note, range(NOTES)))
    store.packs = reference.packs_of(store.files())
    blobs = store.blobs()
    compare(what, "what stands", sorted([ref_of(inputs.KEY), *refs]), sorted(blobs))
    compare(what, "records", len(blobs), sum(len(reference.salvage(content)[0]) for content in store.packs.values()))
    drawn = [bytes.fromhex(RANDOM.search(blobs[ref])[1].decode()) for ref in refs]
    same = [place for place in range(16) if len({one[place] for one in drawn}) == 1]
    compare(what, "places at which all random bytes are the same", [], same)
    for ref, one in zip(refs, drawn):
        compare(what, "a permanode", writing.permanode(one.hex()), blobs[ref])


def keys(program):
    """Each key of a keyring signs under its own name."""
    return [lambda: signs(program, [name]) for name in SECRETS] + [lambda: signs(program, list(SECRETS))]


def signs(program, names):
    store = Notes(program)
    nodes = [store.permanode(f"a permanode of {name}", name) for name in names]
    for name, node in zip(names, reversed(nodes)):
        store.claim(f"a claim of {name}", "set", node, "tag", name, key=name)
        store.finds(f"a claim of {name}", [node], "tag", name)
    for name, node in zip(names, nodes):
        store.delete(f"a delete of {name}", node, name)
    store.finds("all are deleted", [], "tag", names[0])


# Texts

# Strings that JSON escapes, and some that it doesn't. Arguments can't contain the character 0.
TEXTS = [*map(chr, range(1, 32)), "".join(map(chr, range(1, 128)))]
TEXTS += ['"', "\\", "\x7f", "\x80", "\x85", "/", " ", "'", "<", "&", "=", "-", "--", "--key"]
TEXTS += ['\\"', '"\\', "\\\\", "\\n", "\\u0041", "a\\", '""', "\r\n", "\x1b[0m", " a ", "a,b:c"]
TEXTS += ["\u00e4", "a\u0308", "\u20ac", "\u2028\u2029", "\ufeff", "\ufffd\uffff", "\ud7ff\ue000", "\U0001f600"]
TEXTS += ['a "quoted" \\ text\b\f\n\r\t\x1f\x7f \u00e9\u672c ,"camliSig":"']
TEXTS += ['","camliSig":"', ',"camliSig":"' + "0" * 64 + '"}\n', '"}', "}", '{"a":1}', "null", "0", '","value":"b']
STORES_OF_TEXTS = 4


def texts(program):
    """Attributes and values of all kinds of strings: the blobs that are put, and that they are found."""
    shares = [TEXTS[number::STORES_OF_TEXTS] for number in range(STORES_OF_TEXTS)]
    return [lambda share=share: has_texts(program, share) for share in shares]


def has_texts(program, its_texts):
    store = Notes(program)
    node = store.permanode("a permanode")
    for text in its_texts:
        store.claim(f"the text {text!r}", "add", node, text, text)
        store.claim(f"the value {text!r}", "add", node, "tag", text)
    archive = reference.archive_of_store(store.packs, KEYRING)
    for text in its_texts:
        for attribute in (text, "tag"):
            compare(f"the text {text!r}", "the reference", [node], archive.holders(attribute, text))
            check_search(store, archive, attribute, text, None)
    for text in its_texts[::4]:
        store.claim(f"del of {text!r}", "del", node, "tag", text)
        store.claim(f"del of all of {text!r}", "del", node, text)
        store.finds(f"del of {text!r}", [], "tag", text)
        store.finds(f"del of all of {text!r}", [], text, text)


# The longest argument that Linux accepts, including the 0 at its end.
LONGEST_WORD = 131_072 - 1


def long_texts(program):
    """Claims whose blobs have about the greatest length, and one byte too many (docs/formats/schema.md, "Kinds")."""
    cases = itertools.product((-1, 0, 1, 11), ("set", "del"))
    return [lambda more=more, kind=kind: near_the_limit(program, more, kind) for more, kind in cases]


def near_the_limit(program, more, kind):
    """A claim that has so many bytes more than the limit, if its date has the most digits."""
    what, store = f"{kind} with {more} bytes above the limit", Notes(program, {0: pack(b"abc")})
    longest_date = "2020-01-01T00:00:00.123456789Z"
    room = reference.LARGEST_SCHEMA_BLOB + more - len(writing.claim(kind, NOWHERE, "a", "b", longest_date))
    # Characters that take six bytes, and as many of one byte as are left over.
    attribute = "a" + "\1" * (LONGEST_WORD - 1)
    rest = room - 6 * (LONGEST_WORD - 1)
    value = "b" + "\1" * (rest // 6) + "c" * (rest % 6)
    length = len(writing.claim(kind, NOWHERE, attribute, value, longest_date))
    compare(what, "length", reference.LARGEST_SCHEMA_BLOB + more, length)
    line = store.words("claim", kind, NOWHERE, attribute, value, "--key=jefe")
    if more <= 0:
        store.claim(what, kind, NOWHERE, attribute, value, words=line)
    elif more > len(longest_date) - len("2020-01-01T00:00:00Z"):
        store.keeps(what, line, status=4)
        missing = program.new_path()
        leaves(program, f"{what}, no folder", ["claim", str(missing), *line[2:]], 4, missing)
    else:
        ends_either_way(store, what, line, kind, attribute, value)


def ends_either_way(store, what, line, kind, attribute, value):
    """If the moment that is drawn has a short text, the claim still fits."""
    before = look(store.path)
    status, out, err = store.program.run(what, line)
    compare_ending(what, status and 4, status, err)
    if status == 0:
        payload_of = lambda date: writing.attribute_payload(kind, NOWHERE, attribute, value, date)
        ref = store.noted(what, "jefe", DATE, payload_of, out)
        check(f"{what}: it is too long", len(store.blobs()[ref]) <= reference.LARGEST_SCHEMA_BLOB)
    else:
        compare(what, "the folder", before, look(store.path))
        compare(what, "standard output", b"", out)


# Claims in time

# The steps one after another, and the values of `tag` then. A number is the step that is deleted, and `node` the
# permanode.
STEPS = [
    (("set", "tag", "a"), ["a"]),
    (("add", "tag", "b"), ["a", "b"]),
    (("add", "title", "c"), ["a", "b"]),
    (("add", "tag", "a"), ["a", "b"]),
    (("del", "tag", "a"), ["b"]),
    (("set", "tag", ""), [""]),
    (("add", "tag", "b"), ["", "b"]),
    (("del", "tag"), []),
    (7, ["", "b"]),
    (8, []),
    (9, ["", "b"]),
    (("del", "tag", ""), []),
    (11, ["", "b"]),
    (("del", "title", ""), ["", "b"]),
    ("node", []),
    (14, ["", "b"]),
    (15, []),
    (16, ["", "b"]),
    (5, ["b", "b"]),
    (4, ["a", "b", "a", "b"]),
    (("del", "tag", "x"), ["a", "b", "a", "b"]),
    (("set", "tag", "x"), ["x"]),
]


def changes(program):
    return [lambda: in_steps(program)] + [lambda number=number: random_changes(program, number) for number in range(3)]


def in_steps(program):
    """Claims, deletions and deletions of deletions, with searches after each, and again at the dates between them."""
    store = Notes(program)
    node = store.permanode("a permanode")
    other = store.permanode("another permanode")
    store.claim("another claim", "set", other, "tag", "b")
    refs, values = [], []
    for number, (step, values_then) in enumerate(STEPS):
        what = f"step {number}, {step}"
        if isinstance(step, tuple):
            refs.append(store.claim(what, step[0], node, *step[1:]))
        else:
            refs.append(store.delete(what, node if step == "node" else refs[step]))
        values.append(values_then)
        has_values(store, what, node, other, values_then)
    moments = store.moments[1:]
    compare("the moments", "their order", sorted(set(moments)), moments)
    for number, moment in enumerate(moments):
        has_values(store, f"before step {number}", node, other, values[number - 1] if number > 0 else [], moment - 1)
        has_values(store, f"at step {number}", node, other, values[number], moment)


def has_values(store, what, node, other, values, at=None):
    for value in ("a", "b", "", "x"):
        found = [node] if value in values else []
        store.finds(what, found + [other] if value == "b" else found, "tag", value, at)


def random_changes(program, number):
    """Random claims of several keys on a few permanodes, half of which were there before under their older names,
    searched at random moments."""
    random, names = chance("changes", number), list(SECRETS)[:3]
    keys = [(older_ref_of(writing.key_blob(name)), SECRETS[name]) for name in names]
    older = [writing.permanode(f"{place:032x}", *random.choice(keys)) for place in range(3)]
    store = Notes(program, {0: pack(*map(writing.key_blob, names), *older, name_of=older_ref_of)})
    nodes = [*map(older_ref_of, older)] + [store.permanode("a permanode", random.choice(names)) for _ in range(3)]
    refs = []
    for place in range(40):
        what, key = f"change {place}", random.choice(names)
        if refs and random.random() < 0.3:
            refs.append(store.delete(what, random.choice(refs[-8:] + nodes[:1]), key))
        elif random.random() < 0.3:
            pools = nodes, ("tag", "title"), inputs.RANDOM_VALUES
            kinds = random.choices(("set", "add", "add", "del"), k=random.randrange(1, 9))
            refs.append(store.multi(what, [(kind, *map(random.choice, pools)) for kind in kinds], key=key))
        else:
            kind, value = random.choice(("set", "add", "add", "del")), random.choice(inputs.RANDOM_VALUES)
            given = () if kind == "del" and value == "" and random.random() < 0.5 else (value,)
            refs.append(store.claim(what, kind, random.choice(nodes), random.choice(("tag", "title")), *given, key=key))
    archive = reference.archive_of_store(store.packs, KEYRING)
    for moment in [None, *random.sample(store.moments, 8)]:
        attribute, value = random.choice(("tag", "title")), random.choice(inputs.RANDOM_VALUES)
        for at in {moment, moment and moment - 1}:
            check_search(store, archive, attribute, value, None if at is None else reference.date_text(at))


# Words

def words(program):
    """Lines that aren't valid: status 2, whatever the keyring is. Valid lines in all their forms."""
    store = Store(program, {0: pack(b"abc")}, {"keyring": b"a bad keyring"})
    folder = str(store.path)
    return refused_lines(store, "words", bad_lines(folder, ABC), 2) + [lambda: good_lines(program)]


def bad_lines(folder, ref):
    key = ("--key", "jefe")
    of_claims = bad_claims(folder, ref, key) + bad_deletes(folder, ref, key) + bad_multis(folder, key)
    return bad_permanodes(folder, key) + of_claims


def bad_permanodes(folder, key):
    return [
        ("permanode",),
        ("permanode", folder),
        ("permanode", *key),
        ("permanode", folder, "--key"),
        ("permanode", folder, "jefe"),
        ("permanode", folder, "x", *key),
        ("permanode", folder, "--key", "-"),
        ("permanode", folder, "--key", "--key"),
        ("permanode", folder, "--key", "--", "jefe"),
        ("permanode", folder, "--", *key),
        ("permanode", folder, *key, *key),
        ("permanode", folder, *key, "--key=jefe"),
        ("permanode", folder, "--Key", "jefe"),
        ("permanode", folder, "--keys=jefe"),
        ("permanode", folder, "-key", "jefe"),
        ("permanode", folder, *key, "--at", inputs.DATE),
        ("permanode", folder, *key, "--random=" + writing.RANDOM),
        ("permanode", folder, *key, "--help"),
        ("permanodes", folder, *key),
        ("Permanode", folder, *key),
        ("--", "permanode", folder, *key),
        (*key, "permanode", folder),
        ("permanode", folder, "--key", b"\xff"),
    ]


def bad_claims(folder, ref, key):
    lines = [
        ("claim", *key),
        ("claim", folder, *key),
        ("claim", folder, "set", *key),
        ("claim", folder, "set", ref, *key),
        ("claim", folder, "set", ref, "tag", *key),
        ("claim", folder, "add", ref, "tag", *key),
        ("claim", folder, "del", ref, *key),
        ("claim", folder, "set", ref, "tag", "a"),
        ("claim", folder, "del", ref, "tag"),
        ("claim", folder, "set", ref, "tag", "a", "b", *key),
        ("claim", folder, "del", ref, "tag", "a", "b", *key),
        ("claim", folder, "set", ref, "tag", "-a", *key),
        ("claim", folder, "set", ref, "-tag", "a", *key),
        ("claim", folder, "set", ref, "tag", "-", *key),
        ("claim", folder, "set", ref, "tag", "a", *key, "--at", inputs.DATE),
        ("claim", folder, "set", ref, "--attr", "tag", "--value", "a", *key),
        ("claim", folder, "set", ref, "tag", b"\xff", *key),
        ("claim", folder, "del", b"\xff", "tag", *key),
        ("claims", folder, "set", ref, "tag", "a", *key),
    ]
    kinds = ("", "Set", "SET", "set ", "sets", "set-attribute", "remove", "delete", "get", ref)
    return lines + [("claim", folder, kind, ref, "tag", "a", *key) for kind in kinds] + [
        ("claim", folder, kind, ref, "tag", *key) for kind in ("", "Del", "dels", "del-attribute")
    ]


def bad_deletes(folder, ref, key):
    return [
        ("delete", folder, *key),
        ("delete", folder, ref),
        ("delete", folder, ref, ref, *key),
        ("delete", folder, ref, "jefe"),
        ("delete", folder, ref, "--key="[:-1]),
        ("delete", folder, ref, *key, "--key=jefe"),
        ("delete", folder, ref, *key, "--at=" + inputs.DATE),
        ("deletes", folder, ref, *key),
        ("delete", ref, *key),
    ]


def bad_multis(folder, key):
    return [
        ("multi",),
        ("multi", folder),
        ("multi", *key),
        ("multi", folder, "jefe"),
        ("multi", folder, "x", *key),
        ("multi", folder, SOURCE.decode(), *key),
        ("multi", folder, "--key"),
        ("multi", folder, *key, "--key=jefe"),
        ("multi", folder, *key, "--at", inputs.DATE),
        ("multi", folder, "-", *key),
        ("multis", folder, *key),
        ("Multi", folder, *key),
        ("claim", folder, "multi", *key),
    ]


def good_lines(program):
    """Options before positions, between and after them; positions after `--`."""
    store = Notes(program)
    folder, key = str(store.path), ("--key", "jefe")
    node = ABC
    for form in [
        ("permanode", folder, *key),
        ("permanode", *key, folder),
        ("permanode", "--key=jefe", folder),
        ("permanode", folder, "--key=jefe", "--"),
        ("permanode", *key, "--", folder),
    ]:
        node = store.permanode(f"words {form}", words=list(form))
    for form, kind, value in [
        (("claim", folder, "set", node, "tag", "a", *key), "set", "a"),
        (("claim", *key, folder, "add", node, "tag", "a"), "add", "a"),
        (("claim", folder, "del", "--key=jefe", node, "tag", "a"), "del", "a"),
        (("claim", folder, "del", node, "tag", *key), "del", ""),
        (("claim", "--key=jefe", "--", folder, "del", node, "tag"), "del", ""),
        (("claim", folder, "del", node, "tag", "", *key), "del", ""),
        (("claim", folder, "set", node, "tag", "", *key), "set", ""),
        (("claim", folder, "add", node, "tag", "--key", "jefe", ""), "add", ""),
        (("claim", *key, folder, "add", node, "tag", "--", "-a"), "add", "-a"),
        (("claim", folder, "--key=jefe", "set", "--", node, "tag", "--"), "set", "--"),
    ]:
        store.claim(f"words {form}", kind, node, "tag", value, words=list(form))
    for form in [
        ("delete", folder, node, *key),
        ("delete", *key, "--", folder, node),
        ("delete", folder, "--key=jefe", node, "--"),
    ]:
        store.delete(f"words {form}", node, words=list(form))
    for form in [
        ("multi", folder, *key),
        ("multi", *key, folder),
        ("multi", "--key=jefe", "--", folder),
        ("multi", folder, "--key=jefe", "--"),
    ]:
        store.multi(f"words {form}", [("set", node, "tag", "a")], words=list(form))


BAD_KEYS = ["", "Jefe", "je fe", "jefe ", "jefe\n", "je_fe", "k" * 65, "\u00e4", "jefe\u0301", "a.b"]
NO_KEYS = ["none", "jef", "jefe-", "k" * 63, "-jefe", "4a656665"]


def refused_texts(program):
    """Texts that can't be used, and keys that the keyring lacks: status 4, whatever the disk has."""
    store = Notes(program, {0: pack(b"abc"), 2: pack(b"abc") + b"[torn"})
    folder, missing, key = str(store.path), program.new_path(), ("--key", "jefe")
    lines = [("permanode", folder, f"--key={name}") for name in BAD_KEYS + NO_KEYS]
    lines += [("claim", folder, "set", ABC, "tag", "a", f"--key={name}") for name in BAD_KEYS + NO_KEYS]
    lines += [("delete", folder, ABC, f"--key={name}") for name in BAD_KEYS + NO_KEYS]
    lines += [("multi", folder, f"--key={name}") for name in BAD_KEYS + NO_KEYS]
    lines += [("claim", folder, kind, ref, "tag", "a", *key) for kind in ("set", "add", "del") for ref in BAD_REFS]
    lines += [("claim", folder, kind, ABC, "", "a", *key) for kind in ("set", "add", "del")]
    lines += [("claim", folder, "del", ABC, "", *key), ("claim", folder, "set", "", "", "", *key)]
    lines += [("delete", folder, ref, *key) for ref in BAD_REFS]
    without = Store(program, {0: pack(b"abc", inputs.KEY)})
    empty = Store(program, {}, {"keyring": b""})
    other = Store(program, {0: inputs.EXAMPLE}, {"keyring": keyring_line("other")})
    checks = refused_lines(store, "texts", lines, 4)
    for what, one in [("no keyring", without), ("an empty keyring", empty), ("another key's keyring", other)]:
        checks += refused_lines(one, what, lines_of(one.path), 4)
    return checks + [
        lambda line=line: leaves(program, f"no folder: {line}", line, 4, missing) for line in lines_of(missing)
    ]


# Failures of the machine

def keyrings(program):
    return bad_keyrings(program, lines_of)


def folders(program):
    """Packs that can't be read, and a folder that stays locked."""
    return [
        lambda number=number: waits_too_long(program, lambda folder: lines_of(folder)[number], OTHERS)
        for number in range(4)
    ] + bad_packs(program, lines_of, OTHERS)


def full(program):
    """A store that accepts no more blobs, or only one: then the key's blob is there."""
    torn = Notes(program, {99_999: pack(b"abc") + b"x"})
    keyed = Notes(program, {99_998: pack(inputs.KEY), 99_999: b"x"})
    return refused_lines(torn, "a full store", lines_of(torn.path), 9) + refused_lines(
        keyed, "a full store with the key", lines_of(keyed.path), 9
    ) + [lambda line=line: room_for_one(program, line) for line in lines_of("")]


def room_for_one(program, line):
    """The last pack accepts the key's blob, and then no more."""
    what, store = f"room for the key: {line}", Store(program, {}, OTHERS)
    path = store.path / reference.pack_name(reference.LAST_PACK)
    length, key = reference.BYTES_OF_A_FULL_PACK - 1, record(inputs.KEY)
    write_deleted_records(path, length)
    program.check(what, [line[0], str(store.path), *line[2:]], status=9, source=SOURCE)
    compare(what, "length of the pack", length + len(key), path.stat().st_size)
    with open(path, "rb") as file:
        file.seek(length)
        compare(what, "what was added", key, file.read())
    compare(what, "names of files", ["keyring", path.name], sorted(entry.name for entry in store.path.iterdir()))
    path.unlink()


def streams(program):
    """Standard output that accepts nothing: the blobs that were put are kept. Standard input isn't read."""
    return [lambda check=check: check(program) for check in (kept_though_unsaid, closed_input, which_is_first)]


def kept_though_unsaid(program):
    for what, stream in [("full", {"sink": "/dev/full"}), ("closed", {"closed": 1})]:
        store = Notes(program, {0: pack(b"abc")})
        node = store.permanode("a permanode")
        claim = ("add", node, "tag", "a")
        for pattern, line, payload_of in [
            (RANDOM, ["permanode", str(store.path)], writing.permanode_payload),
            (DATE, store.words("claim", *claim), lambda date: writing.attribute_payload(*claim, date)),
            (DATE, store.words("delete", node), lambda date: writing.delete_payload(node, date)),
        ]:
            told = f"{line[0]}, standard output is {what}"
            with_streams(program, told, [*line, "--key=jefe"], 6, folder=program.working, **stream)
            before = set(store.blobs())
            now = reference.arrivals(reference.packs_of(store.files()))
            new = [ref for ref in now if ref not in before]
            compare(told, "blobs that were put", 1, len(new))
            store.noted(told, "jefe", pattern, payload_of, new[0].encode() + b"\n")


def closed_input(program):
    """Standard input may be closed, and nothing of it is read, except by `multi`."""
    store = Notes(program, {})
    source = program.new_path()
    source.write_bytes(b"a source")
    for line in lines_of(store.path)[:-1]:
        with_streams(program, f"{line}, standard input is closed", line, 0, closed=0, folder=program.working)
        with open(source, "rb", buffering=0) as file:
            with_streams(program, f"{line}", line, 0, source=file.fileno(), folder=program.working)
            compare(f"{line}", "what was read", 0, os.lseek(file.fileno(), 0, os.SEEK_CUR))
    kinds = [reference.fact_of(blob).kind for blob in reference.arrivals(reference.packs_of(store.files())).values()]
    compare("standard input is closed", "kinds", ["Key", *["Permanode"] * 2, *["Claim"] * 4], kinds)


def which_is_first(program):
    """If several things are wrong, the first one is reported."""
    broken = Store(program, {}, {"keyring": b"x"})
    unread = Store(program, {})
    (unread.path / "keyring").mkdir()
    failing = Store(program, {0: b""}, OTHERS)
    (failing.path / "pack-00001.blobs").mkdir()
    full_store = Store(program, {99_999: b"x"}, OTHERS)
    key, none, sink = "--key=jefe", "--key=none", {"sink": "/dev/full"}
    long = "\1" * (LONGEST_WORD - 1)
    ends_first(program, [
        ("words before the keyring", broken.words("permanode"), 2, sink),
        ("words before texts", unread.words("claim", "set", "x", "", "a"), 2, sink),
        ("the keyring before texts", unread.words("claim", "set", "x", "", "a", key), 5, sink),
        ("the keyring before the key", unread.words("permanode", none), 5, sink),
        ("texts before the disk", failing.words("delete", "x", key), 4, sink),
        ("an empty attribute before the disk", failing.words("claim", "set", ABC, "", "a", none), 4, sink),
        ("the key before the disk", failing.words("permanode", none), 4, sink),
        ("the disk before the sink", failing.words("permanode", key), 7, sink),
        ("the disk before a long claim", failing.words("claim", "set", ABC, long, long, key), 7, sink),
        ("a long claim before a full store", full_store.words("claim", "set", ABC, long, long, key), 4, sink),
        ("a full store before the sink", full_store.words("delete", ABC, key), 9, sink),
    ])


# A realistic store

PERMANODES, FILES = 40, 12
MEMBERS_OF_TRIPS = (
    b'{"constraint":{"permanode":{"relation":{"relation":"parent",'
    b'"any":{"permanode":{"attr":"title","value":"trips"}}}}}}'
)


def realistic(program):
    """Forty permanodes with titles, tags and members, twelve files, and a directory with its set, in one pack: all of
    it is found, and the pack is clean."""
    return [lambda: holds_all(program)]


def holds_all(program):
    what, store = "a realistic store", Notes(program)
    nodes = [store.permanode(what) for _ in range(PERMANODES)]
    titles = {node: "trips" if place == 0 else f"the {place}. of them" for place, node in enumerate(nodes)}
    for place, node in enumerate(nodes):
        store.claim(what, "set", node, "title", titles[node])
        store.claim(what, "add", node, "tag", f"tag {place % 3}")
        store.claim(what, "add", nodes[place // 3], "camliMember", node)
    contents = [chance(what, number).randbytes(2_300_000) for number in range(FILES)]
    names = [store.put_file(what, f"photo {number}.jpg", content) for number, content in enumerate(contents)]
    for blob in (static_set(names), directory("trips", ref_of(static_set(names)))):
        store.put(what, blob)
    compare(what, "packs", [0], list(store.packs))
    compare(what, "blobs", 1 + 4 * PERMANODES + 4 * FILES + 2, len(store.blobs()))
    store.lists(what)
    for node in nodes:
        store.finds(what, [node], "title", titles[node])
    for number in range(3):
        store.finds(what, nodes[number::3], "tag", f"tag {number}")
    for place, node in enumerate(nodes):
        store.finds(what, [nodes[place // 3]], "camliMember", node)
    members = reference.search_text(sorted(nodes[:3])) + b"\n"
    program.check(f"{what}: the members of trips", store.words("query"), members, source=MEMBERS_OF_TRIPS)


# The clock and the random bytes

def known_dice(program):
    """A permanode with given random bytes: its ref is known before, and the store has the key and it."""
    library = made_library(program, "dice", DICE)
    return [lambda: first_permanode(program, library)]


def first_permanode(program, library):
    what, store, other = "known random bytes", Notes(program), Notes(program)
    dice = {"front": ("env", f"LD_PRELOAD={library}", f"TEST_DICE={writing.RANDOM}")}
    ref = store.note(what, store.words("permanode", "--key=jefe"), "jefe", RANDOM, writing.permanode_payload, **dice)
    compare(what, "the ref", EXAMPLE_NODE, ref)
    compare(what, "refs", [EXAMPLE_KEY, EXAMPLE_NODE], list(store.blobs()))
    status, out, err = program.run(what, other.words("permanode", "--key=nobody"), **dice)
    compare_ending(f"{what}, but no key", 4, status, err)
    compare(f"{what}, but no key", "standard output", b"", out)
    other.check_files(f"{what}, but no key")


def dice(program):
    """Random bytes that can't be read: a permanode fails with status 12, before the disk; claims don't need them."""
    need_strace(program)
    return [lambda: no_random_bytes(program)]


def no_random_bytes(program):
    what, fault = "no random bytes", ("getrandom:error=EIO",)
    store, missing = Notes(program, {0: pack(b"abc")}), program.new_path()
    failing = Store(program, {}, OTHERS)
    (failing.path / "pack-00001.blobs").mkdir()
    for folder, line, status in [
        (store.path, store.words("permanode", "--key=jefe"), 12),
        (failing.path, failing.words("permanode", "--key=jefe"), 12),
        (store.path, store.words("permanode", "--key=none"), 4),
        (missing, ["permanode", str(missing), "--key=jefe"], 4),
    ]:
        before = look(folder)
        is_status, out, err, _ = trace(program, line, faults=fault)
        compare_ending(f"{what}: {line}", status, is_status, err)
        compare(f"{what}: {line}", "standard output", b"", out)
        compare(f"{what}: {line}", "the folder", before, look(folder))
    is_status, _, err, _ = trace(program, store.words("delete", ABC, "--key=jefe"), faults=fault)
    compare_ending(f"{what}: delete", 0, is_status, err)


# Calls that fail, and the order of syncs

def failing(program):
    """Each call of a permanode in turn fails: then the key's blob may be there, or both."""
    need_strace(program)
    checks = []
    for packs in ({}, {0: pack(b"abc") + b"[torn"}, {0: pack(inputs.KEY)}):
        store = Notes(program, packs)
        calls = traced(program, "a permanode", store.words("permanode", "--key=jefe"))
        is_synced(store, calls, packs)
        checks += [
            lambda packs=packs, call=call, fault=fault: note_fails(program, packs, call, fault)
            for call in own_calls(calls, store.path)
            for fault in faults_of(call)
        ]
    return checks


def is_synced(store, calls, packs):
    what = f"a permanode beside {sorted(packs)}"
    is_durable_when_printed(what, calls, store.path, reference.pack_for_the_next_record(packs), packs, False)
    for line in (store.words("claim", "set", ABC, "tag", "a"), store.words("delete", ABC), store.words("multi")):
        before = reference.packs_of(store.files())
        calls = traced(store.program, line[0], [*line, "--key=jefe"], SOURCE)
        is_durable_when_printed(line[0], calls, store.path, reference.pack_for_the_next_record(before), before, False)


def note_fails(program, packs, call, fault):
    what, store = f"{' and '.join(fault)} beside {sorted(packs)}", Notes(program, packs)
    key, known = ref_of(inputs.KEY), store.blobs()
    status, out, _ = ends_with_fault(what, store, store.words("permanode", "--key=jefe"), b"", call, fault)
    lacked = [ref for ref in [key] if ref not in known]
    stand = [ref for ref in store.blobs() if ref not in known]
    if status in (0, 6) or len(stand) > len(lacked):
        random = RANDOM.search(store.blobs()[stand[-1]] if stand else b"")
        check(f"{what}: {stand} has no permanode", random)
        compare(what, "blobs that stand", [*lacked, ref_of(writing.permanode(random[1].decode()))], stand)
    else:
        compare(what, "blobs that stand", lacked[: len(stand)], stand)
    compare(what, "standard output", stand[-1].encode() + b"\n" if status == 0 else b"", out)
    for line in (store.words("permanode"), store.words("delete", ABC)):
        told = f"{what}, the {line[0]} after it"
        status, out, err = program.run(told, [*line, "--key=jefe"])
        compare_ending(told, 0, status, err)
        stand = reference.arrivals(reference.packs_of(store.files()))
        compare(told, "whether what it printed stands", True, out.decode().strip() in stand)


def clock(program):
    """Claims under a clock that is set: the text of each moment, and the clock's failures."""
    library = made_library(program, "clock", CLOCK)
    moments = [lambda time=time, date=date: tells(program, library, time, date) for time, date in TIMES]
    examples = [lambda example=example: makes_example(program, library, *example) for example in EXAMPLE_CLAIMS]
    return moments + examples + [lambda time=time: fails(program, library, time) for time in NO_TIMES]


TIMES = [
    ("0.0", "1970-01-01T00:00:00Z"),
    ("0.1", "1970-01-01T00:00:00.000000001Z"),
    ("1322440356.500000000", "2011-11-28T00:32:36.5Z"),
    ("951782399.999999999", "2000-02-28T23:59:59.999999999Z"),
    ("951782400.120000000", "2000-02-29T00:00:00.12Z"),
    ("1709164800.000100000", "2024-02-29T00:00:00.0001Z"),
    ("1735689599.100000001", "2024-12-31T23:59:59.100000001Z"),
    ("4107542400.0", "2100-03-01T00:00:00Z"),
    ("253402300799.999999999", "9999-12-31T23:59:59.999999999Z"),
]
NO_TIMES = ["253402300800.0", "9000000000000.0", ""]


def under_clock(library, time):
    return {"front": ("env", f"LD_PRELOAD={library}", f"TEST_CLOCK={time}")}


def tells(program, library, time, date):
    what, store, clock = f"the time {time}", Notes(program), under_clock(library, time)
    _, claim_line, delete_line, multi_line = lines_of(store.path)
    claim_payload = writing.attribute_payload("set", ABC, "tag", "a", date)
    store.note(what, claim_line, "jefe", DATE, lambda drawn: claim_payload, **clock)
    delete_payload = writing.delete_payload(ABC, date)
    store.note(what, delete_line, "jefe", DATE, lambda drawn: delete_payload, **clock)
    multi_payload = writing.multi_payload([("set", ABC, "tag", "a")], date)
    store.note(what, multi_line, "jefe", DATE, lambda drawn: multi_payload, source=SOURCE, **clock)


def makes_example(program, library, time, date, change, ref):
    what, store, kind = f"the example {change}", Notes(program), change[0]
    of_kind = {"delete": ["delete", EXAMPLE_NODE], "multi": ["multi"]}
    words = of_kind.get(kind, ["claim", kind, EXAMPLE_NODE, *change[1:]])
    payload, source = example_payload(date, *change), list_text(EXAMPLE_CHANGES).encode()
    line = store.words(*words, "--key=jefe")
    made = store.note(what, line, "jefe", DATE, lambda drawn: payload, source=source, **under_clock(library, time))
    compare(what, "the ref", ref, made)
    compare(what, "refs", [EXAMPLE_KEY, ref], list(store.blobs()))


def fails(program, library, time):
    """A time that isn't a moment: status 12, before the disk, but after the key. A permanode needs no time."""
    store, failing = Notes(program, {0: pack(b"abc")}), Store(program, {}, OTHERS)
    (failing.path / "pack-00001.blobs").mkdir()
    for one in (store, failing):
        _, claim_line, delete_line, multi_line = lines_of(one.path)
        no_key = one.words("delete", ABC, "--key=none")
        for line, status in [(claim_line, 12), (delete_line, 12), (multi_line, 12), (no_key, 4)]:
            what, before = f"the time {time}: {line}", look(one.path)
            is_status, out, err = program.run(what, line, SOURCE, **under_clock(library, time))
            compare_ending(what, status, is_status, err)
            compare(what, "standard output", b"", out)
            compare(what, "the folder", before, look(one.path))
    # A list that isn't valid is reported before the clock is read.
    what = f"the time {time}: no list"
    is_status, _, err = program.run(what, lines_of(store.path)[-1], b"[]", **under_clock(library, time))
    compare_ending(what, 4, is_status, err)
    what, clock = f"the time {time}: a permanode", under_clock(library, time)
    store.note(what, lines_of(store.path)[0], "jefe", RANDOM, writing.permanode_payload, **clock)


GROUPS = [pages, folders, rows, keys, texts, long_texts, changes, realistic, words, refused_texts, keyrings]
GROUPS += [clock, known_dice, dice, failing, *multis.GROUPS]

if __name__ == "__main__":
    harness.main("notes.sh", GROUPS, [full, streams, *multis.ONE_AT_A_TIME])
