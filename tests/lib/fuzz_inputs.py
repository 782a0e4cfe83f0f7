"""Inputs of commands, for bench/fuzz.sh and found.sh: packs, blobs, keyrings, lists of changes, queries and search
words."""

import os
import re
import shutil

import inputs
import multis
import queries
import query_faults
import query_inputs
import reference
import search_words
import writing
from command_rows import KNOWN, TODAY, with_blobs
from fuzzing import JSON_TOKENS, MIB, Target, worst_texts
from harness import chance, compare
from inputs import CLAIM, KEY, NODE, day
from libraries import CLOCK, made_library
from query_inputs import KEYRING, TELLING, spell, with_content
from reference import pack_name, ref_of
from stores import Store, look
from writing import claim, pack, permanode, signed

KEYS = reference.read_keyring(KEYRING)
ABC = ref_of(b"abc").encode()
# Queries that might take long are made over so many permanodes.
MANY = 1_000
# Queries of many constraints have at most so many bytes.
WIDE, WIDEST = 1 << 14, 1 << 16
# A query may take so many seconds for each of its constraints and each permanode, and some for the store.
SECONDS_A_CONSTRAINT, SECONDS_OF_A_STORE = 1e-5, 2


def many_nodes():
    return [permanode(f"{number:032x}") for number in range(MANY)]


def pack_of_many():
    """Permanodes that have a tag, and each two others as members."""
    nodes = many_nodes()
    refs = list(map(ref_of, nodes))
    claims = [claim("set", ref, "tag", "a", day(1)) for ref in refs]
    for more in (1, 2):
        members = refs[more:] + refs[:more]
        claims += [claim("add", ref, "camliMember", member, day(1)) for ref, member in zip(refs, members)]
    return pack(KEY, *nodes, *claims)


class Packs(Target):
    """The bytes of a pack: what `salvage`, `list` and `get` find in it."""

    tokens = [b"[", b"]", b" ", b"[sha224-", b"[sha1-", b"[x-0 2]", b"[xx-00 ", b"3]", b"abc", b"0", b"x", b"-", b"\0"]
    tokens += [b"f" * 56]

    def __init__(self, program, packs=None):
        super().__init__(program, packs)
        self.store = Store(program, {0: b"", **self.packs})

    def seeds(self):
        some = [source for _, source, _ in inputs.damaged_packs() if len(source) < 10_000]
        return [inputs.EXAMPLE, pack(b"abc", b"") + writing.deleted_record(9), *some[::7]]

    def worst(self):
        """The bytes hashed for a header are those of the blob that it announces; therefore each has the greatest size
        that just fits."""
        header = b"[" + ABC + b" "
        yield "opening brackets", b"[" * MIB
        yield "headers of a blob of three", (header + b"3]") * (MIB // len(header + b"3]"))
        yield "headers of the longest blob", (header + b"16777216]") * (MIB // len(header + b"16777216]"))
        yield "beginnings of older headers", b"[sha1-" * (MIB // 6)
        yield "deleted records of nothing", b"[x-0 0]" * (MIB // 7)
        yield "deleted records of the rest", b"".join(b"[x-0 %d]" % (MIB - at) for at in range(14, MIB, 14))
        yield "empty blobs", pack(b"") * (MIB // len(pack(b"")))
        yield "small blobs", pack(*(b"%d" % number for number in range(MIB // 80)))
        yield "headers of the rest", b"".join(header + b"%07d]" % (MIB // 8 - at) for at in range(80, MIB // 8, 80))

    def tries(self, what, data):
        self.store.packs = {0: data, **self.packs}
        (self.store.path / pack_name(0)).write_bytes(data)
        found, broken = reference.salvage(data)
        blobs = reference.content(found)
        listed = reference.listing(self.store.blobs())
        self.ends(f"{what}: salvage", self.store.words("salvage"), b"", 0, reference.salvage_text(self.store.packs))
        self.ends(f"{what}: list", self.store.words("list"), b"", 0, listed)
        for ref in sorted(blobs)[:1]:
            self.ends(f"{what}: get", self.store.words("get", ref), b"", 0, blobs[ref])
        has_older = any(one.ref.startswith("sha1-") for one in found)
        return len(found) > len(blobs), min(len(blobs), 6), broken is None, broken == 0, has_older


class Facts(Target):
    """A blob, and the same text signed as a payload: the results of constraints on both, and of searches."""

    tokens = [*JSON_TOKENS, b'"camliType":"file"', b'"camliType":"claim"', b'"camliVersion":1', writing.MARKER]
    tokens += [b'"size":']
    tokens += [ABC, ref_of(KEY).encode(), ref_of(NODE).encode(), b'"parts":[', b'"members":[', b"T00:00:00Z"]

    def __init__(self, program, packs=None):
        super().__init__(program, packs)
        self.store = Store(program, {0: b"", **self.packs}, {"keyring": KEYRING})
        tests = [*TELLING.values(), {"file": {"fileSize": {"min": 1}}}, {"file": {"fileName": {"empty": False}}}]
        asked = [with_content(one) for one in [*tests, {"blobSize": {"max": 300}}]]
        tag = {"permanode": {"attr": "tag", "valueMatches": {"byteLength": {"min": 0}}}}
        asked += [{"constraint": tag, "sort": "-mod"}, {"constraint": tag, "at": day(2)}]
        self.texts = [spell(one).encode() for one in asked]

    def seeds(self):
        node, changes = ref_of(NODE), [("add", ref_of(NODE), "tag", "b"), ("del", ref_of(NODE), "tag", "a")]
        texts = [writing.permanode_payload("1" * 32), writing.attribute_payload("add", node, "tag", "b", day(2))]
        texts += [writing.attribute_payload("del", node, "tag", "", day(2))]
        texts += [writing.delete_payload(ref_of(CLAIM), day(2))]
        texts += [writing.multi_payload(changes, day(2)), '{"camliVersion":1,"camliType":"link"}']
        abc = ref_of(b"abc")
        blobs = [writing.file_blob("n", [writing.part(3, abc), writing.part(5)]), KEY, CLAIM]
        blobs += [writing.bytes_blob([writing.part(3, abc, offset=1)]), writing.directory("d", abc)]
        return [*map(writing.octets, texts), *blobs, writing.static_set([abc])]

    def worst(self):
        head, one = b'{"camliVersion":1,"camliType":', b'"' + ABC + b'",'
        yield from worst_texts()
        yield "a list of parts", head + b'"file","parts":[' + b'{"size":1},' * (MIB // 11 - 10) + b'{"size":1}]}'
        yield "members", head + b'"static-set","members":[' + one * (MIB // len(one) - 10) + one[:-1] + b"]}"
        yield "marks of signatures", writing.MARKER * (MIB // len(writing.MARKER))
        changes = [("add", ref_of(NODE), "tag", f"{number}") for number in range(1_000)]
        yield "a thousand changes", writing.octets(writing.multi_payload(changes, day(2)))

    def tries(self, what, data):
        blobs = [data, signed(data)]
        others, _ = query_inputs.holding({"data": ref_of(blobs[0]), "signed": ref_of(blobs[1])})
        packs = {0: pack(KEY, NODE, CLAIM, b"abc", *others, *blobs), **self.packs}
        (self.store.path / pack_name(0)).write_bytes(packs[0])
        archive, counts = queries.Archive(reference.arrivals(packs), KEYS), []
        for text in self.texts:
            out = queries.search_text(archive, queries.read_query(text)) + b"\n"
            self.ends(f"{what}: {text}", self.store.words("query"), text, 0, out)
            counts.append(out.count(b'"blob"'))
        facts = [archive.facts[ref_of(blob)] for blob in blobs]
        return tuple((fact.kind, fact.claim) for fact in facts), tuple(counts)


class Keyrings(Target):
    """The text of a keyring, with which a claim is searched for."""

    tokens = [b"\n", b" ", b"jefe", b"4a656665", b"a", b"-", b"f", b"F", b"\r", b"\t", b"\0", b"\xff", b"0" * 256]
    tokens += [b"k" * 64]

    def __init__(self, program, packs=None):
        super().__init__(program, packs)
        self.store = Store(program, {0: inputs.EXAMPLE, **self.packs}, {"keyring": b""})

    def seeds(self):
        return [inputs.KEYRING, KEYRING, b"", *(text for _, text, *_ in inputs.good_keyrings())][:20]

    def worst(self):
        yield "no lines", b"a" * MIB
        yield "empty lines", b"\n" * MIB
        yield "short lines", b"".join(b"%06d 00\n" % number for number in range(MIB // 10))
        yield "one name", b"a 00\n" * (MIB // 5)
        yield "a secret without end", b"a " + b"0" * (MIB - 2)

    def tries(self, what, data):
        (self.store.path / "keyring").write_bytes(data)
        words = self.store.words("search", "--attr=tag", "--value=a")
        try:
            keys = reference.read_keyring(data) if len(data) <= reference.LARGEST_KEYRING else None
        except reference.KeyringFault as fault:
            self.ends(what, words, b"", 4, b"")
            return fault.args[0], min(fault.args[1], 5)
        if keys is None:
            self.ends(what, words, b"", 4, b"")
            return ("too long",)
        found = reference.Archive(reference.arrivals(self.store.packs), keys).holders("tag", "a")
        self.ends(what, words, b"", 0, reference.search_text(found) + b"\n")
        return len(found), min(len(keys), 5)


class Changes(Target):
    """A list of changes, in the form that `multi` reads."""

    tokens = [*JSON_TOKENS, b'"changeType":"del-attribute"', b'"value":""', b'"permaNode":', ABC]
    tokens += [b"set-attribute", b"add-attribute", inputs.CHANGE.encode(), b"," + inputs.CHANGE.encode()]

    def __init__(self, program, packs=None):
        super().__init__(program, packs)
        self.environment = {**os.environ, **KNOWN, "LD_PRELOAD": str(made_library(program, "clock", CLOCK))}

    def seeds(self):
        good = [text.encode() for text, reads in inputs.LISTS if len(text) < 5_000 and reads is not False]
        return [*good, b"[]", b"{}"]

    def worst(self):
        yield from worst_texts()
        long = inputs.change_text(value="v" * 800)
        yield "a thousand changes", f"[{','.join([long] * 1_000)}]".encode()
        yield "no change, often", ("[" + inputs.CHANGE + ",{}" * (MIB // 3 - 200) + "]").encode()

    def tries(self, what, data):
        store = Store(self.program, self.packs, {"keyring": KEYRING})
        changes = multis.changes_in(data) if len(data) <= multis.LONGEST_LIST else None
        blob = writing.multi(changes, TODAY) if changes else None
        is_put = blob is not None and len(blob) <= reference.LARGEST_SCHEMA_BLOB
        before, words = look(store.path), store.words("multi", "--key=jefe")
        out = ref_of(blob).encode() + b"\n" if is_put else b""
        self.ends(what, words, data, 0 if is_put else 4, out, environment=self.environment)
        if is_put:
            store.packs = with_blobs(self.packs, (KEY, blob))
            store.check_files(what)
        else:
            compare(what, "the folder", before, look(store.path))
        shutil.rmtree(store.path)
        acts = sorted({act for act, *_ in changes or ()})
        return is_put, min(len(changes or ()), 4), tuple(acts)


class Queries(Target):
    """The text of a query."""

    KEYS_OF_QUERIES = "constraint", "permanode", "logical", "op", "a", "b", "any", "all", "limit", "relation"
    tokens = [f'"{key}":'.encode() for key in KEYS_OF_QUERIES]
    tokens += [*JSON_TOKENS, b'"and"', b'"not"', b'{"anything":true}', b'"relation":"child"', b'"sort":"-mod"']
    tokens += [b'"valueInSet":', b'"camliMember"', b'{"min":1}', day(4).encode()]

    def __init__(self, program, packs=None):
        super().__init__(program, packs)
        self.store = Store(program, {0: pack(*query_inputs.lives()), **self.packs}, {"keyring": KEYRING})
        self.archive = queries.Archive(self.store.blobs(), KEYS)

    def seeds(self):
        random = chance("queries that are changed")
        made = query_inputs.RandomQuery(random, query_inputs.RandomStore(random))
        some = [query_faults.SMALL, *query_faults.FULL, *(made.query() for _ in range(40))]
        return [spell(one).encode() for one in some]

    def worst(self):
        yield from worst_texts()

    def of_all(self, widest):
        """Queries that all permanodes of the large store meet."""
        yield "many constraints", wide_query(b'{"anything":true}', widest)
        yield "many tests of a value", wide_query(b'{"permanode":{"attr":"tag","value":"a"}}', widest)
        yield "relations in one another", deep_query(b'{"permanode":{"relation":{"relation":"child","any":', b"}}}")
        yield "relations of all", deep_query(b'{"permanode":{"relation":{"relation":"parent","all":', b"}}}")

    def tries_of_many(self, widest=WIDE):
        store = Store(self.program, {0: pack_of_many()}, {"keyring": KEYRING})
        out = reference.search_text(sorted(map(ref_of, many_nodes()))[: queries.USUAL["limit"]]) + b"\n"
        for what, data in self.of_all(widest):
            what, most = f"{what} of {MANY} permanodes", most_seconds(queries.read_query(data), MANY)
            self.ends(what, store.words("query"), data, 0, out, most_seconds=most)

    def tries(self, what, data):
        words = self.store.words("query")
        try:
            query = queries.read_query(data) if len(data) <= MIB else None
        except queries.Fault as fault:
            self.ends(what, words, data, 4, b"")
            return fault.kind, fault.path and re.sub("[0-9]+", "", fault.path)[:60]
        if query is None:
            self.ends(what, words, data, 4, b"")
            return ("too long",)
        out = queries.search_text(self.archive, query) + b"\n"
        permanodes = sum(map(self.archive.is_permanode, self.archive.facts))
        self.ends(what, words, data, 0, out, most_seconds=most_seconds(query, permanodes))
        return min(out.count(b'"blob"'), 5), min(constraints_in(query), 8)


class Words(Target):
    """A line of search words, as the TEXT of `words`. An argument has no zero byte, and the system accepts none that is
    much longer than these."""

    tokens = [b"tag:", b"title:", b"attr:", b"has:", b"ref:", b"childrenof:", b" or ", b" ", b"-", b"(", b")", b'"']
    tokens += [b"\\", b"\\\"", b":", b"-(", b'""', b"or", b"\xc3\xa4", b"\xff", b"sha224-", b"sha1-", b"0" * 40, b"a" * 56, ABC]
    LONGEST = 100_000

    def __init__(self, program, packs=None):
        super().__init__(program, packs)
        self.store = Store(program, {0: pack(*query_inputs.lives()), **self.packs}, {"keyring": KEYRING})
        self.archive = queries.Archive(self.store.blobs(), KEYS)

    def seeds(self):
        rngs = (chance("lines that are changed", number) for number in range(30))
        made = (search_words.random_line(rng, search_words.random_constraint(rng, rng.choice([1, 2, 3, 4]))) for rng in rngs)
        asked = "tag:a", "-tag:b", 'title:"" has:camliMember', f"childrenof:{ref_of(NODE)}", f"ref:{ref_of(NODE)[:12]}"
        return [line.encode() for line in (*asked, *made)]

    def worst(self):
        longest = search_words.LONGEST
        yield "opening parentheses", b"(" * longest
        yield "negations", b"-(" * (longest // 2)
        yield "parentheses of a word", b"(" * 500 + b"has:a" + b")" * 500
        yield "words", b"has:a " * (longest // 6)
        yield "words of two parts", b"has:a or " * 31 + b"has:a"
        yield "escapes", b'tag:"' + b"\\\\" * (longest // 2 - 3) + b'"'
        yield "spaces", b" " * longest
        yield "a long text", b"tag:" + b"a" * (self.LONGEST - 4)

    def tries(self, what, data):
        data = data.replace(b"\0", b"")[: self.LONGEST]
        words = self.store.words("words", f"--at={day(9)}", "--", data)
        try:
            kind, *rest = search_words.read(data.decode())
        except UnicodeDecodeError:
            self.ends(what, words, b"", 2, b"")
            return ("no text",)
        if kind != "asks":
            self.ends(what, words, b"", 4, b"")
            return kind, *(min(at // 10, 4) for at in rest)
        query = queries.read_query(spell({"constraint": rest[0], "at": day(9)}).encode())
        out = queries.search_text(self.archive, query) + b"\n"
        self.ends(what, words, b"", 0, out)
        return min(out.count(b'"blob"'), 5), min(search_words.levels(rest[0]), 8)


def most_seconds(query, permanodes):
    return SECONDS_OF_A_STORE + SECONDS_A_CONSTRAINT * constraints_in(query) * permanodes


def constraints_in(value):
    """How many constraints a query has: each is an object under one of these keys."""
    if not isinstance(value, dict):
        return 0
    own = sum(isinstance(value.get(key), dict) for key in ("constraint", "a", "b", "valueInSet", "any", "all"))
    return own + sum(map(constraints_in, value.values()))


def wide_query(leaf, widest):
    """A query of at most so many bytes whose constraints are a tree with such leaves."""
    text = leaf
    while 2 * len(text) + 60 < widest:
        text = b'{"logical":{"op":"and","a":' + text + b',"b":' + text + b"}}"
    return b'{"constraint":' + text + b"}"


def deep_query(front, end):
    """A query whose constraints are nested as deeply as they may be."""
    depth = queries.DEEPEST - 1
    return b'{"constraint":' + front * depth + b'{"anything":true}' + end * depth + b"}"
