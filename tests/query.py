"""Runs `perkeep query` over small stores, and compares outputs, standard error and exit statuses byte by byte.

The answers to queries are written down in query_inputs.py for two worked stores, and the reference has to return them
as well as the program. For random stores and queries they are the reference's alone (queries.py), and so they are for
lines of search words, which are given to `perkeep words`. The first faults of texts that are made with one or two
(query_faults.py) are compared with the reference's; the program shows only that it refuses them.
"""

import functools
import os
import pathlib
import re
import subprocess

import harness
import inputs
import queries
import query_faults
import query_inputs
import reference
import search_words
import writing
from harness import chance, check, compare, compare_ending, finish, limited_to, run_quickly, short
from query_faults import FULL, SMALL
from query_inputs import ANYTHING, KEYRING, RandomQuery, RandomStore, negated, node, spell, spell_otherwise
from reference import ref_of
from refused_alike import locked
from stores import NOTHING_FOUND, Store, look
from writing import claim, pack, permanode

DOCS = pathlib.Path(__file__).resolve().parent.parent / "docs"
# docs/commands.md, "Input and order"
LONGEST_QUERY = 1_048_576
# Nothing is printed, and the exit status is that of bad input.
REFUSED = b"", 4
ANY_QUERY = spell(SMALL).encode()


# Running queries

class Shelf:
    """A store, the program, and the reference's archive of the store."""

    def __init__(self, program, packs, keyring=KEYRING):
        self.program = program
        self.store = Store(program, packs, {"keyring": keyring})
        self.archive = queries.Archive(self.store.blobs(), reference.read_keyring(keyring))

    def ending(self, text):
        """The expected output for a text of bytes, and the exit status, by the reference."""
        try:
            return self.ending_of(queries.read_query(text))
        except queries.Fault:
            return REFUSED

    def ending_of(self, query):
        return queries.search_text(self.archive, query) + b"\n", 0

    def asks(self, what, text, ending=None):
        """Runs a query, or a text that isn't one; it has to end as given, or as the reference says."""
        out, status = ending or self.ending(text)
        what = f"{what}, asked of {self.store.path}: {short(text)}"
        is_status, is_out, err = run_quickly(self.program, self.store.words("query"), text)
        compare_ending(what, status, is_status, err)
        compare(what, "standard output", out, is_out)

    def asks_by_words(self, what, line, query, at=None):
        """Runs a line of search words, at a date or without one; the reference's answer is that to its query."""
        what = f"{what}, asked of {self.store.path}: words {line!r} at {at}"
        words = self.store.words("words", *(() if at is None else ("--at", at)), "--", line)
        status, out, err = run_quickly(self.program, words, b"")
        compare_ending(what, 0, status, err)
        compare(what, "standard output", self.ending_of(query)[0], out)

    def finds(self, what, value, refs):
        """Runs a query whose answer is known, and finds the folder unchanged."""
        text = spell(value).encode()
        out = reference.search_text(refs) + b"\n"
        compare(f"{what}: {short(text)}", "the reference", (out, 0), self.ending(text))
        asked(self.store, f"{what}: {short(text)}", text, out)


def first_fault(text):
    """The kind and the path of a text's first fault; None if it is a query."""
    try:
        queries.read_query(text)
    except queries.Fault as fault:
        return fault.kind, fault.path
    return None


# The page's own queries

def page(program):
    """The table of faults of docs/formats/queries.md and the examples of docs/search.md."""
    grammar, text = (DOCS / name for name in ("formats/queries.md", "search.md"))
    grammar, text = grammar.read_text(), text.read_text()
    shelf = Shelf(program, {0: pack(*query_inputs.lives())})
    rows = re.findall(r"^\| `(.*)` \| `(\w+)` at (?:the (empty) place|`(.*)`) \|$", grammar, re.MULTILINE)
    checks = [lambda row=row: page_fault(shelf, *row) for row in rows]
    examples = re.findall(r"^    \{.*\n(?:    .*\n)*", text, re.MULTILINE)
    check("the pages have a table of faults and the examples", len(rows) >= 8 and len(examples) == len(EXAMPLES))
    blobs, refs = example_store()
    of_examples = Shelf(program, {0: pack(*blobs)})
    for example, names in zip(examples, EXAMPLES):
        found = [refs[name] for name in names]
        checks.append(lambda example=example, found=found: page_example(of_examples, example, found))
    return checks + [lambda case=case: check_written(*case) for case in written_queries()]


def page_fault(shelf, text, kind, empty, path):
    compare(text, "first fault", (kind, "" if empty else path), first_fault(text.encode()))
    shelf.asks("a fault of the page", text.encode())


def page_example(shelf, text, found):
    out = reference.search_text(found) + b"\n"
    compare(text, "the reference", (out, 0), shelf.ending(text.encode()))
    shelf.asks("an example of the page", text.encode())


def written_queries():
    """Texts of queries, and their written form."""
    usual = ',"limit":200,"sort":"blobref"'
    yield '{"constraint":{"anything":true}}', '{"constraint":{"anything":true}' + usual + "}"
    yield (
        ' {"at":"2020-01-01T01:00:00.50+01:00","sort":"mod","limit":7,\n"constraint":{"permanode":{},"anything":true}}',
        '{"constraint":{"anything":true,"permanode":{}},"limit":7,"sort":"mod","at":"2020-01-01T00:00:00.5Z"}',
    )
    yield (
        r'{"constraint":{"camliType":"\u0041\u00e4\/\u0001\u007f\n\ud83d\ude00\""}}',
        '{"constraint":{"camliType":"A\u00e4/\\u0001\x7f\\n\U0001f600\\""}' + usual + "}",
    )
    yield spell(turned(FULL[0])), spell(FULL[0])
    yield spell(turned(FULL[1])), spell({**FULL[1], "limit": 200, "sort": "blobref"})


def turned(value):
    """A value with the keys of all objects the other way round."""
    if not isinstance(value, dict):
        return value
    return {key: turned(one) for key, one in reversed(value.items())}


def check_written(text, written):
    query = queries.read_query(text.encode())
    compare(short(text), "what is written", written.encode(), queries.write_query(query))
    compare(short(text), "what is written and read", query, queries.read_query(written.encode()))


# The names found by each example of the page, in the order of the page.
EXAMPLES = [["letters"], ["two titles"], ["pdf"], ["late draft", "early draft"], ["member"]]


def example_store():
    """Permanodes that the examples find, and others that they just miss; the refs by names."""
    files = {
        "pdf": writing.file_blob("a.pdf", [writing.part(1_000_001)]),
        "small pdf": writing.file_blob("a.pdf", [writing.part(1_000_000)]),
        "text": writing.file_blob("a.txt", [writing.part(1_000_001)]),
    }
    names = ["letters", "two titles", "one title", "late draft", "early draft", "draft", "new draft", "member", "set"]
    names += [*files, "other set", "no member"]
    nodes = {name: permanode(f"{number:032x}") for number, name in enumerate(names)}
    refs = {name: ref_of(one) for name, one in nodes.items()}
    changes = [("letters", "set", "tag", "letters", "2020"), ("one title", "set", "tag", "trip", "2020")]
    changes += [("two titles", "set", "tag", "trip", "2020"), ("two titles", "add", "title", "Letters", "2020")]
    changes += [("two titles", "add", "title", "2", "2021"), ("one title", "set", "title", "1", "2021")]
    changes += [(name, "set", "camliContent", ref_of(file), "2020") for name, file in files.items()]
    changes += [(name, "set", "tag", "draft", "2024") for name in ("late draft", "early draft", "draft")]
    changes += [("late draft", "del", "tag", "", "2027"), ("early draft", "del", "tag", "draft", "2026")]
    changes += [("new draft", "set", "tag", "draft", "2026"), ("new draft", "del", "tag", "draft", "2028")]
    changes += [("set", "set", "title", "Letters", "2020"), ("set", "add", "camliMember", refs["member"], "2020")]
    changes += [("other set", "set", "title", "Cards", "2020")]
    changes += [("other set", "add", "camliMember", refs["no member"], "2020")]
    claims = [
        claim(kind, refs[name], attribute, value, f"{year}-01-01T00:00:00Z")
        for name, kind, attribute, value, year in changes
    ]
    return [query_inputs.KEY, *files.values(), *nodes.values(), *claims], refs


# Worked stores

def meanings(program):
    source, holders = query_inputs.content_store()
    contents, lives = Shelf(program, {0: source}), Shelf(program, {0: pack(*query_inputs.lives())})
    checks = []
    for constraint, names in query_inputs.MEANINGS:
        found = sorted(holders[name] for name in names)
        # Nothing holds of the blob that isn't there, or of the text that isn't a ref.
        value = query_inputs.with_content(constraint)
        checks.append(lambda value=value, found=found: contents.finds("the meaning", value, found))
    for constraint, names in query_inputs.NODE_MEANINGS:
        found = sorted(query_inputs.REF[name] for name in names)
        checks.append(lambda value={"constraint": constraint}, found=found: lives.finds("the meaning", value, found))
    for others, constraint, names in query_inputs.NODE_ORDERS:
        found = [query_inputs.REF[name] for name in names]
        value = {"constraint": constraint, **others}
        checks.append(lambda value=value, found=found: lives.finds("the order", value, found))
    checks += [lambda order=order: same_in_order(program, order) for order in range(6)]
    return checks + kinds(program) + members(program)


def kinds(program):
    """The results of constraints for the kinds of blobs."""
    blobs, found = query_inputs.kind_store()
    shelf = Shelf(program, {0: pack(*blobs)})
    values = {name: query_inputs.with_content(constraint) for name, constraint in query_inputs.TELLING.items()}
    return [lambda name=name: shelf.finds(f"blobs that are {name}", values[name], found[name]) for name in found]


def members(program):
    """Relations over permanodes that are each other's members, and their own."""
    shelf, refs = Shelf(program, {0: pack(*query_inputs.pair())}), query_inputs.PAIR
    rows = [(constraint, sorted(ref_of(refs[name]) for name in names)) for constraint, names in query_inputs.PAIR_MEANINGS]
    return [lambda row=row: shelf.finds("members", {"constraint": row[0]}, row[1]) for row in rows]


def same_in_order(program, order):
    """The order in which the blobs came makes no difference."""
    blobs = query_inputs.lives()
    chance("order", order).shuffle(blobs)
    lives = Shelf(program, {0: pack(*blobs[:20]), 3: pack(*blobs[15:]) + b"[torn"})
    for others, constraint, names in query_inputs.NODE_ORDERS[:11]:
        found = [query_inputs.REF[name] for name in names]
        lives.finds(f"order {order}", {"constraint": constraint, **others}, found)


# Random stores and queries

STORES, QUERIES = 110, 70


class RandomShelf:
    """A random store, which is made when the first query is run over it."""

    def __init__(self, program, number):
        self.program, self.number = program, number

    @functools.cached_property
    def made(self):
        return RandomStore(chance("query store", self.number))

    @functools.cached_property
    def shelf(self):
        return Shelf(self.program, self.made.packs())

    def query(self, number):
        """The random choices of a query, its value and the query: of three the first that finds some permanodes and not
        all."""
        random = chance("query", self.number, number)
        for _ in range(3):
            value = RandomQuery(random, self.made).query()
            query = queries.query_of(value)
            found = queries.Asking(self.shelf.archive, query).answer()
            standing = [one for one in self.shelf.archive.permanodes if self.shelf.archive.stands(one, query.get("at"))]
            if 0 < len(found) < len(standing):
                break
        return random, value, query

    def asks(self, number):
        random, value, query = self.query(number)
        kind = random.randrange(5)
        if kind == 0:
            text = queries.write_query(query)
        else:
            text = (spell(value) if kind == 1 else spell_otherwise(random, value)).encode()
        what = f"query {number} of store {self.number}"
        compare(f"{what}: {short(text)}", "the query of its text", query, queries.read_query(text))
        self.shelf.asks(what, text, self.shelf.ending_of(query))

    def asks_by_words(self, number):
        """The results of a line of search words, at a date or without one."""
        random = chance("search words", self.number, number)
        constraint = search_words.random_constraint(random, random.choice((1, 2, 3)), self.asked_by_word)
        at = random.choice((None, *query_inputs.QUERY_DATES))
        query = queries.query_of({"constraint": constraint} if at is None else {"constraint": constraint, "at": at})
        self.shelf.asks_by_words(f"store {self.number}", search_words.random_line(random, constraint), query, at)

    def asked_by_word(self, random):
        """A constraint that a search word can express."""
        ref, text = self.made.any_ref(random), random.choice(self.made.texts)
        attribute = random.choice(query_inputs.ATTRIBUTES)
        value = ref if attribute.startswith("camli") else text
        return random.choice((
            node(attr="tag", value=text),
            node(attr="title", valueMatches={"contains": text[: random.randrange(len(text) + 1)]}),
            node(attr=attribute, value=value),
            node(attr=attribute),
            {"blobRefPrefix": ref[: random.randrange(len(ref) + 1)]},
            node(relation=query_inputs.parent(any={"blobRefPrefix": ref})),
        ))

    def holders(self, number):
        """The same results that `search` finds by one value."""
        random = chance("holders", self.number, number)
        attribute = random.choice(query_inputs.ATTRIBUTES)
        refs = [self.made.any_ref(random) for _ in range(3)]
        values = refs if attribute.startswith("camli") else self.made.texts
        value, at = random.choice(values), random.choice((None, *query_inputs.QUERY_DATES))
        query = {"constraint": node(attr=attribute, value=value), "limit": queries.MOST_LIMIT}
        when = reference.ALWAYS if at is None else reference.moment_of(at)
        found = reference.Archive.holders(self.shelf.archive, attribute, value, when)
        self.shelf.finds(f"store {self.number}", query if at is None else {**query, "at": at}, found)


def random_queries(program):
    shelves = [RandomShelf(program, number) for number in range(STORES)]
    checks = [lambda shelf=shelf, number=number: shelf.asks(number) for shelf in shelves for number in range(QUERIES)]
    checks += [lambda shelf=shelf: shelf.holders(0) for shelf in shelves]
    return checks + [lambda: queries_tell(shelves[:5])]


def queries_tell(shelves):
    """Many of the random queries find some permanodes and not all."""
    telling = 0
    for shelf in shelves:
        for number in range(QUERIES):
            _, _, query = shelf.query(number)
            found = queries.Asking(shelf.shelf.archive, {**query, "limit": queries.MOST_LIMIT}).answer()
            telling += 0 < len(found) < len(shelf.shelf.archive.permanodes)
    check("the random queries hardly differ", telling > len(shelves) * QUERIES / 3)


# Lines of search words

STORES_OF_WORDS, LINES = 40, 25


def typed(program):
    """Random lines of search words over random stores; a line that begins with a dash; and that at most 200 refs are
    returned."""
    shelves = [RandomShelf(program, number) for number in range(STORES_OF_WORDS)]
    checks = [lambda shelf=shelf, n=n: shelf.asks_by_words(n) for shelf in shelves for n in range(LINES)]
    lives, untagged = Shelf(program, {0: pack(*query_inputs.lives())}), negated(node(attr="tag", value="a"))
    some = [permanode(f"{number:032x}") for number in range(queries.USUAL["limit"] + 3)]
    many = Shelf(program, {0: pack(query_inputs.KEY, *some)})
    query = queries.query_of({"constraint": untagged})
    check("more are to be found than are answered", len(queries.Asking(many.archive, query).answer()) == 200)
    return checks + [lambda shelf=shelf: shelf.asks_by_words("a dash", "-tag:a", query) for shelf in (lives, many)]


# Texts that aren't queries

def asked_of_lives(program, what, texts):
    """Checks of texts, each run once."""
    shelf = Shelf(program, {0: pack(*query_inputs.lives())})
    octets = dict.fromkeys(text if isinstance(text, bytes) else text.encode() for text in texts)
    return [lambda text=text: shelf.asks(what, text) for text in octets]


PAIRS = 750


def faults(program):
    """One fault at each place of a deep query, and two of them at once."""
    shelf, checks = Shelf(program, {0: pack(*query_inputs.lives())}), []
    for number, query in enumerate(FULL):
        single = list(query_faults.single_faults(query))
        for made in single:
            value = query_faults.changed(query, made.place, made.change)
            checks.append(lambda value=value, made=made: check_fault(shelf, value, made))
        for pair in range(PAIRS):
            value, made = query_faults.pair_of_faults(chance("faults", number, pair), query, single)
            checks.append(lambda value=value, made=made: check_fault(shelf, value, made))
    return checks


def check_fault(shelf, value, made):
    text = spell(value).encode()
    compare(short(text), "first fault", (made.kind, "/".join(made.keys)), first_fault(text))
    shelf.asks(f"{made.kind} at {'/'.join(made.keys)}", text, REFUSED)


def values(program):
    """Each value at each place of a deep query, and keys that are there twice."""
    return asked_of_lives(program, "a value at a place", query_faults.every_change())


def depths(program):
    return asked_of_lives(program, "a deep query", query_faults.deep_chains(chance("depths")))


def json(program):
    return asked_of_lives(program, "a text", query_faults.json_texts())


def numbers(program):
    return asked_of_lives(program, "a number", query_faults.numbers())


def dates(program):
    return asked_of_lives(program, "a date", query_faults.dates())


DAMAGED = 1_500


def damaged(program):
    """Random queries with some bytes changed."""
    made = RandomStore(chance("damaged"))
    texts = []
    for number in range(DAMAGED):
        random = chance("damaged", number)
        text = spell_otherwise(random, RandomQuery(random, made).query()).encode()
        texts.append(query_faults.damaged(random, text))
    return asked_of_lives(program, "a damaged query", texts)


# Long queries

LEAVES = 1 << 14


def tree(leaf, leaves):
    """A query of so many equal constraints, a power of two, in `or`s; it means the same as one of them."""
    while leaves > 1:
        leaf, leaves = '{"logical":{"op":"or","a":' + leaf + ',"b":' + leaf + "}}", leaves // 2
    return b'{"constraint":' + leaf.encode() + b"}"


def long_forms():
    """A description, the beginning and the end of a long text and the byte that fills it up, and a short text with its
    meaning."""
    any_rest, nothing = ANY_QUERY[1:], spell({"constraint": negated(ANYTHING)}).encode()
    tagged = node(attr="tag", value="letters")
    yield "space behind", ANY_QUERY, b"", b" ", ANY_QUERY
    yield "space in front", b"", ANY_QUERY, b"\n", ANY_QUERY
    yield "space within", b'{"constraint":', b'{"anything":true}}', b" ", ANY_QUERY
    yield "a value", b'{"constraint":{"permanode":{"attr":"tag","value":"', b'"}}}', b"a", nothing
    yield "an attribute", b'{"constraint":{"permanode":{"attr":"', b'"}}}', b"b", nothing
    yield "a prefix", b'{"constraint":{"blobRefPrefix":"', b'"}}', b"s", nothing
    yield "a text that is no date", b'{"constraint":{"anything":true},"at":"', b'"}', b"1", b"no query"
    yield "a key", b'{"', b'":1}', b"k", b"no query"
    limited, dated = b'"limit":5,' + any_rest, f'"at":"{inputs.day(4)}",'.encode() + any_rest
    yield "a key again and again", b"{" + b'"limit":0,' * 90_000, limited, b" ", b"{" + limited
    yield "an array", b'{"at":[0' + b",0" * 300_000, b"]," + dated, b" ", b"{" + dated
    yield "a number", b'{"limit":0.', b',"limit":1,' + any_rest, b"0", b'{"limit":1,' + any_rest
    yield "constraints", tree(spell(tagged), LEAVES // 2), b"", b" ", spell({"constraint": tagged}).encode()
    yield "more constraints", tree(spell(ANYTHING), LEAVES), b"", b" ", ANY_QUERY


def lengths(program):
    """Queries of the greatest length, in several forms, and of one byte more."""
    shelf = Shelf(program, {0: pack(*query_inputs.lives())})
    checks = []
    for what, front, end, filler, meaning in long_forms():
        for length in (LONGEST_QUERY - 1, LONGEST_QUERY, LONGEST_QUERY + 1):
            text = front + filler * (length - len(front) - len(end)) + end
            ending = REFUSED if length > LONGEST_QUERY else shelf.ending(meaning)
            case = f"{what}, {length} bytes", text, ending
            checks += [lambda case=case: shelf.asks(*case), lambda case=case: piped(shelf, *case)]
    keys = spell({**SMALL, **{f"key {number}": 1 for number in range(50_000)}}).encode()
    return checks + [lambda: shelf.asks("many unknown keys", keys, REFUSED), lambda: refuses_early(shelf)]


def piped(shelf, what, text, ending):
    shelf.program.check(f"{what}, by a pipe", shelf.store.words("query"), *ending, text)


def refuses_early(shelf):
    """A query that is far too long isn't read to its end; the rest may stay in the pipe."""
    what, piece = "a query without end", b" " * 65_536
    streams = {"stdin": subprocess.PIPE, "stdout": subprocess.PIPE, "bufsize": 0}
    process = shelf.program.start(shelf.store.words("query"), **streams)
    taken = 0
    try:
        while taken < 64 * LONGEST_QUERY:
            taken += process.stdin.write(piece)
    except BrokenPipeError:
        pass
    out, err = finish(what, process)
    compare_ending(what, 4, process.returncode, err)
    compare(what, "standard output", b"", out)
    check(f"{what}: {taken} bytes were taken", taken <= 3 * LONGEST_QUERY)


# So many MiB are enough in any case.
AMPLE = 1_024


def memory(program):
    """A query of many constraints with so many MiB of memory: it succeeds, or ends for want of memory."""
    shelf = Shelf(program, {0: pack(*query_inputs.lives())})
    out, _ = shelf.ending(ANY_QUERY)
    text = tree(spell(ANYTHING), LEAVES)
    return [lambda mib=mib: within_memory(shelf, text, out, mib) for mib in (4, 6, 8, 12, 16, 24, 32, 64, AMPLE)]


def within_memory(shelf, text, out, mib):
    what = f"a query within {mib} MiB"
    status, is_out, err = shelf.program.run(what, shelf.store.words("query"), text, front=limited_to(mib))
    is_short = status == 1 and mib < AMPLE
    compare_ending(what, 1 if is_short else 0, status, err)
    compare(what, "standard output", b"" if is_short else out, is_out)


# Words, keyrings, folders and streams (docs/commands.md)

def words(program):
    lives = Shelf(program, {0: pack(*query_inputs.lives())})
    out, _ = lives.ending(ANY_QUERY)
    folder = str(lives.store.path)
    good = [["query", folder], ["query", "--", folder], ["query", folder, "--"], ["query", folder + "/"]]
    checks = [lambda line=line: lives.store.keeps(f"words {line}", line, out, source=ANY_QUERY) for line in good]
    store = Store(program, {0: pack(b"abc")}, {"keyring": b"a bad keyring"})
    for line in bad_lines(str(store.path)):
        for text in (ANY_QUERY, b"no query"):
            checks.append(lambda line=line, text=text: store.keeps(f"words {line}", list(line), b"", 2, text))
    return checks


def bad_lines(folder):
    return [
        ("query",),
        ("query", "--"),
        ("query", "-"),
        ("query", "-d"),
        ("query", folder, folder),
        ("query", folder, ""),
        ("query", folder, "-"),
        ("query", folder, "--", "x"),
        ("query", folder, "--", "--"),
        ("query", folder, "--limit", "5"),
        ("query", folder, "--limit=5"),
        ("query", folder, "--sort=mod"),
        ("query", folder, "--at", inputs.DATE),
        ("query", folder, "--at=" + inputs.DATE),
        ("query", folder, "--attr=tag", "--value=a"),
        ("query", "--x=1", folder),
        ("query", "--x", folder),
        ("query", "--=x", folder),
        ("query", "--help"),
        ("query", ANY_QUERY.decode(), folder),
        ("Query", folder),
        ("query ", folder),
        ("queries", folder),
        ("--", "query", folder),
        (folder, "query"),
        (b"query\xff", folder),
        ("query", b"\xff"),
        ("query", folder, b"\xff"),
    ]


def keyrings(program):
    """Keyrings that are bad, can't be read, or have no key that counts."""
    checks = []
    packs = {0: pack(*inputs.EXAMPLE_BLOBS)}
    unread = Store(program, packs)
    (unread.path / "keyring").mkdir()
    bad = [(what, Store(program, packs, {"keyring": text}), 4) for what, text in inputs.bad_keyrings()]
    for what, store, status in [*bad, ("a keyring that is a folder", unread, 5)]:
        for text in (ANY_QUERY, b"no query"):
            checks.append(lambda case=(store, what, text, b"", status): asked(*case))
    for what, text, source, found in inputs.good_keyrings():
        store = Store(program, {0: source}, {"keyring": text})
        value = spell({"constraint": node(attr="tag", value="a")}).encode()
        out = Shelf(program, {0: source}, text).ending(value)[0]
        compare(what, "found by the reference", bool(found), out != NOTHING_FOUND)
        checks.append(lambda what=what, store=store, out=out: asked(store, what, value, out))
    none = Store(program, packs)
    return checks + [lambda: asked(none, "no keyring", ANY_QUERY, NOTHING_FOUND)]


def asked(store, what, text, out=b"", status=0):
    """Runs a query, which leaves the folder unchanged."""
    store.keeps(what, store.words("query"), out, status, text)


def folders(program):
    """Folders that aren't there or can't be a store, files that aren't packs, and a store that is locked."""
    missing, empty = Store(program), Store(program, {})
    no_parent = program.new_path() / "store"
    file = program.new_path()
    file.write_bytes(pack(b"abc"))
    checks = [lambda store=store: asked(store, "no packs", ANY_QUERY, NOTHING_FOUND) for store in (missing, empty)]
    checks += [lambda: asked(missing, "no packs, no query", b"no query", status=4)]
    for what, folder, watched, out, status in [
        ("no parent", no_parent, no_parent.parent, NOTHING_FOUND, 0),
        ("a file", file, file, b"", 7),
        ("the empty text", "", program.working_folder(None), b"", 7),
    ]:
        checks.append(lambda case=(what, folder, watched, out, status): over_folder(program, *case))
    for number, make in [(0, os.mkdir), (3, os.mkdir), (0, os.mkfifo), (3, os.mkfifo)]:
        store = Store(program, {1: inputs.EXAMPLE}, {"keyring": inputs.KEYRING})
        make(store.path / reference.pack_name(number))
        what = f"pack {number} by {make.__name__}"
        checks.append(lambda what=what, store=store: asked(store, what, ANY_QUERY, status=7))
    return checks + [lambda: while_locked(program)]


def over_folder(program, what, folder, watched, out, status):
    before = look(watched)
    program.check(what, ["query", str(folder)], out, status, ANY_QUERY, program.working_folder(None))
    compare(what, "what stands there", before, look(watched))


def while_locked(program):
    """A query doesn't wait for a writer."""
    lives = Shelf(program, {0: pack(*query_inputs.lives())})
    out, _ = lives.ending(ANY_QUERY)
    with locked(lives.store.path):
        program.check("a locked store", lives.store.words("query"), out, source=ANY_QUERY, seconds=5)


def streams(program):
    """Standard input and standard output that fail, and which of several errors is reported."""
    lives = Shelf(program, {0: pack(*query_inputs.lives())})
    line, file = lives.store.words("query"), program.new_path()
    file.write_bytes(b"")
    bad_keyring = Store(program, {}, {"keyring": b"x"}).words("query")
    sources = {}
    for name, text in [("good", ANY_QUERY), ("none", b"{}"), ("long", b" " * (LONGEST_QUERY + 1))]:
        sources[name] = program.new_path()
        sources[name].write_bytes(text)
    cases = [
        ("standard input is a folder", line, 5, {"source": program.folder}),
        ("standard input is closed", line, 5, {"closed": 0}),
        ("standard output is full", line, 6, {"source": sources["good"], "sink": "/dev/full"}),
        ("standard output is closed", line, 6, {"source": sources["good"], "closed": 1}),
        ("no query, standard output is full", line, 4, {"source": sources["none"], "sink": "/dev/full"}),
        ("a long query, standard output is full", line, 4, {"source": sources["long"], "sink": "/dev/full"}),
        ("both streams fail", line, 5, {"source": program.folder, "sink": "/dev/full"}),
        ("bad words before the source", ["query"], 2, {"closed": 0}),
        ("a bad keyring before the source", bad_keyring, 4, {"closed": 0}),
        ("the source before the disk", ["query", str(file)], 5, {"closed": 0}),
        ("a long source before the disk", ["query", str(file)], 4, {"source": sources["long"]}),
        ("the disk before the sink", ["query", str(file)], 7, {"source": sources["good"], "sink": "/dev/full"}),
    ]
    checks = [
        lambda what=what, words=words, status=status, streams=streams: harness.with_streams(
            program, what, words, status, folder=program.working, **streams
        )
        for what, words, status, streams in cases
    ]
    for front in (b"", ANY_QUERY, b"{", b" " * 4_096, ANY_QUERY + b" " * 70_000):
        checks.append(
            lambda front=front: harness.with_broken_source(
                program, "standard input breaks off", line, front, folder=program.working
            )
        )
    return checks + [lambda: slowly(lives)]


def slowly(lives):
    """A query that comes byte by byte."""
    out, _ = lives.ending(ANY_QUERY)
    process = lives.program.start(lives.store.words("query"), stdin=subprocess.PIPE, stdout=subprocess.PIPE, bufsize=0)
    for octet in ANY_QUERY:
        process.stdin.write(bytes([octet]))
    is_out, err = finish("a query byte by byte", process)
    compare_ending("a query byte by byte", 0, process.returncode, err)
    compare("a query byte by byte", "standard output", out, is_out)


# Sizes

# Each permanode of a ring has those up to so many places after it as members from day 1 on, and as many before it from
# day 2 on. A query has to end within so many seconds.
RING, REACH, SOON = 1_000, 10, 100
# From the inside to the outside: the relation, whether any or all meet, and the date; valueInSet is a relation here.
NESTED = [
    [("child", "any", None)] * 5,
    [("parent", "any", None)] * 5,
    [("child", "all", None)] * 5,
    [("parent", "any", None), ("child", "any", None)] * 2 + [("parent", "all", None)],
    [("value", "any", None)] * 5,
    [("child", "any", 1), ("child", "any", 1), ("parent", "any", 2), ("child", "all", 2), ("value", "any", 2)],
    [("parent", "any", 1)] * 5,
    [("child", "any", None)] * 31,
]


def sizes(program):
    """Queries of nested relations over many permanodes that are each other's members."""
    store, refs = ring_store(program)
    checks = [lambda levels=levels: nested_relations(program, store, refs, levels) for levels in NESTED]
    return checks + [lambda: all_of_all(program)]


def ring_store(program):
    """The store of a ring of permanodes, and their refs."""
    nodes = [permanode(f"{number:032x}") for number in range(RING)]
    refs = list(map(ref_of, nodes))
    claims = [
        claim("add", refs[place], "camliMember", refs[(place + step) % RING], inputs.day(1 if step > 0 else 2))
        for place in range(RING)
        for step in range(-REACH, REACH + 1)
        if step != 0
    ]
    return Store(program, {0: pack(query_inputs.KEY, *nodes, *claims)}, {"keyring": KEYRING}), refs


def nested_relations(program, store, refs, levels):
    met, constraint = {0}, {"blobRefPrefix": refs[0]}
    for relation, how, number in levels:
        forward = range(1, REACH + 1)
        steps = [*forward] if number == 1 else [*forward, *(-step for step in forward)]
        if relation == "parent":
            steps = [-step for step in steps]
        meet = any if how == "any" else all
        met = {place for place in range(len(refs)) if meet((place + step) % len(refs) in met for step in steps)}
        if relation == "value":
            test = {"attr": "camliMember", "valueInSet": constraint}
        else:
            test = {"relation": {"relation": relation, how: constraint}}
        constraint = {"permanode": test if number is None else {"at": inputs.day(number), **test}}
    text = spell({"constraint": constraint, "limit": len(refs)}).encode()
    out = reference.search_text(sorted(refs[place] for place in met)) + b"\n"
    program.check(f"{len(levels)} relations, {levels[-1]}", store.words("query"), out, source=text, seconds=SOON)


# So many permanodes, each the member of each other, and the deepest query of relations.
FEW = 12


def all_of_all(program):
    nodes = [permanode(f"{number:032x}") for number in range(FEW)]
    refs = list(map(ref_of, nodes))
    claims = [claim("add", one, "camliMember", other, inputs.DATE) for one in refs for other in refs if one != other]
    shelf = Shelf(program, {0: pack(query_inputs.KEY, *nodes, *claims)})
    for link in query_faults.LINKS[4:]:
        value = {"constraint": query_faults.chain([link] * (queries.DEEPEST - 1), {"blobRefPrefix": refs[0]})}
        what = f"each of {FEW} in each"
        text = spell(value).encode()
        out, status = shelf.ending(text)
        program.check(what, shelf.store.words("query"), out, status, text, seconds=SOON)


GROUPS = [page, meanings, random_queries, typed, faults, values, depths, json, numbers, dates, damaged]
GROUPS += [lengths, words, keyrings, folders]
ONE_AT_A_TIME = [memory, streams, sizes]


def checks_of(program, group):
    # run_quickly runs its program in the usual folder.
    os.chdir(program.working)
    return group(program)


def tell_starts(program):
    print(f"query: {program.starts['query']} starts of query, {program.starts['words']} of words")


if __name__ == "__main__":
    harness.main("query.sh", GROUPS, ONE_AT_A_TIME, checks_of, end=tell_starts)
