"""Queries, read, written and answered a second time.

All of it is written from docs/formats/queries.md and docs/search.md alone, to be read beside these pages, over the
facts of reference.py (docs/claims.md). It is slow and plain on purpose, except that computed values are kept.

A query is a dict, and so is each object in it: the keys of the page with their values, a date as its moment.
"""

from typing import Callable, NamedTuple

import reference
import strict_json
import writing
from reference import ALWAYS, is_whole

# docs/formats/queries.md
USUAL = {"limit": 200, "sort": "blobref"}
MOST_LIMIT = 1_000_000
DEEPEST = 32
GREATEST_WHOLE = 2**64 - 1


class Fault(Exception):
    """The first fault of a text ("The first fault"): its kind and its path, None with `NotJson`."""

    def __init__(self, kind, keys=None):
        self.kind = kind
        self.path = None if keys is None else "/".join(keys)
        super().__init__(self.kind, self.path)


# Values that aren't objects

class Kind(NamedTuple):
    """How a value is read under keys and within so many constraints, and how it is written."""

    read: Callable
    write: Callable


def plain(is_one, write):
    """The kind of the values that pass a test."""

    def read(value, keys, depth):
        if not is_one(value):
            raise Fault("BadValue", keys)
        return value

    return Kind(read, write)


def whole(least=0, most=GREATEST_WHOLE):
    return plain(lambda value: is_whole(value) and least <= value <= most, str)


def word(*words):
    return plain(lambda value: is_text(value) and value in words, writing.text)


def is_text(value):
    return isinstance(value, str)


def write_truth(value):
    return "true" if value else "false"


def read_date(value, keys, depth):
    moment = reference.moment_of(value) if is_text(value) else None
    if moment is None:
        raise Fault("BadValue", keys)
    return moment


TEXT = plain(is_text, writing.text)
FULL_TEXT = plain(lambda value: is_text(value) and value != "", writing.text)
TRUE = plain(lambda value: value is True, write_truth)
TRUTH = plain(lambda value: isinstance(value, bool), write_truth)
# The moment is written in its canonical form (docs/formats/dates.md).
DATE = Kind(read_date, lambda moment: writing.text(reference.date_text(moment)))


# Objects

class Form(NamedTuple):
    """The keys of an object, in the order in which they are written, and the condition on the whole."""

    keys: dict
    holds: Callable = lambda got: True


def object_of(name):
    """The kind of the objects of a form."""
    return Kind(
        lambda value, keys, depth: read_object(name, value, keys, depth), lambda value: write_object(name, value)
    )


def read_constraint(value, keys, depth):
    if depth == DEEPEST:
        raise Fault("TooDeep", keys)
    return read_object("constraint", value, keys, depth + 1)


CONSTRAINT = Kind(read_constraint, lambda value: write_object("constraint", value))
INT_TEST, TEXT_TEST = object_of("int test"), object_of("text test")
# docs/formats/queries.md: the table
FORMS = {
    "query": Form(
        {"constraint": CONSTRAINT, "limit": whole(1, MOST_LIMIT), "sort": word("blobref", "mod", "-mod"), "at": DATE},
        lambda got: "constraint" in got,
    ),
    "constraint": Form(
        {
            "logical": object_of("logical"),
            "anything": TRUE,
            "camliType": TEXT,
            "blobRefPrefix": TEXT,
            "blobSize": INT_TEST,
            "file": object_of("file test"),
            "permanode": object_of("permanode test"),
        },
        lambda got: len(got) > 0,
    ),
    "logical": Form(
        {"op": word("and", "or", "xor", "not"), "a": CONSTRAINT, "b": CONSTRAINT},
        lambda got: "op" in got and "a" in got and ("b" in got) == (got["op"] != "not"),
    ),
    "int test": Form({"min": whole(), "max": whole()}, lambda got: len(got) > 0),
    "text test": Form(
        {
            "equals": TEXT,
            "contains": TEXT,
            "hasPrefix": TEXT,
            "hasSuffix": TEXT,
            "empty": TRUTH,
            "byteLength": INT_TEST,
        },
        lambda got: len(got) > 0,
    ),
    "file test": Form({"fileName": TEXT_TEST, "fileSize": INT_TEST}),
    "permanode test": Form(
        {
            "at": DATE,
            "attr": FULL_TEXT,
            "value": TEXT,
            "valueMatches": TEXT_TEST,
            "valueInSet": CONSTRAINT,
            "numValue": INT_TEST,
            "relation": object_of("relation"),
        },
        lambda got: "attr" in got or not got.keys() & {"value", "valueMatches", "valueInSet", "numValue"},
    ),
    "relation": Form(
        {"relation": word("parent", "child"), "any": CONSTRAINT, "all": CONSTRAINT},
        lambda got: "relation" in got and ("any" in got) != ("all" in got),
    ),
}


def in_order(keys):
    """Keys in the order of their bytes."""
    return sorted(keys, key=str.encode)


def read_object(name, value, keys, depth):
    if not isinstance(value, dict):
        raise Fault("BadValue", keys)
    form = FORMS[name]
    unknown = value.keys() - form.keys.keys()
    if unknown:
        raise Fault("BadKey", (*keys, in_order(unknown)[0]))
    got = {key: form.keys[key].read(value[key], (*keys, key), depth) for key in in_order(value)}
    if not form.holds(got):
        raise Fault("BadValue", keys)
    return got


def query_of(value):
    """The query in a JSON value; Fault if it isn't one."""
    return {**USUAL, **read_object("query", value, (), 0)}


def read_query(text):
    """The query in a text of bytes; Fault if it isn't one."""
    try:
        value = strict_json.read(text)
    except strict_json.Unread:
        raise Fault("NotJson") from None
    return query_of(value)


def write_object(name, value):
    kinds = FORMS[name].keys
    pairs = [f"{writing.text(key)}:{kinds[key].write(value[key])}" for key in kinds if key in value]
    return "{" + ",".join(pairs) + "}"


def write_query(query):
    """The text of a query ("The written query")."""
    return write_object("query", query).encode()


# Tests of numbers and strings ("What a constraint means")

def meets_int(test, number):
    return test.get("min", number) <= number <= test.get("max", number)


TEXT_TESTS = {
    "equals": lambda text, other: text == other.encode(),
    "contains": lambda text, other: other.encode() in text,
    "hasPrefix": lambda text, other: text.startswith(other.encode()),
    "hasSuffix": lambda text, other: text.endswith(other.encode()),
    "empty": lambda text, is_empty: (text == b"") == is_empty,
    "byteLength": lambda text, test: meets_int(test, len(text)),
}


def meets_text(test, text):
    return all(TEXT_TESTS[key](text.encode(), argument) for key, argument in test.items())


# The archive that is searched

# docs/search.md, "What a constraint means": the row of `camliType`
TYPES = {
    "Permanode": "permanode",
    "Claim": "claim",
    "File": "file",
    "Bytes": "bytes",
    "Directory": "directory",
    "StaticSet": "static-set",
}


class Archive(reference.Archive):
    """Facts about the blobs that a query needs, kept after they are computed."""

    def __init__(self, blobs, keys):
        super().__init__(blobs, keys)
        self.lengths = {ref: len(blob) for ref, blob in blobs.items()}
        self.permanodes = sorted(filter(self.is_permanode, self.genuine))
        self.known_sizes, self.known_values, self.known_parents, self.known_changes = {}, {}, {}, {}

    def type_of(self, ref):
        """The type of a blob; None if it has none."""
        fact = self.facts[ref]
        return fact.name if fact.kind == "Unread" else TYPES.get(fact.kind)

    def sound_size(self, ref):
        """The size of a sound file tree; None if the ref has none (docs/claims.md, "File trees")."""
        if ref not in self.known_sizes:
            is_tree = ref in self.ready and self.facts[ref].kind in ("File", "Bytes")
            is_sound = is_tree and all(map(self.is_within, self.facts[ref].parts))
            self.known_sizes[ref] = reference.size_of(self.facts[ref].parts) if is_sound else None
        return self.known_sizes[ref]

    def is_within(self, part):
        """Whether a part of a ready tree lies within its origin."""
        if part.blob is None and part.tree is None:
            return True
        length = self.sound_size(part.tree) if part.blob is None else self.lengths[part.blob]
        return length is not None and part.offset + part.size <= length

    def values(self, permanode, attribute, when):
        asked = permanode, attribute, when
        if asked not in self.known_values:
            self.known_values[asked] = super().values(permanode, attribute, when)
        return self.known_values[asked]

    def stands(self, permanode, when):
        """Whether it is a genuine permanode that isn't deleted."""
        return self.is_permanode(permanode) and not self.deleted(permanode, when)

    def children(self, permanode, when):
        return {value for value in self.values(permanode, "camliMember", when) if value in self.ready}

    def parents(self, ref, when):
        if when not in self.known_parents:
            parents = {}
            for permanode in self.permanodes:
                if self.stands(permanode, when):
                    for value in set(self.values(permanode, "camliMember", when)):
                        parents.setdefault(value, set()).add(permanode)
            self.known_parents[when] = parents
        return self.known_parents[when].get(ref, set())

    def last_change(self, permanode, when):
        """The date of the last counted change of a genuine permanode; None if there is none (docs/claims.md,
        "Values")."""
        if (permanode, when) not in self.known_changes:
            dates = [date for date, _ in self.counted(permanode, when)]
            self.known_changes[permanode, when] = max(dates, default=None)
        return self.known_changes[permanode, when]


# Constraints

class Asking:
    """A query over an archive. The result of a constraint for a blob at a time is computed once."""

    def __init__(self, archive, query):
        self.archive = archive
        self.query = query
        self.known = {}

    def answer(self):
        """The refs found ("The answer")."""
        when = self.query.get("at", ALWAYS)
        found = [
            ref
            for ref in self.archive.permanodes
            if self.archive.stands(ref, when) and self.meets(self.query["constraint"], ref, when)
        ]
        if self.query["sort"] != "blobref":
            sign = 1 if self.query["sort"] == "mod" else -1
            # Refs with the same date stay in their order.
            found.sort(key=lambda ref: sign * self.last_moment(ref, when))
        return found[: self.query["limit"]]

    def last_moment(self, permanode, when):
        """The date of the last change; a moment before all dates if there is none."""
        change = self.archive.last_change(permanode, when)
        return reference.LEAST_MOMENT - 1 if change is None else change

    def meets(self, constraint, ref, when):
        """Whether a ready blob meets a constraint at a time."""
        # The query lives as long as the results for its parts.
        asked = id(constraint), ref, when
        if asked not in self.known:
            self.known[asked] = all(TESTS[key](self, argument, ref, when) for key, argument in constraint.items())
        return self.known[asked]

    def meets_logical(self, logical, ref, when):
        first = self.meets(logical["a"], ref, when)
        if logical["op"] == "not":
            return not first
        second = self.meets(logical["b"], ref, when)
        return {"and": first and second, "or": first or second, "xor": first != second}[logical["op"]]

    def meets_file(self, test, ref, when):
        if self.archive.facts[ref].kind != "File" or self.archive.sound_size(ref) is None:
            return False
        is_named = "fileName" not in test or meets_text(test["fileName"], self.archive.facts[ref].name)
        return is_named and ("fileSize" not in test or meets_int(test["fileSize"], self.archive.sound_size(ref)))

    def meets_permanode(self, test, ref, when):
        """The permanode test ("Permanode tests")."""
        when = test.get("at", when)
        if not self.archive.stands(ref, when):
            return False
        has_values = "attr" not in test or self.has_values(test, ref, when)
        return has_values and ("relation" not in test or self.has_relatives(test["relation"], ref, when))

    def has_values(self, test, permanode, when):
        values = self.archive.values(permanode, test["attr"], when)
        if test.keys() & {"value", "valueMatches", "valueInSet"}:
            has_one = any(self.meets_value(test, value, when) for value in values)
        else:
            has_one = "numValue" in test or len(values) > 0
        return has_one and ("numValue" not in test or meets_int(test["numValue"], len(values)))

    def meets_value(self, test, value, when):
        if "value" in test and value != test["value"]:
            return False
        if "valueMatches" in test and not meets_text(test["valueMatches"], value):
            return False
        if "valueInSet" not in test:
            return True
        return value in self.archive.ready and self.meets(test["valueInSet"], value, when)

    def has_relatives(self, relation, permanode, when):
        relatives = self.archive.children if relation["relation"] == "child" else self.archive.parents
        meet = any if "any" in relation else all
        constraint = relation.get("any", relation.get("all"))
        return meet(self.meets(constraint, ref, when) for ref in relatives(permanode, when))


# The keys of a constraint. The arguments of each test are the query's evaluation, the key's value, the ref and the
# time.
TESTS = {
    "logical": Asking.meets_logical,
    "anything": lambda asking, test, ref, when: True,
    "camliType": lambda asking, text, ref, when: asking.archive.type_of(ref) == text,
    "blobRefPrefix": lambda asking, text, ref, when: ref.startswith(text),
    "blobSize": lambda asking, test, ref, when: meets_int(test, asking.archive.lengths[ref]),
    "file": Asking.meets_file,
    "permanode": Asking.meets_permanode,
}


def search_text(archive, query):
    """The text of a query's answer (docs/formats/answers.md)."""
    return reference.search_text(Asking(archive, query).answer())
