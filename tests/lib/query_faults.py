"""Texts that aren't queries, and similar ones that are, for query.py.

The first fault of a text with one fault or two is known from how it was made. The faults of all others, and whether
they have one, are the reference's.
"""

import itertools
from typing import Callable, NamedTuple

import inputs
import queries
from query_inputs import ANYTHING, Pairs, Raw, logical, negated, node, spell

TEXT_TEST = {
    "equals": "a",
    "contains": "a",
    "hasPrefix": "a",
    "hasSuffix": "a",
    "empty": False,
    "byteLength": {"min": 1, "max": 1},
}
FILE = {"file": {"fileName": TEXT_TEST, "fileSize": {"min": 0, "max": 9}}}
# Each key of each object is in one of these.
FULL = [
    {
        "constraint": {
            "logical": {
                "op": "or",
                "a": node(
                    at=inputs.day(1),
                    attr="tag",
                    value="trip",
                    valueMatches=TEXT_TEST,
                    valueInSet=FILE,
                    numValue={"min": 0, "max": 2},
                    relation={"relation": "parent", "any": {"camliType": "permanode"}},
                ),
                "b": node(attr="tag"),
            },
            "anything": True,
            "camliType": "permanode",
            "blobRefPrefix": "sha224-",
            "blobSize": {"min": 1, "max": 1_000},
            "permanode": {},
        },
        "limit": 5,
        "sort": "mod",
        "at": inputs.day(4),
    },
    {
        "constraint": negated(
            node(
                relation={
                    "relation": "child",
                    "all": node(
                        attr="camliMember",
                        valueInSet=logical("xor", negated({"file": {}}), {"blobSize": {"max": 300}}),
                        numValue={"min": 1},
                    ),
                }
            )
        )
    },
]
SMALL = {"constraint": ANYTHING}


# Places

GONE = object()


def places(value, keys=()):
    """The keys that lead to each value in objects, the whole one first."""
    yield keys
    if isinstance(value, dict):
        for key, one in value.items():
            yield from places(one, (*keys, key))


def value_at(value, keys):
    for key in keys:
        value = value[key]
    return value


def changed(value, keys, change):
    """The value with a change at a place; `GONE` removes it."""
    if not keys:
        return change(value)
    one = changed(value[keys[0]], keys[1:], change)
    if one is GONE:
        return {key: other for key, other in value.items() if key != keys[0]}
    return {**value, keys[0]: one}


def replaced(value, keys, other):
    return changed(value, keys, lambda _: other)


def is_constraint(keys):
    """Whether it is the place of a constraint."""
    return len(keys) > 0 and keys[-1] in ("constraint", "a", "b", "valueInSet", "any", "all")


def depth_at(keys):
    return sum(is_constraint(keys[: end + 1]) for end in range(len(keys)))


# Single faults, known from how they are made

class Made(NamedTuple):
    """A change at a place, the fault that it makes, and what it removes: nothing if that is None."""

    place: tuple
    change: Callable
    kind: str
    keys: tuple
    gone: object
    # Its order among other faults: keys that are unknown, values of keys, conditions on the whole.
    order: tuple


def among_values(keys):
    return tuple((1, key.encode()) for key in keys)


def wrong_value(keys, value):
    return Made(keys, lambda _: value, "BadValue", keys, keys, among_values(keys))


def unknown_key(keys, key, value=1):
    order = (*among_values(keys), (0, key.encode()))
    return Made(keys, lambda old: {**old, key: value}, "BadKey", (*keys, key), None, order)


def wrong_whole(keys, change, gone=None):
    return Made(keys, change, "BadValue", keys, gone, (*among_values(keys), (2,)))


def too_deep(keys):
    """A constraint within as many others as are too many."""
    steps = queries.DEEPEST + 1 - depth_at(keys)
    value, path = 7, keys
    for _ in range(steps):
        value, path = negated(value), (*path, "logical", "a")
    return Made(keys, lambda _: value, "TooDeep", path, keys, among_values(path))


def single_faults(query):
    """A query's changes that make one fault."""
    for keys in places(query):
        value = value_at(query, keys)
        if isinstance(value, dict):
            wrong = (7, [], [{}], None, True, "x")
            for key in UNKNOWN_KEYS:
                if key not in value and key not in known_keys(keys):
                    yield unknown_key(keys, key)
            yield from wrong_wholes(keys, value)
        elif isinstance(value, bool):
            wrong = ("true", 1, None, {}, Raw("[true]"))
        elif isinstance(value, int):
            wrong = (str(value), -1, Raw("1.0"), Raw("1e0"), None, {}, Raw("18446744073709551616"))
        else:
            wrong = (1, None, {}, [value], False)
        for one in wrong:
            yield wrong_value(keys, one)
        if is_constraint(keys):
            yield too_deep(keys)


def known_keys(keys):
    """The keys that the object at a place may have."""
    if is_constraint(keys):
        return queries.FORMS["constraint"].keys
    return queries.FORMS[FORM_UNDER[keys[-1]] if keys else "query"].keys


# The form of the object under a key
FORM_UNDER = {key: "int test" for key in ("blobSize", "fileSize", "byteLength", "numValue")}
FORM_UNDER |= {key: "text test" for key in ("fileName", "valueMatches")}
FORM_UNDER |= {"logical": "logical", "file": "file test", "permanode": "permanode test", "relation": "relation"}
KEYS = sorted({key for form in queries.FORMS.values() for key in form.keys})
UNKNOWN_KEYS = [*KEYS, "", " ", "0", "A", "Limit", "LIMIT", "limit ", "limi", "limits", "aa", "c", "a/b", "~", "\u00e4"]
UNKNOWN_KEYS += ["\U0001f600", "\0", "null", "__proto__"]
VALUE_TESTS = {"value": "a", "valueMatches": TEXT_TEST, "valueInSet": ANYTHING, "numValue": {"min": 1}}


def wrong_wholes(keys, value):
    """Changes of an object at a place that break only its condition on the whole."""

    def without(name):
        return wrong_whole(keys, lambda old: {key: one for key, one in old.items() if key != name}, (*keys, name))

    if not keys:
        yield without("constraint")
    elif is_constraint(keys) or FORM_UNDER[keys[-1]] in ("int test", "text test"):
        yield wrong_whole(keys, lambda _: {}, keys)
    elif keys[-1] == "logical":
        yield from (without(key) for key in value)
        if "b" in value:
            yield wrong_whole(keys, lambda old: {**old, "op": "not"}, (*keys, "op"))
        else:
            yield wrong_whole(keys, lambda old: {**old, "b": ANYTHING})
            yield wrong_whole(keys, lambda old: {**old, "op": "and"}, (*keys, "op"))
    elif keys[-1] == "permanode" and "attr" not in value:
        for key, test in VALUE_TESTS.items():
            yield wrong_whole(keys, lambda old, key=key, test=test: {**old, key: test})
    elif keys[-1] == "permanode" and value.keys() & VALUE_TESTS.keys():
        yield without("attr")
    elif keys[-1] == "relation":
        yield from (without(key) for key in value)
        key = "any" if "any" in value else "all"
        yield wrong_whole(keys, lambda old: {**old, "any": ANYTHING, "all": ANYTHING}, (*keys, key))


def is_prefix(keys, others):
    return keys is not None and others[: len(keys)] == keys


def pair_of_faults(random, query, faults):
    """The query with two of the faults, and the first of them."""
    while True:
        one, two = random.sample(faults, 2)
        if not (is_prefix(one.gone, two.place) or is_prefix(two.gone, one.place) or one.order == two.order):
            both = changed(changed(query, one.place, one.change), two.place, two.change)
            return both, min(one, two, key=lambda made: made.order)


# Changes whose result comes from the reference

VALUES = ["null", "true", "false", "0", "1", "2", "-0", "-1", "1.0", "1e0", "0.5", "1000000", "1000001", "1e400", "01"]
VALUES += ["18446744073709551615", "18446744073709551616", '""', '"a"', '"not"', '"all"', '"mod"', '"-mod"', '"parent"']
VALUES += ['"2020-01-03T00:00:00Z"', "[]", "[null]", "[{}]", "{}", '{"":0}', "'a'", "nul", ""]
KNOWN_VALUES = ['{"anything":true}', '{"min":1}', '{"empty":false}', '{"attr":"tag"}', '"and"', '"child"']
VALUES = list(map(Raw, VALUES + KNOWN_VALUES))


def every_change():
    """Each value, and no value, at each place of the full queries; each key twice; and known keys that aren't there."""
    for query in FULL:
        for keys in places(query):
            value = value_at(query, keys)
            for other in VALUES:
                yield spell(replaced(query, keys, other))
            if keys:
                yield spell(replaced(query, keys, GONE))
                for other in (Raw("7"), Raw('{"x":1}'), Raw('"x"')):
                    front = {**value_at(query, keys[:-1])}
                    for pair in ([(keys[-1], other), *front.items()], [*front.items(), (keys[-1], other)]):
                        yield spell(replaced(query, keys[:-1], Pairs(pair)))
            if isinstance(value, dict):
                absent = [key for key in known_keys(keys) if key not in value]
                for key, other in itertools.product(absent, map(Raw, KNOWN_VALUES)):
                    yield spell(replaced(query, keys, {**value, key: other}))


# Depth

LINKS = [
    negated,
    lambda a: logical("and", a, ANYTHING),
    lambda a: logical("or", ANYTHING, a),
    lambda a: logical("xor", a, negated(ANYTHING)),
    lambda a: node(attr="camliMember", valueInSet=a),
    lambda a: node(relation={"relation": "child", "any": a}),
    lambda a: node(relation={"relation": "parent", "all": a}),
]


def chain(links, innermost):
    for link in links:
        innermost = link(innermost)
    return innermost


def deep_chains(random):
    """Chains of constraints that are deep enough, and one deeper."""
    insides = [ANYTHING, node(attr="title", valueMatches={"byteLength": {"min": 1}}), 7, None, {}, [], {"x": 1}, "x"]
    for length in (queries.DEEPEST - 2, queries.DEEPEST - 1, queries.DEEPEST, queries.DEEPEST + 1):
        for inside in insides:
            for link in LINKS:
                yield spell({"constraint": chain([link] * length, inside)})
            for _ in range(8):
                yield spell({"constraint": chain(random.choices(LINKS, k=length), inside)})
    for link in LINKS:
        # A constraint that isn't too deep beside one that is, and a key that is there twice.
        deep = chain([link] * (queries.DEEPEST - 1), ANYTHING)
        for pair in [(ANYTHING, deep), (deep, ANYTHING), (deep, deep)]:
            yield spell({"constraint": logical("or", *pair)})
        yield spell(Pairs([("constraint", logical("or", deep, deep)), ("constraint", ANYTHING)]))
        yield spell(Pairs([("constraint", ANYTHING), ("constraint", logical("or", deep, deep))]))


# JSON

def nested(depth):
    """A query with an ignored key in front, whose value is nested so deeply, counting the query itself."""
    for opening, closing in [("[", "]"), ('{"a":', "}"), ('[{"a":', "}]")]:
        step = opening.count("[") + opening.count("{")
        count, rest = divmod(depth - 1, step)
        inside = "[" * rest + "0" + "]" * rest
        yield '{"constraint":' + opening * count + inside + closing * count + ',"constraint":{"anything":true}}'


SHORT = [b"", b" ", b"\n", b"null", b"true", b"0", b'""', b"[]", b"{}", b"[{}]", b'{"":1}', b'{"":{"":1}}']
SHORT += [b"{", b"}", b'{"', b"{}{}"]
FRONTS = [b" ", b"\n\r\t ", b"\xef\xbb\xbf", b"\0", b"\x0b", b"\xc2\xa0", b"//\n", b"{", b"[", b","]
ENDS = [b" ", b"\n\r\t \n", b"\0", b"\x0c", b"\x1a", b",", b"}", b"]", b"//", b"{}", b"x", b"0", b"\n\n\n"]
SPACES = [b" ", b"\n", b"\t", b"\r", b"\x0b", b"\xe2\x80\xa8"]
OCTETS = [b"\xff", b"\xc0\x80", b"\xed\xa0\x80", b"\xf4\x90\x80\x80", b"\xe2\x82", b"\x80"]
OCTETS += ["\u00e4".encode(), "\U0001f600".encode()]
JUNK = [b"0", b"1", b" ", b'"', b",", b":", b"{", b"}", b"a", b"\\", b"\xff", b"null", b'"":1,']


def json_texts():
    """Texts as bytes."""
    small, full = spell(SMALL).encode(), spell(FULL[0]).encode()
    for depth in (1, 2, 64, 126, 127, 128, 129, 130, 1_000, 100_000):
        yield from (text.encode() for text in nested(depth))
    for depth in (126, 127, 128):
        yield b"[" * depth + b"]" * depth
        yield b'{"a":' * depth + b"0" + b"}" * depth
    yield from SHORT
    yield from (front + small for front in FRONTS)
    yield from (small + end for end in ENDS)
    yield from (small.replace(b":", space + b":" + space) for space in SPACES)
    for member, _ in inputs.MEMBERS:
        # The member's key is a known one whose value is replaced later.
        octets = member if isinstance(member, bytes) else member.encode()
        if octets.startswith(b'"n":'):
            yield b'{"constraint":' + octets[4:] + b"," + small[1:]
            yield b'{"constraint":{"camliType":' + octets[4:] + b"}}"
            yield b'{"constraint":{"anything":true},"limit":' + octets[4:] + b"}"
    for octets in OCTETS:
        yield b'{"constraint":{"camliType":"' + octets + b'"}}'
        yield b'{"constraint":{"' + octets + b'":1}}'
        yield b'{"constraint":{"camliType":"' + octets + b'","camliType":"permanode"}}'
        yield octets + small
        yield small + octets
    for at in range(len(full)):
        yield full[:at]
        yield full[:at] + full[at + 1 :]
        yield full[: at + 1] + full[at:]


def damaged(random, text):
    """A text with some bytes of it changed."""
    octets = bytearray(text)
    for _ in range(random.choice((1, 1, 2, 3))):
        at = random.randrange(len(octets) + 1)
        kind = random.randrange(6)
        if kind == 0:
            del octets[at : at + random.randrange(1, 4)]
        elif kind == 1:
            octets[at:at] = random.choice(JUNK)
        elif kind == 2 and at < len(octets):
            octets[at] ^= 1 << random.randrange(8)
        elif kind == 3:
            end = at + random.randrange(1, 30)
            octets[at:at] = octets[at:end]
        elif kind == 4:
            octets[at : at + 2] = octets[at : at + 2][::-1]
        else:
            octets[at : at + 1] = random.choice((b"1", b"9", b"e", b"A", b"_", b"\n"))
    return bytes(octets)


# Numbers

NUMBERS = ["0", "1", "2", "9", "10", "-0", "-1", "00", "01", "+1", "1.0", "1.", ".1", "1e0", "1E2", "1e-2", "0.0"]
NUMBERS += ["0e0", "0x1", "1_0", "1 0", "999999", "1000000", "1000001", "1000000.0", "1e6", "10000000000"]
NUMBERS += ["18446744073709551615.0"]
NUMBERS += [str(2**power + more) for power in (32, 53, 63, 64) for more in (-1, 0, 1)]
NUMBERS += ["1" * 30, "1" * 400, "1e400", "-18446744073709551616", '"1"', "null", "[1]", "{}", "true", "\u0661", "NaN"]


def numbers():
    """Each number as a limit, and at each end of each int test."""
    for number in NUMBERS:
        yield spell({**SMALL, "limit": Raw(number)})
        for end in ("min", "max"):
            test = {end: Raw(number)}
            yield spell({"constraint": {"blobSize": test}})
            yield spell({"constraint": node(attr="tag", numValue=test)})
            yield spell({"constraint": node(attr="title", valueMatches={"byteLength": test})})
            yield spell({"constraint": negated({"file": {"fileSize": test}})})
    for low, high in itertools.product((0, 1, 2, 2**64 - 1), repeat=2):
        yield spell({"constraint": node(attr="tag", numValue={"min": low, "max": high})})


def dates():
    """Each text as the date of a query, and of a permanode test."""
    for text, _ in inputs.DATES:
        yield spell({"constraint": node(attr="tag"), "at": text})
        yield spell({"constraint": node(attr="tag", at=text)})
        yield spell({"constraint": node(relation={"relation": "child", "any": node(attr="tag", at=text)})})
