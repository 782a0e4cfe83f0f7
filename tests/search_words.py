"""Search words by docs/formats/search_words.md alone: a second implementation, which reads by the page's grammar
literally, all rules at once and character by character, and writes lines by the page's rules. It is compared with the
output of `lab words` for lines, and of `lab words-of` for queries.
"""
import copy
import functools
import json
import math
import re

from harness import chance, check, compare, compare_ending, main

LONGEST = 1024
DEEPEST = 32
SHA224 = ("sha224-", 56)
SHA1 = ("sha1-", 40)


# Constraints

def tests(**test):
    return {"permanode": test}


def logical(op, a, b=None):
    joined = {"op": op, "a": a}
    if b is not None:
        joined["b"] = b
    return {"logical": joined}


def levels(constraint):
    """How many constraints are nested within one another."""
    joined = constraint.get("logical", {})
    inner = [joined[key] for key in "ab" if key in joined]
    relation = constraint.get("permanode", {}).get("relation")
    if relation:
        inner.append(relation["any"])
    return 1 + max(map(levels, inner), default=0)


# The grammar: a form has rules, and a rule has a row of items, and their meaning. A character is a test.

def one_of(characters):
    return lambda c: c in characters


def none_of(characters):
    return lambda c: c not in characters


def letters(word):
    return tuple(one_of(c) for c in word)


def digits(name, count):
    return (letters(name) + (one_of("0123456789abcdef"),) * count, lambda *cs: "".join(cs))


def of_text(word, form, asks):
    return (letters(word) + (form,), lambda *parts: asks(parts[-1]))


def joined_by(op):
    return lambda *parts: logical(op, parts[0], parts[-1])


RULES = {
    "line": [(("o", "or", "o"), lambda a, form, b: form)],
    "or": [(("and",), lambda a: a), (("or", "sp", *letters("or"), "sp", "and"), joined_by("or"))],
    "and": [(("unit",), lambda a: a), (("and", "sp", "unit"), joined_by("and"))],
    "unit": [(("atom",), lambda a: a), ((*letters("-"), "atom"), lambda minus, a: logical("not", a))],
    "atom": [(("word",), lambda a: a), ((*letters("("), "o", "or", "o", *letters(")")), lambda *parts: parts[2])],
    "word": [
        of_text("tag:", "v", lambda v: tests(attr="tag", value=v)),
        of_text("title:", "v", lambda v: tests(attr="title", valueMatches={"contains": v})),
        ((*letters("attr:"), "n", *letters(":"), "v"), lambda *parts: tests(attr=parts[5], value=parts[7])),
        of_text("has:", "n", lambda n: tests(attr=n)),
        of_text("ref:", "v", lambda v: {"blobRefPrefix": v}),
        of_text("childrenof:", "R", lambda r: tests(relation={"relation": "parent", "any": {"blobRefPrefix": r}})),
    ],
    "v": [(("bare",), lambda a: a), ((*letters('"'), "within", *letters('"')), lambda *parts: parts[1])],
    "n": [(("bare",), lambda a: a), ((*letters('"'), "some", *letters('"')), lambda *parts: parts[1])],
    "bare": [((none_of(' ()":'),), lambda c: c), (("bare", none_of(' ()":')), lambda a, c: a + c)],
    "within": [((), lambda: ""), (("within", "plain"), lambda a, c: a + c)],
    "some": [(("plain",), lambda c: c), (("some", "plain"), lambda a, c: a + c)],
    "plain": [((none_of('"\\'),), lambda c: c), ((*letters("\\"), one_of('"\\')), lambda slash, c: c)],
    "R": [digits(*SHA224), digits(*SHA1)],
    "sp": [(letters(" "), lambda c: c), (("sp", *letters(" ")), lambda a, c: a)],
    "o": [((), lambda: ""), (("o", *letters(" ")), lambda a, c: a)],
}
EMPTY = {"o": "", "within": ""}


class Chart:
    """All ways to continue, after each character: (form, rule, how much of it, where it began), with what it has
    read."""

    def __init__(self):
        self.sets = [{}]
        self.new = []
        self.begin("line", 0)
        self.complete(0)

    def copy(self):
        """Another one that has read the same: its content never changes, and only more is appended."""
        other = copy.copy(self)
        other.sets = list(self.sets)
        return other

    def begin(self, form, place):
        for rule in range(len(RULES[form])):
            self.add(place, (form, rule, 0, place), ())

    def add(self, place, item, parts):
        known = self.sets[place]
        if item in known:
            assert known[item] == parts, "two readings"
            return
        known[item] = parts
        self.new.append(item)

    def complete(self, place):
        """Adds everything that follows without another character."""
        self.new = list(self.sets[place])
        while self.new:
            item = self.new.pop()
            form, rule, done, began = item
            parts = self.sets[place][item]
            row, means = RULES[form][rule]
            if done == len(row):
                value = means(*parts)
                for other, before in list(self.sets[began].items()):
                    wants = RULES[other[0]][other[1]][0]
                    if other[2] < len(wants) and wants[other[2]] == form and not (began == place and form in EMPTY):
                        self.add(place, (other[0], other[1], other[2] + 1, other[3]), before + (value,))
            elif isinstance(row[done], str):
                self.begin(row[done], place)
                if row[done] in EMPTY:
                    self.add(place, (form, rule, done + 1, began), parts + (EMPTY[row[done]],))
                for other, before in list(self.sets[place].items()):
                    wants = RULES[other[0]][other[1]][0]
                    whole = other[0] == row[done] and other[2] == len(wants) and other[3] == place
                    if whole and row[done] not in EMPTY:
                        value = RULES[other[0]][other[1]][1](*before)
                        self.add(place, (form, rule, done + 1, began), parts + (value,))

    def goes_on(self, c):
        """Whether some line begins with what was read and this character. Everything that is begun can end: each form
        has texts."""
        after = {}
        for (form, rule, done, began), parts in self.sets[-1].items():
            row = RULES[form][rule][0]
            if done < len(row) and not isinstance(row[done], str) and row[done](c):
                after[(form, rule, done + 1, began)] = parts + (c,)
        if not after:
            return False
        self.sets.append(after)
        self.complete(len(self.sets) - 1)
        return True

    def asks(self):
        """The meanings of the line, if it may end here."""
        parts = self.sets[-1].get(("line", 0, 3, 0))
        return None if parts is None else parts[1]


def read(text, chart=None, done=0):
    """The meaning of a text, or the first fault: ("asks", constraint), ("TooLong", len), ("Bad", at) or ("TooDeep",).
    The chart is one that has read so many of its characters."""
    size = len(text.encode())
    if size > LONGEST:
        return ("TooLong", size)
    chart = chart.copy() if chart else Chart()
    at = len(text[:done].encode())
    for c in text[done:]:
        if not chart.goes_on(c):
            return ("Bad", at)
        at += len(c.encode())
    constraint = chart.asks()
    if constraint is None:
        return ("Bad", at)
    return ("asks", constraint) if levels(constraint) <= DEEPEST else ("TooDeep",)


def charts(line):
    """The charts of all prefixes of a line, from the empty one on."""
    chart = Chart()
    yield chart
    for c in line:
        chart = chart.copy()
        assert chart.goes_on(c), line
        yield chart


# A line for a constraint. `more` returns each time whether the line has optional parts; the one that is written never
# has any.

def never():
    return False


def spelled(text, more=never):
    if text and not any(c in ' ()":' for c in text) and not more():
        return text
    return '"' + "".join("\\" + c if c in '"\\' else c for c in text) + '"'


def is_blobref(text):
    return any(re.fullmatch(f"{name}[0-9a-f]{{{count}}}", text) for name, count in (SHA224, SHA1))


def words(constraint, more):
    """The words for the values of a constraint, each with its meaning."""
    test = constraint.get("permanode", {})
    attr, value = test.get("attr", ""), test.get("value", "")
    part = test.get("valueMatches", {}).get("contains", "")
    begins = constraint.get("blobRefPrefix", "")
    parent = test.get("relation", {}).get("any", {}).get("blobRefPrefix", "")
    yield "tag:" + spelled(value, more), tests(attr="tag", value=value)
    yield "title:" + spelled(part, more), tests(attr="title", valueMatches={"contains": part})
    if attr:
        yield "attr:" + spelled(attr, more) + ":" + spelled(value, more), tests(attr=attr, value=value)
        yield "has:" + spelled(attr, more), tests(attr=attr)
    yield "ref:" + spelled(begins, more), {"blobRefPrefix": begins}
    if is_blobref(parent):
        yield "childrenof:" + parent, tests(relation={"relation": "parent", "any": {"blobRefPrefix": parent}})


def word(constraint, more=never):
    """The word for the constraint, or None."""
    found = [line for line, asks in words(constraint, more) if asks == constraint]
    return found[-1 if more() else 0] if found else None


# How tightly the form of an `op` binds; a word is of rank 3.
RANKS = {"or": 0, "and": 1, "not": 2}
BETWEEN = {"or": " or ", "and": " "}


def written(constraint, least=0, more=never):
    """The line for it, or None; in parentheses if a form that binds as tightly as `least` is needed."""
    if set(constraint) != {"logical"}:
        line, rank = word(constraint, more), 3
    else:
        joined = constraint["logical"]
        line, rank = joined_line(joined, more), RANKS.get(joined["op"], 3)
    if line is None:
        return None
    return "(" + line + ")" if rank < least or more() else line


def joined_line(joined, more):
    op, rank = joined["op"], RANKS.get(joined["op"])
    if rank is None:
        return None
    if op == "not":
        atom = written(joined["a"], 3, more)
        return None if atom is None else "-" + atom
    sides = written(joined["a"], rank, more), written(joined["b"], rank + 1, more)
    return None if None in sides else BETWEEN[op].join(sides)


# The fewest parentheses of a line, by the rows of the page's first table, and without ranks

FORMS = ("or", "and", "unit", "atom")


def rows_of(constraint, form):
    """The least number of parentheses for a constraint by a form's own row."""
    joined = constraint["logical"] if set(constraint) == {"logical"} else {"op": None}
    if form == "atom":
        return math.inf if "logical" in constraint or word(constraint) is None else 0
    if form == "or" and joined["op"] == "or":
        return fewest(joined["a"], "or") + fewest(joined["b"], "and")
    if form == "and" and joined["op"] == "and":
        return fewest(joined["a"], "and") + fewest(joined["b"], "unit")
    if form == "unit" and joined["op"] == "not":
        return fewest(joined["a"], "atom")
    return math.inf


def fewest(constraint, form="or"):
    """The least number of parentheses outside quotes for a constraint by a form; infinite if it is impossible. Each
    form is also a tighter one, and the tightest any in parentheses."""
    counts = [rows_of(constraint, each) for each in FORMS]
    return min(*counts[FORMS.index(form):], 1 + min(counts))


def parentheses(line):
    """How many `(` are outside quotes."""
    return re.sub(r'"(\\.|[^"\\])*"', "", line, flags=re.DOTALL).count("(")


# Random constraints and lines

TEXTS = ["a", "or", "-a", "x y", 'say "hi"', "\\", "a:b", "(", "", "é", "日本", "\t", "tag", "title", "a or b", "\0", "😀"]
OPS = ["or", "and", "and", "not"]


def related(which, **kin):
    return tests(relation={"relation": which, **kin})


def asked_by_word(rng):
    """A constraint that a word can express."""
    text = rng.choice(TEXTS)
    name = rng.choice([t for t in TEXTS if t])
    kind = rng.randrange(6)
    if kind == 5:
        prefix, count = rng.choice([SHA224, SHA1])
        ref = prefix + "".join(rng.choice("0123456789abcdef") for _ in range(count))
        return related("parent", any={"blobRefPrefix": ref})
    return [tests(attr="tag", value=text), tests(attr="title", valueMatches={"contains": text}),
            tests(attr=name, value=text), tests(attr=name), {"blobRefPrefix": text}][kind]


def random_constraint(rng, depth, one=asked_by_word):
    if depth > 1 and rng.random() < 0.6:
        op = rng.choice(OPS)
        a = random_constraint(rng, depth - 1, one)
        return logical(op, a) if op == "not" else logical(op, a, random_constraint(rng, depth - 1, one))
    return one(rng)


def spaced(rng, line):
    """The same line with more spaces, outside quotes."""
    out, quoted, escaped = "", False, False
    for c in line:
        out += c
        if not quoted and c in " (":
            out += " " * rng.choice([0, 0, 1, 3])
        escaped, was = quoted and c == "\\" and not escaped, escaped
        if c == '"' and not was:
            quoted = not quoted
    return " " * rng.choice([0, 0, 2]) + out + " " * rng.choice([0, 0, 2])


# Constraints of queries that no line can express

DATE = "2026-01-31T00:00:00Z"
REF = SHA1[0] + "0" * SHA1[1]
TAG = {"attr": "tag", "value": "a"}
TITLE = {"attr": "title", "valueMatches": {"contains": "a"}}
CHILD = {"relation": {"relation": "parent", "any": {"blobRefPrefix": REF}}}
ASKED = [tests(**TAG), tests(**TITLE), tests(attr="a"), tests(**CHILD), {"blobRefPrefix": "a"}]
ASKED += [logical("not", tests(**TAG)), logical("or", *ASKED[:2]), logical("and", *ASKED[:2])]
KEYS = [{"anything": True}, {"camliType": "permanode"}, {"blobSize": {"min": 0}}, {"file": {}}]
TEST_KEYS = [{"at": DATE}, {"numValue": {"min": 1}}, {"valueInSet": tests(**TAG)}]
TEXT_TESTS = [{"equals": "a"}, {"hasPrefix": "a"}, {"hasSuffix": "a"}, {"empty": False}, {"byteLength": {"min": 1}}]
NO_REFS = ["", REF[:-1], REF + "0", REF.upper(), REF[:-1] + "g", " " + REF, "sha224-" + REF[5:], "sha2-" + REF[5:]]
UNASKED = [
    *KEYS, *(asked | key for asked in ASKED for key in KEYS),
    *(asked | other for asked in ASKED for other in (*ASKED[:5], tests()) if not set(asked) & set(other)),
    tests(), tests(at=DATE), *(tests(**test, **key) for test in (TAG, TITLE, {"attr": "a"}) for key in TEST_KEYS),
    tests(at=DATE, **CHILD), *(tests(**test, **CHILD) for test in (TAG, TITLE, {"attr": "a"})),
    tests(value="a", **TITLE), tests(attr="tag", valueMatches={"contains": "a"}),
    *(tests(attr="title", valueMatches=before | test) for before in ({}, {"contains": "a"}) for test in TEXT_TESTS),
    related("child", any={"blobRefPrefix": REF}), related("parent", all={"blobRefPrefix": REF}),
    *(related("parent", any={"blobRefPrefix": ref}) for ref in NO_REFS),
    *(related("parent", any={"blobRefPrefix": REF} | other) for other in (*KEYS, tests(), logical("not", tests()))),
    related("parent", any=tests(**TAG)), logical("xor", *ASKED[:2]),
]


# The tables of the page

SPECIAL = {
    "the empty text, two spaces": ["", "  "],
    "`childrenof:sha1-` and 40 digits": ["childrenof:sha1-" + "0" * 40],
    "`childrenof:sha1-` and 41 digits": ["childrenof:sha1-" + "0" * 41],
}


def rows(page, heading):
    lines = page.split(heading)[1].splitlines()
    for line in lines[2:]:
        if not line.startswith("|"):
            return
        yield [cell.strip() for cell in line.strip()[1:-1].split(" | ")]


def constraint_of(cell):
    """The constraint that a cell names: as JSON, or as that of a line."""
    of_line = re.fullmatch(r"that of `(.*)`", cell)
    return read(of_line[1])[1] if of_line else json.loads(cell.strip("`"))


def texts_of(cell):
    """The texts that a cell names."""
    return SPECIAL.get(cell) or re.findall(r"`([^`]*)`", cell)


def table_rows(page):
    """For each row of the page's tables, whether it is correct."""
    for cells in rows(page, "| line | constraint |"):
        line, asked = cells[0].strip("`"), cells[1]
        if asked.startswith("`{"):
            yield cells, read(line) == ("asks", json.loads(asked.strip("`")))
        else:
            yield cells, read(line)[0] == "asks"
    for cells in rows(page, "| constraint | line |"):
        wanted = None if cells[1] == "none" else cells[1].strip("`")
        yield cells, written(constraint_of(cells[0])) == wanted
    for cells in rows(page, "| text | fault | since |"):
        texts = texts_of(cells[0])
        wants = [int(n) for n in re.findall(r"\d+", cells[1])]
        wants *= len(texts) if len(wants) == 1 else 1
        yield cells, [read(text) for text in texts] == [("Bad", n) for n in wants]


def typed_rows(page):
    """For each row of the table of what can be typed, whether its example is a line."""
    for cells in rows(page, "| you type | it asks for | example |"):
        yield cells, [read(text)[0] for text in texts_of(cells[2])] == ["asks"]


def so(cells, holds):
    return lambda: check(f"not so: {' | '.join(cells)}", holds)


def tables(program):
    """The rows of the pages' tables, by this reading of the grammar; and the program's output for their texts."""
    grammar, search = (open(f"docs/{name}.md", encoding="utf-8").read() for name in ("formats/search_words", "search"))
    checks = [so(cells, holds) for cells, holds in (*table_rows(grammar), *typed_rows(search))]
    columns = [("| line | constraint |", 0), ("| text | fault | since |", 0), ("| you type | it asks for | example |", 2)]
    cells = [row[at] for heading, at in columns for row in rows(grammar + search, heading)]
    lines = [text for cell in cells for text in texts_of(cell)]
    constraints = [constraint_of(row[0]) for row in rows(grammar, "| constraint | line |")]
    # No query has an empty name.
    constraints.remove(tests(attr=""))
    return checks + [
        lambda: compare_lines(program, "tables", lines), lambda: compare_lines_of(program, "tables", constraints),
    ]


# The program

def fault(answer):
    """How `lab words` writes the result of a reading."""
    kind = answer[0]
    return {"TooLong": "too long {}", "Bad": "bad {}", "TooDeep": "too deep"}[kind].format(*answer[1:])


def told_of(program, what, word, lines):
    """The program's output for each line."""
    status, out, err = program.run(what, [word], "\n".join(lines).encode())
    compare_ending(what, 0, status, err)
    told = out.decode().split("\n")
    compare(what, "how many lines are told", len(lines) + 1, len(told))
    return told[:-1]


def compare_lines(program, what, lines):
    compare_answers(program, what, [(line, read(line)) for line in lines])


def compare_answers(program, what, answers):
    """Compares the output for lines with their meanings, or with why they have none, and returns the output."""
    told = told_of(program, what, "words", [line for line, _ in answers])
    for (line, answer), told_of_it in zip(answers, told, strict=True):
        compare_line(f"{what}, {line!r}", answer, told_of_it)
    return told


def compare_line(what, answer, told):
    if answer[0] == "asks":
        query = {"constraint": answer[1], "limit": 200, "sort": "blobref"}
        compare(what, "what is asked", query, json.loads(told) if told.startswith("{") else told)
    else:
        compare(what, "the fault", fault(answer), told)


def compare_written(program, what, queries, lines):
    """Compares the lines that are written for queries with the expected ones, of which there may be none."""
    told = told_of(program, what, "words-of", queries)
    for query, line, told_of_it in zip(queries, lines, told, strict=True):
        compare(f"{what}, {query}", "the line", "none" if line is None else line, told_of_it)


def compare_lines_of(program, what, constraints):
    """Compares the lines that are written for constraints with those that are written here, and their meanings with the
    constraints."""
    lines = [written(constraint) for constraint in constraints]
    for constraint, line in zip(constraints, lines, strict=True):
        count = math.inf if line is None else parentheses(line)
        compare(f"{what}, {constraint}", "how many parentheses are written here", fewest(constraint), count)
        if line is not None and len(line.encode()) <= LONGEST:
            compare(f"{what}, {line!r}", "what is read here", ("asks", constraint), read(line))
    compare_written(program, what, [json.dumps({"constraint": constraint}) for constraint in constraints], lines)
    if any(lines):
        compare_lines(program, what, [line for line in lines if line is not None])


def random_line(rng, constraint):
    """A line for a constraint, with more spaces, quotes and parentheses than are needed."""
    return spaced(rng, written(constraint, more=lambda: rng.random() < 0.1))


SHARES = 20
SOME = ' ()":\\-orta0\té'


def right(program):
    """Random lines, each of which means the constraint for which it was made; the lines that are written for their
    meanings, and what these mean."""
    def lines(share):
        what, rng = f"right {share}", chance("right", share)
        asked = [random_constraint(rng, rng.choice([1, 1, 2, 3, 4])) for _ in range(400)]
        texts = [random_line(rng, constraint) for constraint in asked]
        for constraint, text in zip(asked, texts, strict=True):
            compare(repr(text), "what is read here", ("asks", constraint), read(text))
        queries = compare_answers(program, what, [(text, ("asks", c)) for text, c in zip(texts, asked, strict=True)])
        back = [written(constraint) for constraint in asked]
        compare_written(program, what, queries, back)
        compare(what, "what is read again", queries, told_of(program, what, "words", back))
    return [lambda share=share: lines(share) for share in range(SHARES)]


def broken(line, characters):
    """The variants of a line that is broken at every character: its prefix alone, and the line without the character,
    with another one before it, and with another one in its place; each with its meaning, or why it has none."""
    for place, chart in enumerate(charts(line)):
        front, rest = line[:place], line[place:]
        for text in (front, front + rest[1:], *(front + c + rest[gone:] for c in characters() for gone in (0, 1))):
            yield text, read(text, chart, place)


def wrong(program):
    """Random lines that are broken at every character, and texts of some characters."""
    def lines(share):
        rng = chance("wrong", share)
        texts = ["".join(rng.choice(' ()":\\-ortag:é') for _ in range(rng.randrange(12))) for _ in range(100)]
        answers = [(text, read(text)) for text in texts]
        while len(answers) < 1000:
            line = random_line(rng, random_constraint(rng, rng.choice([1, 2, 3, 4])))
            answers += broken(line, lambda: rng.choice(SOME))
        compare_answers(program, f"wrong {share}", answers)
    return [lambda share=share: lines(share) for share in range(SHARES)]


def every_character(program):
    """Lines that are broken at every character by each of some characters."""
    def lines(line):
        compare_answers(program, f"what {line!r} is broken into", list(broken(line, lambda: SOME)))
    some = ['tag:a -attr:b:c or title:"x y"', '(has:"a b" or -(ref:sha1- childrenof:sha1-' + "0" * 40 + "))",
            'attr:"\\"\\\\":or or tag:or', "childrenof:sha224-" + "a" * 56 + " title:é", 'title:"a or b" or tag:"é"',
            "tag:or or title:or -has:or"]
    return [lambda line=line: lines(line) for line in some]


def limits(program):
    """Lines at the limits of length and depth."""
    lines = ["tag:" + "a" * n for n in (1019, 1020, 1021)] + ["tag:" + "é" * n for n in (510, 511)]
    lines += ["(" * n for n in (1, 1024, 1025)] + ["-(" * n + "has:a" + ")" * n for n in (30, 31, 32)]
    lines += [" ".join(["tag:a"] * n) for n in (31, 32, 33)] + ["(" * 400 + "tag:a" + ")" * 400]
    return [lambda line=line: compare_lines(program, "limits", [line]) for line in lines]


def asked(program):
    """Random constraints, some of which no line can express."""
    def lines(share):
        rng = chance("asked", share)
        one = lambda rng: rng.choice(UNASKED) if rng.random() < 0.05 else asked_by_word(rng)
        constraints = [random_constraint(rng, rng.randrange(1, 8), one) for _ in range(200)]
        compare_lines_of(program, f"asked {share}", constraints)
    return [lambda share=share: lines(share) for share in range(SHARES)]


@functools.cache
def shapes(count, first=0):
    """All constraints that join words so many times, the words named by their places from a first one on."""
    if count == 0:
        return [tests(attr=f"a{first}")]
    found = [logical("not", a) for a in shapes(count - 1, first)]
    for before in range(count):
        for a in shapes(before, first):
            after = shapes(count - 1 - before, first + words_in(a))
            found += [logical(op, a, b) for b in after for op in ("or", "and")]
    return found


def words_in(constraint):
    joined = constraint.get("logical")
    return sum(words_in(joined[key]) for key in "ab" if key in joined) if joined else 1


def every_shape(program):
    """Every way to join words at most four times."""
    def lines(count):
        compare_lines_of(program, f"joined {count} times", shapes(count))
    return [lambda count=count: lines(count) for count in range(5)]


def told_of_one(program, query):
    """The output for one query, whose line may have line ends."""
    status, out, err = program.run("one query", ["words-of"], json.dumps(query).encode())
    compare_ending("one query", 0, status, err)
    return out.decode().removesuffix("\n")


def words_with(text):
    """The meaning of each word with a text, at every place."""
    named = [tests(attr=text), tests(attr=text, value=text)] if text else []
    return [tests(attr="tag", value=text), tests(attr="title", valueMatches={"contains": text}),
            tests(attr="a", value=text), {"blobRefPrefix": text}, *named]


def every_text(program):
    """Texts of every ASCII character and of some others. One with a line end is tried alone."""
    def lines(texts):
        constraints = [constraint for text in texts for constraint in words_with(text)]
        compare_lines_of(program, f"texts from {texts[0]!r} on", constraints)

    def alone(constraint):
        compare(f"{constraint}", "the line", written(constraint), told_of_one(program, {"constraint": constraint}))

    some = [chr(code) for code in range(128) if code != 10] + ["é", "\x85", "\u2028", "日", "\ufeff", "\uffff", "😀"]
    texts = ["", *some, *(c + c for c in some), *("a" + c for c in some), *(c + " or" for c in some)]
    return [lambda start=start: lines(texts[start:start + 100]) for start in range(0, len(texts), 100)] + [
        lambda constraint=constraint: alone(constraint) for text in ("\n", 'a\n"') for constraint in words_with(text)
    ]


def within(constraint):
    """Constraints that contain one, in every place."""
    word = tests(attr="a")
    ops = ("or", "and")
    return [logical("not", constraint), *(logical(op, constraint, word) for op in ops),
            *(logical(op, word, constraint) for op in ops)]


def unasked(program):
    """Constraints that no line can express, alone and within others."""
    def lines(constraint):
        once = within(constraint)
        some = [constraint, *once, *(outer for inner in once for outer in within(inner))]
        check(f"a line asks {constraint}", all(fewest(one) == math.inf for one in some))
        compare_lines_of(program, "unasked", some)
    return [lambda constraint=constraint: lines(constraint) for constraint in UNASKED]


def chain(count, join):
    """So many constraints nested within one another."""
    return functools.reduce(lambda inner, _: join(inner), range(count - 1), tests(attr="a"))


def bounds(program):
    """Constraints as deep as a query's may be, and lines longer than those that are read; and texts that aren't
    queries."""
    word = tests(attr="a")
    joins = [lambda c: logical("not", c)]
    joins += [lambda c, op=op: logical(op, c, word) for op in ("or", "and")]
    joins += [lambda c, op=op: logical(op, word, c) for op in ("or", "and")]
    some = [chain(count, join) for join in joins for count in (31, 32)]
    some += [chain(16, lambda c, op=op: logical("not", logical(op, word, c))) for op in ("or", "and")]
    some += [chain(10, lambda c: logical("or", c, c))]
    some += [tests(attr="tag", value=c * count) for c in ("a", "é", '"', " ") for count in (509, 510, 1020, 1021, 5000)]
    none = [{"constraint": chain(33, joins[0])}, {"constraint": tests(attr="")}, {"constraint": word, "limit": 0}, {}]
    def refused(query):
        compare(f"{query}", "what is told", "no query", told_of_one(program, query))
    return [lambda c=c: compare_lines_of(program, "bounds", [c]) for c in some] + [
        lambda query=query: refused(query) for query in none
    ]


WRITING = [asked, every_shape, every_text, unasked, bounds]
if __name__ == "__main__":
    main("search_words.sh", [tables, right, wrong, every_character, limits, *WRITING])
