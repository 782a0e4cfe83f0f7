"""Runs `lab http` over streams of requests, whole and in pieces, and compares every byte of the replies.

The expected replies to a stream are the reference's (connections.py), and Python's own client has to read them. For
some streams they are written down beside them (http_inputs.py, http_rows.py), and the reference has to return these as
well as the program.
"""

import functools
import http.client
import io
import itertools
import os
import pathlib
import re
import threading
import urllib.parse

import connections
import harness
import http_inputs
import http_random
import http_rows
import reference
from connections import Cut
from harness import Difference, chance, check, compare, compare_ending, run_quickly
from http_inputs import Case
from query_inputs import KEYRING

DOCS = pathlib.Path(__file__).resolve().parent.parent / "docs"
KEYS = reference.read_keyring(KEYRING)
# Longer streams aren't sent byte by byte.
LONGEST_BYTE_BY_BYTE = 4_000_000
# So many bytes before the first that differs are shown.
SHOWN_BEFORE = 60


# Running streams

class Shelf:
    """A store, and the program that answers connections to it."""

    def __init__(self, program, pack):
        self.program = program
        self.blobs = reference.content(reference.salvage(pack)[0])
        self.pack, self.keyring = program.new_path(), program.new_path()
        self.pack.write_bytes(pack)
        self.keyring.write_bytes(KEYRING)

    def answers(self, case):
        """Sends a stream whole and in pieces; the replies have to be the reference's each time."""
        if callable(case.stream):
            case = case._replace(stream=case.stream())
        replies = connections.replies(case.stream, self.blobs, KEYS)
        expected = b"".join(reply.text() for reply in replies)
        compare(f"{case.what}: the reference", "read by a client", list(map(as_read, replies)), read_replies(expected))
        if case.replies is not None:
            compare_texts(f"{case.what}: the reference", case.replies, expected)
        try:
            self.compare_runs(case, expected)
        except Difference as difference:
            stream = self.program.new_path()
            stream.write_bytes(case.stream)
            line = f"{self.program.path} http {self.pack} {self.keyring} PIECE < {stream}"
            raise Difference(f"{difference}\n  the stream, with KEEP=1: {line}") from None

    def compare_runs(self, case, expected):
        runs = {piece: self.run(case, piece) for piece in pieces_of(case)}
        for piece, out in runs.items():
            compare_texts(f"{case.what}: whole, and in pieces of {piece}", runs[0], out)
        compare_texts(case.what, expected, runs[0])

    def run(self, case, piece):
        words = ["http", str(self.pack), str(self.keyring), str(piece)]
        status, out, err = run_quickly(self.program, words, case.stream)
        compare_ending(f"{case.what}, in pieces of {piece}", 0, status, err)
        return out


def pieces_of(case):
    """How many bytes the program is given at most at a time."""
    if len(case.stream) > LONGEST_BYTE_BY_BYTE:
        return 0, 4_097, 65_536
    random = chance("pieces", case.what)
    return 0, 1, random.randrange(2, random.choice((4, 20, 200, 5_000)))


def compare_texts(what, expected, got):
    """Compares from the first byte that differs."""
    place = max(0, len(os.path.commonprefix((expected, got))) - SHOWN_BEFORE)
    compare(what, f"the replies from byte {place} on", expected[place:], got[place:])


# Replies as Python's client reads them

class Source(io.BytesIO):
    """The bytes of replies, as a socket that its readers don't close."""

    def makefile(self, mode):
        return self

    def close(self):
        pass


def read_replies(text):
    source, read = Source(text), []
    while source.tell() < len(text):
        response = http.client.HTTPResponse(source)
        response.begin()
        body = response.read()
        lines = [(name, value) for name, value in response.getheaders() if name != "Content-Length"]
        read.append((response.status, response.reason, lines, body, response.will_close))
    return read


def as_read(reply):
    lines = [("Content-Type", reply.kind.decode())]
    lines += [("Allow", reply.allow.decode())] if reply.allow else []
    lines += [("Connection", "close")] if reply.closes else []
    return reply.code, connections.PHRASES[reply.code].decode(), lines, reply.body, reply.closes


# The reference alone

# What docs/http.md says of its examples: path, query, content and whether the connection closes; or why there is no
# such request, and what came of its body.
EXAMPLES = [
    (b"/a", b"b?c", b"", False),
    (b"*", b"", b"", True),
    (b"/c", b"", b"hello", False),
    (b"/d", b"", b"abcde", False),
    (b"/", b"", b"", True),
    "cut",
    "bad head",
    "bad length",
    ("bad length", b"abc"),
]
# Texts of pairs that both readers split alike.
PAIRS = ["a=b&a=c&&d&=e&f=&g=h=i", "a+b=%2b+%26%3D&%41=%zz%4&b%=%", "%ff=%c3%a4&%e2%82=%f0%9f%98&x=%ed%a0%80", ""]


def pages(program):
    """The reference alone, against the examples of docs/http.md and docs/formats/multipart.md."""
    rows = re.findall(r"^\| `(.*[␍␊].*)` \| .* \|$", (DOCS / "http.md").read_text(), re.MULTILINE)
    check("the page has its examples", len(rows) == len(EXAMPLES))
    streams = [row.replace("␍", "\r").replace("␊", "\n").encode() for row in rows]
    checks = [
        lambda stream=stream, example=example: compare(f"{stream}", "the reference", example, seen(stream))
        for stream, example in zip(streams, EXAMPLES)
    ]
    checks += [lambda text=text: pairs_alike(text) for text in PAIRS]
    return checks + [multipart_example] + [lambda case=case: beginnings(case) for case in http_inputs.rows()]


def seen(stream):
    """What is read from the first request of a stream."""
    try:
        head, behind = connections.read_head(stream, 0)
    except Cut:
        return "cut"
    except connections.Refused as refused:
        return refused.fields["error"]
    body = connections.read_body(stream, behind, head.length)
    try:
        body.has_to_end()
    except connections.Refused as refused:
        return refused.fields["error"], body.content
    return head.path, head.query, body.content, head.closes


def multipart_example():
    page = (DOCS / "formats" / "multipart.md").read_text()
    lines = page[page.index("## Examples") :].splitlines()
    lines = [line[4:] for line in lines[lines.index("    --b") : lines.index("    --b--") + 1]]
    body = "\r\n".join(lines).encode()
    events = connections.Multipart(body, b"b").events()
    parts = [event for event in events if event[1] is not None]
    compare("the body of the page", "its parts", [("one", b"abc"), ("two", b"")], parts)
    told = []
    try:
        told.extend(connections.Multipart(body[: body.index(b"abc") + 3], b"b").events())
    except connections.Unfinished as unfinished:
        told.append(unfinished.at)
    compare("the body of the page, cut", "where it is bad", [("one", None), 51], told)


def beginnings(case):
    """Earlier replies stay the same, whatever follows."""
    blobs = reference.content(reference.salvage(http_inputs.STORES[case.store])[0])
    whole = connections.replies(case.stream, blobs, KEYS)
    for place in range(0, len(case.stream), 1 + len(case.stream) // 500):
        some = connections.replies(case.stream[:place], blobs, KEYS)
        compare(f"{case.what}, {place} bytes of it", "the first replies", whole[: len(some)], some)


def pairs_alike(text):
    pairs = urllib.parse.parse_qsl(text, keep_blank_values=True, errors="replace")
    first = dict(reversed(pairs))
    compare(text, "pairs", first, connections.pairs_of(text.encode()))


# Groups

def random_streams():
    """Streams to random stores. Each store is made when its first stream is needed."""
    return of_stores(http_random.RandomConnection, http_random.STORES, http_random.STREAMS)


def random_sessions():
    """The same of sessions over few blobs."""
    return of_stores(http_random.RandomSession, http_random.SESSION_STORES, http_random.SESSIONS)


def of_stores(kind, stores, streams):
    return list(itertools.product([kind], range(stores), range(streams)))


# The beginning of an answer to a search that finds something.
FOUND = b'{"blobs":[{"blob":'


def sessions_find():
    """Many of the searches of random sessions have to find something."""
    found = 0
    for kind, number, place in random_sessions()[::3]:
        made = kind(number)
        blobs = reference.content(reference.salvage(made.pack)[0])
        replies = connections.replies(stream_of(made, number, place), blobs, KEYS)
        found += sum(reply.body.startswith(FOUND) for reply in replies)
    check(f"only {found} searches of a third of the sessions find something", found > 100)


def stream_of(made, number, place):
    return made.stream(chance("stream", number, place))


class Shelves:
    """The stores of a group, each made once."""

    def __init__(self, program):
        self.program = program
        self.lock = threading.Lock()

    @functools.cache
    def named(self, name):
        return Shelf(self.program, http_inputs.STORES[name])

    @functools.cache
    def random(self, kind, number):
        made = kind(number)
        return made, Shelf(self.program, made.pack)

    def answers(self, case):
        with self.lock:
            shelf = self.named(case.store)
        shelf.answers(case)

    def answers_random(self, kind, number, place):
        with self.lock:
            made, shelf = self.random(kind, number)
        shelf.answers(Case(f"stream {place} of store {number}", stream_of(made, number, place)))


def checks_of(program, group):
    shelves = Shelves(program)
    if group is pages:
        return pages(program)
    if group in (random_streams, random_sessions):
        answers = [lambda one=one: shelves.answers_random(*one) for one in group()]
        return answers + [sessions_find] * (group is random_sessions)
    return [lambda case=case: shelves.answers(case) for case in group()]


HOSTILE = [http_inputs.first_lines, http_inputs.heads, http_inputs.lengths, http_inputs.closings, http_inputs.chunks]
HOSTILE += [http_inputs.content_types, http_inputs.stats]
GROUPS = [pages, http_inputs.rows, *map(http_inputs.probed, HOSTILE), http_inputs.uploads, http_inputs.cut_uploads]
GROUPS += [http_inputs.listings, http_inputs.queries, http_inputs.sessions, random_streams, random_sessions]
GROUPS += [http_inputs.long_bodies, http_inputs.large_parts, http_rows.request_rows]


def tell_starts(program):
    print(f"http: {program.starts['http']} starts of lab")


if __name__ == "__main__":
    harness.main("http.sh", GROUPS, checks_of=checks_of, end=tell_starts)
