"""A server's requests for memory that are refused: one while it starts, or one from the moment on at which something is
sent to it. (Servers of shares are in memory_shares.py.)

Each request gets its usual reply, or 503 for lack of memory, or its connection ends before a reply; over another
connection it then succeeds. If an upload wasn't acknowledged, a prefix of its parts was put. In the end all workers
answer at once, and the packs have exactly the blobs that were put.
"""

import contextlib
import json
import pathlib
import subprocess
import time
from typing import Callable, NamedTuple

import inputs
import reference
import writing
from connections import LISTING, QUERY, STAT, UPLOAD, Connection, Reply, json_text
from harness import Difference, check, compare, compare_ending, finish
from http_inputs import ABC, EMPTY, FORM, blob_part, blob_target, form, get, part, post, post_pieces, stat, stat_pairs
from http_inputs import upload
from query_inputs import spell
from reference import ref_of
from refusing import Page, refusing
from serving import ABC_REPLY, PORTS, STARTED, Exchange, Server, Talk, compare_texts, is_listened_to, records_of
from serving import store_of

WORKERS = 2
KEYS = reference.read_keyring(inputs.KEYRING)
NO_MEMORY = Reply(503, json_text({"error": "memory"}), closes=True).text()
# How often the server is tried: it has no more requests for memory once so many numbers in a row were too great.
QUIET, MOST = 3, 10_000
# Work after a reply is done once no request for memory comes for so many seconds.
STILL, MOMENT, SOON = 0.01, 0.001, 10
# docs/commands.md, "Exit statuses"
MEMORY, DISK, LISTENER = 1, 7, 14
# How many requests each case makes.
COUNTS = {}


# Requests of the cases

class Case(NamedTuple):
    """The request for a number while memory is refused, and what is sent before it."""

    what: str
    stream: Callable
    before: Callable = lambda number: b""


def blobs_of(what, number, count):
    return [b"%d of %d, %b" % (place, number, what) for place in range(count)]


def notes_of(number):
    """A permanode and a claim on it."""
    node = writing.permanode(f"{number:032x}")
    return node, writing.claim("set", ref_of(node), "tag", f"v{number}", inputs.DATE)


def search_of(value):
    return post(QUERY, spell({"constraint": {"permanode": {"attr": "tag", "value": value}}}).encode())


def with_a_false_part(number):
    """The second of three parts has another ref than its name."""
    return post(UPLOAD, form(blob_part(b"front %d" % number), part(EMPTY, b"abc"), part(EMPTY, b"")), FORM)


def in_chunks(number):
    body = form(*map(blob_part, blobs_of(b"in chunks", number, 2)))
    return post_pieces(UPLOAD, [body[at : at + 40] for at in range(0, len(body), 40)], FORM)


CASES = [
    Case("a blob", lambda number: get(blob_target(ABC))),
    Case("an absent blob", lambda number: get(blob_target(inputs.ABSENT))),
    Case("a stat", lambda number: stat(ABC, EMPTY, ref_of(inputs.NODE))),
    Case("a stat by POST", lambda number: post(STAT, stat_pairs(ABC, EMPTY))),
    Case("a page", lambda number: get(LISTING)),
    Case("no route", lambda number: get(b"/x")),
    Case("no head", lambda number: b"GET\r\n\r\n"),
    Case("a search", lambda number: search_of("a")),
    Case("no query", lambda number: post(QUERY, b'{"constraint":{"colour":1}}')),
    Case("an upload", lambda number: upload(*blobs_of(b"alone", number, 1))),
    Case("an upload of three", lambda number: upload(*blobs_of(b"of three", number, 3))),
    Case("an upload in chunks", in_chunks),
    Case("an upload with a false part", with_a_false_part),
    Case("an upload of notes", lambda number: upload(*notes_of(number))),
    Case("a search after notes", lambda number: search_of(f"v{number}"), lambda number: upload(*notes_of(number))),
    Case("two requests", lambda number: get(blob_target(ABC)) + upload(*blobs_of(b"the second", number, 2))),
]


class OfAStore:
    """A store and its server: the class of the server and its arguments, the requests that it gets, and a request with
    its reply. A start has a name of its own."""

    START, SERVER, WORDS = "a start", Server, (f"--workers={WORKERS}", "--indexers=1")
    CASES, GOOD = CASES, (get(blob_target(ABC)), ABC_REPLY)

    def __init__(self, program):
        self.store = store_of(program, *inputs.EXAMPLE_BLOBS, b"abc")

    def connection(self, stream, blobs):
        """The expected replies to a stream if blobs are there."""
        return Connection(stream, blobs, KEYS)

    def other(self, number):
        """A request after each case too."""
        return search_of(f"v{number}")

    def exchanged(self, port, stream):
        """The replies to a stream."""
        return Exchange(port, [stream]).bytes()

    def workers_answer(self, what, port):
        """As many connections as there are workers are answered while all of them stay open."""
        with contextlib.ExitStack() as stack:
            for number in range(WORKERS):
                talk = stack.enter_context(Talk(port))
                talk.ask(f"{what}, connection {number} of {WORKERS}", *self.GOOD)


def routes(program, kind=OfAStore):
    """A server's work from the moment on at which a request is sent, until it is idle."""
    library = refusing(program)
    return [lambda case=case: Asked(program, library, kind(program), case).in_turn() for case in kind.CASES]


def front_of(page):
    """The words that start a server with the library."""
    return ("env", *(f"{name}={value}" for name, value in page.variables().items()))


class Asked:
    """A server that gets the requests of a case, for one number after the other."""

    def __init__(self, program, library, kind, case):
        self.kind, self.case, self.page = kind, case, Page(program, library)
        self.store = kind.store
        self.blobs, self.records = self.store.blobs(), records_of(self.store.packs)
        self.server = kind.SERVER(program, self.store.path, *kind.WORDS, front=front_of(self.page))

    def in_turn(self):
        quiet = 0
        with self.server:
            for number in range(1, MOST):
                was_refused = self.refuses(f"{self.case.what}, request {number} refused", number)
                quiet = 0 if was_refused else quiet + 1
                if quiet == QUIET:
                    break
            self.kind.workers_answer(self.case.what, self.server.port)
        self.packs_are_right()
        COUNTS[self.case.what] = number - QUIET

    def refuses(self, what, number):
        """Returns whether a request was refused."""
        self.asks(f"{what}, before it", self.case.before(number))
        self.is_still()
        stream = self.case.stream(number)
        due = self.kind.connection(stream, self.blobs)
        texts = [reply.text() for reply in due.replies()]
        self.page.refuse(number)
        got = self.kind.exchanged(self.server.port, stream)
        self.is_still()
        was_refused = self.page.refused() > 0
        self.page.refuse_none()
        is_answer(what, texts, got, was_refused)
        self.takes_in(what, due, got == b"".join(texts))
        self.asks(f"{what}, and then none", stream)
        self.asks(f"{what}, and then something else", self.kind.other(number))
        return was_refused

    def is_still(self):
        """Waits until the server is idle: it requests no memory, and no thread has anything to do."""
        made, since = self.page.made(), time.monotonic()
        until = since + SOON
        while time.monotonic() < since + STILL:
            check(f"{self.case.what}: the server asks for memory without end", time.monotonic() < until)
            time.sleep(MOMENT)
            if self.page.made() != made or is_busy(self.server.process.pid):
                made, since = self.page.made(), time.monotonic()

    def takes_in(self, what, due, is_whole):
        """The blobs that were put: all expected ones, or a prefix of them."""
        new = [ref for ref in due.blobs if ref not in self.blobs]
        if new and not is_whole:
            standing = self.standing(new)
            compare(what, "what was put", new[: len(standing)], standing)
            new = standing
        self.blobs.update((ref, due.blobs[ref]) for ref in new)

    def standing(self, refs):
        _, _, body = Exchange(self.server.port, [stat(*refs)]).bytes().partition(b"\r\n\r\n")
        return [one["blobRef"] for one in json.loads(body)["stat"]]

    def asks(self, what, stream):
        """Sends a request that has to get its usual reply, if there is one."""
        due = self.kind.connection(stream, self.blobs)
        told = b"".join(reply.text() for reply in due.replies())
        compare_texts(what, told, self.kind.exchanged(self.server.port, stream) if stream else b"")
        self.blobs = due.blobs

    def packs_are_right(self):
        packs = reference.packs_of(self.store.files())
        broken = [place for _, place in map(reference.salvage, packs.values()) if place is not None]
        compare(self.case.what, "broken places", [], broken)
        added = [ref for ref in self.blobs if ref not in self.records]
        compare(self.case.what, "the refs in the packs", sorted([*self.records, *added]), sorted(records_of(packs)))


def is_busy(pid):
    """Whether a thread of the process runs, or waits for a processor or for the disk."""
    try:
        texts = [one.read_text() for one in pathlib.Path(f"/proc/{pid}/task").glob("*/stat")]
    except OSError:
        # One has ended meanwhile.
        return True
    return any(text.rpartition(")")[2].split()[0] in "RD" for text in texts)


def is_answer(what, texts, got, was_refused):
    """The expected replies; or a prefix of them, followed by the reply that there is no memory, or nothing."""
    fronts = [b"".join(texts[:count]) for count in range(len(texts))] if was_refused else []
    if got not in [front + end for front in fronts for end in (NO_MEMORY, b"")]:
        compare_texts(what, b"".join(texts), got)


# Starts

def starts(program, kind=OfAStore):
    """A server's start: it ends for want of memory, or serves."""
    library = refusing(program)
    return [lambda: starts_in_turn(program, library, kind)]


def starts_in_turn(program, library, kind):
    page = Page(program, library)
    for number in range(1, MOST):
        if not Start(program, page, kind(program)).refuses(f"{kind.START}, request {number} refused", number):
            COUNTS[kind.START] = number - 1
            return
    raise Difference(f"{kind.START}: more than {MOST} requests")


class Start:
    """A server that may not start to serve."""

    def __init__(self, program, page, kind):
        self.program, self.page, self.kind = program, page, kind
        self.store, self.port = kind.store, PORTS.free()

    def refuses(self, what, number):
        """Returns whether a request was refused until the server has answered once, or ended."""
        before = self.store.files()
        self.page.refuse(number)
        self.start()
        got = self.first_answer()
        was_refused = self.page.refused() > 0
        self.page.refuse_none()
        if self.process.poll() is None:
            is_answer(what, [self.kind.GOOD[1].text()], got, was_refused)
            self.kind.workers_answer(f"{what}, and then none", self.port)
            self.process.kill()
            self.process.communicate()
        else:
            check(f"{what}: it ended", was_refused)
            out, err = finish(what, self.process)
            status = self.process.returncode
            compare_ending(what, status if status in (MEMORY, DISK, LISTENER) else MEMORY, status, err)
            compare(what, "standard output", b"", out)
        compare(what, "the folder", before, self.store.files())
        return was_refused

    def start(self):
        words = [self.kind.SERVER.COMMAND, str(self.store.path), f"--port={self.port}", *self.kind.WORDS]
        streams = {"stdin": subprocess.DEVNULL, "stdout": subprocess.PIPE}
        self.process = self.program.start(words, front=front_of(self.page), **streams)
        STARTED.append(self.process)
        while not is_listened_to(self.port) and self.process.poll() is None:
            time.sleep(MOMENT)

    def first_answer(self):
        """The reply to a connection; if there is none, the server may have ended."""
        got = b""
        with contextlib.suppress(ConnectionRefusedError, ConnectionResetError):
            got = self.kind.exchanged(self.port, self.kind.GOOD[0])
        if got == b"":
            with contextlib.suppress(subprocess.TimeoutExpired):
                self.process.wait(timeout=0.5)
        return got
