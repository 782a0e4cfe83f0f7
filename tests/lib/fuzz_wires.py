"""Inputs that come over connections, for bench/fuzz.sh and found.sh: requests to a server and to one of shares, the
bodies of uploads, and the replies of a peer to `push` and `pull`."""

import os
import re

import http_inputs
import http_random
import reference
import share_reference
import sync
from connections import QUERY, STAT, UPLOAD
from door import heard_of_anyone
from fuzzing import JSON_TOKENS, MIB, Target, worst_texts
from harness import Taken, chance, check, compare, compare_ending
from http_inputs import FORM, PROBE, blob_part, form, get, post, post_chunks, post_pieces
from query_inputs import KEYRING
from reference import ref_of
from serving import Foretold, compare_texts
from shares import RandomShares, Shelf, exchanged
from stores import Store
from sync import DAMAGED, FULL, PEER, REPLY
from writing import pack

KEYS = reference.read_keyring(KEYRING)
ABC, EMPTY = ref_of(b"abc").encode(), ref_of(b"").encode()
DONE = 0


class Streams(Target):
    """A stream of requests to a server."""

    tokens = [b"\r\n", b"\n", b"\r", b" ", b":", b"/", b"?", b"&", b"=", b"%25", b"%", b"+", b";", b",", b"\0", b"\xff"]
    tokens += [b"GET ", b"POST ", b" HTTP/1.1\r\n", b"Content-Length: 3\r\n", b"Transfer-Encoding: chunked\r\n"]
    tokens += [b"0\r\n\r\n"]
    tokens += [b"Connection: close\r\n", b"Host: localhost\r\n", b"Host: a\r\n", b"Origin: null\r\n", b"--b\r\n"]
    tokens += [b"--b--"]
    tokens += [b"Expect: 100-continue\r\n", FORM.encode() + b"\r\n", PROBE, b"/camli/", b"camliversion=1", b"blob1="]
    tokens += [ABC]
    # A server gets so many requests: for each search the reference reads all that it holds.
    MOST_ASKED = 400

    def __init__(self, program, packs=None):
        super().__init__(program, packs)
        self.one, self.asked = None, 0

    def seeds(self):
        made = [http_random.RandomConnection(number) for number in range(4)]
        streams = [one.stream(chance("streams that are changed", number)) for number, one in enumerate(made * 8)]
        short = [stream for stream in streams if len(stream) < 20_000]
        return [*short, PROBE, get(b"/x"), http_inputs.upload(b"abc", b"")]

    def worst(self):
        yield "empty lines", b"\n" * MIB
        yield "headers", b"GET / HTTP/1.1\r\n" + b"a:\r\n" * (MIB // 4)
        yield "a method", b"G" * MIB
        yield "a path", b"GET /" + b"%25" * (MIB // 3) + b" HTTP/1.1\r\n\r\n"
        yield "escapes in a stat", post(STAT, b"%25" * ((MIB - 10) // 3))
        yield "pairs in a stat", post(STAT, b"a=b&" * (MIB // 4 - 10))
        yield "chunks of a byte", post_pieces(STAT, [b"a"] * (MIB // 6))
        yield "lines of chunks", post_chunks(STAT, [b"1;" + b"a" * 4_000 + b"\r\nb\r\n"] * 200)
        yield "delimiters", post(UPLOAD, b"--b\r\n" * (MIB // 5), FORM)
        yield "halves of delimiters", post(UPLOAD, form(blob_part(b"\r\n-" * (MIB // 3 - 100))), FORM)
        yield "heads of parts", post(UPLOAD, (b"--b\r\n" + b"a:b\r\n" * 15 + b"\r\n\r\n") * (MIB // 90), FORM)
        yield "parts", post(UPLOAD, form(*[blob_part(b"")] * 1_000), FORM)
        yield "small requests", PROBE * (MIB // len(PROBE))
        yield from ((f"a search of {what}", post(QUERY, data)) for what, data in worst_texts())

    def stream_of(self, data):
        return data

    def server(self):
        if self.one is None or self.asked >= self.MOST_ASKED:
            self.close()
            store = Store(self.program, {0: http_random.RandomConnection(0).pack, **self.packs}, {"keyring": KEYRING})
            self.one, self.asked = Foretold(store, KEYS, "--workers=2"), 0
        self.asked += 1
        return self.one

    def close(self):
        if self.one is not None:
            one, self.one = self.one, None
            one.ends("a server that was asked")

    def starts_anew(self):
        if self.one is not None:
            self.one.server.process.kill()
            self.one.server.process.communicate()
            self.one = None

    def tries(self, what, data):
        one, stream = self.server(), self.stream_of(data)
        random, start = chance("pieces", data), worked(one.server)
        pieces = None if len(stream) > 20_000 or random.random() < 0.5 else in_pieces(random, stream)
        told = self.told(one, what, stream, pieces)
        self.takes(what, Taken(worked(one.server) - start, peak(one.server)))
        received, places = told.count(b'"blobRef"'), re.findall(rb'"at":(\d+)', told)
        replies = re.findall(rb'HTTP/1\.1 (\d+)|"(?:error|kind|rule)":"([\w ]+)"', told)[:3]
        return tuple(replies), min(received, 4), tuple(len(place) for place in places[:2])

    def told(self, one, what, stream, pieces):
        return one.answers(what, stream, pieces)


def in_pieces(random, stream):
    places = sorted(random.randrange(len(stream) + 1) for _ in range(random.choice((1, 2, 5))))
    return [stream[at:end] for at, end in zip([0, *places], [*places, len(stream)])]


def worked(server):
    """The processor seconds that a server has worked."""
    with open(f"/proc/{server.process.pid}/stat") as file:
        ticks = file.read().rpartition(")")[2].split()[11:13]
    return sum(map(int, ticks)) / os.sysconf("SC_CLK_TCK")


def peak(server):
    """The greatest memory of a server, in MiB."""
    with open(f"/proc/{server.process.pid}/status") as file:
        return int(re.search(r"VmHWM:\s+(\d+)", file.read())[1]) // 1_024


class Multiparts(Streams):
    """The body of an upload."""

    tokens = [b"\r\n", b"\n", b"\r", b"--b", b"--b\r\n", b"--b--", b"\r\n--b", b"-", b" ", b"\t", b":", b";", b"="]
    tokens += [b'"', b"\0"]
    tokens += [b"Content-Disposition: form-data; name=", b'name="', b"a: b\r\n", b"\xff", ABC, EMPTY, b"abc"]

    def seeds(self):
        one, more = blob_part(b"abc"), blob_part(b"", "Content-Type: text/plain")
        bodies = [form(one), form(one, more), form(), b"a preamble\r\n" + form(more)]
        return [*bodies, form(blob_part(b"\r\n--c" * 20), one) + b"\r\nan end"]

    def worst(self):
        return []

    def stream_of(self, data):
        return post(UPLOAD, data, FORM) + PROBE


class Shares(Streams):
    """A stream of requests to a server of shares."""

    def __init__(self, program, packs=None):
        super().__init__(program, packs)
        self.made = RandomShares(chance("shares that are asked for"))
        refs = [self.made.name_of(blob).encode() for blob in self.made.blobs]
        self.tokens = [*Streams.tokens, b"/share/", b"?via=", b"&via=", b"%2C", b"v%69a=", b"sha1-", *refs]
        held = pack(*self.made.held, name_of=self.made.name_of)
        self.store = Store(program, {0: held, **self.packs}, {"keyring": KEYRING})

    def seeds(self):
        made = (self.made.request() for _ in range(60))
        return [stream for stream in made if len(stream) < 20_000]

    def worst(self):
        front, ref = b"GET /share/" + ABC + b"?via=", self.made.name_of(self.made.shares[0]).encode()
        end = b" HTTP/1.1\r\n\r\n"
        yield "commas", front + b"," * 16_000 + end
        yield "escapes", front + b"%2C" * 5_300 + end
        yield "one share, again and again", front + b",".join([ref] * 250) + end
        yield "pairs", front[:-4] + b"a=b&" * 4_000 + b"via=" + ref + end
        yield "requests", (front + ref + end) * (MIB // len(front + ref + end))
        yield "a body", b"GET /share/" + ABC + b" HTTP/1.1\r\nContent-Length: %d\r\n\r\n" % MIB + bytes(MIB)

    def server(self):
        if self.one is None:
            self.one = Shelf(self.store)
        return self.one

    def close(self):
        if self.one is not None:
            one, self.one = self.one, None
            one.server.kill()
            self.store.check_files("a store whose shares were asked for")

    def told(self, one, what, stream, pieces):
        told = share_reference.replies(heard_of_anyone(stream), one.shares)
        text = b"".join(reply.text() for reply in told)
        compare_texts(what, text, exchanged(one.port, pieces or [stream]))
        return text


class Replies(Target):
    """The reply of a peer to one request of a push or a pull: the first byte says to which request, and the rest is the
    reply."""

    tokens = [*Streams.tokens, *JSON_TOKENS, b"HTTP/1.1 200 OK\r\n", b"HTTP/1.0 ", b"404", b"507", b'"blobRef":']
    tokens += [b'"size":']
    tokens += [b'"continueAfter":']
    PLACES = [(command, number) for command, count in (("push", 4), ("pull", 5)) for number in range(count)]

    def seeds(self):
        texts = [b"HTTP/1.1 200 OK\r\nContent-Length: 12\r\n\r\n" + b'{"blobs":[]}', b"HTTP/1.1 200 OK\r\n\r\n"]
        places = list(enumerate(self.PLACES))
        return [bytes([at]) + text for at, place in places for text in (*texts, self.due(*place))]

    def due(self, command, number):
        """The reply that is due there."""
        got = []

        def keep(wire, due):
            got.append(due.text())
            return True

        exchange = sync.Exchange(self.program, command)
        with exchange.start(wrongs={number: keep}) as peer:
            self.program.run("a reply that is due", exchange.words(peer))
        return got[0]

    def worst(self):
        for at in (0, 1, 4, 5):
            where, first = self.PLACES[at], bytes([at]) + b"HTTP/1.1 200 OK\r\n"
            for what, data in worst_texts():
                yield f"{what} at {where}", first + b"Content-Length: %d\r\n\r\n" % len(data) + data
            yield f"headers at {where}", first + b"a:\r\n" * (MIB // 4)
            yield f"chunks at {where}", first + b"Transfer-Encoding: chunked\r\n\r\n" + b"1\r\na\r\n" * (MIB // 6)

    def tries(self, what, data):
        command, number = self.PLACES[data[0] % len(self.PLACES)] if data else self.PLACES[0]
        exchange = sync.Exchange(self.program, command)
        with exchange.start(wrongs={number: sync.sends(data[1:], ends=True)}) as peer:
            (status, out, err), taken = self.runs(exchange.words(peer))
            compare_ending(what, status if status in (DONE, PEER, FULL, DAMAGED, REPLY) else REPLY, status, err)
            lines = rb"copied \d+ already \d+\n" if status == DONE else b""
            check(f"{what}: the output {out}", re.fullmatch(lines, out))
            self.takes(what, taken)
            peer.is_good(what)
            is_sound(what, exchange, peer)
        return command, number, status


def is_sound(what, exchange, peer):
    """Both ends have what they had, and besides only blobs of the other one, each under its own ref."""
    packs = reference.packs_of(exchange.here.files())
    broken = [place for _, place in map(reference.salvage, packs.values()) if place is not None]
    compare(what, "broken places", [], broken)
    mine, every = exchange.here.blobs(), {**exchange.source, **exchange.target}
    theirs = exchange.target if exchange.command == "push" else exchange.source
    for holds, held in ((reference.arrivals(packs), mine), (peer.blobs, theirs)):
        compare(what, "what was held before", {}, {ref: blob for ref, blob in held.items() if holds.get(ref) != blob})
        compare(what, "what nobody had", {}, {ref: blob for ref, blob in holds.items() if every.get(ref) != blob})
