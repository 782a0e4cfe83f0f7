"""The streams of http_inputs.py, http_rows.py and http_random.py, sent to servers, and streams that the client cuts.

A server keeps the blobs that it is given. Each stream therefore meets what those before it have left, which
connections.py knows.
"""

import contextlib
import functools
import itertools
import json
import socket
import struct

import http_inputs
import http_random
import http_rows
from connections import JSON, LISTING, QUERY, STAT
from harness import chance, check, compare
from http_inputs import get, post, upload
from http_streams import KEYS
from query_inputs import KEYRING
from reference import ref_of
from serving import Foretold, Talk, compare_texts, connect
from stores import Store

# Random stores, and streams to each; streams that are cut by both sides' ends in turn.
STORES, STREAMS = 8, 30
CUTS = 240


def shelf(program, pack, *words):
    """A server over a pack."""
    return Foretold(Store(program, {0: pack}, {"keyring": KEYRING}), KEYS, *words)


# Hostile streams

HOSTILE = [http_inputs.first_lines, http_inputs.heads, http_inputs.lengths, http_inputs.closings, http_inputs.chunks]
HOSTILE += [http_inputs.content_types, http_inputs.stats]
INPUTS = [http_inputs.rows, *map(http_inputs.probed, HOSTILE), http_inputs.uploads, http_inputs.cut_uploads]
INPUTS += [http_inputs.listings, http_inputs.queries, http_inputs.long_bodies, http_inputs.large_parts]
INPUTS += [http_rows.request_rows]


def of_inputs(group):
    """A group of http_inputs.py, each stream sent whole, to one server for each of its stores."""

    def checks(program):
        named = functools.cache(lambda name: shelf(program, http_inputs.STORES[name]))
        cases = [lambda case=case: answers(named(case.store), case) for case in group()]
        return cases + [lambda: [named(name).ends(name) for name in http_inputs.STORES]]

    checks.__name__ = group.__name__
    return checks


def answers(one, case):
    stream = case.stream() if callable(case.stream) else case.stream
    told = one.answers(case.what, stream)
    if case.replies is not None:
        compare_texts(f"{case.what}: the reference", case.replies, told)


def sessions(program):
    """Each to a server of its own, so that it meets the store as it was made."""
    return [lambda case=case: alone(program, case) for case in http_inputs.sessions()]


def alone(program, case):
    one = shelf(program, http_inputs.STORES[case.store])
    answers(one, case)
    one.ends(case.what)


def random_streams(program):
    """Random streams to random stores, in pieces that are sent separately."""
    return [lambda number=number: random_store(program, number) for number in range(STORES)]


def random_store(program, number):
    made = http_random.RandomConnection(number)
    one = shelf(program, made.pack)
    for place in range(STREAMS):
        random = chance("served stream", number, place)
        stream = made.stream(random)
        one.answers(f"stream {place} of store {number}", stream, pieces_of(random, stream), pause=0.001)
    one.ends(f"store {number}")


def pieces_of(random, stream):
    places = sorted(random.randrange(len(stream) + 1) for _ in range(random.choice((0, 1, 1, 3, 10))))
    return [stream[start:end] for start, end in itertools.pairwise([0, *places, len(stream)])]


def pipelined(program):
    """Many requests that are sent before a reply is read, whole, in large and small pieces, and byte by byte."""
    return [lambda size=size: many_at_once(program, size) for size in (None, 30_000, 1_000, 1)]


def many_at_once(program, size):
    what = f"requests at once in pieces of {size}"
    one = shelf(program, http_inputs.STORES["small"])
    random = chance(what)
    stream = b"".join(mixed_request(random, place) for place in range(60 if size == 1 else 1_500))
    pieces = [stream] if size is None else [stream[at : at + size] for at in range(0, len(stream), size)]
    told = one.answers(what, stream, pieces)
    check(f"{what}: hardly any is answered by 200", told.count(b"HTTP/1.1 200 OK") > stream.count(b" HTTP/1.1") / 2)
    one.ends(what)


def mixed_request(random, place):
    """A request of any kind, which leaves the connection open."""
    blobs = [b"at once %d" % random.randrange(place + 1) for _ in range(3)]
    search = post(QUERY, http_inputs.GOOD_QUERY)
    page = get(LISTING + b"?limit=%d" % random.randrange(5))
    texts = [upload(*blobs), search, page, get("/"), get("/camli/stat"), http_inputs.stat(*map(ref_of, blobs))]
    return random.choice([*texts, get(http_inputs.blob_target(ref_of(blobs[0]))), upload(b"once %d" % place)])


# Streams that the client cuts

def cut_streams(program):
    """Streams that end anywhere, by the client's end of sending or of the whole connection."""
    return [lambda number=number: cut_at_random(program, number) for number in range(STORES)]


def cut_at_random(program, number):
    """One worker serves them, so that the result of a stream is there when the next one is answered."""
    made = http_random.RandomConnection(number)
    one = shelf(program, made.pack, "--workers=1")
    for place in range(CUTS // STORES):
        random = chance("cut stream", number, place)
        stream = made.stream(random) + upload(*random.sample(made.store.blobs, 3), b"new %d" % place)
        stream = stream[: random.randrange(len(stream))]
        what = f"cut stream {place} of store {number}"
        if place % 2 == 0:
            one.answers(what, stream, pieces_of(random, stream))
        else:
            broken_off(what, one, stream, random.random() < 0.5)
    one.ends(f"store {number}")


def broken_off(what, one, stream, is_reset):
    """A client sends a stream, and closes without reading a reply. The blobs that are then put are a prefix of those
    that are put if it reads."""
    before = dict(one.blobs)
    connection, _ = one.follow(stream)
    new = [ref for ref in connection.blobs if ref not in before]
    with connect(one.port) as wire:
        if is_reset:
            wire.setsockopt(socket.SOL_SOCKET, socket.SO_LINGER, struct.pack("ii", 1, 0))
        # The server may have closed before all of it is sent.
        with contextlib.suppress(ConnectionError):
            wire.sendall(stream)
    stand = standing(what, one, new)
    compare(what, "blobs that stand", new[: len(stand)], stand)
    one.blobs = before | {ref: connection.blobs[ref] for ref in stand}


def standing(what, one, refs):
    """Those of some refs that are there."""
    request = post(STAT, http_inputs.stat_pairs(*refs))
    with Talk(one.port) as talk:
        _, body = talk.answer(what, request, JSON)
    return [entry["blobRef"] for entry in json.loads(body)["stat"]]
