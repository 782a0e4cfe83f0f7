"""A server of shares, whose requests for memory are refused like those of a server of a store (memory_served.py)."""

import memory_served
from http_inputs import post
from inputs import ABSENT, day
from memory_served import Case
from reference import ref_of
from serving import blob_reply, compare_texts
from share_reference import ShareConnection, Shares
from shares import KEYS, ShareServer, blobs_of_page, exchanged, get, share, target_of
from stores import Store
from writing import delete, keyring_line, octets, pack

# Those of docs/shares.md ("Examples"), and U, a share of a blob that isn't there.
BLOBS = {**blobs_of_page(), "U": share(ABSENT)}
REFS = {letter: ref_of(blob) for letter, blob in BLOBS.items()}


def asks(path):
    """A request by a path, for the last ref of it."""
    *via, last = (REFS.get(letter, letter) for letter in path.split())
    return get(last, *via)


CASES = [
    Case("a share", lambda number: asks("S")),
    Case("what is shared", lambda number: asks("S F")),
    Case("what it links to", lambda number: asks("S F C")),
    Case("no share", lambda number: asks("F")),
    Case("a deleted share", lambda number: asks("T F")),
    Case("no link", lambda number: asks("S F K")),
    Case("an absent share", lambda number: asks(f"U {ABSENT}")),
    Case("a bad path", lambda number: get(REFS["F"], REFS["S"], "")),
    Case("no route of shares", lambda number: get(REFS["F"][:-1])),
    Case("no method of shares", lambda number: post(octets(target_of(REFS["F"], REFS["S"])), b"a body")),
    Case("shares in a row", lambda number: asks("S F") + asks("S F C") + asks("F")),
]


class OfShares:
    """A store of these blobs in which T is deleted, and the server of its shares, in the form of `OfAStore`."""

    START, SERVER, WORDS = "a start of shares", ShareServer, ()
    CASES, GOOD = CASES, (asks("S F C"), blob_reply(BLOBS["C"]))

    def __init__(self, program):
        blobs = (*BLOBS.values(), delete(REFS["T"], day(4)))
        self.store = Store(program, {0: pack(*blobs)}, {"keyring": keyring_line()})

    def connection(self, stream, blobs):
        return ShareConnection(stream, Shares(blobs, KEYS))

    def other(self, number):
        return asks("S F")

    def exchanged(self, port, stream):
        return exchanged(port, [stream])

    def workers_answer(self, what, port):
        """It has one."""
        compare_texts(what, self.GOOD[1].text(), self.exchanged(port, self.GOOD[0]))


def share_routes(program):
    return memory_served.routes(program, OfShares)


def share_starts(program):
    return memory_served.starts(program, OfShares)
