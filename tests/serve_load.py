"""Eight clients that upload and search at once, each over a connection of its own. Every reply is checked.

Each client tags permanodes with a value of its own, and therefore knows the whole answer to a search for it: what it
has uploaded by then. All of them tag some with a common value. The answer to that has all permanodes that were
acknowledged to any client before the request and those of earlier answers, and none that nobody sent. Every client
finds by its ref each blob that was acknowledged to any.

LOAD_SECONDS is another time than a minute.
"""

import json
import os
import threading
import time

import http_inputs
import reference
import writing
from connections import JSON, LISTING, QUERY, STAT, Reply, entry, json_text
from harness import chance, check, compare
from http_inputs import blob_target, get, post, stat_pairs, upload
from inputs import KEYRING
from query_inputs import spell
from reference import search_text
from serving import Server, Talk, blob_reply, stored
from stores import Store
from writers import at_once

CLIENTS = 8
SECONDS = float(os.environ.get("LOAD_SECONDS") or 60)
OWN, COMMON, COMMON_VALUE = "tag", "common", "all"
LIMIT = 1_000_000
# Half of the blobs that are sent have their older names.
NAMES = writing.Names(chance("names of what is sent"))
# No ref is greater.
BEHIND_ALL = "sha224-g"
SIGNER = NAMES(writing.key_blob())
# So many blobs are read by the commands, once the server has ended.
ASKED = 12


def question(attribute, value):
    query = {"constraint": {"permanode": {"attr": attribute, "value": value}}, "limit": LIMIT}
    return post(QUERY, spell(query).encode())


# What is known

class Known:
    """The blobs that all clients have sent, and those that were acknowledged to them."""

    def __init__(self):
        self.lock = threading.Lock()
        self.sent, self.acknowledged, self.refs = {}, {}, []
        self.common_sent, self.common = set(), set()

    def send(self, blobs, common):
        with self.lock:
            self.sent.update((NAMES(blob), blob) for blob in blobs)
            self.common_sent.update(common)

    def acknowledge(self, blobs, common):
        with self.lock:
            self.refs += [ref for ref in map(NAMES, blobs) if ref not in self.acknowledged]
            self.acknowledged.update((NAMES(blob), blob) for blob in blobs)
            self.common.update(common)

    def now(self):
        """The acknowledged blobs by now, and those that have the common value."""
        with self.lock:
            return dict(self.acknowledged), set(self.common)

    def some(self, random, count):
        """Some refs that are acknowledged by now."""
        with self.lock:
            return [random.choice(self.refs) for _ in range(count)]


# Clients

class Client:
    """A client, its connection, and which permanodes have its own value by what it has uploaded."""

    def __init__(self, number, known, port):
        self.what, self.known = f"client {number}", known
        self.random = chance("client of a server", number)
        self.talk = Talk(port)
        self.value = f"of client {number}"
        self.holders, self.may_go = set(), []
        # What the last common search found.
        self.found = set()
        self.moment = writing.FIRST_MOMENT + number
        self.requests = 0

    def run(self, until):
        steps = [self.tag, self.tag_apart, self.delete, self.plain, self.again]
        steps += [self.own, self.common, self.blob, self.stats, self.page]
        with self.talk:
            while time.monotonic() < until:
                self.random.choices(steps, (12, 4, 3, 6, 2, 12, 4, 8, 4, 3))[0]()
            self.own()
        return self.requests

    def ask(self, what, request, reply):
        self.requests += 1
        self.talk.ask(f"{self.what}: {what}", request, reply)

    def answer(self, what, request, spelled):
        """The value of a reply that isn't known before; `spelled` returns the text of such a value."""
        self.requests += 1
        code, body = self.talk.answer(f"{self.what}: {what}", request, JSON)
        compare(f"{self.what}: {what}", "code", 200, code)
        value = json.loads(body)
        compare(f"{self.what}: {what}", "body", spelled(value), body)
        return value

    def upload(self, what, blobs, common=()):
        """Uploads blobs in any order, all of which have to be received."""
        blobs = self.random.sample(blobs, len(blobs))
        self.known.send(blobs, common)
        self.ask(what, upload(*blobs, name_of=NAMES), stored(*blobs, name_of=NAMES))
        self.known.acknowledge(blobs, common)

    # Uploads

    def date(self):
        self.moment += 1_000
        return reference.date_text(self.moment)

    def node(self):
        """A new permanode, the claims on it, and whether these share the common value."""
        node = writing.permanode(self.random.randbytes(16).hex(), SIGNER)
        claims = [writing.claim("set", NAMES(node), OWN, self.value, self.date(), SIGNER)]
        is_common = self.random.random() < 0.5
        if is_common:
            claims.append(writing.claim("add", NAMES(node), COMMON, COMMON_VALUE, self.date(), SIGNER))
        return node, claims, is_common

    def holds(self, node, is_common):
        self.holders.add(NAMES(node))
        self.may_go += [] if is_common else [node]

    def tag(self):
        """One or a few permanodes with their claims, in one request, and the search that finds them."""
        made = [self.node() for _ in range(self.random.choice((1, 1, 2, 5)))]
        common = [NAMES(node) for node, _, is_common in made if is_common]
        self.upload("tagged", [blob for node, claims, _ in made for blob in (node, *claims)], common)
        for node, _, is_common in made:
            self.holds(node, is_common)
        self.own()

    def tag_apart(self):
        """A permanode and its claims in requests of their own, in either order; between them nothing is found."""
        node, claims, is_common = self.node()
        first, second = self.random.sample(([node], claims), 2)
        self.upload("the first of two", first)
        self.own()
        self.upload("the second of two", second, [NAMES(node)] if is_common else [])
        self.holds(node, is_common)
        self.own()

    def delete(self):
        """A permanode that only this client has tagged is deleted."""
        if self.may_go:
            node = self.may_go.pop(self.random.randrange(len(self.may_go)))
            self.upload("a deletion", [writing.delete(NAMES(node), self.date(), SIGNER)])
            self.holders.remove(NAMES(node))
            self.own()

    def plain(self):
        sizes = [self.random.choice((0, 1, 100, 1_000, 10_000, 100_000)) for _ in range(self.random.choice((1, 3, 20)))]
        self.upload("plain blobs", [self.random.randbytes(16 + size) for size in sizes])

    def again(self):
        """Blobs that some client has uploaded before."""
        self.upload("once more", [self.known.sent[ref] for ref in dict.fromkeys(self.known.some(self.random, 3))])

    # Requests

    def own(self):
        self.ask("its own search", question(OWN, self.value), Reply(200, search_text(sorted(self.holders))))

    def common(self):
        _, least = self.known.now()
        answer = self.answer("a common search", question(COMMON, COMMON_VALUE), spelled_search)
        found = [blob["blob"] for blob in answer["blobs"]]
        compare(self.what, "the order of a common search", sorted(set(found)), found)
        compare(self.what, "what a common search lacks", set(), (least | self.found) - set(found))
        self.found = set(found)
        with self.known.lock:
            compare(self.what, "what a common search has too many", set(), set(found) - self.known.common_sent)

    def blob(self):
        (ref,) = self.known.some(self.random, 1)
        self.ask(f"the blob {ref}", get(blob_target(ref)), blob_reply(self.known.sent[ref]))

    def stats(self):
        refs = [*self.known.some(self.random, 5), http_inputs.ABSENT, *self.known.some(self.random, 5)]
        standing = [ref for ref in dict.fromkeys(refs) if ref != http_inputs.ABSENT]
        told = {"stat": [entry(ref, len(self.known.sent[ref])) for ref in standing]}
        self.ask("stat", post(STAT, stat_pairs(*refs)), Reply(200, json_text(told)))

    def page(self):
        """A page has all acknowledged blobs between its ends, and none that nobody sent."""
        least, _ = self.known.now()
        after = NAMES(self.random.randbytes(20)) if self.random.random() < 0.9 else "sha1-" + "0" * 40
        limit = self.random.choice((1, 10, 100, 1_000))
        page = self.answer("a page", get(LISTING + f"?after={after}&limit={limit}".encode()), spelled_page)
        refs = [blob["blobRef"] for blob in page["blobs"]]
        last = page.get("continueAfter", BEHIND_ALL)
        is_full = len(refs) == limit and last == refs[-1]
        check(f"{self.what}: {len(refs)} refs on a page of {limit} to {last}", is_full or last == BEHIND_ALL)
        check(f"{self.what}: {len(refs)} refs on a page of {limit}", len(refs) <= limit)
        compare(self.what, "the order of a page", sorted(set(refs)), refs)
        compare(self.what, "what a page lacks", set(), {ref for ref in least if after < ref <= last} - set(refs))
        check(f"{self.what}: a page has refs that aren't behind {after}", all(after < ref <= last for ref in refs))
        with self.known.lock:
            sizes = {ref: len(self.known.sent[ref]) for ref in refs if ref in self.known.sent}
        compare(self.what, "the sizes of a page", sizes, {blob["blobRef"]: blob["size"] for blob in page["blobs"]})


def spelled_search(value):
    return search_text([blob["blob"] for blob in value["blobs"]])


def spelled_page(value):
    fields = {"blobs": [entry(blob["blobRef"], blob["size"]) for blob in value["blobs"]]}
    return json_text(fields | {name: value[name] for name in ("continueAfter",) if name in value})


# The whole

def clients(program):
    return [lambda: all_at_once(program)]


def all_at_once(program):
    key = writing.key_blob()
    store = Store(program, {0: writing.pack(key, name_of=NAMES)}, {"keyring": KEYRING})
    known = Known()
    known.send([key], [])
    known.acknowledge([key], [])
    with Server(program, store.path, f"--connections={CLIENTS}") as server:
        all_of_them = [Client(number, known, server.port) for number in range(CLIENTS)]
        until = time.monotonic() + SECONDS
        requests = at_once([lambda one=one: one.run(until) for one in all_of_them], CLIENTS)
        server.ends("eight clients")
    stands_afterwards(store, known, all_of_them)
    told = f"{sum(requests)} requests, {len(known.sent)} blobs, {len(known.common)} of the common value"
    print(f"clients: {told}, in {SECONDS:g} seconds", flush=True)


def stands_afterwards(store, known, all_of_them):
    """The packs, and the output of the commands, have the acknowledged blobs."""
    store.packs = reference.packs_of(store.files())
    compare("eight clients", "the blobs in the packs", known.acknowledged, store.blobs())
    listing = reference.listing(known.sent, limit=len(known.sent))
    store.reads("eight clients: list", "list", f"--limit={len(known.sent)}", out=listing)
    store.reads("eight clients: salvage", "salvage", out=reference.salvage_text(store.packs))
    store.gets("eight clients", known.some(chance("asked"), ASKED))
    answers = {(OWN, one.value): one.holders for one in all_of_them} | {(COMMON, COMMON_VALUE): known.common}
    for (attribute, value), holders in answers.items():
        out = search_text(sorted(holders)) + b"\n"
        store.reads(f"eight clients: search {value}", "search", f"--attr={attribute}", f"--value={value}", out=out)
