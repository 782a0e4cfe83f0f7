"""Servers that are killed while clients upload to them: acknowledged blobs are kept.

A blob counts as acknowledged once the whole reply to its upload was read. After each kill the packs are compared with
what was sent: earlier blobs are kept, a request that wasn't answered has a prefix of its parts there, and only the last
pack may end in a torn record. The next server over the same store has to serve each acknowledged blob, and to find
exactly those permanodes whose blobs are there.

KILLS is another number of kills than fifty.
"""

import collections
import os
import threading

import reference
import writing
from connections import QUERY, Reply
from harness import chance, check, compare
from http_inputs import GOOD_QUERY, blob_target, get, post, upload
from inputs import KEYRING
from reference import pack_name, ref_of, search_text
from serving import Ended, Server, Talk, blob_reply, stored
from stores import Store
from writers import at_once

KILLS = int(os.environ.get("KILLS") or 50)
STORES = 4
CLIENTS = 4
# A blob of some bytes, and occasionally one that takes a while to be written.
SMALL, LARGE = 3_000, 2_000_000
LONGEST_LIFE = 0.25
# After each kill so many of all blobs that were ever acknowledged are read, besides those of the last server; and at
# the end so many by commands.
OLD, BY_COMMANDS = 30, 5
LIMIT = 1_000_000
# Half of the blobs that are sent have their older names.
NAMES = writing.Names(chance("names of what is sent"))
QUESTION = post(QUERY, GOOD_QUERY.replace(b'{"constraint"', b'{"limit":%d,"constraint"' % LIMIT))


class Request:
    """The blobs of an upload, in their order, and whether it was answered."""

    def __init__(self, random):
        self.node, date = writing.permanode(random.randbytes(16).hex()), writing.date_text(random.randrange(10**18))
        self.claim = writing.claim("set", NAMES(self.node), "tag", "a", date)
        self.blobs = [self.node, self.claim]
        for _ in range(random.choice((0, 1, 4))):
            most = LARGE if random.random() < 0.06 else SMALL
            self.blobs.append(random.randbytes(random.randrange(most)) + self.node[-80:])
        random.shuffle(self.blobs)
        self.is_answered = False

    def refs(self):
        return list(map(NAMES, self.blobs))


def uploads(what, port, random, is_killed):
    """Uploads until the server is killed; returns the requests."""
    requests = []
    try:
        with Talk(port) as talk:
            while True:
                requests.append(Request(random))
                blobs = requests[-1].blobs
                talk.ask(what, upload(*blobs, name_of=NAMES), stored(*blobs, name_of=NAMES))
                requests[-1].is_answered = True
    except (Ended, OSError):
        if not is_killed.is_set():
            raise
    return requests


class Killed:
    """A store whose servers are killed, the acknowledged blobs, and the permanodes that are to be found."""

    def __init__(self, program, number):
        self.program, self.number = program, number
        self.store = Store(program, {0: writing.pack(writing.key_blob())}, {"keyring": KEYRING})
        self.sent, self.acknowledged = {ref_of(writing.key_blob())}, {}
        self.last, self.nodes = [], {}
        self.endings = collections.Counter()

    def one_round(self, place):
        random = chance("killed server", self.number, place)
        what = f"store {self.number}, server {place}"
        with Server(self.program, self.store.path) as server:
            self.serves_all(what, server, random)
            requests = self.load(what, server, random)
        self.settle(what, requests)

    def load(self, what, server, random):
        """Lets clients upload until the server is killed; returns their requests."""
        seeds = [random.randrange(2**32) for _ in range(CLIENTS)]
        is_killed = threading.Event()
        tasks = [lambda seed=seed: uploads(what, server.port, chance(what, seed), is_killed) for seed in seeds]
        timer = threading.Timer(random.uniform(0, LONGEST_LIFE), lambda: (is_killed.set(), server.process.kill()))
        timer.start()
        try:
            return [one for some in at_once(tasks, CLIENTS) for one in some]
        finally:
            timer.join()

    def serves_all(self, what, server, random):
        """A server that has just started serves the acknowledged blobs, and finds what is there."""
        old = random.sample(sorted(self.acknowledged), min(OLD, len(self.acknowledged)))
        with Talk(server.port) as talk:
            talk.ask(f"{what}: a search", QUESTION, Reply(200, search_text(sorted(self.found()))))
            for ref in dict.fromkeys([*self.last, *old]):
                talk.ask(f"{what}: {ref}", get(blob_target(ref)), blob_reply(self.acknowledged[ref]))

    def found(self):
        stand = self.store.blobs()
        return [node for node, claim in self.nodes.items() if node in stand and claim in stand]

    # The state after a kill

    def settle(self, what, requests):
        before = self.store.packs
        self.store.packs = reference.packs_of(self.store.files())
        self.keeps(what, before)
        stand = self.store.blobs()
        for one in requests:
            self.sent.update(one.refs())
            self.nodes[NAMES(one.node)] = NAMES(one.claim)
            stands = [ref in stand for ref in one.refs()]
            compare(what, "whether the parts of a request stand", sorted(stands, reverse=True), stands)
            check(f"{what}: a request that was answered isn't there: {one.refs()}", all(stands) or not one.is_answered)
        compare(what, "refs that nobody sent", set(), set(stand) - self.sent)
        self.last = [ref for one in requests if one.is_answered for ref in one.refs()]
        self.acknowledged.update((NAMES(blob), blob) for one in requests if one.is_answered for blob in one.blobs)
        self.endings["answered"] += sum(one.is_answered for one in requests)

    def keeps(self, what, before):
        """Earlier blobs are kept, and only the pack to which the next record went, and a new one, may have grown."""
        packs = self.store.packs
        growing = reference.pack_for_the_next_record(before)
        compare(what, "packs", {*before, growing}, {*packs, growing})
        for number, old in before.items():
            content = packs[number][: len(old)] if number == growing else packs[number]
            compare(what, f"what stood in {pack_name(number)}", old, content)
        _, broken = reference.salvage(packs.get(growing, b"")[len(before.get(growing, b"")) :])
        self.endings["torn" if broken is not None else "clean"] += 1
        self.store.reads(f"{what}: salvage", "salvage", out=reference.salvage_text(packs))

    def ask(self):
        """A last server serves all of it, and so do the commands after it."""
        random = chance("asked", self.number)
        self.last = sorted(self.acknowledged)
        with Server(self.program, self.store.path) as server:
            self.serves_all(f"store {self.number}, the last server", server, random)
        self.store.gets(f"store {self.number}", random.sample(self.last, min(BY_COMMANDS, len(self.last))))
        self.store.put(f"store {self.number}: a put", b"after all kills")


def kills(program):
    """Kills distributed over a few stores; each store is a check."""
    return [lambda number=number: one_store(program, number) for number in range(STORES)]


def one_store(program, number):
    killed = Killed(program, number)
    for place in range(number, KILLS, STORES):
        killed.one_round(place)
    killed.ask()
    told = ", ".join(f"{count} {ending}" for ending, count in sorted(killed.endings.items()))
    print(f"store {number}: {told}; all {len(killed.acknowledged)} blobs that were acknowledged are there", flush=True)
