"""A query that takes long on one connection of a running server, and short requests on another one beside it.

docs/server.md, "What is behind a lock": GETs, uploads and searches that have nothing to settle are answered while the
long query is evaluated. A search for a later upload may wait for it, and finds the blob. The long query's answer is
that of the blobs before it.

LONG_PARTS is another number of the parts of the long query than 256.
"""

import os
import select
import time

import writing
from connections import QUERY, Reply
from harness import check
from http_inputs import blob_target, get, post, upload
from inputs import KEYRING
from query_inputs import spell
from reference import date_text, ref_of, search_text
from serving import Server, Talk, blob_reply, compare_texts, stored
from stores import Store

PARTS = int(os.environ.get("LONG_PARTS") or 256)
# So many permanodes form a ring, each with so many before and after it as its members.
RING, REACH = 400, 5
LIMIT = 1_000_000
# How long the long query is given to begin.
SECONDS_TO_BEGIN = 0.5
# So often each short request is made.
ROUNDS = 5


def ring():
    """The permanodes of the ring, and the claims that make them members of each other."""
    nodes = [writing.permanode(f"{number:032x}") for number in range(RING)]
    refs = list(map(ref_of, nodes))
    steps = [step for step in range(-REACH, REACH + 1) if step != 0]
    date = date_text(writing.FIRST_MOMENT)
    claims = [writing.claim("add", ref, "camliMember", refs[(place + step) % RING], date) for place, ref in enumerate(refs) for step in steps]
    return nodes, claims


def either(tests):
    """A constraint that holds if one of the tests does, as a tree that isn't deep."""
    if len(tests) == 1:
        return tests[0]
    half = len(tests) // 2
    return {"logical": {"op": "or", "a": either(tests[:half]), "b": either(tests[half:])}}


def has_member(prefix):
    return {"permanode": {"relation": {"relation": "child", "any": {"blobRefPrefix": prefix}}}}


def long_query(ref, parts):
    """Its parts hold for no permanode, so that each is tried on all of them; one more holds for that of the ref."""
    return either([has_member(f"sha224-x{number}") for number in range(parts)] + [{"blobRefPrefix": ref}])


def asked(constraint):
    return post(QUERY, spell({"constraint": constraint, "limit": LIMIT}).encode())


def tagged(number):
    return asked({"permanode": {"attr": "tag", "value": f"tag {number}"}})


def found(node):
    return Reply(200, search_text([ref_of(node)]))


def long(program):
    return [lambda: beside_a_long_query(program)]


def beside_a_long_query(program):
    nodes, claims = ring()
    date = date_text(writing.FIRST_MOMENT)
    old, *new = [writing.claim("set", ref_of(nodes[number]), "tag", f"tag {number}", date) for number in range(ROUNDS + 1)]
    store = Store(program, {0: writing.pack(writing.key_blob(), *nodes, *claims, old)}, {"keyring": KEYRING})
    with Server(program, store.path) as server, Talk(server.port) as one, Talk(server.port) as other:
        other.ask("a search before", tagged(0), found(nodes[0]))
        one.send(asked(long_query(ref_of(nodes[0]), PARTS)))
        time.sleep(SECONDS_TO_BEGIN)
        ask_beside(other, nodes, new)
        check("the long query has its answer before short requests beside it", not has_come(one))
        for number in range(1, ROUNDS + 1):
            other.ask(f"a search for tag {number}", tagged(number), found(nodes[number]))
        compare_texts("the long query", found(nodes[0]).text(), one.read_text("the long query"))
    print(f"long: {3 * ROUNDS} short requests beside a query of {PARTS} parts", flush=True)


def ask_beside(talk, nodes, new):
    """Searches that settle nothing, and then GETs and uploads. None of these waits for a search."""
    for _ in new:
        talk.ask("a search beside a long query", tagged(0), found(nodes[0]))
    for node, blob in zip(nodes, new):
        talk.ask("a GET beside a long query", get(blob_target(ref_of(node))), blob_reply(node))
        talk.ask("an upload beside a long query", upload(blob), stored(blob))


def has_come(talk):
    return bool(select.select([talk.wire], [], [], 0)[0])
