"""Random sessions of http_random.py, distributed over several clients: they take turns, each over a connection of its
own to a server that is stopped from time to time and started again over the same store.

One request is under way at a time, so that each reply is known before. All clients find whatever was acknowledged to
one, also after a stop. Other records in the packs then count too: blobs that a command put while no server ran, and
records that were acknowledged to nobody.
"""

import http_random
import writing
from harness import chance, compare
from http_streams import FOUND, KEYS
from query_inputs import KEYRING
from reference import pack_name
from serving import Foretold, Talk, compare_texts
from stores import Store

# So many stores, servers of each, requests to one of these, and clients that are connected at once.
STORES, SERVERS, REQUESTS, CLIENTS = 8, 5, 60, 3


def random_sessions(program):
    return [lambda number=number: sessions_of(program, number) for number in range(STORES)]


def sessions_of(program, number):
    made = http_random.RandomSession(number)
    store = Store(program, {0: made.pack}, {"keyring": KEYRING})
    found = 0
    for place in range(SERVERS):
        what, random = f"server {place} of store {number}", chance("sessions", number, place)
        found += one_server(what, store, made, random)
        random.choice((leave, leave_record, leave_put))(what, store, random.choice(made.store.blobs), made.store.name_of)
    print(f"store {number}: {found} searches found something")


def one_server(what, store, made, random):
    """Returns how many searches found something."""
    one = Foretold(store, KEYS, f"--workers={CLIENTS}", f"--indexers={random.choice((1, 2, 8, 64))}")
    talks, found = [Talk(one.port) for _ in range(CLIENTS)], 0
    for _ in range(REQUESTS):
        place = random.randrange(CLIENTS)
        (reply,) = ask(what, one, talks[place], made.request(random))
        found += reply.body.startswith(FOUND)
        if reply.closes:
            talks[place].close()
            talks[place] = Talk(one.port)
    one.ends(what)
    for talk in talks:
        talk.close()
    return found


def ask(what, one, talk, request):
    """Sends a request, and compares every byte that comes."""
    replies = one.replies(request)
    talk.send(request)
    compare_texts(what, b"".join(reply.text() for reply in replies), talk.read_text(what))
    return replies


# The state after a stop

def leave(what, store, blob, name_of):
    """The acknowledged blobs, and nothing else."""


def leave_record(what, store, blob, name_of):
    """A record after the others, which may be of a blob that is there."""
    number = max(store.packs)
    store.packs[number] += writing.record(blob, name_of)
    (store.path / pack_name(number)).write_bytes(store.packs[number])


def leave_put(what, store, blob, name_of):
    """A blob under the name that the program gives it."""
    store.put(f"a put behind {what}", blob)
