"""One client adds many values to one permanode of a running server, while another one searches for them.

A search finds the permanode by each value that was acknowledged before the request, and by none that wasn't sent before
its reply came. None takes over five seconds more than the longest upload, which has to wait for a disk. Then the store
is opened by a new server. Its processor time is little more than over as many values on as many permanodes.

LOAD_VALUES is another number of values than 20,000.
"""

import os
import pathlib
import threading
import time

import writing
from connections import JSON, QUERY, Reply
from harness import chance, check
from http_inputs import post, upload
from inputs import KEYRING
from query_inputs import spell
from reference import date_text, ref_of, search_text
from serving import Server, Talk, stored
from stores import Store
from writers import at_once

VALUES = int(os.environ.get("LOAD_VALUES") or 20_000)
IN_A_REQUEST = 200
ATTRIBUTE = "tag"
SECONDS_OF_A_SEARCH = 5
MOST_OF_A_START = 1.5
# How often each start is measured, the two in turn; the least counts.
STARTS = 3
TICKS_A_SECOND = os.sysconf("SC_CLK_TCK")


def value(number):
    return f"value {number}"


def added(node, number):
    """A claim that adds a value to a permanode. Each is dated a second after the one before."""
    date = date_text(writing.FIRST_MOMENT + number * 10**9)
    return writing.claim("add", ref_of(node), ATTRIBUTE, value(number), date)


def search(number):
    query = {"constraint": {"permanode": {"attr": ATTRIBUTE, "value": value(number)}}}
    return post(QUERY, spell(query).encode())


class Progress:
    """How many of the values were sent, and how many acknowledged, and the time of the longest upload."""

    def __init__(self):
        self.sent = self.acknowledged = 0
        self.longest = 0.0
        self.is_over = threading.Event()


def add_all(port, blobs, progress):
    try:
        with Talk(port) as talk:
            for first in range(0, len(blobs), IN_A_REQUEST):
                some = blobs[first : first + IN_A_REQUEST]
                progress.sent += len(some)
                began = time.monotonic()
                talk.ask(f"values from the {first}th on", upload(*some), stored(*some))
                progress.acknowledged += len(some)
                progress.longest = max(progress.longest, time.monotonic() - began)
    finally:
        progress.is_over.set()


def search_all_along(port, node, progress):
    """Returns how many searches were made, and the time of the longest one."""
    random, count, longest = chance("searches beside added values"), 0, 0.0
    with Talk(port) as talk:
        while not progress.is_over.is_set() or count == 0:
            # One that is acknowledged, and sometimes one that comes later.
            number = random.randrange(progress.acknowledged + 1)
            if random.random() < 0.2:
                number = random.randrange(number, VALUES)
            was_acknowledged, began = number < progress.acknowledged, time.monotonic()
            code, body = talk.answer(f"a search for {value(number)}", search(number), JSON)
            longest = max(longest, time.monotonic() - began)
            check(f"a search for {value(number)}: {code} {body}", code == 200 and body in answers(node, number, was_acknowledged, progress))
            count += 1
    return count, longest


def answers(node, number, was_acknowledged, progress):
    """The possible answers to a search for a value."""
    found, nothing = search_text([ref_of(node)]), search_text([])
    if was_acknowledged:
        return [found]
    return [found, nothing] if number < progress.sent else [nothing]


def seconds_to_start(program, store, node):
    """The processor seconds of a server until it has answered its first search."""
    with Server(program, store.path) as server, Talk(server.port) as talk:
        talk.ask("the first search", search(0), Reply(200, search_text([ref_of(node)])))
        fields = pathlib.Path(f"/proc/{server.process.pid}/stat").read_text().rpartition(")")[2].split()
        return (int(fields[11]) + int(fields[12])) / TICKS_A_SECOND


def store_of(program, *blobs):
    return Store(program, {0: writing.pack(writing.key_blob(), *blobs)}, {"keyring": KEYRING})


def values(program):
    return [lambda: one_permanode(program)]


def one_permanode(program):
    node, progress = writing.permanode(), Progress()
    claims = [added(node, number) for number in range(VALUES)]
    store = store_of(program, node)
    with Server(program, store.path) as server:
        adding = lambda: add_all(server.port, claims, progress)
        searching = lambda: search_all_along(server.port, node, progress)
        _, (count, longest) = at_once([adding, searching], 2)
    told = f"a search takes {longest:.1f} seconds, and an upload {progress.longest:.1f}"
    check(told, longest <= progress.longest + SECONDS_OF_A_SEARCH)
    compare_starts(program, store_of(program, node, *claims), node)
    print(f"values: {VALUES} on one permanode, beside {count} searches, of which the longest took {longest:.2f} s", flush=True)


def compare_starts(program, one, node):
    """A start over a store of one permanode with all the values, beside one over as many permanodes with one each."""
    nodes = [writing.permanode(f"{number:032x}") for number in range(VALUES)]
    many = store_of(program, *nodes, *map(added, nodes, range(VALUES)))
    rounds = [(seconds_to_start(program, one, node), seconds_to_start(program, many, nodes[0])) for _ in range(STARTS)]
    of_one, of_many = map(min, zip(*rounds))
    check(f"starts take {of_one:.2f} and {of_many:.2f} s", of_one <= MOST_OF_A_START * of_many)
