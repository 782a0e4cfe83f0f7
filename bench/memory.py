"""Refuses each request for memory of long runs, and of runs over worlds in memory; see memory.sh.

    memory.py PROGRAM FAULT_ROWS FOLDER [ROW..]
"""

import itertools
import os
import pathlib
import sys
import tempfile

TESTS = pathlib.Path(__file__).resolve().parent.parent / "tests"
sys.path[:0] = [str(TESTS), str(TESTS / "lib")]

import harness
import queries
import reference
import search_words
import writing
from command_rows import FOLDER, KEY_OPTION, KEYRING, TODAY, Row, copies, printed, rows
from harness import Difference, chance, check
from inputs import CLAIM, DELETE, KEY, NODE, day
from memory import Runs
from memory_worlds import Inserts, Worlds, inserted
from note_stores import list_text
from query_inputs import spell
from reference import ref_of
from writing import chunks_of, claim, delete, directory, file_blobs, pack, permanode, static_set

# All requests from one on.
ALL = 1 << 40
PERMANODES, FILES, COPIED, CHANGED, LOADED = 10, 4, 40, 25, 20


def long_rows():
    yield from orders()
    yield from realistic()
    yield Row(f"load of {LOADED}", ("load", str(LOADED), "7"), reference.load_text(writing.load_blobs(LOADED, 7), KEYRING))
    yield from copies(COPIED)
    content = chance("a long file").randbytes(6 << 20)
    blobs = tuple(file_blobs("n.txt", chunks_of(content)))
    yield Row("put-file of 6 MiB", ("put-file", FOLDER, "n.txt"), printed(blobs[-1]), {}, content, blobs)
    line = ("get-file", FOLDER, ref_of(blobs[-1]))
    yield Row("get-file of 6 MiB", line, content, {0: pack(*blobs)}, writes_as_it_goes=True)
    changes = [("add", ref_of(NODE), "tag", f"{number}") for number in range(CHANGED)]
    blob, text = writing.multi(changes, TODAY), list_text(changes).encode()
    yield Row(f"multi of {CHANGED}", ("multi", FOLDER, KEY_OPTION), printed(blob), {}, text, (KEY, blob))


def orders():
    """A claim, its deletion, and the deletion of that, in every order, at the days on which their meanings differ."""
    undone = delete(ref_of(DELETE), day(3))
    for number, order in enumerate(itertools.permutations((CLAIM, DELETE, undone))):
        packs = {0: pack(KEY, NODE, *order)}
        archive = reference.archive_of_store(packs, KEYRING)
        for at in (None, day(1, "T12:00:00Z"), day(2, "T12:00:00Z")):
            found = archive.holders("tag", "a", reference.ALWAYS if at is None else reference.moment_of(at))
            words = ("search", FOLDER, "--attr=tag", "--value=a", *(() if at is None else (f"--at={at}",)))
            yield Row(f"search of order {number} at {at}", words, reference.search_text(found) + b"\n", packs)


def realistic():
    """Permanodes with titles, tags and members, files, and a directory with its set: the members of one, by a query and
    by search words, and all blobs."""
    nodes = [permanode(f"{number:032x}") for number in range(PERMANODES)]
    refs, claims = list(map(ref_of, nodes)), []
    for place, ref in enumerate(refs):
        title = "trips" if place == 0 else f"the {place}. of them"
        claims += [claim("set", ref, "title", title, day(1)), claim("add", ref, "tag", f"tag {place % 3}", day(1))]
        claims.append(claim("add", refs[place // 3], "camliMember", ref, day(2)))
    files = [file_blobs(f"photo {number}.jpg", [b"%d, " % number * 300, b"the end"]) for number in range(FILES)]
    members = static_set([ref_of(blobs[-1]) for blobs in files])
    others = [blob for blobs in files for blob in blobs] + [members, directory("trips", ref_of(members))]
    packs = {0: pack(KEY, *nodes, *claims, *others)}
    archive = queries.Archive(reference.arrivals(packs), reference.read_keyring(KEYRING))
    of_trips = {"relation": {"relation": "parent", "any": {"permanode": {"attr": "title", "value": "trips"}}}}
    text = spell({"constraint": {"permanode": of_trips}}).encode()
    out = queries.search_text(archive, queries.read_query(text)) + b"\n"
    yield Row("query of a person's store", ("query", FOLDER), out, packs, text)
    line = f'childrenof:{refs[0]} or -(tag:"tag 1" or title:"4. of")'
    kind, constraint = search_words.read(line)
    check(f"{line}: {kind}", kind == "asks")
    out = queries.search_text(archive, queries.read_query(spell({"constraint": constraint}).encode())) + b"\n"
    yield Row("words of a person's store", ("words", FOLDER, line), out, packs)
    yield Row("list of a person's store", ("list", FOLDER), reference.listing(reference.arrivals(packs)), packs)


def refused(runs, row, what):
    """Returns whether nothing was wrong."""
    try:
        endings = runs.refused_in_turn(row)
    except Difference as difference:
        print(f"FAILED {what}: {difference}", flush=True)
        return False
    told = ", ".join(f"status {status} {count}" for status, count in sorted(endings.items()))
    print(f"{what}: {endings.total()} requests: {told}", flush=True)
    return True


def main(path, worlds, folder, *names):
    program = harness.Program(path, folder)
    os.chdir(program.working_folder(KEYRING))
    one, all_from = Runs(program), Runs(program, ALL)
    worlds = harness.Program(worlds, tempfile.mkdtemp(dir=folder))
    in_memory, inserts, no_inserts = Worlds(worlds), Inserts(worlds), Inserts(worlds, ALL)
    chosen = [(one, row, row.what) for row in long_rows()]
    chosen += [(in_memory, row, f"{row.what}, in memory") for row in rows()]
    chosen += [(inserts, row, row.what) for row in inserted()]
    chosen += [(all_from, row, f"{row.what}, from a request on") for row in rows()]
    chosen += [(no_inserts, row, f"{row.what}, from a request on") for row in inserted()]
    good = [refused(*each) for each in chosen if not names or each[2] in names]
    sys.exit(0 if all(good) else 1)


if __name__ == "__main__":
    main(*sys.argv[1:])
