"""Times queries per ref of the answer against SQLite in memory with an index, and a nested query against opening its
store.

    query.py PROGRAM FOLDER

The folder has what make_pack.py has written for the kind `store`. The time of a query is its processor time, less that
of a query over the same store whose answer is only the first permanode. The opening, and the filling of the index, are
therefore left out. A line of search words is timed against the same query as JSON, each with the opening. Each time is
the best of five.
"""

import json
import os
import pathlib
import sqlite3
import subprocess
import sys
import tempfile
import time

from compare import MIB
# Before make_pack: importing it puts the folder of the tests first in the search path.
from store import peak
from make_pack import KEYRING, LOAD, LOAD_SECRET, record, reference

TESTS = pathlib.Path(__file__).resolve().parent.parent / "tests"
sys.path[:0] = [str(TESTS), str(TESTS / "lib")]

from writing import claim, key_blob, permanode

TIMES = 5
MOST = 1_000_000
FIRST = {"constraint": {"permanode": {}}, "limit": 1}
BY_VALUE = {"constraint": {"permanode": {"attr": "tag", "value": "t0"}}, "limit": MOST}
BY_RELATION = {"constraint": {"permanode": {"relation": {"relation": "child", "all": {"blobRefPrefix": "x"}}}}, "limit": MOST}
# As many permanodes, each with those that are so many places before and after it as members.
RING, REACH, LEVELS = 1_000, 10, 5
# A line of search words, and the equivalent query.
LINE = "tag:t0 -has:camliMember"
LEAVES = {"permanode": {"attr": "tag", "value": "t0"}}, {"permanode": {"attr": "camliMember"}}
ASKED = {"logical": {"op": "and", "a": LEAVES[0], "b": {"logical": {"op": "not", "a": LEAVES[1]}}}}
BY_WORDS = {"constraint": ASKED, "limit": 200, "sort": "blobref"}
DATE = "2020-01-01T00:00:00Z"


def processor_time(job):
    return min(job() for _ in range(TIMES))


class Program:
    def __init__(self, program, store):
        self.words = [program, "query", str(store)]
        self.words_of_line = [program, "words", str(store), LINE]

    def answer(self, query):
        """The refs of an answer, and the processor time."""
        return self.run(self.words, json.dumps(query))

    def answer_to_words(self):
        """The same for the line of search words."""
        return self.run(self.words_of_line, "")

    def run(self, words, text):
        with tempfile.TemporaryFile() as source, tempfile.TemporaryFile() as sink:
            source.write(text.encode())
            source.seek(0)
            child = subprocess.Popen(words, stdin=source, stdout=sink)
            _, status, usage = os.wait4(child.pid, 0)
            child.returncode = os.waitstatus_to_exitcode(status)
            sink.seek(0)
            refs = [found["blob"] for found in json.load(sink)["blobs"]] if child.returncode == 0 else None
        return refs, usage.ru_utime + usage.ru_stime

    def seconds(self, query, wanted):
        refs, seconds = self.answer(query)
        if refs != wanted:
            sys.exit(f"{query}: not the answer that is wanted")
        return seconds


def tables(pack):
    """A database in memory with the values of the permanodes."""
    archive = reference.archive_of(pack, KEYRING)
    base = sqlite3.connect(":memory:")
    base.execute("create table permanodes (ref text primary key) without rowid")
    base.execute("create table held (attr text, value text, ref text)")
    for ref in filter(archive.is_permanode, archive.facts):
        base.execute("insert into permanodes values (?)", (ref,))
        held = [(attr, value, ref) for attr in ("tag", "title") for value in archive.values(ref, attr, reference.ALWAYS)]
        base.executemany("insert into held values (?, ?, ?)", held)
    base.execute("create index by_value on held (attr, value, ref)")
    base.execute("create index by_ref on held (ref, attr)")
    return base


VALUE_ROWS = "select ref from held where attr = 'tag' and value = 't0' order by ref"
RELATION_ROWS = """select ref from permanodes
    where not exists (select 1 from held where held.ref = permanodes.ref and attr = 'camliMember') order by ref"""


def rows_of(base, statement):
    start = time.process_time()
    refs = [ref for (ref,) in base.execute(statement)]
    return refs, time.process_time() - start


def per_ref(what, program, query, base, statement):
    """Prints how the time of each ref of an answer compares."""
    wanted, _ = rows_of(base, statement)
    first = program.answer(FIRST)[0]
    beyond = processor_time(lambda: program.seconds(query, wanted)) - processor_time(lambda: program.seconds(FIRST, first))
    rows = processor_time(lambda: rows_of(base, statement)[1])
    memory = peak(program.words, json.dumps(query).encode())
    told = "" if memory is None else f"; peak memory {memory / MIB:.0f} MiB"
    print(f"{what}, {len(wanted)} refs: {rows / max(beyond, 1e-9):.2f} of the speed of SQLite, per ref{told}")


def by_words(program):
    """Prints how a line of search words compares with the equivalent query."""
    wanted, _ = program.answer(BY_WORDS)
    asked, _ = program.answer_to_words()
    if not wanted or asked != wanted:
        sys.exit(f"{LINE}: not the answer that is wanted")
    # In turn, so that other work at the time slows both.
    times = [(program.answer(BY_WORDS)[1], program.answer_to_words()[1]) for _ in range(2 * TIMES)]
    query, words = map(min, zip(*times))
    print(f"search words, {len(wanted)} refs: {query / words:.2f} of the speed of the same query as JSON, with the opening")


def ring_store(folder):
    """The store of a ring, and its refs."""
    key = key_blob(LOAD)
    signer = reference.ref_of(key)
    nodes = [permanode(f"{number:032x}", signer, LOAD_SECRET) for number in range(RING)]
    refs = list(map(reference.ref_of, nodes))
    members = [
        claim("add", refs[place], "camliMember", refs[(place + step) % RING], DATE, signer, LOAD_SECRET)
        for place in range(RING)
        for step in range(-REACH, REACH + 1)
        if step != 0
    ]
    folder.mkdir()
    (folder / "pack-00000.blobs").write_bytes(b"".join(map(record, [key, *nodes, *members])))
    (folder / "keyring").write_bytes(KEYRING)
    return refs


def nested(relation, at, refs):
    """A query of nested relations, and its answer."""
    constraint = {"blobRefPrefix": refs[0]}
    for _ in range(LEVELS):
        test = {"relation": {"relation": relation, "any": constraint}}
        constraint = {"permanode": {"at": at, **test} if at else test}
    met = {0}
    for _ in range(LEVELS):
        met = {(place + step) % RING for place in met for step in range(-REACH, REACH + 1) if step != 0}
    return {"constraint": constraint, "limit": MOST}, sorted(refs[place] for place in met)


def nest(program, refs):
    first = program.answer(FIRST)[0]
    opening = processor_time(lambda: program.seconds(FIRST, first))
    for relation in ("child", "parent"):
        for at in (None, DATE):
            query, wanted = nested(relation, at, refs)
            ratio = processor_time(lambda: program.seconds(query, wanted)) / opening
            when = "at a date" if at else "by claims of every date"
            print(f"{LEVELS} nested relations {relation} over {RING} permanodes of {2 * REACH} members, {when}: "
                  f"{ratio:.2f} of the time of opening the store")


def main(path, folder):
    folder = pathlib.Path(folder)
    store = folder / "store"
    store.mkdir()
    pack = (folder / "pack").read_bytes()
    (store / "pack-00000.blobs").write_bytes(pack)
    (store / "keyring").write_bytes(KEYRING)
    base, program = tables(pack), Program(path, store)
    per_ref("a query by value", program, BY_VALUE, base, VALUE_ROWS)
    per_ref("a query by relation", program, BY_RELATION, base, RELATION_ROWS)
    by_words(program)
    ring = folder / "ring"
    nest(Program(path, ring), ring_store(ring))


if __name__ == "__main__":
    main(*sys.argv[1:])
