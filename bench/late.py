"""Times claims on one permanode in the orders in which they can come, beside one claim on each of as many.

    late.py PROGRAM FOLDER [SIZE..]

Each line has so many claims, uploaded to a server in an order, and the processor time of the server until a search was
answered: those on one permanode, those on as many permanodes, and the first to the second; then the same of a server
that is started over the two stores, and of an empty server to which they are pushed. `search` is the command's, over the
folders. The servers have as many indexers as the line says. Ends with status 1 if an answer is wrong.
"""

import http.client
import os
import pathlib
import random
import shutil
import subprocess
import sys
import time

# Before make_pack: importing it puts the folder of the tests first in the search path.
from make_pack import reference

import harness
from reference import ref_of
from serving import HOST, Server
from stores import Store
from writing import FIRST_MOMENT, claim, delete, key_blob, keyring_line, pack, permanode

SIZES = (1_500, 6_000, 24_000)
TICKS_A_SECOND = os.sysconf("SC_CLK_TCK")
BATCH = 500
BOUNDARY = "b" * 24
# One in so many is a Set or a Del, or is deleted, and every second of these undeleted.
FEW = 100


def date(number):
    return reference.date_text(FIRST_MOMENT + number * 10**9)


def adds(count, node_of, others=0):
    """An addition for each number; if others are wanted, one in so many is a set or a removal."""
    claims = []
    for number in range(count):
        ref = node_of(number)
        change = "add", ref, "tag", f"v{number}"
        if others and number % others == others // 2:
            turn = number // others % 4
            change = [
                ("set", ref, "tag", f"v{number}"),
                ("del", ref, "tag", f"v{number - 1}"),
                ("set", ref, "title", f"t{number}"),
                ("del", ref, "tag", ""),
            ][turn]
        claims.append(claim(*change, date(number)))
    return claims


def deletions(claims):
    """One in a hundred is deleted, and each of these deletions is deleted too."""
    gone = [delete(ref_of(blob), date(len(claims) + number)) for number, blob in enumerate(claims[:: FEW])]
    back = [delete(ref_of(blob), date(2 * len(claims) + number)) for number, blob in enumerate(gone)]
    return [*gone, *back]


class Shape:
    """The blobs of one permanode, and those of many."""

    def __init__(self, count, kind):
        nodes = [permanode(f"{number:032x}") for number in range(count)]
        refs = list(map(ref_of, nodes))
        self.packs = []
        for which, node_of in (("one", lambda n: refs[0]), ("many", lambda n: refs[n])):
            claims = adds(count, node_of, FEW if kind == "mixed" else 0)
            later = deletions(claims) if kind == "deleted" else []
            front = [key_blob(), *nodes]
            self.packs.append((which, front, claims, later))

    def blobs(self, order):
        for which, front, claims, later in self.packs:
            some = list(claims)
            if order == "backwards":
                some.reverse()
            if order == "shuffled":
                random.Random(1).shuffle(some)
            if order == "by ref":
                yield which, sorted([*front, *some, *later], key=ref_of)
            elif order == "key last":
                yield which, [*front[1:], *some, *later, front[0]]
            else:
                yield which, [*front, *some, *later]


def ticks(process):
    fields = pathlib.Path(f"/proc/{process}/stat").read_text().rpartition(")")[2].split()
    return (int(fields[11]) + int(fields[12])) / TICKS_A_SECOND


def body_of(blobs):
    parts = []
    for blob in blobs:
        name = ref_of(blob)
        head = f'--{BOUNDARY}\r\nContent-Disposition: form-data; name="{name}"; filename="{name}"\r\n\r\n'
        parts.append(head.encode() + blob + b"\r\n")
    return b"".join(parts) + f"--{BOUNDARY}--\r\n".encode()


def ask(port, path, body, kind):
    connection = http.client.HTTPConnection(HOST, port, timeout=1_000)
    connection.request("POST", path, body, {"Content-Type": kind})
    reply = connection.getresponse()
    text = reply.read()
    connection.close()
    if reply.status != 200:
        sys.exit(f"{path}: {reply.status} {text[:200]!r}")
    return text


def search(server, attribute, value):
    query = f'{{"constraint":{{"permanode":{{"attr":"{attribute}","value":"{value}"}}}}}}'
    return ask(server.port, "/camli/search/query", query.encode(), "application/json")


def answered(server, value):
    start = time.monotonic()
    text = search(server, "tag", value)
    return ticks(server.process.pid), text


def served(program, folder, blobs, indexers, value):
    """The processor seconds of a server that takes the blobs, less those of its start, and of one that is started over
    them."""
    folder.mkdir()
    (folder / "keyring").write_bytes(keyring_line())
    with Server(program, folder, f"--indexers={indexers}") as server:
        before = ticks(server.process.pid)
        for first in range(0, len(blobs), BATCH):
            body = body_of(blobs[first : first + BATCH])
            ask(server.port, "/camli/upload", body, f"multipart/form-data; boundary={BOUNDARY}")
        took, text = answered(server, value)
        took -= before
    with Server(program, folder, f"--indexers={indexers}") as server:
        again, text_again = answered(server, value)
    if text != text_again:
        sys.exit("the answers differ")
    return took, again, text


def pushed(program, source, folder, indexers, value):
    """The processor seconds of an empty server to which a store is pushed."""
    folder.mkdir()
    (folder / "keyring").write_bytes(keyring_line())
    with Server(program, folder, f"--indexers={indexers}") as server:
        before = ticks(server.process.pid)
        words = [program.path, "push", str(source), f"{HOST}:{server.port}"]
        subprocess.run(words, stdout=subprocess.DEVNULL, check=True)
        took, text = answered(server, value)
    return took - before, text


def commanded(program, folder, value):
    before = os.times()
    words = [program.path, "search", str(folder), "--attr=tag", f"--value={value}"]
    out = subprocess.run(words, stdout=subprocess.PIPE, check=True).stdout
    after = os.times()
    return after[2] + after[3] - before[2] - before[3], out


def row(what, *columns):
    print(f"{what:34}" + "".join(f"{column:>9}" for column in columns), flush=True)


def line(program, scratch, count, order, indexers, kind, shape):
    found = {}
    for which, blobs in shape.blobs(order):
        folder = scratch / f"{which}"
        value = f"v{count - 10}"
        took, again, text = served(program, folder, blobs, indexers, value)
        command, _ = commanded(program, folder, value)
        copied, text_copied = pushed(program, folder, scratch / "copy", indexers, value)
        if text_copied != text:
            sys.exit(f"{count} {order}: the copy answers otherwise")
        found[which] = took, again, copied, command, text.count(b'"blob":')
        shutil.rmtree(folder)
        shutil.rmtree(scratch / "copy")
    one, many = found["one"], found["many"]
    if one[-1] != many[-1]:
        sys.exit(f"{count} {order}: {one[-1]} and {many[-1]} holders")
    cells = []
    for place in range(4):
        cells += [f"{one[place]:.2f}", f"{many[place]:.2f}", f"{one[place] / max(many[place], 0.01):.2f}"]
    row(f"{count:,} {kind} {order}, {indexers}", *cells)


LINES = [
    ("adds", "by date", 1), ("adds", "by date", 2), ("adds", "by date", 4), ("adds", "backwards", 1),
    ("adds", "by ref", 1), ("adds", "by ref", 2), ("adds", "shuffled", 2),
    ("mixed", "by date", 2), ("mixed", "shuffled", 2), ("mixed", "backwards", 1),
    ("deleted", "by date", 1), ("deleted", "by ref", 1), ("adds", "key last", 2),
]


def main(program, folder, *sizes):
    program = harness.Program(program, folder)
    scratch = pathlib.Path(folder)
    row("claims, order, indexers", "one", "many", "ratio", "again: 1", "many", "ratio", "push: 1", "many", "ratio",
        "search 1", "many", "ratio")
    for count in map(int, sizes or SIZES):
        shapes = {}
        for kind, order, indexers in LINES:
            only = os.environ.get("LATE_ONLY")
            if only and only not in f"{kind} {order} {indexers}":
                continue
            shape = shapes.setdefault(kind, Shape(count, kind))
            line(program, scratch, count, order, indexers, kind, shape)


if __name__ == "__main__":
    main(*sys.argv[1:])
