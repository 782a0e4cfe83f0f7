"""Makes the packs that the benches time, with their keyring and the expected answer.

    make_pack.py KIND FOLDER

writes `pack`, `keyring` and `answer` into the folder. The kinds are

    store           100,000 blobs of the generated store (docs/formats/generated.md): 25,000 permanodes with a tag and a
                    title each, and deletes of the tags and of deletes
    small-blobs     512 MiB of blobs of 300 bytes
    large-blobs     512 MiB of blobs of 1 MiB
    false-headers   40 MiB with 64 headers in front of other bytes, each of which costs the hash of 16 MiB

The answer is that of `search-pack tag t0`. BENCH_MIB is another length of the two large packs, and BENCH_BLOBS another
number of the store's blobs, to try a bench.
"""

import os
import pathlib
import random
import sys

TESTS = pathlib.Path(__file__).resolve().parent.parent / "tests"
sys.path[:0] = [str(TESTS), str(TESTS / "lib")]
sys.dont_write_bytecode = True

import reference
from writing import LOAD, LOAD_SECRET, keyring_line, load_blobs, record

MIB = 1_048_576
LARGE = int(os.environ.get("BENCH_MIB", "512"))
BLOBS = int(os.environ.get("BENCH_BLOBS", "100000"))
START = 7
KEYRING = keyring_line(LOAD, LOAD_SECRET)


def store():
    pack = b"".join(map(record, load_blobs(BLOBS, START)))
    return [pack], reference.search_pack(pack, KEYRING, "tag", "t0")


def small_blobs():
    length = len(record(bytes(300)))
    return (record(b"%015d" % number * 20) for number in range(LARGE * MIB // length)), b'{"blobs":[]}\n'


def large_blobs():
    noise = random.Random(1)
    return (record(noise.randbytes(MIB)) for _ in range(LARGE - 1)), b'{"blobs":[]}\n'


def false_headers():
    header = b"[sha224-" + b"0" * 56 + b" 16777216]"
    headers = header * 64
    return [headers, bytes(40 * MIB - len(headers))], b'{"blobs":[]}\n'


KINDS = {"store": store, "small-blobs": small_blobs, "large-blobs": large_blobs, "false-headers": false_headers}


def main(kind, folder):
    folder = pathlib.Path(folder)
    pieces, answer = KINDS[kind]()
    with open(folder / "pack", "wb") as file:
        file.writelines(pieces)
    (folder / "keyring").write_bytes(KEYRING)
    (folder / "answer").write_bytes(answer)


if __name__ == "__main__":
    main(*sys.argv[1:])
