"""Times indexes over a pack, and searches over a store of the same blobs, against hashing the bytes; prints a table.

    index.py LAB PROGRAM FOLDER

The folder has what make_pack.py has written. Each time is the best of three, taken in turn with the others.
"""

import os
import pathlib
import sys

from compare import MIB, TIMES, run
from make_pack import BLOBS, reference

HASHER = ["openssl", "dgst", "-sha224"]
WAYS = {
    "insert": "inserted in order",
    "place": "placed in order",
    "insert-backwards": "inserted, the last first",
    "fill": "filled at once",
}


def check(what, is_so):
    if not is_so:
        sys.exit(f"{what}: the answer is wrong")


def timed(jobs, folder):
    """The best time and the peak of each job: its command line, and its expected output, or None."""
    best = {}
    for _ in range(TIMES):
        for name, (words, out) in jobs.items():
            seconds, peak, status, output = run(words, folder)
            check(name, status == 0 and out in (None, output))
            before = best.get(name, (seconds, peak))
            best[name] = min(before[0], seconds), max(before[1], peak)
    return best


def indexes(lab, folder, holders):
    """The costs of the ways to make an index."""
    question = [(folder / "keyring").read_text(), "tag", "t0"]
    jobs = {way: ([lab, way, *question], f"{BLOBS} {holders}\n".encode()) for way in WAYS}
    best = timed({**jobs, "facts": ([lab, "facts"], None), "hash": (HASHER, None)}, folder)
    read, least = best["facts"]
    row("facts read, none kept", best["hash"][0] / read, BLOBS / read, least, None)
    for way, what in WAYS.items():
        seconds, peak = best[way]
        row(what, best["hash"][0] / seconds, BLOBS / seconds, peak, (peak - least) / BLOBS)


def searches(programs, folder, answer):
    """The cost of a search over a store, by each of the programs."""
    store = folder / "store"
    store.mkdir()
    os.link(folder / "pack", store / reference.pack_name(0))
    os.link(folder / "keyring", store / "keyring")
    words = ["search", str(store), "--attr=tag", "--value=t0"]
    jobs = {what: ([path, *words], answer) for what, path in programs.items()}
    best = timed({**jobs, "hash": (HASHER, None)}, folder)
    for what in programs:
        seconds, peak = best[what]
        row(what, best["hash"][0] / seconds, BLOBS / seconds, peak, None)


def row(what, ratio, pace, peak, bytes_a_fact):
    told = "" if bytes_a_fact is None else f"{bytes_a_fact:14.0f}"
    print(f"{what:28} {ratio:24.3f} {pace:15,.0f} {peak / MIB:9.1f} {told}", flush=True)


def main(lab, program, folder):
    folder = pathlib.Path(folder)
    answer = (folder / "answer").read_bytes()
    print(f"{BLOBS:,} blobs; speeds against {' '.join(HASHER)} over the same bytes")
    print(f"{'job':28} {'speed, openssl being 1':>24} {'blobs a second':>15} {'peak MiB':>9} {'bytes a fact':>14}")
    indexes(lab, folder, answer.count(b'"blob":'))
    programs = {"search": program}
    if os.environ.get("BEFORE"):
        programs["search by the other program"] = os.environ["BEFORE"]
    searches(programs, folder, answer)


if __name__ == "__main__":
    main(*sys.argv[1:])
