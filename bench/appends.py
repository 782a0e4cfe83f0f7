"""Times claims in the order of their dates on one permanode, beside as many on as many permanodes.

    appends.py LAB FOLDER

Both packs of a line have the same permanodes, and are inserted blob by blob in their order. Prints the times of the
first relative to those of the second; each is the best of three, taken in turn, and includes reading the blobs.
Ends with status 1 if an answer is wrong.
"""

import pathlib
import sys

# Before the tests' modules: these imports put the tests' folder first in the search path.
from make_pack import reference
from inserting import folder_of, seconds
from writing import FIRST_MOMENT, claim, key_blob, permanode

ATTRIBUTES = 10


def adds(number):
    return "add", "tag", f"v{number}"


def sets_in_turn(number):
    """The attribute of the search is the first one, which is set as often as each other."""
    return "set", "tag" if number % ATTRIBUTES == 0 else f"a{number % ATTRIBUTES}", f"v{number}"


SHAPES = {
    "10,000 additions": (10_000, adds),
    "100,000 additions": (100_000, adds),
    "10,000 sets of 10 attributes": (10_000, sets_in_turn),
}


def blobs_of(count, change_of, node_of):
    nodes = [permanode(f"{number:032x}") for number in range(count)]
    refs = list(map(reference.ref_of, nodes))
    claims = []
    for number in range(count):
        act, attr, value = change_of(number)
        date = reference.date_text(FIRST_MOMENT + number * 10**9)
        claims.append(claim(act, refs[node_of(number)], attr, value, date))
    return [key_blob(), *nodes, *claims]


def main(lab, folder):
    folder = pathlib.Path(folder)
    print("Claims in order on one permanode; times against those of as many additions, each on its own permanode")
    for place, (shape, (count, change_of)) in enumerate(SHAPES.items()):
        asked = f"v{count - ATTRIBUTES}"
        packs = [
            folder_of(folder, f"one-{place}", blobs_of(count, change_of, lambda number: 0)),
            folder_of(folder, f"each-{place}", blobs_of(count, adds, lambda number: number)),
        ]
        took, other = seconds(lab, "insert", packs, asked, 1)
        print(f"{shape:40} {took / other:8.2f}  {took:8.2f} s {other:8.2f} s", flush=True)


if __name__ == "__main__":
    main(*sys.argv[1:])
