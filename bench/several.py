"""Times claims of several changes, beside claims of one change with the same meaning, in order of dates.

    several.py LAB FOLDER

Each of 20 claims has 1,000 changes: once all of one permanode, and once one of each of 1,000. The other pack has 20,000
claims. Prints the times of the first relative to those of the second; each is the best of three, taken in turn, and
includes reading the blobs. Ends with status 1 if an answer is wrong.
"""

import pathlib
import sys

# Before the tests' modules: these imports put the tests' folder first in the search path.
from make_pack import reference
from inserting import folder_of, seconds
from writing import FIRST_MOMENT, claim, key_blob, multi, permanode

CLAIMS, CHANGES, VALUES = 20, 1_000, 50
WAYS = {"insert": "inserted in order", "fill": "filled at once"}
# The permanode of a change, by the number of its claim and its place there.
SHAPES = {"of one permanode": lambda number, place: number, "of 1,000 permanodes": lambda number, place: place}
ASKED = "v7"


def date(number):
    return reference.date_text(FIRST_MOMENT + number * 10**9)


def blobs_of(node_of):
    """The blobs with claims of several changes, those with claims of one, and how many permanodes have the value."""
    places = [(number, place) for number in range(CLAIMS) for place in range(CHANGES)]
    nodes = [permanode(f"{number:032x}") for number in range(1 + max(node_of(*place) for place in places))]
    refs = list(map(reference.ref_of, nodes))
    changes = {place: ("add", refs[node_of(*place)], "tag", f"v{sum(place) % VALUES}") for place in places}
    plain = [claim(*change, date(number)) for number, change in enumerate(changes.values())]
    several = [
        multi([changes[number, place] for place in range(CHANGES)], date(number * CHANGES)) for number in range(CLAIMS)
    ]
    front = [key_blob(), *nodes]
    return [*front, *several], [*front, *plain], len({change[1] for change in changes.values() if change[3] == ASKED})


def main(lab, folder):
    folder = pathlib.Path(folder)
    print(f"{CLAIMS} claims of {CHANGES:,} changes; times against those of {CLAIMS * CHANGES:,} claims of one change")
    for place, (shape, node_of) in enumerate(SHAPES.items()):
        several, plain, holders = blobs_of(node_of)
        packs = [folder_of(folder, f"several-{place}", several), folder_of(folder, f"plain-{place}", plain)]
        for way, what in WAYS.items():
            took, other = seconds(lab, way, packs, ASKED, holders)
            print(f"{shape + ', ' + what:40} {took / other:8.2f}  {took:8.2f} s {other:8.2f} s", flush=True)


if __name__ == "__main__":
    main(*sys.argv[1:])
