"""Second stops, and failing calls of a peer in whole copies; see stops.sh."""

import pathlib
import sys

TESTS = pathlib.Path(__file__).resolve().parent.parent / "tests"
sys.path[:0] = [str(TESTS), str(TESTS / "lib")]

import harness
from fault_rows import CHOICES, PAGED, World, paged, stopped, stops_in_turn, window_fails
from harness import check

# So many calls of a peer fail in one run of the program.
WINDOW = 250


def second_stops(program):
    """A stop at each call, and then at each call of the next opening, and crashes by each pair of choices. An opening
    changes a disk only by a sync of each pack, and these disks have one. A stop at one of its calls therefore leaves
    the same as one before it, or one after it."""
    return [
        lambda row=row, first=first, second=second: stops_in_turn(program, row, first, second)
        for row in stopped()
        for first in CHOICES
        for second in CHOICES
    ]


def whole_pages(program):
    """Each call of the peer in copies of several pages."""
    starts = range(0, PAGED + 2 * WINDOW, WINDOW)
    return [lambda row=row, start=start: all_fail(program, row, start) for row in paged() for start in starts]


def all_fail(program, row, start):
    made = window_fails(program, World(row), "peer", start, start + WINDOW)
    whole, none = start + WINDOW <= PAGED, start >= PAGED + WINDOW
    check(f"{row.what}: {made} calls", made == start + WINDOW if whole else made == start if none else made > start)


if __name__ == "__main__":
    harness.main("stops.sh", [second_stops, whole_pages])
