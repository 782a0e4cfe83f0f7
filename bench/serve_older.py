"""Times `serve` of two programs, an older one and the current one, and prints how the current one compares, as a table.

    serve_older.py PROGRAM OLDER HTTP_LOAD FOLDER [--any-level]

Each is measured nine times, the two in turn, and the medians count: of processor time, and of wall time for uploads one
by one, which wait for the disk. A figure above 1 is faster than the older one.
"""

import statistics
import sys

from levels import ANY_LEVEL, tell_levels
from serve import BLOBS, UPLOADS, Bench, Served, gets, heading, row, small_blobs, upload

ROUNDS = 9
# So many small blobs of the store that is read, and how often each is got; so many uploads of 1,000 blobs, and of one.
# Processor time is measured in hundredths of a second, so that these take about half a second of it or more.
GETS, TIMES, UPLOADS_OF_MANY, UPLOADS_OF_ONE = min(BLOBS, 5_000), 16, 20, 5_000


class Two:
    """The measured work, for each of the programs in turn."""

    def __init__(self, programs, http_load, folder):
        self.benches = [Bench(program, http_load, None, None, folder) for program in programs]

    def compare(self, what, seconds):
        """Prints a row: the seconds of a bench for both programs, by `seconds`, and their ratio."""
        rounds = [[seconds(bench) for bench in (self.benches if number % 2 else self.benches[::-1])] for number in range(ROUNDS)]
        pairs = [pair if number % 2 else pair[::-1] for number, pair in enumerate(rounds)]
        now, older = (statistics.median(column) for column in zip(*pairs))
        row(what, f"{now:.2f} s", f"{older:.2f} s", f"{older / now:.2f}")


def main(program, older, http_load, folder, *options):
    tell_levels(program, older, ANY_LEVEL in options)
    two = Two([program, older], http_load, folder)
    blobs = small_blobs(GETS)
    requests, size = gets(blobs), sum(map(len, blobs))
    heading("medians of nine", "of now", "of the older one", "part")
    for connections in (1, 8):
        def of_gets(bench):
            with Served(bench, blobs) as server:
                return bench.load(server, requests, connections, TIMES, size).processor

        two.compare(f"GETs over {connections}", of_gets)
    new = small_blobs(UPLOADS * UPLOADS_OF_MANY)
    of_many = [upload(new[first : first + UPLOADS]) for first in range(0, len(new), UPLOADS)]
    two.compare("uploads of 1,000 blobs", lambda bench: bench.fresh(of_many)[0].processor)
    of_one = [upload([blob]) for blob in new[:UPLOADS_OF_ONE]]
    two.compare("uploads one by one, processor", lambda bench: bench.fresh(of_one)[0].processor)
    two.compare("uploads one by one, wall", lambda bench: bench.fresh(of_one)[0].wall)


if __name__ == "__main__":
    main(*sys.argv[1:])
