"""Times `load` over the generated store of 100,000 blobs against a plain program, and prints how they compare.

    load.py PROGRAM PLAIN_LOAD FOLDER

Both are run three times, in turn, and the best time of each counts.
"""

import pathlib
import sys

from compare import MIB, TIMES, run
from make_pack import KEYRING

LINE = "blobs 100000 permanodes 25000 answer sha224-449c1ab9dc84a1f460f767f231a9da020897c1f366272578630f4158\n"
ANSWER = f"forward {LINE}backward {LINE}".encode()


def timed(words, folder):
    """Seconds and peak memory of a run that has to print the answer."""
    seconds, peak, status, out = run(words, folder)
    if (status, out) != (0, ANSWER):
        sys.exit(f"{' '.join(words)}: status {status}, and it printed {out}")
    return seconds, peak


def main(program, plain, folder):
    folder = pathlib.Path(folder)
    (folder / "pack").write_bytes(b"")
    (folder / "keyring").write_bytes(KEYRING)
    runs = [(timed([program, "load", "100000", "7"], folder), timed([plain, "100000", "7"], folder)) for _ in range(TIMES)]
    loads, plains = zip(*runs)
    speed = min(plains)[0] / min(loads)[0]
    peak, plain_peak = (max(memory for _, memory in column) / MIB for column in (loads, plains))
    print(f"load 100000 7: {speed:.2f} of the speed of the plain program; peak memory {peak:.0f} MiB, of that one {plain_peak:.0f} MiB")


if __name__ == "__main__":
    main(*sys.argv[1:])
