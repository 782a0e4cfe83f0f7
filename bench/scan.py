"""Times `lab scan` over a pack against `lab hash` over the same bytes, three times each in turn; the best of each counts.

    scan.py LAB KIND FOLDER
"""

import pathlib
import sys

from compare import MIB, TIMES, run


def main(lab, kind, folder):
    folder = pathlib.Path(folder)
    scans, hashes = [], []
    for _ in range(TIMES):
        scans.append(run([lab, "scan"], folder))
        hashes.append(run([lab, "hash"], folder))
    for seconds, _, status, output in scans + hashes:
        if status != 0 or not output.endswith(b"\n"):
            sys.exit(f"{kind}: status {status}")
    found = scans[0][3].decode().split()
    ratio = min(scans)[0] / min(hashes)[0]
    peak = max(scan[1] for scan in scans)
    print(f"{kind}: {found[0]} blobs, clean {found[1]}; scanned in {ratio:.2f} of the time of hashing; peak memory {peak / MIB:.0f} MiB")


if __name__ == "__main__":
    main(*sys.argv[1:])
