"""Shared by the benches of the index: packs in folders of their own, and the best times of `lab` over them in turn."""

import sys

from compare import TIMES, run
from writing import keyring_line, pack


def folder_of(folder, name, blobs):
    """A new folder with a pack of the blobs, and their number."""
    path = folder / name
    path.mkdir()
    (path / "pack").write_bytes(pack(*blobs))
    return path, len(blobs)


def seconds(lab, way, packs, asked, holders):
    """The best time of each of the packs, whose index has to return so many holders of the given tag."""
    best = [None] * len(packs)
    for _ in range(TIMES):
        for number, (path, count) in enumerate(packs):
            took, _, status, out = run([lab, way, keyring_line().decode(), "tag", asked], path)
            if (status, out) != (0, f"{count} {holders}\n".encode()):
                sys.exit(f"{path.name}, {way}: the answer is wrong: {out}")
            best[number] = took if best[number] is None else min(best[number], took)
    return best
