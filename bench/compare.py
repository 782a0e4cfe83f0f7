"""Times `perkeep search-pack tag t0` over a pack against a program that hashes the same bytes.

    compare.py PROGRAM KIND FOLDER

The folder has what make_pack.py has written for the kind. Both are run three times, in turn, and the best time of each
counts. Prints how they compare. Ends with status 1 if the answer is wrong, and otherwise with 0, whatever the times are.
"""

import os
import pathlib
import shutil
import sys
import tempfile
import time

MIB = 1_048_576
TIMES = 3


def run(words, folder):
    """Runs a program over the pack; returns seconds, peak memory in bytes, exit status and output."""
    with open(folder / "pack", "rb") as source, tempfile.TemporaryFile() as sink:
        start = time.monotonic()
        child = os.fork()
        if child == 0:
            try:
                os.chdir(folder)
                os.dup2(source.fileno(), 0)
                os.dup2(sink.fileno(), 1)
                os.execvp(words[0], words)
            finally:
                os._exit(127)
        _, status, usage = os.wait4(child, 0)
        seconds = time.monotonic() - start
        sink.seek(0)
        return seconds, usage.ru_maxrss * 1024, os.waitstatus_to_exitcode(status), sink.read()


def hasher():
    """The command line of a program that hashes standard input by SHA-224."""
    return ["sha224sum"] if shutil.which("sha224sum") else ["openssl", "dgst", "-sha224"]


def main(program, kind, folder):
    folder = pathlib.Path(folder)
    answer = (folder / "answer").read_bytes()
    searches, hashes = [], []
    for _ in range(TIMES):
        search = run([program, "search-pack", "tag", "t0"], folder)
        if search[2:] != (0, answer):
            sys.exit(f"{kind}: status {search[2]}, {len(search[3])} bytes of an answer that has {len(answer)}; or they differ")
        searches.append(search)
        hashes.append(run(hasher(), folder))
    size = (folder / "pack").stat().st_size
    speed = min(hashes)[0] / min(searches)[0]
    peak = max(search[1] for search in searches)
    print(f"{kind}: {speed:.2f} of the speed of {hasher()[0]}; peak memory {peak / MIB:.0f} MiB, {peak / size:.2f} of the pack")


if __name__ == "__main__":
    main(*sys.argv[1:])
