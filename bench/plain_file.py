"""Digests standard input in chunks of 1 MiB, and appends each to a file and syncs it: the least cost of put-file.

    plain_file.py FILE
"""

import hashlib
import os
import sys

MIB = 1_048_576


def main(path):
    with open(path, "ab", buffering=0) as file:
        while chunk := sys.stdin.buffer.read(MIB):
            digest = hashlib.sha224(chunk).digest()
            file.write(digest + chunk)
            os.fdatasync(file.fileno())


if __name__ == "__main__":
    main(*sys.argv[1:])
