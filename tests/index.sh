#!/usr/bin/env bash
# Puts blobs into an index one by one, in shapes that could cost much, and compares how many permanodes have a value in
# the end.
# Runs the program of crates/lab, which is built if it is missing or older than the sources, or the one that LAB names.
. "$(dirname "$0")/preamble.bash"
. bench/lab.bash
export PERKEEP=$program AGAIN="LAB=$program " PYTHONDONTWRITEBYTECODE=1
exec python3 tests/index.py "$@"
