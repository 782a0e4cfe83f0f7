#!/usr/bin/env bash
# Gives an index a few blobs in every order in which they, and each part of them, can come, one by one and all at once,
# and compares its answers with a second implementation.
# Runs the program of crates/lab, which is built if it is missing or older than the sources, or the one that LAB names.
. "$(dirname "$0")/preamble.bash"
. bench/lab.bash
export PERKEEP=$program AGAIN="LAB=$program " PYTHONDONTWRITEBYTECODE=1
exec python3 tests/arrivals.py "$@"
