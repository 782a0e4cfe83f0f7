#!/usr/bin/env bash
# Runs command lines, connections and workers over a disk, peers, streams and listeners in memory. One of their calls
# fails, each in turn, or the disk stops at each call and crashes. Compares the output, the state that is left, and the
# result of the same run afterwards with the expected ones. Does the same with the answers of an index that was refused
# memory.
# Runs the program of crates/fault_rows, which is built if it is missing or older than the sources, or the one that
# FAULT_ROWS names.
. "$(dirname "$0")/preamble.bash"
. bench/fault_rows.bash
export PERKEEP=$program AGAIN="FAULT_ROWS=$program " PYTHONDONTWRITEBYTECODE=1
exec python3 tests/fault_rows.py "$@"
