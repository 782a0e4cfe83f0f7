#!/usr/bin/env bash
# Refuses each request for memory that the program makes, one in each run, as tests/memory.sh does, in longer runs:
# notes that delete one another in every order of arrival and at several dates, the store of a person, a generated
# store, long copies, files, lists of changes, queries and search words. Does the same in the runs of tests/memory.sh
# over disks and peers in memory, and in inserts into an index, with the program of crates/fault_rows, which is built if
# it is missing or older than the sources, or the one that FAULT_ROWS names. In the runs of tests/memory.sh it also
# refuses all requests from each one on. Prints for each how many requests it makes, and how the runs ended. Takes about
# ten minutes. Needs cc. Ends with status 1 if anything is wrong.
#
#     bench/memory.sh [ROW..]
. "$(dirname "$0")/preamble.bash"
. bench/program_of.bash
worlds=$(program_of fault_rows "${FAULT_ROWS:-}" fails clock 0 0 / list d)
python3 bench/memory.py "$program" "$worlds" "$folder" "$@"
