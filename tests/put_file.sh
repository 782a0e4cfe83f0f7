#!/usr/bin/env bash
# Runs `perkeep put-file` over real folders, and compares each blob that it puts and every other byte that is then on
# the disk. The group `back` also needs `get-file`. The group `large` makes files of 4 GiB, of one chunk that repeats,
# and takes about a minute.
. "$(dirname "$0")/preamble.bash"
run_tests put_file "$@"
