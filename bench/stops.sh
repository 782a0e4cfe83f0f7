#!/usr/bin/env bash
# Stops the disk of a run in memory at each call, lets it crash by each choice, and crash once more by each choice, both
# immediately and after the store was opened: a second stop at a call of the opening can leave just these states. Also
# lets each call of a peer fail in copies of several pages. It compares as tests/fault_rows.sh does, which has only the
# first stops, and the calls near the beginnings of the pages. Runs the program of crates/fault_rows, which is built if
# it is missing or older than the sources, or the one that FAULT_ROWS names. Takes about fifteen minutes, most of them
# for files. The last line is `N passed, M failed`, and the status is 0 if nothing failed.
#
#     bench/stops.sh [second_stops] [whole_pages]
set -eu
cd "$(dirname "$0")/.."
. bench/fault_rows.bash
export PERKEEP=$program AGAIN="FAULT_ROWS=$program " PYTHONDONTWRITEBYTECODE=1
exec python3 bench/stops.py "$@"
