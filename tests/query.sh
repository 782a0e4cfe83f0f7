#!/usr/bin/env bash
# Runs `perkeep query` over small stores, with more than twenty thousand queries and texts that aren't queries, and
# compares its output and status. The stores are in memory if there is such a folder, since each start syncs its store.
. "$(dirname "$0")/preamble.bash"
if [ -z "${TMPDIR:-}" ] && [ -d /dev/shm ] && [ -w /dev/shm ]; then export TMPDIR=/dev/shm; fi
run_tests query "$@"
