#!/usr/bin/env bash
# Runs `perkeep put`, `get`, `stat`, `list`, `search` and `salvage` over real folders, and compares their output, their
# status and every byte that is then on the disk.
. "$(dirname "$0")/preamble.bash"
run_tests store "$@"
