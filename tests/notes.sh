#!/usr/bin/env bash
# Runs `perkeep permanode`, `claim` and `delete` over real folders, and compares each blob that they put, every other
# byte that is then on the disk, and the results of `search` with it.
. "$(dirname "$0")/preamble.bash"
run_tests notes "$@"
