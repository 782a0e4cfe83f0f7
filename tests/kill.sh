#!/usr/bin/env bash
# Kills `perkeep put` two hundred times at random moments, and then finds every blob whose ref was printed. Then kills
# `put-file` a hundred times, and finds every blob of each file whose ref was printed. KILLS is another number of kills
# of `put`; those of `put-file` are half of it.
. "$(dirname "$0")/preamble.bash"
run_tests kill "$@"
