#!/usr/bin/env bash
# Runs `perkeep` with a terminal as standard error: the messages there, besides the word of a failed run.
. "$(dirname "$0")/preamble.bash"
run_tests terminal "$@"
