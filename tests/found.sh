#!/usr/bin/env bash
# Tries the inputs of tests/found/, whose answers once differed from the reference or took too long, and queries of many
# constraints: whether the answer is right, and how much memory and time it takes.
. "$(dirname "$0")/preamble.bash"
run_tests found "$@"
