#!/usr/bin/env bash
# Runs `perkeep load` and compares its output and status with the reference, byte by byte.
. "$(dirname "$0")/preamble.bash"
run_tests load "$@"
