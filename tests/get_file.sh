#!/usr/bin/env bash
# Runs `perkeep get-file` over files that the script makes, and compares its output, including the bytes before a part
# that can't be read.
. "$(dirname "$0")/preamble.bash"
run_tests get_file "$@"
