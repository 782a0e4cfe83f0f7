#!/usr/bin/env bash
# Runs `perkeep search-pack` over many inputs and compares its output and status, byte by byte.
. "$(dirname "$0")/preamble.bash"
run_tests search_pack "$@"
