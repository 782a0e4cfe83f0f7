#!/usr/bin/env bash
# Runs `mirror` over a store and real servers, three and five of them: their blobs, listings and searches are then
# compared byte by byte. Servers and commands are also killed in a round, stores are full, damaged or held by another
# program, and connections end between requests. Also runs the timer's script of examples/, which needs curl. A server
# in Python checks that a second round sends no upload.
. "$(dirname "$0")/preamble.bash"
run_tests mirror "$@"
