#!/usr/bin/env bash
# Runs `push` and `pull` between stores and servers: what both ends then have is compared byte by byte. Servers and
# commands are also killed, stores are full, damaged or held by another program, and a peer replies wrongly, in each way
# at each request in turn. A server in Python checks each request.
. "$(dirname "$0")/preamble.bash"
run_tests sync "$@"
