#!/usr/bin/env bash
# Refuses the program each request for memory that it makes, one in each run, with tests/refuse.c: in a run of each
# command, at a server's start, and during a server's answers. If there is no cc, which makes the library, all is left
# out.
. "$(dirname "$0")/preamble.bash"
run_tests memory "$@"
