#!/usr/bin/env bash
# Runs many programs over one folder at once: writers beside writers, some of which are killed, readers beside a writer,
# and a folder that another program has locked.
. "$(dirname "$0")/preamble.bash"
run_tests writers "$@"
