#!/usr/bin/env bash
# Checks the files that are installed with the program: that they are what install/make.py makes from docs/commands.md,
# that shells and readers of manuals accept them, and what the completions offer. Runs no program, so none has to be
# built.
. "$(dirname "$0")/preamble.bash"
PERKEEP=${PERKEEP:-./perkeep}
run_tests install "$@"
