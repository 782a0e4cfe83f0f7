#!/usr/bin/env bash
# Runs the gate, `rt ci`, and prints what each crate costs in it: processor minutes of its proof, its tests, its
# must-fail edits, and of building and running it. Takes as long as the gate, and some seconds of a processor for
# itself.
#
#     bench/gate.sh [LOG]         runs `rt ci` at the top of the repository; its output is also written to the file LOG
#     bench/gate.sh --pid PID     watches a run that has begun: PID is that of rt, or of .ci/run above it
#
# The last output is a Markdown table, with the most expensive crate first. Ends with rt's exit status, or with 0 if it
# only watched.
set -eu
PYTHONDONTWRITEBYTECODE=1 exec python3 "$(dirname "$0")/gate.py" "$@"
