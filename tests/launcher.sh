#!/usr/bin/env bash
# Runs copies of the launcher ./perkeep with a toolchain that only pretends to build: when it builds, its messages, and
# what it runs.
. "$(dirname "$0")/preamble.bash"
run_tests launcher "$@"
