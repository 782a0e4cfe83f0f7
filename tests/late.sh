#!/usr/bin/env bash
# Gives servers many changes of one permanode in a dozen orders, and compares their searches with a second
# implementation.
. "$(dirname "$0")/preamble.bash"
if [ -z "${TMPDIR:-}" ] && [ -d /dev/shm ] && [ -w /dev/shm ]; then export TMPDIR=/dev/shm; fi
run_tests late "$@"
