#!/usr/bin/env bash
# Compares how lines of search words are read and refused with a second implementation.
# Runs the program of crates/lab, which is built if it is missing or older than the sources, or the one that LAB names.
. "$(dirname "$0")/preamble.bash"
. bench/lab.bash
export PERKEEP=$program AGAIN="LAB=$program " PYTHONDONTWRITEBYTECODE=1
exec python3 tests/search_words.py "$@"
