#!/usr/bin/env bash
# Gives streams of requests to `lab http`, good ones and hostile ones, each whole, byte by byte and in other pieces, and
# compares every byte of the replies with a second implementation of the whole connection.
# Runs the program of crates/lab, which is built if it is missing or older than the sources, or the one that LAB names.
. "$(dirname "$0")/preamble.bash"
. bench/lab.bash
export PERKEEP=$program AGAIN="LAB=$program " PYTHONDONTWRITEBYTECODE=1
exec python3 tests/http_streams.py "$@"
