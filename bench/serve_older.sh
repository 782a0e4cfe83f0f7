#!/usr/bin/env bash
# Times `serve` beside an older program of the same kind: GETs and uploads of small blobs, nine times each, the two in
# turn.
#
#     bench/serve_older.sh OLDER [--any-level]
#
# OLDER is that program, as a checkout of an earlier commit has built it; the current one is ./perkeep's, or the one
# that PERKEEP names. Programs of two levels of x86-64 are compared only with `--any-level`. Prints the levels, medians,
# and the current program's speed relative to the older one's. Needs g++, and openssl with its headers; takes about
# three minutes, and means something only on a machine without other work.
older=$(realpath "${1:?which program to compare with}") || exit 2
shift
. "$(dirname "$0")/preamble.bash"
g++ -O2 -std=c++17 -pthread -o "$folder/http_load" bench/http_load.cc
python3 bench/serve_older.py "$program" "$older" "$folder/http_load" "$folder" "$@"
