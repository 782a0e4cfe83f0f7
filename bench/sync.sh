#!/usr/bin/env bash
# Times `push` and `pull` of 10,000 small blobs and of 64 blobs of 1 MiB between a folder and a server on the same
# machine: beside a C loop that appends and syncs as much, and beside uploads of the same blobs by a client that has
# made its requests before, to the same server and to a C server that only digests, appends and syncs. Small ones are
# also timed beside `rsync --fsync` and `restic copy` of as many files; these are left out if they aren't there, or if
# rsync doesn't know that option. Then a round of `mirror` over three servers with 10,000 small blobs each, beside the
# pulls and pushes that copy the same. Needs g++, openssl with its headers, and /usr/bin/time.
#
#     bench/sync.sh [small] [large] [rounds]
#
# Prints paces, ratios within this run and peak memory, of the named tables or of all. Ends with status 1 if a copy is
# incomplete. BENCH_BLOBS is another number of small blobs, to try the script.
. "$(dirname "$0")/preamble.bash"
cc -O2 -o "$folder/append_sync" bench/append_sync.c
cc -O2 -pthread -o "$folder/plain_put" bench/plain_put.c -lcrypto
g++ -O2 -std=c++17 -pthread -o "$folder/http_load" bench/http_load.cc
python3 bench/sync.py "$program" "$folder/http_load" "$folder/append_sync" "$folder/plain_put" "$folder" "$@"
