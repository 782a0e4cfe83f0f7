#!/usr/bin/env bash
# Times connections of HTTP, as crates/lab serves them over a home in memory, against a plain program that reads the
# same requests and writes the same replies (plain_http.cc), and uploads also against openssl over the blobs' bytes:
# 100,000 GETs of small blobs, 16 GETs of one of 16 MiB, and uploads of 64 blobs of 1 MiB and of 1,000 small ones, each
# in one request. Runs the program of crates/lab, which is built if it is missing or older than the sources, or the one
# that LAB names. BENCH_PIECE is the most bytes that a program is given at a time: by default 65,536, and all of them at
# once if it is 0. Needs g++ and OpenSSL's headers.
#
# A home finds a blob by searching the list of all its blobs, and the plain program by a hash table. To keep this from
# deciding the result, the packs have eight blobs or one. The upload of 1,000 blobs makes a larger home by itself: about
# 500,000 entries are searched, and count.
#
# Both programs read standard input to its end, then serve, and then write all replies. The peaks therefore include both
# streams, and no socket is timed. The plain program keeps no index, which an upload has to fill too.
#
# Prints paces, ratios within this run and peak memory. Takes 0.3 GiB of disk in the scratch folder, which is removed at
# the end. Ends with status 1 if a reply of either program is wrong.
set -eu
cd "$(dirname "$0")/.."
. bench/lab.bash
folder=$(mktemp -d)
trap 'rm -rf "$folder"' EXIT
g++ -O2 -std=c++17 -o "$folder/plain_http" bench/plain_http.cc -lcrypto
PYTHONDONTWRITEBYTECODE=1 python3 bench/http_speed.py "$program" "$folder/plain_http" "$folder"
