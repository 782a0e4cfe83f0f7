#!/usr/bin/env bash
# Times `serve` beside programs that do the least of the same work: GETs of 10,000 small blobs beside nginx over files
# of the same bytes; uploads of 1,000 small blobs in one request, and of 1,000 and 10,000 singly, beside a C loop that
# appends and syncs as much, and beside a C server that does only that and a digest for each request; GETs and uploads
# of blobs of 16 MiB beside openssl over the same bytes; and one, eight and 64 connections at once, to see what threads
# cost that wait for the store. Then searches: how many per second one to eight clients make, on all processors and on
# two; the longest wait of a search, a GET and an upload beside a query that takes ten seconds, and of searches beside
# uploads; and the memory of the index beside that of a command. The load comes from http_load.cc, on the same machine.
# Without nginx (`apt-get install nginx-light`), the script says so and leaves it out; NGINX_PROGRAM is its path if that
# isn't the usual one. BENCH_BLOBS is another number of small blobs to get, to try the script. Needs g++, taskset,
# /usr/bin/time, and openssl with its headers.
#
# Prints paces, ratios within this run and peak memory. Takes 0.7 GiB of disk in the scratch folder, which is removed at
# the end. Ends with status 1 if a reply hasn't the code 200 or the expected number of bytes.
. "$(dirname "$0")/preamble.bash"
cc -O2 -o "$folder/append_sync" bench/append_sync.c
cc -O2 -pthread -o "$folder/plain_put" bench/plain_put.c -lcrypto
g++ -O2 -std=c++17 -pthread -o "$folder/http_load" bench/http_load.cc
python3 bench/serve.py "$program" "$folder/http_load" "$folder/append_sync" "$folder/plain_put" "$folder"
python3 bench/searches.py "$program" "$folder/http_load" "$folder"
