#!/usr/bin/env bash
# Times the opening of two large stores, 100,000 blobs of 300 bytes and 1 GiB in blobs of 1 MiB, against openssl over
# the same bytes; puts into them; and a loop of puts of small blobs against a C program that appends and syncs as much.
# Prints ratios within this run and peak memory. Takes 1.1 GiB of disk in the scratch folder, which is removed at the
# end. Ends with status 1 if an answer is wrong.
. "$(dirname "$0")/preamble.bash"
cc -O2 -o "$folder/append_sync" bench/append_sync.c
python3 bench/store.py "$program" "$folder/append_sync" "$folder"
