#!/usr/bin/env bash
# Measures the peak memory of `list`, `salvage` and `search-pack` over 512 MiB of 300-byte blobs and of 1 MiB ones: none
# of them holds a pack. Prints the peaks, the memory per blob, and the processor time of `search` and `query` beside
# that of `list`; and, for small blobs, that of `search-pack` when each read gives one byte, for a pack and for one of
# twice its length. Ends with status 1 if an answer is wrong.
. "$(dirname "$0")/preamble.bash"
cc -O2 -shared -fPIC -o "$folder/one_byte.so" bench/one_byte.c -ldl
for kind in small-blobs large-blobs; do
  python3 bench/make_pack.py "$kind" "$folder"
  python3 bench/pieces.py "$program" "$kind" "$folder"
done
