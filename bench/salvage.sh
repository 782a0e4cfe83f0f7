#!/usr/bin/env bash
# Times the salvage of large packs, by `perkeep search-pack`, against hashing the same bytes: 512 MiB of small blobs,
# 512 MiB of large ones, and 40 MiB with 64 headers in front of other bytes. Each of those costs a hash of 16 MiB, so
# that 1 GiB is hashed there. Prints the speed relative to the hasher's, and the peak memory. Ends with status 1 if an
# answer is wrong.
. "$(dirname "$0")/preamble.bash"
for kind in small-blobs large-blobs false-headers; do
  python3 bench/make_pack.py "$kind" "$folder"
  python3 bench/compare.py "$program" "$kind" "$folder"
done
