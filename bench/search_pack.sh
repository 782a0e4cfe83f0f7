#!/usr/bin/env bash
# Times `perkeep search-pack` over a pack of 100,000 blobs, 25,000 of them permanodes, against hashing the same bytes.
# Prints the speed relative to the hasher's, and the peak memory. Ends with status 1 if the answer isn't the
# reference's.
. "$(dirname "$0")/preamble.bash"
python3 bench/make_pack.py store "$folder"
python3 bench/compare.py "$program" store "$folder"
