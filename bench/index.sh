#!/usr/bin/env bash
# Times an index over 100,000 blobs, 25,000 of them permanodes, against openssl over the same bytes: inserts one by one,
# in the order of the pack and with its last blob first, and all blobs at once; then `perkeep search` over a store of
# the same blobs; an index over claims of 1,000 changes, against one over as many claims of one change; and claims in
# order on one permanode, against as many on as many permanodes. The first program is that of crates/lab, which is built
# if it is missing or older than the sources, or the one that LAB names; the other is ./perkeep's, or the one that
# PERKEEP names. BEFORE names another one to be timed beside it, such as that of an earlier commit. BENCH_BLOBS is
# another number of blobs, to try the script: with a few thousand of them the peaks of memory mean nothing.
#
# Prints ratios within this run, inserts per second, and the bytes that a fact takes: the peak memory above that of
# reading the same facts one after another and keeping none. Ends with status 1 if an answer is wrong.
. "$(dirname "$0")/preamble.bash"
perkeep=$program
. bench/lab.bash
python3 bench/make_pack.py store "$folder"
python3 bench/index.py "$program" "$perkeep" "$folder"
python3 bench/several.py "$program" "$folder"
python3 bench/appends.py "$program" "$folder"
