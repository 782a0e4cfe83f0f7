#!/usr/bin/env bash
# Times queries over a store of 100,000 blobs, 25,000 of them permanodes, per ref of the answer and beyond opening the
# store, against SQLite in memory with an index; a line of search words against the same query as JSON; and a query of
# five nested relations against opening its store. Prints ratios within this run and peak memory. Ends with status 1 if
# an answer is wrong.
. "$(dirname "$0")/preamble.bash"
python3 bench/make_pack.py store "$folder"
python3 bench/query.py "$program" "$folder"
