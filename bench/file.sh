#!/usr/bin/env bash
# Times `put-file` of 1 GiB into a new store, and `get-file` of it, against openssl over the same bytes, and `put-file`
# also against a plain program that digests the same chunks and appends and syncs each. Prints ratios within this run
# and peak memory. Takes 3.1 GiB of disk in the scratch folder, which is removed at the end. Ends with status 1 if an
# answer is wrong.
. "$(dirname "$0")/preamble.bash"
python3 bench/file.py "$program" "$folder"
