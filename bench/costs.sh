#!/usr/bin/env bash
# Measures the figures of the table "What it costs" of README.md: seconds of commands, of a server's start and of its
# answers, and peaks of memory, over stores of large files and of small ones with notes. Prints a table of times beside
# the speed of openssl over the same packs, so that they can be scaled to another machine. COSTS is another list of
# stores, such as `large:10 small:1`, with their GB; without it, `large:1 large:10 small:1`. Takes 10.1 GB of disk in
# the scratch folder, which is removed at the end, and about twenty minutes. Ends with status 1 if an answer is wrong.
. "$(dirname "$0")/preamble.bash"
python3 bench/costs.py "$program" "$folder" ${COSTS:-large:1 large:10 small:1}
