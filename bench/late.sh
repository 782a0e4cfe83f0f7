#!/usr/bin/env bash
# Times claims on one permanode in a server's index, in several orders of arrival, beside claims on as many permanodes:
# 1,500, 6,000 and 24,000 of them, or as many as the arguments say. The program is ./perkeep's, or the one that PERKEEP
# names. Prints processor seconds and ratios. Ends with status 1 if an answer is wrong.
. "$(dirname "$0")/preamble.bash"
python3 bench/late.py "$program" "$folder" "$@"
