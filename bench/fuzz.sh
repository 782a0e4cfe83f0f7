#!/usr/bin/env bash
# Makes inputs by changing good ones at random, runs the program, and compares its answers with the reference:
#
#     bench/fuzz.sh [SECONDS [TARGET..]]
#
# SECONDS is the time of all targets together, by default an hour; the targets are those of tests/lib/fuzzing.py. An input
# whose answer is of a new class is changed further. With WORST=1 the worst known inputs of each kind come first, of up
# to 1 MiB each, over a store that is almost empty, and beside a thousand permanodes. SEED makes other choices: with the
# same one, each number of a target is the same input again. An input that is answered wrongly, or takes more than 300
# MiB or ten seconds of a processor, is cut down and written to tests/found/, whose files tests/found.sh tries in each
# run of the gate; then the status is 1. An input that differs once and then no longer is printed too.
. "$(dirname "$0")/preamble.bash"
python3 bench/fuzz.py "$program" "$folder" "$@"
