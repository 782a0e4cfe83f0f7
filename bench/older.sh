#!/usr/bin/env bash
# Times commands, servers' starts, copies, scans and the index beside an older build: nine times each, the two in turn.
#
#     bench/older.sh OLDER [OLDER_LAB] [--rows NAME ..] [--size small] [--any-level]
#
# These are the programs of crates/perkeep_cli and crates/lab, as a checkout of an earlier commit has built them. The
# current ones are those of ./perkeep and crates/lab, or those that PERKEEP and LAB name. Without OLDER_LAB no scans and
# no inserts are timed. NAMEs choose rows; a wrong one prints all names. `--size small` tries the script, and its output
# then means nothing. Programs of two levels of x86-64 are compared only with `--any-level`.
#
# Prints the levels, medians of processor time and of wall time, and the current program's speed relative to the older
# one's. Takes about fifteen minutes and 1.2 GiB of disk, and means something only on a machine without other work.
older=$(realpath "${1:?which program to compare with}") || exit 2
shift
older_lab=
if [ $# -gt 0 ] && [ "${1#--}" = "$1" ]; then
  older_lab=$(realpath "$1") || exit 2
  shift
fi
. "$(dirname "$0")/preamble.bash"
perkeep=$program labs=()
if [ -n "$older_lab" ]; then
  . bench/lab.bash
  labs=(--labs "$program" "$older_lab")
fi
python3 bench/older.py "$perkeep" "$older" "$folder" "${labs[@]}" "$@"
