#!/usr/bin/env bash
# Times a scan of large packs against only hashing the same bytes, both by the same crates: 512 MiB of small blobs, and
# 512 MiB of large ones. Runs the program of crates/lab, which is built if it is missing or older than the sources, or
# the one that LAB names. BENCH_MIB is another length of the packs, to try the script.
#
# Prints the time of the scan as a multiple of the time of hashing; the goals are 1.5 for small blobs and 1.1 for large
# ones.
set -eu
cd "$(dirname "$0")/.."
. bench/lab.bash
folder=$(mktemp -d)
trap 'rm -rf "$folder"' EXIT
for kind in small-blobs large-blobs; do
  python3 bench/make_pack.py "$kind" "$folder"
  PYTHONDONTWRITEBYTECODE=1 python3 bench/scan.py "$program" "$kind" "$folder"
done
