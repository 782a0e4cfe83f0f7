#!/usr/bin/env bash
# Runs the scripts of examples/ over folders, servers and stores: put_tree.py, get_tree.py, notes.py and fsck_files.py.
# The blobs that they store are compared one by one with those of docs/formats/trees.md, computed a second time. The
# restored folder is compared with the original, to the byte, the mode and the nanosecond, even if the scripts were
# killed, connections ended, or blobs were damaged.
. "$(dirname "$0")/preamble.bash"
run_tests trees "$@"
