#!/usr/bin/env bash
# Times put_tree.py of examples/ over 20,000 small files: beside uploads of the blobs that it stores, made before, in
# requests of 900 parts; a second run beside the first; and both beside `restic backup` of the same folder, which is
# left out if restic isn't there. Prints seconds, ratios within this run, and the bytes that are stored. Ends with
# status 1 if a goal isn't met: 1.5 of the uploads, and a tenth of the first run. BENCH_FILES is another number of
# files, to try the script. Needs g++.
. "$(dirname "$0")/preamble.bash"
g++ -O2 -std=c++17 -pthread -o "$folder/http_load" bench/http_load.cc
python3 bench/trees.py "$program" "$folder/http_load" "$folder"
