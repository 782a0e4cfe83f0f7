#!/usr/bin/env bash
# Times `load 100000 7` against a plain program that makes the same blobs and two plain indexes of them. Prints the
# speed relative to the plain program's, and the peak memory of both. Needs g++ and OpenSSL's headers. Ends with status
# 1 if the answer of either is wrong.
. "$(dirname "$0")/preamble.bash"
g++ -O2 -std=c++17 -o "$folder/plain_load" bench/plain_load.cc -lcrypto
python3 bench/load.py "$program" "$folder/plain_load" "$folder"
