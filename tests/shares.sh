#!/usr/bin/env bash
# Serves the shares of random stores, and compares every byte of the replies to thousands of requests, good and hostile
# ones, with a second implementation. Makes shares and downloads them by the scripts of examples/, and takes shares
# back.
. "$(dirname "$0")/preamble.bash"
run_tests shares "$@"
