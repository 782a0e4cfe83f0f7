#!/usr/bin/env bash
# Runs the commands of README.md and docs/guide.md word for word, each page's in a fresh folder, and compares their
# output with that on the pages. Also compares the layers that the README names with crates.txt, and the numbers of
# docs/limits.md with the sources. Needs curl and openssl.
. "$(dirname "$0")/preamble.bash"
run_tests readme "$@"
