#!/usr/bin/env bash
# Opens pages in headless Chromium, if that is installed, before `perkeep serve` and `perkeep serve-shares`: what a page
# of another origin can do, and which requests are still answered.
. "$(dirname "$0")/preamble.bash"
run_tests browser "$@"
