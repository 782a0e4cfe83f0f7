#!/usr/bin/env bash
# Makes each system call that a put depends on fail in turn, with strace, and checks the order of its writes, syncs and
# prints; then those of a server for four clients. If strace isn't there, or can't trace, the groups are left out, and
# the script says so.
. "$(dirname "$0")/preamble.bash"
run_tests faults "$@"
