#!/usr/bin/env bash
# Makes each system call of a command fail, one in each run, with strace: for each command that touches a folder, the
# calls on the folder, its packs, the keyring, the streams, a peer, the clock and the random bytes. Each run has to end
# with the status of the failure, or well. The state that it leaves is checked, and the same command has to end well
# afterwards. Prints for each command how many calls were made to fail, in how many runs, and how these ended. Needs
# strace, and cc for the clock and the random bytes. Takes about three minutes. Ends with status 1 if anything is wrong.
#
#     bench/faults.sh [ROW..]
. "$(dirname "$0")/preamble.bash"
python3 bench/faults.py "$program" "$folder" "$@"
