#!/usr/bin/env bash
# Runs `serve`, and sends requests to servers by curl, by Python's `requests` and by sockets: each route; hostile
# streams and streams that are cut, whose replies are compared byte by byte with a second implementation; eight clients
# at once, each of whose replies is checked; clients that stop and stay connected; fifty kills under load, after which
# every acknowledged blob is found; a client that adds 20,000 values to one permanode beside one that searches for them;
# and short requests beside a query that takes long. LOAD_SECONDS is another time of the eight clients than a minute,
# LOAD_VALUES another number of values, LONG_PARTS another length of the query, and KILLS another number of kills. Takes
# about five minutes. If curl, the module requests or strace isn't there, the groups that need it are left out, and the
# script says so.
. "$(dirname "$0")/preamble.bash"
run_tests serve "$@"
