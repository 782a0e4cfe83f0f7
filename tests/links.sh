#!/usr/bin/env bash
# Checks the documents: links and anchors resolve, lines are short, and the sources have what they quote or name. It
# runs no program, and so builds none.
. "$(dirname "$0")/preamble.bash"
export PERKEEP="" AGAIN="" PYTHONDONTWRITEBYTECODE=1
exec python3 tests/links.py "$@"
