"""Prints the levels of x86-64 for which two programs are built. Programs of two levels aren't compared unless that is
allowed.

A level is found from the instructions in a program, whether or not the program would ever run them.
"""

import re
import subprocess
import sys

ANY_LEVEL = "--any-level"
# What programs below a level don't have: its registers, or the rotation that digests use.
MARKS = {"x86-64-v4": rb"%zmm", "x86-64-v3": rb"%ymm|\brorx\b"}
BELOW, UNKNOWN = "below x86-64-v3", "unknown, as objdump doesn't read it"


def level_of(program):
    try:
        words = ["objdump", "-d", "--no-show-raw-insn", program]
        code = subprocess.run(words, stdout=subprocess.PIPE, stderr=subprocess.DEVNULL, check=True).stdout
    except (OSError, subprocess.CalledProcessError):
        return UNKNOWN
    return next((level for level, mark in MARKS.items() if re.search(mark, code)), BELOW)


def tell_levels(program, older, may_differ):
    """Prints the level of each; ends with status 2 if they differ and may not."""
    levels = [level_of(one) for one in (program, older)]
    for what, one, level in zip(("of now", "older"), (program, older), levels):
        print(f"{what}: {one}, level {level}", flush=True)
    if levels[0] != levels[1] and not may_differ:
        print(f"these are of two levels: {ANY_LEVEL} compares them all the same", file=sys.stderr)
        sys.exit(2)
