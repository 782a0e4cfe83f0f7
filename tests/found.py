"""Tries again inputs that were found by bench/fuzz.sh, and queries that may take long.

A file of tests/found/ has the bytes of an input, and its name begins with that of its target.
"""

import functools
import os
import pathlib

import harness
from command_rows import KEYRING
from fuzz_inputs import Changes, Facts, Keyrings, Packs, Queries, Words
from fuzz_wires import Multiparts, Replies, Shares, Streams

TARGETS = [Packs, Facts, Keyrings, Changes, Queries, Words, Streams, Multiparts, Shares, Replies]
FOUND = pathlib.Path(__file__).with_name("found")


def found(program):
    """Each input of tests/found/."""
    targets = {target.name(): target for target in TARGETS}
    files = sorted(file for file in FOUND.iterdir() if file.suffix != ".md")
    return [functools.partial(tries_again, program, targets[file.name.split("-")[0]], file) for file in files]


def tries_again(program, target, file):
    one = target(program)
    one.tries(file.name, file.read_bytes())
    one.close()


def queries_of_many(program):
    """Queries of many constraints and deep ones, of a thousand permanodes."""
    return [Queries(program).tries_of_many]


def checks_of(program, group):
    # run_measured runs its program in a folder with the keyring.
    os.chdir(program.working_folder(KEYRING))
    return group(program)


if __name__ == "__main__":
    harness.main("found.sh", [found, queries_of_many], checks_of=checks_of)
