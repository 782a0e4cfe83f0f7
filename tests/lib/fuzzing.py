"""Inputs that are changed at random, and the expected result of each.

A `Target` takes inputs of one kind, which are bytes: it runs the program, compares its answer with the reference, and
checks that no input of at most 1 MiB takes more than 300 MiB, or more than ten seconds of a processor. The kinds are in
fuzz_inputs.py and fuzz_wires.py. bench/fuzz.sh makes inputs; found.sh tries those that were found.
"""

import os

from harness import Taken, check, compare, compare_ending, run_measured

MOST_MIB, MOST_SECONDS = 300, 10
# A run that takes little of a processor may wait long for one.
PATIENCE = 1_000
MIB = 1 << 20

# Pieces that mean something in JSON.
JSON_TOKENS = [b"{", b"}", b"[", b"]", b",", b":", b'"', b"\\", b"null", b"true", b"0", b"\n", b" ", b"\\u0000"]
JSON_TOKENS += [b"\\ud800"]
JSON_TOKENS += [b"\xff", b"\xc3\xa4", b"\0", b'"":1,', b'"a":{}', b"[[[[", b"1e400", b"-0", b"\\", b'\\"']


class Target:
    """Inputs of one kind. `seeds` are good ones, `tokens` are pieces that are put into them, and `worst` gives inputs
    that might take long, with a description. `tries` runs the program over a store that has these packs too; it returns
    the class of the answer, or raises the difference. A process may be kept until `close`, or `starts_anew` after a
    difference. `most` is the most that any input took so far."""

    tokens = JSON_TOKENS

    def __init__(self, program, packs=None):
        self.program, self.packs, self.most = program, packs or {}, Taken(0, 0)

    @classmethod
    def name(cls):
        return cls.__name__.lower()

    def close(self):
        pass

    def starts_anew(self):
        pass

    def ends(self, what, words, source, status, out, most_seconds=MOST_SECONDS, environment=os.environ):
        """Runs the program, which has to end in this way, within its limits."""
        (is_status, is_out, err), taken = self.runs(words, source, most_seconds, environment)
        compare_ending(what, status, is_status, err)
        compare(what, "standard output", out, is_out)
        self.takes(what, taken, most_seconds)

    def runs(self, words, source=b"", most_seconds=MOST_SECONDS, environment=os.environ):
        """How a run ended, and its cost."""
        return run_measured(self.program, words, source, PATIENCE, environment, work=int(most_seconds) + 1)

    def takes(self, what, taken, most_seconds=MOST_SECONDS):
        self.most = Taken(*map(max, self.most, taken))
        check(f"{what}: {taken.seconds:.1f} seconds", taken.seconds <= most_seconds)
        check(f"{what}: {taken.mib:.0f} MiB", taken.mib <= MOST_MIB)


def worst_texts():
    """JSON that nests, repeats and escapes, of 1 MiB each."""
    yield "opening brackets", b"[" * MIB
    yield "objects in one another", b'{"a":' * (MIB // 5)
    yield "lists in one another", b"[" * (MIB // 2) + b"]" * (MIB // 2)
    yield "one key", b"{" + b'"constraint":1,' * (MIB // 15 - 1) + b'"constraint":1}'
    yield "other keys", b"{" + b",".join(b'"%d":1' % number for number in range(MIB // 12)) + b"}"
    yield "a long text", b'{"constraint":{"camliType":"' + b"\\u0001" * (MIB // 6 - 10) + b'"}}'
    yield "a long number", b'{"limit":' + b"1" * (MIB - 20) + b"}"
    yield "numbers", b"[" + b"1e308," * (MIB // 6 - 2) + b"1]"
    yield "white space", b" " * MIB
