"""Makes each system call of each command fail in turn; see faults.sh.

    faults.py PROGRAM FOLDER [ROW..]
"""

import collections
import pathlib
import sys

TESTS = pathlib.Path(__file__).resolve().parent.parent / "tests"
sys.path[:0] = [str(TESTS), str(TESTS / "lib")]

import harness
from command_rows import DISK, DONE, KEYRING, KNOWN, PEER, READ, WRITE, Trial, rows
from faults import faults_of, own_calls
from faults_of_shares import ShareRow
from harness import Difference, check
from libraries import CLOCK, DICE, made_library
from tracing import TRACED, WRITES, need_strace, trace

# The calls on a peer, and how they fail.
NETWORK = ("socket", "connect", "sendto", "recvfrom", "poll", "getsockopt", "setsockopt", "shutdown")
RESET, REFUSED = "ECONNRESET", "ECONNREFUSED"


class Row:
    """A command, and the results of its runs."""

    def __init__(self, program, row, known):
        self.program, self.row, self.what = program, row, row.what
        # The program waits for a peer by the clock.
        self.known = {} if row.peer is not None else {**KNOWN, "LD_PRELOAD": ":".join(map(str, known))}
        self.calls, self.endings = 0, collections.Counter()

    def fails_in_turn(self):
        for call in self.calls_of_a_good_run():
            faults = faults_on(call)
            self.calls += bool(faults)
            for fault in faults:
                self.fails(call, fault)

    def trace(self, line, source, faults=()):
        folder = self.program.working_folder(KEYRING)
        return trace(self.program, line, source, faults, folder, self.known, (*TRACED, *NETWORK))

    def calls_of_a_good_run(self):
        calls = []

        def run(line, source):
            *ending, made = self.trace(line, source)
            calls.extend(made)
            return tuple(ending), (DONE,)

        with Trial(self.program, self.row) as trial:
            trial.runs(self.row.what, run)
            return own_calls(calls, trial.store.path)

    def fails(self, call, fault):
        what = f"{self.row.what}, {' and '.join(fault)} ({call.path or 'no path'})"

        def run(line, source):
            status, out, err, made = self.trace(line, source, fault)
            # A pipe may be read in fewer calls than before.
            was_made = any(one.is_injected() for one in made)
            check(f"{what}: no call failed", was_made or call.file == 0)
            # If all writes fail, the program can't say how it ends.
            told = err or harness.told_of(status) if call.name in WRITES else err
            return (status, out, told), statuses_for(call) if was_made else (DONE,)

        def run_again(line, source):
            *ending, _ = self.trace(line, source)
            return tuple(ending), (DONE,)

        with Trial(self.program, self.row) as trial:
            self.endings[trial.runs(what, run)] += 1
            trial.runs(f"{what}, and then none", run_again)


def faults_on(call):
    """The faults, in strace's notation, to try on a call."""
    if call.name in NETWORK:
        return [(f"{call.name}:error={REFUSED if call.name == 'connect' else RESET}:when={call.number}",)]
    return faults_of(call)


def statuses_for(call):
    """How a run may end if a call fails: the likely status, and 0 if the call isn't needed."""
    if call.name in NETWORK or call.path.startswith(("socket:", "TCP:")):
        return (PEER, DONE)
    if call.file == 0 or call.path.endswith("/keyring"):
        return (READ, DONE)
    return (WRITE, DONE) if call.file == 1 else (DISK, DONE)


def main(path, folder, *names):
    program = harness.Program(path, folder)
    need_strace(program)
    known = [made_library(program, name, text) for name, text in (("clock", CLOCK), ("dice", DICE))]
    of_rows = [Row(program, row, known) for row in rows() if row.touches_a_folder()]
    wrong = 0
    for one in (*of_rows, ShareRow(program)):
        if names and one.what not in names:
            continue
        try:
            one.fails_in_turn()
        except Difference as difference:
            wrong += 1
            print(f"FAILED {difference}", flush=True)
        told = ", ".join(f"status {status} {count}" for status, count in sorted(one.endings.items()))
        print(f"{one.what}: {one.calls} calls, {one.endings.total()} runs: {told}", flush=True)
    sys.exit(1 if wrong else 0)


if __name__ == "__main__":
    main(*sys.argv[1:])
