"""Requests for memory that are refused: in a run of each command, at a server's start and during a server's answers,
one request in each run, from the first one on until a run makes no more.

Memory may run out at any time (docs/commands.md, "Input and order"). A run then still has its own result, or it ends
for want of memory or, within a call on the folder or the peer, with that object's fault. The state that it leaves is
checked, and that the same run succeeds once there is memory. Servers are in memory_served.py and memory_shares.py.
"""

import collections
import os

import harness
import memory_served
import memory_shares
from command_rows import DISK, DONE, KEYRING, KNOWN, MEMORY, PEER, Trial, rows
from harness import Difference, run_quickly
from libraries import CLOCK, DICE, made_library
from refusing import Page, refusing

# A run that makes more requests than so many doesn't end.
MOST = 1_000_000
# How many runs of each row ended with which status.
ENDINGS = {}


def commands(program):
    """Each command, with each of its requests refused."""
    return [lambda row=row, runs=Runs(program): runs.refused_in_turn(row) for row in rows()]


class Runs:
    """Runs of rows in which so many requests are refused, one after the other."""

    def __init__(self, program, count=1):
        self.program, self.count, self.library = program, count, refusing(program)
        self.known = [made_library(program, name, text) for name, text in (("clock", CLOCK), ("dice", DICE))]

    def refused_in_turn(self, row):
        """Returns how many runs ended with which status."""
        page = Page(self.program, self.library)
        endings = ENDINGS[row.what] = collections.Counter()
        for number in range(1, MOST):
            status = self.refused(row, page, number)
            if status is None:
                return endings
            endings[status] += 1
        raise Difference(f"{row.what}: more than {MOST} requests")

    def refused(self, row, page, number):
        """A run in which some requests are refused, from that of a number on, and then one in which none is; returns
        how the first one ended, or None if it made fewer requests."""
        what = f"{row.what}, request {number} refused"
        with Trial(self.program, row) as trial:
            status = trial.runs(what, lambda line, source: self.run(row, page, line, source, number))
            was_refused = page.refused() > 0
            page.refuse_none()
            trial.runs(f"{what}, and then none", lambda line, source: self.run(row, page, line, source))
        return status if was_refused else None

    def run(self, row, page, line, source, number=None):
        """How a line ended, and how it may have ended."""
        # The program waits for a peer by the clock.
        variables = {**os.environ, **KNOWN, **page.variables(*(self.known if row.peer is None else ()))}
        if number is not None:
            page.refuse(number, self.count)
        ending = run_quickly(self.program, line, source, environment=variables)
        return ending, may_end(row) if number is not None and page.refused() > 0 else (DONE,)


def may_end(row):
    folders = (DISK,) if row.touches_a_folder() else ()
    return (MEMORY, DONE, *folders, *((PEER,) if row.peer is not None else ()))


def tell_counts(_):
    counts = {what: endings.total() for what, endings in ENDINGS.items()} | memory_served.COUNTS
    print(f"requests for memory: {', '.join(f'{what} {count}' for what, count in counts.items())}")


def checks_of(program, group):
    # run_quickly runs its program in a folder with the keyring.
    os.chdir(program.working_folder(KEYRING))
    return group(program)


if __name__ == "__main__":
    many, alone = [memory_served.routes, memory_shares.share_routes], [memory_served.starts, memory_shares.share_starts]
    harness.main("memory.sh", [commands, *many], alone, checks_of, tell_counts)
