"""Changes inputs at random and runs the program over them; see fuzz.sh.

    fuzz.py PROGRAM FOLDER [SECONDS [TARGET..]]
"""

import os
import pathlib
import resource
import sys
import time
import traceback

TESTS = pathlib.Path(__file__).resolve().parent.parent / "tests"
sys.path[:0] = [str(TESTS), str(TESTS / "lib")]

import harness
from command_rows import KEYRING
from found import FOUND, TARGETS
from fuzz_inputs import MANY, WIDEST, Queries, pack_of_many
from fuzzing import PATIENCE
from harness import Difference, chance
from mutating import mutated

HOUR = 3_600
# An input that differs is made smaller for so many seconds. A target with so many of them is given up.
SMALLER_SECONDS, MOST_FOUND = 60, 3


class Fuzz:
    """A target, the inputs whose answers were of a new class, and the inputs that differed."""

    def __init__(self, target):
        self.target, self.seeds = target, target.seeds()
        self.classes, self.inputs = {}, list(self.seeds)
        # Files of inputs that differed, and how many inputs differed only once.
        self.found, self.once = [], 0
        for data in self.seeds:
            self.takes(data, f"{target.name()}, a seed")

    def runs(self, seconds):
        """Changes inputs for so many seconds; returns how many."""
        until, number = time.monotonic() + seconds, 0
        while time.monotonic() < until and len(self.found) < MOST_FOUND:
            number += 1
            random = chance("fuzz", self.target.name(), number)
            data = mutated(random, random.choice(self.inputs), self.inputs, self.target.tokens)
            self.takes(data, f"{self.target.name()} {number}")
        return number

    def tries_worst(self):
        for what, data in self.target.worst():
            self.takes(data, f"{self.target.name()}, the worst: {what}")
        if isinstance(self.target, Queries) and self.target.packs:
            self.tries_of_many()

    def tries_of_many(self):
        try:
            self.target.tries_of_many(WIDEST)
        except Difference as difference:
            self.once += 1
            print(f"FOUND {difference}", flush=True)

    def takes(self, data, what):
        """Tries an input, and keeps it if its answer is of a new class."""
        answer, difference = self.asked(data, what)
        if difference is not None:
            self.finds(data, what, difference)
        elif answer not in self.classes or len(data) < len(self.classes[answer]) // 2:
            self.classes[answer] = data
            self.inputs = [*self.seeds, *self.classes.values()]

    def asked(self, data, what):
        """The class of the answer to an input, or how the answer differs."""
        try:
            return self.target.tries(what, data), None
        except Difference as found:
            difference = str(found)
        except Exception:
            difference = traceback.format_exc()
        self.target.starts_anew()
        return None, difference

    def differs(self, data, what):
        return self.asked(data, what)[1] is not None

    def finds(self, data, what, difference):
        if not self.differs(data, what):
            self.once += 1
            print(f"ONCE, and then not again, {what}: {difference}", flush=True)
            return
        data = self.smaller(data, what)
        file = FOUND / f"{self.target.name()}-{harness.SEED}-{len(self.found)}"
        file.write_bytes(data)
        self.found.append(file)
        print(f"FOUND {what}: {difference}\n  {len(data)} bytes of it are in {file}", flush=True)

    def smaller(self, data, what):
        """An input with pieces taken out, as long as it still differs."""
        until, size = time.monotonic() + SMALLER_SECONDS, max(1, len(data) // 2)
        while size > 0:
            at = 0
            while at < len(data) and time.monotonic() < until:
                less = data[:at] + data[at + size :]
                if self.differs(less, what):
                    data = less
                else:
                    at += size
            size //= 2
        return data

    def told(self):
        most = self.target.most
        found = f"{len(self.found)} found, {self.once} differed once"
        return f"{found}; at most {most.seconds:.2f} s of a processor and {most.mib:.0f} MiB"

    def ends(self):
        """Returns whether nothing differed."""
        try:
            self.target.close()
        except Difference as difference:
            self.once += 1
            print(f"FOUND {self.target.name()}, at its end: {difference}", flush=True)
        return not self.found and not self.once


def is_good(target, seconds):
    """Changes inputs of a target for so many seconds; returns whether nothing differed."""
    fuzz, start = Fuzz(target), processor_seconds()
    count, good = fuzz.runs(seconds), fuzz.ends()
    told = f"{count} inputs, {len(fuzz.classes)} classes of answers, {fuzz.told()}"
    print(f"{target.name()}: {told}; {processor_seconds() - start:.0f} s of a processor in all", flush=True)
    return good


def is_good_at_worst(target, beside):
    """Tries the worst inputs of a target; returns whether nothing differed."""
    fuzz = Fuzz(target)
    fuzz.tries_worst()
    good = fuzz.ends()
    print(f"{target.name()} at worst{beside}: {fuzz.told()}", flush=True)
    return good


def processor_seconds():
    """The processor time of this script and of the processes that it waited for."""
    uses = [resource.getrusage(who) for who in (resource.RUSAGE_SELF, resource.RUSAGE_CHILDREN)]
    return sum(use.ru_utime + use.ru_stime for use in uses)


def main(path, folder, seconds=HOUR, *names):
    harness.SECONDS = PATIENCE
    program = harness.Program(path, folder)
    os.chdir(program.working_folder(KEYRING))
    chosen = [target for target in TARGETS if not names or target.name() in names]
    good = []
    if os.environ.get("WORST"):
        good += [is_good_at_worst(target(program), "") for target in chosen]
        beside = f", beside {MANY} permanodes"
        good += [is_good_at_worst(target(program, {1: pack_of_many()}), beside) for target in chosen]
    good += [is_good(target(program), float(seconds) / len(chosen)) for target in chosen]
    sys.exit(0 if all(good) else 1)


if __name__ == "__main__":
    main(*sys.argv[1:])
