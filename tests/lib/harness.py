"""Shared by all scripts: starts the program, compares, and runs groups of checks and counts them.

The preamble of the scripts (preamble.bash) says by variables of the environment which program is run:

    PERKEEP  the program
    AGAIN    the text before a script's name that runs it with the same program
    SEED     the number from which all random choices follow
    KEEP     if it isn't empty, the folder in which a script works is kept, and its path is printed
"""

import collections
import concurrent.futures
import ctypes
import hashlib
import itertools
import mmap
import os
import pathlib
import random
import resource
import select
import shutil
import signal
import subprocess
import sys
import tempfile
import threading
import traceback
from typing import NamedTuple

SEED = int(os.environ.get("SEED") or 20201)
AT_ONCE = 4
ALL_AT_ONCE = 32
SECONDS = 100
# A group in which so many checks failed is given up.
FAILURES_OF_A_GROUP = 3
# The words of docs/commands.md ("Exit statuses") that these tests meet.
WORDS = {1: b"memory", 2: b"words", 3: b"absent", 4: b"input", 5: b"read", 6: b"write", 7: b"disk", 8: b"peer"}
WORDS |= {9: b"full", 10: b"damaged", 11: b"reply", 12: b"hand", 14: b"listener"}


class Difference(Exception):
    """What differs, and both sides."""


def compare(what, side, expected, got):
    if expected != got:
        raise Difference(f"{what}: {side}\n  expected {short(expected)}\n  got      {short(got)}")


def compare_ending(what, status, is_status, err):
    compare(what, "exit status", status, is_status)
    compare(what, "standard error", told_of(status), err)


def told_of(status):
    """The program's standard error for a status."""
    return b"" if status == 0 else b"perkeep: " + WORDS[status] + b"\n"


def check(what, is_so):
    if not is_so:
        raise Difference(what)


def short(value):
    written = repr(value)
    return written if len(written) <= 400 else f"{written[:200]} .. {written[-150:]} ({len(value)} long)"


def chance(*what):
    """The random choices of a check; the same for the same words and seed."""
    return random.Random(f"{SEED} {what}")


# Running the program

class Program:
    """The program, and the folder of all its inputs."""

    def __init__(self, path, folder):
        self.path = path
        self.folder = pathlib.Path(folder).resolve()
        self.numbers = itertools.count()
        self.starts = collections.Counter()
        # The usual working folder has no keyring that can be read: a store has its own.
        self.working = self.working_folder(b"no keyring of a store")

    def new_path(self):
        """A path at which there is nothing yet."""
        return self.folder / f"path-{next(self.numbers)}"

    def working_folder(self, keyring):
        """A working folder that has the keyring, or none."""
        name = "none" if keyring is None else hashlib.sha256(keyring).hexdigest()
        folder = self.folder / name
        folder.mkdir(exist_ok=True)
        if keyring is not None and not (folder / "keyring").exists():
            # Other runs may look for the file at the same time; therefore it appears whole.
            with tempfile.NamedTemporaryFile(dir=self.folder, delete=False) as file:
                file.write(keyring)
            os.replace(file.name, folder / "keyring")
        return folder

    def start(self, words, folder=None, front=(), **streams):
        """Starts the program; if there are words in front, by another program that it replaces."""
        self.starts[words[0] if words else ""] += 1
        line = [*front, self.path, *words]
        return subprocess.Popen(line, cwd=folder or self.working, stderr=subprocess.PIPE, **streams)

    def run(self, what, words, source=b"", folder=None, seconds=SECONDS, **streams):
        """Runs the program to its end; returns its status, output and errors."""
        process = self.start(words, folder, stdin=subprocess.PIPE, stdout=subprocess.PIPE, **streams)
        out, err = finish(what, process, source, seconds)
        return process.returncode, out, err

    def check(self, what, words, out=b"", status=0, source=b"", folder=None, seconds=SECONDS):
        """Runs the program to its end, which has to be as given."""
        is_status, is_out, err = self.run(what, words, source, folder, seconds)
        compare_ending(what, status, is_status, err)
        compare(what, "standard output", out, is_out)


def finish(what, process, source=None, seconds=SECONDS):
    """The output and the errors of a process."""
    try:
        return process.communicate(source, timeout=seconds)
    except subprocess.TimeoutExpired:
        process.kill()
        process.communicate()
        raise Difference(f"{what}: no end after {seconds} seconds") from None


def with_streams(program, what, line, status, source=os.devnull, sink=os.devnull, closed=None, folder=None):
    """Runs the program with streams that are paths, or open files, or one of them closed; it has to end with the
    status."""
    source = os.open(source, os.O_RDONLY) if not isinstance(source, int) else os.dup(source)
    sink = os.open(sink, os.O_WRONLY) if not isinstance(sink, int) else os.dup(sink)
    try:
        process = program.start(line, folder, () if closed is None else without(closed), stdin=source, stdout=sink)
    finally:
        os.close(source)
        os.close(sink)
    _, err = finish(what, process)
    compare_ending(what, status, process.returncode, err)


def with_broken_source(program, what, line, front, **streams):
    """Runs the program with a standard input that gives some bytes, and whose next read fails; it has to end with
    status 5.

    The input is memory of this process, in front of a page whose part of a file is gone.
    """
    room = -(-len(front) // mmap.PAGESIZE) * mmap.PAGESIZE
    with tempfile.TemporaryFile() as file, open("/proc/self/mem", "rb", buffering=0) as memory:
        file.truncate(room + mmap.PAGESIZE)
        pages = mmap.mmap(file.fileno(), 0)
        pages[room - len(front) : room] = front
        file.truncate(room)
        memory.seek(ctypes.addressof(ctypes.c_char.from_buffer(pages)) + room - len(front))
        with_streams(program, what, line, 5, source=memory.fileno(), **streams)


def run_quickly(program, words, source, seconds=SECONDS, environment=os.environ):
    """As `Program.run`, in the folder of this process, in an environment, and with files in memory as streams. This
    takes little time of the script's own."""
    return run_measured(program, words, source, seconds, environment)[0]


def run_measured(program, words, source, seconds=SECONDS, environment=os.environ, work=None):
    """As `run_quickly`, and also the cost of the run. If `work` is given, SIGXCPU ends a run that takes so many seconds
    of a processor."""
    program.starts[words[0]] += 1
    files = [os.memfd_create("stream") for _ in range(3)]
    try:
        os.pwrite(files[0], source, 0)
        actions = [(os.POSIX_SPAWN_DUP2, file, stream) for stream, file in enumerate(files)]
        signals = [signal.SIGPIPE, signal.SIGXFSZ]
        line = [program.path, *words]
        child = os.posix_spawn(program.path, line, environment, file_actions=actions, setsigdef=signals)
        if work is not None:
            resource.prlimit(child, resource.RLIMIT_CPU, (work, resource.RLIM_INFINITY))
        in_time = ends_within(child, seconds)
        _, ending, usage = os.wait4(child, 0)
        if not in_time:
            raise Difference(f"{words}: no end after {seconds} seconds")
        out, err = (os.pread(file, os.fstat(file).st_size, 0) for file in files[1:])
        taken = Taken(usage.ru_utime + usage.ru_stime, usage.ru_maxrss / 1_024)
        return (os.waitstatus_to_exitcode(ending), out, err), taken
    finally:
        for file in files:
            os.close(file)


class Taken(NamedTuple):
    """The cost of a run: seconds of a processor, and at most so many MiB of memory. If this process has more memory,
    the system reports that."""

    seconds: float
    mib: float


def ends_within(child, seconds):
    """Waits until a process ends, and kills it if that takes too long; returns whether it ended."""
    handle = os.pidfd_open(child)
    try:
        poll = select.poll()
        poll.register(handle, select.POLLIN)
        ended = bool(poll.poll(seconds * 1_000))
        if not ended:
            os.kill(child, 9)
        return ended
    finally:
        os.close(handle)


# Words before a program's own, if it is to start under some condition. (No Python code runs between a fork and the
# program: that may hang if there are threads.)

def limited_to(mib):
    """So many MiB of memory."""
    return ("prlimit", f"--as={mib << 20}")


def without(stream):
    """A standard stream, by its number, that is closed."""
    return ("sh", "-c", f'exec "$@" {stream}>&-', "sh")


# Running groups

class Run:
    """One run of a script: counts its checks, and prints failures and how to run them again."""

    def __init__(self, script):
        self.script = script
        self.passed = 0
        self.failed = 0
        self.left_out = []
        self.lock = threading.Lock()

    def fails(self, group, why):
        with self.lock:
            self.failed += 1
            again = f"{os.environ.get('AGAIN', '')}SEED={SEED} tests/{self.script} {group}"
            print(f"FAILED {self.script} {group}: {why}\n  again: {again}", flush=True)

    def passes(self, count):
        with self.lock:
            self.passed += count

    def try_one(self, group, check):
        """Runs a check; returns whether it passed."""
        try:
            check()
        except Difference as difference:
            self.fails(group, difference)
            return False
        except Exception:
            self.fails(group, traceback.format_exc())
            return False
        self.passes(1)
        return True

    def run_group(self, group, checks_of, at_once):
        """Runs the checks of a group, so many at once, and prints their number."""
        name = group.__name__
        try:
            checks = checks_of(group)
        except LeftOut as why:
            self.left_out.append(f"{self.script} {name}: {why}")
            return
        except Exception:
            self.fails(name, traceback.format_exc())
            return
        failures = []

        def try_one(check):
            if len(failures) < FAILURES_OF_A_GROUP and not self.try_one(name, check):
                failures.append(check)

        with concurrent.futures.ThreadPoolExecutor(at_once) as pool:
            list(pool.map(try_one, checks))
        ending = "" if not failures else f", {len(failures)} failed"
        ending += ", the rest was given up" if len(failures) >= FAILURES_OF_A_GROUP else ""
        print(f"{name}: {len(checks)} checks{ending}", flush=True)


class LeftOut(Exception):
    """Why a group can't be run here."""


def main(script, groups, one_at_a_time=(), checks_of=None, end=None, beside=()):
    """Runs the groups named by the command line, or all if there are none, and ends.

    A group is a function of the program that returns its checks, which are functions without arguments; or `checks_of`
    makes them from the program and a group. Those of `one_at_a_time` run one after another, those of `groups` some at
    once, and those of `beside` all at once, while the other groups run. `end` gets the program.
    """
    names = sys.argv[1:]
    known = [group.__name__ for group in [*groups, *one_at_a_time, *beside]]
    unknown = [name for name in names if name not in known]
    if unknown:
        print(f"{script} has no group {unknown[0]}; it has {', '.join(known)}\n0 passed, 1 failed")
        sys.exit(1)
    checks_of = checks_of or (lambda program, group: group(program))
    run = Run(script)
    scratch = tempfile.mkdtemp(prefix="perkeep-")
    try:
        program = Program(os.environ["PERKEEP"], scratch)

        def run_all(some, at_once):
            for group in some:
                if not names or group.__name__ in names:
                    run.run_group(group, lambda group: checks_of(program, group), at_once)

        with concurrent.futures.ThreadPoolExecutor(1) as pool:
            waiting = pool.submit(run_all, beside, ALL_AT_ONCE)
            run_all(groups, AT_ONCE)
            run_all(one_at_a_time, 1)
            waiting.result()
        if end is not None:
            end(program)
    finally:
        if os.environ.get("KEEP"):
            print(f"kept: {scratch}")
        else:
            shutil.rmtree(scratch, ignore_errors=True)
    for why in run.left_out:
        print(f"left out: {why}")
    print(f"{run.passed} passed, {run.failed} failed", flush=True)
    sys.exit(1 if run.failed else 0)
