"""Runs `rt ci` at the top of the repository, or watches a run, and prints the cost of each crate as a Markdown table.

    gate.py [LOG]
    gate.py --pid PID

Once a second the processes below the run are looked up in /proc. A process that rt starts for a crate is known by its
arguments and by its working folder; its time includes that of all processes that it starts. When it ends, its parent's
time of awaited children grows by all that it took, so that its work since the last look is counted too.
"""

import argparse
import collections
import os
import pathlib
import resource
import subprocess
import sys
import threading
import time
from typing import NamedTuple

TOP = pathlib.Path(__file__).resolve().parent.parent
SECONDS_BETWEEN = 1
TICKS_A_SECOND = os.sysconf("SC_CLK_TCK")
TICKS_A_MINUTE = 60 * TICKS_A_SECOND
KINDS = ("proof", "tests", "edits", "programs")


# Processes

class Process(NamedTuple):
    """A process as /proc has it. Times are in ticks of the clock."""

    pid: int
    start: int
    has_ended: bool
    parent: int
    own: int
    waited: int

    @property
    def key(self):
        """An identity that no other process ever has, even if its number is used again."""
        return self.pid, self.start


def process(pid):
    """The process of a number; None if there is none."""
    try:
        text = pathlib.Path(f"/proc/{pid}/stat").read_text(errors="replace")
    except OSError:
        return None
    fields = text.rpartition(")")[2].split()
    user, system, user_of_children, system_of_children = map(int, fields[11:15])
    own, waited = user + system, user_of_children + system_of_children
    return Process(pid, int(fields[19]), fields[0] == "Z", int(fields[1]), own, waited)


def processes():
    """All processes by their numbers. Children are mostly read before their parents, so that no process is missed in
    both."""
    pids = sorted((int(name) for name in os.listdir("/proc") if name.isdigit()), reverse=True)
    found = filter(None, map(process, pids))
    return {one.pid: one for one in found}


def words_of(pid):
    try:
        return pathlib.Path(f"/proc/{pid}/cmdline").read_bytes().decode(errors="replace").split("\0")[:-1]
    except OSError:
        return []


def folder_of(pid):
    try:
        return os.readlink(f"/proc/{pid}/cwd")
    except OSError:
        return ""


# The purpose of a process

def task_of(words, folder, top):
    """The crate and the kind of work by a process's arguments; None if they name no crate."""
    names = list(map(os.path.basename, words))
    for at, name in enumerate(names):
        if name == "rattle" and names[at + 1 : at + 2] in (["check"], ["build"]):
            return checked(words[at:], folder, top)
        if name == "rattle-link":
            return made(os.path.basename(behind(words, "-o")))
        if os.path.basename(os.path.dirname(words[at])) == "bin" and os.path.isdir(f"{top}/crates/{made(name)[0]}"):
            return made(name)
    return None


def checked(words, folder, top):
    """A crate is proved in its folder, and each edit of it on a copy elsewhere. With --crate-checked it is only
    compiled."""
    crate = behind(words, "--crate-name")
    if not crate:
        return None
    if folder != f"{top}/crates/{crate}":
        return crate, "edits"
    if "--test" in words:
        return crate, "tests"
    return crate, "programs" if "--crate-checked" in words else "proof"


def made(file):
    """The purpose of linking or running the file of a crate's program, or of its tests."""
    name = file.partition(".")[0]
    return (name.removesuffix("_tests"), "tests") if name.endswith("_tests") else (name, "programs")


def behind(words, option):
    """The argument after an option, or the empty one."""
    return words[words.index(option) + 1] if option in words[:-1] else ""


# The cost of a run

class Seen(NamedTuple):
    """A process for a crate at the last look: its parent, and the ticks of all below it."""

    parent: tuple
    ticks: int


class Watch:
    """The run of a process, and all that was seen of it."""

    def __init__(self, pid):
        self.pid = pid
        self.top = folder_of(pid)
        self.tasks = {}
        self.seen = {}
        self.waited = {}
        self.ended = collections.Counter()
        self.whole = 0
        self.seconds = 0

    def look(self):
        """Looks at the run once; returns whether it continues."""
        table = processes()
        if self.pid not in table:
            return False
        children = collections.defaultdict(list)
        for one in table.values():
            children[one.parent].append(one)
        seen, waited = {}, {}
        around = [table[self.pid]]
        while around:
            parent = around.pop()
            waited[parent.key] = parent.waited
            for child in children[parent.pid]:
                if self.task(child):
                    seen[child.key] = Seen(parent.key, ticks_below(child, children))
                else:
                    around.append(child)
        self.settle(seen, waited)
        self.whole = ticks_below(table[self.pid], children)
        self.seconds = uptime() - table[self.pid].start / TICKS_A_SECOND
        return not table[self.pid].has_ended

    def task(self, one):
        """The crate and kind of a process. One that shows nothing yet may do so after it has become another program."""
        if one.key not in self.tasks:
            task = task_of(words_of(one.pid), folder_of(one.pid), self.top)
            if task is None:
                return None
            self.tasks[one.key] = task
        return self.tasks[one.key]

    def settle(self, seen, waited):
        """Counts the processes that have ended since the last look, with their shares of the time that their parents
        have waited for since."""
        gone = collections.defaultdict(list)
        for key, last in self.seen.items():
            if key not in seen:
                gone[last.parent].append(key)
        for parent, keys in gone.items():
            gained = waited.get(parent, 0) - self.waited.get(parent, 0)
            more = max(gained - sum(self.seen[key].ticks for key in keys), 0)
            for key in keys:
                self.ended[self.tasks[key]] += self.seen[key].ticks + more / len(keys)
        self.seen, self.waited = seen, waited

    def costs(self):
        """Minutes of processor time by crate and kind."""
        ticks = collections.Counter(self.ended)
        for key, last in self.seen.items():
            ticks[self.tasks[key]] += last.ticks
        return {task: count / TICKS_A_MINUTE for task, count in ticks.items()}


def ticks_below(one, children):
    """The ticks of a process, of those below it, and of those that they have waited for."""
    return one.own + one.waited + sum(ticks_below(child, children) for child in children[one.pid])


def uptime():
    return float(pathlib.Path("/proc/uptime").read_text().split()[0])


# The table

def table(watch):
    costs = watch.costs()
    lines = {crate: lines_of(watch.top, crate) for crate, _ in costs}
    minutes = {crate: [costs.get((crate, kind), 0) for kind in KINDS] for crate in lines}
    sums = [sum(column) for column in zip(*minutes.values())] or [0] * len(KINDS)
    yield row("crate", "lines", *KINDS, "all", "all by proof")
    yield row("---", *["---:"] * (len(KINDS) + 3))
    for crate in sorted(minutes, key=lambda crate: -sum(minutes[crate])):
        yield crate_row(f"`{crate}`", lines[crate], minutes[crate])
    yield crate_row("all", sum(lines.values()), sums)
    whole = watch.whole / TICKS_A_MINUTE
    yield ""
    rest = max(whole - sum(sums), 0)
    yield f"{whole:.1f} processor minutes, {rest:.1f} of them rt's own or not seen; {watch.seconds / 60:.1f} minutes of wall."
    if any(lines.values()):
        yield f"{1_000 * whole / sum(lines.values()):.1f} processor minutes for 1,000 lines of src."


def crate_row(name, lines, minutes):
    by_proof = f"{sum(minutes) / minutes[0]:.1f}" if minutes[0] else ""
    return row(name, f"{lines:,}", *[f"{one:.1f}" if one else "" for one in minutes], f"{sum(minutes):.1f}", by_proof)


def row(*cells):
    return f"| {' | '.join(cells)} |"


def lines_of(top, crate):
    """How many lines the sources of a crate have."""
    return sum(file.read_bytes().count(b"\n") for file in pathlib.Path(top, "crates", crate, "src").rglob("*.rt"))


# Running

def watched(pid):
    """Watches a process until it has ended, or until the watching is interrupted."""
    watch = Watch(pid)
    try:
        while watch.look():
            time.sleep(SECONDS_BETWEEN)
    except KeyboardInterrupt:
        pass
    return watch


def copy(source, sinks):
    """Copies lines to all sinks. One that fails, such as a pipe that nobody reads, gets no more."""
    for line in source:
        for sink in list(sinks):
            try:
                sink.write(line)
                sink.flush()
            except OSError:
                sinks.remove(sink)


def run(log):
    """Runs the gate, whose output goes to standard output and to the log; returns its exit status."""
    sinks = [sys.stdout.buffer] + ([open(log, "wb")] if log else [])
    streams = {"stdin": subprocess.DEVNULL, "stdout": subprocess.PIPE, "stderr": subprocess.STDOUT}
    with subprocess.Popen(["rt", "ci"], cwd=TOP, **streams) as gate:
        copier = threading.Thread(target=copy, args=(gate.stdout, sinks))
        copier.start()
        watch = watched(gate.pid)
        copier.join()
    # The run is the only child that was waited for.
    used = resource.getrusage(resource.RUSAGE_CHILDREN)
    watch.whole = (used.ru_utime + used.ru_stime) * TICKS_A_SECOND
    copy((f"{line}\n".encode() for line in ["", *table(watch)]), sinks)
    return gate.returncode if gate.returncode >= 0 else 128 - gate.returncode


def main():
    parser = argparse.ArgumentParser()
    choice = parser.add_mutually_exclusive_group()
    choice.add_argument("log", nargs="?", help="a file that gets all that is printed, too")
    choice.add_argument("--pid", type=int, help="watches this process, which runs the gate, and starts none")
    given = parser.parse_args()
    if given.pid is None:
        return run(given.log)
    if process(given.pid) is None:
        parser.error(f"there is no process {given.pid}")
    print(*table(watched(given.pid)), sep="\n")
    return 0


if __name__ == "__main__":
    sys.exit(main())
