"""The calls to the kernel that the program makes, by strace: their order, and the results if one of them fails."""

import re
import shutil
import subprocess
from typing import NamedTuple, Optional

from harness import SECONDS, Difference, LeftOut, compare

OPENS, MAKES = ("openat", "open", "creat"), ("mkdir", "mkdirat")
READS, WRITES = ("read", "readv", "pread64", "preadv"), ("write", "writev", "pwrite64", "pwritev")
SYNCS, LOCKS, CUTS = ("fsync", "fdatasync"), ("flock",), ("ftruncate",)
LISTS, LOOKS = ("getdents64", "getdents"), ("fstat", "stat", "lstat", "newfstatat", "statx", "lseek")
TRACED = OPENS + MAKES + READS + WRITES + SYNCS + LOCKS + CUTS + LISTS + LOOKS + ("close", "getrandom")

LINE = re.compile(r"^(?:\d+ +)?([a-z0-9_]+)\((.*)$")
FILE = re.compile(r"(\d+)<([^>]*)>(?:, \"([^\"]+)\")?")
NAME = re.compile(r"(?:AT_FDCWD(?:<[^>]*>)?, )?\"([^\"]*)\"")
ERROR = re.compile(r"\) += -1 ([A-Z0-9]+)")


class Call(NamedTuple):
    """A call: its number among those of its name, the number of its file and the path, if any, its arguments, and its
    error, if it failed."""

    name: str
    number: int
    file: Optional[int]
    path: str
    words: str
    error: Optional[str]

    def is_injected(self):
        return self.words.endswith("(INJECTED)")


def need_strace(program):
    """LeftOut if nothing can be traced here."""
    if not shutil.which("strace"):
        raise LeftOut("strace isn't there")
    command = ["strace", "-o", str(program.new_path()), "true"]
    tried = subprocess.run(command, stdin=subprocess.DEVNULL, stderr=subprocess.DEVNULL)
    if tried.returncode != 0:
        raise LeftOut("strace can't trace here")


def trace(program, words, source=b"", faults=(), folder=None, variables=None, names=TRACED):
    """Runs the program, with calls that fail as strace's options say, and more variables in its environment; returns
    its status, output, errors and calls of these names in order."""
    log = program.new_path()
    program.starts[words[0]] += 1
    command = ["strace", "-f", "-y", "-s", "0", "-o", str(log), "-e", "trace=" + ",".join("?" + name for name in names)]
    command += [word for fault in faults for word in ("-e", f"inject={fault}")]
    command += [word for name, value in (variables or {}).items() for word in ("-E", f"{name}={value}")]
    streams = {"stdout": subprocess.PIPE, "stderr": subprocess.PIPE, "timeout": SECONDS}
    done = subprocess.run([*command, program.path, *words], cwd=folder or program.working, input=source, **streams)
    calls = calls_in(log.read_text(errors="replace"))
    log.unlink()
    return done.returncode, done.stdout, done.stderr, calls


def traced(program, what, words, source=b""):
    """The calls of a run that has to succeed."""
    status, _, _, calls = trace(program, words, source)
    compare(what, "exit status", 0, status)
    return calls


def calls_in(log):
    calls, numbers = [], {}
    for line in filter(None, map(LINE.match, log.splitlines())):
        name, words = line.groups()
        numbers[name] = numbers.get(name, 0) + 1
        file, path = FILE.match(words), NAME.match(words)
        where = (f"{file[2]}/{file[3]}" if file[3] else file[2]) if file else path[1] if path else ""
        error = ERROR.search(words)
        calls.append(Call(name, numbers[name], file and int(file[1]), where, words, error and error[1]))
    return calls


def places(calls, names, path=None, file=None):
    """The places in a list of calls of the successful ones by name, on a path or a file's number."""
    some = [(place, call) for place, call in enumerate(calls) if call.name in names and call.error is None]
    there = [(place, call) for place, call in some if path is None or call.path == str(path)]
    return [place for place, call in there if file in (None, call.file)]


def made_at(what, calls, names, path, flag=""):
    """The place at which a pack or a folder is made, which happens once."""
    found = [place for place in places(calls, names, path) if flag in calls[place].words]
    compare(what, f"times that {path} is made", 1, len(found))
    return found[0]


def in_order(what, side, first, between, last):
    if not any(first < place < last for place in between):
        raise Difference(f"{what}: {side} isn't where it must be: {between} between {first} and {last}")
