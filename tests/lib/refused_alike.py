"""Refusals that commands over a store have in common: keyrings, folders and packs that can't be used, and a store that
is locked.

Each function takes the program, and a function that returns the lines over a folder, and returns checks.
"""

import contextlib
import fcntl
import os
import time

import inputs
from harness import check, compare, with_streams
from reference import pack_name
from stores import ABC, Store, look
from writing import change_text, pack

SECONDS_OF_WAITING = 10
# The content of standard input, a list of changes; no command may read it if it is refused before.
SOURCE = f"[{change_text('set', ABC, 'tag', 'a')}]".encode()


def refused_lines(store, what, lines, status):
    """Lines that end with a status and leave the folder unchanged."""
    return [
        lambda line=line: store.keeps(f"{what}: {line}", list(line), status=status, source=SOURCE) for line in lines
    ]


def bad_keyrings(program, lines_of):
    """A keyring that isn't valid, and one that can't be read."""
    checks = []
    bad = [text for _, text in inputs.bad_keyrings()]
    for text in bad[:2] + bad[-2:]:
        store = Store(program, {0: pack(b"abc")}, {"keyring": text})
        checks += refused_lines(store, "a bad keyring", lines_of(store.path), 4)
    folder = Store(program, {0: pack(b"abc")})
    (folder.path / "keyring").mkdir()
    return checks + refused_lines(folder, "a keyring that is a folder", lines_of(folder.path), 5)


def bad_packs(program, lines_of, others):
    """A pack that is a folder, or a pipe that nobody writes to."""
    checks = []
    for number in (0, 3):
        for make in (os.mkdir, os.mkfifo):
            store = Store(program, {1: pack(b"abc")}, others)
            make(store.path / pack_name(number))
            checks += refused_lines(store, f"pack {number} by {make.__name__}", lines_of(store.path), 7)
    return checks


def bad_folders(program, lines_of, status):
    """Paths that can't be a store, without a keyring: they end with a status, and nothing is made."""
    file, working = program.new_path(), program.working_folder(None)
    file.write_bytes(pack(b"abc"))
    return [
        lambda path=path, line=line: leaves(program, f"{line}", list(line), status, path, working)
        for path, folder in ((file, file), (working, ""))
        for line in lines_of(folder)
    ]


def leaves(program, what, line, status, path, working=None):
    """A line that ends with a status and leaves a path unchanged, or missing."""
    before = look(path)
    program.check(what, line, status=status, source=SOURCE, folder=working)
    compare(what, "what stands there", before, look(path))


@contextlib.contextmanager
def locked(path):
    """The folder is locked, as by another writer."""
    file = os.open(path, os.O_RDONLY)
    try:
        fcntl.flock(file, fcntl.LOCK_EX)
        yield
    finally:
        os.close(file)


def waits_too_long(program, line_of, others):
    """A writer that finds the folder locked ends after ten seconds, and has changed nothing."""
    store = Store(program, {0: pack(b"abc")}, others)
    what = f"a folder that stays locked: {line_of(store.path)[0]}"
    with locked(store.path):
        start = time.monotonic()
        store.keeps(what, line_of(store.path), status=7, source=SOURCE)
        seconds = time.monotonic() - start
    check(f"{what}: it waited {seconds:.1f} seconds", SECONDS_OF_WAITING - 1 <= seconds <= 2 * SECONDS_OF_WAITING)


def ends_first(program, cases):
    """Cases of which fault comes first: a line, its status, and streams."""
    for what, line, status, streams in cases:
        with_streams(program, what, line, status, folder=program.working, **streams)
