"""Refuses requests for memory in runs over worlds in memory, and in inserts into an index, by the program of
crates/fault_rows; see memory.sh.

A run still succeeds, or it ends for want of memory, or with the fault of the object whose own memory was refused. Then
the second run succeeds over the state that it left. Or the first one succeeds, and this holds for the second one. If
the program was listing the state, one of the lists is missing. If it was refused memory for its arguments, its files or
its output, it prints nothing.

An insert succeeds, or is refused: the index then has as many blobs as before, and each answer is as before. With memory
again, it succeeds.
"""

import collections
import os
import re
import shutil
from typing import NamedTuple

import queries
import reference
import writing
from command_rows import DISK, DONE, KEYRING, MEMORY, PEER, READ, WRITE
from fault_rows import World, files_of, is_done, lines_of, words_of
from harness import check, compare, run_quickly
from inputs import CLAIM, DELETE, KEY, NODE, day
from query_inputs import holding, spell, with_content
from reference import pack_name, ref_of
from refusing import Page, refusing
from writing import claim, pack, permanode

MOST, SECONDS = 1_000_000, 1_000
BAD_WORDS = 2
FOLDER = object()
ENDS = [str(status) for status in (MEMORY, READ, WRITE, DISK, PEER)]


class Refused:
    """The program over worlds, with so many requests that are refused in each run, one after the other."""

    def __init__(self, program, count=1):
        self.program, self.count, self.page = program, count, Page(program, refusing(program))
        self.environment = {**os.environ, **self.page.variables()}

    def endings(self, what, files, words, source, ended):
        """Runs the command line over a world of these files, in which FOLDER is that of the world, until a run makes no
        request that is refused; returns how often `ended` gave each result for how the others ended."""
        endings, folder = collections.Counter(), self.program.new_path()
        folder.mkdir()
        for name, content in files.items():
            (folder / name).write_bytes(content)
        words = [str(folder) if word is FOLDER else word for word in words]
        for number in range(1, MOST):
            self.page.refuse(number, self.count)
            status, out, err = run_quickly(self.program, words, source, SECONDS, self.environment)
            if self.page.refused() == 0:
                break
            compare(f"{what}, request {number} refused", "standard error", b"", err)
            endings[ended(f"{what}, request {number} refused", status, out)] += 1
        shutil.rmtree(folder)
        return endings


class Worlds(Refused):
    """Command lines of the program."""

    def refused_in_turn(self, row):
        """Returns how many runs ended with which status; of two runs, that of the first one that didn't succeed."""
        words, world = ["fails", "disk", "0", "0", FOLDER, *words_of(row)], World(row)

        def ended(what, status, out):
            return self.ended(what, world, status, out)

        return self.endings(f"{row.what} in memory", files_of(row), words, row.source, ended)

    def ended(self, what, world, status, out):
        if status in (MEMORY, BAD_WORDS, READ):
            compare(what, "standard output", b"", out)
            return status
        compare(what, "how it ended", DONE, status)
        (line,) = lines_of(out)
        if line.first.end != str(DONE):
            is_left(what, world, line)
            return int(line.first.end)
        is_done(what, world, shown(what, world, line.first), 0)
        if line.again.end == str(DONE):
            is_done(f"{what}, again", world, shown(what, world, line.again), len(world.new))
            return DONE
        check(f"{what}, again: it ends with {line.again.end}", line.again.end in ENDS)
        compare(f"{what}, again", "what there is", world.held(len(world.new)), line.again.held)
        return int(line.again.end)


def is_left(what, world, line):
    """A run was refused memory: a prefix of what it puts is there, and the next run succeeds."""
    first = line.first
    check(f"{what}: it ends with {first.end}", first.end in ENDS)
    goes = world.row.writes_as_it_goes or first.end == str(WRITE)
    check(f"{what}: writes {first.out}", (world.out(0) if goes else b"").startswith(first.out))
    count = world.count(line)
    check(f"{what}: what there is", count is not None)
    is_done(f"{what}, again", world, line.again, count)


def shown(what, world, ending):
    """A run that succeeds as if its result was listed, of which one of the lists may be missing."""
    lists = world.lists(len(world.new))
    lacking = [ref_of(b"".join(lists[:place] + lists[place + 1 :])) for place in range(len(lists))]
    whole = world.held(len(world.new))
    check(f"{what}: what there is", ending.held in (whole, *lacking))
    return ending._replace(held=whole)


# Inserts

class Inserted(NamedTuple):
    """Blobs that are inserted one after the other."""

    what: str
    blobs: list


def inserted():
    first, second = permanode("1" * 32), permanode("2" * 32)
    file = writing.file_blobs("n.txt", [b"one part", b"two parts"])
    content, _ = holding({"file": ref_of(file[-1])})
    tags = [claim("add", ref_of(node), "tag", "a", day(number)) for number, node in enumerate((first, second), 1)]
    member = claim("add", ref_of(first), "camliMember", ref_of(second), day(2))
    # A table has a copy of a long value.
    title = claim("set", ref_of(second), "title", "a" * 100, day(3))
    blobs = [NODE, CLAIM, DELETE, first, second, *tags, member, title, *file, *content]
    yield Inserted("inserts", [KEY, *blobs])
    yield Inserted("inserts, the key and then the last one first", [KEY, *blobs[::-1]])
    yield Inserted("inserts, the last one first", [*blobs[::-1], KEY])


TAG, ALL_OF_THEM = {"permanode": {"attr": "tag", "value": "a"}}, {"anything": True}
ASKED = [{"constraint": TAG}, {"constraint": TAG, "at": day(1, "T12:00:00Z"), "sort": "-mod"}]
ASKED += [{"constraint": {"permanode": {"relation": {"relation": way, "any": ALL_OF_THEM}}}} for way in ("parent", "child")]
ASKED += [with_content({"file": {"fileSize": {"min": 1}}}), {"constraint": {"permanode": {"attr": "title"}}}]
TEXTS = [spell(one).encode() for one in ASKED]


class Inserts(Refused):
    """An index into which blobs are inserted."""

    def refused_in_turn(self, row):
        """Returns for how many runs everything is printed, and how many end for want of memory."""
        blobs, keys = list(row.blobs), reference.read_keyring(KEYRING)
        told = [answers({ref_of(blob): blob for blob in blobs[:count]}, keys) for count in range(len(blobs) + 1)]
        files = {pack_name(0): pack(*blobs), "keyring": KEYRING}

        def ended(what, status, out):
            check(f"{what}: it ends with {status}", status in (DONE, MEMORY, BAD_WORDS, READ))
            is_told(what, told, out, status == DONE)
            return status

        return self.endings(row.what, files, ["inserts", FOLDER], b"\n".join(TEXTS), ended)


def answers(blobs, keys):
    """How many blobs an index has, and its answers to each query."""
    archive = queries.Archive(blobs, keys)
    found = [queries.search_text(archive, queries.read_query(text)) for text in TEXTS]
    return b"%d\n%b\n" % (len(blobs), b"\n".join(found))


def is_told(what, told, out, is_whole):
    """The output for each insert, and at most once that one is refused; or a prefix of that."""
    tries = re.split(rb"(?m)^(?=inserted |refused )", out)[1:]
    places = [place for place, text in enumerate(tries) if text.startswith(b"refused ")]
    check(f"{what}: refused at {places}", len(places) <= 1)
    due = [b"inserted " + text for text in told[1:]]
    if places:
        due.insert(places[0], b"refused " + told[places[0]])
    due = b"".join(due)
    compare(what, "what is told", due if is_whole else due[: len(out)], out)
