"""Runs `perkeep load`: its output for generated stores, and its refusals.

The expected output is the reference's, over the blobs that writing.py makes, except for a few values that are written
down here and that the reference has to return too.
"""

import os

import harness
import inputs
import reference
import writing
from harness import check, compare, with_streams
from reference import ref_of
from writing import keyring_line, pack

KEYRING = keyring_line(writing.LOAD, writing.LOAD_SECRET)
GREATEST_START = 2**64 - 1
STARTS = [0, 1, 7, 2**63, GREATEST_START]
NOTHING_FOUND = ref_of(reference.search_text([]))


def line(order, blobs, permanodes, answer):
    return f"{order} blobs {blobs} permanodes {permanodes} answer {answer}\n"


def both(blobs, permanodes, answer):
    return (line("forward", blobs, permanodes, answer) + line("backward", blobs, permanodes, answer)).encode()


def tells(program, what, count, start, keyring=KEYRING, words=None):
    """Runs a line; it has to print the reference's output for the same blobs."""
    out = reference.load_text(writing.load_blobs(count, start), keyring or b"")
    words = words or ["load", str(count), str(start)]
    program.check(f"{what}: {count} {start}", words, out, folder=program.working_folder(keyring))


# Groups

def pages(program):
    """The reference alone, against docs/formats/generated.md."""

    def words():
        compare("the first word of 0", "the reference", 0xE220A8397B1DCDAF, reference.word(0, 0))

    def blobs(start, digest):
        compare(f"41 blobs of {start}", "the reference", digest, ref_of(b"".join(writing.load_blobs(41, start))))

    def fronts():
        compare("40 of 41 blobs", "the reference", writing.load_blobs(41, 7)[:40], writing.load_blobs(40, 7))

    return [
        words,
        fronts,
        lambda: blobs(7, "sha224-24adf4a63aff388404cfaca0f002b66f4c13611e1cf184f4c8042b5c"),
        lambda: blobs(GREATEST_START, "sha224-c4351b36a129fd900a356cd36d43248a9ca6325a2bb885d8a4bb8b65"),
    ]


def counts(program):
    """Every small count, and some others."""
    cases = [(count, start) for count in range(1, 18) for start in (0, 7)]
    cases += [(count, start) for count in (41, 320) for start in STARTS] + [(1000, 7), (3999, 20201)]
    return [lambda case=case: tells(program, "load", *case) for case in cases]


def keyrings(program):
    """Only the key `load` with its own secret makes the permanodes genuine."""
    other = keyring_line("other", writing.LOAD_SECRET)
    checks = [
        lambda text=text: tells(program, f"the keyring {text}", 41, 7, text)
        for text in (None, b"", other, keyring_line(writing.LOAD, b"Load"), keyring_line(), other + KEYRING)
    ]

    def nothing():
        folder = program.working_folder(None)
        program.check("no keyring", ["load", "41", "7"], both(41, 0, NOTHING_FOUND), folder=folder)

    def bad(text):
        folder = program.working_folder(text)
        program.check("a bad keyring", ["load", "41", "7"], status=4, folder=folder)
        program.check("bad words, and a bad keyring", ["load", "41"], status=2, folder=folder)

    return [*checks, nothing] + [lambda text=text: bad(text) for _, text in inputs.bad_keyrings()]


GOOD_NUMBERS = [("0001", "0"), ("1", "0" * 100), ("0" * 40 + "17", "0007"), ("17", "000" + str(GREATEST_START))]
BAD_TEXTS = ["", "+1", "1 ", " 1", "1x", "0x1", "1.0", "1e3", "1_000", "1,000", "\u0661", "9" * 40]
BAD_COUNTS = ["0", "0" * 30, "100001", "0100001", "4294967297", "18446744073709551617", "-1"]
BAD_STARTS = ["18446744073709551616", "0018446744073709551616", "36893488147419103233", "-1"]


def numbers(program):
    """Leading zeros may come before a number. A text that isn't a number, or isn't within bounds, is status 4."""
    folder = program.working_folder(KEYRING)
    good = [
        lambda words=words: tells(program, "leading zeros", *map(int, words), words=["load", *words])
        for words in GOOD_NUMBERS
    ]
    lines = [(text, "7") for text in BAD_TEXTS + BAD_COUNTS] + [("17", text) for text in BAD_TEXTS + BAD_STARTS]
    lines += [("0", "x"), ("x", "-1")]
    return good + [
        lambda words=words: program.check(f"load {words}", ["load", "--", *words], status=4, folder=folder)
        for words in lines
    ]


GOOD_LINES = [["load", "--", "9", "7"], ["load", "9", "--", "7"], ["load", "9", "7", "--"]]
BAD_LINES = [
    ["load"],
    ["load", "9"],
    ["load", "--", "9"],
    ["load", "9", "7", "5"],
    ["load", "9", "-7"],
    ["load", "-9", "7"],
    ["load", "-", "7"],
    ["load", "9", "--", "7", "--"],
    ["load", "--count", "9", "--start", "7"],
    ["load", "9", "7", "--key", "load"],
    ["load", "9", "7", "--key=load"],
    ["Load", "9", "7"],
    ["--", "load", "9", "7"],
]


def words(program):
    folder = program.working_folder(KEYRING)
    return [lambda line=line: tells(program, f"{line}", 9, 7, words=line) for line in GOOD_LINES] + [
        lambda line=line: program.check(f"{line}", line, status=2, folder=folder) for line in BAD_LINES
    ]


def edges(program):
    """It reads no standard input and looks at no pack; the write of its lines may fail."""
    words = ["load", "9", "7"]
    folder = program.working_folder(KEYRING)

    def input_folder():
        with_streams(program, "standard input is a folder", words, 0, source=program.folder, folder=folder)

    def closed():
        with_streams(program, "standard input is closed", words, 0, closed=0, folder=folder)
        with_streams(program, "standard output is closed", words, 6, closed=1, folder=folder)

    def full():
        with_streams(program, "standard output is full", words, 6, sink="/dev/full", folder=folder)

    def bad_before_write():
        what = "a bad number, standard output is full"
        with_streams(program, what, ["load", "0", "7"], 4, sink="/dev/full", folder=folder)

    def packs():
        store = program.new_path()
        (store / "pack-00000.blobs").mkdir(parents=True)
        (store / "pack-00001.blobs").write_bytes(pack(*writing.load_blobs(2, 7)))
        (store / "keyring").write_bytes(KEYRING)
        stood = sorted(os.listdir(store))
        out = reference.load_text(writing.load_blobs(9, 7), KEYRING)
        program.check("packs in the working folder", words, out, folder=store)
        check("packs in the working folder: another file stands", stood == sorted(os.listdir(store)))

    return [input_folder, closed, full, bad_before_write, packs]


SECONDS_OF_THE_GREATEST = 100


def greatest(program):
    """The greatest count, whose answer is known."""
    answer = "sha224-449c1ab9dc84a1f460f767f231a9da020897c1f366272578630f4158"

    def load():
        out = both(100_000, 25_000, answer)
        folder = program.working_folder(KEYRING)
        line = ["load", "100000", "7"]
        program.check("the greatest count", line, out, folder=folder, seconds=SECONDS_OF_THE_GREATEST)

    return [load]


if __name__ == "__main__":
    harness.main("load.sh", [pages, counts, keyrings, numbers, words, edges], [greatest])
