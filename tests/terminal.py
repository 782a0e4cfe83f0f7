"""What a person is told at a terminal (docs/commands.md, "On a terminal"), by a terminal of the system's for standard
error. For each hint the status and the word without a terminal are compared too; what else is told there all other
scripts compare.
"""

import contextlib
import copy
import os
import pty
import pathlib
import re
import socket
import subprocess
import tempfile
import termios
import time

import harness
import reference
import tracing
from harness import check, compare, compare_ending
from inputs import ABSENT, EXAMPLE_BLOBS, KEYRING, OTHER_SECRET
from peers import FalsePeer, plainly, sends
from reference import pack_name, ref_of
from serving import HOST, PORTS, is_listened_to
from stores import NOTHING_FOUND, Store
from writers import Locked
from writing import file_blob, keyring_line, pack, part

# So many seconds each read of a pack is held up, and so many packs there are.
HELD_UP, PACKS = 1.2, 6
# docs/formats/keyring.md
LONGEST_KEYRING = 1_048_576
# What stands in front of a passing line, and clears it.
PASSING = "\r\x1b[K"
# The number of a user who has nothing.
OTHER = 65_534
PAGE = pathlib.Path(__file__).resolve().parent.parent / "docs" / "commands.md"


class Terminal:
    """A terminal, as standard error of programs."""

    def __init__(self):
        self.ours, self.theirs = pty.openpty()
        modes = termios.tcgetattr(self.theirs)
        # A line feed is written as it is.
        modes[1] &= ~termios.OPOST
        termios.tcsetattr(self.theirs, termios.TCSANOW, modes)

    def start(self, program, words, front=(), **others):
        """Starts the program at the terminal; its output is to be read, unless it goes elsewhere."""
        streams = {"stdin": subprocess.DEVNULL, "stdout": subprocess.PIPE, "stderr": self.theirs, **others}
        process = subprocess.Popen([*front, program.path, *words], cwd=program.working, **streams)
        os.close(self.theirs)
        return process

    def read(self):
        """What has been told and wasn't read so far; nothing where all programs have closed it."""
        try:
            return os.read(self.ours, 65_536)
        except OSError:
            return b""

    def read_all(self):
        return b"".join(iter(self.read, b""))


def told(program, words, front=(), source=b""):
    """The status, the output, and what is told at a terminal."""
    with tempfile.TemporaryFile() as stdin:
        stdin.write(source)
        stdin.seek(0)
        return told_with(program, words, front, stdin=stdin)


def told_with(program, words, front=(), **streams):
    """The same with such streams; None as the output where that goes elsewhere."""
    terminal = Terminal()
    with terminal.start(program, words, front, **streams) as process:
        text = terminal.read_all()
        out = process.stdout.read() if process.stdout else None
    return process.returncode, out, text


QUOTED = "'tag:a title:\"on the way\"'"
QUOTES = f"TEXT is one argument: put single quotes around it, as {QUOTED}, and -- before it if it begins with a dash"
NO_LINE = (
    f"input (from the mark on TEXT can't be read as search words; it is typed with both kinds of quotes, as {QUOTED})"
)
DIGITS = "0123456789" * 6
MIDDLE, LATE, EARLY = f"tag:{DIGITS}({DIGITS}", f"(tag:{DIGITS}{DIGITS}", f"tga:{DIGITS}{DIGITS}"
ENDS = "input (something is missing at the end of TEXT: a search word, a value, a quote or a ))"
NO_WORD = (
    "input (the word at the mark isn't a search word; those are tag:, title:, attr:NAME:, has:, ref: and childrenof:, "
    "as in title:Letters)"
)
SMALL = "input (or is written in lower case; a space alone means and, and - before a search word means not)"
# Lines of search words that aren't, the hint, what is shown of them, and the place in that at which they go wrong.
MARKED = [
    ((), "tag:a or or", NO_LINE, "tag:a or or", 9),
    # What a shell leaves of title:"on the way".
    ((), "title:on the way", NO_LINE, "title:on the way", 10),
    ((), "", "input (TEXT is empty: give it a search word, as tag:letters)", "", 0),
    ((), "  ", ENDS, "  ", 2),
    ((), "tag:a or", ENDS, "tag:a or", 8),
    ((), "(tag:a", ENDS, "(tag:a", 6),
    ((), 'title:"on', ENDS, 'title:"on', 9),
    ((), "tag:a OR tag:b", SMALL, "tag:a OR tag:b", 6),
    ((), "NOT tag:a", SMALL, "NOT tag:a", 0),
    ((), "tag:a and tag:b", SMALL, "tag:a and tag:b", 7),
    # The joining word isn't what is wrong here.
    ((), 'title:"a OR b" tga:c', NO_LINE, 'title:"a OR b" tga:c', 16),
    ((), "Letters of 1998", NO_WORD, "Letters of 1998", 0),
    ((), "tag:é(", NO_LINE, "tag:é(", 5),
    (("--",), "- tag:a", NO_WORD, "- tag:a", 1),
    ((), "tag:\t\x1b:", NO_LINE, "tag:\\u{9}\\u{1b}:", 15),
    ((), MIDDLE, NO_LINE, MIDDLE[64 - 30 : 64 + 30], 30),
    ((), LATE, ENDS, LATE[-60:], 60),
    ((), EARLY, NO_WORD, EARLY[:60], 1),
]


NO_KEY = "each of its lines begins with a key's name"
KEY_MISSING = "--key NAME is missing: the name of the key in DIR/keyring to sign with"


A_DATE = "a date has a time and a zone, as 2026-12-01T09:00:00Z"


def no_date(text):
    form = "a date has a time and a zone, as 2026-12-01T09:00:00Z, or with +01:00 for Z"
    return f'input ("{text}" isn\'t a date: {form})'


def marked_text(row):
    """The options and the text of a row, and what is told of it."""
    front, text, hint, shown, place = row
    return front, text, f"{hint}\n{shown}\n{' ' * place}^"


def no_keyring(folder, key):
    made = f"(umask 077; printf '{key} %s\\n' \"$(openssl rand -hex 32)\" > '{folder}/keyring')"
    copied = "copy the archive's, since notes are found only with the key that signed them"
    return f"input ({folder}/keyring doesn't exist: {copied}; only for a new archive make one, with {made})"


def no_blob(folder, ref=ABSENT):
    return f"absent (the store has no blob {ref}; perkeep salvage {folder} says whether a pack is damaged)"


def no_ref(text):
    form = "sha224- and 56 digits, 0 to 9 and a to f, as perkeep list prints them"
    return f'input ("{text}" isn\'t a blobref: {form})'


def no_file(blob):
    hint = "a note's file is its camliContent, and examples/get_tree.py restores a folder"
    return f"input ({ref_of(blob)} isn't a file: {hint})"


def no_limit(text):
    return f'input (--limit takes a number from 1 to 4,194,304, not "{text}")'


def no_key_name(text):
    return f'input ("{text}" can\'t be a key\'s name: that is 1 to 64 characters, each a to z, 0 to 9 or -)'


A_CHANGE = '{"changeType":"add-attribute","permaNode":"REF","attribute":"tag","value":"letters"}'
NO_CHANGES = f"input (standard input isn't a list of changes, as [{A_CHANGE}] is)"
DASHED = "put -- before an argument that begins with a dash"
BLOB_IS_READ = "the blob is read from standard input"
LOAD = "input (COUNT takes a number from 1 to 100,000, and START one from 0 to 2^64 - 1)"


def hints(program):
    """Each word, with what stands behind it."""
    store = Store(program, {0: pack(b"abc", b"{")}, {"keyring": KEYRING})
    keyed, bare = Store(program, {}, {"keyring": KEYRING}), Store(program, {})
    folder, nowhere = str(store.path), str(program.new_path())
    rows = [
        (["get", folder, ABSENT], 3, no_blob(folder)),
        (["get", folder, "abc"], 4, no_ref("abc")),
        (["list", "--after=x", folder], 4, no_ref("x")),
        (["claim", "--key=me", folder, "del", "sha224-0", "tag"], 4, no_ref("sha224-0")),
        (["search", folder, "--attr=a", "--value=b", "--at=x"], 4, no_date("x")),
        (["words", folder, "--at", "2026-12-01T09:00:00", "tag:a"], 4, no_date("2026-12-01T09:00:00")),
        (["list", folder, "--limit=x"], 4, no_limit("x")),
        (["list", folder, "--limit", "0"], 4, no_limit("0")),
        (["search", folder, "--attr=", "--value=b"], 4, "input (the name of an attribute is empty)"),
        (["words", folder, "tag:a", "--at=x"], 4, no_date("x")),
        (["words", folder, "tag:a", "tag:b"], 2, f"words ({QUOTES})"),
        (["words", folder, "tag:a", "or", "tag:b", "--at", "2025-06-01"], 2, f"words ({QUOTES})"),
        (["words", folder, "tag:a", "-tag:b"], 2, f"words ({QUOTES})"),
        (["words", folder, "-tag:a"], 2, f"words ({QUOTES})"),
        (["words", folder], 2, f"words (an argument is missing: {LINES['words']})"),
        (["words", folder, "tag:a", "--at"], 2, f"words ({needs_value('words', 'at')})"),
        (["words", folder, "tag:" + "a" * 1_021], 4, "input (TEXT is longer than 1,024 bytes)"),
        (["words", folder, " ".join(["tag:a"] * 33)], 4, "input (TEXT nests constraints more than 32 deep)"),
        *((["words", *front, folder, text], 4, marked) for front, text, marked in map(marked_text, MARKED)),
        (["permanode", folder, "--key=a b"], 4, no_key_name("a b")),
        (["permanode", folder, "--key", ""], 4, no_key_name("")),
        (["get-file", folder, ref_of(b"abc")], 4, no_file(b"abc")),
        (["permanode", str(bare.path), "--key=me"], 4, no_keyring(bare.path, "me")),
        (["permanode", nowhere, "--key=me"], 4, f"input ({nowhere} doesn't exist: is its name mistyped?)"),
        (["permanode", "", "--key=me"], 4, "input (DIR is an empty string)"),
        (["permanode", str(keyed.path), "--key=you"], 4, f"input ({keyed.path}/keyring has no key you: {NO_KEY})"),
        (["multi", str(keyed.path), "--key=jefe"], 4, NO_CHANGES),
        (["words", folder, "tag:a", "--limit", "5"], 2, f'words ("--limit" isn\'t expected: {LINES["words"]})'),
        (["words", folder, "tag:a", "-at", "x"], 2, f'words ("-at" isn\'t expected; {DASHED}: {LINES["words"]})'),
    ]
    checks = [lambda row=row: is_told(program, *row) for row in rows]
    checks += [lambda check=check: check(program) for check in (misfits, numbers, keyrings, queries, damaged_chunk)]
    checks.append(lambda: load_numbers(program))
    others = (folders, held, unread, unwritten, keyless, unfound, done)
    return checks + [lambda check=check: check(program) for check in others]


def is_told(program, words, status, text, before="", source=b""):
    """The hint at a terminal, behind other lines; and without one the status and its word alone."""
    expected = status, b"", f"{before}perkeep: {text}\n".encode()
    compare(words, "status, output and what is told", expected, told(program, words, source=source))
    is_plain(program, words, status, source)


def is_plain(program, words, status, source=b""):
    what = f"{words}, without a terminal"
    is_status, out, err = program.run(what, words, source)
    compare_ending(what, status, is_status, err)
    compare(what, "standard output", b"", out)


def lines_of_commands():
    """The line of each command, by docs/commands.md, as a hint shows it."""
    table = PAGE.read_text().partition("\nDIR is the folder")[0]
    rows = re.findall(r"^\| `([a-z-]+)([^`]*)` \| ([^|]*) \|", table, re.MULTILINE)
    found = {name: f"{name}{rest}{' < FILE' if 'standard input' in does else ''}" for name, rest, does in rows}
    found["claim"] += ", where KIND is set, add or del"
    return found


LINES = lines_of_commands()


def needs_value(command, option):
    return f"--{option} needs a value, after = if the value begins with a dash: {LINES[command]}"


def misfits(program):
    """Which of the words is to blame."""
    *names, last = LINES
    those = f"the commands are {', '.join(names)} and {last}; see man perkeep"
    several = "isn't expected; put quotes around a value of several words"
    no_words = "isn't expected; the query is read from standard input, with its date as \"at\""
    no_words += "; for search words use perkeep words"
    kept = "isn't expected; > FILE keeps the output"
    kinds = "isn't expected; KIND is set, add or del"
    rows = [
        ([], f"no command is given, or an argument isn't UTF-8; {those}"),
        (["puts", "d"], f'"puts" isn\'t a command; {those}'),
        (["--help"], f'"--help" isn\'t a command; {those}'),
        (["put", "d", "letter.txt"], f'"letter.txt" isn\'t expected; {BLOB_IS_READ}: {LINES["put"]}'),
        (["get", "d", ABSENT, "more"], f'"more" {kept}: {LINES["get"]}'),
        (["get-file", "d", ABSENT, "letter.txt"], f'"letter.txt" {kept}: {LINES["get-file"]}'),
        (["put-file", "d", "-letter"], f'"-letter" isn\'t expected; {DASHED}: {LINES["put-file"]}'),
        (["stat", "d", ABSENT, "more"], f'"more" isn\'t expected: {LINES["stat"]}'),
        (["list", "d", "--first", "1"], f'"--first" isn\'t expected: {LINES["list"]}'),
        (["list", "d", "--limit"], needs_value("list", "limit")),
        (["list", "d", "--limit", "-5"], needs_value("list", "limit")),
        (["list", "d", "--limit=5", "--limit", "6"], f"--limit is given more than once: {LINES['list']}"),
        (["search", "d"], f"--attr is missing: {LINES['search']}"),
        (["search", "d", "--attr=a"], f"--value is missing: {LINES['search']}"),
        (["search", "--attr=a", "--value=a"], f"an argument is missing: {LINES['search']}"),
        (["search", "d", *"--attr title --value Letters of 1998".split()], f'"of" {several}: {LINES["search"]}'),
        (["put-file", "d", "my", "letter"], f'"letter" {several}: {LINES["put-file"]}'),
        (["claim", "d", "sett", ABSENT, "tag", "a", "--key=me"], f'"sett" {kinds}: {LINES["claim"]}'),
        (["claim", "d", "set", ABSENT, "tag", "a", "b", "--key=me"], f'"b" {several}: {LINES["claim"]}'),
        (["query", "d", "{}"], f'"{{}}" {no_words}: {LINES["query"]}'),
        (["query", "d", "--at", "2025-06-01T00:00:00Z"], f'"--at" {no_words}: {LINES["query"]}'),
        (["permanode", "d", "--key"], needs_value("permanode", "key")),
        (["serve", "d"], f"--port is missing: {LINES['serve']}"),
        (["serve", "d", "--port"], needs_value("serve", "port")),
        (["serve", "d", "e", "--port=1"], f"an argument is missing, unexpected or wrong: {LINES['serve']}"),
        (["serve-shares", "d"], f"--port is missing: {LINES['serve-shares']}"),
        (["mirror", "d"], f"an argument is missing, unexpected or wrong: {LINES['mirror']}"),
        (["list", b"\xff"], f"no command is given, or an argument isn't UTF-8; {those}"),
    ]
    short = {name: line for name, line in LINES.items() if "--" not in line and name != "mirror"}
    rows += [([name], f"an argument is missing: {line}") for name, line in short.items()]
    for words, text in rows:
        is_told(program, words, 2, f"words ({text})")
    for words in ("permanode d", f"claim d set {ABSENT} tag a", f"delete d {ABSENT}", "multi d"):
        is_told(program, words.split(), 2, f"words ({KEY_MISSING})")


def numbers(program):
    """Which number of a server is out of its range."""
    for command, words, option, most, value in [
        ("serve", ["--port", "80000"], "port", 65_535, "80000"),
        ("serve", ["--port=0"], "port", 65_535, "0"),
        ("serve", ["--port=1", "--workers=65"], "workers", 64, "65"),
        ("serve", ["--indexers", "x", "--port=1"], "indexers", 64, "x"),
        ("serve-shares", ["--port", "-1"], "port", 65_535, "-1"),
        ("serve-shares", ["--port=1", "--connections="], "connections", 2**64 - 1, ""),
    ]:
        text = f'--{option} takes a number from 1 to {most}, not "{value}"'
        is_told(program, [command, "d", *words], 2, f"words ({text})")


def load_numbers(program):
    """`load` names no folder, so the keyring is looked for in the working folder: here is none."""
    other = copy.copy(program)
    other.working = program.working_folder(None)
    is_told(other, ["load", "0", "0"], 4, LOAD)


def keyrings(program):
    """Which line of the keyring is to blame."""
    no_key = "isn't a name, a space, hexadecimal digits and a line feed, which the last line needs too"
    for content, line, text in [
        (b"me abc\n", 1, no_key),
        (b"me 00\nyou 00", 2, no_key),
        (b"me 00\nyou\n", 2, no_key),
        (b"me 00\nyou 00\nme 01\n", 3, "has the name of an earlier line"),
    ]:
        store = Store(program, {0: pack(b"abc")}, {"keyring": content})
        is_told(program, store.words("list"), 4, f"input (line {line} of {store.path}/keyring {text})")
    store = Store(program, {0: pack(b"abc")}, {"keyring": bytes(LONGEST_KEYRING + 1)})
    is_told(program, store.words("list"), 4, f"input ({store.path}/keyring is longer than 1,048,576 bytes)")


def queries(program):
    """The kind and the place of a fault, by the table of docs/formats/queries.md."""
    store = Store(program, {0: pack(b"abc")}, {"keyring": KEYRING})
    for query, fault in [
        ("", "NotJson"),
        ('{"constraint":{"anything":true},"limit":0}', 'BadValue at "limit"'),
        ('{"limit":5}', 'BadValue at ""'),
        ('{"constraint":{"logical":{"op":"not","a":{"x":1},"b":2}}}', 'BadKey at "constraint/logical/a/x"'),
        ('{"constraint":{"anything":true},"at":"2025-06-01"}', f'BadValue at "at": {A_DATE}'),
        ('{"constraint":{"permanode":{"at":"x"}}}', f'BadValue at "constraint/permanode/at": {A_DATE}'),
    ]:
        text = f"input (standard input isn't a query: {fault})"
        is_told(program, store.words("query"), 4, text, source=query.encode())


def damaged_chunk(program):
    """A file of which a chunk isn't whole: its ref is named."""
    chunk = b"a chunk of a file"
    file = file_blob("n", [part(len(chunk), ref_of(chunk))])
    store = Store(program, {0: pack(chunk, file).replace(chunk, b"b" + chunk[1:])})
    needed = f"the file needs {ref_of(chunk)}, which the store lacks"
    text = f"absent ({needed}: see perkeep salvage {store.path}, and your backup)"
    is_told(program, store.words("get-file", ref_of(file)), 3, text)


def folders(program):
    """A folder that isn't there reads as an empty store, or is made; a file isn't a folder."""
    nowhere, made, file = (str(program.new_path()) for _ in range(3))
    empty = f"perkeep: {nowhere} doesn't exist, and reads as an empty store\n"
    is_told(program, ["get", nowhere, ABSENT], 3, no_blob(nowhere), empty)
    got = told(program, ["list", nowhere])
    compare("a list of nothing", "status, output and what is told", (0, b"", empty.encode()), got)
    is_made = f"perkeep: {made} didn't exist, and was made\n".encode()
    ref = f"{ref_of(b'abc')}\n".encode()
    compare("a put", "status, output and what is told", (0, ref, is_made), told(program, ["put", made], source=b"abc"))
    compare("another", "status, output and what is told", (0, ref, b""), told(program, ["put", made], source=b"abc"))
    with open(file, "wb"):
        pass
    is_told(program, ["list", file], 7, f"disk ({file} isn't a folder)")
    within = f"{program.new_path()}/store"
    is_told(program, ["put", within], 7, f"disk ({within}, or the folder that it should be in, doesn't exist)")
    is_told(program, ["list", ""], 7, "disk (DIR is an empty string)")


def held(program):
    """A lock is waited for."""
    store = Store(program, {0: pack(b"abc")}, {"keyring": KEYRING})
    words = store.words("delete", ref_of(b"abc"), "--key=me")
    waits = f"{PASSING}perkeep: waiting for another program that has locked {store.path}, ten seconds at most{PASSING}"
    with Locked(store.path):
        is_told(program, words, 4, f"input ({store.path}/keyring has no key me: {NO_KEY})")
        holds = f"another program has locked {store.path}, perkeep serve or a command that writes"
        hint = f"disk ({holds}: upload to the server, stop it, or wait for its end)"
        is_told(program, store.words("put-file", "name"), 7, hint, waits)


def unread(program):
    """Standard input, or a keyring, that can't be read."""
    bare, store = Store(program, {}), Store(program, {})
    (store.path / "keyring").mkdir()
    keyring = f"{store.path}/keyring can't be read"
    what_it_is = "it must be a file, or a link to one, that you may read"
    is_told(program, store.words("list"), 5, f"read ({keyring}: {what_it_is})")
    is_told(program, store.words("put"), 5, f"read ({keyring}: {what_it_is})")
    text = b"perkeep: read (standard input is closed, is a folder, or can't be read)\n"
    for one in (bare, Store(program, {}, {"keyring": KEYRING})):
        folder = os.open(one.path, os.O_RDONLY)
        try:
            got = told_with(program, one.words("put"), stdin=folder)
        finally:
            os.close(folder)
        compare("a folder as standard input", "status, output and what is told", (5, b"", text), got)


def keyless(program):
    """A search without a keyring, by which no note counts; what needs none says nothing of it."""
    store = Store(program, {0: pack(b"abc")})
    none = f"perkeep: {store.path}/keyring doesn't exist, so no note is found\n".encode()
    for command, words in (("search", ["--attr=a", "--value=b"]), ("words", ["tag:a"])):
        got = told(program, store.words(command, *words))
        compare(command, "status, output and what is told", (0, NOTHING_FOUND, none), got)
    compare("get", "what is told", (0, b"abc", b""), told(program, store.words("get", ref_of(b"abc"))))


def unfound(program):
    """What a search says that finds nothing, as with another secret of the key."""
    notes = {0: pack(*EXAMPLE_BLOBS)}
    found = Store(program, notes, {"keyring": KEYRING})
    other = Store(program, notes, {"keyring": keyring_line(secret=OTHER_SECRET)})
    start = "perkeep: nothing was found; notes are found only with the key that signed them, in"
    end = f"{other.path}/keyring; perkeep salvage {other.path} says whether a pack is damaged"
    for command, words in (("search", ["--attr=tag", "--value=a"]), ("words", ["tag:a"])):
        got = told(program, other.words(command, *words))
        compare(command, "status, output and what is told", (0, NOTHING_FOUND, f"{start} {end}\n".encode()), got)
        status, output, text = told(program, found.words(command, *words))
        compare(command, "status and what is told of a note", (0, b""), (status, text))
        compare(command, "whether a note is found", True, output != NOTHING_FOUND)


def unwritten(program):
    """Standard output that has no room."""
    store = Store(program, {0: pack(b"abc")})
    with open("/dev/full", "wb") as full:
        got = told_with(program, store.words("list"), stdout=full)
    text = b"perkeep: write (standard output can't be written: its reader has ended, or no space is left for it)\n"
    compare("no room for the output", "status, output and what is told", (6, None, text), got)


def done(program):
    """Nothing is told where all was done."""
    store = Store(program, {0: pack(b"abc")})
    got = told(program, store.words("get", ref_of(b"abc")))
    compare("a get", "status, output and what is told", (0, b"abc", b""), got)


def files(program):
    """What is wrong with single files: packs that are none, the last pack there may be, and what others may write
    to."""
    checks = folder_for_a_pack, pipe_for_a_pack, lost_pack, odd_pack_of_a_server, last_pack
    return [lambda check=check: check(program) for check in (*checks, open_keyring, folder_of_others)]


def odd_pack(store, number):
    return f"disk ({store.path}/{pack_name(number)} isn't a regular file)"


def folder_for_a_pack(program):
    store = Store(program, {0: pack(b"abc")})
    (store.path / pack_name(3)).mkdir()
    # Names that are no pack's are no pack's.
    (store.path / "pack-0000a.blobs").mkdir()
    is_told(program, store.words("list"), 7, odd_pack(store, 3))
    is_told(program, store.words("put-file", "name"), 7, odd_pack(store, 3))


def pipe_for_a_pack(program):
    store = Store(program, {0: pack(b"abc")})
    os.mkfifo(store.path / pack_name(1))
    is_told(program, store.words("stat", ABSENT), 7, odd_pack(store, 1))


def lost_pack(program):
    store = Store(program, {})
    (store.path / pack_name(0)).symlink_to(program.new_path())
    is_told(program, store.words("list"), 7, odd_pack(store, 0))


def odd_pack_of_a_server(program):
    store, port = Store(program, {}, {"keyring": KEYRING}), PORTS.free()
    (store.path / pack_name(0)).mkdir()
    status, out, text = told(program, ["serve", str(store.path), f"--port={port}"])
    compare("a server", "status and output", (7, b""), (status, out))
    reads = f"perkeep: has port {port}; reading the store\n"
    compare("a server", "what is told", f"{reads}perkeep: {odd_pack(store, 0)}\n".encode(), text)


def last_pack(program):
    store = Store(program, {reference.LAST_PACK: b"x"}, {"keyring": b"me 00\n"})
    text = f"full (no pack can come after {store.path}/{pack_name(reference.LAST_PACK)})"
    is_told(program, store.words("put-file", "name"), 9, text)


def open_keyring(program):
    """A keyring to which everyone may write."""
    store = Store(program, {0: pack(b"abc")}, {"keyring": b"me 00\n"})
    keyring = store.path / "keyring"
    for mode, is_open in ((0o600, False), (0o664, False), (0o666, True), (0o602, True)):
        keyring.chmod(mode)
        text = f"perkeep: everyone may write to {keyring}; chmod 600 protects it\n".encode() if is_open else b""
        compare(f"mode {mode:o}", "what is told", (0, b"abc", text), told(program, store.words("get", ref_of(b"abc"))))


def folder_of_others(program):
    """A folder of another user's: one that was given away, where this script may do that, else that of the system."""
    store, path = Store(program, {0: pack(b"abc")}), "/"
    if os.geteuid() == 0:
        with contextlib.suppress(OSError):
            os.chown(store.path, OTHER, OTHER)
            path = str(store.path)
    check("no folder here belongs to another user", os.stat(path).st_uid != os.geteuid())
    status, _, text = told(program, ["list", path])
    expected = 0, f"perkeep: {path} belongs to another user\n".encode()
    compare("a folder of another user's", "status and what is told", expected, (status, text))


def refusals(program):
    """Why the disk failed. Its calls are refused by strace."""
    tracing.need_strace(program)
    no_right = "you aren't allowed to read or write {}, or a file in it"
    rows = [("ENOSPC", "no space is left on the disk of {}"), ("EACCES", no_right)]
    return [lambda row=row: is_refused(program, *row) for row in rows] + [lambda: other_bytes(program)]


def is_refused(program, error, text):
    store, log = Store(program, {}), program.new_path()
    names = "fsync,fdatasync"
    front = ("strace", "-f", "-o", str(log), "-e", f"trace={names}", "-e", f"inject={names}:error={error}")
    expected = 7, b"", f"perkeep: disk ({text.format(store.path)})\n".encode()
    compare(error, "status, output and what is told", expected, told(program, store.words("put"), front, b"abc"))


def other_bytes(program):
    """The store was opened well, and the blob then comes with another first byte, which strace gives it."""
    store, log = Store(program, {0: pack(b"abc")}), program.new_path()
    poke = ("-e", "inject=pread64:poke_exit=@arg2=78:when=2", "-P", f"{store.path}/{pack_name(0)}")
    front = ("strace", "-f", "-o", str(log), "-e", "trace=pread64", *poke)
    stored = f"the bytes stored as {ref_of(b'abc')} have the ref {ref_of(b'xbc')}"
    text = f"{stored}; perkeep salvage {store.path} says which blobs are undamaged"
    expected = 10, b"", f"perkeep: damaged ({text})\n".encode()
    got = told(program, store.words("get", ref_of(b"abc")), front)
    compare("other bytes", "status, output and what is told", expected, got)


def openings(program):
    """How far a long opening is. Reads of the packs are held up by strace."""
    tracing.need_strace(program)
    return [lambda: long_opening(program)]


def long_opening(program):
    blobs = [b"%d" % number + bytes(999_999) for number in range(PACKS)]
    store = Store(program, {number: pack(blob) for number, blob in enumerate(blobs)})
    log = program.new_path()
    delay = f"inject=pread64:delay_enter={int(HELD_UP * 1_000_000)}"
    front = ("strace", "-f", "-o", str(log), "-e", "trace=pread64", "-e", delay)
    status, out, text = told(program, store.words("stat", ref_of(blobs[0])), front)
    compare("a long opening", "status", 0, status)
    check("a long opening: its output", out.startswith(ref_of(blobs[0]).encode()))
    lines = text.split(PASSING.encode())
    percents = [int(line.split()[4]) for line in lines[1:-1]]
    texts = [b"perkeep: reading the store, %d %% of 6 MB" % percent for percent in percents]
    compare("a long opening", "what is told", [b"", *texts, b""], lines)
    check(f"a long opening: {percents} %", len(percents) >= 2 and percents == sorted(percents) and percents[-1] < 100)


def rounds(program):
    """Whose turn it is in a round, how far the copying is, and at whose address it was refused."""
    return [lambda check=check: check(program) for check in (turns, copied_so_far, named, strangers, pulled, pushed)]


def turn(way, address):
    return f"perkeep: copying {way} {address}\n"


def copied(number, blob):
    """How far copying is at a blob: by the first byte of its digest, in hundredths of all."""
    percent = int(ref_of(blob).split("-")[1][:2], 16) * 100 // 256
    return f"{PASSING}perkeep: copied {number} so far, {percent} % through the sha224 refs"


def in_order(blobs):
    return sorted(blobs, key=ref_of)


BLOBS = in_order([b"a", b"b", b"c"])


def slow_peer(blobs=()):
    """Each of its replies is held up, so that a blob takes more than a second."""
    return FalsePeer({ref_of(blob): blob for blob in blobs}, before=lambda _: time.sleep(HELD_UP))


def turns(program):
    store = Store(program, {0: pack(b"abc")})
    with FalsePeer() as one, FalsePeer({ref_of(b"E"): b"E"}) as other:
        got = told(program, store.words("mirror", one.address, other.address))
        text = "".join(turn(way, peer.address) for way in ("from", "to") for peer in (one, other))
        compare("a round", "status, output and what is told", (0, b"stores 3 blobs 2\n", text.encode()), got)


def copied_so_far(program):
    with slow_peer(BLOBS) as peer:
        got = told(program, Store(program, {}).words("mirror", peer.address))
        status, out, text = got
        compare("a slow round", "status and output", (0, b"stores 2 blobs 3\n"), (status, out))
        lines = copied(2, BLOBS[1]), copied(3, BLOBS[2])
        text = text.decode()
        begun = turn("from", peer.address) + "".join(lines)
        check(f"a slow round: {text!r}", text.startswith(begun) and turn("to", peer.address) in text)
        check(f"a slow round isn't cleared: {text!r}", text.endswith((PASSING, "\n")))


def named(program):
    store, nowhere = Store(program, {0: pack(b"abc")}), f"{HOST}:{PORTS.free()}"
    hint = f"no server answers at {nowhere}, or the connection broke: is perkeep serve running there?"
    with FalsePeer() as peer:
        got = told(program, store.words("mirror", peer.address, nowhere))
        refused = f"perkeep: peer ({hint})\n"
        text = unanswered(nowhere) + turn("from", peer.address) + turn("from", nowhere) + refused
        compare("nobody", "status, output and what is told", (8, b"", text.encode()), got)


def strangers(program):
    """Other programs at the address, and servers that refuse."""
    no_room, not_found, damaged = (
        b"HTTP/1.1 %d X\r\nContent-Length: 0\r\n\r\n" % status for status in (507, 404, 500)
    )
    unlike = "gave no whole reply of perkeep serve: it was stopped, or another program listens there"
    other = "which perkeep serve doesn't: perhaps another program listens there"
    for text, hint in [
        (b"SSH-2.0-a\r\n", f"%s {unlike}"),
        (not_found, f"%s answers 404, {other}"),
        (no_room, "the server at %s answers 507: its store is full"),
        (damaged, "the server at %s answers 500: a blob of its store is damaged; see perkeep salvage there"),
    ]:
        is_strange(program, "pull", text, hint)
        is_strange(program, "mirror", text, hint)


def is_strange(program, command, text, hint):
    with FalsePeer(rights={0: sends(text, ends=True)}) as peer:
        words = Store(program, {}).words(command, peer.address)
        turns = turn("from", peer.address) if command == "mirror" else ""
        told_text = f"{turns}perkeep: reply ({hint % peer.address})\n".encode()
        compare((command, text), "status, output and what is told", (11, b"", told_text), told(program, words))


def unanswered(address):
    return f"perkeep: {address} accepts no connection\n"


def on_one_terminal(program, words):
    """The status, and all that the terminal gets that is standard output too."""
    terminal = Terminal()
    with terminal.start(program, words, stdout=terminal.theirs) as process:
        text = terminal.read_all()
    return process.returncode, text.decode()


def pulled(program):
    """The last passing line is cleared before the result, which comes to the same terminal."""
    with slow_peer(BLOBS) as peer:
        got = on_one_terminal(program, Store(program, {}).words("pull", peer.address))
    is_copied("a pull", got)


def pushed(program):
    with slow_peer() as peer:
        got = on_one_terminal(program, Store(program, {0: pack(*BLOBS)}).words("push", peer.address))
    is_copied("a push", got)


def is_copied(what, got):
    status, text = got
    compare(what, "status", 0, status)
    lines = copied(2, BLOBS[1]), copied(3, BLOBS[2])
    compare(what, "what is told", "".join(lines) + f"{PASSING}copied 3 already 0\n", text)


def waits(program):
    """What is waited for: a server, what is typed, and the bytes of files; and who accepts no connection."""
    return [lambda check=check: check(program) for check in (first_byte, nobody, typed, file_read, file_written)]


def first_byte(program):
    """A reply that takes more than three seconds."""
    with FalsePeer(rights={0: late}) as peer:
        status, out, text = told(program, Store(program, {}).words("pull", peer.address))
        compare("a late reply", "status and output", (0, b"copied 0 already 0\n"), (status, out))
        lines = text.decode().split(PASSING)
        texts = [f"perkeep: waiting for a reply from {peer.address}, {seconds} s so far" for seconds in (2, 3)]
        compare("a late reply", "what is told", ["", *texts, ""], lines)


def late(wire, due):
    time.sleep(3.5)
    return plainly(wire, due)


def nobody(program):
    """Said before the store is read, and whatever becomes of that; and nothing of it without a terminal."""
    store, nowhere = Store(program, {0: pack(b"abc")}), f"{HOST}:{PORTS.free()}"
    hint = f"no server answers at {nowhere}, or the connection broke: is perkeep serve running there?"
    for command in ("push", "pull"):
        is_told(program, store.words(command, nowhere), 8, f"peer ({hint})", unanswered(nowhere))
        for address in ("nowhere", "localhost:80000", f"http://{nowhere}", "://:1"):
            form = f'"{address}" isn\'t HOST:PORT, as 127.0.0.1:3179 is'
            is_told(program, store.words(command, address), 8, f"peer ({form})")
    (store.path / pack_name(3)).mkdir()
    is_told(program, store.words("push", nowhere), 7, odd_pack(store, 3), unanswered(nowhere))


def typed(program):
    """Standard input that is typed is said to be read, once."""
    store, terminal, typing = Store(program, {}), Terminal(), Terminal()
    os.write(typing.ours, b"abc\n\x04")
    with terminal.start(program, store.words("put"), stdin=typing.theirs) as process:
        text = terminal.read_all()
        out = process.stdout.read()
    ref = ref_of(b"abc\n").encode() + b"\n"
    compare("what is typed", "status and output", (0, ref), (process.returncode, out))
    told_line = b"perkeep: reading what is typed, until Ctrl-D at the beginning of a line\n"
    compare("what is typed", "what is told", told_line, text)


def file_read(program):
    """A file that comes slowly."""
    store, terminal = Store(program, {}), Terminal()
    with terminal.start(program, store.words("put-file", "n"), stdin=subprocess.PIPE) as process:
        for _ in range(4):
            process.stdin.write(bytes(1_000_000))
            process.stdin.flush()
            time.sleep(HELD_UP)
        process.stdin.close()
        text = terminal.read_all()
        process.stdout.read()
    is_counted("a file that is put", process.returncode, text, "read", 4)


def file_written(program):
    """A file that is read slowly."""
    blobs = [b"%d" % number + bytes(999_999) for number in range(4)]
    file = file_blob("n", [part(len(blob), ref_of(blob)) for blob in blobs])
    store, terminal = Store(program, {0: pack(*blobs, file)}), Terminal()
    with terminal.start(program, store.words("get-file", ref_of(file))) as process:
        for _ in blobs:
            process.stdout.read(1_000_000)
            time.sleep(HELD_UP)
        process.stdout.read()
        text = terminal.read_all()
    is_counted("a file that is got", process.returncode, text, "wrote", 4)


def is_counted(what, status, text, verb, most):
    compare(what, "status", 0, status)
    lines = text.decode().split(PASSING)
    counts = [re.fullmatch(rf"perkeep: {verb} ([0-9]+) MB so far", line) for line in lines[1:-1]]
    check(f"{what}: {lines}", lines[0] == lines[-1] == "" and counts and all(counts))
    numbers = [int(count[1]) for count in counts]
    check(f"{what}: {numbers}", numbers == sorted(numbers) and 1 <= numbers[-1] <= most)


def servers(program):
    return [lambda: server(program), lambda: server_of_shares(program), lambda: taken_port(program)]


def server(program):
    """A server tells that it has its port, and then that it listens."""
    store, port, nowhere = Store(program, {0: pack(b"abc")}, {"keyring": KEYRING}), PORTS.free(), program.new_path()
    serves(program, "serve", store.path, port, "", "")
    keyless = f"perkeep: {nowhere}/keyring doesn't exist, so no note is found\n"
    serves(program, "serve", nowhere, PORTS.free(), keyless, f"perkeep: {nowhere} didn't exist, and was made\n")


def taken_port(program):
    """A port that another program has."""
    store = Store(program, {}, {"keyring": KEYRING})
    with socket.create_server((HOST, 0)) as listener:
        port = listener.getsockname()[1]
        text = f"listener (port {port} is in use, or no connection could be accepted; --port takes another one)"
        for command in ("serve", "serve-shares"):
            is_told(program, store.words(command, f"--port={port}"), 14, text)


def server_of_shares(program):
    """It tells that there is no such folder, and serves the empty store."""
    path, port = program.new_path(), PORTS.free()
    keyless = f"perkeep: {path}/keyring doesn't exist, so no share is found\n"
    empty = f"perkeep: {path} doesn't exist, and reads as an empty store\n"
    serves(program, "serve-shares", path, port, keyless, empty)


def serves(program, command, path, port, before, between):
    expected = f"{before}perkeep: has port {port}; reading the store\n{between}"
    expected += f"perkeep: listening on http://127.0.0.1:{port}\n"
    terminal = Terminal()
    with terminal.start(program, [command, str(path), f"--port={port}"]) as process:
        try:
            text, until = b"", time.monotonic() + harness.SECONDS
            while text.count(b"\n") < expected.count("\n") and time.monotonic() < until:
                text += terminal.read()
            compare(command, "what is told", expected.encode(), text)
            check(f"{command} listens", is_listened_to(port))
        finally:
            process.kill()


if __name__ == "__main__":
    harness.main("terminal.sh", [hints, files, refusals, openings, rounds, waits, servers])
