"""The refusals of the commands, and the state then: arguments, texts, keyrings, streams and folders that can't be used.

Each group is a function of the program, and returns its checks.
"""

import contextlib
import itertools
import os
import pathlib
import shutil
import stat
import subprocess
import time

import inputs
import reference
from harness import Difference, LeftOut, Program, compare, compare_ending, finish, with_broken_source, with_streams, without
from older import OLDER_ABC
from reference import pack_name, ref_of
from stores import ABC, NOTHING_FOUND, READING, Store, lines_of, look
from writing import pack, record

DATE = inputs.day(1)


# Words, and texts in them

def words(program):
    """Lines that aren't valid: status 2, whatever the keyring is, and nothing is made."""
    store = Store(program, {0: pack(b"abc")}, {"keyring": b"a bad keyring"})
    missing = Store(program)
    checks = []
    no_utf8 = [("put", b"\xff"), ("get", str(store.path), b"\xff"), (b"put\xff", str(store.path))]
    for line in bad_lines(str(store.path), ABC) + no_utf8:
        checks.append(lambda line=line: store.keeps(f"words {line}", list(line), status=2, source=b"new"))
    for line in bad_lines(str(missing.path), ABC):
        checks.append(lambda line=line: missing.keeps(f"words {line}", list(line), status=2, source=b"new"))
    return checks + [lambda: good_lines(program)]


def bad_lines(folder, ref):
    query = ("--attr", "tag", "--value", "a")
    return [
        ("put",),
        ("put", folder, folder),
        ("put", folder, ref),
        ("put", "-d"),
        ("put", "--x=1", folder),
        ("put", folder, "--limit", "1"),
        ("put", folder, "-"),
        ("put", "--", folder, "--"),
        ("put", "--help"),
        ("Put", folder),
        ("puts", folder),
        ("put ", folder),
        ("--", "put", folder),
        ("get", folder),
        ("get", folder, ref, ref),
        ("get", folder, "-x"),
        ("get", folder, ref, "--limit=1"),
        ("get", folder, "--after", ref),
        ("stat", folder),
        ("stat", folder, "--"),
        ("stat", folder, "--after", "x"),
        ("stat", folder, ref, ""),
        ("stat", folder, "--", ref, "--"),
        ("list",),
        ("list", folder, folder),
        ("list", folder, "--after"),
        ("list", folder, "--limit"),
        ("list", folder, "--limit", "--"),
        ("list", folder, "--limit", "1", "--limit", "1"),
        ("list", folder, "--limit=1", "--limit", "2"),
        ("list", folder, "--limit", "5", "--limit=5"),
        ("list", folder, "--after", ref, "--after", ref),
        ("list", folder, "--limit", "-1"),
        ("list", folder, "--limit", "--", "1"),
        ("list", folder, "--after", "--limit", "1"),
        ("list", folder, "--at", DATE),
        ("list", folder, "--Limit=1"),
        ("list", folder, "--limits=1"),
        ("list", folder, "--limits", "5"),
        ("list", folder, "-limit=1"),
        ("list", folder, "--=1"),
        ("list", folder, "--", "--limit", "1"),
        ("list", "--limit", folder),
        ("list", "--limit", "5"),
        ("search", folder),
        ("search", *query),
        ("search", folder, "tag", "a"),
        ("search", folder, "--attr", "tag"),
        ("search", folder, "--value", "a"),
        ("search", folder, "--attr", "--value", "a"),
        ("search", folder, "--attr", "tag", "--value", "-a"),
        ("search", folder, *query, "b"),
        ("search", folder, *query, "--attr", "tag"),
        ("search", folder, *query, "--attr=tag"),
        ("search", folder, *query, "--value=a"),
        ("search", folder, *query, "--at"),
        ("search", folder, *query, "--at", DATE, "--at", DATE),
        ("search", folder, *query, "--limit", "1"),
        ("search", folder, "--", *query),
        ("words", folder),
        ("words", "tag:a"),
        ("words", folder, "tag:a", "tag:b"),
        ("words", folder, "-tag:a"),
        ("words", folder, "tag:a", "-tag:b"),
        ("words", folder, "tag:a", "--at"),
        ("words", folder, "tag:a", "--at", DATE, "--at", DATE),
        ("words", folder, "tag:a", "--limit", "1"),
        ("words", folder, "--at", DATE),
        ("salvage",),
        ("salvage", folder, folder),
        ("salvage", folder, "--x", "1"),
        ("salvage", folder, "--at=x"),
        ("salvage", "--after", ref, folder),
    ]


def good_lines(program):
    """Positions before and after `--`, and folders whose names begin with a hyphen, or are `--`."""
    inside = program.new_path()
    inside.mkdir()
    program.check("a folder of the name --", ["put", "--", "--"], ABC.encode() + b"\n", source=b"abc", folder=inside)
    compare("a folder of the name --", "its pack", pack(b"abc"), (inside / "--" / pack_name(0)).read_bytes())
    for number, form in enumerate((("put", "--", "-s"), ("put", "--", "./-s"), ("put", "-s/../-s", "--")[:1] + ("./-s", "--"))):
        blob = b"blob %d" % number
        program.check(f"words {form}", list(form), ref_of(blob).encode() + b"\n", source=blob, folder=inside)
    ref = ref_of(b"blob 1")
    for form in (("get", "--", "-s", ref), ("get", "./-s", "--", ref), ("get", "./-s", ref, "--")):
        program.check(f"words {form}", list(form), b"blob 1", folder=inside)
    program.check("the working folder itself", ["stat", ".", ref], f"{ref} 6\n".encode(), folder=inside / "-s")
    packs = reference.packs_of({entry.name: entry.read_bytes() for entry in (inside / "-s").iterdir()})
    compare("a folder with a hyphen", "packs", {0: pack(b"blob 0", b"blob 1", b"blob 2")}, packs)


BAD_REFS = ["", "sha224-", "x" * 63, ABC[:-1], ABC + "0", ABC.upper(), ABC[:-1] + "G", ABC[:-1] + "A"]
BAD_REFS += [" " + ABC, ABC + " ", ABC + "\n", "sha1" + ABC[6:], "sha256" + ABC[6:]]
BAD_REFS += ["sha1-", "x" * 45, OLDER_ABC[:-1], OLDER_ABC + "0", OLDER_ABC.upper(), "sha1-" + OLDER_ABC[5:].upper()]
BAD_REFS += ["sha224-" + OLDER_ABC[5:], "sha1-" + ABC[7:47] + "A", "sha1_" + OLDER_ABC[5:], OLDER_ABC[5:], OLDER_ABC + "\n"]
BAD_NUMBERS = ["", "0", "0" * 30, "4194305", "04194305", "4294967297", "18446744073709551617", "9" * 40]
BAD_NUMBERS += ["-1", "+1", "1 ", " 1", "1x", "0x1", "1.0", "1e3", "1_000", "\u0661"]

BAD_SEARCH_WORDS = ["", " ", "a", "tga:x", "or tag:a", "tag:a or", "(tag:a", "tag:a)", "- tag:a", "tag:a:b", 'tag:"a', 'has:""']
BAD_SEARCH_WORDS += ["tag:a\ttag:b:", "tag:" + "a" * 1_021, " ".join(["tag:a"] * 33)]


def texts(program):
    """Texts that can't be used: status 4, whatever the disk and the source have."""
    store = Store(program, {0: pack(b"abc", b"")}, {"keyring": inputs.KEYRING})
    file = program.new_path()
    file.write_bytes(b"")
    lines = list(itertools.product(("get", "stat"), (store.path, file), BAD_REFS))
    lines += [("list", store.path, f"--after={ref}") for ref in BAD_REFS]
    lines += [("list", store.path, f"--limit={text}") for text in BAD_NUMBERS]
    lines += [("list", store.path, "--limit", text) for text in BAD_NUMBERS if not text.startswith("-")]
    lines += [("list", store.path, "--limit=0", "--after=x"), ("list", "--after=x", "--limit=0", file)]
    lines += [("list", file, "--limit=1", "--after=x"), ("list", "--after=x", store.path, "--limit=1")]
    query = ("--attr=tag", "--value=a")
    lines += [("search", store.path, *query, f"--at={text}") for text, is_date in inputs.DATES if not is_date]
    lines += [("search", store.path, *query, "--at", "1970-01-01"), ("search", store.path, *query, "--at", "x")]
    lines += [("search", store.path, "--attr=", "--value=a"), ("search", file, "--value=", "--attr", "")]
    lines += [("search", "--at=x", "--attr=", "--value=a", store.path), ("search", "--attr=", "--value=a", store.path, "--at=x")]
    lines += [("words", "--", store.path, text) for text in BAD_SEARCH_WORDS]
    lines += [("words", store.path, "or", "--at=x"), ("words", "--at=x", file, "or"), ("words", file, "tag:a", "--at=x")]
    lines = [tuple(map(str, line)) for line in lines]
    return [lambda line=line: store.keeps(f"texts {line}", list(line), status=4) for line in lines] + [
        lambda text=text: store.reads(f"the date {text}", "search", *query, f"--at={text}", out=NOTHING_FOUND)
        for text, is_date in inputs.DATES
        if is_date
    ]


def keyrings(program):
    """Every command fails with a keyring that can't be used, and only with that of its folder."""
    checks = []
    bad = [text for _, text in inputs.bad_keyrings()]
    for text in bad[:3] + bad[-4:]:
        store = Store(program, {0: pack(b"abc")}, {"keyring": text})
        checks += [
            lambda store=store, line=line: store.keeps(f"a bad keyring: {line}", line, status=4, source=b"new")
            for line in lines_of(store.path).values()
        ]
    for text in bad[3:-4]:
        store = Store(program, {0: pack(b"abc")}, {"keyring": text})
        checks.append(lambda store=store: store.reads("a bad keyring", "list", status=4))
    folder = Store(program, {0: pack(b"abc")})
    (folder.path / "keyring").mkdir()
    lines = [*lines_of(folder.path).values(), folder.words("get", "no ref"), folder.words("list", "--limit=0")]
    checks += [lambda line=line: folder.keeps(f"a keyring that is a folder: {line}", line, status=5) for line in lines]
    checks += [lambda line=line: lost_keyring(program, line) for line in lines_of("D").values()]
    longest = Store(program, {0: inputs.EXAMPLE}, {"keyring": inputs.KEYRING})
    out = reference.search_text(inputs.FOUND) + b"\n"
    return checks + [lambda: longest.reads("a good keyring", "search", "--attr=tag", "--value=a", out=out)]


def lost_keyring(program, line):
    """A link to a keyring that isn't there, as on a drive that isn't mounted, doesn't count as an empty keyring."""
    for target in (program.folder / "nowhere" / "keyring", "keyring", "pack-00000.blobs/keyring"):
        store = Store(program, {0: pack(b"abc")})
        (store.path / "keyring").symlink_to(target)
        words = [str(store.path) if word == "D" else word for word in line]
        program.check(f"a keyring that leads to {target}: {line}", words, status=5, source=b"new")


# Standard input, standard output and standard error

def streams(program):
    """Streams that are closed, full, or can't be read, or don't block; and the state then."""
    checks = (failing_sources, failing_sinks, kept_though_unsaid, closed_errors, which_is_first, late_source, late_sink)
    return [lambda check=check: check(program) for check in checks]


def failing_sources(program):
    for packs in (None, {}, {0: pack(b"abc")}, {0: b"[torn"}):
        store = Store(program, packs)
        before = look(store.path)
        for what, stream in [("closed", {"closed": 0}), ("a folder", {"source": program.folder})]:
            with_streams(program, f"put, standard input is {what}", store.words("put"), 5, folder=program.working, **stream)
        for front in (b"half a blob", bytes(1_000_000)):
            with_broken_source(program, "put, standard input breaks off", store.words("put"), front, folder=program.working)
        compare("put without a source", "the folder", before, look(store.path))


def failing_sinks(program):
    store = Store(program, {0: inputs.EXAMPLE + pack(b"abc")}, {"keyring": inputs.KEYRING})
    before = look(store.path)
    for command in READING:
        line = lines_of(store.path)[command]
        with_streams(program, f"{command}, standard output is full", line, 6, sink="/dev/full", folder=program.working)
        with_streams(program, f"{command}, standard output is closed", line, 6, closed=1, folder=program.working)
    compare("standard output that takes nothing", "the folder", before, look(store.path))


def kept_though_unsaid(program):
    """A blob whose ref can't be printed is kept, and no text gets into a pack."""
    for packs in (None, {0: pack(b"abc")}, {0: pack(b"abc") + b"["}):
        for what, stream in [("full", {"sink": "/dev/full"}), ("closed", {"closed": 1})]:
            store = Store(program, packs)
            source = program.new_path()
            source.write_bytes(b"kept")
            what = f"put, standard output is {what}"
            with_streams(program, what, store.words("put"), 6, source=source, folder=program.working, **stream)
            store.packs = reference.put(store.packs, b"kept")
            store.check_files(what)
            store.lists(what)


def closed_errors(program):
    """Standard error that is closed gets nothing into a pack either."""
    store = Store(program, {0: pack(b"abc")})
    source = program.new_path()
    source.write_bytes(b"kept")
    with open(source, "rb") as stdin, open("/dev/full", "wb") as stdout:
        words = [*without(2), program.path, *store.words("put")]
        status = subprocess.run(words, cwd=program.working, stdin=stdin, stdout=stdout).returncode
    compare("standard error is closed", "exit status", 6, status)
    store.packs = reference.put(store.packs, b"kept")
    store.check_files("standard error is closed")


def which_is_first(program):
    """If several things are wrong, the first one is reported."""
    file = program.new_path()
    file.write_bytes(b"")
    too_long = program.new_path()
    too_long.write_bytes(bytes(reference.LARGEST_BLOB + 1))
    store = Store(program, {0: pack(b"")})
    for what, line, status, stream in [
        ("the source before the disk", ["put", str(file)], 5, {"closed": 0}),
        ("a long source before the disk", ["put", str(file)], 4, {"source": too_long}),
        ("the disk before the sink", ["put", str(file)], 7, {"sink": "/dev/full"}),
        ("the disk before the sink of a listing", ["list", str(file)], 7, {"sink": "/dev/full"}),
        ("an absent blob before the sink", store.words("get", ABC), 3, {"sink": "/dev/full"}),
        ("a bad text before the source", ["list", str(file), "--limit=0"], 4, {"closed": 0}),
        ("bad words before the source", ["put"], 2, {"closed": 0}),
    ]:
        with_streams(program, what, line, status, folder=program.working, **stream)


# How long a stream with nothing to read, or without room, is left so, and how much of that the processor may take.
LATE, SPENT = 1.5, 0.5


def late_source(program):
    """An input that doesn't block, as another program may have left it, is waited for, and takes no processor
    meanwhile."""
    store, what, longest = Store(program, {}), "an input that doesn't wait", bytes(range(256)) * 4_096
    theirs, ours = os.pipe()
    os.set_blocking(theirs, False)
    with subprocess.Popen([program.path, *store.words("put")], stdin=theirs, stdout=subprocess.PIPE, stderr=subprocess.PIPE) as process:
        os.close(theirs)
        stands_still(what, process)
        with open(ours, "wb") as source:
            source.write(longest)
        out, err = finish(what, process)
    compare_ending(what, 0, process.returncode, err)
    compare(what, "standard output", ref_of(longest).encode() + b"\n", out)
    store.packs = reference.put(store.packs, longest)
    store.check_files(what)


def late_sink(program):
    """The same for an output without room."""
    longest, what = bytes(range(256)) * 16_384, "an output that doesn't wait"
    store = Store(program, {0: pack(longest)})
    ours, theirs = os.pipe()
    os.set_blocking(theirs, False)
    words = [program.path, *store.words("get", ref_of(longest))]
    with subprocess.Popen(words, stdin=subprocess.DEVNULL, stdout=theirs, stderr=subprocess.PIPE) as process:
        os.close(theirs)
        stands_still(what, process)
        with open(ours, "rb") as sink:
            compare(what, "standard output", longest, sink.read())
        _, err = finish(what, process)
    compare_ending(what, 0, process.returncode, err)


def stands_still(what, process):
    """The process runs for a while and takes almost no time of the processor."""
    with contextlib.suppress(subprocess.TimeoutExpired):
        process.wait(LATE)
        raise Difference(f"{what}: it ended with {process.returncode}")
    before = ticks_of(process)
    time.sleep(LATE)
    spent = (ticks_of(process) - before) / os.sysconf("SC_CLK_TCK")
    if spent > SPENT:
        raise Difference(f"{what}: it took the processor for {spent} of {LATE} seconds")


def ticks_of(process):
    """How much of the processor a process has taken: the fields utime and stime of proc(5), after its name."""
    text = pathlib.Path(f"/proc/{process.pid}/stat").read_text()
    return sum(map(int, text.rpartition(")")[2].split()[11:13]))


# Folders

def folders(program):
    checks = (no_folder, made_folder, other_names, a_file, the_empty_text, no_parent, in_proc)
    return [lambda check=check: check(program) for check in checks] + [
        lambda number=number: pack_that_is_a_folder(program, number) for number in (0, 3)
    ]


def no_folder(program):
    """A folder that isn't there is a store without packs, and no command that reads makes it."""
    endings = {"get": (b"", 3), "stat": (b"", 3), "list": (b"", 0), "salvage": (b"", 0)}
    endings |= {"search": (NOTHING_FOUND, 0), "words": (NOTHING_FOUND, 0)}
    for what, store in [("without a folder", Store(program)), ("in an empty folder", Store(program, {}))]:
        for command, (out, status) in endings.items():
            store.keeps(f"{command} {what}", lines_of(store.path)[command], out, status)
        store.keeps(f"a long source {what}", store.words("put"), status=4, source=bytes(reference.LARGEST_BLOB + 1))


def made_folder(program):
    """The first put makes the folder, whatever its name, but no folder above it."""
    parent = program.new_path()
    parent.mkdir()
    for name in ("plain", "with a space", "\u00e4\u20ac", "slash/", "./point", "a.blobs", "pack-00000.blobs", "n" * 200):
        path = os.path.join(str(parent), name)
        program.check(f"put into {name}", ["put", path], ABC.encode() + b"\n", source=b"abc")
        files = {entry.name: entry.read_bytes() for entry in pathlib.Path(path).iterdir()}
        compare(f"put into {name}", "files", {"pack-00000.blobs": record(b"abc")}, files)
    link = program.new_path()
    link.symlink_to(parent / "plain")
    program.check("a link to a folder", ["get", str(link), ABC], b"abc")


IGNORED = ["pack-1.blobs", "pack-000001.blobs", "pack-00000.blobs.bak", "PACK-00000.blobs", "pack-00000.blob", "pack-00000"]
IGNORED += ["xpack-00000.blobs", ".pack-00000.blobs", "pack-00000.blobs~", "pack-0000a.blobs", "pack--0001.blobs"]
IGNORED += ["pack-+0001.blobs", f"pack-{5 * chr(0x661)}.blobs"]


def other_names(program):
    """Files and folders with other names aren't touched."""
    others = {name: pack(b"of no pack") for name in IGNORED}
    for packs in ({}, {2: pack(b"abc")}):
        store = Store(program, packs, others)
        store.lists("other names")
        store.gets("other names", [ref_of(b"of no pack"), ABC])
        store.put("a put beside other names", b"new")
        store.lists("other names after a put")
    within = Store(program, {0: pack(b"abc")})
    (within.path / "pack-1.blobs").mkdir()
    (within.path / "sub").mkdir()
    (within.path / "sub" / "pack-00001.blobs").write_bytes(pack(b"of no pack"))
    within.lists("folders within")


def a_file(program):
    path = program.new_path()
    path.write_bytes(pack(b"abc"))
    no_store(program, "a file", str(path), path)


def the_empty_text(program):
    no_store(program, "the empty text", "", program.working_folder(None))


def no_parent(program):
    """A folder without a parent isn't there either, so it reads as a store without packs; put can't make it."""
    above = program.new_path()
    what = "a folder without a parent"
    endings = {"put": (b"", 7), "get": (b"", 3), "stat": (b"", 3), "list": (b"", 0), "salvage": (b"", 0)}
    endings |= {"search": (NOTHING_FOUND, 0), "words": (NOTHING_FOUND, 0)}
    for command, line in lines_of(str(above / "store")).items():
        out, expected = endings[command]
        status, got, err = program.run(f"{command}, {what}", line, b"abc", program.working_folder(None))
        compare_ending(f"{command}, {what}", expected, status, err)
        compare(f"{command}, {what}", "standard output", out, got)
    compare(what, "what stands there", False, above.exists())


def no_store(program, what, path, watched):
    """A path that can't be a store: the disk's fault for every command, and nothing is made."""
    before = look(watched)
    for command, line in lines_of(path).items():
        status, out, err = program.run(f"{command}, {what}", line, b"abc", program.working_folder(None))
        compare_ending(f"{command}, {what}", 7, status, err)
        compare(f"{command}, {what}", "standard output", b"", out)
    compare(what, "what stands there", before, look(watched))


TOLD_OF_ABC = b"pack-00001.blobs 67 " + ABC.encode() + b" 3\npack-00001.blobs clean\n"


def pack_that_is_a_folder(program, number):
    store = Store(program, {1: pack(b"abc")})
    (store.path / pack_name(number)).mkdir()
    for command, line in lines_of(store.path).items():
        # The output before it is written by then.
        told = TOLD_OF_ABC if command == "salvage" and number > 1 else b""
        store.keeps(f"{command}, pack {number} is a folder", line, told, 7, source=b"new")


def in_proc(program):
    """A folder in which nothing can be made, whoever asks."""
    if pathlib.Path("/proc/self").exists():
        program.check("put into /proc", ["put", "/proc"], status=7, source=b"abc")
        program.check("put into a new folder of /proc", ["put", "/proc/perkeep-store"], status=7, source=b"abc")
        program.check("list of /proc", ["list", "/proc"])


# Permissions

NOBODY = 65_534


def rights(program):
    """Folders and packs that may not be written or read, by a program that isn't root's."""
    with open(program.path, "rb") as file:
        if os.geteuid() == 0 and file.read(4) != b"\x7fELF":
            raise LeftOut("the script is root, and can't give a copy of its program to another user")
    return [lambda check=check: check(Nobody(program)) for check in (new_pack_refused, new_folder_refused, pack_unread)]


class Nobody(Program):
    """A copy of the program that runs as another user, if this one is root."""

    def __init__(self, program):
        folder = program.new_path()
        folder.mkdir()
        shutil.copy(program.path, folder / "perkeep")
        super().__init__(str(folder / "perkeep"), folder)
        self.is_root = os.geteuid() == 0
        if self.is_root:
            program.folder.chmod(0o711)

    def start(self, words, folder=None, **streams):
        if self.is_root:
            streams |= {"user": NOBODY, "group": NOBODY, "extra_groups": []}
        return super().start(words, folder, **streams)

    def store(self, packs, mode):
        """A store of that user's, whose folder has a mode."""
        store = Store(self, packs)
        for path in [*store.path.iterdir(), store.path]:
            if self.is_root:
                os.chown(path, NOBODY, NOBODY)
        store.path.chmod(mode)
        return store


def new_pack_refused(program):
    store = program.store({0: pack(b"abc") + b"["}, 0o555)
    store.keeps("a new pack in a folder that can't be written", store.words("put"), status=7, source=b"new")
    store.gets("a folder that can't be written", [ABC])


def new_folder_refused(program):
    above = program.store({}, 0o555)
    line = ["put", str(above.path / "store")]
    above.keeps("a new folder in one that can't be written", line, status=7, source=b"new")


def pack_unread(program):
    store = program.store({0: pack(b"abc") + b"["}, 0o755)
    (store.path / pack_name(0)).chmod(0)
    for command, line in lines_of(store.path).items():
        store.keeps(f"{command}, a pack that can't be read", line, status=7, source=b"new")


# Special files, and modes

# Nothing here waits, unless a machine stops for a while.
SOON = 30


def special_files(program):
    """A pack that is a pipe or a folder is the disk's fault, and a keyring that is one a failed read, and nothing waits
    for a writer."""
    checks = []
    for number in (0, 3):
        store = Store(program, {1: pack(b"abc")})
        what = f"pack {number} is a pipe"
        os.mkfifo(store.path / pack_name(number))
        for command, line in lines_of(store.path).items():
            told = TOLD_OF_ABC if command == "salvage" and number > 1 else b""
            checks.append(lambda what=what, line=line, told=told: ends_soon(program, what, line, 7, told))
    piped = Store(program, {0: pack(b"abc")})
    os.mkfifo(piped.path / "keyring")
    checks += [lambda line=line: ends_soon(program, "the keyring is a pipe", line, 5) for line in lines_of(piped.path).values()]
    working = program.new_path()
    working.mkdir()
    os.mkfifo(working / "keyring")
    line = ["search-pack", "tag", "a"]
    return checks + [lambda: ends_soon(program, "the keyring is a pipe", line, 5, folder=working)]


def ends_soon(program, what, line, status, out=b"", folder=None):
    what = f"{what}: {line[0]}"
    before = look(pathlib.Path(line[1])) if folder is None else None
    program.check(what, line, out, status, b"new", folder, seconds=SOON)
    if folder is None:
        compare(what, "the folder", before, look(pathlib.Path(line[1])))


def modes(program):
    """Files that a put makes are only the owner's; existing ones keep their modes."""
    return [lambda mask=mask: made_with_modes(program, mask) for mask in (0o022, 0, 0o077)] + [lambda: kept_modes(program)]


def made_with_modes(program, mask):
    what, store = f"modes under {mask:03o}", Store(program)
    status, _, err = program.run(what, store.words("put"), b"abc", umask=mask)
    compare_ending(what, 0, status, err)
    compare(what, "modes", ("700", "600"), modes_of(store))


def kept_modes(program):
    what, store = "modes of what stands", Store(program, {0: pack(b"abc")})
    store.path.chmod(0o750)
    (store.path / pack_name(0)).chmod(0o640)
    store.put(what, b"new")
    compare(what, "modes", ("750", "640"), modes_of(store))


def modes_of(store):
    """The modes of a folder and of its first pack."""
    return tuple(f"{stat.S_IMODE(path.stat().st_mode):o}" for path in (store.path, store.path / pack_name(0)))
