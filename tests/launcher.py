"""The launcher ./perkeep: when it builds, its messages, and what it runs.

Each check has a small tree with the launcher and the crates.txt of the repository, and a toolchain that only pretends
to build: its program prints from which text of a source it was made, and for which level. Nothing is proved here.
"""

import fcntl
import itertools
import os
import pathlib
import shutil
import signal
import subprocess
import time

import harness
from harness import SECONDS, check, compare

TOP = pathlib.Path(__file__).resolve().parent.parent
# Crates that aren't crates of the program.
APART = ("lab", "store_tests", "index_tests")
# The files of each crate of a tree; the other files of a program that the gate reads; and the files that a build leaves
# out, which only some crates have.
PARTS = ("src/lib.rt", "specs/Lib.antt", "proofs/store/put.antt")
OF_A_PROGRAM = ("args", "stdin", "stdout", "status", "data/keyring")
LEFT_OUT = ("must-fail/edit.edit", "out/rlib/kept", "README.md")
WITH_MORE = ("blobref", "pack_store", "perkeep_cli")
# The flags of /proc/cpuinfo of a processor of the level x86-64-v2, and those that x86-64-v3 has besides.
OLDER = "fpu sse sse2 pni ssse3 cx16 sse4_1 sse4_2 popcnt lahf_lm"
NEWER = "xsave avx f16c movbe abm bmi1 avx2 bmi2 fma"

RT = r"""#!/usr/bin/env bash
# version 1
set -u
fake=$(dirname "$0")
case $1 in
  version) sed -n 's/^# version/a toolchain/p' "$0" ;;
  doc) echo "$fake/kit/START-HERE.md" ;;
  ci)
    echo "$*" >>"$fake/calls"
    echo "${RT_JOBS:-none}" >"$fake/jobs"
    pwd >"$fake/room"
    find . | LC_ALL=C sort >"$fake/files"
    cp crates.txt HANDLES "$fake/kit"
    text=$(cat crates/pack_store/src/lib.rt)
    python3 "$fake/prove.py" "$fake" || exit
    [ ! -e "$fake/seconds" ] || sleep "$(cat "$fake/seconds")"
    [ ! -e "$fake/meanwhile" ] || bash "$fake/meanwhile"
    if [ -e "$fake/fails" ]; then
      echo "rt: not proved, for a reason" >&2
      exit "$(cat "$fake/fails")"
    fi
    if [ -e crates/perkeep_cli ]; then
      mkdir -p crates/perkeep_cli/out
      bash "$fake/make_program" "x86-64-v2" "$text" crates/perkeep_cli/out/perkeep_cli
      [ ! -e "$fake/makes_nothing" ] || rm crates/perkeep_cli/out/perkeep_cli
      [ ! -e "$fake/makes_what_does_not_start" ] || echo 'exit 127' >crates/perkeep_cli/out/perkeep_cli
      echo "rt: perkeep_cli ran, and wrote what its file stdout has"
    fi
    if [ -e "$fake/counts_a_failure" ]; then echo "5 passed, 1 failed"; else echo "6 passed, 0 failed"; fi
    [ ! -e "$fake/ends_before_all_is_told" ] || echo "rt: and then"
    [ ! -e "$fake/fails_late" ] || exit 1
    ;;
  try)
    echo "${PWD##*/} $*" >>"$fake/calls"
    shift
    while [ "$1" != -- ]; do
      [ "$1" = --data ] && cp "${2#keyring=}" "$fake/keyring" || exit 2
      shift 2
    done
    shift
    : >"$fake/words"
    [ $# -eq 0 ] || printf '%s\0' "$@" >"$fake/words"
    stat -Lc %F /proc/self/fd/0 >"$fake/kind"
    cat >"$fake/input"
    [ ! -e "$fake/output" ] || cat "$fake/output"
    [ ! -e "$fake/said" ] || cat "$fake/said" >&2
    exit "$(<"$fake/ends")"
    ;;
esac
"""

# The toolchain's output for each crate of a room. It keeps what it has proved, by the bytes of the crate's files. It
# may stop at a crate, or find that one isn't proved.
PROVE = r"""
import hashlib
import pathlib
import sys
import time

fake = pathlib.Path(sys.argv[1])
stops, breaks = ((fake / name).read_text() if (fake / name).exists() else "" for name in ("stops", "breaks"))
kept = fake / "kept"
kept.mkdir(exist_ok=True)
broken = ""
for line in pathlib.Path("crates.txt").read_text().splitlines():
    name = line.split(":")[0].split()[0]
    files = sorted(it for it in pathlib.Path("crates", name).rglob("*") if it.is_file())
    key = hashlib.sha256(repr((line, [(str(it), it.read_bytes()) for it in files])).encode()).hexdigest()
    if broken:
        print(f"rt: {name} NOT PROVED: its library {broken} failed", flush=True)
    elif (kept / key).exists():
        print(f"rt: {name} is kept: an earlier run on this machine proved the same files", flush=True)
    elif name == breaks:
        broken = name
        print(f"== {name}\nerror: not this one\nfn {name}::f: proved\nlogic=not-proved\nrt: {name} NOT PROVED", flush=True)
    else:
        print(f"== {name}: its tests\nrt: {name}: its tests are proved\n== {name}\nfn {name}::f: proved\nlogic=proved")
        (kept / key).touch()
        print(f"rt: {name} proved", flush=True)
    if name == stops:
        time.sleep(100)
if broken:
    print("5 passed, 1 failed")
sys.exit(1 if broken else 0)
"""

MAKE_PROGRAM = r"""
printf '#!/usr/bin/env bash
# %s
[ "$*" != "list . --limit=0" ] || exit 4
[ "${1:-}" != lacks ] || exit 127
echo "%s: $*"
cat
echo "of the program" >&2
exit 3
' "$1" "$2" >"$3"
chmod +x "$3"
"""

# The prover and the linker, which a build for another level than the gate's calls itself.
RATTLE = r"""#!/usr/bin/env bash
set -u
kit=$(dirname "$(dirname "$0")")
fake=$(dirname "$kit")
echo "rattle $1" >>"$fake/calls"
printf '%s\n' "$@" >"$fake/words"
[ ! -e "$fake/is_killed" ] || { rm "$fake/is_killed"; kill -9 $$; }
while [ $# -gt 0 ]; do
  case $1 in
    --cpu=*) level=${1#--cpu=} ;;
    -o) object=$2 ;;
  esac
  shift
done
echo "fn perkeep_cli::main: proved"
[ ! -e "$fake/stops_late" ] || sleep 100
line="logic=proved functions=1 axioms=2 target=x86_64-unknown-linux-gnu cpu=$level threads=malloc,syscall"
line+=" main=Threads+Wait+Net may-wait=2 sum=dac8 native=nat,char,string"
line+=" logic-built=trusted libraries-built=trusted statements=trusted"
if [ -e "$fake/verdict" ]; then line=$(sed "$(<"$fake/verdict")" <<<"$line"); fi
echo "$line"
[ ! -e "$fake/rattle_fails" ] || exit 1
bash "$fake/make_program" "$level" "$(cat ../repository/crates/pack_store/src/lib.rt)" "$object"
"""
LINK = r"""#!/usr/bin/env bash
set -u
fake=$(dirname "$(dirname "$(dirname "$0")")")
echo "rattle-link" >>"$fake/calls"
[ ! -e "$fake/link_fails" ] || exit 1
while [ "$1" != -o ]; do shift; done
cp "$3" "$2"
[ ! -e "$fake/makes_what_does_not_start" ] || echo 'exit 127' >"$2"
"""
# The launcher calls `grep` only over /proc/cpuinfo, except for the output of a run of the sources.
GREP = r"""#!/usr/bin/env bash
fake=$(dirname "$0")
if [ "${!#}" != /proc/cpuinfo ]; then exec REAL "$@"; fi
[ -e "$fake/flags" ] && printf 'flags\t\t: %s\n' "$(<"$fake/flags")"
"""


def crates_below(name="perkeep_cli"):
    """The crates below a crate, each after those that it uses, and the crate itself, by crates.txt."""
    uses = {}
    for line in (TOP / "crates.txt").read_text().splitlines():
        head, colon, below = line.partition("#")[0].partition(":")
        if colon:
            uses[head.split()[0]] = below.split()
    found = {}

    def visit(name):
        for below in uses[name]:
            if below in uses and below not in found:
                visit(below)
        found[name] = True

    visit(name)
    return list(found)


class Tree:
    """A repository with little in it, and its toolchain, on a machine whose processor is of the level x86-64-v2."""

    def __init__(self, program):
        self.top = program.new_path()
        self.fake = self.top / "fake"
        self.scratch = self.top / "scratch"
        self.scratch.mkdir(parents=True)
        self.fake.mkdir()
        for name in ("perkeep", "crates.txt"):
            shutil.copy2(TOP / name, self.top / name)
        for name in [*crates_below(), *APART]:
            for file in (*PARTS, *LEFT_OUT) if name in WITH_MORE else PARTS:
                self.write(f"crates/{name}/{file}", f"{file} of {name}")
        for file in OF_A_PROGRAM:
            self.write(f"crates/perkeep_cli/{file}", f"{file} of the program")
        for file in ("docs/page.md", "tests/test.sh", "README.md"):
            self.write(file, "text")
        self.write("HANDLES", "Handles allowed: Threads, Wait, Net.\n")
        self.write("crates/pack_store/src/lib.rt", "text 1")
        self.write("fake/prove.py", PROVE)
        self.write("fake/make_program", MAKE_PROGRAM)
        self.write("fake/flags", OLDER)
        self.tool("rt", RT)
        self.tool("kit/bin/rattle", RATTLE)
        self.tool("kit/bin/rattle-link", LINK)
        self.tool("grep", GREP.replace("REAL", shutil.which("grep")))

    def tool(self, name, text):
        self.write(f"fake/{name}", text)
        (self.fake / name).chmod(0o755)

    def write(self, name, text):
        (self.top / name).parent.mkdir(parents=True, exist_ok=True)
        (self.top / name).write_text(text)

    def start(self, *words, launcher=None, folder=None, **settings):
        """Starts the launcher in a group of processes of its own."""
        none_set = {"PERKEEP_BUILD": "", "PERKEEP_CPU": "", "PERKEEP_JOBS": "", "PERKEEP_TRY": "", "RT_JOBS": ""}
        places = {"PATH": f"{self.fake}:{os.environ['PATH']}", "TMPDIR": str(self.scratch)}
        environment = {**os.environ, **places, **none_set, **settings}
        streams = {"stdin": subprocess.PIPE, "stdout": subprocess.PIPE, "stderr": subprocess.PIPE}
        how = {"cwd": folder or self.top, "env": environment, "text": True, "start_new_session": True}
        return subprocess.Popen([launcher or self.top / "perkeep", *words], **how, **streams)

    def run(self, what, *words, **settings):
        """Starts the program, which has to run; returns the messages about a build."""
        process = self.start(*words, **settings)
        out, err = process.communicate("input\n", timeout=SECONDS)
        compare(what, "exit status", 3, process.returncode)
        compare(what, "standard output", f"{self.text()}: {' '.join(words)}\ninput\n", out)
        said, is_told, rest = err.partition("of the program\n")
        compare(what, "the program's standard error", ("of the program\n", ""), (is_told, rest))
        return said

    def text(self):
        return (self.top / "crates/pack_store/src/lib.rt").read_text()

    def build(self, what, **settings):
        """Has the program built, if it isn't current, which has to succeed; returns the messages."""
        process = self.start(PERKEEP_BUILD="only", **settings)
        out, err = process.communicate("", timeout=SECONDS)
        compare(what, "exit status and standard output", (0, ""), (process.returncode, out))
        return err

    def level(self):
        """The level for which the built program is."""
        return (self.top / PROGRAM).read_text().splitlines()[1].removeprefix("# ")

    def rooms(self):
        """The folders that are where builds make theirs."""
        return sorted(it.name for it in self.scratch.iterdir())

    def is_current(self, **settings):
        process = self.start("put", PERKEEP_BUILD="check", **settings)
        out, err = process.communicate("", timeout=SECONDS)
        compare("a check", "what it says", ("", ""), (out, err))
        return {0: True, 1: False}[process.returncode]

    def calls(self):
        """The calls of the toolchain that build or run something."""
        calls = self.fake / "calls"
        return calls.read_text().splitlines() if calls.exists() else []

    def builds(self):
        return self.calls().count("ci")

    def has_tried(self):
        """Whether the sources were run."""
        return any(" try " in call for call in self.calls())


def built(program):
    tree = Tree(program)
    tree.run("a first start")
    return tree


# What is built, and when

def starts(program):
    checks = (first_start, second_start, touched, apart, changed_back, moved, quick, without_toolchain)
    return [lambda check=check: check(program) for check in checks]


def first_start(program):
    tree = Tree(program)
    compare("nothing built yet", "current", False, tree.is_current())
    tree.run("a first start", "put", "a folder with spaces", "")
    compare("a first start", "builds", 1, tree.builds())
    compare("a first start", "current", True, tree.is_current())


def second_start(program):
    tree = built(program)
    for _ in range(3):
        compare("a second start", "what it says", "", tree.run("a second start", "get", "x"))
    process = tree.start(PERKEEP_BUILD="only")
    compare("only a build", "what it says", ("", ""), process.communicate("", timeout=SECONDS))
    compare("only a build", "exit status", 0, process.returncode)
    compare("a second start", "builds", 1, tree.builds())


def touched(program):
    tree = built(program)
    for file in tree.top.glob("crates/*/*/**/*.*"):
        os.utime(file)
    (tree.top / "crates.txt").touch()
    compare("touched files", "current", True, tree.is_current())
    tree.run("touched files")
    compare("touched files", "builds", 1, tree.builds())


def apart(program):
    """Changes of files from which the program isn't built cause no build."""
    tree = built(program)
    for name in APART:
        tree.write(f"crates/{name}/src/lib.rt", "another text")
        tree.write(f"crates/{name}/proofs/another.antt", "another text")
    for name in WITH_MORE:
        for file in (*LEFT_OUT, *OF_A_PROGRAM, "must-fail/another.edit", "data/another", "out/another"):
            tree.write(f"crates/{name}/{file}", "another text")
    for file in ("docs/page.md", "docs/other.md", "tests/test.sh", "README.md"):
        tree.write(file, "another text")
    lines = (tree.top / "crates.txt").read_text()
    tree.write("crates.txt", "# another comment\n" + lines.replace("lab: blobref", "lab: blobref hex") + "other: blobref\n")
    compare("changes apart from the program", "current", True, tree.is_current())
    tree.run("changes apart from the program")
    compare("changes apart from the program", "builds", 1, tree.builds())


def changed_back(program):
    tree = built(program)
    for text, is_current in [("text 2", False), ("text 1", True)]:
        tree.write("crates/pack_store/src/lib.rt", text)
        compare(f"a source that is now {text}", "current", is_current, tree.is_current())
    compare("a source that is as it was", "what it says", "", tree.run("a source that is as it was"))


def moved(program):
    """It may be started by a link and from any folder."""
    tree = built(program)
    link = program.new_path()
    link.symlink_to(tree.top / "perkeep")
    compare("a link", "what it says", "", tree.run("a link", "stat", launcher=link, folder=program.folder))
    compare("a link", "builds", 1, tree.builds())


def quick(program):
    """A start with nothing to build costs little. The cost is printed; only one that is far too great is a failure."""
    tree = built(program)
    tree.run("a second start")
    start = time.monotonic()
    for _ in range(20):
        tree.run("a start")
    seconds = (time.monotonic() - start) / 20
    print(f"starts: a start by the launcher takes {1000 * seconds:.0f} ms", flush=True)
    check(f"a start takes {seconds:.2f} seconds", seconds < 5)


def without_toolchain(program):
    """Without a toolchain nothing can be built, and no program is run whose currency nobody knows."""
    tree = Tree(program)
    (tree.fake / "rt").unlink()
    fails("no toolchain", tree, PATH="/usr/bin:/bin")
    compare("no toolchain", "rooms", [], tree.rooms())


# Changes that make another build necessary

FILES = ("src/lib.rt", "specs/Lib.antt", "proofs/store/put.antt")
PROGRAM = "crates/perkeep_cli/out/perkeep_cli"
EDITS = {
    "a new source": lambda tree: tree.write("crates/pack_store/src/new.rt", ""),
    "a new proof": lambda tree: tree.write("crates/perkeep_top/proofs/new/new.antt", ""),
    "a file that is gone": lambda tree: (tree.top / "crates/blobref/specs/Lib.antt").unlink(),
    "a file of another name": lambda tree: (tree.top / "crates/blobref/src/lib.rt").rename(tree.top / "crates/blobref/src/other.rt"),
    "a text of the same length and time": lambda tree: same_length_and_time(tree, "crates/blobref/src/lib.rt"),
    "the line of a crate": lambda tree: lengthen_line(tree, "pack_format", "hex"),
    "what handles are allowed": lambda tree: tree.write("HANDLES", "Handles allowed: Threads, Wait.\n"),
    "another toolchain": lambda tree: tree.tool("rt", RT.replace("version 1", "version 2")),
    "a program that is gone": lambda tree: (tree.top / PROGRAM).unlink(),
    "another program": lambda tree: (tree.top / PROGRAM).write_text("#!/bin/sh\necho another\n"),
    "a program that can't be run": lambda tree: (tree.top / PROGRAM).chmod(0o644),
}


def same_length_and_time(tree, name):
    file = tree.top / name
    before, text = file.stat(), file.read_text()
    file.write_text(text[::-1])
    os.utime(file, ns=(before.st_atime_ns, before.st_mtime_ns))


def lengthen_line(tree, name, used):
    lines = (tree.top / "crates.txt").read_text().splitlines(keepends=True)
    places = [place for place, line in enumerate(lines) if line.startswith(f"{name}:")]
    compare("crates.txt", "lines of the crate", 1, len(places))
    lines[places[0]] = f"{lines[places[0]].rstrip()} {used}\n"
    tree.write("crates.txt", "".join(lines))


def stale(program):
    return [lambda: each_source(program)] + [lambda what=what, edit=edit: makes_stale(program, what, edit) for what, edit in EDITS.items()]


def each_source(program):
    """A change of a source, a spec or a proof, in turn, of each crate below the program, one at a time."""
    tree = built(program)
    for name, file in zip(crates_below(), itertools.cycle(FILES)):
        path = f"crates/{name}/{file}"
        text = (tree.top / path).read_text()
        tree.write(path, text + "!")
        compare(f"{path} with a change", "current", False, tree.is_current())
        tree.write(path, text)
    compare("all as it was", "current", True, tree.is_current())


def makes_stale(program, what, edit):
    tree = built(program)
    tree.run(what)
    edit(tree)
    compare(what, "current", False, tree.is_current())
    check(f"{what}: nothing is said of a build", "perkeep: building" in tree.run(what))
    compare(what, "builds", 2, tree.builds())
    compare(what, "current, then", True, tree.is_current())


# Builds that fail, and several launchers

def builds(program):
    checks = (failed_build, not_believed, changed_meanwhile, two_at_once, two_failures, beside_a_gate)
    return [lambda check=check: check(program) for check in checks]


def fails(what, tree, why=None, **settings):
    process = tree.start("get", "x", **settings)
    out, err = process.communicate("input\n", timeout=SECONDS)
    compare(what, "exit status", 70, process.returncode)
    compare(what, "standard output", "", out)
    check(f"{what}: it isn't said why: {err}", err.endswith("perkeep: the program could not be built\n") and (why or "") in err)
    compare(what, "current", False, tree.is_current())


def failed_build(program):
    """A build that fails ends the start, whatever was built before, until one succeeds."""
    tree = built(program)
    for builds, status in [(4, 1), (7, 137)]:
        tree.write("crates/pack_store/src/lib.rt", f"text of status {status}")
        tree.write("fake/fails", f"{status}")
        for _ in range(2):
            fails(f"a build that ends with status {status}", tree, "rt: not proved, for a reason")
            compare(f"a build that ends with status {status}", "rooms", [], tree.rooms())
        (tree.fake / "fails").unlink()
        tree.run("a build that is good again")
        compare("a build that is good again", "builds", builds, tree.builds())


def not_believed(program):
    """A program is run only if the toolchain has made it and reports success."""
    ways = ("makes_nothing", "counts_a_failure", "ends_before_all_is_told", "fails_late", "makes_what_does_not_start")
    tree = built(program)
    tree.write("crates/pack_store/src/lib.rt", "text 2")
    for what in ways:
        tree.write(f"fake/{what}", "")
        fails(f"a toolchain that {what.replace('_', ' ')}", tree)
        (tree.fake / what).unlink()
    tree.run("a toolchain that does none of this")


def changed_meanwhile(program):
    """A source that changes while a build runs causes another build, and the program that runs is of the new text."""
    tree = Tree(program)
    tree.write("fake/meanwhile", f"printf 'text 2' >{tree.top}/crates/pack_store/src/lib.rt; rm $0")
    process = tree.start("get")
    out, _ = process.communicate("", timeout=SECONDS)
    compare("a source that changes while a build runs", "standard output", "text 2: get\n", out)
    compare("a source that changes while a build runs", "builds", 2, tree.builds())


def two_at_once(program):
    """Of several launchers one builds, and the others wait for it."""
    tree = Tree(program)
    tree.write("fake/seconds", "1")
    processes = [tree.start(f"{number}") for number in range(4)]
    for number, process in enumerate(processes):
        out, _ = process.communicate("", timeout=SECONDS)
        compare("several launchers", "exit status", 3, process.returncode)
        compare("several launchers", "standard output", f"text 1: {number}\n", out)
    compare("several launchers", "builds", 1, tree.builds())


def two_failures(program):
    tree = Tree(program)
    tree.write("fake/fails", "1")
    processes = [tree.start() for _ in range(2)]
    for process in processes:
        process.communicate("", timeout=SECONDS)
        compare("several launchers, a build that fails", "exit status", 70, process.returncode)


def beside_a_gate(program):
    """A build waits for other commands that work on the program's crate, as the toolchain's commands do: a gate empties
    `out`."""
    tree = Tree(program)
    folder = os.open(tree.top / "crates/perkeep_cli", os.O_RDONLY)
    fcntl.flock(folder, fcntl.LOCK_EX)
    process = tree.start(PERKEEP_BUILD="only")
    told = f"perkeep: waiting for what is at work in {tree.top}/crates/perkeep_cli\n"
    compare("a build beside a gate", "what it says", told, process.stderr.readline())
    compare("a build beside a gate", "calls", [], tree.calls())
    shutil.rmtree(tree.top / "crates/perkeep_cli/out")
    os.close(folder)
    process.communicate(timeout=SECONDS)
    compare("a build beside a gate", "exit status", 0, process.returncode)
    compare("a build beside a gate", "current", True, tree.is_current())
    check("a build holds on to the crate", can_lock(tree.top / "crates/perkeep_cli"))


def can_lock(path):
    folder = os.open(path, os.O_RDONLY)
    try:
        fcntl.flock(folder, fcntl.LOCK_EX | fcntl.LOCK_NB)
        return True
    except BlockingIOError:
        return False
    finally:
        os.close(folder)


# Where it builds

def rooms(program):
    checks = (what_is_copied, lost_rooms, full_disk)
    return [lambda check=check: check(program) for check in checks]


def what_is_copied(program):
    """Only the program's crates are copied, with the files of them that the gate reads, as a repository that isn't
    below this one."""
    tree = Tree(program)
    tree.build("a build")
    room = pathlib.Path((tree.fake / "room").read_text().strip())
    compare("the room", "the folder that it is in", tree.scratch, room.parent.parent)
    compare("the room", "rooms that are left", [], tree.rooms())
    names = crates_below()
    files = {f"./crates/{name}/{file}" for name in names for file in PARTS}
    files |= {f"./crates/perkeep_cli/{file}" for file in OF_A_PROGRAM} | {"./crates.txt", "./HANDLES", "./.git"}
    folders = {str(above) for file in files for above in pathlib.Path(file).parents}
    wanted = files | {f"./{folder}" for folder in folders - {"."}} | {"."}
    found = set((tree.fake / "files").read_text().splitlines())
    compare("the room", "what lacks", set(), wanted - found)
    compare("the room", "what is there beside", set(), found - wanted)
    listed = (tree.fake / "kit/crates.txt").read_text().splitlines()
    compare("the room's crates.txt", "its crates", names, [line.split(":")[0].split()[0] for line in listed])
    whole = (tree.top / "crates.txt").read_text().splitlines()
    compare("the room's crates.txt", "lines that are others", [], [line for line in listed if line not in whole])
    compare("the room's HANDLES", "text", (tree.top / "HANDLES").read_text(), (tree.fake / "kit/HANDLES").read_text())


def lost_rooms(program):
    """Rooms of a launcher that was killed are removed, and the room in which another one works is kept."""
    tree = Tree(program)
    ended = subprocess.Popen(["true"])
    ended.wait()
    lost, taken = (tree.scratch / f"perkeep-room-{number}-abcdef" for number in (ended.pid, os.getpid()))
    for room in (lost, taken):
        (room / "crates").mkdir(parents=True)
    tree.build("a build after one that was killed")
    compare("a build after one that was killed", "rooms", [taken.name], tree.rooms())


def full_disk(program):
    """If the disk is nearly full, a message says that no proof will be kept."""
    tree = Tree(program)
    for free, is_told in [(4_999, True), (5_000, False), (0, True)]:
        (tree.top / PROGRAM).unlink(missing_ok=True)
        tree.tool("df", f"#!/bin/sh\nprintf 'Avail\\n90000\\n{free}\\n'\n")
        told = f"perkeep: the disk has {free} MB free, and rt wants 3000; below 5000 it keeps nothing of what it proves"
        said = tree.build(f"{free} MB free")
        compare(f"{free} MB free", "whether it is said", is_told, f"{told}, so a build that is interrupted" in said)


# For which level it builds

def levels(program):
    checks = (machines, calls_for_a_level, by_hand, by_hand_as_it_is, moved_folder, moved_by_hand, beyond, lacking)
    return [lambda check=check: check(program) for check in (*checks, no_verdicts)]


def machines(program):
    """The program is built for x86-64-v3 if the processor has every feature of it, otherwise for x86-64-v2."""
    tree = Tree(program)
    tree.build("an older processor")
    compare("an older processor", "level", "x86-64-v2", tree.level())
    flags = f"{OLDER} {NEWER}".split()
    named = [flag for flag in flags if flag not in ("fpu", "sse", "sse2", "pni")]
    for lacking in named:
        tree.write("fake/flags", " ".join(flag for flag in flags if flag != lacking) + f" {lacking}x x{lacking}")
        compare(f"a processor without {lacking}", "whether the program is for it", True, tree.is_current())
    (tree.fake / "flags").unlink()
    compare("a processor of which nothing is known", "whether the program is for it", True, tree.is_current())
    for order in (flags, flags[::-1]):
        tree.write("fake/flags", " ".join(order))
        compare("a newer processor", "whether the older program is for it", False, tree.is_current())
    tree.run("a newer processor", "get", "x")
    compare("a newer processor", "level", "x86-64-v3", tree.level())
    compare("a newer processor", "current", True, tree.is_current())


def newer(program):
    """A tree on a newer machine."""
    tree = Tree(program)
    tree.write("fake/flags", f"{OLDER} {NEWER}")
    return tree


def calls_for_a_level(program):
    """For another level than the gate's all crates except the program's own are proved by the gate, and this one over
    them."""
    tree = newer(program)
    lengthen_line(tree, "perkeep_cli", "hex")
    said = tree.build("a build for x86-64-v3")
    compare("a build for x86-64-v3", "calls", ["ci", "rattle build", "rattle-link"], tree.calls())
    told = "perkeep: proving perkeep_cli for x86-64-v3, in some minutes"
    compare("a build for x86-64-v3", "what is said last", told, said.splitlines()[-1])
    kit, room = tree.fake / "kit", (tree.fake / "room").read_text().strip()
    listed = [line.split(":")[0].split()[0] for line in (kit / "crates.txt").read_text().splitlines()]
    compare("a build for x86-64-v3", "crates that the gate proves", crates_below()[:-1], listed)
    words = (tree.fake / "words").read_text().splitlines()
    lines = (tree.top / "crates.txt").read_text().splitlines()
    used = next(line for line in lines if line.startswith("perkeep_cli:")).split()[1:-1]
    below = [name for name in crates_below() if name != "perkeep_cli"]
    pairs = [("--extern", f"std={kit}/rlibs/std.rlib"), ("--extern", f"hex={kit}/rlibs/hex.rlib")]
    pairs += [("--extern", f"{name}={room}/crates/{name}/out/rlib/{name}.rlib") for name in used]
    folders = [f"{kit}/rlibs", *[f"{room}/crates/{name}/out/rlib" for name in below]]
    pairs += [("-L", f"dependency={folder}") for folder in folders]
    found = list(zip(words, words[1:]))
    compare("the prover's words", "libraries", sorted(pairs), sorted(pair for pair in found if pair[0] in ("--extern", "-L")))
    check(f"the prover's words: {words}", "--cpu=x86-64-v3" in words and not [word for word in words if "incremental" in word])
    log = (tree.top / "crates/perkeep_cli/out/launcher.log").read_text()
    check(f"the log: {log}", "cpu=x86-64-v3 threads=" in log)


def by_hand(program):
    """A level that is requested holds until another one is, whatever else changes."""
    tree = newer(program)
    compare("a level by hand", "current", False, tree.is_current(PERKEEP_CPU="x86-64-v2"))
    tree.run("a level by hand", PERKEEP_CPU="x86-64-v2")
    compare("a level by hand", "calls", ["ci"], tree.calls())
    compare("a plain start then", "what it says", "", tree.run("a plain start then"))
    tree.write("crates/pack_store/src/lib.rt", "text 2")
    tree.write("fake/fails", "1")
    fails("a build that fails", tree)
    (tree.fake / "fails").unlink()
    tree.run("an edit")
    compare("an edit", "level", "x86-64-v2", tree.level())
    for level in ("x86-64", "x86-64-v3"):
        compare(f"a look at {level}", "current", False, tree.is_current(PERKEEP_CPU=level))
        compare(f"a look at {level}", "current without it", True, tree.is_current())
        tree.run(level, PERKEEP_CPU=level)
        compare(level, "level", level, tree.level())
        compare(level, "current without it", True, tree.is_current())
    tree.write("fake/flags", OLDER)
    tree.run("this machine's own, by hand", PERKEEP_CPU="native")
    compare("this machine's own, by hand", "level", "x86-64-v2", tree.level())
    tree.write("fake/flags", f"{OLDER} {NEWER}")
    compare("another machine's", "current", False, tree.is_current())


def by_hand_as_it_is(program):
    """The same for a level for which the program was built already, without a message."""
    tree = built(program)
    compare("a level that it has", "what it says", "", tree.build("a level that it has", PERKEEP_CPU="x86-64-v2"))
    tree.write("fake/flags", f"{OLDER} {NEWER}")
    compare("a level that it has", "current on a newer machine", True, tree.is_current())
    compare("a level that it has", "builds", 1, tree.builds())


def moved_folder(program):
    """On an older machine the program is built again, although no file has changed."""
    tree = newer(program)
    tree.run("a newer machine")
    compare("a newer machine", "what it then says", "", tree.run("a newer machine"))
    tree.write("fake/flags", OLDER)
    compare("an older machine", "current", False, tree.is_current())
    said = tree.run("an older machine").splitlines()
    check(f"an older machine: {said}", said[0].startswith("perkeep: building the program for x86-64-v2: "))
    count = len(crates_below())
    told = [f"perkeep: proved perkeep_cli ({count} of {count}, 0 min)"]
    compare("an older machine", "level and what is said beside", ("x86-64-v2", told), (tree.level(), said[1:]))


LACKS = "perkeep: this processor lacks what x86-64-v3 has; PERKEEP_CPU=x86-64-v2 ./perkeep builds the program for it\n"


def moved_by_hand(program):
    """If the level was requested, a message says what can be done, and nothing is removed."""
    tree = newer(program)
    tree.run("x86-64-v3 by hand", PERKEEP_CPU="x86-64-v3")
    tree.write("fake/flags", OLDER)
    refuses("x86-64-v3 by hand, moved", tree, LACKS)
    compare("x86-64-v3 by hand, moved", "current", False, tree.is_current())
    tree.write("fake/flags", f"{OLDER} {NEWER}")
    compare("x86-64-v3 by hand, moved back", "what it says", "", tree.run("x86-64-v3 by hand, moved back"))
    tree.write("fake/flags", OLDER)
    tree.run("x86-64-v3 by hand, moved, and another by hand", PERKEEP_CPU="x86-64-v2")
    compare("x86-64-v3 by hand, moved, and another by hand", "what it then says", "", tree.run("a plain start then"))


def refuses(what, tree, why, **settings):
    """Nothing is built or run, for a reason that is printed."""
    before = tree.calls()
    for build in ("", "only"):
        process = tree.start("get", "x", PERKEEP_BUILD=build, **settings)
        compare(what, "output and errors", ("", why), process.communicate("", timeout=SECONDS))
        compare(what, "exit status", 70, process.returncode)
    compare(what, "calls", before, tree.calls())


def beyond(program):
    """A level that this machine can't run isn't built, and isn't kept; nor is a text that isn't a level."""
    tree = built(program)
    refuses("x86-64-v3 here", tree, LACKS, PERKEEP_CPU="x86-64-v3")
    compare("a plain start then", "what it says", "", tree.run("a plain start then"))
    for level in ("x86-64-v4", "v3", "x86-64-v", "x86-64-v33", " x86-64-v3", "0"):
        why = "perkeep: PERKEEP_CPU is x86-64, x86-64-v2, x86-64-v3 or native\n"
        refuses(f"PERKEEP_CPU={level}", tree, why, PERKEEP_CPU=level)
    compare("a plain start then", "what it says", "", tree.run("a plain start then"))


def lacking(program):
    """A program that says at its start that it isn't for this processor isn't accepted; otherwise its status 127 is
    passed on, like any other."""
    tree = newer(program)
    process = tree.start("lacks", PERKEEP_CPU="x86-64-v3")
    process.communicate("", timeout=SECONDS)
    compare("a program that ends with 127", "exit status", 127, process.returncode)
    tree.write("fake/makes_what_does_not_start", "")
    (tree.top / PROGRAM).unlink()
    for level in ("x86-64", "x86-64-v2", "x86-64-v3"):
        told = "the program doesn't start here, by status 127, which says that the processor lacks what "
        told += f"{level} has; PERKEEP_CPU=x86-64-v2 ./perkeep builds one for others\n"
        fails(f"a program for {level} that doesn't start", tree, told, PERKEEP_CPU=level)


# Possible output of the prover for the program's crate, as edits of a good line. No program is built after these.
NO_VERDICTS = [
    ("not proved", "s/=proved.*/=not-proved/"),
    ("another level", "s/cpu=[^ ]*/cpu=x86-64-v2/"),
    ("no level", "s/ cpu=[^ ]*//"),
    ("a handle that isn't allowed", "s/main=[^ ]*/main=Threads+Wait+Net+Processes/"),
    ("a handle that none may have", "s/main=[^ ]*/main=Abort/"),
    ("a function that may abort", "s/may-wait=2/may-abort=1 may-wait=2/"),
    ("C of its own", "s/ axioms/ foreign=f axioms/"),
    ("a contract that says nothing", "s/may-wait=2/may-wait=2 hides=1/"),
    ("kept work", "s/$/ incremental=trusted/"),
    ("a line more", "s/$/\\nerror: and then/"),
    ("a word at the front", "s/^/ /"),
]


def no_verdicts(program):
    tree = newer(program)
    for what, edit in NO_VERDICTS:
        tree.write("fake/verdict", edit)
        fails(f"a verdict with {what}", tree, "perkeep: the gate passes no such line\n")
    compare("all of these", "calls", len(NO_VERDICTS) * ["ci", "rattle build"], tree.calls())
    (tree.fake / "verdict").unlink()
    tree.run("a good verdict")


# Messages during a build

def progress(program):
    checks = [from_nothing, some_kept, lanes, not_proved, level_fails, killed_once, edited]
    checks += [lambda program, ending=ending: interrupted(program, *ending) for ending in ENDINGS]
    return [lambda check=check: check(program) for check in checks]


def beginning(level="x86-64-v2"):
    """The first message of a build."""
    told = f"perkeep: building the program for {level}: what of its {len(crates_below())} crates isn't proved on this machine"
    return f"{told} is proved now, all of it in an hour on four processors (PERKEEP_TRY=1 runs it unproved, in two minutes)"


def compare_progress(what, proved, said, level="x86-64-v2"):
    """The messages of a build; `proved` are the crates that it proves in their order, with how many are proved then."""
    count = len(crates_below())
    told = [f"perkeep: proved {name} ({done} of {count}, 0 min)" for name, done in proved]
    compare(what, "what is said", [beginning(level), *told], said.splitlines())


def counted(names, start=1):
    return [(name, done) for done, name in enumerate(names, start)]


def from_nothing(program):
    tree = Tree(program)
    compare_progress("a build from nothing", counted(crates_below()), tree.build("a build from nothing"))


def some_kept(program):
    """Crates that are kept are counted, without a message."""
    names = crates_below()
    tree = built(program)
    changed = [names[3], names[17], names[-1]]
    for name in changed:
        tree.write(f"crates/{name}/src/lib.rt", "another text")
    proved = [(name, done) for name, done in counted(names) if name in changed]
    compare_progress("a build of some crates", proved, tree.build("a build of some crates"))
    (tree.top / PROGRAM).unlink()
    compare_progress("a build of what is kept", [], tree.build("a build of what is kept"))


def lanes(program):
    """PERKEEP_JOBS says how many crates are proved side by side; otherwise the toolchain chooses."""
    tree = Tree(program)
    for jobs, wanted in [("", "none"), ("0", "none"), ("x", "none"), ("3", "3"), ("012", "12")]:
        (tree.top / PROGRAM).unlink(missing_ok=True)
        tree.build(f"PERKEEP_JOBS={jobs}", PERKEEP_JOBS=jobs)
        compare(f"PERKEEP_JOBS={jobs}", "jobs", wanted, (tree.fake / "jobs").read_text().strip())


def not_proved(program):
    """A message says immediately which crate isn't proved, and at the end why; crates that were proved before it aren't
    proved again."""
    names = crates_below()
    tree = Tree(program)
    tree.write("fake/breaks", names[20])
    process = tree.start()
    out, said = process.communicate("", timeout=SECONDS)
    compare("a crate that isn't proved", "exit status and standard output", (70, ""), (process.returncode, out))
    count = len(names)
    told = [f"perkeep: proved {name} ({done} of {count}, 0 min)" for name, done in counted(names[:20])]
    told += [f"perkeep: {names[20]} NOT PROVED", f"== {names[20]}", "error: not this one", "logic=not-proved"]
    told += [f"rt: {names[20]} NOT PROVED", "perkeep: the program could not be built"]
    compare("a crate that isn't proved", "what is said", [beginning(), *told], said.splitlines())
    (tree.fake / "breaks").unlink()
    said = tree.build("a crate that is proved then")
    compare_progress("a crate that is proved then", counted(names[20:], 21), said)


def level_fails(program):
    tree = newer(program)
    for what in ("rattle_fails", "link_fails"):
        tree.write(f"fake/{what}", "")
        fails(what, tree)
        compare(what, "rooms", [], tree.rooms())
        (tree.fake / what).unlink()
    tree.run("a level that is built then")


def killed_once(program):
    """A proof that is killed, most likely for lack of memory, is tried once more with less."""
    tree = newer(program)
    tree.write("fake/is_killed", "")
    tree.build("a proof that is killed")
    compare("a proof that is killed", "calls", ["ci", "rattle build", "rattle build", "rattle-link"], tree.calls())
    compare("a proof that is killed", "its words then", ["--jobs", "1"], (tree.fake / "words").read_text().splitlines()[-2:])


# Ways to end a build: the signal, whether all of the launcher's group gets it, and the launcher's status then.
ENDINGS = [
    (signal.SIGINT, True, 130),
    (signal.SIGTERM, False, 143),
    (signal.SIGHUP, False, 129),
]


def interrupted(program, sign, is_for_group, status):
    """A build that is interrupted ends immediately and leaves no process and no room; the next one continues where it
    stopped."""
    names = crates_below()
    what = f"a build that gets {sign.name}"
    tree = newer(program)
    tree.write("fake/stops", names[9])
    process = tree.start()
    said = "".join(iter(process.stderr.readline, f"perkeep: proved {names[9]} (10 of {len(names)}, 0 min)\n"))
    compare_progress(what, counted(names[:9]), said, "x86-64-v3")
    ends_at_once(what, tree, process, sign, is_for_group, status)
    (tree.fake / "stops").unlink()
    tree.write("fake/stops_late", "")
    process = tree.start()
    said = "".join(iter(process.stderr.readline, "perkeep: proving perkeep_cli for x86-64-v3, in some minutes\n"))
    compare_progress(what, counted(names[10:-1], 11), said, "x86-64-v3")
    ends_at_once(what, tree, process, sign, is_for_group, status)
    (tree.fake / "stops_late").unlink()
    tree.run(what)


def ends_at_once(what, tree, process, sign, is_for_group, status):
    room = (tree.fake / "room").read_text().strip()
    compare(what, "rooms before", [pathlib.Path(room).parent.name], tree.rooms())
    (os.killpg if is_for_group else os.kill)(process.pid, sign)
    start = time.monotonic()
    compare(what, "what it says then", ("", ""), process.communicate(timeout=SECONDS))
    check(f"{what}: it takes {time.monotonic() - start:.1f} seconds", time.monotonic() - start < 20)
    compare(what, "exit status", status, process.returncode)
    compare(what, "rooms", [], tree.rooms())
    compare(what, "what still runs", [], running_in(room))
    compare(what, "current", False, tree.is_current())


def running_in(folder):
    """The processes whose working folder was below a folder."""
    found = []
    for process in pathlib.Path("/proc").glob("[0-9]*"):
        try:
            if os.readlink(process / "cwd").startswith(folder):
                found.append((process / "cmdline").read_text())
        except OSError:
            pass
    return found


def edited(program):
    """After an edit only the crates that changed are proved."""
    tree = built(program)
    tree.write("crates/pack_store/src/lib.rt", "text 2")
    done = crates_below().index("pack_store") + 1
    compare_progress("an edit", [("pack_store", done)], tree.build("an edit"))


# Running the sources

# The first message, and the last one if there is no answer.
UNPROVED = "perkeep: not proved here: rt try runs the sources, which takes a minute or two\n"
NO_ANSWER = "perkeep: the sources gave no answer, for the reason above (a command has 60 seconds, and 1 MiB of output)\n"
# The toolchain's line for a program that ended with a status. The program's output comes before it.
ENDED = """interpreter: no-answer: a call of a function
checked: ended status={0}
races: not looked for
run=ended status={0} runners=1 races=unchecked proved=no
"""
# Arguments, and those that are passed on in the folder @.
HANDED = [
    (["put", "d"], ["put", "@/d"]),
    (["put", "a folder/d"], ["put", "@/a folder/d"]),
    (["put", "."], ["put", "@/."]),
    (["put", "/d"], ["put", "/d"]),
    (["put", ""], ["put", ""]),
    (["get", "d", "d"], ["get", "@/d", "d"]),
    (["list", "--limit", "5", "d", "--after", "d"], ["list", "--limit", "5", "@/d", "--after", "d"]),
    (["list", "--limit=5", "d"], ["list", "--limit=5", "@/d"]),
    (["list", "--limit=5", "--", "d"], ["list", "--limit=5", "--", "@/d"]),
    (["list", "--", "-d"], ["list", "--", "@/-d"]),
    (["list", "--", "--"], ["list", "--", "@/--"]),
    (["put-file", "d", "--", "-d"], ["put-file", "@/d", "--", "-d"]),
    (["search", "--attr", "d", "d", "--value=d"], ["search", "--attr", "d", "@/d", "--value=d"]),
    (["words", "d", "tag:d", "--at", "d"], ["words", "@/d", "tag:d", "--at", "d"]),
    (["words", "--at", "d", "--", "d", "-tag:d"], ["words", "--at", "d", "--", "@/d", "-tag:d"]),
    (["claim", "--key", "me", "d", "set", "--", "R", "tag", "-a"], ["claim", "--key", "me", "@/d", "set", "--", "R", "tag", "-a"]),
    (["search-pack", "d", "d"], ["search-pack", "d", "d"]),
    (["search-pack", "--", "d", "d"], ["search-pack", "--", "d", "d"]),
    (["load", "1", "1"], ["load", "1", "1"]),
    # These aren't valid lines, and remain invalid.
    ([], []),
    ([""], [""]),
    (["list"], ["list"]),
    (["list", "-"], ["list", "-"]),
    (["list", "-d"], ["list", "-d"]),
    (["list", "--limit", "d"], ["list", "--limit", "d"]),
    (["--", "list", "d"], ["--", "@/list", "d"]),
]


def tries(program):
    checks = (hands_on, keyrings, inputs, no_input, statuses, no_answers, refusals, proved_program, asked_for)
    return [lambda check=check: check(program) for check in checks]


class Tried(Tree):
    """A tree whose sources end with a status, after they wrote to standard output and standard error."""

    def __init__(self, program, status=0, output="", told="", said=None):
        super().__init__(program)
        self.write("fake/ends", f"{status}")
        self.write("fake/output", output)
        self.write("fake/said", told + ENDED.format(status) if said is None else said)

    def ends(self, what, words, status, out, err, source="", **settings):
        """Starts the launcher, which has to end in this way."""
        process = self.start(*words, PERKEEP_TRY="1", **settings)
        got_out, got_err = process.communicate(source, timeout=SECONDS)
        compare(what, "exit status", status, process.returncode)
        compare(what, "standard output", out, got_out)
        compare(what, "standard error", err, got_err)
        compare(what, "current", False, self.is_current())

    def given(self, name):
        return (self.fake / name).read_text()


def hands_on(program):
    tree = Tried(program)
    folder = program.new_path()
    folder.mkdir()
    for words, handed in HANDED:
        tree.ends(f"{words}", words, 0, "", UNPROVED, folder=folder)
        wanted = "".join(f"{word}\0".replace("@", str(folder)) for word in handed)
        compare(f"{words}", "words handed on", wanted, tree.given("words"))
    check(f"calls {tree.calls()}", all(call.startswith("perkeep_cli try ") for call in tree.calls()))
    compare("the sources", "calls", len(HANDED), len(tree.calls()))


def keyrings(program):
    """The working folder's keyring is passed to the commands that read it there."""
    folder = program.new_path()
    folder.mkdir()
    rows = [(["search-pack", "tag", "a"], True), (["load", "1", "1"], True), (["put", "d"], False), (["list", "."], False)]
    for words, is_handed in rows:
        for keyring in ("me 0123\n", None):
            tree = Tried(program)
            (folder / "keyring").unlink(missing_ok=True)
            if keyring is not None:
                (folder / "keyring").write_text(keyring)
            tree.ends(f"{words} and a keyring", words, 0, "", UNPROVED, folder=folder)
            is_given = (tree.fake / "keyring").exists()
            compare(f"{words} and a keyring", "whether it is handed on", is_handed and keyring is not None, is_given)
            compare(f"{words} and a keyring", "keyring", keyring if is_given else "", tree.given("keyring") if is_given else "")


def inputs(program):
    """Standard input is read to its end, however slowly it comes."""
    for words in (["put", "d"], ["put-file", "d", "name"], ["multi", "d", "--key", "me"], ["query", "d"], ["search-pack", "tag", "a"]):
        tree = Tried(program)
        process = tree.start(*words, PERKEEP_TRY="1")
        process.stdin.write("slow ")
        process.stdin.flush()
        time.sleep(0.5)
        compare(f"{words}", "calls before the end of standard input", [], tree.calls())
        process.communicate("input\n", timeout=SECONDS)
        compare(f"{words}", "exit status", 0, process.returncode)
        compare(f"{words}", "standard input", ("regular file\n", "slow input\n"), (tree.given("kind"), tree.given("input")))


def no_input(program):
    """Commands that don't read standard input don't wait for its end."""
    for words in (["get", "d", "r"], ["list", "d"], ["permanode", "d", "--key", "me"], ["load", "1", "1"], []):
        tree = Tried(program)
        process = tree.start(*words, PERKEEP_TRY="1")
        compare(f"{words}", "exit status", 0, process.wait(SECONDS))
        compare(f"{words}", "standard input", "", tree.given("input"))
        process.communicate()


def statuses(program):
    """The program's own statuses, some of which equal the toolchain's."""
    for status in (0, 1, 2, 3, 4, 5, 6, 7, 9, 10, 12, 14):
        told = "" if status == 0 else "perkeep: word\n"
        tree = Tried(program, status, "some\0output\nwith no end", told)
        tree.ends(f"status {status}", ["list", "d"], status, "some\0output\nwith no end", UNPROVED + told)


def no_answers(program):
    """The toolchain's statuses and messages when there is no answer."""
    rows = [
        (1, "error: this doesn't compile\nrun=none proved=no\n"),
        (2, "rt: it doesn't start\nrun=none proved=no\n"),
        (3, "antt hit a limit\nrun=none proved=no\n"),
        (4, "checked: fault kind=index\nrun=fault status=0 proved=no\n"),
        (5, "run=differs proved=no\n"),
        (6, "perkeep: word\nchecked: no-answer: it wrote too much\nrun=no-answer runners=1 proved=no\n"),
        (0, "run=ended status=0 runners=1 proved=no\nmore\n"),
        (0, ""),
        (0, "run=ended status=0 runners=1 proved=yes\n"),
    ]
    for status, said in rows:
        tree = Tried(program, status, "a part of the output", said=said)
        tree.ends(f"status {status} and {said!r}", ["list", "d"], 70, "", UNPROVED + said + NO_ANSWER)
    tree = Tried(program)
    (tree.fake / "rt").unlink()
    process = tree.start("list", "d", PERKEEP_TRY="1", PATH="/usr/bin:/bin")
    out, err = process.communicate(timeout=SECONDS)
    compare("no toolchain", "exit status and standard output", (70, ""), (process.returncode, out))
    check(f"no toolchain: it says {err}", err.startswith(UNPROVED) and err.endswith(NO_ANSWER))


def refusals(program):
    """What can't be done unproved is refused with one line, and the toolchain isn't called."""
    limit = 64 << 20
    tree = Tried(program)
    for words in (["serve"], ["serve", "d", "--port", "3179"], ["serve-shares", "d", "--port", "3190"]):
        refusal = f"perkeep: {words[0]} isn't run unproved; PERKEEP_BUILD=only ./perkeep builds the program\n"
        tree.ends(f"{words}", words, 70, "", refusal)
    too_long = f"perkeep: PERKEEP_TRY=1 takes less than {limit} bytes of standard input\n"
    tree.ends("too much input", ["put", "d"], 70, "", too_long, source=" " * limit)
    compare("refusals", "calls", [], tree.calls())
    tree.ends("less input", ["put", "d"], 0, "", UNPROVED, source=" " * (limit - 1))
    compare("less input", "standard input", limit - 1, (tree.fake / "input").stat().st_size)


def proved_program(program):
    """If the built program is current, it is run, without a message."""
    tree = built(program)
    compare("a program that is current", "what it says", "", tree.run("a program that is current", "serve", PERKEEP_TRY="1"))
    check(f"a program that is current: {tree.calls()}", not tree.has_tried())


def asked_for(program):
    """Nothing unproved is run unless that is requested explicitly."""
    for value in ("", "0", "2", "yes", "11"):
        tree = Tried(program)
        tree.run(f"PERKEEP_TRY={value}", PERKEEP_TRY=value)
        check(f"PERKEEP_TRY={value}: {tree.calls()}", not tree.has_tried())
    tree = Tried(program)
    tree.write("fake/fails", "1")
    fails("a build that fails", tree)
    check(f"a build that fails: {tree.calls()}", not tree.has_tried())
    tree = Tried(program)
    for setting, status in [("check", 1), ("only", 0)]:
        process = tree.start("put", "d", PERKEEP_TRY="1", PERKEEP_BUILD=setting)
        out, _ = process.communicate("", timeout=SECONDS)
        compare(f"PERKEEP_BUILD={setting}", "exit status and standard output", (status, ""), (process.returncode, out))
    check(f"PERKEEP_BUILD beside PERKEEP_TRY: {tree.calls()}", not tree.has_tried())


if __name__ == "__main__":
    # A process that was started in the background ignores interrupts, and so would the processes that it starts.
    signal.signal(signal.SIGINT, signal.default_int_handler)
    harness.main("launcher.sh", [starts, stale, builds, rooms, levels, progress, tries])
