"""The files that are installed with the program: the manual page and the completions of install/, and the units of
examples/.

They have to be what install/make.py makes from docs/commands.md, and their readers have to accept them. The offers of
bash's completion are compared with the page's lines of commands, written down here.
"""

import functools
import os
import pathlib
import re
import shutil
import socket
import subprocess

import harness
from harness import SECONDS, LeftOut, check, compare

TOP = pathlib.Path(__file__).resolve().parent.parent
INSTALL = TOP / "install"
MADE = ["_perkeep", "perkeep.1", "perkeep.bash"]
COMMANDS = "put get stat list search words query salvage search-pack permanode claim multi delete get-file put-file".split()
COMMANDS += "push pull mirror load serve serve-shares".split()
# Words on the command line, as bash divides them, and the offers for the last word. There are the folders `a folder`
# and `archive`, which has the keys `me` and `mine`, and a file `arrow`. A program listens at PORT.
OFFERS = [
    ([""], COMMANDS),
    (["se"], ["search", "search-pack", "serve", "serve-shares"]),
    (["search"], ["search", "search-pack"]),
    (["other"], []),
    (["other", ""], []),
    (["put", ""], ["a folder", "archive"]),
    (["put", "ar"], ["archive"]),
    (["put", "archive", ""], []),
    (["put", "-"], []),
    (["search-pack", ""], []),
    (["load", "100", ""], []),
    (["get", "archive", ""], []),
    (["list", "--"], ["--after", "--limit"]),
    (["list", "archive", ""], ["--after", "--limit"]),
    (["list", "archive", "--l"], ["--limit"]),
    (["list", "archive", "--limit", ""], []),
    (["list", "archive", "--limit", "5", ""], ["--after"]),
    (["list", "--limit", "5", "ar"], ["archive"]),
    (["list", "--limit", "="], []),
    (["list", "--limit", "=", "5"], []),
    (["list", "--limit", "=", "5", "ar"], ["archive"]),
    (["list", "--limit", "=", "5", "archive", "--"], ["--after"]),
    (["list", "--", "ar"], ["archive"]),
    (["list", "--", "archive", "--"], []),
    (["list", "archive", "--", "-"], []),
    (["search", "archive", "--attr", "tag", "--"], ["--value", "--at"]),
    (["wo"], ["words"]),
    (["words", "ar"], ["archive"]),
    (["words", "archive", "tag:a", ""], ["--at"]),
    (["claim", "archive", ""], ["set", "add", "del"]),
    (["claim", "archive", "de"], ["del"]),
    (["claim", "--key", "me", "archive", "s"], ["set"]),
    (["claim", "archive", "set", "ref", "tag", "a", ""], ["--key"]),
    (["permanode", "archive", "--"], ["--key"]),
    (["permanode", "archive", "--key", ""], ["me", "mine"]),
    (["permanode", "archive", "--key", "mi"], ["mine"]),
    (["permanode", "archive", "--key", "="], ["me", "mine"]),
    (["claim", "archive", "set", "--key", "=", "mi"], ["mine"]),
    (["permanode", "arch", "--key", ""], []),
    (["permanode", "--key", ""], []),
    (["put-file", "archive", "a"], ["a folder", "archive", "arrow"]),
    (["put-file", "archive", "arr"], ["arrow"]),
    (["push", "archive", "127.0.0.1", ":", "PORT"], ["PORT"]),
    (["push", "archive", "127.0.0.1:PORT"], ["PORT"]),
    (["pull", "archive", "other", ":", "31"], []),
    (["push", "archive", "127.0.0.1", ":", "PORT", "--"], []),
    (["mirror", "archive", "127.0.0.1:PORT"], ["PORT"]),
    (["mirror", "archive", "127.0.0.1:1", "127.0.0.1:2", "127.0.0.1:PORT"], ["PORT"]),
    (["serve", "archive", "--port", "3179", "--"], ["--workers", "--indexers", "--connections"]),
]


def run(*words, **settings):
    """Runs a tool; returns its status, output and errors."""
    ran = subprocess.run(words, capture_output=True, text=True, timeout=SECONDS, stdin=subprocess.DEVNULL, **settings)
    return ran.returncode, ran.stdout, ran.stderr


def one_of(*names):
    """The first of these tools that is there."""
    found = [name for name in names if shutil.which(name)]
    if not found:
        raise LeftOut(f"there is no {' or '.join(names)} here")
    return found[0]


def silent(what, *words, **settings):
    """Runs a tool that has nothing to complain about; returns its output."""
    status, out, err = run(*words, **settings)
    compare(what, "exit status and errors", (0, ""), (status, err))
    return out


# Generated files

def made(program):
    folder = program.new_path()
    folder.mkdir()
    silent("install/make.py", INSTALL / "make.py", folder)
    compare("install/make.py", "what it makes", MADE, sorted(path.name for path in folder.iterdir()))
    return [lambda name=name: is_made(folder, name) for name in MADE]


def is_made(folder, name):
    is_same = (folder / name).read_text() == (INSTALL / name).read_text()
    check(f"install/{name} isn't what docs/commands.md says by now: run install/make.py", is_same)


# Completions

def bash(program):
    folder = program.new_path()
    for name in ("archive", "a folder"):
        (folder / name).mkdir(parents=True)
    (folder / "arrow").touch()
    (folder / "archive" / "keyring").write_text("me 00\nmine 01\n")
    return [lambda words=words, offers=offers: offers_so(folder, words, offers) for words, offers in OFFERS]


@functools.cache
def listener():
    return socket.create_server(("127.0.0.1", 0))


def offers_so(folder, words, offers):
    port = str(listener().getsockname()[1])
    words, offers = ([one.replace("PORT", port) for one in some] for some in (words, offers))
    script = 'source "$1"; shift; COMP_WORDS=(perkeep "$@"); COMP_CWORD=$#; _perkeep; printf "%s\\n" "${COMPREPLY[@]}"'
    what = f"completions of {words}"
    out = silent(what, "bash", "-c", script, "bash", INSTALL / "perkeep.bash", *words, cwd=folder)
    compare(what, "offers", sorted(offers), sorted(out.split("\n")[:-1] if out.strip() else []))


def zsh(_program):
    shell = one_of("zsh")
    return [lambda: silent("the completions for zsh", shell, "-n", INSTALL / "_perkeep")]


# The manual page, and the units

def man(_program):
    reader = one_of("groff", "mandoc")
    words = {"groff": ["-man", "-Tutf8", "-ww"], "mandoc": ["-Tutf8", "-Werror"]}[reader]
    return [lambda: is_read(reader, *words)]


def is_read(*reader):
    text = silent("the manual page", *reader, INSTALL / "perkeep.1")
    wanted = ["SYNOPSIS", "perkeep claim DIR KIND REF ATTR [VALUE] --key NAME", "EXIT STATUSES", "EXAMPLES", "FILES"]
    for wanted in [*wanted, "examples/put_tree.py 127.0.0.1:3179 photos", "DIR/keyring"]:
        check(f"the manual page doesn't have {wanted}", wanted in without_marks(text))


def without_marks(text):
    """Text without the marks that a terminal takes for bold and the like."""
    return re.sub(r"\x1b\[[0-9;]*m|.\x08", "", text)


UNITS = ["perkeep.service", "perkeep-mirror.service", "perkeep-mirror.timer", "perkeep-tunnel.service"]
UNITS += ["perkeep-shares.service", "perkeep-verify.service", "perkeep-verify.timer"]
# Files that a unit needs to start.
STARTED = [".local/bin/perkeep", ".local/bin/perkeep-mirror", ".local/share/perkeep/verify_backup.sh"]


def units(program):
    """Each unit is accepted without a complaint, that of the server also with its drop-in."""
    tool = one_of("systemd-analyze")
    if shutil.which("ssh", path="/usr/bin") is None:
        raise LeftOut("there is no /usr/bin/ssh here")
    home = program.new_path()
    for path in STARTED:
        (home / path).parent.mkdir(parents=True, exist_ok=True)
        (home / path).symlink_to("/bin/true")
    (home / "run").mkdir()
    for name in UNITS:
        shutil.copy(TOP / "examples" / name, home)
    (home / "perkeep.service.d").mkdir()
    shutil.copy(TOP / "examples" / "perkeep-hardening.conf", home / "perkeep.service.d")
    settings = {"env": {**os.environ, "HOME": str(home), "XDG_RUNTIME_DIR": str(home / "run")}}
    return [lambda name=name: silent(name, tool, "verify", "--user", home / name, **settings) for name in UNITS]


if __name__ == "__main__":
    harness.main("install.sh", [made, bash, zsh, man, units])
