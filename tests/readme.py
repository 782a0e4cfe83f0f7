"""The pages for newcomers: whether README.md, docs/guide.md and docs/limits.md are correct.

The blocks of a page that are fenced as `sh` are one script of bash, from top to bottom. It is run in a fresh folder
with the program as ./perkeep, and the repository's examples and their keyring. The output of a block, errors too, is
shown in the block after it, if that is fenced as `text`; there `..` stands for anything in a line. A block without one
has to succeed.
"""

import itertools
import os
import pathlib
import re
import shutil
import signal
import subprocess

import crates_table
import harness
from harness import LeftOut, check, compare
from serving import PORTS

TOP = pathlib.Path(__file__).resolve().parent.parent
README, GUIDE, LIMITS = TOP / "README.md", TOP / "docs" / "guide.md", TOP / "docs" / "limits.md"
FENCED = re.compile(r"^```(\w*)\n(.*?)^```$", re.MULTILINE | re.DOTALL)
# The ports that the pages use; others are taken here.
PORTS_OF_PAGES = "3179", "3180", "3190"
TOOLS = ("bash", "curl", "openssl")
MOST_BYTES = 14_000
MARK = "the end of a block"
SECONDS = 60


# Commands

def blocks(page):
    """The commands of a page, each with its expected output, if that is shown."""
    fenced = [*FENCED.findall(page.read_text()), ("", "")]
    for (kind, text), (next_kind, shown) in itertools.pairwise(fenced):
        if kind == "sh":
            yield text, shown if next_kind == "text" else None


def script(commands):
    return "exec 2>&1\n" + "".join(f"{text}printf '\\n{MARK} %s\\n' $?\n" for text in commands)


def run_script(program, commands):
    """The output of each block, and its status."""
    folder = program.new_path()
    folder.mkdir()
    (folder / "perkeep").symlink_to(program.path)
    for name in ("examples", "keyring"):
        (folder / name).symlink_to(TOP / name)
    text = script(commands)
    for port in PORTS_OF_PAGES:
        text = text.replace(port, str(PORTS.free()))
    words = ["bash", "-u", "-c", text]
    streams = {"stdin": subprocess.DEVNULL, "stdout": subprocess.PIPE}
    settings = {**os.environ, "XDG_CACHE_HOME": str(folder / "cache")}
    with subprocess.Popen(words, cwd=folder, env=settings, start_new_session=True, text=True, **streams) as process:
        try:
            out, _ = process.communicate(timeout=SECONDS)
        finally:
            kill_group(process.pid)
    return re.findall(rf"(.*?)\n{MARK} (\d+)\n", out, re.DOTALL)


def kill_group(process):
    """Kills all that a script has left running."""
    try:
        os.killpg(process, signal.SIGKILL)
    except ProcessLookupError:
        pass


def compare_block(text, shown, done):
    out, status = done
    if shown is None:
        compare(text, "status", 0, int(status))
        check(f"{text}it printed {out}", "perkeep: " not in out)
    else:
        pattern = r"[^\n]*".join(map(re.escape, shown.strip("\n").split("..")))
        check(f"{text}printed\n{out}\nand not\n{shown}", re.fullmatch(pattern, out.strip("\n")))


def commands_of(page, program):
    missing = [tool for tool in TOOLS if shutil.which(tool) is None]
    if missing:
        raise LeftOut(f"{' and '.join(missing)} isn't there")
    shown = list(blocks(page))
    done = run_script(program, [text for text, _ in shown])
    counted = [lambda: compare(page.name, "blocks that were run", len(shown), len(done))]
    return counted + [lambda one=one, it=it: compare_block(*one, it) for one, it in zip(shown, done)]


def session(program):
    return commands_of(README, program)


def guide(program):
    return commands_of(GUIDE, program)


# Other names on the pages

def size(program):
    return [lambda: check(f"README.md has more than {MOST_BYTES} bytes", README.stat().st_size <= MOST_BYTES)]


def layers(program):
    """The README has a line for each layer, in their order."""
    lines = re.findall(r"^- \*\*(.+)\*\*: .", README.read_text(), re.MULTILINE)
    return [lambda: compare("README.md", "its layers", list(crates_table.layers()), lines)]


ROW = re.compile(r"^\| [^|]* \| ([^|]*) \| (?:`(\w+)`, )?`([\w/]+\.rt)` \|", re.MULTILINE)
WRITTEN = {"u64::MAX": 2**64 - 1, "1 << 63": 2**63, "1 << 60": 2**60}
POWER = re.compile(r"2\^(\d+)")


def limits(program):
    """Each row of docs/limits.md has the number that is in the source."""
    return [lambda row=row: limit_stands(*row) for row in ROW.findall(LIMITS.read_text())]


def limit_stands(told, name, path):
    text = (TOP / "crates" / path).read_text()
    power = POWER.match(told)
    number = 2 ** int(power[1]) if power else int(re.search(r"[\d,]+", told)[0].replace(",", ""))
    found = re.findall(rf"\b{name}(?:: \w+ =|:) ([^;,]+)[;,]", text) if name else re.findall(r"\b\d[\d_]*\b", text)
    values = [WRITTEN.get(one) or int(one.replace("_", "")) for one in found if one in WRITTEN or one[0].isdigit()]
    check(f"{path} has {name or 'no name'} {found}, and the page {told}", number in values)


if __name__ == "__main__":
    harness.main("readme.sh", [session, guide, size, layers, limits])
