"""Checks the documents: every file of the repository whose name ends in `.md`.

Relative links lead to files that are there, and their anchors to headings, by GitHub's rule for anchors. Lines outside
code and tables have at most 120 characters. Quotes in docs/top.md are in the file that is linked before them. The names
in docs/proved.md are in the crates that it names. The trusted crates have the numbers of lines that it gives, and it
names each public function without a contract. crates/README.md has the table that crates_table.py makes from crates.txt
and docs/gate.md, and each script has a row on the page of its folder.
"""

import collections
import functools
import os
import pathlib
import re

import contracts as functions
import crates_table
import harness
from budget import lines_of_crates
from harness import check, compare

TOP = pathlib.Path(__file__).resolve().parent.parent
LONGEST_LINE = 120
# Folders that aren't checked: built files, and those of git.
PASSED_OVER = {"out", ".git"}
CODE, TABLE, HEADING, TEXT = "code", "table", "heading", "text"

# A piece of code within a line, between as many backticks on both sides.
SPAN = re.compile(r"(?<!`)(`+)(?!`)(.+?)(?<!`)\1(?!`)", re.S)
LINK = re.compile(r"\[[^\[\]]*\]\(([^()\s]+)\)")
NAME = re.compile(r"[A-Za-z_]\w*(?:::\w+)*")
CRATES = frozenset(lines_of_crates())


# Pages

class Page:
    """A document: its lines, each with its kind."""

    def __init__(self, path):
        self.path = path
        self.name = str(path.relative_to(TOP))
        self.lines = path.read_text(encoding="utf-8").splitlines()
        self.kinds = list(kinds_of(self.lines))

    def blocks(self):
        """The paragraphs, the items of lists, the headings and the rows, each as one text without its line ends."""
        block = []
        for line, kind in zip(self.lines, self.kinds):
            begins = kind != TEXT or not line.strip() or re.match(r"\s*(-|\d+\.) ", line)
            if begins and block:
                yield " ".join(block)
                block = []
            if kind != CODE and line.strip():
                block.append(line.strip())
        if block:
            yield " ".join(block)

    @functools.cached_property
    def anchors(self):
        headings = [line for line, kind in zip(self.lines, self.kinds) if kind == HEADING]
        seen = collections.Counter()
        return {anchor_of(heading, seen) for heading in headings}

    def links(self):
        return [target for block in self.blocks() for target in LINK.findall(SPAN.sub("", block))]


def kinds_of(lines):
    fenced = indented = False
    before = ""
    for line in lines:
        indented = line.startswith("    ") and (indented or not before.strip()) or indented and not line.strip()
        before = line
        if line.lstrip().startswith("```"):
            fenced = not fenced
            yield CODE
        elif fenced or indented:
            yield CODE
        elif line.startswith("|"):
            yield TABLE
        else:
            yield HEADING if re.match(r"#+ ", line) else TEXT


def anchor_of(heading, seen):
    """The anchor of a heading on GitHub: one that comes again is numbered."""
    text = re.sub(r"\[([^\]]*)\]\([^)]*\)", r"\1", heading.lstrip("#").strip())
    anchor = re.sub(r"[^\w\- ]", "", text.lower()).replace(" ", "-")
    seen[anchor] += 1
    return anchor if seen[anchor] == 1 else f"{anchor}-{seen[anchor] - 1}"


@functools.cache
def page_at(path):
    return Page(path)


def pages():
    found = []
    for folder, folders, files in os.walk(TOP):
        folders[:] = sorted(set(folders) - PASSED_OVER)
        found += [pathlib.Path(folder) / name for name in sorted(files) if name.endswith(".md")]
    return [page_at(path) for path in found]


# Links and lines

def links(program):
    return [lambda page=page: compare(page.name, "links that lead nowhere", [], dead_links(page)) for page in pages()]


def dead_links(page):
    return [target for target in page.links() if not is_alive(page, target)]


def is_alive(page, target):
    if re.match(r"[a-z]+:", target):
        return True
    path, _, anchor = target.partition("#")
    goal = pathlib.Path(os.path.normpath(page.path.parent / path)) if path else page.path
    if not goal.is_relative_to(TOP) or not goal.exists():
        return False
    return not anchor or goal.suffix == ".md" and anchor in page_at(goal).anchors


def lines(program):
    return [lambda page=page: compare(page.name, "lines that are too long", [], long_lines(page)) for page in pages()]


def long_lines(page):
    numbered = enumerate(zip(page.lines, page.kinds), 1)
    return [number for number, (line, kind) in numbered if kind in (TEXT, HEADING) and len(line) > LONGEST_LINE]


# Quotes

def quotes(program):
    """Each block of docs/top.md is from the file that is linked last before it."""
    page = page_at(TOP / "docs" / "top.md")
    found, block, source = [], None, None
    for line, kind in zip(page.lines, page.kinds):
        if kind != CODE:
            source = (LINK.findall(line) or [source])[-1]
        elif line.startswith("```") and block is None:
            block = []
        elif line.startswith("```"):
            found.append(functools.partial(check_quote, page, source, block))
            block = None
        elif block is not None:
            block.append(line)
    return found


def check_quote(page, source, block):
    check(f"{page.name}: no file is named before {block[0]}", source is not None)
    text = (page.path.parent / source).read_text(encoding="utf-8")
    quoted = "\n".join(["", *block, ""])
    check(f"{page.name}: {source} doesn't have these lines: {block[0]} ..", quoted in f"\n{text}\n")


# Names

def ledger(program):
    """The names in docs/proved.md: a path that begins with a crate is declared there, and any other name of an item is
    in one of the crates that the item names."""
    page = page_at(TOP / "docs" / "proved.md")
    return [functools.partial(check_names, page, block) for block in page.blocks() if crates_named(block)]


def names_in(block):
    return [span for _, span in SPAN.findall(block) if NAME.fullmatch(span)]


def crates_named(block):
    return {name.split("::")[0] for name in names_in(block)} & CRATES


def check_names(page, block):
    crates = crates_named(block)
    for name in names_in(block):
        first, *rest = name.split("::")
        if first in CRATES:
            check(f"{page.name}: {name} isn't declared", all(is_declared(first, part) for part in rest))
        elif block.startswith("- "):
            parts = {first, *rest}
            check(f"{page.name}: {name} stands in none of {sorted(crates)}", any(parts <= words_of(c) for c in crates))


# A place in a test: names, and the file that is linked after them.
IN_TESTS = re.compile(r"((?:`\w+`(?: and )?)+) of \[[^\]]*\]\(([^)]+)\)")


def tried(program):
    """docs/limits.md names, for inputs at limits, tests that exist."""
    page = page_at(TOP / "docs" / "limits.md")
    found = [one for line in page.lines for one in IN_TESTS.findall(line)]
    check(f"{page.name}: it names only {len(found)} tests", len(found) >= 12)
    return [functools.partial(check_test, page, names, path) for names, path in found]


def check_test(page, names, path):
    text = (page.path.parent / path).read_text(encoding="utf-8")
    for name in re.findall(r"\w+", names.replace(" and ", " ")):
        check(f"{page.name}: {path} has no {name}", re.search(rf"^(def |const )?{name}\b", text, re.M))


def contracts(program):
    """docs/proved.md names each public function of the libraries that has no contract, and no other as such."""
    named = functions.named_on((TOP / "docs" / "proved.md").read_text(encoding="utf-8"))
    what = "the public functions without a contract"
    return [lambda: compare("docs/proved.md", what, functions.without_contract(), named)]


# A row of a table that begins with a crate and a number.
COUNTED = re.compile(r"\| `(\w+)` \| ([\d,]+) \|")
# A trusted crate may have grown or shrunk by so many lines since they were counted.
SOME_LINES = 50
# The crates that name functions of the system.
OF_THE_SYSTEM = re.compile(r"\bHostRuntime\b|\blibc::")


def trusted(program):
    """docs/proved.md lists each crate of the program that names the system, and no other, with its lines."""
    text = (TOP / "docs" / "proved.md").read_text(encoding="utf-8").partition("\n## What is trusted\n")[2]
    told = {name: int(count.replace(",", "")) for name, count in COUNTED.findall(text)}
    names = sorted(name for name in CRATES if OF_THE_SYSTEM.search(sources_of(name, "src")) and not is_of_tests(name))
    whole = [lambda: compare("docs/proved.md", "the crates that are trusted", names, sorted(told))]
    return whole + [functools.partial(check_count, name, count) for name, count in sorted(told.items())]


def is_of_tests(name):
    return name in ("fault_rows", "lab") or name.endswith("_tests")


def check_count(name, told):
    counted = sources_of(name, "src").count("\n") + 1
    check(f"docs/proved.md: {name} has {counted} lines, and not some {told}", abs(counted - told) <= SOME_LINES)


@functools.cache
def sources_of(crate, folder):
    files = sorted((TOP / "crates" / crate / folder).rglob("*.*"))
    return "\n".join(file.read_text(encoding="utf-8") for file in files)


def is_declared(crate, name):
    return re.search(rf"\b(fn|struct|enum|trait|type|const|mod) {name}\b", sources_of(crate, "src")) is not None


@functools.cache
def words_of(crate):
    return set(re.findall(r"\w+", sources_of(crate, "src") + sources_of(crate, "specs")))


# Crates and scripts

def crates(program):
    """The table of crates/README.md is the expected one, and has one row for each crate, with the cells that are
    written by hand."""
    text = crates_table.PAGE.read_text(encoding="utf-8")
    what = "how its table differs from what tests/crates_table.py --write makes"
    folders = {path.name for path in (TOP / "crates").iterdir() if path.is_dir()}
    whole = [
        lambda: compare("crates.txt", "its crates", sorted(folders), sorted(CRATES)),
        lambda: compare("crates/README.md", what, [], crates_table.differences(text)),
    ]
    return whole + [functools.partial(check_row, text, name) for name in sorted(CRATES)]


def check_row(text, name):
    rows = [row for row in map(crates_table.ROW.match, text.splitlines()) if row and row[1] == name]
    compare(f"crates/README.md: {name}", "its rows", 1, len(rows))
    check(f"crates/README.md: {name} has an empty cell", all(rows[0].groups()))


def scripts(program):
    """Each script has a row on the page of its folder."""
    found = [file for folder in ("tests", "bench") for file in sorted((TOP / folder).glob("*.sh"))]
    return [functools.partial(check_script, file) for file in found]


def check_script(file):
    page = page_at(file.parent / "README.md")
    check(f"{page.name} has no row of {file.name}", any(line.startswith(f"| `{file.name}` |") for line in page.lines))


if __name__ == "__main__":
    harness.main("links.sh", [links, lines, quotes, ledger, contracts, tried, trusted, crates, scripts])
