"""Checks that each wrong body still is one changed line of its crate: the sixteen of the gate in
crates/NAME/must-fail/, and all others in wrong_bodies/NAME/.

An edit is a file with the lines `file: src/..`, `old: ..` and `new: ..`. That file must have the old text exactly once,
and the new text must differ. Nothing is proved here: the gate tries the sixteen, and bench/wrong_bodies.sh the others.
"""

import pathlib
import re
import sys

TOP = pathlib.Path(__file__).resolve().parent.parent
EDIT = re.compile(r"file: (?P<file>src/\S+\.rt)\nold: (?P<old>.+)\nnew: ?(?P<new>.*)\n?")
# A row of docs/gate.md that names edits of the gate: the crate, then their names in the last cell.
ROW = re.compile(r"^\|.*\| `(\w+)` \| ((?:`\w+`(?:, )?)+) \|", re.M)

# One that docs/gate.md names besides these.
NAMED = re.compile(r"`(\w+/\w+)`")


def edits():
    """The crate's name and the file of each edit."""
    for file in sorted(TOP.glob("crates/*/must-fail/*")):
        yield file.parent.parent.name, file
    for file in sorted(TOP.glob("wrong_bodies/*/*")):
        yield file.parent.name, file


def fault(crate, file):
    """Why an edit can't be tried; None if it can."""
    edit = EDIT.fullmatch(file.read_text()) if file.suffix == ".edit" else None
    if not edit:
        return "it isn't a file NAME.edit with the lines file, old and new"
    source = TOP / "crates" / crate / edit["file"]
    if not source.is_file():
        return f"there is no file crates/{crate}/{edit['file']}"
    count = source.read_text().count(edit["old"])
    if count != 1:
        return f"its old text stands {count} times in crates/{crate}/{edit['file']}"
    return "it changes nothing" if edit["old"] == edit["new"] else None


def of_the_gate():
    """The edits of the gate, as the folders have them and as docs/gate.md lists them."""
    stand = {f"{crate}/{file.stem}" for crate, file in edits() if file.parent.name == "must-fail"}
    rows = ROW.findall((TOP / "docs/gate.md").read_text())
    told = {f"{crate}/{name}" for crate, names in rows for name in re.findall(r"\w+", names)}
    return stand, told


def missing():
    """The edits that docs/gate.md names besides its table and that aren't there."""
    stand = {f"{crate}/{file.stem}" for crate, file in edits()}
    return sorted(set(NAMED.findall((TOP / "docs/gate.md").read_text())) - stand)


def failures():
    for crate, file in edits():
        why = fault(crate, file)
        if why:
            yield f"{file.relative_to(TOP)}: {why}"
    yield from (f"{name}: docs/gate.md names it, and it isn't there" for name in missing())
    stand, told = of_the_gate()
    for name in sorted(stand ^ told):
        yield f"{name}: {'docs/gate.md has no row of it' if name in stand else 'docs/gate.md lists it, and it is no edit of the gate'}"


def main():
    found = list(failures())
    for line in found:
        print(f"FAILED wrong_bodies {line}")
    print(f"{max(len(list(edits())) - len(found), 0)} passed, {len(found)} failed")
    sys.exit(1 if found else 0)


if __name__ == "__main__":
    main()
