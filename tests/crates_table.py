"""The table of crates in crates/README.md. Three cells of each row are written there by hand: what a crate is for, what
it promises, and what the crates above use of it. The script writes the others.

    crates_table.py --check     says whether the page has this table; status 1 if it hasn't
    crates_table.py --write     writes it into the page, and keeps the cells that are written by hand. Those of a new crate are empty

The layers, the crates and their dependencies are those of crates.txt, and the minutes those of the table in
docs/gate.md.
"""

import argparse
import difflib
import functools
import pathlib
import re
import sys

import budget

TOP = pathlib.Path(__file__).resolve().parent.parent
PAGE = TOP / "crates" / "README.md"
PROGRAM = "perkeep_cli"
# The columns, and which of them have numbers. The second to the fourth are written by hand.
COLUMNS = ("crate", "what it is for", "what it promises", "what those above use", "depends on", "crates above it", "minutes that a change costs")
RULES = ("---", "---", "---", "---", "---", "---:", "---:")
BY_HAND = 3
# The work that a change causes again, by the kinds of docs/gate.md.
DONE_AGAIN = ("proof", "tests", "edits")
ROW = re.compile(r"\| `(\w+)`(?: \*)? \|" + r"(?: ([^|]*))? \|" * BY_HAND)


# The content of crates.txt and docs/gate.md

def layers():
    """The names of the layers, each with its crates in their order."""
    found = {}
    for line in (TOP / "crates.txt").read_text(encoding="utf-8").splitlines():
        if line.startswith("#"):
            crates = found.setdefault(line.strip("# "), [])
        elif line.strip():
            crates.append(line.partition(":")[0].split()[0])
    return {name: crates for name, crates in found.items() if crates}


def all_below(own):
    """For each crate all crates below it."""
    @functools.cache
    def below(name):
        return frozenset(own[name]).union(*map(below, own[name]))

    return {name: below(name) for name in own}


class Map:
    """The crates, and their dependencies."""

    def __init__(self):
        self.crates = budget.Crates()
        self.costs = budget.costs(TOP / "docs" / "gate.md", self.crates)
        self.below = all_below(self.crates.own)

    def above(self, name):
        return [other for other, below in self.below.items() if name in below]

    def foundation(self, name):
        """The crates on its line: those that no other crate of the line uses, the line's others, and the kit's
        crates."""
        used, own = self.crates.used[name], self.crates.own[name]
        nearest = [one for one in own if not any(one in self.below[other] for other in own)]
        further = [one for one in own if one not in nearest]
        return nearest, further, [one for one in used if one not in own]

    def minutes(self, name):
        """The processor minutes of the work that a change of the crate causes again. A crate that docs/gate.md doesn't
        have adds none."""
        costs = [self.costs.get(one, {}) for one in (name, *self.above(name))]
        return sum(cost.get(kind, 0.0) for cost in costs for kind in DONE_AGAIN)

    def row(self, name, by_hand):
        star = "" if name == PROGRAM or name in self.below[PROGRAM] else " *"
        parts = zip(("", "also ", "kit "), self.foundation(name))
        stands_on = "; ".join(what + ", ".join(f"`{one}`" for one in names) for what, names in parts if names)
        return row(f"`{name}`{star}", *by_hand, stands_on, len(self.above(name)), f"{self.minutes(name):.1f}")


# The table

def row(*cells):
    return "|" + "|".join(f" {cell} " if cell != "" else " " for cell in cells) + "|"


def by_hand(text):
    """The cells of a page that are written by hand, by the crate."""
    rows = map(ROW.match, text.splitlines())
    return {found[1]: tuple(cell or "" for cell in found.groups()[1:]) for found in rows if found}


def table_of(text):
    """The lines of a page's table."""
    return [line for line in text.splitlines() if line.startswith("|")]


def due_table(text):
    """The lines that the page's table has to have."""
    crates, cells = Map(), by_hand(text)
    yield row(*COLUMNS)
    yield row(*RULES)
    for layer, names in layers().items():
        yield row(f"**{layer}**", *[""] * (len(COLUMNS) - 1))
        yield from (crates.row(name, cells.get(name, ("",) * BY_HAND)) for name in names)


def with_table(text, table):
    """The page with another table instead of its own."""
    lines = text.splitlines()
    first = next(number for number, line in enumerate(lines) if line.startswith("|"))
    rest = [line for line in lines[first:] if not line.startswith("|")]
    return "\n".join([*lines[:first], *table, *rest]) + "\n"


def differences(text):
    """How a page's table differs from the one that it has to have, as lines."""
    return list(difflib.unified_diff(table_of(text), list(due_table(text)), "the page", "due", n=0, lineterm=""))


def main():
    parser = argparse.ArgumentParser(description=__doc__, formatter_class=argparse.RawDescriptionHelpFormatter)
    choice = parser.add_mutually_exclusive_group(required=True)
    choice.add_argument("--check", action="store_true")
    choice.add_argument("--write", action="store_true")
    given = parser.parse_args()
    text = PAGE.read_text(encoding="utf-8")
    if given.write:
        PAGE.write_text(with_table(text, due_table(text)), encoding="utf-8")
        return 0
    found = differences(text)
    for line in found:
        print(line)
    return 1 if found else 0


if __name__ == "__main__":
    sys.exit(main())
