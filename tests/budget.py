"""Checks the repository against the gate's budget (docs/gate.md, "The budget").

    budget.py [TABLE]

Reads crates.txt and crates/, and the table of minutes in the file TABLE, by default docs/gate.md: a table of
bench/gate.sh. Everything that exceeds the budget is a line.
"""

import functools
import pathlib
import re
import sys

TOP = pathlib.Path(__file__).resolve().parent.parent

# The limits. All minutes are processor minutes of a machine that has other work besides the gate.
EDITS, EDITS_A_CRATE, DEAREST_PROOF_WITH_EDITS = 16, 3, 4.0
PATHS, HEIGHT = 150_000, 12
WHOLE, WHOLE_FOR_1_000_LINES, TESTS, EDITS_IN_ALL, CHAIN = 280, 5.2, 45, 30, 45
PROOF, PROOF_AT_LEAST, PROOF_FOR_1_000_LINES, PROOF_WITH_TESTS, TEST_CRATE = 4.0, 0.5, 3.0, 0.5, 8.0
# Figures are rounded to this.
ROUNDING = 0.05
# The proofs that were above their limits when these were set. They may not grow.
OLDER_PROOFS = {
    "query_read": 7.2, "lab": 6.6, "claim_index": 5.0, "search_meets": 5.5, "perkeep_cli": 5.6, "perkeep_top": 4.5,
    "http_wire": 4.1, "folder_disk": 3.9, "core_home": 3.6, "schema_json": 3.4, "blob_server": 3.2, "schema_write": 2.7,
    "fact_lines": 2.6, "query_text": 2.4, "server_home": 2.4, "file_tree": 1.9, "answer_text": 1.8, "json_laws": 1.1,
    # Small ones that tie others together.
    "top_sync": 1.2, "top_notes": 1.9, "words_read": 2.5,
    # A program of everything, whose disk, peers and memory fail by number.
    "fault_rows": 5.4,
    # Newer ones, whose values with a drop are those of an index and of a lock. Half of the cost is their drops, so that
    # a further split would save little.
    "snap_copies": 6.5, "snap_index": 5.0,
}
# No other contract than that of this expensive crate says over which facts a search answers.
DEAR_WITH_EDITS = ("snap_index",)
# The crates of the wire and the server depend on a home alone, whatever its searches use.
INDEX = "claim_index"
ON_NO_INDEX = ("edge_listen", "http_wire", "http_exchange", "multipart_read", "blob_routes", "blob_upload", "blob_http", "blob_server")
ON_NO_INDEX += ("peer_requests", "peer_http")

KINDS = ("proof", "tests", "edits", "programs")
TEST = re.compile(r"#\s*\[[^]]*\btest\b")


def lines_of_crates():
    """The names on each line of crates.txt after the colon, by the name before it."""
    used = {}
    for line in (TOP / "crates.txt").read_text().splitlines():
        name, colon, below = line.partition("#")[0].partition(":")
        if colon:
            used[name.split()[0]] = below.split()
    return used


class Crates:
    """The crates, by their folders."""

    def __init__(self):
        self.used = lines_of_crates()
        self.own = {name: [below for below in used if below in self.used] for name, used in self.used.items()}
        self.lines = {name: sum(text.count("\n") for text in self.texts(name, ".rt", "src")) for name in self.used}
        self.tested = {name for name in self.used if any(map(TEST.search, self.texts(name, ".rt", "src")))}
        self.edits = {name: len(list((TOP / "crates" / name / "must-fail").glob("*.edit"))) for name in self.used}

    def texts(self, name, ending, *parts):
        for part in parts:
            for file in (TOP / "crates" / name / part).rglob(f"*{ending}"):
                yield file.read_text()

    def unnamed(self, name):
        """The names on a crate's line that no file of the crate uses."""
        files = [*self.texts(name, ".rt", "src"), *self.texts(name, ".antt", "specs", "proofs")]
        words = {word for text in files for word in re.findall(r"\w+", text)}
        return [below for below in self.used[name] if below not in words]

    def sums_along_paths(self, own, join):
        """For each crate its own number, combined by `join` with those of the crates below it."""
        @functools.cache
        def whole(name):
            return own(name) + join(map(whole, self.own[name]))

        return {name: whole(name) for name in self.used}

    def chains(self, base=None):
        """For each crate the longest chain of crates, each depending on the next one, from it down to `base`, or to any
        crate if that is None."""
        @functools.cache
        def chain(name):
            longest = max(map(chain, self.own[name]), key=len, default=())
            return (name, *longest) if longest or base in (None, name) else ()

        return {name: chain(name) for name in self.used}


def faults_of_chains(crates):
    """Violations of the rules on chains of crates."""
    highest = max(crates.chains().values(), key=len)
    if len(highest) > HEIGHT:
        yield f"{len(highest)} crates stand one above the other, at most {HEIGHT}: {' '.join(highest)}"
    yield from (f"{name} is no crate" for name in (INDEX, *ON_NO_INDEX) if name not in crates.used)
    down = crates.chains(INDEX)
    yield from (f"{name} stands on {INDEX}: {' '.join(down[name])}" for name in ON_NO_INDEX if down.get(name))


def faults_of_crates(crates):
    """Violations of the rules on crates."""
    if sum(crates.edits.values()) > EDITS:
        yield f"{sum(crates.edits.values())} must-fail edits, at most {EDITS}"
    for name in crates.used:
        if crates.edits[name] > EDITS_A_CRATE:
            yield f"{name}: {crates.edits[name]} must-fail edits, at most {EDITS_A_CRATE}"
        unnamed = crates.unnamed(name)
        if unnamed:
            yield f"{name}: its line of crates.txt has what its files don't name: {' '.join(unnamed)}"
    paths = sum(crates.sums_along_paths(lambda name: 1, sum).values())
    if paths > PATHS:
        yield f"crates.txt has {paths:,} paths, at most {PATHS:,}"


def costs(file, crates):
    """The minutes of each crate by kind, from the table in a file."""
    found = {}
    for row in file.read_text().splitlines():
        cells = [cell.strip(" `") for cell in row.strip("|").split("|")]
        if cells[0] in crates.used and len(cells) == len(KINDS) + 4:
            found[cells[0]] = dict(zip(KINDS, (float(cell) if cell else 0.0 for cell in cells[2:6])))
    return found


def faults_of_sums(crates, costs):
    """Violations of the rules on the whole gate."""
    proofs = {name: costs.get(name, {}).get("proof", 0.0) for name in crates.used}
    chains = crates.sums_along_paths(proofs.get, lambda below: max(below, default=0))
    whole = sum(sum(minutes.values()) for minutes in costs.values())
    for minutes, most, what in (
        (whole, WHOLE, "all"),
        (1_000 * whole / sum(crates.lines.values()), WHOLE_FOR_1_000_LINES, "all, for 1,000 lines"),
        (sum(minutes["tests"] for minutes in costs.values()), TESTS, "tests"),
        (sum(minutes["edits"] for minutes in costs.values()), EDITS_IN_ALL, "edits"),
        (max(chains.values()), CHAIN, "the longest chain of proofs"),
    ):
        if minutes > most + ROUNDING:
            yield f"{what}: {minutes:.1f} processor minutes, at most {most}"


def faults_of_costs(crates, costs):
    """Violations of the rules on the minutes of single crates."""
    for name, minutes in costs.items():
        proof, whole = minutes["proof"], sum(minutes.values())
        most = OLDER_PROOFS.get(name) or min(PROOF, PROOF_AT_LEAST + PROOF_FOR_1_000_LINES * crates.lines[name] / 1_000)
        if proof > most + ROUNDING:
            yield f"{name}: its proof takes {proof} minutes for {crates.lines[name]} lines, at most {most:.1f}"
        if name.endswith("_tests"):
            if whole > TEST_CRATE + ROUNDING:
                yield f"{name}: {whole:.1f} minutes, at most {TEST_CRATE}"
        elif name in crates.tested and proof > PROOF_WITH_TESTS + ROUNDING:
            yield f"{name}: it has #[test], so the {proof} minutes of its proof are paid twice"
        if crates.edits[name] and proof > DEAREST_PROOF_WITH_EDITS + ROUNDING and name not in DEAR_WITH_EDITS:
            yield f"{name}: it has must-fail edits, and its proof takes {proof} minutes"


def main():
    crates = Crates()
    minutes = costs(TOP / (sys.argv[1] if sys.argv[1:] else "docs/gate.md"), crates)
    found = [*faults_of_crates(crates), *faults_of_chains(crates), *faults_of_sums(crates, minutes), *faults_of_costs(crates, minutes)]
    found += [f"{name}: the table of minutes has no row of it" for name in crates.used if name not in minutes]
    for line in found:
        print(f"FAILED budget {line}")
    print(f"{len(crates.used)} passed, {len(found)} failed")
    sys.exit(1 if found else 0)


if __name__ == "__main__":
    main()
