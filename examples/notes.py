#!/usr/bin/env python3
"""Prints the notes of an archive, each as a line of JSON with its ref and the values of its attributes.

    notes.py ~/archive
    notes.py ~/archive 2026-01-31T18:30:00Z
    notes.py ~/archive sha224-..

DIR is the folder of the archive, or a copy of it. Its packs are read, even while a server runs. For a backup without a
keyring, give one by --keyring. With DATE each note is printed with the values that it had then; notes that had none, or
were deleted by then, are left out. With REF only that note is printed. DATE and REF may come in either order.

With --claims each note is followed by a line for each claim on it that counts, in their order: its ref, its date, and
what it does to the note. `perkeep delete` with that ref takes the claim back.

Status: 0 all was printed, 2 bad arguments, 3 it couldn't be done, for example since REF isn't a note.
"""

from __future__ import annotations

import pathlib
from typing import Optional, Union

from perkeep_archive import (
    ALWAYS, Archive, Change, Notes, Refused, compact, date_text, is_ref, keyring_of, moment_word, parser_of, run,
)


def date_or_ref(text: str) -> Union[int, str]:
    return text if is_ref(text) else moment_word(text)


def claims_by_note(notes: Notes, moment: int, refs: set[str]) -> dict[str, list[dict]]:
    """The claims that count at a moment, for each of some notes, as they are printed."""
    lines: dict[str, list[dict]] = {ref: [] for ref in refs}
    for claim in notes.counted(moment):
        for note in {change.note for change in claim.changes} & refs:
            changes = [line_of(change) for change in claim.changes if change.note == note]
            lines[note].append({"claim": claim.ref, "date": date_text(claim.date), "changes": changes})
    return lines


def line_of(change: Change) -> list[str]:
    """A change as `perkeep claim` takes it: KIND, ATTR, VALUE."""
    return [change.act, change.attribute, *([change.value] if change.act != "del" or change.value else [])]


def why_not(notes: Notes, ref: str, archive: Archive) -> str:
    """Why a ref isn't printed."""
    if ref not in archive.records:
        return archive.fate(ref)
    if ref not in notes.permanodes:
        return "is no note that a key of the keyring has signed"
    return "was deleted" if notes.is_deleted(ref) else "had no values, or was deleted, at that date"


def print_notes(notes: Notes, moment: Optional[int], ref: Optional[str], with_claims: bool) -> int:
    """Prints the notes that are asked for; answers how many."""
    when = ALWAYS if moment is None else moment
    found = notes.attributes(when, None if ref is None else {ref})
    found = {note: attributes for note, attributes in found.items() if attributes or moment is None}
    claims = claims_by_note(notes, when, set(found)) if with_claims else {}
    for note, attributes in found.items():
        print(compact({"note": note, "attrs": attributes}))
        for line in claims.get(note, ()):
            print(compact(line))
    return len(found)


def main() -> int:
    parser = parser_of(__doc__)
    parser.add_argument("folder", metavar="DIR", type=pathlib.Path, help="the folder of the archive, or of a copy")
    parser.add_argument("which", metavar="DATE|REF", nargs="*", type=date_or_ref, help="a date, a note's ref, or both")
    parser.add_argument("--keyring", metavar="FILE", help="a keyring other than that of DIR")
    parser.add_argument("--claims", action="store_true", help="prints the claims of each note, too")
    words = parser.parse_intermixed_args()
    moments = [one for one in words.which if isinstance(one, int)]
    refs = [one for one in words.which if isinstance(one, str)]
    if len(moments) > 1 or len(refs) > 1:
        parser.error("there is more than one DATE, or more than one REF")
    notes = Notes(keyring_of(words.folder, words.keyring))
    archive = Archive(words.folder, notes.see)
    notes.settle()
    ref = refs[0] if refs else None
    count = print_notes(notes, moments[0] if moments else None, ref, words.claims)
    if ref is not None and not count:
        raise Refused(f"{ref} {why_not(notes, ref, archive)}")
    return 0


if __name__ == "__main__":
    run(main)
