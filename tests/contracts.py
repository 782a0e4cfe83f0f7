"""The public functions of the libraries whose results no contract describes: those without a clause `ensures`."""

import pathlib
import re

from budget import lines_of_crates

TOP = pathlib.Path(__file__).resolve().parent.parent
# Programs, which have no public functions for others.
PROGRAMS = {"fault_rows", "lab", "perkeep_cli"}

# Texts whose braces open and close nothing.
PASSED_OVER = re.compile(r'//[^\n]*|"(?:[^"\\]|\\[\s\S])*"|\'(?:[^\'\\\n]|\\.)\'')
PUBLIC = re.compile(r"^( *)pub (?:const |unsafe )*fn (\w+)", re.M)
TRAIT = re.compile(r"^pub (?:unsafe )?trait (\w+).*?^\}", re.M | re.S)
OF_A_TRAIT = re.compile(r"^    fn (\w+)", re.M)
OWNER = re.compile(r"^impl\b(?P<head>[^{;]*)", re.M)
CLAUSE = re.compile(r"\b(ensures|requires)(?:\s+\w+)?\s*$")
OPENS, CLOSES = "([{", ")]}"


def without_contract():
    """The functions, as `crate::name`, or `crate::Type::name` if they are of a type or a trait."""
    names = [name for name in lines_of_crates() if name not in PROGRAMS and not name.endswith("_tests")]
    return sorted(f"{crate}::{function}" for crate in names for function in of_crate(crate))


def of_crate(crate):
    for file in sorted((TOP / "crates" / crate / "src").rglob("*.rt")):
        text = PASSED_OVER.sub(lambda found: " " * len(found[0]), file.read_text(encoding="utf-8"))
        yield from (name for name, end in functions_of(text) if not says_something(text, end))


def functions_of(text):
    """The public functions of a file, each with the offset after its name."""
    for found in PUBLIC.finditer(text):
        owner = owner_at(text, found.start()) if found[1] else None
        yield f"{owner}::{found[2]}" if owner else found[2], found.end()
    for trait in TRAIT.finditer(text):
        for found in OF_A_TRAIT.finditer(text, trait.start(), trait.end()):
            yield f"{trait[1]}::{found[1]}", found.end()


def owner_at(text, place):
    """The type in whose block an offset is."""
    head = [found["head"] for found in OWNER.finditer(text, 0, place)][-1]
    own = without_generics(head).split(" for ")[-1]
    return re.search(r"\w+", own)[0]


def without_generics(head):
    depth, kept = 0, []
    for letter in head.replace("->", "  "):
        depth += (letter == "<") - (letter == ">")
        kept.append(letter if depth == 0 and letter != ">" else " ")
    return "".join(kept)


def says_something(text, at):
    """Whether one of the clauses of a function, after its parameters, describes its result."""
    start = at
    while True:
        at = next_at_top(text, at)
        clause = CLAUSE.search(text, start, at) if text[at] == "{" else None
        if clause is None:
            return False
        if clause[1] == "ensures":
            return True
        start = at = behind_closing(text, at)


def next_at_top(text, at):
    """The next offset of a brace, or of a semicolon, that is within no other brackets."""
    while text[at] not in "{;":
        at = behind_closing(text, at) if text[at] in OPENS else at + 1
    return at


def behind_closing(text, at):
    """The offset after the closing bracket for the bracket at an offset."""
    depth = 0
    while True:
        depth += (text[at] in OPENS) - (text[at] in CLOSES)
        at += 1
        if depth == 0:
            return at


def named_on(page):
    """The functions that a page names in its paragraph on those without a contract, without the modules in their
    paths."""
    text = page.partition("Each public function of the libraries has a contract, except these")[2].partition("\n**")[0]
    return sorted(map(without_modules, re.findall(r"`(\w+(?:::\w+)+)`", text)))


def without_modules(path):
    crate, *middle, name = path.split("::")
    return "::".join([crate, *(part for part in middle if part[0].isupper()), name])
