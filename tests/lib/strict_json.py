"""Reads JSON as docs/formats/schema.md says, and no other text.

Python's own json module accepts more than that: `NaN`, half a surrogate pair, numbers that no finite float holds, any
depth. This reader is about as long as the page needs.

Values are str, dict, list, bool, None, int and float. An int is a whole number of the page: only digits, below 2^64.
Every other number is a float.
"""

import math
import re

# docs/formats/schema.md, "JSON", as are all forms below
DEEPEST = 127

SPACE = re.compile(r"[ \t\n\r]*")
NUMBER = re.compile(r"-?(?:0|[1-9][0-9]*)(?:\.[0-9]+)?(?:[eE][+-]?[0-9]+)?")
WHOLE = re.compile(r"0|[1-9][0-9]*")
PLAIN = re.compile(r'[^"\\\x00-\x1f]*')
FOUR = re.compile(r"[0-9a-fA-F]{4}")
SHORT_ESCAPES = {'"': '"', "\\": "\\", "/": "/", "b": "\b", "f": "\f", "n": "\n", "r": "\r", "t": "\t"}
LITERALS = {"true": True, "false": False, "null": None}


class Unread(Exception):
    """The text isn't one JSON value."""


def read(octets):
    """The value in a text of bytes; Unread if it has none."""
    try:
        reader = Reader(octets.decode("utf-8"))
    except UnicodeDecodeError:
        raise Unread("not UTF-8") from None
    value = reader.value(0)
    reader.skip_space()
    if reader.at != len(reader.text):
        raise Unread("more than one value")
    return value


class Reader:
    def __init__(self, text):
        self.text = text
        self.at = 0

    def skip_space(self):
        self.at = SPACE.match(self.text, self.at).end()

    def next_is(self, mark):
        """Whether the mark comes next; if so, it is read."""
        self.skip_space()
        found = self.text.startswith(mark, self.at)
        if found:
            self.at += len(mark)
        return found

    def expect(self, mark):
        if not self.next_is(mark):
            raise Unread(f"no {mark}")

    def value(self, depth):
        """The next value, inside `depth` arrays and objects."""
        if self.next_is("{"):
            return self.object(nested(depth))
        if self.next_is("["):
            return self.array(nested(depth))
        if self.next_is('"'):
            return self.string()
        for literal, value in LITERALS.items():
            if self.next_is(literal):
                return value
        return self.number()

    def object(self, depth):
        members = {}
        if self.next_is("}"):
            return members
        while True:
            self.expect('"')
            key = self.string()
            self.expect(":")
            members[key] = self.value(depth)
            if self.next_is("}"):
                return members
            self.expect(",")

    def array(self, depth):
        items = []
        if self.next_is("]"):
            return items
        while True:
            items.append(self.value(depth))
            if self.next_is("]"):
                return items
            self.expect(",")

    def string(self):
        """The rest of a string whose first quote was read."""
        pieces = []
        while True:
            plain = PLAIN.match(self.text, self.at)
            pieces.append(plain.group())
            self.at = plain.end()
            mark = self.text[self.at : self.at + 1]
            self.at += 1
            if mark == '"':
                return "".join(pieces)
            if mark != "\\":
                raise Unread("no end of a string, or a control character in it")
            pieces.append(self.escape())

    def escape(self):
        """The character of an escape whose backslash was read."""
        letter = self.text[self.at : self.at + 1]
        self.at += 1
        if letter != "u":
            if letter not in SHORT_ESCAPES:
                raise Unread("no such escape")
            return SHORT_ESCAPES[letter]
        unit = self.code_unit()
        if 0xDC00 <= unit <= 0xDFFF:
            raise Unread("the second half of a pair alone")
        if not 0xD800 <= unit <= 0xDBFF:
            return chr(unit)
        if not self.text.startswith("\\u", self.at):
            raise Unread("the first half of a pair alone")
        self.at += 2
        second = self.code_unit()
        if not 0xDC00 <= second <= 0xDFFF:
            raise Unread("the first half of a pair alone")
        return chr(0x10000 + (unit - 0xD800) * 0x400 + (second - 0xDC00))

    def code_unit(self):
        digits = FOUR.match(self.text, self.at)
        if digits is None:
            raise Unread("no four digits")
        self.at = digits.end()
        return int(digits.group(), 16)

    def number(self):
        found = NUMBER.match(self.text, self.at)
        if found is None:
            raise Unread("no value")
        self.at = found.end()
        digits = found.group()
        if WHOLE.fullmatch(digits) and len(digits) <= 20 and int(digits) < 2**64:
            return int(digits)
        value = float(digits)
        if not math.isfinite(value):
            raise Unread("no finite float")
        return value


def nested(depth):
    if depth == DEEPEST:
        raise Unread("nested too deep")
    return depth + 1
