"""Who gets in at a server's door, computed a second time.

Everything here is written from docs/server.md, "Who gets in", to be read beside it. Heads are those of connections.py.
It has all bytes of a connection, and doesn't consider how they came.
"""

import re

from connections import BLANKS, HEAD, HEADER, LENGTH, LONGEST_HEAD, MOST_HEADERS, Cut, behind_empty_line, is_utf_8

OWN_HOST = re.compile(rb"(localhost|127\.0\.0\.1|\[::1\])(:[0-9]*)?")
OWN_SITES = (b"none", b"same-origin")
SAYS_PAGE = {b"sec-fetch-site", b"origin"}
BROWSER = b"mozilla/"
ONLY_OF_BROWSERS = {b"sec-fetch-site", b"origin", b"referer"}


def heard(stream):
    """The part of a stream that the server hears."""
    first = first_head(stream)
    if first is None:
        return stream
    headers, behind = first
    if any(is_foreign(headers, name, value) for name, value in headers):
        return b""
    if any(map(says_browser, headers)):
        return stream[: behind + said_length(headers)]
    return stream


def heard_of_anyone(stream):
    """The part of a stream that a server of shares hears, which keeps nobody out (docs/shares.md, "Over HTTP")."""
    first = first_head(stream)
    if first is None or not any(map(says_browser, first[0])):
        return stream
    return stream[: first[1] + said_length(first[0])]


def first_head(stream):
    """The headers of the first head, with their names in lower case, and the offset after it; None if there is none."""
    try:
        behind = behind_empty_line(stream, 0, LONGEST_HEAD, begun=False)
    except Cut:
        return None
    parts = HEAD.fullmatch(stream, 0, behind) if behind is not None else None
    if parts is None or not is_utf_8(parts["target"]):
        return None
    headers = [(name.lower(), value.strip(BLANKS)) for name, value in HEADER.findall(parts["headers"])]
    return (headers, behind) if len(headers) <= MOST_HEADERS else None


def is_foreign(headers, name, value):
    value = value.lower()
    if name == b"host":
        return OWN_HOST.fullmatch(value) is None
    if name == b"sec-fetch-site":
        return value not in OWN_SITES
    if name == b"origin":
        return value not in origins_of(headers)
    if name == b"referer":
        says_page = any(other in SAYS_PAGE for other, _ in headers)
        return not says_page and not any(is_at(value, origin) for origin in origins_of(headers))
    return False


def origins_of(headers):
    return [b"http://" + host.lower() for name, host in headers if name == b"host"]


def is_at(address, origin):
    """Whether an address is an origin, followed by nothing or a path."""
    return address == origin or address.startswith(origin + b"/")


def says_browser(header):
    name, value = header
    return name in ONLY_OF_BROWSERS or (name == b"user-agent" and value.lower().startswith(BROWSER))


def said_length(headers):
    first = next((value for name, value in headers if name == b"content-length"), b"0")
    return int(first) if LENGTH.fullmatch(first) else 0
