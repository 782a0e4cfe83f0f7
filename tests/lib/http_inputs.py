"""The streams of http_streams.py: each a case of a group, with the store that answers it.

A stream is made of requests that are spelled here byte by byte, since most of them aren't what a client would send.
"""

import functools
import itertools
from typing import Callable, NamedTuple, Optional

import connections
import inputs
import older
import reference
import writing
from connections import LISTING, LONGEST_BODY, LONGEST_HEAD, QUERY, STAT, UPLOAD
from inputs import ABSENT, CLAIM, KEY, NODE
from query_inputs import spell
from reference import older_ref_of, ref_of
from writing import octets, pack

ABC, EMPTY = ref_of(b"abc"), ref_of(b"")
OLDER_ABC, OLDER_EMPTY = older_ref_of(b"abc"), older_ref_of(b"")
# Every other one has its older name.
MANY = [b"%d" % number for number in range(1_003)]
MANY_REFS = sorted((older_ref_of if number % 2 else ref_of)(blob) for number, blob in enumerate(MANY))
# Stores by their names, as packs under the keyring of query_inputs.py.
STORES = {
    "small": pack(*inputs.EXAMPLE_BLOBS, b"abc", b"", b"\r\n\r\nGET / HTTP/1.1\r\n\r\n"),
    "many": pack(*MANY[::2]) + pack(*MANY[1::2], name_of=older_ref_of),
    "older": older.PACK + pack(b"", name_of=older_ref_of) + pack(b"abc"),
    "empty": b"",
}


class Case(NamedTuple):
    """A stream, or a function that makes it; the store that answers it; and the replies if they are written down beside
    it."""

    what: str
    stream: bytes | Callable
    store: str = "small"
    replies: Optional[bytes] = None


# Requests

def head(first, *headers, end="\r\n"):
    return b"".join(octets(line) + octets(end) for line in (first, *headers, ""))


def get(target, *headers):
    return head(b"GET %b HTTP/1.1" % octets(target), *headers)


def post(target, body, *headers):
    return head(b"POST %b HTTP/1.1" % target, *headers, f"Content-Length: {len(body)}") + body


def chunk(content, line=None):
    return octets(f"{len(content):x}" if line is None else line) + b"\r\n" + content + b"\r\n"


def post_chunks(target, chunks, *headers, end=b"0\r\n\r\n"):
    """A request whose chunks, and their ends, are already written."""
    return head(b"POST %b HTTP/1.1" % target, *headers, "Transfer-Encoding: chunked") + b"".join(chunks) + end


def post_pieces(target, pieces, *headers, **others):
    """A request with a chunk for each piece that isn't empty."""
    return post_chunks(target, map(chunk, filter(None, pieces)), *headers, **others)


def blob_target(ref):
    return connections.BLOB + octets(ref)


def stat_pairs(*refs, version="1"):
    return "&".join([f"camliversion={version}", *(f"blob{place}={ref}" for place, ref in enumerate(refs, 1))]).encode()


def stat(*refs, version="1"):
    return get(STAT + b"?" + stat_pairs(*refs, version=version))


# Each hostile stream is tried followed by a good request, and without.
PROBE = stat(ABC)


def probed(group):
    """The cases of a group unchanged, and those followed by a request."""

    def both():
        for case in group():
            yield case
            yield case._replace(what=f"{case.what}, and a request", stream=case.stream + PROBE)

    both.__name__ = group.__name__
    return both


# Multipart bodies

FORM = "Content-Type: multipart/form-data; boundary=b"


def part(name, content, *headers, blanks=b"", end=b"\r\n", boundary=b"b"):
    """A delimiter, except its first line end, the head and content of a part, and the first line end of the next
    mark."""
    lines = [f'Content-Disposition: form-data; name="{name}"', *headers, ""]
    return b"--" + boundary + blanks + b"\r\n" + b"".join(octets(line) + end for line in lines) + content + b"\r\n"


def blob_part(content, *headers, name_of=ref_of, **others):
    return part(name_of(content), content, *headers, **others)


def form(*parts):
    return b"".join(parts) + b"--b--"


def upload(*blobs, name_of=ref_of):
    return post(UPLOAD, form(*(blob_part(blob, name_of=name_of) for blob in blobs)), FORM)


# Heads

# `PATH` stands for a path.
FIRST_LINES = [
    b"GET PATH HTTP/1.1",
    b"GET  PATH HTTP/1.1",
    b"GET PATH  HTTP/1.1",
    b" GET PATH HTTP/1.1",
    b"GET PATH HTTP/1.1 ",
    b"GET\tPATH HTTP/1.1",
    b"GET PATH\tHTTP/1.1",
    b"GET PATH HTTP/1.0",
    b"GET PATH HTTP/1.2",
    b"GET PATH HTTP/0.9",
    b"GET PATH HTTP/2.0",
    b"GET PATH HTTP/1.10",
    b"GET PATH HTTP/1.",
    b"GET PATH HTTP/1.1\r",
    b"GET PATH http/1.1",
    b"GET PATH HTTPS/1.1",
    b"GET PATH",
    b"PATH HTTP/1.1",
    b"GET  HTTP/1.1",
    b"GET HTTP/1.1",
    b"get PATH HTTP/1.1",
    b"HEAD PATH HTTP/1.1",
    b"PUT PATH HTTP/1.1",
    b"DELETE PATH HTTP/1.1",
    b"OPTIONS PATH HTTP/1.1",
    b"PRI PATH HTTP/2.0",
    b"G@T PATH HTTP/1.1",
    b"G(T PATH HTTP/1.1",
    b"G\xc3\xa4T PATH HTTP/1.1",
    b"!#$%&'*+-.^_`|~09AZaz PATH HTTP/1.1",
    b"GET:PATH HTTP/1.1",
    b"A: PATH HTTP/1.1",
    b"GET PATHx HTTP/1.1",
    b"GET PATH/ HTTP/1.1",
    b"GET PATH? HTTP/1.1",
    b"GET PATH#x HTTP/1.1",
    b"GET PATH;x HTTP/1.1",
    b"GET /PATH HTTP/1.1",
    b"GET http://hostPATH HTTP/1.1",
    b"GET PATH?\xc3\xa4\xe2\x82\xac\xf0\x9f\x98\x80 HTTP/1.1",
    b"GET PATH?\xff HTTP/1.1",
    b"GET PATH?\xc0\xaf HTTP/1.1",
    b"GET PATH?\xed\xa0\x80 HTTP/1.1",
    b"GET PATH?\xf4\x90\x80\x80 HTTP/1.1",
    b"GET PATH?\xe2\x82 HTTP/1.1",
    b"GET PATH?\xc2\x80 HTTP/1.1",
    b"GET PATH?\x7f HTTP/1.1",
    b"GET PATH?\0 HTTP/1.1",
    b"GET PATH?\x1f HTTP/1.1",
    b"GET PATH?!\"<>[]\\^`{|} HTTP/1.1",
]
PATHS = [LISTING, b"/camli/" + octets(ABC), b"/camli/" + octets(OLDER_ABC)]
TARGETS = [b"*", b"/", b"?", b"/?/camli/stat", b"/camli", b"/camli/", b"/camli/stat/", b"/Camli/stat", b"/camli/STAT"]
TARGETS += [b"/camli//stat", b"/camli/./stat", b"/camli/%73tat", b"/%63amli/stat", b"/camli/stat%3F", b"camli/stat"]
TARGETS += [b"//camli/stat", b"http://host/camli/stat", b"host:80", b"/camli/search", b"/camli/search/query/"]
TARGETS += [b"/camli/enumerate-blobs&limit=1", b"/camli/enumerate-blobs?limit=1", b"/camli/sha224-"]
TARGETS += [blob_target(ref) for ref in (ABC, EMPTY, ABSENT, ABC.upper(), ABC[:-1], ABC + "0", ABC + "/", "/" + ABC)]
TARGETS += [blob_target(ref) for ref in (ABC.replace("a", "%61"), ABC + "?x", ABC + "%00")]
TARGETS += [blob_target("sha1-" + digits) for digits in ("0" * 40, "0" * 39, "0" * 41, "0" * 56, "A" * 40, "g" * 40)]
TARGETS += [blob_target(ref) for ref in (OLDER_ABC, OLDER_ABC + "/", OLDER_ABC.upper(), OLDER_ABC[5:], "sha224-" + "0" * 40)]
TARGETS += [b"/camli/sha1-", b"/camli/sha1", b"/camli/%73ha1-" + b"0" * 40, b"/camli/sha256-" + b"0" * 64]
TARGETS += [blob_target(ref) for ref in ("SHA224-" + ABC[7:], ABC[7:], ABC[:7] + "g" * 56)] + [STAT, UPLOAD, QUERY]
METHODS = [b"GET", b"POST", b"HEAD", b"PUT", b"DELETE"]
HEADER_LINES = [b"A: b", b"A:b", b"A:", b"A: ", b"A:\t", b"A:: b", b"A:b:c", b"A: b c\t", b"A: \xff\x80"]
HEADER_LINES += [b"A: \xc3\xa4", b"A : b", b"A\t: b", b" A: b", b"\tA: b", b"A", b":", b": b", b"A: b\r\n c: d"]
HEADER_LINES += [b"A: b\r\n\tc", b"A: \0", b"A: \x7f", b"A: \x1f", b"A: b\rc", b"A: b\r", b"A;b: c", b"\xc3\xa4: b"]
HEADER_LINES += [b"A/b: c", b'"A": b', b"!#$%&'*+-.^_`|~09AZaz: b", b"(A): b", b"A=b: c", b"A b: c", b"{A}: b"]
HEADER_LINES += [b"\0: b", b"\r: b"]


def first_lines():
    for line, path in itertools.product(FIRST_LINES, PATHS):
        yield Case(f"the line {line} with {path}", head(line.replace(b"PATH", path)))
    for method, target in itertools.product(METHODS, TARGETS):
        first = b"%b %b HTTP/1.1" % (method, target)
        yield Case(f"{method} {target}", head(first))
        yield Case(f"{method} {target} with a body", head(first, "Content-Length: 1") + b"x")
    for line in HEADER_LINES:
        yield Case(f"the header {line}", get(LISTING, "Before: x", line, "Behind: x"))
        yield Case(f"the header {line} alone", get(LISTING, line))


def heads():
    for end in ("\r\n", "\n"):
        for front in ("", "\n", "\r\n", "\r\n\n\r\n", "\r", "\r\r\n", " \r\n", "\n" * 300, "\r\n" * 8_000):
            yield Case(f"{front[:9]!r} before {end!r}", octets(front) + head(b"GET / HTTP/1.1", "A: b", end=end))
            yield Case(f"{front[:9]!r} before {end!r}, no header", octets(front) + head(b"GET / HTTP/1.1", end=end))
    for ends in itertools.product((b"\n", b"\r\n", b"\r", b"\r\r\n"), repeat=3):
        yield Case(f"the ends {ends}", b"GET / HTTP/1.1" + ends[0] + b"A: b" + ends[1] + ends[2])
    fronts = [b"\n", b"\r\n", b"\r", b"\n\r", b"x", b"x\n", b"\r\n" * 8_192]
    for front in fronts + [b"\n" * (LONGEST_HEAD + more) for more in (-1, 0, 1)]:
        yield Case(f"{len(front)} bytes {front[:2]} and no more", front)
    yield from long_heads()
    for count in (0, 1, 63, 64, 65, 66, 5_455, 5_456, 5_457, 5_462, 5_463):
        yield Case(f"{count} headers", head("G / HTTP/1.1", *["a:"] * count, end="\n"))
        yield Case(f"{count} headers and a bad one", head("G / HTTP/1.1", *["a:"] * count, "a", end="\n"))
        lines = ["a:"] * count + ["Content-Length: 0"] * 2
        yield Case(f"{count} headers and two lengths", head("G / HTTP/1.1", *lines))


def long_heads():
    """Heads whose lengths are near the limit."""
    for length in range(LONGEST_HEAD - 2, LONGEST_HEAD + 3):
        room = length - len(get(LISTING, "A: "))
        yield Case(f"a head of {length} bytes by a value", get(LISTING, "A: " + "b" * room))
        yield Case(f"a head of {length} bytes by a name", get(LISTING, "b" * room + "A: "))
        yield Case(f"a head of {length} bytes, no name", get(LISTING, "b" * (room + 3)))
        yield Case(f"a head of {length} bytes, its end left out", get(LISTING, "A: " + "b" * room)[:-2])
        yield Case(f"a head of {length} bytes, a value and no more", get(LISTING, "A: " + "b" * (room + 4))[:-4])
        room = length - len(get(LISTING + b"?"))
        yield Case(f"a head of {length} bytes by a target", get(LISTING + b"?" + b"b" * room))
        yield Case(f"a head of {length} bytes by a bad target", get(LISTING + b"?" + b"\xff" * room))
        room = length - len(get(LISTING, "Content-Length: x"))
        yield Case(f"a head of {length} bytes of a bad length", get(LISTING, "Content-Length: x" + " " * room))
        yield Case(f"a head of {length} bytes by line feeds", b"\n" * (length - len(get(LISTING))) + get(LISTING))


# How long a body is

LENGTHS = ["0", "3", "\t3 ", "+3", "-3", "03", "3" * 19, "9" * 19, "0" * 18 + "3", "0" * 19 + "3", "9" * 20]
LENGTHS += ["18446744073709551616", "3, 3", "3,3", "", "0x3", "3.", "3 3", "a", "3;", "\xa03", "\u0663", "1048576"]
LENGTHS += ["1048577", "17000000001"]
CODINGS = ["chunked", "CHUNKED", "\tChunked ", "chunked, chunked", "gzip, chunked", "chunked, gzip", "identity", "gzip"]
CODINGS += ["", "chunked,", ",chunked", "chunked;q=1", "xchunked", "chunked x", '"chunked"', "chunk\u0117d"]
CODINGS += ["\x0bchunked"]
CLOSINGS = ["close", "Close", "CLOSE", "keep-alive", "keep-alive, close", "close, keep-alive", "close,", ",close"]
CLOSINGS += [",, close\t,", "closed", "clos", "close;x", '"close"', "close close", "not-close", "", ",", "upgrade"]
CLOSINGS += ["\xa0close", "close\x0b"]


def lengths():
    """Pairs of headers before a body that can be read by either."""
    body = chunk(b"abc") + b"0\r\n\r\n"
    of_length = [("Content-Length", value) for value in LENGTHS]
    of_coding = [("Transfer-Encoding", value) for value in CODINGS]
    either = of_length + of_coding
    some = of_length[:5] + of_coding[:4]
    for fields in [(), *((one,) for one in either), *itertools.product(some, some)]:
        lines = [f"{name}: {value}" for name, value in fields]
        yield Case(f"a query with {lines}", head(b"POST %b HTTP/1.1" % QUERY, *lines) + body)
        yield Case(f"nothing with {lines}", head(b"POST / HTTP/1.0", *lines) + body)
        yield Case(f"an upload with {lines}", head(b"POST %b HTTP/1.1" % UPLOAD, FORM, *lines) + body)
    for name in ("content-length", "CONTENT-LENGTH", "Content_Length", "Content-Length-", "Content-Lengt"):
        yield Case(f"the header {name}", head(b"POST %b HTTP/1.1" % QUERY, f"{name}: 3") + body)
    for name in ("transfer-encoding", "TE", "Transfer-Encodin", "Transfer_Encoding"):
        yield Case(f"the header {name}", head(b"POST %b HTTP/1.1" % QUERY, f"{name}: chunked") + body)


def closings():
    for value in CLOSINGS:
        for name in ("Connection", "connection", "Proxy-Connection"):
            yield Case(f"{name}: {value}", get(blob_target(ABC), f"{name}: {value}"))
        for other in ("close", "keep-alive"):
            lines = [f"Connection: {value}", "A: b", f"Connection: {other}"]
            yield Case(f"{lines}", get(LISTING, *lines))
        yield Case(f"an upload, {value}", post(UPLOAD, form(blob_part(b"new")), FORM, f"Connection: {value}"))
        yield Case(f"a bad path, {value}", get("/", f"Connection: {value}"))
        yield Case(f"HTTP/1.0, {value}", head(b"GET %b HTTP/1.0" % LISTING, f"Connection: {value}"))
        yield Case(f"a trailer, {value}", post_chunks(QUERY, [], end=octets(f"0\r\nConnection: {value}\r\n\r\n")))
    for first in (b"GET / HTTP/1.0", b"GET %b HTTP/1.0" % blob_target(ABC), b"PUT %b HTTP/1.0" % STAT):
        yield Case(f"{first}", head(first))


# Bodies in chunks

SIZE_LINES = ["3", "03", "0" * 15 + "3", "0" * 16 + "3", "3 ", "3\t \t", "3;", "3 ;x", "3;x=y; z", '3;x="a b"']
SIZE_LINES += ["3; \0\x7f\t", " 3", "+3", "-3", "0x3", "3g", "g", "", ";", ";x", " ", "3 x", "3;x\ry", "3\r", "3,3"]
SIZE_LINES += ["x3", "\x0b3", "3;\xff", "2", "4", "7FFFFFFFFFFFFFFF", "FFFFFFFFFFFFFFFF", "1" + "0" * 16, "ffffffff"]
SIZE_LINES += ["100001", "100000", "3F5476A01"]
LAST_LINES = ["0", "00", "0" * 16, "0" * 17, "0 ", "0;x", "0;x=\xff", "-0", "+0", "0x0", " 0", "0\r", "0;\r"]


def chunks():
    pairs = stat_pairs(ABC, KEY_REF)
    front, rest = chunk(pairs[:40]), chunk(pairs[43:])
    for size in SIZE_LINES:
        for line in (octets(size) + b"\r\n", octets(size) + b"\n"):
            yield Case(f"the size {line}", post_chunks(STAT, [front, line + pairs[40:43] + b"\r\n", rest]))
    for end in (b"\r\n", b"\n", b"\r", b"", b"x\n", b"\rx", b"\r\r\n", b" \r\n", b"\n\r"):
        yield Case(f"{end} behind a chunk", post_chunks(STAT, [front, b"3\r\n" + pairs[40:43] + end, rest]))
    for line, end in itertools.product(LAST_LINES, (b"\r\n\r\n", b"\n\n", b"\r\n\n", b"\r\n", b"\r\r\n", b"\r\nx")):
        yield Case(f"the last line {line} and {end}", post_pieces(STAT, [pairs], end=octets(line) + end))
    for length in (4_094, 4_095, 4_096, 4_097, 4_098):
        for pad in ("3;" + "x" * 5_000, "3" + " " * 5_000, "3" * 5_000):
            middle = chunk(pairs[40:43], pad[: length - 2])
            yield Case(f"a line {pad[:2]} of {length} bytes", post_chunks(STAT, [front, middle, rest]))
            yield Case(f"{length} bytes {pad[:2]} of a line", post_chunks(STAT, [front], end=octets(pad[:length])))
    yield Case("bytes as chunks", post_pieces(STAT, [bytes([octet]) for octet in pairs]))
    yield from trailers(chunk(pairs) + b"0\r\n")
    whole = post_pieces(STAT, [pairs[:40], pairs[40:]], end=b"0\r\nA: b\r\n\r\n")
    for length in range(len(whole)):
        yield Case(f"{length} bytes of a body in chunks", whole[:length])


def trailers(body):
    for line in HEADER_LINES:
        yield Case(f"the trailer {line}", post_chunks(STAT, [body], end=b"A: b\n" + line + b"\r\n\r\n"))
    for count in (63, 64, 65):
        yield Case(f"{count} trailers", post_chunks(STAT, [body], end=b"a:\n" * count + b"\n"))
        yield Case(f"{count} trailers and a bad one", post_chunks(STAT, [body], end=b"a:\n" * count + b"a\n\n"))
    for length in range(16_382, 16_387):
        line = b"A: " + b"b" * (length - 7)
        yield Case(f"trailers of {length} bytes", post_chunks(STAT, [body], end=line + b"\r\n\r\n"))
        yield Case(f"{length} bytes of trailers", post_chunks(STAT, [body], end=line + b"bbbb"))
        bad = b"\0" + line[1:] + b"\r\n\r\n"
        yield Case(f"trailers of {length} bytes, a bad line", post_chunks(STAT, [body], end=bad))
    for name in ("Content-Length: 5", "Transfer-Encoding: gzip", "Content-Type: x"):
        yield Case(f"the trailer {name}", post_chunks(STAT, [body], end=octets(name) + b"\r\n\r\n"))


# Long bodies

KEY_REF = ref_of(KEY)
GOOD_QUERY = b'{"constraint":{"permanode":{"attr":"tag","value":"a"}}}'
HALF = LONGEST_BODY // 2


def long_bodies():
    """Bodies near the limit of all routes except that of uploads."""
    targets = {"a query": QUERY, "a stat": STAT, "no upload": UPLOAD, "nothing": b"/"}
    for (what, target), more in itertools.product(targets.items(), (0, 1)):
        body = (GOOD_QUERY if target == QUERY else stat_pairs(ABC) + b"&").ljust(LONGEST_BODY + more)
        yield Case(f"{what} of {len(body)} bytes", post(target, body))
        yield Case(f"{what} of {len(body)} bytes in chunks", post_pieces(target, [body[:HALF], body[HALF:]]))
    for count in (LONGEST_BODY, LONGEST_BODY + 1, 10**19 - 1):
        for target in (*targets.values(), blob_target(ABC), LISTING):
            for method in (b"GET", b"POST"):
                first = b"%b %b HTTP/1.1" % (method, target)
                yield Case(f"{first}, and {count} bytes are announced", head(first, f"Content-Length: {count}") + b"x")
    body = GOOD_QUERY.ljust(LONGEST_BODY)
    for what, end in [("a chunk", chunk(b" ")), ("a byte", b"1\r\n "), ("a line", b"1\r\n"), ("a bad line", b"x\r\n")]:
        for rest in (b"", b"0\r\n\r\n", b"\r\nx\r\n"):
            yield Case(f"the longest body, {what} and {rest}", post_chunks(QUERY, [chunk(body), end], end=rest))
    for line in ("100001", "FFFFFFFFFFFFFFFF", "3F5476A01"):
        for target in (QUERY, UPLOAD):
            yield Case(f"a chunk of {line} to {target}", post_chunks(target, [octets(line), b"\r\nabc"], FORM, end=b""))
    yield Case("a blob with a body", head(b"GET %b HTTP/1.1" % blob_target(ABC), "Content-Length: 3") + b"abc")
    yield Case("a page with a body in chunks", post_pieces(LISTING, [b"abc"]).replace(b"POST", b"GET", 1))
    yield Case("a page whose body breaks", post_pieces(LISTING, [b"abc"], end=b"x\n").replace(b"POST", b"GET", 1))
    for count in (17_000_000_000, 17_000_000_001):
        for kind in (FORM, "Content-Type: text/plain"):
            front = head(b"POST %b HTTP/1.1" % UPLOAD, kind, f"Content-Length: {count}")
            yield Case(f"{count} bytes of {kind}", front + form(blob_part(b"new")))


# Uploads

CONTENT_TYPES = ["multipart/form-data; boundary=b", "Multipart/FORM-DATA;BOUNDARY=b"]
CONTENT_TYPES += ["multipart/form-data;boundary=\"b\"", "multipart/form-data \t;\t a=c; boundary=b ;d=e "]
CONTENT_TYPES += ["multipart/form-data; boundary=b; boundary=c", "multipart/form-data; boundary=c; boundary=b"]
CONTENT_TYPES += ["multipart/form-data; a=\"; boundary=c\"; boundary=b", "multipart/form-data", "multipart/form-data;"]
CONTENT_TYPES += ["multipart/form-data; boundary", "multipart/form-data; boundary="]
CONTENT_TYPES += ["multipart/form-data; boundary=\"\"", "multipart/form-data; boundary=\"b \""]
CONTENT_TYPES += ["multipart/form-data; boundary=b;", "multipart/form-data; boundary = b"]
CONTENT_TYPES += ["multipart/form-data boundary=b", "multipart/form-datax; boundary=b", "multipart/mixed; boundary=b"]
CONTENT_TYPES += ["xmultipart/form-data; boundary=b", "", "b", "multipart/form-data, boundary=b"]
CONTENT_TYPES += ["multipart/form-data; boundary=\"b", "multipart/form-data; boundary=b\""]
CONTENT_TYPES += ["multipart/form-data; boundary=b c", "multipart/form-data; boundary=\"b\\\"\""]
CONTENT_TYPES += ["multipart/form-data; boundary=b@", "multipart/form-data; x=\xe4; boundary=b"]
CONTENT_TYPES += ["multipart/form-data; x=\"\xe4\"; boundary=b", "multipart/form-data; boundary=*; boundary=b"]
CONTENT_TYPES += ["multipart/form-data; boundary=" + "b" * 70, "multipart/form-data; boundary=" + "b" * 71]
BOUNDARIES = ["b", "bb", "b-", "b--", "-", "--", "'()+_,-./:=?", "b b", "0" * 70, "x.*[a", "a b\x63"]
BOUNDARIES += ["----WebKitFormBoundary7MA4YWx"]
# Names of parts in their heads, as they are written there.
NAMES = [f'"{ABC}"', ABC, f'"{ABC} "', f'" {ABC}"', f'"{ABC.upper()}"', '""', '"x"', f'"{ABC[:-1]}"', f"'{ABC}'"]
NAMES += [f'"{ABC}0"', f"{ABC}; name=x", f'x; name="{ABC}"', f'"{ABC}"; filename="a;\tb"', f'"{ABC}', f'{ABC}"']
NAMES += [f'"{ABC}";', "", f'"{ABC}\\"']
NAMES += [f'"{OLDER_ABC}"', OLDER_ABC, f'"{OLDER_ABC.upper()}"', f'"{OLDER_ABC[:-1]}"', f'"{OLDER_ABC}0"']
NAMES += [f'"sha224-{OLDER_ABC[5:]}"', f'"sha1-{ABC[7:]}"', f'"{OLDER_EMPTY}"']
DISPOSITIONS = ["form-data; name={}", "Form-DATA;NAME={}", "form-data \t; filename=\"x\";\tname={} "]
DISPOSITIONS += ["attachment; name={}", "form-data", "form-data;", "form-data name={}", "form-data; name={};"]
DISPOSITIONS += ["form-data; filename={}", "name={}", "form-datax; name={}", "form-data; name={}; name=x"]
DISPOSITIONS += ["form-data; name=x; name={}", "form-data; n\xe4me={}", "", "form-data; name ={}"]
DISPOSITIONS += ["form-data; name= {}", "form-data; name={} x", "form-data; x=\"\xff\"; name={}"]


def content_types():
    body = form(blob_part(b"new"))
    for value in CONTENT_TYPES:
        for what, sent in (("a body", body), ("no body", b""), ("no part", b"--b--"), ("no mark", b"x")):
            yield Case(f"{what} of the type {value!r}", post(UPLOAD, sent, f"Content-Type: {value}"))
        yield Case(f"in chunks, the type {value!r}", post_pieces(UPLOAD, [body], f"content-type:{value}"))
        yield Case(f"no chunk of the type {value!r}", post_chunks(UPLOAD, [], f"Content-Type: {value}"))
    yield Case("no type", post(UPLOAD, body))
    yield Case("no type and no body", head(b"POST %b HTTP/1.1" % UPLOAD))
    yield Case("a type and no length", head(b"POST %b HTTP/1.1" % UPLOAD, FORM))
    yield Case("a second type", post(UPLOAD, body, "Content-Type: x", FORM))
    yield Case("a first type", post(UPLOAD, body, FORM, "Content-Type: x"))
    for boundary in BOUNDARIES:
        kind = f'Content-Type: multipart/form-data; boundary="{boundary}"'
        for others in ("b", boundary):
            content = f"\r\n--{others[:-1]}\r\n--{others}x\r\n--{others}-\r\n-- {others}".encode()
            mark = octets(boundary)
            sent = [blob_part(one, boundary=mark) for one in (content, b"new")] + [b"--%b--" % mark]
            yield Case(f"the boundary {boundary} and {others}", post(UPLOAD, b"".join(sent), kind))


def multipart_bodies():
    """A description of a body with the boundary `b`, and the body."""
    one, two = blob_part(b"one"), blob_part(b"two")
    yield "two parts", form(one, two)
    yield "no part", form()
    yield "nothing", b""
    for front in (b"x", b"\r\n", b"\r", b"\n", b"-", b"--", b"--b", b"--b-", b"--bx", b"\r\n--bx\r\n", b"--b x\r\n"):
        yield f"{front} in front", front + form(one)
        yield f"{front} and a line end in front", front + b"\r\n" + form(one)
        yield f"{front} alone", front
        yield f"{front} in a content", form(blob_part(front), blob_part(b"x\r\n" + front), two)
        yield f"{front} in the place of a mark", one + front + b"\r\nx\r\n" + form(two)
        yield f"{front} behind a mark", one + b"--b" + front + b"\r\n" + form(two)
        yield f"{front} behind the close", form(one) + front + form(two)
    for blanks in (0, 1, 15, 16, 17, 18, 40):
        for blank in (b" ", b"\t", b" \t"):
            pad = (blank * blanks)[:blanks]
            yield f"{blanks} of {blank}", form(blob_part(b"one", blanks=pad), blob_part(b"two", blanks=pad))
            yield f"{blanks} of {blank} before the close", one + b"--b" + pad + b"--"
            yield f"{blanks} of {blank} and a line feed", one + b"--b" + pad + b"\n" + form(two)
            yield f"{blanks} of {blank} and no more", one + b"--b" + pad
    for length in (4_095, 4_096, 4_097):
        for last in (b"x", b"\r", b"\r\n", b"\r\n--b", b"\r\n--b" + b" " * 16):
            preamble = b"x" * (length - len(last)) + last
            yield f"a preamble of {length} bytes to {last[:6]}", preamble + b"\r\n" + form(one)
            yield f"{length} bytes of a preamble to {last[:6]}", preamble
    yield from part_heads()
    yield from many_parts()
    yield from puts()


def part_heads():
    disposition = f"Content-Disposition: form-data; name={ref_of(b'one')}"
    for length in range(4_094, 4_099):
        for line in (b"A: " + b"x" * 5_000, b"x" * 5_000, b"A: b\r\n" * 2 + b"A: " + b"x" * 5_000):
            room = length - len(octets(disposition)) - 4 - 2
            lines = octets(disposition) + b"\r\n" + line[:room]
            yield f"a head of {length} bytes, {line[:6]}", b"--b\r\n" + lines + b"\r\n\r\none\r\n" + form()
            yield f"{length} bytes of a head, {line[:6]}", b"--b\r\n" + (lines + b"xxxx" + b"xx")[:length]
            beginning = (lines + b"xxxxx")[: length - 1] + b"\r"
            yield f"{length} bytes of a head to a line end, {line[:6]}", b"--b\r\n" + beginning
    for count in (14, 15, 16, 17):
        lines = ["A: b"] * count
        yield f"{count} lines and the name", form(blob_part(b"one", *lines))
        before = b"\r\n" + b"A: b\r\n" * count
        yield f"{count} lines before the name", form(blob_part(b"one").replace(b"\r\n", before, 1))
        yield f"{count} lines and no name", b"--b\r\n" + b"A: b\r\n" * count + b"\r\n" + form()
        yield f"{count} lines and the start of one", b"--b\r\n" + b"A: b\r\n" * count + b"A"
        yield f"{count} lines and a carriage return", b"--b\r\n" + b"A: b\r\n" * count + b"\r"
    for line in HEADER_LINES:
        yield f"the line {line}", form(blob_part(b"one", line), blob_part(b"two"))
        yield f"the line {line} and no more", b"--b\r\n" + octets(disposition) + b"\r\n" + line
    for value in DISPOSITIONS:
        line = "Content-Disposition: " + value.format(ABC)
        yield f"the value {value}", form(b"--b\r\n" + octets(line) + b"\r\n\r\nabc\r\n")
        both = octets(f"{line}\n{disposition}\n\n")
        yield f"the value {value}, and a good one", form(b"--b\r\n" + both + b"one\r\n")
    for name in NAMES:
        line = f"content-disposition:form-data; name={name}"
        yield f"the name {name}", form(b"--b\r\n" + octets(line) + b"\n\nabc\r\n")
        yield f"the name {name} and no content", b"--b\r\n" + octets(line) + b"\n\n"
    yield "line feeds", form(blob_part(b"one", end=b"\n"), blob_part(b"two", "A:", end=b"\n"))
    yield "a delimiter of a line feed", form(blob_part(b"one").replace(b"\r\n", b"\n", 1))
    yield "no content, no line end", b"--b\r\n" + octets(disposition) + b"\r\n\r\n--b--"
    yield "no head", form(b"--b\r\n\r\n\r\n")
    yield "a mark for a head", form(b"--b\r\n", blob_part(b"one"))


def many_parts():
    numbered = [blob_part(b"%d" % number) for number in range(999)]
    last = [blob_part(b""), part(ABC, b"no abc"), part("x", b"")]
    for count in (998, 999):
        for place, one in enumerate(last):
            yield f"{count + 1} parts, the last {place}", form(*numbered[:count], one)
            yield f"{count + 2} parts, the last but one {place}", form(*numbered[:count], one, blob_part(b"2"))
            yield f"{count + 1} parts, {place}, and a bad head", form(*numbered[:count], one, b"--b\r\n\0")
            yield f"{count + 1} parts, {place}, and no mark", b"".join([*numbered[:count], one]) + b"--bx"
    yield "1000 times the same part", form(*[blob_part(b"same")] * 1_000)
    yield "1001 times the same part", form(*[blob_part(b"same")] * 1_001)


def puts():
    one, wrong = blob_part(b"one"), part(ref_of(b"one"), b"two")
    yield "a part thrice", form(one, one, one)
    yield "what stands already", form(blob_part(b"abc"), blob_part(b""), one)
    yield "a wrong part", form(wrong)
    yield "a wrong part behind", form(one, wrong)
    yield "a wrong part before", form(wrong, one)
    yield "a wrong part and no close", wrong + b"--b"
    yield "a wrong part and no mark", wrong[:-2]
    yield "a part of a ref that stands", form(part(ABC, b"abcd"))
    abc = blob_part(b"abc", name_of=older_ref_of)
    yield "a part of an older name", form(abc)
    yield "an older name, twice, and the other one", form(abc, abc, blob_part(b"abc"))
    yield "both names of new parts", form(one, blob_part(b"one", name_of=older_ref_of), blob_part(b"two"))
    yield "another part of an older name", form(part(OLDER_ABC, b""))
    yield "another part of an older name, behind it", form(abc, part(OLDER_ABC, b"abd"), one)
    yield "two parts of one older name", form(*(part(older.COLLIDING_REF, blob) for blob in older.COLLIDING), one)
    yield "an older name, without content or close", part(OLDER_ABC, b"")[:-2]
    yield "the digits of the one name under the other", form(one, part("sha1-" + ABC[7:], b"abc"))
    yield "a name that is no ref", form(one, part("file", b"x"), one)
    yield "a name that is no ref, and a wrong part", form(part("file", b"x"), wrong)
    yield "a wrong part, and a name that is no ref", form(wrong, part("file", b"x"))
    yield "a part of marks", form(blob_part(b"\r\n--" + b"\r\n--b " * 50), one)
    yield "a part within a part", form(blob_part(b"x" + form(one).replace(b"--b", b"--c")), one)


FEW_PARTS = form(blob_part(b"one", "A: b"), b"--b \t\r\nContent-Disposition:form-data;name=%b\n\n\r\n" % octets(EMPTY))
FEW_PARTS += b" behind"


def uploads():
    for what, body in multipart_bodies():
        yield Case(what, post(UPLOAD, body, FORM))
        yield Case(f"{what}, and a request", post(UPLOAD, body, FORM) + PROBE)
        yield Case(f"{what}, in a chunk", post_pieces(UPLOAD, [body], FORM))
        # A break reports what was known of the body before it.
        yield Case(f"{what}, and a break", post_pieces(UPLOAD, [body], FORM, end=b"x\n"))
    yield Case("byte by byte", post_pieces(UPLOAD, [bytes([octet]) for octet in FEW_PARTS], FORM))
    for place in range(1, len(FEW_PARTS)):
        pieces = FEW_PARTS[:place], FEW_PARTS[place:]
        yield Case(f"in chunks at {place}", post_pieces(UPLOAD, pieces, FORM))


def cut_uploads():
    """An upload that is cut at each byte: its body ends there, and breaks there."""
    whole = post(UPLOAD, FEW_PARTS, FORM)
    for place in range(len(whole)):
        yield Case(f"a stream of {place} bytes", whole[:place])
    for place in range(len(FEW_PARTS)):
        yield Case(f"a body of {place} bytes", post(UPLOAD, FEW_PARTS[:place], FORM))
        yield Case(f"a break at {place}", post_pieces(UPLOAD, [FEW_PARTS[:place]], FORM, end=b"\n"))


def large_parts():
    """Contents near the greatest blob, too long to be sent byte by byte. Each is made when it is needed."""
    greatest = reference.LARGEST_BLOB
    for more, end in [(0, b""), (0, b"\r"), (0, b"\r\n--b"), (0, b"\r\nx"), (1, b""), (1, b"\r\n--b--")]:
        for rest in (b"0\r\n\r\n", b"x\n"):
            make = functools.partial(large_upload, greatest + more, end, rest)
            yield Case(f"{greatest + more} bytes, {end} and {rest}", make)
    for length in (greatest, greatest + 1):
        yield Case(f"{length} bytes and a close", functools.partial(whole_large_upload, length))


def large_upload(length, end, rest):
    body = blob_part(b"one") + part(ABC, b"x" * length).removesuffix(b"\r\n") + end
    return post_pieces(UPLOAD, [body], FORM, end=rest)


def whole_large_upload(length):
    content = b"x" * length
    return upload(b"one", content) + get(blob_target(ref_of(content))) + stat(ref_of(content))


# Routes

STAT_TEXTS = [b"camliversion=1", b"camliversion=1&", b"&&camliversion=1&&", b"", b"camliversion", b"camliversion="]
STAT_TEXTS += [b"camliversion=2", b"camliversion=01", b"camliversion=1+", b"camliversion=%31", b"c%61mliversion=1"]
STAT_TEXTS += [b"camliversion=2&camliversion=1", b"camliversion=1&camliversion=2", b"CamliVersion=1"]
STAT_TEXTS += [b"camliversion=1;blob1=x", b"camliversion%3d1", b"camliversion==1", b"%EF%BB%BFcamliversion=1"]
STAT_TEXTS += [b"camliversion=1&blob1", b"camliversion=1&blob1=", b"camliversion=1&=x&blob2=x"]
STAT_TEXTS += [b"camliversion=1&blob1=x", b"camliversion=2&blob1=x", b"camliversion=1&blob1=%zz&%=%&%4"]
STAT_TEXTS += [b"camliversion=1&blob0=x"]
# `A` stands for the ref of a blob, `O` for its older one, and `X` for that of no blob.
BLOB_TEXTS = [b"blob1=A", b"blob1=A&blob2=X", b"blob1=X&blob2=A", b"blob2=A&blob1=X", b"blob2=A", b"blob01=A"]
BLOB_TEXTS += [b"blob0=A", b"blob1=A&blob1=x", b"blob1=A&blob2=A&blob3=x", b"blob1=A&blob3=x", b"bl%6Fb1=A"]
BLOB_TEXTS += [b"blob1=A%00", b"blob1=+A", b"blob1=%2BA", b"blob1=A&blob2=A&blob3=X&blob4=A", b"blob1=A%26&blob2=A"]
BLOB_TEXTS += [b"blob1=\xc3\xa4&blob2=A", b"blob%31=A&%ff=%c3", b"blob+1=A&blob1=A", b"blob1=A?x", b"blob1=a"]
BLOB_TEXTS += [b"blob1=A&blob2=AA", b"blob1%00=A"]
BLOB_TEXTS += [b"blob1=O", b"blob1=O&blob2=A&blob3=O", b"blob1=A&blob2=O", b"blob1=O0", b"blob1=%73ha1-" + b"0" * 40]
BLOB_TEXTS += [b"blob1=sha1-&blob2=A", b"blob1=sha224-" + b"0" * 40, b"blob1=sha1-" + b"0" * 56]
STAT_TEXTS += [b"camliversion=1&" + text for text in BLOB_TEXTS] + [b"blob1=A&camliversion=1"]
# In texts of pages `A`, `Z` and `M` are the least, the greatest and a middle ref of the many, and `X` is that of none;
# `G` and `H` are the ends of the older refs, and `0` and `F` those of the others.
PAGES = [b"", b"limit=1", b"limit=2&after=", b"limit=1000", b"limit=1001", b"limit=999", b"limit=999999999", b"limit=0"]
PAGES += [b"limit=1000000000", b"limit=", b"limit", b"limit=-1", b"limit=+1", b"limit=%2B1", b"limit=1.0", b"limit=0x1"]
PAGES += [b"limit=a", b"limit=000000001", b"limit=0000000001", b"limit=000000000", b"limit=1&limit=0"]
PAGES += [b"limit=0&limit=1", b"limit=1+", b"after=A", b"after=Z", b"after=M&limit=3", b"after=X&limit=2"]
PAGES += [b"limit=3&after=M", b"after=x", b"after=x&limit=0", b"limit=0&after=x", b"after=A&after=x", b"after=+"]
PAGES += [b"after", b"after=M%00", b"after=%73ha224-", b"After=x", b"LIMIT=0", b"after=A&limit=1001"]
PAGES += [b"after=A&limit=1000", b"after=L&limit=5", b"after=L", b"limit=1003", b"limit=1002", b"a=b&limit=4"]
PAGES += [b"after=G", b"after=H", b"after=H&limit=1", b"after=sha1-", b"after=sha1", b"after=Z&limit=1"]
PAGES += [b"after=0", b"after=F", b"after=0&limit=1", b"limit=%31", b"l%69mit=1", b"limit=\xd9\xa1", b"limit=%D9%A1"]
PAGES += [b"limit=1%"]
BAD_QUERIES = [b"", b" ", b"{", b"[]", b"{}", b"null", b"\xff", b'{"limit":5}', b'{"":1}', b'{"b":1,"a":1,"limit":0}']
BAD_QUERIES += [b'{"constraint":{}}', b'{"constraint":{"anything":true},"limit":0}']
BAD_QUERIES += [b'{"constraint":{"blobSize":{"":1}}}', b'{"constraint":{"anything":true}}x']
BAD_QUERIES += [b'{"constraint":{"permanode":{"value":"a"}}}', b"\xef\xbb\xbf{}"]
BAD_QUERIES += [b'{"constraint":{"logical":{"op":"not","a":{"x":1},"b":2}}}', b'{"constraint":{"anything":1}}']
BAD_QUERIES += ['{"\u00e4\u20ac\U0001f600":1}'.encode(), rb'{"\"\\\/\b\f\n\r\t\u0001\u001f\u007f\ud83d\ude00\u2028":1}']
BAD_QUERIES += [b'{"constraint":{"file":{"fileName":{"a/b":1}}}}', b'{"constraint":{"anything":true},"sort":"Mod"}']
BAD_QUERIES += [rb'{"\u0000":1}']


def stats():
    for text in STAT_TEXTS:
        text = text.replace(b"A", octets(ABC)).replace(b"X", octets(ABSENT)).replace(b"O", octets(OLDER_ABC))
        yield Case(f"GET {text}", get(STAT + b"?" + text))
        yield Case(f"GET {text} of the older", get(STAT + b"?" + text), "older")
        yield Case(f"POST {text}", post(STAT, text))
        yield Case(f"POST {text} behind another", post(STAT + b"?" + stat_pairs("x"), text, "Content-Type: text/plain"))
    refs = MANY_REFS
    for count in (1, 2, 200, 999, 1_000, 1_001):
        for more in ([], ["x"], [refs[0]], ["", refs[1]]):
            pairs = stat_pairs(*refs[:count], *more)
            yield Case(f"{count} refs and {more}", post(STAT, pairs), "many")
            yield Case(f"{count} refs in chunks and {more}", post_pieces(STAT, [pairs]), "many")
    yield Case("1000 refs of which few stand", post(STAT, stat_pairs(*refs[::9], *refs)), "many")
    yield Case("1001 refs and no version", post(STAT, stat_pairs(*refs[:1_001], version="2")), "many")
    for place in (1, 500, 1_000):
        for count in (1_000, 1_001):
            pairs = stat_pairs(*refs[: place - 1], "x", *refs[place:count])
            yield Case(f"ref {place} of {count} is none", post(STAT, pairs), "many")


def listings():
    refs = MANY_REFS
    names = {b"A": refs[0], b"Z": refs[-1], b"M": refs[501], b"L": refs[-6], b"X": ABSENT}
    names |= {b"0": "sha224-" + "0" * 56, b"F": "sha224-" + "f" * 56, b"G": "sha1-" + "0" * 40, b"H": "sha1-" + "f" * 40}
    for text in PAGES:
        for name, ref in names.items():
            text = text.replace(b"after=" + name, b"after=" + octets(ref))
        for store in STORES:
            yield Case(f"the page {text} of the store {store}", get(LISTING + b"?" + text), store)
    for place in (0, 1, 2, 3, 4, 500, 1_000, 1_001, 1_002):
        for limit in (1_000, 1_001, 2):
            target = LISTING + b"?after=%b&limit=%d" % (octets(refs[place]), limit)
            yield Case(f"behind ref {place} at most {limit}", get(target), "many")


def queries():
    for text in (*BAD_QUERIES, GOOD_QUERY):
        yield Case(f"the query {text}", post(QUERY, text))
        yield Case(f"the query {text} in chunks", post_pieces(QUERY, [text[:1], text[1:]]))
    for store in STORES:
        yield Case(f"a query of the store {store}", post(QUERY, GOOD_QUERY), store)
        for prefix in ("sha", "sha1-", "sha224-", older.NODE):
            query = {"constraint": {"blobRefPrefix": prefix}}
            yield Case(f"the refs {prefix} of the store {store}", post(QUERY, octets(spell(query))), store)
    for text in [b'{"constraint":{"anything":true}}', b"[" * 128 + b"]" * 128, b"[" * 127 + b"]" * 127]:
        yield Case(f"the query {text}", post(QUERY, text, "Content-Type: text/plain"))
    for depth in (32, 33):
        query = {"anything": True}
        for _ in range(depth - 1):
            query = {"logical": {"op": "not", "a": query}}
        yield Case(f"a query of {depth} constraints", post(QUERY, octets(spell({"constraint": query}))))


def sessions():
    """Uploads and searches on one connection."""
    blobs, search = [KEY, NODE, CLAIM], post(QUERY, GOOD_QUERY)
    for order in itertools.permutations(blobs):
        what = f"the blobs {[blobs.index(one) for one in order]}"
        yield Case(f"{what}, asked behind each", b"".join(upload(blob) + search for blob in order), "empty")
        yield Case(f"{what} at once", upload(*order) + search, "empty")
        yield Case(f"{what} and a search before", search + upload(*order) + search, "empty")
    gone = writing.delete(ref_of(CLAIM), inputs.day(2))
    back = writing.delete(ref_of(gone), inputs.day(3))
    for one, other in ((gone, back), (back, gone)):
        yield Case(f"a deletion, {[one == gone]}, and its own", search + upload(one) + search + upload(other) + search)
    stored = get(blob_target(ref_of(b"new")))
    yield Case("a blob before and behind", stored + upload(b"new") + stored + get(LISTING) + stat(ref_of(b"new")))
    yield Case("kept of an upload that is refused", post(UPLOAD, blob_part(b"new") + b"--b", FORM) + stored)
    yield Case("an upload twice", upload(b"new", b"") + upload(b"", b"new") + get(LISTING), "empty")
    yield Case("expects 100", post(UPLOAD, form(blob_part(b"new")), FORM, "Expect: 100-continue") + stored)
    yield Case("200 requests", PROBE * 200)
    yield Case("nothing", b"")
    yield from older_sessions(search)


def older_sessions(search):
    """The same under older names; and blobs that share one."""
    key = older_ref_of(KEY)
    node = writing.permanode(signer=key)
    claim = writing.claim("set", older_ref_of(node), "tag", "a", inputs.DATE, signer=key)
    send = functools.partial(upload, name_of=older_ref_of)
    for order in itertools.permutations((KEY, node, claim)):
        what = f"the older blobs {[(KEY, node, claim).index(one) for one in order]}"
        yield Case(f"{what}, asked behind each", b"".join(send(blob) + search for blob in order), "empty")
        yield Case(f"{what} at once", send(*order) + search + get(LISTING), "empty")
    yield Case("the key under its other name", upload(KEY) + send(node, claim) + search + send(KEY) + search, "empty")
    yield Case("both names of each", upload(KEY, node, claim) + search + send(claim, node, KEY) + search, "empty")
    gone = writing.delete(older_ref_of(claim), inputs.day(2))
    yield Case("a deletion of an older claim", send(KEY, node, claim, KEY) + upload(KEY, gone) + search, "empty")
    for first, second in itertools.permutations(older.COLLIDING):
        asked = get(blob_target(older.COLLIDING_REF)) + stat(older.COLLIDING_REF, ref_of(first), ref_of(second))
        stream = send(first) + asked + send(second) + asked + upload(second) + asked + get(LISTING)
        yield Case(f"two blobs of one older name, {ref_of(first)} first", stream, "empty")


# Replies that are written down

A = "sha224-23097d223405d8228642a477bda255b32aadbce4bda0b3f7e36c9da7"
E = "sha224-d14a028c2a3a2bc9476102bb288234c415a2b01f828ea62ac5b3e42f"
N = "sha224-adef53a16a87934f7f5595fa4225e39e14c1c80a4e3ed252d959d9b1"
CLOSE = "Connection: close"
OK, BAD, LONG = "200 OK", "400 Bad Request", "413 Payload Too Large"


def told(code, body, *lines):
    """The reply with a code and its phrase."""
    body = octets(body)
    lines = ["HTTP/1.1 " + code, "Content-Type: application/json", f"Content-Length: {len(body)}", *lines]
    return octets("\r\n".join([*lines, "", ""])) + body


NO_ROUTE = told("404 Not Found", '{"error":"no route"}')
NOTHING = b"GET / HTTP/1.1\r\n\r\n"
A_STANDS = told(OK, '{"stat":[{"blobRef":"' + A + '","size":3}]}')
A_ENTRY = '{"blobRef":"' + A + '","size":3}'
# Its content begins at the offset 111.
A_PART = b'--x\r\nContent-Disposition: form-data; name="' + octets(A) + b'"\r\n\r\nabc\r\n'


def upload_x(body):
    kind = b"Content-Type: multipart/form-data; boundary=x"
    return b"POST /camli/upload HTTP/1.1\r\n%b\r\nContent-Length: %d\r\n\r\n%b" % (kind, len(body), body)


def post_text(path, body):
    body = octets(body)
    return octets(f"POST {path} HTTP/1.1\nContent-Length: {len(body)}\n\n") + body


def rows():
    """Streams with the replies that they have to get."""
    for place, (stream, replies) in enumerate([*head_rows(), *route_rows(), *answer_rows(), *upload_rows()]):
        yield Case(f"row {place}", stream, "small", replies)


def head_rows():
    yield b"GET / HTTP/1.1\r\n\r\n\r\n", NO_ROUTE
    yield b"GET / HTTP/1.1\r\n", b""
    yield b"GET  / HTTP/1.1\r\n\r\n" + NOTHING, told(BAD, '{"error":"bad head"}', CLOSE)
    twice = b"GET / HTTP/1.1\r\nContent-Length: 0\r\nContent-Length: 0\r\n\r\n"
    yield twice + NOTHING, told(BAD, '{"error":"bad length"}', CLOSE)
    yield b"GET /" + b"x" * 16_379, told(LONG, '{"error":"too long","limit":16384}', CLOSE)
    yield b"GET /" + b"x" * 16_378, b""
    yield b"GET / HTTP/1.1\n" + b"A:\n" * 65 + b"\n", told(LONG, '{"error":"too long","limit":64}', CLOSE)
    yield b"GET / HTTP/1.1\n" + b"A:\n" * 64 + b"\n" + NOTHING, NO_ROUTE + NO_ROUTE
    closed = told("404 Not Found", '{"error":"no route"}', CLOSE)
    yield b"GET / HTTP/1.1\r\nContent-Length: 1\r\n\r\n", closed
    yield b"GET / HTTP/1.0\r\n\r\n" + NOTHING, closed
    yield b"GET / HTTP/1.1\r\nconnection: Keep-Alive ,\tCLOSE\r\n\r\n" + NOTHING, closed
    smuggled = b"GET / HTTP/1.1\r\nContent-Length: 5\r\nTransfer-Encoding: chunked\r\n\r\n0\r\n\r\n"
    yield smuggled + NOTHING, told(BAD, '{"error":"bad length"}', CLOSE)


def route_rows():
    wrong = '{"error":"method"}'
    yield b"DELETE /camli/stat HTTP/1.1\r\n\r\n", told("405 Method Not Allowed", wrong, "Allow: GET, POST")
    yield b"PUT /camli/upload HTTP/1.1\n\n", told("405 Method Not Allowed", wrong, "Allow: POST")
    yield b"POST /camli/enumerate-blobs HTTP/1.0\n\n", told("405 Method Not Allowed", wrong, "Allow: GET", CLOSE)
    yield b"GET /camli/xyz HTTP/1.1\r\n\r\n", NO_ROUTE
    yield b"GET /camli/enumerate-blobs?limit=0 HTTP/1.1\r\n\r\n", told(BAD, '{"error":"bad number"}')
    yield b"GET /camli/enumerate-blobs?after=x HTTP/1.1\r\n\r\n", told(BAD, '{"error":"bad ref"}')
    page = f"GET /camli/enumerate-blobs?limit=1&after=sha224-23{'0' * 54} HTTP/1.1\n\n"
    yield octets(page), told(OK, '{"blobs":[' + A_ENTRY + '],"continueAfter":"' + A + '"}')
    last = f"GET /camli/enumerate-blobs?after=sha224-{'f' * 56} HTTP/1.1\n\n"
    yield octets(last), told(OK, '{"blobs":[]}')
    yield octets(f"GET /camli/stat?camliversion=1&blob1={A} HTTP/1.1\r\n\r\n"), A_STANDS
    yield post_text("/camli/stat", f"blob2={A}&blob1=sha224-{'0' * 56}&camliversion=1"), A_STANDS
    chunks = f"5\r\ncamli\r\n10\r\nversion=1&blob1=\r\n3F\r\n{A}\r\n0\r\n\r\n"
    yield octets(f"POST /camli/stat HTTP/1.1\r\nTransfer-Encoding: chunked\r\n\r\n{chunks}"), A_STANDS
    yield b"GET /camli/stat HTTP/1.1\r\n\r\n", told(BAD, '{"error":"bad version"}')
    yield b"GET /camli/stat?camliversion=1 HTTP/1.1\r\n\r\n", told(OK, '{"stat":[]}')
    blob = b"HTTP/1.1 200 OK\r\nContent-Type: application/octet-stream\r\nContent-Length: 3\r\n\r\nabc"
    yield octets(f"GET /camli/{A} HTTP/1.1\r\n\r\n") + NOTHING, blob + NO_ROUTE
    absent = "sha224-" + "0" * 56
    told_absent = told("404 Not Found", '{"error":"absent","blobRef":"' + absent + '"}', CLOSE)
    yield octets(f"GET /camli/{absent} HTTP/1.1\r\nConnection: close\r\n\r\n") + NOTHING, told_absent
    found = '{"blobs":[{"blob":"' + N + '"}]}'
    yield post_query('{"constraint":{"permanode":{"attr":"tag","value":"a"}}}'), told(OK, found)
    at_size = told_fault("BadValue", "constraint/blobSize")
    yield post_query('{"constraint":{"blobSize":{}}}') + NOTHING, at_size + NO_ROUTE
    yield post_query(r'{"\"\u0001":1}'), told_fault("BadKey", r"\"\u0001")
    yield b"POST /camli/search/query HTTP/1.1\r\n\r\n", told_fault("NotJson", "")
    long = told(LONG, '{"error":"too long","limit":1048576}', CLOSE)
    yield b"POST /camli/search/query HTTP/1.1\r\nContent-Length: 1048577\r\n\r\n", long


def post_query(text):
    return post_text("/camli/search/query", text)


def told_fault(kind, place):
    """The reply to a text that isn't a query; the path as it is written."""
    return told(BAD, f'{{"error":"bad query","kind":"{kind}","at":"{place}"}}')


# All that JSON escapes, DEL and letters that it doesn't, and the marker of signatures, as they are written.
ESCAPED = r"a \"quoted\" \\ text\b\f\n\r\t\u001f" + "\x7f \u00e9\u672c " + r",\"camliSig\":\""
# Texts that aren't queries, and the kind and the path of the first fault of each.
FIRST_FAULTS = [
    ('{"constraint":', "NotJson", ""),
    ('{"limit":5}', "BadValue", ""),
    ('{"constraint":{"anything":true},"limit":0}', "BadValue", "limit"),
    ('{"constraint":{"permanode":{"value":"a"}}}', "BadValue", "constraint/permanode"),
    ('{"constraint":{"logical":{"op":"and","a":{"anything":true}}}}', "BadValue", "constraint/logical"),
    ('{"constraint":{"colour":1}}', "BadKey", "constraint/colour"),
    (r'{"a \"b\"/":1}', "BadKey", r"a \"b\"/"),
    ('{"' + ESCAPED + '":18446744073709551615}', "BadKey", ESCAPED),
]


def answer_rows():
    """Answers that list nothing, and two; and the first faults."""
    stat_of_two = f"GET /camli/stat?camliversion=1&blob1={A}&blob2={E} HTTP/1.1\r\n\r\n"
    yield octets(stat_of_two), told(OK, '{"stat":[' + A_ENTRY + ',{"blobRef":"' + E + '","size":0}]}')
    yield post_query('{"constraint":{"permanode":{"attr":"tag","value":"b"}}}'), told(OK, '{"blobs":[]}')
    node = writing.permanode("000102030405060708090a0b0c0d0e0f")
    received = f'{{"received":[{{"blobRef":"{ref_of(node)}","size":{len(node)}}}]}}'
    low, high = sorted([N, ref_of(node)])
    two = '{"blobs":[{"blob":"' + low + '"},{"blob":"' + high + '"}]}'
    yield upload(node) + post_query('{"constraint":{"anything":true}}'), told(OK, received) + told(OK, two)
    for text, kind, place in FIRST_FAULTS:
        yield post_query(text), told_fault(kind, place)


def upload_rows():
    received = '{"received":[' + A_ENTRY + "]"
    yield upload_x(A_PART + b"--x--" + b"." * 29) + NOTHING, told(OK, received + "}") + NO_ROUTE
    yield upload_x(b"--x--") + NOTHING, told(OK, '{"received":[]}') + NO_ROUTE
    yield upload_x(b"") + NOTHING, told(BAD, '{"received":[],"error":"bad multipart","at":0}', CLOSE)
    yield b"POST /camli/upload HTTP/1.1\r\n\r\n" + NOTHING, told(BAD, '{"error":"bad multipart","at":0}') + NO_ROUTE
    no_mark = '{"received":[],"error":"bad multipart","at":111}'
    yield upload_x(A_PART + b"--x") + NOTHING, told(BAD, no_mark, CLOSE)
    yield upload_x(A_PART + b"--x\r\n"), told(BAD, received + ',"error":"bad multipart","at":121}', CLOSE)
    wrong = A_PART.replace(b"abc", b"")
    digest = received + ',"error":"bad digest","said":"' + A + '","is":"' + E + '"}'
    yield upload_x(A_PART + wrong + A_PART + b"--x--") + NOTHING, told(BAD, digest, CLOSE)
    named = A_PART.replace(octets(A), b"x")
    yield upload_x(A_PART + named + A_PART + b"--x--"), told(BAD, received + ',"error":"bad ref"}', CLOSE)
    yield upload_x(A_PART + b"--x--")[:-1], b""
    chunked = b"Content-Type: multipart/form-data; boundary=x\r\nTransfer-Encoding: chunked"
    broken = b"POST /camli/upload HTTP/1.1\r\n%b\r\n\r\nx\n" % chunked
    yield broken, told(BAD, '{"received":[],"error":"bad length"}', CLOSE)
