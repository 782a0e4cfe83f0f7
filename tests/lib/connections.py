"""The replies of a whole connection, computed a second time.

Everything here is written from docs/http.md and docs/formats/multipart.md, to be read beside them, and each route is at
its function. Facts, searches and queries are those of reference.py and queries.py. It is slow and plain on purpose: it
has all bytes of the connection, and doesn't consider how they came.

A stream is the bytes of a connection up to the end of its source. A body that doesn't end, because it breaks or the
source ends in it, still has a content: the part that came. Refusals by such a content come first.
"""

import json
import re
from typing import NamedTuple, Optional

import queries
import reference
from reference import is_ref, ref_like

# docs/http.md, "Heads of replies"
PHRASES = {
    200: b"OK",
    400: b"Bad Request",
    403: b"Forbidden",
    404: b"Not Found",
    405: b"Method Not Allowed",
    413: b"Payload Too Large",
    500: b"Internal Server Error",
    503: b"Service Unavailable",
    507: b"Insufficient Storage",
}
JSON, OCTETS = b"application/json", b"application/octet-stream"


# Replies

class Reply(NamedTuple):
    code: int
    body: bytes
    kind: bytes = JSON
    allow: Optional[bytes] = None
    closes: bool = False

    def text(self):
        """The reply as it is written (docs/http.md, "Heads of replies")."""
        lines = [b"HTTP/1.1 %d %s" % (self.code, PHRASES[self.code])]
        lines += [b"Content-Type: " + self.kind, b"Content-Length: %d" % len(self.body)]
        if self.allow is not None:
            lines.append(b"Allow: " + self.allow)
        if self.closes:
            lines.append(b"Connection: close")
        return b"".join(line + b"\r\n" for line in lines) + b"\r\n" + self.body


class Refused(Exception):
    """Why a request is refused: the code, the fields of the text, and the methods of the route if these are listed."""

    def __init__(self, code, fields, allow=None):
        super().__init__(code, fields)
        self.code, self.fields, self.allow = code, fields, allow

    def reply(self, **fields_before):
        return Reply(self.code, json_text({**fields_before, **self.fields}), allow=self.allow)


class Cut(Exception):
    """The source ends inside a request."""


def json_text(value):
    """JSON without white space; texts are written as docs/formats/queries.md says ("The written text")."""
    return json.dumps(value, separators=(",", ":"), ensure_ascii=False).encode()


def too_long(limit):
    return Refused(413, {"error": "too long", "limit": limit})


def bad(what, **fields):
    return Refused(400, {"error": f"bad {what}", **fields})


def entry(ref, size):
    return {"blobRef": ref, "size": size}


# Heads

# docs/http.md, "Heads" and "How long a body is"
LONGEST_HEAD = 16_384
MOST_HEADERS = 64
TOKEN = rb"[!#$%&'*+.^_`|~0-9A-Za-z-]+"
LINE_END = rb"\r?\n"
HEADER = rb"(%b):([\t\x20-\x7e\x80-\xff]*)%b" % (TOKEN, LINE_END)
HEADERS = rb"(?P<headers>(?:%b)*)%b" % (HEADER, LINE_END)
HEAD = re.compile(
    rb"(?:%b)*(?P<method>%b) (?P<target>[^\x00-\x20\x7f]+) HTTP/1\.(?P<version>[01])%b%b"
    % (LINE_END, TOKEN, LINE_END, HEADERS)
)
HEADER, TRAILERS = re.compile(HEADER), re.compile(HEADERS)
LENGTH = re.compile(rb"[0-9]{1,19}")
BLANKS = b" \t"


class Head(NamedTuple):
    """What is read from a head; a body in chunks has no length."""

    method: bytes
    path: bytes
    query: bytes
    content_type: Optional[bytes]
    length: Optional[int]
    closes: bool


def read_head(stream, at):
    """The head that begins at an offset of the stream, and the offset after it."""
    behind = behind_empty_line(stream, at, LONGEST_HEAD, begun=False)
    if behind is None:
        raise too_long(LONGEST_HEAD)
    parts = HEAD.fullmatch(stream, at, behind)
    if parts is None or not is_utf_8(parts["target"]):
        raise bad("head")
    headers = HEADER.findall(parts["headers"])
    if len(headers) > MOST_HEADERS:
        raise too_long(MOST_HEADERS)

    def values(wanted):
        return [value.strip(BLANKS) for name, value in headers if name.lower() == wanted]

    path, _, query = parts["target"].partition(b"?")
    content_type = next(iter(values(b"content-type")), None)
    length = body_length(values(b"content-length"), values(b"transfer-encoding"))
    closes = parts["version"] == b"0" or any(map(says_close, values(b"connection")))
    return Head(parts["method"], path, query, content_type, length, closes), behind


def behind_empty_line(stream, at, limit, begun):
    """The offset after the first empty line, or after the first one that follows a line that isn't empty; None if that
    isn't within the limit."""
    line = at
    while True:
        behind = stream.find(b"\n", line, at + limit) + 1
        if behind == 0 and len(stream) - at < limit:
            raise Cut
        if behind == 0:
            return None
        is_empty = stream[line:behind] in (b"\n", b"\r\n")
        if is_empty and begun:
            return behind
        begun = begun or not is_empty
        line = behind


def is_utf_8(octets):
    try:
        octets.decode()
    except UnicodeDecodeError:
        return False
    return True


def body_length(lengths, codings):
    if not lengths and not codings:
        return 0
    if len(lengths) == 1 and not codings and LENGTH.fullmatch(lengths[0]):
        return int(lengths[0])
    if not lengths and len(codings) == 1 and codings[0].lower() == b"chunked":
        return None
    raise bad("length")


def says_close(value):
    """Whether a value of a `Connection` header closes (docs/http.md, "When a connection closes")."""
    return any(part.strip(BLANKS).lower() == b"close" for part in value.split(b","))


# Bodies

# docs/http.md, "Bodies in chunks"
LONGEST_CHUNK_LINE = 4_096
LONGEST_TRAILERS = 16_384
CHUNK_LINE = re.compile(rb"([0-9A-Fa-f]{1,16})[ \t]*(?:;[^\r\n]*)?\r\n")


class Break(Exception):
    """The body breaks."""


class Body(NamedTuple):
    """The part of a body that came, the offset after it, and `Break` or `Cut` if it doesn't end."""

    content: bytes
    behind: Optional[int]
    fault: Optional[Exception] = None

    def has_to_end(self):
        if isinstance(self.fault, Break):
            raise bad("length")
        if self.fault is not None:
            raise self.fault


def read_body(stream, at, length):
    if length is None:
        return read_chunks(stream, at)
    content = stream[at : at + length]
    return Body(content, at + length, None if len(content) == length else Cut())


def read_chunks(stream, at):
    contents = []
    try:
        while True:
            size, at = chunk_line(stream, at)
            if size == 0:
                return Body(b"".join(contents), behind_trailers(stream, at))
            contents.append(stream[at : at + size])
            at = behind_line_end(stream, at + size)
    except (Break, Cut) as fault:
        return Body(b"".join(contents), None, fault)


def chunk_line(stream, at):
    """The size of a chunk, and the offset after its line."""
    behind = stream.find(b"\n", at, at + LONGEST_CHUNK_LINE) + 1
    if behind == 0:
        raise Cut if len(stream) - at < LONGEST_CHUNK_LINE else Break
    line = CHUNK_LINE.fullmatch(stream, at, behind)
    if line is None:
        raise Break
    return int(line[1], 16), behind


def behind_line_end(stream, at):
    """The offset after the end of a chunk."""
    for place, octet in enumerate(b"\r\n", at):
        if place >= len(stream):
            raise Cut
        if stream[place] != octet:
            raise Break
    return at + 2


def behind_trailers(stream, at):
    behind = behind_empty_line(stream, at, LONGEST_TRAILERS, begun=True)
    trailers = behind and TRAILERS.fullmatch(stream, at, behind)
    if not trailers or len(HEADER.findall(trailers["headers"])) > MOST_HEADERS:
        raise Break
    return behind


# Multipart bodies

# docs/formats/multipart.md, "Bodies"
LONGEST_PREAMBLE = 4_096
LONGEST_PART_HEAD = 4_096
MOST_PART_LINES = 16
MOST_PARTS = 1_000
# docs/formats/multipart.md, "Marks"
MOST_BLANKS = 16
# docs/formats/multipart.md, "Parameters" and "The boundary"
PARAMETER = rb"[ \t]*;[ \t]*(%b)=(?:(%b)|\"([\t\x20\x21\x23-\x5b\x5d-\x7e\x80-\xff]*)\")" % (TOKEN, TOKEN)
PARAMETERS = re.compile(rb"(?:%b)*[ \t]*" % PARAMETER)
PARAMETER = re.compile(PARAMETER)
BOUNDARY = re.compile(rb"[0-9A-Za-z'()+_,./:=? -]{0,69}[0-9A-Za-z'()+_,./:=?-]")
# What may become the empty line that ends a part's head, and what may become a line before it.
EMPTY_BEGINNING = re.compile(rb"\r?")
LINE_BEGINNING = re.compile(rb"%b(:[\t\x20-\x7e\x80-\xff]*\r?)?" % TOKEN)


class Unfinished(Exception):
    """A multipart body isn't at its end; `bad` if no more of it comes."""

    def __init__(self, at):
        super().__init__(at)
        self.at = at


def parameter(value, word, name):
    """The first parameter of a name in a value that begins with a word; None if there is none."""
    parameters = value[len(word) :]
    if value[: len(word)].lower() != word or not PARAMETERS.fullmatch(parameters):
        return None
    found = (token or quoted for its_name, token, quoted in PARAMETER.findall(parameters) if its_name.lower() == name)
    return next(found, None)


def boundary_of(content_type):
    """The boundary of a content type; None if it has none."""
    boundary = parameter(content_type or b"", b"multipart/form-data", b"boundary")
    return boundary if boundary is not None and BOUNDARY.fullmatch(boundary) else None


class Multipart:
    """A body, or the beginning of one, and its boundary."""

    def __init__(self, body, boundary):
        # A body is read as if a line end were before it: offsets are counted from that.
        self.text = b"\r\n" + body
        self.opening = b"\r\n--" + boundary
        self.mark = re.compile(rb"%b(?:--|[ \t]{0,%d}\r\n)" % (re.escape(self.opening), MOST_BLANKS))

    def events(self):
        """The names, as strings, and the contents of the parts, each given as `(name, None)` and then `(name,
        content)`.

        They end where the body closes. Otherwise a `Refused` follows that is certain, or what has come is `Unfinished`.
        """
        mark = self.next_mark(0, 2, LONGEST_PREAMBLE, bad("multipart", at=0), 0)
        parts = 0
        while not mark[0].endswith(b"--"):
            if parts == MOST_PARTS:
                raise too_long(MOST_PARTS)
            parts += 1
            name, start = self.head(mark.end())
            yield name, None
            longest = reference.LARGEST_BLOB
            mark = self.next_mark(start, start, longest, too_long(longest), start - 2)
            yield name, self.text[start : mark.start()]

    def next_mark(self, search, start, longest, above, at):
        """The first mark from an offset on, before which at most so many bytes may be that begin at another offset."""
        mark = self.mark.search(self.text, search)
        end = mark.start() if mark else self.behind_certain(search)
        if end - start > longest:
            raise above
        if mark is None:
            raise Unfinished(at)
        return mark

    def behind_certain(self, search):
        """The offset from which the bytes may begin a mark."""
        longest_mark = len(self.opening) + MOST_BLANKS + 2
        for place in range(max(search, len(self.text) - longest_mark), len(self.text)):
            if self.may_begin(self.text[place:]):
                return place
        return len(self.text)

    def may_begin(self, rest):
        if len(rest) <= len(self.opening):
            return self.opening.startswith(rest)
        behind = rest[len(self.opening) :]
        return rest.startswith(self.opening) and re.fullmatch(rb"-|[ \t]{0,%d}\r?" % MOST_BLANKS, behind) is not None

    def head(self, start):
        """The name of a part, by the head that begins at an offset, and the offset after that head."""
        fault = bad("multipart", at=start - 2)
        headers, line = [], start
        while True:
            behind = self.text.find(b"\n", line) + 1
            if behind == 0:
                if not may_go_on(self.text[line:], line - start):
                    raise fault
                raise Unfinished(start - 2)
            if behind - start > LONGEST_PART_HEAD:
                raise fault
            if self.text[line:behind] in (b"\n", b"\r\n"):
                break
            header = HEADER.fullmatch(self.text, line, behind)
            if header is None or len(headers) == MOST_PART_LINES or behind - start == LONGEST_PART_HEAD:
                raise fault
            headers.append((header[1].lower(), header[2].strip(BLANKS)))
            line = behind
        disposition = next((value for name, value in headers if name == b"content-disposition"), b"")
        name = parameter(disposition, b"form-data", b"name")
        if name is None:
            raise fault
        return name.decode("latin-1"), behind


def may_go_on(line, before):
    """Whether the beginning of a line may become a line of a part's head, after so many bytes of it."""
    may_become = EMPTY_BEGINNING.fullmatch(line) or LINE_BEGINNING.fullmatch(line)
    return before + len(line) < LONGEST_PART_HEAD and may_become is not None


# Pairs of names and values

ESCAPE = re.compile(rb"%([0-9A-Fa-f]{2})")


def pairs_of(text):
    """The first value of each name in a string of the type application/x-www-form-urlencoded (the URL Standard of the
    WHATWG, "application/x-www-form-urlencoded parsing")."""
    values = {}
    for piece in text.split(b"&"):
        if piece:
            name, _, value = piece.partition(b"=")
            values.setdefault(decoded(name), decoded(value))
    return values


def decoded(text):
    octets = ESCAPE.sub(lambda escape: bytes.fromhex(escape[1].decode()), text.replace(b"+", b" "))
    return octets.decode("utf-8", "replace")


# Routes

STAT, UPLOAD, LISTING, QUERY = b"/camli/stat", b"/camli/upload", b"/camli/enumerate-blobs", b"/camli/search/query"
BLOB = b"/camli/"
METHODS = {STAT: (b"GET", b"POST"), UPLOAD: (b"POST",), LISTING: (b"GET",), QUERY: (b"POST",)}
LONGEST_BODY = 1_048_576
LONGEST_UPLOAD = 17_000_000_000
MOST_REFS_OF_A_STAT = 1_000
MOST_OF_A_PAGE = 1_000
PAGE_LIMIT = re.compile(r"[0-9]{1,9}")


def blob_of_path(path):
    """The ref of a path that names a blob; None if it names none."""
    ref = path.removeprefix(BLOB).decode("latin-1")
    return ref if path.startswith(BLOB) and is_ref(ref) else None


def check_route(head):
    methods = METHODS.get(head.path, (b"GET",) if blob_of_path(head.path) else None)
    if methods is None:
        raise Refused(404, {"error": "no route"})
    if head.method not in methods:
        raise Refused(405, {"error": "method"}, b", ".join(methods))


class Connection:
    """A stream, and the home that answers it: its blobs by their refs, and the secrets of its keyring."""

    def __init__(self, stream, blobs, keys):
        self.stream = stream
        self.at = 0
        self.blobs = dict(blobs)
        self.keys = keys
        self.archive = None

    def replies(self):
        """The replies, up to the one after which the connection closes."""
        replies = []
        try:
            while self.at < len(self.stream) and not (replies and replies[-1].closes):
                replies.append(self.next_reply())
        except Cut:
            pass
        return replies

    def next_reply(self):
        try:
            head, self.at = read_head(self.stream, self.at)
        except Refused as refused:
            return refused.reply()._replace(closes=True)
        try:
            self.check_route(head)
            if head.path == UPLOAD:
                reply, is_read = self.upload(head)
            else:
                body = self.whole_body(head)
                reply, is_read = self.answer(head, body), True
        except Refused as refused:
            # It came before the body was read, unless the body is empty.
            reply, is_read = refused.reply(), head.length == 0
        return reply._replace(closes=head.closes or not is_read)

    def check_route(self, head):
        check_route(head)

    def whole_body(self, head):
        """The body of a route that reads it whole, or skips it."""
        if head.length is not None and head.length > LONGEST_BODY:
            raise too_long(LONGEST_BODY)
        body = read_body(self.stream, self.at, head.length)
        if len(body.content) > LONGEST_BODY:
            raise too_long(LONGEST_BODY)
        body.has_to_end()
        self.at = body.behind
        return body.content

    def answer(self, head, body):
        """The reply of a route after the body was read."""
        routes = {STAT: self.stat, LISTING: self.listing, QUERY: self.search}
        try:
            return routes.get(head.path, self.blob)(head, body)
        except Refused as refused:
            return refused.reply()

    def blob(self, head, body):
        """A blob, as it is."""
        ref = blob_of_path(head.path)
        if ref not in self.blobs:
            raise Refused(404, {"error": "absent", "blobRef": ref})
        return Reply(200, self.blobs[ref], OCTETS)

    def stat(self, head, body):
        """The sizes of the blobs `blob1`, `blob2` and so on, up to the first name that is missing: those that are
        there, each once."""
        given = pairs_of(head.query if head.method == b"GET" else body)
        if given.get("camliversion") != "1":
            raise bad("version")
        refs = []
        while f"blob{len(refs) + 1}" in given:
            refs.append(given[f"blob{len(refs) + 1}"])
        if len(refs) > MOST_REFS_OF_A_STAT:
            raise too_long(MOST_REFS_OF_A_STAT)
        if not all(map(is_ref, refs)):
            raise bad("ref")
        standing = [entry(ref, len(self.blobs[ref])) for ref in dict.fromkeys(refs) if ref in self.blobs]
        return Reply(200, json_text({"stat": standing}))

    def listing(self, head, body):
        """A page of the blobs after `after`, at most `limit` of them, and where to continue if there are more."""
        given = pairs_of(head.query)
        after, limit = given.get("after", ""), given.get("limit", str(MOST_OF_A_PAGE))
        if after != "" and not is_ref(after):
            raise bad("ref")
        if not PAGE_LIMIT.fullmatch(limit) or int(limit) == 0:
            raise bad("number")
        refs = sorted(ref for ref in self.blobs if ref > after)
        page = refs[: min(int(limit), MOST_OF_A_PAGE)]
        fields = {"blobs": [entry(ref, len(self.blobs[ref])) for ref in page]}
        if len(page) < len(refs):
            fields["continueAfter"] = page[-1]
        return Reply(200, json_text(fields))

    def search(self, head, body):
        """The answer to a query over all blobs that are there by now."""
        try:
            query = queries.read_query(body)
        except queries.Fault as fault:
            raise bad("query", kind=fault.kind, at=fault.path or "") from None
        if self.archive is None:
            self.archive = queries.Archive(self.blobs, self.keys)
        return Reply(200, queries.search_text(self.archive, query))

    def upload(self, head):
        """The blobs that were put from the parts of a multipart body, and the first fault of the body, its chunks or a
        part, if there is one; and whether the body was read without one."""
        boundary = boundary_of(head.content_type)
        if boundary is None:
            raise bad("multipart", at=0)
        if head.length is not None and head.length > LONGEST_UPLOAD:
            raise too_long(LONGEST_UPLOAD)
        body, received = read_body(self.stream, self.at, head.length), []
        try:
            self.receive(body, boundary, received)
        except Refused as refused:
            return refused.reply(received=received), False
        self.at = body.behind
        return Reply(200, json_text({"received": received})), True

    def receive(self, body, boundary, received):
        """Puts the parts of a body, and records each that was put; refused for the first fault."""
        try:
            for name, content in Multipart(body.content[:LONGEST_UPLOAD], boundary).events():
                if not is_ref(name):
                    raise bad("ref")
                if content is not None:
                    self.put(name, content)
                    received.append(entry(name, len(content)))
            fault = None
        except Unfinished as unfinished:
            fault = bad("multipart", at=unfinished.at)
        if len(body.content) > LONGEST_UPLOAD:
            raise too_long(LONGEST_UPLOAD)
        body.has_to_end()
        if fault is not None:
            raise fault

    def put(self, ref, content):
        if ref != ref_like(ref, content):
            raise bad("digest", said=ref, **{"is": ref_like(ref, content)})
        if ref not in self.blobs:
            self.blobs[ref] = content
            self.archive = None


def replies(stream, blobs, keys):
    """The replies to a stream, as `Reply`s; their texts follow one another on the connection."""
    return Connection(stream, blobs, keys).replies()
