"""Requests of a few lines with the replies that they have to get: how heads and bodies are read, and what requests
mean.

The replies are written down here, by docs/http.md. A further request after a stream shows whether the connection stays
open.
"""

from connections import LISTING, QUERY, STAT, UPLOAD
from http_inputs import A, A_ENTRY, A_PART, A_STANDS, BAD, CLOSE, KEY, LONG, MANY, MANY_REFS, NO_ROUTE, NOTHING, OK
from http_inputs import FORM, Case, chunk, form, get, head, part, post, post_chunks, stat_pairs, told, upload
from older import COLLIDING, COLLIDING_REF, OLDER_ABC, OLDER_EMPTY
from reference import older_ref_of, ref_of
from writing import octets, permanode

E = "sha224-d14a028c2a3a2bc9476102bb288234c415a2b01f828ea62ac5b3e42f"
E_ENTRY = '{"blobRef":"' + E + '","size":0}'
CHUNKED = "Transfer-Encoding: chunked"
# A query whose reply shows what was read.
HELLO = b'{"hello":1}'


# Replies

def refused(what, *lines, code=BAD):
    return told(code, f'{{"error":"{what}"}}', *lines)


def bad_query(kind, at="", *lines):
    return told(BAD, f'{{"error":"bad query","kind":"{kind}","at":"{at}"}}', *lines)


def stat_reply(*entries):
    return told(OK, '{"stat":[' + ",".join(entries) + "]}")


def upload_reply(*entries):
    return told(OK, '{"received":[' + ",".join(entries) + "]}")


BAD_HEAD, BAD_LENGTH = refused("bad head", CLOSE), refused("bad length", CLOSE)
NO_ROUTE_CLOSED = refused("no route", CLOSE, code="404 Not Found")


def request_rows():
    """Streams with the replies that they have to get."""
    for rows in (heads_read, lengths_read, chunks_read, routes_asked, refs_asked, queries_asked):
        for place, (stream, replies) in enumerate(rows()):
            yield Case(f"{rows.__name__} {place}", stream, "small", replies)
    for place, (stream, replies) in enumerate(pages_asked()):
        yield Case(f"pages_asked {place}", stream, "many", replies)
    for place, (stream, replies) in enumerate(older_asked()):
        yield Case(f"older_asked {place}", stream, "empty", replies)
    yield Case("a search of at most three", *limited_search())


# How heads and bodies are read

def heads_read():
    yield get(f"/camli/stat?camliversion=1&blob1={A}&blob2={E}", "Host: localhost"), stat_reply(A_ENTRY, E_ENTRY)
    yield get("/a?b?c") + head("GET * HTTP/1.0", end="\n") + NOTHING, NO_ROUTE + NO_ROUTE_CLOSED
    yield get(f"/camli/stat?camliversion=1&blob1={A}?c"), refused("bad ref")
    yield b"\r\n\n" + head("GET /a HTTP/1.1", end="\n") + b"GET", NO_ROUTE
    kinds = ('content-TYPE:  multipart/form-data; boundary="a b" ', "Content-Type: c")
    yield post(UPLOAD, b"--a b--", *kinds) + NOTHING, upload_reply() + NO_ROUTE
    yield get("/", "content-TYPE:  a b ", "Content-Type: c") + NOTHING, NO_ROUTE + NO_ROUTE
    yield get("/", "Connection: Keep-Alive , CLOSE") + NOTHING, NO_ROUTE_CLOSED
    yield get("/", "Connection: closed", "Connection:close") + NOTHING, NO_ROUTE_CLOSED
    yield get("/", "Connection: closed") + NOTHING, NO_ROUTE + NO_ROUTE
    yield b"\r\n\n", b""
    yield b"GET  / HTTP/1.1\r\n\r\n", BAD_HEAD
    yield get("/", "A : b") + NOTHING, BAD_HEAD


def query_head(*headers, version=b"1.1", end="\r\n"):
    return head(b"POST %b HTTP/%b" % (QUERY, version), *headers, end=end)


def lengths_read():
    yield query_head("Content-Length: 11", end="\n") + HELLO + b"GET", bad_query("BadKey", "hello")
    yield query_head("Content-Length: 0") + NOTHING, bad_query("NotJson") + NO_ROUTE
    yield head("POST / HTTP/1.1", "Content-Length: 0") + NOTHING, NO_ROUTE + NO_ROUTE
    yield query_head("Content-Length: 3") + b"ab", b""
    bad = [["Content-Length: 1", "Content-Length: 1"], ["Content-Length: 1, 1"], ["Content-Length: +1"]]
    bad += [["Content-Length: 00000000000000000001"], ["Content-Length: 1", CHUNKED]]
    bad += [["Transfer-Encoding: gzip, chunked"]]
    for headers in bad:
        yield query_head(*headers) + b"a" + NOTHING, BAD_LENGTH
    yield query_head("Content-Length: 0000000000000000011") + HELLO + NOTHING, bad_query("BadKey", "hello") + NO_ROUTE
    in_chunks = b"b\r\n" + HELLO + b"\r\n0\r\n\r\n"
    yield query_head(CHUNKED, version=b"1.0") + in_chunks + NOTHING, bad_query("BadKey", "hello", CLOSE)
    yield head("POST / HTTP/1.0", CHUNKED) + b"0\r\n\r\n" + NOTHING, NO_ROUTE_CLOSED


def chunks_read():
    pieces = [b"camliversion=1", b"&", b"blob1=" + octets(A)]
    yield post_chunks(STAT, map(chunk, pieces)) + NOTHING, A_STANDS + NO_ROUTE
    body = b'5;x="y"\r\n{"abc\r\n006 \r\nde":1}\r\n0\r\nT: u\n\r\n'
    yield query_head("transfer-encoding: Chunked") + body + b"GET", bad_query("BadKey", "abcde")
    # The part before a break is content.
    kind, content = "Content-Type: multipart/form-data; boundary=x", A_PART + b"--x--"
    broken = post_chunks(UPLOAD, [octets(f"{len(content):x}\r\n"), content, b"d"], kind)
    yield broken + NOTHING, told(BAD, '{"received":[' + A_ENTRY + '],"error":"bad length"}', CLOSE)
    for body in (b"3\r\nabcd", b"3\nabc", b"g\r\n", b"0\r\nT u\r\n\r\n"):
        yield query_head(CHUNKED) + body, BAD_LENGTH
        yield query_head(CHUNKED) + body + NOTHING, BAD_LENGTH
    for body in (b"3\r\nabc", b"5\r\nab", b"0\r\n"):
        yield query_head(CHUNKED) + body, b""


# The meaning of requests

def routes_asked():
    empty = b"HTTP/1.1 200 OK\r\nContent-Type: application/octet-stream\r\nContent-Length: 0\r\n\r\n"
    yield get(f"/camli/{E}") + get(f"/camli/{E}?x=1"), empty + empty
    for target in (f"/camli/{E}/", "/camli/", "/camli/Stat", "/camli/%73tat"):
        yield get(target), NO_ROUTE
    rows = [(f"HEAD /camli/{E}", "GET"), ("PUT /camli/stat", "GET, POST"), ("GET /camli/upload", "POST")]
    rows += [("POST /camli/enumerate-blobs", "GET"), ("GET /camli/search/query", "POST")]
    rows += [("get /camli/search/query", "POST")]
    for line, methods in rows:
        reply = refused("method", f"Allow: {methods}", code="405 Method Not Allowed")
        yield head(f"{line} HTTP/1.1") + NOTHING, reply + NO_ROUTE


def refs_asked():
    e_stands, bad_version, bad_ref = stat_reply(E_ENTRY), refused("bad version"), refused("bad ref")
    rows = [(f"camliversion=1&blob1={E}&blob2={E}", e_stands)]
    rows += [(f"camliversion=1&blob2={E}&blob1={A}&blob4=x", stat_reply(A_ENTRY, E_ENTRY))]
    rows += [("camliversion=1", stat_reply()), (f"%63amliversion=%31&&blob1=%73{E[1:]}", e_stands)]
    rows += [(f"camliversion=1&blob01=x&blob1={E}&blob1=x", e_stands)]
    rows += [("blob1=x", bad_version), ("camliversion=2&camliversion=1", bad_version)]
    rows += [("camliversion=1&blob1=", bad_ref), (f"camliversion=1&blob1=x&blob1={E}", bad_ref)]
    for pairs, reply in rows:
        yield get(f"/camli/stat?{pairs}"), reply
    # With `POST` the query is ignored.
    rows = [("camliversion=1", stat_reply()), (f"camliversion=1&blob1={E}", e_stands), ("camliversion=+1", bad_version)]
    for pairs, reply in rows:
        yield post(octets(f"/camli/stat?camliversion=1&blob1={E}"), octets(pairs)), reply
        yield post(STAT, octets(pairs)), reply
    yield post(STAT, stat_pairs(*[E] * 1_000)), e_stands
    yield post(STAT, stat_pairs(*["x"] * 1_001)), told(LONG, '{"error":"too long","limit":1000}')


def pages_asked():
    sizes = {name_of(blob): len(blob) for blob in MANY for name_of in (ref_of, older_ref_of)}
    refs = MANY_REFS

    def page(some):
        entries = ",".join(f'{{"blobRef":"{ref}","size":{sizes[ref]}}}' for ref in some)
        return told(OK, f'{{"blobs":[{entries}],"continueAfter":"{some[-1]}"}}')

    yield get(LISTING), page(refs[:1_000])
    yield get(LISTING + b"?after=&limit=1001"), page(refs[:1_000])
    yield get(LISTING + octets(f"?after={E}&limit=007")), page([ref for ref in refs if ref > E][:7])
    yield get(LISTING + b"?after=x&limit=0"), refused("bad ref")
    for limit in (b"0", b"", b"+7", b"1000000000"):
        yield get(LISTING + b"?limit=" + limit), refused("bad number")


def older_asked():
    """Blobs under the refs that they have in older stores."""
    entry = '{"blobRef":"' + OLDER_ABC + '","size":3}'
    absent = told("404 Not Found", '{"error":"absent","blobRef":"' + OLDER_ABC + '"}')
    yield get(f"/camli/{OLDER_ABC}"), absent
    for path in (OLDER_ABC.upper(), OLDER_ABC[:-1], OLDER_ABC + "0", "sha224-" + OLDER_ABC[5:], "sha1-" + A[7:]):
        yield get(f"/camli/{path}"), NO_ROUTE
    kept = upload(b"abc", name_of=older_ref_of)
    stands = stat_reply(entry)
    asked = get(f"/camli/stat?camliversion=1&blob1={OLDER_ABC}&blob2={A}")
    yield kept + get(f"/camli/{OLDER_ABC}") + asked, upload_reply(entry) + content_reply(b"abc") + stands
    one_page = told(OK, '{"blobs":[' + entry + '],"continueAfter":"' + OLDER_ABC + '"}')
    both = told(OK, '{"blobs":[' + entry + "," + A_ENTRY + "]}")
    behind = told(OK, '{"blobs":[' + A_ENTRY + "]}")
    pages = get(LISTING) + get(LISTING + b"?limit=1") + get(LISTING + octets(f"?after={OLDER_ABC}"))
    replies = upload_reply(A_ENTRY) + upload_reply(entry, entry) + both + one_page + behind
    yield upload(b"abc") + upload(b"abc", b"abc", name_of=older_ref_of) + pages, replies
    other = post(UPLOAD, form(part(OLDER_ABC, b"")), FORM)
    wrong = '{"received":[],"error":"bad digest","said":"' + OLDER_ABC + '","is":"' + OLDER_EMPTY + '"}'
    yield other, told(BAD, wrong, CLOSE)
    said = "sha1-" + A[7:]
    yield post(UPLOAD, form(part(said, b"abc")), FORM), told(BAD, '{"received":[],"error":"bad ref"}', CLOSE)
    said = '{"blobRef":"' + COLLIDING_REF + '","size":320}'
    one, two = (upload(blob, name_of=older_ref_of) for blob in COLLIDING)
    asked = get(f"/camli/{COLLIDING_REF}")
    found = content_reply(COLLIDING[0])
    yield one + asked + two + asked, upload_reply(said) + found + upload_reply(said) + found


def content_reply(content):
    head = f"HTTP/1.1 200 OK\r\nContent-Type: application/octet-stream\r\nContent-Length: {len(content)}\r\n\r\n"
    return octets(head) + content


def queries_asked():
    yield post(QUERY, b'{"limit":3}'), bad_query("BadValue")
    yield query_head(), bad_query("NotJson")


def limited_search():
    """A search for three of four permanodes, its store, and the replies."""
    nodes = [permanode(f"{number:032x}") for number in range(4)]
    received = upload_reply(*(f'{{"blobRef":"{ref_of(blob)}","size":{len(blob)}}}' for blob in (KEY, *nodes)))
    found = ",".join(f'{{"blob":"{ref}"}}' for ref in sorted(map(ref_of, nodes))[:3])
    search = post(QUERY, b'{"constraint":{"anything":true},"limit":3}')
    return upload(KEY, *nodes) + search, "empty", received + told(OK, f'{{"blobs":[{found}]}}')
