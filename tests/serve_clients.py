"""The routes as used by clients that know nothing of this program: curl, wget, Python's `requests` and `http.client`,
node's `fetch`, and any of them through a forwarder.

The expected replies are computed from an equal request that is spelled here (connections.py).
"""

import http.client
import importlib.util
import json
import random
import shutil
import subprocess

import http_inputs
from connections import LISTING, QUERY, STAT, UPLOAD
from forwarding import Forwarder
from harness import LeftOut, SECONDS, check, compare
from http_inputs import ABC, ABSENT, FORM, GOOD_QUERY, OLDER_ABC, blob_part, blob_target, form, get, head, post
from http_inputs import post_pieces, stat, stat_pairs, upload
from reference import LARGEST_BLOB, ref_of
from serving import HOST, compare_texts
from serve_streams import shelf

GREATEST = random.Random(1).randbytes(LARGEST_BLOB)
NUMBERED = [b"number %d" % number for number in range(1_000)]
REFUSED_PATHS = ["/", "/camli/", "/camli/" + ABC.upper(), "/camli/" + ABSENT, "/camli/stat"]
REFUSED_PATHS += ["/camli/enumerate-blobs?limit=0"]


def url_of(one, target=b"/"):
    return f"http://{HOST}:{one.port}" + (target if isinstance(target, str) else target.decode())


# curl

class Curl:
    """curl, and the server to which it sends."""

    def __init__(self, program, store):
        self.one = shelf(program, http_inputs.STORES[store])
        self.program = program

    def run(self, what, words, source=b""):
        line = ["curl", "--silent", "--show-error", *words]
        done = subprocess.run(line, input=source, stdout=subprocess.PIPE, stderr=subprocess.PIPE, timeout=SECONDS)
        compare(what, "status and errors of curl", (0, b""), (done.returncode, done.stderr))
        return done.stdout

    def gets(self, what, words, request, source=b"", target=b"/"):
        """Runs curl with arguments; it has to print the reply to a request, head and body."""
        told = self.one.text(request)
        compare_texts(what, told, self.run(what, ["--include", *words, url_of(self.one, target)], source))

    def file(self, content):
        path = self.program.new_path()
        path.write_bytes(content)
        return path


def curl(program):
    """Each route by curl, as it sends requests by itself."""
    if not shutil.which("curl"):
        raise LeftOut("curl isn't there")
    small, many = Curl(program, "small"), Curl(program, "many")
    checks = [lambda check=check: check(small) for check in CURL]
    return checks + [lambda: curl_pages(many), lambda: small.one.ends("curl"), lambda: many.one.ends("curl")]


def curl_blobs(by):
    by.gets("a blob", [], get(blob_target(ABC)), target=blob_target(ABC))
    for path in REFUSED_PATHS:
        by.gets(path, [], get(path), target=path)
    for method in (b"PUT", b"DELETE", b"OPTIONS", b"POST"):
        request = head(b"%b %b HTTP/1.1" % (method, blob_target(ABC)))
        by.gets(f"{method} of a blob", ["--request", method.decode()], request, target=blob_target(ABC))
    told = by.one.text(head(b"HEAD %b HTTP/1.1" % blob_target(ABC)))
    got = by.run("the head of a blob", ["--head", url_of(by.one, blob_target(ABC))])
    compare_texts("the head of a blob", told.partition(b"\r\n\r\n")[0] + b"\r\n\r\n", got)


def curl_stats(by):
    refs = ABC, ABSENT, ref_of(b"")
    pairs = [word for pair in stat_pairs(*refs).decode().split("&") for word in ("--data", pair)]
    by.gets("stat by GET", ["--get", *pairs], stat(*refs), target=STAT)
    by.gets("stat by POST", pairs, post(STAT, stat_pairs(*refs)), target=STAT)
    by.gets("stat of none", [], get(STAT + b"?camliversion=1"), target=STAT + b"?camliversion=1")


def curl_searches(by):
    for query in (GOOD_QUERY, b'{"constraint":{"anything":true}}', b"{}", b"[" * 128):
        by.gets(f"the query {query[:40]}", ["--json", "@-"], post(QUERY, query), query, target=QUERY)


def curl_forms(by):
    """The forms that curl makes from files and from texts: parts with a file's name and a type, and parts with only a
    name."""
    old, new = b"abc", b"\x00\r\n--x\xff"
    words = ["--form", f"{ref_of(new)}=@{by.file(new)};type=image/png;filename=\"a;\tb.png\""]
    words += ["--form-string", f"{ref_of(old)}={old.decode()}"]
    by.gets("a form", words, upload(new, old), target=UPLOAD)
    by.gets("what a form stored", [], get(blob_target(ref_of(new))), target=blob_target(ref_of(new)))
    words = ["--form-string", f"{ref_of(b'one')}=one", "--form-string", f"{ref_of(b'two')}=no", "--form-string", "x=y"]
    refused = post(UPLOAD, form(blob_part(b"one"), http_inputs.part(ref_of(b"two"), b"no")), FORM)
    by.gets("a form that is refused", words, refused, target=UPLOAD)
    words = [word for blob in NUMBERED for word in ("--form-string", f"{ref_of(blob)}={blob.decode()}")]
    by.gets("1,000 parts", words, upload(*NUMBERED), target=UPLOAD)
    words += ["--form-string", f"{ABC}=abc"]
    by.gets("1,001 parts", words, upload(*NUMBERED, b"abc"), target=UPLOAD)


def curl_older(by):
    """Blobs under the refs that they have in older stores."""
    path = by.file(b"abc")
    for ref in (OLDER_ABC, ABC, OLDER_ABC):
        words = ["--form", f"{ref}=@{path}"]
        by.gets(f"the file under {ref}", words, post(UPLOAD, form(http_inputs.part(ref, b"abc")), FORM), target=UPLOAD)
        by.gets(f"what {ref} names", [], get(blob_target(ref)), target=blob_target(ref))
    words = ["--form-string", f"{OLDER_ABC}=abd"]
    refused = post(UPLOAD, form(http_inputs.part(OLDER_ABC, b"abd")), FORM)
    by.gets("other bytes under an older ref", words, refused, target=UPLOAD)
    target = LISTING + b"?limit=1"
    by.gets("the first of all", [], get(target), target=target)


def curl_chunks(by):
    """A body in chunks, which curl sends by itself when it doesn't know the length."""
    body = form(*map(blob_part, (b"in", b"chunks")))
    words = ["--request", "POST", "--header", FORM, "--upload-file", "-"]
    by.gets("an upload in chunks", words, post_pieces(UPLOAD, [body], FORM), body, target=UPLOAD)
    words = ["--header", "Transfer-Encoding: chunked", "--data-binary", "@-"]
    by.gets("a query in chunks", words, post_pieces(QUERY, [GOOD_QUERY]), GOOD_QUERY, target=QUERY)


def curl_greatest(by):
    path, ref = by.file(GREATEST), ref_of(GREATEST)
    by.gets("16 MiB", ["--form", f"{ref}=@{path}"], upload(GREATEST), target=UPLOAD)
    by.gets("16 MiB back", [], get(blob_target(ref)), target=blob_target(ref))
    long = GREATEST + b"x"
    words = ["--form", f"{ref_of(long)}=@{by.file(long)}"]
    by.gets("16 MiB and a byte", words, upload(long), target=UPLOAD)


def curl_keeps(by):
    """Several requests on one connection, and what closes it."""
    targets = [blob_target(ABC), STAT + b"?camliversion=1", b"/", blob_target(ABSENT), blob_target(ABC)]
    words = ["--include", "--write-out", "<%{num_connects}>", *(url_of(by.one, target) for target in targets)]
    told = b"".join(by.one.text(get(target)) + b"<%d>" % (place == 0) for place, target in enumerate(targets))
    compare_texts("five requests", told, by.run("five requests", words))
    closing = get(blob_target(ABC), "Connection: close")
    by.gets("Connection: close", ["--header", "Connection: close"], closing, target=blob_target(ABC))
    old = head(b"GET %b HTTP/1.0" % blob_target(ABC))
    by.gets("HTTP/1.0", ["--http1.0"], old, target=blob_target(ABC))
    by.gets("an upgrade that isn't made", ["--http2"], get(blob_target(ABC)), target=blob_target(ABC))


def curl_pages(by):
    refs = http_inputs.MANY_REFS
    by.gets("the first page", [], get(LISTING), target=LISTING)
    for after, limit in (("", 1), (refs[7], 5), (refs[2], 1_000), (refs[-1], 3), (ABSENT, 1_001)):
        pairs = f"after={after}&limit={limit}"
        words = ["--get", "--data", f"after={after}", "--data-urlencode", f"limit={limit}"]
        by.gets(pairs, words, get(LISTING + b"?" + pairs.encode()), target=LISTING)


CURL = [curl_blobs, curl_stats, curl_searches, curl_forms, curl_older, curl_chunks, curl_greatest, curl_keeps]


# Python's requests

def requests(program):
    """Each route by Python's `requests`, over one connection for each check."""
    if importlib.util.find_spec("requests") is None:
        raise LeftOut("the module requests isn't there")
    return [lambda check=check: in_session(program, check) for check in REQUESTS]


class Session:
    """A session of `requests` with a server that serves one connection."""

    def __init__(self, program, store):
        import requests

        self.one = shelf(program, http_inputs.STORES[store], "--connections=1")
        self.session = requests.Session()

    def gets(self, what, request, method, target, **words):
        """Sends a request by `requests`; it has to get the reply to the other one."""
        (reply,) = self.one.replies(request)
        got = self.session.request(method, url_of(self.one, target), timeout=SECONDS, **words)
        compare(what, "code", reply.code, got.status_code)
        compare(what, "body", reply.body, got.content)
        lines = {"Content-Type": reply.kind.decode(), "Content-Length": str(len(reply.body))}
        lines |= {"Allow": reply.allow.decode()} if reply.allow else {}
        lines |= {"Connection": "close"} if reply.closes else {}
        compare(what, "headers", lines, dict(got.headers))
        return got


def in_session(program, check):
    store = "many" if check is requests_pages else "small"
    by = Session(program, store)
    with by.session:
        check(by)
    # It was one connection: the server has now ended.
    by.one.server.ends(check.__name__)
    by.one.ends(check.__name__)


def requests_blobs(by):
    by.gets("a blob", get(blob_target(ABC)), "GET", blob_target(ABC))
    for path in REFUSED_PATHS:
        by.gets(path, get(path), "GET", path)
    refused = head(b"PUT %b HTTP/1.1" % blob_target(ABC))
    by.gets("a blob by PUT", refused, "PUT", blob_target(ABC))


def requests_stats(by):
    refs = [ABC, ABSENT, ref_of(b"")]
    pairs = {"camliversion": "1"} | {f"blob{place}": ref for place, ref in enumerate(refs, 1)}
    by.gets("stat by GET", stat(*refs), "GET", STAT, params=pairs)
    by.gets("stat by POST", post(STAT, stat_pairs(*refs)), "POST", STAT, data=pairs)


def requests_pages(by):
    """All refs, page by page, by a client that continues where the replies say."""
    refs, after = [], ""
    while after is not None:
        request = get(LISTING + f"?limit=300&after={after}".encode())
        got = by.gets(f"after {after}", request, "GET", LISTING, params={"limit": 300, "after": after}).json()
        refs += [blob["blobRef"] for blob in got["blobs"]]
        after = got.get("continueAfter")
    compare("all pages", "refs", http_inputs.MANY_REFS, refs)


def requests_searches(by):
    by.gets("a query", post(QUERY, GOOD_QUERY), "POST", QUERY, json=json.loads(GOOD_QUERY))
    by.gets("no query", post(QUERY, b"{}"), "POST", QUERY, json={})


def requests_forms(by):
    """Parts as `requests` writes them, with a file's name and a type, and without."""
    new, old = bytes(range(256)), b"abc"
    files = [(ref_of(new), ("\u00e4 \"b\".png", new, "image/png")), (ref_of(old), (None, old))]
    by.gets("a form", upload(new, old), "POST", UPLOAD, files=files)
    by.gets("what it stored", get(blob_target(ref_of(new))), "GET", blob_target(ref_of(new)))
    files = [(ref_of(blob), ("x", blob)) for blob in NUMBERED]
    by.gets("1,000 parts", upload(*NUMBERED), "POST", UPLOAD, files=files)


def requests_greatest(by):
    ref = ref_of(GREATEST)
    by.gets("16 MiB", upload(GREATEST), "POST", UPLOAD, files={ref: ("x", GREATEST)})
    by.gets("16 MiB back", get(blob_target(ref)), "GET", blob_target(ref))
    long = GREATEST + b"x"
    by.gets("16 MiB and a byte", upload(long), "POST", UPLOAD, files={ref_of(long): ("x", long)})


def requests_chunks(by):
    """An upload in chunks, by a generator."""
    pieces = [blob_part(b"in"), b"", blob_part(b"chunks")[:50], blob_part(b"chunks")[50:], form()]
    name, _, value = FORM.partition(": ")
    words = {"data": (piece for piece in pieces), "headers": {name: value}}
    by.gets("an upload in chunks", post_pieces(UPLOAD, pieces, FORM), "POST", UPLOAD, **words)
    by.gets("a blob of it", get(blob_target(ref_of(b"chunks"))), "GET", blob_target(ref_of(b"chunks")))


REQUESTS = [requests_blobs, requests_stats, requests_pages, requests_searches, requests_forms, requests_greatest]
REQUESTS += [requests_chunks]


# wget, http.client, node, and a forwarder

def wget(program):
    if not shutil.which("wget"):
        raise LeftOut("wget isn't there")
    one = shelf(program, http_inputs.STORES["small"])
    return [lambda: wget_gets(one), lambda: wget_posts(one), lambda: one.ends("wget")]


def run_client(what, line, source=b""):
    done = subprocess.run(line, input=source, stdout=subprocess.PIPE, stderr=subprocess.PIPE, timeout=SECONDS)
    compare(what, "status and errors", (0, b""), (done.returncode, done.stderr))
    return done.stdout


def wget_gets(one):
    for target in (blob_target(ABC), LISTING):
        told = one.replies(get(target))[0].body
        compare_texts(f"wget of {target}", told, run_client("wget", ["wget", "-q", "-O", "-", url_of(one, target)]))


def wget_posts(one):
    pairs = stat_pairs(ABC, ABSENT)
    told = one.replies(post(STAT, pairs))[0].body
    line = ["wget", "-q", "-O", "-", f"--post-data={pairs.decode()}", url_of(one, STAT)]
    compare_texts("a post by wget", told, run_client("wget", line))


def http_client(program):
    """Python's `http.client`, on one connection, also through a forwarder that has another port."""
    one = shelf(program, http_inputs.STORES["small"])
    port = Forwarder(one.port).port
    return [lambda: by_http_client(one, one.port), lambda: by_http_client(one, port), lambda: one.ends("http.client")]


def by_http_client(one, port):
    connection = http.client.HTTPConnection(HOST, port, timeout=SECONDS)
    for blob in (b"by http.client", b"another"):
        body = form(blob_part(blob))
        rows = [("POST", UPLOAD, body, {"Content-Type": FORM.partition(": ")[2]}, upload(blob))]
        rows += [("GET", blob_target(ref_of(blob)), None, {}, get(blob_target(ref_of(blob))))]
        for method, target, content, headers, request in rows:
            reply = one.replies(request)[0]
            connection.request(method, target.decode(), content, headers)
            answer = connection.getresponse()
            compare(f"{method} {target} by http.client", "reply", (reply.code, reply.body), (answer.status, answer.read()))
    connection.close()


# Puts a blob, reads it, and prints both replies.
NODE = """(async () => {
  const [own, type, ref, body] = [process.argv[1], process.argv[2], process.argv[3], process.argv[4]];
  const put = await fetch(own + '/camli/upload', {method: 'POST', headers: {'Content-Type': type}, body});
  console.log(put.status, await put.text());
  const got = await fetch(own + '/camli/' + ref);
  console.log(got.status, await got.text());
})()"""


def node(program):
    if not shutil.which("node"):
        raise LeftOut("node isn't there")
    one = shelf(program, http_inputs.STORES["small"])
    return [lambda: by_node(one), lambda: one.ends("node")]


def by_node(one):
    blob = b"by node"
    replies = one.replies(upload(blob)) + one.replies(get(blob_target(ref_of(blob))))
    told = b"".join(b"%d %b\n" % (reply.code, reply.body) for reply in replies)
    words = [url_of(one, ""), FORM.partition(": ")[2], ref_of(blob), form(blob_part(blob)).decode()]
    compare_texts("node's fetch", told, run_client("node", ["node", "-e", NODE, *words]))
