"""The random streams of http_streams.py: requests to a random store, good ones and changed ones; and long sessions of
uploads and searches over few blobs, where most uploads change what is found."""

from connections import LISTING, QUERY, STAT, UPLOAD
from harness import chance
from http_inputs import BAD_QUERIES, METHODS, TARGETS, blob_target, chunk, head, part, stat_pairs
from inputs import ABSENT, KEY, OTHER_NAMES, day
from query_inputs import RandomQuery, RandomStore, node, spell, spell_otherwise
from writing import Names, claim, delete, multi, octets, pack, permanode

# So many stores, and streams to each; and so many of sessions.
STORES, STREAMS = 40, 55
SESSION_STORES, SESSIONS = 40, 15
OTHER_HEADERS = ("Host: localhost", "User-Agent: x/1.0 (y)", "Accept:*/*", "X-Y:", "Connection: a, b")
CHUNKED = {"Transfer-Encoding: chunked", "transfer-encoding:Chunked\t"}
# Of few blobs.
TAGS, DAYS = "aaab", [day(number) for number in range(1, 6)]
MARKS = b"\r\n\r\n :;-=&%+?,/0129aAbBfFxX\"\t\0\x7f\x80\xff"


class RandomConnection:
    """Makes streams of requests to a random store, some of whose blobs are in its pack."""

    # How often requests of each kind come, how often one closes the connection, and how many blobs an upload has.
    KINDS, CLOSES, UPLOADED = (10, 15, 12, 25, 33, 5), 0.04, (0, 1, 2, 4, 8, 20)

    def __init__(self, number):
        random = chance("connection store", number)
        self.store = RandomStore(random)
        most = len(self.store.blobs)
        self.pack = self.pack_of(random.sample(self.store.blobs, max(random.randint(0, most), random.randint(0, most))))
        self.others = [octets(f"blob {place}\r\n--b\r\n") for place in range(3)]

    def pack_of(self, blobs):
        return pack(*blobs, name_of=self.store.name_of)

    def stream(self, random):
        """Good requests one after the other; of two such streams one is cut or changed."""
        stream = b"".join(self.request(random) for _ in range(random.randrange(1, 8)))
        kind = random.randrange(10)
        if kind < 2:
            return stream[: random.randrange(len(stream))]
        for _ in range(random.choice((1, 1, 2, 4)) if kind < 5 else 0):
            stream = changed(random, stream)
        return stream

    def request(self, random):
        makers = (self.blob, self.stat, self.page, self.search, self.upload, self.other)
        method, target, headers, body = random.choices(makers, self.KINDS)[0](random)
        lines = [*headers, *framing(random, body)]
        lines += random.sample(OTHER_HEADERS, 2)
        if random.random() < self.CLOSES:
            lines.append(random.choice(("Connection: close", "connection: x,Close", "CONNECTION:\tCLOSE")))
        random.shuffle(lines)
        version = b"1.0" if random.random() < self.CLOSES / 2 else b"1.1"
        front = random.choice(("", "\r\n", "\n")) if random.random() < 0.1 else ""
        first = b"%b %b HTTP/%b" % (method, octets(target), version)
        text = octets(front) + head(first, *lines, end=random.choice(("\r\n", "\r\n", "\n")))
        return text + (in_chunks(random, body) if CHUNKED & set(lines) else body)

    def ref(self, random):
        if random.random() < 0.2:
            return self.name(random, random.choice(self.store.blobs + self.others))
        return self.store.any_ref(random) if random.random() < 0.9 else self.store.odd_ref(random)

    def name(self, random, blob):
        """The ref of a blob, occasionally its other one."""
        return (self.store.name_of.other if random.random() < OTHER_NAMES else self.store.name_of)(blob)

    def blob(self, random):
        return b"GET", blob_target(self.ref(random)), [], b""

    def stat(self, random):
        refs = [self.ref(random) for _ in range(random.choice((0, 1, 2, 5, 9)))]
        pairs = stat_pairs(*refs, version=random.choice("1111112")).split(b"&")
        if random.random() < 0.3:
            random.shuffle(pairs)
        text = b"&".join(spelled_pair(random, pair) for pair in pairs)
        if random.random() < 0.5:
            return b"GET", STAT + b"?" + text, [], b""
        return b"POST", STAT, ["Content-Type: application/x-www-form-urlencoded"], text

    def page(self, random):
        pairs = []
        if random.random() < 0.6:
            digit = random.choice("0123456789abcdef")
            ends = random.choice(("sha224-" + digit * 56, "sha1-" + digit * 40))
            after = self.ref(random) if random.random() < 0.5 else ends
            pairs.append(b"after=" + octets(after))
        if random.random() < 0.6:
            pairs.append(b"limit=%d" % random.choice((0, 1, 2, 5, 10, 10, 100, 1_000, 10**9)))
        random.shuffle(pairs)
        return b"GET", LISTING + b"?" + b"&".join(spelled_pair(random, pair) for pair in pairs), [], b""

    def search(self, random):
        if random.random() < 0.1:
            return b"POST", QUERY, [], random.choice(BAD_QUERIES)
        value = RandomQuery(random, self.store).query()
        text = spell(value) if random.random() < 0.5 else spell_otherwise(random, value)
        return b"POST", QUERY, ["Content-Type: application/json"], octets(text)

    def upload(self, random):
        boundary = random.choice((b"b", b"x-y", b"--", b"----WebKitFormBoundaryAbc0123456789", b"' '"))
        written = boundary if b" " not in boundary and random.random() < 0.5 else b'"%b"' % boundary
        blobs = random.choices(self.store.blobs + self.others, k=random.choice(self.UPLOADED))
        body = [b"a preamble\r\n"] if random.random() < 0.1 else []
        body += [self.part(random, blob, boundary) for blob in blobs]
        if random.random() < 0.95:
            body.append(b"--%b--" % boundary + random.choice((b"", b"", b"\r\n", b"\r\n--b\r\n")))
        return b"POST", UPLOAD, [b"Content-Type: multipart/form-data; boundary=" + written], b"".join(body)

    def part(self, random, blob, boundary):
        kind = random.random()
        name = self.ref(random) if kind < 0.02 else "file" if kind < 0.03 else self.name(random, blob)
        lines = ["Content-Type: text/plain"] if random.random() < 0.3 else []
        blanks, end = b" \t"[: random.choice((0, 0, 1, 2))], random.choice((b"\r\n", b"\r\n", b"\n"))
        return part(name, blob, *lines, blanks=blanks, end=end, boundary=boundary)

    def other(self, random):
        method, target = random.choice(METHODS), random.choice(TARGETS)
        return method, target, [], random.choice((b"", b"", b"abc"))


class FewBlobs:
    """A key, one or two permanodes, and claims on them and on one another; half of them have their older names."""

    def __init__(self, random):
        self.name_of = Names(random)
        self.key = self.name_of(KEY)
        self.nodes = [permanode(signer=self.key), permanode("0" * 32, self.key)][: random.choice((1, 2))]
        self.claims = [claim("add", self.name_of(self.nodes[0]), "tag", TAGS[0], DAYS[0], self.key)]
        for _ in range(random.randrange(1, 6)):
            self.claims.append(random.choice((self.change, self.change, self.deletion))(random))
        # Nothing is found without a key and a permanode, so that these come more often.
        self.blobs = [KEY, *self.nodes] * 3 + self.claims

    def change(self, random):
        some = [self.one_change(random) for _ in range(random.choice((1, 1, 2, 3)))]
        date = random.choice(DAYS)
        return claim(*some[0], date, self.key) if len(some) == 1 else multi(some, date, self.key)

    def one_change(self, random):
        kind, on = random.choice(("set", "add", "add", "del")), self.name_of(random.choice(self.nodes))
        return kind, on, "tag", random.choice(TAGS)

    def deletion(self, random):
        target = random.choice(self.claims if random.random() < 0.8 else self.nodes)
        return delete(self.name_of(target), random.choice(DAYS), self.key)

    def any_ref(self, random):
        return self.name_of(random.choice(self.blobs)) if random.random() < 0.9 else ABSENT

    def odd_ref(self, random):
        return self.any_ref(random).upper()


class RandomSession(RandomConnection):
    """Makes long streams of uploads and searches over few blobs, none or some of which are in the store's pack.
    Uploaded blobs come in any order and more than once, and most of them change search results."""

    KINDS, CLOSES, UPLOADED = (5, 5, 5, 45, 40, 0), 0.01, (1, 1, 1, 2, 2, 4)

    def __init__(self, number):
        random = chance("session store", number)
        self.store, self.others = FewBlobs(random), []
        self.pack = self.pack_of(random.choices(self.store.blobs, k=random.choice((0, 0, 2, 4, 8))))

    def stream(self, random):
        """Good requests one after the other."""
        return b"".join(self.request(random) for _ in range(random.randrange(5, 40)))

    def search(self, random):
        query = {"constraint": node(attr="tag", value=random.choice(TAGS))}
        if random.random() < 0.3:
            query["at"] = random.choice(DAYS)
        return b"POST", QUERY, [], octets(spell(query))


def framing(random, body):
    """The headers that say how long a body is."""
    if body == b"" and random.random() < 0.9:
        return []
    if random.random() < 0.5:
        return [random.choice(("Content-Length: {}", "content-length:{}", "CONTENT-LENGTH: \t0{}")).format(len(body))]
    return [random.choice(sorted(CHUNKED))]


def in_chunks(random, body):
    chunks, at = [], 0
    while at < len(body):
        size = random.choice((1, 2, 10, 100, 1_000, 10_000))
        content = body[at : at + size]
        size = random.choice(("{:x}", "{:X}", "{:04x}", "{:x} ;a=b", "{:x};")).format(len(content))
        chunks.append(chunk(content, size))
        at += len(content)
    trailers = random.choice(("\r\n", "\r\n", "\n", "A: b\r\n\r\n", "A:\nB: c\n\n"))
    return b"".join(chunks) + random.choice((b"0", b"000", b"0;x")) + b"\r\n" + octets(trailers)


def spelled_pair(random, pair):
    """A pair with some of its bytes escaped."""
    name, _, value = pair.partition(b"=")
    return b"=".join(b"".join(spelled_octet(random, octet) for octet in one) for one in (name, value))


def spelled_octet(random, octet):
    return b"%%%02x" % octet if octet < 33 or random.random() < 0.02 else bytes([octet])


def changed(random, stream):
    """A stream with some bytes changed, put in, dropped or repeated."""
    at, count = random.randrange(len(stream) + 1), random.choice((1, 1, 1, 2, 5, 50))
    marks = bytes(random.choices(MARKS, k=min(count, 3)))
    kind = random.randrange(4)
    if kind == 0:
        return stream[:at] + marks + stream[at + len(marks) :]
    if kind == 1:
        return stream[:at] + marks + stream[at:]
    if kind == 2:
        return stream[:at] + stream[at + count :]
    return stream[: at + count] + stream[at:]
