"""Runs `serve-shares` over stores, and compares what it answers with share_reference.py, to the byte."""

import pathlib
import re
import shutil
import subprocess
import sys
import time

import harness
import http_inputs
import reference
import share_reference
from connections import OCTETS, Reply
from harness import SECONDS, LeftOut, chance, check, compare
from http_random import in_chunks
from inputs import ABSENT, KEY, KEYRING, NODE, OTHER_SECRET, SECRET, day
from peers import Stranger
from reference import ref_of
from serving import HOST, Exchange, Server, ShareServer, compare_texts, store_of
from share_reference import Shares
from stores import Store
from writing import Names, bytes_blob, delete, directory, file_blob, key_blob, octets, pack, part, signed
from writing import static_set, text

ROOT = pathlib.Path(__file__).resolve().parent.parent
PAGE = (ROOT / "docs" / "shares.md").read_text()
KEYS = reference.read_keyring(KEYRING)
# docs/shares.md, "Over HTTP": so many seconds the server waits for a first head. How often a busy machine is excused.
SECONDS_FOR_A_HEAD, TRIES = 2, 5
# So many random stores, and requests to each.
STORES, REQUESTS = 20, 100
# A key whose secret isn't in the keyring.
STRANGE_SECRET = b"a secret of somebody else"
STRANGE = key_blob("somebody")
TEXTS_OF_RULES = {
    "`NoShare`": ("no share", {}), "`NotGenuine`": ("not genuine", {}), "`Deleted`": ("deleted", {}),
    "`WrongTarget`": ("wrong target", {}), "`NotTransitive`": ("not transitive", {}),
}


class Shelf:
    """A server of shares over a store, and what it answers."""

    def __init__(self, store, *words):
        self.store = store
        self.shares = Shares(store.blobs(), reference.read_keyring(store.others["keyring"]))
        self.server = ShareServer(store.program, store.path, *words)
        self.port = self.server.port

    def __enter__(self):
        return self

    def __exit__(self, *_):
        self.server.kill()

    def answers(self, what, stream, pieces=None):
        """Hands a stream over; every byte of the replies has to be the reference's. Answers the replies."""
        told = share_reference.replies(stream, self.shares)
        compare_texts(what, b"".join(reply.text() for reply in told), exchanged(self.port, pieces or [stream]))
        return told


def exchanged(port, pieces):
    """What the pieces of a stream get. Where that is nothing, and they took so long that the server may have waited for a
    head in vain, they are handed over anew."""
    for _ in range(TRIES):
        start = time.monotonic()
        got = Exchange(port, pieces).bytes()
        if got or time.monotonic() - start < SECONDS_FOR_A_HEAD:
            break
    return got


def target_of(ref, *via):
    return f"/share/{ref}" + (f"?via={','.join(via)}" if via else "")


def get(ref, *via):
    return octets(f"GET {target_of(ref, *via)} HTTP/1.1\r\n\r\n")


# Blobs

def share(target, rest="", secret=SECRET, signer=KEY, date=day(1), auth="haveref"):
    """A share claim, with further members of its payload."""
    head = f'{{"camliVersion":1,"camliType":"claim","camliSigner":{text(ref_of(signer))},"claimDate":{text(date)}'
    body = f'{head},"claimType":"share","authType":{text(auth)},"target":{text(target)}{rest}'
    return signed(body, secret)


TRANSITIVE = ',"transitive":true'
# What follows the target in shares, and in blobs that are none.
RESTS = [TRANSITIVE] * 16 + ["", "", ',"transitive":false', ',"transitive":null', ',"transitive":1', ',"expires":null']
RESTS += [f',"expires":{text(day(2))}', ',"transitive":true,"search":{"a":[1]}']


class RandomShares:
    """A random store with shares, and with what they reach and don't."""

    def __init__(self, random):
        self.random, self.name_of = random, Names(random)
        chunks = [octets(f"chunk {place}") for place in range(4)] + [b""]
        self.blobs = [KEY, STRANGE, NODE, *chunks]
        for _ in range(random.randrange(4, 12)):
            self.blobs += [self.tree()]
        self.shares = [self.share() for _ in range(random.randrange(2, 7))]
        self.blobs += self.shares
        self.deletes = []
        for _ in range(random.randrange(5)):
            on = random.choice(self.shares + self.deletes * 3)
            secret, signer = (SECRET, KEY) if random.random() < 0.9 else (STRANGE_SECRET, STRANGE)
            self.deletes.append(delete(self.name_of(on), day(random.randrange(1, 9)), ref_of(signer), secret))
        self.blobs += self.deletes
        self.held = [blob for blob in self.blobs if random.random() < 0.96 or blob == KEY and random.random() < 0.9]

    def any_ref(self):
        kind = self.random.random()
        blob = self.random.choice(self.blobs)
        return ABSENT if kind < 0.03 else self.name_of.other(blob) if kind < 0.08 else self.name_of(blob)

    def tree(self):
        """A file, bytes, a folder or a set of what was made before."""
        random = self.random
        refs = [self.any_ref() for _ in range(random.randrange(1, 5))]
        parts = [part(random.randrange(9), ref, random.choice(("blobRef", "bytesRef"))) for ref in refs]
        sets = [static_set(refs), directory("folder", self.any_ref())]
        return random.choice([file_blob("file", parts), bytes_blob(parts), *sets])

    def share(self):
        random = self.random
        secret, signer = (SECRET, KEY) if random.random() < 0.85 else (STRANGE_SECRET, STRANGE)
        if random.random() < 0.05:
            secret = OTHER_SECRET
        made = self.shares if hasattr(self, "shares") else []
        wanted = random.choice((made, self.blobs[8:], self.blobs[8:], self.blobs[8:]))
        target = self.name_of(random.choice(wanted)) if wanted and random.random() < 0.95 else self.any_ref()
        auth = "haveref" if random.random() < 0.95 else "hasref"
        date = day(1) if random.random() < 0.95 else "2020-13-01T00:00:00Z"
        return share(target, random.choice(RESTS), secret, signer, date, auth)

    def path(self):
        """A path of refs: one along links, mostly, which may be changed."""
        random = self.random
        first = random.choice(self.shares * 6 + self.blobs)
        path = [self.name_of(first)]
        body = reference.signed_of(first)[1] or {}
        path.append(body.get("target", ABSENT))
        by_ref = {self.name_of(blob): blob for blob in self.blobs}
        while random.random() < 0.85:
            links = share_reference.links_of(by_ref.get(path[-1], b""))
            if not links:
                break
            path.append(random.choice(links))
        path = path[: random.randrange(1, len(path) + 1)] if random.random() < 0.3 else path
        kind = random.random()
        if kind < 0.1:
            path[random.randrange(len(path))] = self.any_ref()
        elif kind < 0.2:
            path.insert(random.randrange(len(path) + 1), random.choice(path))
        elif kind < 0.25:
            path.pop(random.randrange(len(path)))
        return path or [self.any_ref()]

    def request(self):
        """One request, good or bad."""
        random = self.random
        *via, ref = self.path()
        query = self.query(via)
        path = octets(f"/share/{ref}") if random.random() < 0.95 else random.choice(self.odd_paths(ref))
        method = b"GET" if random.random() < 0.92 else random.choice((b"POST", b"HEAD", b"get", b"PUT", b"OPTIONS"))
        body = b"" if random.random() < 0.9 else random.choice((b"a body", b"x" * 70_000, b"x" * 1_048_577))
        lines = [random.choice(("Host: shares.example", "Accept: */*", "Host:localhost"))]
        is_chunked = bool(body) and random.random() < 0.4
        if body:
            lines.append("Transfer-Encoding: chunked" if is_chunked else f"Content-Length: {len(body)}")
        if random.random() < 0.05:
            lines.append("Connection: close")
        first = b"%b %b%b HTTP/1.%d" % (method, path, query, random.random() < 0.95)
        return http_inputs.head(first, *lines) + (in_chunks(random, body) if is_chunked else body)

    def query(self, via):
        """The query that has a path, written as a form may write it, or otherwise."""
        random = self.random
        if not via:
            return random.choice((b"", b"", b"?", b"?via=", b"?via", b"?x=1&via=", b"?via=%2C"))
        joined = ",".join(via) if random.random() < 0.8 else "%2C".join(via)
        if random.random() < 0.05:
            odd = (joined + ",", "," + joined, joined.upper(), joined + "x", joined.replace("-", "%2d"))
            joined = random.choice(odd)
        name = random.choice(("via", "via", "via", "v%69a", "VIA"))
        rest = random.choice(("", "", "&via=x", "&a=b"))
        return octets(random.choice(("?", "?", "?", "?a=&&")) + f"{name}={joined}{rest}")

    @staticmethod
    def odd_paths(ref):
        texts = [f"/share/{ref.upper()}", f"/share/{ref}/", f"/camli/{ref}", f"/share/{ref[:-1]}", "/share/", "/", "*"]
        return [octets(one) for one in [*texts, f"/Share/{ref}", f"/share//{ref}", f"share/{ref}"]]


# The page

def blobs_of_page():
    """The blobs of the page's examples, by their letters."""
    examples = PAGE.partition("\n## Examples\n")[2]
    blocks = re.findall(r"(?:^    .*\n)+", examples, re.MULTILINE)
    blobs = ["".join(line[4:] for line in block.splitlines()) + "\n" for block in blocks]
    named = dict(zip("KCFSTDE", map(octets, blobs)))
    named["C"] = named["C"].rstrip(b"\n")
    return named


def rows_of_page():
    table = PAGE.partition("\n| store | path | answer |\n")[2].partition("\n\n")[0]
    return [[cell.strip() for cell in line.strip("|").split("|")] for line in table.splitlines()[1:]]


def page_rows(program):
    """The rows of the page's table of examples, each served."""
    return [lambda row=row: page_row(program, *row) for row in rows_of_page()]


def page_row(program, store, path, answer):
    blobs = blobs_of_page()
    letters = re.findall(r"\b[KCFSTDE]\b", store)
    keyring = b"" if "empty keyring" in store else b"jefe 4a656665\n"
    held = {letter: blobs[letter] for letter in letters}
    refs = [ref_of(blobs[letter]) for letter in path.split()]
    with Shelf(Store(program, {0: pack(*held.values())}, {"keyring": keyring})) as shelf:
        what = f"{store}: {path}"
        told = shelf.answers(what, get(refs[-1], *refs[:-1]))
        compare(what, "the reply of the page", [reply_of_page(answer, blobs[path.split()[-1]], refs[-1])], told)


def reply_of_page(answer, blob, ref):
    if answer == "served":
        return Reply(200, blob, OCTETS)
    if answer == "absent":
        return Reply(404, octets(f'{{"error":"absent","blobRef":"{ref}"}}'))
    rule, _, place = answer.removeprefix("denied: ").partition(" at ")
    if rule == "`NoLink`":
        return Reply(403, octets(f'{{"error":"share","rule":"no link","at":{place}}}'))
    return Reply(403, octets(f'{{"error":"share","rule":"{TEXTS_OF_RULES[rule][0]}"}}'))


# curl

def curl(program):
    """A file by a share that isn't transitive, and its chunk; and the file by one that is, which is deleted and restored."""
    if shutil.which("curl") is None:
        raise LeftOut("there is no curl here")
    rows = [("KCFT", "TF"), ("KCFT", "TFC"), ("KCFS", "SFC"), ("KCFSD", "SF"), ("KCFSDE", "SF"), ("KCFS", "S"), ("KCF", "F")]
    return [lambda row=row: asked_by_curl(program, *row) for row in rows]


def asked_by_curl(program, held, path):
    """curl prints the reply to a path that it asks for, head and body."""
    blobs = blobs_of_page()
    *via, ref = [ref_of(blobs[letter]) for letter in path]
    store = Store(program, {0: pack(*(blobs[letter] for letter in held))}, {"keyring": b"jefe 4a656665\n"})
    with Shelf(store) as shelf:
        told = share_reference.replies(get(ref, *via), shelf.shares)
        line = ["curl", "--silent", "--show-error", "--include", f"http://{HOST}:{shelf.port}{target_of(ref, *via)}"]
        done = subprocess.run(line, stdin=subprocess.DEVNULL, capture_output=True, timeout=SECONDS)
        what = f"curl asks a store of {held} for {path}"
        compare(what, "status and errors", (0, b""), (done.returncode, done.stderr))
        compare_texts(what, b"".join(reply.text() for reply in told), done.stdout)


# Random requests

def random_requests(program):
    """Requests to random stores, of which each has all kinds of shares."""
    return [lambda number=number: of_random_store(program, number) for number in range(STORES)]


def of_random_store(program, number):
    made = RandomShares(chance("shares", number))
    store = Store(program, {0: pack(*made.held, name_of=made.name_of)}, {"keyring": KEYRING})
    left = REQUESTS
    with Shelf(store) as shelf:
        while left:
            count = min(left, made.random.choice((1, 1, 2, 5)))
            stream = b"".join(made.request() for _ in range(count))
            left -= count
            what = f"shares of store {number}, with {left} requests left"
            if made.random.random() < 0.1:
                stream = stream[: made.random.randrange(len(stream))]
            cut = made.random.randrange(len(stream) + 1)
            shelf.answers(what, stream, [stream[:cut], stream[cut:]])
    store.check_files(f"store {number}")


# A share from its making to its end

def lives(program):
    """A share is made, served, got by its URL, and taken back."""
    return [lambda: life_of_a_share(program), lambda: words_of_no_server(program)]


def ran(name, *words):
    line = [sys.executable, str(ROOT / "examples" / name), *map(str, words)]
    return subprocess.run(line, capture_output=True, timeout=SECONDS)


def script(name, *words, status=0):
    done = ran(name, *words)
    compare(f"{name} {words}", "exit status", (status, b""), (done.returncode, done.stderr if status == 0 else b""))
    return done.stdout.decode()


def refuses(name, *words, text):
    """A script does nothing, and says why."""
    done = ran(name, *words)
    expected = 3, b"", f"{name}: {text}\n".encode()
    compare(f"{name} {words}", "status, output and what is said", expected, (done.returncode, done.stdout, done.stderr))


NO_LINKS = (
    "from which nothing leads to a file: give the ref of the file or the folder, "
    "as put-file or put_tree.py has printed it"
)
NO_SHARES = "what answers 404 at this HOST:PORT is no serve-shares, or can't reach it"


def life_of_a_share(program):
    content = bytes(range(256)) * 8_192
    store = store_of(program, KEY)
    first, second = content[:1_048_576], content[1_048_576:]
    file = file_blob("a file.bin", [part(len(first), ref_of(first)), part(len(second), ref_of(second))])
    folder = directory("folder", ref_of(static_set([ref_of(file)])))
    blobs = [first, second, file, static_set([ref_of(file)]), folder, NODE]
    (store.path / "pack-00001.blobs").write_bytes(pack(*blobs))
    keyring = store.path / "keyring"
    inbox, target = program.new_path(), program.new_path()
    with Server(program, store.path) as server:
        address = f"127.0.0.1:{server.port}"
        words = "--keyring", keyring, "--key", "jefe"
        share_ref, path = script("make_share.py", address, ref_of(folder), *words).split()
        compare("make_share.py", "path", target_of(ref_of(folder), share_ref), path)
        alone = share_in_inbox(inbox, ref_of(file), *words, "--alone")
        program.check("push of the inbox", ["push", str(inbox), address], b"copied 1 already 1\n")
        has_packs(store.path, ref_of(file), *words)
        has_packs(inbox, ref_of(file), *words)
        refuses("make_share.py", address, ref_of(NODE), *words, text=f"{ref_of(NODE)} is a note, {NO_LINKS}")
        no_shares = f"{ref_of(folder)} isn't served: {NO_SHARES}"
        refuses("get_shared.py", f"http://{address}{path}", text=no_shares)
        with Stranger() as stranger:
            refuses("get_shared.py", f"http://{stranger.address}{path}", text=no_shares)
        with ShareServer(program, store.path) as shares:
            script("get_shared.py", f"http://127.0.0.1:{shares.port}{path}", target)
            compare("what was got", "bytes", content, (target / "a file.bin").read_bytes())
            (target / "a file.bin").write_bytes(b"other")
            again = ran("get_shared.py", f"http://127.0.0.1:{shares.port}/share/{share_ref}", target)
            told = f"not restored: {target}/a file.bin: it is there already; give another PATH\n".encode()
            compare("a file that was there", "status and errors", (1, told), (again.returncode, again.stderr))
            compare("a file that was there", "bytes", b"other", (target / "a file.bin").read_bytes())
            got = Exchange(shares.port, [get(ref_of(first), alone, ref_of(file))]).bytes()
            check(f"by the share of a file alone {got}", got.endswith(b'{"error":"share","rule":"not transitive"}'))
    program.run("delete", ["delete", str(store.path), share_ref, "--key", "jefe"])
    with ShareServer(program, store.path) as shares:
        got = Exchange(shares.port, [get(ref_of(folder), share_ref)]).bytes()
        check(f"by a share that was taken back {got}", got.endswith(b'{"error":"share","rule":"deleted"}'))
        text = f"{ref_of(folder)} isn't served: 403 deleted (the share was taken back)"
        refuses("get_shared.py", f"http://127.0.0.1:{shares.port}{path}", text=text)


def share_in_inbox(inbox, target, *words):
    """Makes a share in a folder that isn't there, which is said; answers its ref."""
    done = ran("make_share.py", inbox, target, *words)
    told = f"make_share.py: the folder {inbox} was made: push it to the archive's server\n".encode()
    compare("make_share.py", "status and errors", (0, told), (done.returncode, done.stderr))
    modes = [path.stat().st_mode & 0o777 for path in (inbox, inbox / "pack-00000.blobs")]
    compare("an inbox", "the modes of the folder and of its pack", [0o700, 0o600], modes)
    return done.stdout.decode().split()[0]


def has_packs(folder, target, *words):
    """A share isn't made in a folder that has packs, such as the archive itself, and nobody is told to remove them."""
    before = {path.name: path.read_bytes() for path in folder.iterdir()}
    where = "WHERE is the HOST:PORT of the archive's server, or an inbox, which is a folder without packs"
    refuses("make_share.py", folder, target, *words, text=f"{folder} has packs: {where}")
    compare("a folder that has packs", "files", before, {path.name: path.read_bytes() for path in folder.iterdir()})


def words_of_no_server(program):
    """Words that are no line, and a port that is taken."""
    store = store_of(program, KEY)
    for words in (["--port", "0"], ["--port", "65536"], [], ["--port", "1", "--workers", "2"], ["--port", "x"]):
        program.check(f"serve-shares {words}", ["serve-shares", str(store.path), *words], status=2)
    with ShareServer(program, store.path) as one:
        line = ["serve-shares", str(store.path), "--port", str(one.port)]
        program.check("a port that is taken", line, status=14)
    with ShareServer(program, store.path, "--connections", "2") as one:
        for _ in range(2):
            check("a reply", Exchange(one.port, [get(ABSENT)]).bytes().startswith(b"HTTP/1.1 403 Forbidden\r\n"))
        one.ends("two connections")


GROUPS = [page_rows, curl, random_requests, lives]

if __name__ == "__main__":
    harness.main("shares.sh", GROUPS, checks_of=lambda program, group: group(program))
