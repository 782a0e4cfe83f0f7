"""The calls to the system that a server makes, by strace: the addresses to which it binds, how it reads blobs, and that
a reply to an upload is written only after the blobs are durable.
"""

from connections import Reply, entry, json_text
from harness import check, compare
from http_inputs import blob_target, get, upload
from reference import pack_name, ref_of
from serving import Server, Talk, blob_reply, store_of, stored
from stores import Store
from tracing import MAKES, OPENS, READS, SYNCS, TRACED, WRITES, calls_in, need_strace, places
from writing import pack

NETWORK = ("socket", "bind", "listen", "accept", "accept4", "connect", "sendto", "sendmsg")
ACCEPTS, SENDS = ("accept", "accept4"), ("sendto", "sendmsg", "write", "writev")
BLOBS = [b"blob %d" % number for number in range(20)]
NEW = [b"new %d" % number * 50 for number in range(12)]
WRITING, SYNCING = "write,pwrite64,writev,pwritev", "fsync,fdatasync"
# How a call on a pack fails: its names and the error.
FAILS = {"a write": (WRITING, "EIO"), "a write to a full disk": (WRITING, "ENOSPC"), "a sync": (SYNCING, "EIO")}


def calls(program):
    need_strace(program)
    return [lambda check=check: check(program) for check in (binds, reads, syncs)]


def traced(program, store, what, requests):
    """The calls of a server that answers requests, each sent after the reply to the one before, on one connection."""
    log = program.new_path()
    trace = ",".join("?" + name for name in (*TRACED, *NETWORK))
    front = ("strace", "-f", "-y", "-s", "0", "-o", str(log), "-e", f"trace={trace}")
    with Server(program, store.path, "--connections=1", front=front) as server:
        with Talk(server.port) as talk:
            for request, reply in requests:
                talk.ask(what, request, reply)
        server.ends(what)
    return calls_in(log.read_text(errors="replace")), server.port


def gets(blobs):
    return [(get(blob_target(ref_of(blob))), blob_reply(blob)) for blob in blobs]


def uploads(blobs):
    return [(upload(blob), stored(blob)) for blob in blobs]


def binds(program):
    """It binds only to its port of 127.0.0.1, and connects to nothing."""
    store = store_of(program, *BLOBS)
    made, port = traced(program, store, "a server", gets(BLOBS[:1]))
    bound = [made[place].words for place in places(made, ("bind",))]
    check("a server binds to nothing", bound)
    address = f'sa_family=AF_INET, sin_port=htons({port}), sin_addr=inet_addr("127.0.0.1")'
    compare("a server", "addresses that it binds to", [], [words for words in bound if address not in words])
    compare("a server", "addresses that it connects to", [], [one.words for one in made if one.name == "connect"])


def reads(program):
    """A blob is read by one call, from a pack that is opened at most once, and nothing else is read of it."""
    store = store_of(program, *BLOBS)
    asked = BLOBS + BLOBS[::-1] + BLOBS[:1] * 10
    made, _ = traced(program, store, "blobs", gets(asked))
    made = made[places(made, ACCEPTS)[0] :]
    path = store.path / pack_name(0)
    read = [made[place].name for place in places(made, READS, path)]
    compare("blobs", "calls that read a pack", ["pread64"] * len(asked), read)
    check("a pack is opened more than once", len(places(made, OPENS, path)) <= 1)
    compare("blobs", "writes to a pack", [], places(made, WRITES, path))


def syncs(program):
    """Before a reply to an upload is written, its record was synced, and the name of a new pack and a new folder."""
    for packs in (None, {}, {0: pack(b"abc")}):
        store = Store(program, packs)
        made, _ = traced(program, store, "uploads", uploads(NEW))
        unsynced, replies = set(), 0
        for call in made[places(made, ACCEPTS)[0] :]:
            path = call.path.removesuffix("/")
            if call.name in SENDS and path.startswith("socket:"):
                compare("a reply to an upload is written", "what isn't synced by then", set(), unsynced)
                replies += 1
            elif call.name in WRITES and path.startswith(str(store.path)):
                unsynced.add(path)
            elif call.name in OPENS + MAKES and "O_CREAT" in call.words:
                unsynced.add(str(store.path))
            elif call.name in SYNCS:
                unsynced.discard(path)
        check(f"{replies} replies to {len(NEW)} uploads", replies >= len(NEW))


# Calls that fail

def failing(program):
    """Calls on a pack fail: the requests get that reply, others are served, and acknowledged blobs are kept."""
    need_strace(program)
    checks = [lambda what=what: upload_fails(program, what) for what in FAILS]
    return checks + [lambda number=number: sync_fails(program, number) for number in (1, 2)] + [lambda: reads_fail(program)]


def one_worker(program, store, log, *words):
    """A server of which only the first pack is traced. strace counts calls for each thread."""
    front = ("strace", "-f", "-o", str(log), "-P", str(store.path / pack_name(0)), *words)
    return Server(program, store.path, "--connections=2", "--workers=1", "--indexers=1", front=front)


def ask_all(what, server, requests):
    with Talk(server.port) as talk:
        for request, reply in requests:
            talk.ask(what, request, reply)


def calls_of_two(program, names):
    """How many calls of these names an upload of one blob and one of another take on a new pack."""
    store, log = Store(program, {}), program.new_path()
    with one_worker(program, store, log) as server:
        ask_all("two uploads", server, uploads(NEW[:1]))
        ask_all("two uploads", server, uploads(NEW[1:2]))
        server.ends("two uploads")
    return sum(call.name in names.split(",") for call in calls_in(log.read_text(errors="replace")))


def upload_fails(program, what):
    """The second blob of an upload of three fails. Nothing more is added to that pack, and in the end it is as it was
    before the fault."""
    names, error = FAILS[what]
    number = calls_of_two(program, names) + 1
    store, log = Store(program, {}), program.new_path()
    with one_worker(program, store, log, "-e", f"inject={names}:error={error}:when={number}") as server:
        with Talk(server.port) as talk:
            talk.ask(what, *uploads(NEW[:1])[0])
            told = json_text({"received": [entry(ref_of(NEW[1]), len(NEW[1]))], "error": "disk"})
            talk.ask(what, upload(*NEW[1:4]), Reply(503, told, closes=True))
            talk.is_at_end(what)
        absent = json_text({"error": "absent", "blobRef": ref_of(NEW[3])})
        behind = [*uploads(NEW[2:3]), *gets(NEW[:3]), (get(blob_target(ref_of(NEW[3]))), Reply(404, absent))]
        ask_all(f"behind {what} that failed", server, behind)
        server.ends(f"a server of which {what} failed")
    store.packs = {0: pack(*NEW[:2]), 1: pack(NEW[2])}
    store.check_files(what)


def sync_fails(program, number):
    """A record that couldn't be synced is taken back at once, so that it isn't there if the server is then killed. Of a
    pack that was never synced nothing is left."""
    what = f"a server that is killed once its sync {number} has failed"
    store, log = Store(program, {}), program.new_path()
    with one_worker(program, store, log, "-e", f"inject={SYNCING}:error=EIO:when={number}") as server:
        for blob in NEW[: number - 1]:
            ask_all(what, server, uploads([blob]))
        told = Reply(503, json_text({"received": [], "error": "disk"}), closes=True)
        ask_all(what, server, [(upload(NEW[number]), told)])
        server.kill()
    store.packs = {0: pack(*NEW[: number - 1])} if number > 1 else {}
    store.check_files(what)
    store.reads(what, "stat", ref_of(NEW[number]), status=3)


def reads_fail(program):
    """Some reads of a pack fail: these requests get that reply, and the connection stays open."""
    store, log = Store(program, {}), program.new_path()
    failed, texts = Reply(503, json_text({"error": "disk"})).text(), []
    with one_worker(program, store, log, "-e", "inject=pread64:error=EIO:when=5+7") as server:
        ask_all("uploads", server, uploads(BLOBS))
        with Talk(server.port) as talk:
            for request, _ in gets(BLOBS):
                talk.send(request)
                texts.append(talk.read_text("a read that fails"))
        server.ends("a server of which reads failed")
    told = [reply.text() for _, reply in gets(BLOBS)]
    wrong = [text for text, its in zip(texts, told) if text != its]
    check(f"{len(wrong)} of {len(told)} reads failed", 0 < len(wrong) < len(told) / 2)
    compare("reads that fail", "their replies", [failed] * len(wrong), wrong)
