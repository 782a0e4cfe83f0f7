"""Servers as peers of `push` and `pull`: one in Python that checks each byte of each request, and replies as the test
says.

The requests to a peer are in docs/sync.md ("Requests over HTTP"), and its replies in docs/http.md and
docs/formats/answers.md. A request that isn't one of those, to the byte, fails the check.
"""

import http.server
import re
import socket
import threading

from connections import OCTETS, Reply, entry, json_text
from harness import compare
from reference import LARGEST_BLOB, ref_like
from serving import HOST

PIECE = 1 << 20
# docs/sync.md, "What is copied"
ENTRIES_OF_A_PAGE = 1_000
REF = rb"(?:sha224-[0-9a-f]{56}|sha1-[0-9a-f]{40})"
HOST_LINE = rb"Host: localhost\r\n"
PAGE = re.compile(
    rb"GET /camli/enumerate-blobs\?(?:after=(%b)&)?limit=%d HTTP/1\.1\r\n%b\r\n" % (REF, ENTRIES_OF_A_PAGE, HOST_LINE)
)
FETCH = re.compile(rb"GET /camli/(%b) HTTP/1\.1\r\n%b\r\n" % (REF, HOST_LINE))
NAME = re.compile(rb'\r\nContent-Disposition: form-data; name="(%b)"\r\n\r\n' % REF)
LENGTH = re.compile(rb"\r\nContent-Length: ([0-9]+)\r\n")


class Asked:
    """A request: which of the three it is, and the ref in it; for a page the one after which it begins, or none."""

    def __init__(self, kind, ref, blob=None):
        self.kind, self.ref, self.blob = kind, ref, blob

    def __repr__(self):
        return f"{self.kind} {self.ref}"


def upload_text(ref, blob):
    """The request that uploads a blob under a ref."""
    boundary = b"pk%08d" % least_boundary(b"\r\n" + blob)
    body = b'--%b\r\nContent-Disposition: form-data; name="%b"\r\n\r\n' % (boundary, ref.encode())
    body += b"%b\r\n--%b--" % (blob, boundary)
    head = b"POST /camli/upload HTTP/1.1\r\nHost: localhost\r\n"
    head += b"Content-Type: multipart/form-data; boundary=%b\r\nContent-Length: %d\r\n\r\n" % (boundary, len(body))
    return head + body


def least_boundary(text):
    """The least number in eight digits such that CR LF, two hyphens, `pk` and the number aren't in a text."""
    taken = {int(digits) for digits in re.findall(rb"\r\n--pk(?=([0-9]{8}))", text)}
    return next(number for number in range(len(taken) + 1) if number not in taken)


def asked_by(head, body):
    """The kind of a request; None if it is none of the three."""
    page, fetch, name = PAGE.fullmatch(head), FETCH.fullmatch(head), NAME.search(body[:4_096])
    if page is not None and not body:
        return Asked("page", (page[1] or b"").decode())
    if fetch is not None and not body:
        return Asked("fetch", fetch[1].decode())
    if name is None:
        return None
    ref, end = name[1].decode(), body.rfind(b"\r\n--pk")
    blob = body[name.end() : end]
    return Asked("upload", ref, blob) if head + body == upload_text(ref, blob) else None


class FalsePeer:
    """A server that has blobs by their refs, and lists, returns and keeps them.

    `wrongs` and `rights` have, by the numbers of requests from 0 on, replacements for a plain reply. Each is a function
    of the connection and the expected reply, and returns whether the connection is ended after it. A blob whose upload
    is answered by one of `wrongs` isn't kept. `before` is called before each reply."""

    def __init__(self, blobs=None, wrongs=None, rights=None, before=None):
        self.blobs, self.wrongs, self.rights, self.before = dict(blobs or {}), wrongs or {}, rights or {}, before
        self.asked, self.faults, self.connections = [], [], 0
        self.lock = threading.Lock()
        self.listener = socket.create_server((HOST, 0), backlog=64)
        self.port = self.listener.getsockname()[1]
        self.address = f"{HOST}:{self.port}"
        self.thread = threading.Thread(target=self.serve, daemon=True)
        self.thread.start()

    def __enter__(self):
        return self

    def __exit__(self, *_):
        self.close()

    def close(self):
        # Only this wakes a thread that waits for a connection.
        self.listener.shutdown(socket.SHUT_RDWR)
        self.listener.close()

    def is_good(self, what):
        """Each request so far was one of those that a peer gets."""
        compare(what, "requests that no peer is asked", [], self.faults)

    def of_kind(self, kind):
        """The refs of the requests of a kind, in their order."""
        return [one.ref for one in self.asked if one.kind == kind]

    def serve(self):
        while True:
            try:
                wire, _ = self.listener.accept()
            except OSError:
                return
            wire.setsockopt(socket.IPPROTO_TCP, socket.TCP_NODELAY, 1)
            self.connections += 1
            threading.Thread(target=self.talk, args=(wire,), daemon=True).start()

    def talk(self, wire):
        with wire:
            come = b""
            while True:
                try:
                    request = self.next_request(wire, come)
                    if request is None:
                        return
                    head, body, come = request
                    if self.answer(wire, head, body):
                        return
                except OSError:
                    return

    def next_request(self, wire, come):
        """The head and the body of the next request, and the bytes after it; None if the connection ends before it."""
        while b"\r\n\r\n" not in come:
            piece = wire.recv(PIECE)
            if not piece:
                return None
            come += piece
        end = come.index(b"\r\n\r\n") + 4
        length = LENGTH.search(come[:end])
        whole = end + (int(length[1]) if length else 0)
        pieces, size = [come], len(come)
        while size < whole:
            pieces.append(wire.recv(PIECE))
            size += len(pieces[-1])
            if not pieces[-1]:
                return None
        come = b"".join(pieces)
        return come[:end], come[end:whole], come[whole:]

    def answer(self, wire, head, body):
        """Answers a request; returns whether the connection is to end."""
        asked = asked_by(head, body)
        if asked is None:
            self.faults.append((head, body[:200]))
            return True
        with self.lock:
            number = len(self.asked)
            self.asked.append(asked)
        if self.before is not None:
            self.before(asked)
        due = self.due(asked, number in self.wrongs)
        return {**self.rights, **self.wrongs}.get(number, plainly)(wire, due)

    def due(self, asked, is_lost):
        """The reply to a request; an upload is kept unless it gets another reply."""
        if asked.kind == "page":
            refs = sorted(ref for ref in self.blobs if ref > asked.ref)
            page = refs[:ENTRIES_OF_A_PAGE]
            text = {"blobs": [entry(ref, len(self.blobs[ref])) for ref in page]}
            return Reply(200, json_text(text | ({"continueAfter": page[-1]} if len(refs) > len(page) else {})))
        if asked.kind == "fetch":
            blob = self.blobs.get(asked.ref)
            return Reply(200, blob, OCTETS) if blob is not None else absent(asked.ref)
        if ref_like(asked.ref, asked.blob) != asked.ref or len(asked.blob) > LARGEST_BLOB:
            self.faults.append(asked)
        if not is_lost:
            self.blobs.setdefault(asked.ref, asked.blob)
        return Reply(200, json_text({"received": [entry(asked.ref, len(asked.blob))]}))


class Stranger(http.server.ThreadingHTTPServer):
    """A server of another kind, which knows no path."""

    class Handler(http.server.BaseHTTPRequestHandler):
        def do_GET(self):
            self.send_error(404)

        def log_message(self, *_):
            pass

    def __init__(self):
        super().__init__((HOST, 0), self.Handler)
        self.address = f"{HOST}:{self.server_port}"

    def __enter__(self):
        threading.Thread(target=self.serve_forever, daemon=True).start()
        return self

    def __exit__(self, *_):
        self.shutdown()
        self.server_close()


def absent(ref):
    return Reply(404, json_text({"error": "absent", "blobRef": ref}))


# Actions when a reply is due; each returns whether the connection is then ended.

def plainly(wire, due):
    wire.sendall(due.text())
    return False


def sends(text, ends=False):
    """Sends these bytes."""
    return changes(lambda due: text, ends)


def changes(change, ends=False):
    """Sends the reply, changed by a function."""
    def send(wire, due):
        wire.sendall(change(due))
        return ends
    return send


def resets(wire, due):
    """The other end sees a failure, and not an end."""
    wire.setsockopt(socket.SOL_SOCKET, socket.SO_LINGER, b"\1\0\0\0\0\0\0\0")
    return True


def with_body(due, body, code=None):
    """The text of a reply with another body."""
    return due._replace(body=body, code=code or due.code).text()
