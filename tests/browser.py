"""A browser before a server (docs/server.md, "Who gets in"): a page of another origin stores nothing and reads nothing.
Addresses that are typed in, and scripts of the server's own origin, are answered.

Headless Chromium opens the page twice: first before a recorder, which each of its tries has to reach, since otherwise
nothing was tried; and then before a server, through a forwarder that sees the replies. What the browser itself reports
about a try doesn't count.

A page of another origin that has a link to a share is another matter (docs/shares.md): whoever follows it is answered.
"""

import contextlib
import http.server
import json
import os
import shutil
import subprocess
import tempfile
import threading
import time

import harness
import shares
from forwarding import Forwarder
from harness import LeftOut, check, compare
from http_inputs import ABC
from reference import ref_of
from serving import HOST, Server, ShareServer, store_of
from stores import Store
from writing import pack

CHROMIUM = ("chromium", "chromium-browser", "google-chrome")
NAMES = "MAP *.example 127.0.0.1"
QUIET = ["--headless=new", "--no-sandbox", "--disable-gpu", "--no-first-run", "--disable-background-networking"]
SECONDS_OF_PAGE = 60
STORED = b"by a page"

# The tries of a page, by the path of each request. OWN is the server's origin, NAMED the same under a name that is
# bound to 127.0.0.1, and EVERY the same as 0.0.0.0.
TRIES = {
    "image": "add('img', OWN + path)",
    "script": "add('script', OWN + path)",
    "frame": "add('iframe', OWN + path)",
    "stylesheet": "add('link', OWN + path, {rel: 'stylesheet', href: OWN + path})",
    "fetch": "fetch(OWN + path)",
    "fetch-no-cors": "fetch(OWN + path, {mode: 'no-cors', referrerPolicy: 'no-referrer'})",
    "post": "fetch(OWN + path, {mode: 'no-cors', method: 'POST', body: 'x=1', referrerPolicy: 'no-referrer'})",
    "question": "fetch(OWN + path, {method: 'POST', headers: {'X-A': 'b'}, body: '{}'})",
    "beacon": "navigator.sendBeacon(OWN + path, 'abc')",
    "socket": "new WebSocket(OWN.replace('http', 'ws') + path)",
    "events": "new EventSource(OWN + path)",
    "named": "fetch(NAMED + path, {mode: 'no-cors'})",
    "every": "fetch(EVERY + path, {mode: 'no-cors'})",
    "form": "submit(path)",
    "upload": "fetch(OWN + '/camli/upload?' + path, {mode: 'no-cors', method: 'POST', body: uploaded()})",
}
PAGE = """<!doctype html><body><script>
const OWN = 'http://127.0.0.1:%(port)d', NAMED = 'http://bound.example:%(port)d', EVERY = 'http://0.0.0.0:%(port)d';
const pause = (milliseconds) => new Promise((done) => setTimeout(done, milliseconds));
function add(tag, address, more) { const one = document.createElement(tag); one.src = address; Object.assign(one, more); document.body.append(one); }
function uploaded() { const form = new FormData(); form.append('%(ref)s', new Blob(['%(blob)s']), 'a'); return form; }
function submit(path) {
  const frame = document.createElement('iframe'), form = document.createElement('form');
  frame.name = 'of_form'; form.method = 'POST'; form.action = OWN + path; form.target = 'of_form'; form.innerHTML = '<input name=a value=b>';
  document.body.append(frame, form); form.submit();
}
const tries = {%(tries)s};
(async () => {
  for (const [name, go] of Object.entries(tries)) {
    try { Promise.resolve(go('/camli/try-' + name)).catch(() => 0); } catch (error) {}
    await pause(200);
  }
  await pause(1500);
  await fetch('/done', {method: 'POST', body: 'x'});
})();
</script>"""
SAME_ORIGIN = """(async () => {
  const form = new FormData(); form.append('%(ref)s', new Blob(['%(blob)s']), 'a');
  const put = await fetch('/camli/upload', {method: 'POST', body: form});
  const got = await fetch('/camli/%(ref)s');
  return JSON.stringify([put.status, got.status, await got.text()]);
})()"""


def chromium():
    path = next(filter(None, map(shutil.which, CHROMIUM)), None)
    if path is None:
        raise LeftOut("Chromium isn't there")
    return path


def browsers(program):
    path = chromium()
    return [lambda check=check: check(program, path) for check in (foreign_page, typed, same_origin, linked)]


@contextlib.contextmanager
def browsing(path, *words, front=(), **streams):
    """A browser with a profile of its own, started by another program if there are words in front."""
    with tempfile.TemporaryDirectory(ignore_cleanup_errors=True) as profile:
        line = [*front, path, *QUIET, f"--user-data-dir={profile}", f"--host-resolver-rules={NAMES}", *words]
        with subprocess.Popen(line, stderr=subprocess.DEVNULL, **streams) as process:
            try:
                yield process
            finally:
                process.kill()


# Pages

def tries_before(path, port):
    """Opens the page of another origin, before a listener at a port, and waits until it has made all its tries."""
    tries = ", ".join(f"'{name}': (path) => {script}" for name, script in TRIES.items())
    page = PAGE % {"port": port, "ref": ref_of(STORED), "blob": STORED.decode(), "tries": tries}
    done = threading.Event()
    with pages_of(page, done.set) as address, browsing(path, address, stdout=subprocess.DEVNULL):
        check("the page of another origin isn't done", done.wait(SECONDS_OF_PAGE))


@contextlib.contextmanager
def pages_of(page, posted=lambda: None):
    """The address of a page of another origin. A POST to it has an effect."""
    class Pages(http.server.BaseHTTPRequestHandler):
        def log_message(self, *_):
            pass

        def do_GET(self):
            self.answer(page.encode())

        def do_POST(self):
            posted()
            self.answer(b"")

        def answer(self, body):
            self.send_response(200)
            self.send_header("Content-Type", "text/html")
            self.send_header("Content-Length", str(len(body)))
            self.end_headers()
            self.wfile.write(body)

    with http.server.ThreadingHTTPServer((HOST, 0), Pages) as pages:
        threading.Thread(target=pages.serve_forever, daemon=True).start()
        yield f"http://pages.example:{pages.server_address[1]}/"
        pages.shutdown()


def foreign_page(program, path):
    recorder = Forwarder()
    tries_before(path, recorder.port)
    heads = [said["asked"] for said in recorder.asked()]
    lacking = [name for name in TRIES if not any(f"/camli/try-{name} ".encode() in head for head in heads)]
    compare("a recorder", "tries that don't reach it", [], lacking)
    store = store_of(program, b"abc")
    before = store.files()
    with Server(program, store.path) as server:
        forwarder = Forwarder(server.port)
        tries_before(path, forwarder.port)
        asked = forwarder.asked()
        compare("a server", "tries that are answered", [], [one for one in asked if b"/try-" in one["asked"] and one["answered"]])
        check("no try came to the server", any(b"/try-" in one["asked"] for one in asked))
        compare("a server", "what is stored", before, store.files())


# Addresses that are typed in, and the server's own origin

def typed(program, path):
    with Server(program, store_of(program, b"abc").path) as server:
        page = f":{server.port}/camli/enumerate-blobs"
        check("an address that is typed in isn't answered", ABC in dumped(path, f"http://127.0.0.1{page}"))
        check("a name of this machine isn't answered", ABC in dumped(path, f"http://localhost{page}"))
        for host in ("bound.example", "0.0.0.0", "localhost."):
            check(f"{host} is answered", ABC not in dumped(path, f"http://{host}{page}"))


def dumped(path, address):
    """The page that a browser has at an address."""
    with browsing(path, "--dump-dom", address, stdout=subprocess.PIPE) as process:
        return process.communicate(timeout=SECONDS_OF_PAGE)[0].decode(errors="replace")


def same_origin(program, path):
    """A script of the server's own origin stores a blob and reads it."""
    with Server(program, store_of(program, b"abc").path) as server, Steered(path) as page:
        page.open(f"http://127.0.0.1:{server.port}/camli/enumerate-blobs")
        script = SAME_ORIGIN % {"ref": ref_of(STORED), "blob": STORED.decode()}
        compare("a script of the same origin", "its answers", [200, 200, STORED.decode()], json.loads(page.value(script)))


# Shares

def linked(program, path):
    """A link to a share is followed on a page of another origin; the same page's link to a server isn't answered."""
    blobs = shares.blobs_of_page()
    store = Store(program, {0: pack(*(blobs[letter] for letter in "KCFS"))}, {"keyring": b"jefe 4a656665\n"})
    share, file, chunk = (ref_of(blobs[letter]) for letter in "SFC")
    with ShareServer(program, store.path) as one, Server(program, store.path) as other:
        head, body = followed(path, one.port, shares.target_of(chunk, share, file)).split(b"\r\n\r\n", 1)
        compare("a link to a share", "what is answered", (b"HTTP/1.1 200 OK", b"abc"), (head.split(b"\r\n")[0], body))
        compare("a link to a server", "what is answered", b"", followed(path, other.port, f"/camli/{chunk}"))


def followed(path, port, target):
    """The reply after a link on a page of another origin was followed."""
    forwarder = Forwarder(port)
    page = f"<!doctype html><body><a id=link href='http://127.0.0.1:{forwarder.port}{target}'>a link</a>"
    with pages_of(page) as address, Steered(path) as steered:
        steered.open(address)
        steered.value("(document.getElementById('link').click(), true)")
        for _ in range(SECONDS_OF_PAGE):
            time.sleep(1)
            asked = [one for one in forwarder.asked() if target.encode() in one["asked"]]
            if asked:
                break
        check("a link isn't followed", bool(asked))
        check("a link is followed from another page", b"Referer: http://pages.example:" in asked[0]["asked"])
        return asked[0]["answered"]


class Steered:
    """A page of a browser that is controlled by its developers' tools, over a pipe."""

    def __init__(self, path):
        self.path, self.come, self.number, self.session = path, b"", 0, None

    def __enter__(self):
        from_us, self.to_it = os.pipe()
        self.from_it, to_us = os.pipe()
        # The browser reads its third file and writes to its fourth.
        front = ("bash", "-c", f'exec "$@" 3<&{from_us} 4>&{to_us}', "bash")
        words = ("--remote-debugging-pipe", "about:blank")
        streams = {"stdout": subprocess.DEVNULL, "pass_fds": (from_us, to_us)}
        self.browser = browsing(self.path, *words, front=front, **streams)
        self.browser.__enter__()
        os.close(from_us)
        os.close(to_us)
        pages = [one for one in self.call("Target.getTargets")["targetInfos"] if one["type"] == "page"]
        self.session = self.call("Target.attachToTarget", targetId=pages[0]["targetId"], flatten=True)["sessionId"]
        self.call("Page.enable")
        return self

    def __exit__(self, *how):
        self.browser.__exit__(*how)
        os.close(self.to_it)
        os.close(self.from_it)

    def call(self, method, **parameters):
        self.number += 1
        message = {"id": self.number, "method": method, "params": parameters}
        if self.session:
            message["sessionId"] = self.session
        os.write(self.to_it, json.dumps(message).encode() + b"\0")
        while True:
            while b"\0" not in self.come:
                self.come += os.read(self.from_it, 65_536)
            text, _, self.come = self.come.partition(b"\0")
            answer = json.loads(text)
            if answer.get("id") == self.number:
                return answer["result"]

    def open(self, address):
        self.call("Page.navigate", url=address)
        time.sleep(1)

    def value(self, script):
        return self.call("Runtime.evaluate", expression=script, awaitPromise=True, returnByValue=True)["result"]["value"]


if __name__ == "__main__":
    harness.main("browser.sh", [], [browsers])
