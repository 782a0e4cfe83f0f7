"""Writes packs, and the schema blobs in them, as docs/formats describes them.

The tests and the benches make their inputs with it.
"""

import functools
import hashlib

from reference import MARKER, date_text, moment_of, older_ref_of, ref_of, signature, word

NAME = "jefe"
SECRET = b"Jefe"
RANDOM = "00112233445566778899aabbccddeeff"


# docs/formats/schema.md, "Written objects"
ESCAPES = {'"': '\\"', "\\": "\\\\", "\b": "\\b", "\t": "\\t", "\n": "\\n", "\f": "\\f", "\r": "\\r"}
ESCAPES = str.maketrans({chr(code): f"\\u{code:04x}" for code in range(32)} | ESCAPES)


def text(value):
    """The JSON string of a text, with its quotes."""
    return '"' + value.translate(ESCAPES) + '"'


# Keys and signatures

def key_blob(name=NAME):
    return f"perkeep-hmac-sha256 {name}\n".encode()


KEY = ref_of(key_blob())


def keyring_line(name=NAME, secret=SECRET):
    return f"{name} {secret.hex()}\n".encode()


def signed(payload, secret=SECRET):
    """The blob of a payload and its signature. A payload is an object without its last brace."""
    payload = octets(payload)
    return payload + MARKER + signature(secret, payload).hex().encode() + b'"}\n'


def octets(value):
    return value.encode() if isinstance(value, str) else value


# Payloads

def permanode_payload(random=RANDOM, signer=KEY):
    return f'{{"camliVersion":1,"camliType":"permanode","camliSigner":"{signer}","random":"{random}"'


def claim_head(date, signer=KEY):
    return f'{{"camliVersion":1,"camliType":"claim","camliSigner":"{signer}","claimDate":"{date}"'


def attribute_payload(kind, permanode, attribute, value, date, signer=KEY):
    """A claim of the kind `set`, `add` or `del`; a del of all values has the empty value, which isn't written."""
    written = "" if kind == "del" and value == "" else f',"value":{text(value)}'
    rest = f',"claimType":"{kind}-attribute","permaNode":"{permanode}","attribute":{text(attribute)}{written}'
    return claim_head(date, signer) + rest


def change_text(kind, permanode, attribute, value):
    """A change in a claim of several changes, of the kind `set`, `add` or `del`."""
    written = "" if kind == "del" and value == "" else f',"value":{text(value)}'
    return f'{{"changeType":"{kind}-attribute","permaNode":"{permanode}","attribute":{text(attribute)}{written}}}'


def multi_payload(changes, date, signer=KEY):
    """A claim of several changes, each given by its kind, permanode, attribute and value."""
    return claim_head(date, signer) + f',"claimType":"multi","changes":[{",".join(change_text(*one) for one in changes)}]'


def delete_payload(target, date, signer=KEY):
    return claim_head(date, signer) + f',"claimType":"delete","target":"{target}"'


# Signed blobs

def permanode(random=RANDOM, signer=KEY, secret=SECRET):
    return signed(permanode_payload(random, signer), secret)


def claim(kind, permanode_ref, attribute, value, date, signer=KEY, secret=SECRET):
    return signed(attribute_payload(kind, permanode_ref, attribute, value, date, signer), secret)


def multi(changes, date, signer=KEY, secret=SECRET):
    return signed(multi_payload(changes, date, signer), secret)


def delete(target, date, signer=KEY, secret=SECRET):
    return signed(delete_payload(target, date, signer), secret)


# The generated store (docs/formats/generated.md)

LOAD = "load"
LOAD_SECRET = b"load"
FIRST_MOMENT = moment_of("2020-01-01T00:00:00Z")


def load_blobs(count, start):
    """So many blobs of the generated store of a start, in the order of their numbers."""
    blobs = []
    for i in range(count):
        blobs.append(load_blob(start, i, blobs))
    return blobs


def load_blob(start, i, before):
    """Blob i of the generated store, after those before it."""
    if i == 0:
        return key_blob(LOAD)
    signer = ref_of(before[0])
    by_key = {"signer": signer, "secret": LOAD_SECRET}
    date = date_text(FIRST_MOMENT + i * 10**9)
    if i % 4 == 1:
        return permanode(f"{word(start, 2 * i):016x}{word(start, 2 * i + 1):016x}", **by_key)
    if i % 4 == 2:
        return claim("set", ref_of(before[i - 1]), "tag", f"t{word(start, i) % 16}", date, **by_key)
    if i % 4 == 3:
        return claim("add", ref_of(before[i - 2]), "title", f"n{i}", date, **by_key)
    on_tag = i == 4 or word(start, i) % 2 == 0
    return delete(ref_of(before[i - 2 if on_tag else i - 4]), date, **by_key)


# Files, directories and sets

def part(size, ref=None, key="blobRef", offset=0):
    origin = f'"{key}":"{ref}",' if ref else ""
    return "{" + origin + f'"size":{size}' + (f',"offset":{offset}' if offset else "") + "}"


def file_blob(name, parts):
    return f'{{"camliVersion":1,"camliType":"file","fileName":{text(name)},"parts":[{",".join(parts)}]}}\n'.encode()


def bytes_blob(parts):
    return f'{{"camliVersion":1,"camliType":"bytes","parts":[{",".join(parts)}]}}\n'.encode()


def directory(name, entries):
    return f'{{"camliVersion":1,"camliType":"directory","fileName":{text(name)},"entries":"{entries}"}}\n'.encode()


def static_set(members):
    return f'{{"camliVersion":1,"camliType":"static-set","members":[{",".join(map(text, members))}]}}\n'.encode()


# docs/files.md, "Cutting a file"
BYTES_OF_A_CHUNK = 1_048_576
MOST_CHUNKS_OF_A_LIST = 4_096


def chunks_of(content):
    return [content[at : at + BYTES_OF_A_CHUNK] for at in range(0, len(content), BYTES_OF_A_CHUNK)]


def file_blobs(name, chunks):
    """The blobs of a file of these chunks, in the order in which they are put; the last one is the file's."""
    known_ref = functools.lru_cache(None)(ref_of)
    parts = [part(len(chunk), known_ref(chunk)) for chunk in chunks]
    if len(chunks) <= MOST_CHUNKS_OF_A_LIST:
        return [*chunks, file_blob(name, parts)]
    blobs, trees = [], []
    for at in range(0, len(chunks), MOST_CHUNKS_OF_A_LIST):
        run = slice(at, at + MOST_CHUNKS_OF_A_LIST)
        tree = bytes_blob(parts[run])
        blobs += [*chunks[run], tree]
        trees.append(part(sum(map(len, chunks[run])), ref_of(tree), "bytesRef"))
    return [*blobs, file_blob(name, trees)]


# Packs

class Names:
    """The one of its two refs that each blob of a random store has: half of them have the older one."""

    def __init__(self, random):
        self.salt = random.randbytes(8)

    def __call__(self, blob):
        return older_ref_of(blob) if self.is_older(blob) else ref_of(blob)

    def other(self, blob):
        """The other ref of a blob than the one that it has."""
        return ref_of(blob) if self.is_older(blob) else older_ref_of(blob)

    def is_older(self, blob):
        return hashlib.sha256(self.salt + blob).digest()[0] % 2 == 1


# In these a blob has the ref that `name_of` gives it.

def header(blob, name_of=ref_of):
    return f"[{name_of(blob)} {len(blob)}]".encode()


def record(blob, name_of=ref_of):
    return header(blob, name_of) + blob


def pack(*blobs, name_of=ref_of):
    return b"".join(record(blob, name_of) for blob in blobs)


def deleted_record(size_or_bytes, letters=6, zeros=56):
    """A deleted record of the bytes, or of as many dots."""
    body = b"." * size_or_bytes if isinstance(size_or_bytes, int) else size_or_bytes
    return b"[" + b"x" * letters + b"-" + b"0" * zeros + f" {len(body)}]".encode() + body
