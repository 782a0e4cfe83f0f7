"""Packs on the disk: the one to which a put goes, packs that are torn or damaged, files that can't grow, and little
memory.

Each group is a function of the program, and returns its checks.
"""

import collections
import itertools
import os
import shutil
import signal
import subprocess
import time

import inputs
import reference
from harness import chance, compare, compare_ending, finish, limited_to
from reference import older_ref_of, pack_name, ref_of
from stores import ABC, CLEAN, TORN, Store, check_search, lines_of, look
from writing import deleted_record, header, pack, record


# Numbers and lengths of packs

def numbers(program):
    """The pack to which a put goes."""
    cases = [
        ({}, 0),
        ({0: b""}, 0),
        ({0: CLEAN}, 0),
        ({0: TORN}, 1),
        ({0: b"junk"}, 1),
        ({0: deleted_record(3)}, 0),
        ({0: deleted_record(3)[:-1]}, 1),
        ({3: CLEAN}, 3),
        ({3: TORN}, 4),
        ({0: TORN, 1: CLEAN}, 1),
        ({0: CLEAN, 1: TORN}, 2),
        ({0: CLEAN, 1: b""}, 1),
        ({0: CLEAN, 5: CLEAN}, 5),
        ({0: CLEAN, 5: TORN}, 6),
        ({1: CLEAN, 9: CLEAN, 10: TORN}, 11),
        ({99_998: TORN}, 99_999),
        ({99_999: CLEAN}, 99_999),
    ]
    checks = [lambda packs=packs, number=number: goes_to(program, packs, number) for packs, number in cases]
    return checks + [lambda: no_number_left(program)] + [
        lambda length=length, number=number: full_pack(program, length, number)
        for length, number in [(reference.BYTES_OF_A_FULL_PACK - 1, 0), (reference.BYTES_OF_A_FULL_PACK, 1)]
    ]


def goes_to(program, packs, number):
    what = f"a put beside {sorted(packs)}"
    store = Store(program, packs)
    store.lists(what)
    if packs:
        store.put(f"{what}, of a blob that stands or not", b"a blob")
    store.put(what, b"new")
    compare(what, "the pack with the blob", [number], [n for n, one in store.packs.items() if one.endswith(record(b"new"))])
    store.put(f"{what}, the next", b"newer")
    store.lists(f"{what}, then")


def no_number_left(program):
    """A store that needs a pack after the last number is full; a blob that is there can still be put."""
    store = Store(program, {0: pack(b"abc"), 99_999: pack(b"last") + b"x"})
    store.keeps("no number left", store.words("put"), status=9, source=b"new")
    store.put("a blob that stands, no number left", b"abc")
    store.put("a blob that stands, no number left", b"last")
    store.lists("no number left")


def full_pack(program, length, number):
    """A pack of a length near the limit, made of deleted records, which cost nobody a digest."""
    store = Store(program, {})
    path, what = store.path / pack_name(0), f"a pack of {length} bytes"
    write_deleted_records(path, length)
    program.check(what, store.words("put"), ABC.encode() + b"\n", source=b"abc")
    expected = {pack_name(0): length, pack_name(number): (length if number == 0 else 0) + len(record(b"abc"))}
    compare(what, "lengths", expected, {entry.name: entry.stat().st_size for entry in store.path.iterdir()})
    with open(store.path / pack_name(number), "rb") as file:
        file.seek(expected[pack_name(number)] - len(record(b"abc")))
        compare(what, "the record", record(b"abc"), file.read())
    program.check(f"{what}: salvage", store.words("salvage"), salvage_of_full_pack(length, number))
    path.unlink()


def write_deleted_records(path, length):
    with open(path, "wb") as file:
        while length > 0:
            size = min(reference.LARGEST_BLOB, length - len(b"[x-0 16777216]"))
            file.write(f"[x-0 {size}]".encode())
            file.seek(size, os.SEEK_CUR)
            length -= len(f"[x-0 {size}]") + size
        file.truncate()
    compare("deleted records", "what is left", 0, length)


def salvage_of_full_pack(length, number):
    at = (length if number == 0 else 0) + len(header(b"abc"))
    between = "" if number == 0 else f"{pack_name(0)} clean\n"
    return f"{between}{pack_name(number)} {at} {ABC} 3\n{pack_name(number)} clean\n".encode()


# Consecutive records, whose blobs are hashed several at a time

# How many records of which lengths: the blobs of at most 64 headers are hashed together, and at most 8 MiB of them.
BATCHES = {
    "short": (150, [(0, 400)]),
    "of some length": (75, [(5_000, 60_000)]),
    "long": (10, [(200_000, 1_100_000)]),
    "of all lengths": (80, [(0, 60), (200, 500), (4_000, 20_000), (60_000, 400_000)]),
}


def nothing(_, records, at):
    pass


def flipped_in(part):
    """A bit of the ref, of the size or of the bytes turned over."""
    def flip(chances, records, at):
        front = len(header(records[at]))
        start, end = {"ref": (8, 64), "size": (65, front - 1), "bytes": (front, front + len(records[at]))}[part]
        if start < end:
            whole = bytearray(record(records[at]))
            whole[chances.randrange(start, end)] ^= 1 << chances.randrange(8)
            records[at] = bytes(whole)
        return start < end

    return flip


def torn_at(chances, records, at):
    whole = record(records[at])
    records[at] = whole[: chances.randrange(len(whole))]
    return True


def with_front(make):
    """Some more bytes before a record."""
    def change(chances, records, at):
        records[at] = make(chances, records, at) + record(records[at])
        return True

    return change


def false_header(chances, records, at):
    """A header whose ref is that of other bytes, before bytes or before the next record, which it counts as its own."""
    body = chances.randbytes(chances.randrange(500))
    return header(body)[:8] + ref_of(b"other")[7:].encode() + header(body)[64:] + chances.choice([body, b""])


def long_false_header(chances, records, at):
    """One that counts several of the next records as its own."""
    size = sum(len(header(blob) + blob) for blob in records[at : at + chances.randrange(2, 6)] if isinstance(blob, bytes))
    return f"[{ref_of(b'other')} {min(size, reference.LARGEST_BLOB)}]".encode()


def neighbour(_, records, at):
    """The ref of the next blob."""
    other = records[at + 1] if at + 1 < len(records) else b"other"
    records[at] = f"[{ref_of(other)} {len(records[at])}]".encode() + records[at]
    return True


def older(_, records, at):
    records[at] = record(records[at], older_ref_of)
    return True


DAMAGES = {
    "nothing": nothing,
    "a flipped bit of a ref": flipped_in("ref"),
    "a flipped bit of a size": flipped_in("size"),
    "a flipped bit of a blob": flipped_in("bytes"),
    "a torn record": torn_at,
    "junk": with_front(lambda chances, *_: chances.choice([b"?", b"[", b"[sha224-", b"[x-0", b"[[x" * 80, bytes(300)])),
    "a false header": with_front(false_header),
    "a long false header": with_front(long_false_header),
    "another ref": neighbour,
    "an older ref": older,
    "a deleted record": with_front(lambda chances, *_: deleted_record(chances.randrange(300))),
}


def batches(program):
    """Consecutive records of several lengths, with damage before, within and after those that are read together: a pack
    for each place of the damage, and packs with several."""
    return [
        lambda kind=kind, damage=damage: damaged_batch(program, kind, damage)
        for kind, damage in itertools.product(BATCHES, DAMAGES)
    ] + [lambda kind=kind, turn=turn: random_batch(program, kind, turn) for kind in BATCHES for turn in range(4)]


def blobs_of(chances, kind):
    count, lengths = BATCHES[kind]
    return [chances.randbytes(chances.randint(*chances.choice(lengths))) for _ in range(count)]


def damaged_batch(program, kind, damage):
    chances = chance("batches", kind, damage)
    packs = {}
    for place in (0, 1, 3, 4, 62, 63, 64, 65, -2, -1):
        blobs = blobs_of(chances, kind)
        if -len(blobs) <= place < len(blobs):
            packs[len(packs)] = batch(blobs, {place % len(blobs): DAMAGES[damage]}, chances)
    Store(program, packs).lists(f"{damage} among blobs {kind}")


def random_batch(program, kind, turn):
    chances = chance("batches", kind, turn)
    blobs = blobs_of(chances, kind)
    places = {at: DAMAGES[chances.choice(sorted(DAMAGES))] for at in range(len(blobs)) if chances.random() < 0.1}
    Store(program, {0: batch(blobs, places, chances)}).lists(f"much among blobs {kind}, {turn}")


def batch(blobs, damages, chances):
    """A pack of these blobs, some of which are damaged. Each damage has the undamaged blobs after it."""
    parts = []
    for at, blob in enumerate(blobs):
        records = [blob] + blobs[at + 1 :]
        changed = at in damages and damages[at](chances, records, 0)
        parts.append(records[0] if changed else record(blob))
    return b"".join(parts)


# Files that can't grow

def file_limits(program):
    """Puts under a limit of the length of files, as on a full disk: with the signal of the limit ignored, and not."""
    endings = collections.Counter()
    checks = []
    for handler in (signal.SIG_IGN, signal.SIG_DFL):
        for packs in (None, {0: CLEAN}, {0: TORN}, {0: CLEAN, 1: b""}):
            for room in (0, 1, 68, 69, 70, 300, 468, 469, 470):
                checks.append(lambda handler=handler, packs=packs, room=room: within(program, packs, room, handler, endings))
    return checks + [lambda: print(f"file_limits: how puts ended under a limit: {dict(sorted(endings.items()))}", flush=True)]


def within(program, packs, room, handler, endings):
    """A put of 400 bytes, whose record has 469, if so many bytes may be written: it fails, or all are."""
    store, blob = Store(program, packs), bytes(400)
    what = f"room for {room} bytes beside {packs and sorted(packs)}"
    into = reference.pack_for_the_next_record(store.packs)
    limit = len(store.packs.get(into, b"")) + room
    heeds = 'trap "" XFSZ; ' if handler == signal.SIG_IGN else ""
    limited = ("sh", "-c", f'{heeds}exec prlimit --fsize={limit} "$@"', "sh")
    status, out, err = program.run(what, store.words("put"), blob, front=limited)
    if room < len(record(blob)):
        killed = handler == signal.SIG_DFL and status == -signal.SIGXFSZ
        if not killed:
            compare_ending(what, 7, status, err)
        compare(what, "standard output", b"", out)
    else:
        compare_ending(what, 0, status, err)
    endings[f"status {status}" if status >= 0 else f"signal {-status}"] += 1
    after_a_fault(store, what, into)
    store.gets(what, [ref_of(b"a blob"), ref_of(blob)])
    store.put(f"{what}, the put after it", blob)
    store.lists(f"{what}, the put after it")


# Little memory

SCANT, AMPLE = 12, 256


def memory_limits(program):
    """Commands with so many MiB of memory, over the longest blob, which has 16: they fail if it can't fit, and leave
    everything unchanged."""
    longest = bytes(reference.LARGEST_BLOB)
    checks = [
        lambda packs=packs, mib=mib: put_within_memory(program, packs, longest, mib)
        for packs, mib in itertools.product((None, {0: CLEAN}, {0: TORN}), (4, 8, SCANT, 18, 24, 34, 48, AMPLE))
    ]
    store = Store(program, {0: pack(longest)})
    return checks + [lambda line=line: read_within_memory(store, line) for line in lines_of(store.path).values()]


def put_within_memory(program, packs, blob, mib):
    store, what = Store(program, packs), f"a put within {mib} MiB beside {packs and sorted(packs)}"
    before = look(store.path)
    status, out, err = program.run(what, store.words("put"), blob, front=limited_to(mib))
    if mib <= SCANT or mib < AMPLE and status != 0:
        compare_ending(what, 1, status, err)
        compare(what, "standard output", b"", out)
        # The folder may have been made by then.
        compare(what, "the folder", before, None if packs is None and store.files() == {} else look(store.path))
        return
    compare_ending(what, 0, status, err)
    store.packs = reference.put(store.packs, blob)
    compare(what, "standard output", ref_of(blob).encode() + b"\n", out)
    store.check_files(what)


def read_within_memory(store, line):
    """A store whose pack doesn't fit can't be opened."""
    what = f"{line[0]} within {SCANT} MiB"
    before = look(store.path)
    status, out, err = store.program.run(what, line, b"new", front=limited_to(SCANT))
    compare_ending(what, 1, status, err)
    compare(what, "standard output", b"", out)
    compare(what, "the folder", before, look(store.path))


# Folders that are removed

def removed(program):
    """Puts whose folder is removed while they run."""
    endings = collections.Counter()
    moments = chance("removed")
    return [lambda: removed_after(program, moments.uniform(0, 0.2), endings) for _ in range(16)] + [
        lambda: print(f"removed: how puts ended whose folder was removed: {dict(sorted(endings.items()))}", flush=True)
    ]


def removed_after(program, moment, endings):
    """The folder is removed while a put opens its packs or writes: the disk's fault, or a ref whose blob is there if a
    folder is."""
    store = Store(program, {number: pack(bytes([number]) * 1_048_576) for number in range(16)})
    what = f"the folder is removed after {moment:.3f} seconds"
    source = program.new_path()
    source.write_bytes(b"new")
    with source.open("rb") as stdin:
        process = program.start(store.words("put"), program.working, stdin=stdin, stdout=subprocess.PIPE)
    time.sleep(moment)
    process.send_signal(signal.SIGSTOP)
    shutil.rmtree(store.path)
    process.send_signal(signal.SIGCONT)
    out, err = finish(what, process)
    status = process.returncode
    compare_ending(what, 7 if status == 7 else 0, status, err)
    compare(what, "standard output", b"" if status == 7 else ref_of(b"new").encode() + b"\n", out)
    if status == 0 and store.path.exists():
        program.check(what, store.words("get", ref_of(b"new")), b"new")
    endings[f"status {status}"] += 1


def after_a_fault(store, what, into):
    """The state after a put that may have failed: all earlier blobs, and in one pack a prefix of a record after
    them."""
    packs = reference.packs_of(store.files())
    for number, content in store.packs.items():
        front = packs.get(number, b"")[: len(content)] if number == into else packs.get(number)
        compare(what, f"pack {number}", content, front)
    compare(what, "new packs", set(), set(packs) - set(store.packs) - {into})
    store.packs = packs


# Torn and damaged packs

def torn(program):
    """A pack cut after each byte, and stores of schema blobs cut at some places."""
    whole = pack(b"abc", b"")
    mixed = pack(b"one") + deleted_record(9) + pack(b"two")
    older = pack(b"abc", b"", name_of=older_ref_of)
    cases = [({0: whole[:cut]}, (b"abc", b""), cut) for cut in range(len(whole) + 1)]
    cases += [({0: older[:cut]}, (b"abc", b""), cut) for cut in range(len(older) + 1)]
    cases += [({0: CLEAN, 4: mixed[:cut]}, (b"one", b"two"), cut) for cut in range(len(pack(b"one")), len(mixed), 3)]
    checks = [lambda case=case: survives(program, f"cut at {case[2]}", *case) for case in cases]
    many = pack(*(bytes([number]) * (number * 40) for number in range(100)))
    last = pack(b"x" * 200, name_of=older_ref_of) + pack(b"y" * 300)
    checks += [lambda cut=cut: lists_when_torn(program, many + last[:cut]) for cut in range(len(last) + 1)]
    schema = inputs.EXAMPLE + record(inputs.DELETE)
    cuts = chance("torn").sample(range(len(inputs.BEFORE_CLAIM), len(schema) + 1), 24)
    return checks + [lambda cut=cut: searched_when_torn(program, schema, cut) for cut in [len(inputs.EXAMPLE), *cuts]]


def survives(program, what, packs, blobs, seed):
    """All that salvage finds is returned, the next put goes to its proper pack, and a torn pack stays unchanged."""
    store = Store(program, packs)
    store.lists(what)
    store.gets(what, [name_of(blob) for blob in blobs for name_of in (ref_of, older_ref_of)])
    store.put(f"{what}, then a put", blobs[-1] if seed % 3 else b"new")
    if seed % 4 == 0:
        store.put(f"{what}, then another", b"newer")
        store.gets(f"{what}, then puts", [ref_of(b"newer"), ref_of(b"new")])
    store.lists(f"{what}, then puts")


def lists_when_torn(program, content):
    """Many blobs, and two more that are cut off after any of their bytes."""
    Store(program, {0: content}).lists(f"many blobs, {len(content)} bytes of them")


def searched_when_torn(program, schema, cut):
    store = Store(program, {0: schema[:cut]}, {"keyring": inputs.KEYRING})
    for what, at in [("torn schema blobs", None), ("torn schema blobs at their first day", "2020-01-01T12:00:00Z")]:
        archive = reference.archive_of_store(store.packs, inputs.KEYRING)
        check_search(store, archive, "tag", "a", at)
    store.put("a put behind torn schema blobs", inputs.CLAIM)
    check_search(store, reference.archive_of_store(store.packs, inputs.KEYRING), "tag", "a", None)


def flipped(program):
    """One bit of a pack turned over, in each of its bytes."""
    checks = []
    for name_of in (ref_of, older_ref_of):
        whole = pack(b"abc", b"", name_of=name_of)
        for at in range(len(whole)):
            damaged = bytearray(whole)
            damaged[at] ^= 1 << at % 8
            what, case = f"a flipped bit of {name_of(b'abc')} at {at}", ({0: bytes(damaged)}, (b"abc", b""), at)
            checks.append(lambda what=what, case=case: survives(program, what, *case))
    return checks


def damaged(program):
    """The damaged packs of the search tests, in turn as the last pack of a store and as one before it."""
    turns = zip(inputs.damaged_packs(), itertools.cycle(({}, {1: CLEAN})))
    cases = [(what, {0: source, **behind}) for (what, source, _), behind in turns]
    return [lambda case=case: put_beside(program, *case) for case in cases]


def put_beside(program, what, packs):
    store = Store(program, packs)
    store.lists(what)
    store.put(f"{what}, then a put", inputs.CLAIM)
    store.reads(f"{what}, then a put", "list", out=reference.listing(store.blobs()))
