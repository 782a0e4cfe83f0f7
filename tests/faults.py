"""Calls to the kernel that fail, and the order of writes, syncs and prints (docs/store.md, "Crashes";
docs/commands.md, "Exit statuses").

First the calls of a put that succeeds are recorded; then the same put is run once for each of these calls, which fails.
Whatever fails, the earlier blobs are kept, a ref that was printed is found and was durable when it was printed, and the
next puts succeed.
"""

import os

import harness
import inputs
import reference
import serve_faults
from harness import check, compare, compare_ending
from reference import pack_name, ref_of
from stores import CLEAN, TORN, Store, lines_of
from tracing import CUTS, LISTS, LOCKS, LOOKS, MAKES, OPENS, READS, SYNCS, WRITES
from tracing import in_order, made_at, need_strace, places, trace, traced
from writing import pack, record

BLOB = bytes(range(256)) * 2
STORES = {
    "a new folder": None,
    "an empty folder": {},
    "a pack that stands": {0: CLEAN},
    "a torn pack": {0: TORN},
    "several packs": {0: pack(b"one"), 2: TORN, 3: pack(b"two", b"three")},
}


# The order of syncs

def syncs(program):
    """The order in which the program writes, syncs and prints. A killed program can't show it: the kernel still
    writes."""
    need_strace(program)
    orders = [lambda what=what: put_is_synced(program, what) for what in STORES]
    others = (readers_sync, each_byte_is_read_once, salvage_syncs_nothing)
    return orders + [lambda check=check: check(program) for check in others]


def put_is_synced(program, what):
    store = Store(program, STORES[what])
    before = store.packs
    store.packs = reference.put(before, BLOB)
    calls = traced(program, what, store.words("put"), BLOB)
    store.check_files(what)
    number = reference.pack_for_the_next_record(before)
    is_durable_when_printed(what, calls, store.path, number, before, STORES[what] is None)


def is_durable_when_printed(what, calls, folder, number, packs, is_new):
    """The record is synced by the file to which it was written, after its last write and before the ref is printed; so
    are the names of a new pack and of a new folder."""
    path = folder / pack_name(number)
    printed = places(calls, WRITES, file=1)[0]
    written = [place for place in places(calls, WRITES, path) if place < printed]
    check(f"{what}: nothing is written to {path.name} before the ref is printed", written)
    file = calls[written[-1]].file
    closed = [place for place in places(calls, ("close",), path, file) if place > written[-1]]
    in_order(what, "the record's sync", written[-1], places(calls, SYNCS, path, file), min([printed, *closed]))
    late = [place for place in places(calls, WRITES, path) if place > printed]
    compare(what, f"writes to {path.name} after the print", [], late)
    if number not in packs:
        made = made_at(what, calls, OPENS, path, "O_CREAT")
        in_order(what, "the sync of the folder", made, places(calls, SYNCS, folder) + spelled(calls, folder), printed)
    if is_new:
        made = made_at(what, calls, MAKES, folder)
        in_order(what, "the sync of the folder above", made, places(calls, SYNCS, folder.parent), printed)


def spelled(calls, folder):
    """The places of the syncs of a folder whose path strace prints with a slash after it."""
    return places(calls, SYNCS, f"{folder}/")


def readers_sync(program):
    """Opening syncs every pack, even torn ones, before it is read, and writes to none."""
    store = Store(program, {0: pack(b"abc"), 3: TORN, 4: b""})
    for command in ("put", "get", "stat", "list", "search", "words"):
        calls = traced(program, command, lines_of(store.path)[command], b"abc")
        for path in (store.path / pack_name(number) for number in store.packs):
            first_read = min(places(calls, READS, path) + places(calls, WRITES, file=1))
            in_order(command, f"the sync of {path.name}", -1, places(calls, SYNCS, path), first_read)
            compare(command, f"writes to {path.name}", [], places(calls, WRITES, path))


def each_byte_is_read_once(program):
    """A listing and the searches read each pack whole, once, in pieces: no part of a blob is read a second time."""
    blobs = [bytes([number]) * (number * 40_000) for number in range(5)]
    packs = {0: pack(*blobs), 3: inputs.EXAMPLE + record(inputs.DELETE), 4: pack(b"abc")[:-1]}
    store = Store(program, packs, {"keyring": inputs.KEYRING})
    query = b'{"constraint":{"permanode":{"attr":"tag","value":"a"}}}'
    searches = [store.words("search", "--attr", "tag", "--value", "a"), store.words("words", "tag:a")]
    for words, source in [(store.words("list"), b""), *((line, b"") for line in searches), (store.words("query"), query)]:
        calls = traced(program, words[0], words, source)
        for number, content in packs.items():
            got = [result_of(calls[place]) for place in places(calls, READS, store.path / pack_name(number))]
            compare(words[0], f"bytes that are read of pack {number}", len(content), sum(got))
            check(f"{words[0]}: a read of {max(got)} bytes", max(got) <= 8_388_608)


def result_of(call):
    return int(call.words.rpartition(" = ")[2].split()[0])


def salvage_syncs_nothing(program):
    store = Store(program, {0: pack(b"abc"), 3: TORN})
    calls = traced(program, "salvage", store.words("salvage"))
    compare("salvage", "syncs", [], places(calls, SYNCS))


# Calls that fail

CHANGING = OPENS + MAKES + WRITES + SYNCS + CUTS
FAILING = CHANGING + READS + LOCKS + LISTS + LOOKS


def failing(program):
    """Each call of a put in turn fails, once; the writes and syncs also from there on, so that their result can't be
    cut back."""
    need_strace(program)
    return [check for what in STORES for check in failing_calls(program, what)]


def failing_calls(program, what):
    store = Store(program, STORES[what])
    calls = traced(program, what, store.words("put"), BLOB)
    checks = []
    for call in own_calls(calls, store.path):
        where = os.path.relpath(call.path, store.path) if call.path.startswith("/") else call.path
        checks += [
            lambda call=call, fault=fault, where=where: put_fails(program, what, call, fault, where)
            for fault in faults_of(call)
        ]
    check(f"{what}: only {len(checks)} calls to make fail", len(checks) >= 10)
    return checks


def faults_of(call):
    """The faults, in strace's notation, to try on a call."""
    if call.name not in FAILING:
        return []
    faults = [(f"{call.name}:error=EIO:when={call.number}",)]
    if call.name in CHANGING:
        faults.append((f"{call.name}:error=ENOSPC:when={call.number}",))
    if call.name in WRITES + SYNCS:
        faults.append((f"{call.name}:error=EIO:when={call.number}+",))
        faults.append((f"{call.name}:error=ENOSPC:when={call.number}", *(f"{name}:error=EIO" for name in CUTS)))
    return faults


def own_calls(calls, folder):
    """The calls after those of the loader, from the first one on that concerns the store or standard input."""
    first = next(place for place, call in enumerate(calls) if call.path.startswith(str(folder)) or call.file == 0)
    return calls[first:]


def put_fails(program, what, call, fault, where):
    """A put with a call that fails: how it ends, the state then, and that the next puts succeed."""
    store = Store(program, STORES[what])
    told = f"{what}, {' and '.join(fault)} ({where or 'no path'})"
    before = dict(store.packs)
    status, out, calls = ends_with_fault(told, store, store.words("put"), BLOB, call, fault)
    compare(told, "standard output", ref_of(BLOB).encode() + b"\n" if status == 0 else b"", out)
    if status == 0:
        number = reference.pack_for_the_next_record(before)
        is_durable_when_printed(told, calls, store.path, number, before, STORES[what] is None)
    if status in (0, 6):
        compare(told, "the blob", BLOB, store.blobs().get(ref_of(BLOB)))
    goes_on(told, store, before)


def ends_with_fault(what, store, words, source, call, fault):
    """Runs the program with a call that fails; returns its status, output and calls. The earlier blobs are kept."""
    before = dict(store.packs)
    status, out, err, calls = trace(store.program, words, source, fault)
    check(f"{what}: no call failed", any(one.is_injected() for one in calls))
    expected = status if status in statuses_for(call) else statuses_for(call)[0]
    # If all writes fail, the program can't report its status.
    told = err or harness.told_of(expected) if fault[0].startswith("write") else err
    compare_ending(what, expected, status, told)
    store.packs = reference.packs_of(store.files())
    stands(what, before, store.packs)
    return status, out, calls


def statuses_for(call):
    """The statuses with which a put may end if a call fails: the likely one, and 0 if the call isn't needed."""
    if call.file == 0 or call.path.endswith("/keyring"):
        return (5, 0)
    return (6, 0) if call.file == 1 else (7, 0)


def stands(what, before, packs):
    """The earlier packs are there with their bytes, and at most one has more than it had, or is new."""
    for number, content in before.items():
        compare(what, f"what stood in pack {number}", content, packs.get(number, b"")[: len(content)])
    lengths = {number: len(content) for number, content in before.items()}
    grown = [number for number, content in packs.items() if len(content) > lengths.get(number, -1)]
    check(f"{what}: packs {grown} have grown", len(grown) <= 1)


def goes_on(what, store, before):
    """The same blob and another one can then be put, and all are found."""
    known = {**reference.arrivals(before)}
    for blob in (BLOB, b"another blob"):
        store.program.check(f"{what}, the put after it", store.words("put"), ref_of(blob).encode() + b"\n", source=blob)
        known[ref_of(blob)] = blob
    store.packs = reference.packs_of(store.files())
    stands_all = store.blobs()
    for ref, blob in known.items():
        compare(what, f"{ref} in the packs", blob, stands_all.get(ref))
        store.program.check(f"{what}, a get after it", store.words("get", ref), blob)
    store.reads(f"{what}, a list after it", "list", out=reference.listing(stands_all))


if __name__ == "__main__":
    harness.main("faults.sh", [syncs, failing, serve_faults.under_clients])
