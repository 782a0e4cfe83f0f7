"""The tests of notes.sh for `multi` alone: which lists it accepts, the claim that it puts, the searches then, and what
it refuses, in which order.
"""

import os

import inputs
import reference
import strict_json
import writing
from harness import check, compare, compare_ending, with_broken_source, with_streams
from inputs import LISTS, NODE, day
from note_stores import DATE, OTHERS, Notes, list_text
from reference import MOST_CHANGES, older_ref_of, ref_of
from refused_alike import SOURCE
from stores import ABC, NOWHERE, Store, look
from writing import pack

# docs/commands.md, "multi"
LONGEST_LIST = 1_048_576
KEY, NONE = "--key=jefe", "--key=none"
# The text of a date that has the most digits.
LONGEST_DATE = "2020-01-01T00:00:00.123456789Z"


# Lists

def lists(program):
    """Each list of inputs.py, and more, as standard input: its changes are put, or it is refused and nothing is
    touched."""
    store = Notes(program, {0: pack(b"abc")})
    nowhere = Notes(program)
    bad = [text for text, reads in LISTS if reads is False] + NO_LISTS
    good = [text for text, reads in LISTS if reads is not False] + ODD_LISTS
    checks = [lambda text=text: is_refused(store, text) for text in bad]
    return checks + [lambda: are_put(nowhere, good)]


# Texts that aren't lists of changes.
NO_LISTS = ["", " ", "[", "]", "[]]", "nul", "\0", "\ufeff[" + inputs.CHANGE + "]", inputs.CHANGE + "\n" + inputs.CHANGE]
NO_LISTS += [f"[{inputs.CHANGE},]", f"[{inputs.CHANGE}", f"[{inputs.CHANGE}] x", f"[{inputs.CHANGE}][{inputs.CHANGE}]"]
NO_LISTS += [f"[{inputs.CHANGE} {inputs.CHANGE}]", f"[{inputs.CHANGE}]\x0b", f'{{"changes":[{inputs.CHANGE}]}}']
NO_LISTS += [f'[{inputs.CHANGE[:-1]},"n":1e400}}]', f'[{inputs.CHANGE[:-1]},"n":"\\ud800"}}]']
NO_LISTS += [f'[{inputs.CHANGE[:-1]},"n":{"[" * 126}{"]" * 126}}}]']
# Lists in other forms than the program's own.
ODD_LISTS = [f"\r\n\t [\n{inputs.CHANGE}\n]\n\n", f'[{inputs.CHANGE[:-1]},"n":{"[" * 125}{"]" * 125}}}]']
ODD_LISTS += [f'[{{"value":"b","attribute":"tag","n":0.5,"permaNode":"{ABC}","changeType":"add-attribute"}}]']
ODD_LISTS += [f'[{{"changeType":"set-attribute","permaNode":"{ABC}","attribute":"\\u00e4\\/\\n","value":"\\ud83d\\ude00"}}]']
ODD_LISTS += [f'[{{"changeType":"del-attribute","permaNode":"{older_ref_of(NODE)}","attribute":"tag","value":""}}]']


def is_refused(store, text):
    """A text that isn't a list: status 4, and nothing is touched."""
    what, source = f"the list {text[:90]!r}", writing.octets(text)
    compare(what, "the reference", None, changes_in(source))
    store.keeps(what, store.words("multi", KEY), status=4, source=source)


def are_put(store, texts):
    for text in texts:
        source = writing.octets(text)
        changes = changes_in(source)
        check(f"{text[:90]!r}: no list by the reference", changes)
        store.multi(f"the list {text[:90]!r}", changes, source)


def changes_in(source):
    """The changes that a text lists, in the form of writing.py; None if it isn't a list."""
    try:
        changes = reference.change_list(strict_json.read(source))
    except strict_json.Unread:
        return None
    return changes and [(act.removesuffix("-attribute"), *rest) for act, *rest in changes]


def not_text(program):
    """Bytes that aren't UTF-8."""
    store = Store(program, {0: pack(b"abc")}, OTHERS)
    sources = [b"\xff", f"[{inputs.CHANGE}]".encode().replace(b'"b"', b'"\xff"')]
    return [
        lambda source=source: store.keeps(f"the list {source[-9:]}", store.words("multi", KEY), status=4, source=source)
        for source in sources
    ]


# Lengths

def lengths(program):
    """The most changes, and one more; the longest input, and one byte more; the longest claim, and a longer one."""
    one = ("add", NOWHERE, "tag", "a")
    counts = [lambda count=count: has_count(program, count, one) for count in (1, 2, MOST_CHANGES - 1, MOST_CHANGES)]
    counts += [lambda count=count: is_too_many(program, count, one) for count in (0, MOST_CHANGES + 1, 2 * MOST_CHANGES)]
    inputs_of = [lambda more=more: has_length(program, more) for more in (-1, 0, 1, 2, 70_000)]
    return counts + inputs_of + [lambda more=more: is_long(program, more) for more in (-1, 0, 1, 11)]


def has_count(program, count, change):
    store = Notes(program)
    ref = store.multi(f"{count} changes", [change] * count)
    compare(f"{count} changes", "what is read", count, len(reference.fact_of(store.blobs()[ref]).changes))


def is_too_many(program, count, change):
    store = Store(program, {0: pack(b"abc")}, OTHERS)
    store.keeps(f"{count} changes", store.words("multi", KEY), status=4, source=list_text([change] * count).encode())


def has_length(program, more):
    """A short list with white space, by so many bytes longer than the limit."""
    what, store = f"an input of {more} bytes above the limit", Notes(program, {0: pack(b"abc")})
    change = ("set", NOWHERE, "tag", "a")
    source = list_text([change]).encode().ljust(LONGEST_LIST + more)
    if more <= 0:
        store.multi(what, [change], source)
        return
    before, path = look(store.path), program.new_path()
    path.write_bytes(source)
    with open(path, "rb", buffering=0) as file:
        with_streams(program, what, store.words("multi", KEY), 4, source=file.fileno(), folder=program.working)
        compare(what, "what was read", LONGEST_LIST + 1, os.lseek(file.fileno(), 0, os.SEEK_CUR))
    compare(what, "the folder", before, look(store.path))


def is_long(program, more):
    """A claim that has so many bytes more than a schema blob may have, if its date has the most digits. The list itself
    isn't too long."""
    what, store = f"a claim of {more} bytes above the limit", Notes(program, {0: pack(b"abc")})
    changes = [("add", NOWHERE, "tag", "v"), ("set", NOWHERE, "title", "")]
    room = reference.LARGEST_SCHEMA_BLOB + more - len(writing.multi(changes, LONGEST_DATE))
    changes[0] = ("add", NOWHERE, "tag", "v" + "\1" * (room // 6) + "c" * (room % 6))
    source, line = list_text(changes).encode(), store.words("multi", KEY)
    compare(what, "length", reference.LARGEST_SCHEMA_BLOB + more, len(writing.multi(changes, LONGEST_DATE)))
    check(f"{what}: the list is too long", len(source) <= LONGEST_LIST)
    if more <= 0:
        store.multi(what, changes)
    elif more > len(LONGEST_DATE) - len("2020-01-01T00:00:00Z"):
        store.keeps(what, line, status=4, source=source)
    else:
        before = look(store.path)
        status, out, err = program.run(what, line, source)
        # If the moment that is drawn has a short text, the claim still fits.
        compare_ending(what, status and 4, status, err)
        if status == 0:
            store.noted(what, "jefe", DATE, lambda date: writing.multi_payload(changes, date), out)
        else:
            compare(what, "the folder", before, look(store.path))
            compare(what, "standard output", b"", out)


# Searches

def found(program):
    return [lambda one=one: one(program) for one in (by_one_claim, on_several, on_any)]


def tag(kind, value, on):
    return kind, on, "tag", value


def by_one_claim(program):
    """Changes of one permanode by one claim, after and before others, and what a deletion of it brings back."""
    what, store = "several changes", Notes(program)
    node = store.permanode(what)
    for changes, values in [
        ([tag("set", "a", node), tag("set", "b", node)], "b"),
        ([tag("add", "a", node), tag("add", "a", node), tag("del", "a", node), tag("add", "c", node)], "bc"),
        ([tag("del", "", node), tag("add", "a", node), ("del", node, "other", "")], "a"),
        ([tag("del", "c", node)], "a"),
        ([("add", node, "title", "a"), tag("set", "c", node), ("del", node, "title", "a")], "c"),
    ]:
        store.multi(f"{what}, {values}", changes)
        has(store, what, node, values)
    store.claim(what, "add", node, "tag", "b")
    has(store, what, node, "bc")
    last = store.multi(what, [tag("set", "a", node), tag("del", "a", node)])
    has(store, what, node, "")
    gone = store.delete(what, last)
    has(store, what, node, "bc")
    store.delete(what, gone)
    has(store, what, node, "")
    for moment, values in zip(store.moments, ["b", "bc", "a", "a", "c", "bc", "", "bc", ""], strict=True):
        has(store, f"{what}, at {moment}", node, values, moment)
    has(store, f"{what}, before all", node, "", store.moments[0] - 1)
    store.lists(what)


def has(store, what, node, values, at=None):
    for value in "abc":
        store.finds(what, [node] if value in values else [], "tag", value, at)


def on_several(program):
    """One claim on three permanodes; another one on two; deletions of both, and of these."""
    what, store = "one claim on several", Notes(program)
    nodes = [store.permanode(what) for _ in range(3)]
    first = store.multi(what, [tag("add", "a", node) for node in nodes] + [tag("add", "b", nodes[0])])
    second = store.multi(what, [tag("del", "a", nodes[0]), tag("set", "c", nodes[1])], key="other")
    gone = store.delete(what, first, "other")
    store.delete(what, second)
    store.delete(what, gone)
    rows = [
        (nodes, nodes[:1], []),
        (nodes[2:], nodes[:1], nodes[1:2]),
        ([], [], nodes[1:2]),
        ([], [], []),
        (nodes, nodes[:1], []),
    ]
    for moment, row in zip(store.moments, rows, strict=True):
        for value, holders in zip("abc", row):
            store.finds(f"{what}, at {moment}", holders, "tag", value, moment)
    for value, holders in zip("abc", rows[-1]):
        store.finds(what, holders, "tag", value)
    store.lists(what)


def on_any(program):
    """The targets of the changes needn't be there, nor be permanodes; a permanode under its older name is one."""
    what, node = "a claim on anything", writing.permanode(signer=older_ref_of(inputs.KEY))
    store = Notes(program, {0: pack(b"abc") + pack(inputs.KEY, node, name_of=older_ref_of)})
    ref = older_ref_of(node)
    refs = [NOWHERE, ABC, ref_of(inputs.KEY), inputs.OLDER_ABSENT, older_ref_of(b"abc"), ref, ref_of(node)]
    claim = store.multi(what, [tag("add", "a", on) for on in refs])
    store.finds(what, [ref], "tag", "a")
    compare(what, "what is read", refs, [change.on for change in reference.fact_of(store.blobs()[claim]).changes])


# Refusals, and the state then

def multi_streams(program):
    """Standard input that fails or isn't read, standard output that accepts nothing, and which error is reported
    first."""
    return [lambda one=one: one(program) for one in (input_fails, not_read, unsaid, first_of_all)]


def failing_store(program):
    store = Store(program, {0: b""}, OTHERS)
    (store.path / "pack-00001.blobs").mkdir()
    return store


def input_fails(program):
    store = Store(program, {0: pack(b"abc")}, OTHERS)
    line, before = store.words("multi", KEY), look(store.path)
    with_streams(program, "standard input is a folder", line, 5, source=program.folder, folder=program.working)
    with_streams(program, "standard input is closed", line, 5, closed=0, folder=program.working)
    for front in (b"", SOURCE, SOURCE[:20]):
        with_broken_source(program, f"standard input breaks off behind {front}", line, front, folder=program.working)
    compare("standard input fails", "the folder", before, look(store.path))


def not_read(program):
    """A line that is refused before reads nothing."""
    store, path = Store(program, {}, OTHERS), program.new_path()
    path.write_bytes(SOURCE)
    for line, status in [(["multi", KEY], 2), (store.words("multi", NONE), 4), (store.words("multi", "--key=Me"), 4)]:
        with open(path, "rb", buffering=0) as file:
            with_streams(program, f"{line}", line, status, source=file.fileno(), folder=program.working)
            compare(f"{line}", "what was read", 0, os.lseek(file.fileno(), 0, os.SEEK_CUR))


def unsaid(program):
    """The blobs that were put are kept if their ref can't be printed."""
    path = program.new_path()
    path.write_bytes(SOURCE)
    for what, stream in [("full", {"sink": "/dev/full"}), ("closed", {"closed": 1})]:
        store = Notes(program, {0: pack(b"abc")})
        told = f"multi, standard output is {what}"
        with_streams(program, told, store.words("multi", KEY), 6, source=path, folder=program.working, **stream)
        [_, ref] = list(reference.arrivals(reference.packs_of(store.files())))[1:]
        payload_of = lambda date: writing.multi_payload([("set", ABC, "tag", "a")], date)
        store.noted(told, "jefe", DATE, payload_of, ref.encode() + b"\n")


def first_of_all(program):
    """If several things are wrong, the first one is reported."""
    broken, unread = Store(program, {}, {"keyring": b"x"}), Store(program, {})
    (unread.path / "keyring").mkdir()
    failing, full = failing_store(program), Store(program, {99_999: b"x"}, OTHERS)
    sources = {"folder": program.folder}
    long = list_text([("add", NOWHERE, "tag", "\1" * 174_700)]).encode()
    for name, text in [("list", SOURCE), ("none", b"[]"), ("longer", SOURCE.ljust(LONGEST_LIST + 1)), ("long", long)]:
        sources[name] = program.new_path()
        sources[name].write_bytes(text)
    for what, line, status, source in [
        ("words before the keyring", broken.words("multi"), 2, "folder"),
        ("the keyring before the name", broken.words("multi", "--key=Me"), 4, "folder"),
        ("a keyring that is a folder before the name", unread.words("multi", "--key=Me"), 5, "list"),
        ("the name before the source", failing.words("multi", "--key=Me"), 4, "folder"),
        ("the key before the source", failing.words("multi", NONE), 4, "folder"),
        ("the source before the disk", failing.words("multi", KEY), 5, "folder"),
        ("a long input before the disk", failing.words("multi", KEY), 4, "longer"),
        ("no list before the disk", failing.words("multi", KEY), 4, "none"),
        ("the disk before the sink", failing.words("multi", KEY), 7, "list"),
        ("the disk before a long claim", failing.words("multi", KEY), 7, "long"),
        ("a long claim before a full store", full.words("multi", KEY), 4, "long"),
        ("a full store before the sink", full.words("multi", KEY), 9, "list"),
    ]:
        streams = {"source": sources[source], "sink": "/dev/full"}
        with_streams(program, f"{what}: multi", line, status, folder=program.working, **streams)


GROUPS, ONE_AT_A_TIME = [lists, not_text, lengths, found], [multi_streams]
