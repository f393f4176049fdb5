"""Tests of the reader of logs, over bytes by a writer that shares no line with it (logs/writing.py).

The vectors are those of the two pages and of crates/data_tests/src/log_forms.rt. Prints each test that fails, and
ends with status 1 then.
"""
from logs.form import Entry, Header, Malformed, Wrong, front_of, read_description, read_header, read_log
from logs.history import same_worlds
from logs.words import entry
from logs.world import LAST_NUMBER, Phase, Row, Segment, Ticket, World, later_fault
from logs.writing import HASH, KINDS, MARK, ZEROS, created, ended, entry_bytes, event_form, form_bytes, header_bytes, left, opened
from logs.writing import SETTINGS, pubsub_form, rr_form, sealed, settings_bytes

LOCK_VECTOR = bytes.fromhex(
    "00000025 ffffffda 48de62d870bebddb 03 0000000000000002 101112131415161718191a1b1c1d1e1f20212223 0000000000000005"
)
MAKE_TAG_VECTOR = bytes.fromhex(
    "0000001d ffffffe2 232d9dbbf1d5b2e6 01 0000000000000001 101112131415161718191a1b1c1d1e1f20212223"
)
OPEN_VECTOR = bytes.fromhex(
    "0000002d ffffffd2 24ac5f125b9b9976 08 0102030405060708 101112131415161718191a1b1c1d1e1f20212223"
    "0000000000000005 0000000000000009"
)
PUBLISH_VECTOR = bytes.fromhex(
    "00000029 ffffffd6 2ace166e1477613e 07 0000000000000102 101112131415161718191a1b1c1d1e1f20212223"
    "0000000000000005 494f5832"
)
SPEND_VECTOR = bytes.fromhex(
    "00000025 ffffffda 64ae3c4ae1aa01b4 0a 0000000000000002 0000000000000000000000000000000000000000 0000000000000009"
)
MOVED_VECTOR = bytes.fromhex(
    "0000001d ffffffe2 0e5303137d02872b 0b 0000000000000000 0000000000000000000000000000000000000000"
)
HEADER_VECTOR = bytes.fromhex(
    "494f58324c4f47 02 202122232425262728292a2b2c2d2e2f 0000000000000102 0000000000000000 d401b45113382e8c"
)
SNAPSHOT_VECTOR = bytes.fromhex(
    "494f58324c4f47 02 202122232425262728292a2b2c2d2e2f 0000000000000000 0000000000000035 1e9c192e950b4db6"
)
FORM_VECTOR = bytes.fromhex(
    "494f5832 01" + "11" * 20 + "0001 61 0000 01"
    "0000000000000010 0000000000000010 00000000000000ff 0000000000000024 00000000"
)
DEADLINE_VECTOR = bytes.fromhex("01 0000000000000001 000001f4 0000000000000000 00000000")
OTHER = bytes([0x22]) * 20
KINDS_CREATED = ["make_tag", "lock", "make_segment", "publish"]


# ---- the tests


def snapshot_file(snapshot, entries=()):
    """A compacted log: its header, a snapshot of these entries, and others."""
    bytes_of = b"".join(snapshot)
    return header_bytes(snapshot_length=len(bytes_of)) + bytes_of + b"".join(entries)


def replayed(entries, counter=0):
    """The world that entries come to."""
    world = World(counter)
    for entry in read_log(header_bytes(counter=counter) + b"".join(entries)).entries:
        world.follow(entry)
    return world


def refusal(call):
    """What a call finds wrong."""
    try:
        call()
    except (Wrong, Malformed, ValueError) as error:
        return f"{error.at}: {error.why}" if isinstance(error, Wrong) else str(error)
    return "nothing"


class Tests:
    """Counts what passes, and prints what doesn't."""

    def __init__(self):
        self.passed = self.failed = 0

    def same(self, what, found, wanted):
        """The found is the wanted."""
        if found == wanted:
            self.passed += 1
        else:
            self.failed += 1
            print(f"{what}: found {found!r}, wanted {wanted!r}")

    def names(self, what, found, word):
        """The found text has the word."""
        self.same(f"{what}: {found}", word in found, True)


def test_vectors(tests):
    """The bytes of the pages are what the pages tell, and what the writer makes."""
    name = bytes(range(0x20, 0x30))
    found = bytes(range(0x10, 0x24))
    lock = Entry(0, 53, "lock", 2, found, number=5)
    for form, wanted in (
        (MAKE_TAG_VECTOR, Entry(0, 45, "make_tag", 1, found)),
        (OPEN_VECTOR, Entry(0, 61, "open_segment", 0x0102030405060708, found, number=5, ticket=9)),
        (PUBLISH_VECTOR, Entry(0, 57, "publish", 258, found, number=5, form=b"IOX2")),
        (SPEND_VECTOR, Entry(0, 53, "spend", 2, ZEROS, number=9)),
        (MOVED_VECTOR, Entry(0, 45, "moved", 0, ZEROS)),
    ):
        tests.same("a vector", front_of(form, 0), wanted)
    tests.same("the header's vector", read_header(HEADER_VECTOR), Header(name, 258, 0))
    tests.same("the header as it is written", header_bytes(name, 258), HEADER_VECTOR)
    tests.same("a compacted log's vector", read_header(SNAPSHOT_VECTOR), Header(name, 0, 53))
    tests.same("the same as it is written", header_bytes(name, 0, 53), SNAPSHOT_VECTOR)
    tests.same("spent numbers as they are written", entry_bytes("spend", 2, 9, found=ZEROS), SPEND_VECTOR)
    tests.same("the mark as it is written", MARK, MOVED_VECTOR)
    tests.same("the lock's vector", front_of(LOCK_VECTOR + b"more", 0), lock)
    tests.same("the lock as it is written", entry_bytes("lock", 2, 5, found=lock.hash), LOCK_VECTOR)
    tests.same("events as they are written", event_form(), FORM_VECTOR)
    found = read_description(FORM_VECTOR)
    tests.same("events", (found.pattern, found.name, found.max_nodes, found.creator), ("event", "a", 36, None))
    found = read_description(event_form(creator=7, attributes=(("b", "x"), ("b", "y")), deadline=DEADLINE_VECTOR))
    tests.same("a deadline", dict(found.settings)["deadline"], ((1, 500), (0, 0)))
    tests.same("attributes", (found.creator, found.attributes), (7, (("b", "x"), ("b", "y"))))
    named = event_form(deadline=((1, 500), (0, 0)))
    tests.same("a deadline by its name", named, event_form(deadline=DEADLINE_VECTOR))
    found = read_description(form_bytes(settings_bytes("event", notifier_dead_event=9, max_listeners=3)))
    wanted = {**SETTINGS["event"], "notifier_dead_event": 9, "max_listeners": 3}
    tests.same("settings by their names", dict(found.settings), wanted)
    tests.same("lengths", [len(pubsub_form()), len(pubsub_form(creator=1)), len(event_form(creator=7))], [167, 175, 75])
    found = read_description(pubsub_form(9))
    wanted = ("pubsub", 9, (True, "i64", 8, 8))
    tests.same("publish-subscribe", (found.pattern, found.max_nodes, found.types[2]), wanted)
    found = read_description(rr_form(3))
    tests.same("request-response", (found.pattern, found.max_nodes, len(found.types)), ("rr", 3, 6))


def test_words(tests):
    """Entries in words have the bytes of the pages, and those of the writer."""
    service = "101112131415161718191a1b1c1d1e1f20212223"
    types = "request_header=fixed,(),0,1 request_payload=fixed,Goal,16,8 response_header=fixed,(),0,1 response_payload=dynamic,u8,1,1"
    pairs = (("b", "x y"), ("b", "y\n"))
    timed = event_form(9, ((1, 500), (2, 0)), name="l m", creator=7, attributes=pairs)
    for line, wanted in (
        (f"node 1 makes tag {service}", MAKE_TAG_VECTOR),
        (f"node 2 locks {service} number=5", LOCK_VECTOR),
        (f"node 72623859790382856 opens {service} number=5 ticket=9", OPEN_VECTOR),
        ("node 2 spends numbers up to 9", SPEND_VECTOR),
        ("the log goes on in another file", MOVED_VECTOR),
        ("node 1 makes segment 11.. number=3 max_nodes=7", entry_bytes("make_segment", 1, 3, 7)),
        ("node 1 releases 22.. ticket=4 number=3", entry_bytes("release", 1, 4, 3, found=OTHER)),
        ("node 1 removes tag 22..", entry_bytes("remove_tag", 1, found=OTHER)),
        ("node 1 removes segment 11..", entry_bytes("remove_segment", 1)),
        ("node 1 removes description 11..", entry_bytes("remove_description", 1)),
        ("node 1 publishes event a 11.. number=3", entry_bytes("publish", 1, 3, FORM_VECTOR)),
        ("node 1 publishes no description 11.. number=3", entry_bytes("publish", 1, 3, b"")),
        (
            r"node 1 publishes event l\x20m 11.. number=3 creator=7 max_nodes=9 deadline=1,500 now=2,0"
            r" attribute=b:x\x20y attribute=b:y\n",
            entry_bytes("publish", 1, 3, timed),
        ),
        (
            "node 1 publishes pubsub a 11.. number=3 user_header=fixed,(),0,1 payload=dynamic,i64,8,8",
            entry_bytes("publish", 1, 3, pubsub_form()),
        ),
        (f"node 1 publishes rr a 11.. number=3 max_nodes=3 {types}", entry_bytes("publish", 1, 3, rr_form(3))),
    ):
        tests.same(line, entry(line), wanted)


def test_wrong_words(tests):
    """Lines that are no entries, by what is wrong."""
    for line, word in (
        ("node 1 make tag 11..", "no entry"),
        ("node 1 locks 11..", "it takes number"),
        ("node 1 locks 11.. number=1 ticket=2", "it takes number"),
        ("node 1 makes tag 1111", "2 bytes"),
        ("node 1 publishes event a 11.. number=1 history_size=2", "event has no history_size"),
    ):
        tests.names(line, refusal(lambda line=line: entry(line)), word)


def test_descriptions(tests):
    """Bytes that are nobody's form."""
    for form in (FORM_VECTOR, pubsub_form(creator=2), rr_form(attributes=(("k", "v"),))):
        for end in range(len(form)):
            tests.names(f"a front of {end} bytes", refusal(lambda end=end: read_description(form[:end])), "cut off")
        tests.names("a byte more", refusal(lambda: read_description(form + b"\x00")), "after the last part")
    many = tuple((f"{count:03}", "") for count in range(65))
    late = bytes.fromhex("01 0000000000000001 3b9aca00 0000000000000000 00000000")
    for form, word in (
        (b"IOX3" + FORM_VECTOR[4:], "magic"),
        (b"IOX2\x03" + FORM_VECTOR[5:], "version 3"),
        (event_form(name=""), "a text of 0 bytes"),
        (event_form(name="a" * 256), "a text of 256 bytes"),
        (FORM_VECTOR.replace(b"\x00\x01a", b"\x00\x01\xff"), "UTF-8"),
        (event_form(attributes=(("b", ""), ("a", ""))), "ascend"),
        (event_form(attributes=(("a", ""), ("a", ""))), "ascend"),
        (event_form(attributes=many), "65 attributes"),
        (form_bytes(b"\x04"), "pattern 4"),
        (event_form(deadline=b"\x02"), "the byte 2"),
        (event_form(deadline=late), "1000000000 nanoseconds"),
        (pubsub_form(payload=(True, "i64", 8, 3)), "an alignment of 3"),
    ):
        tests.names(word, refusal(lambda form=form: read_description(form)), word)


def test_headers(tests):
    """Bytes that are no header, by name."""
    changed = bytearray(HEADER_VECTOR)
    changed[30] ^= 1
    for data, word in (
        (b"", "0: is no log"),
        (HEADER_VECTOR[:7], "0: is no log"),
        (b"iOX2LOG\x02" + HEADER_VECTOR[8:], "0: is no log"),
        (b"IOX2LOG\x01" + HEADER_VECTOR[8:], "0: is a log of version 1"),
        (b"IOX2LOG\x03" + HEADER_VECTOR[8:], "0: is a log of version 3"),
        (HEADER_VECTOR[:8], "0: is damaged at byte 0"),
        (HEADER_VECTOR[:40], "0: is damaged at byte 0"),
        (HEADER_VECTOR[:47], "0: is damaged at byte 0"),
        (bytes(changed), "0: is damaged at byte 0"),
    ):
        tests.same("a header", refusal(lambda data=data: read_header(data)), word)


def test_ends(tests):
    """Each cut of an entry is torn, and so is a last one with a wrong sum; other bytes are damage."""
    first, last = entry_bytes("make_tag", 1), entry_bytes("lock", 1, 0)
    front = header_bytes() + first
    for end in range(1, len(last)):
        log = read_log(front + last[:end])
        tests.same(f"{end} bytes of an entry", (len(log.entries), log.whole, log.torn), (1, len(front), end))
    for place in range(8, len(last)):
        other = last[:place] + bytes([last[place] ^ 0x40]) + last[place + 1 :]
        log = read_log(front + other)
        tests.same(f"byte {place} of the last", (len(log.entries), log.torn), (1, len(last)))
        found = refusal(lambda other=other: read_log(front + other + first))
        tests.same(f"byte {place} before another", found, f"{len(front)}: is damaged at byte {len(front)}")
    damage = f"{len(front)}: is damaged at byte {len(front)}"
    unknown = sealed(b"\x0c" + bytes(28))
    longer = sealed(last[16:] + b"\x00")
    short, long = sealed(bytes(28)), sealed(bytes(1048577))
    ends = {"garbage": b"x" * 8, "a kind": unknown, "details": longer, "short": short, "long": long[:99]}
    for what, rest in ends.items():
        tests.same(what, refusal(lambda rest=rest: read_log(front + rest)), damage)
    tests.same("the longest", read_log(front + sealed(b"\x07" + bytes(1048575))).entries[1].form, bytes(1048539))


def test_compacted(tests):
    """A log that begins with a snapshot, and one that goes on in another file."""
    snapshot = [entry_bytes("spend", 0, 7, found=ZEROS), *created(number=7)]
    log = read_log(snapshot_file(snapshot, opened(2, 7, 8)))
    tests.same("a snapshot", ([entry.operation for entry in log.snapshot], len(log.entries)), (["spend", *KINDS_CREATED], 7))
    count = len(b"".join(snapshot))
    for wrong in (1, 52, 54, count - 1):
        data = header_bytes(snapshot_length=wrong) + b"".join(snapshot)
        tests.names("a snapshot's end", refusal(lambda data=data: read_log(data)), "within an entry")
    for rest in (b"", MARK, MARK[:9]):
        for number in range(len(snapshot)):
            front = header_bytes(snapshot_length=count) + b"".join(snapshot[:number])
            found = refusal(lambda data=front + rest: read_log(data))
            tests.same("a snapshot cut short", found, f"{len(front)}: is damaged at byte {len(front)}")
    front = header_bytes() + b"".join(created())
    log = read_log(front + MARK)
    tests.same("a mark", (len(log.entries), log.whole, log.torn, log.is_moved), (4, len(front), len(MARK), True))
    log = read_log(front + MARK[:-1])
    tests.same("a torn mark", (len(log.entries), log.torn, log.is_moved), (4, len(MARK) - 1, False))
    for rest in (b"\x00", MARK[:1], MARK, created()[0]):
        found = refusal(lambda rest=rest: read_log(front + MARK + rest))
        tests.same("more after a mark", found, f"{len(front)}: is damaged at byte {len(front)}")
    world = replayed(snapshot)
    tests.same("what was spent", (world.counter, world.rows[HASH].number, world.tickets[7].node), (8, 7, 1))
    tests.same("none spent", replayed([entry_bytes("spend", 3, 0)]).counter, 0)
    last = replayed([entry_bytes("spend", 3, LAST_NUMBER)])
    tests.same("all spent", (last.counter, last.disagreement()), (LAST_NUMBER, None))


def test_same(tests):
    """A snapshot that comes to what stood, and those that don't, each by what differs."""
    history = created() + opened(2, 0, 1) + [entry_bytes("open_segment", 2, 0, 2)] + left(1, 0, 0)
    stood = replayed([*history, entry_bytes("release", 2, 1, 0)])
    opening, spent = opened(2, 0, 2), entry_bytes("spend", 0, 2, found=ZEROS)
    make, lock, segment, publish = created()
    release = entry_bytes("release", 1, 0, 0)
    whole = [lock, segment, publish, spent, *opening, release]
    tests.same("a snapshot", same_worlds(stood, replayed(whole)), None)
    for entries, word in (
        ([*whole, make], "tags: "),
        ([lock, segment, publish, spent, opening[1], release], "tags: "),
        ([*whole, entry_bytes("spend", 0, 4, found=ZEROS)], "counter: "),
        ([lock, segment, publish, spent, *opening], "segments: "),
        ([lock, segment, publish, *opened(2, 0, 1), spent, release], "tickets: "),
        ([lock, entry_bytes("make_segment", 1, 0, 9), created(form=event_form(9))[3]], "rows: "),
        ([lock], "rows: "),
    ):
        tests.names("another snapshot", same_worlds(stood, replayed(entries)) or "nothing", word)


def test_worlds(tests):
    """What creates, opens and closes come to: the nine accesses."""
    world = replayed(created())
    tests.same("a create", world.listing(), [f"event a {HASH.hex()} number=0 nodes=1/36", "1 services"])
    tests.same("its creator", (world.left_by(1), world.counter), ((1, 1, 1), 1))
    both = created() + opened(2, 0, 1) + [entry_bytes("open_segment", 2, 0, 2)]
    world = replayed(both)
    tests.same("two opens", (world.left_by(2), world.counter, world.phases[2, HASH].count), ((2, 1, 1), 3, 2))
    world = replayed(both + left(1, 0, 0) + [entry_bytes("release", 2, 1, 0)])
    tests.same("a close", world.listing(), [f"event a {HASH.hex()} number=0 nodes=1/36", "1 services"])
    tests.same("who stays", (world.left_by(1), world.left_by(2)), ((0, 0, 0), (1, 1, 1)))
    marked = created() + [entry_bytes("release", 1, 0, 0)]
    tests.same("a marked segment", replayed(marked).segments[HASH], Segment(0, 36, frozenset(), True))
    world = replayed(created() + ended(1, 0, 0))
    tests.same("the last close", (world.rows, world.segments, world.phases), ({}, {}, {}))
    tests.same("what is left", (world.tags, world.tickets), (set(), {}))
    again = created(number=7) + ended(1, 7, 7) + created(2, 8, pubsub_form(5, found=OTHER, name="b"), OTHER, 5)
    world = replayed(again, counter=7)
    tests.same("another", world.listing()[0], f"pubsub b {OTHER.hex()} number=8 nodes=1/5")
    removals = [entry_bytes(operation, 1) for operation in ("remove_segment", "remove_description", "remove_tag")]
    nothing = "0 published, 0 locked, 0 segments (0 marked), 0 tickets, 0 tags, counter 1, 0 entries without effect"
    tests.same("what is given back", replayed(created()[:3] + removals).counts(), nothing)


def test_refusals(tests):
    """Entries that the world doesn't grant, each with its byte."""
    make, lock, segment, publish = created(max_nodes=1)
    service = created(max_nodes=1, form=event_form(1))
    marked = service + [entry_bytes("release", 1, 0, 0)]
    for before, entry, word in (
        ([make], make, "the tag is there"),
        ([lock], lock, "there is a row"),
        ([lock], entry_bytes("lock", 2, 1), "there is a row"),
        ([], entry_bytes("lock", 1, 1), "the counter 0"),
        ([], segment, "the node is at None"),
        ([lock], entry_bytes("make_segment", 1, 0, 0), "for no node"),
        ([lock], entry_bytes("make_segment", 1, 1, 1), "the node is at"),
        ([lock, segment], entry_bytes("publish", 1, 0, b"IOX2"), "no description"),
        ([lock, segment], entry_bytes("publish", 1, 0, event_form(2)), "for other nodes"),
        ([lock, segment], entry_bytes("publish", 1, 0, event_form(1, found=OTHER)), "another hash"),
        ([lock, segment], entry_bytes("publish", 2, 0, event_form(1)), "the node is at None"),
        ([], entry_bytes("remove_segment", 1), "the node is at None"),
        (service, entry_bytes("remove_description", 1), "the node is at"),
        (service, opened(2, 0, 1)[1], "no room"),
        (service, opened(2, 3, 1)[1], "the segment is of number 0"),
        (created(), opened(2, 0, 2)[1], "the counter 1"),
        (marked, opened(2, 0, 1)[1], "marked"),
        ([], opened(2, 0, 0)[1], "there is no segment"),
        (service, entry_bytes("release", 2, 0, 0), "the ticket is of"),
        (service, entry_bytes("release", 1, 1, 0), "the ticket is of None"),
        (marked, entry_bytes("release", 1, 0, 0), "the ticket is of None"),
        (marked, entry_bytes("lock", 2, 1), "there is a row"),
        (service, entry_bytes("spend", 1, 5), "there is a row"),
        (service, entry_bytes("spend", 9, 5), "there is a row"),
        (service, entry_bytes("spend", 9, 0, found=OTHER), "the counter 1"),
        ([lock], entry_bytes("spend", 2, 4), "there is a row"),
        ([entry_bytes("spend", 9, LAST_NUMBER)], entry_bytes("lock", 1, LAST_NUMBER), "no number is left"),
    ):
        at = len(header_bytes()) + sum(map(len, before))
        found = refusal(lambda before=before, entry=entry: replayed([*before, entry]))
        tests.same("the refusal's byte", found.split(":")[0], str(at))
        tests.names("a refusal", found, word)


def test_disagreements(tests):
    """Worlds that don't agree, each for one reason, which no entries come to."""
    service = created() + opened(2, 0, 1)
    stays = frozenset([1, 2])
    for change, word in (
        (lambda world: setattr(world, "counter", 0), "below the counter"),
        (lambda world: world.rows.pop(HASH), "and the row is None"),
        (lambda world: world.rows.update({HASH: Row(0)}), "nobody holds the lock"),
        (lambda world: world.rows.update({OTHER: Row(0)}), "nobody holds the lock"),
        (lambda world: world.rows.update({HASH: Row(0, b"IOX2")}), "no description"),
        (lambda world: world.rows.update({HASH: Row(0, event_form(found=OTHER))}), "the description is of"),
        (lambda world: world.rows.update({HASH: Row(0, event_form(1))}), "the service for 1"),
        (lambda world: world.segments.update({HASH: Segment(0, 36, stays, True)}), "there is"),
        (lambda world: world.segments.update({HASH: Segment(0, 36, stays | {3})}), "node 3 is in the segment"),
        (lambda world: world.segments.update({HASH: Segment(1, 36, stays)}), "there is"),
        (lambda world: world.segments.pop(HASH), "there is None"),
        (lambda world: world.phases.update({(3, HASH): Phase("Locked", 0)}), "holds the lock"),
        (lambda world: world.phases.update({(3, HASH): Phase("Leaving", 0)}), "was the last"),
        (lambda world: world.phases.update({(3, HASH): Phase("Cleared", 0)}), "has removed the segment"),
        (lambda world: world.phases.update({(1, HASH): Phase("Joined", 0, 2)}), "has 1 tickets"),
        (lambda world: world.phases.update({(1, HASH): Phase("Joined", 0, 0)}), "joined 0 times"),
        (lambda world: world.phases.pop((1, HASH)), "in the segment, and at None"),
        (lambda world: world.tickets.pop(1), "has 0 tickets"),
        (lambda world: world.tickets.update({1: Ticket(2, HASH, 1)}), "of number 1"),
        (lambda world: world.tickets.update({5: Ticket(2, HASH, 0)}), "isn't below"),
    ):
        world = replayed(service)
        tests.same("before", world.disagreement(), None)
        change(world)
        tests.names("a disagreement", world.disagreement() or "none", word)
    world = replayed([entry_bytes("lock", 1, 0), entry_bytes("lock", 1, 1, found=OTHER)])
    world.rows[OTHER], world.phases[1, OTHER] = Row(0), Phase("Locked", 0)
    tests.names("two locks of one number", world.disagreement(), "2 locks")
    for before, after, wanted in (
        (None, Row(5), None),
        (Row(3), Row(3, b"form"), None),
        (None, Row(3), "the number 3 comes anew"),
        (Row(2), Row(3), "the number 3 comes anew"),
        (Row(3, b"form"), Row(3), "what was published under 3 has changed"),
        (Row(3, b"form"), Row(3, b"other"), "what was published under 3 has changed"),
    ):
        tests.same("a later row", later_fault(before, after, 5), wanted)


def main():
    """Runs all tests."""
    tests = Tests()
    for test in (test_vectors, test_words, test_wrong_words, test_descriptions, test_headers, test_ends, test_compacted, test_same):
        test(tests)
    for test in (test_worlds, test_refusals, test_disagreements):
        test(tests)
    print(f"tools/log_reader.py: {tests.passed} passed, {tests.failed} failed")
    return 1 if tests.failed else 0
