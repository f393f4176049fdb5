"""The bytes of a log's file: its header, its entries, what stands after the last of them, and descriptions.

Made from docs/LOG_FORM.md and docs/BYTE_FORM.md alone, as a second reader beside iceoryx2_file_log, iceoryx2_log and
iceoryx2_data.
"""
import hashlib
from dataclasses import dataclass
from functools import lru_cache

# Of a file: what stands before the entries.
MAGIC = b"IOX2LOG"
VERSION = 2
FILE_HEADER_LENGTH = 48
NAME_LENGTH = 16
# Of an entry.
HEADER_LENGTH = 8
SUM_LENGTH = 8
HASH_LENGTH = 20
SHORTEST_BODY = 29
LONGEST_BODY = 1048576
OPERATIONS = {
    1: ("make_tag", ()),
    2: ("remove_tag", ()),
    3: ("lock", ("number",)),
    4: ("make_segment", ("number", "max_nodes")),
    5: ("remove_segment", ()),
    6: ("remove_description", ()),
    7: ("publish", ("number", "form")),
    8: ("open_segment", ("number", "ticket")),
    9: ("release", ("ticket", "number")),
    10: ("spend", ("number",)),
    11: ("moved", ()),
}
# The operation of no access: the log goes on in another file.
MOVED = "moved"
# Of a description.
FORM_MAGIC = b"IOX2"
MOST_ATTRIBUTES = 64
SETTINGS = {
    1: (
        "event",
        "max_notifiers max_listeners event_id_max_value max_nodes",
        "notifier_created_event notifier_dropped_event notifier_dead_event",
    ),
    2: (
        "pubsub",
        "max_publishers max_subscribers subscriber_max_buffer_size history_size subscriber_max_borrowed_samples",
        "enable_safe_overflow max_nodes",
    ),
    3: (
        "rr",
        "enable_safe_overflow_for_requests enable_safe_overflow_for_responses enable_fire_and_forget_requests",
        "max_active_requests_per_client max_loaned_requests max_borrowed_responses_per_pending_response"
        " max_response_buffer_size max_servers max_clients max_nodes",
    ),
}


class Wrong(Exception):
    """What is wrong in a file, in the words of the program, and the byte at which it begins."""

    def __init__(self, at, why):
        super().__init__(why)
        self.at, self.why = at, why


class Malformed(Exception):
    """Why bytes are the form of nothing."""


class Parts:
    """Bytes that are taken apart from the left."""

    def __init__(self, data):
        self.data, self.at = data, 0

    def take(self, count):
        """So many bytes."""
        if len(self.data) - self.at < count:
            raise Malformed("a part is cut off")
        self.at += count
        return self.data[self.at - count : self.at]

    def number(self, count=8):
        """A number of so many bytes."""
        return int.from_bytes(self.take(count), "big")

    def rest(self):
        """All that is left."""
        return self.take(len(self.data) - self.at)

    def end(self):
        """Nothing may be left."""
        if self.at != len(self.data):
            raise Malformed("something stands after the last part")

    def text(self, least, most):
        """A text of so many bytes."""
        count = self.number(2)
        if not least <= count <= most:
            raise Malformed(f"a text of {count} bytes")
        try:
            return self.take(count).decode()
        except UnicodeDecodeError:
            raise Malformed("a text that is no UTF-8") from None

    def one_of(self, limit):
        """A byte below the limit."""
        found = self.number(1)
        if found >= limit:
            raise Malformed(f"the byte {found} where {limit - 1} is the last")
        return found

    def truth(self):
        """A truth value."""
        return bool(self.one_of(2))

    def option(self, part):
        """The part, or nothing."""
        return part() if self.one_of(2) else None

    def span(self):
        """Seconds and nanoseconds."""
        seconds, nanoseconds = self.number(), self.number(4)
        if nanoseconds >= 10**9:
            raise Malformed(f"{nanoseconds} nanoseconds")
        return seconds, nanoseconds

    def type(self):
        """A type: whether it is a number of values, its name, size and alignment."""
        found = self.truth(), self.text(1, 256), self.number(), self.number()
        if found[3].bit_count() != 1:
            raise Malformed(f"an alignment of {found[3]}")
        return found


# ---- descriptions


@dataclass(frozen=True)
class Description:
    """What nodes that share a service agree on."""

    creator: int | None
    hash: bytes
    name: str
    attributes: tuple
    pattern: str
    settings: tuple
    types: tuple

    @property
    def max_nodes(self):
        """For how many nodes the service is."""
        return dict(self.settings)["max_nodes"]


def read_attributes(parts):
    """Pairs of key and value, strictly ascending."""
    count = parts.number(2)
    if count > MOST_ATTRIBUTES:
        raise Malformed(f"{count} attributes")
    pairs = tuple((parts.text(1, 64), parts.text(0, 256)) for _ in range(count))
    keys = [(key.encode(), value.encode()) for key, value in pairs]
    if any(not one < other for one, other in zip(keys, keys[1:])):
        raise Malformed("attributes that don't ascend")
    return pairs


def read_settings(parts, kind):
    """The name of the pattern and its settings, in order."""
    pattern, first, last = SETTINGS[kind]
    settings = []
    for name in f"{first} {last}".split():
        if name.startswith("enable_"):
            settings.append((name, parts.truth()))
        elif name.startswith("notifier_"):
            settings.append((name, parts.option(parts.number)))
        else:
            settings.append((name, parts.number()))
    if pattern == "event":
        settings.append(("deadline", parts.option(lambda: (parts.span(), parts.span()))))
    return pattern, tuple(settings)


@lru_cache(maxsize=4096)
def read_description(form):
    """The description whose byte form the bytes are."""
    parts = Parts(form)
    if parts.take(4) != FORM_MAGIC:
        raise Malformed("another magic")
    version = parts.number(1)
    if version not in (1, 2):
        raise Malformed(f"version {version}")
    creator = parts.number() if version == 2 else None
    service_hash = parts.take(HASH_LENGTH)
    name = parts.text(1, 255)
    attributes = read_attributes(parts)
    kind = parts.number(1)
    if kind not in SETTINGS:
        raise Malformed(f"pattern {kind}")
    pattern, settings = read_settings(parts, kind)
    types = tuple(parts.type() for _ in range(3 * (kind - 1)))
    parts.end()
    return Description(creator, service_hash, name, attributes, pattern, settings, types)


# ---- entries


@dataclass(frozen=True)
class Entry:
    """An access that had an effect, and where it stands in the file."""

    at: int
    count: int
    operation: str
    node: int
    hash: bytes
    number: int | None = None
    ticket: int | None = None
    max_nodes: int | None = None
    form: bytes | None = None

    @property
    def end(self):
        """The byte after it."""
        return self.at + self.count

    @property
    def ticket_taken(self):
        """The ticket that its node has by it; nothing where it takes none."""
        return {"publish": self.number, "open_segment": self.ticket}.get(self.operation)

    def line(self):
        """The entry as a line."""
        words = [f"{self.at}: node {self.node} {self.operation} {self.hash.hex()}"]
        for name in ("number", "ticket", "max_nodes"):
            if getattr(self, name) is not None:
                words.append(f"{name}={getattr(self, name)}")
        if self.form is not None:
            words.append(f"({len(self.form)} bytes)")
        return " ".join(words)


def announced_length(data, at):
    """The length of the body that stands there with its complement, or nothing where they don't fit."""
    length = int.from_bytes(data[at : at + 4], "big")
    inverted = int.from_bytes(data[at + 4 : at + 8], "big")
    if length ^ inverted != 0xFFFFFFFF or not SHORTEST_BODY <= length <= LONGEST_BODY:
        return None
    return length


def read_body(body, at):
    """The entry of a body whose sum is right."""
    parts = Parts(body)
    kind = parts.number(1)
    if kind not in OPERATIONS:
        raise Malformed(f"kind {kind}")
    operation, details = OPERATIONS[kind]
    node, service_hash = parts.number(), parts.take(HASH_LENGTH)
    found = {name: parts.rest() if name == "form" else parts.number() for name in details}
    parts.end()
    return Entry(at, HEADER_LENGTH + SUM_LENGTH + len(body), operation, node, service_hash, **found)


def front_of(data, at):
    """What stands there: an entry, or `torn`, which the next writer cuts off, or nothing at the end of the file."""
    left = len(data) - at
    if left == 0:
        return None
    if left < HEADER_LENGTH:
        return "torn"
    length = announced_length(data, at)
    if length is None:
        raise Wrong(at, f"is damaged at byte {at}")
    if left < HEADER_LENGTH + SUM_LENGTH + length:
        return "torn"
    begin = at + HEADER_LENGTH + SUM_LENGTH
    body = data[begin : begin + length]
    if hashlib.sha1(data[at : at + 4] + body).digest()[:SUM_LENGTH] != data[at + HEADER_LENGTH : begin]:
        if begin + length == len(data):
            return "torn"
        raise Wrong(at, f"is damaged at byte {at}")
    try:
        return read_body(body, at)
    except Malformed:
        raise Wrong(at, f"is damaged at byte {at}") from None


# ---- files


@dataclass(frozen=True)
class Header:
    """What stands before the entries: the log's name, with which number its counter begins, and how many bytes of
    entries are a snapshot."""

    name: bytes
    counter: int
    snapshot_length: int = 0

    @property
    def snapshot_end(self):
        """The byte after the snapshot."""
        return FILE_HEADER_LENGTH + self.snapshot_length


def read_header(data):
    """The header of a file."""
    if data[: len(MAGIC)] != MAGIC or len(data) == len(MAGIC):
        raise Wrong(0, "is no log")
    if data[len(MAGIC)] != VERSION:
        raise Wrong(0, f"is a log of version {data[len(MAGIC)]}")
    summed, total = data[: FILE_HEADER_LENGTH - SUM_LENGTH], data[FILE_HEADER_LENGTH - SUM_LENGTH : FILE_HEADER_LENGTH]
    if len(data) < FILE_HEADER_LENGTH or hashlib.sha1(summed).digest()[:SUM_LENGTH] != total:
        raise Wrong(0, "is damaged at byte 0")
    parts = Parts(summed[len(MAGIC) + 1 :])
    return Header(parts.take(NAME_LENGTH), parts.number(), parts.number())


@dataclass
class Log:
    """A log as it was read: its header, its whole entries without a mark, and how many bytes stand after these. They
    are torn, or the mark by which the log goes on in another file."""

    header: Header
    entries: list
    whole: int
    torn: int
    is_moved: bool = False

    @property
    def snapshot(self):
        """The entries with which a compacted log begins."""
        return [entry for entry in self.entries if entry.at < self.header.snapshot_end]


def entries_of(data, at=FILE_HEADER_LENGTH):
    """Each whole entry from there on, the mark among them."""
    while isinstance(entry := front_of(data, at), Entry):
        if entry.operation == MOVED and entry.end < len(data):
            raise Wrong(at, f"is damaged at byte {at}")
        yield entry
        at = entry.end


def check_snapshot(header, entries):
    """The snapshot is whole, and ends where an entry does."""
    ends = [FILE_HEADER_LENGTH, *(entry.end for entry in entries)]
    if ends[-1] < header.snapshot_end:
        raise Wrong(ends[-1], f"is damaged at byte {ends[-1]}")
    if header.snapshot_end not in ends:
        raise Wrong(header.snapshot_end, "its snapshot ends within an entry")


def read_log(data):
    """The log that the bytes of a file are."""
    header = read_header(data)
    entries = list(entries_of(data))
    is_moved = bool(entries) and entries[-1].operation == MOVED
    if is_moved:
        entries.pop()
    check_snapshot(header, entries)
    whole = entries[-1].end if entries else FILE_HEADER_LENGTH
    return Log(header, entries, whole, len(data) - whole, is_moved)
