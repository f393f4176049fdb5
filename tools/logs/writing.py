"""Writes the bytes of a log's file: its header, its entries, and the descriptions that they publish.

Made from docs/LOG_FORM.md and docs/BYTE_FORM.md alone, with struct. It shares no line with the reader (logs/form.py), whose
tests it serves, nor with the programs.
"""
import hashlib
import struct

KINDS = "make_tag remove_tag lock make_segment remove_segment remove_description publish open_segment release".split()
KINDS += ["spend", "moved"]
HASH = bytes([0x11]) * 20
ZEROS = bytes(20)
# The settings of each pattern in the order of their bytes, as a create has them that isn't given them.
SETTINGS = {
    "event": {
        "max_notifiers": 16,
        "max_listeners": 16,
        "event_id_max_value": 255,
        "max_nodes": 36,
        "notifier_created_event": None,
        "notifier_dropped_event": None,
        "notifier_dead_event": None,
        "deadline": None,
    },
    "pubsub": {
        "max_publishers": 2,
        "max_subscribers": 8,
        "subscriber_max_buffer_size": 2,
        "history_size": 0,
        "subscriber_max_borrowed_samples": 2,
        "enable_safe_overflow": True,
        "max_nodes": 20,
    },
    "rr": {
        "enable_safe_overflow_for_requests": True,
        "enable_safe_overflow_for_responses": True,
        "enable_fire_and_forget_requests": True,
        "max_active_requests_per_client": 4,
        "max_loaned_requests": 2,
        "max_borrowed_responses_per_pending_response": 2,
        "max_response_buffer_size": 2,
        "max_servers": 2,
        "max_clients": 8,
        "max_nodes": 20,
    },
}


# ---- headers and entries


def header_bytes(name=bytes(16), counter=0, snapshot_length=0, version=2):
    """The header of a file."""
    summed = b"IOX2LOG" + bytes([version]) + name + struct.pack(">QQ", counter, snapshot_length)
    return summed + hashlib.sha1(summed).digest()[:8]


def sealed(body):
    """A body with what stands before it."""
    length = struct.pack(">I", len(body))
    return length + struct.pack(">I", len(body) ^ 0xFFFFFFFF) + hashlib.sha1(length + body).digest()[:8] + body


def entry_bytes(operation, node, *details, found=HASH):
    """An entry; its details are numbers, and bytes for a description."""
    body = struct.pack(">BQ20s", KINDS.index(operation) + 1, node, found)
    return sealed(body + b"".join(one if isinstance(one, bytes) else struct.pack(">Q", one) for one in details))


MARK = entry_bytes("moved", 0, found=ZEROS)


# ---- descriptions


def text_bytes(text):
    """A text."""
    return struct.pack(">H", len(text.encode())) + text.encode()


def type_bytes(dynamic, name, size, alignment):
    """A type."""
    return bytes([dynamic]) + text_bytes(name) + struct.pack(">QQ", size, alignment)


def setting_bytes(name, value):
    """A setting: a number, a truth value, or an option of an event or of a deadline, which is two pairs of seconds and
    nanoseconds. Bytes are taken as they are."""
    if isinstance(value, bytes):
        return value
    if name == "deadline":
        return b"\x00" if value is None else b"\x01" + b"".join(struct.pack(">QI", *span) for span in value)
    if name.startswith("notifier_"):
        return b"\x00" if value is None else struct.pack(">BQ", 1, value)
    return struct.pack(">?" if name.startswith("enable_") else ">Q", value)


def settings_bytes(pattern, **changed):
    """The byte of a pattern, and its settings: those of a create, but for these."""
    settings = {**SETTINGS[pattern], **changed}
    return bytes([list(SETTINGS).index(pattern) + 1]) + b"".join(setting_bytes(*setting) for setting in settings.items())


def form_bytes(rest, found=HASH, name="a", attributes=(), creator=None):
    """A description, whose pattern's byte and what stands after it are the rest."""
    front = b"IOX2\x01" if creator is None else b"IOX2\x02" + struct.pack(">Q", creator)
    pairs = b"".join(text_bytes(key) + text_bytes(value) for key, value in attributes)
    return front + found + text_bytes(name) + struct.pack(">H", len(attributes)) + pairs + rest


def event_form(max_nodes=36, deadline=None, **others):
    """Events with the default settings, but for these."""
    return form_bytes(settings_bytes("event", max_nodes=max_nodes, deadline=deadline), **others)


def message_bytes(header, payload, user_header=(False, "()", 0, 1)):
    """The three types of a message, whose own header is of this name."""
    return type_bytes(False, header, 32, 8) + type_bytes(*user_header) + type_bytes(*payload)


def pubsub_form(max_nodes=20, payload=(True, "i64", 8, 8), **others):
    """Publish-subscribe, whose payload is a number of i64."""
    message = message_bytes("publish_subscribe::Header", payload)
    return form_bytes(settings_bytes("pubsub", max_nodes=max_nodes) + message, **others)


def rr_form(max_nodes=20, **others):
    """Request-response, whose requests are of one value."""
    request = message_bytes("request_response::RequestHeader", (False, "Goal", 16, 8))
    response = message_bytes("request_response::ResponseHeader", (True, "u8", 1, 1))
    return form_bytes(settings_bytes("rr", max_nodes=max_nodes) + request + response, **others)


# ---- calls


def created(node=1, number=0, form=None, found=HASH, max_nodes=36):
    """The four entries of a create."""
    return [
        entry_bytes("make_tag", node, found=found),
        entry_bytes("lock", node, number, found=found),
        entry_bytes("make_segment", node, number, max_nodes, found=found),
        entry_bytes("publish", node, number, form or event_form(max_nodes), found=found),
    ]


def opened(node, number, ticket, found=HASH):
    """The two entries of an open."""
    return [entry_bytes("make_tag", node, found=found), entry_bytes("open_segment", node, number, ticket, found=found)]


def left(node, number, ticket, found=HASH):
    """The two entries of a close by which others stay."""
    return [entry_bytes("release", node, ticket, number, found=found), entry_bytes("remove_tag", node, found=found)]


def ended(node, number, ticket, found=HASH):
    """The four entries of the last close."""
    removals = [entry_bytes(operation, node, found=found) for operation in ("remove_segment", "remove_description")]
    return left(node, number, ticket, found) + removals
