"""Entries of a log and descriptions in words, and their bytes. The head of tools/make-log has the words."""
import re

from logs.writing import MARK, SETTINGS, ZEROS, entry_bytes, form_bytes, message_bytes, settings_bytes

OPERATIONS = {
    "makes tag": ("make_tag", ()),
    "removes tag": ("remove_tag", ()),
    "locks": ("lock", ("number",)),
    "makes segment": ("make_segment", ("number", "max_nodes")),
    "removes segment": ("remove_segment", ()),
    "removes description": ("remove_description", ()),
    "opens": ("open_segment", ("number", "ticket")),
    "releases": ("release", ("ticket", "number")),
}
# The messages of a pattern: the name of the own header, and the terms of the user header and of the payload.
MESSAGES = {
    "event": (),
    "pubsub": (("publish_subscribe::Header", "user_header", "payload"),),
    "rr": (
        ("request_response::RequestHeader", "request_header", "request_payload"),
        ("request_response::ResponseHeader", "response_header", "response_payload"),
    ),
}
MARKERS = {"header": "fixed,CustomHeaderMarker,0,1", "payload": "dynamic,CustomPayloadMarker,1,1"}
CONTROLS = {"n": "\n", "r": "\r", "t": "\t", "\\": "\\"}


def digits(text, count):
    """So many bytes of hexadecimal digits, which are repeated if two dots follow them."""
    found = bytes.fromhex(text.removesuffix("..")) * (count if text.endswith("..") else 1)
    if len(found) < count:
        raise ValueError(f"{text} is {len(found)} bytes, and not {count}")
    return found[:count]


def plain(text):
    """A text without escapes."""
    return re.sub(r"\\(?:([nrt\\])|x(..)|u\{(\w+)\})", lambda one: CONTROLS.get(one[1]) or chr(int(one[2] or one[3], 16)), text)


def span(text):
    """Seconds and nanoseconds."""
    return tuple(int(part) for part in text.split(","))


def value_of(name, text, now):
    """The value of a setting."""
    if text in ("true", "false", "none"):
        return {"true": True, "false": False, "none": None}[text]
    return (span(text), span(now)) if name == "deadline" else int(text)


def type_of(terms, name):
    """A type, which the terms may give."""
    variant, named, size, alignment = terms.pop(name, MARKERS[name.split("_")[-1]]).rsplit(",", 3)
    return variant == "dynamic", plain(named), int(size), int(alignment)


def description(pattern, name, found, words):
    """The bytes of a description with these terms."""
    pairs = [tuple(map(plain, word.partition("=")[2].split(":", 1))) for word in words if word.startswith("attribute=")]
    terms = dict(word.split("=", 1) for word in words if not word.startswith("attribute="))
    now, creator = terms.pop("now", "0,0"), terms.pop("creator", None)
    types = [(header, type_of(terms, payload), type_of(terms, user)) for header, user, payload in MESSAGES[pattern]]
    if not terms.keys() <= SETTINGS[pattern].keys():
        raise ValueError(f"{pattern} has no {' or '.join(sorted(terms.keys() - SETTINGS[pattern].keys()))}")
    settings = {term: value_of(term, text, now) for term, text in terms.items()}
    rest = settings_bytes(pattern, **settings) + b"".join(message_bytes(*message) for message in types)
    return form_bytes(rest, found, plain(name), pairs, None if creator is None else int(creator))


def publishing(node, what, found, number, words):
    """The entry of a publishing."""
    pattern, name = what.split(" ")
    form = b"" if what == "no description" else description(pattern, name, found, words)
    return entry_bytes("publish", node, number, form, found=found)


def operation(node, verb, found, words):
    """The entry of another operation."""
    kind, details = OPERATIONS[verb]
    terms = {name: int(value) for name, value in (word.split("=") for word in words)}
    if terms.keys() != set(details):
        raise ValueError(f"it takes {' and '.join(details) or 'no number'}")
    return entry_bytes(kind, node, *(terms[name] for name in details), found=found)


def entry(line):
    """The bytes of an entry in words."""
    if line == "the log goes on in another file":
        return MARK
    if spent := re.fullmatch(r"node (\d+) spends numbers up to (\d+)", line):
        return entry_bytes("spend", int(spent[1]), int(spent[2]), found=ZEROS)
    if made := re.fullmatch(r"node (\d+) publishes (\S+ \S+) (\S+) number=(\d+)((?: \S+)*)", line):
        return publishing(int(made[1]), made[2], digits(made[3], 20), int(made[4]), made[5].split())
    if made := re.fullmatch(rf"node (\d+) ({'|'.join(OPERATIONS)}) (\S+)((?: \w+=\d+)*)", line):
        return operation(int(made[1]), made[2], digits(made[3], 20), made[4].split())
    raise ValueError("it is no entry, and damages nothing")
