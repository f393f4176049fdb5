"""Wulameron for Python: which settings the nodes of a named service agree on.

    with Session() as session:
        session.begin(EVENT, CREATE, 1, "lamps")
        session.set_number(MAX_LISTENERS, 4)
        session.send(0)
        print(session.number(0, MAX_LISTENERS))

`Session()` is over a table within this process. `Session(path)` is over the log in a file that processes share: there
`session.node` is the node that it claimed, and each request is in its name.

The import loads the library that `tools/build-c` builds or installs. It takes the file that WULAMERON_LIBRARY names, or
else libwulameron.so beside this module, or else bindings/c/out/libwulameron.so of the repository, or else what the
system's loader finds as libwulameron.so.0. A session over a log starts the program `wulameron`, or what
WULAMERON names (before version 3 WULAMERON_PROGRAM). The numbers are those of wulameron.h, which tells each call. A session is for the thread that
opened it.
"""
from __future__ import annotations

import ctypes
import enum
import os
import pathlib
import urllib.parse
from types import TracebackType
from typing import NamedTuple

_HERE = pathlib.Path(__file__).resolve().parent
_C = _HERE.parent / "c"


def _loaded() -> ctypes.CDLL:
    places = _HERE / "libwulameron.so", _C / "out/libwulameron.so"
    found = [str(place) for place in places if place.is_file()]
    name = os.environ.get("WULAMERON_LIBRARY") or [*found, "libwulameron.so.0"][0]
    try:
        library = ctypes.CDLL(name)
        library.wulameron_code_text.restype = ctypes.c_char_p
    except (OSError, AttributeError) as error:
        raise ImportError(
            f"wulameron can't load its library: {error}. Build it with `tools/build-c`, or install it with "
            "`tools/build-c --install PREFIX` and have the system's loader find PREFIX/lib, by ldconfig or by "
            "LD_LIBRARY_PATH, or name the file libwulameron.so by the variable WULAMERON_LIBRARY."
        ) from None
    return library


_LIBRARY = _loaded()

VERSION = 3
# The path of the log that the program has by default.
DEFAULT_PATH = ""
# Patterns, and how a service is wanted.
EVENT, PUBLISH_SUBSCRIBE, REQUEST_RESPONSE = 1, 2, 3
CREATE, OPEN, OPEN_OR_CREATE = 1, 2, 3
# Settings.
MAX_NODES = 1
MAX_NOTIFIERS, MAX_LISTENERS, EVENT_ID_MAX_VALUE = 101, 102, 103
NOTIFIER_CREATED_EVENT, NOTIFIER_DROPPED_EVENT, NOTIFIER_DEAD_EVENT = 111, 112, 113
DEADLINE, CREATION_TIME = 121, 122
MAX_PUBLISHERS, MAX_SUBSCRIBERS, SUBSCRIBER_MAX_BUFFER_SIZE, HISTORY_SIZE = 201, 202, 203, 204
SUBSCRIBER_MAX_BORROWED_SAMPLES, ENABLE_SAFE_OVERFLOW, PAYLOAD_ALIGNMENT = 205, 211, 221
MAX_ACTIVE_REQUESTS_PER_CLIENT, MAX_LOANED_REQUESTS = 301, 302
MAX_BORROWED_RESPONSES_PER_PENDING_RESPONSE, MAX_RESPONSE_BUFFER_SIZE = 303, 304
MAX_SERVERS, MAX_CLIENTS = 305, 306
ENABLE_SAFE_OVERFLOW_FOR_REQUESTS, ENABLE_SAFE_OVERFLOW_FOR_RESPONSES = 311, 312
ENABLE_FIRE_AND_FORGET_REQUESTS = 313
REQUEST_PAYLOAD_ALIGNMENT, RESPONSE_PAYLOAD_ALIGNMENT = 321, 322
# Parts of a message, and what it holds of a type.
PAYLOAD, USER_HEADER = 1, 2
REQUEST_PAYLOAD, REQUEST_HEADER, RESPONSE_PAYLOAD, RESPONSE_HEADER = 3, 4, 5, 6
FIXED_SIZE, DYNAMIC = 1, 2

# What stands of an entry of a listing.
BEING_CREATED, PUBLISHED, MARKED, SEGMENT_ALONE = 1, 2, 3, 4
_ANY_NODE = 2**64 - 1

_U32, _U64, _SIZE = ctypes.c_uint32, ctypes.c_uint64, ctypes.c_size_t
# `Session` has methods of these names.
_Bytes = bytes
_List = list


class Code(enum.IntEnum):
    """Why a call isn't done."""

    OK = 0
    NULL = 1
    BUSY = 2
    VERSION_DIFFERS = 3
    OUT_OF_MEMORY = 4
    TOO_SMALL = 5
    NOT_UTF8 = 6
    BAD_NAME = 7
    BAD_VALUE = 8
    BAD_TYPE = 9
    BAD_ATTRIBUTE = 10
    TOO_MANY = 11
    UNKNOWN_SETTING = 12
    UNKNOWN_PATTERN = 13
    UNKNOWN_CALL = 14
    NO_REQUEST = 15
    NO_SUCH_SLOT = 16
    SLOT_IN_USE = 17
    SLOT_EMPTY = 18
    NO_SUCH_ITEM = 19
    REFUSED = 20
    NOT_CLOSED = 21
    NONE = 22
    OTHER_NODE = 25
    LOG = 26
    ENDED = 27
    NO_PROGRAM = 28
    NODE_IN_USE = 29
    ONLY_OVER_LOG = 30
    BAD_LINE = 31
    NODE_ALIVE = 32
    LOST = 33


class WulameronError(Exception):
    """A call that isn't done, by its code, with the library's text of it."""

    def __init__(self, code: int, message: str = "") -> None:
        text = _LIBRARY.wulameron_code_text(_U32(code)).decode()
        super().__init__(f"{text}: {message}" if message else text)
        self.code = Code(code)
        self.message = message


class SessionLost(WulameronError):
    """The session with a database was lost: close this one, and open another. `services` has the names that were held."""

    def __init__(self, leaves: str) -> None:
        self.services = [urllib.parse.unquote(leaf) for leaf in leaves.split()]
        super().__init__(Code.LOST, ", ".join(self.services))


class Refused(WulameronError):
    """A call that was carried out and refused: its number, its name, when it comes, and what can be done.

    Each enum of refusals has a class of its own, as `EventOpenError`, and `value` is the name within it.
    """

    def __init__(self, refusal: int) -> None:
        self.refusal = refusal
        self.name, self.text, self.advice = (_text_of(word, refusal) for word in ("name", "text", "advice"))
        self.value = self.name.partition("::")[2]
        super().__init__(Code.REFUSED, f"{self.name}: {self.text}; {self.advice}")


class EventOpenError(Refused):
    """Refusals of an open of events."""


class EventCreateError(Refused):
    """Refusals of a create of events."""


class EventOpenOrCreateError(Refused):
    """Refusals of an open or create of events."""


class PublishSubscribeOpenError(Refused):
    """Refusals of an open of publish-subscribe."""


class PublishSubscribeCreateError(Refused):
    """Refusals of a create of publish-subscribe."""


class PublishSubscribeOpenOrCreateError(Refused):
    """Refusals of an open or create of publish-subscribe."""


class RequestResponseOpenError(Refused):
    """Refusals of an open of request-response."""


class RequestResponseCreateError(Refused):
    """Refusals of a create of request-response."""


class RequestResponseOpenOrCreateError(Refused):
    """Refusals of an open or create of request-response."""


# The classes by the thousands of their numbers, from 1 on.
_REFUSALS = (
    EventOpenError,
    EventCreateError,
    EventOpenOrCreateError,
    PublishSubscribeOpenError,
    PublishSubscribeCreateError,
    PublishSubscribeOpenOrCreateError,
    RequestResponseOpenError,
    RequestResponseCreateError,
    RequestResponseOpenOrCreateError,
)


class Entry(NamedTuple):
    """What stands of a service: 0, or an empty name, where something isn't known of one that is being created."""

    state: int
    pattern: int
    number: int
    nodes: int
    max_nodes: int
    name: str
    hash: bytes


class NodeState(enum.IntEnum):
    """Whether a node's process is alive, and if it is gone, whether it left something (DEAD) or nothing (ENDED). The session
    of a LOST one with a database has ended, and for some seconds only its own process gets it."""

    ALIVE = 1
    DEAD = 2
    ENDED = 3
    LOST = 4


class KnownNode(NamedTuple):
    """A node that was ever claimed at the log, and its state."""

    node: int
    state: NodeState

    @property
    def is_alive(self) -> bool:
        """Whether its process is alive."""
        return self.state is NodeState.ALIVE


class Cleaned(NamedTuple):
    """What was given back: of how many nodes, how many places at services, and how many things were removed."""

    nodes: int
    releases: int
    removals: int


def _u32(value: int) -> ctypes.c_uint32:
    if not 0 <= value < 2**32:
        raise OverflowError(f"{value} isn't a number of 32 bits")
    return _U32(value)


def _u64(value: int) -> ctypes.c_uint64:
    if not 0 <= value < 2**64:
        raise OverflowError(f"{value} isn't a number of 64 bits")
    return _U64(value)


def _path(path: str | os.PathLike[str]) -> bytes:
    text = os.fsencode(path)
    if b"\0" in text:
        raise ValueError("a path has no null character")
    return text


def _done(code: int) -> None:
    if code != Code.OK:
        raise WulameronError(code)


def _text_of(word: str, refusal: int) -> str:
    place, length = ctypes.create_string_buffer(1024), _SIZE()
    call = getattr(_LIBRARY, f"wulameron_refusal_{word}")
    _done(call(_U32(refusal), place, _SIZE(len(place)), ctypes.byref(length)))
    return place.raw[: length.value].decode()


class Session:
    """A session over a table of its own, or with a path over the log in that file, closed at the end of its `with`.

    `node` is claimed at the log, or where it is None the lowest that is free. `program` holds the session.
    """

    def __init__(
        self, path: str | os.PathLike[str] | None = None, *, node: int | None = None, program: str | None = None
    ) -> None:
        self._session = ctypes.c_void_p()
        self._was_told_lost = False
        if path is None:
            _done(_LIBRARY.wulameron_open_table(_u32(VERSION), ctypes.byref(self._session)))
            return
        message, length = ctypes.create_string_buffer(1024), _SIZE()
        code = _LIBRARY.wulameron_open_log(
            _u32(VERSION),
            None if program is None else _path(program),
            None if path == DEFAULT_PATH else _path(path),
            _u64(_ANY_NODE if node is None else node),
            ctypes.byref(self._session),
            message,
            _SIZE(len(message)),
            ctypes.byref(length),
        )
        if code != Code.OK:
            raise WulameronError(code, message.raw[: min(length.value, len(message))].decode(errors="replace"))

    def __enter__(self) -> Session:
        return self

    def __exit__(
        self, kind: type[BaseException] | None, error: BaseException | None, trace: TracebackType | None
    ) -> None:
        self.close_session()

    def close_session(self) -> None:
        """Closes what each slot holds, and the session."""
        session, self._session = self._session, ctypes.c_void_p()
        code = _LIBRARY.wulameron_close_session(session)
        if code != Code.LOST or not self._was_told_lost:
            _done(code)

    def _call(self, name: str, *words: object) -> int:
        return getattr(_LIBRARY, f"wulameron_{name}")(self._session, *words)

    def _checked(self, code: int) -> None:
        if code == Code.LOST:
            self._was_told_lost = True
            raise SessionLost(self._reply())
        if code != Code.OK:
            raise WulameronError(code, self._reply() if code in (Code.LOG, Code.BAD_LINE) else "")

    def _does(self, name: str, *words: object) -> None:
        self._checked(self._call(name, *words))

    def _text(self, name: str, *words: object) -> _Bytes:
        length = _SIZE()
        code = self._call(name, *words, None, _SIZE(0), ctypes.byref(length))
        if code == Code.OK:
            return b""
        while code == Code.TOO_SMALL:
            place = ctypes.create_string_buffer(length.value)
            code = self._call(name, *words, place, length, ctypes.byref(length))
        self._checked(code)
        return place.raw[: length.value]

    def _reply(self) -> str:
        return self._text("get_reply").decode(errors="replace")

    # ---- the request

    def begin(self, pattern: int, how: int, node: int, name: str) -> None:
        """Begins a request, in place of one that was pending."""
        text = name.encode()
        self._does("begin", _u32(pattern), _u32(how), _u64(node), text, _SIZE(len(text)))

    def set_number(self, setting: int, value: int) -> None:
        """Sets a setting that takes a number, a flag or an alignment."""
        self._does("set_number", _u32(setting), _u64(value))

    def set_none(self, setting: int) -> None:
        """Sets that there is none."""
        self._does("set_none", _u32(setting))

    def set_duration(self, setting: int, seconds: int, nanoseconds: int = 0) -> None:
        """Sets a length of time."""
        self._does("set_duration", _u32(setting), _u64(seconds), _u32(nanoseconds))

    def set_type(self, part: int, variant: int, name: str, size: int, alignment: int) -> None:
        """Sets the type of a part of a message."""
        text = name.encode()
        words = text, _SIZE(len(text)), _u64(size), _u64(alignment)
        self._does("set_type", _u32(part), _u32(variant), *words)

    def add_attribute(self, key: str, value: str) -> None:
        """Puts a pair to what a create defines and an open requires."""
        texts = key.encode(), value.encode()
        self._does("add_attribute", texts[0], _SIZE(len(texts[0])), texts[1], _SIZE(len(texts[1])))

    def require_key(self, key: str) -> None:
        """Requires a key, with any value."""
        text = key.encode()
        self._does("require_key", text, _SIZE(len(text)))

    def set_time(self, seconds: int, nanoseconds: int = 0) -> None:
        """Tells the time, for a create with a deadline."""
        self._does("set_time", _u64(seconds), _u32(nanoseconds))

    def send(self, slot: int) -> int:
        """Sends the request, and gives the service's number. `Refused` where it is refused."""
        number, refusal = _U64(), _U32()
        code = self._call("send", _u32(slot), ctypes.byref(number), ctypes.byref(refusal))
        if code == Code.REFUSED:
            raise _REFUSALS[refusal.value // 1000 - 1](refusal.value)
        self._checked(code)
        return number.value

    def close(self, slot: int) -> None:
        """Closes what the slot holds."""
        self._does("close", _u32(slot))

    def abandon(self, slot: int) -> None:
        """Lets go of what the slot holds without a close."""
        self._does("abandon", _u32(slot))

    # ---- what was agreed on

    def number(self, slot: int, setting: int) -> int | None:
        """A number, a flag as 0 or 1, or None where the setting has no value."""
        value = _U64()
        code = self._call("get_number", _u32(slot), _u32(setting), ctypes.byref(value))
        if code == Code.NONE:
            return None
        self._checked(code)
        return value.value

    def duration(self, slot: int, setting: int) -> tuple[int, int] | None:
        """Seconds and nanoseconds, or None where the setting has no value."""
        seconds, nanoseconds = _U64(), _U32()
        code = self._call(
            "get_duration", _u32(slot), _u32(setting), ctypes.byref(seconds), ctypes.byref(nanoseconds)
        )
        if code == Code.NONE:
            return None
        self._checked(code)
        return seconds.value, nanoseconds.value

    def type_of(self, slot: int, part: int) -> tuple[int, str, int, int]:
        """The variant, the name, the size and the alignment of the type of a part of a message."""
        variant, size, alignment = _U32(), _U64(), _U64()
        places = ctypes.byref(variant), ctypes.byref(size), ctypes.byref(alignment)
        self._does("get_type", _u32(slot), _u32(part), *places)
        name = self._text("get_type_name", _u32(slot), _u32(part)).decode()
        return variant.value, name, size.value, alignment.value

    def name(self, slot: int) -> str:
        """The service's name."""
        return self._text("get_name", _u32(slot)).decode()

    def hash(self, slot: int) -> _Bytes:
        """The 20 bytes by which the service is found."""
        return self._text("get_hash", _u32(slot))

    def bytes(self, slot: int) -> _Bytes:
        """The description as it is stored."""
        return self._text("get_bytes", _u32(slot))

    def attributes(self, slot: int) -> _List[tuple[str, str]]:
        """The attributes, ascending."""
        count = _U64()
        self._does("get_attribute_count", _u32(slot), ctypes.byref(count))
        found = []
        for index in range(count.value):
            key, value = ctypes.create_string_buffer(64), ctypes.create_string_buffer(256)
            lengths = _SIZE(), _SIZE()
            places = key, _SIZE(64), ctypes.byref(lengths[0]), value, _SIZE(256), ctypes.byref(lengths[1])
            self._does("get_attribute", _u32(slot), _u64(index), *places)
            found.append((key.raw[: lengths[0].value].decode(), value.raw[: lengths[1].value].decode()))
        return found

    def list(self) -> int:
        """How many entries a listing has."""
        count = _U64()
        self._does("list", ctypes.byref(count))
        return count.value

    def entries(self) -> _List[Entry]:
        """The entries of a listing that is taken now."""
        return [self._entry(index) for index in range(self.list())]

    def _entry(self, index: int) -> Entry:
        state, pattern = _U32(), _U32()
        numbers = _U64(), _U64(), _U64()
        self._does("get_entry", _u64(index), *map(ctypes.byref, (state, pattern, *numbers)))
        name = self._text("get_entry_name", _u64(index)).decode()
        hash_of = self._text("get_entry_hash", _u64(index))
        return Entry(state.value, pattern.value, *(number.value for number in numbers), name, hash_of)

    # ---- lines and nodes

    def line(self, line: str) -> str:
        """The reply to a line in the words of negotiate. WulameronError with what is wrong where it is no command."""
        text = line.encode()
        self._does("line", text, _SIZE(len(text)))
        return self._reply()

    @property
    def node(self) -> int:
        """The node that was claimed at the log."""
        node = _U64()
        self._does("node", ctypes.byref(node))
        return node.value

    def nodes(self) -> _List[KnownNode]:
        """Each node that was ever claimed at the log, by rising number."""
        count, node, state = _U64(), _U64(), _U32()
        self._does("nodes", ctypes.byref(count))
        found = []
        for index in range(count.value):
            self._does("get_node", _u64(index), ctypes.byref(node), ctypes.byref(state))
            found.append(KnownNode(node.value, NodeState(state.value)))
        return found

    def clean(self, node: int | None = None, *, dry_run: bool = False) -> Cleaned:
        """Gives back what a dead node has, or where it is None what each one has; a dry run only tells."""
        counts = _U64(), _U64(), _U64()
        words = _u64(_ANY_NODE if node is None else node), _u32(dry_run)
        self._does("clean", *words, *map(ctypes.byref, counts))
        return Cleaned(*(count.value for count in counts))
