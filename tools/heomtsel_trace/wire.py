"""The bytes on a connection: segments, items and messages (docs/FORMATS.md). Items are decoded by cbor2."""

from __future__ import annotations

import ipaddress
from collections.abc import Callable
from dataclasses import dataclass, field
from io import BytesIO

import cbor2

HEADER = 8
DEEPEST = 64
HANDSHAKE, CHAIN_SYNC, BLOCK_FETCH, TX_SUBMISSION, KEEP_ALIVE, PEER_SHARING = 0, 2, 3, 4, 8, 10
NODE_PROTOCOLS = {
    HANDSHAKE: "handshake",
    CHAIN_SYNC: "chain-sync",
    BLOCK_FETCH: "block-fetch",
    TX_SUBMISSION: "tx-submission",
    KEEP_ALIVE: "keep-alive",
    PEER_SHARING: "peer-sharing",
}
CLIENT_PROTOCOLS = {
    HANDSHAKE: "handshake",
    5: "local chain-sync",
    6: "local tx-submission",
    7: "local state-query",
    9: "local tx-monitor",
}
LONGEST_ITEM = {HANDSHAKE: 5_760}
LONGEST_OTHER = 65_535
# what the first number of a message of these protocols says
NAMED = {
    CHAIN_SYNC: {
        0: "request the next block",
        1: "await a reply",
        2: "roll forward",
        3: "roll backward",
        4: "find where our chains meet",
        5: "our chains meet here",
        6: "our chains meet nowhere",
        7: "done",
    },
    BLOCK_FETCH: {
        0: "request blocks",
        1: "done",
        2: "a batch begins",
        3: "there are no blocks",
        4: "a block",
        5: "the batch is done",
    },
    TX_SUBMISSION: {0: "request ids", 1: "ids", 2: "request transactions", 3: "transactions", 4: "done", 6: "begin"},
}


def break_marker() -> object:
    """What cbor2 gives for a break that ends nothing, where it gives anything."""
    try:
        return cbor2.CBORDecoder(BytesIO(b"\xff")).decode()
    except cbor2.CBORDecodeError:
        return object()


BREAK = break_marker()


class NoMessage(ValueError):
    """An item that is no message of its protocol."""


@dataclass(frozen=True)
class Message:
    """A whole item of a protocol: what it says, or why it is no message."""

    raw: bytes
    value: object
    said: str
    is_wrong: bool = False


@dataclass
class Segment:
    """A whole segment. `at` is its place in the stream, and `unfinished` what is left of its part behind its last item."""

    at: int
    time: int
    from_responder: bool
    protocol: int
    payload: bytes
    messages: list[Message] = field(default_factory=list)
    wrong: str | None = None
    unfinished: int = 0

    @property
    def side(self) -> str:
        return "responder" if self.from_responder else "initiator"


class Stream:
    """Bytes that go one way, cut into segments and messages as they come. After a fault nothing is cut any more."""

    def __init__(self, of_clients: bool = False) -> None:
        self._protocols = CLIENT_PROTOCOLS if of_clients else NODE_PROTOCOLS
        self._rest = b""
        self._at = 0
        self._parts: dict[tuple[bool, int], bytes] = {}
        self.fault: str | None = None

    @property
    def rest(self) -> bytes:
        """What is no whole segment yet."""
        return self._rest

    @property
    def has_unfinished(self) -> bool:
        """Whether an item isn't whole yet."""
        return any(self._parts.values())

    def protocol_name(self, number: int) -> str:
        return self._protocols.get(number, "unknown")

    def feed(self, piece: bytes) -> list[Segment]:
        if self.fault is not None:
            return []
        self._rest += piece
        segments = []
        while self.fault is None and len(self._rest) >= HEADER:
            size = int.from_bytes(self._rest[6:8], "big")
            if len(self._rest) < HEADER + size:
                break
            segments.append(self._take(size))
        return segments

    def _take(self, size: int) -> Segment:
        head, payload = self._rest[:HEADER], self._rest[HEADER : HEADER + size]
        number = int.from_bytes(head[4:6], "big")
        segment = Segment(self._at, int.from_bytes(head[:4], "big"), number >= 0x8000, number & 0x7FFF, payload)
        self._rest = self._rest[HEADER + size :]
        self._at += HEADER + size
        if segment.protocol in self._protocols:
            self._take_items(segment)
        else:
            segment.wrong = f"protocol {segment.protocol} is unknown (fault unknownid)"
        self.fault = segment.wrong
        return segment

    def _take_items(self, segment: Segment) -> None:
        key = segment.from_responder, segment.protocol
        part = self._parts.get(key, b"") + segment.payload
        most = LONGEST_ITEM.get(segment.protocol, LONGEST_OTHER)
        while part and segment.wrong is None:
            try:
                value, size = first_item(part)
            except cbor2.CBORDecodeEOF:
                if len(part) >= most:
                    segment.wrong = f"an item is longer than {most:,} bytes (fault toolong)"
                break
            except (cbor2.CBORDecodeError, ValueError, TypeError, OverflowError) as fault:
                segment.wrong = f"no item begins there: {fault} (fault malformed)"
                break
            if depth_of(value) > DEEPEST:
                segment.wrong = f"more than {DEEPEST} arrays, maps and tags stand inside each other (fault deep)"
            elif size > most:
                segment.wrong = f"an item of {size:,} bytes is longer than {most:,} (fault toolong)"
            else:
                segment.messages.append(message(segment.protocol, part[:size], value))
                part = part[size:]
        self._parts[key] = part
        segment.unfinished = len(part)


def first_item(data: bytes) -> tuple[object, int]:
    """The item at the front, and how many bytes it has."""
    stream = BytesIO(data)
    value = cbor2.CBORDecoder(stream, str_errors="replace").decode()
    if holds_break(value):
        raise ValueError("a break ends nothing")
    return value, stream.tell()


def inner(value: object) -> list | tuple:
    if isinstance(value, (list, tuple)):
        return value
    if isinstance(value, dict):
        return [*value.keys(), *value.values()]
    if isinstance(value, cbor2.CBORTag):
        return [value.value]
    return ()


def holds_break(value: object) -> bool:
    left = [value]
    while left:
        one = left.pop()
        if one is BREAK:
            return True
        left.extend(inner(one))
    return False


def depth_of(value: object) -> int:
    deepest, left = 0, [(value, 0)]
    while left:
        one, depth = left.pop()
        if isinstance(one, (list, tuple, dict, cbor2.CBORTag)):
            depth += 1
            deepest = max(deepest, depth)
            left.extend((each, depth) for each in inner(one))
    return deepest


# Messages


def message(protocol: int, raw: bytes, value: object) -> Message:
    reader = READERS.get(protocol, passed_over)
    try:
        return Message(raw, value, reader(raw, value, protocol))
    except NoMessage as why:
        return Message(raw, value, f"no message of its protocol: {why}", True)


def numbered(value: object) -> list:
    if not isinstance(value, list) or not value or not is_number(value[0]):
        raise NoMessage("an array that begins with a number was due")
    return value


def is_number(value: object, most: int = (1 << 64) - 1) -> bool:
    return isinstance(value, int) and not isinstance(value, bool) and 0 <= value <= most


def want(holds: bool, due: str) -> None:
    if not holds:
        raise NoMessage(due)


def passed_over(raw: bytes, value: object, protocol: int) -> str:
    """Messages whose bodies a node passes over."""
    first = numbered(value)[0]
    return NAMED.get(protocol, {}).get(first, f"message {first}")


def handshake(raw: bytes, value: object, protocol: int) -> str:
    want(raw[0] != 0x9F, "its array may not be of indefinite length")
    kind, *rest = numbered(value)
    if kind in (0, 3) and len(rest) == 1:
        return ("propose " if kind == 0 else "answer the query with ") + version_table(raw, rest[0])
    if kind == 1 and len(rest) == 2:
        want(is_number(rest[0]), "a version was due")
        return f"accept version {rest[0]}: {info(rest[0], rest[1])}"
    if kind == 2 and len(rest) == 1:
        return "refuse: " + refusal(rest[0])
    raise NoMessage("[0, versions], [1, version, info], [2, reason] or [3, versions] was due")


def version_table(raw: bytes, table: object) -> str:
    want(isinstance(table, dict), "a map of versions was due")
    want(0xBF not in raw[1:3], "its map may not be of indefinite length")
    versions = list(table)
    want(all(is_number(version) for version in versions), "versions are unsigned numbers")
    want(versions == sorted(versions), "versions rise strictly")
    infos = {version: info(version, told) for version, told in table.items()}
    if len(set(infos.values())) == 1 and infos:
        return f"versions {', '.join(map(str, versions))}: {infos[versions[0]]}"
    return "; ".join(f"version {version}: {told}" for version, told in infos.items()) or "no version"


def info(version: int, told: object) -> str:
    if version in (13, 14) and isinstance(told, list) and len(told) == 4:
        magic, only, sharing, query = told
        if is_number(magic, 0xFFFF_FFFF) and isinstance(only, bool) and sharing in (0, 1) and isinstance(query, bool):
            way = "initiator only" if only else "duplex"
            shares = "shares peers" if sharing else "shares no peers"
            return f"magic {magic}, {way}, {shares}" + (", query" if query else "")
    if version in (32_784, 32_785) and isinstance(told, list) and len(told) == 2:
        magic, query = told
        if is_number(magic, 0xFFFF_FFFF) and isinstance(query, bool):
            return f"magic {magic}" + (", query" if query else "")
    return f"foreign {told!r}"


def refusal(reason: object) -> str:
    code, *rest = numbered(reason)
    if code == 0 and len(rest) == 1 and isinstance(rest[0], list):
        return "no common version; known are " + (", ".join(map(str, rest[0])) or "none")
    if code in (1, 2) and len(rest) == 2 and is_number(rest[0]) and isinstance(rest[1], str):
        return f"version {rest[0]} {'not decoded' if code == 1 else 'declined'}, \"{rest[1]}\""
    raise NoMessage("a reason was due: [0, versions], [1, version, text] or [2, version, text]")


def keep_alive(raw: bytes, value: object, protocol: int) -> str:
    kind, *rest = numbered(value)
    if kind in (0, 1) and len(rest) == 1 and is_number(rest[0], 0xFFFF):
        return f"{'keep-alive, cookie' if kind == 0 else 'keep-alive answered, cookie'} {rest[0]}"
    if kind == 2 and not rest:
        return "keep-alive done"
    raise NoMessage("[0, cookie], [1, cookie] or [2] was due, with a cookie below 65,536")


def peer_sharing(raw: bytes, value: object, protocol: int) -> str:
    kind, *rest = numbered(value)
    if kind == 0 and len(rest) == 1 and is_number(rest[0]):
        return f"request at most {rest[0]} address{'' if rest[0] == 1 else 'es'}"
    if kind == 1 and len(rest) == 1 and isinstance(rest[0], list):
        return "peers " + (", ".join(address(each) for each in rest[0]) or "none")
    if kind == 2 and not rest:
        return "peer sharing done"
    raise NoMessage("[0, n], [1, addresses] or [2] was due")


def address(told: object) -> str:
    want(isinstance(told, list) and all(is_number(each, 0xFFFF_FFFF) for each in told), "an address was due")
    if len(told) == 3 and told[0] == 0 and told[2] <= 0xFFFF:
        return f"{ipaddress.IPv4Address(told[1])}:{told[2]}"
    if len(told) in (6, 8) and told[0] == 1 and told[-1] <= 0xFFFF:
        words = b"".join(word.to_bytes(4, "big") for word in told[1:5])
        return f"[{ipaddress.IPv6Address(words)}]:{told[-1]}"
    raise NoMessage("[0, word, port] or [1, word, word, word, word, port] was due")


READERS: dict[int, Callable[[bytes, object, int], str]] = {
    HANDSHAKE: handshake,
    KEEP_ALIVE: keep_alive,
    PEER_SHARING: peer_sharing,
}
