"""Lines read one after another by the grammar of a trace (docs/TRACE.md)."""

from __future__ import annotations

import re
from collections.abc import Callable
from functools import lru_cache

from .lines import (
    Accepted,
    Admit,
    AskRoots,
    BigTargetsSet,
    BigsSet,
    BytesIn,
    CLOSE_CAUSES,
    Close,
    Closed,
    Dial,
    Dialed,
    End,
    Event,
    FAULT_KINDS,
    Govern,
    Group,
    Line,
    LocalsSet,
    NoTrace,
    Now,
    Own,
    PEER_CHANGES,
    Pause,
    PeerIs,
    RootsFailed,
    RootsFound,
    STATE_NAMES,
    Said,
    Send,
    Setting,
    StateIs,
    TURN_AWAYS,
    TargetsSet,
    TurnAway,
    Unresolved,
    Version,
)

GREATEST_MOMENT = 1 << 48
GREATEST_ID = 1 << 48
GREATEST_WORD = (1 << 64) - 1
GREATEST_INTERVAL = 86_400_000
GREATEST_VALENCY = 10_000
GREATEST_BYTES = 65_536
LONGEST_LINE = 140_000
LONGEST_SHOWN = 200

# name: least, greatest; in the order in which they may be set
SETTING_RANGES = {
    "magic": (0, 4_294_967_295),
    "initiatoronly": (0, 1),
    "sharing": (0, 1),
    "hard": (1, 10_000),
    "soft": (0, 10_000),
    "delay": (1, GREATEST_INTERVAL),
    "idle": (1, GREATEST_INTERVAL),
    "timewait": (1, GREATEST_INTERVAL),
    "handshake": (1, GREATEST_INTERVAL),
    "reply": (1, GREATEST_INTERVAL),
    "backoff": (1, GREATEST_INTERVAL),
    "sharegap": (1, GREATEST_INTERVAL),
    "shares": (0, 8),
}
SETTING_NAMES = tuple(SETTING_RANGES)

DECIMAL = re.compile(r"0|[1-9][0-9]{0,19}")
HEXADECIMAL = re.compile(r"[0-9a-f]+")
UNRESOLVED = re.compile(r"unresolved (\d{1,20})")
STATUS_TEXT = re.compile(
    r"line \d+ refused: .*|too long: line \d+|(read|write|world) fault|out of memory|file fault (settings|topology)"
    r"|settings refused: \w+|file too large (settings|topology) \d+|usage: replay .*"
)
IPV6_GROUP = re.compile(r"0|[1-9a-f][0-9a-f]{0,3}")


class Misspelled(ValueError):
    """A line that is none of a trace."""


def number(word: str, least: int, greatest: int) -> int:
    if not DECIMAL.fullmatch(word):
        raise Misspelled(word)
    value = int(word)
    if not least <= value <= greatest:
        raise Misspelled(word)
    return value


def identifier(word: str) -> int:
    return number(word, 0, GREATEST_ID)


def one_of(word: str, choices: tuple[str, ...]) -> str:
    if word not in choices:
        raise Misspelled(word)
    return word


def octets_of(word: str) -> str:
    if len(word) % 2 or not HEXADECIMAL.fullmatch(word):
        raise Misspelled(word[:20])
    return word


def is_decimal_to(word: str, greatest: int) -> bool:
    return bool(DECIMAL.fullmatch(word)) and int(word) <= greatest


@lru_cache(maxsize=200_000)
def is_address(word: str, version: int) -> bool:
    host, colon, port = word.rpartition(":")
    if not colon or not is_decimal_to(port, 65_535):
        return False
    if host.startswith("[") and host.endswith("]"):
        groups = host[1:-1].split(":")
        return version == 2 and len(groups) == 8 and all(IPV6_GROUP.fullmatch(group) for group in groups)
    octets = host.split(".")
    return len(octets) == 4 and all(is_decimal_to(octet, 255) for octet in octets)


def printable(text: str) -> str:
    """The text with its control characters and undecodable bytes spelled, so that no terminal obeys it."""
    return "".join(c if c.isprintable() else f"<{c.encode('utf-8', 'surrogateescape').hex()}>" for c in text)


class LineReader:
    """Reads the lines of one trace in their order. What stands behind `end` is not looked at."""

    def __init__(self) -> None:
        self.version: int | None = None
        self.ended = False
        self._has_own = False
        self._has_begun = False
        self._setting_place = -1
        self._hard = 512
        self._readers: dict[str, Callable[[list[str]], Line]] = {
            "trace": self._version,
            "own": self._own,
            "set": self._setting,
            "end": self._end,
            "now": self._now,
            "govern": self._govern,
            "accepted": self._accepted,
            "dialed": self._dialed,
            "bytes": self._bytes,
            "closed": self._closed,
            "targets": self._targets,
            "bigtargets": self._big_targets,
            "locals": self._locals,
            "roots": self._roots,
            "bigs": self._bigs,
        }
        self._action_readers: dict[str, Callable[[list[str]], Line]] = {
            "admit": self._admit,
            "turnaway": self._turn_away,
            "dial": self._dial,
            "send": self._send,
            "close": self._close,
            "pause": self._pause,
            "askroots": self._ask_roots,
            "state": self._state,
            "peer": self._peer,
        }

    def read(self, text: str) -> Line:
        """The line that the text spells, without its line feed."""
        words = text.split(" ")
        try:
            if words[0] == ">":
                return self._action_readers[words[1]](words[1:])
            line = self._readers[words[0]](words)
        except (Misspelled, KeyError, IndexError):
            return beside_a_trace(text[:LONGEST_SHOWN])
        if isinstance(line, Event):
            self._has_begun = True
        return line

    def _address(self, word: str) -> str:
        # a trace that is looked at from its middle on has no version
        if not is_address(word, self.version or 2):
            raise Misspelled(word)
        return word

    def _addresses(self, words: list[str]) -> tuple[str, ...]:
        return tuple(self._address(word) for word in words)

    def _version(self, words: list[str]) -> Version:
        if self.version is not None or self._has_begun or words[1:] not in (["1"], ["2"]):
            raise Misspelled(words[0])
        self.version = int(words[1])
        return Version(self.version)

    def _own(self, words: list[str]) -> Own:
        _, address = exactly(words, 2)
        if self._has_own or self._has_begun or self.version is None:
            raise Misspelled(words[0])
        self._has_own = True
        return Own(self._address(address))

    def _setting(self, words: list[str]) -> Setting:
        _, name, value = exactly(words, 3)
        place = SETTING_NAMES.index(one_of(name, SETTING_NAMES))
        if self._has_begun or place <= self._setting_place:
            raise Misspelled(name)
        least, greatest = SETTING_RANGES[name]
        setting = Setting(name, number(value, least, self._hard if name == "soft" else greatest))
        self._setting_place = place
        if name == "hard":
            self._hard = setting.value
        return setting

    def _end(self, words: list[str]) -> End:
        exactly(words, 1)
        self.ended = True
        return End()

    def _now(self, words: list[str]) -> Now:
        _, moment = exactly(words, 2)
        return Now(number(moment, 0, GREATEST_MOMENT))

    def _govern(self, words: list[str]) -> Govern:
        _, word = exactly(words, 2)
        return Govern(number(word, 0, GREATEST_WORD))

    def _accepted(self, words: list[str]) -> Accepted:
        _, address = exactly(words, 2)
        return Accepted(self._address(address))

    def _dialed(self, words: list[str]) -> Dialed:
        _, connection, answer = exactly(words, 3)
        return Dialed(identifier(connection), one_of(answer, ("ok", "failed")) == "ok")

    def _bytes(self, words: list[str]) -> BytesIn:
        _, connection, octets = exactly(words, 3)
        if len(octets_of(octets)) > 2 * GREATEST_BYTES:
            raise Misspelled("bytes")
        return BytesIn(identifier(connection), octets)

    def _closed(self, words: list[str]) -> Closed:
        _, connection = exactly(words, 2)
        return Closed(identifier(connection))

    def _targets(self, words: list[str]) -> TargetsSet:
        root, known, established, active = (number(word, 0, GREATEST_MOMENT) for word in exactly(words, 5)[1:])
        check_targets(root, known, established, active)
        return TargetsSet(root, known, established, active)

    def _big_targets(self, words: list[str]) -> BigTargetsSet:
        self._of_version_2()
        known, established, active = (number(word, 0, GREATEST_MOMENT) for word in exactly(words, 4)[1:])
        check_targets(0, known, established, active)
        return BigTargetsSet(known, established, active)

    def _locals(self, words: list[str]) -> LocalsSet:
        groups: list[list[str]] = []
        for word in words[1:]:
            if word == "/":
                groups.append([])
            elif groups:
                groups[-1].append(word)
            else:
                raise Misspelled(word)
        return LocalsSet(tuple(self._group(group) for group in groups))

    def _group(self, words: list[str]) -> Group:
        hot, warm, sign, *members = words if len(words) >= 3 else exactly(words, 3)
        return Group(
            number(hot, 0, GREATEST_VALENCY),
            number(warm, 0, GREATEST_VALENCY),
            one_of(sign, ("+", "-")) == "+",
            self._addresses(members),
        )

    def _roots(self, words: list[str]) -> RootsFound | RootsFailed:
        job = identifier(words[1])
        if one_of(words[2], ("ok", "failed")) == "failed":
            exactly(words, 3)
            return RootsFailed(job)
        return RootsFound(job, number(words[3], 1, GREATEST_INTERVAL), self._addresses(words[4:]))

    def _bigs(self, words: list[str]) -> BigsSet:
        self._of_version_2()
        return BigsSet(self._addresses(words[1:]))

    def _of_version_2(self) -> None:
        if self.version == 1:
            raise Misspelled("version 2")

    def _admit(self, words: list[str]) -> Admit:
        _, connection, address = exactly(words, 3)
        return Admit(identifier(connection), self._address(address))

    def _turn_away(self, words: list[str]) -> TurnAway:
        _, cause = exactly(words, 2)
        return TurnAway(one_of(cause, TURN_AWAYS))

    def _dial(self, words: list[str]) -> Dial:
        _, connection, address = exactly(words, 3)
        return Dial(identifier(connection), self._address(address))

    def _send(self, words: list[str]) -> Send:
        _, connection, octets = exactly(words, 3)
        return Send(identifier(connection), octets_of(octets))

    def _close(self, words: list[str]) -> Close:
        connection = identifier(words[1])
        if words[2] == "fault":
            return Close(connection, "fault", one_of(exactly(words, 4)[3], FAULT_KINDS))
        return Close(connection, one_of(exactly(words, 3)[2], CLOSE_CAUSES))

    def _pause(self, words: list[str]) -> Pause:
        _, duration = exactly(words, 2)
        return Pause(number(duration, 0, GREATEST_MOMENT))

    def _ask_roots(self, words: list[str]) -> AskRoots:
        _, job = exactly(words, 2)
        return AskRoots(identifier(job))

    def _state(self, words: list[str]) -> StateIs:
        _, connection, name = exactly(words, 3)
        return StateIs(identifier(connection), one_of(name, STATE_NAMES))

    def _peer(self, words: list[str]) -> PeerIs:
        _, address, change = exactly(words, 3)
        return PeerIs(self._address(address), one_of(change, PEER_CHANGES))


def beside_a_trace(text: str) -> Line:
    """What stands beside the trace where standard error comes in too, or a line of something else."""
    if found := UNRESOLVED.fullmatch(text):
        return Unresolved(int(found[1]))
    if STATUS_TEXT.fullmatch(text):
        return Said(text)
    return NoTrace(printable(text))


def exactly(words: list[str], count: int) -> list[str]:
    if len(words) != count:
        raise Misspelled(" ".join(words[:3]))
    return words


def check_targets(root: int, known: int, established: int, active: int) -> None:
    in_order = active <= established <= known and root <= known
    if not in_order or known > 10_000 or established > 1_000 or active > 100:
        raise Misspelled("targets")
