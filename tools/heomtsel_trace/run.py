"""A run of a node, as far as its trace tells it."""

from __future__ import annotations

from collections import Counter, deque
from collections.abc import Callable
from dataclasses import dataclass, field
from enum import Enum

from . import lines
from .states import COUNTED, FAILS_ITS_PEER, USED
from .targets import Targets, effective

NOTICES_KEPT = 100
MOST_FAILURES = 65_535


class PeerClass(Enum):
    ORDINARY = "ordinary"
    BIG = "big ledger"


class Dialer(Enum):
    US = "us"
    THEM = "them"
    UNKNOWN = "?"


@dataclass(slots=True)
class Connection:
    id: int
    address: str
    dialer: Dialer
    since: int
    begun: int = 0
    state: str | None = None
    bytes_in: int = 0
    bytes_out: int = 0
    is_ending: bool = False


@dataclass(slots=True)
class Peer:
    address: str
    peer_class: PeerClass
    since: int = 0
    temperature: str = "cold"
    failures: int = 0
    left_alone_until: int = 0
    # what it failed by, last
    trouble: str | None = None


@dataclass(frozen=True, slots=True)
class BackOff:
    """How long a peer is left alone, until when, and after how many failures in a row."""

    duration: int
    until: int
    failures: int


@dataclass(frozen=True, slots=True)
class Notice:
    """A thing worth a look."""

    moment: int
    what: str
    connection: int | None = None
    address: str | None = None
    back_off: BackOff | None = None


@dataclass
class Roots:
    """The public roots, and the question that asks for them."""

    target: int = 0
    addresses: tuple[str, ...] = ()
    job: int | None = None
    due: int = 0
    failures: int = 0


@dataclass
class Settings:
    """The settings that a view needs, with their usual values."""

    hard: int = 512
    given_soft: int | None = None
    back_off: int = 5_000

    @property
    def soft(self) -> int:
        return min(384, self.hard) if self.given_soft is None else self.given_soft


@dataclass
class Run:
    """What stands after the lines that were taken. Whatever a trace leaves out stays unknown, and nothing is refused."""

    version: int | None = None
    own: str | None = None
    settings: Settings = field(default_factory=Settings)
    moment: int = 0
    has_ended: bool = False
    input_has_ended: bool = False
    events: int = 0
    actions: int = 0
    connections: dict[int, Connection] = field(default_factory=dict)
    by_state: Counter[str] = field(default_factory=Counter)
    peers: dict[str, Peer] = field(default_factory=dict)
    by_temperature: Counter[tuple[PeerClass, str]] = field(default_factory=Counter)
    targets: dict[PeerClass, Targets] = field(default_factory=lambda: {each: Targets() for each in PeerClass})
    groups: tuple[lines.Group, ...] = ()
    roots: Roots = field(default_factory=Roots)
    admitted: int = 0
    dialed: int = 0
    failed_dials: int = 0
    turn_aways: Counter[str] = field(default_factory=Counter)
    last_turned_away: str | None = None
    closes: Counter[str] = field(default_factory=Counter)
    faults: Counter[str] = field(default_factory=Counter)
    lost: Counter[str] = field(default_factory=Counter)
    # by address: faults, failed dials and losses
    troubles: Counter[str] = field(default_factory=Counter)
    bytes_in: int = 0
    bytes_out: int = 0
    unresolved: int | None = None
    said: str | None = None
    pauses: int = 0
    last_pause: int = 0
    paused_until: int = 0
    notices: deque[Notice] = field(default_factory=lambda: deque(maxlen=NOTICES_KEPT))
    lines_without_trace: int = 0
    noticed: int = 0
    last_without_trace: deque[tuple[int, str]] = field(default_factory=lambda: deque(maxlen=3))
    _event: lines.Event | None = None

    def __post_init__(self) -> None:
        self._takers: dict[type, Callable] = {
            lines.Version: self._take_version,
            lines.Own: self._take_own,
            lines.Setting: self._take_setting,
            lines.End: self._take_end,
            lines.Unresolved: self._take_unresolved,
            lines.Said: self._take_said,
            lines.Now: self._take_now,
            lines.BytesIn: self._take_bytes,
            lines.TargetsSet: self._take_targets,
            lines.BigTargetsSet: self._take_big_targets,
            lines.LocalsSet: self._take_locals,
            lines.RootsFound: self._take_roots,
            lines.RootsFailed: self._take_failed_roots,
            lines.Admit: self._take_admit,
            lines.TurnAway: self._take_turn_away,
            lines.Dial: self._take_dial,
            lines.Send: self._take_send,
            lines.Close: self._take_close,
            lines.Pause: self._take_pause,
            lines.AskRoots: self._take_ask,
            lines.StateIs: self._take_state,
            lines.PeerIs: self._take_peer,
        }

    # what is asked of it

    @property
    def counted(self) -> int:
        """The connections that the limits speak of."""
        return sum(self.by_state[name] for name in COUNTED)

    def known(self, peer_class: PeerClass) -> int:
        return self.by_temperature[peer_class, "cold"] + self.established(peer_class)

    def established(self, peer_class: PeerClass) -> int:
        return self.by_temperature[peer_class, "warm"] + self.active(peer_class)

    def active(self, peer_class: PeerClass) -> int:
        return self.by_temperature[peer_class, "hot"]

    def effective(self, peer_class: PeerClass) -> Targets:
        return effective(self.targets[peer_class], self.moment)

    # what it takes

    def take(self, line: lines.Line, line_number: int) -> None:
        if isinstance(line, lines.NoTrace):
            self.lines_without_trace += 1
            self.last_without_trace.append((line_number, line.text))
            return
        if isinstance(line, lines.Event):
            self.events += 1
            self._event = line
        elif isinstance(line, lines.Action):
            self.actions += 1
        taker = self._takers.get(type(line))
        if taker is not None:
            taker(line)

    def _take_version(self, line: lines.Version) -> None:
        self.version = line.version

    def _take_own(self, line: lines.Own) -> None:
        self.own = line.address

    def _take_setting(self, line: lines.Setting) -> None:
        if line.name == "hard":
            self.settings.hard = line.value
        elif line.name == "soft":
            self.settings.given_soft = line.value
        elif line.name == "backoff":
            self.settings.back_off = line.value

    def _take_end(self, _: lines.End) -> None:
        self.has_ended = True

    def _take_unresolved(self, line: lines.Unresolved) -> None:
        self.unresolved = line.count

    def _take_said(self, line: lines.Said) -> None:
        self.said = line.text

    def _take_now(self, line: lines.Now) -> None:
        self.moment = max(self.moment, line.moment)

    def _take_bytes(self, line: lines.BytesIn) -> None:
        self.bytes_in += line.size
        connection = self.connections.get(line.connection)
        if connection is not None:
            connection.bytes_in += line.size

    def _take_targets(self, line: lines.TargetsSet) -> None:
        self.targets[PeerClass.ORDINARY] = Targets(line.known, line.established, line.active)
        self.roots.target = line.root

    def _take_big_targets(self, line: lines.BigTargetsSet) -> None:
        self.targets[PeerClass.BIG] = Targets(line.known, line.established, line.active)

    def _take_locals(self, line: lines.LocalsSet) -> None:
        self.groups = cleaned(line.groups, self.own)
        for group in self.groups:
            for address in group.members:
                peer = self.peers.get(address)
                if peer is not None and peer.peer_class is PeerClass.BIG:
                    self._replace(peer, PeerClass.ORDINARY, peer.temperature)

    def _take_roots(self, line: lines.RootsFound) -> None:
        if line.job != self.roots.job:
            return
        others = [address for address in dict.fromkeys(line.addresses) if address != self.own]
        self.roots.addresses = tuple(others[: self.roots.target])
        self.roots.job = None
        self.roots.failures = 0
        self.roots.due = self.moment + line.lifetime

    def _take_failed_roots(self, line: lines.RootsFailed) -> None:
        if line.job != self.roots.job:
            return
        self.roots.job = None
        self.roots.failures += 1
        back_off = self._back_off(self.roots.failures)
        self.roots.due = back_off.until
        self._notice(Notice(self.moment, "roots failed", back_off=back_off))

    def _take_admit(self, line: lines.Admit) -> None:
        self.admitted += 1
        self._begin(line.connection, line.address, Dialer.THEM)

    def _take_turn_away(self, line: lines.TurnAway) -> None:
        self.turn_aways[line.cause] += 1
        who = self._event.address if isinstance(self._event, lines.Accepted) else "?"
        self.last_turned_away = f"{who}, {line.cause}"

    def _take_dial(self, line: lines.Dial) -> None:
        self.dialed += 1
        self._begin(line.connection, line.address, Dialer.US)

    def _take_send(self, line: lines.Send) -> None:
        self.bytes_out += line.size
        connection = self.connections.get(line.connection)
        if connection is not None:
            connection.bytes_out += line.size

    def _take_close(self, line: lines.Close) -> None:
        self.closes[line.cause] += 1
        what = line.cause
        if line.kind is not None:
            self.faults[line.kind] += 1
            what = f"fault {line.kind}"
        connection = self.connections.get(line.connection)
        back_off = None
        if connection is not None and line.cause != "unused":
            connection.is_ending = True
            if line.cause == "fault":
                self.troubles[connection.address] += 1
            if line.cause != "overwritten":
                back_off = self._fail_peer_of(connection, what)
        if line.cause not in ("unused", "query"):
            address = None if connection is None else connection.address
            self._notice(Notice(self.moment, what, line.connection, address, back_off))

    def _take_pause(self, line: lines.Pause) -> None:
        self.pauses += 1
        self.last_pause = line.duration
        self.paused_until = self.moment + line.duration

    def _take_ask(self, line: lines.AskRoots) -> None:
        self.roots.job = line.job

    def _take_state(self, line: lines.StateIs) -> None:
        connection = self.connections.get(line.connection)
        if line.name == "Terminated":
            if connection is not None:
                self._notice_loss(connection)
                self._drop(connection)
            return
        if connection is None:
            connection = self._begin(line.connection, "?", Dialer.UNKNOWN)
        if connection.state is not None:
            self.by_state[connection.state] -= 1
        self.by_state[line.name] += 1
        connection.state = line.name
        connection.since = self.moment

    def _take_peer(self, line: lines.PeerIs) -> None:
        peer = self.peers.get(line.address)
        if line.change == "forgotten":
            if peer is not None:
                self.by_temperature[peer.peer_class, peer.temperature] -= 1
                del self.peers[line.address]
            return
        if peer is None:
            is_big = isinstance(self._event, lines.BigsSet)
            peer = Peer(line.address, PeerClass.BIG if is_big else PeerClass.ORDINARY, self.moment)
            self.peers[line.address] = peer
            self.by_temperature[peer.peer_class, peer.temperature] += 1
        temperature = "cold" if line.change == "known" else line.change
        if temperature != peer.temperature:
            peer.since = self.moment
        self._replace(peer, peer.peer_class, temperature)
        if temperature == "warm":
            peer.failures = 0
            peer.left_alone_until = 0
            peer.trouble = None

    # what these share

    def _notice(self, notice: Notice) -> None:
        self.notices.append(notice)
        self.noticed += 1

    def _begin(self, identifier: int, address: str, dialer: Dialer) -> Connection:
        before = self.connections.get(identifier)
        if before is not None:
            self._drop(before)
        connection = Connection(identifier, address, dialer, self.moment, self.moment)
        self.connections[identifier] = connection
        return connection

    def _drop(self, connection: Connection) -> None:
        if connection.state is not None:
            self.by_state[connection.state] -= 1
        del self.connections[connection.id]

    def _replace(self, peer: Peer, peer_class: PeerClass, temperature: str) -> None:
        self.by_temperature[peer.peer_class, peer.temperature] -= 1
        self.by_temperature[peer_class, temperature] += 1
        peer.peer_class = peer_class
        peer.temperature = temperature

    def _notice_loss(self, connection: Connection) -> None:
        """A connection is gone without a close: its dial failed, or the other side closed it."""
        if connection.is_ending or connection.state == "Terminating":
            return
        if isinstance(self._event, lines.Dialed):
            what = "dial failed"
            self.failed_dials += 1
        elif connection.state in USED:
            what = "lost in use"
            self.lost["in use"] += 1
        elif connection.state in FAILS_ITS_PEER:
            what = "lost on the way"
            self.lost["on the way"] += 1
        else:
            # the other side closed what this one doesn't use, which troubles nobody
            self.lost["not in use"] += 1
            return
        self.troubles[connection.address] += 1
        back_off = self._fail_peer_of(connection, what)
        self._notice(Notice(self.moment, what, connection.id, connection.address, back_off))

    def _fail_peer_of(self, connection: Connection, what: str) -> BackOff | None:
        peer = self.peers.get(connection.address)
        if peer is None or connection.state not in FAILS_ITS_PEER:
            return None
        peer.failures = min(peer.failures + 1, MOST_FAILURES)
        back_off = self._back_off(peer.failures)
        peer.left_alone_until = back_off.until
        peer.trouble = what
        return back_off

    def _back_off(self, failures: int) -> BackOff:
        duration = self.settings.back_off << min(failures - 1, 5)
        return BackOff(duration, self.moment + duration, failures)


def cleaned(groups: tuple[lines.Group, ...], own: str | None) -> tuple[lines.Group, ...]:
    """The groups with each address in its first place alone, and without the own one."""
    seen = {own}
    result = []
    for group in groups:
        members = []
        for address in group.members:
            if address not in seen:
                seen.add(address)
                members.append(address)
        result.append(lines.Group(group.hot, group.warm, group.advertised, tuple(members)))
    return tuple(result)
