"""A run as it went: what stood after each event, and the life of each connection."""

from __future__ import annotations

from dataclasses import dataclass, field
from typing import TYPE_CHECKING

from . import lines
from .run import Dialer, Notice, PeerClass, Run
from .targets import Targets

if TYPE_CHECKING:
    from .follow import Follower

MARKED_CAUSES = ("fault", "pruned", "overwritten", "dial failed", "lost")


@dataclass(slots=True)
class Life:
    """The life of a connection. Its spans are the states that it came to, each with the event in which it did."""

    id: int
    address: str
    dialer: Dialer
    spans: list[tuple[int, str]] = field(default_factory=list)
    gone: int | None = None
    # one of MARKED_CAUSES, and of a fault its kind
    cause: str | None = None
    kind: str | None = None


@dataclass(frozen=True, slots=True)
class Mark:
    """A connection that was turned away or ended in an event. Who is turned away has no connection."""

    event: int
    what: str
    connection: int | None


@dataclass
class PeerCounts:
    """The peers of a class after each event, and the targets that were set."""

    cold: list[int] = field(default_factory=list)
    warm: list[int] = field(default_factory=list)
    hot: list[int] = field(default_factory=list)
    targets: list[Targets] = field(default_factory=list)

    def add(self, run: Run, peer_class: PeerClass) -> None:
        self.cold.append(run.by_temperature[peer_class, "cold"])
        self.warm.append(run.by_temperature[peer_class, "warm"])
        self.hot.append(run.by_temperature[peer_class, "hot"])
        self.targets.append(run.targets[peer_class])

    def is_empty(self) -> bool:
        """Whether there is nobody and nobody is wanted."""
        return not any(self.cold) and not any(self.warm) and not any(self.hot) and set(self.targets) <= {Targets()}


@dataclass
class History:
    """Place 0 of each list is before the first event, place n is after the n-th one, and one more closes them."""

    run: Run = field(default_factory=Run)
    moments: list[int] = field(default_factory=list)
    counted: list[int] = field(default_factory=list)
    peers: dict[PeerClass, PeerCounts] = field(default_factory=lambda: {each: PeerCounts() for each in PeerClass})
    lives: list[Life] = field(default_factory=list)
    marks: list[Mark] = field(default_factory=list)
    # the event of each pause, and the moment until which it lasts
    pauses: list[tuple[int, int]] = field(default_factory=list)
    # where one connection or one peer is asked for: what it says and hears, its temperatures, and when it is left alone
    follower: Follower | None = None
    temperatures: list[tuple[int, str]] = field(default_factory=list)
    back_offs: list[tuple[int, int]] = field(default_factory=list)
    _living: dict[int, Life] = field(default_factory=dict)
    _noticed: int = 0

    @property
    def event(self) -> int:
        return len(self.moments)

    def take(self, line: lines.Line, line_number: int) -> None:
        if isinstance(line, lines.Event):
            self._sample()
        self.run.take(line, line_number)
        if self.run.noticed > self._noticed:
            self._noticed = self.run.noticed
            self._mark_loss(self.run.notices[-1])
            self._keep_back_off(self.run.notices[-1])
        if self.follower is not None:
            self.follower.take(line, self.run)
            self._keep_temperature(line)
        if isinstance(line, lines.Action):
            self._follow(line)

    def _keep_temperature(self, line: lines.Line) -> None:
        if isinstance(line, lines.PeerIs) and line.address == self.follower.address:
            change = "cold" if line.change == "known" else line.change
            self.temperatures.append((self.event, change))

    def _keep_back_off(self, notice: Notice) -> None:
        if self.follower is not None and notice.back_off is not None and notice.address == self.follower.address:
            self.back_offs.append((self.event, notice.back_off.until))

    def end(self) -> None:
        self._sample()
        self._sample()

    def _sample(self) -> None:
        self.moments.append(self.run.moment)
        self.counted.append(self.run.counted)
        for peer_class, counts in self.peers.items():
            counts.add(self.run, peer_class)

    def _follow(self, line: lines.Action) -> None:
        match line:
            case lines.Admit(connection, address):
                self._begin(Life(connection, address, Dialer.THEM))
            case lines.Dial(connection, address):
                self._begin(Life(connection, address, Dialer.US))
            case lines.TurnAway(cause):
                self.marks.append(Mark(self.event, f"turned away, {cause}", None))
            case lines.Close(connection, cause, kind):
                self._close(connection, cause, kind)
            case lines.Pause(duration):
                self.pauses.append((self.event, self.run.moment + duration))
            case lines.StateIs(connection, name):
                self._change(connection, name)

    def _begin(self, life: Life) -> None:
        self.lives.append(life)
        self._living[life.id] = life

    def _close(self, connection: int, cause: str, kind: str | None) -> None:
        if cause in MARKED_CAUSES:
            self._mark(connection, cause, kind)

    def _mark_loss(self, notice: Notice) -> None:
        """A dial that failed, and a connection that was lost while this node used it or was on its way to it."""
        if notice.connection is not None and notice.what in ("dial failed", "lost in use", "lost on the way"):
            self._mark(notice.connection, notice.what.split(" in ")[0].split(" on ")[0], None)

    def _mark(self, connection: int, cause: str, kind: str | None) -> None:
        self.marks.append(Mark(self.event, cause if kind is None else f"{cause} {kind}", connection))
        life = self._living.get(connection)
        if life is not None:
            life.cause, life.kind = cause, kind

    def _change(self, connection: int, name: str) -> None:
        life = self._living.get(connection)
        if life is None:
            life = Life(connection, "?", Dialer.UNKNOWN)
            self._begin(life)
        if name == "Terminated":
            life.gone = self.event
            del self._living[connection]
        else:
            life.spans.append((self.event, name))
