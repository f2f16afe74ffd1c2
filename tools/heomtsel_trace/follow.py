"""One connection or one peer, from its beginning on: what came, what was done, and what the bytes say."""

from __future__ import annotations

from collections import deque
from dataclasses import dataclass

from . import lines
from .durations import clock, in_words
from .run import Run
from .wire import Segment, Stream

MOST_ENTRIES = 100_000
IN, OUT, HERE = "<-", "->", "  "


@dataclass(frozen=True, slots=True)
class Entry:
    moment: int
    event: int
    connection: int | None
    way: str
    text: str
    is_wrong: bool = False
    # of bytes: the protocol of the message
    protocol: str | None = None


class Follower:
    """Takes the lines of a trace behind the run that took them, and keeps what one address has to do with."""

    def __init__(self, whom: str) -> None:
        self.whom = whom
        self.entries: deque[Entry] = deque(maxlen=MOST_ENTRIES)
        self._ids: set[int] = set()
        # its address: that of the connection, where an id was named
        self.address = whom
        self._streams: dict[tuple[int, str], Stream] = {}
        self._event: lines.Event | None = None
        self._notices = 0

    def take(self, line: lines.Line, run: Run) -> None:
        if isinstance(line, lines.Event):
            self._event = line
        match line:
            case lines.Accepted(address) if address == self.whom:
                self._add(run, None, IN, "connects")
            case lines.TurnAway(cause) if isinstance(self._event, lines.Accepted) and self._event.address == self.whom:
                self._add(run, None, HERE, f"is turned away: {cause}", True)
            case lines.Admit(connection, address) if self._is_of(connection, address):
                self._begin(connection, address)
                self._add(run, connection, HERE, f"let in, as connection {connection}")
            case lines.Dial(connection, address) if self._is_of(connection, address):
                self._begin(connection, address)
                self._add(run, connection, OUT, f"dialed, as connection {connection}")
            case lines.Dialed(connection, succeeded) if connection in self._ids:
                self._add(run, connection, IN, "the dial succeeded" if succeeded else "the dial failed", not succeeded)
            case lines.BytesIn(connection, octets) if connection in self._ids:
                self._add_bytes(run, connection, IN, octets)
            case lines.Send(connection, octets) if connection in self._ids:
                self._add_bytes(run, connection, OUT, octets)
            case lines.Closed(connection) if connection in self._ids:
                self._add(run, connection, IN, "the other side closes")
            case lines.Close(connection, cause, kind) if connection in self._ids:
                self._add(run, connection, OUT, f"closed: {cause}" + (f" {kind}" if kind else ""), cause == "fault")
            case lines.StateIs(connection, name) if connection in self._ids:
                self._add(run, connection, HERE, f"state {name}")
            case lines.PeerIs(address, change) if address == self.address:
                self._add(run, None, HERE, f"the peer is {change}")
        self._add_failure(run)

    def _is_of(self, connection: int, address: str) -> bool:
        return self.whom in (address, str(connection))

    def _begin(self, connection: int, address: str) -> None:
        self._ids.add(connection)
        self.address = address

    def _add(
        self, run: Run, connection: int | None, way: str, text: str, is_wrong: bool = False, protocol: str | None = None
    ) -> None:
        self.entries.append(Entry(run.moment, run.events, connection, way, text, is_wrong, protocol))

    def _add_bytes(self, run: Run, connection: int, way: str, octets: str) -> None:
        stream = self._streams.setdefault((connection, way), Stream())
        before = stream.fault
        segments = stream.feed(bytes.fromhex(octets))
        if not segments:
            why = "behind a fault" if before else "a part of a segment"
            self._add(run, connection, way, f"{len(octets) // 2} bytes, {why}")
        for segment in segments:
            self._add_segment(run, connection, way, segment, stream.protocol_name(segment.protocol))

    def _add_segment(self, run: Run, connection: int, way: str, segment: Segment, protocol: str) -> None:
        heading = f"{protocol:<13} {segment.side:<10}"
        for message in segment.messages:
            self._add(run, connection, way, f"{heading} {message.said}", message.is_wrong, protocol)
        if segment.wrong:
            self._add(run, connection, way, f"{heading} {segment.wrong}", True, protocol)
        elif not segment.messages:
            self._add(
                run,
                connection,
                way,
                f"{heading} {len(segment.payload)} bytes of an item that isn't whole",
                protocol=protocol,
            )

    def _add_failure(self, run: Run) -> None:
        """What the run noticed since the last line, of how long the peer is left alone."""
        new = run.noticed - self._notices
        self._notices = run.noticed
        for notice in list(run.notices)[-new:] if new else ():
            if notice.connection in self._ids and notice.back_off is not None:
                alone = in_words(notice.back_off.duration)
                self._add(
                    run,
                    notice.connection,
                    HERE,
                    f"the peer failed, {notice.back_off.failures} in a row: left alone for {alone}",
                    True,
                )


def entry_cells(entry: Entry) -> tuple[str, ...]:
    return clock(entry.moment), "" if entry.connection is None else str(entry.connection), entry.way, entry.text
