"""What the lines of a trace say (docs/TRACE.md)."""

from __future__ import annotations

from dataclasses import dataclass

TURN_AWAYS = ("full", "self", "crossed", "present")
CLOSE_CAUSES = ("unused", "pruned", "overwritten", "refused", "query")
FAULT_KINDS = ("malformed", "deep", "toolong", "protocol", "unknownid", "handshakewait", "replywait")
STATE_NAMES = (
    "ReservedOutbound",
    "UnnegotiatedOutbound",
    "UnnegotiatedInbound",
    "InboundIdle",
    "Inbound",
    "Duplex",
    "OutboundUni",
    "OutboundDupTicking",
    "OutboundDupExpired",
    "OutboundIdle",
    "Terminating",
    "Terminated",
)
PEER_CHANGES = ("known", "cold", "warm", "hot", "forgotten")

# The head and the end


@dataclass(frozen=True, slots=True)
class Version:
    version: int


@dataclass(frozen=True, slots=True)
class Own:
    address: str


@dataclass(frozen=True, slots=True)
class Setting:
    name: str
    value: int


@dataclass(frozen=True, slots=True)
class End:
    pass


# Events


@dataclass(frozen=True, slots=True)
class Event:
    """What every event line is."""


@dataclass(frozen=True, slots=True)
class Now(Event):
    moment: int


@dataclass(frozen=True, slots=True)
class Govern(Event):
    word: int


@dataclass(frozen=True, slots=True)
class Accepted(Event):
    address: str


@dataclass(frozen=True, slots=True)
class Dialed(Event):
    connection: int
    succeeded: bool


@dataclass(frozen=True, slots=True)
class BytesIn(Event):
    connection: int
    octets: str

    @property
    def size(self) -> int:
        return len(self.octets) // 2


@dataclass(frozen=True, slots=True)
class Closed(Event):
    connection: int


@dataclass(frozen=True, slots=True)
class TargetsSet(Event):
    root: int
    known: int
    established: int
    active: int


@dataclass(frozen=True, slots=True)
class BigTargetsSet(Event):
    known: int
    established: int
    active: int


@dataclass(frozen=True, slots=True)
class Group:
    """A group of local peers: how many are to be hot, how many warm or hot, and whether they are told to others."""

    hot: int
    warm: int
    advertised: bool
    members: tuple[str, ...]


@dataclass(frozen=True, slots=True)
class LocalsSet(Event):
    groups: tuple[Group, ...]


@dataclass(frozen=True, slots=True)
class RootsFound(Event):
    job: int
    lifetime: int
    addresses: tuple[str, ...]


@dataclass(frozen=True, slots=True)
class RootsFailed(Event):
    job: int


@dataclass(frozen=True, slots=True)
class BigsSet(Event):
    addresses: tuple[str, ...]


# Actions


@dataclass(frozen=True, slots=True)
class Action:
    """What every action line is."""


@dataclass(frozen=True, slots=True)
class Admit(Action):
    connection: int
    address: str


@dataclass(frozen=True, slots=True)
class TurnAway(Action):
    cause: str


@dataclass(frozen=True, slots=True)
class Dial(Action):
    connection: int
    address: str


@dataclass(frozen=True, slots=True)
class Send(Action):
    connection: int
    octets: str

    @property
    def size(self) -> int:
        return len(self.octets) // 2


@dataclass(frozen=True, slots=True)
class Close(Action):
    """The cause is one of CLOSE_CAUSES, or `fault` with its kind."""

    connection: int
    cause: str
    kind: str | None = None


@dataclass(frozen=True, slots=True)
class Pause(Action):
    duration: int


@dataclass(frozen=True, slots=True)
class AskRoots(Action):
    job: int


@dataclass(frozen=True, slots=True)
class StateIs(Action):
    connection: int
    name: str


@dataclass(frozen=True, slots=True)
class PeerIs(Action):
    address: str
    change: str


@dataclass(frozen=True, slots=True)
class Unresolved:
    """What a node says on standard error when it has read its files: so many names were not looked up."""

    count: int


@dataclass(frozen=True, slots=True)
class Said:
    """What the program says on standard error where it ends by a fault."""

    text: str


@dataclass(frozen=True, slots=True)
class NoTrace:
    """A line of something else, as it may be shown."""

    text: str


Line = Version | Own | Setting | End | Event | Action | Unresolved | Said | NoTrace
