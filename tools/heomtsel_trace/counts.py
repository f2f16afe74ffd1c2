"""The counts of a run, as families of metrics."""

from __future__ import annotations

from collections.abc import Iterator
from dataclasses import dataclass

from .lines import CLOSE_CAUSES, FAULT_KINDS, STATE_NAMES, TURN_AWAYS
from .run import PeerClass, Run

LOSSES = ("in use", "on the way", "not in use")
TEMPERATURES = ("cold", "warm", "hot")


@dataclass(frozen=True)
class Family:
    """What is counted, whether it only rises, and each value with its labels."""

    name: str
    told: str
    rises: bool
    values: tuple[tuple[dict[str, str], float], ...]


def one(name: str, told: str, value: float, rises: bool = False) -> Family:
    return Family(name, told, rises, (({}, value),))


def by(name: str, told: str, label: str, values: dict[str, float], rises: bool = False) -> Family:
    return Family(name, told, rises, tuple(({label: each}, value) for each, value in values.items()))


def families(run: Run) -> Iterator[Family]:
    yield Family(
        "info",
        "the node and the version of its trace",
        False,
        (({"own": run.own or "", "version": str(run.version or "")}, 1),),
    )
    yield one("moment_seconds", "the moment that the trace has reached", run.moment / 1000)
    yield one("events", "events of the trace", run.events, True)
    yield one("actions", "actions of the node", run.actions, True)
    yield one("lines_without_trace", "lines that were no trace", run.lines_without_trace, True)
    yield from of_connections(run)
    yield from of_peers(run)


def of_connections(run: Run) -> Iterator[Family]:
    yield one("counted_connections", "the connections that the limits speak of", run.counted)
    yield by(
        "connection_limit",
        "the limits on counted connections",
        "limit",
        {"hard": run.settings.hard, "soft": run.settings.soft},
    )
    states = {name: run.by_state[name] for name in STATE_NAMES if name != "Terminated"}
    yield by("connections", "connections, by the name of their state", "state", states)
    yield one("accepted", "connections that others dialed and that were let in", run.admitted, True)
    yield one("dialed", "connections that this node dialed", run.dialed, True)
    yield one("failed_dials", "dials that failed", run.failed_dials, True)
    yield by(
        "turned_away",
        "those who were turned away, by cause",
        "cause",
        {cause: run.turn_aways[cause] for cause in TURN_AWAYS},
        True,
    )
    yield by(
        "closed",
        "connections that this node closed, by cause",
        "cause",
        {cause: run.closes[cause] for cause in (*CLOSE_CAUSES, "fault")},
        True,
    )
    yield by(
        "faults",
        "connections that were closed for a fault, by kind",
        "kind",
        {kind: run.faults[kind] for kind in FAULT_KINDS},
        True,
    )
    yield by(
        "lost",
        "connections that the other side closed, by their use",
        "use",
        {use: run.lost[use] for use in LOSSES},
        True,
    )
    yield one("pauses", "pauses in accepting", run.pauses, True)
    yield one(
        "paused_seconds", "for how long nobody is accepted from now on", max(0, run.paused_until - run.moment) / 1000
    )
    yield by("bytes", "bytes of all connections", "way", {"in": run.bytes_in, "out": run.bytes_out}, True)


def of_peers(run: Run) -> Iterator[Family]:
    peers, targets, usual = [], [], []
    for each in PeerClass:
        name = {"class": each.value}
        peers += [({**name, "temperature": temp}, run.by_temperature[each, temp]) for temp in TEMPERATURES]
        for into, told in ((targets, run.effective(each)), (usual, run.targets[each])):
            into += [
                ({**name, "of": "known"}, told.known),
                ({**name, "of": "established"}, told.established),
                ({**name, "of": "active"}, told.active),
            ]
    yield Family("peers", "peers in the book, by class and temperature", False, tuple(peers))
    yield Family("target", "the targets of this moment, after churn", False, tuple(targets))
    yield Family("usual_target", "the targets as they were set", False, tuple(usual))
    failing = sum(peer.failures > 0 for peer in run.peers.values())
    yield one("failing_peers", "peers that failed and were not in use since", failing)
    yield one("public_roots", "public root peers", len(run.roots.addresses))
    yield one("public_root_target", "the target of public root peers", run.roots.target)
    members, wanted = [], []
    for place, group in enumerate(run.groups, 1):
        temps = [run.peers[member].temperature for member in group.members if member in run.peers]
        name = {"group": str(place)}
        members += [({**name, "temperature": temp}, temps.count(temp)) for temp in TEMPERATURES]
        wanted += [({**name, "of": "hot"}, group.hot), ({**name, "of": "warm or hot"}, group.warm)]
    if run.groups:
        yield Family("group_members", "members of the local groups that are in the book", False, tuple(members))
        yield Family("group_valency", "how many members of a local group are wanted", False, tuple(wanted))
