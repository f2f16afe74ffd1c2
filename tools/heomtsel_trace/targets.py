"""Targets of peers, and how churn lowers them for a minute each (docs/GOVERNOR.md)."""

from __future__ import annotations

from dataclasses import dataclass

PERIOD = 3_300_000
ACTIVE_WINDOW = (3_120_000, 3_180_000)
ESTABLISHED_WINDOW = (3_180_000, 3_240_000)
KNOWN_WINDOW = (3_240_000, 3_300_000)
EDGES = (0, 3_120_000, 3_180_000, 3_240_000)


@dataclass(frozen=True, slots=True)
class Targets:
    known: int = 0
    established: int = 0
    active: int = 0


def lowered(target: int) -> int:
    """A fifth less, rounded down, and at least one less."""
    return max(0, target - max(1, target // 5))


def is_within(window: tuple[int, int], moment: int) -> bool:
    first, last = window
    return first <= moment % PERIOD < last


def effective(targets: Targets, moment: int) -> Targets:
    """The targets that hold at a moment."""
    known, established, active = targets.known, targets.established, targets.active
    if is_within(ACTIVE_WINDOW, moment):
        return Targets(known, established, lowered(active))
    if is_within(ESTABLISHED_WINDOW, moment):
        return Targets(known, max(lowered(established), active), active)
    if is_within(KNOWN_WINDOW, moment):
        return Targets(max(lowered(known), established), established, active)
    return targets


def next_edge(moment: int) -> int:
    """The next moment at which a window begins or ends."""
    place = moment % PERIOD
    return moment - place + next((edge for edge in EDGES if edge > place), PERIOD)
