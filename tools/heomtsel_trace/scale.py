"""Where the events of a run stand from left to right, and which of many points show there."""

from __future__ import annotations

from dataclasses import dataclass

import numpy as np

from .durations import unit_for
from .history import History

MOST_POINTS = 2_000


@dataclass(frozen=True)
class Scale:
    """Where each event stands from left to right."""

    places: np.ndarray
    label: str
    moments: np.ndarray
    unit: int | None

    def place_of(self, moment: int) -> float:
        """Where a moment stands, at most at the end; over events the first one that is not before it."""
        if self.unit is not None:
            return min(moment / self.unit, self.last)
        at = int(np.searchsorted(self.moments, moment, side="left"))
        return float(self.places[min(at, len(self.places) - 1)])

    @property
    def first(self) -> float:
        return float(self.places[0])

    @property
    def last(self) -> float:
        return float(self.places[-1])

    @property
    def span(self) -> float:
        return max(self.last - self.first, 1e-9)


def scale_of(history: History, over: str | None) -> Scale:
    """Over the moments, or over the events where all of them are at one moment."""
    moments = np.array(history.moments, dtype=np.int64)
    length = int(moments[-1] - moments[0])
    if over == "events" or (over is None and length == 0):
        events = np.arange(len(moments), dtype=float)
        # what the last event has brought is seen for a while
        events[-1] -= 0.2
        at = f", all at moment {moments[0]} ms" if length == 0 else ""
        return Scale(events, f"event (number{at})", moments, None)
    name, unit = unit_for(length)
    return Scale(moments / unit, f"moment ({name})", moments, unit)


def thinned(across: np.ndarray, up: np.ndarray) -> tuple[np.ndarray, np.ndarray]:
    """The points that show: of each narrow strip the first, the least, the greatest and the last one."""
    if len(across) <= MOST_POINTS:
        return across, up
    strips = MOST_POINTS // 4
    edges = np.searchsorted(across, np.linspace(across[0], across[-1], strips + 1)[1:-1])
    kept = []
    for strip in np.split(np.arange(len(across)), edges):
        if len(strip):
            values = up[strip]
            kept.append(np.unique([strip[0], strip[np.argmin(values)], strip[np.argmax(values)], strip[-1]]))
    places = np.concatenate(kept)
    return across[places], up[places]


def last_of_each(across: np.ndarray) -> np.ndarray:
    """The places of the last point at each value, in steps that show."""
    last = np.flatnonzero(np.append(np.diff(across) > 0, True))
    if len(last) <= MOST_POINTS:
        return last
    steps = np.searchsorted(across[last], np.linspace(across[0], across[-1], MOST_POINTS), side="right") - 1
    return np.unique(last[steps])


def turns(*series: np.ndarray) -> np.ndarray:
    """The places where one of the series changes, with the first and the last one: all that steps need."""
    changes = np.any([np.diff(values) != 0 for values in series], axis=0)
    return np.flatnonzero(np.concatenate([[True], changes[:-1], [True]]) if len(changes) else np.array([True]))
