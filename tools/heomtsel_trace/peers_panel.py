"""The peers of a class by temperature, against the targets after churn."""

from __future__ import annotations

import numpy as np
from matplotlib.axes import Axes
from matplotlib.lines import Line2D
from matplotlib.patches import Patch
from matplotlib.patheffects import withStroke

from .axes import Panel, beside, count_axis, draw_spans, draw_step, headed
from .history import PeerCounts
from .palette import BLACK, TEMPERATURE_LOOKS, YELLOW
from .run import PeerClass
from .scale import Scale, last_of_each, turns
from .targets import EDGES, PERIOD, Targets, effective

MOST_PERIODS = 500


def peers_panel(scale: Scale, peer_class: PeerClass, counts: PeerCounts) -> Panel:
    return Panel(1.9, lambda axes: draw_peers(axes, scale, peer_class, counts))


def draw_peers(axes: Axes, scale: Scale, peer_class: PeerClass, counts: PeerCounts) -> None:
    areas, most = draw_temperatures(axes, scale, counts)
    lines, greatest = draw_targets(axes, scale, counts)
    lines += draw_churn(axes, scale)
    most = max(most, greatest)
    least = max(max(counts.hot), max(target.active for target in counts.targets), 1)
    unit = "peers"
    if most > 12 * least:
        axes.set_yscale("function", functions=(lambda y: np.sqrt(np.maximum(y, 0)), np.square))
        unit = "peers (square-root scale)"
    count_axis(axes, unit, most)
    which = (
        "the targets after churn"
        if shows_churn(scale)
        else "the targets (the windows of churn are too many to be drawn)"
    )
    headed(axes, f"{peer_class.value.capitalize()} peers by temperature, and {which}")
    beside(axes, areas + lines)


def draw_temperatures(axes: Axes, scale: Scale, counts: PeerCounts) -> tuple[list[Patch], int]:
    """The areas lie on each other, so that their upper edges are the active, the established and the known peers."""
    layers = {"hot": np.array(counts.hot), "warm": np.array(counts.warm), "cold": np.array(counts.cold)}
    places = last_of_each(scale.places)
    places = places[turns(*(values[places] for values in layers.values()))]
    below = np.zeros(len(places))
    areas: list[Patch] = []
    for temperature, values in layers.items():
        color, hatch = TEMPERATURE_LOOKS[temperature]
        look = {"facecolor": color, "hatch": hatch, "edgecolor": BLACK, "linewidth": 0.3}
        above = below + values[places]
        axes.fill_between(scale.places[places], below, above, step="post", **look)
        areas.insert(0, Patch(label=temperature, **look))
        below = above
    return areas, int(below.max())


def draw_targets(axes: Axes, scale: Scale, counts: PeerCounts) -> tuple[list[Line2D], int]:
    across, targets = targets_over(scale, counts)
    lines = []
    for name, values, style in (
        ("known: all", [each.known for each in targets], "-"),
        ("established: warm or hot", [each.established for each in targets], "--"),
        ("active: hot", [each.active for each in targets], ":"),
    ):
        look = {"color": BLACK, "linestyle": style, "linewidth": 1.3, "label": f"target of {name}"}
        line = draw_step(axes, across, np.array(values), **look)
        line.set_path_effects([withStroke(linewidth=2.6, foreground="white")])
        lines.append(line)
    return lines, max(each.known for each in targets)


def targets_over(scale: Scale, counts: PeerCounts) -> tuple[np.ndarray, list[Targets]]:
    """The targets that hold at each event; over moments also where a window of churn begins or ends."""
    if scale.unit is None:
        return scale.places, [effective(each, int(at)) for each, at in zip(counts.targets, scale.moments)]
    if not shows_churn(scale):
        return scale.places, counts.targets
    moments = np.unique(np.concatenate([scale.moments, churn_edges(scale)]))
    last_events = np.searchsorted(scale.moments, moments, side="right") - 1
    return moments / scale.unit, [effective(counts.targets[event], int(at)) for event, at in zip(last_events, moments)]


def draw_churn(axes: Axes, scale: Scale) -> list[Patch]:
    """The windows in which churn lowers a target, where they are within sight."""
    if scale.unit is None or not shows_churn(scale):
        return []
    spans = []
    first, last = int(scale.moments[0]), int(scale.moments[-1])
    for period in range(first // PERIOD, last // PERIOD + 1):
        start, end = period * PERIOD + EDGES[1], (period + 1) * PERIOD
        if start <= last and end >= first:
            spans.append((max(start, first) / scale.unit, min(end, last) / scale.unit))
    return [draw_spans(axes, spans, "churn lowers targets", facecolor=YELLOW)] if spans else []


def shows_churn(scale: Scale) -> bool:
    """Whether the windows of churn are so few that they can be seen, or each event tells its own."""
    return scale.unit is None or int(scale.moments[-1] - scale.moments[0]) <= MOST_PERIODS * PERIOD


def churn_edges(scale: Scale) -> np.ndarray:
    first, last = int(scale.moments[0]), int(scale.moments[-1])
    edges = (period * PERIOD + edge for period in range(first // PERIOD, last // PERIOD + 1) for edge in EDGES)
    return np.array([edge for edge in edges if first <= edge <= last], dtype=np.int64)
