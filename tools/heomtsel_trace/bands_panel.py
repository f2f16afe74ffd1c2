"""Connections as bands, the rest of them in counts, and marks."""

from __future__ import annotations

from dataclasses import dataclass

import numpy as np
from matplotlib.axes import Axes
from matplotlib.collections import PolyCollection
from matplotlib.lines import Line2D
from matplotlib.patches import Patch

from .axes import beside, count_axis, headed, name_axis
from .history import MARKED_CAUSES, Life, Mark
from .palette import BLACK, MARK_LOOKS, PURPLE, STATE_LOOKS
from .run import Dialer
from .scale import Scale

MOST_BANDS = 48
MARK_CELLS = 30
REST_STEPS = 400
# of the whole length: the narrowest band, and the briefest state that is drawn by itself
NARROWEST = 0.004
BRIEFEST = 0.001


def end_of(life: Life, scale: Scale) -> float:
    return scale.last if life.gone is None else float(scale.places[life.gone])


def told_apart(lives: list[Life], scale: Scale) -> tuple[list[Life], list[Life]]:
    """The connections that are drawn as bands, the longest ones, and the rest; both in order of their coming."""
    if len(lives) <= MOST_BANDS:
        return lives, []
    lengths = [end_of(life, scale) - start_of(life, scale) for life in lives]
    longest = set(np.argsort(lengths, kind="stable")[-MOST_BANDS:].tolist())
    shown = [life for place, life in enumerate(lives) if place in longest]
    rest = [life for place, life in enumerate(lives) if place not in longest]
    return shown, rest


def start_of(life: Life, scale: Scale) -> float:
    return float(scale.places[life.spans[0][0]]) if life.spans else end_of(life, scale)


def spans_of(life: Life, scale: Scale) -> list[tuple[float, float, str]]:
    """From where to where which state was. Of states that follow each other too fast to be seen the longest one stands."""
    told: list[tuple[float, float, str]] = []
    ends = [float(scale.places[event]) for event, _ in life.spans[1:]] + [end_of(life, scale)]
    lengths: dict[str, float] = {}
    start = start_of(life, scale)
    for (event, name), end in zip(life.spans, ends):
        lengths[name] = lengths.get(name, 0.0) + end - float(scale.places[event])
        if end - start >= BRIEFEST * scale.span:
            most = max(lengths, key=lambda each: lengths[each])
            if told and told[-1][2] == most:
                start = told.pop()[0]
            told.append((start, end, most))
            start = end
            lengths.clear()
    if not told and life.spans:
        told.append((start, ends[-1], life.spans[-1][1]))
    return told


def draw_bands(axes: Axes, lives: list[Life], whole: int, scale: Scale) -> None:
    boxes: dict[str, list] = {}
    for row, life in enumerate(lives):
        for start, end, name in spans_of(life, scale):
            end = max(end, start + NARROWEST * scale.span)
            box = [(start, row - 0.38), (start, row + 0.38), (end, row + 0.38), (end, row - 0.38)]
            boxes.setdefault(name, []).append(box)
    handles = []
    for name, (color, hatch) in STATE_LOOKS.items():
        if name in boxes:
            look = {"facecolor": color, "hatch": hatch, "edgecolor": BLACK, "linewidth": 0.3}
            axes.add_collection(PolyCollection(boxes[name], **look))
            handles.append(Patch(label=name, **look))
    handles += draw_ends(axes, lives, scale)
    name_axis(axes, [label_of(life) for life in lives], 6)
    which = f"The {len(lives)} longest of {whole:,} connections" if len(lives) < whole else "Connections"
    headed(axes, f"{which}, each with its id and from or to whom, the newest below")
    beside(axes, handles)


def draw_ends(axes: Axes, lives: list[Life], scale: Scale) -> list[Line2D]:
    handles = []
    for cause in MARKED_CAUSES:
        marker, color = MARK_LOOKS[cause]
        rows = [row for row, life in enumerate(lives) if life.cause == cause]
        if rows:
            look = {"marker": marker, "markerfacecolor": color, "markeredgecolor": BLACK, "markeredgewidth": 0.6}
            across = [end_of(lives[row], scale) for row in rows]
            axes.plot(across, rows, linestyle="", markersize=6, zorder=5, clip_on=False, **look)
            label = cause if cause in ("lost", "dial failed") else f"closed: {cause}"
            handles.append(Line2D([], [], linestyle="", markersize=6, label=label, **look))
    for row, life in enumerate(lives):
        if life.kind is not None:
            draw_kind(axes, end_of(life, scale), row, life.kind, scale)
    return handles


def draw_kind(axes: Axes, across: float, row: int, kind: str, scale: Scale) -> None:
    """The kind of a fault beside its mark, on the side that has more room."""
    is_late = across > scale.first + 0.85 * scale.span
    axes.annotate(
        kind,
        (across, row),
        xytext=(-5 if is_late else 5, 0),
        textcoords="offset points",
        fontsize=6,
        va="center",
        ha="right" if is_late else "left",
        zorder=6,
        bbox={"boxstyle": "square,pad=0.1", "facecolor": "white", "linewidth": 0, "alpha": 0.85},
    )


def label_of(life: Life) -> str:
    way = {Dialer.THEM: "from", Dialer.US: "to", Dialer.UNKNOWN: "of"}[life.dialer]
    return f"{life.id} {way} {life.address}"


# The rest, in counts


def draw_rest(axes: Axes, lives: list[Life], scale: Scale) -> None:
    grid = np.linspace(scale.first, scale.last, REST_STEPS)
    names = list(STATE_LOOKS)
    changes = np.zeros((len(names), len(grid) + 1))
    starts, ends, states = [], [], []
    for life in lives:
        events = [event for event, _ in life.spans]
        starts += events
        ends += events[1:] + [life.gone if life.gone is not None else len(scale.places) - 1]
        states += [names.index(name) for _, name in life.spans]
    for events, change in ((starts, 1), (ends, -1)):
        np.add.at(changes, (np.array(states), np.searchsorted(grid, scale.places[events], side="left")), change)
    counts = changes.cumsum(axis=1)[:, :-1]
    below = np.zeros(len(grid))
    handles: list[Patch] = []
    for place, name in enumerate(names):
        if counts[place].any():
            color, hatch = STATE_LOOKS[name]
            look = {"facecolor": color, "hatch": hatch, "edgecolor": BLACK, "linewidth": 0.0}
            axes.fill_between(grid, below, below + counts[place], step="post", **look)
            handles.insert(0, Patch(label=name, **look))
            below = below + counts[place]
    count_axis(axes, "connections", float(below.max()))
    headed(axes, f"The other {len(lives):,} connections: how many there were at once, by state")
    beside(axes, handles)


@dataclass(frozen=True)
class MarkRow:
    name: str
    events: list[int]


def mark_rows(marks: list[Mark], folded: set[int]) -> list[MarkRow]:
    """Who was turned away, and the ends of connections that are not drawn as bands."""
    rows: dict[str, list[int]] = {}
    for mark in marks:
        if mark.connection is None or mark.connection in folded:
            name = mark.what if mark.connection is None else f"{mark.what}, of the others"
            rows.setdefault(name, []).append(mark.event)
    return [MarkRow(name, rows[name]) for name in sorted(rows)]


def draw_marks(axes: Axes, rows: list[MarkRow], scale: Scale) -> None:
    edges = np.linspace(scale.first, scale.last, MARK_CELLS + 1)
    for place, row in enumerate(rows):
        across = scale.places[row.events]
        cells = np.clip(np.searchsorted(edges, across, side="right") - 1, 0, MARK_CELLS - 1)
        look = MARK_LOOKS.get(what_of(row.name), ("o", PURPLE))
        for cell in np.unique(cells):
            within = across[cells == cell]
            if len(within) == 1:
                draw_mark(axes, float(within[0]), place, look)
            else:
                draw_count(axes, float(edges[cell] + edges[cell + 1]) / 2, place, len(within))
    name_axis(axes, [f"{row.name}: {len(row.events):,}" for row in rows], 6.5)
    headed(axes, f"Marks; a number tells how many stand within one of {MARK_CELLS} equal parts")


def what_of(name: str) -> str:
    return next((cause for cause in MARKED_CAUSES if name.startswith(cause)), name)


def draw_mark(axes: Axes, across: float, row: int, look: tuple[str, str]) -> None:
    marker, color = look
    axes.plot(
        [across], [row], marker, markersize=5, markerfacecolor=color, markeredgecolor=BLACK, zorder=5, clip_on=False
    )


def draw_count(axes: Axes, across: float, row: int, count: int) -> None:
    box = {"boxstyle": "round,pad=0.15", "facecolor": "white", "edgecolor": BLACK, "linewidth": 0.5}
    axes.text(across, row, short(count), ha="center", va="center", fontsize=5.5, bbox=box)


def short(count: int) -> str:
    return str(count) if count < 10_000 else f"{count // 1000}k"
