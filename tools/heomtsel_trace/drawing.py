"""A run as a picture: connections against the limits, peers against their targets, and each connection as a band."""

from __future__ import annotations

import matplotlib
from matplotlib.axes import Axes
from matplotlib.figure import Figure
from matplotlib.ticker import MaxNLocator, ScalarFormatter

from .axes import Panel
from .bands_panel import draw_bands, draw_marks, draw_rest, mark_rows, told_apart
from .durations import in_words
from .history import History
from .limits_panel import draw_limits
from .palette import GREY
from .peers_panel import peers_panel
from .scale import Scale, scale_of

WIDTH = 11.0

STYLE = {
    "font.size": 8,
    "font.family": "sans-serif",
    "font.sans-serif": ["DejaVu Sans", "Verdana", "sans-serif"],
    "hatch.linewidth": 0.4,
    # text stays text, and one trace gives one file
    "svg.fonttype": "none",
    "svg.hashsalt": "heomtsel",
}


def picture(history: History, over: str | None) -> Figure:
    matplotlib.rcParams.update(STYLE)
    scale = scale_of(history, over)
    panels = panels_of(history, scale) if history.follower is None else panels_of_one(history, scale)
    heights = [panel.height for panel in panels]
    figure = Figure(figsize=(WIDTH, sum(heights) + 0.9 + 0.15 * len(panels)), layout="constrained")
    figure.suptitle("\n".join(title_of(history)), x=0.01, ha="left", fontsize=9)
    every = figure.subplots(len(panels), 1, sharex=True, squeeze=False, gridspec_kw={"height_ratios": heights})[:, 0]
    for axes, panel in zip(every, panels):
        panel.draw(axes)
        axes.grid(axis="x", color=GREY, linewidth=0.4)
        axes.set_axisbelow(True)
    bounds = (scale.first, scale.last) if history.follower is None else bounds_of_one(history, scale)
    label_bottom(every[-1], scale, bounds)
    return figure


def panels_of_one(history: History, scale: Scale) -> list[Panel]:
    from .single_panel import single_panels

    return single_panels(history, scale)


def bounds_of_one(history: History, scale: Scale) -> tuple[float, float]:
    from .single_panel import bounds_of

    return bounds_of(history, scale)


def label_bottom(axes: Axes, scale: Scale, bounds: tuple[float, float]) -> None:
    first, last = bounds
    margin = 0.015 * (last - first)
    axes.set_xlim(first - margin, last + margin)
    axes.set_xlabel(scale.label)
    if scale.unit is None:
        axes.xaxis.set_major_locator(MaxNLocator(integer=True))
    formatter = ScalarFormatter(useOffset=False)
    formatter.set_scientific(False)
    axes.xaxis.set_major_formatter(formatter)


def panels_of(history: History, scale: Scale) -> list[Panel]:
    panels = [Panel(1.4, lambda axes: draw_limits(axes, history, scale))]
    for peer_class, counts in history.peers.items():
        if not counts.is_empty():
            panels.append(peers_panel(scale, peer_class, counts))
    shown, rest = told_apart(history.lives, scale)
    if shown:
        whole = len(history.lives)
        panels.append(Panel(0.25 + max(0.5, 0.15 * len(shown)), lambda axes: draw_bands(axes, shown, whole, scale)))
    if rest:
        panels.append(Panel(1.4, lambda axes: draw_rest(axes, rest, scale)))
    rows = mark_rows(history.marks, {life.id for life in rest})
    if rows:
        panels.append(Panel(0.25 + 0.2 * len(rows), lambda axes: draw_marks(axes, rows, scale)))
    return panels


def title_of(history: History) -> list[str]:
    if history.follower is not None:
        return title_of_one(history)
    run = history.run
    own = run.own or "a node that was not told"
    length = in_words(history.moments[-1] - history.moments[0])
    turned = sum(run.turn_aways.values())
    told = [f"The run of {own}, trace version {run.version or 'not told'}: {run.events:,} events in {length}"]
    totals = (
        f"{run.admitted:,} connections accepted, {turned:,} turned away, {run.dialed:,} dialed; "
        f"{run.closes['fault']:,} closed for a fault, {run.closes['pruned']:,} pruned, "
        f"{run.closes['overwritten']:,} overwritten"
    )
    notes = []
    if run.actions:
        told.append(totals)
    else:
        notes.append("no action lines: what the node did is not told (./heomtsel replay writes them)")
    if not run.has_ended:
        notes.append("the trace breaks off before its end")
    if run.lines_without_trace:
        notes.append(f"{run.lines_without_trace:,} lines were no trace and are left out")
    if run.actions and all(counts.is_empty() for counts in history.peers.values()):
        notes.append("no peers are known, and none are wanted")
    return told + (["; ".join(notes)] if notes else [])


def title_of_one(history: History) -> list[str]:
    follower = history.follower
    what = (
        f"Connection {follower.whom}, of {follower.address}" if follower.whom.isdigit() else f"The peer {follower.whom}"
    )
    lives = sum(follower.whom in (life.address, str(life.id)) for life in history.lives)
    told = f"{lives} connection{'' if lives == 1 else 's'}, {len(follower.entries)} things that happened"
    return [f"{what}, in the run of {history.run.own or 'a node that was not told'}", told]
