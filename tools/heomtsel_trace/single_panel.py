"""One connection or one peer: its bands, its temperature, and each message."""

from __future__ import annotations

from matplotlib.axes import Axes
from matplotlib.lines import Line2D
from matplotlib.patches import Patch

from .axes import Panel, beside, headed, name_axis
from .bands_panel import draw_bands
from .follow import IN, OUT, Entry
from .history import History, Life
from .palette import BLACK, BLUE, GREY, ORANGE, TEMPERATURE_LOOKS, VERMILLION
from .scale import Scale

WAYS = {IN: (">", BLUE, "received"), OUT: ("<", ORANGE, "sent")}


def single_panels(history: History, scale: Scale) -> list[Panel]:
    follower = history.follower
    whom = follower.whom
    lives = [life for life in history.lives if whom in (life.address, str(life.id))]
    panels = []
    if history.temperatures:
        panels.append(Panel(0.7, lambda axes: draw_temperature(axes, history, scale)))
    if lives:
        panels.append(Panel(0.3 + max(0.5, 0.22 * len(lives)), lambda axes: draw_lives(axes, lives, scale)))
    rows = message_rows(list(follower.entries))
    if rows:
        panels.append(Panel(0.3 + 0.24 * len(rows), lambda axes: draw_messages(axes, rows, scale)))
    return panels


def draw_lives(axes: Axes, lives: list[Life], scale: Scale) -> None:
    draw_bands(axes, lives, len(lives), scale)


def draw_temperature(axes: Axes, history: History, scale: Scale) -> None:
    handles: dict[str, Patch] = {}
    changes = [*history.temperatures, (len(scale.places) - 1, "forgotten")]
    for (event, temperature), (next_event, _) in zip(changes, changes[1:]):
        if temperature != "forgotten":
            color, hatch = TEMPERATURE_LOOKS[temperature]
            look = {"facecolor": color, "hatch": hatch, "edgecolor": BLACK, "linewidth": 0.3}
            axes.fill_between([scale.places[event], scale.places[next_event]], 0.35, 1, **look)
            handles[temperature] = Patch(label=temperature, **look)
    for event, until in history.back_offs:
        look = {"facecolor": GREY, "hatch": "//", "edgecolor": BLACK, "linewidth": 0.3}
        axes.fill_between([scale.places[event], scale.place_of(until)], 0, 0.25, **look)
        handles["left alone"] = Patch(label="left alone (back-off)", **look)
    axes.set_ylim(0, 1.05)
    axes.set_yticks([])
    headed(axes, f"The peer {history.follower.address}: its temperature, and when it is left alone")
    beside(axes, list(handles.values()))


def message_rows(entries: list[Entry]) -> dict[str, list[Entry]]:
    """The messages of each protocol, and what else went wrong."""
    rows: dict[str, list[Entry]] = {}
    for entry in entries:
        if entry.protocol is not None:
            rows.setdefault(entry.protocol, []).append(entry)
    return rows


def draw_messages(axes: Axes, rows: dict[str, list[Entry]], scale: Scale) -> None:
    handles: dict[str, Line2D] = {}
    for place, entries in enumerate(rows.values()):
        for entry in entries:
            marker, color, told = WAYS[entry.way]
            if entry.is_wrong:
                marker, color, told = "X", VERMILLION, "wrong"
            look = {
                "marker": marker,
                "markerfacecolor": color,
                "markeredgecolor": BLACK,
                "markeredgewidth": 0.5,
                "markersize": 6,
            }
            # what was received stands a little higher than what was sent
            height = place + (-0.17 if entry.way == IN else 0.17)
            axes.plot([float(scale.places[entry.event])], [height], linestyle="", clip_on=False, zorder=5, **look)
            handles.setdefault(told, Line2D([], [], linestyle="", label=told, **look))
    name_axis(axes, [f"{name}: {len(entries)}" for name, entries in rows.items()], 7)
    headed(axes, "Messages, by protocol")
    beside(axes, list(handles.values()))


def bounds_of(history: History, scale: Scale) -> tuple[float, float]:
    """From where to where there is anything of it."""
    events = [entry.event for entry in history.follower.entries] or [0, len(scale.places) - 1]
    first, last = float(scale.places[min(events)]), float(scale.places[min(max(events), len(scale.places) - 1)])
    if history.back_offs:
        last = max(last, max(scale.place_of(until) for _, until in history.back_offs))
    return first, max(last, first + 1e-3 * max(scale.span, 1e-9))
