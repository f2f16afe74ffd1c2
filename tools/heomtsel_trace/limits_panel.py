"""The counted connections against the limits."""

from __future__ import annotations

import numpy as np
from matplotlib.axes import Axes
from matplotlib.lines import Line2D

from .axes import beside, count_axis, draw_spans, draw_step, headed
from .history import History
from .palette import BLACK, BLUE, GREY, SKY, VERMILLION
from .scale import Scale, last_of_each, turns

# of the whole length
NARROWEST = 0.003
HARD_LOOK = {"color": BLACK, "linestyle": "-", "linewidth": 1.4}
SOFT_LOOK = {"color": VERMILLION, "linestyle": "--", "linewidth": 1.4}


def pauses_over(history: History, scale: Scale) -> list[tuple[float, float]]:
    """From where to where nobody was accepted. A pause takes the place of the one before it."""
    spans: list[tuple[float, float]] = []
    for event, until in history.pauses:
        start = float(scale.places[event])
        # the shortest one can still be seen
        end = max(scale.place_of(until), min(scale.last, start + NARROWEST * scale.span))
        if spans and spans[-1][1] >= start:
            spans[-1] = (spans[-1][0], end)
        elif end > start:
            spans.append((start, end))
    return spans


def draw_limits(axes: Axes, history: History, scale: Scale) -> None:
    soft, hard = history.run.settings.soft, history.run.settings.hard
    counted = np.array(history.counted)
    places = last_of_each(scale.places)
    places = places[turns(counted[places])]
    axes.fill_between(scale.places[places], counted[places], step="post", color=SKY, linewidth=0)
    line = draw_step(axes, scale.places, counted, color=BLUE, linewidth=1.2, label="counted")
    handles = [line]
    most = max(int(counted.max()), 1)
    # the soft line lies on the hard one where both are the same, and both are seen
    for name, value, look in (("hard", hard, HARD_LOOK), ("soft", soft, SOFT_LOOK)):
        # a limit that is far off would press the counts to the ground, so it is told in words
        if value <= 4 * most:
            handles.append(axes.axhline(value, label=f"{name}: {value}", **look))
        else:
            handles.append(Line2D([], [], label=f"{name}: {value}, above the picture", **look))
    spans = pauses_over(history, scale)
    if spans:
        handles.append(draw_spans(axes, spans, "nobody is accepted", facecolor=GREY, hatch="xx"))
    in_sight = [value for value in (soft, hard) if value <= 4 * most]
    count_axis(axes, "connections", max([most, *in_sight]))
    headed(axes, "Counted connections against the limits")
    beside(axes, handles)
