"""What the parts of a picture have in common."""

from __future__ import annotations

from collections.abc import Callable
from dataclasses import dataclass

import numpy as np
from matplotlib.axes import Axes
from matplotlib.lines import Line2D
from matplotlib.patches import Patch
from matplotlib.ticker import MaxNLocator

from .scale import thinned, turns


@dataclass(frozen=True)
class Panel:
    height: float
    draw: Callable[[Axes], None]


def draw_step(axes: Axes, across: np.ndarray, up: np.ndarray, **look: object) -> Line2D:
    across, up = thinned(across, up)
    places = turns(up)
    (line,) = axes.plot(across[places], up[places], drawstyle="steps-post", **look)
    return line


def draw_spans(axes: Axes, spans: list[tuple[float, float]], label: str, **look: object) -> Patch:
    """Parts of the way from left to right, behind everything else."""
    look = {"edgecolor": "white", "linewidth": 0.0, "alpha": 0.6, **look}
    for start, end in spans:
        axes.axvspan(start, end, zorder=0, **look)
    return Patch(label=label, **look)


def beside(axes: Axes, handles: list, columns: int = 1) -> None:
    axes.legend(
        handles=handles,
        loc="upper left",
        bbox_to_anchor=(1.005, 1.03),
        fontsize=7,
        frameon=False,
        ncol=columns,
        borderaxespad=0.0,
        handlelength=2.4,
        labelspacing=0.45,
    )


def headed(axes: Axes, title: str) -> None:
    axes.set_title(title, loc="left", fontsize=8)


def count_axis(axes: Axes, label: str, most: float) -> None:
    """The axis upwards: whole numbers from 0 to a little above the most."""
    axes.set_ylim(0, max(most, 1) * 1.1)
    axes.yaxis.set_major_locator(MaxNLocator(integer=True, nbins=5))
    axes.set_ylabel(label)


def name_axis(axes: Axes, names: list[str], size: float) -> None:
    """The axis downwards: a row of a name each."""
    axes.set_ylim(len(names) - 0.4, -0.6)
    axes.set_yticks(range(len(names)), names, fontsize=size)
    axes.tick_params(axis="y", length=0)
