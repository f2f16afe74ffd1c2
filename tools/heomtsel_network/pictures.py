"""Pictures of a report."""

from __future__ import annotations

import matplotlib

matplotlib.use("Agg")

import networkx
from matplotlib.axes import Axes
from matplotlib.figure import Figure

from heomtsel_network.report import MEASURES, KindAt, Report
from heomtsel_trace.palette import BLACK, BLUE, GREEN, GREY, ORANGE, PURPLE, SKY, VERMILLION

MEASURE_LOOKS = {"known": SKY, "established": GREEN, "active": VERMILLION, "inbound": PURPLE}
WIDTH, ROW = 7.2, 1.9

# without it each run of matplotlib names the parts of a picture anew
matplotlib.rcParams.update({"svg.hashsalt": "heomtsel", "font.size": 8, "axes.spines.top": False, "axes.spines.right": False})


def minutes(seconds: list[int]) -> list[float]:
    return [second / 60 for second in seconds]


def draw_kind(axes: Axes, name: str, rows: list[KindAt]) -> None:
    """The least, median and greatest of each measure, and its target as a broken line."""
    times = minutes([row.second for row in rows])
    for measure in MEASURES:
        colour = MEASURE_LOOKS[measure]
        values = [row.measures[measure] for row in rows]
        axes.fill_between(times, [v.least for v in values], [v.greatest for v in values], color=colour, alpha=0.2, lw=0)
        axes.plot(times, [v.median for v in values], color=colour, lw=1.4, label=measure)
        if measure != "inbound":
            axes.axhline(values[-1].target, color=colour, lw=0.7, ls=":")
    axes.set_ylabel(f"{name}\npeers of a node")
    axes.set_ylim(bottom=0)
    axes.legend(loc="center left", bbox_to_anchor=(1.0, 0.5), frameon=False)


def draw_pieces(axes: Axes, report: Report) -> None:
    times = minutes([row["second"] for row in report.network])
    for name, colour in (("up", GREY), ("largest", BLACK), ("alone", ORANGE)):
        axes.plot(times, [row[name] for row in report.network], color=colour, lw=1.4, label=name)
    axes.set_ylabel("nodes")
    axes.set_ylim(bottom=0)
    axes.legend(loc="center left", bbox_to_anchor=(1.0, 0.5), frameon=False)


def draw_shape(axes: Axes, report: Report) -> None:
    times = minutes([row["second"] for row in report.network])
    for name, colour in (("pieces", BLUE), ("diameter", GREEN)):
        axes.step(times, [row[name] for row in report.network], where="post", color=colour, lw=1.4, label=name)
    axes.set_ylabel("pieces, steps")
    axes.set_ylim(bottom=0)
    axes.legend(loc="center left", bbox_to_anchor=(1.0, 0.5), frameon=False)


def draw_attackers(axes: Axes, report: Report) -> None:
    times = minutes([row["second"] for row in report.network])
    shares = [100 * row["attackers"] / max(row["active"], 1) for row in report.network]
    axes.plot(times, shares, color=VERMILLION, lw=1.4, label="attackers'")
    axes.set_ylabel("of the active\npeers, percent")
    axes.set_ylim(0, 100)
    axes.legend(loc="center left", bbox_to_anchor=(1.0, 0.5), frameon=False)


def is_told(rows: list[KindAt]) -> bool:
    """Nothing is told of an attacker's nodes, nor of a kind that never began."""
    return any(measure.greatest > 0 for row in rows for measure in row.measures.values())


def run(report: Report, title: str) -> Figure:
    """What a run comes to, from left to right."""
    kinds = {name: rows for name, rows in report.kinds.items() if is_told(rows)}
    with_attackers = any(row["attackers"] for row in report.network)
    rows = len(kinds) + 2 + with_attackers
    figure = Figure(figsize=(WIDTH, ROW * rows + 0.4), layout="constrained")
    panels = list(figure.subplots(rows, 1, sharex=True, squeeze=False)[:, 0])
    for panel, (name, kind_rows) in zip(panels, kinds.items()):
        draw_kind(panel, name, kind_rows)
    draw_pieces(panels[len(kinds)], report)
    draw_shape(panels[len(kinds) + 1], report)
    if with_attackers:
        draw_attackers(panels[-1], report)
    panels[-1].set_xlabel("minutes")
    figure.suptitle(title)
    return figure


def graph(report: Report, title: str) -> Figure:
    """Who uses whom at the end. A node is the larger the more use it."""
    network = networkx.DiGraph(report.uses)
    places = networkx.spring_layout(network, seed=1)
    figure = Figure(figsize=(WIDTH, WIDTH), layout="constrained")
    axes = figure.subplots()
    users = dict(network.in_degree())
    edges = networkx.draw_networkx_edges(network, places, ax=axes, width=0.3, edge_color=GREY, arrows=False)
    edges.set_antialiased(False)
    networkx.draw_networkx_nodes(
        network, places, ax=axes, node_size=[8 + 4 * users[node] for node in network], node_color=BLUE
    )
    axes.set_axis_off()
    figure.suptitle(title)
    return figure
