"""A report of heomtsel-network, as docs/NETWORK.md has it."""

from __future__ import annotations

from dataclasses import dataclass, field
from typing import Iterable

MEASURES = ("known", "established", "active", "inbound")


class NoReport(Exception):
    """A line is none of a report."""


@dataclass(frozen=True)
class Measure:
    least: int
    median: int
    greatest: int
    target: int


@dataclass(frozen=True)
class KindAt:
    second: int
    up: int
    measures: dict[str, Measure]


@dataclass
class Report:
    kinds: dict[str, list[KindAt]] = field(default_factory=dict)
    # of each second what the line `network` says, by name
    network: list[dict[str, int]] = field(default_factory=list)
    # of each kind and measure how many have reached it of how many, and in which times
    reached: list[tuple[str, str, list[int]]] = field(default_factory=list)
    uses: list[tuple[int, int]] = field(default_factory=list)


def measures_of(words: list[str]) -> dict[str, Measure]:
    measures = {}
    for name, *numbers in zip(*[iter(words)] * 5):
        if name not in MEASURES:
            raise NoReport(f"{name} is no measure")
        measures[name] = Measure(*map(int, numbers))
    return measures


def take(report: Report, words: list[str]) -> None:
    match words:
        case ["kind", second, name, "up", up, *rest]:
            report.kinds.setdefault(name, []).append(KindAt(int(second), int(up), measures_of(rest)))
        case ["network", second, *rest]:
            counts = {name: int(number) for name, number in zip(rest[::2], rest[1::2])}
            report.network.append({"second": int(second), **counts})
        case ["reached", name, what, *numbers]:
            report.reached.append((name, what, [int(number) for number in numbers]))
        case ["uses", node, peer]:
            report.uses.append((int(node), int(peer)))
        case _:
            raise NoReport(f"no line of a report: {' '.join(words)}")


def read_report(lines: Iterable[str]) -> Report:
    report = Report()
    for line in lines:
        take(report, line.split())
    if not report.network:
        raise NoReport("there is no line of the network")
    return report
