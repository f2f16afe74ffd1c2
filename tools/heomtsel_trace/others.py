"""What `pair` and `clients` write (docs/PAIR.md, docs/CLIENTS.md), as far as a screen tells it. It is no trace of a node."""

from __future__ import annotations

import re
from collections import Counter
from dataclasses import dataclass, field

from .durations import clock

OF_CLIENTS = re.compile(r"joined|gone \d+|> admit \d+|> turnaway|> open \d+ \d+")


class PairText:
    """Two ends that shake hands: how far each has come."""

    def __init__(self) -> None:
        self.steps = 0
        self.heads: dict[str, str] = {}
        self.ends = {"left": "fresh", "right": "fresh"}
        self.sent: Counter[str] = Counter()
        self.has_ended = False

    def take(self, text: str) -> None:
        words = text.split(" ")
        if text == "end":
            self.has_ended = True
        elif words[0] == ">" and len(words) > 2 and words[1] in self.ends:
            self._note(words[1], words[2:])
        elif words[0] in self.ends and len(words) == 4:
            magic, only, sharing = words[1:]
            way = "initiator only" if only == "1" else "duplex"
            self.heads[words[0]] = f"magic {magic}, {way}, {'shares peers' if sharing == '1' else 'shares no peers'}"
        elif words[0] in ("meet", "cross", "deliver", "timeout", "close"):
            self.steps += 1

    def _note(self, end: str, words: list[str]) -> None:
        if words[0] == "send":
            self.sent[end] += len(words[1]) // 2
        else:
            self.ends[end] = " ".join(words)

    def rows(self) -> list[str]:
        rows = [f"What `pair` writes: two ends that shake hands, {self.steps} steps, {ending(self.has_ended)}"]
        for end, state in self.ends.items():
            rows.append(
                f"{end:<7}{state}; {self.sent[end]} bytes sent; {self.heads.get(end, 'not told what it says of itself')}"
            )
        return rows


@dataclass
class ClientsText:
    """Local clients: who is let in, open and closed."""

    moment: int = 0
    events: int = 0
    counts: Counter[str] = field(default_factory=Counter)
    closes: Counter[str] = field(default_factory=Counter)
    greeting: set[str] = field(default_factory=set)
    open: dict[str, str] = field(default_factory=dict)
    has_ended: bool = False

    def take(self, text: str) -> None:
        words = text.split(" ")
        match words:
            case ["end"]:
                self.has_ended = True
            case ["now", moment] if moment.isdigit():
                self.moment = max(self.moment, int(moment))
            case ["joined"]:
                self.counts["joined"] += 1
            case ["gone", client]:
                self._drop(client, "by itself")
            case [">", "admit", client]:
                self.counts["let in"] += 1
                self.greeting.add(client)
            case [">", "turnaway"]:
                self.counts["turned away"] += 1
            case [">", "open", client, version]:
                self.greeting.discard(client)
                self.open[client] = version
            case [">", "close", client, *cause]:
                self._drop(client, " ".join(cause))
        self.events += words[0] in ("now", "joined", "bytes", "gone")

    def _drop(self, client: str, cause: str) -> None:
        if client in self.greeting or client in self.open:
            self.greeting.discard(client)
            self.open.pop(client, None)
            self.closes[cause] += 1

    def rows(self) -> list[str]:
        versions = Counter(self.open.values())
        told = ", ".join(f"{count} with version {version}" for version, count in sorted(versions.items())) or "none"
        gone = ", ".join(f"{cause} {count}" for cause, count in sorted(self.closes.items())) or "none"
        return [
            f"What `clients` writes: local clients, {self.events} events, now {clock(self.moment)}, {ending(self.has_ended)}",
            f"joined {self.counts['joined']}: let in {self.counts['let in']}, turned away {self.counts['turned away']}",
            f"greeting {len(self.greeting)}; open {told}",
            f"gone {gone}",
        ]


def ending(has_ended: bool) -> str:
    return "to its end" if has_ended else "more may come"


class Recognizer:
    """Finds out by the first lines whose text it is, and keeps them until it knows."""

    MOST_KEPT = 200

    def __init__(self) -> None:
        self._kept: list[str] = []
        self.is_decided = False

    def looks_at(self, text: str) -> PairText | ClientsText | None:
        self._kept.append(text)
        found: PairText | ClientsText | None = None
        if text in ("trace 1", "trace 2") or len(self._kept) > self.MOST_KEPT:
            self.is_decided = True
        elif text == "pair 1":
            found = PairText()
        elif OF_CLIENTS.fullmatch(text):
            found = ClientsText()
        if found is not None:
            self.is_decided = True
            for line in self._kept:
                found.take(line)
        if self.is_decided:
            self._kept.clear()
        return found
