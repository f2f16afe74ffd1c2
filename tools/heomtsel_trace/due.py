"""What is due at each word of a line: of a trace (docs/TRACE.md), of a pair (docs/PAIR.md) and of local clients
(docs/CLIENTS.md). The program says which word is wrong; here stands what a right one would be."""

from __future__ import annotations

from dataclasses import dataclass

from .line_reader import (
    GREATEST_BYTES,
    GREATEST_ID,
    GREATEST_INTERVAL,
    GREATEST_MOMENT,
    GREATEST_VALENCY,
    GREATEST_WORD,
    SETTING_NAMES,
    SETTING_RANGES,
    printable,
)

NOTHING = "nothing more: the line ends before this word"
HEXADECIMAL = f"1 to {GREATEST_BYTES:,} bytes in lower case hexadecimal, two digits each"
EVENT_WORDS = (
    "now",
    "govern",
    "accepted",
    "dialed",
    "bytes",
    "closed",
    "targets",
    "locals",
    "roots",
    "bigtargets",
    "bigs",
)
BOUNDS = (
    "root and established at most known, active at most established; "
    "known at most 10,000, established 1,000, active 100"
)


@dataclass(frozen=True)
class Due:
    """The word below which the mark stands, what was due there, and what else is to be said."""

    place: int
    what: str
    notes: tuple[str, ...] = ()


@dataclass
class Stage:
    """What the lines of a trace before the one that is refused have set."""

    line_number: int
    version: int = 2
    hard: int = 512
    last_setting: str | None = None
    event: str | None = None

    @staticmethod
    def behind(before: list[str]) -> Stage:
        stage = Stage(len(before) + 1)
        if before and before[0] == "trace 1":
            stage.version = 1
        for line in before[2:]:
            words = line.split(" ")
            if words[0] == "set" and len(words) == 3:
                stage.last_setting = words[1]
                if words[1] == "hard":
                    stage.hard = int(words[2])
            elif words[0] in EVENT_WORDS:
                stage.event = words[0]
                break
        return stage


def number(what: str, least: int, greatest: int) -> str:
    return f"{what}, {least:,} to {greatest:,}, in plain decimal without a leading zero"


def identifier() -> str:
    return number("the id of a connection", 0, GREATEST_ID)


def address(version: int) -> str:
    said = "an address, as 127.0.0.1:3002"
    if version == 2:
        return said + " or [fd00:0:0:0:0:0:0:7]:3001 (eight groups, nothing shortened, no leading zeros)"
    return said + " (IPv6 addresses are of version 2: `trace 2` in line 1)"


def nth(slots: list[str], place: int) -> str:
    """What is due at a place, from 2, of a line that has so many words."""
    return slots[place - 2] if place - 2 < len(slots) else NOTHING


def notes_on(words: list[str], kind: str, place: int) -> tuple[str, ...]:
    word = words[place - 1] if place <= len(words) else None
    if word is None:
        return ("the line ends before it",)
    if word == "":
        return ("words stand apart by one space: here is an empty word",) if len(words) > 1 else ("the line is empty",)
    if word.endswith("\r"):
        return ("the line ends with a carriage return, which is a part of its last word",)
    if "\t" in word:
        return ("a tab is a part of a word, and no space",)
    if kind == "number":
        if word.isdigit() and word[0] == "0" and len(word) > 1:
            return ("it has a leading zero",)
        if word.isdigit():
            return ("it is too great or too small",)
        return ("it is no plain decimal",)
    return ()


# A trace


def of_trace_line(before: list[str], words: list[str], kind: str, place: int | None) -> Due:
    stage = Stage.behind(before)
    if kind == "targets":
        return of_targets(words)
    if kind == "order":
        return of_order(stage, words)
    what = trace_word(stage, words, place)
    if words[0] == "bytes" and place == 3 and len(words) >= 3:
        what += wrong_digit(words[2])
    return Due(place, what, notes_on(words, kind, place))


def of_targets(words: list[str]) -> Due:
    names = (
        ["known", "established", "active"] if words[0] == "bigtargets" else ["root", "known", "established", "active"]
    )
    value = {name: int(word) for name, word in zip(names, words[1:])}
    known, established, active = value["known"], value["established"], value["active"]
    for name, breaks in (
        ("root", value.get("root", 0) > known),
        ("known", known > 10_000),
        ("established", established > min(known, 1_000)),
        ("active", active > min(established, 100)),
    ):
        if breaks:
            return Due(names.index(name) + 2, BOUNDS, (f"{name} is above a bound",))
    return Due(1, BOUNDS)


def of_order(stage: Stage, words: list[str]) -> Due:
    if stage.event is not None:
        return Due(1, f"no `set` any more: settings stand before the first event, which was `{stage.event}`")
    last = SETTING_NAMES.index(stage.last_setting) if stage.last_setting in SETTING_NAMES else -1
    rest = ", ".join(SETTING_NAMES[last + 1 :]) or "none"
    return Due(2, f"a setting behind {stage.last_setting}: {rest}", ("settings stand in their order, each once",))


def trace_word(stage: Stage, words: list[str], place: int) -> str:
    first = words[0]
    if stage.line_number == 1:
        return ["`trace`: the first line is `trace 1` or `trace 2`", "1 or 2, the version of the trace", NOTHING][
            min(place, 3) - 1
        ]
    if stage.line_number == 2:
        return ["`own` and the node's own address: the second line", address(stage.version), NOTHING][min(place, 3) - 1]
    if place == 1:
        return first_word(stage, first)
    if first == "set":
        return setting_word(stage, words, place)
    if first == "locals":
        return locals_word(stage, words, place)
    if first == "roots":
        return roots_word(stage, words, place)
    if first == "bigs":
        return address(stage.version)
    return nth(event_slots(stage)[first], place)


def first_word(stage: Stage, first: str) -> str:
    events = [word for word in EVENT_WORDS if stage.version == 2 or not word.startswith("big")]
    said = f"an event ({', '.join(events)}), `> ` and an action, or `end`"
    if stage.event is None:
        said = "`set`, " + said
    if first.startswith("big") and stage.version == 1:
        said += f"; `{first}` is of version 2 (`trace 2` in line 1)"
    elif first.startswith(">"):
        said += "; `>` is followed by a space"
    elif first in ("trace", "own"):
        said += f"; `{first}` stands at the top alone"
    return said


def event_slots(stage: Stage) -> dict[str, list[str]]:
    targets = [number(f"the target of {name} peers", 0, 10_000) for name in ("root", "known", "established", "active")]
    return {
        "now": [number("a moment in milliseconds", 0, GREATEST_MOMENT)],
        "govern": [number("a word by which peers are picked", 0, GREATEST_WORD)],
        "accepted": [address(stage.version)],
        "dialed": [identifier(), "`ok` or `failed`"],
        "bytes": [identifier(), HEXADECIMAL],
        "closed": [identifier()],
        "targets": targets,
        "bigtargets": targets[1:],
        "end": [],
    }


def setting_word(stage: Stage, words: list[str], place: int) -> str:
    if place == 2:
        return "a setting: " + ", ".join(SETTING_NAMES)
    if place > 3 or words[1] not in SETTING_RANGES:
        return NOTHING
    least, greatest = SETTING_RANGES[words[1]]
    if words[1] == "soft":
        return number("the soft limit, at most the hard one", 0, stage.hard)
    return number(f"the value of {words[1]}", least, greatest)


def locals_word(stage: Stage, words: list[str], place: int) -> str:
    heads = [at for at in range(1, min(place, len(words) + 1)) if at < len(words) and words[at] == "/"]
    if place == 2 or not heads:
        return "`/`, with which a group begins"
    within = place - 1 - heads[-1]
    slots = [
        "",
        number("how many members are to be hot", 0, GREATEST_VALENCY),
        number("how many members are to be warm or hot", 0, GREATEST_VALENCY),
        "`+` where the members are told to others, else `-`",
    ]
    return slots[within] if 0 < within < len(slots) else address(stage.version) + ", or `/` and the next group"


def roots_word(stage: Stage, words: list[str], place: int) -> str:
    if place == 2:
        return number("the number of the question", 0, GREATEST_ID)
    if place == 3:
        return "`ok` or `failed`"
    if words[2] == "failed":
        return NOTHING
    if place == 4:
        return number("for how many milliseconds the answer serves", 1, GREATEST_INTERVAL)
    return address(stage.version)


def wrong_digit(word: str) -> str:
    """Which digit of bytes is wrong, or that one is missing."""
    at = next((at for at, digit in enumerate(word, 1) if digit not in "0123456789abcdef"), None)
    if at is not None:
        return f"; `{printable(word[at - 1])}` in place {at:,} is none"
    if len(word) % 2:
        return "; a digit is missing, since there is an odd number of them"
    return "; there are more bytes" if len(word) > 2 * GREATEST_BYTES else ""


# A pair


END_NAMES = "`left` or `right`"


def of_pair_line(line_number: int, words: list[str], kind: str, place: int) -> Due:
    return Due(place, pair_word(line_number, words, place), notes_on(words, kind, place))


def pair_word(line_number: int, words: list[str], place: int) -> str:
    end_slots = [
        number("the magic", 0, (1 << 32) - 1),
        "1 where the end is initiator only, else 0",
        "1 where it shares peers, else 0",
    ]
    heads = {1: ("pair", ["1, the version"]), 2: ("left", end_slots), 3: ("right", end_slots)}
    if line_number in heads:
        word, slots = heads[line_number]
        return f"`{word}`: line {line_number} is its head" if place == 1 else nth(slots, place)
    if place == 1:
        return "a step (meet, cross, deliver, timeout, close), `> ` and a note, or `end`"
    slots = {
        "meet": [END_NAMES],
        "cross": [],
        "deliver": [END_NAMES, number("how many bytes come out", 1, 1 << 48)],
        "timeout": [END_NAMES],
        "close": [END_NAMES],
        "end": [],
    }
    return nth(slots.get(words[0], []), place)


# Local clients


def of_client_line(words: list[str], kind: str, place: int) -> Due:
    what = client_word(words, place)
    if words[0] == "bytes" and place == 3 and len(words) >= 3:
        what += wrong_digit(words[2])
    return Due(place, what, notes_on(words, kind, place))


def client_word(words: list[str], place: int) -> str:
    if place == 1:
        return "an event (now, joined, bytes, gone), `> ` and an action, or `end`"
    client = number("the id of a client", 0, GREATEST_ID)
    slots = {
        "now": [number("a moment in milliseconds", 0, GREATEST_MOMENT)],
        "joined": [],
        "bytes": [client, HEXADECIMAL],
        "gone": [client],
        "end": [],
    }
    return nth(slots.get(words[0], []), place)
