"""Milliseconds in words."""

from __future__ import annotations

SECOND = 1_000
MINUTE = 60 * SECOND
HOUR = 60 * MINUTE
DAY = 24 * HOUR


def in_words(milliseconds: int) -> str:
    if milliseconds < SECOND:
        return f"{milliseconds} ms"
    if milliseconds < MINUTE:
        digits = 3 if milliseconds < 10 * SECOND else 1
        # rounded down, so that no second is told that has not passed
        seconds = milliseconds // 10 ** (3 - digits) / 10**digits
        return f"{seconds:.{digits}f}".rstrip("0").rstrip(".") + " s"
    if milliseconds < HOUR:
        return f"{milliseconds // MINUTE} min {milliseconds % MINUTE // SECOND:02d} s"
    if milliseconds < DAY:
        return f"{milliseconds // HOUR} h {milliseconds % HOUR // MINUTE:02d} min"
    return f"{milliseconds // DAY} d {milliseconds % DAY // HOUR:02d} h"


def clock(milliseconds: int) -> str:
    """A moment as hours, minutes and seconds since the node began, behind the days where there are any."""
    days, rest = divmod(milliseconds, DAY)
    seconds, part = divmod(rest, SECOND)
    said = f"{seconds // 3600}:{seconds // 60 % 60:02d}:{seconds % 60:02d}"
    if part:
        said += f".{part:03d}"
    return f"{days} d {said}" if days else said


def unit_for(milliseconds: int) -> tuple[str, int]:
    """The unit in which a span of time is best drawn, and how many milliseconds it has."""
    if milliseconds < 2 * SECOND:
        return "ms", 1
    if milliseconds < 5 * MINUTE:
        return "s", SECOND
    if milliseconds < 5 * HOUR:
        return "min", MINUTE
    if milliseconds < 5 * DAY:
        return "h", HOUR
    return "d", DAY
