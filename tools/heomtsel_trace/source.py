"""Lines out of a stream of bytes, as they come."""

from __future__ import annotations

import os
from collections.abc import Iterator

from .line_reader import LONGEST_LINE

PIECE = 1 << 16


class LineCutter:
    """Cuts pieces of a stream into lines. A line that is too long is cut off, and its rest passed over."""

    def __init__(self) -> None:
        self._kept = b""
        self._is_passing_over = False

    def cut(self, piece: bytes) -> list[str]:
        *whole, self._kept = (self._kept + piece).split(b"\n")
        if self._is_passing_over and whole:
            whole = whole[1:]
            self._is_passing_over = False
        lines = [spelled(line) for line in whole]
        if len(self._kept) > LONGEST_LINE:
            if not self._is_passing_over:
                lines.append(spelled(self._kept[:80]) + "..")
            self._is_passing_over = True
            self._kept = b""
        elif self._is_passing_over:
            self._kept = b""
        return lines

    def rest(self) -> str | None:
        """What stands behind the last line feed, once the input has ended."""
        return spelled(self._kept) if self._kept else None


def spelled(line: bytes) -> str:
    return line.decode("utf-8", "surrogateescape")


def lines_of(descriptor: int) -> Iterator[str]:
    """All whole lines of a file, and what stands behind the last line feed."""
    cutter = LineCutter()
    while piece := os.read(descriptor, PIECE):
        yield from cutter.cut(piece)
    rest = cutter.rest()
    if rest is not None:
        yield rest + " (cut off)"
