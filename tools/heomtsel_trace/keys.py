"""Keys that are pressed while a screen is shown. The trace comes on standard input, so keys are read from the terminal itself."""

from __future__ import annotations

import os
import termios

ARROWS = {
    b"\x1b[A": "up",
    b"\x1b[B": "down",
    b"\x1b[5~": "page up",
    b"\x1b[6~": "page down",
    b"\x1b[H": "home",
    b"\x1b[F": "end",
}


class Keys:
    """The terminal with its keys as they are pressed; as it was once this is closed. Without a terminal no key comes."""

    def __init__(self) -> None:
        self.descriptor: int | None = None
        try:
            self.descriptor = os.open("/dev/tty", os.O_RDONLY | os.O_NONBLOCK | os.O_NOCTTY)
            self._before = termios.tcgetattr(self.descriptor)
            now = termios.tcgetattr(self.descriptor)
            now[3] &= ~(termios.ICANON | termios.ECHO)
            termios.tcsetattr(self.descriptor, termios.TCSADRAIN, now)
        except (OSError, termios.error):
            self.close()

    def pressed(self) -> list[str]:
        """The keys that were pressed since the last call: single characters, and names of others."""
        if self.descriptor is None:
            return []
        try:
            typed = os.read(self.descriptor, 1024)
        except BlockingIOError:
            return []
        except OSError:
            self.close()
            return []
        keys = []
        while typed:
            name = next((each for each in ARROWS if typed.startswith(each)), None)
            keys.append(ARROWS[name] if name else chr(typed[0]))
            typed = typed[len(name or typed[:1]) :]
        return keys

    def close(self) -> None:
        if self.descriptor is not None:
            if hasattr(self, "_before"):
                termios.tcsetattr(self.descriptor, termios.TCSADRAIN, self._before)
            os.close(self.descriptor)
            self.descriptor = None
