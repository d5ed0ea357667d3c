"""What is written into the log: standard error, a line each."""

import sys
import time
from collections import OrderedDict
from typing import Hashable

# For how long what was said is not said again, in seconds, and how much of it is known at most.
AN_HOUR, MOST_SAID = 3_600.0, 8_192


class Saying:
    """Writes lines, and some of them once an hour."""

    def __init__(self) -> None:
        self._said: "OrderedDict[Hashable, float]" = OrderedDict()

    def say(self, text: str) -> None:
        """Writes a line."""
        print(f"bossd-mqtt: {text}", file=sys.stderr, flush=True)

    def once(self, key: Hashable, text: str) -> None:
        """Writes a line, unless one with the same key was written within the hour."""
        now = time.monotonic()
        if now - self._said.get(key, -AN_HOUR) < AN_HOUR:
            return
        self._said[key] = now
        self._said.move_to_end(key)
        while len(self._said) > MOST_SAID:
            self._said.popitem(last=False)
        self.say(text)
