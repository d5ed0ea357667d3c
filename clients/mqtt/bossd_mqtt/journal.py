"""Sees in the server's journal which points changed, so that they are read at once."""

import asyncio
import os
from typing import Callable, List, Optional, Sequence, Tuple

from bossd.ctl._following import Following, Reader
from bossd.ctl._show import Catalogue

from .saying import Saying

# How often the sizes of its files are looked at, in seconds.
GLANCE = 0.05
Sizes = List[Optional[Tuple[int, int]]]


def sizes_of(path: str) -> Sizes:
    """How long the two files are, and when they were changed; None where there is none."""
    found: Sizes = []
    for name in (path, path + ".b"):
        try:
            seen = os.stat(name)
            found.append((seen.st_size, seen.st_mtime_ns))
        except OSError:
            found.append(None)
    return found


class Watching:
    """Follows a journal, and calls `named` with the points that new records name."""

    def __init__(self, path: str, catalogue: Catalogue, saying: Saying, named: Callable[[Sequence[str]], None]) -> None:
        self.path, self.saying, self.named = path, saying, named
        self._reader = Reader(path, catalogue)
        self._following = Following(self._reader)

    async def run(self) -> None:
        """Follows, for ever."""
        before: Optional[Sizes] = None
        try:
            while True:
                sizes = sizes_of(self.path)
                if sizes != before or self._following.is_reading:
                    before = sizes
                    await self._following.follow()
                    self.named(self._reader.touched())
                    if self._reader.sentence and not self._following.is_reading:
                        self.saying.once("journal", f"the journal is not followed: {self._reader.sentence}")
                await asyncio.sleep(GLANCE)
        finally:
            self._following.end()
