"""Finds out which catalogue the server has, and again where it comes back with another one. The server tells its points; a file that has the
same digest tells their units and notes too."""

import sys
from typing import Any, Awaitable, Callable, Dict, Optional, Sequence

import bossd

from .catalogue import Catalogue, Failure, Gathering, differs, read_catalogue, silent, told_catalogue

Ask = Callable[[Sequence[Dict[str, Any]]], Awaitable[Sequence[Any]]]


class Knowing:
    """The catalogue of the server at this address; `path` is the file that may have its units, None where there is none. Before the server
    has told anything `catalogue` is the file's, or has no points. Failure for a file that can't be read."""

    def __init__(self, address: str, path: Optional[str]) -> None:
        self.address, self.path = address, path
        self.catalogue = read_catalogue(path) if path else Catalogue(address, {}, b"")

    async def is_another(self, ask: Ask) -> bool:
        """Asks, and says whether `catalogue` became another one. Failure where the server tells nothing and there is no file."""
        answer, = await ask([{"op": "version"}])
        if isinstance(answer, bossd.UnknownOp) and not self.path:
            raise silent(self.address)
        if isinstance(answer, bossd.Refused) or answer["digest"] == self.catalogue.digest.hex():
            return False
        told = await self._told(ask)
        if told is None:
            return False
        file = self._file()
        self.catalogue = told if file is None or file.digest != told.digest else file
        if file is not None and file.digest != told.digest:
            say(differs(file, told))
        return True

    async def _told(self, ask: Ask) -> Optional[Catalogue]:
        """What the server tells, page by page; None where it refuses, as with a disk that failed."""
        gathering = Gathering()
        while True:
            answer, = await ask([gathering.request()])
            if isinstance(answer, bossd.Refused):
                return None
            if gathering.is_done_with(answer):
                return told_catalogue(self.address, gathering.gathered())

    def _file(self) -> Optional[Catalogue]:
        """The file as it is now."""
        try:
            return read_catalogue(self.path) if self.path else None
        except Failure as error:
            say(str(error))
            return None


def say(text: str) -> None:
    """Writes a line for whoever reads the log."""
    print(f"bossd-console: {text}", file=sys.stderr, flush=True)
