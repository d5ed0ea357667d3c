"""How many connections there may be, and how long they may take. aiohttp bounds neither, so each connection goes through a Bounded."""

import asyncio
import logging
import socket
from typing import Callable, Dict, Optional, cast

from aiohttp.http_exceptions import HttpProcessingError

# So many connections at once. One more is ended at once, and not answered.
MOST_CONNECTIONS = 512
# How long a first request may take to come, and then the body of each, in seconds; how long a connection may be idle behind an answer; and
# how long somebody may take no byte of one.
PATIENCE, IDLE, UNREAD = 10.0, 15.0, 30.0
# Linux' option of that last time, which not every Python's types know.
TCP_USER_TIMEOUT = 18


def is_worth_a_line(record: logging.LogRecord) -> bool:
    """Whether somebody should read of it: what a stranger sends that is no request, or how he ends, is nothing."""
    return record.exc_info is None or not isinstance(record.exc_info[1], (HttpProcessingError, OSError))


class Bounds:
    """The connections. `asked` says of one that a request came over it."""

    def __init__(self) -> None:
        self._deadlines: Dict[asyncio.BaseTransport, asyncio.TimerHandle] = {}

    def made(self, transport: asyncio.Transport) -> bool:
        """Takes a connection; gives whether there is room for it."""
        if len(self._deadlines) >= MOST_CONNECTIONS:
            return False
        self._deadlines[transport] = asyncio.get_running_loop().call_later(PATIENCE, transport.abort)
        link = transport.get_extra_info("socket")
        if link is not None:
            link.setsockopt(socket.IPPROTO_TCP, TCP_USER_TIMEOUT, round(UNREAD * 1000))
        return True

    def asked(self, transport: Optional[asyncio.BaseTransport]) -> None:
        """A whole request came. What it may take from here on is bounded elsewhere."""
        if transport in self._deadlines:
            self._deadlines[transport].cancel()

    def lost(self, transport: asyncio.BaseTransport) -> None:
        """A connection is over."""
        self._deadlines.pop(transport).cancel()

    def around(self, make: Callable[[], asyncio.Protocol]) -> Callable[[], "Bounded"]:
        """What makes protocols, with these bounds around each."""
        return lambda: Bounded(make(), self)


class Bounded(asyncio.Protocol):
    """A connection of aiohttp, once there is room for it."""

    def __init__(self, inner: asyncio.Protocol, bounds: Bounds) -> None:
        self._inner, self._bounds = inner, bounds
        self._transport: Optional[asyncio.BaseTransport] = None

    def connection_made(self, transport: asyncio.BaseTransport) -> None:
        if not self._bounds.made(cast(asyncio.Transport, transport)):
            cast(asyncio.Transport, transport).abort()
            return
        self._transport = transport
        self._inner.connection_made(transport)

    def connection_lost(self, error: Optional[Exception]) -> None:
        if self._transport is not None:
            self._bounds.lost(self._transport)
            self._inner.connection_lost(error)

    def data_received(self, data: bytes) -> None:
        if self._transport is not None:
            self._inner.data_received(data)

    def eof_received(self) -> Optional[bool]:
        return self._inner.eof_received() if self._transport is not None else None

    def pause_writing(self) -> None:
        self._inner.pause_writing()

    def resume_writing(self) -> None:
        self._inner.resume_writing()
