"""Sends changes on to the pages that listen, as server-sent events: first all, then what changed, once for each look."""

import asyncio
import json
from typing import Any, Dict, List, Optional, Tuple

from .answering import Answering
from .catalogue import now
from .looking import Looking
from .picture import Picture

# So many pages may listen at once, so many of them from one address, and so many events may wait for one of them. A page that is slower is
# sent all anew.
MOST_STREAMS = 64
MOST_OF_ONE = 8
MOST_WAITING = 32


def event(kind: str, told: Dict[str, Any]) -> bytes:
    """A server-sent event."""
    return f"event: {kind}\ndata: {json.dumps(told, separators=(',', ':'))}\n\n".encode()


class Streams:
    """The pages that listen. `about` is what is said to each first, beside the points; `most` is how many may listen from one address."""

    def __init__(self, picture: Picture, answering: Answering, looking: Looking, about: Dict[str, Any], most: int = MOST_OF_ONE) -> None:
        self.picture, self.answering, self.looking, self.about, self.most = picture, answering, looking, about, most
        self._queues: Dict["asyncio.Queue[Optional[bytes]]", str] = {}
        self._said: Tuple[int, str] = (-1, "")
        self._catalogue = picture.catalogue

    def __len__(self) -> int:
        return len(self._queues)

    def listening(self, address: str) -> int:
        """How many pages listen from an address."""
        return sum(one == address for one in self._queues.values())

    def open(self, address: str) -> "asyncio.Queue[Optional[bytes]]":
        """The events for another page, which listens from this address. None stands for their end."""
        queue: "asyncio.Queue[Optional[bytes]]" = asyncio.Queue(MOST_WAITING)
        if not self._queues:
            # What changed while no page listened stands in what this one is sent.
            self.picture.changed_rows()
        queue.put_nowait(self.all())
        self._queues[queue] = address
        return queue

    def close(self, queue: "asyncio.Queue[Optional[bytes]]") -> None:
        """A page that listens no more."""
        self._queues.pop(queue, None)

    def end(self) -> None:
        """Ends all."""
        for queue in self._queues:
            while not queue.empty():
                queue.get_nowait()
            queue.put_nowait(None)

    def everything(self) -> Dict[str, Any]:
        """All that is known of points, and how the server stands."""
        catalogue = self.picture.catalogue
        return {"now": now(), **self.about, "catalogue": catalogue.path, "digest": catalogue.digest.hex(), "server": self._server(),
                "journal": self.picture.journal_described(), "schedules": self.picture.schedules.described(), "points": self.picture.rows(),
                "processes": sorted(self.picture.processes)}

    def all(self) -> bytes:
        """The event that says everything."""
        return event("all", self.everything())

    def publish(self) -> None:
        """Sends on what changed; all anew where the catalogue is another one."""
        if self._catalogue is not self.picture.catalogue:
            self._catalogue = self.picture.catalogue
            self._anew(list(self._queues))
        if not self._queues:
            return
        told: Dict[str, Any] = {"now": now(), "seconds": round(self.looking.seconds, 3)}
        parts = {"points": self.picture.changed_rows(), "details": self.picture.changed_details(),
                 "notices": self.picture.fresh_notices(), "processes": self.picture.named(), "journal": self.picture.changed_journal(),
                 "schedules": self.picture.changed_schedules()}
        told.update({key: part for key, part in parts.items() if part})
        seen = self.picture.clock.seen
        said = self.answering.changed, seen.sentence() if seen is not None else ""
        if self._said != said:
            self._said = said
            told["server"] = self._server()
        sent = event("changes", told)
        for queue in self._queues:
            self._send(queue, sent)

    def _send(self, queue: "asyncio.Queue[Optional[bytes]]", sent: bytes) -> None:
        if not queue.full():
            queue.put_nowait(sent)
            return
        self._anew([queue])

    def _anew(self, queues: List["asyncio.Queue[Optional[bytes]]"]) -> None:
        """Sends these everything in place of what waits for them."""
        for queue in queues:
            while not queue.empty():
                queue.get_nowait()
            queue.put_nowait(self.all())

    def _server(self) -> Dict[str, Any]:
        seen = self.picture.clock.seen
        return {**self.answering.state.described(), "foreign": sorted(self.picture.foreign)[:16],
                **({"clock": seen.described()} if seen is not None else {})}
