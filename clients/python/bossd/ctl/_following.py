"""Follows a server's journal as it grows: which reversion follows a lease, whoever holds it, which steps one under way has, and which
points changed.

The server answers of a slot its value, its transaction, and when it ends. A transaction writes a point once, and a submit takes its slots
whole, so what stands in a slot is what the last submit wrote on this point and priority, if it has the transaction that the server
answered. The value and the owner have to agree too: the file may be the journal of another server.

`docs/FORMATS.md` describes the bytes; `bossctl` reads the same. Nothing is written, and nothing is locked."""

import asyncio
import os
from typing import Dict, Iterable, List, NamedTuple, Optional, Protocol, Sequence, Set, Tuple

from .._protocol import Slot
from . import _journal as journals
from ._show import Catalogue
from ._toml import Failure

# The steps of a reversion: values, and for how many milliseconds each is held.
Way = Sequence[Sequence[int]]
# How many bytes of a log are read at once, and with how many it is known again. No record is longer than the one; the other has the
# moments of the first events.
CHUNK, KNOWN = 1 << 18, 256
# For how many seconds a look waits for the reading of a journal. That of a long one goes on beside the looks.
PATIENCE = 0.25
BEING_READ = "it is being read"


class Written(NamedTuple):
    """What a transaction wrote on a slot: its owner, its value (None where its lease is over), and the steps that follow the lease."""
    txn: int
    owner: str
    value: Optional[int]
    way: Way


class Hearer(Protocol):
    """Who is told all that a journal says, in order, in the thread that reads it."""

    def begun(self, state: journals.State, before: int) -> None:
        """A file begins with this state, to which so many events led. Of a journal that was read before it may be the same state again."""

    def happened(self, event: journals.Event, names: List[str], following: int) -> None:
        """An event. `names` are those of the processes so far; `following` is the number that a submit has."""


class Moved(Exception):
    """The file was begun anew while it was read."""


def front_of(path: str) -> bytes:
    """What a file begins with; nothing where there is none. Failure."""
    return bytes_at(path, 0, KNOWN)


def bytes_at(path: str, place: int, size: int) -> bytes:
    """At most so many bytes from a place of a file on. Failure."""
    try:
        with open(path, "rb", buffering=0) as file:
            file.seek(place)
            return file.read(size)
    except FileNotFoundError:
        return b""
    except OSError as error:
        raise Failure(f"{path}: {error.strerror}") from error


class Log:
    """What a file of a journal says, up to a gate."""

    def __init__(self, found: journals.Journal, hearer: Optional[Hearer] = None) -> None:
        state = found.state
        self._hearer = hearer
        self.path, self.version, self.seed, self.gate, self.next = found.path, found.version, found.seed, found.gate, state.next
        self.front = found.data[:min(KNOWN, self.gate)]
        self.names = [process.name for process in state.processes]
        self.slots: Dict[Tuple[int, int], Written] = {}
        # The places of points that were named since this was emptied.
        self.touched: Set[int] = set()
        for lease in state.leases:
            self.slots[lease.point, lease.priority] = Written(lease.txn, self.names[lease.owner], lease.value, lease.steps)
        for one in state.reversions:
            self.slots[one.point, one.priority] = Written(one.txn, self.names[one.owner], None, one.steps)
        if hearer is not None:
            hearer.begun(state, found.before)

    def is_of(self, path: str, front: bytes) -> bool:
        """Whether a file that begins so is still the one that this was read from."""
        return path == self.path and front.startswith(self.front)

    def read_chunk(self) -> bool:
        """Reads on, up to a gate that is shut, or a record that is not whole yet. Gives whether there was anything. Damaged, Failure, Moved."""
        before, chunk = self.gate, bytes_at(self.path, self.gate, CHUNK)
        front = front_of(self.path)
        if not self.is_of(self.path, front):
            raise Moved
        self._read(chunk)
        self.front = front[:min(KNOWN, self.gate)]
        return self.gate > before

    def _read(self, chunk: bytes) -> None:
        start = self.gate
        while True:
            record, after = self._record(chunk, self.gate - start)
            if record is None:
                return
            events = journals.events_of(record, self.version, self.gate)
            self.gate = start + after
            for event in events:
                self._happens(event)

    def _record(self, chunk: bytes, gate: int) -> Tuple[Optional[bytes], int]:
        """The record after a gate, and the next gate; None where it is shut, or its record is not whole yet."""
        try:
            return journals.record_at(chunk, gate, self.seed, self.gate)
        except journals.WrongSum:
            raise journals.Damaged(self.gate) from None
        except journals.Damaged:
            if int.from_bytes(chunk[gate + 1:gate + 5], "big") > journals.LONGEST_RECORD:
                raise journals.Damaged(self.gate) from None
            return None, gate

    def _happens(self, event: journals.Event) -> None:
        if self._hearer is not None:
            self._hearer.happened(event, self.names, self.next)
        if event.kind == "process":
            self.names.append(event.name or "")
        elif event.kind == "submit" and event.owner is not None:
            owner = self._name(event.owner)
            for write in event.writes:
                self.slots[write.point, write.priority] = Written(self.next, owner, write.value, write.steps)
            self.next += 1
        self.touched.update(self._named(event))

    def _name(self, owner: int) -> str:
        return self.names[owner] if owner < len(self.names) else ""

    def _named(self, event: journals.Event) -> Iterable[int]:
        """The points whose value an event may change at once."""
        if event.kind == "cancel":
            return [point for (point, _), written in self.slots.items() if written.txn == event.txn]
        if event.kind == "lost" and event.owner is not None:
            name = self._name(event.owner)
            return [point for (point, _), written in self.slots.items() if written.owner == name]
        return [write.point for write in event.writes] if event.kind == "submit" else event.points if event.kind == "failed" else ()


class Reader:
    """Follows a journal. `sentence` says why it cannot; it is empty where it is followed. `hearer` is told what it says."""

    def __init__(self, path: str, catalogue: Catalogue, hearer: Optional[Hearer] = None) -> None:
        self.path, self.sentence, self.ended = path, BEING_READ, False
        self._places = {name: place for place, name in enumerate(catalogue.points)}
        self._catalogue, self._why, self._hearer = catalogue, "", hearer
        self._log: Optional[Log] = None

    def follow(self) -> None:
        """Reads what is new, until all is read or this is `ended`."""
        try:
            self._log = self._read()
            self.sentence = self._why = ""
        except Moved:
            pass
        except (Failure, OSError) as error:
            self._failed(str(error))
        except journals.Damaged as error:
            self._failed(f"{self.path}: {error}")

    def names(self) -> List[str]:
        """The names of all processes that the journal has."""
        return list(self._log.names) if self._log is not None else []

    def touched(self) -> List[str]:
        """The points that new records named, since this was asked last."""
        if self._log is None or not self._log.touched:
            return []
        taken, self._log.touched = self._log.touched, set()
        names = list(self._places)
        return [names[place] for place in sorted(taken) if place < len(names)]

    def way_of(self, point: str, priority: int, slot: Slot, owner: Optional[str]) -> Optional[Way]:
        """The steps that follow a lease, or those of a reversion from its beginning on; None where the journal does not have this slot."""
        place = self._places.get(point)
        written = self._log.slots.get((place, priority)) if self._log is not None and place is not None else None
        if written is None or written.txn != slot.txn or owner not in (None, written.owner):
            return None
        values = [written.value] if slot.until is not None else [value for value, _ in written.way]
        return written.way if slot.value in values else None

    def _read(self) -> Optional[Log]:
        names = (self.path, self.path + ".b")
        if not any(os.path.lexists(name) for name in names):
            self._reach()
            raise journals.no_pair(self.path)
        fronts = [front_of(name) for name in names]
        chosen = journals.in_force(names, fronts)
        if chosen is None:
            return None
        log = self._log
        if log is None or not log.is_of(names[chosen], fronts[chosen]):
            log = self._begun(names[chosen], fronts[chosen])
        while not self.ended and log.read_chunk():
            pass
        return log

    def _reach(self) -> None:
        """Failure where the folder may not be looked into."""
        try:
            os.stat(self.path)
        except FileNotFoundError:
            pass
        except OSError as error:
            raise Failure(f"{self.path}: {error.strerror}") from error

    def _begun(self, path: str, front: bytes) -> Log:
        """What a file says before its log. Damaged, Failure, Moved."""
        data = bytes_at(path, 0, min(journals.front_size(front), os.path.getsize(path)))
        found = journals.journal_of(path, data)
        if not front_of(path).startswith(data[:min(KNOWN, found.gate)]):
            raise Moved
        if found.digest != self._catalogue.digest:
            raise Failure(f"{path}: it was kept under another catalogue than {self._catalogue.path}")
        return Log(found, self._hearer)

    def _failed(self, why: str) -> None:
        """Once may be a moment at which the server writes it: it is said where it is so twice."""
        if why == self._why:
            self.sentence, self._log = why, None
        self._why = why


class Following:
    """Has a journal read beside the looks."""

    def __init__(self, reader: Reader) -> None:
        self._reader = reader
        self._reading: Optional["asyncio.Future[None]"] = None

    async def follow(self) -> None:
        """Reads what is new, and waits for it a moment."""
        if self._reading is None or self._reading.done():
            self._reading = asyncio.ensure_future(asyncio.to_thread(self._reader.follow))
        await asyncio.wait([self._reading], timeout=PATIENCE)

    @property
    def is_reading(self) -> bool:
        """Whether it is still being read."""
        return self._reading is not None and not self._reading.done()

    def end(self) -> None:
        """Reads no more."""
        self._reader.ended = True
