"""Asks the server, once in a while, how everything stands. It takes one of the server's workers."""

import asyncio
import contextlib
import time
from typing import Any, Callable, Dict, Iterable, Iterator, List, Optional, Sequence, Set, Union

import bossd
import bossd.aio

from .answering import SLOW, Answering
from .catalogue import Following, now
from .knowing import Knowing
from .picture import Picture

# How many requests are asked at once. The client sends on while the answers come, and the server makes sixteen at a time of those that have
# come. To wait for each sixteen answers would not do: the system holds the last of them back until those before are acknowledged.
GROUP = 2_048
# For how many seconds a connection is waited for at a time, and how long an answer: a connection that is given up while it waits for a
# worker would lose its place, and hold one up later.
REACHING, WAITING = 1.0, 10 * 365 * 86_400.0
# How often it is looked whether an answer is late, in seconds.
GLANCE = 0.25
# The slots of a point that somebody holds are asked for when they change, when a lease is about to end, and once in so many rounds.
TURNS = 10
# How many notices are asked for at once, the most that a server gives.
MOST_NOTICES = 64

Request = Dict[str, Any]
Answer = Union[Dict[str, Any], bossd.Refused]


def grouped(requests: Sequence[Request]) -> Iterator[Sequence[Request]]:
    """The requests in groups that are asked at once."""
    for place in range(0, len(requests), GROUP):
        yield requests[place:place + GROUP]


class Looking:
    """Looks each `every` seconds, under the key of the process `as_` where there is one, and calls `seen` after each look and whenever the server is found to answer or not. `seconds` is how
    long the last whole look took, `first` how long its first request did, `rounds` how many there were."""

    def __init__(self, knowing: Knowing, picture: Picture, answering: Answering, every: float, key: Optional[bossd.Key] = None,
                 as_: Optional[str] = None) -> None:
        self._key, self._as = key, as_
        self.address, self.knowing, self.picture, self.answering, self.every = knowing.address, knowing, picture, answering, every
        self.seconds, self.first, self.rounds = 0.0, 0.0, 0
        self.seen: Callable[[], None] = lambda: None
        self._client: Optional[bossd.aio.Client] = None
        self._asked_since: Optional[float] = None
        self._following: Optional[Following] = None
        self._begin()

    async def run(self) -> None:
        """Looks, for ever."""
        glancing = asyncio.ensure_future(self._glance())
        try:
            while True:
                began = time.monotonic()
                with contextlib.suppress(bossd.Unanswered):
                    await self._look()
                await asyncio.sleep(max(0.0, began + self.every - time.monotonic()))
        finally:
            glancing.cancel()
            if self._following is not None:
                self._following.end()
            if self._client is not None:
                await self._client.close()

    async def notices_of(self, process: str) -> bool:
        """Asks for the notices of a process that was not met before. Gives whether there is such a process."""
        if process in self.picture.processes:
            return True
        if self._client is None or self.answering.state.state != "up":
            return False
        with contextlib.suppress(asyncio.TimeoutError, bossd.Unanswered, bossd.WrongKey):
            answer, = await asyncio.wait_for(self._client.ask_all([self._asking(process, 1)]), SLOW)
            if isinstance(answer, dict) and answer["next"] > 1:
                self.picture.met(process)
        return process in self.picture.processes

    # -- a look

    def _begin(self) -> None:
        """What is read, by the catalogue that the picture has."""
        if self._following is not None:
            self._following.end()
        self._following = Following(self.picture.journal) if self.picture.journal is not None else None
        self._reads = [{"op": "read", "point": name} for name in self.picture.points]

    async def _look(self) -> None:
        if self._client is None:
            await self._reach()
        if await self.knowing.is_another(self._ask):
            self.picture.become(self.knowing.catalogue)
            self._begin()
        began, changes = time.monotonic(), self.answering.changed
        changed = await self._read_points(self._reads[:1])
        self.first = time.monotonic() - began
        changed |= await self._read_points(self._reads[1:])
        await self._see_slots(changed)
        # A server that was away may have come back with another journal, whose transactions have the same numbers.
        await self._see_owners(self.answering.changed != changes)
        await self._see_journal()
        await self.picture.schedules.look()
        await self._hear()
        self.seconds, self.rounds = time.monotonic() - began, self.rounds + 1
        self.seen()

    async def _reach(self) -> None:
        began = time.monotonic()
        try:
            self._client = await bossd.aio.connect(self.address, patience=REACHING, key=self._key, as_=self._as)
            self._client.patience = WAITING
        except bossd.UnknownHost as error:
            self.answering.silent(False, WAITING, str(error))
            raise bossd.Unanswered({}, str(error)) from error
        except bossd.Unanswered as error:
            self.answering.silent(False, time.monotonic() - began)
            raise
        finally:
            self.seen()

    async def _read_points(self, reads: Sequence[Request]) -> Set[str]:
        """Reads points, and gives those that are held by something else than before."""
        changed: Set[str] = set()
        for group in grouped(reads):
            for request, answer in zip(group, await self._ask(group)):
                if isinstance(answer, bossd.UnknownPoint):
                    self.picture.unknown(request["point"])
                elif isinstance(answer, dict) and self._read(answer):
                    changed.add(answer["point"])
        return changed

    def _read(self, answer: Dict[str, Any]) -> bool:
        return self.picture.read(bossd.reading_of(answer))

    async def _see_slots(self, changed: Set[str]) -> None:
        """Asks for the slots of points that may have other ones."""
        wanted = [name for name in self.picture.points if name in self.picture.readings and self._is_due(name, changed)]
        wanted += sorted((self.picture.points_looked.names() & self.picture.readings.keys()) - set(wanted))
        for answer in await self._ask_all([{"op": "array", "point": name} for name in wanted]):
            if isinstance(answer, dict):
                self.picture.stands(bossd.slots_of(answer))

    def _is_due(self, name: str, changed: Set[str]) -> bool:
        if self.picture.readings[name].basis == "default":
            return False
        slots = self.picture.slots.get(name)
        if name in changed or slots is None or self.picture.slot_in_force(name) is None or self._turn(hash(name)):
            return True
        soon = now() + int(2_000 * self.every)
        return any((slot.until or slot.end or 0) <= soon for slot in slots.slots.values())

    def _turn(self, number: int) -> bool:
        return number % TURNS == self.rounds % TURNS

    async def _see_owners(self, anew: bool) -> None:
        """Asks whose the transactions are that hold something; of those that are known once in a while, or anew."""
        standing = {slot.txn for slots in self.picture.slots.values() for slot in slots.slots.values()}
        for gone in self.picture.owners.keys() - standing:
            del self.picture.owners[gone]
        wanted = sorted(txn for txn in standing if anew or txn not in self.picture.owners or self._turn(txn))
        answers = await self._ask_all([{"op": "status", "txn": txn} for txn in wanted])
        for txn, answer in zip(wanted, answers):
            self.picture.owned(txn, answer["owner"] if isinstance(answer, dict) else None)

    async def _see_journal(self) -> None:
        """Reads on in the journal. What the server has answered stands in it by now."""
        if self._following is None or self.picture.journal is None:
            return
        await self._following.follow()
        is_whole = not self._following.is_reading and not self.picture.journal.sentence
        self.picture.clock.look(self.picture.history.reached() if is_whole else None, now(), time.monotonic())
        for name in self.picture.journal.names():
            self.picture.met(name)

    async def _hear(self) -> None:
        """Asks for the notices of all processes that were met, up to the last."""
        behind = sorted(self.picture.processes)
        while behind:
            answers = await self._ask_all([self._asking(name, self.picture.processes[name].next) for name in behind])
            full = []
            for name, answer in zip(behind, answers):
                if isinstance(answer, dict):
                    self._heard(name, answer)
                    full += [name] if len(answer["list"]) == MOST_NOTICES else []
            behind = full

    def _heard(self, name: str, answer: Dict[str, Any]) -> None:
        process = self.picture.processes[name]
        if answer["next"] < process.next:
            # Another journal, whose process of this name was sent fewer notices.
            process.next = 1
            return
        self.picture.noticed(name, bossd.notices_of(answer))

    def _asking(self, process: str, first: int) -> Request:
        return {"op": "notices", "process": process, "from": first, "max": MOST_NOTICES}

    # -- asking

    async def _ask_all(self, requests: Sequence[Request]) -> List[Answer]:
        answers: List[Answer] = []
        for group in grouped(requests):
            answers += await self._ask(group)
        return answers

    async def _ask(self, group: Iterable[Request]) -> List[Answer]:
        """Asks a group at once."""
        assert self._client is not None
        self._asked_since = time.monotonic()
        try:
            answers = await self._client.ask_all(group)
        except bossd.WrongKey as error:
            # Whoever keeps the server's keys may mend that, so the page goes on, and says so.
            self.answering.without_key(str(error))
            self.seen()
            raise bossd.Unanswered({}, str(error)) from error
        finally:
            self._asked_since = None
        before = self.answering.changed
        self.answering.answered("stopped" if any(isinstance(answer, bossd.Stopped) for answer in answers) else "up")
        if self.answering.changed != before:
            self.seen()
        return answers

    async def _glance(self) -> None:
        """Finds out when an answer is late."""
        while True:
            await asyncio.sleep(GLANCE)
            since, before = self._asked_since, self.answering.changed
            if since is not None and self._client is not None:
                self.answering.silent(self._client.is_connected, time.monotonic() - since, full=self._client.is_busy)
            if self.answering.changed != before:
                self.seen()
