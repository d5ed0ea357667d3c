"""Asks the server for what is held: takes, renews, lets go, and finds out what became of it."""

import asyncio
import time
from typing import Any, Dict, List, Sequence, Tuple

import bossd

from .keeping import Held, Keeper, parts
from .saying import Saying
from .server import Server

MOST_NOTICES = 64


def clock() -> int:
    """Milliseconds that do not jump."""
    return time.monotonic_ns() // 1_000_000


class Holding:
    """What is held, over a server."""

    def __init__(self, server: Server, keeper: Keeper, saying: Saying) -> None:
        self.server, self.keeper, self.saying = server, keeper, saying
        # What changed by this, and is to be read at once.
        self.changed: List[str] = []
        self._next, self._doubts = 1, True
        # What is asked for a point is reckoned once what was asked before is answered: else an older value could come behind a newer one.
        self._turn = asyncio.Lock()

    async def take(self, name: str, value: int, length: int) -> bool:
        """Takes a point for so many milliseconds; False where it had this value and is only wanted for longer. Refused, Unanswered."""
        async with self._turn:
            now = clock()
            ends = now + length
            if self.keeper.prolonged(name, value, ends, now):
                return False
            try:
                txn = await self.server.submit([self.keeper.taking(name, value, length)])
            except bossd.Unanswered:
                # It may have been made, and what stood before may stand.
                self.keeper.doubtful[name] = Held(value, None, ends, 0)
                self._doubts = True
                raise
            self.keeper.taken(name, value, txn, ends, now)
            self.changed.append(name)
            return True

    async def let_go(self, name: str) -> None:
        """Lets a point go. Refused, Unanswered: then it is tried again."""
        async with self._turn:
            held = self.keeper.held.get(name)
            if held is not None:
                self.keeper.held[name] = held._replace(ends=min(held.ends, clock()))
                await self._let_go([name])

    def holds(self, name: str) -> bool:
        """Whether a point is held."""
        return name in self.keeper.held

    async def pulse(self) -> None:
        """Hears what became of it, and asks for what is due. Unanswered."""
        await self._hear()
        if self.server.attached_anew():
            self._doubts = True
        if self._doubts:
            async with self._turn:
                await self._look()
        for part in parts(self.keeper.anew(clock())):
            async with self._turn:
                await self._take_anew([name for name in part if name in self.keeper.anew(clock())])
        for part in parts(self.keeper.over(clock())):
            async with self._turn:
                await self._let_go([name for name in part if name in self.keeper.over(clock())])
        for part in self.keeper.together(clock()):
            async with self._turn:
                await self._take_anew([name for name in part if self.keeper.stands(name, clock())])
        async with self._turn:
            await self._renew(clock())

    # -- what it asks

    async def _take_anew(self, names: Sequence[str]) -> None:
        now = clock()
        held = {name: self.keeper.held[name] for name in names}
        taken = await self._all_but_refused([(name, self.keeper.taking(name, one.value, one.ends - now)) for name, one in held.items()])
        for name, txn in taken.items():
            self.keeper.taken(name, held[name].value, txn, held[name].ends, now)

    async def _let_go(self, names: Sequence[str]) -> None:
        for name in await self._all_but_refused([(name, self.keeper.letting(name)) for name in names]):
            self.keeper.let_go(name)

    async def _all_but_refused(self, writes: List[Tuple[str, bossd.Request]]) -> Dict[str, int]:
        """Makes writes in one transaction, without those that the server refuses: these are held no more."""
        while writes:
            try:
                txn = await self.server.submit([write for _, write in writes])
                self.changed += [name for name, _ in writes]
                return {name: txn for name, _ in writes}
            except bossd.Unanswered:
                self._doubts = True
                raise
            except bossd.Refused as error:
                place = getattr(error, "index", None)
                if not isinstance(place, int):
                    self.saying.once(error.error, f"refused: {error}")
                    return {}
                name = writes.pop(place)[0]
                self.saying.once((name, error.error), f"{name}: {error}; it is held no more")
                self.keeper.let_go(name)
        return {}

    async def _renew(self, now: int) -> None:
        requests = self.keeper.renewals(now)
        if not requests:
            return
        # A renewal that is made twice does no harm, so it takes no number.
        for request, answer in zip(requests, await self.server.ask_all(requests)):
            if isinstance(answer, dict):
                self.keeper.renewed(request["txn"], request["points"], request["length"], now)
            elif not isinstance(answer, bossd.Ended):
                # One that has ended is in the notices.
                self._doubts = True

    # -- what became of it

    async def _hear(self) -> None:
        """Reads the notices of the bridge's own process, up to the last."""
        while True:
            answer = await self.server.ask({"op": "notices", "from": self._next, "max": MOST_NOTICES})
            if answer["next"] < self._next or answer["first"] > self._next:
                # Another journal, or so many notices that the first of them are gone.
                self._doubts, self._next = True, answer["next"]
                return
            for notice in answer["list"]:
                self._heard(notice)
            self._next = answer["list"][-1]["n"] + 1 if answer["list"] else answer["next"]
            if len(answer["list"]) < MOST_NOTICES:
                return

    def _heard(self, notice: Dict[str, Any]) -> None:
        if notice["kind"] == "ended":
            if self.keeper.ended(notice["txn"], notice["point"], notice["cause"]):
                self.saying.say(f"{notice['point']}: {notice['cause']} by transaction {notice.get('by')}; it is held no more")
            self.changed.append(notice["point"])

    def begin_at(self, number: int) -> None:
        """Passes over what was told to an earlier bridge."""
        self._next = number

    async def _look(self) -> None:
        """Reads what stands in the slots that are held, or may be."""
        self._doubts = False
        names = list(dict.fromkeys([*self.keeper.held, *self.keeper.doubtful]))
        try:
            answers = await self.server.ask_all([{"op": "array", "point": name} for name in names])
            found = [bossd.slots_of(answer) if isinstance(answer, dict) else None for answer in answers]
            slots = {name: one.slots.get(self.keeper.settable[name].priority) if one is not None else None for name, one in zip(names, found)}
            owners = await self.server.owners({slot.txn for slot in slots.values() if slot is not None})
        except bossd.Unanswered:
            self._doubts = True
            raise
        now = clock()
        for name, slot in slots.items():
            self.keeper.found(name, slot, slot is not None and owners.get(slot.txn) == self.server.process, now)
