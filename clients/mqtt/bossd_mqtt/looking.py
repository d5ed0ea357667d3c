"""Reads the points, all of them once in a while and some at once, and tells what each has."""

import asyncio
import time
from typing import Callable, Dict, Iterable, List, Mapping, Optional, Sequence, Set

import bossd
from bossd.ctl._show import now

from .saying import Saying
from .server import GROUP, Answer, Server
from .settings import Settings
from .topics import State, retained

# The ends of all leases are asked for once in so many milliseconds, since a renewal shows in nothing else.
ALL_ENDS = 30_000
# How long after the end of a lease its point is read, in milliseconds.
BEHIND_AN_END = 200

Told = Callable[[Mapping[str, str]], None]


class Looking:
    """Looks at a server, and calls `told` with the topics of what is new. `seconds` is how long the last whole look took, `rounds` how many
    there were."""

    def __init__(self, settings: Settings, server: Server, saying: Saying, told: Told) -> None:
        self.settings, self.server, self.saying, self.told = settings, server, saying, told
        self.seconds, self.rounds = 0.0, 0
        self._readings: Dict[str, bossd.Reading] = {}
        # When what each point has comes to its end, and for which of these ends it was read.
        self._ends: Dict[str, int] = {}
        self._over: Dict[str, int] = {}
        self._states: Dict[str, State] = {}
        # When each point was told last, and which are to be told for a new end alone, later.
        self._when: Dict[str, float] = {}
        self._late: Set[str] = set()
        self._named: Set[str] = set()
        self._wanted = asyncio.Event()
        self._turns = max(1, ALL_ENDS // settings.every)

    def name(self, points: Iterable[str]) -> None:
        """Has points read at once."""
        self._named.update(name for name in points if name in self.settings.points)
        if self._named:
            self._wanted.set()

    async def run(self) -> None:
        """Looks, for ever."""
        while True:
            began = time.monotonic()
            try:
                await self._look_at_all()
                self.server.looked()
            except bossd.Unanswered as error:
                self.saying.once("unanswered", f"{self.server.address}: {error.why or error}")
            await self._look_at_named(began + self.settings.every / 1000)

    async def look(self, names: Sequence[str]) -> None:
        """Reads points and their slots at once, and tells what is new. Unanswered."""
        for place in range(0, len(names), GROUP // 2):
            part = names[place:place + GROUP // 2]
            answers = await self.server.ask_all([{"op": op, "point": name} for op in ("read", "array") for name in part])
            self._have_read(part, answers[:len(part)])
            self._have_seen(part, answers[len(part):])
            await self._tell_all(part)

    # -- when

    async def _look_at_all(self) -> None:
        began = time.monotonic()
        names = list(self.settings.points)
        for place in range(0, len(names), GROUP):
            part = names[place:place + GROUP]
            changed = await self._read(part)
            turn = [name for name in part if name not in changed and self._is_turn(name)]
            await self._see(part, changed + turn)
        for name in list(self._late):
            self._tell(name)
        self.seconds, self.rounds = time.monotonic() - began, self.rounds + 1

    def _is_turn(self, name: str) -> bool:
        reading = self._readings.get(name)
        return reading is not None and reading.basis != "default" and hash(name) % self._turns == self.rounds % self._turns

    async def _look_at_named(self, until: float) -> None:
        """Reads what is named, and what comes to its end, up to the next look at all."""
        while time.monotonic() < until:
            try:
                await asyncio.wait_for(self._wanted.wait(), max(0.0, min(until, self._next_end()) - time.monotonic()))
            except asyncio.TimeoutError:
                pass
            names, self._named = sorted(self._named | self._ended()), set()
            self._wanted.clear()
            try:
                await self.look(names)
            except bossd.Unanswered:
                return

    def _next_end(self) -> float:
        """When the next point comes to its end, by the clock that does not jump."""
        first = min((end for name, end in self._ends.items() if self._over.get(name) != end), default=None)
        return float("inf") if first is None else time.monotonic() + (first + BEHIND_AN_END - now()) / 1000

    def _ended(self) -> Set[str]:
        """The points that came to their ends. Each is read once for that: where the server's clock is behind, a look at all finds it."""
        moment = now() - BEHIND_AN_END
        ended = {name: end for name, end in self._ends.items() if end <= moment and self._over.get(name) != end}
        self._over.update(ended)
        return set(ended)

    # -- what

    async def _read(self, names: Sequence[str]) -> List[str]:
        """Reads points, and gives those that are held by something else than before. Unanswered."""
        return self._have_read(names, await self.server.ask_all([{"op": "read", "point": name} for name in names]))

    def _have_read(self, names: Sequence[str], answers: Sequence[Answer]) -> List[str]:
        changed: List[str] = []
        for name, answer in zip(names, answers):
            if isinstance(answer, bossd.Refused):
                self.saying.once((name, answer.error), f"{name}: {answer}: is {self.settings.catalogue.path} the server's catalogue?")
                continue
            reading = bossd.reading_of(answer)
            before = self._readings.get(name)
            if before is None or (before.txn, before.priority, before.basis) != (reading.txn, reading.priority, reading.basis):
                changed.append(name)
            self._readings[name] = reading
        return changed

    async def _see(self, names: Sequence[str], changed: Sequence[str]) -> None:
        """Asks for the ends of what changed, and tells of all of these points. Unanswered."""
        held = [name for name in changed if self._readings[name].basis != "default"]
        answers = await self.server.ask_all([{"op": "array", "point": name} for name in held])
        for name in changed:
            self._ends.pop(name, None)
        self._have_seen(held, answers)
        await self._tell_all(names)

    def _have_seen(self, names: Sequence[str], answers: Sequence[Answer]) -> None:
        for name, answer in zip(names, answers):
            self._ends.pop(name, None)
            if isinstance(answer, dict) and name in self._readings and self._readings[name].basis != "default":
                self._stands(name, answer)

    async def _tell_all(self, names: Sequence[str]) -> None:
        """Asks for the owners of what holds these points, and tells of those that have something new. Unanswered."""
        txns = {reading.txn for reading in map(self._readings.get, names) if reading is not None and reading.txn is not None}
        owners = await self.server.owners(txns)
        for name in names:
            reading = self._readings.get(name)
            if reading is not None:
                self._states_of(name, reading, owners.get(reading.txn) if reading.txn is not None else None)

    def _stands(self, name: str, answer: Dict[str, object]) -> None:
        """Keeps when the slot in force comes to its end. Where it is another one by now, the point is read again."""
        reading, slots = self._readings[name], answer["slots"]
        assert reading.priority is not None and isinstance(slots, list)
        slot = slots[reading.priority - 1]
        if slot and slot["txn"] == reading.txn:
            self._ends[name] = slot["until"] if "until" in slot else slot["end"]
        else:
            self.name([name])

    def _states_of(self, name: str, reading: bossd.Reading, owner: Optional[str]) -> None:
        before = self._states.get(name)
        self._states[name] = State(reading.value, reading.basis, reading.mark, reading.priority, owner, self._ends.get(name))
        if before is None or self._states[name]._replace(until=None) != before._replace(until=None):
            self._when.pop(name, None)
            self._tell(name)
        elif self._states[name] != before:
            self._late.add(name)

    def _tell(self, name: str) -> None:
        """Tells of a point; of a new end alone not too often."""
        if time.monotonic() - self._when.get(name, float("-inf")) < self.settings.until_every / 1000:
            return
        self._late.discard(name)
        self._when[name] = time.monotonic()
        self.told(retained(self.settings.topics, self.settings.points[name], self._states[name]))
