"""Asks the server for what is wanted, and keeps it: a pulse each second, and at each edge."""

import asyncio
import time
from typing import Any, Awaitable, Callable, Dict, List, Mapping, Optional, Sequence, Set, Tuple, Union

import bossd

from .catalogue import now
from .keeping import Change, Keeper, Request, Slot, Wish
from .reading import Play, Schedule
from .week import Moment, Wanted, decide

# How often it looks, in milliseconds; and how often what the server can't do is asked again.
PULSE, TRIED_AGAIN, OFTEN = 1_000, 5_000, 2
# A lease goes so long past the next edge at most, in milliseconds.
PAST_THE_EDGE = 30_000
MOST_NOTICES = 64
Log = Callable[[str], None]


class Clock:
    """The moment, and a clock that does not jump, both in milliseconds. A test has one that goes faster."""

    def moment(self) -> Moment:
        return now()

    def steady(self) -> int:
        return time.monotonic_ns() // 1_000_000

    def real(self, length: int) -> int:
        """What a length of time of the schedule is to the server."""
        return length

    async def sleep(self, length: int) -> None:
        await asyncio.sleep(length / 1000)


class Link:
    """What is asked of the server: the part of `bossd.aio.Client` that is needed, so that a test may have another one."""

    def __init__(self, client: Any) -> None:
        self._client = client

    @property
    def attached(self) -> int:
        """How often it attached."""
        count: int = self._client.attachments
        return count

    @property
    def next_notice(self) -> int:
        return self._client.next_notice or 1

    async def submit(self, writes: Sequence[Request]) -> int:
        txn: int = (await self._client.submit(writes, "keep")).txn
        return txn

    async def ask(self, request: Request) -> Dict[str, Any]:
        answer: Dict[str, Any] = await self._client.ask(request)
        return answer

    async def ask_all(self, requests: Sequence[Request]) -> List[Union[Dict[str, Any], bossd.Refused]]:
        answers: List[Union[Dict[str, Any], bossd.Refused]] = await self._client.ask_all(requests)
        return answers


class Counts:
    """What is counted for the metrics."""

    def __init__(self) -> None:
        self.requests: Dict[Tuple[str, str], int] = {}
        self.edges = 0
        # How late the changes of an edge were made, in milliseconds: the last, and the most.
        self.late, self.most_late = 0, 0
        # The least time that a lease had left when it was renewed.
        self.margin: Optional[int] = None

    def asked(self, op: str, outcome: str) -> None:
        self.requests[(op, outcome)] = self.requests.get((op, outcome), 0) + 1


class Running:
    """The schedule in force, and what is held of it."""

    def __init__(self, schedule: Schedule, link: Link, clock: Clock, log: Log) -> None:
        self.schedule, self.link, self.clock, self.log = schedule, link, clock, log
        self.keeper, self.counts = Keeper(), Counts()
        self.wishes: Dict[Slot, Tuple[str, Wish]] = {}
        self.wants: Dict[Slot, Wanted] = {}
        # Up to when each programme wants what it wants now, by its name.
        self.until: Dict[str, Moment] = {}
        self.decided_at: Optional[Moment] = None
        # Who took a slot, and when that was seen.
        self.taken_by: Dict[Slot, Tuple[str, Moment]] = {}
        self.is_up, self.is_whole = False, False
        # When the server answered last, in seconds of a clock that does not jump.
        self.answered_at = time.monotonic()
        # Called once what changed is made: at an edge, a reload, or after something was lost or refused.
        self.changed: Callable[[], None] = lambda: None
        self._next, self._attached = link.next_notice, link.attached
        self._doubtful, self._failures, self._paused_until = False, 0, 0

    # -- from outside

    def take(self, schedule: Schedule) -> None:
        """Another schedule is in force, from the next pulse on. What is the same is not touched."""
        self.schedule, self.decided_at = schedule, None
        self.keeper.yielded.clear()
        self.keeper.refused.clear()

    def reckon(self) -> None:
        """A calendar has other days: what is wanted is decided anew."""
        self.decided_at = None

    def next_change(self) -> Moment:
        """The moment of the next edge of any programme."""
        return min(self.until.values(), default=self.clock.moment() + PULSE)

    async def run(self, after: Callable[[], Awaitable[None]]) -> None:
        """Pulses for ever; `after` is awaited after each one."""
        while True:
            await self.pulse()
            await after()
            await self.clock.sleep(max(1, min(PULSE, self.clock.real(self.next_change() - self.clock.moment()))))

    # -- a pulse

    async def pulse(self) -> None:
        """Does what is due. Where the server does not answer, the connection is another one next time; then what stands is looked at."""
        try:
            await self._look_if_doubtful()
            await self._listen()
            before = self.decided_at, self.next_change()
            is_anew = self._decide()
            made = await self._make()
            await self._renew()
            self.answered_at = time.monotonic()
            self._note(is_anew, made, before)
        except bossd.Unanswered as error:
            self.counts.asked("any", "unanswered")
            self._fails(f"no answer from the server: {error.why}")
            if isinstance(error.__cause__, bossd.Taken):
                raise error.__cause__ from error
        except bossd.Refused as error:
            # At an attach: 256 processes are known, or there is no memory.
            self.counts.asked("any", error.error)
            self._fails(f"refused by the server: {error}")

    def _note(self, is_anew: bool, made: int, before: Tuple[Optional[Moment], Moment]) -> None:
        self.is_whole = self.is_whole or self.is_up
        if is_anew and before[0] is not None and made:
            self.counts.edges += 1
            self.counts.late = max(0, self.clock.moment() - before[1])
            self.counts.most_late = max(self.counts.most_late, self.counts.late)
        if is_anew or made:
            self.changed()

    def _fails(self, sentence: str) -> None:
        """Says why the server can't be used, once."""
        self._failures += 1
        self.is_up = False
        if self._failures == 1:
            self.log(sentence)
        if self._failures >= OFTEN:
            self._paused_until = self.clock.steady() + TRIED_AGAIN

    # -- what was told

    async def _look_if_doubtful(self) -> None:
        """Reads who has the slots that are held, where that is not known."""
        if not self._doubtful:
            return
        held = list(self.keeper.held)
        answers = await self.link.ask_all([{"op": "array", "point": slot[0]} for slot in held])
        self._is_of_this_connection()
        stands: Dict[Slot, Tuple[int, int]] = {}
        for slot, answer in zip(held, answers):
            found = answer["slots"][slot[1] - 1] if isinstance(answer, dict) else None
            if found and "until" in found:
                stands[slot] = found["txn"], found["value"]
        owners = await self._owners({txn for txn, _ in stands.values()})
        others = {slot: owners[txn] for slot, (txn, _) in stands.items() if owners[txn] not in (None, self.schedule.process)}
        self.keeper.doubt(others, stands)
        for slot, owner in others.items():
            self._yields(slot, owner or "")
        self._doubtful = False

    def _is_of_this_connection(self) -> None:
        """The server may have other rules than before."""
        if self.link.attached != self._attached:
            self._attached = self.link.attached
            self.keeper.refused.clear()

    async def _owners(self, txns: Set[int]) -> Dict[int, Optional[str]]:
        """The process of each transaction, if the server still knows it."""
        asked = sorted(txns)
        answers = await self.link.ask_all([{"op": "status", "txn": txn} for txn in asked])
        return {txn: answer["owner"] if isinstance(answer, dict) else None for txn, answer in zip(asked, answers)}

    async def _listen(self) -> None:
        """Reads what happened to what is held."""
        superseded: Dict[Slot, int] = {}
        while True:
            told = await self.link.ask({"op": "notices", "from": self._next, "max": MOST_NOTICES})
            if told["first"] > self._next or told["next"] < self._next:
                # Some are gone, or it is another journal.
                self._doubtful, self._next = True, min(told["first"], told["next"])
                self.log("notices of the server are gone: what is held is looked at")
                return await self._look_if_doubtful()
            for one in told["list"]:
                if one["kind"] == "ended":
                    self._ended(one, superseded)
            self._next = told["list"][-1]["n"] + 1 if told["list"] else told["next"]
            if len(told["list"]) < MOST_NOTICES:
                break
        await self._tell_takers(superseded)
        if self.link.attached != self._attached:
            # The server may have been started anew, over another journal too.
            self._is_of_this_connection()
            self._doubtful = True
            await self._look_if_doubtful()

    def _ended(self, one: Mapping[str, Any], superseded: Dict[Slot, int]) -> None:
        slot = self.keeper.ended(one["txn"], one["point"], one["cause"])
        if slot is not None and one["cause"] == "superseded":
            superseded[slot] = one["by"]

    async def _tell_takers(self, superseded: Mapping[Slot, int]) -> None:
        """Says who took slots. What a request of our own took whose answer is lost is no other's."""
        if not superseded:
            return
        owners = await self._owners(set(superseded.values()))
        for slot, txn in superseded.items():
            if owners[txn] == self.schedule.process:
                self.keeper.yielded.pop(slot, None)
            else:
                self._yields(slot, owners[txn] or f"transaction {txn}")

    def _yields(self, slot: Slot, owner: str) -> None:
        self.taken_by[slot] = (owner, self.clock.moment())
        self.log(f"{slot[0]} at priority {slot[1]}: {owner} took it; left to it until something else is wanted there")
        self.changed()

    # -- what is wanted

    def _decide(self) -> bool:
        """Decides what is wanted, where that may be something else than before; tells whether it did."""
        moment = self.clock.moment()
        if self.decided_at is not None and self.decided_at <= moment < min(self.until.values(), default=moment):
            return False
        stale = None if self.decided_at is None or moment < self.decided_at else self.until
        self.wants = {} if stale is None else self.wants
        wishes: Dict[Slot, Tuple[str, Wish]] = {}
        until: Dict[str, Moment] = {}
        for play in self.schedule.plays:
            self._decide_one(play, moment, stale, wishes, until)
        self.wishes, self.until, self.decided_at = wishes, until, moment
        return True

    def _decide_one(
            self, play: Play, moment: Moment, stale: Optional[Mapping[str, Moment]], wishes: Dict[Slot, Tuple[str, Wish]],
            until: Dict[str, Moment]) -> None:
        """What one programme wants; that of before where it stands."""
        name, priority = play.programme.name, play.programme.priority
        if stale is None or stale.get(name, moment) <= moment:
            decided = decide(play.programme, moment)
            until[name] = decided.until
            found = decided.wants
        else:
            until[name] = stale[name]
            found = {point: self.wants[(point, priority)] for point in play.points if (point, priority) in self.wants}
        for point in play.points:
            want = found.get(point)
            if want is not None:
                wishes[(point, priority)] = name, Wish(want.value, play.hold, play.back.get(point, ()))
                self.wants[(point, priority)] = want
            else:
                self.wants.pop((point, priority), None)

    def _lengths(self, group: str) -> int:
        """For how long a lease of a programme is taken now."""
        lease = next((play.lease for play in self.schedule.plays if play.programme.name == group), PAST_THE_EDGE)
        left = self.until.get(group, 0) - self.clock.moment()
        return max(1, min(lease, self.clock.real(max(0, left)) + PAST_THE_EDGE))

    # -- what is asked

    async def _make(self) -> int:
        """Makes what is not as it is wanted, and tells how many transactions that took."""
        if self.clock.steady() < self._paused_until:
            return 0
        made = 0
        for change in self.keeper.changes(self.wishes):
            if not await self._submit(change):
                return made
            made += 1
        if not self.is_up:
            self.is_up, self._failures = True, 0
            self.log(f"holds {len(self.keeper.held)} of {len(self.wishes)} points that are wanted now")
        return made

    async def _submit(self, change: Change) -> bool:
        """Makes a change, without the writes that are refused. Whether the server could."""
        while change.slots:
            length = self._lengths(change.group)
            try:
                txn = await self.link.submit(self.keeper.writes(change, length))
            except (bossd.NoMemory, bossd.Stopped) as error:
                self.counts.asked("submit", error.error)
                self._fails(f"the server can't: {error.error}")
                return False
            except bossd.Refused as error:
                self.counts.asked("submit", error.error)
                change = self._refused(change, error)
                continue
            self.counts.asked("submit", "ok")
            self.keeper.accepted(change, txn, self.clock.steady(), length)
            return True
        return True

    def _refused(self, change: Change, error: bossd.Refused) -> Change:
        """What is left of a change without the write that was refused; without all, where it is not told which one."""
        indices = [error.index] if hasattr(error, "index") else list(range(len(change.slots)))
        for index in reversed(indices):
            slot = change.slots[index]
            rule = f" by rule {error.rule}" if isinstance(error, bossd.Denied) else ""
            self.log(f"{slot[0]} at priority {slot[1]}: the server refused it: {error.error}{rule}; asked again once something else is wanted")
            change = self.keeper.refuse(change, index)
        self.changed()
        return change

    async def _renew(self) -> None:
        """Renews what is due within a second, all at once, and without numbers: twice does no harm."""
        steady = self.clock.steady()
        requests = list(self.keeper.renewals(steady, PULSE, self._lengths))
        if not requests:
            return
        margins = [self.keeper.due[one["txn"]].until - steady for one in requests]
        self.counts.margin = min(margins + ([] if self.counts.margin is None else [self.counts.margin]))
        for request, answer in zip(requests, await self.link.ask_all(requests)):
            outcome = answer.error if isinstance(answer, bossd.Refused) else "ok"
            self.counts.asked("renew", outcome)
            if outcome == "ok":
                self.keeper.renewed(request["txn"], self.clock.steady(), request["length"])
            elif outcome not in ("ended", "memory", "stopped"):
                # Of what ended the notices tell; this is another journal, or another one's number.
                self._doubtful = True
