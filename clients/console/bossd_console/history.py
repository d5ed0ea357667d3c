"""What each point was to have in the last day, and who held it, by the server's journal.

The journal says who took a slot, renewed it and let it go, and when. Between its events time alone acts: a lease ends at its moment, and
its reversion plays. So a point's course follows from its slots, and is worked out when an event touches it and when somebody asks.

What is kept is bounded: a day, so many changes of a point, and so many in all. The journal is read in a thread of its own, so each way in
has a lock."""

import threading
from collections import defaultdict, deque
from typing import Any, Callable, DefaultDict, Deque, Dict, Iterable, Iterator, List, NamedTuple, Optional, Set, Tuple

from .catalogue import Catalogue, journals
from .clock import Reached
from .coming import Part, Way, in_force, steps_after

# How far back is shown, in milliseconds.
DAY = 86_400_000
# So many changes are kept of a point, and of all points together. Where there are more, the points with the most lose their oldest.
MOST_OF_ONE, MOST_OF_ALL = 2_000, 131_072

Slot = Tuple[int, int]


class Held(NamedTuple):
    """What took a slot last: a lease up to a moment, and the steps that follow it."""
    txn: int
    owner: str
    aborts: bool
    value: int
    until: int
    way: Way

    def parts(self, priority: int) -> List[Part]:
        """The lease, and then the steps of its reversion."""
        return [Part(True, priority, self.value, self.txn, 0, self.until), *steps_after(self.until, priority, self.txn, self.way)]


class Change(NamedTuple):
    """What a point was to have from the moment `at` on: what that rested on, and whose it was. Moments are milliseconds since 1970."""
    at: int
    value: int
    basis: str
    priority: Optional[int] = None
    owner: Optional[str] = None


class Known(NamedTuple):
    """The course of a point: what is known of it from `since` on, up to `until`."""
    since: int
    until: int
    changes: List[Change]

    def described(self) -> Dict[str, Any]:
        """As JSON has it."""
        return {"since": self.since, "until": self.until, "changes": [list(change) for change in self.changes]}


class Course:
    """The changes of a point, up to the moment `seen`; nothing is known of it before `since`."""

    def __init__(self, since: int) -> None:
        self.since = self.seen = since
        self.changes: Deque[Change] = deque()

    def add(self, change: Change) -> int:
        """Another change, which may be none. Gives by how much there are more now."""
        before = len(self.changes)
        if self.changes and self.changes[-1].at == change.at:
            self.changes.pop()
        if not self.changes or self.changes[-1][1:] != change[1:]:
            self.changes.append(change)
        self.shorten(MOST_OF_ONE)
        return len(self.changes) - before

    def shorten(self, most: int, start: int = 0) -> None:
        """Forgets the oldest beyond so many, and those that were over before a moment."""
        while len(self.changes) > max(1, most) or len(self.changes) > 1 and self.changes[1].at <= start:
            self.changes.popleft()
            self.since = max(self.since, self.changes[0].at)


class History:
    """The courses of all points of a catalogue. Followed journals call `begun` and `happened`."""

    def __init__(self, catalogue: Catalogue) -> None:
        self._defaults = [point.default for point in catalogue.points.values()]
        self._places = {name: place for place, name in enumerate(catalogue.points)}
        self._lock = threading.Lock()
        # How many events the journal had up to here.
        self._events = self._since = self._now = self._count = 0
        # How many files were begun.
        self._files = 0
        self._is_begun = False
        self._forget(0)

    # -- what a journal says

    def begun(self, state: journals.State, before: int) -> None:
        """A file begins with this state. What is known goes on, unless the journal is another one, or is read once more."""
        with self._lock:
            self._files += 1
            if before < self._events:
                self._forget(0)
            self._events = before
            if not self._is_begun:
                self._forget(state.now)
            self._now = max(self._now, state.now)
            for place in list(self._courses):
                self._walk(place)
            self._stand(state)
            for place in {place for place, _ in self._slots} | set(self._courses):
                self._settle(place)

    def happened(self, event: journals.Event, names: List[str], following: int) -> None:
        """An event; `names` are those of the processes so far, and `following` is the number that a submit has."""
        with self._lock:
            if not self._is_begun and event.at > 0:
                self._forget(event.at)
            self._now, self._events = max(self._now, event.at), self._events + 1
            owner = names[event.owner] if event.owner is not None and event.owner < len(names) else ""
            touched = self._touched(event, owner)
            for place in touched:
                self._walk(place)
            self._do(event, owner, following)
            for place in touched:
                self._settle(place)
            if self._count > MOST_OF_ALL:
                self._trim()

    # -- what is asked

    def reached(self) -> Reached:
        """How far the journal was read."""
        with self._lock:
            return Reached(self._files, self._events, self._now)

    def of(self, point: str, now: int) -> Optional[Known]:
        """The last day of a point, up to a moment; None where nothing is known."""
        with self._lock:
            if not self._is_begun or now < self._now:
                now = self._now
            place, start = self._places[point], now - DAY
            course = self._courses.get(place)
            if not self._is_begun:
                return None
            if course is None:
                # Nobody ever took it.
                since = max(start, self._since)
                return Known(since, now, [Change(since, self._defaults[place], "default")])
            changes = list(course.changes) + list(self._between(place, course.seen, now + 1))
            return clipped(course.since, start, now, alike_once(changes))

    # -- the slots

    def _forget(self, since: int) -> None:
        """Nothing is known before a moment. 0 stands for no moment yet."""
        self._since = self._now = since
        self._is_begun = since > 0
        self._courses: Dict[int, Course] = {}
        self._slots: Dict[Slot, Held] = {}
        self._levels: DefaultDict[int, Set[int]] = defaultdict(set)
        self._of_txn: DefaultDict[int, Set[Slot]] = defaultdict(set)
        self._of_owner: DefaultDict[str, Set[Slot]] = defaultdict(set)
        self._count = 0

    def _stand(self, state: journals.State) -> None:
        """What stands in the slots is what a kept state says."""
        aborts = {one.txn: one.policy == "abort" for one in state.transactions}
        names = [process.name for process in state.processes]
        for slot in list(self._slots):
            self._drop(slot)
        for lease in state.leases:
            self._put((lease.point, lease.priority), Held(lease.txn, names[lease.owner], aborts.get(lease.txn, False), lease.value, lease.until,
                                                          lease.steps))
        for one in state.reversions:
            value = one.steps[0][0] if one.steps else 0
            self._put((one.point, one.priority), Held(one.txn, names[one.owner], False, value, one.start, one.steps))

    def _touched(self, event: journals.Event, owner: str) -> Set[int]:
        """The points whose slots an event may change."""
        if event.kind == "submit":
            found = {write.point for write in event.writes}
        elif event.kind in ("renewal", "cancel"):
            found = {place for place, _ in self._of_txn.get(event.txn or 0, ())}
        elif event.kind == "lost":
            found = {place for place, _ in self._of_owner.get(owner, ())}
        elif event.kind == "failed":
            found = {place for slot in self._failed(event.points[0]) for place in slot[:1]}
        else:
            found = set()
        return {place for place in found if place < len(self._defaults)}

    def _do(self, event: journals.Event, owner: str, following: int) -> None:
        if event.kind == "submit":
            for write in event.writes:
                self._put((write.point, write.priority), Held(following, owner, event.policy == "abort", write.value, self._now + write.lease,
                                                              write.steps))
        elif event.kind == "renewal":
            meant = [slot for slot in self._live(self._of_txn.get(event.txn or 0, ())) if not event.points or slot[0] in event.points]
            self._change(meant, lambda held: held._replace(until=max(held.until, self._now + (event.length or 0))))
        elif event.kind == "cancel":
            self._end(self._of_txn.get(event.txn or 0, ()))
        elif event.kind == "lost":
            self._end(self._of_owner.get(owner, ()))
        elif event.kind == "failed":
            self._end(self._failed(event.points[0]))

    def _failed(self, place: int) -> Iterable[Slot]:
        """The slots whose leases end where the device of a point does not take its value."""
        part = in_force(self._parts(place), self._now)
        if part is None or not part.live or not self._slots[place, part.priority].aborts:
            return ()
        return set(self._of_txn[part.txn])

    def _live(self, slots: Iterable[Slot]) -> List[Slot]:
        return [slot for slot in slots if self._slots[slot].until > self._now]

    def _end(self, slots: Iterable[Slot]) -> None:
        """The leases end now, and their reversions begin."""
        self._change(self._live(slots), lambda held: held._replace(until=self._now))

    def _change(self, slots: Iterable[Slot], how: Callable[[Held], Held]) -> None:
        for slot in slots:
            self._slots[slot] = how(self._slots[slot])

    def _put(self, slot: Slot, held: Held) -> None:
        self._drop(slot)
        self._slots[slot] = held
        self._levels[slot[0]].add(slot[1])
        self._of_txn[held.txn].add(slot)
        self._of_owner[held.owner].add(slot)

    def _drop(self, slot: Slot) -> None:
        held = self._slots.pop(slot, None)
        if held is not None:
            self._levels[slot[0]].discard(slot[1])
            discard(self._of_txn, held.txn, slot)
            discard(self._of_owner, held.owner, slot)

    # -- the courses

    def _parts(self, place: int) -> List[Part]:
        return [part for level in self._levels.get(place, ()) for part in self._slots[place, level].parts(level)]

    def _at(self, place: int, parts: Iterable[Part], moment: int) -> Change:
        """What a point is to have at a moment."""
        part = in_force(parts, moment)
        if part is None:
            return Change(moment, self._defaults[place], "default")
        return Change(moment, part.value, "lease" if part.live else "pending", part.priority, self._slots[place, part.priority].owner)

    def _between(self, place: int, seen: int, end: int) -> Iterator[Change]:
        """What time alone changes at a point after one moment and before another."""
        parts = self._parts(place)
        for moment in sorted({edge for part in parts for edge in (part.start, part.end) if seen < edge < end}):
            yield self._at(place, parts, moment)

    def _course(self, place: int) -> Course:
        """The course of a point, which had its default until somebody took it."""
        if place not in self._courses:
            course = self._courses[place] = Course(self._since)
            self._count += course.add(Change(self._since, self._defaults[place], "default"))
        return self._courses[place]

    def _walk(self, place: int) -> None:
        """Time passes up to now."""
        course = self._course(place)
        for change in self._between(place, course.seen, self._now):
            self._count += course.add(change)
        course.seen = max(course.seen, self._now - 1)

    def _settle(self, place: int) -> None:
        """What a point has now."""
        if place >= len(self._defaults):
            return
        course = self._course(place)
        self._count += course.add(self._at(place, self._parts(place), self._now))
        course.seen = self._now

    def _trim(self) -> None:
        """Makes room: first what is older than a day goes, then the oldest of the points with the most changes."""
        for course in self._courses.values():
            course.shorten(MOST_OF_ONE, self._now - DAY)
        lengths, most = [len(course.changes) for course in self._courses.values()], MOST_OF_ONE
        while sum(min(length, most) for length in lengths) > MOST_OF_ALL * 9 // 10 and most > 1:
            most = most * 3 // 4
        for course in self._courses.values():
            course.shorten(most)
        self._count = sum(len(course.changes) for course in self._courses.values())


def discard(index: DefaultDict[Any, Set[Slot]], key: object, slot: Slot) -> None:
    """A slot is no longer found under a key."""
    index[key].discard(slot)
    if not index[key]:
        del index[key]


def alike_once(changes: Iterable[Change]) -> List[Change]:
    """The changes without those that change nothing."""
    told: List[Change] = []
    for change in changes:
        if not told or told[-1][1:] != change[1:]:
            told.append(change)
    return told


def clipped(since: int, start: int, now: int, changes: List[Change]) -> Known:
    """The changes from a moment on, the first of them the one that stood then."""
    since = max(since, start)
    before = [change for change in changes if change.at <= since]
    after = [change for change in changes if change.at > since]
    return Known(since, now, [change._replace(at=since) for change in before[-1:]] + after)
