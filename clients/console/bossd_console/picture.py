"""What is known of a server's points, transactions and processes, and what of it changed since it was sent on last."""

import time
from collections import Counter, deque
from typing import Any, Deque, Dict, List, Mapping, NamedTuple, Optional, Set, Tuple

import bossd

from .catalogue import Catalogue, Reader, described, held_until, level, now
from .clock import Clock
from .coming import Coming, Way, device_of, followed, steps_to_come, what_comes
from .history import History
from .schedules import Schedules

# How many notices of a process are kept here, and how many ways back of transactions.
KEPT_NOTICES = 256
KEPT_WAYS = 1_024
# For how long somebody who looked at a point or a process counts as looking at it, in seconds.
LOOKED = 25.0
# So many points, and processes, count as looked at: each point is a request more at each look.
MOST_LOOKED = 64


class Row(NamedTuple):
    """What is shown of a point: its Reading, whose it is, up to when (where that is known), and since when its device has not answered; what
    that took last and since when, where it is another value, and up to when a minimum time keeps that, at the earliest. Moments are
    milliseconds since 1970."""
    value: int
    basis: str
    mark: str
    priority: Optional[int]
    txn: Optional[int]
    owner: Optional[str]
    until: Optional[int]
    waiting: Optional[int]
    # Of an override that stands: who set it, when, up to when (None: until it is released), and why.
    override: Optional[Tuple[str, int, Optional[int], str]] = None
    took: Optional[int] = None
    since: Optional[int] = None
    held_until: Optional[int] = None

    def described(self, name: str) -> Dict[str, Any]:
        """As JSON has it. A key without a value is left out."""
        told = {"name": name, "value": self.value, "from": self.basis, "mark": self.mark, "priority": self.priority, "txn": self.txn,
                "owner": self.owner, "until": self.until, "waiting": self.waiting, "took": self.took, "since": self.since,
                "held_until": self.held_until,
                "override": None if self.override is None else dict(zip(("who", "at", "until", "note"), self.override))}
        return {key: one for key, one in told.items() if one is not None}


class Process:
    """The notices of a process: the last ones, and the number to ask from next."""

    def __init__(self, first: int = 1) -> None:
        self.next = first
        self.notices: Deque[bossd.Notice] = deque(maxlen=KEPT_NOTICES)


def notice_described(notice: bossd.Notice) -> Dict[str, Any]:
    """As JSON has it."""
    return {key: one for key, one in notice._asdict().items() if one is not None}


def decided_by(reading: bossd.Reading) -> Tuple[int, str, Optional[int], Optional[int]]:
    """What a point is to have, and what that rests on."""
    return reading.value, reading.basis, reading.priority, reading.txn


class Looked:
    """Names that somebody looked at a moment ago, the last ones."""

    def __init__(self) -> None:
        self._at: Dict[str, float] = {}

    def look(self, name: str) -> None:
        """Somebody looks at this one now."""
        self._at.pop(name, None)
        self._at[name] = time.monotonic()
        if len(self._at) > MOST_LOOKED:
            del self._at[next(iter(self._at))]

    def names(self) -> Set[str]:
        """Those that are looked at."""
        since = time.monotonic() - LOOKED
        self._at = {name: at for name, at in self._at.items() if at > since}
        return set(self._at)


class Picture:
    """What is known. `began` is when the console began, in milliseconds since 1970; `journal` is the server's, where its file may be read,
    and `history` what it told; `schedules` are those whose files are read; `clock` is what is known of the server's."""

    def __init__(self, catalogue: Catalogue, journal: Optional[str] = None, schedules: Optional[Schedules] = None) -> None:
        self._journal_path = journal
        self._go_by(catalogue)
        self.schedules = schedules if schedules is not None else Schedules(())
        self.clock = Clock()
        self.began = now()
        self.readings: Dict[str, bossd.Reading] = {}
        self.slots: Dict[str, bossd.Slots] = {}
        # When the slots of a point were answered.
        self.stood: Dict[str, int] = {}
        self.owners: Dict[int, str] = {}
        self.waiting: Dict[str, int] = {}
        self.foreign: Set[str] = set()
        self.processes: Dict[str, Process] = {}
        # The owners and the ways back of transactions that this console took.
        self.ways: Dict[int, Tuple[str, Way]] = {}
        self.ended: Counter[str] = Counter()
        self.faults = 0
        self.points_looked, self.processes_looked = Looked(), Looked()
        # What stands by bossd-overrides, by points and priorities.
        self.overrides: Dict[Tuple[str, int], Dict[str, Any]] = {}
        self._sent: Dict[str, Row] = {}
        self._told: Dict[str, Dict[str, Any]] = {}
        self._fresh: Dict[str, List[bossd.Notice]] = {}
        self._named = 0
        self._said_of_journal: Optional[Dict[str, Any]] = None
        self._said_of_schedules: List[Dict[str, Any]] = []

    def _go_by(self, catalogue: Catalogue) -> None:
        """The points are those of this catalogue, and the journal is read as theirs."""
        self.catalogue, self.points, self.history = catalogue, catalogue.points, History(catalogue)
        self.journal = Reader(self._journal_path, catalogue, self.history) if self._journal_path is not None else None

    # -- what the server answered

    def become(self, catalogue: Catalogue) -> None:
        """The server has another catalogue: nothing is known of its points yet. Transactions and notices go on."""
        self._go_by(catalogue)
        self.readings, self.slots, self.stood, self.waiting, self._sent, self._told = {}, {}, {}, {}, {}, {}
        self.foreign, self.clock = set(), Clock()

    def read(self, reading: bossd.Reading) -> bool:
        """A point was read. Gives whether somebody else decides it than before, or something else."""
        before = self.readings.get(reading.point)
        if reading == before:
            return False
        self.readings[reading.point] = reading
        self.foreign.discard(reading.point)
        if reading.mark != "pending":
            self.waiting.pop(reading.point, None)
        else:
            self.waiting.setdefault(reading.point, now())
        if reading.basis == "default":
            self.slots[reading.point] = bossd.Slots(reading.point, reading.value, {})
        return before is None or decided_by(before) != decided_by(reading)

    def unknown(self, point: str) -> None:
        """The server has no such point."""
        self.foreign.add(point)

    def stands(self, slots: bossd.Slots) -> None:
        """The slots of a point, as they were answered just now."""
        self.slots[slots.point] = slots
        self.stood[slots.point] = now()

    def owned(self, txn: int, owner: Optional[str]) -> None:
        """Whose a transaction is; None where the server does not know it any more."""
        if owner is not None:
            self.owners[txn] = owner
            self.met(owner)
        else:
            self.owners.pop(txn, None)

    def met(self, process: str) -> Process:
        """A process that there is."""
        return self.processes.setdefault(process, Process())

    def noticed(self, process: str, notices: bossd.Notices) -> None:
        """Notices of a process came. Those of before the console began are kept and not counted."""
        known = self.met(process)
        for notice in notices.list:
            known.notices.append(notice)
            if notice.at >= self.began and notice.kind == "fault":
                self.faults += 1
            if notice.at >= self.began and notice.kind == "ended":
                self.ended[notice.cause or ""] += 1
        known.next = max(known.next, notices.next)
        if notices.list:
            self._fresh.setdefault(process, []).extend(notices.list)

    def took(self, txn: int, owner: str, way: Way) -> None:
        """This console took a point by a transaction, with this way back."""
        self.owned(txn, owner)
        self.ways[txn] = owner, way
        if len(self.ways) > KEPT_WAYS:
            del self.ways[min(self.ways)]

    def overridden(self, overrides: List[Dict[str, Any]]) -> bool:
        """Which overrides stand. Gives whether they are others than before."""
        before, self.overrides = self.overrides, {(one["point"], one["priority"]): one for one in overrides}
        return before != self.overrides

    # -- what there is to be seen

    def override_of(self, point: str, priority: Optional[int], txn: Optional[int]) -> Optional[Tuple[str, int, Optional[int], str]]:
        """Who set what this transaction holds, when, up to when and why, where it is an override that stands."""
        one = self.overrides.get((point, priority or 0))
        return (one["who"], one["at"], one["until"], one["note"]) if one is not None and one["txn"] == txn else None

    def slot_in_force(self, point: str) -> Optional[bossd.Slot]:
        """The slot that decides, where the slots agree with what was read."""
        reading, slots = self.readings.get(point), self.slots.get(point)
        if reading is None or slots is None or reading.priority is None:
            return None
        slot = slots.slots.get(reading.priority)
        agrees = slot is not None and slot.txn == reading.txn and (slot.until is not None) == (reading.basis == "lease")
        return slot if agrees else None

    def row(self, point: str) -> Optional[Row]:
        """What is shown of a point; None where it was never read."""
        reading = self.readings.get(point)
        if reading is None:
            return None
        slot = self.slot_in_force(point)
        owner = self.owners.get(reading.txn) if reading.txn is not None else None
        until = None if slot is None else slot.end if slot.until is None else slot.until
        override = self.override_of(point, reading.priority, reading.txn)
        held = held_until(self.points[point], reading) if point in self.points else None
        return Row(reading.value, reading.basis, reading.mark, reading.priority, reading.txn, owner, until, self.waiting.get(point), override,
                   reading.took, reading.since, held)

    def rows(self) -> List[Dict[str, Any]]:
        """What is shown of all points, with what the catalogue says of each, in its order."""
        told = []
        for name, point in self.points.items():
            row = self.row(name)
            told.append({**described(point), **(row.described(name) if row else {})})
        return told

    def changed_rows(self) -> List[Dict[str, Any]]:
        """The rows that are others than when this was last asked."""
        told = []
        for name in self.readings:
            row = self.row(name)
            if row is not None and row != self._sent.get(name):
                self._sent[name] = row
                told.append(row.described(name))
        return told

    def ways_at(self, point: str) -> Dict[int, Way]:
        """The ways back of what stands in a point's slots, by transactions, as far as they are known."""
        slots = self.slots[point].slots
        ways = {slot.txn: self._way_of(point, priority, slot) for priority, slot in slots.items()}
        return {txn: way for txn, way in ways.items() if way is not None}

    def _way_of(self, point: str, priority: int, slot: bossd.Slot) -> Optional[Way]:
        owner = self.owners.get(slot.txn)
        way = self.journal.way_of(point, priority, slot, owner) if self.journal is not None else None
        taker, own = self.ways.get(slot.txn, (None, None))
        return own if way is None and taker == owner else way

    def detail(self, point: str) -> Dict[str, Any]:
        """The slots of a point, and what comes next."""
        slots = self.slots.get(point)
        if slots is None:
            return {"slots": [], "next": [], "schedules": self.schedules.of(point, None, self.owners)}
        ways = self.ways_at(point)
        standing = [self._standing(point, priority, slot, ways.get(slot.txn)) for priority, slot in sorted(slots.slots.items())]
        coming = self.coming(point, slots, ways, now())
        return {"slots": standing, "next": [one.described() for one in coming[1:]], "schedules": self.schedules.of(point, slots, self.owners)}

    def coming(self, point: str, slots: bossd.Slots, ways: Mapping[int, Way], moment: int) -> List[Coming]:
        """What a point with these slots has now, and what it has after that, and when its device follows where a minimum time may keep it."""
        found, one, reading = what_comes(slots, ways, moment), self.points.get(point), self.readings.get(point)
        device = device_of(one, reading, moment) if one is not None and reading is not None else None
        return followed(found, one, device) if one is not None and device is not None else found

    def _standing(self, point: str, priority: int, slot: bossd.Slot, way: Optional[Way]) -> Dict[str, Any]:
        """What stands in a slot, and its steps to come where they are known."""
        told: Dict[str, Any] = {
            "priority": priority, "level": level(priority), "kind": "lease" if slot.until is not None else "reversion", "value": slot.value,
            "txn": slot.txn, "owner": self.owners.get(slot.txn), "until": slot.until or slot.end,
        }
        steps = steps_to_come(priority, slot, way, self.stood.get(point, 0))
        if steps is not None:
            told["steps"] = [{"at": step.start, "value": step.value, "hold": step.end - step.start} for step in steps]
        return {key: one for key, one in told.items() if one is not None}

    def journal_described(self) -> Optional[Dict[str, Any]]:
        """Which journal is followed, and why it is not if it is not; None where none is to be."""
        if self.journal is None:
            return None
        return {"path": self.journal.path, **({"sentence": self.journal.sentence} if self.journal.sentence else {})}

    def changed_journal(self) -> Optional[Dict[str, Any]]:
        """The same where it is another than when this was last asked."""
        said = self.journal_described()
        if said == self._said_of_journal:
            return None
        self._said_of_journal = said
        return said

    def history_of(self, point: str) -> Dict[str, Any]:
        """The last day of a point, or why it is not known."""
        if self.journal is None:
            return {"sentence": "the console reads no journal: start it with --journal"}
        known = self.history.of(point, now())
        if self.journal.sentence or known is None:
            return {"sentence": self.journal.sentence or "the journal says nothing yet"}
        return known.described()

    def changed_schedules(self) -> Optional[List[Dict[str, Any]]]:
        """What the files of the schedules say, where it is another thing than when this was last asked."""
        said = self.schedules.described()
        if said == self._said_of_schedules:
            return None
        self._said_of_schedules = said
        return said

    def changed_details(self) -> Dict[str, Dict[str, Any]]:
        """The details of points that somebody looks at, where they are others than when this was last asked."""
        looked = self.points_looked.names()
        told = {point: self.detail(point) for point in sorted(looked & self.points.keys())}
        changed = {point: detail for point, detail in told.items() if detail != self._told.get(point)}
        self._told = told
        return changed

    def fresh_notices(self) -> Dict[str, List[Dict[str, Any]]]:
        """The notices that came since this was last asked, of processes that somebody looks at."""
        looked, fresh = self.processes_looked.names(), self._fresh
        self._fresh = {}
        return {process: [notice_described(one) for one in list_of] for process, list_of in fresh.items() if process in looked}

    def named(self) -> Optional[List[str]]:
        """The names of the processes, where there are more than when this was last asked."""
        if len(self.processes) == self._named:
            return None
        self._named = len(self.processes)
        return sorted(self.processes)

    def transactions_of(self, owner: str) -> Mapping[int, str]:
        """The transactions of a process that have a lease, each with a point of theirs, as far as is known."""
        return {
            slot.txn: slots.point for slots in self.slots.values() for slot in slots.slots.values()
            if slot.until is not None and self.owners.get(slot.txn) == owner
        }
