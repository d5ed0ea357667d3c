"""From what is wanted and what is held to requests. Pure: it asks nobody, and is told what was answered.

No event is kept to be made up for later. Each time the whole difference is reckoned between what is wanted and what is held, so a start, an
edge, a reload, a lost connection and a clock that jumped are one case."""

from typing import Any, Callable, Collection, Dict, Iterator, List, Mapping, NamedTuple, Optional, Sequence, Tuple

Slot = Tuple[str, int]
Way = Tuple[Tuple[int, int], ...]
Request = Dict[str, Any]
# For how many milliseconds the leases of a programme are taken, or renewed, now.
Lengths = Callable[[str], int]
MOST_WRITES = 32
PRIORITIES = range(1, 17)


class Wish(NamedTuple):
    """What a slot is to have: its value, for how long that stays where the program died, and the way back behind that."""
    value: int
    hold: int = 0
    back: Way = ()

    def steps(self) -> Way:
        return (((self.value, self.hold),) if self.hold else ()) + self.back


# What is wanted of each slot, and by which programme.
Wishes = Mapping[Slot, Tuple[str, Wish]]


class Held(NamedTuple):
    """What a slot has, by which transaction, and of which programme. In doubt about it `txn` is 0, which is no transaction's number."""
    wish: Wish
    txn: int
    group: str


class Due(NamedTuple):
    """When a transaction is renewed next, and up to when it is held at least, by a clock that does not jump."""
    at: int
    until: int


class Change(NamedTuple):
    """A transaction to be made: the slots of one programme that are set, or, without wishes, let go."""
    group: str
    slots: Tuple[Slot, ...]
    wishes: Optional[Tuple[Wish, ...]]

    def without(self, index: int) -> "Change":
        wishes = None if self.wishes is None else self.wishes[:index] + self.wishes[index + 1:]
        return Change(self.group, self.slots[:index] + self.slots[index + 1:], wishes)


class Keeper:
    """What a process holds. `yielded` and `refused` have the wish for which a slot was lost to another process, or refused by the server:
    it is not asked for again before another wish."""

    def __init__(self) -> None:
        self.held: Dict[Slot, Held] = {}
        self.yielded: Dict[Slot, Wish] = {}
        self.refused: Dict[Slot, Wish] = {}
        self.due: Dict[int, Due] = {}

    # -- what is to be asked

    def changes(self, wishes: Wishes) -> List[Change]:
        """What is to be made, for what is wanted: first what is set, then what is let go."""
        for known in (self.yielded, self.refused):
            for slot in [slot for slot, wish in known.items() if slot not in wishes or wishes[slot][1] != wish]:
                del known[slot]
        sets: Dict[str, List[Slot]] = {}
        lets: Dict[str, List[Slot]] = {}
        for slot, (group, wish) in wishes.items():
            held = self.held.get(slot)
            if held is not None and held.wish == wish:
                # After a reload it may be another programme's.
                self.held[slot] = held._replace(group=group)
            elif slot not in self.yielded and slot not in self.refused:
                sets.setdefault(group, []).append(slot)
        for slot, held in self.held.items():
            if slot not in wishes:
                lets.setdefault(held.group, []).append(slot)
        made = [Change(group, part, tuple(wishes[slot][1] for slot in part)) for group, slots in sets.items() for part in parts(slots)]
        return made + [Change(group, part, None) for group, slots in lets.items() for part in parts(slots)]

    def writes(self, change: Change, length: int) -> List[Request]:
        """The writes of a change, under leases of this length; what is let go has one of a millisecond, and then the way back alone."""
        writes = []
        for place, slot in enumerate(change.slots):
            wish = self.held[slot].wish if change.wishes is None else change.wishes[place]
            steps, lease = (wish.back, 1) if change.wishes is None else (wish.steps(), length)
            writes.append({"point": slot[0], "priority": slot[1], "value": wish.value, "lease": lease, "revert": [list(step) for step in steps]})
        return writes

    def renewals(self, now: int, soon: int, lengths: Lengths) -> Iterator[Request]:
        """What is due now or soon; only points that still stand are named, since one that is gone refuses all. A lease that already
        reaches as far as it may, past the next edge, is left as it is."""
        for txn in [txn for txn, due in self.due.items() if due.at <= now + soon]:
            held = {slot[0]: one.group for slot, one in self.held.items() if one.txn == txn}
            length = min(map(lengths, set(held.values())), default=0)
            if not held:
                del self.due[txn]
            elif now + length > self.due[txn].until + soon:
                yield {"op": "renew", "txn": txn, "length": length, "points": list(held)}

    # -- what was answered, and told

    def accepted(self, change: Change, txn: int, now: int, length: int) -> None:
        for place, slot in enumerate(change.slots):
            if change.wishes is None:
                del self.held[slot]
            else:
                self.held[slot] = Held(change.wishes[place], txn, change.group)
        if change.wishes is not None:
            self.renewed(txn, now, length)

    def renewed(self, txn: int, now: int, length: int) -> None:
        self.due[txn] = Due(now + length // 3, now + length)

    def refuse(self, change: Change, index: int) -> Change:
        """A write was refused: the rest of the change, to be made at once."""
        slot = change.slots[index]
        if change.wishes is not None:
            self.refused[slot] = change.wishes[index]
        self.held.pop(slot, None)
        return change.without(index)

    def ended(self, txn: int, point: str, cause: str) -> Optional[Slot]:
        """A lease of a transaction ended: the slot, if it was one that is held. What a later transaction of our own took is not."""
        for slot in ((point, priority) for priority in PRIORITIES):
            held = self.held.get(slot)
            if held is not None and held.txn == txn:
                del self.held[slot]
                if cause == "superseded":
                    self.yielded[slot] = held.wish
                return slot
        return None

    def doubt(self, others: Collection[Slot], stands: Mapping[Slot, Tuple[int, int]]) -> None:
        """A request was not answered, notices are gone, or the connection is another one, and what is held was read: of some slots another
        process has the lease, and in others a transaction stands with a value. What stands as it is held is left so; all else is set anew,
        or let go where it is wanted no longer."""
        for slot in [slot for slot in self.held if slot in others]:
            self.yielded[slot] = self.held.pop(slot).wish
        self.held = {slot: held if stands.get(slot) == (held.txn, held.wish.value) else held._replace(wish=held.wish._replace(hold=-1), txn=0)
                     for slot, held in self.held.items()}


def parts(slots: Sequence[Slot]) -> Iterator[Tuple[Slot, ...]]:
    for place in range(0, len(slots), MOST_WRITES):
        yield tuple(slots[place:place + MOST_WRITES])
