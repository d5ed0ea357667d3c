"""What is held for those who set points over MQTT, and what is to be asked for that. Pure: it asks nobody, and is told what was answered.
All its moments are milliseconds of a clock that does not jump.

No event is kept to be made up for later: each time what is wanted of a point is held against what is known to stand, so a lost connection,
another journal and a machine that slept are one case."""

from typing import Dict, Iterator, List, Mapping, NamedTuple, Optional, Sequence, Tuple

import bossd

from .settings import Settable

MOST_WRITES = 32
# So many transactions are renewed one by one; where there are more, those that stood for a third of their lease are put together.
MOST_TRANSACTIONS = 64
# No renewal asks for less than this.
LEAST_LEASE = 1_000


class Held(NamedTuple):
    """What a point has: its value, by which transaction (None: it is to be taken anew), up to when it was asked for, and when it is to be
    renewed."""
    value: int
    txn: Optional[int]
    ends: int
    due: int


def parts(names: Sequence[str]) -> Iterator[Sequence[str]]:
    """The names in as many as one transaction takes."""
    for place in range(0, len(names), MOST_WRITES):
        yield names[place:place + MOST_WRITES]


class Keeper:
    """What is held, by point."""

    def __init__(self, settable: Mapping[str, Settable]) -> None:
        self.settable = settable
        self.held: Dict[str, Held] = {}
        # What was set and not answered: it may stand, and counts where it is found to.
        self.doubtful: Dict[str, Held] = {}

    # -- what is to be asked

    def taking(self, name: str, value: int, left: int) -> bossd.Request:
        """The write that takes a point for so many milliseconds. Its own value comes first on its way back, so that a bridge that is
        started again finds it as it was."""
        one = self.settable[name]
        steps = (((value, one.hold),) if one.hold else ()) + one.back
        return bossd.write(name, value, lease=max(LEAST_LEASE, min(one.lease, left)), priority=one.priority, revert=steps)

    def letting(self, name: str) -> bossd.Request:
        """The write that lets a point go, with its way back and without what is held where the bridge died."""
        one = self.settable[name]
        return bossd.write(name, self.held[name].value, lease=1, priority=one.priority, revert=one.back)

    def renewals(self, now: int) -> List[bossd.Request]:
        """What is due; only points that still stand are named, since one that is gone refuses all."""
        due: Dict[Tuple[int, int], List[str]] = {}
        for name, held in self.held.items():
            if held.txn is not None and held.due <= now < held.ends:
                length = max(LEAST_LEASE, min(self.settable[name].lease, held.ends - now))
                due.setdefault((held.txn, length), []).append(name)
        return [bossd.renewal(txn, length, part) for (txn, length), names in due.items() for part in parts(names)]

    def together(self, now: int) -> List[Sequence[str]]:
        """The points that are to be put together in one transaction each, where there are too many of them."""
        counts: Dict[int, int] = {}
        for held in self.held.values():
            if held.txn is not None:
                counts[held.txn] = counts.get(held.txn, 0) + 1
        if len(counts) <= MOST_TRANSACTIONS:
            return []
        small = [name for name, held in self.held.items()
                 if held.txn is not None and held.due <= now < held.ends and counts[held.txn] < MOST_WRITES]
        return [part for part in parts(small) if len(part) > 1]

    def stands(self, name: str, now: int) -> bool:
        """Whether a point is held, and wanted for longer."""
        held = self.held.get(name)
        return held is not None and held.txn is not None and held.ends > now

    def over(self, now: int) -> List[str]:
        """The points that are to be let go."""
        return [name for name, held in self.held.items() if held.ends <= now]

    def anew(self, now: int) -> List[str]:
        """The points that are to be taken again."""
        return [name for name, held in self.held.items() if held.txn is None and held.ends > now]

    # -- what was answered, and told

    def prolonged(self, name: str, value: int, ends: int, now: int) -> bool:
        """Whether a point has this value already: then it is only wanted for longer, or not so long."""
        held = self.held.get(name)
        if held is None or held.value != value or held.txn is None or held.ends <= now:
            return False
        self.held[name] = held._replace(ends=ends, due=min(held.due, now) if ends > held.ends else held.due)
        return True

    def taken(self, name: str, value: int, txn: int, ends: int, now: int) -> None:
        """A point was taken."""
        self.doubtful.pop(name, None)
        self.held[name] = Held(value, txn, ends, now + min(self.settable[name].lease, max(ends - now, 0)) // 3)

    def renewed(self, txn: int, points: Sequence[str], length: int, now: int) -> None:
        """Leases were renewed."""
        for name in points:
            held = self.held.get(name)
            if held is not None and held.txn == txn:
                self.held[name] = held._replace(due=now + length // 3)

    def let_go(self, name: str) -> None:
        """A point is held no more."""
        self.held.pop(name, None)
        self.doubtful.pop(name, None)

    def ended(self, txn: int, point: str, cause: str) -> bool:
        """A lease ended. Whether it is lost to somebody else. What a later transaction of our own took is not concerned."""
        held = self.held.get(point)
        if held is None or held.txn != txn:
            return False
        if cause in ("died", "expired"):
            self.held[point] = held._replace(txn=None)
            return False
        del self.held[point]
        return True

    def end_all(self, now: int) -> None:
        """Wants nothing any more."""
        self.held = {name: held._replace(ends=min(held.ends, now)) for name, held in self.held.items()}
        self.doubtful.clear()

    def found(self, name: str, slot: Optional[bossd.Slot], is_own: bool, now: int) -> None:
        """What stands in the slot of a point that is held, or may be: after a request that was not answered, and wherever what was told is
        not known for sure."""
        known = self.held.get(name)
        doubtful = self.doubtful.pop(name, None)
        lives = slot is not None and slot.until is not None
        if slot is not None and lives and is_own:
            for one in (doubtful, known):
                if one is not None and one.value == slot.value:
                    self.held[name] = one._replace(txn=slot.txn, due=now)
                    return
        if known is not None and lives and not is_own:
            del self.held[name]
        elif known is not None:
            self.held[name] = known._replace(txn=None)
