"""What comes next at a point, as far as its slots tell, if nobody asks for anything more.

A live lease comes before every reversion, of two of a kind the one with the lesser priority number comes first, and where there is neither
the point has its default. No request asks for the reversion that a lease will be followed by, or for the steps that a reversion still has;
they are known by the server's journal, where it is read, and of what this console took itself."""

from typing import Any, Dict, Iterable, List, Mapping, NamedTuple, Optional, Sequence, Tuple

import bossd

from .catalogue import Point, is_urgent

# The steps of a reversion: values, and for how many milliseconds each is held.
Way = Sequence[Sequence[int]]


class Part(NamedTuple):
    """What stands in a slot from one moment up to another."""
    live: bool
    priority: int
    value: int
    txn: int
    start: int
    end: int


class Coming(NamedTuple):
    """What a point has from the moment `at` on. `sure` is whether no reversion that is not known can come in its place. `device` says that
    a minimum time keeps its device back: "then", up to the moment `device_at`, "by", up to that at the latest, "not", until it is to have
    another value, or "perhaps", until then or not so long; None where none does."""
    at: int
    value: int
    basis: str
    priority: Optional[int]
    txn: Optional[int]
    sure: bool
    device: Optional[str] = None
    device_at: Optional[int] = None

    def described(self) -> Dict[str, Any]:
        """As JSON has it."""
        told = {"at": self.at, "value": self.value, "from": self.basis, "priority": self.priority, "txn": self.txn, "sure": self.sure,
                "device": self.device, "device_at": self.device_at}
        return {key: one for key, one in told.items() if one is not None}


def steps_after(start: int, priority: int, txn: int, way: Way) -> List[Part]:
    """The parts of a reversion that begins at a moment."""
    parts = []
    for value, hold in way:
        parts.append(Part(False, priority, value, txn, start, start + hold))
        start += hold
    return parts


def parts_of(priority: int, slot: bossd.Slot, way: Optional[Way]) -> List[Part]:
    """What stands in a slot, now and later, as far as it is known."""
    if slot.until is not None:
        lease = Part(True, priority, slot.value, slot.txn, 0, slot.until)
        return [lease] + steps_after(slot.until, priority, slot.txn, way or ())
    end = slot.end or 0
    if way is None:
        return [Part(False, priority, slot.value, slot.txn, 0, end)]
    return steps_after(end - sum(hold for _, hold in way), priority, slot.txn, way)


def steps_to_come(priority: int, slot: bossd.Slot, way: Optional[Way], at: int) -> Optional[List[Part]]:
    """The steps that come after what stands in a slot, as it was answered at a moment; None where they are not known."""
    if way is None:
        return None
    parts = parts_of(priority, slot, way)
    return parts[1:] if slot.until is not None else parts[standing(parts, slot.value, at) + 1:]


def standing(parts: Sequence[Part], value: int, at: int) -> int:
    """Which step of a reversion has this value at a moment: the last of those that have begun, or the first that will."""
    places = [place for place, part in enumerate(parts) if part.value == value]
    begun = [place for place in places if parts[place].start <= at]
    return begun[-1] if begun else places[0] if places else len(parts)


def in_force(parts: Iterable[Part], at: int) -> Optional[Part]:
    """The part that decides at a moment; None where the point has its default."""
    standing = [part for part in parts if part.start <= at < part.end]
    if not standing:
        return None
    return min(standing, key=lambda part: (not part.live, part.priority))


def unknown_ends(slots: Mapping[int, bossd.Slot], ways: Mapping[int, Way]) -> Dict[int, int]:
    """From which moment on each slot may have a reversion, or another step of one, that is not known."""
    return {
        priority: slot.until if slot.until is not None else 0
        for priority, slot in slots.items() if slot.txn not in ways
    }


def is_sure(part: Optional[Part], at: int, doubts: Mapping[int, int]) -> bool:
    """Whether nothing that is not known can stand before this part at a moment."""
    if part is not None and part.live:
        return True
    return not any(since <= at and (part is None or priority <= part.priority) for priority, since in doubts.items())


def coming_of(part: Optional[Part], default: int, at: int, sure: bool) -> Coming:
    """What a point has from a moment on, where this part decides it."""
    if part is None:
        return Coming(at, default, "default", None, None, sure)
    return Coming(at, part.value, "lease" if part.live else "pending", part.priority, part.txn, sure)


def what_comes(slots: bossd.Slots, ways: Mapping[int, Way], now: int) -> List[Coming]:
    """What the point has now, and what it has after that, in order, up to its default."""
    parts = [part for priority, slot in slots.slots.items() for part in parts_of(priority, slot, ways.get(slot.txn))]
    doubts = unknown_ends(slots.slots, ways)
    before = in_force(parts, now)
    found = [coming_of(before, slots.default, now, True)]
    for at in sorted({at for part in parts for at in (part.start, part.end) if at > now}):
        part = in_force(parts, at)
        if part != before:
            found.append(coming_of(part, slots.default, at, is_sure(part, at, doubts)))
        before = part
    return found


# ---- when the device of a point with minimum times follows

class Device(NamedTuple):
    """What a device has, None where that may be either value, and from which moment on it may have another one; where that is not `sure`, it
    may have it before."""
    value: Optional[int]
    free: int
    sure: bool


def device_of(point: Point, reading: bossd.Reading, now: int) -> Optional[Device]:
    """The device of a point as it was read; None where the point has no minimum times. Of a device that has its value the server does not
    tell since when, so that may be since now."""
    if not point.times():
        return None
    if reading.took is not None and reading.since is not None:
        return Device(reading.took, reading.since + point.least_time(reading.took), True)
    return Device(reading.value, now + point.least_time(reading.value), False)


def followed(found: Sequence[Coming], point: Point, device: Device) -> List[Coming]:
    """What comes, with what is known of when the device follows, if nothing fails."""
    told: List[Coming] = []
    for one, after in zip(found, [*found[1:], None]):
        followed_one, device = follow(one, None if after is None else after.at, point, device)
        told.append(followed_one)
    return told


def follow(one: Coming, end: Optional[int], point: Point, device: Device) -> Tuple[Coming, Device]:
    """How the device follows this one, which is in force until `end`, and the device then."""
    if one.value == device.value:
        return one, device
    hurries = is_urgent(one.basis, one.priority)
    at = one.at if hurries else max(one.at, device.free)
    is_sure = hurries or (device.value is not None and (device.sure or at == one.at))
    if not is_sure:
        # The other value it has since this moment at the latest: a moment that stays the same from look to look.
        at = one.at + point.least_time(1 - one.value)
    if end is None or at < end:
        then = Device(one.value, at + point.least_time(one.value), is_sure and device.value is not None)
        return (one if at == one.at and is_sure else one._replace(device="then" if is_sure else "by", device_at=at)), then
    if is_sure:
        return one._replace(device="not"), device
    return one._replace(device="perhaps"), Device(None, max(at, end + point.least_time(one.value)), False)


# ---- what an operator's change would bring

def with_take(slots: bossd.Slots, priority: int, value: int, until: int) -> bossd.Slots:
    """The slots after a take; its transaction is 0."""
    return slots._replace(slots={**slots.slots, priority: bossd.Slot(value, 0, until=until)})


def with_prolonged(slots: bossd.Slots, txn: int, until: int) -> bossd.Slots:
    """The slots after the leases of a transaction were kept up to a moment at least."""
    return slots._replace(slots={
        priority: slot._replace(until=max(until, slot.until)) if slot.txn == txn and slot.until is not None else slot
        for priority, slot in slots.slots.items()
    })


def with_release(slots: bossd.Slots, txn: int, ways: Mapping[int, Way], now: int) -> bossd.Slots:
    """The slots after a transaction was released: its leases are gone, and the reversions that are known begin."""
    kept: Dict[int, bossd.Slot] = {}
    for priority, slot in slots.slots.items():
        if slot.txn != txn or slot.until is None:
            kept[priority] = slot
        else:
            way = ways.get(txn, ())
            kept[priority] = bossd.Slot(way[0][0] if way else slot.value, txn, end=now + sum(hold for _, hold in way))
    return slots._replace(slots=kept)
