"""What a page asks for in the body of a change or in the query of a preview, checked."""

from typing import Any, List, Mapping, NamedTuple, Optional

from .catalogue import Point, is_name, now
from .coming import with_prolonged, with_release, with_take
from .picture import Picture

MOST_STEPS = 8
LONGEST_LEASE, LONGEST_HOLD = 604_800_000, 86_400_000


class Faulty(Exception):
    """What was asked is no change. Its text says why."""


class Change(NamedTuple):
    """A change: "take", "prolong" or "release". `length` is how long a point is held, in milliseconds, `way` the steps back, and `policy`
    what becomes of it where the device does not take the value: "keep" or "abort". What `stands` has no end but a release."""
    do: str
    id: str
    point: Point
    value: int
    priority: int
    length: int
    way: List[List[int]]
    txn: int
    policy: str = "keep"
    stands: bool = False


def whole(asked: Mapping[str, Any], key: str, least: int, most: int, otherwise: Optional[int] = None) -> int:
    """A whole number under a key. Faulty."""
    found = asked.get(key, otherwise)
    if isinstance(found, bool) or not isinstance(found, int) or not least <= found <= most:
        raise Faulty(f"{key} is to be a whole number of {least} to {most}")
    return found


def value_of(point: Point, found: object) -> int:
    """A value of a point. Faulty, in the point's own units."""
    if isinstance(found, bool) or not isinstance(found, int):
        sent = ", sent as a whole number of thousandths" if point.kind == "analog" else ""
        raise Faulty(f"a value is to be {point.range()}{sent}")
    if not point.least <= found <= point.most:
        raise Faulty(f"{point.show(found)} does not fit: a value is to be {point.range()}")
    return found


def way_of(point: Point, found: object) -> List[List[int]]:
    """The steps of a way back. Faulty."""
    if not isinstance(found, list) or len(found) > MOST_STEPS:
        raise Faulty(f"revert is to be an array of at most {MOST_STEPS} steps")
    steps = []
    for step in found:
        if not isinstance(step, list) or len(step) != 2:
            raise Faulty("a step of revert is to be a value, and for how many milliseconds it is held")
        steps.append([value_of(point, step[0]), whole({"hold": step[1]}, "hold", 1, LONGEST_HOLD)])
    return steps


def change_of(do: object, asked: object, points: Mapping[str, Point]) -> Change:
    """The change that was asked. Faulty."""
    if not isinstance(asked, dict):
        raise Faulty("the body is to be a JSON object")
    if do not in ("take", "prolong", "release"):
        raise Faulty("do is to be take, prolong or release")
    name, change = asked.get("point"), asked.get("id", "")
    point = points.get(name) if isinstance(name, str) else None
    if point is None:
        raise Faulty("point is to be the name of a point")
    if not is_name(change):
        raise Faulty("id is to be 1 to 64 characters of a-z 0-9 . _ -, and another one for each change")
    stands = do == "take" and asked.get("stands", False)
    if not isinstance(stands, bool):
        raise Faulty("stands is to be true or false")
    length = LONGEST_LEASE if stands else whole(asked, "length", 1, LONGEST_LEASE, 1 if do == "release" else None)
    if do != "take":
        return Change(str(do), str(change), point, 0, 0, length, [], whole(asked, "txn", 1, 1 << 62))
    priority = whole(asked, "priority", 1, 16, 8)
    if priority == 6:
        raise Faulty("priority 6 is kept for minimum on and off times")
    policy = asked.get("policy", "keep")
    if policy not in ("keep", "abort"):
        raise Faulty('policy is to be "keep" or "abort"')
    value, way = value_of(point, asked.get("value")), way_of(point, asked.get("revert", []))
    return Change(str(do), str(change), point, value, priority, length, way, 0, policy, stands)


def preview(change: Change, picture: Picture) -> List[Any]:
    """What a change would bring: first what the point would have at once, and then what follows."""
    slots, moment = picture.slots.get(change.point.name), now()
    if slots is None:
        raise Faulty("the point was not read yet")
    ways = picture.ways_at(change.point.name)
    if change.do == "take":
        ways[0] = change.way
        slots = with_take(slots, change.priority, change.value, moment + change.length)
    elif change.do == "prolong":
        slots = with_prolonged(slots, change.txn, moment + change.length)
    else:
        slots = with_release(slots, change.txn, ways, moment)
    coming = picture.coming(change.point.name, slots, ways, moment)
    return [one.described() for one in (coming[:1] if change.stands else coming)]
