"""What schedules want of points, by the files `coming.json` that bossd-schedule writes, and whether their processes hold it.

A file is read again where it is another one than before, or was written anew. Nothing of bossd-schedule is needed for it."""

import asyncio
import json
import os
from typing import Any, Dict, List, NamedTuple, Optional, Sequence, Tuple

import bossd

from .catalogue import is_name, now

# How far ahead is shown of a point, in milliseconds, and so many spans of it at most.
AHEAD, MOST_SPANS = 86_400_000, 48
# The longest file that is read, in bytes. A week of 4,096 points has some 2 MB.
LONGEST = 16 << 20
# So long after its moment of the next change a file that was not written anew is old, in milliseconds.
LATE = 60_000

Slot = Tuple[str, int]


class Span(NamedTuple):
    """A value that is wanted from a moment to another one, and why. Moments are milliseconds since 1970."""
    start: int
    end: int
    value: int
    why: str


class Wanted(NamedTuple):
    """What a programme wants of a point."""
    programme: str
    spans: Sequence[Span]


class Told(NamedTuple):
    """What a file says: of the schedule, of each slot that it wants, of the slots that it left to others, to whom and since when, and of
    those that the server refused."""
    about: Dict[str, Any]
    wanted: Dict[str, Dict[int, Wanted]]
    yielded: Dict[Slot, Tuple[str, int]]
    refused: List[Slot]


class NoSchedule(Exception):
    """The file is no coming.json. Its text says why."""


def whole(found: object, least: int = 0) -> int:
    """A whole number. NoSchedule."""
    if isinstance(found, bool) or not isinstance(found, int) or not least <= found < 1 << 62:
        raise NoSchedule
    return found


def text(found: object) -> str:
    """A text. NoSchedule."""
    if not isinstance(found, str):
        raise NoSchedule
    return found


def listed(found: object) -> List[Any]:
    if not isinstance(found, list):
        raise NoSchedule
    return found


def span_of(found: object) -> Span:
    start, end, value, why = listed(found)
    return Span(whole(start), whole(end), whole(value, -1 << 62), text(why))


def told_of(data: bytes) -> Told:
    """What the bytes of a file say. NoSchedule."""
    try:
        return _told_of(json.loads(data))
    except (ValueError, KeyError, TypeError, RecursionError, NoSchedule) as error:
        raise NoSchedule("it is no coming.json of bossd-schedule") from error


def _told_of(found: Any) -> Told:
    process = text(found["process"])
    if not is_name(process):
        raise NoSchedule
    sentence = found["sentence"]
    about = {"process": process, "zone": text(found["zone"]), "file": text(found["file"]), "written": whole(found["written"]),
             "until": whole(found["until"]), "reloaded": whole(found["reloaded"]), "sentence": None if sentence is None else text(sentence)}
    wanted: Dict[str, Dict[int, Wanted]] = {}
    for one in listed(found["coming"]):
        spans = Wanted(text(one["programme"]), [span_of(span) for span in listed(one["spans"])])
        for point in listed(one["points"]):
            wanted.setdefault(text(point), {})[whole(one["priority"], 1)] = spans
    yielded = {slot_of(one): (text(one["by"]), whole(one["since"])) for one in listed(found["yielded"])}
    programmes = {one.programme: priority for levels in wanted.values() for priority, one in levels.items()}
    about.update(points=len(wanted), programmes=[{"name": name, "priority": priority} for name, priority in programmes.items()])
    return Told(about, wanted, yielded, [slot_of(one) for one in listed(found["refused"])])


def slot_of(found: Any) -> Slot:
    return text(found["point"]), whole(found["priority"], 1)


class Schedule:
    """A file of a schedule. `sentence` says why it is not read, and is empty where it is; what it said last stays."""

    def __init__(self, path: str) -> None:
        self.path, self.sentence = path, "it was not read yet"
        self.told: Optional[Told] = None
        self._seen: Optional[Tuple[int, int, int]] = None

    def look(self) -> None:
        """Reads the file where it is another one than before."""
        try:
            with open(self.path, "rb") as file:
                found = os.fstat(file.fileno())
                seen = found.st_ino, found.st_mtime_ns, found.st_size
                if seen == self._seen:
                    return
                if found.st_size > LONGEST:
                    raise NoSchedule(f"it has more than {LONGEST >> 20} MiB")
                self.told, self.sentence = told_of(file.read(LONGEST)), ""
                self._seen = seen
        except FileNotFoundError:
            self._fail("there is no such file: does bossd-schedule run, with --state?")
        except OSError as error:
            self._fail(error.strerror or "it cannot be read")
        except NoSchedule as error:
            self._fail(str(error))

    def _fail(self, why: str) -> None:
        self.sentence, self._seen = why, None

    def is_old(self, moment: int) -> bool:
        """Whether it should have been written anew by now, and was not."""
        return self.told is not None and int(self.told.about["until"]) + LATE < moment

    def described(self, moment: int) -> Dict[str, Any]:
        """As JSON has it."""
        told: Dict[str, Any] = {"path": self.path, "fault": self.sentence or None}
        if self.told is not None:
            told.update(self.told.about, old=self.is_old(moment),
                        yielded=[{"point": point, "priority": priority, "by": by, "since": since}
                                 for (point, priority), (by, since) in self.told.yielded.items()],
                        refused=[{"point": point, "priority": priority} for point, priority in self.told.refused])
        return told

    def of(self, point: str, slots: Optional[bossd.Slots], owners: Dict[int, str], moment: int) -> List[Dict[str, Any]]:
        """What it wants of a point in the hours to come, and how that stands, by priorities."""
        if self.told is None:
            return []
        return [self._entry(self.told, (point, priority), wanted, slots, owners, moment)
                for priority, wanted in sorted(self.told.wanted.get(point, {}).items())]

    def _entry(self, told: Told, slot: Slot, wanted: Wanted, slots: Optional[bossd.Slots], owners: Dict[int, str], moment: int) -> Dict[str, Any]:
        coming = [span for span in wanted.spans if span.end > moment and span.start < moment + AHEAD]
        present = next((span for span in coming if span.start <= moment), None)
        entry: Dict[str, Any] = {
            "process": told.about["process"], "zone": told.about["zone"], "programme": wanted.programme, "priority": slot[1],
            "spans": [list(span) for span in coming[:MOST_SPANS]], "more": len(coming) > MOST_SPANS, "old": self.is_old(moment),
            "state": state_of(told, slot, present, slots, owners),
        }
        stands = slots.slots.get(slot[1]) if slots is not None else None
        by, since = told.yielded.get(slot, (None, None))
        if entry["state"] in ("other", "yielded"):
            entry["by"], entry["since"] = (owners.get(stands.txn) if stands is not None else None) or by, since
        return {key: one for key, one in entry.items() if one is not None}


def state_of(told: Told, slot: Slot, present: Optional[Span], slots: Optional[bossd.Slots], owners: Dict[int, str]) -> str:
    """How what is wanted now stands: "held" by the schedule's process; "other", where another one has the slot; "yielded", where it was
    left to another one that has let go since; "refused"; "unset" where nobody has it; "free" where nothing is wanted; "unknown" where the
    slots were not read."""
    if present is None:
        return "free"
    if slots is None:
        return "unknown"
    stands = slots.slots.get(slot[1])
    is_lease = stands is not None and stands.until is not None
    if stands is not None and is_lease and owners.get(stands.txn) == told.about["process"]:
        return "held" if stands.value == present.value else "unset"
    if is_lease:
        return "other"
    return "yielded" if slot in told.yielded else "refused" if slot in told.refused else "unset"


class Schedules:
    """All files that are followed."""

    def __init__(self, paths: Sequence[str]) -> None:
        self.all = [Schedule(path) for path in paths]

    async def look(self) -> None:
        """Reads what changed, beside the looks: a file may be long."""
        if self.all:
            await asyncio.to_thread(self._look)

    def _look(self) -> None:
        for one in self.all:
            one.look()

    def described(self) -> List[Dict[str, Any]]:
        """As JSON has it."""
        moment = now()
        return [one.described(moment) for one in self.all]

    def of(self, point: str, slots: Optional[bossd.Slots], owners: Dict[int, str]) -> List[Dict[str, Any]]:
        """What all of them want of a point."""
        moment = now()
        return [entry for one in self.all for entry in one.of(point, slots, owners, moment)]
