"""The events of an iCalendar file between two moments, recurrences made out. Rules are counted in the local time of the event's own zone, so
that each Sunday at ten stays at ten over a change of the clock; then each beginning and end is a moment by the rules of `week`."""

from datetime import date, datetime, time, timedelta, timezone
from functools import lru_cache
from time import thread_time
from typing import Any, Dict, Iterator, List, NamedTuple, Optional, Set, Tuple
from zoneinfo import ZoneInfo

from dateutil.rrule import rrulestr
from icalendar import Calendar  # type: ignore[import]
from icalendar.windows_to_olson import WINDOWS_TO_OLSON  # type: ignore[import]

from .week import Between, Moment, both, local

MOST_EVENTS, MOST_IN_A_PART, PART = 10_000, 20_000, 28 * 86_400_000
TOO_OFTEN = ("SECONDLY", "MINUTELY", "HOURLY")
# For how many seconds of the processor the rules of a file may be looked at: one that fits no day at all, as the 30th of February, is walked
# to the year 9999.
LONGEST_LOOK = 10.0
UTC = ZoneInfo("UTC")


class Unfit(ValueError):
    """A file that is none, or has what is not taken; the sentence says which event."""


class Event(NamedTuple):
    """An event, by local times of its zone; `first` is also that of the other instances, and `length` what a clock shows to pass."""
    uid: str
    summary: str
    zone: ZoneInfo
    first: datetime
    length: timedelta
    rule: Any
    more: Tuple[datetime, ...]
    never: Set[datetime]


def events_of(data: bytes, zone: ZoneInfo) -> Between:
    """The events of the file; times without a zone, and days, are of this one. Unfit."""
    try:
        found = [one for calendar in Calendar.from_ical(data, multiple=True) for one in calendar.walk("VEVENT")]
    except (ValueError, IndexError, KeyError) as error:
        raise Unfit(f"no iCalendar: {error}") from error
    if len(found) > MOST_EVENTS:
        raise Unfit(f"{len(found)} events; at most {MOST_EVENTS}")
    moved: Dict[str, List[Any]] = {}
    for one in found:
        if "RECURRENCE-ID" in one:
            if one["RECURRENCE-ID"].params.get("RANGE"):
                raise Unfit(f"{called(one)}: RECURRENCE-ID with RANGE is not taken")
            moved.setdefault(str(one.get("UID")), []).append(one["RECURRENCE-ID"])
    events, began = [], thread_time()
    for one in found:
        if str(one.get("STATUS", "")).upper() != "CANCELLED":
            events.append(fit_event_of(one, zone, moved))
        if thread_time() > began + LONGEST_LOOK:
            raise Unfit(f"{called(one)}: up to here the rules took longer than {LONGEST_LOOK:.0f} s")

    @lru_cache(maxsize=32)
    def part(number: int) -> Tuple[Tuple[Moment, Moment, str], ...]:
        spans = [span for event in events for span in spans_of(event, number * PART, (number + 1) * PART)]
        if len(spans) > MOST_IN_A_PART:
            raise Unfit(f"{len(spans)} instances in four weeks; at most {MOST_IN_A_PART}")
        return tuple(sorted(spans))

    def between(start: Moment, end: Moment) -> List[Tuple[Moment, Moment, str]]:
        parts = {span for number in range(start // PART, end // PART + 1) for span in part(number)}
        return sorted(span for span in parts if span[0] < end and span[1] > start)
    return between


def called(one: Any) -> str:
    return str(one.get("SUMMARY") or one.get("UID") or "an event without a name")[:60]


def zone_of(value: Any, zone: ZoneInfo, one: Any) -> ZoneInfo:
    """The zone of a property: its TZID, also as Windows has it; UTC; or the one that is given."""
    name = value.params.get("TZID")
    if name is None:
        moment = value.dt if hasattr(value, "dt") else value.dts[0].dt
        return UTC if isinstance(moment, datetime) and moment.tzinfo is not None else zone
    try:
        return ZoneInfo(WINDOWS_TO_OLSON.get(name, name))
    except (KeyError, ValueError, OSError) as error:
        raise Unfit(f"{called(one)}: TZID {name} is no zone that this machine has") from error


def shown(value: Any, own: ZoneInfo, target: ZoneInfo) -> datetime:
    """A time as a clock of the event's zone shows it. A day is its midnight."""
    if not isinstance(value, datetime):
        return datetime.combine(value, time(0))
    if value.tzinfo is not None and own is not target:
        return value.astimezone(target).replace(tzinfo=None)
    return value.replace(tzinfo=None)


def fit_event_of(one: Any, zone: ZoneInfo, moved: Dict[str, List[Any]]) -> Event:
    """As `event_of`; what the library gives in another form than it should, as a time that is none, is Unfit too."""
    try:
        return event_of(one, zone, moved)
    except Unfit:
        raise
    except (ValueError, TypeError, AttributeError, KeyError, IndexError, OverflowError) as error:
        raise Unfit(f"{called(one)}: {error}") from error


def event_of(one: Any, zone: ZoneInfo, moved: Dict[str, List[Any]]) -> Event:
    if "DTSTART" not in one:
        raise Unfit(f"{called(one)}: no DTSTART")
    begin = one["DTSTART"]
    own = zone_of(begin, zone, one)
    first = shown(begin.dt, own, own)
    if "DTEND" in one:
        length = shown(one["DTEND"].dt, zone_of(one["DTEND"], zone, one), own) - first
    elif "DURATION" in one:
        length = one["DURATION"].dt
    else:
        length = timedelta(0) if isinstance(begin.dt, datetime) else timedelta(days=1)
    uid = str(one.get("UID"))
    if "EXRULE" in one or isinstance(one.get("RRULE"), list):
        raise Unfit(f"{called(one)}: EXRULE, or more than one RRULE, is not taken")
    never = set(listed(one, "EXDATE", zone, own))
    if "RECURRENCE-ID" not in one:
        never |= {shown(id_.dt, zone_of(id_, zone, one), own) for id_ in moved.get(uid, [])}
    return Event(uid, called(one), own, first, length, rule_of(one, first, own), tuple(listed(one, "RDATE", zone, own)), never)


def listed(one: Any, key: str, zone: ZoneInfo, own: ZoneInfo) -> Iterator[datetime]:
    values = one.get(key, [])
    for value in values if isinstance(values, list) else [values]:
        for item in value.dts:
            if isinstance(item.dt, tuple):
                raise Unfit(f"{called(one)}: {key} with periods is not taken")
            yield shown(item.dt, zone_of(value, zone, one), own)


def rule_of(one: Any, first: datetime, own: ZoneInfo) -> Optional[Any]:
    if "RRULE" not in one:
        return None
    keys = dict(one["RRULE"])
    if any(often in keys.get("FREQ", []) for often in TOO_OFTEN):
        raise Unfit(f"{called(one)}: FREQ={keys['FREQ'][0]}; at most once a day")
    if any(len(keys.get(key, [])) > 1 for key in ("BYHOUR", "BYMINUTE", "BYSECOND")):
        raise Unfit(f"{called(one)}: several times of day in one RRULE; at most once a day")
    last = keys.pop("UNTIL", [None])[0]
    text = ";".join(part for part in one["RRULE"].to_ical().decode().split(";") if not part.startswith("UNTIL="))
    try:
        rule: Any = rrulestr(text, dtstart=first)
    except ValueError as error:
        raise Unfit(f"{called(one)}: RRULE {text}: {error}") from error
    if isinstance(last, datetime):
        rule = rule.replace(until=last.astimezone(own).replace(tzinfo=None) if last.tzinfo else last)
    elif last is not None:
        rule = rule.replace(until=datetime.combine(last, time.max))
    return rule if next(iter(rule), None) is not None else None


def spans_of(event: Event, start: Moment, end: Moment) -> Iterator[Tuple[Moment, Moment, str]]:
    """The instances that touch the time from `start` to `end`."""
    low, high = local(start, event.zone) - event.length - timedelta(days=2), local(end, event.zone) + timedelta(days=2)
    begins = {one for one in (event.first,) + event.more if low <= one <= high}
    if event.rule is not None:
        begins |= set(event.rule.between(low, high, inc=True))
    for begin in begins - event.never:
        first, last = both(begin, event.zone)[0], both(begin + event.length, event.zone)[1]
        if first < end and last > start and first < last:
            yield first, last, event.summary
