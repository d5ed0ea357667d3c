"""What a weekly programme wants at a moment. Pure: no clock, no file and no server, so a year of it is tried in a second.

Moments are whole milliseconds since 1970, as in `bossd`; values are its own, thousandths or states. Two rules of local time, from which all
else follows: a block begins at the first moment at which a clock of the zone shows its `from` or later, and ends at the first moment from
which on no clock shows less than its `to`. So a time that is skipped is the moment of the change, and one that comes twice is the first for
a beginning and the second for an end; and no two blocks that touch on paper have a gap."""

from dataclasses import dataclass, field
from datetime import date, datetime, time, timedelta, timezone
from functools import lru_cache
from typing import Callable, Collection, Dict, Iterator, List, Mapping, NamedTuple, Optional, Sequence, Tuple
from zoneinfo import ZoneInfo

from .days import DAY, Days

Moment = int
Values = Mapping[str, int]
# What is asked of events: those that touch the time between two moments, each with its beginning, end and summary.
Between = Callable[[Moment, Moment], Sequence[Tuple[Moment, Moment, str]]]

EPOCH = datetime(1970, 1, 1, tzinfo=timezone.utc)
SECOND = 1000


@dataclass(frozen=True, eq=False)
class Block:
    """Values from a time of day to another one, on these days. An `end` that is not after `start` is on the next day; midnight is 24:00."""
    name: str
    days: Days
    start: time
    end: time
    values: Values


@dataclass(frozen=True, eq=False)
class Special:
    """Days whose list of blocks is another one, perhaps an empty one. With `cut` it ends at midnight what the day before goes on with."""
    name: str
    days: Days
    blocks: Tuple[Block, ...] = ()
    cut: bool = False


@dataclass(frozen=True, eq=False)
class Events:
    """Values while an event lasts, and so many milliseconds before it and after."""
    name: str
    between: Between
    values: Values
    before: int = 0
    after: int = 0


@dataclass(frozen=True, eq=False)
class Programme:
    """Of days with a special the first one has the day; events, the later table first, stand above all lists of blocks. On days that `only`
    has not nothing begins, and events and `otherwise` count for nothing."""
    name: str
    zone: ZoneInfo
    priority: int
    blocks: Tuple[Block, ...] = ()
    specials: Tuple[Special, ...] = ()
    events: Tuple[Events, ...] = ()
    otherwise: Values = field(default_factory=dict)
    only: Optional[Days] = None


class Wanted(NamedTuple):
    """A value, and which block or event decided on it."""
    value: int
    why: str


class Decided(NamedTuple):
    """What is wanted, by point. Up to `until` nothing changes; at it something may."""
    wants: Mapping[str, Wanted]
    until: Moment


class Span(NamedTuple):
    """A block on one day, or an event. Of those that hold at a moment the greatest decides: layer, then beginning, then place in the file."""
    layer: int
    start: Moment
    place: int
    end: Moment
    values: Values
    why: str
    of: object


# ---- local time

def moment_of(instant: datetime) -> Moment:
    return (instant - EPOCH) // timedelta(milliseconds=1)


def local(moment: Moment, zone: ZoneInfo) -> datetime:
    """What a clock of the zone shows, without a zone."""
    return (EPOCH + timedelta(milliseconds=moment)).astimezone(zone).replace(tzinfo=None, fold=0)


def both(shown: datetime, zone: ZoneInfo) -> Tuple[Moment, Moment]:
    """When a block begins, and when one ends, that says this local time."""
    early, late = sorted(moment_of(shown.replace(tzinfo=zone, fold=fold)) for fold in (0, 1))
    if early == late:
        return early, late
    if local(early, zone) == shown:
        # It comes twice. Between the two less is shown, unless the clock goes back to this very time.
        return early, late if local(late - SECOND, zone) < shown else early
    while late - early > SECOND:
        middle = (early + late) // (2 * SECOND) * SECOND
        early, late = (early, middle) if local(middle, zone) >= shown else (middle, late)
    return late, late


def begins(day: date, at: time, zone: ZoneInfo) -> Moment:
    return both(datetime.combine(day, at), zone)[0]


def ends(day: date, at: time, zone: ZoneInfo) -> Moment:
    return both(datetime.combine(day, at), zone)[1]


# ---- which block decides

def special_of(programme: Programme, day: date) -> Optional[Special]:
    return next((one for one in programme.specials if one.days(day)), None)


@lru_cache(maxsize=16_384)
def spans_of(programme: Programme, day: date) -> Tuple[Span, ...]:
    """The spans of the blocks that begin on this day, those that come to nothing left out."""
    if programme.only is not None and not programme.only(day):
        return ()
    special, following = special_of(programme, day), special_of(programme, day + DAY)
    name, blocks = (special.name, special.blocks) if special else ("week", programme.blocks)
    found = []
    for place, block in enumerate(blocks):
        if block.days(day):
            over = block.end <= block.start
            last = begins(day + DAY, time(0), programme.zone) if over and following and following.cut else None
            start, end = begins(day, block.start, programme.zone), ends(day + DAY if over else day, block.end, programme.zone)
            end = end if last is None else min(end, last)
            if start < end:
                found.append(Span(0, start, place, end, block.values, f"{programme.name}: {name}: {block.name}", block))
    return tuple(found)


def forget() -> None:
    """A calendar has other days than before."""
    spans_of.cache_clear()


def events_of(programme: Programme, start: Moment, end: Moment) -> Iterator[Span]:
    for layer, events in enumerate(programme.events, 1):
        for place, (first, last, summary) in enumerate(events.between(start - events.after, end + events.before)):
            why = f"{programme.name}: {events.name}: {summary}"
            yield Span(layer, first - events.before, place, last + events.after, events.values, why, events)


def standing(programme: Programme, moment: Moment) -> Tuple[List[Span], Moment]:
    """The spans that hold at the moment, those first that decide before others, and up to when nothing changes."""
    today = local(moment, programme.zone).date()
    horizon = begins(today + 2 * DAY, time(0), programme.zone)
    spans = [span for back in range(-2, 2) for span in spans_of(programme, today + back * DAY)]
    edges = [horizon]
    if programme.only is not None:
        edges.append(begins(today + DAY, time(0), programme.zone))
    if programme.only is None or programme.only(today):
        spans += events_of(programme, moment, horizon)
    until = min(edges + [edge for span in spans for edge in (span.start, span.end) if edge > moment])
    holding = [span for span in spans if span.start <= moment < span.end]
    return sorted(holding, key=lambda span: span[:3], reverse=True), until


def decide(programme: Programme, moment: Moment) -> Decided:
    """What the programme wants at the moment, and up to when nothing changes: the function that all else rests on."""
    spans, until = standing(programme, moment)
    wants: Dict[str, Wanted] = {}
    for span in spans:
        for point, value in span.values.items():
            wants.setdefault(point, Wanted(value, span.why))
    if programme.only is None or programme.only(local(moment, programme.zone).date()):
        for point, value in programme.otherwise.items():
            wants.setdefault(point, Wanted(value, f"{programme.name}: otherwise"))
    return Decided(wants, until)


def coming(programme: Programme, points: Collection[str], start: Moment, end: Moment) -> Iterator[Tuple[str, Moment, Moment, Optional[Wanted]]]:
    """What points will be wanted to have from a moment to another one, in pieces; None where the programme lets go."""
    wants, now = decide(programme, start).wants, start
    pieces: Dict[str, Tuple[Moment, Optional[Wanted]]] = {point: (start, wants.get(point)) for point in points}
    while now < end:
        now = min(end, decide(programme, now).until)
        wants = decide(programme, now).wants
        for point, (began, want) in list(pieces.items()):
            if wants.get(point) != want or now == end:
                yield point, began, now, want
                pieces[point] = (now, wants.get(point))
