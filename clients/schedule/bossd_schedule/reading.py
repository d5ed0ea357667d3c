"""The file of a schedule: what it says, and every mistake in it, by line, table and key."""

import os
import re
from dataclasses import dataclass
from datetime import time
from decimal import Decimal
from typing import Any, Callable, Dict, List, Mapping, NamedTuple, Optional, Sequence, Set, Tuple, Union
from zoneinfo import ZoneInfo

from .catalogue import (DEFAULT, Ask, Catalogue, Failure, File, NoAnswer, Path, Point, exact_length, is_name, is_none_here, is_pattern, name_of,
                        read_catalogue, read_length, shown, told)
from .days import Days, any_of, both_of, days_of, every_day, is_weekdays
from .keeping import MOST_WRITES, Slot, Way
from .sources import Sources, Unread, days_touched, matching
from .week import Between, Block, Events, Moment, Programme, Special

SECOND, MINUTE, DAY = 1_000, 60_000, 86_400_000
WEEK = 7 * DAY
MOST_CALENDARS, MOST_DAYS, MOST_GROUPS, MOST_PATTERNS, MOST_PROGRAMMES, MOST_BLOCKS, MOST_EVENTS, MOST_STEPS = 64, 1_000, 512, 4_096, 512, 64, 16, 7
MANY_TRANSACTIONS = 64

TOP_KEYS = ("zone", "catalogue", "process", "priority", "lease", "hold", "calendar", "group", "programme")
CALENDAR_KEYS = ("name", "days", "file", "match")
GROUP_KEYS = ("name", "points")
PROGRAMME_KEYS = ("name", "points", "group", "zone", "priority", "lease", "hold", "only", "otherwise", "back", "block", "exception", "event")
BLOCK_KEYS = ("name", "days", "only", "from", "to", "set")
EXCEPTION_KEYS = ("name", "on", "cut", "block")
EVENT_KEYS = ("name", "file", "calendar", "match", "before", "after", "set")

Table = Dict[str, Any]


class Wrong(ValueError):
    """A value that may not stand there; the sentence is what may."""


@dataclass(frozen=True, eq=False)
class Play:
    """A programme and how its points are held. Lengths are milliseconds; `path` is where it stands in the file."""
    programme: Programme
    points: Tuple[str, ...]
    lease: int
    hold: int
    back: Mapping[str, Way]
    path: Path


@dataclass(frozen=True, eq=False)
class Schedule:
    """All that a file says."""
    path: str
    zone: ZoneInfo
    process: str
    catalogue: Catalogue
    plays: Tuple[Play, ...]
    sources: Sources


class Calendar(NamedTuple):
    """Days that have a name, and the events that they are of, where it has a file."""
    days: Days
    between: Optional[Between]


class Common(NamedTuple):
    """What holds for each programme that says nothing else."""
    zone: ZoneInfo
    priority: int
    lease: int
    hold: int


# ---- what a value may be

def a_length(least: int, most: int) -> Callable[[Any], int]:
    wanted = f'{exact_length(least)} to {exact_length(most)}, as "15m", "90s", "1h30m"'

    def read(value: Any) -> int:
        try:
            length = read_length(value) if isinstance(value, str) else -1
        except ValueError:
            length = -1
        if not least <= length <= most:
            raise Wrong(wanted)
        return length
    return read


def a_zone(value: Any) -> ZoneInfo:
    try:
        if isinstance(value, str):
            return ZoneInfo(value)
    except (KeyError, ValueError, OSError):
        pass
    raise Wrong('the name of a zone that this machine has, as "Europe/Berlin"')


def a_priority(value: Any) -> int:
    if isinstance(value, int) and not isinstance(value, bool) and 1 <= value <= 16 and value != 6:
        return value
    raise Wrong("1 to 16, but not 6; the least number wins")


def a_text(value: Any) -> str:
    if isinstance(value, str) and 1 <= len(value) <= 64 and value.isprintable():
        return value
    raise Wrong("a text of 1 to 64 characters")


def a_path(value: Any) -> str:
    if isinstance(value, str) and value and "\0" not in value:
        return value
    raise Wrong("the path of a file")


def a_process(value: Any) -> str:
    if is_name(value):
        return str(value)
    raise Wrong("a name of a process: 1 to 64 characters of a-z 0-9 . _ -")


def yes_or_no(value: Any) -> bool:
    if isinstance(value, bool):
        return value
    raise Wrong("true or false")


def weekdays(value: Any) -> Days:
    if isinstance(value, str) and is_weekdays(value):
        return days_of(value)
    raise Wrong("days of the week, as mon-fri or sat sun")


def a_time(last: bool) -> Callable[[Any], time]:
    """A time of day; at the end of a block also 24:00, which is told as 00:00."""
    wanted = "a time of day, as 06:30" + (", or 24:00" if last else "")

    def read(value: Any) -> time:
        if isinstance(value, time) and not value.microsecond and value.tzinfo is None:
            return value
        if last and value == "24:00":
            return time(0)
        found = re.fullmatch(r"(\d\d):(\d\d)(?::(\d\d))?", value, re.ASCII) if isinstance(value, str) else None
        try:
            if found:
                return time(int(found[1]), int(found[2]), int(found[3] or 0))
        except ValueError:
            pass
        raise Wrong(wanted)
    return read


def a_value(point: Point, value: Any) -> int:
    """The value of a point, in what `bossd` counts in."""
    kinds = (bool, int) if point.kind == "binary" else (int, float) if point.kind == "analog" else (int,)
    if isinstance(value, kinds) and (point.kind == "binary" or not isinstance(value, bool)):
        scaled = Decimal(str(int(value) if isinstance(value, bool) else value)) * (1000 if point.kind == "analog" else 1)
        if scaled.is_finite() and scaled == scaled.to_integral_value() and point.least <= scaled <= point.most:
            return int(scaled)
    quoted = f'; a name with dots is in quotes, as "{point.name}"' if isinstance(value, dict) else ""
    raise Wrong(f"{point.name} takes {point.range()}{quoted}")


def fits(pattern: str, name: str) -> bool:
    return name.startswith(pattern[:-1]) if pattern.endswith("*") else name == pattern


class Reader(File):
    """A file that is read; `schedule` is what it says, if it has no mistake. `ask` is asked for the catalogue where the file names none, and
    there is none of a server on this machine. NoAnswer."""

    def __init__(self, path: str, moment: Moment, ask: Optional[Ask] = None) -> None:
        super().__init__(path)
        self.moment, self.ask = moment, ask
        self.schedule: Optional[Schedule] = None
        self.sources = Sources(moment)
        self.catalogue: Optional[Catalogue] = None
        self.calendars: Dict[str, Calendar] = {}
        self.groups: Dict[str, Tuple[str, ...]] = {}
        self.slots: Dict[Slot, Path] = {}
        if self.is_read:
            self._all()
        self.findings.sort(key=lambda one: one.line or 0)

    def has_mistakes(self) -> bool:
        return any(one.is_mistake for one in self.findings)

    def beside(self, path: str) -> str:
        """A path of the file: it is taken from the folder in which the file is."""
        return os.path.join(os.path.dirname(self.path), path)

    # -- the top

    def _all(self) -> None:
        top, at = self.tables, ()
        self.known(at, "", top, TOP_KEYS)
        zone: Optional[ZoneInfo] = self.needed(at, "", top, "zone", a_zone)
        process = self.may(at, "", top, "process", a_process, "schedule")
        common = Common(
            zone or ZoneInfo("UTC"), self.may(at, "", top, "priority", a_priority, 16),
            self.may(at, "", top, "lease", a_length(MINUTE, DAY), 15 * MINUTE), self.may(at, "", top, "hold", a_length(0, DAY), 2 * MINUTE))
        self._catalogue(self.may(at, "", top, "catalogue", a_path, DEFAULT))
        if self.catalogue is None:
            return
        for path, table in self.each(at, "", top, "calendar", MOST_CALENDARS):
            self._calendar(path, table, common.zone)
        for path, table in self.each(at, "", top, "group", MOST_GROUPS):
            self._group(path, table)
        if "programme" not in top:
            self.note(("programme",), "", "nothing", f"1 to {MOST_PROGRAMMES} tables [[programme]]")
        names: Set[str] = set()
        plays = [self._programme(path, table, common, names) for path, table in self.each(at, "", top, "programme", MOST_PROGRAMMES)]
        if not self.has_mistakes() and plays:
            made = tuple(play for play in plays if play is not None)
            self.schedule = Schedule(self.path, common.zone, process, self.catalogue, made, self.sources)
            self._rare(self.schedule)

    def _catalogue(self, path: str) -> None:
        is_none = is_none_here(self.tables.get("catalogue"))
        try:
            self.catalogue = told(self.ask) if is_none else read_catalogue(self.beside(path))
        except NoAnswer:
            raise
        except Failure as error:
            self.note(("catalogue",), "", "nothing" if is_none else shown(path), str(error))

    def _calendar(self, path: Path, table: Table, zone: ZoneInfo) -> None:
        name = name_of(table)
        self.known(path, name, table, CALENDAR_KEYS)
        called = self.named(path, table, self.calendars)
        if "days" not in table and "file" not in table:
            self.note(path, name, "neither days nor file", "one of them, or both")
        days = self._days(path + ("days",), name, table["days"]) if "days" in table else None
        between = self._file(path, name, table, zone) if "file" in table else None
        touched = days_touched(between, zone) if between is not None else None
        if called is not None:
            self.calendars[called] = Calendar(lambda day: bool(days and days(day)) or bool(touched and touched(day)), between)

    def _days(self, path: Path, name: str, texts: Any) -> Days:
        """The days of texts; none of those that are at fault."""
        if not isinstance(texts, list) or len(texts) > MOST_DAYS:
            self.note(path, name, shown(texts), f"at most {MOST_DAYS} texts of days")
            return lambda day: False
        good = []
        for place, text in enumerate(texts):
            try:
                days_of(text if isinstance(text, str) else "")
                good.append(text)
            except ValueError as error:
                self.note(path + (place,), name, shown(text), str(error))
        return any_of(good)

    def _file(self, path: Path, name: str, table: Table, zone: ZoneInfo) -> Optional[Between]:
        """The events of a file that a table names, by its `match`."""
        file, match = self.needed(path, name, table, "file", a_path), self.may(path, name, table, "match", a_text, None)
        if file is None:
            return None
        try:
            return matching(self.sources.of(self.beside(file), zone).between, match)
        except Unread as error:
            self.note(path + ("file",), name, shown(file), str(error))
            return None

    def _group(self, path: Path, table: Table) -> None:
        name = name_of(table)
        self.known(path, name, table, GROUP_KEYS)
        called = self.named(path, table, self.groups)
        points = self._points(path + ("points",), name, table.get("points"))
        if called is not None:
            self.groups[called] = points

    def _points(self, path: Path, name: str, patterns: Any) -> Tuple[str, ...]:
        """The points of patterns, in the catalogue's order."""
        assert self.catalogue is not None
        if not isinstance(patterns, list) or not 1 <= len(patterns) <= MOST_PATTERNS:
            self.note(path, name, "nothing" if patterns is None else shown(patterns), f"1 to {MOST_PATTERNS} names of points, or beginnings and *")
            return ()
        found: Set[str] = set()
        for place, pattern in enumerate(patterns):
            some = [point for point in self.catalogue.points if fits(pattern, point)] if is_pattern(pattern) else []
            if not some:
                self.note(path + (place,), name, shown(pattern), f"a name that a point of {self.catalogue.path} has, or the beginning of one and *")
            found.update(some)
        return tuple(point for point in self.catalogue.points if point in found)

    # -- a programme

    def _programme(self, path: Path, table: Table, common: Common, names: Set[str]) -> Optional[Play]:
        name = name_of(table)
        self.known(path, name, table, PROGRAMME_KEYS)
        called = self.named(path, table, names)
        names.add(called or "")
        zone = self.may(path, name, table, "zone", a_zone, common.zone)
        priority = self.may(path, name, table, "priority", a_priority, common.priority)
        points = self._whose(path, name, table)
        self._slots(path, name, points, priority)
        blocks = self._blocks(path, name, table, points)
        called_so: Set[str] = set()
        specials = tuple(self._special(at, name, one, points, called_so) for at, one in self.each(path, name, table, "exception", MOST_BLOCKS))
        events = self._all_events(path, name, table, points, zone)
        otherwise = self._values(path, name, table, "otherwise", points) if "otherwise" in table else {}
        only = self._only(path, name, table) if "only" in table else None
        programme = Programme(called or "", zone, priority, blocks, specials, events, otherwise, only)
        lease = self.may(path, name, table, "lease", a_length(MINUTE, DAY), common.lease)
        hold = self.may(path, name, table, "hold", a_length(0, DAY), common.hold)
        back = self._back(path, name, table, points) if "back" in table else {}
        return Play(programme, points, lease, hold, back, path) if called else None

    def _whose(self, path: Path, name: str, table: Table) -> Tuple[str, ...]:
        if ("points" in table) == ("group" in table):
            self.note(path, name, "points and group" if "points" in table else "neither points nor group", "one of them")
            return ()
        if "points" in table:
            return self._points(path + ("points",), name, table["points"])
        group = table["group"]
        if not isinstance(group, str) or group not in self.groups:
            self.note(path + ("group",), name, shown(group), f"the name of a group: {', '.join(self.groups) or 'there is none'}")
            return ()
        return self.groups[group]

    def _slots(self, path: Path, name: str, points: Sequence[str], priority: int) -> None:
        """Notes the first slot that an earlier programme has."""
        for point in points:
            other = self.slots.setdefault((point, priority), path)
            if other != path:
                found = f"{point} at priority {priority}"
                key = path + ("points" if self._says(path, "points") else "group",)
                self.note(key, name, found, f"{self.table_at('programme', int(other[1]))} (line {self.lines.of(other)}) has that slot; another "
                                            f"priority, or other points")
                return

    def _says(self, path: Path, key: str) -> bool:
        return key in self.tables["programme"][path[1]]

    def _blocks(self, path: Path, name: str, table: Table, points: Sequence[str]) -> Tuple[Block, ...]:
        names: Set[str] = set()
        return tuple(self._block(at, name, one, points, names) for at, one in self.each(path, name, table, "block", MOST_BLOCKS))

    def _block(self, path: Path, name: str, table: Table, points: Sequence[str], names: Set[str]) -> Block:
        self.known(path, name, table, BLOCK_KEYS)
        days = self.may(path, name, table, "days", weekdays, every_day)
        if "only" in table:
            days = both_of(days, self._only(path, name, table))
        start: Optional[time] = self.needed(path, name, table, "from", a_time(False))
        end: Optional[time] = self.needed(path, name, table, "to", a_time(True))
        if start is not None and start == end and table["to"] != "24:00":
            self.note(path + ("to",), name, f"{shown(table['to'])} as `from`", "another time, or from 00:00 to 24:00 for all of a day")
        values = self._values(path, name, table, "set", points)
        default = f"{table.get('days', '')} {(start or time(0)).isoformat('auto' if (start or time(0)).second else 'minutes')}".strip()
        return Block(self._called(path, name, table, names, default), days, start or time(0), end or time(0), values)

    def _called(self, path: Path, name: str, table: Table, names: Set[str], default: str) -> str:
        """The name of a block, an exception or an event, which no other one of its array has."""
        called: str = self.may(path, name, table, "name", a_text, default)
        if "name" in table and called in names:
            self.note(path + ("name",), name, f"{shown(called)} again", "a name that no earlier one has")
        names.add(called)
        return called

    def _special(self, path: Path, name: str, table: Table, points: Sequence[str], names: Set[str]) -> Special:
        self.known(path, name, table, EXCEPTION_KEYS)
        on = table.get("on")
        days = self._on(path + ("on",), name, on)
        texts = on if isinstance(on, list) else [on]
        called = self._called(path, name, table, names, ", ".join(map(str, texts))[:64])
        return Special(called, days, self._blocks(path, name, table, points), self.may(path, name, table, "cut", yes_or_no, False))

    def _on(self, path: Path, name: str, on: Any) -> Days:
        if isinstance(on, list):
            return self._days(path, name, on)
        if isinstance(on, str) and on in self.calendars:
            return self.calendars[on].days
        names = ", ".join(self.calendars) or "there is none"
        self.note(path, name, "nothing" if on is None else shown(on), f"the name of a calendar: {names}; or texts of days in [ ]")
        return lambda day: False

    def _only(self, path: Path, name: str, table: Table) -> Days:
        only = table["only"]
        if isinstance(only, str) and only in self.calendars:
            return self.calendars[only].days
        self.note(path + ("only",), name, shown(only), f"the name of a calendar: {', '.join(self.calendars) or 'there is none'}")
        return every_day

    def _all_events(self, path: Path, name: str, table: Table, points: Sequence[str], zone: ZoneInfo) -> Tuple[Events, ...]:
        names: Set[str] = set()
        found = [self._events(at, name, one, points, zone, names) for at, one in self.each(path, name, table, "event", MOST_EVENTS)]
        return tuple(one for one in found if one is not None)

    def _events(self, path: Path, name: str, table: Table, points: Sequence[str], zone: ZoneInfo, names: Set[str]) -> Optional[Events]:
        self.known(path, name, table, EVENT_KEYS)
        if ("file" in table) == ("calendar" in table):
            self.note(path, name, "file and calendar" if "file" in table else "neither file nor calendar", "one of them")
            return None
        between = self._file(path, name, table, zone) if "file" in table else self._of_calendar(path, name, table)
        before = self.may(path, name, table, "before", a_length(0, WEEK), 0)
        after = self.may(path, name, table, "after", a_length(0, WEEK), 0)
        values = self._values(path, name, table, "set", points)
        default = str(table.get("match") or table.get("calendar") or os.path.basename(str(table.get("file"))))[:64]
        called = self._called(path, name, table, names, default)
        return Events(called, between, values, before, after) if between is not None else None

    def _of_calendar(self, path: Path, name: str, table: Table) -> Optional[Between]:
        called, match = table["calendar"], self.may(path, name, table, "match", a_text, None)
        between = self.calendars[called].between if isinstance(called, str) and called in self.calendars else None
        if between is None:
            with_files = ", ".join(key for key, one in self.calendars.items() if one.between is not None) or "there is none"
            self.note(path + ("calendar",), name, shown(called), f"the name of a calendar that has a file: {with_files}")
            return None
        return matching(between, match)

    # -- values

    def _values(self, path: Path, name: str, table: Table, key: str, points: Sequence[str]) -> Dict[str, int]:
        """What `set` says: a value for all points, or for each the first pattern that fits."""
        if key not in table:
            self.note(path + (key,), name, "nothing", "a value, or a table of patterns with values")
            return {}
        given = table[key]
        if not isinstance(given, dict):
            return self._value(path + (key,), name, given, points)
        found: Dict[str, int] = {}
        for pattern, value in given.items():
            some = self._matched(path + (key, pattern), name, pattern, points, value)
            found.update(self._value(path + (key, pattern), name, value, [point for point in some if point not in found]))
        return found

    def _matched(self, path: Path, name: str, pattern: str, points: Sequence[str], value: Any) -> List[str]:
        """The points of a programme that a pattern fits; none is noted."""
        some = [point for point in points if fits(pattern, point)] if is_pattern(pattern) else []
        if not some and points:
            quoted = "; a name with dots is in quotes" if isinstance(value, dict) else ""
            self.note(path, name, shown(pattern), f"a name that a point of this programme has, or the beginning of one and *{quoted}")
        return some

    def _value(self, path: Path, name: str, value: Any, points: Sequence[str]) -> Dict[str, int]:
        """The value at each of these points; the first that it does not fit is noted."""
        assert self.catalogue is not None
        try:
            return {point: a_value(self.catalogue.points[point], value) for point in points}
        except Wrong as error:
            self.note(path, name, shown(value), str(error))
            return {}

    def _back(self, path: Path, name: str, table: Table, points: Sequence[str]) -> Dict[str, Way]:
        given = table["back"]
        if not isinstance(given, dict):
            return self._way(path + ("back",), name, given, points)
        found: Dict[str, Way] = {}
        for pattern, steps in given.items():
            some = self._matched(path + ("back", pattern), name, pattern, points, steps)
            found.update(self._way(path + ("back", pattern), name, steps, [point for point in some if point not in found]))
        return found

    def _way(self, path: Path, name: str, steps: Any, points: Sequence[str]) -> Dict[str, Way]:
        """The way back at each of these points."""
        if not isinstance(steps, list) or len(steps) > MOST_STEPS:
            self.note(path, name, shown(steps), f'at most {MOST_STEPS} steps, each [value, length], as [[17.0, "1h"]]')
            return {}
        ways: Dict[str, List[Tuple[int, int]]] = {point: [] for point in points}
        for place, step in enumerate(steps):
            length = self._step(path + (place,), name, step)
            if length is not None:
                for point, value in self._value(path + (place,), name, step[0], points).items():
                    ways[point].append((value, length))
        return {point: tuple(way) for point, way in ways.items()}

    def _step(self, path: Path, name: str, step: Any) -> Optional[int]:
        try:
            return a_length(SECOND, DAY)(step[1] if isinstance(step, list) and len(step) == 2 else None)
        except Wrong as error:
            self.note(path, name, shown(step), f"[value, length], the length {error}")
            return None

    # -- what is rarely meant

    def _rare(self, schedule: Schedule) -> None:
        transactions = sum(-(-len(play.points) // MOST_WRITES) for play in schedule.plays)
        for play in schedule.plays:
            name = shown(play.programme.name)
            if len(play.points) > MOST_WRITES:
                self.note(play.path, name, f"{len(play.points)} points", f"up to {MOST_WRITES} change all at once; more in parts", False)
            if play.hold < 10 * SECOND:
                self.note(play.path + ("hold",), name, exact_length(play.hold),
                          "10s or more: a restart of the program takes a few seconds, in which its points are let go", False)
            if play.programme.priority <= 5:
                self.note(play.path + ("priority",), name, str(play.programme.priority), "at 1 to 5 minimum on and off times are passed over", False)
            if transactions > MANY_TRANSACTIONS and play.lease < 3 * MINUTE:
                self.note(play.path + ("lease",), name, exact_length(play.lease), f"3m or more with {transactions} transactions to renew", False)

    # -- how keys are read

    def needed(self, path: Path, name: str, table: Table, key: str, read: Callable[[Any], Any]) -> Any:
        """The value of a key, or None where it is missing or at fault, which is noted."""
        return self._read_key(path, name, table, key, read)

    def may(self, path: Path, name: str, table: Table, key: str, read: Callable[[Any], Any], default: Any) -> Any:
        """The value of a key; the default where it is left out, or at fault, which is noted."""
        if key not in table:
            return default
        found = self._read_key(path, name, table, key, read)
        return default if found is None else found

    def _read_key(self, path: Path, name: str, table: Table, key: str, read: Callable[[Any], Any]) -> Any:
        try:
            return read(table.get(key))
        except Wrong as error:
            self.note(path + (key,), name, shown(table[key]) if key in table else "nothing", str(error))
            return None

    def named(self, path: Path, table: Table, names: Union[Mapping[str, Any], Set[str]]) -> Optional[str]:
        """The name of a table, which no earlier one has; None where it is none."""
        called: Optional[str] = self.needed(path, name_of(table), table, "name", a_text)
        if called is not None and called in names:
            self.note(path + ("name",), "", f"{shown(called)} again", "a name that no earlier one has")
        return called

    def each(self, path: Path, name: str, table: Table, key: str, most: int) -> List[Tuple[Path, Table]]:
        """The tables of an array, each with its path; what is none is noted."""
        found = table.get(key, [])
        if not isinstance(found, list) or len(found) > most:
            self.note(path + (key,), name, shown(found), f"at most {most} tables [[{'.'.join([one for one in path if isinstance(one, str)] + [key])}]]")
            return []
        for place, one in enumerate(found):
            if not isinstance(one, dict):
                self.note(path + (key, place), name, shown(one), "a table")
        return [(path + (key, place), one) for place, one in enumerate(found) if isinstance(one, dict)]
