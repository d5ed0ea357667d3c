"""The files of calendars: read, looked at for changes, and asked for events."""

import importlib
import os
from datetime import date, time
from typing import Dict, List, Optional, Sequence, Tuple
from zoneinfo import ZoneInfo

from .days import DAY, Days
from .week import Between, Moment, begins

LONGEST_FILE = 4 * 1024 * 1024
# A file is read ahead for so long, in milliseconds, so that the loop finds what it wants made out.
AHEAD = 10 * 86_400_000
NEEDS = "python3-icalendar and python3-dateutil, which read it and are not installed"
Signature = Tuple[int, int, int]


class Unread(Exception):
    """A file that is not taken, with the reason."""


def events_in(data: bytes, zone: ZoneInfo) -> Between:
    """The events of an iCalendar file. Unread."""
    try:
        ical = importlib.import_module(".ical", __package__)
    except ImportError as error:
        raise Unread(f"needs {NEEDS}") from error
    try:
        between: Between = ical.events_of(data, zone)
    except ical.Unfit as error:
        raise Unread(str(error)) from error
    return between


class Source:
    """A file of events, for one zone. What is asked for is what was read last; `sentence` says why a newer state of it is not taken."""

    def __init__(self, path: str, zone: ZoneInfo) -> None:
        self.path, self.zone = path, zone
        self.sentence: Optional[str] = None
        self._signature: Optional[Signature] = None
        self._events: Optional[Between] = None

    def read(self, moment: Moment) -> None:
        """Reads the file, and makes out what is asked for first. Unread, and then what was read before stays."""
        try:
            signature, data = signature_of(self.path), data_of(self.path)
            events = events_in(data, self.zone)
            warm(events, moment)
        except Unread as error:
            self.sentence = str(error)
            raise
        self._signature, self._events, self.sentence = signature, events, None

    def look(self, moment: Moment) -> bool:
        """Reads the file again where it changed, and tells whether something else is in force. It may take seconds, and may be called from
        another thread."""
        try:
            if self._events is not None and signature_of(self.path) == self._signature:
                self.sentence = None
                warm(self._events, moment)
                return False
            self.read(moment)
            return True
        except Unread as error:
            self.sentence = str(error)
            return False

    def between(self, start: Moment, end: Moment) -> Sequence[Tuple[Moment, Moment, str]]:
        """The events that touch the time from `start` to `end`; none where they are too many to be made out."""
        if self._events is None:
            return ()
        try:
            return self._events(start, end)
        except ValueError as error:
            self.sentence = str(error)
            return ()


def warm(events: Between, moment: Moment) -> None:
    """Makes out what is asked for from now on. Unread."""
    try:
        events(moment - AHEAD, moment + AHEAD)
    except ValueError as error:
        raise Unread(str(error)) from error


def signature_of(path: str) -> Signature:
    try:
        found = os.stat(path)
    except OSError as error:
        raise Unread(error.strerror or str(error)) from error
    return found.st_mtime_ns, found.st_size, found.st_ino


def data_of(path: str) -> bytes:
    try:
        with open(path, "rb") as file:
            data = file.read(LONGEST_FILE + 1)
    except OSError as error:
        raise Unread(error.strerror or str(error)) from error
    if len(data) > LONGEST_FILE:
        raise Unread(f"more than {LONGEST_FILE} bytes")
    return data


class Sources:
    """The files of a schedule: each is read once for each zone."""

    def __init__(self, moment: Moment) -> None:
        self.moment = moment
        self.all: Dict[Tuple[str, str], Source] = {}

    def of(self, path: str, zone: ZoneInfo) -> Source:
        """The source of a path, which is read where it was not. Unread."""
        key = (path, zone.key)
        if key not in self.all:
            made = Source(path, zone)
            made.read(self.moment)
            self.all[key] = made
        return self.all[key]

    def look(self, moment: Moment) -> List[Source]:
        """Those of which something else is in force than before."""
        return [one for one in self.all.values() if one.look(moment)]


def matching(between: Between, pattern: Optional[str]) -> Between:
    """The events whose summaries fit a pattern: a text, or the beginning of one and a *."""
    if pattern is None:
        return between
    start, is_beginning = pattern.rstrip("*"), pattern.endswith("*")

    def fits(summary: str) -> bool:
        return summary.startswith(start) if is_beginning else summary == start
    return lambda first, last: [one for one in between(first, last) if fits(one[2])]


def days_touched(between: Between, zone: ZoneInfo) -> Days:
    """The days that an event touches."""
    def is_touched(day: date) -> bool:
        return bool(between(begins(day, time(0), zone), begins(day + DAY, time(0), zone)))
    return is_touched
