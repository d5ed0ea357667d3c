"""Values, moments, lengths of time and tables, as a person reads them."""

import difflib
import fnmatch
import functools
import hashlib
import os
import re
import sys
import time
from decimal import Decimal, InvalidOperation
from typing import Any, Dict, List, NamedTuple, Optional, Sequence

from .._protocol import Points, Reading, is_name
from . import _toml
from ._toml import Broken, Failure

# What ASHRAE 135 calls the priorities.
LEVELS = {1: "Manual-Life Safety", 2: "Automatic-Life Safety", 5: "Critical Equipment Control", 6: "Minimum On/Off", 8: "Manual Operator"}
PRIORITIES = range(1, 17)
# The last of the priorities whose leases go by no minimum time.
MOST_URGENT = 5
SECOND, MINUTE, HOUR, DAY = 1_000, 60_000, 3_600_000, 86_400_000
UNITS = {"ms": 1, "s": SECOND, "m": MINUTE, "h": HOUR, "d": DAY}
NONE = "-"


def level(priority: int) -> str:
    """The standard's name of a priority."""
    return LEVELS.get(priority, "Available")


class Point(NamedTuple):
    """A point of the catalogue."""
    name: str
    driver: str
    kind: str
    least: int
    most: int
    default: int
    unit: str = ""
    note: str = ""
    # For how many milliseconds a binary point stays on once it is on, and off once it is off.
    min_on: int = 0
    min_off: int = 0

    def number(self, value: int) -> str:
        """A value in units, without the unit."""
        if self.kind != "analog":
            return str(value)
        whole, rest = divmod(abs(value), 1000)
        decimals = f"{rest:03}".rstrip("0") or "0"
        return f"{'-' if value < 0 else ''}{whole}.{decimals}"

    def show(self, value: int) -> str:
        """A value in units, with the unit."""
        return f"{self.number(value)} {self.unit}".rstrip()

    def value(self, text: str) -> int:
        """The value that a person wrote, with its unit or without, and on or off at a binary point. Failure where it is none, or does not
        fit."""
        scale = 1000 if self.kind == "analog" else 1
        try:
            value = Decimal(self._number_in(text)) * scale
        except InvalidOperation:
            raise Failure(f"{text} is no value of {self.name}: wanted {self.range()}{self._hint(text)}") from None
        if not value.is_finite() or value != value.to_integral_value() or not self.least <= value <= self.most:
            raise Failure(f"{text} is no value of {self.name}: wanted {self.range()}")
        return int(value)

    def _number_in(self, text: str) -> str:
        word = text.strip()
        if self.kind == "binary":
            return {"on": "1", "off": "0"}.get(word.lower(), word)
        units = [self.unit] + (["%"] if self.unit == "percent" else [])
        unit = next((one for one in units if one and word.endswith(one)), "")
        return word[:len(word) - len(unit)].rstrip()

    def _hint(self, text: str) -> str:
        """What else to say of a text that is no number."""
        if self.kind == "binary":
            return ", which are off and on"
        return f"; a fraction is written {text.replace(',', '.')}" if re.fullmatch(r"-?\d+,\d+", text) else ""

    def range(self) -> str:
        """Which values fit."""
        return {
            "analog": f"{self.number(self.least)} to {self.show(self.most)}, in steps of 0.001",
            "binary": "0 or 1",
            "multi": f"a state, 1 to {self.most}",
        }[self.kind]

    def times(self) -> str:
        """Its minimum times, where it has any."""
        lengths = [(self.min_on, "on"), (self.min_off, "off")]
        return ", ".join(f"{word} for {exact_length(length)} at least" for length, word in lengths if length)

    def least_time(self, value: int) -> int:
        """For how many milliseconds its device keeps this value once it has it."""
        return self.min_on if value else self.min_off

    def state(self, value: int) -> str:
        """What a device is said to have: on or off, or a value with its unit."""
        return ("on" if value else "off") if self.kind == "binary" else self.show(value)


def is_urgent(basis: str, priority: Optional[int]) -> bool:
    """Whether a point's device goes by no minimum time, as its value is that of a lease at priority 1 to 5."""
    return basis == "lease" and (priority or 16) <= MOST_URGENT


def held_until(point: Point, reading: Reading) -> Optional[int]:
    """The moment up to which the point's device keeps the value that it took last, at the earliest, by the minimum time of that one. None
    where no such time keeps it. Moments are the server's; this one may be over."""
    if reading.mark != "pending" or reading.took is None or reading.since is None or is_urgent(reading.basis, reading.priority):
        return None
    least = point.least_time(reading.took)
    return reading.since + least if least else None


class Catalogue(NamedTuple):
    """The points by name, in the file's order, and the digest of the canonical text, by which a journal knows its catalogue."""
    path: str
    points: Dict[str, Point]
    digest: bytes

    def point(self, name: str) -> Point:
        """The point of a name. Failure where there is none."""
        found = self.points.get(name)
        if found is None:
            near = difflib.get_close_matches(name, list(self.points), 1, 0.6)
            raise Failure(f"{self.path} has no point {name}" + (f"; is {near[0]} meant?" if near else ""))
        return found

    def some(self, pattern: Optional[str]) -> List[Point]:
        """The points whose names fit a pattern with * ? [], or contain a text without these."""
        if pattern is None:
            return list(self.points.values())
        shape = pattern if any(one in pattern for one in "*?[") else f"*{pattern}*"
        return [point for point in self.points.values() if fnmatch.fnmatchcase(point.name, shape)]


def read_catalogue(path: str) -> Catalogue:
    """The catalogue of a server that took it. Failure where it cannot be read, or is none; `bossctl lint` says more."""
    try:
        # The server passes over a byte order mark too.
        with open(path, encoding="utf-8-sig") as file:
            text = file.read()
    except FileNotFoundError:
        raise Failure(f"{path}: no such file; --catalogue or BOSSD_CATALOGUE names the server's catalogue") from None
    except (OSError, UnicodeDecodeError) as error:
        raise Failure(f"{path}: {getattr(error, 'strerror', None) or 'no text in UTF-8'}") from error
    tables = _toml.read(text)
    if isinstance(tables, Broken):
        raise Failure(f"{path}: no TOML: {tables.why}" + (f" (line {tables.line})" if tables.line else ""))
    try:
        return catalogue_of(path, tables)
    except (KeyError, TypeError, AttributeError, ValueError):
        raise Failure(f"{path} is no catalogue: bossctl lint {path} names the mistakes") from None


def catalogue_of(path: str, tables: Dict[str, Any]) -> Catalogue:
    text = "".join(f"d {name}\n" for name in tables["drivers"])
    points: Dict[str, Point] = {}
    for table in tables["point"]:
        kind = table["kind"]
        bounds = {"analog": ("min", "max"), "binary": (), "multi": ("states",)}[kind]
        numbers = [table[key] for key in bounds]
        least, most = (numbers if kind == "analog" else [1, *numbers] if kind == "multi" else [0, 1])
        times = [table.get(key, 0) for key in ("min_on", "min_off")]
        point = Point(table["name"], table["driver"], kind, least, most, table["default"], str(table.get("unit", "")), str(table.get("note", "")),
                      *times)
        if not is_name(point.name) or not all(isinstance(number, int) for number in (least, most, point.default, *times)):
            raise ValueError
        guarded = f" {point.min_on} {point.min_off}" if point.times() else ""
        text += f"p {point.name} {point.driver} {kind} {least} {most} {point.default}{guarded}\n"
        points[point.name] = point
    return Catalogue(path, points, hashlib.sha256(text.encode()).digest())


def told_catalogue(server: str, told: Points) -> Catalogue:
    """The catalogue that a server tells, which keeps neither units nor notes."""
    points: Dict[str, Point] = {}
    for one in told.list:
        least, most = {"analog": (one.min or 0, one.max or 0), "binary": (0, 1), "multi": (1, one.states or 1)}[one.kind]
        points[one.name] = Point(one.name, one.driver, one.kind, least, most, one.default, min_on=one.min_on, min_off=one.min_off)
    return Catalogue(server, points, bytes.fromhex(told.digest))


# ---- time

def now() -> int:
    """The moment, in milliseconds since 1970, by this machine's clock."""
    return time.time_ns() // 1_000_000


def length(milliseconds: int) -> str:
    """A length of time: 1h30m, 29m58s, 4.2s."""
    if milliseconds < 10 * SECOND:
        return f"{max(0, milliseconds) / SECOND:.1f}s"
    seconds = milliseconds // SECOND
    parts = [(seconds // 86_400, "d"), (seconds // 3_600 % 24, "h"), (seconds // 60 % 60, "m"), (seconds % 60, "s")]
    first = next(place for place, (count, _) in enumerate(parts) if count)
    return "".join(f"{count}{unit}" for count, unit in parts[first:first + 2] if count)


def exact_length(milliseconds: int) -> str:
    """A length of time, without rounding."""
    text = ""
    for unit, size in (("d", DAY), ("h", HOUR), ("m", MINUTE), ("s", SECOND), ("ms", 1)):
        count, milliseconds = divmod(milliseconds, size)
        text += f"{count}{unit}" if count else ""
    return text or "0s"


def read_length(text: str) -> int:
    """The milliseconds of 30m, 90s, 1h30m, 250ms, 2d. ValueError where it is none."""
    parts = re.findall(r"(\d+(?:\.\d+)?)(ms|s|m|h|d)", text)
    if not parts or "".join(count + unit for count, unit in parts) != text:
        raise ValueError(f"{text!r} is no length of time: write 30m, 90s, 1h30m, 250ms or 2d")
    total = sum((Decimal(count) * UNITS[unit] for count, unit in parts), Decimal(0))
    if total != total.to_integral_value():
        raise ValueError(f"{text!r} is no whole number of milliseconds")
    return int(total)


def moment(milliseconds: int) -> str:
    """A moment, as this machine's clock on the wall shows it, with the day where it is not today."""
    if milliseconds > 253_402_300_799_999:
        return f"{milliseconds} ms"
    at = time.localtime(milliseconds // 1000)
    today = time.localtime()[:3] == at[:3]
    return time.strftime("%H:%M:%S" if today else "%Y-%m-%d %H:%M:%S", at)


def exact_moment(milliseconds: int) -> str:
    """A moment with its day and milliseconds."""
    if milliseconds > 253_402_300_799_999:
        return f"{milliseconds} ms"
    return time.strftime("%Y-%m-%d %H:%M:%S", time.localtime(milliseconds // 1000)) + f".{milliseconds % 1000:03}"


# ---- tables and colours

COLOURS = {"failed": "31;1", "pending": "33", "lease": "32", "default": "2", "head": "1"}


@functools.lru_cache(maxsize=None)
def in_colour() -> bool:
    """Whether colours are shown: on a terminal, unless NO_COLOR is set."""
    return sys.stdout.isatty() and "NO_COLOR" not in os.environ and os.environ.get("TERM") != "dumb"


def colour(text: str, name: str) -> str:
    return f"\33[{COLOURS[name]}m{text}\33[0m" if in_colour() and name in COLOURS else text


class Cell(NamedTuple):
    """A text in a table, and how it looks."""
    text: str
    colour: str = ""


def table(heads: Sequence[str], rows: Sequence[Sequence[Cell]], right: str = "", width: Optional[int] = None) -> List[str]:
    """The lines of a table. `right` has an r for each column that stands to the right; lines are cut at the width."""
    sizes = [max([len(head)] + [len(row[place].text) for row in rows]) for place, head in enumerate(heads)]
    lines = [line_of([Cell(head, "head") for head in heads], sizes, right, width)]
    return lines + [line_of(row, sizes, right, width) for row in rows]


def line_of(cells: Sequence[Cell], sizes: Sequence[int], right: str, width: Optional[int]) -> str:
    line, left = "", width or 1 << 30
    for place, (cell, size) in enumerate(zip(cells, sizes)):
        is_last = place + 1 == len(cells)
        text = cell.text.rjust(size) if right[place:place + 1] == "r" else cell.text if is_last else cell.text.ljust(size)
        text = text[:max(0, left)]
        line += colour(text, cell.colour) + ("" if is_last else "  "[:max(0, left - len(text))])
        left -= len(text) + 2
    return line.rstrip()
