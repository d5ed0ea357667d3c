"""The bridge's own file, and every mistake in it, by its line, its table and its key. `docs/MQTT.md` has the keys."""

import ipaddress
import os
import re
from dataclasses import replace
from decimal import Decimal, InvalidOperation
from typing import Any, Callable, Dict, List, NamedTuple, Optional, Sequence, Tuple

from bossd._protocol import host_and_port, is_name
from bossd.ctl import _show as show
from bossd.ctl._lint import A_NAME, File, Finding, is_pattern, is_whole, matches, name_of, shown
from bossd.ctl._served import DEFAULT, Ask, NoAnswer, is_none_here, told
from bossd.ctl._show import DAY, HOUR, MINUTE, SECOND, Catalogue, exact_length, read_catalogue, read_length
from bossd.ctl._toml import Failure, Path

from .discovery import classes_of
from .topics import LONGEST_BASE, LONGEST_DISCOVERY, Point, Topics, is_levels

BROKER = "127.0.0.1:1883"
MOST_RULES, MOST_POINTS, MOST_PATTERNS, MOST_STEPS = 256, 4_096, 4_096, 7
CLIENT_ID = re.compile(r"[A-Za-z0-9_-]{1,64}")
A_LEVEL = "of A-Z a-z 0-9 _ -, in levels with / between"
TOP_KEYS = ("base", "discovery", "catalogue", "process", "every", "journal", "until_every", "rate", "broker", "set", "point")
BROKER_KEYS = ("address", "client_id", "user", "password_file", "ca_file", "cert_file", "key_file", "keepalive", "grace")
SET_KEYS = ("points", "priority", "high", "lease", "lasts", "hold", "back")
POINT_KEYS = ("name", "states", "step", "class", "hidden")
# A hold that is shorter than this lets a restart of the unit be seen.
SHORT_HOLD = 10 * SECOND

Way = Tuple[Tuple[int, int], ...]


class Settable(NamedTuple):
    """How a point is set: at which priority, by leases of which length, and for how long at most what one command asks stands. `hold` is how
    long its value stays where the bridge died, and `back` the way back behind that. Lengths are milliseconds."""
    priority: int
    lease: int
    lasts: int
    hold: int
    back: Way


class Broker(NamedTuple):
    """Where the broker is, and how it is spoken to. `keepalive` and `grace` are milliseconds."""
    host: str
    port: int
    client_id: str
    keepalive: int
    grace: int
    user: Optional[str] = None
    password_file: Optional[str] = None
    ca_file: Optional[str] = None
    cert_file: Optional[str] = None
    key_file: Optional[str] = None


class Settings(NamedTuple):
    """What a file says. Lengths are milliseconds, `rate` is changes a second."""
    topics: Topics
    process: str
    catalogue: Catalogue
    points: Dict[str, Point]
    settable: Dict[str, Settable]
    broker: Broker
    every: int
    until_every: int
    rate: int
    journal: Optional[str]


def is_text(value: object) -> bool:
    return isinstance(value, str) and 1 <= len(value) <= 4_096


def is_flag(value: object) -> bool:
    return isinstance(value, bool)


def length_in(value: object) -> Optional[int]:
    """The milliseconds of a length of time; None where it is none."""
    try:
        return read_length(value) if isinstance(value, str) else None
    except ValueError:
        return None


def thousandths_in(value: object) -> Optional[int]:
    """The thousandths of a number of units; None where it is none, or between two of them."""
    if isinstance(value, bool) or not isinstance(value, (int, float)):
        return None
    try:
        scaled = Decimal(str(value)) * 1000
    except InvalidOperation:
        return None
    return int(scaled) if scaled.is_finite() and abs(scaled) < 10**16 and scaled == scaled.to_integral_value() else None


def value_in(point: show.Point, value: object) -> Optional[int]:
    """The value of a point as it stands in a file; None where it is none, or does not fit."""
    if point.kind == "binary" and isinstance(value, bool):
        return int(value)
    found = thousandths_in(value)
    if found is None:
        return None
    if point.kind != "analog":
        whole, rest = divmod(found, 1000)
        found = whole if rest == 0 else None
    return found if found is not None and point.least <= found <= point.most else None


class Reading(File):
    """A file that is read. `settings` are its settings, and None where a finding is a mistake. `ask` is asked for the catalogue where the file
    names none, and there is none of a server on this machine. NoAnswer."""

    def __init__(self, path: str, ask: Optional[Ask] = None) -> None:
        super().__init__(path)
        self._ask = ask
        self.settings: Optional[Settings] = None
        self._catalogue: Optional[Catalogue] = None
        self._settable: Dict[str, Settable] = {}
        if self.is_read:
            made = self._top()
            self.findings.sort(key=lambda it: it.line or 0)
            self.settings = None if any(finding.is_mistake for finding in self.findings) else made

    def _top(self) -> Optional[Settings]:
        top = self.tables
        self.known((), "", top, TOP_KEYS)
        self.one((), "", top, "base", lambda value: is_levels(value, LONGEST_BASE), f"1 to {LONGEST_BASE} {A_LEVEL}")
        self.one((), "", top, "discovery", lambda value: value == "" or is_levels(value, LONGEST_DISCOVERY),
                 f'1 to {LONGEST_DISCOVERY} {A_LEVEL}, or "" for none', default="")
        self.one((), "", top, "process", is_name, A_NAME, default="mqtt")
        self.one((), "", top, "journal", is_text, "a path", default="")
        self.one((), "", top, "rate", lambda value: is_whole(value, 1, 1_000), "changes a second in all, 1 to 1000", default=50)
        every = self.length((), "", top, "every", 200, MINUTE, "1s")
        until_every = self.length((), "", top, "until_every", SECOND, HOUR, "30s")
        self._catalogue = self._catalogue_of(top)
        for place, one in enumerate(self._tables("set", MOST_RULES)):
            self._set(("set", place), one)
        points = self._points()
        broker = self._broker()
        if any(finding.is_mistake for finding in self.findings) or self._catalogue is None or broker is None:
            return None
        return Settings(Topics(top["base"], top.get("discovery", "homeassistant")), top.get("process", "mqtt"), self._catalogue, points,
                        self._settable, broker, every, until_every, top.get("rate", 50), top.get("journal") or None)

    def length(self, path: Path, name: str, table: Dict[str, Any], key: str, least: int, most: int, default: str) -> int:
        """The length of time under a key, in milliseconds; the default where there is none, or none that fits."""
        def fits(value: object) -> bool:
            found = length_in(value)
            return found is not None and least <= found <= most
        wanted = f'a length of time, {exact_length(least)} to {exact_length(most)}, as "{default}"'
        if not self.one(path, name, table, key, fits, wanted, default=default) or key not in table:
            return read_length(default)
        return read_length(table[key])

    def _catalogue_of(self, top: Dict[str, Any]) -> Optional[Catalogue]:
        if not self.one((), "", top, "catalogue", is_text, "a path", default=DEFAULT):
            return None
        try:
            return told(self._ask) if is_none_here(top.get("catalogue")) else read_catalogue(top.get("catalogue", DEFAULT))
        except NoAnswer:
            raise
        except Failure as error:
            self.note(("catalogue",), "", "", str(error))
            return None

    def _tables(self, key: str, most: int) -> List[Any]:
        """The tables of an array, which may be left out; without those that are none."""
        found = self.array(key, most, f"tables [[{key}]]") if key in self.tables else []
        for place, one in enumerate(found):
            if not isinstance(one, dict):
                self.note((key, place), "", shown(one), f"a table [[{key}]]")
        return [one if isinstance(one, dict) else {} for one in found]

    # -- the broker

    def _broker(self) -> Optional[Broker]:
        table = self.tables.get("broker", {})
        if not isinstance(table, dict):
            self.note(("broker",), "", shown(table), "a table [broker]")
            return None
        path: Path = ("broker",)
        self.known(path, "", {key: value for key, value in table.items() if key != "password"}, BROKER_KEYS)
        if "password" in table:
            self.note(path + ("password",), "", "a password", "password_file, a file that has it: this one may be read by others")
        for key in ("user", "password_file", "ca_file", "cert_file", "key_file"):
            self.one(path, "", table, key, is_text, "a text" if key == "user" else "a path", default="")
        self._pairs(path, table)
        self.one(path, "", table, "client_id", lambda value: isinstance(value, str) and CLIENT_ID.fullmatch(value) is not None,
                 "1 to 64 characters of A-Z a-z 0-9 _ -", default="")
        keepalive = self.length(path, "", table, "keepalive", 5 * SECOND, 10 * MINUTE, "15s")
        grace = self.length(path, "", table, "grace", 0, DAY, "10m")
        place = self._address(path, table)
        if place is None:
            return None
        otherwise = ("bossd-" + str(self.tables.get("base")).replace("/", "-"))[:64]
        return Broker(*place, table.get("client_id", otherwise), keepalive, grace, *(
            table.get(key) for key in ("user", "password_file", "ca_file", "cert_file", "key_file")))

    def _pairs(self, path: Path, table: Dict[str, Any]) -> None:
        """What goes with something else alone."""
        for one, other in (("cert_file", "key_file"), ("key_file", "cert_file"), ("cert_file", "ca_file"), ("password_file", "user")):
            if one in table and other not in table:
                self.note(path + (one,), "", f"{one} without {other}", "both, or neither" if "key_file" in (one, other) else f"{other} too")

    def _address(self, path: Path, table: Dict[str, Any]) -> Optional[Tuple[str, int]]:
        address = table.get("address", BROKER)
        try:
            host, port = host_and_port(address if isinstance(address, str) else "")
        except ValueError:
            self.note(path + ("address",), "", shown(address), "HOST:PORT, as 127.0.0.1:1883")
            return None
        if "password_file" in table and "ca_file" not in table and not is_loopback(host):
            self.note(path + ("password_file",), "", "a password for another host, without TLS",
                      "whoever hears the network has it: ca_file turns TLS on", is_mistake=False)
        return host, port

    # -- what may be set

    def _set(self, path: Path, table: Dict[str, Any]) -> None:
        self.known(path, "", table, SET_KEYS)
        high = table.get("high") is True
        self.one(path, "", table, "high", is_flag, "true or false", default=False)
        levels = "1 to 16 but not 6" if high else "9 to 16; one before that wants high = true"
        if self.one(path, "", table, "priority", lambda value: is_whole(value, 1 if high else 9, 16) and value != 6, levels, default=12):
            if table.get("priority", 12) <= 5:
                self.note(path + ("priority",), "", f"priority {table['priority']}", "minimum times are passed over there", is_mistake=False)
        lease = self.length(path, "", table, "lease", 30 * SECOND, HOUR, "5m")
        lasts = self.length(path, "", table, "lasts", MINUTE, 7 * DAY, "8h")
        hold = self.length(path, "", table, "hold", 0, DAY, "1m")
        if hold < SHORT_HOLD:
            self.note(path + ("hold",), "", shown(table.get("hold")), "devices move when the bridge is started again: 10s outlasts that",
                      is_mistake=False)
        points = self._patterns(path, table)
        ways = self._ways(path + ("back",), table.get("back", []), points)
        for point in points:
            self._settable.setdefault(point.name, Settable(table.get("priority", 12), lease, lasts, hold, ways.get(point.name, ())))

    def _patterns(self, path: Path, table: Dict[str, Any]) -> List[show.Point]:
        """The points of the patterns of a table, in the catalogue's order."""
        wanted = f"an array of 1 to {MOST_PATTERNS} patterns: each a name, or the beginning of names and *"
        if not self.one(path, "", table, "points", lambda value: isinstance(value, list) and 1 <= len(value) <= MOST_PATTERNS, wanted):
            return []
        for place, pattern in enumerate(table["points"]):
            at = path + ("points", place)
            if not is_pattern(pattern):
                self.note(at, "", shown(pattern), "a name, or the beginning of names and *")
            elif self._catalogue is not None and not self._fitting(pattern):
                self.note(at, "", shown(pattern), f"no point of {self._catalogue.path} has it")
        patterns = [pattern for pattern in table["points"] if is_pattern(pattern)]
        return [point for point in self._fitting("*") if any(matches(pattern, point.name) for pattern in patterns)]

    def _fitting(self, pattern: str) -> List[show.Point]:
        return [point for name, point in self._catalogue.points.items() if matches(pattern, name)] if self._catalogue is not None else []

    def _ways(self, path: Path, found: Any, points: Sequence[show.Point]) -> Dict[str, Way]:
        """The way back of each of these points: of steps for all, or of the first pattern of a table that it has."""
        ways: Dict[str, Way] = {}
        for pattern, steps in found.items() if isinstance(found, dict) else [("*", found)]:
            at = path + (pattern,) if isinstance(found, dict) else path
            fitting = [point for point in points if matches(pattern, point.name) and point.name not in ways] if is_pattern(pattern) else []
            if not fitting and isinstance(found, dict):
                self.note(at, "", shown(pattern), "a pattern that a point of this table has, and no pattern before it")
            for point in fitting:
                way = self._way(at, steps, point)
                if way is None:
                    break
                ways[point.name] = way
        return ways

    def _way(self, path: Path, steps: Any, point: show.Point) -> Optional[Way]:
        if not isinstance(steps, list) or len(steps) > MOST_STEPS:
            self.note(path, "", shown(steps), f"an array of at most {MOST_STEPS} steps, each [value, length]")
            return None
        way: List[Tuple[int, int]] = []
        for place, step in enumerate(steps):
            pair = step if isinstance(step, list) and len(step) == 2 else [None, None]
            value, held = value_in(point, pair[0]), length_in(pair[1])
            if value is None or held is None or not SECOND <= held <= DAY:
                found = f"[{', '.join(map(shown, step))}]" if isinstance(step, list) else shown(step)
                self.note(path + (place,), "", found, f"[value, length]: {point.name} takes {point.range()}, for 1s to 1d")
                return None
            way.append((value, held))
        return tuple(way)

    # -- points

    def _points(self) -> Dict[str, Point]:
        made = {point.name: Point(point.name, point.kind, point.least, point.most, point.unit, point.note, point.name in self._settable)
                for point in self._fitting("*")}
        seen: Dict[str, int] = {}
        for place, table in enumerate(self._tables("point", MOST_POINTS)):
            path: Path = ("point", place)
            name = name_of(table)
            self.known(path, name, table, POINT_KEYS)
            if self.one(path, name, table, "name", lambda value: isinstance(value, str), "the name of a point") and self._catalogue is not None:
                if table["name"] not in made:
                    self.note(path + ("name",), "", name, f"a point of {self._catalogue.path}")
                elif seen.setdefault(table["name"], place) != place:
                    self.note(path + ("name",), "", f"{name} again", "a point that no earlier table has")
                else:
                    made[table["name"]] = self._point(path, name, table, made[table["name"]])
        return made

    def _point(self, path: Path, name: str, table: Dict[str, Any], point: Point) -> Point:
        fits: Callable[[Any], bool] = lambda value: point.kind == "analog" and (thousandths_in(value) or 0) >= 1
        self.one(path, name, table, "step", fits, "of an analog point, in units, at least 0.001", default=0.1)
        self.one(path, name, table, "hidden", is_flag, "true or false", default=False)
        classes = ", ".join(sorted(classes_of(point))) or "none"
        self.one(path, name, table, "class", lambda value: value == "" or value in classes_of(point),
                 f'"", or a class that this point may have: {classes}', default="")
        wanted = f"of a point of states, {point.most} texts of 1 to 32 characters without {{ }}, each once, none \"None\""
        self.one(path, name, table, "states", lambda value: are_states(point, value), wanted, default=())
        if any(finding.is_mistake for finding in self.findings):
            return point
        return replace(point, step=thousandths_in(table.get("step", 0.1)) or 100, states=tuple(table.get("states", ())),
                       device_class=table.get("class"), hidden=table.get("hidden", False))


def are_states(point: Point, value: object) -> bool:
    """Whether these may be the names of a point's states."""
    if point.kind != "multi" or not isinstance(value, list) or not 2 <= len(value) <= 255 or len(value) != point.most:
        return False
    fit = all(isinstance(one, str) and 1 <= len(one) <= 32 and one.isprintable() and not set("{}") & set(one) and one != "None" for one in value)
    return fit and len(set(value)) == len(value)


def is_loopback(host: str) -> bool:
    """Whether what is sent to a host stays on this machine."""
    try:
        return ipaddress.ip_address(host).is_loopback
    except ValueError:
        return host == "localhost"


def read_settings(path: str, ask: Optional[Ask] = None) -> Tuple[Optional[Settings], List[Finding]]:
    """What a file says, and what is to be said of it. Failure where it cannot be read; NoAnswer."""
    reading = Reading(path, ask)
    return reading.settings, reading.findings


def password_of(broker: Broker) -> Optional[str]:
    """The password; None where there is none. Failure where its file cannot be read."""
    if broker.password_file is None:
        return None
    path = broker.password_file.replace("%d", os.environ.get("CREDENTIALS_DIRECTORY", "%d"))
    try:
        with open(path, encoding="utf-8") as file:
            text = file.read(2_000)
    except (OSError, UnicodeDecodeError) as error:
        raise Failure(f"{path}: {getattr(error, 'strerror', None) or 'no text in UTF-8'}") from error
    line = text[:-1] if text.endswith("\n") else text
    if not 1 <= len(line.encode()) <= 1_024 or "\n" in line:
        raise Failure(f"{path}: wanted one line of 1 to 1024 bytes")
    return line
