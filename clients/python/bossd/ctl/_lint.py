"""What is wrong in a catalogue, in access rules, in a plan of devices and in a file of keys: every mistake, by its line, its table and its key."""

import difflib
import re
from typing import Any, Callable, Dict, Iterable, List, NamedTuple, Optional, Sequence, Set, Tuple, Union

from .._protocol import is_name
from . import _bacnet, _forms, _show, _toml
from ._toml import Broken, Failure, Lines, Path

LONGEST_FILE = 1_048_576
MOST_DRIVERS, MOST_POINTS, MOST_RULES, MOST_KEYS, MOST_RESERVE = 256, 4_096, 256, 512, 1_024
BOUND = 10**15
A_DAY = 86_400_000
A_NAME = "1 to 64 characters of a-z 0-9 . _ -"
A_PATTERN = "a name, or up to 63 characters of a name followed by *"
KINDS = ("analog", "binary", "multi")
# The headers of tables of which there may be several, with a bracket too few.
ONE_BRACKET = ("[point]", "[rule]", "[driver]", "[place]", "[key]")
# How manuals write the holding registers of the addresses 0 to 9998.
HOLDING = range(40_001, 50_000)


class Finding(NamedTuple):
    """A mistake, or where `is_mistake` is False something that is passed over and looks like one. `line` counts from 1 and is None where
    it is the file's as a whole; `table` is as `point[3]`, counted from 0, or as `rule 4`, counted from 1, as the server does; `name` is
    what the table is called."""
    file: str
    line: Optional[int]
    table: str
    name: str
    key: str
    found: str
    wanted: str
    is_mistake: bool

    def sentence(self) -> str:
        """The finding on one line."""
        where = f"{self.file}:{self.line}:" if self.line else f"{self.file}:"
        table = f" {self.table}" + (f" {self.name}" if self.name else "") + ":" if self.table else ""
        key = f" {self.key}:" if self.key else ""
        found = f" found {self.found};" if self.found else ""
        return f"{where}{table}{key}{'' if self.is_mistake else ' (passed over)'}{found} {self.wanted}"


def shown(value: object) -> str:
    """A value as it would stand in the file, shortened."""
    if isinstance(value, bool):
        return "true" if value else "false"
    if isinstance(value, dict):
        return "a table"
    if isinstance(value, list):
        return f"an array of {len(value)}"
    text = '"' + value + '"' if isinstance(value, str) else str(value)
    return text if len(text) <= 60 else text[:57] + "..."


def is_whole(value: object, least: int, most: int) -> bool:
    return isinstance(value, int) and not isinstance(value, bool) and least <= value <= most


def is_pattern(value: object) -> bool:
    return is_name(value) or (isinstance(value, str) and value.endswith("*") and (value == "*" or is_name(value[:-1])) and len(value) <= 64)


class File:
    """A file that is looked through, and what was found in it."""

    def __init__(self, path: str) -> None:
        self.path = path
        self.findings: List[Finding] = []
        self.tables: Dict[str, Any] = {}
        self.is_read = False
        self.lines = Lines("")
        self._read()

    def _read(self) -> None:
        try:
            with open(self.path, "rb") as file:
                data = file.read()
        except OSError as error:
            raise Failure(f"{self.path}: {error.strerror}") from error
        if len(data) > LONGEST_FILE:
            self.note((), "", f"{len(data)} bytes", f"at most {LONGEST_FILE} bytes")
        try:
            # The server passes over a byte order mark too.
            text = data.decode("utf-8-sig")
        except UnicodeDecodeError as error:
            line = data.count(b"\n", 0, error.start) + 1
            self.findings.append(Finding(self.path, line, "", "", "", "a byte that is no UTF-8", "a file in UTF-8", True))
            return
        tables = _toml.read(text)
        if isinstance(tables, Broken):
            self.findings.append(Finding(self.path, tables.line, "", "", "", *self._broken(text, tables), True))
            return
        self.tables, self.lines, self.is_read = tables, Lines(text), True
        self._whole_numbers((), tables)

    def _broken(self, text: str, tables: Broken) -> Tuple[str, str]:
        """What is found in a text that is no TOML, and what is wanted."""
        lines = text.splitlines()
        line = lines[tables.line - 1].partition("#")[0].strip() if tables.line and tables.line <= len(lines) else ""
        if line in ONE_BRACKET:
            return f"{line} again", f"[{line}], with two brackets, since there may be several"
        return "", f"no TOML: {tables.why}"

    def _whole_numbers(self, path: Path, value: Any) -> None:
        items: Sequence[Tuple[Any, Any]] = ()
        if isinstance(value, dict):
            items = list(value.items())
        elif isinstance(value, list):
            items = list(enumerate(value))
        elif isinstance(value, int) and not -(1 << 63) <= value < 1 << 63:
            self.note(path, "", shown(value), "a whole number of at most 64 bits, for the file to be TOML")
        for key, item in items:
            self._whole_numbers(path + (key,), item)

    def note(self, path: Path, name: str, found: str, wanted: str, is_mistake: bool = True) -> None:
        """Keeps a finding at this path."""
        place = path[1] if len(path) > 1 else None
        table = self.table_at(path[0], place) if isinstance(place, int) else ""
        key = path[2:] if table else path
        self.findings.append(
            Finding(self.path, self.lines.of(path), table, name, ".".join(map(str, key)), found, wanted, is_mistake))

    def table_at(self, key: Union[str, int], place: int) -> str:
        """What the server calls the table of this place in an array, counted from 0."""
        return f"{key}[{place}]"

    def array(self, key: str, most: Optional[int], what: str) -> List[Any]:
        """The array under a key of the top; an empty one where there is none, which is noted."""
        value = self.tables.get(key)
        if not isinstance(value, list):
            found = "nothing" if value is None else shown(value)
            self.note((key,), "", found, f"an array of {what}")
            return []
        if most is not None and len(value) > most:
            self.note((key,), "", f"{len(value)} of them", f"at most {most} {what}")
        return value

    def known(self, path: Path, name: str, table: Dict[str, Any], keys: Sequence[str], is_refused: bool = False) -> None:
        """Notes keys that nothing reads, with the key that may have been meant. They are passed over, or the server refuses them."""
        for key in table:
            if key not in keys:
                # A key that looks like one that is missing is one that was misspelt.
                near = difflib.get_close_matches(key.replace("-", "_"), [other for other in keys if other not in table], 1, 0.6)
                meant = f"is {near[0]} meant?" if near else f"known here are {', '.join(keys)}"
                self.note(path + (key,), name, "a key that nothing reads", meant, is_mistake=is_refused or bool(near))

    def one(self, path: Path, name: str, table: Dict[str, Any], key: str, test: Callable[[Any], bool], wanted: str, default: Any = None) -> bool:
        """Whether the value of a key passes a test; where it does not, or is missing without a default, that is noted."""
        if key not in table:
            if default is None:
                self.note(path + (key,), name, "nothing", wanted)
            return default is not None
        if not test(table[key]):
            self.note(path + (key,), name, shown(table[key]), wanted)
            return False
        return True


def meant(value: object, names: Iterable[str]) -> str:
    """A question after the name that may have been meant, where there is one that is near."""
    near = difflib.get_close_matches(value, list(names), 1, 0.6) if isinstance(value, str) else []
    return f"; is {near[0]} meant?" if near else ""


def name_of(table: Dict[str, Any], key: str = "name") -> str:
    return shown(table[key]) if isinstance(table.get(key), str) else ""


# ---- the catalogue

POINT_KEYS = {
    "analog": ("name", "driver", "kind", "min", "max", "default", "unit", "note"),
    "binary": ("name", "driver", "kind", "default", "min_on", "min_off", "unit", "note"),
    "multi": ("name", "driver", "kind", "states", "default", "unit", "note"),
}
ALL_KEYS = tuple(dict.fromkeys(key for keys in POINT_KEYS.values() for key in keys))


class Catalogue(File):
    """A catalogue, and of its points those that have a name."""

    def __init__(self, path: str) -> None:
        super().__init__(path)
        self.drivers: List[str] = []
        self.points: Dict[str, Dict[str, Any]] = {}
        if self.is_read:
            self.known((), "", self.tables, ("drivers", "point"))
            self._drivers(self.array("drivers", MOST_DRIVERS, "names of drivers"))
            for place, point in enumerate(self.array("point", MOST_POINTS, "points, each a table [[point]]")):
                self._point(("point", place), point)
            self._idle_drivers()

    def _drivers(self, names: List[Any]) -> None:
        for place, name in enumerate(names):
            if not is_name(name):
                self.note(("drivers", place), "", shown(name), A_NAME)
            elif name in self.drivers:
                self.note(("drivers", place), "", f"{shown(name)} again", "a name that no earlier driver has")
            else:
                self.drivers.append(name)

    def _point(self, path: Path, point: Any) -> None:
        if not isinstance(point, dict):
            self.note(path, "", shown(point), "a table [[point]]")
            return
        name, kind = name_of(point), point.get("kind")
        if self.one(path, name, point, "name", is_name, A_NAME):
            if point["name"] in self.points:
                self.note(path + ("name",), "", f"{name} again", "a name that no earlier point has")
            self.points.setdefault(point["name"], point)
        drivers = ", ".join(map(shown, self.drivers)) or "a name in drivers"
        # Where the drivers themselves are missing, that is the one mistake.
        if isinstance(self.tables.get("drivers"), list) or "driver" not in point:
            self.one(path, name, point, "driver", lambda value: isinstance(value, str) and value in self.drivers,
                     f"one of drivers: {drivers}{meant(point.get('driver'), self.drivers)}")
        if self.one(path, name, point, "kind", lambda value: value in KINDS, 'one of "analog", "binary", "multi"'):
            self._bounds(path, name, point)
        for key in ("unit", "note"):
            self.one(path, name, point, key, lambda value: isinstance(value, str), "a text", default="")
        for key in ("min_on", "min_off"):
            if key in point and kind in ("analog", "multi"):
                self.note(path + (key,), name, f"a minimum time of a point of kind {kind}", "binary points alone have these")
            else:
                self.one(path, name, point, key, lambda value: is_whole(value, 0, A_DAY), f"milliseconds, 0 to {A_DAY}", default=0)
        keys = POINT_KEYS.get(kind, ALL_KEYS) if isinstance(kind, str) else ALL_KEYS
        self.known(path, name, {key: value for key, value in point.items() if key not in ("min_on", "min_off")}, keys)

    def _bounds(self, path: Path, name: str, point: Dict[str, Any]) -> None:
        whole = "a whole number of -10^15 to 10^15, in thousandths of the unit: 20.5 is written 20500"
        least, most = 0, 1
        if point["kind"] == "analog":
            has = [self.one(path, name, point, key, lambda value: is_whole(value, -BOUND, BOUND), whole) for key in ("min", "max")]
            if not all(has):
                return
            least, most = point["min"], point["max"]
            if least > most:
                self.note(path + ("min",), name, f"{least}, above max = {most}", "min at most max")
                return
        elif point["kind"] == "multi":
            if not self.one(path, name, point, "states", lambda value: is_whole(value, 2, 255), "how many states, 2 to 255"):
                return
            least, most = 1, point["states"]
        unit = ", in thousandths of the unit" if point["kind"] == "analog" else ""
        fits = self.one(path, name, point, "default", lambda value: is_whole(value, least, most), f"a whole number of {least} to {most}{unit}")
        if fits and point["kind"] == "analog":
            self._thousandths(path, name, point)

    def _thousandths(self, path: Path, name: str, point: Dict[str, Any]) -> None:
        """Notes values that look like whole units, where they are thousandths."""
        most, default, unit = point["max"], point["default"], point.get("unit")
        if isinstance(unit, str) and unit and 0 < most <= 100:
            self.note(path + ("max",), name, f"{most} with the unit {unit}, which is {most / 1000:g} {unit}",
                      f"is {most * 1000} meant? Values are thousandths of the unit", is_mistake=False)
        elif 0 < default < (most - point["min"]) / 100 and default * 1000 <= most:
            self.note(path + ("default",), name, f"{default}, which is {default / 1000:g} of {most / 1000:g}",
                      f"is {default * 1000} meant? Values are thousandths of the unit", is_mistake=False)

    def _idle_drivers(self) -> None:
        used = {point.get("driver") for point in self.points.values() if isinstance(point.get("driver"), str)}
        for place, name in enumerate(self.tables.get("drivers") or []):
            if isinstance(name, str) and name in self.drivers and name not in used:
                self.note(("drivers", place), "", f"{shown(name)}, which has no point", "a driver costs the server a thread", is_mistake=False)


# ---- access rules

RULE_KEYS = ("process", "point", "highest", "allow")
MOST_NAMES = 3


class Rule(NamedTuple):
    """The patterns of a rule, its number, from 1, and whether it allows anything."""
    number: int
    process: str
    point: str
    allows: bool


class Numbered(File):
    """A file whose tables count from 1, as the server counts them."""

    def table_at(self, key: Union[str, int], place: int) -> str:
        return f"{key} {place + 1}"


class Rules(Numbered):
    """Access rules: an array of tables `rule`, of which the first decides that matches the process and the point of a write."""

    def __init__(self, path: str, catalogue: Catalogue) -> None:
        super().__init__(path)
        self.catalogue = catalogue
        self.earlier: List[Rule] = []
        if self.is_read:
            self.known((), "", self.tables, ("rule",))
            for place, rule in enumerate(self.array("rule", MOST_RULES, "rules, each a table [[rule]]")):
                self._rule(("rule", place), rule)
            if not any(finding.is_mistake for finding in self.findings):
                self._unruled()
                self._open()

    def _rule(self, path: Path, rule: Any) -> None:
        if not isinstance(rule, dict):
            self.note(path, "", shown(rule), "a table [[rule]]")
            return
        are_patterns = [self.one(path, "", rule, key, is_pattern, A_PATTERN) for key in ("process", "point")]
        self.one(path, "", rule, "highest", lambda value: is_whole(value, 1, 16),
                 "the least priority number that it allows, 1 to 16", default=1)
        self.one(path, "", rule, "allow", lambda value: isinstance(value, bool), "true or false", default=True)
        if rule.get("allow") is False and "highest" in rule:
            self.note(path + ("highest",), "", "highest beside allow = false", "such a rule denies every priority", is_mistake=False)
        self.known(path, "", rule, RULE_KEYS, is_refused=True)
        if all(are_patterns):
            self._reach(path, Rule(int(path[1]) + 1, rule["process"], rule["point"], rule.get("allow") is not False))

    def _reach(self, path: Path, rule: Rule) -> None:
        """Notes a rule that no write comes to. Which processes there are no catalogue says."""
        points = [name for name in self.catalogue.points if matches(rule.point, name)]
        before = [self._earlier(rule, name) for name in points]
        if not points and self.catalogue.points:
            self.note(path + ("point",), "", f"{shown(rule.point)}, which fits no point", "a point of the catalogue", is_mistake=False)
        elif points and all(before):
            numbers = sorted({one.number for one in before if one is not None})
            those = f"rule {numbers[0]} decides" if len(numbers) == 1 else f"rules {', '.join(map(str, numbers))} decide"
            self.note(path, "", "a rule that no write comes to", f"{those} before it: put the narrower rule first", is_mistake=False)
        self.earlier.append(rule)

    def _earlier(self, rule: Rule, name: str) -> Optional[Rule]:
        """An earlier rule that decides on this point for every process of the rule."""
        return next((one for one in self.earlier if covers(one.process, rule.process) and matches(one.point, name)), None)

    def _unruled(self) -> None:
        """Notes the points that nobody may write."""
        names = [name for name in self.catalogue.points if not any(matches(rule.point, name) for rule in self.earlier)]
        if names:
            first = ", ".join(map(shown, names[:MOST_NAMES])) + (f" and {len(names) - MOST_NAMES} more" if len(names) > MOST_NAMES else "")
            self.note((), "", f"no rule for {first}", "nobody may write what no rule is for", is_mistake=False)

    def _open(self) -> None:
        """Notes the first rule that admits every name."""
        number = next((rule.number for rule in self.earlier if rule.process == "*"), None)
        if number is not None:
            self.note(("rule", number - 1, "process"), "", '"*", which lets every name attach',
                      "the names that may: a journal forgets none, and has room for 256", is_mistake=False)


def matches(pattern: str, name: str) -> bool:
    """Whether a name fits a pattern of a rule."""
    return name.startswith(pattern[:-1]) if pattern.endswith("*") else name == pattern


def covers(pattern: str, other: str) -> bool:
    """Whether each name that fits the other pattern fits this one."""
    return other == pattern if not pattern.endswith("*") else other.rstrip("*").startswith(pattern[:-1])


def meet(pattern: str, other: str) -> bool:
    """Whether a name may fit both."""
    return covers(pattern, other) or covers(other, pattern)


# ---- keys

KEY_KEYS = ("process", "sha256")
A_DIGEST = "64 characters of 0-9 a-f: the SHA-256 of the key's characters, as bossctl key writes it"
DIGEST = re.compile(r"[0-9a-f]{64}", re.ASCII)
A_RESERVE = f"how many workers are kept for whoever shows a key: a whole number of 0 to {MOST_RESERVE}"


class Keys(Numbered):
    """Digests of keys: an array of tables `key`, each for one name, or for those that begin so; and how many workers are kept for whoever shows one."""

    def __init__(self, path: str, rules: Optional[Rules]) -> None:
        super().__init__(path)
        self.rules = rules
        self.processes: List[str] = []
        self.digests: Dict[str, int] = {}
        if self.is_read:
            self.known((), "", self.tables, ("key", "reserve"))
            self.one((), "", self.tables, "reserve", lambda value: is_whole(value, 0, MOST_RESERVE), A_RESERVE, default=0)
            for place, key in enumerate(self.array("key", MOST_KEYS, "keys, each a table [[key]]")):
                self._key(("key", place), key)
            if rules is not None and not any(finding.is_mistake for finding in self.findings + rules.findings):
                self._unkeyed(rules)

    def _key(self, path: Path, key: Any) -> None:
        if not isinstance(key, dict):
            self.note(path, "", shown(key), "a table [[key]]")
            return
        if self.one(path, "", key, "process", is_pattern, A_PATTERN):
            self._process(path + ("process",), key["process"])
        if self.one(path, "", key, "sha256", lambda value: isinstance(value, str) and DIGEST.fullmatch(value) is not None, A_DIGEST):
            earlier = self.digests.setdefault(key["sha256"], int(path[1]) + 1)
            if earlier != int(path[1]) + 1:
                self.note(path + ("sha256",), "", f"the digest of key {earlier} again", "a key of its own, so that each can be changed alone", is_mistake=False)
        self.known(path, "", {name: value for name, value in key.items() if name != "reserve"}, KEY_KEYS, is_refused=True)
        if "reserve" in key:
            # TOML takes what stands below a header as that table's.
            self.note(path + ("reserve",), "", "a key of the file in this table", "reserve above the first [[key]]")

    def _process(self, path: Path, process: str) -> None:
        self.processes.append(process)
        if process == "*":
            self.note(path, "", '"*", whose key is right for every name', "an administrator's alone", is_mistake=False)
        elif self.rules is not None and self.rules.is_read and not any(rule.allows and meet(rule.process, process) for rule in self.rules.earlier):
            self.note(path, "", f"{shown(process)}, which no rule lets write", "it may ask and watch, and no more", is_mistake=False)

    def _unkeyed(self, rules: Rules) -> None:
        """Notes the rules of names for which nobody can have a key."""
        for rule in rules.earlier:
            if rule.allows and not any(meet(process, rule.process) for process in self.processes):
                rules.note(("rule", rule.number - 1, "process"), "", f"{shown(rule.process)}, for which there is no key",
                           "nobody can connect under such a name", is_mistake=False)


# ---- a plan of devices

# The keys of a driver, those of a register alone, of a place of each protocol alone, and of each place.
A_DRIVER = ("name", "host", "speaks", "wait", "tries", "check", "again")
OF_REGISTER = ("type", "first", "times", "offset", "round")
OF_MODBUS = ("unit", "coil", "register", "function", "type", "first", "round")
OF_BACNET = ("bacnet", "level", "network", "station")
A_PLACE = ("point", "unit", "coil", "register") + OF_BACNET + ("per", "function") + OF_REGISTER + ("check", "again")
PROTOCOLS = {"modbus": "Modbus", "bacnet": "BACnet"}
# The port that each protocol mostly has.
PORTS = {"modbus": "502", "bacnet": "47808"}
# How often, in milliseconds, a device may be looked at or written once more, and how many may be more often than the last.
LEAST_LOOK, MANY, OFTEN = 1_000, 100, 5_000
AN_OBJECT = '"TYPE,INSTANCE" without a space: one of ' + ", ".join(_bacnet.OBJECTS) + f", and 0 to {_bacnet.LAST_INSTANCE}"


class Plan(File):
    """A plan of devices: arrays of tables `driver` and `place`."""

    def __init__(self, path: str, catalogue: Catalogue) -> None:
        super().__init__(path)
        self.catalogue = catalogue
        # Of each driver how many of its places are written once more oftener than is good for many.
        self.often: Dict[str, List[int]] = {}
        # The place of each driver's table, which points have a place, and which point has each register and coil.
        self.planned: Dict[str, int] = {}
        self.placed: Set[str] = set()
        self.taken: Dict[Tuple[Any, ...], str] = {}
        if self.is_read:
            self.known((), "", self.tables, ("driver", "place"))
            for place, driver in enumerate(self.array("driver", None, "tables [[driver]]")):
                self._driver(("driver", place), driver)
            for place, one in enumerate(self.array("place", None, "tables [[place]]")):
                self._place(("place", place), one)
            self._missing()
            self._too_often()

    def _driver(self, path: Path, driver: Any) -> None:
        if not isinstance(driver, dict):
            self.note(path, "", shown(driver), "a table [[driver]]")
            return
        name = name_of(driver)
        known = ", ".join(map(shown, self.catalogue.drivers))
        is_known = lambda value: isinstance(value, str) and value in self.catalogue.drivers
        if self.one(path, name, driver, "name", is_known, f"a driver of the catalogue: {known}{meant(driver.get('name'), self.catalogue.drivers)}"):
            if driver["name"] in self.planned:
                self.note(path + ("name",), "", f"{name} again", "a driver that no earlier table has")
            self.planned.setdefault(driver["name"], int(path[1]))
        fits = lambda value: isinstance(value, str) and 1 <= len(value.encode()) <= 255
        if self.one(path, name, driver, "host", fits, 'a text of 1 to 255 bytes, HOST:PORT, as "192.0.2.7:502"'):
            host, _, port = driver["host"].rpartition(":")
            if "/" in host + port:
                self.note(path + ("host",), name, shown(driver["host"]), 'HOST:PORT and nothing before it or after it, as "192.0.2.7:502"')
            else:
                self._port(path, name, driver, port)
        self.one(path, name, driver, "speaks", lambda value: value in tuple(PROTOCOLS), " or ".join(map(shown, PROTOCOLS)), default="modbus")
        self.one(path, name, driver, "wait", lambda value: is_whole(value, 50, 5_000), "50 to 5000 milliseconds", default=5_000)
        self.one(path, name, driver, "tries", lambda value: is_whole(value, 1, 4), "1 to 4: how often a request is sent", default=2)
        if "tries" in driver and driver.get("speaks", "modbus") == "modbus":
            self.note(path + ("tries",), name, "tries at a driver that speaks Modbus", 'it belongs to speaks = "bacnet"; over TCP a request is sent once')
        self._looks(path, name, driver)
        self.known(path, name, driver, A_DRIVER)

    def _port(self, path: Path, name: str, driver: Dict[str, Any], port: str) -> None:
        """Notes a host without a port, or with that of another protocol."""
        protocol = driver.get("speaks", "modbus")
        if not isinstance(protocol, str) or protocol not in PROTOCOLS:
            return
        has = f"{'BACnet/IP' if protocol == 'bacnet' else 'Modbus TCP'} has {PORTS[protocol]}"
        if not port.isdigit() or not 1 <= int(port) <= 65_535:
            self.note(path + ("host",), name, shown(driver["host"]), f"it has no port: {has}", is_mistake=False)
        elif port != PORTS[protocol] and port in PORTS.values():
            self.note(path + ("host",), name, shown(driver["host"]), f"{has}; is speaks right?", is_mistake=False)

    def _looks(self, path: Path, name: str, table: Dict[str, Any]) -> None:
        fits = lambda value: is_whole(value, 0, 0) or is_whole(value, LEAST_LOOK, A_DAY)
        for key, what in (("check", "the device is read"), ("again", "it is written once more")):
            self.one(path, name, table, key, fits, f"{LEAST_LOOK} to {A_DAY} milliseconds, so often {what}; 0 for never", default=0)

    def _place(self, path: Path, place: Any) -> None:
        if not isinstance(place, dict):
            self.note(path, "", shown(place), "a table [[place]]")
            return
        name = name_of(place, "point")
        self.one(path, name, place, "per", lambda value: is_whole(value, 1, BOUND), "1 to 10^15: so many thousandths are 1 in the device",
                 default=1)
        protocol = self._protocol(place)
        for key in OF_MODBUS if protocol == "bacnet" else OF_BACNET:
            if key in place:
                wanted = "an object is named by bacnet" if protocol == "bacnet" else 'a driver with speaks = "bacnet", or coil or register'
                self.note(path + (key,), name, f"{key} where the driver speaks {PROTOCOLS[protocol]}", wanted)
        if protocol == "bacnet":
            self._object(path, name, place)
        else:
            self._in_registers(path, name, place)
        wanted = f"a point of the catalogue{meant(place.get('point'), self.catalogue.points)}"
        if self.one(path, name, place, "point", lambda value: isinstance(value, str) and value in self.catalogue.points, wanted):
            self._known_place(path, name, place, self.catalogue.points[place["point"]])
        self._looks(path, name, place)
        self.known(path, name, place, A_PLACE)

    def _protocol(self, place: Dict[str, Any]) -> str:
        """What the driver of a place speaks; where that is not known, what the place is of."""
        point = self.catalogue.points.get(place["point"]) if isinstance(place.get("point"), str) else None
        driver = None if point is None else self._table_of(point.get("driver"))
        protocol = "bacnet" if driver is None and "bacnet" in place else (driver or {}).get("speaks", "modbus")
        return protocol if isinstance(protocol, str) and protocol in PROTOCOLS else "modbus"

    def _table_of(self, driver: Any) -> Optional[Dict[str, Any]]:
        """The table of a driver that the plan has."""
        if not isinstance(driver, str) or driver not in self.planned:
            return None
        table: Dict[str, Any] = self.tables["driver"][self.planned[driver]]
        return table

    def _in_registers(self, path: Path, name: str, place: Dict[str, Any]) -> None:
        self.one(path, name, place, "unit", lambda value: is_whole(value, 0, 255), "the unit, 0 to 255")
        both = [key for key in ("coil", "register") if key in place]
        if len(both) != 1:
            self.note(path, name, " and ".join(both) or "neither coil nor register", "one of coil and register")
        for key in both:
            self.one(path, name, place, key, lambda value: is_whole(value, 0, 65_535), "an address, 0 to 65535")
        if both == ["coil"]:
            self._coil(path, name, place)
        elif both == ["register"]:
            self._register(path, name, place)
        if is_whole(place.get("register"), HOLDING.start, HOLDING.stop - 1):
            self.note(path + ("register",), name, str(place["register"]), f"is {place['register'] - HOLDING.start} meant? Addresses count from 0, "
                      f"where manuals count holding registers from {HOLDING.start}", is_mistake=False)

    def _object(self, path: Path, name: str, place: Dict[str, Any]) -> None:
        """An object of BACnet."""
        is_object = self.one(path, name, place, "bacnet", lambda value: isinstance(value, str) and _bacnet.object_of(value) is not None, AN_OBJECT)
        fits = lambda value: is_whole(value, 1, 16) and value != _bacnet.MINIMUM_TIMES
        if self.one(path, name, place, "level", fits, "1 to 16 and not 6: the BACnet priority at which it is written") and place["level"] <= 2:
            self.note(path + ("level",), name, f"level {place['level']}, {_show.level(place['level'])}", "a lower level, as 8 or 10, where it saves no lives",
                      is_mistake=False)
        both = [key for key in ("network", "station") if key in place]
        if len(both) == 1:
            self.note(path + (both[0],), name, f"{both[0]} alone", "both network and station, for what is behind a router, or neither")
        self.one(path, name, place, "network", lambda value: is_whole(value, 1, 65_534), "a network, 1 to 65534", default=1)
        self.one(path, name, place, "station", lambda value: is_whole(value, 0, 254), "a station of it, 0 to 254", default=0)
        kind = _bacnet.KINDS[place["bacnet"].partition(",")[0]] if is_object else "analog"
        for key in ("times", "offset", "per"):
            if key in place and kind != "analog":
                self.note(path + (key,), name, f"{key} at an object of kind {kind}", "a state is written as it is")
        self._scale(path, name, place)

    def _scale(self, path: Path, name: str, place: Dict[str, Any]) -> None:
        self.one(path, name, place, "times", lambda value: is_whole(value, 1, 1_000), "1 to 1000", default=1)
        is_offset = self.one(path, name, place, "offset", lambda value: is_whole(value, -10**9, 10**9), "-10^9 to 10^9: what is in the device for 0",
                             default=0)
        if is_offset and is_whole(place.get("per", 1), 1, BOUND) and abs(place.get("offset", 0) * place.get("per", 1)) > 10**18:
            self.note(path + ("offset",), name, f"{place['offset']} times {place.get('per', 1)}", "at most 10^18 together")

    def _known_place(self, path: Path, name: str, place: Dict[str, Any], point: Dict[str, Any]) -> None:
        if point["name"] in self.placed:
            self.note(path + ("point",), "", f"{name} again", "a point that has no earlier place")
        self.placed.add(point["name"])
        driver = self._table_of(point.get("driver"))
        if driver is None:
            self.note(path + ("point",), name, f"a point of the driver {shown(point.get('driver'))}", "a point of a driver that the plan has")
        else:
            again = place.get("again", driver.get("again", 0))
            self.often.setdefault(point["driver"], []).extend([again] if is_whole(again, LEAST_LOOK, OFTEN - 1) else [])
        is_binary = point.get("kind") == "binary"
        if self._protocol(place) == "bacnet":
            self._known_object(path, name, place, point)
            return
        if "coil" in place and not is_binary:
            self.note(path + ("coil",), name, f"a coil for a point of kind {shown(point.get('kind'))}", "a register; coils are for binary points")
        if "register" in place:
            self._range(path, name, place, point)
        elif "per" in place:
            self.note(path + ("per",), name, "per at a coil", "a coil is 0 or 1, and per means nothing there", is_mistake=False)
        self._same_place(path, name, place, point)

    def _known_object(self, path: Path, name: str, place: Dict[str, Any], point: Dict[str, Any]) -> None:
        """An object whose point is known."""
        found = _bacnet.object_of(place["bacnet"]) if isinstance(place.get("bacnet"), str) else None
        if found is None:
            return
        kind = _bacnet.KINDS[found[0]]
        if kind != point.get("kind"):
            self.note(path + ("bacnet",), name, f"an object of kind {kind} for a point of kind {shown(point.get('kind'))}", "an object of the point's kind")
        elif kind == "analog":
            self._range(path, name, {**place, "type": "f32"}, point)
        at = (point.get("driver"), str(place.get("network")), str(place.get("station")), place["bacnet"])
        other = self.taken.setdefault(at, name)
        if other != name:
            self.note(path + ("bacnet",), name, f"{place['bacnet']} again, which {other} has", "two points would be written to one", is_mistake=False)

    def _coil(self, path: Path, name: str, place: Dict[str, Any]) -> None:
        for key in OF_REGISTER:
            if key in place:
                self.note(path + (key,), name, f"{key} at a coil", "it belongs to a register")
        self.one(path, name, place, "function", lambda value: value in (5, 15) and is_whole(value, 5, 15), "5 or 15: what writes a coil", default=5)

    def _register(self, path: Path, name: str, place: Dict[str, Any]) -> None:
        forms = ", ".join(_forms.REGISTERS)
        is_form = self.one(path, name, place, "type", lambda value: isinstance(value, str) and value in _forms.REGISTERS, f"one of {forms}", default="u16")
        form = place.get("type", "u16") if is_form else None
        count = _forms.REGISTERS[form] if form else None
        self.one(path, name, place, "first", lambda value: value in ("high", "low"), "high or low: the half that stands first", default="high")
        if count == 1 and "first" in place:
            self.note(path + ("first",), name, f"first at one register of type {form}", "a type of two registers: u32, i32 or f32")
        self._scale(path, name, place)
        self.one(path, name, place, "round", lambda value: value in ("down", "nearest"), "down or nearest", default="down")
        if form == "f32" and "round" in place:
            self.note(path + ("round",), name, "round at type f32", "it has fractions, and nothing is rounded to a whole number")
        functions = (16,) if count == 2 else (6, 16)
        wanted = "16: what writes two registers" if count == 2 else "6 or 16: what writes a register"
        self.one(path, name, place, "function", lambda value: value in functions and is_whole(value, 6, 16), wanted, default=16)
        if count == 2 and place["register"] == 65_535:
            self.note(path + ("register",), name, f"65535 for type {form}", "an address with another after it: 0 to 65534")

    def _range(self, path: Path, name: str, place: Dict[str, Any], point: Dict[str, Any]) -> None:
        ends = _forms.ends(point)
        if ends is None or not self._has_scale(place):
            return
        scale, (least, most) = _forms.scale_of(place), ends
        for end in ends:
            if not scale.fits(end):
                self._no_form(path, name, place, scale, end)
        if scale.form == "f32" and point.get("kind") == "analog" and "per" not in place:
            found = f"no per, so that {most} thousandths are {scale.shown(scale.words(most)) if scale.fits(most) else most} in the device"
            self.note(path + ("per",), name, found, "is per = 1000 meant?", is_mistake=False)
        if scale.form != "f32" and least < most and scale.whole(least) == scale.whole(most):
            found = f"{scale.per}, by which each of {least} to {most} comes to {scale.whole(most)}"
            self.note(path + ("per",), name, found, f"so many {'states' if point.get('kind') == 'multi' else 'thousandths'} are 1 in the register",
                      is_mistake=False)

    @staticmethod
    def _has_scale(place: Dict[str, Any]) -> bool:
        return (place.get("type", "u16") in list(_forms.REGISTERS) and is_whole(place.get("times", 1), 1, 1_000)
                and is_whole(place.get("per", 1), 1, BOUND) and is_whole(place.get("offset", 0), -10**9, 10**9))

    def _no_form(self, path: Path, name: str, place: Dict[str, Any], scale: _forms.Scale, end: int) -> None:
        """Notes an end of a point's values that does not stand in the register."""
        if scale.form == "f32":
            self.note(path + ("per",), name, f"{end} times {scale.times}, and {scale.offset} times {scale.per}", "a sum that 64 bits hold")
            return
        least, most = _forms.BOUNDS[scale.form]
        if scale == _forms.Scale(per=scale.per) and end < 0:
            self.note(path + ("register",), name, f"a point with values down to {end}", 'a register takes no value below 0, but with type = "i16" or "i32"')
        elif scale == _forms.Scale(per=scale.per):
            self.note(path + ("per",), name, f"{end} divided by {scale.per}, which is {end // scale.per}", f"at most 65535: per = {end // 65_536 + 1} or more")
        else:
            self.note(path + ("type" if "type" in place else "register",), name, f"{end}, which comes to {scale.whole(end)}",
                      f"{least} to {most} for type {scale.form}")

    def _same_place(self, path: Path, name: str, place: Dict[str, Any], point: Dict[str, Any]) -> None:
        """Notes a register or coil that an earlier point of the same driver has."""
        for key in ("coil", "register"):
            if key in place and is_whole(place.get("unit"), 0, 255):
                count = _forms.REGISTERS.get(str(place.get("type")), 1) if key == "register" else 1
                addresses = [place[key]] if not is_whole(place[key], 0, 65_535) else range(place[key], place[key] + count)
                others = {address: self.taken.setdefault((point.get("driver"), place["unit"], key, str(address)), name) for address in addresses}
                again = next((address for address in addresses if others[address] != name), None)
                if again is not None:
                    self.note(path + (key,), name, f"{key} {shown(again)} again, which {others[again]} has", "two points would be written to one",
                              is_mistake=False)

    def _too_often(self) -> None:
        """Notes a driver with many places that are written once more all the time."""
        for driver, often in self.often.items():
            if len(often) > MANY:
                self.note(("driver", self.planned[driver], "again"), shown(driver), f"{len(often)} places that are written once more each {min(often)} ms",
                          f"again of {OFTEN} or more where a driver has more than {MANY} of them", is_mistake=False)

    def _missing(self) -> None:
        for name, point in self.catalogue.points.items():
            driver = point.get("driver")
            if driver in self.planned and name not in self.placed:
                self.note(("driver", self.planned[driver]), shown(driver), f"no place for {shown(name)}",
                          f"a table [[place]] with point = {shown(name)}: each point of a planned driver has one")


def lint(catalogue: str, rules: Optional[str] = None, plan: Optional[str] = None, keys: Optional[str] = None) -> List[Finding]:
    """What is to be said of these files, in the order of their lines. Failure where one cannot be read."""
    points = Catalogue(catalogue)
    files: List[File] = [points]
    ruled = None if rules is None else Rules(rules, points)
    if ruled is not None:
        files.append(ruled)
    if plan is not None:
        files.append(Plan(plan, points))
    if keys is not None:
        files.append(Keys(keys, ruled))
    return [finding for file in files for finding in sorted(file.findings, key=lambda it: it.line or 0)]
