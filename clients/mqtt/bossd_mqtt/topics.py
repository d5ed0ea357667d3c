"""What a point is in MQTT: its topics and its payloads. Pure; who sends them is `link`.

A name of bossd has the characters a-z 0-9 . _ - alone, so it is one level of a topic as it stands: no / + # or $ can be in it, and dots
mean nothing to a broker."""

import json
import re
from dataclasses import dataclass
from decimal import Decimal
from typing import Dict, List, NamedTuple, Optional, Tuple

ON, OFF = "online", "offline"
LONGEST_BASE, LONGEST_DISCOVERY, LONGEST_VALUE = 128, 64, 64
LEVELS = re.compile(r"[A-Za-z0-9_-]+(/[A-Za-z0-9_-]+)*")
# Names of units that people write, and how Home Assistant writes them.
UNITS = {"percent": "%", "degC": "°C", "celsius": "°C", "degF": "°F", "m3/h": "m³/h", "l/s": "L/s", "l/min": "L/min", "l/h": "L/h"}


@dataclass(frozen=True)
class Point:
    """A point of the catalogue, with what the bridge's own file says of it: whether it may be set, its step in thousandths, the names of
    its states, its class for Home Assistant (None is the one of its unit), and whether Home Assistant is not told of it."""
    name: str
    kind: str
    least: int = 0
    most: int = 1
    unit: str = ""
    note: str = ""
    settable: bool = False
    step: int = 100
    states: Tuple[str, ...] = ()
    device_class: Optional[str] = None
    hidden: bool = False


class State(NamedTuple):
    """How a point stands, as the server answered: `basis` is "lease", "pending" or "default", `mark` how far its device has come. `until`
    is the end of its lease, or of its reversion."""
    value: int
    basis: str
    mark: str
    priority: Optional[int] = None
    owner: Optional[str] = None
    until: Optional[int] = None


# ---- payloads

def text_of(point: Point, value: int) -> str:
    """A value as a payload: units of an analog point without needless digits, else the number."""
    if point.kind != "analog":
        return str(value)
    text = f"{Decimal(value) / 1000:f}"
    return text.rstrip("0").rstrip(".") if "." in text else text


def value_of(point: Point, payload: bytes) -> int:
    """The value of a payload. ValueError, as a sentence for whoever sent it."""
    if len(payload) > LONGEST_VALUE:
        raise ValueError(f"{len(payload)} bytes; a value has at most {LONGEST_VALUE}")
    try:
        number = Decimal(payload.decode("ascii"))
        value = number * 1000 if point.kind == "analog" else number
        if not value.is_finite() or abs(value) >= 10**16 or value != value.to_integral_value():
            raise ValueError
    except (ArithmeticError, ValueError) as error:
        shown = payload.decode("ascii", "replace")
        raise ValueError(f"{shown!r} is no " + ("number of units" if point.kind == "analog" else "whole number")) from error
    if not point.least <= value <= point.most:
        raise ValueError(f"{text_of(point, int(value))} is outside {text_of(point, point.least)} to {text_of(point, point.most)}")
    return int(value)


def unit_of(point: Point) -> Optional[str]:
    """The unit of an analog point, as it is told."""
    return UNITS.get(point.unit, point.unit) or None if point.kind == "analog" else None


# ---- topics

def is_levels(text: object, most: int) -> bool:
    """Whether a text is levels of a topic without what brokers read in them."""
    return isinstance(text, str) and len(text) <= most and LEVELS.fullmatch(text) is not None


@dataclass(frozen=True)
class Topics:
    """The topics of one building: all begin with `base`, which no other building of the broker has. An empty `discovery` is none."""
    base: str
    discovery: str = "homeassistant"

    @property
    def availability(self) -> str:
        """Whether the bridge is there: its last will."""
        return f"{self.base}/availability"

    @property
    def server(self) -> str:
        """Whether the server answers the bridge."""
        return f"{self.base}/server"

    @property
    def bridge(self) -> str:
        """What the bridge says of itself."""
        return f"{self.base}/bridge"

    @property
    def marker(self) -> str:
        """What comes back behind all that the broker has retained."""
        return f"{self.base}/marker"

    @property
    def node(self) -> str:
        """The building in Home Assistant's names. A / is XX, which makes no two buildings one."""
        return "bossd_" + self.base.replace("X", "Xx").replace("/", "XX")

    def of(self, point: str, leaf: str) -> str:
        """A topic of a point."""
        return f"{self.base}/point/{point}/{leaf}"

    @property
    def commands(self) -> List[str]:
        """What is subscribed: + stands for a point."""
        return [self.of("+", "set"), self.of("+", "release")]

    @property
    def kept(self) -> List[str]:
        """Where what an earlier bridge left may be retained."""
        found = [f"{self.discovery}/+/{self.node}/+/config"] if self.discovery else []
        return [self.of("+", "value"), self.of("+", "state"), *found]

    def command_of(self, topic: str) -> Optional[Tuple[str, str]]:
        """The point and the leaf of a topic of ours; None of any other."""
        match = re.fullmatch(re.escape(self.base) + r"/point/([a-z0-9._-]{1,64})/(set|release)", topic)
        return (match[1], match[2]) if match else None


def retained(topics: Topics, point: Point, state: State) -> Dict[str, str]:
    """The retained topics of a point. All that is told of one moment stands in one payload; the value alone stands beside it."""
    told = {"value": json.loads(text_of(point, state.value)), "unit": unit_of(point), "from": state.basis, "priority": state.priority,
            "owner": state.owner, "until": state.until, "device": state.mark}
    return {topics.of(point.name, "value"): text_of(point, state.value),
            topics.of(point.name, "state"): json.dumps(told, ensure_ascii=False, separators=(",", ":"))}
