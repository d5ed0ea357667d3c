"""What Home Assistant discovers of a building: a message for each point, by its component. Pure.

Its own topics take a-z A-Z 0-9 _ - alone: there a dot is _ and _ is X_, which no two names share."""

import json
from typing import Any, Dict, FrozenSet, Mapping, Optional, Tuple

from . import __version__
from .topics import OFF, ON, Point, Topics, unit_of

# A unit that is of one class alone. % is not here: a damper is no humidity.
CLASSES = {
    "°C": "temperature", "°F": "temperature", "Pa": "pressure", "hPa": "pressure", "kPa": "pressure", "bar": "pressure", "mbar": "pressure",
    "psi": "pressure", "W": "power", "kW": "power", "kWh": "energy", "MWh": "energy", "V": "voltage", "A": "current", "Hz": "frequency",
    "lx": "illuminance", "m³/h": "volume_flow_rate", "L/min": "volume_flow_rate", "m/s": "speed",
}
# The classes that a file may name: of an analog point with these units, of a binary one that is read, and of one that is set.
OF_UNITS: Mapping[str, FrozenSet[str]] = {
    "temperature": frozenset(("°C", "°F", "K")), "humidity": frozenset("%"), "moisture": frozenset("%"), "battery": frozenset("%"),
    "pressure": frozenset(("Pa", "hPa", "kPa", "bar", "cbar", "mbar", "mmHg", "inHg", "psi")), "power": frozenset(("W", "kW")),
    "energy": frozenset(("Wh", "kWh", "MWh")), "voltage": frozenset(("V", "mV")), "current": frozenset(("A", "mA")),
    "frequency": frozenset(("Hz", "kHz", "MHz", "GHz")), "illuminance": frozenset(("lx",)), "carbon_dioxide": frozenset(("ppm",)),
    "volume_flow_rate": frozenset(("m³/h", "L/min")), "speed": frozenset(("m/s", "km/h")),
    "duration": frozenset(("d", "h", "min", "s", "ms")),
}
OF_BINARY = frozenset((
    "battery", "cold", "connectivity", "door", "garage_door", "gas", "heat", "light", "lock", "moisture", "motion", "moving", "occupancy",
    "opening", "plug", "power", "presence", "problem", "running", "safety", "smoke", "sound", "tamper", "vibration", "window"))
OF_SWITCH = frozenset(("outlet", "switch"))


def escaped(name: str) -> str:
    """A name in the characters of a discovery topic; no two have one."""
    return name.replace("_", "X_").replace(".", "_")


def component_of(point: Point) -> str:
    """What a point is for Home Assistant. A number wants its least below its greatest value."""
    if point.kind == "binary":
        return "switch" if point.settable else "binary_sensor"
    if not point.settable or point.least == point.most:
        return "sensor"
    return "number" if point.kind == "analog" else "select"


def classes_of(point: Point) -> FrozenSet[str]:
    """The classes that a point may have."""
    if point.kind == "analog":
        return frozenset(one for one, units in OF_UNITS.items() if unit_of(point) in units)
    if point.kind == "binary":
        return OF_SWITCH if point.settable else OF_BINARY
    return frozenset()


def device_of(topics: Topics, point: Optional[Point]) -> Dict[str, Any]:
    """The bridge's own device, or that of the points whose names begin alike up to the first dot, as on the operator's page."""
    group = point.name.partition(".")[0] if point and "." in point.name else ""
    if not group:
        return {"identifiers": [topics.node], "name": topics.base, "manufacturer": "bossd", "model": "bossd-mqtt", "sw_version": __version__}
    return {"identifiers": [f"{topics.node}_{escaped(group)}"], "name": f"{topics.base} {group}", "manufacturer": "bossd", "model": "points",
            "via_device": topics.node}


def common(topics: Topics, point: Optional[Point], key: str) -> Dict[str, Any]:
    """What each message has."""
    return {"unique_id": f"{topics.node}_{key}", "device": device_of(topics, point),
            "origin": {"name": "bossd-mqtt", "sw_version": __version__}, "qos": 1}


def bridge_found(topics: Topics) -> Tuple[str, str]:
    """The discovery of the bridge's own device. It goes out first, since the others name it in `via_device`."""
    told = {**common(topics, None, "server"), "name": "server", "state_topic": topics.server, "payload_on": ON, "payload_off": OFF,
            "device_class": "connectivity", "entity_category": "diagnostic", "availability": [{"topic": topics.availability}]}
    return f"{topics.discovery}/binary_sensor/{topics.node}/server/config", json.dumps(told, ensure_ascii=False)


def found(topics: Topics, point: Point) -> Tuple[str, str]:
    """The topic and the payload by which Home Assistant finds a point. Both are retained."""
    component = component_of(point)
    told: Dict[str, Any] = {
        **common(topics, point, f"point_{point.name}"),
        "name": point.note or point.name.partition(".")[2] or point.name,
        "state_topic": topics.of(point.name, "value"), "json_attributes_topic": topics.of(point.name, "state"),
        "availability": [{"topic": topics.availability}, {"topic": topics.server}], "availability_mode": "all",
    }
    if point.settable and component != "sensor":
        # What is shown is what the server answered: a value that is refused does not show, not even for a moment.
        told.update({"command_topic": topics.of(point.name, "set"), "optimistic": False, "retain": False})
    told.update({"analog": analog, "binary": binary, "multi": multi}[point.kind](point, component))
    return f"{topics.discovery}/{component}/{topics.node}/{escaped(point.name)}/config", json.dumps(told, ensure_ascii=False)


def analog(point: Point, component: str) -> Dict[str, Any]:
    """What is said of an analog point alone."""
    unit = unit_of(point)
    device_class = CLASSES.get(unit or "") if point.device_class is None else point.device_class
    told: Dict[str, Any] = {"unit_of_measurement": unit} if unit else {}
    if device_class:
        told["device_class"] = device_class
    if component == "number":
        told.update({"min": point.least / 1000, "max": point.most / 1000, "step": max(1, point.step) / 1000, "mode": "box"})
    return told


def binary(point: Point, component: str) -> Dict[str, Any]:
    """What is said of a binary point alone."""
    told = {"payload_on": "1", "payload_off": "0"}
    return {**told, "device_class": point.device_class} if point.device_class else told


def multi(point: Point, component: str) -> Dict[str, Any]:
    """What is said of a point of states alone."""
    names = list(point.states) or [str(state) for state in range(1, point.most + 1)]
    told: Dict[str, Any] = {"options": names}
    if component == "sensor":
        told["device_class"] = "enum"
    if point.states:
        shown = json.dumps(names, ensure_ascii=False)
        told["value_template"] = "{{ " + shown + "[value | int - 1] }}"
        if component == "select":
            told["command_template"] = "{{ " + shown + ".index(value) + 1 }}"
    return told
