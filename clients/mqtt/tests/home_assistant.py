"""What Home Assistant takes of a discovery message: its published fields, as far as they are used or come near, which component takes which,
and of what kind. Written from its documents and not from the bridge."""

import json
import re

TEXT, FLAG, NUMBER = str, bool, (int, float)
COMMON = {"availability": list, "availability_mode": TEXT, "availability_topic": TEXT, "device": dict, "enabled_by_default": FLAG,
          "encoding": TEXT, "entity_category": TEXT, "icon": TEXT, "json_attributes_topic": TEXT, "json_attributes_template": TEXT, "name": TEXT,
          "origin": dict, "payload_available": TEXT, "payload_not_available": TEXT, "qos": int, "unique_id": TEXT, "value_template": TEXT}
COMMANDED = {"command_topic": TEXT, "command_template": TEXT, "optimistic": FLAG, "retain": FLAG, "state_topic": TEXT}
FIELDS = {
    "number": ({"command_topic"}, {**COMMANDED, "device_class": TEXT, "min": NUMBER, "max": NUMBER, "mode": TEXT, "payload_reset": TEXT,
                                   "step": NUMBER, "unit_of_measurement": TEXT}),
    "switch": ({"command_topic"}, {**COMMANDED, "device_class": TEXT, "payload_on": TEXT, "payload_off": TEXT, "state_on": TEXT, "state_off": TEXT}),
    "select": ({"command_topic", "options"}, {**COMMANDED, "options": list}),
    "sensor": ({"state_topic"}, {"state_topic": TEXT, "device_class": TEXT, "expire_after": int, "force_update": FLAG, "options": list,
                                 "state_class": TEXT, "suggested_display_precision": int, "unit_of_measurement": TEXT}),
    "binary_sensor": ({"state_topic"}, {"state_topic": TEXT, "device_class": TEXT, "expire_after": int, "force_update": FLAG, "off_delay": int,
                                        "payload_on": TEXT, "payload_off": TEXT}),
}
DEVICE = {"configuration_url", "connections", "hw_version", "identifiers", "manufacturer", "model", "model_id", "name", "serial_number",
          "suggested_area", "sw_version", "via_device"}
AVAILABILITY = {"topic", "payload_available", "payload_not_available", "value_template"}
# Classes of numbers and sensors, with the units that each takes.
UNITS = {
    "temperature": {"°C", "°F", "K"}, "humidity": {"%"}, "moisture": {"%"}, "battery": {"%"},
    "pressure": {"Pa", "kPa", "hPa", "bar", "cbar", "mbar", "mmHg", "inHg", "psi"}, "power": {"W", "kW"}, "energy": {"Wh", "kWh", "MWh"},
    "voltage": {"V", "mV"}, "current": {"A", "mA"}, "frequency": {"Hz", "kHz", "MHz", "GHz"}, "illuminance": {"lx"}, "carbon_dioxide": {"ppm"},
    "volume_flow_rate": {"m³/h", "ft³/min", "L/min", "gal/min"}, "speed": {"m/s", "km/h", "mph", "kn", "ft/s", "in/d", "in/h", "mm/d"},
    "duration": {"d", "h", "min", "s", "ms"},
}
OF_BINARY = {"battery", "battery_charging", "carbon_monoxide", "cold", "connectivity", "door", "garage_door", "gas", "heat", "light", "lock",
             "moisture", "motion", "moving", "occupancy", "opening", "plug", "power", "presence", "problem", "running", "safety", "smoke",
             "sound", "tamper", "update", "vibration", "window"}
CLASSES = {"binary_sensor": OF_BINARY, "switch": {"outlet", "switch"}, "number": set(UNITS), "sensor": {*UNITS, "enum"}}
TOPIC = re.compile(r"([A-Za-z0-9_/-]+)/([a-z_]+)/([a-zA-Z0-9_-]+)/([a-zA-Z0-9_-]+)/config")


def sentences(topic, payload):
    """What is wrong with a message."""
    match = TOPIC.fullmatch(topic)
    if not match or match[2] not in FIELDS:
        return [f"topic {topic}"]
    told, component = json.loads(payload), match[2]
    return fields(component, told) + parts(told) or meaning(component, told)


def fields(component, told):
    needed, known = FIELDS[component]
    known = {**COMMON, **known}
    wrong = [f"{key} is missing" for key in needed | {"unique_id"} if key not in told]
    for key, value in told.items():
        if key not in known:
            wrong.append(f"{key} is no field of {component}")
        elif not isinstance(value, known[key]) or (isinstance(value, bool) and known[key] is not FLAG):
            wrong.append(f"{key}: {value!r}")
    return wrong


def parts(told):
    device, wrong = told.get("device", {}), []
    wrong += [f"device.{key}" for key in device if key not in DEVICE]
    if not device.get("identifiers") and not device.get("connections"):
        wrong.append("device has neither identifiers nor connections")
    if "name" not in told.get("origin", {"name": 1}):
        wrong.append("origin.name")
    if "availability" in told and "availability_topic" in told:
        wrong.append("availability and availability_topic")
    wrong += [f"availability {one}" for one in told.get("availability", []) if not set(one) <= AVAILABILITY or "topic" not in one]
    if told.get("availability_mode", "all") not in ("all", "any", "latest"):
        wrong.append("availability_mode")
    if told.get("qos", 0) not in (0, 1, 2):
        wrong.append("qos")
    if told.get("entity_category", "diagnostic") not in ("config", "diagnostic"):
        wrong.append("entity_category")
    return wrong + [f"wildcard in {key}" for key, value in told.items() if key.endswith("_topic") and re.search(r"[+#\0]", value)]


def meaning(component, told):
    wrong, unit, device_class = [], told.get("unit_of_measurement"), told.get("device_class")
    if component == "number":
        low, high, step = told.get("min", 1), told.get("max", 100), told.get("step", 1)
        wrong += ["min is not below max"] * (low >= high) + ["step is below 0.001"] * (step < 0.001)
        wrong += ["mode"] * (told.get("mode", "auto") not in ("auto", "box", "slider"))
    if device_class is not None and device_class not in CLASSES.get(component, ()):
        wrong.append(f"{device_class} is no class of {component}")
    if device_class in UNITS and component in ("number", "sensor") and unit not in UNITS[device_class]:
        wrong.append(f"{unit} is no unit of {device_class}")
    if device_class == "enum":
        wrong += ["an enum with a unit, or without options"] * ("unit_of_measurement" in told or "options" not in told)
    if "options" in told:
        wrong += ["options"] * (not told["options"] or len(set(told["options"])) != len(told["options"]))
        wrong += ["options of a sensor that is no enum"] * (component == "sensor" and device_class != "enum")
    return wrong
