"""Carries a building's `bossd` to an MQTT broker, and changes from there.

`docs/MQTT.md` describes it. The modules: `settings` reads the bridge's own file; `topics` and `discovery` say what a point is in MQTT;
`outbox` keeps what has to go out, and `link` empties it over paho; `looking` reads the server and `journal` its journal; `commands` takes
what comes, `keeping` is what is held for it, and `holding` asks the server for that; `bridge` joins them, and `metrics` counts."""

__version__ = "0.1.0"
