"""What Prometheus is told, as a file that its node exporter reads."""

import os
from typing import Dict, Iterable, List, Mapping

BOUNDS = (0.005, 0.01, 0.025, 0.05, 0.1, 0.25, 0.5, 1.0, 2.5, 5.0, 10.0)


class Histogram:
    """How many took how long."""

    def __init__(self) -> None:
        self.counts = [0] * len(BOUNDS)
        self.sum, self.all = 0.0, 0

    def take(self, seconds: float) -> None:
        """Counts one."""
        self.sum, self.all = self.sum + seconds, self.all + 1
        for place, bound in enumerate(BOUNDS):
            self.counts[place] += seconds <= bound

    def lines(self, name: str) -> Iterable[str]:
        """Its samples."""
        for bound, count in zip(BOUNDS, self.counts):
            yield f'{name}_bucket{{le="{bound}"}} {count}'
        yield f'{name}_bucket{{le="+Inf"}} {self.all}'
        yield f"{name}_sum {self.sum}"
        yield f"{name}_count {self.all}"


def family(name: str, kind: str, what: str, samples: Iterable[str]) -> List[str]:
    """A family of samples with its heading."""
    return [f"# HELP {name} {what}", f"# TYPE {name} {kind}", *samples]


def labelled(name: str, label: str, values: Mapping[str, int]) -> List[str]:
    """A sample for each value of a label."""
    return [f'{name}{{{label}="{value}"}} {count}' for value, count in values.items()]


def text_of(plain: Dict[str, float], topics: Mapping[str, int], commands: Mapping[str, int], seconds: Histogram) -> str:
    """All families."""
    lines: List[str] = []
    for name, what in (
            ("bossd_mqtt_broker_up", "1 where the broker is connected, else 0."), ("bossd_mqtt_server_up", "1 where the server answers, else 0."),
            ("bossd_mqtt_held", "Points that are held for commands."), ("bossd_mqtt_look_seconds", "How long the last look at all points took.")):
        lines += family(name, "gauge", what, [f"{name} {plain[name]}"])
    for name, what in (("bossd_mqtt_connects_total", "Connections to the broker."), ("bossd_mqtt_published_total", "Messages that the broker has."),
                       ("bossd_mqtt_answers_lost_total", "Answers that were not sent, since too many were under way.")):
        lines += family(name, "counter", what, [f"{name} {plain[name]}"])
    lines += family("bossd_mqtt_topics", "gauge", "Topics that wait, and messages that are not acknowledged.", labelled("bossd_mqtt_topics", "state", topics))
    name = "bossd_mqtt_commands_total"
    lines += family(name, "counter", "Commands, by what became of them.", labelled(name, "outcome", commands))
    name = "bossd_mqtt_publish_seconds"
    lines += family(name, "histogram", "From a change being seen to the broker having it.", seconds.lines(name))
    return "\n".join(lines) + "\n"


def write(path: str, text: str) -> None:
    """Writes a file at once. OSError."""
    with open(path + ".new", "w", encoding="utf-8") as file:
        file.write(text)
    os.replace(path + ".new", path)
