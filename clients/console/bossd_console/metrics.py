"""What Prometheus is told."""

from collections import Counter
from typing import Callable, Dict, Iterable, Iterator

from prometheus_client import CollectorRegistry, ProcessCollector
from prometheus_client.core import CounterMetricFamily, GaugeMetricFamily, Metric
from prometheus_client.registry import Collector

from .answering import Answering
from .catalogue import level, now
from .looking import Looking
from .picture import Picture

MARKS = ("settled", "pending", "failed")
BASES = ("lease", "pending", "default")
CAUSES = ("expired", "cancelled", "died", "fault", "superseded")
PRIORITIES = [priority for priority in range(1, 17) if priority != 6]


def gauges(name: str, what: str, label: str, counts: Dict[str, float]) -> Metric:
    """A gauge for each value of a label."""
    family = GaugeMetricFamily(name, what, labels=[label])
    for value, count in counts.items():
        family.add_metric([value], count)
    return family


def each(found: Iterable[str], values: Iterable[str]) -> Dict[str, float]:
    """How often each of these values was found."""
    counts = Counter(found)
    return {value: counts[value] for value in values}


class Standing(Collector):
    """How everything stands. What points have is left out while the server does not answer."""

    def __init__(self, picture: Picture, answering: Answering, looking: Looking) -> None:
        self.picture, self.answering, self.looking = picture, answering, looking

    def collect(self) -> Iterator[Metric]:
        """All families."""
        up = self.answering.state.state == "up"
        yield GaugeMetricFamily("bossd_up", "1 where the server answers, else 0.", value=float(up))
        yield from self._looks()
        yield from self._clock()
        yield from self._notices()
        if up:
            yield from self._points()
            yield from self._slots()
            yield from self._waiting()

    def _looks(self) -> Iterator[Metric]:
        yield GaugeMetricFamily("bossd_look_seconds", "How long the last look at all points took.", value=self.looking.seconds)
        yield GaugeMetricFamily("bossd_answer_seconds", "How long the first request of the last look took.", value=self.looking.first)
        yield CounterMetricFamily("bossd_looks", "Whole looks at all points.", value=self.looking.rounds)

    def _clock(self) -> Iterator[Metric]:
        reached, seen = self.picture.history.reached(), self.picture.clock.seen
        if self.picture.journal is not None and reached.files:
            yield CounterMetricFamily("bossd_journal_events", "Events that the journal had.", value=reached.events)
            yield GaugeMetricFamily("bossd_journal_timestamp_seconds", "The server's moment of the last of them.", value=reached.moment / 1000)
        if seen is not None:
            yield GaugeMetricFamily("bossd_clock_ahead_seconds", "By how much the server's clock was ahead of this machine's, at the last event "
                                    "that was read as it came.", value=seen.ahead / 1000)

    def _notices(self) -> Iterator[Metric]:
        yield CounterMetricFamily(
            "bossd_faults", "Notices that a device refused the value of a lease in force.", value=self.picture.faults)
        family = CounterMetricFamily("bossd_leases_ended", "Notices that a lease ended, by cause.", labels=["cause"])
        for cause in CAUSES:
            family.add_metric([cause], self.picture.ended[cause])
        yield family
        yield GaugeMetricFamily("bossd_processes", "Control processes that were met.", value=len(self.picture.processes))

    def _points(self) -> Iterator[Metric]:
        readings = self.picture.readings.values()
        marks, bases = each((one.mark for one in readings), MARKS), each((one.basis for one in readings), BASES)
        yield gauges("bossd_points_by_mark", "Points, by how far their devices have come.", "mark", marks)
        yield gauges(
            "bossd_points_by_basis", "Points, by what decides them: a lease, a reversion under way (pending), the default.", "basis", bases)
        yield GaugeMetricFamily(
            "bossd_points_unknown", "Points of the catalogue that the server does not have.", value=len(self.picture.foreign))

    def _slots(self) -> Iterator[Metric]:
        leases: Counter[int] = Counter()
        reversions: Counter[int] = Counter()
        for slots in self.picture.slots.values():
            for priority, slot in slots.slots.items():
                (leases if slot.until is not None else reversions)[priority] += 1
        for name, what, counts in [("bossd_leases", "Leases alive", leases), ("bossd_reversions", "Reversions under way", reversions)]:
            family = GaugeMetricFamily(name, f"{what}, by priority.", labels=["priority", "level"])
            for priority in PRIORITIES:
                family.add_metric([str(priority), level(priority)], counts[priority])
            yield family

    def _waiting(self) -> Iterator[Metric]:
        family = GaugeMetricFamily("bossd_point_pending_seconds", "For how long the device of a point has not answered.", labels=["point"])
        moment = now()
        for point, since in self.picture.waiting.items():
            family.add_metric([point], max(0, moment - since) / 1000)
        yield family
        yield from self._devices(moment)
        longest = max((moment - since for since in self.picture.waiting.values()), default=0)
        yield GaugeMetricFamily("bossd_pending_seconds", "The longest time that a device has not answered.", value=max(0, longest) / 1000)


    def _devices(self, moment: int) -> Iterator[Metric]:
        took = GaugeMetricFamily("bossd_point_took", "The value that the device of a point took last, where it is to have another one.",
                                 labels=["point"])
        held = GaugeMetricFamily("bossd_point_minimum_seconds", "For how long a minimum time keeps the device of a point yet.", labels=["point"])
        for point, reading in self.picture.readings.items():
            row = self.picture.row(point) if reading.took is not None else None
            if row is not None and row.took is not None:
                took.add_metric([point], row.took)
            if row is not None and row.held_until is not None and row.held_until > moment:
                held.add_metric([point], (row.held_until - moment) / 1000)
        yield took
        yield held


def registry_of(picture: Picture, answering: Answering, looking: Looking) -> CollectorRegistry:
    """What is scraped: how everything stands, and what this process itself takes."""
    registry = CollectorRegistry()
    registry.register(Standing(picture, answering, looking))
    make: Callable[..., object] = ProcessCollector
    make(namespace="bossd_console", registry=registry)
    return registry
