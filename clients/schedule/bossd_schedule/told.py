"""What others are told: metrics for Prometheus, what is coming, and what systemd wants to know."""

import json
import os
import socket
from typing import Any, Dict, Iterator, List, Mapping, NamedTuple, Optional, Sequence, Tuple

from .keeping import Slot
from .reading import Play, Schedule
from .running import Running
from .week import Moment, coming

METRICS, COMING = "schedule.prom", "coming.json"
AHEAD = 8 * 86_400_000
Spans = Tuple[Tuple[Moment, Moment, int, str], ...]


class Strip(NamedTuple):
    """Points of a programme that are wanted alike, and when."""
    play: Play
    points: Tuple[str, ...]
    spans: Spans


def strips(plays: Sequence[Play], start: Moment, end: Moment) -> Iterator[Strip]:
    """What each programme will want from a moment to another one; points with the same spans together."""
    for play in plays:
        spans: Dict[str, List[Tuple[Moment, Moment, int, str]]] = {point: [] for point in play.points}
        for point, first, last, want in coming(play.programme, play.points, start, end):
            if want is not None:
                spans[point].append((first, last, want.value, want.why))
        alike: Dict[Spans, List[str]] = {}
        for point, found in spans.items():
            alike.setdefault(tuple(found), []).append(point)
        for key, points in alike.items():
            yield Strip(play, tuple(points), key)


class Reloads(NamedTuple):
    """When the file was read last, and why it was refused last, if it was."""
    at: Moment
    sentence: Optional[str]


def coming_told(running: Running, reloads: Reloads, schedule: Schedule, moment: Moment) -> Dict[str, Any]:
    """What `coming.json` has."""
    found = [{"points": list(strip.points), "priority": strip.play.programme.priority, "programme": strip.play.programme.name,
              "spans": [list(span) for span in strip.spans]} for strip in strips(schedule.plays, moment, moment + AHEAD)]
    yielded = [{"point": slot[0], "priority": slot[1], "by": by, "since": since} for slot, by, since in taken(running)]
    refused = [{"point": slot[0], "priority": slot[1]} for slot in list(running.keeper.refused)]
    return {"process": schedule.process, "zone": schedule.zone.key, "written": moment, "until": running.next_change(), "file": schedule.path,
            "reloaded": reloads.at, "sentence": reloads.sentence, "coming": found, "yielded": yielded, "refused": refused}


def taken(running: Running) -> List[Tuple[Slot, str, Moment]]:
    """The slots that were left to others, to whom and since when."""
    return [(slot, *running.taken_by.get(slot, ("", 0))) for slot in list(running.keeper.yielded)]


# ---- metrics

def escaped(text: str) -> str:
    return text.replace("\\", "\\\\").replace('"', '\\"').replace("\n", "\\n")


def family(name: str, kind: str, what: str, values: Mapping[str, float]) -> Iterator[str]:
    """The lines of a family, by labels."""
    yield f"# HELP bossd_schedule_{name} {what}"
    yield f"# TYPE bossd_schedule_{name} {kind}"
    for labels, value in values.items():
        yield f"bossd_schedule_{name}{'{' + labels + '}' if labels else ''} {value:g}" if value < 1e6 else (
            f"bossd_schedule_{name}{'{' + labels + '}' if labels else ''} {value:.3f}")


def metrics(running: Running, reloads: Reloads) -> str:
    """What Prometheus is told, as text."""
    return "\n".join([*slots_told(running), *times_told(running, reloads), *requests_told(running)]) + "\n"


def slots_told(running: Running) -> Iterator[str]:
    keeper = running.keeper
    unset = sum(1 for slot, (_, wish) in running.wishes.items() if slot not in keeper.yielded and slot not in keeper.refused
                and (slot not in keeper.held or keeper.held[slot].wish != wish))
    counts = {"held": len(keeper.held), "yielded": len(keeper.yielded), "refused": len(keeper.refused), "unset": unset}
    yield from family("slots", "gauge", "Slots that are held, left to others, refused, and wanted and not yet set.",
                      {f'state="{state}"': float(count) for state, count in counts.items()})


def times_told(running: Running, reloads: Reloads) -> Iterator[str]:
    counts = running.counts
    yield from family("up", "gauge", "1 where all that is wanted was made, else 0.", {"": float(running.is_up)})
    yield from family("next_change_timestamp_seconds", "gauge", "When something else may be wanted next.", {"": running.next_change() / 1000})
    yield from family("edges_total", "counter", "Moments at which something else was wanted, and made.", {"": float(counts.edges)})
    yield from family("edge_late_seconds", "gauge", "How long after its moment an edge was made.",
                      {'of="last"': counts.late / 1000, 'of="most"': counts.most_late / 1000})
    yield from family("reload_ok", "gauge", "1 where the file was taken when it was read last, else 0.", {"": float(reloads.sentence is None)})
    yield from family("reloaded_timestamp_seconds", "gauge", "When the file was read last.", {"": reloads.at / 1000})
    sources = {f'calendar="{escaped(one.path)}",zone="{one.zone.key}"': float(one.sentence is None) for one in running.schedule.sources.all.values()}
    yield from family("calendar_ok", "gauge", "1 where a calendar's file was taken when it changed last, else 0.", sources)
    if counts.margin is not None:
        yield from family("renewal_margin_seconds", "gauge", "The least time that a lease had left when it was renewed.", {"": counts.margin / 1000})


def requests_told(running: Running) -> Iterator[str]:
    found = {f'op="{op}",outcome="{outcome}"': float(count) for (op, outcome), count in sorted(running.counts.requests.items())}
    yield from family("requests_total", "counter", "Requests that change something, by what came of them.", found)


# ---- where it goes

def write(folder: str, name: str, text: str) -> None:
    """Puts a text into a file of a folder, whole or not at all. OSError."""
    path = os.path.join(folder, f".{name}.new")
    with os.fdopen(os.open(path, os.O_WRONLY | os.O_CREAT | os.O_TRUNC | os.O_CLOEXEC, 0o640), "w", encoding="utf-8") as file:
        file.write(text)
    os.replace(path, os.path.join(folder, name))


def write_coming(folder: str, told: Mapping[str, Any]) -> None:
    write(folder, COMING, json.dumps(told, separators=(",", ":")) + "\n")


def notify(state: str) -> None:
    """Tells systemd how it stands, where it runs under systemd."""
    address = os.environ.get("NOTIFY_SOCKET")
    if not address:
        return
    with socket.socket(socket.AF_UNIX, socket.SOCK_DGRAM | socket.SOCK_CLOEXEC) as link:
        try:
            link.sendto(state.encode(), "\0" + address[1:] if address.startswith("@") else address)
        except OSError:
            # Its watchdog finds out.
            pass
