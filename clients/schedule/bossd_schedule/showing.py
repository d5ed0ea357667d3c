"""Shows what is wanted: as a table, as JSON, and as a picture."""

import argparse
import json
from datetime import date, datetime, time, timedelta
from html import escape
from typing import Any, Dict, Iterator, List, Sequence, Tuple
from zoneinfo import ZoneInfo

from .catalogue import Cell, Failure, Point, now, table
from .days import DAY
from .reading import Play, Schedule, fits
from .told import Spans, Strip, strips
from .week import EPOCH, Moment, begins, decide, local

A_WEEK = 7


def show(schedule: Schedule, given: argparse.Namespace) -> int:
    """Shows what the words ask for. Failure."""
    plays = [narrowed(play, given.point) for play in schedule.plays]
    plays = [play for play in plays if play.points]
    if not plays:
        raise Failure(f"{schedule.path} has no point {given.point}")
    moment = now()
    if given.show == "now":
        lines = [json.dumps(now_told(schedule, plays, moment))] if given.json else now_table(schedule, plays, moment)
    else:
        days = days_shown(given.show, moment, schedule.zone)
        found = list(strips_of(plays, days))
        lines = [json.dumps(strips_told(schedule, found, days))] if given.json else days_table(schedule, found, days)
        if given.picture:
            put(given.picture, picture(schedule, found, days))
    print("\n".join(lines))
    return 0


def put(path: str, text: str) -> None:
    try:
        with open(path, "w", encoding="utf-8") as file:
            file.write(text)
    except OSError as error:
        raise Failure(f"{path}: {error.strerror}") from error


def narrowed(play: Play, pattern: str) -> Play:
    """A programme with the points alone that are asked for."""
    points = tuple(point for point in play.points if pattern is None or fits(pattern, point))
    return Play(play.programme, points, play.lease, play.hold, play.back, play.path)


def days_shown(asked: str, moment: Moment, zone: ZoneInfo) -> List[date]:
    """The days that are asked for. Failure."""
    today = local(moment, zone).date()
    if asked in ("day", "week"):
        return [today + number * DAY for number in range(1 if asked == "day" else A_WEEK)]
    try:
        day = datetime.strptime(asked, "%Y-%m-%d").date()
    except ValueError:
        raise Failure(f"--show {asked}: there is no such day") from None
    if not 1970 < day.year < 9998:
        raise Failure(f"--show {asked}: the year is 1971 to 9997")
    return [day]


def edges_of(days: Sequence[date], zone: ZoneInfo) -> Tuple[Moment, Moment]:
    return begins(days[0], time(0), zone), begins(days[-1] + DAY, time(0), zone)


def strips_of(plays: Sequence[Play], days: Sequence[date]) -> Iterator[Strip]:
    """The strips of these days; each programme's days are those of its own zone."""
    for play in plays:
        yield from strips([play], *edges_of(days, play.programme.zone))


def instant(moment: Moment, zone: ZoneInfo) -> datetime:
    return (EPOCH + timedelta(milliseconds=moment)).astimezone(zone)


# ---- tables and JSON

def named(points: Sequence[str]) -> str:
    """A few points by name, many by how many they are."""
    return ", ".join(points) if len(points) <= 3 else f"{points[0]}, {points[1]} and {len(points) - 2} more"


def now_table(schedule: Schedule, plays: Sequence[Play], moment: Moment) -> List[str]:
    rows = []
    for play in plays:
        decided = decide(play.programme, moment)
        until = instant(decided.until, play.programme.zone).strftime("%a %H:%M")
        for point in play.points:
            want = decided.wants.get(point)
            about = schedule.catalogue.points[point]
            rows.append([Cell(point), Cell(str(play.programme.priority)), Cell(about.show(want.value) if want else "let go"), Cell(until),
                         Cell(want.why if want else play.programme.name)])
    return table(("POINT", "PRIORITY", "WANTED", "LOOKED AT AGAIN", "WHY"), rows, " rr ")


def now_told(schedule: Schedule, plays: Sequence[Play], moment: Moment) -> Dict[str, Any]:
    found = []
    for play in plays:
        decided = decide(play.programme, moment)
        for point in play.points:
            want = decided.wants.get(point)
            found.append({"point": point, "priority": play.programme.priority, "programme": play.programme.name, "until": decided.until,
                          "value": want.value if want else None, "why": want.why if want else None})
    return {"zone": schedule.zone.key, "at": moment, "wanted": found}


def strips_told(schedule: Schedule, found: Sequence[Strip], days: Sequence[date]) -> Dict[str, Any]:
    return {"zone": schedule.zone.key, "days": [str(day) for day in days], "strips": [
        {"programme": strip.play.programme.name, "priority": strip.play.programme.priority, "points": list(strip.points),
         "spans": [list(span) for span in strip.spans]} for strip in found]}


def days_table(schedule: Schedule, found: Sequence[Strip], days: Sequence[date]) -> List[str]:
    """A row for each strip and a column for each day; one day alone has its reasons too."""
    if len(days) == 1:
        return day_table(schedule, found, days[0])
    heads = ["PROGRAMME", "POINTS"] + [day.strftime("%a %m-%d").upper() for day in days]
    rows: List[List[Cell]] = []
    for strip in found:
        cells = [day_cells(schedule, strip, day) for day in days]
        for line in range(max(map(len, cells))):
            first = [strip.play.programme.name, named(strip.points)] if line == 0 else ["", ""]
            rows.append([Cell(text) for text in first] + [Cell(cell[line] if line < len(cell) else "") for cell in cells])
    return table(heads, rows)


def day_table(schedule: Schedule, found: Sequence[Strip], day: date) -> List[str]:
    rows = []
    for strip in found:
        about = schedule.catalogue.points[strip.points[0]]
        for place, (first, last, value, why) in enumerate(within(strip, day)):
            rows.append([Cell(strip.play.programme.name if place == 0 else ""), Cell(named(strip.points) if place == 0 else ""),
                         Cell(clock(first, strip.play.programme.zone, day)), Cell(clock(last, strip.play.programme.zone, day)),
                         Cell(about.show(value)), Cell(why)])
    heads = ("PROGRAMME", "POINTS", "FROM", "TO", "WANTED", "WHY")
    return table(heads, rows) if rows else [f"{day}: nothing is wanted"]


def within(strip: Strip, day: date) -> Spans:
    """What of a strip is on a day."""
    start, end = edges_of([day], strip.play.programme.zone)
    return tuple((max(first, start), min(last, end), value, why) for first, last, value, why in strip.spans if first < end and last > start)


def day_cells(schedule: Schedule, strip: Strip, day: date) -> List[str]:
    zone, about = strip.play.programme.zone, schedule.catalogue.points[strip.points[0]]
    return [f"{clock(first, zone, day)}-{clock(last, zone, day)} {about.number(value)}" for first, last, value, _ in within(strip, day)] or ["-"]


def clock(moment: Moment, zone: ZoneInfo, day: date) -> str:
    """The time of day; the end of the day is 24:00."""
    shown = instant(moment, zone)
    if shown.date() > day:
        return "24:00"
    return shown.strftime("%H:%M:%S" if shown.second else "%H:%M")


# ---- the picture

LEFT, WIDTH, RIGHT, TOP, HEIGHT, GAP, HEAD = 230, 960, 20, 34, 22, 8, 26
INK, PALE, GRID = "#1d2733", "#f3f5f7", "#c9d1d9"
# From the lowest value of a point to the highest; and those of states.
COOL, WARM = (214, 226, 240), (196, 78, 34)


def picture(schedule: Schedule, found: Sequence[Strip], days: Sequence[date]) -> str:
    """An SVG: for each day a strip of each programme's points, from midnight to midnight, the values by colour."""
    height = TOP + len(days) * (HEAD + len(found) * (HEIGHT + GAP)) + 12
    width = LEFT + WIDTH + RIGHT
    parts = [f'<svg xmlns="http://www.w3.org/2000/svg" width="{width}" height="{height}" viewBox="0 0 {width} {height}" '
             f'font-family="sans-serif" font-size="11" fill="{INK}">',
             f'<rect width="{width}" height="{height}" fill="white"/>',
             f'<text x="12" y="20" font-size="14" font-weight="bold">{escape(schedule.path)}: {days[0]}'
             f'{f" to {days[-1]}" if len(days) > 1 else ""}, {escape(schedule.zone.key)}</text>']
    y = TOP
    for day in days:
        parts.append(f'<text x="12" y="{y + 17}" font-weight="bold">{day.strftime("%A")} {day}</text>')
        parts += hours(day, schedule.zone, y, HEAD + len(found) * (HEIGHT + GAP) - GAP)
        y += HEAD
        for strip in found:
            parts += drawn(schedule, strip, day, y)
            y += HEIGHT + GAP
    return "\n".join(parts + ["</svg>", ""])


def hours(day: date, zone: ZoneInfo, y: int, height: int) -> Iterator[str]:
    """Lines at every third hour that a clock shows on the day."""
    start, end = edges_of([day], zone)
    for hour in range(0, 24, 3):
        x = LEFT + (begins(day, time(hour), zone) - start) * WIDTH / (end - start)
        yield f'<line x1="{x:.1f}" x2="{x:.1f}" y1="{y + 20}" y2="{y + height}" stroke="{GRID}"/>'
        yield f'<text x="{x:.1f}" y="{y + 16}" text-anchor="middle">{hour:02}:00</text>'


def drawn(schedule: Schedule, strip: Strip, day: date, y: int) -> Iterator[str]:
    zone, about = strip.play.programme.zone, schedule.catalogue.points[strip.points[0]]
    start, end = edges_of([day], zone)
    label = f"{strip.play.programme.name}: {named(strip.points)}"
    yield f'<text x="12" y="{y + 15}">{escape(label if len(label) < 40 else label[:38] + "..")}<title>{escape(", ".join(strip.points))}</title></text>'
    yield f'<rect x="{LEFT}" y="{y}" width="{WIDTH}" height="{HEIGHT}" fill="{PALE}"/>'
    for first, last, value, why in within(strip, day):
        x, wide = LEFT + (first - start) * WIDTH / (end - start), (last - first) * WIDTH / (end - start)
        fill, ink = colours(about, value)
        times = f"{clock(first, zone, day)} to {clock(last, zone, day)}"
        yield (f'<g><title>{escape(f"{about.show(value)}, {times}: {why}")}</title>'
               f'<rect x="{x:.1f}" y="{y}" width="{wide:.1f}" height="{HEIGHT}" fill="{fill}" stroke="white"/>')
        text = f"{about.show(value)}  {times.replace(' to ', '-')}"
        shown = text if wide > 7 * len(text) else about.number(value) if wide > 7 * len(about.number(value)) + 4 else ""
        yield f'<text x="{x + 4:.1f}" y="{y + 15}" fill="{ink}">{escape(shown)}</text></g>'


def colours(about: Point, value: int) -> Tuple[str, str]:
    """The colour of a value, and that of a text on it."""
    part = (value - about.least) / max(1, about.most - about.least)
    mixed = [round(low + (high - low) * part) for low, high in zip(COOL, WARM)]
    return "#" + "".join(f"{one:02x}" for one in mixed), "white" if part > 0.5 else INK
