"""Draws who held what in the slots of each point, from a script.

Draws who held what: for each point of a plant the leases and reversions in its slots over time, what ended them, the value in
force, and what its device was told.

    tools/timeline CATALOGUE SCRIPT PICTURE

SCRIPT is what `bossd script` reads, and PICTURE the SVG, PNG or PDF file to write. The story is that of the model in outside/model.py,
whose devices take every command. It needs matplotlib (Debian's python3-matplotlib)."""

import json
import sys
import tomllib
from collections.abc import Callable, Iterator, Sequence
from typing import Any

import matplotlib

matplotlib.use("Agg")
matplotlib.rcParams["svg.hashsalt"] = "bossd"
matplotlib.rcParams["svg.fonttype"] = "none"
from matplotlib import pyplot
from matplotlib.lines import Line2D
from matplotlib.patches import Patch
from matplotlib.ticker import FixedLocator, FuncFormatter, MaxNLocator, MultipleLocator

from outside.cases import heed_help
from outside.model import End, Lease, Machine, Notice, Point, Reversion

# What stood in a slot, its beginning and end, its values from moments on, and the mark at its end.
Held = tuple[Lease | Reversion, int, int, list[tuple[int, int]], str | None]

# How a mark looks, and what it says.
MARKS = {
    "expired": ("|", "the lease ran out"),
    "cancelled": ("x", "cancelled"),
    "died": ("X", "the process was lost"),
    "superseded": ("v", "superseded"),
    "cut": ("<", "a new lease cut the reversion"),
    "reverted": ("d", "the reversion is over"),
}


SECOND = 1000
MINUTE = 60 * SECOND
HOUR = 60 * MINUTE
# How high the room for a point's name is, beside a row of slots of 0.32.
NAME_HEIGHT = 0.2
# How far apart the moments may stand that the axis names.
PACES = [pace * unit for unit, paces in ((SECOND, (1, 2, 5, 10, 30)), (MINUTE, (1, 2, 5, 10, 30)), (HOUR, (1, 2, 3, 6, 12, 24, 168)))
         for pace in paces]


class Story(Machine):
    """A machine that keeps what stood in its slots, and what it told the devices and when."""

    def __init__(self, drivers: list[str], points: list[Point]) -> None:
        self.ended, self.played, self.writes, self.moment = list[Lease](), list[Reversion](), list[tuple[int, int, int]](), 0
        super().__init__(drivers, points)

    def end(self, lease: Lease, end: End) -> Notice:
        known = len(self.reversions)
        notice = super().end(lease, end)
        self.ended.append(lease)
        self.played += self.reversions[known:]
        return notice

    def answer(self, session: int, request: dict[str, Any], moment: int) -> None:
        self.moment = max(self.now, moment)
        super().answer(session, request, moment)

    def drain(self, n: int) -> None:
        told = len(self.lines)
        super().drain(n)
        for line in self.lines[told:]:
            _, _, name, value, _ = line.split()
            self.writes.append((n, self.names.index(name), int(value)))

    def held(self) -> Iterator[Held]:
        """All leases and reversions, each with its beginning, its end, its values from moments on, and the mark at its end."""
        for lease in self.ended + self.leases:
            end = lease.ended
            yield lease, lease.since, end.at if end else lease.until, [(lease.since, lease.value)], end.cause if end else None
        for reversion in self.played:
            starts = [reversion.start] + reversion.boundaries()
            values = [(start, value) for start, (value, _) in zip(starts, reversion.steps)]
            if reversion.cut is None:
                yield reversion, reversion.start, reversion.end(), values, "reverted"
            else:
                yield reversion, reversion.start, reversion.cut, values, "cut"


def plant_of(path: str) -> tuple[list[str], list[Point]]:
    with open(path, "rb") as file:
        table = tomllib.load(file)
    bounds: dict[str, Callable[[dict[str, Any]], tuple[int, int]]] = {
        "analog": lambda point: (point["min"], point["max"]),
        "binary": lambda point: (0, 1),
        "multi": lambda point: (1, point["states"]),
    }
    points = [Point(point["name"], point["driver"], point["kind"], *bounds[point["kind"]](point), point["default"])
              for point in table["point"]]
    return table["drivers"], points


def story_of(catalogue: str, script: str) -> Story:
    story = Story(*plant_of(catalogue))
    with open(script, encoding="utf-8") as file:
        for line in file:
            if line.strip():
                request = json.loads(line)
                story.answer(request.get("on", 1), request, request.get("at", 0))
    return story


def in_force(story: Story, point: int, last: int) -> tuple[list[int], list[int]]:
    """The moments at which the value of a point changes, and the values: the live lease of the highest priority, else the reversion
    of the highest priority, else the default."""
    held = [(isinstance(one, Reversion), one.priority, start, end, values)
            for one, start, end, values, _ in story.held() if one.point == point]
    moments = sorted({0, last} | {m for _, _, start, end, values in held for m in [start, end] + [at for at, _ in values] if m <= last})
    told = []
    for moment in moments:
        live = sorted((reverts, priority, [value for at, value in values if at <= moment][-1])
                      for reverts, priority, start, end, values in held if start <= moment < end)
        told.append(live[0][2] if live else story.points[point].default)
    return moments, told


def clock(milliseconds: float, _: object) -> str:
    seconds = int(milliseconds) // SECOND
    return f"{seconds // 3600:02}:{seconds // 60 % 60:02}" + (f":{seconds % 60:02}" if seconds % 60 else "")


def pace_of(length: int) -> int:
    return next((pace for pace in PACES if length <= 14 * pace), PACES[-1])


def levels_of(story: Story, point: int) -> list[int]:
    return sorted({one.priority for one, *_ in story.held() if one.point == point})


def slots_row(story: Story, point: int) -> list[tuple[int, int]]:
    levels = levels_of(story, point)
    return [(point, len(levels))] if levels else []


def draw_slots(axes: Any, story: Story, point: int, last: int, colours: Sequence[Any]) -> None:
    levels = levels_of(story, point)
    for one, start, end, values, mark in story.held():
        if one.point != point:
            continue
        reverts, place = isinstance(one, Reversion), levels.index(one.priority)
        for (begin, value), until in zip(values, [at for at, _ in values[1:]] + [end]):
            begin, until = min(begin, end), min(until, end, last)
            if begin >= until:
                continue
            axes.barh(place, until - begin, left=begin, height=0.7, color=colours[one.owner], alpha=0.35 if reverts else 0.85,
                      hatch="///" if reverts else None, edgecolor="white", linewidth=0.8)
            if until - begin > last / 18:
                axes.text((begin + until) / 2, place, str(value), ha="center", va="center", fontsize=7)
        if mark and end <= last:
            axes.plot(end, place, MARKS[mark][0], color="black", markersize=7, clip_on=False)
    axes.set_yticks(range(len(levels)), [str(level) for level in levels])
    axes.set_ylim(len(levels) - 0.5, -0.5)
    axes.set_ylabel("priority", fontsize=7)
    axes.tick_params(labelbottom=False, length=0, labelsize=8)


def draw_value(axes: Any, story: Story, point: int, last: int) -> None:
    moments, values = in_force(story, point, last)
    axes.step(moments, values, where="post", color="tab:red", linewidth=1.2)
    told = [(moment, value) for moment, place, value in story.writes if place == point]
    axes.plot([moment for moment, _ in told], [value for _, value in told], "o", color="black", markersize=3)
    axes.set_ylabel("value", fontsize=7)
    axes.yaxis.set_major_locator(MaxNLocator(3, integer=True) if len(set(values)) > 2 else FixedLocator(sorted(set(values))))
    axes.tick_params(labelbottom=False, labelsize=7)
    low, high = min(values), max(values)
    axes.set_ylim(low - 0.2 * (high - low or 1), high + 0.2 * (high - low or 1))


def legend(story: Story, colours: Sequence[Any]) -> list[Any]:
    named = [Patch(color=colours[place], label=name) for place, name in enumerate(story.processes)]
    shown = [Patch(facecolor="grey", alpha=0.35, hatch="///", edgecolor="white", label="reversion (its steps)"),
             Line2D([], [], color="tab:red", label="value in force"),
             Line2D([], [], color="black", marker="o", markersize=3, linestyle="", label="the device is told"),
             Line2D([], [], color="grey", linestyle=":", label="the last line")]
    used = {mark for *_, mark in story.held() if mark}
    marks = [Line2D([], [], color="black", marker=MARKS[mark][0], linestyle="", label=MARKS[mark][1]) for mark in MARKS if mark in used]
    return named + shown + marks


def draw(story: Story, picture: str) -> None:
    spoken = max(story.moment, story.now)
    points = range(len(story.points))
    first = min([start for _, start, *_ in story.held()] + [spoken])
    # What still stands at the last line is drawn to its end, but for at most an hour, or as long as the story took.
    last = max([spoken, first + SECOND] + [end for _, _, end, *_ in story.held()])
    last = min(last, spoken + max(spoken - first, HOUR))
    first = max(0, first - (last - first) // 40)
    colours = [pyplot.cm.tab10(place % 10) for place in range(max(1, len(story.processes)))]
    # A point in whose slots nothing ever stood has its value alone. In front of each point there is room for its name.
    rows = [row for point in points for row in [None] + slots_row(story, point) + [(point, 0)]]
    heights = [NAME_HEIGHT if row is None else 0.32 * row[1] if row[1] else 0.55 for row in rows]
    figure, axes = pyplot.subplots(len(rows), 1, sharex=True, squeeze=False, gridspec_kw={"height_ratios": heights, "hspace": 0.25},
                                   figsize=(12, 1.4 + 1.3 * sum(heights)))
    axes, named = [row[0] for row in axes], set()
    for one, row in zip(axes, rows):
        if row is None:
            one.axis("off")
            continue
        point, levels = row
        if levels:
            draw_slots(one, story, point, last, colours)
        else:
            draw_value(one, story, point, last)
        if point not in named:
            one.set_title(f"{story.names[point]}  (default {story.points[point].default})", loc="left", fontsize=9)
            named.add(point)
        one.axvline(spoken, color="grey", linestyle=":", linewidth=1)
        one.set_xlim(first, last + (last - first) // 80)
        one.grid(axis="x", alpha=0.3)
        one.spines[["top", "right"]].set_visible(False)
    axes[-1].xaxis.set_major_locator(MultipleLocator(pace_of(last - first)))
    axes[-1].xaxis.set_major_formatter(FuncFormatter(clock))
    axes[-1].tick_params(labelbottom=True)
    axes[-1].set_xlabel("time of the script, as hours and minutes", fontsize=8)
    figure.legend(handles=legend(story, colours), loc="lower center", ncol=5, fontsize=8, frameon=False)
    figure.subplots_adjust(left=0.08, right=0.98, top=1 - 0.05 / figure.get_figheight(), bottom=1.25 / figure.get_figheight())
    # No date and no names made by chance, so that the same story gives the same bytes.
    figure.savefig(picture, metadata={"Date": None} if picture.endswith(".svg") else None)


def main() -> None:
    heed_help(__doc__)
    if len(sys.argv) != 4:
        sys.exit(__doc__)
    draw(story_of(sys.argv[1], sys.argv[2]), sys.argv[3])


if __name__ == "__main__":
    main()
