"""Sets the wall clock that a server sees, forwards and back, stops the server, and starts it again, while points are held.

A day of troubles with the clock, played in some minutes: the wall clock is an hour and ten years ahead and behind, for good and for a
second and a half, and stands before 1970; the machine sleeps, its host pauses it, and the server is killed and started again. In each scene a
lease holds a damper for some seconds, with a way back of one step, and another one starts a pump, which a minimum time then keeps on. `bossctl field`
is their controller, and notes when which value comes. By the clock of this tool, which nobody sets, each value has to come within a
second of its time, and no other value at all.

    tools/clock [NAME ..]

NAME is a part of a scene's name: those alone are played. It needs the program built (./bossd, or its path in BOSSD) and a C compiler (Debian's gcc), and takes
two minutes. This machine's clock is left alone: a library in front of the C library shows the server another one. On a machine with much
other work values come later: PATIENCE in the environment is how much later they may, in seconds (1)."""

import os
import signal
import struct
import subprocess
import sys
import tempfile
import time
from collections.abc import Callable
from functools import partial
from typing import NamedTuple, Self

import bossd
from outside import program
from outside.cases import Case, all_hold, heed_help, see
from outside.night import Stand

# The system's calls, but that the wall clock, and those that count from the boot, are so many milliseconds ahead as a file says.
SHOWN = """
#define _GNU_SOURCE
#include <fcntl.h>
#include <stdlib.h>
#include <sys/mman.h>
#include <sys/syscall.h>
#include <time.h>
#include <unistd.h>
int clock_gettime(clockid_t clock, struct timespec *shown) {
    static volatile long *ahead;
    if (!ahead) ahead = mmap(0, 16, PROT_READ, MAP_SHARED, open(getenv("AHEAD"), O_RDONLY), 0);
    int failed = syscall(SYS_clock_gettime, clock, shown);
    int is_steady = clock == CLOCK_MONOTONIC || clock == CLOCK_BOOTTIME;
    long more = failed ? 0 : clock == CLOCK_REALTIME ? ahead[0] : is_steady ? ahead[1] : 0;
    long nanoseconds = shown->tv_nsec + more % 1000 * 1000000;
    long carried = nanoseconds < 0 ? -1 : nanoseconds / 1000000000;
    shown->tv_sec += more / 1000 + carried;
    shown->tv_nsec = nanoseconds - carried * 1000000000;
    return failed;
}
"""
HOUR, YEAR = 3_600.0, 365 * 86_400.0
# By how much a value may come later than it has to, in seconds, and by how much sooner; and for what part of a time it may be longer or shorter,
# as a clock that is wrong is come to by 1 ms in 100.
PATIENCE, EARLY, DRAWN = float(os.environ.get("PATIENCE", 1)), 0.05, 0.01
# How long the damper is held, how long its way back is, how long the pump is held, and its minimum time, in seconds.
LEASE, BACK, TAKEN, ON = 4.0, 2.0, 1.0, 3.0
# The values in percent, by which the damper's controller has them.
HELD, STEP, DEFAULT = 60, 40, 20
CATALOGUE = f"""drivers = ["air"]

[[point]]
name = "damper"
driver = "air"
kind = "analog"
min = 0
max = 100000
default = {DEFAULT * 1000}

[[point]]
name = "pump"
driver = "air"
kind = "binary"
default = 0
min_on = {int(ON * 1000)}
"""
PLAN = """[[driver]]
name = "air"
host = "192.0.2.1:502"

[[place]]
point = "damper"
unit = 1
register = 0
per = 1000

[[place]]
point = "pump"
unit = 1
coil = 0
"""
# A value, and after how many seconds it is to come.
Row = tuple[float, int]


def write(folder: str, name: str, text: str) -> str:
    """A file of this text."""
    path = os.path.join(folder, name)
    with open(path, "w", encoding="utf-8") as file:
        file.write(text)
    return path


class Clocks:
    """The clocks that a program is shown with this environment: this machine's, but so many seconds ahead."""

    def __init__(self, folder: str) -> None:
        self.wall, self.steady = 0.0, 0.0
        self._path, library = os.path.join(folder, "ahead"), os.path.join(folder, "shown.so")
        subprocess.run(["cc", "-shared", "-fPIC", "-O1", "-o", library, write(folder, "shown.c", SHOWN)], check=True)
        write(folder, "ahead", "")
        self.put()
        self.environment = {"LD_PRELOAD": library, "AHEAD": self._path}

    def put(self, wall: float | None = None, steady: float | None = None) -> None:
        """Shows the wall clock, or those that count from the boot, so far ahead from now on."""
        self.wall, self.steady = self.wall if wall is None else wall, self.steady if steady is None else steady
        with open(self._path, "r+b") as file:
            file.write(struct.pack("qq", round(self.wall * 1000), round(self.steady * 1000)))


class Scene(NamedTuple):
    """What happens while the points are held, by seconds from then on: so far ahead the wall clock is shown; from when to when the server is
    stopped, and whether its clocks count that; when it is killed, to be started again at once."""
    name: str
    shown: tuple[tuple[float, float], ...] = ()
    stopped: tuple[float, float] | None = None
    counts: bool = True
    killed: float | None = None


DAY = [
    Scene("a clock that is right"),
    Scene("an hour ahead, for good", ((0.5, HOUR),)),
    Scene("right again", ((0.5, 0.0),)),
    Scene("an hour behind, for good", ((0.5, -HOUR),)),
    Scene("an hour ahead and an hour behind, each half a second", tuple((0.5 * place, (-1) ** place * HOUR) for place in range(1, 8)) + ((4.0, 0.0),)),
    Scene("ten years ahead for a second and a half", ((0.5, 10 * YEAR), (2.0, 0.0))),
    Scene("killed and started once it is right again", ((0.2, 10 * YEAR), (1.7, 0.0)), killed=2.0),
    Scene("ten years ahead, for good", ((0.5, 10 * YEAR),)),
    Scene("from ten years ahead to ten years behind", ((0.5, -10 * YEAR),)),
    Scene("before 1970, and right again", ((0.5, -100 * YEAR), (5.0, 0.0))),
    Scene("asleep within the lease", stopped=(1.0, 3.5)),
    Scene("asleep past its end", stopped=(1.0, 5.0)),
    Scene("asleep past all, and an hour ahead as it wakes", ((7.5, HOUR),), stopped=(1.0, 8.0)),
    Scene("right again, and paused by its host", ((0.2, 0.0),), stopped=(1.0, 3.0), counts=False),
]


class Day:
    """The server with its clocks, its controller, and who holds the points. It begins once each point was written its default."""

    def __init__(self, folder: str) -> None:
        self.clocks, catalogue = Clocks(folder), write(folder, "catalogue.toml", CATALOGUE)
        self.stand = Stand(folder, catalogue, write(folder, "plan.toml", PLAN))
        self.server = program.Server(catalogue, os.path.join(folder, "journal"), plan=self.stand.plan)
        self._errors = write(folder, "errors", "")
        # From when to when nothing could be written, by this tool's clock.
        self.away: tuple[float, float] | None = None

    def __enter__(self) -> Self:
        self.stand.__enter__()
        try:
            self.start()
            see(program.eventually(lambda: len(self.written("damper")) * len(self.written("pump")), program.PATIENCE), "not each point is written at the start")
            self.client = bossd.Client(self.server.address, "day")
            return self
        except BaseException:
            self.__exit__()
            raise

    def __exit__(self, *_: object) -> None:
        self.server.stop()
        self.stand.__exit__()

    def start(self) -> None:
        with open(self._errors, "a", encoding="utf-8") as errors:
            self.server.start(stderr=errors, env={**os.environ, **program.SETTINGS, **self.clocks.environment})

    def said(self) -> str:
        """What the server said so far."""
        with open(self._errors, encoding="utf-8") as errors:
            return errors.read()

    def written(self, point: str) -> list[Row]:
        """When a point was written so far, and its value, in percent where it is the damper."""
        taken = [it for it in list(self.stand.events) if it.get("came") == "taken" and it["points"] == [point]]
        return [(it["seen"], int(it["request"][6:], 16) // (1 if point == "damper" else 0xff00)) for it in taken]

    def try_lines(self, _: str) -> str:
        """The server says where its moments are a minute or more away from the wall clock."""
        lines = ["ms ahead of the moments", "ms behind the moments", "the clock is within 10 s"]
        for line in lines:
            see(line in self.said(), f"no line with {line!r}: {self.said()}")
        return ", ".join(lines)

    # ---- a scene

    def play_in(self, scene: Scene, _: str) -> str:
        """Holds the points meanwhile. Wrong where a value comes too late, too soon, or is another one."""
        before = {point: len(self.written(point)) for point in ("damper", "pump")}
        writes = [bossd.write("damper", HELD * 1000, lease=round(LEASE * 1000), revert=[[STEP * 1000, round(BACK * 1000)]])]
        # A restart forgets a minimum time, as tools/times shows.
        has_pump, self.away = scene.killed is None, None
        writes += [bossd.write("pump", 1, lease=round(TAKEN * 1000))] * has_pump
        began = time.monotonic()
        self.client.submit(writes, "keep")
        held = time.monotonic()
        for after, do in self.doings(scene):
            time.sleep(max(0.0, held + after - time.monotonic()))
            do()
        wanted = {"damper": [(0.0, HELD), (LEASE, STEP), (LEASE + BACK, DEFAULT)], "pump": [(0.0, 1), (ON, 0)] * has_pump}
        rows = {point: self.due(scene, held, its) for point, its in wanted.items()}
        self.await_all(held, rows, before)
        late = [one for point in rows for one in self.lateness(point, scene, began, held, rows[point], self.written(point)[before[point]:])]
        return f"{len(late)} values, the latest {max(late):.2f} s after its time"

    def doings(self, scene: Scene) -> list[tuple[float, Callable[[], None]]]:
        """What is done in a scene, and when."""
        doings: list[tuple[float, Callable[[], None]]] = [(after, partial(self.clocks.put, ahead)) for after, ahead in scene.shown]
        if scene.stopped:
            doings += [(scene.stopped[0], self.stop), (scene.stopped[1], partial(self.go_on, scene.counts))]
        if scene.killed is not None:
            doings.append((scene.killed, self.restart))
        return sorted(doings, key=lambda one: one[0])

    def stop(self) -> None:
        self.server.process.send_signal(signal.SIGSTOP)
        self.away = time.monotonic(), time.monotonic()

    def go_on(self, counts: bool) -> None:
        """Wakes the server; its clocks have stood still meanwhile, or not."""
        assert self.away is not None
        self.away = self.away[0], time.monotonic()
        if not counts:
            self.clocks.put(steady=self.clocks.steady - (self.away[1] - self.away[0]))
        self.server.process.send_signal(signal.SIGCONT)

    def restart(self) -> None:
        began = time.monotonic()
        self.server.kill()
        self.start()
        self.away = began, time.monotonic()

    # ---- what has to come of it

    def due(self, scene: Scene, held: float, rows: list[Row]) -> list[Row]:
        """When these are to come, since nothing could while the server was away: of what was due then the last value alone, as it is back. A clock
        that stood still meanwhile has all after it come later by as much."""
        if self.away is None:
            return rows
        start, end = self.away[0] - held, self.away[1] - held
        moved = [(after if after < start else max(after, end) if scene.counts else after + end - start, value) for after, value in rows]
        return [row for row, after in zip(moved, [*[after for after, _ in moved[1:]], float("inf")]) if row[0] < after]

    def await_all(self, held: float, rows: dict[str, list[Row]], before: dict[str, int]) -> None:
        """Waits until all has come that is to come, and a little longer."""
        last = max(after for its in rows.values() for after, _ in its)
        until = held + last * (1 + DRAWN) + PATIENCE
        program.eventually(lambda: all(len(self.written(point)) >= before[point] + len(its) for point, its in rows.items()), until - time.monotonic())
        time.sleep(max(0.5, held + last + 0.5 - time.monotonic()))

    def lateness(self, point: str, scene: Scene, began: float, held: float, rows: list[Row], came: list[Row]) -> list[float]:
        """By how much each value came later than it was due. Wrong where one is too late, too soon, or another one."""
        if scene.killed is not None:
            # A start writes each device its point's value once more.
            values = [{"damper": DEFAULT, "pump": 0}[point], *[value for _, value in came]]
            came = [row for row, last in zip(came, values) if row[1] != last]
        see([value for _, value in came] == [value for _, value in rows], f"the {point} was written {[value for _, value in came]}, not {[value for _, value in rows]}")
        for (after, value), (at, _) in zip(rows, came):
            see(at >= began + after * (1 - DRAWN) - EARLY, f"the {point} has {value} after {at - began:.2f} s, and was to have it after {after:.2f}")
            see(at <= held + after * (1 + DRAWN) + PATIENCE, f"the {point} has {value} after {at - held:.2f} s, and was to have it after {after:.2f}")
        return [at - held - after for (after, _), (at, _) in zip(rows, came)]


def main() -> None:
    heed_help(__doc__)
    scenes = [scene for scene in DAY if not sys.argv[1:] or any(name in scene.name for name in sys.argv[1:])]
    if not scenes:
        sys.exit("clock: the scenes are " + ", ".join(scene.name for scene in DAY))
    program.need_program()
    with tempfile.TemporaryDirectory() as folder, Day(folder) as day:
        cases: list[Case] = [(scene.name, partial(day.play_in, scene)) for scene in scenes]
        if scenes == DAY:
            cases.append(("what it says", day.try_lines))
        is_fine = all_hold(cases, bossd.Refused)
    sys.exit(None if is_fine else "clock: not all is as it has to be")


if __name__ == "__main__":
    main()
