"""A night at the stand-in of `bossctl field`: controllers that restart and come back with other values, devices that are turned by hand or
drift, ones with a watchdog, programs that want something else, at random and with short times. In the end every device has to have its
target, none may have been written more often than the plan says, and no watchdog may have fallen.

Which troubles a place can bear its plan says: `check` finds a device that has another value, `again` writes it before its watchdog falls. A
place without either is only given other targets."""

import json
import os
import queue
import random
import subprocess
import sys
import tempfile
import threading
import time
import tomllib
from collections import Counter
from typing import Any, NamedTuple, Optional

import bossd
from bossd.ctl import _forms, _show
from outside import CLIENT, program
from outside.cases import Wrong

DAY = 86_400_000
# In seconds: within how long a host that was silent is asked again, how long one that restarts is silent, and what a busy machine may take.
BACK, RESTART, SLACK = 60.0, 2.0, 12.0
# After how many of its intervals a watchdog falls: what was not answered in time is written again after five seconds.
PATIENCE = 10
# How long a device drifts, or is held by a hand at a higher level, in seconds.
DRIFTS = 2.5
HAND = 5
CATALOGUE = """\
drivers = ["boiler", "frost", "still"{more}]
""" + "".join(f'[[point]]\nname = "{name}"\ndriver = "{name.partition(".")[0]}"\n{kind}\n' for name, kind in [
    ("boiler.flow", 'kind = "analog"\nmin = 20000\nmax = 80000\ndefault = 35000'), ("boiler.limit", 'kind = "analog"\nmin = 0\nmax = 100000\ndefault = 50000'),
    ("boiler.pump", 'kind = "binary"\ndefault = 1'), ("boiler.mode", 'kind = "multi"\nstates = 3\ndefault = 2'),
    ("frost.setpoint", 'kind = "analog"\nmin = -20000\nmax = 90000\ndefault = 5000'), ("frost.enable", 'kind = "binary"\ndefault = 1'),
    ("still.lamp", 'kind = "binary"\ndefault = 0')])
OVER_BACNET = "".join(f'[[point]]\nname = "{name}"\ndriver = "roof"\n{kind}\n' for name, kind in [
    ("roof.valve", 'kind = "analog"\nmin = 0\nmax = 100000\ndefault = 20000'), ("roof.fan", 'kind = "binary"\ndefault = 1'),
    ("roof.box", 'kind = "analog"\nmin = 0\nmax = 100000\ndefault = 40000')])
PLAN = """\
[[driver]]
name = "boiler"
host = "192.0.2.1:502"
wait = 1000
check = 1000
[[driver]]
name = "frost"
host = "192.0.2.2:502"
wait = 1000
again = 1000
[[driver]]
name = "still"
host = "192.0.2.3:502"
""" + "".join(f'[[place]]\npoint = "{name}"\nunit = 1\n{where}\n' for name, where in [
    ("boiler.flow", 'register = 0\ntype = "f32"\nper = 1000'), ("boiler.limit", "register = 10\nper = 1000"), ("boiler.pump", "coil = 0"),
    ("boiler.mode", "register = 11"), ("frost.setpoint", 'register = 0\ntype = "i16"\nper = 100'), ("frost.enable", "coil = 1"), ("still.lamp", "coil = 0")])
ROOF = """\
[[driver]]
name = "roof"
speaks = "bacnet"
host = "192.0.2.4:47808"
wait = 1000
check = 1000
""" + "".join(f'[[place]]\npoint = "{name}"\nlevel = 10\n{where}\n' for name, where in [
    ("roof.valve", 'bacnet = "analog-output,3"\nper = 1000'), ("roof.fan", 'bacnet = "binary-value,1"'),
    ("roof.box", 'bacnet = "analog-value,2"\nper = 1000\nnetwork = 2001\nstation = 12')])


class Kept(NamedTuple):
    """A place of the plan: how often it is looked at and written once more, in milliseconds, 0 for never, and its scale."""
    point: _show.Point
    check: int
    again: int
    is_object: bool
    has_scale: bool
    scale: _forms.Scale

    def taken(self, value: int) -> int:
        """What the device has for a value of the point, as a value: less exact where it has whole numbers."""
        return self.scale.value(self.scale.words(value)) if self.has_scale else value

    def another(self, chance: random.Random, than: int) -> int:
        """A value that is another one also in the device."""
        step = 1_000 if self.point.kind == "analog" else 1
        values = [it for it in range(self.point.least, self.point.most + 1, step) if self.taken(it) != self.taken(than)]
        return chance.choice(values)


def refuses(key: str) -> bool:
    """Whether the program refuses a driver with this line, so that it reads its key."""
    with tempfile.TemporaryDirectory() as folder:
        plan = os.path.join(folder, "plan.toml")
        with open(plan, "w") as file:
            file.write(f'place = []\n[[driver]]\nname = "light"\nhost = "192.0.2.1:502"\n{key}\n')
        words = [program.PROGRAM, "serve", os.path.join(program.EXAMPLES, "plant.toml"), "-", "127.0.0.1:0", "1", "1", "-", plan]
        return subprocess.run(words, capture_output=True, text=True, timeout=60).stdout == "plan bad-driver 0\n"


def places_of(catalogue: str, plan: str) -> dict[str, Kept]:
    """The places of a plan that both bossd and bossctl take."""
    points = _show.read_catalogue(catalogue).points
    with open(plan, "rb") as file:
        tables = tomllib.load(file)
    drivers = {it["name"]: it for it in tables["driver"]}
    kept = {}
    for table in tables["place"]:
        point = points[table["point"]]
        often = {key: table.get(key, drivers[point.driver].get(key, 0)) for key in ("check", "again")}
        is_object = "bacnet" in table
        scale = _forms.scale_of({**table, "type": "f32"} if is_object else table)
        has_scale = point.kind == "analog" if is_object else "register" in table
        kept[point.name] = Kept(point, often["check"], often["again"], is_object, has_scale, scale)
    return kept


class Stand:
    """`bossctl field` in a process of its own, and what it told."""

    def __init__(self, folder: str, catalogue: str, plan: str) -> None:
        self.plan = os.path.join(folder, "local.toml")
        words = [sys.executable, "-m", "bossd.ctl", "field", plan, "--catalogue", catalogue, "--ports", "0", "--to", self.plan, "--json"]
        self.process = subprocess.Popen(words, stdin=subprocess.PIPE, stdout=subprocess.PIPE, text=True, cwd=folder,
                                        env={**os.environ, "PYTHONPATH": CLIENT})
        self.events: list[dict[str, Any]] = []
        self.rows: "queue.Queue[dict[str, Any]]" = queue.Queue()
        threading.Thread(target=self._read, daemon=True).start()

    def _read(self) -> None:
        assert self.process.stdout is not None
        for line in self.process.stdout:
            told = json.loads(line)
            told["seen"] = time.monotonic()
            if "value" in told:
                self.rows.put(told)
            else:
                self.events.append(told)

    def __enter__(self) -> "Stand":
        if not program.eventually(lambda: any("plan" in it for it in self.events), program.PATIENCE):
            self.__exit__()
            raise Wrong("bossctl field does not begin")
        return self

    def __exit__(self, *_: object) -> None:
        self.process.kill()
        self.process.wait()

    def order(self, *words: object) -> None:
        assert self.process.stdin is not None
        self.process.stdin.write(" ".join(map(str, words)) + "\n")
        self.process.stdin.flush()

    def values(self, count: int) -> dict[str, Optional[int]]:
        """What so many points have."""
        self.order("list")
        rows = [self.rows.get(timeout=program.PATIENCE) for _ in range(count)]
        return {row["point"]: row["value"] for row in rows}

    def written(self) -> dict[str, list[float]]:
        """When each point was written."""
        moments: dict[str, list[float]] = {}
        for event in list(self.events):
            if str(event.get("came", "")).startswith("taken"):
                for name in event["points"]:
                    moments.setdefault(name, []).append(event["seen"])
        return moments

    def fallen(self) -> list[str]:
        return [event["points"][0] for event in list(self.events) if str(event.get("came", "")).startswith("falls back")]


class Night:
    """The troubles of a night, and what may have been written for each."""

    def __init__(self, stand: Stand, client: Any, places: dict[str, Kept], chance: random.Random) -> None:
        self.stand, self.client, self.places, self.chance = stand, client, places, chance
        # How often each point may have been written: once at the start, and for each thing that came to it.
        self.may = Counter(dict.fromkeys(places, 1))
        self.played: Counter[str] = Counter()
        # What is ended when: a moment, and the words that end it.
        self.ends: list[tuple[float, tuple[object, ...]]] = []
        self.checked = [it for it in places.values() if it.check]
        self.watched = [it for it in places.values() if it.again]
        names = {it.point.driver for it in places.values()}
        self.restartable = [name for name in sorted(names) if all(it.check or it.again for it in places.values() if it.point.driver == name)]

    def targets(self) -> dict[str, int]:
        return {name: self.client.read(name).value for name in self.places}

    def begin(self) -> None:
        for it in self.watched:
            value = it.another(self.chance, it.point.default)
            self.stand.order("watchdog", it.point.name, PATIENCE * it.again, it.point.number(value))

    def play(self, count: int) -> None:
        kinds = [self.another_target] + [self.by_hand, self.drift] * bool(self.checked) + [self.restart] * bool(self.restartable)
        kinds += [self.from_above] * any(it.is_object for it in self.checked)
        for number in range(count):
            trouble = kinds[number % len(kinds)] if number < len(kinds) else self.chance.choice(kinds)
            trouble()
            self.played[trouble.__name__.replace("_", " ")] += 1
            self.sleep(self.chance.uniform(0.2, 2.5))
        # A watchdog that nobody satisfied would have fallen then.
        self.sleep(DRIFTS + PATIENCE * max((it.again for it in self.watched), default=0) / 1000)

    def sleep(self, seconds: float) -> None:
        """Waits, and ends what is over meanwhile."""
        until = time.monotonic() + seconds
        while time.monotonic() < until:
            time.sleep(0.05)
            for moment, words in [it for it in self.ends if it[0] <= time.monotonic()]:
                self.ends.remove((moment, words))
                self.stand.order(*words)

    def another_target(self) -> None:
        it = self.chance.choice(list(self.places.values()))
        value = it.another(self.chance, self.client.read(it.point.name).value)
        self.client.submit([bossd.write(it.point.name, value, lease=DAY)], "keep")
        self.may[it.point.name] += 1

    def by_hand(self) -> None:
        it = self.chance.choice(self.checked)
        value = it.another(self.chance, self.client.read(it.point.name).value)
        self.stand.order("set", it.point.name, it.point.number(value))
        self.may[it.point.name] += 1

    def from_above(self) -> None:
        """A hand at a higher level of an object: each check differs while it is there, and it is written each time."""
        it = self.chance.choice([it for it in self.checked if it.is_object])
        value = it.another(self.chance, self.client.read(it.point.name).value)
        self.stand.order("set", it.point.name, it.point.number(value), HAND)
        self.ends.append((time.monotonic() + DRIFTS, ("set", it.point.name, "null", HAND)))
        self.may[it.point.name] += self.each_check(it)

    def drift(self) -> None:
        """A device that moves of itself: each second it may be found so."""
        it = self.chance.choice([it for it in self.checked if not it.again] or self.checked)
        if it.again:
            return
        self.stand.order("drift", it.point.name, self.chance.choice(("1", "-1")))
        self.ends.append((time.monotonic() + DRIFTS, ("back", it.point.name)))
        self.may[it.point.name] += self.each_check(it)

    @staticmethod
    def each_check(it: Kept) -> int:
        """How often a place is looked at in the time of a trouble, a busy machine's time with it."""
        return int((DRIFTS + 1) * 1000 / it.check) + 2

    def restart(self) -> None:
        """A controller that restarts, and one of its devices comes back with a value of its own."""
        name = self.chance.choice(self.restartable)
        mine = [it for it in self.places.values() if it.point.driver == name]
        self.stand.order("restart", name)
        # A look while it is silent is a doubt, and one later finds what was forgotten.
        self.may.update({it.point.name: 2 for it in mine})
        checked = [it for it in mine if it.check]
        if checked:
            it = self.chance.choice(checked)
            value = it.another(self.chance, self.client.read(it.point.name).value)
            self.ends.append((time.monotonic() + RESTART + 0.3, ("set", it.point.name, it.point.number(value))))
            self.may[it.point.name] += 1

    # ---- the morning

    def comes_right(self) -> str:
        """In how many seconds each device has its target. Wrong where one has not."""
        intervals = max((max(it.check, it.again) for it in self.places.values()), default=0) / 1000
        longest, began = 2 * intervals + BACK + SLACK, time.monotonic()
        if not program.eventually(lambda: not self.astray(), longest):
            raise Wrong(f"{longest:.0f} s after the last trouble {'; '.join(self.astray())}")
        return f"each had its target {time.monotonic() - began:.1f} s after the last"

    def astray(self) -> list[str]:
        values = self.stand.values(len(self.places))
        return [f"{name} has {values[name]} in place of {target}" for name, target in self.targets().items()
                if values[name] != self.places[name].taken(target)]

    def written_as_often(self) -> str:
        """How often devices were written. Wrong where one was more often than it may be."""
        over, count = [], 0
        for name, moments in self.stand.written().items():
            it = self.places[name]
            # An interval is counted from the end of a look, by a clock that goes one hundredth faster at most.
            anew = int((moments[-1] - moments[0]) * 1010 / it.again) + 1 if it.again else 0
            count += len(moments)
            if len(moments) > self.may[name] + anew:
                over.append(f"{name} was written {len(moments)} times in place of {self.may[name] + anew}")
        if over:
            raise Wrong("; ".join(over))
        return f"{count} writes, none more often than it may be"


def play(count: int, catalogue: str, plan: str, folder: str, seed: int) -> str:
    """One night. Wrong where something is not as it has to be."""
    places = places_of(catalogue, plan)
    with Stand(folder, catalogue, plan) as stand:
        server = program.Server(catalogue, plan=stand.plan)
        server.start(stderr=subprocess.DEVNULL)
        try:
            with bossd.Client(server.address, "night") as client:
                night = Night(stand, client, places, random.Random(seed))
                if not program.eventually(lambda: not night.astray(), program.PATIENCE):
                    raise Wrong(f"at the start {'; '.join(night.astray())}")
                night.begin()
                night.play(count)
                right = night.comes_right()
                if stand.fallen():
                    raise Wrong(f"watchdogs fell: {', '.join(stand.fallen())}")
                played = ", ".join(f"{number} {name}" for name, number in sorted(night.played.items()))
                return f"{count} troubles ({played}) at {len(places)} places; {right}; {night.written_as_often()}; no watchdog of {len(night.watched)} fell"
        finally:
            server.stop()


def own(folder: str, has_bacnet: bool) -> tuple[str, str]:
    """The catalogue and the plan of a night, where none are given."""
    catalogue, plan = (os.path.join(folder, name) for name in ("catalogue.toml", "plan.toml"))
    with open(catalogue, "w") as file:
        file.write(CATALOGUE.replace("{more}", ', "roof"' if has_bacnet else "") + (OVER_BACNET if has_bacnet else ""))
    with open(plan, "w") as file:
        # The tables of drivers and of places may stand in any order.
        file.write(PLAN + (ROOF if has_bacnet else ""))
    return catalogue, plan


def run(count: int, files: list[str]) -> None:
    """A night of so many troubles, over the catalogue and the plan that are given."""
    if not refuses("check = 5"):
        sys.exit("field: this program reads no check and no again, so a night would only show what it does not promise")
    seed = int(os.environ.get("SEED") or time.time())
    with tempfile.TemporaryDirectory() as folder:
        has_bacnet = refuses('speaks = "smoke signals"')
        catalogue, plan = files or own(folder, has_bacnet)
        if not any(it.check or it.again for it in places_of(catalogue, plan).values()):
            sys.exit(f"field: no place of {plan} has check or again, so nothing would be put right")
        print(f"night: SEED={seed}, {'with' if has_bacnet else 'without'} BACnet, load {os.getloadavg()[0]:.1f}", flush=True)
        try:
            print(f"night: {play(count, catalogue, plan, folder, seed)}")
        except Wrong as wrong:
            sys.exit(f"night: {wrong}")
