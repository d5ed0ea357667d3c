"""Runs the built program beside a model of the lease machine, on scripts and journals made by chance.

Runs the built program beside a small model of the lease machine, which was written apart from it, on scripts made by
chance, and compares every line that they write. Then journals made by chance, each under one catalogue after another: points go, come,
change and stand elsewhere while leases are alive, moments are taken back, and every line of the scripts, adoptions, shifts and checks is
compared. Ends with 1 at the first line on which they differ.

    tools/compare [SCRIPTS]

SCRIPTS is how many scripts of 400 lines are tried, and how many journals, 200 where it is left out; script K and journal K are the same
in every run. The devices of the program take every command, so nothing here shows what a device that fails brings about. The program has
to be built (./bossd; BOSSD names another one)."""

import copy
import dataclasses
import json
import os
import random
import subprocess
import sys
import tempfile
from collections import Counter
from collections.abc import Callable, Iterable, Sequence
from typing import Any, NamedTuple

from outside.cases import heed_help
from outside.model import NUMBERED, Machine, Point, digest, error, key_at_fault
from outside.program import PROGRAM, need_program

DRIVERS = ["east", "west"]

POINTS = [
    Point("damper", "west", "analog", -10, 100, 5),
    Point("lamp", "east", "binary", 0, 1, 0),
    Point("fan", "west", "multi", 1, 3, 1),
]


class Catalogue(NamedTuple):
    drivers: list[str]
    points: list[Point]

    def text(self) -> str:
        return f"drivers = {json.dumps(self.drivers)}\n" + "".join(point.table() for point in self.points)

    def names(self) -> list[str]:
        return [point.name for point in self.points]

    def digest(self) -> str:
        return digest(self.drivers, self.points)


CATALOGUE = Catalogue(DRIVERS, POINTS).text()


# ---- scripts made by chance

class Maker:
    def __init__(self, seed: int, points: list[Point] = POINTS) -> None:
        self.random = random.Random(seed)
        self.points = points
        # The greatest number that a request has had.
        self.number = 0

    def one_of(self, *choices: Any) -> Any:
        return self.random.choice(choices)

    def mostly(self, usual: Any, other: Any) -> Any:
        return usual if self.random.random() < 0.97 else other

    def value(self, point: Point) -> int:
        return self.random.randint(point.least, point.most)

    def some_points(self, count: int) -> list[Point]:
        return self.random.sample(self.points, min(count, len(self.points)))

    def write(self, point: Point) -> dict[str, Any]:
        made: dict[str, Any] = {
            "point": point.name,
            "value": self.mostly(self.value(point), 999),
            "lease": self.mostly(self.random.randint(1, 400), 0),
        }
        if self.random.random() < 0.8:
            made["priority"] = self.mostly(self.one_of(2, 3, 8, 8, 8, 10, 10), 6)
        if self.random.random() < 0.6:
            made["revert"] = [[self.value(point), self.random.randint(1, 150)] for _ in range(self.random.randint(0, 3))]
        return made

    def request(self, next_txn: int) -> dict[str, Any]:
        recent = self.random.randint(max(1, next_txn - 5), next_txn)
        names = [point.name for point in self.points]
        point = self.one_of(*names)
        op = self.random.choices(
            ["attach", "submit", "renew", "cancel", "gone", "tick", "read", "array", "status", "notices", "points", "version"],
            [7, 33, 12, 8, 3, 9, 8, 6, 6, 8, 2, 1])[0]
        asked: dict[str, Callable[[], dict[str, Any]]] = {
            "attach": lambda: {"process": self.one_of("a", "b")},
            "submit": lambda: {"writes": [self.write(point) for point in self.some_points(self.one_of(1, 2, 3))]},
            "renew": lambda: {
                "txn": recent,
                "length": self.random.randint(0, 500),
                **self.one_of({}, {"points": [point]}, {"points": [point, self.one_of(*names)]}),
            },
            "cancel": lambda: {"txn": recent},
            "read": lambda: {"point": point},
            "array": lambda: {"point": point},
            "status": lambda: {"txn": recent},
            "notices": lambda: {
                "from": self.random.randint(1, 60),
                "max": self.random.randint(1, 64),
                **self.one_of({}, {"process": "a"}, {"process": "b"}, {"process": "unknown"}),
            },
            "points": lambda: dict(self.one_of({}, {"from": self.random.randint(0, 4), "max": self.random.randint(1, 4)})),
        }
        keys = asked[op]() if op in asked else {}
        return {"op": op, **keys, **self.numbered(op)}

    def spoiled(self, made: Any) -> Any:
        """The same, where one or two parts were taken out or are something else."""
        made = copy.deepcopy(made)
        for _ in range(self.one_of(1, 1, 2)):
            self.spoil(made)
        return made

    def spoil(self, made: Any) -> None:
        """Takes a part out, or puts something else there. Most often that part lies further inside."""
        places = [key for key in made if key != "op" or self.random.random() < 0.1] if isinstance(made, dict) else list(range(len(made)))
        if not places:
            return
        place = self.one_of(*places)
        if isinstance(made[place], (dict, list)) and self.random.random() < 0.8:
            self.spoil(made[place])
        elif self.random.random() < 0.3:
            del made[place]
        else:
            made[place] = self.one_of(None, True, 1.5, 2**63, -1, 0, "1", "A", [], {}, [7], [[1]])

    def numbered(self, op: str) -> dict[str, int]:
        """Now and then the next number, the last one again, or one before it. Other requests may have the key too."""
        if self.random.random() < (0.5 if op in NUMBERED else 0.95):
            return {}
        number = max(1, self.number + self.one_of(1, 1, 1, 0, 0, -1))
        self.number = max(self.number, number)
        return {"seq": number}


def script(seed: int) -> tuple[list[str], list[str]]:
    """The lines of a script, and what the model writes."""
    maker, machine, moment, lines = Maker(seed), Machine(DRIVERS, POINTS), 0, []
    for _ in range(400):
        session = maker.one_of(1, 1, 2, 3)
        moment = max(0, moment + maker.one_of(0, 0, 1, 5, 30, 80, -20))
        request = maker.request(machine.next)
        if maker.random.random() < 0.05:
            spoiled = maker.spoiled(request)
            if key := key_at_fault(spoiled):
                lines.append(json.dumps({**spoiled, "on": session, "at": moment}))
                machine.lines.append(error("malformed", key=key))
                continue
        lines.append(json.dumps({**request, "on": session, "at": moment}))
        machine.answer(session, request, moment)
    return lines, machine.lines


def compare_scripts(scripts: int, scratch: str) -> None:
    catalogue, compared = os.path.join(scratch, "catalogue.toml"), 0
    with open(catalogue, "w") as file:
        file.write(CATALOGUE)
    for seed in range(scripts):
        lines, wanted = script(seed)
        compared += same(f"script {seed}", run(["script", catalogue, "-"], lines), 0, wanted)
    print(f"compare: {scripts} scripts, {compared} lines, all the same", flush=True)


def run(words: Sequence[str], lines: Iterable[str] = ()) -> tuple[int, list[str]]:
    """The status of the program, and the lines that it wrote."""
    ran = subprocess.run([PROGRAM, *words], input="\n".join(lines).encode(), capture_output=True, timeout=60)
    return ran.returncode, ran.stdout.decode().splitlines()


def same(what: str, ran: tuple[int, list[str]], status: int, wanted: list[str]) -> int:
    """How many lines were wanted. Ends the tool where the program told others, or another status."""
    ended, told = ran
    if (ended, told) != (status, wanted):
        place = next((i for i, pair in enumerate(zip(told, wanted)) if pair[0] != pair[1]), min(len(told), len(wanted)))
        sys.exit(f"compare: {what} ended with {ended}, not {status}; line {place + 1} of its output is\n"
                 f"  {told[place:place + 1]}\nand the model's\n  {wanted[place:place + 1]}")
    return len(wanted)


# ---- journals under one catalogue after another

USAGE = 2
REFUSED_JOURNAL = 4
REFUSED_ADOPTION = 15
REFUSED_SHIFT = 15
CATALOGUES_A_JOURNAL = 5
# Of so many journals one has scripts so long that more becomes done, and is told, than is kept.
LONG_EVERY, LONG_SCRIPT = 25, 3_000
NAMES = ["damper", "lamp", "fan", "valve", "pump", "louver", "coil", "sign"]


def some_point(chance: random.Random, name: str, drivers: list[str]) -> Point:
    kind = chance.choice(["analog", "binary", "multi"])
    least, most = {
        "analog": (chance.choice([-10, 0]), chance.choice([40, 100])),
        "binary": (0, 1),
        "multi": (1, chance.choice([2, 3, 5])),
    }[kind]
    return Point(name, chance.choice(drivers), kind, least, most, chance.randint(least, most))


def first_catalogue(chance: random.Random) -> Catalogue:
    return Catalogue(DRIVERS, [some_point(chance, name, DRIVERS) for name in chance.sample(NAMES, 6)])


def changed(chance: random.Random, catalogue: Catalogue) -> Catalogue:
    """Another catalogue, most of whose points are those of this one; now and then the same."""
    if chance.random() < 0.05:
        return catalogue
    drivers = chance.sample(["east", "west", "north"], chance.choice([2, 3]))
    points = []
    for point in catalogue.points:
        fate = chance.random()
        if fate < 0.12:
            continue
        if fate < 0.24:
            point = some_point(chance, point.name, drivers)
        elif fate < 0.36:
            point = dataclasses.replace(point, default=chance.randint(point.least, point.most))
        points.append(point if point.driver in drivers else dataclasses.replace(point, driver=chance.choice(drivers)))
    points += [some_point(chance, name, drivers) for name in NAMES if name not in catalogue.names() and chance.random() < 0.3]
    if chance.random() < 0.5:
        chance.shuffle(points)
    return Catalogue(drivers, points or [some_point(chance, "sign", drivers)])


class Journal:
    """A journal made by chance, and the machine that it stands for."""

    def __init__(self, seed: int, scratch: str) -> None:
        self.seed, self.scratch = seed, scratch
        self.chance = random.Random(seed)
        self.path = os.path.join(scratch, f"journal{seed}")
        self.catalogue = first_catalogue(self.chance)
        self.maker = Maker(seed, self.catalogue.points)
        self.machine, self.moment = Machine(*self.catalogue), 0
        self.events, self.compared, self.told = 0, 0, Counter[str]()

    def word(self, catalogue: Catalogue) -> str:
        """The name of a file with this catalogue."""
        path = os.path.join(self.scratch, catalogue.digest())
        with open(path, "w") as file:
            file.write(catalogue.text())
        return path

    def same(self, words: Sequence[str], lines: Iterable[str], status: int, wanted: list[str]) -> None:
        self.compared += same(f"journal {self.seed}: {' '.join(words)}", run(words, lines), status, wanted)

    def is_new(self) -> bool:
        return not os.path.exists(self.path) or os.path.getsize(self.path) == 0

    def script(self, count: int) -> None:
        """A script of so many lines. In some of them time passes at last until nothing is held."""
        asked = [(session, {"op": "attach", "process": name}) for session, name in ((1, "a"), (2, "b"))]
        lines = list[str]()
        self.machine.reopen()
        while len(lines) < count:
            self.moment = max(0, self.moment + self.maker.one_of(0, 0, 1, 5, 30, 80, -20))
            lines.append(self.ask(*(asked.pop(0) if asked else (self.maker.one_of(1, 1, 2, 3), self.maker.request(self.machine.next)))))
        if count and self.chance.random() < 0.3:
            self.moment += 1_000
            lines.append(self.ask(1, {"op": "tick"}))
        self.same(["script", self.word(self.catalogue), self.path], lines, 0, self.machine.lines)

    def ask(self, session: int, request: dict[str, Any]) -> str:
        """The line of a request that the machine answers. Where what lasts changes with it, that is one event."""
        before = self.machine.lasting()
        self.machine.answer(session, request, self.moment)
        self.events += before != self.machine.lasting()
        return json.dumps({**request, "on": session, "at": self.moment})

    def adopt(self, new: Catalogue) -> None:
        old = self.catalogue
        words = ["adopt", self.word(old), self.word(new), self.path]
        if self.is_new():
            self.same(words, [], 0, ["journal new"])
            self.same(["check", *words[2:]], [], 0, ["journal new"])
            self.told["new"] += 1
            self.machine = Machine(*new)
        else:
            why = self.machine.adopt(*new)
            if why:
                self.same(words, [], REFUSED_ADOPTION, [f"adopt {why}"])
                self.told[why.split()[0]] += 1
                self.look(old, new)
                return
            removed, added = set(old.names()) - set(new.names()), set(new.names()) - set(old.names())
            line = f"adopted events {self.events} points {len(new.points)} removed {len(removed)} added {len(added)}"
            self.same(words, [], 0, [line])
            self.told["adopted"] += 1
            self.look(new, old)
        self.catalogue, self.maker.points = new, new.points

    def shift(self) -> None:
        """Takes the moments of the journal back, now and then by more than can be."""
        most = min([self.machine.now, *(it.start for it in self.machine.reversions)])
        by = max(1, self.chance.choice([1, most // 2, most, most + 1, 2 * most + 3]))
        words = ["shift", self.word(self.catalogue), self.path, str(by)]
        if self.is_new():
            self.same(words, [], 0, ["journal new"])
            return
        refused = self.machine.shift(by)
        if refused is None:
            self.events, self.moment = self.events + 1, max(0, self.moment - by)
            self.same(words, [], 0, [f"shifted events {self.events} {self.held()}"])
            self.told["shifted"] += 1
        else:
            self.same(words, [], REFUSED_SHIFT, [f"shift too-far {refused}"])
            self.told["too-far"] += 1
        self.look(self.catalogue, self.catalogue)

    def held(self) -> str:
        return f"now {self.machine.now} leases {len(self.machine.leases)} pending {len(self.machine.reversions)}"

    def look(self, kept: Catalogue, other: Catalogue) -> None:
        """A check has to open the journal with the one catalogue, and to refuse it with the other."""
        self.same(["check", self.word(kept), self.path], [], 0, [f"events {self.events} {self.held()}"])
        if kept.digest() != other.digest():
            line = f"journal catalogue {kept.digest()} {other.digest()}"
            self.same(["check", self.word(other), self.path], [], REFUSED_JOURNAL, [line])


def compare_journals(journals: int) -> None:
    compared, told, shifts = 0, Counter[str](), knows("shift", "-", "1")
    memory = "/dev/shm" if os.path.isdir("/dev/shm") else None
    for seed in range(journals):
        with tempfile.TemporaryDirectory(dir=memory) as scratch:
            journal = Journal(seed, scratch)
            for place in range(CATALOGUES_A_JOURNAL):
                # Some are new at the first adoption, and some have no event yet.
                if place or seed % 10:
                    journal.script(LONG_SCRIPT if seed % LONG_EVERY == 1 else journal.chance.choice([0, 10, 60, 200]))
                journal.adopt(changed(journal.chance, journal.catalogue))
                if shifts and journal.chance.random() < 0.4:
                    journal.shift()
            journal.script(100)
        compared, told = compared + journal.compared, told + journal.told
    print(f"compare: {journals} journals under {CATALOGUES_A_JOURNAL + 1} catalogues each: {told['adopted']} adopted, {told['in-use']} refused "
          f"as in use and {told['unfit']} as unfit, {told['new']} new; {told['shifted']} with earlier moments, and {told['too-far']} refused as "
          f"too far; {compared} lines, all the same")
    if not shifts:
        print("compare: this program has no job `shift`, so no journal's moments were taken back")


def knows(job: str, *words: str) -> bool:
    """Whether the program has the job of a catalogue and these words."""
    with tempfile.NamedTemporaryFile("w", suffix=".toml") as file:
        file.write(CATALOGUE)
        file.flush()
        return run([job, file.name, *(word or file.name for word in words)])[0] != USAGE


def knows_adopt() -> bool:
    return knows("adopt", "", "-")


def main() -> None:
    heed_help(__doc__)
    need_program()
    count = int(sys.argv[1]) if len(sys.argv) > 1 else 200
    with tempfile.TemporaryDirectory() as scratch:
        compare_scripts(count, scratch)
    if knows_adopt():
        compare_journals(count)
    else:
        print("compare: this program has no job `adopt`, so no journal was tried under another catalogue")


if __name__ == "__main__":
    main()
