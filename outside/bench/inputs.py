"""Catalogues and lines for measuring the program, made from a seed: a plant of many points, leases that are held, renewed, let go
and read. Moments are milliseconds, values thousandths."""

import json
import random
from collections.abc import Sequence
from typing import Any

PRIORITIES = [level for level in range(1, 17) if level != 6]
KINDS = ["analog", "binary", "multi", "analog"]
DRIVERS = ["field", "roof", "plant-2", "west.wing"]


def name_of(point: int) -> str:
    return f"b{point // 64}.r{point % 64}.p{point}"


def kind_of(point: int) -> str:
    return KINDS[point % 4]


def range_of(point: int) -> tuple[int, int]:
    return {"analog": (0, 100_000), "binary": (0, 1), "multi": (1, 5)}[kind_of(point)]


def catalogue(points: int, drivers: Sequence[str] = DRIVERS) -> str:
    bounds = {"analog": "min = 0\nmax = 100000\ndefault = 20000", "binary": "default = 0", "multi": "states = 5\ndefault = 1"}
    tables = [f'[[point]]\nname = "{name_of(p)}"\ndriver = "{drivers[p * 7 % len(drivers)]}"\nkind = "{kind_of(p)}"\n{bounds[kind_of(p)]}'
              for p in range(points)]
    return "\n\n".join([f"drivers = {json.dumps(drivers)}", *tables]) + "\n"


class Lines:
    def __init__(self, points: int, seed: int) -> None:
        self.points = points
        self.chance = random.Random(seed)
        self.moment = 0
        self.next = 1
        self.lines: list[str] = []

    def ask(self, op: str, **keys: object) -> None:
        self.lines.append(json.dumps({"at": self.moment, "op": op, **keys}, separators=(",", ":")))

    def write(self, point: int, priority: int, lease: int, steps: int) -> dict[str, Any]:
        made = {"point": name_of(point), "value": self.value(point), "priority": priority, "lease": lease}
        if steps:
            made["revert"] = [[self.value(point), self.chance.randint(1_000, 60_000)] for _ in range(steps)]
        return made

    def value(self, point: int) -> int:
        return self.chance.randint(*range_of(point))

    def submit(self, writes: list[dict[str, Any]]) -> int:
        self.ask("submit", writes=writes)
        self.next += 1
        return self.next - 1

    def read(self) -> None:
        self.ask("read", point=name_of(self.chance.randrange(self.points)))


def held(points: int, leases: int, requests: int, seed: int) -> tuple[int, list[str]]:
    """Lines that take so many leases of a week, and behind them so many requests that keep their number: submits on held and on free
    slots, renewals, cancels with a submit behind, reads and ticks. How many lines come first, and all of them."""
    lines = Lines(points, seed)
    slots = [(point, level) for point in range(points) for level in PRIORITIES]
    lines.chance.shuffle(slots)
    taken, free = slots[:leases], slots[leases:]
    lines.ask("attach", process="holder")
    txns = {slot: lines.submit([lines.write(*slot, 600_000_000, 0)]) for slot in taken}
    filling = len(lines.lines)
    while len(lines.lines) < filling + requests:
        lines.moment += lines.chance.randint(0, 40)
        slot, turn = lines.chance.choice(taken), lines.chance.random()
        if turn < 0.15:
            txns[slot] = lines.submit([lines.write(*slot, 600_000_000, 0)])
        elif turn < 0.30:
            lines.submit([lines.write(*lines.chance.choice(free), lines.chance.randint(500, 2_000), lines.chance.choice([0, 0, 1]))])
        elif turn < 0.65:
            lines.ask("renew", txn=txns[slot], length=600_000_000)
        elif turn < 0.70:
            lines.ask("cancel", txn=txns[slot])
            txns[slot] = lines.submit([lines.write(*slot, 600_000_000, 0)])
        elif turn < 0.95:
            lines.read()
        else:
            lines.ask("tick")
    return filling, lines.lines


def reads(count: int) -> list[str]:
    """So many reads of one point."""
    lines = Lines(1, 1)
    for _ in range(count):
        lines.read()
    return lines.lines


def submits(count: int, points: int) -> list[str]:
    """An attach, and so many submits of a week, each an event of one write."""
    lines = Lines(points, 1)
    lines.ask("attach", process="holder")
    for place in range(count):
        lines.submit([lines.write(place % points, 8, 600_000_000, 0)])
        lines.moment += 1
    return lines.lines


def full(points: int, rounds: int = 1) -> list[str]:
    """Submits that take every slot of a plant, so many times over, each of 32 writes with eight steps behind them, by 256 processes in turn."""
    lines = Lines(points, 1)
    for session in range(1, 257):
        lines.ask("attach", process=f"q{session}", on=session)
    slots = [(point, level) for level in PRIORITIES for point in range(points)] * rounds
    for place in range(0, len(slots), 32):
        writes = [lines.write(point, level, 600_000_000, 8) for point, level in slots[place:place + 32]]
        lines.ask("submit", writes=writes, on=1 + place // 32 % 256)
    return lines.lines


def superseding(count: int, writes: int) -> list[str]:
    """For a connection, whose lines have no moment: an attach, and so many submits of so many writes, each in the place of the one before."""
    lines = Lines(writes, 1)
    made: list[dict[str, Any]] = [{"op": "attach", "process": "holder"}]
    made += [{"op": "submit", "writes": [lines.write(point, 8, 600_000_000, 0) for point in range(writes)]} for _ in range(count)]
    return [json.dumps(line, separators=(",", ":")) for line in made]
