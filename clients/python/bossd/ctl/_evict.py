"""Ends all that a process holds, as that process: for what a program left that is gone, or whose key was taken away."""

import argparse
from typing import Any, Dict, Iterable, List, NamedTuple, Optional, Tuple

from .._client import Client
from .._protocol import Denied, Over, Slot, Taken, UnknownTransaction, is_name, submission, write
from . import _live
from ._commands import FINE, WRONG, aside, catalogue_of, client_of, sentence, still, tell, tell_json
from ._live import View
from ._show import Point, moment, now
from ._toml import Failure

# How many writes a transaction has at most.
MOST = 32
# For how long a slot is held that is taken over and let go at once. Should the connection be lost in between the server lets go.
LEASE = 10_000

# A point's name and a priority.
Place = Tuple[str, int]


class Hold(NamedTuple):
    """What stands in a slot of the process."""
    point: Point
    priority: int
    slot: Slot

    @property
    def place(self) -> Place:
        return self.point.name, self.priority

    @property
    def what(self) -> str:
        return "lease" if self.slot.until is not None else "reversion"

    def shown(self) -> str:
        return f"{self.point.show(self.slot.value)} at priority {self.priority}, a {self.what} until {moment(_live.end_of(self.slot))}"

    def told(self) -> Dict[str, Any]:
        """The same for a program."""
        return {"point": self.point.name, "priority": self.priority, "value": self.slot.value, "shown": self.point.number(self.slot.value),
                "what": self.what, "txn": self.slot.txn, "ends": _live.end_of(self.slot)}


class Eviction(NamedTuple):
    """What a process held, what of it is left, the rules that denied it a write over a slot, and how its points are then."""
    held: List[Hold]
    left: List[Hold]
    rules: Dict[Place, int]
    after: Dict[str, View]

    @property
    def ended(self) -> List[Hold]:
        places = {hold.place for hold in self.left}
        return [hold for hold in self.held if hold.place not in places]


def evict(words: argparse.Namespace) -> int:
    """Ends what the process holds. Failure, ValueError, and as a client."""
    name: str = words.process
    if not is_name(name):
        raise ValueError(f"{name} is no process: wanted 1 to 64 characters of a-z 0-9 . _ -")
    if words.own not in (None, name):
        raise ValueError(f"to evict {name} bossctl is {name} itself: leave --as out")
    words.own = name
    with client_of(words) as client:
        points = list(catalogue_of(words, client).points.values())
        # Nobody is attached before it is known that there is something to end, so no name is spent that nobody had.
        held = holds_of(_live.views(client, points), name)
        if not held or words.dry_run:
            return say_what_is_held(words, client, held)
        attach(client, name)
        return say_what_ended(words, evicted(client, name, points))


def holds_of(views: Iterable[View], name: str) -> List[Hold]:
    """What the process holds of these points."""
    return [Hold(view.point, priority, slot) for view in views for priority, slot in sorted(view.slots.slots.items())
            if view.owners.get(slot.txn) == name]


def attach(client: Client, name: str) -> None:
    """Is the process from here on. Failure where another connection is."""
    try:
        client.attach(name)
    except Taken as error:
        raise Failure(f"refused: {error}. Nothing was ended. End that program first; where the server has keys, take {name}'s table out of its "
                      f"file of keys and restart it, which ends the connection and lets {name} come back no more: then evict it by the "
                      "administrator's key") from error


def evicted(client: Client, name: str, points: List[Point]) -> Eviction:
    """Ends what the client's process holds, as far as the server's rules let it."""
    held = holds_of(_live.views(client, points), name)
    rules = end(client, held)
    after = {view.point.name: view for view in _live.views(client, {hold.point.name: hold.point for hold in held}.values())}
    return Eviction(held, holds_of(after.values(), name), rules, after)


def end(client: Client, held: List[Hold]) -> Dict[Place, int]:
    """Ends what stands in these slots of the client's process, and gives the rules that denied it to write over one. A lease that is cancelled
    begins its reversion, and one that is under way can't be cancelled. So each slot is written over with the value that it has, which ends
    both, and no device is told another one; and all of that is cancelled then, which has nothing to come behind it. Where a rule denies that
    the lease is cancelled, and its reversion begins."""
    rules: Dict[Place, int] = {}
    made = [taken_over(client, part, rules) for part in parts(held)]
    denied = sorted({hold.slot.txn for hold in held if hold.place in rules and hold.slot.until is not None})
    # The last priorities first: so no value comes into force that stands under another one.
    for txn in denied + [txn for txn in reversed(made) if txn is not None]:
        cancel(client, txn)
    return rules


def parts(held: List[Hold]) -> List[List[Hold]]:
    """What one transaction each can write: a point once, and no more than MOST. Those of the first priorities come first."""
    ranks: List[List[Hold]] = []
    seen: Dict[str, int] = {}
    for hold in held:
        rank = seen.get(hold.point.name, 0)
        seen[hold.point.name] = rank + 1
        if rank == len(ranks):
            ranks.append([])
        ranks[rank].append(hold)
    return [rank[place:place + MOST] for rank in ranks for place in range(0, len(rank), MOST)]


def taken_over(client: Client, part: List[Hold], rules: Dict[Place, int]) -> Optional[int]:
    """The transaction that writes over these slots, but for those that a rule denies; None where all are. It has no number of the process's
    row: that may be used up, and its program, where it comes back, counts on."""
    open_ones = list(part)
    while open_ones:
        writes = [write(hold.point.name, hold.slot.value, lease=LEASE, priority=hold.priority) for hold in open_ones]
        try:
            txn: int = client.ask(submission(writes, "keep"))["txn"]
            return txn
        except Denied as error:
            rules[open_ones.pop(error.index).place] = error.rule
    return None


def cancel(client: Client, txn: int) -> None:
    try:
        client.ask({"op": "cancel", "txn": txn})
    except (Over, UnknownTransaction):
        pass


# ---- what is said

def count(holds: List[Hold]) -> str:
    """How many leases and reversions these are."""
    numbers = [(sum(hold.what == what for hold in holds), what) for what in ("lease", "reversion")]
    return " and ".join(f"{number} {what}{'' if number == 1 else 's'}" for number, what in numbers if number) or "nothing"


def by_point(holds: List[Hold]) -> Dict[str, str]:
    """What is said of the holds on each point."""
    said: Dict[str, str] = {}
    for hold in holds:
        name = hold.point.name
        said[name] = f"{said[name]}; {hold.shown()}" if name in said else hold.shown()
    return said


def say_what_is_held(words: argparse.Namespace, client: Client, held: List[Hold]) -> int:
    name = words.process
    if words.json:
        tell_json({"process": name, "dry_run": words.dry_run, "ended": [], "left": [hold.told() for hold in held]})
        return FINE
    tell(f"{point}: would end {said}" for point, said in by_point(held).items())
    tell([f"{name} holds {count(held)}" + (": nothing was ended" if held else "")])
    if not held and not _live.notice_counts(client, [name]).get(name):
        aside(f"{name} has had no notice yet: is the name right? (bossctl processes)")
    return FINE


def say_what_ended(words: argparse.Namespace, done: Eviction) -> int:
    name, status = words.process, WRONG if done.left else FINE
    if words.json:
        left = [{**hold.told(), "rule": done.rules.get(hold.place)} for hold in done.left]
        tell_json({"process": name, "dry_run": False, "ended": [hold.told() for hold in done.ended], "left": left})
        return status
    for point, said in by_point(done.ended).items():
        view = done.after[point]
        tell([f"{point}: ended {said}; in force: {sentence(view)}"])
        if view.held_until(now()) is not None:
            tell([f"{point}: its device is {still(view)}"])
    for hold in done.left:
        tell([f"{hold.point.name}: left {hold.shown()}{why_left(name, done.rules.get(hold.place))}"])
    tell([f"{name}: ended {count(done.ended)}; it holds " + (f"{count(done.left)} yet" if done.left else "nothing any more")])
    return status


def why_left(name: str, rule: Optional[int]) -> str:
    """Why something is left, by the rule that denied to write over it."""
    if rule is None:
        return ""
    return f": rule {rule} of the rules file denies {name} to write there" if rule else f": no rule of the rules file lets {name} write there"
