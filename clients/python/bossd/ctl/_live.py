"""What a running server is asked: points, who holds them, and how it is."""

import socket
import ssl
import time
from typing import Dict, Iterable, List, NamedTuple, Optional

from .._client import Client, connected
from .._keys import Source, shown_in
from .._protocol import (
    WRONG_KEY, Answer, Notice, Notices, Reading, Refused, Request, Slot, Slots, Status, Taken, TurnedAway, UnknownPoint, WrongKey, heard,
    is_wrong_key, line_of, notices_from, reading_of, slots_of, status_of,
)
from ._show import PRIORITIES, Point, held_until, now
from ._toml import Failure

# The number after each notice that a process may have had.
AFTER_ALL = 1 << 62
# How long a server that has a free worker may take for an answer, in seconds.
SOON = 0.5
# By which names bossctl sets points where no name is given. A server forgets no name, so there are few.
NAMES = ["bossctl"] + [f"bossctl-{place}" for place in range(2, 9)]


class View(NamedTuple):
    """What the server says of a point: its reading and its slots, or None where it knows no such point; and the owners of the
    transactions in the slots."""
    point: Point
    reading: Optional[Reading]
    slots: Slots
    owners: Dict[int, str]

    @property
    def slot(self) -> Optional[Slot]:
        """The slot that is in force."""
        if self.reading is None or self.reading.priority is None:
            return None
        slot = self.slots.slots.get(self.reading.priority)
        return slot if slot is not None and slot.txn == self.reading.txn else None

    @property
    def ends(self) -> Optional[int]:
        """When what is in force ends, if nobody renews it."""
        return None if self.slot is None else end_of(self.slot)

    @property
    def owner(self) -> Optional[str]:
        """Who holds it."""
        return None if self.reading is None or self.reading.txn is None else self.owners.get(self.reading.txn)

    def held_until(self, moment: int) -> Optional[int]:
        """Up to when its device keeps the value that it took last, at the earliest, as a minimum time is not over at this moment. None where
        none keeps it."""
        until = None if self.reading is None else held_until(self.point, self.reading)
        return until if until is not None and until > moment else None

    def told(self) -> Answer:
        """The view for a program."""
        point, reading = self.point, self.reading
        base = {"point": point.name, "kind": point.kind, "driver": point.driver, "unit": point.unit, "note": point.note}
        if reading is None:
            return {**base, "error": "unknown-point"}
        ends = self.ends
        return {**base, "value": reading.value, "shown": point.number(reading.value), "from": reading.basis, "priority": reading.priority,
                "process": self.owner, "txn": reading.txn, "ends": ends, "left": None if ends is None else max(0, ends - now()),
                "mark": reading.mark, "took": reading.took, "since": reading.since, "held_until": self.held_until(now())}


def end_of(slot: Slot) -> int:
    """When what stands in a slot ends."""
    end = slot.until if slot.until is not None else slot.end
    return end or 0


def views(client: Client, points: Iterable[Point]) -> List[View]:
    """The views of points, all asked at once."""
    points = list(points)
    asked: List[Request] = []
    for point in points:
        asked += [{"op": "read", "point": point.name}, {"op": "array", "point": point.name}]
    answers = client.ask_all(asked)
    pairs = list(zip(points, answers[0::2], answers[1::2]))
    arrays = {point.name: slots_of(array) for point, _, array in pairs if isinstance(array, dict)}
    owners = owners_of(client, {slot.txn for slots in arrays.values() for slot in slots.slots.values()})
    found = []
    for point, read, array in pairs:
        for answer in (read, array):
            if isinstance(answer, Refused) and not isinstance(answer, UnknownPoint):
                raise answer
        reading = reading_of(read) if isinstance(read, dict) else None
        found.append(View(point, reading, arrays.get(point.name, Slots(point.name, point.default, {})), owners))
    return found


def statuses(client: Client, txns: Iterable[int]) -> Dict[int, Status]:
    """How transactions stand, those that are known."""
    asked: List[Request] = [{"op": "status", "txn": txn} for txn in sorted(txns)]
    answers = client.ask_all(asked)
    return {answer["txn"]: status_of(answer) for answer in answers if isinstance(answer, dict)}


def owners_of(client: Client, txns: Iterable[int]) -> Dict[int, str]:
    return {txn: status.owner for txn, status in statuses(client, txns).items()}


def notice_counts(client: Client, names: Iterable[str]) -> Dict[str, int]:
    """How many notices each process has had."""
    named = list(names)
    answers = client.ask_all([notices_from(name, AFTER_ALL, 1) for name in named])
    return {name: answer["next"] - 1 for name, answer in zip(named, answers) if isinstance(answer, dict)}


def last_notices(client: Client, name: str, count: int) -> Notices:
    """The last notices of a process, at most so many."""
    following = notice_counts(client, [name])[name] + 1
    first = max(1, following - count)
    found: List[Notice] = []
    page = client.notices(name, first, min(64, max(1, count)))
    while page.list:
        found += page.list
        page = client.notices(name, page.next, 64)
    return Notices(page.first, page.next, found)


# ---- what comes next at a point

class Next(NamedTuple):
    """What is in force from the moment `at` on, unless something is renewed or written: `basis` is "lease", "pending", "default", or
    "reversion" for the reversion of the lease that ends, if it was given one, of which the server says nothing before it begins."""
    at: int
    basis: str
    priority: Optional[int]
    value: Optional[int]
    txn: Optional[int]


def after(view: View) -> List[Next]:
    """What may come when what is in force ends: one thing, or the reversion and then what comes if there is none."""
    slot, reading = view.slot, view.reading
    if slot is None or reading is None or reading.priority is None:
        return []
    at = end_of(slot)
    others = {priority: one for priority, one in view.slots.slots.items() if priority != reading.priority and end_of(one) > at}
    leases = [priority for priority in PRIORITIES if priority in others and others[priority].until is not None]
    if leases:
        return [following(at, "lease", leases[0], others[leases[0]])]
    found: List[Next] = []
    reversions = [priority for priority in PRIORITIES if priority in others]
    # Of two reversions that of the lesser number is in force, so the lease's own one may be hidden.
    if slot.until is not None and not (reversions and reversions[0] < reading.priority):
        found.append(Next(at, "reversion", reading.priority, None, slot.txn))
    if reversions:
        return found + [following(at, "pending", reversions[0], others[reversions[0]])]
    return found + [Next(at, "default", None, view.slots.default, None)]


def following(at: int, basis: str, priority: int, slot: Slot) -> Next:
    return Next(at, basis, priority, slot.value, slot.txn)


# ---- who sets a point

def attach(client: Client, name: Optional[str]) -> None:
    """Speaks for the process of this name, or, without one, for the first of bossctl's own that nobody has. Failure, and as `Client.attach`."""
    if name is not None:
        client.attach(name)
        return
    for own in NAMES:
        try:
            client.attach(own)
            return
        except Taken:
            pass
    raise Failure(f"all of bossctl's own names are in use, {NAMES[0]} to {NAMES[-1]}: give another one by --as")


# ---- how the server is

class Health(NamedTuple):
    """Whether a server answers, in how many milliseconds, and how many further connections were answered at once, of `tried`."""
    answers: bool
    milliseconds: float
    free: int
    tried: int
    why: str


def health(server: str, patience: float, tried: int, tls: Optional[ssl.SSLContext] = None, key: Optional[Source] = None,
           name: Optional[str] = None) -> Health:
    """Asks the server something, and then something over further connections that are open at one time: each takes a worker. `key` is that of
    the process `name`. WrongKey."""
    line, text = line_of({"op": "status", "txn": 0}), None if key is None else key()
    if text:
        line = shown_in(line, text, name)
    began = time.monotonic()
    links: List[socket.socket] = []
    try:
        links.append(answered(server, patience, tls, line, name if text else None))
        took = (time.monotonic() - began) * 1000
    except socket.timeout:
        return Health(False, 0.0, 0, 0, "it takes the connection and answers nothing: all its workers are busy, or it hangs")
    except TurnedAway as error:
        return Health(False, 0.0, 0, 0, str(error))
    except ConnectionRefusedError:
        return Health(False, 0.0, 0, 0, "nobody listens there: does bossd run?")
    except OSError as error:
        return Health(False, 0.0, 0, 0, str(error))
    try:
        free = 0
        while free < tried:
            links.append(answered(server, SOON, tls, line, name if text else None))
            free += 1
    except OSError:
        pass
    finally:
        for link in links:
            link.close()
    return Health(True, took, free, tried, "")


def answered(server: str, seconds: float, tls: Optional[ssl.SSLContext], line: bytes, name: Optional[str]) -> socket.socket:
    """A connection on which this line was answered, which may show the key of the process `name`. WrongKey; TurnedAway, or another OSError."""
    link = connected(server, seconds, tls)
    try:
        link.sendall(line)
        answer = heard(link.recv(65_536))
        if is_wrong_key(answer):
            raise WrongKey(WRONG_KEY, name=name)
        return link
    except BaseException:
        link.close()
        raise
