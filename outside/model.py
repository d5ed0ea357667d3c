"""A small model of the lease machine, written apart from the program: what a session is answered, what processes are told, and
what devices are told; and how all that goes on under a changed catalogue, or with its moments taken back. Devices take every command. Moments are milliseconds, values
thousandths. With access rules it denies names and writes. Beside it stands where a line is at fault that is no request."""

import hashlib
import json
import re
from collections.abc import Callable, Sequence
from dataclasses import dataclass, field
from typing import Any

Line = dict[str, Any]
# A key of a line, whether it has to be there, and what its value has to fit.
Key = tuple[str, bool, Callable[[Any], bool]]
# The values that come behind a lease, each with how long it holds.
Steps = list[list[int]]
# What a process was told, with None for what can't be asked for any more.
Told = list["Notice | None"]
# The value that a device took last, and since when it has been told to have it.
Took = tuple[int, int]

WEEK = 604_800_000
DAY = 86_400_000
KEPT_DONE = 1024
KEPT_NOTICES = 1024
NUMBERED = ["submit", "renew", "cancel"]
PROGRAM_VERSION = "0.3.0"
JOURNAL_VERSION = 3


@dataclass(frozen=True)
class Point:
    name: str
    driver: str
    kind: str
    least: int
    most: int
    default: int

    def fits(self, value: int) -> bool:
        return self.least <= value <= self.most

    def table(self) -> str:
        bounds = {
            "analog": f"min = {self.least}\nmax = {self.most}\n",
            "binary": "",
            "multi": f"states = {self.most}\n",
        }[self.kind]
        return (f'[[point]]\nname = "{self.name}"\ndriver = "{self.driver}"\nkind = "{self.kind}"\n'
                f"{bounds}default = {self.default}\n")

    def told(self) -> Line:
        """The point as the program tells it."""
        bounds: dict[str, Line] = {"analog": {"min": self.least, "max": self.most}, "binary": {}, "multi": {"states": self.most}}
        return {"point": self.name, "kind": self.kind, **bounds[self.kind], "default": self.default, "driver": self.driver}


@dataclass(frozen=True)
class Rule:
    process: str
    point: str
    highest: int = 1
    allow: bool = True

    def matches(self, process: str, point: str) -> bool:
        return fits(self.process, process) and fits(self.point, point)

    def table(self) -> str:
        highest = f"highest = {self.highest}\n" if self.highest != 1 else ""
        return f'[[rule]]\nprocess = "{self.process}"\npoint = "{self.point}"\n{highest}' + ("" if self.allow else "allow = false\n")


def fits(pattern: str, name: str) -> bool:
    return name.startswith(pattern[:-1]) if pattern.endswith("*") else name == pattern


def denying_rule(rules: Sequence[Rule], process: str, write: Line) -> int | None:
    """The number of the rule that denies a process this write, 0 where no rule is for it; None where it is allowed."""
    for number, rule in enumerate(rules, 1):
        if rule.matches(process, write["point"]):
            return None if rule.allow and write.get("priority", 16) >= rule.highest else number
    return 0


def digest(drivers: list[str], points: list[Point]) -> str:
    """What a catalogue is known by."""
    lines = [f"d {name}\n" for name in drivers]
    lines += [f"p {it.name} {it.driver} {it.kind} {it.least} {it.most} {it.default}\n" for it in points]
    return hashlib.sha256("".join(lines).encode()).hexdigest()


# ---- where a line is at fault, in the order of PROTOCOL

def is_whole(it: Any) -> bool:
    return type(it) is int and -2**63 <= it < 2**63


def is_number(least: int = 0, most: int = 2**63 - 1) -> Callable[[Any], bool]:
    return lambda it: is_whole(it) and least <= it <= most


def is_text(it: Any) -> bool:
    return isinstance(it, str)


def is_name(it: Any) -> bool:
    return is_text(it) and re.fullmatch("[a-z0-9._-]{1,64}", it) is not None


def is_short(it: Any) -> bool:
    return isinstance(it, list) and 1 <= len(it) <= 32


SEQ: Key = ("seq", False, is_number(1, 2**62 - 1))
# The keys of each request, whether each is needed, and what it may be.
KEYS: dict[str, list[Key]] = {
    "attach": [("process", True, is_name)],
    "submit": [("writes", True, is_short), ("policy", False, lambda it: it in ("abort", "keep")), SEQ],
    "renew": [("txn", True, is_number()), ("length", True, is_whole), ("points", False, is_short), SEQ],
    "cancel": [("txn", True, is_number()), SEQ],
    "read": [("point", True, is_text)],
    "array": [("point", True, is_text)],
    "status": [("txn", True, is_number())],
    "notices": [("process", False, is_name), ("from", False, is_number(1)), ("max", False, is_number(1, 64))],
    "points": [("from", False, is_number(0, 2**62)), ("max", False, is_number(1, 64))],
    "version": [], "gone": [], "tick": [],
}
LINE_KEYS: list[Key] = [("on", False, is_number(1, 65_535)), ("at", False, is_number(0, 2**60))]
WRITE_KEYS: list[Key] = [("point", True, is_text), ("value", True, is_whole), ("priority", False, is_whole), ("lease", True, is_whole),
              ("revert", False, lambda it: isinstance(it, list))]


def first_fault(keys: Sequence[Key], found: Line) -> str | None:
    """The first of these keys that is missing where it is needed, or is not what it may be."""
    return next((key for key, needed, fits in keys if (not fits(found[key]) if key in found else needed)), None)


def fault_in_write(place: int, write: Line) -> str | None:
    key = first_fault(WRITE_KEYS, write if isinstance(write, dict) else {})
    if key:
        return f"writes[{place}].{key}"
    for number, step in enumerate(write.get("revert", [])):
        if not isinstance(step, list) or len(step) != 2:
            return f"writes[{place}].revert[{number}]"
        for half, it in enumerate(step):
            if not is_whole(it):
                return f"writes[{place}].revert[{number}][{half}]"
    return None


def key_at_fault(line: Line) -> str | None:
    """The key at fault in what a line writes, or None. Of an `op` that is not known that is None."""
    if not isinstance(line, dict) or not isinstance(line.get("op"), str):
        return "op"
    if line["op"] not in KEYS:
        return None
    key = first_fault(LINE_KEYS + KEYS[line["op"]], line)
    if key:
        return key
    if line["op"] == "submit":
        faults = [fault_in_write(place, write) for place, write in enumerate(line["writes"])]
        return next((fault for fault in faults if fault), None)
    if line["op"] == "renew":
        return next((f"points[{place}]" for place, it in enumerate(line.get("points", [])) if not is_text(it)), None)
    return None


@dataclass
class Lease:
    txn: int
    owner: int
    point: int
    priority: int
    value: int
    until: int
    steps: Steps
    since: int
    # How it ended, if it did.
    ended: "End | None" = None


@dataclass
class Reversion:
    txn: int
    owner: int
    point: int
    priority: int
    steps: Steps
    start: int
    # When a new lease took its slot, if one did.
    cut: int | None = None

    def boundaries(self) -> list[int]:
        moment, found = self.start, []
        for _, hold in self.steps:
            moment += hold
            found.append(moment)
        return found

    def end(self) -> int:
        return self.boundaries()[-1]

    def value_at(self, moment: int) -> int:
        for (value, _), boundary in zip(self.steps, self.boundaries()):
            if moment < boundary:
                return int(value)
        raise ValueError("the reversion is over")


@dataclass
class Transaction:
    owner: int
    # By point, in the order of the writes: how its lease ended, or None.
    ends: "dict[int, End | None]" = field(default_factory=dict)


@dataclass
class End:
    cause: str
    at: int
    by: int = 0

    def keys(self) -> Line:
        return {"cause": self.cause, **({"by": self.by} if self.cause == "superseded" else {})}


KINDS = ["fault", "ended", "reverted", "cut", "done"]


def forget_up_to(told: Told, place: int) -> None:
    """Lets go of what a process was told, up to this place."""
    told[:place + 1] = [None] * (place + 1)


def first_kept(told: Told) -> int:
    """The number of the first notice that is kept, one above the last where none is."""
    first = max(1, len(told) - KEPT_NOTICES + 1)
    while first <= len(told) and told[first - 1] is None:
        first += 1
    return first


@dataclass
class Notice:
    at: int
    txn: int
    kind: str
    point: int = 0
    keys: Line = field(default_factory=dict)

    def rank(self) -> tuple[int, int, int, int]:
        return self.at, self.txn, KINDS.index(self.kind), self.point

    def told(self, number: int, names: Sequence[str]) -> Line:
        point = {} if self.kind == "done" else {"point": names[self.point]}
        return {"n": number, "at": self.at, "txn": self.txn, "kind": self.kind, **point, **self.keys}


def ok(what: str, **keys: object) -> str:
    return json.dumps({"ok": what, **keys}, separators=(",", ":"))


def error(what: str, **keys: object) -> str:
    return json.dumps({"error": what, **keys}, separators=(",", ":"))


def earlier(reply: str, by: int) -> str:
    """An answer with a moment that is so much earlier."""
    return json.dumps({key: max(0, it - by) if key in ("until", "at") else it for key, it in json.loads(reply).items()}, separators=(",", ":"))


class Machine:
    def __init__(self, drivers: list[str], points: list[Point], rules: Sequence[Rule] | None = None) -> None:
        self.drivers = drivers
        self.points = points
        # None denies nothing.
        self.rules = rules
        self.names = [point.name for point in points]
        self.now = 0
        self.next = 1
        self.leases: list[Lease] = []
        self.reversions: list[Reversion] = []
        self.transactions: dict[int, Transaction] = {}
        self.done: list[int] = []
        self.processes: list[str] = []
        # Of each process all that it was told, with None for what can't be asked for any more.
        self.told: list[Told] = []
        # Of a process the number of its last numbered request that was accepted, and what that was answered.
        self.kept: dict[int, tuple[int, str]] = {}
        self.attached: dict[int, int] = {}
        self.commanded = [point.default for point in points]
        self.marks = ["pending"] * len(points)
        # Of each point the value that its device took last, and since when; None before it took one.
        self.took: list[Took | None] = [None] * len(points)
        self.wants = list(range(len(points)))
        self.lines: list[str] = []
        self.drain(self.now)

    def lasting(self) -> str:
        """What lasts, as far as it shows whether a step has changed it, which makes it an event of a journal. What is told and what becomes
        done changes with it."""
        return repr((self.now, self.next, self.leases, self.reversions, self.processes, self.kept))

    def adopt(self, drivers: list[str], points: list[Point]) -> str | None:
        """What lasts goes on under another catalogue, where points are known by their names. Why it can't, by the point's name, and then
        nothing has changed; or None, and then it has to be opened again."""
        places = {point.name: place for place, point in enumerate(points)}
        used = {point for txn, made in self.transactions.items() if txn not in self.done for point in made.ends}
        for point in sorted(used):
            if self.names[point] not in places:
                return f"in-use {self.names[point]}"
        for point in range(len(self.points)):
            values = [lease.value for lease in self.leases if lease.point == point]
            values += [value for it in self.leases + self.reversions if it.point == point for value, _ in it.steps]
            if not all(points[places[self.names[point]]].fits(value) for value in values):
                return f"unfit {self.names[point]}"

        renumbered = {old: places[name] for old, name in enumerate(self.names) if name in places}
        for part in self.leases + self.reversions:
            part.point = renumbered[part.point]
        self.transactions = {txn: made for txn, made in self.transactions.items() if made.ends.keys() <= renumbered.keys()}
        self.done = [txn for txn in self.done if txn in self.transactions]
        for made in self.transactions.values():
            made.ends = {renumbered[point]: end for point, end in made.ends.items()}
        for told in self.told:
            gone = [place for place, it in enumerate(told) if it and it.kind != "done" and it.point not in renumbered]
            forget_up_to(told, max(gone, default=-1))
            for it in told:
                if it and it.kind != "done":
                    it.point = renumbered[it.point]
        self.drivers, self.points, self.names = drivers, points, [point.name for point in points]
        return None

    def shift(self, by: int) -> int | None:
        """What lasts goes on with all its moments so much earlier, those of the past down to 0 at most; and then it has to be opened
        again. Or by how much they can be earlier at most, and then nothing has changed."""
        most = min([self.now, *(it.start for it in self.reversions)])
        if by > most:
            return most
        self.now -= by
        for lease in self.leases:
            lease.until, lease.since = lease.until - by, max(0, lease.since - by)
        for reversion in self.reversions:
            reversion.start -= by
        for past in [end for made in self.transactions.values() for end in made.ends.values()] + [it for told in self.told for it in told]:
            if past:
                past.at = max(0, past.at - by)
        self.kept = {process: (number, earlier(reply, by)) for process, (number, reply) in self.kept.items()}
        return None

    def reopen(self) -> None:
        """What lasts is opened again: nobody is attached, nothing is known of devices, and each point wants its target."""
        self.attached = {}
        self.commanded = [self.basis(point)[2] for point in range(len(self.points))]
        self.marks = ["pending"] * len(self.points)
        self.took = [None] * len(self.points)
        self.wants = list(range(len(self.points)))
        self.lines = []
        self.drain(self.now)

    def answer(self, session: int, request: Line, moment: int) -> None:
        n = self.pass_time(moment)
        self.settle()
        text = self.act(session, request, n)
        self.settle()
        self.lines.append(text)
        self.drain(n)

    def act(self, session: int, request: Line, n: int) -> str:
        """What a request is answered. Of a process that numbers its requests each is made once, as long as the rules allow it."""
        if request["op"] == "attach" and self.rules is not None and not any(fits(rule.process, request["process"]) for rule in self.rules):
            return error("denied", index=0, rule=0)
        if request["op"] == "submit" and session in self.attached and self.rules is not None:
            for place, write in enumerate(request["writes"]):
                rule = denying_rule(self.rules, self.processes[self.attached[session]], write)
                if rule is not None:
                    return error("denied", index=place, rule=rule)
        make: Callable[[int, Line, int], str] = self.page if request["op"] == "points" else getattr(self, request["op"])
        if "seq" not in request or request["op"] not in NUMBERED or session not in self.attached:
            return make(session, request, n)
        process, number = self.attached[session], request["seq"]
        kept, reply = self.kept.get(process, (0, ""))
        if kept == number:
            return reply
        if kept > number:
            return error("stale", kept=kept)
        text = make(session, request, n)
        if "ok" in json.loads(text):
            self.kept[process] = number, text
        return text

    # -- time

    def pass_time(self, moment: int) -> int:
        n = max(self.now, moment)
        expired = [lease for lease in self.leases if lease.until <= n]
        self.leases = [lease for lease in self.leases if lease.until > n]
        notices = [self.end(lease, End("expired", lease.until)) for lease in expired]
        due = {lease.until for lease in expired}
        due |= {b for reversion in self.reversions for b in reversion.boundaries() if self.now < b <= n}
        over = [reversion for reversion in self.reversions if reversion.end() <= n]
        self.reversions = [reversion for reversion in self.reversions if reversion.end() > n]
        notices += [Notice(reversion.end(), reversion.txn, "reverted", reversion.point) for reversion in over]
        self.tell(notices)
        self.now = max(due, default=self.now)
        return n

    def end(self, lease: Lease, end: End) -> Notice:
        """A lease ends and its reversion begins. What the owner is told."""
        self.transactions[lease.txn].ends[lease.point] = end
        lease.ended = end
        if lease.steps and end.cause != "superseded":
            self.reversions.append(
                Reversion(lease.txn, lease.owner, lease.point, lease.priority, lease.steps, end.at))
        return Notice(end.at, lease.txn, "ended", lease.point, end.keys())

    def tell(self, notices: list[Notice]) -> None:
        """Tells notices of parts that ended, and which transactions became done with them."""
        last: dict[int, int] = {}
        for notice in notices:
            last[notice.txn] = max(last.get(notice.txn, 0), notice.at)
        held = {part.txn for part in self.leases + self.reversions}
        done = [Notice(at, txn, "done") for txn, at in last.items() if txn not in held]
        for notice in sorted(notices + done, key=Notice.rank):
            self.told[self.transactions[notice.txn].owner].append(notice)
        self.done += [notice.txn for notice in sorted(done, key=Notice.rank)]
        while len(self.done) > KEPT_DONE:
            del self.transactions[self.done.pop(0)]

    # -- points and devices

    def basis(self, point: int) -> tuple[str, Lease | Reversion | None, int]:
        leases = [lease for lease in self.leases if lease.point == point]
        if leases:
            lease = min(leases, key=lambda lease: lease.priority)
            return "lease", lease, lease.value
        reversions = [reversion for reversion in self.reversions if reversion.point == point]
        if reversions:
            reversion = min(reversions, key=lambda reversion: reversion.priority)
            return "pending", reversion, reversion.value_at(self.now)
        return "default", None, self.points[point].default

    def settle(self) -> None:
        for point in range(len(self.points)):
            _, _, target = self.basis(point)
            if target != self.commanded[point]:
                self.commanded[point] = target
                self.marks[point] = "pending"
                self.wants = [want for want in self.wants if want != point] + [point]

    def drain(self, n: int) -> None:
        """Devices take what they are to have, at this moment."""
        while self.wants:
            point = min(self.wants, key=lambda point: self.drivers.index(self.points[point].driver))
            self.wants.remove(point)
            self.marks[point] = "settled"
            took = self.took[point]
            if took is None or took[0] != self.commanded[point]:
                self.took[point] = self.commanded[point], n
            driver, name = self.points[point].driver, self.points[point].name
            self.lines.append(f"write {driver} {name} {self.commanded[point]} ok")

    # -- commands

    def attach(self, session: int, request: Line, n: int) -> str:
        name = request["process"]
        if session in self.attached:
            return error("already", process=self.processes[self.attached[session]])
        if name not in self.processes:
            self.processes.append(name)
            self.told.append([])
            self.now = n
        process = self.processes.index(name)
        for other, held in self.attached.items():
            if held == process:
                return error("taken", session=other)
        self.attached[session] = process
        return ok("attached", process=name, next=len(self.told[process]) + 1)

    def submit(self, session: int, request: Line, n: int) -> str:
        if session not in self.attached:
            return error("not-attached")
        writes = request["writes"]
        why = self.wrong_write(writes)
        if why:
            return why
        txn, owner = self.next, self.attached[session]
        self.next += 1
        self.transactions[txn] = Transaction(owner)
        notices = [notice for write in writes for notice in self.take_slot(txn, write, n)]
        for write in writes:
            point = self.names.index(write["point"])
            self.leases.append(Lease(txn, owner, point, write.get("priority", 16), write["value"],
                                     n + write["lease"], write.get("revert", []), n))
            self.transactions[txn].ends[point] = None
        self.now = n
        self.tell(notices)
        return ok("accepted", txn=txn, until=min(n + write["lease"] for write in writes))

    def wrong_write(self, writes: list[Line]) -> str | None:
        points = [self.points[self.names.index(write["point"])] for write in writes]
        tests: list[tuple[str, Callable[[int], bool]]] = [
            ("same-point", lambda i: points[i] in points[:i]),
            ("bad-priority", lambda i: writes[i].get("priority", 16) not in {*range(1, 17)} - {6}),
            ("out-of-range", lambda i: not points[i].fits(writes[i]["value"])),
            ("bad-lease", lambda i: not 1 <= writes[i]["lease"] <= WEEK),
            ("bad-reversion", lambda i: len(writes[i].get("revert", [])) > 8 or any(
                not points[i].fits(value) or not 1 <= hold <= DAY
                for value, hold in writes[i].get("revert", []))),
        ]
        for why, fails in tests:
            for place in range(len(writes)):
                if fails(place):
                    return error(why, index=place)
        return None

    def take_slot(self, txn: int, write: Line, n: int) -> list[Notice]:
        """What stands in the slot of a write goes out. What its owners are told."""
        slot = self.names.index(write["point"]), write.get("priority", 16)
        leases = [lease for lease in self.leases if (lease.point, lease.priority) == slot]
        reversions = [reversion for reversion in self.reversions if (reversion.point, reversion.priority) == slot]
        self.leases = [lease for lease in self.leases if lease not in leases]
        self.reversions = [reversion for reversion in self.reversions if reversion not in reversions]
        for reversion in reversions:
            reversion.cut = n
        ended = [self.end(lease, End("superseded", n, txn)) for lease in leases]
        return ended + [Notice(n, cut.txn, "cut", cut.point, {"by": txn}) for cut in reversions]

    def own_transaction(self, session: int, txn: int) -> Transaction | str:
        """The transaction, or why the session may not change it."""
        if txn not in self.transactions:
            return error("unknown-txn")
        transaction = self.transactions[txn]
        return error("not-yours") if transaction.owner != self.attached[session] else transaction

    def renew(self, session: int, request: Line, n: int) -> str:
        if session not in self.attached:
            return error("not-attached")
        if not 1 <= request["length"] <= WEEK:
            return error("bad-lease", index=0)
        transaction = self.own_transaction(session, request["txn"])
        if isinstance(transaction, str):
            return transaction
        named = [self.names.index(name) for name in request.get("points", [])]
        for place, point in enumerate(named):
            if point not in transaction.ends:
                return error("not-in-txn", index=place)
        named = named or list(transaction.ends)
        for point in named:
            end = transaction.ends[point]
            if end:
                return error("ended", **end.keys(), at=end.at, moment=n)
        renewed = [lease for lease in self.leases if lease.txn == request["txn"] and lease.point in named]
        for lease in renewed:
            lease.until = max(lease.until, n + request["length"])
        self.now = n
        return ok("renewed", txn=request["txn"], until=min(lease.until for lease in renewed))

    def end_all(self, leases: list[Lease], cause: str, n: int) -> None:
        self.leases = [lease for lease in self.leases if lease not in leases]
        notices = [self.end(lease, End(cause, n)) for lease in leases]
        self.now = n
        self.tell(notices)

    def cancel(self, session: int, request: Line, n: int) -> str:
        if session not in self.attached:
            return error("not-attached")
        transaction = self.own_transaction(session, request["txn"])
        if isinstance(transaction, str):
            return transaction
        leases = [lease for lease in self.leases if lease.txn == request["txn"]]
        if not leases:
            return error("over", at=max(end.at for end in transaction.ends.values() if end))
        self.end_all(leases, "cancelled", n)
        return ok("cancelled", txn=request["txn"], at=n)

    def gone(self, session: int, request: Line, n: int) -> str:
        if session not in self.attached:
            return error("not-attached")
        leases = [lease for lease in self.leases if lease.owner == self.attached[session]]
        if leases:
            self.end_all(leases, "died", n)
        del self.attached[session]
        return ok("gone", ended=len(leases))

    # -- questions

    def tick(self, session: int, request: Line, n: int) -> str:
        return ok("tick", now=self.now)

    def read(self, session: int, request: Line, n: int) -> str:
        point = self.names.index(request["point"])
        kind, basis, value = self.basis(point)
        held = {"priority": basis.priority, "txn": basis.txn} if basis else {}
        took = self.took[point]
        other = {"took": took[0], "since": took[1]} if took is not None and took[0] != value else {}
        return ok("read", point=self.names[point], value=value, **{"from": kind}, **held, mark=self.marks[point], **other)

    def array(self, session: int, request: Line, n: int) -> str:
        point = self.names.index(request["point"])
        slots: list[Line | None] = [None] * 16
        for lease in self.leases:
            if lease.point == point:
                slots[lease.priority - 1] = {"value": lease.value, "txn": lease.txn, "until": lease.until}
        for reversion in self.reversions:
            if reversion.point == point:
                slots[reversion.priority - 1] = {
                    "value": reversion.value_at(self.now), "txn": reversion.txn, "end": reversion.end()}
        return ok("array", point=self.names[point], default=self.points[point].default, slots=slots)

    def status(self, session: int, request: Line, n: int) -> str:
        txn = request["txn"]
        if txn not in self.transactions:
            return error("unknown-txn")
        live = sum(lease.txn == txn for lease in self.leases)
        pending = sum(reversion.txn == txn for reversion in self.reversions)
        stage = "run" if live else "revert" if pending else "done"
        owner = self.processes[self.transactions[txn].owner]
        return ok("status", txn=txn, owner=owner, stage=stage, live=live, pending=pending)

    def asked_of(self, session: int, request: Line) -> Told | None:
        """What the process was told that is asked of, or None where the session holds none."""
        if "process" not in request:
            return self.told[self.attached[session]] if session in self.attached else None
        if request["process"] not in self.processes:
            return []
        return self.told[self.processes.index(request["process"])]

    def notices(self, session: int, request: Line, n: int) -> str:
        kept = self.asked_of(session, request)
        if kept is None:
            return error("not-attached")
        first = first_kept(kept)
        start = min(max(request.get("from", 1), first), len(kept) + 1)
        end = min(start + request.get("max", 16), len(kept) + 1)
        told = [it.told(number, self.names) for number, it in enumerate(kept[start - 1:end - 1], start) if it]
        return ok("notices", first=first, next=end, list=told)

    def page(self, session: int, request: Line, n: int) -> str:
        """Points of the catalogue; with the first of them, of which there are at most 32, its drivers."""
        start = request.get("from", 0)
        told = self.points[start:start + min(request.get("max", 64), 64 if start else 32)]
        return ok("points", digest=digest(self.drivers, self.points), **({} if start else {"drivers": self.drivers}), count=len(self.points),
                  next=start + len(told), list=[point.told() for point in told])

    def version(self, session: int, request: Line, n: int) -> str:
        return ok("version", program=PROGRAM_VERSION, journal=JOURNAL_VERSION, digest=digest(self.drivers, self.points),
                  points=len(self.points), drivers=len(self.drivers))
