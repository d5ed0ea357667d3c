"""What both forms of the client share: what is asked and answered, what may be refused, and which requests are none.

Nothing here opens a connection. `docs/PROTOCOL.md` describes the lines."""

import json
import socket
from datetime import timedelta
from decimal import ROUND_HALF_EVEN, Decimal
from typing import (
    TYPE_CHECKING, Any, Callable, Dict, Iterable, List, Mapping, NamedTuple, Optional, Sequence, Tuple, Type, Union,
)

# A request or a write, by its keys as docs/PROTOCOL.md names them.
Request = Dict[str, Any]
# An answer or a notice, by its keys.
Answer = Dict[str, Any]
# A value, and for how many milliseconds it is held.
Step = Tuple[int, int]

# The longest line that is taken, in bytes without its end.
LONGEST_LINE = 65_535
# The longest lease, and the longest hold of a step of a reversion, in milliseconds: a week and a day.
LONGEST_LEASE = 604_800_000
LONGEST_HOLD = 86_400_000
# How long to wait before connecting anew, in seconds.
PAUSE = 0.2
# How often the server is asked how a lease stands that is held, in seconds.
PULSE = 1.0
# How long to wait for the server when a client is closed, in seconds.
PARTING = 2.0
# How long a watch may be silent before it is connected anew, in seconds. The server ends one after a minute without a notice.
SILENCE = 90.0
# What a connection is told that no worker of the server is free for, before it is closed.
BUSY = {"error": "busy"}
# What a connection is told that shows no key that is right for its name, before it is ended.
WRONG_KEY = {"error": "wrong-key"}
# How many bytes of questions are sent before the answers to those before them are read. Twice as many may be under way: the system takes
# them even while the server reads nothing, so that neither end waits for the other.
WINDOW = 16_384


# The keys of refusals that their texts tell in words of their own.
TOLD = frozenset({"error", "index", "rule", "kept", "at", "cause", "moment", "by", "process", "session"})


class Refused(Exception):
    """A request was refused: nothing was changed by it. `error` is the refusal's word, `fields` has that and all else that was answered,
    and the fields are attributes too. `request` is what was asked, where that is known, and the text tells the point, what was asked of
    it, and what may be asked."""

    def __init__(self, fields: Mapping[str, Any], request: Optional[Mapping[str, Any]] = None) -> None:
        self._fields, self.request = dict(fields), request
        self.error: str = self._fields.get("error", "")
        super().__init__(self._text())

    def __reduce__(self) -> Tuple[Any, ...]:
        return type(self), (self._fields, self.request)

    if not TYPE_CHECKING:
        def __getattr__(self, name: str) -> Any:
            # A field is never in the way of an attribute that this class has, whatever a server calls it.
            fields = self.__dict__.get("_fields", {})
            if name.startswith("_") or name not in fields:
                raise AttributeError(f"{type(self).__name__!r} object has no attribute {name!r}")
            return fields[name]

    @property
    def fields(self) -> Answer:
        """The refusal's word and its other fields."""
        return dict(self._fields)

    @property
    def write(self) -> Mapping[str, Any]:
        """The write that was refused; an empty dict where it is none, or not known which."""
        return self._place()[1]

    @property
    def point(self) -> Optional[str]:
        """The name of the point that it is about, where it is about one and was asked for by this client."""
        name = self.write.get("point") or self._place()[2]
        return name if isinstance(name, str) else None

    def _place(self) -> Tuple[str, Mapping[str, Any], object]:
        """Where in the request the fault is, the write that stands there, or what else does."""
        request, index = self.request or {}, self._fields.get("index")
        for key in ("writes", "points"):
            listed = request.get(key)
            if isinstance(listed, (list, tuple)) and isinstance(index, int) and 0 <= index < len(listed):
                one = listed[index]
                return (f"{key}[{index}]", one, None) if isinstance(one, Mapping) else (f"{key}[{index}]", {}, one)
        return "", {}, request.get("point")

    def _text(self) -> str:
        why = self._why() if self.request is not None else ""
        told = TOLD if why else {"error"}
        rest = " ".join(f"{key}={value}" for key, value in self._fields.items() if key not in told)
        place = self._place()[0] if why else ""
        return " ".join(filter(None, (": ".join(filter(None, (self.error, place, why))), rest)))

    def _why(self) -> str:
        """What the text says of a request that is known."""
        return ""

    def _asked(self, key: str) -> Any:
        return (self.request or {}).get(key)


class Malformed(Refused):
    """A key is missing, of another kind or out of its range. The client finds this before it sends anything: `key` is the key at
    fault, as `writes[0].value`, `found` what stood there, and `wanted` what may stand there. Where it was the server that found
    it, `key` is what the server said, or None, and the other two are None."""

    def __init__(self, fields: Mapping[str, Any], request: Optional[Mapping[str, Any]] = None) -> None:
        self.key: Optional[str] = fields.get("key")
        self.found: Optional[str] = fields.get("found")
        self.wanted: Optional[str] = fields.get("wanted")
        super().__init__(fields, request)

    def _text(self) -> str:
        what = f": found {self.found}; wanted {self.wanted}" if self.wanted is not None else ""
        return self.error + ("" if self.key is None else f": {self.key}{what}")


class UnknownOp(Refused):
    """There is no such operation on a connection."""


class UnknownPoint(Refused):
    """`index`: this write, or this one of the points, counted from 0, names no point of the catalogue."""

    index: int

    def _why(self) -> str:
        return f"the catalogue has no point {self.point}"


class NotAttached(Refused):
    """The client speaks for no process."""


class WrongKey(Refused):
    """The server knows processes by keys, and the connection showed none that is right for its name, or asked to be another process later. It
    has ended, and nothing of the request was made. `name` is whose key was shown, None where none was. Asking again brings the same answer:
    it is for whoever keeps the server's file of keys. The key is in no text."""

    def __init__(self, fields: Mapping[str, Any], request: Optional[Mapping[str, Any]] = None, name: Optional[str] = None) -> None:
        self.name = name
        super().__init__(fields, request)

    def __reduce__(self) -> Tuple[Any, ...]:
        return type(self), (self._fields, self.request, self.name)

    def _text(self) -> str:
        return f"{self.error}: " + ("the server wants a key, and none was shown with a name" if self.name is None else
                                    f"the server has no such key for {self.name}")


class Denied(Refused):
    """The server's access rules do not let the process make this write, so nothing of the request was made. `index`: the write, counted
    from 0. `rule`: the rule that decided, counted from 1 in the server's file; 0 where no rule is for it. Of an attach: no rule is for the
    name, so nobody may be the process, and both are 0. Asking again brings the same answer: show it to whoever wrote the program, or keeps
    the rules."""

    index: int
    rule: int

    def _why(self) -> str:
        if self._asked("op") == "attach":
            return f"the process {self._asked('process')}, since no rule is for it"
        rule = self._fields.get("rule")
        return f"{self.point} at priority {self.write.get('priority', 16)}, " + (f"by rule {rule}" if rule else "since no rule is for it")


class Stale(Refused):
    """`kept`: a request of the process with this greater number was accepted: somebody else numbers its requests too."""

    kept: int

    def _why(self) -> str:
        return f"number {self._asked('seq')} after number {self._fields.get('kept')}, which was accepted"


class SamePoint(Refused):
    """`index`: an earlier write is on the same point."""

    index: int

    def _why(self) -> str:
        return f"an earlier write is on {self.point} too"


class BadPriority(Refused):
    """`index`: the priority of this write is outside 1 to 16, or 6."""

    index: int

    def _why(self) -> str:
        return f"{self.point} at priority {self.write.get('priority')}: 1 to 16 may be, but not 6"


class OutOfRange(Refused):
    """`index`: the value of this write does not fit its point."""

    index: int

    def _why(self) -> str:
        return (f"{self.point} does not take {self.write.get('value')}: thousandths of the unit at an analog point, 0 or 1 at a binary one, a "
                "state from 1 on at a multi-state one, within the point's bounds")


class BadLease(Refused):
    """`index`: this lease, or the length of a renewal, is outside 1 to 604,800,000 milliseconds, which is a week."""

    index: int

    def _why(self) -> str:
        what = f"a renewal for {self._asked('length')}" if self._asked("op") == "renew" else f"{self.point} for {self.write.get('lease')}"
        return f"{what} milliseconds: 1 to {LONGEST_LEASE} may be, which is a week"


class BadReversion(Refused):
    """`index`: the reversion of this write has more than 8 steps, a hold of no or more than a day, or a value that does not fit."""

    index: int

    def _why(self) -> str:
        return (f"{self.point} with revert {self.write.get('revert')}: at most 8 pairs may be, of a value that fits the point and of 1 to "
                f"{LONGEST_HOLD} milliseconds")


class UnknownTransaction(Refused):
    """No transaction of this number is kept; of those that are done at most 1,024 are, the last ones."""

    def _why(self) -> str:
        return f"no transaction {self._asked('txn')} is kept"


class NotYours(Refused):
    """The transaction is another process's."""

    def _why(self) -> str:
        return f"transaction {self._asked('txn')} is another process's"


class NotInTransaction(Refused):
    """`index`: the transaction did not write this one of the points."""

    index: int

    def _why(self) -> str:
        return f"transaction {self._asked('txn')} did not write {self.point}"


class Ended(Refused):
    """A lease that was to be renewed ended at the moment `at`. `cause` is "expired", "cancelled", "died", "fault" or "superseded",
    and then `by` is the transaction that took its slot; else that is None. `moment` is when the renewal came."""

    cause: str
    at: int
    moment: int

    @property
    def by(self) -> Optional[int]:
        return self._fields.get("by")

    def _why(self) -> str:
        by = "" if self.by is None else f" by transaction {self.by}"
        return f"a lease of transaction {self._asked('txn')} ended at {self._fields.get('at')}: {self._fields.get('cause')}{by}"


class Over(Refused):
    """A cancel of a transaction without a live lease: the last one ended at the moment `at`."""

    at: int

    def _why(self) -> str:
        return f"transaction {self._asked('txn')} has no live lease since {self._fields.get('at')}"


class Already(Refused):
    """`process`: the client speaks for this process already."""

    process: str

    def _why(self) -> str:
        return f"this connection speaks for {self._fields.get('process')}"


class Taken(Refused):
    """`session`: this other connection speaks for the process."""

    session: int

    def _why(self) -> str:
        return f"another connection, session {self._fields.get('session')}, speaks for {self._asked('process')}"


class TooManyProcesses(Refused):
    """256 names of processes are known, and this is another one."""

    def _why(self) -> str:
        return f"256 names are known, and {self._asked('process')} is another one"


class Spent(Refused):
    """The last transaction number was given."""


class TooLong(Refused):
    """The line has more than 65,535 bytes."""


class NoMemory(Refused):
    """The server is out of memory for this request; it may be asked again."""


class Stopped(Refused):
    """The server's disk failed. It keeps nothing any more until it is started anew."""


REFUSALS: Dict[str, Type[Refused]] = {
    "malformed": Malformed, "wrong-key": WrongKey, "unknown-op": UnknownOp, "unknown-point": UnknownPoint, "not-attached": NotAttached, "denied": Denied,
    "stale": Stale, "same-point": SamePoint, "bad-priority": BadPriority, "out-of-range": OutOfRange, "bad-lease": BadLease,
    "bad-reversion": BadReversion, "unknown-txn": UnknownTransaction, "not-yours": NotYours, "not-in-txn": NotInTransaction,
    "ended": Ended, "over": Over, "already": Already, "taken": Taken, "too-many-processes": TooManyProcesses, "spent": Spent,
    "too-long": TooLong, "memory": NoMemory, "stopped": Stopped,
}


class Unanswered(ConnectionError):
    """No answer came in time. `request` is what was asked: whether it was made is not known. Where it has a number, `Client.ask`
    may be given it again, before any other numbered request, and it is made once. `__cause__` is what went wrong last. A key that a
    program put into the request itself is left out of the text."""

    def __init__(self, request: Mapping[str, Any], why: str = "") -> None:
        told = {name: value for name, value in request.items() if name != "key"}
        super().__init__(f"no answer to {json.dumps(told, default=repr)}" + (f": {why}" if why else ""))
        self.request = request
        self.why = why

    def __reduce__(self) -> Tuple[Any, ...]:
        return type(self), (self.request, self.why)


class Busy(Unanswered):
    """No answer came in time, and all the server's workers had a connection: it closed those that were made for the request, and took
    nothing of them. Whether the request was made over an earlier connection is not known. Let the server have more workers, or end
    connections that need not be open."""


class TurnedAway(ConnectionError):
    """The server closed a connection that none of its workers was free for. Nothing was taken of it."""

    def __init__(self) -> None:
        super().__init__("all workers of the server are busy: give it more, or end connections that need not be open")


class UnknownHost(ConnectionError):
    """There is no host of the address's name."""


class Accepted(NamedTuple):
    """A transaction that holds its slots; `until` is the first moment at which one of its leases ends."""
    txn: int
    until: int


class Reading(NamedTuple):
    """The value that a point is to have, and what it rests on: `basis` is "lease", "pending" (a reversion under way) or "default",
    and for the first two there are `priority` and `txn`. `mark` says how far the device has come: "settled", "pending", "failed"; it
    was found with another value than the one that it had taken `differed` times since the server was started. `took` is the value that it
    took last, where that is another one than `value`, and `since` the moment from which on it has been told to have it; else both are None,
    also where it took nothing yet since the server was started."""
    point: str
    value: int
    basis: str
    mark: str
    priority: Optional[int] = None
    txn: Optional[int] = None
    differed: int = 0
    took: Optional[int] = None
    since: Optional[int] = None


class Slot(NamedTuple):
    """What stands in a slot: a lease up to the moment `until`, or a reversion up to the moment `end`; the other is None."""
    value: int
    txn: int
    until: Optional[int] = None
    end: Optional[int] = None


class Slots(NamedTuple):
    """The slots of a point, by priority, as far as something stands in them, and the value where nothing does."""
    point: str
    default: int
    slots: Dict[int, Slot]


class Status(NamedTuple):
    """How far a transaction of the process `owner` has come: `stage` is "run", "revert" or "done"; it has `live` leases and `pending`
    reversions under way."""
    txn: int
    owner: str
    stage: str
    live: int
    pending: int


class Notice(NamedTuple):
    """What a process was told at the moment `at`, as its `n`-th notice, from 1: `kind` is "fault", "ended" (with its `cause`, and `by`
    where that is "superseded"), "reverted", "cut" (with `by`, the transaction that took the slot) or "done" (without a point)."""
    n: int
    at: int
    txn: int
    kind: str
    point: Optional[str] = None
    cause: Optional[str] = None
    by: Optional[int] = None


class Point(NamedTuple):
    """A point of the catalogue. `kind` is "analog" (with `min` and `max`, thousandths of the unit), "binary" or "multi" (with `states`,
    how many there are). `min_on` and `min_off` are its minimum times, in milliseconds, 0 where it has none."""
    name: str
    kind: str
    default: int
    driver: str
    min: Optional[int] = None
    max: Optional[int] = None
    states: Optional[int] = None
    min_on: int = 0
    min_off: int = 0


class Points(NamedTuple):
    """The catalogue of a server: its digest, 64 hexadecimal digits, the names of its drivers, and its points, each in their order."""
    digest: str
    drivers: List[str]
    list: List[Point]


class Version(NamedTuple):
    """Which program serves, the version of the journals that it begins, and its catalogue's digest and how many points and drivers that
    has."""
    program: str
    journal: int
    digest: str
    points: int
    drivers: int


class Notices(NamedTuple):
    """Notices of a process; `first` is the least number that is kept, `next` the number to ask from next."""
    first: int
    next: int
    list: List[Notice]


def thousandths(units: Union[int, float, str, Decimal], *, exact: bool = False) -> int:
    """The value of so many units at an analog point: 21.5 is 21500. It is rounded to the next thousandth, and to the even one of two that
    are as near; with `exact` it is not, and ValueError says that it is no whole number of them. ValueError for what is no number."""
    try:
        value = Decimal(str(units)) * 1000
    except ArithmeticError:
        raise ValueError(f"{units!r} is no number of units") from None
    if not value.is_finite():
        raise ValueError(f"{units} is no value: wanted a finite number of units")
    rounded = value.to_integral_value(ROUND_HALF_EVEN)
    if exact and value != rounded:
        raise ValueError(f"{units} is no whole number of thousandths")
    return int(rounded)


def units(value: int) -> float:
    """The units of a value of an analog point: 21500 is 21.5. `thousandths` of it gives the value again, for each value that a point may
    have."""
    return value / 1000


def milliseconds(**parts: float) -> int:
    """A length of time: `milliseconds(hours=1, minutes=30)`. The parts are those of datetime.timedelta."""
    return timedelta(**parts) // timedelta(milliseconds=1)


def write(point: str, value: int, *, lease: int, priority: int = 16, revert: Iterable[Sequence[int]] = ()) -> Request:
    """A write for `submit` and `hold`: the value is held on the point for `lease` milliseconds, 1 to 604,800,000. `revert` is played
    when the lease ends otherwise than by supersession: at most 8 pairs of a value and for how many milliseconds it is held, 1 to
    86,400,000. Malformed where `revert` is no such list: its key is the place, as `revert[0]`."""
    return {"point": point, "value": value, "priority": priority, "lease": lease, "revert": steps_of(revert)}


def steps_of(revert: Iterable[Sequence[int]]) -> List[Any]:
    """The steps of a reversion, as lists. Malformed."""
    try:
        steps = list(revert)
    except TypeError:
        raise wrong("revert", f"an array of {A_PAIR}s", revert) from None
    for place, step in enumerate(steps):
        a_step(f"revert[{place}]", list(step) if isinstance(step, Sequence) and not isinstance(step, (str, bytes)) else step)
    return [list(step) for step in steps]


# ---- addresses

def host_and_port(address: str) -> Tuple[str, int]:
    """The two parts of an address, "HOST:PORT". ValueError where it is none."""
    host, colon, port = address.rpartition(":")
    if not colon or (":" in host and not (host.startswith("[") and host.endswith("]"))):
        raise ValueError(f"{address!r} has no port: an address is HOST:PORT, as 127.0.0.1:7000 or [::1]:7000")
    if not (port.isascii() and port.isdigit() and 1 <= int(port) <= 65_535):
        raise ValueError(f"{port!r} in {address!r} is no port: that is a number of 1 to 65535")
    if not host.strip("[]"):
        raise ValueError(f"{address!r} has no host: an address is HOST:PORT, as 127.0.0.1:7000")
    return host.strip("[]"), int(port)


def prepare(link: socket.socket) -> None:
    """Sets a connection up as a client wants it."""
    link.setsockopt(socket.IPPROTO_TCP, socket.TCP_NODELAY, 1)
    # A server whose machine went away without a word is found out.
    link.setsockopt(socket.SOL_SOCKET, socket.SO_KEEPALIVE, 1)


def acknowledge(link: Any) -> None:
    """Has what comes next acknowledged at once, where the system can: the server sends each answer by itself, and its system holds the
    last ones of many back, for up to 40 ms, until those before are acknowledged."""
    if hasattr(socket, "TCP_QUICKACK"):
        link.setsockopt(socket.IPPROTO_TCP, socket.TCP_QUICKACK, 1)


def no_such_host(address: str, error: socket.gaierror) -> Optional[UnknownHost]:
    """What to raise where a name has no address; None where it may have one in a moment."""
    if error.errno != socket.EAI_NONAME:
        return None
    return UnknownHost(f"{host_and_port(address)[0]}: there is no such host")


# ---- which requests are none

Check = Callable[[str, object], None]

NAME_CHARACTERS = frozenset("abcdefghijklmnopqrstuvwxyz0123456789._-")
LONGEST_NAME = 64
GREATEST_WHOLE = (1 << 63) - 1
GREATEST_NUMBER = (1 << 62) - 1


class Said:
    """Something that is shown by these words."""

    def __init__(self, words: str) -> None:
        self.words = words

    def __repr__(self) -> str:
        return self.words


NOTHING = Said("nothing")


def wrong(key: str, wanted: str, found: object) -> Malformed:
    """The refusal of what stands under a key."""
    shown = repr(found)
    return Malformed({"error": "malformed", "key": key, "found": shown if len(shown) <= 80 else shown[:77] + "...", "wanted": wanted})


def is_name(text: object) -> bool:
    """Whether this is a name, of a process, a point or a driver."""
    return isinstance(text, str) and 1 <= len(text) <= LONGEST_NAME and NAME_CHARACTERS.issuperset(text)


def a_name(key: str, found: object) -> None:
    if not is_name(found):
        raise wrong(key, "1 to 64 characters of a-z 0-9 . _ -", found)


def a_text(key: str, found: object) -> None:
    if not isinstance(found, str):
        raise wrong(key, "a text", found)


def a_policy(key: str, found: object) -> None:
    if found not in ("abort", "keep"):
        raise wrong(key, '"abort" or "keep"', found)


def whole(least: int, most: int, what: str = "") -> Check:
    """The check for whole numbers from `least` to `most`."""
    def check_whole(key: str, found: object) -> None:
        if not isinstance(found, int) or isinstance(found, bool) or not least <= found <= most:
            raise wrong(key, f"a whole number of {least} to {most}{what}", found)
    return check_whole


def several(least: int, most: Optional[int], one: Check) -> Check:
    """The check for arrays of so many items, each of which passes the check `one`."""
    wanted = f"an array of {least} to {most}" if most else "an array"

    def check_several(key: str, found: object) -> None:
        if not isinstance(found, (list, tuple)):
            raise wrong(key, wanted, found)
        if len(found) < least or (most and len(found) > most):
            raise wrong(key, wanted, Said(f"an array of {len(found)}"))
        for place, item in enumerate(found):
            one(f"{key}[{place}]", item)
    return check_several


def table(required: Mapping[str, Check], optional: Mapping[str, Check]) -> Check:
    """The check for objects with these keys. Others are passed over."""
    def check_table(key: str, found: object) -> None:
        if not isinstance(found, Mapping):
            raise wrong(key, "an object", found)
        before = f"{key}." if key else ""
        for name, check in required.items():
            check(before + name, found.get(name, NOTHING))
        for name, check in optional.items():
            if name in found:
                check(before + name, found[name])
    return check_table


ANY_WHOLE = whole(-GREATEST_WHOLE - 1, GREATEST_WHOLE)
A_VALUE = whole(-GREATEST_WHOLE - 1, GREATEST_WHOLE, " (thousandths of the unit at an analog point)")
A_LENGTH = whole(-GREATEST_WHOLE - 1, GREATEST_WHOLE, " (milliseconds)")
A_TXN = whole(0, GREATEST_WHOLE)


A_PAIR = "pair of a value and how long it is held, in milliseconds"


def a_step(key: str, found: object) -> None:
    if not isinstance(found, (list, tuple)) or len(found) != 2:
        raise wrong(key, f"a {A_PAIR}", found)
    A_VALUE(f"{key}[0]", found[0])
    A_LENGTH(f"{key}[1]", found[1])


A_WRITE = table({"point": a_text, "value": A_VALUE, "lease": A_LENGTH}, {"priority": ANY_WHOLE, "revert": several(0, None, a_step)})
SEQ = {"seq": whole(1, GREATEST_NUMBER)}
FROM = {"from": whole(1, GREATEST_WHOLE)}

# What each operation on a connection is checked for.
REQUESTS: Dict[str, Check] = {
    "attach": table({"process": a_name}, {}),
    "submit": table({"writes": several(1, 32, A_WRITE)}, {"policy": a_policy, **SEQ}),
    "renew": table({"txn": A_TXN, "length": A_LENGTH}, {"points": several(1, 32, a_text), **SEQ}),
    "cancel": table({"txn": A_TXN}, SEQ),
    "read": table({"point": a_text}, {}),
    "array": table({"point": a_text}, {}),
    "status": table({"txn": A_TXN}, {}),
    "notices": table({}, {"process": a_name, **FROM, "max": whole(1, 64)}),
    "points": table({}, {"from": whole(0, 1 << 62), "max": whole(1, 64)}),
    "version": table({}, {}),
    "watch": table({"process": a_name}, FROM),
}


def check(request: Mapping[str, Any]) -> None:
    """Malformed, with the key at fault, where the server would answer so. An operation that is not known here is left to the
    server."""
    a_text("op", request.get("op", NOTHING))
    one = REQUESTS.get(request["op"])
    if one is not None:
        one("", request)


# ---- lines

def line_of(request: Mapping[str, Any]) -> bytes:
    """The line that asks this. Malformed where it is no request; ValueError where it is longer than a line may be."""
    check(request)
    line = json.dumps(request, separators=(",", ":")).encode()
    if len(line) > LONGEST_LINE:
        raise ValueError(f"a line of {len(line)} bytes; {LONGEST_LINE} is the most")
    return line + b"\n"


def refusal_of(answer: Answer, request: Optional[Mapping[str, Any]] = None) -> Optional[Refused]:
    """The refusal that an answer is, if it is one, of a request where that is known."""
    return REFUSALS.get(answer["error"], Refused)(answer, request) if "error" in answer else None


def answer_of(line: Union[bytes, str], request: Optional[Mapping[str, Any]] = None) -> Answer:
    """The answer that a line tells, as a dict; raises the Refused that it may be, of a request where that is given."""
    answer: Answer = json.loads(line)
    refused = refusal_of(answer, request)
    if refused is not None:
        raise refused
    return answer


def heard(line: bytes) -> bytes:
    """The same line, where it answers a request. TurnedAway; ConnectionError where it has no end."""
    if not line.endswith(b"\n"):
        raise ConnectionError("the connection ended before the answer")
    if len(line) < 32 and json.loads(line) == BUSY:
        raise TurnedAway()
    return line


def is_wrong_key(line: bytes) -> bool:
    """Whether a line that was heard says that the connection showed no right key."""
    return len(line) < 32 and json.loads(line) == WRONG_KEY


def windows(lines: Sequence[bytes]) -> List[List[bytes]]:
    """The lines in parts of at most WINDOW bytes, or of one line that is longer."""
    parts: List[List[bytes]] = []
    size = WINDOW
    for line in lines:
        size += len(line)
        if size > WINDOW:
            parts.append([])
            size = len(line)
        parts[-1].append(line)
    return parts


# ---- requests, and what their answers say: keys that a later server adds are passed over

def submission(writes: Iterable[Mapping[str, Any]], policy: str = "abort") -> Request:
    """A request that sets several points."""
    return {"op": "submit", "writes": [dict(one) for one in writes], "policy": policy}


def renewal(txn: int, length: int, points: Iterable[str] = ()) -> Request:
    """A request that renews leases of a transaction: those on these points, or all."""
    named = list(points)
    return {"op": "renew", "txn": txn, "length": length, **({"points": named} if named else {})}


def notices_from(process: Optional[str], first: int, most: int) -> Request:
    """A request for notices of a process, or of the session's own."""
    named = {} if process is None else {"process": process}
    return {"op": "notices", "from": first, "max": most, **named}


def reading_of(answer: Answer) -> Reading:
    """What the answer to a `read` says."""
    return Reading(answer["point"], answer["value"], answer["from"], answer["mark"], answer.get("priority"), answer.get("txn"),
                   answer.get("differed", 0), answer.get("took"), answer.get("since"))


def slots_of(answer: Answer) -> Slots:
    """What the answer to an `array` says."""
    taken = {priority: Slot(slot["value"], slot["txn"], slot.get("until"), slot.get("end"))
             for priority, slot in enumerate(answer["slots"], 1) if slot}
    return Slots(answer["point"], answer["default"], taken)


def status_of(answer: Answer) -> Status:
    """What the answer to a `status` says."""
    return Status(answer["txn"], answer["owner"], answer["stage"], answer["live"], answer["pending"])


def notices_of(answer: Answer) -> Notices:
    """What the answer to a `notices` says."""
    return Notices(answer["first"], answer["next"], [notice_of(notice) for notice in answer["list"]])


def notice_of(notice: Answer) -> Notice:
    """What a line of a watch says, or an item of the list in the answer to a `notices`."""
    return Notice(notice["n"], notice["at"], notice["txn"], notice["kind"], notice.get("point"), notice.get("cause"), notice.get("by"))


def version_of(answer: Answer) -> Version:
    """What the answer to a `version` says."""
    return Version(answer["program"], answer["journal"], answer["digest"], answer["points"], answer["drivers"])


def point_of(told: Answer) -> Point:
    """A point, as an answer has it."""
    return Point(told["point"], told["kind"], told["default"], told["driver"], told.get("min"), told.get("max"), told.get("states"),
                 told.get("min_on", 0), told.get("min_off", 0))


class Gathering:
    """The points of a server, gathered from the answers to `points`. Where the server was started anew under another catalogue meanwhile,
    it begins again."""

    def __init__(self) -> None:
        self.next = 0
        self.digest = ""
        self.drivers: List[str] = []
        self.points: List[Point] = []

    def request(self) -> Request:
        """What to ask next."""
        return {"op": "points", "from": self.next}

    def is_done_with(self, answer: Answer) -> bool:
        """Takes the answer, and says whether all are there."""
        if self.next and answer["digest"] != self.digest:
            self.next, self.points = 0, []
            return False
        self.digest, self.drivers = answer["digest"], answer.get("drivers", self.drivers)
        self.points += [point_of(told) for told in answer["list"]]
        self.next = answer["next"]
        return not answer["list"] or self.next >= answer["count"]

    def gathered(self) -> Points:
        return Points(self.digest, self.drivers, self.points)
