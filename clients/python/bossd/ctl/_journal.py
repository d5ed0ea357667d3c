"""Reads the files of a journal: its events, and the kept state that they go on from. docs/FORMATS.md describes the bytes."""

import hashlib
import os
from typing import Any, Dict, Iterator, List, NamedTuple, Optional, Sequence, Tuple

from ._toml import Failure

JOURNAL, STATE = b"OSSJRNL", b"OSSSNAP"
HEADER = 41
GATE_SHUT = 0
MOST_EVENTS = 1 << 62
LONGEST_RECORD = 65_535
# So many bytes of a file say what it is, and how long the state is that it begins with.
FRONT = 74
# Records and kept states have sums of so many bytes from this version on, and a kept state the seed of its sums too.
FIRST_WITH_SUMS, SUM = 3, 8
NEWEST = 3
DEFAULT = "/var/lib/bossd/journal"

CAUSES = ("expired", "cancelled", "died", "fault", "superseded")
REPLIES = ("none", "accepted", "renewed", "cancelled")


class Damaged(Exception):
    """At this byte of the file stands what no journal has."""

    def __init__(self, place: int) -> None:
        super().__init__(f"damaged at byte {place}")
        self.place = place


class WrongSum(Damaged):
    """A whole record stands at this gate, and its sum is wrong."""


class Bytes:
    """Bytes that are read one after another. IndexError where they end."""

    def __init__(self, data: bytes, place: int = 0) -> None:
        self.data, self.place = data, place

    def whole(self, size: int, signed: bool = False) -> int:
        return int.from_bytes(self.take(size), "big", signed=signed)

    def take(self, size: int) -> bytes:
        end = self.place + size
        if end > len(self.data):
            raise IndexError
        taken, self.place = self.data[self.place:end], end
        return taken

    def text(self) -> str:
        return self.take(self.whole(1)).decode("ascii", "replace")


class Write(NamedTuple):
    """A write of a submit: `point` is its place in the catalogue, `steps` are its reversion."""
    point: int
    value: int
    priority: int
    lease: int
    steps: List[Tuple[int, int]]


class Event(NamedTuple):
    """What a record tells, at the moment `at`, in milliseconds. `kind` is "process", "submit", "renewal", "cancel", "lost", "time" or
    "failed"; what does not belong to it is None or empty. `owner` is the place of a process, `points` are places in the catalogue."""
    kind: str
    at: int
    owner: Optional[int] = None
    name: Optional[str] = None
    txn: Optional[int] = None
    seq: Optional[int] = None
    policy: Optional[str] = None
    length: Optional[int] = None
    points: Tuple[int, ...] = ()
    writes: Tuple[Write, ...] = ()


class Process(NamedTuple):
    """A process, and how many notices it has had."""
    name: str
    notices: int


class Transaction(NamedTuple):
    """A transaction that a kept state has: its owner's place, and the slots that it took, as pairs of a point and a priority."""
    txn: int
    owner: int
    policy: str
    slots: List[Tuple[int, int]]


class Lease(NamedTuple):
    """A live lease of a kept state."""
    txn: int
    owner: int
    point: int
    priority: int
    value: int
    until: int
    steps: List[Tuple[int, int]]


class Reversion(NamedTuple):
    """A reversion under way in a kept state, from the moment `start` on."""
    txn: int
    owner: int
    point: int
    priority: int
    start: int
    steps: List[Tuple[int, int]]


class State(NamedTuple):
    """What lasts, at the moment `now`; `next` is the number of the next transaction, `done` those that are done and still known."""
    now: int
    next: int
    processes: List[Process]
    transactions: List[Transaction]
    done: List[int]
    leases: List[Lease]
    reversions: List[Reversion]


NEW = State(0, 1, [], [], [], [], [])


class Journal(NamedTuple):
    """The file of a pair that is in force: `before` events led to `state`, and after them come those of the log. `generation` is None
    where the log begins with the first event, and `seed` is None where the records have no sums. `spelled` are the bytes of the state."""
    path: str
    version: int
    digest: bytes
    generation: Optional[int]
    before: int
    state: State
    spelled: bytes
    seed: Optional[bytes]
    data: bytes
    gate: int

    def events(self) -> Iterator[Tuple[int, Event]]:
        """The events of the log, each with its number, counted from the first that the journal ever had. Damaged."""
        number, gate = self.before, self.gate
        while True:
            record, after = record_at(self.data, gate, self.seed)
            if record is None:
                return
            for event in events_of(record, self.version, gate):
                number += 1
                yield number, event
            gate = after

    def hidden(self) -> Optional[int]:
        """The gate that ends the log, where a right record stands behind it, and behind its next gate, which is open, another one. No stop
        leaves that: the gate was changed. None where that is not so, or where the records have no sums. Damaged."""
        gate = self.gate
        while self.seed is not None:
            record, after = record_at(self.data, gate, self.seed)
            if record is None:
                return gate if self._goes_on(gate) else None
            gate = after
        return None

    def _goes_on(self, gate: int) -> bool:
        try:
            _, after = record_behind(self.data, gate, self.seed)
            return self.data[after] == 1 and record_behind(self.data, after, self.seed)[1] > after
        except Damaged:
            return False


def seed_of(front: bytes) -> bytes:
    """The seed of a disk's sums, by the bytes before its first gate, or by the first 65 of them."""
    return hashlib.sha256(front[1:65]).digest()[:SUM]


def sum_of(seed: bytes, gate: int, record: bytes) -> bytes:
    return hashlib.sha256(seed + gate.to_bytes(8, "big") + record).digest()[:SUM]


def sealed(seed: Optional[bytes], gate: int, record: bytes) -> bytes:
    """What stands on a disk for a record whose gate is at this place."""
    return record if seed is None else record + sum_of(seed, gate, record)


def record_at(data: bytes, gate: int, seed: Optional[bytes] = None, place: Optional[int] = None) -> Tuple[Optional[bytes], int]:
    """The record after a gate, without its sum, and the next gate; None where the gate is shut. `place` is the gate's on its disk, where
    the data are a part of it. Damaged."""
    if gate >= len(data):
        raise Damaged(gate)
    return (None, gate) if data[gate] != 1 else record_behind(data, gate, seed, place)


def record_behind(data: bytes, gate: int, seed: Optional[bytes], place: Optional[int] = None) -> Tuple[bytes, int]:
    """The same, whatever the gate is."""
    source = Bytes(data, gate + 1)
    try:
        size = source.whole(4)
        if size > LONGEST_RECORD:
            raise Damaged(gate)
        record = source.take(size)
        if source.place >= len(data):
            raise IndexError
    except IndexError:
        raise Damaged(gate) from None
    if seed is None:
        return record, source.place
    record, kept = record[:-SUM], record[-SUM:]
    if kept != sum_of(seed, gate if place is None else place, record):
        raise WrongSum(gate)
    return record, source.place


def events_of(record: bytes, version: int, gate: int) -> List[Event]:
    source, found = Bytes(record), []
    try:
        while source.place < len(record):
            found.append(event_of(source, version))
    except (IndexError, KeyError):
        raise Damaged(gate) from None
    return found


def event_of(source: Bytes, version: int) -> Event:
    """The next event. IndexError or KeyError where there is none."""
    kind, at = source.whole(1), source.whole(8)
    if kind == 1:
        return Event("process", at, name=source.text())
    if kind == 6:
        return Event("time", at)
    if kind == 7:
        return Event("failed", at, points=(source.whole(4),))
    owner = source.whole(2)
    if kind == 5:
        return Event("lost", at, owner)
    seq = source.whole(8) if kind >= 8 and version >= 2 else None
    plain = kind - 6 if seq is not None else kind
    if plain == 2:
        policy = {0: "abort", 1: "keep"}[source.whole(1)]
        writes = tuple(write_of(source) for _ in range(source.whole(1)))
        return Event("submit", at, owner, seq=seq, policy=policy, writes=writes)
    if plain == 3:
        txn, length = source.whole(8), source.whole(4)
        return Event("renewal", at, owner, txn=txn, seq=seq, length=length, points=tuple(source.whole(4) for _ in range(source.whole(1))))
    if plain == 4:
        return Event("cancel", at, owner, txn=source.whole(8), seq=seq)
    raise KeyError(kind)


def write_of(source: Bytes) -> Write:
    return Write(source.whole(4), source.whole(8, True), source.whole(1), source.whole(4), steps_of(source))


def steps_of(source: Bytes) -> List[Tuple[int, int]]:
    return [(source.whole(8, True), source.whole(4)) for _ in range(source.whole(1))]


# ---- kept states

def state_of(data: bytes, version: int) -> State:
    """A kept state. IndexError or KeyError where the bytes are none."""
    source = Bytes(data)
    now, following = source.whole(8), source.whole(8)
    processes = [process_of(source, version) for _ in range(source.whole(2))]
    transactions = [transaction_of(source) for _ in range(source.whole(4))]
    done = [source.whole(8) for _ in range(source.whole(2))]
    leases = [lease_of(source) for _ in range(source.whole(4))]
    reversions = [reversion_of(source) for _ in range(source.whole(4))]
    if source.place != len(data):
        raise IndexError
    return State(now, following, processes, transactions, done, leases, reversions)


def process_of(source: Bytes, version: int) -> Process:
    name, notices = source.text(), source.whole(8)
    for _ in range(source.whole(2)):
        skip_notice(source)
    if version >= 2 and REPLIES[source.whole(1)] != "none":
        source.take(24)
    return Process(name, notices)


def skip_notice(source: Bytes) -> None:
    source.take(16)
    kind = source.whole(1)
    if kind in (1, 2, 3, 4):
        source.take(4)
    if kind == 2:
        cause_of(source)
    elif kind == 4:
        source.take(8)
    elif kind not in (1, 3, 5):
        raise KeyError(kind)


def cause_of(source: Bytes) -> str:
    cause = CAUSES[source.whole(1)]
    if cause == "superseded":
        source.take(8)
    return cause


def transaction_of(source: Bytes) -> Transaction:
    txn, owner, policy = source.whole(8), source.whole(2), {0: "abort", 1: "keep"}[source.whole(1)]
    slots = []
    for _ in range(source.whole(1)):
        slots.append((source.whole(4), source.whole(1)))
        if source.whole(1) == 1:
            cause_of(source)
            source.take(8)
    return Transaction(txn, owner, policy, slots)


def lease_of(source: Bytes) -> Lease:
    txn, owner, point, priority = source.whole(8), source.whole(2), source.whole(4), source.whole(1)
    value, until, _ = source.whole(8, True), source.whole(8), source.whole(1)
    return Lease(txn, owner, point, priority, value, until, steps_of(source))


def reversion_of(source: Bytes) -> Reversion:
    txn, owner, point, priority = source.whole(8), source.whole(2), source.whole(4), source.whole(1)
    return Reversion(txn, owner, point, priority, source.whole(8), steps_of(source))


# ---- files

def bytes_of(path: str) -> bytes:
    try:
        with open(path, "rb") as file:
            return file.read()
    except FileNotFoundError:
        return b""
    except OSError as error:
        raise Failure(f"{path}: {error.strerror}") from error


def kind_of(data: bytes) -> str:
    """What a disk is: "idle", "journal", "state", or "other" where another program wrote it."""
    if len(data) <= 1 or data[0] == 0:
        return "idle"
    if len(data) >= HEADER + 1 and data[1:8] == JOURNAL:
        return "journal"
    if len(data) >= 66 and data[1:8] == STATE and (not has_sums(data) or data[65:65 + SUM] == seed_of(data)):
        return "state"
    return "other"


def has_sums(front: bytes) -> bool:
    return front[8] >= FIRST_WITH_SUMS


def text_place(front: bytes) -> int:
    """Where the state begins on a disk of a kept state."""
    return 65 + SUM if has_sums(front) else 65


def front_size(front: bytes) -> int:
    """How many bytes a disk has up to the first gate and with it, by what it begins with, FRONT bytes where it has them."""
    return HEADER + 1 if kind_of(front) == "journal" else text_place(front) + int.from_bytes(front[57:65], "big") + 1


def journal_of(path: str, data: bytes) -> Journal:
    """What a file of the kinds "journal" and "state" holds. Damaged; Failure for a version that is not known here."""
    version, digest = data[8], data[9:HEADER]
    if not 1 <= version <= NEWEST:
        raise Failure(f"{path}: a journal of version {version}; known are 1 to {NEWEST}")
    plain = kind_of(data) == "journal"
    seed = seed_of(data[:HEADER] if plain else data) if has_sums(data) else None
    if plain:
        return Journal(path, version, digest, None, 0, NEW, b"", seed, data, HEADER)
    source = Bytes(data, HEADER)
    generation, before, size = source.whole(8), source.whole(8), source.whole(8)
    if before > MOST_EVENTS:
        raise Damaged(49)
    begin = text_place(data)
    gate = begin + size
    if gate >= len(data):
        raise Damaged(57)
    spelled = data[begin:gate]
    if seed is not None:
        spelled, kept = spelled[:-SUM], spelled[-SUM:]
        if kept != sum_of(seed, 65, spelled):
            raise Damaged(65)
    try:
        state = state_of(spelled, version)
    except (IndexError, KeyError):
        raise Damaged(65) from None
    return Journal(path, version, digest, generation, before, state, spelled, seed, data, gate)


def generation_of(data: bytes) -> int:
    return int.from_bytes(data[41:49], "big")


def no_pair(path: str) -> Failure:
    return Failure(f"{path}: neither this file nor {path}.b exists")


def in_force(names: Sequence[str], fronts: Sequence[bytes]) -> Optional[int]:
    """Which file of a pair is in force, by what each begins with, at least FRONT bytes where it has them; None where there is nothing yet.
    Failure where a file is no journal."""
    kinds = [kind_of(front) for front in fronts]
    for name, kind, is_wrong in zip(names, kinds, (kinds[0] == "other", kinds[1] in ("other", "journal"))):
        # The second file alone may be looked at too.
        if is_wrong and not (kind == "journal" and kinds[0] == "idle"):
            raise Failure(f"{name}: no journal of bossd")
    states = [place for place in (0, 1) if kinds[place] == "state"]
    if len(states) == 2:
        return 1 if generation_of(fronts[1]) == (generation_of(fronts[0]) + 1) % (1 << 64) else 0
    chosen = states or [place for place in (0, 1) if kinds[place] == "journal"]
    return chosen[0] if chosen else None


def find(path: str) -> Optional[Journal]:
    """The file of a pair that is in force; None where there is nothing yet. Failure where there is no such file, or it is none."""
    if not os.path.exists(path) and not os.path.exists(path + ".b"):
        raise no_pair(path)
    names = (path, path + ".b")
    disks = [bytes_of(name) for name in names]
    chosen = in_force(names, disks)
    return None if chosen is None else journal_of(names[chosen], disks[chosen])


class Known(NamedTuple):
    """What a journal says of processes and transactions: their names in order, when each changed something last, and each transaction
    that the state or the log has, with its owner, its moment if the log has it, and its writes as points and priorities."""
    names: List[str]
    last: Dict[str, int]
    transactions: Dict[int, Dict[str, Any]]
    now: int


def known(journal: Journal) -> Known:
    """Follows the log, and numbers its transactions as the server does."""
    state = journal.state
    names, last, now = [process.name for process in state.processes], {}, state.now
    transactions: Dict[int, Dict[str, Any]] = {
        one.txn: {"txn": one.txn, "owner": names[one.owner], "policy": one.policy, "slots": one.slots} for one in state.transactions}
    following = state.next
    for _, event in journal.events():
        now = max(now, event.at)
        if event.kind == "process":
            names.append(event.name or "")
            last[event.name or ""] = event.at
        elif event.owner is not None:
            last[names[event.owner]] = event.at
        if event.kind == "submit" and event.owner is not None:
            transactions[following] = {"txn": following, "owner": names[event.owner], "policy": event.policy, "at": event.at,
                                       "slots": [(write.point, write.priority) for write in event.writes]}
            following += 1
    return Known(names, last, transactions, now)
