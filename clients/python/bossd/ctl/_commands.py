"""What each command of bossctl does. Each gives the status that bossctl ends with."""

import argparse
import contextlib
import json
import os
import platform
import shutil
import signal
import socket
import sys
import time
from collections import Counter, deque
from typing import Any, Deque, Dict, Iterable, Iterator, List, Optional, Tuple

from .. import __version__
from .._addresses import LOOK, addresses_of
from .._client import Client, Watch
from .._protocol import Accepted, Denied, Notice, Over, Request, Unanswered, UnknownOp, UnknownTransaction, Version, write
from ..overrides import NotMade, asked as overrides_asked
from . import _journal, _key, _lint, _live, _served, _show
from ._journal import Damaged, Event, Journal, Known
from ._live import View
from ._show import NONE, PRIORITIES, Catalogue, Cell, Point, exact_length, exact_moment, length, moment, now
from ._toml import Failure

Words = argparse.Namespace
FINE, WRONG = 0, 1
LONGEST_LEASE = 604_800_000
# From how many milliseconds on it is said that two clocks are apart.
ODD = 60_000


def tell(lines: Iterable[str]) -> None:
    for line in lines:
        print(line, flush=True)


def tell_json(value: Any) -> None:
    print(json.dumps(value), flush=True)


def aside(text: str) -> None:
    print(f"bossctl: {text}", file=sys.stderr, flush=True)


def client_of(words: Words) -> Client:
    # Where the server may be at several places nobody is at any of them while it changes from one to another.
    return Client(words.server, None, words.patience, at_once=len(addresses_of(words.server)) == 1, tls=words.context,
                  key=_key.shown(words), as_=_key.asking_name(words))


def catalogue_of(words: Words, client: Client) -> Catalogue:
    """The server's catalogue, as it tells it, or as a file that is the same has it, with units and notes. Where a file that was named, or the
    unit's before a server of this machine, is another one, that is said once. Failure, Unanswered."""
    file = _served.file_of(words.catalogue)
    told = _served.served(client, words.server, file.catalogue)
    if told is None:
        if file.catalogue is None:
            raise _served.silent(words.server)
        return file.catalogue
    if file.why:
        aside(file.why)
    elif file.catalogue is not None and told is not file.catalogue and (file.is_named or _served.is_local(words.server)):
        aside(_served.differs(file.catalogue, told))
    return told


def catalogue_anyhow(words: Words) -> Catalogue:
    """The same; the file's where the server does not answer. Failure, Unanswered."""
    try:
        with client_of(words) as client:
            return catalogue_of(words, client)
    except Unanswered:
        file = _served.file_of(words.catalogue).catalogue
        if file is None:
            raise
        return file


# ---- points

HEADS = ("POINT", "VALUE", "FROM", "PRIORITY", "HELD BY", "LEFT", "DEVICE")
RIGHT = " r r r"
FROM = {"lease": "lease", "pending": "reversion", "default": "default"}


def point_row(view: View) -> List[Cell]:
    reading = view.reading
    if reading is None:
        return [Cell(view.point.name), Cell(NONE), Cell("the server knows no such point", "failed")] + [Cell("")] * 4
    dim = "default" if reading.basis == "default" else ""
    left = NONE if view.ends is None else length(view.ends - now())
    return [Cell(view.point.name, dim), Cell(view.point.show(reading.value)), Cell(FROM[reading.basis], reading.basis),
            Cell(str(reading.priority or NONE)), Cell(view.owner or NONE), Cell(left),
            Cell(", ".join(filter(None, (reading.mark, device_note(view)))), reading.mark if reading.mark != "settled" else "")]


def device_note(view: View) -> str:
    """What a device has instead, in few words, where that is known."""
    reading = view.reading
    if reading is None or reading.took is None:
        return ""
    state, until = view.point.state(reading.took), view.held_until(now())
    return f"last took {state}" if until is None else f"still {state} until {moment(until)}"


def summary(views: List[View]) -> str:
    readings = [view.reading for view in views if view.reading is not None]
    bases, marks = Counter(reading.basis for reading in readings), Counter(reading.mark for reading in readings)
    return (f"{len(views)} points: {bases['lease']} held, {bases['pending']} reverting, {bases['default']} at their defaults; "
            f"{marks['failed']} failed, {marks['pending']} not yet answered by their devices{held_by_times(views)}")


def held_by_times(views: List[View]) -> str:
    """How many devices minimum times hold, and up to when, where there are any."""
    ends = [end for end in (view.held_until(now()) for view in views) if end is not None]
    if not ends:
        return ""
    last = f"until {moment(max(ends))} at the earliest"
    return f", of which 1 is held by its minimum time, {last}" if len(ends) == 1 else (
        f", of which {len(ends)} are held by their minimum times, the last {last}")


def points(words: Words) -> int:
    with client_of(words) as client:
        views = _live.views(client, catalogue_of(words, client).some(words.pattern))
    if words.held:
        views = [view for view in views if view.reading is None or view.reading.basis != "default"]
    if words.json:
        tell_json([view.told() for view in views])
        return FINE
    notes = any(view.point.note for view in views)
    rows = [point_row(view) + ([Cell(view.point.note)] if notes else []) for view in views]
    if rows:
        tell(_show.table(HEADS + (("NOTE",) if notes else ()), rows, RIGHT, width_of_terminal()))
    tell([summary(views)])
    return FINE


def width_of_terminal() -> Optional[int]:
    return shutil.get_terminal_size().columns if sys.stdout.isatty() else None


def point(words: Words) -> int:
    with client_of(words) as client:
        one = catalogue_of(words, client).point(words.name)
        view = _live.views(client, [one])[0]
    if view.reading is None:
        raise Failure(f"{words.server} knows no point {one.name}: it was started with another catalogue")
    if words.json:
        tell_json({**view.told(), "default": view.slots.default, "slots": [slot_told(view, priority) for priority in PRIORITIES],
                   "next": [it._asdict() for it in _live.after(view)]})
        return FINE
    tell([f"{one.name}: {sentence(view)}; its device: {view.reading.mark}"])
    if view.reading.took is not None:
        tell([f"  {still(view)}"])
    about = [one.kind, one.range(), f"default {one.show(view.slots.default)}", f"driver {one.driver}", one.times()]
    tell([f"  {', '.join(filter(None, about))}"] + ([f"  {one.note}"] if one.note else []) + [""])
    heads = ("PRIORITY", "LEVEL", "VALUE", "WHAT", "HELD BY", "TXN", "LEFT")
    tell(_show.table(heads, [slot_row(view, priority) for priority in PRIORITIES], "r r  rr"))
    tell(["", f"Next: {next_sentence(view)}"])
    return FINE


def still(view: View) -> str:
    """Which value a device took last, where that is known to be another one than it is to have, and up to when a minimum time keeps it."""
    reading, until = view.reading, view.held_until(now())
    if reading is None or reading.took is None:
        return ""
    state, since = view.point.state(reading.took), moment(reading.since or 0)
    if until is None:
        return f"it took {state} last, at {since}"
    return f"still {state} since {since}, until {moment(until)} at the earliest, by its minimum time"


def slot_told(view: View, priority: int) -> Optional[Dict[str, Any]]:
    slot = view.slots.slots.get(priority)
    if slot is None:
        return None
    what = "lease" if slot.until is not None else "reversion"
    return {"priority": priority, "level": _show.level(priority), "value": slot.value, "shown": view.point.number(slot.value), "what": what,
            "process": view.owners.get(slot.txn), "txn": slot.txn, "ends": _live.end_of(slot)}


def slot_row(view: View, priority: int) -> List[Cell]:
    slot = view.slots.slots.get(priority)
    head = [Cell(str(priority)), Cell(_show.level(priority), "default" if slot is None else "")]
    if slot is None:
        return head + [Cell(NONE, "default"), Cell("")] + [Cell("")] * 3
    reading = view.reading
    is_in_force = reading is not None and (reading.priority, reading.txn) == (priority, slot.txn)
    what = "lease" if slot.until is not None else "reversion"
    return head + [Cell(view.point.show(slot.value), "head" if is_in_force else ""), Cell(what + (", in force" if is_in_force else "")),
                   Cell(view.owners.get(slot.txn, NONE)), Cell(str(slot.txn)), Cell(length(_live.end_of(slot) - now()))]


def sentence(view: View) -> str:
    """What is in force, and by whom."""
    reading = view.reading
    if reading is None:
        return "the server knows no such point"
    value = view.point.show(reading.value)
    if reading.basis == "default":
        return f"{value}, its default: nobody holds it"
    what = "a lease" if reading.basis == "lease" else "a reversion"
    return f"{value}, by {what} of {view.owner} at priority {reading.priority}"


def next_sentence(view: View) -> str:
    ahead = _live.after(view)
    if view.slot is None or view.reading is None or not ahead:
        return "nothing, until somebody writes"
    what = "lease ends, unless it is renewed" if view.slot.until is not None else "reversion ends"
    text = f"in {length(ahead[0].at - now())}, at {moment(ahead[0].at)}, the {what}"
    for one in ahead:
        if one.basis == "reversion":
            text += "; then its reversion, if it was given one, and else"
        else:
            place = "the default" if one.priority is None else f"{FROM[one.basis]} of {view.owners.get(one.txn or 0)} at priority {one.priority}"
            text += f"{'' if text.endswith('else') else '; then'} {view.point.show(one.value or 0)}, {place}"
    return text


# ---- set, hold, release

def length_of(text: str) -> int:
    """A length of time on the command line."""
    try:
        return _show.read_length(text)
    except ValueError as error:
        raise argparse.ArgumentTypeError(str(error)) from None


def steps_of(words: Words, one: Point) -> List[List[int]]:
    values = [one.value(text) for text in words.back.split(",")] if words.back else []
    if len(values) > 8:
        raise Failure(f"--back has {len(values)} values, and 8 are the most")
    return [[value, words.step] for value in values]


def set_point(words: Words) -> int:
    if words.detach and (words.own or words.policy != "keep"):
        raise ValueError("--detach has the point set by bossd-overrides, as its own process and under the policy keep: leave --as and --policy out")
    if words.note and not words.detach:
        raise ValueError("--note is kept with --detach alone")
    if words.detach:
        return detach(words)
    if words.lease is None:
        raise ValueError("set wants --for TIME, or --detach: then it stands until somebody releases it")
    return take(words, words.lease, is_renewed=False)


def hold_point(words: Words) -> int:
    return take(words, words.lease, is_renewed=True)


def take(words: Words, lease: int, is_renewed: bool) -> int:
    """Sets a point and stays until it is over."""
    if not 1 <= lease <= LONGEST_LEASE:
        raise Failure("a lease lasts for at least a millisecond and at most 7d")
    # Whatever is to end this program ends the lease first, as Ctrl-C does.
    for sent in (signal.SIGINT, signal.SIGTERM, signal.SIGHUP):
        signal.signal(sent, signal.default_int_handler)
    with client_of(words) as client:
        one = catalogue_of(words, client).point(words.point)
        made = write(one.name, one.value(words.value), lease=lease, priority=words.priority, revert=steps_of(words, one))
        _live.attach(client, _key.own_name(words))
        first = client.next_notice or 1
        before = _live.views(client, [one])[0]
        other = before.slots.slots.get(words.priority)
        with denials(client, made):
            if is_renewed:
                held = client.hold([made], words.policy)
                accepted = Accepted(held.txn, held.until)
            else:
                accepted = client.submit([made], words.policy)
        say_clocks(words, accepted.until - lease - now())
        taking = Taking(words, client, one, accepted.txn, first)
        if other is not None and not words.json:
            taking.say(f"took the slot from {before.owners.get(other.txn)}, which had {one.show(other.value)} there")
        until = "until Ctrl-C" if is_renewed else f"until {moment(accepted.until)}"
        taking.say(f"{one.name} {one.show(made['value'])} at priority {words.priority}, {until}", txn=accepted.txn, until=accepted.until)
        try:
            return taking.follow()
        except KeyboardInterrupt:
            return taking.release()


def say_clocks(words: Words, ahead: int) -> None:
    """Says so where the server's clock is so many milliseconds ahead of this machine's, or behind it where that is less than 0. All moments
    are the server's, and what is left of them is told by this machine's."""
    if abs(ahead) >= ODD:
        aside(f"the clock of {words.server} is {length(abs(ahead))} {'ahead of' if ahead > 0 else 'behind'} this machine's: leases last as long "
              "as they were asked for, but moments are its own, and what is shown as left is wrong by as much")


# ---- overrides that stand

def of_overrides(words: Words, request: Request) -> Dict[str, Any]:
    """What the service answers that holds overrides. Failure, NotMade."""
    path = words.overrides
    try:
        return overrides_asked(path, request, words.patience)
    except (FileNotFoundError, ConnectionRefusedError):
        raise Failure(f"nobody listens at {path}: does bossd-overrides run? (systemctl enable --now bossd-overrides; --overrides or "
                      "BOSSD_OVERRIDES says where it listens)") from None
    except socket.timeout:
        raise Failure(f"{path} has not answered yet, as where the server is away: bossctl overrides shows what stands") from None
    except OSError as error:
        raise Failure(f"{path}: {error}") from None


def detach(words: Words) -> int:
    """Has a point set by the service that holds overrides."""
    one = catalogue_anyhow(words).point(words.point)
    steps = steps_of(words, one)
    until = {} if words.lease is None else {"until": now() + words.lease}
    for_whom = {"for": os.environ["SUDO_USER"]} if os.environ.get("SUDO_USER") else {}
    try:
        made = of_overrides(words, {"do": "set", "point": one.name, "value": one.value(words.value), "priority": words.priority, "back": steps,
                                    "note": words.note or "", **until, **for_whom})
    except NotMade as error:
        raise Failure(f"refused: {error}") from None
    if words.json:
        tell_json(made)
    else:
        end = f"until {moment(made['until'])}" if made["until"] else "until somebody releases it"
        tell([f"{one.name} {one.show(made['value'])} at priority {made['priority']} stands {end}, set by {made['who']}; bossctl overrides shows "
              "it, bossctl release ends it"])
    return FINE


def overrides(words: Words) -> int:
    told = of_overrides(words, {"do": "list"})
    if words.json:
        tell_json(told)
        return FINE
    try:
        points = catalogue_anyhow(words).points
    except (Unanswered, Failure) as error:
        aside(f"values are thousandths at analog points, since {words.server} does not tell its points: {error}")
        points = {}
    listed: List[Dict[str, Any]] = told["ended" if words.ended else "overrides"]
    listed.sort(key=lambda it: int(it["at"]))
    heads = ("POINT", "VALUE", "PRIORITY", "SET BY", "SET AT", "FOR", "ENDED" if words.ended else "ENDS", "WHY" if words.ended else "NOTE")
    rows = [override_row(one, points.get(one["point"]), words.ended) for one in listed]
    if rows:
        tell(_show.table(heads, rows, " rr", width_of_terminal()))
    since = f", the oldest for {length(now() - listed[0]['at'])}" if listed and not words.ended else ""
    tell([f"{len(listed)} {'ended lately' if words.ended else 'stand'}{since}"])
    return FINE


def override_row(one: Dict[str, Any], point: Optional[Point], has_ended: bool) -> List[Cell]:
    ends = one["ended"] if has_ended else one["until"]
    return [Cell(one["point"], "" if point else "failed"), Cell(point.show(one["value"]) if point else str(one["value"])),
            Cell(str(one["priority"])), Cell(one["who"]), Cell(moment(one["at"])),
            Cell(length((one["ended"] if has_ended else now()) - one["at"])), Cell("never by itself" if ends is None else moment(ends)),
            Cell(one["why"] if has_ended else one["note"])]


@contextlib.contextmanager
def denials(client: Client, *writes: Request) -> Iterator[None]:
    """Says of a denial which write it is about, and which rule, or that no rule is for the process."""
    try:
        yield
    except Denied as error:
        if (error.request or {}).get("op") == "attach":
            raise Failure(f"refused: no rule of the rules file is for the process {client.process}") from error
        one = writes[error.index]
        whose = f"for {client.process} at priority {one['priority']}"
        why = f"by rule {error.rule} of the rules file, {whose}" if error.rule else f"{whose}: no rule of the rules file is for it"
        raise Failure(f"refused: write {error.index} ({one['point']}) is denied {why}") from error


class Taking:
    """A transaction of bossctl's own, which is followed until it holds its point no longer."""

    def __init__(self, words: Words, client: Client, one: Point, txn: int, first: int) -> None:
        self.words, self.client, self.point, self.txn, self.first = words, client, one, txn, first
        self.shown = ""
        # Up to when a minimum time was said to hold the device, where it does, and whether it did not take the value.
        self.held: Optional[int] = None
        self.has_failed = False

    def say(self, text: str, **told: Any) -> None:
        if self.words.json:
            tell_json({"at": now(), "point": self.point.name, "text": text, **told})
        else:
            tell([f"{time.strftime('%H:%M:%S')}  {text}"])

    def follow(self) -> int:
        while True:
            self.look()
            ended = self.ended()
            if ended is not None:
                return self.over(ended)
            time.sleep(0.5)

    def look(self) -> None:
        """Says what is in force, where that is another thing than before."""
        view = _live.views(self.client, [self.point])[0]
        if sentence(view) != self.shown:
            self.shown = sentence(view)
            self.say(f"in force: {self.shown}")
        if view.reading is not None:
            self.hear_device(view.reading.mark)
            self.wait(view, view.reading.mark)

    def hear_device(self, mark: str) -> None:
        """Says that a device took a value at last."""
        if mark == "settled" and self.has_failed:
            self.has_failed, self.held = False, None
            self.say("the device took the value")

    def wait(self, view: View, mark: str) -> None:
        """Says that a minimum time holds a device, and up to when, and that it has taken the value."""
        if mark == "settled" and self.held is not None:
            self.held = None
            self.say("its device took the value")
        until = view.held_until(now())
        if until is not None and until != self.held:
            self.held = until
            self.say(f"its device is not written yet: {still(view)}", until=until)

    def ended(self) -> Optional[Notice]:
        """How the lease ended, if it did; a fault of the device is told too."""
        page = self.client.notices(None, self.first, 64)
        for notice in page.list:
            self.first = notice.n + 1
            if notice.txn == self.txn and notice.kind == "fault":
                self.has_failed = True
                self.say("the device did not take the value" + ("" if self.words.policy == "abort" else "; it is tried again every five seconds"))
            if notice.txn == self.txn and notice.kind == "ended":
                return notice
        return None

    def over(self, ended: Notice) -> int:
        back = f"; back by {self.words.back}, {exact_length(self.words.step)} each" if self.words.back and ended.cause != "superseded" else ""
        why = {"expired": "its time is over", "superseded": f"transaction {ended.by} took the slot", "cancelled": "it was released",
               "died": "the connection was lost, so the server let go", "fault": "the device did not take the value, so the server let go"}
        self.say(f"no longer held: {why.get(ended.cause or '', ended.cause)}{back}", cause=ended.cause, by=ended.by)
        self.look()
        return FINE if ended.cause in ("expired", "cancelled") else WRONG

    def release(self) -> int:
        try:
            self.client.cancel(self.txn)
        except (Over, UnknownTransaction):
            pass
        ended = self.ended()
        return FINE if ended is None else self.over(ended)


def release_override(words: Words, one: Point) -> Optional[Dict[str, Any]]:
    """The override that stood and was ended by its own service; None where there is none, or no service."""
    if not os.access(words.overrides, os.W_OK):
        return None
    try:
        return of_overrides(words, {"do": "release", "point": one.name, "priority": words.priority})
    except NotMade as error:
        if error.error == "none":
            return None
        raise Failure(str(error)) from None


def release(words: Words) -> int:
    one = catalogue_anyhow(words).point(words.point)
    override = release_override(words, one)
    if override is not None:
        if words.json:
            tell_json({"released": override})
        else:
            tell([f"{one.name}: released the override at priority {words.priority}, {one.show(override['value'])}, which {override['who']} set at "
                  f"{moment(override['at'])}"])
        return FINE
    with client_of(words) as client:
        _live.attach(client, _key.own_name(words))
        view = _live.views(client, [one])[0]
        slot = view.slots.slots.get(words.priority)
        if slot is None:
            raise Failure(f"nothing stands at priority {words.priority} of {one.name}" + where_else(view))
        # The value stays for the moment, so that the device is not told twice.
        made = write(one.name, slot.value, lease=1_000, priority=words.priority)
        with denials(client, made):
            txn = client.submit([made]).txn
        try:
            client.cancel(txn)
        except Over:
            pass
        after = _live.views(client, [one])[0]
    owner = view.owners.get(slot.txn)
    if words.json:
        tell_json({"released": slot_told(view, words.priority), "now": after.told()})
    else:
        tell([f"{one.name}: released priority {words.priority}, where {owner} had {one.show(slot.value)}; in force: {sentence(after)}"])
        if after.held_until(now()) is not None:
            tell([f"its device is {still(after)}"])
    return FINE


def where_else(view: View) -> str:
    taken = [f"{priority} ({view.owners.get(slot.txn)})" for priority, slot in sorted(view.slots.slots.items())]
    return f"; it is held at {', '.join(taken)}: give one by --priority" if taken else ""


# ---- watch

def watch(words: Words) -> int:
    with client_of(words) as client:
        count = _live.notice_counts(client, [words.process])[words.process]
    if words.first is None:
        words.first = max(1, count - 9)
        if count == 0:
            aside(f"{words.process} has had no notice yet: is the name right? (bossctl processes)")
    with Watch(words.server, words.process, words.first, words.patience, tls=words.context, key=_key.shown(words),
               as_=_key.asking_name(words)) as watched:
        for notice in watched:
            if words.json:
                tell_json(notice._asdict())
            else:
                tell([f"{notice.n:>6}  {exact_moment(notice.at)}  {notice_sentence(notice)}"])
    return FINE


def notice_sentence(notice: Notice) -> str:
    return {
        "fault": f"transaction {notice.txn}: the device of {notice.point} did not take the value",
        "ended": f"transaction {notice.txn}: its lease on {notice.point} ended: {notice.cause}" + (f" by {notice.by}" if notice.by else ""),
        "reverted": f"transaction {notice.txn}: its reversion of {notice.point} is over",
        "cut": f"transaction {notice.txn}: its reversion of {notice.point} was cut by {notice.by}",
        "done": f"transaction {notice.txn}: done",
    }.get(notice.kind, str(notice))


# ---- processes and transactions

def journal_of(words: Words) -> Optional[Known]:
    """What the journal says that was named, or that of the unit where it may be read. The server cannot be asked for this."""
    path = words.journal or _journal.DEFAULT
    if words.journal is None and not (os.access(path, os.R_OK) or os.access(path + ".b", os.R_OK)):
        return None
    for _ in range(3):
        # The server may begin a new log while the files are read.
        try:
            found = _journal.find(path)
            return None if found is None else _journal.known(found)
        except Damaged as error:
            why = f"{path}: {error}"
            time.sleep(0.2)
    raise Failure(why)


def under_way(client: Client, catalogue: Catalogue) -> Dict[int, List[View]]:
    """The transactions that hold a slot, with the points of each."""
    found: Dict[int, List[View]] = {}
    for view in _live.views(client, catalogue.points.values()):
        for slot in view.slots.slots.values():
            found.setdefault(slot.txn, []).append(view)
    return found


def processes(words: Words) -> int:
    known = journal_of(words)
    with client_of(words) as client:
        standing = _live.statuses(client, under_way(client, catalogue_of(words, client)))
        names = sorted({status.owner for status in standing.values()} | set(known.names if known else []))
        notices = _live.notice_counts(client, names)
    rows: List[Dict[str, Any]] = []
    for name in names:
        own = [status for status in standing.values() if status.owner == name]
        last = known.last.get(name) if known else None
        rows.append({"process": name, "transactions": len(own), "leases": sum(status.live for status in own),
                     "reversions": sum(status.pending for status in own), "notices": notices.get(name), "last": last})
    if words.json:
        tell_json(rows)
        return FINE
    cells = [[Cell(str(row["process"]))] + [Cell(str(row[key])) for key in ("transactions", "leases", "reversions", "notices")]
             + [Cell(NONE if row["last"] is None else moment(row["last"]))] for row in rows]
    if cells:
        tell(_show.table(("PROCESS", "TRANSACTIONS", "LEASES", "REVERSIONS", "NOTICES", "LAST CHANGE"), cells, " rrrr"))
    if known is not None:
        tell([f"{len(known.names)} of 256 names are taken; a journal forgets none"])
    else:
        aside("shown are processes that hold something; the names of others stand in the journal alone (--journal FILE, as root)")
    return FINE


def transactions(words: Words) -> int:
    known = journal_of(words) if words.done or words.journal else None
    if words.done and known is None:
        raise Failure(f"{_journal.DEFAULT} cannot be read, and transactions that are done stand there alone: --journal FILE, as root")
    with client_of(words) as client:
        slots = under_way(client, catalogue_of(words, client))
        asked = set(slots) | (set(sorted(known.transactions)[-words.most:]) if known and words.done else set())
        standing = _live.statuses(client, asked)
    rows: List[Dict[str, Any]] = []
    for txn, status in sorted(standing.items()):
        held = [view.point.name for view in slots.get(txn, [])]
        ends = [_live.end_of(slot) for view in slots.get(txn, []) for slot in view.slots.slots.values() if slot.txn == txn]
        begun = known.transactions.get(txn, {}).get("at") if known else None
        rows.append({**status._asdict(), "points": held, "ends": min(ends) if ends else None, "begun": begun})
    if words.json:
        tell_json(rows)
        return FINE
    cells = [[Cell(str(row["txn"])), Cell(str(row["owner"])), Cell(str(row["stage"])), Cell(str(row["live"])), Cell(str(row["pending"])),
              Cell(NONE if row["ends"] is None else length(row["ends"] - now())), Cell(", ".join(row["points"]) or NONE)]
             for row in rows]
    if cells:
        tell(_show.table(("TXN", "PROCESS", "STAGE", "LEASES", "REVERSIONS", "FIRST ENDS IN", "POINTS"), cells, "r  rrr", width_of_terminal()))
    tell([f"{len(slots)} transactions hold something" + (f", {len(rows) - len(slots)} are done" if words.done else "")])
    return FINE


# ---- faults and status

def faults(words: Words) -> int:
    with client_of(words) as client:
        views = [view for view in _live.views(client, catalogue_of(words, client).points.values())
                 if view.reading is not None and view.reading.mark != "settled"]
        owners = {view.owner for view in views if view.owner is not None}
        told = [(name, notice) for name in sorted(owners) for notice in _live.last_notices(client, name, 64).list
                if notice.kind == "fault" or notice.cause == "fault"]
    if words.json:
        tell_json({"points": [view.told() for view in views], "notices": [{"process": name, **notice._asdict()} for name, notice in told]})
        return FINE
    failed = [view for view in views if view.reading is not None and view.reading.mark == "failed"]
    if views:
        tell(_show.table(HEADS, [point_row(view) for view in views], RIGHT, width_of_terminal()))
    tell(f"{exact_moment(notice.at)}  {name}: {notice_sentence(notice)}" for name, notice in told)
    tell([f"{len(failed)} failed, whose devices are tried again every five seconds; {len(views) - len(failed)} not yet answered"
          f"{held_by_times(views)}"])
    return WRONG if failed else FINE


def status(words: Words) -> int:
    server, found, others = serving(words)
    if words.json:
        told = {"server": server, **found._asdict(), "version": program_told(words) if found.answers else None}
        tell_json({**told, "others": [{"server": one, **other._asdict()} for one, other in others]} if others else told)
    else:
        say_health(server, found)
        for one, other in others:
            say_health(one, other)
        if found.answers:
            with client_of(words) as client:
                tell([program_sentence(program_of(client)), summary(_live.views(client, catalogue_of(words, client).points.values()))])
    return FINE if found.answers else 3


def serving(words: Words) -> Tuple[str, _live.Health, List[Tuple[str, _live.Health]]]:
    """Which address serves, of several, and how it is; and how the others are. From here on that one is asked."""
    everyone = addresses_of(words.server)
    patience = words.patience if len(everyone) == 1 else min(words.patience, LOOK)
    key, name = _key.shown(words), _key.asking_name(words)
    found = [(one, _live.health(one, patience, words.workers, words.context, key, name)) for one in everyone]
    first, *others = sorted(found, key=lambda each: not each[1].answers)
    words.server = first[0]
    return (*first, others)


def say_health(server: str, found: _live.Health) -> None:
    if not found.answers:
        tell([f"{server} does not answer: {found.why}"])
        return
    free = f"{found.free} or more workers are free" if found.free == found.tried else f"{found.free} workers are free besides"
    tell([f"{server} answers, in {found.milliseconds:.1f} ms; {free}"])
    if found.free == 0:
        aside("whoever connects now waits: more WORKERS, or fewer connections that stay")


def program_of(client: Client) -> Optional[Version]:
    """Which program serves; None where it is older than the question."""
    try:
        return client.version()
    except UnknownOp:
        return None


def program_told(words: Words) -> Optional[Dict[str, Any]]:
    with client_of(words) as client:
        version = program_of(client)
    return None if version is None else version._asdict()


def program_sentence(version: Optional[Version]) -> str:
    if version is None:
        return "it does not tell its version, as a bossd of before 0.3.0"
    return (f"bossd {version.program}, whose journals are of version {version.journal}; its catalogue: points {version.points}, "
            f"drivers {version.drivers}, digest {version.digest[:16]}..")


# ---- the journal

def journal(words: Words) -> int:
    try:
        found = _journal.find(words.file)
    except Damaged as error:
        raise Failure(f"{words.file}: {error}") from None
    if found is None:
        tell_json({"file": words.file, "new": True}) if words.json else tell([f"{words.file}: new, with nothing in it yet"])
        return FINE
    catalogue = catalogue_beside(words, found)
    agrees = catalogue is not None
    names = Names(found, catalogue)
    header(words, found, names, agrees)
    ends: Deque[Dict[str, Any]] = deque(maxlen=words.last)
    status = FINE
    try:
        for number, event in found.events():
            line = names.told(number, event)
            if number < words.first:
                continue
            if words.last is None:
                tell_json(line) if words.json else tell([event_line(line, names)])
            else:
                ends.append(line)
        hidden = found.hidden()
        if hidden is not None:
            status = WRONG
            aside(f"{found.path}: gate {hidden} is shut, and right records stand behind it")
    except Damaged as error:
        status = WRONG
        aside(f"{found.path}: {error}")
    for line in ends:
        tell_json(line) if words.json else tell([event_line(line, names)])
    return status


def catalogue_beside(words: Words, found: Journal) -> Optional[Catalogue]:
    """The catalogue that a journal is kept under: the one that was named, the unit's, or the copy that the unit's launcher keeps beside it;
    None where none of them has its digest. Failure."""
    kept = f"{words.file}.catalogue-{found.digest.hex()[:16]}"
    files = [_served.file_of(words.catalogue)] + ([_served.file_of(kept)] if os.access(kept, os.R_OK) else [])
    return next((file.catalogue for file in files if file.catalogue is not None and file.catalogue.digest == found.digest), None)


def header(words: Words, found: Journal, names: "Names", agrees: bool) -> None:
    state = found.state
    told = {"file": found.path, "version": found.version, "generation": found.generation, "before": found.before, "now": state.now,
            "next": state.next, "processes": [process._asdict() for process in state.processes], "leases": len(state.leases),
            "reversions": len(state.reversions), "catalogue": found.digest.hex(), "catalogue_agrees": agrees}
    if words.json:
        tell_json(told)
        return
    tell([f"{found.path}: version {found.version}, catalogue {found.digest.hex()[:16]}.." + (", which is this one" if agrees else "")])
    if not agrees:
        aside(f"points are shown by their places: {words.catalogue or _served.DEFAULT} is not the catalogue of this journal, or cannot be read")
    if found.generation is None:
        return
    tell([f"kept state {found.generation}, after {found.before} events, at {exact_moment(state.now)}: {len(state.leases)} leases, "
          f"{len(state.reversions)} reversions, the next transaction is {state.next}"])
    if words.state:
        tell(f"  lease      {names.write(lease.point, lease.value, lease.priority)} of {names.owner(lease.owner)}, transaction {lease.txn}, "
             f"until {exact_moment(lease.until)}{names.steps(lease.point, lease.steps)}" for lease in state.leases)
        tell(f"  reversion  {names.point(one.point)} at {one.priority} of {names.owner(one.owner)}, transaction {one.txn}, "
             f"since {exact_moment(one.start)}{names.steps(one.point, one.steps)}" for one in state.reversions)


class Names:
    """What the places in a journal are called, as far as the catalogue and the events so far say, and which transaction comes next."""

    def __init__(self, found: Journal, catalogue: Optional[Catalogue]) -> None:
        self.processes = [process.name for process in found.state.processes]
        self.points = list(catalogue.points.values()) if catalogue else []
        self.next = found.state.next

    def owner(self, place: Optional[int]) -> str:
        return self.processes[place] if place is not None and place < len(self.processes) else f"process {place}"

    def point(self, place: int) -> str:
        return self.points[place].name if place < len(self.points) else f"point {place}"

    def value(self, place: int, value: int) -> str:
        return self.points[place].show(value) if place < len(self.points) else str(value)

    def write(self, place: int, value: int, priority: int) -> str:
        return f"{self.point(place)} = {self.value(place, value)} at {priority}"

    def steps(self, place: int, steps: List[Any]) -> str:
        return ", back by " + ", ".join(f"{self.value(place, value)} for {exact_length(hold)}" for value, hold in steps) if steps else ""

    def told(self, number: int, event: Event) -> Dict[str, Any]:
        """An event for a program."""
        told: Dict[str, Any] = {"event": number, "at": event.at, "kind": event.kind}
        if event.kind == "process":
            self.processes.append(event.name or "")
            told["process"] = event.name
        elif event.owner is not None:
            told["process"] = self.owner(event.owner)
        txn = event.txn
        if event.kind == "submit":
            txn, self.next = self.next, self.next + 1
            told["policy"] = event.policy
            told["writes"] = [{"point": self.point(one.point), "place": one.point, "value": one.value, "priority": one.priority,
                               "lease": one.lease, "revert": [list(step) for step in one.steps]} for one in event.writes]
        for key, value in (("txn", txn), ("seq", event.seq), ("length", event.length)):
            if value is not None:
                told[key] = value
        if event.points or event.kind == "renewal":
            told["points"] = [self.point(place) for place in event.points]
        return told


def event_line(told: Dict[str, Any], names: Names) -> str:
    """An event for a person."""
    kind, owner, txn = told["kind"], told.get("process"), told.get("txn")
    seq = f" (number {told['seq']})" if "seq" in told else ""
    if kind == "submit":
        writes = "; ".join(f"{names.write(one['place'], one['value'], one['priority'])} for {exact_length(one['lease'])}"
                           f"{names.steps(one['place'], one['revert'])}" for one in told["writes"])
        text = f"{owner} submits transaction {txn}{seq}{', keep' if told['policy'] == 'keep' else ''}: {writes}"
    else:
        text = {
            "process": f"{owner} is a new process",
            "renewal": f"{owner} renews transaction {txn}{seq} for {exact_length(told.get('length', 0))}: "
                       f"{', '.join(told.get('points', [])) or 'all its leases'}",
            "cancel": f"{owner} cancels transaction {txn}{seq}",
            "lost": f"{owner} is lost",
            "time": "time passes",
            "failed": f"the device of {', '.join(told.get('points', []))} fails",
        }[kind]
    return f"{told['event']:>8}  {exact_moment(told['at'])}  {text}"


# ---- lint and version

def lint(words: Words) -> int:
    found = _lint.lint(words.file, words.rules, words.plan, words.keys)
    mistakes = sum(one.is_mistake for one in found)
    if words.json:
        tell_json([one._asdict() for one in found])
    else:
        tell(one.sentence() for one in found)
        files = ", ".join(file for file in (words.file, words.rules, words.plan, words.keys) if file)
        passed = len(found) - mistakes
        tell([f"{files}: {mistakes or 'no'} mistake{'s' if mistakes != 1 else ''}" + (f", {passed} passed over" if passed else "")])
    return WRONG if mistakes or (words.strict and found) else FINE


def version(words: Words) -> int:
    told = {"bossctl": __version__, "python": platform.python_version()}
    tell_json(told) if words.json else tell([f"bossctl {__version__} (Python {told['python']})"])
    return FINE


# ---- a screen that goes on

def top(words: Words) -> int:
    with client_of(words) as client:
        catalogue = catalogue_of(words, client)
        screen = Screen(words)
        try:
            screen.open()
            while True:
                began = time.monotonic()
                views = _live.views(client, catalogue.points.values())
                screen.show(views, (time.monotonic() - began) * 1000)
                if screen.is_over(words.every):
                    return FINE
        except KeyboardInterrupt:
            return FINE
        finally:
            screen.close()


class Screen:
    """The terminal's other screen, while bossctl runs on a terminal; else a table after the other."""

    def __init__(self, words: Words) -> None:
        self.words = words
        self.is_terminal = sys.stdout.isatty() and not words.json
        self.left = words.count
        self.settings: Any = None

    def open(self) -> None:
        if self.is_terminal:
            print("\33[?1049h\33[?25l", end="", flush=True)
            if sys.stdin.isatty():
                import termios
                import tty
                self.settings = termios.tcgetattr(sys.stdin)
                tty.setcbreak(sys.stdin)

    def close(self) -> None:
        if self.settings is not None:
            import termios
            termios.tcsetattr(sys.stdin, termios.TCSADRAIN, self.settings)
        if self.is_terminal:
            print("\33[?25h\33[?1049l", end="", flush=True)

    def show(self, views: List[View], milliseconds: float) -> None:
        if self.words.json:
            tell_json([view.told() for view in views if view.reading is None or view.reading.basis != "default"])
            return
        size = shutil.get_terminal_size()
        lines = self.lines(views, milliseconds, size.columns)
        if self.is_terminal:
            # Each line is cleared to its end, and then what is below.
            lines = lines[:size.lines - 1]
            print("\33[H" + "".join(f"{line}\33[K\n" for line in lines) + "\33[J", end="", flush=True)
        else:
            tell(lines + [""])

    def lines(self, views: List[View], milliseconds: float, width: int) -> List[str]:
        head = f"bossd at {self.words.server}   {time.strftime('%Y-%m-%d %H:%M:%S')}   {milliseconds:.0f} ms   q ends this"
        busy = sorted((view for view in views if is_busy(view)), key=urgency)
        lines = [_show.colour(head[:width], "head"), summary(views)[:width], ""]
        if not busy:
            return lines + ["Nobody holds anything, and no device failed."]
        return lines + _show.table(HEADS, [point_row(view) for view in busy], RIGHT, width)

    def is_over(self, seconds: float) -> bool:
        """Waits, and tells whether somebody pressed q, or all was shown that was wanted."""
        if self.left is not None:
            self.left -= 1
            if self.left <= 0:
                return True
        if self.settings is None:
            time.sleep(seconds)
            return False
        import select
        until = time.monotonic() + seconds
        while time.monotonic() < until:
            ready, _, _ = select.select([sys.stdin], [], [], max(0.0, until - time.monotonic()))
            if ready and sys.stdin.read(1) in ("q", "Q", "\4"):
                return True
        return False


def is_busy(view: View) -> bool:
    return view.reading is None or view.reading.basis != "default" or view.reading.mark != "settled"


def urgency(view: View) -> Any:
    """Failed devices first, then what ends first."""
    mark = "failed" if view.reading is None else view.reading.mark
    return {"failed": 0, "pending": 1}.get(mark, 2), view.ends or 1 << 62, view.point.name
