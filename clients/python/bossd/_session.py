"""What a client knows and does between its program and its connection: one machine under `bossd` and under `bossd.aio`.

Nothing here opens a connection, sends, waits, or reads a clock. What is to be done is a generator: it yields a Step, and a Course gives it
what came of that, or the error, and the moment. `_client` does the steps with threads, `aio` with asyncio."""

import json
import logging
import ssl
from collections import deque
from typing import (
    Any, Callable, Deque, Dict, Generator, Generic, Iterable, List, Mapping, NamedTuple, NoReturn, Optional, Protocol, Sequence, Tuple,
    TypeVar, Union,
)

from ._addresses import LOOK, REACH, Addresses, Elsewhere, Given
from ._keys import Key, shown_in, source_of
from ._protocol import (
    LONGEST_LINE, PARTING, PAUSE, PULSE, SILENCE, WRONG_KEY, Accepted, Already, Answer, Busy, Denied, Gathering, NoMemory, Notice, Notices,
    Over, Points, Reading, Refused, Request, Slots, Stale, Status, Stopped, Taken, TurnedAway, Unanswered, UnknownHost, UnknownTransaction,
    Version, WrongKey, a_name, answer_of, heard, is_wrong_key, line_of, notice_of, notices_from, notices_of, reading_of,
    refusal_of, renewal, slots_of, status_of, submission, version_of, windows,
)

T = TypeVar("T")
# The longest time that a connection is made to wait, in seconds; patience may be endless.
LONGEST_WAIT = 86_400.0
# The longest line that is taken from a server, in bytes: an answer is longer than a request, of 64 notices, or of sixteen slots.
LONGEST_ANSWER = 4 * LONGEST_LINE
# How many bytes are taken of a connection at once.
PIECE = 65_536
# What the client tells of its connections: as a warning that one was lost and that it is back, as information what is asked again.
LOG = logging.getLogger("bossd")


class Connect(NamedTuple):
    """Have a connection to the address, in so many seconds at most. UnknownHost, or another OSError."""
    seconds: float


class Drop(NamedTuple):
    """Have no connection."""


class Send(NamedTuple):
    """Send these bytes, all of them, in so many seconds at most. OSError."""
    data: bytes
    seconds: float

    def __repr__(self) -> str:
        # A key may be in the bytes, and whoever shows a traceback may show this too.
        return f"Send({len(self.data)} bytes, {self.seconds})"


class Receive(NamedTuple):
    """Give bytes that came; none where the connection ended, None where nothing came in so many seconds. OSError."""
    seconds: float


class Serves(NamedTuple):
    """Give whether a server answers at this address, over a connection of its own, within so many seconds."""
    address: str
    seconds: float


class Pause(NamedTuple):
    """Let so many seconds pass."""
    seconds: float


class Wait(NamedTuple):
    """Let so many seconds pass, and give whether what is held is over."""
    seconds: float


class Ask(NamedTuple):
    """Have the client ask this, and give the answer. Refused, Unanswered."""
    request: Request


Step = Union[Connect, Drop, Send, Receive, Serves, Pause, Wait, Ask]
Steps = Generator[Step, Any, T]


class Machine:
    """What takes steps. It knows the time by the moment that it was given last, in seconds of a clock that is never set back."""

    _now = 0.0


class Course(Generic[T]):
    """The steps of a machine, under way. `step` is what is to be done now, and None once all is done, with this `result`: who does it says
    what came of it, and at which moment. What the steps raise comes out of that."""

    result: T

    def __init__(self, machine: Machine, steps: Steps[T], now: float) -> None:
        self.step: Optional[Step] = None
        self._machine, self._steps = machine, steps
        self.came(None, now)

    def came(self, what: Any, now: float) -> None:
        """This came of the step."""
        self._go_on(lambda: self._steps.send(what), now)

    def failed(self, error: BaseException, now: float) -> None:
        """The step was not done, for this error."""
        self._go_on(lambda: self._steps.throw(error), now)

    def _go_on(self, following: Callable[[], Step], now: float) -> None:
        self._machine._now = now
        try:
            self.step = following()
        except StopIteration as end:
            self.step, self.result = None, end.value


class Speaking(Machine):
    """One side of a connection: what came of it, and what is known of it. The first line of each connection shows the key, if there is
    one: of the process `as_`, or else of the one that the line names."""

    def __init__(self, address: Given, patience: float, key: Optional[Key] = None, as_: Optional[str] = None) -> None:
        """ValueError, Malformed."""
        if as_ is not None:
            a_name("as", as_)
        self.patience = patience
        self._addresses = Addresses(address)
        self._key, self._as = source_of(key), as_
        # Whether the connection has sent a line, and whose key that showed.
        self._has_spoken = False
        self._shown: Optional[str] = None
        self._is_connected, self._closed, self._met, self._is_away = False, False, False, False
        # Set where a connection was turned away and nothing was answered since.
        self._busy: Optional[TurnedAway] = None
        # The lines that came and were not taken yet, and the beginning of the next one.
        self._lines: Deque[bytes] = deque()
        self._rest = b""

    @property
    def address(self) -> str:
        """Where the server is, as far as is known: of several addresses the one that answered last, or that is tried now."""
        return self._addresses.current

    def _forget(self) -> None:
        """What holds when there is no connection."""
        self._is_connected = self._has_spoken = False
        self._shown = None
        self._lines.clear()
        self._rest = b""

    def _first(self, line: bytes, names: Optional[str], name: Optional[str]) -> bytes:
        """The line as the connection sends it: its first one shows the key, of the process `name`, or else of the one that the line names.
        ValueError where it is too long with it; OSError where a key can't be had."""
        key = None if self._has_spoken or self._key is None else self._key()
        if key:
            line = shown_in(line, key, name)
            if len(line) > LONGEST_LINE + 1:
                raise ValueError(f"a line of {len(line) - 1} bytes with the key, which the first of a connection has; {LONGEST_LINE} is the most")
            self._shown = names if name is None else name
        self._has_spoken = True
        return line

    def _line(self, deadline: float) -> Steps[Optional[bytes]]:
        """The next line, with its end; an empty one where the connection ended before, None where it did not come until the deadline.
        TurnedAway, or another OSError; WrongKey, behind which the connection is over."""
        while not self._lines:
            data: Optional[bytes] = yield Receive(self._addresses.seconds(self._seconds_to(deadline), LOOK))
            if data is None and self._addresses.are_several and self._now < deadline:
                yield from self._look_elsewhere()
                continue
            if not data:
                return data
            self._take(data)
            if not self._lines and self._now > deadline:
                return None
        line = heard(self._lines.popleft())
        self._busy = None
        if is_wrong_key(line):
            raise WrongKey(WRONG_KEY, name=self._shown)
        return line

    def _look_elsewhere(self) -> Steps[None]:
        """Elsewhere, where another address serves. A server that is only slow, or whose workers are busy, is the one that does: whoever left
        it would lose his turn, and what he holds."""
        for one in self._addresses.others():
            if (yield Serves(one, REACH)):
                raise Elsewhere(one, self.address)

    def _take(self, data: bytes) -> None:
        *lines, rest = (self._rest + data).split(b"\n")
        if max(map(len, (*lines, rest))) > LONGEST_ANSWER:
            raise ConnectionError(f"a line of more than {LONGEST_ANSWER} bytes came")
        self._lines += [line + b"\n" for line in lines]
        self._rest = rest

    def _seconds_to(self, deadline: float) -> float:
        return max(0.001, min(deadline - self._now, LONGEST_WAIT))

    def _lost(self, why: Exception) -> None:
        """A connection was lost, or not had."""
        if isinstance(why, TurnedAway):
            self._busy = why
        elif isinstance(why, ConnectionRefusedError):
            self._busy = None

    def _give_up(self, request: Request, why: Exception) -> NoReturn:
        """Raises what is told where no answer came in time: Busy, or another Unanswered."""
        if self._busy is not None:
            raise Busy(request, str(self._busy)) from self._busy
        raise Unanswered(request, str(why)) from why


class Session(Speaking):
    """A client's side of its connections: the process that it speaks for, the number of its next request, and for how long it asks
    again."""

    def __init__(self, address: Given, patience: float, at_once: bool = False, key: Optional[Key] = None, as_: Optional[str] = None) -> None:
        super().__init__(address, patience, key, as_)
        # The number of the process's next notice when it attached last.
        self.next_notice: Optional[int] = None
        # How often it attached: once more after each connection that was lost.
        self.attachments = 0
        self._process: Optional[str] = None
        self._is_attached, self._number, self._at_once = False, 1, at_once

    @property
    def process(self) -> Optional[str]:
        """The control process that it speaks for, if it was attached as one."""
        return self._process

    @property
    def is_connected(self) -> bool:
        """Whether a connection stands at the moment. It may wait for a worker of the server."""
        return self._is_connected

    @property
    def is_busy(self) -> bool:
        """Whether the server closed a connection of this client, since none of its workers was free, and has answered nothing since."""
        return self._busy is not None

    def _forget(self) -> None:
        super()._forget()
        self._is_attached = False

    def _late(self) -> OSError:
        """What is raised where no answer came in time."""
        return ConnectionError("no answer came in time")

    # -- what is asked

    def _opening(self, process: Optional[str]) -> Steps[None]:
        if process is None:
            yield from self._patiently({}, self._connecting)
        else:
            yield from self._becoming(process)

    def _becoming(self, process: str) -> Steps[int]:
        """Attaches as the process, and finds its next number."""
        request = {"op": "attach", "process": process}
        line_of(request)
        if self._key is not None and self._is_attached and process != self._process:
            # A server with keys would end the connection for this, and with it all leases.
            raise Already({"error": "already", "process": self._process}, request)
        number = yield from self._patiently(request, lambda deadline: self._attaching(process, deadline))
        self._number = yield from self._counting()
        return number

    def _asking(self, request: Request) -> Steps[Answer]:
        """Malformed at once, before any step."""
        line = line_of(request)
        return self._patiently(request, lambda deadline: self._exchanging(line, request, deadline))

    def _asking_all(self, lines: List[bytes], requests: List[Request]) -> Steps[List[Union[Answer, Refused]]]:
        return self._patiently({"op": "several"}, lambda deadline: self._exchanging_all(lines, requests, deadline))

    def _submitting(self, writes: Iterable[Mapping[str, Any]], policy: str) -> Steps[Accepted]:
        return told(self._making(submission(writes, policy)), lambda answer: Accepted(answer["txn"], answer["until"]))

    def _renewing(self, txn: int, length: int, points: Iterable[str]) -> Steps[int]:
        return told(self._making(renewal(txn, length, points)), lambda answer: int(answer["until"]))

    def _cancelling(self, txn: int) -> Steps[int]:
        return told(self._making({"op": "cancel", "txn": txn}), lambda answer: int(answer["at"]))

    def _reading(self, point: str) -> Steps[Reading]:
        return told(self._asking({"op": "read", "point": point}), reading_of)

    def _reading_slots(self, point: str) -> Steps[Slots]:
        return told(self._asking({"op": "array", "point": point}), slots_of)

    def _reading_status(self, txn: int) -> Steps[Status]:
        return told(self._asking({"op": "status", "txn": txn}), status_of)

    def _reading_notices(self, process: Optional[str], first: int, most: int) -> Steps[Notices]:
        return told(self._asking(notices_from(process, first, most)), notices_of)

    def _reading_version(self) -> Steps[Version]:
        return told(self._asking({"op": "version"}), version_of)

    def _reading_points(self) -> Steps[Points]:
        gathering = Gathering()
        while not gathering.is_done_with((yield from self._asking(gathering.request()))):
            pass
        return gathering.gathered()

    def _making(self, request: Request) -> Steps[Answer]:
        """Asks a request under the next number. A number that was refused is used again; one that was not answered is not, and neither
        is one that was denied: a server that came back under other rules denies what it accepted before, and keeps its number."""
        number = self._number
        numbered = {**request, "seq": number}
        line_of(numbered)
        self._number += 1
        try:
            return (yield from self._asking(numbered))
        except Stale as stale:
            self._number = stale.kept + 1
            raise
        except Denied:
            raise
        except Refused:
            self._number = number
            raise

    def _counting(self) -> Steps[int]:
        """The number after the last one that the process had accepted. It is found by a cancel of no transaction under the number 1,
        which is refused, and not kept, wherever it is not answered from what is kept."""
        try:
            yield from self._asking({"op": "cancel", "txn": 0, "seq": 1})
            return 2
        except UnknownTransaction:
            return 1
        except Stale as stale:
            return stale.kept + 1

    # -- again, over new connections

    def _patiently(self, request: Request, attempt: Callable[[float], Steps[T]]) -> Steps[T]:
        """What an attempt gives, tried again for as long as patience lasts where the connection is lost or the disk stopped, and for a
        moment where the process is still its last connection's."""
        began = self._now
        deadline = began + self.patience
        lost = self._process is not None and not self._is_attached
        why: Exception
        while True:
            try:
                answer = yield from attempt(deadline)
                self._addresses.answered()
                self._tell_back(request)
                return answer
            except Taken as error:
                why = error
                self._addresses.answered()
                if not lost and self._now + PAUSE > began + PARTING:
                    raise
            except (OSError, Stopped) as error:
                yield Drop()
                self._addresses.failed(error)
                if self._addresses.have_all_failed(is_unknown) and not self._met:
                    raise
                lost, why = True, error
                self._lost(error)
                if not self._met and self._addresses.have_all_failed(self._is_hopeless):
                    self._give_up(request, why)
                self._tell_lost(error)
            except Refused:
                # Whoever refuses serves, also where it does not take the key.
                self._addresses.answered()
                raise
            if lost and (self._closed or self._now + PAUSE > deadline):
                self._give_up(request, why)
            if isinstance(why, Taken) or not self._addresses.go_on():
                yield Pause(PAUSE)

    def _is_hopeless(self, why: Exception) -> bool:
        """Whether asking again does not mend what kept a client from its first connection."""
        return is_untrusted(why) or self._at_once and isinstance(why, ConnectionRefusedError)

    def _tell_lost(self, why: Exception) -> None:
        if self._is_away or self._closed:
            return
        self._is_away = True
        what = f"the connection to {self.address} was lost ({why})" if self._met else f"{self.address} is not reached ({why})"
        if isinstance(why, ConnectionRefusedError):
            what = f"nobody listens at {self.address}"
        elif isinstance(why, TurnedAway):
            what = f"all workers of {self.address} are busy"
        where = f" {', '.join(self._addresses.others())} too" if self._addresses.are_several else ""
        LOG.warning("%s; trying%s%s", what, where, "" if self.patience > LONGEST_WAIT else f" for {self.patience:g} seconds")

    def _tell_back(self, request: Request) -> None:
        if not self._is_away:
            return
        self._is_away = False
        whose = "" if self._process is None else f", and the client speaks for {self._process}"
        LOG.warning("%s answers%s", self.address, whose)
        if request.get("op") not in (None, "attach"):
            LOG.info("asked again: %s%s", request["op"], f" number {request['seq']}" if "seq" in request else "")

    # -- over one connection

    def _connecting(self, deadline: float) -> Steps[None]:
        if self._closed:
            raise ConnectionError("the client is closed")
        if not self._is_connected:
            yield Connect(self._addresses.seconds(self._seconds_to(deadline), REACH))
            self._is_connected = self._met = True

    def _attaching(self, process: str, deadline: float) -> Steps[int]:
        if self._shown not in (None, process):
            # The connection is another process's for good. It is attached as none, so nothing is lost with it.
            yield Drop()
        yield from self._connecting(deadline)
        request = {"op": "attach", "process": process}
        lines = yield from self._telling([self._first(line_of(request), process, None)], deadline)
        number: int = answer_of(lines[0], request)["next"]
        self._process, self._is_attached, self.next_notice = process, True, number
        self.attachments += 1
        return number

    def _being_attached(self, deadline: float) -> Steps[None]:
        if self._process is not None and not self._is_attached:
            yield from self._attaching(self._process, deadline)
        yield from self._connecting(deadline)

    def _exchanging(self, line: bytes, request: Request, deadline: float) -> Steps[Answer]:
        yield from self._being_attached(deadline)
        lines = yield from self._telling([self._asked(line, request)], deadline)
        return answer_of(lines[0], request)

    def _exchanging_all(self, lines: List[bytes], requests: List[Request], deadline: float) -> Steps[List[Union[Answer, Refused]]]:
        yield from self._being_attached(deadline)
        told = yield from self._telling([self._asked(lines[0], requests[0]), *lines[1:]], deadline)
        answers: List[Answer] = [json.loads(line) for line in told]
        return [refusal_of(answer, request) or answer for answer, request in zip(answers, requests)]

    def _asked(self, line: bytes, request: Request) -> bytes:
        """The line that asks this, as the connection sends it."""
        named = request.get("process")
        return self._first(line, named if isinstance(named, str) else None, self._as)

    def _telling(self, lines: List[bytes], deadline: float) -> Steps[List[bytes]]:
        """Sends lines and gives as many answers. Whatever comes between, the connection goes: it could not be told whose answer is
        next."""
        try:
            return (yield from self._answers(windows(lines), deadline))
        except BaseException:
            yield Drop()
            raise

    def _answers(self, parts: List[List[bytes]], deadline: float) -> Steps[List[bytes]]:
        """Sends lines, each part before the answers to the one before it are read, and gives their answers."""
        answers: List[bytes] = []
        nothing: List[bytes] = []
        before = nothing
        for part in parts + [nothing]:
            if part:
                yield Send(b"".join(part), self._seconds_to(deadline))
            answers += yield from self._answers_to(before, deadline)
            before = part
        return answers

    def _answers_to(self, part: List[bytes], deadline: float) -> Steps[List[bytes]]:
        answers: List[bytes] = []
        while len(answers) < len(part):
            line = yield from self._line(deadline)
            if line is None:
                raise self._late()
            if not line:
                raise ConnectionError("the connection ended before the answer")
            answers.append(line)
        return answers


def told(steps: Steps[Answer], says: Callable[[Answer], T]) -> Steps[T]:
    """What the answer says that comes of these steps."""
    return says((yield from steps))


def is_unknown(error: Exception) -> bool:
    """Whether it is that there is no such host."""
    return isinstance(error, UnknownHost)


def is_untrusted(error: Exception) -> bool:
    """Whether it is that the other side's certificate is not trusted, which asking again does not mend."""
    return isinstance(error, ssl.SSLCertVerificationError)


def lines_of(requests: Iterable[Request]) -> Tuple[List[bytes], List[Request]]:
    """The lines that ask these, and the requests. Malformed, ValueError."""
    asked = list(requests)
    return [line_of(request) for request in asked], asked


class Flag(Protocol):
    """What threads or tasks wait for."""

    def set(self) -> None: ...

    def is_set(self) -> bool: ...


class Keeping(Machine):
    """A transaction whose leases are renewed every third part of the shortest, for this length. `txn` is its number, `until` the moment up
    to which it was held at least when that was last told. `ended` is why it is held no longer, or None."""

    def __init__(self, accepted: Accepted, writes: Sequence[Mapping[str, Any]], over: Flag) -> None:
        self.txn, self.until = accepted.txn, accepted.until
        self.ended: Optional[Exception] = None
        self._count, self._length, self._over = len(writes), min(int(one["lease"]) for one in writes), over

    def _releasing(self, client: Session) -> Steps[None]:
        """Says at once, before any step, that it is over; they end the leases, if these still stand."""
        self._over.set()
        return self._letting_go(client)

    def _letting_go(self, client: Session) -> Steps[None]:
        try:
            yield from client._cancelling(self.txn)
        except (Over, UnknownTransaction):
            pass

    def _keeping(self, client: Session) -> Steps[None]:
        """Keeps it until it is over, and says so where it was not ended here."""
        why = yield from self._pulsing(client)
        if why is not None and not self._over.is_set():
            self.ended = why
            self._over.set()

    def _pulsing(self, client: Session) -> Steps[Optional[Exception]]:
        """Asks how it stands, and renews, until it is over; gives why it is held no longer, where it was not ended here."""
        third = self._length / 3000
        due = self._now + third
        while not (yield Wait(min(PULSE, third))):
            try:
                if self._now >= due or status_of((yield Ask({"op": "status", "txn": self.txn}))).live < self._count:
                    # A renewal that is made twice does no harm, so it takes no number: these are for what the program asks.
                    self.until = (yield Ask(renewal(self.txn, self._length)))["until"]
                    due = self._now + third
            except (Unanswered, NoMemory) as error:
                if client._closed:
                    return error
            except Exception as error:
                return error
        return None


class Watching(Speaking):
    """The notices of a process, each once and in order, from the number `first` on. `patience` is for how many seconds it connects
    anew."""

    def __init__(self, address: Given, process: str, first: int, patience: float, key: Optional[Key] = None, as_: Optional[str] = None) -> None:
        super().__init__(address, patience, key, as_)
        self.process, self.first = process, first
        line_of(self._request())

    def _request(self) -> Dict[str, Any]:
        return {"op": "watch", "process": self.process, "from": self.first}

    def _following(self) -> Steps[Optional[Notice]]:
        """The next notice; None once it is closed. Unanswered, UnknownHost, WrongKey."""
        lost_since: Optional[float] = None
        while not self._closed:
            try:
                notice = yield from self._hearing()
                if notice is not None:
                    return notice
                # The server ends a watch of a process that was told nothing for a minute, and when it ends itself.
                lost_since, is_next = None, False
            except WrongKey:
                yield Drop()
                raise
            except OSError as error:
                lost_since = lost_since or self._now
                self._addresses.failed(error)
                self._judge(error, lost_since)
                is_next = self._addresses.go_on()
            yield Drop()
            if not self._closed and not is_next:
                yield Pause(PAUSE)
        yield Drop()
        return None

    def _judge(self, error: OSError, lost_since: float) -> None:
        """Raises what is to be told of a connection that was not had, if it was tried for long enough."""
        self._lost(error)
        if self._closed:
            return
        if self._addresses.have_all_failed(is_unknown) and not self._met:
            raise error
        if self._now + PAUSE > lost_since + self.patience or (self._addresses.have_all_failed(is_untrusted) and not self._met):
            self._give_up(self._request(), error)
        if not self._is_away:
            self._is_away = True
            LOG.warning("the watch of %s at %s is lost (%s); trying on from notice %d", self.process, self.address, error, self.first)

    def _tell_back(self) -> None:
        if self._is_away:
            self._is_away = False
            LOG.warning("the watch of %s at %s goes on", self.process, self.address)

    def _hearing(self) -> Steps[Optional[Notice]]:
        """The next notice; None where the connection ended or was silent for too long."""
        if not self._is_connected:
            yield Connect(self._addresses.seconds(min(SILENCE, max(1.0, self.patience)), REACH))
            self._met = True
            if self._closed:
                return None
            self._is_connected = True
            yield Send(self._first(line_of(self._request()), self.process, self._as), SILENCE)
            # Who was turned away may only stand in the server's queue again.
            if self._busy is None:
                self._tell_back()
        line = yield from self._line(self._now + SILENCE)
        if not line:
            return None
        notice = notice_of(answer_of(line, self._request()))
        self._addresses.answered()
        self._tell_back()
        self.first = notice.n + 1
        return notice
