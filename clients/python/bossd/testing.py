"""A server for tests, with a clock that the test sets: a night takes as long as its requests do.

    import bossd, bossd.testing

    with bossd.testing.Server("plant.toml") as server, bossd.Client(server.address, "purge") as client:
        client.submit([bossd.write("air.damper", bossd.thousandths(100), lease=bossd.milliseconds(hours=7))])
        server.advance(hours=6, minutes=59)
        assert client.read("air.damper").value == 100_000
        server.advance(minutes=2)
        assert client.read("air.damper").basis == "default"

It is `bossd script` before which this stands: whatever speaks to a server speaks to it too, also `bossctl`. A connection is a session, and
one that ends is lost, as at a server. It has no access rules, no plan, no keys, which it passes over, and no minimum times."""

import contextlib
import json
import os
import socket
import subprocess
import threading
from typing import IO, Any, Callable, Dict, Iterable, List, Mapping, NamedTuple, Optional, Set

from ._client import Client, Held
from ._client import Clock as SecondsOf
from ._protocol import LONGEST_LINE, Answer, Refused, check, milliseconds
from ._session import Step, Wait

# The moment at which a clock begins: the first of January 2026, in milliseconds since 1970.
BEGINNING = 1_767_225_600_000
# The session of the script that asks for the server itself.
OWN = 65_535
# For how many seconds of the wall whoever was woken may work until it sleeps again.
WORKING = 10.0


class Write(NamedTuple):
    """A device was written at the moment `at`, and took the value if it is `ok`."""
    at: int
    driver: str
    point: str
    value: int
    ok: bool


class Clock:
    """A clock that stands until it is set. `now` is its moment, in milliseconds since 1970."""

    def __init__(self, now: int = BEGINNING) -> None:
        self.now = now
        self._turn = threading.Condition()
        self._asleep: Dict[threading.Thread, int] = {}
        self._woken: Set[threading.Thread] = set()

    def seconds(self) -> float:
        """Its moment in seconds, as time.monotonic has it."""
        return self.now / 1000

    def sleep(self, seconds: float) -> None:
        """Waits until the test has let so much time pass: for a program that `start` has begun."""
        thread = threading.current_thread()
        with self._turn:
            self._asleep[thread] = self.now + max(1, round(seconds * 1000))
            self._turn.notify_all()
            while thread in self._asleep:
                self._turn.wait()

    def start(self, program: Callable[..., object], *arguments: object) -> threading.Thread:
        """Runs a program in a thread of its own, and waits until it sleeps by this clock for the first time, or has ended."""
        thread = threading.Thread(target=program, args=arguments, daemon=True)
        thread.start()
        self.await_sleep(thread)
        return thread

    def settle(self) -> None:
        """Waits until all that were woken sleep again or have ended. AssertionError after ten seconds."""
        with self._turn:
            woken, self._woken = self._woken, set()
        self.await_sleep(*woken)

    def await_sleep(self, *threads: threading.Thread) -> None:
        """Waits until these sleep or have ended. AssertionError after ten seconds."""
        left = WORKING
        with self._turn:
            while any(thread.is_alive() and thread not in self._asleep for thread in threads):
                if left <= 0:
                    raise AssertionError(f"a program that was woken at {self.now} neither sleeps again nor ends")
                self._turn.wait(0.01)
                left -= 0.01

    def wake(self, thread: threading.Thread) -> None:
        """Ends the sleep of a thread before its time."""
        with self._turn:
            self._wake([thread])

    def step(self, moment: int) -> bool:
        """Goes on to the next moment at which somebody wakes, at most to this one. Gives whether it went on."""
        with self._turn:
            if self.now >= moment:
                return False
            self.now = min([moment, *self._asleep.values()])
            self._wake([thread for thread, until in self._asleep.items() if until <= self.now])
            return True

    def _wake(self, threads: List[threading.Thread]) -> None:
        for thread in threads:
            if self._asleep.pop(thread, None) is not None:
                self._woken.add(thread)
        self._turn.notify_all()


class HeldByClock(Held):
    """As `bossd.Held`, by the clock of a test. That it has ended is known after a third of its lease at the latest."""

    def __init__(self, client: "ClientByClock", writes: List[Mapping[str, Any]], policy: str) -> None:
        self.by_clock = client.by_clock
        super().__init__(client, writes, policy)
        self.by_clock.await_sleep(self._thread)

    def wait(self, seconds: Optional[float] = None) -> bool:
        """Waits until it has ended, for so many seconds of the clock at most, and tells whether it has."""
        until = float("inf") if seconds is None else self.by_clock.seconds() + seconds
        while not self._over.is_set() and self.by_clock.seconds() < until:
            self.by_clock.sleep(min(self._length / 3000, until - self.by_clock.seconds()))
        return self._over.is_set()

    def release(self) -> None:
        """Renews no more and ends the leases, if they still stand; their reversions begin."""
        super().release()
        self.by_clock.wake(self._thread)

    def _seconds(self) -> SecondsOf:
        return self.by_clock.seconds

    def _do(self, step: Step) -> Any:
        if isinstance(step, Wait):
            if not self._over.is_set():
                self.by_clock.sleep(self._length / 3000)
            return self._over.is_set()
        return super()._do(step)


class ClientByClock(Client):
    """As `bossd.Client`; what it holds is renewed by the clock of a test."""

    def __init__(self, address: str, process: Optional[str], clock: Clock) -> None:
        self.by_clock = clock
        super().__init__(address, process, WORKING)

    def hold(self, writes: Iterable[Mapping[str, Any]], policy: str = "abort") -> Held:
        """Submits, and keeps the leases alive as the clock goes on: gives a Held."""
        return HeldByClock(self, list(writes), policy)


class Server:
    """A server of a catalogue that runs by a clock, in a block. `address` is where it listens, on this machine alone. Its journal is kept
    in memory where no other one is named.

    The program is the one that `program` names, or BOSSD in the environment, or `bossd` on the path."""

    def __init__(self, catalogue: str, journal: str = "-", clock: Optional[Clock] = None, program: Optional[str] = None) -> None:
        self.clock = clock or Clock()
        self._writes: List[Write] = []
        self._before = self.clock.now
        words = [program or os.environ.get("BOSSD") or "bossd", "script", catalogue, journal]
        self._script = subprocess.Popen(words, stdin=subprocess.PIPE, stdout=subprocess.PIPE)
        self._turn, self._closed, self._count = threading.Condition(), False, 0
        self._listener = socket.create_server(("127.0.0.1", 0))
        self.address = f"127.0.0.1:{self._listener.getsockname()[1]}"
        threading.Thread(target=self._accept, daemon=True).start()

    def __enter__(self) -> "Server":
        self._ask(OWN, '{"op":"tick"}')
        return self

    def __exit__(self, *_: object) -> None:
        self.close()

    def close(self) -> None:
        """Ends it."""
        with self._turn:
            self._closed = True
            self._turn.notify_all()
        self._listener.close()
        self._script.kill()
        self._script.communicate()

    @property
    def now(self) -> int:
        """Its moment, in milliseconds since 1970."""
        return self.clock.now

    def advance(self, **parts: float) -> int:
        """Lets time pass, as `milliseconds` has it: `advance(hours=7)`. Leases end on the way, each at its moment, and whoever sleeps by
        the clock wakes. Gives the moment. AssertionError where one that woke goes on working for ten seconds."""
        moment = self.clock.now + milliseconds(**parts)
        while self.clock.step(moment):
            self._ask(OWN, '{"op":"tick"}')
            self.clock.settle()
        return moment

    @property
    def writes(self) -> List[Write]:
        """What devices were written so far, in order. What a point is to have only between two moments at which the clock stood is not
        written."""
        self._ask(OWN, '{"op":"tick"}')
        return list(self._writes)

    def client(self, process: Optional[str] = None) -> Client:
        """A client whose holds go by this clock. Those of any other client go by the clock on the wall."""
        return ClientByClock(self.address, process, self.clock)

    # -- connections

    def _accept(self) -> None:
        while True:
            try:
                link, _ = self._listener.accept()
            except OSError:
                return
            self._count += 1
            threading.Thread(target=self._serve, args=(link, self._count), daemon=True).start()

    def _serve(self, link: socket.socket, session: int) -> None:
        last, is_first = self.clock.now, True
        with link, link.makefile("rb") as lines, contextlib.suppress(OSError):
            try:
                for line in iter(lambda: lines.readline(LONGEST_LINE + 2), b""):
                    if not line.strip():
                        continue
                    last = self.clock.now
                    if is_first and op_of(line) == "watch":
                        return self._watch(link, line)
                    is_first = False
                    link.sendall(self._answer(session, line) + b"\n")
                    if len(line) > LONGEST_LINE + 1:
                        return
            finally:
                self._ask(session, '{"op":"gone"}', last)

    def _answer(self, session: int, line: bytes) -> bytes:
        if len(line) > LONGEST_LINE + 1:
            return b'{"error":"too-long"}'
        # A script has these, and a connection has not.
        if op_of(line) in ("gone", "tick"):
            return b'{"error":"unknown-op"}'
        try:
            return self._ask(session, line.decode().strip())
        except UnicodeDecodeError:
            return b'{"error":"malformed"}'

    def _watch(self, link: socket.socket, line: bytes) -> None:
        """Sends the notices of a process as they come."""
        request = json.loads(line)
        try:
            check(request)
        except Refused:
            link.sendall(b'{"error":"malformed"}\n')
            return
        first = request.get("from", 1)
        while not self._closed:
            told: Answer = json.loads(self._ask(OWN, json.dumps({"op": "notices", "process": request["process"], "from": first, "max": 64})))
            for notice in told.get("list", []):
                link.sendall(json.dumps(notice, separators=(",", ":")).encode() + b"\n")
            first = max(first, told.get("next", first))
            if not told.get("list"):
                with self._turn:
                    self._turn.wait(0.1)

    # -- the script

    def _ask(self, session: int, text: str, at: Optional[int] = None) -> bytes:
        """What the script answers a line of a session, at this moment or at the clock's."""
        with self._turn:
            if self._closed:
                raise ConnectionError("the server is closed")
            moment = self.clock.now if at is None else at
            stamped = stamp(text, session, moment)
            assert self._script.stdin is not None and self._script.stdout is not None
            self._script.stdin.write(stamped.encode() + b"\n")
            self._script.stdin.flush()
            answer = self._answer_of(self._script.stdout)
            self._before = moment
            self._turn.notify_all()
            return answer

    def _answer_of(self, source: IO[bytes]) -> bytes:
        # Devices are written after the answer, so what comes before this one was written at the moment of the request before.
        for line in source:
            if not line.startswith(b"write "):
                return line.rstrip(b"\n")
            _, driver, point, value, took = line.decode().split()
            self._writes.append(Write(self._before, driver, point, int(value), took == "ok"))
        raise ConnectionError(f"the program ended with {self._script.wait()}: is the catalogue in order?")


def op_of(line: bytes) -> Optional[str]:
    """The operation of a line, where it is a request."""
    try:
        request = json.loads(line)
    except ValueError:
        return None
    op = request.get("op") if isinstance(request, dict) else None
    return op if isinstance(op, str) else None


def stamp(text: str, session: int, moment: int) -> str:
    """A line with the session and the moment. Of two equal keys the last counts, so those of the line do not."""
    if not text.endswith("}"):
        return text
    inner = text[:-1].rstrip()
    return f'{inner}{"" if inner.endswith("{") else ","}"on":{session},"at":{moment}}}'
