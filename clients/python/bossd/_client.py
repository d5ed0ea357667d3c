"""The client for programs with threads."""

import contextlib
import socket
import ssl
import threading
import time
from types import TracebackType
from typing import Any, Callable, Iterable, Iterator, List, Mapping, Optional, Type, TypeVar, Union

from ._addresses import QUESTION, Given, is_answer
from ._keys import Key
from ._protocol import (
    PARTING, Accepted, Answer, Notice, Notices, Points, Reading, Refused, Request, Slots, Status, Version, host_and_port, no_such_host,
    prepare,
)
from ._session import (
    PIECE, Ask, Connect, Course, Drop, Keeping, Machine, Pause, Receive, Send, Serves, Session, Speaking, Step, Steps, Wait, Watching, lines_of,
)

T = TypeVar("T")
# The moment, in seconds.
Clock = Callable[[], float]


def run(machine: Machine, steps: Steps[T], do: Callable[[Step], Any], clock: Clock = time.monotonic) -> T:
    """What comes of these steps of a machine, each done by `do`."""
    course = Course(machine, steps, clock())
    while course.step is not None:
        try:
            came = do(course.step)
        except BaseException as error:
            course.failed(error, clock())
        else:
            course.came(came, clock())
    return course.result


def tls_context(authority: str, certificate: Optional[str] = None, key: Optional[str] = None) -> ssl.SSLContext:
    """What a client takes as `tls` where TLS stands before the server: TLS 1.3 to a host whose name the plant's own `authority` put into
    its certificate, and no other authority; the client shows its own `certificate`, with its `key`, which may stand in the same file. All
    are names of files, in PEM. OSError where one can't be read, or is none."""
    context = ssl.create_default_context(cafile=authority)
    context.minimum_version = ssl.TLSVersion.TLSv1_3
    if certificate is not None:
        context.load_cert_chain(certificate, key)
    return context


def connected(address: str, seconds: Optional[float], tls: Optional[ssl.SSLContext] = None) -> socket.socket:
    """A connection to an address as the server has it, "host:port", within `tls` where that is given. ValueError, UnknownHost, or another
    OSError."""
    host, port = host_and_port(address)
    try:
        link = socket.create_connection((host, port), timeout=seconds)
    except socket.gaierror as error:
        raise no_such_host(address, error) or error from error
    prepare(link)
    return link if tls is None else within(tls, link, host)


def within(tls: ssl.SSLContext, link: socket.socket, host: str) -> ssl.SSLSocket:
    """The same connection with TLS in it. OSError."""
    try:
        return tls.wrap_socket(link, server_hostname=host)
    except BaseException:
        link.close()
        raise


def shut(link: socket.socket, how: int) -> None:
    """Shuts a connection down, whoever reads of it. Of one with TLS in it nothing else is changed, as its own `shutdown` would."""
    socket.socket.shutdown(link, how)


def serves(address: str, seconds: float, tls: Optional[ssl.SSLContext]) -> bool:
    """Whether a server answers at the address, in about so many seconds."""
    try:
        with connected(address, seconds, tls) as link:
            link.sendall(QUESTION)
            return is_answer(link.recv(PIECE))
    except OSError:
        return False


def connect(address: Given, process: Optional[str] = None, patience: float = 60.0, *, at_once: bool = False,
            tls: Optional[ssl.SSLContext] = None, key: Optional[Key] = None, as_: Optional[str] = None) -> "Client":
    """A Client, as its class makes it."""
    return Client(address, process, patience, at_once=at_once, tls=tls, key=key, as_=as_)


class Connection(Speaking):
    """Does the steps of who speaks over a connection, with a socket."""

    def _hold_with(self, tls: Optional[ssl.SSLContext]) -> None:
        self._tls = tls
        self._link: Optional[socket.socket] = None

    def _do(self, step: Step) -> Any:
        if isinstance(step, Connect):
            self._link = connected(self.address, step.seconds, self._tls)
        elif isinstance(step, Send):
            self._ready(step.seconds).sendall(step.data)
        elif isinstance(step, Receive):
            return self._receive(step.seconds)
        elif isinstance(step, Drop):
            self._drop()
        elif isinstance(step, Serves):
            return serves(step.address, step.seconds, self._tls)
        else:
            assert isinstance(step, Pause)
            self._pause(step.seconds)

    def _ready(self, seconds: float) -> socket.socket:
        assert self._link is not None
        self._link.settimeout(seconds)
        return self._link

    def _receive(self, seconds: float) -> Optional[bytes]:
        try:
            return self._ready(seconds).recv(PIECE)
        except socket.timeout:
            return None

    def _pause(self, seconds: float) -> None:
        time.sleep(seconds)

    def _drop(self) -> None:
        if self._link is not None:
            self._link.close()
        self._link = None
        self._forget()


class Client(Session, Connection):
    """A connection for one control process, or, without one, for questions alone. It may be used by several threads.

    `address` is "host:port"; several of them, in a sequence or with commas between, where the server may be at any: the client goes to the
    one that serves, and asks there again what another one did not answer. `patience` is for how many seconds a request is asked again, over
    new connections, until it is answered; a server whose workers are all busy answers nothing until one is free, or closes the connection
    after ten seconds, so it should be long: Busy is raised where it was over before. With `at_once` a server that nobody has started is not waited for. With `tls`, as
    `tls_context` makes one, the connection has TLS in it, for what stands before the server then; a host whose certificate is not trusted
    at first is not asked again. While a connection is gone the server takes the process for lost, as of its last request; when it was the
    server that was gone, leases are as they were.

    `key` is for a server that knows processes by keys: the key's text, or what gives it, as `key_in` makes it of a file. The first line of
    each connection shows it, whichever address that is to. It is the process's own; one that only asks names whose it is by `as_`. A server
    without keys passes over both. WrongKey of one address is what all would say, so no other one is asked."""

    def __init__(self, address: Given, process: Optional[str] = None, patience: float = 60.0, *, at_once: bool = False,
                 tls: Optional[ssl.SSLContext] = None, key: Optional[Key] = None, as_: Optional[str] = None) -> None:
        """Connects, and attaches as the process if it is given. ValueError for an address or a key that is none, Malformed for a name in
        `as_`, UnknownHost, Unanswered; or as `attach`."""
        super().__init__(address, patience, at_once, key, as_)
        self._hold_with(tls)
        self._lock = threading.RLock()
        try:
            self._run(self._opening(process))
        except BaseException:
            self._drop()
            raise

    def __enter__(self) -> "Client":
        return self

    def __exit__(self, kind: Optional[Type[BaseException]], error: Optional[BaseException], trace: Optional[TracebackType]) -> None:
        self.close()

    def close(self) -> None:
        """Closes the connection, and waits a moment for the server to do so too: by then the process's live leases have ended, their
        reversions have begun, and another client may attach as the process."""
        self._closed, link = True, self._link
        if link is not None:
            with contextlib.suppress(OSError):
                if not isinstance(link, ssl.SSLSocket):
                    link.shutdown(socket.SHUT_WR)
                self._await_end(link)
                # Whoever still waits for an answer waits no longer.
                shut(link, socket.SHUT_RDWR)
        with self._lock:
            self._drop()

    def attach(self, process: str) -> int:
        """Becomes the control process of this name: 1 to 64 characters of `a-z 0-9 . _ -`. Gives the number of its next notice.
        Malformed, WrongKey, Denied, Already, Taken, TooManyProcesses, NoMemory, Unanswered."""
        return self._run(self._becoming(process))

    def submit(self, writes: Iterable[Mapping[str, Any]], policy: str = "abort") -> Accepted:
        """Sets several points, all of them or none, and gives what was Accepted. There are 1 to 32 writes, made by `write`. Under the
        policy "abort" a device that refuses a value ends all leases of the transaction, under "keep" it brings a notice alone.
        Malformed, UnknownPoint, NotAttached, Denied, SamePoint, BadPriority, OutOfRange, BadLease, BadReversion, Spent, NoMemory, Stale,
        Unanswered."""
        return self._run(self._submitting(writes, policy))

    def renew(self, txn: int, length: int, points: Iterable[str] = ()) -> int:
        """Keeps leases of a transaction for at least `length` more milliseconds: those on these points, or all. Gives the first moment
        at which one of those now ends. BadLease, UnknownPoint, NotAttached, UnknownTransaction, NotYours, NotInTransaction, Ended,
        Stale, Malformed, Unanswered."""
        return self._run(self._renewing(txn, length, points))

    def cancel(self, txn: int) -> int:
        """Ends the live leases of a transaction; their reversions begin. Gives the moment. NotAttached, UnknownTransaction, NotYours,
        Over, Stale, Malformed, Unanswered."""
        return self._run(self._cancelling(txn))

    def hold(self, writes: Iterable[Mapping[str, Any]], policy: str = "abort") -> "Held":
        """Submits, and keeps the leases alive until they are released, the client is closed, or the program ends: gives a Held. Errors
        as of `submit`."""
        return Held(self, list(writes), policy)

    def read(self, point: str) -> Reading:
        """The Reading of a point. UnknownPoint, Malformed, Unanswered."""
        return self._run(self._reading(point))

    def array(self, point: str) -> Slots:
        """The Slots of a point. UnknownPoint, Malformed, Unanswered."""
        return self._run(self._reading_slots(point))

    def status(self, txn: int) -> Status:
        """The Status of a transaction, of whatever process. UnknownTransaction, Malformed, Unanswered."""
        return self._run(self._reading_status(txn))

    def notices(self, process: Optional[str] = None, first: int = 1, most: int = 16) -> Notices:
        """The Notices of a process, by default the client's own, from the number `first` on, and at most `most` of them, 1 to 64.
        Malformed, NotAttached, NoMemory, Unanswered."""
        return self._run(self._reading_notices(process, first, most))

    def points(self) -> Points:
        """The Points of the server's catalogue, all of them. UnknownOp where the server is older than these questions, Unanswered."""
        return self._run(self._reading_points())

    def version(self) -> Version:
        """The server's Version. UnknownOp where it is older than this question, Unanswered."""
        return self._run(self._reading_version())

    def ask(self, request: Request) -> Answer:
        """Asks a request, as docs/PROTOCOL.md has it, and gives its answer, as dicts. Where the connection is lost it is asked again
        over a new one, attached as before. Refused, Unanswered."""
        return self._run(self._asking(request))

    def ask_all(self, requests: Iterable[Request]) -> List[Union[Answer, Refused]]:
        """Asks many questions (`read`, `array`, `status`, `notices`, `points`, `version`) at once over the one connection, and gives their
        answers in their order, each as a dict, or the Refused that it is. Where the connection is lost all are asked again. Malformed,
        Unanswered."""
        lines, asked = lines_of(requests)
        return self._run(self._asking_all(lines, asked)) if lines else []

    def _run(self, steps: Steps[T]) -> T:
        with self._lock:
            return run(self, steps, self._do)

    def _late(self) -> OSError:
        return socket.timeout("timed out")

    def _await_end(self, link: socket.socket) -> None:
        """Waits until the server has closed the connection, but not for long: no worker may be free."""
        if self._lock.acquire(timeout=PARTING):
            try:
                link.settimeout(PARTING)
                if isinstance(link, ssl.SSLSocket):
                    # Says the end within TLS, and waits for that of the other side, which comes once the server has closed.
                    link.unwrap()
                else:
                    while link.recv(PIECE):
                        pass
            finally:
                self._lock.release()


class Held(Keeping):
    """A transaction whose leases are renewed in the background, every third part of the shortest, for this length. `txn` is its number,
    `until` the moment up to which it was held at least when that was last told. `ended` is why it is held no longer, or None: mostly
    an Ended, whose cause is "died" where the server had lost the connection. It is not taken again by itself.

    Every second the server is asked how it stands: so an end is soon known here, and the server knows when the program was last alive,
    which is when reversions begin if it dies."""

    _over: threading.Event

    def __init__(self, client: Client, writes: List[Mapping[str, Any]], policy: str) -> None:
        super().__init__(client.submit(writes, policy), writes, threading.Event())
        self._client = client
        self._thread = threading.Thread(target=self._keep, name=f"bossd-{self.txn}", daemon=True)
        self._thread.start()

    def __enter__(self) -> "Held":
        return self

    def __exit__(self, kind: Optional[Type[BaseException]], error: Optional[BaseException], trace: Optional[TracebackType]) -> None:
        self.release()

    def wait(self, seconds: Optional[float] = None) -> bool:
        """Waits until it has ended, for so many seconds at most, and tells whether it has."""
        return self._over.wait(seconds)

    def release(self) -> None:
        """Renews no more and ends the leases, if they still stand; their reversions begin. Unanswered."""
        self._client._run(self._releasing(self._client))

    def _seconds(self) -> Clock:
        """The clock by which it is renewed."""
        return time.monotonic

    def _keep(self) -> None:
        run(self, self._keeping(self._client), self._do, self._seconds())

    def _do(self, step: Step) -> Any:
        if isinstance(step, Wait):
            return self._over.wait(step.seconds)
        assert isinstance(step, Ask)
        return self._client.ask(step.request)


def watch(address: Given, process: str, first: int = 1, patience: float = 60.0, *, tls: Optional[ssl.SSLContext] = None,
          key: Optional[Key] = None, as_: Optional[str] = None) -> "Watch":
    """Gives the Notices of a process one after another as they come, from the number `first` on, each once and in order: a Watch."""
    return Watch(address, process, first, patience, tls=tls, key=key, as_=as_)


class Watch(Watching, Connection, Iterator[Notice]):
    """The Notices of a process as they come, without an end, until it is closed; over lost connections it goes on after the last one.
    A number is left out where it is no longer kept: at most 1,024 are, the last ones. It takes one of the server's workers for itself as
    long as it runs.

    `patience` is for how many seconds it connects anew before it raises Unanswered; `float("inf")` is for ever. UnknownHost for a host
    that was never found, ValueError for an address or a key that is none, Malformed for a name that is none; the last two come from `watch`
    itself. WrongKey where the server does not take the key. `tls` and `key` are as those of a Client; the key is the watched process's
    own, or that of the process `as_`. `close` may be called from another thread, and whoever waits for a notice then waits no longer."""

    def __init__(self, address: Given, process: str, first: int = 1, patience: float = 60.0, *,
                 tls: Optional[ssl.SSLContext] = None, key: Optional[Key] = None, as_: Optional[str] = None) -> None:
        super().__init__(address, process, first, patience, key, as_)
        self._hold_with(tls)
        self._end = threading.Event()

    def __enter__(self) -> "Watch":
        return self

    def __exit__(self, kind: Optional[Type[BaseException]], error: Optional[BaseException], trace: Optional[TracebackType]) -> None:
        self.close()

    def __iter__(self) -> "Watch":
        return self

    def __next__(self) -> Notice:
        """The next notice. StopIteration once it is closed; Unanswered, UnknownHost, WrongKey."""
        notice = run(self, self._following(), self._do)
        if notice is None:
            raise StopIteration
        return notice

    def close(self) -> None:
        """Ends it, also where another thread waits for a notice."""
        self._closed = True
        self._end.set()
        link = self._link
        if link is not None:
            with contextlib.suppress(OSError):
                shut(link, socket.SHUT_RDWR)

    def _pause(self, seconds: float) -> None:
        self._end.wait(seconds)
