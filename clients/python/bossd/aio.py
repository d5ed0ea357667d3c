"""The client for programs that use asyncio: the same names, to be awaited.

    import bossd, bossd.aio

    async with bossd.aio.connect("127.0.0.1:7000", "purge") as client:
        damper = bossd.write("air.damper", bossd.thousandths(100), priority=9, lease=bossd.milliseconds(minutes=1))
        async with client.hold([damper]) as held:
            await held.wait(3600)

    async for notice in bossd.aio.watch("127.0.0.1:7000", "purge"):
        print(notice)

Units, errors and numbers are those of `bossd`. One thing is of asyncio: a call that is cancelled, as by `asyncio.wait_for`, is made all
the same, and only its answer is lost, since a connection that was cut in the middle of a request would end all leases of the process.
"""

import asyncio
import contextlib
import socket
import ssl
import time
from types import TracebackType
from typing import (
    Any, AsyncIterator, Callable, Coroutine, Generator, Generic, Iterable, List, Mapping, Optional, Set, Tuple, Type, TypeVar, Union,
)

from ._addresses import QUESTION, Given, addresses_of, is_answer
from ._keys import Key
from ._protocol import (
    PARTING, Accepted, Answer, Notice, Notices, Points, Reading, Refused, Request, Slots, Status, Version, acknowledge, host_and_port,
    no_such_host, prepare,
)
from ._session import (
    PIECE, Ask, Connect, Course, Drop, Keeping, Machine, Pause, Receive, Send, Serves, Session, Speaking, Step, Steps, Wait, Watching, lines_of,
)

__all__ = ["Client", "Held", "Watch", "connect", "watch"]

T = TypeVar("T")
Ends = TypeVar("Ends", bound="Closable")
Stream = Tuple[asyncio.StreamReader, asyncio.StreamWriter]


async def run(machine: Machine, steps: Steps[T], do: Callable[[Step], Coroutine[Any, Any, Any]]) -> T:
    """What comes of these steps of a machine, each done by `do`."""
    course = Course(machine, steps, time.monotonic())
    while course.step is not None:
        try:
            came = await do(course.step)
        except BaseException as error:
            course.failed(error, time.monotonic())
        else:
            course.came(came, time.monotonic())
    return course.result


class Closable:
    """What is closed when the block that opened it ends."""

    async def _leave(self) -> None:
        raise NotImplementedError


class Opening(Generic[Ends]):
    """Something that is made when it is awaited, or for a block by `async with`."""

    def __init__(self, make: Coroutine[Any, Any, Ends]) -> None:
        self._make = make
        self._made: Optional[Ends] = None

    def __await__(self) -> Generator[Any, None, Ends]:
        return self._make.__await__()

    async def __aenter__(self) -> Ends:
        self._made = await self._make
        return self._made

    async def __aexit__(self, kind: Optional[Type[BaseException]], error: Optional[BaseException], trace: Optional[TracebackType]) -> None:
        assert self._made is not None
        await self._made._leave()


def connect(address: Given, process: Optional[str] = None, patience: float = 60.0, *, at_once: bool = False,
            tls: Optional[ssl.SSLContext] = None, key: Optional[Key] = None, as_: Optional[str] = None) -> "Opening[Client]":
    """A Client that is connected, and attached as the process if it is given: `await` it, or open it by `async with`. With `at_once` a
    server that nobody has started is not waited for; `tls`, `key` and `as_` are as those of `bossd.Client`. ValueError for an address or a
    key that is none, Malformed for a name in `as_`, UnknownHost, Unanswered; or as `attach`."""
    addresses_of(address)
    return Opening(Client(address, patience, at_once=at_once, tls=tls, key=key, as_=as_)._open(process))


async def connected(address: str, seconds: float, tls: Optional[ssl.SSLContext]) -> Stream:
    host, port = host_and_port(address)
    try:
        stream = await asyncio.wait_for(asyncio.open_connection(host, port, ssl=tls), seconds)
    except socket.gaierror as error:
        raise no_such_host(address, error) or error from error
    except asyncio.TimeoutError as error:
        raise ConnectionError("the server was not reached in time") from error
    prepare(stream[1].get_extra_info("socket"))
    return stream


async def serves(address: str, seconds: float, tls: Optional[ssl.SSLContext]) -> bool:
    """Whether a server answers at the address, in about so many seconds."""
    try:
        source, sink = await connected(address, seconds, tls)
        try:
            sink.write(QUESTION)
            return is_answer(await asyncio.wait_for(source.read(PIECE), seconds))
        finally:
            sink.close()
    except (OSError, asyncio.TimeoutError):
        return False


class Connection(Speaking):
    """Does the steps of who speaks over a connection, with a stream."""

    def _hold_with(self, tls: Optional[ssl.SSLContext]) -> None:
        self._tls = tls
        self._stream: Optional[Stream] = None

    async def _do(self, step: Step) -> Any:
        if isinstance(step, Connect):
            self._stream = await connected(self.address, step.seconds, self._tls)
        elif isinstance(step, Send):
            await self._send(step)
        elif isinstance(step, Receive):
            return await self._receive(step.seconds)
        elif isinstance(step, Drop):
            self._drop()
        elif isinstance(step, Serves):
            return await serves(step.address, step.seconds, self._tls)
        else:
            assert isinstance(step, Pause)
            await asyncio.sleep(step.seconds)

    def _open_stream(self) -> Stream:
        # Another task may have closed it meanwhile.
        if self._stream is None:
            raise ConnectionError("the connection was closed")
        return self._stream

    async def _send(self, step: Send) -> None:
        _, sink = self._open_stream()
        sink.write(step.data)
        try:
            await asyncio.wait_for(sink.drain(), step.seconds)
        except asyncio.TimeoutError as error:
            raise ConnectionError("no answer came in time") from error

    async def _receive(self, seconds: float) -> Optional[bytes]:
        source, sink = self._open_stream()
        acknowledge(sink.get_extra_info("socket"))
        try:
            return await asyncio.wait_for(source.read(PIECE), seconds)
        except asyncio.TimeoutError:
            return None

    def _drop(self) -> None:
        if self._stream is not None:
            self._stream[1].close()
        self._stream = None
        self._forget()


class Client(Closable, Session, Connection):
    """A connection for one control process, or, without one, for questions alone; made by `connect`. It may be used by several tasks
    of one loop, and asks one request at a time. `patience` is for how many seconds a request is asked again, over new connections,
    until it is answered."""

    def __init__(self, address: Given, patience: float = 60.0, *, at_once: bool = False, tls: Optional[ssl.SSLContext] = None,
                 key: Optional[Key] = None, as_: Optional[str] = None) -> None:
        super().__init__(address, patience, at_once, key, as_)
        self._hold_with(tls)
        self._turn = asyncio.Lock()
        self._under_way: Set["asyncio.Task[Any]"] = set()

    async def __aenter__(self) -> "Client":
        return self

    async def __aexit__(self, kind: Optional[Type[BaseException]], error: Optional[BaseException], trace: Optional[TracebackType]) -> None:
        await self.close()

    async def close(self) -> None:
        """Closes the connection, and waits a moment for the server to do so too: by then the process's live leases have ended, their
        reversions have begun, and another client may attach as the process."""
        self._closed = True
        stream = self._stream
        if stream is not None:
            with contextlib.suppress(OSError, asyncio.TimeoutError):
                await asyncio.wait_for(self._await_end(*stream), PARTING)
        self._drop()

    async def attach(self, process: str) -> int:
        """Becomes the control process of this name. Gives the number of its next notice. Malformed, WrongKey, Already, Taken,
        TooManyProcesses, NoMemory, Unanswered."""
        return await self._alone(self._becoming(process))

    async def submit(self, writes: Iterable[Mapping[str, Any]], policy: str = "abort") -> Accepted:
        """Sets several points, all of them or none, and gives what was Accepted, as `bossd.Client.submit`."""
        return await self._alone(self._submitting(writes, policy))

    async def renew(self, txn: int, length: int, points: Iterable[str] = ()) -> int:
        """Keeps leases of a transaction for at least `length` more milliseconds, as `bossd.Client.renew`."""
        return await self._alone(self._renewing(txn, length, points))

    async def cancel(self, txn: int) -> int:
        """Ends the live leases of a transaction; their reversions begin. As `bossd.Client.cancel`."""
        return await self._alone(self._cancelling(txn))

    def hold(self, writes: Iterable[Mapping[str, Any]], policy: str = "abort") -> "Opening[Held]":
        """Submits, and keeps the leases alive until they are released, the client is closed, or the program ends. `await` it, which
        gives a Held, or open it by `async with`, which releases it at the end. Errors as of `submit`."""
        return Opening(self._hold([dict(one) for one in writes], policy))

    async def read(self, point: str) -> Reading:
        """The Reading of a point. UnknownPoint, Malformed, Unanswered."""
        return await self._alone(self._reading(point))

    async def array(self, point: str) -> Slots:
        """The Slots of a point. UnknownPoint, Malformed, Unanswered."""
        return await self._alone(self._reading_slots(point))

    async def status(self, txn: int) -> Status:
        """The Status of a transaction, of whatever process. UnknownTransaction, Malformed, Unanswered."""
        return await self._alone(self._reading_status(txn))

    async def notices(self, process: Optional[str] = None, first: int = 1, most: int = 16) -> Notices:
        """The Notices of a process, by default the client's own, as `bossd.Client.notices`."""
        return await self._alone(self._reading_notices(process, first, most))

    async def points(self) -> Points:
        """The Points of the server's catalogue, all of them, as `bossd.Client.points`."""
        return await self._alone(self._reading_points())

    async def version(self) -> Version:
        """The server's Version, as `bossd.Client.version`."""
        return await self._alone(self._reading_version())

    async def ask(self, request: Request) -> Answer:
        """Asks a request, as docs/PROTOCOL.md has it, and gives its answer, as dicts. Where the connection is lost it is asked again
        over a new one, attached as before. Refused, Unanswered."""
        return await self._alone(self._asking(request))

    async def ask_all(self, requests: Iterable[Request]) -> List[Union[Answer, Refused]]:
        """Asks many questions at once over the one connection, and gives their answers in their order, as `bossd.Client.ask_all`."""
        lines, asked = lines_of(requests)
        return await self._alone(self._asking_all(lines, asked)) if lines else []

    # -- one at a time, and to its end

    async def _alone(self, steps: Steps[T]) -> T:
        """What comes of these steps, made when their turn comes, and to their end also where whoever awaits them is cancelled."""
        async def in_turn() -> T:
            async with self._turn:
                return await run(self, steps, self._do)

        task = asyncio.ensure_future(in_turn())
        self._under_way.add(task)
        task.add_done_callback(self._made)
        return await asyncio.shield(task)

    def _made(self, task: "asyncio.Task[Any]") -> None:
        self._under_way.discard(task)
        if not task.cancelled():
            # Whoever waited for this error may be gone.
            task.exception()

    async def _open(self, process: Optional[str]) -> "Client":
        try:
            await self._alone(self._opening(process))
            return self
        except BaseException:
            self._closed = True
            self._drop()
            raise

    async def _leave(self) -> None:
        await self.close()

    async def _hold(self, writes: List[Request], policy: str) -> "Held":
        return Held(self, await self.submit(writes, policy), writes)

    async def _await_end(self, source: asyncio.StreamReader, sink: asyncio.StreamWriter) -> None:
        """Says that nothing more comes, and waits until the server has closed the connection."""
        if sink.can_write_eof():
            sink.write_eof()
        async with self._turn:
            if self._tls is not None:
                # Says the end within TLS, and waits for that of the other side, which comes once the server has closed.
                sink.close()
                await sink.wait_closed()
            while await source.read(PIECE):
                pass


class Held(Closable, Keeping):
    """A transaction whose leases are renewed by a task, every third part of the shortest, for this length. `txn` is its number, `until`
    the moment up to which it was held at least when that was last told. `ended` is why it is held no longer, or None. Every second the
    server is asked how it stands."""

    _over: asyncio.Event

    def __init__(self, client: Client, accepted: Accepted, writes: List[Request]) -> None:
        super().__init__(accepted, writes, asyncio.Event())
        self._client = client
        self._keeper = asyncio.ensure_future(self._keep())

    async def __aenter__(self) -> "Held":
        return self

    async def __aexit__(self, kind: Optional[Type[BaseException]], error: Optional[BaseException], trace: Optional[TracebackType]) -> None:
        await self.release()

    async def wait(self, seconds: Optional[float] = None) -> bool:
        """Waits until it has ended, for so many seconds at most, and tells whether it has."""
        with contextlib.suppress(asyncio.TimeoutError):
            await asyncio.wait_for(self._over.wait(), seconds)
        return self._over.is_set()

    async def release(self) -> None:
        """Renews no more and ends the leases, if they still stand; their reversions begin. Unanswered."""
        await self._client._alone(self._releasing(self._client))

    async def _leave(self) -> None:
        await self.release()

    async def _keep(self) -> None:
        await run(self, self._keeping(self._client), self._do)

    async def _do(self, step: Step) -> Any:
        if isinstance(step, Wait):
            return await self.wait(step.seconds)
        assert isinstance(step, Ask)
        return await self._client.ask(step.request)


def watch(address: Given, process: str, first: int = 1, patience: float = 60.0, *, tls: Optional[ssl.SSLContext] = None,
          key: Optional[Key] = None, as_: Optional[str] = None) -> "Watch":
    """The Notices of a process as they come, from the number `first` on, each once and in order: a Watch, for `async for`."""
    return Watch(address, process, first, patience, tls=tls, key=key, as_=as_)


class Watch(Watching, Connection, AsyncIterator[Notice]):
    """The Notices of a process as they come, without an end, until it is closed; over lost connections it goes on after the last one.
    It is as `bossd.Watch`: `patience` is for how many seconds it connects anew before it raises Unanswered. A task that waits for a
    notice may be cancelled, and the watch used again: no notice is lost by that. `close` ends it; `async with` closes it at the end."""

    def __init__(self, address: Given, process: str, first: int = 1, patience: float = 60.0, *,
                 tls: Optional[ssl.SSLContext] = None, key: Optional[Key] = None, as_: Optional[str] = None) -> None:
        super().__init__(address, process, first, patience, key, as_)
        self._hold_with(tls)

    async def __aenter__(self) -> "Watch":
        return self

    async def __aexit__(self, kind: Optional[Type[BaseException]], error: Optional[BaseException], trace: Optional[TracebackType]) -> None:
        self.close()

    def __aiter__(self) -> "Watch":
        return self

    async def __anext__(self) -> Notice:
        """The next notice. StopAsyncIteration once it is closed; Unanswered, UnknownHost, WrongKey."""
        notice = await run(self, self._following(), self._do)
        if notice is None:
            raise StopAsyncIteration
        return notice

    def close(self) -> None:
        """Ends it, also where another task waits for a notice."""
        self._closed = True
        self._drop()

    async def aclose(self) -> None:
        """As `close`."""
        self.close()
