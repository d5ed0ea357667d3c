"""Makes an operator's changes, as one control process of the server's. It takes a second worker while it holds something."""

import asyncio
import contextlib
import time
from collections import OrderedDict
from typing import Any, Awaitable, Callable, Coroutine, Dict, List, Optional, Set

import bossd
import bossd.aio

from .picture import Picture

# For how many seconds a change is waited for before it is said that no answer came yet; for how many the first connection is waited for,
# which wants a worker of its own; and after how many a change is given up.
PATIENCE, REACHING, GIVEN_UP = 8.0, 6.0, 60.0
# For how many seconds the connection is kept, whatever the server does not answer: where it is cut, what is held ends.
HOLDING = 10 * 365 * 86_400.0
# How often it is asked how what is held stands, in seconds: a process that is silent for long loses more when its connection is lost.
PULSE = 1.0
# So many changes are known again by their ids.
KEPT = 256

Result = Dict[str, Any]
# Asks a change of the server, and gives what is to be said of its answer.
Ask = Callable[[bossd.aio.Client], Awaitable[Result]]


class Unmade(Exception):
    """A change was not made. `error` says in a word why not."""

    def __init__(self, error: str, sentence: str) -> None:
        super().__init__(sentence)
        self.error = error


class Open(Exception):
    """No answer came yet. The change is under way: who asks for it again, under the same id, is told what came of it."""


def sentence_of(refused: bossd.Refused, name: str) -> str:
    """What to say of a refusal."""
    if isinstance(refused, bossd.Denied):
        why = f"by rule {refused.rule} of the server's rules file" if refused.rule else "since no rule of the server's rules file is for it"
        return f"{name} may not write this point at this priority, {why}"
    sentences = {
        "taken": f"another connection speaks for the process {name}; it may be an earlier one of this console, so try again in a moment",
        "wrong-key": f"the server does not take the console's key for the process {name}",
        "not-yours": "the transaction is another process's; take the point at the same priority instead",
        "ended": "its lease has ended",
        "over": "it holds nothing any more",
        "unknown-txn": "the server does not know this transaction any more",
        "out-of-range": "the value does not fit the point",
        "bad-priority": "the priority is 1 to 16, and not 6",
        "bad-lease": "it may be held for a week at most",
        "bad-reversion": "the way back has at most 8 steps, each of a day at most, and values that fit the point",
        "stopped": "the server's disk failed",
    }
    return sentences.get(refused.error, str(refused))


class Operator:
    """The control process `name`, by its key where there is one. `changed` is called after each change."""

    def __init__(self, address: str, name: str, picture: Picture, changed: Callable[[], None], key: Optional[bossd.Key] = None) -> None:
        self._key = key
        self.address, self.name, self.picture, self.changed = address, name, picture, changed
        self._client: Optional[bossd.aio.Client] = None
        self._turn = asyncio.Lock()
        self._held: Set[int] = set()
        self._made: "OrderedDict[str, asyncio.Future[Result]]" = OrderedDict()

    async def run(self) -> None:
        """Keeps the connection as long as something is held, for ever."""
        try:
            while True:
                await asyncio.sleep(PULSE)
                async with self._turn:
                    if self._client is not None:
                        await self._keep()
        finally:
            if self._client is not None:
                await self._client.close()

    async def take(self, change: str, point: str, value: int, priority: int, lease: int, way: List[List[int]], policy: str = "keep",
                   stands: bool = False) -> Result:
        """Holds a value on a point for so many milliseconds, with a way back, under this policy. Unmade, Open."""
        if stands:
            raise Unmade("no-overrides", "this console was started without --overrides, so nothing stands longer than its lease")

        async def ask(client: bossd.aio.Client) -> Result:
            accepted = await client.submit([bossd.write(point, value, priority=priority, lease=lease, revert=way)], policy)
            self._held.add(accepted.txn)
            self.picture.took(accepted.txn, self.name, way)
            return accepted._asdict()

        return await self._once(change, lambda: self._make(point, ask))

    async def prolong(self, change: str, point: str, txn: int, length: int) -> Result:
        """Keeps a transaction's leases for at least so many milliseconds more. Unmade, Open."""
        async def ask(client: bossd.aio.Client) -> Result:
            return {"txn": txn, "until": await client.renew(txn, length)}

        return await self._once(change, lambda: self._make(point, ask))

    async def release(self, change: str, point: str, txn: int) -> Result:
        """Ends a transaction's leases. Unmade, Open."""
        async def ask(client: bossd.aio.Client) -> Result:
            return {"txn": txn, "at": await client.cancel(txn)}

        return await self._once(change, lambda: self._make(point, ask))

    # -- each once

    async def _once(self, change: str, make: Callable[[], Coroutine[Any, Any, Result]]) -> Result:
        """Makes a change, or gives what came of it where its id was made before. Who gives up waiting does not call it back."""
        made = self._made.get(change)
        if made is None:
            made = self._made[change] = asyncio.ensure_future(make())
            while len(self._made) > KEPT:
                self._made.popitem(last=False)
        try:
            return await asyncio.wait_for(asyncio.shield(made), PATIENCE)
        except asyncio.TimeoutError:
            raise Open from None

    async def _make(self, point: str, ask: Ask) -> Result:
        deadline = time.monotonic() + GIVEN_UP
        try:
            await asyncio.wait_for(self._turn.acquire(), GIVEN_UP)
        except asyncio.TimeoutError:
            raise Unmade("unanswered", "the server does not answer; nothing was changed") from None
        try:
            result = await self._ask(ask, deadline)
            with contextlib.suppress(bossd.Unanswered):
                await self._look(point)
            return result
        finally:
            self._turn.release()

    async def _ask(self, ask: Ask, deadline: float) -> Result:
        client = await self._connected()
        client.patience = max(1.0, deadline - time.monotonic())
        try:
            return await ask(client)
        except bossd.Unanswered as error:
            raise Unmade("unknown", "no answer came for too long, so it is not known whether it was made: look at the point") from error
        except bossd.Refused as refused:
            raise Unmade(refused.error, sentence_of(refused, self.name)) from refused

    async def _connected(self) -> bossd.aio.Client:
        if self._client is None:
            try:
                self._client = await bossd.aio.connect(self.address, self.name, patience=REACHING, key=self._key)
            except bossd.Refused as refused:
                raise Unmade(refused.error, sentence_of(refused, self.name)) from refused
            except (bossd.Unanswered, bossd.UnknownHost) as error:
                raise Unmade("unanswered", "no worker of the server was free for it, or the server is down; nothing was changed") from error
        return self._client

    # -- what is held

    async def _look(self, point: str) -> None:
        """How a point stands just after a change."""
        assert self._client is not None
        self.picture.read(await self._client.read(point))
        self.picture.stands(await self._client.array(point))
        self.changed()

    async def _keep(self) -> None:
        """Asks how what is held stands, and closes the connection once nothing is."""
        assert self._client is not None
        self._client.patience = HOLDING
        for txn in sorted(self._held | self.picture.transactions_of(self.name).keys()):
            try:
                live = (await self._client.status(txn)).live
            except bossd.Refused:
                live = 0
            (self._held.add if live else self._held.discard)(txn)
        if not self._held:
            client, self._client = self._client, None
            await client.close()
