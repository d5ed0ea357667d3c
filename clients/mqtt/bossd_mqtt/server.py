"""The connection to the server, as the bridge's own process, which looks and changes over it. It takes one of the server's workers."""

import asyncio
import time
from collections import OrderedDict
from typing import Any, Callable, Dict, Iterable, List, Optional, Sequence, Union

import bossd
import bossd.aio

from .saying import Saying

Request = Dict[str, Any]
Answer = Union[Dict[str, Any], bossd.Refused]
# How many questions are asked at once: a command that comes meanwhile waits for one such group.
GROUP = 512
# For how long an answer is waited for, in seconds, and after how long without one the server counts as away.
PATIENCE, SILENT = 10.0, 5.0
# For how long another connection of the process is waited for, and how long after a refusal it is tried again, in seconds.
A_MINUTE, PAUSE = 60.0, 1.0
# Of so many transactions it is known whose they are.
MOST_OWNERS = 8_192


class IsTaken(Exception):
    """Another program has spoken for the process for a minute."""


class Server:
    """A server that may go and come. `is_up` is whether it answers and all points were read since; `turned` is called when that changes."""

    def __init__(self, address: str, process: str, saying: Saying, key: Optional[bossd.Key] = None) -> None:
        self._key = key
        self.address, self.process, self.saying = address, process, saying
        self.is_up = False
        self.turned: Callable[[], None] = lambda: None
        self._client: Optional[bossd.aio.Client] = None
        self._owners: "OrderedDict[int, str]" = OrderedDict()
        self._asked: Dict[object, float] = {}
        self._is_anew = True

    async def reach(self) -> int:
        """Connects, however long it takes, and gives the number of the process's next notice. IsTaken."""
        taken_since: Optional[float] = None
        while True:
            pause = PAUSE
            try:
                self._client = await bossd.aio.connect(self.address, self.process, patience=PATIENCE, key=self._key)
                return self._client.next_notice or 1
            except bossd.Taken as error:
                taken_since = taken_since or time.monotonic()
                self.saying.once("taken", f"another connection speaks for {self.process}: is another copy running?")
                if time.monotonic() - taken_since > A_MINUTE:
                    raise IsTaken from error
            except bossd.Refused as error:
                self.saying.once(error.error, f"{self.address}: refused: {error}")
                pause = A_MINUTE
            except (bossd.Unanswered, bossd.UnknownHost) as error:
                self.saying.once("away", f"{self.address}: {getattr(error, 'why', '') or error}")
            await asyncio.sleep(pause)

    def attached_anew(self) -> bool:
        """Whether there is another connection since this was asked last: then leases may have died, and the journal may be another one."""
        assert self._client is not None
        is_anew, self._is_anew = self._is_anew or self._client.next_notice is not None, False
        self._client.next_notice = None
        if is_anew:
            self._owners.clear()
        return is_anew

    async def submit(self, writes: Sequence[bossd.Request]) -> int:
        """Sets points, and gives the transaction. Refused, Unanswered."""
        assert self._client is not None
        client, place = self._client, self._asking()
        try:
            txn = (await client.submit(writes, "keep")).txn
        finally:
            del self._asked[place]
        self.owned(txn, self.process)
        return txn

    async def ask(self, request: Request) -> Dict[str, Any]:
        """The answer to a question. Refused, Unanswered."""
        answer, = await self.ask_all([request])
        if isinstance(answer, bossd.Refused):
            raise answer
        return answer

    async def ask_all(self, requests: Sequence[Request]) -> List[Answer]:
        """The answers to questions, in their order. Unanswered; also where the server's disk stopped."""
        answers: List[Answer] = []
        for place in range(0, len(requests), GROUP):
            answers += await self._ask_group(requests[place:place + GROUP])
        return answers

    async def _ask_group(self, requests: Sequence[Request]) -> List[Answer]:
        assert self._client is not None
        place = self._asking()
        try:
            answers = await self._client.ask_all(requests)
        except bossd.WrongKey as error:
            # Whoever keeps the server's keys may mend that, so the bridge goes on.
            self._turn(False)
            raise bossd.Unanswered(requests[0], str(error)) from error
        finally:
            del self._asked[place]
        if any(isinstance(answer, bossd.Stopped) for answer in answers):
            self.saying.once("stopped", "the server's disk failed: it keeps nothing any more until it is started anew")
            self._turn(False)
            raise bossd.Unanswered(requests[0], "stopped")
        return answers

    def looked(self) -> None:
        """All points were read."""
        self._turn(True)

    def glance(self) -> None:
        """Finds out whether an answer is late."""
        if self._asked and time.monotonic() - min(self._asked.values()) > SILENT:
            self._turn(False)

    # -- whose transactions are

    async def owners(self, txns: Iterable[int]) -> Dict[int, str]:
        """Whose these transactions are, as far as the server knows them. Unanswered."""
        wanted = set(txns)
        unknown = sorted(wanted - self._owners.keys())
        for txn, answer in zip(unknown, await self.ask_all([{"op": "status", "txn": txn} for txn in unknown])):
            if isinstance(answer, dict):
                self.owned(txn, answer["owner"])
        return {txn: self._owners[txn] for txn in wanted if txn in self._owners}

    def owned(self, txn: int, owner: str) -> None:
        """Keeps whose a transaction is."""
        self._owners[txn] = owner
        while len(self._owners) > MOST_OWNERS:
            self._owners.popitem(last=False)

    async def close(self) -> None:
        """Closes the connection: what is held dies, and its way back begins."""
        if self._client is not None:
            await self._client.close()

    def _asking(self) -> object:
        place = object()
        self._asked[place] = time.monotonic()
        return place

    def _turn(self, is_up: bool) -> None:
        if is_up != self.is_up:
            self.is_up = is_up
            self.turned()
