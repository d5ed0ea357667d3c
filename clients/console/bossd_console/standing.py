"""Makes an operator's changes through bossd-overrides, so that they outlive the page and the console."""

import asyncio
import socket
from typing import Any, Callable, Dict, List, Optional

import bossd
from bossd.overrides import NotMade, asked

from .catalogue import Failure, now
from .operating import GIVEN_UP, PULSE, Operator, Result, Unmade, sentence_of
from .picture import Picture


def process_at(path: str) -> str:
    """The process that the service at this socket is. Failure where it does not answer."""
    try:
        return str(asked(path, {"do": "list"})["process"])
    except (OSError, NotMade) as error:
        raise Failure(f"{path}: {error}: does bossd-overrides run?") from error


class Standing(Operator):
    """The overrides of the service at a socket, which is the control process `name`. They are set for `whom`."""

    def __init__(self, path: str, name: str, whom: str, picture: Picture, changed: Callable[[], None]) -> None:
        super().__init__("", name, picture, changed)
        self.path, self.whom = path, whom

    async def run(self) -> None:
        """Looks at what stands, for ever."""
        while True:
            await self._see()
            await asyncio.sleep(PULSE)

    async def take(self, change: str, point: str, value: int, priority: int, lease: int, way: List[List[int]], policy: str = "keep",
                   stands: bool = False) -> Result:
        """Holds a value on a point for so many milliseconds, or until somebody releases it, with a way back. Unmade, Open."""
        until = {} if stands else {"until": now() + lease}
        request = {"do": "set", "point": point, "value": value, "priority": priority, "back": way, **until}
        return await self._once(change, lambda: self._ask_service(request))

    async def prolong(self, change: str, point: str, txn: int, length: int) -> Result:
        """Lets what a transaction holds end so many milliseconds from now, if it would end before. Unmade, Open."""
        one = self._found(point, txn)
        if one["until"] is None or one["until"] > now() + length:
            return one
        request = {"do": "prolong", "point": point, "priority": one["priority"], "until": now() + length}
        return await self._once(change, lambda: self._ask_service(request))

    async def release(self, change: str, point: str, txn: int) -> Result:
        """Ends what a transaction holds. Unmade, Open."""
        one = self._found(point, txn)
        return await self._once(change, lambda: self._ask_service({"do": "release", "point": point, "priority": one["priority"]}))

    def _found(self, point: str, txn: int) -> Dict[str, Any]:
        for one in self.picture.overrides.values():
            if (one["point"], one["txn"]) == (point, txn):
                return one
        raise Unmade("over", "it holds nothing any more")

    async def _ask_service(self, request: Dict[str, Any]) -> Result:
        try:
            answer = await self._answer({**request, "for": self.whom}, GIVEN_UP)
        except NotMade as error:
            refused: Optional[bossd.Refused] = bossd.REFUSALS.get(error.error, bossd.Refused)(error.fields) if error.fields else None
            raise Unmade(error.error, sentence_of(refused, self.name) if refused else str(error)) from error
        except socket.timeout as error:
            raise Unmade("unknown", "no answer came for too long, so it is not known whether it was made: look at the point") from error
        except OSError as error:
            raise Unmade("unanswered", f"bossd-overrides does not answer ({error}); nothing was changed") from error
        await self._see()
        return answer

    async def _answer(self, request: Dict[str, Any], seconds: float) -> Dict[str, Any]:
        return await asyncio.get_running_loop().run_in_executor(None, lambda: asked(self.path, request, seconds))

    async def _see(self) -> None:
        """Which overrides stand. Those that were seen last stay where the service does not answer."""
        try:
            told = await self._answer({"do": "list"}, PULSE)
        except (OSError, NotMade):
            return
        if self.picture.overridden(told["overrides"]):
            self.changed()
