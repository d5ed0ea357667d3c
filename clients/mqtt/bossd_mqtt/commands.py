"""What others ask over MQTT: to set a point, and to let it go again."""

import asyncio
import json
import time
from collections import Counter, OrderedDict
from decimal import Decimal
from typing import Any, Callable, Dict, Mapping, NamedTuple, Optional, Tuple

import bossd
from bossd.ctl._show import exact_length, now, read_length

from .holding import Holding
from .saying import Saying
from .settings import Settable, Settings
from .topics import Point, value_of

LONGEST_COMMAND, LONGEST_ID = 1_024, 64
SECOND = 1_000
OUTCOMES = ("made", "renewed", "released", "replaced", "refused", "unfit", "retained")
SENTENCES = {
    "memory": "the server is out of memory for it",
    "stopped": "the server's disk failed: it keeps nothing any more until it is started anew",
    "spent": "the server has given its last transaction number",
    "unknown-point": "the server has no such point: its catalogue is another one",
    "out-of-range": "the server's catalogue has other bounds",
    "unanswered": "the server did not answer in time: whether it was made is not known",
    "not-held": "the bridge does not hold it",
    "read-only": "the bridge's file lets nobody set it",
    "replaced": "a later command of this point came before it was made",
}


class Unfit(ValueError):
    """What came is no command. Its text says why."""


class Wish(NamedTuple):
    """What is asked of a point: a value for so many milliseconds, or, where that is None, that it is let go. `id` names it in the answer."""
    value: Optional[int]
    length: int
    id: Optional[str]


def object_in(payload: bytes) -> Dict[str, Any]:
    """The JSON object of a payload. Unfit."""
    try:
        found = json.loads(payload.decode(), parse_float=Decimal)
    except (ValueError, RecursionError) as error:
        raise Unfit(f"no JSON: {error}") from error
    if not isinstance(found, dict):
        raise Unfit("no JSON object")
    return found


def id_in(found: Mapping[str, Any]) -> Optional[str]:
    """What a command is to be called in its answer."""
    name = found.get("id")
    if name is not None and (not isinstance(name, str) or not 1 <= len(name) <= LONGEST_ID):
        raise Unfit(f"id is to be a text of 1 to {LONGEST_ID} characters")
    return name


def length_in(found: Mapping[str, Any], most: int) -> int:
    """For how long a value is asked."""
    if "for" not in found:
        return most
    try:
        length = read_length(found["for"]) if isinstance(found["for"], str) else 0
    except ValueError:
        length = 0
    if not SECOND <= length <= most:
        raise Unfit(f"for is to be a length of time, 1s to {exact_length(most)}")
    return length


def set_of(point: Point, one: Settable, payload: bytes) -> Wish:
    """What a payload of `set` asks. Unfit."""
    if len(payload) > LONGEST_COMMAND:
        raise Unfit(f"{len(payload)} bytes; a command has at most {LONGEST_COMMAND}")
    found: Dict[str, Any] = {"value": payload}
    if payload.lstrip()[:1] == b"{":
        found = object_in(payload)
        found["value"] = number_in(found.get("value"))
    try:
        return Wish(value_of(point, found["value"]), length_in(found, one.lasts), id_in(found))
    except Unfit:
        raise
    except ValueError as error:
        raise Unfit(str(error)) from error


def number_in(value: object) -> bytes:
    """The payload that a value in JSON would be. Unfit."""
    if isinstance(value, bool) or not isinstance(value, (int, Decimal, str)):
        raise Unfit("value is to be a number")
    if isinstance(value, str):
        return value.encode()
    # A whole number may have more digits than can be written.
    return str(value).encode() if isinstance(value, Decimal) or abs(value) < 10**18 else b"1e18"


def release_of(payload: bytes) -> Wish:
    """What a payload of `release` asks: anything does. Unfit."""
    if len(payload) > LONGEST_COMMAND:
        raise Unfit(f"{len(payload)} bytes; a command has at most {LONGEST_COMMAND}")
    return Wish(None, 0, id_in(object_in(payload)) if payload.lstrip()[:1] == b"{" else None)


def sentence_of(error: bossd.Refused) -> str:
    """What to say of a refusal."""
    if isinstance(error, bossd.Denied):
        return f"denied by rule {error.rule} of the server's access rules" if error.rule else "no access rule of the server is for it"
    return SENTENCES.get(error.error, str(error))


class Bucket:
    """Lets so many through a second, and those of two seconds at once."""

    def __init__(self, rate: int, clock: Callable[[], float] = time.monotonic) -> None:
        self.rate, self._clock = rate, clock
        self._left, self._at = 2.0 * rate, clock()

    def wait(self) -> float:
        """Takes one, and gives for how many seconds it has to wait."""
        moment = self._clock()
        self._left = min(2.0 * self.rate, self._left + (moment - self._at) * self.rate) - 1.0
        self._at = moment
        return max(0.0, -self._left / self.rate)


class Commands:
    """Of each point the last command that came and was not made; so memory is bounded by the catalogue. They are made in the order in which
    the points came. `answer` is called with a point and what it is answered."""

    def __init__(self, settings: Settings, holding: Holding, saying: Saying, answer: Callable[[str, Mapping[str, object]], None]) -> None:
        self.settings, self.holding, self.saying, self.answer = settings, holding, saying, answer
        self.counts: "Counter[str]" = Counter()
        self.made: Callable[[], Any] = lambda: None
        self._pending: "OrderedDict[str, Wish]" = OrderedDict()
        self._wanted = asyncio.Event()
        self._bucket = Bucket(settings.rate)

    def came(self, name: str, leaf: str, payload: bytes) -> None:
        """A command came."""
        point, one = self.settings.points.get(name), self.settings.settable.get(name)
        if point is None:
            self.counts["unfit"] += 1
            self.saying.once("unknown", f"{name[:64]}: a command for a point that the catalogue does not have")
            return
        try:
            if one is None:
                self._refuse(name, None, "read-only", SENTENCES["read-only"])
                return
            wish = set_of(point, one, payload) if leaf == "set" else release_of(payload)
        except Unfit as error:
            self.counts["unfit"] += 1
            self.saying.once((name, "unfit"), f"{name}: {error}")
            self.answer(name, {"ok": False, "error": "unfit", "sentence": str(error)})
            return
        earlier = self._pending.get(name)
        if earlier is not None:
            self.counts["replaced"] += 1
            if earlier.id is not None:
                self.answer(name, {"id": earlier.id, "ok": False, "error": "replaced", "sentence": SENTENCES["replaced"]})
        self._pending[name] = wish
        self._wanted.set()

    def forget(self) -> None:
        """Makes nothing of what came before."""
        self._pending.clear()

    async def run(self) -> None:
        """Makes them, for ever."""
        while True:
            if not self._pending:
                self._wanted.clear()
                await self._wanted.wait()
            await asyncio.sleep(self._bucket.wait())
            if self._pending:
                await self._make(*self._pending.popitem(last=False))

    async def _make(self, name: str, wish: Wish) -> None:
        try:
            outcome, until = await self._ask(name, wish)
        except bossd.Unanswered:
            self._refuse(name, wish.id, "unanswered", SENTENCES["unanswered"])
            return
        except bossd.Refused as error:
            self._refuse(name, wish.id, error.error, sentence_of(error))
            return
        if outcome == "not-held":
            self._refuse(name, wish.id, outcome, SENTENCES[outcome])
            return
        self.counts[outcome] += 1
        self.answer(name, {**named(wish.id), "ok": True, "until": until})
        await self.made()

    async def _ask(self, name: str, wish: Wish) -> Tuple[str, Optional[int]]:
        if wish.value is not None:
            is_new = await self.holding.take(name, wish.value, wish.length)
            return "made" if is_new else "renewed", now() + wish.length
        if not self.holding.holds(name):
            return "not-held", None
        await self.holding.let_go(name)
        return "released", None

    def _refuse(self, name: str, key: Optional[str], error: str, sentence: str) -> None:
        self.counts["refused"] += 1
        self.saying.once((name, error), f"{name}: {sentence}")
        self.answer(name, {**named(key), "ok": False, "error": error, "sentence": sentence})


def named(key: Optional[str]) -> Dict[str, object]:
    """The name of a command in its answer, where it has one."""
    return {} if key is None else {"id": key}
