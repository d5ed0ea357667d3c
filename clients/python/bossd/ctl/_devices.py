"""What all devices of `bossctl field` have in common, whatever they speak: places, hosts, and what they do instead of working."""

import abc
import asyncio
import time
from typing import Any, Callable, Dict, Generic, List, NamedTuple, Optional, TypeVar

from ._show import NONE, Point, now
from ._toml import Failure

# How long a controller that restarts says nothing, and how much later than its driver waits a late answer comes, in seconds.
RESTARTS, LATER = 2.0, 0.1


class Trouble(NamedTuple):
    """What a host or a point does instead of working: `fail`, `reject` or `abort`, `silent`, and of a host `refuse` or `restart`. The code is
    that of `fail`; None where the protocol has one of its own for it."""
    what: str
    code: Optional[int] = None

    def is_silent(self) -> bool:
        return self.what in ("silent", "restart", "refuse")


class Watchdog(NamedTuple):
    """A device falls back to a value of its own where nothing was written to it for so many milliseconds."""
    patience: int
    value: int


class Heard(NamedTuple):
    """A request, in words and for programs, and the bytes of its answer, which are None where there is none."""
    names: List[str]
    said: str
    value: str
    came: str
    told: Dict[str, Any]
    answer: Optional[bytes]


class Place(abc.ABC):
    """Where a point is in a device."""

    def __init__(self, point: Point) -> None:
        self.point = point
        # When it was written last, by anyone; 0 before. And when a request wrote it last, by a clock that nobody sets.
        self.moment, self.heard = 0, 0.0
        self.trouble: Optional[Trouble] = None
        # By how much it moves of itself each second.
        self.drift = 0
        self.watchdog: Optional[Watchdog] = None

    @abc.abstractmethod
    def where(self) -> str:
        """Its place, in words."""

    @abc.abstractmethod
    def value(self) -> Optional[int]:
        """What it has, as a value of the point; None where nobody wrote it since it began."""

    @abc.abstractmethod
    def turn(self, value: Optional[int], level: Optional[int]) -> str:
        """Turns it by hand, and says what the device has for it. No value lets a level go. Failure where the device has none of these."""

    @abc.abstractmethod
    def move(self, value: int) -> None:
        """It has another value of itself."""

    @abc.abstractmethod
    def forget(self) -> None:
        """It has what it had before anybody wrote it."""

    def is_moving(self) -> bool:
        return self.drift != 0 or self.watchdog is not None

    def was_written(self, by_hand: bool = False) -> None:
        self.moment = now()
        if not by_hand:
            self.heard = time.monotonic()

    def drifts(self) -> None:
        """Moves it by its drift, as far as the point's values go."""
        value = self.value()
        if self.drift and value is not None:
            self.move(min(max(value + self.drift, self.point.least), self.point.most))

    def falls_back(self) -> bool:
        """Whether its watchdog has it fall back now."""
        if self.watchdog is None or self.value() in (None, self.watchdog.value):
            return False
        if time.monotonic() - self.heard < self.watchdog.patience / 1000:
            return False
        self.move(self.watchdog.value)
        return True

    def shown(self) -> str:
        value = self.value()
        return NONE if value is None else self.point.show(value)


P = TypeVar("P", bound=Place)
Hear = Callable[["Host[Any]", Heard], None]
Note = Callable[["Host[Any]", str], None]


class Host(abc.ABC, Generic[P]):
    """One host of the plan: where it listens, the drivers that are there, and its places. `wait` is how long its drivers wait for an
    answer, in milliseconds."""

    def __init__(self, address: str) -> None:
        self.address = address
        self.drivers: List[str] = []
        self.places: List[P] = []
        self.wait = 0
        self.trouble: Optional[Trouble] = None
        self.is_late = self.is_twice = False
        self.hear: Hear = lambda host, heard: None
        self.note: Note = lambda host, text: None
        self._restart: Optional[asyncio.TimerHandle] = None

    @abc.abstractmethod
    async def open(self) -> None:
        """Listens. Failure where it cannot."""

    @abc.abstractmethod
    def is_open(self) -> bool:
        """Whether it listens."""

    @abc.abstractmethod
    def shut(self) -> None:
        """Listens no more, and ends the connections that there are."""

    @abc.abstractmethod
    def forget(self) -> None:
        """Has what it had before anybody wrote it, and knows no connection."""

    @abc.abstractmethod
    def trouble_text(self, trouble: Trouble) -> str:
        """What it does, in words."""

    def delay(self) -> float:
        """After how many seconds it answers."""
        return self.wait / 1000 + LATER if self.is_late else 0.0

    def restart(self) -> None:
        """Says nothing for two seconds, and knows nothing then."""
        self.stop_restart()
        self.trouble = Trouble("restart")
        self._restart = asyncio.get_running_loop().call_later(RESTARTS, self._restarted)

    def _restarted(self) -> None:
        self.forget()
        self._restart = None
        if self.trouble is not None and self.trouble.what == "restart":
            self.trouble = None
        self.note(self, "it is back, and has forgotten all values")

    def stop_restart(self) -> None:
        """Where it restarts, it has now."""
        if self._restart is not None:
            self._restart.cancel()
            self._restarted()

    def state(self, trouble: Optional[Trouble]) -> str:
        """How it does, or one of its places with a trouble of its own."""
        trouble = self.trouble or trouble
        parts = [] if trouble is None else [self.trouble_text(trouble)]
        parts += ["answers late"] if self.is_late else []
        parts += ["answers twice"] if self.is_twice else []
        return ", ".join(parts)

    def cannot_listen(self, error: OSError) -> Failure:
        return Failure(f"{self.address} of {', '.join(self.drivers)} cannot be listened at: {error.strerror or error}")


def split_address(address: str, known: str = "Modbus TCP has 502") -> "tuple[str, int]":
    """The host and the port of HOST:PORT. Failure where there is no port."""
    name, _, port = address.rpartition(":")
    if not name or not port.isdigit() or int(port) > 65_535:
        raise Failure(f"{address} has no port: {known}")
    return name.strip("[]"), int(port)
