"""What each retained topic is to have, and what is on its way to the broker. Pure."""

import time
from collections import OrderedDict
from typing import Callable, Dict, Mapping, NamedTuple, Optional, Tuple


class Sent(NamedTuple):
    """A message under way, and since when its topic was to have something new, in seconds."""
    topic: str
    since: float


class Outbox:
    """Of a topic only the last payload counts, so it never holds more than one for each, however slow the broker is. At most `window` are
    under way."""

    def __init__(self, window: int = 200, clock: Callable[[], float] = time.monotonic) -> None:
        self.window = window
        self._clock = clock
        self._wanted: Dict[str, str] = {}
        self._due: "OrderedDict[str, float]" = OrderedDict()
        self._sent: Dict[int, Sent] = {}
        self._busy: Dict[str, int] = {}

    def want(self, topics: Mapping[str, str]) -> None:
        """Has these topics have these payloads."""
        for topic, payload in topics.items():
            if self._wanted.get(topic) != payload:
                self._wanted[topic] = payload
                self._due.setdefault(topic, self._clock())

    def forget(self, topic: str) -> None:
        """Wants nothing more of a topic."""
        self._wanted.pop(topic, None)
        self._due.pop(topic, None)

    def lost(self) -> None:
        """The broker is another one, or came back: nothing is known of what it has. What was under way stays so, since paho sends it again
        by itself, and after what was sent anew of that topic meanwhile it would be the last."""
        now = self._clock()
        self._due = OrderedDict((topic, now) for topic in self._wanted)

    def next(self) -> Optional[Tuple[str, str]]:
        """What is to be sent now, the longest waiting first; None where nothing is, or enough is under way. A topic of which a payload is
        under way waits for its acknowledgement, so that the last one sent is the last one there."""
        if len(self._sent) < self.window:
            for topic in self._due:
                if topic not in self._busy:
                    return topic, self._wanted[topic]
        return None

    def sent(self, number: int, topic: str) -> None:
        """What was next went out under this number."""
        self._sent[number] = Sent(topic, self._due.pop(topic))
        self._busy[topic] = number

    def acknowledged(self, number: int) -> Optional[float]:
        """The broker has a message: how long that took, in seconds, from when it was wanted. None where the number is no message's."""
        sent = self._sent.pop(number, None)
        if sent is None:
            return None
        self._busy.pop(sent.topic, None)
        return self._clock() - sent.since

    @property
    def due(self) -> int:
        """How many topics wait."""
        return len(self._due)

    @property
    def under_way(self) -> int:
        """How many messages are not acknowledged."""
        return len(self._sent)

    @property
    def is_empty(self) -> bool:
        """Whether the broker has all."""
        return not self._due and not self._sent
