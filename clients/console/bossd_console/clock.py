"""By how much the server's clock is ahead of this machine's, as its journal tells it: no request asks for the server's moment.

An event has the moment at which the server made it. One that is read as it comes says how the two clocks stand to each other."""

from typing import Any, Dict, NamedTuple, Optional

# From how many milliseconds on it is said that two clocks are apart, and how old an event may be, in seconds, that tells of them.
ODD, FRESH = 60_000, 30.0


class Reached(NamedTuple):
    """How far a journal was read: the files that were begun, the events, and the moment of the last one."""
    files: int
    events: int
    moment: int


class Seen(NamedTuple):
    """The moment of the last change that was read as it came, and by how much it was ahead of this machine's clock, in milliseconds."""
    moment: int
    ahead: int

    def sentence(self) -> str:
        """What to say of it; nothing where the clocks agree."""
        if abs(self.ahead) < ODD:
            return ""
        return (f"At its last change the server's clock was {abs(self.ahead) // 1000} seconds {'ahead of' if self.ahead > 0 else 'behind'} the "
                "clock of the console's machine: leases last as long as they were asked for, but the moments here are wrong by as much.")

    def described(self) -> Dict[str, Any]:
        """As JSON has it."""
        return {"moment": self.moment, "ahead": self.ahead, **({"sentence": self.sentence()} if self.sentence() else {})}


class Clock:
    """What events that came between two looks say of the server's clock: `seen`, once there was one."""

    def __init__(self) -> None:
        self.seen: Optional[Seen] = None
        self._before: Optional[Reached] = None
        self._looked = 0.0

    def look(self, reached: Optional[Reached], moment: int, seconds: float) -> None:
        """The journal was read up to here, or not to its end (None), at this moment of this machine's clock and by one that nobody sets. A file that was begun may
        have events of long ago, and so may a look that comes late."""
        before, since = self._before, seconds - self._looked
        self._before, self._looked = reached, seconds
        if reached is None or before is None or since > FRESH:
            return
        if reached.files == before.files and reached.events > before.events:
            self.seen = Seen(reached.moment, reached.moment - moment)
