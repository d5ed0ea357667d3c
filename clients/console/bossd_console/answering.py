"""Whether the server answers, and what to say of it."""

from typing import Any, Dict, NamedTuple, Optional

from .catalogue import now

# How long an answer may take, in seconds, before it is said that none came.
SLOW = 3.0
# How long the connection may be gone while something is asked, in seconds, before it is said that the server is down. A restart may be
# shorter.
AWAY = 0.5

SENTENCES = {
    "starting": "Nothing was asked yet.",
    "up": "The server answers.",
    "busy": "The server took the connection and answers nothing: none of its workers is free, or it hangs.",
    "full": "All workers of the server are busy: give it more, or end connections that need not be open.",
    "down": "The server is down: nobody listens at its address.",
    "keyless": "The server does not take this console's key.",
    "stopped": "The server's disk failed: it keeps nothing any more and writes no device. Mend the disk, then restart it.",
}


class State(NamedTuple):
    """How the server stands: "starting", "up", "busy", "full", "down", "keyless" or "stopped"; since when; and, where it is up, for how long it
    was not before, in milliseconds. `answered` is when it answered last."""
    state: str
    since: int
    away: Optional[int] = None
    answered: Optional[int] = None
    why: str = ""

    def described(self) -> Dict[str, Any]:
        """As JSON has it."""
        told = {"state": self.state, "since": self.since, "sentence": self.sentence(), "away": self.away, "answered": self.answered}
        return {key: one for key, one in told.items() if one is not None}

    def sentence(self) -> str:
        """What to say of it."""
        return SENTENCES[self.state] + (f" ({self.why})" if self.why else "")


class Answering:
    """Keeps how the server stands. `changed` counts the changes."""

    def __init__(self) -> None:
        self.state = State("starting", now())
        self.changed = 0
        self._lost: Optional[int] = None

    def answered(self, state: str = "up") -> None:
        """It answered; `state` is "stopped" where that was all that it answered."""
        moment = now()
        away = moment - self._lost if self._lost is not None and state == "up" else None
        if state == self.state.state:
            self.state = self.state._replace(answered=moment)
        elif state == "up":
            self._become(State("up", moment, away, moment))
            self._lost = None
        else:
            self._lose(State(state, moment, None, moment))

    def silent(self, connected: bool, seconds: float, why: str = "", full: bool = False) -> None:
        """It has not answered for so long, over a connection that stands or does not; or it said that none of its workers is free."""
        state = "full" if full else "busy" if connected else "down"
        if (full or seconds >= (SLOW if connected else AWAY)) and state != self.state.state:
            self._lose(State(state, now(), None, self.state.answered, why))

    def without_key(self, why: str) -> None:
        """It takes the console's key no longer, or never did."""
        if self.state.state != "keyless":
            self._lose(State("keyless", now(), None, self.state.answered, why))

    def _lose(self, state: State) -> None:
        if self._lost is None and self.state.state == "up":
            self._lost = self.state.answered
        self._become(state)

    def _become(self, state: State) -> None:
        self.state = state
        self.changed += 1
