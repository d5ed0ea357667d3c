"""Which of several addresses a client goes to, where the server may be at any of them: it is at one at a time."""

from typing import Callable, List, Sequence, Tuple, Union

from ._protocol import heard, host_and_port, line_of

# One address, several with commas between them, or a sequence of them.
Given = Union[str, Sequence[str]]
# How long, in seconds, one of several may take for a connection, and for an answer before it is looked whether the server is at another one.
REACH = 1.0
LOOK = 2.0
# What is asked where it is looked whether a server answers: every one does, whatever it thinks of it. It shows no key, which nobody but
# the server that is gone to is to see: one that wants a key serves too, and says so.
QUESTION = line_of({"op": "version"})


class Elsewhere(ConnectionError):
    """An address was silent, while a server answers at another one."""

    def __init__(self, address: str, silent: str) -> None:
        super().__init__(f"{silent} is silent, and {address} answers")
        self.address = address


def addresses_of(given: Given) -> Tuple[str, ...]:
    """The addresses, each once, in their order. ValueError where there is none, or one is no HOST:PORT."""
    texts = given.split(",") if isinstance(given, str) else given
    found = tuple(dict.fromkeys(text.strip() for text in texts))
    if not found:
        raise ValueError("there is no address: one is HOST:PORT, as 127.0.0.1:7000")
    for one in found:
        host_and_port(one)
    return found


def is_answer(line: bytes) -> bool:
    """Whether this came from a server that serves: a whole line, and not that all its workers are busy."""
    try:
        return heard(line).endswith(b"\n")
    except (ConnectionError, ValueError):
        return False


class Addresses:
    """The addresses at which the server may be, and `current`, to which the client goes now. They are tried round by round: one that failed
    is left for the next, and a client pauses once all of them have."""

    def __init__(self, given: Given) -> None:
        """ValueError where there is none, or one is no address."""
        self.all = addresses_of(given)
        self.current = self.all[0]
        # How those failed that were tried in this round.
        self._failed: List[Exception] = []

    @property
    def are_several(self) -> bool:
        """Whether there is a choice."""
        return len(self.all) > 1

    def others(self) -> List[str]:
        """All but the current one, those that follow it first."""
        place = self.all.index(self.current)
        return [*self.all[place + 1:], *self.all[:place]]

    def answered(self) -> None:
        """The current one serves."""
        self._failed.clear()

    def failed(self, why: Exception) -> None:
        """The current one does not serve."""
        self._failed.append(why)

    def have_all_failed(self, by: Callable[[Exception], bool]) -> bool:
        """Whether a round is over, and each of it failed by such an error."""
        return len(self._failed) >= len(self.all) and all(map(by, self._failed))

    def go_on(self) -> bool:
        """Goes to the next one, or to where a server was found, and tells whether it may be tried at once: where each has failed a
        moment is to pass before the next round."""
        is_whole, last = len(self._failed) >= len(self.all), self._failed[-1] if self._failed else None
        if is_whole:
            self._failed.clear()
        self.current = last.address if isinstance(last, Elsewhere) else [*self.others(), self.current][0]
        return not is_whole

    def seconds(self, most: float, bound: float) -> float:
        """How long one step may take, of so many seconds at most: no longer than the bound where there are several."""
        return min(most, bound) if self.are_several else most
