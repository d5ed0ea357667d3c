"""bossctl: bossd at a terminal."""

import sys
from typing import Optional, Sequence

from ._feed import feed
from ._follow import follow

__all__ = ["main"]


def main(arguments: Optional[Sequence[str]] = None) -> int:
    """Runs the command, and gives the status to end with."""
    words = sys.argv[1:] if arguments is None else list(arguments)
    # The words of these are not looked through for options: those of feed come from another machine, and behind those of follow and elect
    # stands a command of somebody else's. And a feed, which is asked for each few seconds, does not wait for what the other commands want.
    if len(words) > 1 and not words[1].startswith("-") and words[0] in ("elect", "feed", "follow"):
        if words[0] == "elect":
            from ._elect import elect
            return elect(words[1:])
        return feed(words[1:]) if words[0] == "feed" else follow(words[1:])
    from ._main import main as run
    return run(words)
