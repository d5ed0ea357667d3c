"""Measures how soon whoever watches a process is told.

Measures how soon whoever watches a process hears from the built program (./bossd; BOSSD names another one), over memory and over a journal:
a submit of one process takes the slot of another one, and a lease runs out. Prints the milliseconds behind which half and behind which a
hundredth of the times lie.

    bench/notices [ROUNDS [WATCHERS [CONNECTIONS]]]

ROUNDS is how often each is tried, 300 where it is left out. So many WATCHERS (1 to 1,000, else 1) watch the same process, and a round ends as the
last of them has the notice's line; so many CONNECTIONS (else 0) are open besides, of which each asked something once. WATCHERS, CONNECTIONS
and 3 are at most 1,024.

A submit's time begins before its line is sent. That of a lease begins at the moment that the server told for its end, by the wall clock of
this machine, which the server took over as it started; so it is known to a millisecond. BENCH_FOLDER says where the journal goes."""

import json
import os
import socket
import sys
import tempfile
import time
from collections.abc import Iterator
from contextlib import ExitStack
from typing import Any

from outside.cases import heed_help
from outside.program import Server, heading, need_program

CATALOGUE = 'drivers = ["field"]\n[[point]]\nname = "damper"\ndriver = "field"\nkind = "analog"\nmin = 0\nmax = 100000\ndefault = 0\n'
MOST_WORKERS = 1024
MINUTE = 60_000
# How long a lease is that runs out, in milliseconds, and how long a line is waited for, in seconds.
SHORT, PATIENCE = 30, 60
Line = dict[str, Any]


class Talk:
    """A connection, by lines."""

    def __init__(self, port: int) -> None:
        self.link = socket.create_connection(("127.0.0.1", port), timeout=PATIENCE)
        self.link.setsockopt(socket.IPPROTO_TCP, socket.TCP_NODELAY, 1)
        self.lines = self.link.makefile("rb")

    def __enter__(self) -> "Talk":
        return self

    def __exit__(self, *_: object) -> None:
        self.lines.close()
        self.link.close()

    def say(self, op: str, **keys: object) -> None:
        self.link.sendall((json.dumps({"op": op, **keys}) + "\n").encode())

    def hear(self) -> Line:
        line: Line = json.loads(self.lines.readline())
        return line

    def ask(self, op: str, **keys: object) -> Line:
        self.say(op, **keys)
        return self.answer()

    def answer(self) -> Line:
        answer = self.hear()
        if "error" in answer:
            sys.exit(f"notices: answered {answer}")
        return answer

    def say_set(self, value: int, lease: int) -> None:
        self.say("submit", writes=[{"point": "damper", "value": value, "priority": 8, "lease": lease}])


def set_by(process: Talk, value: int, lease: int) -> Line:
    process.say_set(value, lease)
    return process.answer()


def all_hear_end(watchers: list[Talk], cause: str) -> None:
    """Takes the notice of a lease's end from each of them."""
    for watcher in watchers:
        notice = watcher.hear()
        if (notice.get("kind"), notice.get("cause")) != ("ended", cause):
            sys.exit(f"notices: in place of an end ({cause}) came {notice}")


def all_hear_done(watchers: list[Talk]) -> None:
    """Takes the notice that a transaction is over from each of them."""
    for watcher in watchers:
        if (notice := watcher.hear()).get("kind") != "done":
            sys.exit(f"notices: in place of the last one came {notice}")


def superseded(held: Talk, other: Talk, watchers: list[Talk], rounds: int) -> Iterator[float]:
    """Milliseconds from another process's line until all who watch have the notice."""
    for number in range(rounds):
        set_by(held, number, MINUTE)
        began = time.monotonic()
        other.say_set(number + 1, MINUTE)
        all_hear_end(watchers, "superseded")
        yield (time.monotonic() - began) * 1000
        other.answer()
        all_hear_done(watchers)


def expired(held: Talk, watchers: list[Talk], rounds: int) -> Iterator[float]:
    """Milliseconds from the moment of a lease's end until all who watch have the notice."""
    for number in range(rounds):
        until = set_by(held, number, SHORT)["until"]
        all_hear_end(watchers, "expired")
        yield time.time() * 1000 - until
        all_hear_done(watchers)


def hundredths(times: list[float]) -> tuple[float, float]:
    """Behind which of these half and behind which a hundredth of them lie."""
    ordered = sorted(times)
    return ordered[len(ordered) // 2], ordered[len(ordered) - 1 - len(ordered) // 100]


def row(what: str, times: list[float]) -> None:
    half, most = hundredths(times)
    print(f"| {what} | {len(times)} | {half:.2f} | {most:.2f} | {os.getloadavg()[0]:.1f} |", flush=True)


def measure(catalogue: str, journal: str, rounds: int, watching: int, connections: int) -> None:
    on = "memory" if journal == "-" else "a journal"
    with Server(catalogue, journal, workers=watching + connections + 3) as server, ExitStack() as talks:
        for _ in range(connections):
            talks.enter_context(Talk(server.port)).ask("version")
        held, other = (talks.enter_context(Talk(server.port)) for _ in range(2))
        held.ask("attach", process="held")
        other.ask("attach", process="other")
        watchers = [talks.enter_context(Talk(server.port)) for _ in range(watching)]
        for watcher in watchers:
            watcher.say("watch", process="held")
        row(f"{on}: a submit", list(superseded(held, other, watchers, rounds)))
        row(f"{on}: the end of a lease", list(expired(held, watchers, rounds)))


def main() -> None:
    heed_help(__doc__)
    need_program()
    words = sys.argv[1:]
    rounds, watching, connections = (int(word) for word in [*words, *["300", "1", "0"][len(words):]])
    if rounds < 1 or watching < 1 or connections < 0 or watching + connections + 3 > MOST_WORKERS:
        sys.exit(f"notices: words out of range; {__doc__}")
    print(f"{heading()}; {watching} watch, {connections:,} connections besides\n")
    print("| until a watcher has the line | times | half within, ms | 99 of 100 within, ms | load |\n" + "|---" * 5 + "|")
    with tempfile.TemporaryDirectory(dir=os.environ.get("BENCH_FOLDER")) as folder:
        catalogue = os.path.join(folder, "plant.toml")
        with open(catalogue, "w") as file:
            file.write(CATALOGUE)
        measure(catalogue, "-", rounds, watching, connections)
        measure(catalogue, os.path.join(folder, "journal"), rounds, watching, connections)


if __name__ == "__main__":
    main()
