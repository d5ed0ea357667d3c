"""Measures what a server takes while nobody asks anything.

Measures what the built program (./bossd; BOSSD names another one) takes while nobody asks anything of it: a server over memory, without
a plan. Prints the seconds of processor time, and the memory that no other process shares with it.

    bench/rest [SECONDS [DRIVERS POINTS [CONNECTIONS]]]

SECONDS is how long each row runs, 60 where it is left out. DRIVERS (1 to 256) and POINTS (1 to 4,096) are those of one row; without them
there are three: one driver and 16 points, 16 drivers and 1,024 points, 256 drivers and 4,096 points. CONNECTIONS (0 to 1,024, else 0) stay
open for as long, the first 256 of them attached, the others after one question; there is a worker for each, and four more as far as there
may be. `ulimit -n` has to let the program and this tool have a file for each connection. What a server does as it starts, and as the
connections come, is not counted."""

import json
import os
import socket
import sys
import tempfile
import time
from contextlib import ExitStack

from outside.bench import inputs
from outside.cases import heed_help
from outside.program import Server, heading, need_program, private_of

# How many drivers and points there are.
PLANTS = [(1, 16), (16, 1024), (256, 4096)]
WORKERS, MOST_WORKERS, MOST_PROCESSES = 4, 1024, 256
# How long, in seconds, a server has for its start and its connections, and how long one is waited for that does not answer.
START, PATIENCE = 5, 60


def taken(process: int) -> float:
    """How many seconds of processor time all threads of a process took: the system's clock of another process, as of
    clock_getcpuclockid(3)."""
    return time.clock_gettime(~process << 3 | 2)


def ask(link: socket.socket, op: str, **keys: str) -> None:
    """Asks something and takes the answer."""
    link.sendall((json.dumps({"op": op, **keys}) + "\n").encode())
    if b'"ok"' not in (answer := link.recv(4096)):
        sys.exit(f"rest: {op} was answered {answer!r}")


def connected(port: int, number: int) -> socket.socket:
    """A connection that a worker has: attached as a process of its own, or one that asked something."""
    link = socket.create_connection(("127.0.0.1", port), timeout=PATIENCE)
    if number < MOST_PROCESSES:
        ask(link, "attach", process=f"rest-{number}")
    else:
        ask(link, "version")
    return link


def at_rest(folder: str, drivers: int, points: int, connections: int, seconds: float) -> tuple[float, float]:
    """How many seconds of processor time a server takes in so many seconds, and how many MB it has for itself then."""
    catalogue = os.path.join(folder, f"{drivers}.toml")
    with open(catalogue, "w") as file:
        file.write(inputs.catalogue(points, [f"driver-{number}" for number in range(drivers)]))
    with Server(catalogue, workers=min(WORKERS + connections, MOST_WORKERS)) as server, ExitStack() as links:
        opened = [links.enter_context(connected(server.port, number)) for number in range(connections)]
        time.sleep(START)
        before = taken(server.process.pid)
        time.sleep(seconds)
        took, memory = taken(server.process.pid) - before, private_of(server.process.pid) / 1024
        for link in opened:
            ask(link, "version")
    return took, memory


def main() -> None:
    heed_help(__doc__)
    need_program()
    words = sys.argv[1:]
    if len(words) not in (0, 1, 3, 4):
        sys.exit(f"rest: no such words; {__doc__}")
    seconds = float(words[0]) if words else 60.0
    plants = [(int(words[1]), int(words[2]))] if len(words) > 1 else PLANTS
    connections = int(words[3]) if len(words) > 3 else 0
    print(heading() + "\n")
    print(f"| drivers | points | connections | processor seconds in {seconds:.0f} s | MB | load before | load after |\n" + "|---" * 7 + "|")
    with tempfile.TemporaryDirectory() as folder:
        for drivers, points in plants:
            before = os.getloadavg()[0]
            took, memory = at_rest(folder, drivers, points, connections, seconds)
            print(f"| {drivers} | {points:,} | {connections:,} | {took:.3f} | {memory:.1f} | {before:.1f} | {os.getloadavg()[0]:.1f} |", flush=True)


if __name__ == "__main__":
    main()
