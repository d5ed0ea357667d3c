"""The words of the command line, and how it all starts."""

import argparse
import asyncio
import contextlib
import logging
import secrets
import signal
import sys
from typing import Callable, List, Optional, Sequence, Tuple

import bossd
from aiohttp import web

from . import __version__
from .answering import Answering
from .bounds import IDLE, Bounds, is_worth_a_line
from .catalogue import Failure, is_name
from .guard import Guard, hosts_of, token_in
from .knowing import Knowing
from .looking import Looking
from .metrics import registry_of
from .operating import Operator
from .picture import Picture
from .schedules import Schedules
from .standing import Standing, process_at
from .streams import MOST_OF_ONE, MOST_STREAMS, Streams
from .web import Web

# The shortest and the longest time between two looks, in seconds.
LEAST_EVERY, MOST_EVERY = 0.1, 3_600.0
# Under which name it shows its key where it has no operator's.
LOOKS_AS = "console"


def words() -> argparse.ArgumentParser:
    """The words that are understood."""
    parser = argparse.ArgumentParser(
        prog="bossd-console", description="Shows in a browser who holds which point of a bossd, and counts it for Prometheus.",
        epilog="It takes one of the server's workers to look, and one more while the operator holds something.")
    parser.add_argument("catalogue", metavar="CATALOGUE", nargs="?",
                        help="a file with the server's catalogue, as /etc/bossd/plant.toml, for the units and notes of points, which the server "
                             "does not keep; an empty word is none. Without one, or where it is another catalogue than the server's, the page "
                             "shows what the server tells")
    parser.add_argument("server", metavar="SERVER", help="the server's address, as 127.0.0.1:7000")
    parser.add_argument("--listen", metavar="ADDRESS", default="127.0.0.1:8080", help="where browsers come (%(default)s)")
    parser.add_argument("--operator", metavar="NAME", help="allow changes from the page, as the control process of this name")
    parser.add_argument("--overrides", metavar="SOCKET", help="with --operator, have changes held by the bossd-overrides at this socket: they "
                                                                "outlive the console; an empty word is none")
    parser.add_argument("--every", metavar="SECONDS", type=float, default=1.0, help="how often all points are read (%(default)s)")
    parser.add_argument("--token", metavar="FILE", help="the file with the token for changes, made where there is none; without it each "
                                                        "start has a new one")
    parser.add_argument("--host", metavar="HOST[:PORT]", action="append", default=[],
                        help="another name under which browsers come, as that of a proxy before it")
    parser.add_argument("--streams", metavar="N", type=int, default=MOST_OF_ONE,
                        help=f"how many pages may listen from one address, as that of a proxy: 1 to {MOST_STREAMS}, {MOST_OF_ONE} where left out")
    parser.add_argument("--journal", metavar="FILE", help="the server's journal, which is read to see what comes after every lease; an empty "
                                                          "word is none")
    parser.add_argument("--schedule", metavar="FILE", action="append", default=[],
                        help="the coming.json of a bossd-schedule, to show what it wants and whether it holds it; an empty word is none")
    parser.add_argument("--key", metavar="FILE", help="the file with the console's key, where the server has keys; an empty word, or an empty file, "
                                                      "is none")
    parser.add_argument("--as", dest="name", metavar="NAME", help="whose key that is: the operator's, or else console, where left out")
    parser.add_argument("--version", action="version", version=f"bossd-console {__version__}")
    return parser


def address(text: str) -> Tuple[str, int]:
    """The host and the port of an address. Failure where it is none."""
    host, colon, port = text.rpartition(":")
    bare = host[1:-1] if host.startswith("[") and host.endswith("]") else host
    if not colon or not bare or not (port.isascii() and port.isdigit() and 1 <= int(port) <= 65_535) or (":" in bare and bare == host):
        raise Failure(f"{text} is no address: wanted HOST:PORT, as 127.0.0.1:8080 or [::1]:8080")
    return bare, int(port)


def checked(given: argparse.Namespace) -> None:
    """Failure where a word is out of its range."""
    for one in given.server.split(","):
        address(one.strip())
    if not LEAST_EVERY <= given.every <= MOST_EVERY:
        raise Failure(f"--every is to be {LEAST_EVERY} to {MOST_EVERY:.0f} seconds")
    if not 1 <= given.streams <= MOST_STREAMS:
        raise Failure(f"--streams is to be 1 to {MOST_STREAMS}")
    for name in (given.operator, given.name):
        if name is not None and not is_name(name):
            raise Failure(f"{name} is no name of a process: 1 to 64 characters of a-z 0-9 . _ -")


def token_of(given: argparse.Namespace) -> Optional[str]:
    """The token for changes; None where nothing can be changed."""
    if given.operator is None:
        return None
    try:
        return token_in(given.token) if given.token else secrets.token_urlsafe(24)
    except (OSError, ValueError) as error:
        raise Failure(f"{given.token}: {getattr(error, 'strerror', None) or error}") from error


def greeting(given: argparse.Namespace, token: Optional[str]) -> str:
    """What is written once it listens."""
    link = f"http://{given.listen}/"
    if token is None:
        return f"bossd-console: {link} (to look alone)"
    if given.token:
        return f"bossd-console: {link} (changes as {given.operator}; the token is in {given.token})"
    return f"bossd-console: {link}#token={token} (changes as {given.operator})"


async def serve(given: argparse.Namespace) -> None:
    """Runs until it is told to end. Failure, OSError."""
    host, port = address(given.listen)
    key = bossd.key_in(given.key, may_be_empty=True) if given.key else None
    knowing = Knowing(given.server, given.catalogue)
    picture = Picture(knowing.catalogue, given.journal or None, Schedules([path for path in given.schedule if path]))
    answering = Answering()
    looking = Looking(knowing, picture, answering, given.every, key, given.name or given.operator or LOOKS_AS)
    standing = process_at(given.overrides) if given.overrides and given.operator else None
    about = {"address": given.server, "every": given.every, "operator": standing or given.operator, "stands": standing is not None}
    streams, bounds = Streams(picture, answering, looking, about, given.streams), Bounds()
    looking.seen = streams.publish
    operator = operator_of(given, standing, picture, streams.publish, key)
    token = token_of(given)
    guard = Guard(hosts_of(host, port, given.host), token)
    answers = Web(picture, looking, streams, guard, registry_of(picture, answering, looking), operator, bounds)
    runner = web.AppRunner(answers.application(), access_log=None, keepalive_timeout=IDLE)
    await runner.setup()
    made = runner.server
    assert made is not None
    tasks = [asyncio.ensure_future(looking.run())] + ([asyncio.ensure_future(operator.run())] if operator is not None else [])
    listening = None
    try:
        listening = await asyncio.get_running_loop().create_server(bounds.around(made), host, port)
        print(greeting(given, token), flush=True)
        await ended(tasks)
    finally:
        await parted(tasks)
        if listening is not None:
            listening.close()
        await runner.shutdown()
        await made.shutdown(2.0)
        await runner.cleanup()


def operator_of(given: argparse.Namespace, standing: Optional[str], picture: Picture, changed: Callable[[], None],
                key: Optional[bossd.Key]) -> Optional[Operator]:
    """Who makes changes; `standing` is the process of bossd-overrides, where that holds them."""
    if given.operator is None:
        return None
    if standing is not None:
        return Standing(given.overrides, standing, given.operator, picture, changed)
    return Operator(given.server, given.operator, picture, changed, key)


async def ended(tasks: Sequence["asyncio.Future[None]"]) -> None:
    """Waits for a signal that ends it; raises what a task failed of."""
    told: "asyncio.Future[None]" = asyncio.get_running_loop().create_future()

    def tell() -> None:
        if not told.done():
            told.set_result(None)

    for one in (signal.SIGINT, signal.SIGTERM):
        asyncio.get_running_loop().add_signal_handler(one, tell)
    done, _ = await asyncio.wait([told, *tasks], return_when=asyncio.FIRST_COMPLETED)
    for task in done:
        task.result()


async def parted(tasks: Sequence["asyncio.Future[None]"]) -> None:
    """Ends the tasks, and waits for their ends."""
    for task in tasks:
        task.cancel()
    for task in tasks:
        with contextlib.suppress(asyncio.CancelledError, Exception):
            await task


def main(given: Optional[List[str]] = None) -> None:
    """Ends with 0, with 1 where it could not be started, with 2 where the words are none."""
    said = words().parse_intermixed_args(given)
    logging.getLogger("aiohttp.server").addFilter(is_worth_a_line)
    # The page shows whether the server answers; it is tried every second, and each time would be a line.
    logging.getLogger("bossd").setLevel(logging.ERROR)
    try:
        checked(said)
        asyncio.run(serve(said))
    except (Failure, OSError, bossd.Refused) as error:
        sys.exit(f"bossd-console: {error}")
