"""The words of the command line, and how it all starts."""

import argparse
import asyncio
import contextlib
import signal
import sys
import time
from typing import List, Optional, Tuple

import bossd
from bossd._addresses import addresses_of
from bossd.ctl._key import taken as taken_key
from bossd.ctl._lint import Finding
from bossd.ctl._served import NoAnswer, asking, process_in
from bossd.ctl._toml import Failure

from . import __version__
from .bridge import Bridge, discovery_of, own_topics
from .link import context_of
from .server import PATIENCE, PAUSE, IsTaken
from .settings import Settings, password_of, read_settings

USAGE, REFUSED, TAKEN, UNREADABLE = 2, 3, 4, 5


def words() -> argparse.ArgumentParser:
    """The words that are understood."""
    parser = argparse.ArgumentParser(
        prog="bossd-mqtt", description="Carries a building's bossd to an MQTT broker, and changes from there.",
        epilog="It takes one of the server's workers. Where FILE names no catalogue, and this machine has none at /etc/bossd/plant.toml, the "
               "server is asked for its points. It ends with 0 where it was ended, 2 for faulty words, 3 where FILE or one that it names is "
               "refused, 4 where another copy runs, 5 where a password, a certificate or a key cannot be read.")
    parser.add_argument("file", metavar="FILE", help="what is told where, and what may be set, as /etc/bossd/mqtt/north.toml")
    parser.add_argument("server", metavar="SERVER", nargs="?", help="the server's address, as 127.0.0.1:7000")
    parser.add_argument("--key", metavar="KEY", help="the file with the key of FILE's process, where the server has keys; an empty word, or an empty "
                        "file, is none")
    parser.add_argument("--state", metavar="FOLDER", help="where BASE.prom with its metrics is written every ten seconds")
    only = parser.add_mutually_exclusive_group()
    only.add_argument("--check", action="store_true", help="name every mistake of FILE, and end: with 0, or with 3 where there is one")
    only.add_argument("--show", action="store_true", help="show the topics of FILE, and what Home Assistant is told, one a line, and end")
    parser.add_argument("--version", action="version", version=f"bossd-mqtt {__version__}")
    return parser


def shown(settings: Settings) -> List[str]:
    """The topics, one on a line, with what is retained there where that is known."""
    topics = settings.topics
    lines = [topics.availability, topics.server, topics.bridge]
    for name in settings.points:
        lines += own_topics(topics, [name])
        lines += [topics.of(name, leaf) for leaf in ("set", "release", "answer")] if name in settings.settable else []
    return lines + [f"{topic} {payload}" for topic, payload in discovery_of(settings).items()]


async def serve(settings: Settings, server: str, folder: Optional[str], key: Optional[bossd.Key] = None) -> None:
    """Runs until it is told to end. Failure, IsTaken."""
    running = asyncio.ensure_future(Bridge(settings, server, folder, key).run())
    for one in (signal.SIGINT, signal.SIGTERM):
        asyncio.get_running_loop().add_signal_handler(one, running.cancel)
    with contextlib.suppress(asyncio.CancelledError):
        await running


def say(text: str) -> None:
    """Says what is wrong."""
    print(f"bossd-mqtt: {text}", file=sys.stderr)


def read(given: argparse.Namespace, key: Optional[bossd.Key] = None) -> Tuple[Optional[Settings], List[Finding]]:
    """What the file says, and what is to be said of it. A server that has to tell its catalogue is waited for as long as it takes, unless it
    is only looked what the file says. Failure."""
    said, ask = "", asking(given.server, PATIENCE, key, process_in(given.file, "mqtt")) if given.server else None
    while True:
        try:
            return read_settings(given.file, ask)
        except NoAnswer as error:
            if given.check or given.show:
                raise
            if str(error) != said:
                said = str(error)
                say(said)
        time.sleep(PAUSE)


def run(given: argparse.Namespace) -> int:
    """Does what was asked, and gives the status to end with. Failure."""
    try:
        key = taken_key(given.key, may_be_empty=True) if given.key else None
    except Failure as error:
        say(str(error))
        return UNREADABLE
    settings, findings = read(given, key)
    for finding in findings:
        print(finding.sentence(), file=sys.stdout if given.check else sys.stderr)
    if settings is None:
        return REFUSED
    if given.show:
        print("\n".join(shown(settings)))
    if given.show or given.check:
        return 0
    try:
        context_of(settings.broker)
        password_of(settings.broker)
    except Failure as error:
        say(str(error))
        return UNREADABLE
    try:
        asyncio.run(serve(settings, given.server, given.state, key))
    except IsTaken:
        say(f"another connection speaks for {settings.process}: another copy runs")
        return TAKEN
    return 0


def main(arguments: Optional[List[str]] = None) -> None:
    """Ends with the status."""
    given = words().parse_args(arguments)
    try:
        if given.server is not None or not given.check and not given.show:
            addresses_of(given.server or "")
    except ValueError as error:
        say(str(error) if given.server else "SERVER is missing: the server's address, as 127.0.0.1:7000")
        sys.exit(USAGE)
    try:
        sys.exit(run(given))
    except Failure as error:
        say(str(error))
        sys.exit(REFUSED)
