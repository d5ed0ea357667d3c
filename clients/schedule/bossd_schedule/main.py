"""The words of the command line, and how it all starts."""

import argparse
import asyncio
import os
import re
import signal
import sys
import time
from importlib import metadata
from typing import List, NoReturn, Optional

import bossd
import bossd.aio

from . import __version__, told, week
from .catalogue import Ask, Failure, NoAnswer, addresses_of, asking, now, process_in, taken_key
from .idle import note_idle
from .reading import Reader, Schedule
from .running import Clock, Link, Running
from .showing import show

USAGE, REFUSED, TAKEN = 2, 3, 4
# For how many seconds a request is waited for; for how many another copy is; and how often the server is tried at first.
PATIENCE, TAKEN_FOR, AGAIN, RARELY = 10.0, 60.0, 1.0, 60.0
WHEN = re.compile(r"now|day|week|\d{4}-\d\d-\d\d", re.ASCII)
# How often, in seconds, calendars are looked at, and metrics are written.
LOOK, METRICS_EVERY = 30.0, 10.0


def words() -> argparse.ArgumentParser:
    """The words that are understood."""
    parser = argparse.ArgumentParser(
        prog="bossd-schedule", description="Holds points by weekly programmes, as one control process of a bossd.",
        usage="bossd-schedule FILE SERVER [--key FILE] [--state FOLDER]\n"
              "       bossd-schedule FILE [SERVER] --check\n"
              "       bossd-schedule FILE [SERVER] --show now|day|week|DATE [--point PATTERN] [--picture FILE] [--json]",
        epilog="It takes one of the server's workers. A signal HUP has it read FILE again. Where FILE names no catalogue, and this machine has none "
               "at /etc/bossd/plant.toml, the server is asked for its points.")
    parser.add_argument("file", metavar="FILE", help="the file with the programmes, as /etc/bossd/week.toml")
    parser.add_argument("server", metavar="SERVER", nargs="?", help="the server's address, as 127.0.0.1:7000")
    parser.add_argument("--state", metavar="FOLDER", help="where it writes schedule.prom, for Prometheus, and coming.json; an empty word is nowhere")
    parser.add_argument("--key", metavar="FILE", help="the file with the key of FILE's process, where the server has keys; an empty word, or an empty "
                        "file, is none")
    parser.add_argument("--check", action="store_true", help="say every mistake of the file, and what is rarely meant")
    parser.add_argument("--show", metavar="WHEN", help="show what is wanted: now, day, week (from today on) or of a day, as 2026-12-24")
    parser.add_argument("--point", metavar="PATTERN", help="show these points alone: a name, or the beginning of names and a *")
    parser.add_argument("--picture", metavar="FILE", help="draw it into this file, as SVG")
    parser.add_argument("--json", action="store_true", help="show it as JSON")
    parser.add_argument("--version", action="version", version=f"bossd-schedule {__version__}")
    return parser


def say(sentence: str) -> None:
    print(f"bossd-schedule: {sentence}", file=sys.stderr, flush=True)


def read(path: str, moment: int, ask: Optional[Ask], thorough: bool = False) -> Reader:
    """The file, with what is to be said of it. Failure where it cannot be read; NoAnswer."""
    reader = Reader(path, moment, ask)
    if thorough:
        note_idle(reader)
        reader.findings.sort(key=lambda one: one.line or 0)
    return reader


def check(path: str, ask: Optional[Ask]) -> int:
    """Says all that is to be said of a file. Failure."""
    reader = read(path, now(), ask, thorough=True)
    for finding in reader.findings:
        print(finding.sentence())
    if reader.has_mistakes():
        return REFUSED
    assert reader.schedule is not None
    plays = reader.schedule.plays
    print(f"{path}: {len(plays)} programmes, {sum(len(play.points) for play in plays)} slots: no mistake")
    return 0


def taken_file(path: str, ask: Optional[Ask]) -> Schedule:
    """What a file says that has no mistake. Failure, with its first mistakes, where it has any; NoAnswer."""
    reader = read(path, now(), ask)
    if reader.schedule is None:
        mistakes = [one.sentence() for one in reader.findings if one.is_mistake]
        more = [f"and {len(mistakes) - 20} more"] if len(mistakes) > 20 else []
        raise Failure("\n".join(mistakes[:20] + more) or f"{path}: no programme")
    return reader.schedule


# ---- it runs

class Service:
    """The program while it runs: its file, its folder, and what it is told by signals; `ask` asks the server for its catalogue."""

    def __init__(self, file: str, folder: Optional[str], running: Running, ask: Optional[Ask] = None) -> None:
        self.file, self.folder, self.running, self.ask = file, folder, running, ask
        self.reloads = told.Reloads(now(), None)
        self._is_told, self._is_ready = False, False
        self._telling: Optional["asyncio.Task[None]"] = None
        self._looked = self._written = time.monotonic()
        self._dirty, self._day, self._refusal = True, "", ""
        self._sentences: List[str] = []
        running.changed = self._changed

    def _changed(self) -> None:
        self._dirty = True

    def hang_up(self) -> None:
        """The file is to be read again, with the next pulse."""
        self._is_told = True

    async def after(self) -> None:
        """What is done after each pulse. What may take long is done in a thread."""
        told.notify("WATCHDOG=1" if self._is_ready or not self.running.is_whole else "READY=1\nWATCHDOG=1")
        self._is_ready = self.running.is_whole
        if self._is_told:
            self._is_told = False
            await self._reload()
        if time.monotonic() > self._looked + LOOK:
            self._looked = time.monotonic()
            await self._look()
        if self.folder and (self._telling is None or self._telling.done()):
            self._telling = asyncio.ensure_future(self._tell(self.folder))

    async def _reload(self) -> None:
        """Takes the file as it is now, or goes on with the old one and says why."""
        try:
            schedule = await asyncio.to_thread(taken_file, self.file, self.ask)
            if schedule.process != self.running.schedule.process:
                raise Failure(f"{self.file}: process: found \"{schedule.process}\"; a restart, for another name")
        except Failure as error:
            self.reloads = told.Reloads(now(), str(error))
            say(f"{error}\nthe file is refused, and the one of before goes on")
        else:
            self.running.take(schedule)
            week.forget()
            self.reloads = told.Reloads(now(), None)
            say(f"{self.file} was read again: {len(schedule.plays)} programmes")
        self._dirty = True

    async def _look(self) -> None:
        """Reads calendars whose files changed."""
        sources = self.running.schedule.sources
        changed = await asyncio.to_thread(sources.look, now())
        for source in changed:
            say(f"{source.path} was read again")
        if changed:
            week.forget()
            self.running.reckon()
            self._dirty = True
        refused = [f"{one.path}: {one.sentence}" for one in sources.all.values() if one.sentence]
        for sentence in refused:
            if sentence not in self._sentences:
                say(f"{sentence}; what was read before goes on")
        self._sentences = refused

    async def _tell(self, folder: str) -> None:
        """Writes what others are told, where it is time."""
        today = time.strftime("%Y-%m-%d")
        is_new = self._dirty or self._day != today
        try:
            if is_new:
                self._dirty, self._day = False, today
                schedule = self.running.schedule
                found = await asyncio.to_thread(told.coming_told, self.running, self.reloads, schedule, now())
                told.write_coming(folder, found)
            if is_new or time.monotonic() > self._written + METRICS_EVERY:
                self._written = time.monotonic()
                told.write(folder, told.METRICS, told.metrics(self.running, self.reloads))
            self._refusal = ""
        except OSError as error:
            if self._refusal != str(error):
                self._refusal = str(error)
                say(f"{folder}: {error.strerror or error}")


async def connected(server: str, process: str, key: Optional[bossd.Key] = None) -> bossd.aio.Client:
    """A client that is attached. It waits for a server that is away as long as it takes; Taken where another copy runs for a minute."""
    began, said = time.monotonic(), ""
    while True:
        pause = AGAIN
        try:
            return await bossd.aio.connect(server, process, patience=PATIENCE, key=key)
        except bossd.Taken:
            if time.monotonic() > began + TAKEN_FOR:
                raise
            sentence = f"another connection speaks for the process {process}"
        except bossd.Refused as error:
            sentence, pause = f"refused by {server}: {error}", RARELY
        except (bossd.Unanswered, bossd.UnknownHost) as error:
            sentence, began = f"{server} does not answer: {getattr(error, 'why', error)}", time.monotonic()
        if sentence != said:
            said = sentence
            say(sentence)
        told.notify("WATCHDOG=1")
        await asyncio.sleep(pause)


async def first_file(file: str, ask: Ask) -> Schedule:
    """What the file says. A server that has to tell its catalogue is waited for as long as it takes. Failure."""
    said = ""
    while True:
        try:
            return await asyncio.to_thread(taken_file, file, ask)
        except NoAnswer as error:
            if str(error) != said:
                said = str(error)
                say(said)
        await asyncio.sleep(AGAIN)


async def keep(file: str, server: str, folder: Optional[str], ask: Ask, key: Optional[bossd.Key] = None) -> int:
    """Runs until it is ended. Failure."""
    schedule = await first_file(file, ask)
    say(f"version {__version__}, {file}: {len(schedule.plays)} programmes as the process {schedule.process}, times of {schedule.zone.key} ({zones()})")
    client = await connected(server, schedule.process, key)
    running = Running(schedule, Link(client), Clock(), say)
    service = Service(file, folder, running, ask)
    loop = asyncio.get_running_loop()
    loop.add_signal_handler(signal.SIGHUP, service.hang_up)
    while True:
        try:
            await running.run(service.after)
        except bossd.Taken:
            if time.monotonic() > running.answered_at + TAKEN_FOR:
                raise
            told.notify("WATCHDOG=1")


def zones() -> str:
    """Which version of the zones counts until the next start."""
    try:
        with open("/usr/share/zoneinfo/tzdata.zi", encoding="ascii", errors="replace") as file:
            return "tzdata " + file.readline().rpartition(" ")[2].strip()
    except OSError:
        try:
            return f"tzdata {metadata.version('tzdata')}"
        except metadata.PackageNotFoundError:
            return "tzdata of no version that is told"


def end(*_: object) -> NoReturn:
    """Ends at once, as a kill would: what is held stays for its `hold`. So there is one way to end, and it is tried."""
    os._exit(0)


def faulty(given: argparse.Namespace) -> Optional[str]:
    """What is wrong with the words together."""
    looks = given.check + (given.show is not None)
    if looks > 1 or not looks and given.server is None:
        return "one of SERVER, --check and --show is wanted"
    if given.show is not None and not WHEN.fullmatch(given.show):
        return f"--show {given.show}: wanted now, day, week or a day, as 2026-12-24"
    if given.show == "now" and given.picture:
        return "--picture goes with a day or a week"
    if given.show is None and (given.point or given.picture or given.json):
        return "--point, --picture and --json go with --show"
    if given.state and looks:
        return "--state goes with SERVER alone"
    if given.state and not os.path.isdir(given.state):
        return f"--state {given.state}: no such folder"
    return None


def main(said: Optional[List[str]] = None) -> None:
    """Ends with 0; with 2 where the words are none, 3 where the file is refused, 4 where another copy runs."""
    parser = words()
    given = parser.parse_args(said)
    wrong = faulty(given)
    if wrong is None and given.server is not None:
        try:
            addresses_of(given.server)
        except ValueError as error:
            wrong = str(error)
    if wrong is not None:
        parser.error(wrong)
    try:
        sys.exit(run(given))
    except Failure as error:
        print(error, file=sys.stderr)
        sys.exit(REFUSED)
    except bossd.Taken:
        say("another copy runs")
        sys.exit(TAKEN)


def run(given: argparse.Namespace) -> int:
    """The status to end with. Failure, Taken."""
    key = taken_key(given.key, may_be_empty=True) if given.key else None
    ask = asking(given.server, PATIENCE, key, process_in(given.file, "schedule")) if given.server is not None else None
    if given.check:
        return check(given.file, ask)
    if given.show is not None:
        return show(taken_file(given.file, ask), given)
    assert ask is not None
    for one in (signal.SIGTERM, signal.SIGINT):
        signal.signal(one, end)
    signal.signal(signal.SIGHUP, signal.SIG_IGN)
    return asyncio.run(keep(given.file, given.server, given.state, ask, key))
