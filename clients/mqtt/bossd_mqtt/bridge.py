"""A building's bridge: the server on one side, the broker on the other."""

import asyncio
import json
import os
import socket
import time
from typing import Any, Coroutine, Dict, List, Mapping, Optional, Sequence

import bossd

from . import __version__, metrics
from .commands import OUTCOMES, Commands
from .discovery import bridge_found, found
from .holding import Holding, clock
from .journal import Watching
from .keeping import Keeper
from .link import Link
from .looking import Looking
from .saying import Saying
from .server import Server
from .settings import Settings
from .topics import OFF, ON, Topics

# How often what is held is looked at, what the bridge says of itself is told, and the metrics are written, in seconds.
PULSE, BEAT, WRITING = 1.0, 30.0, 10.0
# How often it is looked whether the server is late, and whether the broker is away for too long.
GLANCE = 0.25


def discovery_of(settings: Settings) -> Dict[str, str]:
    """What Home Assistant is told: the bridge's own device first."""
    if not settings.topics.discovery:
        return {}
    points = [point for point in settings.points.values() if not point.hidden]
    return dict([bridge_found(settings.topics), *(found(settings.topics, point) for point in points)])


def own_topics(topics: Topics, names: Sequence[str]) -> List[str]:
    """The retained topics of points."""
    return [topics.of(name, leaf) for name in names for leaf in ("value", "state")]


def tell_unit(text: str) -> None:
    """Tells systemd how it stands, where it asks for that."""
    path = os.environ.get("NOTIFY_SOCKET")
    if path:
        with socket.socket(socket.AF_UNIX, socket.SOCK_DGRAM) as link:
            link.connect("\0" + path[1:] if path.startswith("@") else path)
            link.sendall(text.encode())


class Bridge:
    """Runs until it is cancelled."""

    def __init__(self, settings: Settings, address: str, folder: Optional[str] = None, key: Optional[bossd.Key] = None) -> None:
        self.settings, self.folder, self.saying = settings, folder, Saying()
        self.server = Server(address, settings.process, self.saying, key)
        self.keeper = Keeper(settings.settable)
        self.holding = Holding(self.server, self.keeper, self.saying)
        self.commands = Commands(settings, self.holding, self.saying, self._answer)
        self._found = discovery_of(settings)
        ours = frozenset((*self._found, *own_topics(settings.topics, list(settings.points))))
        self.link = Link(settings.topics, settings.broker, self.saying, self.commands.came, ours.__contains__)
        self.looking = Looking(settings, self.server, self.saying, self.link.want)
        self.seconds = metrics.Histogram()
        self.link.took = self.seconds.take
        self.server.turned = self._turned
        self.commands.made = self._read_changed
        self._is_ready, self._is_let_go = False, False

    async def run(self) -> None:
        """Runs. IsTaken; Failure where a password or a certificate cannot be read."""
        self.link.start()
        self.link.want({self.settings.topics.server: OFF, **self._found})
        tasks: List["asyncio.Future[Any]"] = [asyncio.ensure_future(one) for one in (self._serve(), self._glance(), self._beat(), self._write())]
        try:
            done, _ = await asyncio.wait(tasks, return_when=asyncio.FIRST_COMPLETED)
            for task in done:
                task.result()
        finally:
            for task in tasks:
                task.cancel()
            await asyncio.gather(*tasks, return_exceptions=True)
            await self.link.stop()
            await self.server.close()

    async def _serve(self) -> None:
        """What wants the server."""
        self.holding.begin_at(await self.server.reach())
        parts: List[Coroutine[Any, Any, None]] = [self.looking.run(), self.commands.run(), self._pulse()]
        if self.settings.journal is not None:
            parts.append(Watching(self.settings.journal, self.settings.catalogue, self.saying, self.looking.name).run())
        await asyncio.gather(*parts)

    # -- what goes on

    async def _pulse(self) -> None:
        while True:
            try:
                await self.holding.pulse()
                await self._read_changed()
            except bossd.Unanswered:
                pass
            except bossd.Refused as error:
                self.saying.once(error.error, f"refused: {error}")
            await asyncio.sleep(PULSE)

    async def _read_changed(self) -> None:
        """Reads at once what the bridge changed."""
        names, self.holding.changed = list(dict.fromkeys(self.holding.changed)), []
        try:
            await self.looking.look([name for name in names if name in self.settings.points])
        except bossd.Unanswered:
            pass

    async def _glance(self) -> None:
        """Looks after both sides, and tells systemd that it lives."""
        while True:
            self.server.glance()
            if self.link.is_online and not self._is_ready:
                self._is_ready = True
                tell_unit("READY=1")
            self._mind_the_broker()
            tell_unit("WATCHDOG=1")
            await asyncio.sleep(GLANCE)

    def _mind_the_broker(self) -> None:
        """Where the broker is away, nobody can take back what was set but an operator."""
        away = 0.0 if self.link.is_up else time.monotonic() - self.link.lost_at
        is_over = not self.link.is_up and away * 1000 >= self.settings.broker.grace
        if is_over and not self._is_let_go:
            self.commands.forget()
            if self.keeper.held:
                self.saying.say(f"the broker is away: {len(self.keeper.held)} points are let go")
            self.keeper.end_all(clock())
        self._is_let_go = is_over

    async def _beat(self) -> None:
        while True:
            self.link.want({self.settings.topics.bridge: self._of_itself()})
            await asyncio.sleep(BEAT)

    async def _write(self) -> None:
        while self.folder is not None:
            name = self.settings.topics.base.replace("/", "-")
            try:
                metrics.write(os.path.join(self.folder, f"{name}.prom"), self._metrics())
            except OSError as error:
                self.saying.once("metrics", f"{self.folder}: {error.strerror}")
            await asyncio.sleep(WRITING)
        await asyncio.Event().wait()

    # -- what is told

    def _turned(self) -> None:
        self.saying.say(f"{self.server.address} " + ("answers" if self.server.is_up else "does not answer"))
        self.link.want({self.settings.topics.server: ON if self.server.is_up else OFF})

    def _answer(self, name: str, told: Mapping[str, object]) -> None:
        self.link.answer(self.settings.topics.of(name, "answer"), told)

    def _counts(self) -> Dict[str, int]:
        return {outcome: self.link.passed_over if outcome == "retained" else self.commands.counts[outcome] for outcome in OUTCOMES}

    def _of_itself(self) -> str:
        told = {"id": self.link.id, "version": __version__, "points": len(self.settings.points), "held": len(self.keeper.held),
                "published": self.link.published, "commands": self._counts()}
        return json.dumps(told, separators=(",", ":"))

    def _metrics(self) -> str:
        plain = {
            "bossd_mqtt_broker_up": int(self.link.is_up), "bossd_mqtt_server_up": int(self.server.is_up), "bossd_mqtt_held": len(self.keeper.held),
            "bossd_mqtt_look_seconds": self.looking.seconds, "bossd_mqtt_connects_total": self.link.connects,
            "bossd_mqtt_published_total": self.link.published, "bossd_mqtt_answers_lost_total": self.link.unanswered}
        topics = {"due": self.link.outbox.due, "under_way": self.link.outbox.under_way}
        return metrics.text_of(plain, topics, self._counts(), self.seconds)
