"""Answers browsers, programs and Prometheus."""

import asyncio
import contextlib
import json
from importlib import resources
from typing import Any, Callable, Dict, Mapping, Optional

from aiohttp import web, web_response
from prometheus_client import CONTENT_TYPE_LATEST, CollectorRegistry, generate_latest

from .asked import Change, Faulty, change_of, preview
from .bounds import PATIENCE, Bounds
from .catalogue import described, is_name
from .guard import Guard, Handler, middleware, policy
from .looking import Looking
from .operating import Open, Operator, Unmade
from .picture import Picture, notice_described
from .streams import MOST_STREAMS, Streams

# The longest body of a change, in bytes.
LONGEST_BODY = 16_384
# How often a stream says something, in seconds, where there is nothing to say.
BREATH = 15.0
# What answers say of who gives them. aiohttp would tell its version and that of Python, also where no handler of ours is asked.
NAME = "bossd-console"
setattr(web_response, "SERVER_SOFTWARE", NAME)


def page() -> str:
    """The page: one text, with its script and its style in it."""
    return text_of("page.html").replace("/*STYLE*/", text_of("page.css")).replace("/*SCRIPT*/", text_of("page.js"))


def text_of(name: str) -> str:
    return resources.files(__package__).joinpath(name).read_text(encoding="utf-8")


def refused(error: str, sentence: str, status: int) -> web.Response:
    """An answer that says why not."""
    return web.json_response({"error": error, "sentence": sentence}, status=status)


class Web:
    """What is answered under each path."""

    def __init__(self, picture: Picture, looking: Looking, streams: Streams, guard: Guard, registry: CollectorRegistry,
                 operator: Optional[Operator], bounds: Bounds) -> None:
        self.picture, self.looking, self.streams, self.guard, self.registry = picture, looking, streams, guard, registry
        self.operator, self.bounds = operator, bounds
        self._page, self._policy = page(), policy(text_of("page.js"), text_of("page.css"))

    def application(self) -> web.Application:
        """All of it."""
        made = web.Application(middlewares=[self._noted, middleware(self.guard)], client_max_size=LONGEST_BODY)
        made.add_routes([
            web.get("/", self.get_page), web.get("/metrics", self.get_metrics), web.get("/api/points", self.get_points),
            web.get("/api/points/{name}", self.get_point), web.get("/api/points/{name}/history", self.get_history),
            web.get("/api/schedules", self.get_schedules), web.get("/api/processes", self.get_processes),
            web.get("/api/processes/{name}/notices", self.get_notices), web.get("/api/changes", self.get_changes),
            web.post("/api/preview", self.post_preview), web.post("/api/take", self.post_change),
            web.post("/api/prolong", self.post_change), web.post("/api/release", self.post_change),
        ])
        made.on_shutdown.append(self._end)
        return made

    @web.middleware
    async def _noted(self, request: web.Request, handler: Handler) -> web.StreamResponse:
        self.bounds.asked(request.transport)
        return await handler(request)

    # -- looking

    async def get_page(self, request: web.Request) -> web.Response:
        """The page."""
        return web.Response(text=self._page, content_type="text/html", headers={"Content-Security-Policy": self._policy})

    async def get_metrics(self, request: web.Request) -> web.Response:
        """What Prometheus scrapes."""
        return web.Response(body=generate_latest(self.registry), headers={"Content-Type": CONTENT_TYPE_LATEST})

    async def get_points(self, request: web.Request) -> web.Response:
        """All points, and how the server stands."""
        return web.json_response(self.streams.everything())

    async def get_point(self, request: web.Request) -> web.Response:
        """A point with its slots. Who asks for it looks at it: its slots are asked for at each look for a while."""
        point = self.picture.points.get(request.match_info["name"])
        if point is None:
            return refused("unknown-point", "the catalogue has no such point", 404)
        self.picture.points_looked.look(point.name)
        row = self.picture.row(point.name)
        told = {**described(point), **(row.described(point.name) if row else {}), **self.picture.detail(point.name)}
        return web.json_response(told)

    async def get_history(self, request: web.Request) -> web.Response:
        """The last day of a point, by the journal, or why it is not known."""
        name = request.match_info["name"]
        if name not in self.picture.points:
            return refused("unknown-point", "the catalogue has no such point", 404)
        return web.json_response(self.picture.history_of(name))

    async def get_schedules(self, request: web.Request) -> web.Response:
        """What the files of the schedules say."""
        return web.json_response({"schedules": self.picture.schedules.described()})

    async def get_processes(self, request: web.Request) -> web.Response:
        """The processes that were met, with the transactions of theirs that hold something."""
        return web.json_response({"processes": [
            {"name": name, "notices": known.next - 1, "holding": sorted(self.picture.transactions_of(name))}
            for name, known in sorted(self.picture.processes.items())
        ]})

    async def get_notices(self, request: web.Request) -> web.Response:
        """The last notices of a process. Who asks for them looks at it: new ones go to the streams for a while."""
        name = request.match_info["name"]
        if not is_name(name) or not await self.looking.notices_of(name):
            return refused("unknown-process", "the server has sent this process nothing, and it was not seen to hold anything", 404)
        self.picture.processes_looked.look(name)
        known = self.picture.processes[name]
        return web.json_response({"process": name, "next": known.next, "list": [notice_described(one) for one in known.notices]})

    async def get_changes(self, request: web.Request) -> web.StreamResponse:
        """The stream of changes."""
        if len(self.streams) >= MOST_STREAMS:
            return refused("too-many", f"{MOST_STREAMS} pages listen already", 503)
        address = request.remote or ""
        if self.streams.listening(address) >= self.streams.most:
            return refused("too-many", f"{self.streams.most} pages of this address listen already", 503)
        response = web.StreamResponse(headers={"Content-Type": "text/event-stream", "Cache-Control": "no-store"})
        await response.prepare(request)
        queue = self.streams.open(address)
        try:
            with contextlib.suppress(ConnectionError):
                await self._send_all(response, queue)
        finally:
            self.streams.close(queue)
        return response

    async def _send_all(self, response: web.StreamResponse, queue: "asyncio.Queue[Optional[bytes]]") -> None:
        while True:
            try:
                sent = await asyncio.wait_for(queue.get(), BREATH)
            except asyncio.TimeoutError:
                sent = b": still here\n\n"
            if sent is None:
                return
            await response.write(sent)

    async def _end(self, _: web.Application) -> None:
        self.streams.end()

    # -- changing

    async def post_preview(self, request: web.Request) -> web.Response:
        """What a change would bring. It changes nothing, and wants no token."""
        try:
            asked = await self._body(request)
            change = change_of(asked.get("do"), asked, self.picture.points)
            return web.json_response({"next": preview(change, self.picture)})
        except Faulty as why:
            return refused("faulty", str(why), 400)

    async def post_change(self, request: web.Request) -> web.Response:
        """Makes a change. Asked again under the same id, it is made once, and answered the same."""
        if self.operator is None:
            return refused("looking-only", "this console was started without --operator: nothing can be changed from it", 403)
        if not self.guard.allows(request.headers):
            return refused("token", "a change wants the console's token", 401)
        try:
            change = change_of(request.path.rpartition("/")[2], await self._body(request), self.picture.points)
            return web.json_response({"ok": change.do, **await self._make(self.operator, change)})
        except Faulty as why:
            return refused("faulty", str(why), 400)
        except Unmade as why:
            return refused(why.error, str(why), 503 if why.error == "unanswered" else 409)
        except Open:
            return refused("open", "no answer came yet: ask again under the same id, and it is made once", 504)

    async def _make(self, operator: Operator, change: Change) -> Dict[str, Any]:
        point = change.point.name
        if change.do == "take":
            return await operator.take(change.id, point, change.value, change.priority, change.length, change.way, change.policy,
                                       change.stands)
        if change.do == "prolong":
            return await operator.prolong(change.id, point, change.txn, change.length)
        return await operator.release(change.id, point, change.txn)

    async def _body(self, request: web.Request) -> Mapping[str, Any]:
        if request.content_type != "application/json":
            raise Faulty("the body is to be application/json")
        decode: Callable[[str], Any] = json.loads
        try:
            asked = decode(await asyncio.wait_for(request.text(), PATIENCE))
        except asyncio.TimeoutError:
            raise Faulty(f"the body did not come within {PATIENCE:.0f} seconds") from None
        except LookupError:
            raise Faulty("the body is in no charset that is known here") from None
        except (ValueError, RecursionError):
            raise Faulty("the body is no JSON, or lies too deep") from None
        if not isinstance(asked, dict):
            raise Faulty("the body is to be a JSON object")
        return asked
