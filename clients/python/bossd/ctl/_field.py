"""A field to play with: the hosts of a plan, on this machine, over Modbus TCP and BACnet/IP. They take what bossd writes, have it read, and
fail where they are told to."""

import argparse
import asyncio
import json
import os
import re
import signal
import sys
import threading
from typing import Any, Callable, Dict, Iterable, List, NamedTuple, Optional, Tuple

from . import _forms, _lint, _served, _show, _toml
from ._devices import Heard, Host, Place, Trouble, Watchdog, split_address
from ._modbus import ModbusHost, Register
from ._objects import BacnetHost, Object, object_place
from ._show import NONE, Cell, Point, now
from ._toml import Failure

MARK = "# Made by bossctl field"
HELP = """\
    set NAME VALUE [LEVEL]  turn a point's device by hand, to a value in the point's units: bossd is not told. At a BACnet object
                            into this level, left out the plan's; null lets the level go
    drift NAME BY           move it of itself from now on, by so much each second, in the point's units
    watchdog NAME MS VALUE  it falls back to a value where it was not written for so many milliseconds
    fail NAME [CODE]        refuse each request: with exception CODE, 2 (illegal data address) where left out; of BACnet with
                            error CODE of class property, write-access-denied (40) where left out
    fail NAME reject        of BACnet: reject each request, or with abort abort it
    silent NAME             take requests and answer none
    restart DRIVER          say nothing for two seconds, and have forgotten all values then
    late DRIVER             answer when the driver waits no more
    twice DRIVER            answer each request two times
    refuse DRIVER           listen no more: connections end, none is taken
    back [NAME]             work again, without any of these; all of them without a name
    list                    show each point: where it is, what it has, when it was written last, and how it does
    quit                    end
NAME is a point, or for fail, silent and back a driver too, for its whole host."""
# How long the commands that make trouble may be.
WORDS = {"set": (2, 3), "drift": (2, 2), "watchdog": (3, 3), "fail": (1, 2), "silent": (1, 1), "restart": (1, 1), "late": (1, 1),
         "twice": (1, 1), "refuse": (1, 1), "back": (0, 1)}
OF_HOSTS = ("restart", "late", "twice", "refuse")
# How often what moves of itself is looked at, in seconds, and after how many looks it drifts.
LOOK, LOOKS_A_SECOND = 0.1, 10
# How long a driver waits for an answer where the plan does not say, in milliseconds.
WAITS = {"modbus": 5_000, "bacnet": 2_000}
KNOWN_PORTS = {"modbus": "Modbus TCP has 502", "bacnet": "BACnet/IP has 47808"}


class Said(NamedTuple):
    """A line, and what it is for a program."""
    text: str
    told: Dict[str, Any]


def said(*texts: str) -> List[Said]:
    return [Said(text, {"said": text}) for text in texts]


class Field:
    """The hosts of a plan, and the words that make them fail."""

    def __init__(self, hosts: "List[Host[Any]]", tell: Callable[[Dict[str, Any], str], None]) -> None:
        self.hosts, self.tell = hosts, tell
        names = [", ".join(host.drivers) for host in self.hosts] + [place.point.name for host in self.hosts for place in host.places]
        self.width = max(map(len, names), default=0)
        places = [place for host in self.hosts for place in host.places]
        self.place_width = max((len(place.where()) + 8 for place in places if isinstance(place, Object)), default=28)
        self.looks = 0
        for host in self.hosts:
            host.hear, host.note = self._heard, self._noted

    async def run(self, words: "asyncio.Queue[Optional[str]]", ready: Callable[[], None]) -> None:
        """Serves until `quit`, or until there comes None for a word."""
        for host in self.hosts:
            await host.open()
        ready()
        mover = asyncio.ensure_future(self._move())
        try:
            while True:
                line = await words.get()
                if line is None or line.split()[:1] == ["quit"]:
                    return
                for one in await self.order(line):
                    self.tell(one.told, one.text)
        finally:
            mover.cancel()
            for host in self.hosts:
                host.shut()
            # The connections' ends are seen before the loop ends.
            await asyncio.sleep(0.01)

    def _heard(self, host: "Host[Any]", heard: Heard) -> None:
        told = {"host": host.address, "points": heard.names, **heard.told, "came": heard.came}
        self._line(host, ", ".join(heard.names), f"{heard.said:<{self.place_width}}  {heard.value:<9}  {heard.came}", told)

    def _noted(self, host: "Host[Any]", text: str) -> None:
        self._line(host, "", text, {"host": host.address, "came": text})

    def _line(self, host: "Host[Any]", name: str, text: str, told: Dict[str, Any]) -> None:
        at = now()
        self.tell({"at": at, **told}, f"{_show.exact_moment(at)[11:]}  {name or ', '.join(host.drivers):<{self.width}}  {text}")

    # ---- what moves of itself

    async def _move(self) -> None:
        while True:
            await asyncio.sleep(LOOK)
            self.looks += 1
            for host in self.hosts:
                for place in filter(Place.is_moving, host.places):
                    self._moved(host, place)

    def _moved(self, host: "Host[Any]", place: Place) -> None:
        if self.looks % LOOKS_A_SECOND == 0:
            place.drifts()
        if place.falls_back():
            text = f"falls back to {place.shown()}"
            self._line(host, place.point.name, text, {"host": host.address, "points": [place.point.name], "came": text})

    # ---- words

    async def order(self, line: str) -> List[Said]:
        """Does what a typed line says, and gives what is to be written of it."""
        words = line.split()
        if not words:
            return []
        what, names = words[0], words[1:]
        if what == "help":
            return said(*HELP.split("\n"))
        if what == "list":
            return self.listed()
        least, most = WORDS.get(what, (1, 0))
        if not least <= len(names) <= most:
            return said(f"no such words: {line.strip()}; help has them")
        if what == "back" and not names:
            return [text for host in self.hosts for text in await self._back(host, host.places)]
        try:
            return await self._ordered(what, names)
        except Failure as failure:
            return said(str(failure))

    async def _ordered(self, what: str, names: List[str]) -> List[Said]:
        host = next((host for host in self.hosts if names[0] in host.drivers), None)
        if what in OF_HOSTS:
            return await self._of_host(what, names[0], host)
        if what in ("set", "drift", "watchdog"):
            return self._of_point(what, *self._find(names[0], "no point"), names[1:])
        if host is not None:
            if what == "back":
                return await self._back(host, host.places)
            return await self._troubled(host, trouble_of(host, what, names[1:]))
        found, place = self._find(names[0], "no point and no driver")
        if what == "back":
            return await self._back(None, [place])
        place.trouble = trouble_of(found, what, names[1:])
        return said(f"{names[0]} {found.trouble_text(place.trouble)}")

    def _find(self, name: str, none: str) -> "Tuple[Host[Any], Place]":
        """A point's host and place. Failure where there is none."""
        for host in self.hosts:
            for place in host.places:
                if place.point.name == name:
                    return host, place
        raise Failure(f"{none} of the plan is called {name}; list shows them")

    def _of_point(self, what: str, host: "Host[Any]", place: Place, words: List[str]) -> List[Said]:
        point = place.point
        if what == "drift":
            place.drift = amount_of(point, words[0])
            return said(f"{point.name} moves by {point.show(place.drift)} each second")
        if what == "watchdog":
            patience = number_of(words[0], 1, 86_400_000, "milliseconds")
            place.watchdog = Watchdog(patience, point.value(words[1]))
            return said(f"{point.name} falls back to {point.show(place.watchdog.value)} where it is not written for {patience} ms")
        level = number_of(words[1], 1, 16, "a level") if len(words) == 2 else None
        value = None if words[0] == "null" else point.value(words[0])
        text = place.turn(value, level)
        has = "let go" if value is None else point.show(value)
        return said(f"{point.name} is {has} by hand: {place.where()} = {text}")

    async def _of_host(self, what: str, name: str, host: "Optional[Host[Any]]") -> List[Said]:
        """What only a whole host does. Failure where it is none."""
        if host is None:
            found, _ = self._find(name, "no driver")
            raise Failure(f"{what} is for a host, and no point alone: {what} {found.drivers[0]}")
        if what == "refuse":
            return await self._troubled(host, Trouble("refuse"))
        if what == "restart":
            await self._opened(host)
            host.restart()
            return said(f"{self._called(host)} restarts")
        if what == "late":
            host.is_late = True
            return said(f"{self._called(host)} answers each request after {round(host.delay() * 1000)} ms")
        host.is_twice = True
        return said(f"{self._called(host)} answers each request two times")

    async def _troubled(self, host: "Host[Any]", trouble: Trouble) -> List[Said]:
        host.stop_restart()
        if trouble.what == "refuse":
            host.shut()
        else:
            await self._opened(host)
        host.trouble = trouble
        return said(f"{self._called(host)} {host.trouble_text(trouble)}")

    @staticmethod
    async def _opened(host: "Host[Any]") -> None:
        if not host.is_open():
            await host.open()

    async def _back(self, host: "Optional[Host[Any]]", places: Iterable[Place]) -> List[Said]:
        """Lets a host, these places, or both work again."""
        changed = [place for place in places if place.trouble is not None or place.is_moving()]
        for place in changed:
            place.trouble, place.drift, place.watchdog = None, 0, None
        texts = [f"{place.point.name} works again" for place in changed]
        if host is not None and (host.trouble is not None or host.is_late or host.is_twice):
            host.stop_restart()
            await self._opened(host)
            host.trouble, host.is_late, host.is_twice = None, False, False
            texts.append(f"{self._called(host)} works again")
        return said(*texts)

    def _called(self, host: "Host[Any]") -> str:
        return f"{' and '.join(host.drivers)} at {host.address}"

    def listed(self) -> List[Said]:
        pairs = [(host, place) for host in self.hosts for place in host.places]
        rows = [[Cell(place.point.name), Cell(place.point.driver), Cell(host.address), Cell(place.where()), Cell(place.shown()),
                 Cell(_show.exact_moment(place.moment)[11:] if place.moment else NONE), state(host, place)] for host, place in pairs]
        head, *lines = _show.table(("POINT", "DRIVER", "HOST", "PLACE", "VALUE", "WRITTEN", "IT"), rows, "    r")
        told = [{"point": place.point.name, "driver": place.point.driver, "host": host.address, "place": place.where(), "value": place.value(),
                 "written": place.moment, "it": row[-1].text} for (host, place), row in zip(pairs, rows)]
        return said(head) + [Said(*one) for one in zip(lines, told)]


def state(host: "Host[Any]", place: Place) -> Cell:
    """How a place does."""
    moves = [f"moves by {place.point.show(place.drift)} a second"] if place.drift else []
    moves += [f"falls back after {place.watchdog.patience} ms"] if place.watchdog else []
    text = ", ".join(filter(None, [host.state(place.trouble), *moves]))
    return Cell(text, "failed") if text else Cell("works")


def number_of(text: str, least: int, most: int, what: str) -> int:
    """A whole number that was typed. Failure where it is none of these."""
    if not (text.isascii() and text.isdigit()) or not least <= int(text) <= most:
        raise Failure(f"{text} is no number of {what}: {least} to {most}")
    return int(text)


def amount_of(point: Point, text: str) -> int:
    """By how much a point's value is to change, in the point's units. Failure where the text says none."""
    found = re.fullmatch(r"([-+]?)(\d{1,15})(?:\.(\d{1,3}))?", text)
    if found is None or (found[3] and point.kind != "analog"):
        raise Failure(f"{text} is no amount: a number in units of {point.name}, as -0.5")
    thousandths = int(found[2]) * 1000 + int((found[3] or "0").ljust(3, "0"))
    return (-1 if found[1] == "-" else 1) * (thousandths if point.kind == "analog" else thousandths // 1000)


def trouble_of(host: "Host[Any]", what: str, words: List[str]) -> Trouble:
    """The trouble that was typed. Failure where a host of this protocol has none such."""
    if not words:
        return Trouble(what)
    if words[0] in ("reject", "abort"):
        if isinstance(host, ModbusHost):
            raise Failure(f"Modbus knows no {words[0]}: fail NAME CODE, 1 to 255")
        return Trouble(words[0])
    if not (words[0].isascii() and words[0].isdigit()) or not 1 <= int(words[0]) <= 255:
        raise Failure(f"{words[0]} is no code: 1 to 255")
    return Trouble(what, int(words[0]))


# ---- the plan

def is_loopback(address: str, protocol: str) -> bool:
    name = split_address(address, KNOWN_PORTS[protocol])[0]
    return name == "localhost" or name == "::1" or name.startswith("127.")


def read_plan(catalogue: str, plan: str) -> Dict[str, Any]:
    """The tables of a plan in which nothing is wrong. Failure with the first mistake where there is one."""
    mistakes = [it for it in _lint.lint(catalogue, None, plan) if it.is_mistake]
    if mistakes:
        raise Failure(f"{mistakes[0].sentence()} (bossctl lint {catalogue} - {plan} names each mistake)")
    with open(plan, encoding="utf-8-sig") as file:
        tables = _toml.read(file.read())
    assert not isinstance(tables, _toml.Broken)
    return tables


def protocol_of(driver: Dict[str, Any]) -> str:
    return str(driver.get("speaks", "modbus"))


def host_of(protocol: str, address: str) -> "Host[Any]":
    if protocol == "bacnet":
        return BacnetHost(address)
    return ModbusHost(address)


def add_place(host: "Host[Any]", table: Dict[str, Any], point: Point) -> None:
    if isinstance(host, ModbusHost):
        kind = "coil" if "coil" in table else "register"
        host.places.append(Register(point, table["unit"], kind, table[kind], _forms.scale_of(table), host.store))
    elif isinstance(host, BacnetHost):
        host.places.append(object_place(point, table, _forms.scale_of({**table, "type": "f32"})))


def hosts_of(tables: Dict[str, Any], points: Dict[str, Point], first: Optional[int]) -> "Dict[Tuple[str, str], Host[Any]]":
    """The hosts by their protocols and the addresses that they have in the plan. With a first port they listen at 127.0.0.1, one port
    after another, or for 0 at ports that the system chooses."""
    hosts: Dict[Tuple[str, str], Host[Any]] = {}
    instance = 1
    for driver in tables["driver"]:
        protocol, address = protocol_of(driver), driver["host"]
        if first is None and not is_loopback(address, protocol):
            raise Failure(f"{driver['name']} is at {address}, and bossctl field listens on this machine alone: with --ports 1502 it listens at"
                          " 127.0.0.1:1502 and the ports after it, and writes a plan that says so")
        if (protocol, address) not in hosts:
            here = address if first is None else f"127.0.0.1:{first + len(hosts) if first else 0}"
            hosts[protocol, address] = host_of(protocol, here)
        host = hosts[protocol, address]
        host.drivers.append(driver["name"])
        host.wait = max(host.wait, driver.get("wait", WAITS[protocol]))
        for table in tables["place"]:
            if points[table["point"]].driver == driver["name"]:
                add_place(host, table, points[table["point"]])
    for host in hosts.values():
        if isinstance(host, BacnetHost):
            host.first_instance = instance
            instance += len(host.devices())
    return hosts


def plan_text(source: str, tables: Dict[str, Any], hosts: "Dict[Tuple[str, str], Host[Any]]") -> str:
    """The same plan, at the addresses where the hosts listen."""
    lines = [f"{MARK} from {os.path.basename(source)}, with hosts of this machine. It is written anew each time."]
    # A plan without drivers, or without places, says so above its first table.
    lines += [f"{key} = []" for key in ("driver", "place") if not tables[key]]
    for driver in tables["driver"]:
        address = hosts[protocol_of(driver), driver["host"]].address
        lines += ["", "[[driver]]", f'name = "{driver["name"]}"', f'host = "{address}"']
        lines += [f"{key} = {json.dumps(driver[key])}" for key in _lint.A_DRIVER[2:] if key in driver]
    for place in tables["place"]:
        lines += ["", "[[place]]", f'point = "{place["point"]}"']
        lines += [f"{key} = {json.dumps(place[key])}" for key in _lint.A_PLACE[1:] if key in place]
    return "\n".join(lines) + "\n"


def write_plan(path: str, text: str) -> None:
    """Writes a plan, over one of its own alone."""
    try:
        if os.path.exists(path):
            with open(path, encoding="utf-8-sig") as file:
                if not file.readline().startswith(MARK):
                    raise Failure(f"{path} is there, and was not made by bossctl field: --to names another file")
        with open(path, "w", encoding="utf-8") as file:
            file.write(text)
    except OSError as error:
        raise Failure(f"{path}: {error.strerror}") from error


def written_name(plan: str) -> str:
    """plant.local.toml of the folder in which bossctl runs, for examples/plant.toml."""
    stem, suffix = os.path.splitext(os.path.basename(plan))
    return f"{stem}.local{suffix}"


# ---- the command

def field(words: argparse.Namespace) -> int:
    catalogue = words.catalogue or _served.DEFAULT
    tables = read_plan(catalogue, words.plan)
    hosts = hosts_of(tables, _show.read_catalogue(catalogue).points, words.ports)
    plan = words.plan if words.ports is None else words.to or written_name(words.plan)

    def tell(told: Dict[str, Any], text: str) -> None:
        print(json.dumps(told) if words.json else text, flush=True)

    def ready() -> None:
        if words.ports is not None:
            write_plan(plan, plan_text(words.plan, tables, hosts))
            tell({"plan": plan}, f"{plan} has the same places at hosts of this machine.")
        for host in hosts.values():
            tell({"drivers": host.drivers, "host": host.address},
                 f"{' and '.join(host.drivers)}: {host.address}, {len(host.places)} point{'s' if len(host.places) != 1 else ''}")
        if not words.json:
            print(f"bossd serve {catalogue} - 127.0.0.1:7000 4 1000 - {plan}   drives them. Type help for what may be typed here.", flush=True)

    try:
        asyncio.run(served(Field(list(hosts.values()), tell), ready))
    except KeyboardInterrupt:
        pass
    return 0


async def served(a_field: Field, ready: Callable[[], None]) -> None:
    words: "asyncio.Queue[Optional[str]]" = asyncio.Queue()
    loop = asyncio.get_running_loop()
    for sent in (signal.SIGINT, signal.SIGTERM, signal.SIGHUP):
        loop.add_signal_handler(sent, words.put_nowait, None)
    # A job in the background that reads the terminal would be stopped, with all its hosts; so its read fails instead.
    signal.signal(signal.SIGTTIN, signal.SIG_IGN)

    def typed(line: Optional[str]) -> None:
        try:
            loop.call_soon_threadsafe(words.put_nowait, line)
        except RuntimeError:
            # The loop is at its end, and nobody wants the word.
            pass

    threading.Thread(target=read_words, args=(typed,), daemon=True).start()
    await a_field.run(words, ready)


def read_words(typed: Callable[[Optional[str]], None]) -> None:
    """Hands on each line of the standard input. At its end a terminal's user wants to quit; without a terminal the field stays."""
    # Python's own standard input has a lock, which a thread that still reads would hold as Python ends.
    rest = b""
    try:
        while True:
            data = os.read(0, 4096)
            if not data:
                break
            *lines, rest = (rest + data).split(b"\n")
            for line in lines:
                typed(line.decode(errors="replace"))
    except OSError:
        return
    if rest:
        typed(rest.decode(errors="replace"))
    if os.isatty(0):
        typed(None)
