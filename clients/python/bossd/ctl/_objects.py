"""BACnet/IP hosts of `bossctl field`: a device at the host and one for each station behind it, with the objects of a plan."""

import asyncio
from typing import Any, Dict, List, NamedTuple, Optional, Tuple

from . import _bacnet
from ._bacnet import Far, Message, Request, Unreadable, Value, WhoIs
from ._devices import Heard, Host, Place, Trouble, split_address
from ._forms import Scale
from ._show import NONE, Point
from ._toml import Failure

# What a device says of itself: no vendor of the standard's list has the last of their numbers.
VENDOR, VENDOR_NAME, MODEL, VERSION = 65_535, "bossctl field", "stand-in", "1.0"
# The longest message that it takes (20.1.2.5), and the most of the network's header before it (6.2.2).
LONGEST = 1_476
# The tag of a Present_Value, by the kind of its point (12).
TAGS = {"analog": _bacnet.REAL, "binary": _bacnet.ENUMERATED, "multi": _bacnet.UNSIGNED}


class Refusal(Exception):
    """Why a request comes to an error, a reject or an abort: its bytes behind the first two, and words."""

    def __init__(self, data: bytes, text: str) -> None:
        super().__init__(text)
        self.data, self.text = data, text


def error(request: Request, kind: int, code: int) -> Refusal:
    return Refusal(_bacnet.error(request.id, request.service, kind, code), _bacnet.error_text(kind, code))


def reject(id: int, reason: int) -> Refusal:
    return Refusal(_bacnet.reject(id, reason), _bacnet.reason_text("rejected", reason, _bacnet.REJECTS))


def abort(id: int, reason: int) -> Refusal:
    return Refusal(_bacnet.abort(id, reason), _bacnet.reason_text("aborted", reason, _bacnet.ABORTS))


class Object(Place):
    """An object of a device, whose Present_Value is that of the highest level of its priority array which has one (19.2)."""

    def __init__(self, point: Point, kind: str, instance: int, level: int, station: Optional[Far], scale: Scale) -> None:
        super().__init__(point)
        self.kind, self.instance, self.level, self.station, self.scale = kind, instance, level, station, scale
        self.number = _bacnet.OBJECTS[kind]
        self.slots: List[Optional[int]] = [None] * 16
        # The relinquish default moves where the device moves of itself and no level has a value.
        self.default, self.is_moved = self.first_default(), False

    def first_default(self) -> int:
        """The relinquish default of a device that begins: 0, inactive, or the first state."""
        return 1 if _bacnet.KINDS[self.kind] == "multi" else 0

    def is_analog(self) -> bool:
        return _bacnet.KINDS[self.kind] == "analog"

    def where(self) -> str:
        at = f"network {self.station.network} station {self.station.address[0]} " if self.station else ""
        return f"{at}{self.kind} {self.instance}"

    def holder(self) -> Optional[int]:
        """The level whose value is in force."""
        return next((level for level in _bacnet.LEVELS if self.slots[level - 1] is not None), None)

    def present(self) -> int:
        level = self.holder()
        slot = None if level is None else self.slots[level - 1]
        return self.default if slot is None else slot

    def value(self) -> Optional[int]:
        return None if self.holder() is None and not self.is_moved else self.value_of(self.present())

    def turn(self, value: Optional[int], level: Optional[int]) -> str:
        at = self.level if level is None else level
        self.slots[at - 1] = None if value is None else self.raw(value)
        self.was_written(by_hand=True)
        return f"{NONE if value is None else self.text(self.raw(value))} at {at}{self.ruled(at)}"

    def move(self, value: int) -> None:
        level = self.holder()
        if level is None:
            self.default, self.is_moved = self.raw(value), True
        else:
            self.slots[level - 1] = self.raw(value)

    def forget(self) -> None:
        self.slots, self.default, self.is_moved = [None] * 16, self.first_default(), False

    def ruled(self, level: int) -> str:
        """What to say of a write at this level, where another one is in force."""
        holder = self.holder()
        if holder == level:
            return ""
        return f", and has {self.text(self.present())} by {'its default' if holder is None else f'level {holder}'}"

    # ---- values: of an analog object the bits of a binary32, else a number

    def raw(self, value: int) -> int:
        """What the device has for a value of the point."""
        if not self.is_analog():
            return value
        high, low = self.scale.words(value)
        return high << 16 | low

    def value_of(self, raw: int) -> int:
        return self.scale.value([raw >> 16, raw & 0xFFFF]) if self.is_analog() else raw

    def text(self, raw: int) -> str:
        """A value in the device's own words."""
        kind = _bacnet.KINDS[self.kind]
        if kind == "analog":
            return self.scale.shown([raw >> 16, raw & 0xFFFF])
        return ("inactive", "active")[raw] if kind == "binary" else str(raw)

    def value_bytes(self, raw: Optional[int]) -> bytes:
        if raw is None:
            return _bacnet.tagged(_bacnet.NULL, b"")
        return _bacnet.tagged(TAGS[_bacnet.KINDS[self.kind]], raw.to_bytes(4, "big") if self.is_analog() else _bacnet.whole(raw))

    def raw_of(self, request: Request, value: Value) -> Optional[int]:
        """What is to be in a level. Refusal where the value is none of this object's."""
        if value.tag == _bacnet.NULL and not value.data:
            return None
        kind = _bacnet.KINDS[self.kind]
        if value.tag != TAGS[kind] or not value.data or (kind == "analog" and len(value.data) != 4):
            raise error(request, _bacnet.OF_PROPERTY, _bacnet.WRONG_TYPE)
        raw = value.whole()
        # A binary32 whose exponent has all bits set is no number.
        fits = {"analog": raw >> 23 & 0xFF != 0xFF, "binary": raw in (0, 1), "multi": 1 <= raw <= self.point.most}[kind]
        if not fits:
            raise error(request, _bacnet.OF_PROPERTY, _bacnet.OUT_OF_RANGE)
        return raw

    # ---- properties

    def read(self, request: Request) -> bytes:
        """A property. Refusal where there is none."""
        array = [self.value_bytes(raw) for raw in self.slots]
        return picked(request, {
            _bacnet.PRESENT_VALUE: self.value_bytes(self.present()), _bacnet.PRIORITY_ARRAY: array,
            _bacnet.RELINQUISH_DEFAULT: self.value_bytes(self.default), _bacnet.NAME: _bacnet.text(self.point.name),
            _bacnet.DESCRIPTION: _bacnet.text(self.point.note), _bacnet.TYPE: _bacnet.enumerated(self.number),
            _bacnet.IDENTIFIER: _bacnet.tagged(_bacnet.OBJECT, _bacnet.object_bytes(self.number, self.instance))})

    def write(self, request: Request, value: Value) -> str:
        """Writes a level, 16 where the request names none; what is to be said of it. Refusal where it is not taken."""
        if request.property != _bacnet.PRESENT_VALUE:
            known = request.property in (_bacnet.PRIORITY_ARRAY, _bacnet.RELINQUISH_DEFAULT, _bacnet.NAME, _bacnet.DESCRIPTION, _bacnet.TYPE,
                                         _bacnet.IDENTIFIER)
            raise error(request, _bacnet.OF_PROPERTY, _bacnet.WRITE_DENIED if known else _bacnet.UNKNOWN_PROPERTY)
        if request.element is not None:
            raise error(request, _bacnet.OF_PROPERTY, _bacnet.NO_ARRAY)
        level = 16 if request.priority is None else request.priority
        if level not in _bacnet.LEVELS:
            raise reject(request.id, _bacnet.NOT_THAT_RANGE)
        if level == _bacnet.MINIMUM_TIMES:
            raise error(request, _bacnet.OF_PROPERTY, _bacnet.WRITE_DENIED)
        self.slots[level - 1] = self.raw_of(request, value)
        self.was_written()
        return self.ruled(level)


def picked(request: Request, properties: "Dict[int, bytes | List[bytes]]") -> bytes:
    """A property of these, or an element of one that is an array (12.1.5). Refusal where there is none."""
    found = properties.get(request.property)
    if found is None:
        raise error(request, _bacnet.OF_PROPERTY, _bacnet.UNKNOWN_PROPERTY)
    if isinstance(found, bytes):
        if request.element is not None:
            raise error(request, _bacnet.OF_PROPERTY, _bacnet.NO_ARRAY)
        return found
    if request.element is None:
        return b"".join(found)
    if request.element > len(found):
        raise error(request, _bacnet.OF_PROPERTY, _bacnet.BAD_INDEX)
    return found[request.element - 1] if request.element else _bacnet.unsigned(len(found))


class Device(NamedTuple):
    """A device: its instance, its name, and where it is behind the host."""
    instance: int
    name: str
    station: Optional[Far]

    def read(self, request: Request, objects: List[Object]) -> bytes:
        """A property of the device itself. Refusal where there is none."""
        names = [(_bacnet.DEVICE, self.instance)] + [(it.number, it.instance) for it in objects]
        listed = [_bacnet.tagged(_bacnet.OBJECT, _bacnet.object_bytes(*name)) for name in names]
        return picked(request, {
            _bacnet.IDENTIFIER: listed[0], _bacnet.OBJECT_LIST: listed, _bacnet.NAME: _bacnet.text(self.name),
            _bacnet.TYPE: _bacnet.enumerated(_bacnet.DEVICE), _bacnet.STATUS: _bacnet.enumerated(0), _bacnet.VENDOR: _bacnet.unsigned(VENDOR),
            _bacnet.VENDOR_NAME: _bacnet.text(VENDOR_NAME), _bacnet.MODEL: _bacnet.text(MODEL), _bacnet.FIRMWARE: _bacnet.text(VERSION),
            _bacnet.SOFTWARE: _bacnet.text(VERSION), _bacnet.LOCATION: _bacnet.text("this machine"),
            _bacnet.DESCRIPTION: _bacnet.text("a field to play with"), _bacnet.PROTOCOL_VERSION: _bacnet.unsigned(1),
            _bacnet.PROTOCOL_REVISION: _bacnet.unsigned(14), _bacnet.LONGEST_MESSAGE: _bacnet.unsigned(LONGEST),
            _bacnet.SEGMENTATION: _bacnet.enumerated(3)})

    def where(self) -> str:
        return f"network {self.station.network} station {self.station.address[0]} " if self.station else ""


class Ear(asyncio.DatagramProtocol):
    """Hands a host what comes to it."""

    def __init__(self, host: "BacnetHost") -> None:
        self.host = host

    def datagram_received(self, data: bytes, addr: Tuple[Any, ...]) -> None:
        self.host.received(data, addr)


class BacnetHost(Host[Object]):
    """A host of BACnet/IP. Where it has stations behind it, it is the router to their networks. Its own device has the first instance, and
    those of its stations have the next ones."""

    def __init__(self, address: str) -> None:
        super().__init__(address)
        self.first_instance = 1
        self.transport: Optional[asyncio.DatagramTransport] = None

    def devices(self) -> List[Device]:
        name = ", ".join(self.drivers)
        stations = sorted({it.station for it in self.places if it.station})
        own = Device(self.first_instance, name, None)
        return [own] + [Device(self.first_instance + at, f"{name} {station.network}:{station.address[0]}", station)
                        for at, station in enumerate(stations, 1)]

    def networks(self) -> List[int]:
        return sorted({it.station.network for it in self.places if it.station})

    def answer(self, datagram: bytes) -> List[Heard]:
        """What comes of a datagram: an answer of each device that is asked, or of the router."""
        message = _bacnet.message_in(datagram)
        if message is None:
            return [self._heard([], "what came is no BACnet/IP", NONE, "no answer", datagram, None)]
        if message.network_message is not None:
            return self._of_network(message, datagram)
        asked = _bacnet.asked(message.data)
        if isinstance(asked, WhoIs):
            return [self._presented(device, message, datagram) for device in self._called(message)
                    if asked.least <= device.instance <= asked.most]
        if asked is None:
            return []
        # What wants an answer is for one device, and no broadcast.
        if datagram[1] != 0x0A or (message.to and not message.to.address):
            return []
        called = self._called(message)
        if called:
            return [self._answered(called[0], asked, message, datagram)]
        if message.to and self.networks() and message.to.network not in self.networks():
            answer = _bacnet.datagram(message.source, None, _bacnet.no_network(message.to.network), 0x80)
            return [self._heard([], f"network {message.to.network}", NONE, "refused: no such network", datagram, answer)]
        return []

    def _called(self, message: Message) -> List[Device]:
        """Which devices a message is for."""
        to = message.to
        if to is None:
            return self.devices()[:1]
        if to.network == _bacnet.EVERYWHERE:
            return self.devices()
        return [it for it in self.devices() if it.station and it.station.network == to.network and to.address in (b"", it.station.address)]

    def _of_network(self, message: Message, datagram: bytes) -> List[Heard]:
        """Who looks for a router is told which networks are behind this one (6.4.1)."""
        networks = self.networks()
        wanted = int.from_bytes(message.data[:2], "big") if len(message.data) == 2 else None
        if message.network_message != _bacnet.WHICH_ROUTER or not networks or wanted not in (None, *networks):
            return []
        told = networks if wanted is None else [wanted]
        answer = _bacnet.datagram(message.source, None, _bacnet.this_router(told), 0x80)
        return [self._heard([], "Who-Is-Router-To-Network", NONE, f"network {', '.join(map(str, told))}", datagram, answer)]

    def _presented(self, device: Device, message: Message, datagram: bytes) -> Heard:
        """An I-Am."""
        data = _bacnet.i_am(device.instance, LONGEST, VENDOR)
        is_silent = self.trouble is not None and self.trouble.is_silent()
        answer = None if is_silent else _bacnet.datagram(message.source, device.station, data)
        came = "no answer" if is_silent else f"I-Am device {device.instance}"
        return self._heard([], f"{device.where()}Who-Is", NONE, came, datagram, answer)

    def _answered(self, device: Device, asked: "Request | Unreadable", message: Message, datagram: bytes) -> Heard:
        objects = [it for it in self.places if it.station == device.station]
        named = [it for it in objects if isinstance(asked, Request) and (it.number, it.instance) == (asked.kind, asked.instance)]
        trouble = self.trouble or next((it.trouble for it in named if it.trouble), None)
        value, came, data = NONE, "no answer", b""
        if trouble is None or not trouble.is_silent():
            try:
                data, came = self._done(device, objects, named, asked, trouble)
            except Refusal as refusal:
                data, came = refusal.data, refusal.text
            value = named[0].shown() if named and isinstance(asked, Request) and asked.property == _bacnet.PRESENT_VALUE else NONE
        answer = _bacnet.datagram(message.source, device.station, data) if data else None
        said = device.where() + said_of(asked, named, device)
        return self._heard([it.point.name for it in named], said, value, came, datagram, answer)

    def _done(self, device: Device, objects: List[Object], named: List[Object], asked: "Request | Unreadable",
              trouble: Optional[Trouble]) -> Tuple[bytes, str]:
        """The answer and what came, in words. Refusal where it is refused."""
        if isinstance(asked, Unreadable):
            if asked.in_segments:
                raise abort(asked.id, _bacnet.NO_SEGMENTS)
            raise reject(asked.id, _bacnet.MALFORMED if asked.service in (_bacnet.READ, _bacnet.WRITE) else _bacnet.NO_SERVICE)
        if trouble is not None:
            raise troubled(asked, trouble)
        is_device = asked.kind == _bacnet.DEVICE and asked.instance in (device.instance, _bacnet.ANY_INSTANCE)
        if not named and not is_device:
            raise error(asked, _bacnet.OF_OBJECT, _bacnet.UNKNOWN_OBJECT)
        if asked.value is not None:
            if not named:
                raise error(asked, _bacnet.OF_PROPERTY, _bacnet.WRITE_DENIED)
            # Several points of one object are one object.
            ruled = [it.write(asked, asked.value) for it in named]
            return _bacnet.done(asked), "taken" + ruled[0]
        value = named[0].read(asked) if named else device.read(asked, objects)
        data = _bacnet.has(asked, device.instance if is_device else asked.instance, value)
        if len(data) > asked.longest:
            raise abort(asked.id, _bacnet.NO_SEGMENTS)
        return data, "read"

    def _heard(self, names: List[str], said: str, value: str, came: str, datagram: bytes, answer: Optional[bytes]) -> Heard:
        told = {"request": datagram.hex(), "response": None if answer is None else answer.hex()}
        return Heard(names, said, value, came, told, answer)

    def forget(self) -> None:
        for place in self.places:
            place.forget()

    def trouble_text(self, trouble: Trouble) -> str:
        code = _bacnet.WRITE_DENIED if trouble.code is None else trouble.code
        return {"fail": f"fails with {_bacnet.error_text(_bacnet.OF_PROPERTY, code).partition(': ')[2]}", "reject": "rejects requests",
                "abort": "aborts requests", "silent": "is silent", "refuse": "does not listen", "restart": "restarts"}[trouble.what]

    # ---- datagrams

    async def open(self) -> None:
        name, port = split_address(self.address, "BACnet/IP has 47808")
        try:
            made = await asyncio.get_running_loop().create_datagram_endpoint(lambda: Ear(self), local_addr=(name, port))
        except OSError as failed:
            raise self.cannot_listen(failed) from failed
        self.transport = made[0]
        if port == 0:
            self.address = f"{name}:{self.transport.get_extra_info('sockname')[1]}"

    def is_open(self) -> bool:
        return self.transport is not None

    def shut(self) -> None:
        if self.transport is not None:
            self.transport.abort()
            self.transport = None

    def received(self, datagram: bytes, whence: Tuple[Any, ...]) -> None:
        for heard in self.answer(datagram):
            self.hear(self, heard)
            if heard.answer is None:
                continue
            if self.is_late:
                asyncio.get_running_loop().call_later(self.delay(), self._send, heard.answer, whence)
            else:
                self._send(heard.answer, whence)

    def _send(self, answer: bytes, whence: Tuple[Any, ...]) -> None:
        for _ in range(2 if self.is_twice else 1):
            if self.transport is not None:
                self.transport.sendto(answer, whence)


def troubled(request: Request, trouble: Trouble) -> Refusal:
    """How a device that is told to refuse a request does."""
    if trouble.what == "reject":
        return reject(request.id, _bacnet.NO_SERVICE)
    if trouble.what == "abort":
        return abort(request.id, _bacnet.NO_SEGMENTS)
    denied = _bacnet.WRITE_DENIED if request.value is not None else _bacnet.READ_DENIED
    return error(request, _bacnet.OF_PROPERTY, denied if trouble.code is None else trouble.code)


def said_of(asked: "Request | Unreadable", named: List[Object], device: Device) -> str:
    """A request in words."""
    if isinstance(asked, Unreadable):
        return f"device {device.instance} service {asked.service}"
    kinds = {number: kind for kind, number in _bacnet.OBJECTS.items()}
    kinds[_bacnet.DEVICE] = "device"
    at = f"{kinds.get(asked.kind, f'object {asked.kind}')} {asked.instance}"
    if asked.property != _bacnet.PRESENT_VALUE:
        at += f" {_bacnet.PROPERTIES.get(asked.property, f'property {asked.property}')}"
    at += "" if asked.element is None else f"[{asked.element}]"
    if asked.value is None:
        return f"{at} read"
    level = 16 if asked.priority is None else asked.priority
    return f"{at} = {written(asked.value, named)} at {level}"


def written(value: Value, named: List[Object]) -> str:
    """A value that is to be written, in the object's words where it is one of its."""
    if value.tag == _bacnet.NULL:
        return "null"
    kind = _bacnet.KINDS[named[0].kind] if named else ""
    if kind == "analog" and value.tag == _bacnet.REAL and len(value.data) == 4:
        return named[0].text(value.whole())
    if kind == "binary" and value.tag == _bacnet.ENUMERATED and value.whole() in (0, 1):
        return named[0].text(value.whole())
    return str(value.whole()) if value.tag in (_bacnet.UNSIGNED, _bacnet.ENUMERATED) else value.data.hex()


def object_place(point: Point, table: Dict[str, Any], scale: Scale) -> Object:
    """The place of a plan's table in which nothing is wrong. Failure where the object is none."""
    found = _bacnet.object_of(table["bacnet"])
    if found is None:
        raise Failure(f"{table['bacnet']} is no object")
    station = Far(table["network"], bytes([table["station"]])) if "network" in table else None
    return Object(point, *found, table["level"], station, scale)
