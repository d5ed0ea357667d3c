"""Modbus TCP, as a host of `bossctl field` serves it.

Sources: MODBUS Application Protocol 1.1b3, MODBUS Messaging on TCP/IP 1.0b."""

import asyncio
from typing import Dict, List, NamedTuple, Optional, Set, Tuple

from ._devices import Heard, Host, Place, Trouble, split_address
from ._forms import Scale
from ._show import NONE, Point
from ._toml import Failure

# What a function of the protocol is about, and whether it writes one, writes several, or reads (6.1, 6.3, 6.5, 6.6, 6.11 and 6.12 of the
# first).
READS, WRITES_ONE, WRITES_SEVERAL = "reads", "writes one", "writes several"
FUNCTIONS = {1: ("coil", READS), 3: ("register", READS), 5: ("coil", WRITES_ONE), 6: ("register", WRITES_ONE),
             15: ("coil", WRITES_SEVERAL), 16: ("register", WRITES_SEVERAL)}
# How many may be asked for at once, and of registers be written.
MOST = {1: 2_000, 3: 125, 15: 1_968, 16: 123}
# The word of a coil that is on (6.5).
ON = 0xFF00
# Codes of exceptions (7).
ILLEGAL_FUNCTION, ILLEGAL_ADDRESS, ILLEGAL_VALUE = 1, 2, 3
CODES = {1: "illegal function", 2: "illegal data address", 3: "illegal data value", 4: "server device failure", 5: "acknowledge",
         6: "server device busy", 8: "memory parity error", 10: "gateway path unavailable", 11: "gateway target device failed to respond"}
# What a header may say of the bytes after it: a unit and a function at least (MODBUS Messaging on TCP/IP 1.0b, 3.1.3).
SHORTEST, LONGEST = 2, 254


def code_text(code: int) -> str:
    return f"code {code}, {CODES[code]}" if code in CODES else f"code {code}"


# By unit, kind and address: what was written there. All else that a place names is 0.
Store = Dict[Tuple[int, str, int], int]


class Register(Place):
    """A coil of a unit, or the registers of one in which a point's values stand."""

    def __init__(self, point: Point, unit: int, kind: str, address: int, scale: Scale, store: Store) -> None:
        super().__init__(point)
        self.unit, self.kind, self.address, self.scale, self.store = unit, kind, address, scale, store

    def addresses(self) -> range:
        return range(self.address, self.address + (1 if self.kind == "coil" else self.scale.registers()))

    def where(self) -> str:
        return f"unit {self.unit} {self.kind} {self.address}"

    def value(self) -> Optional[int]:
        words = [self.store.get((self.unit, self.kind, at)) for at in self.addresses()]
        return None if all(word is None for word in words) else self.value_of([word or 0 for word in words])

    def turn(self, value: Optional[int], level: Optional[int]) -> str:
        if value is None or level is not None:
            raise Failure(f"{self.point.name} is a {self.kind}, which has no levels: set {self.point.name} VALUE")
        words = self.words(value)
        self._put(words)
        self.was_written(by_hand=True)
        return self.text(words)

    def move(self, value: int) -> None:
        self._put(self.words(value))

    def forget(self) -> None:
        for at in self.addresses():
            self.store.pop((self.unit, self.kind, at), None)

    def _put(self, words: List[int]) -> None:
        for at, word in zip(self.addresses(), words):
            self.store[self.unit, self.kind, at] = word

    def words(self, value: int) -> List[int]:
        """What stands at the addresses for a value of the point. Failure where it has no form there."""
        if self.kind == "coil":
            return [value]
        if not self.scale.fits(value):
            raise Failure(f"{self.point.show(value)} has no form of type {self.scale.form} at {self.where()}")
        return self.scale.words(value)

    def value_of(self, words: List[int]) -> int:
        """The point's value that these words stand for."""
        return words[0] if self.kind == "coil" else self.scale.value(words)

    def text(self, words: List[int]) -> str:
        """What the device has, in its own numbers."""
        return ("off", "on")[words[0]] if self.kind == "coil" else self.scale.shown(words)


class Asked(NamedTuple):
    """What a request is about: so many coils or registers from an address on, and the words to be written, which are None where they are
    read."""
    kind: str
    address: int
    many: int
    words: Optional[List[int]]

    def addresses(self) -> range:
        return range(self.address, self.address + self.many)


def asked(request: bytes) -> Optional[Asked]:
    """What a request of a function that is served asks for; None where it is not formed as the function's are (6.1 to 6.12)."""
    (kind, way), rest = FUNCTIONS[request[0]], request[1:]
    if len(rest) < 4:
        return None
    address, count = int.from_bytes(rest[:2], "big"), int.from_bytes(rest[2:4], "big")
    if way == WRITES_ONE:
        if len(rest) != 4 or (kind == "coil" and count not in (0, ON)):
            return None
        return Asked(kind, address, 1, [count // ON if kind == "coil" else count])
    if not 1 <= count <= MOST[request[0]]:
        return None
    if way == READS:
        return Asked(kind, address, count, None) if len(rest) == 4 else None
    data, size = rest[5:], (count + 7) // 8 if kind == "coil" else 2 * count
    if rest[4:5] != bytes([size]) or len(data) != size:
        return None
    if kind == "coil":
        return Asked(kind, address, count, [data[at // 8] >> at % 8 & 1 for at in range(count)])
    return Asked(kind, address, count, [int.from_bytes(data[at:at + 2], "big") for at in range(0, size, 2)])


def read_back(kind: str, words: List[int]) -> bytes:
    """What a function that reads is answered with: how many bytes there are, and they (6.1, 6.3)."""
    if kind == "register":
        data = b"".join(word.to_bytes(2, "big") for word in words)
    else:
        data = sum(word << at for at, word in enumerate(words)).to_bytes((len(words) + 7) // 8, "little")
    return bytes([len(data)]) + data


def said(unit: int, function: int, what: Optional[Asked], places: List[Register]) -> str:
    """A request in words."""
    if what is None:
        return f"unit {unit} function {function}"
    at = f"unit {unit} {what.kind} {what.address}"
    if what.words is None:
        return f"{at} read"
    exact = next((it for it in places if it.addresses() == what.addresses()), None)
    coil = ("off", "on") if what.kind == "coil" else None
    return f"{at} = " + (exact.text(what.words) if exact else " ".join(coil[word] if coil else str(word) for word in what.words))


def values(what: Optional[Asked], places: List[Register], words: List[int]) -> str:
    """The values of the points whose places are named in whole, where these words stand."""
    if what is None or not words:
        return NONE
    parts = [(it, it.address - what.address) for it in places]
    whole = [(it, words[at:at + len(it.addresses())]) for it, at in parts if 0 <= at and at + len(it.addresses()) <= len(words)]
    return ", ".join(dict.fromkeys(it.point.show(it.value_of(here)) for it, here in whole)) or NONE


def came(what: Optional[Asked], response: Optional[bytes]) -> str:
    if response is None:
        return "no answer"
    if response[0] >= 0x80:
        return f"refused with {code_text(response[1])}"
    return "read" if what is not None and what.words is None else "taken"


class ModbusHost(Host[Register]):
    """A host of Modbus TCP, with one store for all its units."""

    def __init__(self, address: str) -> None:
        super().__init__(address)
        self.store: Store = {}
        self.server: Optional[asyncio.AbstractServer] = None
        self.connections: Set[asyncio.StreamWriter] = set()

    def answer(self, unit: int, request: bytes) -> Heard:
        """What comes of a request, which begins with its function."""
        what, places, code = self._asked(unit, request)
        trouble = self.trouble or next((it.trouble for it in places if it.trouble), None)
        if trouble is not None and not trouble.is_silent():
            code = code or trouble.code or ILLEGAL_ADDRESS
        words = [] if what is None else what.words or [self.store.get((unit, what.kind, at), 0) for at in what.addresses()]
        response = None if trouble is not None and trouble.is_silent() else self._response(unit, request, what, words, code)
        told = {"unit": unit, "request": request.hex(), "response": None if response is None else response.hex()}
        return Heard([it.point.name for it in places], said(unit, request[0], what, places), values(what, places, words), came(what, response),
                     told, response)

    def _response(self, unit: int, request: bytes, what: Optional[Asked], words: List[int], code: Optional[int]) -> bytes:
        """The response without its header; what is to be written is, where it is taken."""
        if what is None or code is not None:
            return bytes([request[0] | 0x80, code or ILLEGAL_VALUE])
        if what.words is None:
            return request[:1] + read_back(what.kind, words)
        for at, word in enumerate(what.words, what.address):
            self.store[unit, what.kind, at] = word
        for place in self._named(unit, what.kind, what.addresses()):
            place.was_written()
        # Of one the request itself, and of several how many they are (6.5, 6.6, 6.11, 6.12).
        return request[:5]

    def _named(self, unit: int, kind: str, addresses: range) -> List[Register]:
        return [it for it in self.places if (it.unit, it.kind) == (unit, kind) and any(at in addresses for at in it.addresses())]

    def _asked(self, unit: int, request: bytes) -> Tuple[Optional[Asked], List[Register], Optional[int]]:
        """What a request asks for, the places that it names, and the code of its fault. The tests are made in the order of 6.1 to 6.12."""
        if request[0] not in FUNCTIONS:
            return None, [], ILLEGAL_FUNCTION
        what = asked(request)
        if what is None:
            return None, [], ILLEGAL_VALUE
        places = self._named(unit, what.kind, what.addresses())
        known = {at for place in places for at in place.addresses()}
        return what, places, None if known.issuperset(what.addresses()) else ILLEGAL_ADDRESS

    def forget(self) -> None:
        self.store.clear()
        self._end_connections()

    def trouble_text(self, trouble: Trouble) -> str:
        return {"fail": f"fails with {code_text(trouble.code or ILLEGAL_ADDRESS)}", "silent": "is silent", "refuse": "refuses connections",
                "restart": "restarts"}[trouble.what]

    # ---- connections

    async def open(self) -> None:
        name, port = split_address(self.address)
        try:
            self.server = await asyncio.start_server(self._connected, name, port)
        except OSError as error:
            raise self.cannot_listen(error) from error
        if port == 0:
            self.address = f"{name}:{self.server.sockets[0].getsockname()[1]}"

    def is_open(self) -> bool:
        return self.server is not None

    def shut(self) -> None:
        if self.server is not None:
            self.server.close()
            self.server = None
        self._end_connections()

    def _end_connections(self) -> None:
        for writer in list(self.connections):
            writer.transport.abort()

    async def _connected(self, reader: asyncio.StreamReader, writer: asyncio.StreamWriter) -> None:
        self.connections.add(writer)
        self.note(self, "connected")
        why = "the connection ended"
        try:
            while await self._exchange(reader, writer):
                pass
            why = "what came is no Modbus TCP: the connection is ended"
        except (OSError, asyncio.IncompleteReadError):
            pass
        finally:
            self.connections.discard(writer)
            writer.close()
            self.note(self, why)

    async def _exchange(self, reader: asyncio.StreamReader, writer: asyncio.StreamWriter) -> bool:
        """A request and its response. False where what came has no header of Modbus TCP."""
        header = await reader.readexactly(6)
        length = int.from_bytes(header[4:], "big")
        if header[2:4] != b"\0\0" or not SHORTEST <= length <= LONGEST:
            return False
        body = await reader.readexactly(length)
        heard = self.answer(body[0], body[1:])
        self.hear(self, heard)
        if heard.answer is not None:
            await asyncio.sleep(self.delay())
            frame = header[:4] + (len(heard.answer) + 1).to_bytes(2, "big") + body[:1] + heard.answer
            writer.write(frame * (2 if self.is_twice else 1))
            await writer.drain()
        return True
