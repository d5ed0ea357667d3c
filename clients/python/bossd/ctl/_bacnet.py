"""Datagrams of BACnet/IP, as a device sees them: what one asks for, and the bytes of its answers.

Sources: ASHRAE 135, clauses 6.2 (the network's header), 15.5 and 15.9 (ReadProperty, WriteProperty), 16.10 (Who-Is, I-Am), 18 (errors,
rejects and aborts), 20 (encoding), 21 (numbers of objects and properties) and Annex J (over UDP)."""

from typing import List, NamedTuple, Optional, Tuple, Union

# The objects that a plan may name (21), by what their Present_Value is.
OBJECTS = {"analog-output": 1, "analog-value": 2, "binary-output": 4, "binary-value": 5, "multi-state-output": 14, "multi-state-value": 19}
KINDS = {"analog-output": "analog", "analog-value": "analog", "binary-output": "binary", "binary-value": "binary",
         "multi-state-output": "multi", "multi-state-value": "multi"}
DEVICE = 8
# The last instance of an object, and the one by which any device is asked whose own is not known (12.11).
LAST_INSTANCE, ANY_INSTANCE = 4_194_302, 4_194_303
LEVELS = range(1, 17)
# Kept for minimum on and off times (19.2.3).
MINIMUM_TIMES = 6
# Properties (21).
SOFTWARE, DESCRIPTION, FIRMWARE, LOCATION, LONGEST_MESSAGE, MODEL, IDENTIFIER, OBJECT_LIST, NAME, TYPE, PRESENT_VALUE, PRIORITY_ARRAY, \
    PROTOCOL_REVISION, PROTOCOL_VERSION, RELINQUISH_DEFAULT, SEGMENTATION, STATUS, VENDOR, VENDOR_NAME = (
        12, 28, 44, 58, 62, 70, 75, 76, 77, 79, 85, 87, 139, 98, 104, 107, 112, 120, 121)
PROPERTIES = {SOFTWARE: "application-software-version", DESCRIPTION: "description", FIRMWARE: "firmware-revision", LOCATION: "location",
              LONGEST_MESSAGE: "max-apdu-length-accepted", MODEL: "model-name", IDENTIFIER: "object-identifier", OBJECT_LIST: "object-list",
              NAME: "object-name", TYPE: "object-type", PRESENT_VALUE: "present-value", PRIORITY_ARRAY: "priority-array",
              PROTOCOL_REVISION: "protocol-revision", PROTOCOL_VERSION: "protocol-version", RELINQUISH_DEFAULT: "relinquish-default",
              SEGMENTATION: "segmentation-supported", STATUS: "system-status", VENDOR: "vendor-identifier", VENDOR_NAME: "vendor-name"}
# Services (21).
READ, WRITE, WHO_IS = 12, 15, 8
# Tags of values (20.2.1.4).
NULL, BOOLEAN, UNSIGNED, REAL, TEXT, ENUMERATED, OBJECT = 0, 1, 2, 4, 7, 9, 12
# Classes of errors and their codes (18), and reasons of rejects (18.8) and aborts (18.9).
OF_OBJECT, OF_PROPERTY = 1, 2
UNKNOWN_OBJECT, READ_DENIED, UNKNOWN_PROPERTY, OUT_OF_RANGE, WRITE_DENIED, BAD_INDEX, WRONG_TYPE, NO_ARRAY = 31, 27, 32, 37, 40, 42, 9, 50
CLASSES = {0: "device", 1: "object", 2: "property", 3: "resources", 4: "security", 5: "services", 6: "vt"}
CODES = {0: "other", 9: "invalid-data-type", 27: "read-access-denied", 31: "unknown-object", 32: "unknown-property", 37: "value-out-of-range",
         40: "write-access-denied", 42: "invalid-array-index", 50: "property-is-not-an-array"}
MALFORMED, NOT_THAT_RANGE, NO_SERVICE = 4, 6, 9
REJECTS = {4: "invalid-tag", 6: "parameter-out-of-range", 9: "unrecognized-service"}
NO_SEGMENTS = 4
ABORTS = {4: "segmentation-not-supported"}
# The longest message that a request may say that it takes, by its four bits (20.1.2.5).
LONGEST = (50, 128, 206, 480, 1024, 1476)
# A network of all, and messages of the network itself (6.2.4, 6.4).
EVERYWHERE = 0xFFFF
WHICH_ROUTER, THIS_ROUTER, NO_SUCH_NETWORK = 0, 1, 3


class Malformed(Exception):
    """Bytes that are none of these datagrams."""


class Far(NamedTuple):
    """An address behind a router: a network, and a station of it; no byte of an address is all its stations."""
    network: int
    address: bytes


class Message(NamedTuple):
    """A datagram: to whom behind the host it is, from whom behind a router it comes, a message of the network by its number, and what it
    carries."""
    to: Optional[Far]
    source: Optional[Far]
    network_message: Optional[int]
    data: bytes


class Value(NamedTuple):
    """A value by its tag, and its bytes; of a Boolean they are one."""
    tag: int
    data: bytes

    def whole(self) -> int:
        return int.from_bytes(self.data, "big")


class Request(NamedTuple):
    """A property of an object that is read, or written where there is a value."""
    id: int
    service: int
    longest: int
    kind: int
    instance: int
    property: int
    element: Optional[int] = None
    value: Optional[Value] = None
    priority: Optional[int] = None


class Unreadable(NamedTuple):
    """A confirmed request that is not served: of another service, in segments, or not formed as its service's are."""
    id: int
    service: int
    in_segments: bool


class WhoIs(NamedTuple):
    """Devices of these instances are asked for."""
    least: int
    most: int


class Bytes:
    """Bytes that are taken one after another. Malformed where there are too few."""

    def __init__(self, data: bytes) -> None:
        self.data, self.place = data, 0

    def left(self) -> int:
        return len(self.data) - self.place

    def take(self, count: int) -> bytes:
        if self.left() < count:
            raise Malformed
        self.place += count
        return self.data[self.place - count:self.place]

    def number(self, count: int = 1) -> int:
        return int.from_bytes(self.take(count), "big")

    def begins(self, *bytes_: int) -> bool:
        """Whether one of these bytes is next, which is not taken."""
        return self.left() > 0 and self.data[self.place] in bytes_

    def context(self, tag: int) -> bytes:
        """What stands under a context tag (20.2.1.3), of at most four bytes."""
        first = self.number()
        if first >> 4 != tag or not first & 0x08 or not 1 <= first & 0x07 <= 4:
            raise Malformed
        return self.take(first & 0x07)

    def has_context(self, tag: int) -> bool:
        return self.begins(*(tag << 4 | 0x08 | length for length in range(1, 5)))

    def value(self) -> Value:
        """A value with an application tag (20.2.1)."""
        first = self.number()
        tag, length = first >> 4, first & 0x07
        if first & 0x08 or tag == 0x0F:
            raise Malformed
        if tag == BOOLEAN:
            return Value(tag, bytes([length]))
        length = self.number() if length == 5 else length
        return Value(tag, self.take(length))


# ---- what came

def message_in(datagram: bytes) -> Optional[Message]:
    """The message of a datagram: unicast or broadcast at its origin (J.2.11, J.2.12); None where it is none."""
    if len(datagram) < 6 or datagram[0] != 0x81 or datagram[1] not in (0x0A, 0x0B) or int.from_bytes(datagram[2:4], "big") != len(datagram):
        return None
    try:
        return network_in(Bytes(datagram[4:]))
    except Malformed:
        return None


def network_in(these: Bytes) -> Message:
    """A message by its header of the network (6.2.2)."""
    if these.number() != 1:
        raise Malformed
    control = these.number()
    to = far_in(these) if control & 0x20 else None
    source = far_in(these) if control & 0x08 else None
    if to is not None:
        # How often it may be handed on.
        these.number()
    message = these.number() if control & 0x80 else None
    return Message(to, source, message, these.take(these.left()))


def far_in(these: Bytes) -> Far:
    network = these.number(2)
    return Far(network, these.take(these.number()))


def asked(data: bytes) -> Union[Request, Unreadable, WhoIs, None]:
    """What a message asks for; None where it is nothing that wants an answer."""
    if data[:2] == bytes([0x10, WHO_IS]):
        return who_is(Bytes(data[2:]))
    if len(data) < 4 or data[0] >> 4 != 0:
        return None
    in_segments = bool(data[0] & 0x08)
    longest = LONGEST[data[1] & 0x0F] if data[1] & 0x0F < len(LONGEST) else LONGEST[0]
    if in_segments or data[3] not in (READ, WRITE):
        return Unreadable(data[2], data[3], in_segments)
    try:
        return request(data[2], data[3], longest, Bytes(data[4:]))
    except Malformed:
        return Unreadable(data[2], data[3], False)


def who_is(these: Bytes) -> Optional[WhoIs]:
    if not these.left():
        return WhoIs(0, ANY_INSTANCE)
    try:
        return WhoIs(int.from_bytes(these.context(0), "big"), int.from_bytes(these.context(1), "big"))
    except Malformed:
        return None


def request(id: int, service: int, longest: int, these: Bytes) -> Request:
    """A ReadProperty or a WriteProperty of one value (15.5.1, 15.9.1). Malformed where it is none."""
    name = int.from_bytes(these.context(0), "big")
    property_ = int.from_bytes(these.context(1), "big")
    element = int.from_bytes(these.context(2), "big") if these.has_context(2) else None
    value, priority = None, None
    if service == WRITE:
        if these.number() != 0x3E:
            raise Malformed
        value = these.value()
        if these.number() != 0x3F:
            raise Malformed
        priority = int.from_bytes(these.context(4), "big") if these.has_context(4) else None
    if these.left():
        raise Malformed
    return Request(id, service, longest, name >> 22, name & ANY_INSTANCE, property_, element, value, priority)


# ---- answers

def datagram(to: Optional[Far], source: Optional[Far], data: bytes, control: int = 0) -> bytes:
    """A message, to somebody behind a router or from a station behind the host."""
    control |= (0x20 if to else 0) | (0x08 if source else 0)
    body = bytes([1, control]) + far_bytes(to) + far_bytes(source) + (b"\xff" if to else b"") + data
    return b"\x81\x0a" + (len(body) + 4).to_bytes(2, "big") + body


def far_bytes(far: Optional[Far]) -> bytes:
    return far.network.to_bytes(2, "big") + bytes([len(far.address)]) + far.address if far else b""


def object_bytes(kind: int, instance: int) -> bytes:
    return (kind << 22 | instance).to_bytes(4, "big")


def tagged(tag: int, data: bytes) -> bytes:
    """A value with its application tag (20.2.1)."""
    if tag == BOOLEAN:
        return bytes([tag << 4 | data[0]])
    if len(data) < 5:
        return bytes([tag << 4 | len(data)]) + data
    return bytes([tag << 4 | 5, len(data)]) + data


def whole(number: int) -> bytes:
    """A whole number in as few bytes as there may be (20.2.4)."""
    return number.to_bytes(max(1, (number.bit_length() + 7) // 8), "big")


def unsigned(number: int) -> bytes:
    return tagged(UNSIGNED, whole(number))


def enumerated(number: int) -> bytes:
    return tagged(ENUMERATED, whole(number))


def text(words: str) -> bytes:
    """A text in UTF-8 (20.2.9), cut where it is longer than one byte of a length says."""
    return tagged(TEXT, b"\0" + words.encode()[:240].decode(errors="ignore").encode())


def under(tag: int, data: bytes) -> bytes:
    """What stands under a context tag, of at most four bytes."""
    return bytes([tag << 4 | 0x08 | len(data)]) + data


def done(asked_for: Request) -> bytes:
    """A write that was taken (20.1.4)."""
    return bytes([0x20, asked_for.id, asked_for.service])


def has(asked_for: Request, instance: int, value: bytes) -> bytes:
    """What was read (15.5.1, 20.1.5). Asked for any device, a device says its own instance."""
    index = under(2, whole(asked_for.element)) if asked_for.element is not None else b""
    return (bytes([0x30, asked_for.id, asked_for.service]) + under(0, object_bytes(asked_for.kind, instance))
            + under(1, whole(asked_for.property)) + index + b"\x3e" + value + b"\x3f")


def error(id: int, service: int, kind: int, code: int) -> bytes:
    return bytes([0x50, id, service]) + enumerated(kind) + enumerated(code)


def reject(id: int, reason: int) -> bytes:
    return bytes([0x60, id, reason])


def abort(id: int, reason: int) -> bytes:
    """An abort by who was asked (20.1.9)."""
    return bytes([0x71, id, reason])


def i_am(instance: int, longest: int, vendor: int) -> bytes:
    """What a device says of itself (16.10.3): it takes and sends no segments."""
    return b"\x10\x00" + tagged(OBJECT, object_bytes(DEVICE, instance)) + unsigned(longest) + enumerated(3) + unsigned(vendor)


def this_router(networks: List[int]) -> bytes:
    """Which networks are reached through the host (6.4.2)."""
    return bytes([THIS_ROUTER]) + b"".join(network.to_bytes(2, "big") for network in networks)


def no_network(network: int) -> bytes:
    """The host does not reach this network (6.4.4, reason 1)."""
    return bytes([NO_SUCH_NETWORK, 1]) + network.to_bytes(2, "big")


# ---- in words

def error_text(kind: int, code: int) -> str:
    return f"refused, {CLASSES.get(kind, 'class')}: {CODES.get(code, 'code')} ({kind}, {code})"


def reason_text(what: str, reason: int, names: "dict[int, str]") -> str:
    return f"{what} for reason {reason}" + (f", {names[reason]}" if reason in names else "")


def object_of(name: str) -> Optional[Tuple[str, int]]:
    """The type and the instance of a plan's object, as `analog-output,3`; None where it is none."""
    kind, _, instance = name.partition(",")
    is_number = instance.isascii() and instance.isdigit() and len(instance) <= 7 and (instance == "0" or instance[0] != "0")
    if kind not in OBJECTS or not is_number or int(instance) > LAST_INSTANCE:
        return None
    return kind, int(instance)
