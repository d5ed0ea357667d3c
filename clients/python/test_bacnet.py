"""Tests of `bossctl field` over BACnet/IP: python3 -m unittest, in this folder. Requests are written by an encoder of its own, from the
clauses of ASHRAE 135 (6.2, 15.5, 15.9, 20.2, Annex J); whole datagrams were named by tshark, which judges answers too where it is there, and
nmap's bacnet-info asks the device for its names."""

import os
import random
import shutil
import socket
import struct
import subprocess
import tempfile
import time
import unittest

from bossd.ctl import _bacnet, _forms
from bossd.ctl._bacnet import Far
from bossd.ctl._devices import Trouble
from bossd.ctl._objects import BacnetHost, Object
from bossd.ctl._show import Point
from test_bossd import common, eventually
from test_field import Begun, Case

AO, AV, BO, BV, MSO, MSV = 1, 2, 4, 5, 14, 19
READ, WRITE = 12, 15
PRESENT_VALUE, PRIORITY_ARRAY = 85, 87
STATION = Far(2001, bytes([12]))
SEED = 20_261_201


# ---- a client of a few lines

def npdu(far, reply=True):
    if far is None:
        return bytes([1, 4 if reply else 0])
    return bytes([1, 0x24 if reply else 0x20]) + struct.pack(">HB", far.network, 1) + far.address + b"\xff"


def bvlc(body, function=0x0A):
    return bytes([0x81, function]) + struct.pack(">H", len(body) + 4) + body


def confirmed(number, service, rest, far=None):
    return bvlc(npdu(far) + bytes([0, 3, number, service]) + rest)


def named(kind, instance):
    return b"\x0c" + struct.pack(">I", kind << 22 | instance)


def write(number, kind, instance, value, priority, far=None):
    level = b"" if priority is None else bytes([0x49, priority])
    return confirmed(number, WRITE, named(kind, instance) + b"\x19\x55\x3e" + value + b"\x3f" + level, far)


def read(number, kind, instance, far=None, what=PRESENT_VALUE, element=None):
    return confirmed(number, READ, named(kind, instance) + bytes([0x19, what]) + (b"" if element is None else bytes([0x29, element])), far)


def answered(body, far=None):
    """A datagram from a device, which is at the host or a station behind it."""
    return bvlc((bytes([1, 0]) if far is None else bytes([1, 8]) + struct.pack(">HB", far.network, 1) + far.address) + body)


def acknowledged(number, far=None):
    return answered(bytes([0x20, number, WRITE]), far)


def told(number, kind, instance, value, far=None, what=PRESENT_VALUE, element=None):
    index = b"" if element is None else bytes([0x29, element])
    return answered(bytes([0x30, number, READ]) + named(kind, instance) + bytes([0x19, what]) + index + b"\x3e" + value + b"\x3f", far)


def refused(number, service, kind, code, far=None):
    return answered(bytes([0x50, number, service, 0x91, kind, 0x91, code]), far)


def real(number):
    return b"\x44" + struct.pack(">f", number)


def point(name, kind, least, most):
    return Point(name, "field", kind, least, most, least)


THOUSANDTHS, STATE = _forms.Scale("f32", per=1000), _forms.Scale("f32")


def host():
    """A device with an object of each type, one of which is behind it."""
    made = BacnetHost("127.0.0.1:47808")
    made.drivers.append("field")
    made.places += [
        Object(point("valve", "analog", 0, 100_000), "analog-output", 3, 8, None, THOUSANDTHS),
        Object(point("cold", "analog", -40_000, 90_000), "analog-value", 7, 16, None, THOUSANDTHS),
        Object(point("fan", "binary", 0, 1), "binary-output", 1, 8, None, STATE),
        Object(point("lamp", "binary", 0, 1), "binary-value", 2, 8, None, STATE),
        Object(point("mode", "multi", 1, 4), "multi-state-output", 4, 10, None, STATE),
        Object(point("last", "multi", 1, 255), "multi-state-value", 4_194_302, 10, None, STATE),
        Object(point("far", "analog", 0, 100_000), "analog-output", 3, 8, STATION, THOUSANDTHS)]
    return made


class Answers(unittest.TestCase):
    """One datagram, and what the device says."""

    def setUp(self):
        self.host = host()

    def ask(self, datagram):
        """The one answer, or None."""
        heard = self.host.answer(datagram)
        self.assertLessEqual(len(heard), 1)
        return heard[0].answer if heard else None

    def value(self, name):
        return next(it for it in self.host.places if it.point.name == name).value()

    def test_datagrams_that_were_named_by_tshark(self):
        for asked, answer in [
            ("810a001a01040003010f0c0040000319553e44423400003f4908", "810a0009010020010f"),
            ("810a001f012407d1010cff0003070f0c0040000319553e44423400003f4908", "810a000d010807d1010c20070f"),
            ("810a001701040003030f0c0100000119553e91013f4908", "810a0009010020030f"),
            ("810a001701040003060f0c04fffffe19553e21ff3f490a", "810a0009010020060f"),
            ("810a001a01040003010f0c0040000319553e4441f000003f4908", "810a0009010020010f"),
            ("810a001101040003080c0c0040000319 55".replace(" ", ""), "810a0017010030080c0c0040000319553e4441f000003f"),
        ]:
            self.assertEqual(self.ask(bytes.fromhex(asked)).hex(), answer, asked)
        self.assertEqual([self.value(it) for it in ("valve", "far", "fan", "last")], [30_000, 45_000, 1, 255])

    def test_values_of_each_type(self):
        for kind, instance, value, name, is_then in [
            (AO, 3, real(45.5), "valve", 45_500), (AV, 7, real(-21.5), "cold", -21_500), (BO, 1, b"\x91\x01", "fan", 1),
            (BV, 2, b"\x91\x00", "lamp", 0), (MSO, 4, b"\x21\x03", "mode", 3), (MSV, 4_194_302, b"\x21\xff", "last", 255),
        ]:
            self.assertEqual(self.ask(write(9, kind, instance, value, 8)), acknowledged(9))
            self.assertEqual(self.ask(read(10, kind, instance)), told(10, kind, instance, value))
            self.assertEqual(self.value(name), is_then)

    def test_the_highest_level_is_in_force(self):
        self.ask(write(1, AO, 3, real(45.0), 8))
        self.ask(write(2, AO, 3, real(30.0), 5))
        heard = self.host.answer(write(3, AO, 3, real(60.0), 8))[0]
        self.assertEqual((heard.said, heard.came), ("analog-output 3 = 60 at 8", "taken, and has 30 by level 5"))
        self.assertEqual(self.ask(read(4, AO, 3)), told(4, AO, 3, real(30.0)))
        # Null lets a level go (19.2.1), and the relinquish default is what is left.
        self.assertEqual(self.ask(write(5, AO, 3, b"\0", 5)), acknowledged(5))
        self.assertEqual(self.ask(read(6, AO, 3)), told(6, AO, 3, real(60.0)))
        self.ask(write(7, AO, 3, b"\0", 8))
        self.assertEqual(self.ask(read(8, AO, 3)), told(8, AO, 3, real(0.0)))
        # Without a priority it is the last one (15.9.1.1.5).
        self.ask(write(9, AO, 3, real(1.0), None))
        array = b"\0" * 15 + real(1.0)
        self.assertEqual(self.ask(read(10, AO, 3, what=PRIORITY_ARRAY)), told(10, AO, 3, array, what=PRIORITY_ARRAY))
        self.assertEqual(self.ask(read(11, AO, 3, what=PRIORITY_ARRAY, element=16)), told(11, AO, 3, real(1.0), what=PRIORITY_ARRAY, element=16))

    def test_a_hand_turns_it(self):
        valve = self.host.places[0]
        self.ask(write(1, AO, 3, real(45.0), 8))
        self.assertEqual(valve.turn(30_000, None), "30 at 8")
        self.assertEqual(valve.turn(20_000, 5), "20 at 5")
        self.assertEqual(self.ask(read(2, AO, 3)), told(2, AO, 3, real(20.0)))
        self.assertEqual(valve.turn(None, 5), "- at 5, and has 30 by level 8")
        self.assertEqual(self.ask(read(3, AO, 3)), told(3, AO, 3, real(30.0)))

    def test_requests_that_are_refused(self):
        for asked, answer in [
            (read(1, AO, 4), refused(1, READ, 1, 31)),                                        # unknown-object
            (read(2, AO, 3, far=STATION, what=200), refused(2, READ, 2, 32, STATION)),        # unknown-property
            (read(3, AO, 3, element=1), refused(3, READ, 2, 50)),                             # property-is-not-an-array
            (read(4, AO, 3, what=PRIORITY_ARRAY, element=17), refused(4, READ, 2, 42)),       # invalid-array-index
            (write(5, BO, 1, b"\x91\x02", 8), refused(5, WRITE, 2, 37)),                      # value-out-of-range
            (write(6, MSO, 4, b"\x21\x05", 8), refused(6, WRITE, 2, 37)),
            (write(7, AO, 3, real(float("nan")), 8), refused(7, WRITE, 2, 37)),
            (write(8, AO, 3, b"\x21\x05", 8), refused(8, WRITE, 2, 9)),                       # invalid-data-type
            (write(9, AO, 3, real(1.0), 6), refused(9, WRITE, 2, 40)),                        # minimum on and off times
            (write(10, AO, 3, real(1.0), 17), answered(b"\x60\x0a\x06")),                     # parameter-out-of-range
            (confirmed(11, 14, b""), answered(b"\x60\x0b\x09")),                              # ReadPropertyMultiple
            (confirmed(12, READ, named(AO, 3)), answered(b"\x60\x0c\x04")),                   # no property
            (bvlc(bytes([1, 4, 8, 3, 13, 0, 1, WRITE])), answered(b"\x71\x0d\x04")),          # a segment
            (read(14, AO, 3, far=Far(2002, b"\x01")), bvlc(b"\x01\x80\x03\x01\x07\xd2")),     # no such network
            (read(15, AO, 3, far=Far(2001, b"\x0d")), None),                                  # no such station
            (read(16, AO, 3)[:-1], None),
            (b"\x82" + read(17, AO, 3)[1:], None),
            (bvlc(b"\x02" + read(18, AO, 3)[5:]), None),
            (bvlc(read(19, AO, 3)[4:], 0x0B), None),                                          # no broadcast is confirmed
        ]:
            self.assertEqual(self.ask(asked), answer, asked.hex())
        self.assertEqual([it.value() for it in self.host.places], [None] * 7)

    def test_who_is(self):
        """I-Am: the instance, 1,476 bytes, no segments, and a number of a vendor (16.10.3)."""
        def i_am(instance):
            return b"\x10\x00\xc4" + struct.pack(">I", 8 << 22 | instance) + b"\x22\x05\xc4\x91\x03\x22\xff\xff"
        everyone = bvlc(bytes.fromhex("0120ffff00ff1008"), 0x0B)
        self.assertEqual([it.answer for it in self.host.answer(everyone)], [answered(i_am(1)), answered(i_am(2), STATION)])
        self.assertEqual([it.answer for it in self.host.answer(bvlc(b"\x01\x00\x10\x08", 0x0B))], [answered(i_am(1))])
        for limits, count in [("09 02 19 02", 1), ("09 03 19 09", 0), ("0b 000000 1b 3fffff", 2)]:
            asked = bvlc(bytes.fromhex("0120ffff00ff1008" + limits), 0x0B)
            self.assertEqual(len(self.host.answer(asked)), count, limits)

    def test_routers_and_who_is_behind_another(self):
        # Who-Is-Router-To-Network of all and of one, and I-Am-Router-To-Network (6.4.1, 6.4.2).
        for asked, answer in [("018000", "01800107d1"), ("01800007d1", "01800107d1"), ("01800007d2", None)]:
            self.assertEqual(self.ask(bvlc(bytes.fromhex(asked), 0x0B)), answer and bvlc(bytes.fromhex(answer)), asked)
        # A request of station 5 of network 9 is answered to it (6.2.2).
        asked = bvlc(b"\x01\x0c\x00\x09\x01\x05" + bytes([0, 3, 1, READ]) + named(AO, 3) + b"\x19\x55")
        self.assertEqual(self.ask(asked), bvlc(b"\x01\x20\x00\x09\x01\x05\xff" + told(1, AO, 3, real(0.0))[6:]))

    def test_the_names_of_a_device(self):
        for what, value in [(77, b"\x75\x06\x00field"), (75, b"\xc4\x02\x00\x00\x01"), (79, b"\x91\x08"), (120, b"\x22\xff\xff")]:
            self.assertEqual(self.ask(read(1, 8, 4_194_303, what=what)), told(1, 8, 1, value, what=what))
        # Its objects: itself, and those at the host.
        self.assertEqual(self.ask(read(2, 8, 1, what=76, element=0)), told(2, 8, 1, b"\x21\x07", what=76, element=0))
        self.assertEqual(self.ask(read(3, 8, 2, far=STATION, what=76, element=2)),
                         told(3, 8, 2, b"\xc4" + struct.pack(">I", AO << 22 | 3), STATION, 76, 2))
        self.assertEqual(self.ask(read(4, 8, 2)), refused(4, READ, 1, 31))

    def test_troubles(self):
        valve = self.host.places[0]
        for trouble, answer, came in [
            (Trouble("fail"), refused(1, WRITE, 2, 40), "refused, property: write-access-denied (2, 40)"),
            (Trouble("fail", 37), refused(1, WRITE, 2, 37), "refused, property: value-out-of-range (2, 37)"),
            (Trouble("reject"), answered(b"\x60\x01\x09"), "rejected for reason 9, unrecognized-service"),
            (Trouble("abort"), answered(b"\x71\x01\x04"), "aborted for reason 4, segmentation-not-supported"),
            (Trouble("silent"), None, "no answer"),
        ]:
            valve.trouble = trouble
            heard = self.host.answer(write(1, AO, 3, real(1.0), 8))[0]
            self.assertEqual((heard.answer, heard.came), (answer, came))
        self.assertIsNone(valve.value())
        self.assertEqual(self.ask(write(2, BO, 1, b"\x91\x01", 8)), acknowledged(2))
        valve.trouble = None
        self.host.forget()
        self.assertEqual((self.value("fan"), self.ask(read(3, BO, 1))), (None, told(3, BO, 1, b"\x91\x00")))


class Coding(unittest.TestCase):
    """What chance brings."""

    def test_writes_and_reads_by_chance(self):
        """Each write is acknowledged, and what is read then is that of the highest level, byte for byte."""
        chance = random.Random(SEED)
        kinds = [(AO, 3, None), (AO, 3, STATION), (AV, 7, None), (BO, 1, None), (MSV, 4_194_302, None)]
        field, levels = host(), {kind: {} for kind in kinds}
        for number in range(1_500):
            kind, instance, far = chance.choice(kinds)
            values = {BO: lambda: bytes([0x91, chance.randrange(2)]), MSV: lambda: bytes([0x21, chance.randint(1, 255)])}
            value = values.get(kind, lambda: real(chance.randint(-10**6, 10**6) / 1000))()
            level, id = chance.choice([1, 2, 3, 4, 5, *range(7, 17)]), number % 256
            has = levels[kind, instance, far]
            if chance.random() < 0.3:
                value = b"\0"
                has.pop(level, None)
            else:
                has[level] = value
            self.assertEqual(field.answer(write(id, kind, instance, value, level, far))[0].answer, acknowledged(id, far))
            default = {BO: b"\x91\x00", MSV: b"\x21\x01"}.get(kind, real(0.0))
            self.assertEqual(field.answer(read(id, kind, instance, far))[0].answer, told(id, kind, instance, has[min(has)] if has else default, far))

    def test_what_is_read_is_what_was_asked(self):
        chance = random.Random(SEED + 1)
        for _ in range(1_000):
            kind, instance, level, id = chance.randrange(1024), chance.randrange(4_194_304), chance.randint(1, 16), chance.randrange(256)
            far = Far(chance.randint(1, 65_534), bytes([chance.randrange(255)])) if chance.random() < 0.5 else None
            bits = chance.randrange(2**32)
            message = _bacnet.message_in(write(id, kind, instance, b"\x44" + bits.to_bytes(4, "big"), level, far))
            self.assertEqual((message.to, message.source, message.network_message), (far, None, None))
            asked = _bacnet.asked(message.data)
            self.assertEqual(asked, _bacnet.Request(id, WRITE, 480, kind, instance, PRESENT_VALUE, None, _bacnet.Value(4, bits.to_bytes(4, "big")), level))

    def test_junk_is_borne(self):
        """Datagrams with bytes that are changed, left out or put in: no answer, or one whose length is what it says."""
        chance, field = random.Random(SEED + 2), host()
        begun = [write(1, AO, 3, real(1.0), 8), write(2, MSV, 4_194_302, b"\x21\x07", 8, STATION), read(3, 8, 1, what=77),
                 bvlc(bytes.fromhex("0120ffff00ff1008"), 0x0B), read(4, AO, 3, what=PRIORITY_ARRAY, element=3)]
        answers = 0
        for _ in range(5_000):
            data = bytearray(chance.choice(begun))
            for _ in range(chance.randint(1, 3)):
                at = chance.randrange(len(data))
                data[at:at + chance.randint(0, 1)] = bytes(chance.choices(range(256), k=chance.randint(0, 2)))
            if chance.random() < 0.7 and len(data) > 4:
                data[:4] = b"\x81\x0a" + len(data).to_bytes(2, "big")
            for heard in field.answer(bytes(data)):
                if heard.answer is not None:
                    answers += 1
                    self.assertEqual((heard.answer[:2], int.from_bytes(heard.answer[2:4], "big")), (b"\x81\x0a", len(heard.answer)))
        self.assertGreater(answers, 500)

    def test_objects_of_a_plan(self):
        self.assertEqual(_bacnet.object_of("analog-output,3"), ("analog-output", 3))
        self.assertEqual(_bacnet.object_of("multi-state-value,4194302"), ("multi-state-value", 4_194_302))
        for name in ("analog-output", "analog-output,", "analog-output, 3", "analog-output,4194303", "analog-output,-1", "analog-output,03",
                     "analog-input,3", "Analog-Output,3", "analog-output,3,4", "analog-output,3.0", ""):
            self.assertIsNone(_bacnet.object_of(name), name)


@unittest.skipUnless(shutil.which("tshark"), "no tshark here")
class Named(unittest.TestCase):
    """Answers as tshark names them."""

    FIELDS = ("_ws.malformed", "bacapp.type", "bacapp.invoke_id", "bacapp.confirmed_service", "bacapp.objectType", "bacapp.instance_number",
              "bacapp.present_value.real", "bacapp.present_value.enum_index", "bacapp.present_value.uint", "bacnet.snet", "bacnet.sadr_mstp",
              "bacapp.error_class", "bacapp.error_code", "bacapp.reject_reason", "bacapp.abort_reason")

    def shown(self, datagrams):
        """The fields of each datagram, in a capture of raw IP (link type 101)."""
        with tempfile.NamedTemporaryFile(suffix=".pcap") as file:
            file.write(struct.pack("<IHHiIII", 0xA1B2C3D4, 2, 4, 0, 0, 65_535, 101))
            for at, data in enumerate(datagrams):
                udp = struct.pack(">HHHH", 47_808, 47_808, 8 + len(data), 0) + data
                ip = struct.pack(">BBHHHBBHII", 0x45, 0, 20 + len(udp), at, 0, 64, 17, 0, 0x7F000001, 0x7F000001) + udp
                file.write(struct.pack("<IIII", at, 0, len(ip), len(ip)) + ip)
            file.flush()
            words = ["tshark", "-r", file.name, "-T", "fields", "-E", "separator=|"] + [word for name in self.FIELDS for word in ("-e", name)]
            ran = subprocess.run(words, stdout=subprocess.PIPE, stderr=subprocess.DEVNULL, text=True, timeout=120)
        return [line.split("|") for line in ran.stdout.splitlines()]

    def test_answers(self):
        field = host()
        rows = [
            (write(1, AO, 3, real(-21.5), 8), "2 1 15 - - - - - - - - - - -"),
            (read(2, AO, 3), "3 2 12 1 3 -21.5 - - - - - - - -"),
            (write(3, BO, 1, b"\x91\x01", 8), "2 3 15 - - - - - - - - - - -"),
            (read(4, BO, 1), "3 4 12 4 1 - 1 - - - - - - -"),
            (write(5, MSV, 4_194_302, b"\x21\xff", 8), "2 5 15 - - - - - - - - - - -"),
            (read(6, MSV, 4_194_302), "3 6 12 19 4194302 - - 255 - - - - - -"),
            (write(7, AO, 3, real(45.0), 8, STATION), "2 7 15 - - - - - 2001 12 - - - -"),
            (read(8, AO, 3, STATION), "3 8 12 1 3 45 - - 2001 12 - - - -"),
            (read(9, AO, 4), "5 9 12 - - - - - - - 1 31 - -"),
            (write(10, AO, 3, real(1.0), 6), "5 10 15 - - - - - - - 2 40 - -"),
            (confirmed(11, 14, b""), "6 11 - - - - - - - - - - 9 -"),
            (bvlc(bytes([1, 4, 8, 3, 13, 0, 1, WRITE])), "7 13 - - - - - - - - - - - 4"),
        ]
        shown = self.shown([field.answer(asked)[0].answer for asked, _ in rows])
        self.assertEqual(shown, [["", *("" if it == "-" else it for it in row.split())] for _, row in rows])

    def test_whatever_is_answered_is_well_formed(self):
        field = host()
        asked = [read(1, 8, 1, what=what) for what in (12, 28, 44, 58, 62, 70, 75, 76, 77, 79, 98, 107, 112, 120, 121, 139)]
        asked += [read(2, AO, 3, what=what) for what in (28, 75, 77, 79, 87, 104)] + [bvlc(bytes.fromhex("0120ffff00ff1008"), 0x0B), bvlc(b"\x01\x80\x00", 0x0B)]
        answers = [heard.answer for it in asked for heard in field.answer(it)]
        shown = self.shown(answers)
        self.assertEqual((len(shown), [line for line in shown if line[0]]), (len(asked) + 1, []))


# ---- over UDP

CATALOGUE = """\
drivers = ["roof", "hall"]
""" + "".join(f"""
[[point]]
name = "{name}"
driver = "{driver}"
{kind}
default = {default}
""" for name, driver, kind, default in [
    ("valve", "roof", 'kind = "analog"\nmin = 0\nmax = 100000\nunit = "percent"', 20_000), ("fan", "roof", 'kind = "binary"', 0),
    ("box", "roof", 'kind = "multi"\nstates = 3', 1), ("flow", "hall", 'kind = "analog"\nmin = -20000\nmax = 90000\nunit = "°C"', 0)])
PLAN = """\
[[driver]]
name = "roof"
speaks = "bacnet"
host = "{}"
wait = 50
tries = 1
check = 60000

[[driver]]
name = "hall"
host = "127.0.0.1:0"
again = 60000

[[place]]
point = "valve"
bacnet = "analog-output,3"
level = 10
per = 1000

[[place]]
point = "fan"
bacnet = "binary-value,1"
level = 10

[[place]]
point = "box"
bacnet = "multi-state-output,2"
level = 12
network = 2001
station = 12
again = 30000

[[place]]
point = "flow"
unit = 1
register = 9
type = "f32"
per = 1000
check = 5000
"""


class Served(Begun):
    """A field of both protocols, and a client over UDP."""

    def setUp(self):
        Case.setUp(self)
        with socket.socket(socket.AF_INET, socket.SOCK_DGRAM) as taken:
            taken.bind(("127.0.0.1", 0))
            self.port = taken.getsockname()[1]
        catalogue = os.path.join(self.folder, "plant.toml")
        with open(catalogue, "w") as file:
            file.write(CATALOGUE)
        self.begin(self.plan(f"127.0.0.1:{self.port}", PLAN), "--catalogue", catalogue)
        self.client = socket.socket(socket.AF_INET, socket.SOCK_DGRAM)
        self.addCleanup(self.client.close)
        self.client.connect(("127.0.0.1", self.port))

    def say(self, datagram, patience=20.0):
        """The answer; None where none comes in so many seconds."""
        self.client.send(datagram)
        return self.next(patience)

    def next(self, patience):
        self.client.settimeout(patience)
        try:
            return self.client.recv(2_000)
        except socket.timeout:
            return None

    def test_each_request_is_shown(self):
        self.assertEqual(self.say(write(1, AO, 3, real(45.0), 10)), acknowledged(1))
        self.assertEqual(self.say(write(2, MSO, 2, b"\x21\x03", 12, STATION)), acknowledged(2, STATION))
        self.assertEqual(self.say(read(3, MSO, 2, STATION)), told(3, MSO, 2, b"\x21\x03", STATION))
        self.assertEqual(self.shown("valve"), ["analog-output 3 = 45 at 10", "45.0 percent", "taken"])
        self.assertEqual(self.shown("box"), ["network 2001 station 12 multi-state-output 2 = 3 at 12", "3", "taken"])
        self.assertEqual(self.shown("box"), ["network 2001 station 12 multi-state-output 2 read", "3", "read"])
        self.type("set", "valve", "30", "5")
        self.assertIn("by hand: analog-output 3 = 30 at 5", self.wait_for("valve is 30.0"))
        self.assertEqual(self.say(write(4, AO, 3, real(60.0), 10)), acknowledged(4))
        self.assertEqual(self.shown("valve"), ["analog-output 3 = 60 at 10", "30.0 percent", "taken, and has 30 by level 5"])
        self.type("set", "valve", "null", "5")
        self.wait_for("valve is let go by hand")
        self.assertEqual(self.say(read(5, AO, 3)), told(5, AO, 3, real(60.0)))

    def test_troubles(self):
        for words, answer in [(("fail", "valve"), refused(1, WRITE, 2, 40)), (("fail", "roof", "reject"), answered(b"\x60\x01\x09")),
                              (("fail", "roof", "abort"), answered(b"\x71\x01\x04")), (("silent", "roof"), None)]:
            self.type(*words)
            self.wait_for("valve" if words[1] == "valve" else "roof at")
            self.assertEqual(self.say(write(1, AO, 3, real(1.0), 10), 0.3 if answer is None else 20.0), answer, words)
        self.type("back")
        self.wait_for("roof at")
        self.assertEqual(self.say(write(2, AO, 3, real(1.0), 10)), acknowledged(2))
        for words, text in [(("fail", "flow", "abort"), "Modbus knows no abort"), (("late", "valve"), "late roof"), (("drift", "valve", "x"), "no amount"),
                            (("set", "valve", "1", "17"), "no number of a level"), (("set", "flow", "1", "5"), "has no levels"),
                            (("watchdog", "valve", "0", "1"), "no number of milliseconds"), (("restart", "nobody"), "no driver of the plan")]:
            self.type(*words)
            self.assertIn(text, self.wait_for(text))

    def test_late_and_twice(self):
        self.type("twice", "roof")
        self.wait_for("two times")
        self.assertEqual([self.say(read(1, BV, 1)), self.next(20.0)], [told(1, BV, 1, b"\x91\x00")] * 2)
        self.type("back", "roof")
        self.wait_for("works again")
        self.type("late", "roof")
        # Its driver waits 50 ms.
        self.wait_for("after 150 ms")
        began = time.monotonic()
        self.assertEqual(self.say(read(2, BV, 1)), told(2, BV, 1, b"\x91\x00"))
        self.assertGreater(time.monotonic() - began, 0.1)

    def test_a_restart_forgets(self):
        self.say(write(1, BV, 1, b"\x91\x01", 10))
        self.type("restart", "roof")
        self.wait_for("restarts")
        began = time.monotonic()
        self.assertIsNone(self.say(read(2, BV, 1), 0.3))
        self.wait_for("has forgotten all values")
        self.assertGreater(time.monotonic() - began, 1.5)
        self.assertEqual(self.say(read(3, BV, 1)), told(3, BV, 1, b"\x91\x00"))

    def test_what_moves_of_itself(self):
        self.say(write(1, AO, 3, real(45.0), 10))
        self.type("drift", "valve", "-0.5")
        self.assertIn("by -0.5 percent", self.wait_for("valve moves"))
        halves = [told(2, AO, 3, real(45.0 - 0.5 * steps)) for steps in range(20)]
        self.assertTrue(eventually(lambda: self.say(read(2, AO, 3)) in halves[2:], 20))
        self.type("back", "valve")
        self.wait_for("works again")
        self.type("watchdog", "valve", "300", "5")
        self.wait_for("not written for 300 ms")
        self.say(write(3, AO, 3, real(45.0), 10))
        began = time.monotonic()
        self.wait_for("falls back to 5.0 percent")
        self.assertGreater(time.monotonic() - began, 0.2)
        self.assertEqual(self.say(read(4, AO, 3)), told(4, AO, 3, real(5.0)))

    def test_a_host_that_does_not_listen(self):
        self.type("refuse", "roof")
        self.wait_for("does not listen")
        with self.assertRaises(ConnectionRefusedError):
            self.say(read(1, BV, 1), 5.0)
        self.type("back", "roof")
        self.wait_for("works again")
        self.assertEqual(self.say(read(2, BV, 1)), told(2, BV, 1, b"\x91\x00"))

    def test_a_list_for_programs(self):
        self.type("quit")
        self.process.wait(20)
        self.begin(self.plan(f"127.0.0.1:{self.port}", PLAN), "--catalogue", os.path.join(self.folder, "plant.toml"), "--json")
        self.assertEqual(self.say(write(1, AO, 3, real(45.0), 10)), acknowledged(1))
        self.assertIn('"came": "taken"', self.wait_for('"request"'))
        self.type("list")
        self.assertIn('"place": "analog-output 3", "value": 45000', self.wait_for('"point": "valve"'))
        self.assertIn('"value": null', self.wait_for('"point": "flow"'))

    def test_the_plan_that_is_written_says_the_same(self):
        self.type("quit")
        self.process.wait(20)
        self.begin(self.plan("192.0.2.1:47808", PLAN), "--catalogue", os.path.join(self.folder, "plant.toml"), "--ports", "0")
        with open(os.path.join(self.folder, "floor.plan.local.toml")) as file:
            text = file.read()
        for line in ('speaks = "bacnet"', "wait = 50", "tries = 1", "check = 60000", "again = 60000", 'bacnet = "analog-output,3"', "level = 12", "network = 2001",
                     "station = 12", "again = 30000", "check = 5000"):
            self.assertIn(f"\n{line}\n", text)

    @unittest.skipUnless(shutil.which("nmap") and os.geteuid() == 0, "no nmap here, or no root")
    def test_nmap_knows_it(self):
        self.type("quit")
        self.process.wait(20)
        with socket.socket(socket.AF_INET, socket.SOCK_DGRAM) as taken:
            try:
                taken.bind(("127.0.0.1", 47_808))
            except OSError:
                self.skipTest("somebody has port 47808")
        self.begin(self.plan("127.0.0.1:47808", PLAN), "--catalogue", os.path.join(self.folder, "plant.toml"))
        ran = subprocess.run(["nmap", "-sU", "-p", "47808", "--script", "bacnet-info", "127.0.0.1"], capture_output=True, text=True, timeout=120)
        for line in ("Vendor Name: bossctl field", "Object-identifier: 1", "Object Name: roof", "Model Name: stand-in"):
            self.assertIn(line, ran.stdout)


if __name__ == "__main__":
    unittest.main()
