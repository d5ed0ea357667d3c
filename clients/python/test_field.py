"""Tests of `bossctl field`, alone and as the devices of the built program: python3 -m unittest, in this folder. The frames are those of
the public documents: MODBUS Application Protocol 1.1b3 (6.5 writes coil 173, 6.6 writes register 2, 7 has the exceptions), and MODBUS
Messaging on TCP/IP 1.0b (the header of 4.4.1.1, whose unit is 255)."""

import json
import os
import queue
import re
import shutil
import signal
import socket
import struct
import subprocess
import sys
import tempfile
import threading
import time
import unittest
from fractions import Fraction

import bossd
from bossd.ctl import _forms
from test_bossd import CATALOGUE, MINUTE, common, eventually

HERE = os.path.dirname(os.path.abspath(__file__))
# The Python of the system, which has Debian's packages.
PYTHON = "/usr/bin/python3"
# As the documents' examples have them: coil 173 is address 172, register 2 is address 1.
PLAN = """
[[driver]]
name = "field"
host = "{}"

[[place]]
point = "lamp"
unit = 255
coil = 172

[[place]]
point = "fan"
unit = 255
register = 1

[[place]]
point = "ahu1.damper"
unit = 1
register = 2
per = 1000
"""
# The damper as a binary32 whose low half stands first, the fan in a register with a sign, the lamp by the function for several.
FORMS = """
[[driver]]
name = "field"
host = "{}"
wait = 500

[[place]]
point = "lamp"
unit = 1
coil = 19
function = 15

[[place]]
point = "fan"
unit = 1
register = 9
type = "i16"
function = 16

[[place]]
point = "ahu1.damper"
unit = 1
register = 1
type = "f32"
first = "low"
per = 1000
"""
HEADER = "1501 0000 0006 ff"
LAMP_ON, LAMP_OFF = HEADER + "05 00ac ff00", HEADER + "05 00ac 0000"
FAN_HIGH = HEADER + "06 0001 0003"
DAMPER = "0002 0000 0006 01 06 0002 002d"
LINE = re.compile(r"\d\d:\d\d:\d\d\.\d{3}  (\S+) +(.*\S)")


def refusal(function, code, header="1501 0000 0003 ff"):
    """The exception to a function: its code with the highest bit set, and the cause (7)."""
    return bytes.fromhex(header) + bytes([function + 0x80, code])


class Case(unittest.TestCase):
    def setUp(self):
        folder = tempfile.TemporaryDirectory()
        self.addCleanup(folder.cleanup)
        self.folder = folder.name

    def plan(self, host, text=PLAN):
        path = os.path.join(self.folder, "floor.plan.toml")
        with open(path, "w") as file:
            file.write(text.format(host))
        return path

    def launch(self, *words):
        environment = {**os.environ, "PYTHONPATH": HERE, "PYTHONUNBUFFERED": "1"}
        process = subprocess.Popen([sys.executable, "-m", "bossd.ctl", "field", "--catalogue", CATALOGUE, *words], env=environment, cwd=self.folder,
                                   stdin=subprocess.PIPE, stdout=subprocess.PIPE, stderr=subprocess.STDOUT, text=True)
        for cleanup in (process.stdout.close, process.stdin.close, process.wait, process.kill):
            self.addCleanup(cleanup)
        return process

    def ended(self, *words):
        """What a command writes that ends by itself, and its status."""
        process = self.launch(*words)
        out, _ = process.communicate(timeout=30)
        return out, process.returncode


class Begun(Case):
    """A field at a free port, and connections to it."""

    def setUp(self):
        super().setUp()
        self.port = common.free_port()
        self.begin(self.plan(f"127.0.0.1:{self.port}"))

    def begin(self, *words):
        self.process = self.launch(*words)
        self.lines = queue.Queue()
        threading.Thread(target=self.read, args=(self.process.stdout, self.lines), daemon=True).start()
        self.wait_for("Type help" if "--json" not in words else '"drivers"')

    @staticmethod
    def read(stream, lines):
        try:
            for line in stream:
                lines.put(line.rstrip("\n"))
        except ValueError:
            pass

    def wait_for(self, text):
        """The next line with this text in it."""
        while True:
            line = self.lines.get(timeout=20)
            if text in line:
                return line

    def type(self, *words):
        self.process.stdin.write(" ".join(words) + "\n")
        self.process.stdin.flush()

    def connect(self):
        made = socket.create_connection(("127.0.0.1", self.port), timeout=20)
        self.addCleanup(made.close)
        return made

    def ask(self, frame, connection=None, length=None):
        """What a request is answered: so many bytes, or as many as an echo has."""
        connection = connection or self.connect()
        sent = bytes.fromhex(frame)
        connection.sendall(sent)
        return self.receive(connection, length or len(sent))

    @staticmethod
    def receive(connection, length):
        data = b""
        while len(data) < length:
            more = connection.recv(length - len(data))
            if not more:
                break
            data += more
        return data

    def is_silent(self, connection, seconds=0.5):
        connection.settimeout(seconds)
        try:
            return connection.recv(1) is None
        except socket.timeout:
            return True
        finally:
            connection.settimeout(20)

    def shown(self, point):
        """The next line about this point, without the moment and the name."""
        while True:
            found = LINE.fullmatch(self.lines.get(timeout=20))
            if found and found[1] == point and "connect" not in found[2]:
                return re.split(r"\s{2,}", found[2])


class Field(Begun):
    # ---- frames

    def test_a_write_is_answered_by_itself(self):
        connection = self.connect()
        for frame in (LAMP_ON, LAMP_OFF, FAN_HIGH, DAMPER):
            self.assertEqual(self.ask(frame, connection), bytes.fromhex(frame))
        self.assertEqual(self.shown("lamp"), ["unit 255 coil 172 = on", "1", "taken"])
        self.assertEqual(self.shown("lamp"), ["unit 255 coil 172 = off", "0", "taken"])
        self.assertEqual(self.shown("fan"), ["unit 255 register 1 = 3", "3", "taken"])
        self.assertEqual(self.shown("ahu1.damper"), ["unit 1 register 2 = 45", "45.0", "taken"])

    def test_other_requests_are_refused(self):
        connection = self.connect()
        for frame, function, code in [
            (HEADER + "04 0008 0001", 4, 1),        # a function that is not served: read input registers, the example of 6.4
            (HEADER + "03 0004 0001", 3, 2),        # no place at this register: the example of 4.4.1.1
            (HEADER + "01 04a1 0001", 1, 2),        # no place at this coil: the example of 7
            (HEADER + "03 0001 0000", 3, 3),        # none (6.3)
            (HEADER + "03 0001 0002", 3, 2),        # one of two
            ("1501 0000 0008 ff 0f 00ac 0001 02 00", 15, 3),    # one coil, two bytes (6.11)
            ("1501 0000 0009 ff 10 0001 0002 02 0001", 16, 3),  # two registers, two bytes (6.12)
            (HEADER + "05 00ac 0001", 5, 3),        # neither on nor off (6.5)
            (HEADER + "05 00ad ff00", 5, 2),        # no place at this coil
            (HEADER + "05 0001 ff00", 5, 2),        # a register, and no coil
            (HEADER + "06 0002 0001", 6, 2),        # the place of another unit
            ("1501 0000 0005 ff 06 0001 00", 6, 3), # too short (7, code 3)
        ]:
            with self.subTest(frame):
                self.assertEqual(self.ask(frame, connection, 9), refusal(function, code))
        self.assertEqual(self.ask(LAMP_ON, connection), bytes.fromhex(LAMP_ON))

    def test_however_it_is_cut(self):
        connection = self.connect()
        for byte in bytes.fromhex(LAMP_ON):
            connection.sendall(bytes([byte]))
            time.sleep(0.01)
        self.assertEqual(self.receive(connection, 12), bytes.fromhex(LAMP_ON))
        two = LAMP_OFF + FAN_HIGH
        self.assertEqual(self.ask(two, connection), bytes.fromhex(two))
        connection.sendall(bytes.fromhex(LAMP_ON)[:8])
        connection.close()
        self.wait_for("the connection ended")
        self.assertEqual(self.ask(LAMP_ON), bytes.fromhex(LAMP_ON))

    def test_what_is_no_modbus_ends_its_connection(self):
        for sent in (b"GET / HTTP/1.1\r\n\r\n", bytes.fromhex("0001 0001 0006 01 06 0002 002d"), bytes.fromhex("0001 0000 0001 01"),
                     bytes.fromhex("0001 0000 00ff 01")):
            connection = self.connect()
            connection.sendall(sent)
            self.assertEqual(self.receive(connection, 1), b"")
            self.wait_for("no Modbus TCP")

    # ---- words

    def test_a_point_fails_and_comes_back(self):
        connection = self.connect()
        self.ask(FAN_HIGH, connection)
        self.type("fail", "fan")
        self.assertEqual(self.wait_for("fan fails"), "fan fails with code 2, illegal data address")
        self.assertEqual(self.ask(HEADER + "06 0001 0001", connection, 9), refusal(6, 2))
        self.assertEqual(self.shown("fan")[-1], "refused with code 2, illegal data address")
        self.assertEqual(self.ask(LAMP_ON, connection), bytes.fromhex(LAMP_ON))
        self.type("list")
        self.assertRegex(self.wait_for("register 1 "), r"fan +field +127.0.0.1:\d+ +unit 255 register 1 +3 +\S+ +fails with code 2")
        self.type("fail", "fan", "6")
        self.wait_for("code 6, server device busy")
        self.assertEqual(self.ask(FAN_HIGH, connection, 9), refusal(6, 6))
        self.type("back", "fan")
        self.wait_for("fan works again")
        self.assertEqual(self.ask(FAN_HIGH, connection), bytes.fromhex(FAN_HIGH))

    def test_a_point_or_a_host_is_silent(self):
        connection = self.connect()
        self.type("silent", "lamp")
        self.wait_for("lamp is silent")
        connection.sendall(bytes.fromhex(LAMP_ON))
        self.assertTrue(self.is_silent(connection))
        self.assertEqual(self.shown("lamp")[-1], "no answer")
        self.assertEqual(self.ask(FAN_HIGH, connection), bytes.fromhex(FAN_HIGH))
        self.type("silent", "field")
        self.wait_for("is silent")
        connection.sendall(bytes.fromhex(FAN_HIGH + HEADER + "03 0004 0001"))
        self.assertTrue(self.is_silent(connection))
        self.type("back")
        self.wait_for("field at")
        self.assertEqual(self.ask(LAMP_ON, connection), bytes.fromhex(LAMP_ON))

    def test_a_host_fails_each_write(self):
        self.type("fail", "field")
        self.wait_for("fails with code 2")
        self.assertEqual(self.ask(LAMP_ON, length=9), refusal(5, 2))
        self.assertEqual(self.ask(DAMPER, length=9), refusal(6, 2, "0002 0000 0003 01"))
        self.assertEqual(self.ask(HEADER + "04 0008 0001", length=9), refusal(4, 1))
        self.assertEqual(self.ask(HEADER + "03 0001 0001", length=9), refusal(3, 2))

    def test_a_host_refuses_and_comes_back(self):
        connection = self.connect()
        self.ask(LAMP_ON, connection)
        self.type("refuse", "field")
        self.wait_for("refuses connections")
        try:
            self.assertEqual(connection.recv(1), b"")
        except ConnectionResetError:
            pass
        with self.assertRaises(ConnectionRefusedError):
            self.connect()
        self.type("back", "field")
        self.wait_for("works again")
        self.assertEqual(self.ask(LAMP_ON), bytes.fromhex(LAMP_ON))

    def test_words_that_are_none(self):
        for words, text in [(("paint", "fan"), "no such words"), (("fail",), "no such words"), (("silent", "fan", "2"), "no such words"),
                            (("fail", "fan", "300"), "no code"), (("fail", "door"), "no point and no driver"), (("refuse", "fan"), "refuse field")]:
            self.type(*words)
            self.assertIn(text, self.lines.get(timeout=20))
        self.type("help")
        self.wait_for("refuse DRIVER")

    def test_it_ends(self):
        self.type("quit")
        self.assertEqual(self.process.wait(20), 0)
        self.begin(self.plan(f"127.0.0.1:{self.port}"))
        self.connect()
        self.process.send_signal(signal.SIGINT)
        self.assertEqual(self.process.wait(20), 0)
        self.begin(self.plan(f"127.0.0.1:{self.port}"))
        self.process.stdin.close()
        self.assertEqual(self.ask(LAMP_ON), bytes.fromhex(LAMP_ON))

    def test_json(self):
        self.type("quit")
        self.process.wait(20)
        self.begin(self.plan(f"127.0.0.1:{self.port}"), "--json")
        self.ask(DAMPER)
        told = json.loads(self.wait_for('"request"'))
        self.assertEqual((told["points"], told["unit"], told["request"], told["response"], told["came"]),
                         (["ahu1.damper"], 1, "060002002d", "060002002d", "taken"))


class Forms(Begun):
    """Coils and registers by the functions that write several, in forms of two registers, and read back."""

    def setUp(self):
        Case.setUp(self)
        self.port = common.free_port()
        self.begin(self.plan(f"127.0.0.1:{self.port}", FORMS))

    def test_several_are_answered_by_their_count(self):
        connection = self.connect()
        for sent, answered in [
            ("0001 0000 000b 01 10 0001 0002 04 0000 4236", "0001 0000 0006 01 10 0001 0002"),
            ("0002 0000 0006 01 03 0001 0002", "0002 0000 0007 01 03 04 0000 4236"),
            ("0003 0000 0008 01 0f 0013 0001 01 01", "0003 0000 0006 01 0f 0013 0001"),
            ("0004 0000 0006 01 01 0013 0001", "0004 0000 0004 01 01 01 01"),
            ("0005 0000 0009 01 10 0009 0001 02 fffe", "0005 0000 0006 01 10 0009 0001"),
            ("0006 0000 0006 01 06 0001 8000", "0006 0000 0006 01 06 0001 8000"),
            ("0007 0000 0006 01 03 0001 0002", "0007 0000 0007 01 03 04 8000 4236"),
        ]:
            answered = bytes.fromhex(answered)
            self.assertEqual(self.ask(sent, connection, len(answered)), answered, sent)
        lines = [self.shown("ahu1.damper"), self.shown("ahu1.damper"), self.shown("lamp"), self.shown("lamp"), self.shown("fan")]
        self.assertEqual(lines, [["unit 1 register 1 = 45.5", "45.5", "taken"], ["unit 1 register 1 read", "45.5", "read"],
                                 ["unit 1 coil 19 = on", "1", "taken"], ["unit 1 coil 19 read", "1", "read"], ["unit 1 register 9 = -2", "-2", "taken"]])
        # One register of two is a word, and stands for no value.
        self.assertEqual([self.shown("ahu1.damper"), self.shown("ahu1.damper")],
                         [["unit 1 register 1 = 32768", "-", "taken"], ["unit 1 register 1 read", "45.625", "read"]])

    @unittest.skipUnless(shutil.which("mbpoll"), "no mbpoll here")
    def test_mbpoll_reads_it(self):
        self.type("set", "ahu1.damper", "45.5")
        self.type("set", "lamp", "on")
        self.wait_for("lamp is 1")
        for words, text in [(("-r", "1", "-t", "4:float"), "[1]: \t45.5"), (("-r", "19", "-t", "0"), "[19]: \t1")]:
            ran = subprocess.run(["mbpoll", "-m", "tcp", "-p", str(self.port), "-a", "1", "-0", *words, "-1", "127.0.0.1"], capture_output=True, text=True,
                                 timeout=60)
            self.assertIn(text, ran.stdout)

    def test_pymodbus_reads_it(self):
        """Two registers and a coil, by a client of its own."""
        script = ("import sys; from pymodbus.client import ModbusTcpClient as Client; it = Client('127.0.0.1', port=int(sys.argv[1])); it.connect();"
                  "print(it.read_holding_registers(1, 2, 1).registers, it.read_coils(19, 1, 1).bits[0], it.read_coils(20, 1, 1).function_code)")
        if subprocess.run([PYTHON, "-c", "import pymodbus.client"], stderr=subprocess.DEVNULL).returncode:
            self.skipTest("no pymodbus here")
        self.type("set", "ahu1.damper", "45.5")
        self.type("set", "lamp", "on")
        self.wait_for("lamp is 1")
        ran = subprocess.run([PYTHON, "-c", script, str(self.port)], capture_output=True, text=True, timeout=60)
        # 45.5 is 42360000 as a binary32, and its low half stands first. A coil that is none is exception 2, of function 129.
        self.assertEqual(ran.stdout, "[0, 16950] True 129\n", ran.stderr)

    def test_a_restart_forgets(self):
        connection = self.connect()
        self.assertEqual(self.ask("0001 0000 0006 01 06 0009 0003", connection), bytes.fromhex("0001 0000 0006 01 06 0009 0003"))
        self.type("restart", "field")
        self.wait_for("restarts")
        began = time.monotonic()
        connection.sendall(bytes.fromhex("0002 0000 0006 01 03 0009 0001"))
        self.wait_for("has forgotten all values")
        self.assertGreater(time.monotonic() - began, 1.5)
        try:
            self.assertEqual(connection.recv(1), b"")
        except ConnectionResetError:
            pass
        answered = bytes.fromhex("0003 0000 0005 01 03 02 0000")
        self.assertEqual(self.ask("0003 0000 0006 01 03 0009 0001", length=len(answered)), answered)

    def test_late_and_twice(self):
        connection, answered = self.connect(), bytes.fromhex("0003 0000 0005 01 03 02 0000")
        self.type("twice", "field")
        self.wait_for("two times")
        self.assertEqual(self.ask("0003 0000 0006 01 03 0009 0001", connection, 2 * len(answered)), answered * 2)
        self.type("back", "field")
        self.wait_for("works again")
        self.type("late", "field")
        # Its driver waits 500 ms.
        self.wait_for("after 600 ms")
        began = time.monotonic()
        self.assertEqual(self.ask("0003 0000 0006 01 03 0009 0001", connection, len(answered)), answered)
        self.assertGreater(time.monotonic() - began, 0.55)

    def test_what_moves_of_itself(self):
        self.type("set", "fan", "1")
        self.wait_for("fan is 1")
        self.type("drift", "fan", "1")
        self.wait_for("fan moves by 1 each second")
        self.assertTrue(eventually(lambda: self.ask("0003 0000 0006 01 03 0009 0001", length=11)[-1] == 3, 20))
        self.type("back", "fan")
        self.wait_for("fan works again")
        self.type("watchdog", "fan", "200", "2")
        self.assertIn("200 ms", self.wait_for("fan falls back to 2 where"))
        self.wait_for("  falls back to 2")
        self.assertEqual(self.ask("0003 0000 0006 01 03 0009 0001", length=11)[-1], 2)

    def test_a_hand_turns_a_device(self):
        connection = self.connect()
        self.type("set", "ahu1.damper", "30")
        self.assertIn("by hand: unit 1 register 1 = 30", self.wait_for("ahu1.damper is 30.0"))
        self.type("set", "lamp", "1")
        self.wait_for("lamp is 1 by hand: unit 1 coil 19 = on")
        answered = bytes.fromhex("0002 0000 0007 01 03 04 0000 41f0")
        self.assertEqual(self.ask("0002 0000 0006 01 03 0001 0002", connection, len(answered)), answered)
        for words, text in [(("set", "fan", "7"), "wanted a state"), (("set", "door", "1"), "no point of the plan"), (("set", "fan"), "no such words")]:
            self.type(*words)
            self.wait_for(text)

    def test_the_plan_that_is_written_says_the_same(self):
        self.type("quit")
        self.process.wait(20)
        scaled = FORMS.replace('type = "i16"', 'type = "i16"\noffset = -5\nround = "nearest"')
        self.begin(self.plan("192.0.2.1:502", scaled), "--ports", "0")
        with open(os.path.join(self.folder, "floor.plan.local.toml")) as file:
            text = file.read()
        for line in ("wait = 500", "function = 15", 'type = "f32"', 'first = "low"', "offset = -5", 'round = "nearest"'):
            self.assertIn(line, text)


class Numbers(unittest.TestCase):
    """Numbers in registers, against Python's own binary32 and by hand."""

    def test_a_binary32_is_the_nearest(self):
        for number, bits in [((1, 10), 0x3dcccccd), ((16_777_217, 1), 0x4b800000), ((16_777_219, 1), 0x4b800002), ((-215, 10), 0xc1ac0000),
                             ((1, 1000), 0x3a83126f), ((0, 5), 0), ((2**63 - 1, 1), 0x5f000000)]:
            self.assertEqual(_forms.single(Fraction(*number)), bits, number)
        for thousandths in range(-100_000, 100_000, 37):
            self.assertEqual(_forms.single(Fraction(thousandths, 1000)), int.from_bytes(struct.pack(">f", thousandths / 1000), "big"))

    def test_each_form_comes_back(self):
        for form, value, words in [("u16", 45, [45]), ("i16", -215, [65_321]), ("u32", 4_294_967_295, [65_535, 65_535]), ("i32", -100_000, [65_534, 31_072])]:
            self.assertEqual((_forms.Scale(form).words(value), _forms.Scale(form).value(words)), (words, value))
        low = _forms.Scale("i32", True)
        self.assertEqual((low.words(-100_000), low.value([31_072, 65_534])), ([31_072, 65_534], -100_000))
        self.assertFalse(_forms.Scale("i16").fits(32_768))

    def test_scales(self):
        for scale, value, whole in [(_forms.Scale(per=1000), 45_900, 45), (_forms.Scale(per=1000, is_nearest=True), 45_900, 46),
                                    (_forms.Scale(per=1000), -500, -1), (_forms.Scale(per=1000, is_nearest=True), -500, 0),
                                    (_forms.Scale(times=9, per=5000, offset=32), 21_500, 70), (_forms.Scale(times=9, per=5000, offset=32, is_nearest=True), 21_500, 71)]:
            self.assertEqual(scale.whole(value), whole, scale)


class Driven(Begun):
    """The program with this field as its devices."""

    def setUp(self):
        super().setUp()
        plan = os.path.join(self.folder, "floor.plan.toml")
        server = common.Server(CATALOGUE, plan=plan)
        server.start(stderr=subprocess.DEVNULL)
        self.addCleanup(server.stop)
        self.client = bossd.Client(server.address, "comfort")
        self.addCleanup(self.client.close)

    def marks(self, mark, *points):
        return eventually(lambda: all(self.client.read(point).mark == mark for point in points), 15)

    def test_each_point_is_written_at_the_start(self):
        self.assertTrue(self.marks("settled", "ahu1.damper", "lamp", "fan"))
        lines = {name: self.shown(name) for name in ("ahu1.damper", "lamp", "fan")}
        self.assertEqual(lines, {"ahu1.damper": ["unit 1 register 2 = 20", "20.0", "taken"], "lamp": ["unit 255 coil 172 = off", "0", "taken"],
                                 "fan": ["unit 255 register 1 = 1", "1", "taken"]})

    def test_a_fan_fails_and_comes_back(self):
        self.assertTrue(self.marks("settled", "ahu1.damper", "lamp", "fan"))
        self.type("fail", "fan")
        self.wait_for("fan fails")
        self.client.submit([bossd.write("fan", 3, lease=10 * MINUTE),
                            bossd.write("ahu1.damper", 45_900, lease=10 * MINUTE, revert=[(30_000, 10 * MINUTE)])])
        self.assertTrue(eventually(lambda: {(it.kind, it.point, it.cause) for it in self.client.notices().list} == {
            ("fault", "fan", None), ("ended", "fan", "fault"), ("ended", "ahu1.damper", "fault")}, 15))
        self.assertTrue(self.marks("settled", "ahu1.damper"))
        self.assertEqual(self.client.read("ahu1.damper").value, 30_000)
        # The fan has its default again, and the device does not take that either.
        self.assertTrue(self.marks("failed", "fan"))
        self.type("back", "fan")
        self.wait_for("works again")
        self.assertTrue(self.marks("settled", "fan"))

    def test_a_host_that_refuses_and_comes_back(self):
        self.assertTrue(self.marks("settled", "ahu1.damper", "lamp", "fan"))
        self.type("refuse", "field")
        self.wait_for("refuses")
        self.client.submit([bossd.write("lamp", 1, lease=10 * MINUTE)], "keep")
        self.assertTrue(self.marks("failed", "lamp"))
        self.type("back")
        self.wait_for("works again")
        self.assertTrue(self.marks("settled", "lamp"))
        self.assertEqual(self.client.read("lamp").value, 1)


class Plans(Case):
    """Which plans are served, and where."""

    def test_hosts_elsewhere_want_ports(self):
        plan = self.plan("192.0.2.10:502")
        out, status = self.ended(plan)
        self.assertEqual((status, "field is at 192.0.2.10:502" in out, "--ports 1502" in out), (1, True, True))
        process = self.launch(plan, "--ports", "0")
        self.assertEqual(process.stdout.readline(), "floor.plan.local.toml has the same places at hosts of this machine.\n")
        host = re.fullmatch(r"field: (127\.0\.0\.1:\d+), 3 points\n", process.stdout.readline())[1]
        with open(os.path.join(self.folder, "floor.plan.local.toml")) as file:
            written = file.read()
        first, _, rest = written.partition("\n")
        self.assertTrue(first.startswith("#"))
        self.assertEqual(rest, PLAN.format(host))

    def test_it_overwrites_its_own_files_alone(self):
        plan = self.plan("192.0.2.10:502")
        for _ in range(2):
            process = self.launch(plan, "--ports", "0", "--to", "mine.toml")
            self.assertIn("mine.toml has the same places", process.stdout.readline())
            process.kill()
            process.wait()
        out, status = self.ended(plan, "--ports", "0", "--to", os.path.basename(plan))
        self.assertEqual((status, "was not made by bossctl field" in out), (1, True))
        with open(plan) as file:
            self.assertEqual(file.read(), PLAN.format("192.0.2.10:502"))

    def test_plans_that_are_refused(self):
        out, status = self.ended(self.plan("127.0.0.1:1502", PLAN.replace("unit = 1\n", "unit = 256\n")))
        self.assertEqual((status, "unit: found 256" in out, "bossctl lint" in out), (1, True, True))
        out, status = self.ended(self.plan("127.0.0.1"))
        self.assertEqual((status, "has no port" in out), (1, True))
        with socket.create_server(("127.0.0.1", 0)) as taken:
            out, status = self.ended(self.plan(f"127.0.0.1:{taken.getsockname()[1]}"))
        self.assertEqual((status, "cannot be listened at" in out), (1, True))
        self.assertEqual(self.ended("/nowhere")[1], 1)

    def test_the_example(self):
        plan = os.path.join(common.EXAMPLES, "plant.plan.toml")
        process = self.launch(plan, "--ports", "0", "--catalogue", os.path.join(common.EXAMPLES, "plant.toml"))
        lines = [process.stdout.readline() for _ in range(3)]
        self.assertRegex(lines[1], r"air: 127\.0\.0\.1:\d+, 4 points\n")
        self.assertRegex(lines[2], r"light: 127\.0\.0\.1:\d+, 2 points\n")


if __name__ == "__main__":
    unittest.main()
