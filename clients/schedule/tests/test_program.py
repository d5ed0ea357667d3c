"""The program itself over a served one: what it holds, a reload, its ends, what it tells, and what it says."""

import json
import os
import signal
import socket
import subprocess
import tempfile
import unittest

from .common import DEFAULTS, PATIENCE, PLANT, SCHEDULE, SECOND, TOP, bossd, eventually, tools, written

from bossd_schedule import main
from bossd_schedule.catalogue import now

HEAD = f'zone = "Europe/Berlin"\ncatalogue = "{PLANT}"\nhold = "10s"\n'
LAMPS = '[[programme]]\nname = "lamps"\npoints = ["hall.lamp", "office.lamp"]\notherwise = 1\n'
DAMPER = '[[programme]]\nname = "damper"\npoints = ["air.damper"]\npriority = 12\notherwise = 45\n'
DAY = """BEGIN:VCALENDAR\r
VERSION:2.0\r
PRODID:t\r
BEGIN:VEVENT\r
UID:1\r
SUMMARY:%s\r
DTSTART:20200101T000000Z\r
DTEND:20990101T000000Z\r
END:VEVENT\r
END:VCALENDAR\r
"""


class Program:
    """The program, started as anybody would."""

    def __init__(self, *words, **more):
        self.log = tempfile.TemporaryFile("w+")
        command = ["/usr/bin/python3", os.path.join(SCHEDULE, "bossd-schedule"), *words]
        self.process = subprocess.Popen(command, stderr=self.log, cwd=TOP, env={**os.environ, **more})

    def said(self):
        self.log.seek(0)
        return self.log.read()

    def end(self, how=signal.SIGTERM):
        """Its status after a signal."""
        if self.process.poll() is None:
            self.process.send_signal(how)
        return self.process.wait(PATIENCE)

    def close(self):
        self.end(signal.SIGKILL)
        self.log.close()


class Case(unittest.TestCase):
    def setUp(self):
        folder = tempfile.TemporaryDirectory()
        self.addCleanup(folder.cleanup)
        self.folder = folder.name
        self.server = tools.Server(PLANT, os.path.join(self.folder, "journal"), workers=8)
        self.server.start()
        self.addCleanup(self.server.stop)
        self.path = os.path.join(self.folder, "week.toml")

    def start(self, text, *words, **more):
        written(self.folder, HEAD + text)
        made = Program(self.path, self.server.address, *words, **more)
        self.addCleanup(made.close)
        return made

    def values(self):
        with bossd.Client(self.server.address) as client:
            return {point: client.read(point).value for point in DEFAULTS}

    def slot(self, point, priority=16):
        with bossd.Client(self.server.address) as client:
            return client.array(point).slots.get(priority)

    def eventually(self, test):
        self.assertTrue(eventually(test))

    def has(self, **values):
        wanted = {**DEFAULTS, **{key.replace("_", "."): value for key, value in values.items()}}
        self.assertTrue(eventually(lambda: self.values() == wanted), (self.values(), wanted))


@unittest.skipIf(os.path.exists("/etc/bossd/plant.toml"), "this machine has a catalogue")
class WithoutACatalogue(Case):
    """On another machine than the server's."""

    TEXT = 'zone = "UTC"\n' + DAMPER

    def test_the_server_tells_it_and_is_waited_for(self):
        self.server.kill()
        made = Program(written(self.folder, self.TEXT), self.server.address)
        self.addCleanup(made.close)
        self.eventually(lambda: f"{self.server.address} does not tell its points" in made.said())
        self.server.start()
        self.eventually(lambda: self.values()["air.damper"] == 45_000)
        # It reads its file by what the server tells also where it is told to read it again.
        written(self.folder, self.TEXT.replace("45", "46"))
        made.process.send_signal(signal.SIGHUP)
        self.eventually(lambda: self.values()["air.damper"] == 46_000)

    def test_a_look_at_the_file(self):
        path = written(self.folder, self.TEXT)
        told = Program(path, self.server.address, "--check")
        self.addCleanup(told.close)
        self.assertEqual(told.process.wait(PATIENCE), 0)
        for words in ((path, "--check"), (path, f"127.0.0.1:{tools.free_port()}", "--check")):
            refused = Program(*words)
            self.addCleanup(refused.close)
            self.assertEqual(refused.process.wait(PATIENCE), 3)


class Held(Case):
    def test_what_is_wanted_is_held_and_let_go_by_a_reload_and_touched_by_none(self):
        program = self.start(LAMPS + DAMPER)
        self.has(hall_lamp=1, office_lamp=1, air_damper=45_000)
        kept = self.slot("hall.lamp").txn, self.slot("air.damper", 12).txn
        written(self.folder, HEAD + LAMPS.replace('["hall.lamp", "office.lamp"]', '["hall.lamp"]') + DAMPER)
        program.process.send_signal(signal.SIGHUP)
        self.has(hall_lamp=1, air_damper=45_000)
        self.assertEqual((self.slot("hall.lamp").txn, self.slot("air.damper", 12).txn), kept)
        written(self.folder, HEAD + LAMPS.replace("otherwise = 1", "otherwise = 2"))
        program.process.send_signal(signal.SIGHUP)
        self.eventually(lambda: "the file is refused, and the one of before goes on" in program.said())
        self.assertIn("otherwise: found 2; hall.lamp takes 0 or 1", program.said())
        self.assertEqual((self.slot("hall.lamp").txn, self.slot("air.damper", 12).txn), kept)
        self.has(hall_lamp=1, air_damper=45_000)

    def test_at_its_end_what_it_held_stays_for_hold(self):
        program = self.start(LAMPS)
        self.has(hall_lamp=1, office_lamp=1)
        self.assertEqual(program.end(), 0)
        ended = now()
        # By the server: no lease is left, and the value stays for ten seconds from the end on.
        self.eventually(lambda: self.slot("hall.lamp").until is None)
        slot = self.slot("hall.lamp")
        self.assertEqual(slot.value, 1)
        self.assertLessEqual(slot.end, ended + 10 * SECOND)
        self.start(LAMPS)
        self.eventually(lambda: self.slot("hall.lamp") is not None and self.slot("hall.lamp").until is not None)
        self.has(hall_lamp=1, office_lamp=1)

    def test_a_server_that_is_away_at_first_and_later(self):
        self.server.stop()
        program = self.start(LAMPS)
        self.eventually(lambda: "does not answer" in program.said())
        self.server.start()
        self.has(hall_lamp=1, office_lamp=1)
        txn = self.slot("hall.lamp").txn
        self.server.kill()
        self.server.start()
        self.has(hall_lamp=1, office_lamp=1)
        self.assertEqual(self.slot("hall.lamp").txn, txn)
        # A new journal: what was held is held anew.
        self.server.kill()
        self.server.journal = os.path.join(self.folder, "anew")
        self.server.start()
        self.has(hall_lamp=1, office_lamp=1)

    def test_rules_that_deny_it(self):
        rules = written(self.folder, '[[rule]]\nprocess = "schedule"\npoint = "hall.*"\nallow = false\n[[rule]]\nprocess = "*"\npoint = "*"\n', "rules.toml")
        self.server.stop()
        self.server.rules = rules
        self.server.start()
        program = self.start(LAMPS)
        self.has(office_lamp=1)
        self.eventually(lambda: "hall.lamp at priority 16: the server refused it: denied by rule 1" in program.said())
        self.server.kill()
        self.server.rules = "-"
        self.server.start()
        self.has(hall_lamp=1, office_lamp=1)

    def test_another_copy_ends_with_4(self):
        self.start(LAMPS)
        self.has(hall_lamp=1, office_lamp=1)
        before, main.TAKEN_FOR = main.TAKEN_FOR, 0.0
        try:
            with self.assertRaises(SystemExit) as ended:
                main.main([self.path, self.server.address])
        finally:
            main.TAKEN_FOR = before
            for one in (signal.SIGTERM, signal.SIGINT, signal.SIGHUP):
                signal.signal(one, signal.SIG_DFL)
            signal.signal(signal.SIGINT, signal.default_int_handler)
        self.assertEqual(ended.exception.code, 4)

    def test_a_file_that_is_refused_at_first_ends_it_with_3(self):
        program = self.start(LAMPS.replace("hall", "hell"))
        self.assertEqual(program.process.wait(PATIENCE), 3)
        self.assertEqual(self.values(), DEFAULTS)


class Told(Case):
    def told(self, name):
        try:
            with open(os.path.join(self.folder, "state", name), encoding="utf-8") as file:
                return file.read()
        except FileNotFoundError:
            return ""

    def metrics(self):
        lines = [line for line in self.told("schedule.prom").splitlines() if not line.startswith("#")]
        return {name: float(value) for name, _, value in (line.rpartition(" ") for line in lines)}

    def begin(self, text, **more):
        os.mkdir(os.path.join(self.folder, "state"))
        return self.start(text, "--state", os.path.join(self.folder, "state"), **more)

    def test_metrics_and_what_is_coming(self):
        program = self.begin(LAMPS + DAMPER)
        self.has(hall_lamp=1, office_lamp=1, air_damper=45_000)
        self.eventually(lambda: self.metrics().get("bossd_schedule_up") == 1)
        found = self.metrics()
        self.assertEqual([found[f'bossd_schedule_slots{{state="{state}"}}'] for state in ("held", "yielded", "refused", "unset")], [3, 0, 0, 0])
        self.assertEqual((found["bossd_schedule_reload_ok"], found['bossd_schedule_requests_total{op="submit",outcome="ok"}']), (1, 2))
        self.assertGreater(found["bossd_schedule_next_change_timestamp_seconds"], now() / 1000)
        coming = json.loads(self.told("coming.json"))
        self.assertEqual([(one["points"], one["priority"], one["programme"]) for one in coming["coming"]],
                         [(["hall.lamp", "office.lamp"], 16, "lamps"), (["air.damper"], 12, "damper")])
        first, last, value, why = coming["coming"][1]["spans"][0]
        self.assertEqual((last - first, value, why), (8 * 86_400_000, 45_000, "damper: otherwise"))
        self.assertEqual((coming["process"], coming["zone"], coming["sentence"], coming["yielded"]), ("schedule", "Europe/Berlin", None, []))
        with bossd.Client(self.server.address, "bossctl") as client:
            client.submit([bossd.write("hall.lamp", 0, lease=600_000)])
            self.eventually(lambda: self.metrics().get('bossd_schedule_slots{state="yielded"}') == 1)
            self.eventually(lambda: [(one["point"], one["by"]) for one in json.loads(self.told("coming.json"))["yielded"]] == [("hall.lamp", "bossctl")])
        written(self.folder, HEAD + "x")
        program.process.send_signal(signal.SIGHUP)
        self.eventually(lambda: self.metrics().get("bossd_schedule_reload_ok") == 0)
        self.eventually(lambda: "no TOML" in (json.loads(self.told("coming.json"))["sentence"] or ""))

    def test_systemd_is_told_once_all_is_held(self):
        address = os.path.join(self.folder, "notify")
        with socket.socket(socket.AF_UNIX, socket.SOCK_DGRAM) as told:
            told.bind(address)
            told.settimeout(PATIENCE)
            self.start(LAMPS, NOTIFY_SOCKET=address)
            found = []
            while "READY=1" not in found:
                found += told.recv(4096).decode().splitlines()
            self.assertEqual(self.values()["hall.lamp"], 1)
            self.assertEqual(told.recv(4096), b"WATCHDOG=1")

    def test_a_calendar_that_changes_is_read(self):
        ics = written(self.folder, DAY % "Party", "rooms.ics")
        text = LAMPS.replace("otherwise = 1\n", "") + '[[programme.event]]\nfile = "rooms.ics"\nmatch = "Meeting"\nset = 1\n'
        program = self.begin(text)
        self.eventually(lambda: "holds 0 of 0 points" in program.said())
        written(self.folder, DAY % "Meeting", "rooms.new")
        os.replace(os.path.join(self.folder, "rooms.new"), ics)
        self.assertTrue(eventually(lambda: self.values()["hall.lamp"] == 1, main.LOOK + PATIENCE))
        written(self.folder, "no calendar", "rooms.ics")
        self.assertTrue(eventually(lambda: "what was read before goes on" in program.said(), main.LOOK + PATIENCE))
        self.assertEqual(self.values()["hall.lamp"], 1)
        self.assertTrue(eventually(lambda: f'bossd_schedule_calendar_ok{{calendar="{ics}",zone="Europe/Berlin"}} 0' in self.told("schedule.prom"), PATIENCE))


if __name__ == "__main__":
    unittest.main()
