"""Tests of the bridge's own file: what it says, and every mistake in it."""

import os
import subprocess
import tempfile
import unittest
from unittest import mock

from tests import common

from bossd.ctl import _served
from bossd.ctl._served import NoAnswer
from bossd.ctl._show import Catalogue, Point
from bossd.ctl._toml import Failure
from bossd_mqtt.settings import Broker, Settable, password_of, read_settings

GOOD = f'base = "site/north"\ncatalogue = "{common.CATALOGUE}"\n'


class Case(unittest.TestCase):
    def setUp(self):
        folder = tempfile.TemporaryDirectory()
        self.addCleanup(folder.cleanup)
        self.folder, self.path = folder.name, os.path.join(folder.name, "north.toml")

    def read(self, text):
        with open(self.path, "w", encoding="utf-8") as file:
            file.write(text)
        return read_settings(self.path)

    def settings(self, more="", top=""):
        settings, findings = self.read(f"{GOOD}{top}\n{more}")
        self.assertEqual([finding.sentence() for finding in findings], [])
        return settings

    def findings(self, text):
        """Whether it is refused, and the sentences without the file's name."""
        settings, findings = self.read(text)
        return settings is None, [finding.sentence().removeprefix(self.path) for finding in findings]


class WhoTells(Case):
    """Where the file names no catalogue, and this machine has none."""

    LAMP = Point("hall.lamp", "hall", "binary", 0, 1, 0)

    def setUp(self):
        super().setUp()
        none = mock.patch.object(_served, "DEFAULT", os.path.join(self.folder, "none.toml"))
        none.start()
        self.addCleanup(none.stop)
        self.read('base = "site/north"\n')

    def test_the_server_tells(self):
        settings, findings = read_settings(self.path, lambda: Catalogue("192.0.2.1:7000", {"hall.lamp": self.LAMP}, bytes(32)))
        self.assertEqual(([one.sentence() for one in findings], list(settings.points), settings.catalogue.path), ([], ["hall.lamp"], "192.0.2.1:7000"))

    def test_it_does_not_answer(self):
        with self.assertRaises(NoAnswer):
            read_settings(self.path, mock.Mock(side_effect=NoAnswer("away")))

    def test_nobody_tells(self):
        for ask, words in ((None, "no SERVER is named"), (mock.Mock(side_effect=Failure("a bossd of before")), "a bossd of before")):
            settings, findings = read_settings(self.path, ask)
            self.assertEqual((settings, len(findings)), (None, 1))
            self.assertIn(words, findings[0].sentence())

    def test_it_is_not_asked_for_nothing(self):
        self.read(GOOD)
        ask = mock.Mock()
        self.assertEqual((read_settings(self.path, ask)[0].catalogue.path, ask.called), (common.CATALOGUE, False))


class WhatItSays(Case):
    def test_a_mirror(self):
        settings = self.settings()
        self.assertEqual((settings.topics.base, settings.topics.discovery, settings.process), ("site/north", "homeassistant", "mqtt"))
        self.assertEqual((settings.every, settings.until_every, settings.rate, settings.journal, settings.settable), (1_000, 30_000, 50, None, {}))
        self.assertEqual(settings.broker, Broker("127.0.0.1", 1883, "bossd-site-north", 15_000, 600_000))
        self.assertEqual(list(settings.points), ["air.damper", "air.fan", "room.set-point", "lamp"])
        self.assertFalse(any(point.settable for point in settings.points.values()))

    def test_the_first_table_that_has_a_point_counts(self):
        settings = self.settings('[[set]]\npoints = ["air.*"]\nlasts = "30m"\nlease = "1m"\nhold = "20s"\nback = { "air.fan" = [[2, "1h"]] }\n'
                                 '[[set]]\npoints = ["air.damper", "lamp"]\npriority = 16\nback = []\n')
        self.assertEqual(settings.settable, {
            "air.damper": Settable(12, 60_000, 1_800_000, 20_000, ()), "air.fan": Settable(12, 60_000, 1_800_000, 20_000, ((2, 3_600_000),)),
            "lamp": Settable(16, 300_000, 28_800_000, 60_000, ())})
        self.assertEqual([name for name, point in settings.points.items() if point.settable], ["air.damper", "air.fan", "lamp"])

    def test_values_are_in_units(self):
        settings = self.settings('[[set]]\npoints = ["room.set-point"]\nback = [[21.5, "1h"], [20, "1h30m"]]\n'
                                 '[[set]]\npoints = ["lamp"]\nback = [[true, "1s"], [0, "1d"]]\n')
        self.assertEqual(settings.settable["room.set-point"].back, ((21_500, 3_600_000), (20_000, 5_400_000)))
        self.assertEqual(settings.settable["lamp"].back, ((1, 1_000), (0, 86_400_000)))

    def test_points(self):
        settings = self.settings('[[point]]\nname = "air.fan"\nstates = ["off", "low", "high"]\n[[point]]\nname = "air.damper"\nstep = 0.001\n'
                                 'class = "humidity"\n[[point]]\nname = "lamp"\nclass = "light"\nhidden = true\n')
        self.assertEqual((settings.points["air.fan"].states, settings.points["air.damper"].step, settings.points["air.damper"].device_class),
                         (("off", "low", "high"), 1, "humidity"))
        self.assertEqual((settings.points["lamp"].hidden, settings.points["lamp"].device_class), (True, "light"))

    def test_the_broker(self):
        settings = self.settings('[broker]\naddress = "[::1]:8883"\nuser = "u"\npassword_file = "/p"\nca_file = "/c"\ncert_file = "/d"\nkey_file = "/k"\n'
                                 'client_id = "x"\nkeepalive = "5s"\ngrace = "0s"\n', top='discovery = ""\nprocess = "gate"\nevery = "200ms"\n'
                                 'until_every = "1h"\nrate = 1000\njournal = "/j"\n')
        self.assertEqual(settings.broker, Broker("::1", 8883, "x", 5_000, 0, "u", "/p", "/c", "/d", "/k"))
        self.assertEqual((settings.topics.discovery, settings.process, settings.every, settings.until_every, settings.rate, settings.journal),
                         ("", "gate", 200, 3_600_000, 1_000, "/j"))


class Mistakes(Case):
    def test_of_the_top(self):
        for line, sentence in (
                ('base = "a+"', ':1: base: found "a+"; 1 to 128 of A-Z a-z 0-9 _ -, in levels with / between'),
                ("", ": base: found nothing; 1 to 128 of A-Z a-z 0-9 _ -, in levels with / between"),
                ('base = "a"\ndiscovery = "#"', ':2: discovery: found "#"; 1 to 64 of A-Z a-z 0-9 _ -, in levels with / between, or "" for none'),
                ('base = "a"\nprocess = "A"', ':2: process: found "A"; 1 to 64 characters of a-z 0-9 . _ -'),
                ('base = "a"\nevery = "100ms"', ':2: every: found "100ms"; a length of time, 200ms to 1m, as "1s"'),
                ('base = "a"\nevery = 1', ':2: every: found 1; a length of time, 200ms to 1m, as "1s"'),
                ('base = "a"\nuntil_every = "0s"', ':2: until_every: found "0s"; a length of time, 1s to 1h, as "30s"'),
                ('base = "a"\nrate = 0', ":2: rate: found 0; changes a second in all, 1 to 1000"),
                ('base = "a"\njournal = ""', ':2: journal: found ""; a path'),
                ('base = "a"\nset = 1', ":2: set: found 1; an array of tables [[set]]"),
                ('base = "a"\npoint = [1]', ":2: point[0]: found 1; a table [[point]]")):
            is_refused, said = self.findings(f'{line}\ncatalogue = "{common.CATALOGUE}"\n')
            self.assertTrue(is_refused, line)
            self.assertIn(sentence, said)

    def test_a_catalogue_that_is_none(self):
        self.assertEqual(self.findings('base = "a"\ncatalogue = "/nowhere/plant.toml"\n'), (True, [
            ":2: catalogue: /nowhere/plant.toml: no such file; --catalogue or BOSSD_CATALOGUE names the server's catalogue"]))

    def test_of_the_broker(self):
        for lines, sentence in (
                ('address = "here"', ':4: broker.address: found "here"; HOST:PORT, as 127.0.0.1:1883'),
                ("address = 1", ":4: broker.address: found 1; HOST:PORT, as 127.0.0.1:1883"),
                ('password = "x"', ":4: broker.password: found a password; password_file, a file that has it: this one may be read by others"),
                ('password_file = "x"', ":4: broker.password_file: found password_file without user; user too"),
                ('ca_file = "c"\ncert_file = "x"', ":5: broker.cert_file: found cert_file without key_file; both, or neither"),
                ('cert_file = "x"\nkey_file = "y"', ":4: broker.cert_file: found cert_file without ca_file; ca_file too"),
                ('client_id = "a b"', ':4: broker.client_id: found "a b"; 1 to 64 characters of A-Z a-z 0-9 _ -'),
                ('keepalive = "1s"', ':4: broker.keepalive: found "1s"; a length of time, 5s to 10m, as "15s"'),
                ('grace = "2d"', ':4: broker.grace: found "2d"; a length of time, 0s to 1d, as "10m"')):
            self.assertEqual(self.findings(f"{GOOD}[broker]\n{lines}\n"), (True, [sentence]), lines)

    def test_of_what_may_be_set(self):
        for lines, sentence in (
                ("", ":3: set[0]: points: found nothing; an array of 1 to 4096 patterns: each a name, or the beginning of names and *"),
                ('points = ["nix.*"]', f':4: set[0]: points.0: found "nix.*"; no point of {common.CATALOGUE} has it'),
                ('points = ["A"]', ':4: set[0]: points.0: found "A"; a name, or the beginning of names and *'),
                ('points = ["lamp"]\npriority = 8', ":5: set[0]: priority: found 8; 9 to 16; one before that wants high = true"),
                ('points = ["lamp"]\npriority = 6\nhigh = true', ":5: set[0]: priority: found 6; 1 to 16 but not 6"),
                ('points = ["lamp"]\nlease = "10s"', ':5: set[0]: lease: found "10s"; a length of time, 30s to 1h, as "5m"'),
                ('points = ["lamp"]\nlasts = "8d"', ':5: set[0]: lasts: found "8d"; a length of time, 1m to 7d, as "8h"'),
                ('points = ["lamp"]\nback = [[2, "1h"]]', ':5: set[0]: back.0: found [2, "1h"]; [value, length]: lamp takes 0 or 1, for 1s to 1d'),
                ('points = ["room.*"]\nback = [[20, "1h"], [4.9, "1h"]]',
                 ':5: set[0]: back.1: found [4.9, "1h"]; [value, length]: room.set-point takes 5.0 to 30.0 degC, in steps of 0.001, for 1s to 1d'),
                ('points = ["lamp"]\nback = [[1, "500ms"]]', ':5: set[0]: back.0: found [1, "500ms"]; [value, length]: lamp takes 0 or 1, for 1s to 1d'),
                ('points = ["lamp"]\nback = [1]', ":5: set[0]: back.0: found 1; [value, length]: lamp takes 0 or 1, for 1s to 1d"),
                ('points = ["lamp"]\nback = { "air.fan" = [] }', ':5: set[0]: back.air.fan: found "air.fan"; a pattern that a point of this table '
                 "has, and no pattern before it")):
            self.assertEqual(self.findings(f"{GOOD}[[set]]\n{lines}\n"), (True, [sentence]), lines)

    def test_of_points(self):
        for lines, sentence in (
                ('name = "nix"', f':4: point[0]: name: found "nix"; a point of {common.CATALOGUE}'),
                ('name = "lamp"\nstep = 1', ':5: point[0] "lamp": step: found 1; of an analog point, in units, at least 0.001'),
                ('name = "air.damper"\nstep = 0.0005', ':5: point[0] "air.damper": step: found 0.0005; of an analog point, in units, at least 0.001'),
                ('name = "air.fan"\nstates = ["a", "b"]',
                 ':5: point[0] "air.fan": states: found an array of 2; of a point of states, 3 texts of 1 to 32 characters without { }, each once, '
                 'none "None"'),
                ('name = "air.fan"\nclass = "light"', ':5: point[0] "air.fan": class: found "light"; "", or a class that this point may have: none'),
                ('name = "lamp"\nhidden = 1', ':5: point[0] "lamp": hidden: found 1; true or false'),
                ('name = "lamp"\n[[point]]\nname = "lamp"', ':6: point[1]: name: found "lamp" again; a point that no earlier table has')):
            self.assertEqual(self.findings(f"{GOOD}[[point]]\n{lines}\n"), (True, [sentence]), lines)
        for states in ('["a", "b", "a"]', '["a", "b", "None"]', '["a", "b", "{"]', '["a", "b", ""]', '["a", "b", 3]'):
            self.assertTrue(self.findings(f'{GOOD}[[point]]\nname = "air.fan"\nstates = {states}\n')[0], states)

    def test_what_is_passed_over(self):
        for lines, sentence in (
                ('owner = "Ann"', ":3: owner: (passed over) found a key that nothing reads; known here are base, discovery, catalogue, process, every, "
                 "journal, until_every, rate, broker, set, point"),
                ('[broker]\naddress = "192.0.2.1:1883"\nuser = "u"\npassword_file = "p"',
                 ":6: broker.password_file: (passed over) found a password for another host, without TLS; whoever hears the network has it: ca_file "
                 "turns TLS on"),
                ('[[set]]\npoints = ["lamp"]\nhold = "5s"',
                 ':5: set[0]: hold: (passed over) found "5s"; devices move when the bridge is started again: 10s outlasts that'),
                ('[[set]]\npoints = ["lamp"]\nhigh = true\npriority = 5',
                 ":6: set[0]: priority: (passed over) found priority 5; minimum times are passed over there")):
            self.assertEqual(self.findings(f"{GOOD}{lines}\n"), (False, [sentence]), lines)

    def test_a_misspelt_key_is_a_mistake(self):
        self.assertEqual(self.findings(f"{GOOD}rates = 1\n"), (True, [":3: rates: found a key that nothing reads; is rate meant?"]))

    def test_what_is_no_toml(self):
        self.assertTrue(self.findings("base = \n")[0])
        with self.assertRaises(Failure):
            read_settings(os.path.join(self.folder, "nowhere.toml"))


class Passwords(Case):
    def password(self, data):
        path = os.path.join(self.folder, "password")
        with open(path, "wb") as file:
            file.write(data)
        return password_of(Broker("h", 1, "c", 1, 1, "u", path))

    def test_a_line(self):
        self.assertEqual((self.password(b"secret\n"), self.password(b" s "), self.password(b"x" * 1_024)), ("secret", " s ", "x" * 1_024))
        self.assertIsNone(password_of(Broker("h", 1, "c", 1, 1)))

    def test_what_is_none(self):
        for data in (b"", b"\n", b"a\nb\n", b"x" * 1_025, b"\xff"):
            with self.assertRaises(Failure, msg=data) as failure:
                self.password(data)
            self.assertNotIn("xxx", str(failure.exception))

    def test_a_credential_of_the_unit(self):
        os.environ["CREDENTIALS_DIRECTORY"] = self.folder
        self.addCleanup(os.environ.pop, "CREDENTIALS_DIRECTORY")
        with open(os.path.join(self.folder, "p"), "w", encoding="utf-8") as file:
            file.write("s\n")
        self.assertEqual(password_of(Broker("h", 1, "c", 1, 1, "u", "%d/p")), "s")


class TheCommand(Case):
    def run_it(self, *words):
        return subprocess.run([os.path.join(common.MQTT, "bossd-mqtt"), *words], capture_output=True, text=True, timeout=60)

    def write(self, text):
        self.read(text)
        return self.path

    def test_statuses(self):
        good, path = self.write(GOOD), self.path
        self.assertEqual(self.run_it(good, "--check").returncode, 0)
        self.assertEqual(self.run_it(good).returncode, 2)
        self.assertEqual(self.run_it(good, "nowhere").returncode, 2)
        self.assertEqual(self.run_it(good, "--check", "--show").returncode, 2)
        self.assertEqual(self.run_it(path + ".none", "--check").returncode, 3)
        self.assertEqual(self.run_it(self.write(f'{GOOD}[broker]\nca_file = "/nowhere/ca"\n'), "127.0.0.1:1").returncode, 5)
        ran = self.run_it(self.write(f'{GOOD}[broker]\nuser = "u"\npassword_file = "/nowhere/p"\n'), "127.0.0.1:1")
        self.assertEqual((ran.returncode, ran.stderr), (5, "bossd-mqtt: /nowhere/p: No such file or directory\n"))
        ran = self.run_it(self.write(f"{GOOD}rate = 0\n"), "--check")
        self.assertEqual((ran.returncode, ran.stdout), (3, f"{path}:3: rate: found 0; changes a second in all, 1 to 1000\n"))
        self.assertEqual(self.run_it(path, "127.0.0.1:1").returncode, 3)

    def test_the_example(self):
        with open(os.path.join(common.TOP, "examples", "plant.mqtt.toml"), encoding="utf-8") as file:
            text = file.read()
        self.assertIn('"/etc/bossd/plant.toml"', text)
        example = self.write(text.replace("/etc/bossd/plant.toml", os.path.join(common.TOP, "examples", "plant.toml")))
        self.assertEqual((self.run_it(example, "--check").returncode, self.run_it(example, "--check").stdout), (0, ""))
        shown = self.run_it(example, "--show").stdout.splitlines()
        for line in ("site/north/availability", "site/north/point/air.damper/value", "site/north/point/air.damper/set"):
            self.assertIn(line, shown)
        self.assertNotIn("site/north/point/air.heating/set", shown)
        self.assertEqual(len([line for line in shown if line.startswith("homeassistant/")]), 7)     # six points, and the bridge's own


if __name__ == "__main__":
    unittest.main()
