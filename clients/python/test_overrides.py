"""Tests of overrides that stand, against the built program: python3 -m unittest, in this folder."""

import getpass
import json
import os
import signal
import subprocess
import sys
import time
import unittest

import bossd
from bossd.overrides import BRIDGE, Damaged, NotMade, Store, asked
from test_bossd import CATALOGUE, Case, damper, eventually
from test_ctl import Folder

HERE = os.path.dirname(os.path.abspath(__file__))


class Standing(Case, Folder):
    def setUp(self):
        Folder.setUp(self)
        Case.setUp(self)
        self.socket, self.kept = os.path.join(self.folder, "socket"), os.path.join(self.folder, "overrides.json")
        self.service = None
        self.addCleanup(lambda: self.end(signal.SIGKILL))
        self.begin()

    def launch(self):
        words = [sys.executable, "-m", "bossd.overrides", self.server.address, "--file", self.kept, "--socket", self.socket]
        return subprocess.Popen(words, cwd=HERE, stderr=subprocess.PIPE, text=True)

    def begin(self):
        self.service = self.launch()
        # It says how many stand once it has taken them again.
        for line in self.service.stderr:
            if "overrides stand" in line:
                return
        self.fail("the service ended")

    def end(self, how=signal.SIGTERM):
        if self.service is not None:
            self.service.send_signal(how)
            self.service.communicate(timeout=20)
            self.service = None

    def ask(self, do, **more):
        return asked(self.socket, {"do": do, **more})

    def reading(self, point="ahu1.damper"):
        with bossd.Client(self.server.address) as client:
            read = client.read(point)
        return read.value, read.basis

    def why(self):
        return [one["why"] for one in self.ask("list")["ended"]]

    def bossctl(self, *words):
        return self.run_here(*words, "--server", self.server.address, "--catalogue", CATALOGUE, "--overrides", self.socket)

    def test_it_stands_when_whoever_set_it_is_gone_and_is_found(self):
        status, out, _ = self.bossctl("set", "ahu1.damper", "80", "--detach", "--note", "filter change")
        self.assertEqual(status, 0, out)
        self.assertEqual(self.reading(), (80_000, "lease"))
        [one] = self.ask("list")["overrides"]
        self.assertEqual((one["who"], one["note"], one["until"], one["priority"]), (getpass.getuser(), "filter change", None, 8))
        self.assertLess(abs(one["at"] - time.time() * 1000), 10_000)
        status, out, _ = self.bossctl("overrides")
        self.assertEqual((status, "filter change" in out, getpass.getuser() in out, "1 stand" in out), (0, True, True, True), out)

    def test_it_outlives_the_service_and_the_server(self):
        self.ask("set", point="ahu1.damper", value=80_000)
        # As long as nobody else holds the point its value stays while the service is away.
        for how in (signal.SIGKILL, signal.SIGTERM):
            self.end(how)
            self.assertTrue(eventually(lambda: self.reading() == (80_000, "pending")))
            with bossd.Client(self.server.address) as client:
                left = client.array("ahu1.damper").slots[8].end - time.time() * 1000
            self.assertLess(abs(left - BRIDGE), 15_000)
            self.begin()
            self.assertEqual(self.reading(), (80_000, "lease"))
        self.server.kill()
        self.server.start()
        self.assertTrue(eventually(lambda: self.reading() == (80_000, "lease")))
        self.assertEqual([one["value"] for one in self.ask("list")["overrides"]], [80_000])

    def test_what_ended_with_a_connection_is_taken_again(self):
        """Another journal: the server knows nothing of it."""
        self.ask("set", point="ahu1.damper", value=80_000)
        self.server.kill()
        self.server.journal = os.path.join(self.folder, "new")
        self.server.start()
        self.assertTrue(eventually(lambda: self.reading() == (80_000, "lease"), 15))

    def test_released_it_goes_its_way_back(self):
        self.ask("set", point="ahu1.damper", value=80_000, back=[[50_000, 60_000]])
        status, out, _ = self.bossctl("release", "ahu1.damper")
        self.assertEqual((status, "80.0" in out), (0, True), out)
        self.assertEqual(self.reading(), (50_000, "pending"))
        self.assertEqual(self.ask("list")["overrides"], [])
        with self.assertRaises(NotMade) as caught:
            self.ask("release", point="ahu1.damper")
        self.assertEqual(caught.exception.error, "none")

    def test_its_time_is_over(self):
        self.ask("set", point="ahu1.damper", value=80_000, until=int(time.time() * 1000) + 1_500)
        self.assertEqual(self.reading(), (80_000, "lease"))
        self.assertTrue(eventually(lambda: self.reading() == (20_000, "default"), 10))
        self.assertTrue(eventually(lambda: self.why() == ["its time was over"]))

    def test_it_is_prolonged(self):
        until = int(time.time() * 1000) + 2_000
        self.ask("set", point="ahu1.damper", value=80_000, until=until)
        self.assertEqual(self.ask("prolong", point="ahu1.damper", until=until + 3_600_000)["until"], until + 3_600_000)
        time.sleep(3)
        self.assertEqual(self.reading(), (80_000, "lease"))

    def test_who_takes_its_slot_has_it(self):
        self.ask("set", point="ahu1.damper", value=80_000)
        self.client("comfort").submit([damper(40_000)])
        self.assertTrue(eventually(lambda: self.ask("list")["overrides"] == []))
        self.assertEqual(self.reading(), (40_000, "lease"))
        self.assertIn("took its slot", self.why()[0])

    def test_who_took_its_slot_meanwhile_keeps_it(self):
        self.ask("set", point="ahu1.damper", value=80_000)
        self.end()
        self.client("comfort").submit([damper(40_000)])
        self.begin()
        self.assertEqual((self.reading(), self.why()), ((40_000, "lease"), ["comfort holds its slot"]))

    def test_another_one_in_its_place(self):
        for value in (80_000, 30_000):
            self.ask("set", point="ahu1.damper", value=value)
        self.assertEqual(([one["value"] for one in self.ask("list")["overrides"]], self.reading()), ([30_000], (30_000, "lease")))
        self.assertEqual(([one["value"] for one in self.ask("list")["ended"]], self.why()),
                         ([80_000], [f"{getpass.getuser()} set another one in its place"]))

    def test_what_is_refused_is_not_kept(self):
        self.ask("set", point="ahu1.damper", value=80_000)
        for more, error in [({"point": "ahu1.damper", "value": 100_001}, "out-of-range"), ({"point": "door", "value": 1}, "unknown-point"),
                            ({"point": "lamp", "value": 1, "priority": 6}, "bad-priority"), ({"point": "lamp"}, "malformed"),
                            ({"point": "lamp", "value": 1, "back": [[0, 1]] * 8}, "malformed")]:
            with self.subTest(error), self.assertRaises(NotMade) as caught:
                self.ask("set", **more)
            self.assertEqual(caught.exception.error, error)
        self.assertEqual(([one["value"] for one in self.ask("list")["overrides"]], self.reading()), ([80_000], (80_000, "lease")))
        with open(self.kept) as file:
            self.assertEqual([one["value"] for one in json.load(file)["overrides"]], [80_000])
        for words in (("unheard",), ()):
            with self.assertRaises(NotMade):
                self.ask(*words) if words else asked(self.socket, {})

    def test_a_second_service_is_refused(self):
        second = self.launch()
        _, aside = second.communicate(timeout=20)
        self.assertEqual((second.returncode, "another bossd-overrides has it" in aside), (1, True), aside)
        self.assertEqual(self.ask("list")["process"], "people")

    def test_words(self):
        self.assertEqual(self.bossctl("set", "lamp", "on")[0], 2)
        self.assertEqual(self.bossctl("set", "lamp", "on", "--detach", "--as", "me")[0], 2)
        status, _, aside = self.run_here("overrides", "--catalogue", CATALOGUE, "--overrides", os.path.join(self.folder, "nowhere"))
        self.assertEqual((status, "bossd-overrides" in aside), (1, True))


class Kept(Folder):
    def test_no_file_and_a_file_that_is_none(self):
        self.assertEqual(Store(os.path.join(self.folder, "none")).told(), {"overrides": [], "ended": []})
        for broken in ("{", "", "[]", "{}", '{"overrides":[{}],"ended":[]}', '{"overrides":5,"ended":[]}'):
            with self.subTest(broken), self.assertRaises(Damaged) as caught:
                Store(self.file("broken", broken))
            self.assertIn("broken is no file of overrides", str(caught.exception))

    def test_faulty_words_and_a_damaged_file_have_statuses_of_their_own(self):
        for address, kept, status, said in (("nowhere", "", 2, "has no port"), ("127.0.0.1:0", "", 2, "is no port"), ("127.0.0.1:1", "{", 3, "is no file of overrides")):
            words = [sys.executable, "-m", "bossd.overrides", address, "--file", self.file("kept", kept), "--socket", os.path.join(self.folder, "s")]
            ended = subprocess.run(words, cwd=HERE, stderr=subprocess.PIPE, text=True, timeout=20)
            self.assertEqual((ended.returncode, said in ended.stderr), (status, True), ended.stderr)
            self.assertFalse(os.path.exists(os.path.join(self.folder, "s")))


if __name__ == "__main__":
    unittest.main()
