"""Tests of a schedule that shows a key, before a server that knows who somebody is by keys; they need no program."""

import os
import subprocess
import tempfile
import unittest

from tests.common import SCHEDULE, eventually, written
from test_keys import KEY, OTHER, Keyed

WEEK = """
zone = "UTC"
process = "weeks"
[[programme]]
name = "air"
points = ["air.damper"]
[[programme.weekly]]
days = "mon tue wed thu fri sat sun"
values = [["00:00", 50]]
"""


class Keys(unittest.TestCase):
    def setUp(self):
        folder = tempfile.TemporaryDirectory()
        self.addCleanup(folder.cleanup)
        self.folder = folder.name

    def begin(self, server, *words):
        file = written(self.folder, WEEK)
        key = written(self.folder, KEY + "\n", "key")
        os.chmod(key, 0o600)
        process = subprocess.Popen(["/usr/bin/python3", os.path.join(SCHEDULE, "bossd-schedule"), file, server.address, "--key", key, *words],
                                   stderr=subprocess.PIPE, text=True)
        self.addCleanup(lambda: (process.kill(), process.communicate()))
        return process

    def server(self, *entries):
        server = Keyed(*entries)
        self.addCleanup(server.close)
        return server

    def test_it_asks_and_attaches_under_its_files_name(self):
        server = self.server(("weeks", KEY))
        self.begin(server)
        self.assertTrue(eventually(lambda: any(one["op"] == "attach" for one in server.firsts())), server.firsts())
        self.assertEqual(set(server.shown), {"weeks"})

    def test_one_that_is_not_taken_is_said(self):
        server = self.server(("weeks", OTHER))
        process = self.begin(server)
        line = next(line for line in process.stderr if "wrong-key" in line)
        self.assertIn("the server has no such key for weeks", line)
        self.assertNotIn(KEY, line)

    def test_a_file_that_others_may_read(self):
        path = written(self.folder, KEY, "open")
        os.chmod(path, 0o644)
        process = self.begin(self.server(("weeks", KEY)), "--key", path)
        self.assertEqual(process.wait(30), 3)


if __name__ == "__main__":
    unittest.main()
