"""Tests of a console that shows a key, before a stub that knows who somebody is by keys; they need no program."""

import json
import os
import re
import tempfile
import unittest
import urllib.error
import urllib.request

from tests.common import Console, eventually
from tests.stub import Stub

KEY, OTHER = "bk1_" + "k" * 43, "bk1_" + "o" * 43


class Keys(unittest.TestCase):
    def setUp(self):
        folder = tempfile.TemporaryDirectory()
        self.addCleanup(folder.cleanup)
        self.folder = folder.name
        self.stub = Stub()
        self.addCleanup(self.stub.stop)

    def file(self, text, mode=0o600):
        path = os.path.join(self.folder, "key")
        with open(path, "w") as file:
            file.write(text + "\n")
        os.chmod(path, mode)
        return path

    def console(self, *words):
        made = Console(self.stub.address, *words)
        self.addCleanup(made.stop)
        return made

    def told(self, console):
        with urllib.request.urlopen(console.address + "api/points") as answer:
            text = answer.read().decode()
        self.assertNotIn(KEY, text)
        return json.loads(text)["server"]

    def until(self, console, state):
        self.assertTrue(eventually(lambda: self.told(console)["state"] == state), self.told(console))

    def test_it_looks_under_its_own_name(self):
        self.stub.keys = {"console": KEY}
        console = self.console("--key", self.file(KEY))
        self.until(console, "up")
        self.assertEqual(set(self.stub.shown), {"console"})

    def test_it_looks_and_changes_under_its_operators(self):
        self.stub.keys = {"operator": KEY}
        console = self.console("--key", self.file(KEY), "--operator", "operator")
        self.until(console, "up")
        before = len(self.stub.shown)
        body = {"id": "1", "point": "ahu1.damper", "value": 40_000, "priority": 8, "length": 60_000, "revert": []}
        request = urllib.request.Request(console.address + "api/take", json.dumps(body).encode(), {
            "Content-Type": "application/json", "Authorization": f"Bearer {console.token}"})
        # The stub denies each submit, of who was let in.
        with self.assertRaises(urllib.error.HTTPError) as caught:
            urllib.request.urlopen(request)
        self.assertEqual(json.loads(caught.exception.read())["error"], "denied")
        caught.exception.close()
        self.assertEqual(set(self.stub.shown), {"operator"})
        self.assertGreater(len(self.stub.shown), before)

    def test_a_key_that_is_not_taken(self):
        self.stub.keys = {"console": OTHER}
        console = self.console("--key", self.file(KEY))
        self.until(console, "keyless")
        self.assertEqual(self.told(console)["sentence"],
                         "The server does not take this console's key. (wrong-key: the server has no such key for console)")
        # It goes on once that is mended, by a key that is read anew.
        self.file(OTHER)
        self.until(console, "up")

    def test_none_and_one_that_others_may_read(self):
        self.stub.keys = {"console": KEY}
        self.until(self.console("--key", self.file("")), "keyless")
        console = self.console("--key", self.file(KEY, 0o644))
        self.assertTrue(re.fullmatch("", console.greeting))
        self.assertEqual(console.process.wait(30), 1)


if __name__ == "__main__":
    unittest.main()
