"""Tests of which catalogue the console goes by: over answers that are told to it, and against the built program. No browser."""

import asyncio
import contextlib
import glob
import hashlib
import http.client
import io
import json
import os
import tempfile
import unittest

from tests.common import CATALOGUE, MINUTE, PATIENCE, Case, bossd
from tests.stub import Stub

from bossd_console.catalogue import Failure, read_catalogue
from bossd_console.knowing import Knowing

LAMP = {"point": "lamp", "kind": "binary", "default": 0, "driver": "hall", "min_on": 60_000, "min_off": 0}
VALVE = {"point": "valve", "kind": "analog", "min": -500, "max": 90_000, "default": 0, "driver": "hall"}
FILE = """drivers = ["hall"]
[[point]]
name = "lamp"
driver = "hall"
kind = "binary"
default = 0
min_on = 60000
note = "north door"
[[point]]
name = "valve"
driver = "hall"
kind = "analog"
min = -500
max = 90000
default = 0
unit = "%"
"""


def digest_of(*lines):
    return hashlib.sha256("".join(f"{line}\n" for line in lines).encode()).hexdigest()


# The canonical texts, as docs/FORMATS.md has them.
BOTH = digest_of("d hall", "p lamp hall binary 0 1 0 60000 0", "p valve hall analog -500 90000 0")
LAMP_ALONE = digest_of("d hall", "p lamp hall binary 0 1 0 60000 0")


class Told(unittest.TestCase):
    def setUp(self):
        folder = tempfile.TemporaryDirectory()
        self.addCleanup(folder.cleanup)
        self.file = os.path.join(folder.name, "plant.toml")
        self.digest, self.points, self.asked = BOTH, [LAMP, VALVE], []

    def written(self, text):
        with open(self.file, "w") as file:
            file.write(text)
        return self.file

    async def ask(self, requests):
        request, = requests
        self.asked.append(request["op"])
        return [self.answer(request)]

    def answer(self, request):
        if request["op"] == "version":
            return {"ok": "version", "program": "0.3.0", "journal": 3, "digest": self.digest, "points": len(self.points), "drivers": 1}
        part = self.points[request["from"]:request["from"] + 1]
        return {"ok": "points", "digest": self.digest, "drivers": ["hall"], "count": len(self.points), "next": request["from"] + len(part), "list": part}

    def found(self, knowing):
        """Whether the catalogue became another one, and what was written."""
        aside = io.StringIO()
        with contextlib.redirect_stderr(aside):
            return asyncio.run(knowing.is_another(self.ask)), aside.getvalue()

    def test_without_a_file(self):
        knowing = Knowing("192.0.2.1:7000", None)
        self.assertEqual((dict(knowing.catalogue.points), self.found(knowing)), ({}, (True, "")))
        lamp, valve = knowing.catalogue.points.values()
        self.assertEqual((lamp.kind, lamp.min_on, lamp.min_off, lamp.range()), ("binary", 60_000, 0, "0 or 1"))
        self.assertEqual((valve.least, valve.most, valve.show(-500)), (-500, 90_000, "-0.5"))
        self.assertEqual(self.found(knowing), (False, ""))
        self.assertEqual(self.asked, ["version", "points", "points", "version"])

    def test_a_file_of_the_same_digest(self):
        knowing = Knowing("192.0.2.1:7000", self.written(FILE))
        self.assertEqual((self.found(knowing), self.asked), ((False, ""), ["version"]))
        self.assertEqual((knowing.catalogue.points["lamp"].note, knowing.catalogue.points["valve"].unit), ("north door", "%"))

    def test_a_file_of_another_digest(self):
        knowing = Knowing("192.0.2.1:7000", self.written(FILE.replace("90000", "80000")))
        is_another, aside = self.found(knowing)
        self.assertEqual((is_another, len(aside.splitlines()), knowing.catalogue.points["valve"].most), (True, 1, 90_000))
        self.assertIn("is not the catalogue that 192.0.2.1:7000 serves", aside)
        # It is said once, and not at each look.
        self.assertEqual(self.found(knowing), (False, ""))

    def test_a_server_that_comes_back_with_another_one(self):
        knowing = Knowing("192.0.2.1:7000", self.written(FILE))
        self.found(knowing)
        self.digest, self.points = LAMP_ALONE, [LAMP]
        self.assertTrue(self.found(knowing)[0])
        self.assertEqual(list(knowing.catalogue.points), ["lamp"])
        # By then the file may be the new one.
        self.written(FILE)
        self.digest, self.points = BOTH, [LAMP, VALVE]
        self.assertEqual(self.found(knowing), (True, ""))
        self.assertEqual(knowing.catalogue.points["lamp"].note, "north door")

    def test_a_server_of_before(self):
        self.answer = lambda request: bossd.UnknownOp({"error": "unknown-op"})
        with self.assertRaisesRegex(Failure, "name a copy of its catalogue"):
            self.found(Knowing("192.0.2.1:7000", None))
        knowing = Knowing("192.0.2.1:7000", self.written(FILE))
        self.assertEqual((self.found(knowing), len(knowing.catalogue.points)), ((False, ""), 2))

    def test_a_disk_that_failed(self):
        self.answer = lambda request: bossd.Stopped({"error": "stopped"})
        self.assertEqual(self.found(Knowing("192.0.2.1:7000", None)), (False, ""))


class Shown(Case):
    """The page's answers, before a server that is started."""

    def points(self, console):
        return {one["name"]: one for one in console.ask("/api/points")[1]["points"]}

    def test_no_file_and_then_another_catalogue(self):
        with open(CATALOGUE) as file:
            text = file.read()
        own = read_catalogue(CATALOGUE)
        console = self.console(catalogue=None)
        self.eventually(lambda: self.points(console).keys() == own.points.keys())
        damper = self.eventually(lambda: self.points(console)["ahu1.damper"] if "value" in self.points(console)["ahu1.damper"] else None)
        self.assertEqual((damper["min"], damper["max"], damper["unit"], damper["note"]), (0, 100_000, "", ""))
        self.assertEqual(console.ask("/api/points")[1]["digest"], own.digest.hex())
        self.assertNotIn("added", self.points(console))
        link = http.client.HTTPConnection("127.0.0.1", console.port, timeout=PATIENCE)
        self.addCleanup(link.close)
        link.request("GET", "/api/changes")
        stream = link.getresponse()
        self.server.kill()
        self.server.catalogue, self.server.journal = os.path.join(self.folder, "more.toml"), os.path.join(self.folder, "anew")
        with open(self.server.catalogue, "w") as file:
            file.write(text + '\n[[point]]\nname = "added"\ndriver = "%s"\nkind = "binary"\ndefault = 1\n' % own.points["ahu1.damper"].driver)
        self.server.start()
        self.eventually(lambda: self.points(console).get("added", {}).get("value") == 1)
        # A page that listens is sent all anew.
        sent = [json.loads(line[5:]) for line in self.lines_up_to(stream, b'"added"')]
        self.assertIn("added", [one["name"] for one in sent[-1]["points"]])

    def test_a_day_by_the_journal_of_what_the_server_tells(self):
        """The journal is read by the points that the server tells, and anew where it comes back with other ones."""
        client = self.client("comfort")
        console = self.console("--journal", self.server.journal, catalogue=None)
        client.submit([bossd.write("ahu1.damper", 35_000, lease=MINUTE)])
        self.eventually(lambda: self.day(console, "ahu1.damper")[-1:] == [[35_000, "lease", 16, "comfort"]])
        client.close()
        self.server.kill()
        for name in glob.glob(self.server.journal + "*"):
            os.remove(name)
        with open(CATALOGUE) as file:
            points = file.read()
        self.server.catalogue = os.path.join(self.folder, "more.toml")
        with open(self.server.catalogue, "w") as file:
            file.write(points.replace("[[point]]", '[[point]]\nname = "added"\ndriver = "light"\nkind = "binary"\ndefault = 1\n\n[[point]]', 1))
        self.server.start()
        self.client("comfort").submit([bossd.write("ahu1.damper", 40_000, lease=MINUTE), bossd.write("added", 0, lease=MINUTE)])
        # The new point is the first one, so the place of each other one is the next.
        self.eventually(lambda: self.day(console, "ahu1.damper")[-1:] == [[40_000, "lease", 16, "comfort"]])
        self.assertEqual(self.day(console, "ahu1.damper")[0][:2], [20_000, "default"])
        self.assertEqual(self.day(console, "added"), [[1, "default", None, None], [0, "lease", 16, "comfort"]])

    def day(self, console, point):
        """The changes of a point's day, without their moments."""
        return [change[1:] for change in console.ask(f"/api/points/{point}/history")[1].get("changes", [])]

    def lines_up_to(self, stream, word):
        lines = []
        while not lines or word not in lines[-1]:
            line = stream.readline()
            self.assertTrue(line)
            lines += [line] if line.startswith(b"data:") else []
        return lines


class Before(unittest.TestCase):
    def test_a_server_that_tells_nothing_wants_a_file(self):
        from tests.common import Console
        stub = Stub()
        self.addCleanup(stub.stop)
        console = Console(stub.address, catalogue=None)
        self.addCleanup(console.stop)
        self.assertEqual(console.process.wait(PATIENCE), 1)


if __name__ == "__main__":
    unittest.main()
