"""Tests of changes that bossd-overrides holds, against the built program: no browser."""

import time
import unittest

from tests.common import MINUTE, Case, bossd

DAMPER = "ahu1.damper"


class Standing(Case):
    def setUp(self):
        super().setUp()
        self.service = self.overrides()

    def with_overrides(self, operator="alice"):
        return self.console("--operator", operator, "--overrides", self.service.socket)

    def take(self, console, **more):
        return console.change("take", **{"id": "c-1", "point": DAMPER, "value": 90_000, "length": MINUTE, **more})

    def test_it_outlives_the_console_and_says_who_set_it(self):
        console = self.with_overrides()
        status, taken = self.take(console, stands=True)
        self.assertEqual((status, taken["until"]), (200, None), taken)
        console.stop()
        time.sleep(1.5)
        with bossd.Client(self.server.address) as client:
            self.assertEqual((client.read(DAMPER).value, client.read(DAMPER).basis), (90_000, "lease"))
        other = self.with_overrides("bob")
        self.assertEqual(other.ask("/api/points")[1]["operator"], "people")
        point = self.eventually(lambda: (lambda it: it if it.get("override") else None)(other.point(DAMPER)))
        self.assertRegex(point["override"]["who"], " for alice$")
        self.assertLess(abs(point["override"]["at"] - time.time() * 1000), 60_000)
        self.assertIsNone(point["override"]["until"])
        # Whoever finds it ends it.
        self.assertEqual(other.change("release", id="c-2", point=DAMPER, txn=point["txn"])[0], 200)
        self.eventually(lambda: other.point(DAMPER)["from"] == "default" and "override" not in other.point(DAMPER))

    def test_taken_prolonged_and_asked_twice(self):
        console = self.with_overrides()
        status, taken = self.take(console)
        self.assertEqual((status, self.take(console)[1]["txn"]), (200, taken["txn"]))
        self.assertLess(abs(taken["until"] - time.time() * 1000 - MINUTE), 30_000)
        status, told = console.change("prolong", id="c-2", point=DAMPER, txn=taken["txn"], length=5 * MINUTE)
        self.assertGreater(told["until"], taken["until"] + 3 * MINUTE)
        # It lasts at least so long, and no shorter.
        self.assertEqual(console.change("prolong", id="c-3", point=DAMPER, txn=taken["txn"], length=MINUTE)[1]["until"], told["until"])
        self.assertEqual(console.change("release", id="c-4", point=DAMPER, txn=taken["txn"] + 7)[0], 409)

    def test_what_is_refused(self):
        console = self.with_overrides()
        status, answer = self.take(console, revert=[[0, MINUTE]] * 8)
        self.assertEqual((status, answer["error"]), (409, "malformed"))
        self.service.end()
        status, answer = self.take(console, id="c-2")
        self.assertEqual((status, answer["error"]), (503, "unanswered"))

    def test_without_the_service(self):
        status, answer = self.take(self.console("--operator", "alice"), stands=True)
        self.assertEqual((status, answer["error"]), (409, "no-overrides"))
        self.service.end()
        console = self.with_overrides()
        self.assertEqual((console.greeting, console.process.wait(10)), ("", 1))


if __name__ == "__main__":
    unittest.main()
