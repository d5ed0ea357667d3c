"""Tests of the server for tests, over the built program: python3 -m unittest, in this folder."""

import asyncio
import json
import socket
import time
import unittest
from unittest import mock

import bossd
import bossd.aio
import bossd.testing
from bossd.testing import BEGINNING, Clock, Server, Write
from test_bossd import CATALOGUE, MINUTE, common, damper, eventually

HOUR = 60 * MINUTE


class Testing(unittest.TestCase):
    def setUp(self):
        self.server = Server(CATALOGUE, program=common.PROGRAM)
        self.addCleanup(self.server.close)
        self.server.__enter__()

    def client(self, process=None):
        made = bossd.Client(self.server.address, process, 5.0)
        self.addCleanup(made.close)
        return made

    def test_a_night(self):
        """The damper open from 22:00 to 5:00, by a lease of a quarter of an hour that is renewed."""
        with self.server.client("purge") as client:
            with client.hold([damper(100_000, lease=15 * MINUTE)]) as held:
                self.server.advance(hours=6, minutes=59)
                self.assertEqual((client.read("ahu1.damper").value, held.ended), (100_000, None))
            self.server.advance(minutes=1)
            self.assertEqual(client.read("ahu1.damper").basis, "default")
        self.assertEqual(self.server.now, BEGINNING + 7 * HOUR)

    def test_a_lease_ends_at_its_moment(self):
        client = self.client("a")
        until = client.submit([damper(lease=MINUTE, revert=[(30_000, MINUTE)])]).until
        self.assertEqual(until, BEGINNING + MINUTE)
        self.server.advance(seconds=59)
        self.assertEqual(client.read("ahu1.damper").basis, "lease")
        self.server.advance(seconds=1)
        self.assertEqual(client.read("ahu1.damper")[:3], ("ahu1.damper", 30_000, "pending"))
        self.server.advance(hours=1)
        told = [(notice.at, notice.kind, notice.cause) for notice in client.notices().list]
        self.assertEqual(told, [(until, "ended", "expired"), (until + MINUTE, "reverted", None), (until + MINUTE, "done", None)])

    def test_what_devices_are_written(self):
        client = self.client("a")
        client.submit([damper(lease=MINUTE)])
        self.server.advance(minutes=2)
        written = [write for write in self.server.writes if write.point == "ahu1.damper"]
        self.assertEqual(written, [Write(BEGINNING, "field", "ahu1.damper", value, True) for value in (20_000, 45_000)]
                         + [Write(BEGINNING + 2 * MINUTE, "field", "ahu1.damper", 20_000, True)])

    def test_a_connection_that_ends_is_lost(self):
        other = self.client()
        with self.client("a") as client:
            client.submit([damper(lease=HOUR)])
            self.server.advance(minutes=5)
            client.read("lamp")
            self.server.advance(minutes=5)
        self.assertTrue(eventually(lambda: other.read("ahu1.damper").basis == "default"))
        # As of its last request, five minutes before.
        self.assertEqual([(notice.at, notice.cause) for notice in other.notices("a").list][0], (BEGINNING + 5 * MINUTE, "died"))

    def test_a_program_that_sleeps_by_its_clock(self):
        seen = []

        def program():
            with self.server.client("a") as client:
                for hour in range(3):
                    seen.append((hour, self.server.now - BEGINNING))
                    client.submit([damper(hour * 1_000, lease=HOUR)])
                    self.server.clock.sleep(3_600)
        thread = self.server.clock.start(program)
        self.server.advance(hours=2, minutes=30)
        self.assertEqual(self.client().read("ahu1.damper").value, 2_000)
        self.server.advance(hours=1)
        self.assertEqual((seen, thread.is_alive()), ([(0, 0), (1, HOUR), (2, 2 * HOUR)], False))

    def test_what_it_holds_ends_by_the_clock(self):
        ended = []

        def program():
            with self.server.client("a") as client:
                held = client.hold([damper(lease=MINUTE)])
                ended.append((held.wait(3_600), held.wait(7_200), type(held.ended)))
        thread = self.server.clock.start(program)
        self.server.advance(minutes=90)
        other = self.client("b")
        other.submit([damper(50_000, lease=HOUR)])
        self.server.advance(minutes=2)
        thread.join(5)
        self.assertEqual(ended, [(False, True, bossd.Ended)])

    def test_who_does_not_sleep_again_is_told(self):
        def program():
            self.server.clock.sleep(1)
            time.sleep(3)
        self.server.clock.start(program)
        with mock.patch("bossd.testing.WORKING", 0.2), self.assertRaisesRegex(AssertionError, "neither sleeps again nor ends"):
            self.server.advance(seconds=2)

    def test_a_watch(self):
        client = self.client("a")
        with bossd.watch(self.server.address, "a", patience=5.0) as watched:
            client.submit([damper(lease=MINUTE)])
            self.server.advance(hours=1)
            self.assertEqual([(notice.n, notice.at, notice.kind) for notice in (next(watched), next(watched))],
                             [(1, BEGINNING + MINUTE, "ended"), (2, BEGINNING + MINUTE, "done")])

    def test_with_asyncio(self):
        async def night():
            async with bossd.aio.connect(self.server.address, "a", 5.0) as client:
                await client.submit([damper(lease=HOUR)])
                self.server.advance(minutes=59)
                before = await client.read("ahu1.damper")
                self.server.advance(minutes=2)
                return before.value, (await client.read("ahu1.damper")).value
        self.assertEqual(asyncio.run(night()), (45_000, 20_000))

    def test_lines_are_answered_as_by_a_server(self):
        long = b'{"op":"read","point":"' + b"n" * 65_536 + b'"}'
        with socket.create_connection(self.server.address.split(":")) as link, link.makefile("rwb", buffering=0) as lines:
            for line, answer in [
                (b'{"op":"tick"}', {"error": "unknown-op"}), (b'{"op":"gone"}', {"error": "unknown-op"}), (b"no line", {"error": "malformed"}),
                (b"{}", {"error": "malformed", "key": "op"}), (b'{"op":"watch","process":"a"}', {"error": "unknown-op"}), (b"\xff{}", {"error": "malformed"}),
                # Whose it is and when is not for the line to say.
                (b' {"op":"attach","on":7,"at":5,"process":"a"} ', {"ok": "attached", "process": "a", "next": 1}),
                (b'\n{"op":"submit","at":5,"writes":[{"point":"lamp","value":1,"lease":1000}]}',
                 {"ok": "accepted", "txn": 1, "until": BEGINNING + 1_000}),
                (long, {"error": "too-long"}),
            ]:
                lines.write(line + b"\n")
                self.assertEqual(json.loads(lines.readline()), answer, line[:40])
            self.assertEqual(lines.readline(), b"")

    def test_two_programs_of_one_name(self):
        self.client("a")
        with self.assertRaises(bossd.Taken):
            self.client("a")


class Clocks(unittest.TestCase):
    def test_it_stops_where_somebody_wakes(self):
        clock, woken = Clock(1_000), []

        def program(seconds):
            clock.sleep(seconds)
            woken.append(clock.now)
        for seconds in (3, 1, 60):
            clock.start(program, seconds)
        stops = []
        while clock.step(11_000):
            clock.settle()
            stops.append(clock.now)
        self.assertEqual((stops, woken), ([2_000, 4_000, 11_000], [2_000, 4_000]))


if __name__ == "__main__":
    unittest.main()
