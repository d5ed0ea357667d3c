"""Tests of what the journal tells of the server's clock. The bytes of journals are those of docs/FORMATS.md."""

import unittest

from tests import journals as j
from tests.common import MINUTE, Case, bossd
from tests.test_history import Case as Followed

from bossd_console.clock import Clock, Reached, Seen  # noqa: E402

HOUR = 3_600_000
NOON = 1_800_000_000_000
DAMPER = "ahu1.damper"


class Clocks(unittest.TestCase):
    def seen(self, *looks):
        clock = Clock()
        for reached, moment, seconds in looks:
            clock.look(reached, moment, seconds)
        return clock.seen

    def test_an_event_that_is_read_as_it_comes(self):
        self.assertEqual(self.seen((Reached(1, 7, NOON), NOON, 10.0), (Reached(1, 8, NOON + 900), NOON + 1_000, 11.0)), Seen(NOON + 900, -100))
        self.assertEqual(self.seen((Reached(1, 7, NOON), NOON, 10.0), (Reached(1, 8, NOON + HOUR), NOON, 11.0)), Seen(NOON + HOUR, HOUR))

    def test_a_moment_that_stands_while_events_come(self):
        self.assertEqual(self.seen((Reached(1, 7, NOON), NOON, 10.0), (Reached(1, 9, NOON), NOON + 25_000, 35.0)), Seen(NOON, -25_000))

    def test_what_tells_nothing_of_it(self):
        old, new = Reached(1, 7, NOON), Reached(1, 8, NOON)
        for what, *looks in [
            ("the first reading", (new, NOON + HOUR, 10.0)),
            ("no event", (old, NOON, 10.0), (old, NOON + HOUR, 11.0)),
            ("a file that was begun", (old, NOON, 10.0), (Reached(2, 8, NOON), NOON + HOUR, 11.0)),
            ("a look that comes late", (old, NOON, 10.0), (new, NOON + HOUR, 41.0)),
            ("a journal that was not read to its end", (old, NOON, 10.0), (None, NOON, 11.0), (new, NOON + HOUR, 12.0)),
            ("another journal, of fewer events", (new, NOON, 10.0), (old, NOON + HOUR, 11.0)),
        ]:
            with self.subTest(what):
                self.assertIsNone(self.seen(*looks))

    def test_what_is_said(self):
        self.assertEqual(Seen(NOON, 59_999).sentence(), "")
        self.assertIn("3600 seconds behind the clock", Seen(NOON, -HOUR).sentence())
        self.assertIn("60 seconds ahead of the clock", Seen(NOON, 60_000).sentence())
        self.assertEqual(Seen(NOON, 5).described(), {"moment": NOON, "ahead": 5})


class OfJournals(Followed):
    def test_how_far_it_was_read(self):
        taken, submit = j.record(j.taken_on(500, "a")), j.record(j.submit(1_000, 0, j.write(0, 45_000, 8, MINUTE)))
        self.follow(j.journal(taken))
        self.assertEqual(self.history.reached(), Reached(1, 1, 500))
        self.follow(j.journal(taken, submit))
        self.assertEqual(self.history.reached(), Reached(1, 2, 1_000))


class Told(Case):
    def test_by_a_change(self):
        comfort, console = self.client("comfort"), self.console("--journal", self.server.journal)
        before = self.eventually(lambda: console.metrics().get("bossd_journal_events_total"))
        self.assertNotIn("bossd_clock_ahead_seconds", console.metrics())
        comfort.submit([bossd.write(DAMPER, 35_000, lease=MINUTE)])
        metrics = self.eventually(lambda: (lambda it: it if "bossd_clock_ahead_seconds" in it else None)(console.metrics()))
        # Both clocks are this machine's, and a look comes each half second or so.
        self.assertLess(abs(metrics["bossd_clock_ahead_seconds"]), 30)
        self.assertGreater(metrics["bossd_journal_events_total"], before)
        clock = console.ask("/api/points")[1]["server"]["clock"]
        self.assertEqual(clock["ahead"], round(metrics["bossd_clock_ahead_seconds"] * 1000))
        self.assertNotIn("sentence", clock)


if __name__ == "__main__":
    unittest.main()
