"""Tests of what the console reads of schedules: the keys are those of docs/SCHEDULE.md, and no bossd-schedule wrote them."""

import json
import os
import tempfile
import unittest
from unittest import mock

from tests import common  # noqa: F401
from tests.common import bossd

from bossd_console import schedules
from bossd_console.schedules import Schedule

HOUR = 3_600_000
NOW = 1_900_000_000_000
OWNERS = {1: "schedule", 2: "bossctl"}


def told(**more):
    """A file: lamps on for an hour from now, off, and on again two days later."""
    spans = [[NOW, NOW + HOUR, 1, "week: mon-fri 06:30"], [NOW + 5 * HOUR, NOW + 6 * HOUR, 1, "evening"], [NOW + 48 * HOUR, NOW + 49 * HOUR, 1, "week"]]
    return {"process": "schedule", "zone": "Europe/Berlin", "written": NOW, "until": NOW + HOUR, "file": "week.toml", "reloaded": NOW, "sentence": None,
            "coming": [{"points": ["hall.lamp", "office.lamp"], "priority": 16, "programme": "offices", "spans": spans}], "yielded": [], "refused": [], **more}


def slots(value=1, txn=1, until=NOW + 900_000, end=None):
    return bossd.Slots("hall.lamp", 0, {16: bossd.Slot(value, txn, until=until, end=end)})


NOBODY = bossd.Slots("hall.lamp", 0, {})


class Case(unittest.TestCase):
    def setUp(self):
        folder = tempfile.TemporaryDirectory()
        self.addCleanup(folder.cleanup)
        self.path = os.path.join(folder.name, "coming.json")
        self.schedule = Schedule(self.path)

    def look(self, found):
        with open(self.path + ".new", "w") as file:
            file.write(found if isinstance(found, str) else json.dumps(found))
        os.replace(self.path + ".new", self.path)
        self.schedule.look()

    def of(self, stands, moment=NOW + 1, point="hall.lamp"):
        found, = self.schedule.of(point, stands, OWNERS, moment)
        return found


class Wanted(Case):
    def test_what_is_wanted_in_the_next_day(self):
        self.look(told())
        found = self.of(slots())
        self.assertEqual([span[:3] for span in found["spans"]], [[NOW, NOW + HOUR, 1], [NOW + 5 * HOUR, NOW + 6 * HOUR, 1]])
        self.assertEqual((found["programme"], found["priority"], found["process"], found["zone"], found["more"]), ("offices", 16, "schedule", "Europe/Berlin", False))
        # At its end a span is over, and what begins in a day is none of the next day.
        self.assertEqual([span[0] for span in self.of(slots(), NOW + HOUR)["spans"]], [NOW + 5 * HOUR])
        self.assertEqual([span[0] for span in self.of(slots(), NOW + 24 * HOUR + 1)["spans"]], [NOW + 48 * HOUR])
        self.assertEqual(self.schedule.of("no.such", NOBODY, OWNERS, NOW), [])

    def test_whether_its_process_holds_it(self):
        self.look(told())
        cases = [("held", slots(), NOW), ("unset", slots(value=0), NOW), ("other", slots(txn=2), NOW), ("unset", NOBODY, NOW), ("unset", slots(until=None, end=NOW + 9), NOW),
                 ("unknown", None, NOW), ("free", slots(), NOW + HOUR)]
        for state, stands, moment in cases:
            self.assertEqual(self.of(stands, moment)["state"], state, (stands, moment))

    def test_who_has_a_slot_that_was_left(self):
        slot = {"point": "hall.lamp", "priority": 16}
        self.look(told(yielded=[{**slot, "by": "bossctl", "since": NOW - 5}]))
        self.assertEqual({key: self.of(slots(txn=2))[key] for key in ("state", "by", "since")}, {"state": "other", "by": "bossctl", "since": NOW - 5})
        self.assertEqual({key: self.of(NOBODY)[key] for key in ("state", "by", "since")}, {"state": "yielded", "by": "bossctl", "since": NOW - 5})
        self.assertNotIn("by", self.of(slots()))
        self.look(told(refused=[slot]))
        self.assertEqual(self.of(NOBODY)["state"], "refused")

    def test_no_more_than_so_many_spans(self):
        spans = [[NOW + n, NOW + n + 1, n % 2, ""] for n in range(1_000)]
        self.look(told(coming=[{"points": ["hall.lamp"], "priority": 16, "programme": "flap", "spans": spans}]))
        self.assertEqual((len(self.of(NOBODY, NOW)["spans"]), self.of(NOBODY, NOW)["more"]), (48, True))


class Files(Case):
    def test_there_is_none(self):
        self.schedule.look()
        self.assertIn("no such file", self.schedule.described(NOW)["fault"])
        self.assertEqual(self.schedule.of("hall.lamp", NOBODY, OWNERS, NOW), [])

    def test_it_is_read_again_where_it_changed_and_not_else(self):
        self.look(told())
        with mock.patch.object(schedules, "told_of") as again:
            self.schedule.look()
            again.assert_not_called()
        self.look(told(process="weekly"))
        self.assertEqual(self.of(NOBODY)["process"], "weekly")

    def test_what_is_no_such_file_says_so_and_what_was_read_stays(self):
        self.look(told())
        for broken in ["", "[]", "{", "[" * 100_000, json.dumps(told(process="Not A Name")), json.dumps(told(until=1.5)), json.dumps(told(until=True)), json.dumps(told(coming=[{}])),
                       json.dumps(told(coming=[{"points": ["x"], "priority": 1, "programme": "p", "spans": [[1, 2, 3]]}])), json.dumps(told(yielded={}))]:
            self.look(broken)
            self.assertEqual((self.schedule.sentence, self.of(slots())["state"]), ("it is no coming.json of bossd-schedule", "held"), broken[:60])
        self.look(told())
        self.assertIsNone(self.schedule.described(NOW)["fault"])

    def test_a_longer_one_is_not_read(self):
        with mock.patch.object(schedules, "LONGEST", 100):
            self.look(told())
        self.assertIn("more than", self.schedule.sentence)
        self.assertIsNone(self.schedule.told)

    def test_it_is_old_a_minute_after_it_should_have_been_written(self):
        self.look(told())
        self.assertEqual([self.schedule.described(NOW + HOUR + late)["old"] for late in (60_000, 60_001)], [False, True])

    def test_what_is_said_of_the_process(self):
        self.look(told(sentence="week.toml:3: no", refused=[{"point": "a", "priority": 9}]))
        said = self.schedule.described(NOW)
        self.assertEqual({key: said[key] for key in ("path", "process", "points", "programmes", "sentence", "refused", "yielded", "fault")}, {
            "path": self.path, "process": "schedule", "points": 2, "programmes": [{"name": "offices", "priority": 16}], "sentence": "week.toml:3: no",
            "refused": [{"point": "a", "priority": 9}], "yielded": [], "fault": None})


if __name__ == "__main__":
    unittest.main()
