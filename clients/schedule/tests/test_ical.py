"""The events of iCalendar files; what recurs, after RFC 5545."""

import os
import tempfile
import unittest
from datetime import date, datetime, timezone

from .common import BERLIN, at

from bossd_schedule.ical import Unfit, events_of
from bossd_schedule.sources import Source, Unread, days_touched, matching
from bossd_schedule.week import Events, Programme, decide


def events(*bodies):
    lines = ["BEGIN:VCALENDAR", "VERSION:2.0", "PRODID:t"]
    for number, body in enumerate(bodies):
        lines += ["BEGIN:VEVENT"] + ([] if "UID:" in body else [f"UID:{number}"]) + body.split("\n") + ["END:VEVENT"]
    return events_of("\r\n".join(lines + ["END:VCALENDAR", ""]).encode(), BERLIN)


def utc(found):
    return [tuple(datetime.fromtimestamp(edge / 1000, timezone.utc).strftime("%m-%d %H:%M") for edge in one[:2]) for one in found]


class Case(unittest.TestCase):
    def test_each_sunday_at_ten_stays_at_ten(self):
        found = events("SUMMARY:Mass\nDTSTART;TZID=Europe/Berlin:20100103T100000\nDTEND;TZID=Europe/Berlin:20100103T113000\nRRULE:FREQ=WEEKLY")
        self.assertEqual(utc(found(at("2027-03-20"), at("2027-04-05"))), [
            ("03-21 09:00", "03-21 10:30"), ("03-28 08:00", "03-28 09:30"), ("04-04 08:00", "04-04 09:30")])

    def test_what_is_left_out_moved_called_off_and_added(self):
        weekly = ("UID:a\nDTSTART;TZID=Europe/Berlin:20270104T080000\nDURATION:PT1H\nRRULE:FREQ=WEEKLY;UNTIL=20270208T070000Z\n"
                  "EXDATE;TZID=Europe/Berlin:20270111T080000\nRDATE;TZID=Europe/Berlin:20270106T080000")
        moved = "UID:a\nRECURRENCE-ID:20270118T070000Z\nDTSTART;TZID=Europe/Berlin:20270119T090000\nDURATION:PT1H"
        off = "UID:a\nRECURRENCE-ID;TZID=Europe/Berlin:20270125T080000\nDTSTART;TZID=Europe/Berlin:20270125T080000\nSTATUS:CANCELLED"
        self.assertEqual([one[0] for one in utc(events(weekly, moved, off)(at("2027-01-01"), at("2027-03-01")))],
                         ["01-04 07:00", "01-06 07:00", "01-19 08:00", "02-01 07:00", "02-08 07:00"])

    def test_days_floating_times_and_names_of_windows(self):
        self.assertEqual(utc(events("DTSTART;VALUE=DATE:20270328\nDTEND;VALUE=DATE:20270329")(at("2027-03-01"), at("2027-04-01"))),
                         [("03-27 23:00", "03-28 22:00")])
        self.assertEqual(utc(events("DTSTART:20270601T080000\nDTEND:20270601T090000")(at("2027-06-01"), at("2027-06-02"))), [("06-01 06:00", "06-01 07:00")])
        windows = "DTSTART;TZID=Eastern Standard Time:20270601T080000\nDTEND;TZID=Eastern Standard Time:20270601T090000"
        self.assertEqual(utc(events(windows)(at("2027-06-01"), at("2027-06-02"))), [("06-01 12:00", "06-01 13:00")])
        self.assertEqual(events("DTSTART:20270601T080000")(at("2027-06-01"), at("2027-06-02")), [])

    def test_one_that_began_long_before(self):
        found = events("DTSTART;VALUE=DATE:20270101\nDTEND;VALUE=DATE:20270601")
        self.assertEqual(len(found(at("2027-05-20"), at("2027-05-21"))), 1)
        of = Programme("t", BERLIN, 16, events=(Events("e", found, {"p": 1}),))
        self.assertEqual(decide(of, at("2027-05-31T23:59")).wants["p"].value, 1)
        self.assertEqual(decide(of, at("2027-06-01T00:00")).wants, {})

    def test_a_rule_that_fits_no_day_is_walked_once(self):
        found = events("DTSTART:20270601T080000Z\nDURATION:PT1H\nRRULE:FREQ=YEARLY;BYMONTH=2;BYMONTHDAY=30")
        self.assertEqual([one[0] for one in utc(found(at("2027-05-20"), at("2027-12-31")))], ["06-01 08:00"])

    def test_what_is_not_taken(self):
        for body in ("DTSTART:20270601T080000Z\nRRULE:FREQ=SECONDLY", "DTSTART:20270601T080000Z\nRRULE:FREQ=DAILY;BYHOUR=1,2", "DTSTART;TZID=Nowhere/Land:20270601T080000", "SUMMARY:a", "DTSTART:20270601T080000Z\nEXRULE:FREQ=DAILY",
                     "DTSTART:20270601T080000Z\nRECURRENCE-ID;RANGE=THISANDFUTURE:20270601T080000Z", "DTSTART:20270601T250000",
                     "DTSTART;TZID=America/New_York:00010101T000000\nDTEND:00010101T000000Z", "DTSTART:20270601T080000Z\nRRULE:FREQ=OFTEN"):
            with self.assertRaises(Unfit, msg=body):
                events(body)
        for data in (b"", b"\xff", b"BEGIN:VCALENDAR\r\nBEGIN:VEVENT\r\n"):
            try:
                self.assertEqual(events_of(data, BERLIN)(0, 1), [])
            except Unfit:
                pass


FILE = """BEGIN:VCALENDAR\r
VERSION:2.0\r
PRODID:t\r
BEGIN:VEVENT\r
UID:1\r
SUMMARY:%s\r
DTSTART;VALUE=DATE:20270528\r
END:VEVENT\r
END:VCALENDAR\r
"""


class Files(unittest.TestCase):
    def setUp(self):
        folder = tempfile.TemporaryDirectory()
        self.addCleanup(folder.cleanup)
        self.path = os.path.join(folder.name, "days.ics")
        self.now = at("2027-05-27T12:00")

    def put(self, text):
        with open(self.path + ".new", "w", encoding="utf-8") as file:
            file.write(text)
        os.replace(self.path + ".new", self.path)

    def test_a_file_gives_the_days_that_its_events_touch(self):
        self.put(FILE % "Bridge")
        source = Source(self.path, BERLIN)
        source.read(self.now)
        days = days_touched(source.between, BERLIN)
        self.assertEqual([days(date(2027, 5, day)) for day in (27, 28, 29)], [False, True, False])

    def test_events_by_their_summary(self):
        self.put(FILE % "Meeting of all")
        source = Source(self.path, BERLIN)
        source.read(self.now)
        found = [len(matching(source.between, pattern)(self.now, at("2027-06-01"))) for pattern in (None, "Meeting*", "Meeting", "Meeting of all")]
        self.assertEqual(found, [1, 1, 0, 1])

    def test_a_changed_file_is_read_and_one_that_is_refused_leaves_the_old_one(self):
        self.put(FILE % "a")
        source = Source(self.path, BERLIN)
        source.read(self.now)
        self.assertFalse(source.look(self.now))
        self.put((FILE % "a").replace("20270528", "20270529"))
        self.assertTrue(source.look(self.now))
        day = at("2027-05-29T12:00")
        self.assertEqual(len(source.between(day, day + 1)), 1)
        self.put((FILE % "a").replace("DTSTART", "RRULE:FREQ=SECONDLY\r\nDTSTART"))
        self.assertFalse(source.look(self.now))
        self.assertIn("SECONDLY", source.sentence)
        self.assertEqual(len(source.between(day, day + 1)), 1)
        os.unlink(self.path)
        self.assertFalse(source.look(self.now))
        self.assertEqual(len(source.between(day, day + 1)), 1)

    def test_what_is_none_is_not_taken(self):
        source = Source(self.path, BERLIN)
        self.assertRaises(Unread, source.read, self.now)
        self.put("x" * (4 * 1024 * 1024 + 1))
        self.assertRaises(Unread, source.read, self.now)
