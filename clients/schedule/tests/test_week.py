"""What is wanted at a moment: the two rules of local time, which block decides, and days as they are written."""

import random
import unittest
from datetime import date, datetime, time, timedelta, timezone
from zoneinfo import ZoneInfo

import dateutil.easter

from .common import BERLIN, HOUR, MINUTE, at

from bossd_schedule.days import any_of, days_of, easter
from bossd_schedule.week import Block, Events, Programme, Special, begins, both, coming, decide, local

NEW_YORK, LORD_HOWE = ZoneInfo("America/New_York"), ZoneInfo("Australia/Lord_Howe")
EVERY = days_of("mon-sun")


def block(start, end, value=1, days=EVERY, name="b", point="p"):
    return Block(name, days, time.fromisoformat(start), time(0) if end == "24:00" else time.fromisoformat(end), {point: value})


def programme(*blocks, zone=BERLIN, **more):
    return Programme("t", zone, 16, tuple(blocks), **more)


def value(of, moment, point="p"):
    want = decide(of, moment).wants.get(point)
    return want.value if want else None


def spans(of, start, end):
    return [(first, last) for _, first, last, want in coming(of, ["p"], start, end) if want]


class Clocks(unittest.TestCase):
    def lasts(self, zone, day, start, end):
        """When the block of that day begins and ends, in UTC."""
        of = programme(block(start, end, days=days_of(day)), zone=zone)
        first = begins(date.fromisoformat(day) - timedelta(days=1), time(12), zone)
        return [tuple(datetime.fromtimestamp(edge / 1000, timezone.utc).strftime("%H:%M") for edge in span)
                for span in spans(of, first, first + 72 * HOUR)]

    def test_berlin(self):
        spring, autumn = "2027-03-28", "2027-10-31"                      # 01:00 UTC: 02:00 is 03:00, and 03:00 is 02:00
        self.assertEqual(self.lasts(BERLIN, spring, "02:30", "03:30"), [("01:00", "01:30")])     # the half that there is
        self.assertEqual(self.lasts(BERLIN, spring, "02:15", "02:45"), [])                       # there is nothing of it
        self.assertEqual(self.lasts(BERLIN, spring, "01:00", "02:30"), [("00:00", "01:00")])
        self.assertEqual(self.lasts(BERLIN, spring, "00:00", "24:00"), [("23:00", "22:00")])     # 23 hours
        self.assertEqual(self.lasts(BERLIN, autumn, "02:30", "03:30"), [("00:30", "02:30")])     # two hours: once, and never twice
        self.assertEqual(self.lasts(BERLIN, autumn, "02:15", "02:45"), [("00:15", "01:45")])
        self.assertEqual(self.lasts(BERLIN, autumn, "01:00", "02:00"), [("23:00", "00:00")])     # an hour: 02:00 is not less than 02:00
        self.assertEqual(self.lasts(BERLIN, autumn, "02:00", "03:00"), [("00:00", "02:00")])
        self.assertEqual(self.lasts(BERLIN, autumn, "00:00", "24:00"), [("22:00", "23:00")])     # 25 hours

    def test_new_york(self):
        self.assertEqual(self.lasts(NEW_YORK, "2027-03-14", "02:30", "03:30"), [("07:00", "07:30")])
        self.assertEqual(self.lasts(NEW_YORK, "2027-11-07", "01:30", "02:30"), [("05:30", "07:30")])
        self.assertEqual(self.lasts(NEW_YORK, "2027-11-07", "00:30", "01:30"), [("04:30", "06:30")])

    def test_lord_howe_by_half_an_hour(self):
        self.assertEqual(self.lasts(LORD_HOWE, "2027-10-03", "02:15", "03:00"), [("15:30", "16:00")])    # 02:00 is 02:30
        self.assertEqual(self.lasts(LORD_HOWE, "2027-04-04", "01:45", "02:15"), [("14:45", "15:45")])    # 02:00 is 01:30

    def test_a_midnight_and_a_day_that_there_are_not(self):
        paulo, apia = ZoneInfo("America/Sao_Paulo"), ZoneInfo("Pacific/Apia")
        self.assertEqual(self.lasts(paulo, "2018-11-04", "00:00", "06:00"), [("03:00", "08:00")])
        self.assertEqual(self.lasts(apia, "2011-12-30", "10:00", "12:00"), [])
        self.assertEqual(self.lasts(apia, "2011-12-29", "23:00", "07:00"), [("09:00", "10:00")])

    def test_the_two_rules_by_looking_at_every_minute(self):
        for zone, day in ((BERLIN, "2027-03-28"), (BERLIN, "2027-10-31"), (LORD_HOWE, "2027-10-03"), (LORD_HOWE, "2027-04-04"),
                          (NEW_YORK, "2027-11-07"), (ZoneInfo("America/Sao_Paulo"), "2018-11-04")):
            noon = at(day + " 12:00", zone)
            shown = [(moment, local(moment, zone)) for moment in range(noon - 30 * HOUR, noon + 30 * HOUR, MINUTE)]
            for quarter in range(96):
                paper = datetime.fromisoformat(day) + timedelta(minutes=15 * quarter)
                first = next(moment for moment, face in shown if face >= paper)
                last = max(moment for moment, face in shown if face < paper) + MINUTE
                self.assertEqual(both(paper, zone), (first, last), (zone, paper))

    def test_blocks_that_touch_have_no_gap_in_any_hour_of_two_years(self):
        for zone in (BERLIN, NEW_YORK, LORD_HOWE):
            of = programme(*[block(f"{hour:02}:30", f"{(hour + 1) % 24:02}:30", hour) for hour in range(24)], zone=zone)
            start = at("2027-01-01", zone)
            for hours in range(0, 730 * 24, 5):
                self.assertIsNotNone(value(of, start + hours * HOUR))


class Deciding(unittest.TestCase):
    def test_what_began_last_decides_and_then_what_was_before_it(self):
        of = programme(block("06:00", "18:00", 21), block("12:00", "13:00", 19), otherwise={"p": 16})
        day = at("2027-06-01T00:00")
        self.assertEqual([value(of, day + hour * HOUR) for hour in (5, 6, 11, 12, 13, 17, 18)], [16, 21, 21, 19, 21, 21, 16])
        same = programme(block("06:00", "18:00", 1), block("06:00", "07:00", 2))
        self.assertEqual([value(same, day + hour * HOUR) for hour in (6, 7)], [2, 1])

    def test_over_midnight_it_is_the_block_of_the_day_on_which_it_began(self):
        of = programme(block("22:00", "06:00", days=days_of("fri")))                  # 2027-01-01 is a Friday
        self.assertEqual(spans(of, at("2026-12-31"), at("2027-01-08")), [(at("2027-01-01T22:00"), at("2027-01-02T06:00"))])

    def test_the_first_exception_has_the_day_and_ends_what_goes_on_if_it_says_so(self):
        def made(cut):
            return programme(block("22:00", "06:00"), specials=(
                Special("christmas", days_of("*-12-25"), (block("10:00", "11:00", 5),), cut), Special("december", days_of("*-12-01/*-12-31"))))
        self.assertEqual(spans(made(False), at("2026-11-30T12:00"), at("2027-01-01T12:00")), [
            (at("2026-11-30T22:00"), at("2026-12-01T06:00")), (at("2026-12-25T10:00"), at("2026-12-25T11:00"))])
        eve = programme(block("22:00", "06:00"), specials=(Special("c", days_of("*-12-25"), cut=True),))
        self.assertEqual(spans(eve, at("2026-12-24T12:00"), at("2026-12-26T12:00")), [(at("2026-12-24T22:00"), at("2026-12-25T00:00"))])

    def test_leap_day(self):
        of = programme(block("08:00", "09:00", days=days_of("*-02-29")))
        self.assertEqual(spans(of, at("2027-01-01"), at("2032-12-31")), [
            (at(f"{year}-02-29T08:00"), at(f"{year}-02-29T09:00")) for year in (2028, 2032)])
        over = programme(block("22:00", "02:00", days=days_of("*-02-28")))
        self.assertEqual(spans(over, at("2028-02-01"), at("2028-03-15")), [(at("2028-02-28T22:00"), at("2028-02-29T02:00"))])

    def test_points_without_a_value_in_a_block_are_left_to_the_others(self):
        of = programme(Block("a", EVERY, time(6), time(18), {"p": 1, "q": 1}), Block("b", EVERY, time(8), time(9), {"q": 2}))
        self.assertEqual((value(of, at("2027-06-01T08:30")), value(of, at("2027-06-01T08:30"), "q")), (1, 2))

    def test_events_stand_above_blocks_and_begin_before(self):
        event = (at("2027-06-01T10:00"), at("2027-06-01T14:00"), "Mass")
        booked = Events("bookings", lambda start, end: [event] if event[0] < end and event[1] > start else [], {"p": 22}, 2 * HOUR)
        of = programme(block("06:00", "12:00", 18), block("12:00", "18:00", 19), events=(booked,))
        day = at("2027-06-01T00:00")
        self.assertEqual([value(of, day + hour * HOUR) for hour in (7, 8, 12, 13, 14)], [18, 22, 22, 22, 19])
        self.assertEqual(decide(of, day + 8 * HOUR).wants["p"].why, "t: bookings: Mass")

    def test_on_other_days_than_those_of_only_nothing_begins_and_nothing_else_is_wanted(self):
        friday = days_of("2027-01-01")
        of = programme(block("22:00", "06:00"), otherwise={"p": 7}, only=friday)
        self.assertEqual(spans(of, at("2026-12-31T12:00"), at("2027-01-03T12:00")), [
            (at("2027-01-01T00:00"), at("2027-01-01T22:00")), (at("2027-01-01T22:00"), at("2027-01-02T06:00"))])
        event = (at("2027-01-01T20:00"), at("2027-01-02T02:00"), "Ball")
        booked = programme(events=(Events("e", lambda start, end: [event] if event[0] < end and event[1] > start else [], {"p": 2}),), only=friday)
        self.assertEqual(spans(booked, at("2026-12-31T12:00"), at("2027-01-03T12:00")), [(at("2027-01-01T20:00"), at("2027-01-02T00:00"))])

    def test_until_is_never_after_a_change(self):
        seed = random.Random(1)
        for _ in range(40):
            def moment_of_day():
                return f"{seed.randrange(24):02}:{seed.choice((0, 15, 30, 45)):02}"
            blocks = [block(moment_of_day(), moment_of_day(), seed.randrange(3), days_of(seed.choice(("mon-fri", "sat sun", "mon-sun")))) for _ in range(4)]
            of = programme(*blocks, specials=(Special("s", days_of("2027-03-27/2027-03-28"), tuple(blocks[:1]), seed.random() < 0.5),))
            now = at("2027-03-26T00:00")
            while now < at("2027-03-31T00:00"):
                found = decide(of, now)
                for moment in range(now, found.until, 15 * MINUTE):
                    self.assertEqual(decide(of, moment).wants, found.wants)
                now = found.until


class Written(unittest.TestCase):
    def days(self, text, first="2027-01-01", count=365):
        test, start = days_of(text), date.fromisoformat(first)
        return [str(day) for day in (start + timedelta(days=step) for step in range(count)) if test(day)]

    def test_days(self):
        self.assertEqual(len(self.days("mon-fri")), 261)
        self.assertEqual(self.days("sat-mon", count=7), ["2027-01-02", "2027-01-03", "2027-01-04"])
        self.assertEqual(self.days("*-12-30/*-01-01"), ["2027-01-01", "2027-12-30", "2027-12-31"])
        self.assertEqual((self.days("easter-2"), self.days("easter+39")), (["2027-03-26"], ["2027-05-06"]))
        self.assertEqual((self.days("last mon may"), self.days("4th thu nov")), (["2027-05-31"], ["2027-11-25"]))
        self.assertTrue(any_of(["easter", "*-12-24"])(date(2027, 12, 24)))

    def test_easter(self):
        for text in ("1981-04-19", "2000-04-23", "2008-03-23", "2024-03-31", "2025-04-20", "2026-04-05", "2027-03-28", "2028-04-16", "2038-04-25"):
            day = date.fromisoformat(text)
            self.assertEqual(easter(day.year), day)
        for year in range(1970, 9999):
            self.assertEqual(easter(year), dateutil.easter.easter(year))

    def test_what_is_none(self):
        for text in ("", "monday", "mon-", "2027-02-29", "2027-12-24/2027-12-01", "*-13-01", "*-01-01/2027-01-02", "6th mon may", "easter+", "1000-01-01", "9999-12-31", "2027-1-1"):
            with self.assertRaises(ValueError, msg=text):
                days_of(text)
