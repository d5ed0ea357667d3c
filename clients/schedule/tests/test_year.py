"""A year of the example's week, with both changes of the clock, over the built program under a clock of the test's own. What points are to
have is written down here once more, from the words of examples/week.toml and the wall clock, and apart from the program."""

import asyncio
import os
import tempfile
import time as stopwatch
import unittest
from bisect import bisect
from datetime import date, datetime, timedelta

from .common import BERLIN, DAY, DEFAULTS, HOUR, MINUTE, PLANT, SECOND, WEEK, Script, TestClock, at

from bossd_schedule.reading import Reader
from bossd_schedule.running import Running

# Easter of 2028 is the 16th of April, as every almanac has it.
CLOSED = [date(2028, month, day) for month, day in (
    (1, 1), (4, 14), (4, 17), (5, 1), (5, 25), (6, 5), (10, 3), (12, 24), (12, 25), (12, 26), (12, 31))] + [date(2029, 1, 1)]
POINTS = ("air.damper", "air.fan", "air.heating", "hall.lamp", "office.lamp")
QUARTER = 15 * MINUTE
PAST = 30 * SECOND


def wanted(moment):
    """The values of POINTS, just after a quarter of an hour."""
    shown = datetime.fromtimestamp(moment / 1000, BERLIN)
    return damper(shown) + (heating(shown),) + lamps(shown)


def is_open(day):
    return day.weekday() < 5 and day not in CLOSED


def is_market(day):
    return day.weekday() == 5 and day not in CLOSED


def damper(shown):
    """The damper and the fan; where the damper is let go it stands at 50 % for ten minutes, so at the quarter of its end alone."""
    day, clock = shown.date(), (shown.hour, shown.minute)
    if is_open(day):
        if (11, 30) <= clock < (13, 0):
            return 85_000, 3
        if (6, 30) <= clock < (18, 0):
            return 60_000, 2
        if clock == (18, 0):
            return 50_000, 1
    if day in CLOSED:
        if (8, 0) <= clock < (8, 30):
            return 40_000, 2
        if clock == (8, 30):
            return 50_000, 1
    if is_market(day) and clock >= (17, 0):
        return 70_000, 2
    if is_market(day - timedelta(days=1)):
        end = (0, 0) if day in CLOSED else (1, 0)
        if clock < end:
            return 70_000, 2
        if clock == end:
            return 50_000, 1
    return 20_000, 1


def heating(shown):
    day, clock = shown.date(), (shown.hour, shown.minute)
    if 5 <= day.month <= 9:
        return 0
    if is_open(day) and day.weekday() == 0 and (4, 0) <= clock < (5, 30):
        return 80_000
    if is_open(day) and (5, 30) <= clock < (17, 30):
        return 45_000
    return 15_000


def lamps(shown):
    day, clock = shown.date(), (shown.hour, shown.minute)
    comes_again = shown.fold == 1 and shown.hour == 2
    hall = is_open(day) and (6, 30) <= clock < (18, 30) or day not in CLOSED and ((2, 30) <= clock < (3, 30) or comes_again)
    office = is_open(day) and (6, 30) <= clock < (18, 30) and not (12, 0) <= clock < (12, 45)
    return int(hall), int(office)


class Year(unittest.TestCase):
    def setUp(self):
        self.start, self.end = at("2028-01-01"), at("2029-01-01")
        self.clock = TestClock(self.start)
        self.server = Script(self.clock)
        self.addCleanup(self.server.end)
        self.jumped = []
        self.loop = asyncio.new_event_loop()
        self.addCleanup(self.loop.close)

    def schedule(self):
        """The example; leases of six hours, so that a year has fewer of them."""
        with open(WEEK, encoding="utf-8") as file:
            text = file.read()
        self.assertEqual(text.count('catalogue = "plant.toml"'), 1)
        with tempfile.TemporaryDirectory() as folder:
            path = os.path.join(folder, "week.toml")
            with open(path, "w", encoding="utf-8") as file:
                file.write(text.replace('catalogue = "plant.toml"', f'catalogue = "{PLANT}"\nlease = "6h"'))
            return Reader(path, self.start).schedule

    def pulse(self):
        self.loop.run_until_complete(self.running.pulse())

    def next(self):
        due = [one.at for one in self.running.keeper.due.values() if one.at > self.clock.now]
        return min(due + [self.running.next_change()])

    def test_a_year(self):
        began = stopwatch.process_time()
        self.server.attach()
        self.running = Running(self.schedule(), self.server, self.clock, lambda line: None)
        reloads, jumps, looks, quarter = [at("2028-03-01"), at("2028-09-01T10:00")], [(at("2028-06-07T10:07"), 2), (at("2028-06-08T10:07"), -2)], 0, self.start
        while self.clock.now < self.end:
            self.pulse()
            following = min(self.next(), self.end)
            while quarter < following:
                looks += self.look(quarter)
                quarter += QUARTER
            if reloads and following > reloads[0]:
                self.clock.now = reloads.pop(0)
                self.running.take(self.schedule())
            elif jumps and following > jumps[0][0]:
                self.jump(*jumps.pop(0))
            else:
                self.clock.now = following
        self.assertEqual((reloads, jumps, looks), ([], [], 366 * 96))
        self.leases_end_in_time()
        self.nothing_else_ended()
        self.devices_are_written_at_edges()
        print(f"a year: {looks} looks at {len(POINTS)} points, {self.server.asked} requests, {len(self.server.made)} of them submits and renewals, "
              f"{stopwatch.process_time() - began:.0f} s of our own")

    def look(self, quarter):
        """What is let go has a lease of a millisecond, so it is looked at two after the quarter."""
        now, self.clock.now = self.clock.now, max(self.clock.now, quarter + 2)
        self.assertEqual(tuple(self.server.values(POINTS).values()), wanted(quarter), datetime.fromtimestamp(quarter / 1000, BERLIN))
        self.clock.now = max(now, self.clock.now)
        return 1

    def jump(self, moment, hours):
        """The machine's clock is two hours off for a minute, and is seen to be so; the server's is not."""
        self.jumped.append(moment)
        self.clock.now, self.clock.jumped = moment, hours * HOUR
        self.pulse()
        off = wanted((moment + hours * HOUR) // QUARTER * QUARTER)
        self.clock.now += 2
        self.assertEqual(tuple(self.server.values(POINTS).values()), off)
        self.clock.now, self.clock.jumped = moment + MINUTE, 0

    def leases_end_in_time(self):
        """No lease goes more than half a minute past the next moment at which one of its programme's points is to have another value."""
        quarters = range(self.start, self.end + 2 * DAY, QUARTER)
        values = [wanted(quarter) for quarter in quarters]
        edges = {points: [quarter for quarter, before, after in zip(quarters[1:], values, values[1:])
                          if any(before[POINTS.index(one)] != after[POINTS.index(one)] for one in points)]
                 for points in (("air.damper", "air.fan"), ("air.heating",), ("hall.lamp", "office.lamp"))}
        looked = 0
        for when, request, answer in self.server.made:
            points = request.get("points") or [one["point"] for one in request["writes"]]
            group = next(one for one in edges if points[0] in one)
            if any(abs(when - jumped) < 2 * HOUR for jumped in self.jumped):
                continue
            after = edges[group][bisect(edges[group], when)]
            self.assertIn("until", answer)
            self.assertLessEqual(answer["until"], after + PAST, (when, request))
            looked += 1
        self.assertGreater(looked, 5_000)

    def nothing_else_ended(self):
        """No lease ended but by another one of its own, or a millisecond after it was let go."""
        let = {answer["txn"] for _, request, answer in self.server.made if request["op"] == "submit" and request["writes"][0]["lease"] == 1}
        asked = self.server.one({"op": "notices", "from": 1, "max": 1})
        told = self.server.one({"op": "notices", "from": asked["first"], "max": 64})["list"]
        self.assertEqual(len(told), 64)
        for one in told:
            if one["kind"] == "ended":
                self.assertTrue(one["cause"] == "superseded" or one["cause"] == "expired" and one["txn"] in let, one)
        self.assertEqual((self.running.keeper.yielded, self.running.keeper.refused), ({}, {}))

    def devices_are_written_at_edges(self):
        """Each device is written as often as the year has it another value, and no more: renewals and reloads write none."""
        for place, point in enumerate(POINTS):
            values = [DEFAULTS[point]] + [wanted(self.start + number * QUARTER)[place] for number in range(366 * 96)]
            changes = sum(1 for before, after in zip(values, values[1:]) if before != after)
            found = len([one for one in self.server.written if one[1] == point])
            # Two jumps of the clock, there and back, may each add one.
            self.assertLessEqual(abs(found - changes), 8, (point, found, changes))


if __name__ == "__main__":
    unittest.main()
