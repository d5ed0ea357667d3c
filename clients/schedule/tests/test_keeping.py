"""From what is wanted to requests, and the pulse over them, against the built program: `bossd script` takes the moment with each line, so
months pass in seconds. What points are to have is worked out by hand from the weeks below."""

import asyncio
import random
import unittest
from datetime import datetime

from .common import BERLIN, DEFAULTS, HOUR, MINUTE, SECOND, Script, TestClock, at, schedule_of

from bossd_schedule.keeping import Keeper, Wish
from bossd_schedule.running import Running

LEASE, HOLD = 15 * MINUTE, 2 * MINUTE
POINTS = ("air.heating", "hall.lamp", "air.damper")
WEEK = """
zone = "Europe/Berlin"
[[programme]]
name = "offices"
points = ["air.heating", "hall.lamp"]
[[programme.block]]
days = "mon-fri"
from = "06:30"
to = "18:00"
set = { "air.heating" = 21, "hall.lamp" = 1 }
[[programme.block]]
days = "mon-fri"
from = "12:00"
to = "13:00"
set = { "hall.lamp" = 0 }
[[programme.block]]
from = "02:30"
to = "03:30"
set = { "air.heating" = 12 }
[[programme.exception]]
on = ["easter+1"]
[[programme]]
name = "hall"
points = ["air.damper"]
priority = 12
otherwise = 8
[[programme.block]]
days = "sat"
from = "20:00"
to = "02:30"
set = 19
"""


class Case(unittest.TestCase):
    """The schedule over a server under a clock of the test's own."""

    SERVER = Script

    def setUp(self):
        self.clock = TestClock(at("2027-06-01T09:00"))                            # a Tuesday
        self.server = self.SERVER(self.clock)
        self.addCleanup(self.server.end)
        self.loop = asyncio.new_event_loop()
        self.addCleanup(self.loop.close)
        self.said = []
        self.start()

    def start(self, text=WEEK):
        """Another program begins, as the first one is gone."""
        self.server.one({"op": "gone"})
        self.server.attach()
        self.running = Running(schedule_of(text, self.clock.now), self.server, self.clock, self.said.append)

    def pulse(self, moment=None):
        self.clock.now = self.clock.now if moment is None else moment
        self.loop.run_until_complete(self.running.pulse())

    def values(self, moment=None):
        self.clock.now = self.clock.now if moment is None else moment
        return tuple(self.server.values(POINTS).values())

    def other(self, writes, on=3, process="other"):
        self.server.one({"op": "attach", "process": process}, on)
        answer = self.server.one({"op": "submit", "writes": writes}, on)
        self.assertIn("ok", answer)
        return answer["txn"]


class LaterScript(Script):
    """A later server, whose answers have keys that nothing here knows."""

    def _answer(self):
        answer = super()._answer()
        for key in ("slots", "list"):
            if key in answer:
                answer[key] = [one and {**one, "later": 2} for one in answer[key]]
        return {**answer, "later": 1}


class Later(Case):
    SERVER = LaterScript

    def test_its_keys_are_passed_over(self):
        self.pulse()
        self.assertEqual(self.values(), (21_000, 1, 8_000))
        # What stands in its slots is read, as after an answer that did not come.
        self.running._doubtful = True
        self.other([{"point": "air.heating", "value": 15_000, "lease": 3 * HOUR}])
        self.pulse(self.clock.now + SECOND)
        self.assertEqual((self.values(), list(self.running.keeper.yielded)), ((15_000, 1, 8_000), [("air.heating", 16)]))


class Pulses(Case):
    def test_one_that_dies_and_is_back_within_its_hold_moves_no_device(self):
        start = self.clock.now
        self.pulse()
        self.assertEqual(self.values(start + 1), (21_000, 1, 8_000))
        moved = len(self.server.written)
        self.clock.now = start + MINUTE
        self.server.one({"op": "gone"})
        self.clock.now = start + MINUTE + HOLD - 1
        self.start()
        self.pulse()
        self.assertEqual(self.values(start + 5 * MINUTE), (21_000, 1, 8_000))
        self.assertEqual(self.server.written[moved:], [])
        self.server.one({"op": "gone"})
        self.assertEqual(self.values(start + 5 * MINUTE + HOLD - 1), (21_000, 1, 8_000))
        self.assertEqual(self.values(start + 5 * MINUTE + HOLD), tuple(DEFAULTS[point] for point in POINTS))

    def test_one_that_hangs_holds_nothing_half_a_minute_past_the_edge(self):
        self.pulse(at("2027-06-01T11:50"))
        edge = at("2027-06-01T12:00")
        self.assertEqual([self.values(edge + shift)[1] for shift in (0, 30_000 + HOLD - 1, 30_000 + HOLD)], [1, 1, 0])

    def test_a_lease_that_reaches_past_the_edge_is_not_renewed_and_others_are_at_a_third(self):
        self.pulse(at("2027-06-01T11:50"))
        for minute in range(51, 60):
            self.pulse(at(f"2027-06-01T11:{minute}"))
        renewed = [(when, request["points"]) for when, request, _ in self.server.made if request["op"] == "renew"]
        # The damper's next edge is far: its lease of 15 minutes is renewed after five. That of the others ends half a minute past noon.
        self.assertEqual(renewed, [(at("2027-06-01T11:55"), ["air.damper"])])

    def test_a_slot_that_another_process_took_is_left_until_the_next_edge_of_it(self):
        start = at("2027-06-01T11:50")
        self.pulse(start)
        self.other([{"point": "air.heating", "value": 15_000, "lease": 3 * HOUR}])
        self.other([{"point": "hall.lamp", "value": 1, "lease": 1}])
        for minute in range(1, 9):
            self.pulse(start + minute * MINUTE)
        self.assertEqual(self.values(start + 9 * MINUTE), (15_000, 0, 8_000))
        self.assertEqual([line for line in self.said if "other took it" in line], [
            f"{point} at priority 16: other took it; left to it until something else is wanted there" for point in ("air.heating", "hall.lamp")])
        self.pulse(start + 10 * MINUTE)                                           # noon: the lamp is wanted otherwise, the heating is not
        self.assertEqual(self.running.keeper.yielded.keys(), {("air.heating", 16)})
        self.pulse(at("2027-06-01T13:00"))
        self.assertEqual(self.values()[:2], (15_000, 1))
        self.pulse(at("2027-06-01T18:00"))
        self.pulse(at("2027-06-02T02:30"))
        self.assertEqual(self.values()[0], 12_000)

    def test_a_level_above_changes_nothing_of_what_stands_below(self):
        self.pulse()
        txn = self.other([{"point": "hall.lamp", "value": 0, "priority": 8, "lease": HOUR}])
        self.pulse(self.clock.now + MINUTE)
        self.assertEqual((self.values()[1], self.running.keeper.yielded), (0, {}))
        self.server.one({"op": "cancel", "txn": txn}, 3)
        self.assertEqual(self.values()[1], 1)

    def test_a_reload_takes_back_what_was_left_and_touches_nothing_that_is_the_same(self):
        self.pulse()
        self.other([{"point": "air.heating", "value": 15_000, "lease": 3 * HOUR}])
        self.pulse(self.clock.now + SECOND)
        asked = len(self.server.made)
        self.running.take(schedule_of(WEEK.replace('name = "hall"', 'name = "all of it"'), self.clock.now))
        self.pulse(self.clock.now + SECOND)
        self.assertEqual(self.values(), (21_000, 1, 8_000))
        self.assertEqual([[one["point"] for one in request["writes"]] for _, request, _ in self.server.made[asked:]], [["air.heating"]])
        self.pulse(self.clock.now + LEASE // 2)                                   # and what has another name now is renewed as before
        self.assertEqual([request["length"] for _, request, _ in self.server.made if request["op"] == "renew" and "air.damper" in request["points"]], [LEASE])

    def test_another_priority_is_taken_before_the_old_slot_is_let_go(self):
        self.pulse()
        self.values()
        moved = len(self.server.written)
        self.running.take(schedule_of(WEEK.replace("priority = 12", "priority = 14"), self.clock.now))
        self.pulse(self.clock.now + SECOND)
        self.assertEqual(self.values(self.clock.now + SECOND), (21_000, 1, 8_000))
        slots = self.server.one({"op": "array", "point": "air.damper"}, 2)["slots"]
        self.assertEqual([place for place, slot in enumerate(slots, 1) if slot], [14])
        self.assertEqual(self.server.written[moved:], [])

    def test_what_is_let_go_plays_the_way_back(self):
        self.start(WEEK.replace('name = "offices"', 'name = "offices"\nback = { "air.heating" = [[17, "1h"], [9, "30m"]] }'))
        self.pulse(at("2027-06-01T17:59"))
        edge = at("2027-06-01T18:00")
        self.pulse(edge)
        self.assertEqual([self.values(edge + shift)[0] for shift in (1, HOUR, HOUR + 1, 90 * MINUTE, 90 * MINUTE + 1)], [17_000, 17_000, 9_000, 9_000, 0])

    def test_what_is_refused_is_left_out_and_the_rest_is_made(self):
        self.running.wishes, self.running.decided_at = {}, None
        text = '[[programme]]\nname = "wrong"\npoints = ["hall.lamp", "air.heating", "air.fan"]\npriority = 9\notherwise = 1\nzone = "UTC"\n'
        schedule = schedule_of('zone = "UTC"\n' + text, self.clock.now)
        schedule.plays[0].programme.otherwise.update({"hall.lamp": 7, "air.fan": 9})    # as with another catalogue than the server's
        self.running.take(schedule)
        self.pulse()
        self.pulse(self.clock.now + SECOND)
        self.assertEqual(len([request for _, request, answer in self.server.made if answer.get("error") == "out-of-range"]), 2)
        self.assertEqual(self.running.keeper.refused.keys(), {("hall.lamp", 9), ("air.fan", 9)})
        self.assertEqual(self.values()[0], 1_000)
        self.server.lost()
        self.pulse(self.clock.now + SECOND)                                       # the server may have other rules now
        self.pulse(self.clock.now + SECOND)
        self.assertEqual(len([request for _, request, answer in self.server.made if answer.get("error") == "out-of-range"]), 4)

    def test_a_lost_connection_is_bridged(self):
        self.pulse()
        self.values()
        moved = len(self.server.written)
        self.clock.now += SECOND
        self.server.lost()
        self.pulse(self.clock.now + SECOND)
        self.assertEqual(self.values(self.clock.now + HOLD + LEASE // 3), (21_000, 1, 8_000))
        self.assertEqual(self.server.written[moved:], [])

    def test_an_answer_that_is_lost_is_no_other_process(self):
        for lose in ("before", "after"):
            self.pulse(at("2027-06-01T11:59"))
            self.server.lose = lose
            self.pulse(at("2027-06-01T12:00"))
            self.assertIsNone(self.server.lose)
            self.pulse(at("2027-06-01T12:00") + SECOND)
            self.pulse(at("2027-06-01T12:00") + 20 * SECOND)
            self.assertEqual((self.values(), self.running.keeper.yielded), ((21_000, 0, 8_000), {}), lose)
            self.assertEqual([line for line in self.said if "took it" in line], [])
            self.assertTrue(self.running.is_up)

    def test_an_answer_that_is_lost_and_then_another_process(self):
        self.pulse(at("2027-06-01T11:59"))
        self.server.lose = "before"
        self.pulse(at("2027-06-01T12:00"))
        self.other([{"point": "air.heating", "value": 15_000, "lease": 3 * HOUR}])
        self.pulse(at("2027-06-01T12:00") + 20 * SECOND)
        self.assertEqual((self.values(), self.running.keeper.yielded.keys()), ((15_000, 0, 8_000), {("air.heating", 16)}))

    def test_after_notices_that_are_gone_all_is_as_it_is_wanted(self):
        self.pulse()
        self.other([{"point": "air.heating", "value": 15_000, "lease": HOUR}])
        for _ in range(400):                                                      # 1,200 notices of our own process, which it does not read
            for point, value in (("air.damper", 9_000), ("hall.lamp", 1)):
                self.server.one({"op": "submit", "writes": [{"point": point, "value": value, "priority": 3, "lease": HOUR, "revert": [[1, 1]]}]})
        for point in ("air.damper", "hall.lamp"):
            txn = self.server.one({"op": "array", "point": point}, 2)["slots"][2]["txn"]
            self.server.one({"op": "cancel", "txn": txn})
        self.pulse(self.clock.now + SECOND)
        self.assertEqual(self.running.keeper.yielded.keys(), {("air.heating", 16)})
        self.assertEqual(self.values(self.clock.now + SECOND), (15_000, 1, 8_000))
        for _ in range(20):
            self.pulse(self.clock.now + MINUTE)
        self.assertEqual(self.values(), (15_000, 1, 8_000))

    def test_a_clock_that_jumps(self):
        self.pulse(at("2027-06-01T11:59"))
        self.clock.jumped = 2 * MINUTE
        self.pulse(at("2027-06-01T11:59") + SECOND)
        self.assertEqual(self.values(), (21_000, 0, 8_000))
        self.clock.jumped = -2 * HOUR
        self.pulse(at("2027-06-01T11:59") + 2 * SECOND)
        self.assertEqual(self.values(), (21_000, 1, 8_000))

    def test_kills_and_sleeps_at_random(self):
        # The server's time never goes back, and three of the times have a change of the clock in them.
        for seed, start in enumerate(("2027-06-15", "2027-10-25", "2028-03-20", "2028-10-20")):
            chance = random.Random(seed)
            self.clock.now = at(start)
            self.start()
            died = 0
            for _ in range(60):
                self.pulse()
                following = self.running.next_change()
                for moment in sorted(chance.randrange(self.clock.now + 1, following) for _ in range(2)):
                    self.keep_up(moment)
                    # What a dead one wanted may outlast its edge so long.
                    if moment > died + HOLD + MINUTE:
                        self.assertEqual(self.values(moment), wanted(moment), (seed, moment))
                self.keep_up(following)
                if chance.random() < 0.2:
                    died = self.clock.now
                    self.server.one({"op": "gone"})
                    self.clock.now += chance.choice((SECOND, MINUTE, 5 * MINUTE, HOUR))
                    self.start()
                elif chance.random() < 0.1:                                       # it slept, and all leases ran out
                    self.clock.now += chance.choice((5 * HOUR, 30 * HOUR))
            self.server.one({"op": "gone"})

    def keep_up(self, moment):
        """Goes on to a moment, and pulses in between where something is to be renewed."""
        while True:
            due = [one.at for one in self.running.keeper.due.values() if one.at > self.clock.now]
            if not due or min(due) >= moment:
                break
            self.pulse(min(due))
        self.pulse(moment)


def wanted(moment):
    """What the week above wants, by the clock on the wall alone."""
    shown = datetime.fromtimestamp(moment / 1000, BERLIN)
    clock, weekday = (shown.hour, shown.minute), shown.weekday()
    comes_twice = shown.replace(fold=0).utcoffset() > shown.replace(fold=1).utcoffset()
    first, second = comes_twice and not shown.fold, comes_twice and shown.fold
    is_easter_monday = (shown.year, shown.month, shown.day) in ((2027, 3, 29), (2028, 4, 17), (2029, 4, 2))
    heat, lamp, damper = 0, 0, 8_000
    if weekday < 5 and not is_easter_monday and (6, 30) <= clock < (18, 0):
        heat, lamp = 21_000, 0 if clock[0] == 12 else 1
    if ((2, 30) <= clock < (3, 30) or second) and not is_easter_monday:
        heat = 12_000
    if weekday == 5 and clock >= (20, 0) or weekday == 6 and (clock < (2, 30) or first):
        damper = 19_000
    return heat, lamp, damper


class Kept(unittest.TestCase):
    def test_what_is_in_doubt_is_set_anew_and_what_stands_is_left(self):
        wishes = {(point, 16): ("g", Wish(1)) for point in "abcd"}
        keeper = Keeper()
        keeper.accepted(keeper.changes(wishes)[0], 5, 0, 1000)
        keeper.doubt([("d", 16)], {("a", 16): (5, 1), ("b", 16): (6, 1), ("d", 16): (7, 1)})
        self.assertIsNone(keeper.ended(5, "b", "superseded"))
        self.assertEqual([one.slots for one in keeper.changes(wishes)], [(("b", 16), ("c", 16))])
        self.assertEqual(keeper.yielded.keys(), {("d", 16)})
        self.assertEqual([one["points"] for one in keeper.renewals(1000, 0, lambda group: 1000)], [["a"]])

    def test_33_points_are_two_transactions(self):
        changes = Keeper().changes({(f"p{number}", 16): ("g", Wish(1)) for number in range(33)})
        self.assertEqual([len(change.slots) for change in changes], [32, 1])


if __name__ == "__main__":
    unittest.main()
