"""Tests of the parts that ask nobody: what comes next, who may ask, whether the server answers."""

import os
import stat
import tempfile
import unittest

from tests import common  # noqa: F401, which finds the modules

import bossd
from bossd_console import answering, asked, coming, guard
from bossd_console.catalogue import Point, described, read_catalogue
from bossd_console.operating import Operator, Unmade
from bossd_console.picture import Picture
from tests.stub import Stub

BOTH = bossd.Slots("p", 20, {8: bossd.Slot(80, 1, until=100), 12: bossd.Slot(35, 2, until=300)})


def told(found):
    return [(one.at, one.value, one.basis, one.sure) for one in found]


class WhatComes(unittest.TestCase):
    def test_nobody_holds_it(self):
        self.assertEqual(told(coming.what_comes(bossd.Slots("p", 20, {}), {}, 5)), [(5, 20, "default", True)])

    def test_a_lease_below_comes_before_every_reversion(self):
        self.assertEqual(told(coming.what_comes(BOTH, {1: [(60, 1_000)]}, 5)),
                         [(5, 80, "lease", True), (100, 35, "lease", True), (300, 60, "pending", True), (1_100, 20, "default", False)])

    def test_all_is_sure_where_the_ways_are_known(self):
        found = coming.what_comes(BOTH, {1: [(60, 150), (50, 150)], 2: []}, 5)
        self.assertEqual(told(found), [(5, 80, "lease", True), (100, 35, "lease", True), (300, 50, "pending", True), (400, 20, "default", True)])

    def test_a_reversion_under_way_whose_steps_are_known_goes_through_them(self):
        slots = bossd.Slots("p", 20, {8: bossd.Slot(60, 1, end=500)})
        self.assertEqual(told(coming.what_comes(slots, {1: [(60, 100), (50, 200)]}, 250)),
                         [(250, 60, "pending", True), (300, 50, "pending", True), (500, 20, "default", True)])
        self.assertEqual(told(coming.what_comes(slots, {}, 250)), [(250, 60, "pending", True), (500, 20, "default", False)])

    def test_a_lease_before_it_is_no_matter_of_doubt(self):
        self.assertEqual(told(coming.what_comes(BOTH, {}, 5))[1], (100, 35, "lease", True))

    def test_what_a_take_brings(self):
        slots = coming.with_take(BOTH, 8, 50, 200)
        self.assertEqual(told(coming.what_comes(slots, {0: [], 2: []}, 5)), [(5, 50, "lease", True), (200, 35, "lease", True), (300, 20, "default", True)])

    def test_a_take_below_another_lease_does_not_show(self):
        slots = coming.with_take(BOTH, 10, 50, 200)
        self.assertEqual([one.value for one in coming.what_comes(slots, {0: []}, 5)], [80, 50, 35, 20])

    def test_what_a_prolongation_brings(self):
        self.assertEqual(coming.what_comes(coming.with_prolonged(BOTH, 1, 250), {}, 5)[1].at, 250)
        self.assertEqual(coming.with_prolonged(BOTH, 1, 50), BOTH)

    def test_what_a_release_brings(self):
        lone = bossd.Slots("p", 20, {8: bossd.Slot(80, 1, until=100)})
        self.assertEqual(told(coming.what_comes(coming.with_release(lone, 1, {1: [(60, 30)]}, 5), {1: [(60, 30)]}, 5)),
                         [(5, 60, "pending", True), (35, 20, "default", True)])
        self.assertEqual(coming.what_comes(coming.with_release(BOTH, 1, {}, 5), {}, 5)[0].value, 35)


class StepsToCome(unittest.TestCase):
    """Three steps of 100, 200 and 300 ms; the last two have one value."""
    WAY = [(60, 100), (50, 200), (50, 300)]

    def steps(self, slot, at):
        return [(part.start, part.end, part.value) for part in coming.steps_to_come(8, slot, self.WAY, at)]

    def reverting(self, value, at):
        return self.steps(bossd.Slot(value, 1, end=1_600), at)

    def test_after_a_lease_all_come(self):
        expected = [(1_000, 1_100, 60), (1_100, 1_300, 50), (1_300, 1_600, 50)]
        self.assertEqual(self.steps(bossd.Slot(80, 1, until=1_000), 5), expected)
        self.assertEqual(self.steps(bossd.Slot(80, 1, until=1_000), 1_200), expected)

    def test_in_a_reversion_those_after_the_one_that_stands(self):
        self.assertEqual(self.reverting(60, 1_050), [(1_100, 1_300, 50), (1_300, 1_600, 50)])
        self.assertEqual(self.reverting(50, 1_250), [(1_300, 1_600, 50)])
        self.assertEqual(self.reverting(50, 1_350), [])

    def test_the_answered_value_counts_where_the_clock_is_a_little_before_or_after(self):
        self.assertEqual(len(self.reverting(60, 1_101)), 2)
        self.assertEqual(len(self.reverting(60, 999)), 2)
        self.assertEqual(len(self.reverting(50, 1_099)), 1)

    def test_what_is_not_known(self):
        self.assertIsNone(coming.steps_to_come(8, bossd.Slot(60, 1, end=1_600), None, 1_050))
        self.assertEqual(coming.steps_to_come(8, bossd.Slot(80, 1, until=1_000), [], 5), [])


class WhoMayAsk(unittest.TestCase):
    def setUp(self):
        self.guard = guard.Guard(guard.hosts_of("127.0.0.1", 8080, ["panel.example"]), "t" * 20)

    def refusal(self, path="/api/points", **headers):
        return self.guard.refusal(path, {"Host": "127.0.0.1:8080", **{key.replace("_", "-"): value for key, value in headers.items()}})

    def test_hosts(self):
        for host in ["127.0.0.1:8080", "localhost:8080", "LOCALHOST:8080", "[::1]:8080", "panel.example"]:
            self.assertIsNone(self.refusal(Host=host), host)
        for host in ["", "127.0.0.1", "127.0.0.1:80", "evil.example:8080", "panel.example:8080", "127.0.0.1:8080.evil.example"]:
            self.assertIsNotNone(self.refusal(Host=host), host)

    def test_origins(self):
        for origin in ["http://127.0.0.1:8080", "http://localhost:8080", "https://panel.example"]:
            self.assertIsNone(self.refusal(Origin=origin), origin)
        for origin in ["null", "http://evil.example", "http://127.0.0.1:8081", "http://127.0.0.1", "file://"]:
            self.assertIsNotNone(self.refusal(Origin=origin), origin)

    def test_sites(self):
        self.assertIsNone(self.refusal(Sec_Fetch_Site="same-origin"))
        self.assertIsNone(self.refusal("/", Sec_Fetch_Site="cross-site"))
        for site in ["cross-site", "same-site"]:
            self.assertIsNotNone(self.refusal(Sec_Fetch_Site=site))

    def test_the_token(self):
        self.assertTrue(self.guard.allows({"Authorization": "Bearer " + "t" * 20}))
        for given in ["", "Bearer", "Bearer ", "Bearer tt", "Basic " + "t" * 20, "Bearer " + "t" * 21, "Bearer é"]:
            self.assertFalse(self.guard.allows({"Authorization": given}), given)
        self.assertFalse(guard.Guard(frozenset(), None).allows({"Authorization": "Bearer "}))

    def test_a_file_with_a_token(self):
        with tempfile.TemporaryDirectory() as folder:
            path = os.path.join(folder, "token")
            made = guard.token_in(path)
            self.assertEqual((guard.token_in(path), stat.S_IMODE(os.stat(path).st_mode)), (made, 0o600))
            with open(path, "w", encoding="utf-8") as file:
                file.write("short\n")
            with self.assertRaises(ValueError):
                guard.token_in(path)


class WhetherItAnswers(unittest.TestCase):
    def test_it_goes_and_comes_back(self):
        kept = answering.Answering()
        kept.answered()
        self.assertEqual((kept.state.state, kept.state.away), ("up", None))
        kept.silent(True, 1.0)
        self.assertEqual(kept.state.state, "up")
        kept.silent(True, 4.0)
        self.assertIn("none of its workers is free", kept.state.sentence())
        kept.silent(False, 4.0)
        self.assertIn("down", kept.state.sentence())
        kept.answered("stopped")
        self.assertIn("disk", kept.state.sentence())
        kept.answered()
        self.assertEqual(kept.state.state, "up")
        self.assertIsNotNone(kept.state.away)
        changed = kept.changed
        kept.answered()
        self.assertEqual(kept.changed, changed)


class WhatIsAsked(unittest.TestCase):
    def setUp(self):
        self.points = read_catalogue(common.CATALOGUE).points

    def change(self, do="take", **more):
        body = {"id": "x", "point": "ahu1.damper", "value": 45_000, "length": 60_000, **more}
        return asked.change_of(do, {key: value for key, value in body.items() if value is not None}, self.points)

    def test_what_is_left_out(self):
        self.assertEqual((self.change().priority, self.change().way, self.change().policy), (8, [], "keep"))
        self.assertEqual(self.change(policy="abort").policy, "abort")
        self.assertEqual(self.change("release", txn=3, length=None).txn, 3)

    def test_what_is_none(self):
        faulty = [
            {"point": "no.point"}, {"id": None}, {"id": "Ä"}, {"value": 100_001}, {"value": 1.5}, {"value": True}, {"value": "1"}, {"priority": 6},
            {"priority": 0}, {"length": 0}, {"length": None}, {"length": 604_800_001}, {"revert": [1]}, {"revert": [[1, 0]]}, {"revert": [[0, 1]] * 9},
            {"revert": {}}, {"policy": "always"}, {"value": None},
        ]
        for wrong in faulty:
            with self.assertRaises(asked.Faulty, msg=str(wrong)):
                self.change(**wrong)
        with self.assertRaises(asked.Faulty):
            self.change("prolong")
        with self.assertRaises(asked.Faulty):
            asked.change_of("take", [], self.points)


    def test_bounds_are_told_in_the_units_of_the_point(self):
        for more, why in [
            ({"point": "boiler.flow", "value": 95_000}, "95.0 °C does not fit: a value is to be 20.0 to 75.0 °C, in steps of 0.001"),
            ({"point": "boiler.flow", "value": 0}, "0.0 °C does not fit"),
            ({"point": "boiler.flow", "value": None}, "a value is to be 20.0 to 75.0 °C"),
            ({"point": "boiler.flow", "value": 30_000, "revert": [[5_000, 1]]}, "5.0 °C does not fit"),
            ({"point": "boiler.pump", "value": 2}, "2 does not fit: a value is to be 0 or 1"),
        ]:
            with self.subTest(why), self.assertRaises(asked.Faulty) as caught:
                self.change(**more)
            self.assertIn(why, str(caught.exception))


class WhatIsDenied(unittest.IsolatedAsyncioTestCase):
    async def test_a_take_that_the_rules_deny(self):
        stub = Stub()
        self.addCleanup(stub.stop)
        catalogue = read_catalogue(common.CATALOGUE)
        operator = Operator(stub.address, "operator", Picture(catalogue), lambda: None)
        for place, (rule, why) in enumerate([(2, "by rule 2 of the server's rules file"), (0, "since no rule of the server's rules file is for it")]):
            stub.rule = rule
            with self.assertRaises(Unmade) as caught:
                await operator.take(f"c-{place}", "ahu1.damper", 90_000, 8, 60_000, [])
            self.assertEqual((caught.exception.error, str(caught.exception)), ("denied", f"operator may not write this point at this priority, {why}"))
        await operator._client.close()


class MinimumTimes(unittest.TestCase):
    def test_they_are_told_where_there_are_any(self):
        with tempfile.TemporaryDirectory() as folder:
            path = os.path.join(folder, "pump.toml")
            with open(path, "w") as file:
                file.write('drivers = ["heat"]\n' + "".join(
                    f'[[point]]\nname = "{name}"\ndriver = "heat"\nkind = "binary"\ndefault = 0\n{more}' for name, more in (("pump", "min_on = 300000\n"), ("lamp", ""))))
            points = read_catalogue(path).points
        self.assertEqual((described(points["pump"])["min_on"], described(points["pump"])["min_off"]), (300_000, 0))
        self.assertNotIn("min_on", described(points["lamp"]))


class WhatADeviceFollows(unittest.TestCase):
    """A pump that stays on for 100 ms once it is on, and off for 40."""
    PUMP = Point("pump", "heat", "binary", 0, 1, 0, min_on=100, min_off=40)

    def followed(self, device, *wanted, basis="pending", priority=9):
        """What the device does where it is wanted from these moments on to have these values."""
        found = coming.followed([coming.Coming(at, value, basis, priority, 1, True) for at, value in wanted], self.PUMP, device)
        return [(one.device, one.device_at) for one in found]

    def device(self, mark, took=None, since=None, value=0):
        return coming.device_of(self.PUMP, bossd.Reading("pump", value, "default", mark, took=took, since=since), 1_000)

    def test_what_is_known_of_it(self):
        self.assertEqual(self.device("pending", 1, 980), (1, 1_080, True))
        self.assertEqual(self.device("pending", 0, 980, value=1), (0, 1_020, True))
        # Since when it has its value is not told: at the latest since now.
        self.assertEqual(self.device("settled", value=1), (1, 1_100, False))
        self.assertIsNone(coming.device_of(Point("lamp", "heat", "binary", 0, 1, 0), bossd.Reading("lamp", 0, "default", "settled"), 1_000))

    def test_it_runs_on(self):
        running = coming.Device(1, 1_080, True)
        self.assertEqual(self.followed(running, (1_000, 0)), [("then", 1_080)])
        # From 1080 on it is off, and for 40.
        self.assertEqual(self.followed(running, (1_000, 0), (1_090, 1)), [("then", 1_080), ("then", 1_120)])
        self.assertEqual(self.followed(running, (1_000, 0), (1_120, 1)), [("then", 1_080), (None, None)])
        # What is replaced before is not written.
        self.assertEqual(self.followed(running, (1_000, 0), (1_080, 1)), [("not", None), (None, None)])

    def test_a_lease_at_1_to_5_is_not_held(self):
        running = coming.Device(1, 1_080, True)
        self.assertEqual(self.followed(running, (1_000, 0), basis="lease", priority=5), [(None, None)])
        self.assertEqual(self.followed(running, (1_000, 0), basis="pending", priority=5), [("then", 1_080)])
        self.assertEqual(self.followed(running, (1_000, 0), basis="lease", priority=8), [("then", 1_080)])

    def test_where_it_is_not_known_since_when(self):
        running = coming.Device(1, 1_100, False)
        # It goes off at 1100, or sooner; whatever the look, at 1150 at the latest.
        self.assertEqual(self.followed(running, (1_000, 1), (1_050, 0)), [(None, None), ("by", 1_150)])
        self.assertEqual(self.followed(running._replace(free=1_110), (1_010, 1), (1_050, 0)), [(None, None), ("by", 1_150)])
        # An hour later no time keeps it any more, and from then on all is known: off from 5000, on from 5040 at the earliest.
        self.assertEqual(self.followed(running, (1_000, 1), (5_000, 0), (5_010, 1)), [(None, None), (None, None), ("then", 5_040)])
        # By 1060 it may be off or on yet; off since then it would be free at 1100.
        self.assertEqual(self.followed(running, (1_000, 0), (1_060, 1)), [("perhaps", None), ("by", 1_100)])
        # A lease at 1 to 5 is written at once, whatever the device has.
        self.assertEqual(self.followed(coming.Device(None, 1_100, False), (1_000, 0), basis="lease", priority=5), [(None, None)])
        # Off since 1090, it is free at 1130.
        self.assertEqual(self.followed(running, (1_000, 0), (1_090, 1)), [("perhaps", None), ("by", 1_130)])


if __name__ == "__main__":
    unittest.main()
