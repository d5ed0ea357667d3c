"""Tests of what is held, and of what is asked for that. Moments and lengths are milliseconds."""

import asyncio
import json
import types
import unittest

from tests import common

import bossd
from bossd_mqtt.holding import Holding, clock
from bossd_mqtt.keeping import Held, Keeper
from bossd_mqtt.looking import Looking
from bossd_mqtt.saying import Saying
from bossd_mqtt.settings import Settable
from bossd_mqtt.topics import Point, Topics

ONE = Settable(12, 300_000, 28_800_000, 60_000, ((50_000, 3_600_000),))
PLAIN = Settable(16, 300_000, 28_800_000, 0, ())


def keeper(count=2):
    return Keeper({f"p{place}": ONE for place in range(count)} | {"plain": PLAIN})


class Case(unittest.TestCase):
    def setUp(self):
        self.keeper = keeper()

    def take(self, name="p0", value=7, txn=1, ends=1_000_000, now=0):
        self.keeper.taken(name, value, txn, ends, now)


class Writes(Case):
    def test_its_own_value_comes_first_on_its_way_back(self):
        self.assertEqual(self.keeper.taking("p0", 7, 28_800_000), {
            "point": "p0", "value": 7, "priority": 12, "lease": 300_000, "revert": [[7, 60_000], [50_000, 3_600_000]]})
        self.assertEqual(self.keeper.taking("plain", 7, 28_800_000)["revert"], [])

    def test_no_lease_is_longer_than_what_was_asked(self):
        self.assertEqual([self.keeper.taking("p0", 7, left)["lease"] for left in (10_000, 1, 299_999, 300_001)], [10_000, 1_000, 299_999, 300_000])

    def test_what_is_let_go_has_its_way_back_and_no_hold(self):
        self.take()
        self.assertEqual(self.keeper.letting("p0"), {"point": "p0", "value": 7, "priority": 12, "lease": 1, "revert": [[50_000, 3_600_000]]})


class Renewals(Case):
    def test_after_a_third_of_the_lease(self):
        self.take()
        self.take("p1")
        self.assertEqual(self.keeper.renewals(99_999), [])
        self.assertEqual(self.keeper.renewals(100_000), [{"op": "renew", "txn": 1, "length": 300_000, "points": ["p0", "p1"]}])
        self.keeper.renewed(1, ["p0", "p1"], 300_000, 100_000)
        self.assertEqual((self.keeper.renewals(199_999), len(self.keeper.renewals(200_000))), ([], 1))

    def test_the_last_one_is_cut(self):
        self.take(ends=400_000)
        self.assertEqual(self.keeper.renewals(150_000), [{"op": "renew", "txn": 1, "length": 250_000, "points": ["p0"]}])
        self.assertEqual((self.keeper.renewals(400_000), self.keeper.over(399_999), self.keeper.over(400_000)), ([], [], ["p0"]))

    def test_a_point_that_is_gone_is_not_named(self):
        self.take()
        self.take("p1")
        self.assertTrue(self.keeper.ended(1, "p1", "superseded"))
        self.assertEqual(self.keeper.renewals(100_000)[0]["points"], ["p0"])

    def test_at_most_32_are_named(self):
        self.keeper = keeper(33)
        for place in range(33):
            self.take(f"p{place}")
        self.assertEqual([len(one["points"]) for one in self.keeper.renewals(100_000)], [32, 1])


class Again(Case):
    def test_the_same_value_is_wanted_for_longer(self):
        self.take(ends=400_000)
        self.assertTrue(self.keeper.prolonged("p0", 7, 900_000, 50_000))
        self.assertEqual(self.keeper.renewals(50_000)[0]["length"], 300_000)
        self.assertFalse(self.keeper.prolonged("p0", 8, 900_000, 50_000))
        self.assertFalse(self.keeper.prolonged("p1", 7, 900_000, 50_000))

    def test_what_is_over_or_lost_is_no_renewal(self):
        self.take(ends=400_000)
        self.assertFalse(self.keeper.prolonged("p0", 7, 900_000, 400_000))
        self.keeper.ended(1, "p0", "died")
        self.assertFalse(self.keeper.prolonged("p0", 7, 900_000, 50_000))


class Ends(Case):
    def test_what_died_or_expired_is_taken_anew(self):
        for cause in ("died", "expired"):
            self.take()
            self.assertFalse(self.keeper.ended(1, "p0", cause))
            self.assertEqual((self.keeper.anew(999_999), self.keeper.anew(1_000_000), self.keeper.renewals(500_000)), (["p0"], [], []))

    def test_what_others_took_is_not(self):
        for cause in ("superseded", "fault", "cancelled"):
            self.take()
            self.assertTrue(self.keeper.ended(1, "p0", cause))
            self.assertEqual(self.keeper.held, {})

    def test_of_an_older_transaction_of_ones_own(self):
        self.take()
        self.take(value=8, txn=2)
        self.assertFalse(self.keeper.ended(1, "p0", "superseded"))
        self.assertEqual(self.keeper.held["p0"].txn, 2)

    def test_all(self):
        self.take()
        self.keeper.doubtful["p1"] = Held(7, None, 9, 0)
        self.keeper.end_all(5)
        self.assertEqual((self.keeper.over(5), self.keeper.anew(5), self.keeper.doubtful), (["p0"], [], {}))


class Doubt(Case):
    OWN = bossd.Slot(7, 4, until=9)

    def test_what_stands_stays(self):
        self.take()
        self.keeper.found("p0", self.OWN, True, 5)
        self.assertEqual(self.keeper.held["p0"], Held(7, 4, 1_000_000, 5))

    def test_what_another_has_is_lost(self):
        self.take()
        self.keeper.found("p0", self.OWN, False, 5)
        self.assertEqual(self.keeper.held, {})

    def test_what_is_gone_is_taken_anew(self):
        for slot in (None, bossd.Slot(7, 1, end=9), bossd.Slot(8, 4, until=9)):
            self.take()
            self.keeper.found("p0", slot, True, 5)
            self.assertEqual(self.keeper.anew(5), ["p0"], slot)

    def test_what_was_not_answered_counts_where_it_stands(self):
        self.take(value=6)
        self.keeper.doubtful["p0"] = Held(7, None, 2_000_000, 0)
        self.keeper.found("p0", self.OWN, True, 5)
        self.assertEqual((self.keeper.held["p0"], self.keeper.doubtful), (Held(7, 4, 2_000_000, 5), {}))

    def test_and_is_not_asked_again_where_it_does_not(self):
        self.keeper.doubtful["p0"] = Held(7, None, 2_000_000, 0)
        self.keeper.found("p0", None, False, 5)
        self.assertEqual((self.keeper.held, self.keeper.doubtful), ({}, {}))


class Together(Case):
    def test_many_transactions_become_few(self):
        self.keeper = keeper(80)
        for place in range(80):
            self.take(f"p{place}", txn=place + 1)
        self.assertEqual(self.keeper.together(99_999), [])
        found = self.keeper.together(100_000)
        self.assertEqual([len(part) for part in found], [32, 32, 16])
        for number, part in enumerate(found):
            for name in part:
                self.take(name, txn=100 + number, now=100_000)
        self.assertEqual((self.keeper.together(200_000), len(self.keeper.renewals(200_000))), ([], 3))

    def test_a_few_are_left_alone(self):
        self.keeper = keeper(64)
        for place in range(64):
            self.take(f"p{place}", txn=place + 1)
        self.assertEqual(self.keeper.together(100_000), [])


class Turns(unittest.TestCase):
    """What is asked while something else is under way, over a server that waits."""

    class Server:
        process = "mqtt"

        def __init__(self):
            self.asked, self.waits = [], asyncio.Event()

        async def submit(self, writes):
            self.asked.append([(write["point"], write["value"], write["lease"]) for write in writes])
            await self.waits.wait()
            return len(self.asked)

        async def ask(self, request):
            return {"first": 1, "next": 1, "list": []}

        def attached_anew(self):
            return False

    def run_it(self, ends):
        """A command comes for a point while it is to be asked for something else; gives what was asked, and what is held."""
        async def run():
            server = self.Server()
            holding = Holding(server, keeper(), Saying())
            holding._doubts = False
            holding.keeper.held["p0"] = Held(7, None, clock() + ends, 0)
            tasks = [asyncio.ensure_future(holding.take("p0", 8, 3_600_000))]
            await asyncio.sleep(0)
            tasks.append(asyncio.ensure_future(holding.pulse()))
            for _ in range(9):
                await asyncio.sleep(0)
            server.waits.set()
            await asyncio.gather(*tasks)
            return server.asked, holding.keeper.held["p0"]
        return asyncio.run(run())

    def test_no_older_value_comes_behind_a_newer_one(self):
        for ends in (1_000_000, -1):
            asked, held = self.run_it(ends)
            self.assertEqual(asked, [[("p0", 8, 300_000)]])
            self.assertEqual((held.value, held.txn), (8, 1))


class Later(unittest.TestCase):
    """Over a later server, whose answers have keys that nothing here knows, and over one that tells what a device took last."""

    process = "mqtt"
    READ = {"ok": "read", "point": "p0", "value": 0, "from": "lease", "priority": 12, "txn": 4, "mark": "pending", "took": 1, "since": 1_500, "later": 1}
    ARRAY = {"ok": "array", "point": "p0", "default": 0, "slots": [None] * 11 + [{"value": 7, "txn": 4, "until": 9_000, "later": 2}] + [None] * 4,
             "later": 3}

    async def ask_all(self, requests):
        return [{"read": self.READ, "array": self.ARRAY}[request["op"]] for request in requests]

    async def owners(self, txns):
        return {txn: "mqtt" for txn in txns}

    def test_what_stands_is_found(self):
        holding = Holding(self, keeper(), Saying())
        holding.keeper.held["p0"] = Held(7, None, clock() + 1_000_000, 0)
        asyncio.run(holding._look())
        self.assertEqual(holding.keeper.held["p0"].txn, 4)

    def test_what_a_point_has_is_told(self):
        told = {}
        settings = types.SimpleNamespace(points={"p0": Point("p0", "binary")}, every=1_000, until_every=0, topics=Topics("north"))
        asyncio.run(Looking(settings, self, Saying(), told.update).look(["p0"]))
        self.assertEqual(json.loads(told["north/point/p0/state"]),
                         {"value": 0, "unit": None, "from": "lease", "priority": 12, "owner": "mqtt", "until": 9_000, "device": "pending"})


if __name__ == "__main__":
    unittest.main()
