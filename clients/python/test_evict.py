"""Tests of bossctl evict, against servers that stand for one and against the built program: python3 -m unittest, in this folder."""

import json
import os
import unittest
from unittest import mock

import bossd
import bossd.testing
from bossd import _keys
from bossd.ctl import _evict, _show
from test_bossd import MINUTE, Answering, common
from test_ctl import PLANT, Folder
from test_keys import KEY, MASTER, OTHER, Keyed

DAY = 24 * 60 * MINUTE
# What a stranger leaves who wants to stay: a reversion of as many steps as there may be, each as long as it may be.
STAYS = [(50_000 + 1_000 * step, DAY) for step in range(8)]
END = 1 << 50


def hold(point, priority, value=1, **more):
    return _evict.Hold(_show.Point(point, "field", "binary", 0, 1, 0), priority, bossd.Slot(value, 1, **(more or {"until": END})))


class Parts(unittest.TestCase):
    """Which slots one transaction writes over."""

    def places(self, *held):
        return [[one.place for one in part] for part in _evict.parts(list(held))]

    def test_a_point_once_and_the_first_priorities_first(self):
        self.assertEqual(self.places(), [])
        self.assertEqual(self.places(hold("a", 1), hold("a", 8), hold("b", 3), hold("c", 2), hold("c", 4), hold("c", 16)), [
            [("a", 1), ("b", 3), ("c", 2)], [("a", 8), ("c", 4)], [("c", 16)]])

    def test_no_more_than_a_transaction_writes(self):
        names = [f"p{number}" for number in range(70)]
        self.assertEqual([len(part) for part in self.places(*(hold(name, 1) for name in names))], [32, 32, 6])
        self.assertEqual(sum(self.places(*(hold(name, 1) for name in names)), []), [(name, 1) for name in names])

    def test_what_they_are_in_words(self):
        self.assertEqual(_evict.count([]), "nothing")
        self.assertEqual(_evict.count([hold("a", 1)]), "1 lease")
        self.assertEqual(_evict.count([hold("a", 1), hold("b", 1), hold("c", 1, end=END)]), "2 leases and 1 reversion")


class Holding:
    """Stands for a server at which `comfort` holds slots: `slots` has what stands at each place, as PROTOCOL.md writes it. Rule 3 denies it a
    write at the priorities `denied`. Who is not attached may not submit or cancel."""

    def __init__(self, slots, denied=(), taken=False):
        self.slots, self.denied, self.is_taken, self.next = dict(slots), denied, taken, 100
        self.server = Answering(self.answer)

    def ops(self):
        """What was asked that changes anything."""
        return [asked for asked in self.server.asked if asked["op"] in ("attach", "submit", "cancel") and asked.get("txn") != 0]

    def answer(self, asked):
        return getattr(self, asked["op"])(asked)

    def attach(self, asked):
        return {"error": "taken", "session": 7} if self.is_taken else {"ok": "attached", "process": asked["process"], "next": 1}

    def read(self, asked):
        return {"ok": "read", "point": asked["point"], "value": 0, "from": "default", "mark": "settled"}

    def array(self, asked):
        return {"ok": "array", "point": asked["point"], "default": 0, "slots": [self.slots.get((asked["point"], place)) for place in range(1, 17)]}

    def status(self, asked):
        owner = "other" if asked["txn"] == 50 else "comfort"
        return {"ok": "status", "txn": asked["txn"], "owner": owner, "stage": "run", "live": 1, "pending": 0}

    def notices(self, asked):
        return {"ok": "notices", "first": 1, "next": 1, "list": []}

    def submit(self, asked):
        for index, one in enumerate(asked["writes"]):
            if one["priority"] in self.denied:
                return {"error": "denied", "index": index, "rule": 3}
        for one in asked["writes"]:
            self.slots[one["point"], one["priority"]] = {"value": one["value"], "txn": self.next, "until": END}
        self.next += 1
        return {"ok": "accepted", "txn": self.next - 1, "until": END}

    def cancel(self, asked):
        if asked["txn"] == 0:
            return {"error": "unknown-txn"}
        leases = [place for place, slot in self.slots.items() if slot["txn"] == asked["txn"] and "until" in slot]
        for place in leases:
            slot = self.slots.pop(place)
            if asked["txn"] < 100:
                # One of before, which was given a reversion.
                self.slots[place] = {"value": 0, "txn": slot["txn"], "end": END + 1}
        return {"ok": "cancelled", "txn": asked["txn"], "at": 1} if leases else {"error": "over", "at": 1}

    def version(self, asked):
        return {"error": "unknown-op"}


class Asking(Folder):
    """What the server is asked, and in which order."""

    def evict(self, holding, *words):
        self.addCleanup(holding.server.listener.close)
        self.holding = holding
        return self.run_here("evict", "comfort", *words, "--server", holding.server.address, "--catalogue", self.file("plant.toml", PLANT))

    LEASE = {"value": 60_000, "txn": 1, "until": END}
    OF_ANOTHER = {"value": 1, "txn": 50, "until": END}
    REVERSION = {"value": 2, "txn": 2, "end": END}

    def test_each_slot_is_written_over_with_its_own_value_and_let_go(self):
        slots = {("ahu1.damper", 1): self.LEASE, ("ahu1.damper", 4): {**self.LEASE, "value": 5}, ("fan", 9): self.REVERSION, ("lamp", 1): self.OF_ANOTHER}
        status, out, aside = self.evict(Holding(slots))
        self.assertEqual((status, aside), (0, ""), out)
        # No number of the process's row is spent, no reversion is given, and another one's slot is left alone.
        lease = _evict.LEASE
        self.assertEqual(self.holding.ops(), [
            {"op": "attach", "process": "comfort"},
            {"op": "submit", "policy": "keep", "writes": [bossd.write("ahu1.damper", 60_000, priority=1, lease=lease),
                                                          bossd.write("fan", 2, priority=9, lease=lease)]},
            {"op": "submit", "policy": "keep", "writes": [bossd.write("ahu1.damper", 5, priority=4, lease=lease)]},
            {"op": "cancel", "txn": 101}, {"op": "cancel", "txn": 100}])
        self.assertEqual(self.holding.slots, {("lamp", 1): self.OF_ANOTHER})
        self.assertIn("comfort: ended 2 leases and 1 reversion; it holds nothing any more", out)
        self.assertEqual([line.split(":")[0] for line in out.splitlines()], ["ahu1.damper", "fan", "comfort"])

    def test_what_a_rule_denies_is_cancelled_and_said(self):
        slots = {("ahu1.damper", 1): self.LEASE, ("lamp", 9): {"value": 1, "txn": 1, "until": END}, ("fan", 1): self.REVERSION}
        status, out, _ = self.evict(Holding(slots, denied=(1,)))
        self.assertEqual(status, 1, out)
        submits = [[one["point"] for one in asked["writes"]] for asked in self.holding.ops() if asked["op"] == "submit"]
        self.assertEqual(submits, [["ahu1.damper", "lamp", "fan"], ["lamp", "fan"], ["lamp"]])
        # The lease that is denied goes with its transaction; the reversion of transaction 2 can't be cancelled.
        self.assertEqual([asked["txn"] for asked in self.holding.ops() if asked["op"] == "cancel"], [1, 100])
        self.assertRegex(out, r"(?m)^lamp: ended 1 at priority 9, a lease until .*; in force: ")
        self.assertRegex(out, r"(?m)^ahu1.damper: left 0.0 % at priority 1, a reversion until .*: rule 3 of the rules file denies comfort to write there$")
        self.assertRegex(out, r"(?m)^fan: left 2 at priority 1, a reversion until ")
        self.assertIn("comfort: ended 1 lease; it holds 2 reversions yet", out)

    def test_all_that_is_denied(self):
        status, out, _ = self.evict(Holding({("fan", 1): self.REVERSION}, denied=(1,)), "--json")
        told = json.loads(out)
        self.assertEqual((status, told["ended"], [(one["point"], one["what"], one["ends"], one["rule"]) for one in told["left"]]),
                         (1, [], [("fan", "reversion", END, 3)]))
        self.assertNotIn("cancel", [asked["op"] for asked in self.holding.ops()])

    def test_attached_elsewhere(self):
        with mock.patch("bossd._session.PARTING", 0.0):
            status, out, aside = self.evict(Holding({("lamp", 1): self.LEASE}, taken=True))
        self.assertEqual((status, out), (1, ""))
        for text in ("refused: taken: another connection, session 7, speaks for comfort", "Nothing was ended", "file of keys and restart it"):
            self.assertIn(text, aside)
        self.assertEqual({asked["op"] for asked in self.holding.ops()}, {"attach"})

    def test_a_name_that_holds_nothing_is_not_attached(self):
        status, out, aside = self.evict(Holding({("lamp", 1): self.OF_ANOTHER}))
        self.assertEqual((status, out, self.holding.ops()), (0, "comfort holds nothing\n", []))
        self.assertIn("is the name right?", aside)

    def test_a_dry_run_changes_nothing(self):
        status, out, aside = self.evict(Holding({("lamp", 1): {"value": 1, "txn": 1, "until": END}}), "--dry-run")
        self.assertEqual((status, aside, self.holding.ops()), (0, "", []))
        self.assertRegex(out, r"\Alamp: would end 1 at priority 1, a lease until .*\ncomfort holds 1 lease: nothing was ended\n\Z")
        status, out, _ = self.evict(Holding({("lamp", 1): {"value": 1, "txn": 1, "until": END}}), "--dry-run", "--json")
        self.assertEqual((status, [one["point"] for one in json.loads(out)["left"]], self.holding.ops()), (0, ["lamp"], []))

    def test_words_that_are_wrong(self):
        for words in (["evict"], ["evict", "No body"], ["evict", "*"], ["evict", "comfort", "--as", "page"]):
            self.assertEqual(self.run_here(*words, "--server", "127.0.0.1:1")[0], 2, words)


class Showing(Folder):
    """Whose key is shown."""

    def evict(self, key, *words):
        server = Keyed(("comfort", KEY), ("*", MASTER))
        self.addCleanup(server.close)
        self.server = server
        path = self.file("own.key", key)
        os.chmod(path, 0o600)
        with mock.patch.dict(os.environ, {"BOSSD_AS": "page"}):
            return self.run_here("evict", "comfort", "--server", server.address, *(["--key", path] if key else []), *words)

    def test_it_is_that_of_the_name(self):
        for key in (KEY, MASTER):
            status, out, aside = self.evict(key)
            self.assertEqual((status, out), (0, "comfort holds nothing\n"), aside)
            self.assertEqual(set(self.server.shown), {"comfort"})

    def test_one_that_is_not_right_for_it(self):
        status, out, aside = self.evict(OTHER)
        self.assertEqual((status, out, aside), (1, "", "bossctl: refused: wrong-key: the server has no such key for comfort\n"))
        status, out, aside = self.evict("")
        self.assertEqual((status, out, "wrong-key: the server wants a key" in aside), (1, "", True), aside)


class Devices(Folder):
    """What devices are told, by the script of the built program, which says so."""

    def writes(self, server):
        return [(one.point, one.value) for one in server.writes]

    def test_nothing_comes_between(self):
        catalogue, journal = self.file("plant.toml", PLANT), os.path.join(self.folder, "journal")
        clock = bossd.testing.Clock()
        with bossd.testing.Server(catalogue, journal, clock, common.PROGRAM) as server:
            client = bossd.Client(server.address, "safety", 1.0)
            client.submit([bossd.write("ahu1.damper", 60_000, priority=1, lease=7 * DAY, revert=STAYS), bossd.write("fan", 2, priority=3, lease=DAY)])
            client.submit([bossd.write("ahu1.damper", 70_000, priority=2, lease=DAY), bossd.write("fan", 3, priority=9, lease=DAY, revert=[(2, DAY)])])
            # The server ends before its client does, so the leases stand.
            server.close()
            client.close()
        with bossd.testing.Server(catalogue, journal, clock, common.PROGRAM) as server:
            before = self.writes(server)
            self.assertEqual(sorted(before), [("ahu1.damper", 60_000), ("fan", 2), ("lamp", 0)])
            status, _, aside = self.run_here("evict", "safety", "--server", server.address, "--catalogue", catalogue)
            self.assertEqual((status, aside), (0, ""))
            self.assertEqual(sorted(self.writes(server)[len(before):]), [("ahu1.damper", 20_000), ("fan", 1)])
            # Nothing was left to begin: the devices are told no more, up to the end of all that was given.
            server.advance(hours=24 * 16)
            self.assertEqual(len(self.writes(server)), len(before) + 2)


class Serving(Folder):
    """The built program."""

    def setUp(self):
        super().setUp()
        self.catalogue, self.keys = self.file("plant.toml", PLANT), {name: _keys.new_key() for name in ("safety", "page", "*")}
        self.server = common.Server(self.catalogue, os.path.join(self.folder, "journal"), workers=8)
        self.addCleanup(self.server.stop)

    def begin(self, keys=(), rules=""):
        """Starts it, or starts it again, with the keys of these names and these rules."""
        tables = "".join(f'[[key]]\nprocess = "{name}"\nsha256 = "{_keys.digest_of(self.keys[name])}"\n' for name in keys)
        self.server.stop()
        self.server.keys = self.file("keys.toml", tables) if keys else "-"
        self.server.rules = self.file("rules.toml", rules) if rules else "-"
        self.server.start()

    def client(self, process, **more):
        made = bossd.Client(self.server.address, process, key=self.keys.get(process), **more)
        self.addCleanup(made.close)
        return made

    def stay(self):
        """`safety` holds the damper at level 1 for a week, and eight days behind it; the fan at two levels, and the lamp."""
        client = self.client("safety", patience=1.0)
        client.submit([bossd.write("ahu1.damper", 60_000, priority=1, lease=7 * DAY, revert=STAYS), bossd.write("fan", 2, priority=3, lease=DAY)])
        client.submit([bossd.write("fan", 3, priority=9, lease=DAY, revert=[(2, DAY)]), bossd.write("lamp", 1, lease=DAY, revert=[(1, DAY)])])
        return client

    def evict(self, name, *words, key="*"):
        path = self.file("shown.key", self.keys[key])
        os.chmod(path, 0o600)
        return self.run_here("evict", name, *words, "--server", self.server.address, "--catalogue", self.catalogue, "--key", path)

    def see_free(self):
        """No point has anything in a slot, and each is at its default."""
        for point, default in (("ahu1.damper", 20_000), ("lamp", 0), ("fan", 1)):
            with bossd.Client(self.server.address, key=self.keys["*"], as_="look") as look:
                self.assertEqual((look.array(point).slots, look.read(point).value, look.read(point).basis), ({}, default, "default"), point)

    def causes(self):
        """What `safety` was told of its own transactions, the first two, but for what is done."""
        with bossd.Client(self.server.address, key=self.keys["*"], as_="look") as look:
            return [(one.point, one.cause or one.kind) for one in look.notices("safety").list if one.txn <= 2 and one.kind != "done"]

    def test_leases_that_outlast_a_restart(self):
        self.begin()
        self.stay()
        self.begin()
        status, out, aside = self.evict("safety")
        self.assertEqual((status, aside), (0, ""), out)
        self.assertRegex(out, r"(?m)^ahu1.damper: ended 60.0 % at priority 1, a lease until .*; in force: 20.0 %, its default: nobody holds it$")
        self.assertRegex(out, r"(?m)^fan: ended 2 at priority 3, a lease until .*; 3 at priority 9, a lease until ")
        self.assertIn("safety: ended 4 leases; it holds nothing any more", out)
        self.see_free()
        self.assertEqual(sorted(self.causes()), sorted((point, "superseded") for point in ("ahu1.damper", "fan", "fan", "lamp")))
        # The others have the points as ever, and so has the program, if it comes back.
        self.assertEqual(self.evict("safety")[:2], (0, "safety holds nothing\n"))
        self.client("operator").submit([bossd.write("ahu1.damper", 1_000, priority=1, lease=MINUTE)])
        self.client("safety").submit([bossd.write("lamp", 1, lease=MINUTE)])

    def test_reversions_of_one_that_is_gone(self):
        self.begin()
        self.stay().close()
        status, out, aside = self.evict("safety", "--dry-run")
        self.assertEqual((status, aside), (0, ""))
        self.assertIn("safety holds 3 reversions: nothing was ended", out)
        status, out, aside = self.evict("safety")
        self.assertEqual((status, aside), (0, ""), out)
        self.assertIn("safety: ended 3 reversions; it holds nothing any more", out)
        self.see_free()
        self.assertEqual(sorted(self.causes()), sorted([(point, "died") for point in ("ahu1.damper", "fan", "fan", "lamp")]
                                                       + [(point, "cut") for point in ("ahu1.damper", "fan", "lamp")]))

    def test_numbers_that_are_used_up(self):
        self.begin()
        with self.client("safety") as client:
            client.ask({"op": "submit", "seq": (1 << 62) - 1, "writes": [bossd.write("lamp", 1, priority=1, lease=DAY, revert=[(1, DAY)])]})
        self.assertEqual(self.evict("safety")[0], 0)
        self.see_free()

    def test_many_slots(self):
        names = [f"p{number}" for number in range(40)]
        self.catalogue = self.file("many.toml", 'drivers = ["field"]\n' + "".join(
            f'[[point]]\nname = "{name}"\ndriver = "field"\nkind = "binary"\ndefault = 0\n' for name in names))
        self.server.catalogue = self.catalogue
        self.begin()
        with self.client("safety") as client:
            for priority in (1, 9):
                for part in (names[:32], names[32:]):
                    client.submit([bossd.write(name, 1, priority=priority, lease=DAY, revert=[(1, DAY)]) for name in part])
        with self.client("other") as other:
            other.submit([bossd.write("p3", 1, priority=8, lease=DAY)])
            status, out, _ = self.evict("safety")
            self.assertEqual((status, len(out.splitlines())), (0, 41))
            self.assertEqual([(name, list(other.array(name).slots)) for name in names if other.array(name).slots], [("p3", [8])])

    def test_keys(self):
        self.begin(["safety", "page", "*"])
        self.stay()
        status, out, aside = self.evict("safety", key="page")
        self.assertEqual((status, out, aside), (1, "", "bossctl: refused: wrong-key: the server has no such key for safety\n"))
        status, out, aside = self.evict("safety")
        self.assertEqual((status, out, "taken: another connection" in aside), (1, "", True), aside)
        # Its table goes out, as docs/OPERATIONS.md has it.
        self.begin(["page", "*"])
        with self.assertRaises(bossd.WrongKey):
            self.client("safety")
        status, out, _ = self.evict("safety")
        self.assertEqual(status, 0, out)
        self.see_free()
        # No name is spent that was never there.
        self.assertEqual(self.evict("nobody")[:2], (0, "nobody holds nothing\n"))
        _, out, _ = self.run_here("journal", self.server.journal, "--json")
        self.assertNotIn("nobody", out)

    def test_rules_that_deny_it(self):
        self.begin(["safety", "*"])
        self.stay()
        self.begin(["*"], '[[rule]]\nprocess = "safety"\npoint = "*"\nhighest = 8\n')
        status, out, _ = self.evict("safety")
        self.assertEqual(status, 1, out)
        self.assertRegex(out, r"(?m)^ahu1.damper: left 50.0 % at priority 1, a reversion until .*: rule 1 of the rules file denies safety to write there$")
        # The lease at level 3 of the fan had no reversion: it ended with its transaction.
        self.assertIn("safety: ended 3 leases; it holds 1 reversion yet", out)
        self.begin(["*"])
        self.assertEqual(self.evict("safety")[0], 0)
        self.see_free()


if __name__ == "__main__":
    unittest.main()
