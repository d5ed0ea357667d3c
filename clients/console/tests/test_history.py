"""Tests of a point's day. What is expected is reckoned by hand, or is what the model of outside/model.py answers, which shares nothing with
the console. The bytes of journals are those of docs/FORMATS.md."""

import json
import os
import random
import tempfile
import unittest
from unittest import mock

from tests import common
from tests import journals as j

from bossd_console import history  # noqa: E402
from bossd_console.catalogue import Reader, read_catalogue  # noqa: E402
from bossd_console.history import DAY, Change, History  # noqa: E402
from outside import model as machine  # noqa: E402

FLOOR = os.path.join(common.TOP, "examples", "floor.toml")
DAMPER, LAMP, FAN = "ahu1.damper", "lamp", "fan"
MINUTE = 60_000
DEFAULT = (20_000, "default", None, None)


def renewal(at, owner, txn, length, *points):
    """Event 3 of the page on formats."""
    return b"\3" + j.number(8, at) + j.number(2, owner) + j.number(8, txn) + j.number(4, length) + j.many(1, [j.number(4, point) for point in points])


def lost(at, owner):
    return b"\5" + j.number(8, at) + j.number(2, owner)


def failed(at, point):
    return b"\7" + j.number(8, at) + j.number(4, point)


def kept_submit(at, owner, *writes):
    """A submit under the policy keep, which has the code 1."""
    return b"\2" + j.number(8, at) + j.number(2, owner) + b"\1" + j.many(1, writes)


class Case(unittest.TestCase):
    def setUp(self):
        folder = tempfile.TemporaryDirectory()
        self.addCleanup(folder.cleanup)
        self.path = os.path.join(folder.name, "journal")
        catalogue = read_catalogue(FLOOR)
        self.history = History(catalogue)
        self.reader = Reader(self.path, catalogue, self.history)

    def follow(self, data, suffix=""):
        with open(self.path + suffix, "wb") as file:
            file.write(data)
        self.reader.follow()
        self.assertEqual(self.reader.sentence, "")

    def changes(self, point, now):
        return [tuple(change) for change in self.history.of(point, now).changes]


class Reckoned(Case):
    def test_nothing_is_known_without_an_event(self):
        self.assertIsNone(self.history.of(DAMPER, 10_000))
        self.follow(j.journal())
        self.assertIsNone(self.history.of(DAMPER, 10_000))

    def test_the_timeline_of_the_definitions(self):
        first = j.submit(1_000, 0, j.write(0, 45_000, 8, MINUTE, [(30_000, 5_000)]))
        second = j.submit(2_000, 1, j.write(0, 60_000, 10, 100_000))
        self.follow(j.journal(j.record(j.taken_on(500, "a"), j.taken_on(500, "b")), j.record(first), j.record(second), j.record(j.cancel(63_000, 1, 2))))
        self.assertEqual(self.changes(DAMPER, 70_000), [
            (500, *DEFAULT), (1_000, 45_000, "lease", 8, "a"), (61_000, 60_000, "lease", 10, "b"), (63_000, 30_000, "pending", 8, "a"),
            (66_000, *DEFAULT)])
        # A moment before the reversion is over, and a point that nobody took.
        self.assertEqual(self.changes(DAMPER, 65_999)[-1], (63_000, 30_000, "pending", 8, "a"))
        self.assertEqual(self.changes(LAMP, 70_000), [(500, 0, "default", None, None)])

    def test_time_alone_is_not_kept_before_the_journal_says_more(self):
        start = j.record(j.taken_on(500, "a")), j.record(j.submit(1_000, 0, j.write(0, 45_000, 8, MINUTE)))
        self.follow(j.journal(*start))
        self.assertEqual(self.changes(DAMPER, 100_000)[-1], (61_000, *DEFAULT))
        # It was renewed before its end, which is read after somebody asked.
        self.follow(j.journal(*start, j.record(renewal(60_000, 0, 1, MINUTE))))
        self.assertEqual(self.changes(DAMPER, 100_000)[-1], (1_000, 45_000, "lease", 8, "a"))
        self.assertEqual(self.changes(DAMPER, 120_000)[-1], (120_000, *DEFAULT))

    def test_a_renewal_of_named_points_never_shortens(self):
        self.follow(j.journal(j.record(j.taken_on(500, "a")), j.record(j.submit(1_000, 0, j.write(0, 45_000, 8, MINUTE), j.write(1, 1, 8, MINUTE))),
                              j.record(renewal(2_000, 0, 1, 10_000)), j.record(renewal(3_000, 0, 1, 2 * MINUTE, 1))))
        self.assertEqual(self.changes(DAMPER, 200_000)[-1], (61_000, *DEFAULT))
        self.assertEqual(self.changes(LAMP, 200_000)[-1], (123_000, 0, "default", None, None))

    def test_a_device_that_fails_ends_leases_under_abort_alone(self):
        wide = j.write(0, 45_000, 8, MINUTE, [(30_000, 5_000)]), j.write(1, 1, 8, MINUTE)
        for submit, at, moment in ((j.submit, 4_000, 4_000), (kept_submit, 4_000, 61_000)):
            with self.subTest(submit):
                self.setUp()
                self.follow(j.journal(j.record(j.taken_on(500, "a")), j.record(submit(1_000, 0, *wide)), j.record(failed(at, 1))))
                self.assertEqual(self.changes(DAMPER, 200_000)[2:], [(moment, 30_000, "pending", 8, "a"), (moment + 5_000, *DEFAULT)])

    def test_a_process_that_is_lost_and_what_another_one_took_meanwhile(self):
        self.follow(j.journal(j.record(j.taken_on(500, "a"), j.taken_on(500, "b")), j.record(j.submit(1_000, 0, j.write(0, 45_000, 8, MINUTE), j.write(1, 1, 8, MINUTE))),
                              j.record(j.submit(2_000, 1, j.write(1, 0, 8, MINUTE))), j.record(lost(3_000, 0))))
        self.assertEqual(self.changes(DAMPER, 10_000)[-1], (3_000, *DEFAULT))
        self.assertEqual(self.changes(LAMP, 10_000)[-1], (2_000, 0, "lease", 8, "b"))

    def test_the_same_again_is_no_change(self):
        self.follow(j.journal(j.record(j.taken_on(500, "a")), *[j.record(j.submit(at, 0, j.write(0, 45_000, 8, MINUTE))) for at in (1_000, 2_000, 3_000)]))
        self.assertEqual(self.changes(DAMPER, 10_000), [(500, *DEFAULT), (1_000, 45_000, "lease", 8, "a")])

    def test_a_day_and_no_more(self):
        self.follow(j.journal(j.record(j.taken_on(500, "a")), j.record(j.submit(1_000, 0, j.write(0, 45_000, 8, MINUTE))), j.record(j.submit(100_000, 0, j.write(0, 50_000, 8, MINUTE)))))
        known = self.history.of(DAMPER, DAY + 30_000)
        self.assertEqual((known.since, known.until), (30_000, DAY + 30_000))
        self.assertEqual(known.changes, [Change(30_000, 45_000, "lease", 8, "a"), Change(61_000, *DEFAULT), Change(100_000, 50_000, "lease", 8, "a"), Change(160_000, *DEFAULT)])
        # A second after the last change is a day old.
        self.assertEqual(self.changes(DAMPER, 161_000 + DAY), [(161_000, *DEFAULT)])


class OtherFiles(Case):
    STATE = j.state(1_000, 2, [j.process("a")], [j.running(1, 0, 0, 8)], [j.lease(1, 0, 0, 8, 45_000, 61_000, [(30_000, 5_000)])])

    def test_a_journal_that_begins_with_a_state(self):
        self.follow(j.kept(1, 2, self.STATE))
        self.assertEqual(self.changes(DAMPER, 64_000), [(1_000, 45_000, "lease", 8, "a"), (61_000, 30_000, "pending", 8, "a")])

    def test_a_reversion_in_a_state(self):
        self.follow(j.kept(1, 2, j.state(62_000, 2, [j.process("a")], [j.expired(1, 0, 0, 8, 61_000)], [], [j.reversion(1, 0, 0, 8, 61_000, [(30_000, 5_000), (25_000, 5_000)])])))
        self.assertEqual(self.changes(DAMPER, 80_000), [(62_000, 30_000, "pending", 8, "a"), (66_000, 25_000, "pending", 8, "a"), (71_000, *DEFAULT)])

    def test_what_is_known_goes_on_into_the_other_file(self):
        first = j.record(j.taken_on(500, "a")), j.record(j.submit(1_000, 0, j.write(0, 45_000, 8, MINUTE, [(30_000, 5_000)])))
        self.follow(j.journal(*first))
        self.follow(j.kept(1, 2, self.STATE, j.record(j.cancel(5_000, 0, 1))), ".b")
        self.assertEqual(self.changes(DAMPER, 20_000), [(500, *DEFAULT), (1_000, 45_000, "lease", 8, "a"), (5_000, 30_000, "pending", 8, "a"), (10_000, *DEFAULT)])

    def test_another_journal_forgets(self):
        self.follow(j.journal(j.record(j.taken_on(500, "a")), j.record(j.submit(1_000, 0, j.write(0, 45_000, 8, MINUTE)))))
        self.follow(j.journal(j.record(j.taken_on(9_000, "b"))))
        self.assertEqual(self.changes(DAMPER, 10_000), [(9_000, *DEFAULT)])


class Bounds(Case):
    def flap(self, point, count, start=1_000):
        """A record for each submit: the value is another one each second."""
        return [j.record(j.submit(start + 1_000 * n, 0, j.write(point, n % 2, 8, 500_000))) for n in range(count)]

    def test_so_many_changes_of_a_point(self):
        with mock.patch.object(history, "MOST_OF_ONE", 10):
            self.follow(j.journal(j.record(j.taken_on(500, "a")), *self.flap(1, 100)))
        known = self.history.of(LAMP, 100_500)
        self.assertEqual([change.at for change in known.changes], [91_000 + 1_000 * n for n in range(10)])
        self.assertEqual(known.since, 91_000)

    def test_so_many_in_all_and_the_busiest_loses(self):
        quiet = j.record(j.submit(600, 0, j.write(0, 45_000, 8, 500_000)))
        with mock.patch.object(history, "MOST_OF_ALL", 40):
            self.follow(j.journal(j.record(j.taken_on(500, "a")), quiet, *self.flap(1, 100)))
        self.assertEqual(self.changes(DAMPER, 100_500), [(500, *DEFAULT), (600, 45_000, "lease", 8, "a")])
        known = self.history.of(LAMP, 100_500)
        self.assertTrue(5 <= len(known.changes) <= 40, len(known.changes))
        self.assertEqual((known.changes[-1].at, known.since), (100_000, known.changes[0].at))
        self.assertGreater(known.since, 60_000)


class AgainstTheModel(Case):
    """Commands at random, made by the model; those that it takes stand in a journal as events."""

    def test_at_each_moment_what_the_model_answers(self):
        for seed in range(25):
            with self.subTest(seed):
                self.setUp()
                self.compare(random.Random(seed))

    def compare(self, chance):
        points = [machine.Point(DAMPER, "field", "analog", 0, 100_000, 20_000), machine.Point(LAMP, "field", "binary", 0, 1, 0), machine.Point(FAN, "field", "multi", 1, 3, 1)]
        model, now, events, asked = machine.Machine(["field"], points), 1_000, [], []
        for session in (1, 2, 3):
            model.answer(session, {"op": "attach", "process": f"p{session}"}, now)
            events.append(j.taken_on(now, f"p{session}"))
        known = [now]
        for _ in range(60):
            now += chance.choice([0, 1, 500, 3_000, 20_000])
            model.answer(0, {"op": "tick"}, now)
            event = self.command(chance, model, now)
            events += [event] if event else []
            known.append(now)
            asked.append((now, self.read(model)))
        self.follow(j.journal(*[j.record(event) for event in events]))
        # Of several looks at one moment the last one counts.
        for at, values in dict(asked).items():
            for place, name in enumerate((DAMPER, LAMP, FAN)):
                past = [change for change in self.history.of(name, now).changes if change.at <= at]
                self.assertEqual(tuple(past[-1][1:]), values[place], (at, name))

    def command(self, chance, model, now):
        """A command of a process; the event that it is, where the model takes it."""
        session = chance.choice([1, 2, 3])
        kind, txn = chance.choice(["submit", "submit", "renew", "cancel", "gone"]), chance.randint(1, max(1, model.next - 1))
        if kind == "submit":
            places = chance.sample([0, 1, 2], chance.randint(1, 3))
            writes = [(place, chance.choice([(0, 45_000, 70_000), (0, 1), (1, 2, 3)][place]), chance.choice([3, 8, 16]), chance.choice([1_000, 10_000, 60_000]),
                       [(chance.choice([(10_000, 30_000), (0, 1), (1, 3)][place]), chance.choice([2_000, 9_000])) for _ in range(chance.randint(0, 2))]) for place in places]
            sent = [{"point": model.names[place], "value": value, "priority": priority, "lease": lease, "revert": [list(step) for step in way]} for place, value, priority, lease, way in writes]
            return self.made(model, session, {"op": "submit", "writes": sent}, now, j.submit(now, session - 1, *[j.write(*one) for one in writes]))
        if kind == "renew":
            length = chance.choice([1_000, 30_000])
            return self.made(model, session, {"op": "renew", "txn": txn, "length": length}, now, renewal(now, session - 1, txn, length))
        if kind == "cancel":
            return self.made(model, session, {"op": "cancel", "txn": txn}, now, j.cancel(now, session - 1, txn))
        had = any(lease.owner == session - 1 for lease in model.leases)
        model.answer(session, {"op": "gone"}, now)
        model.answer(session, {"op": "attach", "process": f"p{session}"}, now)
        return lost(now, session - 1) if had else None

    def made(self, model, session, request, now, event):
        place = len(model.lines)
        model.answer(session, request, now)
        return event if any(line.startswith('{"ok"') for line in model.lines[place:]) else None

    def read(self, model):
        told = []
        for place, name in enumerate(model.names):
            kind, basis, value = model.basis(place)
            told.append((value, kind, basis.priority if basis else None, model.processes[basis.owner] if basis else None))
        return told


if __name__ == "__main__":
    unittest.main()
