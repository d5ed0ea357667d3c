"""Tests of what the console reads in a journal. The bytes are those of docs/FORMATS.md, and no program wrote them."""

import fcntl
import os
import tempfile
import unittest

from tests import common
from tests import journals as j

import bossd
from bossd_console.catalogue import Reader, read_catalogue

FLOOR = os.path.join(common.TOP, "examples", "floor.toml")
DAMPER, LAMP, FAN = "ahu1.damper", "lamp", "fan"
THREE = [(40_000, 1_000), (30_000, 2_000), (25_000, 3_000)]
ENROLLED = j.record(j.taken_on(0, "a"))
HELD = j.record(j.submit(1_000, 0, j.write(0, 45_000, 8, 60_000, THREE)))
LEASE = bossd.Slot(45_000, 1, until=61_000)
REVERTING = bossd.Slot(40_000, 1, end=67_000)

# The small journal and the small state of the page on formats, byte by byte.
SMALL = (b"BOSSJRNL\2" + j.DIGEST + bytes.fromhex("""
    01  00 00 00 0b   01  00 00 00 00 00 00 00 00  01 61
    01  00 00 00 1f   02  00 00 00 00 00 00 03 e8  00 00  00  01   00 00 00 00  00 00 00 00 00 00 af c8  08   00 00 ea 60  00   00"""))
STATE = bytes.fromhex("""
    00 00 00 00 00 00 03 e8  00 00 00 00 00 00 00 02  00 01  01 61  00 00 00 00 00 00 00 00  00 00  00  00 00 00 01
    00 00 00 00 00 00 00 01  00 00  00  01  00 00 00 00  08  00  00 00  00 00 00 01
    00 00 00 00 00 00 00 01  00 00  00 00 00 00  08  00 00 00 00 00 00 af c8  00 00 00 00 00 00 ee 48  00  00  00 00 00 00""")


class Files(unittest.TestCase):
    def setUp(self):
        folder = tempfile.TemporaryDirectory()
        self.addCleanup(folder.cleanup)
        self.path = os.path.join(folder.name, "journal")
        self.second = self.path + ".b"
        self.reader = Reader(self.path, read_catalogue(FLOOR))

    def put(self, data, path=None):
        """What a file has from now on. It stays the same file."""
        with open(path or self.path, "wb") as file:
            file.write(data)

    def way(self, point=DAMPER, priority=8, slot=LEASE, owner="a"):
        return self.reader.way_of(point, priority, slot, owner)

    def follow(self, data=None, path=None):
        if data is not None:
            self.put(data, path)
        self.reader.follow()


class Reading(Files):
    def test_the_bytes_of_the_page_on_formats(self):
        self.assertEqual((j.journal(ENROLLED, j.record(j.submit(1_000, 0, j.write(0, 45_000, 8, 60_000)))), len(SMALL)), (SMALL, 94))
        small = j.state(1_000, 2, [j.process("a")], [j.running(1, 0, 0, 8)], [j.lease(1, 0, 0, 8, 45_000, 61_000)])
        self.assertEqual((small, len(j.kept(1, 2, STATE))), (STATE, 162))
        self.follow(SMALL)
        self.assertEqual((self.reader.sentence, self.reader.names(), self.way()), ("", ["a"], []))

    def test_a_lease_and_its_reversion(self):
        self.follow(j.journal(ENROLLED, HELD))
        self.assertEqual(self.way(), THREE)
        self.assertEqual([self.way(slot=bossd.Slot(value, 1, end=67_000)) for value, _ in THREE], [THREE] * 3)

    def test_a_numbered_submit_of_two_writes_in_a_record_of_two_events(self):
        numbered = j.submit(2_000, 1, j.write(1, 1, 3, 5_000, [(0, 7_000)]), j.write(2, 3, 16, 5_000), seq=9)
        self.follow(j.journal(ENROLLED, j.record(j.taken_on(500, "boiler"), j.submit(1_000, 0, j.write(0, 1, 8, 1_000))), j.record(numbered)))
        self.assertEqual(self.reader.names(), ["a", "boiler"])
        self.assertEqual(self.way(LAMP, 3, bossd.Slot(1, 2, until=7_000), "boiler"), [(0, 7_000)])
        self.assertEqual(self.way(FAN, 16, bossd.Slot(3, 2, until=7_000), "boiler"), [])

    def test_points_that_new_records_name(self):
        both = j.record(j.submit(2_000, 0, j.write(1, 1, 3, 5_000), j.write(2, 3, 16, 5_000)))
        cancelled, lost = j.record(j.cancel(3_000, 0, 1)), j.record(b"\5" + (4_000).to_bytes(8, "big") + b"\0\0")
        records, named = [ENROLLED], []
        for one in (HELD, both, cancelled, j.record(j.time_passed(3_500)), lost):
            records.append(one)
            self.follow(j.journal(*records))
            named.append(self.reader.touched())
        self.assertEqual(named, [[DAMPER], [LAMP, FAN], [DAMPER], [], [DAMPER, LAMP, FAN]])
        self.assertEqual(self.reader.touched(), [])

    def test_values_below_zero(self):
        self.follow(j.journal(ENROLLED, j.record(j.submit(1_000, 0, j.write(0, -45_000, 8, 60_000, [(-1, 1_000)])))))
        self.assertEqual(self.way(slot=bossd.Slot(-45_000, 1, until=61_000)), [(-1, 1_000)])

    def test_version_1_knows_no_numbers(self):
        self.follow(j.journal(ENROLLED, HELD, version=1))
        self.assertEqual(self.way(), THREE)

    def test_what_others_wrote_is_not_this_slots(self):
        self.follow(j.journal(ENROLLED, j.record(j.taken_on(0, "b")), HELD))
        for slot in [bossd.Slot(45_000, 2, until=61_000), bossd.Slot(45_001, 1, until=61_000), bossd.Slot(45_000, 1, end=61_000)]:
            self.assertIsNone(self.way(slot=slot), slot)
        self.assertIsNone(self.way(priority=9))
        self.assertIsNone(self.way(point=LAMP))
        self.assertIsNone(self.way(owner="b"))
        self.assertEqual(self.way(owner=None), THREE)

    def test_a_slot_that_was_taken_anew_is_the_last_one_s(self):
        again = j.record(j.submit(2_000, 0, j.write(0, 45_000, 8, 60_000, [(1, 1)])))
        self.follow(j.journal(ENROLLED, HELD, again))
        self.assertEqual((self.way(), self.way(slot=bossd.Slot(45_000, 2, until=62_000))), (None, [(1, 1)]))

    def test_events_that_take_no_slot(self):
        self.follow(j.journal(ENROLLED, HELD, j.record(j.cancel(2_000, 0, 1)), j.record(j.time_passed(3_000))))
        self.assertEqual(self.way(slot=REVERTING), THREE)


class Following(Files):
    def test_what_is_appended_is_read_on(self):
        self.follow(j.journal(ENROLLED))
        self.assertIsNone(self.way())
        self.follow(j.journal(ENROLLED, HELD))
        self.assertEqual(self.way(), THREE)

    def test_a_record_counts_once_its_gate_is_open(self):
        self.follow(j.journal(ENROLLED))
        shut = j.SHUT + HELD[1:]
        self.follow(j.journal(ENROLLED, shut))
        self.assertIsNone(self.way())
        self.follow(j.journal(ENROLLED, HELD))
        self.assertEqual(self.way(), THREE)

    def test_a_torn_record_is_not_read_until_it_is_whole(self):
        whole = j.journal(ENROLLED, HELD)
        for end in range(len(j.journal(ENROLLED)), len(whole)):
            self.follow(whole[:end])
            self.assertEqual((self.way(), self.reader.names(), self.reader.sentence), (None, ["a"], ""), end)
        self.follow(whole)
        self.assertEqual(self.way(), THREE)

    def test_what_stands_after_a_shut_gate_means_nothing(self):
        self.follow(j.journal(ENROLLED) + HELD + b"\1\xff\xff\xff\xff")
        self.assertEqual((self.way(), self.reader.sentence), (None, ""))

    def test_a_long_log(self):
        wide = [j.record(*[j.submit(at, 0, j.write(0, at, 8, 60_000, [(at, 1_000)] * 8)) for _ in range(16)]) for at in range(1, 1_001)]
        self.follow(j.journal(ENROLLED, *wide))
        self.assertGreater(os.path.getsize(self.path), 1 << 20)
        self.assertEqual(self.way(slot=bossd.Slot(1_000, 16_000, until=61_000)), [(1_000, 1_000)] * 8)

    def test_nothing_is_written_or_locked(self):
        data = j.journal(ENROLLED, HELD)
        self.put(data)
        os.utime(self.path, ns=(10 ** 18, 10 ** 18))
        before = os.stat(self.path)
        with open(self.path, "r+b") as server:
            fcntl.flock(server, fcntl.LOCK_EX | fcntl.LOCK_NB)
            self.follow()
            self.assertEqual(self.way(), THREE)
            fcntl.flock(server, fcntl.LOCK_UN)
            fcntl.flock(server, fcntl.LOCK_EX | fcntl.LOCK_NB)
        after = os.stat(self.path)
        self.assertEqual((before.st_mtime_ns, before.st_ctime_ns, before.st_size), (after.st_mtime_ns, after.st_ctime_ns, after.st_size))
        self.assertEqual(os.listdir(os.path.dirname(self.path)), ["journal"])


class BegunAnew(Files):
    def later(self):
        """The state at 62,000: transaction 1 reverts since its lease ran out, and transaction 2 of another process holds the lamp."""
        return j.state(62_000, 3, [j.process("a"), j.process("b")], [j.expired(1, 0, 0, 8, 61_000), j.running(2, 1, 1, 3)],
                       [j.lease(2, 1, 1, 3, 1, 90_000, [(0, 7_000)])], [j.reversion(1, 0, 0, 8, 61_000, THREE)])

    def follow_both(self, first, second):
        self.put(first)
        self.follow(second, self.second)

    def assert_later(self):
        self.assertEqual((self.way(slot=REVERTING), self.reader.names()), (THREE, ["a", "b"]))
        self.assertEqual(self.way(LAMP, 3, bossd.Slot(1, 2, until=90_000), "b"), [(0, 7_000)])

    def test_a_kept_state_and_what_comes_after(self):
        after = j.record(j.submit(63_000, 1, j.write(2, 2, 16, 5_000, [(1, 500)])))
        self.follow_both(j.journal(ENROLLED, HELD), j.kept(1, 9, self.later(), after))
        self.assert_later()
        self.assertEqual(self.way(FAN, 16, bossd.Slot(2, 3, until=68_000), "b"), [(1, 500)])

    def test_it_begins_anew_while_it_is_followed(self):
        self.follow(j.journal(ENROLLED, HELD))
        second = j.kept(1, 9, self.later())
        for unfinished in [b"", second[:1], b"\0" + second[1:], b"\0" + second[1:100]]:
            self.follow(unfinished, self.second)
            self.assertEqual((self.way(), self.reader.names(), self.reader.sentence), (THREE, ["a"], ""))
        self.follow(second, self.second)
        self.assert_later()
        # The first file takes the state after that.
        third = j.kept(2, 12, j.state(90_000, 9, [j.process("a")], [j.running(8, 0, 2, 1)], [j.lease(8, 0, 2, 1, 3, 95_000, [(2, 600)])]))
        self.follow(b"\0" + third[1:])
        self.assert_later()
        self.follow(third)
        self.assertEqual((self.way(FAN, 1, bossd.Slot(3, 8, until=95_000)), self.reader.names()), ([(2, 600)], ["a"]))
        self.assertIsNone(self.way(slot=REVERTING))

    def test_of_two_kept_states_the_one_that_follows_counts(self):
        older = j.kept(1 << 63, 0, j.state(0, 1))
        self.follow_both(older, j.kept((1 << 63) + 1, 9, self.later()))
        self.assert_later()
        self.follow_both(j.kept(5, 9, self.later()), j.kept(4, 0, j.state(0, 1)))
        self.assert_later()
        self.follow_both(j.kept(0, 9, self.later()), j.kept((1 << 64) - 1, 0, j.state(0, 1)))
        self.assert_later()

    def test_the_second_file_alone(self):
        self.follow(j.kept(1, 9, self.later()), self.second)
        self.assert_later()

    def test_another_journal_in_its_place(self):
        self.follow(j.journal(ENROLLED, HELD))
        other = [j.record(j.taken_on(5, "other")), j.record(j.submit(1_005, 0, j.write(1, 1, 8, 60_000, [(0, 1)])))]
        self.follow(j.journal(*other, *[j.record(j.time_passed(2_000))] * 9))
        self.assertEqual((self.reader.names(), self.way()), (["other"], None))
        self.assertEqual(self.way(LAMP, 8, bossd.Slot(1, 1, until=61_005), "other"), [(0, 1)])


class WhatItIsNot(Files):
    def said(self, data, path=None):
        self.follow(data, path)
        self.follow()
        return self.reader.sentence

    def test_no_journal_yet(self):
        self.assertIn("neither this file nor", self.said(None))
        self.assertEqual((self.reader.names(), self.way()), ([], None))
        self.follow(j.journal(ENROLLED, HELD))
        self.assertEqual((self.reader.sentence, self.way()), ("", THREE))

    def test_one_that_is_new(self):
        self.assertEqual(self.said(b"\0"), "")
        self.assertIsNone(self.way())

    def test_another_catalogues(self):
        self.assertIn("another catalogue", self.said(j.journal(ENROLLED, HELD, digest=bytes(32))))
        self.assertIsNone(self.way())

    def test_another_programs_and_another_versions(self):
        self.assertIn("no journal of bossd", self.said(b"SQLite format 3\0" + bytes(80)))
        self.assertIn("version 4", self.said(j.journal(version=4)))

    def test_damage_has_its_place(self):
        self.assertIn("byte 41", self.said(j.journal(j.record(b"\x0b" + bytes(8)))))
        self.assertIn("byte 65", self.said(j.kept(1, 0, b"\0" * 5)))
        long = b"\1" + j.number(4, 65_536) + bytes(65_536)
        self.assertIn("byte 41", self.said(j.journal(long)))

    def test_a_folder(self):
        os.mkdir(self.path)
        self.assertIn(self.path, self.said(None))

    def test_what_was_known_is_forgotten_where_it_cannot_be_read(self):
        self.follow(j.journal(ENROLLED, HELD))
        os.remove(self.path)
        self.assertIn("neither", self.said(None))
        self.assertIsNone(self.way())


if __name__ == "__main__":
    unittest.main()
