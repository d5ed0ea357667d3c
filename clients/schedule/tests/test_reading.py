"""The file of a schedule: every mistake by its line, table and key; what is taken; what is shown of it."""

import json
import os
import subprocess
import tempfile
import unittest
import xml.etree.ElementTree
from datetime import date
from unittest import mock

from .common import HOUR, MINUTE, PLANT, SCHEDULE, SECOND, TOP, WEEK, at, written

from bossd.ctl import _served
from bossd_schedule import reading
from bossd_schedule.catalogue import Catalogue, Failure, NoAnswer, Point
from bossd_schedule.idle import note_idle
from bossd_schedule.reading import Reader
from bossd_schedule.week import decide

NOW = at("2027-06-01T09:00")
HEAD = f'zone = "Europe/Berlin"\ncatalogue = "{PLANT}"\n'
GOOD = """[[programme]]
name = "a"
points = ["hall.lamp"]
[[programme.block]]
from = "06:30"
to = "18:00"
set = 1
"""


class Case(unittest.TestCase):
    def setUp(self):
        folder = tempfile.TemporaryDirectory()
        self.addCleanup(folder.cleanup)
        self.folder = folder.name

    def read(self, text, head=HEAD):
        reader = Reader(written(self.folder, head + text), NOW)
        note_idle(reader)
        return reader

    def said(self, text, head=HEAD):
        """What is said of a text, without the file's name and the line."""
        return [one.sentence().split(": ", 1)[1] for one in self.read(text, head).findings]

    def taken(self, text):
        reader = self.read(text)
        self.assertEqual([one.sentence() for one in reader.findings], [])
        return reader.schedule


class WhoTells(Case):
    """Whose catalogue counts: the one that the file names, else the one that this machine has, else the one that the server tells."""

    TOLD = Catalogue("192.0.2.1:7000", {"hall.lamp": Point("hall.lamp", "hall", "binary", 0, 1, 0)}, bytes(32))

    def setUp(self):
        super().setUp()
        self.default = os.path.join(self.folder, "plant.toml")
        for module in (_served, reading):
            replaced = mock.patch.object(module, "DEFAULT", self.default)
            replaced.start()
            self.addCleanup(replaced.stop)

    def whose(self, head, ask):
        """Of which catalogue the points are, and what is said."""
        reader = Reader(written(self.folder, head + GOOD), NOW, ask)
        said = [one.sentence().split(": ", 1)[1] for one in reader.findings]
        return reader.schedule.catalogue.path if reader.schedule is not None else None, said

    def fails(self, error):
        def ask():
            raise error
        return ask

    def test_the_file_names_one(self):
        self.assertEqual(self.whose(HEAD, self.fails(AssertionError())), (PLANT, []))

    def test_this_machine_has_one(self):
        with open(PLANT, encoding="utf-8") as file:
            written(self.folder, file.read(), "plant.toml")
        self.assertEqual(self.whose('zone = "UTC"\n', self.fails(AssertionError())), (self.default, []))

    def test_the_server_tells(self):
        self.assertEqual(self.whose('zone = "UTC"\n', lambda: self.TOLD), ("192.0.2.1:7000", []))

    def test_a_point_that_the_server_does_not_tell(self):
        told, said = self.whose('zone = "UTC"\n', lambda: self.TOLD._replace(points={}))
        self.assertEqual((told, len(said)), (None, 1))
        self.assertIn("a name that a point of 192.0.2.1:7000 has", said[0])

    def test_it_does_not_answer(self):
        with self.assertRaises(NoAnswer):
            self.whose('zone = "UTC"\n', self.fails(NoAnswer("away")))

    def test_nobody_tells(self):
        for ask in (None, self.fails(Failure("a bossd of before"))):
            told, said = self.whose('zone = "UTC"\n', ask)
            self.assertEqual((told, len(said)), (None, 1))
            self.assertIn("catalogue: found nothing; " + ("a bossd of before" if ask else "the server's catalogue: no "), said[0])


class Mistakes(Case):
    def one(self, text, *wanted, head=HEAD):
        """Whether the text has one mistake, whose sentence has these words."""
        found = self.said(text, head)
        self.assertEqual(len(found), 1, found)
        for words in wanted:
            self.assertIn(words, found[0])

    def test_lines_and_places(self):
        reader = self.read(GOOD.replace('"06:30"', '"6:30"'))
        self.assertEqual([(one.line, one.table, one.key) for one in reader.findings], [(7, "programme[0]", "block.0.from")])
        self.assertTrue(reader.findings[0].sentence().endswith(':7: programme[0] "a": block.0.from: found "6:30"; a time of day, as 06:30'))
        self.assertIsNone(reader.schedule)

    def test_the_top(self):
        self.one(GOOD, "zone: found nothing", head=f'catalogue = "{PLANT}"\n')
        self.one(GOOD, 'zone: found "Europe/Nowhere"', head=f'zone = "Europe/Nowhere"\ncatalogue = "{PLANT}"\n')
        self.one(GOOD, 'zone: found "../etc/passwd"', head=f'zone = "../etc/passwd"\ncatalogue = "{PLANT}"\n')
        self.one(GOOD, "catalogue: found", "no such file", head='zone = "UTC"\ncatalogue = "none.toml"\n')
        self.one("", "programme: found nothing")
        for key, value in (("priority", "6"), ("priority", "0"), ("priority", "17"), ("priority", "true"), ("lease", '"59s"'), ("lease", '"2d"'), ("lease", "900"),
                           ("hold", '"25h"'), ("hold", '"-1s"'), ("process", '"Schedule"')):
            self.one(f"{key} = {value}\n" + GOOD, f"{key}: found")
        self.one("leese = \"5m\"\n" + GOOD, "leese: found a key that nothing reads; is lease meant?")
        self.one("owner = \"Ann\"\n" + GOOD, "owner: (passed over) found a key that nothing reads; known here are zone, catalogue")

    def test_names_and_points(self):
        self.one(GOOD.replace('name = "a"\n', ""), "name: found nothing")
        self.one(GOOD + GOOD.replace("hall", "office"), 'name: found "a" again')
        self.one(GOOD + 2 * '[[programme.exception]]\nname = "e"\non = ["*-12-24"]\n[[programme.exception.block]]\nfrom = "06:00"\nto = "07:00"\nset = 0\n',
                 'exception.1.name: found "e" again')
        self.one(GOOD.replace("hall.lamp", "hall.lump"), 'points.0: found "hall.lump"')
        self.one(GOOD.replace('points = ["hall.lamp"]', 'points = ["hall.lamp"]\ngroup = "g"'), "found points and group; one of them")
        self.one(GOOD.replace('points = ["hall.lamp"]', 'group = "g"'), 'group: found "g"; the name of a group: there is none')
        self.one(GOOD + GOOD.replace('"a"', '"b"').replace("hall", "*").replace('"*.lamp"', '"*"'), "at priority 16; programme[0] (line 3) has that slot")

    def test_times(self):
        for value in ('"24:01"', '"25:00"', "630", '"06:30:60"', "06:30:00.5", '"٠٦:30"'):
            self.one(GOOD.replace('"18:00"', value), "block.0.to: found", "a time of day, as 06:30, or 24:00")
        self.one(GOOD.replace('"06:30"', '"24:00"'), 'block.0.from: found "24:00"')
        self.one(GOOD.replace('"18:00"', '"06:30"'), 'block.0.to: found "06:30" as `from`; another time, or from 00:00 to 24:00 for all of a day')

    def test_values(self):
        damper = GOOD.replace("hall.lamp", "air.damper")
        self.one(damper.replace("set = 1", "set = 45.0005"), "set: found 45.0005; air.damper takes 0.0 to 100.0 %, in steps of 0.001")
        for value in ("101", "-0.001", "nan", "inf", "true", '"45"'):
            self.one(damper.replace("set = 1", f"set = {value}"), "air.damper takes")
        for value in ("2", "1.0", "-1"):
            self.one(GOOD.replace("set = 1", f"set = {value}"), "hall.lamp takes 0 or 1")
        for value in ("0", "4", "true", "1.5"):
            self.one(GOOD.replace("hall.lamp", "air.fan").replace("set = 1", f"set = {value}"), "air.fan takes a state, 1 to 3")
        self.one(GOOD.replace("set = 1", "set = { hall.lamp = 1 }"), "in quotes")
        self.one(GOOD.replace("set = 1", 'set = { "office.*" = 1 }'), "set.office.*: found")
        self.one(GOOD.replace("set = 1\n", ""), "set: found nothing")

    def test_ways_back(self):
        self.one(GOOD.replace('name = "a"', 'name = "a"\nback = [[1, "500ms"]]'), "back.0: found an array of 2; [value, length], the length 1s to 1d")
        self.one(GOOD.replace('name = "a"', 'name = "a"\nback = [[2, "5m"]]'), "back.0: found 2; hall.lamp takes 0 or 1")
        self.one(GOOD.replace('name = "a"', f'name = "a"\nback = [{", ".join(8 * ["""[1, "5m"]"""])}]'), "back: found an array of 8; at most 7 steps")
        self.one(GOOD.replace('name = "a"', 'name = "a"\nback = { "x" = [[1, "5m"]] }'), 'back.x: found "x"')

    def test_days(self):
        self.one(GOOD.replace("from =", 'days = "mo-fr"\nfrom ='), 'block.0.days: found "mo-fr"; days of the week')
        self.one(GOOD.replace("from =", 'days = "2027-12-24"\nfrom ='), "block.0.days: found")
        self.one(GOOD.replace("from =", 'only = "cold"\nfrom ='), 'block.0.only: found "cold"; the name of a calendar: there is none')
        self.one(GOOD + '[[programme.exception]]\non = "closd"\n', 'exception.0.on: found "closd"; the name of a calendar: there is none')
        self.one(GOOD + '[[programme.exception]]\non = ["2027-02-29"]\n', "exception.0.on.0: found")
        self.one('[[calendar]]\nname = "c"\n' + GOOD, 'calendar[0] "c": found neither days nor file')
        self.one('[[calendar]]\nname = "c"\ndays = ["2027-12-24", "x"]\n' + GOOD, 'calendar[0] "c": days.1: found "x"; days are as mon-fri')

    def test_calendars(self):
        self.one('[[calendar]]\nname = "c"\nfile = "none.ics"\n' + GOOD, 'calendar[0] "c": file: found "none.ics"; No such file or directory')
        written(self.folder, "BEGIN:VCALENDAR\r\nBEGIN:VEVENT\r\nSUMMARY:Vestry\r\nDTSTART;TZID=Nowhere/Land:20270601T080000\r\nEND:VEVENT\r\nEND:VCALENDAR\r\n", "a.ics")
        self.one(GOOD + '[[programme.event]]\nfile = "a.ics"\nset = 1\n', "event.0.file: found", "Vestry: TZID Nowhere/Land is no zone that this machine has")
        self.one(GOOD + '[[programme.event]]\nset = 1\n', "event.0: found neither file nor calendar; one of them")
        self.one(GOOD + '[[programme.event]]\ncalendar = "c"\nset = 1\n', "event.0.calendar: found", "the name of a calendar that has a file: there is none")

    def test_what_is_rarely_meant(self):
        self.one('hold = "9s"\n' + GOOD, "hold: (passed over) found 9s; 10s or more")
        self.one("priority = 5\n" + GOOD, "priority: (passed over) found 5; at 1 to 5 minimum on and off times are passed over")
        self.one(GOOD + '[[programme.exception]]\non = ["2020-12-24"]\n', "exception.0.on: (passed over) no day of two years has it")
        self.one(GOOD + '[[programme.block]]\nfrom = "06:30"\nto = "19:00"\nset = 0\n', "block.0: (passed over) it never decides")
        self.one('[[calendar]]\nname = "may"\ndays = ["*-05-02"]\n' + GOOD + '[[programme.block]]\ndays = "sat"\nonly = "may"\nfrom = "20:00"\nto = "21:00"\nset = 1\n',
                 "block.1: (passed over) no day of two years has it")       # the 2nd of May is a Saturday in 2026, and then in 2037
        self.assertEqual(self.said(GOOD + '[[programme.block]]\nfrom = "06:30"\nto = "17:00"\nset = 0\n'), [])

    def test_what_is_no_toml_and_no_text(self):
        self.one("[[programme\n", "no TOML")
        path = written(self.folder, "")
        with open(path, "wb") as file:
            file.write(b'zone = "\xff"\n')
        self.assertIn("no UTF-8", Reader(path, NOW).findings[0].sentence())

    def test_forms_that_are_none_are_mistakes_and_no_more(self):
        for key in ("zone", "catalogue", "process", "priority", "lease", "hold", "calendar", "group", "programme"):
            for value in ("1", '"x"', "[1]", "{ a = 1 }", "[[1]]", "2027-01-01", "[{ a = 1 }]"):
                reader = Reader(written(self.folder, f"{key} = {value}\n" + ("" if key == "programme" else GOOD)), NOW)
                self.assertTrue(reader.has_mistakes(), (key, value))
        for key in ("name", "points", "group", "zone", "priority", "lease", "hold", "only", "otherwise", "back", "block", "exception", "event"):
            for value in ("1.5", '""', "[1]", "{ a = 1 }", "[[1]]", "[{ a = 1 }]"):
                text = HEAD + '[[programme]]\n' + ("" if key == "name" else 'name = "a"\n') + ("" if key in ("points", "group") else 'points = ["hall.lamp"]\n')
                self.assertTrue(Reader(written(self.folder, text + f"{key} = {value}\n"), NOW).has_mistakes(), (key, value))
        for key in ("name", "days", "only", "from", "to", "set"):
            for value in ("1.5", '""', "[1]", "{ a = 1 }", "[[1]]"):
                text = HEAD + "".join(line for line in GOOD.splitlines(True) if not line.startswith(key + " =")) + f"{key} = {value}\n"
                self.assertTrue(Reader(written(self.folder, text if key != "name" else HEAD + GOOD + f"name = {value}\n"), NOW).has_mistakes(), (key, value))


class Taken(Case):
    def test_the_example_has_no_mistake(self):
        reader = Reader(WEEK, NOW)
        note_idle(reader)
        self.assertEqual([one.sentence() for one in reader.findings], [])
        self.assertEqual([play.programme.name for play in reader.schedule.plays], ["air", "heating", "lamps"])

    def test_what_is_left_out(self):
        play = self.taken(GOOD).plays[0]
        self.assertEqual((play.programme.priority, play.lease, play.hold, dict(play.back)), (16, 15 * MINUTE, 2 * MINUTE, {}))

    def test_groups_priorities_zones_and_ways_back(self):
        play = self.taken('priority = 10\nlease = "1h"\nhold = "90s"\n[[group]]\nname = "lamps"\npoints = ["office.*", "hall.lamp"]\n' + GOOD.replace(
            'points = ["hall.lamp"]', 'group = "lamps"\npriority = 12\nzone = "America/New_York"\nback = { "office.*" = [[1, "30m"]] }')).plays[0]
        self.assertEqual((play.points, play.programme.priority, play.lease, play.hold), (("hall.lamp", "office.lamp"), 12, HOUR, 90 * SECOND))
        self.assertEqual((play.programme.zone.key, dict(play.back)), ("America/New_York", {"office.lamp": ((1, 30 * MINUTE),)}))
        moment = at("2027-06-01T12:30")
        self.assertEqual(decide(play.programme, moment).wants["hall.lamp"].value, 1)            # 06:30 in New York
        self.assertEqual(decide(play.programme, moment - 1).wants, {})

    def test_values_of_each_kind(self):
        text = """[[programme]]
name = "a"
points = ["air.*", "office.lamp"]
otherwise = { "air.damper" = 21.5, "air.fan" = 3, "office.lamp" = true, "air.*" = 7 }
"""
        play = self.taken(text).plays[0]
        self.assertEqual({point: want.value for point, want in decide(play.programme, NOW).wants.items()},
                         {"air.damper": 21_500, "air.fan": 3, "office.lamp": 1, "air.heating": 7_000, "air.cooling": 7_000})

    def test_times_of_toml_and_all_of_a_day(self):
        play = self.taken(GOOD.replace('"06:30"', "00:00:00").replace('"18:00"', '"24:00"')).plays[0]
        found = decide(play.programme, at("2027-10-31T12:00"))
        self.assertEqual(found.until, at("2027-11-01T00:00"))

    def test_exceptions_and_events(self):
        written(self.folder, "BEGIN:VCALENDAR\r\nVERSION:2.0\r\nBEGIN:VEVENT\r\nUID:1\r\nSUMMARY:Meeting of all\r\nDTSTART:20270601T100000\r\nDTEND:20270601T110000\r\n"
                             "END:VEVENT\r\nEND:VCALENDAR\r\n", "rooms.ics")
        play = self.taken('[[calendar]]\nname = "rooms"\nfile = "rooms.ics"\n' + GOOD + """[[programme.exception]]
on = "rooms"
[[programme.event]]
calendar = "rooms"
match = "Meeting*"
before = "2h"
set = 0
""").plays[0]
        wants = [decide(play.programme, at(f"2027-06-0{day}T{clock}")).wants for day, clock in ((1, "07:59"), (1, "08:00"), (1, "10:59"), (1, "11:00"), (2, "11:00"))]
        self.assertEqual([one["hall.lamp"].value if one else None for one in wants], [None, 0, 0, None, 1])
        self.assertEqual(wants[1]["hall.lamp"].why, "a: Meeting*: Meeting of all")


class Words(Case):
    """The program as it is called."""

    def run_(self, *words):
        ran = subprocess.run(["/usr/bin/python3", os.path.join(SCHEDULE, "bossd-schedule"), *words], capture_output=True, text=True, cwd=TOP)
        self.assertNotIn("Traceback", ran.stderr)
        return ran

    def test_check(self):
        ran = self.run_("examples/week.toml", "--check")
        self.assertEqual((ran.returncode, ran.stdout), (0, "examples/week.toml: 3 programmes, 5 slots: no mistake\n"))
        ran = self.run_(written(self.folder, HEAD + GOOD.replace("06:30", "6:30") + "x = 1\n"), "--check")
        self.assertEqual((ran.returncode, len(ran.stdout.splitlines())), (3, 2))

    def test_words_that_are_none(self):
        for words in ((), ("examples/week.toml",), ("examples/week.toml", "--check", "--show", "now"), ("examples/week.toml", "127.0.0.1"),
                      ("examples/week.toml", "--check", "--json"), ("examples/week.toml", "127.0.0.1", "--check"),
                      ("examples/week.toml", "127.0.0.1:7000", "--check", "--state", "/tmp"),
                      ("examples/week.toml", "127.0.0.1:7000", "--state", "/no/such/folder"), ("examples/week.toml", "--show", "someday"),
                      ("examples/week.toml", "--show", "now", "--picture", "a.svg")):
            self.assertEqual(self.run_(*words).returncode, 2, words)
        for words in (("no.toml", "--check"), ("no.toml", "127.0.0.1:7000"), ("examples/week.toml", "--show", "2027-02-29"),
                      ("examples/week.toml", "--show", "now", "--point", "x"), (written(self.folder, HEAD + "x"), "--show", "now"),
                      ("examples/week.toml", "--show", "day", "--picture", "/no/such/folder/a.svg")):
            self.assertEqual(self.run_(*words).returncode, 3, words)

    def test_a_day_as_a_table(self):
        ran = self.run_("examples/week.toml", "--show", "2028-04-17", "--point", "air.*")      # Easter Monday
        rows = [line.split() for line in ran.stdout.splitlines()]
        self.assertEqual([row[:6] for row in rows[1:]], [
            ["air", "air.damper", "08:00", "08:30", "40.0", "%"], ["air", "air.fan", "08:00", "08:30", "2", "air:"],
            ["heating", "air.heating", "00:00", "24:00", "15.0", "%"]])

    def test_the_change_of_the_clock_as_json(self):
        told = json.loads(self.run_("examples/week.toml", "--show", "2027-10-31", "--point", "hall.lamp", "--json").stdout)
        self.assertEqual([[span[0], span[1], span[2]] for span in told["strips"][0]["spans"]], [[at("2027-10-31T02:30"), at("2027-10-31T03:30"), 1]])
        self.assertEqual(at("2027-10-31T03:30") - at("2027-10-31T02:30"), 2 * HOUR)

    def test_now(self):
        text = GOOD.replace('[[programme.block]]\nfrom = "06:30"\nto = "18:00"\nset = 1\n', "otherwise = 1\n")
        ran = self.run_(written(self.folder, HEAD + text), "--show", "now")
        self.assertEqual(ran.stdout.splitlines()[1].split()[:3], ["hall.lamp", "16", "1"])

    def test_a_week_and_its_picture(self):
        path = os.path.join(self.folder, "week.svg")
        ran = self.run_("examples/week.toml", "--show", "week", "--picture", path)
        self.assertEqual(ran.returncode, 0)
        self.assertEqual(len(ran.stdout.splitlines()[0].split()), 2 + 2 * 7)
        root = xml.etree.ElementTree.parse(path).getroot()
        titles = [one.text for one in root.iter("{http://www.w3.org/2000/svg}title")]
        texts = [one.text for one in root.iter("{http://www.w3.org/2000/svg}text")]
        self.assertTrue([one for one in titles if one and "02:30 to 03:30: lamps: week: night round" in one])
        self.assertEqual(len([one for one in texts if one and one.startswith(("Monday", "Sunday"))]), 2)
        self.assertTrue(any(one and str(date.today().year) in one for one in texts))


if __name__ == "__main__":
    unittest.main()
