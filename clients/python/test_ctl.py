"""Tests of bossctl, against the built program where it asks one: python3 -m unittest, in this folder."""

import contextlib
import glob
import hashlib
import io
import json
import os
import signal
import subprocess
import sys
import tempfile
import textwrap
import time
import unittest
from unittest import mock

import bossd
from bossd.ctl import _commands, _journal, _lint, _live, _served, _show, main
from bossd.ctl._toml import Failure, Lines
from test_bossd import MINUTE, Answering, busy, common, denying, eventually

HERE = os.path.dirname(os.path.abspath(__file__))
PLANT = """
drivers = ["field"]

[[point]]
name = "ahu1.damper"
driver = "field"
kind = "analog"
min = 0
max = 100000
default = 20000
unit = "%"
note = "supply air"

[[point]]
name = "lamp"
driver = "field"
kind = "binary"
default = 0

[[point]]
name = "fan"
driver = "field"
kind = "multi"
states = 3
default = 1
"""


# A plan for it. A table begins at lines 1, 4, 9 and 14.
DRIVER = """[[driver]]
name = "field"
host = "127.0.0.1:1502"
"""
PLAN = DRIVER + """[[place]]
point = "ahu1.damper"
unit = 1
register = 2
per = 1000
[[place]]
point = "lamp"
unit = 2
coil = 19

[[place]]
point = "fan"
unit = 1
register = 3
"""


# One whose driver speaks BACnet. A table begins at lines 1, 5, 10 and 14.
OBJECTS = """[[driver]]
name = "field"
host = "127.0.0.1:47808"
speaks = "bacnet"
[[place]]
point = "ahu1.damper"
bacnet = "analog-output,3"
level = 10
per = 1000
[[place]]
point = "lamp"
bacnet = "binary-value,2"
level = 10
[[place]]
point = "fan"
bacnet = "multi-state-output,4"
level = 10
network = 2001
station = 12
"""


# Rules for it. A rule begins at lines 1, 5 and 9.
RULES = """[[rule]]
process = "operator"
point = "*"
highest = 8
[[rule]]
process = "night-*"
point = "ahu1.*"
highest = 13
[[rule]]
process = "c*"
point = "*"
allow = false
"""


class Folder(unittest.TestCase):
    def setUp(self):
        folder = tempfile.TemporaryDirectory()
        self.addCleanup(folder.cleanup)
        self.folder = folder.name
        # The catalogue of a unit on this machine is none of theirs.
        default = mock.patch.object(_served, "DEFAULT", os.path.join(self.folder, "default.toml"))
        default.start()
        self.addCleanup(default.stop)

    def file(self, name, text):
        path = os.path.join(self.folder, name)
        with open(path, "wb") as file:
            file.write(text if isinstance(text, bytes) else textwrap.dedent(text).encode())
        return path

    def run_here(self, *words):
        """The status, what was written, and what was written aside."""
        out, aside = io.StringIO(), io.StringIO()
        with contextlib.redirect_stdout(out), contextlib.redirect_stderr(aside):
            try:
                status = main(list(words))
            except SystemExit as end:
                status = end.code
        return status, out.getvalue(), aside.getvalue()


class Linting(Folder):
    def found(self, catalogue, rules=None, plan=None):
        files = [self.file(name, text) for name, text in (("plant.toml", catalogue), ("rules.toml", rules), ("plan.toml", plan)) if text is not None]
        return [(it.line, it.table, it.key, it.is_mistake) for it in _lint.lint(*files)]

    def test_what_is_right(self):
        self.assertEqual(self.found(PLANT), [])
        for name in ("plant.toml", "floor.toml", "pump.toml"):
            self.assertEqual(_lint.lint(os.path.join(common.EXAMPLES, name)), [])
        for rules in glob.glob(os.path.join(common.EXAMPLES, "*.rules.toml")):
            self.assertEqual(_lint.lint(rules.replace(".rules", ""), rules), [])
        for keys in glob.glob(os.path.join(common.EXAMPLES, "*.keys.toml")):
            self.assertEqual([it for it in _lint.lint(keys.replace(".keys", ""), keys=keys) if it.is_mistake], [])

    def test_every_mistake_by_its_line_and_key(self):
        self.assertEqual(self.found("""\
            drivers = ["field", "Field", "field"]
            [[point]]
            name = "a"
            driver = "field"
            kind = "analog"
            min = 0.0
            max = 100000
            defualt = 0
            [[point]]
            name = "a"            # the name of an earlier one
            driver = "roof"
            kind = "binray"
            default = 0
            [[point]]
            name = "c c"
            driver = "field"
            kind = "multi"
            states = 1
            [[point]]
            name = "d"
            driver = "field"
            kind = "analog"
            min = 10
            max = 0
            default = 5
            [[point]]
            name = "e"
            driver = "field"
            kind = "binary"
            default = 2
            min_on = -1
            unit = 3
            """), [
            (1, "drivers[1]", "", True), (1, "drivers[2]", "", True),
            (6, "point[0]", "min", True), (8, "point[0]", "defualt", True),
            (10, "point[1]", "name", True), (11, "point[1]", "driver", True), (12, "point[1]", "kind", True),
            (15, "point[2]", "name", True), (18, "point[2]", "states", True),
            (23, "point[3]", "min", True),
            (30, "point[4]", "default", True), (31, "point[4]", "min_on", True), (32, "point[4]", "unit", True)])

    def sentences(self, catalogue, plan=None):
        """What is found, whether it is a mistake, and what is wanted."""
        files = [self.file("plant.toml", catalogue), None] + ([self.file("plan.toml", plan)] if plan else [])
        return [(it.found, it.is_mistake, it.wanted) for it in _lint.lint(*files)]

    def test_a_misspelt_key_is_a_mistake_and_another_one_is_not(self):
        lamp = 'kind = "binary"\ndefault = 0\n'
        for key, is_mistake, wanted in [("minon = 5", True, "is min_on meant?"), ("min-on = 5", True, "is min_on meant?"),
                                        ("room = 5", False, "known here are"), ("notes = 5\nnote = ''", False, "known here are")]:
            with self.subTest(key):
                [(found, mistake, text)] = self.sentences(PLANT.replace(lamp, lamp + key + "\n"))
                self.assertEqual((found, mistake), ("a key that nothing reads", is_mistake))
                self.assertIn(wanted, text)
        odd = self.file("odd.toml", PLANT.replace(lamp, lamp + "room = 5\n"))
        self.assertEqual([self.run_here(*words)[0] for words in (("lint", odd), ("lint", "--strict", odd))], [0, 1])
        self.assertEqual(self.run_here("lint", "--strict", self.file("right.toml", PLANT))[0], 0)
        self.assertEqual(self.run_here("lint", self.file("wrong.toml", PLANT.replace(lamp, lamp + "minon = 5\n")))[0], 1)

    def test_whole_units_where_thousandths_are_meant(self):
        for old, new, found, wanted in [
            ("max = 100000\ndefault = 20000", "max = 100\ndefault = 20", "100 with the unit %, which is 0.1 %", "is 100000 meant?"),
            ("default = 20000", "default = 20", "20, which is 0.02 of 100", "is 20000 meant?"),
        ]:
            [told] = self.sentences(PLANT.replace(old, new))
            self.assertEqual(told[:2], (found, False))
            self.assertIn(wanted, told[2])
        # Half a percent is a default like others.
        self.assertEqual(self.sentences(PLANT.replace("default = 20000", "default = 500")), [])

    def test_a_byte_order_mark_is_passed_over(self):
        marked = self.file("marked.toml", b"\xef\xbb\xbf" + PLANT.encode())
        self.assertEqual(_lint.lint(marked), [])
        self.assertEqual(_show.read_catalogue(marked).digest, _show.read_catalogue(self.file("plain.toml", PLANT)).digest)

    def test_a_bracket_too_few(self):
        for text, found, wanted in [(PLANT.replace("[[point]]", "[point]"), "[point] again", "[[point]]"),
                                    (PLANT.replace("[[point]]", "[point] # one"), "[point] again", "[[point]]")]:
            [told] = self.sentences(text)
            self.assertEqual(told[:2], (found, True))
            self.assertIn(wanted, told[2])

    def test_drivers_that_are_missing_are_one_mistake(self):
        self.assertEqual(self.found(PLANT.replace('drivers = ["field"]', "")), [(None, "", "drivers", True)])

    def test_names_that_may_have_been_meant(self):
        [(_, _, wanted)] = self.sentences(PLANT.replace('driver = "field"\nkind = "binary"', 'driver = "feild"\nkind = "binary"'))
        self.assertIn("is field meant?", wanted)
        self.assertIn("a point of the catalogue; is lamp meant?", [it[2] for it in self.sentences(PLANT, PLAN.replace('"lamp"', '"lmap"'))])
        with self.assertRaisesRegex(Failure, "no point ahu1.dampr; is ahu1.damper meant?"):
            _show.read_catalogue(self.file("plant.toml", PLANT)).point("ahu1.dampr")

    def test_a_missing_key_is_told_at_its_table(self):
        self.assertEqual(self.found('drivers = []\n[[point]]\nname = "a"\n')[0], (2, "point[0]", "driver", True))
        self.assertEqual(self.found("x = 1\n"), [(None, "", "drivers", True), (None, "", "point", True), (1, "", "x", False)])

    def test_a_broken_table(self):
        [(line, _, _, is_mistake)] = self.found('drivers = ["a"]\n[[point]\nname = "a"\n')
        self.assertEqual((line, is_mistake), (2, True))
        [(line, _, _, is_mistake)] = self.found(b'drivers = ["a"]\n# \xff\n')
        self.assertEqual((line, is_mistake), (2, True))

    def test_inline_tables_have_their_lines(self):
        self.assertEqual(self.found("""\
            drivers = ["field"]
            point = [
                { name = "a", driver = "field", kind = "binary", default = 0 },
                { name = "b", driver = "field", kind = "binary", default = 7 },
            ]
            """), [(4, "point[1]", "default", True)])

    def of_rules(self, rules, catalogue=PLANT):
        """What is found of rules: line, table, key, what was found, and whether it is a mistake."""
        return [(it.line, it.table, it.key, it.found, it.is_mistake) for it in self.linted(rules, catalogue)]

    def linted(self, rules, catalogue=PLANT):
        return _lint.lint(self.file("plant.toml", catalogue), self.file("rules.toml", rules))

    def test_rules(self):
        self.assertEqual(self.of_rules(RULES), [])
        self.assertEqual(self.found(PLANT, """\
            [[rule]]
            process = "night-*"
            point = "ahu1.*"
            highest = 17
            [[rule]]
            process = "Night"
            point = "roof.*"
            allow = "no"
            [[rule]]
            process = "*"
            point = "*"
            [[rule]]
            process = "a"
            piont = "lamp"
            """), [
            (4, "rule 1", "highest", True), (6, "rule 2", "process", True), (8, "rule 2", "allow", True),
            (12, "rule 4", "point", True), (14, "rule 4", "piont", True)])

    def test_rules_that_are_no_file_of_tables(self):
        for text, line, key, found in [
            ("", None, "rule", "nothing"),
            ("rule = 3\n", 1, "rule", "3"),
            ('[rule]\nprocess = "a"\npoint = "lamp"\n', 1, "rule", "a table"),
            (RULES + "#" * 1_048_576, None, "", f"{len(RULES) + 1_048_576} bytes"),
        ]:
            with self.subTest(found):
                self.assertEqual(self.of_rules(text)[0], (line, "", key, found, True))
        [(line, _, _, _, is_mistake)] = self.of_rules(RULES.replace("highest = 8", "highest = eight"))
        self.assertEqual((line, is_mistake), (4, True))
        [(line, _, _, _, is_mistake)] = self.of_rules(RULES.replace("highest = 8", "highest = 8\nhighest = 9"))
        self.assertEqual((line, is_mistake), (5, True))
        many = RULES + '[[rule]]\nprocess = "a"\npoint = "lamp"\nhighest = 3\n' * 254
        self.assertEqual([it for it in self.of_rules(many) if it[4]], [(1, "", "rule", "257 of them", True)])
        self.assertEqual(self.of_rules("rule = [7]\n"), [(1, "rule 1", "", "7", True)])

    def test_each_key_of_a_rule(self):
        """Each fault of a rule, in the second one, which begins at line 5."""
        longest = "n" * 63
        for old, new, line, key, found in [
            ('process = "night-*"', "", 5, "process", "nothing"),
            ('process = "night-*"', 'process = ""', 6, "process", '""'),
            ('process = "night-*"', 'process = "night-*-purge"', 6, "process", '"night-*-purge"'),
            ('process = "night-*"', 'process = "Night-*"', 6, "process", '"Night-*"'),
            ('process = "night-*"', f'process = "{longest}n*"', 6, "process", '"' + longest[:56] + "..."),
            ('process = "night-*"', "process = 3", 6, "process", "3"),
            ('point = "ahu1.*"', "", 5, "point", "nothing"),
            ('point = "ahu1.*"', 'point = "**"', 7, "point", '"**"'),
            ('point = "ahu1.*"', 'point = ["lamp"]', 7, "point", "an array of 1"),
            ("highest = 13", "highest = 0", 8, "highest", "0"),
            ("highest = 13", "highest = 17", 8, "highest", "17"),
            ("highest = 13", "highest = 13.0", 8, "highest", "13.0"),
            ("highest = 13", "highest = true", 8, "highest", "true"),
            ("highest = 13", 'allow = "yes"', 8, "allow", '"yes"'),
            ("highest = 13", "allow = 1", 8, "allow", "1"),
            ("highest = 13", "highest = 13\nowner = 1", 9, "owner", "a key that nothing reads"),
        ]:
            with self.subTest(new):
                self.assertEqual(self.of_rules(RULES.replace(old, new)), [(line, "rule 2", key, found, True)])
        for new in ("n*", longest + "*", longest + "n", "night-purge"):
            self.assertEqual(self.of_rules(RULES.replace("night-*", new)), [])

    def test_what_rules_can_hardly_mean(self):
        for text, line, table, key, found in [
            (RULES.replace("ahu1.*", "roof.*"), 7, "rule 2", "point", '"roof.*", which fits no point'),
            (RULES.replace("ahu1.*", "ahu1.dampre"), 7, "rule 2", "point", '"ahu1.dampre", which fits no point'),
            (RULES + "highest = 8\n", 13, "rule 3", "highest", "highest beside allow = false"),
            (RULES + '[[rule]]\nprocess = "comfort"\npoint = "lamp"\n', 13, "rule 4", "", "a rule that no write comes to"),
            (RULES[:RULES.index("[[rule]]", 1)].replace('"*"', '"ahu1.*"'), None, "", "", 'no rule for "lamp", "fan"'),
            ("rule = []\n", None, "", "", 'no rule for "ahu1.damper", "lamp", "fan"'),
            (RULES.replace('"c*"', '"*"'), 10, "rule 3", "process", '"*", which lets every name attach'),
        ]:
            with self.subTest(found):
                self.assertEqual(self.of_rules(text), [(line, table, key, found, False)])

    def test_rules_that_no_write_comes_to(self):
        def rules(*patterns):
            return "".join(f'[[rule]]\nprocess = "{process}"\npoint = "{point}"\n' for process, point in patterns) + '[[rule]]\nprocess="*"\npoint="*"\n'

        def idle(*patterns):
            return [(it.table, it.wanted) for it in self.linted(rules(*patterns)) if "no write comes" in it.found]
        self.assertEqual(idle(("a*", "ahu1.*"), ("ab", "ahu1.damper")), [("rule 2", "rule 1 decides before it: put the narrower rule first")])
        self.assertEqual(idle(("a*", "lamp"), ("*", "f*"), ("ab*", "*")), [])
        self.assertEqual(idle(("a*", "lamp"), ("*", "f*"), ("a*", "ahu*"), ("ab*", "*")),
                         [("rule 4", "rules 1, 2, 3 decide before it: put the narrower rule first")])
        self.assertEqual(idle(("ab", "lamp"), ("a*", "lamp"), ("ac", "lam*")), [("rule 3", "rule 2 decides before it: put the narrower rule first")])
        # Names with 64 characters fit the longest pattern too, so a name of 63 does not cover it.
        self.assertEqual(idle(("n" * 63, "*"), ("n" * 63 + "*", "*")), [])

    def of_plan(self, plan, catalogue=PLANT):
        """What is found of a plan: line, table, key, what was found, and whether it is a mistake."""
        files = [self.file("plant.toml", catalogue), None, self.file("plan.toml", plan)]
        return [(it.line, it.table, it.key, it.found, it.is_mistake) for it in _lint.lint(*files)]

    def test_a_plan(self):
        self.assertEqual(self.of_plan(PLAN), [])
        self.assertEqual(self.of_plan("driver = []\nplace = []\n"), [])
        self.assertEqual(self.of_plan("place = []\n" + DRIVER + DRIVER, "drivers = []\npoint = []\n"), [
            (3, "driver[0]", "name", '"field"', True), (6, "driver[1]", "name", '"field"', True)])
        self.assertEqual(self.of_plan(OBJECTS), [])
        for name in ("plant", "pump", "heatpump", "airhandler"):
            catalogue, plan = (os.path.join(common.EXAMPLES, f"{name}.{kind}") for kind in ("toml", "plan.toml"))
            self.assertEqual(_lint.lint(catalogue, None, plan), [])

    def test_a_plan_that_is_no_file_of_tables(self):
        self.assertEqual(self.of_plan(PLAN + "#" * 1_048_576), [(None, "", "", f"{len(PLAN) + 1_048_576} bytes", True)])
        [(line, _, _, _, is_mistake)] = self.of_plan(PLAN.replace("unit = 1", "unit = one"))
        self.assertEqual((line, is_mistake), (6, True))
        self.assertEqual(self.of_plan("place = []\n"), [(None, "", "driver", "nothing", True)])
        self.assertEqual(self.of_plan('[driver]\nname = "field"\n'), [(None, "", "place", "nothing", True), (1, "", "driver", "a table", True)])
        self.assertEqual(self.of_plan("driver = 1\nplace = true\n"), [(1, "", "driver", "1", True), (2, "", "place", "true", True)])

    def test_drivers_of_a_plan(self):
        for old, new, line, key, found in [
            ('name = "field"', 'name = "roof"', 2, "name", '"roof"'),
            ('name = "field"', "name = 3", 2, "name", "3"),
            ('name = "field"', "", 1, "name", "nothing"),
            ('host = "127.0.0.1:1502"', "", 1, "host", "nothing"),
            ('host = "127.0.0.1:1502"', 'host = ""', 3, "host", '""'),
            ('host = "127.0.0.1:1502"', f'host = "{"h" * 256}"', 3, "host", '"' + "h" * 56 + "..."),
            ('host = "127.0.0.1:1502"', "host = 502", 3, "host", "502"),
        ]:
            with self.subTest(new):
                self.assertIn((line, "driver[0]", key, found, True), self.of_plan(PLAN.replace(old, new)))
        self.assertEqual(self.of_plan(DRIVER + PLAN), [(5, "driver[1]", "name", '"field" again', True)])
        self.assertEqual(self.of_plan("driver = [7]\nplace = []\n"), [(1, "driver[0]", "", "7", True)])
        for host in ("plant-server", "192.0.2.10:0", "192.0.2.10:70000"):
            self.assertEqual(self.of_plan(PLAN.replace("127.0.0.1:1502", host)), [(3, "driver[0]", "host", f'"{host}"', False)])

    def test_what_manuals_and_urls_have(self):
        self.assertEqual(self.of_plan(PLAN.replace("127.0.0.1:1502", "tcp://192.0.2.7:502")),
                         [(3, "driver[0]", "host", '"tcp://192.0.2.7:502"', True)])
        [told] = self.sentences(PLANT, PLAN.replace("register = 3", "register = 40001"))
        self.assertEqual(told[:2], ("40001", False))
        self.assertIn("is 0 meant?", told[2])
        self.assertEqual(self.of_plan(PLAN.replace("register = 3", "register = 40000")), [])

    def test_places_of_a_plan(self):
        """Each fault of a place, in that of the lamp, which begins at line 9."""
        for old, new, line, key, found in [
            ('point = "lamp"', "", 9, "point", "nothing"),
            ('point = "lamp"', 'point = "door"', 10, "point", '"door"'),
            ('point = "lamp"', 'point = "ahu1.damper"', 10, "point", '"ahu1.damper" again'),
            ("unit = 2", "", 9, "unit", "nothing"),
            ("unit = 2", "unit = 256", 11, "unit", "256"),
            ("unit = 2", "unit = -1", 11, "unit", "-1"),
            ("unit = 2", "unit = 2.0", 11, "unit", "2.0"),
            ("coil = 19", "", 9, "", "neither coil nor register"),
            ("coil = 19", "coil = 19\nregister = 19", 9, "", "coil and register"),
            ("coil = 19", "coil = 65536", 12, "coil", "65536"),
            ("coil = 19", "coil = true", 12, "coil", "true"),
            ("coil = 19", 'coil = 19\ntype = "u16"', 13, "type", "type at a coil"),
            ("coil = 19", "coil = 19\nfunction = 6", 13, "function", "6"),
            ("coil = 19", 'register = 19\ntype = "f64"', 13, "type", '"f64"'),
            ("coil = 19", 'register = 65535\ntype = "f32"', 12, "register", "65535 for type f32"),
            ("coil = 19", 'register = 19\nfirst = "low"', 13, "first", "first at one register of type u16"),
            ("coil = 19", 'register = 19\ntype = "u32"\nfirst = "big"', 14, "first", '"big"'),
            ("coil = 19", "register = 19\ntimes = 0", 13, "times", "0"),
            ("coil = 19", "register = 19\noffset = 1000000001", 13, "offset", "1000000001"),
            ("coil = 19", "register = 19\nper = 10000000000\noffset = 1000000000", 14, "offset", "1000000000 times 10000000000"),
            ("coil = 19", 'register = 19\nround = "up"', 13, "round", '"up"'),
            ("coil = 19", 'register = 19\ntype = "f32"\nround = "down"', 14, "round", "round at type f32"),
            ("coil = 19", "register = 19\nfunction = 5", 13, "function", "5"),
            ("coil = 19", 'register = 19\ntype = "i32"\nfunction = 6', 14, "function", "6"),
            ("coil = 19", "register = 19\noffset = -1", 12, "register", "0, which comes to -1"),
            ("coil = 19", "coil = 19\nper = 0", 13, "per", "0"),
            ("coil = 19", "coil = 19\nper = 1000000000000001", 13, "per", "1000000000000001"),
        ]:
            with self.subTest(new):
                self.assertIn((line, "place[1]", key, found, True), self.of_plan(PLAN.replace(old, new)))
        self.assertIn((17, "place[2]", "coil", 'a coil for a point of kind "multi"', True), self.of_plan(PLAN.replace("register = 3", "coil = 3")))
        self.assertIn((8, "place[0]", "per", "100000 divided by 1, which is 100000", True), self.of_plan(PLAN.replace("per = 1000", "per = 1")))
        self.assertIn((7, "place[0]", "register", "a point with values down to -1", True), self.of_plan(PLAN, PLANT.replace("min = 0", "min = -1")))
        self.assertIn((1, "place[0]", "", "7", True), self.of_plan("place = [7]\n" + DRIVER))
        self.assertEqual(self.of_plan(PLAN.replace("coil = 19", "register = 19")), [])
        below = PLANT.replace("min = 0", "min = -20000")
        self.assertEqual(self.of_plan(PLAN.replace("per = 1000", 'per = 1000\ntype = "i16"'), below), [])
        self.assertEqual(self.of_plan(PLAN.replace("per = 1000", 'per = 1000\ntype = "f32"\nfirst = "low"'), below),
                         [(19, "place[2]", "register", 'register 3 again, which "ahu1.damper" has', False)])
        for wait in ("49", "5001", '"1s"', "true"):
            self.assertIn((2, "driver[0]", "wait", wait, True), self.of_plan(PLAN.replace("[[driver]]\n", "[[driver]]\nwait = " + wait + "\n", 1)))
        self.assertIn((5, "place[0]", "point", 'a point of the driver "field"', True),
                      self.of_plan(PLAN.replace('"field"', '"roof"'), PLANT.replace('["field"]', '["field", "roof"]')))

    def test_drivers_that_speak_bacnet(self):
        for old, new, line, key, found in [
            ('speaks = "bacnet"', 'speaks = "BACnet"', 4, "speaks", '"BACnet"'),
            ('speaks = "bacnet"', "speaks = 1", 4, "speaks", "1"),
            ('speaks = "bacnet"', 'speaks = "bacnet"\ntries = 0', 5, "tries", "0"),
            ('speaks = "bacnet"', 'speaks = "bacnet"\ntries = 5', 5, "tries", "5"),
            ('speaks = "bacnet"', 'tries = 2', 4, "tries", "tries at a driver that speaks Modbus"),
            ('speaks = "bacnet"', 'speaks = "bacnet"\nwait = 49', 5, "wait", "49"),
            ('speaks = "bacnet"', 'speaks = "bacnet"\ncheck = 999', 5, "check", "999"),
            ('speaks = "bacnet"', 'speaks = "bacnet"\nagain = 86400001', 5, "again", "86400001"),
            ('speaks = "bacnet"', 'speaks = "bacnet"\nagain = false', 5, "again", "false"),
        ]:
            with self.subTest(new):
                self.assertIn((line, "driver[0]", key, found, True), self.of_plan(OBJECTS.replace(old, new)))
        for more in ("check = 0", "check = 1000", "check = 86400000", "again = 60000", "tries = 4", "wait = 50"):
            self.assertEqual(self.of_plan(OBJECTS.replace('speaks = "bacnet"', f'speaks = "bacnet"\n{more}')), [], more)

    def test_objects_of_a_plan(self):
        """Each fault of a place of BACnet, in that of the lamp, which begins at line 10."""
        for old, new, line, key, found in [
            ("level = 10", "level = 10\nunit = 1", 14, "unit", "unit where the driver speaks BACnet"),
            ("level = 10", "level = 10\ncoil = 1", 14, "coil", "coil where the driver speaks BACnet"),
            ("level = 10", "level = 10\nregister = 1", 14, "register", "register where the driver speaks BACnet"),
            ("level = 10", 'level = 10\ntype = "f32"', 14, "type", "type where the driver speaks BACnet"),
            ("level = 10", "level = 10\nfunction = 5", 14, "function", "function where the driver speaks BACnet"),
            ("level = 10", 'level = 10\nround = "down"', 14, "round", "round where the driver speaks BACnet"),
            ("level = 10", "", 10, "level", "nothing"),
            ("level = 10", "level = 0", 13, "level", "0"),
            ("level = 10", "level = 6", 13, "level", "6"),
            ("level = 10", "level = 17", 13, "level", "17"),
            ("level = 10", "level = 10\nnetwork = 1", 14, "network", "network alone"),
            ("level = 10", "level = 10\nstation = 1", 14, "station", "station alone"),
            ("level = 10", "level = 10\nnetwork = 65535\nstation = 1", 14, "network", "65535"),
            ("level = 10", "level = 10\nnetwork = 1\nstation = 255", 15, "station", "255"),
            ("level = 10", "level = 10\nper = 1000", 14, "per", "per at an object of kind binary"),
            ("level = 10", "level = 10\ntimes = 2", 14, "times", "times at an object of kind binary"),
            ("level = 10", "level = 10\noffset = 2", 14, "offset", "offset at an object of kind binary"),
            ("level = 10", "level = 10\ncheck = 1", 14, "check", "1"),
            ("level = 10", "level = 10\nagain = -1", 14, "again", "-1"),
            ('"binary-value,2"', '"binary-value, 2"', 12, "bacnet", '"binary-value, 2"'),
            ('"binary-value,2"', '"binary-value,4194303"', 12, "bacnet", '"binary-value,4194303"'),
            ('"binary-value,2"', '"binary-input,2"', 12, "bacnet", '"binary-input,2"'),
            ('"binary-value,2"', "2", 12, "bacnet", "2"),
            ('"binary-value,2"', '"analog-value,2"', 12, "bacnet", 'an object of kind analog for a point of kind "binary"'),
            ('bacnet = "binary-value,2"', "", 10, "bacnet", "nothing"),
        ]:
            with self.subTest(new):
                lamp = OBJECTS.index('point = "lamp"')
                self.assertIn((line, "place[1]", key, found, True), self.of_plan(OBJECTS[:lamp] + OBJECTS[lamp:].replace(old, new, 1)))
        for old, new, key in [("per = 1000", "per = 10000000000\noffset = 1000000000", "offset"), ("per = 1000", "per = 1000\ntimes = 1001", "times")]:
            self.assertIn((10, "place[0]", key), [it[:3] for it in self.of_plan(OBJECTS.replace(old, new)) if it[4]])
        # Such a place where the driver speaks Modbus.
        found = self.of_plan(PLAN.replace("coil = 19", 'coil = 19\nbacnet = "binary-value,2"\nlevel = 10\nnetwork = 1\nstation = 1'))
        self.assertEqual(found, [(line, "place[1]", key, f"{key} where the driver speaks Modbus", True) for line, key in
                                 [(13, "bacnet"), (14, "level"), (15, "network"), (16, "station")]])

    def test_what_a_plan_of_objects_can_hardly_mean(self):
        for old, new, line, table, key, found in [
            ("level = 10\nper", "level = 1\nper", 8, "place[0]", "level", "level 1, Manual-Life Safety"),
            ("level = 10\nper", "level = 2\nper", 8, "place[0]", "level", "level 2, Automatic-Life Safety"),
            ("per = 1000\n", "", 5, "place[0]", "per", "no per, so that 100000 thousandths are 100000 in the device"),
            ("127.0.0.1:47808", "127.0.0.1", 3, "driver[0]", "host", '"127.0.0.1"'),
            ("127.0.0.1:47808", "127.0.0.1:502", 3, "driver[0]", "host", '"127.0.0.1:502"'),
        ]:
            with self.subTest(new):
                self.assertEqual(self.of_plan(OBJECTS.replace(old, new)), [(line, table, key, found, False)])
        self.assertEqual(self.of_plan(PLAN.replace(":1502", ":47808")), [(3, "driver[0]", "host", '"127.0.0.1:47808"', False)])
        twice = PLANT.replace('kind = "multi"\nstates = 3\ndefault = 1', 'kind = "binary"\ndefault = 0')
        objects = OBJECTS.replace('"multi-state-output,4"', '"binary-value,2"')
        # The same name at a station is another object.
        self.assertEqual(self.of_plan(objects, twice), [])
        self.assertEqual(self.of_plan(objects.replace("network = 2001\nstation = 12\n", ""), twice),
                         [(16, "place[2]", "bacnet", 'binary-value,2 again, which "lamp" has', False)])

    def test_many_that_are_written_all_the_time(self):
        def found(count, again, of_driver=""):
            names = [f"lamp.{place}" for place in range(count)]
            catalogue = 'drivers = ["field"]\n' + "".join(f'[[point]]\nname = "{it}"\ndriver = "field"\nkind = "binary"\ndefault = 0\n' for it in names)
            plan = DRIVER + of_driver + "".join(f'[[place]]\npoint = "{it}"\nunit = 1\ncoil = {place}\n{again}' for place, it in enumerate(names))
            return self.of_plan(plan, catalogue)
        told = "101 places that are written once more each 4999 ms"
        self.assertEqual(found(101, "again = 4999\n"), [(1, "driver[0]", "again", told, False)])
        self.assertEqual(found(101, "", "again = 4999\n"), [(4, "driver[0]", "again", told, False)])
        self.assertEqual([found(100, "again = 4999\n"), found(101, "again = 5000\n"), found(101, "again = 0\n", "again = 4999\n")], [[], [], []])

    def test_registers_that_overlap(self):
        """A number in two registers, and another point in the second of them."""
        plan = PLAN.replace("per = 1000", 'per = 1000\ntype = "i32"')
        self.assertEqual(self.of_plan(plan), [(18, "place[2]", "register", 'register 3 again, which "ahu1.damper" has', False)])
        self.assertEqual(self.of_plan(plan.replace("register = 3", "register = 4")), [])
        self.assertEqual(self.of_plan(plan.replace("unit = 1\nregister = 3", "unit = 2\nregister = 3")), [])

    def test_points_without_a_place(self):
        places = PLAN.index("[[place]]\npoint = \"lamp\"")
        self.assertEqual(self.of_plan(PLAN[:places]), [
            (1, "driver[0]", "", 'no place for "lamp"', True), (1, "driver[0]", "", 'no place for "fan"', True)])

    def test_what_a_plan_can_hardly_mean(self):
        for old, new, line, key, found in [
            ("coil = 19", "coil = 19\nper = 1000", 13, "per", "per at a coil"),
            ("register = 3", "register = 3\nper = 1000", 18, "per", "1000, by which each of 1 to 3 comes to 0"),
            ("per = 1000", "per = 1000000", 8, "per", "1000000, by which each of 0 to 100000 comes to 0"),
            ("register = 3", "register = 2", 17, "register", 'register 2 again, which "ahu1.damper" has'),
        ]:
            with self.subTest(new):
                self.assertEqual(self.of_plan(PLAN.replace(old, new)), [(line, "place[1]" if line == 13 else "place[2]" if line > 13 else "place[0]",
                                                                        key, found, False)])

    def test_the_command(self):
        path = self.file("plant.toml", 'drivers = ["field"]\n[[point]]\nname = "a"\ndriver = "field"\nkind = "analog"\nmin = 0.0\nmax = 1\ndefault = 0\n')
        status, out, _ = self.run_here("lint", path)
        self.assertEqual(status, 1)
        self.assertIn(f'{path}:6: point[0] "a": min: found 0.0; a whole number of', out)
        status, out, _ = self.run_here("lint", path, "--json")
        self.assertEqual([it["line"] for it in json.loads(out)], [6])
        self.assertEqual(self.run_here("lint", os.path.join(common.EXAMPLES, "plant.toml"))[0], 0)
        self.assertEqual(self.run_here("lint", "/nowhere")[0], 1)
        files = [self.file(name, text) for name, text in (("plant.toml", PLANT), ("rules.toml", RULES.replace("= 13", "= 17")), ("plan.toml", PLAN))]
        status, out, _ = self.run_here("lint", *files)
        self.assertEqual((status, out.splitlines()), (1, [f"{files[1]}:8: rule 2: highest: found 17; the least priority number that it allows, 1 to 16",
                                                          f"{', '.join(files)}: 1 mistake"]))


class Finding(unittest.TestCase):
    def test_lines_of_keys(self):
        lines = Lines('a.b = """\n"quoted""""\n[t]\n"x y" = [1,\n 2] # end\n[[u]]\nk = \'#\'\n[[u]]\n[u.v]\nw = {z = 1}\n')
        for path, line in [(("a", "b"), 1), (("t",), 3), (("t", "x y"), 4), (("t", "x y", 1), 5), (("u", 0, "k"), 7), (("u", 1), 8),
                           (("u", 1, "v", "w"), 10), (("u", 1, "v", "w", "z"), 10), (("u", 1, "missing"), 8), (("nowhere",), None)]:
            self.assertEqual(lines.of(path), line, path)


class Showing(unittest.TestCase):
    def test_values(self):
        damper = _show.Point("d", "f", "analog", -10_000, 100_000, 0, "%")
        self.assertEqual([damper.show(value) for value in (45_000, -500, 125, 0)], ["45.0 %", "-0.5 %", "0.125 %", "0.0 %"])
        self.assertEqual([damper.value(text) for text in ("45", "-0.5", "0.125", "1e1")], [45_000, -500, 125, 10_000])
        for text in ("0.0001", "101", "nan", "inf", "x"):
            with self.assertRaises(Failure):
                damper.value(text)
        with self.assertRaises(Failure):
            _show.Point("l", "f", "binary", 0, 1, 0).value("0.5")

    def test_values_as_people_write_them(self):
        lamp = _show.Point("l", "f", "binary", 0, 1, 0)
        self.assertEqual([lamp.value(text) for text in ("on", "off", "ON", "1", "0")], [1, 0, 1, 1, 0])
        damper, supply = (_show.Point("d", "f", "analog", 0, 100_000, 0, unit) for unit in ("%", "°C"))
        self.assertEqual([damper.value(text) for text in ("40%", "40 %", "40")], [40_000] * 3)
        self.assertEqual([supply.value(text) for text in ("21.5°C", "21.5 °C")], [21_500] * 2)
        self.assertEqual(_show.Point("d", "f", "analog", 0, 100_000, 0, "percent").value("40%"), 40_000)
        for point, text, why in [(supply, "40%", "no value of d"), (damper, "on", "no value of d"), (damper, "40,5", "written 40.5"),
                                 (lamp, "open", "0 or 1, which are off and on"), (damper, "%", "no value of d")]:
            with self.subTest(text), self.assertRaisesRegex(Failure, why):
                point.value(text)

    def test_lengths_of_time(self):
        self.assertEqual([_show.read_length(text) for text in ("30m", "90s", "1h30m", "250ms", "2d", "1.5s")],
                         [1_800_000, 90_000, 5_400_000, 250, 172_800_000, 1_500])
        for text in ("30", "m", "30 m", "-1s", "1x", "0.1ms"):
            with self.assertRaises(ValueError):
                _show.read_length(text)
        self.assertEqual([_show.length(it) for it in (4_200, 30_000, 1_798_000, 5_400_000, 100_000_000)], ["4.2s", "30s", "29m58s", "1h30m", "1d3h"])
        self.assertEqual([_show.exact_length(it) for it in (60_000, 90_500, 0)], ["1m", "1m30s500ms", "0s"])


DIGEST = bytes(32)
TAKEN_ON = bytes.fromhex("01 0000000000000000 01 61")
SUBMIT = bytes.fromhex("02 00000000000003e8 0000 00 01 00000000 000000000000afc8 08 0000ea60 00")
STATE = bytes.fromhex("""
    00 00 00 00 00 00 03 e8  00 00 00 00 00 00 00 02  00 01  01 61  00 00 00 00 00 00 00 00  00 00  00  00 00 00 01
    00 00 00 00 00 00 00 01  00 00  00  01  00 00 00 00  08  00  00 00  00 00 00 01
    00 00 00 00 00 00 00 01  00 00  00 00 00 00  08  00 00 00 00 00 00 af c8  00 00 00 00 00 00 ee 48  00  00  00 00 00 00""")


def record(*events):
    data = b"".join(events)
    return b"\1" + len(data).to_bytes(4, "big") + data


JOURNAL = b"BOSSJRNL\2" + DIGEST + record(TAKEN_ON) + record(SUBMIT) + b"\0"
KEPT = b"BOSSSNAP\2" + DIGEST + (1).to_bytes(8, "big") + (2).to_bytes(8, "big") + len(STATE).to_bytes(8, "big") + STATE


def first_eight(data):
    return hashlib.sha256(data).digest()[:8]


def with_sums(front, *records):
    """A disk of version 3, with a record for each of these bytes."""
    seed, disk = first_eight(front[1:65]), front
    for one in records:
        total = first_eight(seed + len(disk).to_bytes(8, "big") + one)
        disk += b"\1" + (len(one) + 8).to_bytes(4, "big") + one + total
    return disk + b"\0"


SUMMED = with_sums(b"BOSSJRNL\3" + DIGEST, TAKEN_ON, SUBMIT)
HEAD = b"BOSSSNAP\3" + DIGEST + (1).to_bytes(8, "big") + (2).to_bytes(8, "big") + (len(STATE) + 8).to_bytes(8, "big")
SUMMED_STATE = HEAD + first_eight(HEAD[1:]) + STATE + first_eight(first_eight(HEAD[1:]) + (65).to_bytes(8, "big") + STATE)


class Journals(Folder):
    """The bytes are those of docs/FORMATS.md."""

    def events(self, data, second=None):
        path = self.file("j", data)
        if second is not None:
            self.file("j.b", second)
        found = _journal.find(path)
        return found, list(found.events())

    def test_a_small_journal(self):
        self.assertEqual((len(JOURNAL), len(STATE), len(KEPT + b"\0")), (94, 96, 162))
        found, events = self.events(JOURNAL)
        self.assertEqual((found.before, found.version, found.generation), (0, 2, None))
        write = _journal.Write(0, 45_000, 8, 60_000, [])
        self.assertEqual(events, [(1, _journal.Event("process", 0, name="a")),
                                  (2, _journal.Event("submit", 1_000, 0, policy="abort", writes=(write,)))])

    def test_a_small_state_and_what_comes_after(self):
        tick = bytes.fromhex("06 000000000000ee48")
        numbered = bytes.fromhex("0a 000000000000ee49 0000 0000000000000005 0000000000000001")
        found, events = self.events(JOURNAL, KEPT + record(tick, numbered) + b"\0")
        self.assertTrue(found.path.endswith(".b"))
        self.assertEqual((found.before, found.generation, found.state.now, found.state.next), (2, 1, 1_000, 2))
        self.assertEqual(found.state.leases, [_journal.Lease(1, 0, 0, 8, 45_000, 61_000, [])])
        self.assertEqual(events, [(3, _journal.Event("time", 61_000)), (4, _journal.Event("cancel", 61_001, 0, txn=1, seq=5))])
        self.assertEqual(_journal.known(found).transactions[1]["owner"], "a")

    def test_damage_is_told_by_its_place(self):
        for cut, place in [(93, 57), (57, 41), (42, 41)]:
            with self.assertRaises(_journal.Damaged) as caught:
                self.events(JOURNAL[:cut])
            self.assertEqual(caught.exception.place, place)
        with self.assertRaises(_journal.Damaged) as caught:
            self.events(b"\0", KEPT)
        self.assertEqual(caught.exception.place, 57)
        status, out, aside = self.run_here("journal", self.file("cut", JOURNAL[:93]))
        self.assertEqual((status, "damaged at byte 57" in aside, "a is a new process" in out), (1, True, True))

    def test_sums(self):
        tick = bytes.fromhex("06 000000000000ee48")
        plain, events = self.events(SUMMED)
        self.assertEqual((len(SUMMED), plain.version, events, plain.hidden()), (110, 3, self.events(JOURNAL)[1], None))
        kept, events = self.events(SUMMED, with_sums(SUMMED_STATE, tick))
        self.assertEqual((kept.state, kept.spelled), (self.events(JOURNAL, KEPT + b"\0")[0].state, STATE))
        self.assertEqual(events, [(3, _journal.Event("time", 61_000))])

    def told_of(self, first, second):
        """Where it is damaged, "other" where it is no journal, "version", or the number of the last event."""
        try:
            found, events = self.events(first, second)
            return "new" if found is None else found.before + len(events)
        except _journal.Damaged as error:
            return f"damaged {error.place}"
        except Failure as error:
            return "version" if "version" in str(error) else "other"
        except AttributeError:
            return "new"

    def test_a_byte_that_was_changed(self):
        state = with_sums(SUMMED_STATE, bytes.fromhex("06 000000000000ee48"))
        gate = len(SUMMED_STATE)
        for place in range(1, len(state)):
            for bit in (0, 1, 7):
                changed = bytearray(state)
                changed[place] ^= 1 << bit
                told = self.told_of(b"\0", bytes(changed))
                if place < 8 or 41 <= place < 73:
                    wanted = ["other"]
                elif place == 8:
                    wanted = ["damaged 65", "version", "other"]
                elif 9 <= place < 41:
                    wanted = ["other"]
                elif place < gate:
                    wanted = ["damaged 65"]
                elif place == gate:
                    wanted = [2]
                elif place < len(state) - 1:
                    wanted = [f"damaged {gate}"]
                else:
                    wanted = [f"damaged {place}"] if bit == 0 else [3]
                self.assertIn(told, wanted, (place, bit))

    def test_a_record_at_another_place_or_of_another_disk(self):
        one, other = with_sums(SUMMED_STATE, TAKEN_ON, SUBMIT), with_sums(b"BOSSJRNL\3" + DIGEST, SUBMIT, TAKEN_ON)
        self.assertEqual(self.told_of(b"\0", SUMMED_STATE + SUMMED[41:]), f"damaged {len(SUMMED_STATE)}")
        self.assertEqual(self.told_of(SUMMED[:41] + SUMMED[65:109] + SUMMED[41:65] + b"\0", b""), "damaged 41")
        self.assertNotEqual(other, SUMMED[:41] + SUMMED[65:109] + SUMMED[41:65] + b"\0")
        self.assertEqual(self.told_of(b"\0", one), 4)

    def test_a_gate_that_was_shut_before_right_records(self):
        many = with_sums(b"BOSSJRNL\3" + DIGEST, TAKEN_ON, SUBMIT, bytes.fromhex("06 000000000000ee48"))
        found, events = self.events(many[:65] + b"\2" + many[66:])
        self.assertEqual((len(events), found.hidden()), (1, 65))
        path = self.file("shut", many[:65] + b"\2" + many[66:])
        status, _, aside = self.run_here("journal", path)
        self.assertEqual((status, "gate 65 is shut, and right records stand behind it" in aside), (1, True))
        # As a stop leaves it while the gate of the last record is opened.
        found, events = self.events(many[:109] + b"\2" + many[110:])
        self.assertEqual((len(events), found.hidden()), (2, None))

    def test_what_is_none(self):
        for data, second in [(b"SQLite format 3\0" + bytes(80), b""), (JOURNAL, JOURNAL)]:
            with self.assertRaises(Failure):
                self.events(data, second)
        with self.assertRaises(Failure):
            _journal.find(os.path.join(self.folder, "nowhere"))
        self.assertIsNone(_journal.find(self.file("new", b"\0")))


class Denied(Folder):
    """A server with access rules, for which another one stands."""

    def asked_of(self, answer, *words):
        server = Answering(answer)
        self.addCleanup(server.listener.close)
        return self.run_here(*words, "--server", server.address, "--catalogue", self.file("plant.toml", PLANT))

    def test_which_write_and_which_rule(self):
        status, out, aside = self.asked_of(denying(2), "set", "ahu1.damper", "80", "--for", "1m")
        self.assertEqual((status, out, aside), (
            1, "", "bossctl: refused: write 0 (ahu1.damper) is denied by rule 2 of the rules file, for bossctl at priority 8\n"))
        status, _, aside = self.asked_of(denying(0), "hold", "lamp", "1", "--as", "me", "--priority", "3")
        self.assertEqual((status, aside), (
            1, "bossctl: refused: write 0 (lamp) is denied for me at priority 3: no rule of the rules file is for it\n"))

    def test_the_policy(self):
        for words, policy in [(["set", "lamp", "on", "--for", "1m"], "keep"), (["hold", "lamp", "on"], "keep"),
                              (["set", "lamp", "on", "--for", "1m", "--policy", "abort"], "abort")]:
            server = Answering(denying(1))
            self.addCleanup(server.listener.close)
            self.run_here(*words, "--server", server.address, "--catalogue", self.file("plant.toml", PLANT))
            self.assertEqual([asked["policy"] for asked in server.asked if asked["op"] == "submit"], [policy])

    def test_a_slot_that_it_may_not_release(self):
        def answer(asked):
            if asked["op"] == "array":
                return {"ok": "array", "point": "lamp", "default": 0, "slots": [None] * 7 + [{"value": 1, "txn": 1, "until": 1 << 60}] + [None] * 8}
            if asked["op"] == "status":
                return {"ok": "status", "txn": 1, "owner": "comfort", "stage": "run", "live": 1, "pending": 0}
            return denying(1)(asked)
        status, _, aside = self.asked_of(answer, "release", "lamp")
        self.assertEqual((status, "write 0 (lamp) is denied by rule 1" in aside), (1, True), aside)


class Served(Folder):
    """A server that tells its catalogue, for which another one stands; two points on a page."""

    # The canonical text of PLANT, and its points, as docs/FORMATS.md and docs/PROTOCOL.md have them.
    DIGEST = hashlib.sha256(b"d field\np ahu1.damper field analog 0 100000 20000\np lamp field binary 0 1 0\np fan field multi 1 3 1\n").hexdigest()
    POINTS = [{"point": "ahu1.damper", "kind": "analog", "min": 0, "max": 100_000, "default": 20_000, "driver": "field"},
              {"point": "lamp", "kind": "binary", "default": 0, "driver": "field"},
              {"point": "fan", "kind": "multi", "states": 3, "default": 1, "driver": "field"}]

    def setUp(self):
        super().setUp()
        self.server = Answering(self.answer)
        self.addCleanup(self.server.listener.close)

    def answer(self, asked):
        if asked["op"] == "version":
            return {"ok": "version", "program": "0.3.0", "journal": 3, "digest": self.DIGEST, "points": 3, "drivers": 1}
        if asked["op"] == "points":
            part = self.POINTS[asked["from"]:asked["from"] + 2]
            drivers = {} if asked["from"] else {"drivers": ["field"]}
            return {"ok": "points", "digest": self.DIGEST, **drivers, "count": 3, "next": asked["from"] + len(part), "list": part}
        return denying(0)(asked)

    def ask(self, *words):
        return self.run_here(*words, "--server", self.server.address)

    def pages(self):
        return [asked["from"] for asked in self.server.asked if asked["op"] == "points"]

    def test_no_file(self):
        status, out, aside = self.ask("points")
        self.assertEqual((status, aside, self.pages()), (0, "", [0, 2]))
        self.assertEqual([line.split()[:2] for line in out.splitlines()[1:4]], [["ahu1.damper", "0.0"], ["lamp", "0"], ["fan", "0"]])
        status, out, _ = self.ask("point", "ahu1.damper")
        self.assertEqual((status, out.splitlines()[1]), (0, "  analog, 0.0 to 100.0, in steps of 0.001, default 0.0, driver field"))

    def test_faulty_words_come_before_a_name_of_a_process(self):
        for words, why in [(("set", "lamp", "2", "--for", "1m"), "2 is no value of lamp: wanted 0 or 1"),
                           (("hold", "ahu1.dampr", "2"), "has no point ahu1.dampr; is ahu1.damper meant?")]:
            status, _, aside = self.ask(*words)
            self.assertEqual((status, why in aside), (1, True), aside)
        self.assertNotIn("attach", [asked["op"] for asked in self.server.asked])

    def test_a_file_of_the_same_digest(self):
        status, out, aside = self.ask("points", "--catalogue", self.file("plant.toml", PLANT))
        self.assertEqual((status, aside, self.pages()), (0, "", []))
        self.assertIn("supply air", out)
        self.assertIn("0.0 %", out)

    def test_a_file_of_another_digest(self):
        status, out, aside = self.ask("points", "--catalogue", self.file("other.toml", PLANT.replace("100000", "90000")))
        self.assertEqual((status, "%" in out, len(aside.splitlines())), (0, False, 1), aside)
        self.assertIn(f"is not the catalogue that {self.server.address} serves", aside)

    def test_the_file_of_the_unit(self):
        self.file("default.toml", PLANT)
        self.assertIn("0.0 %", self.ask("points")[1])
        self.file("default.toml", PLANT.replace("100000", "90000"))
        self.assertIn("is not the catalogue", self.ask("points")[2])
        # Before the server of another machine it is another building's, and nothing is said.
        with mock.patch.object(_served, "is_local", return_value=False):
            status, out, aside = self.ask("points")
        self.assertEqual((status, "%" in out, aside), (0, False, ""))
        self.file("default.toml", "no catalogue")
        status, _, aside = self.ask("points")
        self.assertEqual((status, "no TOML" in aside), (0, True), aside)

    def test_a_file_that_was_named_and_is_none(self):
        status, _, aside = self.ask("points", "--catalogue", self.file("none.toml", "points"))
        self.assertEqual((status, "no TOML" in aside), (1, True), aside)

    def test_a_server_of_before(self):
        server = Answering(denying(0))
        self.addCleanup(server.listener.close)
        status, _, aside = self.run_here("points", "--server", server.address)
        self.assertEqual((status, "name a copy of its catalogue by --catalogue" in aside), (1, True), aside)
        status, _, aside = self.run_here("points", "--server", server.address, "--catalogue", self.file("plant.toml", PLANT))
        self.assertEqual((status, aside), (0, ""))

    def test_status(self):
        status, out, aside = self.ask("status")
        self.assertEqual((status, aside), (0, ""))
        self.assertIn(f"bossd 0.3.0, whose journals are of version 3; its catalogue: points 3, drivers 1, digest {self.DIGEST[:16]}..", out)
        self.assertEqual(json.loads(self.ask("status", "--json")[1])["version"]["program"], "0.3.0")

    def test_a_server_whose_workers_are_busy(self):
        server = Answering(busy)
        self.addCleanup(server.listener.close)
        with self.assertLogs("bossd", "WARNING"):
            status, _, aside = self.run_here("points", "--server", server.address, "--patience", "1")
        self.assertEqual((status, f"all workers of {server.address} are busy: give it more" in aside), (3, True), aside)
        status, out, _ = self.run_here("status", "--server", server.address, "--patience", "1")
        self.assertEqual((status, "all workers of the server are busy: give it more" in out), (3, True), out)

    def test_which_servers_are_of_this_machine(self):
        self.assertEqual([_served.is_local(one) for one in ("127.0.0.1:7000", "127.1.2.3:1", "[::1]:7000", "localhost:7000")], [True] * 4)
        self.assertEqual([_served.is_local(one) for one in ("192.0.2.1:7000", "panel.example:7000", "[2001:db8::1]:7000")], [False] * 3)


class Guarded(Folder):
    """A point with minimum times, of a server for which another one stands."""

    CATALOGUE = PLANT.replace('kind = "binary"\n', 'kind = "binary"\nmin_on = 300000\nmin_off = 90000\n')

    def asked(self, *words, **told):
        """What bossctl writes where the server tells this of a point's device."""
        def answer(asked):
            return {**denying(0)(asked), **told} if asked["op"] == "read" else denying(0)(asked)
        server = Answering(answer)
        self.addCleanup(server.listener.close)
        # A day from now moments are shown with their days, whatever the time is.
        with mock.patch.object(_show, "moment", lambda at: f"T{round((at - self.now) / 60_000):+}min"), mock.patch.object(_commands, "moment", _show.moment):
            status, out, aside = self.run_here(*words, "--server", server.address, "--catalogue", self.file("plant.toml", self.CATALOGUE))
        self.assertEqual(aside, "")
        return out

    def setUp(self):
        super().setUp()
        self.now = time.time_ns() // 1_000_000

    def shown(self, **told):
        return self.asked("point", "lamp", **told).splitlines()[:3]

    def test_what_is_shown(self):
        held = {"mark": "pending", "took": 1, "since": self.now - 2 * MINUTE}
        first, second, third = self.shown(**held)
        self.assertEqual(first, "lamp: 0, its default: nobody holds it; its device: pending")
        # It is on since two minutes before, and stays so for five.
        self.assertEqual(second, "  still on since T-2min, until T+3min at the earliest, by its minimum time")
        self.assertEqual(third, "  binary, 0 or 1, default 0, driver field, on for 5m at least, off for 1m30s at least")
        over = {**held, "since": self.now - 6 * MINUTE}
        self.assertEqual(self.shown(**over)[1], "  it took on last, at T-6min")
        self.assertEqual(self.shown(**{**over, "mark": "failed"})[1], "  it took on last, at T-6min")
        for mark in ("settled", "pending"):
            self.assertEqual(self.shown(mark=mark)[:2], [f"lamp: 0, its default: nobody holds it; its device: {mark}", "  " + third.strip()])

    def test_what_tables_show(self):
        held = {"mark": "pending", "took": 1, "since": self.now - 2 * MINUTE}
        self.assertRegex(self.asked("points", "lamp", **held), r"lamp +0 +default +- +- +- +pending, still on until T\+3min\n")
        self.assertIn("0 failed, 1 not yet answered by their devices, of which 1 is held by its minimum time, until T+3min at the earliest\n",
                      self.asked("points", "lamp", **held))
        # All three points are told so, and the other two have no minimum times.
        told = self.asked("faults", **held)
        self.assertIn("3 not yet answered, of which 1 is held by its minimum time, until T+3min at the earliest\n", told)
        self.assertRegex(told, r"ahu1.damper .* pending, last took 0.001 %\n")

    def test_for_programs(self):
        since = self.now - 2 * MINUTE
        [told] = json.loads(self.asked("points", "lamp", "--json", mark="pending", took=1, since=since))
        self.assertEqual((told["took"], told["since"], told["held_until"]), (1, since, since + 300_000))
        [told] = json.loads(self.asked("points", "lamp", "--json", mark="settled"))
        self.assertEqual((told["took"], told["since"], told["held_until"]), (None, None, None))

    def test_who_sets_it_is_told_to_wait(self):
        looks = []
        until = time.time_ns() // 1_000_000 + 60 * MINUTE

        def answer(asked):
            if asked["op"] == "submit":
                return {"ok": "accepted", "txn": 1, "until": until}
            if asked["op"] == "notices":
                ended = {"n": 1, "at": 1, "txn": 1, "kind": "ended", "point": "lamp", "cause": "expired"}
                return {"ok": "notices", "first": 1, "next": 1, "list": [ended] if len(looks) > 4 else []}
            if asked["op"] == "read":
                looks.append(asked)
                held = {"mark": "pending", "took": 0, "since": self.now}
                return {"ok": "read", "point": "lamp", "value": 1, "from": "lease", "priority": 8, "txn": 1, **({"mark": "settled"} if len(looks) > 4 else held)}
            if asked["op"] == "status":
                return {"ok": "status", "txn": 1, "owner": "bossctl", "stage": "run", "live": 1, "pending": 0}
            if asked["op"] == "array" and len(looks) > 1:
                return {"ok": "array", "point": "lamp", "default": 0, "slots": [None] * 7 + [{"value": 1, "txn": 1, "until": until}] + [None] * 8}
            return denying(0)(asked)
        server = Answering(answer)
        self.addCleanup(server.listener.close)
        status, out, aside = self.run_here("set", "lamp", "1", "--for", "1h", "--server", server.address,
                                           "--catalogue", self.file("plant.toml", self.CATALOGUE))
        self.assertEqual((status, aside), (0, ""))
        told = [line.partition("  ")[2] for line in out.splitlines()]
        self.assertEqual((told[1], told[3]), ("in force: 1, by a lease of bossctl at priority 8", "its device took the value"))
        self.assertEqual(told[2], f"its device is not written yet: still off since {_show.moment(self.now)}, until {_show.moment(self.now + 90_000)} at the "
                         "earliest, by its minimum time")

    def test_a_clock_that_is_away(self):
        def aside_of(ahead):
            def answer(asked):
                if asked["op"] == "submit":
                    return {"ok": "accepted", "txn": 1, "until": time.time_ns() // 1_000_000 + MINUTE + ahead}
                if asked["op"] == "notices":
                    ended = {"n": 1, "at": 1, "txn": 1, "kind": "ended", "point": "lamp", "cause": "expired"}
                    return {"ok": "notices", "first": 1, "next": 2, "list": [ended]}
                return denying(0)(asked)
            server = Answering(answer)
            self.addCleanup(server.listener.close)
            words = ("set", "lamp", "1", "--for", "1m", "--server", server.address, "--catalogue", self.file("plant.toml", PLANT))
            status, _, aside = self.run_here(*words)
            self.assertEqual(status, 0, aside)
            return aside
        self.assertEqual(aside_of(0), "")
        self.assertIn(" 2h ahead of this machine's", aside_of(120 * MINUTE + 30_000))
        self.assertIn(" 59m", aside_of(-59 * MINUTE - 30_000))
        self.assertIn(" behind this machine's", aside_of(-59 * MINUTE - 30_000))

    def test_up_to_when_a_device_is_held(self):
        point = _show.Point("lamp", "field", "binary", 0, 1, 0, min_on=300_000, min_off=90_000)
        for value, basis, priority, mark, took, until in [
            (0, "default", None, "pending", 1, 301_000), (1, "lease", 8, "pending", 0, 91_000), (1, "lease", 6, "pending", 0, 91_000),
            # Leases at 1 to 5 go at once, and their reversions do not.
            (1, "lease", 5, "pending", 0, None), (1, "pending", 5, "pending", 0, 91_000), (0, "default", None, "settled", None, None),
            (0, "default", None, "failed", 1, None), (0, "default", None, "pending", None, None),
        ]:
            with self.subTest(value=value, basis=basis, priority=priority, mark=mark):
                reading = bossd.Reading("lamp", value, basis, mark, priority, took=took, since=None if took is None else 1_000)
                view = _live.View(point, reading, bossd.Slots("lamp", 0, {}), {})
                self.assertEqual(view.held_until(2_000), until)
                self.assertIsNone(view.held_until(301_000))
        waiting = bossd.Reading("lamp", 0, "default", "pending", took=1, since=1_000)
        self.assertIsNone(_live.View(point._replace(min_on=0), waiting, bossd.Slots("lamp", 0, {}), {}).held_until(2_000))

    def test_the_digest_has_the_times(self):
        digests = {_show.read_catalogue(self.file("plant.toml", text)).digest for text in
                   (PLANT, self.CATALOGUE, self.CATALOGUE.replace("90000", "0"))}
        self.assertEqual(len(digests), 3)
        nothing = PLANT.replace('kind = "binary"\n', 'kind = "binary"\nmin_on = 0\nmin_off = 0\n')
        self.assertEqual(_show.read_catalogue(self.file("a.toml", nothing)).digest, _show.read_catalogue(self.file("b.toml", PLANT)).digest)
        with self.assertRaises(Failure):
            _show.read_catalogue(self.file("plant.toml", self.CATALOGUE.replace("90000", "1.5")))


class Serving(Folder):
    def setUp(self):
        super().setUp()
        self.catalogue = self.file("plant.toml", PLANT)
        self.journal = os.path.join(self.folder, "journal")
        self.server = common.Server(self.catalogue, self.journal, workers=8)
        self.server.start()
        self.addCleanup(self.server.stop)

    def words(self, *words):
        return [*words, "--server", self.server.address, "--catalogue", self.catalogue]

    def ask(self, *words):
        return self.run_here(*self.words(*words))

    def told(self, *words):
        status, out, aside = self.ask(*words, "--json")
        self.assertEqual(status, 0, aside)
        return json.loads(out)

    def begin(self, *words):
        environment = {**os.environ, "PYTHONPATH": HERE, "PYTHONUNBUFFERED": "1"}
        process = subprocess.Popen([sys.executable, "-m", "bossd.ctl", *self.words(*words)], env=environment, stdout=subprocess.PIPE,
                                   stderr=subprocess.STDOUT, text=True)
        self.addCleanup(process.stdout.close)
        self.addCleanup(process.wait)
        self.addCleanup(process.kill)
        return process

    def client(self, process):
        made = bossd.Client(self.server.address, process)
        self.addCleanup(made.close)
        return made

    def value(self, point):
        return next(it["shown"] for it in self.told("points", point))

    def test_points(self):
        self.client("purge").submit([bossd.write("ahu1.damper", 45_500, priority=9, lease=30 * MINUTE)])
        status, out, _ = self.ask("points")
        self.assertEqual(status, 0)
        self.assertRegex(out, r"ahu1.damper +45.5 % +lease +9 +purge +29m5\d?s")
        self.assertIn("supply air", out)
        self.assertIn("3 points: 1 held, 0 reverting, 2 at their defaults", out)
        self.assertEqual([it["point"] for it in self.told("points", "*a*")], ["ahu1.damper", "lamp", "fan"])
        self.assertEqual([it["point"] for it in self.told("points", "--held")], ["ahu1.damper"])
        self.assertEqual([it["point"] for it in self.told("points", "lam")], ["lamp"])
        [told] = self.told("points", "ahu1.damper")
        self.assertEqual((told["value"], told["shown"], told["unit"], told["process"]), (45_500, "45.5", "%", "purge"))

    def test_the_slots_of_a_point(self):
        self.client("purge").submit([bossd.write("ahu1.damper", 45_500, priority=9, lease=30 * MINUTE)])
        self.client("schedule").submit([bossd.write("ahu1.damper", 30_000, priority=16, lease=60 * MINUTE)])
        status, out, _ = self.ask("point", "ahu1.damper")
        self.assertRegex(out, r"9 +Available +45.5 % +lease, in force +purge")
        self.assertRegex(out, r"8 +Manual Operator +-")
        self.assertRegex(out, r"Next: in 29m5\d?s, at .*, the lease ends, unless it is renewed; then 30.0 %, lease of schedule at priority 16")
        told = self.told("point", "ahu1.damper")
        self.assertEqual(([slot and slot["process"] for slot in told["slots"]].count(None), told["next"][0]["value"]), (14, 30_000))

    def test_set_until_the_time_is_over(self):
        process = self.begin("set", "ahu1.damper", "80", "--for", "2s", "--back", "60,45", "--step", "2s")
        out, _ = process.communicate(timeout=30)
        self.assertEqual(process.returncode, 0, out)
        self.assertIn("in force: 80.0 %, by a lease of bossctl at priority 8", out)
        self.assertIn("its time is over; back by 60,45, 2s each", out)
        self.assertTrue(eventually(lambda: self.value("ahu1.damper") == "45.0", 10))

    def test_hold_until_it_is_stopped(self):
        process = self.begin("hold", "ahu1.damper", "33.125", "--priority", "7", "--as", "me", "--lease", "1s")
        self.assertTrue(eventually(lambda: self.value("ahu1.damper") == "33.125", 10))
        time.sleep(2)
        self.assertEqual(self.value("ahu1.damper"), "33.125")
        process.send_signal(signal.SIGTERM)
        out, _ = process.communicate(timeout=30)
        self.assertEqual(process.returncode, 0, out)
        self.assertEqual(self.value("ahu1.damper"), "20.0")

    def test_release_what_somebody_else_holds(self):
        process = self.begin("set", "lamp", "1", "--for", "1h")
        self.assertTrue(eventually(lambda: self.value("lamp") == "1", 10))
        status, out, aside = self.ask("release", "lamp")
        self.assertEqual(status, 0, aside)
        self.assertIn("where bossctl had 1; in force: 0, its default", out)
        out, _ = process.communicate(timeout=30)
        self.assertEqual(process.returncode, 1, out)
        self.assertIn("took the slot", out)
        status, _, aside = self.ask("release", "lamp")
        self.assertEqual((status, "nothing stands at priority 8 of lamp" in aside), (1, True))

    def test_words_that_are_wrong(self):
        for words, status, word in [
            (("set", "ahu1.damper", "101", "--for", "1s"), 1, "wanted 0.0 to 100.0 %"),
            (("set", "door", "1", "--for", "1s"), 1, "has no point door"),
            (("set", "lamp", "1", "--for", "30"), 2, "no length of time"),
            (("set", "lamp", "1", "--for", "8d"), 1, "at most 7d"),
            (("set", "lamp", "1", "--for", "1s", "--priority", "6"), 2, "no priority"),
            (("set", "lamp", "1", "--for", "1s", "--as", "Me"), 1, "as: found 'Me'"),
            (("paint",), 2, "invalid choice"),
            (("status", "--server", "127.0.0.1"), 2, "no port"),
        ]:
            with self.subTest(words):
                found, _, aside = self.run_here("--server", self.server.address, "--catalogue", self.catalogue, *words)
                self.assertEqual((found, word in aside), (status, True), aside)

    def test_processes_and_transactions(self):
        purge = self.client("purge")
        purge.submit([bossd.write("ahu1.damper", 45_500, lease=30 * MINUTE), bossd.write("lamp", 1, lease=30 * MINUTE)])
        purge.submit([bossd.write("fan", 2, lease=MINUTE)])
        purge.cancel(2)
        with bossd.Client(self.server.address, "gone"):
            pass
        self.assertEqual([it["process"] for it in self.told("processes")], ["purge"])
        with_journal = self.told("processes", "--journal", self.journal)
        self.assertEqual([(it["process"], it["leases"], it["notices"]) for it in with_journal], [("gone", 0, 0), ("purge", 2, 2)])
        [standing] = self.told("transactions")
        self.assertEqual((standing["txn"], standing["owner"], standing["points"]), (1, "purge", ["ahu1.damper", "lamp"]))
        done = self.told("transactions", "--done", "--journal", self.journal)
        self.assertEqual([(it["txn"], it["stage"]) for it in done], [(1, "run"), (2, "done")])
        for words in (("processes",), ("transactions",), ("transactions", "--done", "--journal", self.journal), ("faults",)):
            self.assertEqual(self.ask(*words)[0], 0)

    def test_the_journal(self):
        self.client("purge").submit([bossd.write("ahu1.damper", 45_500, priority=9, lease=30 * MINUTE, revert=[(30_000, MINUTE)])])
        status, out, aside = self.ask("journal", self.journal)
        self.assertEqual((status, aside), (0, ""))
        self.assertIn("which is this one", out)
        self.assertIn("purge is a new process", out)
        self.assertIn("purge submits transaction 1 (number 1): ahu1.damper = 45.5 % at 9 for 30m, back by 30.0 % for 1m", out)
        status, out, _ = self.ask("journal", self.journal, "--json", "--last", "1")
        head, last = map(json.loads, out.splitlines())
        self.assertEqual((head["catalogue_agrees"], last["kind"], last["txn"]), (True, "submit", 1))

    def test_watch(self):
        purge = self.client("purge")
        purge.submit([bossd.write("lamp", 1, lease=1)])
        process = self.begin("watch", "purge")
        lines = [process.stdout.readline() for _ in range(2)]
        self.assertIn("transaction 1: its lease on lamp ended: expired", lines[0])
        self.assertIn("transaction 1: done", lines[1])

    def test_status(self):
        status, out, _ = self.ask("status")
        self.assertEqual(status, 0)
        self.assertIn("4 or more workers are free", out)
        told = self.told("status", "--workers", "20")
        self.assertEqual((told["answers"], told["free"]), (True, 7))
        self.server.stop()
        status, out, _ = self.ask("status", "--patience", "1")
        self.assertEqual((status, "does not answer" in out), (3, True))
        status, _, aside = self.ask("points", "--patience", "1")
        self.assertEqual((status, "nobody listens" in aside), (3, True))

    def test_top(self):
        self.client("purge").submit([bossd.write("ahu1.damper", 45_500, lease=30 * MINUTE)])
        status, out, _ = self.ask("top", "--count", "2", "--every", "0.1")
        self.assertEqual((status, out.count("ahu1.damper")), (0, 2))

    def test_help_everywhere(self):
        for command in ("", "points", "point", "set", "hold", "release", "evict", "watch", "processes", "transactions", "faults", "status", "journal",
                        "top", "lint", "field", "version"):
            status, out, _ = self.run_here(*filter(None, [command]), "--help")
            self.assertEqual((status, "--catalogue" in out), (0, True))
        self.assertIn(bossd.__version__, self.run_here("version")[1])


if __name__ == "__main__":
    unittest.main()
