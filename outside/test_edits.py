"""Tests of how edits are read, and of what is made of the lines of `rt`. The lines are written by hand."""

import os
import tempfile
import unittest
from unittest import mock

from outside import edits
from outside.edits import GONE, REFUSED, STALE, UNKNOWN, Edit

# Two changes of one file, of which the second is of what the first one made, and one of another file.
TEXT = """file: src/one.rt
old:     if a < b {
new:     if a <= b {
old:     if a <= b {
new:     if b <= a {
file: src/two.rt
old: 16
new: 17
"""
TOLD = """rt: building
rt: must-fail low/first.edit: refused, as it must be: ./proofs/first/Rows.antt:5:60: error: second.edit: BAD EDIT
rt: must-fail low/second.edit: NOT REFUSED: what it makes is still proved
rt: must-fail low/third.edit: BAD EDIT: what it makes does not compile
"""


def edit(name: str, text: str = TEXT, is_of_today: bool = True) -> Edit:
    return Edit("low", name, text, is_of_today)


class Read(unittest.TestCase):
    def test_a_file_holds_until_another_one_is_named(self) -> None:
        self.assertEqual(edit("a").pairs(), [("src/one.rt", "    if a < b {", "    if a <= b {"), ("src/one.rt", "    if a <= b {", "    if b <= a {"),
                                             ("src/two.rt", "16", "17")])

    def test_a_change_to_nothing(self) -> None:
        self.assertEqual(edit("a", "file: src/one.rt\nold: x\nnew:\n").pairs(), [("src/one.rt", "x", "")])

    def applies(self, one: str, two: str) -> bool:
        with tempfile.TemporaryDirectory() as folder, mock.patch.object(edits, "folder_of", lambda crate: folder):
            os.mkdir(os.path.join(folder, "src"))
            for name, text in (("one.rt", one), ("two.rt", two)):
                with open(os.path.join(folder, "src", name), "w", encoding="utf-8") as file:
                    file.write(text)
            return edit("a").applies()

    def test_each_old_text_has_to_stand_once(self) -> None:
        line = "    if a < b {\n"
        self.assertTrue(self.applies(line, "16\n"))
        self.assertFalse(self.applies(line + line, "16\n"))
        self.assertFalse(self.applies("    if a > b {\n", "16\n"))
        self.assertFalse(self.applies(line, "16, 16\n"))
        # What the first change makes stands there already.
        self.assertFalse(self.applies(line + "    if a <= b {\n", "16\n"))


class Told(unittest.TestCase):
    def test_what_is_said_of_each(self) -> None:
        self.assertEqual([edits.outcome_of(edit(name), TOLD) for name in ("first", "second", "third", "fourth")],
                         [REFUSED, "NOT REFUSED", "BAD EDIT", UNKNOWN])

    def test_a_former_one_that_no_longer_compiles(self) -> None:
        self.assertEqual(edits.outcome_of(edit("third", is_of_today=False), TOLD), STALE)

    def test_a_line(self) -> None:
        self.assertEqual(edit("first", is_of_today=False).told(GONE), "low first (former): no longer applies")

    def test_twins(self) -> None:
        self.assertEqual(edits.without_twins([edit("a"), edit("b", is_of_today=False)]), [edit("a")])


if __name__ == "__main__":
    unittest.main()
