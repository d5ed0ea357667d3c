"""Tests of outside/references.py, over a small repository of two crates: python3 -m unittest outside.test_references, at the top."""

import os
import tempfile
import unittest

from outside import references

FILES = {
    "crates.txt": "# in groups\nboss_lamp: # the lowest\nlaw_lamp: boss_lamp\n",
    "crates/boss_lamp/src/lib.rt": "pub fn switch_on(lamp: &mut Lamp) -> bool",
    "crates/boss_lamp/specs/Lamps.antt": "IsLit lamp = lamp.Level > 0",
    "crates/boss_lamp/proofs/LampRows.antt": "a_lamp_is_lit : IsLit lamp",
    "crates/law_lamp/src/lib.rt": "pub fn a_lamp_goes_out()",
    "tools/look": "#!/bin/sh",
    "packaging/bossd-feed": "#!/bin/sh",
    "README.md": "# Lamps\n\n| boss_lamp | a lamp (`switch_on`) |\n| law_lamp | it goes out (`a_lamp_goes_out`) |\n",
    "docs/PROVED.md": "| boss_lamp: lamps | exact |\n\n### law_lamp: they go out\n\nOf all lamps, as `specs/Lamps` of boss_lamp says.\n",
    "docs/MAP.md": "| boss_lamp, law_lamp | lamps | |\n\n    boss_lamp    switch_on    lib.rt\n",
    "docs/DECISIONS.md": "### boss_lamp\n\n- **7** (`src/lib.rt`) *A lamp is lit or not.*\n",
    "docs/MAINTAINING.md": "| a lamp | boss_lamp `src/lib.rt` (`switch_on`), `specs/` `Lamps` (`IsLit`); its rows `proofs/*Rows.antt` |\n",
    "docs/CLAIM.md": "As decision 7 has it, `tools/look` at [the lamps](#lamps), from [here](../README.md#lamps).\n\n## Lamps\n",
    "docs/DEFINITIONS.md": "`crates/NAME/src/lib.rt` has each; `bossd-feed` tells it.\n",
}
# What is added to which document, and what is told of it.
FAULTS = [
    ("docs/MAINTAINING.md", "| a fan | boss_lamp `src/fan.rt` |", "boss_lamp: src/fan.rt is not there"),
    ("docs/MAINTAINING.md", "| a fan | boss_lamp `src/lib.rt` (`turn`) |", "crates/boss_lamp/src/lib.rt has no turn"),
    ("docs/MAINTAINING.md", "| a fan | boss_lamp `specs/` `Fans` |", "boss_lamp: specs/Fans is not there"),
    ("docs/MAINTAINING.md", "| a fan | boss_lamp `src/lib.rt`, law_lamp `specs/Lamps.antt` |", "law_lamp: specs/Lamps.antt is not there"),
    ("docs/MAINTAINING.md", "| a fan | `src/lib.rt` of it |", "a crate that is not named: src/lib.rt is not there"),
    ("docs/MAINTAINING.md", "| a fan | boss_lamp `proofs/*Fans.antt` |", "boss_lamp: proofs/*Fans.antt is not there"),
    ("docs/DECISIONS.md", "- **8** (`src/fan.rt`) *A fan turns.*", "boss_lamp: src/fan.rt is not there"),
    ("docs/MAP.md", "\n    boss_lamp    turn    fan.rt", "boss_lamp: fan.rt is not there"),
    ("docs/CLAIM.md", "By `a_fan_turns`.", "nothing is called a_fan_turns"),
    ("docs/CLAIM.md", "By boss_fan.", "there is no crate boss_fan"),
    ("docs/CLAIM.md", "By decision 9.", "there is no decision 9"),
    ("docs/CLAIM.md", "[Fans](FANS.md)", "the link FANS.md leads nowhere"),
    ("docs/CLAIM.md", "[Fans](#fans)", "the link #fans leads to no heading"),
    ("docs/CLAIM.md", "    tools/fan", "tools/fan is not there"),
    ("docs/DEFINITIONS.md", "`examples/fan.toml`", "examples/fan.toml is not there"),
    ("docs/DEFINITIONS.md", "`bossd-fan`", "packaging has no bossd-fan"),
    ("README.md", "| boss_lamp | `turns` |", "boss_lamp: no word turns there"),
    ("crates.txt", "boss_fan: boss_lamp", "no row of boss_fan"),
]


class Told(unittest.TestCase):
    def setUp(self) -> None:
        folder = tempfile.TemporaryDirectory()
        self.addCleanup(folder.cleanup)
        self.top = folder.name
        for path, text in FILES.items():
            os.makedirs(os.path.dirname(os.path.join(self.top, path)), exist_ok=True)
            self.write(path, text)

    def write(self, path: str, text: str) -> None:
        with open(os.path.join(self.top, path), "w", encoding="utf-8") as file:
            file.write(text)

    def told(self) -> list[str]:
        return [fault.what for fault in references.told(self.top).faults]

    def test_nothing_is_told_where_all_is_there(self) -> None:
        self.assertEqual(self.told(), [])

    def test_what_is_not_there_is_told(self) -> None:
        for document, added, what in FAULTS:
            with self.subTest(what=what):
                self.write(document, f"{FILES[document]}{added}\n")
                found = self.told()
                self.write(document, FILES[document])
                self.assertEqual(set(found), {what})

    def test_it_is_told_with_its_line(self) -> None:
        self.write("docs/CLAIM.md", FILES["docs/CLAIM.md"] + "\nIt looks,\nby `tools/fan`,\nat fans.\n")
        self.assertEqual([str(fault) for fault in references.told(self.top).faults], ["docs/CLAIM.md:6: tools/fan is not there"])

    def test_a_heading_that_comes_again_has_a_number(self) -> None:
        self.assertEqual(references.anchors("# A lamp: lit, or `off`?\n## Lamps\n## Lamps\n"), {"a-lamp-lit-or-off", "lamps", "lamps-1"})


if __name__ == "__main__":
    unittest.main()
