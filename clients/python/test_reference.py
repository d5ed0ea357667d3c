"""Tests of what the documents say of the client: python3 -m unittest, in this folder."""

import inspect
import os
import re
import subprocess
import sys
import unittest
import unittest.mock

import bossd
from bossd.__main__ import page
from test_bossd import common

HERE = os.path.dirname(os.path.abspath(__file__))


class Reference(unittest.TestCase):
    def setUp(self):
        with open(os.path.join(HERE, "README.md"), encoding="utf-8") as file:
            self.readme = file.read()

    def test_every_name_is_in_it_and_it_is_short(self):
        text = page()
        for name in bossd.__all__:
            self.assertRegex(text, rf"(?m)^{name}\b")
        # Pydoc has ten times as many lines.
        self.assertLess(len(text.splitlines()), 400)
        ran = subprocess.run([sys.executable, "-m", "bossd"], cwd=HERE, capture_output=True, text=True)
        self.assertEqual((ran.returncode, ran.stdout), (0, text))
        self.assertIn('submit(writes: Iterable[Mapping[str, Any]], policy: str = \'abort\') -> Accepted', text)

    def test_the_readme_names_all(self):
        names = self.readme[self.readme.index("## All names"):]
        for name in bossd.__all__:
            self.assertRegex(names, rf"\b{name}\b")
        for kind in (bossd.Client, bossd.Held, bossd.Watch):
            for name in dir(kind):
                if not name.startswith("_"):
                    self.assertRegex(names, rf"\.{name}\b", kind)
        for kind in bossd.REFUSALS.values():
            for name in vars(kind).get("__annotations__", {}):
                self.assertRegex(names, rf"{kind.__name__}( \.\w+)* \.{name}\b")

    def test_its_signatures_are_those_of_the_code(self):
        for text, one in [("Client", bossd.Client), ("write", bossd.write), ("thousandths", bossd.thousandths), ("units", bossd.units),
                          ("watch", bossd.watch), (".attach", bossd.Client.attach), (".submit", bossd.Client.submit),
                          (".renew", bossd.Client.renew), (".cancel", bossd.Client.cancel), (".hold", bossd.Client.hold),
                          (".read", bossd.Client.read), (".array", bossd.Client.array), (".status", bossd.Client.status),
                          (".notices", bossd.Client.notices), (".points", bossd.Client.points), (".version", bossd.Client.version),
                          (".ask", bossd.Client.ask), (".ask_all", bossd.Client.ask_all), (".wait", bossd.Held.wait)]:
            told = re.search(rf"(?m)(?:^|\s){re.escape(text)}\((.*?)\)(?: ->| {{2,}}|$)", self.readme[self.readme.index("## All names"):])[1]
            shown = inspect.signature(one)
            bare = [it.replace(annotation=inspect.Parameter.empty) for name, it in shown.parameters.items() if name != "self"]
            wanted = str(shown.replace(parameters=bare, return_annotation=inspect.Signature.empty))[1:-1].replace("'", '"')
            self.assertEqual(told, wanted, text)

    def test_the_night_in_the_readme(self):
        """The example is run as it stands, over the built program."""
        block = self.readme[self.readme.index("    import bossd, bossd.testing"):self.readme.index("- `server.address`")]
        code = "\n".join(line[4:] for line in block.splitlines()).replace("examples/plant.toml", os.path.join(common.EXAMPLES, "plant.toml"))
        scope = {}
        exec(compile(code, "README.md", "exec"), scope)
        with unittest.mock.patch.dict(os.environ, {"BOSSD": common.PROGRAM}):
            scope["test_a_night"]()


if __name__ == "__main__":
    unittest.main()
