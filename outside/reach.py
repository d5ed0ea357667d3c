"""Tells what the contract of a public function leads to: how many lines of which definitions.

What the contract of a public function leads to. For each file of definitions (crates/*/specs/*.antt) that the `ghost use` lines of the
given source reach, directly or through other definitions, it prints how many lines the file has, and how many of them are those of
definitions that are reached. Run it at the top of the repository:

    tools/reach crates/boss_manager/src/top_call.rt
"""

import glob
import os
import re
import sys
from collections.abc import Iterable
from typing import NamedTuple

from outside.cases import heed_help

WORD = re.compile(r"[^\s(){}\[\],;.]+")
USE = re.compile(r"(?:pub |ghost )?use Rattle\.([a-z_0-9]+)\.specs\.([A-Za-z_0-9]+)\.\{([^}]*)\}", re.M)
HEAD = re.compile(r"^\s*(?:(?:abbrev|unfoldable|pub|opaque)\s+)*(?:record|data|type)?\s*(\S+)\s*(?::|\(|\{|where|$)")
START = re.compile(r"^(\s*)(?:(?:abbrev|unfoldable)\s+pub|pub|abbrev|unfoldable|record|data)\b")
FIXITY = re.compile(r"^\s*(?:infix[lr]?|pub mod|mod|use|pub use|module)\b")

# A definition by its crate, its module and its name.
Name = tuple[str, str, str]


class Definition:
    """A definition as it stands in its file: how far its first line is indented, and whether more of it is indented further."""

    def __init__(self, name: str, indent: int, has_parts: bool) -> None:
        self.name, self.indent, self.has_parts = name, indent, has_parts
        self.lines: list[str] = []

    def words(self) -> set[str]:
        return set(WORD.findall("\n".join(line.split("--")[0] for line in self.lines)))


class Module(NamedTuple):
    """A file of definitions: how many lines it has, what it defines, and what it names of other files."""

    size: int
    definitions: list[Definition]
    named: dict[str, Name]


def text_of(path: str) -> str:
    with open(path, encoding="utf-8") as file:
        return file.read()


def begun_at(line: str, current: Definition | None) -> Definition | None:
    """The definition that begins with a line; None where it goes on with the one of before."""
    start, head = START.match(line), HEAD.match(line)
    if start is None or head is None:
        return None
    indent = len(start[1])
    if current is not None and current.has_parts and indent > current.indent:
        return None
    return Definition(head[1], indent, " record " in f" {line} " or " data " in f" {line} ")


def definitions(text: str) -> list[Definition]:
    found, current = list[Definition](), None
    for line in text.split("\n"):
        if not line.strip() or line.lstrip().startswith("--"):
            continue
        if FIXITY.match(line):
            current = None
            continue
        begun = begun_at(line, current)
        if begun is not None:
            current = begun
            found.append(begun)
        if current is not None:
            current.lines.append(line)
    return found


def imports(text: str) -> dict[str, Name]:
    """What a file names of others, by the name that it has here."""
    named = {}
    for crate, module, names in USE.findall(text):
        for name in names.split(","):
            there, _, here = name.strip().partition(" as ")
            named[here or there] = (crate, module, there)
    return named


def modules() -> dict[tuple[str, str], Module]:
    """All files of definitions, by their crates and modules."""
    found = {}
    for path in sorted(glob.glob("crates/*/specs/*.antt")):
        crate, module, text = path.split("/")[1], os.path.basename(path)[:-len(".antt")], text_of(path)
        if module != "Lib":
            size = sum(1 for line in text.split("\n") if line.strip())
            found[crate, module] = Module(size, definitions(text), imports(text))
    return found


def reached_from(sources: Iterable[str], known: dict[tuple[str, str], Module]) -> set[Name]:
    """Which definitions these sources lead to."""
    reached, todo = set[Name](), [name for source in sources for name in imports(text_of(source)).values()]
    while todo:
        name = todo.pop()
        if name not in reached:
            reached.add(name)
            todo += led_to(name, known)
    return reached


def defined(name: Name, known: dict[tuple[str, str], Module]) -> list[Definition]:
    crate, module, word = name
    return [one for one in known[crate, module].definitions if one.name == word] if (crate, module) in known else []


def led_to(name: Name, known: dict[tuple[str, str], Module]) -> list[Name]:
    """What a definition names; of one that its module hands on, where it comes from."""
    crate, module, word = name
    if (crate, module) not in known:
        return []
    named, own = known[crate, module].named, {one.name for one in known[crate, module].definitions}
    if word not in own:
        return [named[word]] if word in named else []
    words = set().union(*(one.words() for one in defined(name, known)))
    return [named[it] if it in named else (crate, module, it) for it in words if it in named or it in own]


def main() -> None:
    heed_help(__doc__)
    known, total = modules(), [0, 0, 0]
    reached = reached_from(sys.argv[1:], known)
    for (crate, module), (size, found, _) in known.items():
        lines = sum(len(one.lines) for one in found if (crate, module, one.name) in reached)
        if lines:
            print(f"{crate:16} {module:14} {size:5} / {lines}")
            total = [total[0] + 1, total[1] + size, total[2] + lines]
    print(f"{total[0]} files, {total[1]} lines, {total[2]} reached")


if __name__ == "__main__":
    main()
