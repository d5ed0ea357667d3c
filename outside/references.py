"""Finds what the documents name and is not there: a file of a crate, a name in one, a link, an anchor, a tool or an example, a decision,
a crate's row. tools/check runs it.

A path such as `src/lib.rt`, or a file in a drawing, is of the crate that was named last before it in its row, item or paragraph, or that
comes after it with `of`, or of those of the heading.
What is not looked for: whether what is said of a name is so, words in backquotes that are no names of code, such as `serve`, and whatever
stands in CHANGELOG.md and docs/TRIED.md, which tell of states of before, but for links."""

import glob
import os
import re
from collections.abc import Iterable, Iterator
from typing import NamedTuple

# What a folder may hold that is no part of the repository.
PASSED_OVER = {".git", "out", "__pycache__", ".mypy_cache", "build", "node_modules"}
# Documents of before: what they name may be gone.
HISTORIES = {"CHANGELOG.md", "docs/TRIED.md"}
# Documents that name files of crates, and names in them.
OF_CRATES = ["README.md", *(f"docs/{name}.md" for name in ("MAINTAINING", "MAP", "CLAIM", "PROVED", "DEFINITIONS", "DECISIONS"))]
# Documents with a row or a heading a crate, and how the names of those crates begin that need none.
ROWS: dict[str, str | None] = {"README.md": None, "docs/PROVED.md": None, "docs/MAP.md": "trial_"}
FOLDERS = ("src", "specs", "proofs", "must-fail", "data")
PARTS = ("src", "specs", "proofs")
# Where else a name may stand than in a crate.
BESIDE = ("clients", "outside", "tools", "bench", "packaging", "examples")

CRATE = r"(?:(?:boss|def|law|trial)_[a-z0-9]\w*|bossd)"
# What is made when the repository is built.
MADE = {"crates/bossd/out/bossd", "bench/load"}
# What a block is read by: what stands in backquotes, a crate, a mark that ends or begins something.
TOKEN = re.compile(rf"`(?P<spoken>[^`]+)`|(?<![\w/.-])(?P<crate>{CRATE})(?![\w/*-])|(?P<mark>[()|;])|(?P<word>[^\s`()|;*,]+)")
OF_CRATE = re.compile(rf"\s+of\s+({CRATE})\b")
PATH = re.compile(rf"(?:({CRATE}) )?((?:{'|'.join(FOLDERS)})/[\w./*-]*)")
# A file of the folder that was named last, as `Lines.antt` or, after a folder alone, `Lines`.
FILE = re.compile(r"\w+\.(?:rt|antt)")
MODULE = re.compile(r"[A-Z]\w*")
# A name of code: with an underscore, a capital within or two colons.
NAME = re.compile(r"[A-Za-z]\w*(?:::\w+)*")
CODED = re.compile(r"\w_\w|[a-z][A-Z]|::")
PLAIN_PATH = re.compile(r"(?<![\w/.<-])(?:\./)?((?:outside|tools|bench|packaging|examples|clients|docs|crates|\.ci)/[\w./*-]*)")
PROGRAM = re.compile(r"`(bossd-[a-z-]+|bossctl)\b")
LINK = re.compile(r"\[(?:[^\[\]]|\[[^\]]*\])*\]\(([^()\s]+)\)")
DECISIONS = re.compile(r"\bdecisions? (\d+(?:(?:, | and )\d+)*)")
HEADING = re.compile(r"(#{1,6}) +(.*)")


class Fault(NamedTuple):
    """What a document names and is not there, with its line from 1."""

    document: str
    line: int
    what: str

    def __str__(self) -> str:
        return f"{self.document}:{self.line}: {self.what}"


class Block(NamedTuple):
    """A row, an item, a paragraph or a heading, with the line at which it begins."""

    line: int
    text: str
    heading: str


class Told(NamedTuple):
    """What the documents were held against: how many paths, names and links, and what is not there."""

    looked_at: int
    faults: list[Fault]


# ---- what is there

class Place:
    """The repository at a folder: its crates, its documents, and the words in the files of each crate."""

    def __init__(self, top: str) -> None:
        self.top = top
        self.crates = crates_of(os.path.join(top, "crates.txt"))
        self.words: dict[str, set[str]] = {}

    def has(self, path: str) -> bool:
        return os.path.exists(os.path.join(self.top, path))

    def read(self, path: str) -> str:
        with open(os.path.join(self.top, path), encoding="utf-8", errors="replace") as file:
            return file.read()

    def documents(self) -> list[str]:
        return sorted(path for path in self.files("") if path.endswith(".md"))

    def files(self, folder: str) -> Iterator[str]:
        """The files of a folder and of those in it."""
        for here, folders, names in os.walk(os.path.join(self.top, folder)):
            folders[:] = sorted(name for name in folders if name not in PASSED_OVER and not name.startswith(".mypy"))
            yield from (os.path.relpath(os.path.join(here, name), self.top) for name in names)

    def words_of(self, path: str) -> set[str]:
        """All words of a file, or of the files of a folder with the names of these."""
        if path not in self.words:
            is_file = os.path.isfile(os.path.join(self.top, path))
            self.words[path] = self.words_in([path] if is_file else self.files(path))
        return self.words[path]

    def words_in(self, paths: Iterable[str]) -> set[str]:
        found: set[str] = set()
        for path in paths:
            found.update(re.findall(r"\w+", self.read(path)), re.split(r"\W+", path))
        return found

    def words_of_crate(self, crate: str) -> set[str]:
        return set().union(*(self.words_of(f"crates/{crate}/{part}") for part in PARTS))

    def find(self, crate: str, path: str) -> str | None:
        """Where a path of a crate is; a module of lemmas or definitions may be named without its ending, a file without its folder."""
        whole = f"crates/{crate}/{path}"
        if FILE.fullmatch(path):
            return next((there for there in self.files(f"crates/{crate}") if os.path.basename(there) == path), None)
        found = [there for pattern in (whole, f"{whole}.antt") for there in glob.glob(os.path.join(self.top, pattern))]
        return os.path.relpath(found[0], self.top) if found else None

    def knows(self, name: str, crates: Iterable[str]) -> bool:
        """Whether each part of a name is a word of one of these crates."""
        return any(set(name.split("::")) <= self.words_of_crate(crate) for crate in crates)

    def knows_anywhere(self, name: str) -> bool:
        return self.knows(name, self.crates) or any(set(name.split("::")) <= self.words_of(folder) for folder in BESIDE)


def crates_of(path: str) -> list[str]:
    with open(path, encoding="utf-8") as file:
        lines = [line.split("#")[0].strip() for line in file]
    return [line.split(":")[0].split()[0] for line in lines if line]


# ---- a document cut into blocks

def blocks(text: str) -> Iterator[Block]:
    """The blocks of a document, each with the heading that it stands under."""
    heading, begun, lines = "", 0, list[str]()
    for number, line in enumerate([*text.split("\n"), ""], start=1):
        if lines and begins_anew(line):
            yield Block(begun, "\n".join(lines), heading)
            lines = []
        if HEADING.match(line):
            heading = line
        if line.strip():
            begun = begun if lines else number
            lines.append(line)


def begins_anew(line: str) -> bool:
    return not line.strip() or line[0] in "|#" or re.match(r"\s*(?:[-*]|\d+\.) ", line) is not None


def is_code(block: Block) -> bool:
    """Whether a block is a command or a drawing, set off by four spaces."""
    return block.text.startswith("    ")


def line_at(block: Block, place: int) -> int:
    return block.line + block.text.count("\n", 0, place)


# ---- paths and names in crates

class Reader:
    """Reads a block, one token after another: which crate and folder were named last, and of which file a bracket tells."""

    def __init__(self, place: Place, document: str, block: Block) -> None:
        self.place, self.document, self.block = place, document, block
        self.named = [word for word in re.findall(CRATE, block.heading + " " + block.text) if word in place.crates]
        # The crates whose paths come next, one or those of the heading, and those of before each open bracket.
        self.of_heading = [word for word in re.findall(CRATE, block.heading) if word in place.crates]
        self.crates = self.of_heading
        self.outside = list[list[str]]()
        # Whether files stand without backquotes, in a drawing.
        self.drawn = is_code(block)
        self.folder = ""
        # Whether a folder was named alone, so that the files in it are named after it.
        self.lists = False
        # The file that was named by the token before, and the one that the open bracket tells of.
        self.before: str | None = None
        self.of_bracket: str | None = None
        self.looked_at = 0
        self.faults: list[Fault] = []

    def read(self) -> None:
        for found in TOKEN.finditer(self.block.text):
            named = self.take(found)
            self.before = named

    def take(self, found: re.Match[str]) -> str | None:
        """Takes one token; gives the file that it names, if it names one."""
        if found["spoken"] is not None:
            after = OF_CRATE.match(self.block.text, found.end())
            return self.take_spoken(" ".join(found["spoken"].split()), [after[1]] if after else self.crates, found.start())
        if found["crate"] is not None:
            self.take_crate(found["crate"], found.start())
        elif found["mark"] is not None:
            self.take_mark(found["mark"])
        elif self.drawn and FILE.fullmatch(found["word"]):
            self.take_path(self.crates, found["word"], found.start())
        return None

    def take_crate(self, crate: str, at: int) -> None:
        self.looked_at += 1
        self.lists = False
        if crate in self.place.crates:
            self.crates = [crate]
        else:
            self.say(f"there is no crate {crate}", at)

    def take_mark(self, mark: str) -> None:
        self.lists = self.lists and mark in "()"
        if mark == "(":
            self.of_bracket = self.before
            self.outside.append(self.crates)
        elif mark == ")":
            self.of_bracket = None
            self.crates = self.outside.pop() if self.outside else self.crates

    def take_spoken(self, spoken: str, crates: list[str], at: int) -> str | None:
        path = PATH.fullmatch(spoken)
        if path is not None:
            return self.take_path([path[1]] if path[1] else crates, path[2], at)
        if FILE.fullmatch(spoken) and crates:
            return self.take_path(crates, spoken, at)
        if self.lists and self.of_bracket is None and MODULE.fullmatch(spoken):
            return self.take_path(crates, f"{self.folder}/{spoken}", at)
        if NAME.fullmatch(spoken):
            self.take_name(spoken, at)
        return None

    def take_path(self, crates: list[str], path: str, at: int) -> str | None:
        """Looks for a path of a crate; gives where it is. A folder that is said of no crate is one of every crate."""
        self.looked_at += 1
        if "/" in path:
            self.folder, self.lists = path.rpartition("/")[0], path.endswith("/") or self.lists
        if not crates and path.rstrip("/") in FOLDERS:
            return None
        found = next(filter(None, (self.place.find(crate, path) for crate in [*crates, *self.of_heading])), None)
        if found is None:
            self.say(f"{' or '.join(crates) or 'a crate that is not named'}: {path} is not there", at)
        return found

    def take_name(self, name: str, at: int) -> None:
        if self.of_bracket is not None:
            self.looked_at += 1
            if not set(name.split("::")) <= self.place.words_of(self.of_bracket):
                self.say(f"{self.of_bracket} has no {name}", at)
        elif CODED.search(name):
            self.looked_at += 1
            if not self.place.knows(name, self.named) and not self.place.knows_anywhere(name):
                self.say(f"nothing is called {name}", at)

    def say(self, what: str, at: int) -> None:
        self.faults.append(Fault(self.document, line_at(self.block, at), what))


def crates_told(place: Place, document: str) -> Told:
    """What a document names of crates, and which of it is not there."""
    looked_at, faults = 0, list[Fault]()
    for block in blocks(place.read(document)):
        reader = Reader(place, document, block)
        reader.read()
        looked_at += reader.looked_at
        faults += reader.faults
    return Told(looked_at, faults)


# ---- what documents name beside the crates

def anchors(text: str) -> set[str]:
    """What a page of Markdown may be entered by: each heading in small letters, with hyphens, numbered where it comes again."""
    found: set[str] = set()
    for line in text.split("\n"):
        heading = HEADING.fullmatch(line)
        if heading is not None:
            plain = re.sub(r"[^\w\- ]", "", heading[2].lower()).replace(" ", "-")
            found.add(next(name for name in (plain, *(f"{plain}-{again}" for again in range(1, 99))) if name not in found))
    return found


def links_told(place: Place, document: str) -> Told:
    """The links of a document, to files and anchors of the repository."""
    looked_at, faults = 0, list[Fault]()
    for block in blocks(place.read(document)):
        for found in LINK.finditer(re.sub(r"`[^`]*`", "", block.text) if not is_code(block) else ""):
            looked_at += 1
            faults += [Fault(document, block.line, what) for what in link_faults(place, document, found[1])]
    return Told(looked_at, faults)


def link_faults(place: Place, document: str, link: str) -> Iterator[str]:
    if re.match(r"[a-z]+:", link):
        return
    name, _, anchor = link.partition("#")
    target = os.path.normpath(os.path.join(os.path.dirname(document), name)) if name else document
    if not place.has(target):
        yield f"the link {link} leads nowhere"
    elif anchor and (not target.endswith(".md") or anchor not in anchors(place.read(target))):
        yield f"the link {link} leads to no heading"


def paths_told(place: Place, document: str) -> Told:
    """Tools, scripts, examples and other files that a document names by their path, installed programs, and decisions by their number."""
    looked_at, faults = 0, list[Fault]()
    for block in blocks(place.read(document)):
        named = [(found.start(), what) for pattern, fault in SOUGHT for found in pattern.finditer(block.text) for what in fault(place, found)]
        looked_at += sum(1 for pattern, _ in SOUGHT for _ in pattern.finditer(block.text))
        faults += [Fault(document, line_at(block, at), what) for at, what in named]
    return Told(looked_at, faults)


def path_faults(place: Place, found: re.Match[str]) -> Iterator[str]:
    path = found[1].rstrip(".")
    is_pattern = re.search(r"/[A-Z-]+(?:/|\.edit|$)", path) is not None
    if not is_pattern and not glob.glob(os.path.join(place.top, path)) and path not in MADE:
        yield f"{path} is not there"


def program_faults(place: Place, found: re.Match[str]) -> Iterator[str]:
    if not glob.glob(os.path.join(place.top, "packaging", found[1] + "*")):
        yield f"packaging has no {found[1]}"


def decision_faults(place: Place, found: re.Match[str]) -> Iterator[str]:
    there = re.findall(r"^- \*\*(\d+)\*\*", place.read("docs/DECISIONS.md"), re.M)
    yield from (f"there is no decision {number}" for number in re.findall(r"\d+", found[1]) if number not in there)


SOUGHT = [(PLAIN_PATH, path_faults), (PROGRAM, program_faults), (DECISIONS, decision_faults)]


# ---- each crate has its rows

def rows_told(place: Place, document: str) -> Told:
    """A row or a heading for each crate of crates.txt, and the names in backquotes of each such row, which have to be words of its crates."""
    looked_at, faults, there = 0, list[Fault](), set[str]()
    for block in blocks(place.read(document)):
        crates = row_of(block)
        there.update(crates)
        names = [name for name in re.findall(r"`([^`]+)`", block.text) if NAME.fullmatch(name)] if crates and block.text[0] == "|" else []
        looked_at += len(crates) + len(names)
        named = [crate for crate in re.findall(CRATE, block.text) if crate in place.crates]
        faults += [Fault(document, block.line, f"{', '.join(crates)}: no word {name} there") for name in names if not place.knows(name, named)]
    without = ROWS[document] or "-"
    faults += [Fault(document, 0, f"no row of {crate}") for crate in place.crates if crate not in there and not crate.startswith(without)]
    return Told(looked_at, faults)


def row_of(block: Block) -> list[str]:
    """The crates that a row or a heading is of."""
    head = block.text.split("|")[1] if block.text.startswith("|") else block.text if block.text.startswith("###") else ""
    return re.findall(rf"(?<![\w`]){CRATE}(?![\w-])", head.split(":")[0])


def told(top: str) -> Told:
    """All that is looked for, in all documents of the repository at `top`."""
    place = Place(top)
    documents = place.documents()
    found = [links_told(place, document) for document in documents]
    found += [paths_told(place, document) for document in documents if document not in HISTORIES]
    found += [crates_told(place, document) for document in OF_CRATES]
    found += [rows_told(place, document) for document in ROWS]
    return Told(sum(one.looked_at for one in found), sorted(set(fault for one in found for fault in one.faults)))
