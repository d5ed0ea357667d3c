"""TOML, and on which line of the text each key stands."""

import importlib
import re
from typing import Any, Dict, List, NamedTuple, Optional, Tuple, Union

# The keys and places that lead to a value: ("point", 3, "min").
Path = Tuple[Union[str, int], ...]


class Failure(Exception):
    """Something that a person is to be told, and that ends the command."""


class Broken(NamedTuple):
    """Why a text is no TOML, and on which line, if that is known."""
    why: str
    line: Optional[int]


def reader() -> Any:
    """A library that reads TOML: Python's own from 3.11 on, or one of Debian's python3-tomli and python3-toml."""
    for name in ("tomllib", "tomli", "toml"):
        try:
            return importlib.import_module(name)
        except ImportError:
            pass
    raise Failure("this Python reads no TOML: install python3-tomli, or use Python 3.11 or later")


def read(text: str) -> Union[Dict[str, Any], Broken]:
    """The tables of a text, or why there are none."""
    try:
        tables: Dict[str, Any] = reader().loads(text)
        return tables
    except ValueError as error:
        # All three libraries say the line in the sentence.
        line = re.search(r"line (\d+)", str(error))
        return Broken(re.sub(r" \(at line \d+, column \d+\)| \(line \d+ column \d+ char \d+\)", "", str(error)), int(line[1]) if line else None)


BARE = re.compile(r"[A-Za-z0-9_-]+")
SCALAR = re.compile(r"[^,\]}#\n]*")


class Lines:
    """Finds the line of each key and of each item of an array, in a text that is TOML."""

    def __init__(self, text: str) -> None:
        self.text, self.place = text.replace("\r\n", "\n"), 0
        self.found: Dict[Path, int] = {}
        self.counts: Dict[Path, int] = {}
        try:
            self._statements()
        except IndexError:
            pass

    def of(self, path: Path) -> Optional[int]:
        """The line of a key; where the key is missing, that of the table in which it should stand."""
        while path and path not in self.found:
            path = path[:-1]
        return self.found.get(path)

    def _line(self) -> int:
        return self.text.count("\n", 0, self.place) + 1

    def _mark(self, path: Path) -> None:
        self.found.setdefault(path, self._line())

    def _statements(self) -> None:
        within: Path = ()
        self._skip()
        while self.place < len(self.text):
            if self.text.startswith("[[", self.place):
                within = self._array_header()
            elif self.text[self.place] == "[":
                within = self._header()
            else:
                self._pair(within)
            self._skip()

    def _skip(self, also: str = "") -> None:
        """Passes over blanks, ends of lines, comments, and these characters."""
        while self.place < len(self.text):
            one = self.text[self.place]
            if one == "#":
                end = self.text.find("\n", self.place)
                self.place = len(self.text) if end < 0 else end
            elif one in " \t\n" or one in also:
                self.place += 1
            else:
                return

    def _array_header(self) -> Path:
        line = self._line()
        self.place += 2
        path = self._resolved(self._keys()[:])
        self.place += 2
        count = self.counts.get(path, 0)
        self.counts[path] = count + 1
        self.found.setdefault(path, line)
        self.found[path + (count,)] = line
        return path + (count,)

    def _header(self) -> Path:
        line = self._line()
        self.place += 1
        path = self._resolved(self._keys())
        self.place += 1
        self.found.setdefault(path, line)
        return path

    def _resolved(self, keys: List[str]) -> Path:
        """The path of a header: a table within an array is in its last item."""
        path: Path = ()
        for place, key in enumerate(keys):
            path += (key,)
            if place + 1 < len(keys) and path in self.counts:
                path += (self.counts[path] - 1,)
        return path

    def _keys(self) -> List[str]:
        keys = []
        while True:
            self._skip()
            keys.append(self._key())
            self._skip()
            if self.text[self.place] != ".":
                return keys
            self.place += 1

    def _key(self) -> str:
        if self.text[self.place] in "\"'":
            start = self.place
            self._string()
            return self.text[start + 1:self.place - 1]
        bare = BARE.match(self.text, self.place)
        if bare is None:
            raise IndexError
        self.place = bare.end()
        return bare[0]

    def _pair(self, within: Path) -> None:
        line = self._line()
        path = within
        for key in self._keys():
            path += (key,)
            self.found.setdefault(path, line)
        self._skip(also="=")
        self._value(path)

    def _value(self, path: Path) -> None:
        one = self.text[self.place]
        if one in "\"'":
            self._string()
        elif one == "[":
            self._items(path)
        elif one == "{":
            self._inline(path)
        else:
            scalar = SCALAR.match(self.text, self.place)
            self.place = scalar.end() if scalar else len(self.text)

    def _items(self, path: Path) -> None:
        self.place += 1
        count = 0
        self._skip(also=",")
        while self.text[self.place] != "]":
            self._mark(path + (count,))
            self._value(path + (count,))
            count += 1
            self._skip(also=",")
        self.place += 1

    def _inline(self, path: Path) -> None:
        self.place += 1
        self._skip(also=",")
        while self.text[self.place] != "}":
            self._pair(path)
            self._skip(also=",")
        self.place += 1

    def _string(self) -> None:
        quote = self.text[self.place]
        closing = quote * 3 if self.text.startswith(quote * 3, self.place) else quote
        self.place += len(closing)
        while not self.text.startswith(closing, self.place):
            self.place += 2 if quote == '"' and self.text[self.place] == "\\" else 1
            if self.place >= len(self.text):
                raise IndexError
        self.place += len(closing)
        # Up to two quotes may stand before the closing ones.
        while len(closing) == 3 and self.place < len(self.text) and self.text[self.place] == quote:
            self.place += 1
