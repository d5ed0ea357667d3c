"""Looks over what no prover sees, in some ten seconds on a machine at rest: run it before the gate.

    tools/check [PART ..]

PART is `types` (mypy over the clients, and over what tools/ and bench/ call), `shell` (shellcheck over each shell script), `page` (node over the script of the
operator's page), `tests` (those that need no program) or `names` (what the documents name is there: see
outside/references.py); without one all are looked over. What a machine has no program for is passed over, and said. The last line counts what
was looked over and what was left out. The status is 1 where something is at fault, 2 where a word is no part, else 0, also where something
was left out."""

import os
import re
import shutil
import subprocess
import sys
from collections.abc import Callable, Iterator, Sequence
from concurrent.futures import ThreadPoolExecutor
from typing import NamedTuple

from outside import TOP, references
from outside.cases import heed_help

# The Python of the system, which has Debian's packages.
PYTHON = "/usr/bin/python3"
CONSOLE, CLIENT = "clients/console", "clients/python"
# What the console stands on, for its types and its tests.
OF_CONSOLE = ("aiohttp", "prometheus_client")
LACKING = f"{PYTHON} lacks {' or '.join(OF_CONSOLE)}"
# Tests that start no program of this repository; they run with a BOSSD that is none, so that one which wants it fails.
TESTS = {
    CLIENT: ["test_bacnet.Answers", "test_bacnet.Coding", "test_bossd.Addresses", "test_bossd.Checked", "test_bossd.Denying",
             "test_bossd.Gathering", "test_bossd.Kept", "test_bossd.Later", "test_bossd.SeveralAddresses", "test_bossd.Units",
             "test_ctl.Denied", "test_ctl.Finding", "test_ctl.Guarded", "test_ctl.Journals", "test_ctl.Linting", "test_ctl.Served",
             "test_ctl.Showing", "test_evict.Asking", "test_evict.Parts", "test_evict.Showing", "test_follow", "test_keys", "test_session", "test_tls"],
    CONSOLE: ["tests.test_history", "tests.test_journal", "tests.test_keys", "tests.test_knowing.Before", "tests.test_knowing.Told", "tests.test_parts",
              "tests.test_schedules"],
    "": ["outside.test_edits", "outside.test_failover", "outside.test_references"],
}
NO_PROGRAM = "/nonexistent/bossd"
# How long, in seconds, one program may take; a machine with much other work takes long.
PATIENCE = 600


class Outcome(NamedTuple):
    """What one look came to: how many of which things were looked over, what was left out and why, and what is at fault."""

    number: int
    things: str
    faults: list[str]
    left_out: list[str]


class Ran(NamedTuple):
    """What a program wrote on both of its outputs, and its status."""

    text: str
    status: int


def run(words: Sequence[str], folder: str = "", **settings: str) -> Ran:
    ran = subprocess.run(words, cwd=os.path.join(TOP, folder), env={**os.environ, **settings}, stdin=subprocess.DEVNULL,
                         stdout=subprocess.PIPE, stderr=subprocess.STDOUT, text=True, timeout=PATIENCE)
    return Ran(ran.stdout, ran.returncode)


def looked_over(things: str, number: int, ran: Ran) -> Outcome:
    """The outcome of a program that writes what is at fault, and then has a status of its own."""
    lines = [line for line in ran.text.split("\n") if line.strip()]
    faults = (lines or [f"{things}: status {ran.status}"]) if ran.status else []
    return Outcome(number, things, faults if ran.status or number else [f"{things}: none was found"], [])


def left_out(things: str, why: str) -> Outcome:
    return Outcome(0, things, [], [f"{things} ({why})"])


# ---- which files there are

def files() -> Iterator[str]:
    """The files of the repository but for those of its crates, which the gate looks over."""
    for here, folders, names in os.walk(TOP):
        folders[:] = sorted(name for name in folders if name not in references.PASSED_OVER | {"crates"})
        yield from (os.path.relpath(os.path.join(here, name), TOP) for name in sorted(names))


def first_line(path: str) -> str:
    with open(os.path.join(TOP, path), errors="replace") as file:
        return file.readline()


def is_shell(path: str) -> bool:
    return re.match(r"#!.*\bsh\b", first_line(path)) is not None


def is_python(path: str) -> bool:
    return path.endswith(".py") or re.match(r"#!.*\bpython3?\b", first_line(path)) is not None


# ---- the parts

def types() -> Iterator[Outcome]:
    if shutil.which("mypy") is None:
        yield left_out("types", "mypy is not installed")
        return
    yield mypy("typed files of the client", CLIENT)
    yield mypy("typed files of the console", CONSOLE) if has_modules() else left_out("types of the console", LACKING)
    names = [path for path in files() if path.startswith(("outside/", "tools/", "bench/")) and is_python(path)]
    yield mypy("files of tools and bench", "", "--config-file", "outside/mypy.ini", *names)


def mypy(things: str, folder: str, *words: str) -> Outcome:
    ran = run(["mypy", *words], folder)
    found = re.search(r"(?:no issues found in|checked) (\d+) source file", ran.text)
    return looked_over(things, int(found[1]) if found else 0, ran)


def has_modules() -> bool:
    return os.access(PYTHON, os.X_OK) and run([PYTHON, "-c", f"import {', '.join(OF_CONSOLE)}"]).status == 0


def shell() -> Iterator[Outcome]:
    names = [path for path in files() if is_shell(path)]
    if shutil.which("shellcheck") is None:
        yield left_out(f"shell scripts {len(names)}", "shellcheck is not installed")
    else:
        yield looked_over("shell scripts", len(names), run(["shellcheck", *names]))


def page() -> Iterator[Outcome]:
    names = [path for path in files() if path.endswith(".js")]
    if shutil.which("node") is None:
        yield left_out(f"scripts of the page {len(names)}", "node is not installed")
        return
    # Of several files node looks at the first alone.
    rans = [run(["node", "--check", name]) for name in names]
    yield looked_over("scripts of the page", len(names), Ran("\n".join(ran.text for ran in rans), max((ran.status for ran in rans), default=0)))


def tests() -> Iterator[Outcome]:
    yield tried(CLIENT, sys.executable)
    yield tried("", sys.executable)
    yield tried(CONSOLE, PYTHON) if has_modules() else left_out("tests of the console", LACKING)


def tried(folder: str, python: str) -> Outcome:
    """Runs the tests of a folder that need no program; one that is skipped is left out."""
    ran = run([python, "-B", "-m", "unittest", "-q", *TESTS[folder]], folder, BOSSD=NO_PROGRAM)
    count, skipped = re.search(r"^Ran (\d+) tests?", ran.text, re.M), re.search(r"skipped=(\d+)", ran.text)
    outcome = looked_over("tests", int(count[1]) if count else 0, ran)
    if skipped is None:
        return outcome
    return outcome._replace(number=outcome.number - int(skipped[1]), left_out=[f"{skipped[1]} tests of {folder or 'tools'} (skipped)"])


def names() -> Iterator[Outcome]:
    told = references.told(TOP)
    yield Outcome(told.looked_at, "paths, names and links of documents", [str(fault) for fault in told.faults], [])


PARTS: dict[str, Callable[[], Iterator[Outcome]]] = {"types": types, "shell": shell, "page": page, "tests": tests, "names": names}


# ---- all of them

def summary(outcomes: Sequence[Outcome]) -> str:
    """How many of each thing were looked over, and what was left out."""
    counts: dict[str, int] = {}
    for one in outcomes:
        counts[one.things] = counts.get(one.things, 0) + one.number
    told = ", ".join(f"{things} {count:,}" for things, count in counts.items() if count)
    gone = "; ".join(what for one in outcomes for what in one.left_out)
    return f"looked over: {told or 'nothing'}. Left out: {gone or 'nothing'}."


def looked(words: Sequence[str]) -> int:
    """Looks over these parts, or all, and says what came of it; the status."""
    strange = [word for word in words if word not in PARTS]
    if strange:
        print(f"check: no part is called {', '.join(strange)}; there are {', '.join(PARTS)}")
        return 2
    with ThreadPoolExecutor() as pool:
        outcomes = [one for found in pool.map(lambda part: list(PARTS[part]()), words or PARTS) for one in found]
    faults = [fault for one in outcomes for fault in one.faults]
    for fault in faults:
        print(fault)
    print(f"{f'at fault: {len(faults)} lines above' if faults else 'nothing at fault'}; {summary(outcomes)}")
    return 1 if faults else 0


def main() -> None:
    heed_help(__doc__)
    sys.exit(looked(sys.argv[1:]))


if __name__ == "__main__":
    main()
