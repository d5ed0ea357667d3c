"""What the launcher runs for which words: the proved program, or a first look, which is compiled without its proofs.

    tools/first

Each row of a table is tried in a folder of its own, with programs in the place of the proved one, of the look and of the tools that make
them, each of which says its name. Then, where `rt` is on the path, the look itself is built in a copy of the sources, and the day of the
examples is run by it: the bytes are those of examples/day.out. That takes some two minutes on a quiet machine."""

import os
import shutil
import stat
import subprocess
import sys
import tempfile
import time

from outside import TOP
from outside.cases import heed_help

SAYS = '#!/bin/sh\necho "${0#"$PWD"/}"\n'
BUILDS = '#!/bin/sh\nmkdir -p crates/bossd/out\ncp program crates/bossd/out/bossd\n'
LOOKS = '#!/bin/sh\necho "$PWD/out/look/bossd"\n'
PROVED, LOOK = "crates/bossd/out/bossd", "out/look/bossd"
MARK = "UNPROVED"

# The words, what BOSSD_UNPROVED says, how the proved program stands, and which one runs.
ROWS: list[tuple[list[str], str | None, str, str]] = [
    ([], None, "missing", LOOK),
    (["script", "plant.toml", "-"], None, "missing", LOOK),
    (["load", "500", "7"], None, "missing", LOOK),
    (["check", "plant.toml", "journal"], None, "missing", LOOK),
    (["feed", "plant.toml", "journal", "0"], None, "missing", LOOK),
    (["script", "plant.toml", "journal"], None, "missing", PROVED),
    (["serve", "plant.toml", "-", "127.0.0.1:7000", "1", "1"], None, "missing", PROVED),
    (["adopt", "plant.toml", "next.toml", "journal"], None, "missing", PROVED),
    (["standby", "plant.toml", "journal"], None, "missing", PROVED),
    (["hold"], None, "missing", PROVED),
    (["serve", "plant.toml", "-", "127.0.0.1:7000", "1", "1"], "1", "missing", LOOK),
    (["script", "plant.toml", "journal"], "1", "missing", LOOK),
    (["script", "plant.toml", "-"], "0", "missing", PROVED),
    ([], "0", "missing", PROVED),
    (["script", "plant.toml", "-"], None, "built", PROVED),
    (["serve", "plant.toml", "-", "127.0.0.1:7000", "1", "1"], "1", "built", PROVED),
    (["script", "plant.toml", "-"], None, "old", PROVED),
    (["check", "plant.toml", "journal"], None, "old", PROVED),
]


def program(path: str, text: str) -> None:
    os.makedirs(os.path.dirname(path), exist_ok=True)
    with open(path, "w", encoding="utf-8") as file:
        file.write(text)
    os.chmod(path, os.stat(path).st_mode | stat.S_IXUSR)


def lay(folder: str, stands: str) -> None:
    """The launcher between a look, a source and a proved program that stands so."""
    shutil.copy(os.path.join(TOP, "bossd"), folder)
    for path, text in (("tools/look", LOOKS), ("tools/build", BUILDS), ("program", SAYS), ("out/look/bossd", SAYS), ("path/rt", "#!/bin/sh\nexit 1\n")):
        program(os.path.join(folder, path), text)
    proved, source = os.path.join(folder, "crates/bossd/out/bossd"), os.path.join(folder, "crates/bossd/src/main.rt")
    os.makedirs(os.path.dirname(source))
    open(source, "w", encoding="utf-8").close()
    if stands != "missing":
        program(proved, SAYS)
        now = time.time()
        os.utime(source, (now, now + (60 if stands == "old" else -60)))


def ran(words: list[str], unproved: str | None, stands: str) -> tuple[str, bool]:
    """Which program ran, and whether it said first that it is unproved."""
    with tempfile.TemporaryDirectory(prefix="first-") as folder:
        lay(folder, stands)
        around = {name: value for name, value in os.environ.items() if name != "BOSSD_UNPROVED"}
        around["PATH"] = os.path.join(folder, "path") + os.pathsep + around["PATH"]
        if unproved is not None:
            around["BOSSD_UNPROVED"] = unproved
        if stands == "old":
            # What is built anew is as new as its source, which lies a minute ahead.
            with open(os.path.join(folder, "tools/build"), "a", encoding="utf-8") as file:
                file.write('touch -d "+2 minutes" crates/bossd/out/bossd\n')
        done = subprocess.run([os.path.join(folder, "bossd"), *words], cwd=folder, env=around, capture_output=True, text=True, timeout=60)
        return done.stdout.strip(), MARK in done.stderr


def rows() -> int:
    wrong = 0
    for words, unproved, stands, wanted in ROWS:
        found, marked = ran(words, unproved, stands)
        if found != wanted or marked != (wanted == LOOK):
            wrong += 1
            print(f"first: {' '.join(words) or 'no words'}, BOSSD_UNPROVED={unproved}, proved program {stands}: {found}, marked {marked}; wanted {wanted}")
    print(f"{len(ROWS)} rows of the launcher, {wrong} wrong")
    return wrong


def real_look() -> int:
    """The day of the examples by the look, in a copy of the sources that has built nothing."""
    with tempfile.TemporaryDirectory(prefix="first-") as folder:
        copy = os.path.join(folder, "copy")
        ignored = shutil.ignore_patterns("out", ".git", "unlanded", "__pycache__")
        shutil.copytree(TOP, copy, ignore=ignored, symlinks=True)
        began = time.monotonic()
        with open(os.path.join(copy, "examples/day.jsonl"), "rb") as day:
            done = subprocess.run(["./bossd", "script", "examples/plant.toml", "-"], cwd=copy, stdin=day, capture_output=True)
        with open(os.path.join(copy, "examples/day.out"), "rb") as file:
            right = done.returncode == 0 and done.stdout == file.read()
        marked = MARK in done.stderr.decode(errors="replace")
        print(f"the day by a first look, {(time.monotonic() - began) / 60:.1f} minutes: {'as stored' if right else 'not as stored'}, {'marked' if marked else 'not marked'}")
        return 0 if right and marked else 1


def main() -> None:
    heed_help(__doc__)
    wrong = rows()
    if shutil.which("rt"):
        wrong += real_look()
    else:
        print("first: no rt on the path, so no look was built")
    sys.exit(1 if wrong else 0)


if __name__ == "__main__":
    main()
