"""Tries the edits of the sources that the prover has to refuse: those of today, and former ones that still apply.

Tries the edits of the sources that the prover has to refuse, crate by crate: those of today, and those that were taken out for the
gate's time and still apply.

    tools/edits [--list] [CRATE ..]

All crates of crates.txt are tried where none is named, which takes hours: it is run once a release. Each edit has a line: the crate, the
edit, whether it is of today or of a former commit, and what came of it. A former one that no longer applies is listed as such, as are those
of crates that are gone; the last line is the sum. With --list nothing is tried.

A crate is copied aside with the crates below it, with all of these edits in its folder must-fail, and `rt must-fail` is run there: it needs
`rt` on the path, and takes of earlier proofs what it finds. Former edits are found in git's history, so a shallow clone has none. It ends
with 1 where an edit was not refused; a former one that applies, and no longer compiles, is listed alone."""

import os
import shutil
import subprocess
import sys
import tempfile
from collections import Counter
from collections.abc import Sequence
from typing import NamedTuple

from outside import TOP
from outside.build import Lower, below, crates, folder_of, lines, out_of
from outside.cases import heed_help

# Where the copies go: beside what was built, so that this can be linked.
COPIES = os.path.join(TOP, "out")
REFUSED, UNKNOWN = "refused", "nothing was said of it"
GONE, STALE, CRATE_GONE, APPLIES = "no longer applies", "applies, and is no text that compiles", "its crate is gone", "applies"


class Edit(NamedTuple):
    """An edit: its crate, its name, its text and whether it is of today."""

    crate: str
    name: str
    text: str
    is_of_today: bool

    def told(self, outcome: str) -> str:
        return f"{self.crate} {self.name} ({'today' if self.is_of_today else 'former'}): {outcome}"

    def pairs(self) -> list[tuple[str, str, str]]:
        """The file, the old line and the new one of each change; a file holds until another one is named."""
        found, file, old = list[tuple[str, str, str]](), "", ""
        for line in self.text.split("\n"):
            key, _, value = line.partition(": ")
            if key == "file":
                file = value.strip()
            elif key == "old":
                old = value
            elif key.rstrip(":") == "new":
                found.append((file, old, value))
        return found

    def applies(self) -> bool:
        """Whether each old text stands exactly once in its file, behind the changes that come before it."""
        texts: dict[str, str] = {}
        for file, old, new in self.pairs():
            path = os.path.join(folder_of(self.crate), file)
            if file not in texts and not os.path.isfile(path):
                return False
            text = texts[file] if file in texts else text_of(path)
            if text.count(old) != 1:
                return False
            texts[file] = text.replace(old, new)
        return bool(texts)


def text_of(path: str) -> str:
    with open(path, encoding="utf-8") as file:
        return file.read()


# ---- which edits there are

def of_today(crate: str) -> list[Edit]:
    folder = os.path.join(folder_of(crate), "must-fail")
    names = sorted(os.listdir(folder)) if os.path.isdir(folder) else []
    return [Edit(crate, name[:-len(".edit")], text_of(os.path.join(folder, name)), True) for name in names if name.endswith(".edit")]


def git(*words: str, given: str = "") -> str:
    return subprocess.run(["git", "-C", TOP, *words], input=given, capture_output=True, text=True, check=True).stdout


def former() -> list[Edit]:
    """Each edit that a former commit had and that is no longer there, with its last text."""
    taken_out = {path: content for path, content in sorted(last_contents().items()) if not os.path.exists(os.path.join(TOP, path))}
    # Behind the name of each content, its kind and its size comes the content itself, and a line end.
    whole, place, found = git("cat-file", "--batch", given="".join(f"{name}\n" for name in taken_out.values())).encode(), 0, list[Edit]()
    for path in taken_out:
        begin = whole.index(b"\n", place) + 1
        size = int(whole[place:begin].split()[2])
        found.append(Edit(path.split("/")[1], os.path.basename(path)[:-len(".edit")], whole[begin:begin + size].decode(), False))
        place = begin + size + 1
    return found


def last_contents() -> dict[str, str]:
    """The name of the last content of each edit that was ever taken out."""
    told = git("log", "--no-renames", "--diff-filter=D", "--raw", "--no-abbrev", "--format=", "HEAD", "--", "crates/*/must-fail/*.edit")
    found: dict[str, str] = {}
    for line in told.splitlines():
        # The mode and the name of a file's content, each before and after, and how it changed; the newest change comes first.
        words, _, path = line.partition("\t")
        found.setdefault(path, words.split()[2])
    return found


def without_twins(edits: Sequence[Edit]) -> list[Edit]:
    """Edits of one crate, of which no two change the same: the first of them stays."""
    found: dict[tuple[tuple[str, str, str], ...], Edit] = {}
    for edit in edits:
        found.setdefault(tuple(edit.pairs()), edit)
    return list(found.values())


# ---- trying them

def copied(folder: str, crate: str, lower: Lower) -> str:
    """A copy of a crate and of those below it, with what was proved of these. The folder of the crate in it."""
    needed = below(lower, crate) | {crate}
    shutil.copy(os.path.join(TOP, "HANDLES"), folder)
    with open(os.path.join(folder, "crates.txt"), "w", encoding="utf-8") as file:
        file.writelines(f"{line}\n" for name, line in lines().items() if name in needed)
    for name in needed:
        shutil.copytree(folder_of(name), folder_of(name, folder), ignore=shutil.ignore_patterns("out", "must-fail"))
        built = os.path.join(out_of(name), "rlib")
        if name != crate and os.path.isdir(built):
            shutil.copytree(built, os.path.join(out_of(name, folder), "rlib"), copy_function=os.link)
    if os.path.isdir(out_of(crate)):
        shutil.copytree(out_of(crate), out_of(crate, folder))
    return folder_of(crate, folder)


def tried(crate: str, edits: Sequence[Edit], lower: Lower) -> list[tuple[Edit, str]]:
    """What came of each of these edits of a crate."""
    os.makedirs(COPIES, exist_ok=True)
    with tempfile.TemporaryDirectory(prefix="edits-", dir=COPIES) as folder:
        there = os.path.join(copied(folder, crate, lower), "must-fail")
        os.mkdir(there)
        for edit in edits:
            with open(os.path.join(there, f"{edit.name}.edit"), "w", encoding="utf-8") as file:
                file.write(edit.text)
        ran = subprocess.run(["rt", "must-fail", crate], cwd=folder, stdin=subprocess.DEVNULL, stdout=subprocess.PIPE,
                             stderr=subprocess.STDOUT, text=True)
    found = [(edit, outcome_of(edit, ran.stdout)) for edit in edits]
    if any(outcome == UNKNOWN for _, outcome in found):
        print("".join(f"  {line}\n" for line in ran.stdout.splitlines()[-10:]), end="", flush=True)
    return found


def outcome_of(edit: Edit, told: str) -> str:
    """What `rt` says of an edit, at the head of its line: refused, not refused, or that it is a bad one. A former one may well be."""
    begin = f"rt: must-fail {edit.crate}/{edit.name}.edit: "
    said = next((line[len(begin):] for line in told.splitlines() if line.startswith(begin)), UNKNOWN)
    if said.startswith("BAD EDIT") and not edit.is_of_today:
        return STALE
    return REFUSED if said.startswith(REFUSED) else said.partition(":")[0]


def look(crate: str, edits: Sequence[Edit], lower: Lower, is_listed: bool) -> Counter[str]:
    """Tries the edits of a crate, or lists them, with a line for each."""
    fitting = [edit for edit in edits if edit.is_of_today or edit.applies()]
    found = [(edit, GONE) for edit in edits if edit not in fitting]
    found += [(edit, APPLIES) for edit in fitting] if is_listed else tried(crate, fitting, lower) if fitting else []
    for edit, outcome in found:
        print(edit.told(outcome), flush=True)
    return Counter(outcome for _, outcome in found)


def main() -> None:
    heed_help(__doc__)
    lower, words = crates(), [word for word in sys.argv[1:] if word != "--list"]
    if not set(words) <= set(lower):
        sys.exit(f"edits: crates.txt has no {', '.join(sorted(set(words) - set(lower)))}")
    is_listed, known, counts = "--list" in sys.argv, former(), Counter[str]()
    for crate in words or lower:
        edits = without_twins([*of_today(crate), *(edit for edit in known if edit.crate == crate)])
        counts += look(crate, edits, lower, is_listed)
    lost = [edit for edit in known if edit.crate not in lower] if not words else []
    for edit in lost:
        print(edit.told(CRATE_GONE), flush=True)
    counts[CRATE_GONE] = len(lost)
    print(f"edits: {len(words or lower)} crates; " + ", ".join(f"{outcome} {count}" for outcome, count in counts.items() if count))
    sys.exit(0 if set(+counts) <= {REFUSED, APPLIES, GONE, STALE, CRATE_GONE} else 1)


if __name__ == "__main__":
    main()
