"""Tries the program with keys: who may be whom, and what whoever shows no key is told.

Tries the program with keys: a key in each place where it may stand, and in others; lines made by chance over several connections, beside a
model of the door; each question without a key; a server that is stopped and opened under other keys, over one journal; keys beside rules; and
files that are refused, each with its line and status 19.

    tools/keys [RUNS]

RUNS is how many files of keys made by chance are tried (20, of twelve connections each); run K is the same each time. It needs the program built
(./bossd, or its path in BOSSD)."""

import contextlib
import hashlib
import json
import os
import random
import re
import sys
import tempfile
from collections.abc import Sequence
from typing import NamedTuple

from outside import program
from outside.cases import all_hold, heed_help, see
from outside.model import Rule
from outside.rules import FAILED, HOUR, Connection, Line, Place, Server, attach, denied, lasting, serve, submit, text_of, write

REFUSED = 19
WRONG, MALFORMED = {"error": "wrong-key"}, {"error": "malformed"}
READ: Line = {"op": "read", "point": "lamp"}
NAME = re.compile(r"[a-z0-9._-]{1,64}", re.ASCII)
KEY = re.compile(r"[A-Za-z0-9_-]{32,128}", re.ASCII)


# ---- keys, and the door that they make

class Entry(NamedTuple):
    """A table of a file of keys, by its key and not by that one's digest."""

    process: str
    key: str

    def table(self) -> str:
        return f'[[key]]\nprocess = "{self.process}"\nsha256 = "{digest(self.key)}"\n'

    def is_for(self, name: str) -> bool:
        return name.startswith(self.process[:-1]) if self.process.endswith("*") else name == self.process


def digest(key: str) -> str:
    return hashlib.sha256(key.encode()).hexdigest()


def key_of(seed: str) -> str:
    """A key that each run has, for this name of it. Nobody has it for a building."""
    return f"bk1_{hashlib.sha512(seed.encode()).hexdigest()[:43]}"


class Door:
    """What stands before the machine, by docs/PROTOCOL.md: what a connection's lines are answered before it, one after another."""

    def __init__(self, entries: Sequence[Entry]) -> None:
        self.entries = entries
        self.name: str | None = None
        self.is_over = False

    def judge(self, text: str) -> Line | None:
        """What the line is answered here; None where it is let through."""
        try:
            asked = json.loads(text)
        except ValueError:
            asked = None
        if not isinstance(asked, dict):
            return MALFORMED
        if self.name is None:
            self.name = self.shown(asked)
        if self.name is None or self.is_of_another(asked):
            self.is_over = True
            return WRONG
        return None

    def shown(self, asked: Line) -> str | None:
        """Whose right key the line has."""
        name, key = asked.get("as", asked.get("process")), asked.get("key")
        if not isinstance(name, str) or not NAME.fullmatch(name) or not isinstance(key, str) or not KEY.fullmatch(key):
            return None
        return name if any(one.is_for(name) and one.key == key for one in self.entries) else None

    def is_of_another(self, asked: Line) -> bool:
        process = asked.get("process")
        return asked.get("op") == "attach" and isinstance(process, str) and NAME.fullmatch(process) is not None and process != self.name


def keyed(place: Place, entries: Sequence[Entry], rules: Sequence[Rule] | None = None) -> Server:
    """A server over the place's journal, with these keys."""
    ruled = "-" if rules is None else place.write("rules.toml", text_of(rules))
    keys = place.write("keys.toml", "".join(one.table() for one in entries) or "key = []\n")
    return Server(place.catalogue, place.journal, rules=ruled, keys=keys)


def plain(answer: Line) -> Line:
    """An answer without what depends on the moment, and `malformed` without the key at fault."""
    return MALFORMED if answer.get("error") == "malformed" else lasting(answer)


def asked_in_turn(server: Server, lines: Sequence[str]) -> list[Line]:
    """What a connection is answered to these lines, each sent after the answer to the one before; what comes behind its end is none."""
    answers: list[Line] = []
    with Connection(server) as connection, contextlib.suppress(OSError):
        for text in lines:
            connection.socket.sendall(text.encode() + b"\n")
            line = connection.lines.readline()
            if not line:
                break
            answers.append(plain(json.loads(line)))
    return answers


def asked_when_free(server: Server, lines: Sequence[str]) -> list[Line]:
    """The same, once the connection before has left its process."""
    found: list[list[Line]] = []

    def ask() -> bool:
        found.append(asked_in_turn(server, lines))
        return {"error": "taken"} not in found[-1]

    see(program.eventually(ask, program.PATIENCE), f"{lines}: its process is not free")
    return found[-1]


# ---- where a key may stand

A, B, ANY = Entry("a", key_of("a")), Entry("b-*", key_of("b")), Entry("*", key_of("any"))


def try_places(folder: str) -> str:
    """A key in each place where it may stand, and in others: the first line that is an object has it, and that alone."""
    good = {**attach("a"), "key": A.key}
    ok: Line = {"ok": "attached", "process": "a", "next": 1}
    read: Line = {"ok": "read", "point": "lamp", "value": 0, "from": "default"}
    place = Place(folder)
    cases: list[tuple[str, list[str | Line], list[Line]]] = [
        ("in an attach", [good, READ], [ok, read]),
        ("behind blank lines", ["", " \t\r", good], [ok]),
        ("behind lines that are no objects", ["{", "[]", "7", '"x"', "null", "", good], [MALFORMED] * 5 + [ok]),
        ("with the name in as", [{**attach("a"), "as": "a", "key": A.key}], [ok]),
        ("in a question", [{**READ, "as": "a", "key": A.key}, READ], [read, read]),
        ("in a question, and then attached", [{**READ, "as": "a", "key": A.key}, attach("a")], [read, ok]),
        ("in a line that asks nothing known", [{"op": "dance", "as": "a", "key": A.key}, READ], [{"error": "unknown-op"}, read]),
        ("in a line without op", [{"as": "a", "key": A.key}, READ], [MALFORMED, read]),
        ("of the administrator, as another", [{**attach("c"), "key": ANY.key}], [{"ok": "attached", "process": "c", "next": 1}]),
        ("of names that begin so", [{**attach("b-1"), "key": B.key}], [{"ok": "attached", "process": "b-1", "next": 1}]),
        ("the last of two", [json.dumps(good)[:-1] + ',"key":"x"}'], [WRONG]),
        ("the last of two, which is right", ['{"key":"x",' + json.dumps(good)[1:]], [ok]),
        ("the last of two names", ['{"op":"attach","process":"b-1","process":"a","key":"' + A.key + '"}'], [ok]),
        ("in none", [attach("a"), good], [WRONG]),
        ("in the second line", [READ, good], [WRONG]),
        ("in an array before", [json.dumps([good]), attach("a")], [MALFORMED, WRONG]),
        ("in another field", [{**attach("a"), "Key": A.key}], [WRONG]),
        ("in a field of a field", [{**attach("a"), "key": {"key": A.key}}], [WRONG]),
        ("in a list", [{**attach("a"), "key": [A.key]}], [WRONG]),
        ("of a name that is not said", [{**READ, "key": A.key}], [WRONG]),
        ("of a name in another field", [{**READ, "name": "a", "key": A.key}], [WRONG]),
        ("as nobody", [{**attach("a"), "as": None, "key": A.key}], [WRONG]),
        ("as no name", [{**attach("a"), "as": "A", "key": A.key}], [WRONG]),
        ("as an empty name", [{**attach("a"), "as": "", "key": ANY.key}], [WRONG]),
        ("as no text", [{**attach("a"), "as": 7, "key": ANY.key}], [WRONG]),
        ("of a name that begins so, for the beginning", [{**attach("b"), "key": B.key}], [WRONG]),
        ("of another", [{**attach("a"), "key": B.key}], [WRONG]),
        ("of another, as that one, in an attach of the first", [{**attach("a"), "as": "b-1", "key": B.key}], [WRONG]),
        ("of one, and later an attach of another", [good, attach("b-1"), READ], [ok, WRONG]),
        ("of one, and later of another with its key", [good, {**attach("b-1"), "key": B.key}], [ok, WRONG]),
        ("of the administrator, and later another name", [{**READ, "as": "c", "key": ANY.key}, attach("d")], [read, WRONG]),
        ("of one, and later the same", [good, attach("a"), READ], [ok, {"error": "already", "process": "a"}, read]),
        ("of one, and later a wrong one, which nobody reads", [good, {**READ, "key": "x", "as": "b-1"}], [ok, read]),
    ]
    with keyed(place, [A, B, ANY]) as server:
        for what, lines, answers in cases:
            texts = [line if isinstance(line, str) else json.dumps(line) for line in lines]
            found = asked_when_free(server, joined(texts))
            see(found == answers, f"{what}: {found} and not {answers}")
    return f"{len(cases)} places, each as it has to be"


def joined(texts: Sequence[str]) -> list[str]:
    """The lines, each blank one with the one that follows it, since it has no answer to wait for."""
    lines, before = [], ""
    for text in texts:
        before += text
        if text.strip():
            lines.append(before)
            before = ""
        else:
            before += "\n"
    return lines


def try_questions(folder: str) -> str:
    """Each question without a key, with that of another, and with a right one: the first two are told nothing, whether the point, the transaction or
    the process is there or not, or attached."""
    questions: list[Line] = [
        READ, {"op": "read", "point": "nothing"}, {"op": "array", "point": "lamp"}, {"op": "status", "txn": 1}, {"op": "status", "txn": 99},
        {"op": "notices", "process": "a"}, {"op": "notices", "process": "nobody"}, {"op": "points"}, {"op": "version"},
        {"op": "watch", "process": "a"}, {"op": "watch", "process": "nobody"}, attach("a"), attach("nobody"), {"op": "tick"}, {"op": "gone"},
        {"op": "dance"}, {}, submit(write("lamp")), {"op": "cancel", "txn": 1, "seq": 1}, {"op": "renew", "txn": 1, "length": 5},
    ]
    place = Place(folder)
    with keyed(place, [A, B]) as server, Connection(server) as holder:
        first = holder.ask_all([{**attach("a"), "key": A.key}, submit(write("lamp"))])
        see("ok" in first[1], f"the lamp was not taken: {first}")
        before = place.check()
        for question in questions:
            shows: list[Line] = [{}, {"key": key_of("nobody's")}, {"as": "a", "key": B.key}, {"as": "nobody", "key": A.key}]
            for shown in shows:
                found = asked_in_turn(server, [json.dumps({**question, **shown}), json.dumps(READ)])
                see(found == [WRONG], f"{question} with {list(shown)}: {found}")
        see(place.check() == before, "something was changed")
        see("ok" in holder.ask_all([READ])[0], "the one that is attached has lost its connection")
    return f"{len(questions)} questions, four times each: wrong-key, and nothing else; the journal is as it was"


# ---- by chance

class Chance:
    """Keys and lines made by chance."""

    NAMES = ("a", "b", "b-1", "b-2", "c")

    def __init__(self, seed: int) -> None:
        self.chance = random.Random(seed)

    def entries(self) -> list[Entry]:
        patterns = self.chance.choices(("a", "b", "b-*", "b-1", "c", "*"), k=self.chance.randint(0, 5))
        return [Entry(pattern, key_of(f"{pattern}{self.chance.randint(0, 1)}")) for pattern in patterns]

    def lines(self, entries: Sequence[Entry]) -> list[str]:
        return [self.line(entries) for _ in range(self.chance.randint(1, 6))]

    def line(self, entries: Sequence[Entry]) -> str:
        kind = self.chance.random()
        if kind < 0.15:
            return self.chance.choice(["{", "[]", "7", "null", '"key"', '{"op":}', json.dumps([attach("a")])])
        asked: Line = self.chance.choice([READ, {"op": "status", "txn": 1}, attach(self.chance.choice(self.NAMES)), attach(self.chance.choice(self.NAMES))])
        if kind < 0.55 and entries:
            # A right one, of a name that it is for.
            entry = self.chance.choice(entries)
            name = self.chance.choice([one for one in self.NAMES if entry.is_for(one)])
            return json.dumps({**asked, "as": name, "key": entry.key} if asked.get("process", name) == name else {**attach(name), "key": entry.key})
        if kind < 0.85:
            keys = [one.key for one in entries] + [key_of("nobody's"), "x" * 40, "", None, 7]
            asked = {**asked, "key": self.chance.choice(keys)}
        if self.chance.random() < 0.5:
            asked = {**asked, "as": self.chance.choice([*self.NAMES, "No", None])}
        return json.dumps(asked)


def try_by_chance(folder: str, runs: int) -> str:
    asked = admitted = 0
    for seed in range(runs):
        chance = Chance(seed)
        entries = chance.entries()
        with keyed(Place(folder), entries) as server:
            for _ in range(12):
                lines, door = chance.lines(entries), Door(entries)
                found = asked_in_turn(server, lines)
                for place, text in enumerate(lines):
                    wanted = door.judge(text)
                    see(place < len(found), f"run {seed}: {lines[:place + 1]} has {found}")
                    is_through = found[place] not in (WRONG, MALFORMED)
                    see(found[place] == wanted if wanted is not None else is_through, f"run {seed}: {lines[:place + 1]} has {found}, and not {wanted}")
                    asked, admitted = asked + 1, admitted + (wanted is None)
                    if door.is_over:
                        see(len(found) == place + 1, f"run {seed}: {lines} goes on: {found}")
                        break
    return f"{runs} files of keys, {asked} lines, {admitted} of them let through, all as the model has it"


# ---- other keys, and rules

def try_other_keys(folder: str) -> str:
    """A journal under keys, then under others, and under none: leases stand; the old key is right no longer, the new one is."""
    place, new = Place(folder), Entry("a", key_of("a, anew"))
    lives: list[tuple[list[Entry], list[tuple[str, Line]]]] = [
        ([A], [(A.key, {"ok": "attached"}), (new.key, WRONG)]),
        ([A, new], [(A.key, {"ok": "attached"}), (new.key, {"ok": "attached"})]),
        ([new], [(A.key, WRONG), (new.key, {"ok": "attached"})]),
        ([], [(A.key, WRONG), (new.key, WRONG)]),
    ]
    with keyed(place, [A]) as server:
        holder = Connection(server)
        see("ok" in holder.ask_all([{**attach("a"), "key": A.key}, submit(write("lamp"))])[1], "the lamp was not taken")
        server.kill()
        holder.__exit__()
    for number, (entries, pairs) in enumerate(lives):
        with keyed(place, entries) as server:
            see(place.check()["leases"] == 1, f"life {number}: the lease is gone")
            for key, wanted in pairs:
                # A question and no attach, whose end would end the lease.
                answer, = asked_in_turn(server, [json.dumps({**READ, "as": "a", "key": key})])
                see((answer == WRONG) == (wanted == WRONG), f"life {number}: {answer} and not {wanted}")
    with Server(place.catalogue, place.journal) as server:
        answer, = asked_in_turn(server, [json.dumps(READ)])
        see(answer.get("value") == 1, f"without keys: {answer}")
    return f"{len(lives)} lives over one journal, and one without keys: the lease stands, and each asks by the keys of its life"


def try_beside_rules(folder: str) -> str:
    """Rules judge the name whose key was shown, and no other one can be said."""
    place = Place(folder)
    with keyed(place, [A, B], [Rule("a", "lamp"), Rule("b-1", "fan")]) as server:
        with Connection(server) as a, Connection(server) as b:
            see("ok" in a.ask_all([{**attach("a"), "key": A.key}, submit(write("lamp"))])[1], "a may not write the lamp")
            answers = b.ask_all([{**attach("b-1"), "key": B.key}, submit(write("lamp"))])
            see(answers[1] == denied(0, 0), f"b-1: {answers}")
        see(asked_in_turn(server, [json.dumps({**attach("a"), "key": B.key})]) == [WRONG], "b-1's key is right for a")
        # A name that no rule is for: with its key it is denied and goes on; without a right one it is told of the key alone.
        see(asked_in_turn(server, [json.dumps({**attach("b-2"), "key": B.key}), json.dumps(READ)])[0] == denied(0, 0), "b-2 attaches")
        see(asked_in_turn(server, [json.dumps({**attach("b-2"), "key": A.key})]) == [WRONG], "a's key is right for b-2")
    return "a writes, b-1 is denied, and can't say that it is a; b-2 may not attach"


# ---- files that are refused, and files that are not

ONE = A.table()
SHA = digest(key_of("another"))
LONGEST = "n" * 63


def refused_files() -> list[tuple[str | bytes, str]]:
    """Files of keys, and the line of each."""
    return [
        (ONE + "#" * 1_048_576, f"too-long {len(ONE) + 1_048_576}"),
        ("key = [\n", "not-toml"), (ONE.encode() + b"# \xff\n", "not-toml"), (ONE + 'process = "b"\n', "not-toml"),
        ("", "missing"), ("key = 3\n", "missing"), (ONE.replace("[[key]]", "[key]"), "missing"), (ONE.replace("key", "keys"), "missing"),
        (ONE * 513, "too-many 513"), (ONE * 511 + ONE + "x = 1\n", "bad-key 512"), (ONE * 512 + ONE + "x = 1\n", "too-many 513"),
        ("key = [3]\n", "bad-key 1"), (ONE + ONE + "note = 'x'\n", "bad-key 2"), (ONE + '[[key]]\nprocess = "a"\n', "bad-key 2"),
        (f'[[key]]\nsha256 = "{SHA}"\n' + ONE, "bad-key 1"),
        *((ONE.replace('"a"', f'"{text}"'), "bad-key 1") for text in ("", "A", "a b", "a*b", "**", "*.a", LONGEST + "nn", LONGEST + "n*")),
        *((f'[[key]]\nprocess = "a"\nsha256 = {text}\n', "bad-key 1")
          for text in ('""', f'"{SHA[1:]}"', f'"{SHA}0"', f'"{SHA.upper()}"', f'"{SHA[:-1]}g"', f'" {SHA[1:]}"', "1", f'["{SHA}"]')),
        (ONE.replace('"a"', "1"), "bad-key 1"),
        *((f"reserve = {text}\n" + ONE, "bad-reserve")
          for text in ("1_025", "4294967296", "-1", '"4"', "4.0", "true", "[4]", "{ workers = 4 }")),
        (ONE + "[reserve]\nworkers = 4\n", "bad-reserve"), ("key = []\nreserve = -1\n", "bad-reserve"),
        # Below a header it is of that table, and each earlier test comes first.
        (ONE + "reserve = 4\n", "bad-key 1"), (ONE + ONE + "reserve = 4\n", "bad-key 2"), ("reserve = -1\n" + ONE + "x = 1\n", "bad-key 1"),
        ("reserve = -1\n", "missing"), ("reserve = -1\n" + ONE * 513, "too-many 513"), ("reserve = 4\nreserve = 4\n" + ONE, "not-toml"),
    ]


def accepted_files() -> list[str]:
    return ["key = []\n", ONE * 512, 'title = "keys"\n' + ONE + "[other]\nx = 1\n", "#" * (1_048_576 - len(ONE) - 1) + "\n" + ONE,
            *(f"reserve = {text}\n" + ONE for text in ("0", "1", "4", "1_024")), "key = []\nreserve = 4 # above the first header\n", ONE + "[other]\nreserve = -1\n",
            *(ONE.replace('"a"', f'"{text}"') for text in ("*", "a*", LONGEST + "*", LONGEST + "n", "no.such-process_1"))]


def try_refused_files(folder: str) -> str:
    """Each refused file with its line and status 19, and nothing is opened; bossctl lint finds a mistake in each."""
    from bossd.ctl import _lint
    place = Place(folder)
    for text, line in refused_files():
        keys = place.write("keys.toml", text)
        output, status, aside = serve(place, "-", "-", keys)
        see((output, status) == (f"keys {line}\n", REFUSED), f"in place of 'keys {line}' {output!r} and status {status}")
        see("listening" not in aside and not os.path.exists(place.journal), f"{line}: it listened, or made a journal: {aside!r}")
        see(any(one.is_mistake for one in _lint.lint(place.catalogue, keys=keys)), f"bossctl lint finds nothing wrong in the keys of '{line}'")
    for text in accepted_files():
        keys = place.write("keys.toml", text)
        with Server(place.catalogue, keys=keys):
            pass
        see(not any(one.is_mistake for one in _lint.lint(place.catalogue, keys=keys)), f"bossctl lint finds a mistake in {text[:200]!r}")
    return f"{len(refused_files())} refused, {len(accepted_files())} taken; bossctl lint agrees"


def try_order(folder: str) -> str:
    """Of several faults the first decides: catalogue, rules, keys, plan, journal. A file that is not there ends it with 5 and names itself."""
    place = Place(folder)
    catalogue, rules, plan = place.write("bad.toml", ""), place.write("rules.toml", "rule = 0\n"), place.write("plan.toml", "driver = 0\n")
    bad, good, nowhere = place.write("keys.toml", "key = 0\n"), place.write("good.toml", ONE), os.path.join(place.folder, "nowhere.toml")
    journal = place.write("text", "no journal at all, but more than seventy-three bytes of text, so that it is one\n" * 3)
    for what, ran, output, status, named in [
        ("a catalogue before keys", serve(place, "-", "-", bad, catalogue=catalogue), "catalogue missing drivers\n", 3, catalogue),
        ("rules before keys", serve(place, rules, "-", bad), "rules missing\n", 16, rules),
        ("keys before a plan", serve(place, "-", plan, bad), "keys missing\n", REFUSED, bad),
        ("keys that are not there before a plan", serve(place, "-", plan, nowhere), "", FAILED, nowhere),
        ("a plan after keys", serve(place, "-", plan, good), "plan missing driver\n", 17, plan),
        ("a plan before a journal", serve(place, "-", plan, good, journal=journal), "plan missing driver\n", 17, plan),
        ("keys before a journal", serve(place, "-", "-", bad, journal=journal), "keys missing\n", REFUSED, bad),
        ("a journal after keys", serve(place, "-", "-", good, journal=journal), "journal not-a-journal\n", 4, journal),
        ("keys that are not there", serve(place, "-", "-", nowhere), "", FAILED, nowhere),
        ("keys that are a folder", serve(place, "-", "-", place.folder), "", FAILED, place.folder),
        ("an empty word", serve(place, "-", "-", ""), "usage\n", 2, ""),
        ("a word too many", serve(place, "-", "-", good, "-"), "usage\n", 2, ""),
    ]:
        see(ran[:2] == (output, status), f"{what}: {ran[0]!r} and status {ran[1]}, not {output!r} and {status}")
        see(named in ran[2] and "listening" not in ran[2], f"{what}: on the standard error stands {ran[2]!r}")
    see(not os.path.exists(place.journal), "a journal was made")
    return "catalogue, rules, keys, plan, journal; a file that is not there is status 5"


# ---- all of it

def takes_keys() -> bool:
    """Whether the program takes the word KEYS."""
    with tempfile.TemporaryDirectory() as folder:
        place = Place(folder)
        return serve(place, "-", "-", place.write("keys.toml", "key = 0\n"))[0] == "keys missing\n"


def main() -> None:
    heed_help(__doc__)
    runs = int(sys.argv[1]) if len(sys.argv) > 1 else 20
    program.need_program()
    if not takes_keys():
        sys.exit("keys: this program takes no file of keys")
    is_fine = all_hold([("where a key may stand", try_places), ("questions without one", try_questions),
                        ("by chance", lambda folder: try_by_chance(folder, runs)), ("other keys", try_other_keys), ("beside rules", try_beside_rules),
                        ("files that are refused", try_refused_files), ("what comes first", try_order)])
    sys.exit(None if is_fine else "keys: not all is as it has to be")


if __name__ == "__main__":
    main()
