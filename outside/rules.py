"""Tries the program with access rules, over journals.

Tries the program with access rules, over journals: a batch of sixteen lines with attaches, allowed and denied submits, each reply in its
place; names that no rule is for; batches made by chance under rules made by chance, beside the model of outside/model.py; what is denied beside a plan, at its
device; a server that is stopped and opened under other rules; and files that are refused, each with its line and status 16.

    tools/rules [RUNS]

RUNS is how many rules files made by chance are tried (40, of twelve batches each); run K is the same each time. It needs the program
built (./bossd, or its path in BOSSD)."""

import json
import os
import random
import socket
import subprocess
import sys
import tempfile
import time
from collections.abc import Callable, Iterable, Sequence
from typing import Any, Self

from outside import CLIENT, modbus, program
from outside.cases import Wrong, all_hold, heed_help, see
from outside.model import Machine, Point, Rule

Line = dict[str, Any]

DRIVERS = ["east", "west"]
POINTS = [
    Point("damper", "west", "analog", -10, 100, 5),
    Point("lamp", "east", "binary", 0, 1, 0),
    Point("fan", "west", "multi", 1, 3, 1),
]
CATALOGUE = f"drivers = {json.dumps(DRIVERS)}\n" + "".join(point.table() for point in POINTS)
BATCH, BATCHES = 16, 12
HOUR = 3_600_000
PATIENCE = 20
# What depends on the clock, or on how far a device has come just then.
OF_THE_MOMENT = ("until", "at", "moment", "mark", "took", "since", "session")
REFUSED, FAILED = 16, 5


# ---- files and connections

class Server(program.Server):
    """A server whose lines on the standard error are nobody's, and which may have further words."""

    last: Sequence[str] = ()

    def launch(self, **more: Any) -> None:
        super().launch(stderr=subprocess.DEVNULL, **more)

    def words(self) -> list[str]:
        return [*super().words(), *self.last]


class Place:
    """A folder of its own, with a catalogue of three points."""

    def __init__(self, folder: str) -> None:
        self.folder = tempfile.mkdtemp(dir=folder)
        self.catalogue = self.write("catalogue.toml", CATALOGUE)
        self.journal = os.path.join(self.folder, "journal")

    def write(self, name: str, text: str | bytes) -> str:
        path = os.path.join(self.folder, name)
        with open(path, "wb") as file:
            file.write(text if isinstance(text, bytes) else text.encode())
        return path

    def server(self, rules: Sequence[Rule] | None, **more: Any) -> Server:
        """A server over the place's journal under these rules; None has no word for them."""
        return Server(self.catalogue, self.journal, rules="-" if rules is None else self.write("rules.toml", text_of(rules)), **more)

    def check(self) -> dict[str, int]:
        """What a check says of the journal, by its words."""
        text, status = program.check(self.catalogue, self.journal)
        words = text.split()
        see(status == 0, f"a check ends with {status}: {text}")
        return dict(zip(words[0::2], map(int, words[1::2])))


def text_of(rules: Sequence[Rule]) -> str:
    return "".join(rule.table() for rule in rules) or "rule = []\n"


class Connection:
    """A connection that says lines, and is told as many."""

    def __init__(self, server: Server) -> None:
        self.socket = socket.create_connection(("127.0.0.1", server.port), PATIENCE)
        self.lines = self.socket.makefile("rb")

    def __enter__(self) -> Self:
        return self

    def __exit__(self, *_: object) -> None:
        self.lines.close()
        self.socket.close()

    def ask_all(self, requests: Sequence[Line | str]) -> list[Line]:
        """What these requests are answered, which are sent at once. A text is sent as it is."""
        texts = [request if isinstance(request, str) else json.dumps(request) for request in requests]
        self.socket.sendall("".join(text + "\n" for text in texts).encode())
        return [json.loads(self.lines.readline()) for _ in texts]


def lasting(answer: Line) -> Line:
    """An answer without what depends on the moment."""
    return {key: value for key, value in answer.items() if key not in OF_THE_MOMENT}


def attach(process: str) -> Line:
    return {"op": "attach", "process": process}


def write(point: str, value: int = 1, priority: int = 16) -> Line:
    return {"point": point, "value": value, "priority": priority, "lease": HOUR}


def submit(*writes: Line, **more: Any) -> Line:
    return {"op": "submit", "writes": list(writes), **more}


def denied(index: int, rule: int) -> Line:
    return {"error": "denied", "index": index, "rule": rule}


# ---- sixteen lines at once

SIXTEEN_RULES = [Rule("a", "damper", highest=8), Rule("a", "lamp"), Rule("night-*", "fan", highest=13), Rule("*", "*", allow=False)]
# Lines, and what each is answered, in their order.
SIXTEEN = [
    (submit(write("damper", 1, 8)), {"error": "not-attached"}),
    (attach("a"), {"ok": "attached", "process": "a", "next": 1}),
    (submit(write("damper", 50, 7)), denied(0, 1)),
    (submit(write("damper", 50, 8)), {"ok": "accepted", "txn": 1}),
    (submit(write("lamp", 1), write("fan", 2)), denied(1, 4)),
    (submit(write("fan", 2), write("damper", 50, 7)), denied(0, 4)),
    (attach("night-purge"), {"error": "already", "process": "a"}),
    (submit(write("fan", 2, 13)), denied(0, 4)),
    (submit(write("lamp", 1, 1), write("damper", 60, 16), seq=5), {"ok": "accepted", "txn": 2}),
    (submit(write("lamp", 0, 1), write("fan", 1), seq=6), denied(1, 4)),
    (submit(write("lamp", 0, 1), seq=6), {"ok": "accepted", "txn": 3}),
    (submit(write("lamp", 1, 6)), {"error": "bad-priority", "index": 0}),
    (submit(write("lamp", 1, 0)), denied(0, 2)),
    (submit(write("door", 1), write("fan", 1)), {"error": "unknown-point", "index": 0}),
    ({"op": "renew", "txn": 1, "length": 2 * HOUR}, {"ok": "renewed", "txn": 1}),
    (submit(write("fan", 3)), denied(0, 4)),
]


def try_sixteen(folder: str) -> str:
    """Each reply in its place, to a process that may write and to one that may not; what is denied is no event of the journal."""
    place = Place(folder)
    with place.server(SIXTEEN_RULES) as server, Connection(server) as a, Connection(server) as night:
        for number, ((line, wanted), told) in enumerate(zip(SIXTEEN, a.ask_all([line for line, _ in SIXTEEN]))):
            see(lasting(told) == wanted, f"line {number} is answered {told} and not {wanted}")
        see_told(night, [(attach("night-purge"), {"ok": "attached", "process": "night-purge", "next": 1}),
                         (submit(write("fan", 2, 12)), denied(0, 3)), (submit(write("fan", 2, 13)), {"ok": "accepted", "txn": 4}),
                         (submit(write("lamp", 1, 16)), denied(0, 4))])
        server.kill()
    kept = place.check()
    # Two processes, four submits and a renewal. Five leases were taken, and one of them was superseded.
    see((kept["events"], kept["leases"]) == (7, 4), f"the journal has {kept}")
    return "each reply in its place; of nine denied submits none is an event"


def see_told(connection: Connection, pairs: Iterable[tuple[Line, Line]]) -> None:
    for (line, wanted), told in zip(pairs, connection.ask_all([line for line, _ in pairs])):
        see(lasting(told) == wanted, f"{line} is answered {told} and not {wanted}")


def try_names(folder: str) -> str:
    """A name that no rule is for is denied before anything else is looked at; it is no event, and the connection goes on. A rule that
    allows nothing admits its names."""
    place = Place(folder)
    rules = [Rule("a", "lamp"), Rule("night-*", "*", allow=False)]
    attached = {"ok": "attached", "process": "a", "next": 1}
    with place.server(rules) as server, Connection(server) as one, Connection(server) as two:
        see_told(one, [(attach("b"), denied(0, 0)), (attach("night"), denied(0, 0)), (submit(write("lamp")), {"error": "not-attached"}),
                       (attach("a"), attached), (attach("b"), denied(0, 0)), (attach("a"), {"error": "already", "process": "a"}),
                       (submit(write("lamp")), {"ok": "accepted", "txn": 1}), (submit(write("fan", 2)), denied(0, 0))])
        see_told(two, [(attach("nigh"), denied(0, 0)), (attach("night-"), {"ok": "attached", "process": "night-", "next": 1}),
                       (submit(write("fan", 2)), denied(0, 2))])
        with Connection(server) as third:
            denial, told = third.ask_all([attach("b"), attach("a")])
            see(denial == denied(0, 0), f"a name that no rule is for, beside one that is held: {denial}")
            see(told.get("error") == "taken", f"a name that is held: {told}")
        server.kill()
    kept = place.check()
    see((kept["events"], kept["leases"]) == (3, 1), f"the journal has {kept}")
    return "names that no rule is for are denied before all else, and are no events"


# ---- by chance, beside the model

class Maker:
    """Rules and lines made by chance. Rubbish has a known answer."""

    RUBBISH: list[tuple[str, Line]] = [("no line", {"error": "malformed"}), ('{"op":"read"}', {"error": "malformed", "key": "point"}), ('{"op":"tick"}', {"error": "unknown-op"}),
               (json.dumps(submit(write("lamp", 1), write("door", 1))), {"error": "unknown-point", "index": 1})]

    def __init__(self, seed: int) -> None:
        self.random = random.Random(seed)
        self.number = 0

    def rules(self) -> list[Rule]:
        one = self.random.choice
        processes, points = ["a", "ab", "a*", "ab*", "b", "*"], ["damper", "lamp", "fan", "*", "d*", "la*", "lamps", "lampoon*"]
        return [Rule(one(processes), one(points), self.random.choice([1, 1, 5, 8, 12, 16]), self.random.random() < 0.7)
                for _ in range(self.random.randint(0, 8))]

    def line(self, next_txn: int) -> Line:
        txn, point = self.random.randint(max(1, next_txn - 4), next_txn), self.random.choice([point.name for point in POINTS])
        made: dict[str, Callable[[], Line]] = {
            "attach": lambda: attach(self.random.choice(["a", "ab", "b", "c"])),
            "submit": lambda: submit(*map(self.write, self.random.sample(POINTS, self.random.choice([1, 1, 2, 3]))), **self.numbered()),
            "renew": lambda: {"op": "renew", "txn": txn, "length": HOUR, **self.numbered()},
            "cancel": lambda: {"op": "cancel", "txn": txn, **self.numbered()},
            "read": lambda: {"op": "read", "point": point},
            "status": lambda: {"op": "status", "txn": txn},
        }
        return made[self.random.choices(list(made), [2, 16, 2, 2, 2, 1])[0]]()

    def write(self, point: Point) -> Line:
        value = self.random.randint(point.least, point.most) if self.random.random() < 0.97 else 999
        made = write(point.name, value, self.random.choice([0, 1, 4, 5, 6, 7, 8, 8, 11, 12, 16, 16, 17]))
        if self.random.random() < 0.3:
            made["revert"] = [[point.least, HOUR]]
        return made

    def numbered(self) -> dict[str, int]:
        if self.random.random() < 0.5:
            return {}
        number = max(1, self.number + self.random.choice([1, 1, 1, 0, -1]))
        self.number = max(self.number, number)
        return {"seq": number}


def try_by_chance(folder: str, runs: int) -> str:
    """Batches over three connections, one batch at a time."""
    asked = refused = 0
    for seed in range(runs):
        place, maker = Place(folder), Maker(seed)
        rules = maker.rules()
        machine = Machine(DRIVERS, POINTS, rules)
        with place.server(rules) as server, Connection(server) as one, Connection(server) as two, Connection(server) as three:
            connections = [one, two, three]
            for _ in range(BATCHES):
                session = maker.random.randint(1, 3)
                lines, wanted = batch(maker, machine, session)
                told = [lasting(answer) for answer in connections[session - 1].ask_all(lines)]
                for line, answer, reply in zip(lines, told, wanted):
                    see(answer == reply, f"run {seed}, connection {session}: {line} is answered {answer} and not {reply}, under\n{text_of(rules)}")
                asked, refused = asked + len(told), refused + sum(answer.get("error") == "denied" for answer in told)
            server.kill()
        kept = place.check()
        see((kept["leases"], kept["pending"]) == (len(machine.leases), len(machine.reversions)), f"run {seed}: the journal has {kept}")
    return f"{runs} rules files, {asked} lines, {refused} of them denied, all as the model has it"


def batch(maker: Maker, machine: Machine, session: int) -> tuple[list[Line | str], list[Line]]:
    """Sixteen lines of a session, and what the model answers them."""
    lines, wanted = list[Line | str](), list[Line]()
    line: Line | str
    while len(lines) < BATCH:
        if maker.random.random() < 0.05:
            line, answer = maker.random.choice(maker.RUBBISH)
        else:
            asked = maker.line(machine.next)
            line, answer = asked, answered(machine, session, asked)
        lines.append(line)
        wanted.append(lasting(answer))
    return lines, wanted


def answered(machine: Machine, session: int, line: Line) -> Line:
    """What the model answers, in which no time passes."""
    before = len(machine.lines)
    machine.answer(session, line, 0)
    return next(json.loads(text) for text in machine.lines[before:] if text.startswith("{"))


# ---- beside a plan

def try_beside_a_plan(folder: str) -> str:
    """With both files: what is denied does not come to the device, and what is allowed does."""
    place, host = Place(folder), modbus.Host()
    plan = (f'[[driver]]\nname = "east"\nhost = "{host.address}"\n\n[[place]]\npoint = "lamp"\nunit = 1\ncoil = 19\n')
    rules = [Rule("a", "lamp", highest=8)]
    try:
        with place.server(rules, plan=place.write("plan.toml", plan)) as server, Connection(server) as a:
            see(program.eventually(lambda: len(host.frames) == 1), "the device is not written at the start")
            see_told(a, [(attach("a"), {"ok": "attached", "process": "a", "next": 1}), (submit(write("lamp", 1, 7)), denied(0, 1)),
                         (submit(write("lamp", 1), write("fan", 2)), denied(1, 0))])
            time.sleep(0.5)
            see(len(host.frames) == 1, "a denied write came to its device")
            see_told(a, [(submit(write("lamp", 1, 8)), {"ok": "accepted", "txn": 1})])
            see(program.eventually(lambda: len(host.frames) == 2), "an allowed write does not come to its device")
            see(host.frames[-1][1][7:] == modbus.COIL_19[7:], f"the device was sent {host.frames[-1][1].hex()}")
        return "what is allowed comes to its device, and what is denied does not"
    finally:
        host.stop()


# ---- other rules

def try_other_rules(folder: str) -> str:
    """A journal under rules, then under others: leases stand, renewals and cancels are not judged, submits are, also those that are sent
    again under the number of one that was accepted."""
    place = Place(folder)
    first = submit(write("lamp", 1, 8), seq=1)
    accepted = {"ok": "accepted", "txn": 1}
    attached = (attach("a"), {"ok": "attached", "process": "a", "next": 1})
    read = ({"op": "read", "point": "lamp"}, {"ok": "read", "point": "lamp", "value": 1, "from": "lease", "priority": 8, "txn": 1})
    stands = ({"op": "status", "txn": 1}, {"ok": "status", "txn": 1, "owner": "a", "stage": "run", "live": 1, "pending": 0})
    # The rules of each life, and what is said under them.
    lives: list[tuple[list[Rule] | None, list[tuple[Line, Line]]]] = [
        ([Rule("a", "lamp", highest=8)], [attached, (first, accepted), (submit(write("lamp", 1, 7), seq=2), denied(0, 1))]),
        ([], [read, (first, {"error": "not-attached"}), (attach("a"), denied(0, 0)), (first, {"error": "not-attached"}), stands]),
        ([Rule("a", "fan")], [attached, (first, denied(0, 0)), (submit(write("lamp", 0, 8)), denied(0, 0)),
                              ({"op": "renew", "txn": 1, "length": 2 * HOUR}, {"ok": "renewed", "txn": 1}), read]),
        ([Rule("*", "*", allow=False)], [attached, (first, denied(0, 1)), stands]),
        (None, [attached, (first, accepted), (submit(write("lamp", 0, 7), seq=2), {"ok": "accepted", "txn": 2})]),
        ([Rule("a", "fan")], [attached, ({"op": "cancel", "txn": 2}, {"ok": "cancelled", "txn": 2}), read,
                              (submit(write("fan", 2)), {"ok": "accepted", "txn": 3})]),
    ]
    for number, (rules, pairs) in enumerate(lives):
        with place.server(rules) as server, Connection(server) as connection:
            try:
                see_told(connection, pairs)
            except Wrong as wrong:
                raise Wrong(f"life {number}: {wrong}") from None
            # A connection that ends would end the leases; a server that is killed does not.
            server.kill()
    kept = place.check()
    see(kept["leases"] == 2, f"the journal has {kept}")
    return f"{len(lives)} lives over one journal: leases stand, and what is asked is judged by the rules of its life"


def try_no_rules(folder: str) -> str:
    """Without the word, and with `-`, nothing is denied; with `-` a plan may follow."""
    for count in range(3):
        place = Place(folder)
        server = Server(place.catalogue, place.journal)
        server.last = ["-"] * count
        with server, Connection(server) as connection:
            see_told(connection, [(attach("a"), {"ok": "attached", "process": "a", "next": 1}),
                                  (submit(write("lamp", 1, 1)), {"ok": "accepted", "txn": 1})])
    return "nothing is denied without the word, nor with '-'"


# ---- files that are refused, and files that are not

ONE = '[[rule]]\nprocess = "a"\npoint = "lamp"\n'
LONGEST = "n" * 63


def refused_files() -> list[tuple[str | bytes, str]]:
    """Rules files, and the line of each."""
    return [
        (ONE + "#" * 1_048_576, f"too-long {len(ONE) + 1_048_576}"),
        ("#" * 1_048_577, "too-long 1048577"),
        ("rule = [\n", "not-toml"),
        (ONE.encode() + b"# \xff\n", "not-toml"),
        (ONE + 'process = "b"\n', "not-toml"),
        ("large = 9223372036854775808\n" + ONE, "not-toml"),
        ("", "missing"),
        ("rule = 3\n", "missing"),
        ('[rule]\nprocess = "a"\npoint = "lamp"\n', "missing"),
        (ONE.replace("rule", "rules"), "missing"),
        (ONE * 257, "too-many 257"),
        (ONE * 256 + ONE + "highest = 17\n", "too-many 257"),
        (ONE * 255 + ONE + "highest = 17\n", "bad-rule 256"),
        ("rule = [3]\n", "bad-rule 1"),
        (ONE + ONE + "highest = 17\n", "bad-rule 2"),
        (ONE + ONE + "highest = 17\n" + ONE + "allow = 0\n", "bad-rule 2"),
        (ONE + '[[rule]]\npoint = "lamp"\n', "bad-rule 2"),
        ('[[rule]]\nprocess = "a"\n' + ONE, "bad-rule 1"),
        *((ONE + more, "bad-rule 1") for more in ('note = "for people"\n', "highest = 0\n", "highest = -1\n", "highest = 8.0\n", "highest = true\n", 'highest = "8"\n',
                                                  'allow = "no"\n', "allow = 1\n")),
        *((ONE.replace('"lamp"', f'"{text}"'), "bad-rule 1")
          for text in ("", "Lamp", "la mp", "la*p", "**", "*.lamp", LONGEST + "nn", LONGEST + "n*")),
        (ONE.replace('"a"', "1"), "bad-rule 1"),
        (ONE.replace('"a"', '["a"]'), "bad-rule 1"),
    ]


def accepted_files() -> list[str]:
    return ["rule = []\n", ONE * 256, 'title = "rules"\n' + ONE + "[other]\nx = 1\n",
            *(ONE.replace('"a"', f'"{text}"') for text in ("*", "a*", LONGEST + "*", LONGEST + "n", "no.such-process_1")),
            ONE + "highest = 1\nallow = true\n", ONE + "highest = 16\nallow = false\n", "#" * (1_048_576 - len(ONE) - 1) + "\n" + ONE]


def serve(place: Place, rules: str, *more: str, catalogue: str | None = None, journal: str | None = None) -> tuple[str, int, str]:
    """The output, the status and what was said aside of a server that has to end at once."""
    words = [program.PROGRAM, "serve", catalogue or place.catalogue, journal or place.journal, "127.0.0.1:0", "1", "1", rules, *more]
    ran = subprocess.run(words, capture_output=True, text=True, timeout=PATIENCE)
    return ran.stdout, ran.returncode, ran.stderr


def lints(place: Place, rules: str) -> int:
    """The status of bossctl lint for these rules."""
    words = [sys.executable, "-m", "bossd.ctl", "lint", place.catalogue, rules]
    return subprocess.run(words, capture_output=True, env={**os.environ, "PYTHONPATH": CLIENT}).returncode


def try_refused_files(folder: str) -> str:
    """Each gives its line and status 16, listens nowhere and makes no journal; bossctl lint finds a mistake in each."""
    place = Place(folder)
    files = refused_files()
    for text, line in files:
        rules = place.write("rules.toml", text)
        output, status, aside = serve(place, rules)
        see((output, status) == (f"rules {line}\n", REFUSED), f"in place of 'rules {line}' {output!r} and status {status}")
        see("listening" not in aside and not os.path.exists(place.journal), f"{line}: it went on: {aside}")
        see(aside.startswith("bossd: ") and rules in aside, f"{line}: on the standard error stands {aside!r}")
        see(lints(place, rules) == 1, f"bossctl lint finds nothing wrong in the rules of '{line}': {text[:200]!r}")
    return f"{len(files)} files, each with its line and status 16"


def try_accepted_files(folder: str) -> str:
    """Each is served under; bossctl lint finds no mistake in it."""
    files = accepted_files()
    for text in files:
        place = Place(folder)
        rules = place.write("rules.toml", text)
        with Server(place.catalogue, place.journal, rules=rules):
            pass
        see(lints(place, rules) == 0, f"bossctl lint finds a mistake in {text[:200]!r}")
    return f"{len(files)} files, each served under"


def try_order(folder: str) -> str:
    """Of several faults the first decides: catalogue, rules, plan, journal. A file that is not there ends it with 5 and names itself."""
    place = Place(folder)
    bad, good, plan = place.write("bad.toml", "rule = 3\n"), place.write("good.toml", ONE), place.write("plan.toml", "driver = 0\n")
    catalogue, journal = place.write("c.toml", "drivers = 3\n"), place.write("foreign", "SQLite format 3\0" + "\0" * 100)
    nowhere = os.path.join(place.folder, "nowhere")
    for what, ran, output, status, named in [
        ("a catalogue before rules", serve(place, bad, catalogue=catalogue), "catalogue missing drivers\n", 3, catalogue),
        ("a catalogue before rules that are not there", serve(place, nowhere, catalogue=catalogue), "catalogue missing drivers\n", 3, catalogue),
        ("rules before a plan", serve(place, bad, plan), "rules missing\n", REFUSED, bad),
        ("rules before a plan that is not there", serve(place, bad, nowhere), "rules missing\n", REFUSED, bad),
        ("rules before a journal", serve(place, bad, journal=journal), "rules missing\n", REFUSED, bad),
        ("a plan after rules", serve(place, good, plan), "plan missing driver\n", 17, plan),
        ("a journal after rules", serve(place, good, journal=journal), "journal not-a-journal\n", 4, journal),
        ("rules that are not there", serve(place, nowhere), "", FAILED, nowhere),
        ("rules that are not there, before a plan", serve(place, nowhere, plan), "", FAILED, nowhere),
        ("rules that are a folder", serve(place, place.folder), "", FAILED, place.folder),
        ("an empty word", serve(place, ""), "usage\n", 2, ""),
        ("a word too many", serve(place, good, "-", "-", "-"), "usage\n", 2, ""),
    ]:
        see(ran[:2] == (output, status), f"{what}: {ran[0]!r} and status {ran[1]}, not {output!r} and {status}")
        see(named in ran[2] and "listening" not in ran[2], f"{what}: on the standard error stands {ran[2]!r}")
        see(status != FAILED or "could not be read" in ran[2], f"{what}: on the standard error stands {ran[2]!r}")
    see(not os.path.exists(place.journal), "a journal was made")
    return "catalogue, rules, plan, journal; a file that is not there is status 5"


# ---- all of it

def takes_rules() -> bool:
    """Whether the program takes the word RULES."""
    with tempfile.TemporaryDirectory() as folder:
        place = Place(folder)
        return serve(place, place.write("rules.toml", "rule = 0\n"))[0] == "rules missing\n"


def main() -> None:
    heed_help(__doc__)
    runs = int(sys.argv[1]) if len(sys.argv) > 1 else 40
    program.need_program()
    if not takes_rules():
        sys.exit("rules: this program takes no access rules")
    is_fine = all_hold([("sixteen lines at once", try_sixteen), ("no rules", try_no_rules), ("names", try_names),
                        ("by chance", lambda folder: try_by_chance(folder, runs)), ("beside a plan", try_beside_a_plan),
                        ("other rules", try_other_rules), ("files that are refused", try_refused_files),
                        ("files that are not", try_accepted_files), ("what comes first", try_order)])
    sys.exit(None if is_fine else "rules: not all is as it has to be")


if __name__ == "__main__":
    main()
