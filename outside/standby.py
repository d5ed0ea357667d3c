"""Tries a second journal that follows another one, and what serves from it.

Tries a standby: `bossd feed` and `bossd standby`, and bossd-follow and bossd-feed of packaging/, on the built program. First case by case: feeds
above each number, feeds that are cut at each place or have a line at fault, and what comes of a source that is away, set back, another one
or torn, and of a full disk. Then by chance: a server works under load, a standby follows it, the server is killed, with its machine or alone,
or the standby's machine is, and the standby is opened, compared with what was fed, and served. It is the next server then, and the next
standby begins from nothing. What is on the disks is compared by outside/feeds.py, which reads files and feeds apart from the program.

    tools/standby [KILLS [LANES]]

KILLS is how often something is killed at random, 100 where it is left out; with 0 there are the cases alone. LANES is how many lives there
are at a time, 2 where it is left out. It needs the program built (./bossd; BOSSD names another one), and to mount in a namespace of its own.
BENCH_FOLDER says where the files go, in memory where it is left out; PATIENCE is how many seconds a run may take (60). It tells each mismatch,
and ends with 1 where there was one."""

import concurrent.futures
import contextlib
import json
import os
import random
import re
import shutil
import signal
import socket
import subprocess
import sys
import tempfile
import threading
import time
from collections import Counter
from collections.abc import Callable, Iterable, Iterator, Sequence
from typing import IO, Any

from outside import TOP, feeds, program
from outside.cases import Wrong, heed_help, see
from outside.program import PROGRAM, eventually, need_program

Line = dict[str, Any]

PACKAGING = os.path.join(TOP, "packaging")
FOLLOW, FEED = os.path.join(PACKAGING, "bossd-follow"), os.path.join(PACKAGING, "bossd-feed")
FLOOR = os.path.join(TOP, "examples", "floor.toml")
PATIENCE = int(os.environ.get("PATIENCE", 60))
# In memory where that can be: a kill shows what was handed to the system, and following waits for two syncs an event.
WHERE = os.environ.get("BENCH_FOLDER") or ("/dev/shm" if os.path.isdir("/dev/shm") else None)
KILLS_A_LIFE = 10
CLIENTS = 4
POINTS = 40
DEFAULT = 20_000
CATALOGUE = 'drivers = ["field"]\n' + "".join(
    f'[[point]]\nname = "p{place}"\ndriver = "field"\nkind = "analog"\nmin = 0\nmax = 100000\ndefault = {DEFAULT}\n' for place in range(POINTS))
# The same points in another order: another digest.
OTHER = 'drivers = ["field"]\n' + "".join(
    f'[[point]]\nname = "p{place}"\ndriver = "field"\nkind = "analog"\nmin = 0\nmax = 100000\ndefault = {DEFAULT}\n' for place in reversed(range(POINTS)))
SMALL_DISK = ["unshare", "--mount", *(["--map-root-user"] if os.geteuid() else []), "sh", "-c",
              'mount -t tmpfs -o size=64k tmpfs "$0" && exec "$@"']
ROWS = (b"event 1 0100000000000000000161\n"
        b"event 2 0200000000000003e80000000100000000000000000000afc8080000ea6000\n")


def run(words: Sequence[str], given: bytes = b"", **more: Any) -> tuple[int, bytes, str]:
    """The status of a run, and what it wrote."""
    ran = subprocess.run(words, input=given, stdout=subprocess.PIPE, stderr=subprocess.PIPE, timeout=PATIENCE * 5, **more)
    return ran.returncode, ran.stdout, ran.stderr.decode()


def see_run(words: Sequence[str], given: bytes, status: int, told: bytes, what: str) -> None:
    found = run(words, given)[:2]
    see(found == (status, told), f"{what}: not status {status} and {told[:200]!r}, but {found[0]} and {found[1][:200]!r}")


# ---- journals

class Folder:
    """A folder with catalogues, journals and scripts."""

    def __init__(self, path: str) -> None:
        self.path, self.made = path, 0
        self.catalogue = self.file("plant.toml", CATALOGUE)
        self.other = self.file("other.toml", OTHER)

    def file(self, name: str, text: str, mode: int = 0o644) -> str:
        path = os.path.join(self.path, name)
        with open(path, "w") as file:
            file.write(text)
        os.chmod(path, mode)
        return path

    def name(self, what: str = "journal") -> str:
        self.made += 1
        return os.path.join(self.path, f"{what}{self.made}")

    def script(self, text: str) -> str:
        return self.file(os.path.basename(self.name("script")), "#!/bin/sh\n" + text, 0o755)

    def journal(self, seed: int, requests: Sequence[int | None], catalogue: str | None = None) -> str:
        """A journal of requests made by chance. With `None` among the counts a new log is begun there."""
        path, lines = self.name(), Lines(seed)
        for count in requests:
            self.ask(path, lines, count, catalogue or self.catalogue)
        return path

    def ask(self, path: str, lines: "Lines", count: int | None, catalogue: str) -> None:
        if count is None:
            see_run([PROGRAM, "adopt", catalogue, catalogue, path], b"", 0, run_adopted(feeds.pair_of(path).count), "an adoption")
        else:
            status, _, aside = run([PROGRAM, "script", catalogue, path], lines.some(count))
            see(status == 0, f"a script ended with {status}: {aside}")

    def copy(self, journal: str) -> str:
        path = self.name()
        for part in ("", ".b"):
            if os.path.exists(journal + part):
                shutil.copy(journal + part, path + part)
        return path


def run_adopted(events: int) -> bytes:
    return f"adopted events {events} points {POINTS} removed 0 added 0\n".encode()


class Lines:
    """Requests made by chance, for a script."""

    def __init__(self, seed: int) -> None:
        self.chance, self.at = random.Random(seed), 0

    def some(self, count: int) -> bytes:
        lines: list[Line] = [{"op": "attach", "process": f"q{self.chance.randint(1, 9)}"}]
        for _ in range(count):
            self.at += self.chance.choice([0, 1, 40, 900])
            lines.append({"at": self.at, "op": "submit", "writes": writes(self.chance)} if self.chance.random() < 0.8 else {"at": self.at, "op": "tick"})
        return "".join(json.dumps({"at": self.at, **line}) + "\n" for line in lines).encode()


def writes(chance: random.Random, shortest: int = 100) -> list[Line]:
    """Writes of a submit: mostly few, and now and then as many as there may be."""
    count = chance.choice([1, 1, 2, 3, 32])
    return [{"point": f"p{point}", "value": chance.randint(0, 100_000), "priority": chance.choice([3, 8, 12, 16]),
             "lease": chance.choice([shortest, 2_000, 60_000, 3_600_000]),
             "revert": [[chance.randint(0, 100_000), chance.choice([100, 5_000])] for _ in range(chance.choice([0, 1, 8]))]}
            for point in chance.sample(range(POINTS), count)]


def joined(lines: Iterable[bytes]) -> bytes:
    return b"".join(line + b"\n" for line in lines)


def summary(catalogue: str, journal: str) -> bytes:
    status, told, _ = run([PROGRAM, "check", catalogue, journal])
    see(status == 0, f"check ended with {status}: {told!r}")
    return b"events 0 now 0 leases 0 pending 0\n" if told == b"journal new\n" else told


def see_same(one: feeds.Pair, other: feeds.Pair, what: str) -> None:
    """Two pairs stand for one thing: the same events, as far as both have them, and the same state where both have it."""
    see(one.count == other.count, f"{what}: {one.count} events, and {other.count}")
    first = max(one.before, other.before)
    see(one.events[first - one.before:] == other.events[first - other.before:], f"{what}: other events behind {first}")
    see(one.before != other.before or one.state == other.state, f"{what}: another state at {one.before}")


# ---- case by case: the two jobs

def try_rows(folder: Folder) -> str:
    """What the small floor's journal is fed as, and followed as."""
    journal, second = folder.name(), folder.name()
    with open(os.path.join(TOP, "examples", "first.jsonl"), "rb") as file:
        see(run([PROGRAM, "script", FLOOR, journal], file.read())[0] == 0, "the first script")
    see_run([PROGRAM, "feed", FLOOR, journal, "0"], b"", 0, ROWS, "feed from 0")
    for turn in ("first", "again"):
        see_run([PROGRAM, "standby", FLOOR, second], ROWS, 0, b"standby events 2 now 1000 leases 1 pending 0\n", turn)
    empty = folder.name()
    see_run([PROGRAM, "standby", FLOOR, empty], ROWS.split(b"\n")[1] + b"\n", 18, b"standby gap 0 2\n", "a gap")
    see_run([PROGRAM, "standby", FLOOR, empty], b"event 1 00\n", 18, b"standby bad-line 1\n", "an event that is none")
    see_run([PROGRAM, "standby", FLOOR, empty], b"", 0, b"standby events 0 now 0 leases 0 pending 0\n", "nothing")
    # Nobody holds transaction 9, so its cancel is not effective.
    see_run([PROGRAM, "standby", FLOOR, second], b"event 3 0400000000000007d000000000000000000009\n", 18, b"standby bad-line 1\n", "a cancel of nothing")
    return "each line and status as it has to be"


def try_words(folder: Folder) -> str:
    journal = folder.journal(1, [5])
    for start in ("-1", "x", "", str(1 << 62), "1" * 20, "+1", "0x1"):
        see_run([PROGRAM, "feed", folder.catalogue, journal, start], b"", 2, b"usage\n", f"feed from {start!r}")
    for words in (["feed", folder.catalogue, journal], ["standby", folder.catalogue], ["standby", folder.catalogue, journal, "0"]):
        see_run([PROGRAM, *words], b"", 2, b"usage\n", " ".join(words))
    full = joined(feeds.pair_of(journal).feed(2))
    see_run([PROGRAM, "feed", folder.catalogue, journal, "0000000000000000002"], b"", 0, full, "nineteen digits")
    see_run([PROGRAM, "feed", folder.catalogue, "-", "0"], b"", 0, b"", "a feed of -")
    see_run([PROGRAM, "standby", folder.catalogue, "-"], joined(feeds.pair_of(journal).feed(0)), 0, b"standby " + summary(folder.catalogue, journal), "-")
    status, told, _ = run([PROGRAM, "feed", folder.other, journal, "0"])
    see(status == 4 and re.fullmatch(rb"journal catalogue [0-9a-f]{64} [0-9a-f]{64}\n", told), f"under another catalogue: {status}, {told!r}")
    see_run([PROGRAM, "standby", folder.other, journal], ROWS, 4, told, "a standby under another catalogue")
    return "faulty numbers, a journal of another catalogue, and -"


def try_feeds(folder: Folder) -> str:
    """The feed above each number is what the files hold."""
    shapes: dict[str, list[int | None]] = {"a log": [40], "a state and a log": [30, None, 25], "a state alone": [20, None], "two states": [20, None, 10, None, 12]}
    count = 0
    for seed, (what, requests) in enumerate(shapes.items(), 1):
        journal = folder.journal(seed, requests)
        pair = feeds.pair_of(journal)
        for start in [*range(pair.count + 3), (1 << 62) - 1]:
            see_run([PROGRAM, "feed", folder.catalogue, journal, str(start)], b"", 0, joined(pair.feed(start)), f"{what}, from {start}")
            count += 1
    nothing = folder.name()
    see_run([PROGRAM, "feed", folder.catalogue, nothing, "0"], b"", 0, b"", "no journal")
    see(not os.path.exists(nothing), "a feed made a journal")
    return f"{count} feeds, each of the bytes that the files hold"


def follow_text(folder: Folder, text: bytes, journal: str | None = None) -> int:
    """A standby reads this input, and ends as it has to, with what it has to have."""
    path = folder.copy(journal) if journal else folder.name()
    before = feeds.pair_of(path)
    end = feeds.end_of(before.count, text)
    status, output, _ = run([PROGRAM, "standby", folder.catalogue, path], text)
    told = output.decode().rstrip("\n")
    after = feeds.pair_of(path)
    here = f"{len(text)} bytes onto {before.count} events: {text[-60:]!r}"
    line = f"standby {summary(folder.catalogue, path).decode().rstrip()}" if end.status == 0 else end.line
    see((status, told) == (end.status, line), f"{here}: not {end.status}, {line}, but {status}, {told}")
    see(after.count == end.count, f"{here}: not {end.count} events, but {after.count}")
    see(after.before == before.before or after.before >= before.count, f"{here}: the state at {after.before}, which was known, is taken")
    for number, data in feeds.told_by(text).events.items():
        if max(before.count, after.before) < number <= after.count:
            see(after.event(number) == data, f"{here}: event {number} is another one")
    if after.before > before.count:
        see(after.state == feeds.told_by(text).states.get(after.before), f"{here}: another state at {after.before}")
    return end.status


def try_cuts(folder: Folder) -> str:
    """A feed that breaks off, at each place near a line's end and at many others."""
    source = folder.journal(7, [25, None, 20])
    text = joined(feeds.pair_of(source).feed(0))
    ends = [place for place, byte in enumerate(text) if byte == 10]
    chance = random.Random(7)
    places = {0, len(text), *(place + more for place in ends for more in (0, 1, 2)), *(chance.randrange(len(text)) for _ in range(60))}
    found = Counter(follow_text(folder, text[:place]) for place in sorted(places) if place <= len(text))
    # Onto a standby that has more than the state, and no state of its own: it is passed over.
    half, after = folder.journal(7, [25]), [line for line in feeds.pair_of(source).feed(0) if line.startswith(b"event")]
    see(run([PROGRAM, "standby", folder.catalogue, half], joined(after[:8]))[0] == 0, "events above a state")
    found += Counter(follow_text(folder, text[:place], half) for place in sorted(chance.sample(sorted(places), 40)) if place <= len(text))
    return f"{sum(found.values())} feeds, of which {found[18]} broke off inside a line or a state, each taken as far as it is whole"


def try_faults(folder: Folder) -> str:
    """Lines that are none of a feed's, or stand where they may not."""
    source = folder.journal(8, [10, None, 6])
    pair = feeds.pair_of(source)
    lines = pair.feed(0)
    state, part, events = lines[0], lines[1], [line for line in lines if line.startswith(b"event")]
    log = folder.journal(9, [4])
    own = feeds.pair_of(log).feed(0)
    more = pair.count + 1
    made = [
        [own[0].upper()], [own[0].replace(b" ", b"  ")], [own[0] + b" "], [b" " + own[0]], [own[0] + b"\r"], [own[0].replace(b"1 ", b"01 ", 1)],
        [own[0][:-1]], [own[0] + b"00"], [b"event 1 "], [b"event 1"], [b"event -1 00"], [b"event +1 00"], [b"event 1 0G"], [b"Event 1 00"], [b"x"], [b"\xff"],
        [b"event 18446744073709551616 00"], [b"event 18446744073709551615 00"], [b"event 4611686018427387905 00"], [b"event 0 0"], [b"event 0 00", *own],
        [b"", b" \t\r", *own, b""], [*own, *own], [own[0], *own[2:]], [*own[:2], *own], [b"part 00"], [own[0], b"part 00"],
        [state], [state, b"", part], [state, own[0]], [state, state], [state, part[:-2]], [state, part + b"00"], [state, b"part "], [state, part, part],
        [b"state %d 0" % more], [b"state 0 0", *own], [b"state 0 5", b"part 0000000000", *own], [b"state 0 5", b"part 00000000", b"part 00", *own],
        [b"state 0 5", *own], [b"state 4611686018427387905 5"], [b"state %d 134217729" % more], [b"state %d 134217728" % more], [b"state 1 5 5"],
        [b"state %d 16385" % more, b"part " + b"00" * 16385], [b"state 0 16385", b"part " + b"00" * 16384, b"part 00", *own],
        [b"state 0 16385", b"part " + b"00" * 16383, b"part 0000", *own],
        [b"x" * 65_535], [b"x" * 65_536], [b" " * 65_535, *own], [b" " * 65_536, *own], [own[0], b"e" * 70_000, *own],
        [*lines, *events], [*lines, *lines], [*lines[2:], *lines],
    ]
    found = Counter[int]()
    for some in made:
        for text in {joined(some), joined(some)[:-1]}:
            found[follow_text(folder, text)] += 1
            found[follow_text(folder, text, log)] += 1
    # A state that is none, and one that is not sound, whose next transaction is one that it has.
    see(pair.before > len(own), "the state is not behind the log")
    state = pair.state
    for what, broken in (("cut", state[:-1]), ("too long", state + b"\0"), ("not sound", state[:8] + bytes(8) + state[16:])):
        text = joined([b"state %d %d" % (pair.before, len(broken)),
                       *(b"part " + broken[place:place + 16384].hex().encode() for place in range(0, len(broken), 16384))])
        see_run([PROGRAM, "standby", folder.catalogue, folder.copy(log)], text, 18, b"standby bad-line %d\n" % text.count(10), f"a state that is {what}")
        found[18] += 1
    return "inputs by their status: " + ", ".join(f"{status}: {count}" for status, count in sorted(found.items()))


def try_full_disk(folder: Folder) -> str:
    """A standby on a disk of 64 KB."""
    source = folder.journal(10, [1200])
    pair = feeds.pair_of(source)
    small = os.path.join(folder.path, "small")
    os.mkdir(small)
    feed = folder.file("full.feed", joined(pair.feed(0)).decode())
    copied = folder.path + "/kept"
    os.mkdir(copied)
    looked = folder.script(f'cp "{small}"/* "{copied}"; exit "$1"\n')
    words = [*SMALL_DISK, small, "sh", "-c", f'"$0" standby "{folder.catalogue}" "{small}/j" <"{feed}"; exec {looked} $?', PROGRAM]
    status, told, aside = run(words)
    see(status == 5 and told == b"", f"on a full disk: {status}, {told!r}, {aside}")
    see("No space left on device" in aside, f"on a full disk it says {aside}")
    kept = feeds.pair_of(os.path.join(copied, "j"))
    see(0 < kept.count < pair.count and kept.events == pair.events[:kept.count], "on a full disk it has not the first events")
    return f"status 5, and the first {kept.count} of {pair.count} events are there"


# ---- case by case: bossd-follow and bossd-feed

class Follower:
    """bossd-follow over a journal of its own, behind COMMAND. Each input of `bossd standby` is kept in a file, in order."""

    def __init__(self, folder: Folder, command: Sequence[str], every: str = "1", catalogue: str | None = None, journal: str | None = None, **settings: str) -> None:
        self.folder, self.journal = folder, journal or folder.name("standby")
        self.status_file, self.inputs = self.journal + ".prom", self.journal + ".inputs"
        os.makedirs(self.inputs, exist_ok=True)
        program = folder.script(f'[ "$1" = standby ] || exec "{PROGRAM}" "$@"\n'
                                f'input="{self.inputs}/$(date +%s%N)"\ncat >"$input.new" && mv "$input.new" "$input" && exec "{PROGRAM}" "$@" <"$input"\n')
        self.environment = {**os.environ, "BOSSD": program, "STATUS": self.status_file, "TRIES": "3", **settings}
        self.words = [FOLLOW, catalogue or folder.catalogue, self.journal, every, *command]
        self._process: subprocess.Popen[str] | None = None

    @property
    def process(self) -> subprocess.Popen[str]:
        """What runs, or ran last."""
        if self._process is None:
            raise AssertionError("bossd-follow was not started")
        return self._process

    def once(self, every: str = "once") -> tuple[int, str]:
        """The status of one round, and what it said."""
        words = [*self.words[:3], every, *self.words[4:]]
        status, told, aside = run(words, env=self.environment)
        see(told == b"", f"it writes {told!r}")
        return status, aside

    def start(self) -> None:
        self._process = subprocess.Popen(self.words, env=self.environment, stdin=subprocess.DEVNULL, stdout=subprocess.DEVNULL,
                                        stderr=subprocess.PIPE, start_new_session=True, text=True)

    def stop(self, how: int = signal.SIGTERM) -> tuple[int, str]:
        """Its status, and what it said. Whatever it has started ends too."""
        with contextlib.suppress(ProcessLookupError):
            os.killpg(self.process.pid, how)
        said = self.process.communicate(timeout=PATIENCE)[1]
        return self.process.returncode, said

    def until(self, test: Callable[[dict[str, int]], object], what: str) -> None:
        """Waits until what its status file tells is so; Wrong where it ends before, or takes too long."""
        def is_over() -> object:
            return self.process.poll() is not None or test(self.told())
        see(eventually(is_over, PATIENCE * 5), f"{what}: after {PATIENCE * 5} s {self.told()}")
        see(self.process.poll() is None, f"{what}: it ended with {self.process.poll()}")

    def end(self) -> tuple[int, str]:
        """Waits until it ends by itself. Its status, and what it said."""
        said = self.process.communicate(timeout=PATIENCE)[1]
        return self.process.returncode, said

    def told(self) -> dict[str, int]:
        """What the status file tells, by the names of its numbers without `bossd_standby_`; nothing where there is none yet."""
        with contextlib.suppress(FileNotFoundError), open(self.status_file) as file:
            return {name[len("bossd_standby_"):]: int(value) for name, value in (line.split() for line in file if not line.startswith("#"))}
        return {}

    def events(self) -> int:
        return feeds.pair_of(self.journal).count

    def given(self) -> Iterator[bytes]:
        """All that `bossd standby` was given so far, input by input."""
        for name in sorted(name for name in os.listdir(self.inputs) if not name.endswith(".new")):
            with open(os.path.join(self.inputs, name), "rb") as file:
                yield file.read()


def feeder(folder: Folder, journal: str, catalogue: str | None = None, more: str = "") -> list[str]:
    """COMMAND for a source that is this journal."""
    return [folder.script(f'{more}BOSSD="{PROGRAM}" TMPDIR="{folder.path}" PAUSE=0 exec "{FEED}" "{catalogue or folder.catalogue}" "{journal}" "$@"\n')]


def see_once(follower: Follower, status: int, said: str, what: str) -> None:
    found = follower.once()
    see(found[0] == status and said in found[1], f"{what}: not {status} and {said!r}, but {found}")


def try_rounds(folder: Folder) -> str:
    """Rounds one after another, as a source grows, begins new logs, and is away."""
    source, lines = folder.name(), Lines(11)
    away = os.path.join(folder.path, "away")
    follower = Follower(folder, feeder(folder, source, more=f'[ ! -e "{away}" ] || exit 7\n'))
    see_once(follower, 1, "the source gave no whole feed", "a source that has no journal yet")
    for turn in range(8):
        see(run([PROGRAM, "script", folder.catalogue, source], lines.some(12))[0] == 0, "a script")
        if turn in (2, 5, 6):
            run([PROGRAM, "adopt", folder.catalogue, folder.catalogue, source])
        if turn == 3:
            open(away, "w").close()
            see_once(follower, 1, "ended with 7", "a source that is away")
            see(follower.told()["broken_rounds"] == 1 and follower.told()["given_up"] == 0, f"a source that is away: {follower.told()}")
            os.remove(away)
        see_once(follower, 0, "follows", f"round {turn}")
        see_same(feeds.pair_of(source), feeds.pair_of(follower.journal), f"round {turn}")
        see(summary(folder.catalogue, source) == summary(folder.catalogue, follower.journal), f"round {turn}: another state")
        told = follower.told()
        see(told["events"] == feeds.pair_of(source).count and told["behind_events"] == 0 and told["broken_rounds"] == 0
            and 0 <= told["behind_seconds"] <= PATIENCE, f"round {turn}: its file tells {told}")
    return f"8 rounds, {follower.events()} events, three new logs, once away"


def try_set_back(folder: Folder) -> str:
    """A source with fewer events, with others, and of another catalogue."""
    source = folder.journal(12, [20])
    older, unlike = folder.journal(12, [11]), folder.journal(13, [40])
    begun = Follower(folder, feeder(folder, source))
    see_once(begun, 0, "follows", "the first round")
    before = feeds.pair_of(begun.journal)
    for what, journal, said in (("set back", older, "the source has fewer events"), ("unlike", unlike, "does not have event")):
        follower = Follower(folder, feeder(folder, journal), every="0", journal=begun.journal)
        follower.start()
        ended, said_all = follower.end()
        see(ended == 18 and said in said_all and "given up" in said_all, f"a source that is {what}: {ended}, {said_all}")
        see(follower.told()["given_up"] == 18, f"a source that is {what}: {follower.told()}")
    follower = Follower(folder, feeder(folder, folder.journal(12, [20], folder.other), folder.other), every="0", journal=begun.journal)
    follower.start()
    ended, said_all = follower.end()
    see(ended == 3 and "another catalogue" in said_all, f"a source of another catalogue: {ended}, {said_all}")
    see(feeds.pair_of(begun.journal) == before, "the standby has changed")
    return "given up with 18, 18 and 3, and nothing was taken"


def try_bad_feeds(folder: Folder) -> str:
    """What comes again and again is given up; what comes once is not."""
    source = folder.journal(14, [15, None, 10])
    pair = feeds.pair_of(source)
    text = joined(pair.feed(0))
    whole = folder.file("whole.feed", text.decode())
    ends = {
        "a gap": (joined(pair.feed(0)[3:]), 18, "events are missing"),
        "a bad line": (b"event 1 00\n", 18, "a line does not follow"),
        "a feed that ends inside a state": (joined(pair.feed(0)[:1]), 18, "inside a state"),
        "a line that is too long": (b"x" * 70_000 + b"\n", 13, "too long"),
    }
    for what, (broken, status, said) in ends.items():
        file = folder.file("broken.feed", broken.decode())
        follower = Follower(folder, [folder.script(f'cat "{file}"\n')], every="0", COMPARE="no")
        follower.start()
        ended, said_all = follower.end()
        see(ended == status and said in said_all, f"{what}: {ended}, {said_all}")
        see(len(list(follower.given())) == 3, f"{what}: it was asked for {len(list(follower.given()))} times")
        # The same once, and then the whole feed.
        mark = os.path.join(folder.path, "mark")
        follower = Follower(folder, [folder.script(f'if [ -e "{mark}" ]; then cat "{whole}"; else : >"{mark}"; cat "{file}"; fi\n')], every="0", COMPARE="no")
        follower.start()
        follower.until(lambda told: told.get("broken_rounds") == 0, f"{what}, once")
        follower.stop()
        see_same(feeds.pair_of(follower.journal), pair, what)
        os.remove(mark)
    # Each feed breaks off, two lines later than the one before: that is never given up.
    count = os.path.join(folder.path, "count")
    follower = Follower(folder, [folder.script(f'n=$(($(cat "{count}" 2>/dev/null || echo 0) + 2)); echo $n >"{count}"\n'
                                               f'head -n $n "{whole}"; [ $n -ge {len(pair.feed(0))} ] || printf event\n')], every="0", COMPARE="no", TRIES="2")
    follower.start()
    follower.until(lambda told: told.get("events") == pair.count and told["broken_rounds"] == 0, "cut feeds")
    follower.stop()
    see_same(feeds.pair_of(follower.journal), pair, "cut feeds")
    return "each asked for three times and given up; each once, and then followed; and feeds that break off, each a little later"


def try_slow(folder: Folder) -> str:
    """A source that hangs, and one that is cut while it feeds."""
    source = folder.journal(15, [30])
    follower = Follower(folder, [folder.script("sleep 60\n")], PATIENCE="1")
    see_once(follower, 1, "no whole feed within 1 seconds", "a source that hangs")
    pair = feeds.pair_of(source)
    half = joined(pair.feed(0))[:-9]
    file = folder.file("half.feed", half.decode())
    follower = Follower(folder, [folder.script(f'cat "{file}"; kill -9 $$\n')])
    see_once(follower, 1, "ended with 137", "a source that is killed as it feeds")
    see(follower.events() == pair.count - 1, "what was whole was not taken")
    return "asked again, and what was whole is taken"


def try_torn(folder: Folder) -> str:
    """Copies that are taken in the middle of a change: bossd-feed takes them again."""
    source = folder.journal(16, [25, None, 10])
    pair = feeds.pair_of(source)
    count = os.path.join(folder.path, "copies")
    # The first copies are cut, each before the program looks at it.
    program = folder.script(f'''if [ "$1" = check ]; then
    for file in "$3" "$3.b"; do
        echo >>"{count}"
        [ "$(wc -l <"{count}")" -gt "$TEAR" ] || truncate -s "$LEFT" "$file"
    done
fi
exec "{PROGRAM}" "$@"
''')
    found = []
    for tear, left, status in ((0, 0, 0), (2, 60, 0), (4, 50, 0), (2, 200, 0), (3, 0, 0), (100, 60, 4)):
        with contextlib.suppress(FileNotFoundError):
            os.remove(count)
        environment = {**os.environ, "BOSSD": program, "TMPDIR": folder.path, "PAUSE": "0", "TEAR": str(tear), "LEFT": str(left)}
        ended, told, aside = run([FEED, folder.catalogue, source, str(pair.count - 4)], env=environment)
        see(ended == status and told == (joined(pair.feed(pair.count - 4)) if status == 0 else b""), f"torn {tear} times to {left} bytes: {ended}, {told!r}, {aside}")
        found.append(f"{tear} torn copies: {ended}")
    copies = [name for name in os.listdir(folder.path) if name.startswith("bossd-feed.")]
    see(not copies, f"copies are left: {copies}")
    return "; ".join(found)


def try_follower_on_full_disk(folder: Folder) -> str:
    """bossd-follow on a full disk ends with 5, and goes on when there is room."""
    source = folder.journal(17, [1200])
    small = os.path.join(folder.path, "little")
    os.mkdir(small)
    follower = Follower(folder, feeder(folder, source), every="once", journal=folder.name("standby"))
    follower.words[2] = os.path.join(small, "j")
    # Behind a first round the disk is made larger.
    shell = folder.script(f'"$@"; echo "status $?"; mount -o remount,size=64m "{small}"; "$@"; echo "status $?"; cp "{small}"/* "{folder.path}/"\n')
    status, told, aside = run([*SMALL_DISK, small, shell, *follower.words], env=follower.environment)
    see(status == 0 and told == b"status 5\nstatus 0\n", f"on a full disk: {status}, {told!r}, {aside}")
    see("make room" in aside, f"on a full disk it says {aside}")
    see_same(feeds.pair_of(os.path.join(folder.path, "j")), feeds.pair_of(source), "with room again")
    return "status 5, and whole once there was room"


CASES = {
    "the rows": try_rows, "words": try_words, "feeds": try_feeds, "cut feeds": try_cuts, "lines at fault": try_faults, "a full disk": try_full_disk,
    "rounds": try_rounds, "a source that is another": try_set_back, "feeds that are none": try_bad_feeds, "a source that hangs": try_slow,
    "torn copies": try_torn, "bossd-follow on a full disk": try_follower_on_full_disk,
}


def try_cases() -> int:
    wrong = 0
    for name, case in CASES.items():
        with tempfile.TemporaryDirectory(dir=WHERE) as path:
            try:
                print(f"standby: {name}: {case(Folder(path))}", flush=True)
            except (Wrong, AssertionError, subprocess.TimeoutExpired) as what:
                wrong += 1
                print(f"standby: {name}: MISMATCH: {what}", flush=True)
    return wrong


# ---- by chance

# A log with so many bytes has no room for one more record, so that a new one begins.
FULL_LOG = (1 << 24) - 65_536
# Every event of a submit of 32 writes with eight steps each, in its record.
LONGEST_RECORD = 12 + 1 + 32 * (18 + 8 * 12) + 6
KINDS = ("the machine", "the program", "the standby")


class Client(threading.Thread):
    """Has a server make submits until it is gone. `last` is the greatest number of a transaction that was acknowledged."""

    def __init__(self, port: int, place: int, seed: float) -> None:
        super().__init__(daemon=True)
        self.port, self.place, self.chance, self.last = port, place, random.Random(seed), 0
        self.start()

    def run(self) -> None:
        with contextlib.suppress(OSError), socket.create_connection(("127.0.0.1", self.port), PATIENCE) as connection, connection.makefile("rb") as told:
            self.ask(connection, told, [{"op": "attach", "process": f"q{self.chance.randrange(self.place, 240, CLIENTS)}"}])
            while self.ask(connection, told, [{"op": "submit", "writes": writes(self.chance)} for _ in range(self.chance.randint(1, 16))]):
                time.sleep(self.chance.random() * 0.05)

    def ask(self, connection: socket.socket, told: IO[bytes], requests: Sequence[Line]) -> bool:
        """Whether all of them were answered."""
        connection.sendall(b"".join(json.dumps(request).encode() + b"\n" for request in requests))
        for _ in requests:
            line = told.readline()
            if not line.endswith(b"\n"):
                return False
            self.last = max(self.last, json.loads(line).get("txn", 0))
        return True


def long_submits(count: int) -> bytes:
    """Requests whose events are as long as they may be."""
    made: list[Line] = [{"op": "attach", "process": "q1"}]
    chance = random.Random(count)
    for _ in range(count):
        made.append({"op": "submit", "writes": [{"point": f"p{point}", "value": chance.randint(0, 100_000), "priority": 8, "lease": 3_600_000,
                                                 "revert": [[chance.randint(0, 100_000), 1_000] for _ in range(8)]} for point in range(32)]})
    return "".join(json.dumps(line) + "\n" for line in made).encode()


class Life:
    """A server, and the standbys that became the next server, one after another."""

    def __init__(self, folder: Folder, number: int) -> None:
        self.folder, self.chance = folder, random.Random(number)
        self.journal, self.counts = folder.name(), Counter[str]()
        if number % 2 == 0:
            # The log is nearly full, so that a new one begins while it is followed.
            lines = long_submits((FULL_LOG - 300_000) // LONGEST_RECORD)
            status, _, aside = run([PROGRAM, "script", folder.catalogue, self.journal], lines)
            see(status == 0, f"a long script ended with {status}: {aside}")
        self.server = self.serve()

    def serve(self) -> program.Server:
        server = program.Server(self.folder.catalogue, self.journal, workers=CLIENTS + 2)
        server.start(stderr=subprocess.DEVNULL)
        return server

    def end(self) -> None:
        self.server.stop()

    def fail_over(self) -> None:
        """The server works and is followed, something is killed, and the standby is looked at, and serves from then on."""
        folder, chance = self.folder, self.chance
        kind = chance.choice(KINDS)
        away, feeding = folder.name("away"), folder.name("feeding")
        follower = Follower(folder, feeder(folder, self.journal, more=f'[ ! -e "{away}" ] || exit 7\necho $$ >"{feeding}"\n'))
        clients = [Client(self.server.port, place, chance.random()) for place in range(CLIENTS)]
        follower.start()
        try:
            follower.until(lambda told: told.get("whole_timestamp_seconds"), "the first round")
            time.sleep(chance.uniform(0, 3))
            if kind == "the machine":
                open(away, "w").close()
                self.server.kill()
                kill_group_of(feeding)
                follower.until(lambda told: told["broken_rounds"], "a source that is away")
            elif kind == "the program":
                self.server.kill()
                killed = time.time()
                follower.until(lambda told: told["whole_timestamp_seconds"] > killed, "a round behind the kill")
            else:
                # Not at the same moment: the server goes on a little.
                follower.stop(signal.SIGKILL)
                kill_group_of(feeding)
                self.server.kill()
        finally:
            status, said = follower.stop(signal.SIGKILL) if follower.process.returncode is None else (follower.process.returncode, "")
            kill_group_of(feeding)
        see(status == -signal.SIGKILL, f"bossd-follow ended with {status}: {said}")
        for client in clients:
            client.join(PATIENCE)
        self.compare(kind, follower, max(client.last for client in clients))
        self.take_over(follower)

    def compare(self, kind: str, follower: Follower, last: int) -> None:
        source, standby = feeds.pair_of(self.journal), feeds.pair_of(follower.journal)
        see(source.next > last, f"the server's journal does not have transaction {last}, which was acknowledged")
        given = list(follower.given())
        least = most = 0
        for text in given:
            least, end = most, feeds.end_of(most, text)
            see(end.status == 0 or end.line.startswith(("standby bad-line", "standby short")), f"a feed ends with {end}")
            most = end.count
            told = feeds.told_by(text)
            for number, event in told.events.items():
                see(number <= source.count, f"event {number} was fed, and the source has {source.count}")
                see(number <= source.before or event == source.event(number), f"event {number} was fed as another one")
                see(number <= standby.before or number > standby.count or event == standby.event(number), f"event {number} is another one in the standby")
            if standby.before in told.states:
                see(standby.state == told.states[standby.before], f"the state at {standby.before} is another one in the standby")
        see(standby.count <= source.count, f"the standby has {standby.count} events, and its source {source.count}")
        if kind == "the standby":
            see(least <= standby.count <= most, f"the standby has {standby.count} events, and its feeds told {least} and then {most}")
        else:
            see(standby.count == most, f"the standby has {standby.count} events, and the last feed told {most}")
        if kind == "the program":
            see(standby.count == source.count, f"the standby has {standby.count} events, and its source, of which all was fed, {source.count}")
        first = max(source.before, standby.before)
        if first <= standby.count:
            see(standby.events[first - standby.before:] == source.events[first - source.before:standby.count - source.before],
                f"behind event {first} the standby has others than its source")
        self.counts.update({kind: 1, "rounds": len(given), "events": standby.count, "states": int(standby.before > 0),
                            "cut": int(bool(given) and feeds.end_of(least, given[-1]).status != 0)})
        if kind == "the machine":
            self.counts["lost"] += max(0, last - (standby.next - 1))
        self.see_opened(follower.journal, standby)

    def see_opened(self, journal: str, standby: feeds.Pair) -> None:
        """The standby opens to what its source opens to, were it stopped behind the same event."""
        told = summary(self.folder.catalogue, journal)
        see(told.split()[1] == str(standby.count).encode(), f"check tells {told!r}, and there are {standby.count} events")
        cut = self.folder.name("cut")
        if not feeds.cut(self.journal, cut, standby.count):
            return
        copy = self.folder.copy(journal)
        asked: list[Line] = [{"op": "array", "point": f"p{point}"} for point in range(POINTS)]
        asked += [{"op": "status", "txn": txn} for txn in range(max(1, standby.next - 20), standby.next + 1)]
        asked += [{"op": "notices", "process": f"q{process}", "from": 1, "max": 64} for process in range(240)]
        lines = "".join(json.dumps(line) + "\n" for line in asked).encode()
        answers = [(summary(self.folder.catalogue, path), run([PROGRAM, "script", self.folder.catalogue, path], lines)[:2]) for path in (copy, cut)]
        see(answers[0] == answers[1], "the standby opens to something else than its source, stopped behind the same event")
        self.counts["opened"] += 1

    def take_over(self, follower: Follower) -> None:
        """The standby serves, and its next transaction has the number that is next. Of the old journal nothing stays."""
        for part in ("", ".b"):
            with contextlib.suppress(FileNotFoundError):
                os.remove(self.journal + part)
        self.journal = follower.journal
        following = feeds.pair_of(self.journal).next
        if self.chance.random() < 0.3:
            status, output, _ = run([PROGRAM, "adopt", self.folder.catalogue, self.folder.catalogue, self.journal])
            see(status == 0, f"an adoption ended with {status}: {output!r}")
        self.server = self.serve()
        with socket.create_connection(("127.0.0.1", self.server.port), PATIENCE) as connection, connection.makefile("rb") as told:
            for request in ({"op": "attach", "process": "after"}, {"op": "submit", "writes": [{"point": "p0", "value": 1, "lease": 1000}]}):
                connection.sendall(json.dumps(request).encode() + b"\n")
                answer = json.loads(told.readline())
        see(answer.get("txn") == following, f"the standby answers {answer}, and transaction {following} is next")


def kill_group_of(file: str) -> None:
    """Kills the processes of a feed under way, which wrote its number into this file. The number may be another program's by now."""
    with contextlib.suppress(OSError, ValueError), open(file) as told:
        number = int(told.read())
        with open(f"/proc/{number}/cmdline") as words:
            if os.path.dirname(file) in words.read():
                os.killpg(os.getpgid(number), signal.SIGKILL)


def live(number: int, kills: int) -> tuple[Counter[str], list[str]]:
    """One life, in which so often something is killed: what was counted, and what was wrong."""
    counts, wrong, path = Counter[str](), list[str](), ""
    life: Life | None = None
    for turn in range(1, kills + 1):
        try:
            if life is None:
                path = tempfile.mkdtemp(dir=WHERE)
                life = Life(Folder(path), number)
            life.fail_over()
        except (Wrong, AssertionError, OSError, subprocess.TimeoutExpired) as what:
            wrong.append(f"life {number}, kill {turn}: {type(what).__name__}: {what}")
        if life is not None and (wrong or turn == kills):
            counts += life.counts
            life.end()
            shutil.rmtree(path, ignore_errors=True)
            # Behind a mismatch another life begins.
            life = None
    return counts, wrong


def kill_often(kills: int, width: int) -> int:
    began = time.monotonic()
    lives = [min(KILLS_A_LIFE, kills - done) for done in range(0, kills, KILLS_A_LIFE)]
    with concurrent.futures.ProcessPoolExecutor(width) as lanes:
        found = list(lanes.map(live, range(1, len(lives) + 1), lives))
    counts, wrong = sum((counts for counts, _ in found), Counter[str]()), [what for _, some in found for what in some]
    for what in wrong:
        print(f"standby: MISMATCH: {what}", flush=True)
    print(f"standby: {kills} kills, of " + ", ".join(f"{kind} {counts[kind]}" for kind in KINDS) + f"; {counts['rounds']} rounds, "
          f"{counts['cut']} of the last ones cut, {counts['events']} events followed, {counts['states']} standbys began with a state, {counts['opened']} opened as "
          f"their source does; {counts['lost']} transactions that were acknowledged since the last feed lost with the machine; "
          f"{len(wrong)} mismatches ({time.monotonic() - began:.0f} s)", flush=True)
    return len(wrong)


def main() -> None:
    heed_help(__doc__)
    need_program()
    kills, width = (int(word) for word in (sys.argv[1:] + ["100", "2"][len(sys.argv) - 1:])[:2])
    wrong = try_cases() + (kill_often(kills, width) if kills else 0)
    sys.exit(f"standby: {wrong} mismatches" if wrong else None)


if __name__ == "__main__":
    main()
