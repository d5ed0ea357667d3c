"""Kills the built program over a journal on real files, and compares what it finds again with what was acknowledged.

Stops the built program while it answers requests over a journal on real files, opens the journal again each time, and compares what
it finds with what had been acknowledged: all of that, in order, and of what was under way at most the one request that came next, whole
or not at all. It is stopped in two ways: killed at random moments under load; and, for each call of the system on the journal's
files and their folder in turn, by that call failing, and by a kill at that call. The calls are tried where there is no journal yet, over
one that is opened again, and where the log is full and a new one begins behind a kept state. So are those of an adoption of a journal
under another catalogue, whatever stops which it opens with just one of the two, and those of a shift, whatever stops which all of its
moments are as they were, or all of them are earlier.

    tools/crash [KILLS [LANES]]

KILLS is how often the program is killed at random, 1,000 where it is left out; LANES how many journals are worked on at a time, 2 where
it is left out. A kill shows what the program had handed to the system, and not what the system had brought to the disk: for that there
is the proof over every image that a crash may leave. It needs strace, and the program built (./bossd; BOSSD names another one). Ends with
1 at the first run that finds something else."""

import concurrent.futures
import dataclasses
import fcntl
import json
import os
import pickle
import random
import re
import shutil
import subprocess
import sys
import tempfile
import time
from collections import Counter
from collections.abc import Callable, Iterator, Sequence
from typing import Any, NamedTuple

from outside import compare
from outside.cases import Wrong, heed_help
from outside.compare import Catalogue
from outside.model import KEPT_NOTICES, Machine, Point
from outside.program import PROGRAM, need_program

# A session, what it asks and at which moment.
Asked = tuple[int, dict[str, Any], int]

STOPPED = '{"error":"stopped"}'
FILE_FAULT = 5
REFUSED_JOURNAL = 4
LINES_A_RUN = 500
KILLS_A_LIFE = 50
PIPE_ROOM = 1 << 20
# A run of the program may take so many seconds.
PATIENCE = 60


# ---- requests made by chance

class Made:
    """Requests made by chance, each with its session and moment."""

    def __init__(self, seed: int) -> None:
        self.maker = compare.Maker(seed)
        self.moment = 0
        self.first_number = 0

    def some(self, machine: Machine, count: int) -> list[Asked]:
        """So many requests to a machine that was just opened. Two processes attach first."""
        machine, made = twin(machine), []
        self.first_number = self.maker.number
        for place in range(count):
            self.moment = max(0, self.moment + self.maker.one_of(0, 0, 1, 5, 30, 80, -20))
            if place < 2:
                session, request = place + 1, {"op": "attach", "process": "ab"[place]}
            else:
                session, request = self.maker.one_of(1, 1, 2, 3), self.maker.request(machine.next)
            made.append((session, request, self.moment))
            machine.answer(*made[-1])
        return made

    def resume(self, made: list[Asked]) -> None:
        """Only these of the last requests were sent. What is made next comes behind them, and may have the last number again."""
        if made:
            self.moment = made[-1][2]
        self.maker.number = max([self.first_number, *(request.get("seq", 0) for _, request, _ in made)])


def line_of(session: int, request: dict[str, Any], moment: int) -> str:
    return json.dumps({**request, "on": session, "at": moment})


def text_of(made: list[Asked]) -> bytes:
    return "".join(line_of(*it) + "\n" for it in made).encode()


# ---- machines that a journal may stand for

ONE = compare.Catalogue(compare.DRIVERS, compare.POINTS)
# The same points in another order and with other defaults, of which each value of the one fits, and a further one.
OTHER = compare.Catalogue(
    ["north", *reversed(compare.DRIVERS)],
    [Point("valve", "north", "analog", 0, 100, 10), *(dataclasses.replace(it, default=it.most) for it in reversed(compare.POINTS))])


def new_machine() -> Machine:
    return Machine(*ONE)


def twin(machine: Machine) -> Machine:
    copy: Machine = pickle.loads(pickle.dumps(machine, pickle.HIGHEST_PROTOCOL))
    return copy


def forget_old(machine: Machine) -> None:
    """Lets go of notices that nobody can ask for any more."""
    for told in machine.told:
        for place in range(len(told) - KEPT_NOTICES - 1, -1, -1):
            if told[place] is None:
                break
            told[place] = None


def follow(machine: Machine, made: list[Asked], told: list[str]) -> int | None:
    """Has a machine answer until it wrote as many lines as were told. How many requests it answered, or None where its lines are
    others."""
    count = 0
    while count < len(made) and len(machine.lines) < len(told):
        machine.answer(*made[count])
        count += 1
    return count if machine.lines[:len(told)] == told else None


def summary(machine: Machine) -> str:
    return f"now {machine.now} leases {len(machine.leases)} pending {len(machine.reversions)}"


def questions(machine: Machine) -> list[Asked]:
    """What is asked of a journal that was opened again: all that lasts and can be asked for."""
    asked: list[dict[str, Any]] = [{"op": "array", "point": point.name} for point in machine.points]
    asked += [{"op": "status", "txn": txn} for txn in range(max(1, machine.next - 8), machine.next + 2)]
    for name in ("a", "b"):
        count = len(machine.told[machine.processes.index(name)]) if name in machine.processes else 0
        asked.append({"op": "notices", "process": name, "from": max(1, count - 50), "max": 64})
    return [(1, request, 0) for request in asked]


class Story:
    """A journal, and the machines that it may stand for by what was seen of it: one, but where a request under way changed nothing
    that can be asked for."""

    def __init__(self, scratch: str, name: str, catalogue: Catalogue = ONE) -> None:
        self.catalogue, self.journal = catalogue, os.path.join(scratch, name)
        self.machines = [new_machine()]
        self.events = 0

    def words(self, job: str) -> list[str]:
        return [PROGRAM, job, self.file_of(self.catalogue), self.journal]

    def file_of(self, catalogue: Catalogue) -> str:
        """The name of a file with this catalogue."""
        path = os.path.join(os.path.dirname(self.journal), f"{catalogue.digest()}.toml")
        with open(path, "w") as file:
            file.write(catalogue.text())
        return path

    def adopt(self, new: Catalogue, before: Sequence[str] = ()) -> tuple[int, list[str]]:
        """The status of an adoption, and the whole lines that it wrote."""
        words = [PROGRAM, "adopt", self.file_of(self.catalogue), self.file_of(new), self.journal]
        ran = subprocess.run([*before, *words], stdout=subprocess.PIPE, stderr=subprocess.DEVNULL, timeout=PATIENCE)
        return ran.returncode, whole_lines(ran.stdout)

    def shift(self, by: int, before: Sequence[str] = ()) -> tuple[int, list[str]]:
        """The status of a shift, and the whole lines that it wrote."""
        ran = subprocess.run([*before, *self.words("shift"), str(by)], stdout=subprocess.PIPE, stderr=subprocess.DEVNULL, timeout=PATIENCE)
        return ran.returncode, whole_lines(ran.stdout)

    def run(self, made: list[Asked], before: Sequence[str] = ()) -> tuple[int, list[str]]:
        """The status of a script, and the whole lines that it wrote."""
        ran = subprocess.run([*before, *self.words("script")], input=text_of(made), stdout=subprocess.PIPE, stderr=subprocess.DEVNULL,
                             timeout=PATIENCE)
        return ran.returncode, whole_lines(ran.stdout)

    def stopped_behind(self, made: list[Asked], told: list[str]) -> int:
        """These lines were written, and the program was stopped. How many of the requests were answered."""
        left, counts = [], []
        for machine in self.machines:
            count = follow(machine, made, told)
            if count is not None:
                counts.append(count)
                left.append(machine)
                if count < len(made):
                    left.append(twin(machine))
                    left[-1].answer(*made[count])
        if not left:
            raise Wrong("what was written is not what the requests are answered")
        self.machines = left
        return counts[0]

    def look(self, most: int) -> None:
        """What a check tells of the journal, and what its questions are answered, has to be what one of the machines says. It has at
        most so many events more than before."""
        self.check(most)
        asked = questions(self.machines[0])
        status, told = self.run(asked)
        left: list[Machine] = []
        for machine in self.machines:
            machine.reopen()
            count = follow(machine, asked, told)
            if status == 0 and count == len(asked) and len(told) == len(machine.lines):
                machine.reopen()
                forget_old(machine)
                if not any(vars(it) == vars(machine) for it in left):
                    left.append(machine)
        if not left:
            raise Wrong("the journal has not what was acknowledged, with the next request or without")
        self.machines = left

    def check(self, most: int) -> None:
        ran = subprocess.run(self.words("check"), stdout=subprocess.PIPE, stderr=subprocess.DEVNULL, timeout=PATIENCE)
        text = ran.stdout.decode().rstrip("\n")
        if ran.returncode != 0:
            raise Wrong(f"check ended with {ran.returncode}: {text}")
        if text == "journal new":
            text = "events 0 now 0 leases 0 pending 0"
        _, events, rest = text.split(" ", 2)
        if not self.events <= int(events) <= self.events + most:
            raise Wrong(f"the journal had {self.events} events, and check tells {events}")
        self.events = int(events)
        self.machines = [machine for machine in self.machines if summary(machine) == rest]
        if not self.machines:
            raise Wrong(f"check tells {text}, which is not what was acknowledged, with the next request or without")


def whole_lines(written: bytes) -> list[str]:
    return written.decode().rpartition("\n")[0].splitlines()


# ---- kills at random moments

def killed(words: Sequence[str], lines: bytes, pause: float) -> list[str]:
    """The whole lines that a run wrote before it was killed. Its input does not end."""
    into, out = os.pipe()
    fcntl.fcntl(out, fcntl.F_SETPIPE_SZ, PIPE_ROOM)
    with os.fdopen(into, "rb") as source, os.fdopen(out, "wb", buffering=0) as giver, tempfile.TemporaryFile() as told:
        giver.write(lines)
        process = subprocess.Popen(words, stdin=source, stdout=told, stderr=subprocess.DEVNULL)
        time.sleep(pause)
        process.kill()
        if process.wait() != -9:
            raise Wrong(f"it ended by itself, with {process.returncode}")
        told.seek(0)
        return whole_lines(told.read())


def live(life: int, kills: int) -> tuple[int, int, int]:
    """One journal, and a program over it that is killed so often. How many requests were acknowledged, how many kills came before
    the first answer, and how many when all was answered."""
    chance, made, requests, early, late = random.Random(life), Made(life), 0, 0, 0
    with tempfile.TemporaryDirectory() as scratch:
        story, opening = Story(scratch, "killed"), 0.01
        for turn in range(kills):
            try:
                some = made.some(story.machines[0], LINES_A_RUN)
                told = killed(story.words("script"), text_of(some), chance.random() * (opening + 0.06))
                count = story.stopped_behind(some, told)
                made.resume(some[:count + 1])
                began = time.monotonic()
                story.check(count + 1)
                opening = time.monotonic() - began
                story.look(0)
            except Wrong as what:
                raise Wrong(f"life {life}, kill {turn + 1}: {what}") from None
            requests, early, late = requests + count, early + (count == 0), late + (count == len(some))
    return requests, early, late


def kill_often(kills: int, lanes: concurrent.futures.Executor) -> None:
    began = time.monotonic()
    lives = [min(KILLS_A_LIFE, kills - done) for done in range(0, kills, KILLS_A_LIFE)]
    requests, early, late = (sum(them) for them in zip(*lanes.map(live, range(1, len(lives) + 1), lives)))
    print(f"crash: {kills} kills, {early} of them before an answer and {late} behind all, {requests} requests acknowledged, "
          f"nothing lost ({time.monotonic() - began:.0f} s)", flush=True)


# ---- each call of the system failing, and a kill at each

# What becomes of a call, and the status that tells it. It is not made then. Bytes that could not be read ahead are read once more, as far
# as they are wanted: so a read fails where two in a row do, and one that fails alone is made good.
FATES = {"fails": ("error=EIO", FILE_FAULT), "fails once": ("error=EIO", 0), "has no room": ("error=ENOSPC", FILE_FAULT), "is killed": ("signal=SIGKILL", -9)}
# The calls by which a log is read, some for each record.
READING = {"statx", "pread64"}
# A log with so many bytes has no room for one more record, so that a new one begins.
FULL_LOG = (1 << 24) - 65_536
FULL = "over a full log"
# An event of three writes with eight steps each, and its record.
LONG_RECORD = 360


class Start(NamedTuple):
    """A journal under a catalogue, the machine that it stands for, and what is done to it next: requests are asked of it, or it is
    adopted, or its moments are taken back by so much."""
    what: str
    folder: str
    machine: Machine
    events: int
    made: list[Asked]
    catalogue: Catalogue = ONE
    new: Catalogue | None = None
    by: int | None = None

    def run(self, story: Story, before: Sequence[str] = ()) -> tuple[int, list[str]]:
        if self.by:
            return story.shift(self.by, before)
        return story.adopt(self.new, before) if self.new else story.run(self.made, before)

    def judge(self, story: Story, status_then: int, status: int, told: list[str]) -> None:
        if self.by:
            judge_shift(story, self.by, status_then, status, told)
        elif self.new:
            judge_adoption(story, self.new, status_then, status, told)
        else:
            judge(story, self.made, status_then, status, told)

    def story(self, scratch: str) -> Story:
        """A copy of the journal, and its story."""
        story = Story(scratch, "journal", self.catalogue)
        story.machines, story.events = [twin(self.machine)], self.events
        for name in os.listdir(self.folder):
            if name.startswith("journal"):
                shutil.copy(os.path.join(self.folder, name), scratch)
        return story


def start(what: str, folder: str, before: list[Asked], next_requests: Callable[[Machine], list[Asked]]) -> Start:
    """Asks the first requests of a new journal in this folder, with nothing that stops the program."""
    os.mkdir(folder)
    story = Story(folder, "journal")
    if before:
        status, told = story.run(before)
        if status != 0 or story.stopped_behind(before, told) != len(before):
            raise Wrong(f"{what} could not be made: status {status}")
        story.look(len(before))
    return Start(what, folder, story.machines[0], story.events, next_requests(story.machines[0]))


def long_submits(count: int) -> list[Asked]:
    """An attach, and submits whose records are all of one length."""
    made: list[Asked] = [(1, {"op": "attach", "process": "a"}, 0)]
    chance = random.Random(count)
    for place in range(count):
        writes = [{"point": point.name, "value": chance.randint(point.least, point.most), "priority": chance.choice([2, 8, 16]),
                   "lease": 100_000, "revert": [[chance.randint(point.least, point.most), 1_000] for _ in range(8)]}
                  for point in compare.POINTS]
        made.append((1, {"op": "submit", "writes": writes}, place))
    return made


def starts(scratch: str) -> Iterator[Start]:
    first, again = Made(1), Made(2)
    def folder(name: str) -> str:
        return os.path.join(scratch, name)

    yield start("over no journal", folder("none"), [], lambda machine: first.some(machine, 60))
    yield start("over a journal", folder("short"), again.some(new_machine(), 60), lambda machine: again.some(machine, 40))
    # The new log begins at the fourth of six.
    fitting = FULL_LOG // LONG_RECORD
    submits = long_submits(fitting + 4)
    yield start(FULL, folder("full"), submits[:-6], lambda machine: [submits[0], *submits[-6:]])


def adoptions(scratch: str) -> Iterator[Start]:
    """Journals that are adopted: one that is new, one that has a log, and back again one that was adopted, whose other file is written."""
    def folder(name: str) -> str:
        return os.path.join(scratch, name)

    def nothing(machine: Machine) -> list[Asked]:
        return []

    requests = Made(3).some(new_machine(), 60)
    yield start("adopting no journal", folder("new"), [], nothing)._replace(new=OTHER)
    kept = start("adopting a journal", folder("kept"), requests, nothing)._replace(new=OTHER)
    yield kept
    os.mkdir(folder("turned"))
    story = kept.story(folder("turned"))
    status, told = kept.run(story)
    kept.judge(story, 0, status, told)
    yield Start("adopting it back", folder("turned"), story.machines[0], story.events, [], OTHER, ONE)


def shifts(scratch: str) -> Iterator[Start]:
    """Journals whose moments are taken back: one that is new, one that has a log, and one that was shifted, whose other file is written."""
    def folder(name: str) -> str:
        return os.path.join(scratch, name)

    def nothing(machine: Machine) -> list[Asked]:
        return []

    requests = Made(4).some(new_machine(), 60)
    yield start("shifting no journal", folder("empty"), [], nothing)._replace(by=1)
    kept = start("shifting a journal", folder("log"), requests, nothing)
    most = min([kept.machine.now, *(it.start for it in kept.machine.reversions)])
    kept = kept._replace(by=most // 2)
    yield kept
    os.mkdir(folder("shifted"))
    story = kept.story(folder("shifted"))
    status, told = kept.run(story)
    kept.judge(story, 0, status, told)
    yield Start("shifting it again", folder("shifted"), story.machines[0], story.events, [], by=most - most // 2)


def traced(story: Story, call: str | None = None, fate: str | None = None) -> tuple[list[str], str]:
    """The words of strace, which looks at calls on the journal's files and their folder, and the file in which it tells them."""
    log = os.path.join(os.path.dirname(story.journal), "calls")
    # strace sends no signal where it lets the kernel choose the calls.
    words = ["strace", "-f", *([] if fate and "signal" in fate else ["--seccomp-bpf"]), "-o", log]
    for path in (story.journal, story.journal + ".b", os.path.dirname(story.journal)):
        words += ["-P", path]
    return words + (["-e", f"trace={call}", "-e", f"inject={call}:{fate}"] if call else []), log


def calls_of(start: Start) -> list[str]:
    """The kinds of calls that a run makes on the journal's files and their folder. What closing a file answers is looked at by nobody."""
    with tempfile.TemporaryDirectory() as scratch:
        story = start.story(scratch)
        words, log = traced(story)
        status, told = start.run(story, words)
        start.judge(story, 0, status, told)
        if start.what == FULL and not os.path.exists(story.journal + ".b"):
            raise Wrong("no new log began behind a full one")
        with open(log) as file:
            return sorted(set(re.findall(r"^\d+ +(\w+)\(", file.read(), re.M)) - {"close"})


def stop_at(start: Start, call: str, fate: str) -> tuple[str, str, int]:
    """Runs the program over a copy of the journal again and again, in turn with each such call stopped. How many runs that were."""
    nth = 1
    while stop_once(start, call, fate, nth):
        nth += 1
    if nth == 1:
        raise Wrong(f"{start.what}: no {call} {fate}")
    return call, fate, nth - 1


def stop_once(start: Start, call: str, fate: str, nth: int) -> bool:
    """Whether there is such a call."""
    what, status_then = FATES[fate]
    when = f"{nth}..{nth + 1}" if (call, fate) == ("pread64", "fails") else nth
    with tempfile.TemporaryDirectory() as scratch:
        story = start.story(scratch)
        words, log = traced(story, call, f"{what}:when={when}")
        status, told = start.run(story, words)
        with open(log) as file:
            is_stopped = re.search(r"INJECTED|killed by SIGKILL", file.read()) is not None
        try:
            start.judge(story, status_then if is_stopped else 0, status, told)
        except Wrong as wrong:
            raise Wrong(f"{start.what}: {call} {nth} {fate}: {wrong}") from None
        return is_stopped


def judge(story: Story, made: list[Asked], status_then: int, status: int, told: list[str]) -> None:
    stopped = told.count(STOPPED)
    front = told[:len(told) - stopped]
    if STOPPED in front:
        raise Wrong("something was done behind a line that tells that it stopped")
    count = story.stopped_behind(made, front)
    if status != status_then:
        raise Wrong(f"status {status}, not {status_then}")
    if status >= 0 and told and count + stopped != len(made):
        raise Wrong(f"of {len(made)} requests {count} were answered, and {stopped} told that it stopped")
    story.look(count + 1)


def judge_adoption(story: Story, new: Catalogue, status_then: int, status: int, told: list[str]) -> None:
    """The journal has to open with just one of both catalogues, and with the new one where all was done. One that is new stays so."""
    old, machine = story.catalogue, story.machines[0]
    if status != status_then:
        raise Wrong(f"status {status}, not {status_then}")
    if story.events == 0:
        line, opened = "journal new", [it for it in (old, new) if check_with(story, it) == (0, ["journal new"])]
        if len(opened) != 2:
            raise Wrong("the journal is no longer new")
    else:
        removed, added = set(old.names()) - set(new.names()), set(new.names()) - set(old.names())
        line = f"adopted events {story.events} points {len(new.points)} removed {len(removed)} added {len(added)}"
        opened = [it for it, other in ((old, new), (new, old)) if is_opened(story, it, other)]
        if len(opened) != 1:
            raise Wrong(f"it opens with {len(opened)} of both catalogues")
        if opened == [new] and machine.adopt(*new):
            raise Wrong("it was adopted, but has to be refused")
        story.catalogue = opened[0]
    if told not in ([line], []) or status == 0 and not told:
        raise Wrong(f"it told {told}, not {line}")
    if told and new not in opened:
        raise Wrong("it told that it was adopted, and was not")
    story.look(0)


def judge_shift(story: Story, by: int, status_then: int, status: int, told: list[str]) -> None:
    """All moments have to be as they were, or all of them earlier, and that where all was done. A journal that is new stays so."""
    if status != status_then:
        raise Wrong(f"status {status}, not {status_then}")
    if story.events == 0:
        line, done = "journal new", False
        if check_with(story, story.catalogue) != (0, ["journal new"]):
            raise Wrong("the journal is no longer new")
    else:
        shifted = twin(story.machines[0])
        if shifted.shift(by) is not None:
            raise Wrong("its moments were to be taken back by too much")
        line = f"shifted events {story.events + 1} {summary(shifted)}"
        done = check_with(story, story.catalogue) == (0, [f"events {story.events + 1} {summary(shifted)}"])
        if done:
            story.machines, story.events = [shifted], story.events + 1
    if told not in ([line], []) or status == 0 and not told:
        raise Wrong(f"it told {told}, not {line}")
    if told and story.events and not done:
        raise Wrong("it told that its moments are earlier, and they are not")
    story.look(0)


def check_with(story: Story, catalogue: Catalogue) -> tuple[int, list[str]]:
    ran = subprocess.run([PROGRAM, "check", story.file_of(catalogue), story.journal], stdout=subprocess.PIPE, stderr=subprocess.DEVNULL,
                         timeout=PATIENCE)
    return ran.returncode, whole_lines(ran.stdout)


def is_opened(story: Story, catalogue: Catalogue, other: Catalogue) -> bool:
    """Whether the journal opens with this catalogue. Where it does not it has to be the other one's."""
    status, told = check_with(story, catalogue)
    if status != 0 and (status, told) != (REFUSED_JOURNAL, [f"journal catalogue {other.digest()} {catalogue.digest()}"]):
        raise Wrong(f"check ended with {status}: {told}")
    return status == 0


def stop_each(lanes: concurrent.futures.Executor) -> None:
    memory = "/dev/shm" if os.path.isdir("/dev/shm") else None
    with tempfile.TemporaryDirectory(dir=memory) as scratch:
        knows_shift = compare.knows("shift", "-", "1")
        journals = [*starts(scratch), *(adoptions(scratch) if compare.knows_adopt() else []), *(shifts(scratch) if knows_shift else [])]
        tried = [(it, stopped_runs(lanes, it)) for it in journals]
        for it, runs in tried:
            counts = Counter[str]()
            for call, fate, count in (run.result() for run in runs):
                counts[fate] += count
            told = ", ".join(f"{count} runs in which a call {fate}" for fate, count in counts.items())
            print(f"crash: {it.what}: {told}; each as it has to be", flush=True)
        if not any(it.new for it in journals):
            print("crash: this program has no job `adopt`, so none was stopped", flush=True)
        if not knows_shift:
            print("crash: this program has no job `shift`, so none was stopped", flush=True)


def stopped_runs(lanes: concurrent.futures.Executor, start: Start) -> list[concurrent.futures.Future[tuple[str, str, int]]]:
    """Runs in which each call of each kind is stopped, as they are worked on."""
    calls = calls_of(start)
    if start.what == FULL:
        calls = [call for call in calls if call not in READING]
    print(f"crash: {start.what}, with each {', '.join(calls)}", flush=True)
    alone = {"has no room": "pwrite64", "fails once": "pread64"}
    fates = [(call, fate) for call in calls for fate in FATES if alone.get(fate, call) == call]
    return [lanes.submit(stop_at, start, *one) for one in fates]


def main() -> None:
    heed_help(__doc__)
    need_program()
    kills, width = (int(word) for word in (sys.argv[1:] + ["1000", "2"][len(sys.argv) - 1:])[:2])
    with concurrent.futures.ProcessPoolExecutor(width) as lanes:
        try:
            kill_often(kills, lanes)
            stop_each(lanes)
        except Wrong as what:
            lanes.shutdown(cancel_futures=True)
            sys.exit(f"crash: {what}")


if __name__ == "__main__":
    main()
