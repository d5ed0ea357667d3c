"""Three servers whose journal is in three members of etcd, all of which fail, while many clients submit.

Plays rounds: in each the machine of a server, a member of etcd, or both are killed, stopped and let go on, or cut off, at random, and come
back. Servers are run by packaging/bossd-elected, as by its unit. Clients of this repository know all three addresses and submit numbered
requests without rest. Then what they were told is held against the journal: each acknowledged change is in it once, in one order that no two
answers turn round, and no server acknowledged anything once another one had. It is told how long nobody was served.

    tools/failover [ROUNDS [CASE ..]]

20 rounds where it is left out, 0 for the cases alone; 200 take most of an hour. CASE is a word of a single case's name, as `quota`; all are
tried where none is named, and none with the word `none`. It needs etcd and etcdctl (etcd-server, etcd-client), and the program built (./bossd;
BOSSD names another one). BENCH_FOLDER says where the members keep their files. Whatever it starts listens at 127.0.0.1 alone."""

import asyncio
import bisect
import collections
import contextlib
import io
import logging
import os
import random
import shutil
import signal
import socket
import subprocess
import sys
import tempfile
import threading
import time
from collections.abc import Callable, Iterable, Mapping, Sequence
from typing import NamedTuple

import bossd
import bossd.aio
from bossd.ctl import _journal
from outside import TOP, feeds
from outside.cases import Case, Wrong, all_hold, heed_help, see
from outside.members import Cluster, How, need_etcd, processes_of, spelled
from outside.program import PROGRAM, SETTINGS, Server, check, eventually, free_port, heading, need_program

ELECTED, LAUNCHER = os.path.join(TOP, "packaging", "bossd-elected"), os.path.join(TOP, "packaging", "bossd-serve")
MACHINES, WRITERS, WORKERS, NAME = 3, 12, 64, "plant"
# How long, in seconds, clients may go without an answer before that is a fault, and all may take to be well again behind a round.
PATIENCE, WELL = 120.0, 90.0
# What the mark is: so long nobody may be served where the server that served was lost, by a lease of five seconds.
MARK = 10.0
# How soon a unit starts its program again, in seconds.
AGAIN = 1.0
LEASE = 3_600_000
MOST = 1_000_000_000
CATALOGUE = 'drivers = ["field"]\n' + "".join(
    f'[[point]]\nname = "w{place}"\ndriver = "field"\nkind = "analog"\nmin = 0\nmax = {MOST}\ndefault = 0\n' for place in range(WRITERS + 4))


# ---- machines

class Machine:
    """One that may serve: bossd-elected and all that it starts, which is started again a second behind its end, as by the unit."""

    def __init__(self, number: int, cluster: Cluster, folder: str) -> None:
        self.name, self.port = f"server-{number}", free_port()
        self.address = f"127.0.0.1:{self.port}"
        self.catalogue = os.path.join(folder, "plant.toml")
        self.log = os.path.join(folder, self.name + ".log")
        self.word = cluster.word(self.name, NAME)
        self.is_on = False
        self.statuses = collections.Counter[int]()
        self._process: subprocess.Popen[bytes] | None = None
        self._keeper: threading.Thread | None = None

    def start(self) -> None:
        """Has it run, until it is turned off."""
        self.is_on = True
        self._launch()
        self._keeper = threading.Thread(target=self._keep, daemon=True)
        self._keeper.start()

    def _launch(self) -> None:
        words = [ELECTED, LAUNCHER, PROGRAM, "serve", self.catalogue, self.word, self.address, str(WORKERS), "4294967295"]
        with open(self.log, "ab") as log:
            self._process = subprocess.Popen(words, stdin=subprocess.DEVNULL, stdout=subprocess.DEVNULL, stderr=log, start_new_session=True,
                                             env={**os.environ, **SETTINGS, "BOSSCTL": "/nonexistent"})

    def _keep(self) -> None:
        while self.is_on:
            if self._process is not None and self._process.poll() is not None:
                self.statuses[self._process.returncode] += 1
                # What is left of it goes too, as with a unit's control group.
                self.send(signal.SIGKILL)
                time.sleep(AGAIN)
                if self.is_on:
                    self._launch()
            time.sleep(0.05)

    def turn_off(self, how: int = signal.SIGKILL) -> None:
        """Ends all of it, and has it stay so."""
        self.is_on = False
        self.send(how)
        if self._keeper is not None:
            self._keeper.join()
        if self._process is not None:
            self._process.wait(30)

    def send(self, how: int) -> None:
        """Sends a signal to all processes of the machine."""
        if self._process is not None:
            with contextlib.suppress(ProcessLookupError):
                os.killpg(self._process.pid, how)

    def send_server(self, how: int) -> None:
        """Sends a signal to the server alone."""
        if self._process is not None:
            for pid, words in processes_of(self._process.pid):
                # Its launcher has the program as a later word.
                if PROGRAM in words[:2]:
                    with contextlib.suppress(ProcessLookupError):
                        os.kill(pid, how)

    def is_there(self) -> bool:
        return self._process is not None and self._process.poll() is None

    def said(self) -> str:
        with open(self.log) as file:
            return file.read()

    def lives(self) -> int:
        """How often its server began to serve."""
        return self.said().count("bossd: listening at ")


# ---- who submits

class Ack(NamedTuple):
    """A change that was acknowledged: when it was asked for and answered, by which server; whose it is, its value, and its transaction. Of one
    that was asked for again the server is not known that made it: its address is empty."""
    begun: float
    ended: float
    address: str
    process: str
    value: int
    txn: int


class Traffic:
    """Clients that submit without rest, and what they were told."""

    def __init__(self, addresses: Sequence[str]) -> None:
        self.addresses, self.off = addresses, threading.Event()
        self.acks, self.lock, self.wrong = list[Ack](), threading.Lock(), ""
        self.threads = [threading.Thread(target=self._guard, args=(self._submit if place % 3 else self._submit_async, place))
                        for place in range(WRITERS)]

    def start(self) -> None:
        for thread in self.threads:
            thread.start()

    def stop(self) -> None:
        """Has each have its last answer."""
        self.off.set()
        for thread in self.threads:
            thread.join()
        see(not self.wrong, self.wrong)

    def last(self) -> float:
        """When the last answer came."""
        with self.lock:
            return self.acks[-1].ended if self.acks else 0.0

    def _guard(self, run: Callable[[int], None], place: int) -> None:
        try:
            run(place)
        except Exception as error:
            self.wrong = self.wrong or f"w{place}: {error!r}"

    def _submit(self, place: int) -> None:
        chance = random.Random(place)
        with bossd.Client(self.addresses, f"w{place}", PATIENCE) as client:
            for value in range(1, MOST):
                if self.off.is_set():
                    return
                begun, before = time.monotonic(), client.attachments
                txn = client.submit([self._write(place, value)]).txn
                self._note(begun, client.address if client.attachments == before else "", place, value, txn)
                time.sleep(chance.choice([0.01, 0.05, 0.2]))

    def _submit_async(self, place: int) -> None:
        asyncio.run(self._submit_by_task(place))

    async def _submit_by_task(self, place: int) -> None:
        chance = random.Random(place)
        async with bossd.aio.connect(",".join(self.addresses), f"w{place}", PATIENCE) as client:
            for value in range(1, MOST):
                if self.off.is_set():
                    return
                begun, before = time.monotonic(), client.attachments
                txn = (await client.submit([self._write(place, value)])).txn
                self._note(begun, client.address if client.attachments == before else "", place, value, txn)
                await asyncio.sleep(chance.choice([0.01, 0.05, 0.2]))

    def _write(self, place: int, value: int) -> bossd.Request:
        return bossd.write(f"w{place}", value, lease=LEASE, priority=8)

    def _note(self, begun: float, address: str, place: int, value: int, txn: int) -> None:
        with self.lock:
            self.acks.append(Ack(begun, time.monotonic(), address, f"w{place}", value, txn))


class Reader:
    """Asks one server, whether it is elected or not, for the newest transaction that somebody was told of a while ago: one that does not know
    it says what was no longer so then."""

    AGES = (1.0, 1.5, 3.0)

    def __init__(self, machine: Machine, traffic: Traffic) -> None:
        self.machine, self.traffic = machine, traffic
        self.asked, self.old = 0, collections.Counter[float]()
        self.thread = threading.Thread(target=self._ask_on, daemon=True)

    def _ask_on(self) -> None:
        while not self.traffic.off.is_set():
            try:
                with socket.create_connection(("127.0.0.1", self.machine.port), timeout=1) as link, link.makefile("rwb") as lines:
                    while not self.traffic.off.is_set():
                        self._ask(lines)
                        time.sleep(0.05)
            except (OSError, ValueError):
                time.sleep(0.1)

    def _ask(self, lines: io.BufferedRWPair) -> None:
        begun = time.monotonic()
        wanted = {age: self._known(begun - age) for age in self.AGES}
        for age, txn in wanted.items():
            if txn:
                lines.write(b'{"op":"status","txn":%d}\n' % txn)
                lines.flush()
                told = lines.readline()
                if not told or b'"stopped"' in told:
                    raise OSError
                self.asked += 1
                self.old[age] += b'"unknown-txn"' in told

    def _known(self, by: float) -> int:
        """The newest transaction that was told by this moment, of the last thousand."""
        with self.traffic.lock:
            some = self.traffic.acks[-1000:]
        return max((ack.txn for ack in some if ack.ended <= by), default=0)


# ---- what has to hold of what was told

def judge(acks: Sequence[Ack], submits: Sequence[tuple[str, int]], lives: Mapping[str, int] | None = None) -> None:
    """Wrong unless the acknowledged changes and the submits of the journal, by process and value in their order, are the same, one history;
    and where it is told how often each server began to serve, none went on once another one had acknowledged something."""
    judge_history(acks, submits)
    judge_order(acks)
    if lives is not None:
        judge_terms(acks, lives)


def judge_history(acks: Sequence[Ack], submits: Sequence[tuple[str, int]]) -> None:
    """Nothing lost, nothing made twice, each under the number that was told."""
    twice = [one for one, count in collections.Counter(submits).items() if count > 1]
    see(not twice, f"made twice: {twice[:3]}")
    of = {ack.txn: ack for ack in acks}
    see(len(of) == len(acks), f"a transaction's number was given twice: {len(acks)} answers, {len(of)} numbers")
    for ack in acks:
        see(ack.txn <= len(submits), f"lost: {ack}, as the journal has {len(submits)} submits")
        see(submits[ack.txn - 1] == (ack.process, ack.value), f"{ack}, but transaction {ack.txn} of the journal is {submits[ack.txn - 1]}")
    others = [submits[txn - 1] for txn in range(1, len(submits) + 1) if txn not in of]
    see(not others, f"of {len(submits)} submits {len(others)} were told to nobody, as {others[:3]}")


def judge_order(acks: Sequence[Ack]) -> None:
    """Of two answers of which one came before the other was asked for, over all servers, the first has the lesser transaction."""
    ends = sorted((ack.ended, ack.txn) for ack in acks)
    most, highest = list[int](), 0
    for _, txn in ends:
        highest = max(highest, txn)
        most.append(highest)
    times = [ended for ended, _ in ends]
    for ack in acks:
        place = bisect.bisect_left(times, ack.begun)
        see(place == 0 or most[place - 1] < ack.txn, f"{ack} was asked for when transaction {most[place - 1]} was answered")


def judge_terms(acks: Sequence[Ack], lives: Mapping[str, int]) -> None:
    """Once another server acknowledged a change, the one before acknowledges none until it was started again and took over. So each has at
    most as many terms as lives."""
    for address, count in collections.Counter(term[0].address for term in terms_of(acks)).items():
        see(count <= lives.get(address, 0), f"{address} acknowledged changes in {count} terms, and was started {lives.get(address, 0)} times")


def terms_of(acks: Sequence[Ack]) -> list[list[Ack]]:
    """Who acknowledged, one server after another, in the order of transactions, as far as it is known."""
    terms = list[list[Ack]]()
    for ack in sorted((ack for ack in acks if ack.address), key=lambda ack: ack.txn):
        if not terms or terms[-1][-1].address != ack.address:
            terms.append([])
        terms[-1].append(ack)
    return terms


def longest_gap(acks: Sequence[Ack], begun: float, ended: float) -> float:
    """The longest time between two moments in which nothing was acknowledged."""
    times = sorted(ack.ended for ack in acks if begun <= ack.ended <= ended)
    return max(after - before for before, after in zip([begun, *times], [*times, ended]))


class History:
    """The events of the journal, as `feed` tells them, beside whoever serves."""

    def __init__(self, catalogue: str, word: str) -> None:
        self.catalogue, self.word, self.count = catalogue, word, 0
        # Processes in the order of their numbers, and of each submit whose it is and the value of its write.
        self.names, self.submits = list[str](), list[tuple[str, int]]()

    def go_on(self) -> None:
        """Reads what came since."""
        ran = subprocess.run([PROGRAM, "feed", self.catalogue, self.word, str(self.count)], capture_output=True, timeout=PATIENCE)
        see(ran.returncode == 0, f"feed ended with {ran.returncode}: {ran.stderr.decode().strip()}")
        told = feeds.told_by(ran.stdout)
        see(not told.states, "the journal has begun a new log, which leaves out what is to be compared: play fewer rounds")
        for number in range(self.count + 1, told.last + 1):
            event = _journal.event_of(_journal.Bytes(told.events[number]), 3)
            if event.kind == "process":
                self.names.append(event.name or "")
            elif event.kind == "submit" and event.owner is not None:
                self.submits.append((self.names[event.owner], event.writes[0].value))
        self.count = max(self.count, told.last)


# ---- rounds

class Hit(NamedTuple):
    """What a round does: what is said of it, how it begins and ends, and whether the server that served is hit."""
    said: str
    begin: Callable[[], None]
    end: Callable[[], None]
    is_server_hit: bool


class World:
    """The cluster, the machines and the traffic, and what came of the rounds."""

    def __init__(self, cluster: Cluster, folder: str, seed: int = 1) -> None:
        self.cluster, self.chance = cluster, random.Random(seed)
        with open(os.path.join(folder, "plant.toml"), "w") as file:
            file.write(CATALOGUE)
        self.machines = [Machine(number, cluster, folder) for number in range(1, MACHINES + 1)]
        self.traffic = Traffic([machine.address for machine in self.machines])
        self.readers = [Reader(machine, self.traffic) for machine in self.machines]
        self.history = History(self.machines[0].catalogue, cluster.plain_word(NAME))
        # How long nothing was acknowledged, by what was hit; and of rounds in which another server took over from one that was hit.
        self.gaps, self.taken_over = collections.defaultdict[str, list[float]](list), list[float]()

    def start(self) -> None:
        for machine in self.machines:
            machine.start()
        self.traffic.start()
        for reader in self.readers:
            reader.thread.start()
        self.wait_until_well()

    def stop(self) -> None:
        self.cluster.relays.mend()
        for machine in self.machines:
            machine.send(signal.SIGCONT)
            machine.turn_off()

    def is_well(self) -> bool:
        """Whether a change was acknowledged within the last second, all members are there, and each machine stands at the lock."""
        return (time.monotonic() - self.traffic.last() < 1 and all(machine.is_there() for machine in self.machines)
                and self.cluster.is_well() and self.cluster.count(f"{NAME}/lock/") == MACHINES)

    def wait_until_well(self) -> None:
        if not eventually(lambda: bool(self.traffic.wrong) or self._is_well_now(), WELL):
            raise Wrong(f"not well {WELL:.0f} seconds behind a round: {self._how_it_is()}")
        see(not self.traffic.wrong, self.traffic.wrong)

    def _is_well_now(self) -> bool:
        try:
            return self.is_well()
        except OSError:
            return False

    def _how_it_is(self) -> str:
        with contextlib.suppress(OSError):
            return (f"last answer {time.monotonic() - self.traffic.last():.1f} s ago, machines {[one.is_there() for one in self.machines]}, "
                    f"members {[one.answers() for one in self.cluster.members]}, {self.cluster.count(f'{NAME}/lock/')} at the lock")
        return "etcd does not answer"

    def serving(self) -> Machine:
        """Who acknowledged last."""
        with self.traffic.lock:
            address = next(ack.address for ack in reversed(self.traffic.acks) if ack.address)
        return next(machine for machine in self.machines if machine.address == address)

    # -- one round

    def play(self) -> None:
        hits = self._hits()
        served, begun = self.serving(), time.monotonic()
        for hit in hits:
            hit.begin()
        time.sleep(self.chance.uniform(0.5, 12))
        for hit in hits:
            hit.end()
        self.cluster.relays.mend()
        self.wait_until_well()
        self._account(hits, served, begun)

    def _hits(self) -> list[Hit]:
        what = self.chance.choice(["server", "server", "member", "both"])
        hits = [self._at_server()] if what in ("server", "both") else []
        return hits + ([self._at_member()] if what in ("member", "both") else [])

    def _account(self, hits: Sequence[Hit], served: Machine, begun: float) -> None:
        with self.traffic.lock:
            acks = [ack for ack in self.traffic.acks if ack.ended >= begun]
        gap = longest_gap(acks, begun, time.monotonic())
        is_hit, now = any(hit.is_server_hit for hit in hits), self.serving()
        self.gaps[" and ".join(hit.said for hit in hits)].append(gap)
        if is_hit and any(ack.address not in ("", served.address) for ack in acks):
            self.taken_over.append(gap)
        print(f"  {' and '.join(hit.said for hit in hits)}{', which served' if is_hit else ''}: {gap:.1f} s; "
              f"{served.name if now is served else f'{served.name}, then {now.name}'}", flush=True)

    def _at_server(self) -> Hit:
        machine = self.serving() if self.chance.random() < 0.7 else self.chance.choice(self.machines)
        is_hit = machine is self.serving()
        kind: How = self.chance.choice(["silent", "shut"])

        def off() -> None:
            machine.turn_off()

        hits = [Hit("a machine killed", off, machine.start, is_hit),
                Hit("a server killed", lambda: machine.send_server(signal.SIGKILL), nothing, is_hit),
                Hit("a machine stopped", lambda: machine.send(signal.SIGSTOP), lambda: machine.send(signal.SIGCONT), is_hit),
                Hit("a server stopped", lambda: machine.send_server(signal.SIGSTOP), lambda: machine.send_server(signal.SIGCONT), is_hit),
                Hit(f"a server cut off ({kind})", lambda: self.cluster.part(machine.name, kind), nothing, is_hit)]
        return self.chance.choice(hits)

    def _at_member(self) -> Hit:
        member = self.cluster.leader() if self.chance.random() < 0.5 else self.chance.choice(self.cluster.members)
        kind: How = self.chance.choice(["silent", "shut"])

        def cut() -> None:
            self.cluster.isolate(member, kind)
            for machine in self.machines:
                self.cluster.relays.cut((machine.name, member.name), kind)

        hits = [Hit("a member killed", lambda: member.send(signal.SIGKILL), lambda: self.cluster.start(member), False),
                Hit("a member stopped", lambda: member.send(signal.SIGSTOP), lambda: member.send(signal.SIGCONT), False),
                Hit(f"a member isolated ({kind})", lambda: self.cluster.isolate(member, kind), nothing, False),
                Hit(f"a member cut off ({kind})", cut, nothing, False)]
        return self.chance.choice(hits)

    # -- the end

    def judge_all(self) -> None:
        self.traffic.stop()
        for machine in self.machines:
            machine.turn_off(signal.SIGTERM)
        see(self.cluster.count(f"{NAME}/lock/") == 0, "somebody still has the lock, or waits for it, behind the end of all")
        self.history.go_on()
        judge(self.traffic.acks, self.history.submits, {machine.address: machine.lives() for machine in self.machines})


def nothing() -> None:
    pass


def hundredth(times: Iterable[float], place: int) -> float:
    ordered = sorted(times)
    return ordered[min(len(ordered) - 1, len(ordered) * place // 100)]


def rounds(folder: str, count: int) -> str:
    """Plays so many rounds; what came of them."""
    with Cluster(os.path.join(folder, "rounds"), more=("--auto-compaction-mode", "revision", "--auto-compaction-retention", "1000")) as cluster:
        world = World(cluster, folder)
        try:
            world.start()
            for number in range(1, count + 1):
                if number % 10 == 1:
                    print(f"round {number}, {len(world.traffic.acks)} changes acknowledged", flush=True)
                    world.history.go_on()
                world.play()
            world.judge_all()
        except BaseException:
            for machine in world.machines:
                print(f"  {machine.name} ended with {dict(machine.statuses)}, and said last:\n    "
                      + "\n    ".join(machine.said().splitlines()[-12:]), file=sys.stderr)
            raise
        finally:
            world.traffic.off.set()
            world.stop()
    return report(world, count)


def report(world: World, count: int) -> str:
    acks, over = world.traffic.acks, world.taken_over
    lines = [f"{count} rounds, {len(acks)} changes acknowledged by {len(terms_of(acks))} terms of {MACHINES} servers, each in the journal once, "
             "in one order; no server acknowledged any once another one had"]
    for said, gaps in sorted(world.gaps.items()):
        lines.append(f"{said}, {len(gaps)} times: nothing acknowledged for {hundredth(gaps, 50):.1f} s in the middle, {max(gaps):.1f} at most")
    if over:
        lines.append(f"of {len(over)} rounds in which the server that served was hit and another one took over: {hundredth(over, 50):.1f} s for "
                     f"half, {hundredth(over, 99):.1f} for all but a hundredth, {max(over):.1f} the longest; {sum(gap > MARK for gap in over)} over {MARK:.0f}")
    for age in Reader.AGES:
        lines.append(f"of {sum(reader.asked for reader in world.readers) // len(Reader.AGES)} questions {sum(reader.old[age] for reader in world.readers)} "
                     f"were answered by a server that did not know what was acknowledged {age} s before")
    lines.append(f"statuses: {dict(sum((machine.statuses for machine in world.machines), collections.Counter[int]()))}")
    return "\n  ".join(lines)


# ---- single cases

def catalogue_in(folder: str) -> str:
    path = os.path.join(folder, "plant.toml")
    with open(path, "w") as file:
        file.write(CATALOGUE)
    return path


class Alone:
    """A server without a lock, and what it says on standard error."""

    def __init__(self, folder: str, word: str, port: int | None = None) -> None:
        self.path = os.path.join(folder, f"said-{free_port()}")
        self.server = Server(catalogue_in(folder), word, port=port)

    def __enter__(self) -> "Alone":
        self.start()
        return self

    def __exit__(self, *_: object) -> None:
        self.server.stop()

    def start(self) -> None:
        with open(self.path, "ab") as said:
            self.server.start(stderr=said)

    def said(self) -> str:
        with open(self.path) as file:
            return file.read()

    def fails_with(self, line: str, seconds: float = 60.0) -> None:
        """Wrong unless it says that its journal could not be written, for this reason; then it is ended, as the launcher would."""
        see(eventually(lambda: f"nothing is kept from here on: {line}" in self.said(), seconds), f"it said: {self.said().strip()}")
        self.server.stop()

    def ends_with(self, line: str, seconds: float = 60.0) -> None:
        """Wrong unless it ends with 5, and says this."""
        try:
            status = self.server.process.wait(seconds)
        except subprocess.TimeoutExpired:
            raise Wrong(f"it runs on after {seconds:.0f} s, and said: {self.said().strip()}") from None
        see(status == 5 and line in self.said(), f"it ended with {status}, and said: {self.said().strip()}")


class Steady:
    """One client that submits without rest, over whatever happens to the server."""

    def __init__(self, addresses: Sequence[str]) -> None:
        self.traffic = Traffic(addresses)
        self.traffic.threads = self.traffic.threads[1:2]

    def __enter__(self) -> Traffic:
        self.traffic.start()
        return self.traffic

    def __exit__(self, *_: object) -> None:
        self.traffic.stop()


def goes_on(traffic: Traffic, seconds: float = 30.0) -> None:
    """Wrong unless further changes are acknowledged."""
    count = len(traffic.acks)
    see(eventually(lambda: traffic.wrong or len(traffic.acks) > count + 3, seconds) and not traffic.wrong,
        traffic.wrong or f"no change was acknowledged for {seconds:.0f} s")


def all_there(traffic: Traffic, folder: str, cluster: Cluster) -> str:
    """Wrong unless each acknowledged change is there once."""
    history = History(catalogue_in(folder), cluster.plain_word(NAME))
    history.go_on()
    judge(traffic.acks, history.submits)
    return f"{len(traffic.acks)} changes acknowledged, each there once"


def refused(folder: str, word: str, *lines: str) -> None:
    """Wrong unless a check of this journal ends with 5 and says this."""
    ran = subprocess.run([PROGRAM, "check", catalogue_in(folder), word], capture_output=True, text=True, timeout=PATIENCE)
    see(ran.returncode == 5 and all(line in ran.stderr for line in lines), f"check of {word} ended with {ran.returncode}, and said: {ran.stderr.strip()}")


def quota(folder: str) -> str:
    """A full quota, and room made."""
    with Cluster(os.path.join(folder, "quota"), 2 << 20) as cluster, Alone(folder, cluster.plain_word(NAME)) as alone:
        with Steady([alone.server.address]) as traffic:
            goes_on(traffic)
            # What fills it faster.
            with contextlib.suppress(OSError):
                for number in range(10_000):
                    cluster.put(f"filler/{number}", "x" * 4096)
            alone.fails_with("etcd has no space left")
            full = Alone(folder, cluster.plain_word(NAME))
            full.server.launch(stderr=open(full.path, "ab"))
            full.ends_with("etcd has no space left")
            cluster.etcdctl("del", "--prefix", "filler/")
            revision = cluster.ask("/v3/kv/range", {"key": spelled("x")})["header"]["revision"]
            cluster.etcdctl("compact", str(revision))
            cluster.etcdctl("defrag", "--command-timeout=30s")
            cluster.etcdctl("alarm", "disarm")
            alone.start()
            goes_on(traffic)
        return all_there(traffic, folder, cluster)


def compaction(folder: str) -> str:
    """The newest revision is compacted over and over, beside a server and checks."""
    with Cluster(os.path.join(folder, "compaction")) as cluster, Alone(folder, cluster.plain_word(NAME)) as alone:
        ends = collections.Counter[str]()
        with Steady([alone.server.address]) as traffic:
            until = time.monotonic() + 10
            while time.monotonic() < until:
                revision = cluster.ask("/v3/kv/range", {"key": spelled("x")})["header"]["revision"]
                with contextlib.suppress(OSError):
                    cluster.ask("/v3/kv/compaction", {"revision": revision, "physical": True})
                if ends.total() < 40:
                    ran = subprocess.run([PROGRAM, "check", alone.server.catalogue, cluster.plain_word(NAME)], capture_output=True, text=True)
                    see(ran.returncode == 0 or ran.returncode == 5 and "compacted" in ran.stderr, f"check ended with {ran.returncode}: {ran.stderr}")
                    ends["whole" if ran.returncode == 0 else "refused as compacted"] += 1
            goes_on(traffic)
        return f"{all_there(traffic, folder, cluster)}; checks: {dict(ends)}"


def empty_member(folder: str) -> str:
    """A member whose disk is gone: it is not let in as it was, and comes back as a new one."""
    with Cluster(os.path.join(folder, "empty")) as cluster, Alone(folder, cluster.plain_word(NAME)) as alone:
        with Steady([alone.server.address]) as traffic:
            goes_on(traffic)
            lost = next(member for member in cluster.members if not member.is_leader())
            lost.send(signal.SIGKILL)
            shutil.rmtree(lost.folder)
            cluster.start(lost)
            status = lost.ended(20)
            see(status not in (None, 0), f"a member without its disk runs as if it were the same, {status}")
            goes_on(traffic)
            listed = cluster.etcdctl("member", "list")
            number = next(line.split(",")[0] for line in listed.splitlines() if lost.name in line)
            cluster.etcdctl("member", "remove", number)
            cluster.etcdctl("member", "add", lost.name, f"--peer-urls=http://127.0.0.1:{lost.advertised}")
            shutil.rmtree(lost.folder, ignore_errors=True)
            cluster.start(lost, "existing")
            see(eventually(cluster.is_well, 30), "the member does not come back")
            # So that it counts, another one goes.
            other = next(member for member in cluster.members if member is not lost)
            other.send(signal.SIGKILL)
            goes_on(traffic)
            cluster.start(other)
        return f"{all_there(traffic, folder, cluster)}; the empty one ended with {status}, and was let in as a new one"


def lost_majority(folder: str) -> str:
    """Two of three members are gone for four seconds, which is a pause, and for longer than the server asks on."""
    with Cluster(os.path.join(folder, "majority")) as cluster, Alone(folder, cluster.plain_word(NAME)) as alone:
        with Steady([alone.server.address]) as traffic:
            goes_on(traffic)
            for seconds in (4.0, 20.0):
                begun = time.monotonic()
                for member in cluster.members[1:]:
                    member.send(signal.SIGKILL)
                if seconds > 10:
                    alone.fails_with("no member of etcd did it")
                    refused(folder, cluster.plain_word(NAME), "etcd")
                time.sleep(max(0.0, begun + seconds - time.monotonic()))
                for member in cluster.members[1:]:
                    cluster.start(member)
                if seconds > 10:
                    see(eventually(cluster.is_well, 30), "the members do not come back")
                    alone.start()
                goes_on(traffic)
        return all_there(traffic, folder, cluster)


def wrong_addresses(folder: str) -> str:
    """Addresses at which nobody is, or somebody else, and words that are none."""
    nobody, other = free_port(), free_port()
    with Cluster(os.path.join(folder, "addresses")) as cluster:
        right = [member.client for member in cluster.members]
        refused(folder, f"etcd:127.0.0.1:{nobody}/{NAME}", "could not be opened: no member of etcd did it")
        with Server(catalogue_in(folder), port=other):
            refused(folder, f"etcd:127.0.0.1:{other}/{NAME}", "could not be opened: ")
            word = f"etcd:127.0.0.1:{nobody},127.0.0.1:{other},127.0.0.1:{right[0]}/{NAME}"
            with Alone(folder, word) as alone, Steady([alone.server.address]) as traffic:
                goes_on(traffic)
            see(f"etcd at 127.0.0.1:{nobody}: " in alone.said() and "the next member is asked" in alone.said(), f"it said {alone.said()}")
        for word in ("etcd:", "etcd:127.0.0.1:2379", "etcd:127.0.0.1/plant", "etcd:127.0.0.1:0/plant", "etcd:127.0.0.1:2379/", "etcd:a b:1/plant",
                     "etcd:127.0.0.1:2379,/plant", f"etcd:127.0.0.1:{right[0]}/plant.b", "etcd:127.0.0.1:2379/a/b", "etcd:http://127.0.0.1:2379/plant"):
            refused(folder, word, "a journal in etcd is named etcd:HOST:PORT[,HOST:PORT..]/NAME")
        return all_there(traffic, folder, cluster)


def strangers(folder: str) -> str:
    """Another program's keys under the name, and keys of the journal that somebody removed: nothing is written over."""
    with Cluster(os.path.join(folder, "strangers")) as cluster:
        cluster.put("theirs/a/head", "hello")
        cluster.put("pages/a/p/00000000", "hello")
        cluster.put(f"{NAME}/note", "nobody's")
        before = cluster.ask("/v3/kv/range", {"key": spelled("x")})["header"]["revision"]
        for name in ("theirs", "pages"):
            refused(folder, cluster.plain_word(name), "could not be opened: ")
            serve = Alone(folder, cluster.plain_word(name))
            serve.server.launch(stderr=open(serve.path, "ab"))
            serve.ends_with("could not be opened: ")
        after = cluster.ask("/v3/kv/range", {"key": spelled("x")})["header"]["revision"]
        see(before == after, f"something was written: revision {before} became {after}")
        with Alone(folder, cluster.plain_word(NAME)) as alone, Steady([alone.server.address]) as traffic:
            goes_on(traffic)
        told = all_there(traffic, folder, cluster)
        cluster.etcdctl("del", f"{NAME}/a/p/00000000")
        refused(folder, cluster.plain_word(NAME), "pages are missing or damaged")
        return told


def two_servers(folder: str) -> str:
    """A second server without a lock takes the journal over, and the first can acknowledge nothing more."""
    with Cluster(os.path.join(folder, "two")) as cluster:
        with Alone(folder, cluster.plain_word(NAME)) as first, Steady([first.server.address]) as early:
            goes_on(early)
            early.off.set()
            early.threads[0].join()
            with bossd.Client([first.server.address], "late", 5.0) as late, Alone(folder, cluster.plain_word(NAME)) as second:
                try:
                    late.submit([bossd.write("w14", 1, lease=LEASE)])
                    raise Wrong("the first one acknowledged a change once the second one had taken over")
                except bossd.Unanswered:
                    pass
                first.fails_with("another server has taken this journal over")
                with bossd.Client([first.server.address, second.server.address], "late") as late:
                    see(late.submit([bossd.write("w14", 2, lease=LEASE)]).txn == len(early.acks) + 1, "the numbers do not go on")
        return f"{len(early.acks)} changes acknowledged by the first, the next one by the second; the first refused its own and said why"


def copies(folder: str) -> str:
    """From files to etcd and back, by feed and standby; then check, of both."""
    with Cluster(os.path.join(folder, "copies")) as cluster:
        catalogue, files, back = catalogue_in(folder), os.path.join(folder, "files"), os.path.join(folder, "back")
        with Server(catalogue, files) as server, bossd.Client(server.address, "w0") as client:
            for value in range(1, 200):
                client.submit([bossd.write("w0", value, lease=LEASE)])
        told = []
        for source, to in ((files, cluster.plain_word(NAME)), (cluster.plain_word(NAME), back)):
            feed = subprocess.run([PROGRAM, "feed", catalogue, source, "0"], capture_output=True, timeout=PATIENCE)
            see(feed.returncode == 0, f"feed of {source} ended with {feed.returncode}: {feed.stderr.decode()}")
            ran = subprocess.run([PROGRAM, "standby", catalogue, to], input=feed.stdout, capture_output=True, timeout=PATIENCE)
            see(ran.returncode == 0, f"standby into {to} ended with {ran.returncode}: {ran.stdout.decode()}{ran.stderr.decode()}")
            told.append((feed.stdout, check(catalogue, source), check(catalogue, to)))
        see(told[0][0] == told[1][0] and len({one for _, *both in told for one in both}) == 1, f"they differ: {[both for _, *both in told]}")
        return f"the same feed of {len(told[0][0])} bytes, and the same check of each: {told[0][1][0]}"


CASES: list[Case] = [("quota", quota), ("compaction", compaction), ("empty member", empty_member), ("lost majority", lost_majority),
                     ("wrong addresses", wrong_addresses), ("strangers", strangers), ("two servers", two_servers), ("copies", copies)]


def main() -> None:
    heed_help(__doc__)
    need_program()
    need_etcd()
    count = int(sys.argv[1]) if len(sys.argv) > 1 else 20
    words = sys.argv[2:]
    print(heading(), flush=True)
    # What clients tell of each lost connection is for a program that has one.
    logging.getLogger("bossd").setLevel(logging.ERROR)
    tried = [case for case in CASES if not words or any(word in case[0] for word in words)]
    if count:
        tried.append(("rounds", lambda folder: rounds(folder, count)))
    sys.exit(0 if all_hold(tried, bossd.Unanswered) else 1)


if __name__ == "__main__":
    main()
