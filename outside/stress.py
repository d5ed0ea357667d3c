"""Has two hundred clients come and go while the built program is killed at random moments.

Has 200 clients come to the built program and go again by chance, over 8 workers and a journal in files, kills the program at random
moments and starts it again. Each client holds all that it is told against the rules that it can see: a lease lasts exactly as long as
was said, or ended for a reason that is told; of a point's slots the one that has to be is in force; its notices come without a gap,
each once and in order; a request that was cut off is made once, and nothing that was acknowledged is lost. At the end each number of a
transaction has to be known to exactly one client.

A client that waits for a worker, however long, is no fault: two hundred of them share eight workers, each of which serves one until it leaves.
Such waits are counted, and the longest is told. It is a fault where nobody is answered for a minute, where a worker is free and takes nobody
who waits, where a worker that has a client does not answer it for a minute, and where a connection ends though nobody killed the program.

    tools/stress [SECONDS [PROGRAMS]]

60 seconds where it is left out; an hour is worth while now and then. With PROGRAMS (201 to 1,000) so many are connected in all: the 200
that come and go, and others that stay and look at a point each second, as there are no more than 256 control processes. Then there is a
worker for each, and it is told how soon behind each start all that stay have their first answer. `ulimit -n` has to allow for a file for each. There are no kills in the last third of them, so that one can see
what memory does. It needs the program built (./bossd; BOSSD names another one), tells each minute how far it has come, and prints figures at
the end; it ends with 1 at the first answer that is wrong."""

import bisect
import collections
import itertools
import json
import os
import random
import resource
import signal
import socket
import subprocess
import sys
import tempfile
import threading
import time
from collections.abc import Callable, Sequence
from typing import Any

from outside import program
from outside.cases import Wrong, heed_help, see as expect

Line = dict[str, Any]
# What the program had in memory: at the start of each life, at the end of each but the last, and over the last one, in kB.
Memory = tuple[list[int], list[int], list[int]]

CLIENTS, WATCHERS = 200, 2
# How many workers there are where all share them; and where there is one for each, how many more, as one is free only a moment behind its
# client's leave.
FEW, SPARE, MOST_PROGRAMS = 8, 24, 1_000
POINTS = [f"floor-{place // 8}.damper-{place % 8}" for place in range(48)]
DEFAULT = 20_000
CATALOGUE = 'drivers = ["east", "west"]\n' + "".join(
    f'[[point]]\nname = "{name}"\ndriver = "{["east", "west"][place % 2]}"\nkind = "analog"\nmin = 0\nmax = 100000\ndefault = {DEFAULT}\n'
    for place, name in enumerate(POINTS))
# So many done transactions are kept: one is forgotten once so many others were done behind it.
KEPT_DONE = 1024
# What the program may have in memory at most, in MB, with a few workers and for each more; and how many files may be open beside those of
# connections, and for the tool itself.
MOST_MEMORY, OF_A_WORKER, OTHER_FILES, OWN_FILES = 64, 0.4, 8, 64
# Who waits for a worker waits as long as those before it stay, and on a machine with much other work they stay long, so this has no limit. Only
# waits of more seconds than these are counted by themselves.
LONG = 60
# In how many looks in a row, a second or more apart, nobody is answered before the program counts as one that hangs; and in how many a worker
# has a client and does not answer it. Whom a worker has it answers as soon as the disk and the machine let it, which was within seconds on a
# machine with four times as much other work as it had processors. So a minute is a fault; and as it is counted in looks, a machine that stands
# still, and this tool with it, is none.
SILENCE = 60
# In how many looks in a row there is a free worker beside somebody who waits. A free worker waits in the call that hands out connections, and
# has the next one long before the next look, so ten of them mean that it takes none any more.
IDLE = 10
# How long, in seconds, the program has to listen behind its start, and a process to be free once its connection is gone.
PATIENCE = 60
# How many of the clients are waiting for a worker at a time. The system lets 129 wait; whoever comes then is let in at longer and longer
# intervals, after a minute or two, which would say nothing of the program.
MOST_WAITING = 100
# How the system spells that a socket listens.
LISTENS = "0A"


class Lost(Exception):
    """The connection ended."""


def now() -> int:
    return time.time_ns() // 1_000_000


class Server(program.Server):
    def __init__(self, folder: str, workers: int) -> None:
        super().__init__(os.path.join(folder, "plant.toml"), os.path.join(folder, "journal"), workers)
        with open(self.catalogue, "w") as file:
            file.write(CATALOGUE)
        self.killed = False
        # What each life of the program had in memory as it began to listen, in kB.
        self.starts: list[int] = []
        # When the last one began to listen.
        self.since = 0.0

    def start(self, **more: Any) -> None:
        self.launch(**more)
        self.killed = False
        self.wait_until_it_listens()
        self.since = time.monotonic()
        self.starts.append(self.memory())

    def wait_until_it_listens(self) -> None:
        until = time.monotonic() + PATIENCE
        while self.connections()[0] is None:
            self.expect_alive()
            expect(time.monotonic() < until, f"it does not listen {PATIENCE} seconds behind its start")
            time.sleep(0.01)

    def kill(self, how: int = signal.SIGKILL) -> None:
        self.expect_alive()
        self.killed = True
        super().kill(how)

    def expect_alive(self) -> None:
        process = self.process
        ended = process.poll()
        expect(ended is None or not self.is_up(process), f"the program ended by itself, with {ended}")

    def is_up(self, process: subprocess.Popen[Any]) -> bool:
        """Whether this process of it is the one that runs, and nobody has killed it."""
        return process is self.process and not self.killed

    def check(self) -> str:
        told, status = program.check(self.catalogue, self.journal)
        expect(status == 0, f"check ended with {status}: {told}")
        return told

    def files(self) -> int:
        return len(os.listdir(f"/proc/{self.process.pid}/fd"))

    def sockets(self) -> int:
        """How many connections its workers have. The one socket more is what it listens with."""
        folder = f"/proc/{self.process.pid}/fd"
        return sum(os.readlink(os.path.join(folder, name)).startswith("socket:") for name in os.listdir(folder)) - 1

    def connections(self) -> tuple[Any, Any]:
        """What the system tells of connections to it: how many wait for a worker, or None where nobody listens; and the ports at the other end
        of those that a worker has. A connection that no program has taken yet has no file, and so its number is 0."""
        here = f"{int.from_bytes(socket.inet_aton('127.0.0.1'), sys.byteorder):08X}:{self.port:04X}"
        waiting, taken = None, []
        with open("/proc/net/tcp") as file:
            for _, local, other, state, queues, *_, number in (line.split()[:10] for line in file):
                if local == here and state == LISTENS:
                    waiting = int(queues.split(":")[1], 16)
                elif local == here and number != "0":
                    taken.append(int(other.split(":")[1], 16))
        return waiting, taken


class Doorkeeper:
    """Looks each second whether the program serves: whether anybody was answered, whether a worker is free and takes nobody who waits, and
    since which look a worker has a connection."""

    def __init__(self, world: "World") -> None:
        self.world, self.server, self.off = world, world.server, threading.Event()
        self.looks, self.since = 0, dict[int, int]()
        self.answers, self.silent, self.idle = 0, 0, 0

    def keep(self) -> None:
        while not self.off.wait(1):
            self.look()

    def look(self) -> None:
        self.server.expect_alive()
        waiting, taken = self.server.connections()
        self.looks += 1
        self.since = {port: self.since.get(port, self.looks) for port in taken}
        self.silent = self.silent + 1 if self.answers == self.world.count["requests"] else 0
        self.answers = self.world.count["requests"]
        self.idle = self.idle + 1 if waiting and self.is_a_worker_free() else 0
        expect(self.silent < SILENCE, f"nobody was answered in {SILENCE} seconds, where {len(taken)} were served and {waiting} waited")
        expect(self.idle < IDLE, f"a worker was free for {IDLE} seconds and took none of {waiting} that wait")

    def is_a_worker_free(self) -> bool:
        try:
            return self.server.sockets() < self.server.workers
        except OSError:
            # A connection ended in the middle of the look, or the program was killed.
            return False


class Talk:
    """A connection."""

    def __init__(self, world: "World") -> None:
        self.world, self.process = world, world.server.process
        self.rest, self.came, self.answered = b"", time.monotonic(), False
        try:
            self.link = socket.create_connection(("127.0.0.1", world.server.port), timeout=PATIENCE)
            self.link.setsockopt(socket.IPPROTO_TCP, socket.TCP_NODELAY, 1)
        except OSError as error:
            self.world.count["refused"] += 1
            raise Lost from error
        self.port = self.link.getsockname()[1]

    def lost(self, error: object) -> Lost:
        expect(not self.world.server.is_up(self.process), f"a connection was lost though nobody killed the program: {error!r}")
        return Lost()

    def send(self, *requests: Line, cut: int = 0) -> None:
        """Sends requests together, but for so many of the last bytes."""
        text = "".join(json.dumps(request) + "\n" for request in requests).encode()
        try:
            self.link.sendall(text[:len(text) - cut])
        except OSError as error:
            raise self.lost(error) from error

    def hear(self, seconds: float) -> Line | None:
        """What the next line tells, or None where none came in time."""
        self.link.settimeout(seconds)
        while b"\n" not in self.rest:
            try:
                more = self.link.recv(65_536)
            except socket.timeout:
                return None
            except OSError as error:
                raise self.lost(error) from error
            if not more:
                raise self.lost("it ended")
            self.rest += more
        line, _, self.rest = self.rest.partition(b"\n")
        told: Line = json.loads(line)
        return told

    def ask(self, *requests: Line) -> list[Line]:
        """The answers to requests that are sent together."""
        keeper, asked = self.world.keeper, time.monotonic()
        self.send(*requests)
        sent = keeper.looks
        answers = [self.answer(sent, requests) for _ in requests]
        self.world.waited(time.monotonic(), self.came, asked if self.answered else None)
        self.answered = True
        return answers

    def answer(self, sent: int, requests: Sequence[Line]) -> Line:
        """The next line. It may be long in coming only where no worker has the connection yet."""
        line = self.hear(1)
        while not line:
            if self.world.wrong:
                raise Lost
            waited = self.world.keeper.looks - max(sent, self.taken())
            expect(waited < SILENCE, f"a worker had the connection for {SILENCE} seconds and did not answer {requests}")
            line = self.hear(1)
        return line

    def taken(self) -> int:
        """At which look a worker had it: the present one where none has it yet, and 0, the first one, where it was answered before."""
        keeper = self.world.keeper
        return 0 if self.answered else keeper.since.get(self.port, keeper.looks)

    def wait_for_a_worker(self) -> None:
        """Waits until one has it, as is known at a look."""
        while self.port not in self.world.keeper.since and not self.world.closing.wait(0.5):
            if not self.world.server.is_up(self.process):
                raise Lost

    def close(self, abruptly: bool = False) -> None:
        if abruptly:
            self.link.setsockopt(socket.SOL_SOCKET, socket.SO_LINGER, b"\1\0\0\0\0\0\0\0")
        self.link.close()


class Transaction:
    """What a client knows of a transaction of its own: its writes by point, until when it was told that they last, and what it was
    told of each point's end."""

    def __init__(self, writes: Sequence[Line], until: int) -> None:
        self.writes = {write["point"]: write for write in writes}
        self.until = until
        self.cancelled: int | None = None
        # By point, what was told of the end of its lease, and when its last part was over.
        self.ended, self.over, self.done = dict[str, Line](), dict[str, int](), False


class Client:
    """One that comes and goes. It speaks for a process of its own, and keeps what it was told over all its visits."""

    def __init__(self, place: int, world: "World") -> None:
        self.name, self.world, self.random = f"client-{place}", world, random.Random(place)
        self.number = 0
        self.pending: Line | None = None
        self.transactions: dict[int, Transaction] = {}
        # How many notices it was told, the moment of the last one, and what each was.
        self.told, self.at, self.notices = 0, 0, list[int]()
        # Its connection, from its first visit on.
        self.talk: Talk
        self.heard: collections.deque[tuple[Line, Line]] = collections.deque(maxlen=20)

    def ask(self, *requests: Line) -> list[Line]:
        answers = self.talk.ask(*requests)
        self.heard.extend(zip(requests, answers))
        self.world.count["requests"] += len(requests)
        return answers

    # -- one visit

    def visit(self, steps: int, last: bool = False) -> None:
        self.talk = Talk(self.world)
        try:
            self.attach()
            self.hear_notices()
            for _ in range(steps):
                self.random.choice([self.submit, self.submit, self.renew, self.cancel, self.look, self.look, self.hear_notices])()
                time.sleep(self.random.choice([0, 0, 0, 0.005, 0.02, 0.1]))
            if not last:
                self.leave()
        finally:
            self.talk.close(abruptly=self.random.random() < 0.3)

    def stay(self) -> None:
        """Stays for as long as it is let, without a process, and looks at a point each second or so."""
        self.talk = Talk(self.world)
        try:
            self.look()
            self.world.arrived(self.talk.process.pid)
            while not self.world.closing.wait(self.random.uniform(0.5, 1.5)):
                self.look()
        finally:
            self.talk.close()

    def look_back(self) -> None:
        """Behind all visits: whatever it had has to be done."""
        self.talk = Talk(self.world)
        self.hear_notices()
        self.talk.close()
        undone = [txn for txn, transaction in self.transactions.items() if not transaction.done]
        expect(not undone, f"nobody told that {undone} are done")

    def attach(self) -> None:
        deadline = time.monotonic() + PATIENCE
        while True:
            [answer] = self.ask({"op": "attach", "process": self.name})
            if "ok" in answer:
                break
            # The server may not have noticed yet that the last connection is gone.
            expect(answer["error"] == "taken" and time.monotonic() < deadline, f"attach: {answer}")
            time.sleep(0.01)
        expect(answer["next"] > self.told, f"{answer}, but {self.told} notices were told before")
        self.world.count["visits"] += 1
        if self.pending:
            self.make(self.pending)

    def leave(self) -> None:
        """Some go in the middle of a request, which they ask again when they come back, or of a line."""
        how = self.random.random()
        if how < 0.2:
            self.talk.send(self.numbered(self.some_submit()))
        elif how < 0.3:
            self.talk.send({"op": "read", "point": POINTS[0]}, cut=10)

    # -- requests that are made once

    def numbered(self, request: Line) -> Line:
        self.number += 1
        self.pending = numbered = {**request, "seq": self.number}
        return numbered

    def make(self, request: Line) -> None:
        [answer] = self.ask(request)
        self.pending = None
        if "error" in answer:
            self.number -= 1
        getattr(self, "made_" + request["op"])(request, answer)

    def some_submit(self) -> Line:
        lease = self.random.choice([20, 50, 200, 1_000, 10_000])
        points = self.random.sample(POINTS, self.random.choice([1, 1, 2, 3]))
        return {"op": "submit", "policy": self.random.choice(["abort", "keep"]), "writes": [
            {"point": point, "value": self.random.randint(0, 100_000), "priority": self.random.choice([3, 8, 8, 10, 12, 16]), "lease": lease,
             "revert": [[self.random.randint(0, 100_000), self.random.choice([20, 300])] for _ in range(self.random.choice([0, 0, 1, 2]))]}
            for point in points]}

    def submit(self) -> None:
        self.make(self.numbered(self.some_submit()))

    def made_submit(self, request: Line, answer: Line) -> None:
        expect(answer.get("ok") == "accepted", f"{request}: {answer}")
        self.transactions[answer["txn"]] = Transaction(request["writes"], answer["until"])
        self.world.acknowledge(answer["txn"], self, request["writes"])
        self.forget()

    def forget(self) -> None:
        """Of those that are done the last ones are enough to know."""
        for txn in list(self.transactions)[:-50]:
            if self.transactions[txn].done:
                del self.transactions[txn]

    def some_transaction(self) -> int | None:
        """One of the last ones, or None."""
        return self.random.choice([None, *self.transactions][-3:])

    def renew(self) -> None:
        txn = self.some_transaction()
        if txn:
            self.make(self.numbered({"op": "renew", "txn": txn, "length": self.random.choice([10, 300, 2_000])}))

    def made_renew(self, request: Line, answer: Line) -> None:
        transaction = self.transactions[request["txn"]]
        if answer.get("ok") == "renewed":
            expect(answer["until"] >= transaction.until, f"a renewal made {request['txn']} shorter: {answer}, {transaction.until} before")
            transaction.until = answer["until"]
        elif not self.is_forgotten(request["txn"], answer):
            expect(answer["error"] == "ended" and answer["at"] <= answer["moment"], f"{request}: {answer}")
            self.hear_notices()
            causes = {(notice["cause"], notice["at"], notice.get("by")) for notice in transaction.ended.values()}
            expect((answer["cause"], answer["at"], answer.get("by")) in causes, f"{request}: {answer}, but its notices tell {causes}")

    def cancel(self) -> None:
        txn = self.some_transaction()
        if txn:
            self.make(self.numbered({"op": "cancel", "txn": txn}))

    def made_cancel(self, request: Line, answer: Line) -> None:
        transaction = self.transactions[request["txn"]]
        if answer.get("ok") == "cancelled":
            transaction.cancelled = answer["at"]
        elif not self.is_forgotten(request["txn"], answer):
            expect(answer["error"] == "over", f"{request}: {answer}")
            self.hear_notices()
            expect(len(transaction.ended) == len(transaction.writes), f"{request} is over, but {transaction.ended} is all that was told")
            expect(answer["at"] == max(notice["at"] for notice in transaction.ended.values()), f"{request}: {answer}, but {transaction.ended}")

    def is_forgotten(self, txn: int, answer: Line) -> bool:
        """Whether it is known no more. That it may be is judged at the end, when it is known which others were done behind it."""
        forgotten = bool(answer["error"] == "unknown-txn")
        if forgotten:
            self.world.forgotten.append((txn, now()))
        return forgotten

    # -- what is in force

    def look(self) -> None:
        """At a point, mostly one of its own. Requests that are sent together are done together; if the slots are the same before and
        after, they were so in between."""
        chosen = self.some_transaction()
        transaction = self.transactions[chosen] if chosen is not None else None
        point = self.random.choice(list(transaction.writes) if transaction else POINTS)
        before = now()
        first, read, again = self.ask(*[{"op": op, "point": point} for op in ("array", "read", "array")])
        after = now()
        if first == again:
            self.judge_basis(first, read)
            self.world.count["looks"] += 1
        if transaction:
            self.judge_own(transaction, point, first["slots"], before, after)

    def judge_basis(self, array: Line, read: Line) -> None:
        taken = [(priority, slot) for priority, slot in enumerate(array["slots"], 1) if slot]
        live = [one for one in taken if "until" in one[1]]
        if not taken:
            wanted = {"value": DEFAULT, "from": "default"}
        else:
            priority, slot = (live or taken)[0]
            wanted = {"value": slot["value"], "from": "lease" if live else "pending", "priority": priority, "txn": slot["txn"]}
        found = {key: value for key, value in read.items() if key not in ("ok", "point", "mark", "took", "since")}
        expect(found == wanted, f"the slots are {array}, but the reading {read}")
        self.judge_device(read)

    def judge_device(self, read: Line) -> None:
        """What the device has meanwhile is told where it is another value than that of the point, and with it since when."""
        expect(("took" in read) == ("since" in read), f"one of 'took' and 'since' stands without the other: {read}")
        if "took" in read:
            expect(read["took"] != read["value"] and read["since"] <= now(), f"what the device has meanwhile is not as it should be: {read}")

    def judge_own(self, transaction: Transaction, point: str, slots: list[Line | None], before: int, after: int) -> None:
        write = transaction.writes[point]
        slot = slots[write["priority"] - 1]
        if slot and "until" in slot and self.transactions.get(slot["txn"]) is transaction:
            expect((slot["value"], slot["until"]) == (write["value"], transaction.until), f"told until {transaction.until}, but {slot}")
            expect(before < slot["until"], f"at {before} there is still {slot}")
        else:
            self.hear_notices()
            ended = transaction.ended.get(point)
            expect(ended and ended["at"] <= after, f"a lease of {write} until {transaction.until} was gone by {after}, and was told {ended}")

    # -- notices

    def hear_notices(self) -> None:
        more = True
        while more:
            [page] = self.ask({"op": "notices", "process": self.name, "from": self.told + 1, "max": 64})
            for notice in page["list"]:
                self.judge(notice)
            expect(page["next"] == self.told + 1, f"{page} behind {self.told}")
            more = len(page["list"]) == 64

    def judge(self, notice: Line) -> None:
        transaction = self.transactions.get(notice["txn"])
        expect(notice["n"] == self.told + 1, f"{notice} behind {self.told}")
        expect(transaction and not transaction.done, f"{notice} of a transaction that is not its own, or done")
        expect(self.at <= notice["at"] <= now(), f"{notice} behind one at {self.at}")
        getattr(self, "told_" + notice["kind"])(transaction, notice)
        self.told, self.at = notice["n"], notice["at"]
        self.notices.append(hash(json.dumps(notice)))
        self.world.count["notices"] += 1

    def told_ended(self, transaction: Transaction, notice: Line) -> None:
        point, at = notice["point"], notice["at"]
        expect(point in transaction.writes and point not in transaction.ended, f"{notice}, but it ended {transaction.ended}")
        legal = {
            "expired": at == transaction.until,
            "cancelled": at == transaction.cancelled,
            "superseded": at < transaction.until and notice["txn"] < notice.get("by", 0),
            "died": at < transaction.until,
        }
        expect(legal.get(notice["cause"]), f"{notice}, but it was told until {transaction.until}, cancelled {transaction.cancelled}")
        transaction.ended[point] = notice
        self.world.causes[notice["cause"]] += 1
        if notice["cause"] == "superseded":
            self.world.takings.append((notice["by"], point, transaction.writes[point]["priority"]))
        if notice["cause"] == "superseded" or not transaction.writes[point]["revert"]:
            transaction.over[point] = at

    def reverts_until(self, transaction: Transaction, notice: Line) -> int:
        point = notice["point"]
        expect(point in transaction.ended and point not in transaction.over, f"{notice}, but there is no reversion")
        transaction.over[point] = notice["at"]
        return int(transaction.ended[point]["at"]) + sum(int(hold) for _, hold in transaction.writes[point]["revert"])

    def told_reverted(self, transaction: Transaction, notice: Line) -> None:
        expect(notice["at"] == self.reverts_until(transaction, notice), f"{notice} behind {transaction.ended}")

    def told_cut(self, transaction: Transaction, notice: Line) -> None:
        expect(notice["at"] < self.reverts_until(transaction, notice), f"{notice} behind {transaction.ended}")
        self.world.takings.append((notice["by"], notice["point"], transaction.writes[notice["point"]]["priority"]))

    def told_done(self, transaction: Transaction, notice: Line) -> None:
        expect(len(transaction.over) == len(transaction.writes), f"{notice}, but only {transaction.over} is over")
        expect(notice["at"] == max(transaction.over.values()), f"{notice}, but its last part was over at {transaction.over}")
        transaction.done = True
        self.world.done[notice["txn"]] = notice["at"]


class World:
    """All clients, and what they know together."""

    def __init__(self, server: Server, staying: int) -> None:
        self.server, self.wrong, self.closing = server, "", threading.Event()
        self.keeper = Doorkeeper(self)
        # How long each waited for a worker that answered it, and the longest that one took for an answer behind that, in seconds.
        self.waits, self.slowest = list[float](), 0.0
        self.door = threading.Semaphore(server.workers + MOST_WAITING)
        self.count, self.causes = collections.Counter[str](), collections.Counter[str]()
        self.lock, self.latest = threading.Lock(), 0
        # By transaction, whose it is and which slots it took; and which transaction took which slot, as was told to whom it was taken from.
        self.owners: dict[int, tuple[str, set[tuple[str, int]]]] = {}
        self.takings: list[tuple[int, str, int]] = []
        # When each was done, and which was known no more, by when.
        self.done, self.forgotten = dict[int, int](), list[tuple[int, int]]()
        # What was watched: of which client, which notice, what it was.
        self.watched: list[tuple[Client, int, int]] = []
        self.clients = [Client(place, self) for place in range(CLIENTS)]
        # Those that stay, how many of them each life of the program has answered, and after how many seconds it had answered all.
        self.staying = [Client(CLIENTS + place, self) for place in range(staying)]
        self.there, self.all_there = collections.Counter[int](), list[float]()

    def arrived(self, process: int) -> None:
        """One that stays has its first answer of the process of this number."""
        with self.lock:
            self.there[process] += 1
            if self.there[process] == len(self.staying):
                self.all_there.append(time.monotonic() - self.server.since)

    def acknowledge(self, txn: int, client: Client, writes: Sequence[Line]) -> None:
        with self.lock:
            expect(txn not in self.owners, f"transaction {txn} is {client.name}'s, but also {self.owners.get(txn)}")
            self.owners[txn] = client.name, {(write["point"], write["priority"]) for write in writes}
            self.latest = max(self.latest, txn)

    def waited(self, answered: float, came: float, asked: float | None) -> None:
        """One that came at this moment was answered what it asked, which was its first question where no moment is told."""
        with self.lock:
            if asked is None:
                self.waits.append(answered - came)
            else:
                self.slowest = max(self.slowest, answered - asked)

    def guard(self, run: Callable[[], object], client: Client | None = None) -> None:
        """Runs this, and keeps the first error of all that are no lost connection."""
        try:
            run()
        except Lost:
            self.count["lost"] += 1
        except Exception as error:
            heard = "".join(f"\n  {json.dumps(asked)}\n    {json.dumps(told)}" for asked, told in client.heard) if client else ""
            self.wrong = self.wrong or f"{client.name if client else 'beside the clients'}: {error!r}{', behind' if heard else ''}{heard}"
            self.closing.set()

    def come_and_go(self, client: Client) -> None:
        while not self.closing.is_set():
            with self.door:
                if not self.closing.is_set():
                    self.guard(lambda: client.visit(client.random.randint(1, 20)), client)
            self.closing.wait(client.random.random() * 2)

    def come_and_stay(self, client: Client) -> None:
        while not self.closing.is_set():
            self.guard(client.stay, client)
            self.closing.wait(0.1)

    def watch(self, place: int) -> None:
        """Watches a client's process for a while, and then another's, and so on."""
        chance = random.Random(place)
        while not self.closing.is_set():
            self.guard(lambda: self.watch_one(self.clients[chance.randrange(CLIENTS)], chance.uniform(10, 30)))
            self.closing.wait(0.1)

    def watch_one(self, client: Client, seconds: float) -> None:
        """So many seconds count from when a worker has it: one that is gone before is served all the same when its turn comes, and holds the
        worker for a minute, so that who comes next would wait longer and longer."""
        talk, following = Talk(self), client.told + 1
        try:
            talk.send({"op": "watch", "process": client.name, "from": following})
            talk.wait_for_a_worker()
            until = time.monotonic() + seconds
            while time.monotonic() < until and not self.closing.is_set():
                notice = talk.hear(0.5)
                if notice:
                    expect(notice["n"] == following, f"watched {notice}, where {following} comes next")
                    self.watched.append((client, following, hash(json.dumps(notice))))
                    following += 1
        finally:
            talk.close(abruptly=True)

    # -- the end

    def judge_all(self) -> None:
        """Behind a last visit of each, and once all reversions are over."""
        self.each(lambda client: client.visit(0, last=True))
        time.sleep(1)
        self.each(Client.look_back)
        expect(sorted(self.owners) == list(range(1, self.latest + 1)), "a transaction is known to nobody")
        for by, point, priority in self.takings:
            expect((point, priority) in self.owners[by][1], f"transaction {by} took slot {priority} of {point}, which it did not ask for")
        moments = sorted(self.done.values())
        for txn, by in self.forgotten:
            others = bisect.bisect_right(moments, by) - bisect.bisect_left(moments, self.done[txn]) - 1
            expect(others >= KEPT_DONE, f"transaction {txn} was known no more by {by}, when only {others} others were done behind it")
        for client, number, told in self.watched:
            expect(client.notices[number - 1] == told, f"notice {number} of {client.name} was watched as another one")

    def each(self, run: Callable[[Client], object]) -> None:
        """Runs this for each client, so many at a time."""
        waiting = list(self.clients)

        def some() -> None:
            while waiting and not self.wrong:
                client = waiting.pop()
                self.guard(lambda: run(client), client)
        lost = self.count["lost"]
        run_all([threading.Thread(target=some) for _ in range(FEW)])
        expect(not self.wrong, self.wrong)
        expect(self.count["lost"] == lost, "a connection was lost though nobody killed the program")


def run_all(threads: Sequence[threading.Thread]) -> None:
    for thread in threads:
        thread.start()
    for thread in threads:
        thread.join()


def rule(world: "World", seconds: float) -> tuple[Memory, list[float]]:
    """Kills the program and starts it again by chance, in the first two thirds of the time. Gives what it had in memory, in kB: at the
    start of each life, at the end of each but the last, and over the last one; and what load the machine had."""
    server, chance, began = world.server, random.Random(1), time.monotonic()
    ends, course, loads, told = [], [], [], began
    while not world.closing.wait(chance.uniform(0.3, min(6, seconds / 10))) and time.monotonic() < began + seconds:
        files, memory = server.files(), server.memory()
        loads.append(os.getloadavg()[0])
        expect(files <= server.workers + OTHER_FILES, f"{files} files are open")
        if time.monotonic() < began + seconds * 2 / 3:
            ends.append(memory)
            server.kill(chance.choice([signal.SIGKILL, signal.SIGTERM]))
            server.check()
            server.start()
            world.count["kills"] += 1
        else:
            course.append(memory)
        if time.monotonic() > told + 60:
            told = time.monotonic()
            print(f"stress: {told - began:.0f} seconds, {world.count['requests']} requests, {world.count['kills']} kills, "
                  f"{memory / 1024:.1f} MB in memory, the longest wait {max(world.waits, default=0):.1f} seconds, load {loads[-1]:.1f}",
                  file=sys.stderr, flush=True)
    world.closing.set()
    return (server.starts, ends, course or ends[-1:]), loads


def report(world: "World", seconds: float, memory: Memory, loads: Sequence[float]) -> None:
    count, causes = world.count, world.causes
    print(f"stress: {seconds:.0f} seconds, {CLIENTS} clients that come and go and {len(world.staying)} that stay over "
          f"{world.server.workers} workers, {count['kills']} kills, "
          f"{count['lost'] - count['refused']} connections lost, {count['refused']} refused until it listened again\n"
          f"  {count['visits']} visits, {count['requests']} requests ({count['requests'] / seconds:.0f} a second), "
          f"{len(world.owners)} transactions, each made once\n"
          f"  {count['looks']} looks at what is in force, {count['notices']} notices, {len(world.watched)} watched, "
          f"{len(world.forgotten)} requests for a transaction that was forgotten\n"
          f"  leases that expired {causes['expired']}, were cancelled {causes['cancelled']}, superseded {causes['superseded']}, "
          f"died {causes['died']}\n"
          f"{report_waits(sorted(world.waits), world.slowest)}\n"
          f"{report_stays(sorted(world.all_there))}"
          f"  load of the machine: {min(loads):.1f} to {max(loads):.1f}, {sum(loads) / len(loads):.1f} in the mean, "
          f"over {os.cpu_count()} processors\n"
          f"{report_memory(*memory)}")


def report_waits(waits: Sequence[float], slowest: float) -> str:
    """Of visits that were not cut off by a kill."""
    half, most, over = waits[len(waits) // 2], waits[len(waits) * 99 // 100], sum(wait > LONG for wait in waits)
    return (f"  seconds until a worker answered: {half:.1f} or less for half of the visits, {most:.1f} for all but a hundredth, "
            f"{waits[-1]:.1f} the longest, over {LONG} for {over};\n    {slowest:.1f} at most for an answer behind the first")


def report_stays(times: Sequence[float]) -> str:
    if not times:
        return ""
    return (f"  seconds from a start until all that stay were answered: {times[len(times) // 2]:.1f} in the middle, {times[-1]:.1f} at most, "
            f"of {len(times)} starts\n")


def report_memory(starts: Sequence[int], ends: Sequence[int], course: Sequence[int]) -> str:
    tenth = max(1, len(ends) // 10)
    return (f"  MB in memory: {in_memory(starts)} when it began to listen ({in_memory(starts[:tenth])} in the first tenth of its lives, "
            f"{in_memory(starts[-tenth:])} in the last);\n"
            f"    {in_memory(ends)} when it was killed ({in_memory(ends[:tenth])} in the first tenth of the kills, "
            f"{in_memory(ends[-tenth:])} in the last);\n"
            f"    of the last life {in_memory(course[:1])} at first, {in_memory(course[len(course) // 3:][:1])} behind a third, "
            f"{in_memory(course[-1:])} at the end")


def in_memory(course: Sequence[int]) -> str:
    """The least and the most of these, of kB in MB."""
    least, most = f"{min(course) / 1024:.1f}", f"{max(course) / 1024:.1f}"
    return least if least == most else f"{least} to {most}"


def run(server: Server, seconds: float, staying: int) -> None:
    server.start()
    world = World(server, staying)
    keeper = threading.Thread(target=world.guard, args=(world.keeper.keep,))
    keeper.start()
    try:
        let_come(world, seconds)
    finally:
        world.keeper.off.set()
        keeper.join()


def let_come(world: "World", seconds: float) -> None:
    server = world.server
    threads = [threading.Thread(target=world.come_and_go, args=(client,)) for client in world.clients]
    threads += [threading.Thread(target=world.come_and_stay, args=(client,)) for client in world.staying]
    threads += [threading.Thread(target=world.watch, args=(place,)) for place in range(WATCHERS)]
    for thread in threads:
        thread.start()
    try:
        memory, loads = rule(world, seconds)
    finally:
        world.closing.set()
        for thread in threads:
            thread.join()
    expect(not world.wrong, world.wrong)
    world.judge_all()
    world.keeper.off.set()
    server.kill(signal.SIGTERM)
    expect(server.process.returncode == -signal.SIGTERM, f"it ended with {server.process.returncode} and not by the signal")
    told = server.check()
    expect(told.endswith("leases 0 pending 0"), f"nobody is there any more, but check tells: {told}")
    report(world, seconds, memory, loads)
    most = MOST_MEMORY + OF_A_WORKER * (server.workers - FEW)
    expect(max(itertools.chain(*memory)) < most * 1024, f"that is more memory than {most:.0f} MB")


def programs() -> int:
    """How many there are in all, as the words say it."""
    count = int(sys.argv[2]) if len(sys.argv) > 2 else CLIENTS
    if len(sys.argv) > 2 and not CLIENTS < count <= MOST_PROGRAMS:
        sys.exit(f"stress: PROGRAMS is {CLIENTS + 1} to {MOST_PROGRAMS}")
    if resource.getrlimit(resource.RLIMIT_NOFILE)[0] < count + SPARE + OWN_FILES:
        sys.exit(f"stress: say `ulimit -n {count + SPARE + OWN_FILES}` before, or more")
    return count


def main() -> None:
    heed_help(__doc__)
    program.need_program()
    staying = programs() - CLIENTS
    with tempfile.TemporaryDirectory() as folder:
        server = Server(folder, CLIENTS + staying + SPARE if staying else FEW)
        try:
            run(server, float(sys.argv[1]) if len(sys.argv) > 1 else 60.0, staying)
        except Wrong as wrong:
            sys.exit(f"stress: {wrong}")
        finally:
            server.stop()


if __name__ == "__main__":
    main()
