"""bossd-elected: of several machines whose journal is in etcd, the one serves that has the lock.

The lock is that of `etcdctl lock`: keys under one name, each kept by a lease, of which the oldest has it. Once it is this machine's the server is run, and watched: the lease is kept alive, etcd is asked four times a
second whether the lock is still there, and the server once a second whether it answers. A server whose lock was not found within the last second is
stopped (SIGSTOP) until it is found again, so that it gives no answer that may be out of date; one whose lock is gone, whose journal another
one took over or it can't change any more, or that hangs, is killed. Changes need none of this: a server that lost its journal can acknowledge
none.

A server that has keys is asked with the key of BOSSD_KEY. To whoever shows none it says no more than that it is there."""

import base64
import contextlib
import http.client
import json
import os
import random
import re
import shutil
import signal
import socket
import subprocess
import sys
import time
from typing import Any, Iterator, NamedTuple, Optional, Sequence, Tuple

from .._addresses import QUESTION
from .._keys import KeyRefused, Source, key_in, shown_in
from .._protocol import host_and_port, is_name
from ._live import NAMES
from ._program import ENDING, Fault, not_started, status_of

USAGE, GONE, KILLED = 2, 1, 137
SHOWN = "say what serves: bossd-elected PROGRAM .. serve CATALOGUE etcd:HOST:PORT[,HOST:PORT..]/NAME ADDRESS WORKERS CONNECTIONS [RULES [PLAN [KEYS]]]"
WORD = re.compile(r"etcd:([A-Za-z0-9._:,\[\]-]+)/([A-Za-z0-9._-]{1,64})")
# The lease of the lock, in seconds: so long after its machine is gone another one has it.
LEASE = 5
# How often etcd is asked for the lock, and how long one member may take, in seconds.
EACH, SOON = 0.25, 0.4
# How many seconds may have passed since it was found before the server is stopped, and before it is killed.
FRESH, LOST = 1.0, 10.0
# How often the server is asked, and for how many seconds it may be silent: as long as one member of etcd may keep it waiting, and a bit; a
# server whose workers were all busy before it was asked says so after twelve; and the first answer comes behind the reading of the journal.
ASKED, SILENT, BUSY, OPENING = 1.0, 6.5, 15.0, 300.0


class Words(NamedTuple):
    """What is run, over which members of etcd, under which name there, and where the server listens."""
    command: Tuple[str, ...]
    members: Tuple[str, ...]
    name: str
    address: str


def elect(words: Sequence[str]) -> int:
    """Serves once this machine is elected, up to the server's end; the status to end with."""
    ENDING.by({signal.SIGHUP: 0, signal.SIGINT: 0, signal.SIGTERM: 0})
    try:
        given, key = words_of(words), key_of()
        with locked(given) as members:
            return Watcher(given, members, key).run()
    except Fault as fault:
        say(fault.why)
        return fault.status


def say(text: str) -> None:
    print(f"bossd-elected: {text}", file=sys.stderr, flush=True)


def words_of(words: Sequence[str]) -> Words:
    """Fault where they are none."""
    place = next((place for place, word in enumerate(words) if word == "serve"), 0)
    if not place or len(words) < place + 6:
        raise Fault(USAGE, SHOWN)
    journal, address = words[place + 2], words[place + 3]
    found = WORD.fullmatch(journal)
    if found is None:
        raise Fault(USAGE, f"{journal} names no journal in etcd: etcd:HOST:PORT[,HOST:PORT..]/NAME")
    try:
        members = tuple(found[1].split(","))
        for one in (*members, address):
            host_and_port(one)
    except ValueError as error:
        raise Fault(USAGE, str(error)) from error
    return Words(tuple(words), members, found[2], address)


class OwnKey(NamedTuple):
    """A key that is shown to the server, and whose it is."""
    key: Source
    name: str

    def line(self) -> bytes:
        """What the server is asked first; without the key where it can't be read just now."""
        with contextlib.suppress(OSError):
            key = self.key()
            return shown_in(QUESTION, key, self.name) if key else QUESTION
        return QUESTION


def key_of() -> Optional[OwnKey]:
    """The key that the environment names; None where it names none. Fault."""
    path, name = os.environ.get("BOSSD_KEY"), os.environ.get("BOSSD_AS") or NAMES[0]
    if not path:
        return None
    if not is_name(name):
        raise Fault(USAGE, f"BOSSD_AS in the environment is no name of a process: {name}")
    try:
        return OwnKey(key_in(path, may_be_empty=True), name)
    except KeyRefused as error:
        raise Fault(USAGE, str(error)) from error
    except OSError as error:
        raise Fault(USAGE, f"{path}: {error.strerror or error}") from error


# ---- the lock

@contextlib.contextmanager
def locked(words: Words) -> Iterator["Members"]:
    """Waits for the lock, as `etcdctl lock` does, by a key that a lease keeps, and gives who keeps it; gives it back at the end."""
    members = Members(words, f"{words.name}/lock/{random.SystemRandom().getrandbits(62):x}")
    say(f"waits for {words.name}/lock at {', '.join(words.members)}")
    try:
        kept = now() - ASKED
        while True:
            moment = now()
            if moment >= kept + ASKED:
                kept = moment
                members.keep()
            if members.is_first():
                break
            time.sleep(max(0.0, moment + EACH - now()))
        yield members
    finally:
        members.give_back()


def started(command: Sequence[str], end: str, **more: Any) -> "subprocess.Popen[bytes]":
    """A program that gets this signal where this one is killed. Fault where it can't be started."""
    guard = ["setpriv", "--pdeathsig", end] if shutil.which("setpriv") else []
    try:
        return subprocess.Popen([*guard, *command], stdin=subprocess.DEVNULL, **more)
    except OSError as error:
        raise Fault(not_started(error), f"{command[0]}: {error.strerror}") from error


# ---- who watches the server

class Seen(NamedTuple):
    """What etcd holds: whether the lock is there, and the owner of the journal's chain, none where there is no journal yet."""
    is_locked: bool
    owner: Optional[str]


class Members:
    """Asks members of etcd, one at a time: the next one where one did not answer."""

    def __init__(self, words: Words, lock: str) -> None:
        self._members, self._place = words.members, 0
        self._asks = {"success": [{"request_range": {"key": spelled(key)}} for key in (lock, f"{words.name}/a/head")]}
        self._lock, self._prefix = lock, f"{words.name}/lock/"
        # The lock's key is named by its lease, as etcdctl does.
        self._lease = {"ID": str(int(lock.rpartition("/")[2], 16))}
        self._link: Optional[http.client.HTTPConnection] = None

    def look(self) -> Optional[Seen]:
        """What a majority of the members holds now; None where this one does not tell in time. A range in a transaction is answered by a
        member only once it knows that it is of the majority."""
        try:
            lock, head = (told["response_range"].get("kvs", []) for told in json.loads(self._ask("/v3/kv/txn", self._asks))["responses"])
            return Seen(bool(lock), base64.b64decode(head[0].get("value", "")).decode().split(" ")[1] if head else None)
        except (OSError, ValueError, LookupError, AttributeError):
            self._go_on()
            return None

    def is_first(self) -> bool:
        """Whether this machine's key is the oldest at the lock. Where it has none, as at first, or since its lease ended, it gets one."""
        try:
            first = {"key": spelled(self._prefix), "range_end": spelled(self._prefix[:-1] + "0"), "limit": "1", "sort_order": "ASCEND",
                     "sort_target": "CREATE", "keys_only": True}
            found = json.loads(self._ask("/v3/kv/txn", {"success": [{"request_range": {"key": spelled(self._lock)}}, {"request_range": first}]}))
            mine, oldest = (told["response_range"].get("kvs", []) for told in found["responses"])
            if not mine:
                self._stand()
            return bool(mine) and bool(oldest) and oldest[0]["key"] == mine[0]["key"]
        except (OSError, ValueError, LookupError, AttributeError):
            self._go_on()
            return False

    def _stand(self) -> None:
        """Has a key at the lock, by a lease of its own. OSError, ValueError."""
        with contextlib.suppress(ValueError):
            # It may be there yet.
            self._ask("/v3/lease/grant", {**self._lease, "TTL": str(LEASE)})
        self._ask("/v3/kv/put", {"key": spelled(self._lock), "lease": self._lease["ID"]})

    def keep(self) -> None:
        """Keeps the lease alive."""
        try:
            self._ask("/v3/lease/keepalive", self._lease)
        except (OSError, ValueError):
            self._go_on()

    def give_back(self) -> None:
        """Ends the lease, at the first member that answers; where none does it ends by itself."""
        for _ in self._members:
            try:
                self._ask("/v3/lease/revoke", self._lease)
                return
            except (OSError, ValueError):
                self._go_on()

    def _ask(self, path: str, what: object) -> bytes:
        """What a member answers. OSError, ValueError."""
        try:
            if self._link is None:
                host, port = host_and_port(self._members[self._place])
                self._link = http.client.HTTPConnection(host, port, timeout=SOON)
            self._link.request("POST", path, json.dumps(what))
            answer = self._link.getresponse()
            data = answer.read()
        except http.client.HTTPException as error:
            raise OSError(repr(error)) from error
        if answer.status != 200:
            raise ValueError(data)
        return data

    def _go_on(self) -> None:
        if self._link is not None:
            self._link.close()
        self._link, self._place = None, (self._place + 1) % len(self._members)


def spelled(key: str) -> str:
    return base64.b64encode(key.encode()).decode()


class Question:
    """Asks the server over one connection, which stays, so that it has its worker: once a second, and never waits. One that has keys ends the
    connection of whoever shows none that is right, which is a sign of life too."""

    def __init__(self, address: str, now: float, key: Optional[OwnKey] = None) -> None:
        self._where, self._key = host_and_port(address), key
        self._link: Optional[socket.socket] = None
        # When it was asked last, and is it unanswered; whether this connection has a worker; when there was the last sign of life.
        self._asked, self._is_open, self._is_served, self._well = now - ASKED, False, False, now
        # Whether this connection has said a line, and whether it was said that the server takes no key of this one.
        self._has_spoken, self._is_told = False, False
        self.has_answered, self.is_stopped = False, False

    def ask(self, now: float) -> None:
        try:
            if self._link is None:
                self._link = socket.create_connection(self._where, timeout=EACH)
                self._link.setblocking(False)
                self._is_open, self._is_served, self._has_spoken = False, False, False
            if self._is_open:
                self._hear(now)
            elif now >= self._asked + ASKED:
                self._link.sendall(QUESTION if self._has_spoken or self._key is None else self._key.line())
                self._asked, self._is_open, self._has_spoken = now, True, True
        except BlockingIOError:
            pass
        except OSError:
            self._drop()

    def is_dead(self, now: float) -> bool:
        """Whether it was silent for too long."""
        return now - self._well > (SILENT if self._is_served else BUSY if self.has_answered else OPENING)

    def pass_over(self, now: float) -> None:
        """It could not answer until now."""
        self._well = now

    def _hear(self, now: float) -> None:
        assert self._link is not None
        data = self._link.recv(65_536)
        if not data:
            self._drop()
            return
        self._well = now
        if data.endswith(b"\n"):
            self._is_open = False
            self.is_stopped = b'"stopped"' in data
            self._is_served = b'"busy"' not in data
            self.has_answered = self.has_answered or self._is_served
            if b'"wrong-key"' in data:
                self._tell_no_key()
                self._drop()

    def _tell_no_key(self) -> None:
        if not self._is_told:
            self._is_told = True
            say("the server wants a key that is right" + ("" if self._key is None else f" for {self._key.name}")
                + ": until it is shown one nobody sees here that it answers `stopped`")

    def _drop(self) -> None:
        if self._link is not None:
            self._link.close()
        self._link = None


def now() -> float:
    """Seconds, of a clock that goes on while the machine sleeps."""
    return time.clock_gettime(time.CLOCK_BOOTTIME)


class Watcher:
    """Runs the server, and lets it go on only as long as it may."""

    def __init__(self, words: Words, members: Members, key: Optional[OwnKey] = None) -> None:
        self.words, self.members, self.key = words, members, key
        self.owner: Optional[str] = None
        self.is_stopped = False

    def run(self) -> int:
        """The server's status."""
        say(f"has the lock of {self.words.name}, and serves at {self.words.address}")
        found, status = now(), GONE
        with contextlib.ExitStack() as over:
            with ENDING.held():
                self.process = started(self.words.command, "KILL")
                over.callback(self._end)
            status = self._keep(found)
        return status

    def _end(self) -> None:
        # A stopped one takes no other signal; and an end of any kind leaves the journal whole.
        self.process.kill()
        self.process.wait()

    def _keep(self, found: float) -> int:
        question, kept = Question(self.words.address, now(), self.key), found
        while True:
            moment = now()
            if moment >= kept + ASKED:
                kept = moment
                self.members.keep()
            seen = self.members.look()
            if seen is not None:
                found = moment
            why = self._judge(seen, now() - found, question)
            if why:
                say(f"{why}: the server is killed")
                return KILLED
            try:
                return status_of(self.process.wait(max(0.01, moment + EACH - now())))
            except subprocess.TimeoutExpired:
                pass

    def _judge(self, seen: Optional[Seen], age: float, question: Question) -> str:
        """Stops it and lets it go on; gives why it has to end, if it has."""
        if seen is not None and not seen.is_locked:
            return "the lock is gone"
        if seen is not None and self._is_deposed(seen, question):
            return "another server has taken the journal over"
        if age > LOST:
            return f"no member of etcd told within {LOST:.0f} seconds whether the lock is there"
        self._stop(age > FRESH)
        if self.is_stopped:
            question.pass_over(now())
            return ""
        question.ask(now())
        if question.is_stopped:
            return "the server can change its journal no more"
        return "the server does not answer" if question.is_dead(now()) else ""

    def _is_deposed(self, seen: Seen, question: Question) -> bool:
        """Whether the chain has another owner than when the server had answered first, which is behind its taking over."""
        if question.has_answered and self.owner is None:
            self.owner = seen.owner
        return self.owner is not None and seen.owner != self.owner

    def _stop(self, is_old: bool) -> None:
        if is_old != self.is_stopped:
            self.is_stopped = is_old
            self.process.send_signal(signal.SIGSTOP if is_old else signal.SIGCONT)
            say("no member of etcd tells whether the lock is there: the server is stopped" if is_old else "the lock is there: the server goes on")
