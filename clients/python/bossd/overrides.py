"""Overrides that stand: a service that holds people's overrides until somebody releases them, as one control process.

    python3 -m bossd.overrides HOST:PORT [--file FILE] [--socket PATH] [--as NAME]

A lease ends when the connection of its process does. So this process stays, renews what people set, keeps it in a file, and takes it
again when it is started anew. It is asked over a Unix socket, by lines of JSON; `asked` does so."""

import argparse
import asyncio
import contextlib
import json
import logging
import os
import signal
import socket
import struct
import sys
import time
from typing import IO, Any, Dict, List, NamedTuple, Optional, Sequence, Tuple

from . import aio
from ._addresses import addresses_of
from ._keys import Source as KeySource
from ._keys import key_in
from ._protocol import (
    LONGEST_LINE, PULSE, Ended, NoMemory, NotYours, Refused, Request, Stopped, Taken, UnknownHost, UnknownTransaction, line_of,
    renewal, several, steps_of, submission, table, a_step, a_text, whole, wrong, write,
)

SOCKET, FILE, PROCESS = "/run/bossd-overrides/socket", "/var/lib/bossd-overrides/overrides.json", "people"
# How long a lease is, which is renewed every third part, in milliseconds. And for how long a value stays by a reversion when the lease ends
# with this process: while it is started anew nothing falls back, unless somebody else holds the point too.
LEASE, BRIDGE = 3_600_000, 60_000
# How much longer the lease of an override is that has an end, so that it is this process that ends it and not the clock.
GRACE = 5_000
# So many overrides may stand, so many that ended are kept, and so many characters a note may have.
MOST, KEPT, LONGEST_NOTE = 256, 64, 200
LOG = logging.getLogger("bossd.overrides")
GREATEST = 1 << 62
Key = Tuple[str, int]


class Override(NamedTuple):
    """What somebody set: `back` is played when it ends. `who` set it at the moment `at`; it ends at the moment `until`, or when it is
    released. `txn` is its transaction, where it has one."""
    point: str
    value: int
    priority: int
    back: List[List[int]]
    who: str
    at: int
    until: Optional[int]
    note: str
    txn: Optional[int] = None

    @property
    def key(self) -> Key:
        """Its slot."""
        return self.point, self.priority

    def sentence(self) -> str:
        """It in a line of the log."""
        return f"{self.point} = {self.value} at {self.priority} of {self.who}"


def now() -> int:
    """The moment, in milliseconds since 1970."""
    return time.time_ns() // 1_000_000


class Damaged(Exception):
    """The file is none of bossd-overrides. Its text says where it is not."""


class Store:
    """The file with what stands and what ended last."""

    def __init__(self, path: str) -> None:
        """OSError, Damaged."""
        self.path = path
        self.standing: Dict[Key, Override] = {}
        self.ended: List[Dict[str, Any]] = []
        try:
            with open(path, encoding="utf-8") as file:
                told = json.load(file)
            self.standing = {one.key: one for one in (Override(**each) for each in told["overrides"])}
            self.ended = told["ended"]
        except FileNotFoundError:
            pass
        except (ValueError, KeyError, TypeError) as error:
            raise Damaged(f"{path} is no file of overrides: {error}") from error

    def put(self, one: Override) -> None:
        """It stands. OSError."""
        self.standing[one.key] = one
        self._save()

    def drop(self, one: Override, why: str) -> None:
        """It stands no longer. OSError."""
        self.standing.pop(one.key, None)
        self.tell_end(one, why)

    def tell_end(self, one: Override, why: str) -> None:
        """Keeps that it ended, and why. OSError."""
        self.ended = (self.ended + [{**one._asdict(), "ended": now(), "why": why}])[-KEPT:]
        self._save()
        LOG.info("%s ended: %s", one.sentence(), why)

    def forget(self, one: Override, before: Optional[Override]) -> None:
        """It never stood, and what was there before does. OSError."""
        self.standing.pop(one.key, None)
        if before is not None:
            self.standing[before.key] = before
        self._save()

    def told(self) -> Dict[str, Any]:
        """All of it, as JSON has it."""
        return {"overrides": [one._asdict() for one in self.standing.values()], "ended": self.ended}

    def _save(self) -> None:
        """Writes the file so that it is the old one or the new one, whatever happens meanwhile."""
        with open(self.path + ".new", "w", encoding="utf-8") as file:
            json.dump(self.told(), file, indent=1)
            file.flush()
            os.fsync(file.fileno())
        os.replace(self.path + ".new", self.path)
        folder = os.open(os.path.dirname(os.path.abspath(self.path)), os.O_RDONLY)
        try:
            os.fsync(folder)
        finally:
            os.close(folder)


class Overrides:
    """Holds what stands, over a client that is attached."""

    def __init__(self, store: Store) -> None:
        self.store = store
        self.client: Optional[aio.Client] = None
        self._turn = asyncio.Lock()
        self._due: Dict[int, float] = {}

    async def run(self, address: str, process: str, key: Optional[KeySource] = None) -> None:
        """Takes again what stood, and keeps it, for ever. Taken, WrongKey, UnknownHost."""
        async with self._turn:
            self.client = await aio.connect(address, process, float("inf"), key=key)
            for one in list(self.store.standing.values()):
                await self._retake(one)
        LOG.info("%d overrides stand, as %s at %s", len(self.store.standing), process, address)
        while True:
            await asyncio.sleep(PULSE)
            async with self._turn:
                await self._keep()

    # -- what is asked

    async def set(self, one: Override) -> Override:
        """Sets it, in place of what stands in its slot. Refused, OSError."""
        async with self._turn:
            before = self.store.standing.get(one.key)
            if before is None and len(self.store.standing) >= MOST:
                raise OSError(f"{MOST} overrides stand, which are the most")
            # It is in the file first: what the server accepted is never lost, and what it refuses goes again.
            self.store.put(one)
            try:
                made = await self._submit(one)
            except Refused:
                self.store.forget(one, before)
                raise
            LOG.info("%s stands", made.sentence())
            if before is not None:
                self.store.tell_end(before, f"{one.who} set another one in its place")
            return made

    async def prolong(self, one: Override, until: Optional[int]) -> Override:
        """Lets it end at another moment, or when it is released. OSError."""
        async with self._turn:
            self.store.put(one._replace(until=until))
            await self._renew(self.store.standing[one.key])
            return self.store.standing[one.key]

    async def release(self, one: Override, who: str) -> None:
        """Ends it: its way back begins. OSError."""
        async with self._turn:
            if one.key in self.store.standing:
                await self._finish(self.store.standing[one.key], f"released by {who}")

    # -- what stands

    @property
    def _asker(self) -> aio.Client:
        assert self.client is not None
        return self.client

    async def _keep(self) -> None:
        for one in list(self.store.standing.values()):
            if one.until is not None and one.until <= now():
                await self._finish(one, "its time was over")
        standing = list(self.store.standing.values())
        answers = await self._asker.ask_all([{"op": "status", "txn": one.txn or 0} for one in standing])
        for one, answer in zip(standing, answers):
            if isinstance(answer, dict) and answer["live"] and answer["owner"] == self._asker.process:
                if time.monotonic() >= self._due.get(one.txn or 0, 0.0):
                    await self._renew(one)
            elif isinstance(answer, (dict, UnknownTransaction)):
                await self._mend(one)

    async def _renew(self, one: Override) -> None:
        self._due[one.txn or 0] = time.monotonic() + LEASE / 3_000
        with contextlib.suppress(Refused):
            # The next look finds out why it was refused.
            await self._asker.ask(renewal(one.txn or 0, self._length(one)))

    async def _mend(self, one: Override) -> None:
        """Takes again what ended with a connection or while the server was away; lets go what somebody else took."""
        try:
            await self._asker.ask(renewal(one.txn or 0, 1))
        except Ended as ended:
            if ended.cause not in ("died", "expired"):
                self.store.drop(one, ended.cause if ended.by is None else f"transaction {ended.by} took its slot")
                return
        except (UnknownTransaction, NotYours):
            pass
        except Refused:
            return
        await self._retake(one)

    async def _retake(self, one: Override) -> None:
        try:
            owner = await self._holder(one)
            if owner not in (None, self._asker.process):
                self.store.drop(one, f"{owner} holds its slot")
            else:
                await self._submit(one)
                LOG.info("%s was taken again", one.sentence())
        except (NoMemory, Stopped):
            pass
        except Refused as refused:
            self.store.drop(one, str(refused))

    async def _holder(self, one: Override) -> Optional[str]:
        """Whose lease is in its slot. Refused."""
        slot = (await self._asker.array(one.point)).slots.get(one.priority)
        if slot is None or slot.until is None:
            return None
        return (await self._asker.status(slot.txn)).owner

    async def _submit(self, one: Override) -> Override:
        back = [[one.value, BRIDGE]] + one.back
        made = write(one.point, one.value, priority=one.priority, lease=self._length(one), revert=back)
        accepted = await self._asker.submit([made], "keep")
        self._due[accepted.txn] = time.monotonic() + LEASE / 3_000
        self.store.put(one._replace(txn=accepted.txn))
        return self.store.standing[one.key]

    async def _finish(self, one: Override, why: str) -> None:
        """Ends it so that its own way back follows, and not the time for which its value would stay."""
        self._due.pop(one.txn or 0, None)
        with contextlib.suppress(Refused):
            if await self._holder(one) == self._asker.process:
                made = write(one.point, one.value, priority=one.priority, lease=1_000, revert=one.back)
                await self._asker.cancel((await self._asker.submit([made], "keep")).txn)
        self.store.drop(one, why)

    def _length(self, one: Override) -> int:
        return LEASE if one.until is None else max(1, min(LEASE, one.until - now() + GRACE))


# ---- who asks, and what

def a_back(key: str, found: object) -> None:
    several(0, None, a_step)(key, found)
    if isinstance(found, list) and len(found) > 7:
        raise wrong(key, "at most 7 steps", found)


A_SLOT = table({"point": a_text}, {"priority": whole(1, 16)})
A_SET = table({"point": a_text, "value": whole(-GREATEST, GREATEST)},
              {"priority": whole(1, 16), "until": whole(1, GREATEST), "back": a_back, "note": a_text, "for": a_text})
CHECKS = {"list": table({}, {}), "set": A_SET, "release": A_SLOT, "prolong": table({"point": a_text, "until": whole(1, GREATEST)}, {})}


def login_of(link: Any) -> str:
    """The name of the user at the other end of a Unix socket, as the system knows it."""
    # Only the service wants it: bossctl is for other systems too.
    import pwd

    _, user, _ = struct.unpack("3i", link.getsockopt(socket.SOL_SOCKET, socket.SO_PEERCRED, struct.calcsize("3i")))
    try:
        return pwd.getpwuid(user).pw_name
    except KeyError:
        return str(user)


def who_of(login: str, asked: Request) -> str:
    """Who asks: the user, and for whom, where it says so."""
    return f"{login} for {asked['for'][:64]}" if asked.get("for") else login


class Door:
    """Takes what is asked over the socket."""

    def __init__(self, overrides: Overrides, process: str) -> None:
        self.overrides, self.process = overrides, process

    async def serve(self, source: asyncio.StreamReader, sink: asyncio.StreamWriter) -> None:
        """Answers each line of a connection."""
        login = login_of(sink.get_extra_info("socket"))
        with contextlib.suppress(OSError, ValueError):
            while line := await source.readline():
                sink.write(json.dumps(await self.answer(line, login)).encode() + b"\n")
                await sink.drain()
        sink.close()

    async def answer(self, line: bytes, login: str) -> Dict[str, Any]:
        """What a line is answered: `ok`, or `error` and a `sentence`."""
        try:
            asked = json.loads(line)
            table({"do": a_text}, {})("", asked)
            check = CHECKS.get(asked["do"])
            if check is None:
                return {"error": "unknown-do", "sentence": f"there is no {asked['do']}: {', '.join(CHECKS)}"}
            check("", asked)
            return {"ok": asked["do"], **await self._do(asked, who_of(login, asked))}
        except Refused as refused:
            return {"error": refused.error, "sentence": str(refused), "fields": refused.fields}
        except (OSError, ValueError) as error:
            return {"error": "failed", "sentence": str(error)}

    async def _do(self, asked: Request, who: str) -> Dict[str, Any]:
        if asked["do"] == "list":
            return {"process": self.process, **self.overrides.store.told()}
        if asked["do"] == "set":
            one = Override(asked["point"], asked["value"], asked.get("priority", 8), steps_of(asked.get("back", [])), who, now(),
                           asked.get("until"), asked.get("note", "")[:LONGEST_NOTE])
            # A request that is none is said to be so before anything is kept.
            line_of(submission([write(one.point, one.value, lease=1, priority=one.priority, revert=one.back)]))
            return (await self.overrides.set(one))._asdict()
        standing = self.overrides.store.standing.get((asked["point"], asked.get("priority", 8)))
        if standing is None:
            return {"error": "none", "sentence": f"no override of {asked['point']} stands at priority {asked.get('priority', 8)}"}
        if asked["do"] == "prolong":
            return (await self.overrides.prolong(standing, asked["until"]))._asdict()
        await self.overrides.release(standing, who)
        return standing._asdict()


class NotMade(Exception):
    """The service did not do what was asked. `error` is why in a word, `fields` what the server said, where it was the server."""

    def __init__(self, answer: Dict[str, Any]) -> None:
        super().__init__(answer.get("sentence", answer["error"]))
        self.error, self.fields = answer["error"], answer.get("fields", {})


def asked(path: str, request: Request, seconds: float = 10.0) -> Dict[str, Any]:
    """What the service at this socket answers. NotMade; OSError where there is none, or it does not answer in time."""
    with socket.socket(socket.AF_UNIX, socket.SOCK_STREAM) as link:
        link.settimeout(seconds)
        link.connect(path)
        link.sendall(json.dumps(request).encode() + b"\n")
        line = link.makefile("rb").readline()
    if not line.endswith(b"\n"):
        raise ConnectionError(f"{path}: the service ended before it answered")
    answer: Dict[str, Any] = json.loads(line)
    if "error" in answer:
        raise NotMade(answer)
    return answer


# ---- how it all starts

async def serve(words: argparse.Namespace) -> None:
    """Runs until it is told to end. Taken, WrongKey, UnknownHost, OSError, Damaged."""
    key = key_in(words.key, may_be_empty=True) if words.key else None
    lock = locked(words.file)
    overrides = Overrides(Store(words.file))
    with contextlib.suppress(FileNotFoundError):
        os.unlink(words.socket)
    server = await asyncio.start_unix_server(Door(overrides, words.process).serve, words.socket, limit=LONGEST_LINE)
    # Who may ask is who may reach the server too. Where that wants a key, it is who is of this group. The folder's mode says otherwise.
    os.chmod(words.socket, 0o660 if key is not None and key() else 0o666)
    LOG.info("listening at %s", words.socket)
    task = asyncio.ensure_future(overrides.run(words.server, words.process, key))
    for sent in (signal.SIGINT, signal.SIGTERM):
        asyncio.get_running_loop().add_signal_handler(sent, task.cancel)
    try:
        await task
    except asyncio.CancelledError:
        if overrides.client is not None:
            await overrides.client.close()
    finally:
        server.close()
        with contextlib.suppress(FileNotFoundError):
            os.unlink(words.socket)
        lock.close()


def locked(path: str) -> IO[str]:
    """The lock of the file, as long as what is given is open. OSError where another one has it."""
    import fcntl

    lock = open(path + ".lock", "w")
    try:
        fcntl.flock(lock, fcntl.LOCK_EX | fcntl.LOCK_NB)
    except OSError as error:
        lock.close()
        raise OSError(f"{path}: another bossd-overrides has it") from error
    return lock


def main(given: Optional[Sequence[str]] = None) -> int:
    """Ends with 0 when it is told to end, with 1 where it cannot go on, with 2 where the words are none, with 3 where the file is damaged."""
    parser = argparse.ArgumentParser(prog="bossd-overrides", description="Holds people's overrides until they are released.")
    parser.add_argument("server", metavar="HOST:PORT[,..]", help="where the server listens, or may")
    parser.add_argument("--file", default=FILE, help="where the overrides are kept (%(default)s)")
    parser.add_argument("--socket", default=SOCKET, help="where it is asked (%(default)s)")
    parser.add_argument("--as", dest="process", metavar="NAME", default=PROCESS, help="the control process that it is (%(default)s)")
    parser.add_argument("--key", metavar="FILE", help="the file with the key of that process, where the server has keys; an empty word, or an empty "
                        "file, is none. Its user's group alone may ask over the socket then")
    words = parser.parse_args(given)
    try:
        addresses_of(words.server)
    except ValueError as error:
        parser.error(str(error))
    logging.basicConfig(format="bossd-overrides: %(message)s", level=logging.INFO)
    try:
        asyncio.run(serve(words))
        return 0
    except Taken:
        LOG.error("another program speaks for %s", words.process)
    except Damaged as error:
        LOG.error("%s", error)
        return 3
    except (Refused, UnknownHost, OSError, ValueError, KeyError, TypeError) as error:
        LOG.error("%s", error)
    return 1


if __name__ == "__main__":
    sys.exit(main())
