"""Members of etcd on this machine's loopback, for tools/failover and bench/members: they are killed, stopped and cut off, by relays between
them and to them. Each is at ports that were free, and all are in a folder of the tool's own."""

import asyncio
import base64
import contextlib
import http.client
import json
import os
import shutil
import signal
import subprocess
import sys
import threading
from collections.abc import Iterator
from typing import Any, Literal

from outside.program import eventually, free_port, listens

How = Literal["silent", "shut"]
# Who speaks to whom.
Pair = tuple[str, str]
PIECE = 65_536
# How long members may take until they answer behind a start, in seconds.
PATIENCE = 60.0


def need_etcd() -> None:
    """Ends the tool where there is no etcd to try with."""
    for name in ("etcd", "etcdctl"):
        if shutil.which(name) is None:
            sys.exit(f"{os.path.basename(sys.argv[0])}: there is no {name}: install etcd-server and etcd-client")


# ---- what is cut

class Gate:
    """Whether bytes of a pair go through, and the connections that it has."""

    def __init__(self) -> None:
        self.is_shut, self.passing = False, asyncio.Event()
        self.passing.set()
        self.sinks = set[asyncio.StreamWriter]()


class Relays:
    """Relays of this machine, in a thread of their own. A pair that is cut silently keeps its connections, and what is said comes once it is
    mended; of one that is shut they are reset, and new ones are refused by an end."""

    def __init__(self) -> None:
        self.loop = asyncio.new_event_loop()
        # A connection that is cut as it is made is none to speak of.
        self.loop.set_exception_handler(lambda loop, context: None)
        self.gates: dict[Pair, Gate] = {}
        # The process of each member, by its name, to tell who connects.
        self.processes: dict[str, int] = {}
        threading.Thread(target=self.loop.run_forever, daemon=True).start()

    def close(self) -> None:
        self._do(self._end())
        self.loop.call_soon_threadsafe(self.loop.stop)

    def open(self, target: str, to: int, source: str | None = None) -> int:
        """The port of a relay to this target, which listens at another port. Without a source whoever connects is looked for."""
        port = free_port()
        self._do(self._listen(port, target, to, source))
        return port

    def cut(self, pair: Pair, how: How) -> None:
        self._do(self._cut(pair, how))

    def mend(self) -> None:
        """All pairs pass again."""
        self._do(self._mend())

    def _do(self, work: Any) -> Any:
        return asyncio.run_coroutine_threadsafe(work, self.loop).result(30)

    async def _listen(self, port: int, target: str, to: int, source: str | None) -> None:
        async def take(near: asyncio.StreamReader, back: asyncio.StreamWriter) -> None:
            who = source or self._whose(back.get_extra_info("peername")[1])
            with contextlib.suppress(OSError, asyncio.CancelledError):
                await self._relay(self._gate((who, target)), near, back, to)
            back.close()
        await asyncio.start_server(take, "127.0.0.1", port)

    def _gate(self, pair: Pair) -> Gate:
        return self.gates.setdefault(pair, Gate())

    async def _cut(self, pair: Pair, how: How) -> None:
        gate = self._gate(pair)
        gate.passing.clear()
        if how == "shut":
            gate.is_shut = True
            for sink in gate.sinks:
                sink.transport.abort()

    async def _end(self) -> None:
        others = asyncio.all_tasks() - {asyncio.current_task()}
        for one in others:
            one.cancel()
        if others:
            await asyncio.wait(others, timeout=5)

    async def _mend(self) -> None:
        for gate in self.gates.values():
            gate.is_shut = False
            gate.passing.set()

    async def _relay(self, gate: Gate, near: asyncio.StreamReader, back: asyncio.StreamWriter, to: int) -> None:
        if gate.is_shut:
            return
        gate.sinks.add(back)
        forth = None
        try:
            await gate.passing.wait()
            far, forth = await asyncio.open_connection("127.0.0.1", to)
            gate.sinks.add(forth)
            pumps = [asyncio.ensure_future(pump(near, forth, gate)), asyncio.ensure_future(pump(far, back, gate))]
            try:
                await asyncio.wait(pumps, return_when=asyncio.FIRST_COMPLETED)
            finally:
                for one in pumps:
                    one.cancel()
        finally:
            for sink in (back, forth):
                if sink is not None:
                    gate.sinks.discard(sink)
                    sink.close()

    def _whose(self, port: int) -> str:
        """Which member's process has the connection with this local port."""
        number = socket_at(port)
        return next((name for name, pid in self.processes.items() if has_socket(pid, number)), "")


async def pump(source: asyncio.StreamReader, sink: asyncio.StreamWriter, gate: Gate) -> None:
    """Hands on what comes, while the gate lets it through."""
    with contextlib.suppress(OSError):
        while data := await source.read(PIECE):
            await gate.passing.wait()
            sink.write(data)
            await sink.drain()


def socket_at(port: int) -> str:
    """The system's number of the socket that has this local port and is connected."""
    with open("/proc/net/tcp") as file:
        for line in file:
            words = line.split()
            if words[1].endswith(f":{port:04X}") and words[3] == "01":
                return words[9]
    return ""


def has_socket(pid: int, number: str) -> bool:
    folder = f"/proc/{pid}/fd"
    with contextlib.suppress(OSError):
        for name in os.listdir(folder):
            with contextlib.suppress(OSError):
                if os.readlink(f"{folder}/{name}") == f"socket:[{number}]":
                    return True
    return False


# ---- members

def spelled(key: str) -> str:
    return base64.b64encode(key.encode()).decode()


def ask(port: int, path: str, body: object, seconds: float = 5.0) -> dict[str, Any]:
    """What a member answers over its JSON. OSError where it does not answer, or refuses."""
    link = http.client.HTTPConnection("127.0.0.1", port, timeout=seconds)
    try:
        link.request("POST", path, json.dumps(body))
        answer = link.getresponse()
        data = answer.read()
    except http.client.HTTPException as error:
        raise OSError(repr(error)) from error
    finally:
        link.close()
    if answer.status != 200:
        raise OSError(data.decode("utf-8", "replace"))
    told: dict[str, Any] = json.loads(data)
    return told


class Member:
    """One member; it has been started once its cluster was."""

    def __init__(self, folder: str, number: int, relays: Relays) -> None:
        self.name = f"member-{number}"
        self.folder = os.path.join(folder, self.name)
        self.client, self.peer = free_port(), free_port()
        self.advertised = relays.open(self.name, self.peer)
        self.relays = relays
        self._process: subprocess.Popen[bytes] | None = None

    @property
    def process(self) -> "subprocess.Popen[bytes]":
        """What runs, or ran last."""
        if self._process is None:
            raise AssertionError("the member was not started")
        return self._process

    @property
    def is_up(self) -> bool:
        return self._process is not None and self._process.poll() is None

    def start(self, peers: str, quota: int, state: str = "new", more: tuple[str, ...] = ()) -> None:
        client, peer = f"http://127.0.0.1:{self.client}", f"http://127.0.0.1:{self.peer}"
        words = ["etcd", "--name", self.name, "--data-dir", self.folder, "--listen-client-urls", client, "--advertise-client-urls", client,
                 "--listen-peer-urls", peer, "--initial-advertise-peer-urls", f"http://127.0.0.1:{self.advertised}",
                 "--initial-cluster", peers, "--initial-cluster-state", state, "--initial-cluster-token", os.path.basename(os.path.dirname(self.folder)),
                 "--quota-backend-bytes", str(quota), "--logger", "zap", "--log-level", "error", *more]
        with open(self.folder + ".log", "ab") as log:
            self._process = subprocess.Popen(words, stdin=subprocess.DEVNULL, stdout=log, stderr=log)
        self.relays.processes[self.name] = self._process.pid

    def send(self, how: int) -> None:
        if self._process is not None and self._process.poll() is None:
            self._process.send_signal(how)
            if how == signal.SIGKILL:
                self._process.wait()

    def ended(self, seconds: float) -> int | None:
        """Its status, once it ended; None where it did not in time."""
        if self._process is None:
            return None
        with contextlib.suppress(subprocess.TimeoutExpired):
            return self._process.wait(seconds)
        return None

    def answers(self, seconds: float = 1.0) -> bool:
        """Whether it is one of a majority."""
        try:
            ask(self.client, "/v3/kv/range", {"key": spelled("health")}, seconds)
            return True
        except OSError:
            return False

    def is_leader(self) -> bool:
        try:
            told = ask(self.client, "/v3/maintenance/status", {}, 1.0)
            return bool(told["leader"] == told["header"]["member_id"])
        except (OSError, KeyError):
            return False


class Cluster:
    """Members that were started together."""

    def __init__(self, folder: str, quota: int = 512 << 20, more: tuple[str, ...] = (), count: int = 3) -> None:
        os.makedirs(folder, exist_ok=True)
        self.relays, self.quota, self.more = Relays(), quota, more
        self.members = [Member(folder, number, self.relays) for number in range(1, count + 1)]
        self.peers = ",".join(f"{member.name}=http://127.0.0.1:{member.advertised}" for member in self.members)
        # By who asks: the ports at which each has the members.
        self.ports: dict[str, list[int]] = {}

    def __enter__(self) -> "Cluster":
        for member in self.members:
            self.start(member)
        if not eventually(self.is_well, PATIENCE):
            self.__exit__()
            raise AssertionError(f"the members of etcd do not answer {PATIENCE:.0f} seconds behind their start")
        return self

    def __exit__(self, *_: object) -> None:
        for member in self.members:
            member.send(signal.SIGCONT)
            member.send(signal.SIGKILL)
        self.relays.close()

    def start(self, member: Member, state: str = "new") -> None:
        member.start(self.peers, self.quota, state, self.more)

    def is_well(self) -> bool:
        return all(member.is_up and listens(member.client) and member.answers() for member in self.members)

    def word(self, who: str, name: str) -> str:
        """A journal's word for somebody whose ways to the members can be cut."""
        if who not in self.ports:
            self.ports[who] = [self.relays.open(member.name, member.client, who) for member in self.members]
        return f"etcd:{','.join(f'127.0.0.1:{port}' for port in self.ports[who])}/{name}"

    def plain_word(self, name: str) -> str:
        """The same without a relay."""
        return f"etcd:{','.join(f'127.0.0.1:{member.client}' for member in self.members)}/{name}"

    def ask(self, path: str, body: object) -> dict[str, Any]:
        """What the first member answers that does."""
        why: OSError = OSError("no member is up")
        for member in self.members:
            try:
                return ask(member.client, path, body)
            except OSError as error:
                why = error
        raise why

    def put(self, key: str, value: str) -> None:
        self.ask("/v3/kv/put", {"key": spelled(key), "value": spelled(value)})

    def count(self, prefix: str) -> int:
        """How many keys begin so."""
        end = prefix[:-1] + chr(ord(prefix[-1]) + 1)
        return int(self.ask("/v3/kv/range", {"key": spelled(prefix), "range_end": spelled(end), "count_only": True}).get("count", "0"))

    def leader(self) -> Member:
        """The leader; the first member where none says that it is."""
        return next((member for member in self.members if member.is_up and member.is_leader()), self.members[0])

    def isolate(self, member: Member, how: How) -> None:
        """Cuts a member off from the others."""
        for other in self.members:
            if other is not member:
                self.relays.cut((other.name, member.name), how)
                self.relays.cut((member.name, other.name), how)

    def part(self, who: str, how: How) -> None:
        """Cuts somebody off from all members."""
        for member in self.members:
            self.relays.cut((who, member.name), how)

    def etcdctl(self, *words: str) -> str:
        """What etcdctl says; AssertionError where it ends with another status than 0."""
        ends = ",".join(f"127.0.0.1:{member.client}" for member in self.members)
        ran = subprocess.run(["etcdctl", f"--endpoints={ends}", *words], env={**os.environ, "ETCDCTL_API": "3"}, capture_output=True, text=True,
                             timeout=60)
        if ran.returncode:
            raise AssertionError(f"etcdctl {words[0]} ended with {ran.returncode}: {ran.stderr.strip()}")
        return ran.stdout


def processes_of(group: int) -> Iterator[tuple[int, list[str]]]:
    """The number and the words of each process of a group that runs."""
    for name in filter(str.isdigit, os.listdir("/proc")):
        with contextlib.suppress(OSError, IndexError):
            with open(f"/proc/{name}/stat") as file:
                state, _, found = file.read().rpartition(")")[2].split()[:3]
            if int(found) == group and state != "Z":
                with open(f"/proc/{name}/cmdline") as words:
                    yield int(name), words.read().split("\0")
