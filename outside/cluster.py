"""Tries journals in etcd, over three real members on this machine that are killed, stopped, filled and emptied.

Each case has a journal of its own name: scripts and checks, feeds from files to etcd and back, servers that take a journal from each
other, members that end or hang under traffic, a majority that is lost and comes back, space that runs out, keys that others put or
delete, and words that mean no place. What was acknowledged has to be there afterwards, once. Words of the command name the cases that are
tried, all of them where there is none. It needs the program built (./bossd, or its path in BOSSD), and etcd and etcdctl of 3.4 or later."""

import json
import os
import shutil
import signal
import socket
import subprocess
import sys
import tempfile
import time
from collections.abc import Callable, Sequence
from typing import Any

from outside.cases import all_hold, heed_help, see
from outside.program import EXAMPLES, PROGRAM, Server, eventually, free_port, need_program

CATALOGUE = os.path.join(EXAMPLES, "plant.toml")
ATTACH: dict[str, Any] = {"op": "attach", "process": "a"}
SUBMIT: dict[str, Any] = {"op": "submit", "writes": [{"point": "hall.lamp", "value": 1, "lease": 60_000}]}
LOST = "could not be written, so nothing is kept from here on"
TAKEN = f"{LOST}: another server has taken this journal over"


class Members:
    """Three members of etcd in a folder. `more` are further words of each."""

    def __init__(self, folder: str, *more: str) -> None:
        self.folder, self.more = folder, more
        self.clients = [free_port() for _ in range(3)]
        self.peers = [free_port() for _ in range(3)]
        self.running: list[subprocess.Popen[bytes] | None] = [None, None, None]
        self.state = "new"

    def __enter__(self) -> "Members":
        for at in range(3):
            self.start(at)
        self.await_health()
        return self

    def __exit__(self, *_: object) -> None:
        for at in range(3):
            self.kill(at)

    def place(self, at: int) -> str:
        return os.path.join(self.folder, f"m{at}")

    def start(self, at: int) -> None:
        every = ",".join(f"m{n}=http://127.0.0.1:{port}" for n, port in enumerate(self.peers))
        client, peer = f"http://127.0.0.1:{self.clients[at]}", f"http://127.0.0.1:{self.peers[at]}"
        words = ["etcd", "--name", f"m{at}", "--data-dir", self.place(at), "--listen-client-urls", client, "--advertise-client-urls", client,
                 "--listen-peer-urls", peer, "--initial-advertise-peer-urls", peer, "--initial-cluster", every,
                 "--initial-cluster-state", self.state, *self.more]
        with open(f"{self.place(at)}.log", "ab") as log:
            self.running[at] = subprocess.Popen(words, stdin=subprocess.DEVNULL, stdout=log, stderr=log)

    def signal(self, at: int, how: int) -> None:
        member = self.running[at]
        if member is not None:
            member.send_signal(how)

    def kill(self, at: int) -> None:
        member = self.running[at]
        if member is not None:
            member.kill()
            member.wait()
            self.running[at] = None

    def word(self, name: str) -> str:
        """The word of a journal of this name."""
        return "etcd:" + ",".join(f"127.0.0.1:{port}" for port in self.clients) + "/" + name

    def control(self, *words: str, at: Sequence[int] = (0, 1, 2)) -> str:
        """What etcdctl writes."""
        ends = ",".join(f"127.0.0.1:{self.clients[n]}" for n in at)
        ran = subprocess.run(["etcdctl", "--endpoints", ends, *words], capture_output=True, text=True, timeout=60, env={**os.environ, "ETCDCTL_API": "3"})
        see(ran.returncode == 0, f"etcdctl {' '.join(words)}: {ran.stderr or ran.stdout}")
        return ran.stdout

    def await_health(self) -> None:
        """Waits until each member answers."""
        def all_answer() -> bool:
            try:
                self.control("endpoint", "health")
                return True
            except Exception:
                return False
        see(eventually(all_answer, 60), "the members of etcd are not well after a minute")

    def leader(self) -> int:
        """Which member leads."""
        for line in json.loads(self.control("endpoint", "status", "-w", "json")):
            status = line["Status"]
            if status["header"]["member_id"] == status["leader"]:
                return self.clients.index(int(line["Endpoint"].rsplit(":", 1)[1]))
        raise AssertionError("no member leads")


class Served:
    """A server of a journal, its standard error in a file, and a client of it."""

    def __init__(self, folder: str, journal: str) -> None:
        self.said = tempfile.NamedTemporaryFile(dir=folder, suffix=".err")
        self.server = Server(CATALOGUE, journal)
        self.server.start(stderr=self.said)
        self.connect()

    def connect(self) -> None:
        self.socket = socket.create_connection(("127.0.0.1", self.server.port), timeout=30)
        self.lines = self.socket.makefile("rb")
        self.ask(ATTACH)

    def ask(self, request: dict[str, Any]) -> dict[str, Any]:
        self.socket.sendall(json.dumps(request).encode() + b"\n")
        answer: dict[str, Any] = json.loads(self.lines.readline() or b'{"error":"ended"}')
        return answer

    def text(self) -> str:
        """All that it said so far."""
        with open(self.said.name) as said:
            return said.read()

    def end(self) -> None:
        self.server.stop()
        self.said.close()


def run(*words: str, lines: bytes = b"") -> tuple[bytes, int, str]:
    ran = subprocess.run([PROGRAM, *words], input=lines, capture_output=True, timeout=60)
    return ran.stdout, ran.returncode, ran.stderr.decode()


def events_of(journal: str) -> int:
    """How many events a check tells."""
    out, status, said = run("check", CATALOGUE, journal)
    see(status == 0, f"check ended with {status}: {out!r} {said}")
    words = out.split()
    return int(words[1]) if words[0] == b"events" else 0


def submits_until_stopped(served: Served, most: int) -> int:
    """How many submits were acknowledged before one was not, at most so many."""
    for count in range(most):
        if "ok" not in served.ask(SUBMIT):
            return count
    return most


def scripts(members: Members, folder: str) -> str:
    requests: list[dict[str, Any]] = [{"at": 1_000, **ATTACH}, {"at": 2_000, **SUBMIT}, {"at": 3_000, **SUBMIT}]
    lines = b"".join(json.dumps(request).encode() + b"\n" for request in requests)
    later = json.dumps({"at": 70_000, "op": "read", "point": "hall.lamp"}).encode() + b"\n"
    word, file = members.word("scripts"), os.path.join(folder, "journal")
    see(run("check", CATALOGUE, word)[0] == b"journal new\n", "a journal that is not there is not told as new")
    for given in (lines, later):
        both = [run("script", CATALOGUE, journal, lines=given) for journal in (word, file)]
        see(both[0] == both[1] and both[0][1] == 0, f"a script over etcd and over files: {both}")
        see(run("check", CATALOGUE, word) == run("check", CATALOGUE, file), "the checks differ")
    feeds = [run("feed", CATALOGUE, journal, "0") for journal in (word, file)]
    see(feeds[0] == feeds[1], "the feeds differ")
    other = members.word("scripts-2")
    see(run("standby", CATALOGUE, other, lines=feeds[1][0])[1] == 0, "a feed of files was not followed in etcd")
    back = os.path.join(folder, "back")
    see(run("standby", CATALOGUE, back, lines=run("feed", CATALOGUE, other, "0")[0])[1] == 0, "a feed of etcd was not followed in files")
    see(run("feed", CATALOGUE, back, "0") == feeds[1], "the feed that came back differs")
    return f"{events_of(word)} events, over etcd as over files, there and back"


def words(members: Members, folder: str) -> str:
    end = f"127.0.0.1:{members.clients[0]}"
    wrong = ["etcd:", f"etcd:{end}", f"etcd:{end}/", f"etcd:{end}/a/b", f"etcd:{end}/x.b", f"etcd:http://{end}/x", "etcd:127.0.0.1:0/x", f"etcd:{end},/x"]
    for word in wrong:
        out, status, said = run("check", CATALOGUE, word)
        see((out, status) == (b"", 5) and "a journal in etcd is named" in said, f"{word}: {out!r}, {status}, {said}")
    begun = time.monotonic()
    out, status, said = run("check", CATALOGUE, f"etcd:127.0.0.1:{free_port()}/x")
    see(status == 5 and "no member of etcd did it (connection refused)" in said, f"nobody at a port: {status}, {said}")
    return f"{len(wrong)} words were refused; nobody at a port after {time.monotonic() - begun:.1f} s"


def taking_over(members: Members, folder: str) -> str:
    word = members.word("taking")
    first = Served(folder, word)
    see("ok" in first.ask(SUBMIT), "a first server does not take a submit")
    before = events_of(word)
    run("feed", CATALOGUE, word, "0")
    see("ok" in first.ask(SUBMIT), "a check and a feed deposed a server")
    second = Served(folder, word)
    see("ok" in second.ask(SUBMIT), "a second server does not take a submit")
    begun = time.monotonic()
    answer = first.ask(SUBMIT)
    took = time.monotonic() - begun
    see(answer == {"error": "stopped"}, f"the first one answered {answer}")
    see(eventually(lambda: TAKEN in first.text()), f"the first one said {first.text()}")
    see("ok" in second.ask(SUBMIT), "the second server was disturbed")
    for served in (first, second):
        served.end()
    return f"{events_of(word)} events, {before} before the second; refused after {took * 1000:.0f} ms"


def traffic(members: Members, folder: str, name: str, disturb: Callable[[], None], mend: Callable[[], None]) -> str:
    """Submits for six seconds, in the midst of which something is disturbed."""
    word = members.word(name)
    served = Served(folder, word)
    begun, acknowledged, longest, done = time.monotonic(), 0, 0.0, False
    before = events_of(word)
    try:
        while time.monotonic() - begun < 8 or not done:
            if not done and time.monotonic() - begun > 2:
                disturb()
                done = True
            at = time.monotonic()
            answer = served.ask(SUBMIT)
            longest = max(longest, time.monotonic() - at)
            see("ok" in answer, f"a submit was answered {answer}: {served.text()}")
            acknowledged += 1
    finally:
        # The cases behind it need all members, whatever came of this one.
        mend()
        served.end()
        members.await_health()
    see(events_of(word) == before + acknowledged, f"{acknowledged} submits were acknowledged, and {events_of(word) - before} are there")
    return f"{acknowledged} submits, the longest {longest:.1f} s"


def killed_leader(members: Members, folder: str) -> str:
    at = members.leader()
    return traffic(members, folder, "killed", lambda: members.kill(at), lambda: members.start(at))


def stopped_leader(members: Members, folder: str) -> str:
    at = members.leader()
    return traffic(members, folder, "stopped", lambda: members.signal(at, signal.SIGSTOP), lambda: members.signal(at, signal.SIGCONT))


def stopped_first(members: Members, folder: str) -> str:
    return traffic(members, folder, "first", lambda: members.signal(0, signal.SIGSTOP), lambda: members.signal(0, signal.SIGCONT))


def lost_majority(members: Members, folder: str) -> str:
    word = members.word("majority")
    served = Served(folder, word)
    acknowledged = submits_until_stopped(served, 20)
    before = events_of(word)
    for at in (0, 1):
        members.kill(at)
    begun = time.monotonic()
    answer = served.ask(SUBMIT)
    took = time.monotonic() - begun
    see(answer == {"error": "stopped"} and took < 20, f"without a majority it answered {answer} after {took:.1f} s")
    see(eventually(lambda: LOST in served.text()), f"it said {served.text()}")
    served.end()
    for at in (0, 1):
        members.start(at)
    members.await_health()
    after = events_of(word)
    see(before <= after <= before + 1, f"{before} events before, {after} after")
    again = Served(folder, word)
    see("ok" in again.ask(SUBMIT), "it does not go on with the majority back")
    again.end()
    return f"{acknowledged} submits, stopped after {took:.1f} s, {after - before} that was under way is there"


def emptied(members: Members, folder: str) -> str:
    """A member that lost its disk."""
    word = members.word("emptied")
    served = Served(folder, word)
    see("ok" in served.ask(SUBMIT), "no submit was taken")
    lost = next(line.split(",")[0] for line in members.control("member", "list").splitlines() if ", m2," in line)
    members.kill(2)
    shutil.rmtree(members.place(2))
    members.control("member", "remove", lost, at=(0, 1))
    members.control("member", "add", "m2", f"--peer-urls=http://127.0.0.1:{members.peers[2]}", at=(0, 1))
    members.state = "existing"
    members.start(2)
    members.await_health()
    members.kill(0)
    see("ok" in served.ask(SUBMIT), "no submit was taken once the new member counts")
    served.end()
    members.start(0)
    members.await_health()
    return f"{events_of(word)} events"


def others(members: Members, folder: str) -> str:
    members.control("put", "foreign/a/head", "hello")
    members.control("put", "pages/b/p/00000000", "hello")
    for name, key in (("foreign", "foreign/a/"), ("pages", "pages/b/")):
        out, status, said = run("check", CATALOGUE, members.word(name))
        see(status == 5 and f"what stands in etcd under {key} is no journal's" in said, f"{name}: {out!r}, {status}, {said}")
    word = members.word("deleted")
    served = Served(folder, word)
    for _ in range(40):
        served.ask(SUBMIT)
    served.end()
    there = events_of(word)
    key = "deleted/a/p/00000001"
    value = subprocess.run(["etcdctl", "--endpoints", f"127.0.0.1:{members.clients[0]}", "get", "--print-value-only", key], capture_output=True,
                           env={**os.environ, "ETCDCTL_API": "3"}).stdout[:-1]
    members.control("del", key)
    out, status, said = run("check", CATALOGUE, word)
    see(status == 5 and "pages are missing or damaged in etcd under deleted/a/" in said, f"a page deleted: {out!r}, {status}, {said}")
    return f"refused; the journal had {there} events, the page {len(value)} bytes"


def compacted(members: Members, folder: str) -> str:
    word = members.word("compacted")
    served = Served(folder, word)
    count = submits_until_stopped(served, 30)
    at = json.loads(members.control("endpoint", "status", "-w", "json"))[0]["Status"]["header"]["revision"]
    members.control("compact", str(at))
    see("ok" in served.ask(SUBMIT), "no submit was taken after a compaction")
    served.end()
    see(events_of(word) >= count + 1, "events are missing")
    return f"{events_of(word)} events"


def no_space(members: Members, folder: str) -> str:
    inner = os.path.join(folder, "small")
    os.mkdir(inner)
    with Members(inner, "--quota-backend-bytes", str(2 * 1024 * 1024)) as small:
        word = small.word("full")
        served = Served(folder, word)
        acknowledged = submits_until_stopped(served, 20_000)
        see(acknowledged < 20_000, "its space did not run out")
        see(eventually(lambda: f"{LOST}: etcd has no space left" in served.text(), 15), f"it said {served.text()}")
        served.end()
        there = events_of(word)
        out, status, said = run("script", CATALOGUE, word, lines=b"")
        see(status == 5 and "etcd has no space left" in said, f"a script on full space: {status}, {said}")
        at = json.loads(small.control("endpoint", "status", "-w", "json"))[0]["Status"]["header"]["revision"]
        small.control("compact", str(at))
        small.control("defrag")
        small.control("alarm", "disarm")
        again = Served(folder, word)
        see("ok" in again.ask(SUBMIT), "it does not go on with space again")
        again.end()
        see(there >= acknowledged, f"{acknowledged} submits were acknowledged, and there are {there} events")
    return f"{acknowledged} submits until its 2 MiB were full, all there"


CASES = [scripts, words, taking_over, killed_leader, stopped_leader, stopped_first, lost_majority, others, compacted, emptied, no_space]


def main() -> None:
    heed_help(__doc__)
    need_program()
    named = set(sys.argv[1:])
    chosen = [case for case in CASES if not named or case.__name__ in named]
    if not chosen or not (shutil.which("etcd") and shutil.which("etcdctl")):
        sys.exit("cluster: no such case" if not chosen else "cluster: it needs etcd and etcdctl")
    with tempfile.TemporaryDirectory() as folder, Members(folder) as members:
        def of(case: Callable[[Members, str], str]) -> Callable[[str], object]:
            return lambda place: case(members, place)
        sys.exit(0 if all_hold([(case.__name__, of(case)) for case in chosen]) else 1)
