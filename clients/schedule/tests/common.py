"""What the tests share: the built program, served and as a script whose lines have their moments, and a relay that is cut.

The program is that of this repository, or the one that BOSSD in the environment names."""

import json
import os
import socket
import subprocess
import sys
import tempfile
import threading
import time
from datetime import datetime, timezone
from zoneinfo import ZoneInfo

HERE = os.path.dirname(os.path.abspath(__file__))
SCHEDULE = os.path.dirname(HERE)
TOP = os.path.dirname(os.path.dirname(SCHEDULE))
PLANT, WEEK = os.path.join(TOP, "examples", "plant.toml"), os.path.join(TOP, "examples", "week.toml")
sys.path[:0] = [SCHEDULE, os.path.join(TOP, "clients", "python"), TOP]

import bossd  # noqa: E402
from bossd_schedule.reading import Reader  # noqa: E402
from bossd_schedule.running import Clock  # noqa: E402
from bossd_schedule.week import moment_of  # noqa: E402
from outside import program as tools  # noqa: E402

# How long something may take until it is seen, in seconds. A machine with much other work may want more.
PATIENCE = float(os.environ.get("PATIENCE", 30))
SECOND, MINUTE, HOUR, DAY = 1_000, 60_000, 3_600_000, 86_400_000
BERLIN = ZoneInfo("Europe/Berlin")
DEFAULTS = {"air.damper": 20_000, "air.heating": 0, "air.cooling": 0, "air.fan": 1, "hall.lamp": 0, "office.lamp": 0}


def at(text, zone=BERLIN):
    return moment_of(datetime.fromisoformat(text).replace(tzinfo=zone))


def utc(text):
    return at(text, timezone.utc)


def eventually(test, seconds=PATIENCE):
    """What `test` gives once it is neither None nor false; the last of it after so many seconds."""
    deadline = time.monotonic() + seconds
    while True:
        found = test()
        if found or time.monotonic() > deadline:
            return found
        time.sleep(0.1)


def written(folder, text, name="week.toml"):
    """The path of a file with this text."""
    path = os.path.join(folder, name)
    with open(path, "w", encoding="utf-8") as file:
        file.write(text)
    return path


def schedule_of(text, moment):
    """What a text says that has no mistake, for the small plant."""
    with tempfile.TemporaryDirectory() as folder:
        reader = Reader(written(folder, f'catalogue = "{PLANT}"\n' + text), moment)
    assert reader.schedule is not None, [one.sentence() for one in reader.findings]
    return reader.schedule


# ---- under a clock of the test's own

class TestClock(Clock):
    """A clock that stands until it is set."""

    def __init__(self, moment):
        self.now, self.jumped = moment, 0

    def moment(self):
        return self.now + self.jumped

    def steady(self):
        return self.now


class Script:
    """`bossd script` over a journal in memory: months pass in seconds."""

    def __init__(self, clock, catalogue=PLANT):
        self.clock, self.asked, self.attached, self.next_notice = clock, 0, 0, 1
        self.process = subprocess.Popen([tools.PROGRAM, "script", catalogue, "-"], stdin=subprocess.PIPE, stdout=subprocess.PIPE)
        # What each device was written, and when; each submit and renewal; and what comes next that is to be lost.
        self.written, self.made, self.lose = [], [], None

    def end(self):
        self.process.stdin.close()
        self.process.wait()
        self.process.stdout.close()

    def all(self, requests, on=1):
        """The answers to requests at this moment, refusals too."""
        lines = [json.dumps({"on": on, "at": self.clock.now, **one}).encode() + b"\n" for one in requests]
        self.process.stdin.write(b"".join(lines))
        self.process.stdin.flush()
        self.asked += len(lines)
        return [self._answer() for _ in lines]

    def _answer(self):
        while True:
            line = self.process.stdout.readline()
            if line.startswith(b"{"):
                return json.loads(line)
            words = line.split()
            if words and words[0] == b"write":
                self.written.append((self.clock.now, words[2].decode(), int(words[3])))
            if not line:
                raise AssertionError("the program ended")

    def one(self, request, on=1):
        return self.all([request], on)[0]

    def values(self, points):
        """What points have, asked by nobody's process."""
        return {point: answer["value"] for point, answer in zip(points, self.all([{"op": "read", "point": point} for point in points], 2))}

    # -- as a Link

    def attach(self, process="schedule"):
        self.next_notice = self.one({"op": "attach", "process": process})["next"]
        self.attached += 1

    def lost(self):
        """The connection is lost, and attached anew."""
        self.one({"op": "gone"})
        self.attach()

    async def ask(self, request):
        return bossd.answer_of(json.dumps(self.one(request)))

    async def ask_all(self, requests):
        answers = self.all(requests)
        self.made += [(self.clock.now, request, answer) for request, answer in zip(requests, answers) if request["op"] == "renew"]
        return [bossd.REFUSALS[answer["error"]](answer) if "error" in answer else answer for answer in answers]

    async def submit(self, writes):
        request = {"op": "submit", "policy": "keep", "writes": writes}
        if self.lose == "before":
            self.lose = None
            raise bossd.Unanswered(request, "lost")
        answer = self.one(request)
        self.made.append((self.clock.now, request, answer))
        if self.lose == "after":
            self.lose = None
            raise bossd.Unanswered(request, "lost")
        return bossd.answer_of(json.dumps(answer))["txn"]


# ---- served, over connections that are cut

class Relay:
    """Stands between a client and a server's port, and is cut when told."""

    def __init__(self, port):
        self.to, self.links = port, []
        self.listener = socket.create_server(("127.0.0.1", 0))
        self.address = f"127.0.0.1:{self.listener.getsockname()[1]}"
        threading.Thread(target=self._accept, daemon=True).start()

    def _accept(self):
        while True:
            try:
                near, _ = self.listener.accept()
            except OSError:
                return
            try:
                far = socket.create_connection(("127.0.0.1", self.to))
            except OSError:
                near.close()
                continue
            self.links += [near, far]
            for source, sink in ((near, far), (far, near)):
                threading.Thread(target=self._carry, args=(source, sink), daemon=True).start()

    def _carry(self, source, sink):
        try:
            while data := source.recv(65_536):
                sink.sendall(data)
        except OSError:
            pass
        for one in (source, sink):
            shut(one)
        source.close()

    def cut(self):
        links, self.links = self.links, []
        for one in links:
            shut(one)

    def close(self):
        shut(self.listener)
        self.listener.close()
        self.cut()


def shut(link):
    try:
        link.shutdown(socket.SHUT_RDWR)
    except OSError:
        pass
