"""What the tests share: the built program, the console before it, and a browser.

The program is that of this repository, or the one that BOSSD in the environment names."""

import http.client
import json
import os
import signal
import subprocess
import sys
import tempfile
import time
import unittest

HERE = os.path.dirname(os.path.abspath(__file__))
CONSOLE = os.path.dirname(HERE)
TOP = os.path.dirname(os.path.dirname(CONSOLE))
CATALOGUE = os.path.join(HERE, "building.toml")
sys.path[:0] = [CONSOLE, os.path.join(TOP, "clients", "python"), TOP]

import bossd  # noqa: E402
from outside import program as tools  # noqa: E402

# How long something may take until it is seen, in seconds. A machine with much other work may want more.
PATIENCE = float(os.environ.get("PATIENCE", 30))
MINUTE = 60_000


def eventually(test, seconds=PATIENCE):
    """What `test` gives once it is neither None nor false; the last of it after so many seconds."""
    deadline = time.monotonic() + seconds
    while True:
        found = test()
        if found or time.monotonic() > deadline:
            return found
        time.sleep(0.1)


class Console:
    """A console before a server's address."""

    def __init__(self, server, *words, catalogue=CATALOGUE):
        self.port = tools.free_port()
        self.host = f"127.0.0.1:{self.port}"
        self.address = f"http://{self.host}/"
        command = ["/usr/bin/python3", os.path.join(CONSOLE, "bossd-console"), *([catalogue] if catalogue else []), server,
                   "--listen", self.host, *words]
        self.process = subprocess.Popen(command, stdout=subprocess.PIPE, text=True)
        self.greeting = self.process.stdout.readline().strip()
        self.token = self.greeting.partition("#token=")[2].partition(" ")[0]

    def stop(self):
        if self.process.poll() is None:
            self.process.send_signal(signal.SIGTERM)
            try:
                self.process.wait(15)
            except subprocess.TimeoutExpired:
                self.process.kill()
                self.process.wait()
        self.process.stdout.close()

    def ask(self, path, body=None, **headers):
        """The status and the answer to a request, as JSON where it is."""
        link = http.client.HTTPConnection("127.0.0.1", self.port, timeout=PATIENCE)
        try:
            sent = {key.replace("_", "-"): value for key, value in headers.items()}
            if body is not None:
                sent.setdefault("Content-Type", "application/json")
            link.request("POST" if body is not None else "GET", path, json.dumps(body) if body is not None else None, sent)
            answer = link.getresponse()
            text = answer.read().decode()
            return answer.status, json.loads(text) if "json" in (answer.headers["Content-Type"] or "") else text
        finally:
            link.close()

    def change(self, do, **body):
        """The status and the answer to a change, with the token."""
        return self.ask(f"/api/{do}", body, Authorization=f"Bearer {self.token}")

    def point(self, name):
        return self.ask(f"/api/points/{name}")[1]

    def metrics(self):
        """The values that are told to Prometheus."""
        lines = [line for line in self.ask("/metrics")[1].splitlines() if line and not line.startswith("#")]
        return {name: float(value) for name, _, value in (line.rpartition(" ") for line in lines)}


class Case(unittest.TestCase):
    """A server of its own for each test, with a journal."""

    WORKERS = 6

    def setUp(self):
        folder = tempfile.TemporaryDirectory()
        self.addCleanup(folder.cleanup)
        self.folder = folder.name
        self.server = tools.Server(self.catalogue(), os.path.join(folder.name, "journal"), workers=self.WORKERS)
        self.server.start()
        self.addCleanup(self.server.stop)

    def catalogue(self):
        """The name of the server's catalogue."""
        return CATALOGUE

    def start_over(self, first, second):
        """Starts the server anew, over a journal of these two files."""
        self.server.kill()
        self.server.journal = os.path.join(self.folder, "anew")
        for name, data in [(self.server.journal, first), (self.server.journal + ".b", second)]:
            with open(name, "wb") as file:
                file.write(data)
        self.server.start()

    def console(self, *words, **more):
        made = Console(self.server.address, *words, **more)
        self.addCleanup(made.stop)
        return made

    def overrides(self):
        """A bossd-overrides before the server, once it holds what it is to hold; it has a `socket`."""
        socket = os.path.join(self.folder, "socket")
        words = ["/usr/bin/python3", "-m", "bossd.overrides", self.server.address, "--file", os.path.join(self.folder, "overrides.json"),
                 "--socket", socket]
        service = subprocess.Popen(words, cwd=os.path.join(TOP, "clients", "python"), stderr=subprocess.PIPE, text=True)
        service.socket = socket

        def end():
            if not service.stderr.closed:
                service.kill()
                service.communicate()
        self.addCleanup(end)
        service.end = end
        while "overrides stand" not in service.stderr.readline():
            self.assertIsNone(service.poll())
        return service

    def client(self, process=None):
        made = bossd.Client(self.server.address, process)
        self.addCleanup(made.close)
        return made

    def eventually(self, test, seconds=PATIENCE):
        found = eventually(test, seconds)
        self.assertTrue(found)
        return found


class WithPump:
    """A Case whose server has a pump that stays on for an hour once it is on."""

    PUMP, MIN_ON = "boiler.pump", 60 * MINUTE

    def catalogue(self):
        path = os.path.join(self.folder, "pump.toml")
        with open(path, "w") as file:
            file.write(f'drivers = ["heat"]\n[[point]]\nname = "{self.PUMP}"\ndriver = "heat"\nkind = "binary"\ndefault = 0\nmin_on = {self.MIN_ON}\n')
        return path

    def running(self, client):
        """What is read of the pump once it is on and was let go."""
        txn = client.submit([bossd.write(self.PUMP, 1, priority=8, lease=10 * MINUTE)]).txn
        self.eventually(lambda: client.read(self.PUMP).mark == "settled")
        client.cancel(txn)
        return client.read(self.PUMP)
