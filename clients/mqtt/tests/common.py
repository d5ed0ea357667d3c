"""What the tests share: the built program, a mosquitto of this machine, a bridge between them, and somebody who listens.

The program is that of this repository, or the one that BOSSD in the environment names."""

import json
import os
import signal
import subprocess
import sys
import tempfile
import threading
import time
import unittest

import paho.mqtt.client as mqtt

HERE = os.path.dirname(os.path.abspath(__file__))
MQTT = os.path.dirname(HERE)
TOP = os.path.dirname(os.path.dirname(MQTT))
CATALOGUE = os.path.join(HERE, "building.toml")
sys.path[:0] = [MQTT, os.path.join(TOP, "clients", "python"), TOP]

import bossd  # noqa: E402
from outside import program as tools  # noqa: E402

# How long something may take until it is seen, in seconds. A machine with much other work may want more.
PATIENCE = float(os.environ.get("PATIENCE", 30))
MINUTE, HOUR = 60_000, 3_600_000
MOSQUITTO = next((path for path in ("/usr/sbin/mosquitto", "/usr/bin/mosquitto") if os.path.exists(path)), "mosquitto")
BASE = "site/north"


def eventually(test, seconds=PATIENCE):
    """What `test` gives once it is neither None nor false; the last of it after so many seconds."""
    deadline = time.monotonic() + seconds
    while True:
        found = test()
        if found or time.monotonic() > deadline:
            return found
        time.sleep(0.05)


def ended(process, seconds=15):
    """The status of a process that was told to end."""
    try:
        return process.wait(seconds)
    except subprocess.TimeoutExpired:
        process.kill()
        return process.wait()


class Mosquitto:
    """A broker of its own. Its files outlast it."""

    def __init__(self, folder, *lines, port=None):
        self.folder, self.port = folder, port or tools.free_port()
        self.config = os.path.join(folder, "mosquitto.conf")
        told = lines or ("allow_anonymous true",)
        with open(self.config, "w", encoding="utf-8") as file:
            file.write(f"listener {self.port} 127.0.0.1\npersistence true\npersistence_location {folder}/\nmax_queued_messages 100000\n"
                       "log_type none\n" + ("user root\n" if os.geteuid() == 0 else "") + "\n".join(told) + "\n")
        self.process = None

    def start(self):
        self.process = subprocess.Popen([MOSQUITTO, "-c", self.config], stderr=subprocess.DEVNULL)
        if not tools.eventually(lambda: tools.listens(self.port), PATIENCE):
            raise AssertionError("mosquitto does not listen")

    def stop(self, how=signal.SIGTERM):
        if self.process is not None and self.process.poll() is None:
            self.process.send_signal(how)
            self.process.wait()

    def forget(self):
        """Takes away what it keeps on disk."""
        for name in os.listdir(self.folder):
            if name.endswith(".db"):
                os.remove(os.path.join(self.folder, name))


class Listener:
    """Somebody who listens to all, and says something. `last` has what each topic was told last, without those that are empty; `all` is
    what came, in its order."""

    def __init__(self, port, topic="#", keeps=True):
        self.last, self.all, self.when, self._up = {}, [], {}, threading.Event()
        self.keeps = keeps
        self.client = mqtt.Client()
        self.client.reconnect_delay_set(1, 1)
        self.client.on_message = self._came
        self.client.on_connect = lambda client, data, flags, code: self._connected(topic)
        self.client.connect("127.0.0.1", port)
        self.client.loop_start()
        self._up.wait(PATIENCE)

    def _connected(self, topic):
        self.client.subscribe(topic, 1)
        self._up.set()

    def _came(self, client, data, message):
        payload = message.payload.decode("utf-8", "replace")
        if self.keeps:
            self.all.append((message.topic, payload))
        self.when[message.topic, payload] = time.monotonic()
        if payload:
            self.last[message.topic] = payload
        else:
            self.last.pop(message.topic, None)

    def say(self, topic, payload="", retain=False):
        self.client.publish(topic, payload, qos=1, retain=retain).wait_for_publish(PATIENCE)

    def point(self, name, leaf, base=BASE):
        """What a topic of a point was told last."""
        told = self.last.get(f"{base}/point/{name}/{leaf}")
        return json.loads(told) if told is not None and leaf in ("state", "answer") else told

    def answers(self, name, base=BASE):
        return [json.loads(payload) for topic, payload in list(self.all) if topic == f"{base}/point/{name}/answer"]

    def stop(self):
        self.client.disconnect()
        self.client.loop_stop()


def retained(port, topic="#", quiet=0.7):
    """What somebody who comes now is told."""
    told, last = {}, [time.monotonic()]

    def came(client, data, message):
        told[message.topic], last[0] = message.payload.decode(), time.monotonic()
    client = mqtt.Client()
    client.on_message = came
    client.on_connect = lambda *_: client.subscribe(topic, 1)
    client.connect("127.0.0.1", port)
    client.loop_start()
    while time.monotonic() < last[0] + quiet:
        time.sleep(0.02)
    client.disconnect()
    client.loop_stop()
    return told


class Bridge:
    """A bridge with this file before a server. Its log is in `log`."""

    def __init__(self, folder, text, server, *words):
        self.path, self.log, self.folder = os.path.join(folder, "bridge.toml"), os.path.join(folder, "bridge.log"), folder
        with open(self.path, "w", encoding="utf-8") as file:
            file.write(text)
        self.command = ["/usr/bin/python3", os.path.join(MQTT, "bossd-mqtt"), self.path, server, "--state", folder, *words]
        self.process = None

    def start(self, **more):
        with open(self.log, "a", encoding="utf-8") as log:
            self.process = subprocess.Popen(self.command, stderr=log, **more)

    def said(self):
        with open(self.log, encoding="utf-8") as file:
            return file.read()

    def stop(self, how=signal.SIGTERM):
        if self.process is not None and self.process.poll() is None:
            self.process.send_signal(how)
            return ended(self.process)
        return None


def words_of(port, more="", base=BASE, top="", broker="", catalogue=CATALOGUE):
    """The text of a bridge's file."""
    return (f'base = "{base}"\ncatalogue = "{catalogue}"\n{top}\n[broker]\naddress = "127.0.0.1:{port}"\n{broker}\n{more}\n')


class Case(unittest.TestCase):
    """A server with a journal and a broker of its own for each test."""

    WORKERS = 5

    def setUp(self):
        self.folder = self.new_folder()
        self.server = tools.Server(CATALOGUE, os.path.join(self.folder, "journal"), workers=self.WORKERS)
        self.server.start()
        self.addCleanup(self.server.stop)
        self.broker = Mosquitto(self.new_folder())
        self.broker.start()
        self.addCleanup(self.broker.stop)

    def new_folder(self):
        made = tempfile.TemporaryDirectory()
        self.addCleanup(made.cleanup)
        return made.name

    def bridge(self, more="", server=None, is_online=True, **words):
        """A bridge that is started; by then it is online where it is to be, with all points."""
        base = words.get("base", BASE)
        made = Bridge(self.new_folder(), words_of(words.pop("port", self.broker.port), more, **words), server or self.server.address)
        made.start()
        self.addCleanup(made.stop)
        if is_online:
            self.eventually(lambda: retained(self.broker.port, f"{base}/+", 0.2).get(f"{base}/server") == "online")
        return made

    def listener(self, topic="#"):
        made = Listener(self.broker.port, topic)
        self.addCleanup(made.stop)
        if topic == "#":
            # What is retained comes before what is said after that.
            made.say("listener", "here")
            self.eventually(lambda: "listener" in made.last)
        return made

    def client(self, process=None, server=None):
        made = bossd.Client((server or self.server).address, process)
        self.addCleanup(made.close)
        return made

    def eventually(self, test, seconds=PATIENCE):
        found = eventually(test, seconds)
        self.assertTrue(found)
        return found
