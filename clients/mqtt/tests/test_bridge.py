"""Tests of the bridge between the built program and a mosquitto: what is told, and what is set."""

import json
import os
import signal
import socket
import time
import unittest

from tests import common
from tests.common import BASE, HOUR, MINUTE, retained, tools
from tests.home_assistant import sentences

import bossd
from bossd.ctl._following import Reader
from bossd.ctl._show import read_catalogue

ALL = '[[set]]\npoints = ["*"]\n'
BACK = '[[set]]\npoints = ["air.damper", "lamp"]\nback = { "air.damper" = [[50, "1h"], [30, "1h"]] }\n'
DEFAULTS = {"air.damper": "20", "air.fan": "1", "room.set-point": "16", "lamp": "0"}


def slot_of(client, name, priority=12):
    return client.array(name).slots.get(priority)


class Told(common.Case):
    def test_all_that_is_retained(self):
        self.bridge(ALL)
        found = retained(self.broker.port)
        self.assertEqual({topic: payload for topic, payload in found.items() if topic.endswith("/value")},
                         {f"{BASE}/point/{name}/value": value for name, value in DEFAULTS.items()})
        self.assertEqual(json.loads(found[f"{BASE}/point/room.set-point/state"]), {
            "value": 16, "unit": "°C", "from": "default", "priority": None, "owner": None, "until": None, "device": "settled"})
        self.assertEqual((found[f"{BASE}/availability"], found[f"{BASE}/server"]), ("online", "online"))
        self.assertEqual((json.loads(found[f"{BASE}/bridge"])["points"], json.loads(found[f"{BASE}/bridge"])["held"]), (4, 0))
        messages = {topic: payload for topic, payload in found.items() if topic.startswith("homeassistant/")}
        self.assertEqual(sorted(topic.split("/")[1] for topic in messages), ["binary_sensor", "number", "number", "select", "switch"])
        for message in messages.items():
            self.assertEqual(sentences(*message), [], message)
        for told in map(json.loads, messages.values()):
            self.assertIn(told["state_topic"], found)
            self.assertTrue({one["topic"] for one in told["availability"]} <= found.keys())

    @unittest.skipIf(os.path.exists("/etc/bossd/plant.toml"), "this machine has a catalogue")
    def test_without_a_catalogue_the_server_tells_its_points(self):
        self.server.kill()
        made = common.Bridge(self.new_folder(), f'base = "{BASE}"\n[broker]\naddress = "127.0.0.1:{self.broker.port}"\n', self.server.address)
        made.start()
        self.addCleanup(made.stop)
        self.eventually(lambda: f"{self.server.address} does not tell its points" in made.said())
        self.server.start()
        self.eventually(lambda: retained(self.broker.port, f"{BASE}/+", 0.2).get(f"{BASE}/server") == "online")
        found = retained(self.broker.port, f"{BASE}/point/+/value")
        self.assertEqual(found, {f"{BASE}/point/{name}/value": value for name, value in DEFAULTS.items()})

    def test_what_others_hold(self):
        self.bridge()
        listener, client = self.listener(), self.client("comfort")
        accepted = client.submit([bossd.write("air.damper", 45_500, priority=9, lease=HOUR, revert=[(30_000, HOUR)])])
        self.eventually(lambda: listener.point("air.damper", "state")["from"] == "lease")
        self.eventually(lambda: listener.point("air.damper", "state")["device"] == "settled")
        self.assertEqual((listener.point("air.damper", "value"), listener.point("air.damper", "state")), ("45.5", {
            "value": 45.5, "unit": "%", "from": "lease", "priority": 9, "owner": "comfort", "until": accepted.until, "device": "settled"}))
        client.cancel(accepted.txn)
        self.eventually(lambda: listener.point("air.damper", "value") == "30")
        self.assertEqual({key: listener.point("air.damper", "state")[key] for key in ("from", "priority", "owner")},
                         {"from": "pending", "priority": 9, "owner": "comfort"})
        self.assertEqual(listener.point("air.damper", "state")["until"], slot_of(client, "air.damper", 9).end)

    def test_what_the_journal_names_is_read_at_once(self):
        self.bridge(top=f'every = "1m"\njournal = "{self.server.journal}"')
        listener, client = self.listener(), self.client("comfort")
        self.eventually(lambda: listener.point("air.damper", "value") == "20")
        began = time.monotonic()
        txn = client.submit([bossd.write("air.damper", 45_000, lease=HOUR), bossd.write("air.fan", 2, lease=1_500)]).txn
        self.eventually(lambda: (listener.point("air.damper", "value"), listener.point("air.fan", "value")) == ("45", "2"))
        self.eventually(lambda: listener.point("air.fan", "value") == "1")        # its end makes no record that names it
        client.cancel(txn)
        self.eventually(lambda: listener.point("air.damper", "value") == "20")
        client.submit([bossd.write("lamp", 1, lease=HOUR)])
        self.eventually(lambda: listener.point("lamp", "value") == "1")
        client.close()
        self.eventually(lambda: listener.point("lamp", "value") == "0")
        self.assertLess(time.monotonic() - began, 55)                             # before it reads them all

    def test_a_renewal_is_told_in_time(self):
        self.bridge(top='until_every = "1s"\nevery = "1s"')
        listener, client = self.listener(), self.client("comfort")
        txn = client.submit([bossd.write("lamp", 1, lease=HOUR)]).txn
        self.eventually(lambda: listener.point("lamp", "value") == "1")
        until = client.renew(txn, 2 * HOUR)
        self.eventually(lambda: listener.point("lamp", "state")["until"] == until, 60)

    def test_what_an_earlier_bridge_left_is_taken_away(self):
        listener = self.listener()
        gone = ["homeassistant/number/bossd_siteXXnorth/old_damper/config", "homeassistant/switch/bossd_siteXXnorth/lamp/config",
                f"{BASE}/point/old.damper/value", f"{BASE}/point/old.damper/state"]
        others = ["homeassistant/number/bossd_siteXXsouth/old_damper/config", "homeassistant/switch/other/config", "site/south/point/old/value"]
        for topic in gone + others:
            listener.say(topic, "{}", retain=True)
        self.bridge('[[point]]\nname = "lamp"\nhidden = true\n')
        self.eventually(lambda: not set(gone) & listener.last.keys())
        found = retained(self.broker.port)
        self.assertEqual((set(gone) & found.keys(), set(others) - found.keys()), (set(), set()))
        self.assertEqual(found[f"{BASE}/point/lamp/value"], "0")

    def test_two_buildings_under_one_broker(self):
        other = tools.Server(common.CATALOGUE, workers=5)
        other.start()
        self.addCleanup(other.stop)
        self.bridge(ALL)
        self.bridge(ALL, other.address, base="site/south")
        listener = self.listener()
        listener.say("site/south/point/air.damper/set", "45")
        self.eventually(lambda: listener.point("air.damper", "value", "site/south") == "45")
        found = retained(self.broker.port)
        self.assertEqual((found[f"{BASE}/point/air.damper/value"], self.client().read("air.damper").basis), ("20", "default"))
        self.assertEqual(self.client(server=other).read("air.damper").value, 45_000)
        names = [json.loads(payload)["unique_id"] for topic, payload in found.items() if topic.startswith("homeassistant/")]
        self.assertEqual((len(names), len(set(names))), (10, 10))

    def test_metrics(self):
        bridge = self.bridge(ALL, base="site")
        listener, path = self.listener(), os.path.join(bridge.folder, "site.prom")
        listener.say("site/point/lamp/set", "1")
        listener.say("site/point/lamp/set", "7")

        def told():
            with open(path, encoding="utf-8") as file:
                return dict(line.rsplit(" ", 1) for line in file if line.strip() and not line.startswith("#"))
        self.eventually(lambda: told().get('bossd_mqtt_commands_total{outcome="made"}', "0").strip() == "1")
        found = {name: float(value) for name, value in told().items()}
        self.assertEqual([found[name] for name in (
            "bossd_mqtt_broker_up", "bossd_mqtt_server_up", "bossd_mqtt_held", "bossd_mqtt_connects_total",
            'bossd_mqtt_commands_total{outcome="unfit"}', 'bossd_mqtt_topics{state="due"}')], [1, 1, 1, 1, 1, 0])
        self.assertGreaterEqual(found["bossd_mqtt_publish_seconds_count"], 2 * 4 + 5 + 2)


class Set(common.Case):
    def way_of(self, name, slot):
        """The way back that the journal has of a slot."""
        reader = Reader(self.server.journal, read_catalogue(common.CATALOGUE))
        reader.follow()
        return [tuple(step) for step in reader.way_of(name, 12, slot, "mqtt")]

    def test_a_lease_with_its_way_back(self):
        self.bridge(BACK)
        listener, client = self.listener(), self.client()
        listener.say(f"{BASE}/point/air.damper/set", '{"value":45.5,"for":"2h","id":"first"}')
        self.eventually(lambda: listener.point("air.damper", "value") == "45.5")
        slot = slot_of(client, "air.damper")
        self.assertEqual((slot.value, client.status(slot.txn).owner), (45_500, "mqtt"))
        self.assertEqual(self.way_of("air.damper", slot), [(45_500, MINUTE), (50_000, HOUR), (30_000, HOUR)])
        answer, = listener.answers("air.damper")
        self.assertEqual((answer["id"], answer["ok"]), ("first", True))
        self.assertAlmostEqual(answer["until"], time.time() * 1000 + 2 * HOUR, delta=2 * MINUTE)
        self.assertAlmostEqual(slot.until, time.time() * 1000 + 5 * MINUTE, delta=2 * MINUTE)

    def test_the_same_value_again_makes_no_transaction(self):
        self.bridge(BACK)
        listener, client = self.listener(), self.client()
        listener.say(f"{BASE}/point/lamp/set", "1")
        self.eventually(lambda: listener.answers("lamp"))
        txn = slot_of(client, "lamp").txn
        listener.say(f"{BASE}/point/lamp/set", "1")
        self.eventually(lambda: len(listener.answers("lamp")) == 2)
        self.assertEqual(slot_of(client, "lamp").txn, txn)
        listener.say(f"{BASE}/point/lamp/set", "0")
        self.eventually(lambda: listener.point("lamp", "value") == "0")
        self.assertNotEqual(slot_of(client, "lamp").txn, txn)

    def test_release(self):
        self.bridge(BACK)
        listener, client = self.listener(), self.client()
        for name, value, after in (("air.damper", "45", "50"), ("lamp", "1", "0")):
            listener.say(f"{BASE}/point/{name}/set", value)
            self.eventually(lambda: listener.point(name, "value") == value)
            listener.say(f"{BASE}/point/{name}/release", '{"id":"r"}')
            self.eventually(lambda: listener.point(name, "value") == after)
            self.assertEqual(listener.answers(name)[-1], {"id": "r", "ok": True, "until": None})
        self.assertEqual(self.way_of("air.damper", slot_of(client, "air.damper")), [(50_000, HOUR), (30_000, HOUR)])
        listener.say(f"{BASE}/point/lamp/release", "")
        self.eventually(lambda: len(listener.answers("lamp")) == 3)
        self.assertEqual(listener.answers("lamp")[-1], {"ok": False, "error": "not-held", "sentence": "the bridge does not hold it"})

    def test_it_is_let_go_in_time(self):
        self.bridge(BACK)
        listener = self.listener()
        listener.say(f"{BASE}/point/air.damper/set", '{"value":45,"for":"2s"}')
        self.eventually(lambda: listener.point("air.damper", "value") == "45")
        self.eventually(lambda: listener.point("air.damper", "value") == "50")    # and not held for a minute more

    def test_what_is_no_command(self):
        bridge = self.bridge('[[set]]\npoints = ["lamp"]\n')
        listener = self.listener()
        for name, payload, error, sentence in (
                ("lamp", "2", "unfit", "2 is outside 0 to 1"), ("lamp", "on", "unfit", "'on' is no whole number"),
                ("lamp", '{"value":1,"for":"9h"}', "unfit", "for is to be a length of time, 1s to 8h"),
                ("air.damper", "45", "read-only", "the bridge's file lets nobody set it")):
            listener.say(f"{BASE}/point/{name}/set", payload)
            self.eventually(lambda: listener.answers(name) and listener.answers(name)[-1]["sentence"] == sentence)
            self.assertEqual((listener.answers(name)[-1]["ok"], listener.answers(name)[-1]["error"]), (False, error))
        listener.say(f"{BASE}/point/nix/set", "1")
        self.eventually(lambda: "nix: a command for a point that the catalogue does not have" in bridge.said())
        self.assertEqual({name: self.client().read(name).basis for name in DEFAULTS}, dict.fromkeys(DEFAULTS, "default"))

    def test_a_write_that_is_denied(self):
        self.server.kill()
        self.server.rules = os.path.join(self.folder, "rules.toml")
        with open(self.server.rules, "w", encoding="utf-8") as file:
            file.write('[[rule]]\nprocess = "mqtt"\npoint = "lamp"\nhighest = 13\n[[rule]]\nprocess = "mqtt"\npoint = "air.*"\nhighest = 12\n')
        self.server.start()
        bridge = self.bridge(ALL)
        listener = self.listener()
        for name, value, sentence in (("lamp", "1", "denied by rule 1 of the server's access rules"),
                                      ("room.set-point", "20", "no access rule of the server is for it")):
            listener.say(f"{BASE}/point/{name}/set", value)
            self.eventually(lambda: listener.answers(name))
            self.assertEqual(listener.answers(name), [{"ok": False, "error": "denied", "sentence": sentence}])
            self.assertIn(f"bossd-mqtt: {name}: {sentence}\n", bridge.said())
        listener.say(f"{BASE}/point/air.fan/set", "3")
        self.eventually(lambda: listener.point("air.fan", "value") == "3")

    def test_what_was_sent_before_is_not_made(self):
        listener = self.listener()
        listener.say(f"{BASE}/point/air.damper/set", "99", retain=True)
        listener.say(f"{BASE}/point/lamp/set", "1")
        bridge = self.bridge(ALL)
        path = os.path.join(bridge.folder, "site-north.prom")

        def counted():
            with open(path, encoding="utf-8") as file:
                return 'outcome="retained"} 1' in file.read()
        self.eventually(counted)
        self.assertEqual((self.client().read("air.damper").basis, self.client().read("lamp").basis), ("default", "default"))
        listener.say(f"{BASE}/point/air.damper/set", "45")
        self.eventually(lambda: listener.point("air.damper", "value") == "45")

    def test_the_last_one_of_a_flood_is_made(self):
        self.bridge(ALL, top="rate = 20")
        listener = self.listener()
        for place in range(3_000):
            listener.client.publish(f"{BASE}/point/air.damper/set", str(place % 100), qos=1)
        listener.client.publish(f"{BASE}/point/air.damper/set", b'\xff{"value":', qos=1)
        listener.client.publish(f"{BASE}/point/air.damper/set", '{"value":77.7,"id":"last"}', qos=1)
        self.eventually(lambda: [one for one in listener.answers("air.damper") if one.get("id") == "last"], 60)
        self.eventually(lambda: listener.point("air.damper", "value") == "77.7")
        self.assertEqual(self.client().read("air.damper").value, 77_700)
        made = [one for one in listener.answers("air.damper") if one["ok"]]
        self.assertLess(len(made), 1_500)                                         # at 20 a second: for 75 seconds, and more than it took

    def test_commands_of_a_point_are_made_in_their_order(self):
        self.bridge(ALL, top="rate = 1000")
        listener = self.listener()
        for value in (1, 2, 3):
            listener.say(f"{BASE}/point/air.fan/set", str(value))
            self.eventually(lambda: listener.point("air.fan", "value") == str(value))
        self.assertEqual([one["ok"] for one in listener.answers("air.fan")], [True] * 3)


class Kept(common.Case):
    def set(self, listener, name, value):
        listener.say(f"{BASE}/point/{name}/set", value)
        self.eventually(lambda: listener.point(name, "value") == value)

    def test_whoever_takes_the_slot_has_it(self):
        bridge = self.bridge(ALL)
        listener = self.listener()
        self.set(listener, "air.damper", "45")
        taken = self.client("operator").submit([bossd.write("air.damper", 60_000, priority=12, lease=HOUR)])
        self.eventually(lambda: f"air.damper: superseded by transaction {taken.txn}; it is held no more" in bridge.said())
        self.eventually(lambda: listener.point("air.damper", "state")["owner"] == "operator")
        time.sleep(2.5)                                                           # two pulses more
        self.assertEqual(slot_of(self.client(), "air.damper").txn, taken.txn)

    def test_a_server_that_is_killed_and_comes_back(self):
        self.bridge(ALL)
        listener = self.listener()
        self.set(listener, "air.damper", "45")
        self.set(listener, "lamp", "1")
        for how in (signal.SIGKILL, signal.SIGTERM):
            self.server.kill(how)
            self.eventually(lambda: listener.last[f"{BASE}/server"] == "offline")
            self.assertEqual(listener.point("air.damper", "value"), "45")
            self.server.start()
            self.eventually(lambda: listener.last[f"{BASE}/server"] == "online")
            client = self.client()
            self.eventually(lambda: [client.read(name).basis for name in ("air.damper", "lamp")] == ["lease", "lease"])
            client.close()
            self.assertEqual((listener.point("air.damper", "value"), listener.point("lamp", "value")), ("45", "1"))
        self.set(listener, "air.damper", "46")

    def test_a_server_that_comes_back_with_nothing(self):
        self.server.kill()
        self.server.journal = "-"
        self.server.start()
        self.bridge(ALL)
        listener = self.listener()
        self.set(listener, "air.damper", "45")
        self.server.kill()
        self.server.start()
        client = self.client()
        self.eventually(lambda: client.read("air.damper").value == 45_000)
        self.eventually(lambda: listener.point("air.damper", "state")["from"] == "lease" and listener.point("air.damper", "value") == "45")

    def test_a_bridge_that_is_killed_moves_nothing(self):
        bridge = self.bridge(BACK)
        listener, client = self.listener(), self.client()
        self.set(listener, "air.damper", "45")
        bridge.stop(signal.SIGKILL)
        self.eventually(lambda: listener.last[f"{BASE}/availability"] == "offline")
        self.eventually(lambda: client.read("air.damper").basis == "pending")
        self.assertEqual(client.read("air.damper").value, 45_000)                 # its own value, for a minute, before its way back
        bridge.start()
        self.eventually(lambda: listener.last[f"{BASE}/availability"] == "online")
        self.set(listener, "air.damper", "46")
        self.assertEqual(client.read("air.damper").basis, "lease")

    def test_it_ends_in_order(self):
        bridge = self.bridge(ALL)
        self.assertEqual(bridge.stop(), 0)
        self.assertEqual(retained(self.broker.port, f"{BASE}/availability"), {f"{BASE}/availability": "offline"})

    def test_many_points_are_few_transactions(self):
        folder, count = self.new_folder(), 100
        catalogue = os.path.join(folder, "many.toml")
        with open(catalogue, "w", encoding="utf-8") as file:
            file.write('drivers = ["air"]\n' + "".join(
                f'[[point]]\nname = "p{place}"\ndriver = "air"\nkind = "binary"\ndefault = 0\n' for place in range(count)))
        server = tools.Server(catalogue, workers=5)
        server.start()
        self.addCleanup(server.stop)
        self.bridge('[[set]]\npoints = ["*"]\nlease = "30s"\n', server.address, catalogue=catalogue, top="rate = 1000")
        listener, client = self.listener(), self.client(server=server)
        for place in range(count):
            listener.client.publish(f"{BASE}/point/p{place}/set", "1", qos=1)
        self.eventually(lambda: [listener.point(f"p{place}", "value") for place in range(count)] == ["1"] * count, 60)
        moved = len([topic for topic, payload in listener.all if topic.endswith("/value") and payload == "0"])

        def slots():
            return [slot_of(client, f"p{place}") for place in range(count)]
        self.eventually(lambda: len({slot.txn for slot in slots() if slot}) <= 64, 60)
        self.assertEqual([slot.until is not None for slot in slots()], [True] * count)
        self.assertEqual(len([topic for topic, payload in listener.all if topic.endswith("/value") and payload == "0"]), moved)

    def test_another_copy(self):
        first, second = self.bridge(ALL), self.bridge(ALL, is_online=False, broker='client_id = "other"')
        self.eventually(lambda: "another connection speaks for mqtt: is another copy running?" in second.said())
        listener = self.listener()
        self.set(listener, "lamp", "1")
        self.assertIsNone(first.process.poll())

    def test_the_unit_is_told(self):
        path = os.path.join(self.new_folder(), "notify")
        with socket.socket(socket.AF_UNIX, socket.SOCK_DGRAM) as link:
            link.bind(path)
            link.settimeout(common.PATIENCE)
            bridge = self.bridge(ALL)
            bridge.stop()
            bridge.start(env={**os.environ, "NOTIFY_SOCKET": path})
            told = [link.recv(64) for _ in range(12)]
        self.assertEqual({b"READY=1", b"WATCHDOG=1"} - set(told), set())
        self.assertEqual(told.count(b"READY=1"), 1)


if __name__ == "__main__":
    unittest.main()
