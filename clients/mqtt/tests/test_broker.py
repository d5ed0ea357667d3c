"""Tests of a broker that goes and comes, and of its passwords and certificates."""

import signal
import subprocess
import time
import unittest

from tests import common
from tests.common import BASE, HOUR, Bridge, Mosquitto, retained, words_of

import bossd

ALL = '[[set]]\npoints = ["*"]\n'


def values(found):
    return {topic.split("/")[3]: payload for topic, payload in found.items() if topic.endswith("/value")}


class GoesAndComes(common.Case):
    def test_nothing_is_stale(self):
        bridge, client = self.bridge(ALL), self.client("comfort")
        before = retained(self.broker.port)
        for place, (how, forgets) in enumerate(((signal.SIGTERM, False), (signal.SIGKILL, False), (signal.SIGKILL, True))):
            self.broker.stop(how)
            if forgets:
                self.broker.forget()
            client.submit([bossd.write("air.damper", 30_000 + place, lease=HOUR)])
            self.eventually(lambda: bridge.said().count("is lost") == place + 1)
            self.broker.start()
            self.eventually(lambda: retained(self.broker.port, f"{BASE}/availability", 0.2).get(f"{BASE}/availability") == "online")
            self.eventually(lambda: values(retained(self.broker.port))["air.damper"] == f"30{'.00' + str(place) if place else ''}")
            after = retained(self.broker.port)
            self.assertEqual(after.keys(), before.keys())
            self.assertEqual({name: value for name, value in values(after).items() if name != "air.damper"},
                             {name: value for name, value in values(before).items() if name != "air.damper"})

    def test_a_broker_that_stops_for_a_while(self):
        self.bridge(ALL, broker='keepalive = "5s"')
        listener, client = self.listener(), self.client("comfort")
        self.broker.process.send_signal(signal.SIGSTOP)
        self.addCleanup(lambda: self.broker.process.send_signal(signal.SIGCONT))
        for value in range(1, 100):
            client.submit([bossd.write("air.damper", 1_000 * value, lease=HOUR)])
        time.sleep(10)
        self.broker.process.send_signal(signal.SIGCONT)
        self.eventually(lambda: values(retained(self.broker.port))["air.damper"] == "99")
        self.eventually(lambda: listener.point("air.damper", "value") == "99")

    def test_what_was_set_is_held_for_the_grace_alone(self):
        self.bridge(ALL + 'back = { "air.damper" = [[50, "1h"]] }\n', broker='grace = "6s"')
        listener, client = self.listener(), self.client()
        listener.say(f"{BASE}/point/air.damper/set", "45")
        self.eventually(lambda: listener.point("air.damper", "value") == "45")
        lost = time.monotonic()
        self.broker.stop()
        self.eventually(lambda: client.read("air.damper").basis != "lease")
        self.assertGreaterEqual(time.monotonic() - lost, 5.5)
        self.assertEqual((client.read("air.damper").basis, client.read("air.damper").value), ("pending", 50_000))
        self.broker.start()
        self.eventually(lambda: values(retained(self.broker.port))["air.damper"] == "50")

    def test_a_broker_that_is_back_within_it(self):
        self.bridge(ALL)
        listener, client = self.listener(), self.client()
        listener.say(f"{BASE}/point/air.damper/set", "45")
        self.eventually(lambda: listener.point("air.damper", "value") == "45")
        txn = client.array("air.damper").slots[12].txn
        self.broker.stop()
        time.sleep(2)
        self.broker.start()
        self.eventually(lambda: retained(self.broker.port, f"{BASE}/availability", 0.2).get(f"{BASE}/availability") == "online")
        self.assertEqual((client.array("air.damper").slots[12].txn, client.read("air.damper").basis), (txn, "lease"))

    def test_a_bridge_that_is_started_before_its_broker(self):
        self.broker.stop()
        bridge = self.bridge(ALL, is_online=False)
        self.eventually(lambda: "Connection refused" in bridge.said())
        self.broker.start()
        self.eventually(lambda: retained(self.broker.port, f"{BASE}/server", 0.2).get(f"{BASE}/server") == "online")

    def test_another_client_with_the_same_id(self):
        bridge = self.bridge(ALL, broker='client_id = "one"')
        other = self.bridge(ALL.replace("*", "lamp"), is_online=False, broker='client_id = "one"', top='process = "other"')
        self.eventually(lambda: "another client has the id one" in bridge.said() + other.said(), 60)

    def test_another_bridge_with_the_same_base(self):
        bridge = self.bridge(ALL, broker='client_id = "one"')
        listener = self.listener()
        for _ in range(2):
            listener.say(f"{BASE}/bridge", '{"id":"another"}')
        self.eventually(lambda: f"another bridge has the base {BASE}" in bridge.said())


class Walls(common.Case):
    def setUp(self):
        super().setUp()
        self.keys = self.new_folder()
        make = ["openssl", "req", "-x509", "-newkey", "ec", "-pkeyopt", "ec_paramgen_curve:prime256v1", "-nodes", "-days", "2", "-subj", "/CN=test"]
        for name, host in (("right", "IP:127.0.0.1"), ("other", "IP:127.0.0.1"), ("misnamed", "DNS:elsewhere.example")):
            subprocess.run(make + ["-addext", "subjectAltName=" + host, "-keyout", f"{self.keys}/{name}.key", "-out", f"{self.keys}/{name}.pem"],
                           check=True, stderr=subprocess.DEVNULL)
        self.allow("secret")

    def allow(self, password):
        subprocess.run(["mosquitto_passwd", "-b", "-c", f"{self.keys}/users", "north", password], check=True)

    def walled(self, served):
        made = Mosquitto(self.new_folder(), "allow_anonymous false", f"password_file {self.keys}/users", f"certfile {self.keys}/{served}.pem",
                         f"keyfile {self.keys}/{served}.key")
        made.start()
        self.addCleanup(made.stop)
        return made

    def behind(self, served, ca, password):
        """A bridge before a broker with walls, that shows this certificate, and the broker."""
        broker, folder = self.walled(served), self.new_folder()
        with open(f"{folder}/password", "w", encoding="utf-8") as file:
            file.write(password + "\n")
        text = words_of(broker.port, ALL, broker=f'user = "north"\npassword_file = "{folder}/password"\nca_file = "{self.keys}/{ca}.pem"')
        made = Bridge(folder, text, self.server.address)
        made.start()
        self.addCleanup(made.stop)
        return made, broker

    def test_the_right_ones(self):
        bridge, _ = self.behind("right", "right", "secret")
        self.eventually(lambda: "bossd-mqtt: connected to 127.0.0.1:" in bridge.said())
        self.assertNotIn("secret", bridge.said())

    def test_a_wrong_password_is_told_once_and_no_more(self):
        bridge, _ = self.behind("right", "right", "wrongly")
        self.eventually(lambda: "not authorised" in bridge.said())
        time.sleep(3)
        self.assertEqual(bridge.said().count("not authorised"), 1)
        self.assertNotIn("connected", bridge.said())
        self.assertNotIn("wrongly", bridge.said())

    def test_a_certificate_of_another_authority_or_name(self):
        for served, ca, why in (("right", "other", "certificate verify failed"), ("misnamed", "misnamed", "IP address mismatch")):
            bridge, _ = self.behind(served, ca, "secret")
            self.eventually(lambda: why in bridge.said())
            self.assertNotIn("connected", bridge.said())
            self.assertEqual(bridge.stop(), 0)

    def test_a_broker_without_tls(self):
        folder = self.new_folder()
        bridge = Bridge(folder, words_of(self.broker.port, broker=f'ca_file = "{self.keys}/right.pem"'), self.server.address)
        bridge.start()
        self.addCleanup(bridge.stop)
        self.eventually(lambda: f"127.0.0.1:{self.broker.port}: " in bridge.said())
        self.assertNotIn("connected", bridge.said())


if __name__ == "__main__":
    unittest.main()
