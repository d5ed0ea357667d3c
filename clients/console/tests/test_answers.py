"""Tests of what the console answers programs, against the built program: no browser."""

import contextlib
import http.client
import json
import os
import re
import signal
import socket
import subprocess
import time
import unittest

from tests import journals
from tests.common import CATALOGUE, CONSOLE, MINUTE, PATIENCE, TOP, Case, Console, WithPump, bossd
from tests.stub import Stub

from bossd_console.bounds import MOST_CONNECTIONS
from bossd_console.catalogue import read_catalogue

DAMPER = "ahu1.damper"


class Stream:
    """The events of /api/changes."""

    def __init__(self, console):
        self.link = http.client.HTTPConnection("127.0.0.1", console.port, timeout=PATIENCE)
        self.link.request("GET", "/api/changes")
        self.lines = self.link.getresponse()

    def next(self):
        """The kind and the contents of the next event."""
        kind = ""
        while True:
            line = self.lines.readline().decode().rstrip("\n")
            if line.startswith("event: "):
                kind = line[7:]
            if line.startswith("data: "):
                return kind, json.loads(line[6:])

    def close(self):
        self.link.close()


class Looking(Case):
    def test_points_slots_and_owners(self):
        console, comfort = self.console(), self.client("comfort")
        comfort.submit([bossd.write(DAMPER, 35_000, priority=12, lease=MINUTE)])
        point = self.eventually(lambda: (lambda it: it if it.get("owner") else None)(console.point(DAMPER)))
        self.assertEqual({key: point[key] for key in ("value", "from", "priority", "owner", "unit")},
                         {"value": 35_000, "from": "lease", "priority": 12, "owner": "comfort", "unit": "percent"})
        self.assertEqual([(slot["priority"], slot["kind"], slot["value"], slot["owner"]) for slot in point["slots"]], [(12, "lease", 35_000, "comfort")])
        self.assertEqual([(one["from"], one["sure"]) for one in point["next"]], [("default", False)])
        listed = console.ask("/api/points")[1]
        self.assertEqual((len(listed["points"]), listed["server"]["state"], listed["operator"]), (10, "up", None))
        self.assertEqual(console.ask("/api/points/no.such")[0], 404)

    def test_a_renewal_is_seen(self):
        console, comfort = self.console(), self.client("comfort")
        txn = comfort.submit([bossd.write(DAMPER, 35_000, lease=MINUTE)]).txn
        self.eventually(lambda: "until" in console.point(DAMPER))
        until = comfort.renew(txn, 5 * MINUTE)
        self.eventually(lambda: console.point(DAMPER)["until"] == until)

    def test_notices(self):
        console, comfort = self.console(), self.client("comfort")
        self.assertEqual(console.ask("/api/processes/comfort/notices")[0], 404)
        txn = comfort.submit([bossd.write(DAMPER, 35_000, lease=MINUTE)]).txn
        comfort.cancel(txn)
        comfort.submit([bossd.write(DAMPER, 35_000, lease=MINUTE)])
        listed = self.eventually(lambda: console.ask("/api/processes/comfort/notices")[1].get("list"))
        self.assertEqual([one["kind"] for one in listed], ["ended", "done"])
        self.assertEqual(console.ask("/api/processes")[1]["processes"], [{"name": "comfort", "notices": 2, "holding": [2]}])
        self.assertEqual(console.ask("/api/processes/No%20Name/notices")[0], 404)

    def test_changes_alone_are_sent(self):
        console, comfort = self.console(), self.client("comfort")
        self.eventually(lambda: "mark" in console.ask("/api/points")[1]["points"][0])
        stream = Stream(console)
        self.addCleanup(stream.close)
        self.assertEqual(stream.next()[0], "all")
        self.assertEqual([set(stream.next()[1]) - {"server"} for _ in range(2)], [{"now", "seconds"}] * 2)
        began = time.monotonic()
        comfort.submit([bossd.write(DAMPER, 35_000, lease=MINUTE)])
        told = []
        while not told and time.monotonic() < began + PATIENCE:
            told = stream.next()[1].get("points", [])
        self.assertEqual([(one["name"], one["value"], one["owner"]) for one in told], [(DAMPER, 35_000, "comfort")])

    def test_metrics(self):
        console, comfort = self.console(), self.client("comfort")
        self.eventually(lambda: console.metrics().get('bossd_points_by_basis{basis="default"}') == 10)
        comfort.submit([bossd.write(DAMPER, 35_000, priority=12, lease=MINUTE), bossd.write("ahu1.fan", 2, priority=12, lease=MINUTE)])
        lease = 'bossd_leases{level="Available",priority="12"}'
        self.eventually(lambda: console.metrics().get(lease) == 2)
        comfort.close()
        self.eventually(lambda: console.metrics()['bossd_leases_ended_total{cause="died"}'] == 2)
        metrics = self.eventually(lambda: (lambda it: it if it.get(lease) == 0 else None)(console.metrics()))
        self.assertEqual((metrics["bossd_up"], metrics['bossd_points_by_mark{mark="settled"}'], metrics["bossd_processes"]), (1, 10, 1))
        self.assertGreater(metrics["bossd_look_seconds"], 0)
        self.assertGreater(metrics["bossd_console_process_cpu_seconds_total"], 0)

    def test_the_dashboard_asks_for_what_is_told(self):
        console = self.console()
        self.eventually(lambda: console.metrics().get('bossd_points_by_basis{basis="default"}') == 10)
        told = set(re.findall(r"^# TYPE (\w+)", console.ask("/metrics")[1], re.M))
        with open(os.path.join(TOP, "packaging", "grafana", "bossd.json"), encoding="utf-8") as file:
            asked = [target["expr"] for panel in json.load(file)["panels"] for target in panel["targets"]]
        self.assertEqual(set(re.findall(r"bossd_\w+", " ".join(asked))) - told, set())


class HeldByMinimumTimes(WithPump, Case):
    def test_a_pump_that_runs_on(self):
        console, reading = self.console(catalogue=None), self.running(self.client("comfort"))
        # It is to be off, and on it is for an hour.
        self.assertEqual((reading.value, reading.mark, reading.took), (0, "pending", 1))
        until = reading.since + self.MIN_ON
        told = self.eventually(lambda: (lambda it: it if it.get("took") is not None else None)(console.point(self.PUMP)))
        self.assertEqual([told[key] for key in ("value", "mark", "took", "since", "held_until")], [0, "pending", 1, reading.since, until])
        metrics = console.metrics()
        self.assertEqual(metrics['bossd_point_took{point="boiler.pump"}'], 1)
        left = metrics['bossd_point_minimum_seconds{point="boiler.pump"}']
        self.assertTrue(0 < left <= (until - reading.since) / 1000, left)

        def first(value, priority):
            asked = {"do": "take", "id": "x", "point": self.PUMP, "value": value, "priority": priority, "length": MINUTE}
            coming = console.ask("/api/preview", asked)[1]["next"]
            return [coming[0].get(key) for key in ("value", "device", "device_at")], [one.get("device") for one in coming[1:]]
        # The lease of a minute is over before the hour is; one at priority 5 does not wait; on the pump is.
        self.assertEqual(first(0, 8), ([0, "not", None], ["then"]))
        self.assertEqual(first(0, 5), ([0, None, None], [None]))
        self.assertEqual(first(1, 8), ([1, None, None], ["then"]))


class Journal(Case):
    STEPS = [(30_000, MINUTE), (25_000, 2 * MINUTE), (22_000, 3 * MINUTE)]

    def journaled(self):
        return self.console("--journal", self.server.journal)

    def slot(self, console, until):
        """The damper's slot, once it is so."""
        def found():
            slots = console.point(DAMPER)["slots"]
            return slots[0] if len(slots) == 1 and until(slots[0]) else None
        return self.eventually(found)

    def test_what_follows_anothers_lease(self):
        console, comfort = self.journaled(), self.client("comfort")
        until = comfort.submit([bossd.write(DAMPER, 35_000, priority=12, lease=MINUTE, revert=self.STEPS)]).until
        slot = self.slot(console, lambda it: it["kind"] == "lease" and "steps" in it)
        starts = [until, until + MINUTE, until + 3 * MINUTE]
        self.assertEqual(slot["steps"], [{"at": at, "value": value, "hold": hold} for at, (value, hold) in zip(starts, self.STEPS)])
        self.assertEqual([(one["at"], one["value"], one["from"], one["sure"]) for one in console.point(DAMPER)["next"]],
                         [(at, value, "pending", True) for at, (value, _) in zip(starts, self.STEPS)] + [(until + 6 * MINUTE, 20_000, "default", True)])
        self.assertEqual(console.ask("/api/points")[1]["journal"], {"path": self.server.journal})

    def test_the_steps_of_a_reversion_under_way(self):
        console, comfort = self.journaled(), self.client("comfort")
        txn = comfort.submit([bossd.write(DAMPER, 35_000, lease=MINUTE, revert=self.STEPS)]).txn
        at = comfort.cancel(txn)
        slot = self.slot(console, lambda it: it["kind"] == "reversion" and "steps" in it)
        self.assertEqual((slot["value"], slot["until"]), (30_000, at + 6 * MINUTE))
        self.assertEqual(slot["steps"], [{"at": at + MINUTE, "value": 25_000, "hold": 2 * MINUTE}, {"at": at + 3 * MINUTE, "value": 22_000, "hold": 3 * MINUTE}])

    def test_a_renewal_moves_the_steps(self):
        console, comfort = self.journaled(), self.client("comfort")
        txn = comfort.submit([bossd.write(DAMPER, 35_000, lease=MINUTE, revert=self.STEPS)]).txn
        until = comfort.renew(txn, 5 * MINUTE)
        self.assertEqual(self.slot(console, lambda it: it["until"] == until and "steps" in it)["steps"][0]["at"], until)

    def test_a_lease_without_a_way_back(self):
        console, comfort = self.journaled(), self.client("comfort")
        comfort.submit([bossd.write(DAMPER, 35_000, lease=MINUTE)])
        self.assertEqual(self.slot(console, lambda it: "steps" in it)["steps"], [])

    def test_all_slots_of_a_point(self):
        console = self.journaled()
        for place, name in enumerate(["comfort", "boiler"]):
            self.client(name).submit([bossd.write(DAMPER, 35_000 + place, priority=12 + place, lease=MINUTE, revert=self.STEPS[place:])])
        slots = self.eventually(lambda: (lambda it: it if len(it) == 2 and all("steps" in one for one in it) else None)(console.point(DAMPER)["slots"]))
        self.assertEqual([(one["owner"], [step["value"] for step in one["steps"]]) for one in slots],
                         [("comfort", [30_000, 25_000, 22_000]), ("boiler", [25_000, 22_000])])

    def test_without_it_anothers_steps_are_not_known(self):
        console, comfort = self.console(), self.client("comfort")
        comfort.submit([bossd.write(DAMPER, 35_000, lease=MINUTE, revert=self.STEPS)])
        self.assertNotIn("steps", self.slot(console, lambda it: it.get("owner")))
        self.assertIsNone(console.ask("/api/points")[1]["journal"])

    def test_another_servers_journal_says_nothing_of_this_ones_slots(self):
        comfort = self.client("comfort")
        comfort.submit([bossd.write(DAMPER, 35_000, lease=MINUTE, revert=self.STEPS)])
        other = os.path.join(self.folder, "other")
        with open(other, "wb") as file:
            file.write(journals.journal(
                journals.record(journals.taken_on(0, "comfort")), journals.record(journals.submit(5, 0, journals.write(0, 36_000, 16, 60_000, [(1, 1)]))),
                digest=read_catalogue(CATALOGUE).digest))
        console = self.console("--journal", other)
        self.eventually(lambda: console.ask("/api/points")[1]["journal"] == {"path": other})
        self.assertNotIn("steps", self.slot(console, lambda it: it.get("owner")))

    def test_a_journal_that_is_not_there_yet(self):
        path = os.path.join(self.folder, "later")
        console, comfort = self.console("--journal", path), self.client("comfort")
        comfort.submit([bossd.write(DAMPER, 35_000, lease=MINUTE, revert=self.STEPS)])
        self.eventually(lambda: "neither" in console.ask("/api/points")[1]["journal"].get("sentence", ""))
        os.link(self.server.journal, path)
        self.slot(console, lambda it: len(it.get("steps", [])) == 3)

    def test_processes_that_hold_nothing(self):
        self.client("silent")
        console = self.journaled()
        silent = {"name": "silent", "notices": 0, "holding": []}
        self.eventually(lambda: console.ask("/api/processes")[1]["processes"] == [silent])
        self.assertEqual(console.ask("/api/processes/silent/notices")[1], {"process": "silent", "next": 1, "list": []})

    def test_over_a_log_that_began_anew(self):
        now, digest = round(time.time() * 1000), read_catalogue(CATALOGUE).digest
        state = journals.state(
            now, 9, [journals.process(name) for name in ("boiler", "comfort")],
            [journals.expired(7, 1, 0, 12, now), journals.running(8, 0, 5, 16)],
            [journals.lease(8, 0, 5, 16, 1, now + 10 * MINUTE, [(0, MINUTE)])], [journals.reversion(7, 1, 0, 12, now, self.STEPS)])
        self.start_over(journals.journal(digest=digest), journals.kept(1, 70_000, state, digest=digest))
        console = self.journaled()
        slot = self.slot(console, lambda it: "steps" in it)
        self.assertEqual((slot["value"], slot["owner"], [step["value"] for step in slot["steps"]]), (30_000, "comfort", [25_000, 22_000]))
        self.eventually(lambda: [slot.get("steps") for slot in console.point("boiler.pump")["slots"]]
                        == [[{"at": now + 10 * MINUTE, "value": 0, "hold": MINUTE}]])
        # What is appended after the state goes on with its numbers.
        comfort = self.client("comfort")
        comfort.submit([bossd.write("ahu1.fan", 2, lease=MINUTE, revert=[(3, MINUTE)])])
        self.eventually(lambda: [[step["value"] for step in slot.get("steps", [])] for slot in console.point("ahu1.fan")["slots"]] == [[3]])


class Safety(Case):
    def test_foreign_pages_are_refused(self):
        console = self.console("--operator", "operator")
        body = {"id": "x", "point": DAMPER, "value": 90_000, "length": MINUTE}
        for headers in [{"Host": "evil.example"}, {"Origin": "http://evil.example"}, {"Origin": "null"}, {"Sec_Fetch_Site": "cross-site"}]:
            for path, sent in [("/api/points", None), ("/api/changes", None), ("/metrics", None), ("/api/take", body), ("/api/preview", body)]:
                status, answer = console.ask(path, sent, Authorization=f"Bearer {console.token}", **headers)
                self.assertEqual((status, answer["error"]), (403, "foreign"), (path, headers))

    def test_a_change_wants_the_token(self):
        console = self.console("--operator", "operator")
        body = {"id": "x", "point": DAMPER, "value": 90_000, "length": MINUTE}
        for do in ["take", "prolong", "release"]:
            self.assertEqual(console.ask(f"/api/{do}", body)[0], 401)
            self.assertEqual(console.ask(f"/api/{do}", body, Authorization="Bearer " + "x" * 32)[0], 401)
        status, answer = console.ask("/api/take", body, Authorization=f"Bearer {console.token}", Content_Type="text/plain")
        self.assertEqual((status, answer["error"]), (400, "faulty"))
        self.assertEqual(self.client("other").submit([bossd.write(DAMPER, 1, lease=MINUTE)]).txn, 1)

    def test_without_an_operator_nothing_is_changed(self):
        console = self.console()
        self.assertEqual(console.change("take", id="x", point=DAMPER, value=90_000, length=MINUTE)[0], 403)

    def test_headers(self):
        console = self.console()
        link = http.client.HTTPConnection("127.0.0.1", console.port, timeout=PATIENCE)
        self.addCleanup(link.close)
        link.request("GET", "/")
        answer = link.getresponse()
        text, policy = answer.read().decode(), answer.headers["Content-Security-Policy"]
        for part in ["default-src 'none'", "frame-ancestors 'none'", "connect-src 'self'", "script-src 'sha256-"]:
            self.assertIn(part, policy)
        self.assertNotIn("unsafe", policy)
        for outside in ["src=", "@import", "url("]:
            self.assertNotIn(outside, text)


class Changing(Case):
    WORKERS = 4

    def take(self, console, **more):
        return console.change("take", **{"id": "c-1", "point": DAMPER, "value": 90_000, "length": MINUTE, **more})

    def test_taken_prolonged_and_released(self):
        console = self.console("--operator", "operator")
        self.eventually(lambda: console.point(DAMPER).get("mark"))
        status, taken = self.take(console, revert=[[50_000, MINUTE]])
        self.assertEqual((status, taken["txn"]), (200, 1))
        point = console.point(DAMPER)
        self.assertEqual((point["value"], point["priority"], point["owner"]), (90_000, 8, "operator"))
        self.assertEqual([(one["value"], one["from"], one["sure"]) for one in point["next"]], [(50_000, "pending", True), (20_000, "default", True)])
        status, told = console.change("prolong", id="c-2", point=DAMPER, txn=1, length=5 * MINUTE)
        self.assertGreater(told["until"], taken["until"] + 3 * MINUTE)
        status, _ = console.change("release", id="c-3", point=DAMPER, txn=1)
        self.assertEqual((status, console.point(DAMPER)["from"]), (200, "pending"))
        status, answer = console.change("release", id="c-4", point=DAMPER, txn=1)
        self.assertEqual((status, answer["error"]), (409, "over"))

    def test_asked_twice_it_is_made_once(self):
        console = self.console("--operator", "operator")
        self.assertEqual(self.take(console), self.take(console))
        self.assertEqual(self.take(console, id="c-2", point="ahu1.fan", value=2)[1]["txn"], 2)

    def test_a_lost_answer_is_asked_again_and_made_once(self):
        console = self.console("--operator", "operator")
        self.take(console, id="c-0", point="ahu1.fan", value=2)
        self.server.process.send_signal(signal.SIGSTOP)
        status, answer = self.take(console)
        self.assertEqual((status, answer["error"]), (504, "open"))
        self.server.process.send_signal(signal.SIGCONT)
        status, answer = self.eventually(lambda: (lambda it: it if it[0] == 200 else None)(self.take(console)))
        self.assertEqual(answer["txn"], 2)
        self.assertEqual(self.take(console, id="c-2", point="ahu1.supply", value=21_000)[1]["txn"], 3)

    def test_a_server_that_hangs_loses_nothing(self):
        console = self.console("--operator", "operator")
        self.take(console, id="c-0", point="ahu1.fan", value=2)
        self.server.process.send_signal(signal.SIGSTOP)
        self.assertEqual(self.take(console)[0], 504)
        self.server.process.send_signal(signal.SIGCONT)
        self.eventually(lambda: self.take(console)[0] == 200)
        self.assertEqual((console.point(DAMPER)["owner"], console.point("ahu1.fan")["owner"]), ("operator", "operator"))

    def test_what_is_held_outlasts_a_restart_of_the_server(self):
        console = self.console("--operator", "operator")
        self.take(console, length=10 * MINUTE)
        self.server.kill()
        self.server.start()
        self.eventually(lambda: console.change("prolong", id="c-2", point=DAMPER, txn=1, length=20 * MINUTE)[0] == 200)
        # Whose it is is asked anew at the next look.
        self.eventually(lambda: console.point(DAMPER).get("owner") == "operator")

    def test_a_name_that_is_taken(self):
        self.client("operator")
        status, answer = self.take(self.console("--operator", "operator"))
        self.assertEqual((status, answer["error"]), (409, "taken"))

    def test_a_second_worker_while_something_is_held(self):
        console = self.console("--operator", "operator")
        self.eventually(lambda: console.point(DAMPER).get("mark"))
        others = [self.client() for _ in range(3)]
        status, answer = self.take(console)
        self.assertEqual((status, answer["error"]), (503, "unanswered"))
        others[0].close()
        self.eventually(lambda: self.take(console, id="c-2")[0] == 200)
        console.change("release", id="c-3", point=DAMPER, txn=1)
        # Once nothing is held, the worker is free for another one.
        last = bossd.Client(self.server.address, "last", patience=PATIENCE)
        self.addCleanup(last.close)

    def test_a_refused_value(self):
        console = self.console("--operator", "operator")
        self.assertEqual(self.take(console, value=100_001)[0], 400)
        self.assertEqual(console.change("release", id="c-2", point=DAMPER, txn=77)[1]["error"], "unknown-txn")
        txn = self.client("comfort").submit([bossd.write(DAMPER, 1, lease=MINUTE)]).txn
        self.assertEqual(console.change("release", id="c-3", point=DAMPER, txn=txn)[1]["error"], "not-yours")


class Denied(unittest.TestCase):
    """A server with access rules, for which another one stands."""

    def test_a_take_that_the_rules_deny(self):
        stub = Stub()
        self.addCleanup(stub.stop)
        console = Console(stub.address, "--operator", "operator")
        self.addCleanup(console.stop)
        status, answer = console.change("take", id="c-1", point=DAMPER, value=90_000, length=MINUTE)
        self.assertEqual((status, answer["error"]), (409, "denied"))
        self.assertIn("by rule 2 of the server's rules file", answer["sentence"])
        self.assertEqual(console.metrics()["bossd_faults_total"], 0)


class ComingAndGoing(Case):
    WORKERS = 2

    def state(self, console):
        return console.ask("/api/points")[1]["server"]["state"]

    def test_the_server_goes_down_and_comes_back(self):
        console = self.console()
        self.eventually(lambda: self.state(console) == "up")
        self.server.kill()
        self.eventually(lambda: self.state(console) == "down")
        metrics = console.metrics()
        self.assertEqual((metrics["bossd_up"], 'bossd_points_by_mark{mark="settled"}' in metrics), (0, False))
        self.server.start()
        self.eventually(lambda: self.state(console) == "up")
        self.assertGreater(console.ask("/api/points")[1]["server"]["away"], 0)

    def test_no_worker_is_free(self):
        first, second = bossd.Client(self.server.address), bossd.Client(self.server.address)
        self.addCleanup(second.close)
        for one in (first, second):
            one.read(DAMPER)
        console = self.console()
        self.eventually(lambda: self.state(console) == "busy")
        first.close()
        self.eventually(lambda: self.state(console) == "up")

    def test_it_begins_before_the_server(self):
        self.server.kill()
        console = self.console()
        self.eventually(lambda: self.state(console) == "down")
        self.server.start()
        self.eventually(lambda: self.state(console) == "up")

    def test_another_journal(self):
        console = self.console()
        comfort = self.client("comfort")
        comfort.submit([bossd.write(DAMPER, 35_000, lease=MINUTE)])
        comfort.cancel(1)
        comfort.submit([bossd.write(DAMPER, 35_000, lease=10 * MINUTE)])
        self.eventually(lambda: console.point(DAMPER).get("owner") == "comfort")
        self.server.kill()
        self.server.journal += "-2"
        self.server.start()
        other = self.client("other")
        for value in (1_000, 2_000):
            other.submit([bossd.write(DAMPER, value, lease=10 * MINUTE)])
        self.eventually(lambda: console.point(DAMPER).get("owner") == "other")


class Strangers(Case):
    """Whoever reaches the console, without a token."""

    def raw(self, console, *lines, body=b""):
        """What is answered to these lines, up to the end of the connection."""
        with socket.create_connection(("127.0.0.1", console.port), timeout=PATIENCE) as link:
            link.sendall(b"\r\n".join([lines[0], b"Host: " + console.host.encode(), b"Connection: close", *lines[1:], b"", body]))
            return b"".join(iter(lambda: link.recv(65_536), b""))

    def post(self, console, path, body, *lines):
        return self.raw(console, b"POST " + path + b" HTTP/1.1", b"Content-Length: " + str(len(body)).encode(), *lines, body=body)

    def test_headers_and_bodies_that_are_none(self):
        console = self.console("--operator", "operator")
        kind = b"Content-Type: application/json"
        for what, status, answer in [
            ("a header that is no UTF-8", 401, self.post(console, b"/api/take", b"{}", kind, b"Authorization: Bearer \xff\xfe")),
            ("a body that lies deep", 400, self.post(console, b"/api/preview", b"[" * 8_000, kind)),
            ("a point that lies deep", 400, self.post(console, b"/api/preview", b'{"do":"take","point":' + b"[" * 900 + b"]" * 900 + b"}", kind)),
            ("a charset that nobody knows", 400, self.post(console, b"/api/preview", b"{}", kind + b"; charset=nobody-knows")),
            ("a body that is no UTF-8", 400, self.post(console, b"/api/preview", b'{"do":"\xff"}', kind)),
            ("nothing that it does", 400, self.post(console, b"/api/preview", b'{"do":["take"],"point":"ahu1.damper"}', kind)),
        ]:
            self.assertEqual(answer.split(b" ")[1], str(status).encode(), what)

    def test_no_answer_tells_a_version(self):
        console = self.console()
        for line in (b"GET / HTTP/1.1", b"GET /no/such HTTP/1.1", b"no request", b"GET /api/points HTTP/1.1"):
            answer = self.raw(console, line)
            self.assertEqual(re.findall(rb"(?i)^server: (.*)\r$", answer, re.M), [b"bossd-console"], answer[:200])
            self.assertNotIn(b"aiohttp", answer.lower())

    def test_half_a_request_is_not_waited_for(self):
        console = self.console()
        begun = [socket.create_connection(("127.0.0.1", console.port), timeout=2 * PATIENCE) for _ in range(20)]
        head = f"GET /metrics HTTP/1.1\r\nHost: {console.host}\r\n".encode()
        for place, link in enumerate(begun):
            self.addCleanup(link.close)
            # Some say nothing, some half a request, and some half of a second one.
            link.sendall([b"", head, head + b"\r\n" + head][place % 3])
        listening = Stream(console)
        self.addCleanup(listening.close)
        self.assertEqual(listening.next()[0], "all")
        for link in begun:
            with contextlib.suppress(ConnectionError):
                while link.recv(65_536):
                    pass
        # Who listens is not ended with them.
        self.assertEqual(listening.next()[0], "changes")

    def test_half_a_body_is_not_waited_for(self):
        console = self.console()
        answer = self.raw(console, b"POST /api/preview HTTP/1.1", b"Content-Type: application/json", b"Content-Length: 100", body=b"{")
        self.assertIn(b"did not come within 10 seconds", answer)

    def test_only_so_many_connections(self):
        console = self.console()
        held = [socket.create_connection(("127.0.0.1", console.port), timeout=PATIENCE) for _ in range(MOST_CONNECTIONS)]
        for link in held:
            self.addCleanup(link.close)
        with socket.create_connection(("127.0.0.1", console.port), timeout=PATIENCE) as link, contextlib.suppress(ConnectionError):
            # It is ended before the first ones are, which are given ten seconds.
            link.settimeout(5)
            self.assertEqual(link.recv(1), b"")
        for link in held:
            link.close()
        self.eventually(lambda: console.ask("/api/points")[0] == 200)

    def test_only_so_many_pages_from_one_address(self):
        console = self.console()
        pages = [Stream(console) for _ in range(8)]
        for page in pages:
            self.addCleanup(page.close)
            self.assertEqual(page.next()[0], "all")
        self.assertEqual((console.ask("/api/changes")[0], console.ask("/api/changes")[1]["error"]), (503, "too-many"))
        link = http.client.HTTPConnection("127.0.0.1", console.port, timeout=PATIENCE, source_address=("127.0.0.2", 0))
        self.addCleanup(link.close)
        link.request("GET", "/api/changes")
        self.assertEqual(link.getresponse().status, 200)
        more = self.console("--streams", "9")
        for page in [Stream(more) for _ in range(9)]:
            self.addCleanup(page.close)
            self.assertEqual(page.next()[0], "all")
        self.assertEqual(more.ask("/api/changes")[0], 503)

    def test_who_takes_no_byte_of_an_answer(self):
        console = self.console()
        asked = f"GET / HTTP/1.1\r\nHost: {console.host}\r\n\r\n".encode()
        link = socket.socket()
        self.addCleanup(link.close)
        link.setsockopt(socket.SOL_SOCKET, socket.SO_RCVBUF, 4_096)
        link.connect(("127.0.0.1", console.port))
        link.settimeout(1)
        with contextlib.suppress(OSError):
            while True:
                link.send(asked * 100)
        self.eventually(lambda: not self.is_connected(console, link.getsockname()[1]), 120)

    def is_connected(self, console, port):
        with open("/proc/net/tcp", encoding="ascii") as file:
            ends = [line.split()[1:4] for line in file][1:]
        return any(here.endswith(f":{console.port:04X}") and there.endswith(f":{port:04X}") and state == "01" for here, there, state in ends)


class Words(unittest.TestCase):
    def test_faulty_words(self):
        for words in [["--every", "0"], ["--operator", "No Name"], ["--listen", "8080"], ["--listen", "127.0.0.1:99999"], ["--streams", "0"]]:
            ran = subprocess.run(["/usr/bin/python3", f"{CONSOLE}/bossd-console", CATALOGUE, "127.0.0.1:1", *words], capture_output=True, text=True)
            self.assertEqual((ran.returncode, ran.stderr.count("\n")), (1, 1), ran.stderr)
        ran = subprocess.run(["/usr/bin/python3", f"{CONSOLE}/bossd-console", "/no/such/file", "127.0.0.1:1"], capture_output=True, text=True)
        self.assertIn("no such file", ran.stderr)


if __name__ == "__main__":
    unittest.main()
