"""Tests of the client against the built program, which they start on a folder of their own: python3 -m unittest, in this folder.

BOSSD in the environment may name another program to start."""

import asyncio
import copy
import hashlib
import itertools
import json
import os
import pickle
import socket
import sys
import tempfile
import threading
import time
import unittest

import bossd
import bossd.aio

sys.path.append(os.path.join(os.path.dirname(os.path.abspath(__file__)), "..", ".."))
from outside import program as common
from outside.program import eventually

# Three points: ahu1.damper, analog, with the default 20000; lamp, binary, 0; fan with three states, 1.
CATALOGUE = os.path.join(common.EXAMPLES, "floor.toml")
MINUTE = 60_000


class Relay:
    """Stands between a client and the server. Of the first line from the client that has `word` in it either the line is lost, or its
    answer, and the connection is cut; `during` is called in between."""

    def __init__(self, server, word, loses, during=lambda: None):
        self.server, self.word, self.loses, self.during = server, word.encode(), loses, during
        self.cuts = 0
        self.listener = socket.create_server(("127.0.0.1", 0))
        self.address = f"127.0.0.1:{self.listener.getsockname()[1]}"
        threading.Thread(target=self.run, daemon=True).start()

    def run(self):
        while True:
            try:
                near, _ = self.listener.accept()
            except OSError:
                return
            with near, socket.create_connection(("127.0.0.1", self.server.port)) as far:
                self.relay(near.makefile("rwb", buffering=0), far.makefile("rwb", buffering=0))

    def relay(self, near, far):
        for line in near:
            cut = self.cuts == 0 and self.word in line
            self.cuts += cut
            if not (cut and self.loses == "line"):
                far.write(line)
                answer = far.readline()
            if cut:
                self.during()
                return
            near.write(answer)


class Answering:
    """Stands for a server, without the program: what each request is answered is what the function gives of it. `asked` has them all."""

    def __init__(self, answer):
        self.answer, self.asked = answer, []
        self.listener = socket.create_server(("127.0.0.1", 0))
        self.address = f"127.0.0.1:{self.listener.getsockname()[1]}"
        threading.Thread(target=self.run, daemon=True).start()

    def run(self):
        while True:
            try:
                near, _ = self.listener.accept()
            except OSError:
                return
            threading.Thread(target=self.serve, args=(near,), daemon=True).start()

    def serve(self, near):
        with near, near.makefile("rwb", buffering=0) as lines:
            for line in lines:
                self.asked.append(json.loads(line))
                answer = self.answer(self.asked[-1])
                if answer is None:
                    return
                lines.write(json.dumps(answer).encode() + b"\n")


def denying(rule, index=0):
    """What a server answers whose rules deny each submit."""
    def answer(asked):
        return {
            "attach": {"ok": "attached", "process": asked.get("process"), "next": 1},
            "submit": {"error": "denied", "index": index, "rule": rule},
            "cancel": {"error": "unknown-txn"},
            "read": {"ok": "read", "point": asked.get("point"), "value": 0, "from": "default", "mark": "settled"},
            "array": {"ok": "array", "point": asked.get("point"), "default": 0, "slots": [None] * 16},
        }.get(asked["op"], {"error": "unknown-op"})
    return answer


class Case(unittest.TestCase):
    def setUp(self):
        folder = tempfile.TemporaryDirectory()
        self.addCleanup(folder.cleanup)
        self.server = common.Server(CATALOGUE, os.path.join(folder.name, "journal"))
        self.server.start()
        self.addCleanup(self.server.stop)

    def client(self, process=None, relay=None, **more):
        made = bossd.Client((relay or self.server).address, process, **more)
        self.addCleanup(made.close)
        return made

    def relay(self, *words):
        made = Relay(self.server, *words)
        self.addCleanup(made.listener.close)
        return made


def damper(value=45_000, priority=8, lease=MINUTE, **more):
    return bossd.write("ahu1.damper", value, priority=priority, lease=lease, **more)


class Requests(Case):
    def test_a_write_is_in_force_and_reaches_its_device(self):
        client = self.client("a")
        before = time.time() * 1000
        accepted = client.submit([damper(), bossd.write("lamp", 1, lease=2 * MINUTE)])
        self.assertEqual(accepted.txn, 1)
        self.assertLess(abs(accepted.until - before - MINUTE), 5_000)
        self.assertTrue(eventually(lambda: client.read("ahu1.damper").mark == "settled"))
        self.assertEqual(client.read("ahu1.damper"), bossd.Reading("ahu1.damper", 45_000, "lease", "settled", 8, 1))
        self.assertEqual(client.array("ahu1.damper"), bossd.Slots("ahu1.damper", 20_000, {8: bossd.Slot(45_000, 1, accepted.until)}))
        self.assertEqual(list(client.array("lamp").slots), [16])
        self.assertEqual(client.status(1), bossd.Status(1, "a", "run", 2, 0))

    def test_the_least_number_wins(self):
        operator, schedule = self.client("operator"), self.client("schedule")
        operator.submit([damper(100_000, 8)])
        schedule.submit([damper(35_000, 12)])
        self.assertEqual(operator.read("ahu1.damper").value, 100_000)
        operator.cancel(1)
        reading = self.client().read("ahu1.damper")
        self.assertEqual((reading.value, reading.basis, reading.priority, reading.txn), (35_000, "lease", 12, 2))

    def test_a_renewal_makes_a_lease_longer_and_never_shorter(self):
        client = self.client("a")
        until = client.submit([damper()]).until
        self.assertGreaterEqual(client.renew(1, 2 * MINUTE), until + MINUTE)
        later = client.renew(1, 2 * MINUTE, ["ahu1.damper"])
        self.assertEqual(client.renew(1, 1), later)

    def test_a_reversion_follows_a_cancel(self):
        client = self.client("a")
        client.submit([damper(revert=[(30_000, MINUTE), (25_000, MINUTE)])])
        at = client.cancel(1)
        reading = client.read("ahu1.damper")
        self.assertEqual((reading.value, reading.basis, reading.priority, reading.txn), (30_000, "pending", 8, 1))
        self.assertEqual(client.array("ahu1.damper").slots, {8: bossd.Slot(30_000, 1, end=at + 2 * MINUTE)})
        self.assertEqual(client.status(1), bossd.Status(1, "a", "revert", 0, 1))
        told = bossd.Notice(1, at, 1, "ended", "ahu1.damper", "cancelled")
        self.assertEqual(client.notices(), bossd.Notices(1, 2, [told]))
        self.assertEqual(self.client().notices("a", first=2), bossd.Notices(1, 2, []))

    def test_refusals_have_their_fields(self):
        client, other = self.client("a"), self.client("b")
        client.submit([damper()])
        for refused, fields, ask in [
            (bossd.UnknownOp, {}, lambda: client.ask({"op": "tick"})),
            (bossd.UnknownPoint, {"index": 1}, lambda: client.submit([damper(), bossd.write("door", 1, lease=1)])),
            (bossd.UnknownPoint, {"index": 0}, lambda: client.read("door")),
            (bossd.NotAttached, {}, lambda: self.client().submit([damper()])),
            (bossd.SamePoint, {"index": 1}, lambda: client.submit([damper(), damper()])),
            (bossd.BadPriority, {"index": 0}, lambda: client.submit([damper(priority=6)])),
            (bossd.OutOfRange, {"index": 0}, lambda: client.submit([damper(100_001)])),
            (bossd.BadLease, {"index": 0}, lambda: client.submit([damper(lease=604_800_001)])),
            (bossd.BadReversion, {"index": 0}, lambda: client.submit([damper(revert=[(0, 0)])])),
            (bossd.UnknownTransaction, {}, lambda: client.cancel(9)),
            (bossd.NotYours, {}, lambda: other.cancel(1)),
            (bossd.NotInTransaction, {"index": 0}, lambda: client.renew(1, MINUTE, ["lamp"])),
            (bossd.Already, {"process": "a"}, lambda: client.attach("c")),
        ]:
            with self.subTest(refused.__name__), self.assertRaises(refused) as caught:
                ask()
            told = {key: value for key, value in caught.exception.fields.items() if key != "error"}
            self.assertEqual(told, fields)
        with self.assertRaises(bossd.Taken) as caught:
            self.client("a")
        self.assertGreater(caught.exception.session, 0)

    def test_refusals_name_what_was_asked(self):
        client, other = self.client("a"), self.client("b")
        client.submit([damper()])
        for words, ask in [
            (["unknown-point", "writes[1]", "door"], lambda: client.submit([damper(), bossd.write("door", 1, lease=1)])),
            (["unknown-point", "door"], lambda: client.read("door")),
            (["unknown-point", "points[1]", "door"], lambda: client.renew(1, MINUTE, ["ahu1.damper", "door"])),
            (["out-of-range", "writes[0]", "ahu1.damper", "100001"], lambda: client.submit([damper(100_001)])),
            (["bad-priority", "ahu1.damper", "priority 6", "1 to 16"], lambda: client.submit([damper(priority=6)])),
            (["bad-lease", "ahu1.damper", "604800001", "1 to 604800000"], lambda: client.submit([damper(lease=604_800_001)])),
            (["bad-lease", "renewal", " 0 ", "1 to 604800000"], lambda: client.renew(1, 0)),
            (["bad-reversion", "ahu1.damper", "[[0, 0]]", "1 to 86400000"], lambda: client.submit([damper(revert=[(0, 0)])])),
            (["same-point", "writes[1]", "ahu1.damper"], lambda: client.submit([damper(), damper()])),
            (["not-in-txn", "points[0]", "lamp", "transaction 1"], lambda: client.renew(1, MINUTE, ["lamp"])),
            (["unknown-txn", "9"], lambda: client.cancel(9)),
            (["not-yours", "1"], lambda: other.cancel(1)),
        ]:
            with self.subTest(words), self.assertRaises(bossd.Refused) as caught:
                ask()
            for word in words:
                self.assertIn(word, str(caught.exception))
        with self.assertRaises(bossd.OutOfRange) as caught:
            client.submit([damper(100_001)])
        self.assertEqual((caught.exception.point, caught.exception.write["value"]), ("ahu1.damper", 100_001))

    def test_what_is_over_says_how_it_ended(self):
        client, other = self.client("a"), self.client("b")
        client.submit([damper()])
        other.submit([damper(50_000)])
        with self.assertRaises(bossd.Ended) as caught:
            client.renew(1, MINUTE)
        self.assertEqual((caught.exception.cause, caught.exception.by), ("superseded", 2))
        self.assertGreaterEqual(caught.exception.moment, caught.exception.at)
        at = other.cancel(2)
        with self.assertRaises(bossd.Over) as caught:
            other.cancel(2)
        self.assertEqual(caught.exception.at, at)

    def test_a_line_that_is_too_long_is_not_sent(self):
        client = self.client("a")
        with self.assertRaises(ValueError):
            client.read("n" * bossd.LONGEST_LINE)
        self.assertEqual(client.notices().list, [])

    def test_nobody_answers(self):
        client = self.client("a", patience=0.5)
        self.server.kill()
        with self.assertRaises(bossd.Unanswered) as caught:
            client.submit([damper()])
        self.assertEqual((caught.exception.request["op"], caught.exception.request["seq"]), ("submit", 1))
        self.server.start()
        self.assertEqual(client.ask(caught.exception.request)["txn"], 1)
        self.assertEqual(client.submit([damper()]).txn, 2)
        self.assertEqual(client.attachments, 2)


class Holding(Case):
    def test_a_lease_is_kept_alive_and_released(self):
        client = self.client("a")
        with client.hold([damper(lease=500), bossd.write("lamp", 1, lease=MINUTE)]) as held:
            self.assertFalse(held.wait(2))
            self.assertEqual((client.status(held.txn).live, held.ended), (2, None))
        self.assertEqual(client.status(held.txn).stage, "done")
        self.assertEqual({notice.cause for notice in client.notices().list if notice.kind == "ended"}, {"cancelled"})

    def test_it_ends_with_the_reason(self):
        client, other = self.client("a"), self.client("b")
        held = client.hold([damper(lease=500)])
        other.submit([damper(50_000)])
        self.assertTrue(held.wait(5))
        self.assertEqual((held.ended.cause, held.ended.by), ("superseded", 2))
        held.release()

    def test_a_process_that_is_gone_holds_nothing(self):
        client, other = self.client("a"), self.client()
        client.submit([damper(lease=60 * MINUTE)])
        client.close()
        self.assertTrue(eventually(lambda: other.read("ahu1.damper").basis == "default"))
        told = [(notice.kind, notice.cause) for notice in other.notices("a").list]
        self.assertEqual(told, [("ended", "died"), ("done", None)])

    def test_a_reversion_is_played_when_the_process_is_gone(self):
        client, other = self.client("a"), self.client()
        client.hold([damper(lease=60 * MINUTE, revert=[(30_000, 5_000)])])
        time.sleep(3)
        client.close()
        reading = other.read("ahu1.damper")
        self.assertEqual((reading.value, reading.basis), (30_000, "pending"))
        # It was last alive less than two seconds ago.
        self.assertLess(abs(other.array("ahu1.damper").slots[8].end - time.time() * 1000 - 5_000), 2_000)

    def test_it_outlives_the_server(self):
        client = self.client("a")
        held = client.hold([damper(lease=3_000)])
        self.server.kill()
        self.server.start()
        self.assertFalse(held.wait(5))
        self.assertEqual((client.status(held.txn).stage, held.ended), ("run", None))


class Numbers(Case):
    """Requests are made once, though they are asked again."""

    def judge_once(self, relay, live):
        client = self.client("a", relay)
        self.assertEqual(client.submit([damper()]).txn, 1)
        self.assertEqual(relay.cuts, 1)
        self.assertEqual(client.status(1).live, live)
        self.assertEqual(client.submit([bossd.write("fan", 2, lease=MINUTE)]).txn, 2)

    def test_cut_off_before_the_server_had_it(self):
        self.judge_once(self.relay("submit", "line"), live=1)

    def test_cut_off_before_the_answer_came(self):
        # The server lost the process for a moment, so the lease has ended.
        self.judge_once(self.relay("submit", "answer"), live=0)

    def test_the_server_is_killed_before_the_answer_came(self):
        def restart():
            self.server.kill()
            self.server.start()
        self.judge_once(self.relay("submit", "answer", restart), live=1)

    def test_a_cancel_is_cut_off(self):
        relay = self.relay("cancel\",\"txn\":1", "answer", lambda: None)
        client, other = self.client("a", relay), self.client()
        client.submit([damper()])
        at = client.cancel(1)
        self.assertEqual(relay.cuts, 1)
        told = [(notice.at, notice.kind, notice.cause) for notice in other.notices("a").list]
        self.assertEqual(told, [(at, "ended", "cancelled"), (at, "done", None)])

    def test_a_new_life_goes_on_counting(self):
        for txn in (1, 2, 3):
            with self.client("a") as client:
                self.assertEqual(client.submit([damper(txn * 1000)]).txn, txn)

    def test_somebody_else_counts_too(self):
        client = self.client("a")
        client.submit([damper()])
        client.ask({"op": "cancel", "txn": 1, "seq": 7})
        with self.assertRaises(bossd.Stale) as caught:
            client.submit([damper()])
        self.assertEqual(caught.exception.kept, 7)
        self.assertEqual(client.submit([damper()]).txn, 2)


class Watching(Case):
    def test_each_notice_comes_once_and_in_order(self):
        client = self.client("a")
        watched = bossd.watch(self.server.address, "a")
        self.addCleanup(watched.close)
        client.submit([damper()])
        client.cancel(1)
        self.assertEqual([next(watched).kind for _ in range(2)], ["ended", "done"])
        self.server.kill()
        self.server.start()
        client.submit([damper(lease=300)])
        told = [next(watched) for _ in range(2)]
        self.assertEqual([(notice.n, notice.txn, notice.kind, notice.cause) for notice in told],
                         [(3, 2, "ended", "expired"), (4, 2, "done", None)])

    def test_it_begins_where_it_is_told(self):
        client = self.client("a")
        for txn in (1, 2):
            client.submit([damper()])
            client.cancel(txn)
        watched = bossd.watch(self.server.address, "a", first=4)
        self.addCleanup(watched.close)
        self.assertEqual(next(watched).n, 4)

    def test_a_name_that_is_none(self):
        with self.assertRaises(bossd.Malformed) as caught:
            bossd.watch(self.server.address, "No Name")
        self.assertEqual(caught.exception.key, "process")

    def test_it_is_stopped_from_another_thread(self):
        watched = bossd.watch(self.server.address, "nobody-yet")
        threading.Timer(0.5, watched.close).start()
        began = time.monotonic()
        self.assertEqual(list(watched), [])
        self.assertLess(time.monotonic() - began, 5)
        with self.assertRaises(StopIteration):
            next(watched)

    def test_a_server_that_is_away_is_waited_for_so_long(self):
        watched = bossd.watch(self.server.address, "a", patience=1)
        self.server.kill()
        began = time.monotonic()
        with self.assertRaises(bossd.Unanswered):
            next(watched)
        self.assertLess(0.5, time.monotonic() - began)
        self.assertLess(time.monotonic() - began, 5)
        self.server.start()
        client = self.client("a")
        client.submit([damper()])
        client.cancel(1)
        self.assertEqual(next(watched).kind, "ended")
        watched.close()

    def test_a_silent_server_is_left(self):
        listener = socket.create_server(("127.0.0.1", 0))
        self.addCleanup(listener.close)
        silence, bossd._session.SILENCE = bossd._session.SILENCE, 0.3
        self.addCleanup(setattr, bossd._session, "SILENCE", silence)
        watched = bossd.watch(f"127.0.0.1:{listener.getsockname()[1]}", "a")
        threading.Timer(3, watched.close).start()
        self.assertEqual(list(watched), [])
        # It came more than once.
        for _ in range(2):
            listener.accept()[0].close()


class Addresses(unittest.TestCase):
    def test_an_address_that_is_none(self):
        for address, word in [("127.0.0.1", "no port"), ("::1", "no port"), ("localhost:", "is no port"), ("h:http", "is no port"),
                              (":7000", "no host"), ("h:70000", "is no port")]:
            for make in (bossd.Client, lambda address: bossd.watch(address, "a")):
                with self.subTest(address), self.assertRaisesRegex(ValueError, word):
                    make(address)

    def test_a_host_that_is_none(self):
        for make in (lambda address: bossd.Client(address, patience=1), lambda address: next(bossd.watch(address, "a", patience=1))):
            with self.assertRaises(ConnectionError):
                make("no-such-host.invalid:7000")


class SeveralAddresses(unittest.TestCase):
    """Both forms of the client, before stands-in of which one serves."""

    def test_the_one_that_serves_is_found_and_followed(self):
        answer = denying(0)
        stopped = Answering(lambda asked: {"error": "stopped"})
        silent = socket.create_server(("127.0.0.1", 0))
        serving = Answering(answer)
        with socket.create_server(("127.0.0.1", 0)) as taken:
            gone = f"127.0.0.1:{taken.getsockname()[1]}"
        self.addCleanup(silent.close)
        self.addCleanup(stopped.listener.close)
        self.addCleanup(serving.listener.close)
        addresses = [gone, f"127.0.0.1:{silent.getsockname()[1]}", stopped.address, serving.address]
        with self.assertLogs("bossd", "WARNING"), bossd.Client(addresses, "a", patience=30) as client:
            self.assertEqual(client.ask({"op": "read", "point": "lamp"})["ok"], "read")
            self.assertEqual(client.address, serving.address)

        async def the_same():
            async with bossd.aio.connect(",".join(addresses), "a", 30) as client:
                return (await client.ask({"op": "read", "point": "lamp"}))["ok"], client.address

        with self.assertLogs("bossd", "WARNING"):
            self.assertEqual(asyncio.run(the_same()), ("read", serving.address))


def busy(asked):
    """What a server answers whose workers all have a connection."""
    return {"error": "busy"}


class TurnedAway(unittest.TestCase):
    """A server with no worker for the client, for which another one stands."""

    def setUp(self):
        self.server = Answering(busy)
        self.addCleanup(self.server.listener.close)

    def test_it_is_told_when_patience_ends(self):
        for make in (lambda: bossd.Client(self.server.address, "a", patience=4),
                     lambda: next(bossd.watch(self.server.address, "a", patience=4)),
                     lambda: bossd.Client(self.server.address, patience=4).ask_all([{"op": "version"}] * 3)):
            began = time.monotonic()
            with self.assertLogs("bossd", "WARNING") as logged, self.assertRaises(bossd.Busy) as caught:
                make()
            self.assertEqual(len(logged.output), 1)
            self.assertIn("all workers of the server are busy", str(caught.exception))
            self.assertLess(3.5, time.monotonic() - began)

    def test_it_goes_on_once_a_worker_is_free(self):
        answers = itertools.chain([busy] * 2, itertools.repeat(denying(0)))
        self.server.answer = lambda asked: next(answers)(asked)
        with self.assertLogs("bossd", "WARNING"), bossd.Client(self.server.address, "a", patience=30) as client:
            self.assertEqual((client.process, client.is_busy), ("a", False))
            self.assertEqual(client.ask({"op": "read", "point": "lamp"})["ok"], "read")


class Denying(unittest.TestCase):
    """A server with access rules, for which another one stands."""

    def answering(self, answer):
        made = Answering(answer)
        self.addCleanup(made.listener.close)
        return made

    def test_which_write_and_which_rule(self):
        server = self.answering(denying(2, 1))
        with bossd.Client(server.address, "a") as client:
            self.assertEqual(client.process, "a")
            with self.assertRaises(bossd.Denied) as caught:
                client.submit([damper(), bossd.write("lamp", 1, lease=MINUTE)])
            self.assertEqual((caught.exception.index, caught.exception.rule, caught.exception.error), (1, 2, "denied"))
            self.assertEqual(str(caught.exception), "denied: writes[1]: lamp at priority 16, by rule 2")
            with self.assertRaises(bossd.Denied):
                client.hold([damper()])
        # It is not asked again.
        self.assertEqual([asked["op"] for asked in server.asked], ["attach", "cancel", "submit", "submit"])

    def test_no_rule_is_rule_0(self):
        with bossd.Client(self.answering(denying(0)).address, "a") as client:
            with self.assertRaises(bossd.Denied) as caught:
                client.submit([damper()])
        self.assertEqual(caught.exception.fields, {"error": "denied", "index": 0, "rule": 0})

    def test_a_name_that_no_rule_is_for(self):
        """It is denied, and not asked again; the session asks all the same."""
        server = self.answering(lambda asked: {"error": "denied", "index": 0, "rule": 0} if asked["op"] == "attach" else denying(0)(asked))
        with bossd.Client(server.address) as client:
            with self.assertRaises(bossd.Denied) as caught:
                client.attach("visitor")
            self.assertEqual(str(caught.exception), "denied: the process visitor, since no rule is for it")
            self.assertEqual((caught.exception.point, caught.exception.rule), (None, 0))
            self.assertEqual(client.ask({"op": "read", "point": "lamp"})["ok"], "read")
        self.assertEqual([asked["op"] for asked in server.asked], ["attach", "read"])

    def test_one_of_many(self):
        with bossd.Client(self.answering(denying(3)).address, "a") as client:
            read, denied = client.ask_all([{"op": "read", "point": "lamp"}, {"op": "submit", "writes": [damper()]}])
        self.assertEqual((read["ok"], type(denied), denied.rule), ("read", bossd.Denied, 3))

    def test_its_number_is_not_used_again(self):
        """What was accepted, and not answered, may be denied by a server that came back under other rules, which keeps its number."""
        submits = []

        def answer(asked):
            if asked["op"] == "submit":
                submits.append(asked["seq"])
                return [None, {"error": "denied", "index": 0, "rule": 0}, {"ok": "accepted", "txn": 2, "until": 1}][len(submits) - 1]
            return denying(0)(asked)
        with bossd.Client(self.answering(answer).address, "a") as client:
            with self.assertRaises(bossd.Denied):
                client.submit([damper()])
            self.assertEqual(client.submit([bossd.write("lamp", 1, lease=MINUTE)]).txn, 2)
        self.assertEqual(submits, [1, 1, 2])


class Later(unittest.TestCase):
    """A later server, whose answers have more keys."""

    def answering(self, answers):
        made = Answering(lambda asked: answers[asked["op"]])
        self.addCleanup(made.listener.close)
        return made

    def test_its_keys_are_passed_over(self):
        notice = {"n": 1, "at": 5, "txn": 2, "kind": "ended", "point": "lamp", "cause": "died", "held": 7}
        slots = [None] * 15 + [{"value": 1, "txn": 2, "until": 9, "since": 3}]
        server = self.answering({
            "read": {"ok": "read", "point": "lamp", "value": 1, "from": "lease", "mark": "settled", "priority": 16, "txn": 2, "taken": 1},
            "array": {"ok": "array", "point": "lamp", "default": 0, "slots": slots, "kind": "binary"},
            "status": {"ok": "status", "txn": 2, "owner": "a", "stage": "run", "live": 1, "pending": 0, "since": 3},
            "notices": {"ok": "notices", "first": 1, "next": 2, "list": [notice], "kept": 1},
            "watch": notice,
        })
        told = bossd.Notice(1, 5, 2, "ended", "lamp", "died")
        with bossd.Client(server.address) as client:
            self.assertEqual(client.read("lamp"), bossd.Reading("lamp", 1, "lease", "settled", 16, 2))
            self.assertEqual(client.array("lamp"), bossd.Slots("lamp", 0, {16: bossd.Slot(1, 2, 9)}))
            self.assertEqual(client.status(2), bossd.Status(2, "a", "run", 1, 0))
            self.assertEqual(client.notices("a"), bossd.Notices(1, 2, [told]))
        with bossd.watch(server.address, "a") as watched:
            self.assertEqual(next(watched), told)

    def test_what_a_device_took(self):
        told = {"ok": "read", "point": "fan", "value": 0, "from": "default", "mark": "pending", "differed": 2, "took": 1, "since": 1_500}
        with bossd.Client(self.answering({"read": told}).address) as client:
            reading = client.read("fan")
        self.assertEqual(reading, bossd.Reading("fan", 0, "default", "pending", differed=2, took=1, since=1_500))
        without = {key: value for key, value in told.items() if key not in ("took", "since")}
        self.assertEqual(bossd.reading_of(without)[-2:], (None, None))
        # A value of 0 is one.
        self.assertEqual(bossd.reading_of({**told, "took": 0}).took, 0)

    def test_its_refusals_are_taken(self):
        refusal = {"error": "out-of-range", "index": 0, "least": 0, "args": 3, "fields": 4, "_text": 5, "point": 6}
        with bossd.Client(self.answering({"read": refusal}).address) as client, self.assertRaises(bossd.OutOfRange) as caught:
            client.read("lamp")
        error = caught.exception
        self.assertEqual((error.index, error.least, error.fields, error.point), (0, 0, refusal, "lamp"))
        self.assertFalse({"index", "least", "args", "fields", "_text", "point"} & vars(error).keys())
        self.assertIn("least=0", str(error))
        with self.assertRaises(AttributeError):
            error.most

    def test_it_names_the_key_that_is_malformed(self):
        for refusal, key in [({"error": "malformed", "key": "writes[0].value"}, "writes[0].value"), ({"error": "malformed"}, None)]:
            with bossd.Client(self.answering({"later": refusal}).address) as client, self.assertRaises(bossd.Malformed) as caught:
                client.ask({"op": "later"})
            self.assertEqual((caught.exception.key, caught.exception.found), (key, None))
            self.assertEqual(str(caught.exception), "malformed" + (f": {key}" if key else ""))


class Kept(unittest.TestCase):
    """Errors are copied and pickled, as a pool of processes does it."""

    def test_refusals(self):
        for word, kind in bossd.REFUSALS.items():
            error = kind({"error": word, "index": 3, "kept": 7, "cause": "died", "at": 5})
            for twin in (copy.copy(error), copy.deepcopy(error), pickle.loads(pickle.dumps(error))):
                self.assertEqual((type(twin), str(twin), twin.fields), (type(error), str(error), error.fields))
        denied = pickle.loads(pickle.dumps(bossd.Denied({"error": "denied", "index": 0, "rule": 2})))
        self.assertEqual((type(denied), denied.index, denied.rule), (bossd.Denied, 0, 2))
        # A word of a later server.
        other = bossd.Refused({"error": "tired", "index": 0, "rule": 2})
        self.assertEqual(pickle.loads(pickle.dumps(other)).rule, 2)

    def test_no_answer(self):
        error = bossd.Unanswered({"op": "read", "point": "lamp"}, "refused")
        twin = pickle.loads(pickle.dumps(error))
        self.assertEqual((str(twin), twin.request), (str(error), error.request))
        self.assertEqual(copy.copy(error).request, error.request)

    def test_a_key_at_fault(self):
        with self.assertRaises(bossd.Malformed) as caught:
            bossd.line_of({"op": "renew", "txn": 1})
        twin = pickle.loads(pickle.dumps(caught.exception))
        self.assertEqual((twin.key, twin.found, str(twin)), ("length", "nothing", str(caught.exception)))


class Checked(unittest.TestCase):
    """What is no request is not sent, and the key at fault is named."""

    def test_the_key_at_fault(self):
        write = {"point": "lamp", "value": 1, "lease": 1}
        submit = lambda **more: {"op": "submit", "writes": [write, {**write, **more}]}
        for key, request in [
            ("op", {}),
            ("op", {"op": 3}),
            ("process", {"op": "attach"}),
            ("process", {"op": "attach", "process": "Night Purge"}),
            ("process", {"op": "watch", "process": ""}),
            ("from", {"op": "watch", "process": "a", "from": 0}),
            ("writes", {"op": "submit"}),
            ("writes", {"op": "submit", "writes": []}),
            ("writes", {"op": "submit", "writes": [write] * 33}),
            ("writes[0]", {"op": "submit", "writes": ["lamp"]}),
            ("writes[1].point", submit(point=3)),
            ("writes[1].value", submit(value=21.5)),
            ("writes[1].value", submit(value=True)),
            ("writes[1].value", submit(value=1 << 63)),
            ("writes[1].lease", submit(lease="1m")),
            ("writes[1].priority", submit(priority=None)),
            ("writes[1].revert[0]", submit(revert=[[1]])),
            ("writes[1].revert[1][1]", submit(revert=[[1, 1], [1, 0.5]])),
            ("policy", {**submit(), "policy": "always"}),
            ("seq", {**submit(), "seq": 0}),
            ("txn", {"op": "renew", "length": 1}),
            ("txn", {"op": "cancel", "txn": -1}),
            ("length", {"op": "renew", "txn": 1, "length": None}),
            ("points", {"op": "renew", "txn": 1, "length": 1, "points": []}),
            ("points[0]", {"op": "renew", "txn": 1, "length": 1, "points": [1]}),
            ("point", {"op": "read"}),
            ("max", {"op": "notices", "max": 65}),
        ]:
            with self.subTest(request), self.assertRaises(bossd.Malformed) as caught:
                bossd.line_of(request)
            self.assertEqual(caught.exception.key, key)
            self.assertIn(key, str(caught.exception))

    def test_a_reversion_is_looked_at_where_it_is_made(self):
        for key, revert in [("revert[0]", [30_000, 5_000]), ("revert[1]", [(1, 1), (1,)]), ("revert[0]", ["ab"]), ("revert", 5),
                            ("revert[0][1]", [(1, 0.5)])]:
            with self.subTest(revert), self.assertRaises(bossd.Malformed) as caught:
                bossd.write("lamp", 1, lease=1, revert=revert)
            self.assertEqual(caught.exception.key, key)
        self.assertEqual(bossd.write("lamp", 1, lease=1, revert=((0, 5),))["revert"], [[0, 5]])

    def test_what_the_server_judges_is_sent(self):
        for request in [{"op": "tick"}, {"op": "submit", "writes": [{"point": "x", "value": -1, "lease": 0, "priority": 6}]}]:
            bossd.line_of(request)


class AtOnce(Case):
    def test_many_questions_have_their_answers_in_order(self):
        client = self.client("a")
        client.submit([damper()])
        asked = [{"op": "read", "point": ["ahu1.damper", "lamp", "door"][place % 3]} for place in range(1_000)]
        answers = client.ask_all(asked)
        self.assertEqual([answer["value"] for answer in answers[:2]], [45_000, 0])
        self.assertEqual([type(answer) for answer in answers[2::3]], [bossd.UnknownPoint] * 333)
        self.assertEqual(answers[999]["point"], "ahu1.damper")
        self.assertEqual(client.ask_all([]), [])
        self.assertEqual(client.status(1).live, 1)


class Catalogue(Case):
    def test_all_of_it(self):
        with self.client() as client:
            found, version = client.points(), client.version()
        lines = [f"d {name}\n" for name in found.drivers]
        for point in found.list:
            least, most = {"analog": (point.min, point.max), "binary": (0, 1), "multi": (1, point.states)}[point.kind]
            times = f" {point.min_on} {point.min_off}" if point.min_on or point.min_off else ""
            lines.append(f"p {point.name} {point.driver} {point.kind} {least} {most} {point.default}{times}\n")
        self.assertEqual(hashlib.sha256("".join(lines).encode()).hexdigest(), found.digest)
        self.assertEqual(version, bossd.Version(bossd.__version__, version.journal, found.digest, len(found.list), len(found.drivers)))


class Gathering(unittest.TestCase):
    def test_a_server_that_was_started_anew_meanwhile(self):
        gathering = bossd._protocol.Gathering()
        point = {"point": "lamp", "kind": "binary", "default": 0, "driver": "hall"}
        old = {"ok": "points", "digest": "0" * 64, "drivers": ["hall"], "count": 2, "next": 1, "list": [point]}
        new = {"ok": "points", "digest": "1" * 64, "drivers": ["cellar"], "count": 1, "next": 1, "list": [{**point, "driver": "cellar"}]}
        self.assertFalse(gathering.is_done_with(old))
        self.assertFalse(gathering.is_done_with({"ok": "points", "digest": "1" * 64, "count": 1, "next": 1, "list": []}))
        self.assertEqual(gathering.request(), {"op": "points", "from": 0})
        self.assertTrue(gathering.is_done_with(new))
        self.assertEqual(gathering.gathered(), bossd.Points("1" * 64, ["cellar"], [bossd.Point("lamp", "binary", 0, "cellar")]))


class Units(unittest.TestCase):
    def test_thousandths(self):
        self.assertEqual([bossd.thousandths(units) for units in (21.5, "0.001", -3, 0.1)], [21_500, 1, -3_000, 100])
        self.assertEqual(bossd.milliseconds(hours=1, seconds=0.5), 3_600_500)

    def test_they_are_rounded(self):
        self.assertEqual([bossd.thousandths(units) for units in (100 / 3, 0.29 * 100, -100 / 3)], [33_333, 29_000, -33_333])
        # Halves go to the even one.
        self.assertEqual([bossd.thousandths(units) for units in ("0.0005", "0.0015", "-0.0025", 0.0001)], [0, 2, -2, 0])
        for none in ("warm", "", None, True, float("nan"), float("inf"), "1e999999"):
            with self.subTest(none), self.assertRaises(ValueError):
                bossd.thousandths(none)

    def test_they_are_not_rounded_where_that_is_wanted(self):
        self.assertEqual(bossd.thousandths(21.5, exact=True), 21_500)
        for units in (100 / 3, 0.0001):
            with self.subTest(units), self.assertRaisesRegex(ValueError, "no whole number of thousandths"):
                bossd.thousandths(units, exact=True)

    def test_units_are_numbers_to_count_with(self):
        self.assertEqual((bossd.units(21_500), bossd.units(21_500) * 1.5, bossd.units(-1)), (21.5, 32.25, -0.001))
        # The bounds of a point are at most 10^15.
        for value in (1, 29_001, 10**15, 10**15 - 1, -10**15 + 3, 123_456_789_012_347):
            self.assertEqual(bossd.thousandths(bossd.units(value), exact=True), value)


if __name__ == "__main__":
    unittest.main()
