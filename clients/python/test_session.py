"""Tests of the machine under both forms of the client, without a server, a connection or a clock: python3 -m unittest, in this folder."""

import json
import unittest

import bossd
from bossd._addresses import LOOK, Addresses, addresses_of, is_answer
from bossd._protocol import PARTING, PAUSE
from bossd._session import LONGEST_ANSWER, Connect, Course, Drop, Keeping, Pause, Receive, Send, Serves, Session, Wait, Watching

ADDRESS = "127.0.0.1:7000"
HERE, THERE, YONDER = "here:700", "there:700", "yonder:700"
REFUSED = ConnectionRefusedError(111, "Connection refused")
# What a connection is told that no worker of the server is free for, as docs/PROTOCOL.md has it.
BUSY = b'{"error":"busy"}\n'


class Silence:
    """Nothing comes, for as long as it is waited for."""


class Late:
    """These bytes come so many seconds later."""

    def __init__(self, seconds, data):
        self.seconds, self.data = seconds, data


class World:
    """Does the steps of a machine, by these words, one for each Connect and Receive: an error is raised, bytes come as they are, anything
    else as a line. `done` has the kinds of all steps, `told` what was sent, and a pause lets the time pass."""

    def __init__(self, *words):
        self.words, self.done, self.told, self.now = list(words), [], [], 0.0
        # To which addresses it went, where it looked whether a server answers, and where one does.
        self.went, self.looked, self.serving = [], [], []

    def do(self, step):
        self.done.append(type(step).__name__)
        if isinstance(step, Serves):
            self.looked.append(step.address)
            return step.address in self.serving
        if isinstance(step, Connect):
            self.went.append(self.machine.address)
        if isinstance(step, (Pause, Wait)):
            self.now += step.seconds
            return False
        if isinstance(step, Drop):
            return self.machine._forget()
        if isinstance(step, Send):
            self.told += [json.loads(line) for line in step.data.splitlines()]
            return None
        word = self.words.pop(0)
        if isinstance(word, BaseException):
            raise word
        return self.data(word, step) if isinstance(step, Receive) else None

    def data(self, word, step):
        if isinstance(word, Silence):
            self.now += step.seconds
            return None
        if isinstance(word, Late):
            self.now += word.seconds
            return word.data
        return word if isinstance(word, bytes) else json.dumps(word).encode() + b"\n"

    def session(self, patience=60.0, at_once=False, address=ADDRESS):
        self.machine = Session(address, patience, at_once)
        return self.machine

    def watching(self, first=1, patience=60.0, address=ADDRESS):
        self.machine = Watching(address, "a", first, patience)
        return self.machine

    def run(self, steps, machine=None, do=None):
        course = Course(machine or self.machine, steps, self.now)
        while course.step is not None:
            try:
                came = (do or self.do)(course.step)
            except BaseException as error:
                course.failed(error, self.now)
            else:
                course.came(came, self.now)
        return course.result


class Several(unittest.TestCase):
    """A server that may be at several addresses."""

    def test_how_they_are_given(self):
        for given in ("here:700,there:700,here:700", "here:700, there:700", ["here:700", "there:700"], ("here:700", "there:700")):
            self.assertEqual(addresses_of(given), (HERE, THERE))
        for given in ("", (), "here:700,", ["here:700", "there"], "here:700;there:700"):
            with self.subTest(given), self.assertRaises(ValueError):
                Session(given, 1.0)

    def test_a_round_is_tried_at_once_and_then_a_moment_passes(self):
        world = World(REFUSED, REFUSED, REFUSED, REFUSED, None)
        with self.assertLogs("bossd", "WARNING") as logged:
            world.run(world.session(address=(HERE, THERE, YONDER))._opening(None))
        self.assertEqual(world.went, [HERE, THERE, YONDER, HERE, THERE])
        self.assertEqual((world.done.count("Pause"), world.now), (1, PAUSE))
        self.assertIn("nobody listens at here:700; trying there:700, yonder:700 too for 60 seconds", logged.output[0])
        self.assertIn("there:700 answers", logged.output[1])
        self.assertEqual(world.machine.address, THERE)

    def test_a_request_goes_under_its_number_to_the_one_that_serves_next(self):
        attached = {"ok": "attached", "process": "a", "next": 4}
        world = World(None, attached, {"error": "unknown-txn"}, {"error": "stopped"}, REFUSED, None, attached,
                      {"ok": "accepted", "txn": 1, "until": 5})
        session = world.session(address=[HERE, THERE, YONDER])
        world.run(session._opening("a"))
        with self.assertLogs("bossd", "WARNING"):
            self.assertEqual(world.run(session._making({"op": "cancel", "txn": 7}))["txn"], 1)
        self.assertEqual((world.went, session.address), ([HERE, THERE, YONDER], YONDER))
        self.assertEqual([(asked["op"], asked.get("seq")) for asked in world.told],
                         [("attach", None), ("cancel", 1), ("cancel", 1), ("attach", None), ("cancel", 1)])

    def test_a_slow_server_is_not_left_while_no_other_one_answers(self):
        world = World(None, Silence(), Silence(), Silence(), {"ok": "version"})
        session = world.session(address=(HERE, THERE, YONDER))
        world.run(session._asking({"op": "version"}))
        self.assertEqual((world.went, world.looked), ([HERE], [THERE, YONDER] * 3))
        self.assertEqual(world.now, 3 * LOOK)

    def test_a_silent_one_is_left_for_one_that_answers(self):
        world = World(None, Silence(), None, {"ok": "version"})
        world.serving = [YONDER]
        session = world.session(address=(HERE, THERE, YONDER))
        with self.assertLogs("bossd", "WARNING") as logged:
            world.run(session._asking({"op": "version"}))
        self.assertEqual((world.went, world.looked, world.now), ([HERE, YONDER], [THERE, YONDER], LOOK))
        self.assertIn("here:700 is silent, and yonder:700 answers", logged.output[0])

    def test_patience_ends_and_a_server_that_nobody_started_is_not_waited_for(self):
        for at_once, least in ((False, 3.0 - 2 * PAUSE), (True, 0.0)):
            world = World(*[REFUSED] * 100)
            with self.subTest(at_once), self.assertLogs("bossd", "WARNING"), self.assertRaises(bossd.Unanswered):
                world.run(world.session(3.0, at_once, (HERE, THERE))._opening(None))
                self.fail()
            self.assertTrue(least <= world.now <= 3.0)
        self.assertEqual(world.went, [HERE, THERE])

    def test_a_host_that_there_is_none_of_keeps_nobody_from_the_others(self):
        unknown = bossd.UnknownHost("there is no such host")
        world = World(unknown, None)
        with self.assertLogs("bossd", "WARNING"):
            world.run(world.session(address=(HERE, THERE))._opening(None))
        world = World(unknown, unknown)
        with self.assertLogs("bossd", "WARNING"), self.assertRaises(bossd.UnknownHost):
            world.run(world.session(address=(HERE, THERE))._opening(None))

    def test_who_refuses_serves(self):
        # A connection that showed no right key is over, and the next one is to the same server.
        for refusal, again in (({"error": "unknown-point"}, []), ({"error": "wrong-key"}, [None])):
            world = World(REFUSED, None, refusal, *again, b"", None, {"ok": "version"})
            session = world.session(address=(HERE, THERE))
            with self.subTest(refusal), self.assertLogs("bossd", "WARNING"):
                with self.assertRaises(bossd.Refused):
                    world.run(session._asking({"op": "read", "point": "air.fan"}))
                self.assertEqual(session.address, THERE)
                world.run(session._asking({"op": "version"}))
            # The round in which the first one failed was over, so the way back to that one is not waited for.
            self.assertEqual((world.went, world.done.count("Pause")), ([HERE, THERE, *[THERE for _ in again], HERE], 0))

    def test_a_watch_goes_where_its_notices_come(self):
        world = World(None, Silence(), REFUSED, None, {"n": 1, "at": 5, "txn": 1, "kind": "done"})
        world.serving = [YONDER]
        watching = world.watching(address=(HERE, THERE, YONDER))
        with self.assertLogs("bossd", "WARNING"):
            self.assertEqual(world.run(watching._following()).n, 1)
        self.assertEqual(world.went, [HERE, YONDER, HERE])

    def test_what_is_an_answer(self):
        for line, holds in ((b'{"ok":"version"}\n', True), (b'{"error":"unknown-op"}\n', True), (BUSY, False), (b"", False), (b'{"ok"', False)):
            self.assertEqual(is_answer(line), holds)

    def test_a_round_ends_once_each_has_failed(self):
        addresses = Addresses([HERE, THERE])
        addresses.failed(REFUSED)
        self.assertEqual((addresses.go_on(), addresses.current), (True, THERE))
        addresses.answered()
        addresses.failed(REFUSED)
        self.assertEqual((addresses.go_on(), addresses.current), (True, HERE))
        addresses.failed(REFUSED)
        self.assertEqual((addresses.go_on(), addresses.current), (False, THERE))


class Over:
    """What a program waits for that holds something."""

    def __init__(self):
        self.was_set = False

    def set(self):
        self.was_set = True

    def is_set(self):
        return self.was_set


class Sessions(unittest.TestCase):
    def attached(self, *words, patience=60.0):
        world = World(None, {"ok": "attached", "process": "a", "next": 4}, {"error": "unknown-txn"}, *words)
        session = world.session(patience)
        world.run(session._opening("a"))
        self.assertEqual((session.process, session.next_notice, session.is_connected), ("a", 4, True))
        return world, session

    def test_a_request_is_asked_again_under_its_number_by_an_attached_client(self):
        world, session = self.attached(ConnectionError("cut"), None, {"ok": "attached", "process": "a", "next": 4},
                                       {"ok": "accepted", "txn": 1, "until": 5})
        with self.assertLogs("bossd", "INFO") as logged:
            answer = world.run(session._making({"op": "cancel", "txn": 7}))
        self.assertEqual(answer["txn"], 1)
        self.assertEqual([(asked["op"], asked.get("seq")) for asked in world.told],
                         [("attach", None), ("cancel", 1), ("cancel", 1), ("attach", None), ("cancel", 1)])
        self.assertEqual([record.levelname for record in logged.records], ["WARNING", "WARNING", "INFO"])
        for line, words in zip(logged.output, (["127.0.0.1:7000", "lost", "cut", "60 seconds"], ["127.0.0.1:7000 answers", " a"],
                                               ["asked again", "cancel", "number 1"])):
            for word in words:
                self.assertIn(word, line)

    def test_patience_ends(self):
        world = World(*[REFUSED] * 100)
        with self.assertLogs("bossd", "WARNING") as logged, self.assertRaises(bossd.Unanswered) as caught:
            world.run(world.session(3.0)._opening(None))
        self.assertIs(caught.exception.__cause__, REFUSED)
        self.assertLess(3.0 - 2 * PAUSE, world.now)
        self.assertLessEqual(world.now, 3.0)
        # It is told once.
        self.assertEqual(len(logged.output), 1)
        self.assertIn("nobody listens at 127.0.0.1:7000; trying for 3 seconds", logged.output[0])

    def test_who_wants_it_at_once_waits_for_no_server_that_was_never_there(self):
        world = World(REFUSED)
        with self.assertNoLogs("bossd"), self.assertRaises(bossd.Unanswered):
            world.run(world.session(60.0, at_once=True)._opening("a"))
        self.assertEqual((world.done, world.now), (["Connect", "Drop"], 0.0))
        # One that was met is waited for.
        world = World(None, ConnectionError("cut"), REFUSED, None, {"ok": "read"})
        session = world.session(60.0, at_once=True)
        world.run(session._opening(None))
        with self.assertLogs("bossd"):
            self.assertEqual(world.run(session._asking({"op": "read", "point": "lamp"})), {"ok": "read"})

    def test_a_name_that_is_taken_is_tried_for_a_moment(self):
        taken = {"error": "taken", "session": 3}
        world = World(None, *[taken] * 100)
        with self.assertRaises(bossd.Taken):
            world.run(world.session()._opening("a"))
        self.assertLessEqual(world.now, PARTING)
        self.assertLess(PARTING - 2 * PAUSE, world.now)

    def test_numbers(self):
        world, session = self.attached(
            {"error": "over", "at": 1}, {"ok": "cancelled", "at": 1}, {"error": "denied", "index": 0, "rule": 1}, {"error": "stale", "kept": 9},
            {"ok": "cancelled", "at": 1})
        for refused in (bossd.Over, None, bossd.Denied, bossd.Stale, None):
            try:
                world.run(session._making({"op": "cancel", "txn": 7}))
                self.assertIsNone(refused)
            except bossd.Refused as error:
                self.assertIs(type(error), refused)
        # One that was refused is used again, one that was denied is not, and after a stale one it goes on after what is kept.
        self.assertEqual([asked["seq"] for asked in world.told[2:]], [1, 1, 2, 3, 10])

    def test_who_is_turned_away_connects_again_and_says_so_once(self):
        world = World(None, BUSY, None, BUSY, None, {"ok": "attached", "process": "a", "next": 4}, {"error": "unknown-txn"})
        session = world.session()
        with self.assertLogs("bossd", "WARNING") as logged:
            world.run(session._opening("a"))
        self.assertEqual((session.is_connected, session.is_busy), (True, False))
        self.assertEqual(len(logged.output), 2)
        self.assertIn("all workers of 127.0.0.1:7000 are busy; trying for 60 seconds", logged.output[0])

    def test_who_is_turned_away_until_its_patience_ends(self):
        for last in (BUSY, TimeoutError("timed out"), Silence()):
            world = World(*[None, BUSY] * 3, *[None, last] * 100)
            session = world.session(3.0)
            with self.assertLogs("bossd", "WARNING"), self.assertRaises(bossd.Busy) as caught:
                world.run(session._opening("a"))
            self.assertIsInstance(caught.exception, bossd.Unanswered)
            self.assertIn("all workers of the server are busy: give it more", str(caught.exception))
            self.assertTrue(session.is_busy)
            self.assertLess(3.0 - 2 * PAUSE, world.now)
        # It is another thing where nobody listens any more.
        world = World(None, BUSY, *[REFUSED] * 100)
        with self.assertLogs("bossd", "WARNING"), self.assertRaises(bossd.Unanswered) as caught:
            world.run(world.session(3.0)._opening("a"))
        self.assertIs(type(caught.exception), bossd.Unanswered)

    def test_nothing_was_taken_of_who_is_turned_away_so_it_attaches_and_asks_again_under_its_number(self):
        world, session = self.attached(ConnectionError("cut"), None, BUSY, None, {"ok": "attached", "process": "a", "next": 4},
                                       {"ok": "cancelled", "txn": 7, "at": 1})
        with self.assertLogs("bossd", "WARNING") as logged:
            self.assertEqual(world.run(session._cancelling(7)), 1)
        self.assertEqual([(asked["op"], asked.get("seq")) for asked in world.told[2:]],
                         [("cancel", 1), ("attach", None), ("attach", None), ("cancel", 1)])
        # It is told as lost and as back, each once.
        self.assertEqual(len(logged.output), 2)
        self.assertIn("127.0.0.1:7000 answers", logged.output[1])

    def test_a_closed_client_asks_no_more(self):
        world, session = self.attached(ConnectionError("cut"))
        session._closed = True
        with self.assertRaises(bossd.Unanswered):
            world.run(session._asking({"op": "read", "point": "lamp"}))
        self.assertEqual(world.now, 0.0)


class Lines(unittest.TestCase):
    """Bytes as they come."""

    def session(self, *words, patience=60.0):
        world = World(None, *words)
        return world, world.session(patience)

    def read(self, *words, patience=60.0):
        world, session = self.session(*words, patience=patience)
        return world, world.run(session._asking({"op": "read", "point": "lamp"}))

    def test_an_answer_in_pieces(self):
        world, answer = self.read(b'{"ok":"re', b'ad","po', b'int":"lamp"}', b"\n")
        self.assertEqual(answer, {"ok": "read", "point": "lamp"})
        self.assertEqual(world.done, ["Connect", "Send"] + ["Receive"] * 4)

    def test_answers_in_one_piece_are_those_to_the_requests_in_their_order(self):
        requests = [{"op": "read", "point": name} for name in ("lamp", "door", "fan")]
        world, session = self.session(b'{"ok":"read","point":"lamp"}\n{"error":"unknown-point"}\n{"ok":"re', b'ad","point":"fan"}\n')
        lines = [json.dumps(request).encode() + b"\n" for request in requests]
        lamp, door, fan = world.run(session._asking_all(lines, requests))
        self.assertEqual((lamp["point"], type(door), door.point, fan["point"]), ("lamp", bossd.UnknownPoint, "door", "fan"))
        self.assertEqual(world.done, ["Connect", "Send", "Receive", "Receive"])

    def test_many_questions_are_sent_before_the_answers_to_those_before_them(self):
        # Four lines of 8,192 bytes are two parts of 16,384, and a fifth one a part of its own.
        lines = [b'"' + b"x" * 8_189 + b'"\n'] * 5
        answers = [b'{"ok":1}\n{"ok":2}\n', b'{"ok":3}\n{"ok":4}\n', b'{"ok":5}\n']
        world, session = self.session(*answers)
        self.assertEqual([it["ok"] for it in world.run(session._asking_all(lines, [{}] * 5))], [1, 2, 3, 4, 5])
        self.assertEqual(world.done, ["Connect", "Send", "Send", "Receive", "Send", "Receive", "Receive"])

    def test_what_is_left_of_a_lost_connection_is_no_answer(self):
        with self.assertLogs("bossd") as logged:
            world, answer = self.read(b'{"ok":"read","va', b"", None, b'{"ok":"read"}\n')
        self.assertEqual(answer, {"ok": "read"})
        self.assertIn("the connection ended before the answer", logged.output[0])
        self.assertEqual(world.done, ["Connect", "Send", "Receive", "Receive", "Drop", "Drop", "Pause", "Connect", "Send", "Receive"])

    def test_who_answers_nothing_is_waited_for_as_long_as_patience_lasts(self):
        for words in ((Silence(),), (Late(3.0, b'{"ok":'), Silence()), (Late(5.5, b'{"ok":'), b'"read"}\n')):
            with self.subTest(words), self.assertLogs("bossd"), self.assertRaises(bossd.Unanswered) as caught:
                self.read(*words, patience=5.0)
            self.assertIn("no answer came in time", caught.exception.why)
        self.assertEqual(self.read(Late(3.0, b'{"ok":'), Late(1.0, b'"read"}\n'), patience=5.0)[1], {"ok": "read"})

    def test_only_a_whole_line_turns_away(self):
        with self.assertLogs("bossd") as logged:
            world, answer = self.read(BUSY[:5], BUSY[5:-1], BUSY[-1:], None, {"ok": "read"})
        self.assertEqual(answer, {"ok": "read"})
        self.assertIn("all workers of 127.0.0.1:7000 are busy", logged.output[0])
        with self.assertLogs("bossd") as logged:
            world, answer = self.read(BUSY[:-1], b"", None, {"ok": "read"})
        self.assertEqual(answer, {"ok": "read"})
        self.assertIn("the connection ended before the answer", logged.output[0])

    def test_a_line_without_an_end_is_not_gathered_for_ever(self):
        with self.assertLogs("bossd") as logged:
            world, answer = self.read(*[b"x" * 65_536] * 4, None, {"ok": "read"})
        self.assertEqual(answer, {"ok": "read"})
        self.assertIn(f"a line of more than {LONGEST_ANSWER} bytes", logged.output[0])

    def test_what_is_no_request_takes_no_step(self):
        world, session = self.session()
        for make in (lambda: session._asking({"op": "read"}), lambda: session._reading(3), lambda: session._reading_notices("A B", 1, 16)):
            with self.assertRaises(bossd.Malformed):
                make()
        with self.assertRaises(bossd.Malformed):
            world.run(session._submitting([], "abort"))
        self.assertEqual(world.done, [])

    def test_the_points_of_a_server_that_comes_back_with_another_catalogue(self):
        def page(digest, following, *names):
            listed = [{"point": name, "kind": "binary", "default": 0, "driver": "d"} for name in names]
            return {"ok": "points", "digest": digest, "drivers": ["d"], "count": 2, "next": following, "list": listed}
        world, session = self.session(page("a", 1, "lamp"), page("b", 2, "fan"), page("b", 1, "door"), page("b", 2, "fan"))
        found = world.run(session._reading_points())
        self.assertEqual((found.digest, [point.name for point in found.list]), ("b", ["door", "fan"]))
        self.assertEqual([asked["from"] for asked in world.told], [0, 1, 0, 1])


class Keepings(unittest.TestCase):
    def kept(self):
        return Keeping(bossd.Accepted(5, 1), [{"point": "lamp", "value": 1, "lease": 9_000}], Over())

    def test_it_renews_every_third_part(self):
        asked = []

        def do(step):
            if isinstance(step, Wait):
                world.now += step.seconds
                return world.now > 10.0
            asked.append((world.now, step.request["op"]))
            return {"until": 9} if step.request["op"] == "renew" else {"txn": 5, "owner": "a", "stage": "run", "live": 1, "pending": 0}
        world, kept = World(), self.kept()
        world.run(kept._keeping(world.session()), kept, do)
        self.assertEqual([at for at, op in asked if op == "renew"], [3.0, 6.0, 9.0])
        # It asks every second how it stands.
        self.assertEqual([at for at, _ in asked], [1.0, 2.0, 3.0, 4.0, 5.0, 6.0, 7.0, 8.0, 9.0, 10.0])
        self.assertEqual((kept.until, kept.ended, kept._over.is_set()), (9, None, False))

    def judge(self, came, is_released, ended):
        """What is known of it after a first question that had this answer, or of whose release was meanwhile."""
        world, kept = World(), self.kept()

        def do(step):
            if isinstance(step, Wait):
                return kept._over.is_set()
            if is_released:
                kept._over.set()
            raise came
        world.run(kept._keeping(world.session()), kept, do)
        self.assertEqual((kept.ended, kept._over.is_set()), (ended, True))

    def test_why_it_ended(self):
        over = bossd.Ended({"error": "ended", "cause": "superseded", "by": 6, "at": 1})
        self.judge(over, False, over)
        self.judge(over, True, None)

    def test_a_server_that_is_away_ends_it_not(self):
        world, kept, pulses = World(), self.kept(), []

        def do(step):
            if isinstance(step, Wait):
                return len(pulses) == 3
            pulses.append(step.request["op"])
            raise bossd.Unanswered(step.request)
        world.run(kept._keeping(world.session()), kept, do)
        self.assertEqual((kept.ended, len(pulses)), (None, 3))

    def test_a_release_is_said_before_it_is_made_and_nothing_may_be_left_of_it(self):
        for answer in ({"ok": "cancelled", "txn": 5, "at": 1}, {"error": "over", "at": 1}, {"error": "unknown-txn"}):
            world, kept = World(None, answer), self.kept()
            steps = kept._releasing(world.session())
            self.assertEqual((kept._over.is_set(), world.done), (True, []))
            world.run(steps)
            self.assertEqual(world.told, [{"op": "cancel", "txn": 5, "seq": 1}])


class Watchings(unittest.TestCase):
    notice = {"n": 7, "at": 1, "txn": 2, "kind": "done"}

    def line(self, number):
        return json.dumps({**self.notice, "n": number}).encode() + b"\n"

    def test_it_goes_on_after_the_last_notice(self):
        world = World(None, self.notice, ConnectionError("cut"), REFUSED, None, {**self.notice, "n": 8})
        watching = world.watching(5)
        self.assertEqual(world.run(watching._following()), bossd.Notice(7, 1, 2, "done"))
        with self.assertLogs("bossd", "WARNING") as logged:
            self.assertEqual(world.run(watching._following()).n, 8)
        self.assertEqual([asked["from"] for asked in world.told], [5, 8])
        self.assertEqual(len(logged.output), 2)
        self.assertIn("from notice 8", logged.output[0])

    def test_notices_in_one_piece_and_a_wait_that_is_given_up(self):
        world = World(None, self.line(1) + self.line(2) + self.line(3)[:9], KeyboardInterrupt(), self.line(3)[9:])
        watching = world.watching()
        self.assertEqual([world.run(watching._following()).n for _ in range(2)], [1, 2])
        with self.assertRaises(KeyboardInterrupt):
            world.run(watching._following())
        self.assertEqual(world.run(watching._following()).n, 3)
        self.assertEqual(world.done, ["Connect", "Send"] + ["Receive"] * 3)

    def test_who_is_silent_or_ends_it_is_asked_anew_without_a_word(self):
        for word in (Silence(), b"", self.line(1)[:9]):
            world = World(None, *([word] if word != self.line(1)[:9] else [word, b""]), None, self.line(1))
            with self.assertNoLogs("bossd"):
                self.assertEqual(world.run(world.watching()._following()).n, 1)
            self.assertEqual([asked["from"] for asked in world.told], [1, 1])

    def test_who_is_turned_away_connects_again_and_is_back_with_the_next_notice(self):
        world = World(None, BUSY, None, BUSY, None, KeyboardInterrupt(), self.line(5))
        watching = world.watching(5)
        with self.assertLogs("bossd", "WARNING") as logged:
            with self.assertRaises(KeyboardInterrupt):
                world.run(watching._following())
            # It stands in the queue, for all that is known.
            self.assertEqual(len(logged.output), 1)
            self.assertEqual(world.run(watching._following()).n, 5)
        self.assertEqual([asked["from"] for asked in world.told], [5, 5, 5])
        self.assertEqual(len(logged.output), 2)
        self.assertIn("all workers of the server are busy", logged.output[0])
        self.assertIn("goes on", logged.output[1])

    def test_who_is_turned_away_until_its_patience_ends(self):
        world = World(*[None, BUSY] * 100)
        with self.assertLogs("bossd", "WARNING") as logged, self.assertRaises(bossd.Busy) as caught:
            world.run(world.watching(5, 3.0)._following())
        self.assertEqual(caught.exception.request, {"op": "watch", "process": "a", "from": 5})
        self.assertIn("all workers of the server are busy: give it more", str(caught.exception))
        self.assertLess(3.0 - 2 * PAUSE, world.now)
        self.assertEqual(len(logged.output), 1)
        world = World(None, BUSY, *[REFUSED] * 100)
        with self.assertLogs("bossd", "WARNING"), self.assertRaises(bossd.Unanswered) as caught:
            world.run(world.watching(5, 3.0)._following())
        self.assertIs(type(caught.exception), bossd.Unanswered)

    def test_a_closed_one_gives_none(self):
        world = World(None, b"")
        watching = world.watching()
        watching._closed = True
        self.assertIsNone(world.run(watching._following()))
        self.assertEqual(world.done, ["Drop"])


class Courses(unittest.TestCase):
    def test_moments_and_what_came(self):
        world = World()
        session = world.session()

        def steps():
            first = yield Pause(1.0)
            try:
                yield Pause(2.0)
            except OSError as error:
                return first, str(error), session._now
        course = Course(session, steps(), 5.0)
        self.assertEqual((course.step, session._now), (Pause(1.0), 5.0))
        course.came("it", 6.0)
        self.assertEqual(course.step, Pause(2.0))
        course.failed(OSError("cut"), 9.0)
        self.assertEqual((course.step, course.result), (None, ("it", "cut", 9.0)))

    def test_an_error_comes_out(self):
        world = World()
        session = world.session()
        course = Course(session, session._asking({"op": "version"}), 0.0)
        with self.assertRaises(KeyboardInterrupt):
            course.failed(KeyboardInterrupt(), 1.0)


if __name__ == "__main__":
    unittest.main()
