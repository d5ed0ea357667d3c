"""Tests of keys: of the client's side against a server of this file that knows processes by keys as docs/PROTOCOL.md has it, of their files, and
of what bossctl says of them: python3 -m unittest, in this folder."""

import asyncio
import contextlib
import io
import json
import logging
import os
import pickle
import socket
import stat
import subprocess
import sys
import tempfile
import threading
import time
import traceback
import unittest
from typing import Any, Callable, Dict, List, Optional, Tuple
from unittest import mock

import bossd
import bossd.aio
from bossd import _keys
from bossd.ctl import _elect, _lint, main

KEY, OTHER, MASTER = (_keys.new_key() for _ in range(3))
# For how long what has to come is waited for, in seconds; a busy machine takes its time.
SECONDS = 60
DIGEST = "0" * 64


def answer_of(asked: Dict[str, Any]) -> Dict[str, Any]:
    """What a server answers, by docs/PROTOCOL.md."""
    answers: Dict[str, Dict[str, Any]] = {
        "array": {"ok": "array", "point": asked.get("point"), "default": 20_000, "slots": 16 * [None]},
        "attach": {"ok": "attached", "process": asked.get("process"), "next": 1},
        "cancel": {"error": "unknown-txn"},
        "notices": {"ok": "notices", "first": 1, "next": 1, "list": []},
        "points": {"ok": "points", "digest": DIGEST, "drivers": ["air"], "count": 1, "next": 1, "list": [
            {"point": "air.damper", "kind": "analog", "min": 0, "max": 100_000, "default": 20_000, "driver": "air"}]},
        "read": {"ok": "read", "point": asked.get("point"), "value": 20_000, "from": "default", "mark": "settled"},
        "status": {"error": "unknown-txn"},
        "submit": {"ok": "accepted", "txn": 1, "until": 5},
        "version": {"ok": "version", "program": "0.3.0", "journal": 3, "points": 1, "drivers": 1, "digest": DIGEST},
        "watch": {"n": asked.get("from", 1), "at": 5, "txn": 1, "kind": "ended", "point": "air.damper", "cause": "expired"},
    }
    return answers[asked["op"]]


class Keyed:
    """A server with keys, by pairs of a pattern and a digest; without any it passes over keys. `heard` has the lines of each connection, as they
    came, `shown` the names whose keys were right. A name of `taken` is another connection's."""

    def __init__(self, *entries: Tuple[str, str]) -> None:
        self.entries, self.is_keyed = [(process, _keys.digest_of(key)) for process, key in entries], bool(entries)
        self.heard: List[List[bytes]] = []
        self.shown: List[str] = []
        self.taken: List[str] = []
        self._links: List[socket.socket] = []
        self.listener = socket.create_server(("127.0.0.1", 0))
        self.address = f"127.0.0.1:{self.listener.getsockname()[1]}"
        threading.Thread(target=self._run, daemon=True).start()

    def cut(self) -> None:
        """Ends all connections."""
        for link in self._links:
            with contextlib.suppress(OSError):
                link.shutdown(socket.SHUT_RDWR)

    def close(self) -> None:
        # Or the thread that accepts would take one more.
        with contextlib.suppress(OSError):
            self.listener.shutdown(socket.SHUT_RDWR)
        self.listener.close()
        self.cut()

    def firsts(self) -> List[Dict[str, Any]]:
        """The first line of each connection."""
        return [json.loads(lines[0]) for lines in self.heard if lines]

    def _run(self) -> None:
        with contextlib.suppress(OSError):
            while True:
                link, _ = self.listener.accept()
                self._links.append(link)
                lines: List[bytes] = []
                self.heard.append(lines)
                threading.Thread(target=self._serve, args=(link, lines), daemon=True).start()

    def _serve(self, link: socket.socket, kept: List[bytes]) -> None:
        name: Optional[str] = None
        with contextlib.suppress(OSError), link, link.makefile("rb") as lines:
            for line in lines:
                kept.append(line)
                asked = json.loads(line)
                if self.is_keyed and name is None:
                    name = self._name(asked)
                if self.is_keyed and (name is None or (asked["op"] == "attach" and asked["process"] != name)):
                    link.sendall(b'{"error":"wrong-key"}\n')
                    return
                answer = {"error": "taken", "session": 1} if asked["op"] == "attach" and asked["process"] in self.taken else answer_of(asked)
                link.sendall(json.dumps(answer).encode() + b"\n")

    def _name(self, asked: Dict[str, Any]) -> Optional[str]:
        """Whose key the line shows; None where it is not right."""
        name, key = asked.get("as", asked.get("process")), asked.get("key")
        if not isinstance(name, str) or not isinstance(key, str) or not _keys.is_key(key):
            return None
        if not any(_lint.matches(process, name) and digest == _keys.digest_of(key) for process, digest in self.entries):
            return None
        self.shown.append(name)
        return name


class Case(unittest.TestCase):
    def setUp(self) -> None:
        folder = tempfile.TemporaryDirectory()
        self.addCleanup(folder.cleanup)
        self.folder = folder.name
        quiet = mock.patch("bossd._session.LOG")
        quiet.start()
        self.addCleanup(quiet.stop)

    def server(self, *entries: Tuple[str, str]) -> Keyed:
        server = Keyed(*entries)
        self.addCleanup(server.close)
        return server

    def file(self, name: str, text: str, mode: int = 0o600) -> str:
        path = os.path.join(self.folder, name)
        with open(path, "w") as file:
            file.write(text)
        os.chmod(path, mode)
        return path

    def until(self, test: Callable[[], object]) -> None:
        deadline = time.monotonic() + SECONDS
        while not test():
            self.assertLess(time.monotonic(), deadline)
            time.sleep(0.02)


class Clients(Case):
    def test_a_process_shows_its_key_once(self) -> None:
        server = self.server(("purge", KEY))
        with bossd.Client(server.address, "purge", key=KEY) as client:
            client.read("air.damper")
            client.submit([bossd.write("air.damper", 5, lease=1000)])
        self.assertEqual(server.firsts(), [{"op": "attach", "process": "purge", "key": KEY}])
        self.assertEqual(sum(KEY.encode() in line for line in server.heard[0]), 1)

    def test_a_process_of_asyncio(self) -> None:
        server = self.server(("purge", KEY))

        async def ask() -> int:
            async with bossd.aio.connect(server.address, "purge", key=KEY) as client:
                return (await client.read("air.damper")).value

        self.assertEqual(asyncio.run(ask()), 20_000)
        self.assertEqual(server.firsts(), [{"op": "attach", "process": "purge", "key": KEY}])

    def test_who_only_asks_names_whose_key_it_is(self) -> None:
        server = self.server(("page", KEY))
        with bossd.Client(server.address, key=KEY, as_="page") as client:
            client.read("air.damper")
            client.read("air.damper")
        with bossd.Client(server.address, key=KEY, as_="page") as client:
            self.assertEqual(len(client.ask_all([{"op": "read", "point": "air.damper"}] * 500)), 500)
        first = {"op": "read", "point": "air.damper", "as": "page", "key": KEY}
        self.assertEqual(server.firsts(), [first, first])
        self.assertEqual(len(server.heard[1]), 500)

    def test_a_connection_that_is_made_again_shows_it_again(self) -> None:
        server = self.server(("purge", KEY), ("page", OTHER))
        with bossd.Client(server.address, "purge", key=KEY) as client, bossd.Client(server.address, key=OTHER, as_="page") as page:
            page.read("air.damper")
            server.cut()
            client.read("air.damper")
            page.read("air.damper")
        self.assertEqual(server.shown, ["purge", "page", "purge", "page"])

    def test_watches(self) -> None:
        server = self.server(("purge", KEY), ("page", OTHER))
        with bossd.watch(server.address, "purge", 5, key=KEY) as watched:
            self.assertEqual(next(watched).n, 5)
            server.cut()
            self.assertEqual(next(watched).n, 6)

        async def first() -> int:
            async with bossd.aio.watch(server.address, "purge", 7, key=OTHER, as_="page") as watched:
                async for notice in watched:
                    return notice.n
            return 0

        self.assertEqual(asyncio.run(first()), 7)
        self.assertEqual(server.firsts()[1:], [{"op": "watch", "process": "purge", "from": 6, "key": KEY},
                                               {"op": "watch", "process": "purge", "from": 7, "as": "page", "key": OTHER}])

    def test_a_server_without_keys_passes_over_them(self) -> None:
        server = self.server()
        with bossd.Client(server.address, "purge", key=KEY) as client:
            self.assertEqual(client.read("air.damper").value, 20_000)

    def refused(self, server: Keyed, name: Optional[str], run: Callable[[], object]) -> bossd.WrongKey:
        count = len(server.heard)
        with self.assertRaises(bossd.WrongKey) as caught:
            run()
        self.assertEqual((caught.exception.error, caught.exception.name), ("wrong-key", name))
        # It is not asked again.
        self.assertEqual(len(server.heard), count + 1)
        return caught.exception

    def test_wrong_ones(self) -> None:
        server = self.server(("purge", KEY))
        self.refused(server, "purge", lambda: bossd.Client(server.address, "purge", key=OTHER))
        self.refused(server, "comfort", lambda: bossd.Client(server.address, "comfort", key=KEY))
        self.refused(server, None, lambda: bossd.Client(server.address, "purge"))
        self.refused(server, None, lambda: bossd.Client(server.address, key=KEY).read("air.damper"))
        self.refused(server, "page", lambda: bossd.Client(server.address, key=KEY, as_="page").ask_all([{"op": "version"}] * 40))
        self.refused(server, "purge", lambda: next(bossd.watch(server.address, "purge", key=OTHER)))
        self.refused(server, None, lambda: next(bossd.watch(server.address, "purge")))

        async def ask() -> None:
            async with bossd.aio.connect(server.address, "purge", key=OTHER):
                pass

        async def watch() -> None:
            async for _ in bossd.aio.watch(server.address, "purge", key=OTHER):
                pass

        self.refused(server, "purge", lambda: asyncio.run(ask()))
        self.refused(server, "purge", lambda: asyncio.run(watch()))

    def test_a_key_that_is_taken_away(self) -> None:
        server = self.server(("purge", KEY))
        with bossd.Client(server.address, "purge", key=KEY) as client:
            held = client.hold([bossd.write("air.damper", 5, lease=30_000)])
            server.entries = []
            server.cut()
            with self.assertRaises(bossd.WrongKey):
                client.read("air.damper")
            self.assertTrue(held.wait(SECONDS))
            self.assertIsInstance(held.ended, bossd.Refused)
            # One that comes back is asked again.
            server.entries = [("purge", _keys.digest_of(KEY))]
            self.assertEqual(client.read("air.damper").value, 20_000)

    def test_another_name_later(self) -> None:
        server = self.server(("*", MASTER))
        with bossd.Client(server.address, key=MASTER, as_="page") as client:
            client.read("air.damper")
            # The connection is page's, so this makes another one.
            client.attach("operator")
            # And this would end that one, and what it holds.
            with self.assertRaises(bossd.Already) as caught:
                client.attach("comfort")
            self.assertEqual(caught.exception.process, "operator")
            client.read("air.damper")
        self.assertEqual(server.shown, ["page", "operator"])

    def test_a_first_line_that_is_too_long_with_it(self) -> None:
        server = self.server(("page", KEY))
        with bossd.Client(server.address, key=KEY, as_="page") as client:
            for length in (65_480, 65_000):
                request = {"op": "read", "point": "x" * length}
                if length > 65_400:
                    self.assertRaises(ValueError, client.ask, request)
                else:
                    client.ask(request)
        self.assertEqual(server.shown, ["page"])

    def test_texts_that_are_none(self) -> None:
        for text in ("1234", "x" * 31, "x" * 129, "x" * 40 + "\n", "ü" * 40, "x" * 40 + '"'):
            with self.assertRaises(ValueError) as caught:
                bossd.Client("127.0.0.1:1", key=text)
            self.assertNotIn(text, str(caught.exception))
        self.assertRaises(bossd.Malformed, bossd.Client, "127.0.0.1:1", key=KEY, as_="No Name")


def gone() -> str:
    """An address at which nobody listens."""
    with socket.create_server(("127.0.0.1", 0)) as taken:
        return f"127.0.0.1:{taken.getsockname()[1]}"


class SeveralAddresses(Case):
    """A server with keys that may be at several addresses."""

    def silent(self) -> str:
        listener = socket.create_server(("127.0.0.1", 0))
        self.addCleanup(listener.close)
        return f"127.0.0.1:{listener.getsockname()[1]}"

    def each(self, addresses: List[str], key: str) -> List[Callable[[], object]]:
        """Each form of a client, as purge."""
        async def ask() -> None:
            async with bossd.aio.connect(",".join(addresses), "purge", key=key) as client:
                await client.read("air.damper")

        async def watch() -> None:
            async with bossd.aio.watch(addresses, "purge", key=key) as watched:
                async for _ in watched:
                    return

        def client() -> None:
            with bossd.Client(addresses, "purge", key=key) as one:
                one.read("air.damper")

        def watching() -> None:
            with bossd.watch(addresses, "purge", key=key) as watched:
                next(watched)

        return [client, watching, lambda: asyncio.run(ask()), lambda: asyncio.run(watch())]

    def test_the_one_that_serves_is_shown_the_key(self) -> None:
        server = self.server(("purge", KEY))
        for run in self.each([gone(), server.address], KEY):
            run()
        self.assertEqual(server.shown, 4 * ["purge"])

    def test_one_that_does_not_take_the_key_is_not_left_for_another_one(self) -> None:
        server, other = self.server(("purge", KEY)), self.server(("purge", OTHER))
        for run in self.each([server.address, other.address], OTHER):
            self.assertRaises(bossd.WrongKey, run)
        self.assertEqual((len(server.heard), other.heard), (4, []))

    def test_a_silent_one_is_left_for_one_that_wants_a_key_which_is_not_shown_before(self) -> None:
        for place in range(4):
            server, silent = self.server(("purge", KEY)), self.silent()
            with mock.patch("bossd._session.LOOK", 0.3), mock.patch("bossd._session.REACH", SECONDS):
                self.each([silent, server.address], KEY)[place]()
            question, shown = server.firsts()
            self.assertEqual((question, shown["key"]), ({"op": "version"}, KEY))

    def test_what_is_no_server_is_not_gone_to(self) -> None:
        from bossd._addresses import is_answer
        told = {b'{"error":"wrong-key"}\n': True, b'{"error":"stopped"}\n': True, b'{"error":"busy"}\n': False, b"": False, b"220 mail\n": False}
        self.assertEqual({line: is_answer(line) for line in told}, told)


class Watched(Case):
    """The server that bossd-elected watches."""

    def question(self, server: Keyed, key: Optional[str]) -> "_elect.Question":
        own = None if key is None else _elect.OwnKey(_keys.key_in(self.file("elected.key", key), may_be_empty=True), "elected")
        asked = _elect.Question(server.address, _elect.now(), own)
        self.addCleanup(asked._drop)
        return asked

    def ask(self, question: "_elect.Question", server: Keyed, lines: int) -> None:
        """Asks, until it was answered so many lines."""
        def is_done() -> bool:
            question.ask(_elect.now())
            return sum(map(len, server.heard)) >= lines and not question._is_open
        self.until(is_done)

    def test_it_is_asked_with_a_key_over_a_connection_that_stays(self) -> None:
        server = self.server(("elected", KEY))
        question = self.question(server, KEY)
        with mock.patch("bossd.ctl._elect.ASKED", 0.1):
            self.ask(question, server, 3)
        self.assertEqual([[json.loads(line) for line in lines] for lines in server.heard],
                         [[{"op": "version", "as": "elected", "key": KEY}, {"op": "version"}, {"op": "version"}]])
        self.assertEqual((question.has_answered, question.is_stopped), (True, False))

    def test_one_that_stopped_says_so_to_whoever_has_a_key(self) -> None:
        server = self.server(("elected", KEY))
        question = self.question(server, KEY)
        with mock.patch.dict(globals(), answer_of=lambda asked: {"error": "stopped"}):
            self.ask(question, server, 1)
        self.assertTrue(question.is_stopped)

    def test_one_that_takes_no_key_is_alive(self) -> None:
        server = self.server(("elected", KEY))
        for key, words in ((None, "a key that is right:"), ("\n", "for elected:"), (OTHER, "for elected:")):
            question, count, said = self.question(server, key), len(server.heard), io.StringIO()
            with mock.patch("bossd.ctl._elect.ASKED", 0.1), contextlib.redirect_stderr(said):
                self.ask(question, server, count + 3)
            self.assertEqual((len(server.heard), question.has_answered, question.is_dead(_elect.now())), (count + 3, True, False))
            self.assertEqual((said.getvalue().count("wants a key"), words in said.getvalue(), KEY in said.getvalue()), (1, True, False))

    def test_the_environment_names_it(self) -> None:
        path = self.file("elected.key", KEY)
        with mock.patch.dict(os.environ, {"BOSSD_KEY": "", "BOSSD_AS": ""}):
            self.assertIsNone(_elect.key_of())
        with mock.patch.dict(os.environ, {"BOSSD_KEY": path, "BOSSD_AS": "elected"}):
            own = _elect.key_of()
            assert own is not None
            self.assertEqual(json.loads(own.line()), {"op": "version", "as": "elected", "key": KEY})
            os.remove(path)
            self.assertEqual(json.loads(own.line()), {"op": "version"})
            with self.assertRaises(_elect.Fault):
                _elect.key_of()
        with mock.patch.dict(os.environ, {"BOSSD_KEY": self.file("elected.key", KEY, 0o644), "BOSSD_AS": ""}):
            with self.assertRaises(_elect.Fault) as caught:
                _elect.key_of()
        self.assertEqual((caught.exception.status, KEY in caught.exception.why), (2, False))


class Secret(Case):
    """A key stands in no text that a program writes of what went wrong."""

    def see_hidden(self, error: BaseException) -> None:
        texts = ["".join(traceback.format_exception(type(error), error, error.__traceback__)), repr(error), str(error)]
        texts += [repr(getattr(error, "request", None)), repr(pickle.loads(pickle.dumps(error)))]
        for text in texts:
            self.assertNotIn(KEY, text)

    def raised(self, run: Callable[[], object], *kinds: type) -> BaseException:
        try:
            run()
        except BaseException as error:
            self.assertIsInstance(error, kinds)
            self.see_hidden(error)
            return error
        self.fail("nothing was raised")

    def test_errors(self) -> None:
        server = self.server(("purge", OTHER))
        self.raised(lambda: bossd.Client(server.address, "purge", key=KEY), bossd.WrongKey)
        self.raised(lambda: next(bossd.watch(server.address, "purge", key=KEY)), bossd.WrongKey)
        server.close()
        self.raised(lambda: bossd.Client(server.address, "purge", 0.3, key=KEY), bossd.Unanswered)
        self.raised(lambda: next(bossd.watch(server.address, "purge", 1, 0.3, key=KEY)), bossd.Unanswered)

        async def ask() -> None:
            await bossd.aio.connect(server.address, "purge", 0.3, key=KEY)

        self.raised(lambda: asyncio.run(ask()), bossd.Unanswered)

    def test_a_request_that_has_one_itself(self) -> None:
        text = str(bossd.Unanswered({"op": "read", "point": "air.damper", "key": KEY}))
        self.assertNotIn(KEY, text)
        self.assertIn("air.damper", text)

    def test_a_request_that_is_not_answered(self) -> None:
        silent = socket.create_server(("127.0.0.1", 0))
        self.addCleanup(silent.close)
        address = f"127.0.0.1:{silent.getsockname()[1]}"
        with bossd.Client(address, patience=0.5, key=KEY, as_="page") as client:
            self.raised(lambda: client.read("air.damper"), bossd.Unanswered)

    def test_steps(self) -> None:
        from bossd._session import Course, Send, Session
        session = Session("127.0.0.1:1", 1.0, key=KEY)
        course = Course(session, session._opening("purge"), 0.0)
        course.came(None, 0.0)
        assert isinstance(course.step, Send)
        self.assertIn(KEY.encode(), course.step.data)
        self.assertNotIn(KEY, repr(course.step))
        self.assertNotIn(KEY, repr(session) + repr(vars(session)))
        course.failed(KeyboardInterrupt(), 0.0)
        self.assertRaises(KeyboardInterrupt, course.came, None, 0.0)

    def test_log(self) -> None:
        mock.patch.stopall()
        server = self.server(("purge", KEY))
        with self.assertLogs("bossd", logging.DEBUG) as logged, bossd.Client(server.address, "purge", key=KEY) as client:
            server.cut()
            client.read("air.damper")
        self.assertTrue(logged.output)
        self.assertNotIn(KEY, "".join(logged.output))


class Files(Case):
    def test_a_file_of_a_key(self) -> None:
        path = self.file("purge.key", KEY + "\n")
        self.assertEqual(bossd.key_in(path)(), KEY)
        server = self.server(("purge", KEY), ("purge", OTHER))
        with bossd.Client(server.address, "purge", key=bossd.key_in(path)) as client:
            # A new key is shown by the next connection, without a restart of the program.
            self.file("purge.key", OTHER + "\n")
            server.cut()
            client.read("air.damper")
        self.assertEqual([one["key"] for one in server.firsts()], [KEY, OTHER])

    def test_files_that_others_may_read(self) -> None:
        for mode in (0o640, 0o604, 0o644, 0o660, 0o620, 0o601):
            path = self.file("purge.key", KEY, mode)
            with self.assertRaises(bossd.KeyRefused) as caught:
                bossd.key_in(path)
            self.assertIn("others than its owner", str(caught.exception))
            self.assertNotIn(KEY, str(caught.exception))
        for mode in (0o600, 0o400):
            self.file("purge.key", KEY, 0o600)
            os.chmod(path, mode)
            self.assertEqual(bossd.key_in(path)(), KEY)

    def test_a_credential_of_a_unit(self) -> None:
        # Its mode may tell of the unit's user in the place of the group.
        path = self.file("key", KEY, 0o440)
        self.assertRaises(bossd.KeyRefused, bossd.key_in, path)
        with mock.patch.dict(os.environ, {"CREDENTIALS_DIRECTORY": self.folder}):
            self.assertEqual(bossd.key_in(path)(), KEY)
            os.chmod(path, 0o444)
            self.assertRaises(bossd.KeyRefused, bossd.key_in, path)

    def test_files_that_have_none(self) -> None:
        for text in ("", "1234\n", KEY + " " + KEY, "x" * 5_000):
            self.assertRaises(bossd.KeyRefused, bossd.key_in, self.file("purge.key", text))
        self.assertRaises(bossd.KeyRefused, bossd.key_in, self.folder if os.name != "posix" else "/dev/null")
        self.assertRaises(FileNotFoundError, bossd.key_in, os.path.join(self.folder, "none"))
        # For a unit, whose credential is empty where nobody put a key there.
        empty = bossd.key_in(self.file("purge.key", "\n"), may_be_empty=True)
        self.assertIsNone(empty())
        server = self.server()
        with bossd.Client(server.address, "purge", key=empty):
            pass
        self.assertEqual(server.firsts(), [{"op": "attach", "process": "purge"}])

    def test_a_file_that_is_gone_for_a_moment(self) -> None:
        path = self.file("purge.key", KEY)
        server = self.server(("purge", KEY))
        with bossd.Client(server.address, "purge", key=bossd.key_in(path)) as client:
            os.remove(path)
            server.cut()
            threading.Timer(0.5, self.file, ("purge.key", KEY)).start()
            self.assertEqual(client.read("air.damper").value, 20_000)

    def test_new_keys(self) -> None:
        made = {_keys.new_key() for _ in range(100)}
        self.assertEqual(len(made), 100)
        for key in made:
            self.assertRegex(key, r"\Abk1_[A-Za-z0-9_-]{43}\Z")
            self.assertTrue(_keys.is_key(key))
        self.assertEqual(_keys.digest_of("test"), "9f86d081884c7d659a2feaa0c55ad015a3bf4f1b2b0b822cd15d6c15b0f00a08")


class Terminal(Case):
    def run_ctl(self, *words: str) -> Tuple[int, str, str]:
        told, said = io.StringIO(), io.StringIO()
        with contextlib.redirect_stdout(told), contextlib.redirect_stderr(said), mock.patch("sys.stdout.fileno", return_value=1, create=True):
            try:
                status = main(list(words))
            except SystemExit as end:
                status = int(end.code or 0)
        return status, told.getvalue(), said.getvalue()

    def test_a_key_is_made(self) -> None:
        path = os.path.join(self.folder, "comfort.key")
        before = os.umask(0)
        try:
            status, told, said = self.run_ctl("key", "comfort", "--file", path)
        finally:
            os.umask(before)
        self.assertEqual(status, 0)
        self.assertEqual(stat.S_IMODE(os.stat(path).st_mode), 0o600)
        with open(path) as file:
            key = file.read().strip()
        self.assertRegex(key, r"\Abk1_[A-Za-z0-9_-]{43}\Z")
        self.assertEqual(told, f'[[key]]\nprocess = "comfort"\nsha256 = "{_keys.digest_of(key)}"\n')
        self.assertNotIn(key, told + said)
        # Never over one that is there.
        self.assertEqual(self.run_ctl("key", "comfort", "--file", path)[0], 1)
        with open(path) as file:
            self.assertEqual(file.read().strip(), key)
        os.symlink(os.path.join(self.folder, "nowhere"), os.path.join(self.folder, "link"))
        self.assertEqual(self.run_ctl("key", "comfort", "--file", os.path.join(self.folder, "link"))[0], 1)
        self.assertFalse(os.path.exists(os.path.join(self.folder, "nowhere")))
        # What is made is known by what is told.
        self.assertEqual(_lint.lint(self.catalogue(), keys=self.file("keys.toml", told)), [])
        status, told, _ = self.run_ctl("key", "night-*", "--file", os.path.join(self.folder, "night.key"), "--json")
        self.assertEqual((status, json.loads(told)["process"]), (0, "night-*"))

    def test_names_that_are_none(self) -> None:
        for words in (["Comfort"], ["a b"], ["*"], ["bossctl*"], ["*x", "--file", "x"]):
            self.assertEqual(self.run_ctl("key", *words)[0], 2, words)

    def catalogue(self) -> str:
        return self.file("plant.toml", 'drivers = ["air"]\n[[point]]\nname = "air.damper"\ndriver = "air"\nkind = "binary"\ndefault = 0\n')

    def test_questions(self) -> None:
        server = self.server(("bossctl*", KEY))
        path = self.file("bossctl.key", KEY)
        status, told, said = self.run_ctl("points", "--server", server.address, "--key", path)
        self.assertEqual((status, "air.damper" in told), (0, True), said)
        with mock.patch.dict(os.environ, {"BOSSD_KEY": path}):
            self.assertEqual(self.run_ctl("status", "--server", server.address)[0], 0)
            self.assertEqual(self.run_ctl("point", "air.damper", "--server", server.address)[0], 0)
        self.assertEqual(set(server.shown), {"bossctl"})
        status, _, said = self.run_ctl("points", "--server", server.address)
        self.assertEqual((status, "wrong-key" in said), (1, True))
        status, _, said = self.run_ctl("status", "--server", server.address, "--key", self.file("other.key", OTHER))
        self.assertEqual((status, "wrong-key: the server has no such key for bossctl" in said), (1, True))
        self.assertNotIn(OTHER, said)

    def test_several_addresses(self) -> None:
        server, nobody = self.server(("bossctl*", KEY)), gone()
        where, path = f"{nobody},{server.address}", self.file("bossctl.key", KEY)
        status, told, said = self.run_ctl("status", "--server", where, "--key", path)
        self.assertEqual(status, 0, said)
        self.assertIn(f"{server.address} answers", told.splitlines()[0])
        self.assertEqual(told.splitlines()[1], f"{nobody} does not answer: nobody listens there: does bossd run?")
        self.assertEqual(self.run_ctl("points", "--server", where, "--key", path)[0], 0)
        self.assertEqual(set(server.shown), {"bossctl"})
        for command in ("status", "points"):
            status, told, said = self.run_ctl(command, "--server", where, "--key", self.file("other.key", OTHER))
            self.assertEqual((status, told, "wrong-key: the server has no such key for bossctl" in said), (1, "", True))

    def test_a_name_of_its_own(self) -> None:
        server = self.server(("anna", KEY))
        path = self.file("anna.key", KEY)
        self.assertEqual(self.run_ctl("points", "--server", server.address, "--key", path, "--as", "anna")[0], 0)
        with mock.patch.dict(os.environ, {"BOSSD_KEY": path, "BOSSD_AS": "anna"}):
            self.assertEqual(self.run_ctl("faults", "--server", server.address)[0], 0)
        self.assertEqual(set(server.shown), {"anna"})

    def test_the_next_name_where_one_is_taken(self) -> None:
        server = self.server(("bossctl*", KEY))
        server.taken = ["bossctl", "bossctl-2"]
        from bossd.ctl import _live
        with mock.patch("bossd._session.PARTING", 0.0), bossd.Client(server.address, key=KEY, as_="bossctl") as client:
            client.version()
            _live.attach(client, None)
            self.assertEqual(client.process, "bossctl-3")
        self.assertEqual(server.shown, ["bossctl", "bossctl-2", "bossctl-3"])

    def test_files_that_are_not_taken(self) -> None:
        server = self.server(("bossctl", KEY))
        path = self.file("bossctl.key", KEY, 0o644)
        status, told, said = self.run_ctl("points", "--server", server.address, "--key", path)
        self.assertEqual((status, told), (1, ""))
        self.assertEqual(said, f"bossctl: {path}: others than its owner may read it, so it is not taken: chmod 600 {path}\n")
        self.assertEqual(self.run_ctl("points", "--server", server.address, "--key", os.path.join(self.folder, "none"))[0], 1)
        # A key as a word is seen by others, and is not said again.
        status, told, said = self.run_ctl("points", "--server", server.address, "--key", KEY)
        self.assertEqual((status, KEY in told + said, "the name of a file" in said), (1, False, True))
        self.assertEqual(server.heard, [])
        # What asks no server wants no key.
        with mock.patch.dict(os.environ, {"BOSSD_KEY": path}):
            self.assertEqual(self.run_ctl("lint", self.catalogue())[0], 0)


class Overrides(Case):
    """bossd-overrides, which holds what people set."""

    def begin(self, server: Keyed, *words: str) -> "subprocess.Popen[str]":
        command = [sys.executable, "-m", "bossd.overrides", server.address, "--file", os.path.join(self.folder, "overrides.json"), "--socket",
                   os.path.join(self.folder, "socket"), *words]
        service = subprocess.Popen(command, cwd=os.path.dirname(os.path.abspath(__file__)), stderr=subprocess.PIPE, text=True)
        self.addCleanup(lambda: (service.kill(), service.communicate()))
        return service

    def mode(self) -> int:
        return stat.S_IMODE(os.stat(os.path.join(self.folder, "socket")).st_mode)

    def test_it_shows_the_key_of_its_process(self) -> None:
        server = self.server(("people", KEY))
        self.begin(server, "--key", self.file("people.key", KEY))
        self.until(lambda: server.shown == ["people"])
        # Who asks over its socket shows no key, so it is not for everybody.
        self.assertEqual(self.mode(), 0o660)

    def test_without_one_it_is_as_before(self) -> None:
        server = self.server()
        self.begin(server, "--key", self.file("people.key", "\n"))
        self.until(server.firsts)
        self.assertEqual((server.firsts()[0], self.mode()), ({"op": "attach", "process": "people"}, 0o666))

    def test_one_that_is_not_taken_ends_it(self) -> None:
        for key, mode, words in ((OTHER, 0o600, "no such key for people"), (KEY, 0o640, "others than its owner")):
            service = self.begin(self.server(("people", KEY)), "--key", self.file("people.key", key, mode))
            _, said = service.communicate(timeout=SECONDS)
            self.assertEqual((service.returncode, words in said, key in said), (1, True, False), said)


RULES = """[[rule]]
process = "comfort"
point = "*"
[[rule]]
process = "night-*"
point = "*"
"""


class Linting(Case):
    def found(self, keys: str, rules: Optional[str] = None) -> List[Tuple[Optional[int], str, str, str, bool]]:
        plant = self.file("plant.toml", 'drivers = ["air"]\n[[point]]\nname = "air.damper"\ndriver = "air"\nkind = "binary"\ndefault = 0\n')
        rules = None if rules is None else self.file("rules.toml", rules)
        return [(one.line, one.table, one.key, one.found, one.is_mistake) for one in _lint.lint(plant, rules, None, self.file("keys.toml", keys))]

    @staticmethod
    def table(process: str, key: str = KEY) -> str:
        return f'[[key]]\nprocess = "{process}"\nsha256 = "{_keys.digest_of(key)}"\n'

    def test_what_is_fine(self) -> None:
        self.assertEqual(self.found(self.table("comfort")), [])
        self.assertEqual(self.found(self.table("comfort") + self.table("comfort", OTHER) + self.table("night-1", MASTER), RULES), [])
        self.assertEqual(self.found("key = []\n"), [])

    def test_tables_that_are_none(self) -> None:
        good = self.table("comfort")
        digest = _keys.digest_of(OTHER)
        for table, line, key, found in [
            (f'[[key]]\nprocess = "Comfort"\nsha256 = "{digest}"\n', 5, "process", '"Comfort"'),
            (f'[[key]]\nsha256 = "{digest}"\n', 4, "process", "nothing"),
            ('[[key]]\nprocess = "a"\n', 4, "sha256", "nothing"),
            (f'[[key]]\nprocess = "a"\nsha256 = "{digest[1:]}"\n', 6, "sha256", None),
            (f'[[key]]\nprocess = "a"\nsha256 = "{digest.upper()}"\n', 6, "sha256", None),
            (f'[[key]]\nprocess = "a"\nsha256 = "{digest}"\nnote = "x"\n', 7, "note", "a key that nothing reads"),
        ]:
            (where, name, at, what, is_mistake), = self.found(good + table)
            self.assertEqual((where, name, at, is_mistake), (line, "key 2", key, True), table)
            self.assertIn(found, (what, None))
        (_, _, key, found, is_mistake), = self.found("")
        self.assertEqual((key, found, is_mistake), ("key", "nothing", True))
        self.assertIn("[key] again", [found for _, _, _, found, _ in self.found(good.replace("[[key]]", "[key]") * 2)])
        self.assertIn((1, "", "key", "513 of them", True), self.found("".join(self.table(f"p{place}", f"{place:040}") for place in range(513))))

    def test_reserve(self) -> None:
        good = self.table("comfort")
        for number in ("0", "4", "1_024"):
            self.assertEqual(self.found(f"reserve = {number}\n" + good), [])
        for value, found in (("1_025", "1025"), ("-1", "-1"), ('"4"', '"4"'), ("4.0", "4.0"), ("true", "true"), ("[4]", "an array of 1")):
            self.assertEqual(self.found(f"# workers\nreserve = {value}\n" + good), [(2, "", "reserve", found, True)])
        # Below a header it is a key of that table, whose other keys are fine.
        self.assertEqual(self.found(good + "reserve = 4\n"), [(4, "key 1", "reserve", "a key of the file in this table", True)])
        self.assertEqual(self.found(good + self.table("page", OTHER) + "\nreserve = 4\n"),
                         [(8, "key 2", "reserve", "a key of the file in this table", True)])
        for key in ("reserved", "reserves", "Reserve", "resrve"):
            self.assertEqual(self.found(f"{key} = 4\n" + good), [(1, "", key, "a key that nothing reads", True)], key)
        (_, _, key, _, is_mistake), = self.found("title = 1\n" + good)
        self.assertEqual((key, is_mistake), ("title", False))

    def test_what_is_odd(self) -> None:
        self.assertEqual(self.found(self.table("*")), [(2, "key 1", "process", '"*", whose key is right for every name', False)])
        self.assertEqual(self.found(self.table("comfort") + self.table("night-1", OTHER) + self.table("page", MASTER), RULES),
                         [(8, "key 3", "process", '"page", which no rule lets write', False)])
        self.assertEqual(self.found(self.table("comfort"), RULES), [(5, "rule 2", "process", '"night-*", for which there is no key', False)])
        self.assertEqual(self.found(self.table("comfort") + self.table("night-1"), RULES),
                         [(6, "key 2", "sha256", "the digest of key 1 again", False)])


if __name__ == "__main__":
    unittest.main()
