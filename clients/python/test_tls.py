"""Tests of TLS in a client's connection, against a server that answers lines within TLS: python3 -m unittest, in this folder. They want
openssl, for the certificates; they are made as docs/INSTALL.md has it."""

import asyncio
import contextlib
import hashlib
import io
import json
import os
import shutil
import socket
import ssl
import subprocess
import tempfile
import threading
import time
import unittest
from typing import Any, Dict, List, Optional
from unittest import mock

import bossd
import bossd.aio
from bossd.ctl import main

TOP = os.path.dirname(os.path.dirname(os.path.dirname(os.path.abspath(__file__))))
CONFIGURATION = os.path.join(TOP, "packaging", "stunnel", "authority.cnf")
KEY = ["-newkey", "ec", "-pkeyopt", "ec_paramgen_curve:P-256", "-noenc"]
# For how long what has to come is waited for; a busy machine takes its time.
SECONDS = 60


def made(folder: str, name: str, kind: str, *more: str) -> None:
    """A key and a certificate of this kind, NAME.key and NAME.crt."""
    path = os.path.join(folder, name)
    subprocess.run(["openssl", "req", "-x509", "-config", CONFIGURATION, "-extensions", kind, *KEY, "-days", "2", "-subj", f"/CN={name}",
                    "-keyout", path + ".key", "-out", path + ".crt", *more], check=True, capture_output=True)


class Answering:
    """Answers lines within TLS to who shows a certificate. `ends` has for each connection how it ended: "said" where its end was said
    within TLS."""

    def __init__(self, folder: str) -> None:
        self.context = ssl.SSLContext(ssl.PROTOCOL_TLS_SERVER)
        self.context.minimum_version = ssl.TLSVersion.TLSv1_3
        self.context.load_cert_chain(os.path.join(folder, "building.crt"), os.path.join(folder, "building.key"))
        self.context.load_verify_locations(os.path.join(folder, "authority.crt"))
        self.context.verify_mode = ssl.CERT_REQUIRED
        self.ends: List[str] = []
        self.tried = 0
        self.listener = socket.create_server(("127.0.0.1", 0))
        self.address = f"127.0.0.1:{self.listener.getsockname()[1]}"
        threading.Thread(target=self._run, daemon=True).start()

    def _run(self) -> None:
        with contextlib.suppress(OSError):
            while True:
                near, _ = self.listener.accept()
                self.tried += 1
                threading.Thread(target=self._serve, args=(near,), daemon=True).start()

    def _serve(self, near: socket.socket) -> None:
        with contextlib.suppress(OSError), near:
            # An end that was not said is an error here.
            with self.context.wrap_socket(near, server_side=True, suppress_ragged_eofs=False) as link:
                self._answer(link)

    def _answer(self, link: ssl.SSLSocket) -> None:
        kept = b""
        try:
            while True:
                more = link.recv(65_536)
                if not more:
                    break
                *lines, kept = (kept + more).split(b"\n")
                link.sendall(b"".join(json.dumps(answer_of(json.loads(line))).encode() + b"\n" for line in lines))
            link.unwrap()
            self.ends.append("said")
        except OSError:
            self.ends.append("lost")


# Of the canonical text of the catalogue, as docs/FORMATS.md has it.
DIGEST = hashlib.sha256(b"d air\np air.damper air analog 0 100000 20000\n").hexdigest()


def answer_of(asked: Dict[str, Any]) -> Dict[str, Any]:
    """What a server answers, by docs/PROTOCOL.md."""
    answers: Dict[str, Dict[str, Any]] = {
        "array": {"ok": "array", "point": asked.get("point"), "default": 20_000, "slots": 16 * [None]},
        "attach": {"ok": "attached", "process": asked.get("process"), "next": 1},
        "cancel": {"error": "unknown-txn"},
        "points": {"ok": "points", "digest": DIGEST, "drivers": ["air"], "count": 1, "next": 1, "list": [
            {"point": "air.damper", "kind": "analog", "min": 0, "max": 100_000, "default": 20_000, "driver": "air"}]},
        "read": {"ok": "read", "point": asked.get("point"), "value": 20_000, "from": "default", "mark": "settled"},
        "status": {"error": "unknown-txn"},
        "version": {"ok": "version", "program": "0.3.0", "journal": 2, "points": 1, "drivers": 1, "digest": DIGEST},
        "watch": {"n": asked.get("from"), "at": 5, "txn": 1, "kind": "ended", "point": "air.damper", "cause": "expired"},
    }
    return answers[asked["op"]]


@unittest.skipUnless(shutil.which("openssl"), "there is no openssl")
class Within(unittest.TestCase):
    folder: str

    @classmethod
    def setUpClass(cls) -> None:
        folder = tempfile.TemporaryDirectory()
        cls.addClassCleanup(folder.cleanup)
        cls.folder = folder.name
        signing = ["-CA", cls.file("authority.crt"), "-CAkey", cls.file("authority.key")]
        for name in ("authority", "stranger"):
            made(cls.folder, name, "authority")
        made(cls.folder, "building", "server", *signing, "-addext", "subjectAltName=IP:127.0.0.1")
        made(cls.folder, "elsewhere", "server", *signing, "-addext", "subjectAltName=DNS:elsewhere.example")
        made(cls.folder, "office", "client", *signing)

    @classmethod
    def file(cls, name: str) -> str:
        return os.path.join(cls.folder, name)

    def setUp(self) -> None:
        self.server = Answering(self.folder)
        self.addCleanup(self.server.listener.close)
        quiet = mock.patch("bossd._session.LOG")
        quiet.start()
        self.addCleanup(quiet.stop)

    def context(self, authority: str = "authority.crt", name: Optional[str] = "office") -> ssl.SSLContext:
        if name is None:
            return bossd.tls_context(self.file(authority))
        return bossd.tls_context(self.file(authority), self.file(name + ".crt"), self.file(name + ".key"))

    def until_ended(self, how: str) -> None:
        deadline = time.monotonic() + SECONDS
        while not self.server.ends and time.monotonic() < deadline:
            time.sleep(0.02)
        self.assertEqual(self.server.ends, [how])

    def test_a_client(self) -> None:
        with bossd.Client(self.server.address, "purge", tls=self.context()) as client:
            self.assertEqual(client.read("air.damper").value, 20_000)
            self.assertEqual(len(client.ask_all([{"op": "read", "point": "air.damper"}] * 500)), 500)
        self.until_ended("said")

    def test_a_client_of_asyncio(self) -> None:
        async def ask() -> int:
            async with bossd.aio.connect(self.server.address, "purge", tls=self.context()) as client:
                return (await client.read("air.damper")).value

        self.assertEqual(asyncio.run(ask()), 20_000)
        self.until_ended("said")

    def test_watches(self) -> None:
        async def first() -> int:
            async with bossd.aio.watch(self.server.address, "purge", 7, tls=self.context()) as watched:
                async for notice in watched:
                    return notice.n
            return 0

        with bossd.watch(self.server.address, "purge", 5, tls=self.context()) as watched:
            self.assertEqual(next(watched).n, 5)
        self.assertEqual(asyncio.run(first()), 7)

    def test_a_host_that_is_not_trusted_is_asked_once(self) -> None:
        strange = self.context("stranger.crt")
        with self.assertRaisesRegex(bossd.Unanswered, "certificate verify failed"):
            bossd.Client(self.server.address, "purge", tls=strange)
        with self.assertRaisesRegex(bossd.Unanswered, "certificate verify failed"):
            next(bossd.watch(self.server.address, "purge", tls=strange))

        async def ask() -> None:
            async with bossd.aio.connect(self.server.address, "purge", tls=strange):
                pass

        with self.assertRaisesRegex(bossd.Unanswered, "certificate verify failed"):
            asyncio.run(ask())
        self.assertEqual(self.server.tried, 3)

    def test_a_host_of_another_name(self) -> None:
        self.server.context.load_cert_chain(self.file("elsewhere.crt"), self.file("elsewhere.key"))
        with self.assertRaisesRegex(bossd.Unanswered, "127.0.0.1"):
            bossd.Client(self.server.address, tls=self.context())

    def test_a_client_that_poses_as_a_server(self) -> None:
        self.server.context.load_cert_chain(self.file("office.crt"), self.file("office.key"))
        with self.assertRaisesRegex(bossd.Unanswered, "certificate verify failed"):
            bossd.Client(self.server.address, tls=self.context())

    def test_who_shows_no_certificate_is_answered_nothing(self) -> None:
        # Under TLS 1.3 the server says so behind the first request.
        with self.assertRaises(bossd.Unanswered):
            bossd.Client(self.server.address, "purge", 0.5, tls=self.context(name=None))
        self.assertEqual(self.server.ends, [])

    def run_ctl(self, *words: str) -> "tuple[int, str, str]":
        told, said = io.StringIO(), io.StringIO()
        with contextlib.redirect_stdout(told), contextlib.redirect_stderr(said), mock.patch("sys.stdout.fileno", return_value=1, create=True):
            status = main(["status", "--workers", "0", "--server", self.server.address, *words])
        return status, told.getvalue(), said.getvalue()

    def test_bossctl(self) -> None:
        shown = ["--tls", self.file("authority.crt"), "--tls-certificate", self.file("office.crt"), "--tls-key", self.file("office.key")]
        self.assertEqual(self.run_ctl(*shown)[0], 0)
        status, told, _ = self.run_ctl("--tls", self.file("stranger.crt"))
        self.assertEqual((status, "certificate verify failed" in told), (3, True))
        status, _, said = self.run_ctl("--tls", self.file("nobody.crt"))
        self.assertEqual((status, "nobody.crt" in said), (1, True))
        self.assertEqual(self.run_ctl("--tls", self.file("authority.key"))[0], 1)
        self.assertEqual(self.run_ctl("--tls-certificate", self.file("office.crt"))[0], 2)
        self.assertEqual(self.run_ctl("--tls", self.file("authority.crt"), "--tls-key", self.file("office.key"))[0], 2)

    def test_names_of_files_from_the_environment(self) -> None:
        settings = {"BOSSD_TLS": self.file("authority.crt"), "BOSSD_TLS_CERTIFICATE": self.file("office.crt"), "BOSSD_TLS_KEY": self.file("office.key")}
        with mock.patch.dict(os.environ, settings):
            self.assertEqual(self.run_ctl()[0], 0)


if __name__ == "__main__":
    unittest.main()
