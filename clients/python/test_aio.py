"""Tests of `bossd.aio` against the built program: python3 -m unittest, in this folder."""

import asyncio
import os
import tempfile
import time
import unittest

import bossd
import bossd.aio
from test_bossd import CATALOGUE, MINUTE, Answering, Relay, busy, common, damper, denying


class Case(unittest.IsolatedAsyncioTestCase):
    def setUp(self):
        folder = tempfile.TemporaryDirectory()
        self.addCleanup(folder.cleanup)
        self.server = common.Server(CATALOGUE, os.path.join(folder.name, "journal"))
        self.server.start()
        self.addCleanup(self.server.stop)

    async def client(self, process=None, relay=None, **more):
        made = await bossd.aio.connect((relay or self.server).address, process, **more)
        self.addAsyncCleanup(made.close)
        return made


class Requests(Case):
    async def test_the_same_names(self):
        async with bossd.aio.connect(self.server.address, "a") as client:
            self.assertEqual(client.next_notice, 1)
            accepted = await client.submit([damper(revert=[(30_000, MINUTE)]), bossd.write("lamp", 1, lease=2 * MINUTE)])
            reading = await client.read("ahu1.damper")
            self.assertEqual((reading.value, reading.basis, reading.priority, reading.txn), (45_000, "lease", 8, 1))
            self.assertEqual((await client.array("ahu1.damper")).slots, {8: bossd.Slot(45_000, 1, accepted.until)})
            self.assertGreaterEqual(await client.renew(1, 3 * MINUTE), accepted.until + MINUTE)
            self.assertEqual(await client.status(1), bossd.Status(1, "a", "run", 2, 0))
            at = await client.cancel(1)
            self.assertEqual((await client.array("ahu1.damper")).slots, {8: bossd.Slot(30_000, 1, end=at + MINUTE)})
            told = await client.notices()
            self.assertEqual([notice.kind for notice in told.list], ["ended", "ended", "done"][:len(told.list)])
            with self.assertRaises(bossd.Over):
                await client.cancel(1)
        async with bossd.aio.connect(self.server.address) as other:
            self.assertEqual((await other.notices("a")).next, told.next)
            with self.assertRaises(bossd.NotAttached):
                await other.submit([damper()])
            await other.attach("a")
            self.assertEqual((await other.submit([damper()])).txn, 2)

    async def test_what_is_no_request_is_not_sent(self):
        client = await self.client("a")
        with self.assertRaises(bossd.Malformed) as caught:
            await client.submit([damper(21.5)])
        self.assertEqual(caught.exception.key, "writes[0].value")
        self.assertEqual((await client.submit([damper()])).txn, 1)
        with self.assertRaises(ValueError):
            bossd.aio.connect("127.0.0.1")
        with self.assertRaises(ConnectionError):
            await bossd.aio.connect("no-such-host.invalid:7000", patience=1)

    async def test_many_questions_have_their_answers_in_order(self):
        client = await self.client("a")
        await client.submit([damper()])
        asked = [{"op": "read", "point": ["ahu1.damper", "lamp", "door"][place % 3]} for place in range(1_000)]
        answers = await client.ask_all(asked)
        self.assertEqual([answer["point"] for answer in answers if isinstance(answer, dict)], ["ahu1.damper", "lamp"] * 333 + ["ahu1.damper"])

    async def test_tasks_share_a_client(self):
        client = await self.client("a")
        points = ["ahu1.damper", "lamp", "fan"]
        accepted = await asyncio.gather(*(client.submit([bossd.write(points[place % 3], 1, lease=MINUTE)]) for place in range(30)))
        self.assertEqual(sorted(it.txn for it in accepted), list(range(1, 31)))

    async def test_a_cancelled_call_is_made_and_leases_stand(self):
        client = await self.client("a")
        await client.submit([damper(lease=60 * MINUTE)])
        for _ in range(20):
            call = asyncio.ensure_future(client.submit([bossd.write("lamp", 1, lease=MINUTE)]))
            await asyncio.sleep(0)
            call.cancel()
            with self.assertRaises(asyncio.CancelledError):
                await call
        self.assertEqual((await client.status(1)).live, 1)
        self.assertEqual((await client.submit([bossd.write("fan", 2, lease=MINUTE)])).txn, 22)

    async def test_nobody_answers(self):
        client = await self.client("a", patience=0.5)
        self.server.kill()
        with self.assertRaises(bossd.Unanswered) as caught:
            await client.submit([damper()])
        self.server.start()
        self.assertEqual((await client.ask(caught.exception.request))["txn"], 1)
        self.assertEqual((await client.submit([damper()])).txn, 2)
        self.assertEqual(client.attachments, 2)

    async def test_made_once(self):
        for loses, live in [("line", 1), ("answer", 0)]:
            relay = Relay(self.server, "submit", loses)
            self.addCleanup(relay.listener.close)
            client = await self.client(f"a-{loses}", relay)
            txn = (await client.submit([damper()])).txn
            self.assertEqual(relay.cuts, 1)
            self.assertEqual((await client.status(txn)).live, live)
            self.assertEqual((await client.submit([bossd.write("fan", 2, lease=MINUTE)])).txn, txn + 1)


class Holding(Case):
    async def test_a_lease_is_kept_alive_and_released(self):
        client = await self.client("a")
        async with client.hold([damper(lease=1_500), bossd.write("lamp", 1, lease=MINUTE)]) as held:
            self.assertFalse(await held.wait(4))
            self.assertEqual(((await client.status(held.txn)).live, held.ended), (2, None))
        self.assertEqual((await client.status(held.txn)).stage, "done")

    async def test_it_ends_with_the_reason(self):
        client, other = await self.client("a"), await self.client("b")
        held = await client.hold([damper(lease=500)])
        await other.submit([damper(50_000)])
        self.assertTrue(await held.wait(5))
        self.assertEqual((held.ended.cause, held.ended.by), ("superseded", 2))
        await held.release()

    async def test_it_outlives_the_server(self):
        client = await self.client("a")
        held = await client.hold([damper(lease=3_000)])
        await asyncio.to_thread(self.restart)
        self.assertFalse(await held.wait(5))
        self.assertEqual(((await client.status(held.txn)).stage, held.ended), ("run", None))

    def restart(self):
        self.server.kill()
        self.server.start()


class Watching(Case):
    async def test_each_notice_comes_once_and_in_order(self):
        client = await self.client("a")
        watched = bossd.aio.watch(self.server.address, "a")
        self.addCleanup(watched.close)
        await client.submit([damper()])
        await client.cancel(1)
        self.assertEqual([(await watched.__anext__()).kind for _ in range(2)], ["ended", "done"])
        self.server.kill()
        self.server.start()
        await client.submit([damper(lease=300)])
        told = [await watched.__anext__() for _ in range(2)]
        self.assertEqual([(notice.n, notice.txn, notice.kind, notice.cause) for notice in told],
                         [(3, 2, "ended", "expired"), (4, 2, "done", None)])

    async def test_it_is_stopped(self):
        watched = bossd.aio.watch(self.server.address, "nobody-yet")
        asyncio.get_running_loop().call_later(0.5, watched.close)
        began = time.monotonic()
        self.assertEqual([notice async for notice in watched], [])
        self.assertLess(time.monotonic() - began, 5)

    async def test_a_wait_for_a_notice_is_given_up(self):
        client = await self.client("a")
        async with bossd.aio.watch(self.server.address, "a") as watched:
            with self.assertRaises(asyncio.TimeoutError):
                await asyncio.wait_for(watched.__anext__(), 0.5)
            await client.submit([damper(lease=1)])
            self.assertEqual([(await watched.__anext__()).n for _ in range(2)], [1, 2])

    async def test_it_says_what_is_wrong(self):
        with self.assertRaises(bossd.Malformed):
            bossd.aio.watch(self.server.address, "No Name")
        self.server.kill()
        with self.assertRaises(bossd.Unanswered):
            await bossd.aio.watch(self.server.address, "a", patience=0.5).__anext__()


class TurnedAway(unittest.IsolatedAsyncioTestCase):
    """A server with no worker for the client, for which another one stands."""

    async def test_it_is_told_when_patience_ends(self):
        server = Answering(busy)
        self.addCleanup(server.listener.close)
        with self.assertLogs("bossd", "WARNING"), self.assertRaises(bossd.Busy):
            await bossd.aio.connect(server.address, "a", patience=4)
        with self.assertLogs("bossd", "WARNING"), self.assertRaises(bossd.Busy):
            await bossd.aio.watch(server.address, "a", patience=4).__anext__()


class Denying(unittest.IsolatedAsyncioTestCase):
    """A server with access rules, for which another one stands."""

    async def test_which_write_and_which_rule(self):
        server = Answering(denying(2, 1))
        self.addCleanup(server.listener.close)
        async with bossd.aio.connect(server.address, "a") as client:
            self.assertEqual(client.process, "a")
            with self.assertRaises(bossd.Denied) as caught:
                await client.submit([damper(), bossd.write("lamp", 1, lease=MINUTE)])
            self.assertEqual((caught.exception.index, caught.exception.rule), (1, 2))
            with self.assertRaises(bossd.Denied):
                await client.hold([damper()])
            read, denied = await client.ask_all([{"op": "read", "point": "lamp"}, {"op": "submit", "writes": [damper()]}])
            self.assertEqual((read["ok"], type(denied)), ("read", bossd.Denied))
        submits = [asked.get("seq") for asked in server.asked if asked["op"] == "submit"]
        self.assertEqual(submits, [1, 2, None])


if __name__ == "__main__":
    unittest.main()
