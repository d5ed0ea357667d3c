"""Tests of a bridge that shows a key, before a server that knows who somebody is by keys; they need no program and no broker."""

import asyncio
import unittest

from tests import common  # noqa: F401: it says where the client is

import bossd
from bossd_mqtt.saying import Saying
from bossd_mqtt.server import Server
from test_keys import KEY, OTHER, Keyed


class Keys(unittest.TestCase):
    def reached(self, server, key):
        """Reaches a server with this key, and asks it something; then asks again over a new connection."""
        async def reach():
            one = Server(server.address, "mqtt", Saying(), key)
            await asyncio.wait_for(one.reach(), 30)
            first = await one.ask({"op": "read", "point": "air.damper"})
            one.looked()
            server.entries = []
            server.cut()
            with self.assertRaises(bossd.Unanswered) as caught:
                await one.ask({"op": "read", "point": "air.damper"})
            self.assertNotIn(KEY, str(caught.exception))
            self.assertIn("wrong-key", str(caught.exception))
            self.assertFalse(one.is_up)
            await one.close()
            return first

        return asyncio.run(reach())

    def test_it_shows_its_key_over_each_connection(self):
        server = Keyed(("mqtt", KEY), ("console", OTHER))
        self.addCleanup(server.close)
        self.assertEqual(self.reached(server, KEY)["value"], 20_000)
        self.assertEqual(server.shown, ["mqtt"])


if __name__ == "__main__":
    unittest.main()
