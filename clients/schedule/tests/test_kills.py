"""A week of the example at 600 times the speed, over a served program and a journal on files; the schedule, the server and the connections
between are killed, stopped and cut at random, each by its own id."""

import os
import random
import signal
import subprocess
import tempfile
import time
import unittest

from .common import DEFAULTS, PATIENCE, PLANT, SCHEDULE, SECOND, WEEK, Relay, at, bossd, eventually, tools

from bossd_schedule.catalogue import now
from bossd_schedule.main import taken_file
from bossd_schedule.week import decide

SPEED, LEASE, HOLD, BACK = 600, 3 * SECOND, SECOND, SECOND
START = at("2028-03-24T05:00")                          # a Friday; the clock goes forward on the Sunday
SLOTS = ("air.damper", "air.fan", "air.heating", "hall.lamp", "office.lamp")


class Kills(unittest.TestCase):
    def setUp(self):
        folder = tempfile.TemporaryDirectory()
        self.addCleanup(folder.cleanup)
        self.server = tools.Server(PLANT, os.path.join(folder.name, "journal"), workers=6)
        self.server.start()
        self.addCleanup(self.server.stop)
        self.relay = Relay(self.server.port)
        self.addCleanup(self.relay.close)
        self.schedule, self.plays = None, taken_file(WEEK).plays
        self.began = now()
        self.start()
        self.addCleanup(self.kill)

    # -- the parts

    def start(self):
        words = [WEEK, self.relay.address, str(SPEED), str(self.began), str(START), str(LEASE), str(HOLD)]
        self.schedule = subprocess.Popen(["/usr/bin/python3", "-m", "tests.fast", *words], cwd=SCHEDULE, stderr=subprocess.DEVNULL)

    def kill(self):
        if self.schedule.poll() is None:
            self.schedule.send_signal(signal.SIGKILL)
        self.schedule.wait()

    def moment(self):
        return START + (now() - self.began) * SPEED

    # -- what is so

    def wanted(self):
        found = dict(DEFAULTS)
        for play in self.plays:
            found.update({point: want.value for point, want in decide(play.programme, self.moment()).wants.items()})
        return found

    def values(self):
        with bossd.Client(self.server.address, patience=PATIENCE) as client:
            return {answer["point"]: answer["value"] for answer in client.ask_all([{"op": "read", "point": point} for point in DEFAULTS])}

    def ends(self):
        """When what stands in each slot ends, by the server."""
        with bossd.Client(self.server.address, patience=PATIENCE) as client:
            slots = [client.array(point).slots.get(16) for point in SLOTS]
        return [slot.until or slot.end for slot in slots if slot is not None]

    def is_as_wanted(self):
        before = self.wanted()
        return self.values() == before == self.wanted()

    def settles(self, what):
        self.assertTrue(eventually(self.is_as_wanted), (what, self.values(), self.wanted()))

    # -- what is done to them

    def kill_the_schedule(self, chance):
        self.kill()
        # It died at the latest now: by the server's own numbers nothing stands longer than this.
        self.assertLessEqual(max(self.ends(), default=0), now() + LEASE + HOLD + BACK)
        time.sleep(chance.choice((0, 0.5, 2)))
        self.start()

    def kill_the_server(self, chance):
        self.server.kill()
        time.sleep(chance.choice((0, 0.5, 4)))
        self.server.start()

    def cut_the_connections(self, chance):
        for _ in range(chance.choice((1, 3))):
            self.relay.cut()
            time.sleep(chance.choice((0.05, 0.3)))

    def stop_the_schedule(self, chance):
        """It hangs, its connection open: what it holds runs out."""
        self.schedule.send_signal(signal.SIGSTOP)
        stopped = now()
        time.sleep(chance.choice((0.5, 3.5)))
        # Of a lease the end is told; the reversion that may follow it has `hold`, and then the way back.
        self.assertLessEqual(max(self.ends(), default=0), stopped + LEASE + HOLD + BACK)
        self.schedule.send_signal(signal.SIGCONT)

    def test_at_random(self):
        for seed in (1, 2):
            chance = random.Random(seed)
            for number in range(8):
                what = chance.choice((self.kill_the_schedule, self.kill_the_server, self.cut_the_connections, self.stop_the_schedule))
                what(chance)
                if chance.random() < 0.4:                       # two at once
                    chance.choice((self.kill_the_server, self.cut_the_connections))(chance)
                self.settles((seed, number, what.__name__))

    def test_what_a_dead_one_held_is_let_go(self):
        self.settles("start")
        self.kill()
        died = now()
        self.assertTrue(eventually(lambda: self.values() == DEFAULTS))
        self.assertEqual(self.ends(), [])
        with bossd.Client(self.server.address) as client:
            told = client.notices("schedule", 1, 64)
            while len(told.list) == 64:
                told = client.notices("schedule", told.list[-1].n + 1, 64)
        # By the server's clock: its leases ended with the connection, and after `hold` and the way back all was over.
        self.assertLessEqual(max(one.at for one in told.list), died + LEASE + HOLD + BACK)

    def test_one_that_hangs_lets_go(self):
        self.settles("start")
        self.schedule.send_signal(signal.SIGSTOP)
        stopped = now()
        self.assertLessEqual(max(self.ends(), default=0), stopped + LEASE)
        self.assertTrue(eventually(lambda: self.values() == DEFAULTS))
        self.schedule.send_signal(signal.SIGCONT)
        self.settles("it goes on")


if __name__ == "__main__":
    unittest.main()
