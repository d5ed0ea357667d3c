"""The program under a clock that goes faster, for trials:

    tests/fast.py FILE SERVER SPEED BEGAN MOMENT LEASE HOLD

At the moment BEGAN of the machine's clock it is MOMENT, and SPEED milliseconds pass with each. Leases are of LEASE milliseconds of the server,
and HOLD is how long what it held stays behind it; ways back go as much faster as the clock."""

import asyncio
import sys
from dataclasses import replace

from tests import common  # noqa: F401
from bossd_schedule.main import connected, say, taken_file
from bossd_schedule.catalogue import now
from bossd_schedule.running import Clock, Link, Running


class Fast(Clock):
    def __init__(self, speed, began, moment):
        self.speed, self.began, self.start = speed, began, moment

    def moment(self):
        return self.start + (now() - self.began) * self.speed

    def real(self, length):
        return length // self.speed


def hurried(play, speed, lease, hold):
    back = {point: tuple((value, max(1, length // speed)) for value, length in way) for point, way in play.back.items()}
    return replace(play, lease=lease, hold=hold, back=back)


async def run(file, server, speed, began, moment, lease, hold):
    schedule = taken_file(file)
    schedule = replace(schedule, plays=tuple(hurried(play, speed, lease, hold) for play in schedule.plays))
    client = await connected(server, schedule.process)

    async def after():
        pass

    await Running(schedule, Link(client), Fast(speed, began, moment), say).run(after)


if __name__ == "__main__":
    asyncio.run(run(*sys.argv[1:3], *map(int, sys.argv[3:])))
